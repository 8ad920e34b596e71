//! Clip beside the Rust: soup, a surface wholly inside, one half inside, with ample
//! outputs; soup once more with outputs just long enough, which takes two passes.

use crate::meshes::{soup, surface, Mesh, CEILING, SIZES, UNIT};
use crate::timing::{interleaved, mesh_row, time};

pub fn rows(rounds: usize) {
    for facets in SIZES {
        row(rounds, "clip, soup", &soup(facets), true);
        row(rounds, "clip, soup, exact outputs", &soup(facets), false);
        row(
            rounds,
            "clip, wholly inside",
            &surface(facets, 0.5, 0.9),
            true,
        );
        row(
            rounds,
            "clip, half inside",
            &surface(facets, 1.0, 1.0),
            true,
        );
    }
}

fn row(rounds: usize, name: &str, mesh: &Mesh, ample: bool) {
    let eps = oracle::reference::bbox_eps(&UNIT);
    let wide = mesh.wide_facets();
    let need = oracle::need_words(mesh.vertices.len() / 3, mesh.count(), 0, 0) as usize;
    // All rooms are touched before the clock starts.
    let mut work = vec![1u64; need];
    let mut spare = vec![1u64; need];
    let mut out_vertices = vec![1.0f64; 28 * mesh.facets.len()];
    let mut out_facets = vec![1u32; 26 * mesh.facets.len()];
    if !ample {
        let reply = yongpham_library::clip(
            &mesh.vertices,
            &mesh.facets,
            &UNIT,
            eps,
            CEILING,
            &mut work,
            &mut out_vertices,
            &mut out_facets,
        );
        out_vertices.truncate(reply.values[0] as usize);
        out_facets.truncate(reply.values[1] as usize);
    }
    let mut ours = || {
        let mut reply = None;
        let taken = time(|| {
            reply = Some(yongpham_library::clip(
                &mesh.vertices,
                &mesh.facets,
                &UNIT,
                eps,
                CEILING,
                &mut work,
                &mut out_vertices,
                &mut out_facets,
            ))
        });
        assert!(
            reply.is_some_and(|reply| reply.number == 0 && reply.values[1] > 0),
            "the request is accepted and something is left"
        );
        taken
    };
    let mut rust = || {
        let (vertices, facets) = (mesh.vertices.clone(), wide.clone());
        time(|| oracle::reference::clip_mesh_to_aabb(vertices, facets, &UNIT, eps))
    };
    let mut clearing = || time(|| spare.fill(0));
    mesh_row(
        name,
        mesh.count(),
        interleaved(rounds, [&mut ours, &mut rust, &mut clearing]),
    );
}
