//! Clean beside the Rust: a surface with shared vertices, facets with vertices of
//! their own that must be welded, and, if asked for, all vertices in one cell.

use crate::meshes::{one_cell, own_vertices, surface, Mesh, CEILING, SIZES, UNIT};
use crate::timing::{interleaved, mesh_row, time};

/// Three vertices a facet, 65,536 in all.
const MOST_OWN: usize = 21_000;

pub fn rows(rounds: usize, large: bool) {
    let eps = oracle::reference::bbox_eps(&UNIT);
    for facets in SIZES {
        let shared = surface(facets, 0.5, 1.0);
        row(rounds, "clean, shared vertices", &shared, eps);
        let own = own_vertices(&surface(facets.min(MOST_OWN), 0.5, 1.0));
        row(rounds, "clean, own vertices", &own, eps);
    }
    if large {
        for count in [16_384, 65_536] {
            let name = format!("clean, {count} vertices in one cell, eps 0");
            row(rounds, &name, &one_cell(count), 0.0);
        }
    }
}

fn row(rounds: usize, name: &str, mesh: &Mesh, eps: f64) {
    let wide = mesh.wide_facets();
    let need = oracle::need_words(mesh.vertices.len() / 3, mesh.count(), 0, 0) as usize;
    let mut work = vec![1u64; need];
    let mut spare = vec![1u64; need];
    let mut out_vertices = vec![1.0f64; mesh.vertices.len()];
    let mut out_facets = vec![1u32; mesh.facets.len()];
    let mut ours = || {
        let mut reply = None;
        let taken = time(|| {
            reply = Some(yongpham_library::clean(
                &mesh.vertices,
                &mesh.facets,
                eps,
                CEILING,
                &mut work,
                &mut out_vertices,
                &mut out_facets,
            ))
        });
        let kept = reply.map(|reply| (reply.number, reply.values[1]));
        assert_eq!(
            kept,
            Some((0, mesh.facets.len() as u64)),
            "every facet stays"
        );
        taken
    };
    let mut rust = || {
        let (vertices, facets) = (mesh.vertices.clone(), wide.clone());
        time(|| oracle::reference::clean_mesh(vertices, facets, eps))
    };
    let mut clearing = || time(|| spare.fill(0));
    mesh_row(
        name,
        mesh.count(),
        interleaved(rounds, [&mut ours, &mut rust, &mut clearing]),
    );
}
