//! Caps beside the Rust: a surface across the box and a triangulation of each face,
//! up to 300,000 supplied triangles; 1,000,000 if asked for, which takes minutes.

use crate::meshes::{surface, Mesh, CEILING, SIZES, UNIT};
use crate::timing::{interleaved, mesh_row, time};
use crate::triangulation::sound_list;

pub fn rows(rounds: usize, large: bool) {
    for facets in SIZES {
        for segments in [16, 64] {
            row(rounds, segments, &surface(facets, 0.5, 1.0), 0);
        }
    }
    row(rounds, 157, &surface(SIZES[1], 0.5, 1.0), 0);
    if large {
        row(rounds, 256, &surface(SIZES[1], 0.5, 1.0), 1_000_000);
    }
}

/// A triangulation of the candidates; the last triangles are given again until
/// there are `at_least`.
fn list(mesh: &Mesh, resolution: f64, eps: f64, at_least: usize) -> Vec<u64> {
    let wide = mesh.wide_facets();
    let grid = oracle::grid_points(&oracle::segments(&UNIT, resolution, eps));
    let need = oracle::need_words(mesh.vertices.len() / 3, mesh.count(), 0, grid);
    let mut work = vec![0; need as usize];
    let lengths = oracle::reference::cap_candidates(&mesh.vertices, &wide, &UNIT, resolution, eps);
    let mut lists = lengths.map(|length| vec![0; length]);
    let [c, l, k, e] = &mut lists;
    let reply = oracle::candidates(
        &mesh.vertices,
        &mesh.facets,
        &UNIT,
        eps,
        resolution,
        CEILING,
        &mut work,
        c,
        l,
        k,
        e,
    );
    assert_eq!(reply.number, 0);
    let mut list = sound_list(&lists);
    let again = at_least.saturating_sub(list.len());
    let last_face: Vec<_> = list.iter().copied().filter(|cap| cap[0] == 5).collect();
    list.extend(last_face.iter().cycle().take(again));
    list.concat()
}

fn row(rounds: usize, segments: usize, mesh: &Mesh, at_least: usize) {
    let eps = oracle::reference::bbox_eps(&UNIT);
    let resolution = 1.0 / segments as f64;
    let caps = list(mesh, resolution, eps, at_least);
    let count = caps.len() / 4;
    let supplied: Vec<oracle::reference::SuppliedTri> = caps
        .chunks_exact(4)
        .map(|cap| {
            (
                cap[0] as usize,
                [cap[1], cap[2], cap[3]].map(|id| id as usize),
            )
        })
        .collect();
    let wide = mesh.wide_facets();
    let grid = oracle::grid_points(&oracle::segments(&UNIT, resolution, eps));
    let need = oracle::need_words(mesh.vertices.len() / 3, mesh.count(), count, grid) as usize;
    let mut work = vec![1u64; need];
    let mut out_vertices = vec![1.0f64; mesh.vertices.len() + 9 * count];
    let mut out_facets = vec![1u32; mesh.facets.len() + 3 * count];
    // The clearing is timed on the lent room itself: two such rooms may not fit.
    let work_of_ours = std::cell::RefCell::new(&mut work);
    let mut ours = || {
        let mut work = work_of_ours.borrow_mut();
        let mut reply = None;
        let taken = time(|| {
            reply = Some(yongpham_library::caps(
                &mesh.vertices,
                &mesh.facets,
                &caps,
                &UNIT,
                eps,
                resolution,
                1,
                CEILING,
                &mut work,
                &mut out_vertices,
                &mut out_facets,
            ))
        });
        let facets =
            reply.map(|reply| (reply.number, reply.values[1] as usize > mesh.facets.len()));
        assert_eq!(facets, Some((0, true)), "caps are written");
        taken
    };
    let mut rust = || {
        let (vertices, facets) = (mesh.vertices.clone(), wide.clone());
        time(|| {
            oracle::reference::cap_mesh_to_aabb(
                vertices, facets, &UNIT, resolution, 1, eps, &supplied,
            )
        })
    };
    let mut clearing = || {
        let mut work = work_of_ours.borrow_mut();
        time(|| work.fill(0))
    };
    let name = format!("caps, {count} triangles, {segments} segments");
    mesh_row(
        &name,
        mesh.count(),
        interleaved(rounds, [&mut ours, &mut rust, &mut clearing]),
    );
}
