//! Candidates beside the Rust: a surface across the box, at several grids.

use crate::meshes::{surface, Mesh, CEILING, SIZES, UNIT};
use crate::timing::{interleaved, mesh_row, time};

pub fn rows(rounds: usize) {
    for facets in SIZES {
        for segments in [16, 64, 256] {
            row(rounds, segments, &surface(facets, 0.5, 1.0));
        }
    }
}

fn row(rounds: usize, segments: usize, mesh: &Mesh) {
    let eps = oracle::reference::bbox_eps(&UNIT);
    let resolution = 1.0 / segments as f64;
    let wide = mesh.wide_facets();
    let grid = oracle::grid_points(&oracle::segments(&UNIT, resolution, eps));
    let need = oracle::need_words(mesh.vertices.len() / 3, mesh.count(), 0, grid) as usize;
    let mut work = vec![1u64; need];
    let mut spare = vec![1u64; need];
    let lengths = oracle::reference::cap_candidates(&mesh.vertices, &wide, &UNIT, resolution, eps);
    let mut outputs = lengths.map(|length| vec![1u64; length]);
    let mut ours = || {
        let [c, l, k, e] = &mut outputs;
        let mut reply = None;
        let taken = time(|| {
            reply = Some(yongpham_library::candidates(
                &mesh.vertices,
                &mesh.facets,
                &UNIT,
                eps,
                resolution,
                CEILING,
                &mut work,
                c,
                l,
                k,
                e,
            ))
        });
        let written = reply.map(|reply| (reply.number, reply.values.map(|value| value as usize)));
        assert_eq!(written, Some((0, lengths)), "the request is accepted");
        taken
    };
    let mut rust = || {
        time(|| oracle::reference::cap_candidates(&mesh.vertices, &wide, &UNIT, resolution, eps))
    };
    let mut clearing = || time(|| spare.fill(0));
    let name = format!("candidates, {segments} segments");
    mesh_row(
        &name,
        mesh.count(),
        interleaved(rounds, [&mut ours, &mut rust, &mut clearing]),
    );
}
