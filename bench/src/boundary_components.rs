//! Boundary components beside the second implementation, which is the oracle's own: the Rust
//! has none. A terrain with holes, a closed surface, and facets at random.

use crate::meshes::{closed, soup, surface, with_holes, Mesh, CEILING, SIZES};
use crate::timing::{interleaved, mesh_row, time};

pub fn rows(rounds: usize) {
    for facets in SIZES {
        let terrain = with_holes(&surface(facets, 0.5, 1.0));
        row(rounds, "boundary components, terrain with holes", &terrain);
        row(rounds, "boundary components, closed", &closed(facets));
        row(rounds, "boundary components, soup", &soup(facets));
    }
}

fn row(rounds: usize, name: &str, mesh: &Mesh) {
    let vertices = mesh.vertices.len() / 3;
    let need = oracle::need_words(vertices, mesh.count(), 0, 0) as usize;
    let mut work = vec![1u64; need];
    let mut spare = vec![1u64; need];
    let lists = oracle::boundary_lists(&mesh.facets);
    let lengths = lists.each_ref().map(Vec::len);
    let mut outputs = lengths.map(|length| vec![1u64; length]);
    let mut ours = || {
        let [e, c, i] = &mut outputs;
        let mut reply = None;
        let taken = time(|| {
            reply = Some(yongpham_library::boundary_components(
                vertices as u64,
                &mesh.facets,
                CEILING,
                &mut work,
                e,
                c,
                i,
            ))
        });
        assert_eq!(reply.map(|reply| reply.number), Some(0));
        assert!(outputs == lists, "both tell the same");
        taken
    };
    let mut rust = || time(|| oracle::boundary_lists(&mesh.facets));
    let mut clearing = || time(|| spare.fill(0));
    mesh_row(
        name,
        mesh.count(),
        interleaved(rounds, [&mut ours, &mut rust, &mut clearing]),
    );
}
