//! The reference functions themselves, without refusals and copies, for timing.
//! They take what the reference takes; a request must be one that is accepted.

use crate::{aabb, aabb_clipping, boundary_closure, caps, mesh_cleanup, Extents};

pub fn bbox_eps(extents: &Extents) -> f64 {
    aabb_clipping::bbox_eps(aabb(extents))
}

pub fn clip_mesh_to_aabb(
    vertices: Vec<f64>,
    facets: Vec<usize>,
    extents: &Extents,
    eps: f64,
) -> (Vec<f64>, Vec<usize>) {
    aabb_clipping::clip_mesh_to_aabb(vertices, facets, aabb(extents), eps)
}

pub fn clean_mesh(vertices: Vec<f64>, facets: Vec<usize>, eps: f64) -> (Vec<f64>, Vec<usize>) {
    mesh_cleanup::clean_mesh(vertices, facets, eps)
}

/// The first half of `cap_mesh_to_aabb`, constraints included; answers the lengths
/// of document 01's four lists of words.
pub fn cap_candidates(
    vertices: &[f64],
    facets: &[usize],
    extents: &Extents,
    resolution: f64,
    eps: f64,
) -> [usize; 4] {
    let lists =
        boundary_closure::candidate_lists(vertices, facets, aabb(extents), resolution, eps, true);
    lists.map_or([0; 4], |lists| {
        let total = |lengths: [usize; 6]| lengths.iter().sum::<usize>();
        [
            5 * lists.candidates.len(),
            6 + total(lists.faces.each_ref().map(Vec::len)),
            3 * total(lists.constraints.each_ref().map(Vec::len)),
            3 * lists.open_edges.len(),
        ]
    })
}

/// A supplied cap triangle: its face and its three candidates.
pub type SuppliedTri = (usize, [usize; 3]);

pub fn cap_mesh_to_aabb(
    vertices: Vec<f64>,
    facets: Vec<usize>,
    extents: &Extents,
    resolution: f64,
    mode: u32,
    eps: f64,
    supplied: &[SuppliedTri],
) -> (Vec<f64>, Vec<usize>) {
    let mode = caps::closure(mode);
    boundary_closure::cap_mesh_to_aabb(
        vertices,
        facets,
        aabb(extents),
        resolution,
        mode,
        eps,
        supplied,
    )
}

/// `quantized_point_key` of mesh_cleanup.rs for one coordinate.
pub fn cell_key(coordinate: f64, eps: f64) -> i64 {
    mesh_cleanup::quantized_point_key([coordinate, 0.0, 0.0], eps).0
}
