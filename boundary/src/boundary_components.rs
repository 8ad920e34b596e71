use crate::{reply, Reply};

extern "C" {
    fn yongpham_boundary_components(
        vertex_count: u64,
        facets: *const u32,
        facets_length: usize,
        ceiling: u64,
        work: *mut u64,
        work_length: usize,
        out_edges: *mut u64,
        out_edges_length: usize,
        out_components: *mut u64,
        out_components_length: usize,
        out_irregular: *mut u64,
        out_irregular_length: usize,
        values: *mut u64,
    ) -> u32;
}

/// The open edges by components, of each component its count of edges and whether it is a ring, and the irregular edges.
pub fn boundary_components(
    vertex_count: u64,
    facets: &[u32],
    ceiling: u64,
    work: &mut [u64],
    out_edges: &mut [u64],
    out_components: &mut [u64],
    out_irregular: &mut [u64],
) -> Reply {
    // SAFETY: as for clip.
    reply(|values| unsafe {
        yongpham_boundary_components(
            vertex_count,
            facets.as_ptr(),
            facets.len(),
            ceiling,
            work.as_mut_ptr(),
            work.len(),
            out_edges.as_mut_ptr(),
            out_edges.len(),
            out_components.as_mut_ptr(),
            out_components.len(),
            out_irregular.as_mut_ptr(),
            out_irregular.len(),
            values,
        )
    })
}
