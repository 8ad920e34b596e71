use crate::{reply, Reply};

extern "C" {
    fn yongpham_clean(
        vertices: *const f64,
        vertices_length: usize,
        facets: *const u32,
        facets_length: usize,
        eps: f64,
        ceiling: u64,
        work: *mut u64,
        work_length: usize,
        out_vertices: *mut f64,
        out_vertices_length: usize,
        out_facets: *mut u32,
        out_facets_length: usize,
        values: *mut u64,
    ) -> u32;
}

/// The mesh welded, filtered and renumbered.
pub fn clean(
    vertices: &[f64],
    facets: &[u32],
    eps: f64,
    ceiling: u64,
    work: &mut [u64],
    out_vertices: &mut [f64],
    out_facets: &mut [u32],
) -> Reply {
    // SAFETY: as for clip.
    reply(|values| unsafe {
        yongpham_clean(
            vertices.as_ptr(),
            vertices.len(),
            facets.as_ptr(),
            facets.len(),
            eps,
            ceiling,
            work.as_mut_ptr(),
            work.len(),
            out_vertices.as_mut_ptr(),
            out_vertices.len(),
            out_facets.as_mut_ptr(),
            out_facets.len(),
            values,
        )
    })
}
