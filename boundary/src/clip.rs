use crate::{reply, Extents, Reply};

extern "C" {
    fn yongpham_clip(
        vertices: *const f64,
        vertices_length: usize,
        facets: *const u32,
        facets_length: usize,
        min_x: f64,
        min_y: f64,
        min_z: f64,
        max_x: f64,
        max_y: f64,
        max_z: f64,
        eps: f64,
        ceiling: u64,
        work: *mut u64,
        work_length: usize,
        out_vertices: *mut f64,
        out_vertices_length: usize,
        out_facets: *mut u32,
        out_facets_length: usize,
        values: *mut u64,
    ) -> u32;
}

/// The mesh cut to the box.
#[allow(clippy::too_many_arguments)]
pub fn clip(
    vertices: &[f64],
    facets: &[u32],
    extents: &Extents,
    eps: f64,
    ceiling: u64,
    work: &mut [u64],
    out_vertices: &mut [f64],
    out_facets: &mut [u32],
) -> Reply {
    let [x0, y0, z0, x1, y1, z1] = *extents;
    // SAFETY: every pointer comes with the length of its own slice and is never null; what is written is borrowed for that
    // alone, so that nothing overlaps; values has four words.
    reply(|values| unsafe {
        yongpham_clip(
            vertices.as_ptr(),
            vertices.len(),
            facets.as_ptr(),
            facets.len(),
            x0,
            y0,
            z0,
            x1,
            y1,
            z1,
            eps,
            ceiling,
            work.as_mut_ptr(),
            work.len(),
            out_vertices.as_mut_ptr(),
            out_vertices.len(),
            out_facets.as_mut_ptr(),
            out_facets.len(),
            values,
        )
    })
}
