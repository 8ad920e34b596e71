use crate::{reply, Extents, Reply};

extern "C" {
    fn yongpham_caps(
        vertices: *const f64,
        vertices_length: usize,
        facets: *const u32,
        facets_length: usize,
        cap_list: *const u64,
        cap_list_length: usize,
        min_x: f64,
        min_y: f64,
        min_z: f64,
        max_x: f64,
        max_y: f64,
        max_z: f64,
        eps: f64,
        resolution: f64,
        mode: u32,
        ceiling: u64,
        work: *mut u64,
        work_length: usize,
        out_vertices: *mut f64,
        out_vertices_length: usize,
        out_facets: *mut u32,
        out_facets_length: usize,
        values: *mut u64,
    ) -> u32;
}

/// The mesh closed by some of the triangles given: mode 0 none, 1 positive, 2 negative.
#[allow(clippy::too_many_arguments)]
pub fn caps(
    vertices: &[f64],
    facets: &[u32],
    cap_list: &[u64],
    extents: &Extents,
    eps: f64,
    resolution: f64,
    mode: u32,
    ceiling: u64,
    work: &mut [u64],
    out_vertices: &mut [f64],
    out_facets: &mut [u32],
) -> Reply {
    let [x0, y0, z0, x1, y1, z1] = *extents;
    // SAFETY: as for clip.
    reply(|values| unsafe {
        yongpham_caps(
            vertices.as_ptr(),
            vertices.len(),
            facets.as_ptr(),
            facets.len(),
            cap_list.as_ptr(),
            cap_list.len(),
            x0,
            y0,
            z0,
            x1,
            y1,
            z1,
            eps,
            resolution,
            mode,
            ceiling,
            work.as_mut_ptr(),
            work.len(),
            out_vertices.as_mut_ptr(),
            out_vertices.len(),
            out_facets.as_mut_ptr(),
            out_facets.len(),
            values,
        )
    })
}
