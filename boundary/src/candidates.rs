use crate::{reply, Extents, Reply};

extern "C" {
    fn yongpham_candidates(
        vertices: *const f64,
        vertices_length: usize,
        facets: *const u32,
        facets_length: usize,
        min_x: f64,
        min_y: f64,
        min_z: f64,
        max_x: f64,
        max_y: f64,
        max_z: f64,
        eps: f64,
        resolution: f64,
        ceiling: u64,
        work: *mut u64,
        work_length: usize,
        candidates: *mut u64,
        candidates_length: usize,
        face_lists: *mut u64,
        face_lists_length: usize,
        constraints: *mut u64,
        constraints_length: usize,
        open_edges: *mut u64,
        open_edges_length: usize,
        values: *mut u64,
    ) -> u32;
}

/// What a triangulator is given: candidates, face lists, constraints and open edges.
#[allow(clippy::too_many_arguments)]
pub fn candidates(
    vertices: &[f64],
    facets: &[u32],
    extents: &Extents,
    eps: f64,
    resolution: f64,
    ceiling: u64,
    work: &mut [u64],
    candidates: &mut [u64],
    face_lists: &mut [u64],
    constraints: &mut [u64],
    open_edges: &mut [u64],
) -> Reply {
    let [x0, y0, z0, x1, y1, z1] = *extents;
    // SAFETY: as for clip.
    reply(|values| unsafe {
        yongpham_candidates(
            vertices.as_ptr(),
            vertices.len(),
            facets.as_ptr(),
            facets.len(),
            x0,
            y0,
            z0,
            x1,
            y1,
            z1,
            eps,
            resolution,
            ceiling,
            work.as_mut_ptr(),
            work.len(),
            candidates.as_mut_ptr(),
            candidates.len(),
            face_lists.as_mut_ptr(),
            face_lists.len(),
            constraints.as_mut_ptr(),
            constraints.len(),
            open_edges.as_mut_ptr(),
            open_edges.len(),
            values,
        )
    })
}
