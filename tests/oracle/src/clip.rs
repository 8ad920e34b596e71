//! Clip (module 3).

use crate::aabb_clipping::clip_mesh_to_aabb;
use crate::refusals::*;
use crate::reply::{finish, write_mesh};
use crate::{aabb, narrow, wide, Extents, Reply};

/// Refusals 1, 2, 3, 4, 5, 7, 12.
#[allow(clippy::too_many_arguments)]
pub fn clip(
    vertices: &[f64],
    facets: &[u32],
    extents: &Extents,
    eps: f64,
    ceiling: u64,
    work: &mut [u64],
    out_vertices: &mut [f64],
    out_facets: &mut [u32],
) -> Reply {
    let outcome = tested(vertices, facets, extents, eps, ceiling, work).and_then(|()| {
        let (v, f) = clip_mesh_to_aabb(vertices.to_vec(), wide(facets), aabb(extents), eps);
        write_mesh(&v, &narrow(&f), out_vertices, out_facets)
    });
    finish(outcome, work)
}

fn tested(
    vertices: &[f64],
    facets: &[u32],
    extents: &Extents,
    eps: f64,
    ceiling: u64,
    work: &[u64],
) -> Result<(), Reply> {
    ragged(vertices, facets, &[])?;
    too_many(vertices, facets, &[], ceiling)?;
    bad_index(vertices, facets)?;
    bad_number(!sound_coordinates(vertices) || !sound_coordinates(extents) || !sound_eps(eps))?;
    bad_box(extents)?;
    no_work_room(vertices, facets, &[], 0, work)
}
