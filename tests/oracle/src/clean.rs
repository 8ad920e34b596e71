//! Clean (module 4).

use crate::mesh_cleanup::clean_mesh;
use crate::refusals::*;
use crate::reply::{finish, write_mesh};
use crate::{narrow, wide, Reply};

/// Refusals 1, 2, 3, 4, 7, 8, 12.
pub fn clean(
    vertices: &[f64],
    facets: &[u32],
    eps: f64,
    ceiling: u64,
    work: &mut [u64],
    out_vertices: &mut [f64],
    out_facets: &mut [u32],
) -> Reply {
    let outcome = tested(vertices, facets, eps, ceiling, work).and_then(|()| {
        let (v, f) = clean_mesh(vertices.to_vec(), wide(facets), eps);
        write_mesh(&v, &narrow(&f), out_vertices, out_facets)
    });
    finish(outcome, work)
}

fn tested(
    vertices: &[f64],
    facets: &[u32],
    eps: f64,
    ceiling: u64,
    work: &[u64],
) -> Result<(), Reply> {
    ragged(vertices, facets, &[])?;
    too_many(vertices, facets, &[], ceiling)?;
    bad_index(vertices, facets)?;
    bad_number(!sound_coordinates(vertices) || !sound_eps(eps))?;
    no_work_room(vertices, facets, &[], 0, work)?;
    key_range(vertices, eps)
}
