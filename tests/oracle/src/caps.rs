//! Caps (module 6).

use crate::boundary_closure::{cap_mesh_to_aabb, BoundaryClosure, CandidateLists, SuppliedTri};
use crate::candidates::boundary_lists;
use crate::refusals::*;
use crate::reply::{finish, write_mesh};
use crate::{aabb, narrow, wide, Extents, Reply};
use std::collections::HashSet;

/// Refusals 1 to 12. `caps` holds four words a triangle, face first; `mode` is 0
/// none, 1 positive, 2 negative. A mode above 2 is refused as part of 4, an
/// addition of the C interface.
#[allow(clippy::too_many_arguments)]
pub fn caps(
    vertices: &[f64],
    facets: &[u32],
    caps: &[u64],
    extents: &Extents,
    eps: f64,
    resolution: f64,
    mode: u32,
    ceiling: u64,
    work: &mut [u64],
    out_vertices: &mut [f64],
    out_facets: &mut [u32],
) -> Reply {
    let outcome = tested(
        vertices, facets, caps, extents, eps, resolution, mode, ceiling, work,
    )
    .and_then(|supplied| match supplied {
        None => write_mesh(vertices, facets, out_vertices, out_facets),
        Some(supplied) => {
            let (v, f) = cap_mesh_to_aabb(
                vertices.to_vec(),
                wide(facets),
                aabb(extents),
                resolution,
                closure(mode),
                eps,
                &supplied,
            );
            write_mesh(&v, &narrow(&f), out_vertices, out_facets)
        }
    });
    finish(outcome, work)
}

pub fn closure(mode: u32) -> BoundaryClosure {
    match mode {
        0 => BoundaryClosure::None,
        1 => BoundaryClosure::ClosePositive,
        _ => BoundaryClosure::CloseNegative,
    }
}

/// The supplied list in the reference's form, or `None` at the two points at
/// which caps "gives its mesh back unchanged".
#[allow(clippy::too_many_arguments)]
fn tested(
    vertices: &[f64],
    facets: &[u32],
    caps: &[u64],
    extents: &Extents,
    eps: f64,
    resolution: f64,
    mode: u32,
    ceiling: u64,
    work: &[u64],
) -> Result<Option<Vec<SuppliedTri>>, Reply> {
    ragged(vertices, facets, caps)?;
    too_many(vertices, facets, caps, ceiling)?;
    bad_index(vertices, facets)?;
    bad_number(
        !sound_coordinates(vertices)
            || !sound_coordinates(extents)
            || !sound_eps(eps)
            || !sound_resolution(resolution)
            || mode > 2,
    )?;
    bad_box(extents)?;
    let segments = segments(extents, resolution, eps);
    grid_too_fine(&segments)?;
    no_work_room(vertices, facets, caps, grid_points(&segments), work)?;
    if mode == 0 || facets.is_empty() {
        return Ok(None);
    }
    let Some(lists) = boundary_lists(vertices, facets, extents, eps, resolution, false)? else {
        return Ok(None);
    };
    bad_cap(caps, &lists)?;
    missing_edge(caps, &lists)?;
    Ok(Some(supplied(caps)))
}

/// 10 BadCap, "with the first such triangle's place": "face above 5 or
/// descending, a repeated candidate, or one not in that face's list".
fn bad_cap(caps: &[u64], lists: &CandidateLists) -> Result<(), Reply> {
    let listed: Vec<HashSet<u64>> = lists
        .faces
        .iter()
        .map(|list| list.iter().map(|&id| id as u64).collect())
        .collect();
    let mut last_face = 0;
    for (place, cap) in caps.chunks_exact(4).enumerate() {
        let (face, [a, b, c]) = (cap[0], [cap[1], cap[2], cap[3]]);
        let bad = face > 5
            || face < last_face
            || (a == b || b == c || a == c)
            || [a, b, c]
                .iter()
                .any(|id| !listed[face as usize].contains(id));
        if bad {
            return Err(Reply::refused_with(10, place as u64));
        }
        last_face = face;
    }
    Ok(())
}

/// 11 MissingEdge, "with the first such edge's place in the open-edge list": "a
/// face with three or more candidates has an oriented open edge that, either way
/// round, is no edge of any triangle supplied for it".
fn missing_edge(caps: &[u64], lists: &CandidateLists) -> Result<(), Reply> {
    let mut edges: HashSet<(u64, u64, u64)> = HashSet::new();
    for cap in caps.chunks_exact(4) {
        for (a, b) in [(cap[1], cap[2]), (cap[2], cap[3]), (cap[3], cap[1])] {
            edges.insert((cap[0], a, b));
            edges.insert((cap[0], b, a));
        }
    }
    for (place, &(face, a, b)) in lists.open_edges.iter().enumerate() {
        let held = edges.contains(&(face as u64, a as u64, b as u64));
        if lists.faces[face].len() >= 3 && !held {
            return Err(Reply::refused_with(11, place as u64));
        }
    }
    Ok(())
}

/// After test 10 every word is a face or a candidate.
pub fn supplied(caps: &[u64]) -> Vec<SuppliedTri> {
    caps.chunks_exact(4)
        .map(|cap| {
            (
                cap[0] as usize,
                [cap[1] as usize, cap[2] as usize, cap[3] as usize],
            )
        })
        .collect()
}
