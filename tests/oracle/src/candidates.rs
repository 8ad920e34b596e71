//! Candidates (module 5).

use crate::boundary_closure::{candidate_lists, CandidateLists};
use crate::refusals::*;
use crate::reply::{finish, room, write_front};
use crate::{aabb, wide, Extents, Reply};
use std::collections::BTreeMap;

/// Refusals 1 to 9 and 12. Writes 64-bit words: candidates, face lists,
/// constraints, open edges.
#[allow(clippy::too_many_arguments)]
pub fn candidates(
    vertices: &[f64],
    facets: &[u32],
    extents: &Extents,
    eps: f64,
    resolution: f64,
    ceiling: u64,
    work: &mut [u64],
    out_candidates: &mut [u64],
    out_face_lists: &mut [u64],
    out_constraints: &mut [u64],
    out_open_edges: &mut [u64],
) -> Reply {
    let outcome =
        tested(vertices, facets, extents, eps, resolution, ceiling, work).and_then(|lists| {
            let [c, f, k, e] = lists.map_or_else(Default::default, |lists| words(&lists));
            room(&c, out_candidates)?;
            room(&f, out_face_lists)?;
            room(&k, out_constraints)?;
            room(&e, out_open_edges)?;
            write_front(&c, out_candidates);
            write_front(&f, out_face_lists);
            write_front(&k, out_constraints);
            write_front(&e, out_open_edges);
            Ok(Reply::done(&[c.len(), f.len(), k.len(), e.len()]))
        });
    finish(outcome, work)
}

/// The lists, or `None` at the two points at which "all four lengths" are 0.
fn tested(
    vertices: &[f64],
    facets: &[u32],
    extents: &Extents,
    eps: f64,
    resolution: f64,
    ceiling: u64,
    work: &[u64],
) -> Result<Option<CandidateLists>, Reply> {
    ragged(vertices, facets, &[])?;
    too_many(vertices, facets, &[], ceiling)?;
    bad_index(vertices, facets)?;
    bad_number(
        !sound_coordinates(vertices)
            || !sound_coordinates(extents)
            || !sound_eps(eps)
            || !sound_resolution(resolution),
    )?;
    bad_box(extents)?;
    let segments = segments(extents, resolution, eps);
    grid_too_fine(&segments)?;
    no_work_room(vertices, facets, &[], grid_points(&segments), work)?;
    if facets.is_empty() {
        return Ok(None);
    }
    boundary_lists(vertices, facets, extents, eps, resolution, true)
}

/// Tests 8 and 9, then the candidates; `None` if no open edge keeps two ends.
/// Candidates and caps share it: "Caps recomputes the candidates from the mesh."
pub fn boundary_lists(
    vertices: &[f64],
    facets: &[u32],
    extents: &Extents,
    eps: f64,
    resolution: f64,
    with_constraints: bool,
) -> Result<Option<CandidateLists>, Reply> {
    key_range(vertices, eps)?;
    key_range(extents, eps)?;
    open_edge(vertices, facets, extents, eps)?;
    Ok(candidate_lists(
        vertices,
        &wide(facets),
        aabb(extents),
        resolution,
        eps,
        with_constraints,
    ))
}

/// 9 OpenEdge, "with the smallest such pair": "an open edge lies on no box face".
/// "An open edge belongs to exactly one facet side; three are not open."
fn open_edge(vertices: &[f64], facets: &[u32], extents: &Extents, eps: f64) -> Result<(), Reply> {
    let mut bearers: BTreeMap<(u32, u32), u32> = BTreeMap::new();
    for facet in facets.chunks_exact(3) {
        for (a, b) in [(0, 1), (1, 2), (2, 0)] {
            let pair = (facet[a].min(facet[b]), facet[a].max(facet[b]));
            *bearers.entry(pair).or_default() += 1;
        }
    }
    for ((a, b), sides) in bearers {
        let faces = faces_of(vertices, a, extents, eps) & faces_of(vertices, b, extents, eps);
        if sides == 1 && faces == 0 {
            return Err(Reply {
                number: 9,
                values: [a as u64, b as u64, 0, 0],
            });
        }
    }
    Ok(())
}

/// The faces within eps of a vertex, bit f for face f in the order XMin, XMax,
/// YMin, YMax, ZMin, ZMax.
fn faces_of(vertices: &[f64], id: u32, extents: &Extents, eps: f64) -> u8 {
    let mut faces = 0;
    for axis in 0..3 {
        let coordinate = vertices[3 * id as usize + axis];
        for (side, plane) in [extents[axis], extents[axis + 3]].into_iter().enumerate() {
            if (coordinate - plane).abs() <= eps {
                faces |= 1 << (2 * axis + side);
            }
        }
    }
    faces
}

/// Document 01's formats: "a candidate is its point's bits, mesh vertex + 1 or 0,
/// faces (bit f for face f); face lists are six counts, then the numbers; a
/// constraint is face and two places; an open edge is face and two candidates."
fn words(lists: &CandidateLists) -> [Vec<u64>; 4] {
    let mut candidates = Vec::with_capacity(5 * lists.candidates.len());
    for (point, mesh_vertex, faces) in &lists.candidates {
        candidates.extend(point.map(f64::to_bits));
        candidates.push(mesh_vertex.map_or(0, |id| id as u64 + 1));
        candidates.push(*faces as u64);
    }
    let mut face_lists: Vec<u64> = lists.faces.iter().map(|list| list.len() as u64).collect();
    face_lists.extend(lists.faces.iter().flatten().map(|&id| id as u64));
    let mut constraints = Vec::new();
    for (face, list) in lists.constraints.iter().enumerate() {
        constraints.extend(
            list.iter()
                .flat_map(|&(a, b)| [face as u64, a as u64, b as u64]),
        );
    }
    let open_edges = lists
        .open_edges
        .iter()
        .flat_map(|&(face, a, b)| [face as u64, a as u64, b as u64]);
    [candidates, face_lists, constraints, open_edges.collect()]
}
