//! Caps: `yongpham_caps` beside the oracle, and the requests for it.

use crate::candidates::{boundary, grid, lattice_facet};
use crate::ceilings::OFFICE;
use crate::chosen;
use crate::lent::Lent;
use crate::meshes;
use crate::numbers::near;
use crate::operation::{library, mesh_answer, Answer, Operation};
use crate::random::Random;
use crate::request::Request;
use crate::triangulation::{by_face, sound_list};

pub const OPERATION: Operation = Operation {
    name: "caps",
    number: 5,
    generate,
    damage: meshes::damage,
    small: (2_048 + 2 * 19_683, small),
    small_room: None,
    chosen: chosen::caps,
    need: |r| {
        oracle::need_words(
            r.vertices.len() / 3,
            r.facets.len() / 3,
            r.caps.len() / 4,
            grid(r),
        )
    },
    lengths,
    oracle: |r, work| {
        mesh_answer(r, work, |work, v, f| {
            oracle::caps(
                &r.vertices,
                &r.facets,
                &r.caps,
                &r.extents,
                r.eps,
                r.resolution,
                r.mode,
                r.ceiling,
                work,
                v,
                f,
            )
        })
    },
    ours,
};

fn ours(r: &Request, work: &mut Lent<u64>) -> Answer {
    mesh_answer(r, work, |work, v, f| {
        library(yongpham_library::caps(
            &r.vertices,
            &r.facets,
            &r.caps,
            &r.extents,
            r.eps,
            r.resolution,
            r.mode,
            r.ceiling,
            work,
            v,
            f,
        ))
    })
}

/// A request that fails by 12 alone has a sound list, or is one whose list is not
/// looked at; only the first is handed to the reference.
fn lengths(r: &Request) -> [usize; 4] {
    if lists(r).is_none() || r.mode == 0 {
        return [r.vertices.len(), r.facets.len(), 0, 0];
    }
    let supplied: Vec<oracle::reference::SuppliedTri> = r
        .caps
        .chunks_exact(4)
        .map(|cap| {
            (
                cap[0] as usize,
                [cap[1], cap[2], cap[3]].map(|id| id as usize),
            )
        })
        .collect();
    let (v, f) = oracle::reference::cap_mesh_to_aabb(
        r.vertices.clone(),
        r.wide_facets(),
        &r.extents,
        r.resolution,
        r.mode,
        r.eps,
        &supplied,
    );
    [v.len(), f.len(), 0, 0]
}

/// Candidates, face lists, constraints and open edges of the mesh, whatever ceiling it comes
/// under; `None` where candidates refuses or finds no open edge with two ends.
fn lists(r: &Request) -> Option<[Vec<u64>; 4]> {
    let mut work =
        vec![0; oracle::need_words(r.vertices.len() / 3, r.facets.len() / 3, 0, grid(r)) as usize];
    let mut run = |lengths: [usize; 4]| {
        let mut lists = lengths.map(|length| vec![0; length]);
        let [c, l, k, e] = &mut lists;
        let reply = oracle::candidates(
            &r.vertices,
            &r.facets,
            &r.extents,
            r.eps,
            r.resolution,
            OFFICE,
            &mut work,
            c,
            l,
            k,
            e,
        );
        (reply.number, lists)
    };
    let (12, _) = run([0; 4]) else { return None };
    let lengths = oracle::reference::cap_candidates(
        &r.vertices,
        &r.wide_facets(),
        &r.extents,
        r.resolution,
        r.eps,
    );
    Some(run(lengths).1)
}

/// Whether a request that was done with these lengths got its mesh back because no open
/// edge keeps two ends.
pub fn comes_back(r: &Request, lengths: &[u64; 4]) -> bool {
    let same = lengths[0] as usize == r.vertices.len() && lengths[1] as usize == r.facets.len();
    same && lists(r).is_none()
}

fn generate(random: &mut Random, number: u64) -> Request {
    let mut request = if random.one_in(10) {
        small_areas(random)
    } else {
        boundary(random, number)
    };
    request.mode = if random.one_in(30) {
        random.pick(&[0, 3, u32::MAX])
    } else {
        1 + random.below(2) as u32
    };
    let mut list = match lists(&request) {
        Some(lists) => supplied(random, &lists),
        None => vec![[0, 0, 1, 2]; random.below(3)],
    };
    if random.one_in(10) {
        spoil(random, &mut list);
    }
    request.caps = list.concat();
    if random.one_in(15) {
        meshes::damage(random, &mut request);
    }
    match random.below(1600) {
        0..=19 => request
            .caps
            .extend([0, 1, 2].iter().take(1 + random.below(3))),
        20 => request.caps.resize(4 * 1_048_577, 0),
        21 => request.caps.resize(4 * 1_048_577 - 3, 0),
        _ => {}
    }
    request
}

/// C15 with every choice of diagonals, then every facet among a box's 27 points with a
/// triangulation of each face; in both modes.
fn small(random: &mut Random, turn: u64) -> Request {
    let mut request = if turn < 2_048 {
        diagonals(turn / 2)
    } else {
        let mut request = lattice_facet(random, (turn - 2_048) / 2);
        supply(&mut request);
        request
    };
    request.mode = 1 + (turn % 2) as u32;
    request
}

/// Gives a request a triangulation of each face; no list where there is nothing to close.
pub fn supply(request: &mut Request) {
    request.caps = lists(request).map_or_else(Vec::new, |lists| sound_list(&lists).concat());
}

/// C15's ten rectangles, each with its face: of its candidates 0 to 3 are the mesh vertices 0,
/// 1, 3, 2, and 4 to 11 the box corners, z inside y inside x.
const RECTANGLES: [[u64; 5]; 10] = [
    [0, 4, 6, 2, 0],
    [0, 0, 2, 7, 5],
    [1, 8, 10, 3, 1],
    [1, 1, 3, 11, 9],
    [2, 4, 8, 1, 0],
    [2, 0, 1, 9, 5],
    [3, 6, 10, 3, 2],
    [3, 2, 3, 11, 7],
    [4, 4, 8, 10, 6],
    [5, 5, 9, 11, 7],
];

/// The square across the unit box at half its height; bit i of `choice` picks the diagonal of
/// rectangle i.
fn diagonals(choice: u64) -> Request {
    let corners = [[0.0, 0.0], [1.0, 0.0], [1.0, 1.0], [0.0, 1.0]];
    let vertices = corners.iter().flat_map(|&[x, y]| [x, y, 0.5]).collect();
    let extents = [0.0, 0.0, 0.0, 1.0, 1.0, 1.0];
    let mut request = Request::new(
        "diagonals",
        vertices,
        vec![0, 1, 2, 0, 2, 3],
        extents,
        1e-10,
    );
    for (i, [face, a, b, c, d]) in RECTANGLES.into_iter().enumerate() {
        request.caps.extend(if choice >> i & 1 == 0 {
            [face, a, b, c, face, a, c, d]
        } else {
            [face, b, c, d, face, b, d, a]
        });
    }
    request
}

/// A square across a box so small that the caps' areas lie around 1e-12.
fn small_areas(random: &mut Random) -> Request {
    let part = random.pick(&[0.5, 0.25, 0.3, 0.7]);
    // At this side the lower half of a side face has double areas of 1e-12.
    let exact = (1e-12f64 / part).sqrt();
    let side = match random.below(3) {
        0 => random.between(0.5e-6, 3e-6),
        1 => exact,
        _ => near(random, exact).abs(),
    };
    let height = side * part;
    let mut vertices = Vec::new();
    for (x, y) in [(0.0, 0.0), (side, 0.0), (side, side), (0.0, side)] {
        vertices.extend([x, y, height]);
    }
    let extents = [0.0, 0.0, 0.0, side, side, side];
    let eps = random.pick(&[1e-10, 1e-12, 0.0]);
    let mut request = Request::new(
        "small areas",
        vertices,
        vec![0, 1, 2, 0, 2, 3],
        extents,
        eps,
    );
    request.resolution = side / random.pick(&[1.0, 1.0, 2.0]);
    request
}

/// A list for these candidates: a triangulation as it is, in another order, with
/// triangles left out, given twice or added; or triangles at random.
fn supplied(random: &mut Random, lists: &[Vec<u64>; 4]) -> Vec<[u64; 4]> {
    let mut list = match random.below(10) {
        0 => Vec::new(),
        1 | 2 => wild_list(random, lists),
        _ => sound_list(lists),
    };
    if random.one_in(2) {
        // Any order within a face, any first corner, any turn.
        let mut keyed: Vec<_> = list.iter().map(|&t| (t[0], random.bits(), t)).collect();
        keyed.sort_unstable();
        list = keyed.into_iter().map(|(_, _, t)| t).collect();
        for t in &mut list {
            t[1..].rotate_left(random.below(3));
            if random.one_in(2) {
                t.swap(2, 3);
            }
        }
    }
    if random.one_in(5) && !list.is_empty() {
        list.remove(random.below(list.len()));
    }
    if random.one_in(5) {
        let chance = 2 + random.below(8);
        list.retain(|_| !random.one_in(chance));
    }
    if random.one_in(4) {
        for _ in 0..1 + random.below(4) {
            if let Some(&(mut again)) = list.get(random.below(list.len().max(1))) {
                again[1..].rotate_left(random.below(3));
                list.push(again);
            }
        }
        list.sort_by_key(|t| t[0]);
    }
    if random.one_in(4) {
        let faces = by_face(&lists[1]);
        for _ in 0..1 + random.below(6) {
            list.extend(random_triangle(random, &faces));
        }
        list.sort_by_key(|t| t[0]);
    }
    list
}

/// Three different candidates of one face.
fn random_triangle(random: &mut Random, faces: &[&[u64]; 6]) -> Option<[u64; 4]> {
    let face = random.below(6);
    if faces[face].len() < 3 {
        return None;
    }
    let [a, b, c] = [0; 3].map(|_| random.pick(faces[face]));
    (a != b && b != c && a != c).then_some([face as u64, a, b, c])
}

/// Triangles at random, and one for every open edge so that test 11 passes.
fn wild_list(random: &mut Random, lists: &[Vec<u64>; 4]) -> Vec<[u64; 4]> {
    let faces = by_face(&lists[1]);
    let mut list = Vec::new();
    for edge in lists[3].chunks_exact(3) {
        let (face, a, b) = (edge[0] as usize, edge[1], edge[2]);
        let third = random.pick(faces[face]);
        if third != a && third != b {
            list.push(if random.one_in(2) {
                [edge[0], a, b, third]
            } else {
                [edge[0], b, a, third]
            });
        }
    }
    for _ in 0..random.below(40) {
        list.extend(random_triangle(random, &faces));
    }
    list.sort_by_key(|t| t[0]);
    list
}

/// Makes the list faulty in a way that test 10 names.
fn spoil(random: &mut Random, list: &mut [[u64; 4]]) {
    if list.is_empty() {
        return;
    }
    let place = random.below(list.len());
    let corner = 1 + random.below(3);
    let other = 1 + random.below(3);
    match random.below(8) {
        0 => list[place][0] = random.pick(&[6, 7, u64::MAX, 1 << 32]),
        1 => list[place][0] = random.below(6) as u64,
        2 => list[place][corner] = list[place][other],
        3 => list[place][corner] = random.pick(&[u64::MAX, 1 << 32, 1 << 63, 1_000_000]),
        4 => list[place][corner] |= 1 << 32,
        5 => list[place][corner] = random.below(60) as u64,
        // Sound triangles in another order: faces descend.
        6 => list.swap(place, random.below(list.len())),
        _ => list.rotate_left(place),
    }
}

#[cfg(test)]
mod tests {
    use super::*;
    use crate::lent::Old;

    /// Triangulations hold the open edges of meshes that were clipped and cleaned,
    /// and close them: no side is left alone in either mode.
    #[test]
    fn sound_lists_close_realistic_meshes() {
        let (mut met, mut closed) = (0, 0);
        for number in 0..400 {
            let mut random = Random::new(3, "caps", number);
            let mut request = boundary(&mut random, 7);
            let Some(lists) = lists(&request) else {
                continue;
            };
            request.caps = sound_list(&lists).concat();
            request.mode = 1 + (number % 2) as u32;
            request.work = (OPERATION.need)(&request) as usize;
            let mut work = Lent::new(0, Old::Junk);
            let number = (OPERATION.oracle)(&request, &mut work).reply.number;
            assert!(number == 12 || number == 11 || number == 10, "{number}");
            met += 1;
            if number != 12 {
                continue;
            }
            request.outputs = lengths(&request);
            let answer = (OPERATION.oracle)(&request, &mut work);
            let mut sides = std::collections::HashMap::new();
            for t in answer.outputs[1].chunks_exact(3) {
                for (a, b) in [(t[0], t[1]), (t[1], t[2]), (t[2], t[0])] {
                    *sides.entry((a.min(b), a.max(b))).or_insert(0) += if a < b { 1 } else { -1 };
                }
            }
            closed += sides.values().all(|&sum| sum == 0) as usize;
        }
        assert!(
            met > 100 && closed * 10 >= met * 9,
            "{closed} of {met} closed"
        );
    }
}
