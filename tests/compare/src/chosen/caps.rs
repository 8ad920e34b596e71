//! Requests chosen by hand for caps: where its rules show, each refusal that is its own, and
//! the two points at which the mesh comes back unchanged.

use super::{ample, ceilings, in_rooms, power, Chosen, Room, KEPT, UNIT};
use crate::boxes::LARGEST;
use crate::request::Request;
use oracle::Extents;

const POSITIVE: u32 = 1;
const NEGATIVE: u32 = 2;

/// Of C15's 12 candidates 0 to 3 are the mesh vertices 0, 1, 3, 2; then come the box
/// corners (0,0,0), (0,0,1), (0,1,0), (0,1,1), (1,0,0), (1,0,1), (1,1,0), (1,1,1).
const FACES: [&[[u64; 4]]; 6] = [
    &[[0, 4, 6, 2], [0, 4, 2, 0], [0, 0, 2, 7], [0, 0, 7, 5]],
    &[[1, 8, 10, 3], [1, 8, 3, 1], [1, 1, 3, 11], [1, 1, 11, 9]],
    &[[2, 4, 8, 1], [2, 4, 1, 0], [2, 0, 1, 9], [2, 0, 9, 5]],
    &[[3, 6, 10, 3], [3, 6, 3, 2], [3, 2, 3, 11], [3, 2, 11, 7]],
    &[[4, 4, 8, 10], [4, 4, 10, 6]],
    &[[5, 5, 9, 11], [5, 5, 11, 7]],
];

/// Two triangles a face of a box whose corners (0,0,0), (0,1,0), (0,0,1), (0,1,1),
/// (1,0,0), (1,0,1), (1,1,0), (1,1,1) are the candidates 0 to 7.
const TWO_A_FACE: [[u64; 4]; 12] = [
    [0, 0, 1, 3],
    [0, 0, 3, 2],
    [1, 4, 6, 7],
    [1, 4, 7, 5],
    [2, 0, 4, 5],
    [2, 0, 5, 2],
    [3, 1, 6, 7],
    [3, 1, 7, 3],
    [4, 0, 4, 6],
    [4, 0, 6, 1],
    [5, 2, 5, 7],
    [5, 2, 7, 3],
];

fn all_faces() -> Vec<[u64; 4]> {
    FACES.concat()
}

/// A square of this side at half the height of its box, as two facets facing up.
fn square(family: &'static str, side: f64, list: &[[u64; 4]], mode: u32) -> Request {
    let half = side / 2.0;
    let corners = [[0.0, 0.0], [side, 0.0], [side, side], [0.0, side]];
    let vertices = corners.iter().flat_map(|&[x, y]| [x, y, half]).collect();
    let extents = [0.0, 0.0, 0.0, side, side, side];
    let mut request = Request::new(family, vertices, vec![0, 1, 2, 0, 2, 3], extents, 1e-10);
    request.resolution = side;
    request.mode = mode;
    request.caps = list.concat();
    request
}

/// One facet: its candidates 0, 1, 2 are its vertices, if no two share a key.
fn facet(
    family: &'static str,
    corners: [[f64; 3]; 3],
    (extents, eps): (Extents, f64),
    list: &[[u64; 4]],
    mode: u32,
) -> Request {
    let mut request = Request::new(family, corners.concat(), vec![0, 1, 2], extents, eps);
    request.mode = mode;
    request.caps = list.concat();
    request
}

/// C15, and lists for it that are faulty or unusual.
fn lists(mode: u32) -> Vec<Request> {
    let c15 = |list: &[[u64; 4]]| square("C15's list, changed", 1.0, list, mode);
    let mut requests = vec![
        square("C15", 1.0, &all_faces(), mode),
        // Areas of 2^-41, below 1e-12: all are dropped, their new vertices stay.
        square("dropped caps", 1.0 / 1_048_576.0, &all_faces(), mode),
    ];
    // The same three corners again, the other way round, before the first and behind it.
    for place in [0, 2, 4] {
        let mut list = all_faces();
        list.insert(place, [0, 2, 4, 6]);
        requests.push(c15(&list));
    }
    // A cap across the open edges: it joins what lies below with what lies above.
    let mut list = all_faces();
    list.insert(4, [0, 4, 6, 5]);
    requests.push(c15(&list));
    // Without a face: 11, or a hole.
    for face in 0..6 {
        let mut faces = FACES;
        faces[face] = &[];
        requests.push(c15(&faces.concat()));
    }
    // 10 at every kind of fault, with a fault behind it and no edge of XMax.
    for fault in [
        [6, 4, 6, 2],
        [u64::MAX, 4, 6, 2],
        [0, 4, 4, 2],
        [0, 4, 2, 4],
        [0, 2, 4, 4],
        [0, 4, 6, 8],
        [0, 4, 6, 12],
        [0, 4, 6, (1 << 32) + 2],
        [0, 4, 6, u64::MAX],
    ] {
        let list = [FACES[0], &[fault], FACES[2], FACES[0]].concat();
        requests.push(c15(&list));
    }
    requests.push(c15(&[FACES[1], FACES[0]].concat()));
    requests.push(c15(&[]));
    requests
}

/// Single facets whose caps show one rule each.
fn facets(mode: u32) -> Vec<Request> {
    // On XMin, YMin and ZMin at once: one candidate for the first two corners, so that
    // its pair with the third is open both ways.
    let near = 3.0 / 8192.0;
    let both_ways = [[-near; 3], [near; 3], [0.0, 1.0, 0.0]];
    let thin = [0.0, 0.0, 0.0, 1.0, 1e-13, 1.0];
    let line = [[0.0, 0.0, 0.25], [0.0, 0.0, 0.75], [0.5, 0.0, 0.5]];
    let small = [0.0, 0.0, 0.0, 0.1, 0.1, 0.1];
    let few = [[0.0, 0.0, 0.0], [0.0, 1.0, 0.0], [0.0, 0.0, 0.01]];
    let flat = [[0.25, 0.25, 0.0], [0.75, 0.25, 0.0], [0.25, 0.75, 0.0]];
    let collinear = [[0.25, 0.25, 0.0], [0.5, 0.5, 0.0], [0.75, 0.75, 0.0]];
    // Measured from one corner its double area is 1e-12, from another an ulp more.
    let edge = [
        [9.613183448301506e-7, 1.628462288909172e-6, 0.0],
        [1.4891045419289433e-6, 5.724009107494677e-7, 0.0],
        [2.0089543961703047e-7, 1.2553059998303182e-6, 0.0],
    ];
    let mut requests = vec![
        facet(
            "open both ways",
            both_ways,
            (UNIT, 1.0 / 1024.0),
            &TWO_A_FACE,
            mode,
        ),
        facet(
            "collinear face",
            line,
            (thin, 1e-10),
            &[[2, 0, 1, 2], [3, 0, 1, 2]],
            mode,
        ),
        facet(
            "collinear face",
            line,
            (thin, 1e-10),
            &[[0, 0, 1, 3], [2, 0, 1, 2], [3, 0, 1, 2]],
            mode,
        ),
        facet("two candidates a face", few, (small, 1.0), &[], mode),
        facet("area 0", collinear, (UNIT, 1e-10), &[[4, 0, 1, 2]], mode),
        facet("area 0", collinear, (UNIT, 1e-10), &[[4, 0, 2, 1]], mode),
    ];
    for corners in [
        [0, 1, 2],
        [1, 2, 0],
        [2, 0, 1],
        [0, 2, 1],
        [2, 1, 0],
        [1, 0, 2],
    ] {
        let [a, b, c] = corners;
        requests.push(facet(
            "on its face",
            flat,
            (UNIT, 1e-10),
            &[[4, a, b, c]],
            mode,
        ));
        requests.push(facet(
            "around 1e-12",
            edge,
            (UNIT, 0.0),
            &[[4, a, b, c]],
            mode,
        ));
    }
    requests
}

/// Where the list is not looked at.
fn unchanged(mode: u32) -> Vec<Request> {
    let junk = [[9, 9, 9, 9]];
    let corners = [
        [0.25; 3],
        [0.5, 0.25, 0.25],
        [0.25, 0.5, 0.25],
        [0.25, 0.25, 0.5],
    ];
    let mut closed = Request::new(
        "closed",
        corners.concat(),
        vec![0, 2, 1, 0, 1, 3, 1, 2, 3, 0, 3, 2],
        UNIT,
        1e-10,
    );
    closed.caps = junk.concat();
    closed.mode = mode;
    let mut no_facet = closed.clone();
    no_facet.facets.clear();
    // Its one open edge has one end: vertex 0 lies on XMin, vertex 1 anywhere.
    let mut one_end = closed.clone();
    one_end.vertices = vec![0.0, 0.5, 0.5, 7.0, 8.0, 9.0];
    one_end.facets = vec![0, 0, 1];
    vec![
        square("a list of junk", 1.0, &junk, 0),
        closed,
        no_facet,
        one_end,
    ]
}

/// A vertex that no facet uses takes over a corner of the square.
fn taken_over(mode: u32) -> Request {
    let mut request = square("taken over", 1.0, &all_faces(), mode);
    request.vertices.extend([1e-11, 0.0, 0.5]);
    request
}

/// A cap with the grid point that the exact length of an open edge keeps; by document 01's length its number would be one of
/// another face, and test 10 would refuse it.
fn kept_point() -> Request {
    let extents = [-1.0, -1.0, 0.0, 1.0, 1.0, 1.0];
    let list = [[4, 0, 1, 19], [4, 0, 1, 2]];
    facet("a kept point", KEPT, (extents, 0.0), &list, NEGATIVE)
}

/// Numbers that are no mode: refused as 4, behind 1, 2 and 3 and before all others.
fn no_mode() -> Vec<Chosen> {
    let with = |mode, room, change: fn(&mut Request)| {
        let mut request = square("no mode", 1.0, &all_faces(), mode);
        change(&mut request);
        Chosen { request, room }
    };
    vec![
        with(3, Room::Exact, |_| {}),
        with(u32::MAX, Room::Exact, |_| {}),
        with(3, Room::Exact, |r| r.caps.truncate(7)),
        with(3, Room::Exact, |r| r.facets.truncate(5)),
        with(3, Room::Exact, |r| r.ceiling = 3),
        with(3, Room::Exact, |r| r.facets[5] = 4),
        with(3, Room::Exact, |r| r.vertices[0] = f64::INFINITY),
        with(3, Room::Exact, |r| r.extents[3] = 0.0),
        with(3, Room::Exact, |r| r.resolution = power(-9)),
        with(3, Room::Exact, |r| r.facets.clear()),
        with(3, Room::ShortWork, |_| {}),
        with(3, Room::Nothing, |_| {}),
    ]
}

/// Each refusal of the table before the next one's fault, and cap lists of odd lengths.
fn in_order() -> Vec<Request> {
    let with = |change: fn(&mut Request)| {
        let mut request = square("in order", 1.0, &all_faces(), POSITIVE);
        change(&mut request);
        request
    };
    vec![
        with(|r| r.caps.truncate(1)),
        with(|r| r.caps.truncate(2)),
        with(|r| r.caps.truncate(7)),
        with(|r| r.caps.push(0)),
        with(|r| {
            r.caps.push(0);
            r.facets[0] = 4;
        }),
        with(|r| {
            r.facets[0] = 4;
            r.resolution = 0.0;
        }),
        with(|r| {
            r.resolution = 0.0;
            r.extents[3] = 0.0;
        }),
        with(|r| {
            r.extents[3] = 0.0;
            r.resolution = power(-9);
        }),
        with(|r| r.resolution = power(-9)),
        // 8, of a vertex that no facet uses, before 9; 9 before 10; 10 before 11.
        with(|r| {
            r.vertices.extend([0.0, 0.0, LARGEST]);
            r.vertices[0] = 0.5;
        }),
        with(|r| {
            r.vertices[0] = 0.5;
            r.caps[1] = 99;
        }),
        with(|r| {
            r.caps.truncate(8);
            r.caps[5] = 99;
        }),
        // A list that is not looked at is counted all the same.
        with(|r| {
            r.mode = 0;
            r.caps.truncate(3);
        }),
        // Nor is a mesh over its ceiling given back unchanged.
        with(|r| {
            r.mode = 0;
            r.ceiling = 3;
        }),
        // Without a mode to close by, neither 8 nor 9 is tested.
        with(|r| {
            r.mode = 0;
            r.vertices.extend([0.0, 0.0, LARGEST]);
            r.vertices[0] = 0.5;
        }),
    ]
}

pub fn chosen() -> Vec<Chosen> {
    let mut requests = Vec::new();
    for mode in [POSITIVE, NEGATIVE] {
        requests.extend(lists(mode));
        requests.extend(facets(mode));
        requests.extend(unchanged(mode));
        requests.push(taken_over(mode));
    }
    requests.push(kept_point());
    let mut all: Vec<Chosen> = requests.into_iter().map(ample).collect();
    all.extend(in_rooms(&square("C15", 1.0, &all_faces(), NEGATIVE)));
    all.extend(ceilings::around(&square(
        "C15",
        1.0,
        &all_faces(),
        POSITIVE,
    )));
    all.extend(no_mode());
    all.extend(in_order().into_iter().map(|request| Chosen {
        request,
        room: Room::Exact,
    }));
    all
}

#[cfg(test)]
mod tests {
    use super::*;
    use crate::lent::{Lent, Old};
    use std::collections::BTreeSet;

    /// Both sides of each rule are met: the replies of a family, with their values.
    #[test]
    fn rules_show() {
        let operation = crate::caps::OPERATION;
        let mut work = Lent::new(0, Old::Junk);
        let mut met = BTreeSet::new();
        for chosen in chosen() {
            let request = chosen.with_room(&operation, &mut work);
            let reply = (operation.oracle)(&request, &mut work).reply;
            met.insert((request.family, request.mode, reply.number, reply.values));
        }
        let has = |family, mode, number, a, b| {
            assert!(
                met.contains(&(family, mode, number, [a, b, 0, 0])),
                "{family}, {mode}: {number} {a} {b} of {met:?}"
            )
        };
        has("C15", POSITIVE, 0, 24, 36);
        has("C15", NEGATIVE, 0, 24, 36);
        has("dropped caps", POSITIVE, 0, 24, 6);
        has("around 1e-12", POSITIVE, 0, 9, 3);
        has("around 1e-12", NEGATIVE, 0, 9, 6);
        has("around 1e-12", NEGATIVE, 0, 9, 3);
        has("collinear face", POSITIVE, 11, 0, 0);
        has("collinear face", POSITIVE, 0, 9, 6);
        has("on its face", POSITIVE, 0, 9, 6);
        has("on its face", NEGATIVE, 0, 9, 3);
        has("open both ways", POSITIVE, 0, 27, 39);
        has("open both ways", NEGATIVE, 0, 9, 3);
        has("two candidates a face", NEGATIVE, 0, 9, 3);
        has("C15's list, changed", POSITIVE, 10, 4, 0);
        has("C15's list, changed", POSITIVE, 11, 2, 0);
        has("closed", NEGATIVE, 0, 12, 12);
        has("a list of junk", 0, 0, 12, 6);
        has("taken over", POSITIVE, 0, 27, 36);
        has("a kept point", NEGATIVE, 0, 12, 6);
        has("no mode", u32::MAX, 4, 0, 0);
        for number in [1, 2, 3, 4] {
            has("no mode", 3, number, 0, 0);
        }
        for number in [1, 3, 4, 5, 6, 8] {
            has("in order", POSITIVE, number, 0, 0);
        }
        has("in order", POSITIVE, 9, 0, 3);
        has("in order", POSITIVE, 10, 1, 0);
        has("in order", 0, 1, 0, 0);
        has("in order", 0, 2, 0, 0);
        has("in order", 0, 0, 15, 6);
    }
}
