//! Requests chosen by hand for candidates.

use super::{ample, box_faults, ceilings, in_rooms, list_faults, number_faults, power};
use super::{Chosen, Room, KEPT, UNIT};
use crate::boxes::LARGEST;
use crate::request::Request;
use oracle::Extents;

/// A request for candidates takes a resolution too.
fn mesh(
    family: &'static str,
    points: &[[f64; 3]],
    facets: &[u32],
    extents: Extents,
    eps: f64,
    resolution: f64,
) -> Request {
    let mut request = Request::new(family, points.concat(), facets.to_vec(), extents, eps);
    request.resolution = resolution;
    request
}

/// In the unit box, whose grid of resolution 1 is its corners.
fn in_unit(family: &'static str, points: &[[f64; 3]], facets: &[u32], eps: f64) -> Request {
    mesh(family, points, facets, UNIT, eps, 1.0)
}

const FINE: f64 = 1e-10;
const LONE: &[u32] = &[0, 1, 2];

/// The facet of C9 at this height.
fn points9(z: f64) -> [[f64; 3]; 3] {
    [[0.0, 0.0, z], [1.0, 0.0, z], [0.0, 1.0, z]]
}

/// Three facets on a face of the unit box that share sides, and a vertex that none uses; nine
/// facet numbers and five vertices, as the faults want.
fn sound() -> Request {
    let points = [
        [0.0, 0.25, 0.25],
        [0.0, 0.75, 0.25],
        [0.5, 0.5, 0.5],
        [0.0, 0.25, 0.75],
        [0.0, 0.75, 0.75],
    ];
    in_unit(
        "refused or not",
        &points,
        &[0, 1, 3, 3, 1, 4, 0, 3, 4],
        FINE,
    )
}

/// The same facets with one open edge on no face.
fn stray(base: &Request) -> Request {
    let mut request = base.clone();
    request.vertices[12] = 0.5;
    request
}

/// A box whose corners are one candidate, so that all four outputs are short.
fn tiny() -> Request {
    let side = power(-44);
    let points = [[0.0, 0.0, 0.0], [0.0, 0.5, 0.0], [0.0, 0.0, 0.5]];
    let extents = [0.0, 0.0, 0.0, side, side, side];
    mesh("refused or not", &points, LONE, extents, FINE, 1.0)
}

pub fn chosen() -> Vec<Chosen> {
    let base = sound();
    let behind = [worked_blocks(), edges(), points(), sides()].concat();
    let exact = [
        grids(),
        lengths(),
        list_faults(&base),
        number_faults(&base),
        some_box_faults(&base),
        resolution_faults(&base),
        key_faults(),
        stray_edges(),
        in_order(&base),
    ]
    .concat();
    let mut all: Vec<Chosen> = behind.into_iter().map(ample).collect();
    all.extend(exact.into_iter().map(|request| Chosen {
        request,
        room: Room::Exact,
    }));
    all.extend(in_rooms(&tiny()));
    all.extend(in_few_rooms(&base));
    all.extend(ceilings::around(&base));
    all
}

/// Requests with little room: C13's 256 segments, and the refusals beside 7 and 12.
fn in_few_rooms(base: &Request) -> Vec<Chosen> {
    let mut far = base.clone();
    far.vertices[7] = LARGEST;
    let none = in_unit("no facet", &points9(0.0), &[], FINE);
    let with = |request: &Request, room| Chosen {
        request: request.clone(),
        room,
    };
    vec![
        with(&tiny(), Room::Short(2)),
        with(&tiny(), Room::Short(3)),
        // Not refused by 6: 7 has the need.
        with(&long(256.0), Room::Nothing),
        // 6 before 7, 7 before 8 and 9, 8 and 9 before 12.
        with(&long(257.0), Room::Nothing),
        with(&far, Room::ShortWork),
        with(&far, Room::NoOutput),
        with(&stray(base), Room::ShortWork),
        with(&stray(base), Room::NoOutput),
        // Nothing is written, into nothing; the work room is asked for.
        with(&none, Room::NoOutput),
        with(&none, Room::ShortWork),
    ]
}

/// C13 with this length.
fn long(length: f64) -> Request {
    let extents = [0.0, 0.0, 0.0, length, 1.0, 1.0];
    mesh("worked block", &points9(0.0), LONE, extents, 0.0, 1.0)
}

/// C9, C10, C13's refusal, C3b and C15.
fn worked_blocks() -> Vec<Request> {
    let two = [0.0, 0.0, 0.0, 2.0, 2.0, 2.0];
    let (low, high) = ([-3.0 / 8192.0; 3], [3.0 / 8192.0; 3]);
    let eps = 1.0 / 1024.0;
    let third = [0.0, 1.0, 0.0];
    let square = [
        [0.0, 0.0, 0.5],
        [1.0, 0.0, 0.5],
        [1.0, 1.0, 0.5],
        [0.0, 1.0, 0.5],
    ];
    let halves = [0, 1, 2, 0, 2, 3];
    // A fifth vertex, used by no facet, takes over the first corner.
    let taken = [&square[..], &[[1e-11, 0.0, 0.5]]].concat();
    let block =
        |points: &[[f64; 3]], facets: &[u32], eps| in_unit("worked block", points, facets, eps);
    vec![
        mesh("worked block", &points9(1.0), LONE, two, FINE, 2.0),
        mesh("worked block", &points9(0.0), LONE, two, FINE, 2.0),
        long(257.0),
        block(&[low, high, third], LONE, eps),
        block(&[high, low, third], LONE, eps),
        block(&square, &halves, FINE),
        block(&taken, &halves, FINE),
    ]
}

/// Which edges are open, on which faces, and with how many ends.
fn edges() -> Vec<Request> {
    let on_face = [
        [0.25, 0.25, 0.0],
        [0.75, 0.25, 0.0],
        [0.5, 0.75, 0.0],
        [0.5, 0.125, 0.0],
        [0.25, 0.875, 0.0],
        [0.75, 0.875, 0.0],
    ];
    let solid = [
        [0.25, 0.25, 0.25],
        [0.75, 0.25, 0.25],
        [0.25, 0.75, 0.25],
        [0.25, 0.25, 0.75],
    ];
    let inside = [[0.5, 0.5, 0.5], [0.25, 0.25, 0.0]];
    let on = |facets: &[u32]| in_unit("open edges", &on_face, facets, FINE);
    let mut all = vec![
        // Two, three and four sides on an edge; a facet given twice, and turned.
        on(&[0, 1, 2, 1, 0, 3]),
        on(&[0, 1, 2, 1, 0, 3, 0, 1, 4]),
        on(&[0, 1, 2, 0, 1, 3, 0, 1, 4, 1, 0, 5]),
        on(&[0, 1, 2, 0, 1, 2]),
        on(&[0, 1, 2, 2, 1, 0]),
        // An edge a, a is open; one of three sides a, a is not.
        on(&[0, 0, 1]),
        on(&[0, 1, 0]),
        on(&[1, 0, 0]),
        on(&[0, 0, 0]),
        on(&[0, 0, 1, 0, 1, 2]),
        in_unit("open edges", &inside, &[0, 0, 1], FINE),
        in_unit("open edges", &inside, &[1, 1, 0], FINE),
        // A closed mesh within the box, and no facet at all.
        in_unit(
            "open edges",
            &solid,
            &[0, 2, 1, 0, 1, 3, 1, 2, 3, 0, 3, 2],
            FINE,
        ),
        in_unit("no facet", &on_face, &[], FINE),
        in_unit("no facet", &[], &[], FINE),
        // Faces are whole planes.
        in_unit(
            "open edges",
            &[[0.0, 5.0, 5.0], [0.0, 6.0, 5.0], [0.0, 5.0, 6.0]],
            LONE,
            FINE,
        ),
    ];
    // No facet: keys are not looked at.
    let mut far = in_unit("no facet", &[[LARGEST, 0.0, 0.0]], &[], 0.0);
    all.push(far.clone());
    far.facets = vec![0, 0, 0];
    all.push(far);
    // All corners in one cell, and two of them.
    for far in [3e-11, 3e-10] {
        let points = [
            [0.0, 0.5, 0.5],
            [0.0, 0.5 + 3e-11, 0.5],
            [0.0, 0.5, 0.5 + far],
        ];
        all.push(in_unit("open edges", &points, LONE, FINE));
    }
    // Each face; XMin and ZMin have many here.
    for face in [1, 2, 3, 5] {
        let plane = (face % 2) as f64;
        let mut points = [[plane, 0.5, 0.25], [plane, 0.25, 0.75], [plane, 0.75, 0.75]];
        for point in &mut points {
            point.rotate_right(face / 2);
        }
        all.push(in_unit("each face", &points, LONE, FINE));
    }
    all
}

/// Which point and which mesh vertex a candidate has.
fn points() -> Vec<Request> {
    let eps = 0.25;
    let ends = [[0.0, 0.0, 0.0], [0.5, 0.0, 0.0], [0.0, 0.5, 0.0]];
    let with = |more: &[[f64; 3]]| {
        let points = [&ends[..], more].concat();
        in_unit("one key", &points, LONE, eps)
    };
    let half = [[0.5, 0.5, 0.5], [0.0, 0.5, 0.5], [1.0, 0.5, 0.25]];
    let mut all = vec![
        // A later vertex on two faces replaces number and point; the last one stays.
        with(&[[0.1, 0.1, 0.1]]),
        with(&[[0.1, 0.1, 0.1], [-0.1, 0.0, 0.1]]),
        // One in the next cell, at the half, is a candidate of its own; the other replaces.
        with(&[[0.125, 0.0, 0.0], [0.12, 0.0, 0.0]]),
        // One on a face alone, in the cell of a corner, is not entered.
        in_unit(
            "one key",
            &[
                [0.0, 0.0, 0.0],
                [0.5, 0.0, 0.0],
                [0.5, 0.5, 0.0],
                [0.45, 0.45, 0.0],
            ],
            LONE,
            eps,
        ),
        // In the cell of a box corner: the grid adds faces and leaves the point.
        with(&[[1.1, 0.9, 1.1]]),
        // An edge on six faces, and a step of eps less.
        in_unit("half a side", &half, LONE, 0.5),
        in_unit("half a side", &half, LONE, 0.5f64.next_down()),
        in_unit("half a side", &[[0.5; 3], [0.75; 3], [0.25; 3]], LONE, 0.75),
        in_unit("half a side", &half, LONE, 1.0),
        // A box thinner than eps: two candidates on each face, so no constraint.
        mesh(
            "two candidates",
            &[[0.0, 0.0, 0.0], [0.0, 1.0, 0.0], [0.0, 0.0, 0.01]],
            LONE,
            [0.0, 0.0, 0.0, 0.1, 0.1, 0.1],
            1.0,
            1.0,
        ),
        mesh(
            "two candidates",
            &[[0.0, 0.0, 0.0], [0.0, 1.0, 0.0], [1.0, 0.0, 0.01]],
            LONE,
            [0.0, 0.0, 0.0, 0.1, 0.1, 0.1],
            1.0,
            1.0,
        ),
    ];
    // Planes at -0.0, with corners at zeros of either sign: the grid writes 0.0.
    for extents in [
        [-0.0, -0.0, -0.0, 1.0, 1.0, 1.0],
        [-1.0, -1.0, -1.0, -0.0, -0.0, -0.0],
    ] {
        for z in [0.0, -0.0] {
            let side = extents[0] + extents[3];
            let points = [
                [0.0, -0.0, z],
                [0.5 * side, 0.25 * side, z],
                [0.25 * side, 0.75 * side, z],
            ];
            all.push(mesh("planes at -0.0", &points, LONE, extents, 0.0, 1.0));
        }
    }
    all
}

/// The order along a side.
fn sides() -> Vec<Request> {
    let aside = 0.9e-10;
    let beyond = [[1.0 + aside, 1.0, 0.0], [0.5, 0.5, 0.0], [0.5, 1.0, 0.0]];
    let short = [[-aside, 0.0, 0.0], [0.5, 0.5, 0.0], [0.5, 0.0, 0.0]];
    // Two corners at the start of a side, apart only across it; their parameters are zeros.
    let starts = |x: f64, side: f64| {
        let points = [[0.0, aside, 0.0], [x, -aside, 0.0], [0.5, 0.5, 0.0]];
        let extents = [0.0, 0.0, 0.0, side, 1.0, 1.0];
        mesh("side order", &points, LONE, extents, FINE, side)
    };
    vec![
        // -0.0 before 0.0, which was below 0: on a downward side and on an upward one.
        in_unit("side order", &beyond, LONE, FINE),
        in_unit("side order", &short, LONE, FINE),
        starts(0.0, 1.0),
        starts(-0.0, 1.0),
        starts(-5e-324, 1.0),
        starts(-5e-324, 2.0),
        // A parameter that is infinite, and one of a side that is short.
        mesh(
            "infinite parameter",
            &points9(0.0),
            LONE,
            [0.0, 0.0, 0.0, 5e-324, 1.0, 1.0],
            0.0,
            1.0,
        ),
        mesh(
            "infinite parameter",
            &points9(0.0),
            LONE,
            [0.0, 0.0, 0.0, 1e-300, 1.0, 1.0],
            0.0,
            1.0,
        ),
        // Corners of one parameter keep the order of their places.
        in_unit(
            "side order",
            &[[0.5, aside, 0.0], [0.5, -aside, 0.0], [0.5, 0.5, 0.0]],
            LONE,
            FINE,
        ),
    ]
}

/// A box of two by two by one segments: its faces across z have an interior grid point.
const FLAT: Extents = [0.0, 0.0, 0.0, 2.0, 2.0, 1.0];

/// Grid points on open edges, and numbers of segments.
fn grids() -> Vec<Request> {
    let on = |z: f64, eps: f64, a: [f64; 2], b: [f64; 2]| {
        let points = [[a[0], a[1], z], [b[0], b[1], z], [0.25, 1.75, z]];
        mesh("grid points", &points, LONE, FLAT, eps, 1.0)
    };
    let long = |length: f64, resolution: f64, eps: f64| {
        let extents = [0.0, 0.0, 0.0, length, 0.2, 0.2];
        let points = [[0.0, 0.05, 0.05], [0.0, 0.15, 0.05], [0.0, 0.05, 0.15]];
        mesh("segments", &points, LONE, extents, eps, resolution)
    };
    vec![
        // On the edge; beside it within the bound and beyond; beyond its end.
        on(0.0, FINE, [0.5, 0.5], [1.5, 1.5]),
        on(0.0, FINE, [0.5, 1.0 + 0.5e-9], [1.5, 1.0 + 0.5e-9]),
        on(0.0, FINE, [0.5, 1.0 + 2e-9], [1.5, 1.0 + 2e-9]),
        on(0.0, 0.0, [0.5, 1.0], [1.0 - 2e-12, 1.0]),
        // An end is the grid point: they are one candidate.
        on(1.0, FINE, [0.5, 1.0], [1.0, 1.0]),
        // A border index is not skipped, on a side or where the edge runs across it.
        on(0.0, FINE, [0.5, 0.0], [1.5, 0.0]),
        on(1.0, FINE, [1.0, -0.5], [1.0, 0.5]),
        // Segments by the rounded quotient; eps instead of the resolution.
        long(0.6000000000000001, 0.2, 0.0),
        long(0.6, 0.2, 0.0),
        long(0.5, 5e-324, 0.25),
        long(0.5, LARGEST, FINE),
        // Grid lines that repeat.
        mesh(
            "segments",
            &[[1.0, 0.0, 0.0], [1.0, 0.5, 0.0], [1.0, 0.0, 0.5]],
            LONE,
            [1.0, 0.0, 0.0, 1.0f64.next_up(), power(-53), power(-53)],
            0.0,
            power(-54),
        ),
    ]
}

/// A grid point that the last digit of an edge's length keeps or skips; tests/oracle/src/edge_lengths.rs says how these were
/// found, and has both answers.
fn lengths() -> Vec<Request> {
    let beside = |corners: [[f64; 3]; 3], half: f64, eps: f64| {
        let extents = [-half, -half, 0.0, half, half, 1.0];
        mesh("lengths", &corners, LONE, extents, eps, half)
    };
    let tie = |second: [f64; 3]| beside([[1e-8, 1.0, 0.0], second, [0.0, 2.0, 0.0]], 1e9, 1e-9);
    vec![
        // The exact length, 1.16, keeps the point; document 01's, a step longer, would skip it.
        beside(KEPT, 1.0, 0.0),
        // A root equally near to two doubles: down to the even one, which keeps the point; up, which skips it.
        tie([536_870_920.0, -7.0 - power(-24), 0.0]),
        tie([905_969_682.0, -17.0 - 3.0 * power(-24), 0.0]),
    ]
}

/// Each corner a step beyond its bound, and equal to its opposite; the lowest in all ways.
fn some_box_faults(base: &Request) -> Vec<Request> {
    let few = |place: usize| place < 6 || place % 6 == 1 || place % 6 == 4;
    let faults = box_faults(base).into_iter().enumerate();
    faults
        .filter_map(|(place, request)| few(place).then_some(request))
        .collect()
}

/// Refusals 4 and 6 of the resolution, and what is just accepted.
fn resolution_faults(base: &Request) -> Vec<Request> {
    let mut all = Vec::new();
    for resolution in [
        0.0,
        -0.0,
        -1.0,
        5e-324,
        LARGEST,
        LARGEST.next_up(),
        f64::INFINITY,
        1.0 / 256.5,
    ] {
        let mut request = base.clone();
        request.resolution = resolution;
        all.push(request);
    }
    all
}

/// Keys at 2^62 and one step of eps less, of a vertex and of a box corner.
fn key_faults() -> Vec<Request> {
    let mut all = Vec::new();
    for eps in [power(-32), power(-32).next_down()] {
        let corner = LARGEST - 1.0;
        let points = [[0.5, 0.0, 0.0], [0.5, 1.0, 0.0], [0.5, 0.0, LARGEST]];
        all.push(in_unit("keys", &points, &[0, 0, 1], eps));
        for (low, high) in [(corner, LARGEST), (-LARGEST, -corner)] {
            let points = [[low, 0.25, 0.25], [low, 0.75, 0.25], [low, 0.25, 0.75]];
            let extents = [low, 0.0, 0.0, high, 1.0, 1.0];
            all.push(mesh("keys", &points, LONE, extents, eps, 1.0));
        }
    }
    all
}

/// Refusal 9: the smallest pair, smaller number first, whatever the facets' order.
fn stray_edges() -> Vec<Request> {
    let points = [
        [0.25, 0.25, 0.0],
        [0.75, 0.25, 0.0],
        [0.5, 0.5, 0.5],
        [0.5, 0.75, 0.0],
        [0.75, 0.75, 0.75],
    ];
    let stray = |facets: &[u32]| in_unit("stray edges", &points, facets, FINE);
    vec![
        stray(&[4, 2, 3]),
        stray(&[3, 4, 2, 0, 1, 2]),
        stray(&[0, 1, 3, 2, 4, 1]),
        stray(&[0, 1, 3, 4, 4, 1]),
        stray(&[2, 1, 0, 1, 2, 4, 0, 2, 3]),
        // Both ends on faces, but on no one face; and a step of eps beyond.
        in_unit(
            "stray edges",
            &[[0.0, 0.5, 0.5], [0.5, 0.0, 0.5], [0.5, 0.5, 0.0]],
            LONE,
            FINE,
        ),
        in_unit("stray edges", &points9(power(-20)), LONE, power(-20)),
        in_unit(
            "stray edges",
            &[
                [0.25, 0.25, power(-20)],
                [0.75, 0.25, -power(-20)],
                [0.25, 0.75, power(-20).next_up()],
            ],
            LONE,
            power(-20),
        ),
    ]
}

/// Two faults at once: 4 before 5, 5 before 6, 8 before 9.
fn in_order(base: &Request) -> Vec<Request> {
    let with = |change: fn(&mut Request)| {
        let mut request = base.clone();
        change(&mut request);
        request
    };
    vec![
        with(|r| {
            r.resolution = 0.0;
            r.extents[3] = -1.0;
        }),
        with(|r| {
            r.extents[3] = -1.0;
            r.resolution = power(-40);
        }),
        with(|r| {
            r.vertices[7] = LARGEST;
            r.vertices[12] = 0.5;
        }),
        // A fault of the box and one of the list.
        with(|r| {
            r.extents[3] = f64::INFINITY;
            r.facets[0] = 99;
        }),
    ]
}

#[cfg(test)]
mod tests {
    use crate::candidates::OPERATION;
    use crate::chosen::{Chosen, Room};
    use crate::lent::{Lent, Old};
    use oracle::length::{by, exact, Rule};

    /// Each of them has another answer by the length that it is there to rule out.
    #[test]
    fn lengths_decide() {
        let other = [
            Rule::Rounded,
            Rule::Other(|x, y| exact(x, y).next_up()),
            Rule::Other(|x, y| exact(x, y).next_down()),
        ];
        let mut work = Lent::new(0, Old::Junk);
        for (request, rule) in super::lengths().into_iter().zip(other) {
            let room = Room::Exact;
            let request = Chosen { request, room }.with_room(&OPERATION, &mut work);
            let expected = (OPERATION.oracle)(&request, &mut work);
            assert_eq!(expected.reply.number, 0);
            assert!(by(rule, || (OPERATION.oracle)(&request, &mut work)) != expected);
        }
    }
}
