//! Requests chosen by hand for boundary_components.

use super::{ample, Chosen, Room};
use crate::boundary_meshes::{
    cube, from, polygon, sheet, torus, turned, used, without, Facet, TETRAHEDRON,
};
use crate::ceilings::{LISTED, OFFICE};
use crate::request::Request;

pub fn chosen() -> Vec<Chosen> {
    let mut all: Vec<Chosen> = Vec::new();
    let lists = [rings(), bearers(), one_end(), no_rings(), closed()];
    all.extend(lists.concat().into_iter().map(ample));
    all.extend(vertex_counts());
    all.extend(list_faults().into_iter().map(ample));
    all.extend(rooms());
    all.extend(ceilings());
    all
}

/// A mesh that has just the vertices that its facets name.
fn mesh(family: &'static str, facets: &[Facet]) -> Request {
    Request::counted(family, used(facets).into(), facets.concat())
}

/// "C8's square has one slit, a ring of four."
fn c8() -> Request {
    mesh("worked block", &[[0, 1, 2], [0, 2, 3]])
}

/// Rings, and the order of components and edges.
fn rings() -> Vec<Request> {
    let of = |facets: &[Facet]| mesh("rings", facets);
    let hole = |cells: &[usize]| {
        let facets = sheet(3, 3);
        let kept = |&at: &usize| !cells.contains(&(at / 2));
        let left: Vec<Facet> = (0..18).filter(kept).map(|at| facets[at]).collect();
        of(&left)
    };
    vec![
        c8(),
        of(&[[0, 1, 2]]),
        of(&[[0, 2, 1]]),
        of(&[[5, 2, 7]]),
        // The later facet has the smaller edge.
        of(&[[3, 4, 5], [0, 1, 2]]),
        // In the order of edges the two components would stand mixed.
        of(&[[1, 2, 4], [0, 3, 5]]),
        of(&[[0, 1, 8], [2, 3, 7], [4, 5, 6]]),
        // Numbers jump, so that a component grows together from far ends.
        of(&polygon(&[0, 9, 1, 8, 2, 7, 3, 6, 4, 5])),
        of(&[polygon(&[5, 4, 9, 0, 11]), polygon(&[1, 10, 3, 7, 2, 6, 8])].concat()),
        of(&[polygon(&[0, 7, 6, 5]), polygon(&[1, 2, 3, 4])].concat()),
        // Outside and a hole; holes side by side, which are one; at the border.
        hole(&[4]),
        hole(&[3, 4]),
        hole(&[0]),
        of(&sheet(2, 3)),
    ]
}

/// Edges with two and more bearers, either way round.
fn bearers() -> Vec<Request> {
    let of = |facets: &[Facet]| mesh("bearers", facets);
    let (up, down) = ([0, 1, 2], [2, 1, 0]);
    vec![
        of(&[up, up]),
        of(&[up, down]),
        of(&[up, [1, 2, 0]]),
        of(&[up, up, up]),
        of(&[up, down, up]),
        of(&[up, down, up, down]),
        of(&[up, up, down, down, up]),
        // C8's square with a facet turned: its inner edge runs the same way twice.
        of(&[[0, 1, 2], [0, 3, 2]]),
        // Three and four facets around an edge; four that run either way twice.
        of(&[[0, 1, 2], [1, 0, 3], [0, 1, 4]]),
        of(&[[0, 1, 2], [0, 1, 3], [0, 1, 4]]),
        of(&[[0, 1, 2], [1, 0, 3], [0, 1, 4], [1, 0, 5]]),
        // The irregular edge has larger numbers than the open ones, and smaller ones.
        of(&[[4, 3, 0], [3, 4, 1], [4, 3, 2]]),
        // A band with half a twist: one ring, and one edge where the twist shows.
        of(&[
            [0, 1, 2],
            [2, 1, 3],
            [2, 3, 4],
            [4, 3, 5],
            [4, 5, 1],
            [1, 5, 0],
        ]),
    ]
}

/// Edges from a vertex to itself: "an edge a, a counts as the same way".
fn one_end() -> Vec<Request> {
    let of = |facets: &[Facet]| mesh("an edge a, a", facets);
    vec![
        // Borne once, at each place of a facet; twice; three times, by one facet and by three.
        of(&[[0, 0, 1]]),
        of(&[[0, 1, 0]]),
        of(&[[1, 0, 0]]),
        of(&[[0, 0, 1], [0, 0, 2]]),
        of(&[[0, 0, 1], [0, 1, 0]]),
        of(&[[0, 0, 0]]),
        of(&[[0, 0, 1], [2, 0, 0], [0, 3, 0]]),
        of(&[[0, 0, 0], [0, 0, 1]]),
        of(&[[3, 3, 3], [0, 0, 1], [1, 1, 2]]),
        // At a ring's corner; two at the ends of an edge, where each vertex has two edges.
        of(&[[0, 1, 2], [1, 1, 3]]),
        of(&[[0, 0, 2], [1, 1, 2], [0, 1, 2]]),
        // Beside a ring: a component each.
        of(&[[1, 2, 3], [0, 0, 4]]),
        of(&[[0, 1, 2], [4, 3, 3]]),
        // Two on neighbours, whose edge is closed: no chain joins them.
        of(&[[0, 0, 1], [1, 1, 2]]),
    ]
}

/// Components that are no rings.
fn no_rings() -> Vec<Request> {
    let of = |facets: &[Facet]| mesh("no ring", facets);
    let sheet = sheet(3, 3);
    let left_out = |places: &[usize]| {
        let kept = (0..18).filter(|at| !places.contains(at));
        of(&kept.map(|at| sheet[at]).collect::<Vec<_>>())
    };
    vec![
        // A triangle with a tail: as many edges as vertices.
        of(&TAIL),
        // A path, whose ends have one edge.
        of(&[[0, 1, 2], [0, 2, 2], [3, 2, 2]]),
        // Rings that touch at a vertex, at the smallest, a middle and the largest one.
        of(&[[0, 1, 2], [2, 3, 4]]),
        of(&[[0, 1, 2], [0, 3, 4]]),
        of(&[[0, 1, 4], [2, 3, 4]]),
        of(&[[0, 1, 2], [0, 3, 4], [0, 5, 6]]),
        // At two vertices; three facets in a round.
        of(&[polygon(&[0, 1, 2, 3]), polygon(&[0, 4, 2, 5])].concat()),
        of(&[[0, 1, 2], [2, 3, 4], [4, 5, 0]]),
        // Joined by a third that comes last.
        of(&[[0, 1, 2], [5, 6, 7], [2, 9, 5], [3, 4, 8]]),
        // Two holes that touch each other, one that touches the outside.
        left_out(&[8, 10, 11, 15]),
        left_out(&[8, 9, 0, 1]),
        left_out(&[5]),
        // The same, and a ring behind it.
        of(&[[0, 1, 2], [2, 3, 4], [5, 6, 7]]),
    ]
}

/// Closed surfaces and what is next to them.
fn closed() -> Vec<Request> {
    let of = |facets: &[Facet]| mesh("closed", facets);
    let tetrahedra = |first: u32| of(&[TETRAHEDRON.to_vec(), from(first, &TETRAHEDRON)].concat());
    vec![
        of(&TETRAHEDRON),
        of(&cube()),
        of(&torus(3, 3)),
        of(&without(2, &TETRAHEDRON)),
        of(&turned(2, &TETRAHEDRON)),
        of(&[&TETRAHEDRON[..], &TETRAHEDRON[..1]].concat()),
        of(&without(5, &cube())),
        of(&turned(5, &cube())),
        of(&without(0, &turned(1, &torus(3, 3)))),
        // Two that share nothing, a vertex, an edge, which four sides bear, and a facet.
        tetrahedra(4),
        tetrahedra(3),
        tetrahedra(2),
        tetrahedra(1),
        // A facet that sticks out of a closed surface.
        of(&[&TETRAHEDRON[..], &[[0, 1, 4]]].concat()),
    ]
}

/// A triangle, and an edge at its last corner; the other two edges of that edge's facet have
/// three bearers. All three outputs have something.
const TAIL: [Facet; 4] = [[0, 1, 2], [2, 3, 4], [3, 4, 4], [2, 4, 4]];

/// The count alone: none, unused vertices, one too few, and beyond what test 2 admits, where
/// 32 bits or the words of work room would come out sound.
fn vertex_counts() -> Vec<Chosen> {
    let square = c8().facets;
    let of = |count: u64, facets: &[u32], room| Chosen {
        request: Request::counted("vertex counts", count, facets.to_vec()),
        room,
    };
    let mut all = vec![
        of(0, &[], Room::NoOutput),
        of(0, &[], Room::Ample),
        of(1, &[], Room::Exact),
        of(140, &[], Room::Ample),
        of(140, &[139, 0, 138], Room::Ample),
        of(5, &square, Room::Exact),
        of(3, &square, Room::Exact),
        of(0, &square, Room::Exact),
        of(0, &[0, 0, 0], Room::Exact),
        of(1, &[0, 0, 0], Room::Exact),
        of(OFFICE, &square, Room::Nothing),
        of(OFFICE, &[65_535, 0, 65_534], Room::Nothing),
        of(OFFICE, &[65_536, 0, 65_534], Room::Nothing),
    ];
    for count in [
        OFFICE + 1,
        1 << 32,
        (1 << 32) + 4,
        (1 << 57) - 8,
        1 << 57,
        (1 << 57) + 4,
        1 << 63,
        u64::MAX - 1,
        u64::MAX,
    ] {
        all.push(of(count, &square, Room::Ample));
    }
    // Under the largest ceiling too; and with a number that such a count would allow.
    for count in [1 << 32, u64::MAX] {
        let mut chosen = of(count, &[0, 1, u32::MAX], Room::Ample);
        chosen.request.ceiling = u64::MAX;
        all.push(chosen);
    }
    all
}

/// Refusals 1 and 3, and 1 before 2 and 3.
fn list_faults() -> Vec<Request> {
    let of = |count: u64, facets: &[u32]| Request::counted("list faults", count, facets.to_vec());
    vec![
        of(4, &[0]),
        of(4, &[0, 1]),
        of(4, &[0, 1, 2, 3]),
        of(4, &[0, 1, 2, 3, 0]),
        of(0, &[0]),
        of(1 << 57, &[0]),
        of(u64::MAX, &[0, 1, 2, 3]),
        of(4, &[0, 1, 9, 3]),
        of(4, &[0, 1, 4]),
        of(4, &[4, 1, 0, 0, 1, 2]),
        of(4, &[0, 1, 2, 0, 2, u32::MAX]),
        of(4, &[0, 1, 2, 5, 2, 1]),
    ]
}

/// Work room and outputs of each length, with something to write in all three, in the first
/// two, in the last, and in none.
fn rooms() -> Vec<Chosen> {
    let of = |facets: &[Facet], room| Chosen {
        request: mesh("rooms", facets),
        room,
    };
    let with_all = [
        Room::Ample,
        Room::Exact,
        Room::OneMore,
        Room::ShortWork,
        Room::NoWork,
        Room::Short(0),
        Room::Short(1),
        Room::Short(2),
        Room::Empty(0),
        Room::Empty(1),
        Room::Empty(2),
        Room::NoOutput,
        Room::Nothing,
    ];
    let (ring, twice) = ([[0, 1, 2]], [[0, 1, 2], [0, 1, 2]]);
    let mut all: Vec<Chosen> = with_all.map(|room| of(&TAIL, room)).into();
    all.extend(
        [Room::Exact, Room::Short(0), Room::Short(1), Room::NoOutput].map(|room| of(&ring, room)),
    );
    all.extend([Room::Exact, Room::Short(2), Room::NoOutput].map(|room| of(&twice, room)));
    all.extend([Room::NoOutput, Room::ShortWork].map(|room| of(&TETRAHEDRON, room)));
    all
}

/// Counts at the ceiling, below and above, each by itself; test 2 behind 1 and before 3, 7, 12.
fn ceilings() -> Vec<Chosen> {
    let mut all = Vec::new();
    let mut add = |ceiling: u64, count: u64, facets: &[Facet], room| {
        let mut request = Request::counted("ceilings", count, facets.concat());
        request.ceiling = ceiling;
        all.push(Chosen { request, room });
    };
    // Five vertices and four facets; five and six.
    let more = [&TAIL[..], &TAIL[..2]].concat();
    for ceiling in 3..=6 {
        add(ceiling, 5, &TAIL, Room::Exact);
        add(ceiling, 5, &more, Room::Exact);
    }
    for ceiling in LISTED.into_iter().filter(|&ceiling| ceiling != OFFICE) {
        add(ceiling, 5, &TAIL, Room::Exact);
    }
    for (count, facets, ceiling) in [
        (0, 0, 0),
        (1, 0, 0),
        (0, 1, 0),
        (0, 1, 1),
        (1, 1, 1),
        (2, 1, 1),
        (1, 2, 1),
    ] {
        add(ceiling, count, &vec![[0; 3]; facets], Room::Exact);
    }
    // Admitted, and over the ceiling, with little room.
    for ceiling in [5, 4] {
        for room in [Room::ShortWork, Room::NoOutput, Room::Nothing] {
            add(ceiling, 5, &TAIL, room);
        }
    }
    add(2, 3, &[[0, 1, 3]], Room::Exact);
    add(3, 3, &[[0, 1, 3]], Room::Exact);
    let last = all.len() - 1;
    let mut ragged = all[last].request.clone();
    ragged.facets.push(0);
    ragged.ceiling = 0;
    all.push(Chosen {
        request: ragged,
        room: Room::Exact,
    });
    all
}
