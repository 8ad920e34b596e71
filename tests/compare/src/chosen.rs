//! Requests chosen by hand for the file of stored answers: the traps that document 01
//! names, each refusal, and the refusals in their order; and some for the comparison alone,
//! which are too large to be stored.

mod boundary_components;
mod candidates;
mod caps;
mod ceilings;

pub use ceilings::{around_listed, handheld};

use crate::boxes::LARGEST;
use crate::clip::KNOWN;
use crate::lent::Lent;
use crate::operation::{lengths, Operation};
use crate::request::Request;
use oracle::Extents;

/// Work room and outputs of a chosen request.
#[derive(Clone, Copy)]
pub enum Room {
    /// Outputs longer than the result.
    Ample,
    Exact,
    /// One element more than the result in every output.
    OneMore,
    /// One word less than test 7 asks for.
    ShortWork,
    NoWork,
    /// One element less than the result in the output of this place.
    Short(usize),
    /// The output of this place is empty, the others exact.
    Empty(usize),
    NoOutput,
    /// Neither work room nor outputs.
    Nothing,
}

pub struct Chosen {
    pub request: Request,
    pub room: Room,
}

impl Chosen {
    pub fn with_room(self, operation: &Operation, work: &mut Lent<u64>) -> Request {
        let mut request = self.request;
        // Its lengths are not asked for: it may be large.
        if matches!(self.room, Room::Nothing) {
            request.work = 0;
            request.outputs = [0; 4];
            return request;
        }
        request.work = (operation.need)(&request) as usize;
        request.outputs = lengths(operation, &request, work);
        match self.room {
            Room::Ample => request.outputs = request.outputs.map(|length| length + 4),
            Room::Exact => {}
            Room::OneMore => request.outputs = request.outputs.map(|length| length + 1),
            Room::ShortWork => request.work -= 1,
            Room::NoWork => request.work = 0,
            Room::Short(place) => request.outputs[place] -= 1,
            Room::Empty(place) => request.outputs[place] = 0,
            Room::NoOutput | Room::Nothing => request.outputs = [0; 4],
        }
        request
    }
}

const UNIT: Extents = [0.0, 0.0, 0.0, 1.0, 1.0, 1.0];

/// A facet beside the grid point (0, 0, 0) of the box from (-1, -1, 0) to (1, 1, 1).
const KEPT: [[f64; 3]; 3] = [
    [0.0, 1.45e-9, 0.0],
    [0.8, -0.83999999855, 0.0],
    [0.5, 0.5, 0.0],
];

fn power(exponent: i32) -> f64 {
    2f64.powi(exponent)
}

fn ample(request: Request) -> Chosen {
    Chosen {
        request,
        room: Room::Ample,
    }
}

/// One facet.
fn facet(family: &'static str, corners: [[f64; 3]; 3], extents: Extents, eps: f64) -> Request {
    Request::new(family, corners.concat(), vec![0, 1, 2], extents, eps)
}

/// Three facets in and across the unit box that share vertices, one of which none uses.
fn sound() -> Request {
    let vertices = [
        [0.25, 0.25, 0.5],
        [0.75, 0.25, 0.5],
        [9.0, 9.0, 9.0],
        [0.25, 0.75, 0.5],
        [1.75, 0.75, 0.5],
    ];
    let facets = vec![3, 0, 1, 1, 4, 3, 0, 1, 3];
    Request::new("refused or not", vertices.concat(), facets, UNIT, 1e-10)
}

/// The same request with all kinds of room.
fn in_rooms(request: &Request) -> Vec<Chosen> {
    let rooms = [
        Room::Ample,
        Room::Exact,
        Room::ShortWork,
        Room::NoWork,
        Room::Short(0),
        Room::Short(1),
        Room::NoOutput,
    ];
    let with = |room| Chosen {
        request: request.clone(),
        room,
    };
    rooms.map(with).into()
}

pub fn clip() -> Vec<Chosen> {
    let mut all: Vec<Chosen> = clip_traps().into_iter().map(ample).collect();
    let refused = list_faults(&sound())
        .into_iter()
        .chain(number_faults(&sound()))
        .chain(box_faults(&sound()));
    all.extend(refused.map(ample));
    all.extend(in_rooms(&sound()));
    all.extend(ceilings::around(&sound()));
    // No facet, no vertex: nothing is written, into nothing.
    for facets in [Vec::new(), vec![0, 0, 0]] {
        let mut request = sound();
        request.facets = facets;
        all.push(ample(request.clone()));
        request.vertices.clear();
        request.facets.clear();
        all.push(Chosen {
            request,
            room: Room::NoOutput,
        });
    }
    all
}

pub fn clean() -> Vec<Chosen> {
    let mut all: Vec<Chosen> = clean_traps().into_iter().map(ample).collect();
    let base = cleanable();
    let refused = list_faults(&base).into_iter().chain(number_faults(&base));
    all.extend(refused.map(ample));
    all.extend(in_rooms(&base));
    all.extend(ceilings::around(&base));
    // Refusal 7 comes before 8.
    let mut far = base;
    far.eps = 0.0;
    far.vertices[7] = LARGEST;
    all.extend([Room::Ample, Room::ShortWork].map(|room| Chosen {
        request: far.clone(),
        room,
    }));
    all
}

pub fn candidates() -> Vec<Chosen> {
    candidates::chosen()
}

pub fn boundary_components() -> Vec<Chosen> {
    boundary_components::chosen()
}

pub fn caps() -> Vec<Chosen> {
    caps::chosen()
}

/// What goes wrong first in a port of clip.
fn clip_traps() -> Vec<Request> {
    let around = [-8.0, -8.0, -8.0, 1.0, 8.0, 8.0];
    let origin = [0.0, 0.0, 0.0];
    let mut all = vec![
        // C5: a fan of two facets.
        facet(
            "worked block",
            [origin, [4.0, 0.0, 0.0], [0.0, 4.0, 0.0]],
            [-1.0, -1.0, -1.0, 2.0, 8.0, 8.0],
            power(-20),
        ),
        // C4 as a facet: inside differs, the crossing is nothing, a corner stays outside.
        facet(
            "worked block",
            [
                [1.0 - power(-53), 0.5, 0.5],
                [0.0, 0.5, 0.5],
                [1.5, 0.75, 0.5],
            ],
            [1.0, 0.0, 0.0, 2.0, 1.0, 1.0],
            0.75 * power(-53),
        ),
        // The walk begins with the last corner, and a corner on the plane is written twice.
        facet(
            "walk",
            [origin, [1.0, 0.0, 0.0], [2.0, 1.0, 0.0]],
            around,
            0.0,
        ),
        facet(
            "walk",
            [[2.0, 1.0, 0.0], origin, [1.0, 0.0, 0.0]],
            around,
            0.0,
        ),
        facet(
            "walk",
            [[1.0, 0.0, 0.0], [2.0, 1.0, 0.0], origin],
            around,
            0.0,
        ),
        facet(
            "walk",
            [[0.0, 0.0, 0.5], [3.0, 0.0, 0.5], [0.0, 3.0, 0.5]],
            [0.0, 0.0, 0.0, 0.1, 0.1, 0.1],
            1.0,
        ),
        // a + t(b - a) at t = 1 is not b.
        facet(
            "walk",
            [[-2.0, 0.0, 0.0], [-power(-53), 0.5, 0.5], [-1.0, 1.0, 0.0]],
            [-1.5, 0.25, -1.0, 0.0, 2.0, 2.0],
            0.0,
        ),
    ];
    // Zeros of either sign beside planes of either sign, and min before max.
    for (x, low, high, eps) in [
        (-0.0, 0.0, 1.0, 0.0),
        (0.0, -0.0, 1.0, 0.0),
        (-0.0, -1.0, 0.0, 0.0),
        (0.0, -1.0, -0.0, 0.0),
        (-0.0, 0.0, 1.0, -0.0),
        (0.0, 0.0, 1.0, 1.0),
        (0.5, 0.0, 1.0, 1.0),
        (1.0, 0.0, 1.0, 1.0),
        (0.5, 0.0, 1.0, 0.75),
        (5e-324, -0.0, 1.0, 0.0),
        (5e-324, -0.0, 1.0, 5e-324),
    ] {
        let corners = [[x, 0.2, 0.2], [x, 0.8, 0.2], [x, 0.2, 0.8]];
        let extents = [low, -9.0, -9.0, high, 9.0, 9.0];
        all.push(facet("snapping", corners, extents, eps));
        let across = [[x, 0.2, 0.2], [x, 0.8, 0.2], [x, 0.2, 9.8]];
        all.push(facet("snapping", across, extents, eps));
    }
    // Ten and thirteen corners, and the same with their corners in another order.
    for (corners, extents) in KNOWN {
        for order in [[0, 1, 2], [1, 2, 0], [2, 1, 0]] {
            let vertices = corners.to_vec();
            all.push(Request::new(
                "many corners",
                vertices,
                order.to_vec(),
                extents,
                0.0,
            ));
        }
    }
    all
}

/// A mesh to clean.
fn cleaned(family: &'static str, points: &[[f64; 3]], facets: &[u32], eps: f64) -> Request {
    Request::new(family, points.concat(), facets.to_vec(), UNIT, eps)
}

/// Two facets that share a side, a lone one, one that is there twice, and vertices to be
/// welded; nine facet numbers and five vertices or more, as the faults want.
fn cleanable() -> Request {
    let points = [
        [0.0, 0.0, 0.0],
        [1.0, 0.0, 0.0],
        [9.0, 9.0, 9.0],
        [1.0, 1.0, 0.0],
        [0.0, 1.0, 0.0],
        [1.0, 1e-11, -0.0],
        [5.0, 0.0, 0.0],
        [6.0, 0.0, 0.0],
        [5.0, 1.0, 0.0],
    ];
    let facets = [0, 1, 3, 0, 3, 4, 6, 7, 8, 3, 0, 5];
    cleaned("refused or not", &points, &facets, 1e-10)
}

fn on_axis(xs: &[f64]) -> Vec<[f64; 3]> {
    xs.iter().map(|&x| [x, 0.0, 0.0]).collect()
}

/// What goes wrong first in a port of clean.
fn clean_traps() -> Vec<Request> {
    let eps = 1.0 / 1024.0;
    let (low, high) = ([-3.0 / 8192.0; 3], [3.0 / 8192.0; 3]);
    let square = |side: f64| {
        [
            [0.0, 0.0, 0.0],
            [side, 0.0, 0.0],
            [side, side, 0.0],
            [0.0, side, 0.0],
        ]
    };
    let two = [0, 1, 2, 0, 2, 3];
    let mut all = vec![
        // C1, C2, C3, C6, C7, C8, C14.
        cleaned("worked block", &on_axis(&[-eps / 2.0, eps / 2.0]), &[], eps),
        cleaned("worked block", &on_axis(&[0.0, eps]), &[], eps),
        cleaned("worked block", &[low, high], &[], eps),
        cleaned("worked block", &square(1.0), &[0, 1, 2], power(-20)),
        cleaned(
            "worked block",
            &square(1.0),
            &[0, 1, 2, 2, 1, 0],
            power(-20),
        ),
        cleaned("worked block", &square(1.0), &two, power(-20)),
        cleaned("worked block", &on_axis(&[4_611_686.0]), &[], 0.0),
        cleaned("worked block", &on_axis(&[4_611_687.0]), &[], 0.0),
        // The first in cell order, neither nearest nor lowest; a facet shows which.
        cleaned("welding", &on_axis(&[0.9, -0.6, 0.2]), &[], 1.0),
        cleaned(
            "welding",
            &[
                [0.9, 0.0, 0.0],
                [-0.6, 0.0, 0.0],
                [0.2, 0.0, 0.0],
                [0.0, 9.0, 0.0],
                [0.0, 9.0, 9.0],
            ],
            &[0, 2, 3, 0, 2, 4],
            1.0,
        ),
        // Chains: only kept vertices are joined to.
        cleaned("welding", &on_axis(&[0.0, 0.75, 1.5, 2.25, 3.0]), &[], 1.0),
        // Zeros of either sign are welded, and the first one's bits stay.
        cleaned("welding", &on_axis(&[-0.0, 0.0]), &[], 0.0),
        cleaned("welding", &on_axis(&[0.0, -0.0]), &[], -0.0),
        // A squared distance that underflows, and one that does not.
        cleaned("welding", &on_axis(&[0.0, 1.5e-162]), &[], 0.0),
        cleaned("welding", &on_axis(&[0.0, 1.6e-162]), &[], 0.0),
        // A squared cross product that underflows, and one that does not.
        cleaned("flat", &square(1e-81), &two, 0.0),
        cleaned("flat", &square(1e-80), &two, 0.0),
        // A dropped facet is no earlier one of the same corners.
        cleaned(
            "flat",
            &square(1.0),
            &[0, 0, 2, 0, 1, 2, 1, 2, 0, 0, 2, 3],
            1e-10,
        ),
        // No facet passes: the welded vertices come back. One passes, none is kept: nothing does.
        cleaned("components", &square(1.0), &[0, 0, 1, 2, 2, 3], 1e-10),
        cleaned("components", &square(1.0), &[0, 0, 1, 1, 2, 3], 1e-10),
        cleaned("components", &square(1.0), &[], 1e-10),
        cleaned("components", &[], &[], 1e-10),
        // Components by a shared vertex alone; vertices are numbered by first use.
        cleaned(
            "components",
            &[
                [0.0, 0.0, 0.0],
                [1.0, 0.0, 0.0],
                [0.0, 1.0, 0.0],
                [4.0, 0.0, 0.0],
                [5.0, 0.0, 0.0],
                [4.0, 1.0, 0.0],
                [8.0, 0.0, 0.0],
                [9.0, 0.0, 0.0],
                [8.0, 1.0, 0.0],
            ],
            &[6, 7, 8, 3, 4, 5, 2, 1, 0, 0, 5, 4],
            1e-10,
        ),
    ];
    // Keys at 2^62, and one step of eps less.
    for eps in [power(-32), power(-32).next_down()] {
        all.push(cleaned("keys", &on_axis(&[LARGEST, -LARGEST]), &[], eps));
        all.push(cleaned("keys", &on_axis(&[-LARGEST, 0.0]), &[], eps));
    }
    all
}

/// Refusals 1 and 3, and that 1 comes before 3 and 3 before 4.
fn list_faults(base: &Request) -> Vec<Request> {
    let with = |change: fn(&mut Request)| {
        let mut request = base.clone();
        change(&mut request);
        request
    };
    vec![
        with(|r| r.vertices.truncate(14)),
        with(|r| r.vertices.truncate(1)),
        with(|r| r.vertices.push(0.5)),
        with(|r| r.facets.truncate(8)),
        with(|r| r.facets.push(0)),
        with(|r| r.facets[8] = (r.vertices.len() / 3) as u32),
        with(|r| r.facets[0] = u32::MAX),
        with(|r| r.vertices.clear()),
        with(|r| {
            r.facets[8] = u32::MAX;
            r.vertices.push(0.5);
        }),
        with(|r| {
            r.facets[8] = u32::MAX;
            r.vertices[0] = f64::INFINITY;
        }),
    ]
}

/// Refusal 4 of a coordinate and of eps, and the numbers that are just accepted.
fn number_faults(base: &Request) -> Vec<Request> {
    let largest = [LARGEST, LARGEST.next_up(), f64::MAX, f64::INFINITY];
    let mut all = Vec::new();
    for x in largest.into_iter().chain(largest.map(|x| -x)) {
        let mut request = base.clone();
        // A coordinate of the vertex that no facet uses.
        request.vertices[7] = x;
        all.push(request);
        let mut request = base.clone();
        request.vertices[12] = x;
        all.push(request);
    }
    for eps in [1.0, 1f64.next_up(), -0.0, -5e-324, f64::INFINITY, -1.0] {
        let mut request = base.clone();
        request.eps = eps;
        all.push(request);
    }
    all
}

/// Refusals 4 and 5 of the box.
fn box_faults(base: &Request) -> Vec<Request> {
    let mut all = Vec::new();
    for place in 0..6 {
        let outward = if place < 3 { -1.0 } else { 1.0 };
        let opposite = UNIT[(place + 3) % 6];
        for x in [
            outward * LARGEST,
            outward * LARGEST.next_up(),
            outward * f64::INFINITY,
            -outward * f64::INFINITY,
            opposite,
            opposite - outward,
        ] {
            let mut request = base.clone();
            request.extents[place] = x;
            all.push(request);
        }
    }
    all
}
