//! Candidates: `yongpham_candidates` beside the oracle, and the requests for it.

use crate::boxes::{self, LARGEST};
use crate::chosen;
use crate::grid_points;
use crate::lent::Lent;
use crate::meshes;
use crate::numbers::near;
use crate::operation::{library, lists_answer, Answer, Operation};
use crate::random::Random;
use crate::request::Request;
use oracle::Extents;

pub const OPERATION: Operation = Operation {
    name: "candidates",
    number: 4,
    generate,
    damage: meshes::damage,
    small: (19_683, lattice_facet),
    small_room: None,
    chosen: chosen::candidates,
    need: |r| oracle::need_words(r.vertices.len() / 3, r.facets.len() / 3, 0, grid(r)),
    lengths: |r| {
        oracle::reference::cap_candidates(
            &r.vertices,
            &r.wide_facets(),
            &r.extents,
            r.resolution,
            r.eps,
        )
    },
    oracle: |r, work| {
        lists_answer(r, work, |work, [c, l, k, e]| {
            oracle::candidates(
                &r.vertices,
                &r.facets,
                &r.extents,
                r.eps,
                r.resolution,
                r.ceiling,
                work,
                c,
                l,
                k,
                e,
            )
        })
    },
    ours,
};

fn ours(r: &Request, work: &mut Lent<u64>) -> Answer {
    lists_answer(r, work, |work, [c, l, k, e]| {
        library(yongpham_library::candidates(
            &r.vertices,
            &r.facets,
            &r.extents,
            r.eps,
            r.resolution,
            r.ceiling,
            work,
            c,
            l,
            k,
            e,
        ))
    })
}

const UNIT: Extents = [0.0, 0.0, 0.0, 1.0, 1.0, 1.0];
/// Grids beyond this many points are left to the bench: the reference is quadratic.
const GRID_BOUND: u64 = 4_000;

/// Document 01's G, or 0 for a request that is refused before it is needed.
pub fn grid(request: &Request) -> u64 {
    let segments = oracle::segments(&request.extents, request.resolution, request.eps);
    if segments.iter().all(|&count| (1.0..=256.0).contains(&count)) {
        oracle::grid_points(&segments)
    } else {
        0
    }
}

fn generate(random: &mut Random, number: u64) -> Request {
    let mut request = boundary(random, number);
    if random.one_in(10) {
        meshes::damage(random, &mut request);
    }
    request
}

/// A request whose open edges mostly lie on the box. Caps starts from these too.
pub fn boundary(random: &mut Random, number: u64) -> Request {
    let mut request = match number % 8 {
        0 => lattice_facet(random, number / 8),
        1 => on_faces(random),
        2 if number / 8 % 3 == 2 => grid_points::at_length_bound(random),
        2 => grid_points::near_grid_points(random),
        3 if random.one_in(4) => few_candidates(random),
        3 => same_cells(random),
        4 => repeated_and_closed(random),
        5 => long_box(random),
        6 => meshes::around_planes(random),
        _ => meshes::clipped_and_cleaned(random),
    };
    if number % 8 != 5 && number % 8 != 2 {
        request.resolution = resolution(random, &request.extents);
    }
    if random.one_in(40) {
        request.facets.clear();
    }
    tame(&mut request);
    unused_vertices(random, &mut request);
    request
}

/// A spacing that gives few segments, also where the quotient is a step away from a
/// whole number, and now and then either end of the range.
pub fn resolution(random: &mut Random, extents: &Extents) -> f64 {
    let axis = random.below(3);
    let side = extents[axis + 3] - extents[axis];
    let segments = (1 + random.below(6)) as f64;
    let spacing = match random.below(40) {
        0 => LARGEST,
        1 => 5e-324,
        2..=5 => near(random, side / segments).abs(),
        6..=9 => side * random.between(0.2, 2.0),
        10..=13 => random.pick(&[1.0, 0.5, 0.3]),
        _ => side / segments,
    };
    if spacing > 0.0 && spacing <= LARGEST {
        spacing
    } else {
        1.0
    }
}

/// Makes the grid coarser until it is small; what test 6 refuses stays.
pub fn tame(request: &mut Request) {
    while grid(request) > GRID_BOUND && request.resolution < LARGEST {
        request.resolution = (2.0 * request.resolution).min(LARGEST);
    }
}

/// Vertices used by no facet: on box sides, in the cells of others, anywhere.
fn unused_vertices(random: &mut Random, request: &mut Request) {
    if !random.one_in(4) {
        return;
    }
    for _ in 0..1 + random.below(3) {
        let copy = 3 * random.below((request.vertices.len() / 3).max(1));
        let axis = random.below(3);
        let mut point = [0, 1, 2].map(|axis| {
            meshes::around_plane(
                random,
                request.extents[axis],
                request.extents[axis + 3],
                request.eps,
            )
        });
        if random.one_in(2) && copy + 3 <= request.vertices.len() {
            point.copy_from_slice(&request.vertices[copy..copy + 3]);
            point[axis] += request.eps * random.between(-0.5, 0.5);
        }
        request
            .vertices
            .extend(point.map(|x| x.clamp(-LARGEST, LARGEST)));
    }
}

/// Every facet with corners among the 27 points of a box's corners, side middles,
/// face middles and middle, in turn.
pub fn lattice_facet(random: &mut Random, mut turn: u64) -> Request {
    let mut vertices = Vec::new();
    for _ in 0..9 {
        vertices.push((turn % 3) as f64 / 2.0);
        turn /= 3;
    }
    let eps = random.pick(&[0.0, 1e-10, 0.25, 0.5, 1.0]);
    Request::new("lattice facet", vertices, vec![0, 1, 2], UNIT, eps)
}

/// Facets each of which lies on a face, within eps or a step of the format around
/// it, with corners on sides and beyond them too.
fn on_faces(random: &mut Random) -> Request {
    let extents = match random.below(4) {
        0 => boxes::sound(random),
        1 => [-0.0, -0.0, -0.0, 1.0, 1.0, 1.0],
        2 => [-1.0, -1.0, -1.0, -0.0, 0.0, -0.0],
        _ => UNIT,
    };
    let eps = meshes::eps(random, &extents);
    let facets = 1 + random.below(6);
    let mut vertices: Vec<f64> = Vec::new();
    let mut list = Vec::new();
    let exact = !random.one_in(4);
    for _ in 0..facets {
        let face = random.below(6);
        let (axis, plane) = (face / 2, extents[face / 2 + 3 * (face % 2)]);
        for _ in 0..3 {
            let count = vertices.len() / 3;
            // A corner of an earlier facet, where it lies on this face.
            let earlier = random.below(count.max(1));
            if random.one_in(3) && count > 0 && (vertices[3 * earlier + axis] - plane).abs() <= eps
            {
                list.push(earlier as u32);
                continue;
            }
            for other in 0..3 {
                let (low, high) = (extents[other], extents[other + 3]);
                vertices.push(if other != axis {
                    meshes::around_plane(random, low, high, eps)
                } else if exact {
                    plane
                } else {
                    let x = plane + eps * random.pick(&[-1.0, -0.5, 0.0, 0.5, 1.0]);
                    if random.one_in(6) {
                        near(random, x).abs().copysign(x)
                    } else {
                        x
                    }
                });
            }
            list.push(count as u32);
        }
    }
    for x in &mut vertices {
        *x = x.clamp(-LARGEST, LARGEST);
    }
    Request::new("on faces", vertices, list, extents, eps)
}

/// Corners that share a cell with others, with grid points or with the box's
/// corners: candidates merge, and a later vertex takes over number and point.
fn same_cells(random: &mut Random) -> Request {
    let eps = 2f64.powi(-(2 + random.below(9) as i32));
    let facets = 1 + random.below(4);
    let count = 3 * facets;
    let mut vertices = Vec::new();
    for _ in 0..count {
        let face = random.below(2);
        for axis in 0..3 {
            let whole = if axis == 2 {
                face as f64
            } else {
                random.below(5) as f64 / 4.0
            };
            vertices.push(whole + eps * (random.below(9) as f64 - 4.0) / 8.0);
        }
    }
    // Facets of one face each: corners with the same rounded height.
    let list = (0..3 * facets)
        .map(|place| {
            let first = place / 3 * 3;
            (0..20)
                .map(|_| random.below(count))
                .find(|&id| (vertices[3 * id + 2] < 0.5) == (vertices[3 * first + 2] < 0.5))
                .unwrap_or(first) as u32
        })
        .collect();
    Request::new("same cells", vertices, list, UNIT, eps)
}

/// A box thinner than eps: its corners share a cell, so that a face may have under
/// three candidates; vertices within eps lie on all six faces.
fn few_candidates(random: &mut Random) -> Request {
    let side = random.pick(&[0.1, 0.3, 0.45]);
    let count = 3 + random.below(2);
    let vertices = (0..3 * count)
        .map(|_| random.pick(&[0.0, 0.0, 0.01, side, 1.0, -0.9, 1.0 + side]))
        .collect();
    let facets = 1 + random.below(2);
    let facets = meshes::random_facets(random, facets, count);
    let extents = [0.0, 0.0, 0.0, side, side, random.pick(&[side, 0.2])];
    let eps = random.pick(&[1.0, 1.0, 0.9]);
    Request::new("few candidates", vertices, facets, extents, eps)
}

/// Repeated corners, facets given twice or turned round, and closed meshes, in the
/// box and on it.
fn repeated_and_closed(random: &mut Random) -> Request {
    let mut vertices = Vec::new();
    for _ in 0..4 {
        let face = random.below(6);
        for axis in 0..3 {
            let on = axis == face / 2 && !random.one_in(3);
            vertices.push(if on {
                (face % 2) as f64
            } else {
                random.below(5) as f64 / 4.0
            });
        }
    }
    let list = match random.below(5) {
        0 => vec![0, 2, 1, 0, 1, 3, 1, 2, 3, 0, 3, 2],
        4 => return shared_edge(random),
        1 => {
            let mut list = meshes::random_facets(random, 1, 3);
            list.extend_from_within(..);
            if random.one_in(2) {
                list.swap(4, 5);
            }
            list
        }
        2 => {
            let (a, b) = (random.below(4) as u32, random.below(4) as u32);
            let mut list = vec![a, a, b];
            list.rotate_left(random.below(3));
            list
        }
        _ => {
            let facets = 1 + random.below(3);
            meshes::random_facets(random, facets, 4)
        }
    };
    let eps = random.pick(&[0.0, 1e-10, 0.25]);
    Request::new("repeated and closed", vertices, list, UNIT, eps)
}

/// Facets on one face that share an edge: two, three or four bear it.
fn shared_edge(random: &mut Random) -> Request {
    let plane = random.below(2) as f64;
    let mut vertices = Vec::new();
    for _ in 0..6 {
        vertices.extend([
            random.below(9) as f64 / 8.0,
            random.below(9) as f64 / 8.0,
            plane,
        ]);
    }
    let mut facets = Vec::new();
    for third in 2..4 + random.below(3) as u32 {
        facets.extend(if random.one_in(2) {
            [0, 1, third]
        } else {
            [third, 1, 0]
        });
    }
    Request::new(
        "shared edge",
        vertices,
        facets,
        UNIT,
        random.pick(&[0.0, 1e-10]),
    )
}

/// A box with one long axis, at 255 to 258 segments; and boxes whose corners have
/// keys at 2^62.
fn long_box(random: &mut Random) -> Request {
    let axis = random.below(3);
    let mut extents = UNIT;
    let mut request = if random.one_in(3) {
        let eps = 2f64.powi(-32);
        let corner = random.pick(&[LARGEST, LARGEST.next_down(), LARGEST / 2.0]);
        extents[axis + 3] = corner;
        extents[axis] = corner - 1.0;
        let eps = if random.one_in(2) {
            eps
        } else {
            near(random, eps).abs()
        };
        Request::new("large keys", Vec::new(), Vec::new(), extents, eps)
    } else {
        extents[axis + 3] = (255 + random.below(4)) as f64;
        Request::new(
            "long box",
            Vec::new(),
            Vec::new(),
            extents,
            random.pick(&[0.0, 1e-10]),
        )
    };
    request.resolution = if random.one_in(4) {
        near(random, 1.0).abs()
    } else {
        1.0
    };
    let face = random.below(6);
    for _ in 0..3 {
        for other in 0..3 {
            let (low, high) = (extents[other], extents[other + 3]);
            let on_face = extents[face / 2 + 3 * (face % 2)];
            let x = if other == face / 2 {
                on_face
            } else {
                low + (high - low) * random.unit()
            };
            request.vertices.push(x);
        }
    }
    request.facets = if random.one_in(10) {
        Vec::new()
    } else {
        vec![0, 1, 2]
    };
    request
}
