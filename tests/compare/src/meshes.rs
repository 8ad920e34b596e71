//! Families of meshes that several operations share.

use crate::boxes::{self, edge_of_range};
use crate::numbers::near;
use crate::random::Random;
use crate::request::Request;
use oracle::Extents;

/// An eps: either end of its range, either zero, a tolerance, part of a side, a
/// power of two, the smallest double.
pub fn eps(random: &mut Random, extents: &Extents) -> f64 {
    let side = extents[3] - extents[0];
    match random.below(10) {
        0 => 0.0,
        1 => -0.0,
        2 => 1.0,
        3 => (side / 2.0).min(1.0),
        4 => side.min(1.0),
        5 => 2f64.powi(-(random.below(60) as i32)),
        6 => 0.75 * 2f64.powi(-53),
        7 => random.pick(&[5e-324, 1e-81, 1e-162]),
        _ => tolerance(extents),
    }
}

/// The tolerance of a box, or 0 where the box is refused.
pub fn tolerance(extents: &Extents) -> f64 {
    f64::from_bits(oracle::tolerance(extents).values[0])
}

/// Facets over `count` vertices; sometimes with a repeated corner.
pub fn random_facets(random: &mut Random, facets: usize, count: usize) -> Vec<u32> {
    (0..3 * facets)
        .map(|_| random.below(count) as u32)
        .collect()
}

/// The list number `turn` of at most `most` facets over numbers below `count`,
/// shorter lists first, wrapping round.
pub fn facet_list(turn: u64, count: u64, most: u32) -> Vec<u32> {
    let of_length = |facets: u32| count.pow(3 * facets);
    let all: u64 = (0..=most).map(of_length).sum();
    let mut left = turn % all;
    let mut length = 0;
    while left >= of_length(length) {
        left -= of_length(length);
        length += 1;
    }
    let mut facets = vec![0; 3 * length as usize];
    for number in facets.iter_mut().rev() {
        *number = (left % count) as u32;
        left /= count;
    }
    facets
}

/// A coordinate around the planes of one axis: on a plane, eps from it, a step of
/// the format from that, between, far.
pub fn around_plane(random: &mut Random, low: f64, high: f64, eps: f64) -> f64 {
    let plane = random.pick(&[low, high]);
    let other = low + high - plane;
    let x = match random.below(12) {
        0 => plane,
        1 => plane - eps,
        2 => plane + eps,
        3 => plane + 2.0 * eps * random.pick(&[-1.0, 1.0]),
        4 => low + (high - low) / 2.0,
        5 => random.between(low, high),
        6 => plane + (plane - other) * random.unit(),
        7 => random.pick(&[0.0, -0.0, 5e-324, -5e-324]),
        8 => boxes::coordinate(random),
        9 => random.pick(&[-boxes::LARGEST, boxes::LARGEST]),
        10 => plane + eps * random.between(-2.0, 2.0),
        _ => random.between(low - (high - low), high + (high - low)),
    };
    let x = if random.one_in(4) {
        near(random, x).abs().copysign(x)
    } else {
        x
    };
    x.clamp(-boxes::LARGEST, boxes::LARGEST)
}

/// A few facets whose corners lie around the box's planes.
pub fn around_planes(random: &mut Random) -> Request {
    let extents = if random.one_in(2) {
        [0.0, 0.0, 0.0, 1.0, 1.0, 1.0]
    } else {
        boxes::sound(random)
    };
    let eps = eps(random, &extents);
    let count = 3 + random.below(6);
    let mut vertices = Vec::with_capacity(3 * count);
    for place in 0..3 * count {
        let axis = place % 3;
        vertices.push(around_plane(random, extents[axis], extents[axis + 3], eps));
    }
    let facets = 1 + random.below(6);
    let facets = random_facets(random, facets, count);
    Request::new("around planes", vertices, facets, extents, eps)
}

/// Triangles anywhere in and around a unit box, with vertices of their own or not.
pub fn soup(random: &mut Random) -> Request {
    let facets = 1 + random.below(40);
    let shared = random.one_in(2);
    let count = if shared {
        3 + random.below(20)
    } else {
        3 * facets
    };
    let spread = random.pick(&[0.2, 1.0, 4.0]);
    let vertices = (0..3 * count)
        .map(|_| 0.5 + spread * random.between(-1.0, 1.0))
        .collect();
    let facets = if shared {
        random_facets(random, facets, count)
    } else {
        (0..3 * facets as u32).collect()
    };
    let extents = [0.0, 0.0, 0.0, 1.0, 1.0, 1.0];
    let eps = eps(random, &extents);
    Request::new("soup", vertices, facets, extents, eps)
}

/// A surface over a lattice of u by v cells; `at` places its corners.
pub fn lattice(
    u: usize,
    v: usize,
    mut at: impl FnMut(f64, f64) -> [f64; 3],
) -> (Vec<f64>, Vec<u32>) {
    let mut vertices = Vec::with_capacity(3 * (u + 1) * (v + 1));
    for i in 0..=u {
        for j in 0..=v {
            vertices.extend(at(i as f64 / u as f64, j as f64 / v as f64));
        }
    }
    let mut facets = Vec::with_capacity(6 * u * v);
    for i in 0..u {
        for j in 0..v {
            let corner = |di: usize, dj: usize| ((i + di) * (v + 1) + j + dj) as u32;
            facets.extend([corner(0, 0), corner(1, 0), corner(1, 1)]);
            facets.extend([corner(0, 0), corner(1, 1), corner(0, 1)]);
        }
    }
    (vertices, facets)
}

/// A terrain, a wave or a sphere around the unit box. `cells` a side.
pub fn surface(random: &mut Random, cells: usize) -> (Vec<f64>, Vec<u32>) {
    let reach = random.pick(&[0.8, 1.5, 3.0]);
    let level = random.between(0.2, 0.8);
    let height = random.pick(&[0.0, 0.1, 0.5, 2.0]);
    let over = |t: f64| 0.5 + reach * (t - 0.5);
    match random.below(3) {
        0 => {
            let mut noise = Random::new(random.bits(), "terrain", 0);
            lattice(cells, cells, |u, v| {
                [over(u), over(v), level + height * noise.between(-0.5, 0.5)]
            })
        }
        1 => {
            let (p, q) = (random.between(1.0, 12.0), random.between(1.0, 12.0));
            lattice(cells, cells, |u, v| {
                [
                    over(u),
                    over(v),
                    level + height * (p * u).sin() * (q * v).cos(),
                ]
            })
        }
        _ => {
            let centre = [0; 3].map(|_| random.between(0.0, 1.0));
            let radius = random.between(0.2, 0.9);
            lattice(cells, cells, |u, v| {
                let (a, b) = (u * std::f64::consts::TAU, v * std::f64::consts::PI);
                let unit = [a.cos() * b.sin(), a.sin() * b.sin(), b.cos()];
                [0, 1, 2].map(|axis| centre[axis] + radius * unit[axis])
            })
        }
    }
}

/// Cells a side: mostly few, now and then as many as 65,536 facets allow.
pub fn cells(random: &mut Random) -> usize {
    match random.below(4000) {
        0 => 181,
        1..=20 => 20 + random.below(60),
        _ => 1 + random.below(10),
    }
}

/// A surface of the trade with the tolerance of its box, moved and scaled.
pub fn realistic(random: &mut Random) -> Request {
    let cells = cells(random);
    let (mut vertices, facets) = surface(random, cells);
    let mut extents = [0.0, 0.0, 0.0, 1.0, 1.0, 1.0];
    let scale = random.pick(&[1.0, 1000.0, 0.37, 1e-3]);
    let offset = random.pick(&[0.0, -250.0, 4.0e5, 0.1]);
    for x in vertices.iter_mut().chain(&mut extents) {
        *x = offset + scale * *x;
    }
    let eps = tolerance(&extents);
    Request::new("realistic", vertices, facets, extents, eps)
}

/// Breaks one thing: a length, a number, a count, the box, eps or resolution.
pub fn damage(random: &mut Random, request: &mut Request) {
    let any_vertex = random.below(request.vertices.len().max(1));
    let any_facet = random.below(request.facets.len().max(1));
    let count = (request.vertices.len() / 3) as u32;
    match random.below(16) {
        0 => request.vertices.truncate(any_vertex),
        1 => request.facets.truncate(any_facet),
        2 => request.vertices.push(0.5),
        3 => request.facets.push(0),
        4 | 5 => {
            let past = random.pick(&[count, count.wrapping_sub(1), count + 1, u32::MAX]);
            if let Some(number) = request.facets.get_mut(any_facet) {
                *number = past;
            }
        }
        6 | 7 => {
            let value = edge_of_range(random);
            if let Some(coordinate) = request.vertices.get_mut(any_vertex) {
                *coordinate = value;
            }
        }
        8 => request.extents[random.below(6)] = edge_of_range(random),
        9 => {
            request.eps = random.pick(&[1.0, 1f64.next_up(), -5e-324, f64::NAN, f64::INFINITY, 2.0])
        }
        10 => {
            request.resolution = random.pick(&[
                0.0,
                -0.0,
                -1.0,
                5e-324,
                f64::NAN,
                f64::INFINITY,
                boxes::LARGEST.next_up(),
            ])
        }
        11 => {
            let axis = random.below(3);
            request.extents[axis] = request.extents[axis + 3];
        }
        12 => {
            let axis = random.below(3);
            request.extents.swap(axis, axis + 3);
        }
        13 if random.one_in(20) => {
            let length = 3 * 65_536 + random.pick(&[0, 3, 1]);
            request.vertices.resize(length, 0.25);
        }
        14 if random.one_in(20) && count > 0 => {
            let length = 3 * 65_536 + random.pick(&[0, 3, 1]);
            request.facets.resize(length, 0);
        }
        _ => {
            let length = request.vertices.len() + 3 * random.below(3);
            request.vertices.resize(length, -0.0);
        }
    }
}

/// What the reference leaves of a realistic surface after clipping: facets with
/// vertices of their own, to be welded.
pub fn clipped(random: &mut Random) -> Request {
    let mut request = realistic(random);
    let facets = request.wide_facets();
    let (vertices, facets) = oracle::reference::clip_mesh_to_aabb(
        request.vertices,
        facets,
        &request.extents,
        request.eps,
    );
    request.family = "clipped";
    request.vertices = vertices;
    request.facets = facets.iter().map(|&id| id as u32).collect();
    request
}

/// The same, cleaned: the mesh that candidates and caps are meant for.
pub fn clipped_and_cleaned(random: &mut Random) -> Request {
    let mut request = clipped(random);
    let facets = request.wide_facets();
    let (vertices, facets) = oracle::reference::clean_mesh(request.vertices, facets, request.eps);
    request.family = "clipped and cleaned";
    request.vertices = vertices;
    request.facets = facets.iter().map(|&id| id as u32).collect();
    request
}
