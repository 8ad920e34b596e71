//! Clean: `yongpham_clean` beside the oracle, and the requests for it.

use crate::boxes::LARGEST;
use crate::chosen;
use crate::lent::Lent;
use crate::meshes;
use crate::numbers::near;
use crate::operation::{library, mesh_answer, Answer, Operation};
use crate::random::Random;
use crate::request::Request;

pub const OPERATION: Operation = Operation {
    name: "clean",
    number: 3,
    generate,
    damage: meshes::damage,
    small: (4_161, small_lists),
    small_room: None,
    chosen: chosen::clean,
    need: |r| oracle::need_words(r.vertices.len() / 3, r.facets.len() / 3, 0, 0),
    lengths: |r| {
        let (v, f) = oracle::reference::clean_mesh(r.vertices.clone(), r.wide_facets(), r.eps);
        [v.len(), f.len(), 0, 0]
    },
    oracle: |r, work| {
        mesh_answer(r, work, |work, v, f| {
            oracle::clean(&r.vertices, &r.facets, r.eps, r.ceiling, work, v, f)
        })
    },
    ours,
};

fn ours(r: &Request, work: &mut Lent<u64>) -> Answer {
    mesh_answer(r, work, |work, v, f| {
        library(yongpham_library::clean(
            &r.vertices,
            &r.facets,
            r.eps,
            r.ceiling,
            work,
            v,
            f,
        ))
    })
}

fn generate(random: &mut Random, number: u64) -> Request {
    let mut request = match number % 8 {
        0 => small_lists(random, number / 8),
        1 => around_cells(random),
        2 => one_cell(random),
        3 if random.one_in(3) => flat_or_not(random),
        3 => flat_facets(random),
        4 => components(random),
        5 => large_keys(random),
        6 => meshes::clipped(random),
        _ => meshes::realistic(random),
    };
    if random.one_in(8) {
        meshes::damage(random, &mut request);
    }
    request
}

const UNIT: [f64; 6] = [0.0, 0.0, 0.0, 1.0, 1.0, 1.0];

/// Every list of up to two facets over four vertices, in turn, with corners that
/// may be welded: 4,161 lists.
fn small_lists(random: &mut Random, turn: u64) -> Request {
    let facets = meshes::facet_list(turn, 4, 2);
    let side = random.pick(&[1.0, 0.5, 0.25]);
    let vertices = match random.below(3) {
        0 => vec![
            0.0, 0.0, 0.0, side, 0.0, 0.0, side, side, 0.0, 0.0, side, 0.0,
        ],
        1 => vec![
            0.0, 0.0, 0.0, side, 0.0, 0.0, 0.0, side, 0.0, 0.0, 0.0, side,
        ],
        _ => (0..12).map(|_| side * random.below(3) as f64).collect(),
    };
    Request::new(
        "small lists",
        vertices,
        facets,
        UNIT,
        random.pick(&[0.0, 0.25, 0.5, 1e-10]),
    )
}

/// An eps at which cells matter; powers of two make distances exact.
fn cell_eps(random: &mut Random) -> f64 {
    match random.below(6) {
        0 => 0.0,
        1 => 1e-12,
        2 => near(random, 1e-12).abs(),
        3 => 1.0,
        4 => random.pick(&[1e-10, 0.1, 1e-3]),
        _ => 2f64.powi(-(random.below(40) as i32)),
    }
}

/// Points close to each other: in one cell, across its sides, at a distance of eps,
/// a step of the format on either side of it, with zeros of either sign.
fn around_cells(random: &mut Random) -> Request {
    let eps = cell_eps(random);
    let cell = eps.max(1e-12);
    let middle = [0; 3].map(|_| (random.below(7) as f64 - 3.0) * cell * random.pick(&[1.0, 64.0]));
    let count = 2 + random.below(14);
    let mut vertices: Vec<f64> = Vec::new();
    for place in 0..3 * count {
        let axis = place % 3;
        let x = match random.below(8) {
            0 => middle[axis],
            1 => middle[axis] + cell * (random.below(9) as f64 - 4.0) / 2.0,
            2 => middle[axis] + cell * (random.below(17) as f64 - 8.0) / 8.0,
            3 => middle[axis] + eps * random.pick(&[-1.0, 1.0]),
            4 if place >= 3 => vertices[place - 3],
            5 if place >= 3 => vertices[place - 3] + eps * random.pick(&[-1.0, 1.0]),
            6 => random.pick(&[0.0, -0.0, 1.5e-162, 1.6e-162]),
            _ => middle[axis] + cell * random.between(-2.0, 2.0),
        };
        let x = if random.one_in(6) {
            near(random, x).abs().copysign(x)
        } else {
            x
        };
        vertices.push(x.clamp(-LARGEST, LARGEST));
    }
    let facets = random.below(8);
    let facets = meshes::random_facets(random, facets, count);
    Request::new("around cells", vertices, facets, UNIT, eps)
}

/// Points in and around one cell, so that a point may join one of several, each in
/// a facet with far corners: the facets show which one it joined.
fn one_cell(random: &mut Random) -> Request {
    let eps = random.pick(&[1.0, 0.25, 1e-3, 1e-10]);
    let spread = random.pick(&[0.5, 0.75, 1.2]);
    let close = 3 + random.below(12);
    let mut vertices: Vec<f64> = (0..3 * close)
        .map(|_| eps * spread * random.between(-1.0, 1.0))
        .collect();
    let far = 3 + random.below(3);
    for i in 0..far {
        vertices.extend([20.0, 10.0 * i as f64, 7.0 * (i * i) as f64].map(|x| eps * x));
    }
    let corner = |random: &mut Random| (close + random.below(far)) as u32;
    let facets = (0..close as u32)
        .flat_map(|id| [id, corner(random), corner(random)])
        .collect();
    Request::new("one cell", vertices, facets, UNIT, eps)
}

/// Facets whose squared cross product lies at eps^4: legs of about eps, also where
/// the powers underflow.
fn flat_facets(random: &mut Random) -> Request {
    let eps = match random.below(4) {
        0 => random.pick(&[1e-81, 1e-80, 3e-81, 1e-162]),
        1 => 0.0,
        2 => 2f64.powi(-(random.below(30) as i32)),
        _ => random.between(1e-6, 1.0),
    };
    let leg = if eps == 0.0 {
        random.pick(&[1e-81, 1e-80])
    } else {
        eps
    };
    let facets = 1 + random.below(5);
    // Far corners keep welding away; a facet's height over a side of length `wide`
    // is about eps * eps / wide.
    let wide = leg * random.pick(&[1.5, 2.0, 4.0, 1000.0]);
    let high = eps * eps / wide;
    let mut vertices = Vec::new();
    for i in 0..facets + 2 {
        let x = wide * i as f64;
        let y = if i % 2 == 0 {
            0.0
        } else {
            high * random.pick(&[1.0, 0.5, 2.0, 1.01, 0.99])
        };
        let y = if random.one_in(3) {
            near(random, y).abs()
        } else {
            y
        };
        vertices.extend([
            x,
            y,
            if random.one_in(4) {
                leg * random.below(3) as f64
            } else {
                0.0
            },
        ]);
    }
    let mut list: Vec<[u32; 3]> = (0..facets as u32).map(|i| [i, i + 1, i + 2]).collect();
    // The same corners from another one on: rounding may set the two apart.
    for _ in 0..random.below(4) {
        let mut again = random.pick(&list);
        again.rotate_left(1 + random.below(2));
        list.push(again);
    }
    Request::new("flat facets", vertices, list.concat(), UNIT, eps)
}

/// One facet several times, from each corner on and turned round, with a squared
/// cross product so near eps^4 that rounding sets the turns apart: the first that
/// passes is the one that stays. A far facet keeps it company.
fn flat_or_not(random: &mut Random) -> Request {
    let eps = random.between(0.01, 1.0);
    let mut point = |scale: f64| [0; 3].map(|_| scale * random.between(-1.0, 1.0));
    let (p, along, other) = (point(4.0 * eps), point(1.0), point(1.0));
    let dot = |a: [f64; 3], b: [f64; 3]| a[0] * b[0] + a[1] * b[1] + a[2] * b[2];
    let unit = |a: [f64; 3]| a.map(|x| x / dot(a, a).sqrt());
    let along = unit(along);
    let across = unit([0, 1, 2].map(|i| other[i] - dot(other, along) * along[i]));
    // Base 3 eps, height eps / 3: twice the area is eps squared.
    let corner = |u: f64, v: f64| [0, 1, 2].map(|i| p[i] + eps * (u * along[i] + v * across[i]));
    let mut vertices = [p, corner(3.0, 0.0), corner(1.5, 1.0 / 3.0)].concat();
    vertices.extend([40.0 * eps, 0.0, 0.0, 0.0, 40.0 * eps, 0.0]);
    let mut facets = Vec::new();
    for turn in 0..2 + random.below(3) {
        let mut facet = [0, 1, 2];
        facet.rotate_left((turn + random.below(2)) % 3);
        if random.one_in(3) {
            facet.swap(1, 2);
        }
        facets.extend(facet);
    }
    facets.extend([0, 3, 4]);
    Request::new("flat or not", vertices, facets, UNIT, eps)
}

/// Fans, strips and lone facets, some of them twice in another order, some joined
/// by one vertex, in any order.
fn components(random: &mut Random) -> Request {
    let parts = 1 + random.below(6);
    let mut vertices = Vec::new();
    let mut facets: Vec<[u32; 3]> = Vec::new();
    for part in 0..parts {
        let first = (vertices.len() / 3) as u32;
        let length = 1 + random.below(3) as u32;
        for i in 0..length + 2 {
            vertices.extend([
                4.0 * part as f64 + i as f64,
                (i % 2) as f64,
                random.below(2) as f64,
            ]);
        }
        facets.extend((0..length).map(|i| [first + i, first + i + 1, first + i + 2]));
        if random.one_in(3) && first > 0 {
            // Joined to an earlier part by a vertex.
            let other = random.below(first as usize) as u32;
            facets.push([other, first, first + 1]);
        }
    }
    for _ in 0..random.below(4) {
        let mut again = random.pick(&facets);
        again.rotate_left(random.below(3));
        if random.one_in(2) {
            again.swap(0, 1);
        }
        facets.push(again);
    }
    for place in (1..facets.len()).rev() {
        facets.swap(place, random.below(place + 1));
    }
    let eps = random.pick(&[0.0, 1e-10, 0.25, 1.0]);
    Request::new("components", vertices, facets.concat(), UNIT, eps)
}

/// Coordinates whose keys lie at 2^62, or above 2^53 where keys step by more than 1.
fn large_keys(random: &mut Random) -> Request {
    let eps = random.pick(&[0.0, 1e-12, 2f64.powi(-32), 2f64.powi(-33), 1e-10]);
    let limit = 2f64.powi(62) * eps.max(1e-12);
    let count = 1 + random.below(6);
    let vertices = (0..3 * count)
        .map(|_| {
            let x = match random.below(6) {
                0 => near(random, limit),
                1 => near(random, limit).abs(),
                2 => limit * random.between(-1.0, 1.0),
                3 => near(random, LARGEST),
                4 => 0.0,
                _ => 4_611_686.0 + random.below(2) as f64,
            };
            x.clamp(-LARGEST, LARGEST)
        })
        .collect();
    let facets = random.below(3);
    let facets = meshes::random_facets(random, facets, count);
    Request::new("large keys", vertices, facets, UNIT, eps)
}
