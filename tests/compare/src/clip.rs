//! Clip: `yongpham_clip` beside the oracle, and the requests for it.

use crate::chosen;
use crate::lent::Lent;
use crate::meshes;
use crate::numbers::near;
use crate::operation::{library, mesh_answer, Answer, Operation};
use crate::random::Random;
use crate::request::Request;

pub const OPERATION: Operation = Operation {
    name: "clip",
    number: 2,
    generate,
    damage: meshes::damage,
    small: (LISTS + 262_144, small),
    small_room: None,
    chosen: chosen::clip,
    need: |r| oracle::need_words(r.vertices.len() / 3, r.facets.len() / 3, 0, 0),
    lengths: |r| {
        let (v, f) = oracle::reference::clip_mesh_to_aabb(
            r.vertices.clone(),
            r.wide_facets(),
            &r.extents,
            r.eps,
        );
        [v.len(), f.len(), 0, 0]
    },
    oracle: |r, work| {
        mesh_answer(r, work, |work, v, f| {
            oracle::clip(
                &r.vertices,
                &r.facets,
                &r.extents,
                r.eps,
                r.ceiling,
                work,
                v,
                f,
            )
        })
    },
    ours,
};

fn ours(r: &Request, work: &mut Lent<u64>) -> Answer {
    mesh_answer(r, work, |work, v, f| {
        library(yongpham_library::clip(
            &r.vertices,
            &r.facets,
            &r.extents,
            r.eps,
            r.ceiling,
            work,
            v,
            f,
        ))
    })
}

fn generate(random: &mut Random, number: u64) -> Request {
    let mut request = match number % 8 {
        0 => lattice_facet(random, number / 8),
        1 => small_lists(random, number / 8),
        2 | 3 => meshes::around_planes(random),
        4 if random.one_in(2) => last_place(random),
        4 => many_corners(random),
        5 => meshes::soup(random),
        _ => meshes::realistic(random),
    };
    if random.one_in(8) {
        meshes::damage(random, &mut request);
    }
    request
}

/// Lists of up to two facets, numbers below four.
const LISTS: u64 = 4_161;

/// Every list of `small_lists`, then every facet of `lattice_facet`.
fn small(random: &mut Random, turn: u64) -> Request {
    if turn < LISTS {
        small_lists(random, turn)
    } else {
        lattice_facet(random, turn - LISTS)
    }
}

/// Every facet with corners on a small lattice around the box, in turn: outside,
/// on a plane, inside, beyond, on each axis. 4^9 of them.
fn lattice_facet(random: &mut Random, mut turn: u64) -> Request {
    let mut vertices = Vec::new();
    for _ in 0..9 {
        vertices.push([-1.0, 0.0, 1.0, 3.0][(turn % 4) as usize]);
        turn /= 4;
    }
    let eps = random.pick(&[0.0, 1e-10, 0.5, 1.0, 5e-324]);
    let extents = [
        0.0,
        0.0,
        0.0,
        2.0,
        random.pick(&[2.0, 1.0]),
        random.pick(&[2.0, 0.5]),
    ];
    Request::new("lattice facet", vertices, vec![0, 1, 2], extents, eps)
}

/// Every list of up to two facets over three vertices, a number past the end
/// included, in turn: 1 + 4^3 + 4^6 of them.
fn small_lists(random: &mut Random, turn: u64) -> Request {
    let mut facets = meshes::facet_list(turn, 4, 2);
    if random.one_in(16) {
        facets.truncate(facets.len().saturating_sub(1));
    }
    let vertices = (0..9).map(|_| random.between(-0.5, 1.5)).collect();
    let extents = [0.0, 0.0, 0.0, 1.0, 1.0, 1.0];
    Request::new(
        "small lists",
        vertices,
        facets,
        extents,
        random.pick(&[0.0, 0.25]),
    )
}

/// Facets that are known to get ten and thirteen corners, and their box: a crossing
/// a + t(b - a) need not lie between a and b, so that one plane cuts off two runs.
pub const KNOWN: [([f64; 9], [f64; 6]); 2] = [
    (
        [-1.0, -2.0, 4.0, 0.0, -1.0 / P53, 1.0, 3.0, 2.0, -1.0],
        [0.0, 0.0, 0.0, 2.0, 1.0, 1.0],
    ),
    (
        [
            -786432.0,
            524288.0,
            -1048576.0,
            1.0 / P34,
            0.5 / P34,
            1.8125 + 2.0 / P34,
            0.0,
            1.0 / (P34 * P53 * 4.0),
            -3.0,
        ],
        [
            -1.53125 / (8.0 * P34),
            1.0 / (P34 * P53 * 16.0),
            -3.0,
            0.0,
            1.0 / (16.0 * P34),
            1.8125,
        ],
    ),
];
const P34: f64 = (1u64 << 34) as f64;
const P53: f64 = (1u64 << 53) as f64;

/// One of these with a few numbers changed: a step of the format, another power of
/// two, the other sign, a plane's own value.
fn many_corners(random: &mut Random) -> Request {
    let (facet, extents) = random.pick(&KNOWN);
    let mut all = [&facet[..], &extents[..]].concat();
    for _ in 0..random.below(4) {
        let place = random.below(15);
        let x = all[place];
        all[place] = match random.below(5) {
            0 => -x,
            1 => near(random, x),
            2 => x * 2f64.powi(random.below(7) as i32 - 3),
            3 => all[9 + random.below(6)],
            _ => x + 2f64.powi(-(random.below(100) as i32)) * random.pick(&[-1.0, 1.0]),
        };
    }
    let mut extents: [f64; 6] = all[9..].try_into().expect("six numbers");
    for axis in 0..3 {
        if extents[axis] > extents[axis + 3] {
            extents.swap(axis, axis + 3);
        }
    }
    all.truncate(9);
    Request::new("many corners", all, vec![0, 1, 2], extents, 0.0)
}

/// Planes at a power of two and an eps below a step of the format there: `plane -
/// eps` rounds to a neighbour that is further away than eps, so that a corner is
/// inside but not near, and a crossing may be nothing. Polygons of one or two
/// corners come from here.
fn last_place(random: &mut Random) -> Request {
    let mut extents = [0.0; 6];
    let power = 2f64.powi(random.below(5) as i32 - 2);
    for axis in 0..3 {
        let (low, high) = random.pick(&[(power, 2.0 * power), (-2.0 * power, -power)]);
        (extents[axis], extents[axis + 3]) = (low, high);
    }
    let eps = power * random.pick(&[0.5, 0.75, 1.0, 1.25]) * 2f64.powi(-53);
    let facets = 1 + random.below(3);
    let mut vertices = Vec::new();
    for place in 0..9 * facets {
        let (low, high) = (extents[place % 3], extents[place % 3 + 3]);
        let plane = random.pick(&[low, high]);
        vertices.push(match random.below(6) {
            0 | 1 => near(random, plane).abs().copysign(plane),
            2 => plane,
            3 => 0.0,
            4 => random.between(low, high),
            _ => 2.0 * plane - (low + high) / 2.0,
        });
    }
    // Two corners inside but not near, the third far outside: two corners are left.
    if random.one_in(2) {
        let axis = random.below(3);
        let (low, high) = (extents[axis], extents[axis + 3]);
        let beyond = if low > 0.0 {
            low.next_down()
        } else {
            high.next_up()
        };
        let third = random.below(3);
        for corner in 0..3 {
            vertices[3 * corner + axis] = if corner == third { 0.0 } else { beyond };
        }
    }
    let facets = (0..3 * facets as u32).collect();
    Request::new("last place", vertices, facets, extents, eps)
}

#[cfg(test)]
mod tests {
    use super::*;

    /// The family reaches what document 01 warns of: more than nine corners.
    #[test]
    fn many_corners_are_many() {
        let corners = |number| {
            let mut random = Random::new(1, "clip", number);
            (OPERATION.lengths)(&many_corners(&mut random))[0] / 3
        };
        let most = (0..2_000).map(corners).max();
        assert!(most >= Some(13), "{most:?}");
        assert!((0..2_000).filter(|&number| corners(number) > 9).count() > 100);
    }
}
