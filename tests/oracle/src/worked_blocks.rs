//! Document 01's worked blocks C1 to C16, typed from its text.

use crate::aabb_clipping::{point_inside_plane, segment_plane_t, BoxPlane};
use crate::boundary_closure::axis_grid_coordinates;
use crate::geometry::Point;
use crate::lent::{candidates, caps, clean, clip, flat, same_bits};
use crate::mesh_cleanup::quantized_point_key;
use crate::{aabb, Reply};

const EPS: f64 = 1.0 / 1024.0;
const UNIT: [f64; 6] = [0.0, 0.0, 0.0, 1.0, 1.0, 1.0];
/// C15's mesh: a square at half height in the unit cube, facing up.
pub const SQUARE: [[f64; 3]; 4] = [
    [0.0, 0.0, 0.5],
    [1.0, 0.0, 0.5],
    [1.0, 1.0, 0.5],
    [0.0, 1.0, 0.5],
];
pub const SQUARE_FACETS: [u32; 6] = [0, 1, 2, 0, 2, 3];

fn power(exponent: i32) -> f64 {
    2f64.powi(exponent)
}

#[test]
fn c1_two_vertices_though_the_distance_is_eps() {
    let (a, b) = ([-1.0 / 2048.0, 0.0, 0.0], [1.0 / 2048.0, 0.0, 0.0]);
    assert_eq!(quantized_point_key(a, EPS).0, -1);
    assert_eq!(quantized_point_key(b, EPS).0, 1);
    let (v, f) = clean(&flat(&[a, b]), &[], EPS).unwrap();
    assert!(same_bits(&v, &flat(&[a, b])) && f.is_empty());
}

#[test]
fn c2_one_vertex_the_first() {
    let (v, f) = clean(&[0.0, 0.0, 0.0, EPS, 0.0, 0.0], &[], EPS).unwrap();
    assert!(same_bits(&v, &[0.0, 0.0, 0.0]) && f.is_empty());
}

#[test]
fn c3_two_vertices_with_one_key() {
    let (a, b) = ([-3.0 / 8192.0; 3], [3.0 / 8192.0; 3]);
    assert_eq!(quantized_point_key(a, EPS), (0, 0, 0));
    assert_eq!(quantized_point_key(b, EPS), (0, 0, 0));
    let (v, _) = clean(&flat(&[a, b]), &[], EPS).unwrap();
    assert!(same_bits(&v, &flat(&[a, b])));
}

#[test]
fn c3b_one_candidate_the_later_point() {
    let points = flat(&[[-3.0 / 8192.0; 3], [3.0 / 8192.0; 3], [0.0, 1.0, 0.0]]);
    let [c, _, _, e] = candidates(&points, &[0, 1, 2], &UNIT, EPS, 1.0).unwrap();
    assert_eq!(c.len(), 5 * 8);
    let bits = (3.0f64 / 8192.0).to_bits();
    // Mesh number 1 (word 2) on XMin, YMin, ZMin (word 21).
    assert_eq!(c[..5], [bits, bits, bits, 2, 21]);
    assert_eq!(e, [0, 1, 0, 4, 1, 0, 0, 0, 1, 4, 0, 1]);
}

#[test]
fn c4_inside_differs_and_crossing_is_nothing() {
    let extents = aabb(&[1.0, 0.0, 0.0, 2.0, 1.0, 1.0]);
    let eps = 0.75 * power(-53);
    let (a, b) = ([1.0 - power(-53), 0.0, 0.0], [0.0; 3]);
    assert!(point_inside_plane(a, BoxPlane::XMin, extents, eps));
    assert!(!point_inside_plane(b, BoxPlane::XMin, extents, eps));
    assert_eq!(segment_plane_t(a, b, BoxPlane::XMin, extents, eps), None);
}

#[test]
fn c5_a_corner_cut_off() {
    let facet = flat(&[[0.0, 0.0, 0.0], [4.0, 0.0, 0.0], [0.0, 4.0, 0.0]]);
    let extents = [-1.0, -1.0, -1.0, 2.0, 8.0, 8.0];
    let (v, f) = clip(&facet, &[0, 1, 2], &extents, power(-20)).unwrap();
    let expected = flat(&[
        [0.0, 0.0, 0.0],
        [2.0, 0.0, 0.0],
        [2.0, 2.0, 0.0],
        [0.0, 4.0, 0.0],
    ]);
    assert!(same_bits(&v, &expected));
    assert_eq!(f, [0, 1, 2, 0, 2, 3]);
}

#[test]
fn c6_and_c7_nothing_is_left() {
    let facet = flat(&[[0.0, 0.0, 0.0], [1.0, 0.0, 0.0], [0.0, 1.0, 0.0]]);
    assert_eq!(clean(&facet, &[0, 1, 2], EPS).unwrap(), (vec![], vec![]));
    assert_eq!(
        clean(&facet, &[0, 1, 2, 2, 1, 0], EPS).unwrap(),
        (vec![], vec![])
    );
}

#[test]
fn c8_a_square_stays() {
    let square = flat(&[
        [0.0, 0.0, 0.0],
        [1.0, 0.0, 0.0],
        [1.0, 1.0, 0.0],
        [0.0, 1.0, 0.0],
    ]);
    let (v, f) = clean(&square, &SQUARE_FACETS, power(-20)).unwrap();
    assert!(same_bits(&v, &square));
    assert_eq!(f, SQUARE_FACETS);
}

#[test]
fn c9_refusal_9_and_c10_none() {
    let extents = [0.0, 0.0, 0.0, 2.0, 2.0, 2.0];
    let at = |z| flat(&[[0.0, 0.0, z], [1.0, 0.0, z], [0.0, 1.0, z]]);
    let refused = candidates(&at(1.0), &[0, 1, 2], &extents, 1e-10, 2.0).unwrap_err();
    assert_eq!(
        refused,
        Reply {
            number: 9,
            values: [1, 2, 0, 0]
        }
    );
    let lists = candidates(&at(0.0), &[0, 1, 2], &extents, 1e-10, 2.0).unwrap();
    assert_eq!(lists.map(|list| list.len()), [50, 34, 87, 15]);
}

#[test]
fn c11_and_c12_axis_points() {
    assert_eq!(axis_grid_coordinates(0.0, 8.0, 4.0, 0.0), [0.0, 4.0, 8.0]);
    assert_eq!(axis_grid_coordinates(0.0, 0.5, 4.0, 0.0), [0.0, 0.5]);
}

#[test]
fn c13_segments_256_and_257() {
    let facet = flat(&[[0.0, 0.0, 0.0], [1.0, 0.0, 0.0], [0.0, 1.0, 0.0]]);
    let run = |length: f64| {
        candidates(
            &facet,
            &[0, 1, 2],
            &[0.0, 0.0, 0.0, length, 1.0, 1.0],
            0.0,
            1.0,
        )
    };
    assert_eq!(
        run(256.0).unwrap().map(|list| list.len()),
        [5140, 2070, 6195, 15]
    );
    assert_eq!(run(257.0).unwrap_err(), Reply::refused(6));
}

#[test]
fn c14_largest_key() {
    let run = |x: f64| clean(&[x, 0.0, 0.0], &[], 0.0);
    assert_eq!(run(4_611_686.0).unwrap().0, [4_611_686.0, 0.0, 0.0]);
    assert_eq!(run(4_611_687.0).unwrap_err(), Reply::refused(8));
    // The largest coordinate accepted at eps 0 has key 2^62 itself.
    let largest = f64::from_bits(0x4151_9799_812d_ea11);
    assert_eq!(quantized_point_key([largest, 0.0, 0.0], 0.0).0, 1 << 62);
    assert!(run(largest).is_ok());
    assert_eq!(run(largest.next_up()).unwrap_err(), Reply::refused(8));
}

/// C15's triangles: each side face in two below and two above, top and bottom in
/// two each. Candidates are found by their points.
pub fn square_caps(candidate_words: &[u64]) -> Vec<u64> {
    let at = |x: f64, y: f64, z: f64| {
        let bits = [x, y, z].map(f64::to_bits);
        let place = candidate_words.chunks_exact(5).position(|c| c[..3] == bits);
        place.expect("a corner of the cube or of the square") as u64
    };
    let mut list = Vec::new();
    let mut rectangle = |face: u64, [a, b, c, d]: [u64; 4]| {
        list.extend([face, a, b, c, face, a, c, d]);
    };
    for (face, [p, q]) in [
        (0, [[0.0, 0.0], [0.0, 1.0]]),
        (1, [[1.0, 0.0], [1.0, 1.0]]),
        (2, [[0.0, 0.0], [1.0, 0.0]]),
        (3, [[0.0, 1.0], [1.0, 1.0]]),
    ] {
        for (low, high) in [(0.0, 0.5), (0.5, 1.0)] {
            let corner = |[x, y]: [f64; 2], z| at(x, y, z);
            rectangle(
                face,
                [
                    corner(p, low),
                    corner(q, low),
                    corner(q, high),
                    corner(p, high),
                ],
            );
        }
    }
    for (face, z) in [(4, 0.0), (5, 1.0)] {
        rectangle(
            face,
            [
                at(0.0, 0.0, z),
                at(1.0, 0.0, z),
                at(1.0, 1.0, z),
                at(0.0, 1.0, z),
            ],
        );
    }
    list
}

#[test]
fn c15_lower_half_positive_upper_half_negative() {
    let square = flat(&SQUARE);
    let lists = candidates(&square, &SQUARE_FACETS, &UNIT, 1e-10, 1.0).unwrap();
    assert_eq!(lists.each_ref().map(|list| list.len()), [60, 38, 108, 12]);
    let list = square_caps(&lists[0]);
    assert_eq!(list.len(), 4 * 20);
    for (mode, lower) in [(1, true), (2, false)] {
        let (v, f) = caps(&square, &SQUARE_FACETS, &list, &UNIT, 1e-10, 1.0, mode).unwrap();
        assert_eq!((v.len(), f.len()), (3 * 8, 3 * 12));
        for &id in &f[6..] {
            let z = v[3 * id as usize + 2];
            assert!(if lower { z <= 0.5 } else { z >= 0.5 });
        }
        // Watertight: every side is met by one that runs the other way.
        let mut sides = std::collections::HashMap::new();
        for t in f.chunks_exact(3) {
            for side in [(t[0], t[1]), (t[1], t[2]), (t[2], t[0])] {
                *sides.entry(side).or_insert(0) += 1;
            }
        }
        assert!(sides
            .iter()
            .all(|(&(a, b), &n)| n == 1 && sides.get(&(b, a)) == Some(&1)));
    }
}

#[test]
fn c16_roots() {
    assert_eq!([5.0, 12.0, 0.0].norm(), 13.0);
    assert_eq!([0.0; 3].norm().to_bits(), 0);
}
