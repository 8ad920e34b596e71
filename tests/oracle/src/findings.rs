//! Traps that document 01 names or that running the reference brought up: where a
//! port goes wrong first.

use crate::lent::{candidates, caps, clean, clip, flat, same_bits};
use crate::worked_blocks::{square_caps, SQUARE, SQUARE_FACETS};
use crate::{tolerance, Reply};

const UNIT: [f64; 6] = [0.0, 0.0, 0.0, 1.0, 1.0, 1.0];

fn power(exponent: i32) -> f64 {
    2f64.powi(exponent)
}

/// "nine corner places for a clipped facet" are not enough: 10 and 13 occur.
#[test]
fn more_than_nine_corners() {
    let ten = flat(&[[-1.0, -2.0, 4.0], [0.0, -power(-53), 1.0], [3.0, 2.0, -1.0]]);
    let (v, f) = clip(&ten, &[0, 1, 2], &[0.0, 0.0, 0.0, 2.0, 1.0, 1.0], 0.0).unwrap();
    assert_eq!((v.len(), f.len()), (3 * 10, 3 * 8));
    let thirteen = flat(&[
        [-786432.0, 524288.0, -1048576.0],
        [power(-34), power(-35), 1.8125 + power(-33)],
        [0.0, power(-89), -3.0],
    ]);
    let extents = [
        -1.53125 * power(-37),
        power(-91),
        -3.0,
        0.0,
        power(-38),
        1.8125,
    ];
    let (v, f) = clip(&thirteen, &[0, 1, 2], &extents, 0.0).unwrap();
    assert_eq!((v.len(), f.len()), (3 * 13, 3 * 11));
}

/// A corner on the plane before an outside corner is written twice.
#[test]
fn corner_on_the_plane_is_written_twice() {
    let facet = flat(&[[0.0, 0.0, 0.0], [1.0, 0.0, 0.0], [2.0, 1.0, 0.0]]);
    let (v, _) = clip(&facet, &[0, 1, 2], &[-8.0, -8.0, -8.0, 1.0, 8.0, 8.0], 0.0).unwrap();
    let expected = [
        [1.0, 0.5, 0.0],
        [0.0, 0.0, 0.0],
        [1.0, 0.0, 0.0],
        [1.0, 0.0, 0.0],
    ];
    assert!(same_bits(&v, &flat(&expected)));
    let facet = flat(&[[0.0, 0.0, 0.5], [3.0, 0.0, 0.5], [0.0, 3.0, 0.5]]);
    let (v, f) = clip(&facet, &[0, 1, 2], &[0.0, 0.0, 0.0, 0.1, 0.1, 0.1], 1.0).unwrap();
    assert_eq!(f.len(), 6);
    assert!(v.chunks_exact(3).all(|p| p == &v[..3]));
}

/// Min before max, and at eps 0 a zero takes the sign of its plane.
#[test]
fn snapping_order_and_signed_zeros() {
    let snap = |x: f64, low: f64, high: f64, eps: f64| {
        let facet = flat(&[[x, 0.2, 0.2], [x, 0.8, 0.2], [x, 0.2, 0.8]]);
        clip(&facet, &[0, 1, 2], &[low, -9.0, -9.0, high, 9.0, 9.0], eps)
            .unwrap()
            .0[0]
    };
    assert_eq!([0.0, 0.5, 1.0].map(|x| snap(x, 0.0, 1.0, 1.0)), [1.0; 3]);
    assert_eq!(snap(0.5, 0.0, 1.0, 0.75), 0.0);
    assert_eq!(snap(-0.0, 0.0, 1.0, 0.0).to_bits(), 0);
    assert_eq!(snap(0.0, -0.0, 1.0, 0.0).to_bits(), (-0.0f64).to_bits());
}

/// Welding takes the first in cell order, neither nearest nor lowest.
#[test]
fn weld_takes_the_first_in_cell_order() {
    let points = |xs: &[f64]| xs.iter().flat_map(|&x| [x, 0.0, 0.0]).collect::<Vec<_>>();
    let (v, _) = clean(&points(&[0.9, -0.6, 0.2]), &[], 1.0).unwrap();
    assert!(same_bits(&v, &points(&[0.9, -0.6])));
    // Which one it joined shows in a facet: vertices 0, 2 and 3 are three corners
    // only if the third joined the second.
    let v = flat(&[
        [0.9, 0.0, 0.0],
        [-0.6, 0.0, 0.0],
        [0.2, 0.0, 0.0],
        [0.0, 9.0, 0.0],
        [0.0, 9.0, 9.0],
    ]);
    let (_, f) = clean(&v, &[0, 2, 3, 0, 2, 4], 1.0).unwrap();
    assert_eq!(f.len(), 6);
}

/// eps 0 still welds where the squared distance underflows.
#[test]
fn eps_zero_still_welds() {
    let count = |x: f64| {
        clean(&[0.0, 0.0, 0.0, x, 0.0, 0.0], &[], 0.0)
            .unwrap()
            .0
            .len()
    };
    assert_eq!((count(1.5e-162), count(1.6e-162)), (3, 6));
}

/// Side points go in `total_cmp` order, so -0.0 stands before 0.0.
#[test]
fn side_order_puts_minus_zero_first() {
    let facet = flat(&[[1.0 + 0.9e-10, 1.0, 0.0], [0.5, 0.5, 0.0], [0.5, 1.0, 0.0]]);
    let [_, _, k, _] = candidates(&facet, &[0, 1, 2], &UNIT, 1e-10, 1.0).unwrap();
    let on_zmin: Vec<_> = k
        .chunks_exact(3)
        .filter(|c| c[0] == 4)
        .map(|c| (c[1], c[2]))
        .collect();
    assert!(on_zmin.contains(&(0, 6)) && on_zmin.contains(&(0, 2)));
    assert!(!on_zmin.contains(&(2, 6)));
}

/// "Treating a lone facet a, a, b as harmless in candidates: its edge a, a is open."
#[test]
fn edge_with_equal_ends_is_open() {
    let run = |p: [f64; 3], facet: [u32; 3]| {
        candidates(&flat(&[p, [5.0, 6.0, 7.0]]), &facet, &UNIT, 0.0, 1.0)
    };
    let inside = [0.5, 0.5, 0.5];
    assert_eq!(
        run(inside, [0, 0, 1]).unwrap_err(),
        Reply {
            number: 9,
            values: [0; 4]
        }
    );
    let empty: [Vec<u64>; 4] = Default::default();
    assert_eq!(run([0.0, 0.5, 0.5], [0, 0, 1]).unwrap(), empty);
    assert_eq!(run(inside, [0, 0, 0]).unwrap(), empty);
    let twice = flat(&[inside, [0.25, 0.5, 0.5], [0.5, 0.25, 0.5]]);
    assert_eq!(
        candidates(&twice, &[0, 1, 2, 0, 1, 2], &UNIT, 0.0, 1.0).unwrap(),
        empty
    );
}

/// A vertex used by no facet can take over an open edge's end.
#[test]
fn unused_vertex_takes_a_candidate() {
    let mut points = SQUARE.to_vec();
    points.push([1e-11, 0.0, 0.5]);
    let v = flat(&points);
    let [c, ..] = candidates(&v, &SQUARE_FACETS, &UNIT, 1e-10, 1.0).unwrap();
    assert_eq!((c[0], c[3]), (1e-11f64.to_bits(), 5));
}

/// "Turning a watertight mesh in negative mode": it comes back as it was, and a
/// cap list that would be refused by 10 is not looked at.
#[test]
fn watertight_mesh_comes_back() {
    let v = flat(&[
        [0.2, 0.2, 0.2],
        [0.8, 0.2, 0.2],
        [0.2, 0.8, 0.2],
        [0.2, 0.2, 0.8],
    ]);
    let f = [0, 2, 1, 0, 1, 3, 1, 2, 3, 0, 3, 2];
    let (rv, rf) = caps(&v, &f, &[9, 9, 9, 9], &UNIT, 1e-10, 1.0, 2).unwrap();
    assert!(same_bits(&rv, &v) && rf == f);
    // Mode none: an open edge off the box is not looked at either.
    let (_, rf) = caps(&v, &f[..3], &[9, 9, 9, 9], &UNIT, 1e-10, 1.0, 0).unwrap();
    assert_eq!(rf, f[..3]);
}

/// Tests 10 and 11 name the first triangle and the first open edge.
#[test]
fn places_of_bad_cap_and_missing_edge() {
    let square = flat(&SQUARE);
    let [c, ..] = candidates(&square, &SQUARE_FACETS, &UNIT, 1e-10, 1.0).unwrap();
    let list = square_caps(&c);
    let run = |list: &[u64]| caps(&square, &SQUARE_FACETS, list, &UNIT, 1e-10, 1.0, 1).unwrap_err();
    let mut faulty = list.clone();
    faulty[4 * 7 + 2] = faulty[4 * 7 + 1];
    faulty[4 * 9] = 6;
    assert_eq!(run(&faulty), Reply::refused_with(10, 7));
    let mut descending = list.clone();
    descending.rotate_left(4 * 16);
    assert_eq!(run(&descending), Reply::refused_with(10, 4));
    // Open edges by sorted pair: (0,1) YMin, (0,3) XMin, (1,2) XMax, (2,3) YMax.
    assert_eq!(run(&[]), Reply::refused_with(11, 0));
    assert_eq!(run(&list[4 * 8..4 * 12]), Reply::refused_with(11, 1));
}

/// The cap area bound is absolute, and a dropped cap leaves its vertices.
#[test]
fn dropped_caps_leave_vertices() {
    let side = power(-20);
    let v: Vec<f64> = SQUARE.concat().iter().map(|x| x * side).collect();
    let extents = UNIT.map(|x| x * side);
    let [c, ..] = candidates(&v, &SQUARE_FACETS, &extents, 1e-10, side).unwrap();
    let unscaled: Vec<u64> = c
        .chunks_exact(5)
        .flat_map(|c| {
            [0, 1, 2]
                .map(|i| (f64::from_bits(c[i]) / side).to_bits())
                .into_iter()
                .chain([c[3], c[4]])
        })
        .collect();
    let list = square_caps(&unscaled);
    let (v, f) = caps(&v, &SQUARE_FACETS, &list, &extents, 1e-10, side, 1).unwrap();
    assert_eq!((v.len(), f.len()), (24, 6));
}

/// Zeros of either sign: eps -0.0 is accepted, resolution -0.0 is not above 0, and
/// a box from -0.0 to 0.0 has no inside.
#[test]
fn zeros_in_the_tests() {
    assert_eq!(
        tolerance(&[-0.0, 0.0, 0.0, 0.0, 1.0, 1.0]),
        Reply::refused(5)
    );
    assert!(clean(&[1.0, 0.0, -0.0], &[], -0.0).is_ok());
    let facet = flat(&[[0.0, 0.0, 0.0], [1.0, 0.0, 0.0], [0.0, 1.0, 0.0]]);
    assert_eq!(
        candidates(&facet, &[0, 1, 2], &UNIT, 0.0, -0.0).unwrap_err(),
        Reply::refused(4)
    );
    // length / resolution is infinite: tested before it is converted.
    assert_eq!(
        candidates(&facet, &[0, 1, 2], &UNIT, 0.0, 5e-324).unwrap_err(),
        Reply::refused(6)
    );
}

/// The tolerance of the largest box is still an eps that is accepted.
#[test]
fn tolerances() {
    let bits = |extents: [f64; 6]| f64::from_bits(tolerance(&extents).values[0]);
    assert_eq!(bits([0.0, 0.0, 0.0, 0.25, 0.25, 0.25]), 1e-10);
    assert_eq!(
        bits([
            -power(30),
            -power(30),
            -power(30),
            power(30),
            power(30),
            power(30)
        ]),
        0.37195507867593586
    );
    assert_eq!(
        tolerance(&[f64::NAN, 0.0, 0.0, 1.0, 1.0, 1.0]),
        Reply::refused(4)
    );
    assert_eq!(
        tolerance(&[0.0, 0.0, 0.0, 1.0, 1.0, power(30).next_up()]),
        Reply::refused(4)
    );
}

/// Test 11 where all candidates of a face lie on one line: a triangulation has no
/// inner face there, and 11 refuses all the same (docs/DIFFERENCES.md, 6).
#[test]
fn missing_edge_on_a_face_of_one_line() {
    let extents = [0.0, 0.0, 0.0, 1.0, 1e-13, 1.0];
    let v = flat(&[[0.0, 0.0, 0.25], [0.0, 0.0, 0.75], [0.5, 0.0, 0.5]]);
    let [c, lists, _, edges] = candidates(&v, &[0, 1, 2], &extents, 1e-10, 1.0).unwrap();
    let (counts, numbers) = lists.split_at(6);
    let on = |face: usize| {
        let start: u64 = counts[..face].iter().sum();
        &numbers[start as usize..(start + counts[face]) as usize]
    };
    // XMin: more than two candidates, all with y = 0.
    assert!(on(0).len() > 2);
    assert!(on(0)
        .iter()
        .all(|&i| f64::from_bits(c[5 * i as usize + 1]) == 0.0));
    // The first open edge listed is one of XMin; every edge of YMin and YMax is supplied.
    assert_eq!(edges[0], 0);
    let mut list = Vec::new();
    for face in [2, 3] {
        let l = on(face);
        for edge in edges.chunks_exact(3).filter(|edge| edge[0] == face as u64) {
            let third = l.iter().find(|&&i| i != edge[1] && i != edge[2]).unwrap();
            list.extend([face as u64, edge[1], edge[2], *third]);
        }
    }
    let run = |list: &[u64]| caps(&v, &[0, 1, 2], list, &extents, 1e-10, 1.0, 1);
    assert_eq!(run(&list).unwrap_err(), Reply::refused_with(11, 0));
    // A triangle without area on XMin is enough for 11.
    let mut flat_one = Vec::new();
    for edge in edges.chunks_exact(3).filter(|edge| edge[0] == 0) {
        let third = on(0)
            .iter()
            .find(|&&i| i != edge[1] && i != edge[2])
            .unwrap();
        flat_one.extend([0, edge[1], edge[2], *third]);
    }
    flat_one.extend(&list);
    assert!(run(&flat_one).is_ok());
}
