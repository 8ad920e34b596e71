//! Meshes of one facet in which the last digit of an edge's length decides whether a
//! grid point is a candidate (document 02, E3). All have a grid of two by two by one
//! segments around (0, 0), on whose lower face the edge from the first corner to the
//! second passes the one grid point that may be skipped.

use crate::length::{by, exact, rounded, Rule};
use crate::lent::{candidates, caps, flat};
use crate::{Extents, Reply};

struct Edge {
    corners: [[f64; 3]; 3],
    extents: Extents,
    eps: f64,
    resolution: f64,
}

/// How many candidates there are, and which one is the grid point at (0, 0, 0).
type Grid = (usize, Option<usize>);

impl Edge {
    /// The edge's extents, as the reference computes them.
    fn differences(&self) -> [f64; 2] {
        let [a, b, _] = self.corners;
        [b[0] - a[0], b[1] - a[1]]
    }

    fn grid(&self, rule: Rule) -> Grid {
        let vertices = flat(&self.corners);
        let run = || {
            candidates(
                &vertices,
                &[0, 1, 2],
                &self.extents,
                self.eps,
                self.resolution,
            )
        };
        let [list, ..] = by(rule, run).unwrap();
        let mut points = list.chunks_exact(5).map(|candidate| &candidate[..3]);
        (list.len() / 5, points.position(|point| point == [0; 3]))
    }
}

const LONGER: Rule = Rule::Other(|x, y| exact(x, y).next_up());
const SHORTER: Rule = Rule::Other(|x, y| exact(x, y).next_down());

/// The exact length is 1.16; document 01's, of squares that round, is a step longer.
/// The cross product is a step above 1.16e-9, so that document 01's bound skips the
/// point and the exact one keeps it.
///
/// Found by a program that went through right triangles with short sides, here 0.8,
/// 0.84 and 1.16: with the first corner 29 / 20 of the tolerance 1e-9 above the point,
/// cross product and bound are equal but for their roundings. Of the meshes so found
/// in a box of the side 2 this one has the fewest digits.
const KEPT: Edge = Edge {
    corners: [
        [0.0, 1.45e-9, 0.0],
        [0.8, -0.83999999855, 0.0],
        [0.5, 0.5, 0.0],
    ],
    extents: [-1.0, -1.0, 0.0, 1.0, 1.0, 1.0],
    eps: 0.0,
    resolution: 1.0,
};

#[test]
fn a_point_that_the_exact_length_keeps() {
    let [x, y] = KEPT.differences();
    assert_eq!([x, y], [0.8, -0.84]);
    assert_eq!([exact(x, y), rounded(x, y)], [1.16, 1.1600000000000001]);
    assert_eq!(KEPT.grid(Rule::Exact), (21, Some(19)));
    assert_eq!(KEPT.grid(Rule::Rounded), (20, None));
}

/// The other way round: the exact length is 1.508 and skips the point. Document 01's
/// keeps it, and so does the `hypot` of glibc 2.36, which the Rust would call: both are
/// a step shorter. Found in the same way, from 5, 12 and 13.
const SKIPPED: Edge = Edge {
    corners: [
        [0.0, 1.3e-8, 0.0],
        [0.58, -1.391999987, 0.0],
        [0.5, 0.5, 0.0],
    ],
    extents: [-5.0, -5.0, 0.0, 5.0, 5.0, 1.0],
    eps: 0.0,
    resolution: 5.0,
};

#[test]
fn a_point_that_the_exact_length_skips() {
    let [x, y] = SKIPPED.differences();
    assert_eq!([exact(x, y), rounded(x, y)], [1.508, 1.5079999999999998]);
    assert_eq!(SKIPPED.grid(Rule::Exact), (20, None));
    assert_eq!(SKIPPED.grid(SHORTER), (21, Some(19)));
    assert_eq!(SKIPPED.grid(Rule::Rounded), (21, Some(19)));
}

/// Caps reads from the same candidates: of the first mesh number 19 is on the lower
/// face by the exact length alone.
#[test]
fn a_cap_at_the_kept_point() {
    let corners = flat(&KEPT.corners);
    let list = [4, 0, 1, 19, 4, 0, 1, 2];
    let run = || caps(&corners, &[0, 1, 2], &list, &KEPT.extents, 0.0, 1.0, 2);
    let (vertices, facets) = run().unwrap();
    assert_eq!(
        (&vertices[9..], &facets[3..]),
        (&[0.0; 3][..], &[0, 1, 3][..])
    );
    assert_eq!(by(Rule::Rounded, run), Err(Reply::refused_with(10, 0)));
}

/// An edge whose exact length lies between two doubles, equally near: two sides of a
/// right triangle of whole numbers whose third is odd and has 54 digits. The tolerance
/// is 1, so that the bound is the length itself. The cross product is the first
/// difference and 1e-8 of the second, which rounds to the upper double: by it the
/// point is skipped, by the lower one it is kept.
const fn tied(second: [f64; 3]) -> Edge {
    Edge {
        corners: [[1e-8, 1.0, 0.0], second, [0.0, 2.0, 0.0]],
        extents: [-1e9, -1e9, 0.0, 1e9, 1e9, 1.0],
        eps: 1e-9,
        resolution: 1e9,
    }
}

/// 2^-24, the last of 54 digits of a length from 2^29 to 2^30.
const LAST: f64 = 1.0 / 16_777_216.0;

/// 2n + 1, 2n(n + 1) and one more, for n = 2^26, which leaves the second side short:
/// the third is one above a multiple of four, and goes down.
const TIE_DOWN: Edge = tied([536_870_920.0, -7.0 - LAST, 0.0]);

/// Three times the same, for n = 3 × 2^24: the third is three above a multiple of four
/// (only multiples of another triangle's are), and goes up.
const TIE_UP: Edge = tied([905_969_682.0, -17.0 - 3.0 * LAST, 0.0]);

/// The differences are these sides, and the third is whole.
#[track_caller]
fn assert_tied(edge: &Edge, sides: [u128; 3]) {
    let differences = edge.differences().map(|x| x.abs() / LAST);
    assert_eq!(differences.map(|x| x as u128), [sides[1], sides[0]]);
    assert!(differences.iter().all(|x| x.fract() == 0.0));
    assert_eq!(sides[0].pow(2) + sides[1].pow(2), sides[2].pow(2));
}

#[test]
fn a_tie_that_goes_down_keeps_the_point() {
    let n = 1 << 26;
    assert_tied(&TIE_DOWN, [2 * n + 1, 2 * n * (n + 1), 2 * n * (n + 1) + 1]);
    let [x, y] = TIE_DOWN.differences();
    assert_eq!(exact(x, y), 536_870_920.0);
    assert_eq!(TIE_DOWN.grid(Rule::Exact), (21, Some(19)));
    assert_eq!(TIE_DOWN.grid(LONGER), (20, None));
}

#[test]
fn a_tie_that_goes_up_skips_the_point() {
    let n = 3 << 24;
    let sides = [2 * n + 1, 2 * n * (n + 1), 2 * n * (n + 1) + 1];
    assert_tied(&TIE_UP, sides.map(|side| 3 * side));
    let [x, y] = TIE_UP.differences();
    assert_eq!(exact(x, y), 905_969_682.0000002);
    assert_eq!(TIE_UP.grid(Rule::Exact), (20, None));
    assert_eq!(TIE_UP.grid(SHORTER), (21, Some(19)));
}
