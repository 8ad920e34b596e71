//! Requests for candidates in which an open edge passes a grid point at the bound of the test that skips it: within resolution ×
//! 1e-9, times the larger of 1 and the edge's length, of the cross product.

use crate::boxes::LARGEST;
use crate::length;
use crate::numbers::near;
use crate::random::Random;
use crate::request::Request;
use oracle::length::{exact, rounded};

/// A box around 0, where doubles are dense and a grid point lies; its half side and its resolution.
fn around_zero(random: &mut Random) -> (f64, f64) {
    let half = random.pick(&[0.25, 1.0, 100.0, LARGEST / 2.0, LARGEST / 2.0]);
    (half, half / (1 + random.below(2)) as f64)
}

/// A facet of these corners on a face of the box, given from any corner on.
fn on_a_face(
    random: &mut Random,
    family: &'static str,
    corners: [[f64; 2]; 3],
    (half, resolution): (f64, f64),
) -> Request {
    let extents = [-half, -half, -half, half, half, half];
    let face = random.below(6);
    let plane = extents[face / 2 + 3 * (face % 2)];
    let mut vertices = Vec::new();
    for [u, v] in corners {
        vertices.extend([[plane, u, v], [u, plane, v], [u, v, plane]][face / 2]);
    }
    let mut facets = vec![0, 1, 2];
    facets.rotate_left(random.below(3));
    let eps = if half > 1e6 {
        1e-9
    } else {
        random.pick(&[0.0, 1e-10, 1e-12])
    };
    let mut request = Request::new(family, vertices, facets, extents, eps);
    request.resolution = resolution;
    request
}

/// An edge beside the grid point at 0, at the bound's distance or a few steps from it, or
/// short of it by the bound of the test at the ends. In the largest box the tolerance is
/// near 1, so that the last digit of the length decides.
pub fn near_grid_points(random: &mut Random) -> Request {
    let (half, resolution) = around_zero(random);
    let tolerance = resolution * 1e-9;
    // The edge runs from -d to d, shifted sideways.
    let scale = if half > 1e6 { 4.0 } else { half };
    let d = [random.between(0.05, 0.9), random.pick(&[0.0, 0.3, -0.7])].map(|x| scale * x);
    let length = exact(2.0 * d[0], 2.0 * d[1]);
    let aside = tolerance * length.max(1.0) / length * random.pick(&[0.0, 0.5, 1.0, 1.0, 1.0, 2.0]);
    let aside = near(random, aside);
    let shift = [-aside * 2.0 * d[1] / length, aside * 2.0 * d[0] / length];
    let mut ends = [
        [shift[0] - d[0], shift[1] - d[1]],
        [shift[0] + d[0], shift[1] + d[1]],
    ];
    if random.one_in(4) {
        // Along the line y = 0, its end short of the point by the end test's bound.
        let short = tolerance * tolerance / d[0] * random.pick(&[1.0, 0.5, 2.0]);
        ends = [[-d[0], 0.0], [-near(random, short).abs(), 0.0]];
    }
    let third = [
        half * random.between(-1.0, 1.0),
        half * random.pick(&[-1.0, 0.9]),
    ];
    let corners = [ends[0], ends[1], third];
    on_a_face(random, "near grid points", corners, (half, resolution))
}

/// Two differences whose length lies from 1 to `most`, and the upper one of two lengths between
/// which its last digit decides: the exact one and document 01's, where they are not the same;
/// or the two doubles to which the exact root is equally near.
fn undecided(random: &mut Random, most: f64) -> [f64; 3] {
    if random.one_in(4) {
        let unit = 2f64.powi(random.below(most.log2() as usize) as i32 - 53);
        let [x, y, third] = length::tie(random);
        let sides = if random.one_in(2) { [x, y] } else { [y, x] };
        return [sides[0], sides[1], third + 1].map(|n| n as f64 * unit);
    }
    loop {
        let (x, y) = (most * random.unit(), most * random.unit());
        let lengths = [exact(x, y), rounded(x, y)];
        if lengths[0] != lengths[1] && lengths[0].min(lengths[1]) >= 1.0 {
            return [x, y, lengths[0].max(lengths[1])];
        }
    }
}

/// An edge with the differences x and -y, beginning above 0 and ending below: the cross product
/// in the test of the point 0 is this one, to the last digit, if there is such an edge.
fn beside_zero(x: f64, y: f64, product: f64) -> Option<[[f64; 2]; 2]> {
    let quotient = product / x;
    let mut steps = [quotient, quotient.next_up(), quotient.next_down()].into_iter();
    let above = steps.find(|above| x * above == product)?;
    let below = above - y;
    (below < 0.0 && below - above == -y).then_some([[0.0, above], [x, below]])
}

/// An edge beside the grid point at 0, with a cross product that is exactly the bound which the
/// upper one of two lengths gives: the lower one would keep the point. Or a step from that.
pub fn at_length_bound(random: &mut Random) -> Request {
    let (half, resolution) = around_zero(random);
    let most = if half > 1e6 {
        LARGEST
    } else {
        random.pick(&[2.0, 100.0, 1e6])
    };
    let ends = loop {
        let [x, y, length] = undecided(random, most);
        let bound = resolution * 1e-9 * length;
        let product = match random.below(8) {
            0 => bound.next_up(),
            1 => bound.next_down(),
            _ => bound,
        };
        if let Some(ends) = beside_zero(x, y, product) {
            break ends;
        }
    };
    // The other two sides pass the point at a distance, or end before it.
    let third = [half / 2.0; 2];
    let [u, v] = [0; 2].map(|_| random.pick(&[-1.0, 1.0]));
    let turned = random.one_in(2);
    let corners = [ends[0], ends[1], third].map(|corner| {
        let [a, b] = [u * corner[0], v * corner[1]];
        if turned {
            [b, a]
        } else {
            [a, b]
        }
    });
    on_a_face(random, "at a length's bound", corners, (half, resolution))
}

#[cfg(test)]
mod tests {
    use crate::candidates::OPERATION;
    use crate::lent::{Lent, Old};
    use crate::operation;
    use oracle::length::{by, exact, Rule};

    /// Of 20,000 requests for candidates enough get another answer by document 01's length, and
    /// by a length that is a step too long or too short.
    #[test]
    fn requests_tell_lengths_apart() {
        let rules = [
            Rule::Rounded,
            Rule::Other(|x, y| exact(x, y).next_up()),
            Rule::Other(|x, y| exact(x, y).next_down()),
        ];
        let mut told = [0; 3];
        let mut work = Lent::new(0, Old::Junk);
        // Those with an edge beside a grid point; of the others hardly any tells.
        for number in (2..20_000).step_by(8) {
            let request = operation::request(&OPERATION, 1, number, &mut work);
            let expected = (OPERATION.oracle)(&request, &mut work);
            for (rule, told) in rules.into_iter().zip(&mut told) {
                let answer = by(rule, || (OPERATION.oracle)(&request, &mut work));
                *told += u32::from(answer != expected);
            }
        }
        assert!(told.iter().all(|&requests| requests >= 100), "{told:?}");
    }
}
