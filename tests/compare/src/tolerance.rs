//! Tolerance: `yongpham_tolerance` beside the oracle.

use crate::boxes::{self, LARGEST};
use crate::operation::library;
use crate::random::Random;
use crate::report::Row;
use crate::request::Request;
use crate::Options;
use oracle::Extents;

pub fn row(options: &Options) -> Row {
    let mut row = Row::new("tolerance");
    for number in options.range() {
        let mut random = Random::new(options.seed, row.name, number);
        let extents = boxes::any(&mut random);
        let expected = oracle::tolerance(&extents);
        let got = library(yongpham_library::tolerance(&extents));
        row.requests += 1;
        row.replies[expected.number as usize] += 1;
        if got != expected {
            row.differs(1, || {
                let bits = extents.map(|x| format!("{:016x}", x.to_bits())).join(" ");
                format!("request {number}: box {bits}\nours {got:x?}\noracle {expected:x?}")
            });
        }
    }
    row
}

/// A request of tolerance for a file of stored answers: a box alone.
pub fn request(family: &'static str, extents: Extents) -> Request {
    Request::new(family, Vec::new(), Vec::new(), extents, 0.0)
}

/// Request number `number` of a seed: any box.
pub fn any(seed: u64, number: u64) -> Request {
    let mut random = Random::new(seed, "tolerance", number);
    request("any box", boxes::any(&mut random))
}

/// Boxes at each bound of tests 4 and 5, and around a diagonal of 1, where the
/// larger of 1 and the root changes.
pub fn chosen() -> Vec<Request> {
    let mut boxes = vec![
        [0.0, 0.0, 0.0, 1.0, 1.0, 1.0],
        [-LARGEST, -LARGEST, -LARGEST, LARGEST, LARGEST, LARGEST],
        [LARGEST.next_down(), 0.0, 0.0, LARGEST, 1.0, 1.0],
        [0.0, 0.0, 0.0, 3.0, 4.0, 12.0],
        [0.0, 0.0, 0.0, 1.0, 5e-324, 5e-324],
        [0.0, 0.0, 0.0, 1f64.next_up(), 5e-324, 5e-324],
        [0.0, 0.0, 0.0, 1f64.next_down(), 5e-324, 5e-324],
        [0.0, 0.0, 0.0, 1.0, 1.0 / 134_217_728.0, 1e-9],
        [0.0, 0.0, 0.0, 0.6, 0.8, 5e-324],
        [0.0, 0.0, 0.0, 5e-324, 5e-324, 5e-324],
        [-5e-324, -5e-324, -5e-324, 5e-324, 5e-324, 5e-324],
        [-0.0, -0.0, -0.0, f64::MIN_POSITIVE, 2.0, 3.0],
        [-0.0, 0.0, 0.0, 0.0, 1.0, 1.0],
        [0.0, 0.0, 0.0, -0.0, 1.0, 1.0],
    ];
    for place in 0..6 {
        let with = |x: f64| {
            let mut extents = [-2.0, -3.0, -5.0, 7.0, 11.0, 13.0];
            extents[place] = x;
            extents
        };
        let opposite = with(0.0)[(place + 3) % 6];
        let outward = if place < 3 { -1.0 } else { 1.0 };
        boxes.push(with(outward * LARGEST));
        boxes.push(with(outward * LARGEST.next_up()));
        boxes.push(with(outward * f64::INFINITY));
        boxes.push(with(-outward * f64::INFINITY));
        boxes.push(with(outward * f64::MAX));
        // The box is empty too, but test 4 comes first.
        boxes.push(with(-outward * LARGEST.next_up()));
        boxes.push(with(-outward * LARGEST));
        boxes.push(with(opposite));
        boxes.push(with(if place < 3 {
            opposite.next_down()
        } else {
            opposite.next_up()
        }));
        boxes.push(with(if place < 3 {
            opposite.next_up()
        } else {
            opposite.next_down()
        }));
    }
    boxes
        .into_iter()
        .map(|extents| request("chosen", extents))
        .collect()
}
