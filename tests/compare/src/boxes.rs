//! Boxes, and the single numbers around every bound of document 01.

use crate::numbers::double;
use crate::random::Random;
use oracle::Extents;

/// The largest magnitude that document 01 accepts.
pub const LARGEST: f64 = 1_073_741_824.0;

/// Numbers that break test 4, and those that just do not.
pub fn edge_of_range(random: &mut Random) -> f64 {
    let magnitude = random.pick(&[
        f64::NAN,
        f64::INFINITY,
        LARGEST,
        LARGEST.next_up(),
        LARGEST.next_down(),
        2.0 * LARGEST,
        f64::MAX,
        0.0,
        5e-324,
        f64::MIN_POSITIVE,
    ]);
    if random.one_in(2) {
        magnitude
    } else {
        -magnitude
    }
}

/// An ordinary coordinate: whole, dyadic or any, of every accepted magnitude.
pub fn coordinate(random: &mut Random) -> f64 {
    match random.below(5) {
        0 => random.below(9) as f64 - 4.0,
        1 => (random.below(129) as f64 - 64.0) / 16.0,
        2 => random.between(-1.0, 1.0) * 2f64.powi(random.below(31) as i32),
        3 => random.between(-1.0, 1.0) * 2f64.powi(-(random.below(1070) as i32)),
        _ => random.between(-2.0, 3.0),
    }
}

/// A box with min < max on every axis: mostly of ordinary size, also thin to a
/// step of the format, with planes at either zero, or as large as can be.
pub fn sound(random: &mut Random) -> Extents {
    let mut extents = [0.0; 6];
    for axis in 0..3 {
        let (low, high) = loop {
            let low = coordinate(random);
            let high = match random.below(6) {
                0 => coordinate(random),
                1 => low.next_up(),
                2 => random.pick(&[0.0, -0.0]),
                3 => random.pick(&[-LARGEST, LARGEST]),
                _ => low + random.between(0.0, 4.0),
            };
            if low < high {
                break (low, high);
            }
            if high < low {
                break (high, low);
            }
        };
        (extents[axis], extents[axis + 3]) = (low, high);
    }
    extents
}

/// Any six numbers: sound, turned round, without inside, out of range, any bits.
pub fn any(random: &mut Random) -> Extents {
    let mut extents = sound(random);
    let place = random.below(6);
    match random.below(6) {
        0 => extents[place] = edge_of_range(random),
        1 => extents[place] = extents[(place + 3) % 6],
        2 => extents.swap(place, (place + 3) % 6),
        3 => extents[place] = double(random),
        _ => {}
    }
    if random.one_in(20) {
        extents[random.below(6)] = edge_of_range(random);
    }
    extents
}
