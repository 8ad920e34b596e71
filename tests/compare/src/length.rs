//! The length of two numbers beside the oracle's exact one, and the pairs for it. The machine's `hypot` has no part in it: its
//! last digit is open.

use crate::boxes;
use crate::numbers::{double, near, probed, subnormal, Probed};
use crate::random::Random;
use yongpham_library::leaves;

/// A double's digits without the first, which its pattern leaves out.
const DIGITS: u64 = (1 << 52) - 1;

/// The largest exponent field of a number below 2^1021.
const LARGEST_FIELD: usize = 2043;

/// 2^1021: beyond it the first number comes back.
const BOUND: f64 = f64::from_bits(2044 << 52);

fn expected(x: f64, y: f64) -> f64 {
    if x.abs() <= BOUND && y.abs() <= BOUND {
        oracle::length::exact(x, y)
    } else {
        x
    }
}

pub fn probe(random: &mut Random) -> Probed {
    let (x, y) = pair(random);
    let (ours, exact) = (leaves::hypot(x, y), expected(x, y));
    let input = [("x", x.to_bits()), ("y", y.to_bits())];
    probed(ours.to_bits(), exact.to_bits(), &input)
}

/// Two numbers in either order, with all signs.
fn pair(random: &mut Random) -> (f64, f64) {
    let (x, y) = match random.below(16) {
        0 | 1 => tied(random),
        2 | 3 => {
            let (x, y) = tied(random);
            (near(random, x), y)
        }
        4 | 5 => near_tie(random),
        6..=9 => apart(random),
        10 => (subnormal(random.bits()), subnormal(random.bits())),
        11 => (subnormal(random.bits()), low(random)),
        12 => (random.pick(&[0.0, -0.0]), double(random)),
        13 => (near_power(random), near_power(random)),
        14 if random.one_in(4) => (at_bound(random), double(random)),
        14 => (double(random), double(random)),
        _ => (difference(random), difference(random)),
    };
    let [x, y] = [x, y].map(|x| if random.one_in(2) { x } else { -x });
    if random.one_in(2) {
        (x, y)
    } else {
        (y, x)
    }
}

/// x × 2^exponent, in two factors: 2^exponent alone may be no double.
fn scaled(x: f64, exponent: i32) -> f64 {
    x * 2f64.powi(exponent / 2) * 2f64.powi(exponent - exponent / 2)
}

/// Two sides of a right triangle of whole numbers and the third, which is odd and has 54 digits, so
/// that it lies exactly between two doubles: (m^2 - n^2, 2mn, m^2 + n^2), so many times. An odd
/// m^2 + n^2 is 1 above a multiple of four; so the third goes down to the even double if `times`
/// is 1 above a multiple of four, else up.
pub fn tie(random: &mut Random) -> [u64; 3] {
    loop {
        let times = 2 * random.below(16) as u64 + 1;
        let most = ((1 << 54) / times).isqrt();
        let m = most / 2 + random.bits() % (most / 2);
        let n = random.bits() % m;
        let sides = [m * m - n * n, 2 * m * n, m * m + n * n].map(|side| times * side);
        // The first is odd as the third is, and has to be a double; the second is even.
        if sides[2] % 2 == 1 && sides[2].ilog2() == 53 && sides[0] < 1 << 53 {
            return sides;
        }
    }
}

/// The two sides of such a triangle, of any size.
fn tied(random: &mut Random) -> (f64, f64) {
    let [x, y, _] = tie(random);
    let exponent = random.below(1074 + 967 + 1) as i32 - 1074;
    (scaled(x as f64, exponent), scaled(y as f64, exponent))
}

/// A number x, and another that brings the length near the middle of r and the double above it,
/// where r is any double from x to some binary places above.
fn near_tie(random: &mut Random) -> (f64, f64) {
    let x = f64::from_bits(random.bits() & DIGITS | 1000 << 52);
    let steps = random.bits() >> (9 + random.below(55));
    let r = f64::from_bits(x.to_bits() + steps);
    let half_step = (r.next_up() - r) / 2.0;
    let y = ((r - x + half_step) * (r + x + half_step)).sqrt();
    let y = near(random, y);
    let exponent = random.below(1980) as i32 - 960;
    (scaled(x, exponent), scaled(y, exponent))
}

/// Exponents up to 60 apart, more often around 26: from 27 on the smaller number is too short
/// to count.
fn apart(random: &mut Random) -> (f64, f64) {
    let distance = if random.one_in(2) {
        24 + random.below(6)
    } else {
        random.below(61)
    };
    let lower = random.below(LARGEST_FIELD + 1 - distance);
    let [x, y] = [lower + distance, lower].map(|field| with_field(random, field));
    (x, y)
}

fn with_field(random: &mut Random, field: usize) -> f64 {
    f64::from_bits(random.bits() & DIGITS | (field as u64) << 52)
}

/// A number at most 60 binary places above the subnormals.
fn low(random: &mut Random) -> f64 {
    let field = random.below(62);
    with_field(random, field)
}

/// A power of two or one of its neighbours, up to those of the bound.
fn near_power(random: &mut Random) -> f64 {
    let field = match random.below(3) {
        0 => random.below(LARGEST_FIELD + 2),
        1 => LARGEST_FIELD + 1 - random.below(40),
        _ => 1000 + random.below(40),
    };
    near(random, f64::from_bits((field as u64) << 52))
}

/// At the bound of 2^1021 and beyond it.
fn at_bound(random: &mut Random) -> f64 {
    let beyond = BOUND.next_up();
    random.pick(&[BOUND, BOUND, beyond, f64::MAX, f64::INFINITY, f64::NAN])
}

/// What a segment's extent is: the difference of two coordinates.
fn difference(random: &mut Random) -> f64 {
    boxes::coordinate(random) - boxes::coordinate(random)
}

#[cfg(test)]
mod tests {
    use super::{pair, BOUND, DIGITS};
    use crate::random::Random;
    use oracle::length::exact;
    use std::collections::BTreeMap;

    /// Where a pair belongs, by its bits alone: how it was made has no part in it.
    #[derive(Clone, Copy, Debug, PartialEq, Eq, PartialOrd, Ord)]
    enum Class {
        /// Exponents so far apart.
        Apart(u64),
        /// So far apart, and a step of the smaller number makes another length.
        Decides(u64),
        /// Both are subnormal, and the first has so many digits.
        Subnormals(u32),
        /// The first alone is subnormal.
        Subnormal(u32),
        /// The length lies exactly between two doubles, and goes down or up.
        TieDown,
        TieUp,
        /// The first is 0.0 or -0.0.
        Zero,
        MinusZero,
        /// The larger is a power of two, or a step below one.
        PowerOfTwo,
        BelowPowerOfTwo,
        /// The larger is as large as differences of coordinates are: from 2^30 to 2^31.
        Large,
        AtBound,
        BeyondBound,
        NotANumber,
    }

    fn field(x: f64) -> u64 {
        x.abs().to_bits() >> 52
    }

    /// The length of two numbers that are not 0, if it is a whole number of units: its digits
    /// without the zeros at their end.
    fn whole_length(x: f64, y: f64) -> Option<u128> {
        let parts = |x: f64| {
            let lead = if field(x) == 0 { 0 } else { 1 << 52 };
            let digits = x.to_bits() & DIGITS | lead;
            let zeros = digits.trailing_zeros();
            (digits >> zeros, field(x).max(1) as u32 + zeros)
        };
        let ((a, i), (b, j)) = (parts(x), parts(y));
        // Below 2^63, so that both squares fit. A whole length has sides so near.
        let side = |odd: u64, zeros: u32| {
            (zeros + 1 < odd.leading_zeros()).then(|| u128::from(odd << zeros))
        };
        let (a, b) = (side(a, i - i.min(j))?, side(b, j - i.min(j))?);
        let root = (a * a + b * b).isqrt();
        (root * root == a * a + b * b).then(|| root >> root.trailing_zeros())
    }

    /// The classes of a pair of numbers that are not 0.
    fn of_both(x: f64, y: f64) -> Vec<Class> {
        let apart = field(x).abs_diff(field(y));
        let mut all = vec![Class::Apart(apart)];
        if (24..=26).contains(&apart) {
            let (larger, smaller) = (x.abs().max(y.abs()), x.abs().min(y.abs()));
            if exact(larger, smaller) != exact(larger, smaller.next_up()) {
                all.push(Class::Decides(apart));
            }
        }
        match whole_length(x, y) {
            Some(odd) if odd.ilog2() == 53 && odd % 4 == 1 => all.push(Class::TieDown),
            Some(odd) if odd.ilog2() == 53 => all.push(Class::TieUp),
            _ => {}
        }
        if x.is_subnormal() {
            let digits = x.abs().to_bits().ilog2() + 1;
            all.push(if y.is_subnormal() {
                Class::Subnormals(digits)
            } else {
                Class::Subnormal(digits)
            });
        }
        all
    }

    fn classes(x: f64, y: f64) -> Vec<Class> {
        let larger = x.abs().max(y.abs());
        let digits = larger.to_bits() & DIGITS;
        let large = 2f64.powi(30)..2f64.powi(31);
        let held = [
            (x.to_bits() == 0, Class::Zero),
            (x.to_bits() == 1 << 63, Class::MinusZero),
            (digits == 0 && larger > 0.0, Class::PowerOfTwo),
            (digits == DIGITS, Class::BelowPowerOfTwo),
            (large.contains(&larger), Class::Large),
            (larger == BOUND, Class::AtBound),
            (larger > BOUND, Class::BeyondBound),
            (x.is_nan() || y.is_nan(), Class::NotANumber),
        ];
        let held = held.into_iter().filter(|(holds, _)| *holds);
        let mut all: Vec<Class> = held.map(|(_, class)| class).collect();
        if x.abs() <= BOUND && y.abs() <= BOUND && x != 0.0 && y != 0.0 {
            all.extend(of_both(x, y));
        }
        all
    }

    #[test]
    fn every_class_of_pairs_occurs() {
        let mut random = Random::new(1, "length", 0);
        let mut seen = BTreeMap::new();
        for _ in 0..300_000 {
            let (x, y) = pair(&mut random);
            for class in classes(x, y) {
                *seen.entry(class).or_insert(0) += 1;
            }
        }
        let mut wanted = vec![
            Class::TieDown,
            Class::TieUp,
            Class::Zero,
            Class::MinusZero,
            Class::PowerOfTwo,
            Class::BelowPowerOfTwo,
            Class::Large,
            Class::AtBound,
            Class::BeyondBound,
            Class::NotANumber,
        ];
        wanted.extend((0..=60).map(Class::Apart));
        wanted.extend((24..=26).map(Class::Decides));
        wanted.extend((1..=52).flat_map(|n| [Class::Subnormals(n), Class::Subnormal(n)]));
        for class in wanted {
            let times = seen.get(&class).copied().unwrap_or(0);
            assert!(times >= 20, "{class:?} occurs {times} times");
        }
    }
}
