//! The length of an open edge in the test that skips grid points.
//!
//! Document 02, E3: "the double nearest the exact root of the exact sum, the even
//! one where two are equally near", the sum being that of the squares of the two
//! differences, which are doubles. Found by these words themselves, over whole numbers
//! of as many digits as it takes: no rounding has a part in it. The machine's `hypot`
//! says where to begin to look and nothing more.

use crate::whole::Whole;
use std::cell::{Cell, RefCell};
use std::cmp::Ordering;

/// Which length the reference takes.
#[derive(Clone, Copy, Debug)]
pub enum Rule {
    /// Document 02, E3.
    Exact,
    /// Document 01, module 5, which E3 replaced: to show what E3 changed.
    Rounded,
    /// Any other: for tests that ask whether the last digit of a length decides.
    Other(fn(f64, f64) -> f64),
}

thread_local! {
    static RULE: Cell<Rule> = const { Cell::new(Rule::Exact) };
}

/// What `run` answers by a rule, in this thread. Afterwards the rule is what it was.
pub fn by<T>(rule: Rule, run: impl FnOnce() -> T) -> T {
    let before = RULE.replace(rule);
    let answer = run();
    RULE.set(before);
    answer
}

/// What stands in the reference for `x.hypot(y)`. With the feature `own_hypot` it is
/// that itself: for timing alone, since exact numbers would slow the Rust down and
/// flatter what is timed beside it. Even to look up the rule takes the Rust a few
/// parts in a hundred.
pub(crate) fn length(x: f64, y: f64) -> f64 {
    if cfg!(feature = "own_hypot") {
        return x.hypot(y);
    }
    match RULE.get() {
        Rule::Exact => remembered(x, y),
        Rule::Rounded => rounded(x, y),
        Rule::Other(length) => length(x, y),
    }
}

/// "Segment length there is the root of the sum of squares, each operation rounded".
pub fn rounded(x: f64, y: f64) -> f64 {
    (x * x + y * y).sqrt()
}

/// The exact length of two differences, of at most 2^1021 in magnitude.
pub fn exact(x: f64, y: f64) -> f64 {
    let mut r = x.hypot(y);
    loop {
        match compared(r, x, y) {
            Ordering::Less => r = r.next_up(),
            Ordering::Equal => return r,
            Ordering::Greater => r = r.next_down(),
        }
    }
}

/// Words of a square. What is squared is the sum of two doubles, of 53 digits each, at
/// places from 0 to 2043: at most 2,097 digits, so that 68 words hold the square.
const LONG: usize = 68;

/// Most doubles are nearer each other, and short numbers are quick.
const SHORT: usize = 4;
const SHORT_REACH: u32 = 64 * SHORT as u32 / 2 - 54;

/// How r, which is not below 0, compares with the length of x and y.
fn compared(r: f64, x: f64, y: f64) -> Ordering {
    // Below 0 there is no length: 0 then stands for its own neighbour, and the test
    // that is made with it holds.
    let all = [r.next_down().max(0.0), r, r.next_up(), x, y];
    // 0 is whole in any unit.
    let places = || all.iter().filter(|x| **x != 0.0).map(|x| parts(*x).1);
    let unit = places().min().unwrap_or(0);
    let reach = places().max().unwrap_or(0) - unit;
    if reach <= SHORT_REACH {
        compared_in_units::<SHORT>(all, unit)
    } else {
        compared_in_units::<LONG>(all, unit)
    }
}

/// The same with r between its neighbours.
///
/// r is nearer the root than its neighbour above is if twice the root lies below
/// the sum of the two, and likewise for its neighbour below; so four times the sum
/// of the squares is compared with the square of either sum. Where they are equal
/// both doubles are equally near, and r is the length if it is the even one.
fn compared_in_units<const N: usize>(all: [f64; 5], unit: u32) -> Ordering {
    let odd = all[1].to_bits() % 2 == 1;
    let [below, r, above, x, y] = all.map(|x| in_units::<N>(x, unit));
    let four_squares = x.plus(&x).squared().plus(&y.plus(&y).squared());
    let beside_lower = four_squares.cmp(&below.plus(&r).squared());
    let beside_upper = four_squares.cmp(&r.plus(&above).squared());
    match (beside_lower, beside_upper) {
        (Ordering::Less, _) => Ordering::Greater,
        (_, Ordering::Greater) => Ordering::Less,
        (Ordering::Equal, _) if odd => Ordering::Greater,
        (_, Ordering::Equal) if odd => Ordering::Less,
        _ => Ordering::Equal,
    }
}

/// The first bit of a double that is not subnormal, which its pattern leaves out.
const LEAD: u64 = 1 << 52;

/// A finite double's magnitude as digits and a place: digits × 2^place, in units of
/// the smallest double, 2^-1074.
fn parts(x: f64) -> (u64, u32) {
    let bits = x.abs().to_bits();
    match bits / LEAD {
        0 => (bits, 0),
        field => (bits % LEAD + LEAD, field as u32 - 1),
    }
}

/// A finite double's magnitude in units of 2^unit smallest doubles.
fn in_units<const N: usize>(x: f64, unit: u32) -> Whole<N> {
    match parts(x) {
        (0, _) => Whole::shifted(0, 0),
        (digits, place) => Whole::shifted(digits, place - unit),
    }
}

/// Two doubles' bits and their length.
type Found = (u64, u64, f64);

/// Places for lengths found before: the reference asks for the length of each edge
/// again at each grid point, and a face at full size has some hundreds of edges.
const PLACES: usize = 4096;

thread_local! {
    // Zeros at first, which is right: two differences of 0 have the length 0.
    static FOUND: RefCell<Vec<Found>> = RefCell::new(vec![(0, 0, 0.0); PLACES]);
}

/// The exact length, from the place that the two numbers' bits choose if it is there.
fn remembered(x: f64, y: f64) -> f64 {
    let (a, b) = (x.to_bits(), y.to_bits());
    // An odd number without a pattern, which spreads what differs over the high bits.
    let mixed = (a ^ b.rotate_left(32)).wrapping_mul(0x9e37_79b9_7f4a_7c15);
    let place = (mixed >> 32) as usize % PLACES;
    FOUND.with_borrow_mut(|found| {
        if (found[place].0, found[place].1) != (a, b) {
            found[place] = (a, b, exact(x, y));
        }
        found[place].2
    })
}

#[cfg(test)]
mod tests {
    use super::{by, compared, exact, length, Rule};

    /// 2^exponent, in two factors: 2^1074, by which `powi` would divide, is no double.
    fn power(exponent: i32) -> f64 {
        2f64.powi(exponent / 2) * 2f64.powi(exponent - exponent / 2)
    }

    /// A subnormal of so many units of 2^-1074.
    fn units(count: u64) -> f64 {
        f64::from_bits(count)
    }

    /// The length in both orders and with all signs.
    #[track_caller]
    fn assert_length(x: f64, y: f64, expected: f64) {
        for (x, y) in [(x, y), (y, x)] {
            for (x, y) in [(x, y), (-x, y), (x, -y), (-x, -y)] {
                assert_eq!(exact(x, y).to_bits(), expected.to_bits(), "{x:e} {y:e}");
            }
        }
    }

    #[test]
    fn whole_lengths() {
        for (x, y, r) in [(3.0, 4.0, 5.0), (5.0, 12.0, 13.0), (20.0, 21.0, 29.0)] {
            // In the smallest units, around 1, and near the bound of 2^1021.
            for scale in [-1074, -1, 0, 30, 1016].map(power) {
                assert_length(scale * x, scale * y, scale * r);
            }
        }
        assert_length(power(1021), units(1), power(1021));
    }

    #[test]
    fn zeros() {
        for zero in [0.0, -0.0] {
            assert_length(zero, 0.0, 0.0);
            for x in [1.0, 1.0f64.next_down(), units(1), 0.1, power(1021)] {
                assert_length(x, zero, x);
            }
        }
    }

    /// Two sides and the third, which has 54 digits: it lies exactly between two doubles.
    /// One above a multiple of four, it goes down to the even one.
    const DOWN: [[u64; 3]; 2] = [
        // 2n + 1, 2n(n + 1) and one more, for n = 2^26.
        [
            134_217_729,
            9_007_199_388_958_720,
            (1 << 53) + (1 << 27) + 1,
        ],
        // The first number of 54 digits goes down to a power of two.
        [4_071_351_205_843_455, 8_034_534_073_192_032, (1 << 53) + 1],
    ];

    /// The same; three above a multiple of four, it goes up.
    const UP: [[u64; 3]; 3] = [
        // Seven times the first above, for n = 2^25.
        [
            7 * 67_108_865,
            7 * 2_251_799_880_794_112,
            7 * 2_251_799_880_794_113,
        ],
        // 3, 4 and 5 times (2^53 + 3) / 5.
        [5_404_319_552_844_597, 7_205_759_403_792_796, (1 << 53) + 3],
        // The last number of 54 digits goes up to the next power of two.
        [6_081_690_782_099_583, 16_956_756_496_728_720, (1 << 54) - 1],
    ];

    #[test]
    fn ties() {
        let down = DOWN.map(|[x, y, third]| (x, y, third, third - 1));
        let up = UP.map(|[x, y, third]| (x, y, third, third + 1));
        let square = |n: u64| u128::from(n) * u128::from(n);
        for (x, y, third, nearest) in down.into_iter().chain(up) {
            assert_eq!(square(x) + square(y), square(third));
            // From the smallest units up to the bound of 2^1021.
            for scale in [-1074, -1073, -54, 0, 967].map(power) {
                let [x, y] = [x, y].map(|n| n as f64 * scale);
                let rounded = [third - 1, nearest, third + 1].map(|n| n as f64 * scale);
                // A step of an operand decides.
                assert_length(x.next_down(), y, rounded[0]);
                assert_length(x, y, rounded[1]);
                assert_length(x.next_up(), y, rounded[2]);
            }
        }
    }

    #[test]
    fn subnormals() {
        for (x, y, r) in [
            (1, 1, 1),
            (1, 2, 2),
            (5, 5, 7),
            (2, 2, 3),
            (1, 3, 3),
            (2, 3, 4),
        ] {
            assert_length(units(x), units(y), units(r));
        }
        // Into the numbers that are not subnormal.
        let largest = units((1 << 52) - 1);
        assert_length(largest, units(1), largest);
        assert_length(largest, largest, units(6_369_051_672_525_771));
    }

    /// Half a step above 1 is 1 + 2^-53: its square is 1 + 2^-52 + 2^-106, so that 2^-26
    /// beside 1 is too short to count, and the next double is long enough. With
    /// exponents 27 apart nothing is.
    #[test]
    fn exponents_26_and_27_apart() {
        for scale in [-1000, 0, 1000].map(power) {
            let [one, next] = [scale, scale.next_up()];
            let y = power(-26) * scale;
            assert_length(one, y, one);
            assert_length(one, y.next_up(), next);
            assert_length(one, y.next_down(), one);
            // The largest at either distance, beside the largest below 2.
            assert_length(one, (2.0 * y).next_down(), next.next_up());
            let below_two = (2.0 * scale).next_down();
            assert_length(below_two, (2.0 * y).next_down(), 2.0 * scale);
            assert_length(below_two, y.next_down(), below_two);
        }
    }

    /// A source of bits (splitmix64).
    fn bits(state: &mut u64) -> u64 {
        *state = state.wrapping_add(0x9e37_79b9_7f4a_7c15);
        let mut z = *state;
        z = (z ^ (z >> 30)).wrapping_mul(0xbf58_476d_1ce4_e5b9);
        z = (z ^ (z >> 27)).wrapping_mul(0x94d0_49bb_1331_11eb);
        z ^ (z >> 31)
    }

    /// Two doubles within the bound, the second at most 63 binary places below.
    fn pair(state: &mut u64) -> (f64, f64) {
        let field = bits(state) % 2044;
        let lower = field.saturating_sub(bits(state) % 64);
        let [x, y] = [field, lower].map(|field| f64::from_bits(field << 52 | bits(state) >> 12));
        (x, y)
    }

    /// One double meets the definition: those below it are too small, those above too
    /// large. So it does not matter where the search begins.
    #[test]
    fn one_length() {
        let mut state = 1;
        for _ in 0..4_000 {
            let (x, y) = pair(&mut state);
            let r = exact(x, y);
            for steps in -8i64..=8 {
                let Some(pattern) = r.to_bits().checked_add_signed(steps) else {
                    continue;
                };
                let stands = compared(f64::from_bits(pattern), x, y);
                assert_eq!(stands, steps.cmp(&0), "{x:e} {y:e}");
            }
        }
    }

    /// The same in either order, with either sign, and twice for twice the numbers.
    #[test]
    fn symmetry() {
        let mut state = 2;
        for _ in 0..4_000 {
            let (x, y) = pair(&mut state);
            let r = exact(x, y);
            assert_length(x, y, r);
            if x.abs() < power(1019) && r >= f64::MIN_POSITIVE {
                assert_length(2.0 * x, 2.0 * y, 2.0 * r);
            }
        }
    }

    /// Each rule has its length, and the rule before it comes back.
    #[test]
    fn rules() {
        let [x, y] = [0.1, 0.7];
        let answers = || (length(x, y), length(x, y));
        let expected = exact(x, y);
        assert_eq!(answers(), (expected, expected));
        let above = |x: f64, y: f64| exact(x, y).next_up();
        assert_eq!(by(Rule::Other(above), answers).0, expected.next_up());
        assert_eq!(by(Rule::Rounded, answers).0, (x * x + y * y).sqrt());
        assert_eq!(answers(), (expected, expected));
    }

    /// A table that forgets: more pairs than it has places, asked for again.
    #[test]
    fn remembered_lengths() {
        let mut state = 3;
        let pairs: Vec<_> = (0..3 * super::PLACES).map(|_| pair(&mut state)).collect();
        for _ in 0..2 {
            for &(x, y) in &pairs {
                assert_eq!(length(x, y).to_bits(), exact(x, y).to_bits());
            }
        }
    }
}
