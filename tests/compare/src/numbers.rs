//! Root, rounding, cell key and the root of a whole number beside the machine's own `sqrt`, `round`, cast and `isqrt`; the length
//! of two numbers beside the oracle's (length.rs).

use crate::length;
use crate::random::Random;
use crate::report::Row;
use crate::Options;
use yongpham_library::leaves;

mod machine {
    /// The correctly rounded root; NaN, infinities and numbers below 0 come back.
    pub fn root(x: f64) -> f64 {
        if x.is_finite() && x >= 0.0 {
            x.sqrt()
        } else {
            x
        }
    }

    /// Half away from zero; what is not finite comes back.
    pub fn round(x: f64) -> f64 {
        if x.is_finite() {
            x.round()
        } else {
            x
        }
    }

    pub fn cell_key(x: f64, eps: f64) -> i64 {
        oracle::reference::cell_key(x, eps)
    }
}

/// A double at most three steps of the format from x in magnitude, of either sign.
pub fn near(random: &mut Random, x: f64) -> f64 {
    let step = random.below(7) as i64 - 3;
    let moved = f64::from_bits(x.abs().to_bits().saturating_add_signed(step));
    if random.one_in(2) {
        moved
    } else {
        -moved
    }
}

/// A subnormal of these bits, each number of digits alike.
pub fn subnormal(bits: u64) -> f64 {
    let lead = 1u64 << ((bits >> 52 & 0x7ff) % 52);
    f64::from_bits(bits & (1 << 63) | lead | bits & (lead - 1))
}

/// Bit patterns from every part of the format, with those at which a root or a
/// rounding goes wrong first.
pub fn double(random: &mut Random) -> f64 {
    let bits = random.bits();
    match random.below(12) {
        0 | 1 => f64::from_bits(bits),
        // Below 2^64, where rounding acts.
        2 => f64::from_bits(bits & 0x800f_ffff_ffff_ffff | (1000 + bits % 90) << 52),
        3 => subnormal(bits),
        // Powers of two and their neighbours.
        4 => near(random, f64::from_bits((bits % 2047) << 52)),
        // Halves and their neighbours.
        5 => near(random, (bits >> (11 + bits % 50)) as f64 + 0.5),
        6 => near(random, (bits % 1000) as f64 / 2.0),
        7 => {
            let large = [52, 53, 62, 63].map(|exponent| 2f64.powi(exponent));
            let start = random.pick(&large);
            near(random, start + (bits % 64) as f64 / 4.0)
        }
        // Squares, and numbers a step from one: roots near a double.
        8 | 9 => {
            let root = f64::from_bits(bits & 0x000f_ffff_ffff_ffff | (600 + bits % 800) << 52);
            near(random, root * root).abs()
        }
        // Squares of the point between two doubles: roots near a tie.
        10 => {
            let root = f64::from_bits(bits & 0x000f_ffff_ffff_ffff | (600 + bits % 800) << 52);
            let half_step = (root.next_up() - root) / 2.0;
            near(random, root * root + 2.0 * root * half_step).abs()
        }
        // Few bits: exact squares, whole numbers, simple fractions.
        _ => ((bits % 4096) as f64) * 2f64.powi((bits >> 32) as i32 % 80 - 40),
    }
}

/// A coordinate and an eps, both finite: half of the quotients lie near a half.
fn coordinate_and_eps(random: &mut Random) -> (f64, f64) {
    loop {
        let eps = match random.below(6) {
            0 => 0.0,
            1 => 2f64.powi(-(random.below(60) as i32)),
            2 => 1e-12,
            3 => random.unit(),
            4 => near(random, 1e-12),
            _ => double(random),
        };
        let cell = eps.max(1e-12);
        let x = match random.below(3) {
            0 => double(random),
            1 => {
                let whole = random.bits() >> (1 + random.below(62));
                near(random, cell * (whole as f64 + 0.5))
            }
            _ => random.between(-1.0, 1.0) * 2f64.powi(random.below(31) as i32),
        };
        if x.is_finite() && eps.is_finite() {
            return (x, eps);
        }
    }
}

/// A whole number of any size; half of them are squares or a step from one.
fn whole(random: &mut Random) -> u64 {
    let bits = random.bits() >> random.below(64);
    if random.one_in(2) {
        bits
    } else {
        let root = bits & u32::MAX as u64;
        (root * root)
            .wrapping_add(random.below(3) as u64)
            .wrapping_sub(1)
    }
}

/// Ours and what is expected, as bits, and the input as text if they differ.
pub type Probed = (u64, u64, String);

/// Both answers for one input, which is told by words and bits.
pub fn probed(ours: u64, expected: u64, input: &[(&str, u64)]) -> Probed {
    let text = |(name, bits): &(&str, u64)| format!("{name} {bits:016x}");
    let input = if ours == expected {
        String::new()
    } else {
        input.iter().map(text).collect::<Vec<_>>().join(" ")
    };
    (ours, expected, input)
}

fn root(random: &mut Random) -> Probed {
    let x = double(random);
    let (ours, machine) = (leaves::sqrt(x), machine::root(x));
    probed(ours.to_bits(), machine.to_bits(), &[("x", x.to_bits())])
}

fn rounding(random: &mut Random) -> Probed {
    let x = double(random);
    let (ours, machine) = (leaves::round(x), machine::round(x));
    probed(ours.to_bits(), machine.to_bits(), &[("x", x.to_bits())])
}

fn cell_key(random: &mut Random) -> Probed {
    let (x, eps) = coordinate_and_eps(random);
    let (ours, machine) = (leaves::cell_key(x, eps), machine::cell_key(x, eps));
    let input = [("x", x.to_bits()), ("eps", eps.to_bits())];
    probed(ours as u64, machine as u64, &input)
}

fn whole_root(random: &mut Random) -> Probed {
    let n = whole(random);
    probed(leaves::whole_root(n), n.isqrt(), &[("n", n)])
}

type Probe = fn(&mut Random) -> Probed;
const PROBES: [(&str, Probe); 5] = [
    ("root", root),
    ("length", length::probe),
    ("rounding", rounding),
    ("cell key", cell_key),
    ("whole root", whole_root),
];

pub fn rows(options: &Options) -> Vec<Row> {
    let mut rows = Vec::new();
    for (name, probe) in PROBES {
        if options.leaves_out(name) {
            continue;
        }
        let mut row = Row::new(name);
        let mut random = Random::new(options.seed, name, 0);
        for _ in 0..options.numbers {
            let (ours, expected, input) = probe(&mut random);
            row.requests += 1;
            row.replies[0] += 1;
            if ours != expected {
                row.differs(1, || {
                    format!("{input}: ours {ours:016x}, expected {expected:016x}")
                });
            }
        }
        rows.push(row);
    }
    rows
}

#[cfg(test)]
mod tests {
    use super::double;
    use crate::random::Random;

    #[test]
    fn every_size_of_a_subnormal_occurs() {
        let mut random = Random::new(1, "root", 0);
        let mut seen = [false; 52];
        for _ in 0..100_000 {
            let bits = double(&mut random).to_bits() & !(1 << 63);
            if 0 < bits && bits < 1 << 52 {
                seen[bits.ilog2() as usize] = true;
            }
        }
        assert_eq!(seen, [true; 52]);
    }
}
