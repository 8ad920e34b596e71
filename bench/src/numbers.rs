//! Tolerance, root, length, rounding and cell key, in nanoseconds a call.

use crate::timing::{interleaved, time};
use std::hint::black_box;
use std::time::Duration;
use yongpham_library::leaves;

/// Inputs of each run.
const INPUTS: usize = 1 << 18;
const EPS: f64 = 1e-10;

// The Rust's side of each row, not inlined, since ours is a call too.
#[inline(never)]
fn machine_sqrt(x: f64) -> f64 {
    x.sqrt()
}
#[inline(never)]
fn machine_hypot(x: f64, y: f64) -> f64 {
    x.hypot(y)
}
#[inline(never)]
fn machine_round(x: f64) -> f64 {
    x.round()
}
#[inline(never)]
fn machine_cell_key(x: f64) -> f64 {
    oracle::reference::cell_key(x, EPS) as f64
}
#[inline(never)]
fn machine_tolerance(x: f64) -> f64 {
    oracle::reference::bbox_eps(&[0.0, 0.0, 0.0, x, x, 1.0])
}

/// Even over (0, 1000), the same in every run.
fn inputs() -> Vec<f64> {
    let mut state = 1u64;
    let mut next = || {
        state = state
            .wrapping_mul(6_364_136_223_846_793_005)
            .wrapping_add(1_442_695_040_888_963_407);
        (state >> 11) as f64 / (1u64 << 53) as f64 * 1000.0 + 1e-6
    };
    (0..INPUTS).map(|_| next()).collect()
}

/// Applies a function to every input; the sum keeps the calls alive.
fn over(inputs: &[f64], function: impl Fn(f64) -> f64) -> f64 {
    inputs.iter().map(|&x| function(black_box(x))).sum()
}

/// The same for a function of two numbers: of every input and the next.
fn over_pairs(inputs: &[f64], function: impl Fn(f64, f64) -> f64) -> f64 {
    let pairs = inputs.iter().zip(inputs.iter().cycle().skip(1));
    pairs
        .map(|(&x, &y)| function(black_box(x), black_box(y)))
        .sum()
}

/// A row from two runs over all inputs.
fn row(rounds: usize, name: &str, ours: impl Fn() -> f64, rust: impl Fn() -> f64) {
    let runs: [&mut dyn FnMut() -> Duration; 2] = [&mut || time(&ours), &mut || time(&rust)];
    let medians = interleaved(rounds, runs);
    let [o, r] = medians.map(|time| time.as_secs_f64() * 1e9 / INPUTS as f64);
    println!("| {name} | {o:.1} | {r:.1} | {:.2} |", o / r);
}

pub fn rows(rounds: usize) {
    let inputs = inputs();
    println!("| function | ours ns | Rust ns | ours / Rust |\n|---|---|---|---|");
    let one = |name: &str, ours: &dyn Fn(f64) -> f64, rust: &dyn Fn(f64) -> f64| {
        row(rounds, name, || over(&inputs, ours), || over(&inputs, rust))
    };
    let two = |name: &str, ours: &dyn Fn(f64, f64) -> f64, rust: &dyn Fn(f64, f64) -> f64| {
        let (ours, rust) = (|| over_pairs(&inputs, ours), || over_pairs(&inputs, rust));
        row(rounds, name, ours, rust)
    };
    one(
        "tolerance",
        &|x| {
            let reply = yongpham_library::tolerance(&[0.0, 0.0, 0.0, x, x, 1.0]);
            f64::from_bits(reply.values[0])
        },
        &machine_tolerance,
    );
    one("root", &leaves::sqrt, &machine_sqrt);
    two("length", &leaves::hypot, &machine_hypot);
    one("rounding", &leaves::round, &machine_round);
    one(
        "cell key",
        &|x| leaves::cell_key(x, EPS) as f64,
        &machine_cell_key,
    );
}
