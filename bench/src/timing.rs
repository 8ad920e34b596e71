//! Interleaved timing and the printed table.
//!
//! Times are processor times of the running thread: both sides compute in one
//! thread and wait for nothing, and a busy machine then disturbs long runs no more
//! than short ones.

use std::time::Duration;

#[repr(C)]
struct Timespec {
    seconds: i64,
    nanoseconds: i64,
}

extern "C" {
    // Of the C library that std links on Linux.
    fn clock_gettime(clock: i32, time: *mut Timespec) -> i32;
}

/// CLOCK_THREAD_CPUTIME_ID of Linux.
const THREAD_CLOCK: i32 = 3;

fn thread_time() -> Duration {
    let mut now = Timespec {
        seconds: 0,
        nanoseconds: 0,
    };
    let failed = unsafe { clock_gettime(THREAD_CLOCK, &mut now) };
    assert_eq!(failed, 0, "the thread's clock can be read");
    Duration::new(now.seconds as u64, now.nanoseconds as u32)
}

/// The time of `run`; its result is dropped after the clock has stopped.
pub fn time<T>(run: impl FnOnce() -> T) -> Duration {
    let start = thread_time();
    let result = run();
    let taken = thread_time() - start;
    drop(std::hint::black_box(result));
    taken
}

/// Runs each of `runs` in turn, `rounds` times over, after one round that does not
/// count; answers the median of each. What disturbs the machine for a while so
/// falls on all of them.
pub fn interleaved<const N: usize>(
    rounds: usize,
    mut runs: [&mut dyn FnMut() -> Duration; N],
) -> [Duration; N] {
    let mut times: [Vec<Duration>; N] = std::array::from_fn(|_| Vec::new());
    runs.iter_mut().for_each(|run| {
        run();
    });
    for _ in 0..rounds {
        for (run, times) in runs.iter_mut().zip(&mut times) {
            times.push(run());
        }
    }
    times.map(|mut times| {
        times.sort_unstable();
        times[times.len() / 2]
    })
}

pub fn milliseconds(time: Duration) -> f64 {
    time.as_secs_f64() * 1e3
}

/// One row of a mesh operation. The yardstick is the Rust's time and one clearing
/// of the same work room, which the contract asks for and the Rust does not have.
pub fn mesh_row(name: &str, facets: usize, [ours, rust, clearing]: [Duration; 3]) {
    let [o, r, c] = [ours, rust, clearing].map(milliseconds);
    println!(
        "| {name} | {facets} | {o:.3} | {r:.3} | {c:.3} | {:.2} | {:.2} |",
        o / (r + c),
        o / r
    );
}

pub fn mesh_header() {
    println!("\n| operation, input | facets | ours ms | Rust ms | clearing ms | ours / (Rust + clearing) | ours / Rust |");
    println!("|---|---|---|---|---|---|---|");
}
