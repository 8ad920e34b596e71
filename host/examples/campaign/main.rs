//! Campaigns against the command: they run it on many meshes that are made up and check what it tells, with other code than its own.
//!
//!     cargo run --release --example campaign -- short
//!     cargo run --release --example campaign -- terrains|inputs|answers|night COUNT [SEED [JOBS]]

mod answers;
mod inputs;
mod night;
mod random;
mod runs;
mod solids;
mod terrain;
mod terrains;

fn main() {
    let words: Vec<String> = std::env::args().skip(1).collect();
    let number = |place: usize, otherwise: u64| words.get(place).map_or(otherwise, |word| word.parse().expect("a number"));
    let (count, seed) = (number(1, 0) as usize, number(2, 1));
    match words.first().map(String::as_str) {
        Some("terrains") => terrains::run(count, seed),
        Some("inputs") => inputs::run(count, seed),
        Some("answers") => answers::run(count, seed),
        Some("night") => night::run(count, seed, number(3, 1) as usize),
        Some("short") => {
            terrains::run(40, 1);
            inputs::run(500, 1);
            answers::run(100, 1);
            night::run(100, 1, 2);
        }
        _ => {
            eprintln!("campaign: short, or terrains, inputs, answers or night with a COUNT, a SEED and JOBS");
            std::process::exit(2);
        }
    }
}
