//! Compares our static library with the oracle, request by request: replies and
//! values, every element of every output, work room. Every request has a ceiling, and where it
//! admits the mesh our library is asked again under another one, which must change nothing
//! (ceilings.rs).
//!
//!     compare [--seed S] [--requests N] [--first I] [--numbers N] [--only NAME] [--self-check]
//!     compare --small [--seed S] [--only NAME]
//!     compare --damaged [--seed S] [--requests N] [--first I] [--only NAME]
//!     compare --full [--seed S] [--only NAME]
//!     compare --store FILE [--seed S] [--count N]
//!     compare --check FILE
//!     compare --property [--seed S] [--requests N] [--first I] [--self-check]
//!
//! --small compares all small requests of each operation, --damaged those with several faults at
//! once, --full those at full size, with their times (full.rs). --store compares nothing: it writes a sample of requests and the oracle's
//! answers to FILE, at most N requests an operation, for the program crates/replay. --check
//! asks the oracle again for each request of FILE. --property asks our library alone whether it
//! closes surfaces (property.rs).
//!
//! 20,000 requests of each operation and 10,000,000 numbers if not told otherwise.
//! Requests are numbered from 0; request I of a seed is made again by itself with
//! `--only NAME --first I --requests 1`. Exits 1 at any difference.

mod boundary_components;
mod boundary_meshes;
mod boxes;
mod candidates;
mod caps;
mod ceilings;
mod chosen;
mod clean;
mod clip;
mod damaged;
mod early;
mod full;
mod grid_points;
mod length;
mod lent;
mod meshes;
mod numbers;
mod operation;
mod property;
mod random;
mod report;
mod request;
mod small;
mod store;
mod tolerance;
mod triangulation;

use lent::{Lent, Old};
use operation::Operation;
use report::Row;
use std::ops::Range;
use std::process::ExitCode;

/// The mesh operations. One joins by a file that makes its record.
const OPERATIONS: &[Operation] = &[
    clip::OPERATION,
    clean::OPERATION,
    candidates::OPERATION,
    caps::OPERATION,
    boundary_components::OPERATION,
];

pub struct Options {
    pub seed: u64,
    /// Number of the first request, and how many of each operation.
    pub first: u64,
    pub requests: u64,
    /// How many numbers for each row of them.
    pub numbers: u64,
    pub only: Option<String>,
    /// Runs the oracle in our library's place: exercises the generators alone.
    pub self_check: bool,
    /// Runs the property in place of the comparison.
    pub property: bool,
    /// Leaves numbers and tolerance out.
    pub meshes_alone: bool,
    /// What makes the row of a mesh operation.
    pub requests_of: fn(&Operation, &Options, &mut Lent<u64>) -> Row,
    /// The file for stored answers, and how many requests of each operation it gets.
    pub store: Option<String>,
    pub count: usize,
    /// A file of stored answers to be checked.
    pub check: Option<String>,
}

impl Default for Options {
    fn default() -> Self {
        Options {
            seed: 1,
            first: 0,
            requests: 20_000,
            numbers: 10_000_000,
            only: None,
            self_check: false,
            property: false,
            meshes_alone: false,
            requests_of: operation::row,
            store: None,
            check: None,
            count: 285,
        }
    }
}

impl Options {
    pub fn range(&self) -> Range<u64> {
        self.first..self.first + self.requests
    }

    pub fn leaves_out(&self, name: &str) -> bool {
        self.only.as_deref().is_some_and(|only| only != name)
    }
}

fn options() -> Result<Options, String> {
    let mut options = Options::default();
    let mut arguments = std::env::args().skip(1);
    while let Some(argument) = arguments.next() {
        options.meshes_alone |= ["--small", "--damaged", "--full"].contains(&argument.as_str());
        let mut value = || arguments.next().ok_or(format!("{argument} wants a value"));
        let number = |text: String| text.parse::<u64>().map_err(|e| format!("{text}: {e}"));
        match argument.as_str() {
            "--seed" => options.seed = number(value()?)?,
            "--first" => options.first = number(value()?)?,
            "--requests" => options.requests = number(value()?)?,
            "--numbers" => options.numbers = number(value()?)?,
            "--only" => options.only = Some(value()?),
            "--self-check" => options.self_check = true,
            "--property" => options.property = true,
            "--small" => options.requests_of = small::row,
            "--damaged" => options.requests_of = damaged::row,
            "--full" => options.requests_of = full::row,
            "--store" => options.store = Some(value()?),
            "--check" => options.check = Some(value()?),
            "--count" => options.count = number(value()?)? as usize,
            _ => return Err(format!("unknown argument {argument}")),
        }
    }
    Ok(options)
}

/// The rows of numbers and tolerance; none in a self check, which is of the mesh operations.
fn leaves(options: &Options) -> Vec<Row> {
    if options.meshes_alone || options.self_check {
        return Vec::new();
    }
    let mut rows = numbers::rows(options);
    if !options.leaves_out("tolerance") {
        rows.push(tolerance::row(options));
    }
    rows
}

fn main() -> ExitCode {
    let options = match options() {
        Ok(options) => options,
        Err(message) => {
            eprintln!("compare: {message}");
            return ExitCode::from(2);
        }
    };
    if let Some(file) = &options.store {
        return store::write(file, &options);
    }
    if let Some(file) = &options.check {
        return store::check(file);
    }
    if options.property {
        return property::run(&options);
    }
    let mut rows = leaves(&options);
    // One work room for all requests: its pages are touched once.
    let mut work = Lent::new(0, Old::Junk);
    for operation in OPERATIONS {
        if !options.leaves_out(operation.name) {
            rows.push((options.requests_of)(operation, &options, &mut work));
        }
    }
    if report::print(&rows) {
        ExitCode::SUCCESS
    } else {
        ExitCode::FAILURE
    }
}
