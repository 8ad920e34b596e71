//! `sample`: closes the built-in terrain.

use super::close::{work, Batch};
use super::Answer;
use crate::options::{Common, Mode, Size, Triangulating, Writing};
use crate::sample;
use crate::tasks::Task;
use crate::triangulator::Triangulator;
use clap::Args;

#[derive(Args, Debug)]
pub struct Arguments {
    #[arg(long, value_enum, default_value_t = Mode::Both)]
    mode: Mode,
    #[arg(long, allow_negative_numbers = true)]
    density: Option<f64>,
    #[command(flatten)]
    size: Size,
    #[command(flatten)]
    triangulating: Triangulating,
    #[command(flatten)]
    writing: Writing,
}

pub fn run(arguments: &Arguments) -> Answer {
    let found = arguments.triangulating.triangulator();
    // The stored triangles were made for one grid.
    let resolution = found.is_none().then_some(sample::RESOLUTION);
    let common = Common {
        eps: None,
        ceiling: arguments.size.ceiling()?,
        closings: arguments.mode.closings(),
        triangulator: found.unwrap_or(Triangulator::Stored(sample::TRIANGLES)),
        time: arguments.triangulating.time()?,
    };
    let task = Task {
        number: 1,
        name: "sample".into(),
        file: None,
        extents: sample::EXTENTS,
        resolution,
        density: arguments.density,
        fault: None,
    };
    let batch = Batch {
        common: &common,
        writing: &arguments.writing,
        handed_in: arguments.triangulating.caps.as_deref().into_iter().collect(),
        rows: None,
        jobs: 1,
        listed: false,
    };
    work(&batch, vec![task])
}
