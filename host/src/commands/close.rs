//! `close`: the whole job, on meshes named on the line or in a list.

mod batch;
mod one;

pub use batch::{work, Batch};

use super::Answer;
use crate::list::{self, Defaults};
use crate::options::{Common, Mode, Shape, Size, Triangulating, Writing};
use crate::tasks::{self, Task};
use crate::triangulator;
use clap::Args;
use std::path::{Path, PathBuf};
use std::str::FromStr;

#[derive(Args, Debug)]
pub struct Arguments {
    #[command(flatten)]
    shape: Shape,
    #[command(flatten)]
    size: Size,
    #[arg(long, allow_negative_numbers = true)]
    density: Option<f64>,
    #[arg(long, value_name = "FILE", conflicts_with = "meshes")]
    list: Option<PathBuf>,
    #[arg(long, value_name = "A-B")]
    rows: Option<Rows>,
    #[arg(long, value_name = "N", default_value_t = 1)]
    jobs: usize,
    #[arg(long, value_enum, default_value_t = Mode::Both)]
    mode: Mode,
    #[command(flatten)]
    triangulating: Triangulating,
    #[command(flatten)]
    writing: Writing,
    #[arg(value_name = "MESH.obj")]
    meshes: Vec<PathBuf>,
}

/// The rows of a list that are to be done, from 1, both ends included.
#[derive(Clone, Copy, Debug, PartialEq)]
pub struct Rows {
    first: usize,
    last: usize,
}

impl FromStr for Rows {
    type Err = String;

    fn from_str(words: &str) -> Result<Self, String> {
        let (first, last) = words.split_once('-').unwrap_or((words, words));
        let rows = first.parse().ok().zip(last.parse().ok());
        rows.map(|(first, last)| Rows { first, last })
            .filter(|rows| 1 <= rows.first && rows.first <= rows.last)
            .ok_or_else(|| "rows are told as A-B, counted from 1".into())
    }
}

/// Most jobs that can be asked for.
const MOST_JOBS: usize = 1024;

pub fn run(arguments: &Arguments) -> Answer {
    if !(1..=MOST_JOBS).contains(&arguments.jobs) {
        return Err(format!("--jobs: from 1 to {MOST_JOBS}"));
    }
    let common = Common {
        eps: arguments.shape.eps,
        ceiling: arguments.size.ceiling()?,
        closings: arguments.mode.closings(),
        triangulator: arguments.triangulating.triangulator().ok_or(triangulator::MISSING)?,
        time: arguments.triangulating.time()?,
    };
    let (tasks, handed_in) = arguments.tasks()?;
    let picture = &arguments.writing.picture;
    if tasks.len() > 1 && (picture.is_some() || arguments.triangulating.caps.is_some()) {
        return Err("--picture and --caps are for one mesh".into());
    }
    let batch = Batch {
        common: &common,
        writing: &arguments.writing,
        handed_in,
        rows: arguments.rows.map(|rows| (rows.first, rows.last)),
        jobs: arguments.jobs,
        listed: arguments.list.is_some(),
    };
    work(&batch, tasks)
}

impl Arguments {
    /// The meshes, and the files that must not be lost beside them.
    fn tasks(&self) -> Result<(Vec<Task>, Vec<&Path>), String> {
        let defaults = Defaults { extents: self.shape.extents(), resolution: self.shape.resolution, density: self.density };
        let caps = self.triangulating.caps.as_deref();
        let tasks = match &self.list {
            Some(list) => list::read(list, &defaults)?,
            None => self.named(&defaults)?,
        };
        Ok((tasks, caps.into_iter().chain(self.list.as_deref()).collect()))
    }

    fn named(&self, defaults: &Defaults) -> Result<Vec<Task>, String> {
        if self.meshes.is_empty() {
            return Err("no mesh is named, and no --list".into());
        }
        if self.rows.is_some() {
            return Err("--rows is for a --list".into());
        }
        let extents = defaults.extents.ok_or("--box is needed")?;
        let task = |(number, file): (usize, &PathBuf)| Task {
            number,
            name: tasks::default_name(file),
            file: Some(file.clone()),
            extents,
            resolution: defaults.resolution,
            density: defaults.density,
            fault: None,
        };
        Ok((1..).zip(&self.meshes).map(task).collect())
    }
}

#[cfg(test)]
mod tests {
    use super::*;

    #[test]
    fn rows_are_told_from_one() {
        let rows = |words: &str| words.parse::<Rows>().map(|rows| (rows.first, rows.last));
        assert_eq!(rows("3-10"), Ok((3, 10)));
        assert_eq!(rows("7"), Ok((7, 7)));
        for wrong in ["0-3", "4-3", "", "-", "a-b", "1-", "-1"] {
            assert!(rows(wrong).is_err(), "{wrong}");
        }
    }
}
