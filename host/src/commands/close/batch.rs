//! Many meshes: checked before the first, done by several at a time, reported in the order of their rows.

use super::one;
use crate::commands::Answer;
use crate::files;
use crate::options::{Common, Writing};
use crate::outcome::Outcome;
use crate::picture;
use crate::report::{Report, Row, COLUMNS};
use crate::results::{unwritable, Results};
use crate::steps;
use crate::tasks::{self, Task};
use crate::text;
use indicatif::{ProgressBar, ProgressStyle};
use rayon::iter::{ParallelBridge, ParallelIterator};
use std::collections::BTreeMap;
use std::fs::File;
use std::io::{stderr, Write};
use std::path::{Path, PathBuf};
use std::sync::mpsc;
use tempfile::NamedTempFile;

/// What is the same for all meshes of a call.
pub struct Batch<'a> {
    pub common: &'a Common,
    pub writing: &'a Writing,
    /// Files beside the meshes that must not be lost.
    pub handed_in: Vec<&'a Path>,
    /// The rows to be done, if not all.
    pub rows: Option<(usize, usize)>,
    pub jobs: usize,
    /// From a list: then a fault of one row is that row's own.
    pub listed: bool,
}

/// Faults that are told before the first mesh.
const TOLD: usize = 20;

pub fn work(batch: &Batch, mut tasks: Vec<Task>) -> Answer {
    if let Some(picture) = &batch.writing.picture {
        picture::check(picture)?;
    }
    let results = Results::new(&batch.writing.out)?;
    tasks::mark_conflicts(&mut tasks, &batch.handed_in, &results);
    if let Some((first, last)) = batch.rows {
        if first > tasks.len() {
            return Err(format!("--rows: the list has {} rows", tasks.len()));
        }
        tasks = tasks.drain(first - 1..last.min(tasks.len())).collect();
    }
    check(batch, &mut tasks)?;
    let summary = summary_file(batch, &results);
    guard(&summary, batch, &tasks)?;
    let growing = results.growing().map_err(|why| unwritable(&summary, &why))?;
    let file = Results::copy_of(&growing).map_err(|why| unwritable(&summary, &why))?;
    // An old summary beside new solids would be believed.
    results.moved(&summary)?;
    let mut report = Report::new(file);
    all(batch, &results, &tasks, &mut report);
    Ok(end(&results, &summary, growing, &mut report))
}

/// Names the summary, says the counts, and answers whether all is closed and told.
fn end(results: &Results, summary: &Path, growing: NamedTempFile, report: &mut Report<File>) -> bool {
    let summary_lost = match report.summary_lost() {
        Some(why) => Some(why.to_string()),
        None => results.name(vec![(growing, summary.into())]).err(),
    };
    let counts = report.counts();
    let name = text::name(Path::new(summary.file_name().unwrap_or_default()));
    let and = if summary_lost.is_some() { "no summary" } else { &name };
    report.say(&format!("{counts}; solids and {and} in {}", text::name(results.folder())));
    let lost = summary_lost.or(report.output_lost().map(String::from));
    if let Some(why) = &lost {
        complain(&format!("the report is lost: {why}"));
    }
    report.all_closed() && lost.is_none()
}

fn complain(why: &str) {
    let _ = writeln!(stderr(), "yongpham: {why}");
}

/// What can be known of a mesh before it is begun. On the command line a fault is wrong use; in a list it is its row's.
fn check(batch: &Batch, tasks: &mut [Task]) -> Result<(), String> {
    for task in tasks.iter_mut().filter(|task| task.fault.is_none()) {
        let request = batch.common.request(task.extents, task.resolution);
        if let Err(Outcome::Not(_, trouble)) = steps::check(&request) {
            task.fault = Some(trouble);
        } else if task.density.is_some_and(|d| !(d > 0.0 && d.is_finite())) {
            let why = format!("the density is {:?}; it is to be above 0", task.density.unwrap_or_default());
            task.fault = Some(crate::outcome::Trouble::at("list", why));
        }
    }
    let mut told = 0;
    for task in tasks.iter() {
        let fault = task.fault.as_ref().map(|trouble| trouble.explanation.clone());
        let absent = || task.file.as_ref().is_some_and(|file| !file.exists()).then(|| "there is no such file".to_string());
        let Some(why) = fault.or_else(absent) else {
            continue;
        };
        if !batch.listed && task.fault.is_some() {
            return Err(why);
        }
        told += 1;
        if told <= TOLD {
            complain(&format!("row {}, {}: {why}", task.number, task.told()));
        }
    }
    if told > TOLD {
        complain(&format!("and {} further rows cannot be done", told - TOLD));
    }
    Ok(())
}

/// summary.csv, or that of a part.
fn summary_file(batch: &Batch, results: &Results) -> PathBuf {
    let name = batch.rows.map_or("summary.csv".into(), |(first, last)| format!("summary.{first}-{last}.csv"));
    results.folder().join(name)
}

/// The summary, and the picture, take the place of no file that is not their own.
fn guard(summary: &Path, batch: &Batch, tasks: &[Task]) -> Result<(), String> {
    let real = |path: &Path| path.canonicalize().ok();
    let files = tasks.iter().filter_map(|task| task.file.as_deref());
    let inputs: Vec<PathBuf> = files.chain(batch.handed_in.iter().copied()).filter_map(real).collect();
    for path in batch.writing.picture.iter().map(PathBuf::as_path).chain([summary]) {
        if real(path).is_some_and(|path| inputs.contains(&path)) {
            return Err(format!("{} is handed in and would be overwritten", text::name(path)));
        }
    }
    let head = COLUMNS.join(",");
    let start = || files::open(summary).and_then(|file| files::start(file, head.len()));
    if summary.symlink_metadata().is_ok() && start() != Ok(head.as_bytes().to_vec()) {
        return Err(format!("{} is no summary of ours and would be overwritten; give another --out", text::name(summary)));
    }
    Ok(())
}

/// Rows are begun in order and reported in order, whoever is done first.
fn all(batch: &Batch, results: &Results, tasks: &[Task], report: &mut Report<File>) {
    let progress = progress(tasks.len());
    let (sender, receiver) = mpsc::channel::<(usize, Row)>();
    std::thread::scope(|scope| {
        scope.spawn(move || {
            let each = |sender: &mut mpsc::Sender<(usize, Row)>, (place, task): (usize, &Task)| {
                let _ = sender.send((place, one::row(batch, results, task)));
            };
            let pool = rayon::ThreadPoolBuilder::new().num_threads(batch.jobs).build();
            match pool {
                Ok(pool) => pool.install(|| tasks.iter().enumerate().par_bridge().for_each_with(sender, each)),
                Err(_) => tasks.iter().enumerate().for_each(|task| each(&mut sender.clone(), task)),
            }
        });
        let mut waiting = BTreeMap::new();
        let mut next = 0;
        for (place, row) in receiver {
            waiting.insert(place, row);
            while let Some(row) = waiting.remove(&next) {
                progress.suspend(|| report.put(&row));
                next += 1;
            }
            progress.inc(1);
        }
    });
    progress.finish_and_clear();
}

/// Shown on a terminal only.
fn progress(count: usize) -> ProgressBar {
    let bar = ProgressBar::new(count as u64);
    let style = ProgressStyle::with_template("{pos} of {len} [{bar:30}] {elapsed}, about {eta} more");
    if let Ok(style) = style {
        bar.set_style(style);
    }
    bar
}
