//! `cut`: cuts and cleans, and can write what a triangulator would be handed.

use super::Answer;
use crate::meshes::{self, obj};
use crate::options::{Common, Shape, Size};
use crate::outcome::{Outcome, State, Trouble};
use crate::results::{unwritable, Results};
use crate::steps::{self, Made};
use crate::tasks::{self, Task};
use crate::text;
use crate::triangulator::Triangulator;
use clap::Args;
use std::io::{stdout, Write};
use std::path::PathBuf;
use std::time::Duration;

#[derive(Args, Debug)]
pub struct Arguments {
    #[command(flatten)]
    shape: Shape,
    #[command(flatten)]
    size: Size,
    #[arg(long, value_name = "FOLDER", default_value = ".")]
    out: PathBuf,
    #[arg(long)]
    save_faces: bool,
    #[arg(value_name = "MESH.obj", required = true)]
    meshes: Vec<PathBuf>,
}

pub fn run(arguments: &Arguments) -> Answer {
    let extents = arguments.shape.extents().ok_or("--box is needed")?;
    let common = Common {
        eps: arguments.shape.eps,
        ceiling: arguments.size.ceiling()?,
        closings: vec![],
        triangulator: Triangulator::Stored(""),
        time: Duration::ZERO,
    };
    let request = common.request(extents, arguments.shape.resolution);
    if let Err(Outcome::Not(_, trouble)) = steps::check(&request) {
        return Err(trouble.explanation);
    }
    let results = Results::new(&arguments.out)?;
    let task = |(number, file): (usize, &PathBuf)| Task {
        number,
        name: tasks::default_name(file),
        file: Some(file.clone()),
        extents,
        resolution: None,
        density: None,
        fault: None,
    };
    let mut tasks: Vec<Task> = (1..).zip(&arguments.meshes).map(task).collect();
    tasks::mark_conflicts(&mut tasks, &[], &results);
    if let Some(fault) = tasks.iter().find_map(|task| task.fault.as_ref()) {
        return Err(fault.explanation.clone());
    }
    let mut all = true;
    for task in &tasks {
        let (words, done) = match one(task, &request, arguments, &results) {
            Ok(words) => (words, true),
            Err(outcome) => (outcome.in_words(None), false),
        };
        let told = writeln!(stdout(), "{}: {words}", task.told());
        all &= done && told.is_ok();
    }
    Ok(all)
}

fn one(task: &Task, request: &steps::Request, arguments: &Arguments, results: &Results) -> Result<String, Outcome> {
    let surface = meshes::read(task.file.as_deref().unwrap_or("".as_ref())).map_err(|unread| {
        let trouble = Trouble { line: unread.line, value: unread.value, ..Trouble::at("read", unread.why) };
        Outcome::Not(State::Failed, trouble)
    })?;
    let (made, done) = steps::cut(&surface, request);
    // An open edge inside the box keeps a surface from being closed, not from being cut.
    if let (Err(outcome), None) = (done, &made.cleaned) {
        return Err(outcome);
    }
    write(task, &made, arguments.save_faces, results).map_err(|why| Outcome::failed("written", why))
}

fn write(task: &Task, made: &Made, save_faces: bool, results: &Results) -> Result<String, String> {
    let mesh = made.cleaned.clone().unwrap_or_default();
    let path = results.file(&task.name, "cleaned.obj");
    let file = results.aside("result", |file| obj::write(&mesh, file)).map_err(|why| unwritable(&path, &why))?;
    let mut written = vec![(file, path)];
    if save_faces && !made.faces.is_empty() {
        let path = results.file(&task.name, "faces");
        let file = results.aside("result", |file| file.write_all(made.faces.as_bytes()));
        written.push((file.map_err(|why| unwritable(&path, &why))?, path));
    }
    let files = results.name(written)?;
    let names: Vec<String> = files.iter().map(|file| text::name(file)).collect();
    Ok(format!("cut: {}; {}", steps::counts(&mesh, made.open_edges), names.join(", ")))
}
