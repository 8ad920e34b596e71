//! One mesh: read, closed, judged, written.

use super::batch::Batch;
use crate::meshes::{self, obj, Surface};
use crate::outcome::{Outcome, State, Trouble};
use crate::picture;
use crate::report::Row;
use crate::results::{unwritable, Results, Written};
use crate::sample;
use crate::steps::{self, Made};
use crate::tasks::Task;
use std::io::{self, Write};
use std::panic::{self, AssertUnwindSafe};
use std::path::PathBuf;

/// Whatever happens to one mesh, the next is done.
pub fn row(batch: &Batch, results: &Results, task: &Task) -> Row {
    let fault = "a fault of this command; please report it with the mesh";
    let row = Row {
        number: task.number,
        name: task.name.clone(),
        file: task.told(),
        density: task.density,
        outcome: Outcome::failed("inside", fault),
        moved_aside: vec![],
        steps: vec![],
        warning: None,
    };
    panic::catch_unwind(AssertUnwindSafe(|| done(batch, results, task, row.clone()))).unwrap_or(row)
}

fn done(batch: &Batch, results: &Results, task: &Task, row: Row) -> Row {
    if let Some(trouble) = &task.fault {
        // What an earlier run left under a name that is another row's, or a file that is handed in, stays.
        let moved = if trouble.step == "name" { Ok(vec![]) } else { results.move_aside(&task.name, &[]) };
        return with_moved(Row { outcome: not(trouble.clone()), ..row }, moved);
    }
    let request = batch.common.request(task.extents, task.resolution);
    let (made, outcome) = match read(task) {
        Ok(surface) => steps::close(&surface, &request),
        Err(outcome) => (Made::default(), outcome),
    };
    let told = |(step, words): &(&str, String)| format!("{step:<11} {words}");
    let steps = if batch.writing.steps { made.told.iter().map(told).collect() } else { vec![] };
    let written = write(batch, results, task, &made, &outcome);
    let (outcome, files, warning) = match written.and_then(|written| results.name(written)) {
        Ok(files) => (outcome, files, steps::over_ceiling(&made.solids, &request)),
        Err(why) => (Outcome::failed("written", why), vec![], None),
    };
    let moved = results.move_aside(&task.name, &files);
    with_moved(Row { outcome, steps, warning, ..row }, moved)
}

/// A fault that was found before: a refusal if it has a number.
fn not(trouble: Trouble) -> Outcome {
    let state = if trouble.number.is_some() { State::Refused } else { State::Failed };
    Outcome::Not(state, trouble)
}

/// A stale file that stays where it is would be taken for a result of this run.
fn with_moved(row: Row, moved: Result<Vec<String>, String>) -> Row {
    match moved {
        Ok(moved_aside) => Row { moved_aside, ..row },
        Err(why) => Row { outcome: Outcome::failed("written", why), ..row },
    }
}

fn read(task: &Task) -> Result<Surface, Outcome> {
    let Some(file) = &task.file else {
        return Ok(sample::surface());
    };
    meshes::read(file).map_err(|unread| {
        let trouble = Trouble { line: unread.line, value: unread.value, ..Trouble::at("read", unread.why) };
        Outcome::Not(State::Failed, trouble)
    })
}

/// Writes what there is under no name yet. Only solids of a mesh that is closed get the plain names.
fn write(batch: &Batch, results: &Results, task: &Task, made: &Made, outcome: &Outcome) -> Result<Written, String> {
    let mut written = Written::new();
    let mut put = |path: PathBuf, fill: &dyn Fn(&mut dyn Write) -> io::Result<()>| {
        let file = results.aside("result", fill).map_err(|why| unwritable(&path, &why))?;
        written.push((file, path));
        Ok::<(), String>(())
    };
    let mark = if outcome.is_closed() { "" } else { ".not-closed" };
    for solid in &made.solids {
        let path = results.file(&task.name, &format!("{}{mark}.obj", solid.closing.name()));
        put(path, &|file| obj::write(&solid.mesh, file))?;
    }
    if batch.writing.save_faces && !made.faces.is_empty() {
        put(results.file(&task.name, "faces"), &|file| file.write_all(made.faces.as_bytes()))?;
    }
    if batch.writing.save_caps && !made.triangles.is_empty() {
        put(results.file(&task.name, "caps"), &|file| file.write_all(&made.triangles))?;
    }
    if let Some(path) = &batch.writing.picture {
        picture::save(path, made, &task.extents, batch.common.time)?;
    }
    Ok(written)
}
