//! `check`: whether meshes are closed, any meshes, as the library lists their edges.

mod one;
mod pictures;
mod table;

use super::Answer;
use crate::library::Library;
use crate::options::Size;
use crate::results;
use crate::text;
use clap::Args;
use one::{Checker, Row};
use pictures::Pictures;
use std::io::{self, stderr, stdout, Write};
use std::path::{Path, PathBuf};
use table::Table;

#[derive(Args, Debug)]
pub struct Arguments {
    #[command(flatten)]
    size: Size,
    #[arg(long, value_name = "FILE")]
    csv: Option<PathBuf>,
    #[arg(long, value_name = "FILE")]
    picture: Option<PathBuf>,
    #[arg(value_name = "MESH.obj", required = true)]
    meshes: Vec<PathBuf>,
}

pub fn run(arguments: &Arguments) -> Answer {
    let mut checker = Checker { library: Library::default(), ceiling: arguments.size.named()? };
    let pictures = Pictures::new(arguments.picture.as_deref(), &arguments.meshes)?;
    guard(arguments, &pictures)?;
    let mut table = arguments.csv.as_deref().map(Table::new).transpose()?;
    let (mut all, mut lost) = (true, None);
    for (place, file) in arguments.meshes.iter().enumerate() {
        let row = checker.row(file, pictures.of(place));
        all &= row.is_success();
        let told = tell(&row, table.as_ref().is_some_and(Table::is_on_output));
        lost = lost.or(told.err().map(|why| format!("standard output cannot be written: {why}")));
        table.iter_mut().for_each(|table| table.put(&row));
    }
    lost = lost.or(table.and_then(|table| table.end().err()));
    if let Some(why) = &lost {
        complain(&format!("the report is lost: {why}"));
    }
    Ok(all && lost.is_none())
}

/// The line of a mesh. Where a table takes its place, what there is to say of the picture is still told.
fn tell(row: &Row, in_table: bool) -> io::Result<()> {
    match (in_table, row.note()) {
        (false, _) => writeln!(stdout(), "{}", row.line()),
        (true, note) => {
            note.iter().for_each(|note| complain(note));
            Ok(())
        }
    }
}

fn complain(why: &str) {
    let _ = writeln!(stderr(), "yongpham: {why}");
}

/// Nothing that is handed in is overwritten, and no two results meet.
fn guard(arguments: &Arguments, pictures: &Pictures) -> Result<(), String> {
    let real = |path: &Path| path.canonicalize().ok();
    let inputs: Vec<PathBuf> = arguments.meshes.iter().filter_map(|path| real(path)).collect();
    let csv = arguments.csv.as_deref().filter(|path| !table::is_output(path));
    for path in pictures.all().chain(csv) {
        if real(path).is_some_and(|path| inputs.contains(&path)) {
            return Err(format!("{} is handed in and would be overwritten", text::name(path)));
        }
    }
    match csv.filter(|csv| pictures.all().any(|picture| place(picture) == place(csv))) {
        Some(path) => Err(format!("--csv and --picture both name {}", text::name(path))),
        None => Ok(()),
    }
}

/// A file by its real folder, whether it is there or not.
fn place(path: &Path) -> PathBuf {
    let folder = results::folder_of(path);
    folder.canonicalize().unwrap_or(folder.into()).join(path.file_name().unwrap_or_default())
}
