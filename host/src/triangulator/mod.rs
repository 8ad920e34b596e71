//! Where the triangles of the faces come from: a program that is run for each mesh, a file, or the sample's stored list.

mod built_in;
mod exchange;

pub use built_in::{find, MISSING};
pub use exchange::ask;

use crate::files;
use crate::limits;
use std::path::PathBuf;
use std::process::Command;
use std::time::Duration;

#[derive(Clone, Debug, PartialEq)]
pub enum Triangulator {
    /// The program of host/triangulator, built on CGAL.
    BuiltIn(PathBuf),
    /// A line for the shell.
    Line(String),
    File(PathBuf),
    /// The stored list of the sample.
    Stored(&'static str),
}

impl Triangulator {
    /// The triangles of the faces told, as text; or a sentence that says why there are none.
    pub fn answer(&self, faces: &str, time: Duration) -> Result<Vec<u8>, String> {
        let run = |mut command: Command| {
            ask(&mut command, faces.as_bytes(), time, limits::ANSWER).map_err(|why| format!("the triangulator {why}"))
        };
        match self {
            Triangulator::Stored(text) => Ok(text.as_bytes().to_vec()),
            Triangulator::File(path) => {
                files::read(path, limits::ANSWER as u64).map_err(|why| format!("{} {why}", crate::text::name(path)))
            }
            Triangulator::BuiltIn(program) => run(Command::new(program)).map_err(with_meaning),
            Triangulator::Line(line) => {
                let mut shell = Command::new("sh");
                shell.args(["-c", line]);
                run(shell)
            }
        }
    }
}

/// What the built-in triangulator's two commonest complaints mean for the surface.
fn with_meaning(why: String) -> String {
    let meaning = if why.contains("crosses the constraint") {
        "; the surface crosses itself where it meets that face"
    } else if why.contains("runs through point") {
        "; a vertex lies inside an edge of the surface's border on that face"
    } else {
        ""
    };
    format!("{why}{meaning}")
}
