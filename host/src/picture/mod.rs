//! Pictures: of a solid in its box, with the caps in a colour for each face and open edges in red (`svg`); and of any mesh in three views,
//! with its open edges by component (`views`).

mod patches;
mod svg;
mod view;
pub mod views;

use crate::edges::{self, Edge};
use crate::library::Library;
use crate::mesh::Mesh;
use crate::results::{folder_of, unwritable, Results};
use crate::steps::Made;
use crate::text;
use crate::triangulator::ask;
use std::path::Path;
use std::process::Command;
use std::time::Duration;
use yongpham_library::Extents;

/// Bytes of a picture that is converted.
const MOST: usize = 256 << 20;
/// A picture of nothing, by which the tool is tried before any mesh is done.
const TRIAL: &str = "<svg xmlns=\"http://www.w3.org/2000/svg\" viewBox=\"0 0 1 1\"/>";
/// Pixels of its width.
const PIXELS: &str = "1600";

/// What is drawn: facets of the surface first, caps behind them.
pub struct Subject<'a> {
    pub mesh: &'a Mesh,
    pub surface_facets: usize,
    pub title: String,
    pub extents: Extents,
    pub open: Vec<Edge>,
    /// No facet is seen from inside.
    pub closed: bool,
}

impl<'a> Subject<'a> {
    /// The edges are the library's to list; where it does not, none is shown.
    pub fn new(mesh: &'a Mesh, surface_facets: usize, title: String, extents: &Extents) -> Self {
        let edges = edges::list(&mut Library::default(), mesh.vertex_count(), &mesh.facets);
        let closed = edges.as_ref().is_ok_and(|edges| edges.open.is_empty());
        let open = edges.map(|edges| edges.open).unwrap_or_default();
        Subject { mesh, surface_facets, title, extents: *extents, open, closed }
    }
}

/// Whether a picture can be written under the name.
pub fn check(path: &Path) -> Result<(), String> {
    match ending(path).as_str() {
        "svg" => Ok(()),
        "png" => png(TRIAL, Duration::from_secs(20)).map(|_| ()),
        _ => Err(format!("--picture: {} ends neither in .svg nor in .png", text::name(path))),
    }
}

fn ending(path: &Path) -> String {
    path.extension().unwrap_or_default().to_string_lossy().to_ascii_lowercase()
}

/// Draws the first solid, or what was left of the surface where there is none.
pub fn save(path: &Path, made: &Made, extents: &Extents, time: Duration) -> Result<(), String> {
    let title = |name: &str| format!("{name} in the box {}", corners(extents));
    let subject = match (made.solids.first(), &made.cleaned) {
        (Some(solid), _) => {
            let title = title(&format!("{} solid", solid.closing.name()));
            Subject::new(&solid.mesh, solid.surface_facets, title, extents)
        }
        (None, Some(mesh)) => Subject::new(mesh, mesh.facet_count(), title("surface, not closed,"), extents),
        (None, None) => return Ok(()),
    };
    write(path, svg::draw(&subject), time)
}

/// Writes a picture that was drawn, whole or not at all, in the format that the name ends in.
pub fn write(path: &Path, drawn: String, time: Duration) -> Result<(), String> {
    let bytes = if ending(path) == "png" { png(&drawn, time)? } else { drawn.into_bytes() };
    let file = Results::new(folder_of(path))?.aside("picture", |file| file.write_all(&bytes));
    let file = file.map_err(|why| unwritable(path, &why))?;
    file.persist(path).map(|_| ()).map_err(|why| unwritable(path, &why.error))
}

fn corners(e: &Extents) -> String {
    format!("({} {} {}) to ({} {} {})", e[0], e[1], e[2], e[3], e[4], e[5])
}

/// Made of the SVG by the usual tool.
fn png(svg: &str, time: Duration) -> Result<Vec<u8>, String> {
    let mut command = Command::new("rsvg-convert");
    command.args(["--width", PIXELS, "--format", "png"]);
    ask(&mut command, svg.as_bytes(), time, MOST).map_err(|why| {
        format!("the picture was not made: rsvg-convert {why}; a .png needs that tool (on Debian: apt-get install librsvg2-bin), a .svg needs none")
    })
}
