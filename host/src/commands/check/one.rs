//! One mesh: read, its edges listed, told in a line and in a row of the table, drawn.

use crate::ceiling::Ceiling;
use crate::edges::{self, Edges, Unlisted};
use crate::explain::{Call, CHECK};
use crate::library::{Library, Setting, Stop};
use crate::limits;
use crate::meshes::{self, Surface};
use crate::outcome::{Outcome, State, Trouble, Volumes};
use crate::picture::{self, views};
use crate::results::{folder_of, Results};
use crate::text;
use crate::verdict::{self, Fault, Verdict};
use std::panic::{self, AssertUnwindSafe};
use std::path::Path;
use std::time::Duration;

/// What the table tells, in this order. The last six are the summary's.
pub const COLUMNS: [&str; 14] = [
    "file",
    "state",
    "vertices",
    "facets",
    "open_edges",
    "components",
    "rings",
    "irregular_edges",
    "step",
    "number",
    "line",
    "value",
    "where",
    "explanation",
];

/// Who asks the library.
pub struct Checker {
    pub library: Library,
    /// Without one a mesh of any size is checked.
    pub ceiling: Option<Ceiling>,
}

/// A mesh, and what became of it.
#[derive(Clone, Debug)]
pub struct Row {
    file: String,
    /// Vertices and facets, of a mesh that was read.
    counts: Option<[u64; 2]>,
    /// Of a mesh that was checked.
    edges: Option<Edges>,
    outcome: Outcome,
    /// What there is to say of the picture.
    note: Option<String>,
    /// A picture that was asked for could not be made.
    picture_lost: bool,
}

impl Checker {
    /// Whatever happens to one mesh, the next is checked.
    pub fn row(&mut self, file: &Path, picture: Option<&Path>) -> Row {
        let outcome = Outcome::failed("inside", "a fault of this command; please report it with the mesh");
        let row = Row { file: text::name(file), counts: None, edges: None, outcome, note: None, picture_lost: false };
        panic::catch_unwind(AssertUnwindSafe(|| self.done(file, picture, row.clone()))).unwrap_or(row)
    }

    fn done(&mut self, file: &Path, picture: Option<&Path>, mut row: Row) -> Row {
        let surface = match self.read(file) {
            Ok(surface) => surface,
            Err(outcome) => return with_picture(Row { outcome, ..row }, None, picture),
        };
        row.counts = Some([surface.vertices, surface.facets]);
        match self.listed(&surface) {
            Ok(edges) => {
                row.outcome = judged(&surface, &edges);
                row.edges = Some(edges);
            }
            Err(outcome) => row.outcome = outcome,
        }
        with_picture(row, Some(&surface), picture)
    }

    fn read(&self, file: &Path) -> Result<Surface, Outcome> {
        // Of a mesh over a ceiling no more is needed than shows that it is.
        let most = self.ceiling.map_or(usize::MAX, |_| limits::ELEMENTS);
        meshes::read_up_to(file, most).map_err(|unread| {
            let trouble = Trouble { line: unread.line, value: unread.value, ..Trouble::at("read", unread.why) };
            Outcome::Not(State::Failed, trouble)
        })
    }

    fn listed(&mut self, surface: &Surface) -> Result<Edges, Outcome> {
        let mesh = &surface.mesh;
        let listed = match self.ceiling {
            Some(ceiling) => edges::whole(self.library.boundary_components(mesh.vertex_count(), &mesh.facets, ceiling)),
            None => edges::list(&mut self.library, mesh.vertex_count(), &mesh.facets),
        };
        listed.map_err(|why| match why {
            Unlisted::Stop(stop) => self.refused(surface, stop),
            crowded => Outcome::failed(CHECK, format!("not checked: {}", verdict::not_checked(mesh, &crowded))),
        })
    }

    fn refused(&self, surface: &Surface, stop: Stop) -> Outcome {
        let setting = Setting { extents: [0.0; 6], eps: 0.0, resolution: 0.0, ceiling: self.ceiling.unwrap_or_default() };
        Call { step: CHECK, surface: Some(surface), mesh: &surface.mesh, setting: &setting, lists: None, answer: None }.outcome(stop)
    }
}

/// Of a mesh without facets all lists are empty, but it is no solid.
fn judged(surface: &Surface, edges: &Edges) -> Outcome {
    if surface.facets == 0 {
        return Outcome::Not(State::Empty, Trouble::at(CHECK, meshes::NO_FACET));
    }
    let not = |state: State, fault: Fault| {
        let (value, place) = (fault.count.to_string(), fault.place());
        Outcome::Not(state, Trouble { value, place, ..Trouble::at(CHECK, fault.what) })
    };
    match verdict::of_edges(&surface.mesh, edges) {
        None => Outcome::Closed(Volumes::default()),
        Some(Verdict::Open(fault)) => not(State::Open, fault),
        Some(Verdict::TurnedWrong(fault)) => not(State::TurnedWrong, fault),
        Some(other) => Outcome::failed(CHECK, format!("not checked: {other:?}")),
    }
}

/// Draws a mesh that was checked. Of any other an earlier picture would be taken for one of this run.
fn with_picture(row: Row, surface: Option<&Surface>, picture: Option<&Path>) -> Row {
    let Some(path) = picture else {
        return row;
    };
    let made = match (surface, &row.edges) {
        (Some(surface), Some(edges)) => drawn(&row, surface, edges, path),
        _ => moved(path),
    };
    match made {
        Ok(note) => Row { note, ..row },
        Err(why) => Row { note: Some(why), picture_lost: true, ..row },
    }
}

fn drawn(row: &Row, surface: &Surface, edges: &Edges, path: &Path) -> Result<Option<String>, String> {
    let title = format!("{}: {}: {}", row.file, row.outcome.state(), in_words(edges));
    let drawn = views::draw(&surface.mesh, edges, &title);
    picture::write(path, drawn.svg, Duration::from_secs(limits::SECONDS))?;
    let left_out = |count| format!("not in the picture, since an end is no number or too large: {}", text::counted(count, "edge"));
    Ok((drawn.left_out > 0).then(|| left_out(drawn.left_out)))
}

fn moved(path: &Path) -> Result<Option<String>, String> {
    if !path.is_file() {
        return Ok(None);
    }
    Results::new(folder_of(path))?.moved(path)?;
    Ok(Some(format!("moved aside: {}", text::name(path))))
}

/// How many open edges, how they join, how many irregular ones.
fn in_words(edges: &Edges) -> String {
    let counted = |count: usize, what: &str| match count {
        0 => format!("no {what}"),
        _ => text::counted(count, what),
    };
    let grouped = match edges.grouped() {
        _ if edges.open.is_empty() => String::new(),
        Some(words) => format!(" {words}"),
        None => ", not grouped (components are told of up to 65536 vertices and facets)".into(),
    };
    let (open, irregular) = (counted(edges.open.len(), "open edge"), counted(edges.irregular.len(), "irregular edge"));
    format!("{open}{grouped}; {irregular}")
}

impl Row {
    /// Closed, and with its picture if one was asked for.
    pub fn is_success(&self) -> bool {
        self.outcome.is_closed() && !self.picture_lost
    }

    /// What there is to say of the picture, with the file's name.
    pub fn note(&self) -> Option<String> {
        self.note.as_ref().map(|words| format!("{}: {words}", self.file))
    }

    pub fn line(&self) -> String {
        let note = self.note.as_ref().map(|words| format!("; {words}")).unwrap_or_default();
        format!("{}: {}{note}", self.file, self.said())
    }

    fn said(&self) -> String {
        let [vertices, facets] = self.counts.unwrap_or_default();
        match (&self.outcome, &self.edges) {
            (Outcome::Closed(_), _) => format!("closed: {vertices} vertices, {facets} facets"),
            (Outcome::Not(state @ State::Open, trouble), Some(edges)) => {
                format!("{}: {}; first {}", state.name(), in_words(edges), trouble.place)
            }
            (Outcome::Not(state @ State::TurnedWrong, trouble), Some(edges)) => {
                format!("{}: {}; {}: {}", state.name(), in_words(edges), trouble.explanation, trouble.place)
            }
            (outcome, _) => outcome.in_words(None),
        }
    }

    /// The row of the table.
    pub fn cells(&self) -> [String; 14] {
        let trouble = match &self.outcome {
            Outcome::Closed(_) => Trouble::default(),
            Outcome::Not(_, trouble) => trouble.clone(),
        };
        let count = |x: Option<u64>| x.map(|x| x.to_string()).unwrap_or_default();
        let listed = |pick: fn(&Edges) -> Option<usize>| count(self.edges.as_ref().and_then(pick).map(|x| x as u64));
        [
            self.file.clone(),
            self.outcome.state().into(),
            count(self.counts.map(|counts| counts[0])),
            count(self.counts.map(|counts| counts[1])),
            listed(|edges| Some(edges.open.len())),
            listed(|edges| edges.components.as_ref().map(Vec::len)),
            listed(Edges::rings),
            listed(|edges| Some(edges.irregular.len())),
            trouble.step.into(),
            count(trouble.number.map(u64::from)),
            count(trouble.line),
            trouble.value,
            trouble.place,
            trouble.explanation,
        ]
    }
}
