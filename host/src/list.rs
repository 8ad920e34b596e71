//! A list of meshes: a table (CSV) with a row a mesh.
//!
//! The first line names the columns: file, x0, y0, z0, x1, y1, z1, and where wanted resolution, density and name. In place of the six a column
//! box may hold six numbers. The separator is a comma or a semicolon, as the first line has it. A fault of the first line is wrong use; a fault of a row is that row's own, and the others are done.

use crate::files;
use crate::limits;
use crate::outcome::Trouble;
use crate::tasks::{self, Task};
use crate::text::{self, quoted};
use std::path::{Path, PathBuf};
use yongpham_library::Extents;

const BOX: [&str; 6] = ["x0", "y0", "z0", "x1", "y1", "z1"];
const OTHERS: [&str; 5] = ["file", "box", "resolution", "density", "name"];

/// What rows that leave it out get from the command line.
#[derive(Clone, Copy, Debug, Default)]
pub struct Defaults {
    pub extents: Option<Extents>,
    pub resolution: Option<f64>,
    pub density: Option<f64>,
}

/// The tasks of a list; or what is wrong with the list as a whole.
pub fn read(path: &Path, defaults: &Defaults) -> Result<Vec<Task>, String> {
    let told = |why: String| format!("{} {why}", text::name(path));
    let bytes = files::read(path, limits::LIST).map_err(told)?;
    let bytes = bytes.strip_prefix(b"\xef\xbb\xbf").unwrap_or(&bytes);
    let first = bytes.split(|byte| *byte == b'\n').next().unwrap_or(&[]);
    let separator = if first.contains(&b';') && !first.contains(&b',') { b';' } else { b',' };
    let mut reader = csv::ReaderBuilder::new().delimiter(separator).flexible(true).trim(csv::Trim::All).from_reader(bytes);
    let columns = reader.headers().map_err(|why| told(format!("is no table: {why}")))?.clone();
    let columns = Columns::new(&columns, defaults).map_err(told)?;
    let folder = path.parent().unwrap_or(Path::new(""));
    let mut list = Vec::new();
    for (number, record) in (1..).zip(reader.records()) {
        let record = record.map_err(|why| told(format!("is no table: row {number}: {}", text::sentence(&why.to_string()))))?;
        // A quotation mark that is not closed takes all rows behind it into one cell, and they would be lost without a word.
        if record.iter().any(|cell| cell.contains(['\n', '\r'])) {
            return Err(told(format!("has a cell of several lines in row {number}: is a quotation mark not closed?")));
        }
        list.push(columns.task(number, &record, folder, defaults));
    }
    if list.is_empty() {
        return Err(told("has no row".into()));
    }
    Ok(list)
}

/// Where the box stands: in six columns, or in one.
#[derive(Clone, Copy)]
enum Corners {
    Apart([usize; 6]),
    Together(usize),
}

/// The place of each column.
struct Columns {
    count: usize,
    file: usize,
    corners: Option<Corners>,
    resolution: Option<usize>,
    density: Option<usize>,
    name: Option<usize>,
}

impl Columns {
    fn new(head: &csv::StringRecord, defaults: &Defaults) -> Result<Self, String> {
        let place = |wanted: &str| head.iter().position(|name| name.eq_ignore_ascii_case(wanted));
        let known = |name: &str| BOX.iter().chain(&OTHERS).any(|known| known.eq_ignore_ascii_case(name));
        if let Some(name) = head.iter().find(|name| !known(name)) {
            let all = [&OTHERS[..1], &BOX, &OTHERS[1..]].concat().join(", ");
            return Err(format!("has a column {}; known are {all}", quoted(name)));
        }
        let twice = (1..head.len()).find(|&at| head.iter().take(at).any(|name| name.eq_ignore_ascii_case(&head[at])));
        if let Some(at) = twice {
            return Err(format!("has the column {} twice", quoted(&head[at])));
        }
        let corners = corners_in(place, defaults)?;
        Ok(Columns {
            count: head.len(),
            file: place("file").ok_or("has no column file")?,
            corners,
            resolution: place("resolution"),
            density: place("density"),
            name: place("name"),
        })
    }

    fn task(&self, number: usize, record: &csv::StringRecord, folder: &Path, defaults: &Defaults) -> Task {
        let cell = |at: Option<usize>| at.and_then(|at| record.get(at)).unwrap_or("");
        let file = PathBuf::from(cell(Some(self.file)));
        let name = match cell(self.name) {
            "" => tasks::default_name(&file),
            name => name.into(),
        };
        let mut task = Task {
            number,
            name,
            file: Some(folder.join(&file)),
            extents: defaults.extents.unwrap_or_default(),
            resolution: defaults.resolution,
            density: defaults.density,
            fault: None,
        };
        let line = record.position().map(csv::Position::line);
        if let Err((value, why)) = self.fill(record, defaults, &mut task) {
            let trouble = Trouble::at("list", why);
            task.fault = Some(Trouble { line, value, ..trouble });
        }
        task
    }

    fn fill(&self, record: &csv::StringRecord, defaults: &Defaults, task: &mut Task) -> Result<(), (String, String)> {
        if record.len() != self.count {
            let why = format!("the row has {} cells, the first line {}", record.len(), self.count);
            return Err((record.len().to_string(), why));
        }
        if record[self.file].is_empty() {
            return Err((String::new(), "the row names no file".into()));
        }
        let cells = self.corners.map(|corners| corners.cells(record)).unwrap_or_default();
        let given = cells.iter().any(|cell| !cell.is_empty());
        if given || defaults.extents.is_none() {
            if cells.len() != 6 {
                let why = format!("the box has {} numbers; it needs six", cells.len());
                return Err((cells.len().to_string(), why));
            }
            for (corner, (cell, name)) in task.extents.iter_mut().zip(cells.into_iter().zip(BOX)) {
                *corner = number(cell, name)?;
            }
        }
        for (at, name, into) in [(self.resolution, "resolution", &mut task.resolution), (self.density, "density", &mut task.density)] {
            let word = at.map_or("", |at| &record[at]);
            if !word.is_empty() {
                *into = Some(number(word, name)?);
            }
        }
        Ok(())
    }
}

impl Corners {
    fn cells<'a>(&self, record: &'a csv::StringRecord) -> Vec<&'a str> {
        match self {
            Corners::Apart(places) => places.iter().map(|&at| &record[at]).collect(),
            Corners::Together(at) => record[*at].split([' ', ',', ';', '\t']).filter(|word| !word.is_empty()).collect(),
        }
    }
}

/// The columns of the box; they may be left out if the call has a box.
fn corners_in(place: impl Fn(&str) -> Option<usize>, defaults: &Defaults) -> Result<Option<Corners>, String> {
    let apart = BOX.map(&place);
    let missing = BOX.iter().zip(apart).find(|(_, at)| at.is_none()).map(|(name, _)| name);
    match (place("box"), missing) {
        (Some(_), _) if apart.iter().any(Option::is_some) => Err("has a column box and others for the box's corners".into()),
        (Some(at), _) => Ok(Some(Corners::Together(at))),
        (None, None) => Ok(Some(Corners::Apart(apart.map(Option::unwrap_or_default)))),
        (None, Some(_)) if defaults.extents.is_some() && apart.iter().all(Option::is_none) => Ok(None),
        (None, Some(name)) => Err(format!("has no column {name}")),
    }
}

/// Any double: which of them serve is the library's to say.
fn number(word: &str, column: &str) -> Result<f64, (String, String)> {
    let told = quoted(word);
    let why = if word.is_empty() { format!("{column} is empty") } else { format!("{column}: {told} is not a number") };
    word.parse().map_err(|_| (told, why))
}

#[cfg(test)]
mod tests {
    use super::*;

    fn parsed(text: &str, defaults: &Defaults) -> Result<Vec<Task>, String> {
        let file = tempfile::NamedTempFile::new().expect("a file");
        std::fs::write(file.path(), text).expect("written");
        read(file.path(), defaults)
    }

    const HEAD: &str = "file,x0,y0,z0,x1,y1,z1,resolution,density,name\n";

    #[test]
    fn a_row_is_a_mesh() {
        let text = format!("\u{feff}{HEAD}a.obj,0,0,0,1,2,3,,2.6,\n\"b c.obj\", -1,0,0,1,2,3e0,5,,north\r\n");
        let list = parsed(&text, &Defaults::default()).expect("a list");
        assert_eq!(list.len(), 2);
        assert_eq!((list[0].number, list[0].name.as_str(), list[0].resolution, list[0].density), (1, "a", None, Some(2.6)));
        assert_eq!((list[1].extents, list[1].name.as_str()), ([-1., 0., 0., 1., 2., 3.], "north"));
        assert!(list[1].file.as_deref().is_some_and(|file| file.ends_with("b c.obj")));
    }

    #[test]
    fn columns_may_stand_in_any_order_and_what_is_left_out_comes_from_the_call() {
        let defaults = Defaults { extents: Some([0., 0., 0., 1., 1., 1.]), resolution: Some(4.0), density: None };
        let list = parsed("Name;File\nnorth;a.obj\n", &defaults).expect("a list");
        assert_eq!((list[0].name.as_str(), list[0].extents[3], list[0].resolution), ("north", 1.0, Some(4.0)));
        let list = parsed(&format!("{HEAD}a.obj,,,,,,,,,\nb.obj,1,1,1,2,2,2,,,\n"), &defaults).expect("a list");
        assert_eq!((list[0].extents[0], list[1].extents[0]), (0.0, 1.0));
    }

    #[test]
    fn a_box_may_stand_in_one_column() {
        let text = "file,box,resolution,density\na.obj,0 0 -1  1 2 3,,2.6\nb.obj,\"0, 0, 0, 1, 1, 1\",5,\nc.obj,0 0 0 1 1,,\nd.obj,,,\n";
        let list = parsed(text, &Defaults::default()).expect("a list");
        assert_eq!((list[0].extents, list[1].extents), ([0., 0., -1., 1., 2., 3.], [0., 0., 0., 1., 1., 1.]));
        assert_eq!((list[0].density, list[1].resolution), (Some(2.6), Some(5.0)));
        for task in &list[2..] {
            assert!(task.fault.as_ref().is_some_and(|fault| fault.explanation.contains("it needs six")));
        }
        assert!(parsed("file,box,x0\n", &Defaults::default()).is_err_and(|why| why.contains("a column box and others")));
    }

    #[test]
    fn faults_of_the_list_are_told() {
        for (text, told) in [
            ("", "no column"),
            ("file\na.obj\n", "has no column x0"),
            ("file,x0,y0,z0,x1,y1,z1,densty\n", "a column \"densty\""),
            ("file,file\n", "twice"),
            (HEAD, "has no row"),
            ("file,box\na.obj,0 0 0 1 1 1\n\"b.obj,0 0 0 1 1 1\nc.obj,0 0 0 1 1 1\n", "row 2: is a quotation mark not closed?"),
        ] {
            let answer = parsed(text, &Defaults::default());
            assert!(answer.as_ref().is_err_and(|why| why.contains(told)), "{text:?}: {answer:?}");
        }
    }

    #[test]
    fn a_faulty_row_does_not_take_the_others_with_it() {
        let text = format!("{HEAD}a.obj,0,0,0,1,x,3,,,\nb.obj,0,0,0\n,0,0,0,1,1,1,,,\nc.obj,0,0,0,1,1,1,,1;5,\nd.obj,0,0,0,1,1,1,,,\n");
        let list = parsed(&text, &Defaults::default()).expect("a list");
        let faults: Vec<(Option<u64>, String)> =
            list.iter().map(|task| task.fault.as_ref().map_or((None, String::new()), |f| (f.line, f.explanation.clone()))).collect();
        assert_eq!(faults[0], (Some(2), "y1: \"x\" is not a number".into()));
        assert!(faults[1].1.contains("4 cells"));
        assert!(faults[2].1.contains("no file"));
        assert!(faults[3].1.contains("density: \"1;5\""));
        assert_eq!(faults[4], (None, String::new()));
    }
}
