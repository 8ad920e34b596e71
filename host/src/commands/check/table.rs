//! The table of `check`: a row a mesh, to a file that is written whole, or to standard output in place of the lines.

use super::one::{Row, COLUMNS};
use crate::files;
use crate::results::{folder_of, Results};
use crate::text;
use std::io::{self, stdout, Write};
use std::path::{Path, PathBuf};

/// Rows so far. A file is written once all are there.
pub struct Table {
    rows: Vec<[String; 14]>,
    /// None: standard output.
    file: Option<(Results, PathBuf)>,
}

/// Whether standard output is meant.
pub fn is_output(path: &Path) -> bool {
    path.as_os_str() == "-"
}

impl Table {
    /// A file that is no such table is not overwritten.
    pub fn new(path: &Path) -> Result<Self, String> {
        if is_output(path) {
            return Ok(Table { rows: vec![], file: None });
        }
        let head = COLUMNS.join(",");
        let start = || files::open(path).and_then(|file| files::start(file, head.len()));
        if path.symlink_metadata().is_ok() && start() != Ok(head.into_bytes()) {
            return Err(format!("{} is no table of ours and would be overwritten", text::name(path)));
        }
        Ok(Table { rows: vec![], file: Some((Results::new(folder_of(path))?, path.into())) })
    }

    pub fn is_on_output(&self) -> bool {
        self.file.is_none()
    }

    pub fn put(&mut self, row: &Row) {
        self.rows.push(row.cells());
    }

    /// Writes all rows, or says why it cannot.
    pub fn end(self) -> Result<(), String> {
        let lost = |why: io::Error| format!("the table cannot be written: {why}");
        let Some((results, path)) = &self.file else {
            return self.write(stdout()).map_err(lost);
        };
        let file = results.aside("table", |file| self.write(file)).map_err(lost)?;
        file.persist(path).map(|_| ()).map_err(|why| lost(why.error))
    }

    fn write(&self, file: impl Write) -> io::Result<()> {
        let mut writer = csv::Writer::from_writer(file);
        writer.write_record(COLUMNS)?;
        for row in &self.rows {
            writer.write_record(row)?;
        }
        writer.flush()
    }
}
