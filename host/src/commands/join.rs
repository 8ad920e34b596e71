//! `join`: summaries of parts of a list as the one summary that a single run would have written.

use super::Answer;
use crate::files;
use crate::limits;
use crate::report::COLUMNS;
use crate::results::{folder_of, Results};
use crate::text;
use clap::Args;
use std::collections::BTreeMap;
use std::io::{self, stdout, Write};
use std::path::{Path, PathBuf};

#[derive(Args, Debug)]
pub struct Arguments {
    #[arg(long, value_name = "FILE")]
    out: Option<PathBuf>,
    #[arg(value_name = "SUMMARY.csv", required = true)]
    summaries: Vec<PathBuf>,
}

pub fn run(arguments: &Arguments) -> Answer {
    let mut rows = BTreeMap::new();
    for path in &arguments.summaries {
        take(path, &mut rows).map_err(|why| format!("{} {why}", text::name(path)))?;
    }
    let missing = (1..).zip(rows.keys()).find(|(place, number)| place != *number);
    if let Some((place, _)) = missing {
        return Err(format!("row {place} is in no summary"));
    }
    let all_closed = rows.values().all(|row| row.get(3) == Some("closed"));
    let written = match &arguments.out {
        None => write(&rows, stdout()),
        Some(path) => save(&rows, path)?,
    };
    if let Err(why) = written {
        let _ = writeln!(io::stderr(), "yongpham: the summary cannot be written: {why}");
        return Ok(false);
    }
    Ok(all_closed)
}

type Rows = BTreeMap<usize, csv::StringRecord>;

fn take(path: &Path, rows: &mut Rows) -> Result<(), String> {
    let bytes = files::read(path, limits::LIST)?;
    let mut reader = csv::Reader::from_reader(&bytes[..]);
    let none = |why: csv::Error| format!("is no summary: {}", text::sentence(&why.to_string()));
    if *reader.headers().map_err(none)? != COLUMNS[..] {
        return Err("is no summary: it has other columns".into());
    }
    for record in reader.records() {
        let record = record.map_err(none)?;
        let number = record[0].parse().map_err(|_| format!("is no summary: row {}", text::quoted(&record[0])))?;
        if rows.insert(number, record).is_some() {
            return Err(format!("has row {number}, which another summary has too"));
        }
    }
    Ok(())
}

fn write(rows: &Rows, file: impl Write) -> io::Result<()> {
    let mut writer = csv::Writer::from_writer(file);
    writer.write_record(COLUMNS)?;
    for row in rows.values() {
        writer.write_record(row)?;
    }
    writer.flush()
}

/// A summary that is one of the parts, or no summary, is not overwritten.
fn save(rows: &Rows, path: &Path) -> Result<io::Result<()>, String> {
    let results = Results::new(folder_of(path))?;
    if path.exists() && take(path, &mut Rows::new()).is_err() {
        return Err(format!("{} is no summary of ours and would be overwritten", text::name(path)));
    }
    let file = results.aside("summary", |file| write(rows, file));
    Ok(file.and_then(|file| file.persist(path).map(|_| ()).map_err(|why| why.error)))
}
