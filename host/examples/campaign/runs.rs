//! The command, run on lists and on single meshes.

use std::collections::HashMap;
use std::fs;
use std::path::{Path, PathBuf};
use std::process::{Command, Stdio};
use std::time::{Duration, Instant};

pub type Row = HashMap<String, String>;

/// The command: beside the folder that this program stands in.
pub fn command() -> PathBuf {
    let own = std::env::current_exe().expect("a program has a place");
    own.ancestors().skip(1).map(|folder| folder.join("yongpham")).find(|path| path.is_file()).expect("the command is built")
}

/// Runs a list and answers its rows and the time.
pub fn list(folder: &Path, more: &[&str]) -> (Vec<Row>, Duration) {
    let start = Instant::now();
    let output = Command::new(command())
        .args(["close", "--list", "list.csv", "--out", "solids"])
        .args(more)
        .current_dir(folder)
        .stdin(Stdio::null())
        .output()
        .expect("the command starts");
    let time = start.elapsed();
    let complaint = String::from_utf8_lossy(&output.stderr);
    assert!(matches!(output.status.code(), Some(0 | 1)), "{:?}: {complaint}", output.status);
    assert!(!complaint.contains("panicked"), "{complaint}");
    (rows(&folder.join("solids/summary.csv")), time)
}

/// One mesh with an answer from a file.
pub fn with_answer(folder: &Path, box_words: &[String], mesh: &str, answer: &str) -> Row {
    let output = Command::new(command())
        .args(["close", "--box"])
        .args(box_words)
        .args(["--out", "solids", "--caps", answer, mesh])
        .current_dir(folder)
        .stdin(Stdio::null())
        .output()
        .expect("the command starts");
    let complaint = String::from_utf8_lossy(&output.stderr);
    assert!(matches!(output.status.code(), Some(0 | 1)), "{:?}: {complaint}", output.status);
    assert!(!complaint.contains("panicked"), "{complaint}");
    let mut rows = rows(&folder.join("solids/summary.csv"));
    assert_eq!(rows.len(), 1);
    let row = rows.remove(0);
    assert_eq!(row["state"] == "closed", output.status.success(), "{row:?}");
    row
}

fn rows(summary: &Path) -> Vec<Row> {
    let mut reader = csv::Reader::from_path(summary).expect("a summary");
    reader.deserialize().map(|row| row.expect("a row")).collect()
}

/// Every row says exactly one thing, and only a closed one has volumes.
pub fn check_form(row: &Row) {
    const STATES: [&str; 6] = ["closed", "open", "turned wrong", "empty", "refused", "failed"];
    assert!(STATES.contains(&row["state"].as_str()), "{row:?}");
    let closed = row["state"] == "closed";
    assert_eq!(!row["positive_volume"].is_empty(), closed, "{row:?}");
    assert_eq!(row["explanation"].is_empty(), closed, "{row:?}");
    assert_ne!(row["step"], "inside", "a fault of the command: {row:?}");
    assert!(row["explanation"].len() < 2000 && row.values().all(|cell| !cell.contains(|c: char| c.is_control())), "{row:?}");
}

/// How often each state stands in rows.
pub fn states(rows: &[Row]) -> String {
    let mut counts: HashMap<String, usize> = HashMap::new();
    for row in rows {
        let number = if row["number"].is_empty() { String::new() } else { format!(" {}", row["number"]) };
        let step = if row["state"] == "failed" { format!(" at {}", row["step"]) } else { String::new() };
        *counts.entry(format!("{}{number}{step}", row["state"])).or_insert(0) += 1;
    }
    let mut told: Vec<String> = counts.into_iter().map(|(state, count)| format!("{state} {count}")).collect();
    told.sort();
    told.join(", ")
}

/// A folder with an empty one for results.
pub fn fresh() -> tempfile::TempDir {
    let folder = tempfile::tempdir().expect("a folder");
    fs::create_dir(folder.path().join("solids")).expect("a folder in it");
    folder
}
