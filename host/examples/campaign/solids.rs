//! Solids looked at again, by other code than the command's: a reader and an edge count of this program's own, and CGAL.

use std::collections::HashMap;
use std::fs;
use std::io::Write;
use std::path::{Path, PathBuf};
use std::process::{Command, Stdio};

/// Why a written solid is not closed; nothing if it is. And its volume, summed plainly from the box's corner.
pub fn looked_at(file: &Path, corner: [f64; 3]) -> Result<f64, String> {
    let text = fs::read_to_string(file).map_err(|why| format!("{}: {why}", file.display()))?;
    let (mut points, mut sides, mut sum) = (Vec::<[f64; 3]>::new(), HashMap::new(), 0.0);
    for line in text.lines() {
        let words: Vec<&str> = line.split(' ').collect();
        let number = |place: usize| words[place].parse::<f64>().map_err(|why| format!("{line}: {why}"));
        match words[0] {
            "v" => points.push([number(1)? - corner[0], number(2)? - corner[1], number(3)? - corner[2]]),
            _ => {
                let facet = [number(1)? as usize, number(2)? as usize, number(3)? as usize];
                for (from, to) in [(0, 1), (1, 2), (2, 0)] {
                    *sides.entry((facet[from], facet[to])).or_insert(0) += 1;
                }
                let [a, b, c] = facet.map(|id| points[id - 1]);
                sum += a[0] * (b[1] * c[2] - b[2] * c[1]) + a[1] * (b[2] * c[0] - b[0] * c[2]) + a[2] * (b[0] * c[1] - b[1] * c[0]);
            }
        }
    }
    for ((a, b), count) in &sides {
        if a == b || *count != 1 || sides.get(&(*b, *a)) != Some(&1) {
            return Err(format!("{}: the edge {a} {b} is not sound", file.display()));
        }
    }
    Ok(sum / 6.0)
}

/// A closed mesh of the summary: both solids sound, their volumes as told, each within the box and both together the box.
pub fn checked_pair(folder: &Path, name: &str, told: [f64; 2], extents: &[f64; 6]) -> Result<(), String> {
    let corner = [extents[0], extents[1], extents[2]];
    let whole = (extents[3] - extents[0]) * (extents[4] - extents[1]) * (extents[5] - extents[2]);
    for (solid, told) in ["positive", "negative"].into_iter().zip(told) {
        let volume = looked_at(&folder.join(format!("{name}.{solid}.obj")), corner)?;
        let off = (volume - told).abs() / whole;
        if off > 1e-9 || told < -1e-9 * whole || told > whole * (1.0 + 1e-9) {
            return Err(format!("{name}: {solid} is told as {told}, and has {volume} in a box of {whole}"));
        }
    }
    let off = (told[0] + told[1] - whole).abs() / whole;
    if off > 1e-9 {
        return Err(format!("{name}: together {}, the box {whole}", told[0] + told[1]));
    }
    Ok(())
}

/// The program of check.cpp, which looks at solids with CGAL; built if it can be and is not yet.
pub fn cgal() -> Option<PathBuf> {
    let source = Path::new(env!("CARGO_MANIFEST_DIR")).join("examples/campaign/check.cpp");
    let program = crate::runs::command().with_file_name("yongpham-check");
    let time = |path: &Path| fs::metadata(path).and_then(|found| found.modified()).ok();
    if time(&program) > time(&source) {
        return Some(program);
    }
    let words = ["-O2", "-std=c++17", "-frounding-math", "-lmpfr", "-lgmp", "-o"];
    let built = Command::new("g++").arg(source).args(words).arg(&program).stderr(Stdio::null()).status();
    built.is_ok_and(|status| status.success()).then_some(program)
}

/// What CGAL says of each file: whether it bounds a volume, and its exact volume, rounded.
pub fn by_cgal(program: &Path, files: &[PathBuf]) -> Vec<(bool, f64)> {
    let mut child = Command::new(program).stdin(Stdio::piped()).stdout(Stdio::piped()).spawn().expect("the checker starts");
    let mut pipe = child.stdin.take().expect("its input");
    let names: String = files.iter().map(|file| format!("{}\n", file.display())).collect();
    let writer = std::thread::spawn(move || pipe.write_all(names.as_bytes()));
    let output = child.wait_with_output().expect("its answer");
    let _ = writer.join();
    let text = String::from_utf8_lossy(&output.stdout).into_owned();
    let answers: Vec<(bool, f64)> = text
        .lines()
        .map(|line| {
            let (state, volume) = line.split_once(' ').expect("a state and a volume");
            (state == "closed", volume.parse().expect("a volume"))
        })
        .collect();
    assert_eq!(answers.len(), files.len(), "CGAL answers for every file");
    answers
}
