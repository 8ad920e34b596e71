//! The meshes of a call, with everything that is known of each before the first is begun.

use crate::library::Extents;
use crate::outcome::Trouble;
use crate::results::{Results, ENDINGS};
use crate::text;
use std::collections::{HashMap, HashSet};
use std::fs;
use std::path::{Path, PathBuf};

/// A mesh to be done.
#[derive(Clone, Debug, PartialEq)]
pub struct Task {
    /// Its row, from 1.
    pub number: usize,
    /// What its results are named after.
    pub name: String,
    /// None: the sample.
    pub file: Option<PathBuf>,
    pub extents: Extents,
    pub resolution: Option<f64>,
    pub density: Option<f64>,
    /// Found before anything was done.
    pub fault: Option<Trouble>,
}

impl Task {
    /// The file as it is told.
    pub fn told(&self) -> String {
        self.file.as_deref().map_or("the sample".into(), text::name)
    }
}

/// The name that a mesh's results get unless one is given: the file's, without its ending.
pub fn default_name(file: &Path) -> String {
    file.file_stem().unwrap_or_default().to_string_lossy().into_owned()
}

/// Longest name of a mesh, so that with its ending it is a file's.
const LONGEST: usize = 200;

/// Why a name cannot be a file's.
pub fn bad_name(name: &str) -> bool {
    name.is_empty() || name.len() > LONGEST || name.starts_with('.') || name.chars().any(|c| c == '/' || c == '\\' || c.is_control())
}

/// Marks tasks whose results would meet others' or something that was handed in.
pub fn mark_conflicts(tasks: &mut [Task], handed_in: &[&Path], results: &Results) {
    let real = |path: &Path| fs::canonicalize(path).ok();
    let files = tasks.iter().filter_map(|task| task.file.as_deref());
    let inputs: HashSet<PathBuf> = files.chain(handed_in.iter().copied()).filter_map(real).collect();
    let mut seen: HashMap<String, usize> = HashMap::new();
    for task in tasks {
        let fault = if bad_name(&task.name) {
            let why = format!("{} cannot name files; give a name", text::quoted(&task.name));
            Some(why)
        } else if let Some(other) = seen.insert(task.name.clone(), task.number) {
            Some(format!("its results would be written to the same files as row {other}'s: {}; give them names", text::quoted(&task.name)))
        } else {
            let over = ENDINGS.map(|ending| results.file(&task.name, ending));
            let lost = over.into_iter().find(|path| real(path).is_some_and(|path| inputs.contains(&path)));
            lost.map(|path| format!("a result would overwrite {}, which is handed in", text::name(&path)))
        };
        if let Some(why) = fault {
            task.fault.get_or_insert(Trouble::at("name", why));
        }
    }
}

#[cfg(test)]
mod tests {
    use super::*;

    fn task(number: usize, file: &Path) -> Task {
        Task { number, name: default_name(file), file: Some(file.into()), extents: [0.0; 6], resolution: None, density: None, fault: None }
    }

    #[test]
    fn results_that_would_meet_are_told() {
        let folder = tempfile::tempdir().expect("a folder");
        let results = Results::new(folder.path()).expect("a folder");
        let [a, faces, twin] = ["pit.obj", "pit.faces", "x/pit.obj"].map(|name| folder.path().join(name));
        fs::write(&a, "").expect("written");
        fs::write(&faces, "").expect("written");
        let told = |files: &[&Path]| {
            let mut tasks: Vec<Task> = (1..).zip(files).map(|(n, file)| task(n, file)).collect();
            mark_conflicts(&mut tasks, &[], &results);
            tasks.into_iter().map(|t| t.fault.map(|f| f.explanation).unwrap_or_default()).collect::<Vec<_>>().join("|")
        };
        assert_eq!(told(&[&a]), "");
        assert!(told(&[&faces]).contains("would overwrite"));
        assert!(told(&[&a, &twin]).contains("|its results would be written to the same files as row 1's"));
        assert!(told(&[Path::new("/")]).contains("cannot name files"));
    }
}
