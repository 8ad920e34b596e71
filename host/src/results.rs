//! The files that are written: whole or not at all, never over one that was handed in, and never beside a stale one.

use std::fs::{self, File, Permissions};
use std::io::{self, BufWriter, Write};
use std::os::unix::fs::PermissionsExt;
use std::path::{Path, PathBuf};
use tempfile::NamedTempFile;

/// What the results of a mesh may end with.
pub const ENDINGS: [&str; 7] =
    ["positive.obj", "negative.obj", "positive.not-closed.obj", "negative.not-closed.obj", "cleaned.obj", "faces", "caps"];

/// Where files of an earlier run are moved, within the folder.
pub const EARLIER: &str = "earlier";

/// A folder that results go to.
#[derive(Debug)]
pub struct Results {
    folder: PathBuf,
    /// What a new file may be read and written by: everyone, but for those whom the user's mask leaves out.
    mode: u32,
}

/// Files that are written and not yet named.
pub type Written = Vec<(NamedTempFile, PathBuf)>;

impl Results {
    /// Makes the folder. To be called before there are threads: the mask can only be read by setting it.
    pub fn new(folder: &Path) -> Result<Self, String> {
        fs::create_dir_all(folder).map_err(|why| unwritable(folder, &why))?;
        // SAFETY: sets a number of the process and sets it back.
        let mask = unsafe {
            let mask = libc::umask(0o077);
            libc::umask(mask);
            mask
        };
        let results = Results { folder: folder.into(), mode: 0o666 & !mask };
        results.aside("trial", |_| Ok(())).map_err(|why| unwritable(folder, &why))?;
        Ok(results)
    }

    pub fn folder(&self) -> &Path {
        &self.folder
    }

    /// FOLDER/NAME.ENDING.
    pub fn file(&self, name: &str, ending: &str) -> PathBuf {
        self.folder.join(format!("{name}.{ending}"))
    }

    /// Writes a file under a name of no meaning, that nobody else has.
    pub fn aside(&self, purpose: &str, fill: impl FnOnce(&mut dyn Write) -> io::Result<()>) -> io::Result<NamedTempFile> {
        let file = tempfile::Builder::new().prefix(&format!(".{purpose}.")).suffix(".unfinished").tempfile_in(&self.folder)?;
        let mut buffered = BufWriter::new(file.as_file());
        fill(&mut buffered)?;
        buffered.flush()?;
        drop(buffered);
        file.as_file().set_permissions(Permissions::from_mode(self.mode))?;
        Ok(file)
    }

    /// Names the files, all or none: if one cannot be named, those that were are taken back.
    pub fn name(&self, written: Written) -> Result<Vec<PathBuf>, String> {
        let mut named: Vec<PathBuf> = Vec::new();
        for (file, path) in written {
            if let Err(why) = file.persist(&path) {
                for path in named {
                    let _ = fs::remove_file(path);
                }
                return Err(unwritable(&path, &why.error));
            }
            named.push(path);
        }
        Ok(named)
    }

    /// Moves results of an earlier run out of the way, but for those that are to be replaced. Answers what was moved.
    pub fn move_aside(&self, name: &str, but_for: &[PathBuf]) -> Result<Vec<String>, String> {
        let mut moved = Vec::new();
        for ending in ENDINGS {
            let file = self.file(name, ending);
            if !but_for.contains(&file) && self.moved(&file)? {
                moved.push(format!("{name}.{ending}"));
            }
        }
        Ok(moved)
    }

    /// Moves a file aside, if it is there.
    pub fn moved(&self, file: &Path) -> Result<bool, String> {
        if !file.is_file() {
            return Ok(false);
        }
        let failed = |why: io::Error| format!("an earlier {} cannot be moved aside: {why}", crate::text::name(file));
        let earlier = self.folder.join(EARLIER);
        fs::create_dir_all(&earlier).map_err(failed)?;
        let name = file.file_name().unwrap_or_default();
        fs::rename(file, earlier.join(name)).map_err(failed)?;
        Ok(true)
    }

    /// A summary that grows row by row; it gets its name at the end.
    pub fn growing(&self) -> io::Result<NamedTempFile> {
        self.aside("summary", |_| Ok(()))
    }

    pub fn copy_of(file: &NamedTempFile) -> io::Result<File> {
        file.reopen()
    }
}

/// The folder that a file is written to.
pub fn folder_of(file: &Path) -> &Path {
    file.parent().filter(|folder| !folder.as_os_str().is_empty()).unwrap_or(Path::new("."))
}

pub fn unwritable(path: &Path, why: &io::Error) -> String {
    format!("{} cannot be written: {why}", crate::text::name(path))
}

#[cfg(test)]
mod tests {
    use super::*;

    fn folder() -> (tempfile::TempDir, Results) {
        let folder = tempfile::tempdir().expect("a folder");
        let results = Results::new(&folder.path().join("a/b")).expect("a folder in it");
        (folder, results)
    }

    fn put(results: &Results, ending: &str, text: &str) -> Result<Vec<PathBuf>, String> {
        let file = results.aside("x", |file| file.write_all(text.as_bytes())).expect("a file");
        results.name(vec![(file, results.file("pit", ending))])
    }

    fn left(results: &Results) -> Vec<String> {
        let entries = fs::read_dir(results.folder()).expect("the folder");
        let mut names: Vec<String> = entries.flatten().map(|e| e.file_name().to_string_lossy().into_owned()).collect();
        names.sort();
        names
    }

    #[test]
    fn stale_results_are_moved_and_new_ones_stay() {
        let (_keep, results) = folder();
        let new = put(&results, "positive.obj", "new").expect("written");
        put(&results, "negative.obj", "old").expect("written");
        assert_eq!(results.move_aside("pit", &new), Ok(vec!["pit.negative.obj".into()]));
        assert_eq!(left(&results), ["earlier", "pit.positive.obj"]);
        assert_eq!(results.move_aside("pit", &new), Ok(vec![]));
        let aside = results.folder().join("earlier/pit.negative.obj");
        assert_eq!(fs::read_to_string(aside).ok().as_deref(), Some("old"));
    }

    #[test]
    fn what_cannot_be_named_leaves_nothing_behind() {
        let (_keep, results) = folder();
        fs::create_dir(results.file("pit", "negative.obj")).expect("a folder in the way");
        let aside = || results.aside("x", |file| file.write_all(b"x")).expect("a file");
        let written = vec![(aside(), results.file("pit", "positive.obj")), (aside(), results.file("pit", "negative.obj"))];
        assert!(results.name(written).is_err());
        assert_eq!(left(&results), ["pit.negative.obj"]);
        let full = results.aside("x", |_| Err(io::Error::other("no room")));
        assert!(full.is_err());
        assert_eq!(left(&results), ["pit.negative.obj"]);
    }

    #[test]
    fn a_new_file_has_the_modes_that_the_user_gives_new_files() {
        let (_keep, results) = folder();
        put(&results, "faces", "").expect("written");
        let plain = results.folder().join("plain");
        fs::write(&plain, "").expect("written");
        let mode = |path: &Path| fs::metadata(path).map(|m| m.permissions().mode()).ok();
        assert_eq!(mode(&results.file("pit", "faces")), mode(&plain));
    }
}
