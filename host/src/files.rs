//! Files handed in: only plain files are opened, and only so much of them is read.

use std::fs::{self, File};
use std::io::{self, Read};
use std::path::Path;

/// Opens a plain file. A pipe could be waited for without end, and a device has none.
pub fn open(path: &Path) -> Result<File, String> {
    let cannot = |why: io::Error| format!("cannot be read: {why}");
    plain(&fs::metadata(path).map_err(cannot)?)?;
    let file = open_without_waiting(path).map_err(cannot)?;
    // What stands there may have changed in between.
    plain(&file.metadata().map_err(cannot)?)?;
    Ok(file)
}

#[cfg(unix)]
fn open_without_waiting(path: &Path) -> io::Result<File> {
    use std::os::unix::fs::OpenOptionsExt;
    File::options().read(true).custom_flags(libc::O_NONBLOCK).open(path)
}

#[cfg(not(unix))]
fn open_without_waiting(path: &Path) -> io::Result<File> {
    File::open(path)
}

fn plain(found: &fs::Metadata) -> Result<(), String> {
    if found.is_file() {
        Ok(())
    } else if found.is_dir() {
        Err("cannot be read: it is a folder".into())
    } else {
        Err("is not read: it is a pipe or a device, not a file".into())
    }
}

/// A whole file of at most so many bytes.
pub fn read(path: &Path, most: u64) -> Result<Vec<u8>, String> {
    let mut bytes = Vec::new();
    open(path)?.take(most.saturating_add(1)).read_to_end(&mut bytes).map_err(|why| format!("cannot be read: {why}"))?;
    if bytes.len() as u64 > most {
        return Err(format!("is not read: it is larger than {most} bytes"));
    }
    Ok(bytes)
}

/// The first bytes of an open file.
pub fn start(file: File, most: usize) -> Result<Vec<u8>, String> {
    let mut bytes = Vec::new();
    let read = file.take(most as u64).read_to_end(&mut bytes);
    read.map(|_| bytes).map_err(|why| format!("cannot be read: {why}"))
}

#[cfg(test)]
mod tests {
    use super::*;

    #[test]
    fn folders_devices_and_what_is_absent_are_told() {
        for (path, told) in [("/", "folder"), ("/dev/zero", "device"), ("/no such file", "cannot be read")] {
            let answer = read(Path::new(path), 100);
            assert!(answer.is_err_and(|why| why.contains(told)), "{path}");
        }
    }

    #[test]
    fn more_than_the_bound_is_not_read() {
        let file = tempfile::NamedTempFile::new().expect("a file");
        fs::write(file.path(), "12345").expect("five bytes");
        assert_eq!(read(file.path(), 5), Ok(b"12345".to_vec()));
        assert!(read(file.path(), 4).is_err_and(|why| why.contains("larger than 4")));
    }
}
