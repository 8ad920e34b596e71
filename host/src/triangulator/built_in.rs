//! Where the built-in triangulator stands: beside the command, where ./run builds it.

use std::env;
use std::path::PathBuf;

/// The program's name.
pub const PROGRAM: &str = "yongpham-triangulate";

/// What to do where it is not.
pub const MISSING: &str = "the built-in triangulator is not built: it needs a C++ compiler and CGAL (on Debian: \
apt-get install g++ libcgal-dev), and ./run then builds it; or name a triangulator of your own with --triangulate";

/// The program, if it is there. YONGPHAM_TRIANGULATOR may name another place.
pub fn find() -> Option<PathBuf> {
    if let Some(named) = env::var_os("YONGPHAM_TRIANGULATOR") {
        return Some(PathBuf::from(named)).filter(|path| path.is_file());
    }
    let command = env::current_exe().ok()?;
    // Cargo runs tests from a folder below the one that the command stands in.
    command.ancestors().skip(1).take(2).map(|folder| folder.join(PROGRAM)).find(|path| path.is_file())
}
