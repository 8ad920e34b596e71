//! The command as a user calls it: files in, files out, exit statuses.
#![allow(dead_code)]

use std::collections::HashMap;
use std::fs;
use std::path::{Path, PathBuf};
use std::process::{Command, Output, Stdio};
use std::time::{Duration, Instant};

/// A square at half the height of the unit box, facing up.
pub const SQUARE: &str = "v 0 0 0.5\nv 1 0 0.5\nv 1 1 0.5\nv 0 1 0.5\nf 1 2 3\nf 1 3 4\n";

/// Two triangles below the square and two above it on each side face, two on top and bottom.
pub const TRIANGLES: &str = "\
0 3 1 0\n0 2 0 1\n0 5 3 0\n0 4 0 2\n1 2 1 0\n1 5 3 1\n1 3 0 1\n1 4 1 2\n\
2 2 1 0\n2 5 3 1\n2 3 0 1\n2 4 1 2\n3 3 1 0\n3 2 0 1\n3 5 3 0\n3 4 0 2\n\
4 2 1 0\n4 3 1 2\n5 2 1 0\n5 3 1 2\n";

pub const UNIT: [&str; 7] = ["--box", "0", "0", "0", "1", "1", "1"];
pub const CAPS: [&str; 2] = ["--caps", "triangles"];

/// A folder of its own for each test, with the square and its triangles in it.
pub struct Folder(pub tempfile::TempDir);

impl Folder {
    pub fn new() -> Self {
        let folder = Folder(tempfile::tempdir().expect("a folder for the test"));
        folder.put("square.obj", SQUARE);
        folder.put("triangles", TRIANGLES);
        folder
    }

    pub fn path(&self, name: &str) -> PathBuf {
        self.0.path().join(name)
    }

    pub fn put(&self, name: &str, bytes: impl AsRef<[u8]>) {
        fs::write(self.path(name), bytes).expect("a file for the test");
    }

    pub fn text(&self, name: &str) -> String {
        fs::read_to_string(self.path(name)).unwrap_or_else(|why| panic!("{name}: {why}"))
    }

    pub fn has(&self, name: &str) -> bool {
        self.path(name).exists()
    }

    pub fn command(&self, words: &[&str]) -> Command {
        let mut command = Command::new(env!("CARGO_BIN_EXE_yongpham"));
        command.args(words).current_dir(self.0.path()).stdin(Stdio::null());
        command
    }

    pub fn run(&self, words: &[&str]) -> Run {
        let start = Instant::now();
        let output = self.command(words).output().expect("the command starts");
        Run::new(output, start.elapsed())
    }

    /// `close` with the unit box.
    pub fn unit(&self, words: &[&str]) -> Run {
        self.run(&[&["close"], &UNIT[..], words].concat())
    }

    /// `close` of the unit box with the stored triangles.
    pub fn close(&self, words: &[&str]) -> Run {
        self.unit(&[&CAPS[..], words].concat())
    }

    pub fn summary(&self, name: &str) -> Vec<HashMap<String, String>> {
        let mut reader = csv::Reader::from_path(self.path(name)).expect("a summary");
        reader.deserialize().map(|row| row.expect("a row")).collect()
    }

    /// The one row of summary.csv.
    #[track_caller]
    pub fn row(&self) -> HashMap<String, String> {
        let mut rows = self.summary("summary.csv");
        assert_eq!(rows.len(), 1);
        rows.remove(0)
    }

    /// One mesh that is not closed: status 1, the state, and a part of what is told of it.
    #[track_caller]
    pub fn not_closed(&self, run: &Run, state: &str, told: &[&str]) {
        assert_eq!(run.status, 1, "{}{}", run.out, run.err);
        let row = self.row();
        assert_eq!(row["state"], state, "{}", run.out);
        assert_eq!((row["positive_volume"].as_str(), row["positive_tonnes"].as_str()), ("", ""));
        for part in told {
            assert!(run.out.contains(part), "{part}: {}", run.out);
        }
    }
}

pub struct Run {
    pub status: i32,
    pub out: String,
    pub err: String,
    pub time: Duration,
}

impl Run {
    pub fn new(output: Output, time: Duration) -> Self {
        Run {
            status: output.status.code().unwrap_or(-1),
            out: String::from_utf8_lossy(&output.stdout).into_owned(),
            err: String::from_utf8_lossy(&output.stderr).into_owned(),
            time,
        }
    }

    #[track_caller]
    pub fn closed(&self) {
        assert_eq!((self.status, self.err.as_str()), (0, ""), "{}", self.out);
    }

    #[track_caller]
    pub fn wrong_use(&self, told: &str) {
        assert_eq!(self.status, 2, "{}{}", self.out, self.err);
        assert!(self.err.contains(told), "{told}: {}", self.err);
    }
}

/// Whether the built-in triangulator is there. It is to be, unless the machine has no CGAL and ./test says so.
pub fn built_in() -> bool {
    let beside = Path::new(env!("CARGO_BIN_EXE_yongpham")).with_file_name("yongpham-triangulate");
    let without = std::env::var_os("YONGPHAM_WITHOUT_TRIANGULATOR").is_some();
    assert!(beside.is_file() || without, "{} is not built", beside.display());
    beside.is_file()
}

/// A terrain of 72 facets that face up, over the box (0, 0, 0) to (80, 80, 50) and out of its four sides.
pub struct Terrain {
    pub vertices: Vec<[f64; 3]>,
    pub facets: Vec<[usize; 3]>,
}

pub const TERRAIN_BOX: [&str; 7] = ["--box", "0", "0", "0", "80", "80", "50"];

impl Terrain {
    /// A sheet at half the height of the unit box, of 65,522 facets: the library takes it, and with caps it has more than the library takes.
    pub fn large() -> Terrain {
        let mut terrain = Terrain { vertices: vec![], facets: vec![] };
        for place in 0..182 * 182 {
            let (i, j) = (place / 182, place % 182);
            terrain.vertices.push([i as f64 / 181.0, j as f64 / 181.0, 0.5]);
            if i < 181 && j < 181 {
                terrain.facets.extend([[place, place + 182, place + 183], [place, place + 183, place + 1]]);
            }
        }
        terrain
    }

    pub fn new() -> Self {
        let mut terrain = Terrain { vertices: vec![], facets: vec![] };
        for i in 0..7 {
            for j in 0..7 {
                let (x, y) = (-5.0 + 15.0 * i as f64, -5.0 + 15.0 * j as f64);
                let height = 20.0 + (7 * i + 5 * j + i * j) as f64 % 11.0;
                terrain.vertices.push([x, y, height]);
            }
        }
        for i in 0..6 {
            for j in 0..6 {
                let corner = |a: usize, b: usize| 7 * (i + a) + j + b;
                terrain.facets.push([corner(0, 0), corner(1, 0), corner(1, 1)]);
                terrain.facets.push([corner(0, 0), corner(1, 1), corner(0, 1)]);
            }
        }
        terrain
    }

    pub fn obj(&self) -> String {
        let vertices = self.vertices.iter().map(|[x, y, z]| format!("v {x} {y} {z}\n"));
        let facets = self.facets.iter().map(|f| format!("f {} {} {}\n", f[0] + 1, f[1] + 1, f[2] + 1));
        vertices.chain(facets).collect()
    }
}
