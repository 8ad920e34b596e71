//! Nothing that is handed in ends the batch: endless and huge input, pipes, devices, triangulators that print or wait without end.

mod common;
use common::*;
use std::fs::File;
use std::process::Command;
use std::time::Duration;

const LONG: Duration = Duration::from_secs(50);

fn triangulated(folder: &Folder, line: &str, told: &str) {
    // Only those that are to run out of time get little of it, so that a busy machine changes no answer.
    let time = if told.contains("longer") { "2" } else { "60" };
    let run = folder.unit(&["--timeout", time, "--triangulate", line, "square.obj"]);
    folder.not_closed(&run, "failed", &["step triangles", told]);
    assert!(run.time < LONG, "{line}: {:?}", run.time);
}

#[test]
fn a_triangulator_that_prints_without_end_is_ended() {
    triangulated(&Folder::new(), "yes 0 1 2 3", "answered more than 62914560 bytes");
    triangulated(&Folder::new(), "yes >&2", "took longer than 2 seconds");
    triangulated(&Folder::new(), "tr '\\0' x </dev/zero", "answered more than");
}

#[test]
fn a_triangulator_that_hangs_is_ended() {
    triangulated(&Folder::new(), "sleep 1000", "took longer than 2 seconds");
    triangulated(&Folder::new(), "cat triangles; exec >&-; sleep 1000", "took longer than 2 seconds");
}

#[test]
fn a_triangulator_whose_child_holds_its_output_is_ended() {
    triangulated(&Folder::new(), "cat triangles; sleep 1000 & exit 0", "keeps its output open");
    triangulated(&Folder::new(), "setsid sleep 30 & exit 0", "keeps its output open");
}

#[test]
fn a_triangulator_that_fails_or_answers_something_else_is_told_with_the_line() {
    let folder = Folder::new();
    triangulated(&folder, "exit 7", "the triangulator failed (exit status: 7)");
    triangulated(&folder, "printf 'two constraints \\033[31mcross\\n' >&2; exit 1", "two constraints \\u{1b}[31mcross");
    triangulated(&folder, "printf '0 1 2 3\\n0 1 2\\n'", "line 2: of the triangulator's answer: \"0 1 2\" is not four whole numbers");
    triangulated(&folder, "head -c 100000 /dev/zero", "line 1");
    triangulated(&folder, "./no-such-program", "the triangulator failed (exit status: 127)");
}

/// Ended from outside, the command takes its triangulator with it.
#[cfg(target_os = "linux")]
#[test]
fn a_triangulator_does_not_outlive_the_command() {
    let folder = Folder::new();
    let line = "echo $$ >number && exec sleep 1000";
    let words = [&["close"], &UNIT[..], &["--triangulate", line, "square.obj"]].concat();
    let mut child = folder.command(&words).spawn().expect("the command starts");
    let wait = |done: &dyn Fn() -> bool| {
        (0..200).any(|_| {
            done() || {
                std::thread::sleep(Duration::from_millis(50));
                false
            }
        })
    };
    assert!(wait(&|| std::fs::read_to_string(folder.path("number")).is_ok_and(|text| text.ends_with('\n'))));
    let process = format!("/proc/{}/stat", folder.text("number").trim());
    // One that nobody waited for yet stands there as Z.
    let runs = || std::fs::read_to_string(&process).is_ok_and(|text| !text.contains(") Z "));
    assert!(runs());
    child.kill().expect("it is ended");
    child.wait().expect("it has ended");
    assert!(wait(&|| !runs()));
}

/// A pipe that nobody writes to, a device that never ends, a folder: told, not opened.
#[test]
fn only_plain_files_are_read() {
    let folder = Folder::new();
    assert!(Command::new("mkfifo").arg(folder.path("pipe.obj")).status().is_ok_and(|s| s.success()));
    std::os::unix::fs::symlink("/dev/zero", folder.path("zero.obj")).expect("a link");
    std::fs::create_dir(folder.path("folder.obj")).expect("a folder");
    for (mesh, told) in [
        ("pipe.obj", "it is a pipe or a device"),
        ("zero.obj", "it is a pipe or a device"),
        ("folder.obj", "it is a folder"),
        ("absent.obj", "cannot be read"),
    ] {
        let run = folder.close(&[mesh]);
        folder.not_closed(&run, "failed", &["step read", told]);
        assert!(run.time < LONG);
    }
    let run = folder.unit(&["--caps", "pipe.obj", "square.obj"]);
    folder.not_closed(&run, "failed", &["step triangles", "it is a pipe or a device"]);
    folder.run(&["close", "--list", "pipe.obj"]).wrong_use("it is a pipe or a device");
}

#[test]
fn huge_files_are_not_read() {
    let folder = Folder::new();
    let file = File::create(folder.path("huge.obj")).expect("a file");
    file.set_len(300 << 30).expect("a hole");
    folder.not_closed(&folder.close(&["huge.obj"]), "failed", &["step read"]);
    folder.put("line.obj", format!("v 0 0 {}\n", "1".repeat(3_000_000)));
    folder.not_closed(&folder.close(&["line.obj"]), "failed", &["line 1", "longer than 65536 bytes"]);
    let mut many = "# many\n".to_string() + &"v 0 0 0\n".repeat(70_000);
    many += "f 1 2 3\n";
    folder.put("many.obj", many);
    folder.not_closed(&folder.close(&["many.obj"]), "refused", &["2 TooMany, step cut, line 65538: ", "there are 70000 vertices"]);
}

/// More than the memory could hold, if it were kept: 26 million vertices, with 400 MB in all.
#[test]
fn memory_is_bounded() {
    let folder = Folder::new();
    folder.put("many.obj", "v 0 0 0\n".repeat(25 << 20) + "f 1 2 3\n");
    let line = format!("ulimit -v 400000; exec {} close --box 0 0 0 1 1 1 --caps triangles many.obj", env!("CARGO_BIN_EXE_yongpham"));
    let output = Command::new("sh").args(["-c", &line]).current_dir(folder.0.path()).output().expect("the shell");
    let run = Run::new(output, Duration::ZERO);
    folder.not_closed(&run, "refused", &["2 TooMany, step cut, line 65537: "]);
}

#[test]
fn a_batch_goes_on_whatever_happens_to_one_mesh() {
    let folder = Folder::new();
    let line = "case $(head -c 12) in *'face 0 6 7'*) cat triangles;; *) sleep 1000;; esac";
    folder.put("waits.obj", SQUARE.replace("f 1 2 3\nf 1 3 4\n", "v 0 0.5 0.5\nf 1 2 5\nf 2 3 5\nf 5 3 4\n"));
    folder.put("other.obj", SQUARE);
    let run = folder.unit(&["--timeout", "6", "--triangulate", line, "square.obj", "waits.obj", "other.obj"]);
    let states: Vec<String> = folder.summary("summary.csv").into_iter().map(|row| row["state"].clone()).collect();
    assert_eq!((run.status, states.join(" ")), (1, "closed failed closed".into()), "{}", run.out);
}
