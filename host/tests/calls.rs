//! How it is called: one mesh and many alike, where results go, what is never overwritten, what a lost report means.

mod common;
use common::*;
use std::process::Stdio;

#[test]
fn one_mesh_needs_a_box_and_nothing_else() {
    if !built_in() {
        return;
    }
    let folder = Folder::new();
    folder.unit(&["square.obj"]).closed();
    assert_eq!(folder.text("square.positive.obj").matches("\nf ").count(), 12);
    assert_eq!((folder.row()["positive_volume"].as_str(), folder.row()["negative_volume"].as_str()), ("0.5", "0.5"));
}

#[test]
fn one_mesh_and_several_report_alike() {
    let folder = Folder::new();
    folder.put("other.obj", SQUARE);
    folder.close(&["square.obj"]).closed();
    let (one, line) = (folder.text("summary.csv"), folder.close(&["square.obj"]).out);
    let run = folder.unit(&["--triangulate", "cat triangles", "square.obj", "other.obj"]);
    run.closed();
    assert!(folder.text("summary.csv").starts_with(&one));
    assert_eq!(run.out.lines().next(), line.lines().next());
    assert_eq!(run.out.lines().next(), Some("square.obj: closed: positive volume 0.5; negative volume 0.5"));
}

#[test]
fn the_sample_is_closed_without_a_word() {
    let folder = Folder::new();
    let run = folder.run(&["sample", "--out", "a/b", "--steps"]);
    run.closed();
    for step in ["read", "eps", "cut", "cleaned", "candidates", "triangles", "positive", "negative", "together"] {
        assert!(run.out.lines().any(|line| line.starts_with(step)), "{step}: {}", run.out);
    }
    assert!(folder.has("a/b/sample.positive.obj") && folder.has("a/b/sample.negative.obj"));
    assert_eq!(folder.summary("a/b/summary.csv")[0]["state"], "closed");
}

#[test]
fn results_go_to_the_current_folder_or_where_it_is_said() {
    let folder = Folder::new();
    folder.close(&["square.obj"]).closed();
    assert!(folder.has("square.positive.obj") && folder.has("summary.csv"));
    folder.close(&["--out", "there", "--mode", "negative", "square.obj"]).closed();
    assert!(folder.has("there/square.negative.obj") && !folder.has("there/square.positive.obj"));
    let left: Vec<_> = std::fs::read_dir(folder.path("there")).expect("the folder").flatten().map(|e| e.file_name()).collect();
    assert_eq!(left.len(), 2, "{left:?}");
}

#[test]
fn a_refused_mesh_leaves_no_stale_solid_beside_it() {
    let folder = Folder::new();
    folder.close(&["--save-caps", "square.obj"]).closed();
    folder.put("square.obj", SQUARE.replace("f 1 3 4", "f 1 3 5"));
    let run = folder.close(&["square.obj"]);
    folder.not_closed(&run, "refused", &["; moved aside: square.positive.obj square.negative.obj square.caps"]);
    assert_eq!(folder.row()["moved_aside"], "square.positive.obj square.negative.obj square.caps");
    assert!(!folder.has("square.positive.obj") && folder.has("earlier/square.positive.obj"));
    // Closed again, but only one way: yesterday's other solid would be stale too.
    folder.put("square.obj", SQUARE);
    folder.close(&["square.obj"]).closed();
    folder.close(&["--mode", "positive", "square.obj"]).closed();
    assert!(folder.has("square.positive.obj") && !folder.has("square.negative.obj"));
    assert_eq!(folder.row()["moved_aside"], "square.negative.obj");
}

#[test]
fn nothing_that_is_handed_in_is_overwritten() {
    let folder = Folder::new();
    folder.put("mesh.faces", SQUARE);
    folder.close(&["--save-faces", "mesh.faces"]).wrong_use("would overwrite ./mesh.faces, which is handed in");
    folder.put("square.positive.obj", SQUARE);
    let run = folder.unit(&["--triangulate", "cat triangles", "square.obj", "square.positive.obj"]);
    run.wrong_use("would overwrite ./square.positive.obj");
    folder.put("summary.csv", "file,x0,y0,z0,x1,y1,z1\nsquare.obj,0,0,0,1,1,1\n");
    folder.run(&["close", "--list", "summary.csv", "--triangulate", "true"]).wrong_use("summary.csv is handed in");
    folder.put("square.obj", SQUARE);
    folder.run(&[&["close"], &UNIT[..], &CAPS, &["--out", "x", "--picture", "square.obj", "square.obj"]].concat()).wrong_use(".svg");
    std::fs::create_dir(folder.path("y")).expect("a folder");
    folder.put("y/summary.csv", "my own table\n");
    folder.close(&["--out", "y", "square.obj"]).wrong_use("is no summary of ours");
    assert_eq!((folder.text("mesh.faces").as_str(), folder.text("y/summary.csv").as_str()), (SQUARE, "my own table\n"));
}

#[test]
fn names_of_unfinished_files_are_nobodys() {
    let folder = Folder::new();
    folder.put("square.positive.obj.part", SQUARE);
    folder.close(&["square.positive.obj.part", "--out", "."]).closed();
    assert_eq!(folder.text("square.positive.obj.part"), SQUARE);
}

/// The work is done, but nobody learns of it: that is no success.
#[test]
fn a_lost_report_is_no_success() {
    let folder = Folder::new();
    let full = std::fs::File::options().write(true).open("/dev/full").expect("/dev/full");
    let words = [&["close"], &UNIT[..], &CAPS, &["square.obj"]].concat();
    let output = folder.command(&words).stdout(full).output().expect("the command starts");
    assert_eq!(output.status.code(), Some(1));
    assert!(String::from_utf8_lossy(&output.stderr).contains("the report is lost"));
    assert!(folder.has("square.positive.obj"));
    let mut child = folder.command(&words).stdout(Stdio::piped()).stderr(Stdio::null()).spawn().expect("the command starts");
    drop(child.stdout.take());
    assert_eq!(child.wait().ok().and_then(|status| status.code()), Some(1));
}

#[test]
fn a_bad_box_is_found_once_and_before_the_first_mesh() {
    let folder = Folder::new();
    for (corners, told) in [
        (["0", "0", "0", "1", "0", "1"], "along y it runs from 0.0 to 0.0"),
        (["0", "0", "nan", "1", "1", "1"], "a box corner is NaN"),
        (["0", "0", "0", "1", "1", "3e9"], "a box corner is 3000000000.0"),
    ] {
        let run = folder.run(&[&["close", "--box"], &corners[..], &CAPS, &["square.obj"]].concat());
        run.wrong_use(told);
        assert_eq!((run.err.lines().count(), run.out.as_str()), (1, ""));
    }
    folder.close(&["--resolution", "0.001", "square.obj"]).wrong_use("along x there would be 1000 of 0.001");
    folder.close(&["--resolution", "-1", "square.obj"]).wrong_use("the resolution is -1.0");
    folder.close(&["--eps", "2", "square.obj"]).wrong_use("eps is 2.0");
    folder.close(&["--density", "0", "square.obj"]).wrong_use("the density is 0.0");
    assert!(!folder.has("summary.csv"));
}

#[test]
fn wrong_use_has_a_status_of_its_own() {
    let folder = Folder::new();
    folder.put("other.obj", SQUARE);
    folder.run(&["close", "--caps", "triangles", "square.obj"]).wrong_use("--box is needed");
    folder.run(&["close", "--what"]).wrong_use("--what");
    folder.run(&["clothe"]).wrong_use("clothe");
    folder.run(&[]).wrong_use("");
    folder.close(&["square.obj", "other.obj"]).wrong_use("for one mesh");
    folder.close(&[]).wrong_use("no mesh is named");
    folder.close(&["--triangulate", "true", "square.obj"]).wrong_use("cannot be used with");
    folder.close(&["--timeout", "0", "square.obj"]).wrong_use("--timeout");
    folder.close(&["--jobs", "0", "square.obj"]).wrong_use("--jobs");
    folder.close(&["--out", "square.obj", "square.obj"]).wrong_use("cannot be written");
    let twins = ["--triangulate", "cat triangles", "square.obj", "./square.obj"];
    folder.unit(&twins).wrong_use("the same files as row 1's");
    for words in [&["--help"][..], &["close", "--help"], &["join", "-h"]] {
        let help = folder.run(words);
        assert_eq!((help.status, help.err.as_str()), (0, ""));
        assert!(help.out.contains("Exit status: 0"));
    }
}

#[test]
fn what_passes_to_the_triangulator_can_be_kept() {
    let folder = Folder::new();
    let words = ["--triangulate", "cat >seen && cat triangles", "--save-faces", "--save-caps", "square.obj"];
    folder.unit(&words).closed();
    assert_eq!(folder.text("seen"), folder.text("square.faces"));
    assert_eq!(folder.text("square.caps"), TRIANGLES);
    assert!(folder.text("seen").starts_with("face 0 6 7\n1.0 0.5\n"));
}

#[test]
fn a_mesh_can_be_cut_alone() {
    let folder = Folder::new();
    folder.put("hole.obj", SQUARE.replace("v 0 0 0.5", "v 0.25 0.25 0.5"));
    let run = folder.run(&[&["cut"], &UNIT[..], &["--save-faces", "square.obj", "hole.obj"]].concat());
    run.closed();
    assert!(run.out.starts_with("square.obj: cut: 4 vertices, 2 facets, 4 open edges; ./square.cleaned.obj, ./square.faces\n"));
    assert!(folder.text("square.faces").contains("\nface 5 4 4\n") && folder.has("hole.cleaned.obj"));
    folder.put("bad.obj", "f 1 2\n");
    let run = folder.run(&[&["cut"], &UNIT[..], &["square.obj", "bad.obj"]].concat());
    assert_eq!(run.status, 1);
    assert!(run.out.contains("bad.obj: failed: step read, line 1"), "{}", run.out);
}

#[test]
fn a_picture_shows_caps_and_open_edges() {
    let folder = Folder::new();
    folder.close(&["--picture", "square.svg", "square.obj"]).closed();
    let picture = folder.text("square.svg");
    assert!(picture.starts_with("<svg ") && picture.contains("cap YMin") && !picture.contains("open edges"));
    folder.put("hole.obj", SQUARE.replace("v 0 0 0.5", "v 0.25 0.25 0.5"));
    assert_eq!(folder.close(&["--picture", "hole.svg", "hole.obj"]).status, 1);
    assert!(folder.text("hole.svg").contains(">2 open edges<"));
    folder.close(&["--picture", "square.jpg", "square.obj"]).wrong_use("neither in .svg nor in .png");
}
