//! Lists: a row a mesh, done in parts and by several at a time, with the same summary.

mod common;
use common::*;

/// Squares at several heights, and one of each kind that is not closed.
fn list(folder: &Folder) -> usize {
    let head = "name,file,x0,y0,z0,x1,y1,z1,resolution,density\n";
    let row = |name: &str, file: &str, corners: &str| format!("{name},{file},{corners},,2.5\n");
    let mut list = head.to_string();
    for place in 0..6 {
        let file = format!("s{place}.obj");
        folder.put(&file, SQUARE.replace("0.5", &format!("0.{}", place + 1)));
        list += &row("", &file, "0,0,0,1,1,1");
    }
    folder.put("past.obj", SQUARE.replace("f 1 3 4", "f 1 3 5"));
    folder.put("words.obj", "hello\n");
    list += &row("north", "s1.obj", "0,0,0,1,1,1");
    list += &row("", "past.obj", "0,0,0,1,1,1");
    list += &row("", "words.obj", "0,0,0,1,1,1");
    list += &row("flat", "s1.obj", "0,0,0,1,1,0");
    list += &row("number", "s1.obj", "0,0,0,1,one,1");
    list += &row("above", "s1.obj", "0,0,5,1,1,6");
    list += &row("north", "s2.obj", "0,0,0,1,1,1");
    list += &row("", "absent.obj", "0,0,0,1,1,1");
    folder.put("leases.csv", list);
    14
}

const CLOSE: [&str; 5] = ["close", "--list", "leases.csv", "--triangulate", "cat triangles"];

#[test]
fn every_row_says_exactly_one_thing() {
    let folder = Folder::new();
    let rows = list(&folder);
    let run = folder.run(&[&CLOSE[..], &["--out", "solids"]].concat());
    assert_eq!(run.status, 1);
    let summary = folder.summary("solids/summary.csv");
    let states: Vec<&str> = summary.iter().map(|row| row["state"].as_str()).collect();
    let closed = ["closed"; 7];
    let others = ["refused", "failed", "refused", "failed", "empty", "failed", "failed"];
    assert_eq!(states, [&closed[..], &others].concat());
    assert_eq!(run.out.lines().count(), rows + 1);
    for (place, row) in summary.iter().enumerate() {
        assert_eq!(row["row"], (place + 1).to_string());
        let closed = row["state"] == "closed";
        for column in ["positive_volume", "negative_volume", "positive_tonnes", "negative_tonnes"] {
            assert_eq!(!row[column].is_empty(), closed, "{row:?}");
        }
        assert_eq!(!row["step"].is_empty(), !closed);
    }
    assert_eq!(summary[0]["positive_tonnes"], "0.25");
    assert_eq!((summary[9]["number"].as_str(), summary[9]["value"].as_str()), ("5", "0.0 0.0"));
    assert_eq!((summary[10]["line"].as_str(), summary[10]["value"].as_str()), ("12", "\"one\""));
    // Told before the first mesh as well.
    for told in ["row 10, ", "row 11, ", "row 13, ", "row 14, absent.obj: there is no such file"] {
        assert!(run.err.contains(told), "{}", run.err);
    }
}

#[test]
fn jobs_change_neither_the_summary_nor_the_order() {
    let folder = Folder::new();
    list(&folder);
    let one = folder.run(&[&CLOSE[..], &["--out", "one"]].concat());
    let four = folder.run(&[&CLOSE[..], &["--out", "four", "--jobs", "4"]].concat());
    assert_eq!(folder.text("one/summary.csv"), folder.text("four/summary.csv"));
    assert_eq!(one.out.replace("in one", ""), four.out.replace("in four", ""));
    for name in ["s0.positive.obj", "north.negative.obj"] {
        assert_eq!(folder.text(&format!("one/{name}")), folder.text(&format!("four/{name}")));
    }
}

#[test]
fn parts_join_into_the_same_summary() {
    let folder = Folder::new();
    list(&folder);
    folder.run(&[&CLOSE[..], &["--out", "whole"]].concat());
    // A part may be told as longer than the list.
    for rows in ["9-20", "1-5", "6-8"] {
        folder.run(&[&CLOSE[..], &["--out", "parts", "--rows", rows]].concat());
    }
    let parts = ["parts/summary.9-20.csv", "parts/summary.1-5.csv", "parts/summary.6-8.csv"];
    let run = folder.run(&[&["join", "--out", "parts/summary.csv"], &parts[..]].concat());
    assert_eq!((run.status, run.err.as_str()), (1, ""));
    assert_eq!(folder.text("parts/summary.csv"), folder.text("whole/summary.csv"));
    assert_eq!(folder.run(&[&["join"], &parts[..]].concat()).out, folder.text("whole/summary.csv"));
    let closed = folder.run(&["join", parts[1]]);
    assert_eq!(closed.status, 0);
    folder.run(&["join", parts[0], parts[1]]).wrong_use("row 6 is in no summary");
    folder.run(&["join", parts[1], parts[1]]).wrong_use("row 1, which another summary has too");
    folder.run(&["join", "leases.csv"]).wrong_use("is no summary");
    folder.run(&[&["join", "--out", "leases.csv"], &parts[..]].concat()).wrong_use("is no summary of ours");
}

#[test]
fn a_list_that_cannot_be_understood_is_wrong_use() {
    let folder = Folder::new();
    list(&folder);
    folder.put("bad.csv", "file,x0,y0,z0,x1,y1,z1,densty\n");
    let close = |words: &[&str]| folder.run(&[&["close", "--triangulate", "true"], words].concat());
    close(&["--list", "bad.csv"]).wrong_use("a column \"densty\"");
    close(&["--list", "absent.csv"]).wrong_use("cannot be read");
    close(&["--list", "leases.csv", "--rows", "15-20"]).wrong_use("the list has 14 rows");
    close(&["--list", "leases.csv", "--rows", "0-2"]).wrong_use("counted from 1");
    close(&["--list", "leases.csv", "square.obj"]).wrong_use("cannot be used with");
    close(&["--rows", "1-2", "square.obj"]).wrong_use("--list");
}

/// A second night: what was closed is replaced, what is refused now is moved aside, the old summary too.
#[test]
fn nothing_of_the_night_before_is_taken_for_tonights() {
    let folder = Folder::new();
    list(&folder);
    let words = [&CLOSE[..], &["--out", "solids"]].concat();
    folder.run(&words);
    let before = folder.text("solids/summary.csv");
    folder.put("s3.obj", "v nan 0 0\nf 1 1 1\n");
    folder.run(&words);
    let row = &folder.summary("solids/summary.csv")[3];
    assert_eq!((row["state"].as_str(), row["moved_aside"].as_str()), ("refused", "s3.positive.obj s3.negative.obj"));
    assert!(!folder.has("solids/s3.positive.obj") && folder.has("solids/s2.positive.obj"));
    assert_eq!(folder.text("solids/earlier/summary.csv"), before);
}
