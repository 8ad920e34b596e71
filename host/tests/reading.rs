//! What is read and what is told of what is not: kinds of files, lines, values; nothing raw and nothing long.

mod common;
use common::*;

fn unread(folder: &Folder, name: &str, bytes: impl AsRef<[u8]>, told: &[&str]) {
    folder.put(name, bytes);
    let run = folder.close(&[name]);
    folder.not_closed(&run, "failed", &[&["step read"], told].concat());
    assert!(run.out.chars().all(|c| c == '\n' || !c.is_control()), "{:?}", run.out);
    assert!(run.out.len() < 1000, "{}", run.out.len());
}

#[test]
fn a_file_that_is_no_obj_is_no_mesh_and_its_kind_is_named() {
    let folder = Folder::new();
    let mut stl = vec![0; 84 + 12 * 50];
    stl[80] = 12;
    let wide: Vec<u8> = SQUARE.encode_utf16().flat_map(u16::to_le_bytes).collect();
    let marked = [b"\xff\xfe".to_vec(), wide.clone()].concat();
    let mut seed = 1u64;
    let noise: Vec<u8> = (0..5000)
        .map(|_| {
            seed = seed.wrapping_mul(6364136223846793005).wrapping_add(1442695040888963407);
            (seed >> 56) as u8
        })
        .collect();
    for (name, bytes, told) in [
        ("binary.stl", stl, "it looks like a binary STL file of 12 facets"),
        ("text.stl", b"solid pit\n facet normal 0 0 1\n  outer loop\n".to_vec(), "it looks like a text STL file"),
        ("off.off", b"OFF\n4 2 0\n0 0 0\n".to_vec(), "it looks like an OFF file"),
        ("wide.obj", wide, "it looks like text in UTF-16"),
        ("marked.obj", marked, "it looks like text in UTF-16"),
        ("noise.obj", noise, "it looks like a binary file"),
        ("empty.obj", vec![], "the file is empty"),
    ] {
        unread(&folder, name, bytes, &["no mesh: ", told, "an OBJ file is needed"]);
    }
    unread(&folder, "words.obj", "# nothing\n", &["no mesh: it has no vertex"]);
    unread(&folder, "points.obj", "v 0 0 0\nv 1 0 0\n", &["no mesh: it has vertices, but no facet"]);
    unread(&folder, "letter.obj", "Dear Sir,\n", &["line 1: \"Dear\" begins no line of an OBJ file"]);
}

/// Each of these was passed over in silence once, and all later numbers named the wrong vertices.
#[test]
fn a_vertex_spelt_otherwise_is_told_and_a_mark_in_front_is_not_in_the_way() {
    let folder = Folder::new();
    folder.put("marked.obj", format!("\u{feff}{SQUARE}"));
    folder.close(&["marked.obj"]).closed();
    assert_eq!(folder.row()["positive_volume"], "0.5");
    unread(&folder, "large.obj", SQUARE.replace("v 1 0", "V 1 0"), &["line 2: \"V\" begins no line", "in small letters"]);
    unread(&folder, "space.obj", SQUARE.replace("v 1 0", "v\u{a0}1 0"), &["line 2: \"v\\u{a0}1\" begins no line"]);
    unread(&folder, "inner.obj", SQUARE.replace("v 1 0", "v 1\u{a0}0"), &["line 2: \"1\\u{a0}0\" is not a number"]);
    unread(&folder, "comma.obj", SQUARE.replace("0.5", "0,5"), &["line 1: \"0,5\" is not a number"]);
}

#[test]
fn notes_behind_a_facet_are_no_corners() {
    let folder = Folder::new();
    folder.put("noted.obj", SQUARE.replace("f 1 2 3", "f 1 2 3 # note"));
    folder.close(&["noted.obj"]).closed();
    unread(&folder, "quad.obj", SQUARE.replace("f 1 2 3", "f 1 2 3 4"), &["line 5: a face has 4 corners; only triangles are read"]);
}

#[test]
fn refusals_name_the_line_the_vertex_and_the_value() {
    let folder = Folder::new();
    let many = "f 1 2 3\n".repeat(65_537);
    for (name, text, told) in [
        ("facets.obj", format!("{SQUARE}{many}"), "2 TooMany, step cut, line 65541: "),
        ("past.obj", SQUARE.replace("f 1 3 4", "f 1 3 5"), "3 BadIndex, step cut, line 6: "),
        ("past.obj", SQUARE.replace("f 1 3 4", "f 1 3 5"), "facet 2 names vertex 5, and there are 4"),
        ("zero.obj", SQUARE.replace("f 1 3 4", "f 1 0 4"), "facet 2 names vertex \"0\", and there are 4"),
        ("nan.obj", SQUARE.replace("v 1 1 0.5", "v 1 nan 0.5"), "4 BadNumber, step cut, line 3: "),
        ("nan.obj", SQUARE.replace("v 1 1 0.5", "v 1 nan 0.5"), "y of vertex 3 is NaN"),
        ("large.obj", SQUARE.replace("v 1 1 0.5", "v 1 1 2e9"), "z of vertex 3 is 2000000000.0"),
        ("inner.obj", SQUARE.replace("v 0 0 0.5", "v 0.25 0.25 0.5"), "9 OpenEdge, step candidates: "),
        ("inner.obj", SQUARE.replace("v 0 0 0.5", "v 0.25 0.25 0.5"), "(0.25 0.25 0.5) to (1.0 0.0 0.5)"),
    ] {
        folder.put(name, text);
        folder.not_closed(&folder.close(&[name]), "refused", &[told]);
    }
    let row = folder.row();
    assert_eq!((row["step"].as_str(), row["number"].as_str(), row["value"].as_str()), ("candidates", "9", "0 1"));
}

#[test]
fn refusals_of_an_answer_name_its_line() {
    let folder = Folder::new();
    folder.put("triangles", format!("# by hand\n{}", TRIANGLES.replace("1 2 1 0\n", "1 2 1 6\n")));
    folder.not_closed(&folder.close(&["square.obj"]), "refused", &["10 BadCap, step positive, line 6: "]);
    assert_eq!(folder.row()["value"], "4");
    folder.put("triangles", TRIANGLES.replace("0 3 1 0\n0 2 0 1\n", ""));
    let told = ["11 MissingEdge, step positive, line 1: ", "on face 0 (XMin)", "stand in lines 1 to 2", "(0.0 1.0 0.5) to (0.0 0.0 0.5)"];
    folder.not_closed(&folder.close(&["square.obj"]), "refused", &told);
    folder.put("triangles", "");
    folder.not_closed(&folder.close(&["square.obj"]), "refused", &["the answer has no triangle for that face"]);
}

/// A word of a file and the name of a file are told escaped and cut.
#[test]
fn quoted_words_are_neither_raw_nor_long() {
    let folder = Folder::new();
    let word = format!("\x1b]0;title{}", "x".repeat(60_000));
    unread(&folder, "escape.obj", SQUARE.replace("v 1 0", &format!("v {word}")), &["\"\\u{1b}]0;titlexxx"]);
    std::fs::create_dir(folder.path("new\nline \x1b[31m")).expect("a folder");
    unread(&folder, "new\nline \x1b[31m/pit.obj", "v 0 0\n", &["new\\nline \\u{1b}[31m/pit.obj: failed", "line 1"]);
    assert_eq!(folder.text("summary.csv").lines().count(), 2);
    folder.put("bell\x07.obj", SQUARE);
    let run = folder.close(&["bell\x07.obj"]);
    run.wrong_use("\"bell\\u{7}\" cannot name files");
}
