//! The caller's ceiling: what it admits, what it turns down and in which words, and that it changes nothing else.

mod common;
use common::*;

/// All of these are the office's ceiling.
const OFFICE: [&[&str]; 4] = [&[], &["--ceiling", "65536"], &["--ceiling", "65537"], &["--ceiling", "18446744073709551615"]];

/// The subcommands that hand a mesh to the library.
const CALLS: [&[&str]; 3] = [
    &["close", "--box", "0", "0", "0", "1", "1", "1", "square.obj"],
    &["cut", "--box", "0", "0", "0", "1", "1", "1", "square.obj"],
    &["sample"],
];

const MEANING: &str = "more vertices or facets than the ceiling (65,536 at most), or over 1,048,576 cap triangles; ";
const OUTSIDE: &str = "what lies well outside the box may be left out";
const TO_OFFICE: &str = "the office, without --handheld or --ceiling, takes up to 65536";

/// The square, with vertices that no facet uses and facets that stand there several times. Cut it has the same counts, cleaned it is the square.
fn square(vertices: usize, facets: usize) -> String {
    let (corners, pair) = SQUARE.split_at(SQUARE.find('f').expect("a facet"));
    let unused = "v 0.5 0.5 0.5\n".repeat(vertices - 4);
    format!("{corners}{unused}{pair}{}", "f 1 2 3\n".repeat(facets - 2))
}

/// Files of a run of `close`: their names and bytes.
fn files(folder: &Folder, out: &str) -> Vec<(String, Vec<u8>)> {
    let entries = std::fs::read_dir(folder.path(out)).expect("the folder");
    let name = |entry: std::fs::DirEntry| entry.file_name().to_string_lossy().into_owned();
    let mut names: Vec<String> = entries.flatten().map(name).collect();
    names.sort();
    let bytes = |name: &String| std::fs::read(folder.path(out).join(name)).expect("a file");
    names.iter().map(|name| (name.clone(), bytes(name))).collect()
}

/// Status, both outputs and the files of a run in a folder of its own.
type Whole = (i32, String, String, Vec<(String, Vec<u8>)>);

fn whole(mesh: &str, words: &[&str]) -> Whole {
    let folder = Folder::new();
    folder.put("mesh.obj", mesh);
    let run = folder.close(&[words, &["--steps", "--save-faces", "--out", "out", "mesh.obj"]].concat());
    (run.status, run.out, run.err, files(&folder, "out"))
}

/// A refusal 2 of mesh.obj: the line on standard output, whole, and the row.
#[track_caller]
fn too_many(mesh: &str, words: &[&str], [step, line, value]: [&str; 3], told: &str) {
    let folder = Folder::new();
    folder.put("mesh.obj", mesh);
    let run = folder.close(&[words, &["mesh.obj"]].concat());
    folder.not_closed(&run, "refused", &[]);
    let at = if line.is_empty() { String::new() } else { format!(", line {line}") };
    let first = format!("mesh.obj: refused: 2 TooMany, step {step}{at}: {MEANING}{told}");
    assert_eq!((run.out.lines().next(), run.err.as_str()), (Some(first.as_str()), ""));
    let row = folder.row();
    assert_eq!(["step", "number", "line", "value"].map(|column| row[column].as_str()), [step, "2", line, value]);
    assert_eq!(row["explanation"], format!("{MEANING}{told}"));
    assert!(!folder.has("mesh.positive.obj") && !folder.has("mesh.positive.not-closed.obj"));
}

#[test]
fn no_ceiling_named_is_the_offices_and_a_higher_one_is_too() {
    for (mesh, status) in
        [(square(4, 2), 0), (square(4, 65_536), 0), (square(65_536, 2), 0), (square(4, 65_537), 1), (square(65_537, 2), 1)]
    {
        let [first, others @ ..] = OFFICE.map(|words| whole(&mesh, words));
        assert_eq!(first.0, status, "{}", first.1);
        assert!(first.1.contains("\nceiling     65536, the office's\n"), "{}", first.1);
        assert_eq!(first.3.len(), if status == 0 { 4 } else { 1 });
        for (other, words) in others.iter().zip(&OFFICE[1..]) {
            assert!(*other == first, "{words:?}: {}{}", other.1, other.2);
        }
    }
}

#[test]
fn up_to_the_ceiling_is_admitted_and_one_more_is_not() {
    for (vertices, facets, ceiling) in [(4, 2, "4"), (4, 9, "9"), (9, 2, "9"), (9, 9, "9"), (4, 4096, "4096"), (4096, 2, "4096")] {
        let (status, out, ..) = whole(&square(vertices, facets), &["--ceiling", ceiling]);
        assert_eq!(status, 0, "{vertices} {facets} {ceiling}: {out}");
    }
    let advice = format!("{TO_OFFICE}; {OUTSIDE}");
    let small = ["--ceiling", "8"];
    too_many(&square(9, 8), &small, ["cut", "9", "9"], &format!("there are 9 vertices, and the ceiling is 8; {advice}"));
    too_many(&square(8, 9), &small, ["cut", "17", "9"], &format!("there are 9 facets, and the ceiling is 8; {advice}"));
    too_many(&square(10, 11), &small, ["cut", "9", "10"], &format!("there are 10 vertices and 11 facets, and the ceiling is 8; {advice}"));
}

#[test]
fn the_handheld_takes_4096() {
    assert_eq!(whole(&square(4096, 4096), &["--handheld"]).0, 0);
    let told = |over: &str, office: &str| format!("there are {over}, and the ceiling is 4096, the handheld's; {office}; {OUTSIDE}");
    too_many(&square(4, 4097), &["--handheld"], ["cut", "4101", "4097"], &told("4097 facets", TO_OFFICE));
    too_many(&square(4097, 2), &["--handheld"], ["cut", "4097", "4097"], &told("4097 vertices", TO_OFFICE));
    too_many(&square(4, 65_536), &["--handheld"], ["cut", "4101", "65536"], &told("65536 facets", TO_OFFICE));
    let neither = "that is too many for the office too, which takes up to 65536";
    too_many(&square(4, 65_537), &["--handheld"], ["cut", "4101", "65537"], &told("65537 facets", neither));
}

/// More vertices and facets than are kept of a file are counted all the same.
#[test]
fn the_office_says_that_no_ceiling_is_higher() {
    let told = |over: &str| format!("there are {over}, and the ceiling is 65536, the office's; no ceiling is higher; {OUTSIDE}");
    too_many(&square(4, 65_537), &[], ["cut", "65541", "65537"], &told("65537 facets"));
    too_many(&square(70_000, 80_000), &["--ceiling", "70000"], ["cut", "65537", "70000"], &told("70000 vertices and 80000 facets"));
}

#[test]
fn a_ceiling_of_0_admits_nothing() {
    let told = |over: &str| format!("there are {over}, and the ceiling is 0; {TO_OFFICE}; {OUTSIDE}");
    too_many(SQUARE, &["--ceiling", "0"], ["cut", "1", "4"], &told("4 vertices and 2 facets"));
    too_many("v 0 0 0\nf 1 1 1\n", &["--ceiling", "0"], ["cut", "1", "1"], &told("1 vertex and 1 facet"));
}

/// 49 vertices and 72 facets; those that the box cuts become several.
#[test]
fn a_mesh_that_grows_past_the_ceiling_as_it_is_cut_is_told_so() {
    let folder = Folder::new();
    folder.put("terrain.obj", Terrain::new().obj());
    let cut = |ceiling: &str| folder.run(&[&["cut"], &TERRAIN_BOX[..], &["--ceiling", ceiling, "terrain.obj"]].concat());
    let run = cut("72");
    assert_eq!(run.status, 1);
    let start = format!("terrain.obj: refused: 2 TooMany, step cleaned: {MEANING}the mesh handed in was within the ceiling, but once it is cut to the box there are ");
    let end = format!(
        ", and the ceiling is 72; {TO_OFFICE}; a facet that the box cuts becomes several, with vertices of their own, so a coarser surface or a smaller box gives fewer\n"
    );
    let counts = run.out.strip_prefix(&start).and_then(|rest| rest.strip_suffix(&end));
    let counts = counts.unwrap_or_else(|| panic!("{}", run.out));
    let words: Vec<&str> = counts.split(' ').collect();
    let [vertices, "vertices", "and", facets, "facets"] = words[..] else { panic!("{counts}") };
    assert!(!folder.has("terrain.cleaned.obj"));
    // The counts are those that the ceiling must admit.
    let most = [vertices, facets].map(|count| count.parse::<u64>().expect("a count")).into_iter().max().unwrap_or(0);
    assert_eq!(cut(&(most - 1).to_string()).status, 1);
    cut(&most.to_string()).closed();
    // One less than was handed in is turned down before it is cut.
    assert!(cut("71").out.contains("2 TooMany, step cut, line 121: "), "{}", cut("71").out);
}

/// Ceilings that admit a mesh at every step give the same files, and so does the office.
#[test]
fn the_ceiling_changes_no_result() {
    let office = whole(SQUARE, &[]);
    for ceiling in ["4", "5", "8", "11", "12", "4096", "65535"] {
        let (status, out, err, files) = whole(SQUARE, &["--ceiling", ceiling]);
        assert_eq!((status, err.as_str()), (0, ""), "{ceiling}: {out}");
        assert!(out.contains(&format!("\nceiling     {ceiling}")), "{out}");
        assert!(files == office.3, "{ceiling}");
    }
    assert_eq!(office.3.len(), 4);
}

/// The solids of the square have 8 vertices and 12 facets.
#[test]
fn a_solid_over_the_ceiling_is_a_warning_and_no_failure() {
    let folder = Folder::new();
    let lines = |words: &[&str]| {
        let run = folder.close(&[words, &["square.obj"]].concat());
        run.closed();
        run.out.lines().map(String::from).collect::<Vec<_>>()
    };
    let warning = |ceiling: &str, over: &str, fewer: &str| {
        let told = format!("the positive solid has {over}, the negative solid has {over}");
        let written = "written all the same, since the ceiling is for what is handed in";
        format!("square.obj: warning: over the ceiling ({ceiling}): {told}; {written}; {TO_OFFICE}; {fewer} gives fewer")
    };
    let closed = "square.obj: closed: positive volume 0.5; negative volume 0.5";
    let last = "1 of 1 closed, 1 with a warning; solids and summary.csv in .";
    let fewer = "a coarser surface or a smaller box";
    assert_eq!(lines(&["--ceiling", "11"]), [closed, &warning("11", "12 facets", fewer), last]);
    assert_eq!(lines(&["--ceiling", "7"]), [closed, &warning("7", "8 vertices and 12 facets", fewer), last]);
    let fewer = "a coarser surface, a coarser resolution or a smaller box";
    assert_eq!(lines(&["--ceiling", "8", "--resolution", "1"])[1], warning("8", "12 facets", fewer));
    for fits in [&[][..], &["--handheld"], &["--ceiling", "12"]] {
        assert_eq!(lines(fits), [closed, "1 of 1 closed; solids and summary.csv in ."]);
    }
}

/// The office's own: 65,522 facets are admitted, and with their caps they are over it.
#[test]
fn a_solid_over_the_offices_ceiling_is_told_too() {
    if !built_in() {
        return;
    }
    let folder = Folder::new();
    let terrain = Terrain::large();
    folder.put("large.obj", terrain.obj());
    for words in [&[][..], &["--ceiling", "18446744073709551615"]] {
        let run = folder.unit(&[words, &["--mode", "positive", "large.obj"]].concat());
        run.closed();
        let solid = folder.text("large.positive.obj");
        let facets = solid.lines().filter(|line| line.starts_with("f ")).count();
        assert!(facets > 65_536);
        let told = format!(
            "large.obj: warning: over the ceiling (65536, the office's): the positive solid has {facets} facets; written all the same"
        );
        assert!(run.out.contains(&told) && run.out.contains("; no ceiling is higher; a coarser surface or a smaller box"), "{}", run.out);
    }
}

/// A solid that is not closed is written to be looked at, and is no smaller for it. One that could not be written is not told of.
#[test]
fn a_warning_is_about_what_was_written() {
    let folder = Folder::new();
    folder.put("turned.obj", SQUARE.replace("f 1 3 4", "f 1 4 3"));
    let run = folder.close(&["--ceiling", "4", "--mode", "positive", "turned.obj"]);
    folder.not_closed(
        &run,
        "turned wrong",
        &["\nturned.obj: warning: over the ceiling (4): the positive solid has ", "0 of 1 closed, 1 with a warning"],
    );
    std::fs::create_dir(folder.path("square.positive.obj")).expect("a folder in the way");
    let run = folder.close(&["--ceiling", "4", "square.obj"]);
    folder.not_closed(&run, "failed", &["step written"]);
    assert!(!run.out.contains("warning"), "{}", run.out);
}

/// The terrain of the sample has no lines, and 6,144 facets.
#[test]
fn the_sample_has_a_ceiling_too() {
    let folder = Folder::new();
    let run = folder.run(&["sample", "--handheld", "--steps"]);
    let told = format!("there are 6144 facets, and the ceiling is 4096, the handheld's; {TO_OFFICE}; {OUTSIDE}");
    folder.not_closed(
        &run,
        "refused",
        &["ceiling     4096, the handheld's\n", &format!("the sample: refused: 2 TooMany, step cut: {MEANING}{told}\n")],
    );
    folder.run(&["sample", "--ceiling", "6143"]);
    assert_eq!((folder.row()["step"].as_str(), folder.row()["value"].as_str()), ("cut", "6144"));
    folder.run(&["sample", "--ceiling", "65536"]).closed();
}

/// One ceiling for all rows; the rows that it admits are done.
#[test]
fn a_list_has_one_ceiling() {
    let folder = Folder::new();
    folder.put("large.obj", square(4, 4097));
    folder.put("leases.csv", "file,x0,y0,z0,x1,y1,z1\nlarge.obj,0,0,0,1,1,1\nsquare.obj,0,0,0,1,1,1\n");
    let close = |words: &[&str]| folder.run(&[&["close", "--list", "leases.csv", "--triangulate", "cat triangles"], words].concat());
    let run = close(&["--handheld"]);
    let states: Vec<String> = folder.summary("summary.csv").into_iter().map(|row| row["state"].clone()).collect();
    assert_eq!((run.status, states.join(" ")), (1, "refused closed".into()), "{}", run.out);
    close(&["--ceiling", "4097"]).closed();
    folder.put("leases.csv", "file,x0,y0,z0,x1,y1,z1,ceiling\nsquare.obj,0,0,0,1,1,1,7\n");
    close(&[]).wrong_use("a column \"ceiling\"");
}

#[test]
fn a_ceiling_is_a_whole_number_in_digits() {
    let folder = Folder::new();
    for call in CALLS {
        for wrong in ["-1", "+1", "many", "4,096", "4096.0", "4e3", "0x1000", "nan", "18446744073709551616", "99999999999999999999999"] {
            let run = folder.run(&[call, &["--ceiling", wrong]].concat());
            // The first words are clap's, and differ between its versions.
            run.wrong_use(&format!(
                "alue '{wrong}' for '--ceiling <N>': a ceiling is a whole number from 0 to 18446744073709551615, in digits alone"
            ));
            assert_eq!(run.out, "");
        }
        for wrong in [&["--ceiling"][..], &["--ceiling", ""], &["--ceiling", "5", "--ceiling", "5"]] {
            folder.run(&[call, wrong].concat()).wrong_use("'--ceiling <N>'");
        }
    }
    assert!(!folder.has("summary.csv") && !folder.has("square.cleaned.obj"));
}

#[test]
fn the_handheld_and_another_ceiling_are_not_both_meant() {
    let folder = Folder::new();
    for call in CALLS {
        for other in ["0", "4095", "4097", "65536", "18446744073709551615"] {
            let run = folder.run(&[call, &["--handheld", "--ceiling", other]].concat());
            run.wrong_use(&format!("--handheld is --ceiling 4096, and --ceiling {other} is given too; give one of them"));
            assert_eq!(run.out, "");
        }
    }
    assert!(!folder.has("summary.csv") && !folder.has("square.cleaned.obj"));
    for mesh in [square(4, 4096), square(4, 4097)] {
        let both = whole(&mesh, &["--handheld", "--ceiling", "4096"]);
        assert!(both == whole(&mesh, &["--handheld"]) && both == whole(&mesh, &["--ceiling", "4096"]), "{}", both.1);
    }
}
