//! No solid is told as closed that is not: turned facets, open solids, empty ones, wrong triangles.

mod common;
use common::*;

/// Every facet of a terrain turned round, one at a time: none is told as closed, none carries a volume.
#[test]
fn one_facet_turned_round_is_never_closed() {
    if !built_in() {
        return;
    }
    let folder = Folder::new();
    let mut list = String::from("file\n");
    for turned in 0..72 {
        let mut terrain = Terrain::new();
        terrain.facets[turned].swap(1, 2);
        folder.put(&format!("turned{turned}.obj"), terrain.obj());
        list += &format!("turned{turned}.obj\n");
    }
    folder.put("list.csv", list);
    let words = [&["close"], &TERRAIN_BOX[..], &["--density", "2.6", "--list", "list.csv"]].concat();
    let run = folder.run(&words);
    assert_eq!(run.status, 1);
    let rows = folder.summary("summary.csv");
    assert_eq!(rows.len(), 72);
    for row in rows {
        assert!(["turned wrong", "open"].contains(&row["state"].as_str()), "{row:?}");
        assert!(row["where"].contains(" to ("), "{row:?}");
        assert_eq!(row["positive_volume"].len() + row["negative_volume"].len() + row["positive_tonnes"].len(), 0);
    }
    assert!(!folder.has("turned0.positive.obj") && folder.has("turned0.positive.not-closed.obj"));
}

#[test]
fn the_terrain_itself_is_closed_both_ways() {
    if !built_in() {
        return;
    }
    let folder = Folder::new();
    folder.put("terrain.obj", Terrain::new().obj());
    folder.run(&[&["close"], &TERRAIN_BOX[..], &["--density", "2", "terrain.obj"]].concat()).closed();
    let row = folder.row();
    let number = |column: &str| row[column].parse::<f64>().expect("a number");
    assert_eq!(number("positive_volume") + number("negative_volume"), 320_000.0);
    assert_eq!(number("positive_tonnes"), 2.0 * number("positive_volume"));
    assert!(folder.has("terrain.positive.obj") && folder.has("terrain.negative.obj"));
}

/// All facets turned: the surface faces down, and the positive solid is what lies above it. That is a choice, not a fault.
#[test]
fn a_surface_that_faces_down_is_closed_the_other_way_round() {
    if !built_in() {
        return;
    }
    let folder = Folder::new();
    folder.put("square.obj", SQUARE.replace("f 1 2 3\nf 1 3 4", "f 1 3 2\nf 1 4 3").replace("0.5", "0.25"));
    folder.unit(&["square.obj"]).closed();
    assert_eq!((folder.row()["positive_volume"].as_str(), folder.row()["negative_volume"].as_str()), ("0.75", "0.25"));
}

/// Two vertices on face 0 lie in one cell, further than eps apart: cleaning keeps both, and capping takes them for one.
#[test]
fn a_solid_that_is_left_open_is_no_success() {
    let folder = Folder::new();
    let (low, high) = ("0.4996337890625", "0.5003662109375");
    let corners = &SQUARE[..SQUARE.find('f').unwrap_or(0)];
    let between = format!("v 0 {low} {low}\nv 0 {high} {high}\n");
    folder.put("cells.obj", format!("{corners}{between}f 1 2 5\nf 2 6 5\nf 2 3 6\nf 3 4 6\n"));
    let face = "0 5 0 3\n0 4 1 0\n0 6 4 0\n0 3 0 1\n0 6 0 2\n0 5 2 0\n";
    let others = &TRIANGLES[TRIANGLES.find("1 2 1 0").unwrap_or(0)..];
    folder.put("triangles", format!("{face}{others}"));
    let run = folder.close(&["--eps", "0.0009765625", "cells.obj"]);
    folder.not_closed(
        &run,
        "open",
        &["3 edges are borne by one facet only, in 1 component, a ring: (0.0 0.0 0.5) to (0.0 0.4996337890625 0.4996337890625); "],
    );
    assert!(folder.row()["where"].matches(" to ").count() == 3);
}

/// An answer that leaves a triangle out, has one twice or another in its place: whatever comes of it, closed is not, unless the triangles
/// are still the same (the library enters one that stands twice once).
#[test]
fn wrong_triangles_are_never_closed() {
    let folder = Folder::new();
    let lines: Vec<&str> = TRIANGLES.lines().collect();
    let mut wrong = 0;
    for place in 0..lines.len() {
        for instead in ["", &[lines[place]; 2].join("\n"), "0 0 1 2", "0 3 4 5"] {
            let mut answer = lines.clone();
            answer[place] = instead;
            folder.put("triangles", answer.join("\n"));
            let run = folder.close(&["square.obj"]);
            let same = triangles(&answer.join("\n")) == triangles(TRIANGLES);
            assert_eq!(run.status, i32::from(!same), "{place} {instead:?}: {}", run.out);
            wrong += run.status;
        }
    }
    assert!(wrong > 50);
}

/// Face and corners, each triangle once.
fn triangles(answer: &str) -> std::collections::BTreeSet<Vec<&str>> {
    let lines = answer.lines().filter(|line| !line.is_empty());
    lines
        .map(|line| {
            let mut words: Vec<&str> = line.split_whitespace().collect();
            words[1..].sort_unstable();
            words
        })
        .collect()
}

#[test]
fn a_mesh_that_is_closed_already_needs_no_triangulator_and_has_no_other_side() {
    let folder = Folder::new();
    let facets = "f 1 3 2\nf 1 2 4\nf 1 4 3\nf 2 3 4\n";
    let corners = "v .25 .25 .25\nv .75 .25 .25\nv .25 .75 .25\nv .25 .25 .75\n";
    folder.put("solid.obj", format!("{corners}{facets}"));
    folder.unit(&["--triangulate", "exit 1", "solid.obj"]).closed();
    let row = folder.row();
    assert_eq!((row["positive_volume"].as_str(), row["negative_volume"].as_str()), ("0.020833333333333332", ""));
    let run = folder.unit(&["--triangulate", "exit 1", "--mode", "negative", "solid.obj"]);
    folder.not_closed(&run, "failed", &["the surface is closed already"]);
    let inward = "f 1 2 3\nf 1 4 2\nf 1 3 4\nf 2 4 3\n";
    folder.put("solid.obj", format!("{corners}{inward}"));
    let run = folder.unit(&["--triangulate", "exit 1", "solid.obj"]);
    folder.not_closed(&run, "turned wrong", &["below 0: its facets face inward"]);
}

#[test]
fn an_empty_solid_is_no_success() {
    let folder = Folder::new();
    folder.put("above.obj", SQUARE.replace("0.5", "7"));
    folder.not_closed(&folder.close(&["above.obj"]), "empty", &["step cut: no part of the surface lies in the box"]);
    folder.put("single.obj", "v 0 0 .5\nv 1 0 .5\nv 1 1 .5\nf 1 2 3\n");
    folder.not_closed(&folder.close(&["single.obj"]), "empty", &["step cleaned: nothing is left"]);
}

/// Two pits through the floor of the box, and between them a saddle that touches it along an edge: four facets meet there, two each way.
#[test]
fn a_solid_that_touches_itself_is_told_with_the_edge() {
    if !built_in() {
        return;
    }
    let folder = Folder::new();
    let mut terrain = Terrain { vertices: vec![], facets: vec![] };
    for (x, z) in [(0.0, 0.5), (0.2, -0.2), (0.4, 0.0), (0.6, 0.0), (0.8, -0.2), (1.0, 0.5)] {
        terrain.vertices.extend([[x, 0.0, 0.5], [x, 0.5, z], [x, 1.0, 0.5]]);
    }
    for low in [0, 1, 3, 4, 6, 7, 9, 10, 12, 13] {
        terrain.facets.extend([[low, low + 3, low + 4], [low, low + 4, low + 1]]);
    }
    folder.put("saddle.obj", terrain.obj());
    let run = folder.unit(&["saddle.obj"]);
    let edge = "1 edge is borne by two facets or more each way: the solid touches itself there";
    folder.not_closed(&run, "turned wrong", &[edge, "(0.4 0.5 0.0) to (0.6 0.5 0.0)"]);
    folder.run(&["close", "--box", "0", "0", "0.03125", "1", "1", "1", "saddle.obj"]).closed();
}

/// A sloping ground that meets the box's lower edge: with a fine grid a grid point lies inside an open edge along that side.
#[test]
fn ground_at_a_side_closes_without_a_resolution_and_names_the_cause_with_one() {
    if !built_in() {
        return;
    }
    let folder = Folder::new();
    folder.put("slope.obj", "v 0 0 0\nv 1 0 0.5\nv 1 1 0.5\nv 0 1 0\nf 1 2 3\nf 1 3 4\n");
    folder.unit(&["slope.obj"]).closed();
    assert_eq!(folder.row()["positive_volume"], "0.25");
    let run = folder.unit(&["--resolution", "0.25", "slope.obj"]);
    let cause = "the cause is --resolution: the surface runs along a side of the box from (0.0 ";
    folder.not_closed(&run, "failed", &[cause, "without --resolution there is none"]);
}

/// The volume does not depend on the grid.
#[test]
fn the_resolution_changes_no_volume() {
    if !built_in() {
        return;
    }
    let folder = Folder::new();
    folder.put("terrain.obj", Terrain::new().obj());
    let mut volumes = Vec::new();
    for resolution in [&[][..], &["--resolution", "7"], &["--resolution", "1.5"]] {
        folder.run(&[&["close"], &TERRAIN_BOX[..], resolution, &["terrain.obj"]].concat()).closed();
        volumes.push(folder.row()["positive_volume"].parse::<f64>().expect("a volume"));
    }
    assert!(volumes.iter().all(|v| (v - volumes[0]).abs() <= 1e-12 * 320_000.0), "{volumes:?}");
}
