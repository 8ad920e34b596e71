//! A night: many meshes with ten kinds of bad ones among them. Every row says what was put there.

use crate::random::Random;
use crate::runs;
use crate::solids;
use crate::terrain::{Terrain, KINDS};
use std::fs;
use std::path::Path;
use std::process::Command;

/// Every tenth mesh is bad, each kind in turn: its name, and the states that it may be told as.
const BAD: [(&str, &[&str]); 10] = [
    ("turned", &["turned wrong", "open"]),
    ("hole", &["refused"]),
    ("stl", &["failed"]),
    ("blank", &["failed"]),
    ("pipe", &["failed"]),
    ("absent", &["failed"]),
    ("nan", &["refused"]),
    ("index", &["refused"]),
    ("outside", &["empty"]),
    ("flatbox", &["refused"]),
];

pub fn run(count: usize, seed: u64, jobs: usize) {
    let folder = runs::fresh();
    let mut random = Random::new(seed);
    let mut list = String::from("name,file,x0,y0,z0,x1,y1,z1,density\n");
    let mut expected: Vec<(&str, &[&str], [f64; 6])> = Vec::new();
    for place in 0..count {
        let mut terrain = Terrain::with_ground(&mut random, KINDS[place % 4], 30);
        let (kind, states) = if place % 10 == 9 { BAD[place / 10 % 10] } else { ("good", &["closed"][..]) };
        put(folder.path(), place, kind, &mut terrain);
        list += &format!("{kind}{place},m{place}.obj,{},2.6\n", terrain.columns());
        expected.push((kind, states, terrain.extents));
    }
    fs::write(folder.path().join("list.csv"), list).expect("written");
    let (rows, time) = runs::list(folder.path(), &["--jobs", &jobs.to_string(), "--timeout", "20"]);
    assert_eq!(rows.len(), count);
    for (row, (kind, states, extents)) in rows.iter().zip(&expected) {
        runs::check_form(row);
        assert!(states.contains(&row["state"].as_str()), "{kind}: {row:?}");
        if row["state"] == "closed" {
            let told = ["positive_volume", "negative_volume"].map(|column| row[column].parse().expect("a volume"));
            solids::checked_pair(&folder.path().join("solids"), &row["name"], told, extents).unwrap_or_else(|why| panic!("{why}"));
        }
    }
    println!("night: {count} meshes, {jobs} at a time, in {:.1} s; {}", time.as_secs_f64(), runs::states(&rows));
}

/// A facet well inside the box.
fn inner_facet(terrain: &Terrain) -> usize {
    let e = &terrain.extents;
    let inside = |id: &usize| (0..3).all(|axis| e[axis] < terrain.vertices[*id][axis] && terrain.vertices[*id][axis] < e[axis + 3]);
    let best = terrain.facets.iter().enumerate().max_by_key(|(_, facet)| facet.iter().filter(|id| inside(id)).count());
    best.map_or(0, |(place, _)| place)
}

fn put(folder: &Path, place: usize, kind: &str, terrain: &mut Terrain) {
    let file = folder.join(format!("m{place}.obj"));
    let write = |text: &[u8]| fs::write(&file, text).expect("written");
    let inner = inner_facet(terrain);
    match kind {
        "turned" => terrain.facets[inner].swap(1, 2),
        "hole" => drop(terrain.facets.remove(inner)),
        "nan" => terrain.vertices[0][1] = f64::NAN,
        "index" => terrain.facets[inner][0] = 9_999_999,
        "outside" => (terrain.extents[2], terrain.extents[5]) = (1e6, 1e6 + 5.0),
        "flatbox" => terrain.extents[4] = terrain.extents[1],
        _ => {}
    }
    match kind {
        "absent" => {}
        "stl" => write(b"solid pit\nfacet normal 0 0 1\nouter loop\nvertex 0 0 0\n"),
        "blank" => write(b""),
        "pipe" => drop(Command::new("mkfifo").arg(&file).status()),
        _ => write(terrain.obj().as_bytes()),
    }
}
