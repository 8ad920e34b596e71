//! Mutated meshes: no panic, no hang, and no solid told as closed that is not.

use crate::random::Random;
use crate::runs::{self, Row};
use crate::solids;
use crate::terrain::{Terrain, KINDS};
use std::fs;
use std::time::Duration;

/// Meshes of one list.
const BATCH: usize = 500;

pub fn run(count: usize, seed: u64) {
    let mut random = Random::new(seed);
    let (mut all, mut time, mut done) = (Vec::new(), Duration::ZERO, 0);
    while done < count {
        let batch = BATCH.min(count - done);
        let (rows, took) = one_batch(batch, &mut random);
        time += took;
        done += batch;
        all.extend(rows);
    }
    println!("mutated meshes: {count} in {:.1} s; {}; every closed one looked at again", time.as_secs_f64(), runs::states(&all));
}

fn one_batch(count: usize, random: &mut Random) -> (Vec<Row>, Duration) {
    let folder = runs::fresh();
    let mut list = String::from("file,x0,y0,z0,x1,y1,z1\n");
    let mut boxes = Vec::new();
    for place in 0..count {
        let kind = *random.one_of(&KINDS);
        let terrain = Terrain::random(random, kind, 9);
        fs::write(folder.path().join(format!("m{place}.obj")), mutated(&terrain, random)).expect("written");
        list += &format!("m{place}.obj,{}\n", terrain.columns());
        boxes.push(terrain.extents);
    }
    fs::write(folder.path().join("list.csv"), list).expect("written");
    let (rows, time) = runs::list(folder.path(), &["--timeout", "20"]);
    assert_eq!(rows.len(), count);
    for (row, extents) in rows.iter().zip(&boxes) {
        runs::check_form(row);
        if row["state"] == "closed" && !row["negative_volume"].is_empty() {
            let told = ["positive_volume", "negative_volume"].map(|column| row[column].parse().expect("a volume"));
            let kept = folder.path().join(&row["file"]);
            solids::checked_pair(&folder.path().join("solids"), &row["name"], told, extents)
                .unwrap_or_else(|why| panic!("{why}\n{}", fs::read_to_string(&kept).unwrap_or_default()));
        } else if row["state"] == "closed" {
            let file = folder.path().join("solids").join(format!("{}.positive.obj", row["name"]));
            solids::looked_at(&file, [extents[0], extents[1], extents[2]]).unwrap_or_else(|why| panic!("{why}"));
        }
    }
    (rows, time)
}

/// One to four changes.
fn mutated(terrain: &Terrain, random: &mut Random) -> Vec<u8> {
    let mut terrain = terrain.clone();
    let changes = 1 + random.below(4);
    for _ in 0..changes {
        if random.below(2) == 0 {
            change_mesh(&mut terrain, random);
        }
    }
    let mut bytes = terrain.obj().into_bytes();
    for _ in 0..changes {
        match random.below(4) {
            0 => change_bytes(&mut bytes, random),
            1 => change_line(&mut bytes, random),
            _ => {}
        }
    }
    bytes
}

/// The mesh stays one that can be written.
fn change_mesh(terrain: &mut Terrain, random: &mut Random) {
    let (facet, vertex) = (random.below(terrain.facets.len()), random.below(terrain.vertices.len()));
    let other = random.below(terrain.vertices.len());
    let axis = random.below(3);
    match random.below(11) {
        0 => terrain.facets[facet].swap(1, 2),
        1 => terrain.facets[facet][axis] = other,
        2 => drop(terrain.facets.swap_remove(facet)),
        3 => terrain.facets.push(terrain.facets[facet]),
        4 => terrain.vertices[vertex][axis] = terrain.extents[axis + 3 * random.below(2)],
        5 => terrain.vertices[vertex] = terrain.vertices[other],
        6 => terrain.vertices[vertex][axis] += random.between(-30.0, 30.0),
        7 => {
            let odd = [f64::NAN, f64::INFINITY, 1e30, 1e-320, -0.0, 1.5e9, f64::MAX];
            terrain.vertices[vertex][axis] = *random.one_of(&odd);
        }
        8 => {
            // A vertex of its own for one facet, a hair away: a slit.
            let [x, y, z] = terrain.vertices[terrain.facets[facet][axis]];
            let hair = *random.one_of(&[0.0, 1e-14, 1e-11, 1e-9, 1e-6]);
            terrain.vertices.push([x + hair, y, z - hair]);
            terrain.facets[facet][axis] = terrain.vertices.len() - 1;
        }
        9 => {
            let level = terrain.extents[2 + 3 * random.below(2)];
            terrain.vertices.iter_mut().filter(|p| p[2] > level).for_each(|p| p[2] = level);
        }
        _ => terrain.facets.iter_mut().for_each(|f| f.swap(0, 1)),
    }
}

fn change_bytes(bytes: &mut Vec<u8>, random: &mut Random) {
    let place = random.below(bytes.len().max(1));
    match random.below(6) {
        0 => bytes.truncate(place),
        1 => bytes.insert(place.min(bytes.len()), random.word() as u8),
        2 => bytes.splice(0..0, *b"\xef\xbb\xbf").for_each(drop),
        3 => bytes.splice(place.min(bytes.len())..place.min(bytes.len()), "\u{a0}".bytes()).for_each(drop),
        4 if !bytes.is_empty() => drop(bytes.remove(place)),
        _ if !bytes.is_empty() => bytes[place] ^= 1 << random.below(8),
        _ => {}
    }
}

fn change_line(bytes: &mut Vec<u8>, random: &mut Random) {
    let mut lines: Vec<Vec<u8>> = bytes.split(|byte| *byte == b'\n').map(<[u8]>::to_vec).collect();
    let (place, other) = (random.below(lines.len()), random.below(lines.len()));
    let words = [
        "f 1 2 3 4",
        "f 0 1 2",
        "f -1 -2 -3",
        "f 1 2 99999999999",
        "v 1 2",
        "V 0 0 0",
        "solid",
        "f 1/1/1 2/2/2 3/3/3 # x",
        "v 1,5 2 3",
        "\\",
    ];
    match random.below(5) {
        0 => lines.swap(place, other),
        1 => drop(lines.remove(place)),
        2 => lines.insert(place, lines[other].clone()),
        3 => lines.insert(place, random.one_of(&words).as_bytes().to_vec()),
        _ => lines[place] = vec![b'x'; random.below(100_000)],
    }
    *bytes = lines.join(&b'\n');
}
