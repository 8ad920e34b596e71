//! Random terrains, closed both ways: all closed, each pair the box within 1e-12, and CGAL says the same of every solid.

use crate::random::Random;
use crate::runs;
use crate::solids;
use crate::terrain::{Terrain, KINDS};
use std::fs;
use std::path::PathBuf;

/// How far a pair may be from the box, and a volume from CGAL's exact one: this part of the box.
const BOUND: f64 = 1e-12;

pub fn run(count: usize, seed: u64) {
    let folder = runs::fresh();
    let mut random = Random::new(seed);
    let mut list = String::from("file,x0,y0,z0,x1,y1,z1\n");
    let terrains: Vec<Terrain> = (0..count).map(|place| Terrain::with_ground(&mut random, KINDS[place % 4], 40)).collect();
    for (place, terrain) in terrains.iter().enumerate() {
        fs::write(folder.path().join(format!("t{place}.obj")), terrain.obj()).expect("written");
        list += &format!("t{place}.obj,{}\n", terrain.columns());
    }
    fs::write(folder.path().join("list.csv"), list).expect("written");
    let (rows, time) = runs::list(folder.path(), &[]);
    let (mut files, mut told, mut worst) = (Vec::new(), Vec::new(), 0f64);
    for (row, terrain) in rows.iter().zip(&terrains) {
        runs::check_form(row);
        assert_eq!(row["state"], "closed", "{row:?}");
        let volumes = ["positive_volume", "negative_volume"].map(|column| row[column].parse::<f64>().expect("a volume"));
        let solids_folder = folder.path().join("solids");
        solids::checked_pair(&solids_folder, &row["name"], volumes, &terrain.extents).unwrap_or_else(|why| panic!("{why}"));
        let off = (volumes[0] + volumes[1] - terrain.box_volume()).abs() / terrain.box_volume();
        assert!(off <= BOUND, "{row:?}: {off}");
        worst = worst.max(off);
        for (solid, volume) in ["positive", "negative"].into_iter().zip(volumes) {
            files.push(solids_folder.join(format!("{}.{solid}.obj", row["name"])));
            told.push(volume / terrain.box_volume());
        }
    }
    println!("terrains: {count}, {} in {:.1} s; pairs off the box by {worst:.1e} of it at most", runs::states(&rows), time.as_secs_f64());
    by_cgal(&files, &told, &terrains, &rows);
}

fn by_cgal(files: &[PathBuf], told: &[f64], terrains: &[Terrain], rows: &[runs::Row]) {
    let Some(program) = solids::cgal() else {
        println!("terrains: not looked at by CGAL, which is not installed");
        return;
    };
    let closed = rows.iter().zip(terrains).filter(|(row, _)| row["state"] == "closed");
    let boxes: Vec<f64> = closed.flat_map(|(_, terrain)| [terrain.box_volume(); 2]).collect();
    let mut worst = 0f64;
    for (((closed, volume), part), (file, whole)) in solids::by_cgal(&program, files).into_iter().zip(told).zip(files.iter().zip(boxes)) {
        let off = (volume / whole - part).abs();
        assert!(closed && off <= BOUND, "{}: CGAL says {closed} {volume}", file.display());
        worst = worst.max(off);
    }
    println!("terrains: CGAL calls all {} solids closed; volumes off its exact ones by {worst:.1e} of the box at most", files.len());
}
