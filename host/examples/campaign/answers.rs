//! Mutated answers of a triangulator: no panic, no hang, and where a solid is told as closed its volume is the one that the sound answer gives.

use crate::random::Random;
use crate::runs::{self, Row};
use crate::terrain::{Terrain, KINDS};
use std::fs;
use std::time::Instant;

/// Answers that are tried on one terrain.
const EACH: usize = 50;

pub fn run(count: usize, seed: u64) {
    let mut random = Random::new(seed);
    let start = Instant::now();
    let (mut rows, mut sound) = (Vec::new(), 0);
    while rows.len() < count {
        let folder = runs::fresh();
        let kind = *random.one_of(&KINDS);
        let terrain = Terrain::random(&mut random, kind, 8);
        fs::write(folder.path().join("t.obj"), terrain.obj()).expect("written");
        fs::write(folder.path().join("list.csv"), format!("file,x0,y0,z0,x1,y1,z1\nt.obj,{}\n", terrain.columns())).expect("written");
        let reference = runs::list(folder.path(), &["--save-caps"]).0.remove(0);
        if reference["state"] != "closed" || reference["negative_volume"].is_empty() {
            continue;
        }
        let answer = fs::read(folder.path().join("solids/t.caps")).expect("the answer");
        let corners = terrain.extents.map(|x| format!("{x:?}"));
        for _ in 0..EACH.min(count - rows.len()) {
            fs::write(folder.path().join("answer"), mutated(&answer, &mut random)).expect("written");
            let row = runs::with_answer(folder.path(), &corners, "t.obj", "answer");
            runs::check_form(&row);
            if row["state"] == "closed" {
                same_volumes(&row, &reference, terrain.box_volume());
                sound += 1;
            }
            rows.push(row);
        }
    }
    let time = start.elapsed().as_secs_f64();
    println!(
        "mutated answers: {count} in {time:.1} s; {}; all {sound} closed ones have the volumes of the sound answer",
        runs::states(&rows)
    );
}

fn same_volumes(row: &Row, reference: &Row, whole: f64) {
    for column in ["positive_volume", "negative_volume"] {
        let [told, right] = [row, reference].map(|row| row[column].parse::<f64>().expect("a volume"));
        assert!((told - right).abs() <= 1e-9 * whole, "{column}: {told}, and {right} with the sound answer");
    }
}

fn mutated(answer: &[u8], random: &mut Random) -> Vec<u8> {
    let text = String::from_utf8_lossy(answer);
    let mut lines: Vec<String> = text.lines().map(String::from).collect();
    for _ in 0..1 + random.below(3) {
        change(&mut lines, random);
    }
    let mut bytes = lines.join("\n").into_bytes();
    if random.below(8) == 0 {
        let place = random.below(bytes.len().max(1));
        match random.below(3) {
            0 => bytes.truncate(place),
            1 => bytes.insert(place.min(bytes.len()), random.word() as u8),
            _ => bytes.extend(std::iter::repeat_n(b'7', 100_000)),
        }
    }
    bytes
}

fn change(lines: &mut Vec<String>, random: &mut Random) {
    if lines.is_empty() {
        return;
    }
    let (place, other) = (random.below(lines.len()), random.below(lines.len()));
    let mut numbers: Vec<u64> = lines[place].split(' ').filter_map(|word| word.parse().ok()).collect();
    let odd = ["", "0 1 2", "9 0 1 2", "0 0 0 1", "0 1 2 18446744073709551615", "0 1 2 -1", "# nothing", "a b c d", "0 1 2 3 4"];
    match random.below(9) {
        0 => drop(lines.remove(place)),
        1 => lines.insert(other, lines[place].clone()),
        2 => lines.swap(place, other),
        3 => lines[place] = random.one_of(&odd).to_string(),
        4 => flip(lines, place),
        5 if numbers.len() == 4 => {
            numbers.swap(1, 2);
            lines[place] = joined(&numbers);
        }
        6 if numbers.len() == 4 => {
            numbers[1 + random.below(3)] = random.word() % 40;
            lines[place] = joined(&numbers);
        }
        7 if numbers.len() == 4 => {
            numbers[0] = random.word() % 6;
            lines[place] = joined(&numbers);
        }
        _ => lines.truncate(place),
    }
}

/// Two neighbours of a face over their other diagonal. Where the four points are no convex quadrangle, the two then overlap.
fn flip(lines: &mut [String], place: usize) {
    let triangle = |line: &String| -> Option<[u64; 4]> {
        let numbers: Vec<u64> = line.split(' ').filter_map(|word| word.parse().ok()).collect();
        numbers.try_into().ok()
    };
    let Some([face, a, b, c]) = triangle(&lines[place]) else {
        return;
    };
    for other in 0..lines.len() {
        let Some([of, x, y, z]) = triangle(&lines[other]).filter(|_| other != place) else {
            continue;
        };
        let theirs = [x, y, z];
        let shares = |p: u64| theirs.contains(&p);
        if of != face || [a, b, c].into_iter().filter(|p| shares(*p)).count() != 2 {
            continue;
        }
        let tip = [a, b, c].into_iter().find(|p| !shares(*p));
        let far = theirs.into_iter().find(|p| ![a, b, c].contains(p));
        let common: Vec<u64> = [a, b, c].into_iter().filter(|p| shares(*p)).collect();
        if let (Some(tip), Some(far)) = (tip, far) {
            lines[place] = joined(&[face, tip, far, common[0]]);
            lines[other] = joined(&[face, tip, far, common[1]]);
        }
        return;
    }
}

fn joined(numbers: &[u64]) -> String {
    numbers.iter().map(u64::to_string).collect::<Vec<_>>().join(" ")
}
