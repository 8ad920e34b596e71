//! A property that needs no oracle. A surface is clipped and cleaned, its candidates are
//! taken, each face is triangulated in full and the surface closed, all by our library. If
//!
//! - no two mesh vertices share a key,
//! - no vertex is unused, and
//! - every supplied triangle's double area exceeds 1e-12, from whichever corner it is measured,
//!
//! then in either mode no edge is open, every side is met by one that runs the other way, and
//! the two volumes add up to the box's within VOLUME_BOUND of it.
//!
//! For each condition a request is kept that breaks it, with the open edges that it gives.
//!
//! The surface, what clipping and cleaning leave of it, and the closed meshes are each asked for
//! their boundary too: it has to be what the sides say when they are counted here, and nothing
//! exactly if the mesh is closed (property/boundaries.rs).

mod boundaries;
mod kept;

use crate::lent::{Lent, Old};
use crate::operation::{fitted, Operation};
use crate::random::Random;
use crate::request::Request;
use crate::triangulation::{by_face, sound_list, AXES};
use crate::{candidates, caps, clean, clip, meshes, Options};
use boundaries::Told;
use std::collections::{BTreeMap, HashSet};
use std::process::ExitCode;

/// As a part of the box's volume: sums of some ten thousand products, each rounded.
const VOLUME_BOUND: f64 = 1e-12;
/// "root of the squared cross product ≤ 1e-12 dropped"
const SMALLEST_CAP: f64 = 1e-12;

const OPERATIONS: [Operation; 4] = [
    clip::OPERATION,
    clean::OPERATION,
    candidates::OPERATION,
    caps::OPERATION,
];

/// The candidates' four lists and a triangulation of every face.
type Supplied = ([Vec<u64>; 4], Vec<[u64; 4]>);
type Mesh = (Vec<f64>, Vec<u32>);
type Pairs = Vec<(u64, u64)>;

/// Why a request was not closed.
#[derive(Debug)]
enum End {
    /// Nothing is claimed, for this reason.
    Left(String),
    Fails(String),
}

/// Our library, or the oracle in a self check.
struct Library<'a> {
    options: &'a Options,
    work: Lent<u64>,
    /// How many boundaries were asked for, and how many of them are nothing.
    boundaries: u64,
    nothing_told: u64,
}

impl<'a> Library<'a> {
    fn new(options: &'a Options) -> Self {
        Library {
            options,
            work: Lent::new(0, Old::Junk),
            boundaries: 0,
            nothing_told: 0,
        }
    }

    /// The outputs of an operation, cut to the lengths that it answered.
    fn run(&mut self, operation: &Operation, request: &Request) -> Result<Vec<Vec<u64>>, End> {
        let ask = operation.asked(self.options);
        let mut request = request.clone();
        request.work = (operation.need)(&request) as usize;
        let answer = fitted(ask, &mut request, &mut self.work);
        if let Some(fault) = answer.fault {
            return Err(End::Fails(format!("{}: {fault}", operation.name)));
        }
        let number = answer.reply.number;
        let reply = format!("{} refused by {number}", operation.name);
        match (number, operation.name) {
            (0, _) => {}
            // A full list is not to be refused.
            (_, "caps") => return Err(End::Fails(reply)),
            _ => return Err(End::Left(reply)),
        }
        let cut = |(output, length): (&Vec<u64>, u64)| output[..length as usize].to_vec();
        let outputs = answer.outputs.iter().zip(answer.reply.values);
        Ok(outputs.map(cut).collect())
    }

    fn mesh(&mut self, operation: &Operation, request: &mut Request) -> Result<(), End> {
        let outputs = self.run(operation, request)?;
        (request.vertices, request.facets) = mesh(&outputs);
        self.boundary(&request.vertices, &request.facets)
            .map(|_| ())
    }

    /// The supplied list of a mesh with its candidates; `None` if there is nothing to close.
    fn list(&mut self, request: &Request) -> Result<Option<Supplied>, End> {
        let lists = self.run(&OPERATIONS[2], request)?;
        let lists: [Vec<u64>; 4] = lists.try_into().expect("four lists");
        if lists[0].is_empty() {
            return Ok(None);
        }
        let list = sound_list(&lists);
        Ok(Some((lists, list)))
    }

    /// The mesh closed in both modes.
    fn closed(&mut self, request: &Request) -> Result<[Mesh; 2], End> {
        let mut request = request.clone();
        let mut closed = |mode| {
            request.mode = mode;
            self.run(&OPERATIONS[3], &request)
                .map(|outputs| mesh(&outputs))
        };
        Ok([closed(1)?, closed(2)?])
    }
}

fn mesh(outputs: &[Vec<u64>]) -> Mesh {
    let vertices = outputs[0].iter().map(|&bits| f64::from_bits(bits));
    let facets = outputs[1].iter().map(|&number| number as u32);
    (vertices.collect(), facets.collect())
}

fn shares_a_key(request: &Request) -> bool {
    let cell = request.eps.max(1e-12);
    let mut keys = HashSet::new();
    let key = |point: &[f64]| [0, 1, 2].map(|axis| (point[axis] / cell).round() as i64);
    let mut points = request.vertices.chunks_exact(3);
    !points.all(|point| keys.insert(key(point)))
}

fn has_an_unused_vertex(request: &Request) -> bool {
    let used: HashSet<u32> = request.facets.iter().copied().collect();
    used.len() < request.vertices.len() / 3
}

fn difference(a: [f64; 3], b: [f64; 3]) -> [f64; 3] {
    [a[0] - b[0], a[1] - b[1], a[2] - b[2]]
}

fn cross(a: [f64; 3], b: [f64; 3]) -> [f64; 3] {
    [
        a[1] * b[2] - a[2] * b[1],
        a[2] * b[0] - a[0] * b[2],
        a[0] * b[1] - a[1] * b[0],
    ]
}

fn dot(a: [f64; 3], b: [f64; 3]) -> f64 {
    a[0] * b[0] + a[1] * b[1] + a[2] * b[2]
}

/// Whether a supplied triangle is as small as those that are dropped, from any corner.
fn has_a_small_cap(candidates: &[u64], list: &[[u64; 4]]) -> bool {
    let point = |id: u64| [0, 1, 2].map(|axis| f64::from_bits(candidates[5 * id as usize + axis]));
    let small = |[a, b, c]: [[f64; 3]; 3]| {
        let normal = cross(difference(b, a), difference(c, a));
        dot(normal, normal).sqrt() <= SMALLEST_CAP
    };
    list.iter().any(|&[_, a, b, c]| {
        [[a, b, c], [b, c, a], [c, a, b]]
            .iter()
            .any(|corners| small(corners.map(point)))
    })
}

/// Whether a list of `sound_list` is a full triangulation of each face: it uses every candidate
/// of the face, has every constraint as a side, and each triangle turns left where the candidates
/// really are. It falls short of that where two candidates meet on the lattice, where constraints
/// cross, and where rounding to the lattice turns a thin triangle over.
fn is_full(lists: &[Vec<u64>; 4], list: &[[u64; 4]]) -> bool {
    let mut sides = HashSet::new();
    for &[face, a, b, c] in list {
        for (p, q) in [(a, b), (b, c), (c, a)] {
            sides.extend([(face, p, q), (face, q, p)]);
        }
    }
    let corners: HashSet<(u64, u64)> = sides.iter().map(|side| (side.0, side.1)).collect();
    let faces = by_face(&lists[1]);
    let used = |face: usize| {
        let has = |&id: &u64| corners.contains(&(face as u64, id));
        faces[face].iter().all(has)
    };
    let held = |c: &[u64]| {
        let place = |at: usize| faces[c[0] as usize][c[at] as usize];
        sides.contains(&(c[0], place(1), place(2)))
    };
    let turns_left = |&[face, a, b, c]: &[u64; 4]| {
        let axes = AXES[face as usize / 2];
        let point = |id: u64| axes.map(|axis| f64::from_bits(lists[0][5 * id as usize + axis]));
        let [[ax, ay], [bx, by], [cx, cy]] = [a, b, c].map(point);
        (bx - ax) * (cy - ay) - (by - ay) * (cx - ax) > 0.0
    };
    (0..6).all(used) && lists[2].chunks_exact(3).all(held) && list.iter().all(turns_left)
}

/// For each pair of vertices: how many sides bear it, and how many more run up than down.
fn sides(facets: &[u32]) -> BTreeMap<(u64, u64), (u32, i32)> {
    let mut sides = BTreeMap::new();
    for facet in facets.chunks_exact(3) {
        for (a, b) in [(0, 1), (1, 2), (2, 0)] {
            let (a, b) = (u64::from(facet[a]), u64::from(facet[b]));
            let side: &mut (u32, i32) = sides.entry((a.min(b), a.max(b))).or_default();
            side.0 += 1;
            side.1 += if a < b { 1 } else { -1 };
        }
    }
    sides
}

/// "An open edge belongs to exactly one facet side".
fn open_edges(facets: &[u32]) -> Pairs {
    let open = sides(facets)
        .into_iter()
        .filter(|(_, (bearers, _))| *bearers == 1);
    open.map(|(pair, _)| pair).collect()
}

/// The volume inside, as a part of the box's; measured from the box's corner.
fn volume((vertices, facets): &Mesh, request: &Request) -> f64 {
    let b = request.extents;
    let corner = |id: u32| {
        let at = 3 * id as usize;
        let point = [vertices[at], vertices[at + 1], vertices[at + 2]];
        difference(point, [b[0], b[1], b[2]])
    };
    let six_times: f64 = facets
        .chunks_exact(3)
        .map(|facet| dot(corner(facet[0]), cross(corner(facet[1]), corner(facet[2]))))
        .sum();
    six_times / 6.0 / ((b[3] - b[0]) * (b[4] - b[1]) * (b[5] - b[2]))
}

/// A surface of the trade, clipped and cleaned; not every one reaches the box's faces.
fn surface(random: &mut Random) -> Request {
    let mut request = meshes::realistic(random);
    request.resolution = candidates::resolution(random, &request.extents);
    candidates::tame(&mut request);
    request
}

/// The error of the volumes, or why there is none.
fn tried(library: &mut Library, mut request: Request) -> Result<f64, End> {
    let left = |reason: &str| Err(End::Left(reason.into()));
    let fails = |text: String| Err(End::Fails(text));
    library.boundary(&request.vertices, &request.facets)?;
    library.mesh(&OPERATIONS[0], &mut request)?;
    library.mesh(&OPERATIONS[1], &mut request)?;
    if shares_a_key(&request) {
        return left("two vertices share a key");
    }
    if request.facets.is_empty() {
        return left("no facet in the box");
    }
    if has_an_unused_vertex(&request) {
        return left("a vertex is unused");
    }
    let Some((lists, list)) = library.list(&request)? else {
        return left("nothing to close");
    };
    if !is_full(&lists, &list) {
        return left("the triangulation is not full");
    }
    if has_a_small_cap(&lists[0], &list) {
        return left("a cap's double area is at most 1e-12");
    }
    request.caps = list.concat();
    let closed = library.closed(&request)?;
    for (mode, (vertices, facets)) in closed.iter().enumerate() {
        let told = library.boundary(vertices, facets)?;
        if told != Told::Nothing {
            return fails(format!("mode {}: a boundary is told", mode + 1));
        }
        let open = open_edges(facets);
        if !open.is_empty() {
            return fails(format!("mode {}: open edges {open:?}", mode + 1));
        }
        if sides(facets).values().any(|&(_, sum)| sum != 0) {
            return fails(format!("mode {}: sides do not meet", mode + 1));
        }
    }
    let volumes = [0, 1].map(|mode| volume(&closed[mode], &request));
    let error = (volumes[0] + volumes[1] - 1.0).abs();
    let within = |x: &f64| (-VOLUME_BOUND..=1.0 + VOLUME_BOUND).contains(x);
    if error > VOLUME_BOUND || !volumes.iter().all(within) {
        return fails(format!("volumes {volumes:?} of the box's"));
    }
    Ok(error)
}

/// Runs the kept requests and those of a seed; prints what was met.
pub fn run(options: &Options) -> ExitCode {
    let mut library = Library::new(options);
    let mut failures = kept::failures(&mut library);
    let (mut closed, mut largest) = (0, 0f64);
    let mut left: BTreeMap<String, u64> = BTreeMap::new();
    for number in options.range() {
        let mut random = Random::new(options.seed, "property", number);
        match tried(&mut library, surface(&mut random)) {
            Ok(error) => {
                closed += 1;
                largest = largest.max(error);
            }
            Err(End::Left(reason)) => *left.entry(reason).or_default() += 1,
            Err(End::Fails(text)) => {
                failures += 1;
                println!("property --seed {} --first {number}: {text}", options.seed);
            }
        }
    }
    println!(
        "property    {:>10} requests, {failures} failures",
        options.requests
    );
    println!(
        "{:>22} boundaries asked for, {} of them nothing",
        library.boundaries, library.nothing_told
    );
    println!("{closed:>22} closed in both modes; volumes add up within {largest:.2e} of the box's");
    for (reason, count) in left {
        println!("{count:>22} left: {reason}");
    }
    if failures == 0 {
        ExitCode::SUCCESS
    } else {
        ExitCode::FAILURE
    }
}

#[cfg(test)]
mod tests {
    use super::*;

    /// The oracle has the property too, and leaves the same edges open in the kept requests.
    #[test]
    fn oracle_closes() {
        let mut options = crate::Options::default();
        options.self_check = true;
        let mut library = Library::new(&options);
        assert_eq!(kept::failures(&mut library), 0);
        let mut closed = 0;
        for number in 0..200 {
            let mut random = Random::new(9, "property", number);
            match tried(&mut library, surface(&mut random)) {
                Ok(_) => closed += 1,
                Err(End::Left(_)) => {}
                Err(end) => panic!("request {number}: {end:?}"),
            }
        }
        assert!(closed > 100, "{closed}");
    }
}
