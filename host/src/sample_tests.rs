//! The sample through the library: both solids closed, the volumes together the box's.

use crate::ceiling::Ceiling;
use crate::faces;
use crate::library::{Library, Lists, Setting, Stop};
use crate::mesh::Mesh;
use crate::outcome::Outcome;
use crate::sample;
use crate::steps::{close, Closing, Made, Request};
use crate::triangulator::Triangulator;
use crate::volume;
use std::collections::HashSet;
use std::time::Duration;

/// How far the two volumes together may be from the box's: this part of it. Each is rounded once.
const VOLUME_BOUND: f64 = 1e-15;

fn closed(closings: Vec<Closing>) -> (Made, Outcome) {
    let request = Request {
        extents: sample::EXTENTS,
        eps: None,
        resolution: Some(sample::RESOLUTION),
        ceiling: Ceiling::default(),
        closings,
        triangulator: Triangulator::Stored(sample::TRIANGLES),
        time: Duration::ZERO,
    };
    close(&sample::surface(), &request)
}

/// The cleaned sample, its tolerance and its candidates.
fn cleaned() -> (Mesh, f64, Lists) {
    let mut library = Library::default();
    let steps = |library: &mut Library| {
        let extents = sample::EXTENTS;
        let eps = library.tolerance(&extents)?;
        let setting = Setting { extents, eps, resolution: sample::RESOLUTION, ceiling: Ceiling::default() };
        let cut = library.clip(&sample::mesh(), &setting)?;
        let mesh = library.clean(&cut, &setting)?;
        let lists = library.candidates(&mesh, &setting)?;
        Ok::<_, Stop>((mesh, eps, lists))
    };
    steps(&mut library).unwrap_or_else(|stop| panic!("{stop:?}"))
}

/// A run shows it of cutting and cleaning only: what cleaning wrote is no larger than what it was handed, so that the others never refuse.
#[test]
fn every_operation_goes_by_the_ceiling() {
    let (mesh, eps, lists) = cleaned();
    let answer = faces::answer(sample::TRIANGLES.as_bytes(), &lists).unwrap_or_else(|why| panic!("{why:?}"));
    let mut library = Library::default();
    let mut stops = |ceiling: usize| {
        let ceiling = ceiling.to_string().parse().expect("a ceiling");
        let setting = Setting { extents: sample::EXTENTS, eps, resolution: sample::RESOLUTION, ceiling };
        let calls = [library.clip(&mesh, &setting), library.clean(&mesh, &setting), library.caps(&mesh, &answer.list, &setting, 1)];
        let lists = library.candidates(&mesh, &setting).map(drop);
        (calls.map(|call| call.map(drop).err()), lists.err(), library.accepts(&setting).err())
    };
    let most = mesh.vertex_count().max(mesh.facet_count());
    assert_eq!(stops(most), ([None; 3], None, None));
    let too_many = Some(Stop::Refused(2, [0; 4]));
    // Box, eps and resolution are accepted whatever the ceiling.
    for ceiling in [most - 1, 0] {
        assert_eq!(stops(ceiling), ([too_many; 3], too_many, None));
    }
}

/// The stored triangles hold only for these very bits.
#[test]
fn the_terrain_has_the_bits_that_the_list_was_made_for() {
    let mesh = sample::mesh();
    let words = mesh.vertices.iter().map(|x| x.to_bits());
    let sum = words
        .chain(mesh.facets.iter().map(|&id| id.into()))
        .fold(0xcbf2_9ce4_8422_2325u64, |sum, word| (sum ^ word).wrapping_mul(0x0100_0000_01b3));
    assert_eq!((mesh.vertex_count(), mesh.facet_count()), (3185, 6144));
    assert_eq!(sum, TERRAIN_SUM, "{sum:#x}");
}

const TERRAIN_SUM: u64 = 0x4d07_e2cf_7c6f_f261;

#[test]
fn the_terrain_sticks_out_of_every_face() {
    let mesh = sample::mesh();
    for axis in 0..3 {
        let coordinates = || mesh.vertices.chunks_exact(3).map(|p| p[axis]);
        assert!(coordinates().any(|x| x < sample::EXTENTS[axis]));
        assert!(coordinates().any(|x| x > sample::EXTENTS[axis + 3]));
    }
}

#[test]
fn both_solids_are_closed_and_together_fill_the_box() {
    let (_, outcome) = closed(vec![Closing::Positive, Closing::Negative]);
    let Outcome::Closed(volumes) = outcome else {
        panic!("{outcome:?}");
    };
    let [positive, negative] = [volumes.positive, volumes.negative].map(Option::unwrap_or_default);
    assert!(positive > 0.0 && negative > 0.0);
    let whole = volume::of_box(&sample::EXTENTS);
    let difference = positive + negative - whole;
    assert!(difference.abs() <= VOLUME_BOUND * whole, "{difference}");
}

/// Every edge of a closed solid is borne by two sides, one each way. Said here a second time, by another way of counting.
#[test]
fn the_solids_are_turned_the_same_way_everywhere() {
    for solid in closed(vec![Closing::Positive, Closing::Negative]).0.solids {
        let mut sides = HashSet::new();
        for f in solid.mesh.facets.chunks_exact(3) {
            for side in [(f[0], f[1]), (f[1], f[2]), (f[2], f[0])] {
                assert!(sides.insert(side), "{side:?} runs twice the same way");
            }
        }
        assert!(sides.iter().all(|&(a, b)| sides.contains(&(b, a))));
    }
}

#[test]
fn two_runs_give_the_same_bits() {
    let bits = || {
        let solids = closed(vec![Closing::Negative]).0.solids;
        let mesh = &solids[0].mesh;
        let vertices: Vec<u64> = mesh.vertices.iter().map(|x| x.to_bits()).collect();
        (vertices, mesh.facets.clone())
    };
    assert_eq!(bits(), bits());
}

/// The conditions under which a full triangulation of every face closes a cleaned mesh.
#[test]
fn no_two_vertices_share_a_cell_and_none_is_unused() {
    let (mesh, eps, _) = cleaned();
    let cell = |p: &[f64]| [p[0], p[1], p[2]].map(|x| (x / eps.max(1e-12)).round() as i64);
    let cells: HashSet<[i64; 3]> = mesh.vertices.chunks_exact(3).map(cell).collect();
    assert_eq!(cells.len(), mesh.vertex_count());
    let used: HashSet<u32> = mesh.facets.iter().copied().collect();
    assert_eq!(used.len(), mesh.vertex_count());
}

/// The third condition: no supplied triangle is so small that it is dropped. And the
/// triangulation is full: the areas of a face's triangles add up to the face's.
#[test]
fn every_supplied_triangle_has_an_area_and_the_faces_are_full() {
    let (_, _, lists) = cleaned();
    let answer = faces::answer(sample::TRIANGLES.as_bytes(), &lists).unwrap_or_else(|why| panic!("{why:?}"));
    let mut areas = [0.0; 6];
    for cap in answer.list.chunks_exact(4) {
        let double = double_area(cap, &lists);
        assert!(double > 1e-12, "{cap:?}: {double}");
        areas[cap[0] as usize] += double / 2.0;
    }
    let e = sample::EXTENTS;
    let [x, y, z] = [e[3] - e[0], e[4] - e[1], e[5] - e[2]];
    for (area, whole) in areas.into_iter().zip([y * z, y * z, x * z, x * z, x * y, x * y]) {
        assert!((area - whole).abs() <= 1e-10 * whole, "{area} of {whole}");
    }
}

fn double_area(cap: &[u64], lists: &Lists) -> f64 {
    let point = |id: u64| lists.point(id).unwrap_or_else(|| panic!("{cap:?}"));
    let [a, b, c] = [cap[1], cap[2], cap[3]].map(point);
    let side = |end: [f64; 3]| [0, 1, 2].map(|axis| end[axis] - a[axis]);
    let (u, v) = (side(b), side(c));
    let cross = [u[1] * v[2] - u[2] * v[1], u[2] * v[0] - u[0] * v[2], u[0] * v[1] - u[1] * v[0]];
    cross.iter().map(|x| x * x).sum::<f64>().sqrt()
}
