//! Full-size meshes for boundary_components: as many vertices and facets as can be, and what
//! makes the outputs, a component or an edge's bearers as many as can be.

use super::MOST;
use crate::boundary_meshes::{facets, from, retold, sheet, strip, torus, Facet};
use crate::meshes;
use crate::random::Random;
use crate::request::Request;

/// Every tenth cell is a hole, and the facets that are missing lie apart behind the sheet.
fn holes() -> Vec<Facet> {
    let whole = sheet(256, 128);
    let vertices = 257 * 129;
    let kept = |at: &usize| at / 2 % 10 != 7;
    let mut list: Vec<Facet> = (0..MOST).filter(kept).map(|at| whole[at]).collect();
    let missing = (MOST - list.len()) as u32;
    list.extend(from(vertices, &apart(missing)));
    list
}

/// Facets with vertices of their own.
fn apart(count: u32) -> Vec<Facet> {
    (0..count).map(|i| [3 * i, 3 * i + 1, 3 * i + 2]).collect()
}

/// A strip whose border goes through all vertices, and two facets of one vertex each.
fn one_ring() -> Vec<Facet> {
    let mut list = strip(MOST as u32);
    list.extend([[0; 3], [1; 3]]);
    list
}

/// The lists by name; the larger part of them is also told in another way.
fn lists(random: &mut Random) -> Vec<(&'static str, Vec<Facet>)> {
    let most = MOST as u32;
    let mut all = vec![
        ("torus", torus(256, 128)),
        ("sheet with holes", holes()),
        ("one ring of all vertices", one_ring()),
        ("facets apart", apart(most / 3)),
        ("soup", facets(&meshes::random_facets(random, MOST, MOST))),
        (
            "facets a, a, b",
            (0..most).map(|a| [a, a, (a + 1) % most]).collect(),
        ),
    ];
    for place in 0..all.len() {
        let (name, mut list) = all[place].clone();
        retold(random, &mut list);
        all.push((name, list));
    }
    all.extend([
        ("facets a, a, a", (0..most).map(|a| [a; 3]).collect()),
        ("one facet again and again", vec![[0, 1, 2]; MOST]),
        ("one facet a, a, a", vec![[most - 1; 3]; MOST]),
        ("around one edge", (2..most).map(|c| [0, 1, c]).collect()),
        (
            "touching at one vertex",
            (0..most / 2 - 1)
                .map(|i| [2 * i, 2 * i + 1, most - 1])
                .collect(),
        ),
        ("no facet", vec![]),
    ]);
    all
}

pub fn requests(random: &mut Random) -> Vec<Request> {
    let counted = |(name, list): (&'static str, Vec<Facet>)| {
        assert!(list.len() <= MOST);
        Request::counted(name, MOST as u64, list.concat())
    };
    lists(random).into_iter().map(counted).collect()
}
