//! Facet lists for boundary_components, where vertices have numbers and no place: polygons,
//! sheets, closed surfaces, and what is done to them.

use crate::meshes::lattice;
use crate::random::Random;

pub type Facet = [u32; 3];

/// Four facets that leave nothing open.
pub const TETRAHEDRON: [Facet; 4] = [[0, 2, 1], [0, 1, 3], [0, 3, 2], [1, 2, 3]];

/// The faces of a cube; bit 0, 1 and 2 of a corner's number say where it is on x, y and z.
const FACES: [[u32; 4]; 6] = [
    [0, 2, 3, 1],
    [4, 5, 7, 6],
    [0, 1, 5, 4],
    [2, 6, 7, 3],
    [0, 4, 6, 2],
    [1, 3, 7, 5],
];

/// A fan over these vertices: one after the other they are the ring that it leaves open.
pub fn polygon(around: &[u32]) -> Vec<Facet> {
    around[1..]
        .windows(2)
        .map(|pair| [around[0], pair[0], pair[1]])
        .collect()
}

/// Twelve facets over eight vertices.
pub fn cube() -> Vec<Facet> {
    FACES.iter().flat_map(|face| polygon(face)).collect()
}

/// Two facets a cell, over vertices that are numbered along v first.
pub fn sheet(u: usize, v: usize) -> Vec<Facet> {
    facets(&lattice(u, v, |_, _| [0.0; 3]).1)
}

/// A sheet of which opposite sides are one: u × v vertices, both at least 3.
pub fn torus(u: usize, v: usize) -> Vec<Facet> {
    let joined = |number: u32| {
        let (i, j) = (number as usize / (v + 1), number as usize % (v + 1));
        (i % u * v + j % v) as u32
    };
    sheet(u, v)
        .into_iter()
        .map(|facet| facet.map(joined))
        .collect()
}

/// Each vertex with the two before it, all facets the same way round.
pub fn strip(count: u32) -> Vec<Facet> {
    let facet = |c: u32| [c - 2 + c % 2, c - 1 - c % 2, c];
    (2..count).map(facet).collect()
}

/// A list as facets; it has a multiple of three numbers.
pub fn facets(list: &[u32]) -> Vec<Facet> {
    list.chunks_exact(3)
        .map(|facet| [facet[0], facet[1], facet[2]])
        .collect()
}

/// One more than the largest number.
pub fn used(facets: &[Facet]) -> u32 {
    facets
        .as_flattened()
        .iter()
        .max()
        .map_or(0, |most| most + 1)
}

/// The same facets over vertices that begin with this one.
pub fn from(first: u32, facets: &[Facet]) -> Vec<Facet> {
    let moved = |facet: &Facet| facet.map(|number| first + number);
    facets.iter().map(moved).collect()
}

/// The facets but for the one at this place.
pub fn without(place: usize, facets: &[Facet]) -> Vec<Facet> {
    let mut rest = facets.to_vec();
    rest.remove(place);
    rest
}

/// The facets, that at this place the other way round.
pub fn turned(place: usize, facets: &[Facet]) -> Vec<Facet> {
    let mut all = facets.to_vec();
    all[place].swap(1, 2);
    all
}

fn shuffle<T>(random: &mut Random, list: &mut [T]) {
    for place in (1..list.len()).rev() {
        list.swap(place, random.below(place + 1));
    }
}

/// Other numbers for the vertices, another order of the facets, another first corner of each:
/// the same surface, told in another way.
pub fn retold(random: &mut Random, facets: &mut [Facet]) {
    let mut numbers: Vec<u32> = (0..used(facets)).collect();
    shuffle(random, &mut numbers);
    for facet in facets.iter_mut() {
        *facet = facet.map(|number| numbers[number as usize]);
        facet.rotate_left(random.below(3));
    }
    shuffle(random, facets);
}

#[cfg(test)]
mod tests {
    use super::*;

    /// Open edges and irregular edges, counted.
    fn told(facets: &[Facet]) -> (Vec<usize>, usize) {
        let found = oracle::boundary(facets.as_flattened());
        let lengths = found.components.iter().map(Vec::len).collect();
        (lengths, found.irregular.len())
    }

    #[test]
    fn closed_surfaces_are_closed() {
        for facets in [TETRAHEDRON.to_vec(), cube(), torus(3, 3), torus(4, 5)] {
            assert_eq!(told(&facets), (vec![], 0));
            assert_eq!(told(&without(1, &facets)), (vec![3], 0));
            assert_eq!(told(&turned(1, &facets)), (vec![], 3));
        }
        assert_eq!((used(&cube()), used(&torus(4, 5))), (8, 20));
    }

    #[test]
    fn sheets_and_polygons_have_one_ring() {
        assert_eq!(told(&sheet(3, 4)), (vec![14], 0));
        assert_eq!(told(&strip(9)), (vec![9], 0));
        assert_eq!(told(&polygon(&[4, 0, 3, 1, 2])), (vec![5], 0));
    }

    /// Retelling changes no count.
    #[test]
    fn retold_surfaces_are_the_same() {
        let mut random = Random::new(1, "retold", 0);
        let mut facets = [without(7, &sheet(4, 4)), from(30, &torus(3, 4))].concat();
        let before = told(&facets);
        retold(&mut random, &mut facets);
        assert_eq!(told(&facets), before);
        assert_ne!(facets[..2], sheet(4, 4)[..2]);
    }
}
