//! The open and the irregular edges of a mesh, which the library lists.
//!
//! It takes up to 65,536 vertices and facets at once, and a solid may have more. Such a mesh is handed to it in windows: the edges, in
//! their order, are cut into ranges, and for each range the library is asked about all facets that have a side in it. Of the answer
//! only the edges of the range are kept. Every edge is so decided by exactly one call, which sees all of its sides, and the edges kept
//! of all windows are those that one call would list of the whole. Only how open edges join into components is not known then.

use crate::ceiling::OFFICE;
use crate::library::{Boundary, Library, Stop};
use std::ops::RangeInclusive;

/// An edge by its vertices, the smaller first.
pub type Edge = [u32; 2];

/// Open edges that are joined by shared vertices.
#[derive(Clone, Copy, Debug, PartialEq)]
pub struct Component {
    pub edges: usize,
    pub ring: bool,
}

/// What the library lists of a mesh.
#[derive(Clone, Debug, PartialEq)]
pub struct Edges {
    /// Borne by one facet side; component by component, or ascending where components are not known.
    pub open: Vec<Edge>,
    /// None: the mesh is too large for one call.
    pub components: Option<Vec<Component>>,
    /// Borne by three sides or more, or by two that run the same way; ascending.
    pub irregular: Vec<Edge>,
}

/// Why edges were not listed.
#[derive(Clone, Copy, Debug, PartialEq)]
pub enum Unlisted {
    Stop(Stop),
    /// One edge has more sides than the library takes at once.
    Crowded(Edge, usize),
}

/// Sides in a window at most, unless one edge has more. As many facets have so few vertices that both counts are admitted.
const WINDOW: usize = 21_845;

/// The edges of a mesh of any size.
pub fn list(library: &mut Library, vertices: usize, facets: &[u32]) -> Result<Edges, Unlisted> {
    match OFFICE.exceeded_by(vertices as u64, facets.len() as u64 / 3) {
        None => whole(library.boundary_components(vertices, facets, OFFICE)),
        Some(_) => in_windows(library, vertices, facets, WINDOW),
    }
}

/// What one call answered for a whole mesh.
pub fn whole(answer: Result<Boundary, Stop>) -> Result<Edges, Unlisted> {
    let boundary = answer.map_err(Unlisted::Stop)?;
    let components = pairs(&boundary.components).map(|[edges, ring]| Component { edges: edges as usize, ring: ring == 1 });
    Ok(Edges {
        open: pairs(&boundary.edges).map(edge).collect(),
        components: Some(components.collect()),
        irregular: pairs(&boundary.irregular).map(edge).collect(),
    })
}

impl Edges {
    /// Whether every edge has two different ends and is borne by two sides, one each way: then all three lists are empty, and only then.
    pub fn are_sound(&self) -> bool {
        self.open.is_empty() && self.components.as_ref().is_none_or(Vec::is_empty) && self.irregular.is_empty()
    }

    pub fn rings(&self) -> Option<usize> {
        self.components.as_ref().map(|components| components.iter().filter(|component| component.ring).count())
    }

    /// How the open edges join: "in 3 components, 2 of them rings". Nothing if that is not known.
    pub fn grouped(&self) -> Option<String> {
        let (count, rings) = (self.components.as_ref()?.len(), self.rings()?);
        Some(match (count, rings) {
            (1, 0) => "in 1 component, no ring".into(),
            (1, _) => "in 1 component, a ring".into(),
            (_, 0) => format!("in {count} components, none of them a ring"),
            (_, 1) => format!("in {count} components, 1 of them a ring"),
            _ => format!("in {count} components, {rings} of them rings"),
        })
    }
}

fn pairs(words: &[u64]) -> impl Iterator<Item = [u64; 2]> + '_ {
    words.chunks_exact(2).map(|pair| [pair[0], pair[1]])
}

/// Vertex numbers of facets have 32 bits, and so have those of edges.
fn edge(words: [u64; 2]) -> Edge {
    words.map(|word| word as u32)
}

/// A side: its edge, and the place of its facet.
type Side = (Edge, usize);

fn in_windows(library: &mut Library, vertices: usize, facets: &[u32], most: usize) -> Result<Edges, Unlisted> {
    if let Some(facet) = facets.chunks_exact(3).find(|facet| facet.iter().any(|&id| id as usize >= vertices)) {
        // A corner that names no vertex is the library's to turn down; in a window vertices have other numbers.
        whole(library.boundary_components(vertices.min(OFFICE.asked() as usize), facet, OFFICE))?;
    }
    let sides = sides(facets)?;
    let mut edges = Edges { open: vec![], components: None, irregular: vec![] };
    let mut rest = &sides[..];
    while !rest.is_empty() {
        let (window, behind) = rest.split_at(window_length(rest, most));
        let (open, irregular) = listed(library, window, facets)?;
        append(&mut edges.open, &open)?;
        append(&mut edges.irregular, &irregular)?;
        rest = behind;
    }
    Ok(edges)
}

/// Room for more; a mesh may be larger than the machine.
fn reserve<T>(list: &mut Vec<T>, more: usize) -> Result<(), Unlisted> {
    let bytes = (list.len() + more) as u64 * size_of::<T>() as u64;
    list.try_reserve(more).map_err(|_| Unlisted::Stop(Stop::NoMemory(bytes)))
}

fn append(list: &mut Vec<Edge>, more: &[Edge]) -> Result<(), Unlisted> {
    reserve(list, more.len())?;
    list.extend(more);
    Ok(())
}

/// The sides in the order of their edges.
fn sides(facets: &[u32]) -> Result<Vec<Side>, Unlisted> {
    let mut sides: Vec<Side> = Vec::new();
    reserve(&mut sides, facets.len())?;
    for (place, facet) in facets.chunks_exact(3).enumerate() {
        for [a, b] in [[facet[0], facet[1]], [facet[1], facet[2]], [facet[2], facet[0]]] {
            sides.push(([a.min(b), a.max(b)], place));
        }
    }
    sides.sort_unstable();
    Ok(sides)
}

/// So many sides that no edge is cut off from a part of its own: as many edges as have at most so many sides, and one at least.
fn window_length(sides: &[Side], most: usize) -> usize {
    let mut length = 0;
    for edge in sides.chunk_by(|a, b| a.0 == b.0) {
        if length > 0 && length + edge.len() > most {
            break;
        }
        length += edge.len();
    }
    length
}

/// The open and the irregular edges of a window, both ascending.
fn listed(library: &mut Library, window: &[Side], facets: &[u32]) -> Result<(Vec<Edge>, Vec<Edge>), Unlisted> {
    let (first, last) = (window[0].0, window[window.len() - 1].0);
    let crowded = Unlisted::Crowded(first, window.len());
    // Three sides of a facet at most are one edge. No room is lent for what would be turned down.
    if window.len() as u64 > 3 * OFFICE.in_force() {
        return Err(crowded);
    }
    let (numbers, compact) = compacted(window, facets);
    if OFFICE.exceeded_by(numbers.len() as u64, compact.len() as u64 / 3).is_some() {
        return Err(crowded);
    }
    let answer = library.boundary_components(numbers.len(), &compact, OFFICE).map_err(Unlisted::Stop)?;
    let kept = |words: &[u64]| kept(words, &numbers, first..=last);
    Ok((kept(&answer.edges), kept(&answer.irregular)))
}

/// The facets of a window with their vertices numbered from 0 in the same order; and the vertices.
fn compacted(window: &[Side], facets: &[u32]) -> (Vec<u32>, Vec<u32>) {
    let mut places: Vec<usize> = window.iter().map(|side| side.1).collect();
    places.sort_unstable();
    places.dedup();
    let corners: Vec<u32> = places.iter().flat_map(|place| &facets[3 * place..3 * place + 3]).copied().collect();
    let mut numbers = corners.clone();
    numbers.sort_unstable();
    numbers.dedup();
    let compact = corners.iter().map(|id| numbers.partition_point(|number| number < id) as u32).collect();
    (numbers, compact)
}

/// Those of an answer's edges that are the window's to decide. Facets of a window have sides in others too.
fn kept(words: &[u64], numbers: &[u32], range: RangeInclusive<Edge>) -> Vec<Edge> {
    let named = |pair: [u64; 2]| pair.map(|word| numbers[word as usize]);
    let mut kept: Vec<Edge> = pairs(words).map(named).filter(|edge| range.contains(edge)).collect();
    kept.sort_unstable();
    kept
}

#[cfg(test)]
mod tests {
    use super::*;
    use std::collections::BTreeMap;

    const TETRAHEDRON: [u32; 12] = [0, 2, 1, 0, 1, 3, 0, 3, 2, 1, 2, 3];

    fn listed(vertices: usize, facets: &[u32]) -> Edges {
        list(&mut Library::default(), vertices, facets).unwrap_or_else(|why| panic!("{why:?}"))
    }

    fn windows(vertices: usize, facets: &[u32], most: usize) -> Result<Edges, Unlisted> {
        in_windows(&mut Library::default(), vertices, facets, most)
    }

    /// Open and irregular edges by the rule, counted side by side.
    fn by_the_rule(facets: &[u32]) -> (Vec<Edge>, Vec<Edge>) {
        let mut sides: BTreeMap<Edge, [usize; 2]> = BTreeMap::new();
        for f in facets.chunks_exact(3) {
            for (a, b) in [(f[0], f[1]), (f[1], f[2]), (f[2], f[0])] {
                sides.entry([a.min(b), a.max(b)]).or_default()[usize::from(a > b)] += 1;
            }
        }
        let wanted = |wanted: fn(&[usize; 2]) -> bool| sides.iter().filter(|(_, s)| wanted(s)).map(|(e, _)| *e).collect();
        (wanted(|s| s[0] + s[1] == 1), wanted(|s| s[0] + s[1] > 2 || s[0] == 2 || s[1] == 2))
    }

    fn sorted(mut edges: Vec<Edge>) -> Vec<Edge> {
        edges.sort_unstable();
        edges
    }

    #[test]
    fn a_tetrahedron_is_sound_and_without_a_facet_has_a_ring_of_three() {
        assert!(listed(4, &TETRAHEDRON).are_sound());
        let open = listed(4, &TETRAHEDRON[3..]);
        assert_eq!(open.open, [[0, 1], [0, 2], [1, 2]]);
        assert_eq!((open.components.as_deref(), open.rings()), (Some(&[Component { edges: 3, ring: true }][..]), Some(1)));
        assert_eq!(open.grouped().as_deref(), Some("in 1 component, a ring"));
        assert!(!open.are_sound() && open.irregular.is_empty());
    }

    #[test]
    fn components_are_told_in_words() {
        let told = |rings: &[bool]| {
            let components = rings.iter().map(|&ring| Component { edges: 3, ring }).collect();
            Edges { open: vec![], components: Some(components), irregular: vec![] }.grouped().unwrap_or_default()
        };
        assert_eq!(told(&[false]), "in 1 component, no ring");
        assert_eq!(told(&[false, false]), "in 2 components, none of them a ring");
        assert_eq!(told(&[false, true, false]), "in 3 components, 1 of them a ring");
        assert_eq!(told(&[true, true]), "in 2 components, 2 of them rings");
        assert_eq!(Edges { open: vec![], components: None, irregular: vec![] }.grouped(), None);
    }

    /// Numbers below a bound, the same in every run.
    struct Random(u64);

    impl Random {
        fn below(&mut self, bound: u32) -> u32 {
            self.0 = self.0.wrapping_mul(6_364_136_223_846_793_005).wrapping_add(1_442_695_040_888_963_407);
            ((self.0 >> 33) % u64::from(bound)) as u32
        }
    }

    /// Facets with repeated corners, facets twice and turned round, and a fan around one vertex.
    fn made_up(random: &mut Random) -> (u32, Vec<u32>) {
        let vertices = 1 + random.below(14);
        let mut facets: Vec<[u32; 3]> = Vec::new();
        for _ in 0..random.below(40) {
            let [a, b, c] = [0; 3].map(|_| random.below(vertices));
            facets.push([a, b, c]);
            match random.below(6) {
                0 => facets.push([b, c, a]),
                1 => facets.push([a, c, b]),
                2 => facets.push([a, a, b]),
                3 => facets.extend((0..random.below(5)).map(|step| [a, (b + step) % vertices, (b + step + 1) % vertices])),
                _ => {}
            }
        }
        (vertices, facets.concat())
    }

    #[test]
    fn windows_list_the_edges_of_the_whole() {
        let mut random = Random(13);
        let mut faulty = 0;
        for _ in 0..400 {
            let (vertices, facets) = made_up(&mut random);
            let whole = listed(vertices as usize, &facets);
            let (open, irregular) = (sorted(whole.open), whole.irregular);
            assert_eq!((open.clone(), irregular.clone()), by_the_rule(&facets), "{facets:?}");
            faulty += open.len().min(irregular.len());
            for most in [1, 2, 3, 7, 20, 1000] {
                let parts = windows(vertices as usize, &facets, most);
                assert_eq!(parts, Ok(Edges { open: open.clone(), components: None, irregular: irregular.clone() }), "{most}: {facets:?}");
            }
        }
        assert!(faulty > 1000, "{faulty}");
    }

    /// No edge stands in two windows, and none is over the bound but for a single one.
    #[test]
    fn windows_cut_between_edges() {
        let mut random = Random(29);
        for _ in 0..200 {
            let (_, facets) = made_up(&mut random);
            let sides = sides(&facets).unwrap_or_default();
            let mut rest = &sides[..];
            while !rest.is_empty() {
                let (window, behind) = rest.split_at(window_length(rest, 5));
                assert!(window.len() <= 5 || window.iter().all(|side| side.0 == window[0].0));
                assert_ne!(window.last().map(|side| side.0), behind.first().map(|side| side.0));
                rest = behind;
            }
        }
    }

    #[test]
    fn a_corner_that_names_no_vertex_is_refused_in_windows_too() {
        assert_eq!(windows(3, &TETRAHEDRON, 4), Err(Unlisted::Stop(Stop::Refused(3, [0; 4]))));
        let far = [0, 1, 99_999];
        assert_eq!(list(&mut Library::default(), 99_999, &far), Err(Unlisted::Stop(Stop::Refused(3, [0; 4]))));
        assert_eq!(list(&mut Library::default(), 100_000, &far).map(|edges| edges.open), Ok(vec![[0, 1], [0, 99_999], [1, 99_999]]));
    }

    /// A fan of 70,000 facets around vertex 0 is taken; 70,000 facets at one edge are too many to be judged at once.
    #[test]
    fn a_crowd_at_one_vertex_is_listed_and_at_one_edge_is_told() {
        let fan: Vec<u32> = (1..=70_000).flat_map(|id| [0, id, id % 70_000 + 1]).collect();
        let rim = listed(70_001, &fan);
        assert_eq!((rim.open.len(), rim.irregular.len(), rim.components), (70_000, 0, None));
        for facets in [65_535, 70_000, 200_000] {
            let book: Vec<u32> = (2..facets + 2).flat_map(|id| [0, 1, id]).collect();
            let crowded = Unlisted::Crowded([0, 1], facets as usize);
            assert_eq!(list(&mut Library::default(), facets as usize + 2, &book), Err(crowded));
        }
        // Two vertices and 65,534 more are as many as are taken at once; the third is used by no facet, so that windows are needed.
        let book: Vec<u32> = (3..65_537).flat_map(|id| [0, 1, id]).collect();
        let pages = listed(65_537, &book);
        assert_eq!((pages.open.len(), pages.irregular), (2 * 65_534, vec![[0, 1]]));
    }
}
