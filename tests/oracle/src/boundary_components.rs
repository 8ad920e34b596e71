//! Open boundaries listed (document 02, E13), written from its paragraph: sides sorted by their
//! pair, and chains followed edge by edge.

use crate::refusals::*;
use crate::reply::{finish, room, write_front};
use crate::Reply;

type Pair = (u32, u32);

/// What the three outputs tell, in their order.
#[derive(Debug, Default, PartialEq)]
pub struct Boundary {
    /// The paper's slits.
    pub components: Vec<Vec<Pair>>,
    pub irregular: Vec<Pair>,
}

/// Refusals 1, 2, 3, 7, 12.
pub fn boundary_components(
    vertex_count: u64,
    facets: &[u32],
    ceiling: u64,
    work: &mut [u64],
    out_edges: &mut [u64],
    out_components: &mut [u64],
    out_irregular: &mut [u64],
) -> Reply {
    let outcome = tested(vertex_count, facets, ceiling, work).and_then(|()| {
        let lists = boundary_lists(facets);
        let mut outputs = [out_edges, out_components, out_irregular];
        for (list, output) in lists.iter().zip(&outputs) {
            room(list, output)?;
        }
        for (list, output) in lists.iter().zip(&mut outputs) {
            write_front(list, output);
        }
        Ok(Reply::done(&lists.map(|list| list.len())))
    });
    finish(outcome, work)
}

/// The three outputs as words.
pub fn boundary_lists(facets: &[u32]) -> [Vec<u64>; 3] {
    let found = boundary(facets);
    let component = |edges: &Vec<Pair>| [edges.len() as u64, u64::from(is_ring(edges))];
    [
        words(found.components.iter().flatten()),
        found.components.iter().flat_map(component).collect(),
        words(&found.irregular),
    ]
}

fn words<'a>(pairs: impl IntoIterator<Item = &'a Pair>) -> Vec<u64> {
    pairs
        .into_iter()
        .flat_map(|&(a, b)| [a.into(), b.into()])
        .collect()
}

/// "1, 2 (the vertex count too), 3, 7 (G is 0)".
fn tested(vertex_count: u64, facets: &[u32], ceiling: u64, work: &[u64]) -> Result<(), Reply> {
    ragged(&[], facets, &[])?;
    if vertex_count > ceiling.min(65_536) {
        return Err(Reply::refused(2));
    }
    too_many(&[], facets, &[], ceiling)?;
    if facets.iter().any(|&id| u64::from(id) >= vertex_count) {
        return Err(Reply::refused(3));
    }
    let need = 128 * (vertex_count + facets.len() as u64 / 3) + 1_024;
    if (work.len() as u64) < need {
        return Err(Reply::refused_with(7, need));
    }
    Ok(())
}

/// The pair of a side, smaller vertex first, and whether the side runs down: "an edge a, a
/// counts as the same way".
fn sides(facet: &[u32]) -> [(Pair, bool); 3] {
    [(0, 1), (1, 2), (2, 0)].map(|(from, to)| {
        let (from, to) = (facet[from], facet[to]);
        ((from.min(to), from.max(to)), from > to)
    })
}

pub fn boundary(facets: &[u32]) -> Boundary {
    let mut all: Vec<(Pair, bool)> = facets.chunks(3).flat_map(sides).collect();
    all.sort_unstable();
    let (mut open, mut irregular) = (Vec::new(), Vec::new());
    for bearers in all.chunk_by(|one, other| one.0 == other.0) {
        let pair = bearers[0].0;
        match bearers {
            [_] => open.push(pair),
            [one, other] if one.1 != other.1 => {}
            _ => irregular.push(pair),
        }
    }
    Boundary {
        components: chained(&open),
        irregular,
    }
}

/// "Open edges joined by a chain of shared vertices are one slit. Slits come in order of their
/// smallest edge, and edges ascend within each": the edges ascend already.
fn chained(open: &[Pair]) -> Vec<Vec<Pair>> {
    let vertices = open.iter().map(|edge| edge.1 + 1).max().unwrap_or(0);
    let mut at_vertex = vec![Vec::new(); vertices as usize];
    for (place, &(a, b)) in open.iter().enumerate() {
        at_vertex[a as usize].push(place);
        at_vertex[b as usize].push(place);
    }
    let mut seen = vec![false; open.len()];
    let mut all = Vec::new();
    for start in 0..open.len() {
        if seen[start] {
            continue;
        }
        seen[start] = true;
        let (mut reached, mut next) = (vec![start], 0);
        while next < reached.len() {
            let (a, b) = open[reached[next]];
            next += 1;
            for vertex in [a, b] {
                // Once is enough for a vertex.
                for place in std::mem::take(&mut at_vertex[vertex as usize]) {
                    if !seen[place] {
                        seen[place] = true;
                        reached.push(place);
                    }
                }
            }
        }
        reached.sort_unstable();
        all.push(reached.into_iter().map(|place| open[place]).collect());
    }
    all
}

/// "It is a ring exactly if no edge joins a vertex to itself and each of its vertices is an end
/// of exactly two of its edges."
fn is_ring(component: &[Pair]) -> bool {
    let mut ends: Vec<u32> = component.iter().flat_map(|&(a, b)| [a, b]).collect();
    ends.sort_unstable();
    component.iter().all(|(a, b)| a != b) && ends.chunk_by(u32::eq).all(|edges| edges.len() == 2)
}

#[cfg(test)]
mod tests {
    use super::*;

    fn told(facets: &[u32]) -> (Vec<(usize, bool)>, Vec<Pair>) {
        let found = boundary(facets);
        (
            found
                .components
                .iter()
                .map(|c| (c.len(), is_ring(c)))
                .collect(),
            found.irregular,
        )
    }

    /// "C8's square has one slit, a ring of four."
    #[test]
    fn c8_is_a_ring_of_four() {
        let found = boundary(&[0, 1, 2, 0, 2, 3]);
        assert_eq!(found.components, [vec![(0, 1), (0, 3), (1, 2), (2, 3)]]);
        assert!(is_ring(&found.components[0]) && found.irregular.is_empty());
    }

    /// A tetrahedron has nothing to tell.
    #[test]
    fn closed() {
        assert_eq!(
            boundary(&[0, 2, 1, 0, 1, 3, 0, 3, 2, 1, 2, 3]),
            Boundary::default()
        );
    }

    /// Two facets that touch at a vertex: one component, no ring.
    #[test]
    fn a_vertex_of_four_edges() {
        assert_eq!(told(&[0, 1, 2, 2, 3, 4]), (vec![(6, false)], vec![]));
    }

    /// An edge a, a is open if one side bears it, and irregular if two or three do.
    #[test]
    fn an_edge_with_one_end() {
        assert_eq!(told(&[0, 0, 1]), (vec![(1, false)], vec![]));
        assert_eq!(told(&[0, 0, 0]), (vec![], vec![(0, 0)]));
        assert_eq!(told(&[0, 0, 1, 0, 0, 2]), (vec![], vec![(0, 0)]));
    }

    /// Edges are grouped by components, and those come in the order of their smallest edges.
    #[test]
    fn order() {
        let found = boundary(&[1, 2, 4, 0, 3, 5]);
        let expected = [vec![(0, 3), (0, 5), (3, 5)], vec![(1, 2), (1, 4), (2, 4)]];
        assert_eq!(found.components, expected);
    }

    /// As many edges as vertices, and no ring: a triangle with a tail.
    #[test]
    fn a_tail() {
        let (components, irregular) = told(&[0, 1, 2, 2, 3, 4, 3, 4, 4, 2, 4, 4]);
        assert_eq!(components, [(4, false)]);
        assert_eq!(irregular, [(2, 4), (3, 4), (4, 4)]);
    }

    /// Two facets alike: each edge is borne twice the same way; turned round, nothing is told.
    #[test]
    fn twice_the_same_way() {
        assert_eq!(
            told(&[0, 1, 2, 0, 1, 2]),
            (vec![], vec![(0, 1), (0, 2), (1, 2)])
        );
        assert_eq!(told(&[0, 1, 2, 0, 2, 1]), (vec![], vec![]));
    }
}
