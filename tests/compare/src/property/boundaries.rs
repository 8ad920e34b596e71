//! The boundary of a mesh, asked for and held against its sides.

use super::{open_edges, sides, End, Library, Pairs};
use crate::boundary_components;
use crate::request::Request;

/// What the three outputs tell.
#[derive(Debug, PartialEq)]
pub enum Told {
    /// All three are empty.
    Nothing,
    Something,
}

/// "borne by three or more facet sides, or by two that run the same way"
fn irregular_edges(facets: &[u32]) -> Pairs {
    let irregular =
        |&(_, (bearers, sum)): &(_, (u32, i32))| bearers > 2 || bearers == 2 && sum != 0;
    let all = sides(facets).into_iter().filter(irregular);
    all.map(|(pair, _)| pair).collect()
}

/// "every edge has two different ends and is borne by two sides, one each way"
fn is_closed(facets: &[u32]) -> bool {
    let sound = |(pair, (bearers, sum)): ((u64, u64), (u32, i32))| {
        pair.0 != pair.1 && bearers == 2 && sum == 0
    };
    sides(facets).into_iter().all(sound)
}

fn pairs(words: &[u64]) -> Pairs {
    words
        .chunks_exact(2)
        .map(|pair| (pair[0], pair[1]))
        .collect()
}

impl Library<'_> {
    /// Asks for the boundary of a mesh. The edges that it tells must be those whose sides say
    /// so, each in one component, and it must tell nothing exactly if the mesh is closed.
    pub fn boundary(&mut self, vertices: &[f64], facets: &[u32]) -> Result<Told, End> {
        let count = vertices.len() as u64 / 3;
        let request = Request::counted("boundary", count, facets.to_vec());
        let outputs = self.run(&boundary_components::OPERATION, &request)?;
        let fails = |text: &str| Err(End::Fails(format!("boundary: {text}")));
        let mut open = pairs(&outputs[0]);
        let counted: u64 = pairs(&outputs[1]).iter().map(|component| component.0).sum();
        if counted != open.len() as u64 {
            return fails("an edge is in no component");
        }
        open.sort_unstable();
        if open != open_edges(facets) {
            return fails("other open edges");
        }
        if pairs(&outputs[2]) != irregular_edges(facets) {
            return fails("other irregular edges");
        }
        let nothing = outputs.iter().all(Vec::is_empty);
        if nothing != is_closed(facets) {
            return fails("empty and not closed, or the other way round");
        }
        self.boundaries += 1;
        self.nothing_told += u64::from(nothing);
        Ok(if nothing {
            Told::Nothing
        } else {
            Told::Something
        })
    }
}
