//! Requests that break a condition each, and the open edges that closing leaves.

use super::boundaries::Told;
use super::{
    has_a_small_cap, has_an_unused_vertex, is_full, open_edges, shares_a_key, End, Library, Pairs,
};
use crate::clean;
use crate::request::Request;

/// Shares a key, has an unused vertex, has a small cap.
type Broken = [bool; 3];

struct Kept {
    name: &'static str,
    request: Request,
    broken: Broken,
    /// Whether cleaning gives the mesh back as it is.
    cleaned: bool,
    /// Open edges of the closed mesh, positive and negative.
    open: [Pairs; 2],
}

const UNIT: [f64; 6] = [0.0, 0.0, 0.0, 1.0, 1.0, 1.0];

/// A square of this side at half the height of its box, facing up.
fn square(side: f64) -> Request {
    let corners = [[0.0, 0.0], [side, 0.0], [side, side], [0.0, side]];
    let vertices = corners.iter().flat_map(|&[x, y]| [x, y, side / 2.0]);
    let facets = vec![0, 1, 2, 0, 2, 3];
    let extents = UNIT.map(|x| x * side);
    let mut request = Request::new("kept", vertices.collect(), facets, extents, 1e-10);
    request.resolution = side;
    request
}

/// Cleaning holds two corners apart by their distance, capping joins them by their cell: a
/// surface that rises from YMin to YMax, in three strips from XMin to XMax. The middle one is
/// 1.06 eps wide and its two ends on either face share a cell. Vertices in order of first use,
/// so that cleaning gives the mesh back as it is.
fn held_apart() -> Request {
    let eps = 1.0 / 1024.0;
    let near = 0.375 * eps;
    let line = [
        [0.0, 0.25],
        [0.5 - near, 0.5 - near],
        [0.5 + near, 0.5 + near],
        [1.0, 0.75],
    ];
    // Ends on XMin are 0, 3, 5, 7, those on XMax 1, 2, 4, 6.
    let order = [
        (0, 0),
        (1, 0),
        (1, 1),
        (0, 1),
        (1, 2),
        (0, 2),
        (1, 3),
        (0, 3),
    ];
    let place = |(x, at): (usize, usize)| [x as f64, line[at][0], line[at][1]];
    let vertices = order.into_iter().flat_map(place).collect();
    let (low, high) = ([0, 3, 5, 7], [1, 2, 4, 6]);
    let strip = |i: usize| {
        [
            low[i],
            high[i],
            high[i + 1],
            low[i],
            high[i + 1],
            low[i + 1],
        ]
    };
    let facets = (0..3).flat_map(strip).collect();
    Request::new("kept", vertices, facets, UNIT, eps)
}

/// One facet at the box's corner whose first two corners share a cell; its pair with the third
/// is open both ways.
fn open_both_ways() -> Request {
    let near = 3.0 / 8192.0;
    let vertices = [[-near; 3], [near; 3], [0.0, 1.0, 0.0]].concat();
    Request::new("kept", vertices, vec![0, 1, 2], UNIT, 1.0 / 1024.0)
}

fn kept() -> Vec<Kept> {
    let mut unused = square(1.0);
    unused.vertices.extend([1e-11, 0.0, 0.5]);
    let mut above = square(1.0);
    above.vertices.extend([0.0, 0.0, 2.0]);
    let both = |pairs: &[(u64, u64)]| [pairs.to_vec(), pairs.to_vec()];
    vec![
        Kept {
            name: "the customer's slit: two vertices share a key",
            request: held_apart(),
            broken: [true, false, false],
            cleaned: true,
            open: both(&[(0, 3), (0, 5), (1, 2), (1, 4), (2, 4), (3, 5)]),
        },
        Kept {
            name: "two vertices share a key, a pair open both ways",
            request: open_both_ways(),
            broken: [true, false, false],
            cleaned: false,
            open: [vec![(0, 1), (0, 2)], vec![(0, 1), (0, 2), (1, 2)]],
        },
        Kept {
            name: "an unused vertex takes over an end, whose key it shares",
            request: unused,
            broken: [true, true, false],
            cleaned: false,
            open: both(&[(0, 1), (0, 3), (1, 4), (3, 4)]),
        },
        Kept {
            name: "an unused vertex with a key of its own, on two planes but off the box",
            request: above,
            broken: [false, true, false],
            cleaned: false,
            open: [vec![], vec![(4, 5), (4, 8)]],
        },
        Kept {
            name: "every cap is dropped for its area",
            request: square(1.0 / 1_048_576.0),
            broken: [false, false, true],
            cleaned: true,
            open: both(&[(0, 1), (0, 3), (1, 2), (2, 3)]),
        },
    ]
}

impl Kept {
    /// What is not as it was kept.
    fn fault(&self, library: &mut Library) -> Result<(), End> {
        let mut request = self.request.clone();
        let nothing = || End::Left("nothing to close".into());
        let (lists, list) = library.list(&request)?.ok_or_else(nothing)?;
        let broken = [
            shares_a_key(&request),
            has_an_unused_vertex(&request),
            has_a_small_cap(&lists[0], &list),
        ];
        if broken != self.broken || !is_full(&lists, &list) {
            return Err(End::Fails(format!("conditions {broken:?}")));
        }
        let mut again = request.clone();
        if self.cleaned {
            library.mesh(&clean::OPERATION, &mut again)?;
        }
        if again.vertices != request.vertices || again.facets != request.facets {
            return Err(End::Fails("cleaning changes it".into()));
        }
        request.caps = list.concat();
        let closed = library.closed(&request)?;
        for ((vertices, facets), open) in closed.iter().zip(&self.open) {
            let told = library.boundary(vertices, facets)?;
            if open.is_empty() != (told == Told::Nothing) {
                return Err(End::Fails(format!("boundary: {told:?}")));
            }
        }
        let open = closed.map(|(_, facets)| open_edges(&facets));
        if open != self.open {
            return Err(End::Fails(format!("open edges {open:?}")));
        }
        Ok(())
    }
}

/// Runs the kept requests; answers how many are not as they were kept.
pub fn failures(library: &mut Library) -> u64 {
    let mut failures = 0;
    for kept in kept() {
        match kept.fault(library) {
            Ok(()) => println!(
                "kept, as expected: {}: open edges {:?}",
                kept.name, kept.open
            ),
            Err(end) => {
                failures += 1;
                println!("kept, NOT as expected: {}: {end:?}", kept.name);
            }
        }
    }
    failures
}
