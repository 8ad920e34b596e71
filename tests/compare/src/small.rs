//! The small requests of each operation, all of them, compared; then every mesh of none to four
//! vertices and none to four facets under every ceiling from 0 to 5.

use crate::chosen::{Chosen, Room};
use crate::lent::Lent;
use crate::operation::{compare, with_room, Operation};
use crate::random::Random;
use crate::report::Row;
use crate::request::Request;
use crate::Options;

const MOST: usize = 4;

/// So many vertices of a square on a face of the unit box, so many facets of the first three.
fn counted(vertices: usize, facets: usize, ceiling: u64) -> Request {
    let corners = [[0.0, 0.0], [0.75, 0.0], [0.75, 0.75], [0.0, 0.75]];
    let points = corners[..vertices].iter().flat_map(|&[x, y]| [x, y, 0.0]);
    let corner = |place: usize| (place % 3).min(vertices.saturating_sub(1)) as u32;
    let list = (0..3 * facets).map(corner).collect();
    let extents = [0.0, 0.0, 0.0, 1.0, 1.0, 1.0];
    let mut request = Request::new("counted", points.collect(), list, extents, 1e-10);
    request.ceiling = ceiling;
    request
}

fn all_counted() -> impl Iterator<Item = Request> {
    let under = |ceiling| {
        let of = move |vertices| (0..=MOST).map(move |facets| counted(vertices, facets, ceiling));
        (0..=MOST).flat_map(of)
    };
    (0..=MOST as u64 + 1).flat_map(under)
}

/// Ceiling, work room and outputs are chosen at random if the operation says nothing of them,
/// and so is what the family leaves open.
pub fn row(operation: &Operation, options: &Options, work: &mut Lent<u64>) -> Row {
    let mut row = Row::new(operation.name);
    let ours = operation.asked(options);
    let (count, small) = operation.small;
    for turn in 0..count {
        let mut random = Random::new(options.seed, "small", turn);
        let request = small(&mut random, turn);
        let request = match operation.small_room {
            Some(room) => Chosen { request, room }.with_room(operation, work),
            None => with_room(operation, &mut random, request, work),
        };
        compare(&mut row, &request, work, (operation, ours), || {
            format!(
                "small request {turn} of {}, seed {}",
                operation.name, options.seed
            )
        });
    }
    for request in all_counted() {
        let room = Room::Ample;
        let request = Chosen { request, room }.with_room(operation, work);
        compare(&mut row, &request, work, (operation, ours), || {
            format!("small request by its counts, of {}", operation.name)
        });
    }
    row
}
