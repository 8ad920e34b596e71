//! The points at which an operation is done before its end, so that a run can say how often
//! it met each.

use crate::caps;
use crate::operation::{Answer, Operation};
use crate::request::Request;

/// "No facet left" is cleaning's: all welded vertices come back. "Closed" is a mesh with
/// facets whose boundary is nothing.
pub const NAMES: [&str; 5] = [
    "no facet",
    "mode none",
    "no open edge",
    "no facet left",
    "closed",
];
const NO_FACET: usize = 0;
const MODE_NONE: usize = 1;
const NO_OPEN_EDGE: usize = 2;
const NO_FACET_LEFT: usize = 3;
const CLOSED: usize = 4;

/// Where this request was done early, if it was.
pub fn point(operation: &Operation, request: &Request, answer: &Answer) -> Option<usize> {
    let lengths = answer.reply.values;
    if answer.reply.number != 0 {
        return None;
    }
    match operation.name {
        "caps" if request.mode == 0 => Some(MODE_NONE),
        _ if request.facets.is_empty() => Some(NO_FACET),
        "clean" if lengths[1] == 0 => Some(NO_FACET_LEFT),
        "candidates" if lengths == [0; 4] => Some(NO_OPEN_EDGE),
        "boundary_components" if lengths == [0; 4] => Some(CLOSED),
        "caps" if caps::comes_back(request, &lengths) => Some(NO_OPEN_EDGE),
        _ => None,
    }
}
