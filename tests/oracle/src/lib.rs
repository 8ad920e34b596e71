//! Document 01's five operations, computed by the Rust reference, with the caller's
//! ceiling of document 02, E2.
//!
//! The modules that `reference.rs` declares are the reference with the edits of
//! edits.rs. Around them stand the refusals of document 01's table, written from
//! that table: the reference has none. Every operation takes the arguments of the
//! C interface in its order, settles its outputs and clears its work room.

include!(concat!(env!("OUT_DIR"), "/reference.rs"));

/// The module that gathers the two geometry leaves of the reference.
mod geometry {
    pub use crate::geometry_point::Point;
    pub use crate::geometry_triangle::{Triangle, Triangle3};
}

/// Stands in for a file that is not supplied; none of the operations calls it.
#[allow(dead_code)]
mod moller {
    use crate::geometry::Triangle3;

    pub fn tri_tri_intersect(_: Triangle3, _: Triangle3) -> bool {
        unreachable!("no operation of document 01 intersects triangles")
    }
}

mod boundary_components;
mod candidates;
mod caps;
mod clean;
mod clip;
mod refusals;
mod reply;
mod tolerance;
mod whole;

pub mod length;
pub mod reference;

#[cfg(test)]
mod ceilings;
#[cfg(test)]
mod edge_lengths;
#[cfg(test)]
mod findings;
#[cfg(test)]
mod lent;
#[cfg(test)]
mod worked_blocks;

pub use boundary_components::{boundary, boundary_components, boundary_lists, Boundary};
pub use candidates::candidates;
pub use caps::caps;
pub use clean::clean;
pub use clip::clip;
pub use refusals::{grid_points, need_words, segments};
pub use reply::Reply;
pub use tolerance::tolerance;

use aabb_clipping::AABB;

/// A box as the C interface passes it: min x, y, z, then max x, y, z.
pub type Extents = [f64; 6];

/// The reference's box.
fn aabb(extents: &Extents) -> AABB<f64> {
    AABB {
        min_corner: [extents[0], extents[1], extents[2]],
        max_corner: [extents[3], extents[4], extents[5]],
    }
}

/// The reference numbers vertices with `usize`, the interface with 32 bits.
fn wide(facets: &[u32]) -> Vec<usize> {
    facets.iter().map(|&id| id as usize).collect()
}

/// Back to 32 bits. No result of an accepted request has 2^32 vertices.
fn narrow(facets: &[usize]) -> Vec<u32> {
    facets
        .iter()
        .map(|&id| u32::try_from(id).expect("a vertex number fits 32 bits"))
        .collect()
}
