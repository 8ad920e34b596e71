//! Tolerance of a box (module 2).

use crate::aabb_clipping::bbox_eps;
use crate::refusals::{bad_box, bad_number, sound_coordinates};
use crate::{aabb, Extents, Reply};

/// Done carries the bits of the tolerance. Refusals 4, 5.
pub fn tolerance(extents: &Extents) -> Reply {
    match tested(extents) {
        Ok(()) => Reply {
            number: 0,
            values: [bbox_eps(aabb(extents)).to_bits(), 0, 0, 0],
        },
        Err(reply) => reply,
    }
}

fn tested(extents: &Extents) -> Result<(), Reply> {
    bad_number(!sound_coordinates(extents))?;
    bad_box(extents)
}
