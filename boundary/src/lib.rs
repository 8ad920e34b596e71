//! The functions of include/yongpham.h for programs in Rust: what the C side is declared as, and for each function a safe call
//! that takes slices and answers a reply. A module a function: its declaration, and beside it the call.
//!
//! The header says what each function takes, does and answers. Nothing is added here: no room is computed or lent, no reply is
//! interpreted. Parameters stand in the header's order, except that a slice is pointer and length in one, a box six doubles
//! in one, and that the four words of values come back in the reply.

mod boundary_components;
mod candidates;
mod caps;
mod clean;
mod clip;
mod tolerance;

#[cfg(feature = "leaves")]
pub mod leaves;

pub use boundary_components::boundary_components;
pub use candidates::candidates;
pub use caps::caps;
pub use clean::clean;
pub use clip::clip;
pub use tolerance::tolerance;

/// A box: min x, y, z, then max x, y, z.
pub type Extents = [f64; 6];

/// What a function answers.
#[derive(Clone, Copy, Debug, PartialEq, Eq)]
pub struct Reply {
    /// 0 for done, else the refusal's number.
    pub number: u32,
    /// What the number comes with (lengths, need, pair, place), then zeros.
    pub values: [u64; 4],
}

/// What `values` holds before a call. Every call writes all four words, so that this is seen in a reply only if one did not.
const UNWRITTEN: [u64; 4] = [0x5ca1_ab1e; 4];

/// A reply from a call that is handed four words to write. They are as they are in C: a pointer to the first.
fn reply(call: impl FnOnce(*mut u64) -> u32) -> Reply {
    let mut values = UNWRITTEN;
    let number = call(values.as_mut_ptr());
    Reply { number, values }
}
