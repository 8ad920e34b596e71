//! A module a subcommand. Each answers whether all went well, or why it was called wrongly.

pub mod check;
pub mod close;
pub mod cut;
pub mod join;
pub mod sample;

/// What a subcommand answers: true for exit status 0, false for 1; a sentence for 2, wrong use.
pub type Answer = Result<bool, String>;
