//! The command around libyongpham.a: cuts meshes to a box, cleans them, closes them and judges the solids.
//!
//! It reads, calls, judges and writes; what comes out of a mesh is the library's to say. A subcommand is a module of `commands`.

pub mod ceiling;
pub mod cli;
pub mod commands;
pub mod edges;
pub mod explain;
pub mod faces;
pub mod files;
pub mod library;
pub mod limits;
pub mod list;
pub mod mesh;
pub mod meshes;
pub mod options;
pub mod outcome;
pub mod picture;
pub mod refusals;
pub mod report;
pub mod results;
pub mod sample;
pub mod steps;
pub mod tasks;
pub mod text;
pub mod triangulator;
pub mod verdict;
pub mod volume;

#[cfg(test)]
mod sample_tests;
