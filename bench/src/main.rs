//! Times our static library beside the Rust on the same inputs: runs interleaved,
//! medians, a markdown table.
//!
//!     bench [ROUNDS] [large] [boundary_components]
//!
//! ROUNDS is 9 if not given and at least 7; `large` adds caps at 1,000,000 supplied
//! triangles and clean with all vertices in one cell; the operation's name leaves all else
//! out.

mod boundary_components;
mod candidates;
mod caps;
mod clean;
mod clip;
mod meshes;
mod numbers;
mod timing;
// The comparison's triangulation makes the supplied lists here too.
#[path = "../../tests/compare/src/triangulation.rs"]
mod triangulation;
mod words;

fn main() {
    let arguments: Vec<String> = std::env::args().skip(1).collect();
    let rounds = arguments
        .iter()
        .find_map(|text| text.parse().ok())
        .unwrap_or(9)
        .max(7usize);
    let large = arguments.iter().any(|text| text == "large");
    if arguments.iter().any(|text| text == "boundary_components") {
        timing::mesh_header();
        boundary_components::rows(rounds);
        return;
    }
    numbers::rows(rounds);
    words::rows(rounds);
    timing::mesh_header();
    clip::rows(rounds);
    clean::rows(rounds, large);
    candidates::rows(rounds);
    caps::rows(rounds, large);
    boundary_components::rows(rounds);
}
