//! The tests of document 01's table, one function a row, each with its words.
//!
//! An operation calls those of its rows in the table's order. Rows 9, 10 and 11
//! stand with candidates and caps, row 12 in reply.rs.

use crate::{Extents, Reply};

/// "At most 65,536 of each." Document 02, E2: a caller's ceiling "over 65,536 counts
/// as 65,536".
const LARGEST_CEILING: u64 = 65_536;
/// "Supplied cap triangles: ... at most 1,048,576."
const CAP_CEILING: usize = 1_048_576;
/// "Magnitude of a coordinate or box corner at most 2^30".
const LARGEST: f64 = 1_073_741_824.0;
/// "Axis segments at most 256."
const SEGMENT_CEILING: f64 = 256.0;
/// "Rounded keys at most 2^62 in magnitude."
const KEY_CEILING: f64 = 4_611_686_018_427_387_904.0;
/// Key: each coordinate divided by max(eps, 1e-12).
const SMALLEST_CELL: f64 = 1.0e-12;

type Test = Result<(), Reply>;

fn refuse_if(condition: bool, number: u32) -> Test {
    if condition {
        return Err(Reply::refused(number));
    }
    Ok(())
}

/// 1 Ragged: "a list length is no multiple of 3 (cap list: of 4)".
pub fn ragged(vertices: &[f64], facets: &[u32], caps: &[u64]) -> Test {
    refuse_if(
        vertices.len() % 3 != 0 || facets.len() % 3 != 0 || caps.len() % 4 != 0,
        1,
    )
}

/// 2 TooMany: "a list exceeds its count above". Document 02, E2: "2 goes by the
/// caller's ceiling for vertices and facets"; the cap list keeps its own count.
pub fn too_many(vertices: &[f64], facets: &[u32], caps: &[u64], ceiling: u64) -> Test {
    let most = ceiling.min(LARGEST_CEILING);
    refuse_if(
        vertices.len() as u64 / 3 > most
            || facets.len() as u64 / 3 > most
            || caps.len() / 4 > CAP_CEILING,
        2,
    )
}

/// 3 BadIndex: "a facet number is not below the vertex count".
pub fn bad_index(vertices: &[f64], facets: &[u32]) -> Test {
    let count = vertices.len() / 3;
    refuse_if(facets.iter().any(|&id| id as usize >= count), 3)
}

/// 4 BadNumber: "not finite or breaks its range above".
pub fn bad_number(condition: bool) -> Test {
    refuse_if(condition, 4)
}

/// Finite and at most 2^30 in magnitude.
pub fn sound_coordinates(values: &[f64]) -> bool {
    values.iter().all(|v| v.is_finite() && v.abs() <= LARGEST)
}

/// "eps from 0 to 1"
pub fn sound_eps(eps: f64) -> bool {
    eps.is_finite() && (0.0..=1.0).contains(&eps)
}

/// "resolution above 0 and at most 2^30"
pub fn sound_resolution(resolution: f64) -> bool {
    resolution.is_finite() && resolution > 0.0 && resolution <= LARGEST
}

/// 5 BadBox: "min < max fails on an axis".
pub fn bad_box(extents: &Extents) -> Test {
    refuse_if((0..3).any(|axis| extents[axis] >= extents[axis + 3]), 5)
}

/// Segments of each axis, after tests 4 and 5: the rounded quotient's ceiling, at
/// least 1. Infinite where the quotient overflows.
pub fn segments(extents: &Extents, resolution: f64, eps: f64) -> [f64; 3] {
    [0, 1, 2].map(|axis| {
        let length = extents[axis + 3] - extents[axis];
        (length / resolution.max(eps)).ceil().max(1.0)
    })
}

/// 6 GridTooFine: "an axis needs over 256 segments".
pub fn grid_too_fine(segments: &[f64; 3]) -> Test {
    refuse_if(segments.iter().any(|&count| count > SEGMENT_CEILING), 6)
}

/// "G is twice the sum, over the three pairs of axes, of (segments + 1) times
/// (segments + 1)".
pub fn grid_points(segments: &[f64; 3]) -> u64 {
    let [x, y, z] = segments.map(|count| count as u64 + 1);
    2 * (x * y + x * z + y * z)
}

/// "128 × (vertices + facets + cap triangles + G) + 1,024 words".
pub fn need_words(vertices: usize, facets: usize, caps: usize, grid: u64) -> u64 {
    128 * (vertices as u64 + facets as u64 + caps as u64 + grid) + 1024
}

/// 7 NoWorkRoom, with need.
pub fn no_work_room(
    vertices: &[f64],
    facets: &[u32],
    caps: &[u64],
    grid: u64,
    work: &[u64],
) -> Test {
    let need = need_words(vertices.len() / 3, facets.len() / 3, caps.len() / 4, grid);
    if (work.len() as u64) < need {
        return Err(Reply::refused_with(7, need));
    }
    Ok(())
}

/// 8 KeyRange: a vertex or box corner "has a key beyond 2^62". The rounded
/// quotient is compared before any conversion, since `as i64` saturates.
pub fn key_range(coordinates: &[f64], eps: f64) -> Test {
    let cell = eps.max(SMALLEST_CELL);
    refuse_if(
        coordinates
            .iter()
            .any(|v| (v / cell).round().abs() > KEY_CEILING),
        8,
    )
}
