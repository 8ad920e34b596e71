//! The library's refusals in plain words. The table is README.md's.

/// Number, name and meaning of each refusal.
const TABLE: [(u32, &str, &str); 12] = [
    (1, "Ragged", "a list's length is no multiple of 3, or the cap list's none of 4"),
    (2, "TooMany", "more vertices or facets than the ceiling (65,536 at most), or over 1,048,576 cap triangles"),
    (3, "BadIndex", "a facet names a vertex that is not there"),
    (4, "BadNumber", "a coordinate, a box corner, eps or the resolution is no finite number in its range"),
    (5, "BadBox", "the box is empty: on an axis its min is not below its max"),
    (6, "GridTooFine", "the resolution is too fine: a side of the box would be cut into over 256 segments"),
    (7, "NoWorkRoom", "too little work room was lent"),
    (8, "KeyRange", "a coordinate is too large for so small an eps: its cell number is beyond 2^62"),
    (9, "OpenEdge", "an open edge of the surface lies on no face of the box, so no cap can close it"),
    (10, "BadCap", "a supplied triangle is faulty: its face is above 5 or below the last one's, a corner repeats, or a corner is no point of that face"),
    (11, "MissingEdge", "an open edge is a side of no triangle supplied for its face"),
    (12, "NoRoom", "an output was too short"),
];

fn row(number: u32) -> Option<&'static (u32, &'static str, &'static str)> {
    TABLE.iter().find(|row| row.0 == number)
}

/// Number and name, in front of what follows.
pub fn name(number: u32) -> String {
    row(number).map_or(format!("{number}, "), |(_, name, _)| format!("{number} {name}, "))
}

/// What it means.
pub fn meaning(number: u32, values: [u64; 4]) -> String {
    match row(number) {
        Some((_, _, meaning)) => (*meaning).into(),
        None => format!("this command has no words for that refusal (values {values:?})"),
    }
}

#[cfg(test)]
mod tests {
    use super::*;

    #[test]
    fn every_number_has_its_own_row_in_order() {
        for (place, row) in TABLE.iter().enumerate() {
            assert_eq!(row.0 as usize, place + 1);
            assert_eq!(name(row.0), format!("{} {}, ", row.0, row.1));
        }
    }

    #[test]
    fn a_number_to_come_is_still_reported() {
        assert_eq!(name(17), "17, ");
        assert!(meaning(17, [1, 2, 3, 4]).contains("[1, 2, 3, 4]"));
    }
}
