//! Leaves of the library under C names of their own, for comparing and timing alone: the crate leaf_exports. No part of the product.

extern "C" {
    fn export_sqrt(x: f64) -> f64;
    fn export_hypot(x: f64, y: f64) -> f64;
    fn export_whole_root(n: u64) -> u64;
    fn export_round(x: f64) -> f64;
    fn export_cell_key(x: f64, eps: f64) -> i64;
    fn export_sort_records(words: *mut u64, length: usize);
    fn table_components(
        words: *mut u64,
        length: usize,
        items: usize,
        labels_each: usize,
        labels: usize,
    ) -> bool;
    fn table_words(
        room: *mut u64,
        room_length: usize,
        buckets: usize,
        keys: *const u64,
        keys_length: usize,
        asked: *const u64,
        asked_length: usize,
        found: *mut u64,
        found_length: usize,
    ) -> bool;
}

/// The square root; a NaN, an infinity or a number below 0 comes back.
pub fn sqrt(x: f64) -> f64 {
    // SAFETY: takes a plain number and touches no memory of ours; so do the next four.
    unsafe { export_sqrt(x) }
}

/// The root of the sum of both squares; the first comes back where either is a NaN or larger than 2^1021 in magnitude.
pub fn hypot(x: f64, y: f64) -> f64 {
    unsafe { export_hypot(x, y) }
}

/// The largest whole number whose square does not exceed n.
pub fn whole_root(n: u64) -> u64 {
    unsafe { export_whole_root(n) }
}

/// A whole number, halves away from zero; what is not finite comes back.
pub fn round(x: f64) -> f64 {
    unsafe { export_round(x) }
}

/// The cell of a coordinate.
pub fn cell_key(x: f64, eps: f64) -> i64 {
    unsafe { export_cell_key(x, eps) }
}

/// Sorts the records of two words in the first half of `words`; the second half is scratch.
pub fn sort_records(words: &mut [u64]) {
    // SAFETY: the pointer comes with its slice's length.
    unsafe { export_sort_records(words.as_mut_ptr(), words.len()) }
}

/// The components of `items` items of `labels_each` labels each, all below `labels`; the labels stand behind the table, which is
/// at the front. False, with nothing done, if they do not fit or a label is too large.
pub fn components(words: &mut [u64], items: usize, labels_each: usize, labels: usize) -> bool {
    // SAFETY: the pointer comes with its slice's length; the numbers are tested before they are used.
    unsafe { table_components(words.as_mut_ptr(), words.len(), items, labels_each, labels) }
}

/// Enters `keys` in chains of so many buckets and looks up every word of `asked`. False, with nothing found, if the room is too small.
pub fn look_up(
    room: &mut [u64],
    buckets: usize,
    keys: &[u64],
    asked: &[u64],
    found: &mut [u64],
) -> bool {
    // SAFETY: every pointer comes with its slice's length; the numbers are tested before they are used.
    unsafe {
        table_words(
            room.as_mut_ptr(),
            room.len(),
            buckets,
            keys.as_ptr(),
            keys.len(),
            asked.as_ptr(),
            asked.len(),
            found.as_mut_ptr(),
            found.len(),
        )
    }
}
