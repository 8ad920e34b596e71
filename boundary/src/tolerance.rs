use crate::{reply, Extents, Reply};

extern "C" {
    fn yongpham_tolerance(
        min_x: f64,
        min_y: f64,
        min_z: f64,
        max_x: f64,
        max_y: f64,
        max_z: f64,
        values: *mut u64,
    ) -> u32;
}

/// The tolerance of a box: its bits are the first value.
pub fn tolerance(extents: &Extents) -> Reply {
    let [x0, y0, z0, x1, y1, z1] = *extents;
    // SAFETY: values has four words.
    reply(|values| unsafe { yongpham_tolerance(x0, y0, z0, x1, y1, z1, values) })
}
