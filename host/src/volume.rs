//! The volume that a closed surface encloses, with a bound on the error.
//!
//! It is computed in pairs of doubles (a value and what rounding left of it, about 106 bits), so that what is told is the volume
//! of the very coordinates that are written, rounded once. Corners are measured from the box's min corner.

use yongpham_library::Extents;

/// A sum of two doubles of which the second is at most half a unit in the last place of the first.
#[derive(Clone, Copy, Default)]
struct Pair {
    high: f64,
    low: f64,
}

impl Pair {
    /// The exact sum of two doubles (Knuth).
    fn sum(a: f64, b: f64) -> Pair {
        let high = a + b;
        let part = high - a;
        Pair { high, low: (a - (high - part)) + (b - part) }
    }

    fn plus(self, other: Pair) -> Pair {
        let high = Pair::sum(self.high, other.high);
        let low = Pair::sum(self.low, other.low);
        let first = Pair::sum(high.high, high.low + low.high);
        Pair::sum(first.high, first.low + low.low)
    }

    fn minus(self, other: Pair) -> Pair {
        self.plus(Pair { high: -other.high, low: -other.low })
    }

    fn times(self, other: Pair) -> Pair {
        let high = self.high * other.high;
        let rest = self.high.mul_add(other.high, -high);
        Pair::sum(high, rest + (self.high * other.low + self.low * other.high))
    }

    /// A sixth, rounded once but for the rarest of ties.
    fn sixth(self) -> f64 {
        let quotient = self.high / 6.0;
        let rest = quotient.mul_add(-6.0, self.high) + self.low;
        // A volume of nothing is 0, not -0.
        quotient + rest / 6.0 + 0.0
    }
}

/// A volume, and how far from it the exact one may lie.
#[derive(Clone, Copy, Debug, PartialEq)]
pub struct Volume {
    pub value: f64,
    pub bound: f64,
}

/// Relative error of a product or a sum of pairs: at most 8 times 2^-106, by a wide margin.
const STEP: f64 = 8.0 / (1u128 << 106) as f64;
/// Steps between the coordinates and a facet's product.
const STEPS: f64 = 8.0;

/// The signed volume: the sum of a · (b × c) over the facets a, b, c, divided by 6.
pub fn enclosed(vertices: &[f64], facets: &[u32], extents: &Extents) -> Volume {
    let corner = |id: u32| [0, 1, 2].map(|axis| Pair::sum(vertices[3 * id as usize + axis], -extents[axis]));
    let (mut sum, mut size) = (Pair::default(), 0.0);
    for facet in facets.chunks_exact(3) {
        let [a, b, c] = [corner(facet[0]), corner(facet[1]), corner(facet[2])];
        for [x, y, z] in [[0, 1, 2], [1, 2, 0], [2, 0, 1]] {
            let (one, other) = (b[y].times(c[z]), b[z].times(c[y]));
            sum = sum.plus(a[x].times(one.minus(other)));
            size += a[x].high.abs() * (one.high.abs() + other.high.abs());
        }
    }
    let value = sum.sixth();
    let steps = STEPS + facets.len() as f64;
    // The value itself is rounded once; size is a sum of rounded terms, which the factor 2 covers.
    let bound = 2.0 * steps * STEP * size + f64::EPSILON * value.abs();
    Volume { value, bound }
}

/// The volume of the box itself.
pub fn of_box(extents: &Extents) -> f64 {
    let [x, y, z] = [0, 1, 2].map(|axis| Pair::sum(extents[axis + 3], -extents[axis]));
    let whole = x.times(y).times(z);
    whole.high + whole.low
}

/// What the library's own moves of points may change: points within the box's tolerance of a face, or of a corner, count as on it.
pub fn slack(extents: &Extents) -> f64 {
    let [x, y, z] = [0, 1, 2].map(|axis| extents[axis + 3] - extents[axis]);
    let tolerance = 1e-10 * (x * x + y * y + z * z).sqrt().max(1.0);
    2.0 * tolerance * (x * y + y * z + z * x)
}

#[cfg(test)]
mod tests {
    use super::*;

    const FACETS: [u32; 12] = [0, 2, 1, 0, 1, 3, 0, 3, 2, 1, 2, 3];

    #[test]
    fn a_tetrahedron_has_its_volume_wherever_it_is_measured_from() {
        let vertices = [0., 0., 0., 2., 0., 0., 0., 2., 0., 0., 0., 2.];
        for corner in [[0., 0., 0.], [1e6, -1e6, 5e5], [-3e8, 7.25, 1e-3]] {
            let [x, y, z] = corner;
            let extents = [x, y, z, x + 1.0, y + 1.0, z + 1.0];
            let volume = enclosed(&vertices, &FACETS, &extents);
            let error = (volume.value - 8.0 / 6.0).abs();
            assert!(error <= volume.bound, "{volume:?}");
            assert!(volume.bound < 1e-3 || x == -3e8, "{volume:?}");
        }
    }

    #[test]
    fn six_digits_in_front_take_nothing_away() {
        let (x, y, z) = (412_345.0, 5_612_345.0, 312.0);
        let vertices = [x, y, z, x + 0.5, y, z, x, y + 0.25, z, x, y, z + 0.125];
        let volume = enclosed(&vertices, &FACETS, &[x, y, z, x + 1.0, y + 1.0, z + 1.0]);
        assert_eq!(volume.value, 0.5 * 0.25 * 0.125 / 6.0);
        assert!(volume.bound < 1e-17);
    }

    #[test]
    fn the_box_is_its_product() {
        assert_eq!(of_box(&[100.0, 200.0, 0.0, 500.0, 500.0, 80.0]), 9_600_000.0);
        assert!((of_box(&[0.1, 0.1, 0.1, 0.2, 0.2, 0.2]) - 1e-3).abs() < 1e-18);
    }
}
