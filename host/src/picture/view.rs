//! From points in space to points in the picture: the isometric view of a box, from above, looking at its faces XMax, YMin and ZMax; and
//! flat views along an axis.

use yongpham_library::Extents;

/// Width of the box in the picture.
const WIDTH: f64 = 860.0;
/// Around it.
pub const MARGIN: f64 = 30.0;

/// Right and up in the picture, and towards the eye, of a place in space.
type Turn = fn([f64; 3]) -> [f64; 3];

/// From points in space to points in the picture.
pub struct View {
    turned: Turn,
    middle: [f64; 3],
    scale: f64,
    left: f64,
    top: f64,
    pub size: [f64; 2],
}

fn isometric(p: [f64; 3]) -> [f64; 3] {
    let [x, y, z] = p;
    [(x + y) / 2f64.sqrt(), (-x + y + 2.0 * z) / 6f64.sqrt(), (x - y + z) / 3f64.sqrt()]
}

/// The eight corners of a box; bit a of the place chooses max on axis a.
pub fn corners(e: &Extents) -> [[f64; 3]; 8] {
    [0, 1, 2, 3, 4, 5, 6, 7].map(|place: usize| [0, 1, 2].map(|axis| if place >> axis & 1 == 1 { e[axis + 3] } else { e[axis] }))
}

/// The flat views: from above, from the front and from the right.
pub const FLAT: [(&str, Turn); 3] = [
    ("from above: x to the right, y up", |[x, y, z]| [x, y, z]),
    ("from the front: x to the right, z up", |[x, y, z]| [x, z, -y]),
    ("from the right: y to the right, z up", |[x, y, z]| [y, z, x]),
];

impl View {
    pub fn new(extents: &Extents) -> Self {
        let mut view = View::turned(isometric, extents, 1.0);
        view.scale = WIDTH / view.size[0];
        view.size = [WIDTH + 2.0 * MARGIN, view.size[1] * view.scale + 2.0 * MARGIN];
        view
    }

    /// A flat view of a box, in so many units of the picture a unit of space.
    pub fn flat(turn: Turn, extents: &Extents, scale: f64) -> Self {
        let view = View::turned(turn, extents, scale);
        let size = view.size.map(|length| length * scale + 2.0 * MARGIN);
        View { size, ..view }
    }

    /// Its size is still that in space, without a margin.
    fn turned(turned: Turn, extents: &Extents, scale: f64) -> Self {
        let middle = [0, 1, 2].map(|axis| (extents[axis] + extents[axis + 3]) / 2.0);
        let seen = corners(extents).map(|p| turned([0, 1, 2].map(|axis| p[axis] - middle[axis])));
        let extreme = |axis: usize, pick: fn(f64, f64) -> f64| seen.iter().map(|p| p[axis]).fold(seen[0][axis], pick);
        let (left, right) = (extreme(0, f64::min), extreme(0, f64::max));
        let (bottom, top) = (extreme(1, f64::min), extreme(1, f64::max));
        View { turned, middle, scale, left, top, size: [right - left, top - bottom] }
    }

    /// A length along an axis, in the picture.
    pub fn length(&self, length: f64) -> f64 {
        length * self.scale
    }

    /// Where a point stands in the picture, and how near it is.
    pub fn point(&self, p: [f64; 3]) -> [f64; 3] {
        let [right, up, near] = (self.turned)([0, 1, 2].map(|axis| p[axis] - self.middle[axis]));
        [MARGIN + (right - self.left) * self.scale, MARGIN + (self.top - up) * self.scale, near]
    }
}

#[cfg(test)]
mod tests {
    use super::*;

    #[test]
    fn the_box_fills_the_picture_and_its_near_corner_is_nearest() {
        let extents = [100.0, 200.0, 0.0, 500.0, 500.0, 80.0];
        let view = View::new(&extents);
        let seen = corners(&extents).map(|p| view.point(p));
        for axis in 0..2 {
            let (low, high) = (MARGIN - 1e-9, view.size[axis] - MARGIN + 1e-9);
            assert!(seen.iter().all(|p| low <= p[axis] && p[axis] <= high));
        }
        // XMax, YMin, ZMax is place 5; XMin, YMax, ZMin is place 2.
        assert!(seen.iter().all(|p| p[2] <= seen[5][2] && p[2] >= seen[2][2]));
        assert!(seen[5][1] > seen[7][1], "the near side is lower in the picture");
    }

    /// A corner of the box that is near, to the right and up in each flat view: XMax YMax ZMax, XMax YMin ZMax, XMax YMax ZMax.
    #[test]
    fn flat_views_have_their_axes() {
        let extents = [0.0, 0.0, 0.0, 40.0, 20.0, 10.0];
        for ((name, turn), (place, size)) in FLAT.into_iter().zip([(7, [40.0, 20.0]), (5, [40.0, 10.0]), (7, [20.0, 10.0])]) {
            let view = View::flat(turn, &extents, 2.0);
            assert_eq!(view.size, size.map(|length| 2.0 * length + 2.0 * MARGIN), "{name}");
            let seen = corners(&extents).map(|p| view.point(p));
            assert_eq!(seen[place][..2], [view.size[0] - MARGIN, MARGIN], "{name}");
            assert!(seen.iter().all(|p| p[2] <= seen[place][2]), "{name}");
        }
    }
}
