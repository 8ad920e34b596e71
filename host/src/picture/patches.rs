//! Facets as they are drawn.

use std::fmt::Write;

pub type Colour = [f64; 3];

/// A facet in the picture.
pub struct Patch {
    pub points: [[f64; 3]; 3],
    pub colour: Colour,
    /// Drawn from the lowest on: 0 far caps, 1 surface, 2 near caps.
    pub layer: u8,
    pub near: f64,
}

pub fn hex(colour: Colour) -> String {
    let [r, g, b] = colour.map(|part| part.round().clamp(0.0, 255.0) as u8);
    format!("#{r:02x}{g:02x}{b:02x}")
}

/// Neighbours in the order of drawing that have one colour are one path, in whole tenths and relative to the first corner; a colour is a
/// class, of a family that is the caller's alone. That makes the file half as long. The stroke covers the seams between facets.
pub fn put_patches(svg: &mut String, patches: &[Patch], family: &str) {
    let mut colours: Vec<String> = patches.iter().map(|patch| hex(patch.colour)).collect();
    colours.sort_unstable();
    colours.dedup();
    svg.push_str("<style>");
    for (place, colour) in colours.iter().enumerate() {
        let _ = write!(svg, ".{family}{place}{{fill:{colour};stroke:{colour}}}");
    }
    svg.push_str("</style>\n<g stroke-width=\"6\" stroke-linejoin=\"round\" transform=\"scale(.1)\">\n");
    for run in patches.chunk_by(|a, b| a.colour == b.colour) {
        let class = colours.binary_search(&hex(run[0].colour)).unwrap_or(0);
        let _ = write!(svg, "<path class=\"{family}{class}\" d=\"");
        for patch in run {
            let [a, b, c] = patch.points.map(|p| [p[0], p[1]].map(|x| (10.0 * x).round()));
            let [u, v] = [[b[0] - a[0], b[1] - a[1]], [c[0] - b[0], c[1] - b[1]]];
            let _ = write!(svg, "M{} {}l{} {} {} {}z", a[0], a[1], u[0], u[1], v[0], v[1]);
        }
        svg.push_str("\"/>\n");
    }
    svg.push_str("</g>\n");
}
