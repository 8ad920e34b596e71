//! The picture as SVG. What is behind is drawn first: the far edges of the box, far caps, the surface from far to near, near caps, then
//! the other edges of the box and the open edges. A near cap lies on a face that the eye looks at from outside, so nothing covers it.

use super::patches::{hex, put_patches, Colour, Patch};
use super::view::{corners, View, MARGIN};
use super::Subject;
use crate::edges::Edge;
use crate::faces::NAMES;
use std::fmt::Write;

const GROUND: Colour = [126.0, 158.0, 92.0];
const BACK: Colour = [150.0, 146.0, 140.0];
/// A colour a face.
const CAPS: [Colour; 6] =
    [[176.0, 120.0, 70.0], [198.0, 138.0, 82.0], [150.0, 98.0, 62.0], [170.0, 110.0, 66.0], [110.0, 100.0, 110.0], [92.0, 136.0, 176.0]];
/// Faces that the eye looks at: XMax, YMin, ZMax.
const NEAR: [usize; 3] = [1, 2, 5];
const LIGHT: [f64; 3] = [0.25, -0.45, 0.86];
/// Steps of shading, so that neighbours of one shade are one path.
const SHADES: f64 = 28.0;
const LEGEND: f64 = 46.0;

pub fn draw(subject: &Subject) -> String {
    let view = View::new(&subject.extents);
    let [width, height] = view.size;
    let mut svg = String::new();
    // Writing to a string cannot fail.
    let _ = writeln!(
        svg,
        "<svg xmlns=\"http://www.w3.org/2000/svg\" viewBox=\"0 0 {width:.0} {:.0}\" font-family=\"sans-serif\" font-size=\"15\">",
        height + LEGEND
    );
    let _ = writeln!(svg, "<title>{}</title>\n<rect width=\"100%\" height=\"100%\" fill=\"#fff\"/>", subject.title);
    box_edges(&mut svg, &view, subject, true);
    let (patches, used) = patches(subject, &view);
    let mut open = subject.open.to_vec();
    if subject.surface_facets == subject.mesh.facet_count() {
        // No cap was added yet: edges on a face of the box are where caps would begin, and no fault.
        open.retain(|ends| !on_a_face(subject, ends.map(|id| point_of(subject, id))));
    }
    put_patches(&mut svg, &patches, "c");
    box_edges(&mut svg, &view, subject, false);
    put_open_edges(&mut svg, subject, &view, &open);
    legend(&mut svg, &used, open.len(), height);
    svg.push_str("</svg>\n");
    svg
}

fn point_of(subject: &Subject, id: u32) -> [f64; 3] {
    subject.mesh.point(id.into()).unwrap_or([f64::NAN; 3])
}

/// Whether both ends lie on one face of the box, within its tolerance.
fn on_a_face(subject: &Subject, ends: [[f64; 3]; 2]) -> bool {
    let e = &subject.extents;
    let diagonal = (0..3).map(|axis| (e[axis + 3] - e[axis]).powi(2)).sum::<f64>().sqrt();
    let on = |p: &[f64; 3], axis: usize, plane: f64| (p[axis] - plane).abs() <= 1e-10 * diagonal.max(1.0);
    (0..6).any(|face| ends.iter().all(|p| on(p, face % 3, e[face])))
}

/// The face that a cap lies on: the one that all three corners are nearest to.
fn face_of(subject: &Subject, corners: [[f64; 3]; 3]) -> usize {
    let e = &subject.extents;
    let off = |face: usize| {
        let (axis, plane) = (face / 2, e[face / 2 + 3 * (face % 2)]);
        corners.iter().map(|p| (p[axis] - plane).abs()).fold(0.0, f64::max)
    };
    (0..6).min_by(|a, b| off(*a).total_cmp(&off(*b))).unwrap_or(0)
}

/// The facets in the order in which they are drawn, and which faces have a cap that is seen. Of a closed solid no facet is seen from inside.
fn patches(subject: &Subject, view: &View) -> (Vec<Patch>, [bool; 6]) {
    let mut used = [false; 6];
    let mut patches = Vec::new();
    for (place, facet) in subject.mesh.facets.chunks_exact(3).enumerate() {
        let space = [facet[0], facet[1], facet[2]].map(|id| point_of(subject, id));
        let points = space.map(|p| view.point(p));
        let front = is_front(&points);
        if subject.closed && !front {
            continue;
        }
        let (colour, layer) = if place < subject.surface_facets {
            (shaded(if front { GROUND } else { BACK }, space, front), 1)
        } else {
            let face = face_of(subject, space);
            used[face] |= front;
            (if front { CAPS[face] } else { BACK }, if NEAR.contains(&face) { 2 } else { 0 })
        };
        let near = points.iter().map(|p| p[2]).sum();
        if points.iter().flatten().all(|x| x.is_finite()) {
            patches.push(Patch { points, colour, layer, near });
        }
    }
    patches.sort_by(|a, b| a.layer.cmp(&b.layer).then(a.near.total_cmp(&b.near)));
    (patches, used)
}

/// Whether a facet is seen from outside. Down is the picture's second axis, so its turn is the other one.
fn is_front([a, b, c]: &[[f64; 3]; 3]) -> bool {
    (b[0] - a[0]) * (c[1] - a[1]) - (b[1] - a[1]) * (c[0] - a[0]) < 0.0
}

fn shaded(colour: Colour, [a, b, c]: [[f64; 3]; 3], front: bool) -> Colour {
    let side = |end: [f64; 3]| [0, 1, 2].map(|axis| end[axis] - a[axis]);
    let (u, v) = (side(b), side(c));
    let normal = [u[1] * v[2] - u[2] * v[1], u[2] * v[0] - u[0] * v[2], u[0] * v[1] - u[1] * v[0]];
    let length = normal.iter().map(|x| x * x).sum::<f64>().sqrt();
    let towards: f64 = normal.iter().zip(LIGHT).map(|(n, l)| n * l).sum();
    let light = if length > 0.0 { towards / length } else { 0.0 };
    let light = if front { light } else { -light };
    let shade = (0.45 + 0.65 * light.max(0.0)).min(1.1);
    let shade = (shade * SHADES).round() / SHADES;
    colour.map(|part| (part * shade).min(255.0))
}

/// The edges of the box: the three at the far corner, which the solid may cover, or the others.
fn box_edges(svg: &mut String, view: &View, subject: &Subject, far: bool) {
    /// XMin, YMax, ZMin.
    const FAR_CORNER: usize = 2;
    let corners = corners(&subject.extents).map(|p| view.point(p));
    let _ = write!(svg, "<path fill=\"none\" stroke=\"#444\" stroke-width=\"1.2\" d=\"");
    for from in 0..8usize {
        for to in [from | 1, from | 2, from | 4].into_iter().filter(|to| *to != from) {
            if (from == FAR_CORNER || to == FAR_CORNER) == far {
                let (a, b) = (corners[from], corners[to]);
                let _ = write!(svg, "M{:.1} {:.1}L{:.1} {:.1}", a[0], a[1], b[0], b[1]);
            }
        }
    }
    svg.push_str("\"/>\n");
}

/// Edges that one facet bears, over everything else.
fn put_open_edges(svg: &mut String, subject: &Subject, view: &View, edges: &[Edge]) {
    if !edges.is_empty() {
        svg.push_str("<path fill=\"none\" stroke=\"#e00000\" stroke-width=\"2.4\" stroke-linecap=\"round\" d=\"");
        for [a, b] in edges.iter().map(|ends| ends.map(|id| view.point(point_of(subject, id)))) {
            let _ = write!(svg, "M{:.1} {:.1}L{:.1} {:.1}", a[0], a[1], b[0], b[1]);
        }
        svg.push_str("\"/>\n");
    }
}

fn legend(svg: &mut String, used: &[bool; 6], open: usize, top: f64) {
    let mut entries = vec![(GROUND, "surface".to_string())];
    let caps = (0..6).filter(|&face| used[face]);
    entries.extend(caps.map(|face| (CAPS[face], format!("cap {}", NAMES[face]))));
    if open > 0 {
        entries.push(([224.0, 0.0, 0.0], format!("{open} open edges")));
    }
    let (mut x, y) = (MARGIN, top + 8.0);
    for (colour, words) in entries {
        let _ = writeln!(
            svg,
            "<rect x=\"{x:.0}\" y=\"{y:.0}\" width=\"16\" height=\"16\" fill=\"{}\"/><text x=\"{:.0}\" y=\"{:.0}\" fill=\"#222\">{words}</text>",
            hex(colour),
            x + 22.0,
            y + 13.0
        );
        x += 50.0 + 8.5 * words.len() as f64;
    }
}

#[cfg(test)]
mod tests {
    use super::*;
    use crate::library::Extents;
    use crate::mesh::Mesh;

    const CUBE: Extents = [0., 0., 0., 2., 2., 2.];

    fn picture(facets: Vec<u32>, surface_facets: usize) -> String {
        let mesh = Mesh { vertices: vec![0., 0., 0., 2., 0., 0., 0., 2., 0., 0., 0., 2.], facets };
        draw(&Subject::new(&mesh, surface_facets, "a".into(), &CUBE))
    }

    #[test]
    fn a_surface_without_caps_shows_only_the_edges_that_no_cap_can_close() {
        // The side 1, 2 lies on ZMin, 2, 3 on XMin and 3, 1 on YMin; of 0, 1, 2 alone all lie on ZMin.
        assert!(!picture(vec![1, 2, 3], 1).contains("open edges"));
        let mesh = Mesh { vertices: vec![0., 0., 0., 2., 0., 0., 1., 1., 1.], facets: vec![0, 1, 2] };
        let drawn = draw(&Subject::new(&mesh, 1, "a".into(), &CUBE));
        assert!(drawn.contains(">2 open edges<"));
    }

    #[test]
    fn caps_have_their_face_and_open_edges_are_red() {
        let closed = picture(vec![1, 2, 3, 0, 2, 1, 0, 1, 3, 0, 3, 2], 1);
        assert!(closed.contains(">surface<") && closed.contains(">cap YMin<"));
        assert!(!closed.contains("XMin") && !closed.contains("open edges"));
        let open = picture(vec![1, 2, 3, 0, 2, 1, 0, 1, 3], 1);
        assert!(open.contains(">3 open edges<") && open.contains("#e00000"));
        assert_eq!(open.matches("<svg").count() + open.matches("</svg>").count(), 2);
    }
}
