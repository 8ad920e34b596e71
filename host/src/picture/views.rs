//! Any mesh in three views, in grey, and over it its open edges, a colour a component, and its irregular edges, dashed.

use super::patches::{hex, put_patches, Colour, Patch};
use super::view::{View, FLAT, MARGIN};
use crate::edges::{Component, Edge, Edges};
use crate::library::Extents;
use crate::mesh::Mesh;
use crate::text::counted;
use std::fmt::Write;

/// The mesh's longest side in the picture.
const SIDE: f64 = 420.0;
/// Above the views, and a line of the legend below them.
const HEAD: f64 = 50.0;
const LINE: f64 = 24.0;
/// Facets that are drawn of a mesh, at most. Of one that has more, every second or third .. is.
const FACETS: usize = 100_000;
/// Components that the legend names.
const NAMED: usize = 16;
/// Coordinates that can be drawn: beyond it differences of two, or quotients by the shortest length, may be no numbers.
const LARGEST: f64 = 1e100;
const SHORTEST: f64 = 1e-100;

/// The colours of components, taken in turn.
const COMPONENTS: [Colour; 8] = [
    [224.0, 0.0, 0.0],
    [0.0, 90.0, 220.0],
    [0.0, 140.0, 50.0],
    [240.0, 120.0, 0.0],
    [0.0, 150.0, 160.0],
    [130.0, 70.0, 20.0],
    [100.0, 60.0, 200.0],
    [150.0, 150.0, 0.0],
];
const IRREGULAR: Colour = [220.0, 0.0, 180.0];
/// A facet seen from the edge, and what is added to it for one seen from the front.
const GREY: [f64; 2] = [160.0, 70.0];
/// Steps of grey, so that neighbours of one shade are one path.
const SHADES: f64 = 14.0;

/// A picture, and how many edges could not be drawn.
pub struct Drawn {
    pub svg: String,
    pub left_out: usize,
}

/// Lines of one colour: a component of open edges, open edges that are not grouped, or irregular edges.
struct Lines<'a> {
    edges: &'a [Edge],
    colour: Colour,
    dashed: bool,
    words: String,
}

pub fn draw(mesh: &Mesh, edges: &Edges, title: &str) -> Drawn {
    let extents = extents(mesh);
    let longest = (0..3).map(|axis| extents[axis + 3] - extents[axis]).fold(SHORTEST, f64::max);
    let views = FLAT.map(|(name, turn)| (name, View::flat(turn, &extents, SIDE / longest)));
    let lines = lines(edges);
    let height = views.iter().map(|(_, view)| view.size[1]).fold(0.0, f64::max);
    let width: f64 = views.iter().map(|(_, view)| view.size[0].max(SIDE)).sum();
    let mut svg = start(title, width, HEAD + height + LINE * (2.0 + lines.len().min(NAMED + 2) as f64));
    let mut left = 0.0;
    for ((name, view), family) in views.iter().zip(["a", "b", "c"]) {
        let _ = writeln!(svg, "<g transform=\"translate({left:.0} {HEAD})\">\n<text x=\"{MARGIN}\" y=\"8\">{name}</text>");
        put_patches(&mut svg, &patches(mesh, view), family);
        lines.iter().for_each(|lines| put_lines(&mut svg, mesh, view, lines));
        svg.push_str("</g>\n");
        left += view.size[0].max(SIDE);
    }
    legend(&mut svg, mesh, &lines, HEAD + height);
    svg.push_str("</svg>\n");
    let drawn = |edge: &&Edge| edge.iter().all(|&id| point(mesh, id).is_some());
    let all = edges.open.iter().chain(&edges.irregular);
    Drawn { svg, left_out: all.clone().count() - all.filter(drawn).count() }
}

fn start(title: &str, width: f64, height: f64) -> String {
    let title = escaped(title);
    format!(
        "<svg xmlns=\"http://www.w3.org/2000/svg\" viewBox=\"0 0 {width:.0} {height:.0}\" font-family=\"sans-serif\" font-size=\"15\">\n\
         <title>{title}</title>\n<rect width=\"100%\" height=\"100%\" fill=\"#fff\"/>\n<text x=\"{MARGIN}\" y=\"26\">{title}</text>\n"
    )
}

/// The name of a file may have characters that mean something in XML.
fn escaped(words: &str) -> String {
    words.replace('&', "&amp;").replace('<', "&lt;").replace('>', "&gt;")
}

/// A vertex that can be drawn.
fn point(mesh: &Mesh, id: u32) -> Option<[f64; 3]> {
    mesh.point(id.into()).filter(|p| p.iter().all(|x| x.abs() <= LARGEST))
}

/// The smallest box around what can be drawn.
fn extents(mesh: &Mesh) -> Extents {
    let mut points = mesh.facets.iter().filter_map(|&id| point(mesh, id));
    let [x, y, z] = points.next().unwrap_or_default();
    points.fold([x, y, z, x, y, z], |mut e, p| {
        for axis in 0..3 {
            e[axis] = e[axis].min(p[axis]);
            e[axis + 3] = e[axis + 3].max(p[axis]);
        }
        e
    })
}

/// How many facets one that is drawn stands for.
fn thinned(mesh: &Mesh) -> usize {
    mesh.facet_count().div_ceil(FACETS).max(1)
}

fn patches(mesh: &Mesh, view: &View) -> Vec<Patch> {
    let patch = |facet: &[u32]| {
        let space = [point(mesh, facet[0])?, point(mesh, facet[1])?, point(mesh, facet[2])?];
        let points = space.map(|p| view.point(p));
        let near = points.iter().map(|p| p[2]).sum();
        let level = GREY[0] + GREY[1] * (facing(&points, view) * SHADES).round() / SHADES;
        Some(Patch { points, colour: [level; 3], layer: 0, near })
    };
    let mut patches: Vec<Patch> = mesh.facets.chunks_exact(3).step_by(thinned(mesh)).filter_map(patch).collect();
    patches.sort_by(|a, b| a.near.total_cmp(&b.near));
    patches
}

/// From 0, seen from the edge, to 1, seen from the front or from behind.
fn facing([a, b, c]: &[[f64; 3]; 3], view: &View) -> f64 {
    // Lengths towards the eye are those of space, the others those of the picture.
    let side = |end: &[f64; 3]| [end[0] - a[0], end[1] - a[1], view.length(end[2] - a[2])];
    let (u, v) = (side(b), side(c));
    let normal = [u[1] * v[2] - u[2] * v[1], u[2] * v[0] - u[0] * v[2], u[0] * v[1] - u[1] * v[0]];
    let length = normal.iter().map(|x| x * x).sum::<f64>().sqrt();
    let facing = normal[2].abs() / length;
    if facing.is_finite() {
        facing
    } else {
        0.0
    }
}

/// What is drawn over the mesh, in the order of the legend.
fn lines(edges: &Edges) -> Vec<Lines<'_>> {
    let mut lines = Vec::new();
    match &edges.components {
        Some(components) => by_component(&edges.open, components, &mut lines),
        None if edges.open.is_empty() => {}
        None => {
            let words = format!("{}, not grouped", counted(edges.open.len(), "open edge"));
            lines.push(Lines { edges: &edges.open, colour: COMPONENTS[0], dashed: false, words });
        }
    }
    if !edges.irregular.is_empty() {
        let words = format!("{}, dashed", counted(edges.irregular.len(), "irregular edge"));
        lines.push(Lines { edges: &edges.irregular, colour: IRREGULAR, dashed: true, words });
    }
    lines
}

fn by_component<'a>(open: &'a [Edge], components: &[Component], lines: &mut Vec<Lines<'a>>) {
    let mut rest = open;
    for (place, component) in components.iter().enumerate() {
        let (edges, behind) = rest.split_at(component.edges.min(rest.len()));
        let ring = if component.ring { ", a ring" } else { "" };
        let words = format!("component {}: {}{ring}", place + 1, counted(edges.len(), "open edge"));
        lines.push(Lines { edges, colour: COMPONENTS[place % COMPONENTS.len()], dashed: false, words });
        rest = behind;
    }
}

/// An edge from a vertex to itself is a dot.
fn put_lines(svg: &mut String, mesh: &Mesh, view: &View, lines: &Lines) {
    let (class, dashes) = if lines.dashed { ("irregular", " stroke-dasharray=\"5 5\"") } else { ("open", "") };
    let colour = hex(lines.colour);
    let _ = writeln!(svg, "<g class=\"{class}\" stroke=\"{colour}\" stroke-width=\"2.4\" stroke-linecap=\"round\"{dashes}>");
    for [a, b] in lines.edges {
        if let (Some(a), Some(b)) = (point(mesh, *a), point(mesh, *b)) {
            let ([x1, y1, _], [x2, y2, _]) = (view.point(a), view.point(b));
            let _ = writeln!(svg, "<line x1=\"{x1:.1}\" y1=\"{y1:.1}\" x2=\"{x2:.1}\" y2=\"{y2:.1}\"/>");
        }
    }
    svg.push_str("</g>\n");
}

/// A line each; components beyond those that are named are counted, and stand in front of the irregular edges.
fn legend(svg: &mut String, mesh: &Mesh, lines: &[Lines], top: f64) {
    let each = thinned(mesh);
    let part = if each == 1 { String::new() } else { format!(", one in {each} drawn") };
    let mut entries = vec![([GREY[0] + GREY[1] / 2.0; 3], format!("the mesh, {}{part}", counted(mesh.facet_count(), "facet")))];
    let (dashed, open): (Vec<&Lines>, Vec<&Lines>) = lines.iter().partition(|lines| lines.dashed);
    entries.extend(open.iter().take(NAMED).map(|lines| (lines.colour, lines.words.clone())));
    if open.len() > NAMED {
        entries.push(([255.0; 3], format!("and {} further components, in the same colours again", open.len() - NAMED)));
    }
    entries.extend(dashed.iter().map(|lines| (lines.colour, lines.words.clone())));
    for (row, (colour, words)) in entries.iter().enumerate() {
        let y = top + LINE * (row as f64 + 0.5);
        let _ = writeln!(
            svg,
            "<rect x=\"{MARGIN}\" y=\"{y:.0}\" width=\"16\" height=\"16\" fill=\"{}\"/><text x=\"{:.0}\" y=\"{:.0}\" fill=\"#222\">{words}</text>",
            hex(*colour),
            MARGIN + 26.0,
            y + 13.0
        );
    }
}

#[cfg(test)]
mod tests {
    use super::*;

    fn square(vertices: &[f64]) -> Mesh {
        Mesh { vertices: vertices.to_vec(), facets: vec![0, 1, 2, 0, 2, 3] }
    }

    const SQUARE: [f64; 12] = [0., 0., 0.5, 1., 0., 0.5, 1., 1., 0.5, 0., 1., 0.5];

    fn ring() -> Edges {
        let open = vec![[0, 1], [0, 3], [1, 2], [2, 3]];
        Edges { open, components: Some(vec![Component { edges: 4, ring: true }]), irregular: vec![] }
    }

    #[test]
    fn each_open_edge_is_a_line_in_each_view() {
        let drawn = draw(&square(&SQUARE), &ring(), "a < b & c");
        assert_eq!((drawn.svg.matches("<line ").count(), drawn.left_out), (12, 0));
        assert_eq!(drawn.svg.matches("class=\"open\" stroke=\"#e00000\"").count(), 3);
        assert!(drawn.svg.contains("<title>a &lt; b &amp; c</title>") && drawn.svg.contains(">component 1: 4 open edges, a ring<"));
        // A unit of space is 420 of the picture; up is up.
        assert!(drawn.svg.contains("<line x1=\"30.0\" y1=\"450.0\" x2=\"450.0\" y2=\"450.0\"/>"), "{}", drawn.svg);
    }

    #[test]
    fn components_have_colours_in_turn_and_irregular_edges_are_dashed() {
        let components = vec![Component { edges: 1, ring: false }; 20];
        let edges = Edges { open: vec![[0, 1]; 20], components: Some(components), irregular: vec![[1, 2], [2, 3]] };
        let svg = draw(&square(&SQUARE), &edges, "").svg;
        assert_eq!(svg.matches("<line ").count(), 3 * 22);
        assert_eq!(svg.matches("class=\"open\" stroke=\"#e00000\"").count(), 3 * 3);
        assert_eq!(svg.matches("class=\"irregular\" stroke=\"#dc00b4\"").count(), 3);
        assert!(svg.contains("stroke-dasharray") && svg.contains(">2 irregular edges, dashed<"));
        assert!(svg.contains(">component 16: 1 open edge<") && !svg.contains(">component 17"));
        assert!(svg.contains(">and 4 further components, in the same colours again<"));
        let ungrouped = draw(&square(&SQUARE), &Edges { components: None, ..edges }, "").svg;
        assert!(ungrouped.contains(">20 open edges, not grouped<"));
        assert_eq!(ungrouped.matches("<line ").count(), 3 * 22);
    }

    /// What cannot be drawn is left out and counted; what is very large, very small or a single point is drawn.
    #[test]
    fn no_coordinate_makes_a_picture_that_is_none() {
        let numbers = |svg: &str| !["NaN", "inf"].iter().any(|word| svg.contains(word));
        for (value, left_out) in [(f64::NAN, 2), (f64::INFINITY, 2), (-1e300, 2), (1e100, 0), (1e-320, 0)] {
            let mut vertices = SQUARE;
            vertices[4] = value;
            let drawn = draw(&square(&vertices), &ring(), "");
            assert_eq!(drawn.left_out, left_out, "{value}");
            assert_eq!(drawn.svg.matches("<line ").count(), 3 * (4 - left_out), "{value}");
            assert!(numbers(&drawn.svg), "{value}");
        }
        for all in [0.0, 1e100, 1e-320, f64::NAN] {
            let drawn = draw(&square(&[all; 12]), &ring(), "");
            assert!(numbers(&drawn.svg), "{all}");
        }
        assert!(numbers(&draw(&Mesh::default(), &Edges { open: vec![], components: None, irregular: vec![] }, "").svg));
    }

    #[test]
    fn of_a_large_mesh_a_part_is_drawn_and_told() {
        let mesh = Mesh { vertices: SQUARE.to_vec(), facets: [0, 1, 2].repeat(250_000) };
        let svg = draw(&mesh, &ring(), "").svg;
        assert!(svg.contains(">the mesh, 250000 facets, one in 3 drawn<"));
        assert_eq!(svg.matches('M').count(), 3 * 83_334);
    }
}
