//! Whether a solid is closed. This module alone decides it, from what the library lists of its edges and from its volume.
//!
//! A solid is closed exactly if the library lists nothing (no open edge, no component, no irregular edge: every edge has two different
//! ends and is borne by two facet sides, one each way), and if its volume is from 0 to the box's, within rounding. What is wrong with any
//! other is told with the first places.

use crate::edges::{self, Edge, Edges, Unlisted};
use crate::library::{Library, Stop};
use crate::mesh::Mesh;
use crate::refusals;
use crate::text;
use crate::volume::{self, Volume};
use yongpham_library::Extents;

const SAME_WAY: &str = "borne by two facet sides that run the same way: a facet beside it is turned round";
const OVERLAPS: &str =
    "borne by more than two facet sides, not as many one way as the other: parts of the surface overlap or face the wrong way";
const TOUCHES: &str = "borne by two facet sides or more each way: the mesh touches itself there, or parts of it stand twice";
/// The same of a solid in its box.
const TOUCHES_BOX: &str =
    "borne by two facets or more each way: the solid touches itself there, as it does where the surface touches a face of the \
box without passing through it; a box whose face stands a little off does not";

/// How many edges are told of those at fault.
const TOLD: usize = 3;

#[derive(Clone, Debug, PartialEq)]
pub enum Verdict {
    Closed(Volume),
    /// Some edge is borne by one side only.
    Open(Fault),
    /// Two sides of an edge run the same way, more than two bear it, or the volume is no part of the box's.
    TurnedWrong(Fault),
    /// There is no facet.
    Empty,
    /// The library did not list the edges, for the reason told.
    NotChecked(String),
}

#[derive(Clone, Debug, PartialEq)]
pub struct Fault {
    /// What is wrong, and how often.
    pub what: String,
    /// Edges at fault.
    pub count: usize,
    /// The first of them, as points.
    pub edges: Vec<[[f64; 3]; 2]>,
}

impl Fault {
    /// The first edges with their points.
    pub fn place(&self) -> String {
        let edge = |e: &[[f64; 3]; 2]| format!("{} to {}", text::point(e[0]), text::point(e[1]));
        self.edges.iter().map(edge).collect::<Vec<_>>().join("; ")
    }
}

pub fn verdict(library: &mut Library, mesh: &Mesh, extents: &Extents) -> Verdict {
    if mesh.facets.is_empty() {
        return Verdict::Empty;
    }
    match edges::list(library, mesh.vertex_count(), &mesh.facets) {
        Ok(edges) => judged(mesh, &edges, TOUCHES_BOX).unwrap_or_else(|| sized(mesh, extents)),
        Err(why) => Verdict::NotChecked(not_checked(mesh, &why)),
    }
}

/// What the lists say is wrong with any mesh; nothing exactly if they are empty.
pub fn of_edges(mesh: &Mesh, edges: &Edges) -> Option<Verdict> {
    judged(mesh, edges, TOUCHES)
}

fn judged(mesh: &Mesh, edges: &Edges, touches: &str) -> Option<Verdict> {
    if edges.are_sound() {
        return None;
    }
    let irregular = kinds(&edges.irregular, &mesh.facets);
    let of = |kind: Irregular| irregular.iter().filter(|(_, found)| *found == kind).map(|(edge, _)| *edge).collect::<Vec<_>>();
    // A facet that is turned round opens edges elsewhere, so it is looked for first.
    if let Some(fault) = found(mesh, &of(Irregular::SameWay), SAME_WAY) {
        return Some(Verdict::TurnedWrong(fault));
    }
    let grouped = edges.grouped().map(|words| format!(", {words}")).unwrap_or_default();
    if let Some(fault) = found(mesh, &edges.open, &format!("borne by one facet only{grouped}")) {
        return Some(Verdict::Open(fault));
    }
    let fault = found(mesh, &of(Irregular::Overlaps), OVERLAPS).or_else(|| found(mesh, &of(Irregular::Touches), touches));
    // Lists that are not empty are never taken for empty ones.
    let none = || Fault { what: "the library lists a component without an edge".into(), count: 0, edges: vec![] };
    Some(Verdict::TurnedWrong(fault.unwrap_or_else(none)))
}

/// Why the library lists an edge as irregular.
#[derive(Clone, Copy, Debug, PartialEq)]
enum Irregular {
    SameWay,
    Overlaps,
    Touches,
}

/// The library lists irregular edges without a reason. Only for the sentence their sides are counted, one way and the other.
fn kinds(irregular: &[Edge], facets: &[u32]) -> Vec<(Edge, Irregular)> {
    let mut counts = vec![[0usize; 2]; irregular.len()];
    for f in facets.chunks_exact(3) {
        for [a, b] in [[f[0], f[1]], [f[1], f[2]], [f[2], f[0]]] {
            if let Ok(place) = irregular.binary_search(&[a.min(b), a.max(b)]) {
                counts[place][usize::from(a > b)] += 1;
            }
        }
    }
    let kind = |[up, down]: [usize; 2]| match up + down {
        2 => Irregular::SameWay,
        _ if up != down => Irregular::Overlaps,
        _ => Irregular::Touches,
    };
    irregular.iter().copied().zip(counts.into_iter().map(kind)).collect()
}

fn found(mesh: &Mesh, faulty: &[Edge], what: &str) -> Option<Fault> {
    let point = |id: u32| mesh.point(id.into()).unwrap_or([f64::NAN; 3]);
    let (count, edges) = (faulty.len(), faulty.iter().take(TOLD).map(|edge| edge.map(point)).collect());
    let are = if count == 1 { "edge is" } else { "edges are" };
    (count > 0).then(|| Fault { what: format!("{count} {are} {what}"), count, edges })
}

/// Why nothing can be said.
pub fn not_checked(mesh: &Mesh, why: &Unlisted) -> String {
    match why {
        Unlisted::Stop(Stop::NoMemory(bytes)) => format!("not enough memory: {bytes} bytes are needed"),
        Unlisted::Stop(Stop::Refused(number, values)) => {
            format!("the library turned it down: {}{}", refusals::name(*number), refusals::meaning(*number, *values))
        }
        Unlisted::Crowded(ends, sides) => {
            let [a, b] = ends.map(|id| text::point(mesh.point(id.into()).unwrap_or([f64::NAN; 3])));
            let most = "65,536 facets with 65,536 vertices";
            format!("{sides} facet sides bear the edge {a} to {b}, and the library takes up to {most} at once")
        }
    }
}

/// Every edge is sound; the volume decides.
fn sized(mesh: &Mesh, extents: &Extents) -> Verdict {
    let volume = volume::enclosed(&mesh.vertices, &mesh.facets, extents);
    let whole = volume::of_box(extents);
    let slack = volume.bound + volume::slack(extents);
    let wrong = |what: String| Verdict::TurnedWrong(Fault { what, count: 0, edges: vec![] });
    let value = volume.value;
    if value < -slack {
        wrong(format!("its volume is {value:?}, below 0: its facets face inward"))
    } else if value <= whole + slack {
        Verdict::Closed(volume)
    } else {
        wrong(format!("its volume is {value:?}, over the box's {whole:?}: parts of it overlap or face the wrong way"))
    }
}

#[cfg(test)]
mod tests {
    use super::*;

    const UNIT: Extents = [0., 0., 0., 2., 2., 2.];
    const CORNERS: [f64; 12] = [0., 0., 0., 2., 0., 0., 0., 2., 0., 0., 0., 2.];
    const FACETS: [u32; 12] = [0, 2, 1, 0, 1, 3, 0, 3, 2, 1, 2, 3];

    fn given(corners: &[f64], facets: &[u32], extents: &Extents) -> Verdict {
        let mesh = Mesh { vertices: corners.to_vec(), facets: facets.to_vec() };
        verdict(&mut Library::default(), &mesh, extents)
    }

    fn told(facets: &[u32]) -> (String, String) {
        match given(&CORNERS, facets, &UNIT) {
            Verdict::Open(fault) => (format!("open: {}", fault.what), fault.place()),
            Verdict::TurnedWrong(fault) => (format!("turned: {}", fault.what), fault.place()),
            other => (format!("{other:?}"), String::new()),
        }
    }

    #[test]
    fn a_tetrahedron_is_closed() {
        let Verdict::Closed(volume) = given(&CORNERS, &FACETS, &UNIT) else {
            panic!("{:?}", told(&FACETS));
        };
        assert!((volume.value - 8.0 / 6.0).abs() <= volume.bound);
    }

    #[test]
    fn each_facet_turned_singly_is_told() {
        for facet in 0..4 {
            let mut facets = FACETS;
            facets.swap(3 * facet + 1, 3 * facet + 2);
            let (what, place) = told(&facets);
            assert!(what.starts_with("turned: 3 edges are borne by two facet sides that run the same way"), "{what}");
            assert_eq!(place.matches(" to ").count(), 3);
        }
    }

    #[test]
    fn all_turned_is_a_volume_below_zero() {
        let facets: Vec<u32> = FACETS.chunks(3).flat_map(|f| [f[0], f[2], f[1]]).collect();
        assert!(told(&facets).0.starts_with("turned: its volume is -1.33"));
    }

    #[test]
    fn a_facet_left_out_is_open_and_told_where() {
        let (what, place) = told(&FACETS[3..]);
        assert_eq!(what, "open: 3 edges are borne by one facet only, in 1 component, a ring");
        assert!(place.starts_with("(0.0 0.0 0.0) to (2.0 0.0 0.0); "), "{place}");
        assert_eq!(told(&[]).0, "Empty");
    }

    #[test]
    fn edges_of_equal_ends_and_of_many_sides_are_not_sound() {
        let with = |more: &[u32]| told(&[&FACETS[..], more].concat()).0;
        assert!(with(&[0, 0, 1]).starts_with("open: "));
        assert!(with(&[0, 0, 1, 0, 0, 1]).starts_with("turned: "));
        assert!(with(&[0, 1, 2]).starts_with("turned: 3 edges are borne by more than two facet sides, not as many"));
        assert!(with(&[0, 1, 2, 0, 2, 1]).starts_with("turned: 3 edges are borne by two facets or more each way"));
        assert!(with(&FACETS).starts_with("turned: 6 edges are borne by two facets or more each way"));
    }

    #[test]
    fn a_solid_larger_than_the_box_is_not_closed() {
        let small = [0., 0., 0., 1., 1., 1.];
        let verdict = given(&CORNERS, &FACETS, &small);
        assert!(matches!(verdict, Verdict::TurnedWrong(fault) if fault.what.contains("over the box's 1.0")));
    }

    /// Twelve facets of a box of its own volume, and one that is flat: both ends of the range are closed.
    #[test]
    fn the_whole_box_and_nothing_are_in_range() {
        let flat = [0., 0., 0., 2., 0., 0., 0., 2., 0., 1., 1., 0.];
        assert!(matches!(given(&flat, &FACETS, &UNIT), Verdict::Closed(v) if v.value == 0.0));
        let hull: Extents = [0., 0., 0., 2.0 / 3.0, 1.0, 2.0];
        assert!(matches!(given(&CORNERS, &FACETS, &hull), Verdict::Closed(_)));
    }

    /// By the rule of the lists: closed needs all three empty, whatever they hold.
    #[test]
    fn no_list_that_holds_something_is_closed() {
        let mesh = Mesh { vertices: CORNERS.to_vec(), facets: FACETS.to_vec() };
        let none = Edges { open: vec![], components: Some(vec![]), irregular: vec![] };
        assert_eq!(of_edges(&mesh, &none), None);
        assert_eq!(of_edges(&mesh, &Edges { components: None, ..none.clone() }), None);
        let component = edges::Component { edges: 0, ring: false };
        for lists in [
            Edges { open: vec![[0, 1]], ..none.clone() },
            Edges { components: Some(vec![component]), ..none.clone() },
            Edges { irregular: vec![[0, 1]], ..none.clone() },
            Edges { irregular: vec![[7, 9]], components: None, ..none },
        ] {
            assert!(matches!(of_edges(&mesh, &lists), Some(Verdict::Open(_) | Verdict::TurnedWrong(_))), "{lists:?}");
        }
    }

    /// 70,000 facets at one edge: nothing can be said, which is not closed.
    #[test]
    fn what_was_not_checked_is_told() {
        let vertices = (0..70_002).flat_map(|id| [f64::from(id), 0.0, 0.0]).collect();
        let book = Mesh { vertices, facets: (2..70_002).flat_map(|id| [0, 1, id]).collect() };
        let Verdict::NotChecked(why) = verdict(&mut Library::default(), &book, &UNIT) else { panic!("checked") };
        let told = "70000 facet sides bear the edge (0.0 0.0 0.0) to (1.0 0.0 0.0), and the library takes up to 65,536 facets";
        assert!(why.starts_with(told), "{why}");
    }
}
