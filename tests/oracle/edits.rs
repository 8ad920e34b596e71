//! Every change made to the reference before it is compiled.
//!
//! build.rs reads the files of the folder FERREUS_SRC, applies this list from
//! top to bottom and writes the results to cargo's output folder. An edit whose
//! `old` text does not occur exactly `times` times stops the build, so a changed
//! reference cannot slip through.
//!
//! Document 01 allows three changes of behaviour: "that Rust with its open edges
//! sorted before use, its triangulation replaced by the supplied list, and its
//! `hypot` replaced by module 5's length". Document 02, E3, replaces that length "and
//! the oracle's length with it". The edits marked BEHAVIOUR are these.
//! The others only make the files compile on their own (BUILD) or let the
//! wrapper and its tests reach a private item (DOOR).

/// One replacement of text in one file of the reference.
pub struct Edit {
    /// File below FERREUS_SRC.
    pub file: &'static str,
    /// Text to be replaced, exactly as it stands in the reference.
    pub old: &'static str,
    /// Text put in its place.
    pub new: &'static str,
    /// How often `old` must occur.
    pub times: usize,
    /// Why the edit is needed and what allows it.
    pub why: &'static str,
}

const CLIPPING: &str = "ferreus_rmt/src/aabb_clipping.rs";
const CLEANUP: &str = "ferreus_rmt/src/mesh_cleanup.rs";
const CLOSURE: &str = "ferreus_rmt/src/boundary_closure.rs";
const POINT: &str = "ferreus_rmt/src/geometry/point.rs";
const TRIANGLE: &str = "ferreus_rmt/src/geometry/triangle.rs";

/// The files that are read, with the module each becomes. src/lib.rs gathers the
/// two leaves in a module `geometry`. triangle.rs calls `moller`, which is not
/// supplied and not used here: src/lib.rs has a stub of that name.
pub const FILES: &[(&str, &str)] = &[
    (CLIPPING, "aabb_clipping"),
    (CLEANUP, "mesh_cleanup"),
    (CLOSURE, "boundary_closure"),
    (POINT, "geometry_point"),
    (TRIANGLE, "geometry_triangle"),
];

pub const EDITS: &[Edit] = &[
    // ------------------------------------------------------------ behaviour
    Edit {
        file: CLOSURE,
        old: "    for ((a, b), incident) in edges {\n",
        new: r#"    let mut open: Vec<_> = edges
        .into_iter()
        .filter(|(_, incident)| incident.len() == 1)
        .collect();
    open.sort_unstable_by_key(|(pair, _)| *pair);
    for ((a, b), incident) in open {
"#,
        times: 1,
        why: "BEHAVIOUR. \"Open edges go in ascending order of their sorted pair\"; the Rust \
              takes them in the order of a hash map.",
    },
    Edit {
        file: CLOSURE,
        old: "ab[0].hypot(ab[1])",
        new: "crate::length::length(ab[0], ab[1])",
        times: 1,
        why: "BEHAVIOUR. Document 02, E3: \"Replace the length by the double nearest the exact \
              root of the exact sum, the even one where two are equally near.\" The Rust calls \
              `hypot`, whose last digit the standard library leaves open. src/length.rs has \
              this length, document 01's before it, and `hypot` itself for timing.",
    },
    Edit {
        file: CLOSURE,
        old: r#"    mode: BoundaryClosure,
    eps: f64,
) -> (Vec<f64>, Vec<usize>) {
"#,
        new: r#"    mode: BoundaryClosure,
    eps: f64,
    supplied: &[SuppliedTri],
) -> (Vec<f64>, Vec<usize>) {
"#,
        times: 1,
        why: "BEHAVIOUR. `cap_mesh_to_aabb` \"with its face triangulation handed in\".",
    },
    Edit {
        file: CLOSURE,
        old: "    candidates.build_face_cdts();\n",
        new: "    candidates.tris = supplied_tris(supplied);\n",
        times: 1,
        why: "BEHAVIOUR. \"its triangulation replaced by the supplied list\". The constraints \
              are not made here: only the triangulation read them.",
    },
    Edit {
        file: CLOSURE,
        old: "    fn build_face_cdt(&mut self, face: BoxFace) {\n",
        new: "    fn build_face_cdt(&self, face: BoxFace) -> Vec<(usize, usize)> {\n",
        times: 1,
        why: "BEHAVIOUR. The constraints that were handed to the triangulation are the answer.",
    },
    Edit {
        file: CLOSURE,
        old: r#"        if candidate_ids.len() < 3 {
            return;
"#,
        new: r#"        if candidate_ids.len() < 3 {
            return Vec::new();
"#,
        times: 1,
        why: "BEHAVIOUR. \"none on a face with under three candidates\".",
    },
    Edit {
        file: CLOSURE,
        old: "        let constraint_edges: Vec<[usize; 2]> =",
        new: r#"        let mut listed: Vec<_> = constraints.iter().copied().collect();
        listed.sort_unstable();
        #[cfg(any())]
        {
        let constraint_edges: Vec<[usize; 2]> ="#,
        times: 1,
        why: "BEHAVIOUR. Constraints are \"listed ascending, once\"; from here on the \
              triangulation is left out (compiled never).",
    },
    Edit {
        file: CLOSURE,
        old: r#"        }));
    }
"#,
        new: r#"        }));
        }
        listed
    }
"#,
        times: 1,
        why: "BEHAVIOUR. The end of the part left out.",
    },
    // ---------------------------------------------------------------- build
    Edit {
        file: CLOSURE,
        old: r#"use spade::{
    ConstrainedDelaunayTriangulation, HasPosition, Point2, Triangulation,
    handles::FixedVertexHandle,
};
"#,
        new: "",
        times: 1,
        why: "BUILD. \"Another package triangulates each face and stays outside.\"",
    },
    Edit {
        file: CLOSURE,
        old: "position: Point2::new(uv[0], uv[1])",
        new: "position: uv",
        times: 1,
        why: "BUILD. A type of the triangulation; only the triangulation read it.",
    },
    Edit {
        file: CLOSURE,
        old: "    position: Point2<f64>,\n",
        new: "    position: [f64; 2],\n",
        times: 1,
        why: "BUILD. The same.",
    },
    Edit {
        file: CLOSURE,
        old: "impl HasPosition for LocalVertex {\n",
        new: "#[cfg(any())]\nimpl HasPosition for LocalVertex {\n",
        times: 1,
        why: "BUILD. The same.",
    },
    Edit {
        file: CLOSURE,
        old: "    isosurface::AABB,\n",
        new: "    aabb_clipping::AABB,\n",
        times: 1,
        why: "BUILD. isosurface.rs is none of the reference functions' files; it re-exports the \
              AABB that aabb_clipping.rs defines.",
    },
    Edit {
        file: TRIANGLE,
        old: "use super::Point;\n",
        new: "use crate::geometry::Point;\n",
        times: 1,
        why: "BUILD. The file of module `geometry` that declares the two leaves is not supplied.",
    },
    // ---------------------------------------------------------------- doors
    Edit {
        file: CLIPPING,
        old: "enum BoxPlane {",
        new: "pub(crate) enum BoxPlane {",
        times: 1,
        why: "DOOR. Worked block C4 asks for one plane's tests.",
    },
    Edit {
        file: CLIPPING,
        old: "fn segment_plane_t(\n",
        new: "pub(crate) fn segment_plane_t(\n",
        times: 1,
        why: "DOOR. Worked block C4.",
    },
    Edit {
        file: CLIPPING,
        old: "fn point_inside_plane(p",
        new: "pub(crate) fn point_inside_plane(p",
        times: 1,
        why: "DOOR. Worked block C4.",
    },
    Edit {
        file: CLEANUP,
        old: "fn quantized_point_key(",
        new: "pub(crate) fn quantized_point_key(",
        times: 1,
        why: "DOOR. Worked blocks C1 and C3 state keys.",
    },
    Edit {
        file: CLOSURE,
        old: "fn axis_grid_coordinates(min",
        new: "pub(crate) fn axis_grid_coordinates(min",
        times: 1,
        why: "DOOR. Worked blocks C11 and C12.",
    },
    Edit {
        file: CLOSURE,
        old: "/// Caps open mesh boundaries that lie on an AABB boundary.\n",
        new: CLOSURE_DOOR,
        times: 1,
        why: "DOOR. \"The split of `cap_mesh_to_aabb` in two\": its first half, handed out as \
              plain lists, and the form in which the triangulation is handed in.",
    },
];

/// Added to boundary_closure.rs in front of `cap_mesh_to_aabb`.
const CLOSURE_DOOR: &str = r#"/// A supplied cap triangle: its face and its three candidates.
pub(crate) type SuppliedTri = (usize, [CandidateVertexId; 3]);

/// The supplied list in the form in which the triangulation left its triangles.
fn supplied_tris(supplied: &[SuppliedTri]) -> Vec<CandidateCapTri> {
    supplied
        .iter()
        .map(|&(face, [a, b, c])| CandidateCapTri {
            face: BOX_FACES[face],
            vertices: Triangle::new(a, b, c),
        })
        .collect()
}

/// The candidate surface as plain lists.
pub(crate) struct CandidateLists {
    /// Point, mesh vertex and face bits of each candidate.
    pub(crate) candidates: Vec<([f64; 3], Option<usize>, u8)>,
    /// Candidates of each face.
    pub(crate) faces: [Vec<CandidateVertexId>; 6],
    /// Oriented open edges: face and two candidates.
    pub(crate) open_edges: Vec<(usize, CandidateVertexId, CandidateVertexId)>,
    /// Constraints of each face, as places in its list.
    pub(crate) constraints: [Vec<(usize, usize)>; 6],
}

/// The first half of `cap_mesh_to_aabb`; `None` where it returns the mesh
/// because no open edge keeps two ends.
pub(crate) fn candidate_lists(
    vertices: &[f64],
    facets: &[usize],
    extents: AABB<f64>,
    resolution: f64,
    eps: f64,
    with_constraints: bool,
) -> Option<CandidateLists> {
    let mut surface = CandidateCapSurface::new(extents, resolution, eps);
    surface.inject_mesh_boundary_edges(vertices, facets);
    if surface.boundary_edges.is_empty() {
        return None;
    }
    surface.add_aabb_grid_vertices(vertices);
    let constraints = BOX_FACES.map(|face| {
        if with_constraints { surface.build_face_cdt(face) } else { Vec::new() }
    });
    Some(CandidateLists {
        candidates: surface
            .vertices
            .iter()
            .map(|v| (v.point, v.original_mesh_vertex, v.faces.0))
            .collect(),
        open_edges: surface
            .oriented_boundary_edges
            .iter()
            .map(|&(face, a, b)| (face.index(), a, b))
            .collect(),
        faces: surface.face_vertices,
        constraints,
    })
}

/// Caps open mesh boundaries that lie on an AABB boundary.
"#;
