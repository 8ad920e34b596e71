//! The built-in sample: a terrain that sticks out of its box on every side.
//!
//! The terrain is a formula of sums, products and quotients, which every machine rounds
//! alike, so that its bits, and with them the numbers of the stored triangles, are the
//! same everywhere. How the list was made stands in host/README.md.

use crate::mesh::Mesh;
use crate::meshes::Surface;
use yongpham_library::Extents;

pub const EXTENTS: Extents = [100.0, 200.0, 0.0, 500.0, 500.0, 80.0];
pub const RESOLUTION: f64 = 20.0;
pub const TRIANGLES: &str = include_str!("../sample/triangles.txt");

const CELLS: [usize; 2] = [64, 48];
const START: [f64; 2] = [88.0, 188.0];
const STEP: [f64; 2] = [6.625, 6.75];
const GROUND: f64 = 36.0;

/// Hills and pits: middle x and y, height, squared radius.
const HILLS: [[f64; 4]; 6] = [
    [190.0, 300.0, 62.0, 2500.0],
    [330.0, 420.0, -48.0, 1800.0],
    [420.0, 260.0, 30.0, 4000.0],
    [120.0, 460.0, 18.0, 3000.0],
    [270.0, 220.0, -22.0, 1500.0],
    [480.0, 470.0, 14.0, 900.0],
];

fn height(x: f64, y: f64) -> f64 {
    HILLS.iter().fold(GROUND, |height, [at_x, at_y, top, reach]| {
        let (dx, dy) = (x - at_x, y - at_y);
        height + top * reach / (reach + (dx * dx + dy * dy))
    })
}

/// Facets face up, so that closing positive gives the ground below.
pub fn mesh() -> Mesh {
    let mut mesh = Mesh::default();
    let [columns, rows] = CELLS;
    for i in 0..=columns {
        for j in 0..=rows {
            let x = START[0] + STEP[0] * i as f64;
            let y = START[1] + STEP[1] * j as f64;
            mesh.vertices.extend([x, y, height(x, y)]);
        }
    }
    for i in 0..columns {
        for j in 0..rows {
            let corner = |di, dj| ((i + di) * (rows + 1) + j + dj) as u32;
            mesh.facets.extend([corner(0, 0), corner(1, 0), corner(1, 1)]);
            mesh.facets.extend([corner(0, 0), corner(1, 1), corner(0, 1)]);
        }
    }
    mesh
}

/// The terrain as if it had been read.
pub fn surface() -> Surface {
    let mesh = mesh();
    Surface { vertices: mesh.vertex_count() as u64, facets: mesh.facet_count() as u64, mesh, ..Surface::default() }
}
