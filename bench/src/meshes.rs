//! Inputs for the mesh operations, all in or around the unit box.

/// The facet counts at which every operation is timed.
pub const SIZES: [usize; 3] = [1_000, 8_192, 65_000];
/// The office's ceiling, which admits all of them.
pub const CEILING: u64 = 65_536;
pub const UNIT: [f64; 6] = [0.0, 0.0, 0.0, 1.0, 1.0, 1.0];

pub struct Mesh {
    pub vertices: Vec<f64>,
    pub facets: Vec<u32>,
}

impl Mesh {
    pub fn count(&self) -> usize {
        self.facets.len() / 3
    }

    /// The numbers as the Rust takes them.
    pub fn wide_facets(&self) -> Vec<usize> {
        self.facets.iter().map(|&id| id as usize).collect()
    }
}

/// A wavy surface of about `facets` facets over [middle - reach/2, middle + reach/2]
/// on x and y.
pub fn surface(facets: usize, middle: f64, reach: f64) -> Mesh {
    let cells = ((facets / 2) as f64).sqrt() as usize;
    let over = |i: usize| middle + reach * (i as f64 / cells as f64 - 0.5);
    let mut vertices = Vec::new();
    for i in 0..=cells {
        for j in 0..=cells {
            let (x, y) = (over(i), over(j));
            vertices.extend([x, y, 0.5 + 0.2 * (7.0 * x).sin() * (5.0 * y).cos()]);
        }
    }
    let mut list = Vec::new();
    for i in 0..cells {
        for j in 0..cells {
            let corner = |di: usize, dj: usize| ((i + di) * (cells + 1) + j + dj) as u32;
            list.extend([corner(0, 0), corner(1, 0), corner(1, 1)]);
            list.extend([corner(0, 0), corner(1, 1), corner(0, 1)]);
        }
    }
    Mesh {
        vertices,
        facets: list,
    }
}

/// A surface without some of its cells: every sixteenth of every sixteenth row.
pub fn with_holes(mesh: &Mesh) -> Mesh {
    let cells = ((mesh.count() / 2) as f64).sqrt() as usize;
    let is_hole = |cell: usize| (cell / cells) % 16 == 8 && (cell % cells) % 16 == 8;
    let list = mesh.facets.chunks_exact(6).enumerate();
    Mesh {
        vertices: mesh.vertices.clone(),
        facets: list
            .filter(|&(cell, _)| !is_hole(cell))
            .flat_map(|(_, facets)| facets.to_vec())
            .collect(),
    }
}

/// The sheet's facets with its opposite sides made one, which leaves no edge open; the vertices
/// of two of the sides are then unused.
pub fn closed(facets: usize) -> Mesh {
    let mut mesh = surface(facets, 0.5, 1.0);
    let cells = ((mesh.count() / 2) as f64).sqrt() as usize;
    for number in &mut mesh.facets {
        let (i, j) = (
            *number as usize / (cells + 1),
            *number as usize % (cells + 1),
        );
        *number = (i % cells * (cells + 1) + j % cells) as u32;
    }
    mesh
}

/// A surface in one cell of the side 1e-12, which is the cells' side for eps 0: no two
/// vertices join, and each is compared with all before it. What `count` has over
/// the surface's vertices no facet uses.
pub fn one_cell(count: usize) -> Mesh {
    let mut mesh = surface(count, 0.5, 1.0);
    for k in mesh.vertices.len() / 3..count {
        mesh.vertices
            .extend([2.0 * k as f64 / count as f64, 0.0, 0.0]);
    }
    for coordinate in &mut mesh.vertices {
        *coordinate *= 2e-13;
    }
    mesh
}

/// Triangles of random corners in and around the box. At most 65,536 vertices are
/// taken, so larger soups share corners at random.
pub fn soup(facets: usize) -> Mesh {
    let mut state = 7u64;
    let mut next = || {
        state = state
            .wrapping_mul(6_364_136_223_846_793_005)
            .wrapping_add(1_442_695_040_888_963_407);
        state >> 33
    };
    let count = (3 * facets).min(65_536);
    let vertices = (0..3 * count)
        .map(|_| next() as f64 / (1u64 << 31) as f64 * 2.0 - 0.5)
        .collect();
    let facets = (0..3 * facets)
        .map(|_| (next() % count as u64) as u32)
        .collect();
    Mesh { vertices, facets }
}

/// The same surface with three vertices of its own for every facet.
pub fn own_vertices(mesh: &Mesh) -> Mesh {
    let corner = |&id: &u32| mesh.vertices[3 * id as usize..][..3].to_vec();
    Mesh {
        vertices: mesh.facets.iter().flat_map(corner).collect(),
        facets: (0..mesh.facets.len() as u32).collect(),
    }
}
