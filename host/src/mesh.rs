//! A mesh as the library takes it.

/// Coordinates, three a vertex, and vertex numbers from 0, three a facet.
#[derive(Clone, Debug, Default, PartialEq)]
pub struct Mesh {
    pub vertices: Vec<f64>,
    pub facets: Vec<u32>,
}

impl Mesh {
    pub fn vertex_count(&self) -> usize {
        self.vertices.len() / 3
    }

    pub fn facet_count(&self) -> usize {
        self.facets.len() / 3
    }

    /// The place of a vertex; nothing if there is no such vertex.
    pub fn point(&self, vertex: u64) -> Option<[f64; 3]> {
        let start = usize::try_from(vertex).ok()?.checked_mul(3)?;
        let end = start.checked_add(3)?;
        self.vertices.get(start..end)?.try_into().ok()
    }
}
