//! Reading meshes. A format is a module; which one a file has is decided here.

pub mod kinds;
pub mod obj;

use crate::files;
use crate::limits;
use crate::mesh::Mesh;
use std::io::{BufReader, Read, Seek, SeekFrom};
use std::path::Path;

/// A mesh as it was handed in, with where its elements stand in the file.
#[derive(Clone, Debug, Default, PartialEq)]
pub struct Surface {
    pub mesh: Mesh,
    /// The line of each vertex and of each facet that was kept; empty where there are no lines.
    pub vertex_lines: Vec<u64>,
    pub facet_lines: Vec<u64>,
    /// How many the file has; more than are kept, if there are too many for the library.
    pub vertices: u64,
    pub facets: u64,
    /// The first corner that can name no vertex, whatever follows: the facet's place, and the word.
    pub no_vertex: Option<(usize, String)>,
}

/// Why a mesh was not read.
#[derive(Clone, Debug, PartialEq)]
pub struct Unread {
    pub line: Option<u64>,
    /// The word at fault, as it is quoted.
    pub value: String,
    pub why: String,
}

impl Unread {
    pub fn whole(why: impl Into<String>) -> Self {
        Unread { line: None, value: String::new(), why: why.into() }
    }
}

/// Bytes at a file's start by which its kind is told.
const START: u64 = 4096;

/// As much of a mesh as the library admits, and one more.
pub fn read(path: &Path) -> Result<Surface, Unread> {
    let surface = read_up_to(path, limits::ELEMENTS)?;
    match surface.facets {
        0 => Err(Unread::whole(format!("no mesh: {NO_FACET}"))),
        _ => Ok(surface),
    }
}

pub const NO_FACET: &str = "it has vertices, but no facet (no f line)";

/// Of vertices and of facets as many as given are kept. That there is no facet is not tested.
pub fn read_up_to(path: &Path, most: usize) -> Result<Surface, Unread> {
    let mut file = files::open(path).map_err(Unread::whole)?;
    let cannot = |why: std::io::Error| Unread::whole(format!("cannot be read: {why}"));
    let length = file.metadata().map_err(cannot)?.len();
    let mut start = Vec::new();
    file.by_ref().take(START).read_to_end(&mut start).map_err(cannot)?;
    if let Some(kind) = kinds::other_than_obj(&start, length) {
        return Err(Unread::whole(format!("no mesh: {kind}; an OBJ file is needed")));
    }
    if length > limits::MESH {
        return Err(Unread::whole(format!("is not read: it is larger than {} bytes", limits::MESH)));
    }
    file.seek(SeekFrom::Start(0)).map_err(cannot)?;
    let surface = obj::read_up_to(BufReader::new(file.take(limits::MESH)), most)?;
    match surface.vertices {
        0 => Err(Unread::whole("no mesh: it has no vertex (no v line)")),
        _ => Ok(surface),
    }
}
