//! Where the pictures of `check` go: of one mesh to the file named, of several to a folder, as NAME.svg.

use crate::picture;
use crate::results::Results;
use crate::tasks;
use crate::text;
use std::collections::HashSet;
use std::path::{Path, PathBuf};

/// A path a mesh; none at all if no pictures are asked for.
#[derive(Debug, PartialEq)]
pub struct Pictures(Vec<PathBuf>);

impl Pictures {
    /// Everything that can be known before the first mesh is looked at.
    pub fn new(named: Option<&Path>, meshes: &[PathBuf]) -> Result<Self, String> {
        let Some(named) = named else {
            return Ok(Pictures(vec![]));
        };
        let one = named.extension().is_some() && !named.is_dir();
        if one {
            picture::check(named)?;
        }
        match (one, meshes.len()) {
            (true, 1) => Ok(Pictures(vec![named.into()])),
            (true, count) => Err(format!("--picture: {} is one picture, and there are {count} meshes; name a folder", text::name(named))),
            (false, _) => Self::in_folder(named, meshes),
        }
    }

    fn in_folder(folder: &Path, meshes: &[PathBuf]) -> Result<Self, String> {
        Results::new(folder)?;
        let mut seen = HashSet::new();
        let path = |mesh: &PathBuf| {
            let name = tasks::default_name(mesh);
            if tasks::bad_name(&name) {
                return Err(format!("--picture: {} cannot name a file", text::quoted(&name)));
            }
            let path = folder.join(format!("{name}.svg"));
            if !seen.insert(name) {
                return Err(format!("--picture: two meshes would have the picture {}", text::name(&path)));
            }
            Ok(path)
        };
        meshes.iter().map(path).collect::<Result<_, _>>().map(Pictures)
    }

    /// That of the mesh at a place.
    pub fn of(&self, place: usize) -> Option<&Path> {
        self.0.get(place).map(PathBuf::as_path)
    }

    pub fn all(&self) -> impl Iterator<Item = &Path> {
        self.0.iter().map(PathBuf::as_path)
    }
}
