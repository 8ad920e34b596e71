//! The library's functions with room lent to them.
//!
//! The work room is the header's formula, and outputs are lent as much as a surface usually needs, so that a result is computed once.
//! Where that is too little, the reply says how much is needed, and the call is made again.

use crate::ceiling::Ceiling;
use crate::mesh::Mesh;
pub use yongpham_library::Extents;
use yongpham_library::{self as library, Reply};

/// Why a call gave no result.
#[derive(Clone, Copy, Debug, PartialEq)]
pub enum Stop {
    /// Turned down by the library, with the number and the values it answered.
    Refused(u32, [u64; 4]),
    /// The machine has not so many bytes to lend.
    NoMemory(u64),
}

const NO_WORK_ROOM: u32 = 7;
const NO_ROOM: u32 = 12;

/// Words of work room: so many an item, and so many beside.
const ITEM: usize = 128;
const BESIDE: usize = 1024;

/// What a mesh is handed over with, the same at every step: box, tolerance, resolution and the caller's ceiling.
#[derive(Clone, Copy, Debug, PartialEq)]
pub struct Setting {
    pub extents: Extents,
    pub eps: f64,
    pub resolution: f64,
    pub ceiling: Ceiling,
}

impl Setting {
    /// Points of the grids over the six faces, at most: an axis has one segment to 256.
    fn grid_points(&self) -> usize {
        let segments = |axis: usize| {
            let length = self.extents[axis + 3] - self.extents[axis];
            let segments = (length / self.resolution.max(self.eps)).ceil();
            if segments.is_finite() {
                segments.clamp(1.0, 256.0) as usize
            } else {
                1
            }
        };
        let [a, b, c] = [segments(0) + 1, segments(1) + 1, segments(2) + 1];
        2 * (a * b + a * c + b * c)
    }
}

/// What the candidates are written as: points, lists of the faces, constraints, open edges.
#[derive(Clone, Debug, Default, PartialEq)]
pub struct Lists {
    pub candidates: Vec<u64>,
    pub face_lists: Vec<u64>,
    pub constraints: Vec<u64>,
    pub open_edges: Vec<u64>,
}

/// The open boundary as the library writes it, two words an edge or a component.
#[derive(Clone, Debug, Default, PartialEq)]
pub struct Boundary {
    /// Open edges, by components.
    pub edges: Vec<u64>,
    /// Of each component its count of edges, and 1 if it is a ring.
    pub components: Vec<u64>,
    pub irregular: Vec<u64>,
}

/// The outputs of an operation, in the order in which refusal 12 tests them.
trait Outputs {
    const COUNT: usize;
    fn lengths(&self) -> [usize; 4];
    fn grow(&mut self, output: usize, length: usize) -> Result<(), Stop>;
    fn cut(&mut self, lengths: [usize; 4]);
}

impl Outputs for Mesh {
    const COUNT: usize = 2;

    fn lengths(&self) -> [usize; 4] {
        [self.vertices.len(), self.facets.len(), 0, 0]
    }

    fn grow(&mut self, output: usize, length: usize) -> Result<(), Stop> {
        match output {
            0 => resize(&mut self.vertices, length),
            _ => resize(&mut self.facets, length),
        }
    }

    fn cut(&mut self, lengths: [usize; 4]) {
        self.vertices.truncate(lengths[0]);
        self.facets.truncate(lengths[1]);
    }
}

impl Lists {
    fn each_mut(&mut self) -> [&mut Vec<u64>; 4] {
        [&mut self.candidates, &mut self.face_lists, &mut self.constraints, &mut self.open_edges]
    }
}

impl Outputs for Lists {
    const COUNT: usize = 4;

    fn lengths(&self) -> [usize; 4] {
        [&self.candidates, &self.face_lists, &self.constraints, &self.open_edges].map(Vec::len)
    }

    fn grow(&mut self, output: usize, length: usize) -> Result<(), Stop> {
        resize(self.each_mut()[output], length)
    }

    fn cut(&mut self, lengths: [usize; 4]) {
        for (list, length) in self.each_mut().into_iter().zip(lengths) {
            list.truncate(length);
        }
    }
}

impl Boundary {
    fn each_mut(&mut self) -> [&mut Vec<u64>; 3] {
        [&mut self.edges, &mut self.components, &mut self.irregular]
    }
}

impl Outputs for Boundary {
    const COUNT: usize = 3;

    fn lengths(&self) -> [usize; 4] {
        [self.edges.len(), self.components.len(), self.irregular.len(), 0]
    }

    fn grow(&mut self, output: usize, length: usize) -> Result<(), Stop> {
        resize(self.each_mut()[output], length)
    }

    fn cut(&mut self, lengths: [usize; 4]) {
        for (list, length) in self.each_mut().into_iter().zip(lengths) {
            list.truncate(length);
        }
    }
}

/// Zeros up to a length. A machine without the memory is an answer, not an end of the batch.
fn resize<T: Clone + Default>(list: &mut Vec<T>, length: usize) -> Result<(), Stop> {
    let more = length.saturating_sub(list.len());
    let bytes = (length as u64).saturating_mul(size_of::<T>() as u64);
    list.try_reserve_exact(more).map_err(|_| Stop::NoMemory(bytes))?;
    list.resize(length, T::default());
    Ok(())
}

/// The library, with the work room that it is lent again and again.
#[derive(Default)]
pub struct Library {
    work: Vec<u64>,
}

impl Library {
    /// Calls until the work room and the outputs suffice: first with the room expected.
    ///
    /// Refusal 12 names no output, but only one that is shorter than the need can be meant; such outputs get that length in turn.
    fn settle<O: Outputs>(&mut self, expected_work: usize, mut outputs: O, call: impl Fn(&mut [u64], &mut O) -> Reply) -> Result<O, Stop> {
        let (mut room, mut tries) = (expected_work, 0);
        loop {
            if self.work.len() < room {
                resize(&mut self.work, room)?;
            }
            let reply = call(&mut self.work[..room], &mut outputs);
            let need = usize::try_from(reply.values[0]).unwrap_or(usize::MAX);
            let shorter = (0..O::COUNT).find(|&output| outputs.lengths()[output] < need);
            tries += 1;
            match (reply.number, shorter) {
                (0, _) => {
                    outputs.cut(reply.values.map(|length| length as usize));
                    return Ok(outputs);
                }
                (NO_WORK_ROOM, _) if room < need => room = need,
                (NO_ROOM, Some(output)) if tries <= 16 => outputs.grow(output, need)?,
                _ => return Err(Stop::Refused(reply.number, reply.values)),
            }
        }
    }

    /// The tolerance of a box.
    pub fn tolerance(&self, extents: &Extents) -> Result<f64, Stop> {
        let reply = library::tolerance(extents);
        match reply.number {
            0 => Ok(f64::from_bits(reply.values[0])),
            number => Err(Stop::Refused(number, reply.values)),
        }
    }

    /// Whether box, eps and resolution pass the tests of every call. Without work room nothing further is tested or computed.
    pub fn accepts(&self, setting: &Setting) -> Result<(), Stop> {
        let Setting { extents, eps, resolution, ceiling } = setting;
        let none = &mut [][..];
        let reply = library::candidates(&[], &[], extents, *eps, *resolution, ceiling.asked(), none, &mut [], &mut [], &mut [], &mut []);
        match reply.number {
            0 | NO_WORK_ROOM => Ok(()),
            number => Err(Stop::Refused(number, reply.values)),
        }
    }

    /// The mesh cut to the box.
    pub fn clip(&mut self, mesh: &Mesh, setting: &Setting) -> Result<Mesh, Stop> {
        let (vertices, facets) = (mesh.vertex_count(), mesh.facet_count());
        // A cut facet has vertices of its own; few surfaces have more than half of their facets cut.
        let out = lent(vertices + 2 * facets, 2 * facets)?;
        let Setting { extents, eps, ceiling, .. } = setting;
        self.settle(ITEM * (vertices + facets) + BESIDE, out, |work, out: &mut Mesh| {
            library::clip(&mesh.vertices, &mesh.facets, extents, *eps, ceiling.asked(), work, &mut out.vertices, &mut out.facets)
        })
    }

    /// The mesh cleaned: it grows in nothing.
    pub fn clean(&mut self, mesh: &Mesh, setting: &Setting) -> Result<Mesh, Stop> {
        let (vertices, facets) = (mesh.vertex_count(), mesh.facet_count());
        let out = lent(vertices, facets)?;
        self.settle(ITEM * (vertices + facets) + BESIDE, out, |work, out: &mut Mesh| {
            let (eps, ceiling) = (setting.eps, setting.ceiling.asked());
            library::clean(&mesh.vertices, &mesh.facets, eps, ceiling, work, &mut out.vertices, &mut out.facets)
        })
    }

    /// What a triangulator is given.
    pub fn candidates(&mut self, mesh: &Mesh, setting: &Setting) -> Result<Lists, Stop> {
        let (vertices, facets, grid) = (mesh.vertex_count(), mesh.facet_count(), setting.grid_points());
        let points = grid + vertices.min(facets);
        let mut out = Lists::default();
        for (output, length) in [5 * points, 6 + 3 * points, 9 * points, 3 * facets].into_iter().enumerate() {
            out.grow(output, length)?;
        }
        let Setting { extents, eps, resolution, ceiling } = setting;
        self.settle(ITEM * (vertices + facets + grid) + BESIDE, out, |work, out: &mut Lists| {
            let [candidates, face_lists, constraints, open_edges] = out.each_mut();
            library::candidates(
                &mesh.vertices,
                &mesh.facets,
                extents,
                *eps,
                *resolution,
                ceiling.asked(),
                work,
                candidates,
                face_lists,
                constraints,
                open_edges,
            )
        })
    }

    /// The mesh closed: mode 1 positive, 2 negative.
    pub fn caps(&mut self, mesh: &Mesh, cap_list: &[u64], setting: &Setting, mode: u32) -> Result<Mesh, Stop> {
        let (vertices, facets, grid) = (mesh.vertex_count(), mesh.facet_count(), setting.grid_points());
        let triangles = cap_list.len() / 4;
        let items = vertices + facets + triangles + grid;
        let out = lent(vertices + grid, facets + triangles)?;
        let Setting { extents, eps, resolution, ceiling } = setting;
        self.settle(ITEM * items + BESIDE, out, |work, out: &mut Mesh| {
            library::caps(
                &mesh.vertices,
                &mesh.facets,
                cap_list,
                extents,
                *eps,
                *resolution,
                mode,
                ceiling.asked(),
                work,
                &mut out.vertices,
                &mut out.facets,
            )
        })
    }

    /// The open and the irregular edges of any mesh. Where its vertices lie is not asked.
    pub fn boundary_components(&mut self, vertices: usize, facets: &[u32], ceiling: Ceiling) -> Result<Boundary, Stop> {
        let count = facets.len() / 3;
        let mut out = Boundary::default();
        // Three sides a facet. Each may be an open edge, and a component of its own; of an irregular one there are two at least.
        for (output, length) in [6 * count, 6 * count, 3 * count].into_iter().enumerate() {
            out.grow(output, length)?;
        }
        self.settle(ITEM * (vertices + count) + BESIDE, out, |work, out: &mut Boundary| {
            let [edges, components, irregular] = out.each_mut();
            library::boundary_components(vertices as u64, facets, ceiling.asked(), work, edges, components, irregular)
        })
    }
}

/// Outputs for so many vertices and facets.
fn lent(vertices: usize, facets: usize) -> Result<Mesh, Stop> {
    let mut mesh = Mesh::default();
    resize(&mut mesh.vertices, 3 * vertices)?;
    resize(&mut mesh.facets, 3 * facets)?;
    Ok(mesh)
}

#[cfg(test)]
mod tests {
    use super::*;
    use std::cell::Cell;

    const WORK: usize = 40;

    /// A library that needs `WORK` words and writes lists of these lengths.
    fn answer(lengths: [usize; 4], work: &[u64], out: &mut Lists) -> Reply {
        let reply = |number, need: usize| Reply { number, values: [need as u64, 0, 0, 0] };
        if work.len() < WORK {
            return reply(NO_WORK_ROOM, WORK);
        }
        let short = out.lengths().into_iter().zip(lengths).find(|(has, needs)| has < needs);
        match short {
            Some((_, needs)) => reply(NO_ROOM, needs),
            None => Reply { number: 0, values: lengths.map(|length| length as u64) },
        }
    }

    /// Also where results are empty in between, of one length, or falling.
    #[test]
    fn outputs_get_what_they_need_and_keep_only_what_was_written() {
        for lengths in [[0; 4], [10, 9, 0, 36], [5, 5, 5, 5], [0, 0, 0, 7], [40, 3, 20, 1]] {
            let mut library = Library::default();
            let lists = library.settle(0, Lists::default(), |work, out| answer(lengths, work, out));
            let got = lists.map(|lists| lists.lengths());
            assert_eq!(got, Ok(lengths));
            assert_eq!(library.work.len(), WORK);
        }
    }

    #[test]
    fn refusals_are_passed_on_and_asking_ends() {
        for number in 1..=13 {
            let calls = Cell::new(0);
            let got = Library::default().settle(0, Mesh::default(), |_, _| {
                calls.set(calls.get() + 1);
                Reply { number, values: [0; 4] }
            });
            assert_eq!(got, Err(Stop::Refused(number, [0; 4])));
            assert_eq!(calls.get(), 1);
        }
    }

    #[test]
    fn room_that_suffices_is_computed_in_once() {
        let calls = Cell::new(0);
        let mut lists = Lists::default();
        for output in 0..4 {
            assert_eq!(lists.grow(output, 50), Ok(()));
        }
        let got = Library::default().settle(WORK, lists, |work, out| {
            calls.set(calls.get() + 1);
            answer([40, 3, 20, 1], work, out)
        });
        assert_eq!((got.map(|lists| lists.lengths()), calls.get()), (Ok([40, 3, 20, 1]), 1));
    }

    #[test]
    fn memory_that_is_not_there_is_an_answer() {
        let mut list: Vec<u64> = Vec::new();
        assert!(matches!(resize(&mut list, usize::MAX / 4), Err(Stop::NoMemory(_))));
    }
}
