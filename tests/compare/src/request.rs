//! A request to one of the mesh operations. An operation reads its fields and leaves the
//! others; so a request made for one serves for all.

use crate::ceilings::OFFICE;
use crate::random::Random;
use oracle::Extents;
use std::fmt::Write as _;

#[derive(Clone, Debug)]
pub struct Request {
    /// The family of requests that it comes from.
    pub family: &'static str,
    pub vertices: Vec<f64>,
    /// Stands for a list of vertices where an operation asks for their count alone.
    pub vertex_count: Option<u64>,
    pub facets: Vec<u32>,
    /// Four words a cap triangle.
    pub caps: Vec<u64>,
    pub extents: Extents,
    pub eps: f64,
    pub resolution: f64,
    /// 0 none, 1 positive, 2 negative.
    pub mode: u32,
    /// How many vertices, and how many facets, the caller admits.
    pub ceiling: u64,
    /// Length of the work room.
    pub work: usize,
    /// Lengths of the outputs, in the order of test 12.
    pub outputs: [usize; 4],
}

impl Request {
    pub fn new(
        family: &'static str,
        vertices: Vec<f64>,
        facets: Vec<u32>,
        extents: Extents,
        eps: f64,
    ) -> Self {
        Request {
            family,
            vertices,
            vertex_count: None,
            facets,
            caps: Vec::new(),
            extents,
            eps,
            resolution: 1.0,
            mode: 1,
            ceiling: OFFICE,
            work: 0,
            outputs: [0; 4],
        }
    }

    /// A mesh whose vertices are only counted. What is not asked for is 0.
    pub fn counted(family: &'static str, vertex_count: u64, facets: Vec<u32>) -> Self {
        let mut request = Request::new(family, Vec::new(), facets, [0.0; 6], 0.0);
        request.vertex_count = Some(vertex_count);
        request.resolution = 0.0;
        request.mode = 0;
        request
    }

    /// How many vertices the mesh has.
    pub fn count(&self) -> u64 {
        self.vertex_count.unwrap_or(self.vertices.len() as u64 / 3)
    }

    /// The facets as the reference takes them.
    pub fn wide_facets(&self) -> Vec<usize> {
        self.facets.iter().map(|&id| id as usize).collect()
    }

    /// For choosing the smallest of several requests.
    pub fn size(&self) -> usize {
        self.vertices.len() + self.facets.len() + self.caps.len()
    }

    /// Every bit of the request, as text.
    pub fn describe(&self) -> String {
        let hex = |list: &[f64], a_line: usize| {
            let mut text = String::new();
            for line in list.chunks(a_line) {
                for x in line {
                    write!(text, " {:016x}", x.to_bits()).expect("writing to a string");
                }
                writeln!(text, "   {line:?}").expect("writing to a string");
            }
            text
        };
        format!(
            "family {}\n{} vertices ({} elements)\n{}facets {:?}\ncaps {:?}\nbox\n{}eps{}resolution{}\
             mode {}  ceiling {}  work {}  outputs {:?}\n",
            self.family,
            self.count(),
            self.vertices.len(),
            hex(&self.vertices, 3),
            self.facets,
            self.caps,
            hex(&self.extents, 3),
            hex(&[self.eps], 1),
            hex(&[self.resolution], 1),
            self.mode,
            self.ceiling,
            self.work,
            self.outputs,
        )
    }

    /// Room for a result of these lengths: mostly ample or exact, now and then one
    /// element short in one output, or none at all.
    pub fn choose_outputs(&mut self, random: &mut Random, lengths: [usize; 4]) {
        let place = random.below(4);
        self.outputs = lengths;
        match random.below(8) {
            0 => self.outputs[place] = lengths[place].saturating_sub(1),
            1 => self.outputs[place] = random.below(lengths[place] + 1),
            2 | 3 => {}
            _ => self.outputs = lengths.map(|length| length + random.below(9)),
        }
        if random.one_in(50) {
            self.outputs = [0; 4];
        }
    }

    /// Work room for this need: mostly exact, now and then a word short, less, or more.
    /// None where the need is a gigabyte: such a request is there for tests 1 and 2.
    pub fn choose_work(&mut self, random: &mut Random, need: u64) {
        let need = need as usize;
        self.work = match random.below(40) {
            _ if need > 1 << 25 => 0,
            0 => need - 1,
            1 => random.below(need),
            2 => 0,
            3 | 4 => need + random.below(2000),
            _ => need,
        };
    }
}
