//! Random terrains with boxes of their own. Facets face up, and the terrain reaches out of the four sides of its box.

use crate::random::Random;
use std::fmt::Write;

#[derive(Clone)]
pub struct Terrain {
    pub vertices: Vec<[f64; 3]>,
    pub facets: Vec<[usize; 3]>,
    pub extents: [f64; 6],
}

/// The four kinds, a quarter each.
#[derive(Clone, Copy, PartialEq)]
pub enum Kind {
    Plain,
    /// Planes of the box pass through vertices.
    ThroughVertices,
    /// Coordinates of six digits.
    SixDigits,
    /// Coordinates rounded to single precision.
    Singles,
}

pub const KINDS: [Kind; 4] = [Kind::Plain, Kind::ThroughVertices, Kind::SixDigits, Kind::Singles];

impl Terrain {
    /// A terrain of up to `most` cells a side.
    pub fn random(random: &mut Random, kind: Kind, most: usize) -> Self {
        let cells = [4 + random.below(most - 3), 4 + random.below(most - 3)];
        let step = [random.between(2.0, 20.0), random.between(2.0, 20.0)];
        let hills: Vec<[f64; 4]> = (0..1 + random.below(6))
            .map(|_| {
                let middle = [0, 1].map(|axis| random.part() * cells[axis] as f64 * step[axis]);
                [middle[0], middle[1], random.between(-40.0, 60.0), random.between(20.0, 2000.0)]
            })
            .collect();
        let rough = random.between(0.0, 5.0);
        let mut terrain = Terrain { vertices: vec![], facets: grid(cells), extents: [0.0; 6] };
        for i in 0..=cells[0] {
            for j in 0..=cells[1] {
                let [x, y] = [i as f64 * step[0], j as f64 * step[1]];
                let hill = |[a, b, top, reach]: &[f64; 4]| top * reach / (reach + (x - a).powi(2) + (y - b).powi(2));
                let height = 50.0 + hills.iter().map(hill).sum::<f64>() + rough * random.part();
                terrain.vertices.push([x, y, height]);
            }
        }
        terrain.put_box(random, cells, step);
        terrain.place(random, kind, cells);
        terrain
    }

    /// One that has some vertices inside its box.
    pub fn with_ground(random: &mut Random, kind: Kind, most: usize) -> Self {
        loop {
            let terrain = Terrain::random(random, kind, most);
            let e = &terrain.extents;
            let inside = |p: &&[f64; 3]| (0..3).all(|axis| e[axis] < p[axis] && p[axis] < e[axis + 3]);
            if terrain.vertices.iter().filter(inside).count() > 4 {
                return terrain;
            }
        }
    }

    /// A box within the middle of the terrain; its top and bottom may cut the ground or not.
    fn put_box(&mut self, random: &mut Random, cells: [usize; 2], step: [f64; 2]) {
        for axis in 0..2 {
            let whole = cells[axis] as f64 * step[axis];
            self.extents[axis] = whole * random.between(0.05, 0.35);
            self.extents[axis + 3] = whole * random.between(0.6, 0.95);
        }
        let heights = self.vertices.iter().map(|p| p[2]);
        let (low, high) = heights.fold((f64::INFINITY, f64::NEG_INFINITY), |(l, h), z| (l.min(z), h.max(z)));
        let reach = (high - low).max(1.0);
        self.extents[2] = low + reach * random.between(-0.8, 0.3);
        self.extents[5] = low + reach * random.between(0.7, 1.8);
    }

    fn place(&mut self, random: &mut Random, kind: Kind, cells: [usize; 2]) {
        match kind {
            Kind::Plain => {}
            Kind::ThroughVertices => {
                let row = |axis: usize, part: f64| 1 + (part * (cells[axis] - 2) as f64) as usize;
                let low = [row(0, 0.2 * random.part()), row(1, 0.2 * random.part())];
                let high = [row(0, random.between(0.7, 1.0)), row(1, random.between(0.7, 1.0))];
                let at = |i: usize, j: usize| i * (cells[1] + 1) + j;
                let (near, far) = (self.vertices[at(low[0], low[1])], self.vertices[at(high[0], high[1])]);
                self.extents[..2].copy_from_slice(&near[..2]);
                self.extents[3..5].copy_from_slice(&far[..2]);
                let mut heights: Vec<f64> = self.vertices.iter().map(|p| p[2]).collect();
                heights.sort_by(f64::total_cmp);
                self.extents[2] = heights[random.below(heights.len() / 4 + 1)];
                self.extents[5] = heights[heights.len() - 1 - random.below(heights.len() / 4 + 1)];
            }
            Kind::SixDigits => {
                let offset = [random.between(1e5, 8e5), random.between(1e5, 8e5), random.between(0.0, 3000.0)];
                self.map(|x, axis| x + offset[axis]);
            }
            Kind::Singles => {
                let offset = [random.between(0.0, 900.0), random.between(0.0, 900.0), random.between(0.0, 300.0)];
                self.map(|x, axis| f64::from((x + offset[axis]) as f32));
            }
        }
        // A surface of one height, or a box that a plane left without height: not what is tried here.
        if self.extents[5] - self.extents[2] < 1.0 {
            self.extents[5] = self.extents[2] + 10.0;
        }
    }

    fn map(&mut self, change: impl Fn(f64, usize) -> f64) {
        for point in &mut self.vertices {
            *point = [0, 1, 2].map(|axis| change(point[axis], axis));
        }
        for (place, corner) in self.extents.iter_mut().enumerate() {
            *corner = change(*corner, place % 3);
        }
    }

    pub fn obj(&self) -> String {
        let mut text = String::new();
        for [x, y, z] in &self.vertices {
            let _ = writeln!(text, "v {x:?} {y:?} {z:?}");
        }
        for [a, b, c] in &self.facets {
            let _ = writeln!(text, "f {} {} {}", a + 1, b + 1, c + 1);
        }
        text
    }

    /// The six columns of a list.
    pub fn columns(&self) -> String {
        self.extents.map(|x| format!("{x:?}")).join(",")
    }

    pub fn box_volume(&self) -> f64 {
        let [x, y, z] = [0, 1, 2].map(|axis| self.extents[axis + 3] - self.extents[axis]);
        x * y * z
    }
}

fn grid(cells: [usize; 2]) -> Vec<[usize; 3]> {
    let mut facets = Vec::new();
    for i in 0..cells[0] {
        for j in 0..cells[1] {
            let corner = |a: usize, b: usize| (i + a) * (cells[1] + 1) + j + b;
            facets.push([corner(0, 0), corner(1, 0), corner(1, 1)]);
            facets.push([corner(0, 0), corner(1, 1), corner(0, 1)]);
        }
    }
    facets
}
