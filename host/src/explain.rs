//! Refusals with the line, the vertex and the value that they are about. The library says which refusal; this only looks for the place.

use crate::faces::{self, Answer};
use crate::library::{Lists, Setting, Stop};
use crate::mesh::Mesh;
use crate::meshes::Surface;
use crate::outcome::{Outcome, State, Trouble};
use crate::refusals;
use crate::text;

/// What was handed to the call that was turned down.
pub struct Call<'a> {
    pub step: &'static str,
    /// As read, if this is the call that takes it so.
    pub surface: Option<&'a Surface>,
    pub mesh: &'a Mesh,
    pub setting: &'a Setting,
    pub lists: Option<&'a Lists>,
    pub answer: Option<&'a Answer>,
}

/// The largest magnitude of a coordinate, a box corner or a resolution.
const LARGEST: f64 = (1u64 << 30) as f64;
/// The largest cell number.
const CELL: f64 = (1u64 << 62) as f64;
/// Cap triangles; vertices and facets go by the caller's ceiling.
const CAPS: usize = 1_048_576;
const CUT_GROWS: &str =
    "a facet that the box cuts becomes several, with vertices of their own, so a coarser surface or a smaller box gives fewer";
/// The step of a mesh that is only checked, for which there is no box.
pub const CHECK: &str = "check";
const ANY_SIZE: &str = "without --handheld or --ceiling a mesh of any size is checked";
const AXES: [&str; 3] = ["x", "y", "z"];

impl Call<'_> {
    pub fn outcome(&self, stop: Stop) -> Outcome {
        let (number, values) = match stop {
            Stop::Refused(number, values) => (number, values),
            Stop::NoMemory(bytes) => {
                return Outcome::failed(self.step, format!("not enough memory: {bytes} bytes are needed"));
            }
        };
        let found = match number {
            2 => self.too_many(),
            3 => self.bad_index(),
            4 => self.bad_number(),
            5 => self.bad_box(),
            6 => self.grid_too_fine(),
            8 => self.key_range(),
            9 => self.open_edge(values),
            10 => self.bad_cap(values),
            11 => self.missing_edge(values),
            _ => None,
        };
        let found = found.unwrap_or_default();
        let more = if found.explanation.is_empty() { String::new() } else { format!("; {}", found.explanation) };
        let trouble =
            Trouble { step: self.step, number: Some(number), explanation: format!("{}{more}", refusals::meaning(number, values)), ..found };
        Outcome::Not(State::Refused, trouble)
    }

    fn too_many(&self) -> Option<Trouble> {
        if let Some(answer) = self.answer.filter(|answer| answer.lines.len() > CAPS) {
            return Some(Trouble {
                line: answer.lines.get(CAPS).map(|line| u64::from(*line)),
                explanation: "it is the triangles, whatever the ceiling; the line of the answer is the first too many".into(),
                ..Trouble::default()
            });
        }
        let (vertices, facets) = match self.surface {
            Some(surface) => (surface.vertices, surface.facets),
            None => (self.mesh.vertex_count() as u64, self.mesh.facet_count() as u64),
        };
        let ceiling = self.setting.ceiling;
        let over = ceiling.exceeded_by(vertices, facets)?;
        // Line and value are those of the first list that is over.
        let lines: [fn(&Surface) -> &Vec<u64>; 2] = [|s| &s.vertex_lines, |s| &s.facet_lines];
        let (count, lines) = if vertices > ceiling.in_force() { (vertices, lines[0]) } else { (facets, lines[1]) };
        let office = ceiling.in_the_office(vertices, facets);
        let (found, advice) = match self.surface {
            Some(_) if self.step == CHECK => (format!("there are {over}"), ANY_SIZE.into()),
            Some(_) => (format!("there are {over}"), format!("{office}; what lies well outside the box may be left out")),
            // Only a mesh that the ceiling admitted is cut.
            None => (
                format!("the mesh handed in was within the ceiling, but once it is cut to the box there are {over}"),
                format!("{office}; {CUT_GROWS}"),
            ),
        };
        Some(Trouble {
            line: self.line_of(lines, ceiling.in_force() as usize),
            value: count.to_string(),
            explanation: format!("{found}, and the ceiling is {}; {advice}", ceiling.in_words()),
            ..Trouble::default()
        })
    }

    fn bad_index(&self) -> Option<Trouble> {
        let count = self.mesh.vertex_count();
        let place = self.mesh.facets.iter().position(|&id| id as usize >= count)?;
        let facet = place / 3;
        let word = self.surface.and_then(|s| s.no_vertex.clone()).filter(|(at, _)| *at == facet);
        let value = word.map_or_else(|| (u64::from(self.mesh.facets[place]) + 1).to_string(), |(_, word)| word);
        Some(Trouble {
            line: self.line_of(|s| &s.facet_lines, facet),
            explanation: format!("facet {} names vertex {value}, and there are {count}", facet + 1),
            value,
            ..Trouble::default()
        })
    }

    fn line_of(&self, pick: fn(&Surface) -> &Vec<u64>, place: usize) -> Option<u64> {
        pick(self.surface?).get(place).copied()
    }

    fn bad_number(&self) -> Option<Trouble> {
        let outside = |x: &f64| x.is_nan() || x.abs() > LARGEST;
        if let Some(place) = self.mesh.vertices.iter().position(outside) {
            let (value, axis) = (format!("{:?}", self.mesh.vertices[place]), AXES[place % 3]);
            return Some(Trouble {
                line: self.line_of(|s| &s.vertex_lines, place / 3),
                explanation: format!("{axis} of vertex {} is {value}; at most 2^30 is admitted", place / 3 + 1),
                value,
                ..Trouble::default()
            });
        }
        let Setting { extents, eps, resolution, .. } = self.setting;
        let named = [
            ("eps", *eps, !(0.0..=1.0).contains(eps), "from 0 to 1"),
            ("the resolution", *resolution, !(*resolution > 0.0 && *resolution <= LARGEST), "above 0 and at most 2^30"),
        ];
        let corner = extents.iter().copied().find(outside).map(|x| ("a box corner", x, true, "finite and at most 2^30"));
        let (name, value, _, range) = corner.into_iter().chain(named).find(|(_, _, bad, _)| *bad)?;
        Some(Trouble {
            value: format!("{value:?}"),
            explanation: format!("{name} is {value:?}; it is to be {range}"),
            ..Trouble::default()
        })
    }

    fn bad_box(&self) -> Option<Trouble> {
        let e = &self.setting.extents;
        let axis = (0..3).find(|&axis| e[axis].is_nan() || e[axis + 3].is_nan() || e[axis] >= e[axis + 3])?;
        let (low, high) = (e[axis], e[axis + 3]);
        Some(Trouble {
            value: format!("{low:?} {high:?}"),
            explanation: format!("along {} it runs from {low:?} to {high:?}", AXES[axis]),
            ..Trouble::default()
        })
    }

    fn grid_too_fine(&self) -> Option<Trouble> {
        let Setting { extents: e, eps, resolution, .. } = self.setting;
        let segments = |axis: usize| ((e[axis + 3] - e[axis]) / resolution.max(*eps)).ceil();
        let axis = (0..3).find(|&axis| segments(axis) > 256.0)?;
        Some(Trouble {
            value: format!("{resolution:?}"),
            explanation: format!("along {} there would be {} of {resolution:?}", AXES[axis], segments(axis)),
            ..Trouble::default()
        })
    }

    fn key_range(&self) -> Option<Trouble> {
        let cell = self.setting.eps.max(1e-12);
        let beyond = |x: &f64| (x / cell).round().abs() > CELL;
        let place = self.mesh.vertices.iter().position(beyond)?;
        Some(Trouble {
            value: format!("{:?}", self.mesh.vertices[place]),
            place: text::point(self.mesh.point(place as u64 / 3)?),
            explanation: format!("eps is {:?}", self.setting.eps),
            ..Trouble::default()
        })
    }

    /// Refusal 9's pair as two points.
    fn open_edge(&self, values: [u64; 4]) -> Option<Trouble> {
        let (a, b) = (self.mesh.point(values[0])?, self.mesh.point(values[1])?);
        Some(Trouble {
            value: format!("{} {}", values[0], values[1]),
            place: format!("{} to {}", text::point(a), text::point(b)),
            explanation: "the surface has a hole or ends there; the first such edge".into(),
            ..Trouble::default()
        })
    }

    fn bad_cap(&self, values: [u64; 4]) -> Option<Trouble> {
        let place = usize::try_from(values[0]).ok()?;
        let line = self.answer?.lines.get(place).copied()?;
        Some(Trouble {
            line: Some(line.into()),
            value: place.to_string(),
            explanation: format!("the first is triangle {place}, from 0, in that line of the triangulator's answer"),
            ..Trouble::default()
        })
    }

    /// Refusal 11's place as a face and two points, with the lines in which it should have been.
    fn missing_edge(&self, values: [u64; 4]) -> Option<Trouble> {
        let (face, a, b) = self.lists?.open_edge(values[0])?;
        let name = faces::NAMES.get(face as usize)?;
        let lines = self.answer?.lines_of(face);
        let held = lines.map_or("the answer has no triangle for that face".into(), |(first, last)| {
            format!("the answer's triangles for that face stand in lines {first} to {last}")
        });
        Some(Trouble {
            line: lines.map(|(first, _)| first.into()),
            value: values[0].to_string(),
            place: format!("{} to {}", text::point(a), text::point(b)),
            explanation: format!("on face {face} ({name}); {held}; the edge"),
            ..Trouble::default()
        })
    }
}
