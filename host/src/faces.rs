//! The plain text between this command and a triangulator: faces go out, triangles come
//! back. The format stands in host/README.md.

use crate::library::Lists;
use crate::limits;
use crate::text::quoted;
use std::fmt::Write;

pub const NAMES: [&str; 6] = ["XMin", "XMax", "YMin", "YMax", "ZMin", "ZMax"];

/// What a corner that is no place of its face is handed to the library as. It is no
/// candidate's number, so the library answers refusal 10.
const NO_CANDIDATE: u64 = u64::MAX;

impl Lists {
    /// Nothing to close: the library wrote nothing.
    pub fn is_empty(&self) -> bool {
        self.face_lists.is_empty()
    }

    pub fn candidate_count(&self) -> usize {
        self.candidates.len() / 5
    }

    /// The candidates of a face; none if there is no such face.
    pub fn of_face(&self, face: u64) -> &[u64] {
        if self.is_empty() || face > 5 {
            return &[];
        }
        let (counts, numbers) = self.face_lists.split_at(6);
        let before: u64 = counts[..face as usize].iter().sum();
        &numbers[before as usize..][..counts[face as usize] as usize]
    }

    /// The place of a candidate; nothing if there is no such candidate.
    pub fn point(&self, candidate: u64) -> Option<[f64; 3]> {
        let start = usize::try_from(candidate).ok()?.checked_mul(5)?;
        let end = start.checked_add(3)?;
        let words: [u64; 3] = self.candidates.get(start..end)?.try_into().ok()?;
        Some(words.map(f64::from_bits))
    }

    /// The face of an open edge and its two ends; nothing if there is no such edge.
    pub fn open_edge(&self, place: u64) -> Option<(u64, [f64; 3], [f64; 3])> {
        let start = usize::try_from(place).ok()?.checked_mul(3)?;
        let words = self.open_edges.get(start..start.checked_add(3)?)?;
        Some((words[0], self.point(words[1])?, self.point(words[2])?))
    }

    /// An open edge along a side of the box that has a further candidate inside it: its ends and that point. The library wants the
    /// edge whole, the face's grid has a point on it, and no triangulation can have both.
    pub fn divided_edge(&self) -> Option<[[f64; 3]; 3]> {
        let faces = |candidate: u64| self.candidates.get(candidate as usize * 5 + 4).copied();
        self.open_edges.chunks_exact(3).find_map(|edge| {
            let common = faces(edge[1])? & faces(edge[2])?;
            if common.count_ones() < 2 {
                return None;
            }
            let (a, b) = (self.point(edge[1])?, self.point(edge[2])?);
            let side = self.of_face(edge[0]).iter().copied();
            let inside = |&id: &u64| faces(id).is_some_and(|f| f & common == common);
            side.filter(inside).filter_map(|id| self.point(id)).find(|p| *p != a && *p != b && between(*p, a, b)).map(|p| [a, b, p])
        })
    }
}

/// Whether a point of a side lies between two others of it.
fn between(p: [f64; 3], a: [f64; 3], b: [f64; 3]) -> bool {
    (0..3).all(|axis| a[axis].min(b[axis]) <= p[axis] && p[axis] <= a[axis].max(b[axis]))
}

/// The six faces as a triangulator reads them.
pub fn text(lists: &Lists) -> String {
    let mut text = String::new();
    for face in 0..6 {
        let numbers = lists.of_face(face);
        let constraints = || lists.constraints.chunks_exact(3).filter(|c| c[0] == face);
        let count = constraints().count();
        // Writing to a string cannot fail.
        let _ = writeln!(text, "face {face} {} {count}", numbers.len());
        let [u, v] = [[1, 2], [0, 2], [0, 1]][face as usize / 2];
        for point in numbers.iter().filter_map(|&number| lists.point(number)) {
            let _ = writeln!(text, "{:?} {:?}", point[u], point[v]);
        }
        for constraint in constraints() {
            let _ = writeln!(text, "{} {}", constraint[1], constraint[2]);
        }
    }
    text
}

/// Triangles as a triangulator told them.
#[derive(Clone, Debug, Default, PartialEq)]
pub struct Answer {
    /// The library's cap list: face and three candidates each.
    pub list: Vec<u64>,
    /// The line of each triangle, from 1.
    pub lines: Vec<u32>,
}

impl Answer {
    /// The first and the last line that hold triangles of a face.
    pub fn lines_of(&self, face: u64) -> Option<(u32, u32)> {
        let faces = self.list.iter().step_by(4);
        let mut lines = faces.zip(&self.lines).filter(|(f, _)| **f == face).map(|(_, line)| *line);
        let first = lines.next()?;
        Some((first, lines.next_back().unwrap_or(first)))
    }
}

/// Why an answer is none: the line, the words, what is wrong.
#[derive(Clone, Debug, PartialEq)]
pub struct NoAnswer {
    pub line: u64,
    pub value: String,
    pub why: &'static str,
}

/// The triangles of an answer, as candidates.
pub fn answer(bytes: &[u8], lists: &Lists) -> Result<Answer, NoAnswer> {
    let numbers: Vec<&[u64]> = (0..6).map(|face| lists.of_face(face)).collect();
    let mut answer = Answer::default();
    for (line, words) in (1..).zip(bytes.split(|byte| *byte == b'\n')) {
        let fault =
            |why| NoAnswer { line: u64::from(line), value: quoted(&String::from_utf8_lossy(&words[..words.len().min(limits::LINE)])), why };
        if words.len() > limits::LINE {
            return Err(fault("is too long a line"));
        }
        let told = words.split(|byte| *byte == b'#').next().unwrap_or(&[]).trim_ascii();
        if told.is_empty() {
            continue;
        }
        let triangle = std::str::from_utf8(told).ok().and_then(triangle);
        let [face, corners @ ..] = triangle.ok_or_else(|| fault("is not four whole numbers"))?;
        if answer.lines.len() < limits::TRIANGLES {
            let of_face = usize::try_from(face).ok().and_then(|face| numbers.get(face));
            let candidate = |place: u64| of_face?.get(usize::try_from(place).ok()?).copied();
            answer.list.push(face);
            answer.list.extend(corners.map(|place| candidate(place).unwrap_or(NO_CANDIDATE)));
            answer.lines.push(line);
        }
    }
    Ok(answer)
}

fn triangle(line: &str) -> Option<[u64; 4]> {
    let mut words = line.split_ascii_whitespace().map(|word| word.parse().ok());
    let mut next = || words.next().flatten();
    let triangle = [next()?, next()?, next()?, next()?];
    words.next().is_none().then_some(triangle)
}

#[cfg(test)]
mod tests {
    use super::*;

    /// Four candidates; face 0 has 3, 1, 0, face 5 has 2.
    fn lists() -> Lists {
        let point = |x: f64, y: f64, z: f64| [x.to_bits(), y.to_bits(), z.to_bits(), 0, 1];
        let points = [(0., 1., 2.), (0., 3., 4.), (5., 6., 7.), (0., 0.1, -0.0)];
        Lists {
            candidates: points.iter().flat_map(|&(x, y, z)| point(x, y, z)).collect(),
            face_lists: vec![3, 0, 0, 0, 0, 1, 3, 1, 0, 2],
            constraints: vec![0, 0, 1, 0, 1, 2],
            open_edges: vec![0, 3, 1],
        }
    }

    #[test]
    fn faces_are_told_by_points_and_places() {
        let expected =
            "face 0 3 2\n0.1 -0.0\n3.0 4.0\n1.0 2.0\n0 1\n1 2\nface 1 0 0\nface 2 0 0\nface 3 0 0\nface 4 0 0\nface 5 1 0\n5.0 6.0\n";
        assert_eq!(text(&lists()), expected);
        assert!(text(&Lists::default()).ends_with("face 5 0 0\n"));
    }

    #[test]
    fn triangles_come_back_as_candidates() {
        let answer = "# made by hand\n0 0 1 2\n\n 0 2 1 0 # turned\n5 0 0 0\n";
        let told = self::answer(answer.as_bytes(), &lists()).unwrap_or_default();
        assert_eq!(told.list, [0, 3, 1, 0, 0, 0, 1, 3, 5, 2, 2, 2]);
        assert_eq!(told.lines, [2, 4, 5]);
        assert_eq!((told.lines_of(0), told.lines_of(1)), (Some((2, 4)), None));
    }

    #[test]
    fn what_is_no_place_is_left_to_the_library() {
        let list = |text: &str, lists: &Lists| answer(text.as_bytes(), lists).map(|told| told.list);
        let text = "0 0 1 3\n6 0 1 2\n1 0 0 18446744073709551615\n";
        let none = NO_CANDIDATE;
        let expected = vec![0, 3, 1, none, 6, none, none, none, 1, none, none, none];
        assert_eq!(list(text, &lists()), Ok(expected));
        assert_eq!(list("0 1 2 3", &Lists::default()), Ok(vec![0, none, none, none]));
    }

    #[test]
    fn what_is_no_triangle_is_told_with_its_line() {
        for wrong in ["0 1 2", "0 1 2 3 4", "0 1 2 -3", "0 1 2 x", "0 1 2 18446744073709551616"] {
            let told = answer(format!("0 0 1 2\n{wrong}\n").as_bytes(), &lists());
            assert!(told.is_err_and(|fault| fault.line == 2 && fault.value.contains(wrong)));
        }
    }

    #[test]
    fn an_open_edge_is_found_by_its_place() {
        let edge = lists().open_edge(0);
        assert_eq!(edge, Some((0, [0., 0.1, -0.0], [0., 3., 4.])));
        assert_eq!(lists().open_edge(1), None);
    }
}
