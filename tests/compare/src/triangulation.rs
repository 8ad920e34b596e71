//! A constrained triangulation of each face's candidates, to make supplied lists
//! that close a mesh as the customer's package would.
//!
//! Incremental Delaunay insertion with edge flips, then constraints by flipping
//! the edges that cross them. Points are rounded to a lattice of whole numbers, so
//! that every test is exact and the work ends; points that fall together there are
//! entered once. A constraint that crosses another may push it out. That is good
//! enough here: a list that misses an edge is a request too.

/// Lattice steps along the longer side of the points' bounding box.
const STEPS: f64 = (1u64 << 24) as f64;
const NONE: usize = usize::MAX;
/// The two axes of a face, by the axis that it bounds.
pub const AXES: [[usize; 2]; 3] = [[1, 2], [0, 2], [0, 1]];

type Point = [i64; 2];

/// Triangles of the points, counter-clockwise.
fn triangulate(points: &[[f64; 2]], constraints: &[(usize, usize)]) -> Vec<[usize; 3]> {
    let lattice = to_lattice(points);
    let mut first_at = std::collections::HashMap::new();
    let entered: Vec<usize> = lattice
        .iter()
        .enumerate()
        .map(|(id, &p)| *first_at.entry(p).or_insert(id))
        .collect();
    let mut mesh = Triangulation::new(lattice);
    for id in (0..points.len()).filter(|&id| entered[id] == id) {
        mesh.insert(id);
    }
    for &(a, b) in constraints {
        mesh.constrain(entered[a], entered[b]);
    }
    let real = |corners: &&[usize; 3]| corners.iter().all(|&id| id < points.len());
    mesh.corners.iter().filter(real).copied().collect()
}

/// The candidates of each face.
pub fn by_face(face_lists: &[u64]) -> [&[u64]; 6] {
    let mut at = 6;
    [0, 1, 2, 3, 4, 5].map(|face| {
        let list = &face_lists[at..at + face_lists[face] as usize];
        at += list.len();
        list
    })
}

/// A triangulation of every face that keeps its constraints, faces in order.
pub fn sound_list(lists: &[Vec<u64>; 4]) -> Vec<[u64; 4]> {
    let [candidates, face_lists, constraints, _] = lists;
    let mut list = Vec::new();
    for (face, numbers) in by_face(face_lists).into_iter().enumerate() {
        let axes = AXES[face / 2];
        let points: Vec<[f64; 2]> = numbers
            .iter()
            .map(|&id| axes.map(|axis| f64::from_bits(candidates[5 * id as usize + axis])))
            .collect();
        let kept: Vec<(usize, usize)> = constraints
            .chunks_exact(3)
            .filter(|c| c[0] == face as u64)
            .map(|c| (c[1] as usize, c[2] as usize))
            .collect();
        let triangles = triangulate(&points, &kept);
        list.extend(
            triangles
                .iter()
                .map(|t| [face as u64, numbers[t[0]], numbers[t[1]], numbers[t[2]]]),
        );
    }
    list
}

fn to_lattice(points: &[[f64; 2]]) -> Vec<Point> {
    let bound = |axis: usize, pick: fn(f64, f64) -> f64, start: f64| {
        points.iter().map(|p| p[axis]).fold(start, pick)
    };
    let low = [0, 1].map(|axis| bound(axis, f64::min, f64::INFINITY));
    let high = [0, 1].map(|axis| bound(axis, f64::max, f64::NEG_INFINITY));
    let side = (high[0] - low[0])
        .max(high[1] - low[1])
        .max(f64::MIN_POSITIVE);
    let place = |x: f64, axis: usize| ((x - low[axis]) / side * STEPS).round() as i64;
    points
        .iter()
        .map(|p| [place(p[0], 0), place(p[1], 1)])
        .collect()
}

struct Triangulation {
    points: Vec<Point>,
    /// Corners of each triangle, counter-clockwise.
    corners: Vec<[usize; 3]>,
    /// Neighbour across the side opposite each corner.
    across: Vec<[usize; 3]>,
    /// A triangle at each point.
    star: Vec<usize>,
    last: usize,
}

impl Triangulation {
    /// One triangle, far around all points; its corners come after theirs.
    fn new(mut points: Vec<Point>) -> Self {
        let n = points.len();
        let far = 8 * STEPS as i64;
        points.extend([[-far, -far], [3 * far, -far], [-far, 3 * far]]);
        let mut star = vec![NONE; n + 3];
        star[n..].fill(0);
        Triangulation {
            points,
            corners: vec![[n, n + 1, n + 2]],
            across: vec![[NONE; 3]],
            star,
            last: 0,
        }
    }

    /// Positive if a, b, c turn left.
    fn turn(&self, a: usize, b: usize, c: usize) -> i64 {
        let ([ax, ay], [bx, by], [cx, cy]) = (self.points[a], self.points[b], self.points[c]);
        let value = (bx - ax) as i128 * (cy - ay) as i128 - (by - ay) as i128 * (cx - ax) as i128;
        value.signum() as i64
    }

    /// Is d inside the circle through a, b, c?
    fn in_circle(&self, [a, b, c]: [usize; 3], d: usize) -> bool {
        let [dx, dy] = self.points[d];
        let row = |id: usize| {
            let [x, y] = self.points[id];
            let (x, y) = ((x - dx) as i128, (y - dy) as i128);
            (x, y, x * x + y * y)
        };
        let ((ax, ay, aw), (bx, by, bw), (cx, cy, cw)) = (row(a), row(b), row(c));
        // Differences stay below 2^30, so that the sum stays below 2^125.
        ax * (by * cw - bw * cy) - ay * (bx * cw - bw * cx) + aw * (bx * cy - by * cx) > 0
    }

    fn locate(&self, p: usize) -> usize {
        let mut t = self.last;
        'walk: loop {
            let [a, b, c] = self.corners[t];
            for (i, (u, v)) in [(b, c), (c, a), (a, b)].into_iter().enumerate() {
                if self.turn(u, v, p) < 0 {
                    t = self.across[t][i];
                    continue 'walk;
                }
            }
            return t;
        }
    }

    fn set(&mut self, t: usize, corners: [usize; 3], across: [usize; 3]) {
        self.corners[t] = corners;
        self.across[t] = across;
        corners.iter().for_each(|&id| self.star[id] = t);
    }

    fn relink(&mut self, t: usize, old: usize, new: usize) {
        if t != NONE {
            let slot = self.across[t]
                .iter()
                .position(|&n| n == old)
                .expect("neighbours agree");
            self.across[t][slot] = new;
        }
    }

    /// Splits the triangle at p in three and flips until all circles are empty.
    fn insert(&mut self, p: usize) {
        let t0 = self.locate(p);
        let ([a, b, c], [na, nb, nc]) = (self.corners[t0], self.across[t0]);
        let (t1, t2) = (self.corners.len(), self.corners.len() + 1);
        self.corners.extend([[0; 3]; 2]);
        self.across.extend([[NONE; 3]; 2]);
        self.set(t0, [p, a, b], [nc, t1, t2]);
        self.set(t1, [p, b, c], [na, t2, t0]);
        self.set(t2, [p, c, a], [nb, t0, t1]);
        self.relink(na, t0, t1);
        self.relink(nb, t0, t2);
        self.last = t0;
        let mut doubtful = vec![t0, t1, t2];
        while let Some(t) = doubtful.pop() {
            let ([_, q, r], u) = (self.corners[t], self.across[t][0]);
            if u == NONE {
                continue;
            }
            let d = self.opposite(u, t);
            // A point on a side leaves a flat triangle, which must go.
            if self.turn(p, q, r) == 0 || self.in_circle([p, q, r], d) {
                self.flip(t, 0);
                doubtful.extend([t, u]);
            }
        }
    }

    /// The corner of u that does not belong to its neighbour t.
    fn opposite(&self, u: usize, t: usize) -> usize {
        let slot = self.across[u]
            .iter()
            .position(|&n| n == t)
            .expect("neighbours agree");
        self.corners[u][slot]
    }

    /// Replaces the side opposite corner i of t by the other diagonal. Triangle t
    /// keeps that corner first.
    fn flip(&mut self, t: usize, i: usize) -> (usize, usize) {
        let [p, q, r] = [0, 1, 2].map(|k| self.corners[t][(i + k) % 3]);
        let [u, over_q, over_r] = [0, 1, 2].map(|k| self.across[t][(i + k) % 3]);
        let j = self.across[u]
            .iter()
            .position(|&n| n == t)
            .expect("neighbours agree");
        let d = self.corners[u][j];
        // u is d, r, q: across from r lies the side q d, across from q the side d r.
        let (side_qd, side_dr) = (self.across[u][(j + 1) % 3], self.across[u][(j + 2) % 3]);
        self.set(t, [p, q, d], [side_qd, u, over_r]);
        self.set(u, [p, d, r], [side_dr, over_q, t]);
        self.relink(side_qd, u, t);
        self.relink(over_q, t, u);
        (p, d)
    }

    /// Triangles around a, each with the place of a in it.
    fn around(&self, a: usize) -> Vec<(usize, usize)> {
        let mut found = Vec::new();
        let mut t = self.star[a];
        loop {
            let i = self.corners[t]
                .iter()
                .position(|&id| id == a)
                .expect("the star holds it");
            found.push((t, i));
            t = self.across[t][(i + 1) % 3];
            if t == NONE || t == self.star[a] {
                return found;
            }
        }
    }

    /// Makes a, b an edge, or a chain of edges through the points between them.
    fn constrain(&mut self, mut a: usize, b: usize) {
        while a != b {
            let Some(next) = self.first_stop(a, b) else {
                return;
            };
            if !self.clear(a, next) {
                return;
            }
            a = next;
        }
    }

    /// The first point on the way from a to b: b itself or one between.
    fn first_stop(&self, a: usize, b: usize) -> Option<usize> {
        for (t, i) in self.around(a) {
            let (q, r) = (self.corners[t][(i + 1) % 3], self.corners[t][(i + 2) % 3]);
            if let Some(&stop) = [q, r].iter().find(|&&id| id == b || self.ahead(a, b, id)) {
                return Some(stop);
            }
            if self.turn(a, q, b) > 0 && self.turn(a, r, b) < 0 {
                return self.crossed(a, b, t, i).map(|(stop, _)| stop);
            }
        }
        None
    }

    /// Does the point lie on the way from a to b?
    fn ahead(&self, a: usize, b: usize, id: usize) -> bool {
        let ([ax, ay], [bx, by], [x, y]) = (self.points[a], self.points[b], self.points[id]);
        let dot = (bx - ax) as i128 * (x - ax) as i128 + (by - ay) as i128 * (y - ay) as i128;
        self.turn(a, b, id) == 0 && dot > 0
    }

    /// Walks from a, leaving triangle t across the side opposite place i, to b or
    /// the first point on the way; answers it and the edges crossed.
    fn crossed(
        &self,
        a: usize,
        b: usize,
        t: usize,
        i: usize,
    ) -> Option<(usize, Vec<(usize, usize)>)> {
        let (mut right, mut left) = (self.corners[t][(i + 1) % 3], self.corners[t][(i + 2) % 3]);
        let mut edges = vec![(right, left)];
        let (mut from, mut t) = (t, self.across[t][i]);
        while t != NONE {
            let w = self.opposite(t, from);
            if w == b || self.turn(a, b, w) == 0 {
                return Some((w, edges));
            }
            let leaving = if self.turn(a, b, w) > 0 {
                let old = left;
                left = w;
                old
            } else {
                let old = right;
                right = w;
                old
            };
            edges.push((right, left));
            from = t;
            let slot = self.corners[t]
                .iter()
                .position(|&id| id == leaving)
                .expect("a corner of t");
            t = self.across[t][slot];
        }
        None
    }

    /// Flips the edges that cross a, b away; b is the first point on the way.
    fn clear(&mut self, a: usize, b: usize) -> bool {
        let mut edges = std::collections::VecDeque::new();
        for (t, i) in self.around(a) {
            let (q, r) = (self.corners[t][(i + 1) % 3], self.corners[t][(i + 2) % 3]);
            if q == b || r == b {
                return true;
            }
            if self.turn(a, q, b) > 0 && self.turn(a, r, b) < 0 {
                if let Some((_, crossed)) = self.crossed(a, b, t, i) {
                    edges.extend(crossed);
                }
                break;
            }
        }
        let mut patience = 100 + 20 * edges.len() * edges.len();
        while let Some((q, r)) = edges.pop_front() {
            patience -= 1;
            if patience == 0 {
                return false;
            }
            let Some((t, i)) = self.side(q, r) else {
                continue;
            };
            let (p, u) = (self.corners[t][i], self.across[t][i]);
            let d = self.opposite(u, t);
            let convex = self.turn(p, q, d) > 0 && self.turn(p, d, r) > 0;
            if !convex {
                edges.push_back((q, r));
                continue;
            }
            self.flip(t, i);
            let (side_p, side_d) = (self.turn(a, b, p), self.turn(a, b, d));
            let ends = [p, d].iter().any(|id| *id == a || *id == b);
            if !ends && side_p * side_d < 0 {
                edges.push_back(if side_p < 0 { (p, d) } else { (d, p) });
            }
        }
        true
    }

    /// The triangle that has the side q, r in that order, and the place opposite.
    fn side(&self, q: usize, r: usize) -> Option<(usize, usize)> {
        self.around(q).into_iter().find_map(|(t, i)| {
            (self.corners[t][(i + 1) % 3] == r && self.across[t][(i + 2) % 3] != NONE)
                .then_some((t, (i + 2) % 3))
        })
    }
}

#[cfg(test)]
mod tests {
    use super::triangulate;
    use crate::random::Random;

    /// Twice the signed area of the whole.
    fn area(points: &[[f64; 2]], triangles: &[[usize; 3]]) -> f64 {
        let double = |t: &[usize; 3]| {
            let [a, b, c] = t.map(|id| points[id]);
            (b[0] - a[0]) * (c[1] - a[1]) - (b[1] - a[1]) * (c[0] - a[0])
        };
        // Rounding to the lattice may tilt a thin triangle a little.
        assert!(triangles.iter().all(|t| double(t) > -1e-6));
        triangles.iter().map(double).sum()
    }

    #[test]
    fn grids_and_random_points_are_covered() {
        for seed in 0..50 {
            let mut random = Random::new(seed, "triangulation", 0);
            let mut points = vec![[0.0, 0.0], [1.0, 0.0], [1.0, 1.0], [0.0, 1.0]];
            let n = 1 + random.below(12);
            points.extend(
                (1..n)
                    .flat_map(|i| (1..n).map(move |j| [i as f64 / n as f64, j as f64 / n as f64])),
            );
            let inner: Vec<_> = (0..random.below(30))
                .map(|_| [random.unit(), random.unit()])
                .collect();
            let first = points.len();
            points.extend(inner);
            let chain: Vec<_> = (first..points.len().saturating_sub(1))
                .map(|i| (i, i + 1))
                .collect();
            let mut kept = vec![(0, 1), (1, 2), (2, 3), (0, 3)];
            kept.extend(chain.first());
            let triangles = triangulate(&points, &kept);
            assert!(
                (area(&points, &triangles) - 2.0).abs() < 1e-6,
                "seed {seed}"
            );
            assert_eq!(triangles.len(), 2 * points.len() - 2 - 4, "seed {seed}");
            if let Some(&(a, b)) = chain.first() {
                let has = |t: &[usize; 3]| t.contains(&a) && t.contains(&b);
                assert!(triangles.iter().any(has), "seed {seed}");
            }
            // Crossing constraints need not be kept, but the cover must be.
            kept.extend(&chain);
            let triangles = triangulate(&points, &kept);
            assert!(
                (area(&points, &triangles) - 2.0).abs() < 1e-6,
                "seed {seed}"
            );
        }
    }
}
