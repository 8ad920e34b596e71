//! Boundary components: `yongpham_boundary_components` beside the oracle, and the requests for
//! it.

use crate::boundary_meshes::{
    cube, facets, from, polygon, retold, sheet, strip, torus, turned, used, Facet, TETRAHEDRON,
};
use crate::ceilings::{LISTED, OFFICE};
use crate::chosen::{self, Room};
use crate::lent::Lent;
use crate::meshes;
use crate::operation::{library, lists_answer, Answer, Operation};
use crate::random::Random;
use crate::request::Request;

pub const OPERATION: Operation = Operation {
    name: "boundary_components",
    number: 6,
    generate,
    damage,
    small: (PAST_THE_END + LISTS, small),
    small_room: Some(Room::Ample),
    chosen: chosen::boundary_components,
    need,
    lengths,
    oracle: |r, work| {
        lists_answer(r, work, |work, [e, c, i]| {
            oracle::boundary_components(r.count(), &r.facets, r.ceiling, work, e, c, i)
        })
    },
    ours,
};

fn ours(r: &Request, work: &mut Lent<u64>) -> Answer {
    lists_answer(r, work, |work, [e, c, i]| {
        library(yongpham_library::boundary_components(
            r.count(),
            &r.facets,
            r.ceiling,
            work,
            e,
            c,
            i,
        ))
    })
}

fn lengths(r: &Request) -> [usize; 4] {
    let found = oracle::boundary(&r.facets);
    let edges: usize = found.components.iter().map(Vec::len).sum();
    [edges, found.components.len(), found.irregular.len(), 0].map(|count| 2 * count)
}

/// Most words for a request whose vertex count test 2 refuses.
const MOST_REFUSED: u64 = 1 << 14;

/// Where test 2 refuses the vertex count, what the formula leaves of its words in 64 bits, as far
/// as that is little: a function that computed the need so would take the room for enough.
fn need(r: &Request) -> u64 {
    let facets = r.facets.len() / 3;
    if r.count() <= OFFICE {
        return oracle::need_words(r.count() as usize, facets, 0, 0);
    }
    let items = r.count().wrapping_add(facets as u64);
    let words = items.wrapping_mul(128).wrapping_add(1_024);
    words.clamp(1, MOST_REFUSED)
}

fn generate(random: &mut Random, number: u64) -> Request {
    let mut request = match number % 8 {
        0 => small_lists(number / 8),
        1 => repeated_corners(random),
        2 => sheet_with_holes(random),
        3 => touching_polygons(random),
        4 => closed_surfaces(random),
        5 => irregular_edges(random),
        6 => of_an_operation(random),
        _ => apart(random),
    };
    count_vertices(random, &mut request);
    if random.one_in(8) {
        damage(random, &mut request);
    }
    request
}

/// A request that has just the vertices that its facets name.
fn named(family: &'static str, facets: Vec<Facet>) -> Request {
    Request::counted(family, used(&facets).into(), facets.concat())
}

/// Mostly the vertices that are there, else more, one less, or as many as can be.
fn count_vertices(random: &mut Random, request: &mut Request) {
    let count = request.count();
    request.vertex_count = Some(match random.below(40) {
        0 => count.saturating_sub(1),
        1..=5 => count + 1,
        6..=9 => count + random.below(40) as u64,
        10 if random.one_in(40) => at_the_end(random, request),
        _ => count,
    });
}

/// As many vertices as can be, of which the facets mostly name the last.
fn at_the_end(random: &mut Random, request: &mut Request) -> u64 {
    let count = random.pick(&[OFFICE - 1, OFFICE]);
    if !random.one_in(4) && request.count() <= count {
        for number in &mut request.facets {
            *number = count as u32 - 1 - *number;
        }
    }
    count
}

/// Breaks one thing: a length, a number, a count, the ceiling.
fn damage(random: &mut Random, request: &mut Request) {
    let any = random.below(request.facets.len().max(1));
    let count = request.count();
    match random.below(14) {
        0 => request.facets.truncate(any),
        1 => request.facets.push(0),
        2 => request.facets.push(u32::MAX),
        3..=5 => {
            let past = random.pick(&[count, count.wrapping_sub(1), count.wrapping_add(1)]);
            let past = random.pick(&[past as u32, past as u32, u32::MAX]);
            if let Some(number) = request.facets.get_mut(any) {
                *number = past;
            }
        }
        6 => request.vertex_count = Some(random.below(4) as u64),
        7..=9 => request.vertex_count = Some(beyond(random, count)),
        10 if random.one_in(20) && count > 0 => {
            let length = 3 * 65_536 + random.pick(&[0, 3, 1]);
            request.facets.resize(length, 0);
        }
        11 | 12 => request.ceiling = random.pick(&LISTED),
        _ => request.vertex_count = Some(count.saturating_add(random.below(3) as u64)),
    }
}

/// Counts that test 2 refuses: a step beyond, those that 32 bits cut to a sound one, those
/// whose words of work room wrap around to few, the largest.
fn beyond(random: &mut Random, count: u64) -> u64 {
    let count = count.min(OFFICE);
    random.pick(&[
        OFFICE + 1,
        1 << 32,
        (1 << 32) + count,
        1 << 57,
        (1 << 57) + count,
        (1 << 57) - 8,
        1 << 63,
        u64::MAX - 7,
        u64::MAX,
    ])
}

/// Lists of up to three facets, numbers below four: 1 + 4^3 + 4^6 + 4^9.
const LISTS: u64 = 266_305;
/// Lists of up to two, over three vertices: a number past the end is among them.
const PAST_THE_END: u64 = 4_161;

fn small(_: &mut Random, turn: u64) -> Request {
    match turn.checked_sub(PAST_THE_END) {
        Some(turn) => Request::counted("all lists", 4, meshes::facet_list(turn, 4, 3)),
        None => Request::counted("past the end", 3, meshes::facet_list(turn, 4, 2)),
    }
}

/// Every list of up to two facets over four vertices, in turn.
fn small_lists(turn: u64) -> Request {
    Request::counted("small lists", 4, meshes::facet_list(turn, 4, 2))
}

/// Facets over so few vertices that corners repeat, facets come again, and edges have many
/// sides; now and then so many that most edges have one.
fn repeated_corners(random: &mut Random) -> Request {
    let (vertices, most) = (random.pick(&[2, 4, 8, 30]), random.pick(&[4, 8, 20]));
    let (count, facets) = (1 + random.below(vertices), random.below(most));
    let list = meshes::random_facets(random, facets, count);
    Request::counted("repeated corners", count as u64, list)
}

/// A sheet without some facets or cells, with some turned and some given again.
fn sheet_with_holes(random: &mut Random) -> Request {
    let most = meshes::cells(random);
    let (u, v) = (1 + random.below(most), most);
    let rate = |random: &mut Random| random.pick(&[1 << 30, 1 << 30, 40, 8, 2]);
    let (facets, cells, turns, again) = (rate(random), rate(random), rate(random), rate(random));
    let mut list = Vec::new();
    for cell in sheet(u, v).chunks_exact(2) {
        if random.one_in(cells) {
            continue;
        }
        for &facet in cell {
            let [a, b, c] = facet;
            if !random.one_in(facets) {
                list.push(if random.one_in(turns) {
                    [a, c, b]
                } else {
                    facet
                });
            }
            if random.one_in(again) {
                list.push(random.pick(&[[b, c, a], [a, c, b]]));
            }
        }
    }
    if !random.one_in(3) {
        retold(random, &mut list);
    }
    named("sheet with holes", list)
}

/// Polygons with vertices of their own, some of which share one, two or more with those before:
/// rings beside each other, rings that touch, sides in common.
fn touching_polygons(random: &mut Random) -> Request {
    let sharing = random.pick(&[1, 2, 4, 12]);
    let mut list: Vec<Facet> = Vec::new();
    let mut next = 0;
    for _ in 0..1 + random.below(6) {
        let sides = 3 + random.below(6);
        let mut around = Vec::new();
        while around.len() < sides {
            let shared = next > 0 && random.one_in(sharing * sides);
            let vertex = if shared {
                random.below(next as usize) as u32
            } else {
                next
            };
            next = next.max(vertex + 1);
            if !around.contains(&vertex) {
                around.push(vertex);
            }
        }
        list.extend(polygon(&around));
    }
    if random.one_in(2) {
        retold(random, &mut list);
    }
    named("touching polygons", list)
}

/// Closed surfaces, some of which share vertices, as they are or with a facet turned, left out,
/// given again, or moved to another corner.
fn closed_surfaces(random: &mut Random) -> Request {
    let mut list = Vec::new();
    for _ in 0..1 + random.below(4) {
        let part = match random.below(5) {
            0 => TETRAHEDRON.to_vec(),
            1 => cube(),
            2 => vec![[0, 1, 2], [2, 1, 0]],
            _ => torus(3 + random.below(3), 3 + random.below(3)),
        };
        // The last vertices so far are the first of the next part.
        let shared = random.pick(&[0, 0, 1, 2, 3]);
        list.extend(from(used(&list).saturating_sub(shared), &part));
    }
    for _ in 0..random.pick(&[0, 0, 1, 1, 2]) {
        change_a_facet(random, &mut list);
    }
    if random.one_in(2) {
        retold(random, &mut list);
    }
    named("closed surfaces", list)
}

fn change_a_facet(random: &mut Random, list: &mut Vec<Facet>) {
    let place = random.below(list.len());
    match random.below(5) {
        0 => *list = turned(place, list),
        1 => list.push(list[place]),
        2 => list[place][random.below(3)] = random.below(used(list) as usize + 1) as u32,
        _ => {
            list.remove(place);
            if list.is_empty() {
                list.push([0, 0, 0]);
            }
        }
    }
}

/// Facets around shared edges, one to five a time and either way round, and facets with a
/// repeated corner on the same vertices: paths, tails and edges from a vertex to itself.
fn irregular_edges(random: &mut Random) -> Request {
    let mut list: Vec<Facet> = Vec::new();
    let mut next = 2;
    for _ in 0..1 + random.below(4) {
        let (a, b) = (random.below(next) as u32, random.below(next) as u32);
        for _ in 0..1 + random.below(5) {
            let c = if random.one_in(3) {
                random.below(next)
            } else {
                next
            } as u32;
            next = next.max(c as usize + 1);
            list.push(random.pick(&[[a, b, c], [b, a, c], [a, b, c], [c, b, b], [a, a, c]]));
        }
    }
    if random.one_in(2) {
        retold(random, &mut list);
    }
    named("irregular edges", list)
}

/// A mesh as clip is given it, as clip and as clean leave it.
fn of_an_operation(random: &mut Random) -> Request {
    let request = match random.below(3) {
        0 => meshes::realistic(random),
        1 => meshes::clipped(random),
        _ => meshes::clipped_and_cleaned(random),
    };
    Request::counted(request.family, request.count(), request.facets)
}

/// Facets that share few vertices or none, so that there are many components, and long strips
/// whose numbers jump to and fro, so that components grow together late.
fn apart(random: &mut Random) -> Request {
    let most = random.pick(&[30, 90, 400]);
    let count = 3 + random.below(most);
    let mut list: Vec<Facet> = match random.below(3) {
        0 => facets(&(0..count as u32 / 3 * 3).collect::<Vec<_>>()),
        1 => facets(&meshes::random_facets(random, count / 4, count)),
        _ => strip(count as u32),
    };
    if random.one_in(4) {
        let kept = random.below(list.len() + 1);
        list.truncate(kept);
    }
    retold(random, &mut list);
    named("apart and strips", list)
}

#[cfg(test)]
mod tests {
    use super::*;
    use crate::clean;
    use crate::lent::Old;
    use crate::operation::{self, fitted};
    use std::collections::BTreeSet;

    /// "C8's square has one slit, a ring of four": the two facets as cleaning leaves them, by
    /// the oracle and by our library.
    #[test]
    fn c8_is_a_ring_of_four() {
        let corners = [[0.0, 0.0], [1.0, 0.0], [1.0, 1.0], [0.0, 1.0]];
        let points = corners.iter().flat_map(|&[x, y]| [x, y, 0.0]).collect();
        let extents = [0.0, 0.0, 0.0, 1.0, 1.0, 1.0];
        let list = vec![0, 1, 2, 0, 2, 3];
        let mut square = Request::new("C8", points, list, extents, 2f64.powi(-20));
        let mut work = Lent::new(0, Old::Junk);
        square.work = (clean::OPERATION.need)(&square) as usize;
        let cleaned = fitted(clean::OPERATION.ours, &mut square, &mut work);
        assert_eq!(cleaned.reply.values, [12, 6, 0, 0]);
        let list = cleaned.outputs[1][..6].iter().map(|&id| id as u32);
        for ask in [OPERATION.oracle, OPERATION.ours] {
            let mut request = Request::counted("C8", 4, list.clone().collect());
            request.work = need(&request) as usize;
            request.outputs = [8, 2, 0, 0];
            let answer = ask(&request, &mut work);
            assert_eq!((answer.reply.number, answer.fault), (0, None));
            assert_eq!(answer.reply.values, [8, 2, 0, 0]);
            // Each side of the square once, smaller number first, ascending; a ring of four.
            let sides = vec![0, 1, 0, 3, 1, 2, 2, 3];
            assert_eq!(answer.outputs, [sides, vec![4, 1], vec![]]);
        }
    }

    /// Every list of at most three facets has its turn, and none two.
    #[test]
    fn all_lists_are_met() {
        let mut random = Random::new(1, "small", 0);
        let (count, small) = OPERATION.small;
        let mut met = BTreeSet::new();
        for turn in PAST_THE_END..count {
            met.insert(small(&mut random, turn).facets);
        }
        assert_eq!(met.len(), 1 + 64 + 64 * 64 + 64 * 64 * 64);
        assert_eq!(met.iter().flatten().max(), Some(&3));
    }

    /// Each reply comes often enough for 100 of it among 20,000 requests, and so does 12 by each
    /// output.
    #[test]
    fn every_reply_is_met() {
        let mut work = Lent::new(0, Old::Junk);
        let (mut met, mut short) = ([0; 13], [0; 3]);
        for number in 0..4_000 {
            let request = operation::request(&OPERATION, 1, number, &mut work);
            let reply = (OPERATION.oracle)(&request, &mut work).reply;
            met[reply.number as usize] += 1;
            if reply.number == 12 {
                let lengths = lengths(&request);
                let first = (0..3).find(|&place| request.outputs[place] < lengths[place]);
                short[first.expect("an output is short")] += 1;
            }
        }
        for number in [0, 1, 2, 3, 7, 12] {
            assert!(met[number] >= 20, "{met:?}");
        }
        assert!(short.iter().all(|&count| count >= 20), "{short:?}");
    }

    /// What the outputs can tell is met: rings and others, several components, an edge a, a
    /// that is open, edges with two sides the same way and with more; and nothing at all.
    #[test]
    fn every_kind_of_boundary_is_met() {
        let mut met = [0; 7];
        for number in 0..4_000 {
            let mut random = Random::new(1, OPERATION.name, number);
            let request = generate(&mut random, number);
            let past = request.facets.iter().any(|&id| u64::from(id) >= OFFICE);
            if request.facets.len() % 3 != 0 || past {
                continue;
            }
            let [edges, components, irregular] = oracle::boundary_lists(&request.facets);
            let rings = components.chunks(2).filter(|component| component[1] == 1);
            let rings = rings.count();
            let kinds = [
                rings > 0,
                rings < components.len() / 2,
                rings > 0 && rings < components.len() / 2,
                components.len() > 10,
                edges.chunks(2).any(|edge| edge[0] == edge[1]),
                !irregular.is_empty(),
                !request.facets.is_empty() && edges.is_empty() && irregular.is_empty(),
            ];
            met = [0, 1, 2, 3, 4, 5, 6].map(|kind| met[kind] + u32::from(kinds[kind]));
        }
        assert!(met.iter().all(|&count| count >= 50), "{met:?}");
    }

    /// Counts that test 2 refuses are lent what a need cut to 64 bits would ask for.
    #[test]
    fn refused_counts_are_lent_a_wrapped_need() {
        let of = |count| need(&Request::counted("", count, vec![0; 6]));
        assert_eq!(of((1 << 57) + 4), of(4));
        assert_eq!(of(u64::MAX), 1_024 + 128);
        assert_eq!(of((1 << 57) - 10), 1);
        assert_eq!(of(OFFICE + 1), MOST_REFUSED);
    }
}
