//! The caller's ceiling (document 02, E2): which ceilings the requests get, which list test 2
//! goes by, and a check that needs no oracle.
//!
//! The check: "where both ceilings admit a mesh the results are equal". `compare` asks our
//! library a second time for every request whose mesh its ceiling admits, under another ceiling
//! that admits it too: the least one, one above that, or a listed one, by turns that go by the
//! request's lengths. Reply, values, every element of every output
//! and the work room have to be the same, also where the request is refused by another test.

use crate::lent::Lent;
use crate::operation::{difference, Answer, Ask};
use crate::random::Random;
use crate::request::Request;

/// "the office keeps 65,536", and a larger ceiling "counts as 65,536".
pub const OFFICE: u64 = 65_536;
/// "The foremen's handheld holds 4,096 facets and 4,096 vertices".
pub const HANDHELD: u64 = 4_096;
/// Its low half is 0, which is what would be left of it in 32 bits.
const LOW_HALF_ZERO: u64 = 1 << 32;
/// Ceilings that are tried whatever the mesh.
pub const LISTED: [u64; 7] = [0, 1, HANDHELD, OFFICE, OFFICE + 1, LOW_HALF_ZERO, u64::MAX];

/// Vertices and facets of a mesh.
fn counts(request: &Request) -> [u64; 2] {
    [request.count(), request.facets.len() as u64 / 3]
}

fn admits(ceiling: u64, request: &Request) -> bool {
    counts(request)
        .iter()
        .all(|&count| count <= ceiling.min(OFFICE))
}

/// Mostly the office's, which a request has from the start; else a listed one, or, twice as
/// often, a count of the mesh itself, one less or one more.
pub fn choose(random: &mut Random, request: &mut Request) {
    if !random.one_in(4) {
        return;
    }
    let own =
        counts(request).map(|count| [count.saturating_sub(1), count, count.saturating_add(1)]);
    request.ceiling = if random.one_in(3) {
        random.pick(&LISTED)
    } else {
        random.pick(&own.concat())
    };
}

/// What test 2 went by, so that a run can say how often it met each. The last is a part of the
/// others: a list over 65,536 under a ceiling that admits so many.
pub const NAMES: [&str; 5] = ["vertices", "facets", "both", "cap list", "over 65,536"];

/// Which of these hold of a request that was refused by 2.
pub fn over(request: &Request) -> [bool; 5] {
    let [vertices, facets] = counts(request).map(|count| count > request.ceiling.min(OFFICE));
    [
        vertices && !facets,
        facets && !vertices,
        vertices && facets,
        !vertices && !facets,
        request.ceiling >= OFFICE && (vertices || facets),
    ]
}

/// Another ceiling that admits the mesh, if the request's own does.
fn another(request: &Request) -> Option<u64> {
    if !admits(request.ceiling, request) {
        return None;
    }
    let [vertices, facets] = counts(request);
    let least = vertices.max(facets);
    let mut others = [&[least, least + 1], &LISTED[..]].concat();
    others.retain(|&ceiling| ceiling != request.ceiling && admits(ceiling, request));
    let turn = request.size() + request.work + request.outputs.iter().sum::<usize>();
    others.get(turn % others.len().max(1)).copied()
}

/// Asks under another ceiling. Answers nothing if there is none, else how what came differs
/// from `got`, which is an empty text where it does not.
pub fn asked_again(
    request: &Request,
    work: &mut Lent<u64>,
    ours: Ask,
    got: &Answer,
) -> Option<String> {
    let ceiling = another(request)?;
    Some(differs_under(ceiling, request, work, ours, got))
}

/// How the answer under this ceiling differs from `got`.
pub fn differs_under(
    ceiling: u64,
    request: &Request,
    work: &mut Lent<u64>,
    ours: Ask,
    got: &Answer,
) -> String {
    let mut request = request.clone();
    request.ceiling = ceiling;
    let again = ours(&request, work);
    if again == *got {
        return String::new();
    }
    let parts = difference(("again", &again), ("before", got));
    format!("asked again under the ceiling {ceiling}\n{parts}")
}

#[cfg(test)]
mod tests {
    use super::*;
    use crate::OPERATIONS;

    /// Test 2 is met by vertices alone and by facets alone, often enough for 100 of each among
    /// 20,000 requests of each operation.
    #[test]
    fn each_list_is_over_often_enough() {
        for operation in OPERATIONS {
            let mut met = [0; 5];
            for number in 0..4_000 {
                let mut random = Random::new(1, operation.name, number);
                let mut request = (operation.generate)(&mut random, number);
                choose(&mut random, &mut request);
                let whole = request.vertices.len() % 3 == 0 && request.facets.len() % 3 == 0;
                if whole && !admits(request.ceiling, &request) {
                    for (met, over) in met.iter_mut().zip(over(&request)) {
                        *met += u32::from(over);
                    }
                }
            }
            assert!(met[0] >= 20 && met[1] >= 20, "{}: {met:?}", operation.name);
        }
    }

    /// The second ceiling is another one, admits the mesh, and takes every form in turn.
    #[test]
    fn second_ceilings() {
        let extents = [0.0, 0.0, 0.0, 1.0, 1.0, 1.0];
        let mut request = Request::new("", vec![0.5; 9], vec![0; 12], extents, 0.0);
        let mut met = std::collections::BTreeSet::new();
        for work in 0..7 {
            request.work = work;
            met.extend(another(&request));
        }
        let expected = [4, 5, HANDHELD, OFFICE + 1, LOW_HALF_ZERO, u64::MAX];
        assert!(met.into_iter().eq(expected));
        request.ceiling = 3;
        assert_eq!(another(&request), None);
        request.facets.resize(3 * 65_536, 0);
        request.ceiling = u64::MAX;
        assert!(another(&request).is_some_and(|other| (OFFICE..u64::MAX).contains(&other)));
        request.facets.resize(3 * 65_537, 0);
        assert_eq!(another(&request), None);
    }
}
