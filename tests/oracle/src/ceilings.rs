//! Test 2 by the caller's ceiling (document 02, E2): which counts it admits, its place
//! among the tests, and that nothing else goes by it.

use crate::worked_blocks::{square_caps, SQUARE, SQUARE_FACETS};
use crate::{lent, need_words, Extents, Reply};

const UNIT: Extents = [0.0, 0.0, 0.0, 1.0, 1.0, 1.0];
/// The ceilings tried, each with the count that it admits.
const CEILINGS: [(u64, usize); 6] = [
    (0, 0),
    (1, 1),
    (4_096, 4_096),
    (65_536, 65_536),
    (65_537, 65_536),
    (u64::MAX, 65_536),
];
/// The unit box with one segment an axis has 24 grid points.
const GRID: u64 = 24;

/// What a call is lent and asked beside its lists.
struct Asked {
    ceiling: u64,
    eps: f64,
    resolution: f64,
    extents: Extents,
    work: usize,
}

impl Asked {
    fn under(ceiling: u64) -> Self {
        Asked {
            ceiling,
            eps: 1e-10,
            resolution: 1.0,
            extents: UNIT,
            work: 0,
        }
    }

    /// The replies of clip, clean, candidates and caps, without outputs.
    fn replies(&self, v: &[f64], f: &[u32], caps: &[u64]) -> [Reply; 4] {
        let (b, eps, spacing, ceiling) = (&self.extents, self.eps, self.resolution, self.ceiling);
        let work = &mut vec![7; self.work][..];
        let [c, l, k, e]: [&mut [u64]; 4] = [&mut [], &mut [], &mut [], &mut []];
        let (x, y): (&mut [f64], &mut [u32]) = (&mut [], &mut []);
        [
            crate::clip(v, f, b, eps, ceiling, work, x, y),
            crate::clean(v, f, eps, ceiling, work, x, y),
            crate::candidates(v, f, b, eps, spacing, ceiling, work, c, l, k, e),
            crate::caps(v, f, caps, b, eps, spacing, 1, ceiling, work, x, y),
        ]
    }

    fn numbers(&self, v: &[f64], f: &[u32], caps: &[u64]) -> [u32; 4] {
        self.replies(v, f, caps).map(|reply| reply.number)
    }
}

/// Below the count, at it and above it.
fn around(count: usize) -> Vec<usize> {
    (count.max(1) - 1..=count + 1).collect()
}

/// Without work room a mesh that is admitted is refused by 7, with the need of its
/// own counts; only a facet without a vertex is refused before that, by 3.
#[test]
fn counts_around_each_ceiling() {
    for (ceiling, most) in CEILINGS {
        for vertices in around(most) {
            for facets in around(most) {
                let (v, f) = (vec![0.25; 3 * vertices], vec![0; 3 * facets]);
                let got = Asked::under(ceiling).replies(&v, &f, &[]);
                let need = |grid| Reply::refused_with(7, need_words(vertices, facets, 0, grid));
                let expected = if vertices > most || facets > most {
                    [Reply::refused(2); 4]
                } else if vertices == 0 && facets > 0 {
                    [Reply::refused(3); 4]
                } else {
                    [need(0), need(0), need(GRID), need(GRID)]
                };
                assert_eq!(got, expected, "{vertices}, {facets} under {ceiling}");
            }
        }
    }
}

/// Behind 1 and before all others: each fault beside a list over the ceiling.
#[test]
fn in_its_old_place() {
    let (v, f) = (SQUARE.concat(), SQUARE_FACETS);
    // Three vertices where four are handed in; one facet where two are.
    for ceiling in [1, 3] {
        let asked = Asked::under(ceiling);
        assert_eq!(asked.numbers(&v[..11], &f, &[]), [1; 4]);
        assert_eq!(asked.numbers(&v, &f[..5], &[]), [1; 4]);
        assert_eq!(asked.numbers(&v, &f, &[0])[3], 1);
        assert_eq!(asked.numbers(&v, &[0, 1, 4, 0, 1, 2], &[]), [2; 4]);
        let mut bad = v.clone();
        bad[0] = f64::NAN;
        assert_eq!(asked.numbers(&bad, &f, &[]), [2; 4]);
        let with = |change: fn(&mut Asked)| {
            let mut asked = Asked::under(ceiling);
            change(&mut asked);
            asked.numbers(&v, &f, &[])
        };
        assert_eq!(with(|asked| asked.eps = 2.0), [2; 4]);
        assert_eq!(with(|asked| asked.extents[3] = 0.0), [2; 4]);
        assert_eq!(with(|asked| asked.resolution = 0.001), [2; 4]);
        assert_eq!(with(|asked| asked.work = 0), [2; 4]);
        assert_eq!(with(|asked| asked.work = 8_192), [2; 4]);
    }
    // The same under a ceiling of four: the faults themselves.
    let asked = Asked::under(4);
    assert_eq!(asked.numbers(&v, &[0, 1, 4, 0, 1, 2], &[]), [3; 4]);
    assert_eq!(asked.numbers(&v, &f, &[]), [7; 4]);
    let with_room = Asked {
        work: 8_192,
        ..Asked::under(4)
    };
    assert_eq!(with_room.numbers(&v, &f, &[]), [12, 12, 12, 11]);
}

/// Each list is tested by itself: facets over the ceiling with vertices below it, and
/// the other way round.
#[test]
fn each_list_by_itself() {
    let vertices = [0.25; 3 * 3];
    let facets = [0; 3 * 6];
    for (ceiling, number) in [(2, 2), (3, 2), (5, 2), (6, 7), (7, 7)] {
        let asked = Asked::under(ceiling);
        assert_eq!(asked.numbers(&vertices, &facets, &[]), [number; 4]);
    }
    for (ceiling, number) in [(0, 2), (1, 2), (2, 2), (3, 7), (4, 7)] {
        let asked = Asked::under(ceiling);
        assert_eq!(asked.numbers(&vertices, &facets[..3], &[]), [number; 4]);
        assert_eq!(asked.numbers(&vertices, &[], &[]), [number; 4]);
    }
}

/// The cap list keeps its own count at every ceiling.
#[test]
fn cap_lists_do_not_follow() {
    let long = vec![0; 4 * 1_048_577];
    for (ceiling, _) in CEILINGS {
        let asked = Asked::under(ceiling);
        assert_eq!(asked.numbers(&[], &[], &long)[3], 2);
        assert_eq!(asked.numbers(&[], &[], &long[4..])[3], 7);
    }
}

/// "Only lists handed in are tested": a facet of three vertices becomes two of four.
#[test]
fn results_may_exceed_the_ceiling() {
    let facet = [0.0, 0.0, 0.0, 4.0, 0.0, 0.0, 0.0, 4.0, 0.0];
    let extents = [-1.0, -1.0, -1.0, 2.0, 8.0, 8.0];
    let (mut work, mut v, mut f) = (vec![0; 4_096], [0.0; 30], [0; 30]);
    let reply = crate::clip(
        &facet,
        &[0, 1, 2],
        &extents,
        0.0,
        3,
        &mut work,
        &mut v,
        &mut f,
    );
    assert_eq!(reply, Reply::done(&[12, 6]));
    let again = crate::clean(&v[..12], &f[..6], 0.0, 3, &mut work, &mut [], &mut []);
    assert_eq!(again, Reply::refused(2));
}

/// "Where both ceilings admit a mesh the results are equal": C15 closed under the least
/// ceiling, one more, the handheld's and beyond the office's.
#[test]
fn results_are_those_of_the_office() {
    let square = SQUARE.concat();
    let [c, ..] = lent::candidates(&square, &SQUARE_FACETS, &UNIT, 1e-10, 1.0).unwrap();
    let list = square_caps(&c);
    let office = lent::caps(&square, &SQUARE_FACETS, &list, &UNIT, 1e-10, 1.0, 1).unwrap();
    for ceiling in [4, 5, 4_096, 65_537, u64::MAX] {
        let (mut work, mut v, mut f) = (vec![1; 8_192], vec![0.5; 24], vec![5; 36]);
        let reply = crate::caps(
            &square,
            &SQUARE_FACETS,
            &list,
            &UNIT,
            1e-10,
            1.0,
            1,
            ceiling,
            &mut work,
            &mut v,
            &mut f,
        );
        assert_eq!(reply, Reply::done(&[24, 36]));
        assert!(work.iter().all(|&word| word == 0));
        assert!(lent::same_bits(&v, &office.0) && f == office.1);
    }
}
