//! The leaves over lent words, beside what a Rust program would take: sort_unstable, HashMap, a plain union-find.

use crate::timing::{interleaved, milliseconds, time};
use std::collections::HashMap;
use yongpham_library::leaves;

const SIZES: [usize; 3] = [1 << 14, 1 << 17, 1 << 20];

fn random(state: &mut u64) -> u64 {
    *state = state.wrapping_add(0x9e37_79b9_7f4a_7c15);
    let mut z = *state;
    z = (z ^ (z >> 30)).wrapping_mul(0xbf58_476d_1ce4_e5b9);
    z = (z ^ (z >> 27)).wrapping_mul(0x94d0_49bb_1331_11eb);
    z ^ (z >> 31)
}

fn row(leaf: &str, beside: &str, n: usize, ours: std::time::Duration, rust: std::time::Duration) {
    let [o, r] = [ours, rust].map(milliseconds);
    println!(
        "| {leaf} | {beside} | {n} | {o:.3} | {r:.3} | {:.2} |",
        o / r
    );
}

/// Keys as an edge table has them: two numbers below 2^17 packed in a word, many of them twice.
fn sort(rounds: usize, n: usize) {
    let mut state = 1;
    let records: Vec<(u64, u64)> = (0..n as u64)
        .map(|payload| {
            let (a, b) = (
                random(&mut state) % (1 << 17),
                random(&mut state) % (1 << 17),
            );
            (a.min(b) << 32 | a.max(b), payload)
        })
        .collect();
    let mut words = vec![0u64; 4 * n];
    let mut copy = records.clone();
    let [ours, rust] = interleaved(
        rounds,
        [
            &mut || {
                for (place, &(key, payload)) in words.chunks_exact_mut(2).zip(&records) {
                    place[0] = key;
                    place[1] = payload;
                }
                time(|| leaves::sort_records(&mut words))
            },
            &mut || {
                copy.copy_from_slice(&records);
                time(|| copy.sort_unstable())
            },
        ],
    );
    assert!(words
        .chunks_exact(2)
        .zip(&copy)
        .all(|(place, &(key, payload))| place == [key, payload]));
    row("sort of records", "sort_unstable", n, ours, rust);
}

/// n words entered, then n looked up, half of which are there.
fn chains(rounds: usize, n: usize) {
    let mut state = 2;
    let keys: Vec<u64> = (0..n).map(|_| random(&mut state)).collect();
    let asked: Vec<u64> = (0..n)
        .map(|i| {
            if i % 2 == 0 {
                keys[random(&mut state) as usize % n]
            } else {
                random(&mut state)
            }
        })
        .collect();
    let buckets = n;
    let mut room = vec![0u64; 2 * buckets + n];
    let mut found = vec![0u64; n];
    let mut answers = vec![0u64; n];
    let [ours, rust] = interleaved(
        rounds,
        [
            &mut || {
                time(|| {
                    assert!(leaves::look_up(
                        &mut room, buckets, &keys, &asked, &mut found
                    ))
                })
            },
            &mut || {
                time(|| {
                    let mut map = HashMap::with_capacity(n);
                    for (i, &key) in keys.iter().enumerate() {
                        map.entry(key).or_insert(i as u64 + 1);
                    }
                    for (answer, key) in answers.iter_mut().zip(&asked) {
                        *answer = map.get(key).copied().unwrap_or(0);
                    }
                })
            },
        ],
    );
    assert_eq!(found, answers);
    row("chains: n entered, n looked up", "HashMap", n, ours, rust);
}

fn root(links: &mut [u32], mut x: u32) -> u32 {
    while links[x as usize] != x {
        links[x as usize] = links[links[x as usize] as usize];
        x = links[x as usize];
    }
    x
}

/// The least item joined to each, by a union-find of Rust's with path halving.
fn plain_components(labels: &[u64], n: usize, m: usize) -> Vec<u32> {
    let mut links: Vec<u32> = (0..n as u32).collect();
    let mut first = vec![u32::MAX; m];
    for (slot, &label) in labels.iter().enumerate() {
        let item = (slot / 3) as u32;
        let seen = &mut first[label as usize];
        if *seen == u32::MAX {
            *seen = item;
        } else {
            let (a, b) = (root(&mut links, item), root(&mut links, *seen));
            links[a.max(b) as usize] = a.min(b);
        }
    }
    for i in 0..n as u32 {
        links[i as usize] = root(&mut links, i);
    }
    let mut sizes = vec![0u32; n];
    links.iter().for_each(|&r| sizes[r as usize] += 1);
    std::hint::black_box(sizes);
    links
}

/// Facets of a grid in random order, three labels each: their vertices.
fn components(rounds: usize, n: usize) {
    let side = ((n / 2) as f64).sqrt() as u64;
    let m = ((side + 1) * (side + 2) + n as u64) as usize;
    let mut state = 3;
    let labels: Vec<u64> = (0..n)
        .flat_map(|_| {
            let cell = random(&mut state) % (side * side);
            let corner = cell / side * (side + 1) + cell % side;
            if random(&mut state) % 2 == 0 {
                [corner, corner + 1, corner + side + 2]
            } else {
                [corner, corner + side + 2, corner + side + 1]
            }
        })
        .collect();
    let table = n + n + m;
    let mut words = vec![0u64; table + labels.len()];
    let mut least = Vec::new();
    let [ours, rust] = interleaved(
        rounds,
        [
            &mut || {
                words[table..].copy_from_slice(&labels);
                time(|| assert!(leaves::components(&mut words, n, 3, m)))
            },
            &mut || time(|| least = plain_components(&labels, n, m)),
        ],
    );
    assert!(words[..n]
        .iter()
        .zip(&least)
        .all(|(&ours, &rust)| ours == u64::from(rust)));
    row(
        "components, 3 labels, with sizes",
        "plain union-find",
        n,
        ours,
        rust,
    );
}

pub fn rows(rounds: usize) {
    println!(
        "\n| leaf | beside | n | ours ms | Rust ms | ours / Rust |\n|---|---|---|---|---|---|"
    );
    SIZES.iter().for_each(|&n| sort(rounds, n));
    SIZES.iter().for_each(|&n| chains(rounds, n));
    SIZES.iter().for_each(|&n| components(rounds, n));
}
