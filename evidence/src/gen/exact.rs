//! Surveys of No. 14: exactly two sites, and all junctions in one list; by own groups and by pairs, with ties and
//! prices of 0 dense.

use super::Rng;
use crate::{Survey, MAX_PAIRS, MAX_PRICE, MAX_TRACKS};
use std::collections::BTreeSet;

/// Prices of few values, often 0.
fn prices(rng: &mut Rng, m: usize) -> Vec<u32> {
    let same = rng.between(0, 9) as u32;
    let scheme = rng.below(7);
    let one = |rng: &mut Rng| match scheme {
        0 => 0,
        1 => rng.pick(&[0, 0, 0, 1]),
        2 => rng.pick(&[0, 1, 1, 2, 2, 3]),
        3 => same,
        4 => rng.below(10) as u32,
        5 => rng.pick(&[0, 1, MAX_PRICE - 1, MAX_PRICE]),
        _ => rng.between(0, MAX_PRICE as usize) as u32,
    };
    (0..m).map(|_| one(rng)).collect()
}

/// n junctions that all tracks together join: a tree, and tracks to spare, some beside others.
fn network(rng: &mut Rng, n: usize) -> Survey {
    let mut ends: Vec<(u32, u32)> = (1..n).map(|v| (v as u32, rng.below(v) as u32)).collect();
    if n >= 2 {
        let most = (MAX_TRACKS + 1 - n).min(3 * n);
        for _ in 0..rng.below(most + 1) {
            let beside = !ends.is_empty() && rng.chance(1, 4);
            let track = if beside {
                rng.pick(&ends)
            } else {
                let u = rng.below(n);
                (u as u32, ((u + rng.between(1, n - 1)) % n) as u32)
            };
            ends.push(track);
        }
    }
    rng.shuffle(&mut ends);
    for track in ends.iter_mut().filter(|_| rng.chance(1, 2)) {
        *track = (track.1, track.0);
    }
    Survey {
        groups: vec![0; n],
        first: ends.iter().map(|track| track.0).collect(),
        second: ends.iter().map(|track| track.1).collect(),
        prices: prices(rng, ends.len()),
        ..Survey::default()
    }
}

fn size(rng: &mut Rng, low: usize, high: usize) -> usize {
    match rng.below(40) {
        0 => rng.between(low, high),
        1..=8 => rng.between(low.max(10), 40),
        _ => rng.between(low, 9),
    }
}

fn put_pairs(survey: &mut Survey, mut pairs: BTreeSet<(u32, u8)>) {
    pairs.retain(|&(v, group)| survey.groups[v as usize] != group);
    (survey.owners, survey.others) = pairs.into_iter().take(MAX_PAIRS).unzip();
}

/// A survey with exactly two sites, and these: one list or several of the two, by own groups or by pairs, and lists of
/// one member elsewhere.
pub fn two_sites(rng: &mut Rng) -> (Survey, usize, usize) {
    let n = size(rng, 2, 300);
    let mut survey = network(rng, n);
    let u = rng.below(n);
    let w = (u + rng.between(1, n - 1)) % n;
    let mut names: Vec<u8> = (1..=255).collect();
    rng.shuffle(&mut names);
    let mut pairs = BTreeSet::new();
    let [g, h] = [names[0], names[1]];
    match rng.below(5) {
        0 => (survey.groups[u], survey.groups[w]) = (g, g),
        1 => {
            survey.groups[u] = g;
            pairs.insert((w as u32, g));
        }
        2 => pairs.extend([(u as u32, g), (w as u32, g)]),
        // Two lists of the same two members: the own group of each, with the other in it by a pair.
        3 => {
            (survey.groups[u], survey.groups[w]) = (g, h);
            pairs.extend([(u as u32, h), (w as u32, g)]);
        }
        // One of them holds both, the other one alone.
        _ => {
            (survey.groups[u], survey.groups[w]) = (g, h);
            pairs.insert((u as u32, h));
        }
    }
    // More lists of the same two.
    for &more in names[2..].iter().take(rng.pick(&[0, 0, 1, 3])) {
        pairs.extend([(u as u32, more), (w as u32, more)]);
    }
    // Lists of one member.
    for &lone in names[6..].iter().take(rng.below(6)) {
        let v = rng.below(n);
        if survey.groups[v] == 0 && v != u && v != w {
            survey.groups[v] = lone;
        } else {
            pairs.insert((v as u32, lone));
        }
    }
    put_pairs(&mut survey, pairs);
    (survey, u, w)
}

/// A survey with all junctions in one list, by their own groups, by pairs or by either, and any other lists beside it.
pub fn one_list(rng: &mut Rng) -> Survey {
    let scheme = rng.below(3);
    let n = size(rng, 1, if scheme == 0 { 448 } else { 200 });
    let mut survey = network(rng, n);
    let g = rng.between(1, 255) as u8;
    let mut pairs = BTreeSet::new();
    for v in 0..n {
        if scheme == 0 || (scheme == 1 && rng.chance(1, 2)) {
            survey.groups[v] = g;
        } else {
            survey.groups[v] = if rng.chance(1, 2) { 0 } else { rng.between(1, 255) as u8 };
            pairs.insert((v as u32, g));
        }
    }
    for _ in 0..rng.below(4).min(MAX_PAIRS - pairs.len()) {
        pairs.insert((rng.below(n) as u32, rng.between(1, 255) as u8));
    }
    put_pairs(&mut survey, pairs);
    survey
}
