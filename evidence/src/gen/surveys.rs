//! Surveys: a shape gives the ends, a scheme the prices, another the groups, and a further one the pairs, where there
//! are any.

use super::Rng;
use crate::{highest, Survey, END_DIGITS, MAX_JUNCTIONS, MAX_PAIRS, MAX_PRICE, MAX_TRACKS, PRICE_DIGITS};
use std::collections::BTreeSet;

/// Groups by junction, then tracks (end, end, price).
pub type Worked = (&'static [u8], &'static [(u32, u32, u32)]);

/// P1 to P12 of 01.
pub const WORKED: [Worked; 12] = [
    (&[0], &[]),
    (&[1, 1], &[(0, 1, 5)]),
    (&[1, 0, 1], &[(0, 1, 3), (1, 2, 4)]),
    (&[1, 1, 1], &[(0, 1, 1), (1, 2, 1), (0, 2, 1)]),
    (&[1, 1, 0, 0], &[(0, 1, 3), (0, 2, 1), (0, 3, 1)]),
    (&[1, 1], &[(0, 1, 5), (0, 1, 5)]),
    (&[1, 2], &[(0, 1, 4)]),
    (&[1, 1], &[(0, 1, 0)]),
    (&[0, 1, 1, 1], &[(0, 1, 3), (0, 2, 3), (0, 3, 3), (1, 2, 5), (1, 3, 5), (2, 3, 5)]),
    (&[1, 2, 1, 2], &[(0, 1, 4), (1, 2, 2), (2, 3, 4)]),
    (&[1, 1, 2, 2], &[(0, 1, 1), (0, 2, 3), (1, 3, 3)]),
    (&[1, 1], &[]),
];

/// How many junctions and tracks a survey may have.
#[derive(Clone, Copy, Debug, PartialEq, Eq)]
pub enum Size {
    /// Few enough tracks for `brute`.
    Tiny,
    Small,
    Middle,
    Large,
    /// As many junctions and tracks as there may be.
    Full,
}

#[derive(Clone, Copy)]
enum Shape {
    Random,
    Path,
    Cycle,
    Star,
    Wheel,
    Grid,
    Tree,
    Complete,
    /// Two dense halves with a bridge or two between.
    Dumbbell,
    /// Parts without a track between them.
    Islands,
    /// A tree whose every track is doubled or more.
    Bundles,
    /// Hardly a track.
    Sparse,
}

const SHAPES: [Shape; 12] = [
    Shape::Random,
    Shape::Path,
    Shape::Cycle,
    Shape::Star,
    Shape::Wheel,
    Shape::Grid,
    Shape::Tree,
    Shape::Complete,
    Shape::Dumbbell,
    Shape::Islands,
    Shape::Bundles,
    Shape::Sparse,
];

type Ends = Vec<(u32, u32)>;

/// A track between two different junctions of a run.
fn anywhere(rng: &mut Rng, start: usize, end: usize, ends: &mut Ends) {
    if end - start >= 2 {
        let u = rng.between(start, end - 1);
        let v = start + (u - start + rng.between(1, end - start - 1)) % (end - start);
        ends.push((u as u32, v as u32));
    }
}

/// Tracks that link a run of junctions, each with an earlier one.
fn tree(rng: &mut Rng, start: usize, end: usize, ends: &mut Ends) {
    let near = rng.chance(1, 2);
    for v in start + 1..end {
        let lowest = if near { v.saturating_sub(4).max(start) } else { start };
        ends.push((rng.between(lowest, v - 1) as u32, v as u32));
    }
}

fn ends_of(rng: &mut Rng, shape: Shape, n: usize, most: usize) -> Ends {
    let mut ends = Ends::new();
    let last = n - 1;
    match shape {
        Shape::Random => {
            tree(rng, 0, n, &mut ends);
            for _ in 0..rng.between(0, 3 * n) {
                anywhere(rng, 0, n, &mut ends);
            }
        }
        Shape::Path => ends.extend((0..last).map(|v| (v as u32, v as u32 + 1))),
        Shape::Cycle => {
            ends.extend((0..last).map(|v| (v as u32, v as u32 + 1)));
            if n > 2 {
                ends.push((last as u32, 0));
            }
        }
        Shape::Star => ends.extend((1..n).map(|v| (0, v as u32))),
        Shape::Wheel => {
            ends.extend((1..n).map(|v| (0, v as u32)));
            ends.extend((1..last).map(|v| (v as u32, v as u32 + 1)));
            if n > 3 {
                ends.push((last as u32, 1));
            }
        }
        Shape::Grid => {
            let square = (1..=n).find(|w| w * w >= n).unwrap_or(1);
            let wide = if rng.chance(1, 2) { square } else { rng.between(2, 4) };
            for v in 0..n {
                if (v + 1) % wide != 0 && v + 1 < n {
                    ends.push((v as u32, v as u32 + 1));
                }
                if v + wide < n {
                    ends.push((v as u32, (v + wide) as u32));
                }
            }
        }
        Shape::Tree => tree(rng, 0, n, &mut ends),
        Shape::Complete => {
            for v in 1..n {
                ends.extend((0..v).map(|u| (u as u32, v as u32)));
            }
        }
        Shape::Dumbbell => {
            let cut = n / 2;
            for (start, end) in [(0, cut), (cut, n)] {
                if start < end {
                    tree(rng, start, end, &mut ends);
                    for _ in 0..end - start {
                        anywhere(rng, start, end, &mut ends);
                    }
                }
            }
            if cut > 0 {
                for _ in 0..rng.between(1, 2) {
                    ends.push((rng.below(cut) as u32, rng.between(cut, last) as u32));
                }
            }
        }
        Shape::Islands => {
            let mut start = 0;
            while start < n {
                let end = n.min(start + rng.between(1, n.div_ceil(2)));
                tree(rng, start, end, &mut ends);
                for _ in 0..rng.below(end - start + 1) {
                    anywhere(rng, start, end, &mut ends);
                }
                start = end;
            }
        }
        Shape::Bundles => {
            tree(rng, 0, n, &mut ends);
            for track in ends.clone() {
                for _ in 0..rng.between(1, 3) {
                    ends.push(track);
                }
            }
        }
        Shape::Sparse => {
            for _ in 0..rng.below(n + 1) {
                anywhere(rng, 0, n, &mut ends);
            }
        }
    }
    ends.truncate(most);
    ends
}

/// A price scheme, as the prices it draws from.
fn prices_of(rng: &mut Rng, m: usize) -> Vec<u32> {
    let high = MAX_PRICE as usize;
    let scheme = rng.below(12);
    let few: Vec<u32> = match scheme {
        0 => vec![1],
        1 => vec![0],
        2 => vec![0, 1],
        3 => vec![1, 2],
        4 => vec![2, 3, 4],
        5 => vec![0, rng.between(1, 9) as u32, rng.between(1, 9) as u32],
        6 => vec![MAX_PRICE],
        7 => vec![rng.between(0, high) as u32, rng.between(0, high) as u32],
        _ => Vec::new(),
    };
    (0..m)
        .map(|_| match scheme {
            8 => rng.between(0, 10) as u32,
            9 => rng.between(1, 100) as u32,
            10 => rng.between(0, high) as u32,
            11 => rng.between(high - 3, high) as u32,
            _ => rng.pick(&few),
        })
        .collect()
}

fn groups_of(rng: &mut Rng, n: usize) -> Vec<u8> {
    // Group numbers need not be dense: a scheme's number g stands for one of the 255.
    let mut names: Vec<u8> = (1..=255).collect();
    if rng.chance(1, 2) {
        rng.shuffle(&mut names);
    }
    let name = |g: usize| names[g % 255];
    let mut groups = vec![0; n];
    // The first and the fourth scheme leave no sites, so they come seldom.
    match rng.pick(&[0, 1, 1, 2, 2, 3, 4, 4, 4, 5, 5, 5, 6, 6, 6, 7, 7, 7, 8, 8, 8, 9, 9, 9]) {
        // No group.
        0 => {}
        // All in one group.
        1 => groups.fill(name(0)),
        // Two sites.
        2 => {
            let one = rng.below(n);
            let other = (one + rng.between(n.min(2) - 1, n - 1)) % n;
            (groups[one], groups[other]) = (name(0), name(0));
        }
        // Every junction alone in its group, as far as there are groups.
        3 => {
            for (v, group) in groups.iter_mut().enumerate() {
                *group = name(v);
            }
        }
        // Pairs, side by side or far apart.
        4 => {
            let mut order: Vec<usize> = (0..n).collect();
            if rng.chance(1, 2) {
                rng.shuffle(&mut order);
            }
            for (i, v) in order.into_iter().enumerate() {
                groups[v] = name(i / 2);
            }
        }
        // Groups that take turns.
        5 => {
            let turns = rng.between(2, 4);
            for (v, group) in groups.iter_mut().enumerate() {
                *group = name(v % turns);
            }
        }
        // One group of some.
        6 => {
            let part = rng.between(1, 9);
            for group in groups.iter_mut().filter(|_| rng.chance(part, 10)) {
                *group = name(0);
            }
        }
        // Many groups, many junctions without one, some lone members.
        7 => {
            let many = rng.between(1, n);
            for group in groups.iter_mut() {
                if rng.chance(2, 3) {
                    *group = name(rng.below(many));
                }
            }
        }
        // Runs.
        8 => {
            let long = rng.between(1, 5);
            for (v, group) in groups.iter_mut().enumerate() {
                *group = name(v / long);
            }
        }
        // A few groups.
        _ => {
            let many = rng.between(1, 5);
            for group in groups.iter_mut() {
                *group = if rng.chance(1, 2) { name(rng.below(many)) } else { 0 };
            }
        }
    }
    groups
}

fn assemble(rng: &mut Rng, n: usize, mut ends: Ends) -> Survey {
    if rng.chance(2, 3) {
        rng.shuffle(&mut ends);
    }
    for track in ends.iter_mut() {
        if rng.chance(1, 2) {
            *track = (track.1, track.0);
        }
    }
    // Junction numbers need not follow the shape.
    if rng.chance(1, 2) {
        let mut place: Vec<u32> = (0..n as u32).collect();
        rng.shuffle(&mut place);
        for track in ends.iter_mut() {
            *track = (place[track.0 as usize], place[track.1 as usize]);
        }
    }
    let prices = prices_of(rng, ends.len());
    Survey {
        groups: groups_of(rng, n),
        first: ends.iter().map(|track| track.0).collect(),
        second: ends.iter().map(|track| track.1).collect(),
        prices,
        ..Survey::default()
    }
}

/// A survey that escapes 1 to 6. Some can't be joined, and few have no sites.
pub fn survey(rng: &mut Rng, size: Size) -> Survey {
    loop {
        let survey = any_survey(rng, size);
        if survey.view().sites() > 0 || rng.chance(1, 4) {
            return survey;
        }
    }
}

fn any_survey(rng: &mut Rng, size: Size) -> Survey {
    let (low, high, most) = match size {
        Size::Tiny => (1, 7, 12),
        Size::Small => (1, 12, MAX_TRACKS),
        Size::Middle => (8, 40, MAX_TRACKS),
        Size::Large => (41, MAX_JUNCTIONS, MAX_TRACKS),
        Size::Full => return full(rng, MAX_JUNCTIONS),
    };
    let n = rng.between(low, high);
    let shape = rng.pick(&SHAPES);
    let ends = ends_of(rng, shape, n, most);
    assemble(rng, n, ends)
}

/// Puts pairs to a survey without any, so that its lists overlap. None of them is refused.
pub fn overlap(rng: &mut Rng, survey: &mut Survey) {
    let n = survey.groups.len();
    let (used, fresh): (Vec<u8>, Vec<u8>) = (1..=255).partition(|group| survey.groups.contains(group));
    let list = |rng: &mut Rng| {
        if rng.chance(3, 4) && !used.is_empty() {
            rng.pick(&used)
        } else {
            rng.between(1, 255) as u8
        }
    };
    let mut pairs: BTreeSet<(u32, u8)> = BTreeSet::new();
    match rng.below(8) {
        // Some junctions in one more list.
        0..=2 => {
            for _ in 0..rng.between(1, n.div_ceil(2)) {
                pairs.insert((rng.below(n) as u32, list(rng)));
            }
        }
        // A chain of three lists.
        3 => {
            for lists in [list(rng), list(rng), list(rng)].windows(2) {
                let v = rng.below(n) as u32;
                pairs.extend(lists.iter().map(|&group| (v, group)));
            }
        }
        // A list with the members of another, and seldom one more.
        4 if !used.is_empty() && !fresh.is_empty() => {
            let (group, twin) = (rng.pick(&used), rng.pick(&fresh));
            pairs.extend(survey.view().members(group).iter().map(|&v| (v as u32, twin)));
            if rng.chance(1, 3) {
                pairs.insert((rng.below(n) as u32, twin));
            }
        }
        // Lone members.
        5 => {
            for &group in fresh.iter().take(rng.between(1, n)) {
                pairs.insert((rng.below(n) as u32, group));
            }
        }
        // No group of their own, and two pairs.
        6 => {
            for _ in 0..rng.between(1, n.min(4)) {
                let v = rng.below(n);
                survey.groups[v] = 0;
                pairs.extend([(v as u32, list(rng)), (v as u32, list(rng))]);
            }
        }
        // As many as there may be, or fewer.
        _ => {
            for _ in 0..rng.between(1, 2 * MAX_PAIRS) {
                pairs.insert((rng.below(n) as u32, list(rng)));
            }
        }
    }
    pairs.retain(|&(v, group)| survey.groups[v as usize] != group);
    while pairs.len() > MAX_PAIRS {
        pairs.pop_last();
    }
    (survey.owners, survey.others) = pairs.into_iter().unzip();
}

/// Puts up to 256 pairs to a survey, each in a list inside a group of the survey: the plan stays the same. Without
/// `own` its groups are pairs too, as many as there is room for, and such a junction has none of its own.
pub fn shadowed(survey: &mut Survey, own: bool) {
    let (used, fresh): (Vec<u8>, Vec<u8>) = (1..=255).partition(|group| survey.groups.contains(group));
    let mut pairs: BTreeSet<(u32, u8)> = BTreeSet::new();
    let groups = survey.groups.clone();
    if !own {
        for (v, &group) in (0..).zip(&groups).filter(|(_, &group)| group != 0).take(MAX_PAIRS) {
            pairs.insert((v, group));
            survey.groups[v as usize] = 0;
        }
    }
    for (&shadow, &group) in fresh.iter().zip(used.iter().cycle()) {
        for (v, _) in (0..).zip(&groups).filter(|(_, &g)| g == group) {
            if pairs.len() < MAX_PAIRS {
                pairs.insert((v, shadow));
            }
        }
    }
    (survey.owners, survey.others) = pairs.into_iter().unzip();
}

/// A tiny survey whose groups can all be joined: the first that comes. Half of them have pairs.
pub fn tiny(rng: &mut Rng) -> Survey {
    loop {
        let mut survey = survey(rng, Size::Tiny);
        if rng.chance(1, 2) {
            overlap(rng, &mut survey);
        }
        if survey.view().unjoined(|_| true).is_none() {
            return survey;
        }
    }
}

/// Junctions in a line, numbered in any order, some with tracks to spare, and two groups: a route leads far along it.
pub fn line(rng: &mut Rng, n: usize) -> Survey {
    let mut ends: Ends = (1..n as u32).map(|v| (v - 1, v)).collect();
    for _ in 0..rng.below(3).min(n - 1) {
        anywhere(rng, 0, n, &mut ends);
    }
    let mut place: Vec<u32> = (0..n as u32).collect();
    if rng.chance(2, 3) {
        rng.shuffle(&mut place);
    }
    let mut survey = Survey { groups: vec![0; n], ..Survey::default() };
    for (group, v) in [(2, 0), (2, n - 1), (1, n / 2), (1, n / 3)] {
        survey.groups[place[v] as usize] = group;
    }
    rng.shuffle(&mut ends);
    for (u, v) in ends {
        survey.first.push(place[u as usize]);
        survey.second.push(place[v as usize]);
    }
    survey.prices = prices_of(rng, survey.first.len());
    survey
}

/// A survey of n junctions and 2,048 tracks that can be joined, n 2 or more.
pub fn full(rng: &mut Rng, n: usize) -> Survey {
    filled(rng, n, MAX_TRACKS)
}

/// A survey of n junctions and m tracks that can be joined, n 2 or more, m at least n - 1.
pub fn filled(rng: &mut Rng, n: usize, m: usize) -> Survey {
    let mut ends = Ends::new();
    tree(rng, 0, n, &mut ends);
    while ends.len() < m {
        anywhere(rng, 0, n, &mut ends);
    }
    assemble(rng, n, ends)
}

/// A survey to time: n junctions, m tracks with prices all over their range, and sites by one of three schemes: all in
/// one group, pairs, or half of the junctions in eight groups.
pub fn timed(rng: &mut Rng, n: usize, m: usize, scheme: usize) -> Survey {
    let mut survey = filled(rng, n, m);
    for price in survey.prices.iter_mut() {
        *price = rng.between(1, MAX_PRICE as usize) as u32;
    }
    let mut order: Vec<usize> = (0..n).collect();
    rng.shuffle(&mut order);
    for (i, v) in order.into_iter().enumerate() {
        survey.groups[v] = match scheme % 3 {
            0 => 1,
            1 => 1 + (i / 2) as u8,
            _ if i < n / 2 => 1 + (i % 8) as u8,
            _ => 0,
        };
    }
    survey
}

/// A survey to time: few tracks for its junctions, prices all over their range, and two to eight sites in one group or
/// two.
pub fn sparse(rng: &mut Rng) -> Survey {
    let n = rng.between(40, MAX_JUNCTIONS);
    let m = n - 1 + rng.below(n / 4 + 1);
    let mut survey = timed(rng, n, m, 0);
    survey.groups.fill(0);
    let mut order: Vec<usize> = (0..n).collect();
    rng.shuffle(&mut order);
    let (sites, groups) = (rng.between(2, 8), rng.between(1, 2));
    for (i, &v) in order[..sites].iter().enumerate() {
        survey.groups[v] = 1 + (i / 2 % groups) as u8;
    }
    survey
}

/// Damages a survey so that one of 4, 5, 6 is due, or several at different tracks.
pub fn refused_survey(rng: &mut Rng, survey: &mut Survey) {
    let (n, m) = (survey.groups.len() as u32, survey.first.len());
    if m == 0 {
        return;
    }
    for _ in 0..rng.between(1, 3) {
        let t = rng.below(m);
        match rng.below(6) {
            0 => survey.first[t] = n,
            1 => survey.second[t] = rng.pick(&[n, n + 1, MAX_JUNCTIONS as u32, highest(END_DIGITS)]).max(n),
            2 => survey.second[t] = survey.first[t],
            3 => survey.prices[t] = MAX_PRICE + 1,
            4 => survey.prices[t] = highest(PRICE_DIGITS),
            _ => {
                survey.first[t] = n;
                survey.second[t] = n;
                survey.prices[t] = MAX_PRICE + 1;
            }
        }
    }
}

/// Damages the pairs of a survey so that 18 is due, in a text as far as the numbers have no more digits than they may
/// have there, and 16 where there are more than 256 also lines.
pub fn refused_pairs(rng: &mut Rng, survey: &mut Survey) {
    let n = survey.groups.len() as u32;
    if survey.owners.is_empty() {
        survey.owners.push(rng.below(n as usize) as u32);
        survey.others.push(rng.between(1, 255) as u8);
    }
    let pair = rng.below(survey.owners.len());
    let (v, group) = (survey.owners[pair], survey.others[pair]);
    let own = survey.groups[v.min(n - 1) as usize];
    let (at, many, v, group) = match rng.below(8) {
        0 => (pair + 1, 1, rng.pick(&[n, n + 1, highest(END_DIGITS)]).max(n), group),
        1 => (pair, 1, v, 0),
        2 => (pair, 1, v, own),
        3 => (pair + 1, 1, v, group),
        4 => (pair + 1, 1, v, group.saturating_sub(1)),
        5 => (pair + 1, 1, v.saturating_sub(1), group),
        6 => (pair, 299, v, group),
        _ => {
            let all = (0..n).flat_map(|v| (1..=255u8).map(move |group| (v, group)));
            let rising: Vec<(u32, u8)> = all.filter(|&(v, group)| survey.groups[v as usize] != group).collect();
            let many = MAX_PAIRS + rng.between(1, 3);
            let first = rng.below(rising.len().saturating_sub(many) + 1);
            (survey.owners, survey.others) = rising[first..].iter().copied().take(many).unzip();
            return;
        }
    };
    survey.owners.splice(at..at, vec![v; many]);
    survey.others.splice(at..at, vec![group; many]);
}
