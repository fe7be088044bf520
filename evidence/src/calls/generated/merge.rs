//! Two surveys and the ties between them (No. 9), with a district as large as can be among them, or too large.

use super::*;
use crate::merge::{district, places, Ties, MERGE_COUNTS};
use crate::MAX_TRACKS;

/// Two surveys, ties between them, and buffers for their district.
struct Merge {
    surveys: [Survey; 2],
    ties: [Vec<u32>; 2],
    room: Survey,
    counts: Vec<u64>,
}

impl Call for Merge {
    fn run(&self, library: &Library) -> Answer {
        let room = &self.room;
        let [mut groups, mut others] = [&room.groups, &room.others].map(|buffer| before_others(buffer, 0xa5));
        let [mut first, mut second, mut prices, mut owners] =
            [&room.first, &room.second, &room.prices, &room.owners].map(|buffer| before_others(buffer, 0xa5a5));
        let mut counts = before_others(&self.counts, 0xa5a5);
        let lent = Lent {
            groups: &mut groups[..room.groups.len()],
            first: &mut first[..room.first.len()],
            second: &mut second[..room.second.len()],
            prices: &mut prices[..room.prices.len()],
            owners: &mut owners[..room.owners.len()],
            others: &mut others[..room.others.len()],
        };
        let ties = Ties { first: &self.ties[0], second: &self.ties[1] };
        let [one, other] = [0, 1].map(|i| self.surveys[i].view());
        let code = (library.merge)(one, other, ties, lent, &mut counts[..self.counts.len()]);
        Answer { code, bytes: vec![groups, others], words: vec![first, second, prices, owners], counts }
    }

    fn says(&self) -> String {
        format!("{:?} {:?}", self.surveys, self.ties)
    }
}

/// Ties between surveys of so many junctions: none, a few, or as many as can be; of equal numbers, of numbers that a
/// next tie has on the other side, or of any.
pub fn any_ties(rng: &mut Rng, counts: [usize; 2]) -> [Vec<u32>; 2] {
    let least = counts[0].min(counts[1]);
    let many = match rng.below(6) {
        0 => 0,
        1 | 2 => least,
        _ => rng.below(least + 1),
    };
    let mut sides = counts.map(|n| (0..n as u32).collect::<Vec<u32>>());
    match rng.below(4) {
        0 => {}
        1 => sides[1].rotate_left(1),
        _ => sides.iter_mut().for_each(|side| rng.shuffle(side)),
    }
    sides.map(|side| side[..many].to_vec())
}

fn tied(ties: &[Vec<u32>; 2]) -> Ties<'_> {
    Ties { first: &ties[0], second: &ties[1] }
}

/// Pairs of the first survey and then of the second until the district has so many, each survey no more than 256.
fn fill_pairs(rng: &mut Rng, surveys: &mut [Survey; 2], ties: &[Vec<u32>; 2], wanted: usize) {
    let share = rng.between(wanted.saturating_sub(MAX_PAIRS), wanted.min(MAX_PAIRS));
    for (side, target) in [share, wanted].into_iter().enumerate() {
        let [one, other] = [0, 1].map(|i| surveys[i].view());
        let (now, place) = (district(one, other, tied(ties)), places(one.n(), other.n(), tied(ties)));
        let place = |v: usize| if side == 0 { v as u32 } else { place[v] };
        let held: Vec<(u32, u8)> = now.owners.iter().copied().zip(now.others.iter().copied()).collect();
        let all = (0..surveys[side].groups.len()).flat_map(|v| (1..=255u8).map(move |group| (v, group)));
        let mut new: Vec<(usize, u8)> = all
            .filter(|&(v, group)| now.groups[place(v) as usize] != group && surveys[side].groups[v] != group)
            .filter(|&(v, group)| !held.contains(&(place(v), group)))
            .collect();
        let room = MAX_PAIRS - surveys[side].owners.len();
        rng.shuffle(&mut new);
        new.truncate(target.saturating_sub(held.len()).min(room));
        let survey = &mut surveys[side];
        let mut pairs: Vec<(u32, u8)> = survey.owners.iter().copied().zip(survey.others.iter().copied()).collect();
        pairs.extend(new.iter().map(|&(v, group)| (v as u32, group)));
        pairs.sort_unstable();
        (survey.owners, survey.others) = pairs.into_iter().unzip();
    }
}

/// Makes the district too large, or, with `over` 0, as large as can be, in one respect.
fn enlarge(rng: &mut Rng, surveys: &mut [Survey; 2], ties: &mut [Vec<u32>; 2], fault: Fault, over: usize) {
    match fault {
        DistrictJunctions => {
            let side = rng.below(2);
            let others = surveys[1 - side].groups.len();
            let wanted = MAX_JUNCTIONS + over;
            let more = (wanted + ties[0].len()).saturating_sub(others);
            let fits = more.clamp(surveys[side].groups.len(), MAX_JUNCTIONS);
            surveys[side].groups.resize(fits, 0);
            if rng.chance(1, 2) && others < MAX_JUNCTIONS && fits > 1 && over > 0 {
                surveys[1 - side].groups.push(0);
            }
            let n = surveys[0].groups.len() + surveys[1].groups.len();
            ties.iter_mut().for_each(|ties| ties.truncate(n.saturating_sub(wanted)));
        }
        DistrictTracks => {
            let side = rng.below(2);
            let others = surveys[1 - side].first.len();
            let survey = &mut surveys[side];
            let more = (MAX_TRACKS + over).saturating_sub(others).clamp(survey.first.len(), MAX_TRACKS);
            if survey.first.is_empty() && survey.groups.len() > 1 {
                survey.first.push(0);
                survey.second.push(1);
                survey.prices.push(rng.below(9) as u32);
            }
            if let m @ 1.. = survey.first.len() {
                (m..more).for_each(|t| survey.first.push(survey.first[t % m]));
                (m..more).for_each(|t| survey.second.push(survey.second[t % m]));
                (m..more).for_each(|t| survey.prices.push(survey.prices[t % m]));
            }
            let sum = surveys[0].first.len() + surveys[1].first.len();
            let survey = &mut surveys[1 - side];
            if let m @ 1.. = survey.first.len() {
                // What the first of them could not take.
                let more = (MAX_TRACKS + over).saturating_sub(sum).min(MAX_TRACKS - m);
                for buffer in [&mut survey.first, &mut survey.second, &mut survey.prices] {
                    (0..more).for_each(|_| buffer.push(buffer[0]));
                }
            }
        }
        DistrictPairs => fill_pairs(rng, surveys, ties, MAX_PAIRS + over),
        _ => {}
    }
}

pub(super) fn input(streams: &Streams, faults: [Fault; 2]) -> Box<dyn Call> {
    let rng = &mut streams.base();
    // One time in 50 two large surveys, with as many ties as there can be.
    let large = rng.chance(1, 50);
    let mut surveys = [0; 2].map(|_| if large { survey(rng, Size::Large) } else { small(rng) });
    for survey in &mut surveys {
        if rng.chance(1, 2) {
            overlap(rng, survey);
        }
    }
    if rng.chance(1, 8) {
        surveys[1] = surveys[0].clone();
    }
    let junctions = [0, 1].map(|i| surveys[i].groups.len());
    let mut ties = any_ties(rng, junctions);
    if large {
        ties = junctions.map(|n| (0..n as u32).collect());
        ties.iter_mut().for_each(|side| rng.shuffle(side));
        ties.iter_mut().for_each(|side| side.truncate(junctions[0].min(junctions[1])));
    }
    let limits = [DistrictJunctions, DistrictTracks, DistrictPairs];
    if !large && (is_full(streams.case) || rng.chance(1, 24)) {
        // As large as can be in one respect, or in all.
        let which = rng.below(4);
        for (_, fault) in limits.into_iter().enumerate().filter(|&(i, _)| which == 3 || which == i) {
            enlarge(rng, &mut surveys, &mut ties, fault, 0);
        }
    }
    let of_district = faults.iter().enumerate().filter(|(_, fault)| limits.contains(fault));
    for (i, &fault) in of_district {
        let rng = &mut streams.fault(i);
        let over = rng.pick(&[1, 1, 1, 2, 40]);
        enlarge(rng, &mut surveys, &mut ties, fault, over);
    }
    let [one, other] = [0, 1].map(|i| surveys[i].view());
    let district = district(one, other, tied(&ties));
    let counts_of = [one.n(), other.n()];
    for (i, &fault) in faults.iter().enumerate() {
        untie(&mut streams.fault(i), counts_of, &mut ties, fault);
    }
    for (i, fault) in faults.into_iter().enumerate() {
        let rng = &mut streams.fault(i);
        match fault {
            InSecond(fault) => harm(rng, &mut surveys[1], *fault),
            _ => harm(rng, &mut surveys[0], fault),
        }
    }
    let rng = &mut streams.buffers();
    let (n, m, pairs) = (district.groups.len(), district.first.len(), district.owners.len());
    let mut length = |need: usize, fault: Fault| room(rng, need, faults.contains(&fault));
    let [groups, owners, others] =
        [(n, GroupsShort), (pairs, OwnersShort), (pairs, OthersShort)].map(|x| length(x.0, x.1));
    let [first, second, prices] = [FirstShort, SecondShort, PricesShort].map(|fault| length(m, fault));
    let room = Survey {
        groups: bytes(rng, groups),
        first: words(rng, first),
        second: words(rng, second),
        prices: words(rng, prices),
        owners: words(rng, owners),
        others: bytes(rng, others),
    };
    Box::new(Merge { surveys, ties, room, counts: counts(rng, MERGE_COUNTS, faults) })
}
