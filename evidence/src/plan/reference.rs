//! The plain planner: each round starts afresh from the picked tracks. It follows the paper's sentences and spares
//! little work.

use super::{admitted, Counts, DROPPED, KEPT, NOT_PICKED};
use crate::{Refusal, View, AMOUNT_BYTES, RECORD_BYTES};

/// A set of junctions and its amount, in halves.
#[derive(Clone, Debug, PartialEq, Eq)]
pub struct Moat {
    /// Rising.
    pub members: Vec<usize>,
    pub amount: u64,
}

/// What one round did.
#[derive(Clone, Copy, Debug, PartialEq, Eq)]
pub struct Round {
    pub winner: usize,
    pub wait: u64,
    /// The number of growing components.
    pub growing: u64,
}

/// All rounds, and all components in the order in which they arose, those with amount 0 too.
#[derive(Clone, Debug, PartialEq, Eq)]
pub struct Growth {
    pub rounds: Vec<Round>,
    /// Whether a round picked the track.
    pub picked: Vec<bool>,
    pub moats: Vec<Moat>,
}

/// Which components grow: those of the members of a list that lie in more than one. `component[v]` is v's.
fn growing(lists: &[Vec<usize>], component: &[usize]) -> Vec<bool> {
    let mut growing = vec![false; component.len()];
    for members in lists {
        if members.iter().any(|&v| component[v] != component[members[0]]) {
            members.iter().for_each(|&v| growing[component[v]] = true);
        }
    }
    growing
}

/// The load of each junction: the amounts of all moats that hold it.
fn loads(n: usize, moats: &[Moat]) -> Vec<u64> {
    let mut load = vec![0; n];
    for moat in moats {
        moat.members.iter().for_each(|&v| load[v] += moat.amount);
    }
    load
}

/// The rounds of a survey whose groups can all be joined.
pub fn growth(survey: View) -> Growth {
    growth_without(survey, |_| false)
}

/// The same where some tracks are never candidates, and the others can join all groups (No. 12).
pub fn growth_without(survey: View, is_closed: impl Fn(usize) -> bool) -> Growth {
    let (n, m) = (survey.n(), survey.m());
    let lists = survey.lists();
    let mut moats: Vec<Moat> = (0..n).map(|v| Moat { members: vec![v], amount: 0 }).collect();
    let mut rounds: Vec<Round> = Vec::new();
    let mut picked = vec![false; m];
    // Of each junction the load, which is the amounts of all moats that hold it, and the last of these moats to arise,
    // which is its component's.
    let mut load = vec![0; n];
    let mut last: Vec<usize> = (0..n).collect();
    loop {
        // `component[v]` is the lowest junction of v's component.
        let component = survey.components(|t| picked[t]);
        let growing = growing(&lists, &component);
        if !growing.contains(&true) {
            assert_eq!(load, loads(n, &moats), "the loads, counted both ways");
            return Growth { rounds, picked, moats };
        }

        // The smallest wait, and among equals the lowest track number.
        let mut best: Option<(u64, usize)> = None;
        for t in (0..m).filter(|&t| !is_closed(t)) {
            let (u, v) = (survey.first[t] as usize, survey.second[t] as usize);
            if component[u] == component[v] {
                continue;
            }
            let remains = (2 * u64::from(survey.prices[t])).checked_sub(load[u] + load[v]).expect("loads stay below");
            let wait = match (growing[component[u]], growing[component[v]]) {
                (false, false) => continue,
                (true, true) => {
                    assert!(remains.is_multiple_of(2), "half of what remains is a whole number of halves");
                    remains / 2
                }
                _ => remains,
            };
            if best.is_none_or(|(smallest, _)| wait < smallest) {
                best = Some((wait, t));
            }
        }
        let (wait, winner) = best.expect("a growing component of a joinable survey has a way out");

        // Raise every growing component, then make the winner's two components one.
        for c in (0..n).filter(|&c| growing[c]) {
            moats[last[c]].amount += wait;
        }
        for v in (0..n).filter(|&v| growing[component[v]]) {
            load[v] += wait;
        }
        rounds.push(Round { winner, wait, growing: growing.iter().filter(|&&g| g).count() as u64 });
        picked[winner] = true;
        let ends = [component[survey.first[winner] as usize], component[survey.second[winner] as usize]];
        let members: Vec<usize> = (0..n).filter(|&v| ends.contains(&component[v])).collect();
        members.iter().for_each(|&v| last[v] = moats.len());
        moats.push(Moat { members, amount: 0 });
    }
}

/// Plans by the letter of 01.
pub fn reference(survey: View, marks: &mut [u8], records: &mut [u8]) -> Result<Counts, Refusal> {
    admitted(survey, marks.len(), records.len())?;
    if let Some(group) = survey.unjoined(|_| true) {
        return Err(Refusal { number: 8, place: u64::from(group) });
    }

    let Growth { rounds, picked, moats } = growth(survey);
    let mut counts = Counts { sites: survey.sites(), rounds: rounds.len() as u64, ..Counts::default() };

    for (t, needed) in survey.needed(&picked).into_iter().enumerate() {
        marks[t] = if !picked[t] {
            NOT_PICKED
        } else if needed {
            counts.cost += u64::from(survey.prices[t]);
            KEPT
        } else {
            DROPPED
        };
    }

    for moat in moats.iter().filter(|moat| moat.amount != 0) {
        let start = RECORD_BYTES * counts.moats as usize;
        let mut record = [0; RECORD_BYTES];
        record[..AMOUNT_BYTES].copy_from_slice(&moat.amount.to_le_bytes());
        for &v in &moat.members {
            record[AMOUNT_BYTES + v / 8] |= 1 << (v % 8);
        }
        records[start..start + RECORD_BYTES].copy_from_slice(&record);
        counts.moats += 1;
        counts.bound += moat.amount;
    }
    assert_eq!(counts.bound, rounds.iter().map(|r| r.wait * r.growing).sum::<u64>(), "the bound, counted both ways");
    Ok(counts)
}
