//! The cheapest joining set of a tiny survey, by trying every set of its tracks, and the cheapest copies that meet
//! strengths (No. 13), by trying every number of copies.

use crate::View;

/// No more tracks are tried.
pub const MAX_TRACKS: usize = 14;

/// The cost of a cheapest set of tracks that joins every group, or nothing if no set does.
pub fn cheapest(survey: View) -> Option<u64> {
    let (m, lists) = (survey.m(), survey.lists());
    assert!(m <= MAX_TRACKS, "too many sets to try");
    let cost = |set: u32| -> u64 { (0..m).filter(|&t| set >> t & 1 == 1).map(|t| u64::from(survey.prices[t])).sum() };
    let mut best: Option<u64> = None;
    for set in 0..1u32 << m {
        let cost = cost(set);
        if best.is_none_or(|least| cost < least) && joins(survey, &lists, set) {
            best = Some(cost);
        }
    }
    best
}

/// Are any two members of a group linked by tracks of the set?
fn joins(survey: View, lists: &[Vec<usize>], set: u32) -> bool {
    let n = survey.n();
    let mut name: Vec<usize> = (0..n).collect();
    for t in (0..survey.m()).filter(|t| set >> t & 1 == 1) {
        let (old, new) = (name[survey.first[t] as usize], name[survey.second[t] as usize]);
        for v in name.iter_mut().filter(|v| **v == old) {
            *v = new;
        }
    }
    lists.iter().all(|members| members.iter().all(|&v| name[v] == name[members[0]]))
}

/// What copies of tracks have to meet: a division's tracks, and how many copies of them it wants.
#[derive(Debug)]
pub struct Division {
    pub crossing: Vec<usize>,
    pub strength: u64,
}

/// Every division of the junctions that parts a group, with the highest strength of those that it parts; `strengths` has
/// each group's.
pub fn divisions(survey: View, strengths: impl Fn(usize) -> u8) -> Vec<Division> {
    let members = survey.members_by_group();
    let of = |set: u32| {
        let inside = |v: usize| set >> v & 1 == 1;
        let parts = |list: &Vec<usize>| list.iter().any(|&v| inside(v)) && list.iter().any(|&v| !inside(v));
        let parted = (1..members.len()).filter(|&group| parts(&members[group]));
        let strength = parted.map(|group| u64::from(strengths(group))).max()?;
        let crosses = |&t: &usize| inside(survey.first[t] as usize) != inside(survey.second[t] as usize);
        Some(Division { crossing: (0..survey.m()).filter(crosses).collect(), strength })
    };
    // The last junction is always outside.
    (0..1u32 << (survey.n() - 1)).filter_map(of).collect()
}

/// The least price of copies that cross every division often enough, up to `most` of a track. A track's copies are tried
/// from what the divisions want that no later track crosses, up to what any division still wants.
pub fn cheapest_copies(survey: View, divisions: &[Division], most: u64) -> Option<u64> {
    let mut best = None;
    let mut wanted: Vec<u64> = divisions.iter().map(|division| division.strength).collect();
    copies_from(survey, divisions, most, 0, 0, &mut wanted, &mut best);
    best
}

fn copies_from(
    survey: View,
    divisions: &[Division],
    most: u64,
    track: usize,
    cost: u64,
    wanted: &mut Vec<u64>,
    best: &mut Option<u64>,
) {
    if best.is_some_and(|least| cost >= least) {
        return;
    }
    if track == survey.m() {
        if wanted.iter().all(|&more| more == 0) {
            *best = Some(cost);
        }
        return;
    }
    let crossed: Vec<usize> = (0..divisions.len()).filter(|&d| divisions[d].crossing.contains(&track)).collect();
    let last = |&&d: &&usize| divisions[d].crossing.last() == Some(&track);
    let low = crossed.iter().filter(last).map(|&d| wanted[d]).max().unwrap_or(0);
    let high = crossed.iter().map(|&d| wanted[d]).max().unwrap_or(0);
    for many in low..=high.min(most) {
        let before = wanted.clone();
        crossed.iter().for_each(|&d| wanted[d] = wanted[d].saturating_sub(many));
        copies_from(survey, divisions, most, track + 1, cost + many * u64::from(survey.prices[track]), wanted, best);
        *wanted = before;
    }
}
