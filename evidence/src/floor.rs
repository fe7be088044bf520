//! The floor: what every set of tracks that joins all groups costs at least, by cuts of directed tracks.
//!
//! A track is two arcs, one each way, each of its price. Groups that overlap are poured together; the root of a group is
//! its lowest member. A joining set is walked, tree by tree, away from the root of the tree's lowest group, so that it
//! enters every cut that holds a member of one of the tree's groups and not that root. For each group that may be the
//! lowest there is a list of cuts, in which no arc is loaded above its price, and a group's share is what every list up
//! to its own has for it. The shares come to no more than any joining set costs.

use crate::plan::{fast, owned};
use crate::print::refusal_lines;
use crate::programs::{any_text, Run};
use crate::read::{parse, Lengths};
use crate::{refuse, Refusal, View, MAX_INPUT};
use std::collections::BTreeSet;

/// The floor, the number of sites, cost and bound.
pub const FLOOR_COUNTS: usize = 4;

/// The lists, those that share a member poured together, also by a chain, in the order of the lowest list of each; of
/// those the ones with two or more members, each rising.
pub fn poured(survey: View) -> Vec<Vec<usize>> {
    let mut groups: Vec<BTreeSet<usize>> = Vec::new();
    for list in survey.members_by_group().into_iter().filter(|list| !list.is_empty()) {
        let mut all: BTreeSet<usize> = list.into_iter().collect();
        let shares = |group: &BTreeSet<usize>| !group.is_disjoint(&all);
        let Some(lowest) = groups.iter().position(shares) else {
            groups.push(all);
            continue;
        };
        let (shared, mut apart): (Vec<_>, Vec<_>) = groups.into_iter().partition(|group| !group.is_disjoint(&all));
        shared.into_iter().for_each(|group| all.extend(group));
        apart.insert(lowest, all);
        groups = apart;
    }
    groups.into_iter().filter(|group| group.len() >= 2).map(|group| group.into_iter().collect()).collect()
}

/// Groups and tracks of surveys whose shares come to less than half the bound, found by trying random ones, of which 1 in
/// some 4,000 is such.
pub const HALF_IS_MORE: [(&[u8], &[(u32, u32, u32)]); 4] = [
    (&[0, 2, 1, 2, 0, 1], &[(0, 1, 4), (0, 2, 5), (2, 3, 8), (3, 4, 1), (1, 5, 3), (0, 4, 4)]),
    (&[0, 2, 1, 4, 4, 1], &[(0, 1, 3), (1, 2, 3), (1, 3, 3), (0, 4, 2), (3, 5, 1)]),
    (&[0, 2, 0, 0, 1, 1, 2, 2], &[(0, 1, 2), (0, 2, 2), (0, 3, 2), (2, 4, 2), (1, 5, 1), (1, 6, 1), (3, 7, 1)]),
    (&[2, 0, 1, 0, 2, 1, 0, 3], &[(0, 1, 3), (1, 2, 3), (0, 3, 3), (3, 4, 3), (0, 5, 1), (4, 6, 3), (4, 7, 2)]),
];

/// A cut of a list, for a group, with its amount and the junctions inside, as they were found.
#[derive(Clone, Debug, PartialEq, Eq)]
pub struct Cut {
    pub list: usize,
    pub group: usize,
    pub amount: u64,
    pub inside: Vec<usize>,
}

/// An arc that enters a junction: from where, and which it is.
#[derive(Clone, Copy)]
struct Arc {
    from: usize,
    number: usize,
}

/// What is walked while a cut is looked for.
struct Walk {
    into: Vec<Vec<Arc>>,
    rest: Vec<u64>,
    inside: Vec<bool>,
    found: Vec<usize>,
}

impl Walk {
    fn new(survey: View) -> Walk {
        let mut into = vec![Vec::new(); survey.n()];
        for t in 0..survey.m() {
            let (u, v) = (survey.first[t] as usize, survey.second[t] as usize);
            into[v].push(Arc { from: u, number: 2 * t });
            into[u].push(Arc { from: v, number: 2 * t + 1 });
        }
        Walk { into, rest: Vec::new(), inside: vec![false; survey.n()], found: Vec::new() }
    }

    /// Finds all junctions from which arcs of rest 0 lead to this one; false where the root is among them.
    fn reaches(&mut self, member: usize, root: usize) -> bool {
        self.found.drain(..).for_each(|v| self.inside[v] = false);
        self.inside[member] = true;
        self.found.push(member);
        let mut next = 0;
        while next < self.found.len() && !self.inside[root] {
            for arc in &self.into[self.found[next]] {
                if self.rest[arc.number] == 0 && !self.inside[arc.from] {
                    self.inside[arc.from] = true;
                    self.found.push(arc.from);
                }
            }
            next += 1;
        }
        !self.inside[root]
    }

    /// The arcs that enter what was found.
    fn entering(&self) -> Vec<usize> {
        let arcs = self.found.iter().flat_map(|&v| &self.into[v]);
        arcs.filter(|arc| !self.inside[arc.from]).map(|arc| arc.number).collect()
    }
}

/// The cuts by dual ascent, list after list from the last group to the first: `take` is handed each; then the share of
/// each group. All groups can be joined.
pub fn ascent(survey: View, groups: &[Vec<usize>], mut take: impl FnMut(Cut)) -> Vec<u64> {
    let mut share = vec![0; groups.len()];
    let mut walk = Walk::new(survey);
    for list in (0..groups.len()).rev() {
        let root = groups[list][0];
        let mut got = vec![0; groups.len()];
        walk.rest = survey.prices.iter().flat_map(|&price| [u64::from(price); 2]).collect();
        let mut changes = true;
        while changes {
            changes = false;
            for group in list..groups.len() {
                for &member in &groups[group] {
                    if group > list && got[group] == share[group] {
                        break;
                    }
                    if !walk.reaches(member, root) {
                        continue;
                    }
                    let entering = walk.entering();
                    let least = entering.iter().map(|&arc| walk.rest[arc]).min();
                    let wanted = (group > list).then(|| share[group] - got[group]);
                    let amount =
                        least.into_iter().chain(wanted).min().expect("the list's own root reaches its members");
                    entering.iter().for_each(|&arc| walk.rest[arc] -= amount);
                    got[group] += amount;
                    changes = true;
                    take(Cut { list, group, amount, inside: walk.found.clone() });
                }
            }
        }
        share[list] = got[list];
        (list + 1..groups.len()).for_each(|group| share[group] = share[group].min(got[group]));
    }
    share
}

/// Half the bound, rounded up: no joining set costs less, and prices are whole.
pub fn half(bound: u64) -> u64 {
    bound.div_ceil(2)
}

/// The floor of a survey whose groups can be joined, given its bound: the shares, or half the bound where that is more.
pub fn floor_of(survey: View, bound: u64) -> u64 {
    let shares: u64 = ascent(survey, &poured(survey), |_| ()).iter().sum();
    shares.max(half(bound))
}

/// Floor, sites, cost and bound.
pub fn floor(survey: View, counts: &mut [u64]) -> Result<(), Refusal> {
    survey.sound()?;
    if counts.len() < FLOOR_COUNTS {
        return refuse(7, 0);
    }
    let plan = owned(fast, survey)?.counts;
    counts[..FLOOR_COUNTS].copy_from_slice(&[floor_of(survey, plan.bound), plan.sites, plan.cost, plan.bound]);
    Ok(())
}

/// How far a cost is above the floor, in tenths of a percent of the floor, rounded up. Where the floor is 0 the cost is.
pub fn gap(floor: u64, cost: u64) -> u64 {
    match floor {
        0 => 0,
        _ => (1_000 * (cost - floor)).div_ceil(floor),
    }
}

/// What the program prints for its standard input; the keys are the product's own.
pub fn floor_program(input: &[u8]) -> String {
    let text = &input[..input.len().min(MAX_INPUT)];
    let mut counts = [0; FLOOR_COUNTS];
    let found = parse(text, Lengths::ENOUGH).and_then(|survey| floor(survey.view(), &mut counts));
    let [floor, _, cost, _] = counts;
    found.map_or_else(refusal_lines, |()| format!("floor={floor}\ncost={cost}\ngap={}\n", gap(floor, cost)))
}

/// A run of the program: a survey's text, sound or damaged.
pub fn run(seed: u64, case: u64) -> Run {
    let input = any_text(seed, case);
    let lines = floor_program(&input);
    Run::lines(input, Vec::new(), lines)
}
