//! The fast planner: work in proportion to junctions plus tracks in each round, loads kept from round to round,
//! nothing allocated, and one walk of the picked forest to decide what is kept.

use super::{admitted, Counts, DROPPED, KEPT, NOT_PICKED};
use crate::{Refusal, View, AMOUNT_BYTES, GROUPS, MAX_JUNCTIONS, MAX_RECORDS, MAX_TRACKS, RECORD_BYTES};

/// Bits of a key that hold the track number; the wait, which is at most twice the highest price, stands above them. So
/// the smallest key is the winner.
const TRACK_BITS: u32 = 11;
/// The key of no track.
const NOBODY: u64 = u64::MAX;
const NONE: u16 = u16::MAX;

/// A track whose ends may still lie in different components, in one word: its ends in the lowest 20 bits, its number in
/// the next twelve, twice its price above.
type Live = u64;
const END_BITS: u32 = 10;
const END: u64 = (1 << END_BITS) - 1;
const PRICE: u32 = 32;

fn live(u: u32, v: u32, number: usize, price: u32) -> Live {
    u64::from(u) | u64::from(v) << END_BITS | (number as u64) << (2 * END_BITS) | u64::from(2 * price) << PRICE
}

/// Words of 64 bits for the members of a set.
const WORDS: usize = (RECORD_BYTES - AMOUNT_BYTES) / 8;
type Set = [u64; WORDS];

/// What a round needs of a junction, in one word: its load, then whether its component grows, and from `COMPONENT` on
/// the component. A load is at most n - 1 waits of twice the highest price each, below 2^39, so two of them add up
/// without a carry into the component.
type State = u64;
const GROWS: u32 = 40;
const COMPONENT: u32 = 48;
/// The load of a state, or of the sum of two.
const LOAD: u64 = (1 << GROWS) - 1;

fn state(load: u64, grows: bool, component: usize) -> State {
    load | u64::from(grows) << GROWS | (component as u64) << COMPONENT
}

/// The lists of each junction of a sound survey: its own group, 0 for none, and the groups of its pairs, which stand in
/// a run.
struct Lists<'a> {
    groups: &'a [u8],
    others: &'a [u8],
    /// Junction v's pairs begin here and end where those of v + 1 begin.
    from: [u16; MAX_JUNCTIONS + 1],
}

impl<'a> Lists<'a> {
    fn of(survey: View<'a>) -> Lists<'a> {
        let mut from = [0; MAX_JUNCTIONS + 1];
        for &v in survey.owners {
            from[v as usize + 1] += 1;
        }
        for v in 0..MAX_JUNCTIONS {
            from[v + 1] += from[v];
        }
        Lists { groups: survey.groups, others: survey.others, from }
    }

    /// By junction; group 0 may be among them.
    fn of_junction(&self, v: usize) -> impl Iterator<Item = usize> + 'a {
        let further = &self.others[self.from[v] as usize..self.from[v + 1] as usize];
        std::iter::once(self.groups[v] as usize).chain(further.iter().map(|&group| group as usize))
    }
}

/// All that a call needs beside the lent buffers.
pub struct Workspace {
    live: [Live; MAX_TRACKS],
    state: [State; MAX_JUNCTIONS],
    /// By component: junction v is component v, the round r merges into component n + r - 1.
    amount: [u64; MAX_RECORDS],
    members: [Set; MAX_RECORDS],
    /// The growing components.
    growing: [u16; MAX_JUNCTIONS],
    // By group, its members in all and in a component.
    total: [u16; GROUPS],
    inside: [u16; GROUPS],
    picked: [u16; MAX_JUNCTIONS],
    root: [u16; MAX_JUNCTIONS],
    // The picked forest: for each junction a chain of half-tracks, two for each picked track.
    chain: [u16; MAX_JUNCTIONS],
    link: [u16; 2 * MAX_JUNCTIONS],
    // In walking order.
    order: [u16; MAX_JUNCTIONS],
    above: [u16; MAX_JUNCTIONS],
    by: [u16; MAX_JUNCTIONS],
    low: [u16; MAX_JUNCTIONS],
    high: [u16; MAX_JUNCTIONS],
    end: [u16; MAX_JUNCTIONS],
    // By group, the first and last of its members in walking order.
    group_low: [u16; GROUPS],
    group_high: [u16; GROUPS],
}

impl Workspace {
    pub const NEW: Workspace = Workspace {
        live: [0; MAX_TRACKS],
        state: [0; MAX_JUNCTIONS],
        amount: [0; MAX_RECORDS],
        members: [[0; WORDS]; MAX_RECORDS],
        growing: [0; MAX_JUNCTIONS],
        total: [0; GROUPS],
        inside: [0; GROUPS],
        picked: [0; MAX_JUNCTIONS],
        root: [0; MAX_JUNCTIONS],
        chain: [NONE; MAX_JUNCTIONS],
        link: [NONE; 2 * MAX_JUNCTIONS],
        order: [0; MAX_JUNCTIONS],
        above: [0; MAX_JUNCTIONS],
        by: [NONE; MAX_JUNCTIONS],
        low: [0; MAX_JUNCTIONS],
        high: [0; MAX_JUNCTIONS],
        end: [0; MAX_JUNCTIONS],
        group_low: [0; GROUPS],
        group_high: [0; GROUPS],
    };

    /// Plans; whatever an earlier call left in the workspace is without effect.
    pub fn plan(&mut self, survey: View, marks: &mut [u8], records: &mut [u8]) -> Result<Counts, Refusal> {
        admitted(survey, marks.len(), records.len())?;
        let (n, m) = (survey.n(), survey.m());
        self.total.fill(0);
        let lists = Lists::of(survey);
        for &group in survey.groups.iter().chain(survey.others) {
            self.total[group as usize] += 1;
        }
        self.total[0] = 0;
        self.joinable(survey, &lists)?;

        let sites = (0..n).filter(|&v| self.is_site(&lists, v)).count() as u64;
        let mut counts = Counts { sites, ..Counts::default() };
        let rounds = self.grow(survey, &lists, &mut counts.bound);
        counts.rounds = rounds as u64;

        marks[..m].fill(NOT_PICKED);
        self.prune(survey, &lists, rounds, marks);
        for &track in &self.picked[..rounds] {
            if marks[track as usize] == KEPT {
                counts.cost += u64::from(survey.prices[track as usize]);
            }
        }

        let mut room = records.chunks_exact_mut(RECORD_BYTES);
        for component in 0..n + rounds {
            if self.amount[component] != 0 {
                let record = room.next().expect("one record for each component fits");
                record[..AMOUNT_BYTES].copy_from_slice(&self.amount[component].to_le_bytes());
                for (bytes, word) in record[AMOUNT_BYTES..].chunks_exact_mut(8).zip(self.members[component]) {
                    bytes.copy_from_slice(&word.to_le_bytes());
                }
                counts.moats += 1;
            }
        }
        Ok(counts)
    }

    /// Is the junction in a list with another member?
    fn is_site(&self, lists: &Lists, v: usize) -> bool {
        lists.of_junction(v).any(|group| self.total[group] >= 2)
    }

    /// Refusal 8, by a union of all tracks.
    fn joinable(&mut self, survey: View, lists: &Lists) -> Result<(), Refusal> {
        let n = survey.n();
        for v in 0..n {
            self.root[v] = v as u16;
        }
        let mut parts = n;
        for (&u, &v) in survey.first.iter().zip(survey.second) {
            let (u, v) = (self.find(u as u16), self.find(v as u16));
            if u != v {
                self.root[u as usize] = v;
                parts -= 1;
                if parts == 1 {
                    return Ok(());
                }
            }
        }
        // The root of a group's first member, then the lowest group with a member under another root.
        let mut root_of = [NONE; GROUPS];
        let mut lowest = 0;
        for v in 0..n {
            let root = self.find(v as u16);
            for group in lists.of_junction(v) {
                let seen = &mut root_of[group];
                if *seen == NONE {
                    *seen = root;
                } else if group != 0 && *seen != root && (lowest == 0 || group < lowest) {
                    lowest = group;
                }
            }
        }
        if lowest == 0 {
            Ok(())
        } else {
            Err(Refusal { number: 8, place: lowest as u64 })
        }
    }

    fn find(&mut self, mut v: u16) -> u16 {
        while self.root[v as usize] != v {
            let up = self.root[self.root[v as usize] as usize];
            self.root[v as usize] = up;
            v = up;
        }
        v
    }

    /// All rounds; answers with their number and adds up the bound.
    fn grow(&mut self, survey: View, lists: &Lists, bound: &mut u64) -> usize {
        let (n, m) = (survey.n(), survey.m());
        let mut growing = 0;
        for v in 0..n {
            let grows = self.is_site(lists, v);
            self.state[v] = state(0, grows, v);
            self.amount[v] = 0;
            self.members[v] = [0; WORDS];
            self.members[v][v / 64] = 1 << (v % 64);
            if grows {
                self.growing[growing] = v as u16;
                growing += 1;
            }
        }
        for t in 0..m {
            self.live[t] = live(survey.first[t], survey.second[t], t, survey.prices[t]);
        }
        let mut alive = m;
        let mut rounds = 0;
        while growing > 0 {
            let winner = self.winner(&mut alive);
            let wait = winner >> TRACK_BITS;
            let track = winner & ((1 << TRACK_BITS) - 1);
            self.picked[rounds] = track as u16;

            // Every growing component is raised.
            *bound += wait * growing as u64;
            for &component in &self.growing[..growing] {
                self.amount[component as usize] += wait;
            }
            for state in &mut self.state[..n] {
                *state += (*state >> GROWS & 1) * wait;
            }

            // The two components become one, which grows if some list is inside and outside it. No other
            // component starts or stops growing.
            let one = (self.state[survey.first[track as usize] as usize] >> COMPONENT) as u16;
            let other = (self.state[survey.second[track as usize] as usize] >> COMPONENT) as u16;
            let merged = n + rounds;
            for word in 0..WORDS {
                self.members[merged][word] = self.members[one as usize][word] | self.members[other as usize][word];
            }
            self.amount[merged] = 0;
            self.inside.fill(0);
            for v in members(&self.members[merged]) {
                for group in lists.of_junction(v) {
                    self.inside[group] += 1;
                }
            }
            let grows = members(&self.members[merged])
                .any(|v| lists.of_junction(v).any(|group| self.inside[group] < self.total[group]));
            for v in members(&self.members[merged]) {
                self.state[v] = state(self.state[v] & LOAD, grows, merged);
            }
            let mut kept = 0;
            for i in 0..growing {
                let component = self.growing[i];
                self.growing[kept] = component;
                kept += usize::from(component != one && component != other);
            }
            growing = kept;
            if grows {
                self.growing[growing] = merged as u16;
                growing += 1;
            }
            rounds += 1;
        }
        rounds
    }

    /// The smallest key among the live tracks. Those inside one component leave the list for good.
    fn winner(&mut self, alive: &mut usize) -> u64 {
        let mut winner = NOBODY;
        let mut left = 0;
        for i in 0..(*alive).min(MAX_TRACKS) {
            let track = self.live[i];
            let one = self.state[(track & END) as usize];
            let other = self.state[(track >> END_BITS & END) as usize];
            let apart = (one ^ other) >> COMPONENT != 0;
            self.live[left % MAX_TRACKS] = track;
            left += usize::from(apart);
            let both = one + other;
            let growers = (both >> GROWS) as u32 & 3;
            let remains = (track >> PRICE).wrapping_sub(both & LOAD);
            let number = track >> (2 * END_BITS) & ((1 << TRACK_BITS) - 1);
            let key = (remains >> (growers >> 1)) << TRACK_BITS | number;
            winner = winner.min(if apart & (growers != 0) { key } else { NOBODY });
        }
        *alive = left;
        winner
    }

    /// Marks the picked tracks. A walk from the lowest junction of each tree numbers the junctions so that what hangs
    /// on a track is a run of numbers; the track is kept if a list with a member in the run reaches below or above it.
    fn prune(&mut self, survey: View, lists: &Lists, rounds: usize, marks: &mut [u8]) {
        let n = survey.n();
        self.chain[..n].fill(NONE);
        for i in 0..rounds {
            let track = self.picked[i] as usize;
            let ends = [survey.first[track] as usize, survey.second[track] as usize];
            for (side, end) in ends.into_iter().enumerate() {
                let half = 2 * i + side;
                self.link[half] = self.chain[end];
                self.chain[end] = half as u16;
            }
        }

        // `end` is 0 while a junction waits, then the number after the last in its run; `above` is the junction it
        // hangs on, `by` the picked track it hangs by.
        self.end[..n].fill(0);
        self.group_low.fill(NONE);
        self.group_high.fill(0);
        let mut walked = 0;
        for start in 0..n {
            if self.end[start] != 0 {
                continue;
            }
            self.by[start] = NONE;
            let mut at = start;
            self.enter(at, &mut walked, lists);
            loop {
                let half = self.chain[at];
                if half != NONE {
                    self.chain[at] = self.link[half as usize];
                    let pick = half / 2;
                    if pick == self.by[at] {
                        continue;
                    }
                    let track = self.picked[pick as usize] as usize;
                    let next = if half.is_multiple_of(2) { survey.second[track] } else { survey.first[track] } as usize;
                    self.above[next] = at as u16;
                    self.by[next] = pick;
                    at = next;
                    self.enter(at, &mut walked, lists);
                } else {
                    self.end[at] = walked;
                    if self.by[at] == NONE {
                        break;
                    }
                    at = self.above[at] as usize;
                }
            }
        }

        // Backwards, so that a junction's run is summed up before the junction it hangs on.
        for number in 0..n {
            let v = self.order[number] as usize;
            (self.low[v], self.high[v]) = (NONE, 0);
            for group in lists.of_junction(v).filter(|&group| group != 0) {
                self.low[v] = self.low[v].min(self.group_low[group]);
                self.high[v] = self.high[v].max(self.group_high[group]);
            }
        }
        for number in (0..n).rev() {
            let v = self.order[number] as usize;
            if self.by[v] == NONE {
                continue;
            }
            let track = self.picked[self.by[v] as usize] as usize;
            let reaches_out = self.low[v] < number as u16 || self.high[v] >= self.end[v];
            marks[track] = if reaches_out { KEPT } else { DROPPED };
            let above = self.above[v] as usize;
            self.low[above] = self.low[above].min(self.low[v]);
            self.high[above] = self.high[above].max(self.high[v]);
        }
    }

    /// Gives a junction its number in the walk.
    fn enter(&mut self, v: usize, walked: &mut u16, lists: &Lists) {
        self.order[*walked as usize] = v as u16;
        for group in lists.of_junction(v) {
            self.group_low[group] = self.group_low[group].min(*walked);
            self.group_high[group] = self.group_high[group].max(*walked);
        }
        *walked += 1;
        self.end[v] = *walked;
    }
}

/// The junctions of a set, rising.
fn members(set: &Set) -> impl Iterator<Item = usize> {
    let set = *set;
    (0..WORDS).flat_map(move |word| {
        let mut rest = set[word];
        std::iter::from_fn(move || {
            if rest == 0 {
                return None;
            }
            let bit = rest.trailing_zeros() as usize;
            rest &= rest - 1;
            Some(64 * word + bit)
        })
    })
}

/// Plans with a workspace on the stack.
pub fn fast(survey: View, marks: &mut [u8], records: &mut [u8]) -> Result<Counts, Refusal> {
    let mut workspace = Workspace::NEW;
    workspace.plan(survey, marks, records)
}
