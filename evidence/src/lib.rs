//! Track planning by moats, a second time: every operation of document 01 ("01" below), with requests of document 02
//! ("No. 2": groups as lists that may overlap; "No. 6": prices for bridge decks; "No. 7": growing and dropping on their
//! own; "No. 8": larger districts; "No. 11": the season), written from those papers alone, in their words and their order.
//! The product is held against what stands here.
//!
//! | module  | what it answers |
//! |---------|-----------------|
//! | `read`  | a survey text |
//! | `stp`   | an STP file (No. 5) |
//! | `plan`  | the plan of a survey, by `reference` (slow, plain) and by `fast` |
//! | `check` | a plan drawn by anyone |
//! | `why` | the reason for a track (No. 3) |
//! | `closed` | plans with one track closed (No. 12) |
//! | `winter` | copies of tracks for groups with strengths (No. 13) |
//! | `stages` | growing and dropping, each on its own (No. 7) |
//! | `print` | a moat line, a printed plan, a refusal, and the whole program's answer |
//! | `brute` | the cheapest joining set of a tiny survey |
//! | `exact` | a cheapest route and a cheapest set that joins all junctions (No. 14) |
//! | `floor` | what every joining set costs at least, by cuts of directed tracks |
//! | `steiner` | the cost of a cheapest joining set of a small survey, by Dreyfus and Wagner |
//! | `season` | the season's report, adding a survey to it and printing it (No. 11) |
//! | `merge` | one survey of two (No. 9) |
//! | `handset` | planning and checking over bytes alone, and their generated cases |
//! | `gen`   | seeded surveys, texts and plans, sound and damaged |
//! | `programs` | the programs, with their generated inputs and what each is to print |
//! | `printed` | a printed plan behind its survey's text: reading it back and checking it |
//! | `verifying` | the same as a call |
//! | `blunder` | planners with a fault each, which the generated inputs have to tell from a sound one |

pub mod blunder;
pub mod brute;
pub mod calls;
pub mod check;
pub mod closed;
pub mod exact;
pub mod floor;
pub mod gen;
pub mod handset;
pub mod merge;
#[cfg(feature = "native")]
pub mod native;
pub mod plan;
pub mod print;
pub mod printed;
pub mod programs;
pub mod read;
pub mod season;
pub mod stages;
pub mod steiner;
pub mod stp;
pub mod table;
pub mod verifying;
pub mod why;
pub mod winter;

/// 01, refusal 1, and No. 8: more junctions are refused.
pub const MAX_JUNCTIONS: usize = 448;
/// 01, refusal 3: more tracks are refused.
pub const MAX_TRACKS: usize = 2_048;
/// 01, refusal 6, and No. 6: a higher price is refused.
pub const MAX_PRICE: u32 = 100_000_000;
/// No. 2, refusal 18: more pairs are refused.
pub const MAX_PAIRS: usize = 256;
/// 01, refusal 11, and No. 6: a larger amount is refused.
pub const MAX_AMOUNT: u64 = 200_000_000;
/// 01, refusal 9, and No. 8: more records are refused.
pub const MAX_RECORDS: usize = 895;
/// 01, refusal 17: a higher group number is refused.
pub const MAX_GROUP: u32 = 255;
/// Group numbers, 0 for no group among them.
pub const GROUPS: usize = MAX_GROUP as usize + 1;
/// No. 8: bytes of a moat record, of which the first `AMOUNT_BYTES` are the amount.
pub const RECORD_BYTES: usize = 64;
/// Bytes of a record's amount, lowest first.
pub const AMOUNT_BYTES: usize = 8;
/// 01: the most digits of a count and of a node line's group in a text.
pub const COUNT_DIGITS: usize = 7;
/// No. 6: the most digits of a price in a text.
pub const PRICE_DIGITS: usize = 9;
/// No. 2: the most digits of an end and of both numbers of an also line.
pub const END_DIGITS: usize = 3;
/// The most digits of a printed plan's figures, of its amounts, and of its kept tracks and members: the product's own.
pub const FIGURE_DIGITS: usize = 12;
pub const AMOUNT_DIGITS: usize = 9;
pub const ITEM_DIGITS: usize = 7;
/// The longest well-formed text that neither 1 nor 3 refuses: all lines that there can be, each number as long as it
/// can be.
pub const MAX_TEXT: usize = 56_277;
/// No. 8: so many bytes hold every printed line.
pub const MAX_LINE: usize = 2_048;
/// The program reads no more of its standard input.
pub const MAX_INPUT: usize = 65_536;
/// Bytes of an STP file that the program reads.
pub const STP_ROOM: usize = 17 * MAX_INPUT;

/// The highest number of so many digits.
pub const fn highest(digits: usize) -> u32 {
    10u32.pow(digits as u32) - 1
}

/// A refusal's number and place.
#[derive(Clone, Copy, Debug, PartialEq, Eq)]
pub struct Refusal {
    pub number: u32,
    pub place: u64,
}

/// The refusal with this number at this place.
pub fn refuse<T>(number: u32, place: usize) -> Result<T, Refusal> {
    Err(Refusal { number, place: place as u64 })
}

/// The buffers that describe a survey in a call; n is the length of `groups`, m that of `first`. A pair is an owner and
/// the number of another list that it belongs to.
#[derive(Clone, Copy, Debug, PartialEq, Eq)]
pub struct View<'a> {
    pub groups: &'a [u8],
    pub first: &'a [u32],
    pub second: &'a [u32],
    pub prices: &'a [u32],
    pub owners: &'a [u32],
    pub others: &'a [u8],
}

/// A survey that owns its buffers.
#[derive(Clone, Debug, Default, PartialEq, Eq)]
pub struct Survey {
    pub groups: Vec<u8>,
    pub first: Vec<u32>,
    pub second: Vec<u32>,
    pub prices: Vec<u32>,
    pub owners: Vec<u32>,
    pub others: Vec<u8>,
}

impl Survey {
    /// A survey from its groups and its tracks (end, end, price), without pairs.
    pub fn new(groups: &[u8], tracks: &[(u32, u32, u32)]) -> Survey {
        Survey {
            groups: groups.to_vec(),
            first: tracks.iter().map(|t| t.0).collect(),
            second: tracks.iter().map(|t| t.1).collect(),
            prices: tracks.iter().map(|t| t.2).collect(),
            ..Survey::default()
        }
    }

    /// The same survey with these pairs (v, g).
    pub fn with_pairs(self, pairs: &[(u32, u8)]) -> Survey {
        Survey {
            owners: pairs.iter().map(|pair| pair.0).collect(),
            others: pairs.iter().map(|pair| pair.1).collect(),
            ..self
        }
    }

    pub fn view(&self) -> View<'_> {
        View {
            groups: &self.groups,
            first: &self.first,
            second: &self.second,
            prices: &self.prices,
            owners: &self.owners,
            others: &self.others,
        }
    }
}

impl View<'_> {
    /// The number of junctions.
    pub fn n(&self) -> usize {
        self.groups.len()
    }

    /// The number of tracks.
    pub fn m(&self) -> usize {
        self.first.len()
    }

    /// Refusals 1 to 6, then 18: the counts and lengths, then the tracks rising, each with 4, 5, 6 in that order, then
    /// the pairs rising.
    pub fn sound(&self) -> Result<(), Refusal> {
        let (n, m) = (self.n(), self.m());
        if n == 0 || n > MAX_JUNCTIONS {
            return refuse(1, 0);
        }
        if self.second.len() != m || self.prices.len() != m || self.owners.len() != self.others.len() {
            return refuse(2, 0);
        }
        if m > MAX_TRACKS {
            return refuse(3, 0);
        }
        for t in 0..m {
            if self.first[t] as usize >= n || self.second[t] as usize >= n {
                return refuse(4, t);
            }
            if self.first[t] == self.second[t] {
                return refuse(5, t);
            }
            if self.prices[t] > MAX_PRICE {
                return refuse(6, t);
            }
        }
        match (0..self.owners.len()).find(|&i| self.is_bad_pair(i)) {
            Some(pair) => refuse(18, pair),
            None => Ok(()),
        }
    }

    /// What 18 is about: no such junction, no group or the junction's own, not above the pair before, one too many.
    pub fn is_bad_pair(&self, i: usize) -> bool {
        let pair = |i: usize| (self.owners[i], self.others[i]);
        let (v, g) = pair(i);
        v as usize >= self.n()
            || g == 0
            || g == self.groups[v as usize]
            || (i > 0 && pair(i - 1) >= pair(i))
            || i >= MAX_PAIRS
    }

    /// The members of each group, rising: by their own group or by a pair. Group 0 is no group and has none.
    pub fn members_by_group(&self) -> Vec<Vec<usize>> {
        let mut members = vec![Vec::new(); GROUPS];
        let own = self.groups.iter().copied().zip(0..);
        let paired = self.others.iter().copied().zip(self.owners.iter().map(|&v| v as usize));
        for (group, v) in own.chain(paired).filter(|&(group, _)| group != 0) {
            members[usize::from(group)].push(v);
        }
        for list in &mut members {
            list.sort_unstable();
            list.dedup();
        }
        members
    }

    /// The members of a group.
    pub fn members(&self, group: u8) -> Vec<usize> {
        self.members_by_group().swap_remove(usize::from(group))
    }

    /// The groups with two or more members.
    pub fn lists(&self) -> Vec<Vec<usize>> {
        self.members_by_group().into_iter().filter(|members| members.len() >= 2).collect()
    }

    /// The number of sites, which are the members of groups with two or more members, each counted once.
    pub fn sites(&self) -> u64 {
        let mut sites = self.lists().concat();
        sites.sort_unstable();
        sites.dedup();
        sites.len() as u64
    }

    /// For each junction the lowest junction that tracks of the set link with it, each walked either way.
    /// `holds` tells whether the set holds a track.
    pub fn components(&self, holds: impl Fn(usize) -> bool) -> Vec<usize> {
        // Each junction points to a lower one that is linked with it, the lowest to itself.
        let mut lower: Vec<usize> = (0..self.n()).collect();
        for t in (0..self.m()).filter(|&t| holds(t)) {
            let [u, v] = [self.first[t], self.second[t]].map(|end| lowest(&mut lower, end as usize));
            lower[u.max(v)] = u.min(v);
        }
        for v in 0..self.n() {
            lower[v] = lower[lower[v]];
        }
        lower
    }

    /// The lowest group that the set of tracks doesn't join, if there is one.
    pub fn unjoined(&self, holds: impl Fn(usize) -> bool) -> Option<u8> {
        parted(&self.members_by_group(), &self.components(holds))
    }

    /// For each track whether it is picked and the other picked tracks leave some group unjoined.
    pub fn needed(&self, picked: &[bool]) -> Vec<bool> {
        let members = self.members_by_group();
        let parts = |t: usize| parted(&members, &self.components(|other| other != t && picked[other])).is_some();
        (0..self.m()).map(|t| picked[t] && parts(t)).collect()
    }
}

/// Where the pointers from a junction lead. Those that are passed lead on by two from then on.
fn lowest(lower: &mut [usize], mut v: usize) -> usize {
    while lower[v] != v {
        lower[v] = lower[lower[v]];
        v = lower[v];
    }
    v
}

/// The lowest group with members in more than one component, if there is one; `component[v]` is junction v's.
pub fn parted(members: &[Vec<usize>], component: &[usize]) -> Option<u8> {
    let apart = |list: &Vec<usize>| list.iter().any(|&v| component[v] != component[list[0]]);
    members.iter().position(apart).map(|group| group as u8)
}
