//! Calls from the handset (document 02, No. 1, with No. 2's pairs): planning and checking over bytes alone, a second
//! time, and generated inputs that hold a library against it.
//!
//! The papers: ends, prices and the pairs' v cross as four bytes each, lowest first; the counts come back in a lent
//! slice, eight bytes each, lowest first, in document 01's order; a slice of numbers that is no multiple of four long
//! gets 2, a short result 7, in checking before 9; the answer is 0 or number + 256 * place, and a refusal writes
//! nothing. Where 2 and 7 stand among the other refusals is read from document 01's order: 2 after 1 and before 3,
//! planning's 7 with its other 7s, checking's after 6 and 18.

use crate::calls::code;
use crate::calls::faults::{harm, is_full, pair, spoil, Fault, CHECK_FAULTS, PLAN_FAULTS};
use crate::check::check;
use crate::gen::{overlap, survey, Rng, Size};
use crate::plan::{fast, owned, record_room, Counts};
use crate::{Refusal, Survey, View, MAX_JUNCTIONS};

/// Bytes of a number and of a count, and of the counts of planning and of checking.
pub const NUMBER: usize = 4;
pub const COUNT: usize = 8;
pub const PLAN_RESULT: usize = 5 * COUNT;
pub const CHECK_RESULT: usize = 3 * COUNT;

/// A survey as it crosses.
#[derive(Clone, Copy, Debug)]
pub struct Crossing<'a> {
    pub groups: &'a [u8],
    pub first: &'a [u8],
    pub second: &'a [u8],
    pub prices: &'a [u8],
    pub owners: &'a [u8],
    pub others: &'a [u8],
}

/// The two calls.
#[derive(Clone, Copy)]
pub struct Handset {
    pub plan: fn(Crossing, &mut [u8], &mut [u8], &mut [u8]) -> u64,
    pub check: fn(Crossing, &[u8], &[u8], &mut [u8]) -> u64,
}

/// The numbers of a slice; what is over at its end is none.
pub fn numbers(bytes: &[u8]) -> Vec<u32> {
    bytes.chunks_exact(NUMBER).map(|b| (0..NUMBER).map(|k| u32::from(b[k]) << (8 * k)).sum()).collect()
}

/// Numbers as they cross.
pub fn crossed(numbers: &[u32]) -> Vec<u8> {
    numbers.iter().flat_map(|x| (0..NUMBER).map(move |k| (x >> (8 * k)) as u8)).collect()
}

impl Crossing<'_> {
    /// The survey that the slices spell.
    pub fn survey(&self) -> Survey {
        Survey {
            groups: self.groups.to_vec(),
            first: numbers(self.first),
            second: numbers(self.second),
            prices: numbers(self.prices),
            owners: numbers(self.owners),
            others: self.others.to_vec(),
        }
    }

    /// A slice of numbers is no multiple of four long.
    pub fn is_ragged(&self) -> bool {
        [self.first, self.second, self.prices, self.owners].iter().any(|slice| slice.len() % NUMBER != 0)
    }

    /// 1, then 2 for such a slice, then what is refused of the survey in numbers.
    fn sound(&self) -> Result<Survey, u64> {
        if self.groups.is_empty() || self.groups.len() > MAX_JUNCTIONS {
            return Err(1);
        }
        if self.is_ragged() {
            return Err(2);
        }
        let survey = self.survey();
        survey.view().sound().map_err(code)?;
        Ok(survey)
    }
}

/// Counts at the beginning of a slice.
pub fn put(result: &mut [u8], counts: &[u64]) {
    for (i, count) in counts.iter().enumerate() {
        for k in 0..COUNT {
            result[COUNT * i + k] = (count >> (8 * k)) as u8;
        }
    }
}

/// Out of line, as in `calls`.
#[inline(never)]
fn drawn(survey: View, marks: &mut [u8], records: &mut [u8]) -> Result<Counts, Refusal> {
    fast(survey, marks, records)
}

fn plan_call(crossing: Crossing, marks: &mut [u8], records: &mut [u8], result: &mut [u8]) -> u64 {
    let survey = match crossing.sound() {
        Ok(survey) => survey,
        Err(answer) => return answer,
    };
    if result.len() < PLAN_RESULT {
        return 7;
    }
    match drawn(survey.view(), marks, records) {
        Ok(c) => {
            put(result, &[c.sites, c.cost, c.bound, c.rounds, c.moats]);
            0
        }
        Err(refusal) => code(refusal),
    }
}

fn check_call(crossing: Crossing, marks: &[u8], records: &[u8], result: &mut [u8]) -> u64 {
    let survey = match crossing.sound() {
        Ok(survey) => survey,
        Err(answer) => return answer,
    };
    if result.len() < CHECK_RESULT {
        return 7;
    }
    match check(survey.view(), marks, records) {
        Ok(p) => {
            put(result, &[p.sites, p.cost, p.bound]);
            0
        }
        Err(refusal) => code(refusal),
    }
}

/// The second implementation.
pub const SECOND: Handset = Handset { plan: plan_call, check: check_call };

/// What a call answers, and what its lent slices then hold, with what stands behind each.
#[derive(Debug, PartialEq, Eq)]
pub struct Answer {
    pub code: u64,
    pub lent: Vec<Vec<u8>>,
}

/// A case: a survey in bytes, and all that is lent.
#[derive(Clone, Debug)]
pub struct Case {
    groups: Vec<u8>,
    slices: [Vec<u8>; 4],
    others: Vec<u8>,
    marks: Vec<u8>,
    records: Vec<u8>,
    result: Vec<u8>,
}

/// Lengths of results that are tried: around every count, and just enough most often.
const PLAN_LENGTHS: [usize; 20] = [0, 7, 8, 16, 23, 24, 32, 38, 39, 39, 40, 40, 40, 40, 40, 40, 40, 41, 48, 64];
const CHECK_LENGTHS: [usize; 20] = [0, 1, 7, 8, 9, 15, 16, 22, 23, 23, 24, 24, 24, 24, 24, 25, 32, 39, 40, 41];
/// Any bytes behind each lent slice, which no call may touch.
const BEHIND: [u8; 16] = [0xa5; 16];

fn any(rng: &mut Rng, length: usize) -> Vec<u8> {
    (0..length).map(|_| rng.word() as u8).collect()
}

/// Enough, or, one time in six, too little or too much.
fn near(rng: &mut Rng, need: usize) -> usize {
    match rng.below(12) {
        0 => need.saturating_sub(1),
        1 => rng.below(need + 1),
        2 => need + rng.between(1, 50),
        _ => need,
    }
}

impl Case {
    /// Two faults of the survey, or of the plan that is checked, and, one time in three, a slice of numbers with one to
    /// three bytes more or less. One survey of 200 is as large as can be.
    fn new(seed: u64, case: u64, checks: bool) -> Case {
        let rng = &mut Rng::of_case(seed ^ 0x6861_6e64 << u64::from(checks), case);
        let full = is_full(case);
        let size = if full { Size::Full } else { rng.pick(&[Size::Tiny, Size::Tiny, Size::Small, Size::Middle]) };
        let mut survey = survey(rng, size);
        if rng.chance(1, 2) {
            overlap(rng, &mut survey);
        }
        let row = if checks { CHECK_FAULTS } else { PLAN_FAULTS };
        let faults = match rng.chance(2, 3) {
            _ if full => pair(row, case),
            true => pair(row, rng.word() >> 8),
            false => [Fault::Nothing; 2],
        };
        let (mut marks, mut records) = (Vec::new(), Vec::new());
        if checks {
            (marks, records) = match owned(fast, survey.view()) {
                Ok(plan) => (plan.marks, plan.records),
                Err(_) => (vec![0; survey.first.len()], Vec::new()),
            };
        }
        for fault in faults {
            if checks {
                spoil(rng, &survey, &mut marks, &mut records, fault);
            }
            harm(rng, &mut survey, fault);
        }
        if !checks {
            let [m, r] = [near(rng, survey.first.len()), near(rng, record_room(survey.groups.len().max(1)))];
            (marks, records) = (any(rng, m), any(rng, r));
        }
        let mut slices = [&survey.first, &survey.second, &survey.prices, &survey.owners].map(|l| crossed(l));
        for _ in 0..rng.pick(&[0, 0, 0, 0, 1, 2]) {
            let slice = &mut slices[rng.below(4)];
            let length = if rng.chance(1, 2) {
                slice.len() + rng.between(1, 3)
            } else {
                slice.len().saturating_sub(rng.between(1, 3))
            };
            slice.resize(length, rng.word() as u8);
        }
        let length = rng.pick(if checks { &CHECK_LENGTHS } else { &PLAN_LENGTHS });
        Case { groups: survey.groups, slices, others: survey.others, marks, records, result: any(rng, length) }
    }

    fn crossing(&self) -> Crossing<'_> {
        let [first, second, prices, owners] = &self.slices;
        Crossing { groups: &self.groups, first, second, prices, owners, others: &self.others }
    }

    fn run(&self, handset: &Handset, checks: bool) -> Answer {
        let behind = |lent: &[u8]| [lent, &BEHIND].concat();
        let [mut marks, mut records, mut result] = [&self.marks, &self.records, &self.result].map(|l| behind(l));
        let (m, r, k) = (self.marks.len(), self.records.len(), self.result.len());
        let code = if checks {
            (handset.check)(self.crossing(), &self.marks, &self.records, &mut result[..k])
        } else {
            (handset.plan)(self.crossing(), &mut marks[..m], &mut records[..r], &mut result[..k])
        };
        Answer { code, lent: vec![marks, records, result] }
    }

    /// The lengths of the four slices of numbers and of the result, modulo four and as they are: what a run of cases is
    /// to cover.
    pub fn lengths(&self) -> ([usize; 4], usize) {
        ([0, 1, 2, 3].map(|i| self.slices[i].len() % NUMBER), self.result.len())
    }
}

/// Planning and checking.
pub const CALLS: [(&str, bool); 2] = [("handset_plan", false), ("handset_check", true)];

/// One case of a call.
pub fn case(seed: u64, number: u64, checks: bool) -> Case {
    Case::new(seed, number, checks)
}

/// Holds a library against the second implementation on one case: the refusal that came, or what differs.
pub fn compare(handset: &Handset, seed: u64, number: u64, checks: bool) -> Result<u64, String> {
    let case = case(seed, number, checks);
    let (ours, theirs) = (case.run(&SECOND, checks), case.run(handset, checks));
    if ours != theirs {
        let name = CALLS[usize::from(checks)].0;
        return Err(format!("{name} of {case:?}: the second implementation has {ours:?}, the library {theirs:?}"));
    }
    Ok(ours.code % 256)
}
