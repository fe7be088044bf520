//! Checking a plan drawn by anyone (01, "What a plan holds" and "Refused surveys and plans").

use crate::plan::KEPT;
use crate::{refuse, Refusal, View, AMOUNT_BYTES, MAX_AMOUNT, MAX_RECORDS, RECORD_BYTES};

/// What the checker answers with when it passes a plan.
#[derive(Clone, Copy, Debug, PartialEq, Eq)]
pub struct Passed {
    /// k.
    pub sites: u64,
    /// The kept prices.
    pub cost: u64,
    /// The sum of all moats, in halves.
    pub bound: u64,
}

/// A record's amount.
pub fn amount(record: &[u8]) -> u64 {
    u64::from_le_bytes(record[..AMOUNT_BYTES].try_into().expect("eight bytes"))
}

/// Does a record hold junction v?
pub fn holds(record: &[u8], v: usize) -> bool {
    record[AMOUNT_BYTES + v / 8] >> (v % 8) & 1 == 1
}

/// Passes the plan or gives its first refusal: 1 to 6 and 18 as in planning, then 9 to 15; each is looked for in every
/// item, from the lowest up, before the next.
pub fn check(survey: View, marks: &[u8], records: &[u8]) -> Result<Passed, Refusal> {
    survey.sound()?;
    let (n, m) = (survey.n(), survey.m());
    if marks.len() != m || !records.len().is_multiple_of(RECORD_BYTES) || records.len() / RECORD_BYTES > MAX_RECORDS {
        return refuse(9, 0);
    }
    let moats: Vec<&[u8]> = records.chunks_exact(RECORD_BYTES).collect();

    if let Some(track) = marks.iter().position(|&mark| mark > 2) {
        return refuse(10, track);
    }
    let bad = |moat: &&[u8]| {
        amount(moat) == 0 || amount(moat) > MAX_AMOUNT || (n..8 * (RECORD_BYTES - AMOUNT_BYTES)).any(|v| holds(moat, v))
    };
    if let Some(record) = moats.iter().position(bad) {
        return refuse(11, record);
    }
    let lists = survey.lists();
    let parts_a_group = |moat: &&[u8]| {
        lists.iter().any(|members| members.iter().any(|&v| holds(moat, v)) && members.iter().any(|&v| !holds(moat, v)))
    };
    if let Some(record) = moats.iter().position(|moat| !parts_a_group(moat)) {
        return refuse(12, record);
    }
    let crossing = |track: usize| -> u64 {
        let (u, v) = (survey.first[track] as usize, survey.second[track] as usize);
        moats.iter().filter(|moat| holds(moat, u) != holds(moat, v)).map(|moat| amount(moat)).sum()
    };
    if let Some(track) = (0..m).find(|&t| crossing(t) > 2 * u64::from(survey.prices[t])) {
        return refuse(13, track);
    }
    if let Some(group) = survey.unjoined(|t| marks[t] == KEPT) {
        return refuse(14, usize::from(group));
    }
    let passed = Passed {
        sites: survey.sites(),
        cost: (0..m).filter(|&t| marks[t] == KEPT).map(|t| u64::from(survey.prices[t])).sum(),
        bound: moats.iter().map(|moat| amount(moat)).sum(),
    };
    let Passed { sites, cost, bound } = passed;
    if if sites == 0 { cost != 0 } else { sites * cost > (sites - 1) * bound } {
        return refuse(15, 0);
    }
    Ok(passed)
}
