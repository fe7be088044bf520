//! Plans for the checker, sound and damaged.

use super::surveys::{overlap, refused_pairs, refused_survey, survey, Size};
use super::Rng;
use crate::check::amount;
use crate::plan::{fast, owned, Plan, KEPT};
use crate::print::moat_line;
use crate::{Survey, AMOUNT_BYTES, MAX_AMOUNT, MAX_JUNCTIONS, MAX_LINE, MAX_RECORDS, RECORD_BYTES};

/// What the checker is given.
#[derive(Clone, Debug, PartialEq, Eq)]
pub struct PlanCase {
    pub survey: Survey,
    pub marks: Vec<u8>,
    pub records: Vec<u8>,
}

/// What is done to a finished plan, and in brackets the refusals that it is made for.
#[derive(Clone, Copy, Debug, PartialEq, Eq)]
pub enum Damage {
    /// Nothing (passes).
    Nothing,
    /// The records in another order, the marks 0 and 1 exchanged (passes).
    Reordered,
    /// A moat of amount 2 or more occurs twice, its amount divided between the two (passes).
    Divided,
    /// A moat occurs twice with its full amount (13).
    Twice,
    /// A mark too many or too few (9).
    MarksLength,
    /// A record torn (9).
    RecordsLength,
    /// 896 records (9).
    TooManyRecords,
    /// A mark above 2 (10).
    HighMark,
    /// An amount 0 (11).
    NoAmount,
    /// An amount over 200,000,000 (11).
    HighAmount,
    /// A member n or more (11).
    Stranger,
    /// A moat with nobody or everybody inside, or with whole groups only (12).
    PartsNoGroup,
    /// An amount raised (13).
    Raised,
    /// A price lowered (13).
    Cheaper,
    /// A moat given another junction (13, 12, 15 or none).
    Widened,
    /// A kept track left out (14).
    LeftOut,
    /// Another track kept (15).
    KeptToo,
    /// An amount lowered (15).
    Lowered,
    /// A record left out (15).
    FewerRecords,
    /// Any byte of marks or records (any).
    AnyByte,
    /// A survey due 1 to 6, or 18.
    Survey,
}

pub const DAMAGES: [Damage; 21] = [
    Damage::Nothing,
    Damage::Reordered,
    Damage::Divided,
    Damage::Twice,
    Damage::MarksLength,
    Damage::RecordsLength,
    Damage::TooManyRecords,
    Damage::HighMark,
    Damage::NoAmount,
    Damage::HighAmount,
    Damage::Stranger,
    Damage::PartsNoGroup,
    Damage::Raised,
    Damage::Cheaper,
    Damage::Widened,
    Damage::LeftOut,
    Damage::KeptToo,
    Damage::Lowered,
    Damage::FewerRecords,
    Damage::AnyByte,
    Damage::Survey,
];

/// A record from its amount and members.
fn record(amount: u64, members: impl Iterator<Item = usize>) -> [u8; RECORD_BYTES] {
    let mut record = [0; RECORD_BYTES];
    record[..AMOUNT_BYTES].copy_from_slice(&amount.to_le_bytes());
    for v in members {
        record[AMOUNT_BYTES + v / 8] |= 1 << (v % 8);
    }
    record
}

/// A survey whose groups can all be joined, half of them with pairs, and its plan.
pub(super) fn planned(rng: &mut Rng, size: Size) -> (Survey, Plan) {
    loop {
        let mut survey = survey(rng, size);
        if rng.chance(1, 2) {
            overlap(rng, &mut survey);
        }
        if let Ok(plan) = owned(fast, survey.view()) {
            return (survey, plan);
        }
    }
}

/// A checker input of a case, and what was done to it.
pub fn damaged_plan(seed: u64, case: u64) -> (Damage, PlanCase) {
    let rng = &mut Rng::of_case(seed, case);
    let size = rng.pick(&[Size::Tiny, Size::Small, Size::Small, Size::Middle, Size::Large]);
    let (survey, plan) = planned(rng, size);
    let damage = DAMAGES[(case % DAMAGES.len() as u64) as usize];
    (damage, damaged_plan_of(rng, damage, survey, plan))
}

/// The plan of a survey, damaged. Where a damage finds nothing to work on (no moat, no track), another byte or none
/// changes.
pub fn damaged_plan_of(rng: &mut Rng, damage: Damage, mut survey: Survey, plan: Plan) -> PlanCase {
    let (n, m) = (survey.groups.len(), survey.first.len());
    let Plan { mut marks, mut records, .. } = plan;
    let count = records.len() / RECORD_BYTES;
    let one = if count == 0 { 0 } else { RECORD_BYTES * rng.below(count) };
    let whole = |records: &[u8], at: usize| -> [u8; RECORD_BYTES] {
        records[at..at + RECORD_BYTES].try_into().expect("a record")
    };
    let set_amount = |records: &mut [u8], at: usize, value: u64| {
        records[at..at + AMOUNT_BYTES].copy_from_slice(&value.to_le_bytes());
    };
    match damage {
        Damage::Nothing => {}
        Damage::Reordered => {
            let mut order: Vec<[u8; RECORD_BYTES]> = (0..count).map(|i| whole(&records, RECORD_BYTES * i)).collect();
            rng.shuffle(&mut order);
            records = order.concat();
            for mark in marks.iter_mut().filter(|mark| **mark != KEPT) {
                *mark = rng.below(2) as u8;
            }
        }
        Damage::Divided => {
            if count > 0 && count < MAX_RECORDS {
                let moat = whole(&records, one);
                if amount(&moat) >= 2 {
                    let part = rng.between(1, amount(&moat) as usize - 1) as u64;
                    set_amount(&mut records, one, amount(&moat) - part);
                    let at = records.len();
                    records.extend(moat);
                    set_amount(&mut records, at, part);
                }
            }
        }
        Damage::Twice => {
            if count > 0 {
                let moat = whole(&records, one);
                records.extend(moat);
            }
        }
        Damage::MarksLength => {
            if m > 0 && rng.chance(1, 2) {
                marks.pop();
            } else {
                marks.push(rng.below(3) as u8);
            }
        }
        Damage::RecordsLength => {
            if count > 0 && rng.chance(1, 2) {
                records.truncate(records.len() - rng.between(1, RECORD_BYTES - 1));
            } else {
                let more = rng.between(1, RECORD_BYTES - 1);
                records.resize(records.len() + more, 1);
            }
        }
        Damage::TooManyRecords => {
            let moat = if count > 0 { whole(&records, one) } else { record(1, 0..1) };
            while records.len() <= MAX_RECORDS * RECORD_BYTES {
                records.extend(moat);
            }
        }
        Damage::HighMark => {
            for _ in 0..rng.between(1, 2) {
                if m > 0 {
                    let t = rng.below(m);
                    marks[t] = if rng.chance(1, 2) { 3 } else { rng.between(3, 255) as u8 };
                }
            }
        }
        Damage::NoAmount => {
            if count > 0 {
                set_amount(&mut records, one, 0);
            } else {
                records.extend(record(0, 0..1));
            }
        }
        Damage::HighAmount => {
            let value = rng.pick(&[MAX_AMOUNT + 1, MAX_AMOUNT + 2, 1 << 32, 1 << 63, u64::MAX]);
            if count > 0 {
                set_amount(&mut records, one, value);
            } else {
                records.extend(record(value, 0..1));
            }
        }
        Damage::Stranger => {
            if n < MAX_JUNCTIONS {
                let v = if rng.chance(1, 2) { n } else { rng.between(n, MAX_JUNCTIONS - 1) };
                if count > 0 {
                    records[one + AMOUNT_BYTES + v / 8] |= 1 << (v % 8);
                } else {
                    records.extend(record(1, v..v + 1));
                }
            }
        }
        Damage::PartsNoGroup => {
            let amount = rng.between(1, 9) as u64;
            let group = survey.groups[rng.below(n)];
            let moat = match rng.below(3) {
                0 => record(amount, 0..0),
                1 => record(amount, 0..n),
                _ => record(amount, (0..n).filter(|&v| survey.groups[v] == group)),
            };
            let at = RECORD_BYTES * rng.below(count + 1);
            records.splice(at..at, moat);
        }
        Damage::Raised => {
            if count > 0 {
                let value = amount(&records[one..]);
                let by = if rng.chance(1, 2) { 1 } else { rng.between(1, 1 + MAX_AMOUNT as usize) as u64 };
                set_amount(&mut records, one, (value + by).min(MAX_AMOUNT));
            }
        }
        Damage::Cheaper => {
            if m > 0 {
                let t = rng.below(m);
                survey.prices[t] = if rng.chance(1, 2) { 0 } else { survey.prices[t].saturating_sub(1) };
            }
        }
        Damage::Widened => {
            if count > 0 {
                let v = rng.below(n);
                records[one + AMOUNT_BYTES + v / 8] ^= 1 << (v % 8);
            }
        }
        Damage::LeftOut => {
            let kept: Vec<usize> = (0..m).filter(|&t| marks[t] == KEPT).collect();
            if !kept.is_empty() {
                marks[rng.pick(&kept)] = rng.below(2) as u8;
            }
        }
        Damage::KeptToo => {
            let others: Vec<usize> = (0..m).filter(|&t| marks[t] != KEPT).collect();
            for t in others {
                if rng.chance(1, 2) {
                    marks[t] = KEPT;
                }
            }
        }
        Damage::Lowered => {
            for at in (0..count).map(|i| RECORD_BYTES * i) {
                let value = amount(&records[at..]);
                if value > 1 && rng.chance(2, 3) {
                    set_amount(&mut records, at, rng.between(1, value as usize) as u64);
                }
            }
        }
        Damage::FewerRecords => {
            if count > 0 {
                let gone = rng.between(1, count);
                for left in (count - gone..count).rev() {
                    let at = RECORD_BYTES * rng.below(left + 1);
                    records.drain(at..at + RECORD_BYTES);
                }
            }
        }
        Damage::AnyByte => {
            for _ in 0..rng.between(1, 2) {
                let at = rng.below(m + records.len() + 1);
                if at < m {
                    marks[at] = rng.below(4) as u8;
                } else if at < m + records.len() {
                    records[at - m] = rng.below(256) as u8;
                }
            }
        }
        Damage::Survey => match rng.below(9) {
            0 => survey.groups.clear(),
            1 => survey.groups.resize(MAX_JUNCTIONS + 1, 0),
            2 => drop(survey.second.pop()),
            3 => survey.prices.push(0),
            4 => {
                let more = crate::MAX_TRACKS + 1;
                survey.first.resize(more, 0);
                survey.second.resize(more, 1);
                survey.prices.resize(more, 0);
            }
            5 => refused_pairs(rng, &mut survey),
            _ => refused_survey(rng, &mut survey),
        },
    }
    PlanCase { survey, marks, records }
}

/// A record for the printer, sound or not, and the length of the buffer for its line.
pub fn moat_case(seed: u64, case: u64) -> (Vec<u8>, usize) {
    let rng = &mut Rng::of_case(seed, case);
    let value = match rng.below(5) {
        0 => rng.below(12) as u64,
        1 => 10u64.pow(rng.below(20) as u32),
        2 => 10u64.pow(rng.below(20) as u32) - 1,
        3 => rng.between(0, 2 * MAX_AMOUNT as usize) as u64,
        _ => rng.pick(&[u64::MAX, u64::MAX - 1, 1 << 63, 1 << 32, u64::from(u32::MAX)]),
    };
    let part = rng.pick(&[0, 1, 1, 8, 32, 128, 440, MAX_JUNCTIONS]);
    let chosen: Vec<usize> = (0..MAX_JUNCTIONS).filter(|_| rng.chance(part, MAX_JUNCTIONS)).collect();
    let mut record = record(value, chosen.into_iter()).to_vec();
    if rng.chance(1, 8) {
        let length = rng.pick(&[0, 1, 8, RECORD_BYTES - 1, RECORD_BYTES + 1, 2 * RECORD_BYTES]);
        record.resize(length, 1);
    }
    let mut line = [0; MAX_LINE];
    let need = moat_line(&record, &mut line).unwrap_or(0) as usize;
    let room = match rng.below(4) {
        0 => need,
        1 => need.saturating_sub(1),
        2 => rng.below(need + 1),
        _ => line.len(),
    };
    (record, room)
}
