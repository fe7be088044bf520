//! Single calls of the library, as they cross to other languages: slices in, one number out, counts in a lent buffer.
//! Each is held against the second implementation: `document` has the cases of document 01 with their answers,
//! `generated` makes inputs with two faults at once (`faults`), with lent buffers of every length that matters and any
//! bytes in them before.
//!
//! That a short buffer for counts is 7 is document 01's rule for buffers to be written; at which place of the order it
//! comes is the product's own decision (with planning's other 7s, and with the 7 of a route; in checking after 18; in
//! reading either text at the nodes line, after 1; in printing with the other 7).

pub mod document;
pub mod faults;
pub mod generated;

use crate::check::check;
use crate::closed::closed;
use crate::merge::{merge, Ties};
use crate::plan::{fast, Counts, Plan};
use crate::print::{moat_line, plan_lines, survey_text};
use crate::read::{read, Lent};
use crate::stages::{drop_tracks, grow};
use crate::stp;
use crate::why::why;
use crate::winter::winter;
use crate::{Refusal, Survey, View, RECORD_BYTES};

/// The figures of a printed plan: sites, cost, bound and rounds.
pub type Figures = [u64; 4];

/// The operations in the form that crosses.
#[derive(Clone, Copy)]
pub struct Library {
    pub read: fn(&[u8], Lent, &mut [u64]) -> u64,
    pub read_stp: fn(&[u8], stp::Lent, &mut [u64]) -> u64,
    pub plan: fn(View, &mut [u8], &mut [u8], &mut [u64]) -> u64,
    pub check: fn(View, &[u8], &[u8], &mut [u64]) -> u64,
    pub grow: fn(View, &mut [u8], &mut [u8], &mut [u64]) -> u64,
    pub drop: fn(View, &mut [u8], &mut [u64]) -> u64,
    pub winter: fn(View, &[u8], &mut [u8], &mut [u64]) -> u64,
    pub why: fn(View, u32, &mut [u32], &mut [u64]) -> u64,
    pub closed: fn(View, &[u32], &mut [u64]) -> u64,
    pub floor: fn(View, &mut [u64]) -> u64,
    pub print_moat: fn(&[u8], &mut [u8], &mut [u64]) -> u64,
    pub print_plan: fn(Figures, &[u8], &[u8], &mut [u8], &mut [u64]) -> u64,
    pub print_survey: fn(View, &mut [u8], &mut [u64]) -> u64,
    pub merge: fn(View, View, Ties, Lent, &mut [u64]) -> u64,
}

/// Entries of the counts: n, m and the number of pairs of reading, n and m of reading an STP file; sites, cost, bound,
/// rounds and moats of planning; sites, cost and bound of checking; a length of printing.
pub const READ_COUNTS: usize = 3;
pub const STP_COUNTS: usize = 2;
pub const PLAN_COUNTS: usize = 5;
pub const CHECK_COUNTS: usize = 3;
/// Sites and cost of dropping; growing has planning's.
pub const DROP_COUNTS: usize = 2;
/// Kind, list, smaller, larger, entries and round of a reason.
pub const WHY_COUNTS: usize = 6;
pub const PRINT_COUNTS: usize = 1;

/// 01: 0, or the refusal in one number.
pub fn code(refusal: Refusal) -> u64 {
    u64::from(refusal.number) + 256 * refusal.place
}

const SHORT: u64 = 7;

/// Stores the counts of an answer, or gives the refusal's number.
fn stored<const N: usize>(answer: Result<[u64; N], Refusal>, counts: &mut [u64]) -> u64 {
    match answer {
        Ok(values) => {
            counts[..N].copy_from_slice(&values);
            0
        }
        Err(refusal) => code(refusal),
    }
}

fn read_call(text: &[u8], lent: Lent, counts: &mut [u64]) -> u64 {
    if counts.len() < READ_COUNTS {
        // No group fits a buffer of no length, so this is the finding up to the nodes line, 7 if there is no other.
        return match read(text, Lent { groups: &mut [], ..lent }) {
            Ok(_) => SHORT,
            Err(refusal) => code(refusal),
        };
    }
    stored(read(text, lent), counts)
}

fn read_stp_call(text: &[u8], lent: stp::Lent, counts: &mut [u64]) -> u64 {
    if counts.len() < STP_COUNTS {
        // As in reading our own text.
        return match stp::read(text, stp::Lent { groups: &mut [], ..lent }) {
            Ok(_) => SHORT,
            Err(refusal) => code(refusal),
        };
    }
    stored(stp::read(text, lent), counts)
}

/// Out of line: inlined beside the tests before it, its large frame is set up between the test and the use of a length,
/// and rustc 1.95 loses the length.
#[inline(never)]
fn drawn(survey: View, marks: &mut [u8], records: &mut [u8]) -> Result<Counts, Refusal> {
    fast(survey, marks, records)
}

fn plan_call(survey: View, marks: &mut [u8], records: &mut [u8], counts: &mut [u64]) -> u64 {
    if let Err(refusal) = survey.sound() {
        return code(refusal);
    }
    if counts.len() < PLAN_COUNTS {
        return SHORT;
    }
    stored(drawn(survey, marks, records).map(|c| [c.sites, c.cost, c.bound, c.rounds, c.moats]), counts)
}

fn check_call(survey: View, marks: &[u8], records: &[u8], counts: &mut [u64]) -> u64 {
    if let Err(refusal) = survey.sound() {
        return code(refusal);
    }
    if counts.len() < CHECK_COUNTS {
        return SHORT;
    }
    stored(check(survey, marks, records).map(|p| [p.sites, p.cost, p.bound]), counts)
}

fn grow_call(survey: View, marks: &mut [u8], records: &mut [u8], counts: &mut [u64]) -> u64 {
    if let Err(refusal) = survey.sound() {
        return code(refusal);
    }
    if counts.len() < PLAN_COUNTS {
        return SHORT;
    }
    stored(grow(survey, marks, records).map(|c| [c.sites, c.cost, c.bound, c.rounds, c.moats]), counts)
}

fn drop_call(survey: View, marks: &mut [u8], counts: &mut [u64]) -> u64 {
    if let Err(refusal) = survey.sound() {
        return code(refusal);
    }
    if counts.len() < DROP_COUNTS {
        return SHORT;
    }
    stored(drop_tracks(survey, marks).map(|kept| [kept.sites, kept.cost]), counts)
}

fn why_call(survey: View, track: u32, route: &mut [u32], counts: &mut [u64]) -> u64 {
    if let Err(refusal) = survey.sound() {
        return code(refusal);
    }
    if counts.len() < WHY_COUNTS {
        return SHORT;
    }
    stored(why(survey, track, route).map(|r| [r.kind, r.list, r.smaller, r.larger, r.entries, r.round]), counts)
}

fn winter_call(survey: View, strengths: &[u8], copies: &mut [u8], counts: &mut [u64]) -> u64 {
    winter(survey, strengths, copies, counts).map_or_else(code, |()| 0)
}

fn closed_call(survey: View, tracks: &[u32], result: &mut [u64]) -> u64 {
    closed(survey, tracks, result).map_or_else(code, |()| 0)
}

fn floor_call(survey: View, counts: &mut [u64]) -> u64 {
    crate::floor::floor(survey, counts).map_or_else(code, |()| 0)
}

fn print_moat_call(record: &[u8], out: &mut [u8], counts: &mut [u64]) -> u64 {
    if record.len() == RECORD_BYTES && counts.len() < PRINT_COUNTS {
        return SHORT;
    }
    stored(moat_line(record, out).map(|length| [length]), counts)
}

/// A text that only a short buffer refuses.
fn printed(text: &[u8], out: &mut [u8], counts: &mut [u64]) -> u64 {
    if out.len() < text.len() || counts.len() < PRINT_COUNTS {
        return SHORT;
    }
    out[..text.len()].copy_from_slice(text);
    counts[0] = text.len() as u64;
    0
}

fn print_plan_call(figures: Figures, marks: &[u8], records: &[u8], out: &mut [u8], counts: &mut [u64]) -> u64 {
    let [sites, cost, bound, rounds] = figures;
    let plan = Plan {
        counts: Counts { sites, cost, bound, rounds, moats: 0 },
        marks: marks.to_vec(),
        records: records.to_vec(),
    };
    printed(plan_lines(&plan).as_bytes(), out, counts)
}

fn print_survey_call(survey: View, out: &mut [u8], counts: &mut [u64]) -> u64 {
    let View { groups, first, second, prices, owners, others } = survey;
    if second.len() != first.len() || prices.len() != first.len() || owners.len() != others.len() {
        return 2;
    }
    let text = survey_text(&Survey {
        groups: groups.to_vec(),
        first: first.to_vec(),
        second: second.to_vec(),
        prices: prices.to_vec(),
        owners: owners.to_vec(),
        others: others.to_vec(),
    });
    printed(&text, out, counts)
}

fn merge_call(first: View, second: View, ties: Ties, lent: Lent, counts: &mut [u64]) -> u64 {
    merge(first, second, ties, lent, counts).map_or_else(code, |()| 0)
}

/// The second implementation in that form.
pub const SECOND: Library = Library {
    read: read_call,
    read_stp: read_stp_call,
    plan: plan_call,
    check: check_call,
    grow: grow_call,
    drop: drop_call,
    winter: winter_call,
    why: why_call,
    closed: closed_call,
    floor: floor_call,
    print_moat: print_moat_call,
    print_plan: print_plan_call,
    print_survey: print_survey_call,
    merge: merge_call,
};
