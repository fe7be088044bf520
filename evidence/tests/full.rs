//! Surveys as large as can be among single calls: of 20,000 calls of an operation 100 have 448 junctions and 2,048
//! tracks, and libraries that go wrong past the 1,024th track, or at the last, are told from the second implementation
//! on these.

use evidence::calls::faults::is_full;
use evidence::calls::generated::OPERATIONS;
use evidence::calls::{Library, SECOND};
use evidence::handset::{self, Crossing, Handset};
use evidence::plan::DROPPED;
use evidence::{View, MAX_TRACKS};

const SEED: u64 = 1;
const LAST: usize = MAX_TRACKS - 1;
const HALF: usize = MAX_TRACKS / 2;

/// The full surveys among 20,000 calls.
fn full() -> impl Iterator<Item = u64> {
    (0..20_000).filter(|&case| is_full(case))
}

fn is_found(name: &str, library: &Library) -> bool {
    let operation = OPERATIONS.iter().find(|operation| operation.name == name).expect("an operation");
    full().any(|case| operation.compare(library, SEED, case).is_err())
}

/// What a call answers with the last mark changed where it is the one that goes unseen.
fn unseen(marks: &[u8], above: u8) -> Vec<u8> {
    let mut marks = marks.to_vec();
    if marks.len() == MAX_TRACKS && marks[LAST] > above {
        marks[LAST] = 0;
    }
    marks
}

fn last_mark_passed(survey: View, marks: &[u8], records: &[u8], counts: &mut [u64]) -> u64 {
    (SECOND.check)(survey, &unseen(marks, 2), records, counts)
}

fn last_two_accepted(survey: View, marks: &mut [u8], counts: &mut [u64]) -> u64 {
    let mut own = unseen(marks, DROPPED);
    let answer = (SECOND.drop)(survey, &mut own, counts);
    if answer == 0 {
        marks.copy_from_slice(&own);
    }
    answer
}

fn last_loop_unnamed(survey: View, marks: &mut [u8], counts: &mut [u64]) -> u64 {
    match (SECOND.drop)(survey, marks, counts) {
        answer if answer == 21 + 256 * LAST as u64 => last_pick_ignored(survey, marks, counts),
        answer => answer,
    }
}

fn last_pick_ignored(survey: View, marks: &mut [u8], counts: &mut [u64]) -> u64 {
    let mut own = unseen(marks, 0);
    (SECOND.drop)(survey, &mut own, counts)
}

/// The survey with the prices past the 1,024th at 0.
fn cheap(survey: View) -> Vec<u32> {
    survey.prices.iter().enumerate().map(|(t, &price)| if t < HALF { price } else { 0 }).collect()
}

fn later_prices_lost(survey: View, marks: &mut [u8], records: &mut [u8], counts: &mut [u64]) -> u64 {
    (SECOND.plan)(View { prices: &cheap(survey), ..survey }, marks, records, counts)
}

fn later_prices_lost_in_growing(survey: View, marks: &mut [u8], records: &mut [u8], counts: &mut [u64]) -> u64 {
    (SECOND.grow)(View { prices: &cheap(survey), ..survey }, marks, records, counts)
}

fn last_price_unseen(survey: View, marks: &mut [u8], records: &mut [u8], counts: &mut [u64]) -> u64 {
    match (SECOND.plan)(survey, marks, records, counts) {
        answer if answer == 6 + 256 * LAST as u64 => 0,
        answer => answer,
    }
}

/// The numbers past the 1,024th read as 0.
fn halved(numbers: &[u8]) -> Vec<u8> {
    numbers.iter().enumerate().map(|(at, &byte)| if at < 4 * HALF { byte } else { 0 }).collect()
}

fn later_numbers_lost(c: Crossing, then: impl FnOnce(Crossing) -> u64) -> u64 {
    let [first, second, prices] = [c.first, c.second, c.prices].map(halved);
    then(Crossing { first: &first, second: &second, prices: &prices, ..c })
}

fn handset_plan(c: Crossing, marks: &mut [u8], records: &mut [u8], result: &mut [u8]) -> u64 {
    later_numbers_lost(c, |c| (handset::SECOND.plan)(c, marks, records, result))
}

fn handset_check(c: Crossing, marks: &[u8], records: &[u8], result: &mut [u8]) -> u64 {
    later_numbers_lost(c, |c| (handset::SECOND.check)(c, marks, records, result))
}

fn handset_prices(c: Crossing, marks: &mut [u8], records: &mut [u8], result: &mut [u8]) -> u64 {
    (handset::SECOND.plan)(Crossing { prices: &halved(c.prices), ..c }, marks, records, result)
}

#[test]
fn faults_past_the_half_are_found() {
    assert_eq!(full().count(), 100);
    for (name, operation, library) in [
        ("a mark 3 at track 2,047 passed", "check", Library { check: last_mark_passed, ..SECOND }),
        ("a mark 2 at track 2,047 accepted", "drop", Library { drop: last_two_accepted, ..SECOND }),
        ("a loop closed by track 2,047 not named", "drop", Library { drop: last_loop_unnamed, ..SECOND }),
        ("prices past the 1,024th lost", "plan", Library { plan: later_prices_lost, ..SECOND }),
        ("prices past the 1,024th lost", "grow", Library { grow: later_prices_lost_in_growing, ..SECOND }),
        ("the price of track 2,047 not looked at", "plan", Library { plan: last_price_unseen, ..SECOND }),
    ] {
        assert!(is_found(operation, &library), "{name} in {operation} is not found");
    }
    for (name, checks, library) in [
        ("numbers past the 1,024th as 0", false, Handset { plan: handset_plan, ..handset::SECOND }),
        ("numbers past the 1,024th as 0", true, Handset { check: handset_check, ..handset::SECOND }),
        ("prices past the 1,024th as 0", false, Handset { plan: handset_prices, ..handset::SECOND }),
    ] {
        let found = full().any(|case| handset::compare(&library, SEED, case, checks).is_err());
        assert!(found, "{name} in {} is not found", handset::CALLS[usize::from(checks)].0);
    }
}

/// Without the full surveys none of these faults is seen.
#[test]
fn small_surveys_do_not_tell() {
    let check = Library { check: last_mark_passed, ..SECOND };
    let handset = Handset { plan: handset_plan, ..handset::SECOND };
    for case in (0..4_000).filter(|&case| !is_full(case)) {
        for operation in OPERATIONS.iter().filter(|operation| operation.name == "check") {
            assert!(operation.compare(&check, SEED, case).is_ok());
        }
        assert!(handset::compare(&handset, SEED, case, false).is_ok());
    }
}
