//! The handset's calls, a second time: cases worked by hand from No. 1's sentences; the generated cases meet every
//! refusal, every length modulo four and the results around 24 and 40 bytes; and libraries with one fault each are told
//! from the second implementation.

use evidence::calls::code;
use evidence::check::check;
use evidence::handset::{
    case, compare, crossed, numbers, put, Crossing, Handset, CALLS, CHECK_RESULT, PLAN_RESULT, SECOND,
};
use evidence::{Survey, View, MAX_JUNCTIONS, RECORD_BYTES};
use std::collections::BTreeSet;

const SEED: u64 = 5;
const CASES: u64 = 3_000;

/// P3's survey as it crosses.
struct P3 {
    first: Vec<u8>,
    second: Vec<u8>,
    prices: Vec<u8>,
}

impl P3 {
    fn new() -> P3 {
        P3 {
            first: vec![0, 0, 0, 0, 1, 0, 0, 0],
            second: vec![1, 0, 0, 0, 2, 0, 0, 0],
            prices: vec![3, 0, 0, 0, 4, 0, 0, 0],
        }
    }

    fn crossing(&self) -> Crossing<'_> {
        Crossing {
            groups: &[1, 0, 1],
            first: &self.first,
            second: &self.second,
            prices: &self.prices,
            owners: &[],
            others: &[],
        }
    }
}

#[test]
fn p3_crosses() {
    let p3 = P3::new();
    let (mut marks, mut records, mut result) = ([9; 3], [9; 5 * RECORD_BYTES + 1], [9; 41]);
    assert_eq!((SECOND.plan)(p3.crossing(), &mut marks, &mut records, &mut result), 0);
    let mut expected = [0; 41];
    (expected[0], expected[8], expected[16], expected[24], expected[32], expected[40]) = (2, 7, 14, 2, 3, 9);
    assert_eq!((result, marks), (expected, [2, 2, 9]));
    let mut found = [9; 24];
    assert_eq!((SECOND.check)(p3.crossing(), &marks[..2], &records[..3 * RECORD_BYTES], &mut found), 0);
    assert_eq!(found, expected[..24]);
}

#[test]
fn refusals_worked_by_hand() {
    let plan = |crossing: Crossing, result: usize| {
        let (mut marks, mut records, mut out) = ([9; 2], [9; 5 * RECORD_BYTES], vec![9; result]);
        let answer = (SECOND.plan)(crossing, &mut marks, &mut records, &mut out);
        if answer != 0 {
            assert!(marks.iter().chain(&records).chain(&out).all(|&b| b == 9));
        }
        answer
    };
    let check =
        |crossing: Crossing, marks: &[u8], result: usize| (SECOND.check)(crossing, marks, &[], &mut vec![9; result]);
    let p3 = P3::new();
    let seven = [p3.first.clone(), vec![0; 3]].concat();
    // 1 before a ragged slice; a ragged slice before 3; ragged pairs too
    assert_eq!(plan(Crossing { groups: &[], first: &seven, ..p3.crossing() }, 40), 1);
    assert_eq!(plan(Crossing { first: &seven, ..p3.crossing() }, 40), 2);
    assert_eq!(plan(Crossing { first: &[0; 8197], second: &[0; 8196], prices: &[0; 8196], ..p3.crossing() }, 40), 2);
    assert_eq!(plan(Crossing { first: &[0; 8196], second: &[0; 8196], prices: &[0; 8196], ..p3.crossing() }, 40), 3);
    assert_eq!(plan(Crossing { owners: &[0; 3], ..p3.crossing() }, 40), 2);
    // 4 at track 1; 7 with a result of 39 bytes, after 4 and before 8
    assert_eq!(plan(Crossing { second: &[1, 0, 0, 0, 2, 1, 0, 0], ..p3.crossing() }, 39), 4 + 256);
    assert_eq!(plan(p3.crossing(), 39), 7);
    let apart = Crossing { first: &[], second: &[], prices: &[], ..p3.crossing() };
    assert_eq!((plan(apart, 39), plan(apart, 40)), (7, 8 + 256));
    // checking: 7 with 23 bytes, before 9
    assert_eq!((check(p3.crossing(), &[2], 23), check(p3.crossing(), &[2], 24)), (7, 9));
}

#[test]
fn every_refusal_and_length_is_met() {
    for ((_, checks), want) in
        CALLS.into_iter().zip([vec![0, 1, 2, 3, 4, 5, 6, 7, 8, 18], (0..=15).chain([18]).filter(|&n| n != 8).collect()])
    {
        let (mut came, mut modulo, mut results) = (BTreeSet::new(), BTreeSet::new(), BTreeSet::new());
        for number in 0..CASES {
            came.insert(compare(&SECOND, SEED, number, checks).unwrap());
            let (lengths, result) = case(SEED, number, checks).lengths();
            modulo.extend(lengths.iter().enumerate().map(|(i, &length)| (i, length)));
            results.insert(result);
        }
        assert_eq!(came.into_iter().collect::<Vec<_>>(), want);
        assert_eq!(modulo.len(), 16);
        assert!([0, 23, 24, 39, 40, 41].iter().all(|length| results.contains(length)));
    }
}

// ---- libraries with one fault each

fn with(crossing: Crossing, call: impl Fn(Crossing) -> u64, change: impl Fn(&mut [Vec<u8>; 4])) -> u64 {
    let mut slices = [crossing.first, crossing.second, crossing.prices, crossing.owners].map(<[u8]>::to_vec);
    change(&mut slices);
    let [first, second, prices, owners] = &slices;
    call(Crossing { first, second, prices, owners, ..crossing })
}

fn whole(slices: &mut [Vec<u8>; 4]) {
    slices.iter_mut().for_each(|slice| slice.truncate(slice.len() / 4 * 4));
}

fn highest_first(slices: &mut [Vec<u8>; 4]) {
    slices.iter_mut().for_each(|slice| slice.chunks_exact_mut(4).for_each(<[u8]>::reverse));
}

fn highest_byte_first(c: Crossing, marks: &mut [u8], records: &mut [u8], result: &mut [u8]) -> u64 {
    let marks = std::cell::RefCell::new((marks, records, result));
    with(
        c,
        |c| {
            let (marks, records, result) = &mut *marks.borrow_mut();
            (SECOND.plan)(c, marks, records, result)
        },
        highest_first,
    )
}

fn ragged_accepted(c: Crossing, marks: &mut [u8], records: &mut [u8], result: &mut [u8]) -> u64 {
    let lent = std::cell::RefCell::new((marks, records, result));
    with(
        c,
        |c| {
            let (marks, records, result) = &mut *lent.borrow_mut();
            (SECOND.plan)(c, marks, records, result)
        },
        whole,
    )
}

fn ragged_before_one(c: Crossing, marks: &mut [u8], records: &mut [u8], result: &mut [u8]) -> u64 {
    if c.is_ragged() {
        return 2;
    }
    (SECOND.plan)(c, marks, records, result)
}

fn ragged_after_three(c: Crossing, marks: &mut [u8], records: &mut [u8], result: &mut [u8]) -> u64 {
    if c.first.len() / 4 > 2_048 && (1..=MAX_JUNCTIONS).contains(&c.groups.len()) {
        return 3;
    }
    (SECOND.plan)(c, marks, records, result)
}

fn ragged_pairs_accepted(c: Crossing, marks: &mut [u8], records: &mut [u8], result: &mut [u8]) -> u64 {
    (SECOND.plan)(Crossing { owners: &c.owners[..c.owners.len() / 4 * 4], ..c }, marks, records, result)
}

fn place_dropped(c: Crossing, marks: &mut [u8], records: &mut [u8], result: &mut [u8]) -> u64 {
    (SECOND.plan)(c, marks, records, result) % 256
}

fn cost_and_bound_swapped(c: Crossing, marks: &mut [u8], records: &mut [u8], result: &mut [u8]) -> u64 {
    let answer = (SECOND.plan)(c, marks, records, result);
    if answer == 0 {
        let cost: [u8; 8] = result[8..16].try_into().unwrap();
        result.copy_within(16..24, 8);
        result[16..24].copy_from_slice(&cost);
    }
    answer
}

fn counts_highest_first(c: Crossing, marks: &mut [u8], records: &mut [u8], result: &mut [u8]) -> u64 {
    let answer = (SECOND.plan)(c, marks, records, result);
    if answer == 0 {
        result[..PLAN_RESULT].chunks_exact_mut(8).for_each(<[u8]>::reverse);
    }
    answer
}

fn counts_of_four_bytes(c: Crossing, marks: &mut [u8], records: &mut [u8], result: &mut [u8]) -> u64 {
    let before = result.to_vec();
    let answer = (SECOND.plan)(c, marks, records, result);
    if answer == 0 {
        let low: Vec<u8> = result[..PLAN_RESULT].chunks_exact(8).flat_map(|count| count[..4].to_vec()).collect();
        result.copy_from_slice(&before);
        result[..low.len()].copy_from_slice(&low);
    }
    answer
}

fn result_written_on_8(c: Crossing, marks: &mut [u8], records: &mut [u8], result: &mut [u8]) -> u64 {
    let answer = (SECOND.plan)(c, marks, records, result);
    if answer % 256 == 8 {
        put(result, &[0; 5]);
    }
    answer
}

fn short_result_accepted(c: Crossing, marks: &mut [u8], records: &mut [u8], result: &mut [u8]) -> u64 {
    let mut long = [0; PLAN_RESULT];
    if (CHECK_RESULT..PLAN_RESULT).contains(&result.len()) {
        let answer = (SECOND.plan)(c, marks, records, &mut long);
        if answer == 0 {
            result[..CHECK_RESULT].copy_from_slice(&long[..CHECK_RESULT]);
        }
        return answer;
    }
    (SECOND.plan)(c, marks, records, result)
}

fn later_bytes_zeroed(c: Crossing, marks: &mut [u8], records: &mut [u8], result: &mut [u8]) -> u64 {
    let answer = (SECOND.plan)(c, marks, records, result);
    if answer == 0 {
        result[PLAN_RESULT..].fill(0);
    }
    answer
}

fn eight_before_seven(c: Crossing, marks: &mut [u8], records: &mut [u8], result: &mut [u8]) -> u64 {
    let answer = (SECOND.plan)(c, marks, records, result);
    let survey = c.survey();
    match survey.view().unjoined_of(answer) {
        Some(group) => 8 + 256 * u64::from(group),
        None => answer,
    }
}

/// Of a survey that got 7: the lowest group that no tracks join.
trait Unjoined {
    fn unjoined_of(&self, answer: u64) -> Option<u8>;
}

impl Unjoined for View<'_> {
    fn unjoined_of(&self, answer: u64) -> Option<u8> {
        if answer == 7 {
            self.unjoined(|_| true)
        } else {
            None
        }
    }
}

fn seven_after_nine(c: Crossing, marks: &[u8], records: &[u8], result: &mut [u8]) -> u64 {
    let answer = (SECOND.check)(c, marks, records, result);
    if answer == 7 {
        let survey: Survey = c.survey();
        return check(survey.view(), marks, records).map_or_else(code, |_| 7);
    }
    answer
}

fn five_counts_wanted(c: Crossing, marks: &[u8], records: &[u8], result: &mut [u8]) -> u64 {
    let mut long = [0; PLAN_RESULT];
    match (SECOND.check)(c, marks, records, &mut long) {
        0 if result.len() < PLAN_RESULT => 7,
        _ => (SECOND.check)(c, marks, records, result),
    }
}

fn check_of_zero_prices(c: Crossing, marks: &[u8], records: &[u8], result: &mut [u8]) -> u64 {
    let prices = crossed(&numbers(c.prices).iter().map(|p| p & 0xff_ffff).collect::<Vec<_>>());
    let prices = [prices, c.prices[c.prices.len() / 4 * 4..].to_vec()].concat();
    (SECOND.check)(Crossing { prices: &prices, ..c }, marks, records, result)
}

#[test]
fn faults_are_found() {
    let plans: [(&str, fn(Crossing, &mut [u8], &mut [u8], &mut [u8]) -> u64); 14] = [
        ("highest byte first", highest_byte_first),
        ("ragged accepted", ragged_accepted),
        ("ragged before 1", ragged_before_one),
        ("ragged after 3", ragged_after_three),
        ("ragged pairs accepted", ragged_pairs_accepted),
        ("place dropped", place_dropped),
        ("cost and bound swapped", cost_and_bound_swapped),
        ("counts highest first", counts_highest_first),
        ("counts of four bytes", counts_of_four_bytes),
        ("result written on 8", result_written_on_8),
        ("short result accepted", short_result_accepted),
        ("later bytes zeroed", later_bytes_zeroed),
        ("8 before 7", eight_before_seven),
        ("itself", SECOND.plan),
    ];
    for (name, plan) in plans {
        let differs = (0..CASES).any(|number| compare(&Handset { plan, ..SECOND }, SEED, number, false).is_err());
        assert_eq!(differs, name != "itself", "{name}");
    }
    let checks: [(&str, fn(Crossing, &[u8], &[u8], &mut [u8]) -> u64); 4] = [
        ("7 after 9", seven_after_nine),
        ("five counts wanted", five_counts_wanted),
        ("prices of three bytes", check_of_zero_prices),
        ("itself", SECOND.check),
    ];
    for (name, check) in checks {
        let differs = (0..CASES).any(|number| compare(&Handset { check, ..SECOND }, SEED, number, true).is_err());
        assert_eq!(differs, name != "itself", "{name}");
    }
}
