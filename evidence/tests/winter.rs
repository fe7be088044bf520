//! Winter rules (No. 13): copies worked by hand, refusals in their order, strengths of 1, the accuracy rule against the
//! cheapest copies of tiny surveys, and libraries with a fault each.

use evidence::brute::{cheapest_copies, divisions};
use evidence::calls::code;
use evidence::calls::generated::{any_strengths, OPERATIONS};
use evidence::calls::{Library, SECOND};
use evidence::gen::{overlap, survey, tiny, Rng, Size};
use evidence::plan::{owned, reference, KEPT};
use evidence::winter::{admitted, copies_of, price, run, winter, winter_program, MAX_STRENGTH, STRENGTHS};
use evidence::{refuse, Refusal, Survey, View};
use std::collections::BTreeSet;

/// These strengths of the lowest groups, and 1 for all others.
fn strengths(lowest: &[u8]) -> Vec<u8> {
    let mut strengths = vec![1; STRENGTHS];
    strengths[..lowest.len()].copy_from_slice(lowest);
    strengths
}

#[test]
fn by_hand() {
    let ask = |survey: &Survey, lowest: &[u8]| {
        let (mut copies, mut counts) = (vec![9; survey.first.len() + 1], [9, 9]);
        winter(survey.view(), &strengths(lowest), &mut copies, &mut counts).expect("it can be joined");
        assert_eq!((copies.pop(), counts[1]), (Some(9), 9));
        (copies, counts[0])
    };
    // P2: one track, copied as often as the strength says.
    let p2 = Survey::new(&[1, 1], &[(0, 1, 5)]);
    for strength in 1..=MAX_STRENGTH {
        assert_eq!(ask(&p2, &[strength]), (vec![strength], 5 * u64::from(strength)));
    }
    // P4: each bit's plan keeps tracks 0 and 1.
    let p4 = Survey::new(&[1, 1, 1], &[(0, 1, 1), (1, 2, 1), (0, 2, 1)]);
    assert_eq!(ask(&p4, &[5]), (vec![5, 5, 0], 10));
    // P10: group 1 by the lowest bit, group 2 by the next; the middle track for both.
    let p10 = Survey::new(&[1, 2, 1, 2], &[(0, 1, 4), (1, 2, 2), (2, 3, 4)]);
    assert_eq!(ask(&p10, &[1, 2]), (vec![1, 3, 2], 4 + 6 + 8));
    assert_eq!(ask(&p10, &[12, 9]), (vec![12, 13, 9], 48 + 26 + 36));
    // Junction 1 is in list 2 by a pair alone: without bit 0 of group 1 it is no member of it.
    let paired = Survey::new(&[1, 1, 2], &[(0, 1, 3), (1, 2, 5)]).with_pairs(&[(1, 2)]);
    assert_eq!(ask(&paired, &[1, 2]), (vec![1, 2], 13));
    // P7 and P1: no sites.
    assert_eq!(ask(&Survey::new(&[1, 2], &[(0, 1, 4)]), &[15, 15]), (vec![0], 0));
    assert_eq!(ask(&Survey::new(&[0], &[]), &[7]), (vec![], 0));
}

#[test]
fn refusals_in_their_order() {
    let sound = Survey::new(&[1, 1, 2, 2], &[(0, 1, 5), (2, 3, 5)]);
    let ask = |survey: View, strengths: &[u8], room: usize, counts: usize| {
        let (mut copies, mut counts) = (vec![7; room], vec![7; counts]);
        let answer = winter(survey, strengths, &mut copies, &mut counts);
        assert!(answer.is_ok() || copies.iter().all(|&many| many == 7) && counts.iter().all(|&many| many == 7));
        answer
    };
    let refused = |number, place| Err(Refusal { number, place });
    let ones = strengths(&[]);
    assert_eq!(ask(sound.view(), &ones, 2, 1), Ok(()));
    // A list of another length, whatever stands in it, before the strengths.
    for length in [0, 254, 256] {
        assert_eq!(ask(sound.view(), &vec![0; length], 0, 0), refused(24, 0));
    }
    // The lowest group, counted from 1, with or without members.
    for group in [1, 3, 9, 255] {
        for strength in [0, 16, 255] {
            let mut bad = ones.clone();
            (bad[group - 1], bad[254]) = (strength, 0);
            assert_eq!(ask(sound.view(), &bad, 0, 0), refused(24, group as u64));
        }
    }
    assert_eq!(ask(sound.view(), &ones, 1, 1), refused(7, 0));
    assert_eq!(ask(sound.view(), &ones, 2, 0), refused(7, 0));
    // 18 before 24, 24 before 7, 7 before 8; 8 at the lowest group of the survey, which has no bit 0.
    assert_eq!(ask(View { owners: &[0], others: &[1], ..sound.view() }, &[], 0, 0), refused(18, 0));
    let apart = Survey::new(&[1, 1, 2, 2], &[]);
    assert_eq!(ask(apart.view(), &strengths(&[2, 1]), 0, 0), refused(7, 0));
    assert_eq!(ask(apart.view(), &strengths(&[2, 1]), 0, 1), refused(8, 1));
}

#[test]
fn strengths_of_one_are_planning() {
    for case in 0..2_000 {
        let rng = &mut Rng::of_case(13, case);
        let size = rng.pick(&[Size::Tiny, Size::Small, Size::Middle]);
        let mut survey = survey(rng, size);
        if rng.chance(1, 2) {
            overlap(rng, &mut survey);
        }
        let Ok(plan) = owned(reference, survey.view()) else { continue };
        let copies = copies_of(survey.view(), &strengths(&[]));
        let kept: Vec<u8> = plan.marks.iter().map(|&mark| u8::from(mark == KEPT)).collect();
        assert_eq!((&copies, price(survey.view(), &copies)), (&kept, plan.counts.cost), "{survey:?}");
    }
}

/// A tiny survey of at most six tracks whose groups can be joined, with strengths.
fn with_strengths(case: u64) -> (Survey, Vec<u8>) {
    let rng = &mut Rng::of_case(1_300, case);
    let survey = loop {
        let survey = tiny(rng);
        if survey.first.len() <= 6 && survey.view().sites() > 0 {
            break survey;
        }
    };
    (survey, any_strengths(rng))
}

/// The copies cross every division as often as each group wants that has members on both sides, and k times their price
/// is at most 4 (2k - 2) times that of the cheapest copies that do so.
#[test]
fn accurate_copies() {
    let (mut dearer, mut strong) = (0, 0);
    for case in 0..1_500 {
        let (survey, strengths) = with_strengths(case);
        let (view, copies) = (survey.view(), copies_of(survey.view(), &strengths));
        let divisions = divisions(view, |group| strengths[group - 1]);
        for division in &divisions {
            let crossed: u64 = division.crossing.iter().map(|&t| u64::from(copies[t])).sum();
            assert!(crossed >= division.strength, "{survey:?} {strengths:?}: {copies:?} at {division:?}");
        }
        let most = u64::from(MAX_STRENGTH);
        let best = cheapest_copies(view, &divisions, most).expect("as many copies of every track meet it");
        let (k, ours) = (view.sites(), price(view, &copies));
        assert!(best <= ours && k * ours <= 4 * (2 * k - 2) * best, "{survey:?} {strengths:?}: {ours}, {best}");
        dearer += u64::from(ours > best);
        strong += u64::from(divisions.iter().any(|division| division.strength > 1));
    }
    // The cheapest are often cheaper, so that the rule is tried, and often more than one copy is wanted.
    assert!(dearer > 100 && strong > 1_000, "{dearer} {strong}");
}

/// That the trial of copies finds the cheapest: by hand, and where one copy is enough, as the cheapest joining set.
#[test]
fn cheapest_copies_are_found() {
    // Three sites in a triangle, two copies for each division: one of each track, not two of two.
    let triangle = Survey::new(&[1, 1, 1], &[(0, 1, 1), (1, 2, 1), (0, 2, 1)]);
    assert_eq!(cheapest_copies(triangle.view(), &divisions(triangle.view(), |_| 2), 15), Some(3));
    assert_eq!(cheapest_copies(triangle.view(), &divisions(triangle.view(), |_| 3), 15), Some(5));
    assert_eq!(cheapest_copies(triangle.view(), &divisions(triangle.view(), |_| 3), 1), None);
    for case in 0..300 {
        let (survey, _) = with_strengths(case);
        let copies = cheapest_copies(survey.view(), &divisions(survey.view(), |_| 1), 15);
        assert_eq!(copies, evidence::brute::cheapest(survey.view()), "{survey:?}");
    }
}

// ---- libraries with one fault each

/// Where nothing is refused, other copies in place of these, and their price.
fn instead(
    survey: View,
    strengths: &[u8],
    copies: &mut [u8],
    counts: &mut [u64],
    other: impl Fn(&[u8]) -> Vec<u8>,
) -> u64 {
    let answer = (SECOND.winter)(survey, strengths, copies, counts);
    if answer == 0 {
        let made = other(&copies[..survey.m()]);
        copies[..survey.m()].copy_from_slice(&made);
        counts[0] = price(survey, &made);
    }
    answer
}

/// The copies for other strengths.
fn as_if(survey: View, strengths: &[u8], copies: &mut [u8], counts: &mut [u64], other: fn(u8) -> u8) -> u64 {
    let others: Vec<u8> = strengths.iter().map(|&strength| other(strength)).collect();
    instead(survey, strengths, copies, counts, |_| copies_of(survey, &others))
}

fn four_for_the_highest_bit(survey: View, strengths: &[u8], copies: &mut [u8], counts: &mut [u64]) -> u64 {
    instead(survey, strengths, copies, counts, |copies| {
        copies.iter().map(|&c| if c >= 8 { c - 4 } else { c }).collect()
    })
}

/// 003's other way: as often as a group's strength, for each step between the strengths that there are.
fn by_steps(survey: View, strengths: &[u8], copies: &mut [u8], counts: &mut [u64]) -> u64 {
    instead(survey, strengths, copies, counts, |_| {
        let mut sum = vec![0; survey.m()];
        for step in 1..=MAX_STRENGTH {
            let these: Vec<u8> = strengths.iter().map(|&strength| u8::from(strength >= step)).collect();
            sum.iter_mut().zip(copies_of(survey, &these)).for_each(|(sum, more)| *sum += more);
        }
        sum
    })
}

/// Pairs as they are, own groups without the bit left out; or the other way round.
fn half_filtered(survey: View, strengths: &[u8], own: bool) -> Vec<u8> {
    let mut copies = vec![0; survey.m()];
    for bit in 0..4 {
        let has = |group: u8| group > 0 && strengths[usize::from(group) - 1] >> bit & 1 == 1;
        let groups: Vec<u8> = survey.groups.iter().map(|&g| if own && !has(g) { 0 } else { g }).collect();
        let pairs = survey.owners.iter().zip(survey.others).filter(|(_, &group)| own || has(group));
        let (owners, others): (Vec<u32>, Vec<u8>) = pairs.map(|(&v, &group)| (v, group)).unzip();
        let part = View { groups: &groups, owners: &owners, others: &others, ..survey };
        let plan = owned(reference, part).expect("every group can be joined");
        (0..survey.m()).filter(|&t| plan.marks[t] == KEPT).for_each(|t| copies[t] += 1 << bit);
    }
    copies
}

fn pairs_not_filtered(survey: View, strengths: &[u8], copies: &mut [u8], counts: &mut [u64]) -> u64 {
    instead(survey, strengths, copies, counts, |_| half_filtered(survey, strengths, true))
}

fn own_not_filtered(survey: View, strengths: &[u8], copies: &mut [u8], counts: &mut [u64]) -> u64 {
    instead(survey, strengths, copies, counts, |_| half_filtered(survey, strengths, false))
}

fn four_plans_of_the_survey(survey: View, strengths: &[u8], copies: &mut [u8], counts: &mut [u64]) -> u64 {
    let most = strengths.iter().copied().max().unwrap_or(0);
    instead(survey, strengths, copies, counts, |_| copies_of(survey, &[most; STRENGTHS]))
}

fn members_alone_judged(survey: View, strengths: &[u8], copies: &mut [u8], counts: &mut [u64]) -> u64 {
    if survey.sound().is_err() || strengths.len() != STRENGTHS {
        return (SECOND.winter)(survey, strengths, copies, counts);
    }
    let members = survey.members_by_group();
    let judged: Vec<u8> = (1..=STRENGTHS).map(|g| if members[g].is_empty() { 1 } else { strengths[g - 1] }).collect();
    (SECOND.winter)(survey, &judged, copies, counts)
}

fn place_from_zero(survey: View, strengths: &[u8], copies: &mut [u8], counts: &mut [u64]) -> u64 {
    match (SECOND.winter)(survey, strengths, copies, counts) {
        answer if answer % 256 == 24 && answer > 256 => answer - 256,
        answer => answer,
    }
}

/// The refusal that a survey without faults of its own has by a later rule, before 24 or 7.
fn early(survey: View, then: impl FnOnce() -> u64, due: impl FnOnce() -> Option<u64>) -> u64 {
    match survey.sound() {
        Ok(()) => due().unwrap_or_else(then),
        Err(_) => then(),
    }
}

fn eight(survey: View) -> Option<u64> {
    survey.unjoined(|_| true).map(|group| 8 + 256 * u64::from(group))
}

/// 8 at the lowest group of the lowest bit that has one.
fn eight_of_a_bit(survey: View, strengths: &[u8], copies: &mut [u8], counts: &mut [u64]) -> u64 {
    let answer = (SECOND.winter)(survey, strengths, copies, counts);
    if answer % 256 != 8 {
        return answer;
    }
    let (members, component) = (survey.members_by_group(), survey.components(|_| true));
    let apart = |group: &usize| members[*group].iter().any(|&v| component[v] != component[members[*group][0]]);
    let of_bit = |bit: u32| (1..=STRENGTHS).filter(apart).find(|&group| strengths[group - 1] >> bit & 1 == 1);
    (0..4).find_map(of_bit).map_or(answer, |group| 8 + 256 * group as u64)
}

fn seven_before_24(survey: View, strengths: &[u8], copies: &mut [u8], counts: &mut [u64]) -> u64 {
    let short = copies.len() < survey.m() || counts.is_empty();
    early(survey, || (SECOND.winter)(survey, strengths, copies, counts), || short.then_some(7))
}

fn eight_before_24(survey: View, strengths: &[u8], copies: &mut [u8], counts: &mut [u64]) -> u64 {
    early(survey, || (SECOND.winter)(survey, strengths, copies, counts), || eight(survey))
}

fn eight_before_seven(survey: View, strengths: &[u8], copies: &mut [u8], counts: &mut [u64]) -> u64 {
    match (SECOND.winter)(survey, strengths, copies, counts) {
        7 => eight(survey).unwrap_or(7),
        answer => answer,
    }
}

fn eighteen_after_24(survey: View, strengths: &[u8], copies: &mut [u8], counts: &mut [u64]) -> u64 {
    match (survey.sound(), admitted(View { owners: &[], others: &[], ..survey }, strengths)) {
        (Err(Refusal { number: 18, .. }), Err(refusal)) => code(refusal),
        _ => (SECOND.winter)(survey, strengths, copies, counts),
    }
}

fn longer_list_taken(survey: View, strengths: &[u8], copies: &mut [u8], counts: &mut [u64]) -> u64 {
    (SECOND.winter)(survey, &strengths[..strengths.len().min(STRENGTHS)], copies, counts)
}

fn length_at_the_end(survey: View, strengths: &[u8], copies: &mut [u8], counts: &mut [u64]) -> u64 {
    match strengths.iter().position(|strength| !(1..=15).contains(strength)) {
        Some(index) if survey.sound().is_ok() => refuse::<()>(24, index + 1).map_or_else(code, |()| 0),
        _ => (SECOND.winter)(survey, strengths, copies, counts),
    }
}

fn sixteen_taken(survey: View, strengths: &[u8], copies: &mut [u8], counts: &mut [u64]) -> u64 {
    let lower: Vec<u8> = strengths.iter().map(|&strength| if strength == 16 { 15 } else { strength }).collect();
    (SECOND.winter)(survey, &lower, copies, counts)
}

fn zero_taken(survey: View, strengths: &[u8], copies: &mut [u8], counts: &mut [u64]) -> u64 {
    let higher: Vec<u8> = strengths.iter().map(|&strength| strength.max(1)).collect();
    (SECOND.winter)(survey, &higher, copies, counts)
}

fn short_counts_taken(survey: View, strengths: &[u8], copies: &mut [u8], counts: &mut [u64]) -> u64 {
    match counts {
        [] => (SECOND.winter)(survey, strengths, copies, &mut [0]),
        _ => (SECOND.winter)(survey, strengths, copies, counts),
    }
}

fn each_price_once(survey: View, strengths: &[u8], copies: &mut [u8], counts: &mut [u64]) -> u64 {
    let answer = (SECOND.winter)(survey, strengths, copies, counts);
    if answer == 0 {
        let once: Vec<u8> = copies[..survey.m()].iter().map(|&many| many.min(1)).collect();
        counts[0] = price(survey, &once);
    }
    answer
}

fn price_of_32_bits(survey: View, strengths: &[u8], copies: &mut [u8], counts: &mut [u64]) -> u64 {
    let answer = (SECOND.winter)(survey, strengths, copies, counts);
    if answer == 0 {
        counts[0] &= u64::from(u32::MAX);
    }
    answer
}

fn rest_zeroed(survey: View, strengths: &[u8], copies: &mut [u8], counts: &mut [u64]) -> u64 {
    let answer = (SECOND.winter)(survey, strengths, copies, counts);
    if answer == 0 {
        copies[survey.m()..].fill(0);
    }
    answer
}

fn added_to_what_stood(survey: View, strengths: &[u8], copies: &mut [u8], counts: &mut [u64]) -> u64 {
    let before = copies.to_vec();
    let answer = (SECOND.winter)(survey, strengths, copies, counts);
    if answer == 0 {
        copies.iter_mut().zip(before).take(survey.m()).for_each(|(many, old)| *many = many.wrapping_add(old));
    }
    answer
}

fn zeroed_on_eight(survey: View, strengths: &[u8], copies: &mut [u8], counts: &mut [u64]) -> u64 {
    let answer = (SECOND.winter)(survey, strengths, copies, counts);
    if answer % 256 == 8 {
        copies[..survey.m()].fill(0);
    }
    answer
}

fn counts_on_refusal(survey: View, strengths: &[u8], copies: &mut [u8], counts: &mut [u64]) -> u64 {
    let answer = (SECOND.winter)(survey, strengths, copies, counts);
    if answer % 256 == 24 && !counts.is_empty() {
        counts[0] = 0;
    }
    answer
}

#[test]
fn faults_are_found() {
    let operation = OPERATIONS.iter().find(|operation| operation.name == "winter").unwrap();
    let differs = |library: &Library| (0..4_000).any(|case| operation.compare(library, 1, case).is_err());
    assert!(!differs(&SECOND));
    type Winter = fn(View, &[u8], &mut [u8], &mut [u64]) -> u64;
    let faulty: [(&str, Winter); 25] = [
        ("the highest bit left out", |s, strengths, c, n| as_if(s, strengths, c, n, |strength| strength & 7)),
        ("the lowest bit left out", |s, strengths, c, n| as_if(s, strengths, c, n, |strength| strength & 14)),
        ("4 copies for the highest bit", four_for_the_highest_bit),
        ("by steps of the strength", by_steps),
        ("own groups filtered, pairs not", pairs_not_filtered),
        ("pairs filtered, own groups not", own_not_filtered),
        ("the highest strength for all groups", four_plans_of_the_survey),
        ("24 for groups with members alone", members_alone_judged),
        ("the place of 24 from 0", place_from_zero),
        ("8 of a bit's survey", eight_of_a_bit),
        ("7 before 24", seven_before_24),
        ("8 before 24", eight_before_24),
        ("8 before 7", eight_before_seven),
        ("24 before 18", eighteen_after_24),
        ("a longer list taken", longer_list_taken),
        ("24 of a strength before that of the length", length_at_the_end),
        ("16 taken for 15", sixteen_taken),
        ("0 taken for 1", zero_taken),
        ("no counts taken", short_counts_taken),
        ("each price once", each_price_once),
        ("a price of 32 bits", price_of_32_bits),
        ("copies past the last zeroed", rest_zeroed),
        ("copies added to what stood there", added_to_what_stood),
        ("copies zeroed on 8", zeroed_on_eight),
        ("counts zeroed on 24", counts_on_refusal),
    ];
    for (name, winter) in faulty {
        assert!(differs(&Library { winter, ..SECOND }), "{name} is not found");
    }
}

// ---- the program

#[test]
fn program_by_hand() {
    let survey = "nodes=3\nlinks=3\nnode=1\nnode=0\nnode=1\nalso=1,2\nlink=0,1,3\nlink=1,2,4\nlink=0,2,9\n";
    let print = |more: &str| winter_program(format!("{survey}{more}").as_bytes());
    assert_eq!(print("strength=1,5\nstrength=2,15\n"), "cost=35\ncopies=0,5\ncopies=1,5\n");
    assert_eq!(print(""), "cost=7\ncopies=0,1\ncopies=1,1\n");
    let refused = |number: usize, place: usize| format!("refused={number}\nplace={place}\n");
    let length = survey.len();
    assert_eq!(print("strength=1,5"), refused(16, length + 12));
    assert_eq!(print("strength=01,5\n"), refused(16, length + 10));
    assert_eq!(print("strength=1,0005\n"), refused(16, length + 12));
    assert_eq!(print("strength=1,1000\n"), refused(16, length + 14));
    assert_eq!(print("link=0,1,3\n"), refused(16, length));
    for (line, place) in
        [("0,5", 0), ("256,5", 256), ("999,5", 999), ("7,0", 7), ("7,16", 7), ("7,999", 7), ("256,0", 256)]
    {
        assert_eq!(print(&format!("strength={line}\n")), refused(24, place));
    }
    assert_eq!(print("strength=9,5\nstrength=9,5\n"), refused(24, 9));
    assert_eq!(print("strength=9,5\nstrength=8,5\nstrength=0,0\n"), refused(24, 8));
    // 24 is found in reading, before 4 and 8.
    let out = "nodes=2\nlinks=1\nnode=1\nnode=1\nlink=0,2,3\n";
    assert_eq!(winter_program(format!("{out}strength=3,16\n").as_bytes()), refused(24, 3));
    assert_eq!(winter_program(out.as_bytes()), refused(4, 0));
    assert_eq!(winter_program(b"nodes=2\nlinks=0\nnode=1\nnode=1\nstrength=2,2\n"), refused(8, 1));
}

/// A text without its strength lines that `leaves` names.
fn without(input: &[u8], leaves: impl Fn(&str) -> bool) -> Vec<u8> {
    let text = String::from_utf8_lossy(input).into_owned();
    text.split_inclusive('\n').filter(|line| !line.starts_with("strength=") || !leaves(line)).collect::<String>().into()
}

#[test]
fn faulty_programs_are_found() {
    let runs: Vec<_> = (0..1_500).map(|case| run(1, case)).collect();
    let came: BTreeSet<u32> = runs.iter().filter_map(|run| run.counted.as_ref().err()).map(|r| r.number).collect();
    assert!(came.is_superset(&[3, 4, 8, 16, 17, 18, 24].into()), "{came:?}");
    type Program = fn(&[u8]) -> String;
    let faulty: [(&str, Program); 5] = [
        ("strengths left out", |input| winter_program(&without(input, |_| true))),
        ("strengths of 0 passed", |input| winter_program(&without(input, |line| line.ends_with(",0\n")))),
        ("24 for 16", |input| winter_program(input).replace("refused=16", "refused=24")),
        ("tracks that are not copied printed", |input| {
            let lines = winter_program(input);
            if lines.starts_with("cost=") && !lines.contains("copies=0,") {
                return lines + "copies=0,0\n";
            }
            lines
        }),
        ("the place from 0", |input| {
            let lines = winter_program(input);
            match lines.strip_prefix("refused=24\nplace=").and_then(|place| place.trim_end().parse::<u64>().ok()) {
                Some(place @ 1..) => format!("refused=24\nplace={}\n", place - 1),
                _ => lines,
            }
        }),
    ];
    for (name, program) in faulty {
        assert!(runs.iter().any(|run| program(&run.input).as_bytes() != run.printed), "{name} is not found");
    }
}
