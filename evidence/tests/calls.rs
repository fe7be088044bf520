//! The comparison of single calls finds faults: libraries with one fault each, among them changes of order that a
//! definition and its code could make together, are told from the second implementation; and every pair of refusals
//! that can be due together is met.

use evidence::blunder::lowest_of_class;
use evidence::calls::document;
use evidence::calls::faults::{pair, Fault, ALSO_FAULTS, PAIR_FAULTS};
use evidence::calls::generated::OPERATIONS;
use evidence::calls::{code, Figures, Library, PLAN_COUNTS, READ_COUNTS, SECOND};
use evidence::check::check;
use evidence::read::{parse, Lengths, Lent};
use evidence::{refuse, Refusal, View, MAX_JUNCTIONS, MAX_PAIRS, MAX_TRACKS, RECORD_BYTES};
use std::cell::RefCell;
use std::collections::BTreeMap;

fn plan(survey: View, marks: &mut [u8], records: &mut [u8], counts: &mut [u64]) -> u64 {
    (SECOND.plan)(survey, marks, records, counts)
}

fn three_before_two(survey: View, marks: &mut [u8], records: &mut [u8], counts: &mut [u64]) -> u64 {
    if survey.m() > MAX_TRACKS && (1..=MAX_JUNCTIONS).contains(&survey.n()) {
        return 3;
    }
    plan(survey, marks, records, counts)
}

fn joined(survey: View) -> Result<(), Refusal> {
    survey.sound()?;
    survey.unjoined(|_| true).map_or(Ok(()), |group| refuse(8, usize::from(group)))
}

fn eight_before_seven(survey: View, marks: &mut [u8], records: &mut [u8], counts: &mut [u64]) -> u64 {
    joined(survey).map_or_else(code, |()| plan(survey, marks, records, counts))
}

fn no_seven(survey: View, marks: &mut [u8], records: &mut [u8], counts: &mut [u64]) -> u64 {
    match plan(survey, marks, records, counts) {
        7 => joined(survey).map_or_else(code, |()| 0),
        other => other,
    }
}

fn cost_and_bound_swapped(survey: View, marks: &mut [u8], records: &mut [u8], counts: &mut [u64]) -> u64 {
    let answer = plan(survey, marks, records, counts);
    if answer == 0 {
        counts.swap(1, 2);
    }
    answer
}

fn place_cut(survey: View, marks: &mut [u8], records: &mut [u8], counts: &mut [u64]) -> u64 {
    plan(survey, marks, records, counts) % 4096
}

fn later_marks_zeroed(survey: View, marks: &mut [u8], records: &mut [u8], counts: &mut [u64]) -> u64 {
    let answer = plan(survey, marks, records, counts);
    if answer == 0 {
        marks[survey.m()..].fill(0);
    }
    answer
}

fn counts_lost(survey: View, marks: &mut [u8], records: &mut [u8], counts: &mut [u64]) -> u64 {
    let mut own = [0; PLAN_COUNTS];
    let answer = plan(survey, marks, records, &mut own);
    if answer == 0 {
        let many = counts.len().min(PLAN_COUNTS);
        counts[..many].copy_from_slice(&own[..many]);
    }
    answer
}

fn records_on_refusal(survey: View, marks: &mut [u8], records: &mut [u8], counts: &mut [u64]) -> u64 {
    let answer = plan(survey, marks, records, counts);
    if answer % 256 == 8 {
        records[0] = !records[0];
    }
    answer
}

/// The survey without its pairs.
fn plain(survey: View) -> View {
    View { owners: &[], others: &[], ..survey }
}

fn pairs_ignored(survey: View, marks: &mut [u8], records: &mut [u8], counts: &mut [u64]) -> u64 {
    match survey.sound() {
        Ok(()) => plan(plain(survey), marks, records, counts),
        _ => plan(survey, marks, records, counts),
    }
}

/// 18 of a survey that has no other fault of its own but 6.
fn eighteen_before_six(survey: View, marks: &mut [u8], records: &mut [u8], counts: &mut [u64]) -> u64 {
    let cheap = vec![0; survey.prices.len()];
    match (View { prices: &cheap, ..survey }).sound() {
        Err(refusal) if refusal.number == 18 => code(refusal),
        _ => plan(survey, marks, records, counts),
    }
}

fn eighteen_after_seven(survey: View, marks: &mut [u8], records: &mut [u8], counts: &mut [u64]) -> u64 {
    match survey.sound() {
        Err(Refusal { number: 18, .. }) if counts.len() < PLAN_COUNTS || marks.len() < survey.m() => 7,
        _ => plan(survey, marks, records, counts),
    }
}

fn eighteen_after_eight(survey: View, marks: &mut [u8], records: &mut [u8], counts: &mut [u64]) -> u64 {
    match (survey.sound(), joined(plain(survey))) {
        (Err(Refusal { number: 18, .. }), Err(refusal)) if counts.len() >= PLAN_COUNTS => code(refusal),
        _ => plan(survey, marks, records, counts),
    }
}

/// The pairs without those that `leaves` names; 18 then names a pair of the rest.
fn pairs_left_out(survey: View, leaves: impl Fn(usize) -> bool, then: impl Fn(View) -> u64) -> u64 {
    if survey.owners.len() != survey.others.len() {
        return then(survey);
    }
    let kept: Vec<usize> = (0..survey.owners.len()).filter(|&i| !leaves(i)).collect();
    let owners: Vec<u32> = kept.iter().map(|&i| survey.owners[i]).collect();
    let others: Vec<u8> = kept.iter().map(|&i| survey.others[i]).collect();
    then(View { owners: &owners, others: &others, ..survey })
}

fn is_repeated(survey: View, i: usize) -> bool {
    i > 0 && (survey.owners[i - 1], survey.others[i - 1]) == (survey.owners[i], survey.others[i])
}

fn equal_pair_accepted(survey: View, marks: &mut [u8], records: &mut [u8], counts: &mut [u64]) -> u64 {
    let (marks, records, counts) = (RefCell::new(marks), RefCell::new(records), RefCell::new(counts));
    let then = |rest: View| plan(rest, &mut marks.borrow_mut(), &mut records.borrow_mut(), &mut counts.borrow_mut());
    pairs_left_out(survey, |i| is_repeated(survey, i), then)
}

fn later_pairs_ignored(survey: View, marks: &mut [u8], records: &mut [u8], counts: &mut [u64]) -> u64 {
    let (marks, records, counts) = (RefCell::new(marks), RefCell::new(records), RefCell::new(counts));
    let then = |rest: View| plan(rest, &mut marks.borrow_mut(), &mut records.borrow_mut(), &mut counts.borrow_mut());
    pairs_left_out(survey, |i| i >= MAX_PAIRS, then)
}

/// 300 equal pairs are refused for their number, at 256.
fn number_of_pairs_first(survey: View, marks: &mut [u8], records: &mut [u8], counts: &mut [u64]) -> u64 {
    match plan(survey, marks, records, counts) {
        answer if answer % 256 == 18 && survey.owners.len() > MAX_PAIRS => 18 + 256 * MAX_PAIRS as u64,
        answer => answer,
    }
}

/// Lists that share a member are one, and 8 names the lowest of them.
fn eight_by_class(survey: View, marks: &mut [u8], records: &mut [u8], counts: &mut [u64]) -> u64 {
    match plan(survey, marks, records, counts) {
        answer if answer % 256 == 8 => 8 + 256 * lowest_of_class(survey, (answer / 256) as u8) as u64,
        answer => answer,
    }
}

fn sites_by_list(survey: View, marks: &mut [u8], records: &mut [u8], counts: &mut [u64]) -> u64 {
    let answer = plan(survey, marks, records, counts);
    if answer == 0 {
        counts[0] = survey.lists().concat().len() as u64;
    }
    answer
}

fn counts_on_eighteen(survey: View, marks: &mut [u8], records: &mut [u8], counts: &mut [u64]) -> u64 {
    let answer = plan(survey, marks, records, counts);
    if answer % 256 == 18 {
        counts.fill(0);
    }
    answer
}

fn check_pairs_ignored(survey: View, marks: &[u8], records: &[u8], counts: &mut [u64]) -> u64 {
    match survey.sound() {
        Ok(()) => (SECOND.check)(plain(survey), marks, records, counts),
        _ => (SECOND.check)(survey, marks, records, counts),
    }
}

fn eighteen_after_nine(survey: View, marks: &[u8], records: &[u8], counts: &mut [u64]) -> u64 {
    match (survey.sound(), check(plain(survey), marks, records)) {
        (Err(Refusal { number: 18, .. }), Err(refusal)) if refusal.number == 9 && counts.len() >= 3 => code(refusal),
        _ => (SECOND.check)(survey, marks, records, counts),
    }
}

fn ten_before_nine(survey: View, marks: &[u8], records: &[u8], counts: &mut [u64]) -> u64 {
    let high = marks.iter().take(survey.m()).position(|&mark| mark > 2);
    match (survey.sound(), high) {
        (Ok(()), Some(track)) if counts.len() >= 3 => 10 + 256 * track as u64,
        _ => (SECOND.check)(survey, marks, records, counts),
    }
}

fn nine_before_seven(survey: View, marks: &[u8], records: &[u8], counts: &mut [u64]) -> u64 {
    match check(survey, marks, records) {
        Err(refusal) if refusal.number == 9 => code(refusal),
        _ => (SECOND.check)(survey, marks, records, counts),
    }
}

/// What reading answers; the buffers stay at hand for a fault.
fn read(text: &[u8], lent: &mut Lent, counts: &mut [u64]) -> u64 {
    let Lent { groups, first, second, prices, owners, others } = lent;
    (SECOND.read)(text, Lent { groups, first, second, prices, owners, others }, counts)
}

/// The refusal of a text that is read into buffers with room for all.
fn roomy(text: &[u8]) -> u64 {
    parse(text, Lengths::ENOUGH).map_or_else(code, |_| 0)
}

/// The refusal of a text that is read into buffers with room for all pairs.
fn pairs_roomy(text: &[u8], lent: &Lent) -> u64 {
    parse(text, Lengths { owners: MAX_PAIRS, others: MAX_PAIRS, ..lent.lengths() }).map_or_else(code, |_| 0)
}

fn seven_before_one(text: &[u8], mut lent: Lent, counts: &mut [u64]) -> u64 {
    let counted = text.strip_prefix(b"nodes=").and_then(|rest| rest.split(|&byte| byte == b'\n').next());
    let wanted = counted.and_then(|digits| std::str::from_utf8(digits).ok()).and_then(|digits| digits.parse().ok());
    match (roomy(text), wanted) {
        (1, Some(wanted)) if lent.groups.len() < wanted => 7,
        _ => read(text, &mut lent, counts),
    }
}

fn seven_before_three(text: &[u8], mut lent: Lent, counts: &mut [u64]) -> u64 {
    match read(text, &mut lent, counts) {
        3 if lent.first.len() <= MAX_TRACKS => 7,
        other => other,
    }
}

fn seven_at_the_end(text: &[u8], mut lent: Lent, counts: &mut [u64]) -> u64 {
    match read(text, &mut lent, counts) {
        7 if roomy(text) != 0 => roomy(text),
        other => other,
    }
}

fn short_counts_at_the_end(text: &[u8], mut lent: Lent, counts: &mut [u64]) -> u64 {
    if counts.len() >= READ_COUNTS {
        return read(text, &mut lent, counts);
    }
    parse(text, lent.lengths()).map_or_else(code, |_| 7)
}

fn sixteen_before_seventeen(text: &[u8], mut lent: Lent, counts: &mut [u64]) -> u64 {
    let answer = read(text, &mut lent, counts);
    if answer % 256 == 17 && text.last() != Some(&b'\n') {
        return 16 + 256 * text.len() as u64;
    }
    answer
}

fn read_place_cut(text: &[u8], mut lent: Lent, counts: &mut [u64]) -> u64 {
    read(text, &mut lent, counts) % 65_536
}

fn groups_on_refusal(text: &[u8], mut lent: Lent, counts: &mut [u64]) -> u64 {
    let answer = read(text, &mut lent, counts);
    if answer % 256 == 17 {
        lent.groups[0] = lent.groups[0].wrapping_add(1);
    }
    answer
}

fn later_groups_zeroed(text: &[u8], mut lent: Lent, counts: &mut [u64]) -> u64 {
    let answer = read(text, &mut lent, counts);
    if answer == 0 {
        lent.groups[counts[0] as usize..].fill(0);
    }
    answer
}

fn n_and_m_swapped(text: &[u8], mut lent: Lent, counts: &mut [u64]) -> u64 {
    let answer = read(text, &mut lent, counts);
    if answer == 0 {
        counts.swap(0, 1);
    }
    answer
}

fn prices_for_ends(text: &[u8], mut lent: Lent, counts: &mut [u64]) -> u64 {
    let answer = read(text, &mut lent, counts);
    if answer == 0 {
        let m = counts[1] as usize;
        lent.second[..m].copy_from_slice(&lent.prices[..m]);
    }
    answer
}

fn no_number_of_pairs(text: &[u8], mut lent: Lent, counts: &mut [u64]) -> u64 {
    let before = counts.get(2).copied();
    let answer = read(text, &mut lent, counts);
    if answer == 0 {
        counts[2] = before.unwrap_or(0);
    }
    answer
}

fn later_pairs_zeroed(text: &[u8], mut lent: Lent, counts: &mut [u64]) -> u64 {
    let answer = read(text, &mut lent, counts);
    if answer == 0 {
        lent.others[counts[2] as usize..].fill(0);
    }
    answer
}

fn pairs_on_refusal(text: &[u8], mut lent: Lent, counts: &mut [u64]) -> u64 {
    let answer = read(text, &mut lent, counts);
    if answer % 256 == 18 {
        if let Some(owner) = lent.owners.first_mut() {
            *owner = owner.wrapping_add(1);
        }
    }
    answer
}

/// 2 for pair buffers that differ in length, though a text needs neither whole.
fn unequal_pair_buffers(text: &[u8], mut lent: Lent, counts: &mut [u64]) -> u64 {
    match pairs_roomy(text, &lent) {
        0 if lent.owners.len() != lent.others.len() => 2,
        _ => read(text, &mut lent, counts),
    }
}

/// 7 before the first also line, if there is no room for a pair.
fn pairs_wanted(text: &[u8], mut lent: Lent, counts: &mut [u64]) -> u64 {
    match read(text, &mut lent, counts) {
        0 if lent.owners.is_empty() || lent.others.is_empty() => 7,
        other => other,
    }
}

/// 7 of pairs before 17 or 18 of the same line: with no room for this pair, its line is never judged.
fn seven_before(number: u64, text: &[u8], lent: &mut Lent, counts: &mut [u64]) -> u64 {
    let answer = read(text, lent, counts);
    let line = text.split_inclusive(|&byte| byte == b'\n').filter(|line| line.starts_with(b"also=")).position(|line| {
        let group = line[5..].split(|&byte| byte == b',').nth(1).and_then(|g| std::str::from_utf8(g).ok());
        group.and_then(|g| g.trim_end().parse::<u32>().ok()).is_some_and(|g| g > 255)
    });
    let pair = if number == 18 { Some((answer / 256) as usize) } else { line };
    match pair {
        Some(pair) if answer % 256 == number && pair >= lent.owners.len().min(lent.others.len()) => 7,
        _ => answer,
    }
}

fn seven_before_seventeen(text: &[u8], mut lent: Lent, counts: &mut [u64]) -> u64 {
    seven_before(17, text, &mut lent, counts)
}

fn seven_before_eighteen(text: &[u8], mut lent: Lent, counts: &mut [u64]) -> u64 {
    seven_before(18, text, &mut lent, counts)
}

/// 7 of pairs only when all else is well.
fn pairs_seven_at_the_end(text: &[u8], mut lent: Lent, counts: &mut [u64]) -> u64 {
    match (read(text, &mut lent, counts), pairs_roomy(text, &lent)) {
        (7, other) if other != 0 && other != 7 && counts.len() >= READ_COUNTS => other,
        (answer, _) => answer,
    }
}

/// Where there is room for one of the two, the longer buffer counts.
fn the_longer_pair_buffer(text: &[u8], mut lent: Lent, counts: &mut [u64]) -> u64 {
    let answer = read(text, &mut lent, counts);
    let longer = lent.owners.len().max(lent.others.len());
    match parse(text, Lengths { owners: longer, others: longer, ..lent.lengths() }) {
        Ok(_) if answer == 7 && counts.len() >= READ_COUNTS => 0,
        _ => answer,
    }
}

/// The pair before isn't looked at: only v, g and the own group.
fn order_not_looked_at(text: &[u8], mut lent: Lent, counts: &mut [u64]) -> u64 {
    let answer = read(text, &mut lent, counts);
    if answer % 256 != 18 || answer < 512 {
        return answer;
    }
    let alsos: Vec<&[u8]> =
        text.split_inclusive(|&byte| byte == b'\n').filter(|line| line.starts_with(b"also=")).collect();
    let pair = (answer / 256) as usize;
    if alsos[pair] == alsos[pair - 1] {
        7
    } else {
        answer
    }
}

fn seven_before_nine(record: &[u8], out: &mut [u8], counts: &mut [u64]) -> u64 {
    if record.len() != RECORD_BYTES && out.len() < 7 {
        return 7;
    }
    (SECOND.print_moat)(record, out, counts)
}

fn short_counts_before_nine(record: &[u8], out: &mut [u8], counts: &mut [u64]) -> u64 {
    if counts.is_empty() {
        return 7;
    }
    (SECOND.print_moat)(record, out, counts)
}

fn room_for_one_more(record: &[u8], out: &mut [u8], counts: &mut [u64]) -> u64 {
    let end = out.len().saturating_sub(1);
    (SECOND.print_moat)(record, &mut out[..end], counts)
}

fn written_as_far_as_it_fits(record: &[u8], out: &mut [u8], counts: &mut [u64]) -> u64 {
    let answer = (SECOND.print_moat)(record, out, counts);
    if answer == 7 && !out.is_empty() {
        out[0] = b'm';
    }
    answer
}

fn later_bytes_zeroed(record: &[u8], out: &mut [u8], counts: &mut [u64]) -> u64 {
    let answer = (SECOND.print_moat)(record, out, counts);
    if answer == 0 {
        out[counts[0] as usize..].fill(0);
    }
    answer
}

fn bound_for_cost(figures: Figures, marks: &[u8], records: &[u8], out: &mut [u8], counts: &mut [u64]) -> u64 {
    let [sites, _, bound, rounds] = figures;
    (SECOND.print_plan)([sites, bound, bound, rounds], marks, records, out, counts)
}

fn dropped_printed(figures: Figures, marks: &[u8], records: &[u8], out: &mut [u8], counts: &mut [u64]) -> u64 {
    let marks: Vec<u8> = marks.iter().map(|&mark| if mark == 1 { 2 } else { mark }).collect();
    (SECOND.print_plan)(figures, &marks, records, out, counts)
}

fn ends_swapped(survey: View, out: &mut [u8], counts: &mut [u64]) -> u64 {
    (SECOND.print_survey)(View { first: survey.second, second: survey.first, ..survey }, out, counts)
}

fn seven_before_two(survey: View, out: &mut [u8], counts: &mut [u64]) -> u64 {
    if out.is_empty() || counts.is_empty() {
        return 7;
    }
    (SECOND.print_survey)(survey, out, counts)
}

fn alsos_not_printed(survey: View, out: &mut [u8], counts: &mut [u64]) -> u64 {
    if survey.owners.len() != survey.others.len() {
        return (SECOND.print_survey)(survey, out, counts);
    }
    (SECOND.print_survey)(plain(survey), out, counts)
}

fn alsos_printed_last(survey: View, out: &mut [u8], counts: &mut [u64]) -> u64 {
    let answer = (SECOND.print_survey)(survey, out, counts);
    if answer == 0 {
        let text = String::from_utf8_lossy(&out[..counts[0] as usize]).into_owned();
        let (alsos, others): (Vec<&str>, Vec<&str>) =
            text.split_inclusive('\n').partition(|line| line.starts_with("also="));
        out[..text.len()].copy_from_slice([others.concat(), alsos.concat()].concat().as_bytes());
    }
    answer
}

fn unequal_pairs_printed(survey: View, out: &mut [u8], counts: &mut [u64]) -> u64 {
    let many = survey.owners.len().min(survey.others.len());
    let both = View { owners: &survey.owners[..many], others: &survey.others[..many], ..survey };
    (SECOND.print_survey)(both, out, counts)
}

fn differs(library: &Library) -> bool {
    (0..4000).any(|case| OPERATIONS.iter().any(|operation| operation.compare(library, 1, case).is_err()))
}

#[test]
fn no_difference_with_itself() {
    assert!(!differs(&SECOND));
}

#[test]
fn cases_are_as_written() {
    let passed = document::cases(&SECOND).expect("the second implementation answers as document 01 says");
    assert!(passed > 100, "{passed}");
}

#[test]
fn faults_are_found() {
    let faulty = [
        ("3 before 2", Library { plan: three_before_two, ..SECOND }),
        ("8 before 7", Library { plan: eight_before_seven, ..SECOND }),
        ("no 7", Library { plan: no_seven, ..SECOND }),
        ("cost and bound swapped", Library { plan: cost_and_bound_swapped, ..SECOND }),
        ("a place cut", Library { plan: place_cut, ..SECOND }),
        ("marks past the last zeroed", Library { plan: later_marks_zeroed, ..SECOND }),
        ("counts lost", Library { plan: counts_lost, ..SECOND }),
        ("records written on 8", Library { plan: records_on_refusal, ..SECOND }),
        ("pairs ignored", Library { plan: pairs_ignored, ..SECOND }),
        ("18 before 6", Library { plan: eighteen_before_six, ..SECOND }),
        ("7 before 18", Library { plan: eighteen_after_seven, ..SECOND }),
        ("8 before 18", Library { plan: eighteen_after_eight, ..SECOND }),
        ("an equal pair accepted", Library { plan: equal_pair_accepted, ..SECOND }),
        ("pairs past the 256th ignored", Library { plan: later_pairs_ignored, ..SECOND }),
        ("18 for the number of pairs first", Library { plan: number_of_pairs_first, ..SECOND }),
        ("8 at the lowest of lists poured together", Library { plan: eight_by_class, ..SECOND }),
        ("a site counted once for each list", Library { plan: sites_by_list, ..SECOND }),
        ("counts written on 18", Library { plan: counts_on_eighteen, ..SECOND }),
        ("pairs ignored in checking", Library { check: check_pairs_ignored, ..SECOND }),
        ("9 before 18", Library { check: eighteen_after_nine, ..SECOND }),
        ("10 before 9", Library { check: ten_before_nine, ..SECOND }),
        ("9 before 7", Library { check: nine_before_seven, ..SECOND }),
        ("7 before 1 in reading", Library { read: seven_before_one, ..SECOND }),
        ("7 before 3 in reading", Library { read: seven_before_three, ..SECOND }),
        ("7 after all else in reading", Library { read: seven_at_the_end, ..SECOND }),
        ("short counts after all else in reading", Library { read: short_counts_at_the_end, ..SECOND }),
        ("a later 16 before 17", Library { read: sixteen_before_seventeen, ..SECOND }),
        ("a place cut in reading", Library { read: read_place_cut, ..SECOND }),
        ("groups written on 17", Library { read: groups_on_refusal, ..SECOND }),
        ("groups past the last zeroed", Library { read: later_groups_zeroed, ..SECOND }),
        ("n and m swapped", Library { read: n_and_m_swapped, ..SECOND }),
        ("prices stored for second ends", Library { read: prices_for_ends, ..SECOND }),
        ("no number of pairs", Library { read: no_number_of_pairs, ..SECOND }),
        ("others past the last zeroed", Library { read: later_pairs_zeroed, ..SECOND }),
        ("owners written on 18", Library { read: pairs_on_refusal, ..SECOND }),
        ("2 for pair buffers of unequal length in reading", Library { read: unequal_pair_buffers, ..SECOND }),
        ("7 for a pair buffer of no length", Library { read: pairs_wanted, ..SECOND }),
        ("7 before 17 of an also line", Library { read: seven_before_seventeen, ..SECOND }),
        ("7 before 18 of an also line", Library { read: seven_before_eighteen, ..SECOND }),
        ("7 of pairs after all else", Library { read: pairs_seven_at_the_end, ..SECOND }),
        ("the longer of the pair buffers counts", Library { read: the_longer_pair_buffer, ..SECOND }),
        ("an equal pair read", Library { read: order_not_looked_at, ..SECOND }),
        ("7 before 9", Library { print_moat: seven_before_nine, ..SECOND }),
        ("short counts before 9", Library { print_moat: short_counts_before_nine, ..SECOND }),
        ("7 for a line that just fits", Library { print_moat: room_for_one_more, ..SECOND }),
        ("a line written as far as it fits", Library { print_moat: written_as_far_as_it_fits, ..SECOND }),
        ("bytes past a line zeroed", Library { print_moat: later_bytes_zeroed, ..SECOND }),
        ("the bound printed for the cost", Library { print_plan: bound_for_cost, ..SECOND }),
        ("dropped tracks printed as kept", Library { print_plan: dropped_printed, ..SECOND }),
        ("ends swapped", Library { print_survey: ends_swapped, ..SECOND }),
        ("7 before 2", Library { print_survey: seven_before_two, ..SECOND }),
        ("also lines not printed", Library { print_survey: alsos_not_printed, ..SECOND }),
        ("also lines printed last", Library { print_survey: alsos_printed_last, ..SECOND }),
        ("as many also lines as there are pairs in both", Library { print_survey: unequal_pairs_printed, ..SECOND }),
    ];
    for (name, library) in faulty {
        assert!(differs(&library), "{name} is not found");
    }
}

/// Each fault alone is refused, the one with x and the other with y, and both together with x: for every pair (x, y) of
/// an operation's list.
#[test]
fn every_pair_is_met() {
    for operation in OPERATIONS {
        let mut met: BTreeMap<(u64, u64), u64> = BTreeMap::new();
        for case in 0..8_000 {
            let [one, other, both] = operation.due(1, case);
            if one != 0 && other != 0 && one != other {
                let given = if both == one { (one, other) } else { (other, one) };
                if both == given.0 {
                    *met.entry(given).or_default() += 1;
                }
            }
        }
        let listed: Vec<(u64, u64)> =
            operation.pairs.iter().flat_map(|&(first, then)| then.iter().map(move |&second| (first, second))).collect();
        let missing: Vec<_> = listed.iter().filter(|pair| !met.contains_key(pair)).collect();
        assert!(missing.is_empty(), "{}: {missing:?} are never due together", operation.name);
    }
}

/// Every fault of pairs and of also lines is due alone, and beside each refusal that can stand before or behind its
/// own: 2 of pairs of unequal length, 18 of others, and in a text its own.
#[test]
fn every_fault_of_pairs_is_met() {
    let of_pairs: Vec<(Fault, u64)> =
        PAIR_FAULTS.iter().map(|&fault| (fault, 18)).chain([(Fault::PairsUnequal, 2)]).collect();
    for operation in OPERATIONS {
        let faults = of_pairs.iter().chain(ALSO_FAULTS).filter(|fault| operation.faults.contains(&fault.0));
        for &(fault, number) in faults {
            let mut beside: BTreeMap<u64, u64> = BTreeMap::new();
            for case in (0..16_000).filter(|&case| pair(operation.faults, case)[0] == fault) {
                let [one, other, both] = operation.due(1, case);
                if one == number && (both == one || both == other) {
                    *beside.entry(other).or_default() += 1;
                }
            }
            let of = |pairs: &[(u64, &[u64])]| -> Vec<u64> {
                let behind = pairs.iter().filter(|row| row.0 == number).flat_map(|row| row.1.iter().copied());
                let before = pairs.iter().filter(|row| row.1.contains(&number)).map(|row| row.0);
                behind.chain(before).chain([0]).collect()
            };
            let missing: Vec<u64> = of(operation.pairs).into_iter().filter(|n| !beside.contains_key(n)).collect();
            assert!(missing.is_empty(), "{}: {fault:?} is never due with {missing:?}", operation.name);
        }
    }
}
