//! The comparison of single calls finds faults in reasons: libraries with one fault each are told from the second
//! implementation by the generated calls.

use evidence::blunder::lowest_of_class;
use evidence::calls::generated::{Operation, OPERATIONS};
use evidence::calls::{code, Library, SECOND, WHY_COUNTS};
use evidence::plan::{fast, growth, owned, DROPPED, KEPT, NOT_PICKED};
use evidence::{refuse, Refusal, View};

/// Entries of the counts.
const KIND: usize = 0;
const LIST: usize = 1;
const SMALLER: usize = 2;
const LARGER: usize = 3;
const ENTRIES: usize = 4;
const ROUND: usize = 5;

type Why = fn(View, u32, &mut [u32], &mut [u64]) -> u64;

fn why(survey: View, track: u32, route: &mut [u32], counts: &mut [u64]) -> u64 {
    (SECOND.why)(survey, track, route, counts)
}

/// The answer, and whether it is a reason of this kind.
fn told(kind: u8, survey: View, track: u32, route: &mut [u32], counts: &mut [u64]) -> (u64, bool) {
    let answer = why(survey, track, route, counts);
    (answer, answer == 0 && counts[KIND] == u64::from(kind))
}

fn marks(survey: View) -> Vec<u8> {
    owned(fast, survey).expect("it can be joined").marks
}

/// The tracks that a walk over these takes from one junction towards another, until it is there: on the way back from a
/// dead end they are given up, or stay.
fn walk(survey: View, may: &dyn Fn(usize) -> bool, give_up: bool, from: usize, to: usize) -> Vec<usize> {
    fn step(
        survey: View,
        may: &dyn Fn(usize) -> bool,
        give_up: bool,
        (at, to): (usize, usize),
        seen: &mut Vec<usize>,
        taken: &mut Vec<usize>,
    ) -> bool {
        if at == to {
            return true;
        }
        seen.push(at);
        for t in (0..survey.m()).filter(|&t| may(t)) {
            let ends = [survey.first[t] as usize, survey.second[t] as usize];
            if !ends.contains(&at) || seen.contains(&(ends[0] + ends[1] - at)) {
                continue;
            }
            taken.push(t);
            if step(survey, may, give_up, (ends[0] + ends[1] - at, to), seen, taken) {
                return true;
            }
            if give_up {
                taken.pop();
            }
        }
        false
    }
    let mut taken = Vec::new();
    step(survey, may, give_up, (from, to), &mut Vec::new(), &mut taken);
    taken
}

/// Puts a route in place of the one that was written, which leaves what stood before.
fn put_route(tracks: &[usize], route: &mut [u32], before: &[u32], counts: &mut [u64]) {
    route.copy_from_slice(before);
    for (entry, &track) in route.iter_mut().zip(tracks) {
        *entry = track as u32;
    }
    counts[ENTRIES] = tracks.len() as u64;
}

fn from_the_larger(survey: View, track: u32, route: &mut [u32], counts: &mut [u64]) -> u64 {
    let (answer, kept) = told(KEPT, survey, track, route, counts);
    if kept {
        route[..counts[ENTRIES] as usize].reverse();
    }
    answer
}

/// A walk over the tracks that `may` be taken, in place of the route.
fn walked(may: fn(u8) -> bool, give_up: bool, survey: View, track: u32, route: &mut [u32], counts: &mut [u64]) -> u64 {
    let before = route.to_vec();
    let (answer, kept) = told(KEPT, survey, track, route, counts);
    if kept {
        let (marks, ends) = (marks(survey), [counts[SMALLER] as usize, counts[LARGER] as usize]);
        let tracks = walk(survey, &|t| may(marks[t]), give_up, ends[0], ends[1]);
        put_route(&tracks, route, &before, counts);
    }
    answer
}

fn picked_with_dead_ends(survey: View, track: u32, route: &mut [u32], counts: &mut [u64]) -> u64 {
    walked(|mark| mark != NOT_PICKED, false, survey, track, route, counts)
}

fn kept_with_dead_ends(survey: View, track: u32, route: &mut [u32], counts: &mut [u64]) -> u64 {
    walked(|mark| mark == KEPT, false, survey, track, route, counts)
}

fn over_any_tracks(survey: View, track: u32, route: &mut [u32], counts: &mut [u64]) -> u64 {
    walked(|_| true, true, survey, track, route, counts)
}

/// Not a fault: the picked tracks are a forest, and the way between two members of a list in it is kept whole.
fn over_picked_tracks(survey: View, track: u32, route: &mut [u32], counts: &mut [u64]) -> u64 {
    walked(|mark| mark != NOT_PICKED, true, survey, track, route, counts)
}

/// A list and a pair of its members that are parted without a track.
type Parted = (usize, usize, usize);

/// Another pair is named, with its route: `choose` has all that are parted, rising by list, smaller, larger.
fn named(choose: impl Fn(&[Parted]) -> Parted, survey: View, track: u32, route: &mut [u32], counts: &mut [u64]) -> u64 {
    let before = route.to_vec();
    let (answer, kept) = told(KEPT, survey, track, route, counts);
    if kept {
        let marks = marks(survey);
        let component = survey.components(|t| t != track as usize && marks[t] != NOT_PICKED);
        let mut all = Vec::new();
        for (list, members) in survey.members_by_group().iter().enumerate() {
            for &u in members {
                for &v in members.iter().filter(|&&v| v > u && component[v] != component[u]) {
                    all.push((list, u, v));
                }
            }
        }
        let (list, smaller, larger) = choose(&all);
        [counts[LIST], counts[SMALLER], counts[LARGER]] = [list, smaller, larger].map(|number| number as u64);
        put_route(&walk(survey, &|t| marks[t] == KEPT, true, smaller, larger), route, &before, counts);
    }
    answer
}

fn own_groups_only(survey: View, track: u32, route: &mut [u32], counts: &mut [u64]) -> u64 {
    let own = |v: usize, list: usize| usize::from(survey.groups[v]) == list;
    let choose = |all: &[Parted]| *all.iter().find(|&&(g, u, v)| own(u, g) && own(v, g)).unwrap_or(&all[0]);
    named(choose, survey, track, route, counts)
}

fn second_lowest_pair(survey: View, track: u32, route: &mut [u32], counts: &mut [u64]) -> u64 {
    let choose = |all: &[Parted]| *all.get(1).filter(|parted| parted.0 == all[0].0).unwrap_or(&all[0]);
    named(choose, survey, track, route, counts)
}

fn highest_list(survey: View, track: u32, route: &mut [u32], counts: &mut [u64]) -> u64 {
    let choose = |all: &[Parted]| *all.iter().find(|parted| parted.0 == all[all.len() - 1].0).unwrap_or(&all[0]);
    named(choose, survey, track, route, counts)
}

/// Not a fault: without a kept track its list is in two parts, so the lowest larger one is the first of the other part.
fn pair_by_the_larger(survey: View, track: u32, route: &mut [u32], counts: &mut [u64]) -> u64 {
    let choose = |all: &[Parted]| *all.iter().min_by_key(|&&(g, u, v)| (g, v, u)).unwrap_or(&all[0]);
    named(choose, survey, track, route, counts)
}

fn lowest_pair_of_all_lists(survey: View, track: u32, route: &mut [u32], counts: &mut [u64]) -> u64 {
    let choose = |all: &[Parted]| *all.iter().min_by_key(|&&(g, u, v)| (u, v, g)).unwrap_or(&all[0]);
    named(choose, survey, track, route, counts)
}

fn list_by_class(survey: View, track: u32, route: &mut [u32], counts: &mut [u64]) -> u64 {
    let (answer, kept) = told(KEPT, survey, track, route, counts);
    if kept {
        counts[LIST] = lowest_of_class(survey, counts[LIST] as u8) as u64;
    }
    answer
}

/// The number of the round is changed, where there is one: it and the number of all rounds are given.
fn in_round(change: fn(u64, u64) -> u64, survey: View, track: u32, route: &mut [u32], counts: &mut [u64]) -> u64 {
    let (answer, unpicked) = told(NOT_PICKED, survey, track, route, counts);
    if unpicked && counts[ROUND] > 0 {
        counts[ROUND] = change(counts[ROUND], growth(survey).rounds.len() as u64);
    }
    answer
}

fn round_before(survey: View, track: u32, route: &mut [u32], counts: &mut [u64]) -> u64 {
    in_round(|round, _| round - 1, survey, track, route, counts)
}

fn never_for_a_late_join(survey: View, track: u32, route: &mut [u32], counts: &mut [u64]) -> u64 {
    in_round(|round, all| if round == all { 0 } else { round }, survey, track, route, counts)
}

fn last_round(survey: View, track: u32, route: &mut [u32], counts: &mut [u64]) -> u64 {
    in_round(|_, all| all, survey, track, route, counts)
}

/// A picked track with the round that picked it.
fn round_of_picked(mark: u8, survey: View, track: u32, route: &mut [u32], counts: &mut [u64]) -> u64 {
    let (answer, is) = told(mark, survey, track, route, counts);
    if is {
        let rounds = growth(survey).rounds;
        counts[ROUND] = 1 + rounds.iter().position(|round| round.winner == track as usize).expect("picked") as u64;
    }
    answer
}

fn round_of_kept(survey: View, track: u32, route: &mut [u32], counts: &mut [u64]) -> u64 {
    round_of_picked(KEPT, survey, track, route, counts)
}

fn round_of_dropped(survey: View, track: u32, route: &mut [u32], counts: &mut [u64]) -> u64 {
    round_of_picked(DROPPED, survey, track, route, counts)
}

fn dropped_as_unpicked(survey: View, track: u32, route: &mut [u32], counts: &mut [u64]) -> u64 {
    let (answer, dropped) = told(DROPPED, survey, track, route, counts);
    if dropped {
        counts[KIND] = u64::from(NOT_PICKED);
    }
    answer
}

fn smaller_and_larger_swapped(survey: View, track: u32, route: &mut [u32], counts: &mut [u64]) -> u64 {
    let answer = why(survey, track, route, counts);
    if answer == 0 {
        counts.swap(SMALLER, LARGER);
    }
    answer
}

fn junctions_counted(survey: View, track: u32, route: &mut [u32], counts: &mut [u64]) -> u64 {
    let (answer, kept) = told(KEPT, survey, track, route, counts);
    if kept {
        counts[ENTRIES] += 1;
    }
    answer
}

fn pairs_ignored(survey: View, track: u32, route: &mut [u32], counts: &mut [u64]) -> u64 {
    let plain = View { owners: &[], others: &[], ..survey };
    why(if survey.sound().is_ok() { plain } else { survey }, track, route, counts)
}

fn written_without_a_route(survey: View, track: u32, route: &mut [u32], counts: &mut [u64]) -> u64 {
    let answer = why(survey, track, route, counts);
    if answer == 0 && counts[KIND] != u64::from(KEPT) {
        if let Some(entry) = route.first_mut() {
            *entry = track;
        }
    }
    answer
}

fn stray_entry(survey: View, track: u32, route: &mut [u32], counts: &mut [u64]) -> u64 {
    let (answer, kept) = told(KEPT, survey, track, route, counts);
    if kept {
        if let Some(entry) = route.get_mut(counts[ENTRIES] as usize) {
            *entry = track;
        }
    }
    answer
}

fn rest_zeroed(survey: View, track: u32, route: &mut [u32], counts: &mut [u64]) -> u64 {
    let answer = why(survey, track, route, counts);
    if answer == 0 {
        route[counts[ENTRIES] as usize..].fill(0);
    }
    answer
}

/// What the call would say with a route buffer that is long enough; 7 is still given where `short` says so, of the
/// number of entries and the buffer's length.
fn seven_where(short: fn(u64, usize) -> bool, survey: View, track: u32, route: &mut [u32], counts: &mut [u64]) -> u64 {
    let (mut long, mut own) = (vec![0; survey.n()], [0; WHY_COUNTS]);
    match why(survey, track, &mut long, &mut own) {
        0 if counts.len() < WHY_COUNTS || short(own[ENTRIES], route.len()) => 7,
        0 => {
            counts[..WHY_COUNTS].copy_from_slice(&own);
            for (entry, track) in route.iter_mut().zip(&long[..own[ENTRIES] as usize]) {
                *entry = *track;
            }
            0
        }
        _ => why(survey, track, route, counts),
    }
}

fn seven_only_for_a_route(survey: View, track: u32, route: &mut [u32], counts: &mut [u64]) -> u64 {
    let need = survey.n().saturating_sub(1);
    if route.len() < need {
        return seven_where(|entries, _| entries > 0, survey, track, route, counts);
    }
    why(survey, track, route, counts)
}

fn seven_where_it_does_not_fit(survey: View, track: u32, route: &mut [u32], counts: &mut [u64]) -> u64 {
    seven_where(|entries, room| entries > room as u64, survey, track, route, counts)
}

fn room_for_n(survey: View, track: u32, route: &mut [u32], counts: &mut [u64]) -> u64 {
    let room = route.len().saturating_sub(1);
    why(survey, track, &mut route[..room], counts)
}

fn sound(survey: View, route: &[u32], counts: &[u64]) -> Result<(), Refusal> {
    survey.sound()?;
    if counts.len() < WHY_COUNTS || route.len() < survey.n() - 1 {
        return refuse(7, 0);
    }
    Ok(())
}

fn nineteen_before_eight(survey: View, track: u32, route: &mut [u32], counts: &mut [u64]) -> u64 {
    match sound(survey, route, counts) {
        Ok(()) if track as usize >= survey.m() => 19 + 256 * u64::from(track),
        _ => why(survey, track, route, counts),
    }
}

fn nineteen_before_seven(survey: View, track: u32, route: &mut [u32], counts: &mut [u64]) -> u64 {
    let joined = survey.sound().is_ok() && survey.unjoined(|_| true).is_none();
    match joined && track as usize >= survey.m() {
        true => 19 + 256 * u64::from(track),
        false => why(survey, track, route, counts),
    }
}

fn eight_before_seven(survey: View, track: u32, route: &mut [u32], counts: &mut [u64]) -> u64 {
    let unjoined = survey.sound().map(|()| survey.unjoined(|_| true));
    match unjoined {
        Ok(Some(group)) => 8 + 256 * u64::from(group),
        _ => why(survey, track, route, counts),
    }
}

fn seven_before_eighteen(survey: View, track: u32, route: &mut [u32], counts: &mut [u64]) -> u64 {
    match survey.sound() {
        Err(Refusal { number: 18, .. }) if route.len() < survey.n() - 1 => 7,
        Err(refusal) => code(refusal),
        Ok(()) => why(survey, track, route, counts),
    }
}

fn place_in_32_bits(survey: View, track: u32, route: &mut [u32], counts: &mut [u64]) -> u64 {
    u64::from(why(survey, track, route, counts) as u32)
}

fn counts_on_refusal(survey: View, track: u32, route: &mut [u32], counts: &mut [u64]) -> u64 {
    let answer = why(survey, track, route, counts);
    if answer != 0 {
        counts.fill(0);
    }
    answer
}

fn short_counts_taken(survey: View, track: u32, route: &mut [u32], counts: &mut [u64]) -> u64 {
    let mut own = [0; WHY_COUNTS];
    let answer = why(survey, track, route, &mut own);
    if answer == 0 {
        let many = counts.len().min(WHY_COUNTS);
        counts[..many].copy_from_slice(&own[..many]);
    }
    answer
}

fn operation() -> &'static Operation {
    OPERATIONS.iter().find(|operation| operation.name == "why").expect("it is one of them")
}

/// The first case that tells a library from the second implementation.
fn differs(why: Why) -> Option<u64> {
    (0..6_000).find(|&case| operation().compare(&Library { why, ..SECOND }, 1, case).is_err())
}

#[test]
fn faults_are_found() {
    let faulty: [(&str, Why); 32] = [
        ("the route from the larger", from_the_larger),
        ("a walk over picked tracks that keeps its dead ends", picked_with_dead_ends),
        ("a walk over kept tracks that keeps its dead ends", kept_with_dead_ends),
        ("a route over any tracks", over_any_tracks),
        ("a list by own groups alone", own_groups_only),
        ("the second-lowest pair", second_lowest_pair),
        ("the highest list", highest_list),
        ("the lowest pair of all lists", lowest_pair_of_all_lists),
        ("the lowest of lists poured together", list_by_class),
        ("the round before", round_before),
        ("never for a late join", never_for_a_late_join),
        ("the last round", last_round),
        ("a round for a kept track", round_of_kept),
        ("a round for a dropped track", round_of_dropped),
        ("a dropped track told as not picked", dropped_as_unpicked),
        ("smaller and larger swapped", smaller_and_larger_swapped),
        ("junctions of the route counted", junctions_counted),
        ("pairs ignored", pairs_ignored),
        ("the buffer written where there is no route", written_without_a_route),
        ("a stray entry past the route", stray_entry),
        ("the buffer past the route zeroed", rest_zeroed),
        ("7 only where a route is written", seven_only_for_a_route),
        ("7 only where the route does not fit", seven_where_it_does_not_fit),
        ("7 for n - 1 entries", room_for_n),
        ("19 before 8", nineteen_before_eight),
        ("19 before 7", nineteen_before_seven),
        ("8 before 7", eight_before_seven),
        ("7 before 18", seven_before_eighteen),
        ("a place in 32 bits", place_in_32_bits),
        ("counts written on a refusal", counts_on_refusal),
        ("counts lost", short_counts_taken),
        ("no reason", |_, _, _, _| 0),
    ];
    for (name, library) in faulty {
        assert!(differs(library).is_some(), "{name} is not found");
    }
}

#[test]
fn no_difference() {
    assert_eq!(differs(SECOND.why), None);
    assert_eq!(differs(over_picked_tracks), None);
    assert_eq!(differs(pair_by_the_larger), None);
}
