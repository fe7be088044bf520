//! One survey of two (No. 9): districts worked by hand, refusals in their order, both surveys read out again, what the
//! generated calls meet, and libraries with a fault each.

use evidence::calls::code;
use evidence::calls::generated::{merge::any_ties, OPERATIONS};
use evidence::calls::{Library, SECOND};
use evidence::gen::{overlap, survey, Rng, Size};
use evidence::merge::{district, merge_program, merged, places, put, run, Ties};
use evidence::plan::{owned, reference};
use evidence::read::Lent;
use evidence::{refuse, Refusal, Survey, View, MAX_JUNCTIONS, MAX_PAIRS, MAX_TRACKS};
use std::collections::BTreeSet;

fn ties<'a>([first, second]: [&'a [u32]; 2]) -> Ties<'a> {
    Ties { first, second }
}

#[test]
fn by_hand() {
    let north = Survey::new(&[1, 0, 2], &[(0, 1, 3)]).with_pairs(&[(1, 5), (2, 4)]);
    let south = Survey::new(&[2, 1, 3], &[(0, 1, 4), (1, 2, 5)]).with_pairs(&[(0, 4), (0, 9), (1, 7), (2, 5)]);
    // Junctions 0, 1, 2 of the second are 2, 3 and 1.
    let found = merged(north.view(), south.view(), ties([&[2, 1], &[0, 2]])).unwrap();
    let district = Survey::new(&[1, 3, 2, 1], &[(0, 1, 3), (2, 3, 4), (3, 1, 5)]);
    assert_eq!(found, district.with_pairs(&[(1, 5), (2, 4), (2, 9), (3, 7)]));
    // Without ties the second follows as it is.
    let found = merged(north.view(), south.view(), ties([&[], &[]])).unwrap();
    let beside = Survey::new(&[1, 0, 2, 2, 1, 3], &[(0, 1, 3), (3, 4, 4), (4, 5, 5)]);
    assert_eq!(found, beside.with_pairs(&[(1, 5), (2, 4), (3, 4), (3, 9), (4, 7), (5, 5)]));
    // All junctions tied, the other way round.
    let found = merged(north.view(), south.view(), ties([&[0, 1, 2], &[2, 1, 0]])).unwrap();
    let over = Survey::new(&[1, 1, 2], &[(0, 1, 3), (2, 1, 4), (1, 0, 5)]);
    assert_eq!(found, over.with_pairs(&[(0, 3), (0, 5), (1, 5), (1, 7), (2, 4), (2, 9)]));
}

/// The own number of a tied junction, and what is a pair beside it.
#[test]
fn own_numbers() {
    let one = |own: u8, pairs: &[(u32, u8)]| Survey::new(&[own], &[]).with_pairs(pairs);
    let tied = |first: Survey, second: Survey| merged(first.view(), second.view(), ties([&[0], &[0]])).unwrap();
    assert_eq!(tied(one(1, &[]), one(2, &[])), one(1, &[(0, 2)]));
    assert_eq!(tied(one(0, &[]), one(2, &[])), one(2, &[]));
    assert_eq!(tied(one(0, &[(0, 5)]), one(5, &[])), one(5, &[]));
    assert_eq!(tied(one(0, &[(0, 5)]), one(0, &[(0, 5), (0, 9)])), one(0, &[(0, 5), (0, 9)]));
    assert_eq!(tied(one(7, &[]), one(0, &[(0, 7)])), one(7, &[]));
    assert_eq!(tied(one(7, &[(0, 3)]), one(3, &[(0, 7)])), one(7, &[(0, 3)]));
}

/// Each half alone is refused with 8, and the district plans.
#[test]
fn two_halves() {
    let north = Survey::new(&[1, 0, 1, 0], &[(0, 1, 4), (2, 3, 2)]);
    let south = Survey::new(&[0, 2, 0, 2], &[(0, 1, 3), (2, 3, 6), (0, 2, 1)]);
    let cut = Survey { first: vec![0, 2], second: vec![1, 3], prices: vec![3, 6], ..south.clone() };
    for half in [&north, &cut] {
        let refusal = owned(reference, half.view()).unwrap_err();
        assert_eq!(refusal.number, 8);
    }
    let found = merged(north.view(), south.view(), ties([&[1, 3], &[0, 2]])).unwrap();
    assert_eq!(owned(reference, found.view()).unwrap().counts.cost, 4 + 1 + 2 + 3 + 6);
}

#[test]
fn refusals_in_their_order() {
    let sound = Survey::new(&[1, 1], &[(0, 1, 5)]).with_pairs(&[(0, 2)]);
    let s = sound.view();
    let refused = |number, place| Err(Refusal { number, place });
    let ask = |first: View, second: View, with: [&[u32]; 2]| merged(first, second, ties(with)).map(|_| ());
    let bad = View { second: &[0], ..s };
    let pair = View { others: &[1], ..s };
    assert_eq!(ask(s, s, [&[0, 1], &[1, 0]]), Ok(()));
    // The first's 18 before the second's 5, the second's 18 before 2 of the ties, that before 22.
    assert_eq!(ask(pair, bad, [&[9], &[]]), refused(18, 0));
    assert_eq!(ask(s, bad, [&[9], &[]]), refused(5, 0));
    assert_eq!(ask(s, pair, [&[9], &[]]), refused(18, 0));
    assert_eq!(ask(s, s, [&[9], &[]]), refused(2, 0));
    // The lowest bad tie: out of range on either side, a junction that is tied already on that side.
    assert_eq!(ask(s, s, [&[0, 2], &[0, 1]]), refused(22, 1));
    assert_eq!(ask(s, s, [&[0, 1], &[2, 1]]), refused(22, 0));
    assert_eq!(ask(s, s, [&[0, 0, 7], &[0, 1, 7]]), refused(22, 1));
    assert_eq!(ask(s, s, [&[0, 1, 7], &[1, 1, 7]]), refused(22, 1));
    assert_eq!(ask(s, s, [&[0, 1, 0], &[1, 0, 0]]), refused(22, 2));
    assert_eq!(ask(s, s, [&[1 << 31], &[0]]), refused(22, 0));
    // Of the district: 1, then 3, then 18 at 256; 22 before them.
    let many = Survey { groups: vec![0; 448], ..sound.clone() };
    let tracks = Survey {
        groups: vec![0; 448],
        first: vec![0; 2_048],
        second: vec![1; 2_048],
        prices: vec![1; 2_048],
        ..Survey::default()
    };
    let pairs = |from: u8| Survey::new(&[0, 0], &[(0, 1, 1)]).with_pairs(&rising(2, from, 256));
    assert_eq!(ask(many.view(), tracks.view(), [&[448], &[0]]), refused(22, 0));
    assert_eq!(ask(many.view(), tracks.view(), [&[], &[]]), refused(1, 0));
    let all: Vec<u32> = (0..448).collect();
    assert_eq!(ask(many.view(), tracks.view(), [&all, &all]), refused(3, 0));
    assert_eq!(ask(many.view(), many.view(), [&all, &all]), Ok(()));
    assert_eq!(ask(pairs(1).view(), pairs(100).view(), [&[0], &[0]]), refused(18, 256));
    assert_eq!(ask(pairs(1).view(), pairs(1).view(), [&[0, 1], &[0, 1]]), Ok(()));
}

/// So many pairs of n junctions, with groups from this one on.
fn rising(n: u32, from: u8, many: usize) -> Vec<(u32, u8)> {
    (0..n).flat_map(|v| (from..=255).map(move |group| (v, group))).take(many).collect()
}

/// All groups of each junction.
fn belongs(survey: View) -> Vec<BTreeSet<u8>> {
    let mut belongs: Vec<BTreeSet<u8>> =
        survey.groups.iter().map(|&own| Some(own).filter(|&own| own != 0).into_iter().collect()).collect();
    for (&v, &group) in survey.owners.iter().zip(survey.others) {
        belongs[v as usize].insert(group);
    }
    belongs
}

/// With the ties and the counts of both surveys all tracks are read out of the district, and what each untied junction
/// belongs to; a tied one belongs to what it belongs to in both. Planning would refuse the district for 8 alone.
#[test]
fn both_are_read_out() {
    let mut tied = 0;
    for case in 0..2_000 {
        let rng = &mut Rng::of_case(9, case);
        let [first, second] = [0; 2].map(|_| {
            let size = rng.pick(&[Size::Tiny, Size::Tiny, Size::Small]);
            let mut survey = survey(rng, size);
            if rng.chance(2, 3) {
                overlap(rng, &mut survey);
            }
            survey
        });
        let (n, m) = (first.groups.len(), first.first.len());
        let sides = any_ties(rng, [n, second.groups.len()]);
        let ties = ties([&sides[0], &sides[1]]);
        let found = district(first.view(), second.view(), ties);
        // The junction of the second at a place: that of a tie, or the next of the untied ones.
        let untied: Vec<u32> = (0..second.groups.len() as u32).filter(|v| !ties.second.contains(v)).collect();
        let back = |v: u32| match ties.first.iter().position(|&u| u == v) {
            Some(tie) => ties.second[tie],
            None => untied[v as usize - n],
        };
        assert_eq!((&found.first[..m], &found.second[..m]), (&first.first[..], &first.second[..]));
        let read: [Vec<u32>; 2] =
            [&found.first, &found.second].map(|ends| ends[m..].iter().map(|&v| back(v)).collect());
        assert_eq!(read, [second.first.clone(), second.second.clone()]);
        assert_eq!(found.prices, [&first.prices[..], &second.prices].concat());
        let [of, of_first, of_second] = [&found, &first, &second].map(|survey| belongs(survey.view()));
        for v in 0..n {
            let also = ties.first.iter().position(|&u| u as usize == v).map(|tie| ties.second[tie] as usize);
            let both = also.map_or_else(|| of_first[v].clone(), |also| &of_first[v] | &of_second[also]);
            assert_eq!(of[v], both);
        }
        untied.iter().enumerate().for_each(|(i, &v)| assert_eq!(of[n + i], of_second[v as usize]));
        assert_eq!(found.groups.len(), n + untied.len());
        if found.owners.len() <= MAX_PAIRS && found.groups.len() <= MAX_JUNCTIONS {
            assert_eq!(found.view().sound(), Ok(()));
        }
        tied += ties.first.len();
    }
    assert!(tied > 2_000, "{tied}");
}

fn operation() -> &'static evidence::calls::generated::Operation {
    OPERATIONS.iter().find(|operation| operation.name == "merge").unwrap()
}

/// What the generated calls come to: none, some and all junctions tied, districts with exactly 448 junctions, 2,048
/// tracks or 256 pairs and with one more, every refusal.
#[test]
fn what_is_met() {
    use std::cell::RefCell;
    thread_local!(static MET: RefCell<BTreeSet<&'static str>> = const { RefCell::new(BTreeSet::new()) });
    fn watch(first: View, second: View, ties: Ties, lent: Lent, counts: &mut [u64]) -> u64 {
        let meet = |name: &'static str| MET.with(|met| met.borrow_mut().insert(name));
        let (n, second_n) = (first.n(), second.n());
        if first.sound().is_ok() && second.sound().is_ok() {
            if ties.sound(n, second_n).is_ok() {
                let found = district(first, second, ties);
                let (all, pairs) = (ties.first.len(), found.owners.len());
                let chained =
                    all > 1 && ties.first.iter().zip(ties.second).any(|(u, v)| u != v && ties.first.contains(v));
                for (is, name) in [
                    (all == 0, "none tied"),
                    (all == n && all == second_n && n > 1, "all tied"),
                    (all == n && all < second_n, "all of the first tied"),
                    (all == second_n && all < n, "all of the second tied"),
                    (chained, "numbers that chain"),
                    (found.groups.len() == MAX_JUNCTIONS, "448 junctions"),
                    (found.groups.len() == MAX_JUNCTIONS + 1, "449 junctions"),
                    (found.first.len() == MAX_TRACKS, "2,048 tracks"),
                    (found.first.len() == MAX_TRACKS + 1, "2,049 tracks"),
                    (pairs == MAX_PAIRS, "256 pairs"),
                    (pairs == MAX_PAIRS + 1, "257 pairs"),
                ] {
                    let _ = is && meet(name);
                }
            } else if ties.first.len() > n.max(second_n) {
                meet("more ties than junctions");
            }
        }
        (SECOND.merge)(first, second, ties, lent, counts)
    }
    let mut came: BTreeSet<u64> = BTreeSet::new();
    for case in 0..8_000 {
        came.insert(operation().compare(&Library { merge: watch, ..SECOND }, 1, case).unwrap());
    }
    assert_eq!(came, [0, 1, 2, 3, 4, 5, 6, 7, 18, 22].into());
    MET.with(|met| assert_eq!(met.borrow().len(), 12, "{:?}", met.borrow()));
}

// ---- libraries with one fault each

type Merge = fn(View, View, Ties, Lent, &mut [u64]) -> u64;

/// Where nothing is refused, another district in place of this.
fn instead(
    first: View,
    second: View,
    ties: Ties,
    lent: Lent,
    counts: &mut [u64],
    other: impl Fn(Survey) -> Survey,
) -> u64 {
    let made = merged(first, second, ties).map(other);
    made.and_then(|district| put(&district, lent, counts)).map_or_else(code, |()| 0)
}

fn pairs_of(survey: &Survey) -> Vec<(u32, u8)> {
    survey.owners.iter().copied().zip(survey.others.iter().copied()).collect()
}

fn tied_pairs_dropped(first: View, second: View, ties: Ties, lent: Lent, counts: &mut [u64]) -> u64 {
    let pairs = second.owners.iter().zip(second.others).filter(|(v, _)| !ties.second.contains(v));
    let (owners, others): (Vec<u32>, Vec<u8>) = pairs.map(|(&v, &group)| (v, group)).unzip();
    let bare = View { owners: &owners, others: &others, ..second };
    instead(first, second, ties, lent, counts, |_| district(first, bare, ties))
}

fn firsts_pairs_dropped(first: View, second: View, ties: Ties, lent: Lent, counts: &mut [u64]) -> u64 {
    let pairs = first.owners.iter().zip(first.others).filter(|(v, _)| !ties.first.contains(v));
    let (owners, others): (Vec<u32>, Vec<u8>) = pairs.map(|(&v, &group)| (v, group)).unzip();
    let bare = View { owners: &owners, others: &others, ..first };
    instead(first, second, ties, lent, counts, |_| district(bare, second, ties))
}

/// Untied junctions by their own numbers behind the first's, as far as there is room.
fn untied_by_number(first: View, second: View, ties: Ties, lent: Lent, counts: &mut [u64]) -> u64 {
    instead(first, second, ties, lent, counts, |found| {
        let place = places(first.n(), second.n(), ties);
        let most = found.groups.len() as u32 - 1;
        let of = |v: u32| if v < first.n() as u32 { v } else { (first.n() as u32 + v).min(most) };
        let other = |ends: &[u32], own: &[u32]| -> Vec<u32> {
            let second =
                ends[own.len()..].iter().map(|&v| place.iter().position(|&p| p == v).map_or(v, |v| of(v as u32)));
            own.iter().copied().chain(second).collect()
        };
        Survey { first: other(&found.first, first.first), second: other(&found.second, first.second), ..found }
    })
}

fn untied_falling(first: View, second: View, ties: Ties, lent: Lent, counts: &mut [u64]) -> u64 {
    instead(first, second, ties, lent, counts, |found| {
        let (n, last) = (first.n() as u32, found.groups.len() as u32 - 1);
        let turn = |v: u32| if v < n { v } else { last - (v - n) };
        let mut groups = found.groups.clone();
        groups[n as usize..].reverse();
        let mut pairs: Vec<(u32, u8)> = pairs_of(&found).into_iter().map(|(v, group)| (turn(v), group)).collect();
        pairs.sort_unstable();
        let [first, second] = [&found.first, &found.second].map(|ends| ends.iter().map(|&v| turn(v)).collect());
        Survey { groups, first, second, ..found }.with_pairs(&pairs)
    })
}

fn ends_as_they_were(first: View, second: View, ties: Ties, lent: Lent, counts: &mut [u64]) -> u64 {
    let [ends, others] = [[first.first, second.first], [first.second, second.second]].map(|ends| ends.concat());
    instead(first, second, ties, lent, counts, |found| Survey { first: ends.clone(), second: others.clone(), ..found })
}

fn seconds_tracks_first(first: View, second: View, ties: Ties, lent: Lent, counts: &mut [u64]) -> u64 {
    instead(first, second, ties, lent, counts, |mut found| {
        let m = first.m();
        [&mut found.first, &mut found.second, &mut found.prices].into_iter().for_each(|buffer| buffer.rotate_left(m));
        found
    })
}

fn prices_swapped(first: View, second: View, ties: Ties, lent: Lent, counts: &mut [u64]) -> u64 {
    let prices = [second.prices, first.prices].concat();
    instead(first, second, ties, lent, counts, |found| Survey { prices: prices.clone(), ..found })
}

/// Own numbers by another rule, and every other membership a pair.
fn owned_by(found: Survey, own: impl Fn(usize, u8) -> u8) -> Survey {
    let all = belongs(found.view());
    let groups: Vec<u8> = found.groups.iter().enumerate().map(|(v, &group)| own(v, group)).collect();
    let each = all.iter().zip(0u32..).flat_map(|(all, v)| all.iter().map(move |&group| (v, group)));
    let pairs: Vec<(u32, u8)> = each.filter(|&(v, group)| groups[v as usize] != group).collect();
    Survey { groups, ..found }.with_pairs(&pairs)
}

fn own_of_the_second(first: View, second: View, ties: Ties, lent: Lent, counts: &mut [u64]) -> u64 {
    let own = |v: usize, group: u8| {
        let tie = ties.first.iter().position(|&u| u as usize == v);
        tie.map(|tie| second.groups[ties.second[tie] as usize]).filter(|&own| own != 0).unwrap_or(group)
    };
    instead(first, second, ties, lent, counts, |found| owned_by(found, own))
}

fn own_of_the_first_alone(first: View, second: View, ties: Ties, lent: Lent, counts: &mut [u64]) -> u64 {
    let own = |v: usize, group: u8| first.groups.get(v).copied().unwrap_or(group);
    instead(first, second, ties, lent, counts, |found| owned_by(found, own))
}

fn own_by_a_pair(first: View, second: View, ties: Ties, lent: Lent, counts: &mut [u64]) -> u64 {
    let own = |v: usize, group: u8| match first.groups.get(v) {
        Some(0) => {
            let pair = first.owners.iter().position(|&u| u as usize == v);
            pair.map_or(group, |pair| first.others[pair])
        }
        _ => group,
    };
    instead(first, second, ties, lent, counts, |found| owned_by(found, own))
}

fn seconds_own_lost(first: View, second: View, ties: Ties, lent: Lent, counts: &mut [u64]) -> u64 {
    let mut groups = second.groups.to_vec();
    if ties.sound(first.n(), second.n()).is_ok() {
        ties.second.iter().zip(ties.first).for_each(|(&v, &u)| {
            if first.groups[u as usize] != 0 {
                groups[v as usize] = 0;
            }
        });
    }
    instead(first, second, ties, lent, counts, |_| district(first, View { groups: &groups, ..second }, ties))
}

/// Where both have a membership that is a pair, twice.
fn pair_twice(first: View, second: View, ties: Ties, lent: Lent, counts: &mut [u64]) -> u64 {
    instead(first, second, ties, lent, counts, |found| {
        let (one, other) = (belongs(first), belongs(second));
        let both = |v: u32, group: u8| {
            let tie = ties.first.iter().position(|&u| u == v);
            tie.is_some_and(|tie| one[v as usize].contains(&group) && other[ties.second[tie] as usize].contains(&group))
        };
        let pairs = pairs_of(&found).into_iter();
        let pairs: Vec<(u32, u8)> =
            pairs.flat_map(|(v, group)| vec![(v, group); 1 + usize::from(both(v, group))]).collect();
        found.with_pairs(&pairs)
    })
}

fn pairs_not_sorted(first: View, second: View, ties: Ties, lent: Lent, counts: &mut [u64]) -> u64 {
    instead(first, second, ties, lent, counts, |found| {
        let own: BTreeSet<(u32, u8)> = first.owners.iter().copied().zip(first.others.iter().copied()).collect();
        let (mut pairs, later): (Vec<_>, Vec<_>) = pairs_of(&found).into_iter().partition(|pair| own.contains(pair));
        pairs.extend(later);
        found.with_pairs(&pairs)
    })
}

fn pairs_cut(first: View, second: View, ties: Ties, lent: Lent, counts: &mut [u64]) -> u64 {
    match merged(first, second, ties) {
        Err(Refusal { number: 18, place: 256 }) if first.sound().is_ok() && second.sound().is_ok() => {
            let found = district(first, second, ties);
            let pairs = pairs_of(&found);
            put(&found.with_pairs(&pairs[..MAX_PAIRS]), lent, counts).map_or_else(code, |()| 0)
        }
        _ => (SECOND.merge)(first, second, ties, lent, counts),
    }
}

/// What is judged before all else, where both surveys are sound.
fn early(
    (first, second, ties): (View, View, Ties),
    lent: Lent,
    counts: &mut [u64],
    due: impl Fn(View, View, Ties) -> Result<(), Refusal>,
) -> u64 {
    if first.sound().is_err() || second.sound().is_err() {
        return (SECOND.merge)(first, second, ties, lent, counts);
    }
    due(first, second, ties).map_or_else(code, |()| (SECOND.merge)(first, second, ties, lent, counts))
}

fn later_tie(first: View, second: View, ties: Ties, lent: Lent, counts: &mut [u64]) -> u64 {
    // The higher of the two that name a junction: where a later tie is bad too, that one.
    early((first, second, ties), lent, counts, |first, second, ties| {
        let lowest = ties.sound(first.n(), second.n());
        match lowest {
            Err(Refusal { number: 22, place }) => {
                let bad = |i: &usize| {
                    let (u, v) = (ties.first[*i], ties.second[*i]);
                    let before = ties.first[..*i].contains(&u) || ties.second[..*i].contains(&v);
                    u as usize >= first.n() || v as usize >= second.n() || before
                };
                refuse(22, (0..ties.first.len()).filter(bad).next_back().unwrap_or(place as usize))
            }
            _ => Ok(()),
        }
    })
}

fn earlier_tie(first: View, second: View, ties: Ties, lent: Lent, counts: &mut [u64]) -> u64 {
    // The lower of two that name the same junction.
    early((first, second, ties), lent, counts, |first, second, ties| match ties.sound(first.n(), second.n()) {
        Err(Refusal { number: 22, place }) => {
            let (u, v) = (ties.first[place as usize], ties.second[place as usize]);
            let same = |i: &usize| ties.first[*i] == u || ties.second[*i] == v;
            refuse(22, (0..=place as usize).find(same).unwrap_or(0))
        }
        _ => Ok(()),
    })
}

/// Ties judged on one side alone: the other's repeats are passed.
fn one_side_judged(first: View, second: View, ties: Ties, lent: Lent, counts: &mut [u64]) -> u64 {
    let answer = (SECOND.merge)(first, second, ties, lent, counts);
    if answer % 256 != 22 || first.sound().is_err() || second.sound().is_err() {
        return answer;
    }
    let place = answer as usize / 256;
    let seen = ties.first[..place].contains(&ties.first[place]) || ties.first[place] as usize >= first.n();
    let out = ties.second[place] as usize >= second.n();
    if seen || out {
        answer
    } else {
        0
    }
}

fn twenty_two_before_two(first: View, second: View, ties: Ties, lent: Lent, counts: &mut [u64]) -> u64 {
    early((first, second, ties), lent, counts, |first, second, ties| {
        let many = ties.first.len().min(ties.second.len());
        Ties { first: &ties.first[..many], second: &ties.second[..many] }.sound(first.n(), second.n())
    })
}

fn unequal_ties_cut(first: View, second: View, ties: Ties, lent: Lent, counts: &mut [u64]) -> u64 {
    let many = ties.first.len().min(ties.second.len());
    let cut = Ties { first: &ties.first[..many], second: &ties.second[..many] };
    (SECOND.merge)(first, second, cut, lent, counts)
}

fn ties_before_the_second(first: View, second: View, ties: Ties, lent: Lent, counts: &mut [u64]) -> u64 {
    match first.sound().and_then(|()| ties.sound(first.n(), second.n())) {
        Err(refusal) => code(refusal),
        Ok(()) => (SECOND.merge)(first, second, ties, lent, counts),
    }
}

fn second_before_the_first(first: View, second: View, ties: Ties, lent: Lent, counts: &mut [u64]) -> u64 {
    match second.sound() {
        Err(refusal) => code(refusal),
        Ok(()) => (SECOND.merge)(first, second, ties, lent, counts),
    }
}

fn counts_before_ties(first: View, second: View, ties: Ties, lent: Lent, counts: &mut [u64]) -> u64 {
    early((first, second, ties), lent, counts, |first, second, _| {
        if first.m() + second.m() > MAX_TRACKS {
            return refuse(3, 0);
        }
        Ok(())
    })
}

fn three_before_one(first: View, second: View, ties: Ties, lent: Lent, counts: &mut [u64]) -> u64 {
    match (SECOND.merge)(first, second, ties, lent, counts) {
        1 if first.sound().is_ok() && second.sound().is_ok() && first.m() + second.m() > MAX_TRACKS => 3,
        answer => answer,
    }
}

fn sum_of_junctions(first: View, second: View, ties: Ties, lent: Lent, counts: &mut [u64]) -> u64 {
    early((first, second, ties), lent, counts, |first, second, ties| {
        ties.sound(first.n(), second.n())?;
        if first.n() + second.n() > MAX_JUNCTIONS {
            return refuse(1, 0);
        }
        Ok(())
    })
}

fn sum_of_pairs(first: View, second: View, ties: Ties, lent: Lent, counts: &mut [u64]) -> u64 {
    let pairs = first.owners.len() + second.owners.len();
    match merged(first, second, ties) {
        Ok(_) if pairs > MAX_PAIRS => 18 + 256 * 256,
        _ => (SECOND.merge)(first, second, ties, lent, counts),
    }
}

fn place_of_the_pair_0(first: View, second: View, ties: Ties, lent: Lent, counts: &mut [u64]) -> u64 {
    match (SECOND.merge)(first, second, ties, lent, counts) {
        answer if answer == 18 + 256 * 256 => 18,
        answer => answer,
    }
}

fn seven_before_the_district(first: View, second: View, ties: Ties, lent: Lent, counts: &mut [u64]) -> u64 {
    let short = counts.len() < 3;
    early((first, second, ties), lent, counts, |first, second, ties| {
        ties.sound(first.n(), second.n())?;
        if short {
            return refuse(7, 0);
        }
        Ok(())
    })
}

fn eight_judged(first: View, second: View, ties: Ties, lent: Lent, counts: &mut [u64]) -> u64 {
    match merged(first, second, ties) {
        Ok(found) => match found.view().unjoined(|_| true) {
            Some(group) => 8 + 256 * u64::from(group),
            None => (SECOND.merge)(first, second, ties, lent, counts),
        },
        Err(refusal) => code(refusal),
    }
}

fn rest_zeroed(first: View, second: View, ties: Ties, mut lent: Lent, counts: &mut [u64]) -> u64 {
    let answer = (SECOND.merge)(first, second, ties, again(&mut lent), counts);
    if answer == 0 {
        lent.others[counts[2] as usize..].fill(0);
    }
    answer
}

fn groups_on_a_refusal(first: View, second: View, ties: Ties, mut lent: Lent, counts: &mut [u64]) -> u64 {
    let answer = (SECOND.merge)(first, second, ties, again(&mut lent), counts);
    if answer == 7 && lent.groups.len() >= first.n() {
        lent.groups[..first.n()].copy_from_slice(first.groups);
    }
    answer
}

fn counts_on_a_refusal(first: View, second: View, ties: Ties, lent: Lent, counts: &mut [u64]) -> u64 {
    let answer = (SECOND.merge)(first, second, ties, lent, counts);
    if answer % 256 == 18 && counts.len() > 2 {
        counts[2] = 0;
    }
    answer
}

fn two_counts(first: View, second: View, ties: Ties, lent: Lent, counts: &mut [u64]) -> u64 {
    let mut own = [0; 3];
    match (SECOND.merge)(first, second, ties, lent, &mut own) {
        0 if counts.len() >= 2 => {
            let many = counts.len().min(3);
            counts[..many].copy_from_slice(&own[..many]);
            0
        }
        0 => 7,
        answer => answer,
    }
}

/// Ties whose numbers are read as bytes, where that leaves them sound.
fn ties_of_bytes(first: View, second: View, ties: Ties, lent: Lent, counts: &mut [u64]) -> u64 {
    let [u, v] = [ties.first, ties.second].map(|side| side.iter().map(|&v| v & 255).collect::<Vec<u32>>());
    let cut = Ties { first: ties.first, second: &v };
    let either = if cut.sound(first.n(), second.n()).is_ok() { cut } else { Ties { first: &u, second: ties.second } };
    if either.sound(first.n(), second.n()).is_err() && ties.sound(first.n(), second.n()).is_ok() {
        return (SECOND.merge)(first, second, Ties { first: &[], second: &[] }, lent, counts);
    }
    instead(first, second, ties, lent, counts, |_| district(first, second, either))
}

/// Places of the second's junctions that are bytes.
fn places_of_bytes(first: View, second: View, ties: Ties, lent: Lent, counts: &mut [u64]) -> u64 {
    instead(first, second, ties, lent, counts, |found| {
        let low =
            |ends: &[u32]| ends.iter().enumerate().map(|(t, &v)| if t < first.m() { v } else { v & 255 }).collect();
        Survey { first: low(&found.first), second: low(&found.second), ..found }
    })
}

/// The same buffers, lent on.
fn again<'a>(lent: &'a mut Lent) -> Lent<'a> {
    Lent {
        groups: &mut *lent.groups,
        first: &mut *lent.first,
        second: &mut *lent.second,
        prices: &mut *lent.prices,
        owners: &mut *lent.owners,
        others: &mut *lent.others,
    }
}

#[test]
fn faults_are_found() {
    let differs = |library: &Library| (0..5_000).any(|case| operation().compare(library, 1, case).is_err());
    assert!(!differs(&SECOND));
    let faulty: [(&str, Merge); 36] = [
        ("ties of bytes", ties_of_bytes),
        ("places of bytes", places_of_bytes),
        ("the second's pairs of tied junctions dropped", tied_pairs_dropped),
        ("the first's pairs of tied junctions dropped", firsts_pairs_dropped),
        ("untied ones numbered by their own numbers", untied_by_number),
        ("untied ones falling", untied_falling),
        ("the second's ends as they were", ends_as_they_were),
        ("the second's tracks first", seconds_tracks_first),
        ("the second's prices first", prices_swapped),
        ("the own number from the second", own_of_the_second),
        ("no own number from the second", own_of_the_first_alone),
        ("an own number by a pair of the first", own_by_a_pair),
        ("the second's own number lost", seconds_own_lost),
        ("what both have a pair twice", pair_twice),
        ("the second's pairs behind the first's", pairs_not_sorted),
        ("the 257th pair cut", pairs_cut),
        ("22 at the last bad tie", later_tie),
        ("22 at the lower of two that name a junction", earlier_tie),
        ("the second side's repeats passed", one_side_judged),
        ("22 before 2", twenty_two_before_two),
        ("ties of unequal length cut", unequal_ties_cut),
        ("ties before the second survey", ties_before_the_second),
        ("the second survey before the first", second_before_the_first),
        ("3 before 22", counts_before_ties),
        ("3 before 1", three_before_one),
        ("tied junctions counted twice", sum_of_junctions),
        ("pairs of both counted twice", sum_of_pairs),
        ("18 of the district at 0", place_of_the_pair_0),
        ("7 before 1, 3 and 18 of the district", seven_before_the_district),
        ("8 judged", eight_judged),
        ("others past the last zeroed", rest_zeroed),
        ("groups written on 7", groups_on_a_refusal),
        ("counts written on 18", counts_on_a_refusal),
        ("two counts taken", two_counts),
        ("n and m swapped", |first, second, ties, lent, counts| {
            let answer = (SECOND.merge)(first, second, ties, lent, counts);
            if answer == 0 {
                counts.swap(0, 1);
            }
            answer
        }),
        ("the place cut", |first, second, ties, lent, counts| {
            (SECOND.merge)(first, second, ties, lent, counts) % (256 * 256)
        }),
    ];
    for (name, merge) in faulty {
        assert!(differs(&Library { merge, ..SECOND }), "{name} is not found");
    }
}

// ---- the program

/// A text with its ties the other way round.
fn turned(input: &[u8]) -> Vec<u8> {
    let lines = input.split_inclusive(|&byte| byte == b'\n').map(|line| {
        let line = String::from_utf8_lossy(line).into_owned();
        match line.strip_prefix("tie=").and_then(|rest| rest.trim_end().split_once(',')) {
            Some((u, v)) => format!("tie={v},{u}\n"),
            None => line,
        }
    });
    lines.collect::<String>().into_bytes()
}

/// Where the second text begins, if there is one.
fn second_text(input: &[u8]) -> usize {
    (1..input.len()).find(|&at| input[at..].starts_with(b"nodes=")).unwrap_or(0)
}

#[test]
fn program_by_hand() {
    let survey = "nodes=2\nlinks=1\nnode=1\nnode=0\nlink=0,1,5\n";
    let print = |more: &str| merge_program(format!("{survey}{survey}{more}").as_bytes());
    assert_eq!(print(""), "nodes=4\nlinks=2\nnode=1\nnode=0\nnode=1\nnode=0\nlink=0,1,5\nlink=2,3,5\n");
    assert_eq!(print("tie=1,0\n"), "nodes=3\nlinks=2\nnode=1\nnode=1\nnode=0\nlink=0,1,5\nlink=1,2,5\n");
    let length = 2 * survey.len();
    let refused = |number: usize, place: usize| format!("refused={number}\nplace={place}\n");
    assert_eq!(print("tie=0,0"), refused(16, length + 7));
    assert_eq!(print("tie=00,0\n"), refused(16, length + 5));
    assert_eq!(print("tie=1000,0\n"), refused(16, length + 7));
    assert_eq!(print("\n"), refused(16, length));
    assert_eq!(print("tie=0,1\ntie=999,0\n"), refused(22, 1));
    // A 449th line is none, whatever stands in those before.
    assert_eq!(print(&"tie=0,0\n".repeat(448)), refused(22, 1));
    assert_eq!(print(&"tie=0,0\n".repeat(449)), refused(16, length + 448 * 8));
    assert_eq!(merge_program(survey.as_bytes()), refused(16, survey.len()));
    assert_eq!(merge_program(format!("{survey}nodes=01").as_bytes()), refused(16, survey.len() + 7));
    assert_eq!(merge_program(format!("{survey}nodes=449\n").as_bytes()), refused(1, 0));
}

#[test]
fn faulty_programs_are_found() {
    let runs: Vec<_> = (0..1_500).map(|case| run(1, case)).collect();
    let came: BTreeSet<u32> = runs.iter().filter_map(|run| run.counted.as_ref().err()).map(|r| r.number).collect();
    assert!(came.is_superset(&[1, 3, 4, 16, 17, 18, 22].into()), "{came:?}");
    assert!(runs.iter().filter(|run| run.counted.is_ok()).count() > 500);
    type Program = fn(&[u8]) -> String;
    let faulty: [(&str, Program); 5] = [
        ("22 for a 449th tie", |input| {
            let ties = (0..input.len()).filter(|&at| input[at..].starts_with(b"tie=")).nth(448);
            merge_program(&input[..ties.unwrap_or(input.len())])
        }),
        ("ties the other way round", |input| merge_program(&turned(input))),
        ("16 counted in the second text", |input| {
            let lines = merge_program(input);
            match lines.strip_prefix("refused=16\nplace=").and_then(|place| place.trim_end().parse::<usize>().ok()) {
                Some(place) if place >= second_text(input) => {
                    format!("refused=16\nplace={}\n", place - second_text(input))
                }
                _ => lines,
            }
        }),
        ("the last tie left out", |input| {
            let last = (0..input.len()).rev().find(|&at| input[at..].starts_with(b"tie="));
            merge_program(&input[..last.unwrap_or(input.len())])
        }),
        ("no also lines", |input| {
            let lines = merge_program(input);
            lines.split_inclusive('\n').filter(|line| !line.starts_with("also=")).collect()
        }),
    ];
    for (name, program) in faulty {
        assert!(runs.iter().any(|run| program(&run.input).as_bytes() != run.printed), "{name} is not found");
    }
}
