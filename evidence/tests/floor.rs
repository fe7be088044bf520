//! The floor: by hand, as a certificate whose conditions are looked at one by one, against the ascent written out plainly,
//! against the cheapest joining sets of tiny and of small surveys; and libraries with a fault each.

use evidence::brute;
use evidence::calls::code;
use evidence::calls::generated::OPERATIONS;
use evidence::calls::{Library, SECOND};
use evidence::floor::{ascent, floor, floor_of, floor_program, gap, half, poured, run, Cut, HALF_IS_MORE};
use evidence::gen::exact::{one_list, two_sites};
use evidence::gen::{overlap, survey, tiny, Rng, Size, WORKED};
use evidence::plan::{fast, owned};
use evidence::{refuse, steiner, Refusal, Survey, View};

fn figures(survey: &Survey) -> [u64; 4] {
    let mut counts = [7; 4];
    floor(survey.view(), &mut counts).expect("it can be joined");
    counts
}

/// P1 to P11: of each the floor, sites, cost and bound. P9's spokes cost 9, and the floor says so.
#[test]
fn by_hand() {
    let due = [
        [0, 0, 0, 0],
        [5, 2, 5, 10],
        [7, 2, 7, 14],
        [2, 3, 2, 3],
        [3, 2, 3, 6],
        [5, 2, 5, 10],
        [0, 0, 0, 0],
        [0, 2, 0, 0],
        [9, 3, 10, 15],
        [10, 4, 10, 14],
        [7, 4, 7, 12],
    ];
    for (i, ((groups, tracks), due)) in WORKED.iter().zip(due).enumerate() {
        assert_eq!(figures(&Survey::new(groups, tracks)), due, "P{}", i + 1);
    }
}

#[test]
fn refusals_in_their_order() {
    let apart = Survey::new(&[1, 1, 2, 2], &[(0, 1, 1)]);
    let refused = |number, place| Err(Refusal { number, place });
    let ask = |survey: View, room: usize| {
        let mut counts = vec![7; room];
        let answer = floor(survey, &mut counts);
        assert!(answer.is_ok() || counts == vec![7; room]);
        answer
    };
    assert_eq!(ask(View { owners: &[0], others: &[0], ..apart.view() }, 3), refused(18, 0));
    assert_eq!(ask(apart.view(), 3), refused(7, 0));
    assert_eq!(ask(apart.view(), 4), refused(8, 2));
    assert_eq!(ask(Survey::new(&[1, 1], &[(0, 1, 1)]).view(), 5), Ok(()));
}

/// Lists that share a member become one, also by a chain, and stand where the lowest of them stood.
#[test]
fn poured_lists() {
    let survey = Survey::new(&[3, 3, 2, 2, 1, 1, 5], &[]);
    let of = |pairs: &[(u32, u8)]| poured(survey.clone().with_pairs(pairs).view());
    assert_eq!(of(&[]), [vec![4, 5], vec![2, 3], vec![0, 1]]);
    // 3 with 1.
    assert_eq!(of(&[(0, 1)]), [vec![0, 1, 4, 5], vec![2, 3]]);
    // 3 with 2 by 9.
    assert_eq!(of(&[(1, 9), (2, 9)]), [vec![4, 5], vec![0, 1, 2, 3]]);
    // A lone list makes 5 a group of two; one of its own is none.
    assert_eq!(of(&[(0, 5), (4, 8)]), [vec![4, 5], vec![2, 3], vec![0, 1, 6]]);
    // A lone list that is poured into a group counts in its place.
    let lone = Survey::new(&[2, 2, 3, 3], &[]).with_pairs(&[(2, 1)]);
    assert_eq!(poured(lone.view()), [vec![2, 3], vec![0, 1]]);
}

/// Where the shares come to less, half the bound is the floor, rounded up.
#[test]
fn half_the_bound() {
    for (groups, tracks) in HALF_IS_MORE {
        let survey = Survey::new(groups, tracks);
        let shares: u64 = ascent(survey.view(), &poured(survey.view()), |_| ()).iter().sum();
        let [floor, _, _, bound] = figures(&survey);
        assert!(shares < floor && bound % 2 == 1 && floor == bound / 2 + 1, "{survey:?}: {shares}, {bound}");
        assert!(floor <= brute::cheapest(survey.view()).expect("it can be joined"));
    }
}

/// A survey whose groups can be joined, half of them with pairs.
fn joinable(seed: u64, case: u64, size: Size) -> Survey {
    let rng = &mut Rng::of_case(seed, case);
    loop {
        let mut survey = survey(rng, size);
        if rng.chance(1, 2) {
            overlap(rng, &mut survey);
        }
        if survey.view().unjoined(|_| true).is_none() {
            return survey;
        }
    }
}

/// The certificate: a cut of list k is for a group from k on, holds a member of it and not k's root; no arc is entered by
/// more than its price in one list; every list up to a group's own has its share for it.
#[test]
fn certificates() {
    let (mut cuts_of_others, mut many) = (0, 0);
    for case in 0..3_000 {
        let size = if case % 4 == 0 { Size::Middle } else { Size::Small };
        let survey = joinable(40, case, size);
        let (view, groups) = (survey.view(), poured(survey.view()));
        let mut cuts: Vec<Cut> = Vec::new();
        let share = ascent(view, &groups, |cut| cuts.push(cut));
        for Cut { list, group, amount, inside } in &cuts {
            let member = groups[*group].iter().any(|v| inside.contains(v));
            assert!(group >= list && *amount > 0 && member && !inside.contains(&groups[*list][0]));
        }
        for list in 0..groups.len() {
            let of: Vec<&Cut> = cuts.iter().filter(|cut| cut.list == list).collect();
            for t in 0..view.m() {
                let ends = [view.first[t] as usize, view.second[t] as usize];
                for [from, to] in [ends, [ends[1], ends[0]]] {
                    let enters = |cut: &&&Cut| cut.inside.contains(&to) && !cut.inside.contains(&from);
                    let load: u64 = of.iter().filter(enters).map(|cut| cut.amount).sum();
                    assert!(load <= u64::from(view.prices[t]), "{survey:?}");
                }
            }
            for group in list..groups.len() {
                let got: u64 = of.iter().filter(|cut| cut.group == group).map(|cut| cut.amount).sum();
                assert!(got >= share[group], "{survey:?}");
            }
            cuts_of_others += of.iter().filter(|cut| cut.group > list).count();
        }
        many += usize::from(groups.len() > 1);
    }
    assert!(cuts_of_others > 1_000 && many > 500, "{cuts_of_others} {many}");
}

/// No joining set costs less: by trying every set.
#[test]
fn below_the_cheapest_of_tiny_surveys() {
    let mut exact = 0;
    for case in 0..6_000 {
        let survey = tiny(&mut Rng::of_case(41, case));
        let [floor, _, cost, bound] = figures(&survey);
        let best = brute::cheapest(survey.view()).expect("it can be joined");
        assert!(half(bound) <= floor && floor <= best && best <= cost, "{survey:?}: {floor}, {best}, {cost}");
        exact += u64::from(floor == best);
    }
    assert!(exact > 4_000, "{exact}");
}

/// Dreyfus and Wagner find what trying every set finds.
#[test]
fn cheapest_trees() {
    let mut tried = 0;
    for case in 0..3_000 {
        let survey = tiny(&mut Rng::of_case(42, case));
        if let Some(best) = steiner::cheapest(survey.view()) {
            assert_eq!(Some(best), brute::cheapest(survey.view()), "{survey:?}");
            tried += 1;
        }
    }
    assert!(tried > 2_000, "{tried}");
    assert_eq!(steiner::cheapest(Survey::new(&[1, 1], &[]).view()), None);
}

/// No joining set costs less: by Dreyfus and Wagner, and by every way to put the lists into trees.
#[test]
fn below_the_cheapest_of_small_surveys() {
    let (mut tried, mut exact) = (0, 0);
    for case in 0..1_500 {
        let survey = joinable(43, case, if case % 3 == 0 { Size::Middle } else { Size::Small });
        let few = survey.view().sites() <= 8;
        let Some(best) = few.then(|| steiner::cheapest(survey.view())).flatten() else { continue };
        let [floor, _, cost, _] = figures(&survey);
        assert!(floor <= best && best <= cost, "{survey:?}: {floor}, {best}, {cost}");
        tried += 1;
        exact += u64::from(floor == best);
    }
    assert!(tried > 500 && exact > 300, "{tried} {exact}");
}

/// With two sites the floor is the cost. With all junctions in one list it is often less.
#[test]
fn where_near_best_is_best() {
    let mut less = 0;
    for case in 0..400 {
        let [floor, sites, cost, bound] = figures(&two_sites(&mut Rng::of_case(44, case)).0);
        assert_eq!((floor, sites, half(bound)), (cost, 2, cost));
        let [floor, _, cost, _] = figures(&one_list(&mut Rng::of_case(45, case)));
        less += u64::from(floor < cost);
    }
    assert!(less > 0, "{less}");
}

// ---- the ascent written out plainly, with a slip

#[derive(Clone, Copy, Debug, PartialEq)]
enum Slip {
    None,
    /// Cuts may hold the root, as long as some arc enters them.
    RootInside,
    /// Only the arcs that have the least rest are lowered.
    ArcsOverloaded,
    /// Each list has cuts for its own group alone.
    OwnListAlone,
    SharesNeverLowered,
    OnePass,
    LastPassLeftOut,
    /// A cut may take more for a group than its share.
    NoLimitByShare,
    HighestRoot,
    MembersFall,
    ListsRise,
    /// One rest for both arcs of a track.
    Undirected,
    /// A member of the group is enough; which others lead to it is not asked.
    SingleJunctions,
    /// Rests are kept from list to list.
    RestKept,
}

/// The floor's shares, from the definition line by line.
fn plainly(survey: View, groups: &[Vec<usize>], slip: Slip) -> u64 {
    let count = groups.len();
    let mut share = vec![0u64; count];
    // An arc is from, to, track.
    let both = |t: usize| {
        let ends = (survey.first[t] as usize, survey.second[t] as usize);
        [(ends.0, ends.1, t), (ends.1, ends.0, t)]
    };
    let arcs: Vec<(usize, usize, usize)> = (0..survey.m()).flat_map(both).collect();
    let prices = || arcs.iter().map(|arc| u64::from(survey.prices[arc.2])).collect::<Vec<u64>>();
    let mut rest = prices();
    let order: Vec<usize> = if slip == Slip::ListsRise { (0..count).collect() } else { (0..count).rev().collect() };
    for k in order {
        let root = if slip == Slip::HighestRoot { groups[k][groups[k].len() - 1] } else { groups[k][0] };
        if slip != Slip::RestKept {
            rest = prices();
        }
        let mut got = vec![0u64; count];
        let mut before = got.clone();
        for pass in 0.. {
            let mut changes = false;
            let last = got.clone();
            for l in k..if slip == Slip::OwnListAlone { k + 1 } else { count } {
                let mut members = groups[l].clone();
                if slip == Slip::MembersFall {
                    members.reverse();
                }
                for t in members {
                    if l > k && got[l] >= share[l] {
                        continue;
                    }
                    let mut inside = vec![false; survey.n()];
                    inside[t] = true;
                    while slip != Slip::SingleJunctions {
                        let next = (0..arcs.len()).find(|&a| rest[a] == 0 && inside[arcs[a].1] && !inside[arcs[a].0]);
                        let Some(a) = next else { break };
                        inside[arcs[a].0] = true;
                    }
                    if inside[root] && slip != Slip::RootInside {
                        continue;
                    }
                    let enters = |a: &usize| inside[arcs[*a].1] && !inside[arcs[*a].0];
                    let entering: Vec<usize> = (0..arcs.len()).filter(enters).collect();
                    let least = entering.iter().map(|&a| rest[a]).min();
                    let wanted = (l > k && slip != Slip::NoLimitByShare).then(|| share[l] - got[l]);
                    let Some(amount) = least.into_iter().chain(wanted).min().filter(|&amount| amount > 0) else {
                        continue;
                    };
                    for &a in &entering {
                        let lowered = slip != Slip::ArcsOverloaded || rest[a] == amount;
                        rest[a] -= if lowered { amount } else { 0 };
                        if slip == Slip::Undirected {
                            rest[a ^ 1] = rest[a];
                        }
                    }
                    got[l] += amount;
                    changes = true;
                }
            }
            if !changes || slip == Slip::OnePass {
                break;
            }
            before = last;
            assert!(pass < 10_000);
        }
        if slip == Slip::LastPassLeftOut {
            got = before;
        }
        share[k] = got[k];
        if slip != Slip::SharesNeverLowered && slip != Slip::OwnListAlone {
            (k + 1..count).for_each(|l| share[l] = share[l].min(got[l]));
        }
    }
    share.iter().sum()
}

#[test]
fn plainly_the_same() {
    for case in 0..1_500 {
        let survey = joinable(46, case, Size::Small);
        let groups = poured(survey.view());
        let shares: u64 = ascent(survey.view(), &groups, |_| ()).iter().sum();
        assert_eq!(shares, plainly(survey.view(), &groups, Slip::None), "{survey:?}");
    }
}

/// Where nothing is refused, another floor in place of this.
fn instead(survey: View, counts: &mut [u64], other: impl Fn(u64) -> u64) -> u64 {
    let answer = (SECOND.floor)(survey, counts);
    if answer == 0 {
        counts[0] = other(counts[0]);
    }
    answer
}

/// The floor with a slip, of small surveys.
fn slipped<const SLIP: usize>(survey: View, counts: &mut [u64]) -> u64 {
    if survey.n() > 60 {
        return (SECOND.floor)(survey, counts);
    }
    let bound = owned(fast, survey).map_or(0, |plan| plan.counts.bound);
    instead(survey, counts, |_| plainly(survey, &poured(survey), SLIPS[SLIP]).max(half(bound)))
}

const SLIPS: [Slip; 14] = [
    Slip::None,
    Slip::RootInside,
    Slip::ArcsOverloaded,
    Slip::OwnListAlone,
    Slip::SharesNeverLowered,
    Slip::OnePass,
    Slip::LastPassLeftOut,
    Slip::NoLimitByShare,
    Slip::HighestRoot,
    Slip::MembersFall,
    Slip::ListsRise,
    Slip::Undirected,
    Slip::SingleJunctions,
    Slip::RestKept,
];

/// The floor over lists as they are, or over poured ones in another order.
fn over(survey: View, counts: &mut [u64], groups: impl Fn(View) -> Vec<Vec<usize>>) -> u64 {
    let bound = owned(fast, survey).map_or(0, |plan| plan.counts.bound);
    instead(survey, counts, |_| ascent(survey, &groups(survey), |_| ()).iter().sum::<u64>().max(half(bound)))
}

fn by_lowest_member(survey: View) -> Vec<Vec<usize>> {
    let mut groups = poured(survey);
    groups.sort();
    groups
}

/// In the order of the lowest list with two members of each.
fn lone_lists_left_out(survey: View) -> Vec<Vec<usize>> {
    let lists = survey.lists();
    let mut groups = poured(survey);
    groups.sort_by_key(|group| lists.iter().position(|list| group.contains(&list[0])));
    groups
}

fn shares_alone(survey: View, counts: &mut [u64]) -> u64 {
    instead(survey, counts, |_| ascent(survey, &poured(survey), |_| ()).iter().sum())
}

fn half_alone(survey: View, counts: &mut [u64]) -> u64 {
    let bound = owned(fast, survey).map_or(0, |plan| plan.counts.bound);
    instead(survey, counts, |_| half(bound))
}

fn half_rounded_down(survey: View, counts: &mut [u64]) -> u64 {
    let bound = owned(fast, survey).map_or(0, |plan| plan.counts.bound);
    instead(survey, counts, |_| ascent(survey, &poured(survey), |_| ()).iter().sum::<u64>().max(bound / 2))
}

fn eight_before_seven(survey: View, counts: &mut [u64]) -> u64 {
    match (SECOND.floor)(survey, counts) {
        7 => survey.unjoined(|_| true).map_or(7, |group| refuse::<()>(8, group.into()).map_or_else(code, |()| 0)),
        answer => answer,
    }
}

fn seven_before_18(survey: View, counts: &mut [u64]) -> u64 {
    match survey.sound() {
        Err(Refusal { number: 18, .. }) if counts.len() < 4 => 7,
        _ => (SECOND.floor)(survey, counts),
    }
}

fn three_counts(survey: View, counts: &mut [u64]) -> u64 {
    let mut own = [0; 4];
    match ((SECOND.floor)(survey, &mut own), counts.len()) {
        (0, 3..) => {
            let many = counts.len().min(4);
            counts[..many].copy_from_slice(&own[..many]);
            0
        }
        (0, _) => 7,
        (answer, _) => answer,
    }
}

fn counts_on_eight(survey: View, counts: &mut [u64]) -> u64 {
    let answer = (SECOND.floor)(survey, counts);
    if answer % 256 == 8 {
        counts[0] = 0;
    }
    answer
}

fn differs(floor: fn(View, &mut [u64]) -> u64) -> bool {
    let operation = OPERATIONS.iter().find(|operation| operation.name == "floor").unwrap();
    (0..6_000).any(|case| operation.compare(&Library { floor, ..SECOND }, 1, case).is_err())
}

#[test]
fn faults_are_found() {
    type Floor = fn(View, &mut [u64]) -> u64;
    assert!(!differs(SECOND.floor));
    let faulty: [(&str, Floor); 26] = [
        ("a cut that holds the root", slipped::<1>),
        ("an arc loaded above its price", slipped::<2>),
        ("a share of the own list alone", slipped::<3>),
        ("shares never lowered", slipped::<4>),
        ("one pass", slipped::<5>),
        ("the last pass left out", slipped::<6>),
        ("more than a share", slipped::<7>),
        ("the highest member for the root", slipped::<8>),
        ("members that fall", slipped::<9>),
        ("lists that rise", slipped::<10>),
        ("one rest for both arcs", slipped::<11>),
        ("single junctions for cuts", slipped::<12>),
        ("rests kept", slipped::<13>),
        ("lists not poured", |survey, counts| over(survey, counts, |survey| survey.lists())),
        ("by the lowest member", |survey, counts| over(survey, counts, by_lowest_member)),
        ("lone lists left out", |survey, counts| over(survey, counts, lone_lists_left_out)),
        ("the highest list first", |survey, counts| {
            over(survey, counts, |survey| poured(survey).into_iter().rev().collect())
        }),
        ("the shares where half the bound is more", shares_alone),
        ("half the bound alone", half_alone),
        ("half the bound rounded down", half_rounded_down),
        ("the floor rounded up", |survey, counts| instead(survey, counts, |floor| floor + floor % 2)),
        ("8 before 7", eight_before_seven),
        ("7 before 18", seven_before_18),
        ("three counts taken", three_counts),
        ("counts written on 8", counts_on_eight),
        ("cost and bound swapped", |survey, counts| {
            let answer = (SECOND.floor)(survey, counts);
            if answer == 0 {
                counts.swap(2, 3);
            }
            answer
        }),
    ];
    let missed: Vec<&str> = faulty.iter().filter(|(_, floor)| !differs(*floor)).map(|(name, _)| *name).collect();
    assert!(missed.is_empty(), "{missed:?} are not found");
    assert!(!differs(slipped::<0>));
    assert_eq!(floor_of(Survey::new(&[1, 1], &[(0, 1, 3)]).view(), 7), 4);
}

/// What is printed, by hand, and gaps that are told otherwise.
#[test]
fn printed_gaps() {
    let p9 = "nodes=4\nlinks=6\nnode=0\nnode=1\nnode=1\nnode=1\nlink=0,1,3\nlink=0,2,3\nlink=0,3,3\nlink=1,2,5\nlink=1,3,5\n";
    let lines = floor_program(format!("{p9}link=2,3,5\n").as_bytes());
    assert_eq!(lines, "floor=9\ncost=10\ngap=112\n");
    assert_eq!(floor_program(b"nodes=2\nlinks=1\nnode=1\nnode=1\nlink=0,1,0\n"), "floor=0\ncost=0\ngap=0\n");
    assert_eq!(floor_program(b"nodes=2\nlinks=0\nnode=1\nnode=1\n"), "refused=8\nplace=1\n");
    assert_eq!([gap(1_000, 1_001), gap(1_001, 1_002), gap(999, 1_000), gap(7, 7), gap(1, 2)], [1, 1, 2, 0, 1_000]);
    let figures = |lines: &str| -> Option<Vec<u64>> {
        let values = lines.lines().map(|line| line.split_once('=').map(|(_, value)| value.parse::<u64>()));
        lines.starts_with("floor=").then(|| values.map(|value| value.unwrap().unwrap()).collect())
    };
    let answers: Vec<Vec<u64>> =
        (0..800).filter_map(|case| figures(&String::from_utf8_lossy(&run(1, case).printed))).collect();
    let faulty: [fn(u64, u64) -> u64; 3] = [
        |floor, cost| (1_000 * (cost - floor)).checked_div(floor).unwrap_or(0),
        |floor, cost| if cost == 0 { 0 } else { (1_000 * (cost - floor)).div_ceil(cost) },
        |floor, cost| if floor == 0 { 0 } else { (100 * (cost - floor)).div_ceil(floor) },
    ];
    for other in faulty {
        assert!(answers.iter().any(|of| other(of[0], of[1]) != of[2]));
    }
}
