//! Reasons: each is true of the growth.

use evidence::gen::{line, overlap, survey, tiny, Rng, Size, WORKED};
use evidence::plan::{fast, growth, owned, DROPPED, KEPT, NOT_PICKED};
use evidence::why::{why, Reason};
use evidence::{Refusal, Survey};

fn refused<T>(number: u32, place: u64) -> Result<T, Refusal> {
    Err(Refusal { number, place })
}

/// Every track of a survey, asked in turn.
fn each_is_true(survey: &Survey) {
    let view = survey.view();
    let n = survey.groups.len();
    let Ok(plan) = owned(fast, view) else { return };
    let picks: Vec<usize> = growth(view).rounds.iter().map(|round| round.winner).collect();
    for track in 0..survey.first.len() {
        let mut route = vec![7_777; n + 2];
        let reason = why(view, track as u32, &mut route).expect("it can be joined");
        assert_eq!(reason.kind, u64::from(plan.marks[track]));
        let many = reason.entries as usize;
        assert!(route[many..].iter().all(|&entry| entry == 7_777));
        let ends = [survey.first[track] as usize, survey.second[track] as usize];
        if plan.marks[track] == KEPT {
            // By the picked tracks the same pair is parted; no lower group and no lower pair is.
            let component = view.components(|t| t != track && plan.marks[t] != 0);
            let (list, smaller, larger) = (reason.list as u8, reason.smaller as usize, reason.larger as usize);
            for group in 1..=list {
                for u in view.members(group) {
                    for v in view.members(group).into_iter().filter(|&v| v > u) {
                        let lower = (group, u, v) < (list, smaller, larger);
                        assert!(!lower || component[u] == component[v]);
                    }
                }
            }
            assert!(view.members(list).contains(&smaller) && view.members(list).contains(&larger) && smaller < larger);
            assert_ne!(component[smaller], component[larger]);
            // The route is walked from the smaller, over kept tracks, without a junction twice, over the track.
            let mut at = vec![smaller];
            for &entry in &route[..many] {
                let (u, v) = (survey.first[entry as usize] as usize, survey.second[entry as usize] as usize);
                assert_eq!(plan.marks[entry as usize], KEPT);
                let here = at[at.len() - 1];
                assert!(here == u || here == v);
                let next = u + v - here;
                assert!(!at.contains(&next));
                at.push(next);
            }
            assert_eq!(at[at.len() - 1], larger);
            assert!(route[..many].contains(&(track as u32)));
            assert_eq!(reason.round, 0);
        } else {
            assert_eq!(reason, Reason { kind: reason.kind, round: reason.round, ..Reason::default() });
            if plan.marks[track] == 0 && reason.round > 0 {
                let linked = |rounds: usize| {
                    let component = view.components(|t| picks[..rounds].contains(&t));
                    component[ends[0]] == component[ends[1]]
                };
                assert!(linked(reason.round as usize) && !linked(reason.round as usize - 1));
            }
            let never = view.components(|t| picks.contains(&t));
            assert_eq!(reason.round == 0, plan.marks[track] != 0 || never[ends[0]] != never[ends[1]]);
        }
    }
}

#[test]
fn reasons_are_true() {
    for (groups, tracks) in WORKED {
        each_is_true(&Survey::new(groups, tracks));
    }
    for case in 0..500 {
        let mut rng = Rng::of_case(31, case);
        let size = if case % 40 == 0 { Size::Middle } else { rng.pick(&[Size::Tiny, Size::Small]) };
        let mut survey = survey(&mut rng, size);
        each_is_true(&survey);
        overlap(&mut rng, &mut survey);
        each_is_true(&survey);
    }
}

/// Every route from one junction to another over these tracks with no junction twice, by trying each way.
fn routes(survey: &Survey, tracks: &[usize], from: usize, to: usize) -> Vec<Vec<usize>> {
    fn go_on(
        survey: &Survey,
        tracks: &[usize],
        to: usize,
        at: &mut Vec<usize>,
        way: &mut Vec<usize>,
    ) -> Vec<Vec<usize>> {
        let here = at[at.len() - 1];
        if here == to {
            return vec![way.clone()];
        }
        let mut found = Vec::new();
        for &t in tracks {
            let (u, v) = (survey.first[t] as usize, survey.second[t] as usize);
            if (here == u || here == v) && !at.contains(&(u + v - here)) {
                at.push(u + v - here);
                way.push(t);
                found.extend(go_on(survey, tracks, to, at, way));
                at.pop();
                way.pop();
            }
        }
        found
    }
    go_on(survey, tracks, to, &mut vec![from], &mut Vec::new())
}

/// Every track of a tiny survey: it is taken away and ways are looked for, by trying all. Returns how many of each kind
/// there were: kept, dropped, not picked and joined in some round, not picked and never joined.
fn each_is_true_by_search(survey: &Survey) -> [u32; 4] {
    let (view, n) = (survey.view(), survey.groups.len());
    let marks = owned(fast, view).expect("it can be joined").marks;
    let with = |least: u8| (0..marks.len()).filter(|&t| marks[t] >= least).collect::<Vec<_>>();
    let (picked, kept) = (with(DROPPED), with(KEPT));
    // The component that each round made, as the moats have it.
    let made = growth(view).moats.split_off(n);
    let mut kinds = [0; 4];
    for track in 0..marks.len() {
        let mut route = vec![7_777; n];
        let reason = why(view, track as u32, &mut route).expect("it can be joined");
        let others: Vec<usize> = picked.iter().copied().filter(|&t| t != track).collect();
        let mut parted = Vec::new();
        for group in 1..=255 {
            let members = view.members(group);
            for &u in &members {
                for &v in members.iter().filter(|&&v| v > u) {
                    if routes(survey, &others, u, v).is_empty() {
                        parted.push((u64::from(group), u as u64, v as u64));
                    }
                }
            }
        }
        let ends = [survey.first[track] as usize, survey.second[track] as usize];
        let round = 1 + made.iter().position(|moat| ends.iter().all(|v| moat.members.contains(v))).unwrap_or(n) as u64;
        match marks[track] {
            KEPT => {
                assert_eq!(Some(&(reason.list, reason.smaller, reason.larger)), parted.iter().min());
                let ways = routes(survey, &kept, reason.smaller as usize, reason.larger as usize);
                assert_eq!(ways.len(), 1);
                assert_eq!(reason.entries as usize, ways[0].len());
                let way = ways[0].iter().map(|&t| t as u32).chain(std::iter::repeat(7_777));
                assert_eq!(route, way.take(n).collect::<Vec<_>>());
                assert_eq!((reason.kind, reason.round), (2, 0));
                kinds[0] += 1;
            }
            DROPPED => {
                assert!(parted.is_empty());
                assert_eq!((reason, &route), (Reason { kind: 1, ..Reason::default() }, &vec![7_777; n]));
                kinds[1] += 1;
            }
            _ => {
                let joined = !routes(survey, &picked, ends[0], ends[1]).is_empty();
                let round = if joined { round } else { 0 };
                let want = Reason { kind: u64::from(NOT_PICKED), round, ..Reason::default() };
                assert_eq!((reason, &route), (want, &vec![7_777; n]));
                kinds[if joined { 2 } else { 3 }] += 1;
            }
        }
    }
    kinds
}

#[test]
fn reasons_are_true_by_search() {
    let mut kinds = [0; 4];
    for case in 0..1_500 {
        let found = each_is_true_by_search(&tiny(&mut Rng::of_case(32, case)));
        kinds.iter_mut().zip(found).for_each(|(sum, more)| *sum += more);
    }
    assert!(kinds.iter().all(|&many| many > 200), "{kinds:?}");
}

/// Long routes: every track of a line, and the longest that there is.
#[test]
fn along_a_line() {
    for (case, n) in [(0, 1), (1, 2), (2, 60)] {
        each_is_true(&line(&mut Rng::of_case(33, case), n));
    }
    let (mut groups, tracks) = ([0; 448], (1..448).map(|v| (v, v - 1, v % 3)).collect::<Vec<_>>());
    (groups[0], groups[447]) = (255, 255);
    let mut route = [7_777; 448];
    let reason = why(Survey::new(&groups, &tracks).view(), 200, &mut route);
    assert_eq!(reason, Ok(Reason { kind: 2, list: 255, smaller: 0, larger: 447, entries: 447, round: 0 }));
    assert!(route[..447].iter().copied().eq(0..447) && route[447] == 7_777);
}

#[test]
fn by_hand() {
    let worked = |p: usize| Survey::new(WORKED[p - 1].0, WORKED[p - 1].1);
    let kept = |list, smaller, larger, entries| Reason { kind: 2, list, smaller, larger, entries, round: 0 };
    // P3: both tracks lie on the way from 0 to 2.
    let mut route = [9; 3];
    assert_eq!(why(worked(3).view(), 1, &mut route), Ok(kept(1, 0, 2, 2)));
    assert_eq!(route, [0, 1, 9]);
    // P4: the third track closes the loop after round 2.
    let mut route = [9; 2];
    assert_eq!(why(worked(4).view(), 2, &mut route), Ok(Reason { round: 2, ..Reason::default() }));
    assert_eq!(why(worked(4).view(), 1, &mut route), Ok(kept(1, 0, 2, 2)));
    assert_eq!(route, [0, 1]);
    // P5: dropped.
    assert_eq!(why(worked(5).view(), 1, &mut [9; 3]), Ok(Reason { kind: 1, ..Reason::default() }));
    // P6: a parallel track, after round 1. P7: nothing is ever linked.
    assert_eq!(why(worked(6).view(), 1, &mut [9]), Ok(Reason { round: 1, ..Reason::default() }));
    assert_eq!(why(worked(7).view(), 0, &mut [9]), Ok(Reason::default()));
    // P10: track 1 lies between 0 and 2 of group 1; track 2 is there for group 2.
    let mut route = [9; 3];
    assert_eq!(why(worked(10).view(), 1, &mut route), Ok(kept(1, 0, 2, 2)));
    assert_eq!(why(worked(10).view(), 2, &mut route), Ok(kept(2, 1, 3, 2)));
    assert_eq!(route, [1, 2, 9]);
    // Lists by pairs: 2 = {1, 2}.
    let shared = Survey::new(&[1, 1, 2], &[(0, 1, 3), (2, 1, 4)]).with_pairs(&[(1, 2)]);
    assert_eq!(why(shared.view(), 1, &mut [9; 2]), Ok(kept(2, 1, 2, 1)));
    // 7, 8, 19 in this order; with one junction an empty buffer is enough.
    assert_eq!(why(worked(12).view(), 9, &mut []), refused(7, 0));
    assert_eq!(why(worked(12).view(), 9, &mut [9]), refused(8, 1));
    assert_eq!(why(worked(2).view(), 1, &mut [9]), refused(19, 1));
    assert_eq!(why(worked(2).view(), u32::MAX, &mut [9]), refused(19, u64::from(u32::MAX)));
    assert_eq!(why(worked(1).view(), 0, &mut []), refused(19, 0));
}
