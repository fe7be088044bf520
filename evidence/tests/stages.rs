//! Growing and dropping: one after the other they are planning, and faulty ones are told from them.

use evidence::calls::generated::OPERATIONS;
use evidence::calls::{Library, SECOND};
use evidence::check::check;
use evidence::gen::{overlap, survey, tiny, Rng, Size, WORKED};
use evidence::plan::{fast, owned, DROPPED, KEPT, NOT_PICKED};
use evidence::stages::{drop_tracks, grow, loop_at, Kept};
use evidence::{Refusal, Survey, View};

fn refused<T>(number: u32, place: u64) -> Result<T, Refusal> {
    Err(Refusal { number, place })
}

#[test]
fn one_after_the_other() {
    for case in 0..3_000 {
        let mut rng = Rng::of_case(71, case);
        let size = rng.pick(&[Size::Tiny, Size::Small, Size::Middle]);
        let mut survey = survey(&mut rng, size);
        overlap(&mut rng, &mut survey);
        let planned = owned(fast, survey.view());
        let grown = owned(grow, survey.view());
        match (planned, grown) {
            (Ok(plan), Ok(grown)) => {
                assert_eq!(grown.counts.cost, 0);
                assert!(grown.marks.iter().zip(&plan.marks).all(|(&one, &mark)| one == mark.min(1)));
                assert_eq!(grown.records, plan.records);
                let mut marks = grown.marks;
                let kept = drop_tracks(survey.view(), &mut marks).expect("what has grown is a forest that joins");
                assert_eq!(kept, Kept { sites: plan.counts.sites, cost: plan.counts.cost });
                assert_eq!(marks, plan.marks);
            }
            (planned, grown) => assert_eq!(planned.err(), grown.err()),
        }
    }
}

/// Every forest that joins keeps just what is needed; dropped one after another, from either end, the same is left.
#[test]
fn marks_altered_by_hand() {
    let (mut passed, mut too_dear) = (0, 0);
    for case in 0..4_000 {
        let mut rng = Rng::of_case(72, case);
        let survey = tiny(&mut rng);
        let view = survey.view();
        let mut marks: Vec<u8> = survey.first.iter().map(|_| rng.below(2) as u8).collect();
        let before = marks.clone();
        let Ok(kept) = drop_tracks(view, &mut marks) else {
            assert_eq!(marks, before);
            let loops = loop_at(view, &marks).is_some();
            assert!(loops || view.unjoined(|t| marks[t] == DROPPED).is_some());
            continue;
        };
        assert_eq!(view.unjoined(|t| marks[t] == KEPT), None);
        for t in (0..marks.len()).filter(|&t| marks[t] == KEPT) {
            assert!(view.unjoined(|other| other != t && marks[other] == KEPT).is_some(), "{t} is spare");
        }
        let mut one_by_one: Vec<bool> = before.iter().map(|&mark| mark == DROPPED).collect();
        for t in (0..before.len()).rev() {
            one_by_one[t] &= view.unjoined(|other| other != t && one_by_one[other]).is_some();
        }
        assert!(marks.iter().zip(&one_by_one).all(|(&mark, &left)| (mark == KEPT) == left));
        assert!(marks.iter().zip(&before).all(|(&mark, &old)| mark.min(1) == old));
        assert_eq!(kept.sites, view.sites());
        // With the moats of growing the checker may pass it or not.
        let moats = owned(grow, view).expect("it can be joined").records;
        match check(view, &marks, &moats) {
            Ok(_) => passed += 1,
            Err(refusal) => {
                assert_eq!(refusal.number, 15);
                too_dear += 1;
            }
        }
    }
    assert!(passed > 100 && too_dear > 10, "{passed} {too_dear}");
}

#[test]
fn refusals_by_hand() {
    let p3 = Survey::new(WORKED[2].0, WORKED[2].1);
    assert_eq!(drop_tracks(p3.view(), &mut [1, 1]), Ok(Kept { sites: 2, cost: 7 }));
    assert_eq!(drop_tracks(p3.view(), &mut [1]), refused(9, 0));
    assert_eq!(drop_tracks(p3.view(), &mut [1, 1, 1]), refused(9, 0));
    assert_eq!(drop_tracks(p3.view(), &mut [1, 2]), refused(10, 1));
    assert_eq!(drop_tracks(p3.view(), &mut [255, 2]), refused(10, 0));
    assert_eq!(drop_tracks(p3.view(), &mut [1, 0]), refused(14, 1));
    // The triangle of P4 with a parallel track: the lowest that closes a loop, judged by picked tracks alone.
    let p4 = Survey::new(&[1, 1, 1, 9, 9], &[(0, 1, 1), (1, 2, 1), (0, 2, 1), (1, 0, 1), (3, 4, 2)]);
    assert_eq!(drop_tracks(p4.view(), &mut [1, 1, 1, 1, 1]), refused(21, 2));
    assert_eq!(drop_tracks(p4.view(), &mut [1, 1, 0, 1, 1]), refused(21, 3));
    assert_eq!(drop_tracks(p4.view(), &mut [0, 1, 1, 0, 1]), Ok(Kept { sites: 5, cost: 4 }));
    assert_eq!(drop_tracks(p4.view(), &mut [1, 1, 1, 0, 0]), refused(21, 2));
    assert_eq!(drop_tracks(p4.view(), &mut [1, 0, 0, 0, 0]), refused(14, 1));
    assert_eq!(drop_tracks(p4.view(), &mut [1, 1, 0, 0, 0]), refused(14, 9));
    // 14 where planning gives 8.
    let p12 = Survey::new(WORKED[11].0, WORKED[11].1);
    assert_eq!(drop_tracks(p12.view(), &mut []), refused(14, 1));
    // Lists by pairs.
    let shared = Survey::new(&[1, 1, 2], &[(0, 1, 3), (1, 2, 4)]).with_pairs(&[(1, 2)]);
    assert_eq!(drop_tracks(shared.view(), &mut [1, 0]), refused(14, 2));
    assert_eq!(drop_tracks(shared.view(), &mut [1, 1]), Ok(Kept { sites: 3, cost: 7 }));
    // A track added by hand: P5 with what it drops is unchanged, P9's hub is kept in place of the rim.
    let p5 = Survey::new(WORKED[4].0, WORKED[4].1);
    let mut marks = [1, 1, 1];
    assert_eq!(drop_tracks(p5.view(), &mut marks), Ok(Kept { sites: 2, cost: 3 }));
    assert_eq!(marks, [2, 1, 1]);
    let p9 = Survey::new(WORKED[8].0, WORKED[8].1);
    assert_eq!(drop_tracks(p9.view(), &mut [1, 1, 1, 0, 0, 0]), Ok(Kept { sites: 3, cost: 9 }));
}

fn loop_at_the_highest(survey: View, marks: &mut [u8], counts: &mut [u64]) -> u64 {
    let answer = (SECOND.drop)(survey, marks, counts);
    if answer % 256 != 21 {
        return answer;
    }
    let closes = |&t: &usize| {
        let component = survey.components(|other| other < t && marks[other] == DROPPED);
        marks[t] == DROPPED && component[survey.first[t] as usize] == component[survey.second[t] as usize]
    };
    21 + 256 * (0..survey.m()).rev().find(closes).unwrap_or(0) as u64
}

fn loop_with_all_tracks(survey: View, marks: &mut [u8], counts: &mut [u64]) -> u64 {
    let mut trial = marks.to_vec();
    let answer = (SECOND.drop)(survey, &mut trial, counts);
    if ![0, 14, 21].contains(&(answer % 256)) {
        return answer;
    }
    let closes = |&t: &usize| {
        let component = survey.components(|other| other < t);
        marks[t] == DROPPED && component[survey.first[t] as usize] == component[survey.second[t] as usize]
    };
    match (0..survey.m()).find(closes) {
        Some(track) => 21 + 256 * track as u64,
        None => (SECOND.drop)(survey, marks, counts),
    }
}

fn fourteen_before_loop(survey: View, marks: &mut [u8], counts: &mut [u64]) -> u64 {
    match (SECOND.drop)(survey, marks, counts) {
        answer if answer % 256 == 21 => {
            survey.unjoined(|t| marks[t] == DROPPED).map_or(answer, |group| 14 + 256 * u64::from(group))
        }
        answer => answer,
    }
}

fn two_accepted(survey: View, marks: &mut [u8], counts: &mut [u64]) -> u64 {
    for mark in marks.iter_mut().filter(|mark| **mark == KEPT) {
        *mark = DROPPED;
    }
    (SECOND.drop)(survey, marks, counts)
}

fn unpicked_kept(survey: View, marks: &mut [u8], counts: &mut [u64]) -> u64 {
    let answer = (SECOND.drop)(survey, marks, counts);
    if answer == 0 {
        if let Some(mark) = marks.iter_mut().find(|mark| **mark == NOT_PICKED) {
            *mark = KEPT;
        }
    }
    answer
}

fn longer_marks_taken(survey: View, marks: &mut [u8], counts: &mut [u64]) -> u64 {
    let m = survey.m().min(marks.len());
    match (SECOND.drop)(survey, marks, counts) {
        9 if marks.len() > m => (SECOND.drop)(survey, &mut marks[..m], counts),
        answer => answer,
    }
}

fn eight_for_fourteen(survey: View, marks: &mut [u8], counts: &mut [u64]) -> u64 {
    match ((SECOND.drop)(survey, marks, counts), survey) {
        (answer, survey) if answer % 256 == 14 && survey.unjoined(|_| true).is_some() => answer - 6,
        (answer, _) => answer,
    }
}

fn grown_with_cost(survey: View, marks: &mut [u8], records: &mut [u8], counts: &mut [u64]) -> u64 {
    let answer = (SECOND.grow)(survey, marks, records, counts);
    if answer == 0 {
        counts[1] = drop_tracks(survey, &mut marks[..survey.m()].to_vec()).map_or(0, |kept| kept.cost);
    }
    answer
}

fn grown_and_dropped(survey: View, marks: &mut [u8], records: &mut [u8], counts: &mut [u64]) -> u64 {
    let answer = (SECOND.plan)(survey, marks, records, counts);
    if answer == 0 {
        counts[1] = 0;
    }
    answer
}

#[test]
fn faults_are_found() {
    let faulty = [
        ("21 at the highest", Library { drop: loop_at_the_highest, ..SECOND }),
        ("a loop judged with all tracks", Library { drop: loop_with_all_tracks, ..SECOND }),
        ("14 before 21", Library { drop: fourteen_before_loop, ..SECOND }),
        ("a 2 accepted", Library { drop: two_accepted, ..SECOND }),
        ("a mark 0 turned to 2", Library { drop: unpicked_kept, ..SECOND }),
        ("marks longer than m taken", Library { drop: longer_marks_taken, ..SECOND }),
        ("8 for 14", Library { drop: eight_for_fourteen, ..SECOND }),
        ("growing with the kept cost", Library { grow: grown_with_cost, ..SECOND }),
        ("growing that drops", Library { grow: grown_and_dropped, ..SECOND }),
    ];
    let differs = |library: &Library| {
        (0..4_000).any(|case| {
            let stages = OPERATIONS.iter().filter(|operation| ["grow", "drop"].contains(&operation.name));
            stages.into_iter().any(|operation| operation.compare(library, 1, case).is_err())
        })
    };
    for (name, library) in faulty {
        assert!(differs(&library), "{name} is not found");
    }
}
