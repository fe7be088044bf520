//! The plain planner and the fast one give the same answers and leave the same bytes, and the checker passes every
//! finished plan.

use evidence::check::{check, Passed};
use evidence::gen::{overlap, refused_survey, survey, text_case, tiny, Rng, Size};
use evidence::plan::{fast, growth, owned, record_room, reference, Workspace, KEPT};
use evidence::print::program;
use evidence::{brute, Survey, MAX_AMOUNT};

fn planners_agree(survey: &Survey, workspace: &mut Workspace) {
    let plain = owned(reference, survey.view());
    let quick = owned(fast, survey.view());
    assert_eq!(plain, quick, "{survey:?}");
    let (mut marks, mut records) =
        (vec![7; survey.first.len() + 3], vec![8; record_room(survey.groups.len().max(1)) + 5]);
    let again = workspace.plan(survey.view(), &mut marks, &mut records);
    match plain {
        Ok(plan) => {
            assert_eq!(again, Ok(plan.counts));
            let (drawn, rest) = marks.split_at(plan.marks.len());
            assert!(drawn == plan.marks && rest.iter().all(|&byte| byte == 7));
            let (drawn, rest) = records.split_at(plan.records.len());
            assert!(drawn == plan.records && rest.iter().all(|&byte| byte == 8));
            let counts = plan.counts;
            let passed = Passed { sites: counts.sites, cost: counts.cost, bound: counts.bound };
            assert_eq!(check(survey.view(), &plan.marks, &plan.records), Ok(passed));
            assert_eq!(counts.rounds, plan.marks.iter().filter(|&&mark| mark != 0).count() as u64);
            assert!(counts.rounds < survey.groups.len() as u64);
            assert_eq!(survey.view().unjoined(|t| plan.marks[t] == KEPT), None);
        }
        Err(refusal) => {
            assert_eq!(again, Err(refusal));
            assert!(marks.iter().all(|&byte| byte == 7) && records.iter().all(|&byte| byte == 8));
        }
    }
}

fn many(size: Size, count: u64) {
    let mut workspace = Workspace::NEW;
    for case in 0..count {
        let mut rng = Rng::of_case(21, case);
        let mut survey = survey(&mut rng, size);
        planners_agree(&survey, &mut workspace);
        overlap(&mut rng, &mut survey);
        planners_agree(&survey, &mut workspace);
        refused_survey(&mut rng, &mut survey);
        planners_agree(&survey, &mut workspace);
    }
}

#[test]
fn tiny_surveys() {
    many(Size::Tiny, 4_000);
}

#[test]
fn small_surveys() {
    many(Size::Small, 3_000);
}

#[test]
fn middle_surveys() {
    many(Size::Middle, 500);
}

#[test]
fn large_surveys() {
    many(Size::Large, 15);
}

#[test]
fn full_surveys() {
    many(Size::Full, 3);
}

#[test]
fn texts() {
    for case in 0..5_000 {
        let text = text_case(22, case);
        if text.len() < 4_000 {
            assert_eq!(program(reference, &text), program(fast, &text), "case {case}");
        }
    }
}

/// A moat is raised once in each round in which its component grows, so every component's amount is a sum of waits, and
/// at most twice the highest price.
#[test]
fn amounts_stay_within_the_checkers_limit() {
    for case in 0..1_000 {
        let survey = tiny(&mut Rng::of_case(23, case));
        let growth = growth(survey.view());
        assert_eq!(growth.moats.len(), survey.groups.len() + growth.rounds.len());
        assert!(growth.moats.iter().all(|moat| moat.amount <= MAX_AMOUNT));
    }
}

#[test]
fn accuracy_on_tiny_surveys() {
    for case in 0..1_000 {
        let survey = tiny(&mut Rng::of_case(24, case));
        let counts = owned(fast, survey.view()).unwrap().counts;
        let best = brute::cheapest(survey.view()).unwrap();
        if counts.sites == 0 {
            assert_eq!(counts.cost, 0);
        } else {
            assert!((2 * counts.sites - 2) * best >= counts.sites * counts.cost);
        }
        assert!(counts.bound <= 2 * best, "every joining set crosses every moat");
    }
}
