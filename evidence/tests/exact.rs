//! Where near best is best (No. 14): both planners against Dijkstra and Kruskal, and that the judgement tells what is
//! near from what is best.

use evidence::check::check;
use evidence::exact::{dijkstra, is_route, kruskal, one_list, prim, remark, two_sites, Drawn};
use evidence::gen::{exact, tiny, Rng};
use evidence::plan::{fast, owned, reference, Plan, Planner, KEPT};
use evidence::{brute, Survey};

fn drawn(plan: &Plan) -> Drawn {
    let counts = plan.counts;
    let kept = (0..plan.marks.len()).filter(|&t| plan.marks[t] == KEPT).collect();
    Drawn { sites: counts.sites, cost: counts.cost, bound: counts.bound, rounds: counts.rounds, kept }
}

fn plan(planner: Planner, survey: &Survey) -> Drawn {
    drawn(&owned(planner, survey.view()).expect("it can be joined"))
}

#[test]
fn two_sites_have_a_cheapest_route() {
    for case in 0..1_500 {
        let (survey, u, w) = exact::two_sites(&mut Rng::of_case(11, case));
        assert_eq!(survey.view().sound(), Ok(()), "{survey:?}");
        assert_eq!(survey.view().sites(), 2, "{survey:?}");
        for planner in [reference, fast] {
            assert_eq!(two_sites(survey.view(), u, w, &plan(planner, &survey)), Ok(()), "{survey:?}");
        }
    }
}

#[test]
fn one_list_has_the_taken_tracks() {
    for case in 0..1_500 {
        let survey = exact::one_list(&mut Rng::of_case(12, case));
        assert_eq!(survey.view().sound(), Ok(()), "{survey:?}");
        let all = survey.view().lists().iter().any(|list| list.len() == survey.groups.len());
        assert!(all || survey.groups.len() == 1, "{survey:?}");
        for planner in [reference, fast] {
            assert_eq!(one_list(survey.view(), &plan(planner, &survey)), Ok(()), "{survey:?}");
        }
    }
}

/// The two ways to the same figure, and both against every set of tracks, where there are few.
#[test]
fn the_judges_are_right() {
    for case in 0..400 {
        let rng = &mut Rng::of_case(13, case);
        let (survey, u, w) = exact::two_sites(rng);
        if survey.first.len() <= brute::MAX_TRACKS {
            assert_eq!(dijkstra(survey.view(), u, w), brute::cheapest(survey.view()), "{survey:?}");
        }
        let survey = exact::one_list(rng);
        let taken: u64 = kruskal(survey.view()).iter().map(|&t| u64::from(survey.prices[t])).sum();
        assert_eq!(Some(taken), prim(survey.view()), "{survey:?}");
        if survey.first.len() <= brute::MAX_TRACKS {
            assert_eq!(Some(taken), brute::cheapest(survey.view()), "{survey:?}");
        }
    }
}

/// Where the figures of whatever the checker passes show it, nothing is cheaper; with two sites they always do.
#[test]
fn figures_show_the_cheapest() {
    for case in 0..2_000 {
        let survey = tiny(&mut Rng::of_case(14, case));
        let plan = owned(reference, survey.view()).expect("it can be joined");
        let found = check(survey.view(), &plan.marks, &plan.records).expect("it passes");
        let shown = remark(found.cost, found.bound) != "";
        assert!(!shown || brute::cheapest(survey.view()) == Some(found.cost), "{survey:?}");
        assert!(shown || found.sites > 2, "{survey:?}");
    }
}

#[test]
fn what_is_near_is_told_from_what_is_best() {
    // A spare track of price 0 beside the route.
    let spare = Survey::new(&[1, 1, 0], &[(0, 1, 4), (1, 2, 0)]);
    assert!(!is_route(spare.view(), &[0, 1], 0, 1) && is_route(spare.view(), &[0], 0, 1));
    // A loop of price 0 on the way.
    let round = Survey::new(&[1, 0, 1], &[(0, 1, 0), (0, 1, 0), (1, 2, 3)]);
    assert!(!is_route(round.view(), &[0, 1, 2], 0, 2) && is_route(round.view(), &[1, 2], 0, 2));
    // By number, then price, another set is taken; so it is where ties go to the highest number.
    let ties = Survey::new(&[1, 1, 1], &[(0, 1, 2), (1, 2, 1), (0, 2, 1)]);
    assert_eq!(kruskal(ties.view()), [1, 2]);
    let even = Survey::new(&[1, 1, 1], &[(0, 1, 1), (1, 2, 1), (0, 2, 1)]);
    assert_eq!(kruskal(even.view()), [0, 1]);
    let other = Drawn { kept: vec![1, 2], ..plan(reference, &even) };
    assert!(one_list(even.view(), &other).is_err());
    // With three sites the bound is less than twice the cost (P9's star).
    let star = Survey::new(&[0, 1, 1, 1], &[(0, 1, 3), (0, 2, 3), (0, 3, 3), (1, 2, 5), (1, 3, 5), (2, 3, 5)]);
    let drawn = plan(reference, &star);
    assert!(drawn.bound < 2 * drawn.cost && remark(drawn.cost, drawn.bound).is_empty());
}
