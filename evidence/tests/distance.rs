//! Dreyfus and Wagner's cheapest sets, by which plans are measured, against every set of tracks where there are few; and
//! the surveys that are measured.

use evidence::gen::{distant, tiny, Rng};
use evidence::plan::{fast, owned};
use evidence::{brute, steiner, Survey};

#[test]
fn the_cheapest_is_that_of_all_sets() {
    let mut several = 0;
    for case in 0..3_000 {
        let survey = tiny(&mut Rng::of_case(21, case));
        let lists = survey.view().lists().len();
        if lists > steiner::MAX_LISTS {
            continue;
        }
        several += usize::from(lists > 1);
        assert_eq!(steiner::cheapest(survey.view()), brute::cheapest(survey.view()), "{survey:?}");
    }
    assert!(several > 500, "{several}");
}

#[test]
fn a_hub_is_found() {
    // P9: the spokes cost 9, and the plan 10.
    let tracks = [(0, 1, 3), (0, 2, 3), (0, 3, 3), (1, 2, 5), (1, 3, 5), (2, 3, 5)];
    let survey = Survey::new(&[0, 1, 1, 1], &tracks);
    assert_eq!(steiner::cheapest(survey.view()), Some(9));
    assert_eq!(owned(fast, survey.view()).expect("it can be joined").counts.cost, 10);
}

#[test]
fn measured_surveys_are_what_they_should_be() {
    for case in 0..400 {
        let survey = distant(&mut Rng::of_case(22, case), case % 2 == 0);
        assert_eq!(survey.view().sound(), Ok(()));
        let lists = survey.view().lists().len();
        assert!(if case % 2 == 0 { lists == 1 } else { lists == 2 || lists == 3 }, "{survey:?}");
        assert!(steiner::cheapest(survey.view()).is_some(), "{survey:?}");
    }
}
