//! Plans with one track closed (No. 12): rows worked by hand, refusals in their order, and libraries with a fault each.

use evidence::calls::generated::OPERATIONS;
use evidence::calls::{Library, SECOND};
use evidence::closed::{closed, MAX_CLOSED, ROW};
use evidence::plan::{growth, owned, reference};
use evidence::{Refusal, Survey, View};

fn rows(survey: &Survey, tracks: &[u32]) -> Vec<[u64; ROW]> {
    let mut result = vec![9; ROW * tracks.len()];
    closed(survey.view(), tracks, &mut result).expect("the survey is sound");
    result.chunks(ROW).map(|row| row.try_into().unwrap()).collect()
}

#[test]
fn by_hand() {
    // P4: a triangle; each closing leaves the other two.
    let p4 = Survey::new(&[1, 1, 1], &[(0, 1, 1), (1, 2, 1), (0, 2, 1)]);
    assert_eq!(rows(&p4, &[2, 0, 1, 0]), [[0, 0, 2, 3]; 4]);
    // P6: two equal tracks.
    let p6 = Survey::new(&[1, 1], &[(0, 1, 5), (0, 1, 5)]);
    assert_eq!(rows(&p6, &[0, 1]), [[0, 0, 5, 10]; 2]);
    // P5: the spokes are dropped, and without the middle one there is no way.
    let p5 = Survey::new(&[1, 1, 0, 0], &[(0, 1, 3), (0, 2, 1), (0, 3, 1)]);
    assert_eq!(rows(&p5, &[0, 1, 2, 3]), [[8, 1, 0, 0], [0, 0, 3, 6], [0, 0, 3, 6], [19, 3, 0, 0]]);
    // Group 1 hangs by track 0, group 2 by track 1.
    let two = Survey::new(&[1, 1, 2, 2], &[(0, 1, 4), (2, 3, 4)]);
    assert_eq!(rows(&two, &[1, 0, 7]), [[8, 2, 0, 0], [8, 1, 0, 0], [19, 7, 0, 0]]);
    // P12 with a track elsewhere: 8 with every track closed, and 19 before 8.
    let p12 = Survey::new(&[1, 1, 0], &[(1, 2, 1)]);
    assert_eq!(rows(&p12, &[0, 1]), [[8, 1, 0, 0], [19, 1, 0, 0]]);
    assert_eq!(rows(&p12, &[]), [[0; ROW]; 0]);
}

#[test]
fn what_ends_the_call() {
    let p6 = Survey::new(&[1, 1], &[(0, 1, 5), (0, 1, 5)]);
    let refused = |number| Err(Refusal { number, place: 0 });
    let ask = |survey: View, many: usize, room: usize| {
        let mut result = vec![7; room];
        let answer = closed(survey, &vec![0; many], &mut result);
        assert!(answer.is_ok() || result == vec![7; room]);
        answer
    };
    assert_eq!(ask(p6.view(), MAX_CLOSED, ROW * MAX_CLOSED), Ok(()));
    assert_eq!(ask(p6.view(), MAX_CLOSED + 1, ROW * MAX_CLOSED + ROW), refused(7));
    assert_eq!(ask(p6.view(), 2, 7), refused(7));
    assert_eq!(ask(p6.view(), 0, 0), Ok(()));
    assert_eq!(ask(View { second: &[1], ..p6.view() }, 2, 7), refused(2));
    assert_eq!(ask(View { owners: &[0], others: &[1], ..p6.view() }, 2, 7), refused(18));
}

/// An unpicked track changes nothing, whether or not the groups can be joined.
#[test]
fn unpicked_tracks() {
    let survey = Survey::new(&[1, 1, 0], &[(0, 1, 3), (1, 2, 1), (0, 2, 9)]);
    let plan = owned(reference, survey.view()).unwrap();
    assert!(!growth(survey.view()).picked[2]);
    assert_eq!(rows(&survey, &[2]), [[0, 0, plan.counts.cost, plan.counts.bound]]);
}

/// Each track of the list is turned into another before it is asked for, or a row is made another after.
fn each(survey: View, tracks: &[u32], result: &mut [u64], other: impl Fn(usize, u32) -> u32) -> u64 {
    let tracks: Vec<u32> = tracks.iter().enumerate().map(|(i, &track)| other(i, track)).collect();
    (SECOND.closed)(survey, &tracks, result)
}

fn next_left_out(survey: View, tracks: &[u32], result: &mut [u64]) -> u64 {
    let m = survey.m() as u32;
    each(survey, tracks, result, |_, track| if track + 1 < m { track + 1 } else { track })
}

fn row_before(survey: View, tracks: &[u32], result: &mut [u64]) -> u64 {
    each(survey, tracks, result, |i, track| if i > 0 { tracks[i - 1] } else { track })
}

fn eight_of_all_tracks(survey: View, tracks: &[u32], result: &mut [u64]) -> u64 {
    let code = (SECOND.closed)(survey, tracks, result);
    if code == 0 && survey.unjoined(|_| true).is_none() {
        result[..ROW * tracks.len()].chunks_exact_mut(ROW).filter(|row| row[0] == 8).for_each(|row| row.fill(0));
    }
    code
}

fn nineteen_ends(survey: View, tracks: &[u32], result: &mut [u64]) -> u64 {
    let before = result.to_vec();
    let code = (SECOND.closed)(survey, tracks, result);
    match tracks.iter().find(|&&track| track as usize >= survey.m()) {
        Some(&track) if code == 0 => {
            result.copy_from_slice(&before);
            19 + 256 * u64::from(track)
        }
        _ => code,
    }
}

fn eight_before_nineteen(survey: View, tracks: &[u32], result: &mut [u64]) -> u64 {
    let code = (SECOND.closed)(survey, tracks, result);
    if code == 0 {
        if let Some(group) = survey.unjoined(|_| true) {
            let rows = result[..ROW * tracks.len()].chunks_exact_mut(ROW).filter(|row| row[0] == 19);
            rows.for_each(|row| row[..2].copy_from_slice(&[8, u64::from(group)]));
        }
    }
    code
}

fn eight_ends(survey: View, tracks: &[u32], result: &mut [u64]) -> u64 {
    if survey.sound().is_ok() && tracks.len() <= MAX_CLOSED && result.len() >= ROW * tracks.len() {
        if let Some(group) = survey.unjoined(|_| true) {
            return 8 + 256 * u64::from(group);
        }
    }
    (SECOND.closed)(survey, tracks, result)
}

fn unpicked_for_picked(survey: View, tracks: &[u32], result: &mut [u64]) -> u64 {
    let code = (SECOND.closed)(survey, tracks, result);
    if code == 0 && survey.unjoined(|_| true).is_none() {
        let picked = growth(survey).picked;
        if let Some(free) = (0..survey.m()).find(|&t| !picked[t]) {
            let mut row = [0; ROW];
            (SECOND.closed)(survey, &[free as u32], &mut row);
            let asked = result.chunks_exact_mut(ROW).zip(tracks);
            asked.filter(|(_, &t)| picked.get(t as usize) == Some(&true)).for_each(|(to, _)| to.copy_from_slice(&row));
        }
    }
    code
}

fn rest_zeroed(survey: View, tracks: &[u32], result: &mut [u64]) -> u64 {
    let code = (SECOND.closed)(survey, tracks, result);
    if code == 0 {
        result[ROW * tracks.len()..].fill(0);
    }
    code
}

fn longer_list(survey: View, tracks: &[u32], result: &mut [u64]) -> u64 {
    match (SECOND.closed)(survey, tracks, result) {
        7 if result.len() >= ROW * tracks.len() => {
            (SECOND.closed)(survey, &tracks[..MAX_CLOSED], result);
            0
        }
        code => code,
    }
}

#[test]
fn faults_are_found() {
    let operation = OPERATIONS.iter().find(|operation| operation.name == "closed").unwrap();
    let differs = |library: &Library| (0..4_000).any(|case| operation.compare(library, 1, case).is_err());
    assert!(!differs(&SECOND));
    type Closed = fn(View, &[u32], &mut [u64]) -> u64;
    let faulty: [(&str, Closed); 10] = [
        ("the next track left out", next_left_out),
        ("the row before", row_before),
        ("8 judged with all tracks", eight_of_all_tracks),
        ("19 ends the call", nineteen_ends),
        ("8 before 19", eight_before_nineteen),
        ("8 ends the call", eight_ends),
        ("an unpicked track's row for a picked one", unpicked_for_picked),
        ("numbers past the rows zeroed", rest_zeroed),
        ("a longer list cut", longer_list),
        ("nothing written", |survey, tracks, result| (SECOND.closed)(survey, tracks, &mut result.to_vec())),
    ];
    for (name, closed) in faulty {
        assert!(differs(&Library { closed, ..SECOND }), "{name} is not found");
    }
}
