//! The season, a second time: reports worked by hand from No. 11's sentences; the generated cases meet every refusal that
//! is counted; and libraries with one fault each are told from the second implementation.

use evidence::calls::code;
use evidence::season::{
    added, compare, compare_whole, farther, figures, outcome, put, Far, Report, Season, CALLS, REFUSALS, REPORT_BYTES,
    SECOND,
};
use evidence::{Refusal, Survey, View};
use std::collections::BTreeSet;

const SEED: u64 = 5;
const CASES: u64 = 3_000;

fn empty() -> Report {
    Report { surveys: 0, planned: 0, cost: 0, bound: 0, refused: [0; REFUSALS], far: None }
}

#[test]
fn a_season_worked_by_hand() {
    // 7 and 14; junctions 0 and 2 apart; 1 and 2, the same ratio; all prices 0.
    let line = Survey::new(&[1, 0, 1], &[(0, 1, 3), (1, 2, 4)]);
    let apart = Survey::new(&[1, 0, 1], &[(0, 1, 3)]);
    let near = Survey::new(&[1, 1], &[(0, 1, 1)]);
    let free = Survey::new(&[1, 1], &[(0, 1, 0)]);
    let mut bytes = vec![0; REPORT_BYTES];
    for survey in [&line, &apart, &near, &free] {
        assert_eq!((SECOND.add)(&mut bytes, survey.view()), 0);
    }
    let text = "planned=3\ncost=8\nbound=16\nrefused=8,1\nfar=0,14,14\n";
    let (mut out, mut counts) = ([0; 100], [0]);
    assert_eq!((SECOND.print)(&bytes, &mut out, &mut counts), 0);
    assert_eq!(&out[..counts[0] as usize], text.as_bytes());
    assert_eq!(empty().text(), "planned=0\ncost=0\nbound=0\nfar=none\n");
    assert_eq!(Report::of_bytes(&[0; REPORT_BYTES]), empty());
}

#[test]
fn the_longest_report() {
    let far = Some(Far { position: u64::MAX, twice: u64::MAX, bound: u64::MAX });
    let full =
        Report { surveys: 0, planned: u64::MAX, cost: u64::MAX, bound: u64::MAX, refused: [u64::MAX; REFUSALS], far };
    assert_eq!(full.text().len(), 747);
    assert_eq!(Report::of_bytes(&full.bytes()), full);
}

#[test]
fn three_leaves_the_report() {
    let survey = Survey::new(&[1, 1], &[(0, 1, 1)]);
    let full = [
        Report { surveys: 1_000, ..empty() },
        Report { planned: u64::MAX, ..empty() },
        Report { cost: u64::MAX, ..empty() },
        Report { bound: u64::MAX - 1, ..empty() },
    ];
    for report in full {
        let mut bytes = report.bytes();
        assert_eq!((SECOND.add)(&mut bytes, survey.view()), 3, "{report:?}");
        assert_eq!(bytes, report.bytes());
    }
}

#[test]
fn every_refusal_is_met() {
    let met: BTreeSet<u32> = (0..CASES).filter_map(|case| outcome(SEED, case).err()).map(|r| r.number).collect();
    assert_eq!(met, [1, 2, 3, 4, 5, 6, 8, 18].into());
}

/// A library that adds by another rule.
fn adds(
    report: &mut [u8],
    survey: View,
    rule: fn(&Report, Result<(u64, u64), Refusal>) -> Result<Report, Refusal>,
) -> u64 {
    if report.len() < REPORT_BYTES {
        return 7;
    }
    match rule(&Report::of_bytes(report), figures(survey)) {
        Ok(next) => {
            report[..REPORT_BYTES].copy_from_slice(&next.bytes());
            0
        }
        Err(refusal) => code(refusal),
    }
}

type Outcome = Result<(u64, u64), Refusal>;

/// The farthest plan by another comparison.
fn by(report: &Report, outcome: Outcome, beats: fn(Far, Far) -> bool) -> Result<Report, Refusal> {
    let mut next = added(report, outcome)?;
    if let (Some(before), Ok((cost, bound))) = (report.far, outcome) {
        let plan = Far { position: report.surveys, twice: 2 * cost, bound };
        next.far = Some(if bound > 0 && beats(before, plan) { plan } else { before });
    }
    Ok(next)
}

fn low_limbs(report: &mut [u8], survey: View) -> u64 {
    adds(report, survey, |report, outcome| {
        by(report, outcome, |before, plan| {
            plan.twice.wrapping_mul(before.bound) > before.twice.wrapping_mul(plan.bound)
        })
    })
}

fn at_least_as_far(report: &mut [u8], survey: View) -> u64 {
    adds(report, survey, |report, outcome| by(report, outcome, |before, plan| !farther(plan, before)))
}

fn by_division(report: &mut [u8], survey: View) -> u64 {
    adds(report, survey, |report, outcome| {
        by(report, outcome, |before, plan| {
            plan.twice as f64 / plan.bound as f64 > before.twice as f64 / before.bound as f64
        })
    })
}

fn refused_are_planned(report: &mut [u8], survey: View) -> u64 {
    adds(report, survey, |report, outcome| {
        let mut next = added(report, outcome)?;
        if outcome.is_err() {
            next.planned = next.planned.wrapping_add(1);
        }
        Ok(next)
    })
}

fn changed_on_three(report: &mut [u8], survey: View) -> u64 {
    let answer = (SECOND.add)(report, survey);
    if answer == 3 {
        report[0] = report[0].wrapping_add(1);
    }
    answer
}

fn position_of_plans(report: &mut [u8], survey: View) -> u64 {
    adds(report, survey, |report, outcome| {
        let mut next = added(report, outcome)?;
        if next.far != report.far {
            next.far = next.far.map(|far| Far { position: report.planned, ..far });
        }
        Ok(next)
    })
}

fn one_thousand_and_one(report: &mut [u8], survey: View) -> u64 {
    adds(report, survey, |report, outcome| {
        if report.surveys != 1_000 {
            return added(report, outcome);
        }
        let mut next = added(&Report { surveys: 999, ..report.clone() }, outcome)?;
        next.surveys = 1_001;
        Ok(next)
    })
}

fn own_refusal_answered(report: &mut [u8], survey: View) -> u64 {
    let answer = (SECOND.add)(report, survey);
    match figures(survey) {
        Err(refusal) if answer == 0 => code(refusal),
        _ => answer,
    }
}

fn reduced(report: &[u8], out: &mut [u8], counts: &mut [u64]) -> u64 {
    if report.len() < REPORT_BYTES {
        return 7;
    }
    let mut printed = Report::of_bytes(report);
    printed.far = printed.far.map(|far| {
        let (mut a, mut b) = (far.twice, far.bound);
        while b > 0 {
            (a, b) = (b, a % b);
        }
        Far { twice: far.twice / a, bound: far.bound / a, ..far }
    });
    put(&printed.text(), out, counts)
}

fn all_numbers(report: &[u8], out: &mut [u8], counts: &mut [u64]) -> u64 {
    if report.len() < REPORT_BYTES {
        return 7;
    }
    let mut printed = Report::of_bytes(report);
    printed.refused[7] = printed.refused[7].max(1);
    put(&printed.text(), out, counts)
}

#[test]
fn faults_are_found() {
    let differs = |season: &Season| {
        let single =
            (0..CASES).any(|case| CALLS.iter().any(|&(_, prints)| compare(season, SEED, case, prints).is_err()));
        single || compare_whole(season, SEED, 0).is_err()
    };
    assert!(!differs(&SECOND));
    let faulty: [(&str, Season); 10] = [
        ("low limbs alone compared", Season { add: low_limbs, ..SECOND }),
        ("at least as far", Season { add: at_least_as_far, ..SECOND }),
        ("ratios as fractions of 53 bits", Season { add: by_division, ..SECOND }),
        ("a refused survey counted as planned", Season { add: refused_are_planned, ..SECOND }),
        ("the report changed on 3", Season { add: changed_on_three, ..SECOND }),
        ("the position among planned ones", Season { add: position_of_plans, ..SECOND }),
        ("a 1,001st survey", Season { add: one_thousand_and_one, ..SECOND }),
        ("the survey's refusal answered", Season { add: own_refusal_answered, ..SECOND }),
        ("reduced figures", Season { print: reduced, ..SECOND }),
        ("a number that was not met", Season { print: all_numbers, ..SECOND }),
    ];
    for (name, season) in faulty {
        assert!(differs(&season), "{name} is not found");
    }
}
