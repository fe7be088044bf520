//! The checker on plans drawn by anyone.

use evidence::check::{check, Passed};
use evidence::gen::{damaged_plan, damaged_plan_of, tiny, Damage, Rng, DAMAGES};
use evidence::plan::{fast, owned, KEPT};
use evidence::{brute, Refusal, Survey};
use std::collections::BTreeMap;

fn record(amount: u64, members: &[usize]) -> Vec<u8> {
    let mut record = amount.to_le_bytes().to_vec();
    record.resize(64, 0);
    for v in members {
        record[8 + v / 8] |= 1 << (v % 8);
    }
    record
}

fn records(moats: &[(u64, &[usize])]) -> Vec<u8> {
    moats.iter().flat_map(|moat| record(moat.0, moat.1)).collect()
}

fn refused(number: u32, place: u64) -> Result<Passed, Refusal> {
    Err(Refusal { number, place })
}

/// P3's survey: groups 1 0 1; 0-1:3, 1-2:4.
fn p3() -> Survey {
    Survey::new(&[1, 0, 1], &[(0, 1, 3), (1, 2, 4)])
}

#[test]
fn each_refusal_by_hand() {
    let survey = p3();
    let view = survey.view();
    let sound = records(&[(6, &[0]), (7, &[2]), (1, &[0, 1])]);
    let passed = Ok(Passed { sites: 2, cost: 7, bound: 14 });
    assert_eq!(check(view, &[2, 2], &sound), passed);

    assert_eq!(check(view, &[2], &sound), refused(9, 0));
    assert_eq!(check(view, &[2, 2, 2], &sound), refused(9, 0));
    assert_eq!(check(view, &[2, 2], &sound[..191]), refused(9, 0));
    assert_eq!(check(view, &[2, 2], &record(1, &[]).repeat(896)), refused(9, 0));
    assert_eq!(check(view, &[2, 2], &record(1, &[]).repeat(895)), refused(12, 0));

    assert_eq!(check(view, &[2, 3], &sound), refused(10, 1));
    assert_eq!(check(view, &[255, 3], &records(&[(0, &[])])), refused(10, 0));

    assert_eq!(check(view, &[2, 2], &records(&[(6, &[0]), (0, &[2])])), refused(11, 1));
    assert_eq!(check(view, &[2, 2], &records(&[(200_000_001, &[0])])), refused(11, 0));
    assert_eq!(check(view, &[2, 2], &records(&[(200_000_000, &[0])])), refused(13, 0));
    assert_eq!(check(view, &[2, 2], &records(&[(1 << 63, &[0])])), refused(11, 0));
    assert_eq!(check(view, &[2, 2], &records(&[(1, &[0, 3])])), refused(11, 0));
    assert_eq!(check(view, &[2, 2], &records(&[(1, &[0, 255])])), refused(11, 0));
    assert_eq!(check(view, &[2, 2], &records(&[(1, &[0, 447])])), refused(11, 0));
    // 11 over all records before 12.
    assert_eq!(check(view, &[2, 2], &records(&[(1, &[]), (0, &[0])])), refused(11, 1));

    assert_eq!(check(view, &[2, 2], &records(&[(6, &[0]), (1, &[])])), refused(12, 1));
    assert_eq!(check(view, &[2, 2], &records(&[(6, &[0]), (1, &[0, 1, 2])])), refused(12, 1));
    assert_eq!(check(view, &[2, 2], &records(&[(1, &[1])])), refused(12, 0));
    assert_eq!(check(view, &[2, 2], &records(&[(1, &[0, 2])])), refused(12, 0));

    assert_eq!(check(view, &[2, 2], &records(&[(7, &[0])])), refused(13, 0));
    assert_eq!(check(view, &[2, 2], &records(&[(6, &[0]), (8, &[2]), (1, &[0, 1])])), refused(13, 1));
    assert_eq!(check(view, &[2, 2], &records(&[(3, &[0]), (4, &[0])])), refused(13, 0));
    // A moat that occurs twice: the amounts add.
    assert_eq!(check(view, &[2, 2], &records(&[(2, &[0]), (7, &[2]), (4, &[0]), (1, &[0, 1])])), passed);
    assert_eq!(check(view, &[2, 2], &records(&[(7, &[2]), (1, &[0, 1]), (6, &[0])])), passed);
    // A moat and its other side part the same groups.
    assert_eq!(check(view, &[2, 2], &records(&[(6, &[1, 2]), (7, &[2]), (1, &[2])])), passed);

    assert_eq!(check(view, &[2, 1], &sound), refused(14, 1));
    assert_eq!(check(view, &[0, 0], &sound), refused(14, 1));

    assert_eq!(check(view, &[2, 2], &records(&[(5, &[0]), (7, &[2]), (1, &[0, 1])])), refused(15, 0));
    assert_eq!(check(view, &[2, 2], &[]), refused(15, 0));

    // The survey's own refusals come first.
    let mut torn = survey.clone();
    torn.second.pop();
    assert_eq!(check(torn.view(), &[], &[1]), refused(2, 0));
}

#[test]
fn no_sites() {
    let survey = Survey::new(&[1, 2], &[(0, 1, 4), (0, 1, 0)]);
    let nothing = Ok(Passed { sites: 0, cost: 0, bound: 0 });
    assert_eq!(check(survey.view(), &[0, 0], &[]), nothing);
    assert_eq!(check(survey.view(), &[1, 2], &[]), nothing);
    assert_eq!(check(survey.view(), &[2, 0], &[]), refused(15, 0));
    assert_eq!(check(survey.view(), &[2, 0], &record(1, &[0])), refused(12, 0));
}

#[test]
fn lowest_unjoined_group() {
    let survey = Survey::new(&[9, 9, 3, 3], &[(0, 1, 0), (2, 3, 0)]);
    assert_eq!(check(survey.view(), &[0, 0], &[]), refused(14, 3));
    assert_eq!(check(survey.view(), &[0, 2], &[]), refused(14, 9));
}

/// 15 is a comparison of products: P4 is just within it.
#[test]
fn products() {
    let survey = Survey::new(&[1, 1, 1], &[(0, 1, 1), (1, 2, 1), (0, 2, 1)]);
    let moats = records(&[(1, &[0]), (1, &[1]), (1, &[2])]);
    assert_eq!(check(survey.view(), &[2, 2, 0], &moats), Ok(Passed { sites: 3, cost: 2, bound: 3 }));
    assert_eq!(check(survey.view(), &[2, 2, 2], &moats), refused(15, 0));
    assert_eq!(check(survey.view(), &[2, 2, 0], &moats[..128]), refused(15, 0));
}

#[test]
fn damages_reach_every_refusal() {
    let mut met: BTreeMap<(String, u32), u32> = BTreeMap::new();
    let mut by_number: BTreeMap<u32, u32> = BTreeMap::new();
    for case in 0..200 * DAMAGES.len() as u64 {
        let (damage, case) = damaged_plan(31, case);
        let answer = check(case.survey.view(), &case.marks, &case.records);
        let number = answer.err().map_or(0, |refusal| refusal.number);
        *met.entry((format!("{damage:?}"), number)).or_default() += 1;
        *by_number.entry(number).or_default() += 1;
        match damage {
            Damage::Nothing | Damage::Reordered | Damage::Divided => assert_eq!(number, 0, "{damage:?}"),
            Damage::MarksLength | Damage::RecordsLength | Damage::TooManyRecords => assert_eq!(number, 9),
            Damage::NoAmount | Damage::HighAmount => assert_eq!(number, 11),
            _ => {}
        }
    }
    for number in (1..=6).chain(9..=15) {
        assert!(by_number.contains_key(&number), "{number} is never met: {met:?}");
    }
    for (damage, number) in [
        ("Twice", 13),
        ("HighMark", 10),
        ("Stranger", 11),
        ("PartsNoGroup", 12),
        ("Raised", 13),
        ("Cheaper", 13),
        ("LeftOut", 14),
        ("KeptToo", 15),
        ("Lowered", 15),
        ("FewerRecords", 15),
    ] {
        assert!(met.contains_key(&(damage.to_string(), number)), "{damage} never gives {number}: {met:?}");
    }
}

/// Demand 3 for whatever the checker passes, whoever drew it.
#[test]
fn what_passes_is_accurate() {
    for case in 0..4_000 {
        let mut rng = Rng::of_case(32, case);
        let survey = tiny(&mut rng);
        let plan = owned(fast, survey.view()).unwrap();
        let damage = rng.pick(&DAMAGES);
        let case = damaged_plan_of(&mut rng, damage, survey, plan);
        if let Ok(passed) = check(case.survey.view(), &case.marks, &case.records) {
            let best = brute::cheapest(case.survey.view()).expect("what passes joins every group");
            assert_eq!(case.survey.view().unjoined(|t| case.marks[t] == KEPT), None);
            if passed.sites == 0 {
                assert_eq!(passed.cost, 0);
            } else {
                assert!((2 * passed.sites - 2) * best >= passed.sites * passed.cost);
            }
        }
    }
}
