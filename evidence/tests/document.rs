//! Every example and figure of document 01.

use evidence::calls::document::PLANS;
use evidence::check::{check, Passed};
use evidence::gen::WORKED;
use evidence::plan::{fast, growth, owned, record_room, reference, Plan, Planner};
use evidence::print::{moat_line, plan_lines, program, refusal_lines, survey_text};
use evidence::read::{parse, read, Lengths, Lent};
use evidence::{brute, Refusal, Survey, MAX_INPUT, MAX_TEXT};

const PLANNERS: [Planner; 2] = [reference, fast];

fn refused(number: u32, place: u64) -> Refusal {
    Refusal { number, place }
}

fn worked(p: usize) -> Survey {
    Survey::new(WORKED[p - 1].0, WORKED[p - 1].1)
}

fn moats(plan: &Plan) -> Vec<(u64, Vec<usize>)> {
    let records = plan.records.chunks_exact(64);
    records
        .map(|record| {
            let amount = (0..8).map(|i| u64::from(record[i]) << (8 * i)).sum();
            (amount, (0..448).filter(|v| record[8 + v / 8] & (1 << (v % 8)) != 0).collect())
        })
        .collect()
}

#[test]
fn surveys_worked_by_hand() {
    for (i, expected) in PLANS.iter().enumerate() {
        for planner in PLANNERS {
            let plan = owned(planner, worked(i + 1).view()).expect("finished");
            let of = format!("P{}", i + 1);
            let [sites, cost, bound, rounds] = expected.figures;
            assert_eq!(plan.counts.sites, sites, "{of}");
            assert_eq!(plan.counts.cost, cost, "{of}");
            assert_eq!(plan.counts.bound, bound, "{of}");
            assert_eq!(plan.counts.rounds, rounds, "{of}");
            assert_eq!(plan.counts.moats, expected.moats.len() as u64, "{of}");
            assert_eq!(plan.marks, expected.marks, "{of}");
            let drawn = moats(&plan);
            assert_eq!(drawn.len(), expected.moats.len(), "{of}");
            for (drawn, expected) in drawn.iter().zip(expected.moats) {
                assert_eq!((drawn.0, &drawn.1[..]), *expected, "{of}");
            }
            let passed = check(worked(i + 1).view(), &plan.marks, &plan.records);
            assert_eq!(passed, Ok(Passed { sites, cost, bound }), "{of}");
        }
    }
}

#[test]
fn p12_is_refused() {
    for planner in PLANNERS {
        assert_eq!(owned(planner, worked(12).view()), Err(refused(8, 1)));
        assert_eq!(program(planner, b"nodes=2\nlinks=0\nnode=1\nnode=1\n"), "refused=8\nplace=1\n");
    }
}

#[test]
fn p3_is_printed() {
    let text = b"nodes=3\nlinks=2\nnode=1\nnode=0\nnode=1\nlink=0,1,3\nlink=1,2,4\n";
    let printed = "sites=2\ncost=7\nbound=14\nrounds=2\nkeep=0\nkeep=1\nmoat=6:0\nmoat=7:2\nmoat=1:0,1\n";
    assert_eq!(survey_text(&worked(3)), text);
    for planner in PLANNERS {
        assert_eq!(program(planner, text), printed);
    }
}

#[test]
fn p4_is_tight() {
    let plan = owned(reference, worked(4).view()).unwrap();
    assert_eq!(plan.counts.sites * plan.counts.cost, 6);
    assert_eq!((plan.counts.sites - 1) * plan.counts.bound, 6);
}

#[test]
fn p9_has_a_cheaper_set() {
    assert_eq!(brute::cheapest(worked(9).view()), Some(9));
}

#[test]
fn brute_force_on_the_worked_surveys() {
    let best = [0, 5, 7, 2, 3, 5, 0, 0, 9, 10, 7].map(Some);
    for (i, best) in best.into_iter().enumerate() {
        assert_eq!(brute::cheapest(worked(i + 1).view()), best, "P{}", i + 1);
    }
    assert_eq!(brute::cheapest(worked(12).view()), None);
}

/// P3 with the merged component left idle would give {2} 8; P5 and P10 are grown round by round.
#[test]
fn rounds_of_p3_p5_p10() {
    let rounds = |p: usize| -> Vec<(usize, u64, u64)> {
        growth(worked(p).view()).rounds.iter().map(|r| (r.winner, r.wait, r.growing)).collect()
    };
    assert_eq!(rounds(3), [(0, 6, 2), (1, 1, 2)]);
    assert_eq!(rounds(5), [(1, 2, 2), (2, 0, 2), (0, 1, 2)]);
    assert_eq!(rounds(10), [(1, 2, 4), (0, 2, 3), (2, 0, 2)]);
}

/// Source document 001, Example 22.10: a cycle of price 1 has moats of one half around each junction.
#[test]
fn cycles() {
    for n in 3..=20u32 {
        let tracks: Vec<_> = (0..n).map(|v| (v, (v + 1) % n, 1)).collect();
        for planner in PLANNERS {
            let plan = owned(planner, Survey::new(&vec![7; n as usize], &tracks).view()).unwrap();
            assert_eq!(plan.counts.cost, u64::from(n) - 1);
            assert_eq!(plan.counts.bound, u64::from(n));
        }
    }
}

#[test]
fn price_limit() {
    for planner in PLANNERS {
        let plan = owned(planner, Survey::new(&[1, 1], &[(0, 1, 100_000_000)]).view()).unwrap();
        assert_eq!(plan.counts.cost, 100_000_000);
        let one_grows =
            owned(planner, Survey::new(&[1, 0, 1], &[(0, 1, 100_000_000), (1, 2, 100_000_000)]).view()).unwrap();
        assert_eq!(one_grows.counts.bound, 400_000_000);
        let over = Survey::new(&[1, 1], &[(0, 1, 100_000_001)]);
        assert_eq!(owned(planner, over.view()), Err(refused(6, 0)));
        assert_eq!(check(over.view(), &[2], &[]), Err(refused(6, 0)));
    }
}

#[test]
fn junction_limit() {
    for planner in PLANNERS {
        assert!(owned(planner, Survey::new(&[0; 448], &[]).view()).is_ok());
        assert_eq!(owned(planner, Survey::new(&[0; 449], &[]).view()), Err(refused(1, 0)));
        assert_eq!(owned(planner, Survey::new(&[], &[]).view()), Err(refused(1, 0)));
        let path: Vec<_> = (1..448).map(|v| (v - 1, v, 100_000_000)).collect();
        let plan = owned(planner, Survey::new(&[255; 448], &path).view()).unwrap();
        assert_eq!((plan.counts.rounds, plan.counts.moats), (447, 448));
        assert_eq!(plan.counts.cost, 44_700_000_000);
        // Two sites at the ends: the load of each passes 32 bits.
        let mut ends = [0; 448];
        (ends[0], ends[447]) = (255, 255);
        let plan = owned(planner, Survey::new(&ends, &path).view()).unwrap();
        assert_eq!((plan.counts.rounds, plan.counts.cost, plan.counts.bound), (447, 44_700_000_000, 89_400_000_000));
    }
}

#[test]
fn track_limit() {
    for planner in PLANNERS {
        let plan = owned(planner, Survey::new(&[1, 1], &[(1, 0, 3); 2_048]).view()).unwrap();
        assert_eq!(plan.marks[0], 2);
        assert!(plan.marks[1..].iter().all(|&mark| mark == 0));
        assert_eq!(owned(planner, Survey::new(&[1, 1], &[(0, 1, 3); 2_049]).view()), Err(refused(3, 0)));
    }
}

#[test]
fn refusals_of_planning_in_their_order() {
    for planner in PLANNERS {
        let mut survey = Survey::new(&[1, 1], &[(2, 2, 100_000_001), (1, 1, 100_000_001), (0, 1, 100_000_001)]);
        assert_eq!(owned(planner, survey.view()), Err(refused(4, 0)));
        survey.first[0] = 0;
        assert_eq!(owned(planner, survey.view()), Err(refused(4, 0)));
        survey.second[0] = 1;
        assert_eq!(owned(planner, survey.view()), Err(refused(6, 0)));
        survey.prices[0] = 1;
        assert_eq!(owned(planner, survey.view()), Err(refused(5, 1)));
        survey.second[1] = 0;
        assert_eq!(owned(planner, survey.view()), Err(refused(6, 1)));
        survey.prices[1] = 1;
        assert_eq!(owned(planner, survey.view()), Err(refused(6, 2)));
        survey.prices[2] = 1;
        assert!(owned(planner, survey.view()).is_ok());
        survey.second.push(0);
        assert_eq!(owned(planner, survey.view()), Err(refused(2, 0)));
        survey.second.pop();
        survey.prices.pop();
        assert_eq!(owned(planner, survey.view()), Err(refused(2, 0)));
        survey.groups.clear();
        assert_eq!(owned(planner, survey.view()), Err(refused(1, 0)));
        // 2 before 3.
        let mut many = Survey::new(&[0, 0], &[(0, 1, 0); 2_049]);
        many.prices.pop();
        assert_eq!(owned(planner, many.view()), Err(refused(2, 0)));
        // The highest 32-bit numbers.
        let wide = Survey::new(&[1, 1], &[(0, u32::MAX, u32::MAX)]);
        assert_eq!(owned(planner, wide.view()), Err(refused(4, 0)));
        // The lowest group that can't be joined.
        let apart = Survey::new(&[9, 3, 0, 3, 9, 200], &[(1, 0, 0)]);
        assert_eq!(owned(planner, apart.view()), Err(refused(8, 3)));
        let apart = Survey::new(&[9, 3, 0, 3, 9, 200], &[(1, 3, 0)]);
        assert_eq!(owned(planner, apart.view()), Err(refused(8, 9)));
    }
}

#[test]
fn buffers_of_planning() {
    for planner in PLANNERS {
        let survey = worked(3);
        let room = record_room(3);
        assert_eq!(room, 320);
        for (marks, records, finished) in [(2, 320, true), (1, 320, false), (2, 319, false), (5, 333, true)] {
            let (mut marks, mut records) = (vec![0xa5; marks], vec![0x5a; records]);
            let answer = planner(survey.view(), &mut marks, &mut records);
            if finished {
                assert_eq!(answer.unwrap().moats, 3);
                assert!(marks[2..].iter().all(|&byte| byte == 0xa5));
                assert!(records[192..].iter().all(|&byte| byte == 0x5a));
            } else {
                assert_eq!(answer, Err(refused(7, 0)));
                assert!(marks.iter().all(|&byte| byte == 0xa5) && records.iter().all(|&byte| byte == 0x5a));
            }
        }
        // 7 before 8, and after 6; the need is the same where k is 0.
        assert_eq!(planner(worked(12).view(), &mut [], &mut [0; 191]), Err(refused(7, 0)));
        assert_eq!(planner(worked(12).view(), &mut [], &mut [0; 192]), Err(refused(8, 1)));
        assert_eq!(planner(worked(7).view(), &mut [0], &mut [0; 191]), Err(refused(7, 0)));
        assert_eq!(planner(Survey::new(&[0, 0], &[(0, 1, 100_000_001)]).view(), &mut [], &mut []), Err(refused(6, 0)));
        // With k 0 the marks are 0 and every record byte stays.
        let (mut marks, mut records) = ([9; 2], [9; 192]);
        assert!(planner(worked(7).view(), &mut marks, &mut records).is_ok());
        assert_eq!((marks, records), ([0, 9], [9; 192]));
    }
}

#[test]
fn blunders() {
    for planner in PLANNERS {
        // Sites at both ends of a track do not make it needed, where their groups are complete: group 3 grows through
        // groups 1 and 2 and picks 2-3 on its way, but 0-5 joins it.
        let survey = Survey::new(&[3, 1, 1, 2, 2, 3], &[(0, 1, 1), (1, 2, 0), (2, 3, 1), (3, 4, 0), (0, 5, 5)]);
        let plan = owned(planner, survey.view()).unwrap();
        assert_eq!(plan.marks, [1, 2, 1, 2, 2]);
        // Lone members aren't sites.
        assert_eq!(owned(planner, Survey::new(&[1, 1, 2, 3], &[(0, 1, 1)]).view()).unwrap().counts.sites, 2);
    }
}

fn parsed(text: &str) -> Result<Survey, Refusal> {
    parse(text.as_bytes(), Lengths::ENOUGH)
}

#[test]
fn reading_counts_and_digits() {
    assert_eq!(parsed("nodes=03"), Err(refused(16, 7)));
    assert_eq!(parsed("nodes=500"), Err(refused(16, 9)));
    assert_eq!(parsed("nodes=500x"), Err(refused(16, 9)));
    assert_eq!(parsed("nodes=500\n"), Err(refused(1, 0)));
    assert_eq!(parsed("nodes=0\n"), Err(refused(1, 0)));
    assert_eq!(parsed("nodes=10000000"), Err(refused(16, 13)));
    assert_eq!(parsed("nodes=10000000\n"), Err(refused(16, 13)));
    assert_eq!(parsed("nodes=9999999\n"), Err(refused(1, 0)));
    assert_eq!(parsed("nodes=449\nlinks=2049\n"), Err(refused(1, 0)));
    assert_eq!(parsed("nodes=448\nlinks=2049\n"), Err(refused(3, 0)));
    assert_eq!(parsed("nodes=448\nlinks=2049"), Err(refused(16, 20)));
    assert_eq!(parsed("nodes=1\nlinks=0\nnode=256"), Err(refused(16, 24)));
    assert_eq!(parsed("nodes=2\nlinks=0\nnode=0\nnode=256\n"), Err(refused(17, 1)));
    assert_eq!(parsed("nodes=2\nlinks=0\nnode=256\nnode=x"), Err(refused(17, 0)));
    assert_eq!(parsed("nodes=2\nlinks=0\nnode=0256\nnode=1\n"), Err(refused(16, 22)));
    assert_eq!(parsed(""), Err(refused(16, 0)));
    assert_eq!(parsed("nodes=1\nlinks=0\nnode=0\n"), Ok(Survey::new(&[0], &[])));
    assert_eq!(parsed("nodes=1\nlinks=0\nnode=0\n\n"), Err(refused(16, 23)));
    assert_eq!(parsed("nodes=1\nlinks=0\nnode=0"), Err(refused(16, 22)));
    // 4, 5 and 6 wait for planning.
    let all_wrong = "nodes=1\nlinks=1\nnode=255\nlink=999,999,999999999\n";
    assert_eq!(parsed(all_wrong), Ok(Survey::new(&[255], &[(999, 999, 999_999_999)])));
    assert_eq!(program(reference, all_wrong.as_bytes()), "refused=4\nplace=0\n");
}

#[test]
fn reading_into_short_buffers() {
    let lengths = |groups, first, second, prices| Lengths { groups, first, second, prices, owners: 0, others: 0 };
    let p3 = survey_text(&worked(3));
    assert_eq!(parse(&p3, lengths(3, 2, 2, 2)), Ok(worked(3)));
    for short in [lengths(2, 2, 2, 2), lengths(3, 1, 2, 2), lengths(3, 2, 1, 2), lengths(3, 2, 2, 1)] {
        assert_eq!(parse(&p3, short), Err(refused(7, 0)));
    }
    // 7 comes when the count's line is complete: after 1 and 3, before what stands later.
    assert_eq!(parse(b"nodes=0\n", lengths(0, 0, 0, 0)), Err(refused(1, 0)));
    assert_eq!(parse(b"nodes=3\nx", lengths(2, 0, 0, 0)), Err(refused(7, 0)));
    assert_eq!(parse(b"nodes=3\nlinks=2049\n", lengths(2, 0, 0, 0)), Err(refused(7, 0)));
    assert_eq!(parse(b"nodes=3\nlinks=2049\n", lengths(3, 0, 0, 0)), Err(refused(3, 0)));
    assert_eq!(parse(b"nodes=3\nlinks=1\nnode=256\n", lengths(3, 1, 1, 0)), Err(refused(7, 0)));
    assert_eq!(parse(b"nodes=3", lengths(2, 0, 0, 0)), Err(refused(16, 7)));

    let mut lent = Survey {
        groups: vec![9; 4],
        first: vec![9; 3],
        second: vec![9; 2],
        prices: vec![9; 5],
        owners: vec![9; 2],
        others: vec![9; 1],
    };
    let untouched = lent.clone();
    let torn = &p3[..p3.len() - 1];
    assert_eq!(read(torn, lent_by(&mut lent)), Err(refused(16, torn.len() as u64)));
    assert_eq!(lent, untouched);
    assert_eq!(read(&p3, lent_by(&mut lent)), Ok([3, 2, 0]));
    let mut filled = untouched.clone();
    filled.groups = vec![1, 0, 1, 9];
    (filled.first, filled.second, filled.prices) = (vec![0, 1, 9], vec![1, 2], vec![3, 4, 9, 9, 9]);
    assert_eq!(lent, filled);
    // With an also line, which fills both pair buffers' beginnings.
    let also = b"nodes=1\nlinks=0\nnode=7\nalso=0,255\n";
    assert_eq!(read(also, lent_by(&mut lent)), Ok([1, 0, 1]));
    (filled.groups[0], filled.owners[0], filled.others[0]) = (7, 0, 255);
    assert_eq!(lent, filled);
    let two = b"nodes=1\nlinks=0\nnode=7\nalso=0,254\nalso=0,255\n";
    assert_eq!(read(two, lent_by(&mut lent)), Err(refused(7, 0)));
    assert_eq!(lent, filled);
}

/// The buffers of a survey as they are lent to reading.
fn lent_by(survey: &mut Survey) -> Lent<'_> {
    Lent {
        groups: &mut survey.groups,
        first: &mut survey.first,
        second: &mut survey.second,
        prices: &mut survey.prices,
        owners: &mut survey.owners,
        others: &mut survey.others,
    }
}

#[test]
fn longest_text() {
    let nodes = "node=9999999\n".repeat(448);
    let alsos = "also=999,999\n".repeat(256);
    let links = "link=999,999,999999999\n".repeat(2_048);
    let text = format!("nodes=448\nlinks=2048\n{nodes}{alsos}{links}");
    assert_eq!(text.len(), 56_277);
    assert_eq!(MAX_TEXT, 56_277);
    assert_eq!(MAX_INPUT, 65_536);
    assert_eq!(parsed(&text), Err(refused(17, 0)));
    let nodes = "node=255\n".repeat(448);
    let text = format!("nodes=448\nlinks=2048\n{nodes}{alsos}{links}");
    assert_eq!(parsed(&text), Err(refused(17, 999)));
    let text = format!("nodes=448\nlinks=2048\n{nodes}{links}");
    assert_eq!(parsed(&text).unwrap().prices, [999_999_999; 2_048]);
    // What stands past the last line is found at once, and what stands past 65,536 bytes isn't looked at.
    let mut longer = text.clone().into_bytes();
    longer.resize(MAX_INPUT + 10, b'\n');
    assert_eq!(program(fast, &longer), format!("refused=16\nplace={}\n", text.len()));
}

#[test]
fn moat_lines() {
    let mut record = [0; 64];
    let mut out = [b'.'; 2_048];
    assert_eq!(moat_line(&record, &mut out), Ok(8));
    assert_eq!(&out[..9], b"moat=0:\n.");
    record[0] = 1;
    record[8] = 0b11;
    assert_eq!(moat_line(&record, &mut out[..11]), Ok(11));
    assert_eq!(&out[..12], b"moat=1:0,1\n.");
    out.fill(b'.');
    assert_eq!(moat_line(&record, &mut out[..10]), Err(refused(7, 0)));
    assert!(out.iter().all(|&byte| byte == b'.'));
    for length in [0, 40, 63, 65, 128] {
        assert_eq!(moat_line(&vec![0; length], &mut []), Err(refused(9, 0)));
    }
    // The longest: the highest amount and every member.
    record.fill(255);
    assert_eq!(moat_line(&record, &mut out), Ok(1_708));
    assert!(out.starts_with(b"moat=18446744073709551615:0,1,2,"));
    assert!(out[..1_708].ends_with(b",446,447\n"));
    assert_eq!(out[1_708], b'.');
    assert_eq!(moat_line(&record, &mut [0; 1_707]), Err(refused(7, 0)));
    assert!(moat_line(&record, &mut [0; 1_708]).is_ok());
}

#[test]
fn printed_shapes() {
    assert_eq!(program(reference, b"nodes=1\nlinks=0\nnode=0\n"), "sites=0\ncost=0\nbound=0\nrounds=0\n");
    assert_eq!(refusal_lines(refused(17, 255)), "refused=17\nplace=255\n");
    let plan = owned(fast, worked(8).view()).unwrap();
    assert_eq!(plan_lines(&plan), "sites=2\ncost=0\nbound=0\nrounds=1\nkeep=0\n");
    // Printing what it holds, a plan line for line, is what the single calls print.
    let plan = owned(fast, worked(10).view()).unwrap();
    let mut lines = Vec::new();
    for record in plan.records.chunks_exact(64) {
        let mut out = [0; 2_048];
        let length = moat_line(record, &mut out).unwrap() as usize;
        lines.extend_from_slice(&out[..length]);
    }
    assert!(plan_lines(&plan).as_bytes().ends_with(&lines));
}
