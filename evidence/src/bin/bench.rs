//! Nanoseconds per plan on seeded surveys:
//!
//!     bench [--seed S] [--surveys N] [--repeats R] [--sample K]
//!     bench --closed [--seed S] [--surveys N] [--repeats R]
//!     bench --season [--seed S] [--repeats R]
//!     bench --floor [--seed S] [--sample K] [--surveys N] [--repeats R]
//!     bench --instructions [--seed S] [--surveys N]
//!
//! First a line for each of nine sizes, 64 to 448 junctions with 2,048 tracks and fewer: the surveys as they are, then
//! with up to 256 pairs that leave the plan as it is, beside the own groups, and in place of them. Each survey is
//! planned R times; a line gives the medians and the least times, each as the mean over the surveys. On a busy machine
//! the least times are the steadier ones. Then K random surveys with few tracks and few sites: the median, the highest
//! but 10 and the highest but 1 in 100, of the least times. With the feature `native` the outside planner is timed in
//! turn with ours, on the same surveys, after its answer has been compared, and of the K surveys its times in ours are
//! told; last come lists of 256 closed tracks (No. 12), in plans of the same survey, and with `--closed` these alone,
//! and a season of 1,000 surveys (No. 11), with `--season` alone.
//!
//! `--floor` alone tells how far plans are from the cheapest, by what is known of it: of K random surveys with one group or
//! several, small and large, the middle, the highest but 10 in 100 and the highest of what the cost is above the cheapest
//! (small ones, by Dreyfus and Wagner), above half the bound and above the floor, in hundredths; and with `native` the
//! times of the outside floor in plans of the same survey.
//!
//! `--instructions` counts the instructions of a plan under valgrind, which don't depend on what else the machine does.

use evidence::floor::{ascent, half, poured};
use evidence::gen::{shadowed, sparse, timed, Rng};
use evidence::plan::{fast, owned, record_room, reference, Counts, Plan, Workspace};
#[cfg(feature = "native")]
use evidence::{
    closed::{MAX_CLOSED, ROW},
    native::{LIBRARY, SEASON},
};
use evidence::{steiner, Refusal, Survey, View};
use std::process::{Command, ExitCode};
use std::time::Instant;

/// Planners that are timed: our own, and the outside one where there is one.
const PLANNERS: &[&str] = if cfg!(feature = "native") { &["fast", "native"] } else { &["fast"] };

/// Junctions and tracks.
const SIZES: [(usize, usize); 9] =
    [(64, 2048), (128, 2048), (256, 2048), (256, 1024), (256, 512), (256, 300), (448, 2048), (448, 1024), (448, 512)];
/// Those of which instructions are counted.
const COUNTED: [(usize, usize); 5] = [(256, 300), (256, 512), (448, 512), (448, 2048), SPARSE];
/// In place of a size: random surveys with few tracks and few sites.
const SPARSE: (usize, usize) = (0, 0);

type Timed<'a> = &'a mut dyn FnMut(View, &mut [u8], &mut [u8]) -> Result<Counts, Refusal>;

struct Options {
    seed: u64,
    surveys: usize,
    repeats: usize,
    sample: u64,
    instructions: bool,
    /// Lists of closed tracks alone.
    closed: bool,
    /// A season alone.
    season: bool,
    /// Distances and the times of the floor alone.
    floor: bool,
    /// A planner and a size whose surveys are planned once, for valgrind.
    one: Option<(String, usize, usize)>,
}

/// The i-th survey of a size, or of those with few tracks and few sites.
fn survey_of(options: &Options, (n, m): (usize, usize), i: usize) -> Survey {
    if (n, m) == SPARSE {
        return sparse(&mut Rng::of_case(!options.seed, i as u64));
    }
    timed(&mut Rng::of_case(options.seed, (1_000 * n + i) as u64), n, m, i)
}

/// Buffers for a survey's plan.
fn buffers(survey: &Survey) -> (Vec<u8>, Vec<u8>) {
    (vec![0; survey.first.len()], vec![0; record_room(survey.groups.len())])
}

/// The median and the least of R timings of each planner on each survey, in turn, in nanoseconds. All surveys have the
/// same counts.
fn times(surveys: &[&Survey], planners: &mut [Timed], repeats: usize) -> Vec<[u64; 2]> {
    let (mut marks, mut records) = buffers(surveys[0]);
    let mut times = vec![Vec::with_capacity(repeats); surveys.len() * planners.len()];
    for _ in 0..repeats {
        for (survey, times) in surveys.iter().zip(times.chunks_exact_mut(planners.len())) {
            for (planner, times) in planners.iter_mut().zip(times) {
                let start = Instant::now();
                let answer = planner(std::hint::black_box(survey.view()), &mut marks, &mut records);
                times.push(start.elapsed().as_nanos() as u64);
                assert!(std::hint::black_box(answer).is_ok());
            }
        }
    }
    times
        .into_iter()
        .map(|mut times| {
            times.sort_unstable();
            [times[times.len() / 2], times[0]]
        })
        .collect()
}

/// Stops unless every planner draws this plan.
fn compare(survey: &Survey, plan: &Plan, planners: &mut [Timed]) {
    let (mut marks, mut records) = buffers(survey);
    for planner in planners {
        let drawn = planner(survey.view(), &mut marks, &mut records) == Ok(plan.counts)
            && marks == plan.marks
            && records[..plan.records.len()] == plan.records;
        assert!(drawn, "a planner differs on {survey:?}");
    }
}

fn line(name: &str, [median, least]: [u64; 2]) -> String {
    format!("{name} {median} ns per plan (least {least})")
}

/// The surveys of one size.
fn size(options: &Options, (n, m): (usize, usize), planners: &mut [Timed]) {
    let surveys = options.surveys;
    let mut sums = vec![[0; 2]; 3 * PLANNERS.len()];
    let mut rounds = 0;
    for i in 0..surveys {
        let plain = survey_of(options, (n, m), i);
        let (mut beside, mut instead) = (plain.clone(), plain.clone());
        shadowed(&mut beside, true);
        shadowed(&mut instead, false);
        let forms = [&plain, &beside, &instead];
        rounds += owned(reference, plain.view()).expect("it can be joined").counts.rounds;
        for survey in forms {
            compare(survey, &owned(reference, survey.view()).expect("it can be joined"), planners);
        }
        for (sum, time) in sums.iter_mut().zip(times(&forms, planners, options.repeats)) {
            *sum = [sum[0] + time[0], sum[1] + time[1]];
        }
    }
    let mean: Vec<[u64; 2]> = sums.iter().map(|sum| sum.map(|time| time / surveys as u64)).collect();
    let (plain, paired) = mean.split_at(PLANNERS.len());
    print!("{n} junctions, {m} tracks, {} rounds: {}", rounds / surveys as u64, line("fast", plain[0]));
    if let Some(outside) = plain.get(1) {
        print!(", {}, {:.2} times", line("native", *outside), outside[1] as f64 / plain[0][1] as f64);
    }
    for (name, paired) in ["with pairs", "with pairs alone"].iter().zip(paired.chunks_exact(PLANNERS.len())) {
        print!("; {name}: {}", line("fast", paired[0]));
        if let Some(outside) = paired.get(1) {
            print!(", {}, {:.3} times without", line("native", *outside), outside[1] as f64 / plain[1][1] as f64);
        }
    }
    println!();
}

/// The middle, the highest but 10 and the highest but 1 in 100.
fn spread(mut values: Vec<f64>) -> [f64; 3] {
    values.sort_unstable_by(f64::total_cmp);
    [50, 90, 99].map(|part| values[(values.len() - 1) * part / 100])
}

/// Random surveys with few tracks and few sites.
fn sample(options: &Options, planners: &mut [Timed]) {
    let (mut ours, mut ratios) = (Vec::new(), Vec::new());
    for i in 0..options.sample {
        let survey = survey_of(options, SPARSE, i as usize);
        compare(&survey, &owned(fast, survey.view()).expect("it can be joined"), planners);
        let least: Vec<f64> = times(&[&survey], planners, 5).iter().map(|time| time[1] as f64).collect();
        ours.push(least[0]);
        ratios.extend(least.get(1).map(|outside| outside / least[0]));
    }
    let [middle, most, all] = spread(ours);
    print!("{} sparse surveys with few sites: fast {middle} ns per plan, 90 % {most}, 99 % {all}", options.sample);
    if !ratios.is_empty() {
        let [middle, most, all] = spread(ratios);
        print!("; native {middle:.2} times, 90 % {most:.2}, 99 % {all:.2}");
    }
    println!();
}

/// How long a call takes, in nanoseconds.
#[cfg(feature = "native")]
fn once(mut call: impl FnMut()) -> f64 {
    let start = Instant::now();
    call();
    start.elapsed().as_nanos() as f64
}

/// The least of R timings of a call.
#[cfg(feature = "native")]
fn least(repeats: usize, mut call: impl FnMut()) -> f64 {
    (0..repeats).map(|_| once(&mut call)).fold(f64::INFINITY, f64::min)
}

/// The middle of R timings of each of some calls, in turn: the first of each, the second of each, and so on.
#[cfg(feature = "native")]
fn in_turn<const N: usize>(repeats: usize, calls: [&dyn Fn(); N]) -> [f64; N] {
    let mut times = calls.map(|_| Vec::with_capacity(repeats));
    for _ in 0..repeats {
        for (times, call) in times.iter_mut().zip(calls) {
            times.push(once(call));
        }
    }
    times.map(|times| spread(times)[0])
}

/// A list in plans, by the times of a plan, of a call with nothing closed and of a call with a part of the list, for each
/// part: the middle ones of the plan and of what a call takes besides, which is counted once.
#[cfg(feature = "native")]
fn in_plans(times: &[[f64; 3]]) -> f64 {
    let [plan, besides] = [0, 1].map(|k| spread(times.iter().map(|time| time[k]).collect())[0]);
    (besides + times.iter().map(|time| time[2] - besides).sum::<f64>()) / plan
}

/// Lists of 256 closed tracks (No. 12), those that a plan does not pick and those that it picks, in plans of the same
/// survey: the outside library alone. Picked ones are timed four at a time, so that a busy machine shows less, and what a
/// call takes besides, which is one plan, is counted once. Two figures of each. First by the least times of calls that
/// are timed over and over, each by itself: the processor then foretells the one plan better than the lists. Then by the
/// middle times of calls in turn (one plan, one call with nothing closed, one list, one plan and so on), where what came
/// before a call was another one.
#[cfg(feature = "native")]
fn closings(options: &Options, (n, m): (usize, usize)) {
    let repeats = options.repeats;
    let mut figures: [Vec<f64>; 4] = Default::default();
    for i in 0..options.surveys {
        let survey = survey_of(options, (n, m), i);
        let buffers = std::cell::RefCell::new(buffers(&survey));
        let plan = || {
            let (marks, records) = &mut *buffers.borrow_mut();
            assert!(evidence::native::plan(survey.view(), marks, records).is_ok());
        };
        let closed = |tracks: &[u32]| {
            let mut result = [0; ROW * MAX_CLOSED];
            assert_eq!((LIBRARY.closed)(survey.view(), tracks, &mut result[..ROW * tracks.len()]), 0);
        };
        plan();
        let list = |is_picked: bool| -> Vec<u32> {
            let marks = &buffers.borrow().0;
            let of_kind = (0..m as u32).filter(|&t| (marks[t as usize] != 0) == is_picked).collect::<Vec<u32>>();
            of_kind.into_iter().cycle().take(MAX_CLOSED).collect()
        };
        let (others, picked) = (list(false), list(true));
        figures[0].push(least(repeats, || closed(&others)) / least(repeats, plan));
        let over =
            |part: &[u32]| [least(repeats, plan), least(repeats, || closed(&[])), least(repeats, || closed(part))];
        let times: Vec<[f64; 3]> = picked.chunks(4).map(over).collect();
        figures[1].push(in_plans(&times));
        let [one, all] = in_turn(repeats, [&plan, &|| closed(&others)]);
        figures[2].push(all / one);
        let turn = |part: &[u32]| in_turn(repeats, [&plan, &|| closed(&[]), &|| closed(part)]);
        let times: Vec<[f64; 3]> = picked.chunks(4).map(turn).collect();
        figures[3].push(in_plans(&times));
    }
    let [unpicked, picked, unpicked_turn, picked_turn] = figures.map(spread);
    let line = |[a, _, b]: [f64; 3], [c, _, d]: [f64; 3]| {
        format!("unpicked {a:.2} (99 % {b:.2}), picked {c:.1} (99 % {d:.1})")
    };
    println!(
        "{n} junctions, {m} tracks, {MAX_CLOSED} closed tracks, in plans: {}; in turn with plans: {}",
        line(unpicked, picked),
        line(unpicked_turn, picked_turn)
    );
}

/// A season of 1,000 surveys (No. 11) in the sum of their single plans: the outside library alone, of each survey the
/// least time of its plan and of adding it to the report so far.
#[cfg(feature = "native")]
fn season(options: &Options, (n, m): (usize, usize)) {
    let (mut plans, mut added) = (0.0, 0.0);
    let mut report = [0; 208];
    for i in 0..1_000 {
        let survey = survey_of(options, (n, m), i);
        let (mut marks, mut records) = buffers(&survey);
        plans += least(options.repeats, || {
            assert!(evidence::native::plan(survey.view(), &mut marks, &mut records).is_ok());
        });
        let mut next = report;
        added += least(options.repeats, || {
            next = report;
            assert_eq!((SEASON.add)(&mut next, survey.view()), 0);
        });
        report = next;
    }
    println!("{n} junctions, {m} tracks, a season of 1000 surveys: {:.2} times the single plans", added / plans);
}

/// So many groups of so many members each, at random, of a survey with n junctions and m tracks.
fn grouped(rng: &mut Rng, (n, m): (usize, usize), groups: [usize; 2], members: [usize; 2]) -> Survey {
    let mut survey = timed(rng, n, m, 0);
    let mut junctions: Vec<usize> = (0..n).collect();
    rng.shuffle(&mut junctions);
    survey.groups.fill(0);
    for group in 1..=rng.between(groups[0], groups[1]) {
        for v in junctions.split_off(junctions.len() - rng.between(members[0], members[1])) {
            survey.groups[v] = group as u8;
        }
    }
    survey
}

/// A kind of surveys: their junctions, how many groups, and the most members of a group of n junctions.
struct Column {
    name: &'static str,
    junctions: [usize; 2],
    groups: [usize; 2],
    members: fn(usize) -> [usize; 2],
}

const COLUMNS: [Column; 4] = [
    Column { name: "one group, 8 to 24 junctions", junctions: [8, 24], groups: [1, 1], members: |_| [3, 8] },
    Column { name: "2 or 3 groups, 9 to 24 junctions", junctions: [9, 24], groups: [2, 3], members: |_| [2, 3] },
    Column { name: "one group, 50 to 400 junctions", junctions: [50, 400], groups: [1, 1], members: |n| [3, n / 2] },
    Column {
        name: "2 to 8 groups, 50 to 400 junctions",
        junctions: [50, 400],
        groups: [2, 8],
        members: |n| [2, n / 8],
    },
];

/// How far a cost is above what is known to be below it, in hundredths.
fn above(cost: u64, below: u64) -> f64 {
    if cost == 0 {
        0.0
    } else {
        100.0 * (cost - below) as f64 / below as f64
    }
}

/// The middle, the highest but 10 in 100, the highest.
fn told(mut values: Vec<f64>) -> String {
    values.sort_unstable_by(f64::total_cmp);
    let at = |part: usize| values[(values.len() - 1) * part / 100];
    format!("{:.1} / {:.1} / {:.1} %", at(50), at(90), at(100))
}

fn distances(options: &Options) {
    for (c, column) in COLUMNS.iter().enumerate() {
        let [mut truth, mut halves, mut floors] = [const { Vec::new() }; 3];
        for i in 0..options.sample {
            let rng = &mut Rng::of_case(options.seed ^ (c as u64 + 1) << 32, i);
            let n = rng.between(column.junctions[0], column.junctions[1]);
            let m = rng.between(n, (3 * n).min(evidence::MAX_TRACKS));
            let survey = grouped(rng, (n, m), column.groups, (column.members)(n));
            let counts = owned(fast, survey.view()).expect("it can be joined").counts;
            let shares: u64 = ascent(survey.view(), &poured(survey.view()), |_| ()).iter().sum();
            if n <= 24 {
                truth.extend(steiner::cheapest(survey.view()).map(|best| above(counts.cost, best)));
            }
            halves.push(above(counts.cost, half(counts.bound)));
            floors.push(above(counts.cost, shares.max(half(counts.bound))));
        }
        print!("{}, {} surveys:", column.name, options.sample);
        if truth.len() as u64 == options.sample {
            print!(" above the cheapest {};", told(truth));
        }
        println!(" above half the bound {}; above the floor {}", told(halves), told(floors));
    }
}

/// The outside floor in plans of the same survey, with one group of all junctions, with one of half of them, with 2 to 8.
#[cfg(feature = "native")]
fn floors(options: &Options, (n, m): (usize, usize)) {
    for (name, groups, members) in
        [("one group of all", [1, 1], [n, n]), ("one group", [1, 1], [3, n / 2]), ("2 to 8 groups", [2, 8], [2, n / 8])]
    {
        let mut ratios = Vec::new();
        for i in 0..options.surveys {
            let survey = grouped(&mut Rng::of_case(!options.seed, i as u64), (n, m), groups, members);
            let (mut marks, mut records) = buffers(&survey);
            let plan = least(options.repeats, || {
                assert!(evidence::native::plan(survey.view(), &mut marks, &mut records).is_ok());
            });
            let mut counts = [0; 4];
            ratios.push(least(options.repeats, || assert_eq!((LIBRARY.floor)(survey.view(), &mut counts), 0)) / plan);
        }
        let [middle, most, all] = spread(ratios);
        println!("{n} junctions, {m} tracks, {name}: the floor takes {middle:.1} plans, 90 % {most:.1}, 99 % {all:.1}");
    }
}

/// Our plan, where valgrind counts.
#[no_mangle]
#[inline(never)]
fn counted_fast(workspace: &mut Workspace, survey: View, marks: &mut [u8], records: &mut [u8]) -> bool {
    workspace.plan(survey, marks, records).is_ok()
}

/// The outside one.
#[no_mangle]
#[inline(never)]
#[cfg(feature = "native")]
fn counted_native(survey: View, marks: &mut [u8], records: &mut [u8]) -> bool {
    evidence::native::plan(survey, marks, records).is_ok()
}

/// Plans the surveys of a size once each.
fn one(options: &Options, planner: &str, counts: (usize, usize)) {
    let mut workspace = Box::new(Workspace::NEW);
    for i in 0..options.surveys {
        let survey = survey_of(options, counts, i);
        let (mut marks, mut records) = buffers(&survey);
        let planned = match planner {
            #[cfg(feature = "native")]
            "native" => counted_native(survey.view(), &mut marks, &mut records),
            _ => counted_fast(&mut workspace, survey.view(), &mut marks, &mut records),
        };
        assert!(std::hint::black_box(planned));
    }
}

/// The instructions of so many plans of a size, as callgrind collects them.
fn collected(options: &Options, planner: &str, (n, m): (usize, usize)) -> Option<u64> {
    let output = Command::new("valgrind")
        .args(["--tool=callgrind", "--callgrind-out-file=/dev/null", &format!("--toggle-collect=counted_{planner}")])
        .arg(std::env::current_exe().ok()?)
        .args(["--one", planner])
        .args([n as u64, m as u64, options.seed, options.surveys as u64].map(|number| number.to_string()))
        .output()
        .ok()?;
    let said = String::from_utf8_lossy(&output.stderr).into_owned();
    said.lines().find_map(|line| line.split("Collected :").nth(1)?.trim().parse().ok())
}

fn instructions(options: &Options) -> ExitCode {
    for counts in COUNTED {
        let each: Option<Vec<u64>> = PLANNERS.iter().map(|planner| collected(options, planner, counts)).collect();
        let Some(each) = each else {
            println!("valgrind is not installed, or has counted nothing");
            return ExitCode::FAILURE;
        };
        let each: Vec<u64> = each.iter().map(|sum| sum / options.surveys as u64).collect();
        match counts {
            SPARSE => print!("sparse surveys with few sites"),
            (n, m) => print!("{n} junctions, {m} tracks"),
        }
        print!(": fast {} instructions per plan", each[0]);
        if let Some(outside) = each.get(1) {
            print!(", native {outside}, {:.2} times", *outside as f64 / each[0] as f64);
        }
        println!();
    }
    ExitCode::SUCCESS
}

fn options() -> Option<Options> {
    let mut options = Options {
        seed: 1,
        surveys: 12,
        repeats: 31,
        sample: 400,
        instructions: false,
        closed: false,
        season: false,
        floor: false,
        one: None,
    };
    let mut words = std::env::args().skip(1);
    while let Some(word) = words.next() {
        if word == "--instructions" {
            options.instructions = true;
            continue;
        }
        if word == "--closed" {
            options.closed = true;
            continue;
        }
        if word == "--season" {
            options.season = true;
            continue;
        }
        if word == "--floor" {
            options.floor = true;
            continue;
        }
        if word == "--one" {
            let planner = words.next()?;
            let numbers: Vec<u64> = words.by_ref().take(4).filter_map(|value| value.parse().ok()).collect();
            let [n, m, seed, surveys] = numbers[..] else { return None };
            (options.seed, options.surveys) = (seed, surveys as usize);
            options.one = Some((planner, n as usize, m as usize));
            continue;
        }
        let number = words.next()?.parse::<u64>().ok()?;
        match word.as_str() {
            "--seed" => options.seed = number,
            "--surveys" => options.surveys = number.max(1) as usize,
            "--repeats" => options.repeats = number.max(1) as usize,
            "--sample" => options.sample = number.max(1),
            _ => return None,
        }
    }
    Some(options)
}

fn main() -> ExitCode {
    let Some(options) = options() else {
        eprintln!(
            "bench [--seed S] [--surveys N] [--repeats R] [--sample K]\nbench --closed [--seed S] [--surveys N] [--repeats R]\nbench --season [--seed S] [--repeats R]\nbench --floor [--seed S] [--sample K] [--surveys N] [--repeats R]\nbench --instructions [--seed S] [--surveys N]"
        );
        return ExitCode::from(2);
    };
    if let Some((planner, n, m)) = &options.one {
        one(&options, planner, (*n, *m));
        return ExitCode::SUCCESS;
    }
    if options.instructions {
        return instructions(&options);
    }
    if options.floor {
        distances(&options);
        #[cfg(feature = "native")]
        floors(&options, (448, 2048));
        return ExitCode::SUCCESS;
    }
    let mut workspace = Box::new(Workspace::NEW);
    let mut ours = |survey: View, marks: &mut [u8], records: &mut [u8]| workspace.plan(survey, marks, records);
    #[cfg(feature = "native")]
    let mut outside = evidence::native::plan;
    let mut planners: Vec<Timed> = vec![&mut ours];
    #[cfg(feature = "native")]
    planners.push(&mut outside);
    if !options.closed && !options.season {
        for counts in SIZES {
            size(&options, counts, &mut planners);
        }
        sample(&options, &mut planners);
    }
    #[cfg(feature = "native")]
    {
        if !options.season {
            closings(&options, (448, 2048));
        }
        if !options.closed {
            season(&options, (448, 2048));
        }
    }
    ExitCode::SUCCESS
}
