//! Inputs and answers of single calls, one to a line, for a harness that calls the product's own functions:
//!
//!     vectors [--count N] [--seed S]
//!
//! N lines for each of the four operations. Fields are `name=value` with one space between; bytes are hexadecimal,
//! numbers decimal with commas between, nothing is an empty value. `answer` starts with the refusal's number and place,
//! 0,0 for none, and goes on with the call's counts, all 0 after a refusal. What isn't given as written keeps its
//! values.
//!
//!     read  text room=groups,first,second,prices,owners,others answer=number,place,n,m,pairs SURVEY
//!     plan  SURVEY room=marks,records answer=number,place,k,cost,bound,rounds,moats marks records
//!     check SURVEY marks records answer=number,place,k,cost,bound
//!     print record room answer=number,place,length line
//!
//! SURVEY stands for groups first second prices owners others.

use evidence::check::check;
use evidence::gen::{damaged_plan, moat_case, overlap, refused_pairs, refused_survey, survey, text_case, Rng, Size};
use evidence::plan::{record_room, reference};
use evidence::print::moat_line;
use evidence::read::{parse, Lengths};
use evidence::{Refusal, Survey, MAX_JUNCTIONS, MAX_PAIRS, MAX_TRACKS, RECORD_BYTES};
use std::fmt::Write as _;
use std::io::Write as _;
use std::process::ExitCode;

fn hex(bytes: &[u8]) -> String {
    bytes.iter().fold(String::new(), |mut out, byte| {
        write!(out, "{byte:02x}").expect("a string takes it");
        out
    })
}

fn list(numbers: &[u32]) -> String {
    numbers.iter().map(u32::to_string).collect::<Vec<_>>().join(",")
}

fn answer<const N: usize>(answer: Result<[u64; N], Refusal>) -> String {
    let (refusal, counts) = match answer {
        Ok(counts) => ([0, 0], counts),
        Err(refusal) => ([u64::from(refusal.number), refusal.place], [0; N]),
    };
    refusal.iter().chain(&counts).map(u64::to_string).collect::<Vec<_>>().join(",")
}

fn fields(survey: &Survey) -> String {
    let Survey { groups, first, second, prices, owners, others } = survey;
    let tracks =
        format!("groups={} first={} second={} prices={}", hex(groups), list(first), list(second), list(prices));
    format!("{tracks} owners={} others={}", list(owners), hex(others))
}

/// Mostly what is needed, else less or more.
fn room(rng: &mut Rng, need: usize) -> usize {
    match rng.below(8) {
        0 => need.saturating_sub(1),
        1 => rng.below(need + 1),
        2 => need + rng.below(50),
        _ => need,
    }
}

fn read_line(seed: u64, case: u64) -> String {
    let text = text_case(seed, case);
    let rng = &mut Rng::of_case(seed ^ 1, case);
    let enough = rng.chance(1, 2);
    let mut length = |most: usize| if enough || rng.chance(2, 3) { most } else { rng.below(12) };
    let lengths = Lengths {
        groups: length(MAX_JUNCTIONS),
        first: length(MAX_TRACKS),
        second: length(MAX_TRACKS),
        prices: length(MAX_TRACKS),
        owners: length(MAX_PAIRS),
        others: length(MAX_PAIRS),
    };
    let read = parse(&text, lengths);
    let counts = read
        .as_ref()
        .map_err(|refusal| *refusal)
        .map(|survey| [survey.groups.len(), survey.first.len(), survey.owners.len()].map(|count| count as u64));
    let Lengths { groups, first, second, prices, owners, others } = lengths;
    format!(
        "read text={} room={groups},{first},{second},{prices},{owners},{others} answer={} {}",
        hex(&text),
        answer(counts),
        fields(&read.unwrap_or_default())
    )
}

fn plan_line(seed: u64, case: u64) -> String {
    let rng = &mut Rng::of_case(seed ^ 2, case);
    let size =
        if rng.chance(1, 64) { Size::Large } else { rng.pick(&[Size::Tiny, Size::Small, Size::Small, Size::Middle]) };
    let mut survey = survey(rng, size);
    if rng.chance(1, 2) {
        overlap(rng, &mut survey);
    }
    match rng.below(16) {
        0 | 1 => refused_survey(rng, &mut survey),
        2 => drop(survey.second.pop()),
        3 => survey.prices.push(0),
        4 => survey.groups.resize(rng.pick(&[0, MAX_JUNCTIONS + 1]), 0),
        5 => refused_pairs(rng, &mut survey),
        6 => survey.others.push(1),
        _ => {}
    }
    if rng.chance(1, 64) {
        for ends in [&mut survey.first, &mut survey.second, &mut survey.prices] {
            ends.resize(MAX_TRACKS + 1, 0);
        }
    }
    let marks = room(rng, survey.first.len());
    let records = room(rng, record_room(survey.groups.len().max(1)));
    let (mut marks, mut records) = (vec![0; marks], vec![0; records]);
    let counts = reference(survey.view(), &mut marks, &mut records);
    let given = format!("room={},{}", marks.len(), records.len());
    let drawn = counts.map_or((0, 0), |counts| (survey.first.len(), RECORD_BYTES * counts.moats as usize));
    format!(
        "plan {} {given} answer={} marks={} records={}",
        fields(&survey),
        answer(counts.map(|c| [c.sites, c.cost, c.bound, c.rounds, c.moats])),
        hex(&marks[..drawn.0]),
        hex(&records[..drawn.1])
    )
}

fn check_line(seed: u64, case: u64) -> String {
    let (_, given) = damaged_plan(seed ^ 3, case);
    let passed = check(given.survey.view(), &given.marks, &given.records);
    format!(
        "check {} marks={} records={} answer={}",
        fields(&given.survey),
        hex(&given.marks),
        hex(&given.records),
        answer(passed.map(|p| [p.sites, p.cost, p.bound]))
    )
}

fn print_line(seed: u64, case: u64) -> String {
    let (record, room) = moat_case(seed ^ 4, case);
    let mut line = vec![0; room];
    let length = moat_line(&record, &mut line);
    format!(
        "print record={} room={room} answer={} line={}",
        hex(&record),
        answer(length.map(|length| [length])),
        hex(&line[..length.unwrap_or(0) as usize])
    )
}

fn main() -> ExitCode {
    let (mut count, mut seed) = (1_000, 1);
    let mut words = std::env::args().skip(1);
    while let Some(word) = words.next() {
        let value = words.next().and_then(|value| value.parse::<u64>().ok());
        match (word.as_str(), value) {
            ("--count", Some(number)) => count = number,
            ("--seed", Some(number)) => seed = number,
            _ => {
                eprintln!("vectors [--count N] [--seed S]");
                return ExitCode::from(2);
            }
        }
    }
    let mut out = std::io::BufWriter::new(std::io::stdout().lock());
    for operation in [read_line, plan_line, check_line, print_line] {
        for case in 0..count {
            if writeln!(out, "{}", operation(seed, case)).is_err() {
                return ExitCode::FAILURE;
            }
        }
    }
    ExitCode::SUCCESS
}
