//! The season's report (No. 11): adding a survey to it and printing it, over a report of bytes, and their generated
//! cases.

use crate::calls::code;
use crate::calls::faults::{harm, pair, PLAN_FAULTS};
use crate::gen::{overlap, survey, Rng, Size};
use crate::plan::{fast, owned};
use crate::print::refusal_lines;
use crate::read::{survey_lines, Cursor, Lengths};
use crate::{refuse, Refusal, Survey, View};

/// Surveys of one report, at most.
pub const MAX_SURVEYS: u64 = 1_000;
/// Planning's refusals lie below this number.
pub const REFUSALS: usize = 19;
/// Bytes of a report: four numbers, the refusals by number, three numbers of the farthest plan, eight bytes each.
pub const REPORT_BYTES: usize = 8 * (4 + REFUSALS + 3);

/// The farthest plan: its position, twice its cost, its bound.
#[derive(Clone, Copy, Debug, PartialEq, Eq)]
pub struct Far {
    pub position: u64,
    pub twice: u64,
    pub bound: u64,
}

#[derive(Clone, Debug, PartialEq, Eq)]
pub struct Report {
    pub surveys: u64,
    pub planned: u64,
    pub cost: u64,
    pub bound: u64,
    pub refused: [u64; REFUSALS],
    pub far: Option<Far>,
}

impl Report {
    /// The report that these bytes are; a bound of 0 stands for no farthest plan.
    pub fn of_bytes(bytes: &[u8]) -> Report {
        let number = |i: usize| u64::from_le_bytes(bytes[8 * i..8 * i + 8].try_into().expect("eight bytes"));
        let far = Far { position: number(23), twice: number(24), bound: number(25) };
        let mut refused = [0; REFUSALS];
        for (k, count) in refused.iter_mut().enumerate() {
            *count = number(4 + k);
        }
        Report {
            surveys: number(0),
            planned: number(1),
            cost: number(2),
            bound: number(3),
            refused,
            far: (far.bound > 0).then_some(far),
        }
    }

    pub fn bytes(&self) -> Vec<u8> {
        let far = self.far.map_or([0; 3], |far| [far.position, far.twice, far.bound]);
        let head = [self.surveys, self.planned, self.cost, self.bound];
        let numbers = head.iter().chain(&self.refused).chain(&far);
        numbers.flat_map(|number| number.to_le_bytes()).collect()
    }

    pub fn text(&self) -> String {
        let mut text = format!("planned={}\ncost={}\nbound={}\n", self.planned, self.cost, self.bound);
        for (number, count) in self.refused.iter().enumerate().filter(|(_, &count)| count > 0) {
            text += &format!("refused={number},{count}\n");
        }
        match self.far {
            Some(far) => text + &format!("far={},{},{}\n", far.position, far.twice, far.bound),
            None => text + "far=none\n",
        }
    }
}

/// The ratio of twice the cost to the bound is larger than that of the plan before.
pub fn farther(before: Far, plan: Far) -> bool {
    u128::from(plan.twice) * u128::from(before.bound) > u128::from(before.twice) * u128::from(plan.bound)
}

/// Cost and bound of a survey's plan, or its refusal.
pub fn figures(survey: View) -> Result<(u64, u64), Refusal> {
    owned(fast, survey).map(|plan| (plan.counts.cost, plan.counts.bound))
}

/// The report with one more survey: 3 for the 1,001st, and where a count or a total would pass 64 bits.
pub fn added(report: &Report, outcome: Result<(u64, u64), Refusal>) -> Result<Report, Refusal> {
    if report.surveys >= MAX_SURVEYS {
        return refuse(3, 0);
    }
    let past = Refusal { number: 3, place: 0 };
    let mut next = report.clone();
    match outcome {
        Ok((cost, bound)) => {
            next.planned = report.planned.checked_add(1).ok_or(past)?;
            next.cost = report.cost.checked_add(cost).ok_or(past)?;
            next.bound = report.bound.checked_add(bound).ok_or(past)?;
            let plan = Far { position: report.surveys, twice: 2 * cost, bound };
            if bound > 0 && report.far.is_none_or(|before| farther(before, plan)) {
                next.far = Some(plan);
            }
        }
        Err(refusal) => {
            let count = &mut next.refused[refusal.number as usize];
            *count = count.checked_add(1).ok_or(past)?;
        }
    }
    next.surveys += 1;
    Ok(next)
}

/// The two calls.
#[derive(Clone, Copy)]
pub struct Season {
    pub add: fn(&mut [u8], View) -> u64,
    pub print: fn(&[u8], &mut [u8], &mut [u64]) -> u64,
}

fn add_call(report: &mut [u8], survey: View) -> u64 {
    if report.len() < REPORT_BYTES {
        return 7;
    }
    match added(&Report::of_bytes(report), figures(survey)) {
        Ok(next) => {
            report[..REPORT_BYTES].copy_from_slice(&next.bytes());
            0
        }
        Err(refusal) => code(refusal),
    }
}

/// A report's text into a lent buffer: 7 where the report, the buffer or the counts are short.
pub fn put(text: &str, out: &mut [u8], counts: &mut [u64]) -> u64 {
    if out.len() < text.len() || counts.is_empty() {
        return 7;
    }
    out[..text.len()].copy_from_slice(text.as_bytes());
    counts[0] = text.len() as u64;
    0
}

fn print_call(report: &[u8], out: &mut [u8], counts: &mut [u64]) -> u64 {
    if report.len() < REPORT_BYTES {
        return 7;
    }
    put(&Report::of_bytes(report).text(), out, counts)
}

/// The report over texts that stand one after the other, or the first refusal of a text, with its place in that text, or
/// of a survey too many.
fn season(mut texts: &[u8]) -> Result<Report, Refusal> {
    let mut report = Report::of_bytes(&[0; REPORT_BYTES]);
    while !texts.is_empty() {
        let mut cursor = Cursor::new(texts);
        let survey = survey_lines(&mut cursor, Lengths::ENOUGH)?;
        report = added(&report, figures(survey.view()))?;
        texts = cursor.rest();
    }
    Ok(report)
}

/// What the program prints.
pub fn season_program(input: &[u8]) -> String {
    season(input).map_or_else(refusal_lines, |report| report.text())
}

/// The second implementation.
pub const SECOND: Season = Season { add: add_call, print: print_call };

// ---- cases

/// A small number, one near the end of 64 bits, or any.
fn any_count(rng: &mut Rng) -> u64 {
    match rng.below(8) {
        0 => 0,
        1..4 => rng.below(1_000) as u64,
        4 => u64::MAX - rng.below(3) as u64,
        5 => u64::MAX - (rng.word() >> rng.between(20, 63)),
        6 => rng.word() >> rng.below(64),
        _ => rng.word(),
    }
}

fn any_survey(rng: &mut Rng) -> Survey {
    let size = rng.pick(&[Size::Tiny, Size::Tiny, Size::Tiny, Size::Small, Size::Middle]);
    let mut survey = survey(rng, size);
    if rng.chance(1, 2) {
        overlap(rng, &mut survey);
    }
    if rng.chance(1, 3) {
        for fault in pair(PLAN_FAULTS, rng.word() >> 8) {
            harm(rng, &mut survey, fault);
        }
    }
    survey
}

/// A farthest plan beside that of a survey: none, the same ratio, enlarged until a cross product passes 64 bits, one
/// that misses it by little, or any.
fn any_far(rng: &mut Rng, plan: Option<(u64, u64)>) -> Far {
    let position = rng.word() >> rng.below(64);
    match (plan, rng.below(8)) {
        (_, 0) => Far { position, twice: rng.word(), bound: 0 },
        (Some((cost, bound)), 1..6) if cost > 0 && bound > 0 => {
            let most = u64::MAX / (2 * cost).max(bound);
            let times = if rng.chance(1, 2) { most } else { (rng.word() >> rng.below(64)) % most + 1 };
            let (twice, bound) = (2 * cost * times, bound * times);
            match rng.below(4) {
                0 => Far { position, twice: twice.saturating_add(1), bound },
                1 => Far { position, twice: twice - 1, bound },
                _ => Far { position, twice, bound },
            }
        }
        _ => Far { position, twice: rng.word() >> rng.below(64), bound: rng.word() >> rng.below(64) },
    }
}

/// A report for a survey with this plan, or any bytes.
fn any_report(rng: &mut Rng, plan: Option<(u64, u64)>) -> Vec<u8> {
    let length = match rng.below(16) {
        0 => REPORT_BYTES - 1,
        1 => rng.below(REPORT_BYTES),
        2 => REPORT_BYTES + rng.between(1, 40),
        _ => REPORT_BYTES,
    };
    let mut bytes: Vec<u8> = (0..length.max(REPORT_BYTES)).map(|_| rng.word() as u8).collect();
    match rng.below(10) {
        0 => {}
        1 => bytes[..REPORT_BYTES].fill(0),
        _ => {
            let surveys = match rng.below(8) {
                0 => rng.pick(&[999, 1_000, 1_001, 1 << 32, u64::MAX]),
                _ => rng.below(1_000) as u64,
            };
            let mut refused = [0; REFUSALS];
            for count in &mut refused {
                *count = if rng.chance(1, 2) { 0 } else { any_count(rng) };
            }
            let [planned, cost, bound] = [0; 3].map(|_: u64| any_count(rng));
            let far = Some(any_far(rng, plan));
            bytes[..REPORT_BYTES].copy_from_slice(&Report { surveys, planned, cost, bound, refused, far }.bytes());
        }
    }
    bytes.truncate(length);
    bytes
}

/// Any bytes behind each lent slice, which no call may touch.
const BEHIND: [u8; 16] = [0xa5; 16];

fn compare_add(season: &Season, rng: &mut Rng) -> Result<u64, String> {
    let survey = any_survey(rng);
    let report = any_report(rng, figures(survey.view()).ok());
    let run = |season: &Season| {
        let mut lent = [&report[..], &BEHIND].concat();
        let code = (season.add)(&mut lent[..report.len()], survey.view());
        (code, lent)
    };
    let (ours, theirs) = (run(&SECOND), run(season));
    if ours != theirs {
        return Err(format!(
            "season_add of {survey:?} to {report:?}: the second implementation has {ours:?}, the library {theirs:?}"
        ));
    }
    Ok(ours.0 % 256)
}

fn compare_print(season: &Season, rng: &mut Rng) -> Result<u64, String> {
    let report = any_report(rng, None);
    let need = if report.len() < REPORT_BYTES { 100 } else { Report::of_bytes(&report).text().len() };
    let length = match rng.below(6) {
        0 => need - 1,
        1 => rng.below(need),
        2 => need + rng.between(1, 60),
        _ => need,
    };
    let (out, figures) = (vec![rng.word() as u8; length], rng.pick(&[0, 1, 1, 1, 1, 1, 2]));
    let run = |season: &Season| {
        let (mut lent, mut counts) = ([&out[..], &BEHIND].concat(), [7u64; 3]);
        let code = (season.print)(&report, &mut lent[..length], &mut counts[..figures]);
        (code, lent, counts)
    };
    let (ours, theirs) = (run(&SECOND), run(season));
    if ours != theirs {
        return Err(format!(
            "season_print of {report:?}: the second implementation has {ours:?}, the library {theirs:?}"
        ));
    }
    Ok(ours.0 % 256)
}

/// A whole season of 1,003 surveys from all bytes 0: every call, and the sums over the single plans at the end.
pub fn compare_whole(season: &Season, seed: u64, case: u64) -> Result<u64, String> {
    let rng = &mut Rng::of_case(seed ^ 0x7965_6172, case);
    let (mut ours, mut theirs) = (vec![0; REPORT_BYTES], vec![0; REPORT_BYTES]);
    let mut sums = Report { surveys: MAX_SURVEYS, planned: 0, cost: 0, bound: 0, refused: [0; REFUSALS], far: None };
    for position in 0..MAX_SURVEYS + 3 {
        let survey = any_survey(rng);
        let answers = [(SECOND.add)(&mut ours, survey.view()), (season.add)(&mut theirs, survey.view())];
        let due = if position < MAX_SURVEYS { 0 } else { 3 };
        if answers != [due; 2] || ours != theirs {
            return Err(format!(
                "survey {position} of a season, {survey:?}: answers {answers:?}, reports {ours:?} and {theirs:?}"
            ));
        }
        if position >= MAX_SURVEYS {
            continue;
        }
        match figures(survey.view()) {
            Ok((cost, bound)) => {
                (sums.planned, sums.cost, sums.bound) = (sums.planned + 1, sums.cost + cost, sums.bound + bound);
                let plan = Far { position, twice: 2 * cost, bound };
                if bound > 0 && sums.far.is_none_or(|before| farther(before, plan)) {
                    sums.far = Some(plan);
                }
            }
            Err(refusal) => sums.refused[refusal.number as usize] += 1,
        }
    }
    let (mut out, mut counts) = (vec![0; 747], [0]);
    let answer = (season.print)(&theirs, &mut out, &mut counts);
    out.truncate(counts[0] as usize);
    if answer != 0 || out != sums.text().as_bytes() {
        return Err(format!("a season's report reads {:?}, its sums {:?}", String::from_utf8_lossy(&out), sums.text()));
    }
    Ok(0)
}

/// Adding and printing.
pub const CALLS: [(&str, bool); 2] = [("season_add", false), ("season_print", true)];

/// Holds a library against the second implementation on one case: the refusal that came, or what differs.
pub fn compare(season: &Season, seed: u64, case: u64, prints: bool) -> Result<u64, String> {
    let rng = &mut Rng::of_case(seed ^ 0x7365_6173 << u64::from(prints), case);
    if prints {
        compare_print(season, rng)
    } else {
        compare_add(season, rng)
    }
}

/// The refusals that a survey can have, for the cases that are to meet them all.
pub fn outcome(seed: u64, case: u64) -> Result<(u64, u64), Refusal> {
    figures(any_survey(&mut Rng::of_case(seed ^ 0x7365_6173, case)).view())
}
