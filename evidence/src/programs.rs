//! The programs, each with its generated inputs and what it is to print for them. `compare` runs them.

use crate::gen::{directed_texts, plan_text_case, stp_case, survey, text_case, Rng, Size};
use crate::plan::{reference, Counts, Plan};
use crate::print::{answer, closed_program, plan_lines, refusal_lines, stp_program, survey_text, why_program};
use crate::printed::verify_program;
use crate::read::{parse, Lengths};
use crate::season::season_program;
use crate::table::{self, table_program, MOST, TRACK};
use crate::Refusal;

/// One run of a program: what it reads, its arguments, what it is to print, and the plan or the refusal that it is
/// counted as.
pub struct Run {
    pub input: Vec<u8>,
    pub arguments: Vec<String>,
    pub printed: Vec<u8>,
    /// What stands on standard error, where that is part of the answer.
    pub said: Option<String>,
    pub counted: Result<Plan, Refusal>,
}

impl Run {
    /// A run that prints lines, a refusal's among them.
    pub fn lines(input: Vec<u8>, arguments: Vec<String>, lines: String) -> Run {
        Run { input, arguments, counted: told(&lines), printed: lines.into_bytes(), said: None }
    }
}

/// A program: the option that names it, what its answers are, and its run of a seed and a case.
pub struct Program {
    pub option: &'static str,
    pub answers: &'static str,
    pub run: fn(u64, u64) -> Run,
}

pub const PROGRAMS: &[Program] = &[
    Program { option: "--program", answers: "plans", run: plan_run },
    Program { option: "--verifier", answers: "passed", run: verify_run },
    Program { option: "--stp", answers: "surveys", run: stp_run },
    Program { option: "--merge", answers: "districts", run: crate::merge::run },
    Program { option: "--why", answers: "reasons", run: why_run },
    Program { option: "--winter", answers: "copies", run: crate::winter::run },
    Program { option: "--closed", answers: "lists of closed tracks", run: closed_run },
    Program { option: "--floor", answers: "floors", run: crate::floor::run },
    Program { option: "--season", answers: "reports", run: season_run },
    Program { option: "--table", answers: "tables", run: table_run },
];

/// The refusal that a program prints, or a plan that stands for another answer.
fn told(lines: &str) -> Result<Plan, Refusal> {
    let refusal = lines.strip_prefix("refused=").and_then(|rest| rest.trim_end().split_once("\nplace="));
    match refusal {
        Some((number, place)) => {
            let [number, place] = [number, place].map(|digits| digits.parse().expect("a number"));
            Err(Refusal { number: number as u32, place })
        }
        None => Ok(Plan { counts: Counts::default(), marks: Vec::new(), records: Vec::new() }),
    }
}

/// A survey's text, past the directed ones, of which few can be planned.
pub fn any_text(seed: u64, case: u64) -> Vec<u8> {
    text_case(seed, case + directed_texts().len() as u64)
}

fn plan_run(seed: u64, case: u64) -> Run {
    let input = text_case(seed, case);
    let counted = answer(reference, &input);
    let lines = match &counted {
        Ok(plan) => plan_lines(plan),
        Err(refusal) => refusal_lines(*refusal),
    };
    Run { input, arguments: Vec::new(), printed: lines.into_bytes(), said: None, counted }
}

fn verify_run(seed: u64, case: u64) -> Run {
    let input = plan_text_case(seed, case);
    let lines = verify_program(&input);
    Run::lines(input, Vec::new(), lines)
}

fn stp_run(seed: u64, case: u64) -> Run {
    let input = stp_case(seed, case);
    let lines = stp_program(&input);
    Run::lines(input, Vec::new(), lines)
}

/// A track of a text's survey, or one that it does not have.
fn any_track(rng: &mut Rng, m: usize) -> usize {
    if rng.chance(1, 20) {
        rng.pick(&[m, 2_048, 9_999_999])
    } else {
        rng.below(m + 1)
    }
}

fn why_run(seed: u64, case: u64) -> Run {
    let input = any_text(seed, case);
    let rng = &mut Rng::of_case(seed ^ 0x776879, case);
    let m = parse(&input, Lengths::ENOUGH).map_or(0, |survey| survey.first.len());
    let track = any_track(rng, m);
    let lines = why_program(&input, track as u32);
    Run::lines(input, vec![track.to_string()], lines)
}

fn closed_run(seed: u64, case: u64) -> Run {
    let input = any_text(seed, case);
    let rng = &mut Rng::of_case(seed ^ 0x636c_6f73, case);
    let m = parse(&input, Lengths::ENOUGH).map_or(0, |survey| survey.first.len());
    let many = rng.between(1, 6);
    let tracks: Vec<u32> = (0..many).map(|_| any_track(rng, m) as u32).collect();
    let lines = closed_program(&input, &tracks);
    Run::lines(input, tracks.iter().map(u32::to_string).collect(), lines)
}

/// Up to eight texts one after the other, any of them damaged; one input of 256 has about as many surveys as a report
/// takes.
fn season_run(seed: u64, case: u64) -> Run {
    let rng = &mut Rng::of_case(seed ^ 0x7365_6173, case);
    let mut input = Vec::new();
    if case % 256 == 128 {
        let many = rng.pick(&[999, 1_000, 1_001, 1_002]);
        let text = survey_text(&survey(rng, Size::Tiny));
        (0..many).for_each(|_| input.extend(&text));
    }
    for i in 0..rng.below(9) as u64 {
        input.extend(match rng.below(8) {
            0 => any_text(seed, 9 * case + i),
            _ => {
                let size = rng.pick(&[Size::Tiny, Size::Tiny, Size::Small, Size::Middle]);
                survey_text(&survey(rng, size))
            }
        });
    }
    let lines = season_program(&input);
    Run::lines(input, Vec::new(), lines)
}

/// A survey's text without an argument, a table with the argument `pack` or `unpack`. The answer is bytes, and a
/// refusal stands on standard error.
fn table_run(seed: u64, case: u64) -> Run {
    let rng = &mut Rng::of_case(seed ^ 0x7461_626c, case);
    let word = rng.pick(&["", "pack", "unpack"]);
    let input = match (word, rng.below(32)) {
        ("", _) => text_case(seed, rng.word() >> 48),
        (_, 0) => vec![rng.word() as u8; TRACK * MOST + rng.pick(&[0, 1, 11, 12, 13, 24, 99])],
        _ => table::case(seed, case, word == "unpack").table,
    };
    let arguments = Some(word.to_string()).filter(|word| !word.is_empty()).into_iter().collect();
    let (printed, said) = match table_program(&input, word) {
        Ok(table) => (table, String::new()),
        Err(refusal) => (Vec::new(), refusal_lines(refusal)),
    };
    Run { input, arguments, counted: told(&said), printed, said: Some(said) }
}
