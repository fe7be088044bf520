//! The generated runs of the programs that print a season's report and that write tables: what can come does come, and
//! programs with one fault each are told apart.

use evidence::print::refusal_lines;
use evidence::programs::{Run, PROGRAMS};
use evidence::season::season_program;
use evidence::table::{table_program, MOST, TRACK};
use std::collections::BTreeSet;

const RUNS: u64 = 1_500;

fn runs(option: &str) -> Vec<Run> {
    let program = PROGRAMS.iter().find(|program| program.option == option).expect("a program");
    (0..RUNS).map(|case| (program.run)(1, case)).collect()
}

fn refusals(runs: &[Run]) -> BTreeSet<u32> {
    runs.iter().filter_map(|run| run.counted.as_ref().err()).map(|refusal| refusal.number).collect()
}

/// Where a text that is malformed begins.
fn last_text(input: &[u8]) -> usize {
    let starts = (0..input.len()).filter(|&at| input[at..].starts_with(b"nodes="));
    starts.filter(|&at| season_program(&input[..at]).starts_with("planned=")).max().unwrap_or(0)
}

#[test]
fn seasons() {
    let runs = runs("--season");
    assert!(refusals(&runs).is_superset(&[1, 3, 16, 17, 18].into()), "{:?}", refusals(&runs));
    type Program = fn(&[u8]) -> String;
    let faulty: [(&str, Program); 4] = [
        ("the place in the whole", |input| {
            let lines = season_program(input);
            match lines.split_once("place=") {
                Some((number, place)) if lines.starts_with("refused=16\n") => {
                    let place: usize = place.trim_end().parse().expect("a number");
                    format!("{number}place={}\n", last_text(input) + place)
                }
                _ => lines,
            }
        }),
        ("the report before a malformed text", |input| match season_program(input) {
            lines if lines.starts_with("refused=16\n") => season_program(&input[..last_text(input)]),
            lines => lines,
        }),
        ("the first text alone", |input| {
            let second = (1..input.len()).find(|&at| input[at..].starts_with(b"nodes="));
            season_program(&input[..second.unwrap_or(input.len())])
        }),
        ("a 1,001st survey left out", |input| match season_program(input) {
            lines if lines == "refused=3\nplace=0\n" => {
                let starts: Vec<usize> = (0..input.len()).filter(|&at| input[at..].starts_with(b"nodes=")).collect();
                starts.get(1_000).map_or(lines, |&end| season_program(&input[..end]))
            }
            lines => lines,
        }),
    ];
    for (name, program) in faulty {
        assert!(runs.iter().any(|run| program(&run.input).as_bytes() != run.printed), "{name} is not found");
    }
}

#[test]
fn tables() {
    let runs = runs("--table");
    assert!(refusals(&runs).is_superset(&[7, 16, 17, 18, 23].into()), "{:?}", refusals(&runs));
    type Program = fn(&[u8], &str) -> (Vec<u8>, String);
    let sound = |input: &[u8], word: &str| match table_program(input, word) {
        Ok(table) => (table, String::new()),
        Err(refusal) => (Vec::new(), refusal_lines(refusal)),
    };
    let faulty: [(&str, Program); 4] = [
        ("a survey's table packed", |input, word| match table_program(input, word) {
            Ok(table) if word.is_empty() => (table_program(&table, "pack").expect("a table"), String::new()),
            Ok(table) => (table, String::new()),
            Err(refusal) => (Vec::new(), refusal_lines(refusal)),
        }),
        ("a refusal on standard output", |input, word| match table_program(input, word) {
            Ok(table) => (table, String::new()),
            Err(refusal) => (refusal_lines(refusal).into_bytes(), String::new()),
        }),
        ("a longer table cut", |input, word| {
            let most = if word.is_empty() { input.len() } else { TRACK * MOST };
            match table_program(&input[..input.len().min(most)], word) {
                Ok(table) => (table, String::new()),
                Err(refusal) => (Vec::new(), refusal_lines(refusal)),
            }
        }),
        ("packed for unpacked", |input, word| {
            match table_program(input, if word == "unpack" { "pack" } else { word }) {
                Ok(table) => (table, String::new()),
                Err(refusal) => (Vec::new(), refusal_lines(refusal)),
            }
        }),
    ];
    let word = |run: &Run| run.arguments.first().cloned().unwrap_or_default();
    let prints = |run: &Run| (run.printed.clone(), run.said.clone().unwrap_or_default());
    assert!(runs.iter().all(|run| sound(&run.input, &word(run)) == prints(run)));
    for (name, program) in faulty {
        assert!(runs.iter().any(|run| program(&run.input, &word(run)) != prints(run)), "{name} is not found");
    }
}
