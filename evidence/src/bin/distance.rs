//! How far plans really are from the cheapest, on small surveys whose cheapest joining set Dreyfus and Wagner find:
//!
//!     distance [--program PATH] [--count N] [--seed S]
//!
//! N surveys, half with one group and half with two or three. The plans are the program's, as it prints them; without a
//! program they are our own planner's. Percentages are rounded up to a tenth.

use evidence::exact::{drawn, options, Drawn};
use evidence::gen::{distant, Rng};
use evidence::steiner::cheapest;
use std::process::ExitCode;

/// How much dearer, in tenths of a percent.
fn above(cost: u64, least: u64) -> u64 {
    (1_000 * (cost - least)).div_ceil(least)
}

/// The median, the value that nine of ten do not pass, and the largest.
fn spread(values: &mut [u64]) -> String {
    values.sort_unstable();
    let at = |of: usize| values[(values.len() * of).div_ceil(10) - 1];
    let [median, most, last] = [at(5), at(9), at(10)].map(|x| format!("{}.{} %", x / 10, x % 10));
    format!("median {median}, nine of ten up to {most}, most {last}")
}

/// Is the plan no cheaper than the cheapest, within the factor, and its bound at most twice the cheapest?
fn holds(drawn: &Drawn, best: u64) -> bool {
    best <= drawn.cost && drawn.bound <= 2 * best && drawn.sites * drawn.cost <= (2 * drawn.sites - 2) * best
}

fn main() -> ExitCode {
    let Some((program, count, seed)) = options(1_000) else {
        eprintln!("distance [--program PATH] [--count N] [--seed S]");
        return ExitCode::from(2);
    };
    let mut violations = 0;
    for (first, groups) in [(0, "one group"), (1, "two or three groups")] {
        let (mut dearer, mut certified) = (Vec::new(), Vec::new());
        for case in (first..count).step_by(2) {
            let survey = distant(&mut Rng::of_case(seed, case), first == 0);
            let best = cheapest(survey.view()).expect("it can be joined, with few sites");
            match drawn(program.as_deref(), &survey) {
                Ok(drawn) if holds(&drawn, best) => {
                    dearer.push(above(drawn.cost, best));
                    certified.push(above(drawn.cost, drawn.bound.div_ceil(2)));
                }
                drawn => {
                    println!("seed {seed}, case {case}: {drawn:?}, and the cheapest is {best}");
                    violations += 1;
                }
            }
        }
        if dearer.is_empty() {
            continue;
        }
        let exact = dearer.iter().filter(|&&x| x == 0).count();
        println!("{groups}, {} surveys: {exact} plans are the cheapest", dearer.len());
        println!("  above the cheapest: {}", spread(&mut dearer));
        println!("  certified by half the bound: {}", spread(&mut certified));
    }
    println!("{count} measured, {violations} violations");
    ExitCode::from(u8::from(violations > 0))
}
