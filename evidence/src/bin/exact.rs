//! Where near best is best (No. 14), against Dijkstra and Kruskal written apart:
//!
//!     exact [--program PATH] [--count N] [--seed S]
//!
//! N surveys with exactly two sites and N with all junctions in one list, ties and prices of 0 dense. The plans are
//! the program's, as it prints them, and what it says on standard error is held against its figures; without a program
//! they are our own planner's.

use evidence::exact::{drawn, one_list, options, two_sites};
use evidence::gen::{exact, Rng};
use evidence::Survey;
use std::process::ExitCode;

fn main() -> ExitCode {
    let Some((program, count, seed)) = options(20_000) else {
        eprintln!("exact [--program PATH] [--count N] [--seed S]");
        return ExitCode::from(2);
    };
    let plan = |survey: &Survey| drawn(program.as_deref(), survey);
    let (mut free, mut tied) = (0u64, 0u64);
    for case in 0..2 * count {
        let rng = &mut Rng::of_case(seed ^ 0x6578_6163_74, case);
        let (survey, found) = if case % 2 == 0 {
            let (survey, u, w) = exact::two_sites(rng);
            let found = plan(&survey).and_then(|drawn| two_sites(survey.view(), u, w, &drawn));
            (survey, found)
        } else {
            let survey = exact::one_list(rng);
            let found = plan(&survey).and_then(|drawn| one_list(survey.view(), &drawn));
            (survey, found)
        };
        free += u64::from(survey.prices.contains(&0));
        let mut prices = survey.prices.clone();
        prices.sort_unstable();
        tied += u64::from(prices.windows(2).any(|pair| pair[0] == pair[1]));
        if let Err(trouble) = found {
            println!("seed {seed} case {case}: {trouble}, on {survey:?}");
            println!("{} compared, 1 differ", case + 1);
            return ExitCode::FAILURE;
        }
    }
    println!("{count} surveys with two sites, {count} with all junctions in one list: {free} with a price of 0, {tied} with tracks of one price");
    println!("{} compared, 0 differ", 2 * count);
    ExitCode::SUCCESS
}
