//! Plans a survey file and prints the tracks to clear:
//!
//!     tools/build foamsickle
//!     cd examples/rust && cargo run --example plan ../../samples/p3.survey

use foamsickle::Refusal;
use std::process::ExitCode;

fn tracks(text: &[u8]) -> Result<String, Refusal> {
    let read = foamsickle::read(text)?;
    let plan = foamsickle::plan(&read.survey()?)?;
    let mut lines = String::new();
    for e in plan.kept() {
        lines += &format!("track {e}: {}-{} for {}\n", read.firsts[e], read.seconds[e], read.weights[e]);
    }
    let half = if plan.found.bound % 2 == 1 { 5 } else { 0 };
    let least = plan.found.bound / 2;
    lines += &format!("{} sites, cost {}, no plan costs less than {least}.{half}\n", plan.found.sites, plan.found.cost);
    Ok(lines)
}

fn main() -> ExitCode {
    let Some(text) = std::env::args().nth(1).and_then(|path| std::fs::read(path).ok()) else {
        eprintln!("usage: plan SURVEY-FILE");
        return ExitCode::from(2);
    };
    match tracks(&text) {
        Ok(lines) => {
            print!("{lines}");
            ExitCode::SUCCESS
        }
        Err(refusal) => {
            println!("refused: {refusal}");
            ExitCode::FAILURE
        }
    }
}
