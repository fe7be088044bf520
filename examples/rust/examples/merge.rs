//! Makes one survey of two survey files and ties `u,v`, a junction of the first and the one of the second at the same
//! place, and prints its text:
//!
//!     tools/build foamsickle
//!     cd examples/rust && cargo run --example merge ../../samples/north.survey ../../samples/south.survey 3,0 4,1 1,3

use foamsickle::{Refusal, SurveyText};
use std::process::ExitCode;

fn tie(word: &str) -> Option<(u32, u32)> {
    let (first, second) = word.split_once(',')?;
    Some((first.parse().ok()?, second.parse().ok()?))
}

fn merged(first: &SurveyText, second: &SurveyText, ties: &[(u32, u32)]) -> Result<Vec<u8>, Refusal> {
    let whole = foamsickle::merge(&first.survey()?, &second.survey()?, ties)?;
    foamsickle::print_survey(&whole.survey()?)
}

fn main() -> ExitCode {
    let words: Vec<String> = std::env::args().skip(1).collect();
    let texts: Vec<Vec<u8>> = words.iter().take(2).filter_map(|path| std::fs::read(path).ok()).collect();
    let ties: Option<Vec<(u32, u32)>> = words.iter().skip(2).map(|word| tie(word)).collect();
    let ([first, second], Some(ties)) = (&texts[..], ties) else {
        eprintln!("usage: merge SURVEY-FILE SURVEY-FILE [U,V]..");
        return ExitCode::from(2);
    };
    let answer = foamsickle::read(first).and_then(|a| foamsickle::read(second).and_then(|b| merged(&a, &b, &ties)));
    match answer {
        Ok(text) => {
            print!("{}", String::from_utf8_lossy(&text));
            ExitCode::SUCCESS
        }
        Err(refusal) => {
            println!("refused: {refusal:?}");
            ExitCode::FAILURE
        }
    }
}
