//! The program of 01, answered by our own library: a survey in on standard input, its plan out.
//!
//!     standin [BLUNDER]
//!     standin stp
//!     standin verify
//!     standin why TRACK
//!
//! With the name of a blunder it makes that fault, so that `compare` can be seen to find it. `stp` prints the survey of
//! an STP file, `verify` what the check of a plan behind its survey comes to, `why` the reason for a track of a survey.

use evidence::blunder::{self, BLUNDERS};
use evidence::{plan, print, printed, MAX_INPUT};
use std::io::{Read, Write};

fn main() -> std::io::Result<()> {
    let mut input = Vec::new();
    let words: Vec<String> = std::env::args().skip(1).collect();
    let whole = |word: &str| words.first().is_some_and(|first| first == word);
    if whole("stp") || whole("verify") {
        std::io::stdin().read_to_end(&mut input)?;
        let output = if whole("stp") { print::stp_program(&input) } else { printed::verify_program(&input) };
        return std::io::stdout().write_all(output.as_bytes());
    }
    std::io::stdin().take(MAX_INPUT as u64).read_to_end(&mut input)?;
    if let [word, track] = &words[..] {
        assert_eq!(word, "why");
        let output = print::why_program(&input, track.parse().expect("a track's number"));
        return std::io::stdout().write_all(output.as_bytes());
    }
    let fault = words.first().map(|name| {
        let named = BLUNDERS.into_iter().find(|blunder| format!("{blunder:?}") == *name);
        named.unwrap_or_else(|| panic!("the blunders are {BLUNDERS:?}"))
    });
    let output = match fault {
        None => print::program(plan::fast, &input),
        Some(fault) => blunder::program(fault, &input),
    };
    std::io::stdout().write_all(output.as_bytes())
}
