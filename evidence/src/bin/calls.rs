//! Single calls of the library that the feature `native` links, held against the second implementation:
//!
//!     calls [--count N] [--seed S] [--call NAME]
//!
//! First the cases whose answers are written out, then N generated calls of each operation, or of that one alone. Prints
//! how often each refusal came, and the first difference, if there is one.

use evidence::calls::document;
use evidence::calls::generated::OPERATIONS;
use evidence::{handset, season, table, verifying};
use std::collections::BTreeMap;
use std::process::ExitCode;

#[cfg(feature = "native")]
use evidence::native::{HANDSET, LIBRARY, SEASON, TABLES, VERIFY};
#[cfg(not(feature = "native"))]
const LIBRARY: evidence::calls::Library = evidence::calls::SECOND;
#[cfg(not(feature = "native"))]
const HANDSET: handset::Handset = handset::SECOND;
#[cfg(not(feature = "native"))]
const VERIFY: verifying::Verify = verifying::second;
#[cfg(not(feature = "native"))]
const TABLES: table::Tables = table::SECOND;
#[cfg(not(feature = "native"))]
const SEASON: season::Season = season::SECOND;

/// Whole seasons of 1,003 calls each.
const SEASONS: u64 = 10;

/// How many cases of each call, by which seed, and the one call that is asked for.
struct Options {
    count: u64,
    seed: u64,
    call: Option<String>,
}

/// Holds a call of so many cases against the second implementation, says how often each refusal came, and answers with
/// the number of cases.
fn run(name: &str, options: &Options, compare: impl Fn(u64) -> Result<u64, String>) -> Result<u64, String> {
    let Options { count, seed, ref call } = *options;
    if call.as_ref().is_some_and(|call| call != name) {
        return Ok(0);
    }
    let mut came: BTreeMap<u64, u64> = BTreeMap::new();
    for case in 0..count {
        let number = compare(case).map_err(|trouble| format!("seed {seed} case {case}, {trouble}"))?;
        *came.entry(number).or_default() += 1;
    }
    let came: Vec<String> = came.iter().map(|(number, many)| format!("{number}: {many}")).collect();
    println!("{name}: {}", came.join(", "));
    Ok(count)
}

/// The operations, the calls of the handset, of tables and of the season, the check of printed plans: how many cases.
fn compare(options: &Options) -> Result<u64, String> {
    let seed = options.seed;
    println!("{} cases are as written", document::cases(&LIBRARY)?);
    let mut compared = 0;
    for operation in OPERATIONS {
        compared += run(operation.name, options, |case| operation.compare(&LIBRARY, seed, case))?;
    }
    for (name, checks) in handset::CALLS {
        compared += run(name, options, |case| handset::compare(&HANDSET, seed, case, checks))?;
    }
    for (name, unpacks) in table::CALLS {
        compared += run(name, options, |case| table::compare(&TABLES, seed, case, unpacks))?;
    }
    for (name, prints) in season::CALLS {
        compared += run(name, options, |case| season::compare(&SEASON, seed, case, prints))?;
    }
    let seasons = Options { count: SEASONS, seed, call: options.call.clone() };
    run("seasons of 1,000 surveys", &seasons, |case| season::compare_whole(&SEASON, seed, case))?;
    compared += run("verify", options, |case| verifying::compare(VERIFY, seed, case))?;
    Ok(compared)
}

fn main() -> ExitCode {
    let mut options = Options { count: 20_000, seed: 1, call: None };
    let mut words = std::env::args().skip(1);
    while let Some(word) = words.next() {
        let value = words.next().unwrap_or_default();
        match (word.as_str(), value.parse()) {
            ("--count", Ok(n)) => options.count = n,
            ("--seed", Ok(n)) => options.seed = n,
            ("--call", _) => options.call = Some(value),
            _ => {
                eprintln!("calls [--count N] [--seed S] [--call NAME]");
                return ExitCode::from(2);
            }
        }
    }
    if !cfg!(feature = "native") {
        println!("without the feature native the second implementation is held against itself");
    }
    match compare(&options) {
        Ok(0) => {
            println!("nothing was compared");
            ExitCode::FAILURE
        }
        Ok(compared) => {
            println!("{compared} compared, 0 differ");
            ExitCode::SUCCESS
        }
        Err(trouble) => {
            println!("{trouble}");
            println!("1 differs");
            ExitCode::FAILURE
        }
    }
}
