//! The product's library from outside, through its Rust crate `foamsickle` (examples/rust): the feature `native` links
//! it, `bench` times its planner beside our own, `compare --native` and `calls` hold its answers and the bytes it
//! leaves against ours.
//!
//! The crate takes libfoamsickle.a from target/staticlib, or from the folder that FOAMSICKLE_LIB_DIR names:
//!
//!     tools/build foamsickle
//!     cargo run --release --features native --bin calls
//!
//! Nothing else here knows of the product's names and forms.

use crate::calls::{Figures, Library, PLAN_COUNTS};
use crate::handset::{Crossing, Handset};
use crate::merge::Ties;
use crate::plan::Counts;
use crate::read::Lent;
use crate::season::Season;
use crate::stp;
use crate::table::Tables;
use crate::verifying::Verify;
use crate::{Refusal, View};
use foamsickle::call;

fn slices(survey: View) -> call::Slices {
    let View { groups, first: firsts, second: seconds, prices: weights, owners, others } = survey;
    call::Slices { groups, firsts, seconds, weights, owners, others }
}

fn read(text: &[u8], lent: Lent, counts: &mut [u64]) -> u64 {
    let Lent { groups, first: firsts, second: seconds, prices: weights, owners, others } = lent;
    call::read(text, call::Buffers { groups, firsts, seconds, weights, owners, others }, counts)
}

fn read_stp(text: &[u8], lent: stp::Lent, counts: &mut [u64]) -> u64 {
    call::read_stp(text, lent.groups, lent.first, lent.second, lent.prices, counts)
}

fn bytes(crossing: Crossing) -> call::Bytes {
    let Crossing { groups, first: firsts, second: seconds, prices: weights, owners, others } = crossing;
    call::Bytes { groups, firsts, seconds, weights, owners, others }
}

fn print_plan(figures: Figures, marks: &[u8], records: &[u8], out: &mut [u8], counts: &mut [u64]) -> u64 {
    let [sites, cost, bound, rounds] = figures;
    call::print_plan(sites, cost, bound, rounds, marks, records, out, counts)
}

fn merge(first: View, second: View, ties: Ties, lent: Lent, counts: &mut [u64]) -> u64 {
    let Lent { groups, first: firsts, second: seconds, prices: weights, owners, others } = lent;
    let buffers = call::Buffers { groups, firsts, seconds, weights, owners, others };
    call::merge(slices(first), slices(second), ties.first, ties.second, buffers, counts)
}

/// The product's operations in the form that crosses.
pub const LIBRARY: Library = Library {
    read,
    read_stp,
    plan: |survey, marks, records, counts| call::plan(slices(survey), marks, records, counts),
    grow: |survey, marks, records, counts| call::grow(slices(survey), marks, records, counts),
    drop: |survey, marks, counts| call::drop(slices(survey), marks, counts),
    check: |survey, marks, records, counts| call::check(slices(survey), marks, records, counts),
    winter: |survey, strengths, copies, counts| call::winter(slices(survey), strengths, copies, counts),
    why: |survey, track, route, counts| call::why(slices(survey), track, route, counts),
    closed: |survey, tracks, result| call::closed(slices(survey), tracks, result),
    floor: |survey, counts| call::floor(slices(survey), counts),
    print_moat: call::print_dual,
    print_plan,
    print_survey: |survey, out, counts| call::print_survey(slices(survey), out, counts),
    merge,
};

/// Its calls for the handset.
pub const HANDSET: Handset = Handset {
    plan: |crossing, marks, records, result| call::handset_plan(bytes(crossing), marks, records, result),
    check: |crossing, marks, records, result| call::handset_check(bytes(crossing), marks, records, result),
};

/// Its track tables for the memory card.
pub const TABLES: Tables = Tables { pack: call::pack_table, unpack: call::unpack_table };

/// Its calls for the season.
pub const SEASON: Season =
    Season { add: |report, survey| call::season_add(report, slices(survey)), print: call::season_print };

/// Its check of a printed plan behind its survey.
pub const VERIFY: Verify = call::verify;

/// The outside planner in the form of ours.
pub fn plan(survey: View, marks: &mut [u8], records: &mut [u8]) -> Result<Counts, Refusal> {
    let mut counts = [0u64; PLAN_COUNTS];
    let answer = call::plan(slices(survey), marks, records, &mut counts);
    if answer != 0 {
        return Err(Refusal { number: (answer % 256) as u32, place: answer / 256 });
    }
    let [sites, cost, bound, rounds, moats] = counts;
    Ok(Counts { sites, cost, bound, rounds, moats })
}
