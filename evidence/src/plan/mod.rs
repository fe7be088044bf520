//! Planning (01, "How moats grow" and "What a plan holds").

mod fast;
mod reference;

pub use fast::{fast, Workspace};
pub use reference::{growth, growth_without, reference, Growth, Moat, Round};

use crate::{refuse, Refusal, View, RECORD_BYTES};

/// What planning answers with.
#[derive(Clone, Copy, Debug, Default, PartialEq, Eq)]
pub struct Counts {
    /// k.
    pub sites: u64,
    /// The kept prices.
    pub cost: u64,
    /// The sum of all moats, in halves.
    pub bound: u64,
    pub rounds: u64,
    pub moats: u64,
}

/// Marks: not picked.
pub const NOT_PICKED: u8 = 0;
/// Marks: picked and dropped.
pub const DROPPED: u8 = 1;
/// Marks: kept.
pub const KEPT: u8 = 2;

/// The bytes that planning needs for records.
pub fn record_room(n: usize) -> usize {
    RECORD_BYTES * (2 * n - 1)
}

/// Refusals 1 to 6, 18 and 7 of planning; 8 is left to the planner.
pub fn admitted(survey: View, marks: usize, records: usize) -> Result<(), Refusal> {
    survey.sound()?;
    if marks < survey.m() || records < record_room(survey.n()) {
        return refuse(7, 0);
    }
    Ok(())
}

/// A plan that owns its buffers: marks exactly m, records exactly the moats.
#[derive(Clone, Debug, PartialEq, Eq)]
pub struct Plan {
    pub counts: Counts,
    pub marks: Vec<u8>,
    pub records: Vec<u8>,
}

/// A planner: a survey, a buffer for marks, a buffer for records.
pub type Planner = fn(View, &mut [u8], &mut [u8]) -> Result<Counts, Refusal>;

/// The plan that a planner draws into buffers of the needed lengths.
pub fn owned(planner: Planner, survey: View) -> Result<Plan, Refusal> {
    let mut marks = vec![0; survey.m()];
    let mut records = vec![0; record_room(survey.n().max(1))];
    let counts = planner(survey, &mut marks, &mut records)?;
    records.truncate(RECORD_BYTES * counts.moats as usize);
    Ok(Plan { counts, marks, records })
}
