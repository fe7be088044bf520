//! Plans with one track closed, for a list of tracks (No. 12).

use crate::plan::growth_without;
use crate::{refuse, Refusal, View};

/// No. 12: a longer list is refused.
pub const MAX_CLOSED: usize = 256;
/// Numbers of a row: the refusal or 0, its place, the cost, the bound.
pub const ROW: usize = 4;

/// Cost and bound of the plan in which the track is never a candidate.
fn without(survey: View, closed: usize) -> Result<(u64, u64), Refusal> {
    if closed >= survey.m() {
        return refuse(19, closed);
    }
    if let Some(group) = survey.unjoined(|t| t != closed) {
        return refuse(8, usize::from(group));
    }
    let growth = growth_without(survey, |t| t == closed);
    let kept = survey.needed(&growth.picked);
    let cost = (0..survey.m()).filter(|&t| kept[t]).map(|t| u64::from(survey.prices[t])).sum();
    Ok((cost, growth.moats.iter().map(|moat| moat.amount).sum()))
}

/// A row for each track of the list, each planned anew.
pub fn closed(survey: View, tracks: &[u32], result: &mut [u64]) -> Result<(), Refusal> {
    survey.sound()?;
    if tracks.len() > MAX_CLOSED || result.len() < ROW * tracks.len() {
        return refuse(7, 0);
    }
    for (row, &track) in result.chunks_exact_mut(ROW).zip(tracks) {
        row.copy_from_slice(&match without(survey, track as usize) {
            Ok((cost, bound)) => [0, 0, cost, bound],
            Err(Refusal { number, place }) => [u64::from(number), place, 0, 0],
        });
    }
    Ok(())
}
