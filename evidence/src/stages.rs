//! Growing and dropping, each on its own (No. 7).

use crate::plan::{admitted, growth, Counts, Growth, DROPPED, KEPT, NOT_PICKED};
use crate::{refuse, Refusal, View, AMOUNT_BYTES, RECORD_BYTES};

/// What dropping answers with.
#[derive(Clone, Copy, Debug, PartialEq, Eq)]
pub struct Kept {
    /// k.
    pub sites: u64,
    /// The kept prices.
    pub cost: u64,
}

/// Growing: planning's refusals, marks 0 and 1, the moats, and planning's counts with cost 0.
pub fn grow(survey: View, marks: &mut [u8], records: &mut [u8]) -> Result<Counts, Refusal> {
    admitted(survey, marks.len(), records.len())?;
    if let Some(group) = survey.unjoined(|_| true) {
        return refuse(8, usize::from(group));
    }
    let Growth { rounds, picked, moats } = growth(survey);
    for (mark, picked) in marks.iter_mut().zip(picked) {
        *mark = if picked { DROPPED } else { NOT_PICKED };
    }
    let mut counts = Counts { sites: survey.sites(), rounds: rounds.len() as u64, ..Counts::default() };
    for (record, moat) in records.chunks_exact_mut(RECORD_BYTES).zip(moats.iter().filter(|moat| moat.amount != 0)) {
        record.fill(0);
        record[..AMOUNT_BYTES].copy_from_slice(&moat.amount.to_le_bytes());
        for &v in &moat.members {
            record[AMOUNT_BYTES + v / 8] |= 1 << (v % 8);
        }
        counts.moats += 1;
        counts.bound += moat.amount;
    }
    Ok(counts)
}

/// The lowest picked track whose ends are linked by picked tracks of lower number.
pub fn loop_at(survey: View, marks: &[u8]) -> Option<usize> {
    (0..survey.m()).filter(|&t| marks[t] == DROPPED).find(|&t| {
        let component = survey.components(|other| other < t && marks[other] == DROPPED);
        component[survey.first[t] as usize] == component[survey.second[t] as usize]
    })
}

/// Dropping: of any marks 0 and 1 it turns the needed 1s to 2.
pub fn drop_tracks(survey: View, marks: &mut [u8]) -> Result<Kept, Refusal> {
    survey.sound()?;
    if marks.len() != survey.m() {
        return refuse(9, 0);
    }
    if let Some(track) = marks.iter().position(|&mark| mark > DROPPED) {
        return refuse(10, track);
    }
    if let Some(track) = loop_at(survey, marks) {
        return refuse(21, track);
    }
    let picked: Vec<bool> = marks.iter().map(|&mark| mark == DROPPED).collect();
    if let Some(group) = survey.unjoined(|t| picked[t]) {
        return refuse(14, usize::from(group));
    }
    let mut kept = Kept { sites: survey.sites(), cost: 0 };
    for (t, _) in survey.needed(&picked).iter().enumerate().filter(|(_, needed)| **needed) {
        marks[t] = KEPT;
        kept.cost += u64::from(survey.prices[t]);
    }
    Ok(kept)
}
