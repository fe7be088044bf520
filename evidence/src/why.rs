//! Why a track is on the sheet, or not (No. 3).

use crate::plan::{growth, DROPPED, KEPT, NOT_PICKED};
use crate::{parted, refuse, Refusal, View};

/// One reason, in numbers; what doesn't belong to its kind is 0.
#[derive(Clone, Copy, Debug, Default, PartialEq, Eq)]
pub struct Reason {
    /// The track's mark.
    pub kind: u64,
    /// Of a kept track: the lowest group parted without it.
    pub list: u64,
    /// The lowest pair of that group's members so parted.
    pub smaller: u64,
    pub larger: u64,
    /// The tracks of the kept route between the two.
    pub entries: u64,
    /// Of a track that isn't picked: the round after which its ends were first in one component, 0 if they never were.
    pub round: u64,
}

/// The picked tracks in the order of their rounds, and the marks of a plan, of a survey whose groups can all be joined.
fn planned(survey: View) -> (Vec<usize>, Vec<u8>) {
    let growth = growth(survey);
    let needed = survey.needed(&growth.picked);
    let mark = |t: usize| match (growth.picked[t], needed[t]) {
        (false, _) => NOT_PICKED,
        (true, true) => KEPT,
        (true, false) => DROPPED,
    };
    (growth.rounds.iter().map(|round| round.winner).collect(), (0..survey.m()).map(mark).collect())
}

/// The tracks of the only route of kept tracks from one junction to another, in walking order.
fn route(survey: View, marks: &[u8], from: usize, to: usize) -> Vec<usize> {
    // Each junction that is reached, and by which track from which.
    let mut came: Vec<Option<(usize, usize)>> = vec![None; survey.n()];
    let mut reached = vec![from];
    let mut next = 0;
    while next < reached.len() {
        let at = reached[next];
        next += 1;
        for t in (0..survey.m()).filter(|&t| marks[t] == KEPT) {
            let ends = [survey.first[t] as usize, survey.second[t] as usize];
            if ends.contains(&at) {
                let other = if ends[0] == at { ends[1] } else { ends[0] };
                if !reached.contains(&other) {
                    came[other] = Some((t, at));
                    reached.push(other);
                }
            }
        }
    }
    let mut tracks = Vec::new();
    let mut at = to;
    while let Some((track, before)) = came[at] {
        tracks.push(track);
        at = before;
    }
    tracks.reverse();
    tracks
}

/// The reason for a track; the route goes into the lent buffer's beginning.
pub fn why(survey: View, track: u32, lent: &mut [u32]) -> Result<Reason, Refusal> {
    survey.sound()?;
    if lent.len() < survey.n() - 1 {
        return refuse(7, 0);
    }
    if let Some(group) = survey.unjoined(|_| true) {
        return refuse(8, usize::from(group));
    }
    let track = track as usize;
    if track >= survey.m() {
        return refuse(19, track);
    }
    let (picks, marks) = planned(survey);
    let ends = [survey.first[track] as usize, survey.second[track] as usize];
    let mut reason = Reason { kind: u64::from(marks[track]), ..Reason::default() };
    match marks[track] {
        KEPT => {
            let component = survey.components(|t| t != track && marks[t] == KEPT);
            let members = survey.members_by_group();
            let list = parted(&members, &component).expect("a kept track is needed");
            let members = &members[usize::from(list)];
            let pairs = members.iter().flat_map(|&u| members.iter().map(move |&v| (u, v)));
            let (smaller, larger) =
                pairs.filter(|&(u, v)| u < v && component[u] != component[v]).min().expect("two of them are apart");
            let tracks = route(survey, &marks, smaller, larger);
            for (entry, &track) in lent.iter_mut().zip(&tracks) {
                *entry = track as u32;
            }
            reason.list = u64::from(list);
            (reason.smaller, reason.larger) = (smaller as u64, larger as u64);
            reason.entries = tracks.len() as u64;
        }
        NOT_PICKED => {
            let mut picked = vec![false; survey.m()];
            let linked = |&pick: &usize| {
                picked[pick] = true;
                let component = survey.components(|t| picked[t]);
                component[ends[0]] == component[ends[1]]
            };
            reason.round = picks.iter().position(linked).map_or(0, |before| before as u64 + 1);
        }
        _ => {}
    }
    Ok(reason)
}
