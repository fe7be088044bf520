//! Printing (01, "Survey text and printed plan").

use crate::check::{amount, holds};
use crate::closed::{closed, ROW};
use crate::plan::{owned, Plan, Planner, KEPT};
use crate::read::{parse, Lengths};
use crate::why::{why, Reason};
use crate::{refuse, stp, Refusal, Survey, AMOUNT_BYTES, MAX_INPUT, MAX_JUNCTIONS, RECORD_BYTES, STP_ROOM};
use std::fmt::{Arguments, Write};

/// The line of a record. Any amount and any member bit is printed as it stands.
fn line(record: &[u8]) -> String {
    let mut out = format!("moat={}:", amount(record));
    let mut between = "";
    for v in (0..8 * (RECORD_BYTES - AMOUNT_BYTES)).filter(|&v| holds(record, v)) {
        put(&mut out, format_args!("{between}{v}"));
        between = ",";
    }
    out + "\n"
}

/// Appends to a text.
fn put(out: &mut String, more: Arguments) {
    out.write_fmt(more).expect("a text in memory takes all");
}

/// Writes a moat line and answers with its length; 9 if the record has another length, 7 if the line doesn't fit.
pub fn moat_line(record: &[u8], out: &mut [u8]) -> Result<u64, Refusal> {
    if record.len() != RECORD_BYTES {
        return refuse(9, 0);
    }
    let line = line(record);
    if line.len() > out.len() {
        return refuse(7, 0);
    }
    out[..line.len()].copy_from_slice(line.as_bytes());
    Ok(line.len() as u64)
}

/// A plan as the program prints it.
pub fn plan_lines(plan: &Plan) -> String {
    let counts = plan.counts;
    let mut out =
        format!("sites={}\ncost={}\nbound={}\nrounds={}\n", counts.sites, counts.cost, counts.bound, counts.rounds);
    for track in (0..plan.marks.len()).filter(|&t| plan.marks[t] == KEPT) {
        put(&mut out, format_args!("keep={track}\n"));
    }
    for record in plan.records.chunks_exact(RECORD_BYTES) {
        out += &line(record);
    }
    out
}

/// A refusal as the program prints it.
pub fn refusal_lines(refusal: Refusal) -> String {
    format!("refused={}\nplace={}\n", refusal.number, refusal.place)
}

/// What the program answers to its standard input.
pub fn answer(planner: Planner, input: &[u8]) -> Result<Plan, Refusal> {
    let text = &input[..input.len().min(MAX_INPUT)];
    owned(planner, parse(text, Lengths::ENOUGH)?.view())
}

/// What the program prints for its standard input.
pub fn program(planner: Planner, input: &[u8]) -> String {
    match answer(planner, input) {
        Ok(plan) => plan_lines(&plan),
        Err(refusal) => refusal_lines(refusal),
    }
}

/// The text of a survey, whatever its numbers.
pub fn survey_text(survey: &Survey) -> Vec<u8> {
    let mut out = format!("nodes={}\nlinks={}\n", survey.groups.len(), survey.first.len());
    for group in &survey.groups {
        put(&mut out, format_args!("node={group}\n"));
    }
    for (v, group) in survey.owners.iter().zip(&survey.others) {
        put(&mut out, format_args!("also={v},{group}\n"));
    }
    for t in 0..survey.first.len() {
        put(&mut out, format_args!("link={},{},{}\n", survey.first[t], survey.second[t], survey.prices[t]));
    }
    out.into_bytes()
}

/// What the program that reads STP files prints: the survey's text. Of a longer file than it reads the first bytes are
/// judged, and it is 7 unless they are refused before their end.
pub fn stp_program(input: &[u8]) -> String {
    let first = &input[..input.len().min(STP_ROOM)];
    let read = match stp::parse(first, Lengths::ENOUGH) {
        Err(refusal) if refusal.place < STP_ROOM as u64 => Err(refusal),
        _ if STP_ROOM < input.len() => Err(Refusal { number: 7, place: 0 }),
        read => read,
    };
    match read {
        Ok(survey) => String::from_utf8_lossy(&survey_text(&survey)).into_owned(),
        Err(refusal) => refusal_lines(refusal),
    }
}

/// A reason as the program that asks for one prints it; the keys are the product's own.
pub fn reason_lines(track: u32, reason: Reason, route: &[u32]) -> String {
    let Reason { kind, list, smaller, larger, round, .. } = reason;
    let route: Vec<String> = route.iter().map(u32::to_string).collect();
    let more = match kind {
        2 => format!("group={list}\nfrom={smaller}\nto={larger}\nroute={}\n", route.join(",")),
        1 => String::new(),
        _ => format!("round={round}\n"),
    };
    format!("track={track}\nmark={kind}\n{more}")
}

/// What that program prints for its standard input and a track.
pub fn why_program(input: &[u8], track: u32) -> String {
    let text = &input[..input.len().min(MAX_INPUT)];
    let mut route = [0; MAX_JUNCTIONS];
    match parse(text, Lengths::ENOUGH).and_then(|survey| why(survey.view(), track, &mut route)) {
        Ok(reason) => reason_lines(track, reason, &route[..reason.entries as usize]),
        Err(refusal) => refusal_lines(refusal),
    }
}

/// What the program of No. 12 prints: a line for each track, `closed=track,cost,bound` or `closed=track,refused,number,place`.
pub fn closed_program(input: &[u8], tracks: &[u32]) -> String {
    let text = &input[..input.len().min(MAX_INPUT)];
    let mut result = vec![0; ROW * tracks.len()];
    match parse(text, Lengths::ENOUGH).and_then(|survey| closed(survey.view(), tracks, &mut result)) {
        Ok(()) => {
            let line = |(row, track): (&[u64], &u32)| match row[0] {
                0 => format!("closed={track},{},{}\n", row[2], row[3]),
                number => format!("closed={track},refused,{number},{}\n", row[1]),
            };
            result.chunks(ROW).zip(tracks).map(line).collect()
        }
        Err(refusal) => refusal_lines(refusal),
    }
}
