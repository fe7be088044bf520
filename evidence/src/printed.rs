//! A printed plan read back behind its survey's text, and checked (01, "Survey text and printed plan"; the README, "For
//! a buyer").
//!
//! 01 has the lines of a plan: `sites=`, `cost=`, `bound=`, `rounds=`, then `keep=` and then `moat=` lines. The README
//! has the refusals: 16 with a place that counts from the survey's first byte; 26 to 28 at the line's number among its
//! kind, when the line is complete; then the checker's; last 25.

use crate::check::{check, Passed};
use crate::plan::{KEPT, NOT_PICKED};
use crate::print::refusal_lines;
use crate::read::{survey_lines, Cursor, Lengths};
use crate::{
    refuse, Refusal, AMOUNT_BYTES, AMOUNT_DIGITS, FIGURE_DIGITS, ITEM_DIGITS, MAX_JUNCTIONS, MAX_RECORDS, RECORD_BYTES,
};

/// What a printed plan says; `rounds` is read and not judged.
struct Said {
    sites: u64,
    cost: u64,
    bound: u64,
    marks: Vec<u8>,
    records: Vec<u8>,
}

/// A line with a figure.
fn figure(cursor: &mut Cursor, key: &[u8]) -> Result<u64, Refusal> {
    cursor.fixed(key)?;
    let value = cursor.number(FIGURE_DIGITS)?;
    cursor.fixed(b"\n")?;
    Ok(value)
}

/// The keep lines: 26 at a line whose track is none, or is not above that of the line before.
fn keeps(cursor: &mut Cursor, m: usize) -> Result<Vec<u8>, Refusal> {
    let mut marks = vec![NOT_PICKED; m];
    let (mut line, mut lowest) = (0, 0);
    while cursor.next() == Some(b'k') {
        cursor.fixed(b"keep=")?;
        let track = cursor.number(ITEM_DIGITS)? as usize;
        cursor.fixed(b"\n")?;
        if track < lowest || track >= m {
            return refuse(26, line);
        }
        marks[track] = KEPT;
        (line, lowest) = (line + 1, track + 1);
    }
    Ok(marks)
}

/// The members of a moat line, as they stand, up to the line's end.
fn members(cursor: &mut Cursor) -> Result<Vec<usize>, Refusal> {
    let mut members = Vec::new();
    while members.is_empty() || cursor.next() == Some(b',') {
        if members.is_empty() && cursor.next() == Some(b'\n') {
            break;
        }
        if !members.is_empty() {
            cursor.fixed(b",")?;
        }
        members.push(cursor.number(ITEM_DIGITS)? as usize);
    }
    cursor.fixed(b"\n")?;
    Ok(members)
}

/// The moat lines: 27 at a line whose members are over 447 or do not rise, then 28 at a line too many.
fn moats(cursor: &mut Cursor) -> Result<Vec<u8>, Refusal> {
    let mut records = Vec::new();
    let mut line = 0;
    while cursor.next() == Some(b'm') {
        cursor.fixed(b"moat=")?;
        let amount = cursor.number(AMOUNT_DIGITS)?;
        cursor.fixed(b":")?;
        let members = members(cursor)?;
        let rise = members.windows(2).all(|two| two[0] < two[1]);
        if !rise || members.iter().any(|&v| v >= MAX_JUNCTIONS) {
            return refuse(27, line);
        }
        if line >= MAX_RECORDS {
            return refuse(28, line);
        }
        let mut record = [0; RECORD_BYTES];
        record[..AMOUNT_BYTES].copy_from_slice(&amount.to_le_bytes());
        for v in members {
            record[AMOUNT_BYTES + v / 8] |= 1 << (v % 8);
        }
        records.extend(record);
        line += 1;
    }
    Ok(records)
}

fn plan(cursor: &mut Cursor, m: usize) -> Result<Said, Refusal> {
    let sites = figure(cursor, b"sites=")?;
    let cost = figure(cursor, b"cost=")?;
    let bound = figure(cursor, b"bound=")?;
    figure(cursor, b"rounds=")?;
    let marks = keeps(cursor, m)?;
    let records = moats(cursor)?;
    cursor.end()?;
    Ok(Said { sites, cost, bound, marks, records })
}

/// The figures that the plan says and those that the checker finds: sites, cost, bound.
pub fn figures(text: &[u8]) -> Result<([u64; 3], [u64; 3]), Refusal> {
    let mut cursor = Cursor::new(text);
    let survey = survey_lines(&mut cursor, Lengths::ENOUGH)?;
    let said = plan(&mut cursor, survey.first.len())?;
    let found = check(survey.view(), &said.marks, &said.records)?;
    Ok(([said.sites, said.cost, said.bound], [found.sites, found.cost, found.bound]))
}

/// What the check of a survey's text with a printed plan behind it comes to.
pub fn verify(text: &[u8]) -> Result<Passed, Refusal> {
    let (said, found) = figures(text)?;
    match (0..3).find(|&figure| said[figure] != found[figure]) {
        Some(figure) => refuse(25, figure),
        None => Ok(Passed { sites: found[0], cost: found[1], bound: found[2] }),
    }
}

/// What the program that checks plans prints.
pub fn verify_program(text: &[u8]) -> String {
    match verify(text) {
        Ok(Passed { sites, cost, bound }) => format!("passed\nsites={sites}\ncost={cost}\nbound={bound}\n"),
        Err(refusal) => refusal_lines(refusal),
    }
}
