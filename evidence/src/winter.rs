//! Winter rules (No. 13): copies of tracks for groups with strengths, bit by bit.

use crate::calls::generated::any_strengths;
use crate::gen::{overlap, survey, Rng, Size};
use crate::plan::{fast, owned, KEPT};
use crate::print::{refusal_lines, survey_text};
use crate::programs::{any_text, Run};
use crate::read::{survey_lines, Cursor, Lengths};
use crate::{refuse, Refusal, Survey, View, END_DIGITS, MAX_GROUP, MAX_INPUT};

/// No. 13: a list of another length is refused; group 1 comes first.
pub const STRENGTHS: usize = MAX_GROUP as usize;
/// No. 13: a higher strength is refused.
pub const MAX_STRENGTH: u8 = 15;
/// The total price.
pub const WINTER_COUNTS: usize = 1;
/// Bits of a strength.
const BITS: u32 = 4;

/// The survey whose lists are those with the bit: of a junction's lists the lowest is its own group, the others are
/// pairs.
fn with_bit(survey: View, strengths: &[u8], bit: u32) -> Survey {
    let mut lists = vec![Vec::new(); survey.n()];
    let members = survey.members_by_group();
    for group in (1..=MAX_GROUP as u8).filter(|&group| strengths[usize::from(group) - 1] >> bit & 1 == 1) {
        members[usize::from(group)].iter().for_each(|&v| lists[v].push(group));
    }
    let pairs = lists.iter().zip(0..).flat_map(|(lists, v)| lists.iter().skip(1).map(move |&group| (v, group)));
    Survey {
        groups: lists.iter().map(|lists| lists.first().copied().unwrap_or(0)).collect(),
        first: survey.first.to_vec(),
        second: survey.second.to_vec(),
        prices: survey.prices.to_vec(),
        ..Survey::default()
    }
    .with_pairs(&pairs.collect::<Vec<_>>())
}

/// The lowest group whose strength is none.
fn bad_strength(strengths: &[u8]) -> Option<usize> {
    strengths.iter().position(|strength| !(1..=MAX_STRENGTH).contains(strength)).map(|index| index + 1)
}

/// Refusals 1 to 6, 18, 24.
pub fn admitted(survey: View, strengths: &[u8]) -> Result<(), Refusal> {
    survey.sound()?;
    if strengths.len() != STRENGTHS {
        return refuse(24, 0);
    }
    bad_strength(strengths).map_or(Ok(()), |group| refuse(24, group))
}

/// The copies of each track: 1, 2, 4 or 8 for each bit whose plan keeps it.
pub fn copies_of(survey: View, strengths: &[u8]) -> Vec<u8> {
    let mut copies = vec![0; survey.m()];
    for bit in 0..BITS {
        let plan = owned(fast, with_bit(survey, strengths, bit).view()).expect("every group can be joined");
        for track in (0..survey.m()).filter(|&t| plan.marks[t] == KEPT) {
            copies[track] += 1 << bit;
        }
    }
    copies
}

/// The price of all copies.
pub fn price(survey: View, copies: &[u8]) -> u64 {
    copies.iter().zip(survey.prices).map(|(&many, &price)| u64::from(many) * u64::from(price)).sum()
}

/// The copies of each track into a lent buffer, their total price into the counts.
pub fn winter(survey: View, strengths: &[u8], copies: &mut [u8], counts: &mut [u64]) -> Result<(), Refusal> {
    admitted(survey, strengths)?;
    if copies.len() < survey.m() || counts.len() < WINTER_COUNTS {
        return refuse(7, 0);
    }
    if let Some(group) = survey.unjoined(|_| true) {
        return refuse(8, usize::from(group));
    }
    let made = copies_of(survey, strengths);
    copies[..survey.m()].copy_from_slice(&made);
    counts[0] = price(survey, &made);
    Ok(())
}

/// The program reads no more of its standard input.
const WINTER_ROOM: usize = 2 * MAX_INPUT;

/// A survey's text with lines `strength=g,s` behind it, strictly rising by g; a group without a line has strength 1. 24
/// is given when the line is complete, with g as place.
fn told(text: &[u8]) -> Result<(Survey, Vec<u8>), Refusal> {
    let mut cursor = Cursor::new(text);
    let survey = survey_lines(&mut cursor, Lengths::ENOUGH)?;
    let (mut strengths, mut last) = (vec![1; STRENGTHS], 0);
    while cursor.next().is_some() {
        cursor.fixed(b"strength=")?;
        let group = cursor.number(END_DIGITS)? as usize;
        cursor.fixed(b",")?;
        let strength = cursor.number(END_DIGITS)?;
        cursor.fixed(b"\n")?;
        if group <= last || group > STRENGTHS || !(1..=u64::from(MAX_STRENGTH)).contains(&strength) {
            return refuse(24, group);
        }
        strengths[group - 1] = strength as u8;
        last = group;
    }
    Ok((survey, strengths))
}

/// What the program prints: the total price, and the copies of each track that is copied.
pub fn winter_program(input: &[u8]) -> String {
    let answer = || {
        let (survey, strengths) = told(&input[..input.len().min(WINTER_ROOM)])?;
        let (mut copies, mut counts) = (vec![0; survey.first.len()], [0]);
        winter(survey.view(), &strengths, &mut copies, &mut counts)?;
        let lines = copies.iter().enumerate().filter(|(_, &many)| many > 0);
        let lines: String = lines.map(|(track, many)| format!("copies={track},{many}\n")).collect();
        Ok(format!("cost={}\n{lines}", counts[0]))
    };
    answer().unwrap_or_else(refusal_lines)
}

/// A run of the program: a survey's text and strengths of some groups, or a text that is damaged, numbers that are, or a
/// byte or a line that is.
pub fn run(seed: u64, case: u64) -> Run {
    let rng = &mut Rng::of_case(seed ^ 0x736e_6f77, case);
    let size = rng.pick(&[Size::Tiny, Size::Tiny, Size::Small, Size::Small, Size::Middle, Size::Large]);
    let mut survey = survey(rng, size);
    if rng.chance(1, 2) {
        overlap(rng, &mut survey);
    }
    let text = if rng.chance(1, 5) { any_text(seed, case) } else { survey_text(&survey) };
    let (strengths, few) = (any_strengths(rng), rng.pick(&[1, 8, 64, 255]));
    let groups = (1..=STRENGTHS).filter(|&group| survey.groups.contains(&(group as u8)) || rng.chance(few, 510));
    let mut given: Vec<(usize, usize)> = groups.map(|group| (group, strengths[group - 1].into())).collect();
    if let (0, 1..) = (rng.below(4), given.len()) {
        let at = rng.below(given.len());
        match rng.below(6) {
            0 => given[at].0 = rng.pick(&[0, 256, 999, 1_000]),
            1 => given[at].1 = rng.pick(&[0, 16, 255, 256, 999, 1_000]),
            2 => given.insert(at, given[at]),
            3 => given.swap(0, at),
            4 => given.rotate_left(at),
            _ => given[at] = (rng.pick(&[0, 256]), rng.pick(&[0, 16])),
        }
    }
    let lines: Vec<u8> = given.iter().flat_map(|(g, s)| format!("strength={g},{s}\n").into_bytes()).collect();
    let mut input = [&text[..], &lines].concat();
    let at = (text.len() + rng.below(1 + lines.len())).min(input.len());
    match rng.below(12) {
        0 if at < input.len() => input[at] = rng.pick(b"0123456789,=\n strength\r"),
        1 => input.insert(at, rng.pick(b"0123456789,=\n strength")),
        2 => input.truncate(at),
        3 => input.extend(rng.pick(&[
            &b"strength=255,1\n"[..],
            b"strength=01,1\n",
            b"strength=9,9",
            b"\n",
            b"also=0,1\n",
        ])),
        4 if rng.chance(1, 8) => input.resize(WINTER_ROOM + rng.below(9), b'\n'),
        _ => {}
    }
    let lines = winter_program(&input);
    Run::lines(input, Vec::new(), lines)
}
