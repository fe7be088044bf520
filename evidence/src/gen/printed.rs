//! Surveys with printed plans behind them, sound and damaged.

use super::plans::{damaged_plan, planned, PlanCase};
use super::surveys::{Size, WORKED};
use super::texts::{lines, numbers, splice};
use super::Rng;
use crate::calls::faults::{damage, Fault, READ_FAULTS};
use crate::check::{amount, check, holds, Passed};
use crate::plan::{fast, owned, KEPT};
use crate::print::survey_text;
use crate::{
    highest, Survey, AMOUNT_DIGITS, END_DIGITS, FIGURE_DIGITS, ITEM_DIGITS, MAX_JUNCTIONS, MAX_RECORDS, PRICE_DIGITS,
    RECORD_BYTES,
};
use std::sync::OnceLock;

/// A plan as its lines have it: tracks and members in any order, as often as they like.
#[derive(Clone)]
struct Lines {
    survey: Vec<u8>,
    /// Sites, cost, bound and rounds.
    figures: [u64; 4],
    keeps: Vec<usize>,
    moats: Vec<(u64, Vec<usize>)>,
}

impl Lines {
    /// The lines of marks and records, with the figures that the checker finds, or 0 where it refuses.
    fn of(survey: &Survey, marks: &[u8], records: &[u8], rounds: u64) -> Lines {
        let found = check(survey.view(), marks, records).unwrap_or(Passed { sites: 0, cost: 0, bound: 0 });
        let members = |record: &[u8]| (0..MAX_JUNCTIONS).filter(|&v| holds(record, v)).collect();
        Lines {
            survey: survey_text(survey),
            figures: [found.sites, found.cost, found.bound, rounds],
            keeps: (0..marks.len()).filter(|&t| marks[t] == KEPT).collect(),
            moats: records.chunks_exact(RECORD_BYTES).map(|record| (amount(record), members(record))).collect(),
        }
    }

    fn text(&self) -> Vec<u8> {
        let [sites, cost, bound, rounds] = self.figures;
        let mut text = self.survey.clone();
        text.extend(format!("sites={sites}\ncost={cost}\nbound={bound}\nrounds={rounds}\n").bytes());
        for track in &self.keeps {
            text.extend(format!("keep={track}\n").bytes());
        }
        for (amount, members) in &self.moats {
            let members: Vec<String> = members.iter().map(usize::to_string).collect();
            text.extend(format!("moat={amount}:{}\n", members.join(",")).bytes());
        }
        text
    }
}

/// Numbers at the boundaries of figures, amounts, tracks, members and their digits, and some that are no number.
#[rustfmt::skip]
const TOKENS: [&str; 27] = [
    "0", "1", "2", "3", "4", "00", "01", "010", "447", "448", "512", "2047", "2048", "9999999", "10000000", "200000000", "200000001", "999999999",
    "1000000000", "4294967296", "999999999999", "1000000000000", "18446744073709551616", "", "-1", " 1", "x",
];

/// Bytes that stand for the classes in the text, and some that occur nowhere.
const BYTES: [u8; 18] =
    [b'0', b'1', b'2', b'9', b'/', b':', b',', b'=', b'\n', b'\r', b'k', b'm', b's', b'a', b'l', b' ', 0, 255];

/// The texts that come first, whatever the seed.
pub fn directed_plan_texts() -> &'static [Vec<u8>] {
    static ALL: OnceLock<Vec<Vec<u8>>> = OnceLock::new();
    ALL.get_or_init(build_directed)
}

fn worked(which: usize) -> Option<Lines> {
    let survey = Survey::new(WORKED[which].0, WORKED[which].1);
    let plan = owned(fast, survey.view()).ok()?;
    Some(Lines::of(&survey, &plan.marks, &plan.records, plan.counts.rounds))
}

/// All rows of so many entries or fewer.
fn rows(of: &[usize], most: usize) -> Vec<Vec<usize>> {
    let mut rows = vec![Vec::new()];
    let mut from = 0;
    for _ in 0..most {
        let end = rows.len();
        for row in from..end {
            rows.extend(of.iter().map(|&item| [&rows[row][..], &[item]].concat()).collect::<Vec<_>>());
        }
        from = end;
    }
    rows
}

fn build_directed() -> Vec<Vec<u8>> {
    let mut all: Vec<Vec<u8>> = (0..WORKED.len()).filter_map(|which| Some(worked(which)?.text())).collect();
    let p3 = worked(2).expect("P3 is planned");
    let text = p3.text();

    // The plan's text, byte by byte, behind its survey.
    for at in p3.survey.len()..text.len() {
        all.push(text[..at].to_vec());
        all.push(splice(&text, at, at + 1, &[]));
        all.push(splice(&text, at, at, &[text[at]]));
        all.push(splice(&text, at, at, b"0"));
        all.push(splice(&text, at, at, b"\n"));
        all.extend(BYTES.map(|byte| splice(&text, at, at + 1, &[byte])));
    }
    all.extend(BYTES.map(|byte| splice(&text, text.len(), text.len(), &[byte])));

    // Its numbers, the line complete and stopped behind the number.
    for (start, end) in numbers(&text).into_iter().filter(|run| run.0 > p3.survey.len()) {
        for token in TOKENS {
            all.push(splice(&text, start, end, token.as_bytes()));
            all.push([&text[..start], token.as_bytes()].concat());
        }
    }

    // Its lines, left out, doubled and exchanged.
    let whole = lines(&text);
    for one in 0..whole.len() {
        for change in 0..2 {
            let mut lines = whole.clone();
            if change == 0 {
                lines.remove(one);
            } else {
                lines.insert(one, whole[one].clone());
            }
            all.push(lines.concat());
        }
        for other in one + 1..whole.len() {
            let mut lines = whole.clone();
            lines.swap(one, other);
            all.push(lines.concat());
        }
    }

    // Every figure right, too low and too high, with every other.
    for turn in 0..81 {
        let mut lines = p3.clone();
        for (figure, value) in lines.figures.iter_mut().enumerate() {
            *value = *value + turn / 3u64.pow(figure as u32) % 3 - 1;
        }
        all.push(lines.text());
    }

    // Keeps and members: equal, falling, none of the survey.
    all.extend(rows(&[0, 1, 2], 3).into_iter().map(|keeps| Lines { keeps, ..p3.clone() }.text()));
    for members in rows(&[0, 1, 2, 447, 448], 3) {
        let mut lines = p3.clone();
        lines.moats[1].1 = members;
        all.push(lines.text());
    }

    // As many moats as there may be, one more, and what is wrong with the last ones besides.
    let one = Survey::new(&[1, 1], &[(0, 1, 448)]);
    let many = Lines {
        survey: survey_text(&one),
        figures: [2, 448, 896, 1],
        keeps: vec![0],
        moats: [vec![(1, vec![0]); MAX_RECORDS - 1], vec![(2, vec![0])]].concat(),
    };
    all.push(many.text());
    for more in 1..=3 {
        for wrong in MAX_RECORDS - 1..MAX_RECORDS + more {
            for members in [vec![0], vec![0, 0], vec![1, 0], vec![MAX_JUNCTIONS], vec![MAX_JUNCTIONS - 1], Vec::new()] {
                let mut lines = many.clone();
                lines.moats.resize(MAX_RECORDS + more, (1, vec![0]));
                lines.moats[wrong].1 = members;
                let text = lines.text();
                all.push([&text[..], b"keep=0\n"].concat());
                all.push(text[..text.len() - 1].to_vec());
                all.push(text);
            }
        }
    }
    all
}

/// What is wrong with a text, and in brackets the refusals that it is made for.
#[derive(Clone, Copy, Debug, PartialEq, Eq)]
enum Slip {
    /// One to three false figures (25).
    Figures,
    /// A kept track twice (26).
    KeepTwice,
    /// Two keep lines exchanged (26).
    KeepsFall,
    /// A track that is none (26).
    KeepOut,
    /// A member twice (27).
    MemberTwice,
    /// Two members exchanged (27).
    MembersFall,
    /// A member over 447 (27).
    MemberOut,
    /// More than 895 moats (28).
    Moats,
    /// A group over 255 in the survey (17).
    Group,
    /// What reading finds in a survey (1, 3, 16, 17, 18).
    Survey,
    /// A byte changed, cut out, doubled or added (16).
    Byte,
    /// The text stopped (16).
    Stopped,
    /// A number with a leading zero, or at a boundary (any).
    Number,
    /// A line left out, doubled or moved (16, 26).
    Line,
}

#[rustfmt::skip]
const SLIPS: [Slip; 15] = [
    Slip::Figures, Slip::Figures, Slip::KeepTwice, Slip::KeepsFall, Slip::KeepOut, Slip::MemberTwice,
    Slip::MembersFall, Slip::MemberOut, Slip::Moats, Slip::Group, Slip::Survey, Slip::Byte, Slip::Stopped, Slip::Number, Slip::Line,
];

/// Where a moat line goes wrong: anywhere, or in the last one, or in the one that is too many.
fn moat_at(rng: &mut Rng, moats: usize) -> usize {
    let last = moats - 1;
    rng.pick(&[rng.clone().below(moats), last, last.min(MAX_RECORDS)])
}

/// Puts what is wrong with lines into them, if it is one of those.
fn slip_lines(rng: &mut Rng, lines: &mut Lines, m: usize, slip: Slip) {
    let (keeps, moats) = (lines.keeps.len(), lines.moats.len());
    match slip {
        Slip::Figures => {
            for figure in (0..3).filter(|_| rng.chance(2, 3)).collect::<Vec<_>>() {
                let value = &mut lines.figures[figure];
                *value = rng.pick(&[*value + 1, value.saturating_sub(1), *value + 1 + rng.clone().below(9) as u64]);
            }
        }
        Slip::KeepTwice if keeps > 0 => {
            let at = rng.below(keeps);
            lines.keeps.insert(at, lines.keeps[at]);
        }
        Slip::KeepsFall if keeps > 1 => {
            let at = rng.below(keeps - 1);
            lines.keeps.swap(at, at + 1);
        }
        Slip::KeepOut => lines.keeps.push(m + rng.pick(&[0, 0, 1, highest(ITEM_DIGITS) as usize - m])),
        Slip::MemberTwice | Slip::MembersFall | Slip::MemberOut if moats > 0 => {
            let at = moat_at(rng, moats);
            let members = &mut lines.moats[at].1;
            match slip {
                Slip::MemberTwice if !members.is_empty() => {
                    let one = rng.below(members.len());
                    members.insert(one, members[one]);
                }
                Slip::MembersFall if members.len() > 1 => {
                    let one = rng.below(members.len() - 1);
                    members.swap(one, one + 1);
                }
                Slip::MembersFall => members.extend([1, 0]),
                _ => members
                    .push(MAX_JUNCTIONS + rng.pick(&[0, 0, 1, 64, highest(ITEM_DIGITS) as usize - MAX_JUNCTIONS])),
            }
        }
        Slip::Moats => {
            let again = lines.moats.last().cloned().unwrap_or((1, vec![0]));
            lines.moats.resize(MAX_RECORDS + rng.between(1, 3), again);
        }
        Slip::Group => damage(rng, &mut lines.survey, Fault::GroupHigh),
        Slip::Survey => {
            let fault = rng.pick(READ_FAULTS);
            damage(rng, &mut lines.survey, fault);
        }
        _ => {}
    }
}

/// Puts what is wrong with bytes into a text, mostly into the plan, which begins at an offset.
fn slip_text(rng: &mut Rng, text: Vec<u8>, plan: usize, slip: Slip) -> Vec<u8> {
    if text.is_empty() {
        return text;
    }
    let from = if rng.chance(1, 8) { 0 } else { plan.min(text.len() - 1) };
    let at = rng.between(from, text.len() - 1);
    match slip {
        Slip::Byte => match rng.below(4) {
            0 => splice(&text, at, at + 1, &[rng.pick(&BYTES)]),
            1 => splice(&text, at, at + 1, &[]),
            2 => splice(&text, at, at, &[text[at]]),
            _ => splice(&text, at, at, &[rng.pick(&BYTES)]),
        },
        Slip::Stopped => text[..at].to_vec(),
        Slip::Number => {
            let runs: Vec<(usize, usize)> = numbers(&text).into_iter().filter(|run| run.0 >= from).collect();
            if runs.is_empty() {
                return text;
            }
            let (start, end) = rng.pick(&runs);
            match rng.below(4) {
                0 => splice(&text, start, start, b"0"),
                1 => {
                    let digits = rng.pick(&[ITEM_DIGITS, AMOUNT_DIGITS, FIGURE_DIGITS]) + rng.below(2);
                    splice(&text, start, end, "9".repeat(digits).as_bytes())
                }
                _ => splice(&text, start, end, rng.pick(&TOKENS).as_bytes()),
            }
        }
        Slip::Line => {
            let mut lines = lines(&text);
            let before = text[..from].iter().filter(|&&byte| byte == b'\n').count().min(lines.len() - 1);
            let [one, other] = [0; 2].map(|_| rng.between(before, lines.len() - 1));
            match rng.below(3) {
                0 => drop(lines.remove(one)),
                1 => lines.insert(other, lines[one].clone()),
                _ => lines.swap(one, other),
            }
            lines.concat()
        }
        _ => text,
    }
}

/// What a text can show of a damaged plan: numbers of no more digits than are read, kept tracks, whole moats.
fn shown(case: PlanCase) -> PlanCase {
    let PlanCase { mut survey, mut marks, mut records } = case;
    let m = survey.first.len();
    survey.second.resize(m, 0);
    survey.prices.resize(m, 0);
    for number in survey.first.iter_mut().chain(&mut survey.second).chain(&mut survey.owners) {
        *number = (*number).min(highest(END_DIGITS));
    }
    for price in &mut survey.prices {
        *price = (*price).min(highest(PRICE_DIGITS));
    }
    marks.resize(m, 0);
    records.truncate(records.len() / RECORD_BYTES * RECORD_BYTES);
    for record in records.chunks_exact_mut(RECORD_BYTES) {
        let least = amount(record).min(u64::from(highest(AMOUNT_DIGITS)));
        record[..8].copy_from_slice(&least.to_le_bytes());
    }
    PlanCase { survey, marks, records }
}

/// A survey's text with a printed plan behind it: first the directed ones, then for every seed its own. Half are
/// finished plans, half damaged ones of the checker's cases; then no slip, one or two.
pub fn plan_text_case(seed: u64, case: u64) -> Vec<u8> {
    if let Some(text) = directed_plan_texts().get(case as usize) {
        return text.clone();
    }
    let rng = &mut Rng::of_case(!seed, case);
    let PlanCase { survey, marks, records } = if rng.chance(1, 2) {
        let size = rng.pick(&[Size::Tiny, Size::Tiny, Size::Small, Size::Small, Size::Middle]);
        let (survey, plan) = planned(rng, size);
        PlanCase { survey, marks: plan.marks, records: plan.records }
    } else {
        shown(damaged_plan(seed, case).1)
    };
    let mut lines = Lines::of(&survey, &marks, &records, rng.below(300) as u64);
    let slips: Vec<Slip> = (0..rng.pick(&[0, 0, 1, 1, 1, 2, 2, 2])).map(|_| rng.pick(&SLIPS)).collect();
    for &slip in &slips {
        slip_lines(rng, &mut lines, survey.first.len(), slip);
    }
    let plan = lines.survey.len();
    slips.into_iter().fold(lines.text(), |text, slip| slip_text(rng, text, plan, slip))
}
