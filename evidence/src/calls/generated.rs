//! Generated calls: a sound input, two faults put into it, and lent buffers with any bytes in them, each from a stream
//! of its own.

pub mod merge;

use super::faults::*;
use super::{
    Figures, Library, CHECK_COUNTS, DROP_COUNTS, PLAN_COUNTS, PRINT_COUNTS, READ_COUNTS, SECOND, SHORT, STP_COUNTS,
    WHY_COUNTS,
};
use crate::closed::{MAX_CLOSED, ROW};
use crate::floor::{FLOOR_COUNTS, HALF_IS_MORE};
use crate::gen::{damage_stp, directed_stp, line, overlap, stp_file, survey, wanted, Rng, Size};
use crate::plan::{fast, owned, record_room, DROPPED, NOT_PICKED};
use crate::print::survey_text;
use crate::read::Lent;
use crate::stages::{grow, loop_at};
use crate::winter::{MAX_STRENGTH, STRENGTHS, WINTER_COUNTS};
use crate::{stp, Survey, View, AMOUNT_BYTES, MAX_JUNCTIONS, MAX_LINE, MAX_PAIRS, RECORD_BYTES};
use Fault::*;

/// What a call answers, and what its lent buffers then hold, with what stands behind each.
#[derive(Debug, PartialEq, Eq)]
pub struct Answer {
    pub code: u64,
    pub bytes: Vec<Vec<u8>>,
    pub words: Vec<Vec<u32>>,
    pub counts: Vec<u64>,
}

/// A call with all that it is lent.
pub trait Call {
    fn run(&self, library: &Library) -> Answer;
    fn says(&self) -> String;
}

/// An operation: its faults, the pairs of refusals that can be due in it, and its input of a case with two faults.
pub struct Operation {
    pub name: &'static str,
    pub faults: &'static [Fault],
    pub pairs: Pairs,
    input: fn(&Streams, [Fault; 2]) -> Box<dyn Call>,
}

/// The random numbers of a case: a stream for each part of an input, so that a fault alone is the same as beside
/// another.
struct Streams {
    seed: u64,
    case: u64,
}

impl Streams {
    fn of(&self, part: u64) -> Rng {
        Rng::of_case(self.seed ^ part << 32, self.case)
    }

    fn base(&self) -> Rng {
        self.of(0)
    }

    fn buffers(&self) -> Rng {
        self.of(1)
    }

    fn fault(&self, i: usize) -> Rng {
        self.of(2 + i as u64)
    }

    /// A sound survey, half of them with pairs: mostly small, in one case of 200 as large as can be.
    fn survey(&self, rng: &mut Rng) -> Survey {
        let mut survey = if is_full(self.case) { survey(rng, Size::Full) } else { small(rng) };
        if rng.chance(1, 2) {
            overlap(rng, &mut survey);
        }
        survey
    }
}

impl Operation {
    fn call(&self, seed: u64, case: u64, faults: [Fault; 2]) -> Box<dyn Call> {
        (self.input)(&Streams { seed, case }, faults)
    }

    /// Holds a library against the second implementation on one case: the refusal that came, or what differs.
    pub fn compare(&self, library: &Library, seed: u64, case: u64) -> Result<u64, String> {
        let faults = pair(self.faults, case);
        let call = self.call(seed, case, faults);
        let (ours, theirs) = (call.run(&SECOND), call.run(library));
        if ours != theirs {
            return Err(format!(
                "{} of {} with {faults:?}: the second implementation has {ours:?}, the library {theirs:?}",
                self.name,
                call.says()
            ));
        }
        Ok(ours.code % 256)
    }

    /// The refusals that each fault of a case brings alone, and that of both.
    pub fn due(&self, seed: u64, case: u64) -> [u64; 3] {
        let [one, other] = pair(self.faults, case);
        [[one, Nothing], [Nothing, other], [one, other]]
            .map(|faults| self.call(seed, case, faults).run(&SECOND).code % 256)
    }
}

fn bytes(rng: &mut Rng, length: usize) -> Vec<u8> {
    (0..length).map(|_| rng.word() as u8).collect()
}

fn words(rng: &mut Rng, length: usize) -> Vec<u32> {
    (0..length).map(|_| rng.word() as u32).collect()
}

/// A buffer's length for a need: short by one or more, or just enough, or longer.
fn room(rng: &mut Rng, need: usize, short: bool) -> usize {
    match (short, rng.below(3)) {
        (true, 0) => rng.below(need.max(1)).min(need.saturating_sub(1)),
        (true, _) => need.saturating_sub(1),
        (false, 0) => need + rng.between(1, 60),
        (false, _) => need,
    }
}

/// Any numbers in a buffer for so many counts, which has fewer entries where the counts are to be short.
fn counts(rng: &mut Rng, need: usize, faults: [Fault; 2]) -> Vec<u64> {
    let length = room(rng, need, faults.contains(&CountsShort));
    (0..length).map(|_| rng.word()).collect()
}

/// A sound survey of up to 40 junctions.
fn small(rng: &mut Rng) -> Survey {
    let size = rng.pick(&[Size::Tiny, Size::Tiny, Size::Small, Size::Middle]);
    survey(rng, size)
}

/// A buffer with some entries behind it that are not lent.
fn before_others<T: Copy>(buffer: &[T], other: T) -> Vec<T> {
    [buffer, &[other; 16]].concat()
}

struct Read {
    text: Vec<u8>,
    groups: Vec<u8>,
    first: Vec<u32>,
    second: Vec<u32>,
    prices: Vec<u32>,
    owners: Vec<u32>,
    others: Vec<u8>,
    counts: Vec<u64>,
}

impl Call for Read {
    fn run(&self, library: &Library) -> Answer {
        let [mut groups, mut others] = [&self.groups, &self.others].map(|buffer| before_others(buffer, 0xa5));
        let [mut first, mut second, mut prices, mut owners] =
            [&self.first, &self.second, &self.prices, &self.owners].map(|buffer| before_others(buffer, 0xa5a5));
        let mut counts = before_others(&self.counts, 0xa5a5);
        let lent = Lent {
            groups: &mut groups[..self.groups.len()],
            first: &mut first[..self.first.len()],
            second: &mut second[..self.second.len()],
            prices: &mut prices[..self.prices.len()],
            owners: &mut owners[..self.owners.len()],
            others: &mut others[..self.others.len()],
        };
        let code = (library.read)(&self.text, lent, &mut counts[..self.counts.len()]);
        Answer { code, bytes: vec![groups, others], words: vec![first, second, prices, owners], counts }
    }

    fn says(&self) -> String {
        format!("{:?}", String::from_utf8_lossy(&self.text))
    }
}

fn read_input(streams: &Streams, faults: [Fault; 2]) -> Box<dyn Call> {
    let survey = streams.survey(&mut streams.base());
    let (n, m, pairs) = (survey.groups.len(), survey.first.len(), survey.owners.len());
    let mut text = survey_text(&survey);
    for (i, fault) in faults.into_iter().enumerate() {
        damage(&mut streams.fault(i), &mut text, fault);
    }
    let rng = &mut streams.buffers();
    let groups = room(rng, n, faults.contains(&GroupsShort));
    let [first, second, prices] =
        [FirstShort, SecondShort, PricesShort].map(|fault| room(rng, m, faults.contains(&fault)));
    let pairs = if faults.contains(&AlsoMany) { MAX_PAIRS } else { pairs };
    let [owners, others] = [OwnersShort, OthersShort].map(|fault| room(rng, pairs, faults.contains(&fault)));
    Box::new(Read {
        text,
        groups: bytes(rng, groups),
        first: words(rng, first),
        second: words(rng, second),
        prices: words(rng, prices),
        owners: words(rng, owners),
        others: bytes(rng, others),
        counts: counts(rng, READ_COUNTS, faults),
    })
}

struct ReadStp {
    text: Vec<u8>,
    groups: Vec<u8>,
    first: Vec<u32>,
    second: Vec<u32>,
    prices: Vec<u32>,
    counts: Vec<u64>,
}

impl Call for ReadStp {
    fn run(&self, library: &Library) -> Answer {
        let mut groups = before_others(&self.groups, 0xa5);
        let [mut first, mut second, mut prices] =
            [&self.first, &self.second, &self.prices].map(|buffer| before_others(buffer, 0xa5a5));
        let mut counts = before_others(&self.counts, 0xa5a5);
        let lent = stp::Lent {
            groups: &mut groups[..self.groups.len()],
            first: &mut first[..self.first.len()],
            second: &mut second[..self.second.len()],
            prices: &mut prices[..self.prices.len()],
        };
        let code = (library.read_stp)(&self.text, lent, &mut counts[..self.counts.len()]);
        Answer { code, bytes: vec![groups], words: vec![first, second, prices], counts }
    }

    fn says(&self) -> String {
        self.text.escape_ascii().to_string()
    }
}

/// The directed files come where no fault is put in, one after the other, whatever the seed.
fn read_stp_input(streams: &Streams, faults: [Fault; 2]) -> Box<dyn Call> {
    let directed = directed_stp().get(streams.case as usize / 4).filter(|_| streams.case % 4 == 3);
    let rng = &mut streams.base();
    let (mut text, n, m) = match directed {
        Some(text) => {
            let (n, m) = wanted(rng, text);
            (text.clone(), n, m)
        }
        None => stp_file(rng),
    };
    for (i, fault) in faults.into_iter().enumerate() {
        damage_stp(&mut streams.fault(i), &mut text, fault);
    }
    let rng = &mut streams.buffers();
    let groups = room(rng, n, faults.contains(&GroupsShort));
    let [first, second, prices] =
        [FirstShort, SecondShort, PricesShort].map(|fault| room(rng, m, faults.contains(&fault)));
    Box::new(ReadStp {
        text,
        groups: bytes(rng, groups),
        first: words(rng, first),
        second: words(rng, second),
        prices: words(rng, prices),
        counts: counts(rng, STP_COUNTS, faults),
    })
}

/// Planning, or growing.
struct Draw {
    survey: Survey,
    marks: Vec<u8>,
    records: Vec<u8>,
    counts: Vec<u64>,
    with: fn(&Library) -> Drawing,
}

type Drawing = fn(View, &mut [u8], &mut [u8], &mut [u64]) -> u64;

impl Call for Draw {
    fn run(&self, library: &Library) -> Answer {
        let [mut marks, mut records] = [&self.marks, &self.records].map(|buffer| before_others(buffer, 0xa5));
        let mut counts = before_others(&self.counts, 0xa5a5);
        let code = (self.with)(library)(
            self.survey.view(),
            &mut marks[..self.marks.len()],
            &mut records[..self.records.len()],
            &mut counts[..self.counts.len()],
        );
        Answer { code, bytes: vec![marks, records], words: Vec::new(), counts }
    }

    fn says(&self) -> String {
        format!("{:?}", self.survey)
    }
}

fn plan_input(streams: &Streams, faults: [Fault; 2]) -> Box<dyn Call> {
    drawing(streams, faults, |library| library.plan)
}

fn grow_input(streams: &Streams, faults: [Fault; 2]) -> Box<dyn Call> {
    drawing(streams, faults, |library| library.grow)
}

fn drawing(streams: &Streams, faults: [Fault; 2], with: fn(&Library) -> Drawing) -> Box<dyn Call> {
    let mut survey = streams.survey(&mut streams.base());
    for (i, fault) in faults.into_iter().enumerate() {
        harm(&mut streams.fault(i), &mut survey, fault);
    }
    let rng = &mut streams.buffers();
    let marks = room(rng, survey.first.len(), faults.contains(&MarksShort));
    let records = room(rng, record_room(survey.groups.len().max(1)), faults.contains(&RecordsShort));
    Box::new(Draw {
        survey,
        marks: bytes(rng, marks),
        records: bytes(rng, records),
        counts: counts(rng, PLAN_COUNTS, faults),
        with,
    })
}

/// Dropping: marks as growing leaves them, or altered by hand.
struct Drop {
    survey: Survey,
    marks: Vec<u8>,
    counts: Vec<u64>,
}

impl Call for Drop {
    fn run(&self, library: &Library) -> Answer {
        let (mut marks, mut counts) = (before_others(&self.marks, 0xa5), before_others(&self.counts, 0xa5a5));
        let lent = &mut marks[..self.marks.len()];
        let code = (library.drop)(self.survey.view(), lent, &mut counts[..self.counts.len()]);
        Answer { code, bytes: vec![marks], words: Vec::new(), counts }
    }

    fn says(&self) -> String {
        format!("{:?} {:?}", self.survey, self.marks)
    }
}

/// A forest of picked tracks that links whatever can be linked, in any order of the tracks: spare ones among them.
fn forest(rng: &mut Rng, survey: &Survey) -> Vec<u8> {
    let mut order: Vec<usize> = (0..survey.first.len()).collect();
    rng.shuffle(&mut order);
    let mut marks = vec![NOT_PICKED; order.len()];
    for t in order {
        let component = survey.view().components(|other| marks[other] == DROPPED);
        if component[survey.first[t] as usize] != component[survey.second[t] as usize] {
            marks[t] = DROPPED;
        }
    }
    marks
}

fn drop_input(streams: &Streams, faults: [Fault; 2]) -> Box<dyn Call> {
    let rng = &mut streams.base();
    let mut survey = streams.survey(rng);
    let mut marks = match owned(grow, survey.view()) {
        Ok(plan) if rng.chance(2, 3) => plan.marks,
        _ => forest(rng, &survey),
    };
    if rng.chance(1, 4) && !marks.is_empty() {
        // By hand: a track more, or one less.
        let track = rng.below(marks.len());
        marks[track] = 1 - marks[track];
        if loop_at(survey.view(), &marks).is_some() && rng.chance(2, 3) {
            marks[track] = 1 - marks[track];
        }
    }
    for (i, fault) in faults.into_iter().enumerate() {
        let rng = &mut streams.fault(i);
        remark(rng, &mut survey, &mut marks, fault);
        harm(rng, &mut survey, fault);
    }
    let counts = counts(&mut streams.buffers(), DROP_COUNTS, faults);
    Box::new(Drop { survey, marks, counts })
}

/// Why: one track, or every track of a survey in turn, each with the buffers as they were.
struct Why {
    survey: Survey,
    tracks: Vec<u32>,
    route: Vec<u32>,
    counts: Vec<u64>,
}

impl Call for Why {
    fn run(&self, library: &Library) -> Answer {
        let mut answer = Answer { code: 0, bytes: Vec::new(), words: Vec::new(), counts: Vec::new() };
        for &track in &self.tracks {
            let (mut route, mut counts) = (before_others(&self.route, 0xa5a5), before_others(&self.counts, 0xa5a5));
            let lent = &mut route[..self.route.len()];
            answer.code = (library.why)(self.survey.view(), track, lent, &mut counts[..self.counts.len()]);
            answer.words.push(route);
            answer.counts.push(answer.code);
            answer.counts.extend(counts);
        }
        answer
    }

    fn says(&self) -> String {
        format!("{:?} {:?}", self.survey, self.tracks)
    }
}

fn why_input(streams: &Streams, faults: [Fault; 2]) -> Box<dyn Call> {
    let rng = &mut streams.base();
    let mut survey = match rng.below(1_000) {
        0 => survey(rng, Size::Large),
        1 => line(rng, MAX_JUNCTIONS),
        2..10 => line(rng, 100),
        10..30 => line(rng, 1),
        _ => streams.survey(rng),
    };
    let m = survey.first.len();
    let mut tracks = vec![rng.below(m.max(1)) as u32];
    if faults == [Nothing; 2] && (1..=30).contains(&m) {
        tracks = (0..m as u32).collect();
    }
    for (i, fault) in faults.into_iter().enumerate() {
        let rng = &mut streams.fault(i);
        harm(rng, &mut survey, fault);
        if fault == TrackOut {
            tracks = vec![rng.pick(&[m as u32, m as u32, m as u32 + 1, m as u32 + 256, 1 << 24, u32::MAX])];
        }
    }
    let rng = &mut streams.buffers();
    let route = room(rng, survey.groups.len().saturating_sub(1), faults.contains(&RouteShort));
    Box::new(Why { survey, tracks, route: words(rng, route), counts: counts(rng, WHY_COUNTS, faults) })
}

/// Closed tracks: a list of them, in any order and more than once.
struct Closed {
    survey: Survey,
    tracks: Vec<u32>,
    result: Vec<u64>,
}

impl Call for Closed {
    fn run(&self, library: &Library) -> Answer {
        let mut result = before_others(&self.result, 0xa5a5);
        let code = (library.closed)(self.survey.view(), &self.tracks, &mut result[..self.result.len()]);
        Answer { code, bytes: Vec::new(), words: Vec::new(), counts: result }
    }

    fn says(&self) -> String {
        format!("{:?} {:?}", self.survey, self.tracks)
    }
}

fn closed_input(streams: &Streams, faults: [Fault; 2]) -> Box<dyn Call> {
    let rng = &mut streams.base();
    let mut survey = match rng.below(2_000) {
        0 => survey(rng, Size::Large),
        1..5 => line(rng, 40),
        5..30 => line(rng, 1),
        _ => streams.survey(rng),
    };
    let m = survey.first.len();
    let large = m > 200;
    let mut tracks: Vec<u32> = match rng.below(16) {
        0 => Vec::new(),
        1 if !large => (0..MAX_CLOSED as u32).map(|i| i % 12 % m.max(1) as u32).collect(),
        2..8 if m <= 40 => (0..m as u32).collect(),
        _ => (0..rng.between(1, 8)).map(|_| rng.below(m.max(1)) as u32).collect(),
    };
    for (i, fault) in faults.into_iter().enumerate() {
        let rng = &mut streams.fault(i);
        harm(rng, &mut survey, fault);
        match fault {
            TrackOut => {
                let out = rng.pick(&[m as u32, m as u32, m as u32 + 1, m as u32 + 256, 1 << 24, u32::MAX]);
                let at = rng.below(tracks.len() + 1);
                tracks.insert(at, out);
                tracks.truncate(MAX_CLOSED);
            }
            TracksMany => tracks.resize(MAX_CLOSED + rng.between(1, 3), 0),
            CountsShort => tracks.resize(tracks.len().max(1), 0),
            _ => {}
        }
    }
    let result = counts(&mut streams.buffers(), ROW * tracks.len(), faults);
    Box::new(Closed { survey, tracks, result })
}

/// Winter: a survey and a strength for each group.
struct Winter {
    survey: Survey,
    strengths: Vec<u8>,
    copies: Vec<u8>,
    counts: Vec<u64>,
}

impl Call for Winter {
    fn run(&self, library: &Library) -> Answer {
        let (mut copies, mut counts) = (before_others(&self.copies, 0xa5), before_others(&self.counts, 0xa5a5));
        let (lent, own) = (&mut copies[..self.copies.len()], &mut counts[..self.counts.len()]);
        let code = (library.winter)(self.survey.view(), &self.strengths, lent, own);
        Answer { code, bytes: vec![copies], words: Vec::new(), counts }
    }

    fn says(&self) -> String {
        format!("{:?} {:?}", self.survey, self.strengths)
    }
}

/// Strengths of any kind: all alike, single bits, low ones, or any.
pub fn any_strengths(rng: &mut Rng) -> Vec<u8> {
    let most = usize::from(MAX_STRENGTH);
    let alike = rng.pick(&[1, 1, 2, 8, MAX_STRENGTH]);
    let kind = rng.below(4);
    let strength = |rng: &mut Rng| match kind {
        0 => alike,
        1 => 1 << rng.below(4),
        2 => rng.between(1, 3) as u8,
        _ => rng.between(1, most) as u8,
    };
    (0..STRENGTHS).map(|_| strength(rng)).collect()
}

fn winter_input(streams: &Streams, faults: [Fault; 2]) -> Box<dyn Call> {
    let rng = &mut streams.base();
    let mut survey = streams.survey(rng);
    let mut strengths = any_strengths(rng);
    for (i, fault) in faults.into_iter().enumerate() {
        let rng = &mut streams.fault(i);
        weaken(rng, &survey, &mut strengths, fault);
        harm(rng, &mut survey, fault);
    }
    let rng = &mut streams.buffers();
    let copies = room(rng, survey.first.len(), faults.contains(&CopiesShort));
    Box::new(Winter { survey, strengths, copies: bytes(rng, copies), counts: counts(rng, WINTER_COUNTS, faults) })
}

struct Check {
    survey: Survey,
    marks: Vec<u8>,
    records: Vec<u8>,
    counts: Vec<u64>,
}

impl Call for Check {
    fn run(&self, library: &Library) -> Answer {
        let mut counts = before_others(&self.counts, 0xa5a5);
        let lent = &mut counts[..self.counts.len()];
        let code = (library.check)(self.survey.view(), &self.marks, &self.records, lent);
        Answer { code, bytes: Vec::new(), words: Vec::new(), counts }
    }

    fn says(&self) -> String {
        format!("{:?} {:?} {:?}", self.survey, self.marks, self.records)
    }
}

fn check_input(streams: &Streams, faults: [Fault; 2]) -> Box<dyn Call> {
    let mut survey = streams.survey(&mut streams.base());
    let (mut marks, mut records) = match owned(fast, survey.view()) {
        Ok(plan) => (plan.marks, plan.records),
        Err(_) => (vec![0; survey.first.len()], Vec::new()),
    };
    for (i, fault) in faults.into_iter().enumerate() {
        let rng = &mut streams.fault(i);
        spoil(rng, &survey, &mut marks, &mut records, fault);
        harm(rng, &mut survey, fault);
    }
    let counts = counts(&mut streams.buffers(), CHECK_COUNTS, faults);
    Box::new(Check { survey, marks, records, counts })
}

/// The floor of a survey.
struct Floor {
    survey: Survey,
    counts: Vec<u64>,
}

impl Call for Floor {
    fn run(&self, library: &Library) -> Answer {
        let mut counts = before_others(&self.counts, 0xa5a5);
        let code = (library.floor)(self.survey.view(), &mut counts[..self.counts.len()]);
        Answer { code, bytes: Vec::new(), words: Vec::new(), counts }
    }

    fn says(&self) -> String {
        format!("{:?}", self.survey)
    }
}

fn floor_input(streams: &Streams, faults: [Fault; 2]) -> Box<dyn Call> {
    let rng = &mut streams.base();
    let mut survey = streams.survey(rng);
    if rng.chance(1, 32) {
        let ((groups, tracks), times) = (rng.pick(&HALF_IS_MORE), rng.pick(&[1, 2, 3, 1_000_001]));
        survey = Survey::new(groups, tracks);
        survey.prices.iter_mut().for_each(|price| *price *= times);
    }
    for (i, fault) in faults.into_iter().enumerate() {
        harm(&mut streams.fault(i), &mut survey, fault);
    }
    Box::new(Floor { survey, counts: counts(&mut streams.buffers(), FLOOR_COUNTS, faults) })
}

/// A call that prints, with the buffer for its text.
struct Print<T> {
    what: T,
    out: Vec<u8>,
    counts: Vec<u64>,
    with: fn(&Library, &T, &mut [u8], &mut [u64]) -> u64,
}

impl<T: std::fmt::Debug> Call for Print<T> {
    fn run(&self, library: &Library) -> Answer {
        let (mut out, mut counts) = (before_others(&self.out, 0xa5), before_others(&self.counts, 0xa5a5));
        let code = (self.with)(library, &self.what, &mut out[..self.out.len()], &mut counts[..self.counts.len()]);
        Answer { code, bytes: vec![out], words: Vec::new(), counts }
    }

    fn says(&self) -> String {
        format!("{:?}", self.what)
    }
}

/// The bytes that the second implementation wants for a text.
fn need<T>(what: &T, with: fn(&Library, &T, &mut [u8], &mut [u64]) -> u64) -> usize {
    let (mut out, mut length) = (vec![0; MAX_LINE], [0]);
    while with(&SECOND, what, &mut out, &mut length) == SHORT {
        out.resize(4 * out.len(), 0);
    }
    length[0] as usize
}

/// Puts the buffers to it: `need` is that of the text without a fault.
fn print<T: std::fmt::Debug + 'static>(
    streams: &Streams,
    faults: [Fault; 2],
    need: usize,
    what: T,
    with: fn(&Library, &T, &mut [u8], &mut [u64]) -> u64,
) -> Box<dyn Call> {
    let rng = &mut streams.buffers();
    let out = room(rng, need, faults.contains(&OutShort));
    Box::new(Print { what, out: bytes(rng, out), counts: counts(rng, PRINT_COUNTS, faults), with })
}

/// A record of any amount and members: none, all, any, and small amounts.
fn any_record(rng: &mut Rng) -> Vec<u8> {
    let mut record = bytes(rng, RECORD_BYTES);
    match rng.below(4) {
        0 => record[AMOUNT_BYTES..].fill(0),
        1 => record[AMOUNT_BYTES..].fill(0xff),
        2 => record[4..AMOUNT_BYTES].fill(0),
        _ => {}
    }
    record
}

fn print_moat_input(streams: &Streams, faults: [Fault; 2]) -> Box<dyn Call> {
    let with = |library: &Library, record: &Vec<u8>, out: &mut [u8], counts: &mut [u64]| {
        (library.print_moat)(record, out, counts)
    };
    let mut record = any_record(&mut streams.base());
    let need = need(&record, with);
    if faults.contains(&RecordLength) {
        let length = streams.fault(0).pick(&[0, 1, RECORD_BYTES - 1, RECORD_BYTES + 1, 2 * RECORD_BYTES]);
        record.resize(length, 1);
    }
    print(streams, faults, need, record, with)
}

fn print_plan_input(streams: &Streams, faults: [Fault; 2]) -> Box<dyn Call> {
    type Lent = (Figures, Vec<u8>, Vec<u8>);
    let with = |library: &Library, (figures, marks, records): &Lent, out: &mut [u8], counts: &mut [u64]| {
        (library.print_plan)(*figures, marks, records, out, counts)
    };
    let rng = &mut streams.base();
    let figures = [0; 4].map(|_: u64| rng.word() >> rng.below(64));
    let marks = (0..rng.below(60)).map(|_| rng.pick(&[0, 1, 2, 2, 3, 255])).collect();
    let mut records: Vec<u8> = (0..rng.below(6)).flat_map(|_| any_record(rng)).collect();
    if rng.chance(1, 8) {
        // What is no whole record is no line.
        records.truncate(records.len().saturating_sub(rng.between(1, RECORD_BYTES - 1)));
    }
    let lent = (figures, marks, records);
    print(streams, faults, need(&lent, with), lent, with)
}

fn print_survey_input(streams: &Streams, faults: [Fault; 2]) -> Box<dyn Call> {
    let with = |library: &Library, survey: &Survey, out: &mut [u8], counts: &mut [u64]| {
        (library.print_survey)(survey.view(), out, counts)
    };
    let rng = &mut streams.base();
    let mut survey = streams.survey(rng);
    if rng.chance(1, 3) {
        // Printing looks at lengths alone.
        for buffer in [&mut survey.first, &mut survey.second, &mut survey.prices, &mut survey.owners] {
            *buffer = words(rng, buffer.len());
        }
        survey.others = bytes(rng, survey.others.len());
    }
    if rng.chance(1, 16) {
        survey.groups.resize(MAX_JUNCTIONS + 44, 7);
        survey.owners.resize(MAX_PAIRS + 44, 3);
        survey.others.resize(MAX_PAIRS + 44, 3);
    }
    let need = need(&survey, with);
    for (i, fault) in faults.into_iter().enumerate() {
        harm(&mut streams.fault(i), &mut survey, fault);
    }
    print(streams, faults, need, survey, with)
}

pub const OPERATIONS: &[Operation] = &[
    Operation { name: "read", faults: READ_FAULTS, pairs: READ_PAIRS, input: read_input },
    Operation { name: "read_stp", faults: STP_FAULTS, pairs: STP_PAIRS, input: read_stp_input },
    Operation { name: "plan", faults: PLAN_FAULTS, pairs: PLAN_PAIRS, input: plan_input },
    Operation { name: "check", faults: CHECK_FAULTS, pairs: CHECK_PAIRS, input: check_input },
    Operation { name: "grow", faults: PLAN_FAULTS, pairs: PLAN_PAIRS, input: grow_input },
    Operation { name: "drop", faults: DROP_FAULTS, pairs: DROP_PAIRS, input: drop_input },
    Operation { name: "winter", faults: WINTER_FAULTS, pairs: WINTER_PAIRS, input: winter_input },
    Operation { name: "why", faults: WHY_FAULTS, pairs: WHY_PAIRS, input: why_input },
    Operation { name: "closed", faults: CLOSED_FAULTS, pairs: CLOSED_PAIRS, input: closed_input },
    Operation { name: "floor", faults: FLOOR_FAULTS, pairs: FLOOR_PAIRS, input: floor_input },
    Operation { name: "print_moat", faults: PRINT_MOAT_FAULTS, pairs: PRINT_MOAT_PAIRS, input: print_moat_input },
    Operation { name: "print_plan", faults: PRINT_PLAN_FAULTS, pairs: PRINT_PLAN_PAIRS, input: print_plan_input },
    Operation {
        name: "print_survey",
        faults: PRINT_SURVEY_FAULTS,
        pairs: PRINT_SURVEY_PAIRS,
        input: print_survey_input,
    },
    Operation { name: "merge", faults: MERGE_FAULTS, pairs: MERGE_PAIRS, input: merge::input },
];
