//! Foamsickle from Rust: slices in, an enum out.
//!
//! Build the library first (`tools/build foamsickle`), then
//!
//! ```
//! let survey = foamsickle::Survey::new(&[1, 1], &[0], &[1], &[5])?;
//! let plan = foamsickle::plan(&survey)?;
//! assert_eq!(plan.kept().collect::<Vec<_>>(), [0]);
//! # Ok::<(), foamsickle::Refusal>(())
//! ```
//!
//! A `Survey` has had its lengths tested, and what an operation writes is sized here, so that the refusals of short
//! buffers never come; whoever lends buffers of his own uses `call`, which tests nothing beforehand.

pub mod call;

use call::{Buffers, Slices};
use std::fmt;

/// The limits of include/foamsickle.h.
pub const MAX_VERTICES: usize = 448;
pub const MAX_EDGES: usize = 2_048;
pub const MAX_PAIRS: usize = 256;
pub const RECORD_BYTES: usize = 64;
pub const DUAL_ROOM: usize = 2_048;
pub const MAX_CLOSED: usize = 256;
pub const STRENGTHS: usize = 255;
pub const MAX_STRENGTH: u8 = 15;
pub const REPORT_BYTES: usize = 208;
pub const REPORT_ROOM: usize = 747;

/// Entries of the counts of each operation.
pub const READ_FIGURES: usize = 3;
pub const STP_FIGURES: usize = 2;
pub const PLAN_FIGURES: usize = 5;
pub const DROP_FIGURES: usize = 2;
pub const WHY_FIGURES: usize = 6;
pub const ROW_FIGURES: usize = 4;
pub const WINTER_FIGURES: usize = 1;
pub const MERGE_FIGURES: usize = 3;
pub const CHECK_FIGURES: usize = 3;
pub const PRINT_FIGURES: usize = 1;
pub const FLOOR_FIGURES: usize = 4;

/// Why an operation refused; the field is the place.
#[derive(Clone, Copy, Debug, PartialEq, Eq)]
pub enum Refusal {
    /// 1: no junction, or too many
    VertexCount,
    /// 2: slices that are read side by side differ in length
    Lengths,
    /// 3: too many tracks
    EdgeCount,
    /// 4: an end of this track is no junction
    Endpoint(u64),
    /// 5: both ends of this track are one
    SameEndpoints(u64),
    /// 6: the price of this track is too high
    Weight(u64),
    /// 7: a buffer to be written is too short
    Short,
    /// 8: no set of tracks joins this group
    Unjoinable(u64),
    /// 9: marks or records of a wrong length
    Shape,
    /// 10: the mark of this track is above 2
    Mark(u64),
    /// 11: amount or members of this record are out of range
    Dual(u64),
    /// 12: this moat parts no group
    Separation(u64),
    /// 13: the moats over this track are too heavy
    Load(u64),
    /// 14: the kept tracks leave this group apart
    Unjoined(u64),
    /// 15: the cost is more than the moats prove
    Accuracy,
    /// 16: the text is malformed from this byte on
    Malformed(u64),
    /// 17: the group of this junction is over 255
    Group(u64),
    /// 18: this pair
    Pair(u64),
    /// 19: there is no track of this number
    Track(u64),
    /// 20: the STP file is malformed from this byte on
    MalformedStp(u64),
    /// 21: this picked track closes a loop with picked tracks of lower number
    Loop(u64),
    /// 22: this tie is out of range, or names a junction that is tied already
    Tie(u64),
    /// 23: a table is not whole tracks
    PartOfTrack,
    /// 24: the strength of this group is 0 or over 15; of group 0: the strengths are not 255
    Strength(u64),
    /// any other number and its place, as of a printed plan: 25 to 28
    Other(u8, u64),
}

impl Refusal {
    /// The refusal that an answer other than 0 tells.
    pub fn from_answer(answer: u64) -> Refusal {
        use Refusal::*;
        let place = answer / 256;
        match answer % 256 {
            1 => VertexCount,
            2 => Lengths,
            3 => EdgeCount,
            4 => Endpoint(place),
            5 => SameEndpoints(place),
            6 => Weight(place),
            7 => Short,
            8 => Unjoinable(place),
            9 => Shape,
            10 => Mark(place),
            11 => Dual(place),
            12 => Separation(place),
            13 => Load(place),
            14 => Unjoined(place),
            15 => Accuracy,
            16 => Malformed(place),
            17 => Group(place),
            18 => Pair(place),
            19 => Track(place),
            20 => MalformedStp(place),
            21 => Loop(place),
            22 => Tie(place),
            23 => PartOfTrack,
            24 => Strength(place),
            number => Other(number as u8, place),
        }
    }
}

/// The words of `foamsickle_words` in foamsickle_survey.h.
impl fmt::Display for Refusal {
    fn fmt(&self, f: &mut fmt::Formatter) -> fmt::Result {
        use Refusal::*;
        match *self {
            VertexCount => write!(f, "the survey has no junction, or more than the limit"),
            Lengths => write!(f, "slices that are read side by side differ in length"),
            EdgeCount => write!(f, "the survey has more tracks than the limit"),
            Endpoint(track) => write!(f, "track {track} has an end that is no junction"),
            SameEndpoints(track) => write!(f, "track {track} leads from a junction to itself"),
            Weight(track) => write!(f, "the price of track {track} is over the limit"),
            Short => write!(f, "a buffer to be written is too short"),
            Unjoinable(group) => write!(f, "no set of tracks joins the members of group {group}"),
            Shape => write!(f, "marks or records have a wrong length"),
            Mark(track) => write!(f, "the mark of track {track} is over the limit"),
            Dual(moat) => write!(f, "the amount of moat {moat} is 0 or over the limit, or a member is no junction"),
            Separation(moat) => write!(f, "moat {moat} has no group's members on both sides"),
            Load(track) => write!(f, "the moats over track {track} are more than twice its price"),
            Unjoined(group) => write!(f, "the kept tracks do not join the members of group {group}"),
            Accuracy => write!(f, "the plan costs more than its moats allow for its number of sites"),
            Malformed(byte) => write!(f, "the text is malformed at byte {byte}"),
            Group(vertex) => write!(f, "the group of junction {vertex} is over the limit"),
            Pair(pair) => {
                write!(f, "pair {pair} does not rise, or names no junction, no group or the junction's own group")
            }
            Track(track) => write!(f, "there is no track {track}"),
            MalformedStp(byte) => write!(f, "the STP text is malformed at byte {byte}"),
            Loop(track) => write!(f, "track {track} closes a loop with picked tracks of lower number"),
            Tie(tie) => write!(f, "tie {tie} is out of range, or names a junction that is tied already"),
            PartOfTrack => write!(f, "the table is not whole tracks of twelve bytes"),
            Strength(group) => {
                write!(f, "the strength of group {group} is 0 or over 15, or there are not 255")
            }
            Other(25, place) => {
                write!(
                    f,
                    "the plan's {} is not what the checker finds",
                    ["sites", "cost", "bound"][place.min(2) as usize]
                )
            }
            Other(26, line) => write!(f, "keep line {line} names no track, or does not rise"),
            Other(27, line) => {
                write!(f, "moat line {line} has a member that is over the limit, or members that do not rise")
            }
            Other(28, line) => write!(f, "moat line {line} is one too many"),
            Other(number, place) => write!(f, "refused with {number} at {place}"),
        }
    }
}

impl std::error::Error for Refusal {}

/// An answer of 0 is `Ok`.
fn answered(answer: u64) -> Result<(), Refusal> {
    match answer {
        0 => Ok(()),
        _ => Err(Refusal::from_answer(answer)),
    }
}

/// A survey whose slices fit together: neither 1, 2 nor 3 comes.
#[derive(Clone, Copy, Debug)]
pub struct Survey<'a>(Slices<'a>);

impl<'a> Survey<'a> {
    /// A survey without pairs.
    pub fn new(
        groups: &'a [u8],
        firsts: &'a [u32],
        seconds: &'a [u32],
        weights: &'a [u32],
    ) -> Result<Survey<'a>, Refusal> {
        Survey::with_pairs(groups, firsts, seconds, weights, &[], &[])
    }

    /// A survey in which junction owners[i] belongs to group others[i] besides its own.
    pub fn with_pairs(
        groups: &'a [u8],
        firsts: &'a [u32],
        seconds: &'a [u32],
        weights: &'a [u32],
        owners: &'a [u32],
        others: &'a [u8],
    ) -> Result<Survey<'a>, Refusal> {
        if groups.is_empty() || groups.len() > MAX_VERTICES {
            return Err(Refusal::VertexCount);
        }
        if seconds.len() != firsts.len() || weights.len() != firsts.len() || owners.len() != others.len() {
            return Err(Refusal::Lengths);
        }
        if firsts.len() > MAX_EDGES {
            return Err(Refusal::EdgeCount);
        }
        Ok(Survey(Slices { groups, firsts, seconds, weights, owners, others }))
    }

    pub fn slices(&self) -> Slices<'a> {
        self.0
    }
}

/// What was found of a plan: sites, the cost of the kept tracks, and the bound in half price units.
#[derive(Clone, Copy, Debug, PartialEq, Eq)]
pub struct Found {
    pub sites: u64,
    pub cost: u64,
    pub bound: u64,
}

/// A finished plan: what it is worth, its rounds, a mark for each track (2 is kept), and its moat records.
#[derive(Clone, Debug, PartialEq, Eq)]
pub struct Plan {
    pub found: Found,
    pub rounds: u64,
    pub marks: Vec<u8>,
    pub records: Vec<u8>,
}

impl Plan {
    /// The numbers of the kept tracks, rising.
    pub fn kept(&self) -> impl Iterator<Item = usize> + '_ {
        self.marks.iter().enumerate().filter(|(_, &mark)| mark == 2).map(|(edge, _)| edge)
    }
}

/// Plans a survey.
pub fn plan(survey: &Survey) -> Result<Plan, Refusal> {
    planned(survey, call::plan)
}

/// Planning or growing in buffers of its own.
fn planned(survey: &Survey, call: impl Fn(Slices, &mut [u8], &mut [u8], &mut [u64]) -> u64) -> Result<Plan, Refusal> {
    let slices = survey.slices();
    let mut marks = vec![0; slices.firsts.len()];
    let mut records = vec![0; RECORD_BYTES * (2 * slices.groups.len() - 1)];
    let mut counts = [0; PLAN_FIGURES];
    answered(call(slices, &mut marks, &mut records, &mut counts))?;
    let [sites, cost, bound, rounds, moats] = counts;
    records.truncate(RECORD_BYTES * moats as usize);
    Ok(Plan { found: Found { sites, cost, bound }, rounds, marks, records })
}

/// Checks marks and moat records against a survey.
pub fn check(survey: &Survey, marks: &[u8], records: &[u8]) -> Result<Found, Refusal> {
    let mut counts = [0; CHECK_FIGURES];
    answered(call::check(survey.slices(), marks, records, &mut counts))?;
    let [sites, cost, bound] = counts;
    Ok(Found { sites, cost, bound })
}

/// Grows without dropping: the picked tracks are marked 1, and the cost is 0.
pub fn grow(survey: &Survey) -> Result<Plan, Refusal> {
    planned(survey, call::grow)
}

/// Drops, of the tracks marked 1, those that no group needs: the others are marked 2. Sites and what these cost.
pub fn drop_unneeded(survey: &Survey, marks: &mut [u8]) -> Result<(u64, u64), Refusal> {
    let mut counts = [0; DROP_FIGURES];
    answered(call::drop(survey.slices(), marks, &mut counts))?;
    let [sites, cost] = counts;
    Ok((sites, cost))
}

/// Why a track has its mark.
#[derive(Clone, Debug, PartialEq, Eq)]
pub enum Reason {
    /// Kept: without it these two members of this group are parted; the kept tracks between them, from the first.
    Kept { group: u64, smaller: u64, larger: u64, route: Vec<u32> },
    /// Picked and dropped: no group needs it.
    Dropped,
    /// Not picked: its ends were joined after this round, from 1, or never.
    Unpicked { round: Option<u64> },
}

/// Says why a track has the mark that planning gives it.
pub fn why(survey: &Survey, track: u32) -> Result<Reason, Refusal> {
    let slices = survey.slices();
    let mut route = vec![0; slices.groups.len() - 1];
    let mut counts = [0; WHY_FIGURES];
    answered(call::why(slices, track, &mut route, &mut counts))?;
    let [mark, group, smaller, larger, entries, round] = counts;
    route.truncate(entries as usize);
    Ok(match mark {
        2 => Reason::Kept { group, smaller, larger, route },
        1 => Reason::Dropped,
        _ => Reason::Unpicked { round: (round > 0).then_some(round) },
    })
}

/// Cost and bound of the plan with one track closed, or why there is none, for each track: in list order, and in calls of
/// at most `MAX_CLOSED`, which change nothing.
pub fn closed(survey: &Survey, tracks: &[u32]) -> Result<Vec<Result<(u64, u64), Refusal>>, Refusal> {
    let mut rows = Vec::with_capacity(tracks.len());
    for part in tracks.chunks(MAX_CLOSED) {
        let mut result = vec![0; ROW_FIGURES * part.len()];
        answered(call::closed(survey.slices(), part, &mut result))?;
        rows.extend(result.chunks(ROW_FIGURES).map(|row| answered(row[0] + 256 * row[1]).map(|()| (row[2], row[3]))));
    }
    Ok(rows)
}

/// How often each track is copied so that every division of a group is crossed by its strength of copies, and what the
/// copies cost. The strength of group 1 stands first.
pub fn winter(survey: &Survey, strengths: &[u8; STRENGTHS]) -> Result<(Vec<u8>, u64), Refusal> {
    let mut copies = vec![0; survey.slices().firsts.len()];
    let mut counts = [0; WINTER_FIGURES];
    answered(call::winter(survey.slices(), strengths, &mut copies, &mut counts))?;
    Ok((copies, counts[0]))
}

/// A floor under every set of tracks that joins every group, with the plan's figures.
#[derive(Clone, Copy, Debug, PartialEq, Eq)]
pub struct Floor {
    /// No set of tracks that joins every group costs less.
    pub floor: u64,
    pub sites: u64,
    pub cost: u64,
    /// In half units.
    pub bound: u64,
}

impl Floor {
    /// No set of tracks that joins every group costs less than the plan.
    pub fn cheapest(&self) -> bool {
        self.floor == self.cost
    }
}

/// Finds the floor of a survey.
pub fn floor(survey: &Survey) -> Result<Floor, Refusal> {
    let mut counts = [0; FLOOR_FIGURES];
    answered(call::floor(survey.slices(), &mut counts))?;
    let [floor, sites, cost, bound] = counts;
    Ok(Floor { floor, sites, cost, bound })
}

/// A survey that was read: groups, first ends, second ends and prices, and the pairs.
#[derive(Clone, Debug, PartialEq, Eq)]
pub struct SurveyText {
    pub groups: Vec<u8>,
    pub firsts: Vec<u32>,
    pub seconds: Vec<u32>,
    pub weights: Vec<u32>,
    pub owners: Vec<u32>,
    pub others: Vec<u8>,
}

impl SurveyText {
    pub fn survey(&self) -> Result<Survey<'_>, Refusal> {
        let SurveyText { groups, firsts, seconds, weights, owners, others } = self;
        Survey::with_pairs(groups, firsts, seconds, weights, owners, others)
    }
}

/// The survey that a call writes into buffers which hold every one; the call answers n, m and the number of pairs.
fn written<const FIGURES: usize>(
    call: impl FnOnce(Buffers, &mut [u64; FIGURES]) -> u64,
) -> Result<SurveyText, Refusal> {
    let mut groups = vec![0; MAX_VERTICES];
    let [mut firsts, mut seconds, mut weights] = [(); 3].map(|_| vec![0; MAX_EDGES]);
    let (mut owners, mut others) = (vec![0; MAX_PAIRS], vec![0; MAX_PAIRS]);
    let mut counts = [0; FIGURES];
    let buffers = Buffers {
        groups: &mut groups,
        firsts: &mut firsts,
        seconds: &mut seconds,
        weights: &mut weights,
        owners: &mut owners,
        others: &mut others,
    };
    answered(call(buffers, &mut counts))?;
    groups.truncate(counts[0] as usize);
    for buffer in [&mut firsts, &mut seconds, &mut weights] {
        buffer.truncate(counts[1] as usize);
    }
    owners.truncate(counts[2] as usize);
    others.truncate(counts[2] as usize);
    Ok(SurveyText { groups, firsts, seconds, weights, owners, others })
}

/// Reads a survey's text.
pub fn read(text: &[u8]) -> Result<SurveyText, Refusal> {
    written::<READ_FIGURES>(|buffers, counts| call::read(text, buffers, counts))
}

/// One survey of two neighbouring ones. A tie is a junction of the first and the one of the second at the same place.
pub fn merge(first: &Survey, second: &Survey, ties: &[(u32, u32)]) -> Result<SurveyText, Refusal> {
    let (firsts, seconds): (Vec<u32>, Vec<u32>) = ties.iter().copied().unzip();
    written::<MERGE_FIGURES>(|buffers, counts| {
        call::merge(first.slices(), second.slices(), &firsts, &seconds, buffers, counts)
    })
}

/// Reads an STP file of SteinLib: the terminals are group 1, and there are no pairs.
pub fn read_stp(text: &[u8]) -> Result<SurveyText, Refusal> {
    let mut groups = vec![0; MAX_VERTICES];
    let [mut firsts, mut seconds, mut weights] = [(); 3].map(|_| vec![0; MAX_EDGES]);
    let mut counts = [0; STP_FIGURES];
    answered(call::read_stp(text, &mut groups, &mut firsts, &mut seconds, &mut weights, &mut counts))?;
    let [n, m] = counts.map(|count| count as usize);
    groups.truncate(n);
    for buffer in [&mut firsts, &mut seconds, &mut weights] {
        buffer.truncate(m);
    }
    Ok(SurveyText { groups, firsts, seconds, weights, owners: Vec::new(), others: Vec::new() })
}

/// A text of so many bytes at first, and of more where it does not fit.
fn printed(room: usize, print: impl Fn(&mut [u8], &mut [u64]) -> u64) -> Result<Vec<u8>, Refusal> {
    let mut out = vec![0; room];
    loop {
        let mut counts = [0; PRINT_FIGURES];
        match answered(print(&mut out, &mut counts)) {
            Err(Refusal::Short) => out.resize(2 * out.len(), 0),
            answer => {
                answer?;
                out.truncate(counts[0] as usize);
                return Ok(out);
            }
        }
    }
}

/// The line of a moat record.
pub fn print_moat(record: &[u8]) -> Result<Vec<u8>, Refusal> {
    printed(DUAL_ROOM, |out, counts| call::print_dual(record, out, counts))
}

/// A plan's text.
pub fn print_plan(plan: &Plan) -> Result<Vec<u8>, Refusal> {
    let Found { sites, cost, bound } = plan.found;
    let [marks, records] = [&plan.marks, &plan.records];
    printed(1 << 16, |out, counts| call::print_plan(sites, cost, bound, plan.rounds, marks, records, out, counts))
}

/// A survey's text.
pub fn print_survey(survey: &Survey) -> Result<Vec<u8>, Refusal> {
    printed(1 << 16, |out, counts| call::print_survey(survey.slices(), out, counts))
}

/// A track table packed for the memory card, twelve bytes a track: the first bytes of all tracks, then all second bytes,
/// and so on.
pub fn pack_table(table: &[u8]) -> Result<Vec<u8>, Refusal> {
    let mut out = vec![0; table.len()];
    answered(call::pack_table(table, &mut out))?;
    Ok(out)
}

/// The tracks of a packed table, one after another.
pub fn unpack_table(table: &[u8]) -> Result<Vec<u8>, Refusal> {
    let mut out = vec![0; table.len()];
    answered(call::unpack_table(table, &mut out))?;
    Ok(out)
}

/// The report over a season's surveys.
#[derive(Clone, Debug, PartialEq, Eq)]
pub struct Season([u8; REPORT_BYTES]);

impl Default for Season {
    fn default() -> Season {
        Season([0; REPORT_BYTES])
    }
}

impl Season {
    /// Plans a survey and counts it, planned or refused; refuses the 1,001st.
    pub fn add(&mut self, survey: &Survey) -> Result<(), Refusal> {
        answered(call::season_add(&mut self.0, survey.slices()))
    }

    /// The report's text.
    pub fn print(&self) -> Result<Vec<u8>, Refusal> {
        printed(REPORT_ROOM, |out, counts| call::season_print(&self.0, out, counts))
    }
}

/// Checks a plan's text against a survey's.
pub fn verify(survey: &[u8], plan: &[u8]) -> Result<Found, Refusal> {
    let mut counts = [0; CHECK_FIGURES];
    answered(call::verify(&[survey, plan].concat(), &mut counts))?;
    let [sites, cost, bound] = counts;
    Ok(Found { sites, cost, bound })
}

#[cfg(test)]
mod tests {
    use super::*;

    const P3: &str = "nodes=3\nlinks=2\nnode=1\nnode=0\nnode=1\nlink=0,1,3\nlink=1,2,4\n";
    const P3_PLAN: &str = "sites=2\ncost=7\nbound=14\nrounds=2\nkeep=0\nkeep=1\nmoat=6:0\nmoat=7:2\nmoat=1:0,1\n";

    #[test]
    fn a_text_is_read_planned_printed_and_verified() {
        let text = read(P3.as_bytes()).unwrap();
        let survey = text.survey().unwrap();
        let plan = plan(&survey).unwrap();
        assert_eq!(plan.kept().collect::<Vec<_>>(), [0, 1]);
        assert_eq!(plan.found, Found { sites: 2, cost: 7, bound: 14 });
        assert_eq!(check(&survey, &plan.marks, &plan.records), Ok(plan.found));
        assert_eq!(print_survey(&survey).unwrap(), P3.as_bytes());
        assert_eq!(print_plan(&plan).unwrap(), P3_PLAN.as_bytes());
        assert_eq!(print_moat(&plan.records[2 * RECORD_BYTES..]).unwrap(), b"moat=1:0,1\n");
        assert_eq!(verify(P3.as_bytes(), P3_PLAN.as_bytes()), Ok(plan.found));
    }

    #[test]
    fn an_stp_text_is_read() {
        let head =
            "33D32945 STP File, STP Format Version 1.0\nSECTION Graph\nNodes 3\nEdges 2\nE 1 2 3\nE 2 3 4\nEND\n";
        let text = format!("{head}SECTION Terminals\nTerminals 2\nT 1\nT 3\nEND\nEOF\n");
        assert_eq!(read_stp(text.as_bytes()), read(P3.as_bytes()));
        assert_eq!(read_stp(head.as_bytes()), Err(Refusal::MalformedStp(head.len() as u64)));
    }

    #[test]
    fn pairs_are_read_and_printed() {
        let paired = P3.replace("link=0", "also=1,1\nlink=0");
        let text = read(paired.as_bytes()).unwrap();
        assert_eq!((&text.owners[..], &text.others[..]), (&[1][..], &[1][..]));
        let survey = text.survey().unwrap();
        assert_eq!(plan(&survey).unwrap().found, Found { sites: 3, cost: 7, bound: 11 });
        assert_eq!(print_survey(&survey).unwrap(), paired.as_bytes());
    }

    #[test]
    fn an_stp_file_is_read() {
        let stp =
            "33D32945 STP File, STP Format Version 1.0\n\nSECTION Graph\nNodes 3\nEdges 2\nE 1 2 3\nE 2 3 4\nEND\n\n\
                   SECTION Terminals\nTerminals 2\nT 1\nT 3\nEND\n\nEOF\n";
        assert_eq!(read_stp(stp.as_bytes()), read(P3.as_bytes()));
        let twice = stp.replace("T 3", "T 1");
        let at = twice.rfind("1\nEND").unwrap() as u64;
        assert_eq!(read_stp(twice.as_bytes()), Err(Refusal::MalformedStp(at)));
    }

    #[test]
    fn a_table_is_packed_and_unpacked() {
        // A track from 1 to 2 at 300, and one from 3 to 4 at 5.
        let table = [1, 0, 0, 0, 2, 0, 0, 0, 44, 1, 0, 0, 3, 0, 0, 0, 4, 0, 0, 0, 5, 0, 0, 0];
        let packed = [1, 3, 0, 0, 0, 0, 0, 0, 2, 4, 0, 0, 0, 0, 0, 0, 44, 5, 1, 0, 0, 0, 0, 0];
        assert_eq!(pack_table(&table).unwrap(), packed);
        assert_eq!(unpack_table(&packed).unwrap(), table);
        assert_eq!(pack_table(&[]).unwrap(), []);
        assert_eq!(unpack_table(&table[1..]), Err(Refusal::PartOfTrack));
        assert_eq!(call::pack_table(&table, &mut [0; 23]), 7);
    }

    #[test]
    fn growing_then_dropping_is_planning() {
        // P5: marks 2 1 1
        let survey = Survey::new(&[1, 1, 0, 0], &[0, 0, 0], &[1, 2, 3], &[3, 1, 1]).unwrap();
        let mut grown = grow(&survey).unwrap();
        assert_eq!((&grown.marks[..], grown.found.cost), (&[1, 1, 1][..], 0));
        assert_eq!(drop_unneeded(&survey, &mut grown.marks), Ok((2, 3)));
        let plan = plan(&survey).unwrap();
        assert_eq!((&grown.marks, &grown.records), (&plan.marks, &plan.records));
        let twins = Survey::new(&[1, 1], &[0, 0], &[1, 1], &[5, 5]).unwrap();
        assert_eq!(drop_unneeded(&twins, &mut [1, 1]), Err(Refusal::Loop(1)));
    }

    #[test]
    fn a_track_is_explained() {
        // P5 with a track between 2 and 3, and one between two junctions that stay apart.
        let survey = Survey::new(&[1, 1, 0, 0, 0, 0], &[0, 0, 0, 2, 4], &[1, 2, 3, 3, 5], &[3, 1, 1, 9, 9]).unwrap();
        let said = |track| why(&survey, track);
        assert_eq!(said(0), Ok(Reason::Kept { group: 1, smaller: 0, larger: 1, route: vec![0] }));
        assert_eq!(said(1), Ok(Reason::Dropped));
        assert_eq!(said(3), Ok(Reason::Unpicked { round: Some(2) }));
        assert_eq!(said(4), Ok(Reason::Unpicked { round: None }));
        assert_eq!(said(5), Err(Refusal::Track(5)));
        let text = read(P3.as_bytes()).unwrap();
        let kept = why(&text.survey().unwrap(), 1);
        assert_eq!(kept, Ok(Reason::Kept { group: 1, smaller: 0, larger: 2, route: vec![0, 1] }));
        let apart = Survey::new(&[1, 1], &[], &[], &[]).unwrap();
        assert_eq!(why(&apart, 7), Err(Refusal::Unjoinable(1)));
    }

    #[test]
    fn a_track_is_closed() {
        // Two ways between two sites, a cheap and a dear one, and a third junction with one track.
        let survey = Survey::new(&[1, 1, 0], &[0, 0, 1], &[1, 1, 2], &[5, 7, 1]).unwrap();
        let rows = closed(&survey, &[1, 0, 0, 3]);
        assert_eq!(rows, Ok(vec![Ok((5, 10)), Ok((7, 14)), Ok((7, 14)), Err(Refusal::Track(3))]));
        let one = Survey::new(&[1, 1], &[0], &[1], &[5]).unwrap();
        assert_eq!(closed(&one, &[0]), Ok(vec![Err(Refusal::Unjoinable(1))]));
        assert_eq!(closed(&one, &[]), Ok(vec![]));
    }

    #[test]
    fn strengths_are_met() {
        // A cheap and a dear way between two sites: as often the cheap one as the strength says.
        let survey = Survey::new(&[1, 1], &[0, 0], &[1, 1], &[5, 7]).unwrap();
        let mut strengths = [1; STRENGTHS];
        assert_eq!(winter(&survey, &strengths), Ok((vec![1, 0], 5)));
        strengths[0] = MAX_STRENGTH;
        assert_eq!(winter(&survey, &strengths), Ok((vec![15, 0], 75)));
        strengths[254] = 0;
        assert_eq!(winter(&survey, &strengths), Err(Refusal::Strength(255)));
    }

    #[test]
    fn two_surveys_are_merged() {
        // A road of two tracks and one of one track; the far end of the first is the near end of the second.
        let first = Survey::new(&[1, 0, 2], &[0, 1], &[1, 2], &[5, 7]).unwrap();
        let second = Survey::new(&[3, 1], &[0], &[1], &[4]).unwrap();
        assert_eq!(plan(&first).map(|p| p.found.cost), Ok(0));
        let whole = merge(&first, &second, &[(2, 0)]).unwrap();
        assert_eq!(
            (&whole.groups[..], &whole.firsts[..], &whole.seconds[..]),
            (&[1, 0, 2, 1][..], &[0, 1, 2][..], &[1, 2, 3][..])
        );
        assert_eq!((&whole.weights[..], &whole.owners[..], &whole.others[..]), (&[5, 7, 4][..], &[2][..], &[3][..]));
        assert_eq!(plan(&whole.survey().unwrap()).map(|p| p.found.cost), Ok(16));
        assert_eq!(merge(&first, &second, &[(2, 0), (1, 0)]).err(), Some(Refusal::Tie(1)));
    }

    #[test]
    fn a_floor_is_found() {
        // P9: three spokes of 3 are cheapest, and the plan takes two tracks of 5.
        let (firsts, seconds) = ([0, 0, 0, 1, 1, 2], [1, 2, 3, 2, 3, 3]);
        let spokes = Survey::new(&[0, 1, 1, 1], &firsts, &seconds, &[3, 3, 3, 5, 5, 5]).unwrap();
        let found = floor(&spokes).unwrap();
        assert_eq!((found.floor, found.sites, found.cost), (9, 3, 10));
        assert!(!found.cheapest());
        let one = Survey::new(&[1, 1], &[0], &[1], &[5]).unwrap();
        assert_eq!(floor(&one), Ok(Floor { floor: 5, sites: 2, cost: 5, bound: 10 }));
        let apart = Survey::new(&[1, 1], &[], &[], &[]).unwrap();
        assert_eq!(floor(&apart), Err(Refusal::Unjoinable(1)));
    }

    #[test]
    fn marks_altered_by_hand() {
        // The dear one of two tracks in place of the cheap one: kept, and not accurate; of two equal ones: kept, and accurate.
        for (dear, checked) in [(50, Err(Refusal::Accuracy)), (5, Ok(Found { sites: 2, cost: 5, bound: 10 }))] {
            let weights = [5, dear];
            let survey = Survey::new(&[1, 1], &[0, 0], &[1, 1], &weights).unwrap();
            let grown = grow(&survey).unwrap();
            assert_eq!(grown.marks, [1, 0]);
            let mut marks = [0, 1];
            assert_eq!(drop_unneeded(&survey, &mut marks), Ok((2, u64::from(dear))));
            assert_eq!(check(&survey, &marks, &grown.records), checked);
        }
    }

    #[test]
    fn a_season_counts() {
        let mut season = Season::default();
        season.add(&Survey::new(&[1, 0, 1], &[0, 1], &[1, 2], &[3, 4]).unwrap()).unwrap();
        season.add(&Survey::new(&[1, 1], &[], &[], &[]).unwrap()).unwrap();
        assert_eq!(season.print().unwrap(), b"planned=1\ncost=7\nbound=14\nrefused=8,1\nfar=0,14,14\n");
    }

    #[test]
    fn refusals_are_told() {
        assert_eq!(read(b"nodes=03"), Err(Refusal::Malformed(7)));
        assert_eq!(Survey::new(&[], &[], &[], &[]).err(), Some(Refusal::VertexCount));
        assert_eq!(Survey::new(&[1, 1], &[0], &[], &[5]).err(), Some(Refusal::Lengths));
        let apart = Survey::new(&[1, 1], &[], &[], &[]).unwrap();
        assert_eq!(plan(&apart), Err(Refusal::Unjoinable(1)));
        let lists = Survey::with_pairs(&[1, 1], &[0], &[1], &[5], &[0, 0], &[3, 2]).unwrap();
        assert_eq!(plan(&lists), Err(Refusal::Pair(1)));
        assert_eq!(verify(P3.as_bytes(), P3_PLAN.replace("cost=7", "cost=6").as_bytes()), Err(Refusal::Other(25, 1)));
    }

    #[test]
    fn a_refusal_is_an_error() {
        let planned = || -> Result<u64, Box<dyn std::error::Error>> {
            Ok(plan(&Survey::new(&[1, 1], &[], &[], &[])?)?.found.cost)
        };
        assert_eq!(planned().unwrap_err().to_string(), "no set of tracks joins the members of group 1");
        assert_eq!(call::version(), 10_000);
    }

    #[test]
    fn bytes_cross_as_numbers_do() {
        let words = |numbers: &[u32]| numbers.iter().flat_map(|x| x.to_le_bytes()).collect::<Vec<u8>>();
        let [firsts, seconds, weights] = [words(&[0, 1]), words(&[1, 2]), words(&[3, 4])];
        let bytes = call::Bytes {
            groups: &[1, 0, 1],
            firsts: &firsts,
            seconds: &seconds,
            weights: &weights,
            owners: &[],
            others: &[],
        };
        let (mut marks, mut records, mut result) = ([0; 2], [0; 5 * RECORD_BYTES], [0xa5; 41]);
        assert_eq!(call::handset_plan(bytes, &mut marks, &mut records, &mut result), 0);
        let count = |i: usize| u64::from_le_bytes(result[8 * i..8 * i + 8].try_into().unwrap());
        assert_eq!([0, 1, 2, 3, 4].map(count), [2, 7, 14, 2, 3]);
        assert_eq!((marks, result[40]), ([2, 2], 0xa5));
        let mut found = [0; 24];
        assert_eq!(call::handset_check(bytes, &marks, &records[..3 * RECORD_BYTES], &mut found), 0);
        assert_eq!(found, result[..24]);
    }
}
