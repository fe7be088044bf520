//! What an input of a call can have wrong, for each operation a row of it, and how it is put in.

use crate::gen::Rng;
use crate::plan::{DROPPED, KEPT, NOT_PICKED};
use crate::{
    highest, Survey, AMOUNT_BYTES, END_DIGITS, MAX_AMOUNT, MAX_GROUP, MAX_INPUT, MAX_JUNCTIONS, MAX_PAIRS, MAX_PRICE,
    MAX_RECORDS, MAX_TRACKS, RECORD_BYTES,
};

/// Two at a time are put into each input; `Nothing` leaves room for one alone, and for none.
#[derive(Clone, Copy, Debug, PartialEq, Eq)]
pub enum Fault {
    Nothing,
    NoJunction,
    ManyJunctions,
    SecondUnequal,
    PricesUnequal,
    PairsUnequal,
    ManyTracks,
    EndOut,
    EndsEqual,
    PriceHigh,
    PairOut,
    PairNone,
    PairOwn,
    PairsFall,
    PairTwice,
    ManyPairs,
    Unjoinable,
    PairUnjoinable,
    MarksShort,
    RecordsShort,
    CountsShort,
    MarksUnequal,
    RecordsRagged,
    RecordsMany,
    MarkHigh,
    AmountZero,
    AmountHigh,
    MemberOut,
    MoatWhole,
    MoatsHeavy,
    GroupUnjoined,
    CostHigh,
    ZeroNodes,
    ManyNodes,
    ManyLinks,
    GroupHigh,
    ByteChanged,
    TextCut,
    TextLonger,
    GroupsShort,
    FirstShort,
    SecondShort,
    PricesShort,
    OwnersShort,
    OthersShort,
    EndWide,
    AlsoHigh,
    AlsoOut,
    AlsoNone,
    AlsoOwn,
    AlsoFalls,
    AlsoTwice,
    AlsoMany,
    AlsoWide,
    AlsoElsewhere,
    RecordLength,
    OutShort,
    MarkTwo,
    LoopClosed,
    PickRemoved,
    RouteShort,
    TrackOut,
    TracksMany,
    StrengthsLength,
    StrengthZero,
    StrengthHigh,
    CopiesShort,
    StpCount,
    StpEnd,
    StpPrice,
    StpTerminal,
    StpTwice,
    StpTerminals,
    StpComment,
    StpBlank,
    StpSection,
    StpLines,
    StpEmptyFirst,
    StpOpen,
    /// A fault of the second survey.
    InSecond(&'static Fault),
    TiesUnequal,
    TieOut,
    TieSecondOut,
    TieTwice,
    TieSecondTwice,
    TiesMany,
    TiesAny,
    DistrictJunctions,
    DistrictTracks,
    DistrictPairs,
}

use Fault::*;

/// The faults of each operation; every pair of a row is tried.
pub const READ_FAULTS: &[Fault] = &[
    Nothing,
    ZeroNodes,
    ManyNodes,
    ManyLinks,
    GroupHigh,
    ByteChanged,
    TextCut,
    TextLonger,
    GroupsShort,
    FirstShort,
    SecondShort,
    PricesShort,
    OwnersShort,
    OthersShort,
    CountsShort,
    EndWide,
    AlsoHigh,
    AlsoOut,
    AlsoNone,
    AlsoOwn,
    AlsoFalls,
    AlsoTwice,
    AlsoMany,
    AlsoWide,
    AlsoElsewhere,
];
pub const STP_FAULTS: &[Fault] = &[
    Nothing,
    ZeroNodes,
    ManyNodes,
    ManyLinks,
    ByteChanged,
    TextCut,
    TextLonger,
    StpCount,
    StpEnd,
    StpPrice,
    StpTerminal,
    StpTwice,
    StpTerminals,
    StpComment,
    StpBlank,
    StpSection,
    StpLines,
    StpEmptyFirst,
    StpOpen,
    GroupsShort,
    FirstShort,
    SecondShort,
    PricesShort,
    CountsShort,
];
pub const PLAN_FAULTS: &[Fault] = &[
    Nothing,
    NoJunction,
    ManyJunctions,
    SecondUnequal,
    PricesUnequal,
    PairsUnequal,
    ManyTracks,
    EndOut,
    EndsEqual,
    PriceHigh,
    PairOut,
    PairNone,
    PairOwn,
    PairsFall,
    PairTwice,
    ManyPairs,
    MarksShort,
    RecordsShort,
    CountsShort,
    Unjoinable,
    PairUnjoinable,
];
pub const CHECK_FAULTS: &[Fault] = &[
    Nothing,
    NoJunction,
    ManyJunctions,
    SecondUnequal,
    PricesUnequal,
    PairsUnequal,
    ManyTracks,
    EndOut,
    EndsEqual,
    PriceHigh,
    PairOut,
    PairNone,
    PairOwn,
    PairsFall,
    PairTwice,
    ManyPairs,
    CountsShort,
    MarksUnequal,
    RecordsRagged,
    RecordsMany,
    MarkHigh,
    AmountZero,
    AmountHigh,
    MemberOut,
    MoatWhole,
    MoatsHeavy,
    GroupUnjoined,
    CostHigh,
];
pub const DROP_FAULTS: &[Fault] = &[
    Nothing,
    NoJunction,
    ManyJunctions,
    SecondUnequal,
    PricesUnequal,
    PairsUnequal,
    ManyTracks,
    EndOut,
    EndsEqual,
    PriceHigh,
    PairOut,
    PairNone,
    PairOwn,
    PairsFall,
    PairTwice,
    ManyPairs,
    CountsShort,
    MarksUnequal,
    MarkTwo,
    LoopClosed,
    PickRemoved,
];
pub const WHY_FAULTS: &[Fault] = &[
    Nothing,
    NoJunction,
    ManyJunctions,
    SecondUnequal,
    PricesUnequal,
    PairsUnequal,
    ManyTracks,
    EndOut,
    EndsEqual,
    PriceHigh,
    PairOut,
    PairNone,
    PairOwn,
    PairsFall,
    PairTwice,
    ManyPairs,
    RouteShort,
    CountsShort,
    Unjoinable,
    PairUnjoinable,
    TrackOut,
];
pub const FLOOR_FAULTS: &[Fault] = &[
    Nothing,
    NoJunction,
    ManyJunctions,
    SecondUnequal,
    PricesUnequal,
    PairsUnequal,
    ManyTracks,
    EndOut,
    EndsEqual,
    PriceHigh,
    PairOut,
    PairNone,
    PairOwn,
    PairsFall,
    PairTwice,
    ManyPairs,
    CountsShort,
    Unjoinable,
    PairUnjoinable,
];
/// 8 and 19 stand in the rows, and are no refusal of the call.
pub const CLOSED_FAULTS: &[Fault] = &[
    Nothing,
    NoJunction,
    ManyJunctions,
    SecondUnequal,
    PricesUnequal,
    PairsUnequal,
    ManyTracks,
    EndOut,
    EndsEqual,
    PriceHigh,
    PairOut,
    PairNone,
    PairOwn,
    PairsFall,
    PairTwice,
    ManyPairs,
    TracksMany,
    CountsShort,
    Unjoinable,
    PairUnjoinable,
    TrackOut,
];
pub const WINTER_FAULTS: &[Fault] = &[
    Nothing,
    NoJunction,
    ManyJunctions,
    SecondUnequal,
    PricesUnequal,
    PairsUnequal,
    ManyTracks,
    EndOut,
    EndsEqual,
    PriceHigh,
    PairOut,
    PairNone,
    PairOwn,
    PairsFall,
    PairTwice,
    ManyPairs,
    StrengthsLength,
    StrengthZero,
    StrengthHigh,
    CopiesShort,
    CountsShort,
    Unjoinable,
    PairUnjoinable,
];
/// The faults of pairs that are 18.
pub const PAIR_FAULTS: &[Fault] = &[PairOut, PairNone, PairOwn, PairsFall, PairTwice, ManyPairs];
/// The faults of also lines, and the refusal of each.
pub const ALSO_FAULTS: &[(Fault, u64)] = &[
    (AlsoHigh, 17),
    (AlsoOut, 18),
    (AlsoNone, 18),
    (AlsoOwn, 18),
    (AlsoFalls, 18),
    (AlsoTwice, 18),
    (AlsoMany, 16),
    (AlsoWide, 16),
    (AlsoElsewhere, 16),
    (OwnersShort, 7),
    (OthersShort, 7),
];
pub const PRINT_MOAT_FAULTS: &[Fault] = &[Nothing, RecordLength, OutShort, CountsShort];
pub const PRINT_PLAN_FAULTS: &[Fault] = &[Nothing, OutShort, CountsShort];
pub const PRINT_SURVEY_FAULTS: &[Fault] = &[Nothing, SecondUnequal, PricesUnequal, PairsUnequal, OutShort, CountsShort];

/// Those of the first survey, those of the second, of the ties, of the district, of the lent buffers.
pub const MERGE_FAULTS: &[Fault] = &[
    Nothing,
    NoJunction,
    ManyJunctions,
    SecondUnequal,
    PricesUnequal,
    PairsUnequal,
    ManyTracks,
    EndOut,
    EndsEqual,
    PriceHigh,
    PairOut,
    PairNone,
    PairOwn,
    PairsFall,
    PairTwice,
    ManyPairs,
    InSecond(&NoJunction),
    InSecond(&ManyJunctions),
    InSecond(&SecondUnequal),
    InSecond(&PricesUnequal),
    InSecond(&PairsUnequal),
    InSecond(&ManyTracks),
    InSecond(&EndOut),
    InSecond(&EndsEqual),
    InSecond(&PriceHigh),
    InSecond(&PairOut),
    InSecond(&PairNone),
    InSecond(&PairOwn),
    InSecond(&PairsFall),
    InSecond(&PairTwice),
    InSecond(&ManyPairs),
    TiesUnequal,
    TieOut,
    TieSecondOut,
    TieTwice,
    TieSecondTwice,
    TiesMany,
    TiesAny,
    DistrictJunctions,
    DistrictTracks,
    DistrictPairs,
    GroupsShort,
    FirstShort,
    SecondShort,
    PricesShort,
    OwnersShort,
    OthersShort,
    CountsShort,
];

/// The refusals that can be due together in one call: each with those before which it is given. Where two stand in both
/// orders the place decides: of tracks the lower, and in a text what is complete first.
pub type Pairs = &'static [(u64, &'static [u64])];

pub const READ_PAIRS: Pairs = &[
    (1, &[3, 7, 16, 17, 18]),
    (3, &[7, 16, 17, 18]),
    (7, &[3, 16, 17, 18]),
    (16, &[1, 3, 7, 17, 18]),
    (17, &[7, 16, 18]),
    (18, &[7, 16, 17]),
];
pub const STP_PAIRS: Pairs = &[(1, &[3, 7, 20]), (3, &[7, 20]), (7, &[3, 20]), (20, &[1, 3, 7])];
pub const PLAN_PAIRS: Pairs = &[
    (1, &[2, 3, 4, 5, 6, 18, 7, 8]),
    (2, &[3, 4, 5, 6, 18, 7, 8]),
    (3, &[4, 5, 6, 18, 7, 8]),
    (4, &[5, 6, 18, 7, 8]),
    (5, &[4, 6, 18, 7, 8]),
    (6, &[4, 5, 18, 7, 8]),
    (18, &[7, 8]),
    (7, &[8]),
];
pub const CHECK_PAIRS: Pairs = &[
    (1, &[2, 3, 4, 5, 6, 18, 7, 9, 10, 11, 12, 13, 14, 15]),
    (2, &[3, 4, 5, 6, 18, 7, 9, 10, 11, 12, 13, 14, 15]),
    (3, &[4, 5, 6, 18, 7, 9, 10, 11, 12, 13, 14, 15]),
    (4, &[5, 6, 18, 7, 9, 10, 11, 12, 13, 14, 15]),
    (5, &[4, 6, 18, 7, 9, 10, 11, 12, 13, 14, 15]),
    (6, &[4, 5, 18, 7, 9, 10, 11, 12, 13, 14, 15]),
    (18, &[7, 9, 10, 11, 12, 13, 14, 15]),
    (7, &[9, 10, 11, 12, 13, 14, 15]),
    (9, &[10, 11, 12, 13, 14, 15]),
    (10, &[11, 12, 13, 14, 15]),
    (11, &[12, 13, 14, 15]),
    (12, &[13, 14, 15]),
    (13, &[14, 15]),
    (14, &[15]),
];
pub const DROP_PAIRS: Pairs = &[
    (1, &[2, 3, 4, 5, 6, 18, 7, 9, 10, 21, 14]),
    (2, &[3, 4, 5, 6, 18, 7, 9, 10, 21, 14]),
    (3, &[4, 5, 6, 18, 7, 9, 10, 21, 14]),
    (4, &[5, 6, 18, 7, 9, 10, 21, 14]),
    (5, &[4, 6, 18, 7, 9, 10, 21, 14]),
    (6, &[4, 5, 18, 7, 9, 10, 21, 14]),
    (18, &[7, 9, 10, 21, 14]),
    (7, &[9, 10, 21, 14]),
    (9, &[10, 21, 14]),
    (10, &[21, 14]),
    (21, &[14]),
];
pub const WHY_PAIRS: Pairs = &[
    (1, &[2, 3, 4, 5, 6, 18, 7, 8, 19]),
    (2, &[3, 4, 5, 6, 18, 7, 8, 19]),
    (3, &[4, 5, 6, 18, 7, 8, 19]),
    (4, &[5, 6, 18, 7, 8, 19]),
    (5, &[4, 6, 18, 7, 8, 19]),
    (6, &[4, 5, 18, 7, 8, 19]),
    (18, &[7, 8, 19]),
    (7, &[8, 19]),
    (8, &[19]),
];
pub const FLOOR_PAIRS: Pairs = &[
    (1, &[2, 3, 4, 5, 6, 18, 7, 8]),
    (2, &[3, 4, 5, 6, 18, 7, 8]),
    (3, &[4, 5, 6, 18, 7, 8]),
    (4, &[5, 6, 18, 7, 8]),
    (5, &[4, 6, 18, 7, 8]),
    (6, &[4, 5, 18, 7, 8]),
    (18, &[7, 8]),
    (7, &[8]),
];
pub const CLOSED_PAIRS: Pairs = &[
    (1, &[2, 3, 4, 5, 6, 18, 7]),
    (2, &[3, 4, 5, 6, 18, 7]),
    (3, &[4, 5, 6, 18, 7]),
    (4, &[5, 6, 18, 7]),
    (5, &[4, 6, 18, 7]),
    (6, &[4, 5, 18, 7]),
    (18, &[7]),
];
pub const WINTER_PAIRS: Pairs = &[
    (1, &[2, 3, 4, 5, 6, 18, 24, 7, 8]),
    (2, &[3, 4, 5, 6, 18, 24, 7, 8]),
    (3, &[4, 5, 6, 18, 24, 7, 8]),
    (4, &[5, 6, 18, 24, 7, 8]),
    (5, &[4, 6, 18, 24, 7, 8]),
    (6, &[4, 5, 18, 24, 7, 8]),
    (18, &[24, 7, 8]),
    (24, &[7, 8]),
    (7, &[8]),
];
pub const PRINT_MOAT_PAIRS: Pairs = &[(9, &[7])];
pub const PRINT_PLAN_PAIRS: Pairs = &[];
pub const PRINT_SURVEY_PAIRS: Pairs = &[(2, &[7])];

/// 1 to 6 and 18 of the first survey come before those of the second, 1, 3 and 18 of the district after 22.
pub const MERGE_PAIRS: Pairs = &[
    (1, &[2, 3, 4, 5, 6, 18, 22, 7]),
    (2, &[1, 3, 4, 5, 6, 18, 22, 7]),
    (3, &[1, 2, 4, 5, 6, 18, 22, 7]),
    (4, &[1, 2, 3, 5, 6, 18, 22, 7]),
    (5, &[1, 2, 3, 4, 6, 18, 22, 7]),
    (6, &[1, 2, 3, 4, 5, 18, 22, 7]),
    (18, &[1, 2, 3, 4, 5, 6, 22, 7]),
    (22, &[1, 3, 18, 7]),
];

/// One case of so many has a survey as large as can be: 448 junctions, 2,048 tracks.
const FULL_EVERY: u64 = 200;

/// Is a case's survey as large as can be?
pub fn is_full(case: u64) -> bool {
    case % FULL_EVERY == FULL_EVERY / 2
}

/// A track of so many: any, but of those of a full survey two times in three the last.
fn track(rng: &mut Rng, m: usize) -> usize {
    if m == MAX_TRACKS && rng.chance(2, 3) {
        m - 1
    } else {
        rng.below(m)
    }
}

/// The pair of a case: all pairs of a row in turn, and after every third a case with no fault; in full surveys each of
/// the row in turn, alone.
pub fn pair(faults: &[Fault], case: u64) -> [Fault; 2] {
    if is_full(case) {
        return [faults[(case / FULL_EVERY) as usize % faults.len()], Nothing];
    }
    if case % 4 == 3 {
        return [Nothing; 2];
    }
    let (turn, many) = ((case - case / 4) as usize, faults.len());
    [faults[turn % many], faults[turn / many % many]]
}

/// Puts a fault into a survey, if it is one of surveys.
pub fn harm(rng: &mut Rng, survey: &mut Survey, fault: Fault) {
    let (n, m) = (survey.groups.len(), survey.first.len());
    match fault {
        NoJunction => survey.groups.clear(),
        ManyJunctions => survey.groups.resize(MAX_JUNCTIONS + rng.between(1, 3), 0),
        SecondUnequal if rng.chance(1, 2) => survey.second.push(0),
        SecondUnequal => drop(survey.second.pop()),
        PricesUnequal if rng.chance(1, 2) => survey.prices.push(0),
        PricesUnequal => drop(survey.prices.pop()),
        ManyTracks => {
            for buffer in [&mut survey.first, &mut survey.second, &mut survey.prices] {
                let end = MAX_TRACKS + 1 + (buffer.len() - m.min(buffer.len()));
                while buffer.len() < end {
                    buffer.push(buffer.get(buffer.len() % m.max(1)).copied().unwrap_or(0));
                }
            }
        }
        EndOut if m > 0 => {
            let track = track(rng, m);
            let end = (n as u32).saturating_add(rng.pick(&[0, 0, 1, 200, u32::MAX]));
            if rng.chance(1, 2) || survey.second.len() <= track {
                survey.first[track] = end;
            } else {
                survey.second[track] = end;
            }
        }
        EndsEqual if m > 0 => {
            let track = track(rng, m);
            if let Some(second) = survey.second.get_mut(track) {
                *second = survey.first[track];
            }
        }
        PriceHigh if m > 0 => {
            let track = track(rng, m);
            if let Some(price) = survey.prices.get_mut(track) {
                *price = MAX_PRICE + rng.pick(&[1, 1, 2, MAX_PRICE, u32::MAX - MAX_PRICE]);
            }
        }
        Unjoinable if n < MAX_JUNCTIONS => {
            let group = rng.between(1, MAX_GROUP as usize) as u8;
            let member = rng.below(n.max(1));
            if let Some(own) = survey.groups.get_mut(member) {
                *own = group;
                survey.groups.push(group);
            }
        }
        PairUnjoinable if n > 0 && n < MAX_JUNCTIONS && survey.owners.len() < MAX_PAIRS => {
            let group = rng.between(1, MAX_GROUP as usize) as u8;
            let member = rng.below(n);
            if survey.groups[member] == 0 {
                survey.groups[member] = group;
            }
            let group = survey.groups[member];
            survey.groups.push(0);
            survey.owners.push(n as u32);
            survey.others.push(group);
        }
        PairsUnequal => match rng.below(3) {
            0 => survey.owners.push(0),
            1 => survey.others.push(1),
            _ => drop(survey.owners.pop().map_or_else(|| survey.others.push(1), |_| ())),
        },
        _ if n > 0 && PAIR_FAULTS.contains(&fault) => harm_pairs(rng, survey, fault),
        _ => {}
    }
}

/// Puts a fault into the pairs of a survey.
fn harm_pairs(rng: &mut Rng, survey: &mut Survey, fault: Fault) {
    let n = survey.groups.len();
    let foreign = |v: usize, survey: &Survey| if survey.groups[v] == 9 { 10 } else { 9 };
    let add = |survey: &mut Survey, v: usize, group: u8| {
        survey.owners.push(v as u32);
        survey.others.push(group);
    };
    if survey.owners.is_empty() || survey.others.is_empty() || (fault == PairOut && rng.chance(1, 2)) {
        let v = if fault == PairOut { n } else { rng.below(n) };
        let group = if fault == PairOut { 1 } else { foreign(v, survey) };
        add(survey, v, group);
    }
    let pair = rng.below(survey.owners.len().min(survey.others.len()));
    let v = (survey.owners[pair] as usize).min(n - 1);
    match fault {
        PairOut => survey.owners[pair] = (n as u32).saturating_add(rng.pick(&[0, 0, 1, u32::MAX])),
        PairNone => survey.others[pair] = 0,
        PairOwn => survey.others[pair] = survey.groups[v],
        PairsFall => {
            let lower = if v > 0 && rng.chance(1, 2) { v - 1 } else { v };
            let group = if lower < v { foreign(lower, survey) } else { survey.others[pair].saturating_sub(1) };
            survey.owners.insert(pair + 1, lower as u32);
            survey.others.insert(pair + 1, group);
        }
        PairTwice => {
            let many = rng.pick(&[1, 1, 1, 299]);
            survey.owners.splice(pair..pair, vec![survey.owners[pair]; many]);
            survey.others.splice(pair..pair, vec![survey.others[pair]; many]);
        }
        _ => {
            let all = (0..n).flat_map(|v| (1..=255u8).map(move |group| (v, group)));
            let rising: Vec<(usize, u8)> = all.filter(|&(v, group)| survey.groups[v] != group).collect();
            let many = MAX_PAIRS + rng.pick(&[1, 1, 2, 44]);
            let first = rng.below(rising.len().saturating_sub(many) + 1);
            (survey.owners, survey.others) =
                rising[first..].iter().take(many).map(|&(v, group)| (v as u32, group)).unzip();
        }
    }
}

/// Puts a fault into a plan, if it is one of plans.
pub fn spoil(rng: &mut Rng, survey: &Survey, marks: &mut Vec<u8>, records: &mut Vec<u8>, fault: Fault) {
    let (n, moats) = (survey.groups.len(), records.len() / RECORD_BYTES);
    let record = RECORD_BYTES * rng.below(moats.max(1));
    match fault {
        MarksUnequal if rng.chance(1, 2) => marks.push(0),
        MarksUnequal => drop(marks.pop()),
        RecordsRagged => records.extend(vec![1; rng.between(1, RECORD_BYTES - 1)]),
        RecordsMany => {
            let one = if moats > 0 { records[..RECORD_BYTES].to_vec() } else { vec![1; RECORD_BYTES] };
            while records.len() <= MAX_RECORDS * RECORD_BYTES {
                records.extend(&one);
            }
        }
        MarkHigh if !marks.is_empty() => {
            let track = track(rng, marks.len());
            marks[track] = rng.pick(&[3, 3, 4, 255]);
        }
        AmountZero if moats > 0 => records[record..record + AMOUNT_BYTES].fill(0),
        AmountHigh if moats > 0 => {
            let amount = MAX_AMOUNT + rng.pick(&[1, 1, 1 << 40]);
            records[record..record + AMOUNT_BYTES].copy_from_slice(&amount.to_le_bytes());
        }
        MemberOut if moats > 0 && n < MAX_JUNCTIONS => {
            let v = rng.between(n, MAX_JUNCTIONS - 1);
            records[record + AMOUNT_BYTES + v / 8] |= 1 << (v % 8);
        }
        MoatWhole if moats > 0 => {
            records[record + AMOUNT_BYTES..record + RECORD_BYTES].fill(0);
            if rng.chance(1, 2) {
                for v in 0..n.min(MAX_JUNCTIONS) {
                    records[record + AMOUNT_BYTES + v / 8] |= 1 << (v % 8);
                }
            }
        }
        MoatsHeavy if moats > 0 => {
            let again = records[record..record + RECORD_BYTES].to_vec();
            records.extend(again);
        }
        GroupUnjoined if rng.chance(1, 2) => {
            if let Some(mark) = marks.iter_mut().filter(|mark| **mark == KEPT).last() {
                *mark = 1;
            }
        }
        GroupUnjoined => {
            // A site loses every track.
            let sites = survey.view().lists().concat();
            if sites.is_empty() {
                return;
            }
            let site = rng.pick(&sites) as u32;
            for (track, mark) in marks.iter_mut().enumerate().filter(|(_, mark)| **mark == KEPT) {
                if [&survey.first, &survey.second].iter().any(|ends| ends.get(track) == Some(&site)) {
                    *mark = 1;
                }
            }
        }
        CostHigh => marks.iter_mut().for_each(|mark| *mark = KEPT),
        _ => {}
    }
}

/// Puts a fault into a list of strengths, if it is one of those. Two times in three it is of a group without members.
pub fn weaken(rng: &mut Rng, survey: &Survey, strengths: &mut Vec<u8>, fault: Fault) {
    let members = |group: usize| survey.groups.contains(&(group as u8)) || survey.others.contains(&(group as u8));
    let memberless: Vec<usize> = (1..=strengths.len()).filter(|&group| !members(group)).collect();
    let group = match rng.below(3) {
        0 => rng.pick(&[1, strengths.len()]),
        1 if !memberless.is_empty() => rng.pick(&memberless),
        _ => rng.between(1, strengths.len().max(1)),
    };
    match fault {
        StrengthsLength => {
            let length = rng.pick(&[0, 1, 254, 254, 256, 256, 300, rng.clone().below(255)]);
            strengths.resize(length, rng.pick(&[0, 1, 16]));
        }
        StrengthZero | StrengthHigh if !(1..=strengths.len()).contains(&group) => {}
        StrengthZero => strengths[group - 1] = 0,
        StrengthHigh => strengths[group - 1] = rng.pick(&[16, 16, 17, 31, 255]),
        _ => {}
    }
}

/// Puts a fault into the marks of picked tracks, if it is one of those. A loop is closed by a track that is there, or
/// by a parallel one that comes to the survey.
pub fn remark(rng: &mut Rng, survey: &mut Survey, marks: &mut Vec<u8>, fault: Fault) {
    let picked: Vec<usize> = (0..marks.len()).filter(|&t| marks[t] == DROPPED).collect();
    match fault {
        MarksUnequal if rng.chance(1, 2) => marks.push(rng.below(2) as u8),
        MarksUnequal => drop(marks.pop()),
        MarkTwo if !marks.is_empty() => {
            let track = track(rng, marks.len());
            marks[track] = rng.pick(&[2, 2, 3, 255]);
        }
        LoopClosed if !picked.is_empty() && survey.first.len() == marks.len() && survey.view().sound().is_ok() => {
            let component = survey.view().components(|t| marks[t] == DROPPED);
            let closing: Vec<usize> = (0..marks.len())
                .filter(|&t| marks[t] == NOT_PICKED)
                .filter(|&t| component[survey.first[t] as usize] == component[survey.second[t] as usize])
                .collect();
            if let Some(&last) = closing.last().filter(|_| marks.len() == MAX_TRACKS) {
                // No track can come to it; the last of those that close a loop, or one anywhere.
                marks[if rng.chance(2, 3) { last } else { rng.pick(&closing) }] = DROPPED;
                return;
            }
            for _ in 0..rng.between(1, 2) {
                if closing.is_empty() || rng.chance(1, 3) {
                    let track = rng.pick(&picked);
                    for buffer in [&mut survey.first, &mut survey.second, &mut survey.prices] {
                        buffer.push(buffer[track]);
                    }
                    marks.push(DROPPED);
                } else {
                    marks[rng.pick(&closing)] = DROPPED;
                }
            }
        }
        PickRemoved if !picked.is_empty() => marks[rng.pick(&picked)] = NOT_PICKED,
        _ => {}
    }
}

/// Puts a fault into ties, if it is one of those, for surveys of so many junctions.
pub fn untie(rng: &mut Rng, counts: [usize; 2], ties: &mut [Vec<u32>; 2], fault: Fault) {
    let many = ties[0].len().min(ties[1].len());
    let at = rng.below(many + 1);
    let any = counts.map(|n| rng.below(n.max(1)) as u32);
    let out = |rng: &mut Rng, n: usize| (n as u32).saturating_add(rng.pick(&[0, 0, 1, 256, u32::MAX]));
    let mut put = |at: usize, tie: [u32; 2]| (0..2).for_each(|side| ties[side].insert(at, tie[side]));
    match fault {
        TiesUnequal => match rng.below(3) {
            0 => drop(ties[0].pop().is_none().then(|| ties[0].push(0))),
            side => ties[side - 1].push(any[side - 1]),
        },
        TieOut => put(at, [out(rng, counts[0]), any[1]]),
        TieSecondOut => put(at, [any[0], out(rng, counts[1])]),
        TieTwice | TieSecondTwice if many > 0 => {
            let side = usize::from(fault == TieSecondTwice);
            let (other, free) = (rng.below(many), (0..counts[1 - side] as u32).find(|v| !ties[1 - side].contains(v)));
            let mut tie = [ties[0][other], ties[1][other]];
            // The other side is free where one is, or names the same tie again.
            tie[1 - side] = free.filter(|_| rng.chance(3, 4)).unwrap_or(tie[1 - side]);
            (0..2).for_each(|side| ties[side].insert(at, tie[side]));
        }
        TiesMany => {
            // Sound as long as there are junctions left, then any.
            let length = counts[0].max(counts[1]) + rng.pick(&[1, 1, 2, 500]);
            for (ties, n) in ties.iter_mut().zip(counts) {
                let free: Vec<u32> = (0..n as u32).filter(|v| !ties.contains(v)).collect();
                ties.extend(free);
                ties.extend((ties.len()..length).map(|_| rng.below(n.max(1)) as u32));
            }
        }
        TiesAny => ties.iter_mut().flatten().for_each(|v| *v = rng.word() as u32),
        _ => {}
    }
}

/// The text of a survey with a fault in it, if it is one of texts.
pub fn damage(rng: &mut Rng, text: &mut Vec<u8>, fault: Fault) {
    let line =
        |text: &[u8], from: usize| text[from..].iter().position(|&b| b == b'\n').map_or(text.len(), |k| from + k);
    let value = |text: &mut Vec<u8>, key: &[u8], nth: usize, new: &str| {
        let places: Vec<usize> =
            (0..text.len()).filter(|&k| text[k..].starts_with(key) && (k == 0 || text[k - 1] == b'\n')).collect();
        if let Some(&at) = places.get(nth) {
            let end = line(text, at);
            text.splice(at + key.len()..end, new.bytes());
        }
    };
    match fault {
        ZeroNodes => value(text, b"nodes=", 0, "0"),
        ManyNodes => value(text, b"nodes=", 0, &(MAX_JUNCTIONS + rng.pick(&[1, 1, 9_999_743])).to_string()),
        ManyLinks => value(text, b"links=", 0, &(MAX_TRACKS + rng.pick(&[1, 1, 9_997_951])).to_string()),
        GroupHigh => {
            let nth = rng.below(3);
            value(text, b"node=", nth, &(MAX_GROUP as usize + rng.pick(&[1, 1, 9_999_744])).to_string());
        }
        ByteChanged if !text.is_empty() => {
            let at = rng.below(text.len());
            text[at] = rng.pick(b"0123456789,=:\n\r nalx");
        }
        TextCut => text.truncate(rng.below(text.len() + 1)),
        TextLonger => {
            let more = rng.pick(&[&b"\n"[..], b"node=1\n", b"x", b"link=0,1,1\n", b"also=0,9\n"]);
            text.extend(more);
            if rng.chance(1, 16) {
                text.resize(MAX_INPUT + rng.below(9_999), b'\n');
            }
        }
        EndWide => {
            let (wide, price) = (highest(END_DIGITS) + rng.pick(&[1, 1, 99_000]), rng.below(9));
            let ends = if rng.chance(1, 2) { format!("{wide},0") } else { format!("0,{wide}") };
            let nth = rng.below(3);
            value(text, b"link=", nth, &format!("{ends},{price}"));
        }
        _ if ALSO_FAULTS.iter().any(|also| also.0 == fault) => damage_alsos(rng, text, fault),
        _ => {}
    }
}

/// A text with a fault in its also lines, which come after the node lines.
fn damage_alsos(rng: &mut Rng, text: &mut Vec<u8>, fault: Fault) {
    let mut lines: Vec<Vec<u8>> = text.split_inclusive(|&byte| byte == b'\n').map(|line| line.to_vec()).collect();
    let is = |line: &[u8], key: &[u8]| line.starts_with(key);
    let Some(last) = lines.iter().rposition(|line| is(line, b"node=")) else { return };
    let from = last + 1;
    let many = lines[from..].iter().take_while(|line| is(line, b"also=")).count();
    let groups: Vec<String> = lines
        .iter()
        .filter(|line| is(line, b"node="))
        .map(|line| String::from_utf8_lossy(&line[5..]).trim_end().to_string())
        .collect();
    let n = groups.len();
    let also = |v: &dyn std::fmt::Display, group: &dyn std::fmt::Display| format!("also={v},{group}\n").into_bytes();
    let any = rng.below(n);
    let high = highest(END_DIGITS) as usize;
    let mut at = from + rng.below(many + 1);
    let mut repeat = 1;
    let line = match fault {
        AlsoHigh => also(&rng.pick(&[any, any, n, high]), &rng.pick(&[256, 256, high])),
        AlsoOut => also(&rng.pick(&[n, n, n + 1, high]), &rng.between(1, 255)),
        AlsoNone => also(&any, &0),
        AlsoOwn => also(&any, &groups[any]),
        AlsoFalls if many > 0 => {
            at = at.max(from + 1);
            let before = String::from_utf8_lossy(&lines[at - 1]).into_owned();
            let v: usize = before[5..].split(',').next().and_then(|v| v.parse().ok()).unwrap_or(0);
            also(&v.saturating_sub(rng.below(2)), &1)
        }
        AlsoTwice if many > 0 => {
            at = at.max(from + 1);
            repeat = rng.pick(&[1, 1, 299]);
            lines[at - 1].clone()
        }
        AlsoMany => {
            let all = (0..n).flat_map(|v| (1..=255u32).map(move |group| (v, group)));
            let rising = all.filter(|(v, group)| groups[*v] != group.to_string());
            let rising: Vec<Vec<u8>> =
                rising.take(MAX_PAIRS + rng.pick(&[1, 1, 44])).map(|(v, group)| also(&v, &group)).collect();
            lines.splice(from..from + many, rising);
            *text = lines.concat();
            return;
        }
        AlsoWide => match rng.below(4) {
            0 => also(&(high + 1), &1),
            1 => also(&any, &(high + 1)),
            2 => also(&any, &format!("0{any}")),
            _ => also(&format!("0{any}"), &1),
        },
        AlsoElsewhere => {
            let (before, behind) = (rng.below(from), rng.between(from + many, lines.len()));
            at = if rng.chance(1, 2) { before } else { behind.max(from + many + 1).min(lines.len()) };
            also(&any, &9)
        }
        _ => return,
    };
    for _ in 0..repeat {
        lines.insert(at.min(lines.len()), line.clone());
    }
    *text = lines.concat();
}
