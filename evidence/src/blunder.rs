//! Planners with one fault each: those that 01 names under "Blunders seen in such planners", and a few more. They show
//! that the generated inputs tell a faulty planner from a sound one.

use crate::plan::{owned, reference, Counts, Plan, DROPPED, KEPT};
use crate::print::{plan_lines, refusal_lines};
use crate::read::{parse, Lengths};
use crate::{refuse, Refusal, Survey, View, AMOUNT_BYTES, MAX_PAIRS, MAX_PRICE, RECORD_BYTES};

#[derive(Clone, Copy, Debug, PartialEq, Eq)]
pub enum Blunder {
    /// Grows a single component as far as the first meeting, and only then another.
    OneByOne,
    /// Halves in whole price units.
    WholeUnits,
    /// Drops only dead ends.
    DeadEnds,
    /// A merged component rests if one of its parts rested.
    IdlePart,
    /// Counts lone group members in k.
    LoneMembers,
    /// Gives a tie to the highest track.
    HighestTrack,
    /// Compares what remains, not the waits.
    RemainsNotWait,
    /// Picks all tight tracks of a round at once, as far as they join different components.
    AllTight,
    /// Keeps every picked track.
    NothingDropped,
    /// Names the highest group that can't be joined.
    HighestGroup,
    /// Lists merged components before single junctions.
    RecordOrder,
    /// Takes numbers with leading zeros.
    LeadingZeros,
    /// Gives 17 before the line is complete.
    EarlySeventeen,
    /// Checks 6 over all tracks before 4 and 5.
    PricesFirst,
    /// Reads also lines and forgets them.
    PairsIgnored,
    /// Pours lists that share a member together, and names the lowest of them with 8.
    EightByClass,
    /// Takes an end of four digits and more.
    WideEnds,
    /// Gives 18 before 17 on an also line.
    EighteenFirst,
    /// Names the also line, not its junction, with 17.
    SeventeenByLine,
    /// Takes an also line twice.
    EqualPair,
    /// Takes no pair of a junction without a group of its own.
    OwnGroupWanted,
    /// Calls also lines that don't rise malformed.
    FallingMalformed,
    /// Reads a 257th also line, and gives 18 for it.
    Line257,
    /// Takes also lines wherever they stand.
    AlsoAnywhere,
}

pub const BLUNDERS: [Blunder; 24] = [
    Blunder::OneByOne,
    Blunder::WholeUnits,
    Blunder::DeadEnds,
    Blunder::IdlePart,
    Blunder::LoneMembers,
    Blunder::HighestTrack,
    Blunder::RemainsNotWait,
    Blunder::AllTight,
    Blunder::NothingDropped,
    Blunder::HighestGroup,
    Blunder::RecordOrder,
    Blunder::LeadingZeros,
    Blunder::EarlySeventeen,
    Blunder::PricesFirst,
    Blunder::PairsIgnored,
    Blunder::EightByClass,
    Blunder::WideEnds,
    Blunder::EighteenFirst,
    Blunder::SeventeenByLine,
    Blunder::EqualPair,
    Blunder::OwnGroupWanted,
    Blunder::FallingMalformed,
    Blunder::Line257,
    Blunder::AlsoAnywhere,
];

/// The plan with a fault in growing or dropping; the survey is sound and can be joined.
fn faulty(blunder: Blunder, survey: View) -> Plan {
    let (n, m) = (survey.n(), survey.m());
    let lists = survey.lists();
    let parts =
        |set: &[bool]| lists.iter().any(|members| members.iter().any(|&v| set[v]) && members.iter().any(|&v| !set[v]));
    // Components: members, amount, whether the blunder holds it back; `of[v]` is v's.
    let mut sets: Vec<Vec<bool>> = (0..n).map(|v| (0..n).map(|w| v == w).collect()).collect();
    let mut amounts = vec![0u64; n];
    let mut idle = vec![false; n];
    let mut of: Vec<usize> = (0..n).collect();
    let mut load = vec![0u64; n];
    let mut marks = vec![0u8; m];
    let mut rounds = 0;
    loop {
        let live: Vec<usize> = (0..sets.len()).filter(|&c| (0..n).any(|v| of[v] == c)).collect();
        let mut grows = vec![false; sets.len()];
        for &c in &live {
            grows[c] = parts(&sets[c]) && !idle[c];
        }
        if blunder == Blunder::IdlePart && !grows.contains(&true) {
            // Held-back components have to start in the end, or no group would be joined.
            for &c in &live {
                grows[c] = parts(&sets[c]);
            }
        }
        if blunder == Blunder::OneByOne {
            let first = grows.iter().position(|&g| g);
            for (c, grows) in grows.iter_mut().enumerate() {
                *grows = Some(c) == first;
            }
        }
        let mut best: Option<(u64, u64, usize)> = None;
        for t in 0..m {
            let (u, v) = (survey.first[t] as usize, survey.second[t] as usize);
            let growers = u64::from(grows[of[u]]) + u64::from(grows[of[v]]);
            if of[u] == of[v] || growers == 0 {
                continue;
            }
            let remains = (2 * u64::from(survey.prices[t])).saturating_sub(load[u] + load[v]);
            let wait = match blunder {
                Blunder::WholeUnits => remains / 2 / growers * 2,
                _ => remains / growers,
            };
            let claim = if blunder == Blunder::RemainsNotWait { remains } else { wait };
            let wins =
                best.is_none_or(|(least, ..)| claim < least || (claim == least && blunder == Blunder::HighestTrack));
            if wins {
                best = Some((claim, wait, t));
            }
        }
        let Some((_, wait, winner)) = best else { break };
        for c in (0..sets.len()).filter(|&c| grows[c]) {
            amounts[c] += wait;
            for v in (0..n).filter(|&v| sets[c][v]) {
                load[v] += wait;
            }
        }
        let mut picks = vec![winner];
        if blunder == Blunder::AllTight {
            picks.extend((0..m).filter(|&t| {
                let (u, v) = (survey.first[t] as usize, survey.second[t] as usize);
                grows[of[u]] | grows[of[v]] && load[u] + load[v] == 2 * u64::from(survey.prices[t])
            }));
        }
        for t in picks {
            let (one, other) = (of[survey.first[t] as usize], of[survey.second[t] as usize]);
            if one == other {
                continue;
            }
            marks[t] = DROPPED;
            let merged = sets.len();
            sets.push((0..n).map(|v| sets[one][v] | sets[other][v]).collect());
            amounts.push(0);
            idle.push(blunder == Blunder::IdlePart && !(parts(&sets[one]) && parts(&sets[other])));
            for v in (0..n).filter(|&v| sets[merged][v]) {
                of[v] = merged;
            }
        }
        rounds += 1;
    }
    let picked = marks.clone();
    let site = |v: usize| lists.iter().any(|members| members.contains(&v));
    match blunder {
        Blunder::NothingDropped => marks.iter_mut().for_each(|mark| *mark *= KEPT),
        Blunder::DeadEnds => {
            marks.iter_mut().for_each(|mark| *mark *= KEPT);
            while let Some(t) = (0..m).find(|&t| {
                marks[t] == KEPT
                    && [survey.first[t], survey.second[t]].into_iter().any(|end| {
                        let others = (0..m)
                            .any(|o| o != t && marks[o] == KEPT && (survey.first[o] == end || survey.second[o] == end));
                        !others && !site(end as usize)
                    })
            }) {
                marks[t] = DROPPED;
            }
        }
        _ => {
            for t in (0..m).filter(|&t| picked[t] != 0) {
                if survey.unjoined(|other| other != t && picked[other] != 0).is_some() {
                    marks[t] = KEPT;
                }
            }
        }
    }
    let mut counts = Counts { sites: survey.sites(), rounds, ..Counts::default() };
    let mut records = Vec::new();
    for (set, &amount) in sets.iter().zip(&amounts).filter(|(_, &amount)| amount != 0) {
        let mut record = [0; RECORD_BYTES];
        record[..AMOUNT_BYTES].copy_from_slice(&amount.to_le_bytes());
        for v in (0..n).filter(|&v| set[v]) {
            record[AMOUNT_BYTES + v / 8] |= 1 << (v % 8);
        }
        records.extend(record);
        counts.moats += 1;
        counts.bound += amount;
    }
    counts.cost = (0..m).filter(|&t| marks[t] == KEPT).map(|t| u64::from(survey.prices[t])).sum();
    Plan { counts, marks, records }
}

/// What a program with the fault prints.
pub fn program(blunder: Blunder, input: &[u8]) -> String {
    match faulty_answer(blunder, input) {
        Ok(plan) => plan_lines(&plan),
        Err(refusal) => refusal_lines(refusal),
    }
}

/// An also line as it stands in a text: where it begins, and its two numbers.
struct Also {
    at: usize,
    pair: (u32, u32),
}

/// The lines of a text with their line ends, and where each begins.
fn lines(input: &[u8]) -> impl Iterator<Item = (usize, &[u8])> {
    let mut at = 0;
    input.split_inclusive(|&byte| byte == b'\n').map(move |line| {
        at += line.len();
        (at - line.len(), line)
    })
}

/// The number of a line with this key and this line end.
fn numbers(line: &[u8], key: &str) -> Option<Vec<u32>> {
    let line = std::str::from_utf8(line).ok()?.strip_prefix(key)?.strip_suffix('\n')?;
    line.split(',').map(|number| number.parse().ok()).collect()
}

fn alsos(input: &[u8]) -> Vec<Also> {
    let pair = |line: &[u8]| numbers(line, "also=").filter(|pair| pair.len() == 2).map(|pair| (pair[0], pair[1]));
    lines(input).filter_map(|(at, line)| Some(Also { at, pair: pair(line)? })).collect()
}

fn groups(input: &[u8]) -> Vec<u32> {
    lines(input).filter_map(|(_, line)| Some(*numbers(line, "node=")?.first()?)).collect()
}

/// What is read in place of a refusal: another, or another text.
enum Instead {
    Refusal(u32, usize),
    Text(Vec<u8>),
}

/// The fault of a reader, where it shows in a refused text.
fn misread(blunder: Blunder, input: &[u8], refusal: Refusal) -> Option<Instead> {
    let (number, at) = (refusal.number, refusal.place as usize);
    let digit = |at: usize| input.get(at).is_some_and(u8::is_ascii_digit);
    let line = || input[..at].rsplit(|&byte| byte == b'\n').next().unwrap_or(&[]);
    match (blunder, number) {
        (Blunder::LeadingZeros, 16) if at > 0 && input[at - 1] == b'0' && digit(at) => {
            Some(Instead::Text([&input[..at - 1], &input[at..]].concat()))
        }
        (Blunder::EarlySeventeen, 16) => {
            let group: u32 = std::str::from_utf8(line().strip_prefix(b"node=")?).ok()?.parse().ok()?;
            let before = lines(&input[..at]).count() - 1;
            (group > 255).then_some(Instead::Refusal(17, before - 2))
        }
        (Blunder::WideEnds, 16) if line().starts_with(b"link=") && digit(at) => {
            let from = (0..at).rev().take_while(|&k| digit(k)).last()?;
            let to = (at..).find(|&k| !digit(k))?;
            (at - from == 3 && to - from <= 7).then(|| Instead::Text([&input[..from], b"999", &input[to..]].concat()))
        }
        (Blunder::EighteenFirst | Blunder::SeventeenByLine, 17) => {
            let (alsos, groups) = (alsos(input), groups(input));
            if groups.iter().any(|&group| group > 255) {
                return None;
            }
            let line = alsos.iter().position(|also| also.pair.1 > 255)?;
            let falls = line > 0 && alsos[line - 1].pair >= alsos[line].pair;
            let bad = alsos[line].pair.0 as usize >= groups.len() || falls;
            match blunder {
                Blunder::SeventeenByLine => Some(Instead::Refusal(17, line)),
                _ => bad.then_some(Instead::Refusal(18, line)),
            }
        }
        (Blunder::EqualPair | Blunder::FallingMalformed, 18) if at > 0 => {
            let alsos = alsos(input);
            let (before, also) = (&alsos[at - 1], &alsos[at]);
            match blunder {
                Blunder::EqualPair if before.pair == also.pair => {
                    Some(Instead::Text([&input[..before.at], &input[also.at..]].concat()))
                }
                Blunder::FallingMalformed if before.pair >= also.pair => Some(Instead::Refusal(16, also.at)),
                _ => None,
            }
        }
        (Blunder::Line257, 16) if alsos(&input[..at]).len() == MAX_PAIRS => {
            alsos(input).iter().any(|also| also.at == at).then_some(Instead::Refusal(18, MAX_PAIRS))
        }
        (Blunder::AlsoAnywhere, 16) => {
            let also = alsos(input).into_iter().find(|also| also.at == at)?;
            let end = at + lines(&input[at..]).next()?.1.len();
            let moved = [&input[..at], &input[end..]].concat();
            let is_before = |line: &[u8]| !line.starts_with(b"link=");
            let to = lines(&moved).find(|(_, line)| !is_before(line)).map_or(moved.len(), |(at, _)| at);
            let text = [&moved[..to], &input[also.at..end], &moved[to..]].concat();
            let goes_on = parse(&text, Lengths::ENOUGH).err().is_none_or(|other| other.number != 16);
            goes_on.then_some(Instead::Text(text))
        }
        _ => None,
    }
}

fn faulty_answer(blunder: Blunder, input: &[u8]) -> Result<Plan, Refusal> {
    let survey = match parse(input, Lengths::ENOUGH) {
        Err(refusal) => {
            return match misread(blunder, input, refusal) {
                Some(Instead::Refusal(number, place)) => refuse(number, place),
                Some(Instead::Text(text)) => faulty_answer(blunder, &text),
                None => Err(refusal),
            }
        }
        Ok(survey) => survey,
    };
    if blunder == Blunder::OwnGroupWanted {
        if let Some(pair) = survey.owners.iter().position(|&v| survey.groups[v as usize] == 0) {
            return refuse(18, pair);
        }
    }
    let survey = match blunder {
        Blunder::PairsIgnored => Survey { owners: Vec::new(), others: Vec::new(), ..survey },
        _ => survey,
    };
    let view = survey.view();
    if blunder == Blunder::PricesFirst {
        if let Some(track) = survey.prices.iter().position(|&price| price > MAX_PRICE) {
            return refuse(6, track);
        }
    }
    let mut plan = match owned(reference, view) {
        Err(Refusal { number: 8, .. }) if blunder == Blunder::HighestGroup => {
            let apart = |g: &u8| {
                let component = view.components(|_| true);
                view.members(*g).iter().any(|&v| component[v] != component[view.members(*g)[0]])
            };
            return refuse(8, (1..=255u8).rev().find(apart).map_or(0, usize::from));
        }
        Err(Refusal { number: 8, place }) if blunder == Blunder::EightByClass => {
            return refuse(8, lowest_of_class(view, place as u8));
        }
        other => other?,
    };
    match blunder {
        Blunder::LoneMembers => {
            let is_member = |v: &usize| (1..=255u8).any(|group| view.members(group).contains(v));
            plan.counts.sites = (0..view.n()).filter(is_member).count() as u64;
        }
        Blunder::RecordOrder => {
            let mut records: Vec<&[u8]> = plan.records.chunks_exact(RECORD_BYTES).collect();
            records.sort_by_key(|record| {
                let members: u32 = record[AMOUNT_BYTES..].iter().map(|byte| byte.count_ones()).sum();
                members == 1
            });
            plan.records = records.concat();
        }
        Blunder::OneByOne
        | Blunder::WholeUnits
        | Blunder::DeadEnds
        | Blunder::IdlePart
        | Blunder::HighestTrack
        | Blunder::RemainsNotWait
        | Blunder::AllTight
        | Blunder::NothingDropped => plan = faulty(blunder, view),
        _ => {}
    }
    Ok(plan)
}

/// The lowest of the lists that a chain of lists with common members links with this one.
pub fn lowest_of_class(survey: View, group: u8) -> usize {
    let lists = survey.members_by_group();
    let mut class = vec![usize::from(group)];
    let mut looked = 0;
    while looked < class.len() {
        let members = &lists[class[looked]];
        for other in 1..lists.len() {
            if !class.contains(&other) && lists[other].iter().any(|v| members.contains(v)) {
                class.push(other);
            }
        }
        looked += 1;
    }
    class.into_iter().min().unwrap_or(0)
}
