//! Two crews, one district (No. 9): one survey of two neighbouring ones, and both read out of it again.

use crate::calls::generated::merge::any_ties;
use crate::gen::{overlap, survey, Rng, Size};
use crate::print::{refusal_lines, survey_text};
use crate::programs::{any_text, Run};
use crate::read::{survey_lines, Cursor, Lengths, Lent};
use crate::{refuse, Refusal, Survey, View, END_DIGITS, MAX_JUNCTIONS, MAX_PAIRS, MAX_TRACKS};
use std::collections::BTreeSet;

/// n, m and the number of pairs of the district.
pub const MERGE_COUNTS: usize = 3;

/// Junctions of the first survey, and beside each the one of the second at the same place.
#[derive(Clone, Copy, Debug)]
pub struct Ties<'a> {
    pub first: &'a [u32],
    pub second: &'a [u32],
}

impl Ties<'_> {
    /// 2, then 22 at the lowest tie that is out of range or names a junction that a lower one names on that side.
    pub fn sound(&self, n: usize, second_n: usize) -> Result<(), Refusal> {
        if self.first.len() != self.second.len() {
            return refuse(2, 0);
        }
        let (mut tied, mut second_tied) = (BTreeSet::new(), BTreeSet::new());
        for (tie, (&u, &v)) in self.first.iter().zip(self.second).enumerate() {
            if u as usize >= n || v as usize >= second_n || !tied.insert(u) || !second_tied.insert(v) {
                return refuse(22, tie);
            }
        }
        Ok(())
    }
}

/// The number in the district of each junction of the second survey: that of the one at the same place, or the next
/// behind those of the first.
pub fn places(n: usize, second_n: usize, ties: Ties) -> Vec<u32> {
    let mut next = n as u32;
    let mut place = |v: u32| match ties.second.iter().position(|&tied| tied == v) {
        Some(tie) => ties.first[tie],
        None => {
            next += 1;
            next - 1
        }
    };
    (0..second_n as u32).map(&mut place).collect()
}

/// The district of two sound surveys with sound ties, however large it is.
pub fn district(first: View, second: View, ties: Ties) -> Survey {
    let place = places(first.n(), second.n(), ties);
    let mut groups = first.groups.to_vec();
    groups.resize(first.n() + second.n() - ties.first.len(), 0);
    for (&v, &own) in place.iter().zip(second.groups) {
        if groups[v as usize] == 0 {
            groups[v as usize] = own;
        }
    }
    // What each junction belongs to, in either survey, by its own group or by a pair.
    let mut belongs: BTreeSet<(u32, u8)> = first.groups.iter().zip(0..).map(|(&own, v)| (v, own)).collect();
    belongs.extend(first.owners.iter().copied().zip(first.others.iter().copied()));
    belongs.extend(place.iter().copied().zip(second.groups.iter().copied()));
    belongs.extend(second.owners.iter().map(|&v| place[v as usize]).zip(second.others.iter().copied()));
    belongs.retain(|&(v, group)| group != 0 && group != groups[v as usize]);
    let placed = |ends: &[u32]| ends.iter().map(|&v| place[v as usize]).collect::<Vec<u32>>();
    Survey {
        groups,
        first: [first.first, &placed(second.first)].concat(),
        second: [first.second, &placed(second.second)].concat(),
        prices: [first.prices, second.prices].concat(),
        ..Survey::default()
    }
    .with_pairs(&belongs.into_iter().collect::<Vec<_>>())
}

/// The district, or the refusal of the first survey, of the second, of the ties or of what they come to: 1, 3, 18.
pub fn merged(first: View, second: View, ties: Ties) -> Result<Survey, Refusal> {
    first.sound()?;
    second.sound()?;
    ties.sound(first.n(), second.n())?;
    let district = district(first, second, ties);
    if district.groups.len() > MAX_JUNCTIONS {
        return refuse(1, 0);
    }
    if district.first.len() > MAX_TRACKS {
        return refuse(3, 0);
    }
    if district.owners.len() > MAX_PAIRS {
        return refuse(18, MAX_PAIRS);
    }
    Ok(district)
}

/// Writes a district into lent buffers, and n, m and the number of its pairs: 7.
pub fn put(district: &Survey, lent: Lent, counts: &mut [u64]) -> Result<(), Refusal> {
    let (n, m, pairs) = (district.groups.len(), district.first.len(), district.owners.len());
    let tracks = [lent.first.len(), lent.second.len(), lent.prices.len()].iter().all(|&room| room >= m);
    let short = lent.groups.len() < n || !tracks || lent.owners.len() < pairs || lent.others.len() < pairs;
    if short || counts.len() < MERGE_COUNTS {
        return refuse(7, 0);
    }
    lent.groups[..n].copy_from_slice(&district.groups);
    lent.first[..m].copy_from_slice(&district.first);
    lent.second[..m].copy_from_slice(&district.second);
    lent.prices[..m].copy_from_slice(&district.prices);
    lent.owners[..pairs].copy_from_slice(&district.owners);
    lent.others[..pairs].copy_from_slice(&district.others);
    counts[..MERGE_COUNTS].copy_from_slice(&[n, m, pairs].map(|count| count as u64));
    Ok(())
}

/// The whole call.
pub fn merge(first: View, second: View, ties: Ties, lent: Lent, counts: &mut [u64]) -> Result<(), Refusal> {
    put(&merged(first, second, ties)?, lent, counts)
}

/// The district of two survey texts one after the other and lines `tie=u,v` behind them, as many as there may be junctions.
/// The place of 16 counts from the first byte of the whole.
fn told(text: &[u8]) -> Result<Survey, Refusal> {
    let mut cursor = Cursor::new(text);
    let first = survey_lines(&mut cursor, Lengths::ENOUGH)?;
    let second = survey_lines(&mut cursor, Lengths::ENOUGH)?;
    let (mut ties, mut second_ties) = (Vec::new(), Vec::new());
    while cursor.next().is_some() && ties.len() < MAX_JUNCTIONS {
        cursor.fixed(b"tie=")?;
        ties.push(cursor.number(END_DIGITS)? as u32);
        cursor.fixed(b",")?;
        second_ties.push(cursor.number(END_DIGITS)? as u32);
        cursor.fixed(b"\n")?;
    }
    cursor.end()?;
    merged(first.view(), second.view(), Ties { first: &ties, second: &second_ties })
}

/// What the program prints: the district's text.
pub fn merge_program(input: &[u8]) -> String {
    told(input).map_or_else(refusal_lines, |district| String::from_utf8_lossy(&survey_text(&district)).into_owned())
}

/// A run of the program: two surveys and their ties, or texts that are damaged, ties that are, or a line that is.
pub fn run(seed: u64, case: u64) -> Run {
    let rng = &mut Rng::of_case(seed ^ 0x7469_6573, case);
    let mut surveys = [0; 2].map(|_| {
        let size = rng.pick(&[Size::Tiny, Size::Tiny, Size::Small, Size::Middle, Size::Large]);
        let mut survey = survey(rng, size);
        if rng.chance(1, 2) {
            overlap(rng, &mut survey);
        }
        survey
    });
    if rng.chance(1, 8) {
        surveys.reverse();
    }
    let mut ties = any_ties(rng, [0, 1].map(|i| surveys[i].groups.len()));
    let many = ties[0].len();
    match rng.below(8) {
        // Out of range, or tied again.
        0 if many > 0 => ties[rng.clone().below(2)][rng.below(many)] = rng.pick(&[0, 447, 448, 999]),
        1 if many > 0 => ties.iter_mut().for_each(|side| side.push(side[0])),
        // About as many as are read.
        2 if rng.chance(1, 4) => {
            let many = MAX_JUNCTIONS + rng.pick(&[0, 0, 1, 2, 99]) - rng.below(2);
            ties = [0; 2].map(|_| (0..many).map(|_| rng.below(MAX_JUNCTIONS) as u32).collect());
        }
        _ => {}
    }
    let mut texts = [0, 1].map(|i| survey_text(&surveys[i]));
    if rng.chance(1, 6) {
        texts[rng.clone().below(2)] = any_text(seed, case);
    }
    let lines: Vec<u8> =
        ties[0].iter().zip(&ties[1]).flat_map(|(u, v)| format!("tie={u},{v}\n").into_bytes()).collect();
    let mut input = [&texts[0][..], &texts[1], &lines].concat();
    // A byte of the ties, or of what stands before them, another line behind, or the end.
    let from = texts[0].len() + texts[1].len() * rng.below(2);
    let at = (from + rng.below(1 + lines.len())).min(input.len());
    match rng.below(12) {
        0 if at < input.len() => input[at] = rng.pick(b"0123456789,=\n tie\r"),
        1 => input.insert(at, rng.pick(b"0123456789,=\n tie")),
        2 => input.truncate(at),
        3 => input.extend(rng.pick(&[
            &b"tie=0,0\n"[..],
            b"tie=00,1\n",
            b"tie=1,1000\n",
            b"tie=0,0",
            b"\n",
            b"nodes=1\n",
        ])),
        _ => {}
    }
    let lines = merge_program(&input);
    Run::lines(input, Vec::new(), lines)
}
