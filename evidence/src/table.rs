//! Track tables for the memory card (document 02, No. 10), a second time, and generated tables that hold a library
//! against it.
//!
//! The paper: a track is twelve bytes; the first bytes of all tracks come first, then all second bytes, and so on, and
//! the inverse gives the tracks again; 23 for a length that is no multiple of twelve, then 7 for a short result; bytes
//! past the table's length keep their values.

use crate::gen::Rng;
use crate::read::{parse, Lengths};
use crate::{refuse, Refusal, MAX_INPUT};

/// Bytes of a track.
pub const TRACK: usize = 12;
/// Tracks of a survey, at most; a table may have more, but not one that the program takes.
pub const MOST: usize = 2_048;

/// The two calls.
#[derive(Clone, Copy)]
pub struct Tables {
    pub pack: fn(&[u8], &mut [u8]) -> u64,
    pub unpack: fn(&[u8], &mut [u8]) -> u64,
}

/// 23, then 7, then the table.
fn answer(table: &[u8], out: &mut [u8], turned: impl FnOnce() -> Vec<u8>) -> u64 {
    if table.len() % TRACK != 0 {
        return 23;
    }
    if out.len() < table.len() {
        return 7;
    }
    out[..table.len()].copy_from_slice(&turned());
    0
}

/// Each rank's bytes, track by track.
fn pack(table: &[u8], out: &mut [u8]) -> u64 {
    answer(table, out, || (0..TRACK).flat_map(|rank| table.iter().skip(rank).step_by(TRACK).copied()).collect())
}

/// Each track's bytes, one of each rank.
fn unpack(table: &[u8], out: &mut [u8]) -> u64 {
    answer(table, out, || {
        let tracks = table.len() / TRACK;
        (0..tracks).flat_map(|track| (0..TRACK).map(move |rank| table[rank * tracks + track])).collect()
    })
}

/// The second implementation.
pub const SECOND: Tables = Tables { pack, unpack };

/// What the program writes: without a word a survey's table, with `pack` or `unpack` a table turned. It reads a track
/// more than the largest table has.
pub fn table_program(input: &[u8], word: &str) -> Result<Vec<u8>, Refusal> {
    if word.is_empty() {
        let survey = parse(&input[..input.len().min(MAX_INPUT)], Lengths::ENOUGH)?;
        let tracks = survey.first.iter().zip(&survey.second).zip(&survey.prices);
        return Ok(tracks.flat_map(|((u, v), price)| [u, v, price]).flat_map(|number| number.to_le_bytes()).collect());
    }
    let table = &input[..input.len().min(TRACK * MOST + TRACK)];
    let mut out = vec![0; TRACK * MOST];
    let turn = if word == "pack" { pack } else { unpack };
    match turn(table, &mut out) {
        0 => Ok(out[..table.len()].to_vec()),
        number => refuse(number as u32, 0),
    }
}

/// Packing and unpacking.
pub const CALLS: [(&str, bool); 2] = [("pack_table", false), ("unpack_table", true)];

/// A table and a result buffer, with any bytes in both.
#[derive(Clone, Debug)]
pub struct Case {
    pub table: Vec<u8>,
    pub out: Vec<u8>,
}

/// Lengths 0 to 40 with results that are empty, one short, just enough, one more and a track more.
const SHORTEST: u64 = 41;
const ROOMS: u64 = 5;
/// Any bytes behind the result, which no call may touch.
const BEHIND: [u8; 16] = [0xa5; 16];

fn any(rng: &mut Rng, length: usize) -> Vec<u8> {
    (0..length).map(|_| rng.word() as u8).collect()
}

/// A case: first every length up to 40, then tables of whole tracks, some of them with a part of one, a 64th of them
/// the largest.
pub fn case(seed: u64, number: u64, unpacks: bool) -> Case {
    let rng = &mut Rng::of_case(seed ^ 0x7461_626c << u64::from(unpacks), number);
    let directed = number < SHORTEST * ROOMS;
    let length = match (directed, rng.below(64)) {
        (true, _) => (number / ROOMS) as usize,
        (false, 0) => TRACK * rng.pick(&[MOST, MOST, MOST - 1, MOST + 1, TRACK]),
        (false, 1..=10) => rng.below(40 * TRACK),
        _ => TRACK * rng.below(60),
    };
    let room = match if directed { number % ROOMS } else { rng.below(12) as u64 } {
        0 => rng.below(length + 1) * usize::from(!directed),
        1 => length.saturating_sub(1),
        3 => length + 1,
        4 => length + TRACK,
        5 => length + rng.between(1, 50),
        _ => length,
    };
    Case { table: any(rng, length), out: any(rng, room) }
}

/// What a call answers, and the result buffer with what stands behind it.
fn run(call: fn(&[u8], &mut [u8]) -> u64, case: &Case) -> (u64, Vec<u8>) {
    let mut out = [&case.out[..], &BEHIND].concat();
    let answer = call(&case.table, &mut out[..case.out.len()]);
    (answer, out)
}

/// Holds a library against the second implementation on one case, and undoes what it wrote: the refusal that came, or
/// what differs.
pub fn compare(tables: &Tables, seed: u64, number: u64, unpacks: bool) -> Result<u64, String> {
    let case = case(seed, number, unpacks);
    let name = CALLS[usize::from(unpacks)].0;
    let (ours, theirs, back) = match unpacks {
        false => (SECOND.pack, tables.pack, tables.unpack),
        true => (SECOND.unpack, tables.unpack, tables.pack),
    };
    let (expected, came) = (run(ours, &case), run(theirs, &case));
    if expected != came {
        return Err(format!("{name} of {case:?}: the second implementation has {expected:?}, the library {came:?}"));
    }
    let length = case.table.len();
    if came.0 == 0 {
        let again = run(back, &Case { table: came.1[..length].to_vec(), out: case.out.clone() });
        if again.0 != 0 || again.1[..length] != case.table {
            return Err(format!("{name} of {case:?} is not undone: {again:?}"));
        }
    }
    Ok(came.0 % 256)
}
