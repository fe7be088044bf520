//! Single calls with their answers written out: what document 01 says of P1 to P12 and of the limits, and small cases
//! beside them, of reading, checking, printing and pairs, whose answers were worked out by hand from the papers'
//! sentences.

use super::{Library, CHECK_COUNTS, PLAN_COUNTS, PRINT_COUNTS, READ_COUNTS, STP_COUNTS, WHY_COUNTS};
use crate::gen::WORKED;
use crate::plan::record_room;
use crate::read::{Lengths, Lent};
use crate::stp;
use crate::{
    Survey, MAX_AMOUNT, MAX_JUNCTIONS, MAX_LINE, MAX_PAIRS, MAX_PRICE, MAX_RECORDS, MAX_TEXT, MAX_TRACKS, RECORD_BYTES,
};

/// An amount and members.
pub type Moat = (u64, &'static [usize]);

/// The record of a moat.
pub fn record((amount, members): Moat) -> Vec<u8> {
    let mut record = amount.to_le_bytes().to_vec();
    record.resize(RECORD_BYTES, 0);
    for v in members {
        record[8 + v / 8] |= 1 << (v % 8);
    }
    record
}

/// A plan: sites, cost, bound, rounds, a mark for each track, and the moats.
pub struct Expected {
    pub figures: [u64; 4],
    pub marks: &'static [u8],
    pub moats: &'static [Moat],
}

/// P1 to P11. What document 01 leaves unsaid of a survey is worked out by hand the same way.
pub const PLANS: [Expected; 11] = [
    Expected { figures: [0, 0, 0, 0], marks: &[], moats: &[] },
    Expected { figures: [2, 5, 10, 1], marks: &[2], moats: &[(5, &[0]), (5, &[1])] },
    Expected { figures: [2, 7, 14, 2], marks: &[2, 2], moats: &[(6, &[0]), (7, &[2]), (1, &[0, 1])] },
    Expected { figures: [3, 2, 3, 2], marks: &[2, 2, 0], moats: &[(1, &[0]), (1, &[1]), (1, &[2])] },
    Expected { figures: [2, 3, 6, 3], marks: &[2, 1, 1], moats: &[(2, &[0]), (3, &[1]), (1, &[0, 2, 3])] },
    Expected { figures: [2, 5, 10, 1], marks: &[2, 0], moats: &[(5, &[0]), (5, &[1])] },
    Expected { figures: [0, 0, 0, 0], marks: &[0], moats: &[] },
    Expected { figures: [2, 0, 0, 1], marks: &[2], moats: &[] },
    Expected { figures: [3, 10, 15, 2], marks: &[0, 0, 0, 2, 2, 0], moats: &[(5, &[1]), (5, &[2]), (5, &[3])] },
    Expected {
        figures: [4, 10, 14, 3],
        marks: &[2, 2, 2],
        moats: &[(4, &[0]), (2, &[1]), (2, &[2]), (4, &[3]), (2, &[1, 2])],
    },
    Expected { figures: [4, 7, 12, 3], marks: &[2, 2, 2], moats: &[(1, &[0]), (1, &[1]), (5, &[2]), (5, &[3])] },
];

/// Groups, and tracks (end, end, price).
type Tracks = (&'static [u8], &'static [(u32, u32, u32)]);

/// Number and place of a refusal.
type Refused = (u64, u64);

/// P3's text, and its plan as document 01 prints it.
pub const P3: &str = "nodes=3\nlinks=2\nnode=1\nnode=0\nnode=1\nlink=0,1,3\nlink=1,2,4\n";
pub const P3_PLAN: &str = "sites=2\ncost=7\nbound=14\nrounds=2\nkeep=0\nkeep=1\nmoat=6:0\nmoat=7:2\nmoat=1:0,1\n";

/// Texts, read into buffers that hold every survey.
const TEXTS: [(&str, Result<Tracks, Refused>); 27] = [
    (P3, Ok((&[1, 0, 1], &[(0, 1, 3), (1, 2, 4)]))),
    ("nodes=1\nlinks=0\nnode=0\n", Ok((&[0], &[]))),
    // 4, 5 and 6 wait for planning.
    ("nodes=2\nlinks=1\nnode=255\nnode=1\nlink=0,999,100000001\n", Ok((&[255, 1], &[(0, 999, 100_000_001)]))),
    ("", Err((16, 0))),
    ("nodes=03", Err((16, 7))),
    ("nodes=500", Err((16, 9))),
    ("nodes=500x", Err((16, 9))),
    ("nodes=10000000", Err((16, 13))),
    ("nodes=9999999\n", Err((1, 0))),
    ("nodes=449\nlinks=0\n", Err((1, 0))),
    ("nodes=0\n", Err((1, 0))),
    ("nodes=1\nlinks=2049\n", Err((3, 0))),
    ("nodes=1\nlinks=2049", Err((16, 18))),
    ("nodes=1\nlinks=0\nnode=256\n", Err((17, 0))),
    ("nodes=1\nlinks=0\nnode=256", Err((16, 24))),
    ("nodes=1\nlinks=0\nnode=0\n\n", Err((16, 23))),
    ("nodes=1\nlinks=0\nnode=0\nx", Err((16, 23))),
    ("nodes=2\nlinks=1\nnode=1\nnode=1\nlink=0,1\n", Err((16, 38))),
    ("nodes=2\nlinks=1\nnode=1\nnode=1\nlink=0,1,00\n", Err((16, 40))),
    ("nodes=1\r\nlinks=0\nnode=0\n", Err((16, 7))),
    ("nodes=448\nlinks=2048\nx", Err((16, 21))),
    // Ends have at most three digits.
    ("nodes=2\nlinks=1\nnode=1\nnode=1\nlink=1000,1,5\n", Err((16, 38))),
    ("nodes=2\nlinks=1\nnode=1\nnode=1\nlink=0,1000,5\n", Err((16, 40))),
    // Prices nine, counts and groups seven.
    ("nodes=1\nlinks=1\nnode=1\nlink=0,0,999999999\n", Ok((&[1], &[(0, 0, 999_999_999)]))),
    ("nodes=2\nlinks=1\nnode=1\nnode=1\nlink=0,1,1000000000\n", Err((16, 48))),
    ("nodes=1\nlinks=10000000\n", Err((16, 21))),
    ("nodes=1\nlinks=0\nnode=10000000\n", Err((16, 28))),
];

/// The beginning of a text with three junctions of groups 1, 0 and 2: 37 bytes, and no link line, so that it may end
/// after any also line.
const THREE: &str = "nodes=3\nlinks=0\nnode=1\nnode=0\nnode=2\n";

/// Also lines behind that beginning, the room for owners and others, and the pairs or the refusal.
type Alsos = (&'static str, [usize; 2], Result<&'static [(u32, u8)], Refused>);

const ALSOS: [Alsos; 43] = [
    ("", [0, 0], Ok(&[])),
    ("also=0,2\n", [1, 1], Ok(&[(0, 2)])),
    ("also=0,2\nalso=1,1\nalso=1,255\nalso=2,1\n", [4, 9], Ok(&[(0, 2), (1, 1), (1, 255), (2, 1)])),
    // 17 at v as written, before 18 and 7 of its line, behind those of earlier ones.
    ("also=0,256\n", [1, 1], Err((17, 0))),
    ("also=2,999\n", [0, 0], Err((17, 2))),
    ("also=3,256\n", [1, 1], Err((17, 3))),
    ("also=999,256\n", [0, 1], Err((17, 999))),
    ("also=1,1\nalso=0,256\n", [1, 1], Err((17, 0))),
    ("also=1,1\nalso=1,1\nalso=0,256\n", [9, 9], Err((18, 1))),
    ("also=1,1\nalso=1,2\nalso=0,256\n", [1, 9], Err((7, 0))),
    // 18 at the pair: v at n or above, g 0, the own one, out of order; before 7 of its line.
    ("also=3,1\n", [1, 1], Err((18, 0))),
    ("also=999,255\n", [0, 0], Err((18, 0))),
    ("also=0,0\n", [1, 1], Err((18, 0))),
    ("also=1,0\n", [1, 1], Err((18, 0))),
    ("also=0,1\n", [1, 1], Err((18, 0))),
    ("also=0,2\nalso=2,2\n", [2, 2], Err((18, 1))),
    ("also=1,2\nalso=1,2\n", [2, 2], Err((18, 1))),
    ("also=1,2\nalso=1,1\n", [1, 1], Err((18, 1))),
    ("also=1,2\nalso=0,3\n", [2, 1], Err((18, 1))),
    // 7 at the first line that has no room in either buffer, at once.
    ("also=0,2\n", [0, 1], Err((7, 0))),
    ("also=0,2\n", [1, 0], Err((7, 0))),
    ("also=0,2\nalso=1,1\nx", [1, 2], Err((7, 0))),
    ("also=0,2\nalso=1,1\nx", [2, 1], Err((7, 0))),
    ("also=0,2\nalso=1,1\nx", [2, 2], Err((16, 55))),
    ("also=0,2\nalso=1,1", [1, 1], Err((16, 54))),
    // Bytes.
    ("a", [9, 9], Err((16, 38))),
    ("x", [9, 9], Err((16, 37))),
    ("alsO=0,2\n", [9, 9], Err((16, 40))),
    ("also=", [9, 9], Err((16, 42))),
    ("also=,2\n", [9, 9], Err((16, 42))),
    ("also=0\n", [9, 9], Err((16, 43))),
    ("also=0,", [9, 9], Err((16, 44))),
    ("also=0,\n", [9, 9], Err((16, 44))),
    ("also=00,2\n", [9, 9], Err((16, 43))),
    ("also=0,02\n", [9, 9], Err((16, 45))),
    ("also=1000,2\n", [9, 9], Err((16, 45))),
    ("also=0,1000\n", [9, 9], Err((16, 47))),
    ("also=3,256", [9, 9], Err((16, 47))),
    ("also=3,256 ", [9, 9], Err((16, 47))),
    ("also=0,2,3\n", [9, 9], Err((16, 45))),
    ("also=0,2\r\n", [9, 9], Err((16, 45))),
    ("also=0,2\nnode=1\n", [9, 9], Err((16, 46))),
    ("also=0,2\nlink=0,1,3\n", [9, 9], Err((16, 46))),
];

/// Texts, read into a group buffer of one byte and edge buffers of one entry, one and none.
const TEXTS_SHORT: [(&str, Result<Tracks, Refused>); 3] = [
    ("nodes=1\nlinks=0\nnode=0\n", Ok((&[0], &[]))),
    ("nodes=2\nlinks=9999", Err((7, 0))),
    ("nodes=1\nlinks=1\nnode=300\n", Err((7, 0))),
];

/// The first line of an STP file: 42 bytes with its end.
const STP_HEAD: &str = "33D32945 STP File, STP Format Version 1.0\n";

/// What follows the first line, and the survey or the refusal.
const STP_TEXTS: [(&str, Result<Tracks, Refused>); 27] = [
    (
        "SECTION Graph\nNodes 3\nEdges 2\nE 1 2 3\nE 2 3 4\nEND\nSECTION Terminals\nTerminals 2\nT 1\nT 3\nEND\nEOF\n",
        Ok((&[1, 0, 1], &[(0, 1, 3), (1, 2, 4)])),
    ),
    (
        "\nSECTION Comment\n END\nEND \nEND\r\n\nSECTION Graph\nEND\n\nSECTION Graph\n\nNodes 2\n\n\nEdges 1\n\nE 2 2 999999999\n\nEND\n\n\
         SECTION Terminals\n\nTerminals 1\n\nT 2\n\nEND\n\nEOF\n\n",
        Ok((&[0, 1], &[(1, 1, 999_999_999)])),
    ),
    ("SECTION Graph\nNodes 1\nEdges 0\nEND\nSECTION Terminals\nTerminals 0\nEND\nEOF\n", Ok((&[0], &[]))),
    ("SECTION Graph\nNodes 1\nEdges 0\nEND\nSECTION Terminals\nTerminals 0\nEND\nEOF", Err((20, 113))),
    ("SECTION Graph\nNodes 1\nEdges 0\nEND\nSECTION Terminals\nTerminals 0\nEND\nEOF\n\nE", Err((20, 115))),
    ("SECTION Graph\nNodes 1\nEdges 0\nEND\nSECTION Comment\nEND\nSECTION Terminals\n", Err((20, 84))),
    ("SECTION Graph\nNodes 1\nEdges 0\nEND\nSECTION Terminals\nTerminals 0\nEND\nSECTION Comment\n", Err((20, 110))),
    ("SECTION Comment\nEND\nSECTION Comment\nEND\n", Err((20, 70))),
    ("SECTION Comment\nEND ", Err((20, 62))),
    ("", Err((20, 42))),
    ("SECTION graph\n", Err((20, 50))),
    // 1 and 3 when the line is complete.
    ("SECTION Graph\nNodes 0\nx", Err((1, 0))),
    ("SECTION Graph\nNodes 449\n", Err((1, 0))),
    ("SECTION Graph\nNodes 449", Err((20, 65))),
    ("SECTION Graph\nNodes 10000000\n", Err((20, 69))),
    ("SECTION Graph\nNodes 448\nEdges 2049\n", Err((3, 0))),
    ("SECTION Graph\nNodes 448\nEdges 2049 \n", Err((20, 76))),
    // Numbers of 12 nodes.
    ("SECTION Graph\nNodes 12\nEdges 1\nE 0 1 5\n", Err((20, 75))),
    ("SECTION Graph\nNodes 12\nEdges 1\nE 13 1 5\n", Err((20, 76))),
    ("SECTION Graph\nNodes 12\nEdges 1\nE 20 1 5\n", Err((20, 76))),
    ("SECTION Graph\nNodes 12\nEdges 1\nE 12 012 5\n", Err((20, 78))),
    ("SECTION Graph\nNodes 12\nEdges 1\nE 1 1 1000000000\n", Err((20, 88))),
    ("SECTION Graph\nNodes 12\nEdges 1\nE 1 2 5\nEND\nSECTION Terminals\nTerminals 13\n", Err((20, 114))),
    ("SECTION Graph\nNodes 12\nEdges 1\nE 1 2 5\nEND\nSECTION Terminals\nTerminals 2\nT 2\nT 2\n", Err((20, 121))),
    ("SECTION Graph\nNodes 12\nEdges 1\nE 1 2 5\nEND\nSECTION Terminals\nTerminals 2\nT 1\nT 1\n", Err((20, 122))),
    (
        "SECTION Graph\nNodes 12\nEdges 1\nE 1 2 5\nEND\nSECTION Terminals\nTerminals 5\nT 1\nT 10\nT 11\nT 12\nT 1\n",
        Err((20, 136)),
    ),
    ("SECTION Graph\nNodes 12\nEdges 1\nE 1 2 5\nEND\nSECTION Terminals\nTerminals 1\nEND\n", Err((20, 115))),
];

/// Marks and moats for the survey of P1 to P11: sites, cost and bound, or the refusal.
type Checked = (usize, &'static [u8], &'static [Moat], Result<[u64; 3], Refused>);

const CHECKED: [Checked; 17] = [
    (9, &[2, 2, 2, 0, 0, 0], &[(5, &[1]), (5, &[2]), (5, &[3])], Ok([3, 9, 15])),
    (10, &[2, 1, 2], &[(4, &[0]), (2, &[1]), (2, &[2]), (4, &[3]), (2, &[1, 2])], Err((14, 1))),
    (10, &[2, 2, 1], &[(4, &[0]), (2, &[1]), (2, &[2]), (4, &[3]), (2, &[1, 2])], Err((14, 2))),
    (2, &[2, 2], &[(5, &[0]), (5, &[1])], Err((9, 0))),
    (6, &[2, 3], &[(5, &[0]), (5, &[1])], Err((10, 1))),
    (6, &[2, 2], &[(5, &[0]), (5, &[1])], Err((15, 0))),
    (2, &[2], &[(5, &[0]), (0, &[1])], Err((11, 1))),
    (2, &[2], &[(5, &[0]), (5, &[2])], Err((11, 1))),
    (3, &[2, 2], &[(6, &[0]), (7, &[2]), (1, &[1])], Err((12, 2))),
    (2, &[2], &[(1, &[0, 1])], Err((12, 0))),
    (7, &[0], &[(1, &[0])], Err((12, 0))),
    // A moat that occurs twice: the amounts add.
    (2, &[2], &[(2, &[0]), (5, &[1]), (3, &[0])], Ok([2, 5, 10])),
    (2, &[2], &[(2, &[0]), (5, &[1]), (4, &[0])], Err((13, 0))),
    (3, &[2, 2], &[(6, &[0]), (8, &[2]), (1, &[0, 1])], Err((13, 1))),
    (2, &[1], &[(5, &[0]), (5, &[1])], Err((14, 1))),
    (2, &[2], &[(5, &[0]), (4, &[1])], Err((15, 0))),
    (7, &[2], &[], Err((15, 0))),
];

/// Surveys with pairs (v, g), and their plans.
type Listed = (&'static str, Tracks, &'static [(u32, u8)], Expected);

/// Two lists that share junction 1.
const SHARED: Tracks = (&[1, 1, 2], &[(0, 1, 3), (1, 2, 4)]);
const SHARED_PAIRS: &[(u32, u8)] = &[(1, 2)];
const SHARED_PLAN: Expected =
    Expected { figures: [3, 7, 11, 2], marks: &[2, 2], moats: &[(3, &[0]), (3, &[1]), (4, &[2]), (1, &[0, 1])] };

const LISTED: [Listed; 6] = [
    ("two lists that share a member, which is one site", SHARED, SHARED_PAIRS, SHARED_PLAN),
    ("no group of its own, and two pairs", (&[1, 0, 2], &[(0, 1, 3), (1, 2, 4)]), &[(1, 1), (1, 2)], SHARED_PLAN),
    (
        "a chain of three lists",
        (&[1, 1, 2, 3], &[(0, 1, 2), (1, 2, 2), (2, 3, 2)]),
        &[(1, 2), (2, 3)],
        Expected { figures: [4, 6, 8, 3], marks: &[2, 2, 2], moats: &[(2, &[0]), (2, &[1]), (2, &[2]), (2, &[3])] },
    ),
    (
        "two lists with the same members",
        (&[1, 1], &[(0, 1, 5)]),
        &[(0, 7), (1, 7)],
        Expected { figures: [2, 5, 10, 1], marks: &[2], moats: &[(5, &[0]), (5, &[1])] },
    ),
    ("lone members", (&[1, 0], &[(0, 1, 4)]), &[(1, 2)], Expected { figures: [0, 0, 0, 0], marks: &[0], moats: &[] }),
    (
        "a lone member that is in another list by a pair",
        (&[1, 2], &[(0, 1, 4)]),
        &[(0, 2)],
        Expected { figures: [2, 4, 8, 1], marks: &[2], moats: &[(4, &[0]), (4, &[1])] },
    ),
];

/// Pairs for the survey with two lists, and the pair that is refused with 18.
const PAIRS_REFUSED: [(&[(u32, u8)], u64); 8] = [
    (&[(3, 1)], 0),
    (&[(0, 2), (1, 2), (u32::MAX, 1)], 2),
    (&[(1, 0)], 0),
    (&[(0, 2), (1, 1)], 1),
    (&[(1, 2), (1, 2)], 1),
    (&[(1, 3), (1, 2)], 1),
    (&[(1, 2), (0, 2)], 1),
    (&[(1, 2); 300], 1),
];

/// Marks and moats for that survey.
const SHARED_CHECKED: [(&[u8], &[Moat], Result<[u64; 3], Refused>); 6] = [
    (&[2, 2], SHARED_PLAN.moats, Ok([3, 7, 11])),
    (&[2, 1], SHARED_PLAN.moats, Err((14, 2))),
    (&[1, 2], SHARED_PLAN.moats, Err((14, 1))),
    // List 2 alone is parted by the last moat.
    (&[2, 2], &[(3, &[0]), (3, &[1]), (4, &[2]), (1, &[0, 1])], Ok([3, 7, 11])),
    (&[2, 2], &[(3, &[0]), (1, &[0, 1, 2])], Err((12, 1))),
    (&[2, 2], &[(3, &[0]), (3, &[1]), (4, &[2])], Err((15, 0))),
];

/// The counts of a reason, and its route.
type Told = ([u64; WHY_COUNTS], &'static [u32]);

/// Reasons: of P1 to P12, a track, the room for the route, and the reason or the refusal.
type Asked = (usize, u32, usize, Result<Told, Refused>);

/// A track that isn't picked, whose ends were first in one component after this round.
const fn passed(round: u64) -> Told {
    ([0, 0, 0, 0, 0, round], &[])
}

const SPARED: Told = ([1, 0, 0, 0, 0, 0], &[]);

const ASKED: [Asked; 34] = [
    (1, 0, 0, Err((19, 0))),
    (2, 0, 1, Ok(([2, 1, 0, 1, 1, 0], &[0]))),
    (2, 0, 0, Err((7, 0))),
    (2, 1, 1, Err((19, 1))),
    (2, 2, 1, Err((19, 2))),
    (2, u32::MAX, 9, Err((19, u32::MAX as u64))),
    (2, u32::MAX, 0, Err((7, 0))),
    (3, 0, 2, Ok(([2, 1, 0, 2, 2, 0], &[0, 1]))),
    (3, 1, 5, Ok(([2, 1, 0, 2, 2, 0], &[0, 1]))),
    (3, 1, 1, Err((7, 0))),
    // The members of P4's group are all three junctions: 0 and 1 for track 0; 0 and 2 for track 1.
    (4, 0, 2, Ok(([2, 1, 0, 1, 1, 0], &[0]))),
    (4, 1, 2, Ok(([2, 1, 0, 2, 2, 0], &[0, 1]))),
    (4, 2, 2, Ok(passed(2))),
    (4, 2, 1, Err((7, 0))),
    (5, 0, 3, Ok(([2, 1, 0, 1, 1, 0], &[0]))),
    (5, 1, 3, Ok(SPARED)),
    (5, 2, 4, Ok(SPARED)),
    (5, 2, 2, Err((7, 0))),
    (6, 0, 1, Ok(([2, 1, 0, 1, 1, 0], &[0]))),
    (6, 1, 1, Ok(passed(1))),
    (7, 0, 1, Ok(passed(0))),
    (8, 0, 1, Ok(([2, 1, 0, 1, 1, 0], &[0]))),
    // P9: the spokes' ends are never in one component; the last rim track's are after round 2.
    (9, 0, 3, Ok(passed(0))),
    (9, 3, 3, Ok(([2, 1, 1, 2, 1, 0], &[3]))),
    (9, 4, 3, Ok(([2, 1, 1, 3, 1, 0], &[4]))),
    (9, 5, 3, Ok(passed(2))),
    (10, 0, 3, Ok(([2, 1, 0, 2, 2, 0], &[0, 1]))),
    (10, 1, 3, Ok(([2, 1, 0, 2, 2, 0], &[0, 1]))),
    (10, 2, 3, Ok(([2, 2, 1, 3, 2, 0], &[1, 2]))),
    // P11: walked from 2 to 3.
    (11, 0, 3, Ok(([2, 1, 0, 1, 1, 0], &[0]))),
    (11, 2, 3, Ok(([2, 2, 2, 3, 3, 0], &[1, 0, 2]))),
    (12, 0, 1, Err((8, 1))),
    (12, 7, 1, Err((8, 1))),
    (12, 7, 0, Err((7, 0))),
];

/// Reasons of the survey with two lists that share junction 1, and of one in which a list by pairs is the lower.
const SHARED_ASKED: [(Tracks, &[(u32, u8)], u32, Told); 4] = [
    (SHARED, SHARED_PAIRS, 0, ([2, 1, 0, 1, 1, 0], &[0])),
    (SHARED, SHARED_PAIRS, 1, ([2, 2, 1, 2, 1, 0], &[1])),
    (SHARED, &[(1, 2), (2, 1)], 1, ([2, 1, 0, 2, 2, 0], &[0, 1])),
    ((&[9, 0, 9], &[(2, 1, 4), (0, 1, 3)]), &[(1, 7), (2, 7)], 0, ([2, 7, 1, 2, 1, 0], &[0])),
];

/// Moats, the length of the buffer for the line, and the line or the refusal.
const LINES: [(Moat, usize, Result<&str, Refused>); 5] = [
    ((u64::MAX, &[]), MAX_LINE, Ok("moat=18446744073709551615:\n")),
    ((10, &[9, 255]), 14, Ok("moat=10:9,255\n")),
    ((10, &[9, 255]), 13, Err((7, 0))),
    ((10, &[0, 256, 447]), 18, Ok("moat=10:0,256,447\n")),
    ((0, &[]), 7, Err((7, 0))),
];

/// What the buffers hold before.
const BEFORE: u8 = 9;

/// The cases that came out as written, or the first that did not.
pub struct Cases<'a> {
    library: &'a Library,
    passed: usize,
}

fn one_number(refused: Refused) -> u64 {
    refused.0 + 256 * refused.1
}

fn worked(p: usize) -> Survey {
    Survey::new(WORKED[p - 1].0, WORKED[p - 1].1)
}

impl Cases<'_> {
    fn same<T: std::fmt::Debug + PartialEq>(&mut self, what: &str, came: T, want: T) -> Result<(), String> {
        if came != want {
            return Err(format!("{what}: {want:?} is expected, {came:?} came"));
        }
        self.passed += 1;
        Ok(())
    }

    fn read(&mut self, text: &str, room: Lengths, want: Result<(Tracks, &[(u32, u8)]), Refused>) -> Result<(), String> {
        let before = Survey {
            groups: vec![BEFORE; room.groups],
            first: vec![BEFORE.into(); room.first],
            second: vec![BEFORE.into(); room.second],
            prices: vec![BEFORE.into(); room.prices],
            owners: vec![BEFORE.into(); room.owners],
            others: vec![BEFORE; room.others],
        };
        let (mut came, mut counts) = (before.clone(), [7; READ_COUNTS]);
        let lent = Lent {
            groups: &mut came.groups,
            first: &mut came.first,
            second: &mut came.second,
            prices: &mut came.prices,
            owners: &mut came.owners,
            others: &mut came.others,
        };
        let code = (self.library.read)(text.as_bytes(), lent, &mut counts);
        let (mut after, mut want_code, mut want_counts) = (before, 0, [7; READ_COUNTS]);
        match want {
            Err(refused) => want_code = one_number(refused),
            Ok(((groups, tracks), pairs)) => {
                after.groups[..groups.len()].copy_from_slice(groups);
                for (i, &(u, v, price)) in tracks.iter().enumerate() {
                    (after.first[i], after.second[i], after.prices[i]) = (u, v, price);
                }
                for (i, &pair) in pairs.iter().enumerate() {
                    (after.owners[i], after.others[i]) = pair;
                }
                want_counts = [groups.len(), tracks.len(), pairs.len()].map(|count| count as u64);
            }
        }
        self.same(&format!("reading {text:?} into {room:?}"), (code, counts, came), (want_code, want_counts, after))
    }

    fn reading(&mut self) -> Result<(), String> {
        for (text, want) in TEXTS {
            self.read(text, Lengths::ENOUGH, want.map(|tracks| (tracks, &[][..])))?;
        }
        // Every text that stops early is refused at its length.
        let just = Lengths { groups: 3, first: 2, second: 2, prices: 2, owners: 0, others: 0 };
        for length in 0..P3.len() {
            self.read(&P3[..length], just, Err((16, length as u64)))?;
        }
        let short = Lengths { groups: 1, first: 1, second: 1, prices: 0, owners: 0, others: 0 };
        for (text, want) in TEXTS_SHORT {
            self.read(text, short, want.map(|tracks| (tracks, &[][..])))?;
        }
        for (alsos, [owners, others], want) in ALSOS {
            let room = Lengths { owners, others, ..just };
            self.read(&format!("{THREE}{alsos}"), room, want.map(|pairs| ((&[1, 0, 2][..], &[][..]), pairs)))?;
        }
        self.reading_many()
    }

    /// Up to 256 also lines, what stands where a 257th would, and the longest text.
    fn reading_many(&mut self) -> Result<(), String> {
        let all = (0..2).flat_map(|v| (2..=255).map(move |group| (v, group)));
        let rising: Vec<(u32, u8)> = all.take(MAX_PAIRS + 1).collect();
        let head = "nodes=2\nlinks=1\nnode=1\nnode=1\n";
        let lines =
            |many: usize| -> String { rising[..many].iter().map(|(v, group)| format!("also={v},{group}\n")).collect() };
        let tracks: Tracks = (&[1, 1], &[(0, 1, 3)]);
        for many in [MAX_PAIRS - 1, MAX_PAIRS] {
            let text = format!("{head}{}link=0,1,3\n", lines(many));
            self.read(&text, Lengths::ENOUGH, Ok((tracks, &rising[..many])))?;
            let short = Lengths { others: many - 1, ..Lengths::ENOUGH };
            self.read(&text, short, Err((7, 0)))?;
        }
        let full = format!("{head}{}", lines(MAX_PAIRS));
        for behind in ["a", "also=1,4\n", "also=1,255\nlink=0,1,3\n", "also=9,999\n", "\n", ""] {
            self.read(&format!("{full}{behind}"), Lengths::ENOUGH, Err((16, full.len() as u64)))?;
        }
        // 300 equal lines: the second.
        let equal = format!("{head}{}link=0,1,3\n", "also=0,2\n".repeat(300));
        self.read(&equal, Lengths::ENOUGH, Err((18, 1)))?;
        let longest = [
            "nodes=448\nlinks=2048\n".to_string(),
            "node=9999999\n".repeat(448),
            "also=999,999\n".repeat(256),
            "link=999,999,999999999\n".repeat(2_048),
        ];
        self.same("the longest text", longest.concat().len(), MAX_TEXT)?;
        self.read(&longest.concat(), Lengths::ENOUGH, Err((17, 0)))?;
        let text = format!("{}{}{}{}", longest[0], "node=255\n".repeat(448), longest[2], longest[3]);
        self.read(&text, Lengths::ENOUGH, Err((17, 999)))
    }

    /// An STP file, read into buffers of these lengths.
    fn read_stp(&mut self, text: &str, room: Lengths, want: Result<Tracks, Refused>) -> Result<(), String> {
        let ends = [room.first, room.second, room.prices].map(|length| vec![u32::from(BEFORE); length]);
        let before = (vec![BEFORE; room.groups], ends, [7; STP_COUNTS]);
        let (mut groups, [mut first, mut second, mut prices], mut counts) = before.clone();
        let lent = stp::Lent { groups: &mut groups, first: &mut first, second: &mut second, prices: &mut prices };
        let code = (self.library.read_stp)(text.as_bytes(), lent, &mut counts);
        let (mut after, mut want_code) = (before, 0);
        match want {
            Err(refused) => want_code = one_number(refused),
            Ok((groups, tracks)) => {
                after.0[..groups.len()].copy_from_slice(groups);
                for (i, &(u, v, price)) in tracks.iter().enumerate() {
                    [after.1[0][i], after.1[1][i], after.1[2][i]] = [u, v, price];
                }
                after.2 = [groups.len(), tracks.len()].map(|count| count as u64);
            }
        }
        let came = (code, (groups, [first, second, prices], counts));
        self.same(&format!("reading {text:?} into {room:?}"), came, (want_code, after))
    }

    fn reading_stp(&mut self) -> Result<(), String> {
        for (rest, want) in STP_TEXTS {
            self.read_stp(&format!("{STP_HEAD}{rest}"), Lengths::ENOUGH, want)?;
        }
        self.read_stp("\n", Lengths::ENOUGH, Err((20, 0)))?;
        self.read_stp(&format!("\n{STP_HEAD}{}", STP_TEXTS[0].0), Lengths::ENOUGH, Err((20, 0)))?;
        // Every file that stops early is refused at its length; just enough room, and one too few.
        let text = format!("{STP_HEAD}{}", STP_TEXTS[0].0);
        let just = Lengths { groups: 3, first: 2, second: 2, prices: 2, owners: 0, others: 0 };
        for length in 0..text.len() {
            self.read_stp(&text[..length], just, Err((20, length as u64)))?;
        }
        self.read_stp(&text, just, STP_TEXTS[0].1)?;
        for (room, nodes_line) in [
            (Lengths { groups: 2, ..just }, true),
            (Lengths { first: 1, ..just }, false),
            (Lengths { second: 1, ..just }, false),
            (Lengths { prices: 1, ..just }, false),
        ] {
            self.read_stp(&text, room, Err((7, 0)))?;
            self.read_stp(&text[..64], room, Err(if nodes_line { (7, 0) } else { (20, 64) }))?;
            self.read_stp(&text[..72], room, Err((7, 0)))?;
        }
        Ok(())
    }

    /// The code and counts of planning, the marks, and the records that were written.
    fn plan(&self, survey: &Survey) -> (u64, [u64; PLAN_COUNTS], Vec<u8>, Vec<u8>) {
        let (mut marks, mut records) =
            (vec![BEFORE; survey.first.len()], vec![BEFORE; record_room(survey.groups.len().max(1))]);
        let mut counts = [0; PLAN_COUNTS];
        let code = (self.library.plan)(survey.view(), &mut marks, &mut records, &mut counts);
        (code, counts, marks, records)
    }

    /// A finished plan: its figures, marks and moats, and what stood behind the moats.
    fn planned(&mut self, what: &str, survey: &Survey, want: &Expected) -> Result<(), String> {
        let (code, counts, marks, records) = self.plan(survey);
        let drawn: Vec<u8> = want.moats.iter().flat_map(|&moat| record(moat)).collect();
        let kept = vec![BEFORE; records.len() - drawn.len()];
        let [sites, cost, bound, rounds] = want.figures;
        self.same(
            &format!("planning {what}"),
            (code, counts, marks, records),
            (0, [sites, cost, bound, rounds, want.moats.len() as u64], want.marks.to_vec(), [drawn, kept].concat()),
        )
    }

    fn planning(&mut self) -> Result<(), String> {
        for (i, want) in PLANS.iter().enumerate() {
            self.planned(&format!("P{}", i + 1), &worked(i + 1), want)?;
        }
        self.same("planning P12", self.plan(&worked(12)).0, one_number((8, 1)))?;
        for (what, survey, want) in [
            ("price 100,000,000", Survey::new(&[1, 1], &[(0, 1, MAX_PRICE)]), 0),
            ("price 100,000,001", Survey::new(&[1, 1], &[(0, 1, MAX_PRICE + 1)]), 6),
            ("448 junctions", Survey::new(&[0; MAX_JUNCTIONS], &[]), 0),
            ("449 junctions", Survey::new(&[0; MAX_JUNCTIONS + 1], &[]), 1),
            ("2,048 tracks", Survey::new(&[1, 1], &[(0, 1, 3); MAX_TRACKS]), 0),
            ("2,049 tracks", Survey::new(&[1, 1], &[(0, 1, 3); MAX_TRACKS + 1]), 3),
        ] {
            self.same(what, self.plan(&survey).0, want)?;
        }
        Ok(())
    }

    fn check(
        &mut self,
        what: &str,
        survey: &Survey,
        marks: &[u8],
        records: &[u8],
        want: Result<[u64; CHECK_COUNTS], Refused>,
    ) -> Result<(), String> {
        let mut counts = [7; CHECK_COUNTS];
        let code = (self.library.check)(survey.view(), marks, records, &mut counts);
        let want = want.map_or_else(|refused| (one_number(refused), [7; CHECK_COUNTS]), |counts| (0, counts));
        self.same(what, (code, counts), want)
    }

    fn checking(&mut self) -> Result<(), String> {
        for (i, plan) in PLANS.iter().enumerate() {
            let records: Vec<u8> = plan.moats.iter().flat_map(|&moat| record(moat)).collect();
            let [sites, cost, bound, _] = plan.figures;
            let what = format!("checking P{}", i + 1);
            self.check(&what, &worked(i + 1), plan.marks, &records, Ok([sites, cost, bound]))?;
        }
        for (p, marks, moats, want) in CHECKED {
            let records: Vec<u8> = moats.iter().flat_map(|&moat| record(moat)).collect();
            self.check(&format!("checking P{p} with {marks:?} {moats:?}"), &worked(p), marks, &records, want)?;
        }
        let p4 = PLANS[3].moats.iter().flat_map(|&moat| record(moat)).collect::<Vec<_>>();
        self.check("checking P4 with all kept", &worked(4), &[2, 2, 2], &p4, Err((15, 0)))?;
        let pair = worked(2);
        self.check("a byte short of two records", &pair, &[2], &[0; 2 * RECORD_BYTES - 1], Err((9, 0)))?;
        self.check("896 records", &pair, &[2], &[0; (MAX_RECORDS + 1) * RECORD_BYTES], Err((9, 0)))?;
        self.check("895 records", &pair, &[2], &[0; MAX_RECORDS * RECORD_BYTES], Err((11, 0)))?;
        let dear = Survey::new(&[1, 1], &[(0, 1, MAX_PRICE)]);
        let passed = Ok([2, u64::from(MAX_PRICE), MAX_AMOUNT]);
        self.check("the largest amount", &dear, &[2], &record((MAX_AMOUNT, &[0])), passed)?;
        self.check("an amount too large", &dear, &[2], &record((MAX_AMOUNT + 1, &[0])), Err((11, 0)))
    }

    fn pairs(&mut self) -> Result<(), String> {
        for (what, (groups, tracks), pairs, want) in LISTED {
            self.planned(what, &Survey::new(groups, tracks).with_pairs(pairs), &want)?;
        }
        let shared = Survey::new(SHARED.0, SHARED.1);
        for (pairs, at) in PAIRS_REFUSED {
            let came = self.plan(&shared.clone().with_pairs(pairs));
            let untouched = (one_number((18, at)), [0; PLAN_COUNTS], vec![BEFORE; 2], vec![BEFORE; record_room(3)]);
            self.same(&format!("planning with {pairs:?}"), came, untouched)?;
        }
        for (marks, moats, want) in SHARED_CHECKED {
            let records: Vec<u8> = moats.iter().flat_map(|&moat| record(moat)).collect();
            let survey = shared.clone().with_pairs(SHARED_PAIRS);
            self.check(&format!("checking two lists with {marks:?} {moats:?}"), &survey, marks, &records, want)?;
        }
        self.pairs_many()?;
        self.pairs_order()
    }

    /// 256 rising pairs, and 257.
    fn pairs_many(&mut self) -> Result<(), String> {
        let all = (0..2).flat_map(|v| (2..=255).map(move |group| (v, group)));
        let rising: Vec<(u32, u8)> = all.take(MAX_PAIRS + 1).collect();
        let survey = Survey::new(&[1, 1], &[(0, 1, 3)]);
        for (many, want) in [(MAX_PAIRS, 0), (MAX_PAIRS + 1, one_number((18, 256)))] {
            let paired = survey.clone().with_pairs(&rising[..many]);
            self.same(&format!("planning with {many} pairs"), self.plan(&paired).0, want)?;
            let plan = [record((3, &[0])), record((3, &[1]))].concat();
            let want = if want == 0 { Ok([2, 3, 6]) } else { Err((18, 256)) };
            self.check(&format!("checking with {many} pairs"), &paired, &[2], &plan, want)?;
        }
        Ok(())
    }

    /// Which of two refusals comes, and which list cannot be joined.
    fn pairs_order(&mut self) -> Result<(), String> {
        let survey = |groups: &[u8], tracks: &[(u32, u32, u32)], pairs: &[(u32, u8)]| {
            Survey::new(groups, tracks).with_pairs(pairs)
        };
        let uneven = |mut survey: Survey| {
            survey.others.push(1);
            survey
        };
        for (what, survey, want) in [
            ("6 before 18", survey(&[1, 1], &[(0, 1, MAX_PRICE + 1)], &[(0, 0)]), (6, 0)),
            ("18 before 8", survey(&[1, 1], &[], &[(0, 2), (0, 2)]), (18, 1)),
            ("pairs of unequal length", uneven(survey(&[1, 1], &[(0, 1, 3)], &[(0, 2)])), (2, 0)),
            ("pairs of unequal length, and no junction", uneven(survey(&[], &[], &[])), (1, 0)),
            ("pairs of unequal length before 3", uneven(survey(&[1, 1], &[(0, 1, 3); MAX_TRACKS + 1], &[])), (2, 0)),
            ("pairs of unequal length before 4", uneven(survey(&[1, 1], &[(0, 2, 3)], &[])), (2, 0)),
            ("3 before 18", survey(&[1, 1], &[(0, 1, 3); MAX_TRACKS + 1], &[(2, 1)]), (3, 0)),
            ("a list that shares a member with a lower one", survey(SHARED.0, &[(0, 1, 3)], SHARED_PAIRS), (8, 2)),
        ] {
            self.same(what, self.plan(&survey).0, one_number(want))?;
        }
        let bad = survey(SHARED.0, SHARED.1, &[(1, 1)]);
        let short = (self.library.plan)(bad.view(), &mut [], &mut [], &mut []);
        self.same("18 before 7", short, one_number((18, 0)))?;
        self.check("18 before 9", &bad, &[], &[0; 7], Err((18, 0)))
    }

    /// A reason in a route buffer of so many entries, or the refusal.
    fn ask(
        &mut self,
        what: &str,
        survey: &Survey,
        track: u32,
        room: usize,
        want: Result<Told, Refused>,
    ) -> Result<(), String> {
        let before = vec![u32::from(BEFORE); room];
        let (mut route, mut counts) = (before.clone(), [7; WHY_COUNTS]);
        let code = (self.library.why)(survey.view(), track, &mut route, &mut counts);
        let (mut want_route, mut want_counts, mut want_code) = (before, [7; WHY_COUNTS], 0);
        match want {
            Err(refused) => want_code = one_number(refused),
            Ok((counts, tracks)) => {
                want_route[..tracks.len()].copy_from_slice(tracks);
                want_counts = counts;
            }
        }
        self.same(&format!("why track {track} of {what}"), (code, counts, route), (want_code, want_counts, want_route))
    }

    fn asking(&mut self) -> Result<(), String> {
        for (p, track, room, want) in ASKED {
            self.ask(&format!("P{p}, {room} entries"), &worked(p), track, room, want)?;
        }
        for ((groups, tracks), pairs, track, told) in SHARED_ASKED {
            let survey = Survey::new(groups, tracks).with_pairs(pairs);
            self.ask(&format!("{survey:?}"), &survey, track, groups.len(), Ok(told))?;
        }
        let bad = Survey::new(SHARED.0, SHARED.1).with_pairs(&[(1, 1)]);
        self.ask("an own group, 0 entries", &bad, 9, 0, Err((18, 0)))?;
        let (survey, mut route) = (worked(12), [9]);
        let code = (self.library.why)(survey.view(), 9, &mut route, &mut [0; WHY_COUNTS - 1]);
        self.same("why with a count too few", (code, route), (7, [9]))
    }

    /// A printed text at the beginning of a buffer of so many bytes, or the refusal.
    fn print(
        &mut self,
        what: &str,
        room: usize,
        call: impl Fn(&Library, &mut [u8], &mut [u64]) -> u64,
        want: Result<&str, Refused>,
    ) -> Result<(), String> {
        let (mut out, mut counts) = (vec![BEFORE; room], [7; PRINT_COUNTS]);
        let code = call(self.library, &mut out, &mut counts);
        let (mut want_out, mut want_counts, mut want_code) = (vec![BEFORE; room], [7; PRINT_COUNTS], 0);
        match want {
            Err(refused) => want_code = one_number(refused),
            Ok(text) => {
                want_out[..text.len()].copy_from_slice(text.as_bytes());
                want_counts[0] = text.len() as u64;
            }
        }
        self.same(what, (code, counts, out), (want_code, want_counts, want_out))
    }

    fn printing(&mut self) -> Result<(), String> {
        for (moat, room, want) in LINES {
            self.print(
                &format!("printing {moat:?}"),
                room,
                |library, out, counts| (library.print_moat)(&record(moat), out, counts),
                want,
            )?;
        }
        for length in [0, RECORD_BYTES - 1, RECORD_BYTES + 1] {
            self.print(
                &format!("printing a record of {length} bytes"),
                MAX_LINE,
                |library, out, counts| (library.print_moat)(&vec![0; length], out, counts),
                Err((9, 0)),
            )?;
        }
        let p3 = worked(3);
        let text =
            |library: &Library, out: &mut [u8], counts: &mut [u64]| (library.print_survey)(p3.view(), out, counts);
        self.print("printing P3's survey", MAX_LINE, text, Ok(P3))?;
        self.print("printing P3's survey, a byte short", P3.len() - 1, text, Err((7, 0)))?;
        let shared = Survey::new(SHARED.0, SHARED.1).with_pairs(&[(1, 2), (9_999, 0)]);
        let listed =
            |library: &Library, out: &mut [u8], counts: &mut [u64]| (library.print_survey)(shared.view(), out, counts);
        let shared_text = "nodes=3\nlinks=2\nnode=1\nnode=1\nnode=2\nalso=1,2\nalso=9999,0\nlink=0,1,3\nlink=1,2,4\n";
        self.print("printing a survey with pairs", shared_text.len(), listed, Ok(shared_text))?;
        self.print("printing a survey with pairs, a byte short", shared_text.len() - 1, listed, Err((7, 0)))?;
        let [mut dear, mut owned, mut other] = [p3.clone(), p3.clone(), p3.clone()];
        dear.prices.pop();
        owned.owners.push(1);
        other.others.push(1);
        for (what, torn) in [("price too few", dear), ("owner too many", owned), ("group too many", other)] {
            for room in [MAX_LINE, 0] {
                self.print(
                    &format!("printing a survey with a {what}, {room} bytes"),
                    room,
                    |library, out, counts| (library.print_survey)(torn.view(), out, counts),
                    Err((2, 0)),
                )?;
            }
        }
        let moats: Vec<u8> = PLANS[2].moats.iter().flat_map(|&moat| record(moat)).collect();
        let plan = |library: &Library, out: &mut [u8], counts: &mut [u64]| {
            (library.print_plan)(PLANS[2].figures, PLANS[2].marks, &moats, out, counts)
        };
        self.print("printing P3's plan", MAX_LINE, plan, Ok(P3_PLAN))?;
        self.print("printing P3's plan, a byte short", P3_PLAN.len() - 1, plan, Err((7, 0)))
    }
}

/// How many cases came out as written, or what the first did instead that did not.
pub fn cases(library: &Library) -> Result<usize, String> {
    let mut cases = Cases { library, passed: 0 };
    cases.reading()?;
    cases.reading_stp()?;
    cases.planning()?;
    cases.checking()?;
    cases.pairs()?;
    cases.asking()?;
    cases.printing()?;
    Ok(cases.passed)
}
