//! Track tables, a second time: No. 10's sentences worked by hand; the generated cases have every length up to 40 and
//! meet 23 and 7; and libraries with one fault each are told from the second implementation.

use evidence::table::{case, compare, Tables, CALLS, SECOND, TRACK};
use std::collections::BTreeSet;

const SEED: u64 = 5;
const CASES: u64 = 3_000;

#[test]
fn two_tracks_by_hand() {
    // From 1 to 2 at 300, and from 3 to 4 at 5.
    let table = [1, 0, 0, 0, 2, 0, 0, 0, 44, 1, 0, 0, 3, 0, 0, 0, 4, 0, 0, 0, 5, 0, 0, 0];
    let packed = [1, 3, 0, 0, 0, 0, 0, 0, 2, 4, 0, 0, 0, 0, 0, 0, 44, 5, 1, 0, 0, 0, 0, 0];
    let mut out = [9; 25];
    assert_eq!((SECOND.pack)(&table, &mut out), 0);
    assert_eq!((&out[..24], out[24]), (&packed[..], 9));
    let mut back = [9; 24];
    assert_eq!((SECOND.unpack)(&packed, &mut back), 0);
    assert_eq!(back, table);
}

#[test]
fn refusals_by_hand() {
    for call in [SECOND.pack, SECOND.unpack] {
        let mut out = [9; 24];
        // 23 before 7; nothing is written; an empty table is fine
        assert_eq!((call(&[1; 25], &mut out), call(&[1; 11], &mut out[..0])), (23, 23));
        assert_eq!((call(&[1; 24], &mut out[..23]), call(&[1; 36], &mut out)), (7, 7));
        assert_eq!((call(&[], &mut []), call(&[], &mut out), out), (0, 0, [9; 24]));
    }
}

#[test]
fn the_cases_meet_every_short_length_and_refusal() {
    for (_, unpacks) in CALLS {
        let lengths: BTreeSet<usize> = (0..CASES).map(|c| case(SEED, c, unpacks).table.len()).collect();
        assert!((0..=40).all(|length| lengths.contains(&length)));
        assert!(lengths.contains(&(2_048 * TRACK)) && lengths.contains(&(TRACK * TRACK)));
        let came: BTreeSet<u64> = (0..CASES).map(|c| compare(&SECOND, SEED, c, unpacks).unwrap()).collect();
        assert_eq!(came.into_iter().collect::<Vec<_>>(), [0, 7, 23]);
    }
}

/// What a faulty library begins with.
fn spoilt(table: &[u8], out: &mut [u8], unpacks: bool) -> u64 {
    match unpacks {
        false => (SECOND.pack)(table, out),
        true => (SECOND.unpack)(table, out),
    }
}

#[test]
fn libraries_with_one_fault_are_told() {
    let faulty: [(&str, Tables); 6] = [
        ("rows and columns swapped", Tables { pack: SECOND.unpack, unpack: SECOND.pack }),
        ("the inverse right for square tables only", Tables { unpack: SECOND.pack, ..SECOND }),
        (
            "7 before 23",
            Tables { pack: |t, out| if out.len() < t.len() { 7 } else { spoilt(t, out, false) }, ..SECOND },
        ),
        (
            "a byte past the length written",
            Tables {
                unpack: |t, out| {
                    let answer = spoilt(t, out, true);
                    if answer == 0 && out.len() > t.len() {
                        out[t.len()] = 0;
                    }
                    answer
                },
                ..SECOND
            },
        ),
        (
            "the last row lost",
            Tables {
                pack: |t, out| {
                    let last = out.to_vec();
                    let answer = spoilt(t, out, false);
                    if answer == 0 && !t.is_empty() {
                        out[t.len() - 1] = last[t.len() - 1];
                    }
                    answer
                },
                ..SECOND
            },
        ),
        (
            "written although refused",
            Tables {
                unpack: |t, out| {
                    let answer = spoilt(t, out, true);
                    if answer == 7 && !out.is_empty() {
                        out[0] = t[0];
                    }
                    answer
                },
                ..SECOND
            },
        ),
    ];
    for (fault, tables) in faulty {
        let told = CALLS.iter().any(|&(_, unpacks)| (0..CASES).any(|c| compare(&tables, SEED, c, unpacks).is_err()));
        assert!(told, "{fault} is not told");
    }
}
