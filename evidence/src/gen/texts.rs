//! Survey texts, sound and damaged.

use super::also;
use super::surveys::{full, overlap, refused_pairs, refused_survey, survey, Size, WORKED};
use super::Rng;
use crate::print::survey_text;
use crate::{
    highest, Survey, COUNT_DIGITS, END_DIGITS, MAX_INPUT, MAX_JUNCTIONS, MAX_PAIRS, MAX_PRICE, MAX_TEXT, MAX_TRACKS,
    PRICE_DIGITS,
};
use std::sync::OnceLock;

/// Numbers at the boundaries of counts, groups, ends, prices and digits, and some that are no number.
#[rustfmt::skip]
pub(super) const TOKENS: [&str; 47] = [
    "0", "1", "2", "3", "9", "10", "00", "01", "03", "010", "99", "100", "254", "255", "256", "257", "300", "447", "448", "449", "999",
    "1000", "2047", "2048", "2049", "65535", "65536", "99999", "999999", "1000000", "1000001", "9999999", "10000000",
    "99999999", "100000000", "100000001", "999999999", "1000000000", "4294967296", "18446744073709551616", "", "-1", "+1", " 1", "1 ", "1.0", "x",
];

/// Bytes that stand for the classes in the text, and some that occur nowhere.
pub(super) const BYTES: [u8; 17] =
    [b'0', b'1', b'9', b'/', b':', b',', b'=', b'\n', b'\r', b'a', b'n', b'l', b'N', b' ', 0, 128, 255];

/// The runs of digits in a text, as start and end.
pub(super) fn numbers(text: &[u8]) -> Vec<(usize, usize)> {
    let mut runs = Vec::new();
    let mut at = 0;
    while at < text.len() {
        let start = at;
        while at < text.len() && text[at].is_ascii_digit() {
            at += 1;
        }
        if at > start {
            runs.push((start, at));
        }
        at += 1;
    }
    runs
}

pub(super) fn splice(text: &[u8], start: usize, end: usize, by: &[u8]) -> Vec<u8> {
    [&text[..start], by, &text[end..]].concat()
}

/// Lines with their line ends.
pub(super) fn lines(text: &[u8]) -> Vec<Vec<u8>> {
    text.split_inclusive(|&byte| byte == b'\n').map(|line| line.to_vec()).collect()
}

/// The texts that come first, whatever the seed: the surveys of 01, every limit, every refusal, and P3's text stopped,
/// changed, cut and widened at every byte.
pub fn directed_texts() -> &'static [Vec<u8>] {
    static ALL: OnceLock<Vec<Vec<u8>>> = OnceLock::new();
    ALL.get_or_init(build_directed)
}

fn build_directed() -> Vec<Vec<u8>> {
    let mut all: Vec<Vec<u8>> = Vec::new();
    for (groups, tracks) in WORKED {
        all.push(survey_text(&Survey::new(groups, tracks)));
    }

    // Counts and digits.
    for token in TOKENS {
        all.push(format!("nodes={token}").into_bytes());
        all.push(format!("nodes={token}\n").into_bytes());
        all.push(format!("nodes={token}\nlinks=0\n").into_bytes());
        all.push(format!("nodes=1\nlinks={token}").into_bytes());
        all.push(format!("nodes=1\nlinks={token}\n").into_bytes());
        all.push(format!("nodes=1\nlinks={token}\nnode=0\n").into_bytes());
        all.push(format!("nodes=1\nlinks=0\nnode={token}").into_bytes());
        all.push(format!("nodes=1\nlinks=0\nnode={token}\n").into_bytes());
        all.push(format!("nodes=2\nlinks=0\nnode=1\nnode={token}\n").into_bytes());
        for track in [format!("{token},1,5"), format!("0,{token},5"), format!("0,1,{token}")] {
            all.push(format!("nodes=2\nlinks=1\nnode=1\nnode=1\nlink={track}\n").into_bytes());
            all.push(format!("nodes=2\nlinks=2\nnode=1\nnode=1\nlink=0,1,7\nlink={track}\n").into_bytes());
        }
    }
    for digits in 1..=11 {
        for digit in ["0", "1", "9"] {
            all.push(format!("nodes={}\n", digit.repeat(digits)).into_bytes());
            all.push(format!("nodes=1\nlinks={}\n", digit.repeat(digits)).into_bytes());
            all.push(format!("nodes=1\nlinks=0\nnode={}\n", digit.repeat(digits)).into_bytes());
            all.push(format!("nodes=1\nlinks=1\nnode=0\nlink=0,0,{}\n", digit.repeat(digits)).into_bytes());
        }
    }

    // P3's text, byte by byte.
    let p3 = survey_text(&Survey::new(WORKED[2].0, WORKED[2].1));
    for at in 0..p3.len() {
        all.push(p3[..at].to_vec());
        all.push(splice(&p3, at, at + 1, &[]));
        all.push(splice(&p3, at, at, &[p3[at]]));
        for byte in BYTES {
            all.push(splice(&p3, at, at + 1, &[byte]));
        }
        all.push(splice(&p3, at, at, b"0"));
        all.push(splice(&p3, at, at, b"\n"));
    }
    for byte in BYTES {
        all.push(splice(&p3, p3.len(), p3.len(), &[byte]));
    }
    for at in 0..lines(&p3).len() {
        for change in 0..3 {
            let mut lines = lines(&p3);
            match change {
                0 => drop(lines.remove(at)),
                1 => lines.insert(at, lines[at].clone()),
                _ => {
                    let last = lines.len() - 1;
                    lines.swap(at, last);
                }
            }
            all.push(lines.concat());
        }
    }
    all.push(p3.iter().copied().filter(|&byte| byte != b'\n').collect());
    all.push([&p3[..], &p3[..]].concat());

    // A later finding behind an earlier one.
    all.push(format!("nodes={}\nlinks={}\n", MAX_JUNCTIONS + 1, MAX_TRACKS + 1).into_bytes());
    all.push(b"nodes=2\nlinks=2049\nnode=256\n".to_vec());
    all.push(b"nodes=2\nlinks=0\nnode=256\nnode=0256\n".to_vec());
    let dear = MAX_PRICE + 1;
    all.push(format!("nodes=2\nlinks=1\nnode=1\nnode=256\nlink=9,9,{dear}\n").into_bytes());
    all.push(format!("nodes=2\nlinks=1\nnode=1\nnode=1\nlink=9,9,{dear}\nx").into_bytes());
    all.push(format!("nodes=2\nlinks=1\nnode=1\nnode=1\nlink=9,9,{dear}\n").into_bytes());
    all.push(format!("nodes=2\nlinks=1\nnode=1\nnode=1\nlink=1,1,{dear}\n").into_bytes());
    all.push(format!("nodes=2\nlinks=2\nnode=1\nnode=1\nlink=0,1,{dear}\nlink=2,0,1\n").into_bytes());
    all.push(b"nodes=3\nlinks=1\nnode=5\nnode=5\nnode=5\nlink=0,1,1\n".to_vec());
    all.push(b"nodes=4\nlinks=0\nnode=9\nnode=3\nnode=3\nnode=9\n".to_vec());
    all.push(b"nodes=5\nlinks=1\nnode=9\nnode=3\nnode=0\nnode=3\nnode=9\nlink=1,3,0\n".to_vec());

    // The limits.
    for n in [MAX_JUNCTIONS - 1, MAX_JUNCTIONS, MAX_JUNCTIONS + 1] {
        let path: Vec<_> = (1..n as u32).map(|v| (v - 1, v, MAX_PRICE)).collect();
        let mut ends = vec![0; n];
        (ends[0], ends[n - 1]) = (255, 255);
        all.push(survey_text(&Survey::new(&ends, &path)));
        all.push(survey_text(&Survey::new(&vec![1; n], &path)));
        all.push(survey_text(&Survey::new(&vec![1; n], &[])));
    }
    for m in [MAX_TRACKS - 1, MAX_TRACKS, MAX_TRACKS + 1] {
        all.push(survey_text(&Survey::new(&[1, 1], &vec![(0, 1, MAX_PRICE); m])));
        all.push(survey_text(&Survey::new(&[1, 0], &vec![(1, 0, 0); m])));
    }
    let (count, end, price) = (highest(COUNT_DIGITS), highest(END_DIGITS), highest(PRICE_DIGITS));
    let head = format!("nodes={MAX_JUNCTIONS}\nlinks={MAX_TRACKS}\n");
    let links = format!("link={end},{end},{price}\n").repeat(MAX_TRACKS);
    let longest = |groups: &str, alsos: &str| [&head, groups, alsos, &links].concat();
    let groups = format!("node={count}\n").repeat(MAX_JUNCTIONS);
    let alsos = format!("also={end},{end}\n").repeat(MAX_PAIRS);
    let in_groups = "node=255\n".repeat(MAX_JUNCTIONS);
    let mut rng = Rng::new(1);
    let large = survey_text(&full(&mut rng, MAX_JUNCTIONS));
    assert_eq!(longest(&groups, &alsos).len(), MAX_TEXT);
    for text in [
        longest(&groups, &alsos).into_bytes(),
        longest(&in_groups, &alsos).into_bytes(),
        longest(&in_groups, &also::widest()).into_bytes(),
        longest(&in_groups, "").into_bytes(),
        large,
    ] {
        for length in [text.len() + 1, MAX_INPUT - 1, MAX_INPUT, MAX_INPUT + 1, 3 * MAX_INPUT] {
            let mut longer = text.clone();
            longer.resize(length, b'\n');
            all.push(longer);
        }
        all.push(text[..text.len() - 1].to_vec());
        all.push(text);
    }
    all.push(vec![b'x'; 2 * MAX_INPUT]);
    all.push([b"nodes=".to_vec(), vec![b'1'; 2 * MAX_INPUT]].concat());
    also::directed(&mut all);
    all
}

/// One or two damages to a text.
fn damage(rng: &mut Rng, mut text: Vec<u8>) -> Vec<u8> {
    for _ in 0..if rng.chance(1, 4) { 2 } else { 1 } {
        if text.is_empty() {
            return text;
        }
        let at = rng.below(text.len());
        text = match rng.below(14) {
            0 => {
                text[at] ^= 1 << rng.below(8);
                text
            }
            1 => {
                text[at] = rng.pick(&BYTES);
                text
            }
            2 => {
                text[at] = rng.below(256) as u8;
                text
            }
            3 => {
                let end = text.len().min(at + rng.between(1, 12));
                splice(&text, at, end, &[])
            }
            4 => {
                let end = text.len().min(at + rng.between(1, 12));
                let again = text[at..end].to_vec();
                splice(&text, at, at, &again)
            }
            5 => {
                text.truncate(at);
                text
            }
            6 => {
                let byte = rng.pick(&BYTES);
                splice(&text, at, at, &[byte])
            }
            // A number gets a leading zero, or another value.
            7..=9 => {
                let runs = numbers(&text);
                if runs.is_empty() {
                    return text;
                }
                let early = rng.chance(1, 3);
                let (start, end) = runs[rng.below(if early { runs.len().min(3) } else { runs.len() })];
                if rng.chance(1, 4) {
                    splice(&text, start, start, b"0")
                } else {
                    splice(&text, start, end, rng.pick(&TOKENS).as_bytes())
                }
            }
            // A line goes, comes twice, or moves.
            10 => {
                let mut lines = lines(&text);
                let (one, other) = (rng.below(lines.len()), rng.below(lines.len()));
                match rng.below(3) {
                    0 => drop(lines.remove(one)),
                    1 => lines.insert(other, lines[one].clone()),
                    _ => lines.swap(one, other),
                }
                lines.concat()
            }
            // An also line, mostly behind the node lines or between also lines.
            11..=12 => {
                let mut lines = lines(&text);
                let nodes = lines.iter().filter(|line| line.starts_with(b"node=")).count();
                let alsos = lines.iter().filter(|line| line.starts_with(b"also=")).count();
                let v = rng.pick(&[0, 0, nodes / 2, nodes, nodes + 1, 999, 1_000]);
                let group = rng.pick(&[0, 1, 2, 255, 256, 256, 999, 1_000]);
                let first = (nodes + 2).min(lines.len());
                let at = if rng.chance(1, 4) {
                    rng.below(lines.len())
                } else {
                    (first + rng.below(alsos + 1)).min(lines.len())
                };
                lines.insert(at, format!("also={v},{group}\n").into_bytes());
                lines.concat()
            }
            _ => {
                let more = rng.between(1, 20);
                for _ in 0..more {
                    text.push(rng.pick(&BYTES));
                }
                text
            }
        };
    }
    text
}

/// The input of a case: first the directed texts, then for every seed its own. More than half are sound surveys, some
/// of which can't be joined, half of them with also lines; the others are surveys due 4, 5, 6 or 18, and damaged texts.
pub fn text_case(seed: u64, case: u64) -> Vec<u8> {
    if let Some(text) = directed_texts().get(case as usize) {
        return text.clone();
    }
    let rng = &mut Rng::of_case(seed, case);
    let size = match rng.below(100) {
        0..=29 => Size::Tiny,
        30..=64 => Size::Small,
        65..=93 => Size::Middle,
        94..=98 => Size::Large,
        _ => Size::Full,
    };
    let mut survey = survey(rng, size);
    if rng.chance(1, 2) {
        overlap(rng, &mut survey);
    }
    match rng.below(100) {
        0..=54 => survey_text(&survey),
        55..=61 => {
            refused_survey(rng, &mut survey);
            survey_text(&survey)
        }
        62..=68 => {
            refused_pairs(rng, &mut survey);
            survey_text(&survey)
        }
        _ => damage(rng, survey_text(&survey)),
    }
}
