//! The reader against a second statement of the place of 16 (the first byte that fits no well-formed
//! text): prefixes are judged whole, line by line, with nothing carried over.

use evidence::gen::{directed_texts, text_case, Rng};
use evidence::read::{parse, Lengths};
use evidence::Refusal;

/// What a line may hold: its key, and for each number how many digits it may have.
type Kind = (&'static str, &'static [usize]);

const NODE: Kind = ("node=", &[7]);
const ALSO: Kind = ("also=", &[3, 3]);
const LINK: Kind = ("link=", &[3, 3, 9]);

/// The kind of a line among these, the last of which may be open. Behind the node lines the lines that begin with an a
/// are also lines, as far as there are not more than 256 of them.
fn kind(lines: &[&[u8]], line: usize, n: usize, m: usize) -> Option<Kind> {
    let behind = lines.get(2 + n..).unwrap_or(&[]);
    let alsos = behind.iter().take(256).take_while(|line| line.first() == Some(&b'a')).count();
    match line {
        0 => Some(("nodes=", &[7])),
        1 => Some(("links=", &[7])),
        _ if line - 2 < n => Some(NODE),
        _ if line - 2 - n < alsos => Some(ALSO),
        _ if line - 2 - n - alsos < m => Some(LINK),
        _ => None,
    }
}

/// The numbers of a line without its line end, if they are well-formed.
fn numbers(line: &[u8], (key, digits): Kind) -> Option<Vec<u64>> {
    let rest = line.strip_prefix(key.as_bytes())?;
    let fields: Vec<&[u8]> = rest.split(|&byte| byte == b',').collect();
    if fields.len() != digits.len() {
        return None;
    }
    fields
        .into_iter()
        .zip(digits)
        .map(|(field, &most)| {
            let digits = (1..=most).contains(&field.len()) && field.iter().all(u8::is_ascii_digit);
            let leading = field.len() > 1 && field[0] == b'0';
            if digits && !leading {
                std::str::from_utf8(field).ok()?.parse().ok()
            } else {
                None
            }
        })
        .collect()
}

/// Can bytes follow so that the line is well-formed?
fn begins(line: &[u8], kind: Kind) -> bool {
    kind.0.as_bytes().starts_with(line)
        || (0..kind.1.len()).any(|commas| {
            // Completing a line means: a number if none has begun, then the numbers that are missing.
            ["", "1"].iter().any(|number| {
                let mut whole = line.to_vec();
                whole.extend_from_slice(number.as_bytes());
                whole.extend_from_slice(",1".repeat(commas).as_bytes());
                numbers(&whole, kind).is_some()
            })
        })
}

/// Is the last of these pairs sound, if those before it are? `own` has the groups of the node lines.
fn sound(pairs: &[Vec<u64>], own: &[u64]) -> bool {
    let place = |pair: &Vec<u64>| 1_000 * pair[0] + pair[1];
    let last = &pairs[pairs.len() - 1];
    let rising = pairs.windows(2).all(|two| place(&two[0]) < place(&two[1]));
    rising && last[1] != 0 && own.get(last[0] as usize).is_some_and(|&group| group != last[1])
}

/// The finding in a prefix that has none before its last byte; `None` if it can go on.
fn finding(prefix: &[u8], lengths: Lengths) -> Option<Refusal> {
    let refuse = |number, place: u64| Some(Refusal { number, place });
    let malformed = refuse(16, prefix.len().saturating_sub(1) as u64);
    let (mut n, mut m) = (0, 0);
    let lines: Vec<&[u8]> = prefix.split(|&byte| byte == b'\n').collect();
    let (open, complete) = lines.split_last()?;
    let (mut own, mut pairs) = (Vec::new(), Vec::new());
    for (i, line) in complete.iter().enumerate() {
        let Some(kind) = kind(&lines, i, n, m) else { return malformed };
        let Some(values) = numbers(line, kind) else { return malformed };
        match i {
            0 if values[0] == 0 || values[0] > 448 => return refuse(1, 0),
            0 if values[0] > lengths.groups as u64 => return refuse(7, 0),
            0 => n = values[0] as usize,
            1 if values[0] > 2_048 => return refuse(3, 0),
            1 if values[0] > lengths.first.min(lengths.second).min(lengths.prices) as u64 => return refuse(7, 0),
            1 => m = values[0] as usize,
            _ if kind == NODE && values[0] > 255 => return refuse(17, i as u64 - 2),
            _ if kind == NODE => own.push(values[0]),
            _ if kind == ALSO && values[1] > 255 => return refuse(17, values[0]),
            _ if kind == ALSO => {
                pairs.push(values);
                if !sound(&pairs, &own) {
                    return refuse(18, pairs.len() as u64 - 1);
                }
                if pairs.len() > lengths.owners.min(lengths.others) {
                    return refuse(7, 0);
                }
            }
            _ => {}
        }
    }
    let goes_on = open.is_empty() || kind(&lines, complete.len(), n, m).is_some_and(|kind| begins(open, kind));
    if goes_on {
        None
    } else {
        malformed
    }
}

/// Is a text without findings complete?
fn complete(text: &[u8]) -> bool {
    let lines: Vec<&[u8]> = text.split(|&byte| byte == b'\n').collect();
    let count =
        |line: usize, key| lines.get(line).and_then(|line| numbers(line, (key, &[7]))).map(|values| values[0] as usize);
    let (Some(n), Some(m)) = (count(0, "nodes="), count(1, "links=")) else { return false };
    let last = lines.len() - 1;
    lines[last].is_empty() && last >= 2 + n && kind(&lines, last, n, m).is_none()
}

/// What a text comes to. Of a long one the last bytes are looked at one by one, if the bytes before them can go on.
fn expected(text: &[u8], lengths: Lengths) -> Option<Refusal> {
    let first = text.len().saturating_sub(100);
    let first = if finding(&text[..first], lengths).is_none() { first } else { 0 };
    let early = (first..=text.len()).find_map(|length| finding(&text[..length], lengths));
    let stops = Refusal { number: 16, place: text.len() as u64 };
    early.or(if complete(text) { None } else { Some(stops) })
}

fn agree(text: &[u8], lengths: Lengths) {
    let found = parse(text, lengths).err();
    assert_eq!(found, expected(text, lengths), "{lengths:?} {}", text.escape_ascii());
}

#[test]
fn directed() {
    for text in directed_texts().iter().filter(|text| text.len() < 200) {
        agree(text, Lengths::ENOUGH);
    }
}

/// 255, 256 and 257 also lines, and some behind them.
#[test]
fn many_also_lines() {
    let many = directed_texts().iter().filter(|text| (2_000..4_000).contains(&text.len()));
    let alsos = |text: &[u8]| text.windows(6).filter(|window| *window == b"\nalso=").count();
    let mut met = 0;
    for text in many.filter(|text| alsos(text) > 200) {
        agree(text, Lengths::ENOUGH);
        met += 1;
    }
    assert!(met > 60, "{met}");
}

#[test]
fn every_byte_of_p3() {
    let p3 = b"nodes=3\nlinks=2\nnode=1\nnode=0\nnode=1\nlink=0,1,3\nlink=1,2,4\n";
    for at in 0..p3.len() {
        for byte in 0..=255 {
            let mut text = p3.to_vec();
            text[at] = byte;
            agree(&text, Lengths::ENOUGH);
        }
    }
}

/// Each byte of texts with also lines in all 256 values, also left out and doubled, with room for all pairs, for one
/// and for none.
#[test]
fn every_byte_with_also_lines() {
    let texts: [&[u8]; 3] = [
        b"nodes=3\nlinks=2\nnode=1\nnode=0\nnode=2\nalso=0,2\nalso=1,12\nlink=0,1,3\nlink=1,2,4\n",
        b"nodes=2\nlinks=0\nnode=1\nnode=0\nalso=0,255\nalso=1,1\n",
        b"nodes=12\nlinks=0\nnode=1\nnode=1\nnode=1\nnode=1\nnode=1\nnode=1\nnode=1\nnode=1\nnode=1\nnode=1\nnode=1\n\
          node=25\nalso=1,25\nalso=10,25\nalso=11,1\n",
    ];
    for text in texts {
        let from = text.windows(5).position(|key| key == b"also=").expect("it has also lines");
        for at in 0..text.len() {
            let mut changed: Vec<Vec<u8>> = vec![
                text[..at].to_vec(),
                [&text[..at], &text[at + 1..]].concat(),
                [&text[..=at], &text[at..]].concat(),
            ];
            let some = b"\n,0123456789al";
            let values: Vec<u8> = if at < from { some.to_vec() } else { (0..=255).collect() };
            changed.extend(values.into_iter().map(|byte| [&text[..at], &[byte], &text[at + 1..]].concat()));
            for text in changed {
                agree(&text, Lengths::ENOUGH);
                if text.get(at).is_some_and(|byte| some.contains(byte)) {
                    agree(&text, Lengths { owners: 1, ..Lengths::ENOUGH });
                    agree(&text, Lengths { others: 0, ..Lengths::ENOUGH });
                }
            }
        }
    }
}

#[test]
fn every_short_end() {
    // All texts that follow some beginnings by up to three bytes of the classes that count.
    let beginnings = [
        "",
        "nodes=",
        "nodes=1\n",
        "nodes=1\nlinks=",
        "nodes=1\nlinks=0\n",
        "nodes=1\nlinks=0\nnode=0",
        "nodes=1\nlinks=1\nnode=25",
        "nodes=1\nlinks=1\nnode=0\n",
        "nodes=1\nlinks=0\nnode=5\n",
        "nodes=1\nlinks=0\nnode=5\nals",
        "nodes=1\nlinks=0\nnode=5\nalso=",
        "nodes=1\nlinks=0\nnode=5\nalso=0,",
        "nodes=1\nlinks=0\nnode=5\nalso=0,15\nalso=0,1",
        "nodes=1\nlinks=1\nnode=0\nlink=",
        "nodes=1\nlinks=1\nnode=0\nlink=99",
        "nodes=1\nlinks=1\nnode=0\nlink=1,1,",
        "nodes=1\nlinks=1\nnode=0\nlink=1,1,99999999",
        "nodes=448\nlinks=204",
        "nodes=44",
        "nodes=999999",
        "nodes=9999999",
    ];
    let classes = b"\n0159,=nlax";
    for beginning in beginnings {
        for tail in 0..(classes.len() + 1).pow(3) {
            let mut text = beginning.as_bytes().to_vec();
            let mut rest = tail;
            while rest > 0 {
                text.extend(classes.get(rest % (classes.len() + 1)));
                rest /= classes.len() + 1;
            }
            agree(&text, Lengths::ENOUGH);
        }
    }
}

#[test]
fn generated() {
    let mut many = 0;
    for case in 0.. {
        let text = text_case(11, 10_000 + case);
        if text.len() > 400 {
            continue;
        }
        agree(&text, Lengths::ENOUGH);
        let mut rng = Rng::of_case(12, case);
        let mut length = |enough: usize| if rng.chance(1, 2) { enough } else { rng.below(20) };
        let lengths = Lengths {
            groups: length(448),
            first: length(2_048),
            second: length(2_048),
            prices: length(2_048),
            owners: length(256),
            others: length(256),
        };
        agree(&text, lengths);
        many += 1;
        if many == 3_000 {
            break;
        }
    }
}
