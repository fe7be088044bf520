//! The comparison of single calls finds faults in reading STP files: readers with one fault each are told from the
//! second implementation by the generated calls.

use evidence::calls::generated::{Operation, OPERATIONS};
use evidence::calls::{code, Library, SECOND, STP_COUNTS};
use evidence::gen::directed_stp;
use evidence::read::Lengths;
use evidence::stp::{parse, Lent, HEADER};
use evidence::{Refusal, Survey};

type Reader = fn(&[u8], Lent, &mut [u64]) -> u64;

/// A reader that answers for buffers of these lengths.
type Parser = fn(&[u8], Lengths) -> Result<Survey, Refusal>;

/// The call that a reader makes; counts that are short are 7 at the nodes line.
fn call(
    reader: impl Fn(&[u8], Lengths) -> Result<Survey, Refusal>,
    text: &[u8],
    lent: Lent,
    counts: &mut [u64],
) -> u64 {
    let mut lengths = lent.lengths();
    if counts.len() < STP_COUNTS {
        lengths.groups = 0;
    }
    match reader(text, lengths) {
        Err(refusal) => code(refusal),
        Ok(_) if counts.len() < STP_COUNTS => 7,
        Ok(survey) => {
            let (n, m) = (survey.groups.len(), survey.first.len());
            lent.groups[..n].copy_from_slice(&survey.groups);
            lent.first[..m].copy_from_slice(&survey.first);
            lent.second[..m].copy_from_slice(&survey.second);
            lent.prices[..m].copy_from_slice(&survey.prices);
            counts[..STP_COUNTS].copy_from_slice(&[n as u64, m as u64]);
            0
        }
    }
}

/// The place of 20 is another, as `at` says of the text and the place.
fn place(at: impl Fn(&[u8], usize) -> usize, text: &[u8], lengths: Lengths) -> Result<Survey, Refusal> {
    parse(text, lengths).map_err(|refusal| match refusal.number {
        20 => Refusal { place: at(text, refusal.place as usize) as u64, ..refusal },
        _ => refusal,
    })
}

/// A text that is refused with 20 is read as if it were another one, which is well.
fn as_if(other: impl Fn(&[u8]) -> Option<Vec<u8>>, text: &[u8], lengths: Lengths) -> Result<Survey, Refusal> {
    let refused = parse(text, lengths);
    match (&refused, other(text)) {
        (Err(Refusal { number: 20, .. }), Some(other)) => parse(&other, lengths).or(refused),
        _ => refused,
    }
}

/// Where the line of a place begins.
fn line_start(text: &[u8], at: usize) -> usize {
    text[..at].iter().rposition(|&byte| byte == b'\n').map_or(0, |end| end + 1)
}

fn line_end(text: &[u8], at: usize) -> usize {
    at + text[at..].iter().position(|&byte| byte == b'\n').unwrap_or(text.len() - at)
}

/// The first digit of the number in or right before a place.
fn number_start(text: &[u8], at: usize) -> usize {
    at - text[..at].iter().rev().take_while(|byte| byte.is_ascii_digit()).count()
}

fn find(text: &[u8], what: &[u8]) -> Option<usize> {
    text.windows(what.len()).position(|window| window == what)
}

/// The text with one piece in place of another, at its first occurrence.
fn with(text: &[u8], what: &[u8], instead: &[u8]) -> Option<Vec<u8>> {
    let at = find(text, what)?;
    Some([&text[..at], instead, &text[at + what.len()..]].concat())
}

fn ends_from_1(text: &[u8], lengths: Lengths) -> Result<Survey, Refusal> {
    parse(text, lengths).map(|mut survey| {
        survey.first.iter_mut().chain(&mut survey.second).for_each(|end| *end += 1);
        survey
    })
}

/// Terminals are marked a junction too high; the last one is left out.
fn terminals_from_1(text: &[u8], lengths: Lengths) -> Result<Survey, Refusal> {
    parse(text, lengths).map(|mut survey| {
        survey.groups.rotate_right(1);
        survey.groups[0] = 0;
        survey
    })
}

/// A terminal that comes again is taken as one that is free.
fn terminal_twice(text: &[u8], lengths: Lengths) -> Result<Survey, Refusal> {
    let first = parse(text, lengths);
    let (mut text, mut spare) = (text.to_vec(), Vec::new());
    loop {
        let refusal = match parse(&text, lengths) {
            Err(refusal) if refusal.number == 20 => refusal,
            Ok(mut survey) => {
                spare.iter().for_each(|&v: &usize| survey.groups[v - 1] = 0);
                return Ok(survey);
            }
            _ => return first,
        };
        let at = refusal.place as usize;
        let (start, end) = (line_start(&text, at), line_end(&text, at));
        let lines: Vec<&[u8]> = text.split(|&byte| byte == b'\n').collect();
        let line = &text[start..end];
        if !line.starts_with(b"T ") || !text[..start].split(|&byte| byte == b'\n').any(|before| before == line) {
            return first;
        }
        let free = (1..=448).find(|v| !lines.contains(&format!("T {v}").as_bytes()));
        let Some(free) = free else { return first };
        spare.push(free);
        text.splice(start..end, format!("T {free}").bytes());
    }
}

fn at_the_end_of_the_line(text: &[u8], lengths: Lengths) -> Result<Survey, Refusal> {
    place(line_end, text, lengths)
}

fn at_the_numbers_first_byte(text: &[u8], lengths: Lengths) -> Result<Survey, Refusal> {
    place(number_start, text, lengths)
}

fn at_the_lines_first_byte(text: &[u8], lengths: Lengths) -> Result<Survey, Refusal> {
    place(line_start, text, lengths)
}

/// A number that is out of range is refused behind it, when it is whole.
fn behind_the_number(text: &[u8], lengths: Lengths) -> Result<Survey, Refusal> {
    let behind = |text: &[u8], at: usize| at + text[at..].iter().take_while(|byte| byte.is_ascii_digit()).count();
    place(behind, text, lengths)
}

/// A terminal twice is refused at the byte behind it, whatever is free.
fn twice_behind_the_number(text: &[u8], lengths: Lengths) -> Result<Survey, Refusal> {
    let behind = |text: &[u8], at: usize| {
        let (start, end) = (line_start(text, at), line_end(text, at));
        let line = &text[start..end];
        let again = text[..start].split(|&byte| byte == b'\n').any(|before| before == line);
        if line.starts_with(b"T ") && again {
            end
        } else {
            at
        }
    };
    place(behind, text, lengths)
}

fn eof_without_its_end(text: &[u8], lengths: Lengths) -> Result<Survey, Refusal> {
    as_if(|text| text.ends_with(b"EOF").then(|| [text, b"\n"].concat()), text, lengths)
}

fn no_eof(text: &[u8], lengths: Lengths) -> Result<Survey, Refusal> {
    as_if(|text| text.ends_with(b"\n").then(|| [text, b"EOF\n"].concat()), text, lengths)
}

fn rest_ignored(text: &[u8], lengths: Lengths) -> Result<Survey, Refusal> {
    as_if(|text| find(text, b"\nEOF\n").map(|at| text[..at + 5].to_vec()), text, lengths)
}

fn terminals_without_a_group(text: &[u8], lengths: Lengths) -> Result<Survey, Refusal> {
    parse(text, lengths).map(|survey| Survey { groups: vec![0; survey.groups.len()], ..survey })
}

/// A group of its own for each terminal.
fn terminals_by_number(text: &[u8], lengths: Lengths) -> Result<Survey, Refusal> {
    parse(text, lengths).map(|mut survey| {
        let mut group = 0;
        for own in survey.groups.iter_mut().filter(|own| **own == 1) {
            group = (group % 255) + 1;
            *own = group;
        }
        survey
    })
}

fn blank_end_of_a_comment(text: &[u8], lengths: Lengths) -> Result<Survey, Refusal> {
    let changed = with(text, b"\nEND \n", b"\nEND\n").filter(|_| find(text, b"SECTION Comment\n").is_some());
    parse(&changed.unwrap_or_else(|| text.to_vec()), lengths)
}

fn indented_end_of_a_comment(text: &[u8], lengths: Lengths) -> Result<Survey, Refusal> {
    as_if(|text| with(text, b"\n END\nSECTION Graph", b"\nEND\nSECTION Graph"), text, lengths)
}

/// A comment that stands behind this line is cut out.
fn comment_behind(line: &[u8], text: &[u8], lengths: Lengths) -> Result<Survey, Refusal> {
    let cut = |text: &[u8]| {
        let from = find(text, line)?;
        let at = from + find(&text[from..], b"\nSECTION Comment\n")? + 1;
        let end = at + find(&text[at..], b"\nEND\n")? + 5;
        Some([&text[..at], &text[end..]].concat())
    };
    as_if(cut, text, lengths)
}

fn comment_after_the_graph(text: &[u8], lengths: Lengths) -> Result<Survey, Refusal> {
    comment_behind(b"SECTION Graph\n", text, lengths)
}

fn two_comments(text: &[u8], lengths: Lengths) -> Result<Survey, Refusal> {
    comment_behind(b"SECTION Comment\n", text, lengths)
}

fn empty_line_first(text: &[u8], lengths: Lengths) -> Result<Survey, Refusal> {
    as_if(
        |text| {
            find(text, b"33D").filter(|&at| text[..at].iter().all(|&byte| byte == b'\n')).map(|at| text[at..].to_vec())
        },
        text,
        lengths,
    )
}

/// A number of terminals over that of nodes goes through; 20 comes where one more than there are nodes would stand.
fn more_terminals_than_nodes(text: &[u8], lengths: Lengths) -> Result<Survey, Refusal> {
    let first = parse(text, lengths);
    let Err(Refusal { number: 20, place }) = first else { return first };
    let (start, end) = (line_start(text, place as usize), line_end(text, place as usize));
    let line = String::from_utf8_lossy(&text[start..end]).into_owned();
    let Some(t) = line.strip_prefix("Terminals ").filter(|t| t.parse::<u32>().is_ok_and(|t| t > 0)) else {
        return first;
    };
    let Some(n) = find(text, b"\nNodes ").map(|at| text[at + 7..line_end(text, at + 7)].to_vec()) else {
        return first;
    };
    let changed = [&text[..start + 10], &n, &text[end..]].concat();
    let at = match parse(&changed, lengths) {
        Ok(_) => changed.windows(5).rposition(|window| window == b"\nEND\n").expect("it has an end") + 1,
        Err(refusal) => refusal.place as usize,
    };
    Err(Refusal { number: 20, place: (at + t.len() - n.len()) as u64 })
}

fn carriage_returns(text: &[u8], lengths: Lengths) -> Result<Survey, Refusal> {
    let without = |text: &[u8]| Some(text.iter().copied().filter(|&byte| byte != b'\r').collect());
    as_if(without, text, lengths)
}

fn any_case(text: &[u8], lengths: Lengths) -> Result<Survey, Refusal> {
    let proper = |text: &[u8]| {
        let mut text = String::from_utf8(text.to_vec()).ok()?.to_lowercase();
        for word in ["SECTION", "Graph", "Nodes", "Edges", "END", "Terminals", "EOF", "Comment"] {
            text = text.replace(&word.to_lowercase(), word);
        }
        text = text.replace(&HEADER.to_lowercase(), HEADER).replace("\ne ", "\nE ").replace("\nt ", "\nT ");
        Some(text.into_bytes())
    };
    as_if(proper, text, lengths)
}

/// Zeros before a number, but in its only digit, are left out.
fn leading_zeros(text: &[u8], lengths: Lengths) -> Result<Survey, Refusal> {
    let without = |text: &[u8]| {
        let mut out = Vec::new();
        for (i, &byte) in text.iter().enumerate() {
            let next = text.get(i + 1).is_some_and(u8::is_ascii_digit);
            if byte != b'0' || out.last() != Some(&b' ') || !next {
                out.push(byte);
            }
        }
        Some(out)
    };
    as_if(without, text, lengths)
}

fn two_spaces(text: &[u8], lengths: Lengths) -> Result<Survey, Refusal> {
    let single = |text: &[u8]| {
        let mut out = text.to_vec();
        out.dedup_by(|a, b| *a == b' ' && *b == b' ');
        Some(out)
    };
    as_if(single, text, lengths)
}

/// No empty line between the lines of a list.
fn no_empty_lines_in_lists(text: &[u8], lengths: Lengths) -> Result<Survey, Refusal> {
    let survey = parse(text, lengths)?;
    let open = [&b"\nE "[..], b"\nT "].into_iter().filter_map(|line| {
        let at = find(text, line)? + 1;
        let end = line_end(text, at) + 1;
        (text.get(end) == Some(&b'\n')).then_some(end)
    });
    match open.min() {
        Some(at) => Err(Refusal { number: 20, place: at as u64 }),
        None => Ok(survey),
    }
}

fn equal_ends_refused(text: &[u8], lengths: Lengths) -> Result<Survey, Refusal> {
    let survey = parse(text, lengths)?;
    match survey.first.iter().zip(&survey.second).position(|(first, second)| first == second) {
        Some(track) => Err(Refusal { number: 5, place: track as u64 }),
        None => Ok(survey),
    }
}

fn high_prices_refused(text: &[u8], lengths: Lengths) -> Result<Survey, Refusal> {
    let survey = parse(text, lengths)?;
    match survey.prices.iter().position(|&price| price > 100_000_000) {
        Some(track) => Err(Refusal { number: 6, place: track as u64 }),
        None => Ok(survey),
    }
}

fn sixteen(text: &[u8], lengths: Lengths) -> Result<Survey, Refusal> {
    parse(text, lengths).map_err(|refusal| match refusal.number {
        20 => Refusal { number: 16, ..refusal },
        _ => refusal,
    })
}

/// A text that stops early is refused at its last byte.
fn stopped_at_the_last_byte(text: &[u8], lengths: Lengths) -> Result<Survey, Refusal> {
    place(|text, at| if at == text.len() { at.saturating_sub(1) } else { at }, text, lengths)
}

/// 1 and 3 before the line is complete.
fn early_count(text: &[u8], lengths: Lengths) -> Result<Survey, Refusal> {
    parse(text, lengths).map_err(|refusal| match parse(&[text, b"\n"].concat(), lengths) {
        Err(other) if other.number < 7 => other,
        _ => refusal,
    })
}

fn seven_at_the_end(text: &[u8], lengths: Lengths) -> Result<Survey, Refusal> {
    parse(text, Lengths::ENOUGH).and_then(|_| parse(text, lengths))
}

fn seven_before_one_and_three(text: &[u8], lengths: Lengths) -> Result<Survey, Refusal> {
    parse(text, lengths).map_err(|refusal| match refusal.number {
        1 if lengths.groups < 449 => Refusal { number: 7, place: 0 },
        3 if lengths.prices < 2_049 => Refusal { number: 7, place: 0 },
        _ => refusal,
    })
}

fn first_ends_for_second(text: &[u8], lengths: Lengths) -> Result<Survey, Refusal> {
    parse(text, lengths).map(|survey| Survey { second: survey.first.clone(), ..survey })
}

/// Each fault of a reader as a call.
macro_rules! reader {
    ($parser:ident) => {{
        let checked: Parser = $parser;
        let _ = checked;
        |text, lent, counts| call($parser, text, lent, counts)
    }};
}

fn n_and_m_swapped(text: &[u8], lent: Lent, counts: &mut [u64]) -> u64 {
    let answer = (SECOND.read_stp)(text, lent, counts);
    if answer == 0 {
        counts.swap(0, 1);
    }
    answer
}

fn groups_on_refusal(text: &[u8], lent: Lent, counts: &mut [u64]) -> u64 {
    let Lent { groups, first, second, prices } = lent;
    let answer = (SECOND.read_stp)(text, Lent { groups, first, second, prices }, counts);
    if answer != 0 {
        groups.fill(0);
    }
    answer
}

fn later_groups_zeroed(text: &[u8], lent: Lent, counts: &mut [u64]) -> u64 {
    let Lent { groups, first, second, prices } = lent;
    let answer = (SECOND.read_stp)(text, Lent { groups, first, second, prices }, counts);
    if answer == 0 {
        groups[counts[0] as usize..].fill(0);
    }
    answer
}

/// Only the terminals' groups are written.
fn others_keep_their_groups(text: &[u8], lent: Lent, counts: &mut [u64]) -> u64 {
    let Lent { groups, first, second, prices } = lent;
    let before = groups.to_vec();
    let answer = (SECOND.read_stp)(text, Lent { groups, first, second, prices }, counts);
    if answer == 0 {
        for (group, before) in groups.iter_mut().zip(before).filter(|(group, _)| **group == 0) {
            *group = before;
        }
    }
    answer
}

fn short_counts_at_the_end(text: &[u8], lent: Lent, counts: &mut [u64]) -> u64 {
    if counts.len() >= STP_COUNTS {
        return (SECOND.read_stp)(text, lent, counts);
    }
    parse(text, lent.lengths()).map_or_else(code, |_| 7)
}

fn operation() -> &'static Operation {
    OPERATIONS.iter().find(|operation| operation.name == "read_stp").expect("it is one of them")
}

/// The first case that tells a reader from the second implementation.
fn differs(read_stp: Reader) -> Option<u64> {
    (0..6_000).find(|&case| operation().compare(&Library { read_stp, ..SECOND }, 1, case).is_err())
}

#[test]
fn faults_are_found() {
    let faulty: [(&str, Reader); 38] = [
        ("ends count from 1", reader!(ends_from_1)),
        ("terminals count from 1", reader!(terminals_from_1)),
        ("a terminal twice", reader!(terminal_twice)),
        ("the place at the end of the line", reader!(at_the_end_of_the_line)),
        ("the place at the number's first byte", reader!(at_the_numbers_first_byte)),
        ("the place at the line's first byte", reader!(at_the_lines_first_byte)),
        ("the place behind a number out of range", reader!(behind_the_number)),
        ("the place behind a terminal that comes again", reader!(twice_behind_the_number)),
        ("the place of a text that stops at its last byte", reader!(stopped_at_the_last_byte)),
        ("EOF without its line end", reader!(eof_without_its_end)),
        ("no EOF", reader!(no_eof)),
        ("what follows EOF ignored", reader!(rest_ignored)),
        ("terminals without a group", reader!(terminals_without_a_group)),
        ("a group for each terminal", reader!(terminals_by_number)),
        ("END with a blank behind it ends a comment", reader!(blank_end_of_a_comment)),
        ("END with a blank before it ends a comment", reader!(indented_end_of_a_comment)),
        ("a comment after the graph", reader!(comment_after_the_graph)),
        ("two comments", reader!(two_comments)),
        ("an empty line before the header", reader!(empty_line_first)),
        ("more terminals than nodes", reader!(more_terminals_than_nodes)),
        ("byte 13", reader!(carriage_returns)),
        ("any case", reader!(any_case)),
        ("leading zeros", reader!(leading_zeros)),
        ("two spaces", reader!(two_spaces)),
        ("no empty lines in lists", reader!(no_empty_lines_in_lists)),
        ("5 in reading", reader!(equal_ends_refused)),
        ("6 in reading", reader!(high_prices_refused)),
        ("16 for 20", reader!(sixteen)),
        ("1 and 3 before the line is complete", reader!(early_count)),
        ("7 after all else", reader!(seven_at_the_end)),
        ("7 before 1 and 3", reader!(seven_before_one_and_three)),
        ("first ends stored for second", reader!(first_ends_for_second)),
        ("n and m swapped", n_and_m_swapped),
        ("groups written on a refusal", groups_on_refusal),
        ("groups past the last zeroed", later_groups_zeroed),
        ("groups of other junctions kept", others_keep_their_groups),
        ("short counts after all else", short_counts_at_the_end),
        ("nothing read", |_, _, _| 0),
    ];
    for (name, reader) in faulty {
        assert!(differs(reader).is_some(), "{name} is not found");
    }
}

#[test]
fn no_difference() {
    assert_eq!(differs(SECOND.read_stp), None);
    assert_eq!(differs(reader!(parse)), None);
}

#[test]
fn directed_files_are_all_met() {
    let directed = directed_stp();
    assert!((2_000..5_000).contains(&directed.len()), "{}", directed.len());
    let sound = directed.iter().filter(|text| parse(text, Lengths::ENOUGH).is_ok()).count();
    assert!(sound > 100, "{sound}");
}
