//! STP files (No. 5): sound ones, faults that are put into them, and directed ones.

use super::Rng;
use crate::calls::faults::{Fault, STP_FAULTS};
use crate::read::Lengths;
use crate::stp::{parse, HEADER};
use crate::{MAX_JUNCTIONS, MAX_PRICE, MAX_TRACKS, STP_ROOM};
use std::sync::OnceLock;
use Fault::*;

type Line = Vec<u8>;

/// The lines of a comment that aren't its end.
const REMARKS: [&[u8]; 16] = [
    b"",
    b"Name    \"x\"",
    b"END ",
    b" END",
    b"END\r",
    b"ENDE",
    b"EN",
    b"end",
    b"\0",
    b"\r",
    b"\xff\xfe",
    b"END\0",
    b"EOF",
    b"SECTION Graph",
    b"SECTION Comment",
    b"T 1",
];

fn line(text: impl std::fmt::Display) -> Line {
    text.to_string().into_bytes()
}

/// Lines with their ends.
fn joined(lines: &[Line]) -> Vec<u8> {
    lines.iter().flat_map(|line| [line, &b"\n"[..]].concat()).collect()
}

/// The lines of a text, an open one at its end with them.
fn split(text: &[u8]) -> Vec<Line> {
    let mut lines: Vec<Line> = text.split(|&byte| byte == b'\n').map(<[u8]>::to_vec).collect();
    if lines.last().is_some_and(Vec::is_empty) {
        lines.pop();
    }
    lines
}

/// A comment section of a few lines.
fn comment(rng: &mut Rng) -> Vec<Line> {
    let mut lines = vec![line("SECTION Comment")];
    for _ in 0..rng.below(5) {
        if rng.chance(1, 6) {
            let many = rng.below(9);
            lines.push((0..many).map(|_| rng.word() as u8).filter(|&byte| byte != b'\n').collect());
        } else {
            lines.push(rng.pick(&REMARKS).to_vec());
        }
    }
    lines.push(line("END"));
    lines
}

/// Empty lines behind a line: in some files everywhere, in others here and there, in most none.
fn gap(rng: &mut Rng, often: usize) -> usize {
    if rng.chance(often, 8) {
        rng.between(1, 2)
    } else {
        0
    }
}

/// A file of the subset, with its numbers of nodes and edges.
pub fn stp_file(rng: &mut Rng) -> (Vec<u8>, usize, usize) {
    let n = match rng.below(24) {
        0 => rng.pick(&[MAX_JUNCTIONS - 1, MAX_JUNCTIONS]),
        1 => rng.pick(&[9, 10, 11, 20, 99, 100, 101, 120]),
        _ => rng.between(1, 13),
    };
    let m = match rng.below(400) {
        0 => MAX_TRACKS - rng.below(2),
        1..=40 => 0,
        _ => rng.below(6),
    };
    let often = rng.pick(&[0, 0, 0, 0, 1, 2, 8]);
    let mut lines = vec![line(HEADER)];
    let put = |rng: &mut Rng, lines: &mut Vec<Line>, text: Line| {
        lines.push(text);
        lines.extend(vec![Vec::new(); gap(rng, often)]);
    };
    lines.extend(vec![Vec::new(); gap(rng, often)]);
    if rng.chance(1, 2) {
        let mut remarks = comment(rng);
        let end = remarks.pop().expect("it has an end");
        lines.extend(remarks);
        put(rng, &mut lines, end);
    }
    for text in [line("SECTION Graph"), line(format!("Nodes {n}")), line(format!("Edges {m}"))] {
        put(rng, &mut lines, text);
    }
    for _ in 0..m {
        let most = MAX_PRICE as usize;
        let any = rng.between(0, most);
        let price = rng.pick(&[0, 1, 77, any, most, most + 1, 999_999_999]);
        let text = line(format!("E {} {} {price}", rng.between(1, n), rng.between(1, n)));
        put(rng, &mut lines, text);
    }
    let mut order: Vec<usize> = (1..=n).collect();
    rng.shuffle(&mut order);
    let most = n.min(14);
    let t = rng.pick(&[0, 1, 2, most / 2, most, n]).min(n);
    for text in [line("END"), line("SECTION Terminals"), line(format!("Terminals {t}"))] {
        put(rng, &mut lines, text);
    }
    for v in &order[..t] {
        put(rng, &mut lines, line(format!("T {v}")));
    }
    for text in ["END", "EOF"] {
        put(rng, &mut lines, line(text));
    }
    (joined(&lines), n, m)
}

/// The number behind a word in the first line that begins with it, if there is one.
fn number(lines: &[Line], word: &str) -> Option<usize> {
    let line = lines.iter().find_map(|line| line.strip_prefix(word.as_bytes()))?;
    std::str::from_utf8(line).ok()?.parse().ok()
}

/// Another value where one stands: a higher or lower one, or the same written otherwise.
fn odd(rng: &mut Rng, value: &str, others: &[usize]) -> String {
    let mut all: Vec<String> = others.iter().map(usize::to_string).collect();
    all.extend([format!("0{value}"), String::new(), format!("{value} "), format!("+{value}"), "x".to_string()]);
    let at = if rng.chance(4, 5) { rng.below(others.len()) } else { rng.below(all.len()) };
    all.swap_remove(at)
}

/// The text of a file with a fault in it, if it is one of those.
pub fn damage_stp(rng: &mut Rng, text: &mut Vec<u8>, fault: Fault) {
    let mut lines = split(text);
    if lines.is_empty() {
        return;
    }
    let n = number(&lines, "Nodes ").unwrap_or(1).clamp(1, MAX_JUNCTIONS);
    // One of the lines that begin with a word, if there is one.
    let one = |rng: &mut Rng, lines: &[Line], word: &str| {
        let places: Vec<usize> = (0..lines.len()).filter(|&i| lines[i].starts_with(word.as_bytes())).collect();
        (!places.is_empty()).then(|| places[rng.below(places.len())])
    };
    let replace = |lines: &mut Vec<Line>, word: &str, value: &str| {
        if let Some(at) = lines.iter().position(|line| line.starts_with(word.as_bytes())) {
            lines[at] = line(format!("{word}{value}"));
        }
    };
    let wide = 10_000_000;
    match fault {
        ZeroNodes => replace(&mut lines, "Nodes ", "0"),
        ManyNodes => replace(&mut lines, "Nodes ", &(MAX_JUNCTIONS + rng.pick(&[1, 1, wide - 449])).to_string()),
        ManyLinks => replace(&mut lines, "Edges ", &(MAX_TRACKS + rng.pick(&[1, 1, wide - 2_049])).to_string()),
        StpCount => {
            let word = rng.pick(&["Nodes ", "Edges "]);
            let value = number(&lines, word).unwrap_or(1).to_string();
            let value = odd(rng, &value, &[wide, wide + 1, 10 * wide]);
            replace(&mut lines, word, &value);
        }
        StpEnd => {
            if let Some(at) = one(rng, &lines, "E ") {
                let text = String::from_utf8_lossy(&lines[at]).into_owned();
                let mut words: Vec<String> = text.split(' ').map(str::to_string).collect();
                let end = rng.between(1, 2).min(words.len() - 1);
                words[end] = odd(rng, &words[end], &[0, n + 1, 10 * n, n + 10, 1_000, 999]);
                lines[at] = line(words.join(" "));
            }
        }
        StpPrice => {
            if let Some(at) = one(rng, &lines, "E ") {
                let text = String::from_utf8_lossy(&lines[at]).into_owned();
                let (ends, price) = text.rsplit_once(' ').unwrap_or(("E 1 1", "1"));
                lines[at] = line(format!("{ends} {}", odd(rng, price, &[1_000_000_000, 9_999_999_999])));
            }
        }
        StpTerminal => {
            if let Some(at) = one(rng, &lines, "T ") {
                let value = String::from_utf8_lossy(&lines[at][2..]).into_owned();
                lines[at] = line(format!("T {}", odd(rng, &value, &[0, n + 1, 10 * n, n + 10, 1_000])));
            }
        }
        StpTwice => {
            if let (Some(from), Some(to)) = (one(rng, &lines, "T "), one(rng, &lines, "T ")) {
                lines[to] = lines[from].clone();
            }
        }
        StpTerminals => {
            let t = number(&lines, "Terminals ").unwrap_or(0);
            let value = odd(rng, &t.to_string(), &[n + 1, n + 1, 10 * n, t + 1, t.saturating_sub(1), wide - 1]);
            replace(&mut lines, "Terminals ", &value);
        }
        StpComment => {
            let word = rng.pick(&["SECTION Terminals", "SECTION Graph", "EOF", "END", "33D", "Nodes "]);
            if let Some(at) = one(rng, &lines, word) {
                let remarks = comment(rng);
                lines.splice(at..at, remarks);
            }
        }
        StpBlank => {
            let at = rng.below(lines.len());
            let space = lines[at].iter().position(|&byte| byte == b' ');
            match (rng.below(6), space) {
                (0, _) => lines[at].push(b' '),
                (1, _) => lines[at].insert(0, b' '),
                (2, _) => lines[at].push(b'\r'),
                (3, Some(space)) => lines[at][space] = b'\t',
                (4, Some(space)) => lines[at].insert(space, b' '),
                _ => lines[at].make_ascii_lowercase(),
            }
        }
        StpSection => {
            let words =
                ["SECTION Coordinates", "SECTION Tree", "Arcs 1", "A 1 2 3", "Root 1", "END", "EOF", "Obstacles 1"];
            let at = rng.below(lines.len());
            let other = line(rng.pick(&words));
            if rng.chance(1, 2) {
                lines[at] = other;
            } else {
                lines.insert(at, other);
            }
        }
        StpLines => {
            let at = rng.below(lines.len());
            match rng.below(3) {
                0 => drop(lines.remove(at)),
                1 => lines.insert(at, lines[at].clone()),
                _ => {
                    let next = (at + 1) % lines.len();
                    lines.swap(at, next);
                }
            }
        }
        StpEmptyFirst => lines.splice(..0, vec![Vec::new(); rng.between(1, 2)]).for_each(drop),
        _ => {}
    }
    let open = text.last() != Some(&b'\n');
    *text = joined(&lines);
    if open {
        text.pop();
    }
    match fault {
        StpOpen => {
            while text.last() == Some(&b'\n') {
                text.pop();
            }
        }
        ByteChanged if !text.is_empty() => {
            let at = rng.below(text.len());
            text[at] = rng.pick(b"0123456789 \n\r\0ETNS\xff");
        }
        TextCut => text.truncate(rng.below(text.len() + 1)),
        TextLonger => text.extend(rng.pick(&[&b"x"[..], b"EOF\n", b" \n", b"SECTION Comment\nEND\n", b"\nE", b"\0"])),
        _ => {}
    }
}

/// A file of a comment, the lines of a graph and those of terminals.
fn file(comment: &str, graph: &str, terminals: &str) -> Vec<u8> {
    format!("{HEADER}\n{comment}SECTION Graph\n{graph}END\nSECTION Terminals\n{terminals}END\nEOF\n").into_bytes()
}

/// Sound files of a few lines: P3; terminals that begin as others do; a comment with odd lines; empty lines.
fn sound_files() -> [Vec<u8>; 4] {
    let mut files = [
        file("", "Nodes 3\nEdges 2\nE 1 2 3\nE 2 3 4\n", "Terminals 2\nT 1\nT 3\n"),
        file("", "Nodes 12\nEdges 1\nE 12 1 0\n", "Terminals 4\nT 1\nT 10\nT 2\nT 12\n"),
        file("SECTION Comment\nName \"x\"\n END\nEND \n\nEND\n", "Nodes 1\nEdges 0\n", "Terminals 1\nT 1\n"),
        file("\n\nSECTION Comment\nEND\n\n", "\nNodes 2\n\nEdges 1\n\nE 1 1 999999999\n\n", "\nTerminals 0\n\n"),
    ];
    files[3].extend(b"\n\n");
    files
}

/// A file's bytes, each left out, doubled and changed, and the file stopped before it.
fn byte_by_byte(text: &[u8], bytes: &[u8], all: &mut Vec<Vec<u8>>) {
    for at in 0..text.len() {
        all.push(text[..at].to_vec());
        all.push([&text[..at], &text[at + 1..]].concat());
        all.push([&text[..=at], &text[at..]].concat());
        for &byte in bytes.iter().filter(|&&byte| byte != text[at]) {
            all.push([&text[..at], &[byte], &text[at + 1..]].concat());
        }
    }
}

fn counts(all: &mut Vec<Vec<u8>>) {
    let values =
        ["", "0", "00", "01", "1", "2", "3", "12", "447", "448", "449", "0448", "2047", "2048", "2049", "9999999"];
    for value in values.into_iter().chain(["10000000", "99999999", "-1", "+1", "1.0", " 1", "1 ", "0x1", "4294967297"])
    {
        for behind in ["\n", "", "x", "\r\n", "\n\n"] {
            all.push(line(format!("{HEADER}\nSECTION Graph\nNodes {value}{behind}")));
            all.push(line(format!("{HEADER}\nSECTION Graph\nNodes 3\nEdges {value}{behind}")));
        }
        let graph = format!("Nodes 12\nEdges {value}\nE 1 2 5\nE 2 3 5\n");
        all.push(file("", &graph, "Terminals 1\nT 1\n"));
        all.push(file("", "Nodes 3\nEdges 0\n", &format!("Terminals {value}\nT 1\nT 3\n")));
        all.push(file("", "Nodes 3\nEdges 0\n", &format!("Terminals {value}\nT 1\nT 3\nT 2\n")));
        all.push(file("", "Nodes 12\nEdges 0\n", &format!("Terminals {value}\n")));
    }
}

fn values(all: &mut Vec<Vec<u8>>) {
    let ends = ["", "0", "00", "01", "012", "1", "9", "10", "11", "12", "13", "20", "99", "100", "120", "1000"];
    for end in ends.into_iter().chain(["44", "45", "448", "449", "450", "4480", "5", "-1", "4294967297"]) {
        for n in [12, 448] {
            for ends in [format!("{end} 2"), format!("2 {end}")] {
                all.push(file("", &format!("Nodes {n}\nEdges 1\nE {ends} 7\n"), "Terminals 0\n"));
            }
            let graph = format!("Nodes {n}\nEdges 0\n");
            for terminals in
                [format!("1\nT {end}\n"), format!("2\nT 1\nT {end}\n"), format!("3\nT 44\nT 12\nT {end}\n")]
            {
                all.push(file("", &graph, &format!("Terminals {terminals}")));
            }
        }
    }
    let prices = ["", "0", "00", "07", "100000000", "100000001", "999999999", "1000000000", "0999999999", "-1", "1.5"];
    for price in prices.into_iter().chain(["9999999999", "1 ", " 1", "1\r", "1 2", "4294967296"]) {
        all.push(file("", &format!("Nodes 2\nEdges 1\nE 1 2 {price}\n"), "Terminals 2\nT 2\nT 1\n"));
    }
    // Terminals that come again, while longer numbers that begin so are free, and when none is.
    for order in
        ["2 2", "1 1", "1 10 1", "1 10 11 12 1", "10 11 12 1 1", "10 11 12 1 10", "1 2 3 4 5 6 7 8 9 10 11 12 1"]
    {
        let order: Vec<&str> = order.split(' ').collect();
        for many in [order.len() - 1, order.len()] {
            let lines: String = order.iter().map(|v| format!("T {v}\n")).collect();
            all.push(file("", "Nodes 12\nEdges 0\n", &format!("Terminals {many}\n{lines}")));
        }
    }
}

fn sections(all: &mut Vec<Vec<u8>>) {
    let (graph, terminals) = ("Nodes 2\nEdges 1\nE 1 2 5\n", "Terminals 1\nT 2\n");
    for remark in REMARKS {
        let lines = [&b"SECTION Comment\n"[..], remark, b"\nEND\n"].concat();
        let sound = file("", graph, terminals);
        let head = HEADER.len() + 1;
        all.push([&sound[..head], &lines, &sound[head..]].concat());
        // The remark where the end should be, and a line of a sound file.
        all.push([&sound[..head], b"SECTION Comment\n", remark, b"\n", &sound[head..]].concat());
        all.push([&sound[..head], remark, b"\n", &sound[head..]].concat());
        all.push([&sound[..], remark, b"\n"].concat());
        all.push([remark, b"\n", &sound[..]].concat());
    }
    let parts = ["SECTION Comment\nx\nEND\n".to_string(), format!("SECTION Graph\n{graph}END\n")];
    let [comment, graph] = parts;
    let terminals = format!("SECTION Terminals\n{terminals}END\n");
    let empty = "\n\n\n".to_string();
    let (header, eof) = (format!("{HEADER}\n"), "EOF\n".to_string());
    for order in [
        [&header, &comment, &comment, &graph, &terminals, &eof],
        [&header, &graph, &comment, &terminals, &eof, &empty],
        [&header, &graph, &terminals, &comment, &eof, &empty],
        [&header, &graph, &terminals, &eof, &comment, &empty],
        [&comment, &header, &graph, &terminals, &eof, &empty],
        [&empty, &header, &graph, &terminals, &eof, &empty],
        [&header, &terminals, &graph, &eof, &empty, &empty],
        [&header, &graph, &graph, &terminals, &eof, &empty],
        [&header, &graph, &terminals, &terminals, &eof, &empty],
        [&header, &graph, &eof, &terminals, &empty, &empty],
        [&header, &terminals, &eof, &empty, &empty, &empty],
        [&header, &graph, &eof, &empty, &empty, &empty],
        [&header, &header, &graph, &terminals, &eof, &empty],
        [&header, &graph, &terminals, &eof, &eof, &empty],
        [&header, &empty, &comment, &graph, &terminals, &eof],
        [&header, &comment, &empty, &graph, &terminals, &eof],
    ] {
        all.push(order.map(String::as_bytes).concat());
    }
}

/// As many nodes, edges and terminals as there may be.
fn largest(all: &mut Vec<Vec<u8>>) {
    let edges =
        |many: usize| (0..many).map(|e| format!("E {} {} {e}\n", 448 - e % 448, 1 + e % 447)).collect::<String>();
    let terminals = |many: usize| (1..=many).rev().map(|v| format!("T {v}\n")).collect::<String>();
    for (n, m, t) in [(448, 2_048, 448), (448, 0, 447), (1, 2_048, 1)] {
        let edges = if n == 1 { "E 1 1 0\n".repeat(m) } else { edges(m) };
        let counted = |more: usize| format!("Terminals {}\n{}", t + more, terminals(t));
        all.push(file("", &format!("Nodes {n}\nEdges {m}\n{edges}"), &counted(0)));
        all.push(file("", &format!("Nodes {n}\nEdges {m}\n{edges}E 1 1 1\n"), &counted(0)));
        all.push(file("", &format!("Nodes {n}\nEdges {m}\n{edges}"), &counted(1)));
    }
    all.push(file(&format!("SECTION Comment\n{}END\n", "END \n".repeat(9_999)), "Nodes 1\nEdges 0\n", "Terminals 0\n"));
}

/// Files that are the same for every seed.
pub fn directed_stp() -> &'static [Vec<u8>] {
    static ALL: OnceLock<Vec<Vec<u8>>> = OnceLock::new();
    ALL.get_or_init(|| {
        let files = sound_files();
        let mut all = files.to_vec();
        counts(&mut all);
        values(&mut all);
        sections(&mut all);
        largest(&mut all);
        byte_by_byte(&files[0], b"\0\n 01Ex\xff", &mut all);
        byte_by_byte(&files[1], b"\n 01", &mut all);
        byte_by_byte(&files[2], b"\n ", &mut all);
        byte_by_byte(&files[3], b"\n", &mut all);
        all
    })
}

/// Files about as long as what the program reads: whole ones with empty lines behind them, some with a byte between
/// that makes them malformed, a count that is refused in a long file, and long comments.
fn long_stp() -> &'static [Vec<u8>] {
    static ALL: OnceLock<Vec<Vec<u8>>> = OnceLock::new();
    ALL.get_or_init(|| {
        let padded = |text: &[u8], length: usize| {
            let mut text = text.to_vec();
            text.resize(length, b'\n');
            text
        };
        let sound = &sound_files()[0];
        let mut all: Vec<Vec<u8>> = [0, 1, 2].map(|more| padded(sound, STP_ROOM - 1 + more)).to_vec();
        for at in [0, 50, sound.len() + 9, STP_ROOM - 1, STP_ROOM, STP_ROOM + 1] {
            let mut text = padded(sound, STP_ROOM + 2);
            text[at] = b'#';
            all.push(text);
        }
        for counts in ["Nodes 0\n", "Nodes 449\n", "Nodes 1\nEdges 2049\n"] {
            all.push(padded(format!("{HEADER}\nSECTION Graph\n{counts}").as_bytes(), STP_ROOM + 2));
        }
        for more in [0, 1, 2] {
            let bare = file("SECTION Comment\n\nEND\n", "Nodes 1\nEdges 0\n", "Terminals 0\n").len();
            let remark = "x".repeat(STP_ROOM - 1 + more - bare);
            all.push(file(&format!("SECTION Comment\n{remark}\nEND\n"), "Nodes 1\nEdges 0\n", "Terminals 0\n"));
        }
        all
    })
}

/// The file of a case for a program: the directed ones first, then long ones, then random ones with none to two faults.
pub fn stp_case(seed: u64, case: u64) -> Vec<u8> {
    if let Some(text) = directed_stp().iter().chain(long_stp()).nth(case as usize) {
        return text.clone();
    }
    let rng = &mut Rng::of_case(seed ^ 0x73_74_70, case);
    let mut text = stp_file(rng).0;
    for _ in 0..rng.below(3) {
        let fault = rng.pick(STP_FAULTS);
        damage_stp(rng, &mut text, fault);
    }
    text
}

/// The numbers of nodes and edges that buffers for a text are to hold: those that it says, or any.
pub fn wanted(rng: &mut Rng, text: &[u8]) -> (usize, usize) {
    match parse(text, Lengths::ENOUGH) {
        Ok(survey) => (survey.groups.len(), survey.first.len()),
        Err(_) => rng.pick(&[(MAX_JUNCTIONS, MAX_TRACKS), (12, 3), (3, 2)]),
    }
}
