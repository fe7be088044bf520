//! The reader of STP files against a second statement of the place of 20: a byte is bad if no line that may stand there
//! begins with it. The lines that may stand are written out, for files of few nodes, and a file is judged line by line.

use evidence::gen::{stp_case, Rng};
use evidence::read::Lengths;
use evidence::stp::{parse, HEADER};
use evidence::{Refusal, Survey};

/// What the lines so far leave to come.
#[derive(Clone, Debug, PartialEq)]
enum State {
    Header,
    First,
    Comment,
    Graph,
    Nodes,
    Edges,
    Edge(usize),
    Terminals,
    Count,
    Terminal(usize),
    End,
    Done,
}

/// A file as far as it has been judged.
#[derive(Clone)]
struct Told {
    state: State,
    n: usize,
    tracks: Vec<[u32; 3]>,
    used: Vec<usize>,
}

fn is_number(text: &str, digits: usize) -> bool {
    (1..=digits).contains(&text.len())
        && text.bytes().all(|byte| byte.is_ascii_digit())
        && (text == "0" || !text.starts_with('0'))
}

/// The file after one more line, if the line may stand there. 1, 3 and 7 are given as the refusal.
fn after(told: &Told, line: &[u8], lengths: Lengths) -> Option<Result<Told, u32>> {
    let mut next = told.clone();
    if line.is_empty() && told.state != State::Header && told.state != State::Comment {
        return Some(Ok(next));
    }
    let text = std::str::from_utf8(line).unwrap_or("?");
    let words: Vec<&str> = text.split(' ').collect();
    let short = lengths.first.min(lengths.second).min(lengths.prices);
    next.state = match (&told.state, &words[..]) {
        (State::Header, _) if text == HEADER => State::First,
        (State::First, ["SECTION", "Comment"]) => State::Comment,
        (State::Comment, _) if text == "END" => State::Graph,
        (State::Comment, _) => State::Comment,
        (State::First | State::Graph, ["SECTION", "Graph"]) => State::Nodes,
        (State::Nodes, ["Nodes", n]) if is_number(n, 7) => {
            next.n = n.parse().ok()?;
            if next.n == 0 || next.n > 448 {
                return Some(Err(1));
            }
            if next.n > lengths.groups {
                return Some(Err(7));
            }
            State::Edges
        }
        (State::Edges, ["Edges", m]) if is_number(m, 7) => {
            let m: usize = m.parse().ok()?;
            if m > 2_048 {
                return Some(Err(3));
            }
            if m > short {
                return Some(Err(7));
            }
            State::Edge(m)
        }
        (State::Edge(left), ["E", u, v, price]) if *left > 0 && [u, v].iter().all(|end| is_number(end, 3)) => {
            let [u, v] = [u, v].map(|end| end.parse::<u32>().expect("a number"));
            if !is_number(price, 9) || [u, v].iter().any(|&end| end == 0 || end as usize > told.n) {
                return None;
            }
            next.tracks.push([u - 1, v - 1, price.parse().ok()?]);
            State::Edge(left - 1)
        }
        (State::Edge(0), ["END"]) => State::Terminals,
        (State::Terminals, ["SECTION", "Terminals"]) => State::Count,
        (State::Count, ["Terminals", t]) if is_number(t, 7) && t.parse::<usize>().ok()? <= told.n => {
            State::Terminal(t.parse().ok()?)
        }
        (State::Terminal(left), ["T", v]) if *left > 0 && is_number(v, 3) => {
            let v: usize = v.parse().ok()?;
            if v == 0 || v > told.n || told.used.contains(&v) {
                return None;
            }
            next.used.push(v);
            State::Terminal(left - 1)
        }
        (State::Terminal(0), ["END"]) => State::End,
        (State::End, ["EOF"]) => State::Done,
        _ => return None,
    };
    Some(Ok(next))
}

/// The lines that may come next, of which one may begin with what stands there: all of them but for prices, where those
/// that begin as the open line does are enough.
fn lines(told: &Told, open: &str) -> Vec<String> {
    let numbers = |highest: usize| (0..=highest).map(|number| number.to_string());
    let digits = open.rsplit(' ').next().unwrap_or("");
    let prices = [digits.to_string(), "1".to_string(), "0".to_string()];
    match &told.state {
        State::Header => vec![HEADER.to_string()],
        State::First => vec!["SECTION Comment".to_string(), "SECTION Graph".to_string()],
        State::Comment => vec![open.to_string()],
        State::Graph => vec!["SECTION Graph".to_string()],
        State::Nodes => [digits, "1"].iter().map(|n| format!("Nodes {n}")).collect(),
        State::Edges => [digits, "1"].iter().map(|m| format!("Edges {m}")).collect(),
        State::Edge(0) => vec!["END".to_string()],
        State::Edge(_) => {
            let pairs = numbers(told.n).flat_map(|u| numbers(told.n).map(move |v| format!("E {u} {v}")));
            pairs
                .flat_map(|ends| prices.iter().map(move |price| format!("{ends} {price}")).collect::<Vec<_>>())
                .collect()
        }
        State::Terminals => vec!["SECTION Terminals".to_string()],
        State::Count => numbers(told.n).map(|t| format!("Terminals {t}")).collect(),
        State::Terminal(0) => vec!["END".to_string()],
        State::Terminal(_) => numbers(told.n).map(|v| format!("T {v}")).collect(),
        State::End => vec!["EOF".to_string()],
        State::Done => Vec::new(),
    }
}

/// What a text comes to.
fn expected(text: &[u8], lengths: Lengths) -> Result<Survey, Refusal> {
    let refuse = |number, place: usize| Err(Refusal { number, place: place as u64 });
    let mut told = Told { state: State::Header, n: 0, tracks: Vec::new(), used: Vec::new() };
    let mut at = 0;
    for line in text.split_inclusive(|&byte| byte == b'\n') {
        let (open, complete) = match line.strip_suffix(b"\n") {
            Some(open) => (open, true),
            None => (line, false),
        };
        if complete {
            match after(&told, open, lengths) {
                Some(Ok(next)) => {
                    told = next;
                    at += line.len();
                    continue;
                }
                Some(Err(number)) => return refuse(number, 0),
                None => {}
            }
        }
        // The longest beginning of this line with which a line that may stand there begins.
        let goes_on = |length: usize| {
            let open = String::from_utf8_lossy(&open[..length]).into_owned();
            told.state == State::Comment
                || length == 0
                || lines(&told, &open)
                    .iter()
                    .any(|line| line.starts_with(&open) && after(&told, line.as_bytes(), Lengths::ENOUGH).is_some())
        };
        let good = (0..=open.len()).take_while(|&length| goes_on(length)).last().unwrap_or(0);
        return refuse(20, at + good);
    }
    if told.state != State::Done {
        return refuse(20, text.len());
    }
    let mut survey = Survey { groups: vec![0; told.n], ..Survey::default() };
    for v in told.used {
        survey.groups[v - 1] = 1;
    }
    for [u, v, price] in told.tracks {
        survey.first.push(u);
        survey.second.push(v);
        survey.prices.push(price);
    }
    Ok(survey)
}

fn agree(text: &[u8], lengths: Lengths) {
    assert_eq!(parse(text, lengths), expected(text, lengths), "{lengths:?} {}", text.escape_ascii());
}

fn file(comment: &str, graph: &str, terminals: &str) -> String {
    format!("{HEADER}\n{comment}SECTION Graph\n{graph}END\nSECTION Terminals\n{terminals}END\nEOF\n")
}

fn some_files() -> Vec<String> {
    vec![
        file("", "Nodes 3\nEdges 2\nE 1 2 3\nE 2 3 4\n", "Terminals 2\nT 1\nT 3\n"),
        file("", "Nodes 12\nEdges 1\nE 12 1 0\n", "Terminals 4\nT 1\nT 10\nT 2\nT 12\n"),
        file("SECTION Comment\nName \"x\"\n END\nEND \n\nEND\n", "Nodes 1\nEdges 0\n", "Terminals 1\nT 1\n"),
        file("\n\nSECTION Comment\nEND\n\n", "\nNodes 2\n\nEdges 1\n\nE 1 1 999999999\n\n", "\nTerminals 0\n\n")
            + "\n\n",
    ]
}

#[test]
fn every_byte() {
    for (i, text) in some_files().iter().enumerate() {
        let text = text.as_bytes();
        agree(text, Lengths::ENOUGH);
        for at in 0..text.len() {
            agree(&text[..at], Lengths::ENOUGH);
            agree(&[&text[..at], &text[at + 1..]].concat(), Lengths::ENOUGH);
            agree(&[&text[..=at], &text[at..]].concat(), Lengths::ENOUGH);
            for byte in (0..=255).filter(|byte| (i == 0 && at >= 42) || byte % 16 == 0) {
                agree(&[&text[..at], &[byte], &text[at + 1..]].concat(), Lengths::ENOUGH);
            }
            for byte in b"01239 \nET" {
                agree(&[&text[..at], &[*byte], &text[at..]].concat(), Lengths::ENOUGH);
            }
        }
    }
}

fn refused(number: u32, place: usize) -> Result<Survey, Refusal> {
    Err(Refusal { number, place: place as u64 })
}

#[test]
fn by_hand() {
    let parsed = |text: &str| parse(text.as_bytes(), Lengths::ENOUGH);
    let three = Survey::new(&[1, 0, 1], &[(0, 1, 3), (1, 2, 4)]);
    assert_eq!(parsed(&some_files()[0]), Ok(three));
    assert_eq!(parsed(""), refused(20, 0));
    assert_eq!(parsed("\n"), refused(20, 0));
    // Numbers of 12 nodes, one byte after the other.
    let head = format!("{HEADER}\nSECTION Graph\nNodes 12\nEdges 1\nE ");
    let at = head.len();
    for (end, place) in [("0", 0), ("13", 1), ("20", 1), ("2 0", 2), ("12 13", 4), ("120", 2), ("", 0), (" ", 0)] {
        assert_eq!(parsed(&format!("{head}{end}")), refused(20, at + place), "{end}");
    }
    assert_eq!(parsed(&format!("{head}1 1 1000000000\n")), refused(20, at + 13));
    let terminals = |t: &str| format!("{head}1 2 5\nEND\nSECTION Terminals\nTerminals {t}");
    let at = terminals("").len();
    assert_eq!(parsed(&terminals("13")), refused(20, at + 1));
    assert_eq!(parsed(&terminals("03")), refused(20, at + 1));
    assert_eq!(parsed(&terminals("2\nT 2\nT 2\n")), refused(20, at + 8));
    assert_eq!(parsed(&terminals("2\nT 1\nT 1\n")), refused(20, at + 9));
    assert_eq!(parsed(&terminals("5\nT 1\nT 10\nT 11\nT 12\nT 1\n")), refused(20, at + 23));
    // 1, 3 and 7 when the line is complete.
    let nodes = |n: &str| format!("{HEADER}\nSECTION Graph\nNodes {n}");
    assert_eq!(parsed(&nodes("0")), refused(20, nodes("0").len()));
    assert_eq!(parsed(&nodes("0\n")), refused(1, 0));
    assert_eq!(parsed(&nodes("449\n")), refused(1, 0));
    assert_eq!(parsed(&nodes("10000000\n")), refused(20, nodes("1000000").len()));
    assert_eq!(parsed(&nodes("448\nEdges 2049\n")), refused(3, 0));
    let short = Lengths { groups: 2, first: 1, second: 1, prices: 0, ..Lengths::ENOUGH };
    assert_eq!(parse(nodes("3\nx").as_bytes(), short), refused(7, 0));
    assert_eq!(parse(nodes("2\nEdges 1\nx").as_bytes(), short), refused(7, 0));
    assert!(parse(file("", "Nodes 2\nEdges 0\n", "Terminals 0\n").as_bytes(), short).is_ok());
    // A comment elsewhere, one that never ends, and EOF without its line end.
    let text = file("", "Nodes 1\nEdges 0\n", "Terminals 0\n");
    let moved = text.replace("SECTION Terminals", "SECTION Comment");
    assert_eq!(parsed(&moved), refused(20, moved.find("Comment").expect("it is there")));
    let endless = format!("{HEADER}\nSECTION Comment\nEND \nEN");
    assert_eq!(parsed(&endless), refused(20, endless.len()));
    assert_eq!(parsed(&text[..text.len() - 1]), refused(20, text.len() - 1));
    assert_eq!(parsed(&format!("{text}\nE")), refused(20, text.len() + 1));
}

/// Files of few nodes with values at every boundary, damaged in part, for buffers of any lengths.
#[test]
fn generated() {
    let mut sound = 0;
    for case in 0..2_500 {
        let mut rng = Rng::of_case(51, case);
        let n = rng.between(1, 13);
        let m = rng.below(4);
        let end = |rng: &mut Rng| if rng.chance(1, 24) { rng.pick(&[0, n + 1, 10 * n]) } else { rng.between(1, n) };
        let gap = |rng: &mut Rng| "\n".repeat(if rng.chance(1, 8) { rng.between(1, 2) } else { 0 });
        let mut graph = format!("Nodes {n}\n{}Edges {m}\n{}", gap(&mut rng), gap(&mut rng));
        for _ in 0..m {
            let price = rng.pick(&[0, 1, 77, 100_000_000, 999_999_999, 1_000_000_000]);
            let line = format!("E {} {} {price}\n", end(&mut rng), end(&mut rng));
            graph += &(line + &gap(&mut rng));
        }
        let mut order: Vec<usize> = (1..=n).collect();
        rng.shuffle(&mut order);
        let many = rng.below(n + 1);
        let mut terminals = format!("Terminals {}\n", if rng.chance(1, 20) { many + rng.below(12) } else { many });
        for v in &order[..many] {
            let v = if rng.chance(1, 16) { end(&mut rng) } else { *v };
            terminals += &(format!("T {v}\n") + &gap(&mut rng));
        }
        let comment = rng.pick(&["", "", "SECTION Comment\nEND\n", "SECTION Comment\nENDE\n\n\u{e4} \nEND\n"]);
        let mut text = file(comment, &graph, &terminals).into_bytes();
        if rng.chance(1, 3) {
            let at = rng.below(text.len());
            match rng.below(4) {
                0 => text[at] = rng.pick(b"0123456789 \nENTS\r"),
                1 => drop(text.remove(at)),
                2 => text.insert(at, rng.pick(b"0123 \nE")),
                _ => text.truncate(at),
            }
        }
        let lengths = match rng.below(4) {
            0 => Lengths { groups: rng.below(14), first: rng.below(4), second: rng.below(4), ..Lengths::ENOUGH },
            _ => Lengths::ENOUGH,
        };
        agree(&text, lengths);
        sound += u32::from(parse(&text, lengths).is_ok());
    }
    assert!(sound > 600, "{sound}");
}

/// The files that calls are made with, as far as all lines that may stand can be written out.
#[test]
fn files_of_the_calls() {
    let mut sound = 0;
    for text in (0..9_000).map(|case| stp_case(52, case)) {
        let few = text.split(|&byte| byte == b'\n').all(|line| match line.strip_prefix(b"Nodes ") {
            Some(n) => !(2..8).contains(&n.len()) || n <= &b"13"[..],
            None => true,
        });
        if few && text.len() < 2_000 {
            agree(&text, Lengths::ENOUGH);
            sound += u32::from(parse(&text, Lengths::ENOUGH).is_ok());
        }
    }
    assert!(sound > 900, "{sound}");
}
