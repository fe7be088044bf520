//! Printed plans read back: each refusal by hand; the generated texts meet every refusal often; a text goes wrong where
//! no longer one begins so; what passes or is refused of lines is what the checker says of marks and records; and
//! checks with one fault each are told from the second implementation.

use evidence::calls::{code, CHECK_COUNTS};
use evidence::check::{check, Passed};
use evidence::gen::{damaged_plan, plan_text_case, Damage, PlanCase};
use evidence::plan::{Counts, Plan};
use evidence::print::{plan_lines, survey_text};
use evidence::printed::{figures, verify};
use evidence::verifying::{compare, second, Verify};
use evidence::{Refusal, MAX_RECORDS};
use std::collections::BTreeMap;

const SEED: u64 = 7;
const CASES: u64 = 9_000;

const SURVEY: &str = "nodes=3\nlinks=2\nnode=1\nnode=0\nnode=1\nlink=0,1,3\nlink=1,2,4\n";
const FIGURES: &str = "sites=2\ncost=7\nbound=14\nrounds=2\n";
const KEEPS: &str = "keep=0\nkeep=1\n";
const MOATS: &str = "moat=6:0\nmoat=7:2\nmoat=1:0,1\n";

fn refused(number: u32, place: usize) -> Result<Passed, Refusal> {
    Err(Refusal { number, place: place as u64 })
}

fn of(parts: &[&str]) -> Result<Passed, Refusal> {
    verify(parts.concat().as_bytes())
}

#[test]
fn each_refusal_by_hand() {
    assert_eq!(of(&[SURVEY, FIGURES, KEEPS, MOATS]), Ok(Passed { sites: 2, cost: 7, bound: 14 }));
    // Rounds are not judged.
    assert!(of(&[SURVEY, "sites=2\ncost=7\nbound=14\nrounds=999999999999\n", KEEPS, MOATS]).is_ok());
    // 16 counts from the survey's first byte.
    assert_eq!(of(&[SURVEY]), refused(16, SURVEY.len()));
    assert_eq!(of(&[SURVEY, "cost"]), refused(16, SURVEY.len()));
    assert_eq!(of(&[SURVEY, "sites=1000000000000\n"]), refused(16, SURVEY.len() + 18));
    assert_eq!(of(&[SURVEY, FIGURES, "keep=10000000\n"]), refused(16, SURVEY.len() + FIGURES.len() + 12));
    let head = [SURVEY, FIGURES, KEEPS].concat();
    assert_eq!(of(&[&head, "moat=1000000000:0\n"]), refused(16, head.len() + 14));
    assert_eq!(of(&[&head, "moat=1:10000000\n"]), refused(16, head.len() + 14));
    assert_eq!(of(&[&head, "moat=1:,0\n"]), refused(16, head.len() + 7));
    assert_eq!(of(&[&head, "moat=1:0,\n"]), refused(16, head.len() + 9));
    assert_eq!(of(&[&head, MOATS, KEEPS]), refused(16, head.len() + MOATS.len()));
    // 26 at the keep line, 27 at the moat line, when it is complete.
    assert_eq!(of(&[SURVEY, FIGURES, "keep=0\nkeep=0\n", MOATS]), refused(26, 1));
    assert_eq!(of(&[SURVEY, FIGURES, "keep=1\nkeep=0\n", MOATS]), refused(26, 1));
    assert_eq!(of(&[SURVEY, FIGURES, "keep=2\nkeep=0\n", MOATS]), refused(26, 0));
    assert_eq!(of(&[SURVEY, FIGURES, "keep=2", MOATS]), refused(16, SURVEY.len() + FIGURES.len() + 6));
    assert_eq!(of(&[&head, "moat=6:0\nmoat=7:2,2\nmoat=1:0,1\n"]), refused(27, 1));
    assert_eq!(of(&[&head, "moat=6:0\nmoat=7:2\nmoat=1:1,0\n"]), refused(27, 2));
    assert_eq!(of(&[&head, "moat=0:448\n"]), refused(27, 0));
    assert_eq!(of(&[&head, "moat=1:447\n"]), refused(11, 0));
    assert_eq!(of(&[&head, "moat=1:0,0"]), refused(16, head.len() + 10));
    // 27 before 28 on one line; an earlier line before both.
    let many = "moat=1:0\n".repeat(MAX_RECORDS);
    assert_eq!(of(&[&head, &many, "moat=1:0\n"]), refused(28, 895));
    assert_eq!(of(&[&head, &many, "moat=1:0,0\n"]), refused(27, 895));
    assert_eq!(of(&[&head, &many, "moat=1:0\nmoat=1:0,0\n"]), refused(28, 895));
    // 25 of the lowest figure, last of all.
    assert_eq!(of(&[SURVEY, "sites=2\ncost=6\nbound=13\nrounds=2\n", KEEPS, MOATS]), refused(25, 1));
    assert_eq!(of(&[SURVEY, "sites=3\ncost=6\nbound=14\nrounds=2\n", KEEPS, MOATS]), refused(25, 0));
    assert_eq!(of(&[SURVEY, "sites=2\ncost=7\nbound=13\nrounds=2\n", KEEPS, MOATS]), refused(25, 2));
    assert_eq!(of(&[SURVEY, "sites=3\ncost=3\nbound=14\nrounds=2\n", "keep=0\n", MOATS]), refused(14, 1));
}

#[test]
fn every_refusal_comes_often() {
    let mut came: BTreeMap<u64, u64> = BTreeMap::new();
    for case in 0..CASES {
        *came.entry(compare(second, SEED, case).unwrap()).or_default() += 1;
    }
    let numbers: Vec<u64> = came.keys().copied().collect();
    assert_eq!(numbers, [0, 1, 3, 4, 5, 6, 7, 11, 12, 13, 14, 15, 16, 17, 18, 25, 26, 27, 28]);
    for number in [16, 17, 25, 26, 27, 28] {
        assert!(came[&number] * 50 > CASES, "{number}: {came:?}");
    }
}

/// 16 stands at the first offset whose byte no well-formed text has after the bytes before it: up to there the text is
/// whole, or only stops early.
#[test]
fn malformed_at_the_first_wrong_byte() {
    let malformed = |text: &[u8]| match verify(text) {
        Err(Refusal { number: 16, place }) => Some(place as usize),
        _ => None,
    };
    for case in 0..CASES {
        let text = plan_text_case(SEED, case);
        if let Some(place) = malformed(&text) {
            assert!(malformed(&text[..place]).is_none_or(|stopped| stopped == place));
            assert!(place == text.len() || malformed(&text[..place + 1]) == Some(place));
        }
    }
}

/// Without a fault in the lines the answer is the checker's.
#[test]
fn lines_are_marks_and_records() {
    let sound = [Damage::Nothing, Damage::Divided, Damage::Twice, Damage::NoAmount, Damage::Stranger, Damage::Raised];
    let more = [Damage::PartsNoGroup, Damage::Cheaper, Damage::Widened, Damage::LeftOut, Damage::Lowered];
    for case in 0..2_000 {
        let (damage, PlanCase { survey, marks, records }) = damaged_plan(SEED, case);
        let shown = sound.contains(&damage) || more.contains(&damage);
        if !shown {
            continue;
        }
        let found = check(survey.view(), &marks, &records);
        let Passed { sites, cost, bound } = found.unwrap_or(Passed { sites: 0, cost: 0, bound: 0 });
        let counts = Counts { sites, cost, bound, rounds: case, moats: 0 };
        let plan = plan_lines(&Plan { counts, marks, records });
        let expected = if plan.matches("moat=").count() > MAX_RECORDS { refused(28, MAX_RECORDS) } else { found };
        assert_eq!(verify(&[&survey_text(&survey)[..], plan.as_bytes()].concat()), expected, "{damage:?}");
    }
}

// ---- checks with one fault each

/// The answer of a text with its lines changed.
fn with_lines(text: &[u8], counts: &mut [u64], change: impl FnOnce(Vec<String>) -> Vec<String>) -> u64 {
    match String::from_utf8(text.to_vec()) {
        Ok(text) => {
            let lines = change(text.split_inclusive('\n').map(str::to_string).collect());
            second(lines.concat().as_bytes(), counts)
        }
        Err(_) => second(text, counts),
    }
}

/// The members of a moat line changed; other lines as they are.
fn with_members(line: String, change: impl Fn(&mut Vec<String>)) -> String {
    let Some((head, members)) = line.strip_suffix('\n').and_then(|line| line.split_once(':')) else { return line };
    if !head.starts_with("moat=") {
        return line;
    }
    let mut members: Vec<String> = members.split(',').map(str::to_string).collect();
    change(&mut members);
    format!("{head}:{}\n", members.join(","))
}

fn value(line: &str) -> u64 {
    line.trim_end().rsplit(['=', ',']).next().and_then(|digits| digits.parse().ok()).unwrap_or(0)
}

fn bound_before_cost(text: &[u8], counts: &mut [u64]) -> u64 {
    match figures(text) {
        Ok((said, found)) if said[0] == found[0] && said[2] != found[2] => 25 + 256 * 2,
        _ => second(text, counts),
    }
}

fn sites_last(text: &[u8], counts: &mut [u64]) -> u64 {
    match figures(text) {
        Ok((said, found)) if said[1] != found[1] => 25 + 256,
        Ok((said, found)) if said[2] != found[2] => 25 + 256 * 2,
        _ => second(text, counts),
    }
}

fn figures_not_judged(text: &[u8], counts: &mut [u64]) -> u64 {
    match (second(text, counts), figures(text)) {
        (answer, Ok((_, found))) if answer % 256 == 25 && counts.len() >= CHECK_COUNTS => {
            counts[..CHECK_COUNTS].copy_from_slice(&found);
            0
        }
        (answer, _) => answer,
    }
}

fn equal_keep_accepted(text: &[u8], counts: &mut [u64]) -> u64 {
    with_lines(text, counts, |mut lines| {
        lines.dedup_by(|one, other| one == other && one.starts_with("keep="));
        lines
    })
}

fn falling_keep_accepted(text: &[u8], counts: &mut [u64]) -> u64 {
    with_lines(text, counts, |mut lines| {
        let from = lines.iter().position(|line| line.starts_with("keep=")).unwrap_or(lines.len());
        let many = lines[from..].iter().take_while(|line| line.starts_with("keep=")).count();
        lines[from..from + many].sort_by_key(|line| value(line));
        lines
    })
}

fn equal_member_accepted(text: &[u8], counts: &mut [u64]) -> u64 {
    with_lines(text, counts, |lines| lines.into_iter().map(|line| with_members(line, Vec::dedup)).collect())
}

fn falling_member_accepted(text: &[u8], counts: &mut [u64]) -> u64 {
    let sorted = |members: &mut Vec<String>| members.sort_by_key(|member| value(member));
    with_lines(text, counts, |lines| lines.into_iter().map(|line| with_members(line, sorted)).collect())
}

fn high_member_dropped(text: &[u8], counts: &mut [u64]) -> u64 {
    let low = |members: &mut Vec<String>| members.retain(|member| value(member) < 448);
    with_lines(text, counts, |lines| lines.into_iter().map(|line| with_members(line, low)).collect())
}

fn too_many_before_members(text: &[u8], counts: &mut [u64]) -> u64 {
    let answer = second(text, counts);
    if answer == 27 + 256 * 895 {
        28 + 256 * 895
    } else {
        answer
    }
}

fn later_moats_ignored(text: &[u8], counts: &mut [u64]) -> u64 {
    with_lines(text, counts, |mut lines| {
        let moats = lines.iter().filter(|line| line.starts_with("moat=")).count();
        lines.truncate(lines.len() - moats.saturating_sub(MAX_RECORDS));
        lines
    })
}

fn place_in_the_plan(text: &[u8], counts: &mut [u64]) -> u64 {
    let answer = second(text, counts);
    match text.windows(6).position(|six| six == b"sites=") {
        Some(at) if answer % 256 == 16 && answer / 256 > at as u64 => answer - 256 * at as u64,
        _ => answer,
    }
}

fn line_counted_from_one(text: &[u8], counts: &mut [u64]) -> u64 {
    let answer = second(text, counts);
    answer + 256 * u64::from(answer % 256 == 26)
}

fn track_for_its_line(text: &[u8], counts: &mut [u64]) -> u64 {
    let answer = second(text, counts);
    let kept = text.split(|&byte| byte == b'\n').filter(|line| line.starts_with(b"keep="));
    match kept.map(|line| value(&String::from_utf8_lossy(line))).nth((answer / 256) as usize) {
        Some(track) if answer % 256 == 26 => 26 + 256 * track,
        _ => answer,
    }
}

fn open_line_judged(text: &[u8], counts: &mut [u64]) -> u64 {
    let answer = second(text, counts);
    let closed = second(&[text, b"\n"].concat(), counts);
    if answer == 16 + 256 * text.len() as u64 && matches!(closed % 256, 26..=28) {
        return closed;
    }
    answer
}

fn open_end_accepted(text: &[u8], counts: &mut [u64]) -> u64 {
    second(&[text, if text.ends_with(b"\n") { b"" } else { &b"\n"[..] }].concat(), counts)
}

fn returns_accepted(text: &[u8], counts: &mut [u64]) -> u64 {
    let kept: Vec<u8> = text.iter().copied().filter(|&byte| byte != b'\r').collect();
    second(&kept, counts)
}

fn late_keeps_accepted(text: &[u8], counts: &mut [u64]) -> u64 {
    with_lines(text, counts, |mut lines| {
        let from = lines.iter().position(|line| line.starts_with("keep=")).unwrap_or(lines.len());
        lines[from..].sort_by_key(|line| !line.starts_with("keep="));
        lines
    })
}

fn short_counts_first(text: &[u8], counts: &mut [u64]) -> u64 {
    if counts.len() < CHECK_COUNTS {
        return 7;
    }
    second(text, counts)
}

fn counts_on_refusal(text: &[u8], counts: &mut [u64]) -> u64 {
    let answer = second(text, counts);
    if answer != 0 {
        counts.fill(0);
    }
    answer
}

fn members_before_keeps(text: &[u8], counts: &mut [u64]) -> u64 {
    let answer = second(text, counts);
    let lines = text.split_inclusive(|&byte| byte == b'\n').filter(|line| !line.starts_with(b"keep="));
    match verify(&lines.collect::<Vec<_>>().concat()) {
        Err(refusal) if refusal.number == 27 && answer % 256 == 26 => code(refusal),
        _ => answer,
    }
}

#[test]
fn faults_are_found() {
    let checks: [(&str, Verify); 20] = [
        ("25 of the bound before 25 of the cost", bound_before_cost),
        ("25 of the sites last", sites_last),
        ("figures not judged", figures_not_judged),
        ("an equal keep accepted", equal_keep_accepted),
        ("a falling keep accepted", falling_keep_accepted),
        ("an equal member accepted", equal_member_accepted),
        ("a falling member accepted", falling_member_accepted),
        ("a member over 447 dropped", high_member_dropped),
        ("28 before 27", too_many_before_members),
        ("moats past the 895th ignored", later_moats_ignored),
        ("16 counted in the plan", place_in_the_plan),
        ("keep lines counted from 1", line_counted_from_one),
        ("the track for its line", track_for_its_line),
        ("26 to 28 before the line's end", open_line_judged),
        ("the last line end missing", open_end_accepted),
        ("byte 13 accepted", returns_accepted),
        ("keeps behind moats accepted", late_keeps_accepted),
        ("7 first", short_counts_first),
        ("counts zeroed on a refusal", counts_on_refusal),
        ("27 before 26", members_before_keeps),
    ];
    for (name, check) in checks {
        assert!((0..CASES).any(|case| compare(check, SEED, case).is_err()), "{name}");
    }
}
