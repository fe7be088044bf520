//! Where near best is best (No. 14): Dijkstra's cheapest route and Kruskal's taking, written apart from the planners,
//! and what a plan of either kind of survey has to be by them.

use crate::plan::{fast, owned, KEPT};
use crate::print::survey_text;
use crate::{Survey, View};
use std::io::Write;
use std::process::{Command, Stdio};

/// What is said where the figures show that no cheaper plan exists.
pub const REMARK: &str = "no cheaper plan exists\n";

/// What a plan of No. 14's surveys is judged by: the picked tracks as a count, as the plan is printed.
#[derive(Clone, Debug, PartialEq, Eq)]
pub struct Drawn {
    pub sites: u64,
    pub cost: u64,
    pub bound: u64,
    pub rounds: u64,
    /// Rising.
    pub kept: Vec<usize>,
}

/// The price of a cheapest route from one junction to another, or nothing where there is none. Each time the nearest
/// junction that is not settled is settled.
pub fn dijkstra(survey: View, from: usize, to: usize) -> Option<u64> {
    let n = survey.n();
    let mut far: Vec<Option<u64>> = vec![None; n];
    let mut settled = vec![false; n];
    far[from] = Some(0);
    loop {
        let near = (0..n).filter(|&v| !settled[v] && far[v].is_some()).min_by_key(|&v| far[v])?;
        if near == to {
            return far[near];
        }
        settled[near] = true;
        for t in 0..survey.m() {
            let ends = [survey.first[t] as usize, survey.second[t] as usize];
            for (here, there) in [(ends[0], ends[1]), (ends[1], ends[0])] {
                if here == near && !settled[there] {
                    let by = far[near].expect("settled") + u64::from(survey.prices[t]);
                    far[there] = Some(far[there].map_or(by, |old| old.min(by)));
                }
            }
        }
    }
}

/// The tracks that are taken by price, then number, each where it joins two parts; rising.
pub fn kruskal(survey: View) -> Vec<usize> {
    let mut order: Vec<usize> = (0..survey.m()).collect();
    order.sort_by_key(|&t| (survey.prices[t], t));
    let mut part: Vec<usize> = (0..survey.n()).collect();
    let mut taken = Vec::new();
    for t in order {
        let (one, other) = (part[survey.first[t] as usize], part[survey.second[t] as usize]);
        if one != other {
            taken.push(t);
            part.iter_mut().filter(|v| **v == one).for_each(|v| *v = other);
        }
    }
    taken.sort_unstable();
    taken
}

/// The price of joining all junctions, by growing from junction 0 by the cheapest track that leads out: a second way
/// to the same figure.
pub fn prim(survey: View) -> Option<u64> {
    let mut inside = vec![false; survey.n()];
    inside[0] = true;
    let mut cost = 0;
    for _ in 1..survey.n() {
        let leads_out = |t: &usize| inside[survey.first[*t] as usize] != inside[survey.second[*t] as usize];
        let t = (0..survey.m()).filter(leads_out).min_by_key(|&t| survey.prices[t])?;
        cost += u64::from(survey.prices[t]);
        inside[survey.first[t] as usize] = true;
        inside[survey.second[t] as usize] = true;
    }
    Some(cost)
}

fn wanted(holds: bool, what: &str) -> Result<(), String> {
    holds.then_some(()).ok_or_else(|| what.to_string())
}

fn price(survey: View, tracks: &[usize]) -> u64 {
    tracks.iter().map(|&t| u64::from(survey.prices[t])).sum()
}

/// Are the tracks all those of one route from u to w that visits no junction twice?
pub fn is_route(survey: View, tracks: &[usize], u: usize, w: usize) -> bool {
    let mut left = tracks.to_vec();
    let mut visited = vec![false; survey.n()];
    let mut here = u;
    visited[here] = true;
    while here != w {
        let at = |t: &usize| [survey.first[*t], survey.second[*t]].contains(&(here as u32));
        let Some(step) = left.iter().position(at) else {
            return false;
        };
        let t = left.swap_remove(step);
        here = (survey.first[t] as usize + survey.second[t] as usize) - here;
        if visited[here] {
            return false;
        }
        visited[here] = true;
    }
    left.is_empty()
}

/// No. 14's first claim, of a survey whose sites are u and w.
pub fn two_sites(survey: View, u: usize, w: usize, drawn: &Drawn) -> Result<(), String> {
    wanted(drawn.sites == 2, "not two sites")?;
    wanted(is_route(survey, &drawn.kept, u, w), "the kept tracks are not one route")?;
    wanted(price(survey, &drawn.kept) == drawn.cost, "the cost is not that of the kept tracks")?;
    wanted(dijkstra(survey, u, w) == Some(drawn.cost), "not a cheapest route")?;
    wanted(drawn.bound == 2 * drawn.cost, "the bound is not twice the cost")
}

/// Its second claim, of a survey with all junctions in one list. A track is dropped exactly if there are more rounds
/// than kept tracks.
pub fn one_list(survey: View, drawn: &Drawn) -> Result<(), String> {
    wanted(drawn.kept == kruskal(survey), "the kept tracks are not those taken by price, then number")?;
    wanted(drawn.rounds == drawn.kept.len() as u64, "a picked track is dropped")?;
    wanted(price(survey, &drawn.kept) == drawn.cost, "the cost is not that of the kept tracks")?;
    wanted(prim(survey) == Some(drawn.cost), "a set of tracks that joins all is cheaper")
}

/// What is to stand on standard error: the remark exactly where the figures show it.
pub fn remark(cost: u64, bound: u64) -> &'static str {
    if 2 * cost <= bound {
        REMARK
    } else {
        ""
    }
}

/// Our own planner's.
fn ours(survey: &Survey) -> Result<Drawn, String> {
    let plan = owned(fast, survey.view()).map_err(|refusal| format!("{refusal:?}"))?;
    let counts = plan.counts;
    let kept = (0..plan.marks.len()).filter(|&t| plan.marks[t] == KEPT).collect();
    Ok(Drawn { sites: counts.sites, cost: counts.cost, bound: counts.bound, rounds: counts.rounds, kept })
}

/// The number behind a key on the next line.
fn figure<'a>(lines: &mut impl Iterator<Item = &'a str>, key: &str) -> Result<u64, String> {
    let line = lines.next().unwrap_or("");
    let number = line.strip_prefix(key).and_then(|digits| digits.parse().ok());
    number.ok_or_else(|| format!("no {key} in {line:?}"))
}

/// A program's, and what it says.
fn printed(program: &str, survey: &Survey) -> Result<Drawn, String> {
    let mut child = Command::new(program)
        .stdin(Stdio::piped())
        .stdout(Stdio::piped())
        .stderr(Stdio::piped())
        .spawn()
        .map_err(|error| format!("can't be started: {error}"))?;
    let text = survey_text(survey);
    let mut stdin = child.stdin.take().expect("piped");
    let feeding = std::thread::spawn(move || stdin.write_all(&text));
    let output = child.wait_with_output().map_err(|error| format!("can't be read from: {error}"))?;
    feeding.join().expect("no panic").map_err(|error| format!("can't be written to: {error}"))?;
    let plan = String::from_utf8_lossy(&output.stdout).into_owned();
    let said = String::from_utf8_lossy(&output.stderr).into_owned();
    let mut lines = plan.lines();
    let drawn = Drawn {
        sites: figure(&mut lines, "sites=")?,
        cost: figure(&mut lines, "cost=")?,
        bound: figure(&mut lines, "bound=")?,
        rounds: figure(&mut lines, "rounds=")?,
        kept: lines.filter_map(|line| line.strip_prefix("keep=").and_then(|track| track.parse().ok())).collect(),
    };
    if said != remark(drawn.cost, drawn.bound) {
        return Err(format!("it says {said:?} of {drawn:?}"));
    }
    Ok(drawn)
}

/// The plan of a program, as it prints it, or our own planner's.
pub fn drawn(program: Option<&str>, survey: &Survey) -> Result<Drawn, String> {
    match program {
        Some(program) => printed(program, survey),
        None => ours(survey),
    }
}

/// A command's words, `--program PATH`, `--count N` and `--seed S`: the program, the count, or this one where none is
/// given, and the seed; nothing for other words.
pub fn options(mut count: u64) -> Option<(Option<String>, u64, u64)> {
    let (mut program, mut seed) = (None, 1);
    let mut words = std::env::args().skip(1);
    while let Some(word) = words.next() {
        let value = words.next()?;
        match word.as_str() {
            "--program" => program = Some(value),
            "--count" => count = value.parse().ok()?,
            "--seed" => seed = value.parse().ok()?,
            _ => return None,
        }
    }
    Some((program, count, seed))
}
