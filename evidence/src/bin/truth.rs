//! Demand 3 against the truth, on tiny surveys whose cheapest joining set is found by trying all:
//!
//!     truth [--count N] [--seed S]
//!
//! For the plan of each survey, and for damaged plans that the checker passes: (2k - 2) times the cheapest cost is at
//! least k times the plan's cost, nothing costs anything where k is 0, no plan costs less than the cheapest, and the
//! bound, in halves, is at most twice the cheapest cost.

use evidence::check::check;
use evidence::gen::{damaged_plan_of, tiny, Rng, DAMAGES};
use evidence::plan::{owned, reference};
use evidence::{brute, Survey, MAX_PRICE};
use std::collections::BTreeMap;
use std::process::ExitCode;

/// The largest of cost / best, as a fraction.
#[derive(Clone, Copy)]
struct Ratio {
    cost: u64,
    best: u64,
}

impl Ratio {
    fn take(&mut self, cost: u64, best: u64) {
        if best > 0 && cost * self.best > self.cost * best {
            *self = Ratio { cost, best };
        }
    }
}

fn accurate(sites: u64, cost: u64, bound: u64, best: u64) -> bool {
    let within = if sites == 0 { cost == 0 } else { (2 * sites - 2) * best >= sites * cost };
    within && best <= cost && bound <= 2 * best
}

/// The shapes whose plans come near the factor: a hub with a spoke to each of k sites, and a rim a little cheaper than
/// two spokes.
fn hub(k: u32, spoke: u32, rim: u32) -> Survey {
    let mut groups = vec![1; k as usize + 1];
    groups[0] = 0;
    let spokes = (1..=k).map(|v| (0, v, spoke));
    let rims = (1..k).map(|v| (v, v + 1, rim));
    Survey::new(&groups, &spokes.chain(rims).collect::<Vec<_>>())
}

fn main() -> ExitCode {
    let (mut count, mut seed) = (20_000, 1);
    let mut words = std::env::args().skip(1);
    while let Some(word) = words.next() {
        let value = words.next().and_then(|value| value.parse().ok());
        match (word.as_str(), value) {
            ("--count", Some(number)) => count = number,
            ("--seed", Some(number)) => seed = number,
            _ => {
                eprintln!("truth [--count N] [--seed S]");
                return ExitCode::from(2);
            }
        }
    }

    let mut surveys: Vec<Survey> = Vec::new();
    for k in 2..=7 {
        let dear = [hub(k, MAX_PRICE, MAX_PRICE), hub(k, MAX_PRICE / 2, MAX_PRICE - 1)];
        surveys.extend([hub(k, 1, 2), hub(k, 10, 19)].into_iter().chain(dear));
    }
    let hubs = surveys.len() as u64;

    let mut by_sites: BTreeMap<u64, (u64, Ratio)> = BTreeMap::new();
    let mut largest = Ratio { cost: 1, best: 1 };
    let (mut exact, mut passed, mut violations) = (0u64, 0u64, 0u64);
    for case in 0..count + hubs {
        let mut rng = Rng::of_case(seed, case);
        let survey = surveys.pop().unwrap_or_else(|| tiny(&mut rng));
        let plan = owned(reference, survey.view()).expect("it can be joined");
        let best = brute::cheapest(survey.view()).expect("it can be joined");
        let counts = plan.counts;
        if !accurate(counts.sites, counts.cost, counts.bound, best) {
            println!("plan of {survey:?}: {counts:?}, cheapest {best}");
            violations += 1;
        }
        exact += u64::from(counts.cost == best);
        largest.take(counts.cost, best);
        let of = by_sites.entry(counts.sites).or_insert((0, Ratio { cost: 1, best: 1 }));
        of.0 += 1;
        of.1.take(counts.cost, best);

        for _ in 0..4 {
            let damage = rng.pick(&DAMAGES);
            let other = damaged_plan_of(&mut rng, damage, survey.clone(), plan.clone());
            if let Ok(answer) = check(other.survey.view(), &other.marks, &other.records) {
                passed += 1;
                let best = if other.survey == survey { Some(best) } else { brute::cheapest(other.survey.view()) };
                if !best.is_some_and(|best| accurate(answer.sites, answer.cost, answer.bound, best)) {
                    println!("checker on {other:?}: {answer:?}, cheapest {best:?}");
                    violations += 1;
                }
            }
        }
    }

    for (sites, (many, ratio)) in &by_sites {
        match sites {
            0 => println!("sites 0: {many} surveys, no cost"),
            _ => println!(
                "sites {sites}: {many} surveys, largest cost/best {}/{}, limit {}/{sites}",
                ratio.cost,
                ratio.best,
                2 * sites - 2
            ),
        }
    }
    println!("{exact} of {} plans are cheapest", count + hubs);
    println!("{passed} altered plans pass the checker");
    println!("largest cost/best {}/{} = {:.4}", largest.cost, largest.best, largest.cost as f64 / largest.best as f64);
    println!("{} surveys, {violations} violations", count + hubs);
    if violations == 0 {
        ExitCode::SUCCESS
    } else {
        ExitCode::FAILURE
    }
}
