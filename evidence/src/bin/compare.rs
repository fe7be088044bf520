//! Holds an outside program against our own answers, byte by byte, on generated survey texts.
//!
//!     compare --program PATH [--count N] [--seed S] [--threads T] [--seconds W] [--argument A]..
//!     compare --program PATH --case C [--seed S]
//!     compare --emit C [--seed S]
//!     compare --self N [--seed S]
//!     compare --native N [--seed S]
//!
//! In place of `--program` stands the option of another program: `evidence::programs` has them, what each is fed and what
//! it is to print. `--argument` is handed to the program. `--case` runs one case, `--emit` writes its input to
//! standard output. `--self` holds the fast planner against the plain one, with no program; `--native` does so with the
//! planner that the feature `native` links.

use evidence::calls::faults::{harm, PAIR_FAULTS};
use evidence::check::{check, Passed};
use evidence::gen::{directed_texts, overlap, refused_survey, survey, text_case, Rng, Size};
use evidence::plan::{fast, owned, record_room, reference, Counts, Plan, Planner, DROPPED};
use evidence::print::answer;
use evidence::programs::{Program, PROGRAMS};
use evidence::{Refusal, Survey, AMOUNT_BYTES, RECORD_BYTES};
use std::collections::BTreeMap;
use std::io::{Read, Write};
use std::process::{Child, ChildStdin, Command, ExitCode, Stdio};
use std::sync::atomic::{AtomicBool, AtomicU64, Ordering};
use std::sync::Mutex;
use std::time::{Duration, Instant};

struct Options {
    program: Option<(&'static Program, String)>,
    arguments: Vec<String>,
    count: u64,
    seed: u64,
    threads: usize,
    seconds: u64,
    case: Option<u64>,
    emit: Option<u64>,
    own: Option<u64>,
    native: Option<u64>,
}

/// The command lines, one for each program, and those without one.
fn usage() -> String {
    let of = |program: &Program| format!("compare {} PATH [WORDS]\n", program.option);
    let programs: String = PROGRAMS.iter().map(of).collect();
    programs
        + "compare --emit C [--seed S]
compare --self N [--seed S]
compare --native N [--seed S]
WORDS: [--count N] [--seed S] [--case C] [--threads T] [--seconds W] [--argument A].."
}

fn options() -> Result<Options, String> {
    let mut options = Options {
        program: None,
        arguments: Vec::new(),
        count: 20_000,
        seed: 1,
        threads: 2,
        seconds: 20,
        case: None,
        emit: None,
        own: None,
        native: None,
    };
    let mut words = std::env::args().skip(1);
    while let Some(word) = words.next() {
        let value = words.next().ok_or_else(|| format!("{word} wants a value"))?;
        if let Some(program) = PROGRAMS.iter().find(|program| word == program.option) {
            options.program = Some((program, value));
            continue;
        }
        if word == "--argument" {
            options.arguments.push(value);
            continue;
        }
        let number: u64 = value.parse().map_err(|_| format!("{word} wants a number"))?;
        match word.as_str() {
            "--count" => options.count = number,
            "--seed" => options.seed = number,
            "--threads" => options.threads = number.clamp(1, 64) as usize,
            "--seconds" => options.seconds = number,
            "--case" => options.case = Some(number),
            "--emit" => options.emit = Some(number),
            "--self" => options.own = Some(number),
            "--native" => options.native = Some(number),
            _ => return Err(format!("{word} isn't known")),
        }
    }
    Ok(options)
}

/// A process that a worker waits for, and since when; the watch ends it when it takes too long.
type Slot = Mutex<Option<(Child, Instant)>>;

/// Writes an input, whole or in pieces, and closes the pipe. A program may stop reading before the end; that is no
/// fault.
fn feed(mut stdin: ChildStdin, input: &[u8], pieces: bool) {
    if pieces {
        for piece in input.chunks((input.len() / 3).max(1)) {
            if stdin.write_all(piece).is_err() {
                return;
            }
            std::thread::sleep(Duration::from_micros(300));
        }
    } else {
        let _ = stdin.write_all(input);
    }
}

/// What an outside program printed, and what it said on standard error where that is `wanted`, or why there is nothing
/// to compare.
fn outside(
    program: &str,
    arguments: &[String],
    input: &[u8],
    (pieces, wanted): (bool, bool),
    slot: &Slot,
) -> Result<(Vec<u8>, String), String> {
    let mut child = Command::new(program)
        .args(arguments)
        .stdin(Stdio::piped())
        .stdout(Stdio::piped())
        .stderr(if wanted { Stdio::piped() } else { Stdio::null() })
        .spawn()
        .map_err(|error| format!("can't be started: {error}"))?;
    let stdin = child.stdin.take().expect("piped");
    let mut stdout = child.stdout.take().expect("piped");
    let stderr = child.stderr.take();
    *slot.lock().expect("no worker panics") = Some((child, Instant::now()));
    let (mut output, mut said) = (Vec::new(), String::new());
    let read = std::thread::scope(|scope| {
        if input.len() <= 4_096 {
            feed(stdin, input, pieces);
        } else {
            scope.spawn(move || feed(stdin, input, pieces));
        }
        stdout.read_to_end(&mut output)?;
        stderr.map_or(Ok(0), |mut stderr| stderr.read_to_string(&mut said))
    });
    let (mut child, _) = slot.lock().expect("no worker panics").take().expect("put there above");
    let status = child.wait().map_err(|error| format!("can't be waited for: {error}"))?;
    read.map_err(|error| format!("can't be read from: {error}"))?;
    if status.code().is_none() {
        return Err(format!("was ended by a signal or took too long ({status}), after {} bytes", output.len()));
    }
    Ok((output, said))
}

/// Bytes for a reader: lines as they are, everything odd escaped.
fn shown(bytes: &[u8]) -> String {
    bytes.escape_ascii().to_string().replace("\\n", "\\n\n")
}

#[derive(Default)]
struct Tally {
    done: u64,
    refused: BTreeMap<u32, u64>,
    plans: u64,
    with_sites: u64,
    with_dropped: u64,
    with_merged: u64,
    most_rounds: u64,
    /// The lowest case that differs, and its report.
    differs: Option<(u64, String)>,
}

impl Tally {
    fn count(&mut self, answer: &Result<Plan, Refusal>) {
        self.done += 1;
        match answer {
            Err(refusal) => *self.refused.entry(refusal.number).or_default() += 1,
            Ok(plan) => {
                let members = |moat: &[u8]| moat[AMOUNT_BYTES..].iter().map(|byte| byte.count_ones()).sum::<u32>();
                self.plans += 1;
                self.with_sites += u64::from(plan.counts.sites > 0);
                self.with_dropped += u64::from(plan.marks.contains(&DROPPED));
                self.with_merged += u64::from(plan.records.chunks_exact(RECORD_BYTES).any(|moat| members(moat) > 1));
                self.most_rounds = self.most_rounds.max(plan.counts.rounds);
            }
        }
    }
}

fn compare(options: &Options, program: &Program, path: &str) -> bool {
    let cases = match options.case {
        Some(case) => case..case + 1,
        None => 0..options.count,
    };
    let next = AtomicU64::new(cases.start);
    let stop = AtomicBool::new(false);
    let finished = AtomicBool::new(false);
    let tally = Mutex::new(Tally::default());
    let slots: Vec<Slot> = (0..options.threads).map(|_| Mutex::new(None)).collect();
    directed_texts();

    std::thread::scope(|scope| {
        let workers: Vec<_> = slots
            .iter()
            .map(|slot| {
                let (next, stop, tally, cases) = (&next, &stop, &tally, &cases);
                scope.spawn(move || loop {
                    let case = next.fetch_add(1, Ordering::SeqCst);
                    if case >= cases.end || stop.load(Ordering::SeqCst) {
                        return;
                    }
                    let run = (program.run)(options.seed, case);
                    let arguments = [&options.arguments[..], &run.arguments].concat();
                    let ways = (case % 16 == 15, run.said.is_some());
                    let expected = (run.printed, run.said.unwrap_or_default());
                    let report = match outside(path, &arguments, &run.input, ways, slot) {
                        Ok(came) if came == expected => None,
                        Ok((output, said)) => Some(format!("printed:\n{}{said}", shown(&output))),
                        Err(trouble) => Some(trouble),
                    };
                    let mut tally = tally.lock().expect("no worker panics");
                    tally.count(&run.counted);
                    if let Some(report) = report {
                        stop.store(true, Ordering::SeqCst);
                        if tally.differs.as_ref().is_none_or(|(lowest, _)| case < *lowest) {
                            let head = format!("seed {} case {case} differs", options.seed);
                            let (input, more) = (&run.input, &run.arguments);
                            let text = format!("input, {} bytes, {more:?}:\n{}", input.len(), shown(input));
                            let wanted = shown(&expected.0) + &expected.1;
                            let report = format!("{head}\n{text}\nexpected:\n{wanted}program {report}");
                            tally.differs = Some((case, report));
                        }
                    }
                })
            })
            .collect();
        scope.spawn(|| {
            while !finished.load(Ordering::SeqCst) {
                std::thread::sleep(Duration::from_millis(20));
                for slot in &slots {
                    if let Some((child, since)) = slot.lock().expect("no worker panics").as_mut() {
                        if since.elapsed() > Duration::from_secs(options.seconds) {
                            let _ = child.kill();
                        }
                    }
                }
            }
        });
        for worker in workers {
            worker.join().expect("no worker panics");
        }
        finished.store(true, Ordering::SeqCst);
    });

    let tally = tally.into_inner().expect("no worker panics");
    if let Some((_, report)) = &tally.differs {
        println!("{report}\n");
    }
    match program.option {
        "--program" => println!(
            "{} plans: {} with sites, {} drop a track, {} hold a merged moat, {} rounds at most",
            tally.plans, tally.with_sites, tally.with_dropped, tally.with_merged, tally.most_rounds
        ),
        _ => println!("{} {}", tally.plans, program.answers),
    }
    for (number, many) in &tally.refused {
        println!("{many} refused {number}");
    }
    println!("{} compared, {} differ", tally.done, u32::from(tally.differs.is_some()));
    tally.differs.is_none()
}

/// A planner's answer and the bytes it leaves in buffers of these lengths.
fn drawn(
    planner: Planner,
    survey: &Survey,
    marks: usize,
    records: usize,
) -> (Result<Counts, Refusal>, Vec<u8>, Vec<u8>) {
    let (mut marks, mut records) = (vec![0xa5; marks], vec![0x5a; records]);
    let answer = planner(survey.view(), &mut marks, &mut records);
    (answer, marks, records)
}

/// One case of `--self`: the plain planner and another on a text, and on a survey with buffers of odd lengths; the
/// checker on the plan.
fn planner_case(planner: Planner, seed: u64, case: u64) -> Result<(), String> {
    let input = text_case(seed, case);
    if answer(reference, &input) != answer(planner, &input) {
        return Err(format!("the planners differ on\n{}", shown(&input)));
    }
    let rng = &mut Rng::of_case(!seed, case);
    let size = rng.pick(&[Size::Tiny, Size::Small, Size::Small, Size::Middle]);
    let mut survey = survey(rng, size);
    if rng.chance(1, 2) {
        overlap(rng, &mut survey);
    }
    if rng.chance(1, 16) {
        let fault = rng.pick(PAIR_FAULTS);
        harm(rng, &mut survey, fault);
    }
    if rng.chance(1, 8) {
        refused_survey(rng, &mut survey);
    }
    if rng.chance(1, 16) {
        survey.second.pop();
    }
    let length = |rng: &mut Rng, need: usize| match rng.below(8) {
        0 => need.saturating_sub(1),
        1 => rng.below(need + 1),
        2 => need + rng.below(100),
        _ => need,
    };
    let marks = length(rng, survey.first.len());
    let records = length(rng, record_room(survey.groups.len()));
    let plain = drawn(reference, &survey, marks, records);
    if plain != drawn(planner, &survey, marks, records) {
        return Err(format!("the planners differ with buffers of {marks} and {records} on {survey:?}"));
    }
    match owned(planner, survey.view()) {
        Ok(Plan { counts, marks, records }) => {
            let passed = Passed { sites: counts.sites, cost: counts.cost, bound: counts.bound };
            if check(survey.view(), &marks, &records) != Ok(passed) {
                return Err(format!("the checker doesn't pass the plan of {survey:?}"));
            }
        }
        Err(_) if plain.1.iter().all(|&byte| byte == 0xa5) && plain.2.iter().all(|&byte| byte == 0x5a) => {}
        Err(_) => return Err(format!("a refusal writes, on {survey:?}")),
    }
    Ok(())
}

fn planners(planner: Planner, options: &Options, count: u64) -> ExitCode {
    for case in 0..count {
        if let Err(trouble) = planner_case(planner, options.seed, case) {
            println!("seed {} case {case}: {trouble}", options.seed);
            println!("{} compared, 1 differ", case + 1);
            return ExitCode::FAILURE;
        }
    }
    println!("{count} compared, 0 differ");
    ExitCode::SUCCESS
}

fn main() -> ExitCode {
    let options = match options() {
        Ok(options) => options,
        Err(trouble) => {
            eprintln!("{trouble}\n{}", usage());
            return ExitCode::from(2);
        }
    };
    if let Some(case) = options.emit {
        let written = std::io::stdout().write_all(&text_case(options.seed, case));
        return if written.is_ok() { ExitCode::SUCCESS } else { ExitCode::FAILURE };
    }
    if let Some(count) = options.own {
        return planners(fast, &options, count);
    }
    if let Some(count) = options.native {
        #[cfg(feature = "native")]
        return planners(evidence::native::plan, &options, count);
        #[cfg(not(feature = "native"))]
        {
            eprintln!("{count} cases want the feature native");
            return ExitCode::from(2);
        }
    }
    let Some((program, path)) = &options.program else {
        eprintln!("{}", usage());
        return ExitCode::from(2);
    };
    if compare(&options, program, path) {
        ExitCode::SUCCESS
    } else {
        ExitCode::FAILURE
    }
}
