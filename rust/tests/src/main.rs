//! Runs the phases, and ends with `rust tests: N passed, 0 failed`.
//!
//! `--seed S` draws other cases. `--long` draws ten times as many, and
//! `--times T` so many times. `--phase PHASE` runs one phase alone.
//! `--case PHASE/NUMBER` runs one case again and says all about it.
//! `--reasons` also says how often each reason for a refusal was met.
//! `--trace` names each case before it runs, on one thread, for a case that
//! ends the whole program.

use held_against_second::features;
use held_against_second::judge::Judge;
use held_against_second::phases::{Phase, PHASES};
use held_against_second::tails;
use held_against_second::tally::{Tally, BY_CODE, BY_INDEX, CALLS, ENDS, FROM_SHEET, NUMBERS, TO_FRAME};
use std::panic::{catch_unwind, AssertUnwindSafe};
use std::process::ExitCode;
use std::time::Instant;

/// How often each refusal of each call must be met, and each reason.
const LEAST: u64 = 100;

/// How many failed cases are told.
const TOLD: usize = 10;

const THREADS: u64 = 2;

struct Options {
    seed: u64,
    times: u64,
    phase: Option<Phase>,
    case: Option<u64>,
    trace: bool,
    reasons: bool,
}

fn options() -> Option<Options> {
    let mut options = Options { seed: 1, times: 1, phase: None, case: None, trace: false, reasons: false };
    let phase_of = |name: &str| PHASES.into_iter().find(|phase| phase.name() == name);
    let mut words = std::env::args().skip(1);
    while let Some(word) = words.next() {
        match word.as_str() {
            "--long" => options.times = 10,
            "--trace" => options.trace = true,
            "--reasons" => options.reasons = true,
            "--seed" => options.seed = words.next()?.parse().ok()?,
            "--times" => options.times = words.next()?.parse().ok()?,
            "--phase" => options.phase = Some(phase_of(&words.next()?)?),
            "--case" => {
                let case = words.next()?;
                let (phase, number) = case.split_once('/')?;
                options.phase = Some(phase_of(phase)?);
                options.case = Some(number.parse().ok()?);
            }
            _ => return None,
        }
    }
    Some(options)
}

/// What a phase, or a thread's share of it, came to.
#[derive(Default)]
struct Outcome {
    cases: u64,
    accepted: u64,
    comparisons: u64,
    tally: Tally,
    /// Failed cases, each with what there is to say of it.
    failed: Vec<(u64, Vec<String>)>,
}

impl Outcome {
    fn add(&mut self, other: Outcome) {
        self.cases += other.cases;
        self.accepted += other.accepted;
        self.comparisons += other.comparisons;
        self.tally.add(&other.tally);
        self.failed.extend(other.failed);
    }

    fn run(&mut self, judge: &mut Judge, phase: Phase, seed: u64, case: u64) {
        let run = catch_unwind(AssertUnwindSafe(|| phase.run(judge, seed, case)));
        if run.is_err() {
            judge.disagreements.push("a panic".into());
        }
        self.cases += 1;
        self.accepted += u64::from(judge.accepted);
        self.comparisons += judge.comparisons;
        self.tally.add(&judge.met);
        if !judge.disagreements.is_empty() {
            let mut told = judge.notes.clone();
            told.append(&mut judge.disagreements);
            self.failed.push((case, told));
        }
    }
}

/// Runs a phase; case after case goes to one thread and the other, but large
/// ones to one alone, so that no two of them are in memory. What is found does
/// not depend on that.
fn run_phase(phase: Phase, options: &Options) -> Outcome {
    let (cases, seed) = (phase.cases(options.times), options.seed);
    let threads = if options.trace || phase.is_large() { 1 } else { THREADS };
    let share = |thread: u64| {
        let mut outcome = Outcome::default();
        let mut judge = Judge::default();
        for case in (thread..cases).step_by(threads as usize) {
            if options.trace {
                eprint!("--seed {seed} --case {}/{case}", phase.name());
            }
            let start = Instant::now();
            outcome.run(&mut judge, phase, seed, case);
            if options.trace {
                eprintln!(" took {:.1} ms", start.elapsed().as_secs_f64() * 1e3);
            }
        }
        outcome
    };
    let mut outcome = Outcome::default();
    std::thread::scope(|scope| {
        let running: Vec<_> = (0..threads).map(|thread| scope.spawn(move || share(thread))).collect();
        for thread in running {
            match thread.join() {
                Ok(shared) => outcome.add(shared),
                Err(_) => panic!("a thread ended early"),
            }
        }
    });
    outcome.failed.sort();
    outcome
}

fn tell(phase: Phase, seed: u64, failed: &[(u64, Vec<String>)], most: usize) {
    for (case, told) in failed.iter().take(most) {
        println!("FAILED --seed {seed} --case {}/{case}", phase.name());
        for line in told {
            println!("    {line}");
        }
    }
    if failed.len() > most {
        let more = failed.len() - most;
        println!("    and {more} more cases of {}", phase.name());
    }
}

fn run_case(options: &Options, phase: Phase, case: u64) -> bool {
    let mut outcome = Outcome::default();
    let mut judge = Judge::default();
    judge.tell_all();
    outcome.run(&mut judge, phase, options.seed, case);
    if outcome.failed.is_empty() {
        judge.notes.iter().for_each(|note| println!("    {note}"));
    }
    tell(phase, options.seed, &outcome.failed, 1);
    println!("{} comparisons", outcome.comparisons);
    outcome.failed.is_empty()
}

fn print_answers(tally: &Tally) {
    println!("\ncases in which a call gave each refusal, and none (0)");
    print!("{:13}", "");
    (0..NUMBERS).for_each(|number| print!("{number:>7}"));
    println!();
    for call in CALLS {
        print!("{:13}", format!("{call:?}"));
        for (number, met) in tally.answers[call as usize].iter().enumerate() {
            let can = number == 0 || call.refusals().contains(&(number as u64));
            if can || *met > 0 {
                print!("{met:>7}");
            } else {
                print!("{:>7}", "-");
            }
        }
        println!();
    }
}

fn print_reasons(tally: &Tally) {
    println!("\ncases in which each reason was met");
    for (reason, met) in &tally.reasons {
        let at = format!("{:?} {:2} {:?}", reason.way, reason.number, reason.at);
        let year = reason.year;
        println!("{at:46}{year:>5}{met:>8}");
    }
    println!("\ncases in which each feature was accepted");
    for (feature, met) in tally.features.iter().enumerate() {
        println!("{:29}{met:>8}", features::name(feature));
    }
    for (field, met) in tails::FIELDS.into_iter().zip(tally.tails) {
        println!("tails at {}, {:?}: {met:?}", field.place, tails::KINDS);
    }
    println!("dirty fields, a bit each, the date's lowest: {:?}", tally.dirty);
    println!("units 1 to 5: {:?}", &tally.units[1..]);
    println!("no NaN, or the first at each corner: {:?}", tally.nans);
    for (dimension, name) in ["X", "Y", "heights"].into_iter().enumerate() {
        println!(
            "{name}: kinds 1 to 4 {:?}, units 1 to 5 {:?}",
            &tally.elements[dimension][1..5],
            &tally.element_units[dimension][1..]
        );
    }
    println!("items: kinds 0 to 5 {:?}", tally.items);
    println!("codings 0 to 2: there {:?}, back {:?}", tally.there, tally.back);
    println!("sums of accepted sheets within 32 bits, and past them: {:?}", tally.sums);
    println!("indexes, old and new, by the entries of their last block: {:?}", tally.last_counts);
    println!("built indexes by the bytes of their last place, 2 to 4: {:?}", tally.places);
    println!("no hit, one, more: by an index {:?}, from a sheet {:?}", tally.hits[BY_INDEX], tally.hits[FROM_SHEET]);
    println!("selected localisations 0 to 5: {:?}", tally.localisations);
    println!("hops that ended at {ENDS:?}: by code {:?}, to the frame {:?}", tally.ends[BY_CODE], tally.ends[TO_FRAME]);
}

/// Runs the phases that are asked for, and prints a line for each.
fn run_phases(options: &Options) -> Run {
    println!("{:15}{:>9}{:>10}{:>13}{:>9}", "phase", "cases", "accepted", "comparisons", "seconds");
    let mut run = Run::default();
    for phase in PHASES {
        if options.phase.is_some_and(|only| only != phase) {
            continue;
        }
        let start = Instant::now();
        let outcome = run_phase(phase, options);
        println!(
            "{:15}{:>9}{:>10}{:>13}{:>9.1}",
            phase.name(),
            outcome.cases,
            outcome.accepted,
            outcome.comparisons,
            start.elapsed().as_secs_f64()
        );
        tell(phase, options.seed, &outcome.failed, TOLD);
        if phase.is_drawn() {
            run.drawn += outcome.cases;
            run.drawn_accepted += outcome.accepted;
        }
        run.all.add(outcome);
    }
    run
}

/// What all phases came to, and of those whose cases are drawn at random how
/// many cases there were and how many were accepted.
#[derive(Default)]
struct Run {
    all: Outcome,
    drawn: u64,
    drawn_accepted: u64,
}

impl Run {
    /// What was met too seldom.
    fn missing(&self) -> Vec<String> {
        let mut missing = self.all.tally.missing(LEAST);
        if self.drawn_accepted * 3 < self.drawn {
            missing.push("less than a third of the drawn cases was accepted".into());
        }
        missing
    }
}

fn main() -> ExitCode {
    let Some(options) = options() else {
        eprintln!("--seed S, --long, --times T, --phase PHASE, --case PHASE/NUMBER, --reasons or --trace");
        return ExitCode::from(2);
    };
    if let (Some(phase), Some(case)) = (options.phase, options.case) {
        return ExitCode::from(u8::from(!run_case(&options, phase, case)));
    }
    let start = Instant::now();
    let run = run_phases(&options);
    print_answers(&run.all.tally);
    if options.reasons {
        print_reasons(&run.all.tally);
    }
    println!(
        "\nseed {}: {} drawn cases, of which {} were accepted; {} comparisons in {:.1} s",
        options.seed,
        run.drawn,
        run.drawn_accepted,
        run.all.comparisons,
        start.elapsed().as_secs_f64()
    );
    // One phase alone need not meet everything.
    let missing = if options.phase.is_none() { run.missing() } else { Vec::new() };
    for line in &missing {
        println!("FAILED {line}; {LEAST} are needed");
    }
    let failed = (run.all.failed.len() + missing.len()) as u64;
    println!("rust tests: {} passed, {failed} failed", run.all.cases - run.all.failed.len() as u64);
    ExitCode::from(u8::from(failed > 0))
}
