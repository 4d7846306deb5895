//! Differential tests: the library's archives against the second picture unit and text layer.
//!
//!     diff [--seed N] [--seconds N] [--sessions N] [--cases FILE]
//!     diff --seed N --replay SESSION:CALL
//!     diff --case 'TEXT'
//!
//! Sessions are numbered; what a session does follows from the seed and its number alone. The
//! first go through all values of something and are always done whole; the others are random
//! and end with the time.

mod call;
mod case;
mod colours;
mod isolation;
mod machine;
mod mixed;
mod order;
mod overflow;
mod random;
mod reload;
mod runs;
mod scenery;
mod sequences;
mod shared;
mod systematic;
mod text;
mod trial;
mod world;

use call::Kind;
use case::Case;
use random::Random;
use std::process::ExitCode;
use std::sync::atomic::{AtomicBool, AtomicU64, Ordering};
use std::sync::Mutex;
use std::time::{Duration, Instant};
use trial::{Runs, Stop, Tally, Trial, NUMBERS, REASONS};

const MIXED_CALLS: usize = 2000;
const PICTURE_CALLS: usize = 500;
const TEXT_CALLS: usize = 500;
const RUN_CALLS: usize = 500;
const SHARED_CALLS: usize = 400;

struct Options {
    seed: u64,
    seconds: u64,
    sessions: u64,
    threads: usize,
    cases: Option<String>,
    case: Option<String>,
    replay: Option<(u64, u64)>,
}

fn options() -> Option<Options> {
    let mut options = Options {
        seed: 1,
        seconds: 25,
        sessions: u64::MAX,
        threads: 2,
        cases: None,
        case: None,
        replay: None,
    };
    let mut words = std::env::args().skip(1);
    while let Some(word) = words.next() {
        let value = words.next()?;
        match word.as_str() {
            "--seed" => options.seed = value.parse().ok()?,
            "--seconds" => options.seconds = value.parse().ok()?,
            "--sessions" => options.sessions = value.parse().ok()?,
            "--threads" => options.threads = value.parse().ok()?,
            "--cases" => options.cases = Some(value),
            "--case" => options.case = Some(value),
            "--replay" => {
                let (session, call) = value.split_once(':')?;
                options.replay = Some((session.parse().ok()?, call.parse().ok()?));
            }
            _ => return None,
        }
    }
    Some(options)
}

/// Session `number` of the run, on both sides.
fn session(seed: u64, number: u64, trial: &mut Trial) -> Result<(), Stop> {
    let mut random = Random::of_session(seed, number);
    let mut left = number as usize;
    for (_, session, parts) in systematic::SESSIONS {
        if left < parts {
            return session(trial, &mut random, left);
        }
        left -= parts;
    }
    match left % 10 {
        0 | 3 => mixed::pictures(trial, &mut random, PICTURE_CALLS),
        5 => text::session(trial, &mut random, TEXT_CALLS),
        6 => runs::session(trial, &mut random, RUN_CALLS),
        7 | 8 => sequences::session(trial, &mut random, SHARED_CALLS),
        9 => reload::session(trial, &mut random),
        _ => mixed::session(trial, &mut random, MIXED_CALLS),
    }
}

fn systematic_sessions() -> u64 {
    systematic::SESSIONS.iter().map(|(_, _, parts)| *parts as u64).sum()
}

/// The call of a session as a case, with the memory before it.
fn case_of(seed: u64, number: u64, call: u64) -> Option<Case> {
    match session(seed, number, &mut Trial::new(Some(call), &|| false)) {
        Err(Stop::Reached(case)) => Some(*case),
        _ => None,
    }
}

/// Prints a case that differs, made short, or that both sides agree.
fn tell(case: Case) {
    if case.outcome().differs() {
        print!("{}", case.shortened().report());
    } else {
        println!("no difference: {:?}", case.call);
    }
}

/// Plays the kept cases; gives how many, or nothing if one differs.
fn kept_cases(path: &str) -> Option<u64> {
    let text = std::fs::read_to_string(path).expect("the file of cases can be read");
    let lines = text.lines().filter(|line| !line.is_empty() && !line.starts_with('#'));
    let mut played = 0;
    for line in lines {
        let case = Case::parse(line).unwrap_or_else(|| panic!("no case: {line}"));
        if case.outcome().differs() {
            println!("DIFFERENCE in a kept case:");
            print!("{}", case.report());
            return None;
        }
        played += 1;
    }
    Some(played)
}

/// Runs sessions until the time is up; the first difference, if any, and what was done.
fn trials(options: &Options) -> (Option<(u64, u64)>, Tally, u64) {
    let end = Instant::now() + Duration::from_secs(options.seconds);
    let (next, ended) = (AtomicU64::new(0), AtomicU64::new(0));
    let found = AtomicBool::new(false);
    let difference = Mutex::new(None);
    let total = Mutex::new(Tally::default());
    let work = || {
        let mut tally = Tally::default();
        loop {
            let number = next.fetch_add(1, Ordering::Relaxed);
            let is_mixed = number >= systematic_sessions();
            let late = || found.load(Ordering::Relaxed) || is_mixed && Instant::now() >= end;
            if number >= options.sessions || late() {
                break;
            }
            let mut trial = Trial::new(None, &late);
            match session(options.seed, number, &mut trial) {
                Ok(()) => drop(ended.fetch_add(1, Ordering::Relaxed)),
                Err(Stop::Difference(call)) => {
                    found.store(true, Ordering::Relaxed);
                    difference.lock().unwrap().get_or_insert((number, call));
                }
                Err(_) => {}
            }
            tally.add(&trial.tally);
        }
        total.lock().unwrap().add(&tally);
    };
    std::thread::scope(|scope| {
        for _ in 0..options.threads {
            scope.spawn(work);
        }
    });
    (difference.into_inner().unwrap(), total.into_inner().unwrap(), ended.into_inner())
}

fn print_tally(tally: &Tally) {
    for kind in Kind::ALL {
        let answers = tally.answers[kind as usize];
        let refused: Vec<String> =
            (1..NUMBERS).filter(|&n| answers[n] > 0).map(|n| format!("{} refused {n}", answers[n])).collect();
        let refused = if refused.is_empty() { String::new() } else { format!(", {}", refused.join(", ")) };
        println!("  {:12} {:9} calls: {} done{refused}", kind.text(), tally.of_kind(kind), answers[0]);
    }
    println!(
        "  {} lines run, hit set {} times, overflow {}; pixels of runs of one line: {} sprite, {} background",
        tally.lines_run, tally.hits, tally.overflows, tally.sprite_pixels, tally.background_pixels
    );
    print_runs(tally);
    print_four_pages(tally);
    println!(
        "  runs of one line on which bit 5 stays clear with nine sprites in range or more: {}, is set with fewer: {}",
        tally.passed_over, tally.mistaken
    );
    println!(
        "  searches that looked at 64 sprites: {}, at fewer: {}, the least often met number {} times",
        tally.looked.get(&64).unwrap_or(&0),
        tally.looked.range(..64).map(|(_, searches)| searches).sum::<u64>(),
        tally.looked.values().min().unwrap_or(&0)
    );
    println!(
        "  lines of the picture by runs of one line: {} in greyscale, {} with emphasis, {} with backdrop override",
        tally.grey, tally.emphasis, tally.backdrop_override
    );
    println!(
        "  {} tiles without a character; the text of each of {} pages written is its rows again",
        tally.bare_tiles,
        tally.answers[Kind::Page as usize][0]
    );
    tally.isolation.print();
}

/// What became of the runs, by their reason to stop.
fn print_runs(tally: &Tally) {
    for (reason, runs) in ["none", "NMI", "hit"].iter().zip(&tally.runs) {
        println!(
            "  runs, reason {reason}: {} met, {} of them on the last line asked for, {} not met; begun with bit 6 set: \
             {} met, {} not met",
            runs.met, runs.on_last, runs.not_met, runs.set_met, runs.set_not_met
        );
    }
    println!("  {} runs of a log went on after line 241 with control bit 7 set", tally.went_on);
}

/// What was done on boards with four pages.
fn print_four_pages(tally: &Tally) {
    let pages = &tally.four_pages;
    let kinds = Kind::ALL.into_iter().filter(|kind| kind.has_unit());
    let done: Vec<String> = kinds.map(|k| format!("{} {}", k.text(), pages.done[k as usize])).collect();
    println!("  done on boards with four pages: {}", done.join(", "));
    println!(
        "  .. in pages 2 and 3 {} accesses of port 7, {} background pixels of runs of one line; refused for 2048 bytes \
         of nametable RAM {} times, with two pages for 4096 {} times",
        pages.far_accesses, pages.far_pixels, pages.given_two, pages.two_given_four
    );
}

/// Runs for NMI and for a hit were met and were not, each in every way; those for no reason were not met.
fn runs_are_whole([all, nmi, hit]: &[Runs; REASONS]) -> bool {
    nmi.are_of_each_kind() && hit.are_of_each_kind() && all.not_met > 0 && all.met == 0
}

/// Each kind of call was done, and refused for each reason that it can be.
fn is_whole(tally: &Tally) -> bool {
    let reasons = |kind| match kind {
        Kind::Fresh | Kind::Dma => vec![0, 2, 3],
        Kind::Read | Kind::Write => vec![0, 1, 2, 3, 4],
        Kind::Play => vec![0, 1, 2, 3, 4, 5],
        Kind::Run | Kind::Search => vec![0, 2, 3, 5],
        Kind::Text => vec![0, 2],
        Kind::Page => vec![0, 2, 8],
        Kind::SharedRead | Kind::SharedWrite => vec![0, 1, 2, 3, 4, 6, 7],
        Kind::SharedDma => vec![0, 2, 3, 6, 7],
        Kind::SharedRun => vec![0, 2, 3, 5, 6, 7],
    };
    let lines = [
        tally.went_on,
        tally.hits,
        tally.overflows,
        tally.passed_over,
        tally.mistaken,
        tally.sprite_pixels,
        tally.background_pixels,
        tally.grey,
        tally.emphasis,
        tally.backdrop_override,
    ];
    Kind::ALL.into_iter().all(|k| reasons(k).iter().all(|&n| tally.answers[k as usize][n] > 0))
        && lines.iter().all(|&n| n > 0)
        && runs_are_whole(&tally.runs)
        && tally.four_pages.are_whole()
        && tally.looked.keys().copied().eq(9..=64)
        && tally.bare_tiles > 0
        && tally.isolation.is_whole()
}

/// The kept cases, then the sessions, with a report of what was done.
fn compare(options: &Options) -> ExitCode {
    if let Some(path) = &options.cases {
        let Some(played) = kept_cases(path) else { return ExitCode::FAILURE };
        println!("{played} kept cases, no difference");
    }
    let seed = options.seed;
    let (difference, tally, ended) = trials(options);
    println!("seed {seed}: {} calls in {ended} whole sessions, compared after each:", tally.calls());
    print_tally(&tally);
    if let Some((number, call)) = difference {
        println!("DIFFERENCE: seed {seed} session {number} call {call}");
        println!("replay: diff --seed {seed} --replay {number}:{call}");
        tell(case_of(seed, number, call).expect("the session comes to that call again"));
        return ExitCode::FAILURE;
    }
    if ended < systematic_sessions().min(options.sessions) || !is_whole(&tally) {
        println!("too little was done: the systematic sessions or a kind of answer is missing");
        return ExitCode::from(2);
    }
    println!("no difference");
    ExitCode::SUCCESS
}

fn main() -> ExitCode {
    let Some(options) = options() else {
        eprintln!("usage: diff [--seed N] [--seconds N] [--sessions N] [--threads N] [--cases FILE]");
        eprintln!("       diff --seed N --replay SESSION:CALL | diff --case TEXT");
        return ExitCode::from(2);
    };
    if let Some(text) = &options.case {
        tell(Case::parse(text).expect("the text is a case"));
    } else if let Some((number, call)) = options.replay {
        tell(case_of(options.seed, number, call).expect("the session has that call"));
    } else {
        return compare(&options);
    }
    ExitCode::SUCCESS
}
