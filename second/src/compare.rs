//! The comparison of the proved library with the second implementation.
//!
//! compare [--seed N] [--scale K | --soak] [--only CLASS]
//! compare --runcheck PATH [--seed N] [--count N]
//! compare --answers PATH [--seed N] [--count N]

mod asking;
mod both;
mod chosen;
mod classes;
mod explore;
mod failures;
mod lines;
mod members;
mod programs;
mod properties;

use both::Both;
use harness::random::Random;
use std::io;
use std::process::exit;
use std::time::Instant;

/// Scale 1 is for every change; the soak is for at least a million random runs.
const SOAK_SCALE: usize = 7;
/// How many runs go through `runcheck`, and questions through `answers`, if no count is given.
const RUNS: u64 = 3_000;
const QUESTIONS: u64 = 300_000;

/// Every number that an answer, or the refusal of a run, can have.
const NUMBERS: [usize; 35] = [
    0, 2, 3, 4, 5, 6, 7, 8, 9, 10, 11, 12, 13, 14, 15, 16, 18, 19, 20, 21, 22, 23, 24, 25, 26, 27,
    41, 42, 43, 44, 45, 46, 47, 48, 49,
];

type Class = (&'static str, fn(&mut Both, usize) -> String);

const CLASSES: [Class; 10] = [
    ("fresh", classes::fresh_states),
    ("fixed", chosen::fixed_states),
    ("one_byte", chosen::one_byte),
    ("states", classes::any_states),
    ("images", classes::state_images),
    ("renamings", classes::all_renamings),
    ("damaged", classes::damaged_runs),
    ("runs", classes::random_runs),
    ("explore", explore::explore),
    ("properties", properties::properties),
];

struct Options {
    seed: u64,
    scale: usize,
    count: Option<u64>,
    only: Option<String>,
    runcheck: Option<String>,
    answers: Option<String>,
}

fn usage() -> ! {
    let names: Vec<&str> = CLASSES.iter().map(|class| class.0).collect();
    println!("compare [--seed N] [--scale K | --soak] [--only CLASS]");
    println!("compare --runcheck PATH [--seed N] [--count N]");
    println!("compare --answers PATH [--seed N] [--count N]");
    println!("classes: {}", names.join(", "));
    exit(2)
}

fn parsed<T: std::str::FromStr>(text: Option<String>) -> T {
    match text.and_then(|text| text.parse().ok()) {
        Some(value) => value,
        None => usage(),
    }
}

fn options() -> Options {
    let mut options = Options {
        seed: 1,
        scale: 1,
        count: None,
        only: None,
        runcheck: None,
        answers: None,
    };
    let mut words = std::env::args().skip(1);
    while let Some(word) = words.next() {
        match word.as_str() {
            "--seed" => options.seed = parsed(words.next()),
            "--scale" => options.scale = parsed(words.next()),
            "--soak" => options.scale = SOAK_SCALE,
            "--count" => options.count = Some(parsed(words.next())),
            "--only" => options.only = Some(parsed(words.next())),
            "--runcheck" => options.runcheck = Some(parsed(words.next())),
            "--answers" => options.answers = Some(parsed(words.next())),
            _ => usage(),
        }
    }
    let known = |name: &String| CLASSES.iter().any(|class| class.0 == name);
    if options.scale == 0 || !options.only.iter().all(known) {
        usage();
    }
    options
}

fn main() {
    let options = options();
    println!("seed {}, scale {}", options.seed, options.scale);
    let seed = options.seed;
    let good = if let Some(path) = &options.runcheck {
        let count = options.count.unwrap_or(RUNS);
        checked(path, programs::check_runcheck(path, seed, count))
    } else if let Some(path) = &options.answers {
        let count = options.count.unwrap_or(QUESTIONS);
        checked(path, lines::check_answers(path, seed, count))
    } else {
        compare_all(&options)
    };
    exit(if good { 0 } else { 1 });
}

/// Whether a program printed what it must; an error is told, and is none of it.
fn checked(path: &str, result: io::Result<bool>) -> bool {
    match result {
        Ok(good) => good,
        Err(error) => {
            println!("{}: {}", path, error);
            false
        }
    }
}

/// Compares class by class, each with a seed of its own; true when all went well.
fn compare_all(options: &Options) -> bool {
    let mut total = Both::new(Random::new(options.seed));
    for (name, class) in CLASSES.iter() {
        if options.only.iter().any(|only| only != name) {
            continue;
        }
        let start = Instant::now();
        let mut both = Both::new(Random::named(options.seed, name));
        let line = class(&mut both, options.scale);
        println!(
            "{}; compared {}, properties {}, differences {}, {:.1} s",
            line,
            both.compared,
            both.tested,
            both.differences,
            start.elapsed().as_secs_f64()
        );
        total.add(&both);
    }
    let all_met = options.only.is_some() || all_met(&total);
    let runs_drawn = options.only.iter().all(|only| only == "runs");
    let all_kinds = !runs_drawn || total.failures.by_all_kinds();
    println!(
        "single actions {}, properties tested {}",
        total.actions, total.tested
    );
    println!(
        "compare: {} compared, {} differences",
        total.compared, total.differences
    );
    all_met && all_kinds && total.differences == 0
}

/// Whether each number that an answer can have was met, and no other; and for each number that names
/// a member each member. What a comparison never meets it does not test.
fn all_met(total: &Both) -> bool {
    let met = |number: &usize| total.met[*number] > 0;
    let count = |number: &usize| format!("{}: {}", number, total.met[*number]);
    let counts: Vec<String> = NUMBERS.iter().map(count).collect();
    println!("numbers met: {}", counts.join(", "));
    let never: Vec<&usize> = NUMBERS.iter().filter(|number| !met(number)).collect();
    if !never.is_empty() {
        println!("numbers never met: {:?}", never);
    }
    let other = |number: &usize| met(number) && !NUMBERS.contains(number);
    let wrongly: Vec<usize> = (0..total.met.len()).filter(other).collect();
    if !wrongly.is_empty() {
        println!("numbers that no answer has were met: {:?}", wrongly);
    }
    let members = total.members.all_named();
    never.is_empty() && wrongly.is_empty() && members
}
