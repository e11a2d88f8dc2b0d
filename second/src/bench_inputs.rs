//! What the measures are taken on: runs and states, the same in every process.

use harness::layout::{Flat, LONGEST_RUN, R, RECORD, STATE};
use harness::random::Random;
use harness::{answers, course, draw};
use std::ops::RangeInclusive;
use std::process::exit;

pub const SEED: u64 = 1;
pub const MOST_ACTIONS: usize = LONGEST_RUN / RECORD - 1;
/// Runs are made until a measure has so many actions.
const MEASURE_ACTIONS: usize = 150_000;

pub type MakeRun = fn(&mut Random, u8) -> Vec<u8>;

/// Runs of one kind, and the R for which they are measured.
pub struct Runs {
    pub name: &'static str,
    pub make: MakeRun,
    pub replicas: RangeInclusive<u8>,
}

/// One replica has runs of at most 64 actions: 16 of the controller, which use up the epochs, 16
/// that adopt them, 16 writes and 16 advances. Nothing cuts its log, and it has no other replica to
/// copy from or to take into its ISR. So of one replica only short runs are measured.
pub const RUNS: [Runs; 6] = [
    Runs {
        name: "200 to 2,000 a run, mostly ISR changes",
        make: mostly_changing_run,
        replicas: 2..=5,
    },
    Runs {
        name: "10,921 a run, mostly ISR changes",
        make: longest_run,
        replicas: 2..=5,
    },
    Runs {
        name: "10,921 a run, ISR changes only",
        make: changing_run,
        replicas: 2..=5,
    },
    Runs {
        name: "at least 200 a run, few ISR changes",
        make: catching_up_run,
        replicas: 2..=5,
    },
    Runs {
        name: "20 to 64 a run, random",
        make: short_run,
        replicas: 1..=1,
    },
    Runs {
        name: "20 to 200 a run, random",
        make: short_run,
        replicas: 2..=5,
    },
];

/// A generator of its own for each measure.
pub fn random(measure: &str) -> Random {
    Random::named(SEED, measure)
}

/// Runs of R replicas, as many as a measure needs.
pub fn runs(random: &mut Random, make: MakeRun, r: u8) -> Vec<Vec<u8>> {
    let (mut runs, mut actions) = (Vec::new(), 0);
    while actions < MEASURE_ACTIONS {
        let run = make(random, r);
        actions += judged(&run);
        runs.push(run);
    }
    runs
}

/// How many actions of a run are judged: the accepted ones, and the one that is refused.
fn judged(run: &[u8]) -> usize {
    let verdict = answers::judge(run);
    verdict.accepted as usize + usize::from(verdict.refusal != 0)
}

pub fn actions_judged(runs: &[Vec<u8>]) -> usize {
    runs.iter().map(|run| judged(run)).sum()
}

/// How many judged actions of 100 are leader shrinks or leader expands, kinds 5 and 6.
pub fn isr_changes(runs: &[Vec<u8>]) -> usize {
    let changes = |run: &Vec<u8>| {
        let actions = run.chunks(RECORD).skip(1).take(judged(run));
        actions.filter(|action| matches!(action[2], 5 | 6)).count()
    };
    let all = actions_judged(runs);
    (100 * runs.iter().map(changes).sum::<usize>() + all / 2) / all
}

/// In how many accepted actions of 100 weak ISR is still asked: it had not failed in the run before
/// that action.
pub fn weak_asked(runs: &[Vec<u8>]) -> usize {
    let (mut asked, mut accepted) = (0, 0);
    for run in runs {
        let verdict = answers::judge(run);
        let last_asked = match verdict.weak {
            0 => verdict.accepted,
            failed => failed,
        };
        asked += last_asked as usize;
        accepted += verdict.accepted as usize;
    }
    (100 * asked + accepted / 2) / accepted
}

/// The run, which must be accepted to its end.
fn accepted(run: Vec<u8>) -> Vec<u8> {
    if answers::judge(&run).refusal != 0 {
        eprintln!("a run of the measure is refused");
        exit(1);
    }
    run
}

/// The configuration with the greatest L, M and X.
fn greatest(r: u8) -> [u8; 4] {
    [r, 16, 64, 15]
}

/// A run with large L, M and X. Most of its actions change an ISR, since all others use up epochs,
/// ids or offsets.
fn mostly_changing_run(random: &mut Random, r: u8) -> Vec<u8> {
    let (l, m, x) = (
        random.within(12, 16),
        random.within(48, 64),
        random.within(12, 15),
    );
    let actions = 200 + random.below(1_801);
    accepted(course::accepted_run(random, [r, l, m, x], actions).run)
}

/// A run of the greatest length, of which still more actions change an ISR.
pub fn longest_run(random: &mut Random, r: u8) -> Vec<u8> {
    accepted(course::accepted_run(random, greatest(r), MOST_ACTIONS).run)
}

/// A run of the greatest length that changes a leader's ISR, the same work at every length. Its high
/// watermarks stay 0, so no records are compared there.
pub fn changing_run(random: &mut Random, r: u8) -> Vec<u8> {
    accepted(course::isr_changes_run(random, greatest(r), MOST_ACTIONS).run)
}

/// A run of at least 200 actions of which few change an ISR: 5 in 100 for R 2 to R 4, 6 for R 5.
/// None is possible too, but then two kinds would be missing. More replicas have more to replicate
/// in an epoch, so their runs get longer.
fn catching_up_run(random: &mut Random, r: u8) -> Vec<u8> {
    let more = 200 * usize::from(r - 1) - 100;
    loop {
        let actions = 200 + random.below(more);
        let course = course::catching_up_run(random, greatest(r), actions);
        if course.accepted >= 200 {
            return accepted(course.run);
        }
    }
}

/// A random run of 20 to 200 accepted actions, many refused at their end. R is put into a drawn
/// configuration, since drawn ones with R 1 are too small for 20 actions.
fn short_run(random: &mut Random, r: u8) -> Vec<u8> {
    loop {
        let [_, l, m, x] = course::configuration(random);
        let actions = 20 + random.below(181);
        let run = course::run_of(random, [r, l, m, x], actions);
        if (20..=200).contains(&answers::judge(&run).accepted) {
            return run;
        }
    }
}

/// The last state of a run of R replicas, logs of every length.
pub fn reached_state(random: &mut Random, r: u8) -> Flat {
    loop {
        let configuration = course::configuration(random);
        if configuration[0] == r {
            return answers::judge(&course::run_of(random, configuration, 100)).state;
        }
    }
}

/// The last states of runs, of any R.
pub fn reached_states(count: usize) -> Vec<Vec<u8>> {
    let mut random = random("states of runs");
    let mut reached = || answers::judge(&course::run(&mut random, 100)).state;
    (0..count).map(|_| reached().to_vec()).collect()
}

/// States of five replicas with full logs.
pub fn full_states(count: usize) -> Vec<Vec<u8>> {
    let mut random = random("full logs");
    let mut full = || draw::full_state(&mut random, 5);
    (0..count).map(|_| full().to_vec()).collect()
}

/// What is asked of a state, as bytes that stand behind it.
pub type More = fn(&mut Random, &Flat) -> Vec<u8>;

/// Each state with what is asked of it behind it.
pub fn followed(measure: &str, states: &[Vec<u8>], more: More) -> Vec<Vec<u8>> {
    let mut random = random(measure);
    let with_more = |state: &Vec<u8>| {
        let mut flat: Flat = [0; STATE];
        flat.copy_from_slice(state);
        [&state[..], &more(&mut random, &flat)].concat()
    };
    states.iter().map(with_more).collect()
}

pub fn nothing(_: &mut Random, _: &Flat) -> Vec<u8> {
    Vec::new()
}

/// One of the accepted actions, or an unknown kind where there is none.
pub fn accepted_action(random: &mut Random, state: &Flat) -> Vec<u8> {
    let all = course::accepted_actions(state);
    if all.is_empty() {
        vec![255, 0, 0, 0]
    } else {
        random.pick(&all).to_vec()
    }
}

/// An action that may be refused.
pub fn any_action(random: &mut Random, state: &Flat) -> Vec<u8> {
    course::any_action(random, state).to_vec()
}

pub fn any_kind(random: &mut Random, _: &Flat) -> Vec<u8> {
    vec![random.within(0, 8)]
}

pub fn any_places(random: &mut Random, state: &Flat) -> Vec<u8> {
    draw::renaming(random, state[R]).to_vec()
}
