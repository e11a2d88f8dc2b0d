//! The measures of one process: both sides in turn on the same inputs, through the same flat
//! functions, a row for each measure.
//!
//! The inputs are split into parts of a few milliseconds at most. Each part is timed on both sides in
//! every round, and the best of its rounds counts, so that other work on the same processor
//! disturbs little. All measures are timed by one function at one depth of the stack, so that rows
//! of a process can be compared.

use crate::bench_inputs::{self as inputs, MakeRun, More, MOST_ACTIONS};
use harness::answers;
use harness::draw;
use harness::layout::{Flat, LONGEST_IMAGE, RECORD, STATE, VERDICT};
use harness::random::Random;
use second::flat;
use std::process::exit;
use std::time::Instant;

pub const ROUNDS: usize = 7;

/// The table in which a row belongs.
pub type Table = &'static str;
pub const SPEEDS: Table = "speeds";
pub const LENGTHS: Table = "lengths";

/// About how many actions make a part.
const PART_ACTIONS: usize = 10_000;
/// How many representatives make a part, for 1 to 5 replicas.
const REPRESENTATIVES: [usize; 5] = [5_000, 3_000, 1_500, 600, 150];
/// How many states make a part, or their images.
const STATES: usize = 4_000;
/// To how many actions the longest runs are cut.
const CUTS: [usize; 5] = [1_000, 2_000, 4_000, 8_000, MOST_ACTIONS];

type Ask<N> = fn(&[u8], &mut [u8]) -> N;
type Draw = fn(&mut Random, u8) -> Flat;

/// What a side does with a part of the inputs; answers a number made from its answers.
type Work = Box<dyn Fn(&[Vec<u8>]) -> u64>;

/// Inputs, how many of the unit they hold, how many of them make a part, and what each side does.
struct Measure {
    table: Table,
    name: String,
    inputs: Vec<Vec<u8>>,
    units: usize,
    part: usize,
    proved: Work,
    second: Work,
}

/// The seconds that each side took for one part.
#[derive(Clone, Copy)]
struct Times {
    proved: f64,
    second: f64,
}

/// Puts each input to one function. Of a verdict the number has the low bytes of accepted, weak,
/// strong and exposed, and a byte of the last state.
fn asking<N: Into<u64> + 'static>(ask: Ask<N>) -> Work {
    Box::new(move |inputs| {
        let mut out = [0; VERDICT];
        let mut sum = 0;
        for input in inputs {
            sum += ask(input, &mut out).into();
            sum += u64::from(out[0]) + u64::from(out[12]) + u64::from(out[16]);
            sum += u64::from(out[20]) + u64::from(out[90]);
        }
        sum
    })
}

/// Writes the image of each state.
fn writing(write: Ask<u32>) -> Work {
    Box::new(move |states| {
        let mut out = [0; LONGEST_IMAGE];
        let mut sum = 0;
        for state in states {
            sum += u64::from(write(state, &mut out));
            sum += u64::from(out[0]) + u64::from(out[12]) + u64::from(out[20]);
        }
        sum
    })
}

fn timed(work: &Work, inputs: &[Vec<u8>]) -> (f64, u64) {
    let start = Instant::now();
    let sum = work(inputs);
    (start.elapsed().as_secs_f64(), sum)
}

/// Both sides once on a part. The numbers made from their answers must agree.
fn both_times(measure: &Measure, inputs: &[Vec<u8>], proved_first: bool) -> Times {
    let (proved, second) = if proved_first {
        let proved = timed(&measure.proved, inputs);
        (proved, timed(&measure.second, inputs))
    } else {
        let second = timed(&measure.second, inputs);
        (timed(&measure.proved, inputs), second)
    };
    if proved.1 != second.1 {
        eprintln!("the answers differ: {}", measure.name);
        exit(1);
    }
    Times {
        proved: proved.0,
        second: second.0,
    }
}

/// The best round of each part. Each side goes first in every other round.
fn best_times(measure: &Measure) -> Vec<Times> {
    let never = Times {
        proved: f64::INFINITY,
        second: f64::INFINITY,
    };
    let parts = measure.inputs.chunks(measure.part);
    let mut bests = vec![never; parts.len()];
    for round in 0..ROUNDS {
        for (inputs, best) in parts.clone().zip(bests.iter_mut()) {
            let times = both_times(measure, inputs, round % 2 == 0);
            best.proved = best.proved.min(times.proved);
            best.second = best.second.min(times.second);
        }
    }
    bests
}

/// A measure's row: its table, its name, and the nanoseconds that a unit takes on each side.
fn print_row(measure: &Measure) {
    let bests = best_times(measure);
    let unit = 1e9 / measure.units as f64;
    let proved: f64 = bests.iter().map(|best| best.proved).sum();
    let second: f64 = bests.iter().map(|best| best.second).sum();
    println!(
        "{}\t{}\t{:.4}\t{:.4}",
        measure.table,
        measure.name,
        proved * unit,
        second * unit
    );
}

fn judging(table: Table, name: String, runs: Vec<Vec<u8>>) -> Measure {
    let units = inputs::actions_judged(&runs);
    Measure {
        table,
        name,
        units,
        part: (PART_ACTIONS * runs.len() / units).max(1),
        inputs: runs,
        proved: asking(proved::judge),
        second: asking(flat::judge),
    }
}

/// Judging runs of each kind, for each R that it has. The name says how many actions of 100 are
/// leader shrinks or leader expands, and in how many weak ISR is still asked.
fn judging_kinds() -> Vec<Measure> {
    let mut measures = Vec::new();
    for kind in inputs::RUNS {
        for r in kind.replicas {
            let mut random = inputs::random(&format!("{}, R {}", kind.name, r));
            let runs = inputs::runs(&mut random, kind.make, r);
            let name = format!(
                "actions judged, {} ({} in 100; weak asked in {}), R {}",
                kind.name,
                inputs::isr_changes(&runs),
                inputs::weak_asked(&runs),
                r
            );
            measures.push(judging(SPEEDS, name, runs));
        }
    }
    measures
}

/// Judging the same runs cut to several lengths.
fn judging_lengths(which: &str, make: MakeRun, r: u8) -> Vec<Measure> {
    let name = format!("{}, R {}", which, r);
    let mut random = inputs::random(&name);
    let runs: Vec<Vec<u8>> = (0..20).map(|_| make(&mut random, r)).collect();
    let cut = |actions: usize| {
        let first = |run: &Vec<u8>| run[..RECORD * (actions + 1)].to_vec();
        let name = format!("{}, {} actions", name, actions);
        judging(LENGTHS, name, runs.iter().map(first).collect())
    };
    CUTS.map(cut).into()
}

/// Representatives of states of runs, of states with full logs, and of states that no renaming
/// changes: there every comparison of two renamings goes to the end.
fn representatives(r: u8) -> Vec<Measure> {
    let draws: [(&str, Draw); 3] = [
        ("states of runs", inputs::reached_state),
        ("full logs", draw::full_state),
        ("all alike", draw::alike_state),
    ];
    let part = REPRESENTATIVES[usize::from(r) - 1];
    let units = 600.max(4 * part);
    let measure = |(which, draw): (&str, Draw)| {
        let name = format!("representatives, R {}, {}", r, which);
        let mut random = inputs::random(&name);
        Measure {
            table: SPEEDS,
            name,
            inputs: (0..units).map(|_| draw(&mut random, r).to_vec()).collect(),
            units,
            part,
            proved: asking(proved::representative),
            second: asking(flat::representative),
        }
    };
    draws.map(measure).into()
}

/// Images of the states, written and read.
fn images(which: &str, states: Vec<Vec<u8>>) -> [Measure; 2] {
    let image = |state: &Vec<u8>| answers::image(state).ok();
    let images: Vec<Vec<u8>> = states.iter().filter_map(image).collect();
    let written = Measure {
        table: SPEEDS,
        name: format!("images written, {}", which),
        units: states.len(),
        inputs: states,
        part: STATES,
        proved: writing(proved::write_image),
        second: writing(flat::write_image),
    };
    let read = Measure {
        table: SPEEDS,
        name: format!("images read, {}", which),
        units: images.len(),
        inputs: images,
        part: STATES,
        proved: asking(proved::read_image),
        second: asking(flat::read_image),
    };
    [written, read]
}

/// What is asked of a state stands behind it in one input: here an action.
fn proved_act(input: &[u8], out: &mut [u8]) -> u32 {
    let (state, action) = input.split_at(STATE);
    proved::act(state, action[0], action[1], action[2], action[3], out)
}

fn second_act(input: &[u8], out: &mut [u8]) -> u32 {
    let (state, action) = input.split_at(STATE);
    flat::act(state, action[0], action[1], action[2], action[3], out)
}

/// A kind of which the smallest accepted action is asked.
fn proved_offer(input: &[u8], out: &mut [u8]) -> u8 {
    proved::offer(&input[..STATE], input[STATE], out)
}

fn second_offer(input: &[u8], out: &mut [u8]) -> u8 {
    flat::offer(&input[..STATE], input[STATE], out)
}

/// The five places of a renaming.
fn proved_rename(input: &[u8], out: &mut [u8]) -> u8 {
    let (state, places) = input.split_at(STATE);
    proved::rename(state, places, out)
}

fn second_rename(input: &[u8], out: &mut [u8]) -> u8 {
    let (state, places) = input.split_at(STATE);
    flat::rename(state, places, out)
}

/// The other functions on states, each asked once of each state.
fn single_answers(which: &str, states: &[Vec<u8>]) -> Vec<Measure> {
    let asks: [(&str, More, Work, Work); 6] = [
        (
            "accepted actions",
            inputs::accepted_action,
            asking(proved_act),
            asking(second_act),
        ),
        (
            "any actions",
            inputs::any_action,
            asking(proved_act),
            asking(second_act),
        ),
        (
            "weak ISR",
            inputs::nothing,
            asking(proved::weak),
            asking(flat::weak),
        ),
        (
            "strong ISR",
            inputs::nothing,
            asking(proved::strong),
            asking(flat::strong),
        ),
        (
            "offers",
            inputs::any_kind,
            asking(proved_offer),
            asking(second_offer),
        ),
        (
            "renamed states",
            inputs::any_places,
            asking(proved_rename),
            asking(second_rename),
        ),
    ];
    let measure = |(what, more, proved, second): (&str, More, Work, Work)| {
        let name = format!("{}, {}", what, which);
        let inputs = inputs::followed(&name, states, more);
        Measure {
            table: SPEEDS,
            name,
            units: inputs.len(),
            inputs,
            part: STATES,
            proved,
            second,
        }
    };
    asks.map(measure).into()
}

/// Every measure, in the order of the tables.
fn all_measures() -> Vec<Measure> {
    let mut all = judging_kinds();
    all.extend((1..=5).flat_map(representatives));
    for (which, states) in [
        ("R 5, full logs", inputs::full_states(20_000)),
        ("states of runs", inputs::reached_states(20_000)),
    ] {
        all.extend(single_answers(which, &states));
        all.extend(images(which, states));
    }
    for r in [3, 5] {
        let (only, mostly) = ("ISR changes only", "mostly ISR changes");
        all.extend(judging_lengths(only, inputs::changing_run, r));
        all.extend(judging_lengths(mostly, inputs::longest_run, r));
    }
    all
}

/// Takes every measure once and prints its row.
pub fn print_rows() {
    for measure in all_measures() {
        print_row(&measure);
    }
}
