//! The ten marked examples and the listing of `runcheck`, as tests.
//! Prints how many passed and failed, and exits 1 if any failed.

use second::actions::{act, Refusal};
use second::images::{read_image, write_image};
use second::names::{rename, renamings, representative};
use second::printed::listing;
use second::questions::{offer, strong_isr, weak_isr};
use second::run::{judge, rename_run};
use second::state::State;

/// Counts the checks.
struct Tally {
    passed: u32,
    failed: u32,
}

impl Tally {
    fn check(&mut self, name: &str, holds: bool) {
        if holds {
            self.passed += 1;
        } else {
            self.failed += 1;
            println!("failed: {}", name);
        }
    }
}

/// The run of the paper: configuration and seven actions.
const PAPER_RUN: &str = "4B4303040403 4B4101000000 4B4102000000 4B4103010000 \
                         4B4103020000 4B4104000000 4B4108010000 4B4107000000";

const PAPER_LISTING: &str = "accepted 6
refusal 49
at 42
weak 0
strong 0
exposed 0
state 4B530304040301010007000700000007010000000000070100000000000700
";

/// The bytes of a text of hex digits and spaces.
fn from_hex(text: &str) -> Vec<u8> {
    let digits: Vec<u32> = text.chars().filter_map(|c| c.to_digit(16)).collect();
    digits
        .chunks(2)
        .map(|pair| (16 * pair[0] + pair[1]) as u8)
        .collect()
}

/// A run of a configuration and actions (kind, a, b, e).
fn make_run(configuration: [u8; 4], actions: &[[u8; 4]]) -> Vec<u8> {
    let mut run = vec![0x4B, 0x43];
    run.extend_from_slice(&configuration);
    for action in actions {
        run.extend_from_slice(&[0x4B, 0x41]);
        run.extend_from_slice(action);
    }
    run
}

const SMALL: [u8; 4] = [1, 4, 4, 3];
const PAIR: [u8; 4] = [2, 4, 4, 3];
const ELECT_0: [u8; 4] = [1, 0, 0, 0];
const ELECT_1: [u8; 4] = [1, 1, 0, 0];
const SHRINK_0: [u8; 4] = [0, 0, 0, 0];
const LEADER_0: [u8; 4] = [2, 0, 0, 0];
const FOLLOWER_1_WITH_0: [u8; 4] = [3, 1, 0, 0];
const FOLLOWER_1_WITH_2: [u8; 4] = [3, 1, 0, 2];
const WRITE_0: [u8; 4] = [4, 0, 0, 0];
const ADVANCE_0: [u8; 4] = [7, 0, 0, 0];
const REPLICATE_1_FROM_0: [u8; 4] = [8, 1, 0, 0];
const REPLICATE_0_FROM_0: [u8; 4] = [8, 0, 0, 0];

fn examples_1_to_3(tally: &mut Tally) {
    let run = from_hex(PAPER_RUN);
    let verdict = judge(&run);
    tally.check("example 1", verdict.numbers() == [6, 49, 42, 0, 0, 0]);
    // Replicas 0 and 1 have the record, replica 2 has not.
    let behind = Refusal {
        number: 49,
        member: 2,
    };
    let advanced = act(&verdict.state, 7, 0, 0, 0);
    tally.check("example 1, member", advanced == Err(behind));
    tally.check("listing", listing(&run) == PAPER_LISTING);

    let exchanged = rename(&verdict.state, &[0, 2, 1, 3, 4]);
    tally.check("example 2", representative(&verdict.state) == exchanged);
    tally.check("example 2, not as given", exchanged != Ok(verdict.state));

    let mut longer = run[..42].to_vec();
    longer.extend_from_slice(&from_hex("4B4108020000"));
    longer.extend_from_slice(&run[42..]);
    let verdict = judge(&longer);
    tally.check("example 3", verdict.numbers() == [8, 0, 54, 0, 0, 1]);
}

fn examples_4_and_5(tally: &mut Tally) {
    let actions = [
        ELECT_0,
        LEADER_0,
        FOLLOWER_1_WITH_0,
        WRITE_0,
        REPLICATE_1_FROM_0,
        ADVANCE_0,
        ELECT_1,
        ELECT_0,
        FOLLOWER_1_WITH_2,
    ];
    let verdict = judge(&make_run(PAIR, &actions));
    tally.check("example 4", verdict.numbers() == [9, 0, 60, 9, 9, 1]);
    tally.check(
        "example 4, weak",
        weak_isr(&verdict.state) == Ok(Some((0, 1, 0))),
    );
    tally.check(
        "example 4, strong",
        strong_isr(&verdict.state) == Ok(Some((0, 1, 0))),
    );

    let actions = [ELECT_0, LEADER_0, FOLLOWER_1_WITH_0, FOLLOWER_1_WITH_0];
    let verdict = judge(&make_run(PAIR, &actions));
    tally.check("example 5", verdict.numbers() == [3, 9, 24, 0, 0, 0]);
}

fn examples_6_to_9(tally: &mut Tally) {
    let verdict = judge(&make_run(SMALL, &[SHRINK_0]));
    tally.check(
        "example 6, shrink",
        verdict.numbers() == [1, 0, 12, 0, 0, 0],
    );
    tally.check("example 6, ISR", verdict.state.quorum.isr == 0);
    let verdict = judge(&make_run(SMALL, &[SHRINK_0, ELECT_0]));
    tally.check("example 6, elect", verdict.numbers() == [1, 5, 12, 0, 0, 0]);

    let verdict = judge(&make_run(SMALL, &[ELECT_0, SHRINK_0]));
    tally.check(
        "example 7, accepted",
        verdict.numbers() == [2, 0, 18, 0, 0, 0],
    );
    let quorum = verdict.state.quorum;
    tally.check(
        "example 7, quorum",
        quorum.leader.is_none() && quorum.isr == 1,
    );

    let verdict = judge(&make_run(SMALL, &[ELECT_0, LEADER_0, REPLICATE_0_FROM_0]));
    tally.check(
        "example 8, replicate",
        verdict.numbers() == [2, 19, 18, 0, 0, 0],
    );
    let verdict = judge(&make_run(SMALL, &[ELECT_0, LEADER_0, ADVANCE_0]));
    tally.check(
        "example 8, advance",
        verdict.numbers() == [2, 49, 18, 0, 0, 0],
    );

    let verdict = judge(&make_run([2, 4, 4, 0], &[ELECT_0, SHRINK_0]));
    tally.check("example 9", verdict.numbers() == [1, 4, 12, 0, 0, 0]);
}

fn example_10(tally: &mut Tally) {
    let verdict = judge(&[]);
    tally.check(
        "example 10, empty",
        verdict.numbers() == [0, 21, 0, 0, 0, 0],
    );
    tally.check("example 10, last state", verdict.state == State::zero());
    for (configuration, refusal, at) in [
        ([5, 4, 4, 3], 0, 6),
        ([6, 4, 4, 3], 22, 0),
        ([3, 16, 4, 3], 0, 6),
        ([3, 17, 4, 3], 22, 0),
    ] {
        let verdict = judge(&make_run(configuration, &[]));
        let name = format!("example 10, {:?}", configuration);
        tally.check(&name, verdict.numbers() == [0, refusal, at, 0, 0, 0]);
    }
}

fn other_listings(tally: &mut Tally) {
    let zeros = "at 0\nweak 0\nstrong 0\nexposed 0\nstate none\n";
    let empty = format!("accepted 0\nrefusal 21\n{}", zeros);
    tally.check("listing of an empty run", listing(&[]) == empty);
    let mut run = make_run(PAIR, &[]);
    run.resize(65_533, 0);
    let long = format!("accepted 0\nrefusal 25\n{}", zeros);
    tally.check("listing of a run too long", listing(&run) == long);
    run.resize(65_532, 0);
    tally.check(
        "the longest run",
        judge(&run).numbers() == [0, 20, 6, 0, 0, 0],
    );
}

/// Images, renamings and offers along the paper's run.
fn other_answers(tally: &mut Tally) {
    let run = from_hex(PAPER_RUN);
    let verdict = judge(&run);
    for places in renamings(3) {
        let other = judge(&rename_run(&run, &places));
        tally.check(
            "verdict of a renamed run",
            other.numbers() == verdict.numbers(),
        );
        let moved = rename(&verdict.state, &places);
        tally.check("last state of a renamed run", moved == Ok(other.state));
        let least = representative(&verdict.state);
        tally.check("representative", representative(&other.state) == least);
    }
    let image = write_image(&verdict.state);
    let back = match image {
        Ok(image) => read_image(image.as_slice()),
        Err(number) => Err(number),
    };
    tally.check("image read back", back == Ok(verdict.state));
    tally.check(
        "offer of replicate",
        offer(&verdict.state, 8) == Ok((2, 0, 0)),
    );
    tally.check("offer of advance", offer(&verdict.state, 7) == Err(26));
    let unknown = act(&verdict.state, 9, 9, 9, 9);
    tally.check("a kind above 8", unknown == Err(2.into()));
    let mut count = 1;
    for r in 1..=5 {
        count *= r as usize;
        let rows = renamings(r);
        let rising = rows.windows(2).all(|pair| pair[0] < pair[1]);
        tally.check("renamings", rows.len() == count && rising);
    }
}

fn main() {
    let mut tally = Tally {
        passed: 0,
        failed: 0,
    };
    examples_1_to_3(&mut tally);
    examples_4_and_5(&mut tally);
    examples_6_to_9(&mut tally);
    example_10(&mut tally);
    other_listings(&mut tally);
    other_answers(&mut tally);
    println!("{} passed, {} failed", tally.passed, tally.failed);
    if tally.failed > 0 {
        std::process::exit(1);
    }
}
