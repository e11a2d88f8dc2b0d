//! The judge of a run, and the renaming of a run.

use crate::actions::{act_on_good, used_operands};
use crate::names::{is_renaming, Places};
use crate::questions::{exposed, strong_failure, weak_failure};
use crate::state::State;

pub const LONGEST_RUN: usize = 65_532;
pub const RECORD_SIZE: usize = 6;
const CONFIGURATION_MARK: [u8; 2] = [0x4B, 0x43];
const ACTION_MARK: [u8; 2] = [0x4B, 0x41];

/// What the judge answers of a run.
#[derive(Clone, Copy, PartialEq, Eq, Debug)]
pub struct Verdict {
    /// Actions accepted.
    pub accepted: u32,
    /// The refusal's number, or 0.
    pub refusal: u8,
    /// The byte where the refused run record starts, or the run's length; 0 for 25.
    pub at: u32,
    /// Accepted actions when weak ISR first failed, or 0.
    pub weak: u32,
    /// Accepted actions when strong ISR first failed, or 0.
    pub strong: u32,
    /// The greatest high watermark of any presuming replica in any state.
    pub exposed: u32,
    /// The last state; all zeros where no configuration was accepted.
    pub state: State,
}

impl Verdict {
    /// Accepted, refusal, at, weak, strong and exposed.
    pub fn numbers(&self) -> [u32; 6] {
        [
            self.accepted,
            self.refusal as u32,
            self.at,
            self.weak,
            self.strong,
            self.exposed,
        ]
    }
}

/// Judges a run up to its first refusal.
pub fn judge(run: &[u8]) -> Verdict {
    let mut verdict = Verdict {
        accepted: 0,
        refusal: 0,
        at: 0,
        weak: 0,
        strong: 0,
        exposed: 0,
        state: State::zero(),
    };
    match read_configuration(run) {
        Ok(state) => verdict.state = state,
        Err(number) => {
            verdict.refusal = number;
            return verdict;
        }
    }
    let mut at = RECORD_SIZE;
    while at < run.len() {
        match judge_action(&verdict.state, record_at(run, at)) {
            Ok(next) => note_accepted(&mut verdict, &next),
            Err(number) => {
                verdict.refusal = number;
                break;
            }
        }
        at += RECORD_SIZE;
    }
    verdict.at = at as u32;
    verdict
}

/// The bytes of the record that starts at `at`, fewer than six where the run ends early.
fn record_at(run: &[u8], at: usize) -> &[u8] {
    &run[at..run.len().min(at + RECORD_SIZE)]
}

/// Checks a record's length, then its mark.
fn check_record(record: &[u8], mark: [u8; 2]) -> Result<(), u8> {
    if record.len() < RECORD_SIZE {
        return Err(21);
    }
    if record[..2] != mark {
        return Err(20);
    }
    Ok(())
}

/// The fresh state of the run's configuration, after the test of the run's length.
fn read_configuration(run: &[u8]) -> Result<State, u8> {
    if run.len() > LONGEST_RUN {
        return Err(25);
    }
    let record = record_at(run, 0);
    check_record(record, CONFIGURATION_MARK)?;
    State::fresh(record[2], record[3], record[4], record[5])
}

/// The state after an action record. The states of a run meet the state rules.
fn judge_action(state: &State, record: &[u8]) -> Result<State, u8> {
    check_record(record, ACTION_MARK)?;
    let answer = act_on_good(state, record[2], record[3], record[4], record[5]);
    // A verdict does not carry the member named.
    answer.map_err(|refusal| refusal.number)
}

/// Takes the state that an accepted action handed back.
fn note_accepted(verdict: &mut Verdict, next: &State) {
    verdict.state = *next;
    verdict.accepted += 1;
    if verdict.weak == 0 && weak_failure(next).is_some() {
        verdict.weak = verdict.accepted;
    }
    if verdict.strong == 0 && strong_failure(next).is_some() {
        verdict.strong = verdict.accepted;
    }
    verdict.exposed = verdict.exposed.max(exposed(next) as u32);
}

/// The run under a renaming. A run whose configuration is not accepted stays as it is,
/// and so does a run for whose R the places are no renaming.
pub fn rename_run(run: &[u8], places: &Places) -> Vec<u8> {
    let mut renamed = run.to_vec();
    let replica_count = match read_configuration(run) {
        Ok(state) => state.replica_count,
        Err(_) => return renamed,
    };
    if !is_renaming(replica_count, places) {
        return renamed;
    }
    for record in renamed.chunks_exact_mut(RECORD_SIZE) {
        if record[..2] == ACTION_MARK {
            rename_action(record, replica_count, places);
        }
    }
    renamed
}

/// Renames the used replica operands below R of one action record.
fn rename_action(record: &mut [u8], replica_count: u8, places: &Places) {
    let (uses_a, uses_b, _) = used_operands(record[2]);
    if uses_a && record[3] < replica_count {
        record[3] = places[record[3] as usize];
    }
    if uses_b && record[4] < replica_count {
        record[4] = places[record[4] as usize];
    }
}
