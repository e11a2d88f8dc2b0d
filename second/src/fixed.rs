//! States that are written down and not drawn.

use crate::answers;
use crate::layout::*;

const SMALL: [u8; 4] = [3, 4, 4, 3];
const LARGE: [u8; 4] = [5, 16, 64, 15];

/// The state with some of its bytes changed.
pub fn with(state: &Flat, changes: &[(usize, u8)]) -> Flat {
    let mut changed = *state;
    for &(at, value) in changes {
        changed[at] = value;
    }
    changed
}

fn set_replica(state: &mut Flat, i: usize, fields: [u8; 5], records: &[[u8; 2]]) {
    let at = replica(i);
    state[at..at + 5].copy_from_slice(&fields);
    for (offset, record_bytes) in records.iter().enumerate() {
        let at = record(i, offset);
        state[at..at + 2].copy_from_slice(record_bytes);
    }
}

/// The fresh state of three replicas.
pub fn fresh() -> Flat {
    answers::fresh(SMALL).unwrap_or([0; STATE])
}

/// Three replicas and two requests. Replica 0 leads at epoch 0 with two records, though the quorum
/// names replica 1 at epoch 1; replica 1 still follows it, with one record; replica 2 has no epoch.
/// Ids 0 and 1 are in logs, 2 is in none.
pub fn stale_leader() -> Flat {
    let mut state = [0; STATE];
    state[..4].copy_from_slice(&SMALL);
    state[NEXT_EPOCH..=QUORUM_ISR].copy_from_slice(&[2, 3, 1, 2, 7]);
    state[request(0)..request(2)].copy_from_slice(&[1, 7, 2, 7]);
    set_replica(&mut state, 0, [1, 0, 1, 7, 2], &[[0, 0], [1, 0]]);
    set_replica(&mut state, 1, [0, 0, 1, 7, 1], &[[0, 0]]);
    set_replica(&mut state, 2, [0, 255, 0, 0, 0], &[]);
    state
}

/// A state of a run: replica 0 exposed a record and writes on, replica 1 was elected and writes too,
/// replica 2 follows it and lost what it had above its hw.
pub fn two_leaders() -> Flat {
    let actions = [
        [1, 0, 0, 0],
        [2, 0, 0, 0],
        [3, 1, 0, 0],
        [3, 2, 0, 0],
        [4, 0, 0, 0],
        [8, 1, 0, 0],
        [8, 2, 0, 0],
        [7, 0, 0, 0],
        [4, 0, 0, 0],
        [8, 1, 0, 0],
        [1, 1, 0, 0],
        [2, 0, 0, 1],
        [3, 2, 0, 1],
        [4, 1, 0, 0],
    ];
    let mut run = configuration_record(SMALL).to_vec();
    for action in actions {
        run.extend_from_slice(&action_record(action));
    }
    answers::judge(&run).state
}

/// Five replicas whose logs are full and alike, all below their hws; all 16 epochs are used, and all
/// replicas are at the last, whose leader is replica 3.
pub fn full() -> Flat {
    let mut state = [0; STATE];
    state[..4].copy_from_slice(&LARGE);
    state[NEXT_EPOCH..=QUORUM_ISR].copy_from_slice(&[16, 64, 15, 4, 31]);
    for epoch in 0..16 {
        state[request(epoch)] = 1 + epoch as u8 % 4;
        state[request(epoch) + 1] = 31;
    }
    let records: Vec<[u8; 2]> = (0..16).map(|n| [n, n]).collect();
    for i in 0..5 {
        set_replica(&mut state, i, [16, 15, 4, 31, 16], &records);
    }
    state
}

/// The full state with another last record in the log of replica 4.
pub fn full_with_other_record() -> Flat {
    with(&full(), &[(record(4, 15), 31)])
}

/// Replica i of the full state, an epoch behind.
fn behind(i: usize) -> [(usize, u8); 2] {
    [(replica(i) + EPOCH, 14), (replica(i) + LEADER, 3)]
}

/// All of these, and states about the full one that break S1.
pub fn all() -> Vec<Flat> {
    let (full, other) = (full(), full_with_other_record());
    let mut states = vec![fresh(), stale_leader(), two_leaders(), full, other];
    states.push(with(&other, &behind(4)));
    states.push(with(&full, &behind(3)));
    for (limit, value) in [(R, 200), (R, 0), (X, 255)] {
        states.push(with(&full, &[(limit, value)]));
    }
    states.extend([[0; STATE], [255; STATE]]);
    states
}
