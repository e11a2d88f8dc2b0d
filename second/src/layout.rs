//! Where things stand in a flat state and in a run, and the few things that the comparison works
//! out for itself, straight on these bytes: unused room, renamings, the operands that a kind uses.

pub const STATE: usize = 226;
pub const VERDICT: usize = 250;
pub const LONGEST_IMAGE: usize = 227;
pub const LONGEST_RUN: usize = 65_532;
pub const RECORD: usize = 6;
pub const MOST_REPLICAS: usize = 5;
pub const MOST_REQUESTS: usize = 16;
pub const MOST_RECORDS: usize = 16;

pub type Flat = [u8; STATE];
pub type Action = [u8; 4];
pub type Places = [u8; 5];

pub const R: usize = 0;
pub const L: usize = 1;
pub const M: usize = 2;
pub const X: usize = 3;
pub const NEXT_EPOCH: usize = 4;
pub const NEXT_ID: usize = 5;
pub const QUORUM_EPOCH: usize = 6;
pub const QUORUM_LEADER: usize = 7;
pub const QUORUM_ISR: usize = 8;
const REQUESTS: usize = 9;
const REPLICAS: usize = 41;
const REPLICA_SIZE: usize = 37;

// Within a replica's block.
pub const HW: usize = 0;
pub const EPOCH: usize = 1;
pub const LEADER: usize = 2;
pub const ISR: usize = 3;
pub const END: usize = 4;
const LOG: usize = 5;

/// Where the request of an epoch stands: its leader, then its ISR.
pub const fn request(epoch: usize) -> usize {
    REQUESTS + 2 * epoch
}

/// Where a replica's block starts.
pub const fn replica(i: usize) -> usize {
    REPLICAS + REPLICA_SIZE * i
}

/// Where a record of a replica's log stands: its id, then its epoch.
pub const fn record(i: usize, offset: usize) -> usize {
    replica(i) + LOG + 2 * offset
}

/// True for each byte that is no part of the state; for states within the ranges of S1 and S2.
pub fn unused(state: &Flat) -> [bool; STATE] {
    let mut unused = [false; STATE];
    for byte in &mut unused[request(usize::from(state[NEXT_EPOCH]))..REPLICAS] {
        *byte = true;
    }
    let count = usize::from(state[R]);
    for i in 0..count {
        let end = usize::from(state[replica(i) + END]);
        for byte in &mut unused[record(i, end)..replica(i + 1)] {
            *byte = true;
        }
    }
    for byte in &mut unused[replica(count)..] {
        *byte = true;
    }
    unused
}

/// The same state with zeros in its unused room.
pub fn tidied(state: &Flat) -> Flat {
    let unused = unused(state);
    let mut tidy = *state;
    for i in 0..STATE {
        if unused[i] {
            tidy[i] = 0;
        }
    }
    tidy
}

/// The same state with something in each byte of its unused room: never 0, and no two bytes alike.
pub fn untidied(state: &Flat) -> Flat {
    let unused = unused(state);
    let mut untidy = *state;
    for i in 0..STATE {
        if unused[i] {
            untidy[i] = 255 - i as u8;
        }
    }
    untidy
}

fn renamed_leader(leader: u8, places: &Places) -> u8 {
    if leader == 0 {
        0
    } else {
        places[usize::from(leader) - 1] + 1
    }
}

fn renamed_isr(isr: u8, places: &Places) -> u8 {
    let mut renamed = 0;
    for (i, place) in places.iter().enumerate() {
        if isr & (1 << i) != 0 {
            renamed |= 1 << place;
        }
    }
    renamed
}

/// A state that meets the rules, under a renaming.
pub fn renamed(state: &Flat, places: &Places) -> Flat {
    let mut out = tidied(state);
    out[QUORUM_LEADER] = renamed_leader(state[QUORUM_LEADER], places);
    out[QUORUM_ISR] = renamed_isr(state[QUORUM_ISR], places);
    for epoch in 0..usize::from(state[NEXT_EPOCH]) {
        let at = request(epoch);
        out[at] = renamed_leader(state[at], places);
        out[at + 1] = renamed_isr(state[at + 1], places);
    }
    let tidy = tidied(state);
    for i in 0..usize::from(state[R]) {
        let (from, to) = (replica(i), replica(usize::from(places[i])));
        out[to..to + REPLICA_SIZE].copy_from_slice(&tidy[from..from + REPLICA_SIZE]);
        out[to + LEADER] = renamed_leader(tidy[from + LEADER], places);
        out[to + ISR] = renamed_isr(tidy[from + ISR], places);
    }
    out
}

/// The bytes of a state in the order of an image, whether it meets the rules or not; of more requests,
/// replicas or records than a state has room for, those that it has.
pub fn as_image(state: &Flat) -> Vec<u8> {
    let leader = |at: usize| state[at].wrapping_sub(1);
    let mut image = vec![0x4B, 0x53];
    image.extend_from_slice(&state[R..QUORUM_EPOCH]);
    image.extend_from_slice(&[leader(QUORUM_LEADER), state[QUORUM_ISR]]);
    for epoch in 0..usize::from(state[NEXT_EPOCH]).min(MOST_REQUESTS) {
        let at = request(epoch);
        image.extend_from_slice(&[leader(at), state[at + 1]]);
    }
    for i in 0..usize::from(state[R]).min(MOST_REPLICAS) {
        let (at, end) = (replica(i), state[replica(i) + END]);
        let fields = [state[at + HW], state[at + EPOCH], leader(at + LEADER)];
        image.extend_from_slice(&fields);
        image.extend_from_slice(&[state[at + ISR], end]);
        let records = usize::from(end).min(MOST_RECORDS);
        image.extend_from_slice(&state[record(i, 0)..record(i, records)]);
    }
    image
}

/// Whether a kind uses its operands a, b and e.
pub fn used(kind: u8) -> [bool; 3] {
    match kind {
        0 | 1 | 4 | 7 => [true, false, false],
        2 => [false, false, true],
        3 => [true, false, true],
        5 | 6 | 8 => [true, true, false],
        _ => [false, false, false],
    }
}

/// An action under a renaming: its used replica operands below R change.
pub fn renamed_action(action: Action, r: u8, places: &Places) -> Action {
    let used = used(action[0]);
    let mut out = action;
    for i in 0..2 {
        if used[i] && action[i + 1] < r {
            out[i + 1] = places[usize::from(action[i + 1])];
        }
    }
    out
}

/// A run under a renaming; a run without an accepted configuration stays as it is.
pub fn renamed_run(run: &[u8], places: &Places) -> Vec<u8> {
    let mut out = run.to_vec();
    if !configured(run) {
        return out;
    }
    for start in (RECORD..run.len()).step_by(RECORD) {
        let whole = run.len() - start >= RECORD;
        if whole && run[start] == 0x4B && run[start + 1] == 0x41 {
            let action = [
                run[start + 2],
                run[start + 3],
                run[start + 4],
                run[start + 5],
            ];
            out[start + 2..start + 6].copy_from_slice(&renamed_action(action, run[2], places));
        }
    }
    out
}

/// Whether a run has an accepted configuration.
pub fn configured(run: &[u8]) -> bool {
    run.len() >= RECORD
        && run.len() <= LONGEST_RUN
        && run[0] == 0x4B
        && run[1] == 0x43
        && in_range(run[2], run[3], run[4], run[5])
}

pub fn in_range(r: u8, l: u8, m: u8, x: u8) -> bool {
    (1..=5).contains(&r) && (1..=16).contains(&l) && (1..=64).contains(&m) && x <= 15
}

/// All renamings of R replicas by exchanges of two places (Heap's method), in no particular order.
pub fn renamings(r: u8) -> Vec<Places> {
    let mut places = [0, 1, 2, 3, 4];
    let mut all = Vec::new();
    exchange(usize::from(r), &mut places, &mut all);
    all
}

fn exchange(count: usize, places: &mut Places, all: &mut Vec<Places>) {
    if count <= 1 {
        all.push(*places);
        return;
    }
    for i in 0..count {
        exchange(count - 1, places, all);
        let other = if count % 2 == 0 { i } else { 0 };
        if i + 1 < count {
            places.swap(other, count - 1);
        }
    }
}

/// One action as a record of a run.
pub fn action_record(action: Action) -> [u8; RECORD] {
    [0x4B, 0x41, action[0], action[1], action[2], action[3]]
}

/// A configuration as the first record of a run.
pub fn configuration_record(c: [u8; 4]) -> [u8; RECORD] {
    [0x4B, 0x43, c[0], c[1], c[2], c[3]]
}
