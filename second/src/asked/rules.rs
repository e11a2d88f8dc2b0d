//! Fresh states, and the rule that a state breaks first.

use super::{asking, Asked, Changes};
use harness::fixed::{self, with};
use harness::layout::*;
use second::printed::hex;
use second::replies::{ASKS_FRESH, ASKS_RULE};

/// The number of the first broken rule (0 for none), a byte of the state, and values for it.
type OneByte = (u8, usize, &'static [u8]);

/// The number of the first broken rule and some bytes of the state with a value for each.
type SomeBytes = (u8, Changes);

/// The number, a place among R, L, M, X, and values for it; the others stay in range.
const LIMITS: &[OneByte] = &[
    (0, R, &[1, 2, 3, 4, 5]),
    (22, R, &[0, 6, 7, 128, 255]),
    (0, L, &[1, 2, 15, 16]),
    (22, L, &[0, 17, 128, 255]),
    (0, M, &[1, 2, 63, 64]),
    (22, M, &[0, 65, 128, 255]),
    (0, X, &[0, 1, 14, 15]),
    (22, X, &[16, 17, 128, 255]),
];

/// The number and a whole configuration.
const CONFIGURATIONS: &[(u8, [u8; 4])] = &[
    (0, [1, 1, 1, 0]),
    (0, [5, 16, 64, 15]),
    (22, [0, 0, 0, 16]),
    (22, [6, 17, 65, 16]),
    (22, [255, 255, 255, 255]),
];

/// One byte of the state with the stale leader changed.
const OF_STALE_LEADER: &[OneByte] = &[
    // What R, L, M and X leave of it. Replicas 3 and 4 have zeros, so they do not follow request 0.
    (41, R, &[0, 6, 7, 128, 255]),
    (42, R, &[1, 2]),
    (45, R, &[4, 5]),
    (0, L, &[2, 3, 4, 16]),
    (41, L, &[0, 17, 128, 255]),
    (42, L, &[1]),
    (0, M, &[3, 4, 64]),
    (41, M, &[0, 1, 2, 65, 128, 255]),
    (0, X, &[1, 2, 3, 15]),
    (41, X, &[0, 16, 127, 128, 254, 255]),
    // The next epoch and the next id.
    (41, NEXT_EPOCH, &[5, 16, 17, 128, 255]),
    (43, NEXT_EPOCH, &[0, 1, 3, 4]),
    (0, NEXT_ID, &[2, 3, 4]),
    (41, NEXT_ID, &[5, 64, 65, 128, 255]),
    (46, NEXT_ID, &[0, 1]),
    // The quorum.
    (43, QUORUM_EPOCH, &[0, 2, 3, 127, 128, 254, 255]),
    (42, QUORUM_LEADER, &[4, 5, 6, 128, 255]),
    (43, QUORUM_LEADER, &[0, 1, 3]),
    (0, QUORUM_ISR, &[2, 3, 6, 7]),
    (42, QUORUM_ISR, &[8, 15, 16, 31, 128, 255]),
    (44, QUORUM_ISR, &[0, 1, 4, 5]),
    // The requests that are sent, and room for others.
    (42, request(0), &[4, 9, 255]),
    (45, request(0), &[0, 2, 3]),
    (0, request(0) + 1, &[1, 3, 5, 7]),
    (42, request(0) + 1, &[8, 15, 255]),
    (44, request(0) + 1, &[0, 2, 4, 6]),
    (42, request(1), &[4, 9, 255]),
    (43, request(1), &[0, 1, 3]),
    (0, request(1) + 1, &[2, 3, 6, 7]),
    (42, request(1) + 1, &[8, 128, 255]),
    (44, request(1) + 1, &[0, 1, 4, 5]),
    (0, request(2), &[1, 4, 9, 255]),
    (0, request(2) + 1, &[1, 8, 255]),
    (0, request(15), &[255]),
    (0, request(15) + 1, &[255]),
    // Replica 0, which presumes to lead.
    (0, replica(0) + HW, &[0, 1, 2]),
    (45, replica(0) + HW, &[3, 4, 5, 128, 255]),
    (45, replica(0) + EPOCH, &[1, 2, 3, 127, 128, 254, 255]),
    (42, replica(0) + LEADER, &[4, 9, 255]),
    (45, replica(0) + LEADER, &[0, 2, 3]),
    (0, replica(0) + ISR, &[1, 3, 5, 7]),
    (42, replica(0) + ISR, &[8, 15, 255]),
    (45, replica(0) + ISR, &[0, 2, 4, 6]),
    (0, replica(0) + END, &[1, 2]),
    (42, replica(0) + END, &[5, 16, 17, 128, 255]),
    (45, replica(0) + END, &[0]),
    (47, replica(0) + END, &[3, 4]),
    // Replica 1, which follows it and needs not be in its own ISR.
    (0, replica(1) + HW, &[0, 1]),
    (45, replica(1) + HW, &[2, 255]),
    (45, replica(1) + EPOCH, &[1, 2, 128, 254, 255]),
    (42, replica(1) + LEADER, &[4, 255]),
    (45, replica(1) + LEADER, &[0, 2, 3]),
    (0, replica(1) + ISR, &[0, 1, 2, 5, 7]),
    (42, replica(1) + ISR, &[8, 15, 255]),
    (0, replica(1) + END, &[0, 1]),
    (42, replica(1) + END, &[5, 255]),
    (47, replica(1) + END, &[2, 3, 4]),
    // Replica 2, without an epoch. The first record of its room is the one that the others hold.
    (45, replica(2) + HW, &[1, 255]),
    (45, replica(2) + EPOCH, &[0, 1, 2, 128, 254]),
    (42, replica(2) + LEADER, &[4, 255]),
    (45, replica(2) + LEADER, &[1, 2, 3]),
    (42, replica(2) + ISR, &[8, 255]),
    (45, replica(2) + ISR, &[1, 4, 7]),
    (0, replica(2) + END, &[0, 1]),
    (42, replica(2) + END, &[5, 255]),
    (47, replica(2) + END, &[2]),
    // Replicas past R.
    (0, replica(3) + HW, &[255]),
    (0, replica(3) + EPOCH, &[128, 255]),
    (0, replica(3) + LEADER, &[9, 255]),
    (0, replica(3) + ISR, &[8, 255]),
    (0, replica(3) + END, &[5, 255]),
    (0, replica(4) + END, &[17, 255]),
    (0, record(4, 15) + 1, &[255]),
    // Records of replica 0, then its room past the end.
    (0, record(0, 0), &[0, 2]),
    (46, record(0, 0), &[3, 4, 64, 255]),
    (47, record(0, 0), &[1]),
    (46, record(0, 0) + 1, &[2, 3, 127, 128, 255]),
    (47, record(0, 0) + 1, &[1]),
    (0, record(0, 1), &[1, 2]),
    (46, record(0, 1), &[3, 128, 255]),
    (47, record(0, 1), &[0]),
    (0, record(0, 1) + 1, &[0, 1]),
    (46, record(0, 1) + 1, &[2, 128, 255]),
    (0, record(0, 2), &[1, 255]),
    (0, record(0, 2) + 1, &[1, 255]),
    (0, record(0, 15) + 1, &[255]),
    // Records of replica 1, which have their likes in the log of replica 0.
    (0, record(1, 0), &[0, 2]),
    (46, record(1, 0), &[3, 255]),
    (47, record(1, 0), &[1]),
    (46, record(1, 0) + 1, &[2, 255]),
    (47, record(1, 0) + 1, &[1]),
    (0, record(1, 1), &[1, 255]),
    (0, record(1, 1) + 1, &[255]),
    (0, record(2, 0), &[1, 255]),
    (0, record(3, 0), &[255]),
];

/// Some bytes of it changed, in which single changes would be a fault or would say less.
#[rustfmt::skip]
const SOME_OF_STALE_LEADER: &[SomeBytes] = &[
    // No leader; then another one, in both ISRs or in one.
    (0, &[(QUORUM_LEADER, 0), (request(1), 0)]),
    (0, &[(QUORUM_LEADER, 0), (request(1), 0), (QUORUM_ISR, 0)]),
    (0, &[(QUORUM_LEADER, 3), (request(1), 3)]),
    (44, &[(QUORUM_LEADER, 3), (request(1), 3), (QUORUM_ISR, 3)]),
    (44, &[(QUORUM_LEADER, 3), (request(1), 3), (request(1) + 1, 3)]),
    // One request, and none.
    (0, &[(NEXT_EPOCH, 1), (QUORUM_EPOCH, 0), (QUORUM_LEADER, 1)]),
    (43, &[(NEXT_EPOCH, 1), (QUORUM_EPOCH, 0), (QUORUM_LEADER, 2)]),
    (45, &[(NEXT_EPOCH, 1), (QUORUM_EPOCH, 0), (QUORUM_LEADER, 1), (replica(1) + EPOCH, 1)]),
    (46, &[(NEXT_EPOCH, 1), (QUORUM_EPOCH, 0), (QUORUM_LEADER, 1), (record(0, 1) + 1, 1)]),
    (45, &[(NEXT_EPOCH, 0), (QUORUM_EPOCH, 255), (QUORUM_LEADER, 0)]),
    // Replica 1 takes request 1 and leads, in its own ISR or not.
    (0, &[(replica(1) + EPOCH, 1), (replica(1) + LEADER, 2)]),
    (0, &[(replica(1) + EPOCH, 1), (replica(1) + LEADER, 2), (replica(1) + ISR, 2)]),
    (45, &[(replica(1) + EPOCH, 1), (replica(1) + LEADER, 2), (replica(1) + ISR, 5)]),
    // Replica 2 takes request 0, and request 1.
    (0, &[(replica(2) + EPOCH, 0), (replica(2) + LEADER, 1)]),
    (0, &[(replica(2) + EPOCH, 1), (replica(2) + LEADER, 2)]),
    (45, &[(replica(2) + EPOCH, 1), (replica(2) + LEADER, 1)]),
    // Logs as short as they may be, and hws at their ends.
    (0, &[(L, 1), (replica(0) + END, 1)]),
    (42, &[(L, 1), (replica(0) + END, 1), (replica(2) + END, 2)]),
    (0, &[(replica(0) + HW, 2), (replica(1) + HW, 1)]),
    // A third log: the records of the others, at their offsets or exchanged, or of another epoch.
    (0, &[(replica(2) + END, 2), (record(2, 1), 1)]),
    (47, &[(replica(2) + END, 2), (record(2, 0), 1)]),
    (47, &[(replica(2) + END, 2), (record(2, 1), 1), (record(2, 1) + 1, 1)]),
    (0, &[(replica(2) + END, 2), (record(2, 0), 2), (record(2, 1), 1)]),
    (47, &[(replica(2) + END, 2), (record(2, 0), 1), (record(2, 1), 2)]),
    // One id with two epochs in one log, and with one epoch of its own in both logs.
    (47, &[(record(0, 1), 0), (record(0, 1) + 1, 1)]),
    (0, &[(record(0, 0) + 1, 1), (record(1, 0) + 1, 1)]),
    // The last id.
    (0, &[(M, 64), (NEXT_ID, 64), (record(0, 1), 63)]),
    (46, &[(M, 64), (NEXT_ID, 64), (record(0, 1), 64)]),
    (46, &[(M, 64), (NEXT_ID, 63), (record(0, 1), 63)]),
    (47, &[(M, 64), (NEXT_ID, 64), (record(0, 1), 63), (record(1, 0), 63)]),
];

/// One byte of the fresh state changed.
const OF_FRESH: &[OneByte] = &[
    (41, NEXT_EPOCH, &[5, 255]),
    (43, NEXT_EPOCH, &[1, 2, 3, 4]),
    (0, NEXT_ID, &[1, 4]),
    (41, NEXT_ID, &[5, 255]),
    (42, R, &[1, 2]),
    (43, R, &[4, 5]),
    (43, QUORUM_EPOCH, &[0, 1, 127, 128, 254]),
    (42, QUORUM_LEADER, &[4, 255]),
    (43, QUORUM_LEADER, &[1, 2, 3]),
    (42, QUORUM_ISR, &[8, 15, 255]),
    (43, QUORUM_ISR, &[0, 1, 3, 6]),
    (0, request(0), &[1, 255]),
    (0, request(0) + 1, &[255]),
    (45, replica(0) + HW, &[1]),
    (45, replica(1) + EPOCH, &[0, 254]),
    (45, replica(2) + LEADER, &[1, 3]),
    (45, replica(0) + ISR, &[1, 7]),
    (46, replica(0) + END, &[1, 4]),
    (42, replica(0) + END, &[5]),
];

/// Some bytes of it changed.
#[rustfmt::skip]
const SOME_OF_FRESH: &[SomeBytes] = &[
    (0, &[(R, 1), (QUORUM_ISR, 1)]),
    (0, &[(R, 2), (QUORUM_ISR, 3)]),
    (43, &[(R, 2), (QUORUM_ISR, 1)]),
    // Replica 3 is at epoch 0, or as fresh as the others.
    (45, &[(R, 4), (QUORUM_ISR, 15)]),
    (0, &[(R, 4), (QUORUM_ISR, 15), (replica(3) + EPOCH, 255)]),
    // A record of an id that is used, but of no epoch.
    (46, &[(NEXT_ID, 1), (replica(0) + END, 1)]),
    (46, &[(NEXT_ID, 1), (replica(0) + END, 1), (record(0, 0) + 1, 255)]),
];

/// One byte of the full state changed.
const OF_FULL: &[OneByte] = &[
    (41, R, &[0, 6, 200, 255]),
    (42, R, &[1, 4]),
    (41, L, &[17]),
    (42, L, &[15]),
    (41, M, &[63, 65]),
    (41, X, &[14, 16, 255]),
    (41, NEXT_EPOCH, &[17]),
    (43, NEXT_EPOCH, &[15]),
    (41, NEXT_ID, &[65]),
    (0, NEXT_ID, &[16, 63]),
    (46, NEXT_ID, &[15]),
    (42, request(15) + 1, &[32, 63]),
    (44, request(15) + 1, &[23]),
    (43, request(15), &[5]),
    (0, request(14), &[5]),
    (0, replica(4) + HW, &[0, 15]),
    (45, replica(4) + HW, &[17]),
    (45, replica(4) + EPOCH, &[14, 16, 255]),
    (42, replica(4) + LEADER, &[6]),
    (45, replica(4) + LEADER, &[5]),
    (42, replica(4) + ISR, &[32]),
    (0, replica(4) + ISR, &[0, 15]),
    (45, replica(3) + ISR, &[23]),
    (42, replica(4) + END, &[17]),
    (45, replica(4) + END, &[15]),
    (0, record(4, 15), &[16, 31, 63]),
    (46, record(4, 15), &[64]),
    (47, record(4, 15), &[0, 14]),
    (47, record(4, 15) + 1, &[0, 14]),
    (46, record(4, 15) + 1, &[16, 255]),
];

/// The number of a rule and two changes of the state with the stale leader that break it alone: one
/// near the front of the state, one near its back.
const BREAKING: &[(u8, [(usize, u8); 2])] = &[
    (41, [(R, 6), (NEXT_ID, 5)]),
    (42, [(QUORUM_LEADER, 4), (replica(2) + END, 5)]),
    (43, [(QUORUM_EPOCH, 0), (request(1), 1)]),
    (44, [(QUORUM_ISR, 5), (request(1) + 1, 5)]),
    (45, [(replica(0) + HW, 3), (replica(2) + EPOCH, 0)]),
    (46, [(record(0, 0), 3), (record(1, 0) + 1, 2)]),
    (47, [(record(0, 1), 0), (record(1, 0), 1)]),
];

/// Fresh states at every bound of a configuration.
pub fn fresh_states() -> Vec<Asked> {
    let mut all = Vec::new();
    for &(number, configuration) in CONFIGURATIONS {
        all.push(fresh(number, configuration));
    }
    for &(number, place, values) in LIMITS {
        for &value in values {
            let mut configuration = [3, 4, 4, 3];
            configuration[place] = value;
            all.push(fresh(number, configuration));
        }
    }
    all
}

/// What starting from a configuration answers. The bytes behind it are not looked at.
fn fresh(number: u8, configuration: [u8; 4]) -> Asked {
    let mut behind = [0xA5; STATE];
    behind[..4].copy_from_slice(&configuration);
    let front = if number == 0 {
        String::from("fresh 0")
    } else {
        format!("fresh {} {}", number, hex(&[0; STATE]))
    };
    asking(ASKS_FRESH, &[&behind], front)
}

/// The first rule that a state breaks.
pub fn broken_rules() -> Vec<Asked> {
    let mut all = Vec::new();
    let (stale_leader, fresh) = (fixed::stale_leader(), fixed::fresh());
    for state in [stale_leader, fresh, fixed::full()] {
        all.push(rule(0, &state));
    }
    all.extend(one_byte(&stale_leader, OF_STALE_LEADER));
    all.extend(some_bytes(&stale_leader, SOME_OF_STALE_LEADER));
    all.extend(one_byte(&fresh, OF_FRESH));
    all.extend(some_bytes(&fresh, SOME_OF_FRESH));
    all.extend(one_byte(&fixed::full(), OF_FULL));
    all.extend(two_faults());
    all.push(rule(41, &[0; STATE]));
    all.push(rule(41, &[255; STATE]));
    all
}

/// Which rule a state breaks first.
fn rule(number: u8, state: &Flat) -> Asked {
    asking(ASKS_RULE, &[state], format!("rule {}", number))
}

fn one_byte(state: &Flat, changes: &[OneByte]) -> Vec<Asked> {
    let mut all = Vec::new();
    for &(number, at, values) in changes {
        for &value in values {
            all.push(rule(number, &with(state, &[(at, value)])));
        }
    }
    all
}

fn some_bytes(state: &Flat, changes: &[SomeBytes]) -> Vec<Asked> {
    let changed = |change: &SomeBytes| rule(change.0, &with(state, change.1));
    changes.iter().map(changed).collect()
}

/// Two faults at a time, of two rules: the earlier one counts, wherever in the state each stands.
fn two_faults() -> Vec<Asked> {
    let mut all = Vec::new();
    for (i, (number, earlier)) in BREAKING.iter().enumerate() {
        for fault in earlier {
            for other in BREAKING[i + 1..].iter().flat_map(|later| later.1) {
                let state = with(&fixed::stale_leader(), &[*fault, other]);
                all.push(rule(*number, &state));
            }
        }
    }
    all
}

/// States that break a rule, with its number and with something in their unused room: each rule by
/// itself near the front, and near the back where all later rules are broken near the front.
pub fn broken_states() -> Vec<(u8, Flat)> {
    let untidy = untidied(&fixed::stale_leader());
    let mut all = Vec::new();
    for (i, &(number, [front, back])) in BREAKING.iter().enumerate() {
        let mut faults = vec![back];
        faults.extend(BREAKING[i + 1..].iter().map(|later| later.1[0]));
        all.push((number, with(&untidy, &[front])));
        all.push((number, with(&untidy, &faults)));
    }
    all
}
