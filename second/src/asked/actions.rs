//! Actions: on the state with two leaders, changed first so that each refusal of each kind is met, and
//! each case of an effect. Every state has something in its unused room.
//!
//! Its replica 0 leads at epoch 0 with the records 0 and 1 and hw 1, though the quorum names replica 1.
//! Replica 1 leads at epoch 1 with the records 0, 1 and 2 and hw 1. Replica 2 follows replica 1, with
//! hw 0 and an empty log. Every ISR is full; L and M are 4, X is 3, the next epoch is 2, the next id 3.

use super::rules::broken_states;
use super::states::FOLLOWING;
use super::{asking, Asked, Changes};
use harness::fixed::{self, with};
use harness::layout::*;
use second::printed::hex;
use second::replies::ASKS_ACT;

/// Why the action (kind, a, b, e) is refused, and the changes of the state before it.
type Refused = (u8, Action, Changes);

/// Why an advance is refused, the member that it names, a, and the changes of the state before it.
type Naming = (u8, u8, u8, Changes);

/// An accepted action, the changes of the state before it, and those that are its effect.
type Accepted = (Action, Changes, Changes);

/// The log of replica 2 is that of replica 1 up to an end.
const ONE_RECORD: (usize, u8) = (replica(2) + END, 1);
const SECOND_RECORD: (usize, u8) = (record(2, 1), 1);
const THIRD_RECORD: [(usize, u8); 2] = [(record(2, 2), 2), (record(2, 2) + 1, 1)];

/// Replicas 1 and 2 have obeyed request 0 alone and follow replica 0.
const FOLLOW_0: [(usize, u8); 4] = [
    (replica(1) + EPOCH, 0),
    (replica(1) + LEADER, 1),
    (replica(2) + EPOCH, 0),
    (replica(2) + LEADER, 1),
];

#[rustfmt::skip]
const REFUSED: &[Refused] = &[
    // The kind is tried before the operands.
    (2, [9, 0, 0, 0], &[]),
    (2, [9, 3, 3, 4], &[]),
    (2, [128, 0, 0, 0], &[]),
    (2, [255, 255, 255, 255], &[]),
    // A replica that is not below R, an epoch above X, an unused operand that is not 0.
    (3, [0, 3, 0, 0], &[]),
    (3, [0, 0, 1, 0], &[]),
    (3, [0, 0, 0, 1], &[]),
    (3, [1, 255, 0, 0], &[]),
    (3, [1, 0, 255, 0], &[]),
    (3, [1, 0, 0, 3], &[]),
    (3, [2, 0, 0, 4], &[]),
    (3, [2, 1, 0, 1], &[]),
    (3, [2, 0, 1, 1], &[]),
    (3, [3, 3, 0, 1], &[]),
    (3, [3, 0, 0, 4], &[]),
    (3, [3, 0, 1, 1], &[]),
    (3, [4, 3, 0, 0], &[]),
    (3, [4, 0, 2, 0], &[]),
    (3, [4, 0, 0, 255], &[]),
    (3, [5, 3, 0, 0], &[]),
    (3, [5, 1, 3, 0], &[]),
    (3, [5, 1, 0, 1], &[]),
    (3, [6, 3, 0, 0], &[]),
    (3, [6, 1, 4, 0], &[]),
    (3, [6, 1, 2, 1], &[]),
    (3, [7, 3, 0, 0], &[]),
    (3, [7, 0, 1, 0], &[]),
    (3, [7, 0, 0, 1], &[]),
    (3, [8, 3, 1, 0], &[]),
    (3, [8, 2, 3, 0], &[]),
    (3, [8, 2, 1, 1], &[]),
    // 0: a is not in the quorum's ISR; no epoch is left; both.
    (5, [0, 0, 0, 0], &[(QUORUM_ISR, 6)]),
    (4, [0, 0, 0, 0], &[(X, 1)]),
    (4, [0, 1, 0, 0], &[(X, 1)]),
    (5, [0, 2, 0, 0], &[(X, 1), (QUORUM_ISR, 3)]),
    // 1: the same, and a leads already.
    (5, [1, 2, 0, 0], &[(QUORUM_ISR, 3)]),
    (6, [1, 1, 0, 0], &[]),
    (4, [1, 0, 0, 0], &[(X, 1)]),
    (5, [1, 0, 0, 0], &[(X, 1), (QUORUM_ISR, 2)]),
    (6, [1, 1, 0, 0], &[(X, 1)]),
    // 2: no request; it names no leader; the leader's epoch is the same, or greater.
    (7, [2, 0, 0, 2], &[]),
    (7, [2, 0, 0, 3], &[]),
    (8, [2, 0, 0, 0], &[(request(0), 0), (replica(0) + LEADER, 0)]),
    (9, [2, 0, 0, 0], &[]),
    (9, [2, 0, 0, 1], &[]),
    (9, [2, 0, 0, 0], &[(request(0), 2), (replica(0) + LEADER, 2)]),
    // 3: no request; it names a; a's epoch is the same, or greater.
    (7, [3, 0, 0, 2], &[]),
    (8, [3, 1, 0, 1], &[]),
    (8, [3, 0, 0, 0], &[]),
    (8, [3, 1, 0, 1], &[(replica(1) + EPOCH, 0), (replica(1) + LEADER, 1)]),
    (9, [3, 2, 0, 1], &[]),
    (9, [3, 2, 0, 0], &[]),
    // 4: a does not presume; no id is left; the log is full; and two of these.
    (10, [4, 2, 0, 0], &[]),
    (10, [4, 2, 0, 0], &[(NEXT_ID, 4)]),
    (11, [4, 0, 0, 0], &[(NEXT_ID, 4)]),
    (12, [4, 1, 0, 0], &[(L, 3)]),
    (11, [4, 1, 0, 0], &[(L, 3), (NEXT_ID, 4)]),
    // 5: a and b are one; a is not the true leader, since the quorum does not name it, since it
    // does not presume, or since its epoch is not the quorum's; b is not in a's own ISR.
    (14, [5, 1, 1, 0], &[]),
    (14, [5, 2, 2, 0], &[]),
    (13, [5, 0, 1, 0], &[]),
    (13, [5, 0, 2, 0], &[(replica(0) + ISR, 3)]),
    (13, [5, 1, 0, 0], &[(replica(1) + EPOCH, 0), (replica(1) + LEADER, 1)]),
    (13, [5, 0, 1, 0], &[(QUORUM_LEADER, 1), (request(1), 1), (replica(1) + LEADER, 1), (replica(2) + LEADER, 1)]),
    (5, [5, 1, 2, 0], &[(replica(1) + ISR, 3)]),
    // b is caught up with a to a's end, with a's records or with another one.
    (15, [5, 1, 2, 0], &[(replica(2) + END, 3), SECOND_RECORD, THIRD_RECORD[0], THIRD_RECORD[1]]),
    (15, [5, 1, 2, 0], &[(replica(2) + END, 3), SECOND_RECORD, (record(2, 2), 3), (NEXT_ID, 4)]),
    // 6: a is not the true leader; b is in a's own ISR; b's leader is another; b lacks a record
    // below a's hw.
    (13, [6, 0, 0, 0], &[]),
    (13, [6, 2, 0, 0], &[]),
    (6, [6, 1, 1, 0], &[]),
    (6, [6, 1, 2, 0], &[(QUORUM_ISR, 3)]),
    (16, [6, 1, 0, 0], &[(replica(1) + ISR, 6), (QUORUM_ISR, 6)]),
    (16, [6, 1, 2, 0], &[(replica(1) + ISR, 3), (QUORUM_ISR, 3)]),
    (16, [6, 1, 2, 0], &[(replica(1) + ISR, 3), (replica(1) + HW, 2), ONE_RECORD]),
    // 7: a does not presume, whatever its members lack.
    (10, [7, 2, 0, 0], &[]),
    (10, [7, 2, 0, 0], &[(replica(2) + ISR, 6)]),
    // 8: b does not presume; a's leader is not b; a's end is not below b's.
    (10, [8, 0, 2, 0], &[]),
    (10, [8, 2, 2, 0], &[]),
    (18, [8, 0, 1, 0], &[]),
    (18, [8, 1, 0, 0], &[]),
    (18, [8, 2, 0, 0], &[]),
    (19, [8, 0, 0, 0], &[]),
    (19, [8, 1, 1, 0], &[]),
    (19, [8, 2, 1, 0], &[(replica(2) + END, 3), SECOND_RECORD, THIRD_RECORD[0], THIRD_RECORD[1]]),
];

#[rustfmt::skip]
const NAMING: &[Naming] = &[
    // A member leads itself, or follows another, or nobody; the smallest of two such members.
    (48, 0, 1, &[(replica(1) + ISR, 3)]),
    (48, 1, 0, &[(replica(0) + ISR, 3)]),
    (48, 2, 0, &[(replica(0) + ISR, 5)]),
    (48, 2, 0, &[(replica(0) + ISR, 5), (replica(2) + EPOCH, 255), (replica(2) + LEADER, 0), (replica(2) + ISR, 0)]),
    (48, 1, 0, &[]),
    // It is tried over all members before the offset: a smaller member is behind, or a itself is.
    (48, 2, 1, &[FOLLOWING[0], FOLLOWING[1], (replica(0) + END, 1), (replica(2) + EPOCH, 0), (replica(2) + LEADER, 1)]),
    (48, 2, 0, &[FOLLOW_0[0], FOLLOW_0[1], (replica(1) + END, 1)]),
    (48, 2, 0, &[(replica(0) + ISR, 5), (replica(0) + HW, 2)]),
    (48, 0, 1, &[]),
    // A member has no record at a's hw, though all below it; a itself has none there; the smallest of two.
    (49, 0, 1, &[(replica(1) + ISR, 3), FOLLOWING[0], FOLLOWING[1], (replica(0) + END, 1)]),
    (49, 2, 1, &[(replica(1) + ISR, 6), ONE_RECORD]),
    (49, 0, 0, &[(replica(0) + ISR, 1), (replica(0) + HW, 2)]),
    (49, 1, 1, &[(replica(1) + ISR, 2), (replica(1) + HW, 3)]),
    (49, 1, 1, &[(replica(1) + ISR, 6), (replica(1) + HW, 3)]),
    (49, 2, 0, &FOLLOW_0),
    (49, 1, 0, &[FOLLOW_0[0], FOLLOW_0[1], FOLLOW_0[2], FOLLOW_0[3], (replica(1) + END, 1)]),
];

/// The same of the state with the stale leader, whose member 1 is behind and member 2 has no leader.
const NAMING_OF_STALE_LEADER: &[Naming] = &[(48, 2, 0, &[])];

/// The same of the full state, where replica 3 leads and all have all records, so that none has the
/// offset of its hw.
#[rustfmt::skip]
const NAMING_OF_FULL: &[Naming] = &[
    (48, 4, 3, &[(replica(4) + EPOCH, 14), (replica(4) + LEADER, 3)]),
    (48, 2, 3, &[(replica(4) + EPOCH, 14), (replica(4) + LEADER, 3), (replica(2) + EPOCH, 13), (replica(2) + LEADER, 2)]),
    (48, 3, 0, &[(replica(0) + EPOCH, 12), (replica(0) + LEADER, 1), (replica(0) + ISR, 25)]),
    (49, 0, 3, &[]),
    (49, 3, 3, &[(replica(3) + ISR, 24)]),
    (49, 4, 3, &[(replica(3) + HW, 15), (replica(4) + HW, 15), (replica(4) + END, 15)]),
];

#[rustfmt::skip]
const ACCEPTED: &[Accepted] = &[
    // 0: a does not lead; a leads with others; a leads and is alone.
    ([0, 0, 0, 0], &[],
        &[(NEXT_EPOCH, 3), (QUORUM_EPOCH, 2), (QUORUM_ISR, 6), (request(2), 2), (request(2) + 1, 6)]),
    ([0, 1, 0, 0], &[],
        &[(NEXT_EPOCH, 3), (QUORUM_EPOCH, 2), (QUORUM_LEADER, 0), (QUORUM_ISR, 5), (request(2) + 1, 5)]),
    ([0, 1, 0, 0], &[(QUORUM_ISR, 2)],
        &[(NEXT_EPOCH, 3), (QUORUM_EPOCH, 2), (QUORUM_LEADER, 0), (request(2) + 1, 2)]),
    // 1: another leads; nobody leads; the last epoch.
    ([1, 0, 0, 0], &[(QUORUM_ISR, 3)],
        &[(NEXT_EPOCH, 3), (QUORUM_EPOCH, 2), (QUORUM_LEADER, 1), (request(2), 1), (request(2) + 1, 3)]),
    ([1, 1, 0, 0], &[(QUORUM_LEADER, 0), (request(1), 0), (replica(1) + LEADER, 0), (replica(2) + LEADER, 0)],
        &[(NEXT_EPOCH, 3), (QUORUM_EPOCH, 2), (QUORUM_LEADER, 2), (request(2), 2), (request(2) + 1, 7)]),
    ([1, 2, 0, 0], &[(X, 2)],
        &[(NEXT_EPOCH, 3), (QUORUM_EPOCH, 2), (QUORUM_LEADER, 3), (request(2), 3), (request(2) + 1, 7)]),
    // 2: log and hw stay.
    ([2, 0, 0, 1], &[(replica(1) + EPOCH, 0), (replica(1) + LEADER, 1), (request(1) + 1, 3)],
        &[(replica(1) + EPOCH, 1), (replica(1) + LEADER, 2), (replica(1) + ISR, 3)]),
    // 3: the log is cut to the hw; it is kept where nobody leads; an epoch that is not the last.
    ([3, 0, 0, 1], &[(request(1) + 1, 6)],
        &[(replica(0) + EPOCH, 1), (replica(0) + LEADER, 2), (replica(0) + ISR, 6), (replica(0) + END, 1), (record(0, 1), 0)]),
    ([3, 0, 0, 1], &[(QUORUM_LEADER, 0), (request(1), 0), (replica(1) + LEADER, 0), (replica(2) + LEADER, 0)],
        &[(replica(0) + EPOCH, 1), (replica(0) + LEADER, 0)]),
    ([3, 2, 0, 0], &[(replica(2) + EPOCH, 255), (replica(2) + LEADER, 0), (replica(2) + ISR, 0)],
        &[(replica(2) + EPOCH, 0), (replica(2) + LEADER, 1), (replica(2) + ISR, 7)]),
    // 4: the record has the leader's own epoch; the last id, and the last offset.
    ([4, 0, 0, 0], &[],
        &[(NEXT_ID, 4), (replica(0) + END, 3), (record(0, 2), 3)]),
    ([4, 1, 0, 0], &[],
        &[(NEXT_ID, 4), (replica(1) + END, 4), (record(1, 3), 3), (record(1, 3) + 1, 1)]),
    // 5: b's leader is another; b is behind; by a's own ISR, which goes to the quorum, and to no request.
    ([5, 1, 0, 0], &[],
        &[(QUORUM_ISR, 6), (replica(1) + ISR, 6)]),
    ([5, 1, 2, 0], &[(replica(2) + END, 2), SECOND_RECORD],
        &[(QUORUM_ISR, 3), (replica(1) + ISR, 3)]),
    ([5, 1, 2, 0], &[(QUORUM_ISR, 3)],
        &[(QUORUM_ISR, 3), (replica(1) + ISR, 3)]),
    // 6: b has all below a's hw, with other records too.
    ([6, 1, 2, 0], &[(replica(1) + ISR, 2), (QUORUM_ISR, 2), ONE_RECORD],
        &[(QUORUM_ISR, 6), (replica(1) + ISR, 6)]),
    ([6, 1, 2, 0], &[(replica(1) + ISR, 3), ONE_RECORD, (record(2, 0), 3), (NEXT_ID, 4)],
        &[(QUORUM_ISR, 7), (replica(1) + ISR, 7)]),
    // 7: alone, as true and as stale leader, and with a follower.
    ([7, 1, 0, 0], &[(replica(1) + ISR, 2)],
        &[(replica(1) + HW, 2)]),
    ([7, 0, 0, 0], &[(replica(0) + ISR, 1)],
        &[(replica(0) + HW, 2)]),
    ([7, 1, 0, 0], &[(replica(1) + ISR, 6), (replica(2) + END, 2), SECOND_RECORD],
        &[(replica(1) + HW, 2)]),
    // 8: the follower's hw is its new end, or the leader's hw; it may fall.
    ([8, 2, 1, 0], &[(replica(1) + HW, 3)],
        &[(replica(2) + END, 1), (replica(2) + HW, 1)]),
    ([8, 2, 1, 0], &[ONE_RECORD],
        &[(replica(2) + END, 2), (replica(2) + HW, 1), (record(2, 1), 1)]),
    ([8, 2, 1, 0], &[(replica(2) + END, 2), SECOND_RECORD, (replica(2) + HW, 2)],
        &[(replica(2) + END, 3), (replica(2) + HW, 1), THIRD_RECORD[0], THIRD_RECORD[1]]),
];

/// Of the state with the stale leader: an action that it allows, the advance that names a member, and
/// an unknown kind.
const ON_BROKEN: [Action; 3] = [[1, 0, 0, 0], [7, 0, 0, 0], [9, 9, 9, 9]];

pub fn all() -> Vec<Asked> {
    let base = fixed::two_leaders();
    let mut all = Vec::new();
    for &(action, changes, effect) in ACCEPTED {
        let state = with(&base, changes);
        all.push(act(0, 0, action, &untidied(&state), &with(&state, effect)));
    }
    for &(number, action, changes) in REFUSED {
        all.push(refused(number, 0, action, &untidied(&with(&base, changes))));
    }
    for (state, naming) in [
        (base, NAMING),
        (fixed::stale_leader(), NAMING_OF_STALE_LEADER),
        (fixed::full(), NAMING_OF_FULL),
    ] {
        for &(number, member, a, changes) in naming {
            let untidy = untidied(&with(&state, changes));
            all.push(refused(number, member, [7, a, 0, 0], &untidy));
        }
    }
    for (number, state) in broken_states() {
        for action in ON_BROKEN {
            all.push(refused(number, 0, action, &state));
        }
    }
    all
}

/// A refusal gives back the state that it was given.
fn refused(number: u8, member: u8, action: Action, state: &Flat) -> Asked {
    act(number, member, action, state, state)
}

/// What an action answers: a number, a member and a state.
fn act(number: u8, member: u8, action: Action, state: &Flat, answered: &Flat) -> Asked {
    let front = format!("act {} {} {}", number, member, hex(answered));
    asking(ASKS_ACT, &[&action, state], front)
}
