//! Renamings, representatives, weak and strong ISR, and offers. Every state has something in its unused
//! room but where it is said.

use super::rules::broken_states;
use super::{asking, Asked, Changes};
use harness::fixed::{self, with};
use harness::layout::*;
use second::printed::hex;
use second::replies::{ASKS_OFFER, ASKS_RENAME, ASKS_REPRESENTATIVE, ASKS_STRONG, ASKS_WEAK};

/// ISRs of the state with two leaders that are not full, so that renamings change them.
const NARROW_ISRS: [(usize, u8); 6] = [
    (QUORUM_ISR, 6),
    (request(0) + 1, 5),
    (request(1) + 1, 3),
    (replica(0) + ISR, 3),
    (replica(1) + ISR, 6),
    (replica(2) + ISR, 1),
];

/// Places that are no renaming of three replicas: a name twice, a name that is not below R, a place
/// past R that does not hold its own number, renamings of more replicas.
const NONE_OF_THREE: &[Places] = &[
    [0, 0, 2, 3, 4],
    [1, 1, 1, 3, 4],
    [0, 1, 3, 3, 4],
    [0, 1, 255, 3, 4],
    [255, 1, 2, 3, 4],
    [0, 1, 2, 4, 3],
    [0, 1, 2, 3, 3],
    [0, 1, 2, 0, 4],
    [0, 1, 2, 3, 5],
    [0, 1, 2, 3, 255],
    [0, 1, 3, 2, 4],
    [3, 1, 2, 0, 4],
    [1, 2, 3, 4, 0],
    [0, 0, 0, 0, 0],
    [255, 255, 255, 255, 255],
];

/// Renamings of five replicas, and places that are none.
const OF_FIVE: &[Places] = &[[4, 3, 2, 1, 0], [1, 2, 3, 4, 0], [0, 1, 2, 4, 3]];
const NONE_OF_FIVE: &[Places] = &[
    [0, 1, 2, 3, 3],
    [4, 4, 4, 4, 4],
    [1, 2, 3, 4, 5],
    [0, 1, 2, 3, 132],
];

/// Replica 0 leads at both epochs, and the others follow it.
const LEADER_0: [(usize, u8); 4] = [
    (QUORUM_LEADER, 1),
    (request(1), 1),
    (replica(1) + LEADER, 1),
    (replica(2) + LEADER, 1),
];

/// The least image of the state with two leaders, changed, is that under these places.
#[rustfmt::skip]
const REPRESENTATIVES: &[(Places, Changes)] = &[
    // The quorum's leader becomes 0, the leader of request 0 becomes 1.
    ([1, 0, 2, 3, 4], &[]),
    // The quorum's leader becomes 0, its ISR 0 and 1.
    ([2, 0, 1, 3, 4], &[(QUORUM_ISR, 6)]),
    ([2, 0, 1, 3, 4], &NARROW_ISRS),
    // With replica 0 as leader the quorum's ISR decides, or that of a request, or the lower hw.
    ([0, 2, 1, 3, 4], &[LEADER_0[0], LEADER_0[1], LEADER_0[2], LEADER_0[3], (QUORUM_ISR, 5)]),
    ([0, 2, 1, 3, 4], &[LEADER_0[0], LEADER_0[1], LEADER_0[2], LEADER_0[3], (request(0) + 1, 5)]),
    ([0, 2, 1, 3, 4], &[LEADER_0[0], LEADER_0[1], LEADER_0[2], LEADER_0[3], (request(1) + 1, 5)]),
    ([0, 1, 2, 3, 4], &[LEADER_0[0], LEADER_0[1], LEADER_0[2], LEADER_0[3], (request(1) + 1, 3)]),
    ([0, 2, 1, 3, 4], &LEADER_0),
];

/// What weak and then strong ISR answer (holds, leader, member, offset) of the state with two leaders,
/// changed. Replica 2, whose log is empty, lacks what both leaders have below their hws.
#[rustfmt::skip]
const ISRS: &[([[u8; 4]; 2], Changes)] = &[
    ([[0, 0, 2, 0], [0, 0, 2, 0]], &[]),
    ([[0, 0, 2, 0], [1, 0, 0, 0]], &[(QUORUM_ISR, 3)]),
    ([[1, 0, 0, 0], [0, 0, 2, 0]], &[(replica(0) + ISR, 3), (replica(1) + ISR, 3)]),
    // The second leader alone fails.
    ([[0, 1, 2, 0], [1, 0, 0, 0]], &[(replica(0) + ISR, 1), (QUORUM_ISR, 2)]),
    ([[0, 1, 2, 0], [0, 1, 2, 0]], &[(replica(0) + HW, 0)]),
    // The smaller member, with a greater offset.
    ([[0, 1, 0, 2], [0, 1, 0, 2]], &[(replica(0) + HW, 0), (replica(1) + HW, 3)]),
    // Replica 2 has the first record, and lacks the second.
    ([[1, 0, 0, 0], [1, 0, 0, 0]], &[(replica(2) + END, 1)]),
    ([[0, 0, 2, 1], [0, 0, 2, 1]], &[(replica(2) + END, 1), (replica(0) + HW, 2)]),
    // Replica 1 has another second record.
    ([[0, 0, 1, 1], [0, 0, 1, 1]], &[(replica(2) + END, 1), (replica(0) + HW, 2), (record(1, 1), 3), (NEXT_ID, 4)]),
    // Replica 2 has another second record, which is not below an hw.
    ([[1, 0, 0, 0], [1, 0, 0, 0]], &[(replica(2) + END, 2), (record(2, 1), 3), (NEXT_ID, 4)]),
];

/// A number, a kind, the a, b and e offered, and the changes of the state with two leaders.
type Offered = (u8, u8, [u8; 3], Changes);

#[rustfmt::skip]
const OFFERS: &[Offered] = &[
    (0, 0, [0, 0, 0], &[]),
    (0, 0, [1, 0, 0], &[(QUORUM_ISR, 6)]),
    (26, 0, [0, 0, 0], &[(X, 1)]),
    (0, 1, [0, 0, 0], &[]),
    (0, 1, [2, 0, 0], &[(QUORUM_ISR, 6)]),
    (26, 1, [0, 0, 0], &[(QUORUM_ISR, 2)]),
    (26, 2, [0, 0, 0], &[]),
    (0, 2, [0, 0, 1], &[(replica(1) + EPOCH, 0), (replica(1) + LEADER, 1)]),
    (0, 3, [0, 0, 1], &[]),
    (0, 3, [2, 0, 1], &[FOLLOWING[0], FOLLOWING[1], (replica(2) + EPOCH, 0), (replica(2) + LEADER, 1)]),
    (26, 3, [0, 0, 0], &FOLLOWING),
    (0, 4, [0, 0, 0], &[]),
    (0, 4, [1, 0, 0], &FOLLOWING),
    (26, 4, [0, 0, 0], &[(NEXT_ID, 4)]),
    (0, 5, [1, 0, 0], &[]),
    (0, 5, [1, 2, 0], &[(replica(1) + ISR, 6)]),
    (26, 5, [0, 0, 0], &[(replica(1) + ISR, 2)]),
    (26, 6, [0, 0, 0], &[]),
    (0, 6, [1, 2, 0], &[(replica(1) + ISR, 2), (replica(2) + END, 1)]),
    (26, 7, [0, 0, 0], &[]),
    (0, 7, [0, 0, 0], &[(replica(0) + ISR, 1)]),
    (0, 7, [1, 0, 0], &[(replica(1) + ISR, 2)]),
    (0, 8, [2, 1, 0], &[]),
    (26, 8, [0, 0, 0], &[(replica(2) + EPOCH, 255), (replica(2) + LEADER, 0), (replica(2) + ISR, 0)]),
    (2, 9, [0, 0, 0], &[]),
    (2, 128, [0, 0, 0], &[]),
    (2, 255, [0, 0, 0], &[]),
];

/// Replica 0 has obeyed request 1 and follows replica 1.
pub const FOLLOWING: [(usize, u8); 2] = [(replica(0) + EPOCH, 1), (replica(0) + LEADER, 2)];

pub fn all() -> Vec<Asked> {
    let mut all = renamings_asked();
    all.extend(representatives());
    all.extend(isrs());
    all.extend(offers());
    for (number, state) in broken_states() {
        all.extend(of_broken(number, &state));
    }
    all
}

/// A fresh state of one replica.
fn alone() -> Flat {
    with(&fixed::fresh(), &[(R, 1), (QUORUM_ISR, 1)])
}

fn renamings_asked() -> Vec<Asked> {
    let three = with(&fixed::two_leaders(), &NARROW_ISRS);
    let five = with(&fixed::full_with_other_record(), &[(replica(4) + ISR, 9)]);
    let mut all = Vec::new();
    let mut accepted = |state: &Flat, places: &[Places]| {
        all.extend(places.iter().map(|places| renaming(state, places)));
    };
    accepted(&three, &renamings(3));
    accepted(&five, OF_FIVE);
    accepted(&alone(), &[[0, 1, 2, 3, 4]]);
    let mut refused = |state: &Flat, places: &[Places]| {
        all.extend(places.iter().map(|places| no_renaming(27, places, state)));
    };
    refused(&untidied(&three), NONE_OF_THREE);
    refused(&five, NONE_OF_FIVE);
    refused(&untidied(&alone()), &[[1, 0, 2, 3, 4], [1, 1, 2, 3, 4]]);
    all
}

fn renaming(state: &Flat, places: &Places) -> Asked {
    let front = format!("rename 0 {}", hex(&renamed(state, places)));
    asking(ASKS_RENAME, &[places, &untidied(state)], front)
}

fn no_renaming(number: u8, places: &Places, state: &Flat) -> Asked {
    let front = format!("rename {} {}", number, hex(state));
    asking(ASKS_RENAME, &[places, state], front)
}

fn representatives() -> Vec<Asked> {
    let base = fixed::two_leaders();
    let changed =
        |&(places, changes): &(Places, Changes)| representative(&with(&base, changes), &places);
    let mut all: Vec<Asked> = REPRESENTATIVES.iter().map(changed).collect();
    let as_given = [0, 1, 2, 3, 4];
    all.push(representative(&fixed::fresh(), &as_given));
    all.push(representative(&alone(), &as_given));
    // The quorum's leader is 3, and requests 0, 1, 2 name 0, 1, 2.
    all.push(representative(&fixed::full(), &[1, 2, 3, 0, 4]));
    // Nobody leads, and the replicas are alike but for the last record of one, which has a greater id.
    let alike = full_without_leaders();
    all.push(representative(&alike, &as_given));
    for (i, places) in [(0, [4, 0, 1, 2, 3]), (2, [0, 1, 4, 2, 3]), (4, as_given)] {
        let state = with(&alike, &[(record(i, 15), 31)]);
        all.push(representative(&state, &places));
    }
    all
}

/// The full state, with no leader in the quorum, a request or a replica.
fn full_without_leaders() -> Flat {
    let mut state = with(&fixed::full(), &[(QUORUM_LEADER, 0)]);
    for epoch in 0..MOST_REQUESTS {
        state[request(epoch)] = 0;
    }
    for i in 0..MOST_REPLICAS {
        state[replica(i) + LEADER] = 0;
    }
    state
}

/// The representative is the state under these places.
fn representative(state: &Flat, places: &Places) -> Asked {
    let front = format!("representative 0 {}", hex(&renamed(state, places)));
    asking(ASKS_REPRESENTATIVE, &[&untidied(state)], front)
}

fn isrs() -> Vec<Asked> {
    let base = fixed::two_leaders();
    let mut all = Vec::new();
    let mut both = |state: &Flat, [weak, strong]: [[u8; 4]; 2]| {
        all.push(isr(ASKS_WEAK, 0, weak, state));
        all.push(isr(ASKS_STRONG, 0, strong, state));
    };
    for &(answers, changes) in ISRS {
        both(&untidied(&with(&base, changes)), answers);
    }
    // The room of replica 2 has zeros, as the record that it lacks.
    both(&fixed::stale_leader(), [[0, 0, 2, 0]; 2]);
    both(&untidied(&fixed::fresh()), [[1, 0, 0, 0]; 2]);
    both(&fixed::full(), [[1, 0, 0, 0]; 2]);
    both(&fixed::full_with_other_record(), [[0, 3, 4, 15]; 2]);
    all
}

fn isr(asks: u8, number: u8, answer: [u8; 4], state: &Flat) -> Asked {
    let name = if asks == ASKS_WEAK { "weak" } else { "strong" };
    let [holds, leader, member, offset] = answer;
    let front = format!(
        "{} {} {} {} {} {}",
        name, number, holds, leader, member, offset
    );
    asking(asks, &[state], front)
}

fn offers() -> Vec<Asked> {
    let base = fixed::two_leaders();
    let mut all = Vec::new();
    for &(number, kind, operands, changes) in OFFERS {
        let state = untidied(&with(&base, changes));
        all.push(offer(number, kind, operands, &state));
    }
    // Where all is used up, no kind is offered; in a fresh state the controller's.
    for kind in 0..9 {
        all.push(offer(26, kind, [0; 3], &fixed::full()));
        let number = if kind < 2 { 0 } else { 26 };
        all.push(offer(number, kind, [0; 3], &untidied(&fixed::fresh())));
    }
    all
}

fn offer(number: u8, kind: u8, [a, b, e]: [u8; 3], state: &Flat) -> Asked {
    let front = format!("offer {} {} {} {}", number, a, b, e);
    asking(ASKS_OFFER, &[&[kind], state], front)
}

/// Of a state that breaks a rule all are refused by the rule's number, whatever else is asked with it.
fn of_broken(number: u8, state: &Flat) -> Vec<Asked> {
    let front = format!("representative {} {}", number, hex(state));
    vec![
        no_renaming(number, &[1, 0, 2, 3, 4], state),
        no_renaming(number, &[3, 3, 3, 3, 3], state),
        asking(ASKS_REPRESENTATIVE, &[state], front),
        isr(ASKS_WEAK, number, [0; 4], state),
        isr(ASKS_STRONG, number, [0; 4], state),
        offer(number, 0, [0; 3], state),
        offer(number, 9, [0; 3], state),
    ]
}
