//! The nine actions: which number refuses one, and the state that it hands back.

use crate::state::{in_isr, Record, Replica, State};

pub const LAST_KIND: u8 = 8;

/// Why an action is refused.
#[derive(Clone, Copy, PartialEq, Eq, Debug)]
pub struct Refusal {
    pub number: u8,
    /// Of 48 and 49 the smallest member of the leader's ISR with that fault, else 0.
    pub member: u8,
}

impl From<u8> for Refusal {
    /// A refusal that names no member.
    fn from(number: u8) -> Refusal {
        Refusal { number, member: 0 }
    }
}

/// Which of the operands a, b and e a kind uses. A kind above 8 uses none.
pub fn used_operands(kind: u8) -> (bool, bool, bool) {
    match kind {
        0 | 1 | 4 | 7 => (true, false, false),
        2 => (false, false, true),
        3 => (true, false, true),
        5 | 6 | 8 => (true, true, false),
        _ => (false, false, false),
    }
}

/// The state after the action, or why it is refused.
pub fn act(state: &State, kind: u8, a: u8, b: u8, e: u8) -> Result<State, Refusal> {
    state.check()?;
    act_on_good(state, kind, a, b, e)
}

/// The same for a state that is known to meet the state rules.
pub fn act_on_good(state: &State, kind: u8, a: u8, b: u8, e: u8) -> Result<State, Refusal> {
    if kind > LAST_KIND {
        return Err(2.into());
    }
    if !operands_fit(state, kind, a, b, e) {
        return Err(3.into());
    }
    let mut next = match kind {
        0 => controller_shrink(state, a)?,
        1 => elect(state, a)?,
        2 => become_leader(state, e)?,
        3 => become_follower(state, a, e)?,
        4 => write(state, a)?,
        5 => leader_shrink(state, a, b)?,
        6 => leader_expand(state, a, b)?,
        7 => advance(state, a)?,
        _ => replicate(state, a, b)?,
    };
    next.tidy();
    Ok(next)
}

/// Used operands are in range and unused ones are 0.
fn operands_fit(state: &State, kind: u8, a: u8, b: u8, e: u8) -> bool {
    let (uses_a, uses_b, uses_e) = used_operands(kind);
    let a_fits = if uses_a {
        a < state.replica_count
    } else {
        a == 0
    };
    let b_fits = if uses_b {
        b < state.replica_count
    } else {
        b == 0
    };
    let e_fits = if uses_e { e <= state.max_epoch } else { e == 0 };
    a_fits && b_fits && e_fits
}

/// Whether next epoch is X + 1.
fn no_epoch_left(state: &State) -> bool {
    state.next_epoch == state.max_epoch + 1
}

/// The quorum takes the next epoch and is stored as that epoch's request.
fn controller_update(state: &State, leader: Option<u8>, isr: u8) -> State {
    let mut next = *state;
    let request = &mut next.requests[state.next_epoch as usize];
    request.leader = leader;
    request.isr = isr;
    next.quorum.epoch = state.next_epoch as i8;
    next.quorum.leader = leader;
    next.quorum.isr = isr;
    next.next_epoch += 1;
    next
}

/// Kind 0: the controller takes a out of the ISR.
fn controller_shrink(state: &State, a: u8) -> Result<State, u8> {
    let isr = state.quorum.isr;
    if !in_isr(isr, a) {
        return Err(5);
    }
    if no_epoch_left(state) {
        return Err(4);
    }
    let without_a = isr & !(1 << a);
    if state.quorum.leader != Some(a) {
        return Ok(controller_update(state, state.quorum.leader, without_a));
    }
    if without_a == 0 {
        return Ok(controller_update(state, None, isr));
    }
    Ok(controller_update(state, None, without_a))
}

/// Kind 1: the controller names a as leader.
fn elect(state: &State, a: u8) -> Result<State, u8> {
    if !in_isr(state.quorum.isr, a) {
        return Err(5);
    }
    if state.quorum.leader == Some(a) {
        return Err(6);
    }
    if no_epoch_left(state) {
        return Err(4);
    }
    Ok(controller_update(state, Some(a), state.quorum.isr))
}

/// Kind 2: the leader that request e names takes it.
fn become_leader(state: &State, e: u8) -> Result<State, u8> {
    if e >= state.next_epoch {
        return Err(7);
    }
    let request = state.requests[e as usize];
    let leader = match request.leader {
        None => return Err(8),
        Some(leader) => leader,
    };
    let mut next = *state;
    let replica = &mut next.replicas[leader as usize];
    if e as i8 <= replica.epoch {
        return Err(9);
    }
    replica.epoch = e as i8;
    replica.leader = Some(leader);
    replica.isr = request.isr;
    Ok(next)
}

/// Kind 3: a takes request e, which does not name it. Where the request names
/// a leader, the log is cut to a's high watermark.
fn become_follower(state: &State, a: u8, e: u8) -> Result<State, u8> {
    if e >= state.next_epoch {
        return Err(7);
    }
    let request = state.requests[e as usize];
    if request.leader == Some(a) {
        return Err(8);
    }
    let mut next = *state;
    let replica = &mut next.replicas[a as usize];
    if e as i8 <= replica.epoch {
        return Err(9);
    }
    if request.leader.is_some() {
        replica.end = replica.hw;
    }
    replica.epoch = e as i8;
    replica.leader = request.leader;
    replica.isr = request.isr;
    Ok(next)
}

/// Kind 4: the presumed leader a adds a record with the next id.
fn write(state: &State, a: u8) -> Result<State, u8> {
    if !state.presumes(a) {
        return Err(10);
    }
    if state.next_id == state.id_count {
        return Err(11);
    }
    let mut next = *state;
    let replica = &mut next.replicas[a as usize];
    if replica.end == state.log_size {
        return Err(12);
    }
    replica.records[replica.end as usize] = Record {
        id: state.next_id,
        epoch: replica.epoch,
    };
    replica.end += 1;
    next.next_id += 1;
    Ok(next)
}

/// Whether a presumes, the quorum names it, and its epoch is the quorum's.
fn is_true_leader(state: &State, a: u8) -> bool {
    state.presumes(a)
        && state.quorum.leader == Some(a)
        && state.replicas[a as usize].epoch == state.quorum.epoch
}

/// Whether b's leader is a and b's end is at least n. No records are compared.
fn caught_up(state: &State, b: u8, a: u8, n: u8) -> bool {
    let follower = &state.replicas[b as usize];
    follower.leader == Some(a) && follower.end >= n
}

/// The ISR goes to a and to the quorum, and to no request.
fn leader_update(state: &State, a: u8, isr: u8) -> State {
    let mut next = *state;
    next.replicas[a as usize].isr = isr;
    next.quorum.isr = isr;
    next
}

/// Kind 5: the true leader a takes b out of the ISR.
fn leader_shrink(state: &State, a: u8, b: u8) -> Result<State, u8> {
    if a == b {
        return Err(14);
    }
    if !is_true_leader(state, a) {
        return Err(13);
    }
    let leader = &state.replicas[a as usize];
    if !in_isr(leader.isr, b) {
        return Err(5);
    }
    if caught_up(state, b, a, leader.end) {
        return Err(15);
    }
    Ok(leader_update(state, a, leader.isr & !(1 << b)))
}

/// Kind 6: the true leader a takes b into the ISR.
fn leader_expand(state: &State, a: u8, b: u8) -> Result<State, u8> {
    if !is_true_leader(state, a) {
        return Err(13);
    }
    let leader = &state.replicas[a as usize];
    if in_isr(leader.isr, b) {
        return Err(6);
    }
    if !caught_up(state, b, a, leader.hw) {
        return Err(16);
    }
    Ok(leader_update(state, a, leader.isr | (1 << b)))
}

/// The smallest member of the ISR with a fault, if one has it.
fn smallest_with(state: &State, isr: u8, fault: impl Fn(&Replica) -> bool) -> Option<u8> {
    let has_fault = |m: &u8| in_isr(isr, *m) && fault(&state.replicas[*m as usize]);
    (0..state.replica_count).find(has_fault)
}

/// Kind 7: the presumed leader a raises its high watermark. That every member has a
/// as leader is tried first over all members, then that every member has the offset hw.
fn advance(state: &State, a: u8) -> Result<State, Refusal> {
    if !state.presumes(a) {
        return Err(10.into());
    }
    let leader = &state.replicas[a as usize];
    let (isr, hw) = (leader.isr, leader.hw);
    if let Some(member) = smallest_with(state, isr, |m| m.leader != Some(a)) {
        return Err(Refusal { number: 48, member });
    }
    if let Some(member) = smallest_with(state, isr, |m| m.end <= hw) {
        return Err(Refusal { number: 49, member });
    }
    let mut next = *state;
    next.replicas[a as usize].hw += 1;
    Ok(next)
}

/// Kind 8: the follower a adds the record that the presumed leader b has at a's end.
fn replicate(state: &State, a: u8, b: u8) -> Result<State, u8> {
    if !state.presumes(b) {
        return Err(10);
    }
    let leader = &state.replicas[b as usize];
    let mut next = *state;
    let follower = &mut next.replicas[a as usize];
    if follower.leader != Some(b) {
        return Err(18);
    }
    if follower.end >= leader.end {
        return Err(19);
    }
    let offset = follower.end as usize;
    follower.records[offset] = leader.records[offset];
    follower.end += 1;
    follower.hw = leader.hw.min(follower.end);
    Ok(next)
}
