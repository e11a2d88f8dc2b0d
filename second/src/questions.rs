//! The questions about a state: weak ISR, strong ISR, offer, and exposed.

use crate::actions::{act_on_good, used_operands, LAST_KIND};
use crate::state::{in_isr, State};

/// The smallest failing (replica, member, offset).
pub type Failure = (u8, u8, u8);

/// None where weak ISR holds, else the smallest failure; refused for a broken rule.
pub fn weak_isr(state: &State) -> Result<Option<Failure>, u8> {
    state.check()?;
    Ok(weak_failure(state))
}

/// None where strong ISR holds, else the smallest failure; refused for a broken rule.
pub fn strong_isr(state: &State) -> Result<Option<Failure>, u8> {
    state.check()?;
    Ok(strong_failure(state))
}

/// Weak ISR of a state that is known to meet the state rules.
pub fn weak_failure(state: &State) -> Option<Failure> {
    for r in 0..state.replica_count {
        if state.presumes(r) {
            let failure = failing_member(state, r, state.replicas[r as usize].isr);
            if failure.is_some() {
                return failure;
            }
        }
    }
    None
}

/// Strong ISR of a state that is known to meet the state rules.
pub fn strong_failure(state: &State) -> Option<Failure> {
    for r in 0..state.replica_count {
        if state.presumes(r) {
            let failure = failing_member(state, r, state.quorum.isr);
            if failure.is_some() {
                return failure;
            }
        }
    }
    None
}

/// The first member of the ISR, and its first offset below r's hw, where r and the
/// member do not hold the same record.
fn failing_member(state: &State, r: u8, isr: u8) -> Option<Failure> {
    let leader = &state.replicas[r as usize];
    for m in 0..state.replica_count {
        if !in_isr(isr, m) {
            continue;
        }
        let member = &state.replicas[m as usize];
        for offset in 0..leader.hw {
            let i = offset as usize;
            if offset >= member.end || leader.records[i] != member.records[i] {
                return Some((r, m, offset));
            }
        }
    }
    None
}

/// The smallest accepted (a, b, e) of a kind, unused operands 0.
pub fn offer(state: &State, kind: u8) -> Result<(u8, u8, u8), u8> {
    state.check()?;
    if kind > LAST_KIND {
        return Err(2);
    }
    let (uses_a, uses_b, uses_e) = used_operands(kind);
    let last_a = if uses_a { state.replica_count - 1 } else { 0 };
    let last_b = if uses_b { state.replica_count - 1 } else { 0 };
    let last_e = if uses_e { state.max_epoch } else { 0 };
    for a in 0..=last_a {
        for b in 0..=last_b {
            let accepted = |&e: &u8| act_on_good(state, kind, a, b, e).is_ok();
            if let Some(e) = (0..=last_e).find(accepted) {
                return Ok((a, b, e));
            }
        }
    }
    Err(26)
}

/// The greatest high watermark of any presuming replica, 0 if none presumes.
pub fn exposed(state: &State) -> u8 {
    let mut greatest = 0;
    let count = state.replica_count as usize;
    for (i, replica) in state.replicas.iter().take(count).enumerate() {
        if replica.leader == Some(i as u8) && replica.hw > greatest {
            greatest = replica.hw;
        }
    }
    greatest
}
