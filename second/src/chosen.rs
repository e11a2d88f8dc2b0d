//! Chosen states, which drawn ones come seldom near: as they are, and with each byte of the flat form
//! set to other values. No buffer is too short by chance here.

use crate::both::Both;
use crate::classes::{every_question, image_forms};
use crate::explore::all_actions;
use harness::answers;
use harness::draw;
use harness::fixed;
use harness::layout::*;

/// The states of `fixed`, each by each function.
pub fn fixed_states(both: &mut Both, _scale: usize) -> String {
    both.short_buffers = false;
    let states = fixed::all();
    for state in &states {
        in_many_ways(both, state);
    }
    format!("fixed states {}", states.len())
}

/// Every question; all orders of five places and other places; all actions in range and just past
/// it; buffers of all lengths for the image; the image damaged.
fn in_many_ways(both: &mut Both, state: &Flat) {
    every_question(both, state, &[0, 1, 2, 3, 4]);
    for order in renamings(5) {
        both.rename(state, &order);
        let other = draw::any_places(&mut both.random);
        both.rename(state, &other);
    }
    for action in all_actions(limits(state)) {
        both.act(state, action);
    }
    for length in 0..=LONGEST_IMAGE + 1 {
        both.write_image_into(state, length);
    }
    for bytes in image_forms(both, &as_image(state)) {
        both.read_image(&bytes);
    }
}

/// R, L, M and X of a state; the greatest where they are out of range.
fn limits(state: &Flat) -> [u8; 4] {
    if in_range(state[R], state[L], state[M], state[X]) {
        [state[R], state[L], state[M], state[X]]
    } else {
        [5, 16, 64, 15]
    }
}

/// A state of a run, a full state and a fresh one, with each single byte set to each value.
pub fn one_byte(both: &mut Both, _scale: usize) -> String {
    both.short_buffers = false;
    let (mut count, mut good) = (0, 0);
    for state in [fixed::two_leaders(), fixed::full(), fixed::fresh()] {
        let actions = an_action_of_each_kind(&state);
        for at in 0..STATE {
            for value in 0..=255 {
                let changed = fixed::with(&state, &[(at, value)]);
                through_all(both, &changed, &actions);
                count += 1;
                good += u64::from(answers::weak(&changed).is_ok());
            }
        }
    }
    format!(
        "states with one byte set {} (meeting the rules {})",
        count, good
    )
}

/// The action that is offered of each kind; where there is none, that with all operands 0.
fn an_action_of_each_kind(state: &Flat) -> Vec<Action> {
    let offered = |kind| {
        let [a, b, e] = answers::offer(state, kind).unwrap_or([0; 3]);
        [kind, a, b, e]
    };
    (0..=9).map(offered).collect()
}

/// A state through every function; its limits as a configuration too.
fn through_all(both: &mut Both, state: &Flat, actions: &[Action]) {
    let places = draw::places(&mut both.random, state[R]);
    every_question(both, state, &places);
    for &action in actions {
        both.act(state, action);
    }
    let [r, l, m, x] = [state[R], state[L], state[M], state[X]];
    both.fresh(r, l, m, x);
    both.judge(&configuration_record([r, l, m, x]));
}
