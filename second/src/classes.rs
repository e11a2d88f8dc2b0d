//! What is compared, class by class: random and damaged runs, states, images, renamings and fresh
//! states. Each class answers its line of counts.

use crate::both::Both;
use harness::answers;
use harness::course;
use harness::draw;
use harness::fixed;
use harness::layout::*;

/// Every question but `act`, on bytes that may or may not be a state, and the reading of its bytes in
/// the order of an image.
pub fn every_question(both: &mut Both, state: &[u8], places: &[u8]) {
    both.weak(state);
    both.strong(state);
    for kind in (0..=9).chain([255]) {
        both.offer(state, kind);
    }
    both.representative(state);
    both.rename(state, places);
    both.write_image(state);
    if let Ok(flat) = Flat::try_from(state) {
        both.read_image(&as_image(&flat));
    }
}

/// A run's records after the configuration, as actions.
fn actions_of(run: &[u8]) -> Vec<Action> {
    run[RECORD..]
        .chunks_exact(RECORD)
        .map(|c| [c[2], c[3], c[4], c[5]])
        .collect()
}

/// Every action of a run singly, and every question on each state on the way.
fn walk(both: &mut Both, run: &[u8]) -> u64 {
    let mut states = 0;
    let mut state = match answers::fresh([run[2], run[3], run[4], run[5]]) {
        Ok(state) => state,
        Err(_) => return 0,
    };
    for action in actions_of(run) {
        let places = draw::renaming(&mut both.random, state[R]);
        every_question(both, &state, &places);
        both.act(&state, action);
        for _ in 0..4 {
            let other = course::any_action(&mut both.random, &state);
            both.act(&state, other);
        }
        states += 1;
        match answers::act(&state, action) {
            Ok(next) => state = next,
            Err(_) => break,
        }
    }
    states
}

/// Random runs; of every eighth, each state on the way; and a few runs of the greatest length.
pub fn random_runs(both: &mut Both, scale: usize) -> String {
    let (count, longest) = (150_000 * scale, 60 * scale);
    let (mut whole, mut accepted, mut states) = (0, 0, 0);
    for i in 0..count {
        let length = course::run_length(&mut both.random);
        let run = course::run(&mut both.random, length);
        let verdict = both.judge(&run);
        whole += u64::from(verdict.refusal == 0);
        accepted += u64::from(verdict.accepted);
        both.failures.count(&run, &verdict);
        if i % 8 == 0 && length <= 200 {
            states += walk(both, &run);
        }
    }
    for _ in 0..longest {
        let run = longest_run(both);
        accepted += u64::from(both.judge(&run).accepted);
    }
    let (weak, strong) = both.failures.totals();
    format!(
        "runs {} (accepted to the end {}, weak failed {}, strong failed {}, states on the way {}), \
         longest runs {}, accepted actions {}; {}",
        count,
        whole,
        weak,
        strong,
        states,
        longest,
        accepted,
        both.failures.line()
    )
}

/// A run of 10,921 actions, all accepted.
fn longest_run(both: &mut Both) -> Vec<u8> {
    let mut c = course::configuration(&mut both.random);
    c[0] = c[0].max(2);
    let actions = LONGEST_RUN / RECORD - 1;
    if both.random.one_in(2) {
        course::isr_changes_run(&mut both.random, c, actions).run
    } else {
        course::accepted_run(&mut both.random, c, actions).run
    }
}

/// Runs cut, flipped, padded, with records exchanged, repeated or left out, and runs too long.
pub fn damaged_runs(both: &mut Both, scale: usize) -> String {
    let (count, long, mut refused) = (150_000 * scale, 2_000 * scale, 0);
    for _ in 0..count {
        let length = both.random.below(60);
        let run = course::run(&mut both.random, length);
        let bad = draw::damaged_run(&mut both.random, &run);
        refused += u64::from(both.judge(&bad).refusal != 0);
    }
    for _ in 0..long {
        let c = [both.random.within(2, 5), 2, 2, 1];
        let course = course::isr_changes_run(&mut both.random, c, 12);
        let run = draw::lengthened_run(&mut both.random, &course.run);
        both.judge(&run);
    }
    for length in 0..40 {
        both.judge(&vec![0x4B; length]);
    }
    format!(
        "damaged runs {} (refused {}), at or over the greatest length {}",
        count, refused, long
    )
}

/// The last state of a random run.
pub fn reached_state(both: &mut Both) -> Flat {
    let length = 10 + both.random.below(120);
    let run = course::run(&mut both.random, length);
    answers::judge(&run).state
}

/// Every question and some actions on bytes that may or may not be a state.
fn anything(both: &mut Both, state: &[u8], like: &Flat) {
    let places = draw::places(&mut both.random, like[R]);
    every_question(both, state, &places);
    for _ in 0..8 {
        let action = course::any_action(&mut both.random, like);
        both.act(state, action);
    }
}

/// Arbitrary states, states with one byte changed, rubbish in unused room, other lengths.
pub fn any_states(both: &mut Both, scale: usize) -> String {
    let (drawn, changed) = (20_000 * scale, 2_000 * scale);
    let (mut count, mut good) = (0, 0);
    for _ in 0..drawn {
        for state in drawn_states(both) {
            anything(both, &state, &state);
            count += 1;
            good += u64::from(answers::weak(&state).is_ok());
        }
    }
    for i in 0..changed {
        let state = if i % 2 == 0 {
            draw::valid_state(&mut both.random)
        } else {
            reached_state(both)
        };
        for at in 0..STATE {
            let bad = draw::damaged_state(&mut both.random, &state, at);
            anything(both, &bad, &state);
            count += 1;
            good += u64::from(answers::weak(&bad).is_ok());
        }
        other_lengths(both, &state);
    }
    format!(
        "states {} (meeting the rules {}), of other lengths {}",
        count,
        good,
        4 * changed
    )
}

/// Any bytes, small numbers, states that nearly meet the rules and states that do, some with
/// replicas alike, some with rubbish in unused room.
fn drawn_states(both: &mut Both) -> [Flat; 8] {
    let (valid, reached) = (draw::valid_state(&mut both.random), reached_state(both));
    let random = &mut both.random;
    [
        draw::any_state(random),
        draw::small_state(random),
        draw::nearly_valid_state(random),
        valid,
        draw::full_state(random, 5),
        draw::nearly_alike_state(random),
        draw::with_rubbish(random, &valid),
        draw::with_rubbish(random, &reached),
    ]
}

/// The same bytes cut short or with more after them: 0, 225, 227 and any length.
fn other_lengths(both: &mut Both, state: &Flat) {
    let mut longer = state.to_vec();
    longer.resize(500, both.random.byte());
    let any = both.random.below(longer.len());
    for length in [0, STATE - 1, STATE + 1, any] {
        anything(both, &longer[..length], state);
    }
}

/// Images whole, cut at each length, with each byte changed, padded and damaged at random; and other
/// forms of the states that they are of.
pub fn state_images(both: &mut Both, scale: usize) -> String {
    let (mut read, mut count) = (0, 0);
    for i in 0..40_000 * scale {
        let valid = draw::valid_state(&mut both.random);
        let state = if i % 2 == 0 {
            valid
        } else {
            reached_state(both)
        };
        if both.random.one_in(4) {
            other_forms(both, &state);
        }
        for bytes in image_forms(both, &as_image(&state)) {
            both.read_image(&bytes);
            count += 1;
            if let Ok(back) = answers::read(&bytes) {
                both.write_image(&back);
                read += 1;
            }
        }
    }
    format!("images {} (read {})", count, read)
}

/// A state as it is, with rubbish in unused room, and so that it breaks S1 or S3: its image into
/// buffers with room to spare, exact, one short and empty, its renaming by some places, and its
/// representative.
fn other_forms(both: &mut Both, state: &Flat) {
    let exact = as_image(state).len();
    let untidy = draw::with_rubbish(&mut both.random, state);
    let breaks_1 = fixed::with(&untidy, &[(X, 16)]);
    let breaks_3 = fixed::with(state, &[(QUORUM_EPOCH, state[QUORUM_EPOCH] ^ 1)]);
    for form in [*state, untidy, breaks_1, breaks_3] {
        for length in [exact + 3, exact, exact - 1, 0] {
            both.write_image_into(&form, length);
        }
        let places = draw::places(&mut both.random, state[R]);
        both.rename(&form, &places);
        both.representative(&form);
    }
}

/// An image and the bytes tried in its place.
pub fn image_forms(both: &mut Both, image: &[u8]) -> Vec<Vec<u8>> {
    let mut forms = vec![image.to_vec()];
    for length in 0..image.len() {
        forms.push(image[..length].to_vec());
    }
    for at in 0..image.len() {
        let mut flipped = image.to_vec();
        flipped[at] ^= 1 << both.random.below(8);
        forms.push(flipped);
        let mut near = image.to_vec();
        near[at] = both.random.pick(&[0, 1, 255, near[at].wrapping_add(1)]);
        forms.push(near);
    }
    for _ in 0..40 {
        forms.push(draw::damaged_image(&mut both.random, image));
    }
    forms
}

/// Every renaming of every R on states, some with rubbish in unused room, some broken; and places
/// that are no renaming.
pub fn all_renamings(both: &mut Both, scale: usize) -> String {
    let (mut count, mut other) = (0, 0);
    for i in 0..40_000 * scale {
        let valid = draw::valid_state(&mut both.random);
        let state = match i % 8 {
            0..=2 => draw::with_rubbish(&mut both.random, &valid),
            3 => draw::nearly_valid_state(&mut both.random),
            _ => valid,
        };
        for places in renamings(state[R].clamp(1, 5)) {
            both.rename(&state, &places);
            count += 1;
        }
        for _ in 0..40 {
            let places = draw::any_places(&mut both.random);
            both.rename(&state, &places);
            other += 1;
        }
        for length in 0..=8 {
            both.rename(&state, &[0, 1, 2, 3, 4, 5, 6, 7][..length]);
            other += 1;
        }
    }
    format!("renamings {}, other places {}", count, other)
}

/// Fresh states at and around every bound.
pub fn fresh_states(both: &mut Both, _scale: usize) -> String {
    let mut count = 0;
    let (few, bounds) = ((0..=7).chain([255]), (0..=18).chain([255]));
    let (ids, epochs) = ([0, 1, 2, 63, 64, 65, 255], (0..=17).chain([255]));
    let sizes = few.flat_map(|r| bounds.clone().map(move |l| (r, l)));
    for (r, l) in sizes {
        for (m, x) in ids
            .iter()
            .flat_map(|m| epochs.clone().map(move |x| (*m, x)))
        {
            both.fresh(r, l, m, x);
            count += 1;
        }
    }
    format!("fresh states {}", count)
}
