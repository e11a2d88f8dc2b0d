//! Properties of the second implementation itself, so that an error shared by both would show:
//! rules kept, unused room zero, image round trips, the same answers under another naming, the member
//! that an action names, representatives against all renamings, offers against all actions, runs
//! against their prefixes.

use crate::both::Both;
use crate::classes::reached_state;
use harness::answers::{self, Verdict};
use harness::course;
use harness::draw;
use harness::layout::*;
use second::actions::Refusal;
use second::run::rename_run;

/// Everything that is said of one state that meets the rules.
pub fn of_state(both: &mut Both, state: &Flat) {
    let places = draw::renaming(&mut both.random, state[R]);
    of_image(both, state);
    of_renaming(both, state, &places);
    of_representative(both, state, &places);
    of_offers(both, state);
    for _ in 0..3 {
        let action = course::any_action(&mut both.random, state);
        of_action(both, state, action, &places);
    }
    for action in course::accepted_actions(state) {
        of_action(both, state, action, &places);
    }
    // A refused advance may name a member.
    for action in course::actions_of_kind(state, 7) {
        of_action(both, state, action, &places);
    }
}

/// An accepted action keeps the rules and leaves zeros in unused room; a renamed action on the
/// renamed state has the same number and the renamed next state, and names the member that it must.
fn of_action(both: &mut Both, state: &Flat, action: Action, places: &Places) {
    let result = answers::act(state, action);
    let inputs: [(&str, &[u8]); 3] = [
        ("state", state),
        ("kind a b e", &action),
        ("places", places),
    ];
    if let Ok(next) = result {
        both.property(
            "an accepted action keeps the rules",
            meets_rules(&next),
            &inputs,
        );
        both.property(
            "an accepted action leaves zeros",
            next == tidied(&next),
            &inputs,
        );
    }
    let other = answers::act(
        &renamed(state, places),
        renamed_action(action, state[R], places),
    );
    let expected = result.map(|next| renamed(&next, places));
    let number = |refusal: Refusal| refusal.number;
    both.property(
        "an action is the same under a renaming",
        other.map_err(number) == expected.map_err(number),
        &inputs,
    );
    if let Err(refusal) = other {
        let named = Some(refusal.member) == due_member(state, action, refusal.number, places);
        both.property("a renamed action names its member", named, &inputs);
    }
}

/// The member that a refused action names under a renaming: of 48 and 49 the smallest new name of a
/// member with that fault, none where no member has it or where another number was due; else 0.
fn due_member(state: &Flat, action: Action, number: u8, places: &Places) -> Option<u8> {
    let a = usize::from(action[1]);
    let smallest = |fault: &dyn Fn(usize) -> bool| {
        let leader_isr = state[replica(a) + ISR];
        let faulty = |m: &usize| leader_isr & (1 << m) != 0 && fault(replica(*m));
        (0..usize::from(state[R]))
            .filter(faulty)
            .map(|m| places[m])
            .min()
    };
    let led_by_another = |member: usize| usize::from(state[member + LEADER]) != a + 1;
    let lacks_offset = |member: usize| state[member + END] <= state[replica(a) + HW];
    match number {
        48 => smallest(&led_by_another),
        49 if smallest(&led_by_another).is_none() => smallest(&lacks_offset),
        49 => None,
        _ => Some(0),
    }
}

/// Whether a state meets S1 to S7: the questions refuse any other.
fn meets_rules(state: &Flat) -> bool {
    answers::weak(state).is_ok()
}

/// The image is the state's bytes in their order, and reads back as the state.
fn of_image(both: &mut Both, state: &Flat) {
    let image = as_image(state);
    let same = answers::image(state).as_ref() == Ok(&image);
    let read = answers::read(&image) == Ok(tidied(state));
    both.property("an image is as written here", same, &[("state", state)]);
    both.property(
        "an image reads back as its state",
        read,
        &[("state", state)],
    );
}

/// Bytes that read as a state are that state's image.
fn of_bytes(both: &mut Both, bytes: &[u8]) {
    if let Ok(state) = answers::read(bytes) {
        let same = answers::image(&state) == Ok(bytes.to_vec());
        both.property("bytes that read are the image", same, &[("bytes", bytes)]);
        both.property(
            "a read state meets the rules",
            meets_rules(&state),
            &[("bytes", bytes)],
        );
        both.property(
            "a read state has zeros",
            state == tidied(&state),
            &[("bytes", bytes)],
        );
    }
}

/// The renamed state is what the bytes renamed here say; the questions hold alike on both.
fn of_renaming(both: &mut Both, state: &Flat, places: &Places) {
    let inputs: [(&str, &[u8]); 2] = [("state", state), ("places", places)];
    let other = renamed(state, places);
    let same = answers::rename(state, places) == Ok(other);
    both.property("a renamed state is as renamed here", same, &inputs);
    let weak = holds(answers::weak(state)) == holds(answers::weak(&other));
    both.property("weak ISR is the same under a renaming", weak, &inputs);
    let strong = holds(answers::strong(state)) == holds(answers::strong(&other));
    both.property("strong ISR is the same under a renaming", strong, &inputs);
}

fn holds(answer: Result<[u8; 4], u8>) -> Result<u8, u8> {
    answer.map(|found| found[0])
}

/// The least of all images under renamings is the representative's, also for a renamed state.
fn of_representative(both: &mut Both, state: &Flat, places: &Places) {
    let mut all = Vec::new();
    for places in renamings(state[R]) {
        if let Ok(image) = answers::image(&renamed(state, &places)) {
            all.push(image);
        }
    }
    all.sort();
    let least = all.first().map(|image| answers::read(image));
    let found = answers::representative(state);
    let inputs: [(&str, &[u8]); 2] = [("state", state), ("places", places)];
    both.property(
        "the representative has the least image",
        least == Some(found),
        &inputs,
    );
    let other = answers::representative(&renamed(state, places));
    both.property(
        "a renamed state has the same representative",
        found == other,
        &inputs,
    );
}

/// Each offer is the first accepted of all actions of its kind.
fn of_offers(both: &mut Both, state: &Flat) {
    for kind in 0..9 {
        let all = course::actions_of_kind(state, kind);
        let first = all
            .iter()
            .find(|action| answers::act(state, **action).is_ok());
        let expected = match first {
            Some(action) => Ok([action[1], action[2], action[3]]),
            None => Err(26),
        };
        let same = answers::offer(state, kind) == expected;
        both.property(
            "an offer is the first accepted",
            same,
            &[("state", state), ("kind", &[kind])],
        );
    }
}

/// The verdict by single actions and questions, record by record.
fn walked(run: &[u8]) -> Verdict {
    let mut v = Verdict {
        accepted: 0,
        refusal: 25,
        at: 0,
        weak: 0,
        strong: 0,
        exposed: 0,
        state: [0; STATE],
    };
    if run.len() > LONGEST_RUN {
        return v;
    }
    v.refusal = record_at(run, &mut v);
    while v.refusal == 0 && (v.at as usize) < run.len() {
        v.refusal = record_at(run, &mut v);
    }
    v
}

/// Judges the record at `v.at`, steps over it and answers 0, or answers its refusal.
fn record_at(run: &[u8], v: &mut Verdict) -> u32 {
    let record = &run[v.at as usize..];
    let mark = if v.at == 0 { 0x43 } else { 0x41 };
    if record.len() < RECORD {
        return 21;
    }
    if record[0] != 0x4B || record[1] != mark {
        return 20;
    }
    let four = [record[2], record[3], record[4], record[5]];
    let next = if v.at == 0 {
        answers::fresh(four)
    } else {
        answers::act(&v.state, four).map_err(|refusal| refusal.number)
    };
    match next {
        Ok(state) => v.state = state,
        Err(number) => return number.into(),
    }
    v.accepted += u32::from(v.at > 0);
    v.at += RECORD as u32;
    note_state(v);
    0
}

/// Notes the first failures of weak and strong ISR, and the greatest hw of a presuming replica.
fn note_state(v: &mut Verdict) {
    if v.weak == 0 && holds(answers::weak(&v.state)) == Ok(0) {
        v.weak = v.accepted;
    }
    if v.strong == 0 && holds(answers::strong(&v.state)) == Ok(0) {
        v.strong = v.accepted;
    }
    for i in 0..usize::from(v.state[R]) {
        let at = replica(i);
        if usize::from(v.state[at + LEADER]) == i + 1 {
            v.exposed = v.exposed.max(v.state[at + HW].into());
        }
    }
}

/// Everything that is said of one run.
fn of_run(both: &mut Both, run: &[u8]) {
    let verdict = answers::judge(run);
    let same = walked(run) == verdict;
    both.property(
        "the verdict is that of single actions",
        same,
        &[("run", run)],
    );
    let places = draw::renaming(&mut both.random, if configured(run) { run[2] } else { 5 });
    let mut expected = verdict;
    if configured(run) {
        expected.state = renamed(&verdict.state, &places);
    }
    let other = renamed_run(run, &places);
    let inputs: [(&str, &[u8]); 2] = [("run", run), ("places", &places)];
    let same = rename_run(run, &places) == other;
    both.property("a renamed run is as renamed here", same, &inputs);
    let same = answers::judge(&other) == expected;
    both.property("a renamed run has the renamed verdict", same, &inputs);
    if run.len() <= LONGEST_RUN {
        of_prefixes(both, run, &verdict);
    }
}

/// Each prefix is judged as the whole run is, up to where the prefix ends.
fn of_prefixes(both: &mut Both, run: &[u8], whole: &Verdict) {
    let mut exposed = 0;
    let step = 1 + run.len() / 120;
    for length in (0..=run.len()).step_by(step) {
        let v = answers::judge(&run[..length]);
        let holds = prefix_holds(&v, length, whole) && v.exposed >= exposed;
        exposed = v.exposed;
        let inputs: [(&str, &[u8]); 2] = [("run", run), ("prefix", &run[..length])];
        both.property("a prefix is judged as the whole", holds, &inputs);
    }
}

fn prefix_holds(v: &Verdict, length: usize, whole: &Verdict) -> bool {
    let (at, met) = (whole.at as usize, length - length % RECORD);
    if length >= at + RECORD || length >= at && whole.refusal == 0 {
        return v == whole;
    }
    let first = |failed: u32| if failed <= v.accepted { failed } else { 0 };
    let cut = length > met || length == 0;
    v.accepted as usize == (met / RECORD).saturating_sub(1)
        && v.refusal == if cut { 21 } else { 0 }
        && v.at as usize == met
        && v.weak == first(whole.weak)
        && v.strong == first(whole.strong)
        && v.exposed <= whole.exposed
}

/// The properties on drawn states, on states that runs reach, on images and on runs.
pub fn properties(both: &mut Both, scale: usize) -> String {
    let states = 12_000 * scale;
    for i in 0..states {
        let valid = draw::valid_state(&mut both.random);
        let state = if i % 2 == 0 {
            valid
        } else {
            reached_state(both)
        };
        if state[R] > 0 {
            of_state(both, &state);
            of_damaged_images(both, &state);
        }
    }
    let runs = 20_000 * scale;
    for i in 0..runs {
        let length = course::run_length(&mut both.random);
        let mut run = course::run(&mut both.random, length);
        if i % 3 == 0 {
            run = draw::damaged_run(&mut both.random, &run);
        }
        of_run(both, &run);
    }
    for _ in 0..100 * scale {
        let run = course::run(&mut both.random, 10);
        let long = draw::lengthened_run(&mut both.random, &run);
        of_run(both, &long);
    }
    format!(
        "properties of states {}, of runs {}",
        states,
        runs + 100 * scale
    )
}

fn of_damaged_images(both: &mut Both, state: &Flat) {
    if let Ok(image) = answers::image(state) {
        for _ in 0..60 {
            let bytes = draw::damaged_image(&mut both.random, &image);
            of_bytes(both, &bytes);
        }
    }
}
