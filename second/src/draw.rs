//! Damaged runs, states, images and places of renamings.

use crate::course::{configuration, edged};
use crate::layout::*;
use crate::random::Random;

/// A run with one to three faults.
pub fn damaged_run(random: &mut Random, run: &[u8]) -> Vec<u8> {
    let mut out = run.to_vec();
    for _ in 0..1 + random.below(3) {
        damage_run(random, &mut out);
    }
    out
}

fn damage_run(random: &mut Random, run: &mut Vec<u8>) {
    match random.below(10) {
        0 => run.truncate(random.below(run.len() + 1)),
        1 => pad(random, run),
        2 => flip_bit(random, run),
        3 => change_byte(random, run),
        4 => swap_records(random, run),
        5 => repeat_record(random, run),
        6 => drop_record(random, run),
        7 => damage_configuration(random, run),
        8 => drop_byte(random, run),
        _ => change_action(random, run),
    }
}

fn pad(random: &mut Random, bytes: &mut Vec<u8>) {
    for _ in 0..1 + random.below(13) {
        let byte = random.byte();
        bytes.push(byte);
    }
}

fn flip_bit(random: &mut Random, bytes: &mut [u8]) {
    if !bytes.is_empty() {
        let at = random.below(bytes.len());
        bytes[at] ^= 1 << random.below(8);
    }
}

fn change_byte(random: &mut Random, bytes: &mut [u8]) {
    if !bytes.is_empty() {
        let at = random.below(bytes.len());
        bytes[at] = neighbour(random, bytes[at]);
    }
}

fn drop_byte(random: &mut Random, bytes: &mut Vec<u8>) {
    if !bytes.is_empty() {
        bytes.remove(random.below(bytes.len()));
    }
}

/// Another value: one more, one less, zero, all ones or anything.
fn neighbour(random: &mut Random, byte: u8) -> u8 {
    let other = match random.below(5) {
        0 => byte.wrapping_add(1),
        1 => byte.wrapping_sub(1),
        2 => 0,
        3 => 255,
        _ => random.byte(),
    };
    if other == byte {
        byte ^ 1
    } else {
        other
    }
}

fn any_record(random: &mut Random, run: &[u8]) -> usize {
    RECORD * random.below(run.len() / RECORD)
}

fn swap_records(random: &mut Random, run: &mut [u8]) {
    if run.len() >= RECORD {
        let (one, two) = (any_record(random, run), any_record(random, run));
        for i in 0..RECORD {
            run.swap(one + i, two + i);
        }
    }
}

fn repeat_record(random: &mut Random, run: &mut Vec<u8>) {
    if run.len() >= RECORD {
        let (from, to) = (any_record(random, run), any_record(random, run));
        let record = run[from..from + RECORD].to_vec();
        run.splice(to..to, record);
    }
}

fn drop_record(random: &mut Random, run: &mut Vec<u8>) {
    if run.len() >= RECORD {
        let at = any_record(random, run);
        run.drain(at..at + RECORD);
    }
}

fn damage_configuration(random: &mut Random, run: &mut [u8]) {
    if run.len() >= RECORD {
        let at = random.below(RECORD);
        run[at] = neighbour(random, run[at]);
    }
}

fn change_action(random: &mut Random, run: &mut [u8]) {
    if run.len() >= RECORD {
        let at = any_record(random, run) + 2 + random.below(4);
        run[at] = random.within(0, 9);
    }
}

/// A run about as long as a run may be, made from a shorter one: exactly the longest, one byte less
/// or more, or well over.
pub fn lengthened_run(random: &mut Random, run: &[u8]) -> Vec<u8> {
    let length = match random.below(6) {
        0 | 1 => LONGEST_RUN,
        2 => LONGEST_RUN - 1,
        3 => LONGEST_RUN + 1,
        4 => LONGEST_RUN + RECORD,
        _ => LONGEST_RUN + 1 + random.below(40_000),
    };
    let mut out = run.to_vec();
    while out.len() < length {
        let more = [5 + (out.len() / RECORD % 2) as u8, 0, 1, 0];
        out.extend_from_slice(&action_record(more));
    }
    out.truncate(length);
    out
}

/// Any 226 bytes.
pub fn any_state(random: &mut Random) -> Flat {
    let mut state = [0; STATE];
    random.fill(&mut state);
    state
}

/// Small numbers throughout, with some 255.
pub fn small_state(random: &mut Random) -> Flat {
    let top = random.within(1, 17);
    let mut state = [0; STATE];
    for byte in &mut state {
        *byte = if random.one_in(30) {
            255
        } else {
            random.within(0, top)
        };
    }
    if random.one_in(2) {
        let c = configuration(random);
        state[..4].copy_from_slice(&c);
    }
    state
}

/// A state that meets all rules, made by hand and not by actions, so also such as no run reaches.
pub fn valid_state(random: &mut Random) -> Flat {
    let c = configuration(random);
    let mut state = [0; STATE];
    state[..4].copy_from_slice(&c);
    state[NEXT_EPOCH] = edged(random, 0, c[3] + 1);
    state[NEXT_ID] = edged(random, 0, c[2]);
    draw_requests(random, &mut state);
    draw_logs(random, &mut state);
    draw_replicas(random, &mut state);
    state
}

/// All replicas, or any set of them.
fn any_isr(random: &mut Random, state: &Flat) -> u8 {
    let all = (1 << state[R]) - 1;
    if random.one_in(3) {
        all
    } else {
        random.byte() & all
    }
}

/// Some member of an ISR as leader, or none.
fn any_leader(random: &mut Random, isr: u8) -> u8 {
    let members: Vec<u8> = (0..5).filter(|i| isr & (1 << i) != 0).collect();
    if members.is_empty() || random.one_in(8) {
        0
    } else {
        random.pick(&members) + 1
    }
}

fn draw_requests(random: &mut Random, state: &mut Flat) {
    state[QUORUM_EPOCH] = state[NEXT_EPOCH].wrapping_sub(1);
    state[QUORUM_ISR] = (1 << state[R]) - 1;
    for epoch in 0..usize::from(state[NEXT_EPOCH]) {
        let isr = any_isr(random, state);
        let leader = any_leader(random, isr);
        state[request(epoch)] = leader;
        state[request(epoch) + 1] = isr;
        state[QUORUM_LEADER] = leader;
        state[QUORUM_ISR] = if random.one_in(2) {
            isr
        } else {
            any_isr(random, state)
        };
        if leader > 0 {
            state[QUORUM_ISR] |= 1 << (leader - 1);
        }
    }
}

/// Each id gets one offset and one epoch; each log takes at each offset any id that stands there.
fn draw_logs(random: &mut Random, state: &mut Flat) {
    let mut standing: Vec<Vec<(u8, u8)>> = vec![Vec::new(); usize::from(state[L])];
    let reach = 1 + random.below(standing.len());
    let mut ids: Vec<u8> = (0..state[NEXT_ID]).collect();
    random.shuffle(&mut ids);
    if state[NEXT_EPOCH] == 0 {
        ids.clear();
    }
    for (place, id) in ids.into_iter().enumerate() {
        let epoch = random.below(usize::from(state[NEXT_EPOCH])) as u8;
        let offset = if place < reach {
            place
        } else {
            random.below(reach)
        };
        standing[offset].push((id, epoch));
    }
    for i in 0..usize::from(state[R]) {
        let mut end = 0;
        while end < standing.len() && !standing[end].is_empty() && !random.one_in(20) {
            let first = standing[end][0];
            let (id, epoch) = if random.one_in(4) {
                random.pick(&standing[end])
            } else {
                first
            };
            state[record(i, end)] = id;
            state[record(i, end) + 1] = epoch;
            end += 1;
        }
        state[replica(i) + END] = end as u8;
    }
}

/// A state that meets all rules, of R replicas with 16 records in each log.
pub fn full_state(random: &mut Random, r: u8) -> Flat {
    let mut state = [0; STATE];
    state[..6].copy_from_slice(&[r, 16, 64, 15, 16, 64]);
    draw_requests(random, &mut state);
    let mut epochs = [0; 64];
    random.fill(&mut epochs);
    for i in 0..usize::from(r) {
        for offset in 0..16 {
            let id = offset + 16 * random.below(4);
            state[record(i, offset)] = id as u8;
            state[record(i, offset) + 1] = epochs[id] % 16;
        }
        state[replica(i) + END] = 16;
    }
    draw_replicas(random, &mut state);
    state
}

/// A state that meets all rules and that no renaming of its R replicas changes: no leader anywhere,
/// each ISR full or empty, the replicas alike, 16 records in each log.
pub fn alike_state(random: &mut Random, r: u8) -> Flat {
    let all = (1 << r) - 1;
    let mut state = [0; STATE];
    state[..6].copy_from_slice(&[r, 16, 64, 15, 16, 32]);
    state[QUORUM_EPOCH] = 15;
    state[QUORUM_ISR] = random.pick(&[0, all]);
    for epoch in 0..16 {
        state[request(epoch) + 1] = random.pick(&[0, all]);
    }
    let (hw, epoch) = (random.within(0, 16), random.within(0, 15));
    let isr = random.pick(&[0, all]);
    let mut epochs = [0; 16];
    random.fill(&mut epochs);
    for i in 0..usize::from(r) {
        state[replica(i) + HW] = hw;
        state[replica(i) + EPOCH] = epoch;
        state[replica(i) + ISR] = isr;
        state[replica(i) + END] = 16;
        for offset in 0..16 {
            state[record(i, offset)] = offset as u8;
            state[record(i, offset) + 1] = epochs[offset] % 16;
        }
    }
    state
}

/// Such a state with up to three fields of single replicas changed, so that it still meets all
/// rules: two of its renamings are told apart by few fields, and by any field of a replica but its
/// leader.
pub fn nearly_alike_state(random: &mut Random) -> Flat {
    let r = random.within(1, 5);
    let mut state = alike_state(random, r);
    for _ in 0..random.below(4) {
        let i = random.below(usize::from(r));
        change_replica(random, &mut state, i);
    }
    state
}

fn change_replica(random: &mut Random, state: &mut Flat, i: usize) {
    let (at, all) = (replica(i), (1 << state[R]) - 1);
    let end = state[at + END];
    match random.below(5) {
        0 => state[at + HW] = random.within(0, end),
        1 => {
            state[at + EPOCH] = 255;
            state[at + ISR] = 0;
        }
        2 if state[at + EPOCH] != 255 => state[at + ISR] = random.byte() & all,
        3 if end > 0 => {
            let offset = random.below(usize::from(end));
            state[record(i, offset)] = 16 + offset as u8;
            state[record(i, offset) + 1] = offset as u8;
        }
        _ => {
            let cut = random.within(0, end);
            for offset in usize::from(cut)..usize::from(end) {
                state[record(i, offset)] = 0;
                state[record(i, offset) + 1] = 0;
            }
            state[at + END] = cut;
            state[at + HW] = state[at + HW].min(cut);
        }
    }
}

fn draw_replicas(random: &mut Random, state: &mut Flat) {
    for i in 0..usize::from(state[R]) {
        let at = replica(i);
        state[at + HW] = random.within(0, state[at + END]);
        let newest = state[NEXT_EPOCH];
        let epoch = if random.one_in(2) {
            newest
        } else {
            random.within(0, newest)
        };
        state[at + EPOCH] = epoch.wrapping_sub(1);
        if epoch > 0 {
            state[at + LEADER] = state[request(usize::from(epoch) - 1)];
            state[at + ISR] = any_isr(random, state);
        }
        if usize::from(state[at + LEADER]) == i + 1 {
            state[at + ISR] |= 1 << i;
        }
    }
}

/// The state with one byte changed.
pub fn damaged_state(random: &mut Random, state: &Flat, at: usize) -> Flat {
    let mut out = *state;
    out[at] = neighbour(random, state[at]);
    out
}

/// A state that meets the rules but for one to three changed bytes, none in unused room.
pub fn nearly_valid_state(random: &mut Random) -> Flat {
    let valid = valid_state(random);
    let unused = unused(&valid);
    let used: Vec<usize> = (0..STATE).filter(|i| !unused[*i]).collect();
    let mut state = valid;
    for _ in 0..1 + random.below(3) {
        let at = random.pick(&used);
        state = damaged_state(random, &state, at);
    }
    state
}

/// The state with anything in its unused room; for states that meet the rules.
pub fn with_rubbish(random: &mut Random, state: &Flat) -> Flat {
    let unused = unused(state);
    let mut out = *state;
    for i in 0..STATE {
        if unused[i] {
            out[i] = random.byte();
        }
    }
    out
}

/// An image with one to three faults.
pub fn damaged_image(random: &mut Random, image: &[u8]) -> Vec<u8> {
    let mut out = image.to_vec();
    for _ in 0..1 + random.below(3) {
        match random.below(6) {
            0 => out.truncate(random.below(out.len() + 1)),
            1 => pad(random, &mut out),
            2 => flip_bit(random, &mut out),
            3 => drop_byte(random, &mut out),
            _ => change_byte(random, &mut out),
        }
    }
    out
}

/// A renaming of R replicas, or any places.
pub fn places(random: &mut Random, r: u8) -> Vec<u8> {
    if (1..=5).contains(&r) && random.one_in(2) {
        renaming(random, r).to_vec()
    } else {
        any_places(random)
    }
}

/// Places that are seldom a renaming: wrong counts, repeats, values past R, moved places past R, any
/// five bytes.
pub fn any_places(random: &mut Random) -> Vec<u8> {
    let mut places: Vec<u8> = (0..5).collect();
    random.shuffle(&mut places);
    match random.below(5) {
        0 => places.truncate(random.below(6)),
        1 => places.extend_from_slice(&[5, 6, 7][..1 + random.below(3)]),
        2 => {
            let at = random.below(5);
            places[at] = if random.one_in(4) {
                random.byte()
            } else {
                random.within(0, 6)
            };
        }
        3 => random.fill(&mut places),
        _ => {}
    }
    places
}

/// A random renaming of R replicas.
pub fn renaming(random: &mut Random, r: u8) -> Places {
    let mut places = [0, 1, 2, 3, 4];
    random.shuffle(&mut places[..usize::from(r)]);
    places
}
