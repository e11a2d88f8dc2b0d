//! The ten functions of the C interface, on slices of bytes.
//! A refusal leaves `out` as it was; bytes of `out` past the answer stay.

use crate::state::{State, FLAT_SIZE};
use crate::{actions, images, names, questions, run};

const SHORT: u8 = 21;
const LEFT_OVER: u8 = 23;
const BUFFER_SHORT: u8 = 24;
const VERDICT_SIZE: usize = 24 + FLAT_SIZE;

/// The state of 226 bytes; 21 for fewer, 23 for more.
fn load(bytes: &[u8]) -> Result<State, u8> {
    if bytes.len() > FLAT_SIZE {
        return Err(LEFT_OVER);
    }
    match <&[u8; FLAT_SIZE]>::try_from(bytes) {
        Ok(row) => Ok(State::from_flat(row)),
        Err(_) => Err(SHORT),
    }
}

/// Writes an answer to the front of `out`; 24 where it does not fit.
fn store(answer: &[u8], out: &mut [u8]) -> u8 {
    if out.len() < answer.len() {
        return BUFFER_SHORT;
    }
    out[..answer.len()].copy_from_slice(answer);
    0
}

fn store_state(answer: Result<State, u8>, out: &mut [u8]) -> u8 {
    match answer {
        Ok(state) => store(&state.to_flat(), out),
        Err(number) => number,
    }
}

fn store_question(answer: Result<Option<questions::Failure>, u8>, out: &mut [u8]) -> u8 {
    match answer {
        Ok(None) => store(&[1, 0, 0, 0], out),
        Ok(Some((r, m, offset))) => store(&[0, r, m, offset], out),
        Err(number) => number,
    }
}

/// The fresh state.
pub fn fresh(r: u8, l: u8, m: u8, x: u8, out: &mut [u8]) -> u8 {
    store_state(State::fresh(r, l, m, x), out)
}

/// The state after an action. Answers the number plus 256 times the member named.
pub fn act(state: &[u8], kind: u8, a: u8, b: u8, e: u8, out: &mut [u8]) -> u32 {
    let answer = match load(state) {
        Ok(state) => actions::act(&state, kind, a, b, e),
        Err(number) => Err(number.into()),
    };
    match answer {
        Ok(next) => store(&next.to_flat(), out).into(),
        Err(refusal) => refusal.number as u32 + 256 * refusal.member as u32,
    }
}

/// Weak ISR: 1, 0, 0, 0 where it holds, else 0, replica, member, offset.
pub fn weak(state: &[u8], out: &mut [u8]) -> u8 {
    match load(state) {
        Ok(state) => store_question(questions::weak_isr(&state), out),
        Err(number) => number,
    }
}

/// Strong ISR, in the same form.
pub fn strong(state: &[u8], out: &mut [u8]) -> u8 {
    match load(state) {
        Ok(state) => store_question(questions::strong_isr(&state), out),
        Err(number) => number,
    }
}

/// The smallest accepted a, b, e of a kind.
pub fn offer(state: &[u8], kind: u8, out: &mut [u8]) -> u8 {
    let answer = match load(state) {
        Ok(state) => questions::offer(&state, kind),
        Err(number) => Err(number),
    };
    match answer {
        Ok((a, b, e)) => store(&[a, b, e], out),
        Err(number) => number,
    }
}

/// The image of a state. Answers the number plus 256 times the image's length.
pub fn write_image(state: &[u8], out: &mut [u8]) -> u32 {
    let answer = match load(state) {
        Ok(state) => images::write_image(&state),
        Err(number) => Err(number),
    };
    let image = match answer {
        Ok(image) => image,
        Err(number) => return number as u32,
    };
    let number = store(image.as_slice(), out);
    if number != 0 {
        return number as u32;
    }
    256 * image.as_slice().len() as u32
}

/// The state of an image.
pub fn read_image(bytes: &[u8], out: &mut [u8]) -> u8 {
    store_state(images::read_image(bytes), out)
}

/// The state under a renaming.
pub fn rename(state: &[u8], places: &[u8], out: &mut [u8]) -> u8 {
    match load(state) {
        Ok(state) => store_state(names::rename(&state, places), out),
        Err(number) => number,
    }
}

/// The representative of a state.
pub fn representative(state: &[u8], out: &mut [u8]) -> u8 {
    match load(state) {
        Ok(state) => store_state(names::representative(&state), out),
        Err(number) => number,
    }
}

/// The verdict on a run: accepted, refusal, at, weak, strong and exposed, four bytes
/// each with the low byte first, then the last state.
pub fn judge(run: &[u8], out: &mut [u8]) -> u8 {
    let verdict = run::judge(run);
    let mut answer = [0; VERDICT_SIZE];
    for (i, number) in verdict.numbers().iter().enumerate() {
        answer[4 * i..4 * i + 4].copy_from_slice(&number.to_le_bytes());
    }
    answer[24..].copy_from_slice(&verdict.state.to_flat());
    store(&answer, out)
}
