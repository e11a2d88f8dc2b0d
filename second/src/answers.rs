//! The second implementation's answers as values: each flat function asked with a buffer of exactly
//! the right length.

use crate::layout::{Action, Flat, Places, LONGEST_IMAGE, STATE, VERDICT};
use second::actions::Refusal;
use second::flat;

fn answer<T>(number: u8, value: T) -> Result<T, u8> {
    if number == 0 {
        Ok(value)
    } else {
        Err(number)
    }
}

pub fn fresh(c: [u8; 4]) -> Result<Flat, u8> {
    let mut out = [0; STATE];
    let number = flat::fresh(c[0], c[1], c[2], c[3], &mut out);
    answer(number, out)
}

pub fn act(state: &[u8], action: Action) -> Result<Flat, Refusal> {
    let mut out = [0; STATE];
    let told = flat::act(state, action[0], action[1], action[2], action[3], &mut out);
    if told == 0 {
        return Ok(out);
    }
    let (number, member) = ((told % 256) as u8, (told / 256) as u8);
    Err(Refusal { number, member })
}

pub fn weak(state: &[u8]) -> Result<[u8; 4], u8> {
    let mut out = [0; 4];
    let number = flat::weak(state, &mut out);
    answer(number, out)
}

pub fn strong(state: &[u8]) -> Result<[u8; 4], u8> {
    let mut out = [0; 4];
    let number = flat::strong(state, &mut out);
    answer(number, out)
}

pub fn offer(state: &[u8], kind: u8) -> Result<[u8; 3], u8> {
    let mut out = [0; 3];
    let number = flat::offer(state, kind, &mut out);
    answer(number, out)
}

pub fn image(state: &[u8]) -> Result<Vec<u8>, u8> {
    let mut out = [0; LONGEST_IMAGE];
    let number = flat::write_image(state, &mut out);
    answer(
        (number % 256) as u8,
        out[..(number / 256) as usize].to_vec(),
    )
}

pub fn read(bytes: &[u8]) -> Result<Flat, u8> {
    let mut out = [0; STATE];
    let number = flat::read_image(bytes, &mut out);
    answer(number, out)
}

pub fn rename(state: &[u8], places: &Places) -> Result<Flat, u8> {
    let mut out = [0; STATE];
    let number = flat::rename(state, places, &mut out);
    answer(number, out)
}

pub fn representative(state: &[u8]) -> Result<Flat, u8> {
    let mut out = [0; STATE];
    let number = flat::representative(state, &mut out);
    answer(number, out)
}

/// The verdict's six numbers and its last state.
#[derive(Clone, Copy, PartialEq, Eq, Debug)]
pub struct Verdict {
    pub accepted: u32,
    pub refusal: u32,
    pub at: u32,
    pub weak: u32,
    pub strong: u32,
    pub exposed: u32,
    pub state: Flat,
}

pub fn judge(run: &[u8]) -> Verdict {
    let mut out = [0; VERDICT];
    flat::judge(run, &mut out);
    verdict(&out)
}

/// The verdict at the front of a buffer.
pub fn verdict(out: &[u8]) -> Verdict {
    let mut state = [0; STATE];
    state.copy_from_slice(&out[24..VERDICT]);
    Verdict {
        accepted: number(out, 0),
        refusal: number(out, 1),
        at: number(out, 2),
        weak: number(out, 3),
        strong: number(out, 4),
        exposed: number(out, 5),
        state,
    }
}

fn number(out: &[u8], place: usize) -> u32 {
    let at = 4 * place;
    u32::from_le_bytes([out[at], out[at + 1], out[at + 2], out[at + 3]])
}
