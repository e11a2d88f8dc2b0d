//! What the program `answers` prints: a line for each question of a row.

use crate::actions::{act, Refusal};
use crate::images::{read_image, write_image};
use crate::names::{rename, representative};
use crate::printed::hex;
use crate::questions::{offer, strong_isr, weak_isr, Failure};
use crate::state::{State, FLAT_SIZE};

// The first byte of a question: what is asked.
pub const ASKS_FRESH: u8 = 0;
pub const ASKS_RULE: u8 = 1;
pub const ASKS_ACT: u8 = 2;
pub const ASKS_RENAME: u8 = 3;
pub const ASKS_REPRESENTATIVE: u8 = 4;
pub const ASKS_WEAK: u8 = 5;
pub const ASKS_STRONG: u8 = 6;
pub const ASKS_OFFER: u8 = 7;
pub const ASKS_WRITE: u8 = 8;
pub const ASKS_READ: u8 = 9;

/// What each byte of a buffer holds before an image is written into it.
pub const LENT: u8 = 238;

/// How many bytes the first question of a row has; none where its front does not say so yet.
fn question_size(row: &[u8]) -> Option<usize> {
    let operands = match *row.first()? {
        ASKS_ACT => 4,
        ASKS_RENAME => 5,
        ASKS_OFFER | ASKS_WRITE => 1,
        ASKS_READ => return Some(2 + usize::from(*row.get(1)?)),
        _ => 0,
    };
    Some(1 + operands + FLAT_SIZE)
}

/// The whole questions of a row.
pub fn whole_questions(row: &[u8]) -> Vec<&[u8]> {
    let mut all = Vec::new();
    let mut left = row;
    while let Some(size) = question_size(left).filter(|size| *size <= left.len()) {
        let (question, behind) = left.split_at(size);
        all.push(question);
        left = behind;
    }
    all
}

/// What is printed of a row of questions: a line for each whole one.
pub fn replies(row: &[u8]) -> String {
    let whole = whole_questions(row).into_iter();
    whole.map(|question| reply(question) + "\n").collect()
}

/// The line of a whole question.
pub fn reply(question: &[u8]) -> String {
    let no_state = [0; FLAT_SIZE];
    match question[0] {
        ASKS_FRESH => {
            let answer = State::fresh(question[1], question[2], question[3], question[4]);
            state_line("fresh", answer, &no_state)
        }
        ASKS_READ => state_line("read", read_image(&question[2..]), &no_state),
        _ => reply_on_state(question),
    }
}

/// The line of a question with a flat state at its end, and operands before it.
fn reply_on_state(question: &[u8]) -> String {
    let mut given = [0; FLAT_SIZE];
    given.copy_from_slice(&question[question.len() - FLAT_SIZE..]);
    let state = State::from_flat(&given);
    let operands = &question[1..];
    match question[0] {
        ASKS_RULE => format!("rule {}", state.broken_rule()),
        ASKS_ACT => {
            let [kind, a, b, e] = [operands[0], operands[1], operands[2], operands[3]];
            act_line(act(&state, kind, a, b, e), &given)
        }
        ASKS_RENAME => state_line("rename", rename(&state, &operands[..5]), &given),
        ASKS_REPRESENTATIVE => state_line("representative", representative(&state), &given),
        ASKS_WEAK => isr_line("weak", weak_isr(&state)),
        ASKS_STRONG => isr_line("strong", strong_isr(&state)),
        ASKS_OFFER => offer_line(offer(&state, operands[0])),
        ASKS_WRITE => write_line(&state, operands[0]),
        _ => String::from("unknown"),
    }
}

/// The number, and the state that is answered or, refused, the one that stands beside the number.
fn state_line(name: &str, answer: Result<State, u8>, beside: &[u8; FLAT_SIZE]) -> String {
    let (number, flat) = match answer {
        Ok(state) => (0, state.to_flat()),
        Err(number) => (number, *beside),
    };
    format!("{} {} {}", name, number, hex(&flat))
}

/// The number, the member named, and the state that is answered or, refused, the one given.
fn act_line(answer: Result<State, Refusal>, given: &[u8; FLAT_SIZE]) -> String {
    let (number, member, flat) = match answer {
        Ok(next) => (0, 0, next.to_flat()),
        Err(refusal) => (refusal.number, refusal.member, *given),
    };
    format!("act {} {} {}", number, member, hex(&flat))
}

fn isr_line(name: &str, answer: Result<Option<Failure>, u8>) -> String {
    let (number, holds, (leader, member, offset)) = match answer {
        Ok(None) => (0, 1, (0, 0, 0)),
        Ok(Some(failure)) => (0, 0, failure),
        Err(number) => (number, 0, (0, 0, 0)),
    };
    format!(
        "{} {} {} {} {} {}",
        name, number, holds, leader, member, offset
    )
}

fn offer_line(answer: Result<(u8, u8, u8), u8>) -> String {
    let (number, (a, b, e)) = match answer {
        Ok(operands) => (0, operands),
        Err(number) => (number, (0, 0, 0)),
    };
    format!("offer {} {} {} {}", number, a, b, e)
}

/// The number and the image's length, then the whole buffer of this size.
fn write_line(state: &State, size: u8) -> String {
    let mut buffer = vec![LENT; usize::from(size)];
    let (number, length) = match write_into(state, &mut buffer) {
        Ok(length) => (0, length),
        Err(number) => (number, 0),
    };
    let line = format!("write {} {}", number, length);
    if buffer.is_empty() {
        line
    } else {
        format!("{} {}", line, hex(&buffer))
    }
}

/// Writes the image of a state to the front of a buffer; answers its length.
fn write_into(state: &State, buffer: &mut [u8]) -> Result<usize, u8> {
    let image = write_image(state)?;
    let bytes = image.as_slice();
    let front = buffer.get_mut(..bytes.len()).ok_or(24)?;
    front.copy_from_slice(bytes);
    Ok(bytes.len())
}
