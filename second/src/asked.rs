//! The questions of `crates/answers/stdin`, each with its line or the front of it by the paper: of a
//! refusal the whole line. What the fronts leave out comes from the second implementation.

mod actions;
mod images;
mod rules;
mod states;

use harness::fixed;
use second::replies::ASKS_RENAME;

/// A question, and its line or the front of it.
pub struct Asked {
    pub question: Vec<u8>,
    pub front: String,
}

/// Some bytes of a state or an image, with a value for each.
type Changes = &'static [(usize, u8)];

/// All questions, in the order in which they are put. The first has 227 bytes: none ends at byte 20,
/// where a test parts the input in two.
pub fn questions() -> Vec<Asked> {
    let mut all = rules::fresh_states();
    all.extend(rules::broken_rules());
    all.extend(actions::all());
    all.extend(states::all());
    all.extend(images::all());
    all.extend([10, 11, 128, 255].map(unknown));
    all
}

/// A question that lacks its last byte and is not answered.
pub fn tail() -> Vec<u8> {
    let mut asked = asking(
        ASKS_RENAME,
        &[&[0, 1, 2, 3, 4], &fixed::fresh()],
        String::new(),
    );
    asked.question.pop();
    asked.question
}

/// A question: its first byte, and what stands behind it, part by part.
fn asking(asks: u8, parts: &[&[u8]], front: String) -> Asked {
    let mut question = vec![asks];
    for part in parts {
        question.extend_from_slice(part);
    }
    Asked { question, front }
}

/// A question of another sort.
fn unknown(asks: u8) -> Asked {
    asking(asks, &[&fixed::fresh()], String::from("unknown"))
}
