//! What the program `runcheck` prints of a run.

use crate::images::write_image;
use crate::run::judge;

/// Bytes in capitals, as images and states are printed.
pub fn hex(bytes: &[u8]) -> String {
    const DIGITS: &[u8; 16] = b"0123456789ABCDEF";
    let mut text = String::with_capacity(2 * bytes.len());
    for byte in bytes {
        text.push(DIGITS[usize::from(byte >> 4)].into());
        text.push(DIGITS[usize::from(byte & 15)].into());
    }
    text
}

/// What `runcheck` prints of a run: seven lines.
pub fn listing(run: &[u8]) -> String {
    let verdict = judge(run);
    let mut text = String::new();
    text.push_str(&format!("accepted {}\n", verdict.accepted));
    text.push_str(&format!("refusal {}\n", verdict.refusal));
    text.push_str(&format!("at {}\n", verdict.at));
    text.push_str(&format!("weak {}\n", verdict.weak));
    text.push_str(&format!("strong {}\n", verdict.strong));
    text.push_str(&format!("exposed {}\n", verdict.exposed));
    match write_image(&verdict.state) {
        Ok(image) => text.push_str(&format!("state {}\n", hex(image.as_slice()))),
        // The all-zero state has no image: no configuration was accepted.
        Err(_) => text.push_str("state none\n"),
    }
    text
}
