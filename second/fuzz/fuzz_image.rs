//! Any bytes as an image, read by both implementations; where they read, writing must give the same
//! bytes back. A difference stops the fuzzer.

use harness::layout::{LONGEST_IMAGE, STATE};
use second::flat;
use std::process::abort;

/// # Safety
/// `data` points to `length` bytes.
#[no_mangle]
#[allow(non_snake_case)]
pub unsafe extern "C" fn LLVMFuzzerTestOneInput(data: *const u8, length: usize) -> i32 {
    let bytes = proved::given(data, length);
    let (mut left, mut right) = ([0; STATE], [0; STATE]);
    let numbers = (
        proved::read_image(bytes, &mut left),
        flat::read_image(bytes, &mut right),
    );
    if numbers.0 != numbers.1 || left != right {
        println!(
            "difference: read_image\n  proved {} {:02X?}",
            numbers.0, left
        );
        println!("  second {} {:02X?}", numbers.1, right);
        abort();
    }
    if numbers.1 == 0 {
        written_back(&right, bytes);
    }
    0
}

/// Both write the state's image, and it is the bytes that were read.
fn written_back(state: &[u8], bytes: &[u8]) {
    let (mut left, mut right) = ([0; LONGEST_IMAGE], [0; LONGEST_IMAGE]);
    let proved = proved::write_image(state, &mut left);
    let second = flat::write_image(state, &mut right);
    let same = proved == second && left == right;
    if !same || second as usize != 256 * bytes.len() || &right[..bytes.len()] != bytes {
        println!("difference: write_image\n  proved {} {:02X?}", proved, left);
        println!("  second {} {:02X?}", second, right);
        abort();
    }
}
