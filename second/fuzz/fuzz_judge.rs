//! Any bytes as a run, judged by both implementations. A difference stops the fuzzer.

use harness::layout::VERDICT;
use second::flat;
use std::process::abort;

/// # Safety
/// `data` points to `length` bytes.
#[no_mangle]
#[allow(non_snake_case)]
pub unsafe extern "C" fn LLVMFuzzerTestOneInput(data: *const u8, length: usize) -> i32 {
    let run = proved::given(data, length);
    let (mut left, mut right) = ([0; VERDICT], [0; VERDICT]);
    let numbers = (proved::judge(run, &mut left), flat::judge(run, &mut right));
    if numbers.0 != numbers.1 || left != right {
        println!("difference: judge\n  proved {} {:02X?}", numbers.0, left);
        println!("  second {} {:02X?}", numbers.1, right);
        abort();
    }
    0
}
