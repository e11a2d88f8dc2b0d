//! The program `runcheck`: runs piped through it, and all that it prints compared with the second
//! implementation's text.

use harness::course;
use harness::draw;
use harness::random::Random;
use second::printed::{hex, listing};
use std::io::{self, Write};
use std::process::{Command, Stdio};
use std::thread;

pub const MOST_DIFFERENCES: u64 = 20;

/// All that the program prints of an input, which is written from a thread of its own, so that
/// neither side waits for the other.
pub fn printed(path: &str, input: &[u8]) -> io::Result<Vec<u8>> {
    let mut child = Command::new(path)
        .stdin(Stdio::piped())
        .stdout(Stdio::piped())
        .spawn()?;
    let stdin = child.stdin.take();
    let bytes = input.to_vec();
    let writer = thread::spawn(move || {
        if let Some(mut stdin) = stdin {
            // A program may stop reading early; what it prints is compared all the same.
            let _ = stdin.write_all(&bytes);
        }
    });
    let output = child.wait_with_output()?;
    let _ = writer.join();
    if output.status.code().is_none() {
        return Err(io::Error::new(
            io::ErrorKind::Other,
            "the program was stopped by a signal",
        ));
    }
    Ok(output.stdout)
}

/// A run of any sort: whole, damaged, about as long as a run may be, or any bytes.
fn any_run(random: &mut Random) -> Vec<u8> {
    let length = course::run_length(random);
    let run = course::run(random, length);
    match random.below(20) {
        0 => draw::lengthened_run(random, &run),
        1..=7 => draw::damaged_run(random, &run),
        8 => run[..random.below(7)].to_vec(),
        _ => run,
    }
}

/// Pipes so many runs through the program; answers whether all were printed alike.
pub fn check_runcheck(path: &str, seed: u64, count: u64) -> io::Result<bool> {
    let mut random = Random::named(seed, "runcheck");
    let (mut runs, mut bytes, mut differences) = (0, 0, 0);
    while runs < count && differences < MOST_DIFFERENCES {
        let run = any_run(&mut random);
        let (found, expected) = (printed(path, &run)?, listing(&run));
        runs += 1;
        bytes += run.len();
        if found != expected.as_bytes() {
            println!("difference: {} of {} bytes", path, run.len());
            println!("  run {}", hex(&run));
            println!("  printed\n{}", String::from_utf8_lossy(&found));
            println!("  expected\n{}", expected);
            differences += 1;
        }
    }
    println!(
        "runcheck: {} runs ({} bytes), {} differences",
        runs, bytes, differences
    );
    Ok(differences == 0 && runs > 0)
}
