//! Inputs for the fuzzers to start from, and a list of whole records for them to put in:
//! seeds FOLDER

use harness::layout::action_record;
use harness::random::Random;
use harness::{answers, course, draw};
use std::fs;
use std::io;
use std::path::Path;

fn write_seeds(folder: &Path, random: &mut Random) -> io::Result<()> {
    let (runs, images) = (folder.join("judge"), folder.join("image"));
    fs::create_dir_all(&runs)?;
    fs::create_dir_all(&images)?;
    for i in 0..200 {
        let length = random.below(60);
        let run = course::run(random, length);
        fs::write(runs.join(format!("run{}", i)), &run)?;
        let states = [
            ("reached", answers::judge(&run).state),
            ("drawn", draw::valid_state(random)),
            ("full", draw::full_state(random, 5)),
        ];
        for (name, state) in states {
            if let Ok(image) = answers::image(&state) {
                fs::write(images.join(format!("{}{}", name, i)), image)?;
            }
        }
    }
    Ok(())
}

/// One word per line, every byte escaped.
fn word(bytes: &[u8]) -> String {
    let escaped: String = bytes
        .iter()
        .map(|byte| format!("\\x{:02X}", byte))
        .collect();
    format!("\"{}\"\n", escaped)
}

/// Every action of three replicas and three epochs as a record, and the marks.
fn words() -> String {
    let mut all = word(b"KA") + &word(b"KC") + &word(b"KS") + &word(b"KC\x03\x04\x04\x03");
    if let Ok(state) = answers::fresh([3, 4, 4, 2]) {
        for kind in 0..9 {
            for action in course::actions_of_kind(&state, kind) {
                all += &word(&action_record(action));
            }
        }
    }
    all
}

fn main() -> io::Result<()> {
    let folder = match std::env::args().nth(1) {
        Some(folder) => folder,
        None => return Err(io::Error::new(io::ErrorKind::InvalidInput, "seeds FOLDER")),
    };
    let folder = Path::new(&folder);
    write_seeds(folder, &mut Random::named(1, "seeds"))?;
    fs::write(folder.join("words"), words())
}
