//! The program `answers`: drawn questions piped through it, many at a time, and every line that it
//! prints compared with the second implementation's.

use crate::asking::Questions;
use crate::members::NAMING;
use crate::programs::{printed, MOST_DIFFERENCES};
use harness::random::Random;
use second::printed::hex;
use second::replies::{replies, whole_questions};
use std::collections::BTreeMap;
use std::io;

const BATCH: u64 = 2_000;

/// The numbers of the state rules.
const RULES: &[u8] = &[41, 42, 43, 44, 45, 46, 47];

/// The sorts of lines, and the numbers of each: all of them must be met, and no other.
const SORTS: [(&str, &[&[u8]]); 27] = [
    ("fresh", &[&[0, 22]]),
    ("rule", &[&[0], RULES]),
    ("act of kind 0", &[&[0, 3, 4, 5], RULES]),
    ("act of kind 1", &[&[0, 3, 4, 5, 6], RULES]),
    ("act of kind 2", &[&[0, 3, 7, 8, 9], RULES]),
    ("act of kind 3", &[&[0, 3, 7, 8, 9], RULES]),
    ("act of kind 4", &[&[0, 3, 10, 11, 12], RULES]),
    ("act of kind 5", &[&[0, 3, 5, 13, 14, 15], RULES]),
    ("act of kind 6", &[&[0, 3, 6, 13, 16], RULES]),
    ("act of kind 7", &[&[0, 3, 10], RULES]),
    ("act of kind 7 naming 0", &[&NAMING]),
    ("act of kind 7 naming 1", &[&NAMING]),
    ("act of kind 7 naming 2", &[&NAMING]),
    ("act of kind 7 naming 3", &[&NAMING]),
    ("act of kind 7 naming 4", &[&NAMING]),
    ("act of kind 8", &[&[0, 3, 10, 18, 19], RULES]),
    ("act of another kind", &[&[2], RULES]),
    ("rename", &[&[0, 27], RULES]),
    ("representative", &[&[0], RULES]),
    ("weak that holds", &[&[0]]),
    ("weak that does not hold", &[&[0], RULES]),
    ("strong that holds", &[&[0]]),
    ("strong that does not hold", &[&[0], RULES]),
    ("offer", &[&[0, 2, 26], RULES]),
    ("write", &[&[0, 24], RULES]),
    ("read", &[&[0, 20, 21, 22, 23], RULES]),
    ("unknown", &[&[0]]),
];

/// The sort of a question's line, and the line's number.
fn sort(question: &[u8], line: &str) -> (String, u8) {
    let words: Vec<&str> = line.split(' ').collect();
    let number = words.get(1).and_then(|word| word.parse().ok());
    let number = number.unwrap_or(0);
    let sort = match words[0] {
        "act" if question[1] >= 9 => String::from("act of another kind"),
        "act" if NAMING.contains(&number) => {
            format!("act of kind {} naming {}", question[1], words[2])
        }
        "act" => format!("act of kind {}", question[1]),
        name @ ("weak" | "strong") if words[2] == "1" => format!("{} that holds", name),
        name @ ("weak" | "strong") => format!("{} that does not hold", name),
        name => String::from(name),
    };
    (sort, number)
}

/// How often each number was met in each sort of lines.
type Met = BTreeMap<(String, u8), u64>;

/// A line for each sort: how many there were, and how many of each number.
fn print_counts(met: &Met) {
    for (name, _) in SORTS {
        let (mut total, mut each) = (0, Vec::new());
        for ((_, number), count) in met.iter().filter(|((sort, _), _)| sort == name) {
            total += count;
            each.push(format!("{}: {}", number, count));
        }
        println!("  {}: {} ({})", name, total, each.join(", "));
    }
}

/// Names each number of a sort that was not met, and each that was met and is none of its sort;
/// answers whether there is neither.
fn as_listed(met: &Met) -> bool {
    let mut listed = Vec::new();
    for (name, lists) in SORTS {
        for &number in lists.iter().copied().flatten() {
            listed.push((String::from(name), number));
        }
    }
    let never: Vec<_> = listed.iter().filter(|key| !met.contains_key(key)).collect();
    let wrongly: Vec<_> = met.keys().filter(|key| !listed.contains(key)).collect();
    for (name, number) in &never {
        println!("never met: {} {}", name, number);
    }
    for (name, number) in &wrongly {
        println!("met, and not listed: {} {}", name, number);
    }
    never.is_empty() && wrongly.is_empty()
}

/// Prints where the lines differ, and answers in how many.
fn differing_lines(path: &str, questions: &[&[u8]], found: &str, expected: &str) -> u64 {
    let found: Vec<&str> = found.split_inclusive('\n').collect();
    let expected: Vec<&str> = expected.split_inclusive('\n').collect();
    let mut differences = 0;
    for i in 0..found.len().max(expected.len()) {
        let (one, other) = (found.get(i), expected.get(i));
        if one != other && differences < MOST_DIFFERENCES {
            let question = questions.get(i).copied().unwrap_or_default();
            println!("difference: {}", path);
            println!("  question {}", hex(question));
            println!("  printed  {:?}", one.unwrap_or(&"no line"));
            println!("  expected {:?}", other.unwrap_or(&"no line"));
            differences += 1;
        }
    }
    differences
}

/// Pipes so many questions through the program; answers whether every line was printed alike and
/// the numbers of every sort were met, and no other.
pub fn check_answers(path: &str, seed: u64, count: u64) -> io::Result<bool> {
    let mut drawn = Questions::new(Random::named(seed, "answers"));
    let (mut asked, mut differences) = (0, 0);
    let mut met = Met::new();
    while asked < count && differences < MOST_DIFFERENCES {
        let some = BATCH.min(count - asked);
        let batch = drawn.batch(some);
        let (found, expected) = (printed(path, &batch)?, replies(&batch));
        let questions = whole_questions(&batch);
        asked += some;
        for (question, line) in questions.iter().zip(expected.lines()) {
            *met.entry(sort(question, line)).or_insert(0) += 1;
        }
        if found != expected.as_bytes() {
            let found = String::from_utf8_lossy(&found);
            differences += differing_lines(path, &questions, &found, &expected);
        }
    }
    println!("answers: {} questions, {} differences", asked, differences);
    print_counts(&met);
    Ok(as_listed(&met) && differences == 0)
}
