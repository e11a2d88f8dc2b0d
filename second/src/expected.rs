//! Makes the expected outputs of the repository again, from the second implementation alone:
//! expected [--check]
//!
//! The present folder is that of the repository. Files that differ are written, and named; with
//! --check they are only named, and the program exits 1 if there is one.

mod asked;

use second::printed::listing;
use second::replies::{replies, reply};
use std::fs;
use std::io;
use std::path::{Path, PathBuf};
use std::process::exit;

const CASES: &str = "cases";
const RUNCHECK: &str = "crates/runcheck";
const ANSWERS: &str = "crates/answers";

/// A file and what it must hold.
struct Output {
    path: PathBuf,
    content: Vec<u8>,
}

impl Output {
    fn new(path: PathBuf, content: impl Into<Vec<u8>>) -> Output {
        let content = content.into();
        Output { path, content }
    }

    /// What is wrong with the file, if anything is.
    fn fault(&self) -> io::Result<Option<&'static str>> {
        match fs::read(&self.path) {
            Ok(found) if found == self.content => Ok(None),
            Ok(_) => Ok(Some("differs")),
            Err(error) if error.kind() == io::ErrorKind::NotFound => Ok(Some("is missing")),
            Err(error) => Err(error),
        }
    }

    fn write(&self) -> io::Result<()> {
        if let Some(folder) = self.path.parent() {
            fs::create_dir_all(folder)?;
        }
        fs::write(&self.path, &self.content)
    }

    /// Names the file if something is wrong with it, and writes it unless it is only to be checked.
    /// Answers whether something was wrong.
    fn settle(&self, check: bool) -> io::Result<bool> {
        let fault = match self.fault()? {
            Some(fault) => fault,
            None => return Ok(false),
        };
        if check {
            println!("{} {}", self.path.display(), fault);
        } else {
            self.write()?;
            println!("{} {}: written", self.path.display(), fault);
        }
        Ok(true)
    }
}

/// The files of a folder whose names end so, in rising order.
fn files(folder: &str, extension: &str) -> io::Result<Vec<PathBuf>> {
    let mut found = Vec::new();
    for entry in fs::read_dir(folder)? {
        let path = entry?.path();
        if path.extension().map_or(false, |end| end == extension) {
            found.push(path);
        }
    }
    found.sort();
    Ok(found)
}

/// What `runcheck` prints of each case, and of its own standard input.
fn listings() -> io::Result<Vec<Output>> {
    let mut all = Vec::new();
    for run in files(CASES, "run")? {
        let text = listing(&fs::read(&run)?);
        all.push(Output::new(run.with_extension("expected"), text));
    }
    let folder = Path::new(RUNCHECK);
    let text = listing(&fs::read(folder.join("stdin"))?);
    all.push(Output::new(folder.join("stdout"), text));
    Ok(all)
}

/// The questions to `answers`, and what it prints. Each line must begin as is listed.
fn questions_and_lines() -> io::Result<[Output; 2]> {
    let mut questions = Vec::new();
    for asked in asked::questions() {
        let line = reply(&asked.question);
        if !begins_with(&line, &asked.front) {
            let told = format!("listed is `{}`, answered `{}`", asked.front, line);
            return Err(io::Error::new(io::ErrorKind::Other, told));
        }
        questions.extend_from_slice(&asked.question);
    }
    questions.extend(asked::tail());
    let (folder, lines) = (Path::new(ANSWERS), replies(&questions));
    Ok([
        Output::new(folder.join("stdin"), questions),
        Output::new(folder.join("stdout"), lines),
    ])
}

/// Whether the first words of a line are these.
fn begins_with(line: &str, front: &str) -> bool {
    match line.strip_prefix(front) {
        Some(rest) => rest.is_empty() || rest.starts_with(' '),
        None => false,
    }
}

/// Names each expected output of the cases that has no run; answers how many there are.
fn without_run() -> io::Result<usize> {
    let mut count = 0;
    for path in files(CASES, "expected")? {
        if !path.with_extension("run").exists() {
            println!("{} has no run", path.display());
            count += 1;
        }
    }
    Ok(count)
}

/// Makes or checks all; answers whether every file is as it must be afterwards.
fn make(check: bool) -> io::Result<bool> {
    let mut outputs = listings()?;
    outputs.extend(questions_and_lines()?);
    let mut wrong = 0;
    for output in &outputs {
        wrong += usize::from(output.settle(check)?);
    }
    let lost = without_run()?;
    let done = if check { "wrong" } else { "written" };
    println!(
        "expected outputs: {}, {} {}, without a run {}",
        outputs.len(),
        done,
        wrong,
        lost
    );
    Ok(lost == 0 && (wrong == 0 || !check))
}

fn main() {
    let words: Vec<String> = std::env::args().skip(1).collect();
    let check = match words.as_slice() {
        [] => false,
        [word] if word == "--check" => true,
        _ => {
            println!("expected [--check]");
            exit(2);
        }
    };
    let good = make(check).unwrap_or_else(|error| {
        println!("expected: {}", error);
        false
    });
    exit(if good { 0 } else { 1 });
}
