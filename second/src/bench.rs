//! The speed of the proved library beside that of the second implementation. A ratio is the
//! second's time over the proved's: 1.0 or more means that the proved code is at least as fast.
//!
//! bench [PROCESSES]   the tables, over so many processes, at least 7; 16 if none is given
//! bench once          the rows of one process
//!
//! Where the stack lies in a process moves a ratio by a tenth, in a few places by far more. So the
//! same measures are taken in several processes, one after the other, each with its stack in
//! another place. A table has the median over the processes, and the lowest ratio beside it.

mod bench_inputs;
mod bench_measures;

use bench_measures::Table;
use std::env;
use std::process::{exit, Command, Stdio};

const PROCESSES: usize = 16;
const LEAST_PROCESSES: usize = 7;

/// What one process says of one measure: the nanoseconds that a unit takes on each side.
struct Row {
    table: String,
    name: String,
    proved: f64,
    second: f64,
}

/// A row from its line: table, name, proved, second, with tabs between.
fn row(line: &str) -> Option<Row> {
    let cells: Vec<&str> = line.split('\t').collect();
    match cells[..] {
        [table, name, proved, second] => Some(Row {
            table: table.to_string(),
            name: name.to_string(),
            proved: proved.parse().ok()?,
            second: second.parse().ok()?,
        }),
        _ => None,
    }
}

/// Bytes for the environment, below which the stack begins. The processes are spread over a page of
/// 256 places, 16 bytes apart. The step is odd, so that every place in a cache line has its turn.
fn padding(process: usize, processes: usize) -> String {
    let step = 256 / processes | 1;
    "x".repeat(16 * (step * process % 256))
}

/// The rows of one process, or why there are none.
fn process_rows(padding: String) -> Result<Vec<Row>, String> {
    let program = env::current_exe().map_err(|error| error.to_string())?;
    let child = Command::new(program)
        .arg("once")
        .env("BENCH_PADDING", padding)
        .stderr(Stdio::inherit())
        .output()
        .map_err(|error| error.to_string())?;
    if !child.status.success() {
        return Err(child.status.to_string());
    }
    let lines = String::from_utf8_lossy(&child.stdout);
    let rows: Option<Vec<Row>> = lines.lines().map(row).collect();
    rows.ok_or("a line is no row".to_string())
}

fn same_measures(one: &[Row], other: &[Row]) -> bool {
    let names = one.iter().map(|row| &row.name);
    names.eq(other.iter().map(|row| &row.name))
}

/// The rows of every process, which must be of the same measures.
fn all_rows(processes: usize) -> Result<Vec<Vec<Row>>, String> {
    let mut all: Vec<Vec<Row>> = Vec::new();
    for process in 0..processes {
        eprintln!("process {} of {}", process + 1, processes);
        all.push(process_rows(padding(process, processes))?);
        if !same_measures(&all[process], &all[0]) {
            return Err("the measures differ".to_string());
        }
    }
    Ok(all)
}

/// A value of a measure in each process, in rising order.
fn sorted(rows: &[&Row], value: fn(&Row) -> f64) -> Vec<f64> {
    let mut values: Vec<f64> = rows.iter().map(|row| value(row)).collect();
    values.sort_by(|a, b| a.total_cmp(b));
    values
}

/// The median over the processes, between the middle two where their number is even.
fn median(rows: &[&Row], value: fn(&Row) -> f64) -> f64 {
    let values = sorted(rows, value);
    let (low, high) = ((values.len() - 1) / 2, values.len() / 2);
    (values[low] + values[high]) / 2.0
}

/// One measure: how many of the unit each side does in a second, and the ratios.
fn print_speed(rows: &[&Row]) {
    println!(
        "| {} | {:.0} | {:.0} | {:.2} | {:.2} |",
        rows[0].name,
        median(rows, |row| 1e9 / row.proved),
        median(rows, |row| 1e9 / row.second),
        median(rows, |row| row.second / row.proved),
        sorted(rows, |row| row.second / row.proved)[0],
    );
}

/// One measure: the nanoseconds that a unit takes on each side.
fn print_time(rows: &[&Row]) {
    println!(
        "| {} | {:.1} | {:.1} |",
        rows[0].name,
        median(rows, |row| row.proved),
        median(rows, |row| row.second),
    );
}

/// The measures of one table, each with its rows of all processes.
fn print_table(all: &[Vec<Row>], table: Table, print: fn(&[&Row])) {
    for measure in 0..all[0].len() {
        let rows: Vec<&Row> = all.iter().map(|rows| &rows[measure]).collect();
        if rows[0].table == table {
            print(&rows);
        }
    }
}

fn print_tables(all: &[Vec<Row>]) {
    println!(
        "Both sides through the flat functions, in turn: {} processes, {} rounds in each, seed {}.",
        all.len(),
        bench_measures::ROUNDS,
        bench_inputs::SEED
    );
    println!("Ratio: the second's time over the proved's. In brackets: how many judged actions of");
    println!("100 are leader shrinks or leader expands; and in how many accepted actions of 100");
    println!("weak ISR had not failed before, since later neither side asks it in that run.\n");
    println!(
        "| measure | proved, per second | second, per second | ratio, median | ratio, lowest |"
    );
    println!("|---|---|---|---|---|");
    print_table(all, bench_measures::SPEEDS, print_speed);
    println!("\nNanoseconds per action judged, by the length of the run, median.\n");
    println!("| runs | proved | second |");
    println!("|---|---|---|");
    print_table(all, bench_measures::LENGTHS, print_time);
}

fn compare_speeds(processes: usize) {
    match all_rows(processes) {
        Ok(all) => print_tables(&all),
        Err(why) => {
            eprintln!("bench: a process failed: {}", why);
            exit(1);
        }
    }
}

fn main() {
    let arguments: Vec<String> = env::args().skip(1).collect();
    let numbers: Vec<Option<usize>> = arguments.iter().map(|one| one.parse().ok()).collect();
    match numbers[..] {
        [] => compare_speeds(PROCESSES),
        [Some(processes)] if processes >= LEAST_PROCESSES => compare_speeds(processes),
        [None] if arguments[0] == "once" => bench_measures::print_rows(),
        _ => {
            eprintln!(
                "usage: second/speed [PROCESSES], at least {}",
                LEAST_PROCESSES
            );
            exit(2);
        }
    }
}
