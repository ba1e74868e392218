//! Times crossbeam-epoch and the drop-in for it, one beside the other in each of many short rounds,
//! which begin with each of them in turn. So what else the machine does meets both alike: a ratio
//! is that of a round, and the median of all rounds is printed, with the quarter and three quarters.
//! Times are processor time of the threads that work, in nanoseconds a step.
//!
//! Use: bench/crossbeam/run [ROUNDS] [WORD OF A ROW]

mod clock;
mod here;
mod there;

use std::env;
use std::process::Command;

const STALL_THERE: &str = "--stall-there";
const STALL_HERE: &str = "--stall-here";

/// A row: what is timed, on how many threads, and the same of both crates.
struct Row {
    what: &'static str,
    threads: u64,
    here: fn(u64) -> f64,
    there: fn(u64) -> f64,
}

macro_rules! rows {
    ($(($what:literal, $program:ident, $threads:literal)),* $(,)?) => {
        vec![$(Row {
            what: $what,
            threads: $threads,
            here: here::$program,
            there: there::$program,
        }),*]
    };
}

fn rows() -> Vec<Row> {
    rows![
        ("pin and unpin", pin_and_unpin, 1),
        ("pin and unpin", pin_and_unpin, 4),
        ("pin and unpin, by epoch::pin", pin_by_default, 1),
        ("a nested pin", pin_nested, 1),
        ("a nested pin, by epoch::pin", pin_nested_by_default, 1),
        ("repin", repin, 1),
        ("a read beside an updater", read_beside_updater, 4),
        ("pin and defer nothing", defer_nothing, 1),
        ("pin and flush nothing", flush_nothing, 1),
        ("pin, allocate, defer_destroy", defer_destroy, 1),
        ("pin, allocate, defer_destroy", defer_destroy, 2),
        ("pin, allocate, defer_destroy", defer_destroy, 4),
        ("stack, push and pop", stack, 1),
        ("stack, push and pop", stack, 2),
        ("stack, push and pop", stack, 4),
        ("queue, push and pop", queue, 1),
        ("queue, push and pop", queue, 2),
        ("queue, push and pop", queue, 4),
        ("a collector, a handle, a pin", new_collector, 1),
        ("the same, 500 there at a time", many_collectors, 1),
        ("a handle, a pin", new_handle, 1),
    ]
}

/// The value at a part of the sorted row.
fn part(sorted: &[f64], of: f64) -> f64 {
    sorted[((sorted.len() - 1) as f64 * of).round() as usize]
}

fn sorted(mut row: Vec<f64>) -> Vec<f64> {
    row.sort_by(f64::total_cmp);
    row
}

fn time(row: &Row, rounds: usize) {
    let (mut here, mut there) = (Vec::new(), Vec::new());
    for round in 0..rounds {
        if round % 2 == 0 {
            there.push((row.there)(row.threads));
            here.push((row.here)(row.threads));
        } else {
            here.push((row.here)(row.threads));
            there.push((row.there)(row.threads));
        }
    }
    let ratios = sorted(
        here.iter()
            .zip(&there)
            .map(|(here, there)| here / there)
            .collect(),
    );
    println!(
        "{:30} {} | {:9.1} {:9.1} | {:5.2} ({:.2} to {:.2})",
        row.what,
        row.threads,
        part(&sorted(there), 0.5),
        part(&sorted(here), 0.5),
        part(&ratios, 0.5),
        part(&ratios, 0.25),
        part(&ratios, 0.75),
    );
}

/// What this program prints with the word, in a process with no memory that it used before.
fn in_a_process(word: &str) -> f64 {
    let own = env::current_exe().expect("this program has a path");
    let ran = Command::new(own).arg(word).output().expect("it runs");
    let told = String::from_utf8_lossy(&ran.stdout);
    told.trim().parse().expect("it prints a number")
}

fn main() {
    let mut words = env::args().skip(1);
    match env::args().nth(1).as_deref() {
        Some(STALL_THERE) => return println!("{}", there::memory_of_a_stall()),
        Some(STALL_HERE) => return println!("{}", here::memory_of_a_stall()),
        _ => {}
    }
    let rounds = words
        .next()
        .map_or(Ok(15), |it| it.parse())
        .expect("a number of rounds");
    let wanted = words.next().unwrap_or_default();
    println!("what, on how many threads |     there      here |  here / there (its quarters)");
    for row in rows().iter().filter(|it| it.what.contains(&wanted)) {
        time(row, rounds);
    }
    let kept = [there::most_kept(), here::most_kept()];
    println!(
        "alive at most, one thread in a loop | {} there, {} here",
        kept[0], kept[1]
    );
    let [there, here] = [STALL_THERE, STALL_HERE].map(in_a_process);
    println!(
        "bytes for each that a pinned thread holds up | {there:.0} there, {here:.0} here, {:.2}",
        here / there
    );
}
