//! Measures the calls of the linked library beside libxml2 and the implementation in Rust, on the
//! same bytes in one run.
//!
//!     bench                  times, then instructions
//!     bench times            times alone
//!     bench instructions     instructions alone
//!     bench under-callgrind  what the program runs itself as, to count instructions

mod check;
mod forms;
mod measure;
mod schema;
mod table;
mod tasks;
#[cfg_attr(not(libxml2), path = "no_xml.rs")]
mod xml;

use measure::{Task, Value};
use std::path::Path;
use std::process::ExitCode;
use table::{Measured, Results, Unit};
use tasks::{Row, Tables};

const UNDER_CALLGRIND: &str = "under-callgrind";

fn main() -> ExitCode {
    let argument = std::env::args().nth(1).unwrap_or_default();
    measure::keep_memory();
    if argument == UNDER_CALLGRIND {
        for row in tasks::tables().rows() {
            measure::count(&mut tasks_of(row));
        }
        return ExitCode::SUCCESS;
    }
    match work(&argument) {
        Ok(()) => ExitCode::SUCCESS,
        Err(message) => {
            eprintln!("{message}");
            ExitCode::FAILURE
        }
    }
}

fn work(argument: &str) -> Result<(), String> {
    let (times, instructions) = match argument {
        "" => (true, true),
        "times" => (true, false),
        "instructions" => (false, true),
        _ => return Err(format!("no option: {argument}")),
    };
    println!("{}", machine());
    match xml::version() {
        Some(version) => println!("libxml2 {version}"),
        None => println!("libxml2 isn't installed: its columns and ratios aren't measured"),
    }
    println!("the same by all that are measured: {}\n", check::check()?);
    if times {
        show(&by_time());
    }
    if instructions {
        match by_instructions().map_err(|error| error.to_string())? {
            Some(results) => show(&results),
            None => println!("valgrind isn't installed: instructions aren't counted"),
        }
    }
    Ok(())
}

/// What the system says of its processor, and how busy it is.
fn machine() -> String {
    let file = |path: &str| std::fs::read_to_string(path).unwrap_or_default();
    let information = file("/proc/cpuinfo");
    let model = information
        .lines()
        .find_map(|line| line.strip_prefix("model name"))
        .map_or("an unnamed processor", |rest| {
            rest.trim_matches([' ', '\t', ':'])
        });
    let load = file("/proc/loadavg");
    let load = load.split(' ').next().unwrap_or_default();
    let cores = std::thread::available_parallelism().map_or(0, usize::from);
    format!("{model}, {cores} cores; load in the last minute: {load}")
}

fn show(results: &Results) {
    println!("{}", results.text());
    println!("Goals, by {}", results.unit.thousands());
    for goal in results.goals() {
        println!("{}", goal.line());
    }
    println!();
}

fn tasks_of(row: &mut Row) -> Vec<&mut dyn Task> {
    let tasks = row.tasks.iter_mut();
    tasks
        .map(|(_, task)| &mut **task as &mut dyn Task)
        .collect()
}

/// Puts measured rows together; a row gives its values.
fn results(
    unit: Unit,
    mut tables: Tables,
    mut values: impl FnMut(&mut Row) -> Vec<Value>,
) -> Results {
    let mut measured = |rows: &mut Vec<Row>| -> Vec<Measured> {
        let row = |row: &mut Row| {
            let values = values(row);
            Measured::new(row, values.into_iter())
        };
        rows.iter_mut().map(row).collect()
    };
    Results {
        unit,
        forms: measured(&mut tables.forms),
        sheets: measured(&mut tables.sheets),
        names: measured(&mut tables.names),
        joins: measured(&mut tables.joins),
    }
}

fn by_time() -> Results {
    let values = |row: &mut Row| measure::times(&mut tasks_of(row));
    results(Unit::Nanoseconds, tasks::tables(), values)
}

/// The counts of a run under callgrind, dealt out to the rows in the order of that run.
fn by_instructions() -> std::io::Result<Option<Results>> {
    let folder = Path::new(env!("CARGO_MANIFEST_DIR")).join("target");
    let Some(counts) = measure::instructions(&[UNDER_CALLGRIND], &folder)? else {
        return Ok(None);
    };
    let mut counts = counts.into_iter();
    let values = |row: &mut Row| counts.by_ref().take(row.tasks.len()).collect();
    let results = results(Unit::Instructions, tasks::tables(), values);
    Ok(Some(results))
}
