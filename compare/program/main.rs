//! Runs the linked library beside the reference on the repository's cases, on the laws between the
//! calls, on each call's sweep and on drawn inputs, and ends at the first difference. The head of
//! `compare/run` has the arguments.

use compare::answer::Implementation;
use compare::beside;
use compare::cases::{self, ForC};
use compare::damage::{Damage, Damaged, DAMAGES};
use compare::generate::{Call, CALLS};
use compare::jobs::{self, Job, Said};
use compare::laws::{self, Tally};
use compare::linked::Linked;
use compare::reference::Reference;
use compare::report;
use std::fmt::Write as _;
use std::io::Write as _;
use std::ops::Range;
use std::process::ExitCode;
use std::time::Instant;

/// So many inputs are drawn for each call and each law, unless the arguments say how many.
const INPUTS: u64 = 20_000;

/// So many of the drawn inputs must find a damage.
const FINDS: usize = 20;

#[derive(Clone, Copy)]
struct Options {
    inputs: u64,
    first: u64,
    call: Option<Call>,
    damage: Option<Damage>,
    answers: bool,
    trace: bool,
    show: bool,
    cases: bool,
    table: bool,
    sweep: Option<usize>,
}

fn options() -> Result<Options, String> {
    let mut options = Options {
        inputs: INPUTS,
        first: 0,
        call: None,
        damage: None,
        answers: false,
        trace: false,
        show: false,
        cases: false,
        table: false,
        sweep: None,
    };
    for argument in std::env::args().skip(1) {
        let (key, value) = argument.split_once('=').unwrap_or((&argument, ""));
        let number = || value.parse().map_err(|_| format!("no number: {argument}"));
        match key {
            "inputs" => options.inputs = number()?,
            "first" => options.first = number()?,
            "call" => options.call = Some(named("call", value, CALLS, Call::name)?),
            "damage" => options.damage = Some(named("damage", value, DAMAGES, Damage::name)?),
            "answers" => options.answers = true,
            "trace" => options.trace = true,
            "show" => options.show = true,
            "cases" => options.cases = true,
            "table" => options.table = true,
            "sweep" => options.sweep = Some(number()? as usize),
            _ => return Err(format!("no option: {argument}")),
        }
    }
    Ok(options)
}

/// The one of some things that has a name.
fn named<T: Copy, const N: usize>(
    what: &str,
    name: &str,
    all: [T; N],
    name_of: fn(T) -> &'static str,
) -> Result<T, String> {
    let found = all.into_iter().find(|&one| name_of(one) == name);
    found.ok_or_else(|| {
        let names = all.map(name_of).join(", ");
        format!("no {what} {name}; there are {names}")
    })
}

fn main() -> ExitCode {
    match options().and_then(work) {
        Ok(()) => ExitCode::SUCCESS,
        Err(message) => {
            eprintln!("{message}");
            ExitCode::FAILURE
        }
    }
}

fn work(options: Options) -> Result<(), String> {
    if options.table {
        let tables = cases::tables(&Reference::default())?;
        let written = std::io::stdout().write_all(&tables);
        return written.map_err(|error| error.to_string());
    }
    if options.show {
        let calls = options.call.map_or(CALLS.to_vec(), |call| vec![call]);
        for call in calls {
            show(call, &options);
        }
        return Ok(());
    }
    jobs::run(jobs_of(options), |lines| print!("{lines}"))
}

/// What the arguments ask for, in the order in which it is printed.
fn jobs_of(options: Options) -> Vec<Job> {
    if options.cases {
        return vec![
            Box::new(|| check_cases(&Reference::default())),
            Box::new(|| check_cases(&Linked)),
        ];
    }
    if let Some(damage) = options.damage {
        let call = damage.call();
        return vec![Box::new(move || {
            compare_call(&Linked, &Damaged::new(damage), call, &options)
        })];
    }
    let compare = |call| -> Job {
        Box::new(move || compare_call(&Reference::default(), &Linked, call, &options))
    };
    if let Some(call) = options.call {
        return vec![compare(call)];
    }
    let mut jobs: Vec<Job> = vec![
        Box::new(move || check_alone(&Reference::default(), &options)),
        Box::new(move || check_alone(&Linked, &options)),
    ];
    jobs.extend(CALLS.map(compare));
    jobs.extend(DAMAGES.map(|damage| -> Job { Box::new(move || find_damage(damage, &options)) }));
    jobs
}

/// The drawn inputs' seeds.
fn seeds(options: &Options) -> Range<u64> {
    options.first..options.first + options.inputs
}

/// Compares a call of two implementations.
fn compare_call(
    first: &dyn Implementation,
    second: &dyn Implementation,
    call: Call,
    options: &Options,
) -> Said {
    let start = Instant::now();
    let inputs = beside::swept(call);
    let swept = beside::compare(first, second, call, inputs, options.trace)?;
    let inputs = beside::drawn(call, seeds(options));
    let drawn = beside::compare(first, second, call, inputs, options.trace)?;
    let mut said = format!(
        "{:<16}{:>8} inputs in order, {:>8} drawn: no difference ({:.1} s)\n",
        call.name(),
        swept.inputs(),
        drawn.inputs(),
        start.elapsed().as_secs_f64()
    );
    if options.answers {
        said += &(swept.lines() + &drawn.lines());
    }
    Ok(said)
}

/// The cases, by one implementation alone.
fn check_cases(calls: &dyn ForC) -> Said {
    let start = Instant::now();
    let cases = cases::check(calls)?;
    let (name, seconds) = (calls.name(), start.elapsed().as_secs_f64());
    Ok(format!("{name}: {cases} cases hold ({seconds:.1} s)\n"))
}

/// The cases and the laws, by one implementation alone.
fn check_alone(calls: &dyn ForC, options: &Options) -> Said {
    let start = Instant::now();
    let cases = cases::check(calls)?;
    let mut tally = Tally::default();
    for seed in seeds(options) {
        laws::words_of_sheet(seed)?;
        laws::round_trip(calls, seed, &mut tally)?;
        laws::swap_and_join(calls, seed, &mut tally)?;
    }
    let (name, seconds) = (calls.name(), start.elapsed().as_secs_f64());
    let mut said = format!("{name}: {cases} cases and the laws hold ({seconds:.1} s)\n");
    if options.answers {
        writeln!(said, "  {tally:?}").expect("a string grows");
    }
    Ok(said)
}

/// The comparison itself: enough of the drawn inputs must find a damage.
fn find_damage(damage: Damage, options: &Options) -> Said {
    let inputs = beside::drawn(damage.call(), seeds(options));
    let until = beside::inputs_until(FINDS, &Linked, &Damaged::new(damage), inputs);
    let name = damage.name();
    match until {
        Some(inputs) => Ok(format!(
            "damage {name}: found by {FINDS} of {inputs} inputs\n"
        )),
        None => Err(format!(
            "damage {name}: fewer than {FINDS} of {} inputs find it",
            options.inputs
        )),
    }
}

/// Prints one input of a call and what the reference and the library answer.
fn show(call: Call, options: &Options) {
    let found = match options.sweep {
        Some(index) => beside::swept(call).nth(index),
        None => beside::drawn(call, options.first..options.first + 1).next(),
    };
    let Some((source, input)) = found else {
        return println!("{}: no such input", call.name());
    };
    print!("{}, {source}\n{}", call.name(), report::show(&input));
    let reference = Reference::default();
    let answer = beside::run(&reference, &input).answer;
    println!("reference: {answer:?} {}", reference.why());
    println!("library: {:?}", beside::run(&Linked, &input).answer);
}
