//! How a task is measured: by the thread's processor time, or by the instructions that callgrind
//! counts.

use std::io;
use std::path::Path;
use std::process::{Command, Stdio};
use std::time::Duration;

/// What is measured: a call, and what is done after some calls, outside the measurement.
pub trait Task {
    fn call(&mut self);

    fn after(&mut self) {}
}

impl<F: FnMut()> Task for F {
    fn call(&mut self) {
        self()
    }
}

/// A median, and how far apart the middle half of the samples lies, as a part of the median.
#[derive(Clone, Copy)]
pub struct Value {
    pub median: f64,
    pub spread: f64,
}

/// A sample goes on for so long, in stretches at whose ends the clock is read.
const SAMPLE: Duration = Duration::from_millis(4);
const STRETCH: Duration = Duration::from_micros(60);
pub const SAMPLES: usize = 21;

#[repr(C)]
struct Timespec {
    seconds: i64,
    nanoseconds: i64,
}

const THREAD_CPU_TIME: i32 = 3;
const TRIM_THRESHOLD: i32 = -1;
const MMAP_THRESHOLD: i32 = -3;

extern "C" {
    fn clock_gettime(clock: i32, time: *mut Timespec) -> i32;
    fn mallopt(parameter: i32, value: i32) -> i32;
}

/// Lets malloc keep what is freed, so that nobody is charged for fetching pages anew.
pub fn keep_memory() {
    // SAFETY: both set a number.
    unsafe {
        mallopt(TRIM_THRESHOLD, i32::MAX);
        mallopt(MMAP_THRESHOLD, 1 << 30);
    }
}

/// The processor time of this thread.
fn now() -> Duration {
    let mut time = Timespec {
        seconds: 0,
        nanoseconds: 0,
    };
    // SAFETY: the time is written there.
    let failed = unsafe { clock_gettime(THREAD_CPU_TIME, &mut time) };
    assert_eq!(failed, 0, "the thread's clock");
    Duration::new(time.seconds as u64, time.nanoseconds as u32)
}

/// The time of a stretch of calls.
fn stretch(task: &mut dyn Task, calls: u32) -> Duration {
    let start = now();
    for _ in 0..calls {
        task.call();
    }
    let time = now() - start;
    task.after();
    time
}

/// How many calls make a stretch.
fn calls_of_stretch(task: &mut dyn Task) -> u32 {
    let mut calls = 1;
    while stretch(task, calls) < STRETCH {
        calls *= 2;
    }
    calls
}

/// The time of a call in nanoseconds, over one sample.
fn sample(task: &mut dyn Task, calls: u32) -> f64 {
    let mut time = Duration::ZERO;
    let mut stretches = 0;
    while time < SAMPLE {
        time += stretch(task, calls);
        stretches += 1;
    }
    time.as_nanos() as f64 / f64::from(calls * stretches)
}

/// The times of some tasks in nanoseconds. The samples go round, so that what disturbs the machine
/// for a while disturbs all of them.
pub fn times(tasks: &mut [&mut dyn Task]) -> Vec<Value> {
    let calls: Vec<u32> = tasks
        .iter_mut()
        .map(|task| calls_of_stretch(*task))
        .collect();
    let mut samples = vec![Vec::new(); tasks.len()];
    for _ in 0..SAMPLES {
        for (number, task) in tasks.iter_mut().enumerate() {
            samples[number].push(sample(*task, calls[number]));
        }
    }
    samples.into_iter().map(value).collect()
}

fn value(mut samples: Vec<f64>) -> Value {
    samples.sort_by(f64::total_cmp);
    let at = |quarter: usize| samples[(samples.len() - 1) * quarter / 4];
    Value {
        median: at(2),
        spread: (at(3) - at(1)) / at(2),
    }
}

/// callgrind counts inside this function alone, and writes a count at each of its ends.
#[no_mangle]
#[inline(never)]
pub fn bench_counted(task: &mut dyn Task) {
    task.call();
}

/// Runs some tasks once for callgrind, each after a first call that isn't counted.
pub fn count(tasks: &mut [&mut dyn Task]) {
    for task in tasks {
        task.call();
        task.after();
        bench_counted(*task);
        task.after();
    }
}

/// Has the C library fill memory by stores. Its string instruction is one instruction, which callgrind
/// counts once for each byte.
const FILL_BY_STORES: (&str, &str) = (
    "GLIBC_TUNABLES",
    "glibc.cpu.x86_rep_stosb_threshold=1000000",
);

/// The instructions that the tasks take, in their order, counted in a run of this program under
/// callgrind with some arguments; `None` where valgrind isn't installed.
pub fn instructions(arguments: &[&str], folder: &Path) -> io::Result<Option<Vec<Value>>> {
    let out = folder.join("callgrind");
    let (name, value) = FILL_BY_STORES;
    let run = Command::new("valgrind")
        .env(name, value)
        .arg("--tool=callgrind")
        .arg("--toggle-collect=bench_counted")
        .arg("--dump-after=bench_counted")
        .arg(format!("--callgrind-out-file={}", out.display()))
        .arg(std::env::current_exe()?)
        .args(arguments)
        .stdout(Stdio::null())
        .stderr(Stdio::null())
        .status();
    match run {
        Err(error) if error.kind() == io::ErrorKind::NotFound => return Ok(None),
        Err(error) => return Err(error),
        Ok(status) if !status.success() => return Err(io::Error::other("callgrind's run failed")),
        Ok(_) => {}
    }
    let mut counts = Vec::new();
    loop {
        let dump = out.with_extension((counts.len() + 1).to_string());
        if !dump.exists() {
            return Ok(Some(counts));
        }
        counts.push(Value {
            median: counted(&std::fs::read_to_string(&dump)?)?,
            spread: 0.0,
        });
        std::fs::remove_file(dump)?;
    }
}

/// The number in a dump's line `totals:`.
fn counted(dump: &str) -> io::Result<f64> {
    let totals = dump.lines().find_map(|line| line.strip_prefix("totals:"));
    let number = totals.and_then(|totals| totals.trim().parse().ok());
    number.ok_or_else(|| io::Error::other("a dump without a total"))
}
