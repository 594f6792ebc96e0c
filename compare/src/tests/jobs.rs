//! Jobs on two threads speak in their order.

use crate::jobs::{run, Job, Said};
use std::thread::sleep;
use std::time::Duration;

/// A job that says a word after some milliseconds.
fn job(milliseconds: u64, said: Said) -> Job {
    Box::new(move || {
        sleep(Duration::from_millis(milliseconds));
        said
    })
}

fn words(word: &str) -> Said {
    Ok(word.to_string())
}

#[test]
fn in_order() {
    let jobs = vec![
        job(30, words("a")),
        job(0, words("b")),
        job(10, words("c")),
        job(0, words("d")),
    ];
    let mut all = String::new();
    assert_eq!(run(jobs, |word| all += word), Ok(()));
    assert_eq!(all, "abcd");
}

/// The first failure is told, though another comes before it in time.
#[test]
fn the_first_failure_ends_it() {
    let jobs = vec![
        job(0, words("a")),
        job(20, Err("first".to_string())),
        job(0, Err("second".to_string())),
        job(0, words("d")),
    ];
    let mut all = String::new();
    assert_eq!(run(jobs, |word| all += word), Err("first".to_string()));
    assert_eq!(all, "a");
}

#[test]
fn a_panic_is_a_failure() {
    let jobs: Vec<Job> = vec![Box::new(|| panic!("as it should"))];
    assert_eq!(run(jobs, |_| ()), Err("a job panicked".to_string()));
}
