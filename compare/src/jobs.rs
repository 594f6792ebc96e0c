//! Jobs on two threads.

use std::collections::VecDeque;
use std::sync::mpsc::{channel, Sender};
use std::sync::{Arc, Mutex};
use std::thread;

const THREADS: usize = 2;

/// What a job has to say, or why it failed.
pub type Said = Result<String, String>;

pub type Job = Box<dyn FnOnce() -> Said + Send>;

/// The jobs that no thread has begun, each with where its result goes.
type Queue = Mutex<VecDeque<(Job, Sender<Said>)>>;

/// Runs jobs, and hands on what they say in their order; ends at the first of them that fails.
pub fn run(jobs: Vec<Job>, mut hand_on: impl FnMut(&str)) -> Result<(), String> {
    let with_channel = |job| {
        let (sender, receiver) = channel();
        ((job, sender), receiver)
    };
    let (queue, results): (VecDeque<_>, Vec<_>) = jobs.into_iter().map(with_channel).unzip();
    let queue = Arc::new(Mutex::new(queue));
    for _ in 0..THREADS {
        let queue = Arc::clone(&queue);
        thread::spawn(move || work(&queue));
    }
    for result in results {
        let said = result.recv().map_err(|_| "a job panicked")?;
        hand_on(&said?);
    }
    Ok(())
}

/// Takes jobs until none is left.
fn work(queue: &Queue) {
    while let Some((job, result)) = next(queue) {
        // Nobody receives it after another job failed.
        let _ = result.send(job());
    }
}

fn next(queue: &Queue) -> Option<(Job, Sender<Said>)> {
    queue.lock().expect("no thread panics here").pop_front()
}
