//! Runs an implementation on an input, and two beside each other.

use crate::answer::{Answer, Implementation};
use crate::generate::{input, sweeps, Call, Input};
use crate::report::report;
use std::collections::BTreeMap;
use std::fmt::{self, Write};
use std::ops::Range;

/// So many guard words or bytes stand before and after a lent buffer.
const GUARD: usize = 8;
const GUARD_WORD: u32 = 0xdead_beef;
const GUARD_BYTE: u8 = 0xa7;

/// The lent buffer after a call, with the guards around it.
#[derive(Clone, Debug, PartialEq, Eq)]
pub enum Buffer {
    None,
    Words(Vec<u32>),
    Bytes(Vec<u8>),
}

#[derive(Clone, Debug, PartialEq, Eq)]
pub struct Outcome {
    pub answer: Answer,
    pub buffer: Buffer,
}

/// A copy of a buffer with guards around it.
fn guarded<T: Copy>(buffer: &[T], guard: T) -> Vec<T> {
    let mut whole = vec![guard; GUARD];
    whole.extend(buffer);
    whole.extend([guard; GUARD]);
    whole
}

fn lend_words(buffer: &[u32], call: impl FnOnce(&mut [u32]) -> Answer) -> Outcome {
    let mut whole = guarded(buffer, GUARD_WORD);
    let answer = call(&mut whole[GUARD..GUARD + buffer.len()]);
    Outcome {
        answer,
        buffer: Buffer::Words(whole),
    }
}

fn lend_bytes(buffer: &[u8], call: impl FnOnce(&mut [u8]) -> Answer) -> Outcome {
    let mut whole = guarded(buffer, GUARD_BYTE);
    let answer = call(&mut whole[GUARD..GUARD + buffer.len()]);
    Outcome {
        answer,
        buffer: Buffer::Bytes(whole),
    }
}

fn without_buffer(answer: Answer) -> Outcome {
    Outcome {
        answer,
        buffer: Buffer::None,
    }
}

/// Runs one call on a copy of its buffer.
pub fn run(calls: &dyn Implementation, input: &Input) -> Outcome {
    match input {
        Input::CheckNames { list } => without_buffer(calls.check_names(list)),
        Input::Read { list, text, tree } => lend_words(tree, |tree| calls.read(list, text, tree)),
        Input::CheckTree { tags, tree } => without_buffer(calls.check_tree(*tags, tree)),
        Input::Write {
            list,
            text,
            tree,
            out,
        } => lend_bytes(out, |out| calls.write(list, text, tree, out)),
        Input::CheckSheet { sheet } => without_buffer(calls.check_sheet(sheet)),
        Input::SheetFromFile { file, words } => {
            lend_words(words, |words| calls.sheet_from_file(file, words))
        }
        Input::Judge {
            sheet,
            tree,
            states,
        } => lend_words(states, |states| calls.judge(sheet, tree, states)),
        Input::Swap { sheet, out } => lend_words(out, |out| calls.swap(sheet, out)),
        Input::Join { first, second, out } => lend_words(out, |out| calls.join(first, second, out)),
        Input::Formcheck { list, file, text } => without_buffer(calls.formcheck(list, file, text)),
    }
}

/// Answers by their kind, and the refusals also by what was broken.
#[derive(Default)]
pub struct Histogram {
    counts: BTreeMap<(u32, &'static str), BTreeMap<&'static str, usize>>,
}

impl Histogram {
    fn add(&mut self, answer: Answer, why: &'static str) {
        let key = match answer {
            Answer::Count(_) => (0, "count"),
            Answer::Accepted(..) => (0, "accepted"),
            Answer::Refused(..) => (0, "refused"),
            Answer::Stuck(..) => (0, "stuck"),
            Answer::Refusal(number, _) => (number, "refusal"),
        };
        *self.counts.entry(key).or_default().entry(why).or_default() += 1;
    }

    /// The number of inputs.
    pub fn inputs(&self) -> usize {
        self.counts.values().flat_map(BTreeMap::values).sum()
    }

    pub fn lines(&self) -> String {
        let mut lines = String::new();
        for ((number, name), reasons) in &self.counts {
            let total: usize = reasons.values().sum();
            let label = match number {
                0 => name.to_string(),
                _ => format!("{name} {number}"),
            };
            write!(lines, "  {label:<12}{total:>9}").expect("a string grows");
            if reasons.keys().any(|why| !why.is_empty()) {
                let parts: Vec<String> = reasons
                    .iter()
                    .map(|(why, count)| format!("{why} {count}"))
                    .collect();
                write!(lines, "   {}", parts.join("; ")).expect("a string grows");
            }
            lines.push('\n');
        }
        lines
    }
}

/// Where an input comes from.
#[derive(Clone, Copy)]
pub enum Source {
    /// Drawn with a seed.
    Seed(u64),
    /// Of this number in the call's sweep.
    Sweep(usize),
}

impl Source {
    /// The argument by which `compare/run show` finds the input.
    pub fn argument(self) -> String {
        match self {
            Source::Seed(seed) => format!("first={seed}"),
            Source::Sweep(index) => format!("sweep={index}"),
        }
    }
}

impl fmt::Display for Source {
    fn fmt(&self, out: &mut fmt::Formatter) -> fmt::Result {
        match self {
            Source::Seed(seed) => write!(out, "seed {seed}"),
            Source::Sweep(index) => write!(out, "sweep {index}"),
        }
    }
}

/// The inputs of a call for some seeds.
pub fn drawn(call: Call, seeds: Range<u64>) -> impl Iterator<Item = (Source, Input)> {
    seeds.map(move |seed| (Source::Seed(seed), input(call, seed)))
}

/// The inputs of a call's sweep.
pub fn swept(call: Call) -> impl Iterator<Item = (Source, Input)> {
    let inputs = sweeps::sweep(call).enumerate();
    inputs.map(|(index, input)| (Source::Sweep(index), input))
}

/// Runs a call's inputs on two implementations; ends with a report at the first difference.
pub fn compare(
    first: &dyn Implementation,
    second: &dyn Implementation,
    call: Call,
    inputs: impl Iterator<Item = (Source, Input)>,
    trace: bool,
) -> Result<Histogram, String> {
    let mut histogram = Histogram::default();
    for (source, input) in inputs {
        if trace {
            eprintln!("{}, {source}", call.name());
        }
        let outcome = both(first, second, &input)
            .map_err(|difference| report(&difference, call, source, &input))?;
        histogram.add(outcome.answer, first.why());
    }
    Ok(histogram)
}

/// How many inputs it takes until so many have made a difference, if that many do.
pub fn inputs_until(
    differences: usize,
    first: &dyn Implementation,
    second: &dyn Implementation,
    inputs: impl Iterator<Item = (Source, Input)>,
) -> Option<usize> {
    let mut differing = inputs
        .enumerate()
        .filter(|(_, (_, input))| both(first, second, input).is_err());
    let (index, _) = differing.nth(differences.checked_sub(1)?)?;
    Some(index + 1)
}

/// Runs an input on two implementations: their outcome, or what differs between them.
fn both(
    first: &dyn Implementation,
    second: &dyn Implementation,
    input: &Input,
) -> Result<Outcome, String> {
    let expected = run(first, input);
    if let Err(rule) = check_buffer(input, &expected) {
        return Err(format!("the {} breaks: {rule}", first.name()));
    }
    let got = run(second, input);
    if got == expected {
        Ok(expected)
    } else {
        let names = [first.name(), second.name()];
        Err(difference(names, [&expected, &got]))
    }
}

/// The answers of two implementations, and the first place where their buffers differ.
pub fn difference(names: [&str; 2], outcomes: [&Outcome; 2]) -> String {
    let [first, second] = names;
    let [a, b] = outcomes.map(|outcome| outcome.answer.line());
    let mut text = if a == b {
        format!("the {first} and the {second} answer {a}")
    } else {
        format!("the {first} answers {a}, the {second} {b}")
    };
    if let Some((place, a, b)) = first_place(outcomes.map(|outcome| &outcome.buffer)) {
        write!(text, "; their buffers differ first at {place}: {a} and {b}")
            .expect("a string grows");
    }
    text
}

/// Where two buffers differ first, with what each has there. A place in the guard before them is
/// below 0.
fn first_place(buffers: [&Buffer; 2]) -> Option<(i64, u32, u32)> {
    let (index, a, b) = match buffers {
        [Buffer::Words(a), Buffer::Words(b)] => first_difference(a, b)?,
        [Buffer::Bytes(a), Buffer::Bytes(b)] => first_difference(a, b)?,
        _ => return None,
    };
    Some((index as i64 - GUARD as i64, a, b))
}

fn first_difference<T: Copy + Into<u32> + PartialEq>(
    a: &[T],
    b: &[T],
) -> Option<(usize, u32, u32)> {
    let index = (0..a.len()).find(|&index| a[index] != b[index])?;
    Some((index, a[index].into(), b[index].into()))
}

/// "A refusal writes nothing, but 23 zeroes the first n state words. Words past an answer keep
/// their contents."
fn check_buffer(input: &Input, outcome: &Outcome) -> Result<(), &'static str> {
    match (input, &outcome.buffer) {
        (Input::Write { out, .. }, Buffer::Bytes(after)) => {
            kept(&guarded(out, GUARD_BYTE), after, written(input, outcome))
        }
        (Input::Read { tree: before, .. }, Buffer::Words(after))
        | (Input::SheetFromFile { words: before, .. }, Buffer::Words(after))
        | (Input::Judge { states: before, .. }, Buffer::Words(after))
        | (Input::Swap { out: before, .. }, Buffer::Words(after))
        | (Input::Join { out: before, .. }, Buffer::Words(after)) => {
            let written = written(input, outcome);
            kept(&guarded(before, GUARD_WORD), after, written)?;
            let front = &after[GUARD..GUARD + written];
            match outcome.answer {
                Answer::Refusal(23, _) if front.iter().any(|&word| word != 0) => {
                    Err("23 zeroes the first n state words")
                }
                _ => Ok(()),
            }
        }
        _ => Ok(()),
    }
}

/// How many words or bytes of the buffer a call may have written.
fn written(input: &Input, outcome: &Outcome) -> usize {
    match (input, outcome.answer) {
        (Input::Judge { tree, .. }, Answer::Refusal(23, _)) => tree.len() / 4,
        (_, Answer::Refusal(..)) => 0,
        (Input::Judge { tree, .. }, _) => tree.len() / 4,
        (Input::Read { .. }, Answer::Count(nodes)) => 4 * nodes as usize,
        (_, Answer::Count(count)) => count as usize,
        _ => 0,
    }
}

/// Everything but the written part of the buffer is as it was.
fn kept<T: PartialEq>(before: &[T], after: &[T], written: usize) -> Result<(), &'static str> {
    let past = GUARD + written;
    if before[..GUARD] == after[..GUARD] && before[past..] == after[past..] {
        Ok(())
    } else {
        Err("words past an answer keep their contents")
    }
}
