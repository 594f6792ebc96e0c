//! Document 01 written down plainly. Nothing here is fast; every part is meant to be read beside
//! the sentence that it follows.

pub mod bytes;
pub mod join;
pub mod names;
pub mod read;
pub mod run;
pub mod sheet;
pub mod tree;
pub mod write;

use crate::answer::{Answer, Implementation};
use std::cell::Cell;

/// A refusal with the rule that was broken, for the histograms.
#[derive(Clone, Copy, Debug, PartialEq, Eq)]
pub struct Fault {
    pub number: u32,
    pub place: u32,
    pub why: &'static str,
}

/// A fault at a place given as an index or a length.
pub fn fault(number: u32, place: usize, why: &'static str) -> Fault {
    let place = u32::try_from(place).expect("a place fits 32 bits");
    Fault { number, place, why }
}

/// Puts a result at the front of a lent buffer, or refuses with 22: "buffer too short; length
/// needed". "Words past an answer keep their contents."
fn deliver<T: Copy>(result: &[T], buffer: &mut [T]) -> Result<(), Fault> {
    if buffer.len() < result.len() {
        return Err(fault(22, result.len(), "buffer too short"));
    }
    buffer[..result.len()].copy_from_slice(result);
    Ok(())
}

fn count(n: usize) -> Answer {
    Answer::Count(u32::try_from(n).expect("a count fits 32 bits"))
}

/// The reference implementation; it remembers why it refused last.
#[derive(Default)]
pub struct Reference {
    why: Cell<&'static str>,
}

impl Reference {
    fn settle(&self, result: Result<Answer, Fault>) -> Answer {
        match result {
            Ok(answer) => {
                self.why.set("");
                answer
            }
            Err(fault) => {
                self.why.set(fault.why);
                Answer::Refusal(fault.number, fault.place)
            }
        }
    }
}

// "Order within a call: 8, 1, 2 to 7, 9, 10, 11, 20, 21, 24, 22, 23."

fn read_call(list: &[u8], text: &[u8], buffer: &mut [u32]) -> Result<Answer, Fault> {
    let names = names::parse(list)?; // 8
    let nodes = read::parse(&names, text)?; // 1 to 7
    deliver(&tree::words(&nodes), buffer)?; // 22
    Ok(count(nodes.len()))
}

fn write_call(list: &[u8], text: &[u8], words: &[u32], out: &mut [u8]) -> Result<Answer, Fault> {
    let names = names::parse(list)?; // 8
    read::check_length(text)?; // 1
    let nodes = tree::parse(names.len() as u32, words)?; // 10
    let bytes = write::form(&names, text, &nodes)?; // 11, 24
    deliver(&bytes, out)?; // 22
    Ok(count(bytes.len()))
}

fn from_file_call(file: &[u8], buffer: &mut [u32]) -> Result<Answer, Fault> {
    let words = sheet::file_words(file)?; // 9
    deliver(&words, buffer)?; // 22
    Ok(count(words.len()))
}

fn judge_call(words: &[u32], tree_words: &[u32], states: &mut [u32]) -> Result<Answer, Fault> {
    let sheet = sheet::parse(words)?; // 9
    let nodes = tree::parse(sheet.tags, tree_words)?; // 10
    if states.len() < nodes.len() {
        return Err(fault(22, nodes.len(), "buffer too short"));
    }
    let front = &mut states[..nodes.len()];
    match run::run(&sheet, &nodes) {
        Ok(run) => {
            front.copy_from_slice(&run.state_words());
            Ok(run.verdict(&sheet))
        }
        Err(fault) => {
            // "A refusal writes nothing, but 23 zeroes the first n state words."
            front.fill(0);
            Err(fault)
        }
    }
}

/// "Swapping turns every final bit below p."
fn swap_call(words: &[u32], out: &mut [u32]) -> Result<Answer, Fault> {
    let mut sheet = sheet::parse(words)?; // 9
    sheet.finals ^= sheet::below(sheet.states);
    let swapped = sheet.words();
    deliver(&swapped, out)?; // 22
    Ok(count(swapped.len()))
}

fn join_call(first: &[u32], second: &[u32], out: &mut [u32]) -> Result<Answer, Fault> {
    let joint = join::words(first, second)?; // 9, 20, 21
    deliver(&joint, out)?; // 22
    Ok(count(joint.len()))
}

/// "Its checks: 8, 9, text, 20, run."
fn formcheck_call(list: &[u8], file: &[u8], text: &[u8]) -> Result<Answer, Fault> {
    let names = names::parse(list)?;
    let sheet = sheet::parse(&sheet::file_words(file)?)?;
    let nodes = read::parse(&names, text)?;
    if sheet.tags != names.len() as u32 {
        return Err(fault(20, sheet.tags as usize, "tag counts differ"));
    }
    Ok(run::run(&sheet, &nodes)?.verdict(&sheet))
}

impl Implementation for Reference {
    fn name(&self) -> &'static str {
        "reference"
    }

    fn check_names(&self, list: &[u8]) -> Answer {
        self.settle(names::parse(list).map(|names| count(names.len())))
    }

    fn read(&self, list: &[u8], text: &[u8], tree: &mut [u32]) -> Answer {
        self.settle(read_call(list, text, tree))
    }

    fn check_tree(&self, tags: u32, tree: &[u32]) -> Answer {
        self.settle(tree::parse(tags, tree).map(|nodes| count(nodes.len())))
    }

    fn write(&self, list: &[u8], text: &[u8], tree: &[u32], out: &mut [u8]) -> Answer {
        self.settle(write_call(list, text, tree, out))
    }

    fn check_sheet(&self, sheet: &[u32]) -> Answer {
        self.settle(sheet::parse(sheet).map(|_| count(sheet.len())))
    }

    fn sheet_from_file(&self, file: &[u8], words: &mut [u32]) -> Answer {
        self.settle(from_file_call(file, words))
    }

    fn judge(&self, sheet: &[u32], tree: &[u32], states: &mut [u32]) -> Answer {
        self.settle(judge_call(sheet, tree, states))
    }

    fn swap(&self, sheet: &[u32], out: &mut [u32]) -> Answer {
        self.settle(swap_call(sheet, out))
    }

    fn join(&self, first: &[u32], second: &[u32], out: &mut [u32]) -> Answer {
        self.settle(join_call(first, second, out))
    }

    fn formcheck(&self, list: &[u8], file: &[u8], text: &[u8]) -> Answer {
        self.settle(formcheck_call(list, file, text))
    }

    fn why(&self) -> &'static str {
        self.why.get()
    }
}
