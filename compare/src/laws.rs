//! Laws between the calls, held on random inputs.

use crate::answer::{Answer, Implementation};
use crate::generate::forms::{nodes, print, small};
use crate::generate::random::Random;
use crate::generate::{fitting, joins, names};
use crate::reference::tree::words;

/// How often the laws spoke of something, by the outcome.
#[derive(Default, Debug)]
pub struct Tally {
    pub round_trips: usize,
    pub both_accept: usize,
    pub one_accepts: usize,
    pub none_accepts: usize,
    pub stuck: usize,
    pub two_outcomes: usize,
    pub refused_join: usize,
}

/// Holds one condition of a law.
fn hold(seed: u64, condition: bool, law: &str) -> Result<(), String> {
    if condition {
        Ok(())
    } else {
        Err(format!("seed {seed}: {law}"))
    }
}

/// A call that must give a count, with the front of its buffer.
fn counted<T: Clone>(
    room: usize,
    filler: T,
    unit: usize,
    call: impl FnOnce(&mut [T]) -> Answer,
) -> Result<Vec<T>, String> {
    let mut buffer = vec![filler; room];
    match call(&mut buffer) {
        Answer::Count(count) => {
            buffer.truncate(unit * count as usize);
            Ok(buffer)
        }
        other => Err(format!("no count: {other:?}")),
    }
}

/// A form read, written and read again is the same form; the written text is its own writing.
pub fn round_trip(calls: &dyn Implementation, seed: u64, tally: &mut Tally) -> Result<(), String> {
    let random = &mut Random::new(seed);
    let count = names::any_count(random);
    let names = names::names(random, count);
    let form = small(random, count as u32);
    let text = print(random, &form, &names, 25);
    let list = names::list(&names);
    let read = |text: &[u8]| counted(4 * 4_096, 0, 4, |tree| calls.read(&list, text, tree));
    let write = |text: &[u8], tree: &[u32]| {
        counted(65_535, 0, 1, |out| calls.write(&list, text, tree, out))
    };
    let tree = read(&text)?;
    let written = write(&text, &tree)?;
    let again = read(&written)?;
    let shape = |tree: &[u32]| -> Vec<(u32, u32, u32)> {
        tree.chunks(4)
            .map(|node| (node[0], node[1], node[3]))
            .collect()
    };
    let bytes = |text: &[u8], tree: &[u32]| -> Vec<Vec<u8>> {
        tree.chunks(4)
            .map(|node| text[node[2] as usize..][..node[3] as usize].to_vec())
            .collect()
    };
    hold(seed, shape(&tree) == shape(&again), "same nodes read again")?;
    hold(
        seed,
        bytes(&text, &tree) == bytes(&written, &again),
        "same texts read again",
    )?;
    hold(
        seed,
        write(&written, &again)? == written,
        "a written text is its own writing",
    )?;
    hold(seed, written.len() <= text.len(), "writing adds nothing")?;
    hold(seed, tree == read_by_hand(&form, &tree), "the form's nodes")?;
    tally.round_trips += 1;
    Ok(())
}

/// The nodes of a form, with the text starts of a tree.
fn read_by_hand(form: &crate::generate::forms::Item, tree: &[u32]) -> Vec<u32> {
    let mut nodes = nodes(form, &mut Vec::new());
    for (node, words) in nodes.iter_mut().zip(tree.chunks(4)) {
        if node.is_text() {
            node.start = words[2];
        }
    }
    words(&nodes)
}

/// The swapped sheet accepts what the sheet refuses; the joint sheet takes a form to the pair of
/// states to which the two sheets take it, and accepts it if both do.
pub fn swap_and_join(
    calls: &dyn Implementation,
    seed: u64,
    tally: &mut Tally,
) -> Result<(), String> {
    let random = &mut Random::new(seed);
    let (first, second) = joins::fitting_pair(random);
    let form = fitting::form(random, first.tags);
    let tree = words(&nodes(&form, &mut Vec::new()));
    let (s, t) = (first.words(), second.words());
    let judge = |sheet: &[u32]| {
        let mut states = vec![0; tree.len() / 4];
        let answer = calls.judge(sheet, &tree, &mut states);
        (answer, states)
    };
    let (by_first, by_second) = (judge(&s), judge(&t));
    let swapped = counted(s.len(), 0, 1, |out| calls.swap(&s, out))?;
    hold(
        seed,
        judge(&swapped) == (swapped_answer(by_first.0), by_first.1.clone()),
        "the swapped sheet's verdict",
    )?;
    let Ok(joint) = counted(16_384, 0, 1, |out| calls.join(&s, &t, out)) else {
        tally.refused_join += 1;
        return Ok(());
    };
    let halves = [by_first, by_second];
    if halves
        .iter()
        .any(|half| matches!(half.0, Answer::Refusal(23, _)))
    {
        tally.two_outcomes += 1;
        return Ok(());
    }
    let (answer, states) = judge(&joint);
    let wanted = joint_states(second.states, &halves[0].1, &halves[1].1);
    hold(seed, states == wanted, "the joint sheet's states")?;
    check_joint_answer(&halves, &wanted, answer, second.states, tally)
        .or_else(|law| hold(seed, false, law))?;
    let bound = 2 * wanted.len() as u32 * joint[5];
    hold(seed, looks(answer) <= bound, "looks are at most 2 × n × R")
}

fn looks(answer: Answer) -> u32 {
    match answer {
        Answer::Accepted(_, looks) | Answer::Refused(_, looks) | Answer::Stuck(_, looks) => looks,
        Answer::Count(_) | Answer::Refusal(..) => u32::MAX,
    }
}

fn swapped_answer(answer: Answer) -> Answer {
    match answer {
        Answer::Accepted(state, looks) => Answer::Refused(state, looks),
        Answer::Refused(state, looks) => Answer::Accepted(state, looks),
        other => other,
    }
}

/// The pair of two states for each node; none where a half has none.
fn joint_states(second_states: u32, first: &[u32], second: &[u32]) -> Vec<u32> {
    let pair = |(&s, &t): (&u32, &u32)| match (s, t) {
        (0, _) | (_, 0) => 0,
        (s, t) => (s - 1) * second_states + (t - 1) + 1,
    };
    first.iter().zip(second).map(pair).collect()
}

fn check_joint_answer(
    halves: &[(Answer, Vec<u32>); 2],
    states: &[u32],
    answer: Answer,
    second_states: u32,
    tally: &mut Tally,
) -> Result<(), &'static str> {
    let root = |half: &(Answer, Vec<u32>)| match half.0 {
        Answer::Accepted(state, _) => Some((state, true)),
        Answer::Refused(state, _) => Some((state, false)),
        _ => None,
    };
    let (Some((s, first)), Some((t, second))) = (root(&halves[0]), root(&halves[1])) else {
        tally.stuck += 1;
        let node = states.iter().rposition(|&state| state == 0);
        return match answer {
            Answer::Stuck(stuck, _) if Some(stuck as usize) == node => Ok(()),
            _ => Err("the joint sheet is stuck where a half is"),
        };
    };
    match (first, second) {
        (true, true) => tally.both_accept += 1,
        (false, false) => tally.none_accepts += 1,
        _ => tally.one_accepts += 1,
    }
    let pair = s * second_states + t;
    match answer {
        Answer::Accepted(state, _) if state == pair && first && second => Ok(()),
        Answer::Refused(state, _) if state == pair && !(first && second) => Ok(()),
        _ => Err("the joint sheet accepts what both accept"),
    }
}

/// Taking a sheet's words apart and putting them together gives the same words.
pub fn words_of_sheet(seed: u64) -> Result<(), String> {
    let sheet = crate::generate::sheets::any_sheet(&mut Random::new(seed));
    let words = sheet.words();
    let parsed = crate::reference::sheet::parse(&words);
    hold(seed, parsed.as_ref() == Ok(&sheet), "a sheet's words")
}
