//! The proved calls, by the static library.

mod c;

use crate::answer::{Answer, Implementation};
use crate::cases::ForC;
use crate::generate::Input;

const ANSWER: usize = 3;
const UNWRITTEN: u64 = 0x5a5a_5a5a_5a5a_5a5a;

/// The answer of a call, which is lent the words for it.
fn answer(call: impl FnOnce(&mut [u64]) -> u32) -> Answer {
    let mut words = [UNWRITTEN; ANSWER + 1];
    let kind = call(&mut words[..ANSWER]);
    let [written, first, second, past] = words;
    assert_eq!(u64::from(kind), written, "the kind returned and written");
    assert_eq!(past, UNWRITTEN, "the word past the answer");
    let number = |word: u64| u32::try_from(word).expect("an answer's number fits 32 bits");
    let (first, second) = (number(first), number(second));
    match (kind, second) {
        (0, 0) => Answer::Count(first),
        (1, _) => Answer::Accepted(first, second),
        (2, _) => Answer::Refused(first, second),
        (3, _) => Answer::Stuck(first, second),
        (4, _) => Answer::Refusal(first, second),
        _ => panic!("no answer is {words:?}"),
    }
}

/// The library's calls.
pub struct Linked;

impl Implementation for Linked {
    fn name(&self) -> &'static str {
        "library"
    }

    fn check_names(&self, list: &[u8]) -> Answer {
        answer(|words| c::names(list, words))
    }

    fn read(&self, list: &[u8], text: &[u8], tree: &mut [u32]) -> Answer {
        answer(|words| c::read(list, text, tree, words))
    }

    fn check_tree(&self, tags: u32, tree: &[u32]) -> Answer {
        answer(|words| c::tree(tags, tree, words))
    }

    fn write(&self, list: &[u8], text: &[u8], tree: &[u32], out: &mut [u8]) -> Answer {
        answer(|words| c::write(list, text, tree, out, words))
    }

    fn check_sheet(&self, sheet: &[u32]) -> Answer {
        answer(|words| c::sheet(sheet, words))
    }

    fn sheet_from_file(&self, file: &[u8], words: &mut [u32]) -> Answer {
        answer(|answer| c::sheet_from_file(file, words, answer))
    }

    fn judge(&self, sheet: &[u32], tree: &[u32], states: &mut [u32]) -> Answer {
        answer(|words| c::judge(sheet, tree, states, words))
    }

    fn swap(&self, sheet: &[u32], out: &mut [u32]) -> Answer {
        answer(|words| c::swap(sheet, out, words))
    }

    fn join(&self, first: &[u32], second: &[u32], out: &mut [u32]) -> Answer {
        answer(|words| c::join(first, second, out, words))
    }

    fn formcheck(&self, list: &[u8], file: &[u8], text: &[u8]) -> Answer {
        answer(|words| c::verdict(list, file, text, words))
    }
}

impl ForC for Linked {
    fn for_c(&self, input: &mut Input, answer: &mut [u64]) -> u32 {
        match input {
            Input::CheckNames { list } => c::names(list, answer),
            Input::Read { list, text, tree } => c::read(list, text, tree, answer),
            Input::CheckTree { tags, tree } => c::tree(*tags, tree, answer),
            Input::Write {
                list,
                text,
                tree,
                out,
            } => c::write(list, text, tree, out, answer),
            Input::CheckSheet { sheet } => c::sheet(sheet, answer),
            Input::SheetFromFile { file, words } => c::sheet_from_file(file, words, answer),
            Input::Judge {
                sheet,
                tree,
                states,
            } => c::judge(sheet, tree, states, answer),
            Input::Swap { sheet, out } => c::swap(sheet, out, answer),
            Input::Join { first, second, out } => c::join(first, second, out, answer),
            Input::Formcheck { list, file, text } => c::verdict(list, file, text, answer),
        }
    }
}
