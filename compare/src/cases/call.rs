//! The calls of a case file: their names, the values that they take, and how they are run.

use crate::answer::{Answer, Implementation};
use crate::generate::{Call, Input};
use crate::reference::Reference;

/// The name of each call.
const NAMES: [(&[u8], Call); 10] = [
    (b"names", Call::CheckNames),
    (b"read", Call::Read),
    (b"tree", Call::CheckTree),
    (b"write", Call::Write),
    (b"sheet", Call::CheckSheet),
    (b"sheet_from_file", Call::SheetFromFile),
    (b"judge", Call::Judge),
    (b"swap", Call::Swap),
    (b"join", Call::Join),
    (b"verdict", Call::Formcheck),
];
/// The name of a call for C has this before it.
const FOR_C: &[u8] = b"formcheck_";

/// The most bytes of a value.
const MOST_BYTES: usize = 66_000;
/// The most words or bytes of a lent buffer.
const MOST_ROOM: u32 = 66_000;
/// The most words that are lent for an answer.
const MOST_NUMBERS: u32 = 4;
/// Each word of a lent buffer, and of the array for an answer, before the call.
const WORD_BEFORE: u32 = 7;
/// The word past the array for an answer.
const WORD_PAST: u64 = u64::MAX;
/// Each byte of a lent buffer before the call.
const BYTE_BEFORE: u8 = b'.';

/// An implementation whose calls can be made as C makes them.
pub trait ForC: Implementation {
    /// Makes the call of an input, and lends it the input's buffer and an array for its answer; the
    /// kind that the call returns.
    fn for_c(&self, input: &mut Input, answer: &mut [u64]) -> u32;
}

/// By the answer: kind, first and second value, as many of them as the array has words.
impl ForC for Reference {
    fn for_c(&self, input: &mut Input, answer: &mut [u64]) -> u32 {
        let numbers = run(self, input).numbers();
        for (word, number) in answer.iter_mut().zip(numbers) {
            *word = u64::from(number);
        }
        numbers[0]
    }
}

/// Runs the call of an input, and lends it the input's buffer.
fn run(calls: &dyn Implementation, input: &mut Input) -> Answer {
    match input {
        Input::CheckNames { list } => calls.check_names(list),
        Input::Read { list, text, tree } => calls.read(list, text, tree),
        Input::CheckTree { tags, tree } => calls.check_tree(*tags, tree),
        Input::Write {
            list,
            text,
            tree,
            out,
        } => calls.write(list, text, tree, out),
        Input::CheckSheet { sheet } => calls.check_sheet(sheet),
        Input::SheetFromFile { file, words } => calls.sheet_from_file(file, words),
        Input::Judge {
            sheet,
            tree,
            states,
        } => calls.judge(sheet, tree, states),
        Input::Swap { sheet, out } => calls.swap(sheet, out),
        Input::Join { first, second, out } => calls.join(first, second, out),
        Input::Formcheck { list, file, text } => calls.formcheck(list, file, text),
    }
}

/// The values of a call that are still to be taken.
struct Values(std::vec::IntoIter<Vec<u32>>);

impl Values {
    fn words(&mut self) -> Option<Vec<u32>> {
        self.0.next()
    }

    /// Words below 256.
    fn bytes(&mut self) -> Option<Vec<u8>> {
        let words = self.words()?;
        if words.len() > MOST_BYTES {
            return None;
        }
        words.into_iter().map(|word| word.try_into().ok()).collect()
    }

    /// One word, at most so large.
    fn number(&mut self, most: u32) -> Option<u32> {
        match self.words()?[..] {
            [number] if number <= most => Some(number),
            _ => None,
        }
    }

    /// A buffer of words to be lent.
    fn word_room(&mut self) -> Option<Vec<u32>> {
        let room = self.number(MOST_ROOM)?;
        Some(vec![WORD_BEFORE; room as usize])
    }

    /// A buffer of bytes to be lent.
    fn byte_room(&mut self) -> Option<Vec<u8>> {
        let room = self.number(MOST_ROOM)?;
        Some(vec![BYTE_BEFORE; room as usize])
    }

    /// What a call is given.
    fn input(&mut self, call: Call) -> Option<Input> {
        Some(match call {
            Call::CheckNames => Input::CheckNames {
                list: self.bytes()?,
            },
            Call::Read => Input::Read {
                list: self.bytes()?,
                text: self.bytes()?,
                tree: self.word_room()?,
            },
            Call::CheckTree => Input::CheckTree {
                tags: self.number(u32::MAX)?,
                tree: self.words()?,
            },
            Call::Write => Input::Write {
                list: self.bytes()?,
                text: self.bytes()?,
                tree: self.words()?,
                out: self.byte_room()?,
            },
            Call::Formcheck => Input::Formcheck {
                list: self.bytes()?,
                file: self.bytes()?,
                text: self.bytes()?,
            },
            _ => return self.sheet_input(call),
        })
    }

    /// What a call on sheets is given.
    fn sheet_input(&mut self, call: Call) -> Option<Input> {
        Some(match call {
            Call::CheckSheet => Input::CheckSheet {
                sheet: self.words()?,
            },
            Call::SheetFromFile => Input::SheetFromFile {
                file: self.bytes()?,
                words: self.word_room()?,
            },
            Call::Judge => Input::Judge {
                sheet: self.words()?,
                tree: self.words()?,
                states: self.word_room()?,
            },
            Call::Swap => Input::Swap {
                sheet: self.words()?,
                out: self.word_room()?,
            },
            Call::Join => Input::Join {
                first: self.words()?,
                second: self.words()?,
                out: self.word_room()?,
            },
            _ => return None,
        })
    }
}

/// A call with all that it is given.
pub struct Case {
    input: Input,
    /// Of a call for C: how many words are lent for its answer.
    numbers: Option<usize>,
}

impl Case {
    /// The case of a call's name and its values, if there is such a call and it takes them.
    pub fn new(name: &[u8], values: Vec<Vec<u32>>) -> Option<Case> {
        let mut values = Values(values.into_iter());
        let for_c = name.strip_prefix(FOR_C);
        let name = for_c.unwrap_or(name);
        let (_, call) = NAMES.into_iter().find(|&(known, _)| known == name)?;
        let input = values.input(call)?;
        let numbers = match for_c {
            Some(_) => Some(values.number(MOST_NUMBERS)? as usize),
            None => None,
        };
        values.words().is_none().then_some(Case { input, numbers })
    }

    /// Runs the case.
    pub fn run(mut self, calls: &dyn ForC) -> Outcome {
        let said = match self.numbers {
            None => Said::Answer(run(calls, &mut self.input)),
            Some(numbers) => numbered(calls, &mut self.input, numbers),
        };
        Outcome {
            said,
            after: self.input,
        }
    }
}

/// Makes a call for C that is lent so many words for its answer.
fn numbered(calls: &dyn ForC, input: &mut Input, numbers: usize) -> Said {
    let mut answer = vec![u64::from(WORD_BEFORE); numbers];
    answer.push(WORD_PAST);
    let kind = calls.for_c(input, &mut answer[..numbers]);
    assert_eq!(answer.pop(), Some(WORD_PAST), "the word past the answer");
    Said::Numbers(kind, answer)
}

/// What a call says.
pub enum Said {
    Answer(Answer),
    /// Of a call for C: the kind that it returns, and the array for its answer as it leaves it.
    Numbers(u32, Vec<u64>),
}

/// A lent buffer.
pub enum Buffer<'a> {
    None,
    Words(&'a [u32]),
    Bytes(&'a [u8]),
}

/// What a case comes to: what the call says, and its input with the buffer as the call leaves it.
pub struct Outcome {
    pub said: Said,
    after: Input,
}

impl Outcome {
    /// The lent buffer after the call.
    pub fn buffer(&self) -> Buffer<'_> {
        match &self.after {
            Input::Read { tree: words, .. }
            | Input::SheetFromFile { words, .. }
            | Input::Judge { states: words, .. }
            | Input::Swap { out: words, .. }
            | Input::Join { out: words, .. } => Buffer::Words(words),
            Input::Write { out, .. } => Buffer::Bytes(out),
            Input::CheckNames { .. }
            | Input::CheckTree { .. }
            | Input::CheckSheet { .. }
            | Input::Formcheck { .. } => Buffer::None,
        }
    }

    /// What the answer counts of the lent buffer: nodes of four words, words, or bytes.
    pub fn result(&self) -> Vec<u32> {
        let Said::Answer(Answer::Count(count)) = self.said else {
            return Vec::new();
        };
        let count = count as usize;
        match (&self.after, self.buffer()) {
            (Input::Read { tree, .. }, _) => tree.iter().copied().take(4 * count).collect(),
            (_, Buffer::Words(words)) => words.iter().copied().take(count).collect(),
            (_, Buffer::Bytes(bytes)) => bytes.iter().copied().take(count).map(u32::from).collect(),
            (_, Buffer::None) => Vec::new(),
        }
    }
}
