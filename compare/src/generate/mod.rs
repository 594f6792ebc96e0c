//! Inputs for every call, each drawn from its call and a seed alone.

pub mod fitting;
pub mod forms;
pub mod joins;
pub mod names;
pub mod random;
pub mod sheets;
pub mod sweeps;
pub mod texts;
pub mod trees;

use crate::document;
use crate::reference;
use crate::reference::sheet::Sheet;
use forms::{print, Item};
use random::Random;

/// The nine calls and the program.
#[derive(Clone, Copy, Debug, PartialEq, Eq)]
pub enum Call {
    CheckNames,
    Read,
    CheckTree,
    Write,
    CheckSheet,
    SheetFromFile,
    Judge,
    Swap,
    Join,
    Formcheck,
}

pub const CALLS: [Call; 10] = [
    Call::CheckNames,
    Call::Read,
    Call::CheckTree,
    Call::Write,
    Call::CheckSheet,
    Call::SheetFromFile,
    Call::Judge,
    Call::Swap,
    Call::Join,
    Call::Formcheck,
];

impl Call {
    pub fn name(self) -> &'static str {
        match self {
            Call::CheckNames => "check-names",
            Call::Read => "read",
            Call::CheckTree => "check-tree",
            Call::Write => "write",
            Call::CheckSheet => "check-sheet",
            Call::SheetFromFile => "sheet-from-file",
            Call::Judge => "judge",
            Call::Swap => "swap",
            Call::Join => "join",
            Call::Formcheck => "formcheck",
        }
    }
}

/// What a call is given; the buffer to be lent stands last, with what it holds before the call.
#[derive(Clone, Debug)]
pub enum Input {
    CheckNames {
        list: Vec<u8>,
    },
    Read {
        list: Vec<u8>,
        text: Vec<u8>,
        tree: Vec<u32>,
    },
    CheckTree {
        tags: u32,
        tree: Vec<u32>,
    },
    Write {
        list: Vec<u8>,
        text: Vec<u8>,
        tree: Vec<u32>,
        out: Vec<u8>,
    },
    CheckSheet {
        sheet: Vec<u32>,
    },
    SheetFromFile {
        file: Vec<u8>,
        words: Vec<u32>,
    },
    Judge {
        sheet: Vec<u32>,
        tree: Vec<u32>,
        states: Vec<u32>,
    },
    Swap {
        sheet: Vec<u32>,
        out: Vec<u32>,
    },
    Join {
        first: Vec<u32>,
        second: Vec<u32>,
        out: Vec<u32>,
    },
    Formcheck {
        list: Vec<u8>,
        file: Vec<u8>,
        text: Vec<u8>,
    },
}

/// The input of a call with a seed.
pub fn input(call: Call, seed: u64) -> Input {
    let random = &mut Random::new(seed << 4 | call as u64);
    match call {
        Call::CheckNames => Input::CheckNames {
            list: names::any_list(random),
        },
        Call::Read => read(random),
        Call::CheckTree => {
            let (tags, tree) = trees::any_tree(random);
            Input::CheckTree { tags, tree }
        }
        Call::Write => write(random),
        Call::CheckSheet => Input::CheckSheet {
            sheet: sheets::any_words(random),
        },
        Call::SheetFromFile => sheet_from_file(random),
        Call::Judge => judge(random),
        Call::Swap => swap(random),
        Call::Join => join(random),
        Call::Formcheck => formcheck(random),
    }
}

/// A buffer's length beside the length needed: exactly that, one less, longer, empty, or short;
/// something small where the call is refused before its buffer counts.
fn buffer_length(random: &mut Random, needed: Option<usize>) -> usize {
    let Some(needed) = needed else {
        return random.pick(&[0, 1, 8, 64, 200]);
    };
    match random.weighted(&[50, 7, 35, 2, 3]) {
        0 => needed,
        1 => needed.saturating_sub(1),
        2 => needed + random.between(1, 9),
        3 => 0,
        _ => random.below(needed + 1),
    }
}

/// A buffer filled with a pattern in which neighbouring words differ.
fn word_buffer(random: &mut Random, needed: Option<usize>) -> Vec<u32> {
    let start = random.word();
    let length = buffer_length(random, needed);
    (0..length as u32)
        .map(|index| start ^ index.wrapping_mul(0x9e37_79b9))
        .collect()
}

fn byte_buffer(random: &mut Random, needed: Option<usize>) -> Vec<u8> {
    let start = random.byte();
    let length = buffer_length(random, needed);
    (0..length)
        .map(|index| start ^ (index as u8).wrapping_mul(0x9d))
        .collect()
}

fn read(random: &mut Random) -> Input {
    let (list, text) = texts::list_and_text(random);
    let list = with_bad_list(random, list);
    let needed = reference::names::parse(&list)
        .and_then(|names| reference::read::parse(&names, &text))
        .map(|nodes| 4 * nodes.len());
    Input::Read {
        tree: word_buffer(random, needed.ok()),
        list,
        text,
    }
}

/// Seldom, damages a list.
fn with_bad_list(random: &mut Random, mut list: Vec<u8>) -> Vec<u8> {
    if random.chance(3) {
        let place = random.below(list.len());
        list[place] = random.pick(b"\n0 -&");
    }
    list
}

fn write(random: &mut Random) -> Input {
    let (list, mut text, tree) = if random.chance(12) {
        read_to_be_written(random)
    } else {
        let count = names::any_count(random);
        let names = names::names(random, count);
        let (text, tree) = trees::text_and_tree(random, &names);
        (names::list(&names), text, tree)
    };
    let list = with_bad_list(random, list);
    if random.chance(1) {
        text.resize(random.pick(&[65_535, 65_536]), b' ');
    }
    let needed = reference::names::parse(&list).and_then(|names| {
        let nodes = reference::tree::parse(names.len() as u32, &tree)?;
        reference::write::form(&names, &text, &nodes)
    });
    Input::Write {
        out: byte_buffer(random, needed.ok().map(|bytes| bytes.len())),
        list,
        text,
        tree,
    }
}

/// A text with the tree that the reader gives, or an empty tree where it refuses.
fn read_to_be_written(random: &mut Random) -> (Vec<u8>, Vec<u8>, Vec<u32>) {
    let count = names::any_count(random);
    let names = names::names(random, count);
    let form = forms::small(random, count as u32);
    let text = print(random, &form, &names, 20);
    let list = names::list(&names);
    let nodes = reference::names::parse(&list)
        .and_then(|names| reference::read::parse(&names, &text))
        .unwrap_or_default();
    (list, text, reference::tree::words(&nodes))
}

fn sheet_from_file(random: &mut Random) -> Input {
    let file = sheets::any_file(random);
    let needed = reference::sheet::file_words(&file).map(|words| words.len());
    Input::SheetFromFile {
        words: word_buffer(random, needed.ok()),
        file,
    }
}

fn judge(random: &mut Random) -> Input {
    let (sheet, form) = match random.weighted(&[600, 100, 80, 80, 60, 2]) {
        0 => {
            let tags = random.number(4) + 1;
            let states = random.pick(&[1, 2, 3, 3, 4, 4, 5, 8, 33, 64]);
            let sheet = fitting::sheet(random, tags, states);
            (sheet.words(), fitting::form(random, tags))
        }
        1 => {
            let sheet = cases_sheet(random);
            (sheet.words(), fitting::form(random, 4))
        }
        2 => {
            let (sheet, form) = fitting::close_count(random);
            (sheet.words(), form)
        }
        3 => joint(random),
        4 => {
            let sheet = sheets::any_sheet(random);
            (sheet.words(), fitting::form(random, sheet.tags))
        }
        _ => {
            let (sheet, form) = fitting::many_looks(random);
            (sheet.words(), form)
        }
    };
    let mut sheet = sheet;
    let mut tree = trees::plain_words(random, &form);
    match random.below(25) {
        0 => sheets::damage(random, &mut sheet),
        1 => trees::damage(random, 4, &mut tree),
        _ => {}
    }
    Input::Judge {
        states: word_buffer(random, Some(tree.len() / 4)),
        sheet,
        tree,
    }
}

/// Document 01's sheet S with a few rules more or fewer.
fn cases_sheet(random: &mut Random) -> Sheet {
    let mut sheet = reference::sheet::parse(&document::sheet_s()).expect("S is a sheet");
    sheet.finals = random.mask(5);
    if random.chance(70) {
        let kind = random.number(2) + 1;
        let target = if kind == 2 { 0 } else { random.number(5) };
        sheet
            .rules
            .push(reference::sheet::Rule::Text { kind, target });
    }
    if random.chance(50) {
        let rule = sheets::any_content_rule(random, &sheets::TINY, 5);
        sheet.rules.push(rule);
    }
    for _ in 0..random.between(0, 6) {
        sheet.rules.push(reference::sheet::Rule::Element {
            tag: random.number(4) + 1,
            inner: random.number(4) + 1,
            target: random.number(5),
        });
    }
    sheet
}

/// A joint sheet (or the first of two that don't join) and a form for it.
fn joint(random: &mut Random) -> (Vec<u32>, Item) {
    let (first, second) = joins::fitting_pair(random);
    let form = fitting::form(random, first.tags);
    let joint = reference::join::words(&first.words(), &second.words());
    (joint.unwrap_or_else(|_| first.words()), form)
}

fn swap(random: &mut Random) -> Input {
    let sheet = if random.chance(70) {
        sheets::any_sheet(random).words()
    } else {
        sheets::any_words(random)
    };
    let needed = reference::sheet::parse(&sheet).map(|_| sheet.len());
    Input::Swap {
        out: word_buffer(random, needed.ok()),
        sheet,
    }
}

fn join(random: &mut Random) -> Input {
    let (first, second) = joins::any_pair(random);
    let needed = reference::join::words(&first, &second).map(|words| words.len());
    Input::Join {
        out: word_buffer(random, needed.ok()),
        first,
        second,
    }
}

fn formcheck(random: &mut Random) -> Input {
    let (names, sheet) = if random.chance(30) {
        (document::names(), cases_sheet(random))
    } else {
        let count = if random.chance(90) {
            random.between(1, 5)
        } else {
            64
        };
        let tags = if random.chance(93) {
            count
        } else {
            (count + random.between(0, 2))
                .saturating_sub(1)
                .clamp(1, 64)
        };
        let states = random.number(5) + 1;
        let sheet = fitting::sheet(random, tags as u32, states);
        (names::names(random, count), sheet)
    };
    let form = if random.chance(90) {
        fitting::form(random, names.len() as u32)
    } else {
        forms::small(random, names.len() as u32)
    };
    let mut text = match random.below(60) {
        0 => texts::deep_text(random, &names),
        1 => texts::many_nodes(random, &names),
        _ => print(random, &form, &names, 15),
    };
    let mut list = names::list(&names);
    let mut file = sheets::file(&sheet.words());
    match random.below(20) {
        0 => list = names::damaged(random, &names),
        1 => {
            let mut words = sheet.words();
            sheets::damage(random, &mut words);
            file = sheets::file(&words);
        }
        2 => file.truncate(random.below(file.len())),
        3 => file.extend(random.pick(&[&b"\0"[..], b"12", b"123", b"1234", b"12345"])),
        4 | 5 => texts::damage(random, &mut text),
        6 => {
            texts::damage(random, &mut text);
            list = names::damaged(random, &names);
            file.pop();
        }
        7 => missing_files(random, [&mut list, &mut file, &mut text]),
        _ => {}
    }
    Input::Formcheck { list, file, text }
}

/// "a missing file is empty"
fn missing_files(random: &mut Random, files: [&mut Vec<u8>; 3]) {
    for file in files {
        if random.chance(40) {
            file.clear();
        }
    }
}
