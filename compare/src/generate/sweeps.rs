//! Inputs in order, where all of a kind can be run: every short text over a few bytes, every byte
//! at every place of the grammar, every small tree, every word of a few sheets with every likely
//! value, every short word of child states.

use super::forms::{nodes, Item};
use super::random::Random;
use super::sheets::{any_content_rule, file, TINY};
use super::texts::{PREFIXES, PROBE_LIST, SUFFIXES};
use super::{Call, Input};
use crate::document;
use crate::reference::sheet::{Rule, Sheet, Step, Weight};
use crate::reference::tree::words;

/// What a lent buffer holds before the call.
const FILLER: u32 = 0x5a5a_0f0f;

/// The ordered inputs of a call.
pub fn sweep(call: Call) -> Box<dyn Iterator<Item = Input>> {
    match call {
        Call::CheckNames => Box::new(short_lists()),
        Call::Read => Box::new(
            probes()
                .chain(short_texts(b"", 6))
                .chain(short_texts(b"<a>", 6)),
        ),
        Call::CheckTree => Box::new(small_trees()),
        Call::CheckSheet => Box::new(changed_sheets().map(|sheet| Input::CheckSheet { sheet })),
        Call::SheetFromFile => Box::new(cut_files()),
        Call::Write => Box::new(text_words()),
        Call::Judge => Box::new(child_words()),
        Call::Swap => Box::new(swaps()),
        Call::Join => Box::new(joins()),
        Call::Formcheck => Box::new(missing_files()),
    }
}

/// All strings of up to so many letters.
fn strings<T: Copy + 'static>(letters: &'static [T], most: u32) -> impl Iterator<Item = Vec<T>> {
    (0..=most).flat_map(move |length| {
        (0..letters.len().pow(length)).map(move |number| {
            let digit = |place| number / letters.len().pow(place) % letters.len();
            (0..length).map(|place| letters[digit(place)]).collect()
        })
    })
}

fn short_lists() -> impl Iterator<Item = Input> {
    strings(b"aB1-\n\r", 6).map(|list| Input::CheckNames { list })
}

/// Every short string after a beginning, with the names a, b and ab.
fn short_texts(beginning: &'static [u8], most: u32) -> impl Iterator<Item = Input> {
    strings(b"<>/ab 5&", most).map(move |end| Input::Read {
        list: b"a\nb\nab\n".to_vec(),
        text: [beginning, &end].concat(),
        tree: vec![FILLER; 14],
    })
}

/// Every place of the grammar, every byte there, every end.
fn probes() -> impl Iterator<Item = Input> {
    PREFIXES.iter().flat_map(|prefix| {
        (0..=255u8).flat_map(move |byte| {
            SUFFIXES.iter().map(move |suffix| Input::Read {
                list: PROBE_LIST.to_vec(),
                text: [prefix, &[byte][..], suffix].concat(),
                tree: vec![FILLER; 16],
            })
        })
    })
}

/// Every tree of up to three nodes with any small symbols and sizes, for two tags; every tree of
/// four nodes with fewer symbols, for one; and trees about the symbols of texts for no tags and for
/// more than 64.
fn small_trees() -> impl Iterator<Item = Input> {
    let any = pairs(&[0, 1, 2, 3, 64, 65, 66, 67], &[0, 1, 2, 3, 4]);
    let fewer = pairs(&[1, 65, 66], &[1, 2, 3, 4, 5]);
    let small = strings(any, 3).map(|nodes| (2, nodes));
    let four = strings(fewer, 4).map(|nodes| (1, nodes));
    let texts = pairs(&[1, 64, 65, 66, 67], &[1, 2, 3]);
    let odd_tags = [0, 65, 66, 67, u32::MAX].into_iter();
    let odd = odd_tags.flat_map(|tags| strings(texts, 3).map(move |nodes| (tags, nodes)));
    small
        .chain(four)
        .chain(odd)
        .map(|(tags, nodes)| Input::CheckTree {
            tags,
            tree: nodes
                .iter()
                .flat_map(|&(symbol, size)| [symbol, size, 0, 0])
                .collect(),
        })
}

/// All pairs, kept for the whole run.
fn pairs(symbols: &[u32], sizes: &[u32]) -> &'static [(u32, u32)] {
    let all: Vec<(u32, u32)> = symbols
        .iter()
        .flat_map(|&symbol| sizes.iter().map(move |&size| (symbol, size)))
        .collect();
    all.leak()
}

/// A few sheets in which every field stands.
fn base_sheets() -> Vec<Vec<u32>> {
    let minus = |number: u32| 0u32.wrapping_sub(number);
    vec![
        document::sheet_s(),
        document::sheet_t(),
        vec![1, 64, 0, 1 << 31, 64, 1, 38, 64, 63, 63],
        vec![1, 32, 1 << 31, 0, 1, 1, 33, 1, 31],
        vec![1, 33, 0, 1, 1, 0],
        // An order part of three positions and arcs, and one of 64 without.
        vec![
            1,
            2,
            3,
            0,
            1,
            2,
            40,
            3,
            5,
            0,
            3,
            0x000101,
            0x010002,
            0x020100,
            1,
            40,
            64,
            1,
            1 << 31,
            0,
            0,
        ],
        // Both parts; all step kinds; coefficients and bounds at their ends.
        vec![
            1,
            33,
            0,
            1,
            2,
            1,
            56,
            32,
            1 << 31,
            0,
            1,
            0x1f201f,
            6,
            1,
            1,
            1,
            32_767,
            minus(32_768),
            1 << 31,
            2,
            3,
            0,
            minus(1),
            1,
            1_000,
            999,
            3,
            0,
            4,
            1,
            2,
            5,
            3,
            0,
            2,
            0,
            0,
            1,
            0,
            32,
        ],
    ]
}

/// Each base sheet with one word changed, cut at each length, and with a word more.
fn changed_sheets() -> impl Iterator<Item = Vec<u32>> {
    base_sheets().into_iter().flat_map(|base| {
        let changed: Vec<Vec<u32>> = (0..base.len())
            .flat_map(|place| {
                let base = &base;
                likely_words(base[place]).into_iter().map(move |word| {
                    let mut sheet = base.clone();
                    sheet[place] = word;
                    sheet
                })
            })
            .collect();
        let cut: Vec<Vec<u32>> = (0..=base.len())
            .map(|length| base[..length].to_vec())
            .collect();
        let longer = [0, 32, 33].map(|word| [&base[..], &[word]].concat());
        changed.into_iter().chain(cut).chain(longer)
    })
}

/// Words to put in a word's place.
fn likely_words(old: u32) -> Vec<u32> {
    let near = [old.wrapping_add(1), old.wrapping_sub(1)];
    let single_bits = (0..32).flat_map(|bit| [1 << bit, old ^ 1 << bit]);
    let below = (0..70).chain([255, 256, 257]);
    let limits = [
        999, 1_000, 1_001, 1_023, 1_024, 1_025, 32_767, 32_768, 65_535, 65_536,
    ];
    let negative = (0..3)
        .chain(32_766..32_771)
        .map(|number| 0u32.wrapping_sub(number));
    near.into_iter()
        .chain(single_bits)
        .chain(below)
        .chain(limits)
        .chain(negative)
        .collect()
}

/// The base sheets' files cut at each byte, and with one to five bytes more; for buffers of each
/// length about the one needed.
fn cut_files() -> impl Iterator<Item = Input> {
    base_sheets().into_iter().flat_map(|base| {
        let whole = file(&base);
        let long = [&whole[..], &[0; 5]].concat();
        let needed = base.len();
        (0..=long.len()).flat_map(move |length| {
            let file = long[..length].to_vec();
            [0, needed - 1, needed, needed + 1].map(move |room| Input::SheetFromFile {
                file: file.clone(),
                words: vec![FILLER; room],
            })
        })
    })
}

/// One text with every start and length over a short text, in both kinds, and the same words at a
/// tag beside it.
fn text_words() -> impl Iterator<Item = Input> {
    const TEXT: &[u8] = b" 12 a< 7/\t>3&-\x004";
    let numbers = || (0..=TEXT.len() as u32 + 2).chain([u32::MAX - 1, u32::MAX]);
    numbers().flat_map(move |start| {
        numbers().flat_map(move |length| {
            [65, 66, 1].map(|symbol| Input::Write {
                list: b"ab\n".to_vec(),
                text: TEXT.to_vec(),
                tree: vec![1, 2, 0, 0, symbol, 1, start, length],
                out: vec![0x5a; 40],
            })
        })
    })
}

/// Two hundred sheets with two kind-three rules of any parts, each with every word of up to five
/// children with the states 0 to 2.
fn child_words() -> impl Iterator<Item = Input> {
    (0..200).flat_map(|number| {
        let sheet = sheet_for_words(&mut Random::new(number)).words();
        strings(&[1, 2, 3], 5).map(move |tags: Vec<u32>| {
            let children = tags.iter().map(|&tag| Item::Element(tag, Vec::new()));
            let form = Item::Element(4, children.collect());
            let tree = words(&nodes(&form, &mut Vec::new()));
            Input::Judge {
                sheet: sheet.clone(),
                states: vec![FILLER; tree.len() / 4 + 1],
                tree,
            }
        })
    })
}

/// Empty content reaches state 3, with which tags 1 to 3 reach the states 0 to 2; what the rules
/// under test reach, tag 4 tells.
fn sheet_for_words(random: &mut Random) -> Sheet {
    let every_state = (0..4).map(|state| Weight {
        state,
        coefficient: 1,
    });
    let no_children = Step::AtMost {
        weights: every_state.collect(),
        bound: 0,
    };
    let mut rules = vec![Rule::Content {
        order: None,
        count: Some(vec![no_children]),
        target: 3,
    }];
    for (tag, inner, target) in [(1, 3, 0), (2, 3, 1), (3, 3, 2), (4, 0, 0), (4, 1, 1)] {
        rules.push(Rule::Element { tag, inner, target });
    }
    for own_target in [0, 1] {
        let mut rule = any_content_rule(random, &TINY, 3);
        if let Rule::Content { target, .. } = &mut rule {
            *target = own_target;
        }
        rules.push(rule);
    }
    Sheet {
        states: 4,
        finals: 1,
        tags: 4,
        rules,
    }
}

fn swaps() -> impl Iterator<Item = Input> {
    base_sheets().into_iter().flat_map(|sheet| {
        let needed = sheet.len();
        [0, needed - 1, needed, needed + 3].map(move |room| Input::Swap {
            sheet: sheet.clone(),
            out: vec![FILLER; room],
        })
    })
}

/// Every two of the base sheets and of forty small ones.
fn joins() -> impl Iterator<Item = Input> {
    let mut sheets = base_sheets();
    let small = (0..40).map(|number| {
        let random = &mut Random::new(number);
        let mut sheet = super::sheets::sheet(random, &TINY);
        sheet.tags = 4;
        sheet.words()
    });
    sheets.extend(small);
    let all = sheets.clone();
    sheets.into_iter().flat_map(move |first| {
        all.clone().into_iter().map(move |second| Input::Join {
            first: first.clone(),
            second,
            out: vec![FILLER; 16_384],
        })
    })
}

/// Document 01's files, each of them there, empty, or cut by one byte.
fn missing_files() -> impl Iterator<Item = Input> {
    let files = [
        document::NAME_LIST.to_vec(),
        file(&document::sheet_s()),
        document::CASE_1.to_vec(),
    ];
    (0..27).map(move |number: usize| {
        let version = |place: usize| match number / 3usize.pow(place as u32) % 3 {
            0 => files[place].clone(),
            1 => Vec::new(),
            _ => files[place][..files[place].len() - 1].to_vec(),
        };
        Input::Formcheck {
            list: version(0),
            file: version(1),
            text: version(2),
        }
    })
}
