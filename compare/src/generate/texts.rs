//! Texts for the reader.

use super::forms::{chain, grow, of_size, print, small, Growth, Item};
use super::names::{any_count, any_name, list, names};
use super::random::Random;
use crate::reference::bytes::goes_on_in_name;

/// A valid name list and a text over it, valid or damaged.
pub fn list_and_text(random: &mut Random) -> (Vec<u8>, Vec<u8>) {
    match random.weighted(&[45, 22, 12, 9, 2, 3]) {
        0 => over_names(random, small_text),
        1 => probe(random),
        2 => over_names(random, deep_text),
        3 => over_names(random, renamed_text),
        4 => over_names(random, many_nodes),
        _ => over_names(random, about_full_length),
    }
}

fn over_names(
    random: &mut Random,
    text: impl Fn(&mut Random, &[Vec<u8>]) -> Vec<u8>,
) -> (Vec<u8>, Vec<u8>) {
    let count = any_count(random);
    let names = names(random, count);
    let text = text(random, &names);
    (list(&names), text)
}

fn any_white(random: &mut Random) -> usize {
    random.pick(&[0, 10, 40])
}

/// A small form's text, in about half of all cases with one or two damages.
pub fn small_text(random: &mut Random, names: &[Vec<u8>]) -> Vec<u8> {
    let form = small(random, names.len() as u32);
    let white = any_white(random);
    let mut text = print(random, &form, names, white);
    if random.chance(50) {
        damage(random, &mut text);
        if random.chance(15) {
            damage(random, &mut text);
        }
    }
    text
}

/// A byte of any class, each class equally often.
fn byte_of_any_class(random: &mut Random) -> u8 {
    match random.below(9) {
        0 => random.pick(b"\t\n\r "),
        1 => random.pick(b"AZazm"),
        2 => random.pick(b"0159"),
        3 => b'-',
        4 => b'<',
        5 => b'>',
        6 => b'/',
        7 => random.pick(b"!\"#$%'()*+,.:;=?@[\\]^_`{|}~"),
        _ => random.pick(&[0, 8, 11, 12, 14, 31, b'&', 127, 128, 133, 160, 255]),
    }
}

/// An offset, often at or beside a byte of a tag.
fn offset(random: &mut Random, text: &[u8]) -> usize {
    let place = random.below(text.len());
    if random.chance(50) {
        return place;
    }
    let next = text[place..].iter().position(|byte| b"<>/".contains(byte));
    match next {
        Some(distance) => (place + distance + random.below(2)).min(text.len() - 1),
        None => place,
    }
}

/// Changes a text in one place.
pub fn damage(random: &mut Random, text: &mut Vec<u8>) {
    if text.is_empty() {
        return;
    }
    let place = offset(random, text);
    match random.below(9) {
        0 => text[place] = random.byte(),
        1 | 2 => text[place] = byte_of_any_class(random),
        3 | 4 => {
            let byte = byte_of_any_class(random);
            text.insert(place, byte);
        }
        5 => {
            text.remove(place);
        }
        6 => text.truncate(place),
        7 => {
            let end = (place + random.between(1, 8)).min(text.len());
            let again = text[place..end].to_vec();
            text.splice(place..place, again);
        }
        _ => {
            let more: &[u8] = random.pick(&[
                b"<a/>", b"x", b"<", b"/", b">", b"&", b" \t", b"</a>", b"\0", b"-", b"7",
            ]);
            text.extend(more);
        }
    }
}

/// A text in which the name of one tag is another one.
fn renamed_text(random: &mut Random, names: &[Vec<u8>]) -> Vec<u8> {
    let form = small(random, names.len() as u32);
    let mut text = print(random, &form, names, 5);
    let starts: Vec<usize> = (0..text.len() - 1)
        .filter(|&at| is_name_start(&text, at))
        .collect();
    let start = random.pick(&starts);
    let length = text[start..]
        .iter()
        .take_while(|&&byte| goes_on_in_name(byte))
        .count();
    let new = other_name(random, names, &text[start..start + length]);
    text.splice(start..start + length, new);
    if random.chance(25) {
        damage(random, &mut text);
    }
    text
}

fn is_name_start(text: &[u8], at: usize) -> bool {
    let after_less = at > 0 && text[at - 1] == b'<';
    let after_slash = at > 1 && text[at - 1] == b'/' && text[at - 2] == b'<';
    text[at].is_ascii_alphabetic() && (after_less || after_slash)
}

fn other_name(random: &mut Random, names: &[Vec<u8>], name: &[u8]) -> Vec<u8> {
    let mut new = name.to_vec();
    match random.below(6) {
        0 | 1 => new = random.pick(names),
        2 => new.push(random.pick(b"a0-Z")),
        3 => {
            if new.len() > 1 {
                new.pop();
            }
        }
        4 => new[0] ^= 32,
        _ => {
            let length = random.pick(&[1, 24, 25, 60]);
            new = any_name(random, length);
        }
    }
    new
}

/// The names over which the places of the grammar are probed.
pub const PROBE_LIST: &[u8] = b"a\nb\nab\na-1\n";

/// Beginnings that end at every kind of place in the grammar.
pub const PREFIXES: &[&[u8]] = &[
    b"",
    b" \n",
    b"<",
    b"<a",
    b"<a ",
    b"<a/",
    b"<a /",
    b"<a>",
    b"<a> ",
    b"<a>x",
    b"<a>x ",
    b"<a>5",
    b"<a>5 ",
    b"<a>/",
    b"<a>-",
    b"<a><",
    b"<a></",
    b"<a></a",
    b"<a></a ",
    b"<a></a>",
    b"<a></a> ",
    b"<a><b",
    b"<a><b ",
    b"<a><b/",
    b"<a><b/>",
    b"<a><b/> ",
    b"<a><b/>x",
    b"<a><b>",
    b"<a><b></",
    b"<a><b></b",
    b"<a><b></b ",
    b"<a><b></b>",
    b"<a><b>1</b>",
    b"<a/>",
    b"<a/> ",
    b"<a-",
    b"<a-1",
    b"<q",
    b"<a></q",
    b"<a></ab",
];

/// What may follow a byte after such a beginning.
pub const SUFFIXES: &[&[u8]] = &[
    b"",
    b">",
    b"/>",
    b"a/>",
    b"a></a>",
    b"></a>",
    b"/></a>",
    b"</a>",
    b"x</a>",
    b" </a>",
    b" 5</a>",
    b"b/></a>",
    b"b></b></a>",
    b"</b></a>",
    b"b></a>",
    b"a>",
    b" ",
    b"<a/>",
    b"&",
];

/// A place in the grammar, then any byte, then a possible end.
fn probe(random: &mut Random) -> (Vec<u8>, Vec<u8>) {
    let mut text = random.pick(PREFIXES).to_vec();
    if random.chance(50) {
        text.push(random.byte());
    } else {
        text.push(byte_of_any_class(random));
    }
    text.extend(random.pick(SUFFIXES));
    (PROBE_LIST.to_vec(), text)
}

/// Elements 31 to 34 deep, or something that nearly is one at depth 33.
pub fn deep_text(random: &mut Random, names: &[Vec<u8>]) -> Vec<u8> {
    let depth = random.pick(&[31, 32, 32, 33, 33, 34]);
    let form = chain(random, names.len() as u32, depth);
    let white = random.pick(&[0, 0, 10]);
    let mut text = print(random, &form, names, white);
    if random.chance(50) {
        tip(random, names, &mut text);
    }
    if random.chance(15) {
        damage(random, &mut text);
    }
    text
}

/// Puts something short before the first end of an element, which is the deepest in a chain.
fn tip(random: &mut Random, names: &[Vec<u8>], text: &mut Vec<u8>) {
    let end = text.windows(2).position(|pair| pair == b"</");
    let place = end.unwrap_or(text.len());
    let snippet = snippet(random, names);
    if random.chance(50) {
        text.truncate(place);
    }
    let place = place.min(text.len());
    text.splice(place..place, snippet);
}

/// What may stand where a node begins: a node, a broken one, or nearly none.
fn snippet(random: &mut Random, names: &[Vec<u8>]) -> Vec<u8> {
    let fixed: &[&[u8]] = &[
        b"<z", b"<", b"<1", b"<!", b"</", b"</1", b"<q-1/>", b"x", b"x>", b"x&", b"7", b"7 ", b" ",
        b">", b"&", b"<&", b"<z&", b"-", b"/", b"",
    ];
    let name = random.pick(names);
    let ends: &[&[u8]] = &[b"", b" ", b"/>", b"/", b">", b"&", b"</"];
    if random.chance(50) {
        return random.pick(fixed).to_vec();
    }
    let mut snippet = b"<".to_vec();
    snippet.extend(name);
    snippet.extend(random.pick(ends));
    snippet
}

/// Short names, so that thousands of nodes fit a text.
fn shortest(names: &[Vec<u8>]) -> Vec<Vec<u8>> {
    let mut sorted = names.to_vec();
    sorted.sort_by_key(Vec::len);
    sorted.truncate(3);
    sorted
}

/// About 4,096 nodes; or exactly that many before something short at some depth up to 32.
pub fn many_nodes(random: &mut Random, names: &[Vec<u8>]) -> Vec<u8> {
    let names = shortest(names);
    let tags = names.len() as u32;
    if random.chance(50) {
        let nodes = random.between(4_095, 4_098);
        let form = of_size(random, tags, nodes);
        let mut text = print(random, &form, &names, 0);
        if random.chance(25) {
            damage(random, &mut text);
        }
        return text;
    }
    let open = random.pick(&[1, 2, 31, 32]);
    let nodes = random.pick(&[4_095, 4_096, 4_096, 4_096]);
    let mut text = unfinished(random, &names, open, nodes);
    let snippet = snippet(random, &names);
    text.extend(snippet);
    text
}

/// So many elements left open and so many nodes in all; most of them stand in the last element but
/// one, and none of them is a text at the end.
fn unfinished(random: &mut Random, names: &[Vec<u8>], open: usize, nodes: usize) -> Vec<u8> {
    let mut text = Vec::new();
    for level in 1..=open {
        text.push(b'<');
        text.extend(random.pick(names));
        text.push(b'>');
        if level == open.max(2) - 1 {
            push_filling(random, names, nodes - open, &mut text);
        }
    }
    text
}

/// So many nodes side by side, the last of them an element.
fn push_filling(random: &mut Random, names: &[Vec<u8>], nodes: usize, text: &mut Vec<u8>) {
    let mut left = nodes;
    while left > 0 {
        if left > 1 && random.chance(30) {
            text.push(b'5');
            left -= 1;
        }
        text.push(b'<');
        text.extend(random.pick(names));
        text.extend(b"/>");
        left -= 1;
    }
}

/// A text of 65,534 to 65,537 bytes, sometimes damaged near its end or anywhere.
fn about_full_length(random: &mut Random, names: &[Vec<u8>]) -> Vec<u8> {
    let target = random.between(65_534, 65_537);
    let form = about_full_form(random, names);
    let mut text = print(random, &form, names, 5);
    stretch(random, &mut text, target);
    match random.below(4) {
        0 => {
            let place = random.below(text.len());
            text[place] = byte_of_any_class(random);
        }
        1 => {
            let place = text.len() - 1 - random.below(6);
            text[place] = byte_of_any_class(random);
        }
        _ => {}
    }
    text
}

fn about_full_form(random: &mut Random, names: &[Vec<u8>]) -> Item {
    let nodes = random.pick(&[1, 3, 20, 400]);
    let growth = Growth {
        tags: names.len() as u32,
        nodes,
        depth: 32,
        texts: 40,
    };
    grow(random, growth)
}

/// Brings a text to a length by white around it, white in a tag, or a long text.
fn stretch(random: &mut Random, text: &mut Vec<u8>, target: usize) {
    let missing = target.saturating_sub(text.len());
    let (place, byte) = match random.below(4) {
        0 => (0, b' '),
        1 => (text.len(), b'\n'),
        2 => (before_last_end(text), b'8'),
        _ => (text.len() - trailing_white(text) - 1, b'\t'),
    };
    text.splice(place..place, std::iter::repeat_n(byte, missing));
}

fn trailing_white(text: &[u8]) -> usize {
    text.iter()
        .rev()
        .take_while(|byte| byte.is_ascii_whitespace())
        .count()
}

/// The `<` of the last end tag, where a text may be put; the end if there is none.
fn before_last_end(text: &[u8]) -> usize {
    let last = text.windows(2).rposition(|pair| pair == b"</");
    last.unwrap_or(text.len())
}
