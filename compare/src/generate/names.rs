//! Name lists.

use super::random::Random;
use crate::reference::names::{MOST_NAMES, MOST_NAME_BYTES};

const LETTERS: &[u8] = b"ABYZabcdoyz";
const NAME_BYTES: &[u8] = b"AZazbct0159-";

/// A number of names, often at a boundary.
pub fn any_count(random: &mut Random) -> usize {
    match random.below(10) {
        0 => 1,
        1 => 63,
        2 => 64,
        3 => random.between(1, 64),
        _ => random.between(2, 6),
    }
}

fn any_length(random: &mut Random) -> usize {
    match random.below(8) {
        0 => 1,
        1 => 23,
        2 => 24,
        3 => random.between(1, 24),
        _ => random.between(1, 5),
    }
}

pub fn any_name(random: &mut Random, length: usize) -> Vec<u8> {
    let mut name = vec![random.pick(LETTERS)];
    while name.len() < length {
        name.push(random.pick(NAME_BYTES));
    }
    name
}

/// A name like an earlier one: longer, shorter, in the other case, or with another end.
fn similar_name(random: &mut Random, earlier: &[u8]) -> Vec<u8> {
    let mut name = earlier.to_vec();
    match random.below(4) {
        0 => name.push(random.pick(NAME_BYTES)),
        1 => {
            name.pop();
        }
        2 => {
            let index = random.below(name.len());
            if name[index].is_ascii_alphabetic() {
                name[index] ^= 32;
            }
        }
        _ => {
            name.pop();
            name.push(random.pick(NAME_BYTES));
        }
    }
    name
}

/// So many distinct names of 1 to 24 bytes.
pub fn names(random: &mut Random, count: usize) -> Vec<Vec<u8>> {
    let similar = random.pick(&[0, 30, 80]);
    let mut names: Vec<Vec<u8>> = Vec::new();
    while names.len() < count {
        let name = if !names.is_empty() && random.chance(similar) {
            let earlier = random.pick(&names);
            similar_name(random, &earlier)
        } else {
            let length = any_length(random);
            any_name(random, length)
        };
        let fits = !name.is_empty() && name.len() <= MOST_NAME_BYTES;
        if fits && name[0].is_ascii_alphabetic() && !names.contains(&name) {
            names.push(name);
        }
    }
    names
}

pub fn list(names: &[Vec<u8>]) -> Vec<u8> {
    let mut list = Vec::new();
    for name in names {
        list.extend(name);
        list.push(10);
    }
    list
}

/// A list, valid or with one thing wrong.
pub fn any_list(random: &mut Random) -> Vec<u8> {
    let count = any_count(random);
    let names = names(random, count);
    if random.chance(35) {
        list(&names)
    } else {
        damaged(random, &names)
    }
}

/// Names made into a list with one change, which is mostly a damage.
pub fn damaged(random: &mut Random, names: &[Vec<u8>]) -> Vec<u8> {
    let mut names = names.to_vec();
    let place = random.below(names.len());
    match random.below(12) {
        0 => names[place].clear(),
        1 => {
            let length = random.pick(&[24, 25, 25, 26, 30]);
            names[place] = any_name(random, length);
        }
        2 => {
            let again = random.pick(&names);
            names.insert(random.between(1, names.len()), again);
        }
        3 => names[place].push(13),
        4 => names[place][0] = random.pick(b"0-9 /<_"),
        5 => return sixty_fifth(random, names),
        6 => {
            let bytes = random.byte();
            names[place].push(bytes);
        }
        7 => return Vec::new(),
        8 => return unterminated(random, &names),
        _ => return with_one_byte_changed(random, &names),
    }
    list(&names)
}

/// 64 names and a bit more, or exactly 64.
fn sixty_fifth(random: &mut Random, mut names: Vec<Vec<u8>>) -> Vec<u8> {
    let mut number = 0;
    while names.len() < MOST_NAMES {
        let name = format!("n-{number}").into_bytes();
        if !names.contains(&name) {
            names.push(name);
        }
        number += 1;
    }
    let mut list = list(&names);
    let more: &[u8] = random.pick(&[b"", b"", b"q65\n", b"q65", b"\n", b"0\n", b"n-0\n", b"\0"]);
    list.extend(more);
    list
}

fn unterminated(random: &mut Random, names: &[Vec<u8>]) -> Vec<u8> {
    let mut list = list(names);
    match random.below(3) {
        0 => {
            list.pop();
        }
        1 => list.extend(b"last-one"),
        _ => list.truncate(random.below(list.len())),
    }
    list
}

fn with_one_byte_changed(random: &mut Random, names: &[Vec<u8>]) -> Vec<u8> {
    let mut list = list(names);
    let place = random.below(list.len());
    match random.below(4) {
        0 => list[place] = random.byte(),
        1 => list[place] = random.pick(b"a0-\n\r <>&/_~\x7f"),
        2 => {
            let byte = random.pick(b"a0-\n\r ");
            list.insert(place, byte);
        }
        _ => {
            list.remove(place);
        }
    }
    list
}
