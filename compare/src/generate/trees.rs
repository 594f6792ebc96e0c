//! Trees for the shape check, the run and the writer.

use super::forms::{any_tag, chain, grow, nodes, of_size, small, Growth, Item};
use super::random::Random;
use crate::reference::tree::{words, Node};

/// A number of tags, often at a boundary; seldom none, or more than a list or sheet can have.
fn any_tags(random: &mut Random) -> u32 {
    if random.chance(8) {
        random.pick(&[0, 65, 65, 66, 66, 67, 70, u32::MAX])
    } else {
        random.pick(&[1, 2, 3, 4, 5, 7, 31, 32, 63, 64])
    }
}

/// A tree's tags and words, valid or damaged.
pub fn any_tree(random: &mut Random) -> (u32, Vec<u32>) {
    let given = any_tags(random);
    let tags = given.clamp(1, 70);
    let form = match random.weighted(&[70, 18, 4]) {
        0 => small(random, tags),
        1 => {
            let depth = random.pick(&[31, 32, 32, 33, 33, 34]);
            chain(random, tags, depth)
        }
        _ => {
            let nodes = random.between(4_094, 4_098);
            of_size(random, tags, nodes)
        }
    };
    let form = if random.chance(15) {
        with_a_text_doubled(random, form)
    } else {
        form
    };
    let mut tree = plain_words(random, &form);
    if random.chance(60) {
        damage(random, tags, &mut tree);
    }
    (given, tree)
}

/// The words of a form, its text words as they are, 0 or anything.
pub fn plain_words(random: &mut Random, form: &Item) -> Vec<u32> {
    let mut nodes = nodes(form, &mut Vec::new());
    match random.below(3) {
        0 => {}
        1 => {
            for node in &mut nodes {
                (node.start, node.length) = (0, 0);
            }
        }
        _ => {
            for node in &mut nodes {
                (node.start, node.length) = (random.word(), random.word());
            }
        }
    }
    words(&nodes)
}

/// Puts a second text beside a text, at the first place found; with sizes that are right.
fn with_a_text_doubled(random: &mut Random, form: Item) -> Item {
    let Item::Element(tag, mut children) = form else {
        return form;
    };
    let text = children
        .iter()
        .position(|child| matches!(child, Item::Text(_)));
    match text {
        Some(index) if random.chance(60) => children.insert(index, Item::Text(b"5".to_vec())),
        _ if children.is_empty() => {}
        _ => {
            let index = random.below(children.len());
            let child = children[index].clone();
            children[index] = with_a_text_doubled(random, child);
        }
    }
    Item::Element(tag, children)
}

/// Changes one word, or the length.
pub fn damage(random: &mut Random, tags: u32, tree: &mut Vec<u32>) {
    let n = tree.len() / 4;
    if n == 0 {
        return;
    }
    let number = random.below(n);
    let at = 4 * number;
    match random.weighted(&[10, 14, 3, 4, 1, 3]) {
        0 => {
            let old = tree[at];
            let one_off = [old.wrapping_sub(1), old.wrapping_add(1)];
            let fixed = [0, 1, tags, tags + 1, 64, 65, 66, 67, u32::MAX];
            tree[at] = any_of(random, &one_off, &fixed);
        }
        1 => {
            let old = tree[at + 1];
            let to_end = (n - number) as u32;
            let near = [old.wrapping_sub(1), old.wrapping_add(1), to_end];
            let wrapping = 0u32.wrapping_sub(number as u32);
            let fixed = [0, 1, 2, n as u32, to_end + 1, wrapping, 1 << 31, u32::MAX];
            tree[at + 1] = any_of(random, &near, &fixed);
        }
        2 => tree[at + random.between(2, 3)] = random.word(),
        3 => change_nodes(random, tree, at),
        4 => tree.clear(),
        _ => {
            let length = random.below(tree.len() + 4);
            tree.resize(length, 1);
        }
    }
}

fn any_of(random: &mut Random, often: &[u32], seldom: &[u32]) -> u32 {
    match random.below(9) {
        0..=3 => random.pick(often),
        4..=7 => random.pick(seldom),
        _ => random.word(),
    }
}

/// Removes a node, doubles it, or changes it for the next one, with no size made right.
fn change_nodes(random: &mut Random, tree: &mut Vec<u32>, at: usize) {
    match random.below(3) {
        0 => {
            tree.drain(at..at + 4);
        }
        1 => {
            let node = tree[at..at + 4].to_vec();
            tree.splice(at..at, node);
        }
        _ => {
            if at + 8 <= tree.len() {
                tree[at..at + 8].rotate_left(4);
            }
        }
    }
}

/// A text and a tree over it for the writer, with so many tags.
pub fn text_and_tree(random: &mut Random, names: &[Vec<u8>]) -> (Vec<u8>, Vec<u32>) {
    match random.weighted(&[1_000, 80, 3, 60]) {
        0 => small_written(random, names),
        1 => about_full(random, names),
        2 => far_over(random, names),
        _ => large_written(random, names),
    }
}

/// A form of many nodes, or a deep one.
fn large_written(random: &mut Random, names: &[Vec<u8>]) -> (Vec<u8>, Vec<u32>) {
    let tags = names.len() as u32;
    let form = if random.chance(30) {
        let nodes = random.between(4_095, 4_097);
        of_size(random, tags, nodes)
    } else {
        let depth = random.between(31, 33);
        chain(random, tags, depth)
    };
    let mut pool = Vec::new();
    let mut nodes = nodes(&form, &mut pool);
    pool.truncate(65_535);
    if random.chance(30) {
        damage_text_words(random, &mut nodes, &mut pool);
    }
    (pool, words(&nodes))
}

fn small_written(random: &mut Random, names: &[Vec<u8>]) -> (Vec<u8>, Vec<u32>) {
    let tags = names.len() as u32;
    let mut form = small(random, tags);
    if random.chance(4) {
        form = with_a_text_doubled(random, form);
    }
    let mut pool = random.pick(&[&b""[..], b"<a> ", b"12 x", b" \0&"]).to_vec();
    let mut nodes = nodes(&form, &mut pool);
    if random.chance(40) {
        pool.pop();
    }
    for node in &mut nodes {
        if node.is_text() && random.chance(20) {
            point_elsewhere(random, &pool, node);
        }
    }
    if random.chance(55) {
        damage_text_words(random, &mut nodes, &mut pool);
    }
    let mut tree = words(&nodes);
    if random.chance(15) {
        damage(random, tags, &mut tree);
    }
    (pool, tree)
}

/// Lets a text be any trimmed part of the pool, if one is soon found.
fn point_elsewhere(random: &mut Random, pool: &[u8], node: &mut Node) {
    for _ in 0..8 {
        let start = random.below(pool.len());
        let end = random.between(start + 1, pool.len().min(start + 12));
        let part = &pool[start..end];
        let allowed = |byte: &u8| {
            byte.is_ascii_whitespace() || byte.is_ascii_graphic() && !b"<>&".contains(byte)
        };
        let white_end = part[0].is_ascii_whitespace() || part[part.len() - 1].is_ascii_whitespace();
        if part.iter().all(allowed) && !white_end {
            node.symbol = if part.iter().all(u8::is_ascii_digit) {
                65
            } else {
                66
            };
            (node.start, node.length) = (start as u32, (end - start) as u32);
            return;
        }
    }
}

/// Changes the text words or kind of one node, or one byte of the text.
fn damage_text_words(random: &mut Random, nodes: &mut [Node], pool: &mut [u8]) {
    let texts: Vec<usize> = (0..nodes.len())
        .filter(|&number| nodes[number].is_text())
        .collect();
    if texts.is_empty() && random.chance(70) {
        return;
    }
    if texts.is_empty() || random.chance(8) {
        let node = random.below(nodes.len());
        let word = random.pick(&[1, 1, 7, u32::MAX]);
        match random.below(3) {
            0 => nodes[node].start = word,
            1 => nodes[node].length = word,
            _ => (nodes[node].start, nodes[node].length) = (word, word),
        }
        return;
    }
    let node = &mut nodes[random.pick(&texts)];
    let length = pool.len() as u32;
    match random.below(14) {
        0 => node.start = node.start.wrapping_sub(1),
        1 => node.start += 1,
        2 => node.length += 1,
        3 => node.length -= 1,
        4 => node.length = 0,
        5 => node.symbol ^= 65 ^ 66,
        6 => node.start = length - random.number(2),
        7 => node.length = (length - node.start) + random.number(3),
        8 => node.start = random.pick(&[u32::MAX, 1 << 31, 0u32.wrapping_sub(node.length)]),
        9 => node.length = random.pick(&[u32::MAX, 0u32.wrapping_sub(node.start), length]),
        _ => {
            let end = (node.start + node.length).min(length);
            let place = random.between(node.start as usize, end as usize);
            if place < pool.len() {
                pool[place] = random.pick(b" \t\n\rAz09-<>/&!~<>&\0\x7f\xff\x1f\x80");
            }
        }
    }
}

/// A written form of 65,533 to 65,538 bytes, its texts being parts of one long text.
fn about_full(random: &mut Random, names: &[Vec<u8>]) -> (Vec<u8>, Vec<u32>) {
    let tags = names.len() as u32;
    let growth = Growth {
        tags,
        nodes: random.between(1, 60),
        depth: 8,
        texts: 40,
    };
    let mut form = grow(random, growth);
    if let Item::Element(_, children) = &mut form {
        children.push(Item::Element(any_tag(random, tags), Vec::new()));
        children.push(Item::Text(b"0".to_vec()));
    }
    let digits = random.chance(50);
    let pool =
        vec![if digits { b'4' } else { b'w' }; random.pick(&[65_535, 65_535, 65_535, 65_536])];
    let mut nodes = nodes(&form, &mut Vec::new());
    let mut left = random.between(65_533, 65_538) - tag_bytes(names, &nodes);
    let last = nodes.len() - 1;
    for (number, node) in nodes.iter_mut().enumerate() {
        if node.is_text() {
            let most = (left - 1).clamp(1, 65_000);
            let length = if number == last {
                left
            } else {
                random.between(1, most)
            };
            left = (left - length).max(1);
            node.symbol = if digits { 65 } else { 66 };
            (node.start, node.length) = (0, length as u32);
        }
    }
    (pool, words(&nodes))
}

/// The bytes of the written tags.
fn tag_bytes(names: &[Vec<u8>], nodes: &[Node]) -> usize {
    let tags = nodes.iter().filter(|node| !node.is_text());
    tags.map(|node| {
        let name = names[node.symbol as usize - 1].len();
        if node.size == 1 {
            name + 3
        } else {
            2 * name + 5
        }
    })
    .sum()
}

/// A form whose written length is far over 65,535 bytes.
fn far_over(random: &mut Random, names: &[Vec<u8>]) -> (Vec<u8>, Vec<u32>) {
    let tags = names.len() as u32;
    let count = random.pick(&[1, 2, 2, 3, 3, 40, 40, 2_047]);
    let mut children = Vec::new();
    for _ in 0..count {
        children.push(Item::Text(b"1".to_vec()));
        children.push(Item::Element(any_tag(random, tags), Vec::new()));
    }
    let mut nodes = nodes(&Item::Element(1, children), &mut Vec::new());
    let length = random.pick(&[65_535, 65_534, 40_000]);
    for node in nodes.iter_mut().filter(|node| node.is_text()) {
        (node.start, node.length) = (0, length);
    }
    (vec![b'3'; 65_535], words(&nodes))
}
