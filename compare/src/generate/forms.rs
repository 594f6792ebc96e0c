//! Forms as nested items, from which texts and trees are made.

use super::random::Random;
use crate::reference::tree::{Node, INTEGER_TEXT, OTHER_TEXT};

/// An element with its tag, counted from 1, or a text.
#[derive(Clone, Debug)]
pub enum Item {
    Element(u32, Vec<Item>),
    Text(Vec<u8>),
}

/// The bounds of a grown form.
#[derive(Clone, Copy)]
pub struct Growth {
    pub tags: u32,
    pub nodes: usize,
    pub depth: usize,
    /// How often a child is a text, in percent.
    pub texts: usize,
}

/// An element of at most so many nodes.
pub fn grow(random: &mut Random, growth: Growth) -> Item {
    let mut children: Vec<Item> = Vec::new();
    let mut left = growth.nodes - 1;
    while left > 0 {
        let after_text = matches!(children.last(), Some(Item::Text(_)));
        if !after_text && random.chance(growth.texts) {
            children.push(Item::Text(any_text(random)));
            left -= 1;
            continue;
        }
        if growth.depth == 1 {
            break;
        }
        let nodes = share(random, left);
        left -= nodes;
        children.push(grow(
            random,
            Growth {
                nodes,
                depth: growth.depth - 1,
                ..growth
            },
        ));
    }
    Item::Element(any_tag(random, growth.tags), children)
}

/// How many of the nodes left a child takes.
fn share(random: &mut Random, left: usize) -> usize {
    match random.below(4) {
        0 => left,
        1 => random.between(1, left),
        _ => random.between(1, left.min(3)),
    }
}

pub fn any_tag(random: &mut Random, tags: u32) -> u32 {
    match random.below(8) {
        0 => 1,
        1 => tags,
        _ => random.number(tags) + 1,
    }
}

/// A small form over so many tags.
pub fn small(random: &mut Random, tags: u32) -> Item {
    let nodes = match random.below(6) {
        0 => random.between(1, 3),
        1 => random.between(10, 60),
        _ => random.between(2, 14),
    };
    let growth = Growth {
        tags,
        nodes,
        depth: random.pick(&[2, 3, 4, 8, 32]),
        texts: random.pick(&[0, 20, 40, 60]),
    };
    grow(random, growth)
}

/// Elements one in the other down to a depth, each with a few siblings, around something.
pub fn chain(random: &mut Random, tags: u32, depth: usize) -> Item {
    let mut item = Item::Element(any_tag(random, tags), deepest_content(random));
    for level in (1..depth).rev() {
        let mut children = Vec::new();
        if random.chance(15) {
            children.push(sibling(random, tags));
        }
        children.push(item);
        if random.chance(15) && level < 32 {
            children.push(sibling(random, tags));
        }
        item = Item::Element(any_tag(random, tags), children);
    }
    item
}

fn deepest_content(random: &mut Random) -> Vec<Item> {
    if random.chance(50) {
        vec![Item::Text(any_text(random))]
    } else {
        Vec::new()
    }
}

fn sibling(random: &mut Random, tags: u32) -> Item {
    if random.chance(50) {
        Item::Text(any_text(random))
    } else {
        Item::Element(any_tag(random, tags), Vec::new())
    }
}

/// A form of exactly so many nodes (or a few more where the start was larger).
pub fn of_size(random: &mut Random, tags: u32, nodes: usize) -> Item {
    let texts = random.pick(&[0, 10, 50]);
    let growth = Growth {
        tags,
        nodes: random.between(1, nodes),
        depth: 32,
        texts,
    };
    let mut form = match random.below(3) {
        0 => Item::Element(any_tag(random, tags), Vec::new()),
        1 => chain(random, tags, 32),
        _ => grow(random, growth),
    };
    let present = number_of_nodes(&form);
    let Item::Element(_, children) = &mut form else {
        unreachable!("a form is an element")
    };
    for _ in present..nodes {
        let after_text = matches!(children.last(), Some(Item::Text(_)));
        if !after_text && random.chance(texts) {
            children.push(Item::Text(any_text(random)));
        } else {
            children.push(Item::Element(any_tag(random, tags), Vec::new()));
        }
    }
    form
}

pub fn number_of_nodes(item: &Item) -> usize {
    match item {
        Item::Text(_) => 1,
        Item::Element(_, children) => 1 + children.iter().map(number_of_nodes).sum::<usize>(),
    }
}

/// A trimmed text: digits only, nearly so, or anything.
pub fn any_text(random: &mut Random) -> Vec<u8> {
    let length = match random.below(6) {
        0 => 1,
        1 => random.between(6, 20),
        _ => random.between(1, 5),
    };
    let inner: &[u8] = match random.below(6) {
        0 | 1 => b"0123456789",
        2 => b"0123456789 \t",
        3 => b"kWhAZaz",
        4 => b"09-/",
        _ => b"kW 0-/!\"#$%'()*+,.:;=?@[\\]^_`{|}~\t\n\rAZaz19",
    };
    let mut text: Vec<u8> = (0..length).map(|_| random.pick(inner)).collect();
    for end in [0, length - 1] {
        if text[end].is_ascii_whitespace() {
            text[end] = random.pick(b"3x-");
        }
    }
    text
}

/// The bytes of a form, with white at some of the places where it may stand.
pub fn print(random: &mut Random, item: &Item, names: &[Vec<u8>], white: usize) -> Vec<u8> {
    let mut out = Vec::new();
    push_white(random, white, &mut out);
    push_item(random, item, names, white, &mut out);
    push_white(random, white, &mut out);
    out
}

fn push_white(random: &mut Random, percent: usize, out: &mut Vec<u8>) {
    while random.chance(percent) {
        out.push(random.pick(b"\t\n\r "));
    }
}

fn push_item(random: &mut Random, item: &Item, names: &[Vec<u8>], white: usize, out: &mut Vec<u8>) {
    let (tag, children) = match item {
        Item::Text(text) => return out.extend(text),
        Item::Element(tag, children) => (*tag, children),
    };
    let name = &names[tag as usize - 1];
    out.push(b'<');
    out.extend(name);
    push_white(random, white, out);
    if children.is_empty() && random.chance(60) {
        return out.extend(b"/>");
    }
    out.push(b'>');
    push_white(random, white, out);
    for child in children {
        push_item(random, child, names, white, out);
        push_white(random, white, out);
    }
    out.extend(b"</");
    out.extend(name);
    push_white(random, white, out);
    out.push(b'>');
}

/// The nodes of a form; a text's words point into the pool, to which its bytes are added.
pub fn nodes(item: &Item, pool: &mut Vec<u8>) -> Vec<Node> {
    let mut nodes = Vec::new();
    push_nodes(item, pool, &mut nodes);
    nodes
}

fn push_nodes(item: &Item, pool: &mut Vec<u8>, nodes: &mut Vec<Node>) {
    match item {
        Item::Text(text) => {
            let integer = text.iter().all(u8::is_ascii_digit);
            nodes.push(Node {
                symbol: if integer { INTEGER_TEXT } else { OTHER_TEXT },
                size: 1,
                start: pool.len() as u32,
                length: text.len() as u32,
            });
            pool.extend(text);
            pool.push(b' ');
        }
        Item::Element(tag, children) => {
            let number = nodes.len();
            nodes.push(Node {
                symbol: *tag,
                size: 0,
                start: 0,
                length: 0,
            });
            for child in children {
                push_nodes(child, pool, nodes);
            }
            nodes[number].size = (nodes.len() - number) as u32;
        }
    }
}
