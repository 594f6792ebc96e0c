//! The reader: a form's text to nodes.

use super::bytes::{class, goes_on_in_name, is_integer, is_text_byte, is_white, Class};
use super::tree::{Node, INTEGER_TEXT, MOST_DEPTH, MOST_NODES, OTHER_TEXT};
use super::{fault, Fault};
use std::ops::Range;

pub const MOST_BYTES: usize = 65_535;

/// "1: text over 65,535 bytes; place 65,535, before 2 to 7."
pub fn check_length(text: &[u8]) -> Result<(), Fault> {
    if text.len() > MOST_BYTES {
        return Err(fault(1, MOST_BYTES, "text over 65,535 bytes"));
    }
    Ok(())
}

/// What stands in a text, in its order. A start tag stands here as soon as its `<` and letter do,
/// a text as soon as its first byte does, an end tag as soon as its name does.
enum Event {
    Start { less: usize, name: Range<usize> },
    EmptyEnd,
    End { name: Range<usize> },
    Text { trimmed: Range<usize> },
}

/// The nodes of a form. "Among 2 to 7 the smallest place wins, then the smaller number."
pub fn parse(names: &[&[u8]], text: &[u8]) -> Result<Vec<Node>, Fault> {
    check_length(text)?;
    let mut scanner = Scanner {
        text,
        at: 0,
        open: 0,
        events: Vec::new(),
    };
    let scanned = scanner.form();
    let mut faults = event_faults(names, text, &scanner.events);
    faults.extend(scanned.err());
    match faults
        .iter()
        .min_by_key(|fault| (fault.place, fault.number))
    {
        Some(&fault) => Err(fault),
        None => Ok(nodes(names, text, &scanner.events)),
    }
}

/// Goes along a form, looking at its grammar alone: "Which names stand, depth and number of nodes
/// don't matter to it."
struct Scanner<'a> {
    text: &'a [u8],
    at: usize,
    open: usize,
    events: Vec<Event>,
}

impl Scanner<'_> {
    /// "A form is one element with white around it."
    fn form(&mut self) -> Result<(), Fault> {
        self.white();
        self.expect(Class::Less, "before the root")?;
        self.start_tag("after the first <")?;
        while self.open > 0 {
            self.content()?;
        }
        self.white();
        if self.at < self.text.len() {
            return Err(self.broken("after the root"));
        }
        Ok(())
    }

    /// Bytes up to the next tag, and that tag.
    fn content(&mut self) -> Result<(), Fault> {
        self.white();
        let in_text = self.holds(is_text_byte);
        if in_text {
            self.text();
        }
        let place = if in_text { "in a text" } else { "in content" };
        self.expect(Class::Less, place)?;
        if self.holds(|byte| class(byte) == Class::Slash) {
            self.at += 1;
            self.end_tag()
        } else {
            self.start_tag("after < in content")
        }
    }

    /// A start or empty tag after its `<`. "After a tag's name white may stand."
    fn start_tag(&mut self, place: &'static str) -> Result<(), Fault> {
        let less = self.at - 1;
        let name = self.name(place)?;
        self.events.push(Event::Start { less, name });
        self.white();
        if self.holds(|byte| class(byte) == Class::Slash) {
            self.at += 1;
            self.expect(Class::Greater, "after / of an empty tag")?;
            self.events.push(Event::EmptyEnd);
        } else {
            self.expect(Class::Greater, "after the name of a start tag")?;
            self.open += 1;
        }
        Ok(())
    }

    /// An end tag after its `</`.
    fn end_tag(&mut self) -> Result<(), Fault> {
        let name = self.name("after </")?;
        self.events.push(Event::End { name });
        self.white();
        self.expect(Class::Greater, "after the name of an end tag")?;
        self.open -= 1;
        Ok(())
    }

    /// "A tag's name goes on as long as it can."
    fn name(&mut self, place: &'static str) -> Result<Range<usize>, Fault> {
        let start = self.at;
        self.expect(Class::Letter, place)?;
        while self.holds(goes_on_in_name) {
            self.at += 1;
        }
        Ok(start..self.at)
    }

    /// "Bytes between tags, with at least one that isn't white, are a text, trimmed at both ends;
    /// < and > end or break it." Stands at the first byte that isn't white.
    fn text(&mut self) {
        let start = self.at;
        let mut end = start;
        while self.holds(|byte| is_white(byte) || is_text_byte(byte)) {
            self.at += 1;
            if !is_white(self.text[self.at - 1]) {
                end = self.at;
            }
        }
        let trimmed = start..end;
        self.events.push(Event::Text { trimmed });
    }

    fn white(&mut self) {
        while self.holds(is_white) {
            self.at += 1;
        }
    }

    fn holds(&self, test: impl Fn(u8) -> bool) -> bool {
        self.text.get(self.at).is_some_and(|&byte| test(byte))
    }

    fn expect(&mut self, wanted: Class, place: &'static str) -> Result<(), Fault> {
        if !self.holds(|byte| class(byte) == wanted) {
            return Err(self.broken(place));
        }
        self.at += 1;
        Ok(())
    }

    /// 3, or 2 where the byte is forbidden: both stand at that byte, and the smaller number wins.
    fn broken(&self, place: &'static str) -> Fault {
        let forbidden = self.holds(|byte| class(byte) == Class::Forbidden);
        fault(if forbidden { 2 } else { 3 }, self.at, place)
    }
}

/// Refusals 4 to 7, all of them.
fn event_faults(names: &[&[u8]], text: &[u8], events: &[Event]) -> Vec<Fault> {
    let mut faults = Vec::new();
    let mut open: Vec<&[u8]> = Vec::new();
    let mut nodes = 0;
    for event in events {
        match event {
            Event::Start { less, name } => {
                if open.len() >= MOST_DEPTH {
                    faults.push(fault(6, *less, "start tag at depth 33"));
                }
                nodes += 1;
                if nodes > MOST_NODES {
                    faults.push(fault(7, *less, "node 4,097 is a tag"));
                }
                if !names.contains(&&text[name.clone()]) {
                    faults.push(fault(4, name.start, "name not listed"));
                }
                open.push(&text[name.clone()]);
            }
            Event::EmptyEnd => {
                open.pop();
            }
            Event::End { name } => {
                let opened = open.pop().expect("the grammar pairs the tags");
                if opened != &text[name.clone()] {
                    faults.push(fault(5, name.start, "end tag names another element"));
                }
            }
            Event::Text { trimmed } => {
                nodes += 1;
                if nodes > MOST_NODES {
                    faults.push(fault(7, trimmed.start, "node 4,097 is a text"));
                }
            }
        }
    }
    faults
}

/// The nodes of a form that isn't refused.
fn nodes(names: &[&[u8]], text: &[u8], events: &[Event]) -> Vec<Node> {
    let mut nodes: Vec<Node> = Vec::new();
    let mut open = Vec::new();
    for event in events {
        match event {
            Event::Start { name, .. } => {
                open.push(nodes.len());
                nodes.push(tag_node(names, &text[name.clone()]));
            }
            Event::EmptyEnd | Event::End { .. } => {
                let number = open.pop().expect("the grammar pairs the tags");
                nodes[number].size = (nodes.len() - number) as u32;
            }
            Event::Text { trimmed } => nodes.push(text_node(text, trimmed)),
        }
    }
    nodes
}

/// "The reader gives a tag 0 in the last two words." The size is set at the element's end.
fn tag_node(names: &[&[u8]], name: &[u8]) -> Node {
    let index = names.iter().position(|&listed| listed == name);
    Node {
        symbol: index.expect("a listed name") as u32 + 1,
        size: 0,
        start: 0,
        length: 0,
    }
}

fn text_node(text: &[u8], trimmed: &Range<usize>) -> Node {
    let integer = is_integer(&text[trimmed.clone()]);
    Node {
        symbol: if integer { INTEGER_TEXT } else { OTHER_TEXT },
        size: 1,
        start: trimmed.start as u32,
        length: trimmed.len() as u32,
    }
}
