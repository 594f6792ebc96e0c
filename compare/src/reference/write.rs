//! The writer: nodes to a form's text.

use super::bytes::{is_integer, is_text_byte, is_white};
use super::read::MOST_BYTES;
use super::tree::{Node, INTEGER_TEXT};
use super::{fault, Fault};

/// The written form, or 11 or 24. The nodes passed 10, the text 1.
pub fn form(names: &[&[u8]], text: &[u8], nodes: &[Node]) -> Result<Vec<u8>, Fault> {
    for (number, node) in nodes.iter().enumerate() {
        check_text_words(text, node).map_err(|why| fault(11, number, why))?;
    }
    let length = nodes.iter().map(|node| written_length(names, node)).sum();
    if length > MOST_BYTES {
        return Err(fault(24, length, "written form over 65,535 bytes"));
    }
    let bytes = written(names, text, nodes);
    assert_eq!(bytes.len(), length);
    Ok(bytes)
}

/// "11: writer only, text words not 0 at a tag, or not a trimmed text of that kind"
fn check_text_words(text: &[u8], node: &Node) -> Result<(), &'static str> {
    if !node.is_text() {
        return match (node.start, node.length) {
            (0, 0) => Ok(()),
            (_, 0) => Err("text start at a tag"),
            _ => Err("text length at a tag"),
        };
    }
    let end = u64::from(node.start) + u64::from(node.length);
    if end > text.len() as u64 {
        return Err("past the text's end");
    }
    let bytes = &text[node.start as usize..end as usize];
    let (Some(&first), Some(&last)) = (bytes.first(), bytes.last()) else {
        return Err("empty text");
    };
    if is_white(first) || is_white(last) {
        return Err("white at an end");
    }
    if !bytes
        .iter()
        .all(|&byte| is_white(byte) || is_text_byte(byte))
    {
        return Err("byte that no text holds");
    }
    if is_integer(bytes) != (node.symbol == INTEGER_TEXT) {
        return Err("other kind of text");
    }
    Ok(())
}

fn name_of<'a>(names: &[&'a [u8]], node: &Node) -> &'a [u8] {
    names[node.symbol as usize - 1]
}

/// The bytes that a node itself adds: `<name/>`, `<name>` and `</name>`, or a text.
fn written_length(names: &[&[u8]], node: &Node) -> usize {
    if node.is_text() {
        node.length as usize
    } else if node.size == 1 {
        name_of(names, node).len() + 3
    } else {
        2 * name_of(names, node).len() + 5
    }
}

/// "The writer gives <name/> for an empty element, no white between tags, texts by their bytes."
fn written(names: &[&[u8]], text: &[u8], nodes: &[Node]) -> Vec<u8> {
    let mut out = Vec::new();
    write_siblings(names, text, nodes, &mut out);
    out
}

/// Writes nodes that stand side by side, with all below them.
fn write_siblings(names: &[&[u8]], text: &[u8], nodes: &[Node], out: &mut Vec<u8>) {
    let mut rest = nodes;
    while let Some(node) = rest.first() {
        let (element, after) = rest.split_at(node.size as usize);
        if node.is_text() {
            let start = node.start as usize;
            out.extend(&text[start..start + node.length as usize]);
        } else {
            write_element(names, text, element, out);
        }
        rest = after;
    }
}

fn write_element(names: &[&[u8]], text: &[u8], element: &[Node], out: &mut Vec<u8>) {
    let name = name_of(names, &element[0]);
    out.push(b'<');
    out.extend(name);
    if element.len() == 1 {
        out.extend(b"/>");
        return;
    }
    out.push(b'>');
    write_siblings(names, text, &element[1..], out);
    out.extend(b"</");
    out.extend(name);
    out.push(b'>');
}
