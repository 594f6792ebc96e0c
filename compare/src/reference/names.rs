//! The name list.

use super::bytes::{class, goes_on_in_name, Class};
use super::{fault, Fault};

pub const MOST_NAMES: usize = 64;
pub const MOST_NAME_BYTES: usize = 24;

/// The names in the order of their tags. "A name list is 1 to 64 distinct names of 1 to 24 bytes,
/// each followed by byte 10"; 8 stands at the "first byte of the first bad line, a repeated name
/// or the 65th included; 0 if empty".
pub fn parse(list: &[u8]) -> Result<Vec<&[u8]>, Fault> {
    if list.is_empty() {
        return Err(fault(8, 0, "empty list"));
    }
    let mut names = Vec::new();
    let mut start = 0;
    while start < list.len() {
        let line = next_line(&list[start..], &names).map_err(|why| fault(8, start, why))?;
        names.push(line);
        start += line.len() + 1;
    }
    Ok(names)
}

/// The line at the front of the rest of a list, without its byte 10, or why it is bad.
fn next_line<'a>(rest: &'a [u8], earlier: &[&[u8]]) -> Result<&'a [u8], &'static str> {
    if earlier.len() == MOST_NAMES {
        return Err("65th line");
    }
    let length = rest
        .iter()
        .position(|&byte| byte == 10)
        .ok_or("no byte 10")?;
    let line = &rest[..length];
    if line.is_empty() {
        return Err("empty line");
    }
    if !is_name(line) {
        return Err("no name");
    }
    if line.len() > MOST_NAME_BYTES {
        return Err("over 24 bytes");
    }
    if earlier.contains(&line) {
        return Err("repeated name");
    }
    Ok(line)
}

/// "A name is a letter, then letters, digits, hyphens."
fn is_name(line: &[u8]) -> bool {
    class(line[0]) == Class::Letter && line[1..].iter().all(|&byte| goes_on_in_name(byte))
}
