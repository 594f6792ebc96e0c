//! What is printed of an input.

use crate::beside::Source;
use crate::generate::{Call, Input};

/// A line of a report has at most so many characters.
pub const WIDTH: usize = 200;

/// A report of a few lines: the call, the source and what is to be said, then each part of the
/// input, cut, and the command that prints them whole.
pub fn report(what: &str, call: Call, source: Source, input: &Input) -> String {
    let name = call.name();
    let parts: String = show(input).lines().map(|line| cut(line) + "\n").collect();
    let argument = source.argument();
    format!("{name}, {source}: {what}\n{parts}whole: compare/run show call={name} {argument}")
}

/// A line, or its beginning and three dots where it is longer than a report's.
pub fn cut(line: &str) -> String {
    if line.chars().count() <= WIDTH {
        return line.to_string();
    }
    line.chars().take(WIDTH - 3).chain("...".chars()).collect()
}

/// The whole input, a line for each part: bytes as escaped text and words as numbers.
pub fn show(input: &Input) -> String {
    match input {
        Input::CheckNames { list } => bytes("list", list),
        Input::Read { list, text, tree } => {
            bytes("list", list) + &bytes("text", text) + &words("buffer before", tree)
        }
        Input::CheckTree { tags, tree } => format!("tags: {tags}\n") + &words("tree", tree),
        Input::Write {
            list,
            text,
            tree,
            out,
        } => {
            bytes("list", list)
                + &bytes("text", text)
                + &words("tree", tree)
                + &bytes("buffer before", out)
        }
        Input::CheckSheet { sheet } => words("sheet", sheet),
        Input::SheetFromFile {
            file,
            words: buffer,
        } => bytes("file", file) + &words("buffer before", buffer),
        Input::Judge {
            sheet,
            tree,
            states,
        } => words("sheet", sheet) + &words("tree", tree) + &words("buffer before", states),
        Input::Swap { sheet, out } => words("sheet", sheet) + &words("buffer before", out),
        Input::Join { first, second, out } => {
            words("first", first) + &words("second", second) + &words("buffer before", out)
        }
        Input::Formcheck { list, file, text } => {
            bytes("list", list) + &bytes("file", file) + &bytes("text", text)
        }
    }
}

fn bytes(name: &str, bytes: &[u8]) -> String {
    let text = bytes.escape_ascii();
    format!("{name} ({} bytes): \"{text}\"\n", bytes.len())
}

fn words(name: &str, words: &[u32]) -> String {
    format!("{name} ({} words): {words:?}\n", words.len())
}
