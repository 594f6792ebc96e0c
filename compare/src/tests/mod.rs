//! The case file and the boundaries of every refusal.

mod cases;
mod formcheck;
mod generators;
mod jobs;
mod join;
mod judge;
mod names;
mod read;
mod report;
mod sheet;
mod tree;
mod write;

use crate::answer::{Answer, Implementation};
use crate::document;
use crate::reference::Reference;

fn refusal(number: u32, place: usize) -> Answer {
    Answer::Refusal(number, place as u32)
}

/// An answer and what the buffer holds then, before filled with a pattern.
fn with_words(
    room: usize,
    call: impl FnOnce(&Reference, &mut [u32]) -> Answer,
) -> (Answer, Vec<u32>) {
    let mut buffer = pattern(room);
    let answer = call(&Reference::default(), &mut buffer);
    (answer, buffer)
}

fn pattern(room: usize) -> Vec<u32> {
    (0..room as u32).map(|index| 0xabcd_0000 + index).collect()
}

#[test]
fn every_byte_has_its_class() {
    use crate::reference::bytes::{class, Class};
    let count = |wanted| (0..=255).filter(|&byte| class(byte) == wanted).count();
    assert_eq!(count(Class::White), 4);
    assert_eq!(count(Class::Letter), 52);
    assert_eq!(count(Class::Digit), 10);
    // 33 to 126 are 94 values: 62 letters and digits, - < > / &, and the rest.
    assert_eq!(count(Class::Other), 94 - 62 - 5);
    assert_eq!(count(Class::Forbidden), 256 - 94 - 4 + 1);
    for byte in [0, 8, 11, 12, 14, 31, b'&', 127, 128, 255] {
        assert_eq!(class(byte), Class::Forbidden);
    }
}

/// The buffer is as it was before a refused call.
#[test]
fn a_refusal_writes_nothing() {
    let sheet = document::sheet_s();
    let calls = Reference::default();
    for room in [0, 1, 42] {
        let mut out = pattern(room);
        assert_eq!(calls.swap(&sheet, &mut out), refusal(22, 43));
        assert_eq!(out, pattern(room));
    }
}
