//! How the table shows a case.

use super::call::{Buffer, Outcome, Said};

/// A buffer of more elements is shown by its length and a sum.
const MOST_SHOWN: usize = 48;

/// A case with its outcome, which stands between what its line says and the line's comment.
pub fn case((text, comment): (&[u8], &[u8]), outcome: &Outcome) -> Vec<u8> {
    let (said, buffer) = (said(&outcome.said), buffer(outcome.buffer()));
    [text, b"-> ", said.as_bytes(), &buffer, b"   ", comment].concat()
}

fn said(said: &Said) -> String {
    match said {
        Said::Answer(answer) => answer.line(),
        Said::Numbers(kind, numbers) => format!("kind {kind}, numbers{}", spaced(numbers)),
    }
}

fn buffer(buffer: Buffer) -> Vec<u8> {
    let shown = match buffer {
        Buffer::None => String::new(),
        Buffer::Words(words) if words.len() <= MOST_SHOWN => format!(":{}", spaced(words)),
        Buffer::Words(words) => long(words),
        Buffer::Bytes(bytes) if bytes.len() <= MOST_SHOWN => {
            return [b": \"", bytes, b"\""].concat();
        }
        Buffer::Bytes(bytes) => long(bytes),
    };
    shown.into_bytes()
}

/// Numbers in decimal, each with a space before it.
fn spaced<T: ToString>(numbers: &[T]) -> String {
    let spaced = numbers
        .iter()
        .map(|number| format!(" {}", number.to_string()));
    spaced.collect()
}

/// A long buffer, by its length and its sum.
fn long<T: Copy + Into<u64>>(elements: &[T]) -> String {
    format!(": length {}, sum {}", elements.len(), sum(elements))
}

/// The sum by which a long buffer is told: each element moves those before it up.
fn sum<T: Copy + Into<u64>>(elements: &[T]) -> u64 {
    let step = |sum, &element: &T| (sum * 257 + element.into()) % 4_294_967_291;
    elements.iter().fold(0, step)
}
