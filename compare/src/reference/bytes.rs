//! The classes of bytes.

#[derive(Clone, Copy, Debug, PartialEq, Eq)]
pub enum Class {
    White,
    Letter,
    Digit,
    Hyphen,
    Less,
    Greater,
    Slash,
    Other,
    Forbidden,
}

/// "white (9, 10, 13, 32), letter (A to Z, a to z), digit, hyphen, < , > , / , other (the rest of
/// 33 to 126 but &), forbidden"
pub fn class(byte: u8) -> Class {
    match byte {
        9 | 10 | 13 | 32 => Class::White,
        b'A'..=b'Z' | b'a'..=b'z' => Class::Letter,
        b'0'..=b'9' => Class::Digit,
        b'-' => Class::Hyphen,
        b'<' => Class::Less,
        b'>' => Class::Greater,
        b'/' => Class::Slash,
        b'&' => Class::Forbidden,
        33..=126 => Class::Other,
        _ => Class::Forbidden,
    }
}

/// A byte that a name goes on with after its first letter.
pub fn goes_on_in_name(byte: u8) -> bool {
    matches!(class(byte), Class::Letter | Class::Digit | Class::Hyphen)
}

/// A byte of a text that isn't white.
pub fn is_text_byte(byte: u8) -> bool {
    matches!(
        class(byte),
        Class::Letter | Class::Digit | Class::Hyphen | Class::Slash | Class::Other
    )
}

pub fn is_white(byte: u8) -> bool {
    class(byte) == Class::White
}

/// "Digits only are an integer", asked of the trimmed bytes.
pub fn is_integer(trimmed: &[u8]) -> bool {
    trimmed.iter().all(|&byte| class(byte) == Class::Digit)
}
