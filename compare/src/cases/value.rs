//! Values of a case file: rows of words, read from the front of a line. What can't be read is
//! `None`.

use std::collections::BTreeMap;
use std::path::PathBuf;

/// The most words of a line's values together: as many as the proved program has room for.
const MOST_WORDS: usize = 262_144;
/// Behind a Name: the bytes of its words.
const BYTES: &[u8] = b".bytes";

/// What the items of a value may speak of.
pub struct Known {
    /// The named values so far, the latest of each name.
    pub names: BTreeMap<Vec<u8>, Vec<u32>>,
    /// The directory of the data files.
    pub data: PathBuf,
}

/// What is left to read of a line.
pub struct Scan<'a> {
    rest: &'a [u8],
    known: &'a Known,
    /// How many words the line's values may still have.
    room: usize,
}

impl<'a> Scan<'a> {
    pub fn new(line: &'a [u8], known: &'a Known) -> Scan<'a> {
        Scan {
            rest: line,
            known,
            room: MOST_WORDS,
        }
    }

    /// Skips white and comments; the first byte behind them.
    pub fn first(&mut self) -> Option<u8> {
        while let Some(&byte) = self.rest.first() {
            match byte {
                b' ' | b'\n' | b'|' => self.rest = &self.rest[1..],
                b'#' => {
                    self.run(|byte| byte != b'\n');
                }
                _ => return Some(byte),
            }
        }
        None
    }

    /// Takes some bytes, behind white, if they come next.
    pub fn take(&mut self, bytes: &[u8]) -> bool {
        self.first();
        let rest = self.rest.strip_prefix(bytes);
        self.rest = rest.unwrap_or(self.rest);
        rest.is_some()
    }

    /// Takes all the bytes of a kind that come next.
    fn run(&mut self, kind: fn(u8) -> bool) -> &'a [u8] {
        let length = self.rest.iter().take_while(|&&byte| kind(byte)).count();
        let (run, rest) = self.rest.split_at(length);
        self.rest = rest;
        run
    }

    /// A word: letters, digits, hyphens, underscores and dots.
    pub fn word(&mut self) -> &'a [u8] {
        self.run(|byte| byte.is_ascii_alphanumeric() || b"-_.".contains(&byte))
    }

    /// A Name for a value, up to its `=`.
    pub fn name(&mut self) -> Option<&'a [u8]> {
        let name = self.word();
        (!name.ends_with(BYTES) && self.take(b"=")).then_some(name)
    }

    /// A value, up to a comma or the end.
    pub fn value(&mut self) -> Option<Vec<u32>> {
        // A value may begin with an operator: there the item is empty.
        self.changed(Vec::new())?;
        let words = self.items(Scan::item)?;
        self.room -= words.len();
        matches!(self.first(), None | Some(b',')).then_some(words)
    }

    /// The items up to a comma, a parenthesis that closes or the end.
    fn items(&mut self, item: fn(&mut Self) -> Option<Vec<u32>>) -> Option<Vec<u32>> {
        let mut words = Vec::new();
        while !matches!(self.first(), None | Some(b',' | b')')) {
            let item = item(self)?;
            words.extend(self.changed(item)?);
            if words.len() > self.room {
                return None;
            }
        }
        Some(words)
    }

    /// An item or a group.
    fn item(&mut self) -> Option<Vec<u32>> {
        if !self.take(b"(") {
            return self.single();
        }
        // Groups don't nest.
        let words = self.items(Scan::single)?;
        self.take(b")").then_some(words)
    }

    /// An item that isn't a group.
    fn single(&mut self) -> Option<Vec<u32>> {
        match self.first()? {
            b'0'..=b'9' => Some(vec![self.number()?]),
            b'A'..=b'Z' => self.named(),
            _ if self.take(b"-") => Some(vec![self.number()?.wrapping_neg()]),
            _ if self.take(b"\"") => self.text(),
            _ if self.take(b"@") => self.file(),
            _ => None,
        }
    }

    /// An item as the operators behind it change it.
    fn changed(&mut self, mut item: Vec<u32>) -> Option<Vec<u32>> {
        loop {
            if self.take(b"*") {
                self.first();
                item = self.repeated(&item)?;
            } else if self.take(b"/") {
                let number: u8 = self.number()?.try_into().ok()?;
                let last = item.last_mut()?;
                *last = last.checked_mul(256)? + u32::from(number);
            } else {
                return Some(item);
            }
        }
    }

    /// An item so many times as the number says that comes next.
    fn repeated(&mut self, item: &[u32]) -> Option<Vec<u32>> {
        let times = self.number()? as usize;
        let length = item.len().checked_mul(times)?;
        (length <= self.room).then(|| item.repeat(times))
    }

    /// A number in decimal.
    fn number(&mut self) -> Option<u32> {
        let digits = self.run(|byte| byte.is_ascii_digit());
        std::str::from_utf8(digits).ok()?.parse().ok()
    }

    /// The words of a named value, or their bytes, lowest first.
    fn named(&mut self) -> Option<Vec<u32>> {
        let word = self.word();
        let words = |name| self.known.names.get(name);
        match word.strip_suffix(BYTES) {
            None => words(word).cloned(),
            Some(name) => {
                let bytes = words(name)?.iter().flat_map(|word| word.to_le_bytes());
                Some(bytes.map(u32::from).collect())
            }
        }
    }

    /// A text behind its first quote.
    fn text(&mut self) -> Option<Vec<u32>> {
        let mut words = Vec::new();
        loop {
            let byte = match self.byte()? {
                b'"' => return Some(words),
                0 | b'#' | b'\n' => return None,
                b'\\' => self.escaped()?,
                byte => byte,
            };
            words.push(u32::from(byte));
        }
    }

    /// The byte that an escape stands for.
    fn escaped(&mut self) -> Option<u8> {
        match self.byte()? {
            b'n' => Some(b'\n'),
            b'r' => Some(b'\r'),
            b't' => Some(b'\t'),
            byte @ (b'"' | b'\\') => Some(byte),
            _ => None,
        }
    }

    /// The next byte, white or not.
    fn byte(&mut self) -> Option<u8> {
        let (&byte, rest) = self.rest.split_first()?;
        self.rest = rest;
        Some(byte)
    }

    /// The bytes of a data file, behind the @.
    fn file(&mut self) -> Option<Vec<u32>> {
        let name = std::str::from_utf8(self.word()).ok()?;
        let bytes = std::fs::read(self.known.data.join(name)).ok()?;
        Some(bytes.into_iter().map(u32::from).collect())
    }
}
