//! Case files, and the tables of their answers and buffers: the repository's, `crates/cases/stdin` and
//! `crates/cases/stdout`, which is the output of the proved program; and `for_c/cases` and
//! `for_c/table`, of what the calls for C do otherwise. The head of `stdin` tells the format; in
//! `for_c/cases` a call by its name for C, as `formcheck_names`, has one value more, how many words
//! its array of numbers has.

pub mod call;
pub mod table;
pub mod value;

pub use call::ForC;

use call::Case;
use std::collections::BTreeMap;
use std::path::{Path, PathBuf};
use value::{Known, Scan};

/// The table that an implementation gives for a case file.
pub struct Table {
    pub text: Vec<u8>,
    /// How many of its lines are cases.
    pub cases: usize,
}

/// Runs the cases of both files; how many they are, or the first line that isn't as expected.
pub fn check(calls: &dyn ForC) -> Result<usize, String> {
    let cases = check_table(calls, &directory("../crates/cases"), "stdin", "stdout")?;
    let for_c = check_table(calls, &directory("for_c"), "cases", "table")?;
    Ok(cases + for_c)
}

fn check_table(
    calls: &dyn ForC,
    directory: &Path,
    cases: &str,
    expected: &str,
) -> Result<usize, String> {
    let table = table(calls, directory, cases)?;
    let expected = directory.join(expected);
    let name = format!("{}, {}", calls.name(), expected.display());
    same(&name, &read(&expected)?, &table.text)?;
    Ok(table.cases)
}

/// The tables that an implementation gives for both files, one after the other.
pub fn tables(calls: &dyn ForC) -> Result<Vec<u8>, String> {
    let cases = table(calls, &directory("../crates/cases"), "stdin")?;
    let for_c = table(calls, &directory("for_c"), "cases")?;
    Ok([cases.text, for_c.text].concat())
}

fn table(calls: &dyn ForC, directory: &Path, cases: &str) -> Result<Table, String> {
    let file = read(&directory.join(cases))?;
    Ok(run(&file, directory.join("data"), calls))
}

fn directory(name: &str) -> PathBuf {
    Path::new(env!("CARGO_MANIFEST_DIR")).join(name)
}

fn read(path: &Path) -> Result<Vec<u8>, String> {
    std::fs::read(path).map_err(|error| format!("{}: {error}", path.display()))
}

/// Compares two tables line by line; `name` gives the second.
pub fn same(name: &str, expected: &[u8], got: &[u8]) -> Result<(), String> {
    let (mut expected, mut got) = (expected.split(is_end), got.split(is_end));
    for number in 1.. {
        let (wanted, line) = (expected.next(), got.next());
        if wanted != line {
            let [wanted, line] = [wanted, line]
                .map(|line| line.map_or("no line".into(), |line| String::from_utf8_lossy(line)));
            return Err(format!(
                "{name}, line {number}:\n  expected: {wanted}\n  got: {line}"
            ));
        }
        if wanted.is_none() {
            break;
        }
    }
    Ok(())
}

fn is_end(byte: &u8) -> bool {
    *byte == b'\n'
}

/// Runs a case file whose data files stand in a directory.
pub fn run(file: &[u8], data: PathBuf, calls: &dyn ForC) -> Table {
    let mut known = Known {
        names: BTreeMap::new(),
        data,
    };
    let mut table = Table {
        text: Vec::new(),
        cases: 0,
    };
    for line in lines(file) {
        match parse(line, &known) {
            None => table.text.extend([b"cannot be read: ", line].concat()),
            Some(Line::Plain) => table.text.extend(line),
            Some(Line::Value(name, words)) => {
                table.text.extend(line);
                known.names.insert(name, words);
            }
            Some(Line::Case(name, case, comment)) => {
                let outcome = case.run(calls);
                let line = line.split_at(comment);
                table.text.extend(table::case(line, &outcome));
                table.cases += 1;
                if let Some(name) = name {
                    known.names.insert(name, outcome.result());
                }
            }
        }
        table.text.push(b'\n');
    }
    table
}

/// The lines of a case file: each goes up to a byte 10 that isn't followed by a space.
fn lines(mut file: &[u8]) -> Vec<&[u8]> {
    let mut lines = Vec::new();
    while !file.is_empty() {
        let ends = |&place: &usize| file[place] == b'\n' && file.get(place + 1) != Some(&b' ');
        let end = (0..file.len()).find(ends).unwrap_or(file.len());
        lines.push(&file[..end]);
        file = file.get(end + 1..).unwrap_or(&[]);
    }
    lines
}

/// What a line is.
enum Line {
    /// A comment, or an empty line.
    Plain,
    /// A named value.
    Value(Vec<u8>, Vec<u32>),
    /// The name that a case's result has, the case, and where its first comment begins.
    Case(Option<Vec<u8>>, Case, usize),
}

/// Reads a line.
fn parse(line: &[u8], known: &Known) -> Option<Line> {
    let mut scan = Scan::new(line, known);
    let name = match line.first() {
        None | Some(b'#') => return Some(Line::Plain),
        Some(b'A'..=b'Z') => Some(scan.name()?.to_vec()),
        Some(b'a'..=b'z') => None,
        Some(_) => return None,
    };
    match (name, scan.first()) {
        (name, Some(b'a'..=b'z')) => {
            let case = parse_case(&mut scan)?;
            // A text has no `#`. Every case has a comment.
            let comment = line.iter().position(|&byte| byte == b'#')?;
            Some(Line::Case(name, case, comment))
        }
        (Some(name), _) => {
            let words = scan.value()?;
            scan.first().is_none().then_some(Line::Value(name, words))
        }
        (None, _) => None,
    }
}

/// Reads a call and its values.
fn parse_case(scan: &mut Scan) -> Option<Case> {
    let call = scan.word();
    let mut values = vec![scan.value()?];
    while scan.take(b",") {
        values.push(scan.value()?);
    }
    Case::new(call, values)
}
