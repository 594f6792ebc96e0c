//! The rows of the tables: what is measured, on which form and sheet.

use crate::forms::{self, Form};
use crate::measure::Task;
use crate::schema::{self, Parts, PARTS, SIZES};
use crate::xml;
use compare::answer::{Answer, Implementation};
use compare::linked::Linked;
use compare::reference::Reference;
use std::hint::black_box;

/// What a cell of a table holds: a call of the library, of the implementation in Rust, of libxml2,
/// or the byte scan.
#[derive(Clone, Copy, Debug, PartialEq, Eq)]
pub enum Column {
    Scan,
    Read,
    Write,
    Judge,
    Join,
    RustRead,
    RustWrite,
    RustJudge,
    RustJoin,
    Parse,
    Dump,
    Validate,
}

pub struct Row {
    pub label: String,
    pub nodes: usize,
    pub bytes: usize,
    pub tasks: Vec<(Column, Box<dyn Task>)>,
}

pub struct Tables {
    /// Each form, by the sheet of 16 rules with count parts.
    pub forms: Vec<Row>,
    /// The two largest forms by each sheet.
    pub sheets: Vec<Row>,
    /// Reading with 5 and with 64 names.
    pub names: Vec<Row>,
    pub joins: Vec<Row>,
}

impl Tables {
    /// All rows, in the order in which they are measured.
    pub fn rows(&mut self) -> impl Iterator<Item = &mut Row> {
        let parts = [
            &mut self.forms,
            &mut self.sheets,
            &mut self.names,
            &mut self.joins,
        ];
        parts.into_iter().flatten()
    }
}

/// The size of the sheet in the table of forms.
pub const COMMON_SIZE: usize = 16;
pub const COMMON_PARTS: Parts = Parts::Count;

/// How many nodes the large forms have.
pub const LARGE: usize = 4_095;

pub fn tables() -> Tables {
    let list = kept(forms::five_names());
    let form_rows = forms::all().into_iter().map(|form| form_row(list, form));
    let mut sheets = Vec::new();
    for form in [forms::flat, forms::deep] {
        for size in SIZES {
            sheets.extend(PARTS.map(|parts| sheet_row(list, form(LARGE), size, parts)));
        }
    }
    Tables {
        forms: form_rows.collect(),
        sheets,
        names: name_rows(),
        joins: join_rows(),
    }
}

/// Data that stays for the whole run, so that every task can point to it.
fn kept<T>(data: Vec<T>) -> &'static [T] {
    data.leak()
}

/// The tree of a form, by the library.
pub fn tree_of(list: &[u8], text: &[u8]) -> Vec<u32> {
    let mut tree = vec![0; 4 * 4_096];
    let Answer::Count(nodes) = Linked.read(list, text, &mut tree) else {
        panic!("a form is read")
    };
    tree.truncate(4 * nodes as usize);
    tree
}

fn form_row(list: &'static [u8], form: Form) -> Row {
    let sheet = schema::sheet(COMMON_SIZE, COMMON_PARTS).words();
    let (text, sheet) = (kept(form.text), kept(sheet));
    let tree = kept(tree_of(list, text));
    let rust = Reference::default;
    let mut tasks: Vec<(Column, Box<dyn Task>)> = vec![
        (Column::Scan, scan(text)),
        (Column::Read, read(Linked, list, text)),
        (Column::Write, write(Linked, list, text, tree)),
        (Column::Judge, judge(Linked, sheet, tree)),
        (Column::RustRead, read(rust(), list, text)),
        (Column::RustWrite, write(rust(), list, text, tree)),
        (Column::RustJudge, judge(rust(), sheet, tree)),
    ];
    tasks.extend(xml::tasks(
        text,
        &schema::relax_ng(COMMON_SIZE, COMMON_PARTS),
    ));
    Row {
        label: form.shape.to_string(),
        nodes: form.nodes,
        bytes: text.len(),
        tasks,
    }
}

fn sheet_row(list: &'static [u8], form: Form, size: usize, parts: Parts) -> Row {
    let sheet = kept(schema::sheet(size, parts).words());
    let text = kept(form.text);
    let tree = kept(tree_of(list, text));
    let mut tasks: Vec<(Column, Box<dyn Task>)> = vec![
        (Column::Read, read(Linked, list, text)),
        (Column::Judge, judge(Linked, sheet, tree)),
        (Column::RustJudge, judge(Reference::default(), sheet, tree)),
    ];
    tasks.extend(xml::tasks(text, &schema::relax_ng(size, parts)));
    Row {
        label: format!("{}, {size} rules, {}", form.shape, parts.name()),
        nodes: form.nodes,
        bytes: text.len(),
        tasks,
    }
}

/// The same texts with both lists, and a text that uses 64 names.
fn name_rows() -> Vec<Row> {
    let (five, all) = (forms::five_names(), forms::sixty_four_names());
    let (form, list) = forms::with_all_names(LARGE);
    [
        ("flat, 5 names", forms::flat(LARGE), five.clone()),
        (
            "flat, the same of 64 names",
            forms::flat(LARGE),
            all.clone(),
        ),
        ("deep, 5 names", forms::deep(LARGE), five),
        ("deep, the same of 64 names", forms::deep(LARGE), all),
        ("flat, 64 names in turn", form, list),
    ]
    .into_iter()
    .map(|(label, form, list)| {
        let (list, text) = (kept(list), kept(form.text));
        Row {
            label: label.to_string(),
            nodes: form.nodes,
            bytes: text.len(),
            tasks: vec![
                (Column::Read, read(Linked, list, text)),
                (Column::RustRead, read(Reference::default(), list, text)),
            ],
        }
    })
    .collect()
}

/// Two sheets to be joined, and what a row calls them.
pub fn join_pairs() -> Vec<(String, Vec<u32>, Vec<u32>)> {
    let mut pairs = Vec::new();
    for size in SIZES {
        let sheet = schema::sheet(size, Parts::Both);
        let one_state = schema::one_state(sheet.tags).words();
        let label = format!("{size} rules with a sheet of one state");
        pairs.push((label, sheet.words(), one_state));
    }
    let sheet = schema::sheet(16, Parts::Both).words();
    pairs.push(("16 rules with itself".to_string(), sheet.clone(), sheet));
    pairs
}

fn join_rows() -> Vec<Row> {
    let row = |(label, first, second)| {
        let (first, second) = (kept(first), kept(second));
        Row {
            label,
            nodes: 0,
            bytes: 4 * (first.len() + second.len()),
            tasks: vec![
                (Column::Join, join(Linked, first, second)),
                (Column::RustJoin, join(Reference::default(), first, second)),
            ],
        }
    };
    join_pairs().into_iter().map(row).collect()
}

/// Counts the `<` of a text: what looking at each byte costs at least. A byte holds the count of a
/// chunk, so that many bytes are looked at together.
fn scan(text: &'static [u8]) -> Box<dyn Task> {
    let in_chunk = |chunk: &[u8]| -> u8 { chunk.iter().map(|&byte| u8::from(byte == b'<')).sum() };
    Box::new(move || {
        let chunks = black_box(text).chunks(255);
        black_box(chunks.map(|chunk| u32::from(in_chunk(chunk))).sum::<u32>());
    })
}

fn read(
    calls: impl Implementation + 'static,
    list: &'static [u8],
    text: &'static [u8],
) -> Box<dyn Task> {
    let mut tree = vec![0; 4 * 4_096];
    Box::new(move || {
        black_box(calls.read(black_box(list), black_box(text), &mut tree));
    })
}

fn write(
    calls: impl Implementation + 'static,
    list: &'static [u8],
    text: &'static [u8],
    tree: &'static [u32],
) -> Box<dyn Task> {
    let mut out = vec![0; 65_535];
    Box::new(move || {
        black_box(calls.write(black_box(list), black_box(text), black_box(tree), &mut out));
    })
}

fn judge(
    calls: impl Implementation + 'static,
    sheet: &'static [u32],
    tree: &'static [u32],
) -> Box<dyn Task> {
    let mut states = vec![0; 4_096];
    Box::new(move || {
        black_box(calls.judge(black_box(sheet), black_box(tree), &mut states));
    })
}

fn join(
    calls: impl Implementation + 'static,
    first: &'static [u32],
    second: &'static [u32],
) -> Box<dyn Task> {
    let mut out = vec![0; 16_384];
    Box::new(move || {
        black_box(calls.join(black_box(first), black_box(second), &mut out));
    })
}
