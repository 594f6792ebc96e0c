//! The tables as text, and the goals.

use crate::forms::TEXT_HEAVY;
use crate::measure::Value;
use crate::tasks::{Column, Row, LARGE};
use std::fmt::Write;

/// What the values are.
#[derive(Clone, Copy, PartialEq, Eq)]
pub enum Unit {
    Nanoseconds,
    Instructions,
}

impl Unit {
    /// The cells hold thousands of the unit.
    pub fn thousands(self) -> &'static str {
        match self {
            Unit::Nanoseconds => "microseconds",
            Unit::Instructions => "thousands of instructions",
        }
    }
}

/// A row with its values.
pub struct Measured {
    pub label: String,
    pub nodes: usize,
    pub bytes: usize,
    pub values: Vec<(Column, Value)>,
}

impl Measured {
    pub fn new(row: &Row, values: impl Iterator<Item = Value>) -> Measured {
        let columns = row.tasks.iter().map(|(column, _)| *column);
        Measured {
            label: row.label.clone(),
            nodes: row.nodes,
            bytes: row.bytes,
            values: columns.zip(values).collect(),
        }
    }

    /// The median of a column, if it was measured.
    pub fn median(&self, wanted: Column) -> Option<f64> {
        let found = self.values.iter().find(|(column, _)| *column == wanted);
        found.map(|(_, value)| value.median)
    }

    /// The sum of some columns over the sum of others.
    fn ratio(&self, above: &[Column], below: &[Column]) -> Option<f64> {
        let sum = |columns: &[Column]| -> Option<f64> {
            columns.iter().map(|&column| self.median(column)).sum()
        };
        Some(sum(above)? / sum(below)?)
    }
}

/// The measured rows, as in `Tables`.
pub struct Results {
    pub unit: Unit,
    pub forms: Vec<Measured>,
    pub sheets: Vec<Measured>,
    pub names: Vec<Measured>,
    pub joins: Vec<Measured>,
}

/// A ratio of columns, as a column of its own.
type Ratio = (&'static str, &'static [Column], &'static [Column]);

const READ_TO_PARSE: Ratio = ("r/p", &[Column::Read], &[Column::Parse]);
const WRITE_TO_DUMP: Ratio = ("w/d", &[Column::Write], &[Column::Dump]);
const JUDGE_TO_VALIDATE: Ratio = ("j/v", &[Column::Judge], &[Column::Validate]);
const BOTH: Ratio = (
    "(r+j)/(p+v)",
    &[Column::Read, Column::Judge],
    &[Column::Parse, Column::Validate],
);

fn heading(column: Column) -> &'static str {
    match column {
        Column::Scan => "scan",
        Column::Read => "read",
        Column::Write => "write",
        Column::Judge => "judge",
        Column::Join => "join",
        Column::RustRead => "rust:read",
        Column::RustWrite => "rust:write",
        Column::RustJudge => "rust:judge",
        Column::RustJoin => "rust:join",
        Column::Parse => "xml:parse",
        Column::Dump => "xml:dump",
        Column::Validate => "xml:valid",
    }
}

/// Three digits that count.
fn short(number: f64) -> String {
    let digits = match number {
        n if n < 9.995 => 2,
        n if n < 99.95 => 1,
        _ => 0,
    };
    format!("{number:.digits$}")
}

fn table(rows: &[Measured], columns: &[Column], ratios: &[Ratio]) -> String {
    let width = rows.iter().map(|row| row.label.len()).max().unwrap_or(0);
    let mut text = format!("{:width$}  nodes  bytes", "");
    for &column in columns {
        write!(text, " {:>10}", heading(column)).expect("a string grows");
    }
    for (name, _, _) in ratios {
        write!(text, " {name:>7}").expect("a string grows");
    }
    text.push('\n');
    for row in rows {
        let nodes = match row.nodes {
            0 => "-".to_string(),
            nodes => nodes.to_string(),
        };
        write!(text, "{:width$} {nodes:>6} {:>6}", row.label, row.bytes).expect("a string grows");
        for &column in columns {
            let median = row.median(column);
            let cell = median.map_or("-".to_string(), |median| short(median / 1_000.0));
            write!(text, " {cell:>10}").expect("a string grows");
        }
        for (name, above, below) in ratios {
            let ratio = row.ratio(above, below);
            let cell = ratio.map_or("-".to_string(), |ratio| format!("{ratio:.3}"));
            write!(text, " {cell:>width$}", width = name.len().max(7)).expect("a string grows");
        }
        text.push('\n');
    }
    text
}

impl Results {
    pub fn text(&self) -> String {
        use Column::*;
        let forms = [
            Scan, Read, Write, Judge, RustRead, RustWrite, RustJudge, Parse, Dump, Validate,
        ];
        let ratios = [READ_TO_PARSE, WRITE_TO_DUMP, JUDGE_TO_VALIDATE, BOTH];
        let sheets = [Read, Judge, RustJudge, Parse, Validate];
        let unit = self.unit.thousands();
        [
            format!("Forms, by a sheet of 16 rules with count parts ({unit})\n"),
            table(&self.forms, &forms, &ratios),
            format!("\nSheets ({unit})\n"),
            table(&self.sheets, &sheets, &[JUDGE_TO_VALIDATE, BOTH]),
            format!("\nNames ({unit})\n"),
            table(&self.names, &[Read, RustRead], &[]),
            format!("\nJoins; the bytes are those of both sheets ({unit})\n"),
            table(&self.joins, &[Join, RustJoin], &[]),
            format!("\n{}", self.spread()),
        ]
        .concat()
    }

    fn rows(&self) -> impl Iterator<Item = &Measured> {
        let parts = [&self.forms, &self.sheets, &self.names, &self.joins];
        parts.into_iter().flatten()
    }

    /// How the samples of times lie about their medians.
    fn spread(&self) -> String {
        if self.unit == Unit::Instructions {
            return "counted once; a count varies with the addresses of memory alone\n".to_string();
        }
        let mut spreads: Vec<f64> = self
            .rows()
            .flat_map(|row| row.values.iter().map(|(_, value)| value.spread))
            .collect();
        spreads.sort_by(f64::total_cmp);
        let percent = |part: f64| 100.0 * spreads[((spreads.len() - 1) as f64 * part) as usize];
        format!(
            "each time is a median; the middle half of its samples spans {:.1} % of it in the median \
             cell, {:.1} % at most in nine of ten cells, {:.1} % in the worst\n",
            percent(0.5),
            percent(0.9),
            percent(1.0)
        )
    }

    /// The goals, each with its worst cell.
    pub fn goals(&self) -> [Goal; 7] {
        let large: Vec<&Measured> = self.forms.iter().filter(|row| row.nodes >= 1_000).collect();
        let heavy = self.forms.iter().filter(|row| row.label == TEXT_HEAVY);
        let sixteen: Vec<&Measured> = self
            .sheets
            .iter()
            .filter(|row| row.label.contains(", 16 rules"))
            .collect();
        [
            Goal {
                text: "read at most 0.4 of libxml2's parse at 1,000 and 4,095 nodes",
                limit: 0.4,
                worst: worst(large.iter().copied(), READ_TO_PARSE),
            },
            Goal {
                text: "write at most 0.4 of libxml2's dump at 1,000 and 4,095 nodes",
                limit: 0.4,
                worst: worst(large.iter().copied(), WRITE_TO_DUMP),
            },
            Goal {
                text: "judge at most 1/8 of validation at 1,000 and 4,095 nodes, 16 rules",
                limit: 0.125,
                worst: worst(large.iter().chain(&sixteen).copied(), JUDGE_TO_VALIDATE),
            },
            Goal {
                text: "read and judge at most 1/8 of parse and validation at 4,095 nodes, 16 rules",
                limit: 0.125,
                worst: worst(sixteen.iter().copied(), BOTH),
            },
            Goal {
                text: "read of a text-heavy form at most 3 times libxml2's parse",
                limit: 3.0,
                worst: worst(heavy, READ_TO_PARSE),
            },
            Goal {
                text: "read with 64 names at most 1.5 times read with 5",
                limit: 1.5,
                worst: self.by_names(),
            },
            Goal {
                text: "linear: a node at 4,095 nodes at most 1.2 times a node at 1,000",
                limit: 1.2,
                worst: self.growth(),
            },
        ]
    }

    /// The largest time of a read with 64 names, by that of the same shape with 5.
    fn by_names(&self) -> Option<Cell> {
        let read = |row: &Measured| row.median(Column::Read);
        let shape = |row: &Measured| row.label.split(',').next().map(str::to_string);
        let of_five = |row: &&Measured| row.label.ends_with(", 5 names");
        let cells = self
            .names
            .iter()
            .filter(|row| !of_five(row))
            .filter_map(|row| {
                let five = self
                    .names
                    .iter()
                    .find(|five| of_five(five) && shape(five) == shape(row))?;
                Some((read(row)? / read(five)?, row.label.clone()))
            });
        largest(cells)
    }

    /// The largest growth of the time for a node from 1,000 to 4,095 nodes.
    fn growth(&self) -> Option<Cell> {
        let mut cells = Vec::new();
        for column in [Column::Read, Column::Write, Column::Judge] {
            for large in self.forms.iter().filter(|row| row.nodes == LARGE) {
                let per_node = |row: &Measured| Some(row.median(column)? / row.nodes as f64);
                let small = self
                    .forms
                    .iter()
                    .find(|row| row.nodes == 1_000 && row.label == large.label)?;
                let label = format!("{}, {}", heading(column), large.label);
                cells.push((per_node(large)? / per_node(small)?, label));
            }
        }
        largest(cells.into_iter())
    }
}

/// A ratio, and which cell has it.
type Cell = (f64, String);

/// The largest ratio of some rows.
fn worst<'a>(rows: impl Iterator<Item = &'a Measured>, ratio: Ratio) -> Option<Cell> {
    let cells = rows.filter_map(|row| {
        let cell = row.ratio(ratio.1, ratio.2)?;
        Some((cell, format!("{}, {} nodes", row.label, row.nodes)))
    });
    largest(cells)
}

fn largest(cells: impl Iterator<Item = Cell>) -> Option<Cell> {
    cells.max_by(|a, b| a.0.total_cmp(&b.0))
}

/// A limit, and the worst cell that it speaks of.
pub struct Goal {
    text: &'static str,
    limit: f64,
    worst: Option<Cell>,
}

impl Goal {
    pub fn line(&self) -> String {
        match &self.worst {
            None => format!("not measured  {}", self.text),
            Some((ratio, cell)) => {
                let word = if *ratio <= self.limit {
                    "met"
                } else {
                    "missed"
                };
                format!("{word:<12}  {}: {ratio:.3} ({cell})", self.text)
            }
        }
    }
}
