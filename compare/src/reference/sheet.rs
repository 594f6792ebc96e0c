//! The sheet: its words taken apart and put together.

use super::{fault, Fault};

pub const MOST_WORDS: usize = 16_384;
pub const MOST_STATES: u32 = 64;
pub const MOST_TAGS: u32 = 64;
pub const MOST_RULES: u32 = 1_024;
pub const MOST_POSITIONS: u32 = 64;
pub const MOST_ARCS: u32 = 1_024;
pub const MOST_STEPS: u32 = 32;
pub const MOST_MODULUS: u32 = 1_000;

#[derive(Clone, Debug, PartialEq, Eq)]
pub struct Sheet {
    pub states: u32,
    pub finals: u64,
    pub tags: u32,
    pub rules: Vec<Rule>,
}

/// Kinds one, two and three.
#[derive(Clone, Debug, PartialEq, Eq)]
pub enum Rule {
    Text {
        kind: u32,
        target: u32,
    },
    Element {
        tag: u32,
        inner: u32,
        target: u32,
    },
    Content {
        order: Option<Order>,
        count: Option<Vec<Step>>,
        target: u32,
    },
}

#[derive(Clone, Debug, PartialEq, Eq)]
pub struct Order {
    pub positions: u32,
    pub accepting: u64,
    pub arcs: Vec<Arc>,
}

#[derive(Clone, Copy, Debug, PartialEq, Eq)]
pub struct Arc {
    pub leaves: u32,
    pub reads: u32,
    pub enters: u32,
}

#[derive(Clone, Debug, PartialEq, Eq)]
pub enum Step {
    AtMost {
        weights: Vec<Weight>,
        bound: i32,
    },
    Remainder {
        weights: Vec<Weight>,
        modulus: u32,
        rest: u32,
    },
    Not(u32),
    And(u32, u32),
    Or(u32, u32),
}

/// A marked state and its coefficient; a step's weights stand with the lowest state first.
#[derive(Clone, Copy, Debug, PartialEq, Eq)]
pub struct Weight {
    pub state: u32,
    pub coefficient: i32,
}

/// The mask of the bits below a width of 0 to 64.
pub fn below(width: u32) -> u64 {
    match width {
        64 => u64::MAX,
        _ => (1 << width) - 1,
    }
}

/// The bits of a mask, lowest first.
pub fn bits(mask: u64) -> impl Iterator<Item = u32> {
    (0..64).filter(move |bit| mask >> bit & 1 == 1)
}

/// The words of a file, checked: "1 to 3 bytes over at a file's end are a word out of its range".
/// Such a word fits nowhere, so the whole words before it decide unless they are all in place.
pub fn file_words(file: &[u8]) -> Result<Vec<u32>, Fault> {
    let whole = file.chunks_exact(4);
    let over = whole.remainder().len();
    // "in a file each word is 4 bytes, lowest first"
    let words: Vec<u32> = whole
        .map(|bytes| u32::from_le_bytes([bytes[0], bytes[1], bytes[2], bytes[3]]))
        .collect();
    parse(&words)?;
    if over > 0 {
        return Err(fault(9, words.len(), "bytes over"));
    }
    Ok(words)
}

/// The sheet in the words, or 9: "first word out of its range or after the last rule or beyond
/// 16,384 words, or the length where it is short".
pub fn parse(words: &[u32]) -> Result<Sheet, Fault> {
    let mut reader = Reader { words, at: 0 };
    reader.word("edition", |word| word == 1)?;
    let states = reader.between("number of states", 1, MOST_STATES)?;
    let finals = reader.mask("final states", states)?;
    let tags = reader.between("number of tags", 1, MOST_TAGS)?;
    let count = reader.between("number of rules", 0, MOST_RULES)?;
    let mut rules = Vec::new();
    for _ in 0..count {
        rules.push(reader.rule(states, tags)?);
    }
    if reader.at < words.len() {
        return Err(fault(9, reader.at, "after the last rule"));
    }
    Ok(Sheet {
        states,
        finals,
        tags,
        rules,
    })
}

/// Takes words one by one; every word is looked at before the next.
struct Reader<'a> {
    words: &'a [u32],
    at: usize,
}

impl Reader<'_> {
    fn word(&mut self, field: &'static str, test: impl Fn(u32) -> bool) -> Result<u32, Fault> {
        if self.at == MOST_WORDS {
            return Err(fault(9, self.at, "beyond 16,384 words"));
        }
        match self.words.get(self.at) {
            None => Err(fault(9, self.at, "short")),
            Some(&word) if !test(word) => Err(fault(9, self.at, field)),
            Some(&word) => {
                self.at += 1;
                Ok(word)
            }
        }
    }

    fn between(&mut self, field: &'static str, low: u32, high: u32) -> Result<u32, Fault> {
        self.word(field, |word| low <= word && word <= high)
    }

    /// A number from 0, below a count that may be 0.
    fn number(&mut self, field: &'static str, count: u32) -> Result<u32, Fault> {
        self.word(field, |word| word < count)
    }

    /// A low and a high word with no bit at the width or above.
    fn mask(&mut self, field: &'static str, width: u32) -> Result<u64, Fault> {
        let outside = !below(width);
        let low = self.word(field, |word| u64::from(word) & outside == 0)?;
        let high = self.word(field, |word| u64::from(word) << 32 & outside == 0)?;
        Ok(u64::from(low) | u64::from(high) << 32)
    }

    /// "A rule is a bit map word, then only the fields whose bit stands, lowest bit first." "Maps
    /// allowed: 33 (kind one), 38 (kind two), 32, 40, 48, 56 (kind three)."
    fn rule(&mut self, states: u32, tags: u32) -> Result<Rule, Fault> {
        let map = self.word("map", |word| matches!(word, 33 | 38 | 32 | 40 | 48 | 56))?;
        match map {
            33 => Ok(Rule::Text {
                kind: self.between("text kind", 1, 2)?,
                target: self.number("target state", states)?,
            }),
            38 => Ok(Rule::Element {
                tag: self.between("tag", 1, tags)?,
                inner: self.number("inner state", states)?,
                target: self.number("target state", states)?,
            }),
            _ => {
                let has_order = map & 8 != 0;
                let has_count = map & 16 != 0;
                Ok(Rule::Content {
                    order: has_order.then(|| self.order(states)).transpose()?,
                    count: has_count.then(|| self.steps(states)).transpose()?,
                    target: self.number("target state", states)?,
                })
            }
        }
    }

    fn order(&mut self, states: u32) -> Result<Order, Fault> {
        let positions = self.between("number of positions", 1, MOST_POSITIONS)?;
        let accepting = self.mask("accepting positions", positions)?;
        let count = self.between("number of arcs", 0, MOST_ARCS)?;
        let mut arcs = Vec::new();
        for _ in 0..count {
            arcs.push(self.arc(states, positions)?);
        }
        Ok(Order {
            positions,
            accepting,
            arcs,
        })
    }

    fn arc(&mut self, states: u32, positions: u32) -> Result<Arc, Fault> {
        let word = self.word("arc", |word| {
            let arc = Arc::from_word(word);
            arc.leaves < positions
                && arc.reads < states
                && arc.enters < positions
                && arc.word() == word
        })?;
        Ok(Arc::from_word(word))
    }

    fn steps(&mut self, states: u32) -> Result<Vec<Step>, Fault> {
        let count = self.between("number of steps", 1, MOST_STEPS)?;
        let mut steps = Vec::new();
        for number in 0..count {
            steps.push(self.step(states, number)?);
        }
        Ok(steps)
    }

    /// One step; "numbers of earlier steps, counted from 0" are those below its own number.
    fn step(&mut self, states: u32, number: u32) -> Result<Step, Fault> {
        Ok(match self.between("step kind", 1, 5)? {
            1 => Step::AtMost {
                weights: self.weights(states)?,
                bound: self.word("bound", |_| true)? as i32,
            },
            2 => {
                let weights = self.weights(states)?;
                let modulus = self.between("modulus", 1, MOST_MODULUS)?;
                let rest = self.number("remainder", modulus)?;
                Step::Remainder {
                    weights,
                    modulus,
                    rest,
                }
            }
            3 => Step::Not(self.number("earlier step", number)?),
            4 => Step::And(
                self.number("earlier step", number)?,
                self.number("earlier step", number)?,
            ),
            _ => Step::Or(
                self.number("earlier step", number)?,
                self.number("earlier step", number)?,
            ),
        })
    }

    /// "a low and a high word marking states, a coefficient for each marked state, lowest first"
    fn weights(&mut self, states: u32) -> Result<Vec<Weight>, Fault> {
        let marks = self.mask("marks", states)?;
        let mut weights = Vec::new();
        for state in bits(marks) {
            let coefficient = self.word("coefficient", is_coefficient)? as i32;
            weights.push(Weight { state, coefficient });
        }
        Ok(weights)
    }
}

/// "Coefficients from −32,768 to 32,767, never 0"
fn is_coefficient(word: u32) -> bool {
    let signed = word as i32;
    signed != 0 && (-32_768..=32_767).contains(&signed)
}

impl Arc {
    /// "bits 16 to 23 the position it leaves, bits 8 to 15 the state it reads, bits 0 to 7 the
    /// position it enters"
    fn from_word(word: u32) -> Arc {
        Arc {
            leaves: word >> 16 & 255,
            reads: word >> 8 & 255,
            enters: word & 255,
        }
    }

    fn word(&self) -> u32 {
        self.leaves << 16 | self.reads << 8 | self.enters
    }
}

impl Sheet {
    pub fn words(&self) -> Vec<u32> {
        let mut words = vec![1, self.states];
        push_mask(&mut words, self.finals);
        words.extend([self.tags, self.rules.len() as u32]);
        for rule in &self.rules {
            rule.push_words(&mut words);
        }
        words
    }
}

fn push_mask(words: &mut Vec<u32>, mask: u64) {
    words.extend([mask as u32, (mask >> 32) as u32]);
}

impl Rule {
    fn push_words(&self, words: &mut Vec<u32>) {
        match self {
            Rule::Text { kind, target } => words.extend([33, *kind, *target]),
            Rule::Element { tag, inner, target } => words.extend([38, *tag, *inner, *target]),
            Rule::Content {
                order,
                count,
                target,
            } => {
                let order_bit = if order.is_some() { 8 } else { 0 };
                let count_bit = if count.is_some() { 16 } else { 0 };
                words.push(32 | order_bit | count_bit);
                if let Some(order) = order {
                    order.push_words(words);
                }
                if let Some(steps) = count {
                    words.push(steps.len() as u32);
                    for step in steps {
                        step.push_words(words);
                    }
                }
                words.push(*target);
            }
        }
    }
}

impl Order {
    fn push_words(&self, words: &mut Vec<u32>) {
        words.push(self.positions);
        push_mask(words, self.accepting);
        words.push(self.arcs.len() as u32);
        words.extend(self.arcs.iter().map(Arc::word));
    }
}

impl Step {
    fn push_words(&self, words: &mut Vec<u32>) {
        match self {
            Step::AtMost { weights, bound } => {
                words.push(1);
                push_weights(words, weights);
                words.push(*bound as u32);
            }
            Step::Remainder {
                weights,
                modulus,
                rest,
            } => {
                words.push(2);
                push_weights(words, weights);
                words.extend([*modulus, *rest]);
            }
            Step::Not(step) => words.extend([3, *step]),
            Step::And(left, right) => words.extend([4, *left, *right]),
            Step::Or(left, right) => words.extend([5, *left, *right]),
        }
    }
}

fn push_weights(words: &mut Vec<u32>, weights: &[Weight]) {
    let marks = weights
        .iter()
        .fold(0, |marks, weight| marks | 1 << weight.state);
    push_mask(words, marks);
    words.extend(weights.iter().map(|weight| weight.coefficient as u32));
}
