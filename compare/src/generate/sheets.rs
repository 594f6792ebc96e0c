//! Sheets of every form, and damaged ones.

use super::random::Random;
use crate::reference::sheet::{bits, Arc, Order, Rule, Sheet, Step, Weight};

/// The numbers from which the parts of a sheet are drawn.
#[derive(Clone, Copy)]
pub struct Ranges {
    pub states: &'static [u32],
    pub tags: &'static [u32],
    pub rules: (usize, usize),
    pub positions: &'static [u32],
    pub arcs: (usize, usize),
    pub steps: &'static [u32],
}

pub const TINY: Ranges = Ranges {
    states: &[1, 2, 3, 4],
    tags: &[1, 2, 3, 4],
    rules: (0, 7),
    positions: &[1, 2, 3, 4],
    arcs: (0, 6),
    steps: &[1, 2, 3, 4],
};

pub const EDGES: Ranges = Ranges {
    states: &[1, 2, 31, 32, 33, 63, 64],
    tags: &[1, 2, 63, 64],
    rules: (0, 10),
    positions: &[1, 2, 31, 32, 33, 63, 64],
    arcs: (0, 30),
    steps: &[1, 2, 5, 31, 32],
};

const MANY_RULES: Ranges = Ranges {
    states: &[1, 2, 5],
    tags: &[1, 2, 64],
    rules: (1_020, 1_024),
    positions: &[1, 2],
    arcs: (0, 2),
    steps: &[1, 2],
};

/// A valid sheet.
pub fn any_sheet(random: &mut Random) -> Sheet {
    match random.weighted(&[60, 30, 2]) {
        0 => sheet(random, &TINY),
        1 => sheet(random, &EDGES),
        _ => sheet(random, &MANY_RULES),
    }
}

pub fn sheet(random: &mut Random, ranges: &Ranges) -> Sheet {
    let states = random.pick(ranges.states);
    let tags = random.pick(ranges.tags);
    let rules = random.between(ranges.rules.0, ranges.rules.1);
    Sheet {
        states,
        finals: random.mask(states),
        tags,
        rules: (0..rules)
            .map(|_| any_rule(random, ranges, states, tags))
            .collect(),
    }
}

fn any_rule(random: &mut Random, ranges: &Ranges, states: u32, tags: u32) -> Rule {
    match random.below(10) {
        0 | 1 => Rule::Text {
            kind: random.number(2) + 1,
            target: any_number(random, states),
        },
        2..=4 => Rule::Element {
            tag: any_number(random, tags) + 1,
            inner: any_number(random, states),
            target: any_number(random, states),
        },
        _ => any_content_rule(random, ranges, states),
    }
}

/// A number below a count, often the first or last.
fn any_number(random: &mut Random, count: u32) -> u32 {
    match random.below(6) {
        0 => 0,
        1 => count - 1,
        _ => random.number(count),
    }
}

pub fn any_content_rule(random: &mut Random, ranges: &Ranges, states: u32) -> Rule {
    Rule::Content {
        order: random.chance(55).then(|| {
            let positions = random.pick(ranges.positions);
            let arcs = random.between(ranges.arcs.0, ranges.arcs.1);
            any_order(random, states, positions, arcs)
        }),
        count: random.chance(55).then(|| {
            let steps = random.pick(ranges.steps);
            any_steps(random, states, steps)
        }),
        target: any_number(random, states),
    }
}

pub fn any_order(random: &mut Random, states: u32, positions: u32, arcs: usize) -> Order {
    Order {
        positions,
        accepting: random.mask(positions),
        arcs: (0..arcs)
            .map(|_| Arc {
                leaves: any_number(random, positions),
                reads: any_number(random, states),
                enters: any_number(random, positions),
            })
            .collect(),
    }
}

pub fn any_steps(random: &mut Random, states: u32, count: u32) -> Vec<Step> {
    let mut steps = Vec::new();
    for number in 0..count {
        let kind = if number == 0 {
            random.below(2)
        } else {
            random.below(5)
        };
        let mut earlier = || any_number(random, number);
        steps.push(match kind {
            0 => any_at_most(random, states),
            1 => any_remainder(random, states),
            2 => Step::Not(earlier()),
            3 => Step::And(earlier(), earlier()),
            _ => Step::Or(earlier(), earlier()),
        });
    }
    steps
}

fn any_at_most(random: &mut Random, states: u32) -> Step {
    Step::AtMost {
        weights: any_weights(random, states),
        bound: match random.below(4) {
            0 => random.pick(&[i32::MIN, i32::MAX, 32_767, -32_768]),
            1 => random.word() as i32,
            _ => random.between(0, 8) as i32 - 4,
        },
    }
}

fn any_remainder(random: &mut Random, states: u32) -> Step {
    let modulus = match random.below(4) {
        0 => random.pick(&[1, 999, 1_000]),
        1 => random.number(1_000) + 1,
        _ => random.number(4) + 1,
    };
    Step::Remainder {
        weights: any_weights(random, states),
        modulus,
        rest: any_number(random, modulus),
    }
}

pub fn any_weights(random: &mut Random, states: u32) -> Vec<Weight> {
    let mut marks = random.mask(states);
    if random.chance(70) {
        marks &= random.mask(states);
    }
    let small = random.chance(60);
    bits(marks)
        .map(|state| Weight {
            state,
            coefficient: any_coefficient(random, small),
        })
        .collect()
}

fn any_coefficient(random: &mut Random, small: bool) -> i32 {
    if small {
        return random.pick(&[1, -1, 1, -1, 2, -2, 3]);
    }
    match random.below(3) {
        0 => random.pick(&[32_767, -32_768, 32_766, -32_767]),
        1 => random.pick(&[1, -1]),
        _ => random.between(1, 32_767) as i32 * random.pick(&[1, -1]),
    }
}

/// A sheet's words, valid or damaged.
pub fn any_words(random: &mut Random) -> Vec<u32> {
    if random.chance(3) {
        return about_full(random);
    }
    let mut words = any_sheet(random).words();
    if random.chance(70) {
        damage(random, &mut words);
    }
    words
}

/// A sheet of 16,382 to 16,387 words, those over the limit otherwise valid.
pub fn about_full(random: &mut Random) -> Vec<u32> {
    let target = random.between(16_382, 16_387);
    let mut filled = sheet(random, &EDGES);
    let mut length = filled.words().len();
    while length + 1_200 < target {
        let arcs = random
            .pick(&[300, 1_000, 1_023, 1_024])
            .min(target - length - 60);
        let positions = random.pick(EDGES.positions);
        let order = any_order(random, filled.states, positions, arcs.min(1_024));
        filled.rules.push(Rule::Content {
            order: Some(order),
            count: None,
            target: 0,
        });
        length = filled.words().len();
    }
    // Rules of two and three words fill the rest.
    while length < target {
        let odd = (target - length) % 2 == 1;
        length += if odd { 3 } else { 2 };
        filled.rules.push(if odd {
            Rule::Text { kind: 1, target: 0 }
        } else {
            Rule::Content {
                order: None,
                count: None,
                target: 0,
            }
        });
    }
    let mut words = filled.words();
    if random.chance(25) {
        damage(random, &mut words);
    }
    words
}

/// Changes, removes or adds one word, or cuts the sheet, or adds words at its end.
pub fn damage(random: &mut Random, words: &mut Vec<u32>) {
    let place = if random.chance(20) {
        random.below(6.min(words.len()))
    } else {
        random.below(words.len())
    };
    match random.below(20) {
        0 => {
            words.remove(place);
        }
        1 => {
            let word = any_word(random, words[place]);
            words.insert(place, word);
        }
        2 => words.truncate(place),
        3 => {
            let last = words.len() - 1;
            words.truncate(last);
        }
        4 => {
            let more = random.pick(&[1, 1, 2, 300, 16_384]);
            let word = random.pick(&[0, 32, 33, u32::MAX]);
            words.extend(std::iter::repeat_n(word, more));
        }
        _ => words[place] = any_word(random, words[place]),
    }
}

/// Another word, near the old one or at a limit.
fn any_word(random: &mut Random, old: u32) -> u32 {
    let limits: &[i32] = &[
        0,
        1,
        2,
        3,
        4,
        5,
        6,
        31,
        32,
        33,
        34,
        37,
        38,
        39,
        40,
        48,
        56,
        57,
        63,
        64,
        65,
        255,
        256,
        999,
        1_000,
        1_001,
        1_023,
        1_024,
        1_025,
        32_767,
        32_768,
        -1,
        -32_768,
        -32_769,
        65_535,
        65_536,
        i32::MAX,
        i32::MIN,
    ];
    match random.below(8) {
        0 | 1 => old.wrapping_add(1),
        2 | 3 => old.wrapping_sub(1),
        4 => old ^ 1 << random.below(32),
        5 | 6 => random.pick(limits) as u32,
        _ => random.word(),
    }
}

/// The bytes of a sheet's file.
pub fn file(words: &[u32]) -> Vec<u8> {
    words.iter().flat_map(|word| word.to_le_bytes()).collect()
}

/// A file, valid or damaged in its words, its end or a byte.
pub fn any_file(random: &mut Random) -> Vec<u8> {
    let mut file = if random.chance(55) {
        file(&any_sheet(random).words())
    } else {
        file(&any_words(random))
    };
    match random.below(10) {
        0 | 1 => {
            for _ in 0..random.between(1, 4) {
                file.push(random.byte());
            }
        }
        2 => file.truncate(random.below(file.len() + 1)),
        3 if !file.is_empty() => {
            let place = random.below(file.len());
            file[place] ^= 1 << random.below(8);
        }
        _ => {}
    }
    file
}
