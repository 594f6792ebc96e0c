//! Pairs of sheets to join: within the limits, beside each of them, and over several.

use super::fitting;
use super::random::Random;
use super::sheets::{
    about_full, any_content_rule, any_order, any_sheet, any_steps, damage, sheet, EDGES, TINY,
};
use crate::reference::join::measure;
use crate::reference::sheet::{parse, Rule, Sheet};

/// Two sheets, valid or damaged.
pub fn any_pair(random: &mut Random) -> (Vec<u32>, Vec<u32>) {
    let (first, second) = match random.weighted(&[22, 14, 8, 7, 7, 9, 7, 7, 6, 8, 2]) {
        0 => fitting_pair(random),
        1 => same_tags(random, |random| sheet(random, &TINY)),
        2 => beside_states(random),
        3 => beside_rules(random),
        4 => beside_positions(random),
        5 => beside_arcs(random),
        6 => beside_steps(random),
        7 => beside_words(random),
        8 => over_several(random),
        9 => (any_sheet(random), any_sheet(random)),
        _ => same_tags(random, large),
    };
    let (first, second) = if random.chance(50) {
        (first, second)
    } else {
        (second, first)
    };
    let (mut first, mut second) = (first.words(), second.words());
    match random.weighted(&[180, 10, 10, 4, 2]) {
        0 => {}
        1 => damage(random, &mut first),
        2 => damage(random, &mut second),
        3 => {
            damage(random, &mut first);
            damage(random, &mut second);
        }
        _ => second = about_full(random),
    }
    (first, second)
}

/// Two sheets that take many forms over the same tags through.
pub fn fitting_pair(random: &mut Random) -> (Sheet, Sheet) {
    let tags = random.number(4) + 1;
    let states = (random.number(5) + 1, random.number(4) + 1);
    (
        fitting::sheet(random, tags, states.0),
        fitting::sheet(random, tags, states.1),
    )
}

/// Two sheets, the second with the first one's tags.
fn same_tags(random: &mut Random, draw: impl Fn(&mut Random) -> Sheet) -> (Sheet, Sheet) {
    let first = draw(random);
    let mut second = draw(random);
    second.tags = first.tags;
    for rule in &mut second.rules {
        if let Rule::Element { tag, .. } = rule {
            *tag = (*tag).min(first.tags);
        }
    }
    (first, second)
}

/// A sheet of about 16,384 words, whose pairs with another one are very many.
fn large(random: &mut Random) -> Sheet {
    let full = parse(&about_full(random));
    full.unwrap_or_else(|_| any_sheet(random))
}

/// Two numbers of 1 to a most each, their product at a limit, one beside it, or not far from it.
fn near_product(random: &mut Random, limit: usize, most: usize) -> (usize, usize) {
    if random.chance(60) {
        let product = random.pick(&[limit - 1, limit, limit, limit + 1, limit + 1]);
        return factors(random, product, most);
    }
    let first = random.between(limit.div_ceil(most), most);
    let second = (limit / first + random.pick(&[0, 0, 1])).clamp(1, most);
    (first, second)
}

/// Two numbers of 1 to a most each with this product, if there are such.
fn factors(random: &mut Random, product: usize, most: usize) -> (usize, usize) {
    let fits = |&first: &usize| product.is_multiple_of(first) && product / first <= most;
    let firsts: Vec<usize> = (1..=most).filter(fits).collect();
    let first = random.pick(&firsts);
    (first, product / first)
}

fn empty(states: u32, tags: u32) -> Sheet {
    Sheet {
        states,
        finals: 1,
        tags,
        rules: Vec::new(),
    }
}

fn few_rules(random: &mut Random, states: u32, tags: u32) -> Sheet {
    let ranges = TINY;
    let mut drawn = sheet(random, &ranges);
    drawn.rules.truncate(3);
    drawn.rules.retain(|rule| matches!(rule, Rule::Text { .. }));
    for _ in 0..random.between(0, 2) {
        drawn.rules.push(any_content_rule(random, &ranges, states));
    }
    for rule in &mut drawn.rules {
        if let Rule::Text { target, .. } = rule {
            *target = random.number(states);
        }
    }
    Sheet {
        states,
        finals: random.mask(states),
        tags,
        rules: drawn.rules,
    }
}

/// States beside 64.
fn beside_states(random: &mut Random) -> (Sheet, Sheet) {
    let (first, second) = near_product(random, 64, 64);
    (
        few_rules(random, first as u32, 2),
        few_rules(random, second as u32, 2),
    )
}

/// 1,022 to 1,026 rules: products of rules of one kind, and single ones of another.
fn beside_rules(random: &mut Random) -> (Sheet, Sheet) {
    let target = random.between(1_022, 1_026);
    let per_first = random.pick(&[1, 2, 16, 31, 32, 33, 64, 341, 512]);
    let per_second = target / per_first;
    let single = target - per_first * per_second;
    let plain = Rule::Content {
        order: None,
        count: None,
        target: 0,
    };
    let text = Rule::Text { kind: 2, target: 0 };
    let element = Rule::Element {
        tag: 1,
        inner: 0,
        target: 0,
    };
    let kinds = [plain, text, element];
    let many = random.below(3);
    let one = (many + 1) % 3;
    let (mut first, mut second) = (empty(2, 1), empty(1, 1));
    first.rules = vec![kinds[many].clone(); per_first];
    first.rules.extend(vec![kinds[one].clone(); single]);
    second.rules = vec![kinds[many].clone(); per_second.min(1_023)];
    second.rules.push(kinds[one].clone());
    if random.chance(50) {
        random.shuffle(&mut first.rules);
        random.shuffle(&mut second.rules);
    }
    (first, second)
}

fn order_rule(random: &mut Random, states: u32, positions: u32, arcs: usize) -> Rule {
    Rule::Content {
        order: Some(any_order(random, states, positions, arcs)),
        count: None,
        target: random.number(states),
    }
}

/// Positions beside 64, in one pair of rules.
fn beside_positions(random: &mut Random) -> (Sheet, Sheet) {
    let (first_positions, second_positions) = near_product(random, 64, 64);
    let (mut first, mut second) = (few_rules(random, 3, 2), few_rules(random, 2, 2));
    let arcs = random.between(0, 6);
    first
        .rules
        .push(order_rule(random, 3, first_positions as u32, arcs));
    second
        .rules
        .push(order_rule(random, 2, second_positions as u32, arcs));
    (first, second)
}

/// Arcs beside 1,024: pairs of arcs, or those of a lone order part with the other's states.
fn beside_arcs(random: &mut Random) -> (Sheet, Sheet) {
    if random.chance(50) {
        let (first_arcs, second_arcs) = near_product(random, 1_024, 1_024);
        let (mut first, mut second) = (empty(3, 2), empty(4, 2));
        first.rules.push(order_rule(random, 3, 7, first_arcs));
        second.rules.push(order_rule(random, 4, 9, second_arcs));
        return (first, second);
    }
    let (arcs, states) = if random.chance(50) {
        let pair = random.pick(&[
            (1_023, 3),
            (1_023, 31),
            (1_025, 5),
            (1_025, 25),
            (1_025, 41),
        ]);
        (pair.0 / pair.1, pair.1)
    } else {
        let states = random.pick(&[1, 2, 3, 16, 32, 63, 64]);
        ((1_024 / states + random.below(2)).min(1_024), states)
    };
    let (mut first, mut second) = (empty(1, 2), few_rules(random, states as u32, 2));
    first.rules.push(order_rule(random, 1, 5, arcs));
    second.rules.push(Rule::Content {
        order: None,
        count: None,
        target: 0,
    });
    (first, second)
}

/// Steps beside 32, in one pair of rules.
fn beside_steps(random: &mut Random) -> (Sheet, Sheet) {
    let total = random.between(30, 34);
    let first_steps = random.between(1, total - 2);
    let second_steps = total - 1 - first_steps;
    let mut pair = (few_rules(random, 3, 2), few_rules(random, 2, 2));
    for (sheet, steps) in [(&mut pair.0, first_steps), (&mut pair.1, second_steps)] {
        let count = any_steps(random, sheet.states, steps.min(32) as u32);
        sheet.rules.push(Rule::Content {
            order: None,
            count: Some(count),
            target: 0,
        });
    }
    pair
}

/// 16,381 to 16,388 words: large rules, then rules of three and four words for the rest.
fn beside_words(random: &mut Random) -> (Sheet, Sheet) {
    let target = random.between(16_381, 16_388) as u64;
    let (mut first, mut second) = (empty(3, 2), empty(4, 2));
    second.rules.push(Rule::Text { kind: 1, target: 1 });
    second.rules.push(Rule::Element {
        tag: 1,
        inner: 0,
        target: 3,
    });
    let rule = any_content_rule(random, &TINY, 4);
    second.rules.push(rule);
    let arcs = random.pick(&[1, 16, 40]);
    let rule = order_rule(random, 4, 3, arcs);
    second.rules.push(rule);
    while measure(&first, &second).words + 2_600 < target {
        let rule = if random.chance(50) {
            any_content_rule(random, &EDGES_OF_THREE, 3)
        } else {
            order_rule(random, 3, 5, 25)
        };
        first.rules.push(rule);
    }
    let words = measure(&first, &second).words;
    let missing = target.saturating_sub(words);
    let elements = (missing % 3) as usize;
    let texts = (missing as usize).saturating_sub(4 * elements) / 3;
    for _ in 0..elements {
        first.rules.push(Rule::Element {
            tag: 1,
            inner: 1,
            target: 2,
        });
    }
    first
        .rules
        .extend(vec![Rule::Text { kind: 1, target: 2 }; texts]);
    (first, second)
}

/// Larger parts, whose pairs with the tiny ones stay within the limits of a rule.
const EDGES_OF_THREE: super::sheets::Ranges = super::sheets::Ranges {
    positions: &[1, 5, 12, 16],
    arcs: (0, 25),
    steps: &[1, 2, 5, 20, 27],
    ..TINY
};

/// Often over several limits at once, the first of which is named.
fn over_several(random: &mut Random) -> (Sheet, Sheet) {
    let mut pair = if random.chance(30) {
        beside_states(random)
    } else {
        (few_rules(random, 3, 2), few_rules(random, 2, 2))
    };
    for sheet in [&mut pair.0, &mut pair.1] {
        let states = sheet.states;
        if random.chance(30) {
            sheet
                .rules
                .extend(vec![Rule::Text { kind: 1, target: 0 }; 33]);
        }
        if random.chance(50) {
            let rule = order_rule(random, states, 9, 5);
            sheet.rules.push(rule);
        }
        if random.chance(50) {
            let rule = order_rule(random, states, 3, 33);
            sheet.rules.push(rule);
        }
        if random.chance(50) {
            sheet.rules.push(Rule::Content {
                order: None,
                count: Some(any_steps(random, states, 17)),
                target: 0,
            });
        }
        for _ in 0..random.pick(&[0, 0, 5, 20]) {
            let rule = order_rule(random, states, 2, 30);
            sheet.rules.push(rule);
        }
    }
    if random.chance(5) {
        let other = same_tags(random, |random| sheet(random, &EDGES));
        return (other.0, other.1);
    }
    pair
}
