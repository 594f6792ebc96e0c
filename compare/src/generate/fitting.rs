//! Sheets that take many forms through to the root, and the forms for them.

use super::forms::{grow, of_size, Growth, Item};
use super::random::Random;
use super::sheets::{any_content_rule, any_order, any_steps, any_weights, TINY};
use crate::reference::sheet::{bits, Arc, Order, Rule, Sheet, Step, Weight};

/// How often rules are left out or doubled, in percent.
#[derive(Clone, Copy)]
struct Flaws {
    holes: usize,
    extras: usize,
}

/// A sheet that gives most nodes of a form over its tags one state.
pub fn sheet(random: &mut Random, tags: u32, states: u32) -> Sheet {
    let flaws = Flaws {
        holes: random.pick(&[0, 0, 3, 15]),
        extras: random.pick(&[0, 0, 0, 2, 10]),
    };
    let mut rules = text_rules(random, states, flaws);
    rules.extend(content_rules(random, states, flaws));
    rules.extend(element_rules(random, tags, states, flaws));
    if random.chance(60) {
        random.shuffle(&mut rules);
    }
    Sheet {
        states,
        finals: random.mask(states),
        tags,
        rules,
    }
}

fn text_rules(random: &mut Random, states: u32, flaws: Flaws) -> Vec<Rule> {
    let mut rules = Vec::new();
    for kind in [1, 2] {
        if random.chance(flaws.holes) {
            continue;
        }
        let target = random.number(states);
        rules.push(Rule::Text { kind, target });
        if random.chance(flaws.extras) {
            let target = random.number(states);
            rules.push(Rule::Text { kind, target });
        }
    }
    rules
}

/// For each tag and inner state a rule; the target may depend on both or on the tag alone.
fn element_rules(random: &mut Random, tags: u32, states: u32, flaws: Flaws) -> Vec<Rule> {
    let mut rules = Vec::new();
    let by_tag_alone = random.chance(50);
    for tag in 1..=tags {
        let own = random.number(states);
        for inner in 0..states {
            let target = if by_tag_alone {
                own
            } else {
                random.number(states)
            };
            if !random.chance(flaws.holes) {
                rules.push(Rule::Element { tag, inner, target });
            }
            if random.chance(flaws.extras) {
                let target = random.number(states);
                rules.push(Rule::Element { tag, inner, target });
            }
        }
    }
    rules
}

fn content_rules(random: &mut Random, states: u32, flaws: Flaws) -> Vec<Rule> {
    let parts: Vec<(Option<Order>, Option<Vec<Step>>)> = match random.below(7) {
        0 => vec![(None, None)],
        1 => remainders(random, states)
            .into_iter()
            .map(|steps| (None, Some(steps)))
            .collect(),
        2 => {
            let count = random.number(5) + 1;
            either_way(random, states, count)
                .into_iter()
                .map(|steps| (None, Some(steps)))
                .collect()
        }
        3 => orders(random, states)
            .into_iter()
            .map(|order| (Some(order), None))
            .collect(),
        4 => {
            let orders = orders(random, states);
            let counts = remainders(random, states);
            let pair = |order: &Order| -> Vec<_> {
                let order = Some(order.clone());
                counts
                    .iter()
                    .map(|steps| (order.clone(), Some(steps.clone())))
                    .collect()
            };
            orders.iter().flat_map(pair).collect()
        }
        5 => loose_orders(random, states),
        _ => return loose_rules(random, states),
    };
    let mut rules = Vec::new();
    for (order, count) in parts {
        let target = random.number(states);
        if random.chance(flaws.extras) {
            rules.push(any_content_rule(random, &TINY, states));
        }
        if !random.chance(flaws.holes) {
            rules.push(Rule::Content {
                order,
                count,
                target,
            });
        }
    }
    rules
}

/// Any rules, often with the target of the first.
fn loose_rules(random: &mut Random, states: u32) -> Vec<Rule> {
    let common = random.number(states);
    let mut rules = vec![Rule::Content {
        order: None,
        count: None,
        target: common,
    }];
    for _ in 0..random.between(0, 4) {
        let mut rule = any_content_rule(random, &TINY, states);
        if let Rule::Content { target, .. } = &mut rule {
            if random.chance(70) {
                *target = common;
            }
        }
        rules.push(rule);
    }
    rules
}

/// Order parts with several ways to go, and an order part that fits the rest loosely.
fn loose_orders(random: &mut Random, states: u32) -> Vec<(Option<Order>, Option<Vec<Step>>)> {
    let positions = random.number(5) + 1;
    let mut parts = Vec::new();
    for _ in 0..random.between(1, 3) {
        let arcs = random.between(0, (positions * states * 2) as usize);
        let mut order = any_order(random, states, positions, arcs);
        order.accepting |= random.mask(positions);
        parts.push((Some(order), None));
    }
    parts
}

/// One count part for each remainder.
fn remainders(random: &mut Random, states: u32) -> Vec<Vec<Step>> {
    let weights = any_weights(random, states);
    let modulus = random.number(3) + 1;
    (0..modulus)
        .map(|rest| {
            vec![Step::Remainder {
                weights: weights.clone(),
                modulus,
                rest,
            }]
        })
        .collect()
}

/// A count part and its opposite.
fn either_way(random: &mut Random, states: u32, count: u32) -> Vec<Vec<Step>> {
    let steps = any_steps(random, states, count);
    let mut opposite = steps.clone();
    opposite.push(Step::Not(count - 1));
    vec![steps, opposite]
}

/// Order parts with exactly one way to go, whose accepting positions part all positions.
fn orders(random: &mut Random, states: u32) -> Vec<Order> {
    let small = random.number(4) + 1;
    let positions = random.pick(&[small, small, small, small, small, small, 33, 64]);
    let positions = positions.min(1_024 / states);
    let mut arcs = Vec::new();
    for leaves in 0..positions {
        for reads in 0..states {
            arcs.push(Arc {
                leaves,
                reads,
                enters: random.number(positions),
            });
        }
    }
    let own = random.mask(positions);
    let rest = own ^ crate::reference::sheet::below(positions);
    [own, rest]
        .into_iter()
        .map(|accepting| Order {
            positions,
            accepting,
            arcs: arcs.clone(),
        })
        .collect()
}

/// A form for a run: small, wide, deep or large.
pub fn form(random: &mut Random, tags: u32) -> Item {
    let nodes = match random.weighted(&[20, 55, 20, 3, 1]) {
        0 => random.between(1, 4),
        1 => random.between(3, 15),
        2 => random.between(15, 60),
        3 => random.between(60, 500),
        _ => {
            let nodes = random.between(4_090, 4_096);
            return of_size(random, tags, nodes);
        }
    };
    let growth = Growth {
        tags,
        nodes,
        depth: random.pick(&[2, 2, 3, 4, 6, 32]),
        texts: random.pick(&[0, 15, 40]),
    };
    grow(random, growth)
}

/// A sheet with three states and three tags, and a form of k elements of tag 1 and l of tag 2
/// under tag 3. Empty content is told from other content by a count; the one other rule has a
/// count step whose bound or remainder lies beside the form's sum.
pub fn close_count(random: &mut Random) -> (Sheet, Item) {
    let most = random.pick(&[4, 40, 2_047]);
    let (k, l) = (random.between(1, most), random.between(1, most));
    let coefficients = [0, 1].map(|_| {
        let small = random.between(1, 5) as i32;
        random.pick(&[1, -1, 32_767, -32_768, small, -small])
    });
    let sum = i64::from(coefficients[0]) * k as i64 + i64::from(coefficients[1]) * l as i64;
    let weights = vec![
        Weight {
            state: 0,
            coefficient: coefficients[0],
        },
        Weight {
            state: 1,
            coefficient: coefficients[1],
        },
    ];
    let near = sum + random.pick(&[-1, 0, 0, 1]);
    let step = if random.chance(50) {
        Step::AtMost {
            weights,
            bound: near as i32,
        }
    } else {
        let modulus = random.pick(&[1, 2, 3, 7, 999, 1_000]);
        Step::Remainder {
            weights,
            modulus,
            rest: near.rem_euclid(i64::from(modulus)) as u32,
        }
    };
    (close_sheet(random, step), flat(random, k, l))
}

fn close_sheet(random: &mut Random, step: Step) -> Sheet {
    let content = |steps: Vec<Step>, target: u32| Rule::Content {
        order: None,
        count: Some(steps),
        target,
    };
    let element = |tag: u32, inner: u32, target: u32| Rule::Element { tag, inner, target };
    let no_children = Step::AtMost {
        weights: bits(7)
            .map(|state| Weight {
                state,
                coefficient: 1,
            })
            .collect(),
        bound: 0,
    };
    let mut rules = vec![
        content(vec![no_children], 2),
        element(1, 2, 0),
        element(2, 2, 1),
        element(3, 0, 2),
        element(3, 1, 1),
    ];
    if random.chance(40) {
        rules.push(content(vec![step.clone(), Step::Not(0)], 1));
    }
    rules.push(content(vec![step], 0));
    Sheet {
        states: 3,
        finals: random.mask(3),
        tags: 3,
        rules,
    }
}

fn flat(random: &mut Random, k: usize, l: usize) -> Item {
    let mut children = vec![Item::Element(1, Vec::new()); k];
    children.extend(vec![Item::Element(2, Vec::new()); l]);
    random.shuffle(&mut children);
    Item::Element(3, children)
}

/// Many rules over many nodes: the looks go up to about n × R.
pub fn many_looks(random: &mut Random) -> (Sheet, Item) {
    let mut rules = vec![
        Rule::Element {
            tag: 1,
            inner: 0,
            target: 0,
        },
        Rule::Text { kind: 1, target: 0 },
        Rule::Text { kind: 2, target: 0 },
    ];
    for _ in 0..random.pick(&[50, 1_021]) {
        rules.push(match random.below(3) {
            0 => Rule::Element {
                tag: 1,
                inner: 0,
                target: 0,
            },
            1 => Rule::Text { kind: 1, target: 0 },
            _ => Rule::Content {
                order: random.chance(50).then(|| any_order(random, 1, 2, 2)),
                count: None,
                target: 0,
            },
        });
    }
    let sheet = Sheet {
        states: 1,
        finals: 1,
        tags: 1,
        rules,
    };
    let nodes = random.pick(&[50, 500, 4_096]);
    (sheet, of_size(random, 1, nodes))
}
