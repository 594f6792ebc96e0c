//! Joining two sheets.

use super::sheet::{
    bits, parse, Arc, Order, Rule, Sheet, Step, Weight, MOST_ARCS, MOST_POSITIONS, MOST_RULES,
    MOST_STATES, MOST_STEPS, MOST_WORDS,
};
use super::{fault, Fault};

/// The words of the joint sheet, or 9, 20 or 21.
pub fn words(first: &[u32], second: &[u32]) -> Result<Vec<u32>, Fault> {
    let first = parse(first)?;
    // "S before T, T's place plus 20,000"
    let second = parse(second).map_err(|bad| Fault {
        place: bad.place + 20_000,
        ..bad
    })?;
    if first.tags != second.tags {
        return Err(fault(20, second.tags as usize, "tag counts differ"));
    }
    let size = measure(&first, &second);
    size.check()?;
    let words = join(&first, &second).words();
    assert_eq!(words.len() as u64, size.words);
    Ok(words)
}

/// What 21 looks at: states, rules and words of the whole joint sheet, and the most positions,
/// arcs and steps of any one of its rules.
#[derive(Clone, Copy, Debug, Default, PartialEq, Eq)]
pub struct Size {
    pub states: u64,
    pub rules: u64,
    pub positions: u64,
    pub arcs: u64,
    pub steps: u64,
    pub words: u64,
}

impl Size {
    /// "21: joint sheet over a limit; place 1 states, 2 rules, 3 positions, 4 arcs, 5 steps,
    /// 6 words, the first of these."
    fn check(&self) -> Result<(), Fault> {
        let limits = [
            (self.states, u64::from(MOST_STATES), "states"),
            (self.rules, u64::from(MOST_RULES), "rules"),
            (self.positions, u64::from(MOST_POSITIONS), "positions"),
            (self.arcs, u64::from(MOST_ARCS), "arcs"),
            (self.steps, u64::from(MOST_STEPS), "steps"),
            (self.words, MOST_WORDS as u64, "words"),
        ];
        match limits.iter().position(|(size, most, _)| size > most) {
            Some(index) => Err(fault(21, index + 1, limits[index].2)),
            None => Ok(()),
        }
    }
}

/// The size of the joint sheet, whether it is within the limits or not.
pub fn measure(first: &Sheet, second: &Sheet) -> Size {
    let states = (u64::from(first.states), u64::from(second.states));
    let mut size = Size {
        states: states.0 * states.1,
        words: 6,
        ..Size::default()
    };
    for left in &first.rules {
        for right in &second.rules {
            if pair_up(left, right) {
                size.rules += 1;
                add_rule(&mut size, states, left, right);
            }
        }
    }
    size
}

fn add_rule(size: &mut Size, states: (u64, u64), left: &Rule, right: &Rule) {
    match (left, right) {
        (Rule::Text { .. }, _) => size.words += 3,
        (Rule::Element { .. }, _) => size.words += 4,
        (
            Rule::Content { order, count, .. },
            Rule::Content {
                order: order_right,
                count: count_right,
                ..
            },
        ) => {
            size.words += 2; // map and target
            add_order(size, states, order.as_ref(), order_right.as_ref());
            add_count(size, states, count.as_deref(), count_right.as_deref());
        }
        _ => unreachable!("rules of one kind"),
    }
}

fn add_order(size: &mut Size, states: (u64, u64), left: Option<&Order>, right: Option<&Order>) {
    let numbers = |order: &Order| (u64::from(order.positions), order.arcs.len() as u64);
    let (positions, arcs) = match (left.map(numbers), right.map(numbers)) {
        (None, None) => return,
        (Some((m, arcs)), None) => (m, arcs * states.1),
        (None, Some((m, arcs))) => (m, arcs * states.0),
        (Some((m, arcs)), Some((m_right, arcs_right))) => (m * m_right, arcs * arcs_right),
    };
    size.positions = size.positions.max(positions);
    size.arcs = size.arcs.max(arcs);
    size.words += 4 + arcs;
}

fn add_count(size: &mut Size, states: (u64, u64), left: Option<&[Step]>, right: Option<&[Step]>) {
    let mut steps = 0;
    let mut words = 1;
    for (part, others) in [(left, states.1), (right, states.0)] {
        for step in part.unwrap_or_default() {
            steps += 1;
            words += lifted_words(step, others);
        }
    }
    if left.is_some() && right.is_some() {
        steps += 1;
        words += 3;
    }
    if left.is_some() || right.is_some() {
        size.steps = size.steps.max(steps);
        size.words += words;
    }
}

fn lifted_words(step: &Step, others: u64) -> u64 {
    match step {
        Step::AtMost { weights, .. } => 3 + weights.len() as u64 * others + 1,
        Step::Remainder { weights, .. } => 3 + weights.len() as u64 * others + 2,
        Step::Not(_) => 2,
        Step::And(..) | Step::Or(..) => 3,
    }
}

/// "Rules pair up, S's order outermost, if both are kind one with equal text kind, kind two with
/// equal tag, or kind three."
pub fn pair_up(left: &Rule, right: &Rule) -> bool {
    match (left, right) {
        (Rule::Text { kind, .. }, Rule::Text { kind: other, .. }) => kind == other,
        (Rule::Element { tag, .. }, Rule::Element { tag: other, .. }) => tag == other,
        (Rule::Content { .. }, Rule::Content { .. }) => true,
        _ => false,
    }
}

/// Which half of a pair a lifted part speaks of.
#[derive(Clone, Copy)]
enum Half {
    First,
    Second,
}

/// The numbers of states of two sheets.
#[derive(Clone, Copy)]
struct Pairs {
    first: u32,
    second: u32,
}

impl Pairs {
    /// "The pair (s, t) is s × p of T + t."
    fn pair(&self, s: u32, t: u32) -> u32 {
        s * self.second + t
    }

    /// The half of a pair.
    fn half(&self, pair: u32, half: Half) -> u32 {
        match half {
            Half::First => pair / self.second,
            Half::Second => pair % self.second,
        }
    }

    /// The pairs with this state in this half; ascending, whichever half it is.
    fn with(&self, state: u32, half: Half) -> Vec<u32> {
        (0..self.first * self.second)
            .filter(|&pair| self.half(pair, half) == state)
            .collect()
    }
}

/// The joint sheet of two that join within the limits.
fn join(first: &Sheet, second: &Sheet) -> Sheet {
    let pairs = Pairs {
        first: first.states,
        second: second.states,
    };
    let mut rules = Vec::new();
    for left in &first.rules {
        for right in &second.rules {
            if pair_up(left, right) {
                rules.push(join_rules(pairs, left, right));
            }
        }
    }
    Sheet {
        states: first.states * second.states,
        finals: pair_mask(first.finals, second.finals, second.states),
        tags: first.tags,
        rules,
    }
}

/// The mask of the pairs of which both halves stand in their masks.
fn pair_mask(first: u64, second: u64, second_width: u32) -> u64 {
    let mut mask = 0;
    for s in bits(first) {
        for t in bits(second) {
            mask |= 1 << (s * second_width + t);
        }
    }
    mask
}

fn join_rules(pairs: Pairs, left: &Rule, right: &Rule) -> Rule {
    match (left, right) {
        (Rule::Text { kind, target: s }, Rule::Text { target: t, .. }) => Rule::Text {
            kind: *kind,
            target: pairs.pair(*s, *t),
        },
        (
            Rule::Element {
                tag,
                inner: inner_s,
                target: s,
            },
            Rule::Element {
                inner: inner_t,
                target: t,
                ..
            },
        ) => Rule::Element {
            tag: *tag,
            inner: pairs.pair(*inner_s, *inner_t),
            target: pairs.pair(*s, *t),
        },
        (
            Rule::Content {
                order: order_s,
                count: count_s,
                target: s,
            },
            Rule::Content {
                order: order_t,
                count: count_t,
                target: t,
            },
        ) => Rule::Content {
            order: join_orders(pairs, order_s.as_ref(), order_t.as_ref()),
            count: join_counts(pairs, count_s.as_deref(), count_t.as_deref()),
            target: pairs.pair(*s, *t),
        },
        _ => unreachable!("rules of one kind"),
    }
}

fn join_orders(pairs: Pairs, first: Option<&Order>, second: Option<&Order>) -> Option<Order> {
    match (first, second) {
        (None, None) => None,
        (Some(order), None) => Some(lift_order(pairs, Half::First, order)),
        (None, Some(order)) => Some(lift_order(pairs, Half::Second, order)),
        (Some(first), Some(second)) => Some(pair_orders(pairs, first, second)),
    }
}

/// "one alone is lifted, each arc once for each state of the other sheet, ascending"
fn lift_order(pairs: Pairs, half: Half, order: &Order) -> Order {
    let mut arcs = Vec::new();
    for arc in &order.arcs {
        for pair in pairs.with(arc.reads, half) {
            arcs.push(Arc {
                reads: pair,
                ..*arc
            });
        }
    }
    Order {
        arcs,
        ..order.clone()
    }
}

/// "Two order parts give the pairs of positions numbered likewise, accepting if both are, and of
/// arcs, S outermost."
fn pair_orders(pairs: Pairs, first: &Order, second: &Order) -> Order {
    let position = |a: u32, b: u32| a * second.positions + b;
    let mut arcs = Vec::new();
    for left in &first.arcs {
        for right in &second.arcs {
            arcs.push(Arc {
                leaves: position(left.leaves, right.leaves),
                reads: pairs.pair(left.reads, right.reads),
                enters: position(left.enters, right.enters),
            });
        }
    }
    Order {
        positions: first.positions * second.positions,
        accepting: pair_mask(first.accepting, second.accepting, second.positions),
        arcs,
    }
}

/// "two count parts, both lifted, stand S first, step numbers shifted, closed by an and"
fn join_counts(pairs: Pairs, first: Option<&[Step]>, second: Option<&[Step]>) -> Option<Vec<Step>> {
    match (first, second) {
        (None, None) => None,
        (Some(steps), None) => Some(lift_steps(pairs, Half::First, steps, 0)),
        (None, Some(steps)) => Some(lift_steps(pairs, Half::Second, steps, 0)),
        (Some(first), Some(second)) => {
            let shift = first.len() as u32;
            let mut steps = lift_steps(pairs, Half::First, first, 0);
            steps.extend(lift_steps(pairs, Half::Second, second, shift));
            steps.push(Step::And(shift - 1, shift + second.len() as u32 - 1));
            Some(steps)
        }
    }
}

fn lift_steps(pairs: Pairs, half: Half, steps: &[Step], shift: u32) -> Vec<Step> {
    let lift = |step: &Step| match step {
        Step::AtMost { weights, bound } => Step::AtMost {
            weights: lift_weights(pairs, half, weights),
            bound: *bound,
        },
        Step::Remainder {
            weights,
            modulus,
            rest,
        } => Step::Remainder {
            weights: lift_weights(pairs, half, weights),
            modulus: *modulus,
            rest: *rest,
        },
        Step::Not(step) => Step::Not(step + shift),
        Step::And(left, right) => Step::And(left + shift, right + shift),
        Step::Or(left, right) => Step::Or(left + shift, right + shift),
    };
    steps.iter().map(lift).collect()
}

/// "In a lifted count part each pair has the coefficient of its half"; the pairs of states that
/// aren't marked aren't marked either.
fn lift_weights(pairs: Pairs, half: Half, weights: &[Weight]) -> Vec<Weight> {
    let mut lifted = Vec::new();
    for pair in 0..pairs.first * pairs.second {
        let own = pairs.half(pair, half);
        if let Some(weight) = weights.iter().find(|weight| weight.state == own) {
            lifted.push(Weight {
                state: pair,
                coefficient: weight.coefficient,
            });
        }
    }
    lifted
}
