//! The run of a sheet over a tree.

use super::sheet::{bits, Order, Rule, Sheet, Step, Weight};
use super::tree::{children, Node, INTEGER_TEXT};
use super::{fault, Fault};
use crate::answer::Answer;
use std::collections::BTreeSet;

/// A run in which no node reaches two states.
pub struct Run {
    pub states: Vec<Option<u32>>,
    pub looks: u32,
}

/// "Nodes are taken from the last to node 0." 23 stands at the highest-numbered node that reaches
/// two states; a node without a state doesn't end the run.
pub fn run(sheet: &Sheet, nodes: &[Node]) -> Result<Run, Fault> {
    let mut run = Run {
        states: vec![None; nodes.len()],
        looks: 0,
    };
    for number in (0..nodes.len()).rev() {
        let reached = run.reached(sheet, nodes, number);
        if reached.len() > 1 {
            return Err(fault(23, number, "a node reaches two states"));
        }
        run.states[number] = reached.first().copied();
    }
    Ok(run)
}

impl Run {
    /// "state + 1 or 0 for each node"
    pub fn state_words(&self) -> Vec<u32> {
        self.states
            .iter()
            .map(|state| state.map_or(0, |state| state + 1))
            .collect()
    }

    /// "accepted or refused, with root state and looks, or stuck, with the highest-numbered node
    /// without a state and the looks"
    pub fn verdict(&self, sheet: &Sheet) -> Answer {
        let without = self.states.iter().rposition(Option::is_none);
        match (without, self.states[0]) {
            (Some(node), _) => Answer::Stuck(node as u32, self.looks),
            (None, Some(state)) if sheet.finals >> state & 1 == 1 => {
                Answer::Accepted(state, self.looks)
            }
            (None, Some(state)) => Answer::Refused(state, self.looks),
            (None, None) => unreachable!("node 0 has a state"),
        }
    }

    /// The states that a node reaches, the nodes below it being done; counts its looks.
    fn reached(&mut self, sheet: &Sheet, nodes: &[Node], number: usize) -> BTreeSet<u32> {
        let node = &nodes[number];
        if node.is_text() {
            return self.text(sheet, node);
        }
        // "If a child has no state, its parent has none."
        let children = children(nodes, number);
        let child_states: Option<Vec<u32>> =
            children.iter().map(|&child| self.states[child]).collect();
        let Some(child_states) = child_states else {
            return BTreeSet::new();
        };
        let content = self.content(sheet, &child_states);
        self.element(sheet, node.symbol, &content)
    }

    /// "A text reaches the targets of its kind-one rules"; one look for each kind-one rule.
    fn text(&mut self, sheet: &Sheet, node: &Node) -> BTreeSet<u32> {
        let own_kind = if node.symbol == INTEGER_TEXT { 1 } else { 2 };
        let mut reached = BTreeSet::new();
        for rule in &sheet.rules {
            if let Rule::Text { kind, target } = rule {
                self.looks += 1;
                if *kind == own_kind {
                    reached.insert(*target);
                }
            }
        }
        reached
    }

    /// "Content of one child reaches that child's state, and no kind-three rule is tried. Other
    /// content, the empty one included, reaches the target of every kind-three rule whose order
    /// and count parts its child states fit."
    fn content(&mut self, sheet: &Sheet, child_states: &[u32]) -> BTreeSet<u32> {
        if let [only] = child_states {
            return BTreeSet::from([*only]);
        }
        let mut reached = BTreeSet::new();
        for rule in &sheet.rules {
            if let Rule::Content {
                order,
                count,
                target,
            } = rule
            {
                let (order_fits, read) = match order {
                    Some(order) => read_order(order, child_states),
                    None => (true, child_states.len()),
                };
                // "one for each kind-three rule and one more for each child that rule reads"
                self.looks += 1 + read as u32;
                let count_fits = count
                    .as_deref()
                    .is_none_or(|steps| fits(steps, child_states));
                if order_fits && count_fits {
                    reached.insert(*target);
                }
            }
        }
        reached
    }

    /// "An element reaches the targets of the kind-two rules with its tag and an inner state that
    /// its content reaches"; "if the content reaches a state, one for each kind-two rule".
    fn element(&mut self, sheet: &Sheet, own_tag: u32, content: &BTreeSet<u32>) -> BTreeSet<u32> {
        let mut reached = BTreeSet::new();
        if content.is_empty() {
            return reached;
        }
        for rule in &sheet.rules {
            if let Rule::Element { tag, inner, target } = rule {
                self.looks += 1;
                if *tag == own_tag && content.contains(inner) {
                    reached.insert(*target);
                }
            }
        }
        reached
    }
}

/// Whether an order part fits, and how many children it reads, "up to and with the child that
/// empties its set of positions". "Reading begins with the set of position 0 alone."
pub fn read_order(order: &Order, child_states: &[u32]) -> (bool, usize) {
    let mut set: u64 = 1;
    let mut read = 0;
    for &state in child_states {
        let mut next = 0;
        for arc in &order.arcs {
            if set >> arc.leaves & 1 == 1 && arc.reads == state {
                next |= 1 << arc.enters;
            }
        }
        set = next;
        read += 1;
        if set == 0 {
            break;
        }
    }
    (bits(set & order.accepting).next().is_some(), read)
}

/// "The last step decides."
fn fits(steps: &[Step], child_states: &[u32]) -> bool {
    let mut values: Vec<bool> = Vec::new();
    for step in steps {
        let value = match step {
            Step::AtMost { weights, bound } => sum(weights, child_states) <= i64::from(*bound),
            Step::Remainder {
                weights,
                modulus,
                rest,
            } => {
                // "true if the sum is r plus a whole multiple of M"
                let remainder = sum(weights, child_states).rem_euclid(i64::from(*modulus));
                remainder == i64::from(*rest)
            }
            Step::Not(step) => !values[*step as usize],
            Step::And(left, right) => values[*left as usize] && values[*right as usize],
            Step::Or(left, right) => values[*left as usize] || values[*right as usize],
        };
        values.push(value);
    }
    *values.last().expect("a count part has a step")
}

/// "the sum of coefficient × occurrences"
fn sum(weights: &[Weight], child_states: &[u32]) -> i64 {
    let mut occurrences = [0i64; 64];
    for &state in child_states {
        occurrences[state as usize] += 1;
    }
    weights
        .iter()
        .map(|weight| i64::from(weight.coefficient) * occurrences[weight.state as usize])
        .sum()
}
