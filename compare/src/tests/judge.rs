use super::{pattern, refusal};
use crate::answer::{Answer, Implementation};
use crate::document;
use crate::reference::sheet::{Arc, Order, Rule, Sheet, Step, Weight};
use crate::reference::Reference;

fn content(order: Option<Order>, count: Option<Vec<Step>>, target: u32) -> Rule {
    Rule::Content {
        order,
        count,
        target,
    }
}

fn element(tag: u32, inner: u32, target: u32) -> Rule {
    Rule::Element { tag, inner, target }
}

/// A sheet of five states and two tags; state 1 is final.
fn sheet(rules: &[Rule]) -> Vec<u32> {
    Sheet {
        states: 5,
        finals: 2,
        tags: 2,
        rules: rules.to_vec(),
    }
    .words()
}

/// The tree of nodes given by symbol and size.
fn tree(nodes: &[(u32, u32)]) -> Vec<u32> {
    nodes
        .iter()
        .flat_map(|&(symbol, size)| [symbol, size, 9, 9])
        .collect()
}

/// The answer and the states, with a word more than needed.
fn judge(rules: &[Rule], nodes: &[(u32, u32)]) -> (Answer, Vec<u32>) {
    let mut states = pattern(nodes.len() + 1);
    let answer = Reference::default().judge(&sheet(rules), &tree(nodes), &mut states);
    assert_eq!(states.pop(), pattern(nodes.len() + 1).pop());
    (answer, states)
}

#[test]
fn texts_reach_targets_of_their_kind() {
    let rules = [
        Rule::Text { kind: 1, target: 0 },
        Rule::Text { kind: 2, target: 3 },
        Rule::Text { kind: 1, target: 0 },
        element(1, 0, 1),
        element(1, 3, 2),
    ];
    // Three looks at the text, two for the content of one child.
    let integer = judge(&rules, &[(1, 2), (65, 1)]);
    assert_eq!(integer, (Answer::Accepted(1, 5), vec![2, 1]));
    let other = judge(&rules, &[(1, 2), (66, 1)]);
    assert_eq!(other, (Answer::Refused(2, 5), vec![3, 4]));
}

#[test]
fn content_of_one_child_tries_no_kind_three_rule() {
    let rules = [content(None, None, 0), element(1, 0, 1), element(2, 1, 1)];
    // The inner one: one look, then two; the outer one: two.
    let answer = judge(&rules, &[(2, 2), (1, 1)]);
    assert_eq!(answer, (Answer::Accepted(1, 5), vec![2, 2]));
}

#[test]
fn a_child_without_a_state_leaves_its_parent_none() {
    let rules = [content(None, None, 0), element(1, 0, 1)];
    // Node 2 has a tag without rules; nodes 1 and 3 stand beside it.
    let nodes = [(1, 4), (1, 1), (2, 1), (1, 1)];
    // Each leaf has one look for its content and one for the kind-two rule; the root has none.
    let answer = judge(&rules, &nodes);
    assert_eq!(answer, (Answer::Stuck(2, 6), vec![0, 2, 0, 2]));
    let one_child = judge(&rules, &[(1, 2), (2, 1)]);
    assert_eq!(one_child, (Answer::Stuck(1, 2), vec![0, 0]));
}

#[test]
fn several_content_states_are_no_two_outcomes() {
    let rules = [
        content(None, None, 0),
        content(None, None, 3),
        element(1, 0, 1),
        element(1, 3, 1),
        element(2, 0, 1),
        element(2, 3, 2),
    ];
    assert_eq!(judge(&rules, &[(1, 1)]).0, Answer::Accepted(1, 6));
    assert_eq!(judge(&rules, &[(2, 1)]), (refusal(23, 0), vec![0]));
}

#[test]
fn two_states_win_over_stuck() {
    let rules = [
        content(None, None, 0),
        element(1, 0, 1),
        element(1, 0, 2),
        Rule::Text { kind: 1, target: 0 },
    ];
    // Node 3 has no state; node 1 reaches two.
    let nodes = [(2, 4), (1, 1), (2, 2), (66, 1)];
    assert_eq!(judge(&rules, &nodes), (refusal(23, 1), vec![0; 4]));
    // The highest-numbered of two such nodes.
    let nodes = [(2, 3), (1, 1), (1, 1)];
    assert_eq!(judge(&rules, &nodes), (refusal(23, 2), vec![0; 3]));
}

fn arc(leaves: u32, reads: u32, enters: u32) -> Arc {
    Arc {
        leaves,
        reads,
        enters,
    }
}

/// Leaves with tag 1 have state 0; the rule under test takes content to state 1; then tag 2.
fn leaves_under(order: Option<Order>, count: Option<Vec<Step>>, leaves: usize) -> Answer {
    let empty = Order {
        positions: 1,
        accepting: 1,
        arcs: vec![],
    };
    let rules = [
        content(Some(empty), None, 4),
        content(order, count, 1),
        element(1, 4, 0),
        element(2, 1, 1),
    ];
    let mut nodes = vec![(2, leaves as u32 + 1)];
    nodes.extend(vec![(1, 1); leaves]);
    judge(&rules, &nodes).0
}

/// The looks for the leaves: two for the kind-three rules, two for the kind-two rules, each.
const PER_LEAF: u32 = 4;

#[test]
fn looks_of_order_parts() {
    // Without arcs one child is read; the first rule, for empty content, reads one too.
    let order = |accepting: u64, arcs: &[Arc]| {
        Some(Order {
            positions: 3,
            accepting,
            arcs: arcs.to_vec(),
        })
    };
    let stuck = |looks: u32| Answer::Stuck(0, looks);
    let first = 2;
    let none = leaves_under(order(7, &[]), None, 3);
    assert_eq!(none, stuck(3 * PER_LEAF + first + 2));
    let path = [arc(0, 0, 1), arc(1, 0, 2)];
    // Emptied by the third of four children: three are read.
    let emptied = leaves_under(order(7, &path), None, 4);
    assert_eq!(emptied, stuck(4 * PER_LEAF + first + 4));
    // Emptied by the last child, and never emptied: both read all.
    let by_last = leaves_under(order(7, &path), None, 3);
    assert_eq!(by_last, stuck(3 * PER_LEAF + first + 4));
    let never = leaves_under(order(3, &path), None, 2);
    assert_eq!(never, stuck(2 * PER_LEAF + first + 3));
    let fits = leaves_under(order(4, &path), None, 2);
    assert_eq!(fits, Answer::Accepted(1, 2 * PER_LEAF + first + 3 + 2));
    // Without an order part every child is read.
    let all = leaves_under(None, None, 5);
    assert_eq!(all, Answer::Accepted(1, 5 * PER_LEAF + first + 6 + 2));
}

#[test]
fn sets_of_positions() {
    // An even number of leaves from position 1 on, or three from 2 on; several ways at once.
    let arcs = [
        arc(0, 0, 1),
        arc(0, 0, 2),
        arc(1, 0, 0),
        arc(2, 0, 3),
        arc(3, 0, 4),
    ];
    let accepted = |leaves: usize| {
        let order = Order {
            positions: 5,
            accepting: 1 << 4 | 1,
            arcs: arcs.to_vec(),
        };
        matches!(
            leaves_under(Some(order), None, leaves),
            Answer::Accepted(..)
        )
    };
    let fits: Vec<usize> = (2..8).filter(|&leaves| accepted(leaves)).collect();
    assert_eq!(fits, [2, 3, 4, 5, 6, 7]);
}

fn weights(coefficient: i32) -> Vec<Weight> {
    vec![Weight {
        state: 0,
        coefficient,
    }]
}

fn holds(steps: &[Step], leaves: usize) -> bool {
    let answer = leaves_under(None, Some(steps.to_vec()), leaves);
    matches!(answer, Answer::Accepted(..))
}

#[test]
fn sums_at_most_a_bound() {
    for (coefficient, leaves) in [(1, 2), (-1, 3), (32_767, 4_095), (-32_768, 4_095)] {
        let sum = coefficient * leaves as i32;
        for (bound, wanted) in [(sum - 1, false), (sum, true), (sum + 1, true)] {
            let step = Step::AtMost {
                weights: weights(coefficient),
                bound,
            };
            assert_eq!(holds(&[step], leaves), wanted, "{coefficient} {bound}");
        }
    }
    for (bound, wanted) in [(i32::MIN, false), (-1, false), (0, true), (i32::MAX, true)] {
        let no_marks = Step::AtMost {
            weights: vec![],
            bound,
        };
        assert_eq!(holds(&[no_marks], 2), wanted);
    }
}

#[test]
fn remainders_are_never_negative() {
    for coefficient in [-32_768, -7, -1, 1, 5, 32_767] {
        for modulus in [1u32, 2, 3, 7, 1_000] {
            for leaves in [2, 3, 10] {
                let sum = i64::from(coefficient) * leaves as i64;
                let rest =
                    (0..modulus).find(|&rest| (sum - i64::from(rest)) % i64::from(modulus) == 0);
                let step = |rest: u32| Step::Remainder {
                    weights: weights(coefficient),
                    modulus,
                    rest,
                };
                let rest = rest.expect("a remainder");
                assert!(holds(&[step(rest)], leaves));
                assert!(modulus == 1 || !holds(&[step((rest + 1) % modulus)], leaves));
            }
        }
    }
}

#[test]
fn steps_on_steps() {
    let yes = Step::AtMost {
        weights: vec![],
        bound: 0,
    };
    let no = Step::AtMost {
        weights: vec![],
        bound: -1,
    };
    let steps = |last: Step| [yes.clone(), no.clone(), last];
    for (last, wanted) in [
        (Step::Not(0), false),
        (Step::Not(1), true),
        (Step::And(0, 0), true),
        (Step::And(0, 1), false),
        (Step::And(1, 0), false),
        (Step::Or(0, 1), true),
        (Step::Or(1, 0), true),
        (Step::Or(1, 1), false),
    ] {
        assert_eq!(holds(&steps(last), 2), wanted);
    }
    assert!(!holds(&[yes, no], 2));
}

#[test]
fn order_of_refusals() {
    let calls = Reference::default();
    let s = document::sheet_s();
    let out = &mut [];
    assert_eq!(calls.judge(&[2], &[], out), refusal(9, 0));
    assert_eq!(calls.judge(&s, &[], out), refusal(10, 0));
    assert_eq!(calls.judge(&s, &[5, 1, 0, 0], out), refusal(10, 0));
    assert_eq!(calls.judge(&s, &[4, 1, 0, 0], out), refusal(22, 1));
    // 22 comes before any node is judged.
    let mut two = s;
    two[5] = 7;
    two.extend([33, 2, 1]);
    let tree = [4, 2, 0, 0, 66, 1, 8, 3];
    let mut short = [7];
    assert_eq!(calls.judge(&two, &tree, &mut short), refusal(22, 2));
    assert_eq!(short, [7]);
    let mut long = [7; 4];
    assert_eq!(calls.judge(&two, &tree, &mut long), refusal(23, 1));
    assert_eq!(long, [0, 0, 7, 7]);
}

/// The most looks there can be stay within 2 × n × R.
#[test]
fn many_looks() {
    let mut rules = vec![element(1, 0, 0)];
    rules.extend(vec![content(None, None, 0); 1_023]);
    let mut nodes = vec![(1, 1); 4_096];
    nodes[0].1 = 4_096;
    let answer = judge(&rules, &nodes).0;
    let looks = 4_095 * 1_024 + 1_023 * 4_096 + 1;
    assert_eq!(answer, Answer::Refused(0, looks));
    assert!(looks <= 2 * 4_096 * 1_024);
}
