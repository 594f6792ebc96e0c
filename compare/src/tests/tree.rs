use super::refusal;
use crate::answer::{Answer, Implementation};
use crate::reference::Reference;

/// Checks nodes given by symbol and size, with text words that don't matter.
fn check(tags: u32, nodes: &[(u32, u32)]) -> Answer {
    let words: Vec<u32> = nodes
        .iter()
        .flat_map(|&(symbol, size)| [symbol, size, u32::MAX, 7])
        .collect();
    Reference::default().check_tree(tags, &words)
}

#[test]
fn lengths() {
    let calls = Reference::default();
    assert_eq!(calls.check_tree(1, &[]), refusal(10, 0));
    assert_eq!(calls.check_tree(1, &[1, 1, 0]), refusal(10, 0));
    assert_eq!(calls.check_tree(1, &[1, 1, 0, 0]), Answer::Count(1));
    assert_eq!(calls.check_tree(1, &[0, 1, 0, 0, 1]), refusal(10, 1));
    assert_eq!(calls.check_tree(1, &[1, 1, 0, 0, 1, 1, 0]), refusal(10, 1));
}

/// A root with elements alone.
fn flat(nodes: usize) -> Vec<(u32, u32)> {
    let mut all = vec![(1, 1); nodes];
    all[0].1 = nodes as u32;
    all
}

#[test]
fn numbers_of_nodes() {
    assert_eq!(check(1, &flat(4_095)), Answer::Count(4_095));
    assert_eq!(check(1, &flat(4_096)), Answer::Count(4_096));
    assert_eq!(check(1, &flat(4_097)), refusal(10, 4_097));
    let mut bad = flat(4_097);
    bad[0].0 = 0;
    assert_eq!(check(1, &bad), refusal(10, 4_097));
}

#[test]
fn symbols() {
    for (symbol, allowed) in [
        (0, false),
        (1, true),
        (3, true),
        (4, false),
        (64, false),
        (65, true),
        (66, true),
        (67, false),
        (u32::MAX, false),
    ] {
        let wanted = if allowed {
            Answer::Count(2)
        } else {
            refusal(10, 1)
        };
        assert_eq!(check(3, &[(1, 2), (symbol, 1)]), wanted, "{symbol}");
    }
    assert_eq!(check(64, &[(64, 1)]), Answer::Count(1));
    assert_eq!(check(63, &[(64, 1)]), refusal(10, 0));
}

/// Numbers of tags that no list or sheet has.
#[test]
fn odd_numbers_of_tags() {
    assert_eq!(check(0, &[(1, 1)]), refusal(10, 0));
    assert_eq!(check(0, &[(66, 1)]), refusal(10, 0));
    assert_eq!(check(67, &[(67, 2), (67, 1)]), Answer::Count(2));
    assert_eq!(check(u32::MAX, &[(u32::MAX, 1)]), Answer::Count(1));
    // 65 and 66 are texts below node 0, at any depth, and a tag at node 0.
    assert_eq!(check(66, &[(65, 2), (66, 1)]), Answer::Count(2));
    assert_eq!(check(66, &[(1, 3), (65, 1), (66, 1)]), refusal(10, 2));
    assert_eq!(check(66, &[(1, 3), (65, 2), (1, 1)]), refusal(10, 1));
    assert_eq!(check(66, &nest(32, &[(66, 1)])), Answer::Count(33));
}

#[test]
fn node_0() {
    assert_eq!(check(1, &[(65, 1)]), refusal(10, 0));
    assert_eq!(check(1, &[(66, 1)]), refusal(10, 0));
    assert_eq!(check(1, &[(1, 1), (1, 1)]), refusal(10, 0));
    assert_eq!(check(1, &[(1, 3), (1, 1)]), refusal(10, 0));
    assert_eq!(check(1, &[(1, 0)]), refusal(10, 0));
}

#[test]
fn sizes() {
    assert_eq!(check(1, &[(1, 2), (1, 0)]), refusal(10, 1));
    assert_eq!(check(1, &[(1, 2), (1, 2)]), refusal(10, 1));
    assert_eq!(check(1, &[(1, 3), (65, 2), (1, 1)]), refusal(10, 1));
    assert_eq!(check(1, &[(1, 4), (1, 2), (1, 2), (1, 1)]), refusal(10, 2));
    assert_eq!(
        check(1, &[(1, 4), (1, 2), (1, 1), (1, 1)]),
        Answer::Count(4)
    );
    // Node 1 would end at 0 or 1 if the sum were taken in 32 bits.
    assert_eq!(check(1, &[(1, 2), (1, u32::MAX)]), refusal(10, 1));
    let wrapping = [(1, 3), (1, 1), (1, u32::MAX)];
    assert_eq!(check(1, &wrapping), refusal(10, 2));
}

#[test]
fn texts_side_by_side() {
    assert_eq!(check(1, &[(1, 3), (65, 1), (66, 1)]), refusal(10, 2));
    assert_eq!(check(1, &[(1, 3), (66, 1), (66, 1)]), refusal(10, 2));
    assert_eq!(
        check(1, &[(1, 4), (65, 1), (1, 1), (65, 1)]),
        Answer::Count(4)
    );
    // The first text ends an element beside the second.
    assert_eq!(
        check(1, &[(1, 4), (1, 2), (65, 1), (65, 1)]),
        Answer::Count(4)
    );
    assert_eq!(
        check(1, &[(1, 5), (1, 3), (1, 2), (65, 1), (65, 1)]),
        Answer::Count(5)
    );
    assert_eq!(
        check(1, &[(1, 5), (1, 3), (65, 1), (66, 1), (65, 1)]),
        refusal(10, 3)
    );
}

/// So many elements one in the other, the deepest around some nodes.
fn nest(depth: usize, inside: &[(u32, u32)]) -> Vec<(u32, u32)> {
    let n = depth + inside.len();
    let mut all: Vec<(u32, u32)> = (0..depth).map(|level| (1, (n - level) as u32)).collect();
    all.extend(inside);
    all
}

#[test]
fn depth() {
    assert_eq!(check(1, &nest(32, &[])), Answer::Count(32));
    assert_eq!(check(1, &nest(32, &[(66, 1)])), Answer::Count(33));
    assert_eq!(check(1, &nest(33, &[])), refusal(10, 32));
    assert_eq!(check(1, &nest(32, &[(66, 1), (1, 1)])), refusal(10, 33));
}

#[test]
fn the_first_failing_node() {
    assert_eq!(check(1, &[(1, 3), (0, 1), (0, 1)]), refusal(10, 1));
    assert_eq!(check(1, &[(1, 3), (1, 1), (0, 1)]), refusal(10, 2));
}
