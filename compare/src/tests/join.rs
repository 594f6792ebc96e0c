use super::{pattern, refusal};
use crate::answer::{Answer, Implementation};
use crate::document;
use crate::reference::Reference;

/// The answer, and the joint sheet if there is one; the rest of the buffer is as it was.
fn join(first: &[u32], second: &[u32]) -> (Answer, Vec<u32>) {
    let mut out = pattern(16_400);
    let answer = Reference::default().join(first, second, &mut out);
    let written = match answer {
        Answer::Count(count) => count as usize,
        _ => 0,
    };
    assert_eq!(out[written..], pattern(16_400)[written..]);
    out.truncate(written);
    (answer, out)
}

/// A sheet of p states and 4 tags with these rules.
fn sheet(states: u32, rules: &[&[u32]]) -> Vec<u32> {
    let mut words = vec![1, states, 0, 0, 4, rules.len() as u32];
    words.extend(rules.concat());
    words
}

/// So many of one rule.
fn repeated(states: u32, rule: &[u32], count: usize) -> Vec<u32> {
    sheet(states, &vec![rule; count])
}

#[test]
fn pairs_of_states_and_plain_rules() {
    let mut first = sheet(3, &[&[33, 1, 2], &[38, 4, 1, 2], &[32, 1], &[33, 2, 0]]);
    let mut second = sheet(
        2,
        &[
            &[32, 0],
            &[33, 1, 1],
            &[38, 4, 0, 1],
            &[33, 1, 0],
            &[38, 3, 0, 0],
        ],
    );
    first[2] = 0b101;
    second[2] = 0b10;
    let mut wanted = sheet(6, &[&[33, 1, 5], &[33, 1, 4], &[38, 4, 2, 5], &[32, 2]]);
    wanted[2] = 0b100010;
    assert_eq!(join(&first, &second).1, wanted);
}

#[test]
fn final_pairs_in_the_high_word() {
    let mut first = sheet(8, &[]);
    let mut second = sheet(8, &[]);
    (first[2], second[2]) = (0b1000_0001, 0b1000_0010);
    let joint = join(&first, &second).1;
    assert_eq!(joint[1..4], [64, 0b1000_0010, 0b1000_0010 << 24]);
}

#[test]
fn pairs_of_order_parts() {
    let first = sheet(2, &[&[40, 2, 0b11, 0, 2, 0x000101, 0x010000, 1]]);
    let second = sheet(3, &[&[40, 3, 0b110, 0, 2, 0x000201, 0x010102, 2]]);
    let paired: &[u32] = &[
        40, 6, 0b110110, 0, 4, 0x000504, 0x010405, 0x030201, 0x040102, 5,
    ];
    let wanted = sheet(6, &[paired]);
    assert_eq!(join(&first, &second).1, wanted);
}

#[test]
fn lone_order_parts() {
    let order: &[u32] = &[40, 2, 0b10, 0, 2, 0x000101, 0x010000, 1];
    let plain: &[u32] = &[32, 2];
    let (first, second) = (sheet(2, &[order]), sheet(3, &[plain]));
    let lifted: &[u32] = &[
        40, 2, 0b10, 0, 6, 0x000301, 0x000401, 0x000501, 0x010000, 0x010100, 0x010200, 5,
    ];
    assert_eq!(join(&first, &second).1, sheet(6, &[lifted]));
    let lifted: &[u32] = &[
        40, 2, 0b10, 0, 6, 0x000101, 0x000301, 0x000501, 0x010000, 0x010200, 0x010400, 5,
    ];
    assert_eq!(join(&second, &first).1, sheet(6, &[lifted]));
}

#[test]
fn count_parts() {
    let at_most: &[u32] = &[48, 2, 1, 0b10, 0, 7, 9, 3, 0, 1];
    let remainder: &[u32] = &[48, 1, 2, 0b101, 0, 4, 5, 10, 3, 2];
    let (first, second) = (sheet(2, &[at_most]), sheet(3, &[remainder]));
    // S lifted: pairs 3 to 5; T lifted: pairs 0, 2, 3, 5; closed by steps 1 and 2.
    let both: &[u32] = &[
        48, 4, 1, 0b111000, 0, 7, 7, 7, 9, 3, 0, 2, 0b101101, 0, 4, 5, 4, 5, 10, 3, 4, 1, 2, 5,
    ];
    assert_eq!(join(&first, &second).1, sheet(6, &[both]));
    // T lifted first: its marks are pairs 0, 1, 4, 5; S's are 1, 3, 5, its step number shifted.
    let turned: &[u32] = &[
        48, 4, 2, 0b110011, 0, 4, 4, 5, 5, 10, 3, 1, 0b101010, 0, 7, 7, 7, 9, 3, 1, 4, 0, 2, 5,
    ];
    assert_eq!(join(&second, &first).1, sheet(6, &[turned]));
    let plain = sheet(3, &[&[32, 2]]);
    let alone: &[u32] = &[48, 2, 1, 0b111000, 0, 7, 7, 7, 9, 3, 0, 5];
    assert_eq!(join(&first, &plain).1, sheet(6, &[alone]));
}

#[test]
fn an_order_part_beside_a_count_part() {
    let first = sheet(1, &[&[40, 1, 1, 0, 0, 0]]);
    let second = sheet(1, &[&[48, 1, 1, 0, 0, 5, 0]]);
    let both: &[u32] = &[56, 1, 1, 0, 0, 1, 1, 0, 0, 5, 0];
    assert_eq!(join(&first, &second).1, sheet(1, &[both]));
    assert_eq!(join(&second, &first).1, sheet(1, &[both]));
}

#[test]
fn states() {
    assert_eq!(join(&sheet(8, &[]), &sheet(8, &[])).0, Answer::Count(6));
    assert_eq!(join(&sheet(64, &[]), &sheet(1, &[])).0, Answer::Count(6));
    for (first, second) in [(5, 13), (13, 5), (64, 2), (33, 2), (64, 64)] {
        let over = join(&sheet(first, &[]), &sheet(second, &[])).0;
        assert_eq!(over, refusal(21, 1));
    }
}

#[test]
fn rules() {
    let text: &[u32] = &[33, 1, 0];
    let rules =
        |first: usize, second: usize| join(&repeated(1, text, first), &repeated(1, text, second)).0;
    assert_eq!(rules(32, 32), Answer::Count(6 + 3 * 1_024));
    assert_eq!(rules(1_024, 1), Answer::Count(6 + 3 * 1_024));
    assert_eq!(rules(25, 41), refusal(21, 2));
    assert_eq!(rules(1_024, 1_024), refusal(21, 2));
    let other: &[u32] = &[33, 2, 0];
    let none = join(&repeated(1, text, 1_024), &repeated(1, other, 1_024));
    assert_eq!(none.1, sheet(1, &[]));
}

/// A rule with an order part of m positions and arcs that are all 0.
fn order(positions: u32, arcs: usize) -> Vec<u32> {
    let mut rule = vec![40, positions, 0, 0, arcs as u32];
    rule.extend(vec![0; arcs]);
    rule.push(0);
    rule
}

#[test]
fn positions() {
    let joined = |first: u32, second: u32| {
        join(
            &sheet(1, &[&order(first, 0)]),
            &sheet(1, &[&order(second, 0)]),
        )
        .0
    };
    assert_eq!(joined(8, 8), Answer::Count(12));
    assert_eq!(joined(64, 1), Answer::Count(12));
    assert_eq!(joined(5, 13), refusal(21, 3));
    assert_eq!(joined(64, 64), refusal(21, 3));
}

#[test]
fn arcs() {
    let joined = |first: usize, second: usize| {
        join(
            &sheet(1, &[&order(1, first)]),
            &sheet(1, &[&order(1, second)]),
        )
        .0
    };
    assert_eq!(joined(32, 32), Answer::Count(12 + 1_024));
    assert_eq!(joined(25, 41), refusal(21, 4));
    assert_eq!(joined(1_024, 0), Answer::Count(12));
    let lifted = |arcs: usize, states: u32| {
        let first = sheet(1, &[&order(1, arcs)]);
        let second = sheet(states, &[&[32, 0]]);
        (join(&first, &second).0, join(&second, &first).0)
    };
    let whole = Answer::Count(12 + 1_024);
    assert_eq!(lifted(16, 64), (whole, whole));
    let over = refusal(21, 4);
    assert_eq!(lifted(17, 61), (over, over));
}

/// A rule with a count part of so many steps without marks.
fn steps(count: usize) -> Vec<u32> {
    let mut rule = vec![48, count as u32];
    rule.extend([1, 0, 0, 0].repeat(count));
    rule.push(0);
    rule
}

#[test]
fn number_of_steps() {
    let joined = |first: usize, second: usize| {
        join(&sheet(1, &[&steps(first)]), &sheet(1, &[&steps(second)])).0
    };
    assert_eq!(joined(15, 16), Answer::Count(6 + 3 + 31 * 4 + 3));
    assert_eq!(joined(30, 1), Answer::Count(6 + 3 + 31 * 4 + 3));
    assert_eq!(joined(16, 16), refusal(21, 5));
    assert_eq!(joined(32, 32), refusal(21, 5));
    let alone = join(&sheet(1, &[&steps(32)]), &sheet(1, &[&[32, 0]])).0;
    assert_eq!(alone, Answer::Count(6 + 3 + 32 * 4));
}

#[test]
fn words() {
    // Fifteen rules with 1,024 arcs each have 15 × 1,030 words; 928 or 929 are left.
    let big = order(1, 32);
    let text: &[u32] = &[33, 1, 0];
    let element: &[u32] = &[38, 1, 0, 0];
    let joined = |texts: usize, elements: usize| {
        let mut rules: Vec<&[u32]> = vec![&big; 15];
        rules.extend(vec![text; texts]);
        rules.extend(vec![element; elements]);
        join(&sheet(1, &rules), &sheet(1, &[&big, text, element])).0
    };
    assert_eq!(joined(308, 1), Answer::Count(6 + 15_450 + 928));
    assert_eq!(joined(307, 2), refusal(21, 6));
    assert_eq!(joined(309, 0), Answer::Count(16_383));
}

#[test]
fn the_first_limit_is_named() {
    let (five, thirteen) = (order(5, 33), order(13, 33));
    let joined = |states: u32, more: &[&[u32]]| {
        let mut first: Vec<&[u32]> = more.to_vec();
        first.push(&five);
        let mut second: Vec<&[u32]> = more.to_vec();
        second.push(&thirteen);
        join(&sheet(states, &first), &sheet(13, &second)).0
    };
    assert_eq!(joined(5, &[]), refusal(21, 1));
    assert_eq!(joined(4, &[&[33, 1, 0][..]; 33]), refusal(21, 2));
    assert_eq!(joined(4, &[]), refusal(21, 3));
    let (narrow, long) = (order(1, 33), steps(17));
    let both: &[&[u32]] = &[&narrow, &long];
    assert_eq!(join(&sheet(1, both), &sheet(1, both)).0, refusal(21, 4));
    // Two rules of one sheet with 32 steps each aren't over by themselves.
    let many: Vec<&[u32]> = vec![&long; 31];
    assert_eq!(join(&sheet(1, &many), &sheet(1, &many)).0, refusal(21, 5));
}

#[test]
fn bad_sheets_and_tags() {
    let (s, t) = (document::sheet_s(), document::sheet_t());
    assert_eq!(join(&s[..42], &t).0, refusal(9, 42));
    assert_eq!(join(&s, &t[..20]).0, refusal(9, 20_020));
    assert_eq!(join(&s[..42], &t[..20]).0, refusal(9, 42));
    assert_eq!(join(&s, &[]).0, refusal(9, 20_000));
    let mut other = sheet(13, &[]);
    other[4] = 3;
    assert_eq!(join(&s, &other).0, refusal(20, 3));
    assert_eq!(join(&other, &s).0, refusal(20, 4));
}

#[test]
fn buffers() {
    let calls = Reference::default();
    for room in [0, 42] {
        let mut out = pattern(room);
        let answer = calls.join(&document::sheet_s(), &document::sheet_t(), &mut out);
        assert_eq!(answer, refusal(22, 43));
        assert_eq!(out, pattern(room));
    }
    let mut out = pattern(43);
    let answer = calls.join(&document::sheet_s(), &document::sheet_t(), &mut out);
    assert_eq!(answer, Answer::Count(43));
}
