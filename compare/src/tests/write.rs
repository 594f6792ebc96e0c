use super::refusal;
use crate::answer::{Answer, Implementation};
use crate::reference::Reference;

const LIST: &[u8] = b"ct\nc1\n";
const TEXT: &[u8] = b" 42 a b<x>&7";

/// The answer and the bytes written, with room for 65,536.
fn write(text: &[u8], tree: &[u32]) -> (Answer, Vec<u8>) {
    let mut out = vec![0; 65_536];
    let answer = Reference::default().write(LIST, text, tree, &mut out);
    if let Answer::Count(count) = answer {
        out.truncate(count as usize);
    } else {
        assert!(out.iter().all(|&byte| byte == 0));
        out.clear();
    }
    (answer, out)
}

/// The answer for one text in an element.
fn write_text(symbol: u32, start: u32, length: u32) -> Answer {
    write(TEXT, &[1, 2, 0, 0, symbol, 1, start, length]).0
}

#[test]
fn written_forms() {
    assert_eq!(write(b"", &[1, 1, 0, 0]).1, b"<ct/>");
    let tree = [1, 4, 0, 0, 2, 2, 0, 0, 65, 1, 1, 2, 66, 1, 4, 3];
    assert_eq!(write(TEXT, &tree).1, b"<ct><c1>42</c1>a b</ct>");
}

#[test]
fn texts() {
    let count = |length: u32| Answer::Count(9 + length);
    assert_eq!(write_text(65, 1, 2), count(2));
    assert_eq!(write_text(65, 1, 1), count(1));
    assert_eq!(write_text(66, 1, 4), count(4));
    assert_eq!(write_text(66, 1, 6), count(6));
    assert_eq!(write_text(65, 11, 1), count(1));
    let bad = refusal(11, 1);
    // The other kind; white at an end; empty.
    for (symbol, start, length) in [
        (66, 1, 2),
        (65, 1, 4),
        (65, 0, 3),
        (65, 1, 3),
        (66, 3, 2),
        (66, 4, 2),
        (65, 1, 0),
        (66, 0, 0),
        (65, 12, 0),
    ] {
        assert_eq!(write_text(symbol, start, length), bad);
    }
    // <, > and & within; past the end; sums over 32 bits.
    for (symbol, start, length) in [
        (66, 4, 4),
        (66, 8, 2),
        (66, 10, 2),
        (65, 11, 2),
        (65, 12, 1),
        (65, u32::MAX, 1),
        (65, u32::MAX, 13),
        (65, 11, u32::MAX),
        (65, 1, u32::MAX),
    ] {
        assert_eq!(write_text(symbol, start, length), bad);
    }
}

#[test]
fn text_words_at_tags() {
    assert_eq!(write(b"x", &[1, 1, 1, 0]).0, refusal(11, 0));
    assert_eq!(write(b"x", &[1, 1, 0, 1]).0, refusal(11, 0));
    let later = [1, 3, 0, 0, 66, 1, 0, 1, 2, 1, 0, 9];
    assert_eq!(write(b"x", &later).0, refusal(11, 2));
}

/// "Order within a call"
#[test]
fn order_of_refusals() {
    let calls = Reference::default();
    let long = vec![b'5'; 65_536];
    let out = &mut [];
    assert_eq!(calls.write(b"", &long, &[], out), refusal(8, 0));
    assert_eq!(calls.write(LIST, &long, &[], out), refusal(1, 65_535));
    assert_eq!(calls.write(LIST, &long[1..], &[], out), refusal(10, 0));
    // 10 at a later node before 11 at an earlier one; tags by the list.
    let shape = [1, 2, 1, 1, 3, 1, 0, 0];
    assert_eq!(calls.write(LIST, b"x", &shape, out), refusal(10, 1));
    let eleven = [1, 3, 0, 0, 65, 1, 0, 65_535, 2, 1, 0, 1];
    assert_eq!(calls.write(LIST, &long[1..], &eleven, out), refusal(11, 2));
    let over = [1, 2, 0, 0, 65, 1, 0, 65_535];
    assert_eq!(
        calls.write(LIST, &long[1..], &over, out),
        refusal(24, 65_544)
    );
    let fits = [1, 2, 0, 0, 65, 1, 0, 65_526];
    assert_eq!(
        calls.write(LIST, &long[1..], &fits, out),
        refusal(22, 65_535)
    );
    assert_eq!(write(b"", &[1, 1, 0, 0]).0, Answer::Count(5));
}

#[test]
fn lengths_about_65535() {
    let text = vec![b'5'; 65_535];
    let one = |length: u32| write(&text, &[1, 2, 0, 0, 65, 1, 0, length]).0;
    assert_eq!(one(65_525), Answer::Count(65_534));
    assert_eq!(one(65_526), Answer::Count(65_535));
    assert_eq!(one(65_527), refusal(24, 65_536));
    assert_eq!(one(65_535), refusal(24, 65_544));
}

#[test]
fn a_length_over_2_to_27() {
    let text = vec![b'5'; 65_535];
    let mut tree = vec![1, 4_096, 0, 0];
    for _ in 0..2_047 {
        tree.extend([65, 1, 0, 65_535, 2, 1, 0, 0]);
    }
    tree.extend([65, 1, 0, 65_535]);
    let length = 9 + 2_048 * 65_535 + 2_047 * 5;
    assert!(length > 1 << 27);
    assert_eq!(write(&text, &tree).0, refusal(24, length));
}

#[test]
fn buffers() {
    let calls = Reference::default();
    for room in 0..5 {
        let mut out = vec![9; room];
        assert_eq!(
            calls.write(LIST, b"", &[1, 1, 0, 0], &mut out),
            refusal(22, 5)
        );
        assert_eq!(out, vec![9; room]);
    }
    let mut out = *b"0123456";
    assert_eq!(
        calls.write(LIST, b"", &[1, 1, 0, 0], &mut out),
        Answer::Count(5)
    );
    assert_eq!(&out, b"<ct/>56");
}
