use super::{pattern, refusal, with_words};
use crate::answer::{Answer, Implementation};
use crate::document;
use crate::generate::sheets::file;
use crate::reference::Reference;

fn check(sheet: &[u32]) -> Answer {
    Reference::default().check_sheet(sheet)
}

/// A sheet of p states, 2 tags and one rule of these words.
fn with_rule(states: u32, rule: &[u32]) -> Vec<u32> {
    [&[1, states, 0, 0, 2, 1], rule].concat()
}

/// Whether a word at a place passes; if not, 9 stands there.
fn passes(mut sheet: Vec<u32>, place: usize, word: u32) -> bool {
    sheet[place] = word;
    match check(&sheet) {
        Answer::Refusal(9, at) => {
            assert!(at as usize >= place, "nothing before {place} is bad");
            at as usize != place
        }
        _ => true,
    }
}

/// Asserts which words pass at a place of a sheet.
fn assert_range(sheet: &[u32], place: usize, good: &[u32], bad: &[u32]) {
    for &word in good {
        assert!(passes(sheet.to_vec(), place, word), "{word} at {place}");
    }
    for &word in bad {
        assert!(!passes(sheet.to_vec(), place, word), "{word} at {place}");
    }
}

const MAX: u32 = u32::MAX;

fn minus(number: u32) -> u32 {
    0u32.wrapping_sub(number)
}

#[test]
fn first_words() {
    let bare = [1, 64, 0, 0, 1, 0];
    assert_range(&bare, 0, &[1], &[0, 2, MAX]);
    assert_range(&bare, 1, &[1, 64], &[0, 65, MAX]);
    assert_range(&bare, 4, &[1, 64], &[0, 65, MAX]);
    assert_range(&bare, 5, &[0, 1, 1_024], &[1_025, MAX]);
}

#[test]
fn final_states() {
    let of = |states| [1, states, 0, 0, 1, 0];
    assert_range(&of(1), 2, &[0, 1], &[2, 3, MAX]);
    assert_range(&of(31), 2, &[0, MAX >> 1], &[1 << 31]);
    assert_range(&of(31), 3, &[0], &[1, 1 << 31]);
    assert_range(&of(32), 2, &[0, MAX], &[]);
    assert_range(&of(32), 3, &[0], &[1, 1 << 31]);
    assert_range(&of(33), 2, &[0, MAX], &[]);
    assert_range(&of(33), 3, &[0, 1], &[2, MAX]);
    assert_range(&of(63), 3, &[0, MAX >> 1], &[1 << 31]);
    assert_range(&of(64), 3, &[0, MAX], &[]);
    assert_eq!(check(&[1, 1, 2, 1, 1, 0]), refusal(9, 2));
}

#[test]
fn maps() {
    for map in 0..130 {
        let allowed = [33, 38, 32, 40, 48, 56].contains(&map);
        let long = with_rule(1, &[map, 1, 0, 0]);
        assert_eq!(passes(long, 6, map), allowed, "{map}");
    }
    assert_range(
        &with_rule(1, &[32, 0]),
        6,
        &[],
        &[MAX, 33 + 256, 1 << 31 | 32],
    );
}

#[test]
fn plain_fields() {
    let text = with_rule(3, &[33, 1, 0]);
    assert_range(&text, 7, &[1, 2], &[0, 3, MAX]);
    assert_range(&text, 8, &[0, 2], &[3, MAX]);
    let element = with_rule(3, &[38, 1, 0, 0]);
    assert_range(&element, 7, &[1, 2], &[0, 3, MAX]);
    assert_range(&element, 8, &[0, 2], &[3, MAX]);
    assert_range(&element, 9, &[0, 2], &[3, MAX]);
    assert_range(&with_rule(3, &[32, 0]), 7, &[0, 2], &[3, MAX]);
}

#[test]
fn order_parts() {
    let order = with_rule(2, &[40, 3, 0, 0, 2, 0, 0, 1]);
    assert_eq!(check(&order), Answer::Count(14));
    assert_range(&order, 7, &[1, 64], &[0, 65, MAX]);
    assert_range(&order, 8, &[0, 7], &[8, MAX]);
    assert_range(&order, 9, &[0], &[1]);
    assert_range(&order, 10, &[0, 1_024], &[1_025, MAX]);
    let good = [0, 2, 0x20102, 0x100, 0x20000];
    let bad = [3, 0x200, 0x30000, 0x1000000, 0x80000000, 0xff, 0xff00];
    assert_range(&order, 11, &good, &bad);
    assert_range(&order, 13, &[0, 1], &[2]);
    let wide = with_rule(64, &[40, 64, MAX, MAX, 1, 0x3f3f3f, 63]);
    assert_eq!(check(&wide), Answer::Count(13));
    assert_range(&wide, 11, &[], &[0x403f3f, 0x3f403f, 0x3f3f40, 0x13f3f3f]);
    let of_33 = with_rule(1, &[40, 33, 0, 0, 0, 0]);
    assert_range(&of_33, 8, &[MAX], &[]);
    assert_range(&of_33, 9, &[1], &[2]);
}

#[test]
fn weights() {
    let step = with_rule(34, &[48, 1, 1, 2, 2, 1, 1, 0, 0]);
    assert_eq!(check(&step), Answer::Count(15));
    assert_range(&step, 7, &[1, 2, 32], &[0, 33, MAX]);
    assert_range(&step, 8, &[1, 2, 3, 4, 5], &[0, 6, MAX]);
    assert_range(&step, 9, &[0, MAX], &[]);
    assert_range(&step, 10, &[0, 1, 2, 3], &[4, MAX]);
    let good = [1, 32_767, minus(1), minus(32_768)];
    let bad = [0, 32_768, minus(32_769), 1 << 31, 65_535, 1 << 16];
    assert_range(&step, 11, &good, &bad);
    assert_range(&step, 12, &good, &bad);
    assert_range(&step, 13, &[0, 1, MAX, 1 << 31, MAX >> 1], &[]);
    assert_eq!(
        check(&with_rule(1, &[48, 1, 1, 0, 0, 0, 0])),
        Answer::Count(13)
    );
}

#[test]
fn remainders() {
    let step = with_rule(1, &[48, 1, 2, 0, 0, 7, 0, 0]);
    assert_eq!(check(&step), Answer::Count(14));
    assert_range(&step, 11, &[1, 1_000], &[0, 1_001, MAX]);
    assert_range(&step, 12, &[0, 6], &[7, MAX]);
    let whole = with_rule(1, &[48, 1, 2, 0, 0, 1, 0, 0]);
    assert_range(&whole, 12, &[0], &[1]);
}

#[test]
fn earlier_steps() {
    // A first step of kind 3, 4 or 5: its first operand is bad.
    for kind in [3, 4, 5] {
        assert_eq!(check(&with_rule(1, &[48, 1, kind, 0, 0, 0])), refusal(9, 9));
        assert_eq!(check(&with_rule(1, &[48, 1, kind])), refusal(9, 9));
    }
    let steps = [48, 4, 1, 0, 0, 0, 3, 0, 4, 0, 1, 5, 1, 2, 0];
    let sheet = with_rule(1, &steps);
    assert_eq!(check(&sheet), Answer::Count(21));
    assert_range(&sheet, 13, &[0], &[1, MAX]);
    assert_range(&sheet, 15, &[0, 1], &[2]);
    assert_range(&sheet, 16, &[0, 1], &[2]);
    assert_range(&sheet, 18, &[0, 1, 2], &[3]);
    assert_range(&sheet, 19, &[0, 1, 2], &[3, MAX]);
}

#[test]
fn short_and_long_sheets() {
    let sheet = document::sheet_s();
    for length in 0..43 {
        assert_eq!(check(&sheet[..length]), refusal(9, length));
    }
    assert_eq!(check(&sheet), Answer::Count(43));
    assert_eq!(check(&[&sheet[..], &[0]].concat()), refusal(9, 43));
    assert_eq!(check(&[&sheet[..], &[0; 20_000]].concat()), refusal(9, 43));
}

/// Rules of two words, and one of three if the length is odd, after fifteen long order parts.
fn of_length(length: usize) -> Vec<u32> {
    let mut sheet = vec![1, 1, 0, 0, 1, 0];
    let mut rules = 0;
    for _ in 0..15 {
        sheet.extend([40, 1, 0, 0, 1_024]);
        sheet.extend([0; 1_024]);
        sheet.push(0);
        rules += 1;
    }
    while sheet.len() < length {
        rules += 1;
        if (length - sheet.len()) % 2 == 1 {
            sheet.extend([33, 1, 0]);
        } else {
            sheet.extend([32, 0]);
        }
    }
    sheet[5] = rules;
    sheet
}

#[test]
fn about_16384_words() {
    assert_eq!(check(&of_length(16_383)), Answer::Count(16_383));
    assert_eq!(check(&of_length(16_384)), Answer::Count(16_384));
    assert_eq!(check(&of_length(16_385)), refusal(9, 16_384));
    assert_eq!(check(&of_length(16_386)), refusal(9, 16_384));
    // A sheet of full length that needs more; one that ended before.
    assert_eq!(check(&of_length(16_386)[..16_384]), refusal(9, 16_384));
    let mut full = of_length(16_384);
    full[5] += 1;
    assert_eq!(check(&full), refusal(9, 16_384));
    full[5] -= 2;
    assert_eq!(check(&full), refusal(9, 16_382));
}

fn from_file(bytes: &[u8], room: usize) -> (Answer, Vec<u32>) {
    with_words(room, |calls, words| calls.sheet_from_file(bytes, words))
}

#[test]
fn files() {
    let sheet = document::sheet_s();
    let bytes = file(&sheet);
    assert_eq!(bytes[..8], [1, 0, 0, 0, 5, 0, 0, 0]);
    let (answer, words) = from_file(&bytes, 45);
    assert_eq!(answer, Answer::Count(43));
    assert_eq!(words[..43], sheet);
    assert_eq!(words[43..], pattern(45)[43..]);
    assert_eq!(from_file(&bytes, 43).1, sheet);
    assert_eq!(from_file(&bytes, 42), (refusal(22, 43), pattern(42)));
    assert_eq!(from_file(b"", 3), (refusal(9, 0), pattern(3)));
}

#[test]
fn bytes_over() {
    let bytes = file(&document::sheet_s());
    for over in 1..4 {
        let long = [&bytes[..], &vec![0; over]].concat();
        assert_eq!(from_file(&long, 50), (refusal(9, 43), pattern(50)));
        let short = &bytes[..4 * 20 + over];
        assert_eq!(from_file(short, 0).0, refusal(9, 20));
        assert_eq!(from_file(&[1, 0, 0][..over], 0).0, refusal(9, 0));
    }
    let bad = [&[2, 0, 0, 0], &bytes[4..], &[7]].concat();
    assert_eq!(from_file(&bad, 50).0, refusal(9, 0));
    let full = [&file(&of_length(16_384))[..], &[1]].concat();
    assert_eq!(from_file(&full, 0).0, refusal(9, 16_384));
}

#[test]
fn swaps() {
    let swap = |sheet: &[u32]| {
        let (answer, words) = with_words(6, |calls, out| calls.swap(sheet, out));
        assert_eq!(answer, Answer::Count(6));
        [words[2], words[3]]
    };
    assert_eq!(swap(&[1, 1, 0, 0, 1, 0]), [1, 0]);
    assert_eq!(swap(&[1, 32, 1, 0, 1, 0]), [MAX - 1, 0]);
    assert_eq!(swap(&[1, 33, 1, 0, 1, 0]), [MAX - 1, 1]);
    assert_eq!(swap(&[1, 64, MAX, 5, 1, 0]), [0, MAX - 5]);
    let calls = Reference::default();
    assert_eq!(calls.swap(&[1, 65], &mut []), refusal(9, 1));
}
