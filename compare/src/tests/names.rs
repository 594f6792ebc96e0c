use super::refusal;
use crate::answer::{Answer, Implementation};
use crate::reference::Reference;

fn check(list: &[u8]) -> Answer {
    Reference::default().check_names(list)
}

/// So many distinct lines of five bytes, the byte 10 included.
fn lines(count: usize) -> Vec<u8> {
    (0..count)
        .flat_map(|number| format!("n-{number:02}\n").into_bytes())
        .collect()
}

#[test]
fn good_lists() {
    assert_eq!(check(b"a\n"), Answer::Count(1));
    assert_eq!(check(b"ct\noven\nsite\nunits\n"), Answer::Count(4));
    assert_eq!(check(b"a\nA\naa\na-\na0\n"), Answer::Count(5));
    assert_eq!(check(b"Z9--0\n"), Answer::Count(1));
}

#[test]
fn empty_list_and_lines() {
    assert_eq!(check(b""), refusal(8, 0));
    assert_eq!(check(b"\n"), refusal(8, 0));
    assert_eq!(check(b"a\n\nb\n"), refusal(8, 2));
    assert_eq!(check(b"a\n\n"), refusal(8, 2));
}

#[test]
fn lines_without_byte_10() {
    assert_eq!(check(b"a"), refusal(8, 0));
    assert_eq!(check(b"a\nb"), refusal(8, 2));
    assert_eq!(check(b"a\r\n"), refusal(8, 0));
    assert_eq!(check(b"a\nb \n"), refusal(8, 2));
}

#[test]
fn bytes_of_names() {
    for byte in 0..=255u8 {
        let letter = byte.is_ascii_alphabetic();
        let first = check(&[byte, b'x', 10]);
        assert_eq!(first == Answer::Count(1), letter, "first {byte}");
        if byte == 10 {
            continue;
        }
        let goes_on = letter || byte.is_ascii_digit() || byte == b'-';
        let later = check(&[b'q', 10, b'x', byte, 10]);
        let wanted = if goes_on {
            Answer::Count(2)
        } else {
            refusal(8, 2)
        };
        assert_eq!(later, wanted, "later {byte}");
    }
}

#[test]
fn name_lengths() {
    let mut list = vec![b'x'; 24];
    list.push(10);
    assert_eq!(check(&list), Answer::Count(1));
    list.insert(0, b'x');
    assert_eq!(check(&list), refusal(8, 0));
    list.splice(0..0, *b"a\n");
    assert_eq!(check(&list), refusal(8, 2));
}

#[test]
fn numbers_of_names() {
    assert_eq!(check(&lines(63)), Answer::Count(63));
    assert_eq!(check(&lines(64)), Answer::Count(64));
    for more in [&b"n-64\n"[..], b"n-00\n", b"\n", b"0\n", b"x", b"\0"] {
        assert_eq!(check(&[&lines(64), more].concat()), refusal(8, 320));
    }
}

#[test]
fn the_first_bad_line_decides() {
    assert_eq!(check(b"a\nb\na\n"), refusal(8, 4));
    assert_eq!(check(b"a\na\n\n"), refusal(8, 2));
    assert_eq!(check(b"a\n1\na\n"), refusal(8, 2));
}
