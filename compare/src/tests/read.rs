use super::{pattern, refusal, with_words};
use crate::answer::{Answer, Implementation};
use crate::reference::bytes::{class, Class};
use crate::reference::Reference;

const LIST: &[u8] = b"ct\nc1\nlonger-name\n";

/// The answer with room for everything.
fn read(text: &[u8]) -> Answer {
    let mut tree = vec![0; 4 * 4_096];
    Reference::default().read(LIST, text, &mut tree)
}

/// The tree of a text that is read.
fn tree(text: &[u8]) -> Vec<u32> {
    let (answer, words) = with_words(60, |calls, tree| calls.read(LIST, text, tree));
    let Answer::Count(n) = answer else {
        panic!("{answer:?}")
    };
    words[..4 * n as usize].to_vec()
}

#[test]
fn elements_and_texts() {
    assert_eq!(tree(b"<ct/>"), [1, 1, 0, 0]);
    assert_eq!(tree(b" \t\r\n<ct></ct>\n"), [1, 1, 0, 0]);
    assert_eq!(tree(b"<ct \n> \t</ct\r>"), [1, 1, 0, 0]);
    assert_eq!(
        tree(b"<ct> 42 <c1 />a b</ct>"),
        [1, 4, 0, 0, 65, 1, 5, 2, 2, 1, 0, 0, 66, 1, 14, 3]
    );
    assert_eq!(
        tree(b"<longer-name><ct>0</ct>1</longer-name>"),
        [3, 4, 0, 0, 1, 2, 0, 0, 65, 1, 17, 1, 65, 1, 23, 1]
    );
}

#[test]
fn kinds_of_texts() {
    for (text, symbol) in [
        (&b"<ct>0123456789</ct>"[..], 65),
        (b"<ct> \t7\n</ct>", 65),
        (b"<ct>1 2</ct>", 66),
        (b"<ct>-1</ct>", 66),
        (b"<ct>1/2</ct>", 66),
        (b"<ct>/</ct>", 66),
        (b"<ct>kWh</ct>", 66),
        (b"<ct>=\"'</ct>", 66),
    ] {
        assert_eq!(tree(text)[4], symbol);
    }
}

/// At each place of the grammar, the classes of bytes that the form can go on with.
#[test]
fn every_byte_at_every_place() {
    use Class::*;
    let content = [White, Letter, Digit, Hyphen, Slash, Other, Less];
    let start_name = [Letter, Digit, Hyphen, White, Slash, Greater];
    let end_name = [Letter, Digit, Hyphen, White, Greater];
    let places: [(&[u8], &[Class]); 18] = [
        (b"", &[White, Less]),
        (b" ", &[White, Less]),
        (b"<", &[Letter]),
        (b"<ct", &start_name),
        (b"<ct ", &[White, Slash, Greater]),
        (b"<ct/", &[Greater]),
        (b"<ct/>", &[White]),
        (b"<ct>", &content),
        (b"<ct> ", &content),
        (b"<ct>x", &content),
        (b"<ct>x ", &content),
        (b"<ct><c1/>", &content),
        (b"<ct><", &[Letter, Slash]),
        (b"<ct></", &[Letter]),
        (b"<ct></ct", &end_name),
        (b"<ct></ct ", &[White, Greater]),
        (b"<ct></ct>", &[White]),
        (b"<ct></ct> ", &[White]),
    ];
    for (prefix, allowed) in places {
        for byte in 0..=255 {
            let answer = read(&[prefix, &[byte]].concat());
            let at = prefix.len();
            if class(byte) == Forbidden {
                assert_eq!(answer, refusal(2, at), "{byte}");
            } else {
                let goes_on = answer != refusal(3, at);
                assert_eq!(goes_on, allowed.contains(&class(byte)), "{prefix:?} {byte}");
            }
        }
    }
}

#[test]
fn ends_that_come_too_early() {
    for text in [
        &b""[..],
        b" ",
        b"<",
        b"<ct",
        b"<ct ",
        b"<ct/",
        b"<ct>",
        b"<ct> ",
        b"<ct>x",
        b"<ct><",
        b"<ct></",
        b"<ct></ct",
        b"<ct></ct ",
        b"<ct><c1></c1>",
    ] {
        assert_eq!(read(text), refusal(3, text.len()));
    }
}

#[test]
fn names_that_are_not_listed() {
    assert_eq!(read(b"<c"), refusal(4, 1));
    assert_eq!(read(b"<ct1>"), refusal(4, 1));
    assert_eq!(read(b"<CT/>"), refusal(4, 1));
    assert_eq!(read(b"<q&"), refusal(4, 1));
    assert_eq!(read(b"<q<"), refusal(4, 1));
    assert_eq!(read(b"<ct&"), refusal(2, 3));
    assert_eq!(read(b"<ct"), refusal(3, 3));
    assert_eq!(read(b"<ct><c1/><q"), refusal(4, 10));
    let long = [&b"<"[..], &[b'a'; 25], b"/>"].concat();
    assert_eq!(read(&long), refusal(4, 1));
}

#[test]
fn ends_that_name_another_element() {
    assert_eq!(read(b"<ct></c"), refusal(5, 6));
    assert_eq!(read(b"<ct></c1>"), refusal(5, 6));
    assert_eq!(read(b"<ct></ctt"), refusal(5, 6));
    assert_eq!(read(b"<ct></q&"), refusal(5, 6));
    assert_eq!(read(b"<ct></ct&"), refusal(2, 8));
    assert_eq!(read(b"<ct><c1></ct>"), refusal(5, 10));
    assert_eq!(read(b"<q></q>"), refusal(4, 1));
    assert_eq!(read(b"</ct>"), refusal(3, 1));
    assert_eq!(read(b"<ct/></ct>"), refusal(3, 5));
}

#[test]
fn the_smallest_place_wins() {
    assert_eq!(read(b"<q>&"), refusal(4, 1));
    assert_eq!(read(b"<ct>&<q>"), refusal(2, 4));
    assert_eq!(read(b"<ct>>&"), refusal(3, 4));
    assert_eq!(read(b"<ct></ct>x<q/>"), refusal(3, 9));
    assert_eq!(read(b"&<q>"), refusal(2, 0));
}

/// So many open elements; each start tag has four bytes.
fn nest(depth: usize) -> Vec<u8> {
    b"<ct>".repeat(depth)
}

fn closed(depth: usize, inside: &[u8]) -> Vec<u8> {
    [&nest(depth)[..], inside, &b"</ct>".repeat(depth)].concat()
}

#[test]
fn depth() {
    assert_eq!(read(&closed(32, b"")), Answer::Count(32));
    assert_eq!(read(&closed(32, b"x")), Answer::Count(33));
    assert_eq!(read(&closed(31, b"<c1/>")), Answer::Count(32));
    assert_eq!(read(&closed(33, b"")), refusal(6, 128));
    assert_eq!(read(&closed(32, b"x<c1/>")), refusal(6, 129));
    let at_32 = |end: &[u8]| read(&[&nest(32)[..], end].concat());
    assert_eq!(at_32(b"<z"), refusal(6, 128));
    assert_eq!(at_32(b"<z&"), refusal(6, 128));
    assert_eq!(at_32(b"<"), refusal(3, 129));
    assert_eq!(at_32(b"<1"), refusal(3, 129));
    assert_eq!(at_32(b"<&"), refusal(2, 129));
    assert_eq!(at_32(b"</ct><c1/>"), refusal(3, 138));
}

/// Elements left open and 4,096 nodes in all, and an end; most of the nodes stand in the last
/// element but one.
fn after_4096(open: usize, end: &[u8]) -> (Answer, usize) {
    let mut text = nest(open.max(2) - 1);
    text.extend(b"<c1/>".repeat(4_096 - open));
    text.extend(nest(open - (open.max(2) - 1)));
    let length = text.len();
    text.extend(end);
    (read(&text), length)
}

#[test]
fn number_of_nodes() {
    assert_eq!(after_4096(1, b"</ct>").0, Answer::Count(4_096));
    for end in [
        &b"<c1/></ct>"[..],
        b"<z",
        b"<q/>",
        b"x</ct>",
        b"x",
        b"x>",
        b"x&",
        b"/",
        b"-",
        b"5",
    ] {
        let (answer, length) = after_4096(1, end);
        assert_eq!(answer, refusal(7, length), "{end:?}");
    }
    let (answer, length) = after_4096(1, b" \nx");
    assert_eq!(answer, refusal(7, length + 2));
    for (end, number) in [(&b"<"[..], 3), (b"<1", 3), (b"<&", 2), (b"</", 3)] {
        let (answer, length) = after_4096(1, end);
        let more = if end == b"</" { 2 } else { 1 };
        assert_eq!(answer, refusal(number, length + more), "{end:?}");
    }
    let (answer, length) = after_4096(1, b"> <c1/>");
    assert_eq!(answer, refusal(3, length));
    let (answer, length) = after_4096(32, b"<q/>");
    assert_eq!(answer, refusal(6, length));
    let (answer, length) = after_4096(32, b"x");
    assert_eq!(answer, refusal(7, length));
}

#[test]
fn length_of_text() {
    let padded = |length: usize| [&b"<ct/>"[..], &vec![b' '; length - 5]].concat();
    assert_eq!(read(&padded(65_535)), Answer::Count(1));
    assert_eq!(read(&padded(65_536)), refusal(1, 65_535));
    assert_eq!(read(&vec![b'&'; 65_536]), refusal(1, 65_535));
    assert_eq!(read(&vec![b'&'; 65_535]), refusal(2, 0));
    assert_eq!(read(&vec![b' '; 65_535]), refusal(3, 65_535));
    let calls = Reference::default();
    assert_eq!(calls.read(b"", &vec![b'&'; 65_536], &mut []), refusal(8, 0));
}

#[test]
fn buffers() {
    let text = b"<ct>x</ct>";
    for room in 0..8 {
        let (answer, words) = with_words(room, |calls, tree| calls.read(LIST, text, tree));
        assert_eq!(answer, refusal(22, 8));
        assert_eq!(words, pattern(room));
    }
    let (answer, words) = with_words(11, |calls, tree| calls.read(LIST, text, tree));
    assert_eq!(answer, Answer::Count(2));
    assert_eq!(words[..8], [1, 2, 0, 0, 66, 1, 4, 1]);
    assert_eq!(words[8..], pattern(11)[8..]);
}
