//! What is said of a difference: in a few lines, and where it begins.

use crate::answer::Answer;
use crate::beside::{compare, difference, drawn, Buffer, Outcome};
use crate::damage::{Damaged, DAMAGES};
use crate::generate::Input;
use crate::reference::Reference;
use crate::report::{cut, show, WIDTH};

#[test]
fn a_long_line_is_cut() {
    for length in [0, 1, WIDTH - 1, WIDTH] {
        let line = "x".repeat(length);
        assert_eq!(cut(&line), line);
    }
    for length in [WIDTH + 1, 2 * WIDTH, 65_535] {
        let line = "x".repeat(length);
        assert_eq!(cut(&line), "x".repeat(WIDTH - 3) + "...");
    }
}

/// A line is cut between characters, which may have more than one byte.
#[test]
fn characters_are_counted() {
    let line = "é".repeat(WIDTH);
    assert_eq!(cut(&line), line);
    assert_eq!(cut(&(line + "é")), "é".repeat(WIDTH - 3) + "...");
}

/// A report is short, whatever the input; the input is still shown whole.
#[test]
fn reports_are_short() {
    let reference = Reference::default();
    for damage in DAMAGES {
        let call = damage.call();
        let inputs = drawn(call, 0..200);
        let compared = compare(&reference, &Damaged::new(damage), call, inputs, false);
        let report = compared.err().expect("a difference");
        assert!(report.lines().count() <= 6, "{report}");
        assert!(report.lines().all(|line| line.chars().count() <= WIDTH));
        assert!(report.contains(&format!("compare/run show call={} first=", call.name())));
    }
    let sheet = vec![7; 16_384];
    assert!(show(&Input::CheckSheet { sheet }).len() > 3 * 16_384);
}

fn words(answer: Answer, buffer: &[u32]) -> Outcome {
    Outcome {
        answer,
        buffer: Buffer::Words(buffer.to_vec()),
    }
}

/// Eight guard words stand before a buffer: its first word is the ninth.
#[test]
fn the_first_place_is_told() {
    let names = ["one", "other"];
    let same = Answer::Count(2);
    let first = words(same, &[9, 9, 9, 9, 9, 9, 9, 9, 1, 2, 3]);
    let second = words(same, &[9, 9, 9, 9, 9, 9, 9, 9, 1, 5, 4]);
    assert_eq!(
        difference(names, [&first, &second]),
        "the one and the other answer count 2; their buffers differ first at 1: 2 and 5"
    );
    let refused = words(Answer::Refusal(22, 3), &[9, 9, 9, 9, 9, 9, 9, 9, 1, 2, 3]);
    assert_eq!(
        difference(names, [&first, &refused]),
        "the one answers count 2, the other error 22 3"
    );
}
