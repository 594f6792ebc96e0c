//! The generators reach every answer and the limits, and a difference is found.

use crate::answer::{Answer, Implementation};
use crate::beside::{compare, drawn, run, swept};
use crate::damage::{Damaged, DAMAGES};
use crate::generate::{input, Call, Input, CALLS};
use crate::laws::{self, Tally};
use crate::reference::join::{measure, Size};
use crate::reference::{sheet, Reference};

const SEEDS: u64 = 1_500;

#[test]
fn same_seed_same_input() {
    for call in CALLS {
        for seed in 0..20 {
            let (first, second) = (input(call, seed), input(call, seed));
            assert_eq!(format!("{first:?}"), format!("{second:?}"));
        }
    }
}

/// The refusals that each call can give.
fn refusals(call: Call) -> &'static [u32] {
    match call {
        Call::CheckNames => &[8],
        Call::Read => &[1, 2, 3, 4, 5, 6, 7, 8, 22],
        Call::CheckTree => &[10],
        Call::Write => &[1, 8, 10, 11, 22, 24],
        Call::CheckSheet => &[9],
        Call::SheetFromFile | Call::Swap => &[9, 22],
        Call::Judge => &[9, 10, 22, 23],
        Call::Join => &[9, 20, 21, 22],
        Call::Formcheck => &[1, 2, 3, 4, 5, 6, 7, 8, 9, 20, 23],
    }
}

#[test]
fn every_answer_occurs() {
    let reference = Reference::default();
    for call in CALLS {
        let answers: Vec<Answer> = (0..SEEDS)
            .map(|seed| run(&reference, &input(call, seed)).answer)
            .collect();
        for &number in refusals(call) {
            let found = answers
                .iter()
                .any(|answer| matches!(answer, Answer::Refusal(own, _) if *own == number));
            assert!(found, "{call:?} {number}");
        }
        let verdicts = matches!(call, Call::Judge | Call::Formcheck);
        let found = |wanted: fn(&Answer) -> bool| answers.iter().any(wanted);
        assert_eq!(
            found(|answer| matches!(answer, Answer::Count(_))),
            !verdicts
        );
        assert_eq!(
            found(|answer| matches!(answer, Answer::Accepted(..))),
            verdicts
        );
        assert_eq!(
            found(|answer| matches!(answer, Answer::Refused(..))),
            verdicts
        );
        assert_eq!(
            found(|answer| matches!(answer, Answer::Stuck(..))),
            verdicts
        );
    }
}

/// Every place of 21.
#[test]
fn every_limit_of_a_join_occurs() {
    let reference = Reference::default();
    let answers: Vec<Answer> = (0..SEEDS)
        .map(|seed| run(&reference, &input(Call::Join, seed)).answer)
        .collect();
    for place in 1..=6 {
        assert!(answers.contains(&Answer::Refusal(21, place)), "{place}");
    }
}

/// Whether some input of a call with its answer is as wanted.
fn occurs(call: Call, wanted: impl Fn(&Input, Answer) -> bool) -> bool {
    let reference = Reference::default();
    (0..SEEDS).any(|seed| {
        let input = input(call, seed);
        wanted(&input, run(&reference, &input).answer)
    })
}

#[test]
fn limits_are_reached() {
    let counted = |call: Call, count: u32| {
        assert!(
            occurs(call, |_, answer| answer == Answer::Count(count)),
            "{call:?} {count}"
        );
    };
    counted(Call::CheckNames, 64);
    counted(Call::Read, 4_096);
    counted(Call::CheckTree, 4_096);
    counted(Call::Write, 65_535);
    counted(Call::CheckSheet, 16_384);
    counted(Call::Join, 16_384);
    assert!(occurs(Call::Write, |_, answer| answer
        == Answer::Refusal(24, 65_536)));
    assert!(occurs(Call::CheckSheet, |_, answer| answer
        == Answer::Refusal(9, 16_384)));
    assert!(occurs(Call::Read, |input, answer| {
        matches!(answer, Answer::Count(_))
            && matches!(input, Input::Read { text, .. } if text.len() == 65_535)
    }));
}

/// Tree checks with no tags and with more than 64, passed where they can be.
#[test]
fn odd_numbers_of_tags_occur() {
    let occurs = |wanted: fn(u32, Answer) -> bool| {
        occurs(Call::CheckTree, |input, answer| match input {
            Input::CheckTree { tags, .. } => wanted(*tags, answer),
            _ => false,
        })
    };
    assert!(occurs(|tags, _| tags == 0));
    assert!(occurs(
        |tags, answer| tags > 64 && matches!(answer, Answer::Count(_))
    ));
    assert!(occurs(
        |tags, answer| tags > 64 && matches!(answer, Answer::Refusal(..))
    ));
}

/// Sheets whose joint sheet is over a limit by one.
#[test]
fn joint_sheets_one_over_a_limit() {
    let one_over = |size: fn(&Size) -> bool| {
        occurs(Call::Join, |input, answer| {
            let (Input::Join { first, second, .. }, Answer::Refusal(21, _)) = (input, answer)
            else {
                return false;
            };
            let parsed = (sheet::parse(first), sheet::parse(second));
            let (Ok(first), Ok(second)) = parsed else {
                return false;
            };
            size(&measure(&first, &second))
        })
    };
    assert!(one_over(|size| size.states == 65));
    assert!(one_over(|size| size.rules == 1_025));
    assert!(one_over(|size| size.positions == 65));
    assert!(one_over(|size| size.arcs == 1_025));
    assert!(one_over(|size| size.steps == 33));
    assert!(one_over(|size| size.words == 16_385));
}

/// The joint sheets at a limit: 64 states, 1,024 rules.
#[test]
fn joint_sheets_at_the_limits() {
    let at_limit = |word: usize, limit: u32| {
        occurs(Call::Join, |input, answer| {
            let Input::Join { first, second, .. } = input else {
                return false;
            };
            let Answer::Count(count) = answer else {
                return false;
            };
            let mut joint = vec![0; count as usize];
            Reference::default().join(first, second, &mut joint);
            joint[word] == limit
        })
    };
    assert!(at_limit(1, 64));
    assert!(at_limit(5, 1_024));
}

#[test]
fn laws_hold() {
    let reference = Reference::default();
    let mut tally = Tally::default();
    for seed in 0..400 {
        assert_eq!(laws::words_of_sheet(seed), Ok(()));
        assert_eq!(laws::round_trip(&reference, seed, &mut tally), Ok(()));
        assert_eq!(laws::swap_and_join(&reference, seed, &mut tally), Ok(()));
    }
    let least = tally
        .both_accept
        .min(tally.one_accepts)
        .min(tally.none_accepts);
    assert!(
        least.min(tally.stuck).min(tally.two_outcomes) > 5,
        "{tally:?}"
    );
}

/// The comparison finds every damage, and nothing where there is none.
#[test]
fn differences_are_found() {
    let reference = Reference::default();
    for damage in DAMAGES {
        let call = damage.call();
        let same = |second: &dyn Implementation| {
            compare(&reference, second, call, drawn(call, 0..200), false).is_ok()
        };
        assert!(!same(&Damaged::new(damage)), "{damage:?}");
        assert!(same(&Reference::default()));
    }
}

#[test]
fn sweeps_run() {
    let reference = Reference::default();
    for call in CALLS {
        let some = swept(call).step_by(97);
        assert!(compare(&reference, &reference, call, some, false).is_ok());
    }
}
