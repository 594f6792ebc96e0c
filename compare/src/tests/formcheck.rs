use super::refusal;
use crate::answer::{Answer, Implementation};
use crate::document::{sheet_s, CASE_1, CASE_3, NAME_LIST};
use crate::generate::sheets::file;
use crate::reference::Reference;

fn formcheck(list: &[u8], sheet: &[u8], text: &[u8]) -> Answer {
    Reference::default().formcheck(list, sheet, text)
}

#[test]
fn lines() {
    let s = file(&sheet_s());
    for (text, line) in [
        (CASE_1, "accepted 4 23"),
        (CASE_3, "refused 3 5"),
        (b"<site><oven/></site>", "stuck 0 9"),
        (b"<site>", "error 3 6"),
    ] {
        assert_eq!(formcheck(NAME_LIST, &s, text).line(), line);
    }
}

#[test]
fn missing_files() {
    let s = file(&sheet_s());
    assert_eq!(formcheck(b"", b"", b""), refusal(8, 0));
    assert_eq!(formcheck(b"", &s, CASE_1), refusal(8, 0));
    assert_eq!(formcheck(NAME_LIST, b"", CASE_1), refusal(9, 0));
    assert_eq!(formcheck(NAME_LIST, &s, b""), refusal(3, 0));
}

/// "Its checks: 8, 9, text, 20, run."
#[test]
fn order_of_checks() {
    let s = file(&sheet_s());
    let long = vec![b' '; 65_536];
    assert_eq!(formcheck(b"ct", &s[..9], &long), refusal(8, 0));
    assert_eq!(formcheck(b"ct\n", &s[..9], &long), refusal(9, 2));
    assert_eq!(formcheck(b"ct\n", &s, &long), refusal(1, 65_535));
    assert_eq!(formcheck(b"ct\n", &s, b"<ct>"), refusal(3, 4));
    assert_eq!(formcheck(b"ct\n", &s, b"<ct/>"), refusal(20, 4));
}

#[test]
fn two_states() {
    let mut two = sheet_s();
    two[5] = 7;
    two.extend([33, 2, 1]);
    assert_eq!(formcheck(NAME_LIST, &file(&two), CASE_3), refusal(23, 1));
}
