//! What is measured must be the same work: the library, the implementation in Rust and libxml2 take
//! and refuse the same forms.

use crate::forms::{self, Form, NO_SITE, TEXT_HEAVY, TWO_UNITS};
use crate::schema::{self, Parts, PARTS, SIZES};
use crate::tasks::{join_pairs, tree_of, LARGE};
use crate::xml;
use compare::answer::{Answer, Implementation};
use compare::beside::run;
use compare::generate::Input;
use compare::linked::Linked;
use compare::reference::Reference;

/// Checks all that is measured, and says how much it was.
pub fn check() -> Result<String, String> {
    let list = forms::five_names();
    let forms = forms::all();
    for form in &forms {
        same_reading(&list, form)?;
        same_writing(&list, form)?;
        same_reading(&forms::sixty_four_names(), form)?;
    }
    let (form, names) = forms::with_all_names(LARGE);
    same_reading(&names, &form)?;
    let mut judged = 0;
    for size in SIZES {
        for parts in PARTS {
            judged += same_verdicts(&list, &forms, size, parts)?;
        }
    }
    for (label, first, second) in join_pairs() {
        let out = vec![0; 16_384];
        same(&label, Input::Join { first, second, out })?;
    }
    Ok(format!("{} forms and {judged} verdicts", forms.len()))
}

/// The library and the implementation in Rust give the same answer and buffer, which isn't a
/// refusal; the answer.
fn same(label: &str, input: Input) -> Result<Answer, String> {
    let (library, rust) = (run(&Linked, &input), run(&Reference::default(), &input));
    match library.answer {
        Answer::Refusal(number, place) => Err(format!("{label}: refused, {number} {place}")),
        answer if library == rust => Ok(answer),
        answer => Err(format!(
            "{label}: library {answer:?}, reference {:?}",
            rust.answer
        )),
    }
}

fn same_reading(list: &[u8], form: &Form) -> Result<(), String> {
    let input = Input::Read {
        list: list.to_vec(),
        text: form.text.clone(),
        tree: vec![0; 4 * 4_096],
    };
    match same(form.shape, input)? {
        Answer::Count(nodes) if nodes as usize == form.nodes => Ok(()),
        answer => Err(format!("{}: {answer:?}, {} nodes", form.shape, form.nodes)),
    }
}

/// What is written is also what libxml2 dumps.
fn same_writing(list: &[u8], form: &Form) -> Result<(), String> {
    let tree = tree_of(list, &form.text);
    let mut out = vec![0; 65_535];
    let answer = Linked.write(list, &form.text, &tree, &mut out);
    let dumped = xml::written(&form.text);
    let as_dumped = |bytes: &Vec<u8>| matches!(answer, Answer::Count(length) if *bytes == out[..length as usize]);
    if !dumped.as_ref().is_none_or(as_dumped) {
        return Err(format!("{}: libxml2 dumps another form", form.shape));
    }
    let input = Input::Write {
        list: list.to_vec(),
        text: form.text.clone(),
        tree,
        out: vec![0; 65_535],
    };
    same(form.shape, input).map(|_| ())
}

/// The forms by one sheet and by the schema beside it: all accepted, and one more refused; how many
/// they are.
fn same_verdicts(list: &[u8], forms: &[Form], size: usize, parts: Parts) -> Result<usize, String> {
    // The smallest sheet takes no site of one child, as the text-heavy form has them.
    let taken = |form: &&Form| size > 8 || form.shape != TEXT_HEAVY;
    let mut judged = 1;
    for form in forms.iter().filter(taken) {
        same_verdict(list, size, parts, &form.text, true)?;
        judged += 1;
    }
    let refused = match parts {
        Parts::None => NO_SITE,
        _ => TWO_UNITS,
    };
    same_verdict(list, size, parts, refused, false)?;
    Ok(judged)
}

/// A form is accepted, or isn't, by a sheet and by the schema beside it.
fn same_verdict(
    list: &[u8],
    size: usize,
    parts: Parts,
    text: &[u8],
    wanted: bool,
) -> Result<(), String> {
    let label = format!("{size} rules, {}, {} bytes", parts.name(), text.len());
    let input = Input::Judge {
        sheet: schema::sheet(size, parts).words(),
        tree: tree_of(list, text),
        states: vec![0; 4_096],
    };
    let answer = same(&label, input)?;
    let accepted = matches!(answer, Answer::Accepted(..));
    let valid = xml::accepts(&schema::relax_ng(size, parts), text).unwrap_or(wanted);
    if accepted == wanted && valid == wanted {
        return Ok(());
    }
    Err(format!(
        "{label}: {answer:?} by the sheet, valid by the schema: {valid}"
    ))
}
