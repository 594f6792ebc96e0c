//! The sheets that are measured, each with a RELAX NG schema beside it.
//!
//! A site holds empty elements (ct, oven), elements with a text (meter), sites and at most one
//! units. Larger sheets have more names of empty elements, and the largest lets these hold anything.

use crate::forms::extra_names;
use compare::reference::sheet::{below, Arc, Order, Rule, Sheet, Step, Weight};

/// Which parts the kind-three rules have.
#[derive(Clone, Copy, Debug, PartialEq, Eq)]
pub enum Parts {
    None,
    Order,
    Count,
    Both,
}

impl Parts {
    pub fn name(self) -> &'static str {
        match self {
            Parts::None => "none",
            Parts::Order => "order",
            Parts::Count => "count",
            Parts::Both => "both",
        }
    }

    fn order(self) -> bool {
        matches!(self, Parts::Order | Parts::Both)
    }

    fn count(self) -> bool {
        matches!(self, Parts::Count | Parts::Both)
    }
}

pub const PARTS: [Parts; 4] = [Parts::None, Parts::Order, Parts::Count, Parts::Both];
pub const SIZES: [usize; 4] = [8, 16, 64, LARGEST];
const LARGEST: usize = 512;

// The states: a text, no content, a site's content, and one for each of the five tags.
const TEXT: u32 = 0;
const EMPTY: u32 = 1;
const CONTENT: u32 = 2;
const CT: u32 = 3;
const OVEN: u32 = 4;
const METER: u32 = 5;
const UNITS: u32 = 6;
const SITE: u32 = 7;
const STATES: u32 = 8;

// The tags, by the order of the five names.
const CT_TAG: u32 = 1;
const OVEN_TAG: u32 = 2;
const METER_TAG: u32 = 3;
const UNITS_TAG: u32 = 4;
const SITE_TAG: u32 = 5;
const FIVE: u32 = 5;

/// How many names of empty elements a sheet of so many rules has beside the five names.
fn extra_tags(size: usize) -> u32 {
    match size {
        64 => 48,
        LARGEST => 59,
        _ => 0,
    }
}

/// The sheet of so many rules.
pub fn sheet(size: usize, parts: Parts) -> Sheet {
    let mut rules = eight_rules(parts);
    if size > 8 {
        rules.extend(eight_more());
    }
    rules.extend(extra_elements(size).map(|(tag, target)| element(tag, EMPTY, target)));
    if size == LARGEST {
        rules.extend(rules_of_open_elements());
    }
    assert_eq!(rules.len(), size);
    Sheet {
        states: STATES,
        finals: 1 << SITE,
        tags: FIVE + extra_tags(size),
        rules,
    }
}

/// The rules of the smallest sheet.
fn eight_rules(parts: Parts) -> Vec<Rule> {
    vec![
        Rule::Text {
            kind: 2,
            target: TEXT,
        },
        no_content(parts),
        site_content(parts),
        element(CT_TAG, EMPTY, CT),
        element(OVEN_TAG, EMPTY, OVEN),
        element(METER_TAG, TEXT, METER),
        element(UNITS_TAG, TEXT, UNITS),
        element(SITE_TAG, CONTENT, SITE),
    ]
}

/// With these a text may be an integer or miss, and a site may have one child: content of one child
/// is in that child's state.
fn eight_more() -> Vec<Rule> {
    let mut rules = vec![
        Rule::Text {
            kind: 1,
            target: TEXT,
        },
        element(METER_TAG, EMPTY, METER),
        element(UNITS_TAG, EMPTY, UNITS),
    ];
    rules.extend([CT, OVEN, METER, UNITS, SITE].map(|child| element(SITE_TAG, child, SITE)));
    rules
}

/// The tags of the further empty elements, each with the state of a ct or an oven in turn.
fn extra_elements(size: usize) -> impl Iterator<Item = (u32, u32)> {
    (0..extra_tags(size)).map(|extra| (FIVE + 1 + extra, [CT, OVEN][extra as usize % 2]))
}

fn element(tag: u32, inner: u32, target: u32) -> Rule {
    Rule::Element { tag, inner, target }
}

/// In the largest sheet an empty element or a meter may hold anything, and units any one thing but
/// units.
fn rules_of_open_elements() -> Vec<Rule> {
    let mut rules = Vec::new();
    let five = [(CT_TAG, CT), (OVEN_TAG, OVEN)].into_iter();
    for (tag, target) in five.chain(extra_elements(LARGEST)) {
        for inner in [TEXT, CONTENT, CT, OVEN, METER, UNITS, SITE] {
            rules.push(element(tag, inner, target));
        }
    }
    for inner in [CONTENT, CT, OVEN, METER, UNITS, SITE] {
        rules.push(element(METER_TAG, inner, METER));
    }
    for inner in [CT, OVEN, METER, SITE] {
        rules.push(element(UNITS_TAG, inner, UNITS));
    }
    rules
}

fn arc(leaves: u32, reads: u32, enters: u32) -> Arc {
    Arc {
        leaves,
        reads,
        enters,
    }
}

fn at_most(states: &[u32], bound: i32) -> Step {
    let weight = |&state: &u32| Weight {
        state,
        coefficient: 1,
    };
    Step::AtMost {
        weights: states.iter().map(weight).collect(),
        bound,
    }
}

/// No children; without parts, any.
fn no_content(parts: Parts) -> Rule {
    Rule::Content {
        order: parts.order().then(|| Order {
            positions: 1,
            accepting: 1,
            arcs: Vec::new(),
        }),
        count: parts
            .count()
            .then(|| vec![at_most(&[TEXT, CT, OVEN, METER, UNITS, SITE], 0)]),
        target: EMPTY,
    }
}

/// No text and at most one units; by an order part the units stand last.
fn site_content(parts: Parts) -> Rule {
    let others = [CT, OVEN, METER, SITE];
    Rule::Content {
        order: parts.order().then(|| Order {
            positions: 2,
            accepting: below(2),
            arcs: others
                .map(|state| arc(0, state, 0))
                .into_iter()
                .chain([arc(0, UNITS, 1)])
                .collect(),
        }),
        count: parts
            .count()
            .then(|| vec![at_most(&[UNITS], 1), at_most(&[TEXT], 0), Step::And(0, 1)]),
        target: CONTENT,
    }
}

/// A sheet of one state over the tags of another, which takes every form to it.
pub fn one_state(tags: u32) -> Sheet {
    let mut rules = vec![
        Rule::Text { kind: 1, target: 0 },
        Rule::Text { kind: 2, target: 0 },
        Rule::Content {
            order: None,
            count: None,
            target: 0,
        },
    ];
    rules.extend((1..=tags).map(|tag| element(tag, 0, 0)));
    Sheet {
        states: 1,
        finals: 1,
        tags,
        rules,
    }
}

/// The elements that may stand in a site, beside units.
const OTHERS: [&str; 4] = ["ct", "oven", "meter", "site"];

/// The RELAX NG schema beside a sheet.
pub fn relax_ng(size: usize, parts: Parts) -> String {
    let content = site_pattern(parts);
    let (leaf, meter, units) = match size {
        LARGEST => {
            let open = format!("<choice><text/><group>{content}</group></choice>");
            let one_other = format!("<choice><text/>{}</choice>", OTHERS.map(refer).concat());
            (open.clone(), open, one_other)
        }
        _ => ("<empty/>".into(), "<text/>".into(), "<text/>".into()),
    };
    let extra = extra_names(extra_tags(size) as usize);
    let of_half = |half: usize| extra.iter().skip(half).step_by(2);
    let definitions = [
        define("ct", of_half(0), &leaf),
        define("oven", of_half(1), &leaf),
        define("meter", [].iter(), &meter),
        define("units", [].iter(), &units),
        define("site", [].iter(), &content),
    ];
    format!(
        "<grammar xmlns=\"http://relaxng.org/ns/structure/1.0\"><start>{}</start>{}</grammar>",
        refer("site"),
        definitions.concat()
    )
}

/// A site's content. Without parts it is any, as it is by the sheet.
fn site_pattern(parts: Parts) -> String {
    let any = |inside: String| format!("<zeroOrMore>{inside}</zeroOrMore>");
    let choice = |inside: String| format!("<choice>{inside}</choice>");
    let others = OTHERS.map(refer);
    let units = format!("<optional>{}</optional>", refer("units"));
    match parts {
        Parts::None => any(choice(others.concat() + &refer("units"))),
        Parts::Order | Parts::Both => any(choice(others.concat())) + &units,
        Parts::Count => format!(
            "<interleave>{}{units}</interleave>",
            others.map(any).concat()
        ),
    }
}

fn refer(name: &str) -> String {
    format!("<ref name=\"{name}\"/>")
}

/// The definition of an element of one name or several.
fn define<'a>(name: &str, further: impl Iterator<Item = &'a String>, content: &str) -> String {
    let further: String = further.map(|name| format!("<name>{name}</name>")).collect();
    let names = format!("<choice><name>{name}</name>{further}</choice>");
    format!("<define name=\"{name}\"><element>{names}{content}</element></define>")
}
