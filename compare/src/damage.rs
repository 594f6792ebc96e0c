//! Wrong implementations, to try the comparison itself: each is the reference with one mistake that
//! a program could well have.

use crate::answer::{Answer, Implementation};
use crate::generate::Call;
use crate::reference::bytes::is_white;
use crate::reference::join::pair_up;
use crate::reference::run::read_order;
use crate::reference::sheet::{parse, Rule, Sheet};
use crate::reference::tree::{self, children, INTEGER_TEXT, OTHER_TEXT};
use crate::reference::Reference;

#[derive(Clone, Copy, Debug, PartialEq, Eq)]
pub enum Damage {
    /// Read decides a text's kind before it trims it.
    UntrimmedKind,
    /// Judge counts the looks of a kind-three rule up to the last child, but without it.
    LastChild,
    /// Join pairs rules up with T's order outermost.
    JoinOrder,
    /// A refused read zeroes its buffer.
    ZeroedTree,
    /// Judge leaves the state words as they were when it refuses with 23.
    KeptStates,
    /// Swap writes a 0 after its last word.
    WordPast,
}

pub const DAMAGES: [Damage; 6] = [
    Damage::UntrimmedKind,
    Damage::LastChild,
    Damage::JoinOrder,
    Damage::ZeroedTree,
    Damage::KeptStates,
    Damage::WordPast,
];

impl Damage {
    pub fn name(self) -> &'static str {
        match self {
            Damage::UntrimmedKind => "untrimmed-kind",
            Damage::LastChild => "last-child",
            Damage::JoinOrder => "join-order",
            Damage::ZeroedTree => "zeroed-tree",
            Damage::KeptStates => "kept-states",
            Damage::WordPast => "word-past",
        }
    }

    /// The call that has the mistake.
    pub fn call(self) -> Call {
        match self {
            Damage::UntrimmedKind | Damage::ZeroedTree => Call::Read,
            Damage::LastChild | Damage::KeptStates => Call::Judge,
            Damage::JoinOrder => Call::Join,
            Damage::WordPast => Call::Swap,
        }
    }
}

/// The reference with a mistake in one of its calls.
pub struct Damaged {
    reference: Reference,
    damage: Damage,
}

impl Damaged {
    pub fn new(damage: Damage) -> Damaged {
        Damaged {
            reference: Reference::default(),
            damage,
        }
    }
}

impl Implementation for Damaged {
    fn name(&self) -> &'static str {
        "damaged reference"
    }

    fn check_names(&self, list: &[u8]) -> Answer {
        self.reference.check_names(list)
    }

    fn read(&self, list: &[u8], text: &[u8], tree: &mut [u32]) -> Answer {
        let answer = self.reference.read(list, text, tree);
        match (self.damage, answer) {
            (Damage::UntrimmedKind, Answer::Count(nodes)) => {
                untrimmed_kinds(text, &mut tree[..4 * nodes as usize]);
            }
            (Damage::ZeroedTree, Answer::Refusal(..)) => tree.fill(0),
            _ => {}
        }
        answer
    }

    fn check_tree(&self, tags: u32, tree: &[u32]) -> Answer {
        self.reference.check_tree(tags, tree)
    }

    fn write(&self, list: &[u8], text: &[u8], tree: &[u32], out: &mut [u8]) -> Answer {
        self.reference.write(list, text, tree, out)
    }

    fn check_sheet(&self, sheet: &[u32]) -> Answer {
        self.reference.check_sheet(sheet)
    }

    fn sheet_from_file(&self, file: &[u8], words: &mut [u32]) -> Answer {
        self.reference.sheet_from_file(file, words)
    }

    fn judge(&self, sheet: &[u32], tree: &[u32], states: &mut [u32]) -> Answer {
        let before = states.to_vec();
        let answer = self.reference.judge(sheet, tree, states);
        match (self.damage, answer) {
            (Damage::KeptStates, Answer::Refusal(23, _)) => states.copy_from_slice(&before),
            (Damage::LastChild, Answer::Accepted(state, looks)) => {
                return Answer::Accepted(state, looks - last_looks(sheet, tree, states));
            }
            (Damage::LastChild, Answer::Refused(state, looks)) => {
                return Answer::Refused(state, looks - last_looks(sheet, tree, states));
            }
            (Damage::LastChild, Answer::Stuck(node, looks)) => {
                return Answer::Stuck(node, looks - last_looks(sheet, tree, states));
            }
            _ => {}
        }
        answer
    }

    fn swap(&self, sheet: &[u32], out: &mut [u32]) -> Answer {
        let answer = self.reference.swap(sheet, out);
        if let (Damage::WordPast, Answer::Count(count)) = (self.damage, answer) {
            if let Some(word) = out.get_mut(count as usize) {
                *word = 0;
            }
        }
        answer
    }

    fn join(&self, first: &[u32], second: &[u32], out: &mut [u32]) -> Answer {
        let answer = self.reference.join(first, second, out);
        if let (Damage::JoinOrder, Answer::Count(words)) = (self.damage, answer) {
            turn_rules(first, second, &mut out[..words as usize]);
        }
        answer
    }

    fn formcheck(&self, list: &[u8], file: &[u8], text: &[u8]) -> Answer {
        self.reference.formcheck(list, file, text)
    }

    fn why(&self) -> &'static str {
        self.reference.why()
    }
}

/// Makes every integer text with white beside it another text.
fn untrimmed_kinds(text: &[u8], tree: &mut [u32]) {
    for node in tree.chunks_mut(4) {
        let (start, end) = (node[2] as usize, (node[2] + node[3]) as usize);
        if node[0] == INTEGER_TEXT && (is_white(text[start - 1]) || is_white(text[end])) {
            node[0] = OTHER_TEXT;
        }
    }
}

/// A sheet that the reference passed.
fn passed(words: &[u32]) -> Sheet {
    parse(words).expect("a sheet that was passed")
}

/// How many looks of a run fall on the last child of a content.
fn last_looks(sheet: &[u32], tree: &[u32], states: &[u32]) -> u32 {
    let sheet = passed(sheet);
    let nodes = tree::parse(sheet.tags, tree).expect("a tree that was passed");
    let mut looks = 0;
    for number in 0..nodes.len() {
        let children = children(&nodes, number);
        let states: Vec<u32> = children.iter().map(|&child| states[child]).collect();
        if states.len() < 2 || states.contains(&0) {
            continue;
        }
        let states: Vec<u32> = states.iter().map(|state| state - 1).collect();
        let reads_all = |rule: &&Rule| match rule {
            Rule::Content { order, .. } => order
                .as_ref()
                .is_none_or(|order| read_order(order, &states).1 == states.len()),
            _ => false,
        };
        looks += sheet.rules.iter().filter(reads_all).count() as u32;
    }
    looks
}

/// Puts the rules of a joint sheet in the order of T's rules, then of S's.
fn turn_rules(first: &[u32], second: &[u32], words: &mut [u32]) {
    let (first, second, mut joint) = (passed(first), passed(second), passed(words));
    let mut pairs = Vec::new();
    for (s, left) in first.rules.iter().enumerate() {
        for (t, right) in second.rules.iter().enumerate() {
            if pair_up(left, right) {
                pairs.push((t, s));
            }
        }
    }
    let mut turned: Vec<((usize, usize), Rule)> = pairs.into_iter().zip(joint.rules).collect();
    turned.sort_by_key(|(pair, _)| *pair);
    joint.rules = turned.into_iter().map(|(_, rule)| rule).collect();
    words.copy_from_slice(&joint.words());
}
