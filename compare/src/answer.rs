//! What a call answers, and the ten functions that can be compared.

/// The answer of a call, by the numbers of document 01.
#[derive(Clone, Copy, Debug, PartialEq, Eq)]
pub enum Answer {
    /// The number of names, nodes, bytes or words, by the call.
    Count(u32),
    /// Root state and looks.
    Accepted(u32, u32),
    /// Root state and looks.
    Refused(u32, u32),
    /// The highest-numbered node without a state, and looks.
    Stuck(u32, u32),
    /// Number and place.
    Refusal(u32, u32),
}

impl Answer {
    /// The line that the program formcheck prints, without its last byte 10.
    pub fn line(self) -> String {
        match self {
            Answer::Count(n) => format!("count {n}"),
            Answer::Accepted(state, looks) => format!("accepted {state} {looks}"),
            Answer::Refused(state, looks) => format!("refused {state} {looks}"),
            Answer::Stuck(node, looks) => format!("stuck {node} {looks}"),
            Answer::Refusal(number, place) => format!("error {number} {place}"),
        }
    }

    /// Kind, first value and second value, as the calls for C give them.
    pub fn numbers(self) -> [u32; 3] {
        match self {
            Answer::Count(n) => [0, n, 0],
            Answer::Accepted(state, looks) => [1, state, looks],
            Answer::Refused(state, looks) => [2, state, looks],
            Answer::Stuck(node, looks) => [3, node, looks],
            Answer::Refusal(number, place) => [4, number, place],
        }
    }
}

/// Nine calls and the program, as functions on slices. A buffer is lent as the last argument.
pub trait Implementation {
    /// What a report calls it.
    fn name(&self) -> &'static str;

    fn check_names(&self, list: &[u8]) -> Answer;
    fn read(&self, list: &[u8], text: &[u8], tree: &mut [u32]) -> Answer;
    fn check_tree(&self, tags: u32, tree: &[u32]) -> Answer;
    fn write(&self, list: &[u8], text: &[u8], tree: &[u32], out: &mut [u8]) -> Answer;
    fn check_sheet(&self, sheet: &[u32]) -> Answer;
    fn sheet_from_file(&self, file: &[u8], words: &mut [u32]) -> Answer;
    fn judge(&self, sheet: &[u32], tree: &[u32], states: &mut [u32]) -> Answer;
    fn swap(&self, sheet: &[u32], out: &mut [u32]) -> Answer;
    fn join(&self, first: &[u32], second: &[u32], out: &mut [u32]) -> Answer;
    fn formcheck(&self, list: &[u8], file: &[u8], text: &[u8]) -> Answer;

    /// The rule broken in the last call, where the implementation knows it.
    fn why(&self) -> &'static str {
        ""
    }
}
