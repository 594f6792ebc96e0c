//! Document 01's sheets S and T, its tags, and the forms of its cases 1 and 3.

pub const NAME_LIST: &[u8] = b"ct\noven\nsite\nunits\n";
pub const CASE_1: &[u8] = b"<site><oven/><ct/><units/></site>";
pub const CASE_3: &[u8] = b"<units> kWh </units>";

pub fn names() -> Vec<Vec<u8>> {
    ["ct", "oven", "site", "units"]
        .map(|name| name.into())
        .to_vec()
}

/// "S is 43 words"
pub fn sheet_s() -> Vec<u32> {
    const MINUS_ONE: u32 = 4_294_967_295;
    let words = vec![
        1, 5, 16, 0, 4, 6, // edition, states, final states, tags, rules
        33, 2, 0, // other text
        38, 1, 0, 1, // ct
        38, 2, 0, 2, // oven
        38, 4, 0, 3, // units
        38, 3, 0, 4, // site
        48, 3, // a count part of three steps
        1, 6, 0, 1, MINUS_ONE, 0, // ct less oven at most 0
        1, 6, 0, MINUS_ONE, 1, 0, // oven less ct at most 0
        4, 0, 1, // both
        0, // target
    ];
    assert_eq!(words.len(), 43);
    words
}

/// "T has one state, final, and seven rules that take everything to it."
pub fn sheet_t() -> Vec<u32> {
    vec![
        1, 1, 1, 0, 4, 7, // edition, states, final states, tags, rules
        33, 1, 0, 33, 2, 0, // texts
        38, 1, 0, 0, 38, 2, 0, 0, 38, 3, 0, 0, 38, 4, 0, 0, // tags
        32, 0, // content
    ]
}
