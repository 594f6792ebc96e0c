//! The forms that are measured. Every site in them has no child or several, but for the text-heavy
//! form, and its units stand last.

/// The names that the forms use, in the order of their tags.
pub const NAMES: [&str; 5] = ["ct", "oven", "meter", "units", "site"];

pub struct Form {
    pub shape: &'static str,
    pub nodes: usize,
    pub text: Vec<u8>,
}

/// Builds a text and counts its nodes.
#[derive(Default)]
struct Builder {
    text: Vec<u8>,
    nodes: usize,
}

impl Builder {
    fn open(&mut self) {
        self.text.extend(b"<site>");
        self.nodes += 1;
    }

    fn close(&mut self) {
        self.text.extend(b"</site>");
    }

    /// An empty element; its tag depends on its number.
    fn leaf(&mut self) {
        let leaf = if self.nodes.is_multiple_of(2) {
            &b"<ct/>"[..]
        } else {
            b"<oven/>"
        };
        self.text.extend(leaf);
        self.nodes += 1;
    }

    /// An element around a text: two nodes.
    fn filled(&mut self, tag: &str, text: &str) {
        self.text
            .extend(format!("<{tag}>{text}</{tag}>").into_bytes());
        self.nodes += 2;
    }

    fn form(self, shape: &'static str) -> Form {
        Form {
            shape,
            nodes: self.nodes,
            text: self.text,
        }
    }
}

/// One site with all others in it: two empty elements, then one with a text, and so on; its units
/// last.
pub fn flat(nodes: usize) -> Form {
    let mut form = Builder::default();
    form.open();
    let before_units = nodes - 2;
    while form.nodes < before_units {
        if form.nodes % 4 == 3 && form.nodes + 2 <= before_units {
            form.filled("meter", &format!("A-{}", form.nodes));
        } else {
            form.leaf();
        }
    }
    form.filled("units", "kWh");
    form.close();
    form.form("flat")
}

/// How deep the sites of a deep form lie one in another, at most.
const CHAIN: usize = 30;

/// Sites in sites, each with an element around a text beside the next; empty elements where no site
/// fits any more.
pub fn deep(nodes: usize) -> Form {
    let mut form = Builder::default();
    form.open();
    form.leaf();
    form.leaf();
    while nodes - form.nodes >= 5 {
        // A level is a site and an element with its text; the innermost site has a leaf more.
        let levels = ((nodes - form.nodes - 1) / 3).min(CHAIN);
        for _ in 0..levels {
            form.open();
            form.filled("meter", &format!("A-{}", form.nodes));
        }
        form.leaf();
        for _ in 0..levels {
            form.close();
        }
    }
    while form.nodes < nodes {
        form.leaf();
    }
    form.close();
    form.form("deep")
}

pub const TEXT_HEAVY: &str = "text-heavy";

/// Sites whose units are long texts.
pub fn text_heavy() -> Form {
    let words = "measured at the main board, see sheet 7 of the plan; ".repeat(30);
    let mut form = Builder::default();
    form.open();
    for _ in 0..40 {
        form.open();
        form.filled("units", words.trim());
        form.close();
    }
    form.close();
    form.form(TEXT_HEAVY)
}

/// The forms of the table.
pub fn all() -> Vec<Form> {
    let sizes = [10, 100, 1_000, 4_095];
    let mut forms: Vec<Form> = sizes.into_iter().map(flat).collect();
    forms.extend(sizes.into_iter().map(deep));
    forms.push(text_heavy());
    forms
}

/// A form in which a site has two units, which the sheets with a part refuse; and one without a
/// site, which they all do.
pub const TWO_UNITS: &[u8] = b"<site><units>kWh</units><units>kWh</units></site>";
pub const NO_SITE: &[u8] = b"<ct/>";

/// A list of the five names.
pub fn five_names() -> Vec<u8> {
    list(&NAMES.map(String::from))
}

/// A list of 64 names, the five last.
pub fn sixty_four_names() -> Vec<u8> {
    let mut names = extra_names(59);
    names.extend(NAMES.map(String::from));
    list(&names)
}

/// Names of further elements.
pub fn extra_names(count: usize) -> Vec<String> {
    (1..=count).map(|number| format!("zone-{number}")).collect()
}

/// A form of so many nodes that uses all of 64 names, and their list.
pub fn with_all_names(nodes: usize) -> (Form, Vec<u8>) {
    let names = extra_names(64);
    let mut form = Builder::default();
    let root = &names[0];
    form.text.extend(format!("<{root}>").into_bytes());
    form.nodes += 1;
    while form.nodes < nodes {
        let name = &names[form.nodes % names.len()];
        form.text.extend(format!("<{name}/>").into_bytes());
        form.nodes += 1;
    }
    form.text.extend(format!("</{root}>").into_bytes());
    (form.form("flat, 64 names"), list(&names))
}

fn list(names: &[String]) -> Vec<u8> {
    names
        .iter()
        .flat_map(|name| format!("{name}\n").into_bytes())
        .collect()
}
