use crate::cases;
use crate::cases::value::{Known, Scan};
use crate::reference::Reference;
use std::path::PathBuf;

/// Document 01's cases, and the examples of the format.
const SAMPLE: &str = r##"# Document 01's cases:
  names "a\n"   this goes on over a line, and is a comment
List = "ct\noven\nsite\nunits\n"
S = 1 5 16 0 4 6 | 33 2 0 | 38 1 0 1 | 38 2 0 2 | 38 4 0 3 | 38 3 0 4
  | 48 3 (1 6 0 1 -1 0) (1 6 0 -1 1 0) (4 0 1)  # ct and oven in equal number
  | 0
T = 1 1 1 0 4 7 | 33 1 0 | 33 2 0 | 38 1 0 0 | 38 2 0 0 | 38 3 0 0 | 38 4 0 0 | 32 0

Case-1 = "<site><oven/><ct/><units/></site>"
Tree-1 = read List, Case-1, 16          # its tree
judge S, Tree-1, 4                      # case 1
verdict List, S.bytes, Case-1 #
verdict List, S.bytes, "<site><oven/><units/></site>"      # case 2
Case-3 = "<units> kWh </units>"
Tree-3 = read List, Case-3, 9           # its tree
judge S, Tree-3, 3# case 3
verdict List, S.bytes, "<units/>"       # case 4
verdict List, S.bytes, "<units> \t\r\n</units>" # white
verdict List, S.bytes, "<site><oven/></site>"   # case 5
S-plus = 1 5 16 0 4 7 | 33 2 0 | 38 1 0 1 | 38 2 0 2 | 38 4 0 3 | 38 3 0 4 | 32 0 | 33 2 1
judge S-plus, Tree-3, 3                 # case 6
Swapped = swap S, 44                    # case 7
judge Swapped, Tree-3, 2                # case 3 the other way
Joint = join S, T, 43                   # case 8
join S, T, 42                           # one word too few
judge Joint, Tree-1, 4                  # as S alone
join 1 8 0 0 4 0, 1 8 0 0 4 0, 8        # case 9
join 1 5 0 0 4 0, 1 13 0 0 4 0, 8       # 65 pairs
Remainder = 1 5 16 0 4 5 | 33 2 0 | 38 1 0 1 | 38 2 0 2 | 38 3 0 4
  | 56 (1 1 0 2 0/1/0 0/2/0) (1 2 2 0 -1 3 2) 0
verdict List, Remainder.bytes,
  "<site><oven>x</oven><ct>x</ct></site>"   # case 10

# The examples of the format.
names "a\n"      # one name
List = "a\n"
Tree = read List, "<a> 12 </a>", 8   # digits only is asked of the trimmed bytes
write List, "12", 1 2 0 0 65 1 0 2, 12 # three bytes stay
Written = write List, "<a> 12 </a>", Tree, 9 # all bytes
read List, Written, 0 # no room
formcheck_names "a\n", 2 # for C
"##;

const SAMPLE_TABLE: &str = r##"# Document 01's cases:
  names "a\n"   this goes on over a line, and is a comment
List = "ct\noven\nsite\nunits\n"
S = 1 5 16 0 4 6 | 33 2 0 | 38 1 0 1 | 38 2 0 2 | 38 4 0 3 | 38 3 0 4
  | 48 3 (1 6 0 1 -1 0) (1 6 0 -1 1 0) (4 0 1)  # ct and oven in equal number
  | 0
T = 1 1 1 0 4 7 | 33 1 0 | 33 2 0 | 38 1 0 0 | 38 2 0 0 | 38 3 0 0 | 38 4 0 0 | 32 0

Case-1 = "<site><oven/><ct/><units/></site>"
Tree-1 = read List, Case-1, 16          -> count 4: 3 4 0 0 2 1 0 0 1 1 0 0 4 1 0 0   # its tree
judge S, Tree-1, 4                      -> accepted 4 23: 5 3 2 4   # case 1
verdict List, S.bytes, Case-1 -> accepted 4 23   #
verdict List, S.bytes, "<site><oven/><units/></site>"      -> stuck 0 13   # case 2
Case-3 = "<units> kWh </units>"
Tree-3 = read List, Case-3, 9           -> count 2: 4 2 0 0 66 1 8 3 7   # its tree
judge S, Tree-3, 3-> refused 3 5: 4 1 7   # case 3
verdict List, S.bytes, "<units/>"       -> refused 3 5   # case 4
verdict List, S.bytes, "<units> \t\r\n</units>" -> refused 3 5   # white
verdict List, S.bytes, "<site><oven/></site>"   -> stuck 0 9   # case 5
S-plus = 1 5 16 0 4 7 | 33 2 0 | 38 1 0 1 | 38 2 0 2 | 38 4 0 3 | 38 3 0 4 | 32 0 | 33 2 1
judge S-plus, Tree-3, 3                 -> error 23 1: 0 0 7   # case 6
Swapped = swap S, 44                    -> count 43: 1 5 15 0 4 6 33 2 0 38 1 0 1 38 2 0 2 38 4 0 3 38 3 0 4 48 3 1 6 0 1 4294967295 0 1 6 0 4294967295 1 0 4 0 1 0 7   # case 7
judge Swapped, Tree-3, 2                -> accepted 3 5: 4 1   # case 3 the other way
Joint = join S, T, 43                   -> count 43: 1 5 16 0 4 6 33 2 0 38 1 0 1 38 2 0 2 38 4 0 3 38 3 0 4 48 3 1 6 0 1 4294967295 0 1 6 0 4294967295 1 0 4 0 1 0   # case 8
join S, T, 42                           -> error 22 43: 7 7 7 7 7 7 7 7 7 7 7 7 7 7 7 7 7 7 7 7 7 7 7 7 7 7 7 7 7 7 7 7 7 7 7 7 7 7 7 7 7 7   # one word too few
judge Joint, Tree-1, 4                  -> accepted 4 23: 5 3 2 4   # as S alone
join 1 8 0 0 4 0, 1 8 0 0 4 0, 8        -> count 6: 1 64 0 0 4 0 7 7   # case 9
join 1 5 0 0 4 0, 1 13 0 0 4 0, 8       -> error 21 1: 7 7 7 7 7 7 7 7   # 65 pairs
Remainder = 1 5 16 0 4 5 | 33 2 0 | 38 1 0 1 | 38 2 0 2 | 38 3 0 4
  | 56 (1 1 0 2 0/1/0 0/2/0) (1 2 2 0 -1 3 2) 0
verdict List, Remainder.bytes,
  "<site><oven>x</oven><ct>x</ct></site>"   -> accepted 4 14   # case 10

# The examples of the format.
names "a\n"      -> count 1   # one name
List = "a\n"
Tree = read List, "<a> 12 </a>", 8   -> count 2: 1 2 0 0 65 1 4 2   # digits only is asked of the trimmed bytes
write List, "12", 1 2 0 0 65 1 0 2, 12 -> count 9: "<a>12</a>..."   # three bytes stay
Written = write List, "<a> 12 </a>", Tree, 9 -> count 9: "<a>12</a>"   # all bytes
read List, Written, 0 -> error 22 8:   # no room
formcheck_names "a\n", 2 -> kind 0, numbers 0 1   # for C
"##;

/// The directory of this package stands in for that of the data files.
fn data() -> PathBuf {
    env!("CARGO_MANIFEST_DIR").into()
}

/// The table of a case file by the reference, and the number of its cases.
fn run(file: &[u8]) -> (String, usize) {
    let table = cases::run(file, data(), &Reference::default());
    let text = String::from_utf8(table.text).expect("these tables have plain bytes");
    (text, table.cases)
}

/// What the table shows of a case, given without its comment, behind some lines.
fn shown(file: &str) -> String {
    let (table, _) = run(format!("{file} # last").as_bytes());
    let line = table.lines().last().expect("a line for each line");
    let (_, shown) = line.split_once(" -> ").expect("a case");
    let shown = shown.strip_suffix("   # last").expect("its comment");
    shown.to_string()
}

#[test]
fn the_repository_s_cases() {
    match cases::check(&Reference::default()) {
        Ok(cases) => assert_ne!(cases, 0),
        Err(message) => panic!("{message}"),
    }
}

#[test]
fn the_sample() {
    let (table, cases) = run(SAMPLE.as_bytes());
    assert_eq!(
        cases::same("reference", SAMPLE_TABLE.as_bytes(), table.as_bytes()),
        Ok(())
    );
    assert_eq!(table, SAMPLE_TABLE);
    assert_eq!(cases, SAMPLE_TABLE.matches("-> ").count());
}

#[test]
fn the_first_difference() {
    let differ = |expected: &str, got: &str| {
        let same = cases::same("reference", expected.as_bytes(), got.as_bytes());
        same.expect_err("they differ")
    };
    assert_eq!(
        differ("a\nb\nc\n", "a\nx\ny\n"),
        "reference, line 2:\n  expected: b\n  got: x"
    );
    assert_eq!(
        differ("a\nb", "a"),
        "reference, line 2:\n  expected: b\n  got: no line"
    );
    assert_eq!(
        differ("", "\na"),
        "reference, line 2:\n  expected: no line\n  got: a"
    );
}

// Values.

fn value(text: &str) -> Option<Vec<u32>> {
    let names = [
        (&b"S"[..], vec![1, 258]),
        (b"S-2_b", vec![9]),
        (b"S.byte", vec![10]),
        (b"E", vec![]),
    ];
    let known = Known {
        names: names.map(|(name, words)| (name.to_vec(), words)).into(),
        data: data(),
    };
    Scan::new(text.as_bytes(), &known).value()
}

#[test]
fn items() {
    for (text, words) in [
        ("", vec![]),
        ("  \n |", vec![]),
        ("0", vec![0]),
        ("12 | 4294967295", vec![12, 4_294_967_295]),
        ("-12", vec![4_294_967_284]),
        ("-0 -1 -2147483648", vec![0, u32::MAX, 1 << 31]),
        ("-2147483649 -4294967295", vec![(1 << 31) - 1, 1]),
        (r#""""#, vec![]),
        (r#""a ,|""#, vec![97, 32, 44, 124]),
        (r#""\n\r\t\"\\""#, vec![10, 13, 9, 34, 92]),
        ("\"\x01\t\x7f\u{e9}\"", vec![1, 9, 127, 0xc3, 0xa9]),
        (r#""<" 31 "/>""#, vec![60, 31, 47, 62]),
        ("S S-2_b E 7", vec![1, 258, 9, 7]),
        ("S.bytes", vec![1, 0, 0, 0, 2, 1, 0, 0]),
        ("S.byte", vec![10]),
        ("S.byte.bytes(S)E.bytes", vec![10, 0, 0, 0, 1, 258]),
        ("1 (2 S) () 3", vec![1, 2, 1, 258, 3]),
        ("(1)(2)|\"a\"3", vec![1, 2, 97, 3]),
        ("1 # 2\n 3 # 4", vec![1, 3]),
        ("|1|(|2|)|", vec![1, 2]),
        ("1, 2", vec![1]),
    ] {
        assert_eq!(value(text), Some(words), "{text}");
    }
}

#[test]
fn data_files() {
    let bytes = include_bytes!("../../Cargo.toml");
    let words: Vec<u32> = bytes.iter().map(|&byte| u32::from(byte)).collect();
    assert_eq!(value("@Cargo.toml"), Some(words.clone()));
    assert_eq!(
        value("7 (@Cargo.toml) * 2"),
        Some([&[7][..], &words, &words].concat())
    );
    for text in [
        "@",
        "@ Cargo.toml",
        "@Cargo",
        "@Cargo.toml.bytes",
        "@src",
        "@src/lib.rs",
    ] {
        assert_eq!(value(text), None, "{text}");
    }
}

#[test]
fn operators() {
    for (text, words) in [
        ("5 * 3 6", vec![5, 5, 5, 6]),
        ("4 5*2", vec![4, 5, 5]),
        ("4 5 * 0", vec![4]),
        ("E * 4294967295", vec![]),
        ("(1 2) * 2 * 2", vec![1, 2, 1, 2, 1, 2, 1, 2]),
        ("0/1/2", vec![258]),
        ("63/255/1", vec![63 * 65_536 + 255 * 256 + 1]),
        ("1 2 /3", vec![1, 515]),
        ("(1 2)/3", vec![1, 515]),
        ("1 | /3", vec![259]),
        ("16777215/255", vec![u32::MAX]),
        ("1 # a\n * # b\n 2 # c\n /3", vec![1, 259]),
        ("1 | * | 2", vec![1, 1]),
        ("(0/1/2 5) * 2 /1", vec![258, 5, 258, 1_281]),
        ("S.bytes * 0 S.bytes/7", vec![1, 0, 0, 0, 2, 1, 0, 7]),
        // Where a value begins, the item is empty.
        ("* 2", vec![]),
        ("| *4294967295 * 0 5", vec![5]),
    ] {
        assert_eq!(value(text), Some(words), "{text}");
    }
    assert_eq!(
        value("\"a\" * 65535").map(|words| words.len()),
        Some(65_535)
    );
}

#[test]
fn bad_values() {
    for text in [
        // Numbers.
        "4294967296",
        "99999999999999999999",
        "-4294967296",
        "-",
        "- 1",
        "--1",
        "+1",
        "0x1",
        "1.5",
        // Texts.
        "\"a",
        "\"a\nb\"",
        "\"a#b\"",
        "\"a\0b\"",
        r#""\"#,
        r#""\""#,
        r#""\a""#,
        r#""\0""#,
        r#""\x7f""#,
        // Names and other bytes.
        "T",
        "S-",
        "S.",
        "S.words",
        "S.bytes.bytes",
        "S.bytes2",
        "T.bytes",
        "s.bytes",
        "s",
        "bytes",
        "=",
        "\t",
        "\r",
        "\0",
        "\u{e9}",
        // Groups.
        "(1",
        "(1 # )",
        "1)",
        ")",
        "(1, 2)",
        "((1))",
        "(1 (2))",
        // Operators.
        "(* 2)",
        "/1",
        "* 2 /1",
        ".bytes",
        "S .bytes",
        "1.bytes",
        "(S).bytes",
        "*",
        "1 *",
        "1 * -1",
        "1 * S",
        "1 * 4294967296",
        "1 * 4294967295",
        "1 /",
        "1 / 1",
        "1 /-1",
        "16777216/0",
        "0/256",
        "E /1",
        "1 * 0 /1",
    ] {
        assert_eq!(value(text), None, "{text}");
    }
}

/// A line's values have at most 262,144 words together.
#[test]
fn the_most_words() {
    let lengths = |text: &str| {
        let known = Known {
            names: [(b"A".to_vec(), vec![1; 240_000])].into(),
            data: data(),
        };
        let mut scan = Scan::new(text.as_bytes(), &known);
        let first = scan.value()?.len();
        let second = scan.take(b",").then(|| scan.value());
        Some((first, second.map(|words| words.map(|words| words.len()))))
    };
    assert_eq!(lengths("1 * 262144"), Some((262_144, None)));
    assert_eq!(lengths("1 * 262144, 1"), Some((262_144, Some(None))));
    assert_eq!(lengths("1 * 262144,"), Some((262_144, Some(Some(0)))));
    assert_eq!(lengths("A, 1 * 22144"), Some((240_000, Some(Some(22_144)))));
    for text in ["A, 1 * 22145", "A, A", "A, 1 * 22144 1"] {
        assert_eq!(lengths(text), Some((240_000, Some(None))), "{text}");
    }
    for text in ["1 * 262145", "A A", "(1 * 262144 1) * 0", "A.bytes"] {
        assert_eq!(lengths(text), None, "{text}");
    }
}

// Lines.

#[test]
fn lines_that_are_no_cases() {
    for file in [
        "",
        "\n",
        "\n\n# names \"a\"\n\n",
        "# a\n names \"a\"\n \n",
        "A =\nB=1\nC | = A (B) # names\n",
        "A = 1\n  2\n   # 3\n",
        "A # a\n = # b\n 1\n",
        "A.byte = 1\nB = A.byte.bytes\n",
    ] {
        assert_eq!(run(file.as_bytes()), (file.to_string(), 0));
    }
    // The last line may end without a byte 10.
    assert_eq!(run(b"# a\nA = 1"), ("# a\nA = 1\n".to_string(), 0));
}

#[test]
fn lines_that_are_cases() {
    for (file, table) in [
        ("names \"a\\n\" # ", "names \"a\\n\" -> count 1   # "),
        ("names#", "names-> error 8 0   #"),
        ("tree 1,  # -> 1", "tree 1,  -> error 10 0   # -> 1"),
        ("R=names\"a\\n\"#", "R=names\"a\\n\"-> count 1   #"),
        (
            "sheet 1 1 0\n 0 1 0\n # a",
            "sheet 1 1 0\n 0 1 0\n -> count 6   # a",
        ),
        (
            "sheet 1 1 0 # a\n 0 1 0 # b ",
            "sheet 1 1 0 -> count 6   # a\n 0 1 0 # b ",
        ),
        ("R # a\n = names", "R -> error 8 0   # a\n = names"),
        ("tree|1|,1 1 0 0|#", "tree|1|,1 1 0 0|-> count 1   #"),
    ] {
        assert_eq!(run(file.as_bytes()), (format!("{table}\n"), 1));
    }
}

#[test]
fn lines_that_cannot_be_read() {
    let bytes = |length: usize| format!("names 10 * {length} # a");
    for line in [
        // Neither a name nor a call.
        " ",
        "  # a",
        " A = 1",
        "\n A = 1",
        "\t# a",
        "1 # a",
        "\"a\" # a",
        "| names # a",
        "_ # a",
        "= 1",
        "A",
        "A 1",
        "A-b : 1",
        "A\t= 1",
        "A.bytes = 1",
        "A = 1, 2",
        "A = B = 1",
        "A = T",
        "A = tree # a",
        // Without a comment.
        "names \"a\\n\"",
        "A = names \"a\\n\"",
        // Calls.
        "name \"a\\n\" # a",
        "names_ \"a\\n\" # a",
        "names.bytes \"a\\n\" # a",
        "file 0, 0 # a",
        "formcheck \"a\\n\", 0, 0 # a",
        "formcheck_file \"a\", 0, 3 # a",
        "formcheck_formcheck_names \"a\\n\", 3 # a",
        "Names \"a\\n\" # a",
        // Numbers of values.
        "names \"a\\n\", 1 # a",
        "read \"a\\n\", \"<a/>\" # a",
        "tree 1 # a",
        "formcheck_names \"a\\n\" # a",
        "formcheck_names \"a\\n\", 3, 3 # a",
        // Values out of their ranges.
        "names 256 # a",
        &bytes(66_001),
        "tree , 1 1 0 0 # a",
        "tree 1 1, 1 1 0 0 # a",
        "swap 1, 66001 # a",
        "swap 1,  # a",
        "swap 1, 1 1 # a",
        "write \"a\\n\", \"\", 1 1 0 0, 66001 # a",
        "formcheck_names \"a\\n\", 5 # a",
        "formcheck_names \"a\\n\",  # a",
        "names \"a # what \"",
    ] {
        let table = format!("cannot be read: {line}\n");
        assert_eq!(run(line.as_bytes()), (table, 0));
    }
    assert_eq!(run(bytes(66_000).as_bytes()).1, 1);
}

/// A byte that is no character is shown as it stands.
#[test]
fn lines_of_any_bytes() {
    let line = b"names \"\xff\"  # \xfe\0\nA \xff\n";
    let table = cases::run(line, data(), &Reference::default()).text;
    let wanted = b"names \"\xff\"  -> error 8 0   # \xfe\0\ncannot be read: A \xff\n";
    assert_eq!(table, wanted);
}

/// A line that can't be read names nothing.
#[test]
fn names_are_the_latest() {
    let file = "A = \"a\"\nnames A 10 #\nA = 1, 2\nA = swap 1, 1\nnames A 10 #\n\
        A = \"1\"\nnames A 10 #\nA = A A\nnames A #";
    let (table, cases) = run(file.as_bytes());
    assert_eq!(cases, 4);
    let shown: Vec<&str> = table
        .lines()
        .filter_map(|line| Some(line.split_once(" -> ")?.1))
        .collect();
    assert_eq!(
        shown,
        [
            "count 1   #",
            "count 1   #",
            "error 8 0   #",
            "error 8 0   #"
        ]
    );
}

// What the table shows.

#[test]
fn buffers_of_words() {
    let swap = |room: usize| shown(&format!("swap 1 1 1 0 1 0, {room}"));
    assert_eq!(swap(0), "error 22 6:");
    assert_eq!(swap(5), "error 22 6: 7 7 7 7 7");
    assert_eq!(swap(6), "count 6: 1 1 0 0 1 0");
    let past = " 7".repeat(42);
    assert_eq!(swap(48), format!("count 6: 1 1 0 0 1 0{past}"));
    assert_eq!(swap(49), "count 6: length 49, sum 3870935991");
    assert_eq!(
        shown("judge 1 1 0 0 1 1 38 1 0 0, 1 1 0 0, 2"),
        "stuck 0 0: 0 7"
    );
    assert!(swap(66_000).starts_with("count 6: length 66000, sum "));
}

#[test]
fn buffers_of_bytes() {
    let write = |text: &str, length: usize, room: usize| {
        shown(&format!(
            "write \"a\\n\", \"{text}\", 1 2 0 0 66 1 0 {length}, {room}"
        ))
    };
    assert_eq!(write("x", 1, 0), "error 22 8: \"\"");
    assert_eq!(write("x", 1, 9), "count 8: \"<a>x</a>.\"");
    assert_eq!(
        write(r#"x\r\t\"\\" 35 "y"#, 7, 14),
        "count 14: \"<a>x\r\t\"\\#y</a>\""
    );
    assert_eq!(write("~ !", 3, 10), "count 10: \"<a>~ !</a>\"");
    assert!(write("x", 1, 48).ends_with(&format!("</a>{}\"", ".".repeat(40))));
    assert_eq!(
        shown("write , , , 49"),
        "error 8 0: length 49, sum 3586013197"
    );
    assert!(write("x", 1, 49).starts_with("count 8: length 49, sum "));
    assert!(write("x", 1, 66_000).starts_with("count 8: length 66000, sum "));
}

/// What the answer counts of a lent buffer; elsewhere nothing.
#[test]
fn results() {
    for case in [
        "names \"a\\n\"",
        "tree 1, 1 1 0 0",
        "sheet 1 1 0 0 1 0",
        "judge 1 1 0 0 1 0, 1 1 0 0, 4",
        "verdict \"a\\n\", S.bytes, \"<a/>\"",
        "swap 1 1 0 0 1 0, 5",
        "formcheck_swap 1 1 0 0 1 0, 6, 3",
        "formcheck_write \"a\\n\", \"\", 1 1 0 0, 9, 3",
    ] {
        let file = format!("S = 1 1 0 0 1 0\nA = 1 2 3\nA = {case} #\nsheet S A");
        assert_eq!(shown(&file), "count 6", "{case}");
    }
    let tree = "A = read \"a\\n\", \"<a>x</a>\", 10 #\ntree 1, A";
    assert_eq!(shown(tree), "count 2");
    let text = "A = write \"a\\n\", \"\", 1 1 0 0, 10 #\nread \"a\\n\", A, 4";
    assert_eq!(shown(text), "count 1: 1 1 0 0");
    let sheet = "A = 1 1 1 0 1 0\nA = sheet_from_file A.bytes, 8 #\nA = swap A, 8 #\n\
        A = join A, A, 8 #\nswap A, 7";
    assert_eq!(shown(sheet), "count 6: 1 1 1 0 1 0 7");
}

// Calls for C.

#[test]
fn numbers() {
    for (numbers, wanted) in [
        (0, "kind 4, numbers"),
        (1, "kind 4, numbers 4"),
        (2, "kind 4, numbers 4 8"),
        (3, "kind 4, numbers 4 8 2"),
        (4, "kind 4, numbers 4 8 2 7"),
    ] {
        let line = format!("formcheck_names \"a\\n1\", {numbers}");
        assert_eq!(shown(&line), wanted);
    }
}

#[test]
fn calls_for_c() {
    let sheet = "S = 1 1 1 0 1 2 | 38 1 0 0 | 32 0";
    let refusing = "1 1 0 0 1 2 | 38 1 0 0 | 32 0";
    let (list, tree) = (r#""a\n""#, "1 1 0 0");
    for (call, wanted) in [
        (format!("names {list}, 4"), "0, numbers 0 1 0 7"),
        (
            format!(r#"read {list}, "<a/>", 5, 3"#),
            "0, numbers 0 1 0: 1 1 0 0 7",
        ),
        (format!("tree 1, {tree}, 3"), "0, numbers 0 1 0"),
        (
            format!(r#"write {list}, "", {tree}, 5, 3"#),
            r#"0, numbers 0 4 0: "<a/>.""#,
        ),
        ("sheet S, 3".to_string(), "0, numbers 0 12 0"),
        (
            "sheet_from_file S.bytes, 0, 3".to_string(),
            "4, numbers 4 22 12:",
        ),
        (format!("judge S, {tree}, 1, 3"), "1, numbers 1 0 2: 1"),
        (
            format!("judge {refusing}, {tree}, 1, 3"),
            "2, numbers 2 0 2: 1",
        ),
        (
            format!("judge 1 1 0 0 1 0, {tree}, 1, 3"),
            "3, numbers 3 0 0: 0",
        ),
        (
            "swap 1 1 1 0 1 0, 6, 3".to_string(),
            "0, numbers 0 6 0: 1 1 0 0 1 0",
        ),
        (
            "join 1 1 0 0 1 0, 1 1 0 0 2 0, 1, 3".to_string(),
            "4, numbers 4 20 2: 7",
        ),
        (
            format!(r#"verdict {list}, S.bytes, "<a/>", 3"#),
            "1, numbers 1 0 2",
        ),
    ] {
        assert_eq!(
            shown(&format!("{sheet}\nformcheck_{call}")),
            format!("kind {wanted}")
        );
    }
}
