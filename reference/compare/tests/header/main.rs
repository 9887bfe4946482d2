//! The header include/jangoripu.h beside the declarations and the constants of include/jangoripu.rs, which the proved calls are linked by,
//! and beside the constants and the refusals of the separately written program.

mod declarations;
mod refusals;

use compare::calls::stacks::measured;
use compare::harness::stack::depth;
use declarations::{c_calls, constant_differences, constants, differences};
use declarations::{rust_calls, rust_constants, Type};
use reference::assignment::{ASSIGNMENT_BOUNDS, ASSIGNMENT_TEXT};
use reference::graph::{MOST_BOUND, MOST_EDGES, MOST_GENERAL, MOST_PRICE};
use reference::graph::{MOST_SETS, MOST_SIDE, MOST_VERTICES, MOST_WEIGHT};
use reference::measure::{EDGE_WORDS, VERTEX_WORDS};
use reference::price::MOST_DOUBLED_EDGES;
use reference::read::MOST_NUMBERS;
use reference::solve::WORKSPACE;
use reference::text::{MOST_LINE, MOST_TEXT};
use reference::tidy::SHEET_TEXT;
use reference::write::PLAN_TEXT;
use reference::{index_length, Graph, Kind};
use std::collections::{BTreeMap, BTreeSet};
use std::fs;
use std::hint::black_box;
use std::path::Path;

fn included(name: &str) -> String {
    let root = concat!(env!("CARGO_MANIFEST_DIR"), "/../..");
    fs::read_to_string(format!("{root}/include/{name}")).unwrap()
}

fn header() -> String {
    included("jangoripu.h")
}

/// The Rust layer, whose declarations the comparisons are linked by.
fn layer() -> String {
    included("jangoripu.rs")
}

/// All Rust files of a folder and of those in it, one after the other.
fn rust_files(folder: &Path) -> String {
    let entries = fs::read_dir(folder).unwrap();
    let paths = entries.map(|entry| entry.unwrap().path());
    paths
        .map(|path| match path.extension() {
            _ if path.is_dir() => rust_files(&path),
            Some(extension) if extension == "rs" => fs::read_to_string(path).unwrap() + "\n",
            _ => String::new(),
        })
        .collect()
}

fn header_constants() -> BTreeMap<String, i64> {
    let listed = constants(&header()).unwrap();
    let named: BTreeMap<_, _> = listed.iter().cloned().collect();
    assert_eq!(named.len(), listed.len(), "a name stands there twice");
    named
}

#[test]
fn the_calls_are_linked_as_the_header_declares_them() {
    let (c, rust) = (c_calls(&header()).unwrap(), rust_calls(&layer()).unwrap());
    assert!(!c.is_empty());
    assert_eq!(differences(&c, &rust), [""; 0]);
}

/// The comparisons declare no call themselves.
#[test]
fn the_calls_are_declared_once() {
    let source = rust_files(&Path::new(env!("CARGO_MANIFEST_DIR")).join("src"));
    assert!(source.contains("jangoripu_solve(") && source.contains("include/jangoripu.rs"));
    assert!(!source.contains("extern \"C\""));
}

#[test]
fn the_layer_has_the_constants_of_the_header() {
    let (c, rust) = (
        constants(&header()).unwrap(),
        rust_constants(&layer()).unwrap(),
    );
    assert!(!c.is_empty());
    assert_eq!(constant_differences("JANGORIPU_", &c, &rust), [""; 0]);
}

/// The calls' names begin with the library's, and no inline function has one of them.
#[test]
fn the_calls_have_names_of_their_own() {
    let header = header();
    for call in c_calls(&header).unwrap() {
        assert!(call.name.starts_with("jangoripu_"), "{}", call.name);
        let inline = format!("static inline uint32_t {}(", call.name);
        assert!(!header.contains(&inline), "{}", call.name);
    }
}

const C: &str = "
    /* A call; and a remark: uint32_t not_declared(void); */
    #ifdef __cplusplus
    extern \"C\" {
    #endif
    #define LENGTH 2 /* in numbers */
    #define VERSION \"1.2.3\"
    #define BOTH(a, b) \\
        a, b
    enum sorts { FIRST, SECOND = 4, THIRD };
    typedef struct pair {
        int32_t a, b;
    } pair;
    uint32_t solve(bool general, const uint32_t *row, size_t row_len, int32_t *out, size_t out_len,
                   uint64_t answer[2]);
    uint32_t mark(const uint64_t *words, size_t words_len, int64_t *place);
    static inline uint32_t twice(uint32_t number) {
        if (number > 4) {
            return 4;
        }
        return 2 * number;
    }
    #ifdef __cplusplus
    }
    #endif
";

const RUST: &str = "
    // A remark: extern and fn.
    extern \"C\" {
        fn mark(words: *const u64, words_len: usize, place: *mut i64) -> u32;
        fn solve(
            general: bool, // a truth value
            row: *const u32,
            row_len: usize,
            out: *mut i32,
            out_len: usize,
            answer: *mut [u64; 2],
        ) -> u32;
    }
    fn not_linked(number: u32) -> u32 {
        number
    }
";

/// What differs if a text in C and one in Rust are altered so.
fn altered(c: (&str, &str), rust: (&str, &str)) -> Vec<String> {
    assert!(C.contains(c.0) && RUST.contains(rust.0));
    let c = c_calls(&C.replacen(c.0, c.1, 1)).unwrap();
    let rust = rust_calls(&RUST.replacen(rust.0, rust.1, 1)).unwrap();
    differences(&c, &rust)
}

const AS_IT_IS: (&str, &str) = ("", "");

#[test]
fn declarations_are_read() {
    let calls = c_calls(C).unwrap();
    assert_eq!(calls.len(), 2);
    let solve = &calls[0];
    assert_eq!(
        (solve.name.as_str(), &solve.result),
        ("solve", &Type::Plain("u32"))
    );
    let pointer = |written, to, count| Type::Pointer { written, to, count };
    let expected = [
        ("general", Type::Plain("bool")),
        ("row", pointer(false, "u32", None)),
        ("row_len", Type::Plain("usize")),
        ("out", pointer(true, "i32", None)),
        ("out_len", Type::Plain("usize")),
        ("answer", pointer(true, "u64", Some(2))),
    ];
    let expected = expected.map(|(name, kind)| (name.to_string(), kind));
    assert_eq!(solve.parameters, expected);
    let calls = rust_calls(RUST).unwrap();
    assert_eq!(calls[1], *solve);
    assert_eq!(calls.len(), 2);
}

#[test]
fn the_same_declarations_do_not_differ() {
    assert_eq!(altered(AS_IT_IS, AS_IT_IS), [""; 0]);
    assert_eq!(altered(AS_IT_IS, ("*mut [u64; 2]", "*mut u64")), [""; 0]);
}

#[test]
fn a_difference_is_told() {
    for (from, to) in [
        ("bool general", "uint8_t general"),
        ("bool general", "bool *general"),
        ("const uint32_t *row", "uint32_t *row"),
        ("const uint32_t *row", "const int32_t *row"),
        ("const uint32_t *row", "uint32_t row"),
        ("size_t row_len", "uint64_t row_len"),
        ("size_t row_len", "size_t rows"),
        ("int32_t *out", "const int32_t *out"),
        ("int32_t *out", "uint32_t *out"),
        ("bool general, ", ""),
        ("bool general", "bool general, bool all"),
        (
            "int32_t *out, size_t out_len",
            "size_t out_len, int32_t *out",
        ),
        (
            "const uint32_t *row, size_t row_len, int32_t *out",
            "int32_t *out, const uint32_t *row, size_t row_len",
        ),
        ("answer[2]", "answer[3]"),
        ("uint64_t answer[2]", "uint64_t *answer"),
        ("uint64_t answer[2]", "int64_t answer[2]"),
        ("uint64_t answer[2]", "const uint64_t answer[2]"),
        (", int64_t *place", ""),
        ("uint32_t solve", "uint64_t solve"),
        ("uint32_t solve", "uint32_t settle"),
        ("typedef", "uint32_t more(bool general);\ntypedef"),
        ("typedef", "uint32_t mark(bool general);\ntypedef"),
    ] {
        assert_ne!(altered((from, to), AS_IT_IS), [""; 0], "{from} as {to}");
    }
    for (from, to) in [
        ("general: bool", "general: u8"),
        ("general: bool", "general: *const bool"),
        ("row: *const u32", "row: *mut u32"),
        ("row: *const u32", "row: *const u64"),
        ("row: *const u32", "row: *const [u32; 2]"),
        ("row: *const u32", "row: u32"),
        ("row_len: usize", "row_len: u64"),
        ("row_len: usize", "rows: usize"),
        ("out: *mut i32,", ""),
        ("out_len: usize", "out_len: usize, more: bool"),
        ("out: *mut i32,", "out_len: usize, out: *mut i32,"),
        ("[u64; 2]", "[u64; 3]"),
        ("[u64; 2]", "[i64; 2]"),
        ("*mut [u64; 2]", "*const u64"),
        ("place: *mut i64) -> u32", "place: *mut i64) -> u64"),
        ("fn mark", "fn measure"),
        ("fn mark", "fn more() -> u32;\nfn mark"),
        ("fn mark", "fn solve() -> u32;\nfn mark"),
    ] {
        assert_ne!(altered(AS_IT_IS, (from, to)), [""; 0], "{from} as {to}");
    }
}

/// A call that only one of the two has is told, whichever it is.
#[test]
fn a_call_left_out_is_told() {
    let (c, rust) = (c_calls(C).unwrap(), rust_calls(RUST).unwrap());
    assert_eq!(differences(&c[1..], &rust), ["solve: not in C"]);
    assert_eq!(differences(&c, &rust[1..]), ["mark: not in Rust"]);
    assert_eq!(differences(&[], &rust).len(), 2);
    assert_eq!(differences(&c, &[]).len(), 2);
}

/// What cannot be read is not passed over.
#[test]
fn what_is_no_declaration_is_told() {
    for (from, to) in [
        ("bool general", "long general"),
        ("bool general", "bool"),
        ("uint32_t *row", "uint32_t **row"),
        ("answer[2]", "answer[N]"),
        ("uint32_t solve", "solve"),
        ("typedef", "extern int errno_of;\ntypedef"),
        ("static inline", "inline"),
        ("in numbers */", "in numbers"),
        ("in numbers */\n", "in numbers */\nuint32_t more"),
    ] {
        assert!(C.contains(from));
        assert!(c_calls(&C.replacen(from, to, 1)).is_err(), "{from} as {to}");
    }
    for (from, to) in [
        ("general: bool", "general: c_int"),
        ("general: bool", "bool"),
        ("row: *const u32", "row: &u32"),
        ("[u64; 2]", "[u64; N]"),
        (") -> u32;", ");"),
        ("fn mark", "static mark"),
        ("fn mark", "#[link_name = \"other\"]\nfn mark"),
    ] {
        assert!(RUST.contains(from));
        assert!(
            rust_calls(&RUST.replacen(from, to, 1)).is_err(),
            "{from} as {to}"
        );
    }
}

#[test]
fn constants_are_read() {
    let expected = [("LENGTH", 2), ("FIRST", 0), ("SECOND", 4), ("THIRD", 5)];
    let expected = expected.map(|(name, value)| (name.to_string(), value));
    assert_eq!(constants(C).unwrap(), expected);
    assert!(constants(&C.replace("LENGTH 2", "LENGTH two")).is_err());
    assert!(constants(&C.replace("SECOND = 4", "SECOND = FIRST")).is_err());
    for text in ["\"1.2.3", "1.2.3", "\""] {
        assert!(constants(&C.replace("\"1.2.3\"", text)).is_err(), "{text}");
    }
}

const NAMED: &str = "
    /// A remark: pub const FOURTH: u32 = 6;
    pub const LENGTH: usize = 2; // in numbers
    pub mod inner {
        pub const FIRST: u32 = 0;
        pub const SECOND: u32 = 4;
    }
    impl Sorts {
        pub const THIRD: i32 = 5;
    }
    const NOT_NAMED: u32 = 7;
";

/// What differs if the names in C and in Rust are altered so.
fn renamed(c: (&str, &str), rust: (&str, &str)) -> Vec<String> {
    assert!(C.contains(c.0) && NAMED.contains(rust.0));
    let c = constants(&C.replacen(c.0, c.1, 1)).unwrap();
    let c = c.iter().map(|(name, value)| (format!("C_{name}"), *value));
    let c: Vec<_> = c.collect();
    let rust = rust_constants(&NAMED.replacen(rust.0, rust.1, 1)).unwrap();
    constant_differences("C_", &c, &rust)
}

#[test]
fn a_constant_that_differs_is_told() {
    assert_eq!(renamed(AS_IT_IS, AS_IT_IS), [""; 0]);
    assert_eq!(renamed(AS_IT_IS, ("= 4", "= 0_4")), [""; 0]);
    for (from, to) in [
        ("LENGTH 2", "LENGTH 3"),
        ("LENGTH 2", "LENGTHS 2"),
        ("LENGTH 2", "LENGTH"),
        ("SECOND = 4", "SECOND"),
        ("THIRD", "THIRD, FOURTH"),
        (", THIRD", ""),
    ] {
        assert_ne!(renamed((from, to), AS_IT_IS), [""; 0], "{from} as {to}");
    }
    for (from, to) in [
        ("= 2;", "= 3;"),
        ("LENGTH: usize", "LONG: usize"),
        ("pub const LENGTH", "const LENGTH"),
        ("pub const SECOND: u32 = 4;", ""),
        ("= 5;", "= 5_0;"),
        ("const NOT_NAMED", "pub const NAMED"),
        ("const NOT_NAMED: u32 = 7", "pub const FIRST: u32 = 0"),
        ("= 7;", "= 7;\npub const FIRST: u32 = 1;"),
    ] {
        assert_ne!(renamed(AS_IT_IS, (from, to)), [""; 0], "{from} as {to}");
    }
    for (from, to) in [
        ("= 2;", "= FIRST;"),
        ("= 2;", "= 1 + 1;"),
        ("= 4;", "="),
        ("THIRD: i32", "THIRD: isize"),
        ("THIRD: i32 = 5", "THIRD: i32 = -5"),
    ] {
        assert!(NAMED.contains(from));
        let altered = NAMED.replacen(from, to, 1);
        assert!(rust_constants(&altered).is_err(), "{from} as {to}");
    }
}

/// The length of an index of as many vertices and edges as a graph may have.
fn longest_index() -> u64 {
    index_length(&Graph {
        kind: Kind::General,
        rows: MOST_GENERAL,
        columns: MOST_GENERAL,
        edges: MOST_EDGES,
        row: &[],
        column: &[],
        weight: &[],
    })
}

/// What the header calls each constant of the separately written program.
fn own_constants() -> Vec<(&'static str, i64)> {
    vec![
        ("MOST_SIDE", MOST_SIDE.into()),
        ("MOST_VERTICES", MOST_VERTICES as i64),
        ("MOST_VERTICES", MOST_GENERAL.into()),
        ("MOST_EDGES", MOST_EDGES.into()),
        ("MOST_DOUBLED_EDGES", MOST_DOUBLED_EDGES.into()),
        ("ASSIGNMENT_BOUNDS", ASSIGNMENT_BOUNDS as i64),
        ("MOST_NUMBERS", MOST_NUMBERS.into()),
        ("LONGEST_INDEX", longest_index() as i64),
        ("GREATEST_WEIGHT", MOST_WEIGHT.into()),
        ("GREATEST_BOUND", MOST_BOUND.into()),
        ("GREATEST_PRICE", MOST_PRICE.into()),
        ("MOST_SETS", MOST_SETS.into()),
        ("VERTEX_WORDS", VERTEX_WORDS as i64),
        ("EDGE_WORDS", EDGE_WORDS as i64),
        ("LONGEST_TEXT", MOST_TEXT as i64),
        ("LONGEST_LINE", MOST_LINE as i64),
        ("SUBGRAPH_BYTES", PLAN_TEXT as i64),
        ("GRAPH_BYTES", SHEET_TEXT as i64),
        ("GRAPH_BYTES", ASSIGNMENT_TEXT as i64),
        ("WORKSPACE_NUMBERS", WORKSPACE as i64),
    ]
}

/// The numbers that are told, in the order in which the comparisons take them.
const TOLD: [(&str, &[&str]); 3] = [
    (
        "GRAPH",
        &["PLACE", "KIND", "ROWS", "COLUMNS", "EDGES", "TOLD"],
    ),
    ("TEXT", &["PLACE", "BYTES", "TOLD"]),
    (
        "MEASURED",
        &[
            "WEIGHT", "TOTAL", "VERTICES", "SETS", "EDGES", "COVER", "GAP", "TOLD",
        ],
    ),
];

/// The constant of the header that is measured.
const MEASURED: &str = "JANGORIPU_STACK";

#[test]
fn the_constants_are_those_of_the_separately_written_program() {
    let mut expected = BTreeMap::new();
    for (name, value) in own_constants() {
        let earlier = expected.insert(format!("JANGORIPU_{name}"), value);
        assert!(earlier.is_none_or(|earlier| earlier == value), "{name}");
    }
    for (what, names) in TOLD {
        let names = names.iter().zip(0..);
        expected.extend(names.map(|(name, at)| (format!("JANGORIPU_{what}_{name}"), at)));
    }
    for (name, value) in refusals::numbers() {
        expected.insert(format!("JANGORIPU_{name}"), value.into());
    }
    let mut found = header_constants();
    found.remove(MEASURED);
    assert_eq!(found, expected);
}

/// An array that a call tells numbers in is as long as the header's names of its places say.
#[test]
fn told_numbers_have_places() {
    let constants = header_constants();
    for call in c_calls(&header()).unwrap() {
        for (parameter, kind) in call.parameters {
            let Type::Pointer {
                count: Some(count), ..
            } = kind
            else {
                continue;
            };
            let what = match (call.name.as_str(), parameter.as_str()) {
                (_, "numbers") => "MEASURED",
                ("jangoripu_read_graph" | "jangoripu_read_assignment", "answer") => "GRAPH",
                (_, "answer") => "TEXT",
                other => panic!("{other:?}"),
            };
            let told = constants[&format!("JANGORIPU_{what}_TOLD")];
            assert_eq!(count as i64, told, "{}", call.name);
        }
    }
}

/// Every call that is declared is measured, and none takes more stack than the header names.
#[test]
fn the_stack_is_enough_for_each_call() {
    let named = header_constants()[MEASURED] as usize;
    let measured: BTreeMap<_, _> = measured().into_iter().collect();
    let calls = c_calls(&header()).unwrap();
    let declared: BTreeSet<_> = calls.iter().map(|call| call.name.as_str()).collect();
    assert!(measured.keys().copied().eq(declared), "{measured:?}");
    for (call, bytes) in measured {
        assert!(bytes <= named, "{call}: {bytes} of {named}");
    }
}

/// What is measured is what a function takes, and little more.
#[test]
fn the_stack_of_a_function_is_measured() {
    let nothing = depth(|| {});
    let filled = depth(|| {
        black_box([7u8; 20_000]);
    });
    assert!(nothing < 1_000, "{nothing}");
    assert!((20_000..22_000).contains(&filled), "{filled}");
}
