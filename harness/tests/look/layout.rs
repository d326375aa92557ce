//! The structs that cross, and the limits by which their arrays are as long, are declared alike by the model,
//! the oracle, the header, the Rust host and SPECIFICATION; and the version is the library's.

use harness::kuldveth;
use oracle::limits::{
    CONTEXTS_MAX, RECORD_MAX, ROWS_MAX, ROW_WORDS, RULES_MAX, STATES_MAX, SYMBOLS_MAX,
};
use oracle::{ACCEPTS, NOT_FINAL, NO_RULE};

/// Each limit under its name in the model and in the oracle, and its number there.
const LIMITS: [(&str, &str, usize); 7] = [
    ("MOST_SYMBOLS", "SYMBOLS_MAX", SYMBOLS_MAX),
    ("ROW_WIDTH", "ROW_WORDS", ROW_WORDS),
    ("MOST_ROWS", "ROWS_MAX", ROWS_MAX),
    ("MOST_STATES", "STATES_MAX", STATES_MAX),
    ("MOST_RULES", "RULES_MAX", RULES_MAX),
    ("MOST_CONTEXTS", "CONTEXTS_MAX", CONTEXTS_MAX),
    ("MOST_LISTED", "RECORD_MAX", RECORD_MAX),
];

/// The structs that calls of a run lend and return.
const RUNS: [&str; 4] = ["Lists", "Seen", "Emitted", "Judged"];

const MODEL: &str = include_str!("../../../crates/model/src/lib.rt");
const MODEL_LIMITS: &str = include_str!("../../../crates/model/src/limits.rt");
const HEADER: &str = include_str!("../../../include/kuldveth.h");
const HOST: &str = include_str!("../../../host/src/lent.rs");
const SPECIFICATION: &str = include_str!("../../../docs/SPECIFICATION.md");

/// The fields of a struct, without their comments.
fn fields(source: &str, name: &str) -> Vec<String> {
    let start = source.find(&format!("pub struct {name} {{")).unwrap();
    let body = &source[start..];
    let lines = body[..body.find("\n}").unwrap()].lines().skip(1);
    lines
        .map(|line| line.trim().to_string())
        .filter(|line| !line.starts_with("//"))
        .collect()
}

/// A field of the oracle's in the model's words.
fn in_the_model(field: String) -> String {
    let put = |field: String, limit: &(&str, &str, usize)| field.replace(limit.1, limit.0);
    LIMITS.iter().fold(field, put).replace("Row", "u16")
}

/// A field of the header in the model's words.
fn of_the_header(field: &str) -> String {
    let (kind, name) = field.trim_end_matches(';').split_once(' ').unwrap();
    let kind = kind.replace("uint", "u").replace("_t", "");
    match name.split_once("[KULDVETH_") {
        Some((name, end)) => format!("pub {name}: [{kind}; {end},"),
        None => format!("pub {name}: {kind},"),
    }
}

/// The fields of a struct of the model, arrays with their numbers: name, type, and how many bytes.
fn model_fields(name: &str) -> Vec<(String, String, usize)> {
    type Limit = (&'static str, &'static str, usize);
    let put = |field: String, limit: &Limit| field.replace(limit.0, &limit.2.to_string());
    let numbered = |field: String| {
        let field = LIMITS.iter().fold(field, put);
        let field = field.trim_start_matches("pub ").trim_end_matches(',');
        let (name, kind) = field.split_once(": ").unwrap();
        (name.to_string(), kind.to_string(), bytes_of(kind))
    };
    fields(MODEL, name).into_iter().map(numbered).collect()
}

/// The bytes of a type: u8, u16, u32, or an array of one of them.
fn bytes_of(kind: &str) -> usize {
    match kind.trim_matches(['[', ']']).split_once("; ") {
        Some((kind, many)) => bytes_of(kind) * many.parse::<usize>().unwrap(),
        None => kind.trim_start_matches('u').parse::<usize>().unwrap() / 8,
    }
}

#[test]
fn fields_are_those_of_the_model() {
    let lent = include_str!("../../../oracle/src/lent.rs");
    for name in RUNS.into_iter().chain(["ListSizes", "Found", "ListRule"]) {
        let oracle: Vec<String> = fields(lent, name).into_iter().map(in_the_model).collect();
        assert_eq!(fields(MODEL, name), oracle);
        assert!(MODEL.contains(&format!("#[repr(C)]\n#[derive(Clone, Copy)]\npub struct {name}")));
    }
}

#[test]
fn limits_are_those_of_the_model() {
    for (model, _, number) in LIMITS {
        let line = format!("\npub const {model}: usize = {number};\n");
        assert!(MODEL_LIMITS.contains(&line), "{model} is {number}");
    }
}

#[test]
fn fields_are_those_of_the_header() {
    for name in RUNS {
        let start = HEADER.find(&format!("struct kuldveth_{} {{", name.to_lowercase()));
        let body = &HEADER[start.unwrap()..];
        let lines = body[..body.find("\n};").unwrap()].lines().skip(1);
        let header: Vec<String> = lines.map(|line| of_the_header(line.trim())).collect();
        assert_eq!(fields(MODEL, name), header);
    }
}

#[test]
fn fields_are_those_of_the_host() {
    let host = HOST.replace("pub(crate) struct", "pub struct");
    for name in RUNS {
        let line = |it: &(String, String, usize)| format!("pub {}: {},", it.0, it.1);
        let model: Vec<String> = model_fields(name).iter().map(line).collect();
        assert_eq!(fields(&host, name), model);
    }
}

/// A section's table of fields has the model's, each aligned and where the one before it ends.
#[test]
fn bytes_are_those_of_the_specification() {
    let sections = [
        ("2.2", "Lists", 1_232),
        ("3.3", "Seen", 10),
        ("3.7", "Emitted", 8),
        ("3.8", "Judged", 4),
    ];
    for (section, name, size) in sections {
        let start = SPECIFICATION.find(&format!("\n### {section} ")).unwrap() + 1;
        let end = SPECIFICATION[start..].find("\n### ").unwrap();
        let rows = SPECIFICATION[start..start + end].lines();
        let rows = rows.filter(|line| line.starts_with(|first: char| first == '|'));
        let (mut at, mut rows) = (0, rows.skip(2));
        for (field, kind, bytes) in model_fields(name) {
            let row = format!("| {at} | {bytes} | `{field}` | `{kind}` |");
            assert!(rows.next().unwrap().starts_with(&row), "{name}: {row}");
            let one = kind.trim_start_matches('[').split(';').next().unwrap();
            assert_eq!(at % bytes_of(one), 0, "{name}: {row}");
            at += bytes;
        }
        assert_eq!((at, rows.next()), (size, None), "{name}");
    }
}

/// The header has the oracle's numbers for the outcomes of a verdict, and SPECIFICATION tells them in that order.
#[test]
fn outcomes_are_those_of_the_header() {
    let names = format!(
        "\nenum {{ KULDVETH_ACCEPTS = {ACCEPTS}, KULDVETH_NOT_FINAL = {NOT_FINAL}, KULDVETH_NO_RULE = {NO_RULE} }};\n"
    );
    let words = format!(
        "| {ACCEPTS} accepted, {NOT_FINAL} not final, {NO_RULE} no rule; 0 beside a refusal |"
    );
    assert!(HEADER.contains(&names) && SPECIFICATION.contains(&words));
}

#[test]
fn versions_are_that_of_the_library() {
    let version = kuldveth::version();
    let line = format!("\npub const VERSION: u32 = {version};\n");
    assert!(MODEL_LIMITS.contains(&line) && HOST.contains(&line));
    assert!(HEADER.contains(&format!("\n#define KULDVETH_VERSION {version}\n")));
    assert!(SPECIFICATION.contains(&format!("\n| {version} | the version")));
}
