//! The stored runs of the survey's examples: every answer and every mark in them is that of the
//! language, and they end with the least automaton for it.

use std::fs;

/// Goes through a stored run with the language as a test of texts.
fn told_truly(name: &str, states: &str, keeps: fn(&str) -> bool) {
    let stored = |end: &str| {
        let path = format!(
            "{}/../examples/scripts/{name}.{end}",
            env!("CARGO_MANIFEST_DIR")
        );
        fs::read_to_string(path).expect("a stored run")
    };
    let (input, output) = (stored("txt"), stored("out"));
    assert_eq!(oracle::script::run(input.as_bytes()), output);
    let mut asked = "";
    for (line, reply) in input.lines().zip(output.lines()).skip(1) {
        match line.split_once(' ') {
            Some((sign, record)) => assert_eq!(sign == "+", keeps(record), "{line}"),
            None if line == "ok" => assert_eq!(reply, "accepted"),
            None => assert_eq!(line == "y", keeps(asked), "{line} to {asked}"),
        }
        asked = reply.strip_prefix("ask ").unwrap_or("");
    }
    let replies: Vec<&str> = output.lines().collect();
    let [.., proposal, "accepted"] = replies[..] else {
        panic!("{name} does not end accepted");
    };
    assert!(
        proposal.starts_with(&format!("propose {states} ")),
        "{proposal}"
    );
}

/// No node has the symbol of its parent.
fn alternates(record: &str) -> bool {
    let mut parents: Vec<char> = Vec::new();
    let mut last = ' ';
    record.chars().all(|byte| {
        match byte {
            '[' => parents.push(last),
            ']' => drop(parents.pop()),
            _ => last = byte,
        }
        "[],".contains(byte) || parents.last() != Some(&byte)
    })
}

/// Some g's over an f, whose first child is some g's over an a, and whose second child is an a.
fn has_one_f(record: &str) -> bool {
    let inside = |text: &str| {
        text.strip_prefix("g[")
            .and_then(|text| text.strip_suffix(']'))
            .map(str::to_string)
    };
    let bare = |text: &str| {
        let mut text = text.to_string();
        while let Some(child) = inside(&text) {
            text = child;
        }
        text
    };
    let below = bare(record);
    let first = below
        .strip_prefix("f[")
        .and_then(|text| text.strip_suffix(",a]"));
    first.is_some_and(|first| bare(first) == "a")
}

/// More than one node, and a b somewhere.
fn has_b(record: &str) -> bool {
    record.len() > 1 && record.contains('b')
}

#[test]
fn example_2_1() {
    told_truly("survey-2-1", "3 7", alternates);
}

#[test]
fn example_2_2() {
    told_truly("survey-2-2", "3 6", has_one_f);
}

#[test]
fn example_2_3() {
    told_truly("survey-2-3", "3 11", has_b);
}
