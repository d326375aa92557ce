//! `refused 32 K` (8.5): where the record of an offer found no rule, and where 32 comes without a place.

use crate::compare::both;

/// The proposal after these lines keeps p and any o's over it; q and r have no rule.
const LEARNT: &str = "o 1 p 0 q 1 r 0\n+ p\n+ o[p]\n";

/// A record of so many links with a leaf below them; the link at a place, counted from the leaf, is another letter.
fn chain(links: usize, place: usize) -> String {
    let link = |at: usize| if at == place { "q[" } else { "o[" };
    let leaf = if place == 0 { "r" } else { "p" };
    let open: String = (1..=links).rev().map(link).collect();
    open + leaf + &"]".repeat(links)
}

/// Places of one to four digits, up to the last of 1,024 symbols; a second q above the first changes nothing.
#[test]
fn every_width() {
    let places = [0, 1, 9, 10, 11, 99, 100, 255, 256, 999, 1_000, 1_022, 1_023];
    for links in [1_022, 1_023] {
        let places = places.into_iter().filter(|&place| place <= links);
        let mut input = LEARNT.to_string();
        let mut output = String::from("propose 0 0 1\npropose 1 1 1\npropose 1 2 1\n");
        for place in places {
            input += &format!("- {}\n", chain(links, place));
            output += &format!("refused 32 {place}\n");
        }
        input += "- q[o[q[p]]]\n- q[o[o[r]]]\n";
        output += "refused 32 1\nrefused 32 0\n";
        assert_eq!(both(input.as_bytes()), output);
    }
}

/// After a yes, and where the root of the record gets a state, there is no place; nor beside another number.
#[test]
fn without_a_place() {
    let turns = [
        ("o 1 p 0", "propose 0 0 1"),
        ("- o[p]", "refused 32 0"),
        ("+ o[p]", "ask p"),
        ("- o[p]", "refused 31"),
        ("n", "propose 1 1 2"),
        ("- p", "refused 32"),
        ("- o[o[p]]", "refused 32 1"),
        ("- o[p]", "refused 33"),
        ("+ o[p]", "ask o[o[p]]"),
        ("n", "propose 2 2 2"),
        ("+ o[p]", "refused 32"),
        ("- p", "refused 32"),
        ("- o[o[o[p]]]", "refused 32 2"),
        ("ok", "accepted"),
        ("- p", "refused 31"),
    ];
    let (lines, replies): (Vec<&str>, Vec<&str>) = turns.into_iter().unzip();
    let output = both(lines.join("\n").as_bytes());
    assert_eq!(output.lines().collect::<Vec<_>>(), replies);
}
