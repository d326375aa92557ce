//! Deep, wide and long scripts, on a stack of 4 MB. Each prints its time.

use crate::compare::both;
use harness::program;

/// The bytes that count.
const MOST: usize = 65_536;

/// Runs a script by both, prints its time, and gives its last reply and the number of replies.
fn timed(name: &str, input: &[u8]) -> (String, usize) {
    let ran = program::run(input);
    let seconds = ran.time.as_secs_f64();
    println!("{seconds:7.3} s  {:>9} bytes  {name}", input.len());
    assert!(ran.output == oracle::script::run(input), "{name}");
    let replies = ran.output.lines();
    let last = replies.clone().last().unwrap_or("").to_string();
    (last, replies.count())
}

/// Checks the last reply of a script.
fn last(name: &str, input: &[u8], reply: &str) {
    assert_eq!(timed(name, input).0, reply, "{name}");
}

/// An offer after the alphabet of o and p.
fn offer(record: &str) -> Vec<u8> {
    format!("o 1 p 0\n+ {record}").into_bytes()
}

fn chain(links: usize) -> String {
    "o[".repeat(links) + "p" + &"]".repeat(links)
}

#[test]
fn brackets() {
    let open = offer(&"o[".repeat(32_763));
    assert_eq!(open.len(), MOST);
    last("32,763 opening brackets", &open, "unread");
    let more = offer(&"o[".repeat(400_000));
    last("400,000 opening brackets", &more, "unread");
    let closed = offer(&chain(21_841));
    assert!(closed.len() <= MOST && offer(&chain(21_842)).len() > MOST);
    last("21,841 closed brackets", &closed, "refused 12");
    let cut = offer(&chain(21_842));
    last("21,842 closed brackets, cut", &cut, "unread");
    let links = "o[".repeat(21_843) + "o" + &"]".repeat(21_843);
    let leafless = format!("o 1\n+ {links}");
    assert_eq!(leafless.len(), MOST);
    last(
        "21,843 closed brackets, no leaf",
        leafless.as_bytes(),
        "unread",
    );
    let bare = offer(&("[".repeat(32_000) + &"]".repeat(32_000)));
    last("32,000 closed brackets, no letter", &bare, "unread");
    last(
        "65,000 closing brackets",
        &offer(&"]".repeat(65_000)),
        "unread",
    );
    let pairs = offer(&"o[p]".repeat(16_000));
    last("16,000 records in a row", &pairs, "unread");
}

/// A record whose letters have four children, with so many brackets.
fn wide(brackets: usize) -> String {
    let mut open = String::from("a");
    for _ in 0..brackets {
        // the first leaf that is left becomes a bracket: level by level
        open = open.replacen('a', "g[A,A,A,A]", 1);
        if !open.contains('a') {
            open = open.replace('A', "a");
        }
    }
    open.replace('A', "a")
}

#[test]
fn leaves() {
    let offer = |record: &str| format!("a 0 g 4\n+ {record}").into_bytes();
    let commas = vec!["a"; 30_000].join(",");
    last("30,000 leaves and commas", &offer(&commas), "unread");
    let one = offer(&format!("g[{commas}]"));
    last("30,000 leaves in one bracket", &one, "unread");
    let left = "g[".repeat(7_280) + "a" + &",a,a,a]".repeat(7_280);
    assert!(offer(&left).len() <= MOST);
    last(
        "21,841 leaves, nested at the first",
        &offer(&left),
        "refused 12",
    );
    let right = "g[a,a,a,".repeat(7_280) + "a" + &"]".repeat(7_280);
    last(
        "21,841 leaves, nested at the last",
        &offer(&right),
        "refused 12",
    );
    let spoilt = right.replacen("a]", "a,a]", 1);
    last("the same with a fifth child", &offer(&spoilt), "unread");
    let flat = offer(&wide(1_500));
    last("4,501 leaves, nested everywhere", &flat, "refused 12");
    let taken = offer(&wide(255));
    last("766 leaves, 1,021 symbols", &taken, "ask a");
}

#[test]
fn long_records() {
    last("1,023 o's above a p", &offer(&chain(1_023)), "ask p");
    last("1,024 o's above a p", &offer(&chain(1_024)), "refused 12");
    let asking = offer(&format!("{}\n+ {}", chain(5), chain(1_024)));
    last("the same while asking", &asking, "refused 31");
    let spoilt = offer(&format!("{}x", chain(1_024)));
    last("the same and one letter", &spoilt, "unread");
}

/// A question of 1,024 symbols is written out, one of more is named by its row, and can be answered.
#[test]
fn long_questions() {
    let asked = |links: usize, end: &str| {
        let record = chain(links);
        offer(&format!("{record}\nn\n+ {record}\nn\nn\n{end}"))
    };
    let written = format!("ask {}", chain(1_023));
    assert_eq!(written.len(), 3_074);
    last("a question of 1,024 symbols", &asked(1_022, ""), &written);
    last(
        "a question of 1,025 symbols",
        &asked(1_023, ""),
        "ask row 2048",
    );
    last("its answer", &asked(1_023, "n\n"), "propose 2 2 3");
}

#[test]
fn many_lines() {
    let (end, lines) = timed(
        "`y` on a fresh run",
        &[b"p 0\n", &b"y\n".repeat(32_766)[..]].concat(),
    );
    assert_eq!((end.as_str(), lines), ("refused 31", 32_767));
    let asking = [b"o 1 p 0\n+ o[p]\n", &b"+ o[p]\n".repeat(9_360)[..]].concat();
    let (end, lines) = timed("offers while asking", &asking);
    assert_eq!((end.as_str(), lines), ("refused 31", 9_362));
    let known = [b"o 1 p 0\n+ p\n", &b"+ p\n".repeat(16_381)[..]].concat();
    let (end, lines) = timed("offers that teach nothing", &known);
    assert_eq!((end.as_str(), lines), ("refused 32", 16_383));
    let (end, lines) = timed(
        "empty lines",
        &[b"p 0\n", &b"\n".repeat(65_532)[..]].concat(),
    );
    assert_eq!((end.as_str(), lines), ("unread", 65_533));
    let (end, lines) = timed("one line", &[b"p 0\n", &b"y".repeat(65_532)[..]].concat());
    assert_eq!((end.as_str(), lines), ("unread", 2));
    let (end, lines) = timed("newlines", &b"\n".repeat(MOST));
    assert_eq!((end.as_str(), lines), ("refused 17", 1));
}

/// The bytes past 65,536 are not read, and the line that is cut there is read as it stands.
#[test]
fn long_input() {
    // so many bytes are left for the last line
    let with = |left: usize, end: &[u8]| {
        let mut input = b"o 1 p 0\n".to_vec();
        input.extend(b"\n".repeat(MOST - left - input.len()));
        input.extend(end);
        input
    };
    last("`okay` cut to `ok`", &with(2, b"okay\ny\n"), "accepted");
    last("`ok` cut to `o`", &with(1, b"ok\n"), "unread");
    last("`+ p]` cut to `+ p`", &with(3, b"+ p]\n"), "propose 1 1 1");
    last("`+ o[p]` cut to `+ o[p`", &with(5, b"+ o[p]\n"), "unread");
    let (_, lines) = timed("a newline as byte 65,536", &with(2, b"n\n+ p\n"));
    assert_eq!(lines, 65_528);
    let (_, lines) = timed("a million lines", &b"p 0\n+ p\n".repeat(500_000));
    assert_eq!(lines, MOST / 4);
}

/// The replies to the deepest offers, in full.
#[test]
fn whole_outputs() {
    let twice = offer(&format!("{}\n+ {}\n", chain(10_000), chain(10_000)));
    assert_eq!(both(&twice), "propose 0 0 1\nrefused 12\nrefused 12\n");
}
