//! A script in turns: each line is answered before the next one is written, and what is written does
//! not depend on the pieces in which the input arrives.

use harness::scripts;
use harness::talk::Talk;
use oracle::testing::random::Random;
use oracle::testing::watch::each_case;

/// The bytes that count.
const MOST: usize = 65_536;

/// Writes pieces, and after each waits for the replies to the lines that are whole by then; the rest
/// is a line when the input ends. The replies are the oracle's to the whole input.
fn in_turns(pieces: &[&[u8]]) {
    let input = pieces.concat();
    let output = oracle::script::run(&input);
    let mut due = output.lines();
    let mut talk = Talk::start();
    for piece in pieces {
        talk.write(piece);
        for _ in piece.iter().filter(|&&byte| byte == b'\n') {
            if let Some(reply) = due.next() {
                let shown = String::from_utf8_lossy(&input);
                assert_eq!(talk.reply().as_deref(), Some(reply), "{shown:?}");
            }
        }
    }
    talk.close();
    for reply in due.map(Some).chain([None]) {
        assert_eq!(talk.reply().as_deref(), reply, "at the end");
    }
}

fn lines(input: &[u8]) -> Vec<&[u8]> {
    input.split_inclusive(|&byte| byte == b'\n').collect()
}

/// Pieces of random sizes, most of them small.
fn cut<'a>(input: &'a [u8], random: &mut Random) -> Vec<&'a [u8]> {
    let mut pieces = Vec::new();
    let mut rest = input;
    while !rest.is_empty() {
        let most = *random.pick(&[1, 3, 10, 100, 5_000]);
        let (piece, after) = rest.split_at(random.within(1, most).min(rest.len()));
        pieces.push(piece);
        rest = after;
    }
    pieces
}

#[test]
fn worked_run() {
    let mut talk = Talk::start();
    for (line, reply) in [
        ("o 1 p 0", "propose 0 0 1"),
        ("+ o[p]", "ask p"),
        ("n", "propose 1 1 2"),
        ("+ o[p]", "ask o[o[p]]"),
        ("n", "propose 2 2 2"),
        ("ok", "accepted"),
        ("ok", "refused 31"),
    ] {
        talk.write(line.as_bytes());
        assert!(talk.is_silent(), "an answer to {line} before its newline");
        talk.write(b"\n");
        assert_eq!(talk.reply().as_deref(), Some(reply));
    }
    assert!(talk.is_silent());
    talk.close();
    assert_eq!(talk.reply(), None);
}

#[test]
fn line_by_line() {
    each_case(311, 0..200, |_, random| {
        in_turns(&lines(&scripts::any_lines(random)));
        in_turns(&lines(&scripts::led(random)));
    });
}

#[test]
fn in_pieces() {
    each_case(313, 0..200, |_, random| {
        let any = scripts::any_lines(random);
        in_turns(&cut(&any, random));
        let loose = scripts::loose(random);
        in_turns(&cut(&loose, random));
    });
}

/// Two lines in one piece are both answered, and a newline alone is a line.
#[test]
fn many_at_once() {
    in_turns(&[b"o 1 p 0\n+ o[p]\nn\n+ o", b"[p]\n\n", b"\n", b"n\nok"]);
    in_turns(&[b"", b"p 0"]);
    in_turns(&[b"\n", b"p 0\n"]);
    in_turns(&[]);
}

/// A long line that arrives byte by byte is searched for its newline once.
#[test]
fn slow_line() {
    let line = [&b"o 1 p 0\n+ "[..], &b"o[".repeat(32_000), b"\nok\n"].concat();
    in_turns(&line.chunks(1).collect::<Vec<_>>());
}

/// At byte 65,536 the input ends, though the pipe stays open: the line cut there is answered, and the
/// program ends.
#[test]
fn most_bytes() {
    let filler = MOST - "o 1 p 0\n".len() - "ok".len();
    let input = [&b"o 1 p 0\n"[..], &b"\n".repeat(filler), b"okay\ny\n"].concat();
    for size in [1_000, 4_096, MOST - 1, MOST, MOST + 1] {
        let mut talk = Talk::start();
        input.chunks(size).for_each(|piece| talk.write(piece));
        for reply in oracle::script::run(&input).lines().map(Some).chain([None]) {
            assert_eq!(talk.reply().as_deref(), reply, "pieces of {size}");
        }
    }
}
