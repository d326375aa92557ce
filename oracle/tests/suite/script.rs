//! The script program, line by line and at its corners.

use oracle::script::run;
use oracle::testing::watch::each_case;

fn output(input: &str) -> String {
    run(input.as_bytes())
}

/// The last output line.
fn last(input: &[u8]) -> String {
    let all = run(input);
    all.lines().last().unwrap_or("").to_string()
}

#[test]
fn the_run() {
    let expected = "propose 0 0 1\nask p\npropose 1 1 2\nask o[o[p]]\npropose 2 2 2\naccepted\n";
    let input = "o 1 p 0\n+ o[p]\nn\n+ o[p]\nn\nok";
    assert_eq!(output(input), expected);
    assert_eq!(output(&format!("{input}\n")), expected);
    let after = output(&format!("{input}\nok\ny\n+ p\n\n"));
    assert_eq!(
        after,
        format!("{expected}refused 31\nrefused 31\nrefused 31\nunread\n")
    );
}

#[test]
fn first_lines() {
    for (input, expected) in [
        ("", ""),
        ("\n", "refused 17\n"),
        ("\nn\n", "refused 17\n"),
        ("o 1 p 0", "propose 0 0 1\n"),
        ("o 4 p 0\n", "propose 0 0 1\n"),
        ("o 5 p 0\nn\n", "refused 17\n"),
        ("o 9", "refused 17\n"),
        ("o 1 o 0\n", "unread\n"),
        ("o 9 o 0\n", "unread\n"),
        ("o 1 p\n", "unread\n"),
        ("o\n", "unread\n"),
        ("1 o\n", "unread\n"),
        (" o 1\n", "unread\n"),
        ("o 1 \n", "unread\n"),
        ("o  1\n", "unread\n"),
        (" \n", "unread\n"),
        ("o\t1\n", "unread\n"),
        ("o 1\r\n", "unread\n"),
        ("o 10\n", "unread\n"),
        ("oo 1\n", "unread\n"),
        ("é 1\n", "unread\n"),
        ("+ 1\n", "unread\n"),
        ("O 0 o 0\n", "propose 0 0 1\n"),
    ] {
        assert_eq!(output(input), expected, "{input:?}");
    }
    let letters = (b'a'..=b'z').chain(b'A'..=b'Z');
    let line: Vec<String> = letters
        .map(|letter| format!("{} 0", letter as char))
        .collect();
    assert_eq!(output(&line.join(" ")), "propose 0 0 1\n");
}

#[test]
fn unread_lines() {
    let lines =
        "||+|-|+ |y | y|Y|yes|y\r|ok |OK|+p|+  p|+ p |+ p[]|+ o|+ o[]|+ o[p,p]|+ o[p|+ o[p]]|\
        + o[ p]|+ q|+ o[q]|+ b[p]|* p|+ b[p,p,p]|+ b[,p]|+ b[p,]|+ [p]|+ p,p|+ p]|?|+ o[p]x|\
        o 1 p 0|\0|+ b[p p]|+ o(p)|n n";
    for line in lines.split('|') {
        let input = format!("o 1 p 0 b 2\n{line}\n");
        assert_eq!(output(&input), "propose 0 0 1\nunread\n", "{line:?}");
    }
    let input = b"o 1 p 0\n+ \xFF\n+ p\n";
    assert_eq!(run(input), "propose 0 0 1\nunread\npropose 1 1 1\n");
}

/// Letters beyond the first brackets, several children, capitals.
#[test]
fn read_lines() {
    let told = |line: &str| last(format!("o 1 p 0 b 2 Z 0\n{line}\n").as_bytes());
    assert_eq!(told("+ b[o[Z],p]"), "ask Z");
    assert_eq!(told("+ b[p,o[Z]]\nn\n+ b[p,o[Z]]"), "ask b[p,o[p]]");
    assert_eq!(told("+ p"), "propose 1 1 1");
}

#[test]
fn refusals() {
    let told = |lines: &str| last(format!("o 1 p 0\n{lines}").as_bytes());
    assert_eq!(told("- o[p]"), "refused 32 0");
    assert_eq!(told("y"), "refused 31");
    assert_eq!(told("n"), "refused 31");
    assert_eq!(told("+ o[p]\nok"), "refused 31");
    assert_eq!(told("+ o[p]\n+ p"), "refused 31");
    assert_eq!(told("+ o[p]\nn\n+ p"), "refused 33");
    assert_eq!(told("+ o[p]\nn\n- o[p]"), "refused 33");
    assert_eq!(told("ok"), "accepted");
}

/// A place is told where a record is refused because a symbol found no rule.
#[test]
fn places() {
    let told = |lines: &str| last(format!("o 1 p 0\n{lines}").as_bytes());
    assert_eq!(told("- p"), "refused 32 0");
    assert_eq!(told("+ o[p]\nn\n- p"), "refused 32", "not final");
    assert_eq!(told("+ o[p]\nn\n- o[o[p]]"), "refused 32 1");
    let learnt = "+ o[p]\nn\n+ o[p]\nn\n";
    assert_eq!(told(&format!("{learnt}- o[o[o[p]]]")), "refused 32 2");
    assert_eq!(told(&format!("{learnt}+ o[p]")), "refused 32", "accepted");
    assert_eq!(told(&format!("{learnt}- o[p]")), "refused 33");
    assert_eq!(told(&format!("{learnt}ok\n- o[o[p]]")), "refused 31");
    let fan = "+ p\n+ b[p,p]\n- ";
    let told = |lines: String| last(format!("b 2 p 0 q 0\n{lines}").as_bytes());
    assert_eq!(told(format!("{fan}b[b[p,p],b[q,p]]")), "refused 32 3");
    assert_eq!(told(format!("{fan}b[b[p,q],b[q,p]]")), "refused 32 1");
}

/// One output line for each input line, whatever the lines are.
#[test]
fn random_lines() {
    let words = [
        "y", "n", "ok", "+ ", "- ", "o[", "p", "]", ",", "b[", "q", "\n", "\n", "\n", " ", "[",
        "\u{e9}",
    ];
    each_case(61, 0..20_000, |_, random| {
        let mut input = "o 1 p 0 b 2\n".to_string();
        (0..random.below(30)).for_each(|_| input += *random.pick::<&str>(&words));
        let told = output(&input);
        assert_eq!(told.lines().count(), input.lines().count(), "{input:?}");
        let known = |line: &str| {
            let first = line.split(' ').next().unwrap_or("");
            ["propose", "ask", "accepted", "refused", "unread"].contains(&first)
        };
        assert!(told.lines().all(known), "{input:?} gave {told:?}");
        for number in [11, 13, 14, 15, 16, 18, 30] {
            assert!(!told.contains(&format!("refused {number}")), "{input:?}");
        }
        for (line, reply) in input.lines().zip(told.lines()) {
            if let Some(place) = reply.strip_prefix("refused 32 ") {
                let symbols = line.chars().filter(char::is_ascii_alphabetic).count();
                let place: usize = place.parse().expect("a number");
                assert!(line.starts_with("- ") && place < symbols, "{input:?}");
            }
        }
    });
}

fn chain(links: usize) -> String {
    format!("{}p{}", "o[".repeat(links), "]".repeat(links))
}

#[test]
fn long_records() {
    let told = |lines: &str| last(format!("o 1 p 0 b 2\n{lines}").as_bytes());
    assert_eq!(told(&format!("+ {}", chain(1_023))), "ask p");
    assert_eq!(told(&format!("+ {}", chain(1_024))), "refused 12");
    assert_eq!(
        told(&format!("+ {}\n+ {}", chain(5), chain(1_024))),
        "refused 31"
    );
    assert_eq!(told(&format!("+ {}x", chain(1_024))), "unread");
}

#[test]
fn deep_lines() {
    let open = format!("o 1 p 0\n+ {}", "o[".repeat(40_000));
    assert_eq!(last(open.as_bytes()), "unread");
    let closed = format!("o 1 p 0\n+ {}", chain(21_841));
    assert_eq!(closed.len(), 8 + 2 + 3 * 21_841 + 1);
    assert_eq!(last(closed.as_bytes()), "refused 12");
    let leaves = format!(
        "b 4 p 0\n+ {}p{}",
        "b[p,p,p,".repeat(6_000),
        "]".repeat(6_000)
    );
    assert_eq!(last(leaves.as_bytes()), "refused 12");
    let brackets = format!("o 1 p 0\n{}", "[".repeat(60_000));
    assert_eq!(last(brackets.as_bytes()), "unread");
}

/// Only the first 65,536 bytes count; the line cut there is read as it stands.
#[test]
fn input_is_cut() {
    let mut input = b"o 1 p 0\n".to_vec();
    while input.len() < 65_536 - 3 {
        input.extend(b"y\n");
    }
    input.truncate(65_536 - 2);
    assert_eq!(input.last(), Some(&b'\n'));
    let lines = run(&input).lines().count();
    let cut = [&input[..], b"okay then\n"].concat();
    assert_eq!(last(&cut), "accepted");
    assert_eq!(run(&cut).lines().count(), lines + 1);
    let exact = [&input[..], b"n\n+ p\n"].concat();
    assert_eq!(
        run(&exact).lines().count(),
        lines + 1,
        "an empty rest is no line"
    );
}

/// A question of exactly 1,024 symbols is written out, one of more is named by its row.
#[test]
fn questions_by_row() {
    let asked = |links: usize| {
        let offer = format!("+ {}", chain(links));
        last(format!("o 1 p 0\n{offer}\nn\n{offer}\nn\nn\n").as_bytes())
    };
    assert_eq!(asked(5), format!("ask {}", chain(6)));
    assert_eq!(asked(1_022), format!("ask {}", chain(1_023)));
    assert_eq!(asked(1_023), "ask row 2048");
}
