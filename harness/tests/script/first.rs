//! First lines (8.2): read, refused and unread. After the last two nothing is printed.

use crate::compare::both;

#[test]
fn first_lines() {
    for (line, reply) in [
        (&b"o 1 p 0"[..], "propose 0 0 1"),
        (b"p 0", "propose 0 0 1"),
        (b"o 4", "propose 0 0 1"),
        (b"O 0 o 0", "propose 0 0 1"),
        (b"", "refused 17"),
        (b"o 5 p 0", "refused 17"),
        (b"p 0 o 9", "refused 17"),
        (b"o 1 o 0", "unread"),
        (b"o 9 o 0", "unread"),
        (b"o 1 p 0 o 1", "unread"),
        (b"o", "unread"),
        (b"o ", "unread"),
        (b"o 1 p", "unread"),
        (b"o 1 p ", "unread"),
        (b"1 o", "unread"),
        (b"o p", "unread"),
        (b"1 1", "unread"),
        (b"o 1 0 p", "unread"),
        (b" ", "unread"),
        (b" o 1", "unread"),
        (b"o 1 ", "unread"),
        (b"o  1", "unread"),
        (b"o 1  p 0", "unread"),
        (b"o1", "unread"),
        (b"o 1p 0", "unread"),
        (b"o 10", "unread"),
        (b"oo 1", "unread"),
        (b"o -1", "unread"),
        (b"+ 1", "unread"),
        (b"[ 1", "unread"),
        (b"_ 0", "unread"),
        (b"@ 0", "unread"),
        (b"` 0", "unread"),
        (b"{ 0", "unread"),
        (b"o /", "unread"),
        (b"o :", "unread"),
        (b"o\t1", "unread"),
        (b"o 1\tp 0", "unread"),
        (b"o 1\r", "unread"),
        (b"\xC3\xA9 1", "unread"),
        (b"\xFF 1", "unread"),
        (b"o 1 \0 0", "unread"),
        (b"o \xB1", "unread"),
    ] {
        let shown = String::from_utf8_lossy(line);
        let over = reply != "propose 0 0 1";
        let after = if over { "" } else { "refused 31\nunread\n" };
        let input = [line, b"\ny\n?\n"].concat();
        assert_eq!(both(&input), format!("{reply}\n{after}"), "{shown:?}");
        // the line by itself is no line where it is empty
        let alone = if line.is_empty() {
            String::new()
        } else {
            format!("{reply}\n")
        };
        assert_eq!(both(line), alone, "{shown:?} without a newline");
    }
}

/// All 52 letters, then one of them again.
#[test]
fn all_letters() {
    let letters = (b'a'..=b'z').chain(b'A'..=b'Z');
    let items: Vec<String> = letters
        .map(|letter| format!("{} 0", letter as char))
        .collect();
    let line = items.join(" ");
    assert_eq!(
        both(format!("{line}\n+ Z\n").as_bytes()),
        "propose 0 0 1\npropose 1 1 1\n"
    );
    assert_eq!(both(format!("{line} a 0\n").as_bytes()), "unread\n");
}
