//! The script program, which `rt run` in crates/script writes to its folder out/, as a process on a stack of 4 MB.

use std::env;
use std::io::Write;
use std::path::PathBuf;
use std::process::{Child, Command, Stdio};
use std::thread;
use std::time::{Duration, Instant};

/// What a run wrote to standard output, and how long it took.
pub struct Ran {
    pub output: String,
    pub time: Duration,
}

/// The program: the one that SCRIPT names, or else that of this repository.
fn path() -> PathBuf {
    let beside = PathBuf::from(env!("CARGO_MANIFEST_DIR"));
    let path = env::var("SCRIPT").unwrap_or_else(|_| "../crates/script/out/script".to_string());
    let path = beside.join(path);
    let shown = path.display();
    assert!(
        path.exists(),
        "{shown} is missing: `rt run` in crates/script writes it"
    );
    path
}

/// A stack of 4 MB, and a minute of computing, after which the program is killed.
const LIMITED: &str = "ulimit -s 4096 && ulimit -t 60 && exec \"$0\"";

/// Starts the program between two pipes.
pub fn started() -> Child {
    Command::new("sh")
        .args(["-c", LIMITED])
        .arg(path())
        .stdin(Stdio::piped())
        .stdout(Stdio::piped())
        .spawn()
        .expect("a shell starts")
}

/// Runs the program on an input that arrives in pieces. It reads no further than it needs, so that
/// the last pieces may find nobody.
pub fn run_in_pieces(pieces: &[&[u8]]) -> Ran {
    let begin = Instant::now();
    let mut program = started();
    let mut stdin = program.stdin.take().expect("standard input is a pipe");
    let ended = thread::scope(|scope| {
        scope.spawn(move || pieces.iter().all(|piece| stdin.write_all(piece).is_ok()));
        program.wait_with_output().expect("the program ends")
    });
    let time = begin.elapsed();
    assert!(
        ended.status.success(),
        "the program ended: {}",
        ended.status
    );
    let output = String::from_utf8(ended.stdout).expect("output is ASCII");
    Ran { output, time }
}

/// Runs the program on an input.
pub fn run(input: &[u8]) -> Ran {
    run_in_pieces(&[input])
}
