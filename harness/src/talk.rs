//! The script program at the other end of two pipes: bytes are written, and a reply is waited for
//! before more are. Every wait has a limit.

use crate::program;
use std::io::{BufRead, BufReader, Write};
use std::process::{Child, ChildStdin};
use std::sync::mpsc::{channel, Receiver, RecvTimeoutError};
use std::thread;
use std::time::Duration;

/// How long a reply may take.
const LIMIT: Duration = Duration::from_secs(60);

/// How long nothing must come where nothing is due.
const MOMENT: Duration = Duration::from_millis(20);

/// A running program. Its process ends with it.
pub struct Talk {
    program: Child,
    input: Option<ChildStdin>,
    replies: Receiver<String>,
}

impl Talk {
    /// Starts the program. A thread reads what it writes, line after line.
    pub fn start() -> Talk {
        let mut program = program::started();
        let input = program.stdin.take();
        let output = program.stdout.take().expect("standard output is a pipe");
        let (sender, replies) = channel();
        thread::spawn(move || {
            let lines = BufReader::new(output).lines();
            lines
                .map_while(Result::ok)
                .all(|line| sender.send(line).is_ok())
        });
        Talk {
            program,
            input,
            replies,
        }
    }

    /// Writes bytes. They may find nobody once the program has read as much as it reads.
    pub fn write(&mut self, bytes: &[u8]) {
        let input = self.input.as_mut().expect("the input is open");
        let _ = input.write_all(bytes);
    }

    /// Ends the input.
    pub fn close(&mut self) {
        self.input = None;
    }

    /// The next reply, for which it waits; none if the program ended.
    pub fn reply(&mut self) -> Option<String> {
        match self.replies.recv_timeout(LIMIT) {
            Ok(reply) => Some(reply),
            Err(RecvTimeoutError::Disconnected) => None,
            Err(RecvTimeoutError::Timeout) => panic!("no reply within {LIMIT:?}"),
        }
    }

    /// Whether nothing comes for a moment while the program runs.
    pub fn is_silent(&mut self) -> bool {
        matches!(
            self.replies.recv_timeout(MOMENT),
            Err(RecvTimeoutError::Timeout)
        )
    }
}

impl Drop for Talk {
    fn drop(&mut self) {
        let _ = self.program.kill();
        let _ = self.program.wait();
    }
}
