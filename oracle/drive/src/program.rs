//! A program that answers the script on its standard input.

use reference::random::Random;
use std::io::{Read, Write};
use std::path::Path;
use std::process::{Child, ChildStdin, Command, Stdio};
use std::sync::mpsc;
use std::thread;
use std::time::Duration;

const PATIENCE: Duration = Duration::from_secs(20);
const PAUSE: Duration = Duration::from_micros(50);

pub struct Output {
    pub answers: Vec<u8>,
    /// What went wrong, if anything did.
    pub fault: Option<String>,
}

pub fn run(program: &Path, script: &[u8]) -> Output {
    let mut command = Command::new(program);
    // A reference with a slip is to show it in its answers, not to stop.
    command.env("REFERENCE_UNCHECKED", "1");
    command
        .stdin(Stdio::piped())
        .stdout(Stdio::piped())
        .stderr(Stdio::null());
    match command.spawn() {
        Ok(child) => talk(child, script),
        Err(error) => Output {
            answers: Vec::new(),
            fault: Some(error.to_string()),
        },
    }
}

fn talk(mut child: Child, script: &[u8]) -> Output {
    let input = child.stdin.take().expect("piped");
    let mut output = child.stdout.take().expect("piped");
    let (send, receive) = mpsc::channel();
    thread::scope(|scope| {
        scope.spawn(|| feed(input, script));
        scope.spawn(move || {
            let mut answers = Vec::new();
            let fault = output.read_to_end(&mut answers).err();
            send.send((answers, fault.map(|error| error.to_string())))
        });
        let (answers, mut fault) = receive.recv_timeout(PATIENCE).unwrap_or_else(|_| {
            let _ = child.kill();
            (Vec::new(), Some("no end of answers".to_string()))
        });
        match child.wait() {
            Ok(status) if status.success() => (),
            Ok(status) => fault = fault.or(Some(status.to_string())),
            Err(error) => fault = Some(error.to_string()),
        }
        Output { answers, fault }
    })
}

/// In odd pieces, with a pause after each, so that it isn't read with the next.
fn feed(mut input: ChildStdin, script: &[u8]) {
    let mut random = Random::new(script.len() as u64);
    let mut rest = script;
    while !rest.is_empty() {
        let size = random.pick(&[1, 2, 3, 50, 300, 4_096, 4_097, 9_999]);
        let (piece, more) = rest.split_at(size.min(rest.len()));
        // A program that ended early shows it in its answers.
        if input.write_all(piece).is_err() {
            return;
        }
        rest = more;
        thread::sleep(PAUSE);
    }
}
