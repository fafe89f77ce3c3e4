//! The tape program run on one tape.

use common::random::Random;
use std::ffi::OsStr;
use std::io::{Read, Write};
use std::process::{Child, ChildStdin, Command, Stdio};
use std::sync::mpsc;
use std::thread;
use std::time::Duration;

/// A program that takes longer for one tape counts as different.
const PATIENCE: Duration = Duration::from_secs(60);

/// What the program prints for this tape.
pub fn run(program: &OsStr, tape: &[u8], in_pieces: bool, expected_length: usize) -> Result<Vec<u8>, String> {
    let mut child = Command::new(program)
        .stdin(Stdio::piped())
        .stdout(Stdio::piped())
        .spawn()
        .map_err(|error| format!("the program does not start: {error}"))?;
    let input = child.stdin.take().expect("standard input is a pipe");
    let output = child.stdout.take().expect("standard output is a pipe");
    thread::scope(|scope| {
        scope.spawn(|| feed(input, tape, in_pieces));
        let (sender, receiver) = mpsc::channel();
        scope.spawn(move || {
            let mut printed = Vec::with_capacity(expected_length + 1);
            // A program that prints on and on is cut off here.
            let result = output.take(expected_length as u64 + 4096).read_to_end(&mut printed);
            // The other end may have lost its patience.
            let _ = sender.send(result.map(|_| printed));
        });
        let printed = receiver.recv_timeout(PATIENCE);
        if printed.is_err() {
            // Then its pipes break and both threads end.
            let _ = child.kill();
        }
        let ended = end_of(&mut child);
        match printed {
            // Cut off, it ends as it may; the output differs anyway.
            Ok(Ok(printed)) if printed.len() > expected_length => Ok(printed),
            Ok(Ok(printed)) => ended.map(|()| printed),
            Ok(Err(error)) => Err(format!("no output: {error}")),
            Err(_) => Err(format!("no end after {} s", PATIENCE.as_secs())),
        }
    })
}

/// 01 gives no exit status, so any will do; but a program that was ended by a
/// signal has crashed.
fn end_of(child: &mut Child) -> Result<(), String> {
    let status = child.wait().map_err(|error| error.to_string())?;
    match status.code() {
        Some(_) => Ok(()),
        None => Err(format!("the program crashed: {status}")),
    }
}

/// A program may stop reading early (a tape that is too long, 22, 23), so a
/// broken pipe is no fault.
fn feed(mut input: ChildStdin, tape: &[u8], in_pieces: bool) {
    if !in_pieces {
        let _ = input.write_all(tape);
        return;
    }
    let mut random = Random::new(tape.len() as u64);
    let mut rest = tape;
    while !rest.is_empty() {
        let most = (tape.len() / 10).max(7);
        let (piece, behind) = rest.split_at(random.between(1, most).min(rest.len()));
        if input.write_all(piece).is_err() {
            return;
        }
        thread::sleep(Duration::from_millis(2));
        rest = behind;
    }
}
