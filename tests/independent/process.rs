//! A process that is asked once: its words and its input, and all that it answers.

use std::io::{Read, Write};
use std::process::{Child, Command, ExitStatus, Stdio};
use std::sync::mpsc::{channel, Receiver};
use std::sync::Arc;
use std::thread;
use std::time::Duration;

/// A process that has not ended its output by then, and itself soon after, is killed and has not answered.
const LONGEST_WAIT: Duration = Duration::from_secs(120);

pub struct Answered {
    pub output: Vec<u8>,
    pub said: Vec<u8>,
    pub status: i32,
}

/// Its input, output and words each have a thread, so that none of them can wait for another. Without an input its
/// standard input is empty.
pub fn ask(words: &[String], input: Option<Arc<Vec<u8>>>) -> Result<Answered, String> {
    let stdin = if input.is_some() { Stdio::piped() } else { Stdio::null() };
    let mut command = Command::new(&words[0]);
    command.args(&words[1..]).stdin(stdin).stdout(Stdio::piped()).stderr(Stdio::piped());
    let mut child = command.spawn().map_err(|error| format!("cannot start {}: {error}", words[0]))?;
    if let (Some(mut stdin), Some(input)) = (child.stdin.take(), input) {
        // It may answer before it has read everything, and close its input: that is no failure.
        thread::spawn(move || drop(stdin.write_all(&input)));
    }
    let Some((output, said, status)) = answer(&mut child) else {
        let _ = child.kill();
        let _ = child.wait();
        return Err(format!("no answer in {} seconds", LONGEST_WAIT.as_secs()));
    };
    match status.code() {
        Some(status) => Ok(Answered { output, said, status }),
        None => Err(format!("ended with {status}")),
    }
}

fn answer(child: &mut Child) -> Option<(Vec<u8>, Vec<u8>, ExitStatus)> {
    let (output, said) = (all_of(child.stdout.take()?), all_of(child.stderr.take()?));
    Some((output.recv_timeout(LONGEST_WAIT).ok()?, said.recv_timeout(LONGEST_WAIT).ok()?, status(child)?))
}

/// Its status, which it has soon after its output has ended.
fn status(child: &mut Child) -> Option<ExitStatus> {
    for _ in 0..5_000 {
        if let Ok(Some(status)) = child.try_wait() {
            return Some(status);
        }
        thread::sleep(Duration::from_millis(1));
    }
    None
}

fn all_of(mut from: impl Read + Send + 'static) -> Receiver<Vec<u8>> {
    let (sender, receiver) = channel();
    thread::spawn(move || {
        let mut bytes = Vec::new();
        let _ = from.read_to_end(&mut bytes);
        let _ = sender.send(bytes);
    });
    receiver
}
