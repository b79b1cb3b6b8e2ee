//! Who is asked: a program started anew for each file, or a function linked into this process.

use std::io::Write;
use std::process::{Command, Stdio};

/// Gives the bytes that the thing under test answers to these bytes, or what went wrong in asking.
/// A linked library becomes one more implementation, with no process for each file: its `answer` lends the
/// input and a buffer to the library's function and returns what the buffer then holds.
pub trait Answerer: Sync {
    fn answer(&self, input: &[u8]) -> Result<Vec<u8>, String>;
}

/// A program with its arguments; the input comes on its standard input.
pub struct Program {
    pub words: Vec<String>,
}

impl Answerer for Program {
    fn answer(&self, input: &[u8]) -> Result<Vec<u8>, String> {
        let mut command = Command::new(&self.words[0]);
        command.args(&self.words[1..]).stdin(Stdio::piped()).stdout(Stdio::piped()).stderr(Stdio::null());
        let mut child = command.spawn().map_err(|error| format!("cannot start {}: {error}", self.words[0]))?;
        let mut stdin = child.stdin.take().unwrap();
        // A program may answer before it has read everything, and close its input: that is no failure.
        let _ = stdin.write_all(input);
        drop(stdin);
        let output = child.wait_with_output().map_err(|error| error.to_string())?;
        // Document 01 gives no exit status, but a program that was killed has not answered.
        match output.status.code() {
            Some(_) => Ok(output.stdout),
            None => Err(format!("ended with {}", output.status)),
        }
    }
}
