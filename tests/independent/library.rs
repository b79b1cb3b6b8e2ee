//! The proved library, called in a process of its own (tests/library/serve.c): so it is compared on every processor
//! that can run it, if only under an emulator, and a call that crashes is a difference like any other.

use std::io::{Read, Write};
use std::process::{Child, ChildStdin, ChildStdout, Command, Stdio};
use std::sync::Mutex;

/// The functions' numbers in a request.
#[derive(Clone, Copy)]
pub enum Function {
    Quantify,
    Report,
    ReadSheet,
    WriteSheet,
    ReadFlow,
    Ventilation,
}

/// As many words as every request has; the rest are 0.
const WORDS: usize = 40;

struct Process {
    child: Child,
    input: Option<ChildStdin>,
    output: ChildStdout,
}

impl Process {
    fn start(words: &[String]) -> Result<Process, String> {
        let mut command = Command::new(&words[0]);
        command.args(&words[1..]).stdin(Stdio::piped()).stdout(Stdio::piped());
        let mut child = command.spawn().map_err(|error| format!("cannot start {}: {error}", words[0]))?;
        let (input, output) = (child.stdin.take(), child.stdout.take().unwrap());
        Ok(Process { child, input, output })
    }

    fn ask(&mut self, request: &[u8], size: usize) -> std::io::Result<(u64, Vec<u8>)> {
        let input = self.input.as_mut().unwrap();
        input.write_all(request)?;
        input.flush()?;
        let mut given = [0; 8];
        self.output.read_exact(&mut given)?;
        let mut memory = vec![0; size];
        self.output.read_exact(&mut memory)?;
        Ok((u64::from_le_bytes(given), memory))
    }
}

impl Drop for Process {
    /// The process ends when its input does.
    fn drop(&mut self) {
        self.input = None;
        let _ = self.child.wait();
    }
}

/// The command that serves calls, and the processes of it that wait for the next one.
pub struct Library {
    words: Vec<String>,
    idle: Mutex<Vec<Process>>,
}

impl Library {
    pub fn new(words: &[&str]) -> Option<Library> {
        let words: Vec<String> = words.iter().map(|word| word.to_string()).collect();
        (!words.is_empty()).then_some(Library { words, idle: Mutex::default() })
    }

    /// What the function gives, and the memory as it leaves it. A word is a number, a length, or where an array begins.
    pub fn call(&self, function: Function, words: &[u64], memory: &[u8]) -> Result<(u64, Vec<u8>), String> {
        let idle = self.idle.lock().unwrap().pop();
        let mut process = idle.map_or_else(|| Process::start(&self.words), Ok)?;
        match process.ask(&request(function, words, memory), memory.len()) {
            Ok(answer) => {
                self.idle.lock().unwrap().push(process);
                Ok(answer)
            }
            Err(error) => {
                process.input = None;
                let status = process.child.wait().map_or("?".to_string(), |status| status.to_string());
                Err(format!("the library's process ended ({status}): {error}"))
            }
        }
    }
}

fn request(function: Function, words: &[u64], memory: &[u8]) -> Vec<u8> {
    let mut head = vec![function as u64, memory.len() as u64];
    head.extend(words);
    head.resize(2 + WORDS, 0);
    let mut request: Vec<u8> = head.iter().flat_map(|word| word.to_le_bytes()).collect();
    request.extend(memory);
    request
}
