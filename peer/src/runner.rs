//! Runs the other program on a script and gives what it printed.

use std::io::{Read, Write};
use std::path::{Path, PathBuf};
use std::process::{Child, Command, Stdio};
use std::sync::mpsc;
use std::thread;
use std::time::Duration;

/// A program that reads a script from standard input and prints lines.
pub struct Program {
    pub path: PathBuf,
    pub timeout: Duration,
}

/// What a program printed, and what went wrong if it did not end by itself.
pub struct Printed {
    pub text: Vec<u8>,
    pub fault: Option<String>,
}

impl Program {
    /// Names a program; fails in plain words if there is no such file.
    pub fn new(path: &str, timeout: Duration) -> Result<Program, String> {
        let path = Path::new(path);
        if !path.is_file() {
            return Err(format!("there is no program at {}", path.display()));
        }
        let path = path
            .canonicalize()
            .map_err(|error| format!("cannot find {}: {error}", path.display()))?;
        Ok(Program { path, timeout })
    }

    /// Runs the program on a script; fails in plain words if it cannot be started.
    pub fn run(&self, script: &[u8]) -> Result<Printed, String> {
        let mut child = Command::new(&self.path)
            .stdin(Stdio::piped())
            .stdout(Stdio::piped())
            .stderr(Stdio::null())
            .spawn()
            .map_err(|error| format!("cannot start {}: {error}", self.path.display()))?;
        let writer = feed(&mut child, script.to_vec());
        let printed = gather(&mut child);
        let answer = printed.recv_timeout(self.timeout);
        let fault = match &answer {
            Ok(_) => None,
            Err(_) => {
                // This ends only the child that was started just above.
                let _ = child.kill();
                Some(format!("no end after {:?}", self.timeout))
            }
        };
        let status = child
            .wait()
            .map_err(|error| format!("cannot wait for the program: {error}"))?;
        let _ = writer.join();
        let text = answer.or_else(|_| printed.recv()).unwrap_or_default();
        Ok(Printed {
            text,
            fault: fault.or_else(|| died(&status)),
        })
    }
}

/// Writes the script to the child in a thread, so that neither side waits for the other.
fn feed(child: &mut Child, script: Vec<u8>) -> thread::JoinHandle<()> {
    let mut input = child.stdin.take().expect("standard input is a pipe");
    thread::spawn(move || {
        // A program that stops at a script error need not read the rest.
        let _ = input.write_all(&script);
    })
}

/// Reads all that the child prints in a thread and hands it over at the end.
fn gather(child: &mut Child) -> mpsc::Receiver<Vec<u8>> {
    let mut output = child.stdout.take().expect("standard output is a pipe");
    let (sender, receiver) = mpsc::channel();
    thread::spawn(move || {
        let mut text = Vec::new();
        let _ = output.read_to_end(&mut text);
        let _ = sender.send(text);
    });
    receiver
}

/// Says how a program died, if a signal or a Rust panic ended it.
fn died(status: &std::process::ExitStatus) -> Option<String> {
    match status.code() {
        None => Some(format!("ended by {status}")),
        Some(101) => Some("ended by a panic (status 101)".to_string()),
        Some(_) => None,
    }
}
