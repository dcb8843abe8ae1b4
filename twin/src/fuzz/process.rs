//! What the twin is held against: input in, output out.

use std::io::{Read, Write};
use std::process::{Command, Stdio};
use std::sync::mpsc;
use std::thread;
use std::time::Duration;

/// Something that answers a whole input.
pub trait Other {
    /// Answers it, or one more of the many tries that make a difference small. An
    /// error means that it cannot be tried.
    fn run(&self, input: &[u8], is_try: bool) -> Result<Run, String>;
}

/// A program and its arguments.
#[derive(Clone, Debug)]
pub struct Program {
    pub path: String,
    pub arguments: Vec<String>,
}

/// What a run gave.
#[derive(Debug)]
pub struct Run {
    pub output: Vec<u8>,
    /// Why the run counts as failed, whatever its output.
    pub failure: Option<String>,
}

/// A program that takes longer than this for one input hangs.
const LIMIT: Duration = Duration::from_secs(120);

impl Program {
    /// The same with one more argument.
    pub fn with(&self, argument: &str) -> Program {
        let mut program = self.clone();
        program.arguments.push(argument.to_string());
        program
    }
}

impl Other for Program {
    /// Both pipes are served by threads of their own, so neither side ever waits
    /// for the other. An error means that the program cannot be started.
    fn run(&self, input: &[u8], is_try: bool) -> Result<Run, String> {
        let mut command = Command::new(&self.path);
        command.args(&self.arguments);
        command.stdin(Stdio::piped()).stdout(Stdio::piped());
        if is_try {
            command.stderr(Stdio::null());
        }
        let mut child = command
            .spawn()
            .map_err(|error| format!("{}: {}", self.path, error))?;
        let mut stdin = child.stdin.take().expect("standard input is a pipe");
        let mut stdout = child.stdout.take().expect("standard output is a pipe");
        let (sender, receiver) = mpsc::channel();
        thread::scope(|scope| {
            // A program may end before it has read everything.
            scope.spawn(move || drop(stdin.write_all(input)));
            scope.spawn(move || {
                let mut output = Vec::new();
                let read = stdout.read_to_end(&mut output);
                drop(sender.send((output, read)));
            });
            let mut failure = None;
            let output = match receiver.recv_timeout(LIMIT) {
                Ok((output, Ok(_))) => output,
                Ok((output, Err(error))) => {
                    failure = Some(format!("its output cannot be read: {}", error));
                    output
                }
                Err(_) => {
                    failure = Some(format!("no end after {} seconds", LIMIT.as_secs()));
                    drop(child.kill());
                    Vec::new()
                }
            };
            let status = child.wait();
            if failure.is_none() {
                failure = match status {
                    Ok(status) if status.success() => None,
                    Ok(status) => Some(status.to_string()),
                    Err(error) => Some(error.to_string()),
                };
            }
            Ok(Run { output, failure })
        })
    }
}
