//! Runs a program on some input and takes its whole output, and where it is
//! looked at its standard error, with a limit on time and on output so that a
//! program that runs on counts as a difference.

use std::io::{Read, Write};
use std::process::{Child, Command, Stdio};
use std::sync::mpsc;
use std::thread;
use std::time::Duration;

use crate::programs::Streams;

/// Far above what a script needs, even on a busy machine.
const TIME_LIMIT: Duration = Duration::from_secs(300);
/// Far above the transcript of any script sent here, which is below 5 MB. (Seconds
/// that are all full could come to more, but no script has so many of them.)
const OUTPUT_LIMIT: u64 = 16 << 20;

/// A command line, split on blanks: no quoting, no shell.
#[derive(Clone, Debug)]
pub struct Program {
    words: Vec<String>,
    with_errors: bool,
}

impl Program {
    /// A program of which only the standard output is looked at, as text.
    pub fn new(command: &str) -> Option<Self> {
        let words: Vec<String> = command.split_whitespace().map(String::from).collect();
        (!words.is_empty()).then_some(Program {
            words,
            with_errors: false,
        })
    }

    /// A program of which both streams are looked at, byte by byte.
    pub fn with_errors(command: &str) -> Option<Self> {
        Program::new(command).map(|program| Program {
            with_errors: true,
            ..program
        })
    }

    /// Whether it can be started at all: a mistyped path is no difference.
    pub fn starts(&self) -> Result<(), String> {
        self.answer(&[]).map(|_| ())
    }

    /// What the program prints for this input, or in words why that is unknown.
    pub fn answer(&self, input: &[u8]) -> Result<String, String> {
        let streams = self.streams(input)?;
        Ok(match self.with_errors {
            true => streams.in_words(),
            false => String::from_utf8_lossy(&streams.output).into_owned(),
        })
    }

    fn streams(&self, input: &[u8]) -> Result<Streams, String> {
        let mut command = Command::new(&self.words[0]);
        command.args(&self.words[1..]);
        command.stdin(Stdio::piped()).stdout(Stdio::piped());
        if self.with_errors {
            command.stderr(Stdio::piped());
        }
        let mut child = command
            .spawn()
            .map_err(|error| format!("cannot start {}: {error}", self.words[0]))?;
        feed(&mut child, input);
        let streams = both(&mut child);
        if streams.is_err() {
            // It may have ended by itself meanwhile; then there is nothing to end.
            let _ = child.kill();
        }
        let status = child.wait().map_err(|error| error.to_string())?;
        let streams = streams?;
        // An exit code may be anything; none at all means that it crashed.
        match status.code() {
            Some(_) => Ok(streams),
            None => Err(format!("the program ended by {status}")),
        }
    }
}

/// Feeds the input from a thread of its own: both pipes are shorter than a
/// script, so whoever writes first without reading would wait for ever.
fn feed(child: &mut Child, input: &[u8]) {
    let input = input.to_vec();
    if let Some(mut pipe) = child.stdin.take() {
        // A program may stop reading early, so a broken pipe is no difference.
        thread::spawn(move || pipe.write_all(&input).ok());
    }
}

/// What comes out of both streams; nothing where standard error is not ours.
fn both(child: &mut Child) -> Result<Streams, String> {
    let output = child.stdout.take().map(gather).ok_or("no output pipe")?;
    let errors = child.stderr.take().map(gather);
    Ok(Streams {
        output: collected(output)?,
        errors: errors.map_or(Ok(Vec::new()), collected)?,
    })
}

type Gathered = mpsc::Receiver<std::io::Result<Vec<u8>>>;

/// Reads a pipe in a thread of its own, since neither may make the other wait.
fn gather(pipe: impl Read + Send + 'static) -> Gathered {
    let (sender, receiver) = mpsc::channel();
    thread::spawn(move || {
        let mut bytes = Vec::new();
        let read = pipe.take(OUTPUT_LIMIT).read_to_end(&mut bytes);
        // Nobody listens any more once the time limit has passed.
        let _ = sender.send(read.map(|_| bytes));
    });
    receiver
}

fn collected(receiver: Gathered) -> Result<Vec<u8>, String> {
    match receiver.recv_timeout(TIME_LIMIT) {
        Err(_) => Err(format!("no end after {} s", TIME_LIMIT.as_secs())),
        Ok(Err(error)) => Err(error.to_string()),
        Ok(Ok(bytes)) if bytes.len() as u64 == OUTPUT_LIMIT => Err("output without end".into()),
        Ok(Ok(bytes)) => Ok(bytes),
    }
}
