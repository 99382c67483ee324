//! The programs compared: this one in process, and any console as a child process.

use std::io::{self, BufRead, BufReader, BufWriter, Read, Write};
use std::process::{Child, ChildStdout, Command, Stdio};
use std::thread::{spawn, JoinHandle};

use super::leaving;
use crate::console::Console;

/// Writes the lines of a script, each with its newline.
pub type Feed = Box<dyn FnOnce(&mut dyn Write) -> io::Result<()> + Send>;

/// A console program.
pub trait Program: Sync {
    /// A run from a fresh start; `feed` gives the lines that will be asked.
    fn start(&self, feed: Feed) -> io::Result<Box<dyn Run>>;
}

/// A run of a program.
pub trait Run {
    /// The answer to the next line, which is given again; None if the program has ended.
    fn answer(&mut self, line: &[u8]) -> Option<Vec<u8>>;

    /// What a line that is not yet answered will find; None where there is nothing to tell.
    fn finds(&self, _line: &[u8]) -> Option<String> {
        None
    }

    /// After the last line: whether the program says no more and ends well.
    fn ends_well(&mut self) -> bool;
}

/// This program's own console.
pub struct Own;

impl Program for Own {
    fn start(&self, _: Feed) -> io::Result<Box<dyn Run>> {
        Ok(Box::new(OwnRun(Console::default())))
    }
}

struct OwnRun(Console);

impl Run for OwnRun {
    fn answer(&mut self, line: &[u8]) -> Option<Vec<u8>> {
        let mut answer = Vec::new();
        self.0.answer(line, &mut answer);
        Some(answer)
    }

    fn finds(&self, line: &[u8]) -> Option<String> {
        leaving::kind_of(&self.0, line)
    }

    fn ends_well(&mut self) -> bool {
        true
    }
}

/// A console started by a command line.
pub struct Other {
    pub command: Vec<String>,
}

impl Program for Other {
    fn start(&self, feed: Feed) -> io::Result<Box<dyn Run>> {
        let (name, arguments) = self.command.split_first().ok_or(io::ErrorKind::InvalidInput)?;
        let mut child = Command::new(name).args(arguments).stdin(Stdio::piped()).stdout(Stdio::piped()).spawn()?;
        let (input, output) = (child.stdin.take().expect("piped"), child.stdout.take().expect("piped"));
        // The lines are written aside, so that neither side waits for the other.
        let writer = spawn(move || {
            let mut input = BufWriter::with_capacity(65_536, input);
            // A program that ended early shows by its missing answers.
            let _ = feed(&mut input).and_then(|()| input.flush());
        });
        let output = Some(BufReader::with_capacity(65_536, output));
        Ok(Box::new(OtherRun { child, output, writer: Some(writer) }))
    }
}

struct OtherRun {
    child: Child,
    output: Option<BufReader<ChildStdout>>,
    writer: Option<JoinHandle<()>>,
}

impl Run for OtherRun {
    fn answer(&mut self, _: &[u8]) -> Option<Vec<u8>> {
        let mut answer = Vec::new();
        self.output.as_mut()?.read_until(b'\n', &mut answer).ok()?;
        (answer.pop() == Some(b'\n')).then_some(answer)
    }

    fn ends_well(&mut self) -> bool {
        let mut more = Vec::new();
        let silent =
            self.output.as_mut().is_some_and(|output| output.read_to_end(&mut more).is_ok_and(|read| read == 0));
        silent && self.child.wait().is_ok_and(|status| status.success())
    }
}

impl Drop for OtherRun {
    /// A run given up in the middle is ended, or its writer would wait for ever; what a script has started ends once its
    /// answers are read by nobody.
    fn drop(&mut self) {
        let _ = self.child.kill();
        self.output = None;
        let _ = self.child.wait();
        if let Some(writer) = self.writer.take() {
            let _ = writer.join();
        }
    }
}
