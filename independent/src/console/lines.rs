//! The console over streams: lines in, answers out.

use std::io::{self, BufRead, ErrorKind, Write};

use super::{Console, LINE_MAX};

/// Answers every line until the input ends, from a fresh start.
pub fn run(input: &mut impl BufRead, out: &mut impl Write) -> io::Result<()> {
    let mut console = Console::default();
    let mut line = Line::default();
    loop {
        // Whoever waits for an answer before the next line must see it.
        out.flush()?;
        let bytes = match input.fill_buf() {
            Ok(bytes) => bytes,
            Err(error) if error.kind() == ErrorKind::Interrupted => continue,
            Err(error) => return Err(error),
        };
        if bytes.is_empty() {
            break;
        }
        for piece in bytes.split_inclusive(|byte| *byte == b'\n') {
            if line.push(piece) {
                out.write_all(line.answer(&mut console))?;
            }
        }
        let read = bytes.len();
        input.consume(read);
    }
    if line.begun {
        out.write_all(line.answer(&mut console))?;
    }
    out.flush()
}

/// A line read so far, and the answer to the one before; both are used again.
#[derive(Default)]
struct Line {
    /// At most one byte more than the longest command, so that a longer line shows.
    kept: Vec<u8>,
    begun: bool,
    answer: Vec<u8>,
}

impl Line {
    /// Takes more bytes in; gives whether the line is ended.
    fn push(&mut self, piece: &[u8]) -> bool {
        let ended = piece.ends_with(b"\n");
        let bytes = &piece[..piece.len() - usize::from(ended)];
        let room = LINE_MAX + 1 - self.kept.len();
        self.kept.extend_from_slice(&bytes[..bytes.len().min(room)]);
        self.begun = true;
        ended
    }

    /// The answer with its newline; the next line begins.
    fn answer(&mut self, console: &mut Console) -> &[u8] {
        self.answer.clear();
        console.answer(&self.kept, &mut self.answer);
        self.answer.push(b'\n');
        self.kept.clear();
        self.begun = false;
        &self.answer
    }
}
