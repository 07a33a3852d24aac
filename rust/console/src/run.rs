// SPDX-License-Identifier: Apache-2.0
// SPDX-FileCopyrightText: Copyright the Vortex contributors

//! A run of the program: which lines it answers, and how it ends.

use crate::console::{Console, Outcome};
use crate::{Options, streams, terminal};
use std::fmt::Display;
use std::fs::File;
use std::io::{self, BufRead, BufReader, IsTerminal, Read, Write};

/// Why a run ends before its input does: what couldn't be opened, read or written, and the status of the program.
#[derive(Debug, thiserror::Error)]
#[error("{what}: {error}")]
pub struct Failure {
    pub what: String,
    pub error: io::Error,
    pub status: u8,
}

/// Returns the failure to read or to write a file or a standard stream.
pub fn failed(what: impl Display, error: io::Error) -> Failure {
    Failure { what: what.to_string(), error, status: 3 }
}

/// The failure to write the answers.
impl From<io::Error> for Failure {
    fn from(error: io::Error) -> Self {
        failed("standard output", error)
    }
}

/// A console that writes its answers to an output.
pub struct Run<'a, W> {
    options: &'a Options,
    console: Console,
    output: W,
    /// A command ended the console, or a line if it is strict.
    pub is_ended: bool,
    /// A line couldn't be read, or named a set or a session that isn't there.
    pub has_unread: bool,
}

impl<'a, W: Write> Run<'a, W> {
    /// Returns a run that has answered no line.
    pub fn new(options: &'a Options, output: W) -> Self {
        Run { options, console: Console::new(), output, is_ended: false, has_unread: false }
    }

    /// Answers the commands, then the lines of the files; if there are neither, the lines of standard input.
    pub fn answer_all(&mut self) -> Result<(), Failure> {
        let options = self.options;
        for command in &options.commands {
            self.answer_lines("-c", command.as_encoded_bytes())?;
        }
        for file in &options.files {
            if file.as_os_str() == "-" {
                self.answer_input()?;
            } else if !self.is_ended {
                let input = File::open(file);
                let input = input.map_err(|error| Failure { status: 2, ..failed(file.display(), error) })?;
                self.answer_lines(file.display(), input)?;
            }
        }
        if !options.commands.is_empty() || !options.files.is_empty() {
            return Ok(());
        }
        let is_terminal = io::stdin().is_terminal() && io::stdout().is_terminal();
        if is_terminal { terminal::answer_lines(self) } else { self.answer_input() }
    }

    /// Answers the lines of standard input.
    fn answer_input(&mut self) -> Result<(), Failure> {
        const NAME: &str = "standard input";
        streams::check_open(0).map_err(|error| failed(NAME, error))?;
        self.answer_lines(NAME, io::stdin().lock())
    }

    /// Answers the lines of an input, unless the run has ended. Before it waits for more, it writes the answers out.
    fn answer_lines(&mut self, name: impl Display, input: impl Read) -> Result<(), Failure> {
        let mut input = BufReader::with_capacity(65_536, input);
        let mut line = Vec::new();
        while !self.is_ended {
            if !input.buffer().contains(&b'\n') {
                self.flush()?;
            }
            line.clear();
            match input.read_until(b'\n', &mut line) {
                Ok(0) => break,
                Ok(_) => self.answer(line.strip_suffix(b"\n").unwrap_or(&line))?,
                Err(error) => return Err(failed(name, error)),
            }
        }
        Ok(())
    }

    /// Answers a line, which is given without its newline.
    pub fn answer(&mut self, line: &[u8]) -> io::Result<()> {
        let line = line.strip_suffix(b"\r").unwrap_or(line);
        let outcome = self.console.answer(line);
        if self.options.echo && !matches!(outcome, Ok(Outcome::End)) {
            // (a blank line or a comment is its own answer)
            let mark: &[u8] = if matches!(outcome, Ok(Outcome::Nothing)) { b"" } else { b"> " };
            self.output.write_all(&[mark, line, b"\n"].concat())?;
        }
        match outcome {
            Ok(Outcome::Answer(answer)) => writeln!(self.output, "{answer}"),
            Ok(Outcome::Nothing) if self.options.echo => Ok(()),
            Ok(Outcome::Nothing) => writeln!(self.output),
            Ok(Outcome::End) => {
                self.is_ended = true;
                Ok(())
            }
            Err(error) => {
                self.has_unread |= error.is_of_line();
                self.is_ended = self.options.strict && error.is_of_line();
                writeln!(self.output, "{error}")
            }
        }
    }

    /// Writes the answers out.
    pub fn flush(&mut self) -> io::Result<()> {
        self.output.flush()
    }
}
