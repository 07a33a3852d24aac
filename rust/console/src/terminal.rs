// SPDX-License-Identifier: Apache-2.0
// SPDX-FileCopyrightText: Copyright the Vortex contributors

//! Lines that are written at a terminal, with their history and the completion of commands.

use crate::VERSION;
use crate::run::{Failure, Run, failed};
use crate::table::{self, TOPICS};
use rustyline::completion::Completer;
use rustyline::error::ReadlineError;
use rustyline::highlight::Highlighter;
use rustyline::hint::Hinter;
use rustyline::validate::Validator;
use rustyline::{Context, Editor, Helper};
use std::env;
use std::io::{self, Write};
use std::path::PathBuf;

/// Answers lines of the terminal, each after a prompt, up to `exit` or Ctrl-D. Ctrl-C gives up a line.
pub fn answer_lines<W: Write>(run: &mut Run<'_, W>) -> Result<(), Failure> {
    writeln!(io::stdout(), "console {VERSION}; help lists the commands, exit ends")?;
    let mut editor = Editor::new();
    editor.set_helper(Some(Names));
    let history = history_file();
    if let Some(file) = &history {
        // (there is none before the first run)
        let _ = editor.load_history(file);
    }
    while !run.is_ended {
        match editor.readline("> ") {
            Ok(line) => {
                editor.add_history_entry(&line);
                run.answer(line.as_bytes())?;
                run.flush()?;
            }
            Err(ReadlineError::Interrupted) => {}
            Err(ReadlineError::Eof) => break,
            Err(error) => return Err(failed("standard input", io::Error::other(error))),
        }
    }
    if let Some(file) = history {
        if let Err(error) = editor.save_history(&file) {
            let _ = writeln!(io::stderr(), "console: the history isn't kept: {}: {error}", file.display());
        }
    }
    Ok(())
}

/// Returns the file that keeps the lines, if one does.
fn history_file() -> Option<PathBuf> {
    match env::var_os("HISTORY") {
        Some(file) => (!file.is_empty()).then(|| file.into()),
        None => Some(PathBuf::from(env::var_os("HOME")?).join(".dtype_console_history")),
    }
}

/// Completes the names of commands, and behind `help` those of topics.
struct Names;

impl Completer for Names {
    type Candidate = String;

    fn complete(&self, line: &str, end: usize, _: &Context<'_>) -> rustyline::Result<(usize, Vec<String>)> {
        let before = &line[..end];
        let asked = before.strip_prefix("help ");
        let begun = asked.unwrap_or(before);
        let topics = TOPICS.iter().map(|topic| topic.name).filter(|_| asked.is_some());
        let mut names: Vec<_> = topics.chain(table::commands().map(|row| row.name)).collect();
        names.retain(|name| name.starts_with(begun));
        names.sort_unstable();
        names.dedup();
        Ok((end - begun.len(), names.into_iter().map(str::to_owned).collect()))
    }
}

impl Helper for Names {}
impl Highlighter for Names {}
impl Hinter for Names {
    type Hint = String;
}
impl Validator for Names {}
