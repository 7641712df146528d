//! A command that reads one arc file and answers it, for the yardsticks: its words, its reading and its writing.

use crate::arc_file::{read_problem, refused, Refusal};
use crate::rows::Rows;
use std::fs::File;
use std::io::{self, Read, Write};
use std::process::ExitCode;

/// What a command writes, and its status.
pub struct Answer {
    pub text: Vec<u8>,
    pub status: u8,
}

/// The name of the file, if any; `None` where the words are no command. After `--` a word is a name, whatever it is.
fn name<'a>(command: &str, words: &'a [String]) -> Option<Option<&'a String>> {
    if words.first()? != command {
        return None;
    }
    let mut names = Vec::new();
    let mut options_end = false;
    for word in &words[1..] {
        if !options_end && word == "--" {
            options_end = true;
        } else if !options_end && word.len() > 1 && word.starts_with('-') {
            return None;
        } else {
            names.push(word);
        }
    }
    match names[..] {
        [] => Some(None),
        [file] => Some(Some(file)),
        _ => None,
    }
}

fn rows_of(reader: &mut dyn Read, size: usize) -> Result<Rows, Refusal> {
    // A block, so that the text is given back before the rows are made.
    let problem = {
        let mut text = Vec::with_capacity(size);
        reader.read_to_end(&mut text).map_err(|_| refused("read"))?;
        read_problem(&text)?
    };
    Ok(Rows::of(&problem))
}

/// Runs `auction COMMAND [FILE]`: the answer is that to the rows of the problem, where it is one.
pub fn run(command: &str, answer_to: impl FnOnce(&Rows) -> Answer) -> ExitCode {
    let words: Option<Vec<String>> = std::env::args_os().skip(1).map(|word| word.into_string().ok()).collect();
    let Some(name) = words.as_deref().and_then(|words| name(command, words)) else {
        eprintln!("usage: auction {command} [FILE]");
        return ExitCode::from(2);
    };
    let rows = match name {
        None => rows_of(&mut io::stdin(), 0),
        Some(name) => match File::open(name) {
            Ok(mut file) => {
                let size = file.metadata().map_or(0, |data| data.len() as usize + 1);
                rows_of(&mut file, size)
            }
            Err(error) => {
                eprintln!("auction: {name}: {error}");
                return ExitCode::from(5);
            }
        },
    };
    let Answer { text, status } = match &rows {
        Ok(rows) => answer_to(rows),
        Err(refusal) => Answer { text: format!("{}\n", refusal.line).into_bytes(), status: refusal.status },
    };
    let mut out = io::stdout().lock();
    match out.write_all(&text).and_then(|()| out.flush()) {
        Ok(()) => ExitCode::from(status),
        Err(_) => ExitCode::from(8),
    }
}
