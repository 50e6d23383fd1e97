//! Plays a whole script to one set.

use crate::form::Form;
use crate::items::Place;
use crate::print::Line;
use crate::reader::read;
use crate::set::{Refusal, Set};
use std::fmt::Write;

/// A line has at most this many bytes, its line end not counted.
const LINE_BYTES: usize = 200;

/// The printed lines of a script that is not too long.
pub fn play(script: &[u8]) -> String {
    let mut printed = String::with_capacity(script.len());
    let mut set = None;
    if !script.is_empty() {
        // A line end at the very end starts no further line.
        let lines = script.strip_suffix(b"\n").unwrap_or(script);
        for line in lines.split(|&byte| byte == b'\n') {
            // Writing to a string does not fail.
            let _ = writeln!(printed, "{}", answer(&mut set, line));
        }
    }
    printed
}

fn answer(set: &mut Option<Set>, line: &[u8]) -> Line {
    if line.len() > LINE_BYTES {
        return Line::Bad { number: 33, place: LINE_BYTES + 1 };
    }
    match (read(line), set.as_mut()) {
        (Err(Place(place)), _) => Line::Bad { number: 31, place },
        (Ok(Form::Make(made)), None) => match Set::make(made) {
            Ok(made) => {
                *set = Some(made);
                Line::Done(None)
            }
            Err(refusal) => Line::No(refusal),
        },
        (Ok(Form::Make(_)), Some(_)) | (Ok(_), None) => Line::Bad { number: 32, place: 1 },
        (Ok(form), Some(set)) => call(set, form).unwrap_or_else(Line::No),
    }
}

/// Calls a set that was made.
fn call(set: &mut Set, form: Form) -> Result<Line, Refusal> {
    Ok(match form {
        Form::Make(_) => Line::Bad { number: 32, place: 1 },
        Form::Tune(channel) => Line::Done(set.tune(channel)?),
        Form::Begin(service) => {
            set.begin(service)?;
            Line::Done(None)
        }
        Form::Take => {
            if set.take() {
                Line::Done(None)
            } else {
                Line::Empty
            }
        }
        Form::Sent => {
            set.sent()?;
            Line::Done(None)
        }
        Form::Held => {
            set.held()?;
            Line::Done(None)
        }
        Form::Cancel => Line::Done(Some(set.cancel()?)),
        Form::Slot(code, content) => Line::Heard(set.slot(code, &content)?),
    })
}
