//! The printed lines (docs/SCRIPTS.md, "Printed lines").

use crate::service::Word;
use crate::set::{End, Refusal};
use crate::slot::{Answer, State};
use std::fmt::{self, Display, Formatter};

/// What is printed for a script that is too long.
pub const TOO_LONG: &str = "(bad 34 0)\n";

/// The answer to one line of a script.
pub enum Line {
    Done(Option<End>),
    Heard(Answer),
    /// No permit was handed over.
    Empty,
    No(Refusal),
    Bad {
        number: u32,
        place: usize,
    },
}

impl Display for Line {
    fn fmt(&self, f: &mut Formatter) -> fmt::Result {
        match self {
            Line::Done(None) => f.write_str("(done)"),
            Line::Done(Some(end)) => write!(f, "(done {end})"),
            Line::Heard(answer) => {
                write!(f, "(heard {}", answer.state)?;
                if answer.open {
                    f.write_str(" (open)")?;
                }
                if let Some(end) = &answer.end {
                    write!(f, " {end}")?;
                }
                f.write_str(")")
            }
            Line::Empty => f.write_str("(none)"),
            Line::No(Refusal(number)) => write!(f, "(no {number})"),
            Line::Bad { number, place } => write!(f, "(bad {number} {place})"),
        }
    }
}

impl Display for End {
    fn fmt(&self, f: &mut Formatter) -> fmt::Result {
        write!(f, "(end {} {} {})", self.word, self.transmissions, self.age)
    }
}

impl Display for State {
    fn fmt(&self, f: &mut Formatter) -> fmt::Result {
        f.write_str(match self {
            State::Search => "search",
            State::Idle => "idle",
            State::Try => "try",
            State::Wait => "wait",
        })
    }
}

impl Display for Word {
    fn fmt(&self, f: &mut Formatter) -> fmt::Result {
        f.write_str(match self {
            Word::NoAccess => "noaccess",
            Word::Unknown => "unknown",
            Word::Lost => "lost",
            Word::Withdrawn => "withdrawn",
            Word::Denied => "denied",
            Word::Overload => "overload",
            Word::Accepted => "accepted",
            Word::Unavailable => "unavailable",
            Word::Granted => "granted",
        })
    }
}
