//! The three services: what invites them, and what a content means to them (docs/PARTS.md).

use crate::content::{Content, First, Function, Kind};

#[derive(Clone, Copy, Debug, PartialEq, Eq)]
pub enum Service {
    /// A call.
    Rqs,
    /// A registration.
    Rqr,
    /// An emergency call.
    Rqe,
}

/// How a request ended.
#[derive(Clone, Copy, Debug, PartialEq, Eq)]
pub enum Word {
    NoAccess,
    Unknown,
    Lost,
    Withdrawn,
    Denied,
    Overload,
    Accepted,
    Unavailable,
    Granted,
}

pub enum Verdict {
    Nothing,
    Interim,
    End(Word),
}

impl Service {
    pub fn is_emergency(self) -> bool {
        self == Service::Rqe
    }

    pub fn is_invited_by(self, function: Function) -> bool {
        match function {
            Function::Alh | Function::Alhs => true,
            Function::Alhd | Function::Alhr => self != Service::Rqs,
            Function::Alhe => self == Service::Rqe,
            Function::Alhx => self != Service::Rqr,
            Function::Alhf | Function::Unknown => false,
        }
    }

    pub fn judge(self, content: &Content, own: u32) -> Verdict {
        match *content {
            Content::Reply { kind, qual, first, to, .. } if to == own => match (self, first) {
                (Service::Rqr, First::Regi) => registration(kind, qual),
                (Service::Rqs | Service::Rqe, First::Plain(_)) => call(kind, qual),
                _ => Verdict::Nothing,
            },
            Content::Go { to, with, .. } if self != Service::Rqr && (to == own || with == own) => {
                Verdict::End(Word::Granted)
            }
            _ => Verdict::Nothing,
        }
    }
}

fn registration(kind: Kind, qual: u32) -> Verdict {
    match (kind, qual) {
        (Kind::Ack, 0) => Verdict::End(Word::Accepted),
        (Kind::Acki, 1) => Verdict::Interim,
        (Kind::Ackx, 0) => Verdict::End(Word::Denied),
        (Kind::Ackx, 1) => Verdict::End(Word::Overload),
        _ => Verdict::Nothing,
    }
}

fn call(kind: Kind, qual: u32) -> Verdict {
    match (kind, qual) {
        (Kind::Acki, _) => Verdict::Interim,
        (Kind::Ackx, 0) => Verdict::End(Word::Denied),
        (Kind::Ackx, 1) => Verdict::End(Word::Overload),
        (Kind::Ackv, _) => Verdict::End(Word::Unavailable),
        _ => Verdict::Nothing,
    }
}
