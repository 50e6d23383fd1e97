//! The set: what it keeps, and all its calls but `slot` (docs/RULES.md).
//!
//! Heard slots are numbered from 1 for the whole run, and everything that happens in time is kept as the number of a
//! slot. A script is short, so the numbers cannot run out.

use crate::content::{is_address, is_channel, Function};
use crate::form::Make;
use crate::service::{Service, Word};

/// The number of a refusal.
#[derive(Clone, Copy, Debug, PartialEq, Eq)]
pub struct Refusal(pub u32);

pub struct Set {
    /// What it was made with. Channel and used draws change.
    pub(crate) made: Make,
    pub(crate) draws_used: usize,
    /// The number of the newest heard slot.
    pub(crate) now: u64,
    pub(crate) stay: Option<Stay>,
    pub(crate) request: Option<Request>,
}

pub(crate) struct Stay {
    /// The newest slot with an accepted code.
    pub(crate) last_code: u64,
    pub(crate) function: Function,
    pub(crate) m: u32,
    pub(crate) address: u32,
    pub(crate) wait: u64,
    pub(crate) frames: Vec<Frame>,
}

/// The return slots from the one after `marker` to `last`.
pub(crate) struct Frame {
    pub(crate) function: Function,
    pub(crate) marker: u64,
    pub(crate) last: u64,
}

pub(crate) struct Request {
    pub(crate) service: Service,
    pub(crate) begun: u64,
    pub(crate) transmissions: u32,
    /// The slot after which the last transmission was made, or `begun`.
    pub(crate) counted_from: u64,
    pub(crate) phase: Phase,
}

pub(crate) enum Phase {
    Try {
        /// The slot at which the response window is over, if one runs.
        window: Option<u64>,
        choice: Choice,
    },
    Wait,
}

#[derive(Clone, Copy, PartialEq, Eq)]
pub(crate) enum Choice {
    None,
    /// The return slot of this number.
    Slot(u64),
    /// The next return slot, with its permit ready.
    Ready,
    /// The next return slot, with its permit out.
    Out,
}

#[derive(Clone, Copy, Debug, PartialEq, Eq)]
pub struct End {
    pub word: Word,
    pub transmissions: u32,
    pub age: u64,
}

impl Request {
    /// The end of this request at the age that it has in slot `now`.
    pub(crate) fn end(&self, word: Word, now: u64) -> End {
        End { word, transmissions: self.transmissions, age: now - self.begun }
    }
}

impl Set {
    pub fn make(made: Make) -> Result<Set, Refusal> {
        let timers = [made.tc, made.ts, made.tj];
        if !is_address(made.address) {
            Err(Refusal(11))
        } else if !is_channel(made.channel) {
            Err(Refusal(12))
        } else if !(1..=32).contains(&made.nr) {
            Err(Refusal(13))
        } else if !timers.iter().all(|timer| (1..=60_000).contains(timer)) {
            Err(Refusal(14))
        } else if made.nw > 15 {
            Err(Refusal(15))
        } else {
            Ok(Set { made, draws_used: 0, now: 0, stay: None, request: None })
        }
    }

    pub fn tune(&mut self, channel: u32) -> Result<Option<End>, Refusal> {
        self.refuse_while_out()?;
        if !is_channel(channel) {
            return Err(Refusal(12));
        }
        self.made.channel = channel;
        self.stay = None;
        Ok(self.request.take().map(|request| request.end(Word::Lost, self.now)))
    }

    pub fn begin(&mut self, service: Service) -> Result<(), Refusal> {
        self.refuse_while_out()?;
        if self.stay.is_none() {
            return Err(Refusal(1));
        }
        if self.request.is_some() {
            return Err(Refusal(2));
        }
        self.request = Some(Request {
            service,
            begun: self.now,
            transmissions: 0,
            counted_from: self.now,
            phase: Phase::Try { window: None, choice: Choice::None },
        });
        Ok(())
    }

    /// Hands over a ready permit. Answers whether there was one.
    pub fn take(&mut self) -> bool {
        match self.choice() {
            Some(choice) if *choice == Choice::Ready => {
                *choice = Choice::Out;
                true
            }
            _ => false,
        }
    }

    /// The permit that is out comes back, and a transmission was made.
    pub fn sent(&mut self) -> Result<(), Refusal> {
        self.held()?;
        let now = self.now;
        // A permit is out in a stay only.
        let wait = self.stay.as_ref().map_or(0, |stay| stay.wait);
        if let Some(request) = &mut self.request {
            request.transmissions += 1;
            request.counted_from = now;
            request.phase = Phase::Try { window: Some(now + wait + 2), choice: Choice::None };
        }
        Ok(())
    }

    /// The permit that is out comes back unused.
    pub fn held(&mut self) -> Result<(), Refusal> {
        match self.choice() {
            Some(choice) if *choice == Choice::Out => {
                *choice = Choice::None;
                Ok(())
            }
            _ => Err(Refusal(4)),
        }
    }

    pub fn cancel(&mut self) -> Result<End, Refusal> {
        self.refuse_while_out()?;
        let request = self.request.take().ok_or(Refusal(6))?;
        Ok(request.end(Word::Withdrawn, self.now))
    }

    pub(crate) fn refuse_while_out(&mut self) -> Result<(), Refusal> {
        match self.choice() {
            Some(Choice::Out) => Err(Refusal(3)),
            _ => Ok(()),
        }
    }

    /// The choice of a request in try.
    pub(crate) fn choice(&mut self) -> Option<&mut Choice> {
        match &mut self.request {
            Some(Request { phase: Phase::Try { choice, .. }, .. }) => Some(choice),
            _ => None,
        }
    }
}
