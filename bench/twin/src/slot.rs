//! One heard slot (docs/RULES.md, "One heard slot, step by step").

use crate::content::{delay, fits, is_code, Content, Function};
use crate::service::{Verdict, Word};
use crate::set::{Choice, End, Frame, Phase, Refusal, Request, Set, Stay};

#[derive(Clone, Copy, Debug, PartialEq, Eq)]
pub enum State {
    Search,
    Idle,
    Try,
    Wait,
}

pub struct Answer {
    pub state: State,
    /// A permit is ready.
    pub open: bool,
    pub end: Option<End>,
}

impl Set {
    pub fn slot(&mut self, code: Option<u32>, content: &Content) -> Result<Answer, Refusal> {
        self.refuse_while_out()?;
        if !code.is_none_or(is_code) {
            return Err(Refusal(21));
        }
        if !content.is_in_range() {
            return Err(Refusal(22));
        }
        self.now += 1;
        self.lapse();
        let end = if self.is_staying(code) && !self.is_moved(content) {
            self.note(content);
            self.mark(content);
            let end = self.judge(content).or_else(|| self.limit_try()).or_else(|| self.limit_wait());
            if end.is_some() {
                self.request = None;
            }
            self.choose();
            self.permit(content);
            end
        } else {
            self.stay = None;
            // The slot that loses the stay does not count for the age.
            self.request.take().map(|request| request.end(Word::Lost, self.now - 1))
        };
        let open = matches!(self.choice(), Some(Choice::Ready));
        Ok(Answer { state: self.state(), open, end })
    }

    fn state(&self) -> State {
        match (&self.stay, &self.request) {
            (None, _) => State::Search,
            (_, None) => State::Idle,
            (_, Some(Request { phase: Phase::Try { .. }, .. })) => State::Try,
            (_, Some(Request { phase: Phase::Wait, .. })) => State::Wait,
        }
    }

    /// The lapse.
    fn lapse(&mut self) {
        if let Some(choice) = self.choice() {
            if *choice == Choice::Ready {
                *choice = Choice::None;
            }
        }
    }

    /// Becoming active and losing the channel: whether the set has a stay after the slot's code.
    fn is_staying(&mut self, code: Option<u32>) -> bool {
        let accepted = code.map(|code| code & self.made.mask == self.made.value);
        match (&mut self.stay, accepted) {
            (Some(stay), Some(true)) => {
                stay.last_code = self.now;
                true
            }
            (Some(stay), None) => self.now - stay.last_code < u64::from(self.made.ts),
            (None, Some(true)) => {
                self.stay = Some(Stay {
                    last_code: self.now,
                    function: Function::Alhx,
                    m: 0,
                    address: 0,
                    wait: u64::from(self.made.nw),
                    frames: Vec::new(),
                });
                true
            }
            (_, Some(false)) | (None, None) => false,
        }
    }

    /// Moving.
    fn is_moved(&mut self, content: &Content) -> bool {
        match content.moves(self.made.address) {
            Some(channel) => {
                self.made.channel = channel;
                true
            }
            None => false,
        }
    }

    /// Noting.
    fn note(&mut self, content: &Content) {
        if let (Some(stay), &Content::Aloha { function, wt, m, address, .. }) = (&mut self.stay, content) {
            stay.function = function;
            stay.m = m;
            stay.address = address;
            stay.wait = delay(wt);
        }
    }

    /// Marking. Frames that are over are forgotten.
    fn mark(&mut self, content: &Content) {
        let now = self.now;
        if let Some(stay) = &mut self.stay {
            stay.frames.retain(|frame| frame.last > now);
            let slots = content.marked();
            if slots > 0 {
                stay.frames.push(Frame { function: stay.function, marker: now, last: now + slots });
            }
        }
    }

    /// Answers. The age of a request is the distance from its begin, so it rises by itself.
    fn judge(&mut self, content: &Content) -> Option<End> {
        let request = self.request.as_mut()?;
        match request.service.judge(content, self.made.address) {
            Verdict::Nothing => None,
            Verdict::Interim => {
                request.phase = Phase::Wait;
                None
            }
            Verdict::End(word) => Some(request.end(word, self.now)),
        }
    }

    /// Limits of try.
    fn limit_try(&mut self) -> Option<End> {
        let request = self.request.as_mut()?;
        let Phase::Try { window, .. } = &mut request.phase else {
            return None;
        };
        if window.is_some_and(|over| over <= self.now) {
            *window = None;
        }
        if window.is_none() && request.transmissions >= self.made.nr {
            request.phase = Phase::Wait;
        } else if self.now - request.begun >= u64::from(self.made.tc) {
            if request.transmissions == 0 {
                return Some(request.end(Word::NoAccess, self.now));
            }
            request.phase = Phase::Wait;
        }
        None
    }

    /// Limit of wait.
    fn limit_wait(&mut self) -> Option<End> {
        let request = self.request.as_ref()?;
        let waiting = matches!(request.phase, Phase::Wait);
        let over = self.now - request.counted_from >= u64::from(self.made.tj);
        (waiting && over).then(|| request.end(Word::Unknown, self.now))
    }

    /// Choosing.
    fn choose(&mut self) {
        let (Some(stay), Some(request)) = (&self.stay, &mut self.request) else {
            return;
        };
        let Phase::Try { window: None, choice: choice @ Choice::None } = &mut request.phase else {
            return;
        };
        let service = request.service;
        let admitted = fits(stay.m, stay.address, self.made.address) || (service.is_emergency() && stay.m < 20);
        // Every frame that is kept covers the next return slot.
        let mut suitable = stay.frames.iter().filter(|frame| admitted && service.is_invited_by(frame.function));
        let is_first_try = self.now - request.begun == 1;
        // The newest frame stands last.
        match suitable.next_back() {
            Some(frame) if frame.marker == self.now => {
                let slots = frame.last - frame.marker;
                let ahead = match self.made.draws.get(self.draws_used) {
                    Some(&number) => {
                        self.draws_used += 1;
                        u64::from(number) % slots + 1
                    }
                    None => 1,
                };
                *choice = Choice::Slot(self.now + ahead);
            }
            Some(_) if is_first_try => *choice = Choice::Slot(self.now + 1),
            _ => {}
        }
    }

    /// The permit.
    fn permit(&mut self, content: &Content) {
        let next = self.now + 1;
        let free = content.leaves_free(self.made.address);
        if let Some(choice) = self.choice() {
            if *choice == Choice::Slot(next) {
                *choice = if free { Choice::Ready } else { Choice::None };
            }
        }
    }
}
