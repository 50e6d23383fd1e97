//! What a heard slot says by itself (docs/SIGNALLING.md).

#[derive(Clone, Copy, Debug, PartialEq, Eq)]
pub enum Function {
    Alh,
    Alhs,
    Alhd,
    Alhe,
    Alhr,
    Alhx,
    Alhf,
    Unknown,
}

#[derive(Clone, Copy, Debug, PartialEq, Eq)]
pub enum Kind {
    Ack,
    Acki,
    Ackx,
    Ackv,
    Acke,
    Acko,
}

/// The first ident of a reply.
#[derive(Clone, Copy, Debug, PartialEq, Eq)]
pub enum First {
    Regi,
    Plain(u32),
}

#[derive(Debug)]
pub enum Content {
    Deaf,
    Data { rsa: u32, mine: u32 },
    Aloha { function: Function, n: u32, wt: u32, m: u32, address: u32 },
    Reply { kind: Kind, qual: u32, n: u32, first: First, to: u32 },
    Go { to: u32, with: u32, channel: u32, n: u32 },
    Ahy { ad: u32, to: u32 },
    Ahyq { ipfixi: u32, to: u32 },
    Head { to: u32 },
    Mark,
    Bcast,
    Move { m: u32, address: u32, channel: u32 },
    Other,
}

const LARGEST_CODE: u32 = 32_767;
const LARGEST_IDENT: u32 = 8_191;
const LARGEST_M: u32 = 20;

/// Frame lengths by Aloha number (Table 7-1); 0 marks no frame.
const FOUR_BITS: [u64; 16] = [0, 1, 2, 3, 4, 5, 6, 7, 8, 9, 10, 12, 15, 19, 25, 32];
const TWO_BITS: [u64; 4] = [0, 1, 3, 6];

/// Response delays by WT (Table 7-2).
const DELAYS: [u64; 8] = [0, 1, 2, 3, 4, 5, 10, 15];

pub fn is_address(number: u32) -> bool {
    number < 1 << 20
}

pub fn is_channel(number: u32) -> bool {
    number < 1 << 10
}

pub fn is_code(number: u32) -> bool {
    number <= LARGEST_CODE
}

/// The delay that WT means. WT is in range.
pub fn delay(wt: u32) -> u64 {
    DELAYS[wt as usize]
}

/// Whether the M least significant bits of both addresses are equal.
pub fn fits(m: u32, address: u32, own: u32) -> bool {
    (address ^ own) & ((1 << m) - 1) == 0
}

impl Content {
    pub fn is_in_range(&self) -> bool {
        match *self {
            Content::Deaf | Content::Mark | Content::Bcast | Content::Other => true,
            Content::Data { rsa, mine } => rsa <= 1 && mine <= 1,
            Content::Aloha { n, wt, m, address, .. } => n <= 15 && wt <= 7 && m <= LARGEST_M && is_address(address),
            Content::Reply { qual, n, first, to, .. } => {
                let first_in_range = match first {
                    First::Regi => true,
                    First::Plain(ident) => ident <= LARGEST_IDENT,
                };
                qual <= 1 && n <= 15 && first_in_range && is_address(to)
            }
            Content::Go { to, with, channel, n } => is_address(to) && is_address(with) && is_channel(channel) && n <= 3,
            Content::Ahy { ad, to } => ad <= 1 && is_address(to),
            Content::Ahyq { ipfixi, to } => ipfixi <= 1 && is_address(to),
            Content::Head { to } => is_address(to),
            Content::Move { m, address, channel } => m <= LARGEST_M && is_address(address) && is_channel(channel),
        }
    }

    /// The slots of the frame that this content marks; 0 if it marks none. The content is in range.
    pub fn marked(&self) -> u64 {
        match *self {
            Content::Aloha { n, .. } | Content::Reply { n, .. } => FOUR_BITS[n as usize],
            Content::Go { n, .. } => TWO_BITS[n as usize],
            _ => 0,
        }
    }

    /// The channel that the unit of this address is moved to, if it is moved.
    pub fn moves(&self, own: u32) -> Option<u32> {
        match *self {
            Content::Move { m, address, channel } if fits(m, address, own) => Some(channel),
            _ => None,
        }
    }

    /// Whether the next return slot is free for random access by the unit of this address.
    pub fn leaves_free(&self, own: u32) -> bool {
        match *self {
            Content::Deaf | Content::Other => false,
            Content::Reply { .. } | Content::Go { .. } | Content::Mark | Content::Bcast => true,
            Content::Data { rsa, mine } => rsa == 1 && mine == 0,
            Content::Aloha { m, address, .. } => m != LARGEST_M || fits(m, address, own),
            Content::Ahy { ad, to } => ad == 1 && to != own,
            Content::Ahyq { ipfixi, to } => ipfixi == 1 && to != own,
            Content::Head { to } => to != own,
            Content::Move { .. } => self.moves(own).is_none(),
        }
    }
}
