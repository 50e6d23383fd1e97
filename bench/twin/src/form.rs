//! What a line of a script may say.

use crate::content::Content;
use crate::service::Service;

#[derive(Debug)]
pub enum Form {
    Make(Make),
    Tune(u32),
    Begin(Service),
    Take,
    Sent,
    Held,
    Cancel,
    Slot(Option<u32>, Content),
}

/// The fields of `make`, in the order of a line.
#[derive(Debug)]
pub struct Make {
    pub address: u32,
    pub channel: u32,
    pub nr: u32,
    pub tc: u32,
    pub ts: u32,
    pub tj: u32,
    pub nw: u32,
    pub mask: u32,
    pub value: u32,
    pub draws: Vec<u32>,
}
