//! Reads a line as a form, or answers the place of its leftmost fault.
//!
//! At each item only one kind may come, or two that differ in their first byte. So reading from left to right and
//! stopping at the first item that may not come finds the leftmost fault.

use crate::content::{Content, First, Function, Kind};
use crate::form::{Form, Make};
use crate::items::{number, Item, Items, Place};
use crate::service::Service;

/// The most numbers that `draws` may have.
const DRAWS: usize = 16;

pub fn read(line: &[u8]) -> Result<Form, Place> {
    let mut items = Items::new(line);
    let form = form(&mut items)?;
    items.end()?;
    Ok(form)
}

#[derive(Clone, Copy)]
enum FormName {
    Make,
    Tune,
    Begin,
    Take,
    Sent,
    Held,
    Cancel,
    Slot,
}

fn form_name(word: &[u8]) -> Option<FormName> {
    Some(match word {
        b"make" => FormName::Make,
        b"tune" => FormName::Tune,
        b"begin" => FormName::Begin,
        b"take" => FormName::Take,
        b"sent" => FormName::Sent,
        b"held" => FormName::Held,
        b"cancel" => FormName::Cancel,
        b"slot" => FormName::Slot,
        _ => return None,
    })
}

fn form(items: &mut Items) -> Result<Form, Place> {
    items.open()?;
    let form = match items.word(form_name)? {
        FormName::Make => Form::Make(make(items)?),
        FormName::Tune => Form::Tune(items.field()?),
        FormName::Begin => {
            items.space()?;
            Form::Begin(items.word(service)?)
        }
        FormName::Take => Form::Take,
        FormName::Sent => Form::Sent,
        FormName::Held => Form::Held,
        FormName::Cancel => Form::Cancel,
        FormName::Slot => {
            items.space()?;
            let code = match items.peek() {
                Item::Open => None,
                _ => {
                    let code = items.number()?;
                    items.space()?;
                    Some(code)
                }
            };
            Form::Slot(code, content(items)?)
        }
    };
    items.close()?;
    Ok(form)
}

fn make(items: &mut Items) -> Result<Make, Place> {
    let address = items.field()?;
    let channel = items.field()?;
    let nr = items.field()?;
    let tc = items.field()?;
    let ts = items.field()?;
    let tj = items.field()?;
    let nw = items.field()?;
    items.space()?;
    items.open()?;
    items.word(|word| (word == b"mask").then_some(()))?;
    let mask = items.field()?;
    let value = items.field()?;
    items.close()?;
    items.space()?;
    items.open()?;
    items.word(|word| (word == b"draws").then_some(()))?;
    let mut draws = Vec::new();
    while draws.len() < DRAWS && items.peek() == Item::Space {
        draws.push(items.field()?);
    }
    items.close()?;
    Ok(Make { address, channel, nr, tc, ts, tj, nw, mask, value, draws })
}

fn service(word: &[u8]) -> Option<Service> {
    Some(match word {
        b"rqs" => Service::Rqs,
        b"rqr" => Service::Rqr,
        b"rqe" => Service::Rqe,
        _ => return None,
    })
}

#[derive(Clone, Copy)]
enum ContentName {
    Deaf,
    Data,
    Aloha,
    Reply,
    Go,
    Ahy,
    Ahyq,
    Head,
    Mark,
    Bcast,
    Move,
    Other,
}

fn content_name(word: &[u8]) -> Option<ContentName> {
    Some(match word {
        b"deaf" => ContentName::Deaf,
        b"data" => ContentName::Data,
        b"aloha" => ContentName::Aloha,
        b"reply" => ContentName::Reply,
        b"go" => ContentName::Go,
        b"ahy" => ContentName::Ahy,
        b"ahyq" => ContentName::Ahyq,
        b"head" => ContentName::Head,
        b"mark" => ContentName::Mark,
        b"bcast" => ContentName::Bcast,
        b"move" => ContentName::Move,
        b"other" => ContentName::Other,
        _ => return None,
    })
}

/// The fields of a struct expression are evaluated in the order in which they are written.
fn content(items: &mut Items) -> Result<Content, Place> {
    items.open()?;
    let content = match items.word(content_name)? {
        ContentName::Deaf => Content::Deaf,
        ContentName::Data => Content::Data { rsa: items.field()?, mine: items.field()? },
        ContentName::Aloha => {
            items.space()?;
            Content::Aloha {
                function: items.word(function)?,
                n: items.field()?,
                wt: items.field()?,
                m: items.field()?,
                address: items.field()?,
            }
        }
        ContentName::Reply => {
            items.space()?;
            let kind = items.word(kind)?;
            let qual = items.field()?;
            let n = items.field()?;
            items.space()?;
            let first = items.word(first)?;
            let to = items.field()?;
            Content::Reply { kind, qual, n, first, to }
        }
        ContentName::Go => {
            Content::Go { to: items.field()?, with: items.field()?, channel: items.field()?, n: items.field()? }
        }
        ContentName::Ahy => Content::Ahy { ad: items.field()?, to: items.field()? },
        ContentName::Ahyq => Content::Ahyq { ipfixi: items.field()?, to: items.field()? },
        ContentName::Head => Content::Head { to: items.field()? },
        ContentName::Mark => Content::Mark,
        ContentName::Bcast => Content::Bcast,
        ContentName::Move => Content::Move { m: items.field()?, address: items.field()?, channel: items.field()? },
        ContentName::Other => Content::Other,
    };
    items.close()?;
    Ok(content)
}

fn function(word: &[u8]) -> Option<Function> {
    Some(match word {
        b"alh" => Function::Alh,
        b"alhs" => Function::Alhs,
        b"alhd" => Function::Alhd,
        b"alhe" => Function::Alhe,
        b"alhr" => Function::Alhr,
        b"alhx" => Function::Alhx,
        b"alhf" => Function::Alhf,
        b"unknown" => Function::Unknown,
        _ => return None,
    })
}

fn kind(word: &[u8]) -> Option<Kind> {
    Some(match word {
        b"ack" => Kind::Ack,
        b"acki" => Kind::Acki,
        b"ackx" => Kind::Ackx,
        b"ackv" => Kind::Ackv,
        b"acke" => Kind::Acke,
        b"acko" => Kind::Acko,
        _ => return None,
    })
}

fn first(word: &[u8]) -> Option<First> {
    if word == b"regi" {
        Some(First::Regi)
    } else {
        number(word).map(First::Plain)
    }
}

#[cfg(test)]
mod tests {
    use super::read;
    use crate::items::Place;

    /// The table of places in docs/SCRIPTS.md.
    #[test]
    fn places() {
        let seventeen = "(make 5 12 2 50 20 30 4 (mask 0 0) (draws 1 2 3 4 5 6 7 8 9 10 11 12 13 14 15 16 17))";
        let table = [
            ("", 1),
            ("take", 1),
            ("(tak", 2),
            ("(TAKE)", 2),
            ("()", 2),
            ("(take", 6),
            ("(take )", 6),
            ("(take))", 7),
            ("(tune\t5)", 2),
            ("(tune )", 7),
            ("(tune  5)", 7),
            ("(tune 5x)", 7),
            ("(tune 05)", 7),
            ("(tune 10000000)", 7),
            ("(tune 5 6)", 8),
            ("(slot 77(mark))", 9),
            ("(slot 77 (mark x)", 15),
            ("(slot (mark)", 13),
            ("(slot (aloha alhq 1 2 3 4))", 14),
            ("(make 5 12 2 50 20 30 4 (mask 0 0) (draws ))", 43),
            (seventeen, 81),
        ];
        for (line, place) in table {
            assert_eq!(read(line.as_bytes()).err(), Some(Place(place)), "{line}");
        }
    }
}
