//! The C12.18 requests of document 02's E2 and their replies: read, written,
//! and answered from a description and an image (refusals 21 and 43).

use crate::access;
use crate::refusal::Refusal;

/// "A reply or request that doesn't fit the lent room, or a number that
/// doesn't fit its field, is refused as 21".
pub const DOES_NOT_FIT: u64 = 21;
/// "a reply read that has none of these forms is 43".
pub const NO_REPLY: u64 = 43;

/// What a request is refused with before the tables are asked, and what the
/// tables' refusals are replied as.
const BAD: u64 = 1;
const UNKNOWN: u64 = 2;
const NOT_WRITABLE: u64 = 3;
const OTHER: u64 = 4;

/// A request. Its numbers may be any; what doesn't fit its field can't be
/// written. A write's count is its data's length.
#[derive(Clone, PartialEq, Eq, Debug)]
pub enum Request {
    FullRead { id: u64 },
    OffsetRead { id: u64, offset: u64, count: u64 },
    FullWrite { id: u64, data: Vec<u8> },
    OffsetWrite { id: u64, offset: u64, data: Vec<u8> },
}

/// A reply: of a good read, of a good write, or 01 to 04.
#[derive(Clone, PartialEq, Eq, Debug)]
pub enum Reply {
    Data(Vec<u8>),
    Done,
    Refused(u64),
}

/// "The sum of the data octets wraps at 256, and the check octet is its two's
/// complement": the octet that makes the sum a multiple of 256.
pub fn check_octet(data: &[u8]) -> u8 {
    let sum: u64 = data.iter().map(|octet| u64::from(*octet)).sum();
    ((256 - sum % 256) % 256) as u8
}

// ----------------------------------------------------------------- reading

/// What is left of a message; none where it is shorter than is asked.
struct Rest<'a>(&'a [u8]);

impl<'a> Rest<'a> {
    fn take(&mut self, octets: usize) -> Option<&'a [u8]> {
        if self.0.len() < octets {
            return None;
        }
        let (taken, rest) = self.0.split_at(octets);
        self.0 = rest;
        Some(taken)
    }

    /// "all most significant octet first"
    fn number(&mut self, octets: usize) -> Option<u64> {
        let taken = self.take(octets)?;
        Some(taken.iter().fold(0, |value, octet| value * 256 + u64::from(*octet)))
    }

    /// "count, data, check octet": the data, where the check octet is right.
    fn data(&mut self) -> Option<Vec<u8>> {
        let count = self.number(2)?;
        let data = self.take(count as usize)?;
        let check = self.number(1)?;
        if check == u64::from(check_octet(data)) {
            Some(data.to_vec())
        } else {
            None
        }
    }

    /// The end of the message: nothing is left.
    fn end(&self) -> Option<()> {
        if self.0.is_empty() {
            Some(())
        } else {
            None
        }
    }
}

fn full_read(rest: &mut Rest) -> Option<Request> {
    Some(Request::FullRead { id: rest.number(2)? })
}

fn offset_read(rest: &mut Rest) -> Option<Request> {
    let (id, offset, count) = (rest.number(2)?, rest.number(3)?, rest.number(2)?);
    Some(Request::OffsetRead { id, offset, count })
}

fn full_write(rest: &mut Rest) -> Option<Request> {
    Some(Request::FullWrite { id: rest.number(2)?, data: rest.data()? })
}

fn offset_write(rest: &mut Rest) -> Option<Request> {
    let (id, offset) = (rest.number(2)?, rest.number(3)?);
    Some(Request::OffsetWrite { id, offset, data: rest.data()? })
}

/// The request that octets are, or what refuses it, first that applies: "empty
/// request replies 01; unknown request 02; wrong length or check octet 01".
pub fn read_request(octets: &[u8]) -> Result<Request, u64> {
    let (first, rest) = match octets.split_first() {
        Some((first, rest)) => (*first, rest),
        None => return Err(BAD),
    };
    let form = match first {
        0x30 => full_read,
        0x3f => offset_read,
        0x40 => full_write,
        0x4f => offset_write,
        _ => return Err(UNKNOWN),
    };
    let mut rest = Rest(rest);
    let read = form(&mut rest);
    match (read, rest.end()) {
        (Some(request), Some(())) => Ok(request),
        _ => Err(BAD),
    }
}

/// The reply that octets are: "00, count, data, check octet", 00, or 01 to 04.
pub fn read_reply(octets: &[u8]) -> Result<Reply, u64> {
    match octets {
        [0] => Ok(Reply::Done),
        [code @ 1..=4] => Ok(Reply::Refused(u64::from(*code))),
        [0, rest @ ..] => {
            let mut rest = Rest(rest);
            match (rest.data(), rest.end()) {
                (Some(data), Some(())) => Ok(Reply::Data(data)),
                _ => Err(NO_REPLY),
            }
        }
        _ => Err(NO_REPLY),
    }
}

// ----------------------------------------------------------------- writing

/// A number in its field, or 21.
fn put(message: &mut Vec<u8>, value: u64, octets: u32) -> Result<(), u64> {
    if value >= 256u64.pow(octets) {
        return Err(DOES_NOT_FIT);
    }
    for place in (0..octets).rev() {
        message.push((value / 256u64.pow(place) % 256) as u8);
    }
    Ok(())
}

/// Count, data and check octet, or 21.
fn put_data(message: &mut Vec<u8>, data: &[u8]) -> Result<(), u64> {
    put(message, data.len() as u64, 2)?;
    message.extend_from_slice(data);
    message.push(check_octet(data));
    Ok(())
}

/// A message that fits the lent room, or 21.
fn within(message: Vec<u8>, room: u64) -> Result<Vec<u8>, u64> {
    if message.len() as u64 > room {
        Err(DOES_NOT_FIT)
    } else {
        Ok(message)
    }
}

/// The octets of a request.
pub fn write_request(request: &Request, room: u64) -> Result<Vec<u8>, u64> {
    let mut message = Vec::new();
    match request {
        Request::FullRead { id } => {
            message.push(0x30);
            put(&mut message, *id, 2)?;
        }
        Request::OffsetRead { id, offset, count } => {
            message.push(0x3f);
            put(&mut message, *id, 2)?;
            put(&mut message, *offset, 3)?;
            put(&mut message, *count, 2)?;
        }
        Request::FullWrite { id, data } => {
            message.push(0x40);
            put(&mut message, *id, 2)?;
            put_data(&mut message, data)?;
        }
        Request::OffsetWrite { id, offset, data } => {
            message.push(0x4f);
            put(&mut message, *id, 2)?;
            put(&mut message, *offset, 3)?;
            put_data(&mut message, data)?;
        }
    }
    within(message, room)
}

/// The octets of a reply. A refusal's code is 1 to 4.
pub fn write_reply(reply: &Reply, room: u64) -> Result<Vec<u8>, u64> {
    let mut message = Vec::new();
    match reply {
        Reply::Data(data) => {
            message.push(0);
            put_data(&mut message, data)?;
        }
        Reply::Done => message.push(0),
        Reply::Refused(code @ 1..=4) => message.push(*code as u8),
        Reply::Refused(_) => return Err(DOES_NOT_FIT),
    }
    within(message, room)
}

// --------------------------------------------------------------- answering

/// "a manufacturer table's id is its number plus 2,048, and an id over 4,095
/// names no table": manufacturer bit and number. A number over 2,047 is no
/// table's.
fn table_of(id: u64) -> (bool, u64) {
    if (2048..=4095).contains(&id) {
        (true, id - 2048)
    } else {
        // A standard table's own number; from 4,096 on there is none.
        (false, id)
    }
}

/// "the tables' 13 replies 03, any other of theirs 04".
fn refused(refusal: Refusal) -> Reply {
    Reply::Refused(if refusal.no == 13 { NOT_WRITABLE } else { OTHER })
}

/// The reply to a request, and the image after it.
fn answer(d: &[u8], image: &[u8], request: &Request) -> (Reply, Vec<u8>) {
    let read = |result: Result<access::Place, Refusal>| match result {
        Ok(place) => (Reply::Data(place.part(image).to_vec()), image.to_vec()),
        Err(refusal) => (refused(refusal), image.to_vec()),
    };
    let write = |result: Result<Vec<u8>, Refusal>| match result {
        Ok(later) => (Reply::Done, later),
        Err(refusal) => (refused(refusal), image.to_vec()),
    };
    match request {
        Request::FullRead { id } => {
            let (mfr, num) = table_of(*id);
            read(access::table(d, image, mfr, num))
        }
        // A count of 0 asks for no octets.
        Request::OffsetRead { id, offset, count } => {
            let (mfr, num) = table_of(*id);
            read(access::read_range(d, image, mfr, num, *offset, *count))
        }
        Request::FullWrite { id, data } => {
            let (mfr, num) = table_of(*id);
            write(access::write_table(d, image, mfr, num, data))
        }
        Request::OffsetWrite { id, offset, data } => {
            let (mfr, num) = table_of(*id);
            write(access::write_range(d, image, mfr, num, *offset, data))
        }
    }
}

/// The question "answer a request": the reply's octets and the image after the
/// call, or 21 where the reply doesn't fit the room, which leaves the image as
/// it was ("before any write is done").
pub fn serve(
    d: &[u8],
    image: &[u8],
    room: u64,
    request: &[u8],
) -> Result<(Vec<u8>, Vec<u8>), u64> {
    let (reply, later) = match read_request(request) {
        Ok(request) => answer(d, image, &request),
        Err(code) => (Reply::Refused(code), image.to_vec()),
    };
    Ok((write_reply(&reply, room)?, later))
}
