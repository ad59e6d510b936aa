//! The line language: a request in, a reply out.

use crate::access;
use crate::calendar::{self, Date, What};
use crate::causes::Name;
use crate::description;
use crate::layout;
use crate::messages::{self, Reply, Request};
use crate::refusal::Refusal;

/// The longest line that is read, the line feed not counted.
pub const LONGEST_LINE: usize = 300_000;

/// The most room that can be lent: the longest request's octets.
const MOST_ROOM: u64 = 65_544;

/// A number: one or more decimal digits, leading zeros allowed, no sign; none
/// where it is over its type.
fn number(word: &[u8], most: u64) -> Option<u64> {
    if word.is_empty() {
        return None;
    }
    let mut value = 0u64;
    for octet in word {
        if !octet.is_ascii_digit() {
            return None;
        }
        value = value.checked_mul(10)?.checked_add(u64::from(octet - b'0'))?;
    }
    if value > most {
        None
    } else {
        Some(value)
    }
}

fn hex_digit(octet: u8) -> Option<u8> {
    match octet {
        b'0'..=b'9' => Some(octet - b'0'),
        b'a'..=b'f' => Some(octet - b'a' + 10),
        _ => None,
    }
}

/// "Octets are lower-case hex, two digits each; `-` stands for no octets."
fn octets(word: &[u8]) -> Option<Vec<u8>> {
    if word == b"-" {
        return Some(Vec::new());
    }
    if word.is_empty() || word.len() % 2 != 0 {
        return None;
    }
    let mut read = Vec::with_capacity(word.len() / 2);
    for pair in word.chunks_exact(2) {
        read.push(hex_digit(pair[0])? * 16 + hex_digit(pair[1])?);
    }
    Some(read)
}

/// Octets as they stand in a reply.
fn written(octets: &[u8]) -> String {
    if octets.is_empty() {
        return String::from("-");
    }
    const DIGITS: &[u8; 16] = b"0123456789abcdef";
    let mut text = String::with_capacity(octets.len() * 2);
    for octet in octets {
        text.push(char::from(DIGITS[usize::from(octet / 16)]));
        text.push(char::from(DIGITS[usize::from(octet % 16)]));
    }
    text
}

/// The words of one request, read one after another.
struct Words<'a> {
    words: Vec<&'a [u8]>,
    next: usize,
}

impl<'a> Words<'a> {
    fn word(&mut self) -> Option<&'a [u8]> {
        let word = self.words.get(self.next).copied()?;
        self.next += 1;
        Some(word)
    }

    fn octets(&mut self) -> Option<Vec<u8>> {
        octets(self.word()?)
    }

    /// "Numbers run to 2^64 - 1"
    fn long(&mut self) -> Option<u64> {
        number(self.word()?, u64::MAX)
    }

    /// "`year` to `minute` to 2^32 - 1"
    fn short(&mut self) -> Option<u32> {
        Some(number(self.word()?, u64::from(u32::MAX))? as u32)
    }

    /// `year month day`
    fn date(&mut self) -> Option<Date> {
        let (year, month, day) = (self.short()?, self.short()?, self.short()?);
        Some(Date { year, month, day })
    }

    /// "`mfr` and `what` to 1"
    fn bit(&mut self) -> Option<bool> {
        Some(number(self.word()?, 1)? == 1)
    }

    /// "`num` to 65,535"
    fn table_number(&mut self) -> Option<u64> {
        number(self.word()?, 65_535)
    }

    /// "`room` is a number of octets, at most 65,544"
    fn room(&mut self) -> Option<u64> {
        number(self.word()?, MOST_ROOM)
    }

    /// "`S` = `item n s0 s1 s2 s3` (item number, how many subscripts count,
    /// four subscripts)"
    fn name(&mut self) -> Option<Name> {
        let item = self.long()?;
        let count = self.long()?;
        let subscripts = [self.long()?, self.long()?, self.long()?, self.long()?];
        Some(Name { item, count, subscripts })
    }

    /// The end of the request: no word is left.
    fn end(&self) -> Option<()> {
        if self.next == self.words.len() {
            Some(())
        } else {
            None
        }
    }
}

/// `no item octet depth` where nothing is refused.
const GRANTED: &str = "0 0 0 0";

/// `no item octet depth` of a refusal (document 02, E4).
fn head(refusal: &Refusal) -> String {
    format!("{} {} {} {}", refusal.no, refusal.item, refusal.octet, refusal.depth)
}

/// A reply whose own numbers are `good`, or `zeros` on a refusal ("every other
/// number is 0 on a refusal").
fn reply(result: Result<String, Refusal>, zeros: &str) -> String {
    let (head, rest) = match result {
        Ok(good) => (String::from(GRANTED), good),
        Err(refusal) => (head(&refusal), String::from(zeros)),
    };
    if rest.is_empty() {
        head
    } else {
        format!("{} {}", head, rest)
    }
}

/// A write's reply: "`M'` is the image after the call", which on a refusal is
/// the image as it was.
fn write_reply(result: Result<Vec<u8>, Refusal>, image: &[u8]) -> String {
    reply(result.map(|later| written(&later)), &written(image))
}

/// A message that was written, or the number that refuses it.
fn message_reply(result: Result<Vec<u8>, u64>) -> String {
    match result {
        Ok(message) => format!("0 {}", written(&message)),
        Err(no) => format!("{} -", no),
    }
}

/// `code kind id offset count DATA` of a request that was read. "offset 0 in
/// full forms; count 0 in a full read"; a write's count is its data's length.
fn request_reply(result: Result<Request, u64>) -> String {
    let none = Vec::new();
    let (code, kind, id, offset, count, data) = match &result {
        Err(code) => (*code, 0, 0, 0, 0, &none),
        Ok(Request::FullRead { id }) => (0, 48, *id, 0, 0, &none),
        Ok(Request::OffsetRead { id, offset, count }) => (0, 63, *id, *offset, *count, &none),
        Ok(Request::FullWrite { id, data }) => (0, 64, *id, 0, data.len() as u64, data),
        Ok(Request::OffsetWrite { id, offset, data }) => {
            (0, 79, *id, *offset, data.len() as u64, data)
        }
    };
    format!("{} {} {} {} {} {}", code, kind, id, offset, count, written(data))
}

/// The reply to a request, or none where the line is of no form.
fn answer_request(line: &[u8]) -> Option<String> {
    if line.len() > LONGEST_LINE {
        return None;
    }
    let mut words = Words { words: line.split(|octet| *octet == b' ').collect(), next: 0 };
    let question = words.word()?;
    let text = match question {
        b"check" => {
            let d = words.octets()?;
            words.end()?;
            reply(description::check(&d).map(|_| String::new()), "")
        }
        b"layout" => {
            let (d, m) = (words.octets()?, words.octets()?);
            words.end()?;
            reply(layout::lay_out(&d, &m).map(|layout| layout.total.to_string()), "0")
        }
        b"table" => {
            let (d, m) = (words.octets()?, words.octets()?);
            let (mfr, num) = (words.bit()?, words.table_number()?);
            words.end()?;
            let found = access::table(&d, &m, mfr, num);
            reply(found.map(|place| format!("{} {}", place.at, place.length)), "0 0")
        }
        b"tablepart" => {
            let (d, m) = (words.octets()?, words.octets()?);
            let (mfr, num) = (words.bit()?, words.table_number()?);
            words.end()?;
            // "the table itself as a part of the caller's image (empty on
            // refusal)"
            match access::table(&d, &m, mfr, num) {
                Ok(place) => written(place.part(&m)),
                Err(_) => written(&[]),
            }
        }
        b"where" => {
            let (d, m) = (words.octets()?, words.octets()?);
            let name = words.name()?;
            words.end()?;
            let found = access::element(&d, &m, &name);
            reply(found.map(|place| format!("{} {}", place.at, place.length)), "0 0")
        }
        b"octets" => {
            let (d, m) = (words.octets()?, words.octets()?);
            let name = words.name()?;
            words.end()?;
            // "its octets, as a part of the image (empty on refusal ...)"
            match access::element(&d, &m, &name) {
                Ok(place) => written(place.part(&m)),
                Err(_) => written(&[]),
            }
        }
        b"number" => {
            let (d, m) = (words.octets()?, words.octets()?);
            let name = words.name()?;
            words.end()?;
            reply(access::number(&d, &m, &name).map(|value| value.to_string()), "0")
        }
        b"writerange" => {
            let (d, m) = (words.octets()?, words.octets()?);
            let (mfr, num) = (words.bit()?, words.table_number()?);
            let offset = words.long()?;
            let data = words.octets()?;
            words.end()?;
            write_reply(access::write_range(&d, &m, mfr, num, offset, &data), &m)
        }
        b"writeoctets" => {
            let (d, m) = (words.octets()?, words.octets()?);
            let name = words.name()?;
            let data = words.octets()?;
            words.end()?;
            write_reply(access::write_octets(&d, &m, &name, &data), &m)
        }
        b"writenumber" => {
            let (d, m) = (words.octets()?, words.octets()?);
            let name = words.name()?;
            let value = words.long()?;
            words.end()?;
            write_reply(access::write_number(&d, &m, &name, value), &m)
        }
        b"tier" => {
            let (d, m) = (words.octets()?, words.octets()?);
            let date = words.date()?;
            let (hour, minute) = (words.short()?, words.short()?);
            let what = if words.bit()? { What::Demands } else { What::Summations };
            words.end()?;
            let found = calendar::tier(&d, &m, date, hour, minute, what);
            reply(
                found.map(|tier| match tier {
                    Some(tier) => format!("0 {}", tier),
                    None => String::from("1 0"),
                }),
                "0 0",
            )
        }
        // Document 02, E1.
        b"seasoned" => {
            let (d, m) = (words.octets()?, words.octets()?);
            let date = words.date()?;
            words.end()?;
            let found = calendar::seasoned(&d, &m, date);
            reply(found.map(|yes| String::from(if yes { "1" } else { "0" })), "0")
        }
        // Document 02, E3.
        b"weekday" => {
            let date = words.date()?;
            words.end()?;
            // This line tells no item, octet or depth.
            match calendar::weekday_of(date) {
                Ok(weekday) => format!("0 {}", weekday),
                Err(refusal) => format!("{} 0", refusal.no),
            }
        }
        b"matrix" => {
            let (d, m) = (words.octets()?, words.octets()?);
            words.end()?;
            let found = calendar::matrix(&d, &m);
            let (head, cells) = match found {
                Ok(cells) => (String::from(GRANTED), cells),
                Err(refusal) => (head(&refusal), [[0; 22]; 15]),
            };
            format!("{} {}", head, written(&cells.concat()))
        }
        // Document 02, E2.
        b"serve" => {
            let (d, m) = (words.octets()?, words.octets()?);
            let room = words.room()?;
            let request = words.octets()?;
            words.end()?;
            match messages::serve(&d, &m, room, &request) {
                Ok((reply, later)) => format!("0 {} {}", written(&reply), written(&later)),
                Err(no) => format!("{} - {}", no, written(&m)),
            }
        }
        b"readrequest" => {
            let request = words.octets()?;
            words.end()?;
            request_reply(messages::read_request(&request))
        }
        b"writerequest" => {
            let kind = words.long()?;
            let (id, offset, count) = (words.long()?, words.long()?, words.long()?);
            let room = words.room()?;
            let data = words.octets()?;
            words.end()?;
            // "the writes take the count from DATA, the full forms leave
            // offset out, the reads leave DATA out; another kind is no form"
            let request = match kind {
                48 => Request::FullRead { id },
                63 => Request::OffsetRead { id, offset, count },
                64 => Request::FullWrite { id, data },
                79 => Request::OffsetWrite { id, offset, data },
                _ => return None,
            };
            message_reply(messages::write_request(&request, room))
        }
        b"readreply" => {
            let reply = words.octets()?;
            words.end()?;
            match messages::read_reply(&reply) {
                Ok(Reply::Data(data)) => format!("0 1 0 {}", written(&data)),
                Ok(Reply::Done) => String::from("0 2 0 -"),
                Ok(Reply::Refused(code)) => format!("0 3 {} -", code),
                Err(no) => format!("{} 0 0 -", no),
            }
        }
        b"writereply" => {
            let (kind, code) = (words.long()?, words.long()?);
            let room = words.room()?;
            let data = words.octets()?;
            words.end()?;
            let reply = match kind {
                1 => Reply::Data(data),
                2 => Reply::Done,
                3 => Reply::Refused(code),
                _ => return None,
            };
            message_reply(messages::write_reply(&reply, room))
        }
        b"readrange" => {
            let (d, m) = (words.octets()?, words.octets()?);
            let (mfr, num) = (words.bit()?, words.table_number()?);
            let (offset, length) = (words.long()?, words.long()?);
            words.end()?;
            let found = access::read_range(&d, &m, mfr, num, offset, length);
            let good = |place: access::Place| {
                format!("{} {} {}", place.at, place.length, written(place.part(&m)))
            };
            reply(found.map(good), "0 0 -")
        }
        _ => return None,
    };
    Some(text)
}

/// The reply line to a request line, without line feeds. "A line that is none
/// of these forms ... is answered `?`".
pub fn answer(line: &[u8]) -> String {
    answer_request(line).unwrap_or_else(|| String::from("?"))
}
