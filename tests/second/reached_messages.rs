//! What requests of the kind messages reach:
//!
//!     paste -d '\t' requests replies | reached_messages [all]
//!
//! counts, from the requests and the second program's replies, how often each
//! case that is wanted came. Prints for each group of cases how many there are
//! and the rarest beside what is wanted of it; with all, every count.
//! Of 100,000 requests and more, fails where a case came too seldom.
//!
//! Slips are cases too: readings of document 02's E2 that are easy to get wrong,
//! of each how many requests a program that slips there would answer otherwise.
//! For them the rules of the messages stand here once more, in short; without a
//! slip they must give the second program's reply.

#![allow(dead_code)]

#[path = "src/description.rs"]
mod description;
#[path = "src/layout.rs"]
mod layout;
#[path = "src/refusal.rs"]
mod refusal;

mod cases;

use cases::Cases;
use description::Item;
use layout::{lay_out, Layout};
use refusal::Refusal;
use std::collections::HashSet;

/// So many requests are to reach every case.
const ENOUGH: u64 = 100_000;

/// How many cases there are, those counted that no request came near to.
const CASES: usize = 583;

#[derive(Clone, Copy, PartialEq, Eq)]
enum Slip {
    Nowhere,
    // Check octets.
    NoCheck,
    PlainSum,
    OnesComplement,
    CountSummed,
    AllSummed,
    // Reading messages.
    EmptyIs02,
    ShortIs01First,
    Other3x,
    LongerTaken,
    CountNotRead,
    IdLeastFirst,
    OffsetLeastFirst,
    OffsetOfTwoOctets,
    CountLeastFirst,
    CheckIs02,
    LongRefusal,
    LongDone,
    CountNotTold,
    AnyCode,
    EmptyIsDone,
    NoDataIsNone,
    // Answering.
    UnsoundFirst,
    IdMasked,
    NoManufacturer,
    ManufacturerFrom2049,
    To4094,
    Count0IsRest,
    CutAtTheEnd,
    IntoTheNext,
    No0AtTheEnd,
    Past0Taken,
    ShortFullWrite,
    WrongCountIs01,
    ReadOnlyBefore12,
    ReadOnlyIs04,
    ReadOnlyNotRead,
    ReadOnly0Taken,
    DimensionBeforeReadOnly,
    DimensionIs03,
    DimensionWritten,
    SameDimensionTaken,
    NoTableIs03,
    RangeIs03,
    // Rooms.
    RoomOneMore,
    RoomNotAsked,
    RoomOfData,
    RefusalsFit,
    WrittenBefore21,
    // Replying.
    ReplyCountLeastFirst,
    ReplyPlainSum,
    ReplyCountSummed,
    // Writing messages.
    IdCut,
    IdTo4095,
    OffsetCut,
    CountCut,
    OffsetAlways,
    CountAlways,
    DataAlways,
    CountOfWord,
    CountMustBeData,
    DataCut,
    CodeCut,
    Code0Taken,
    Code5Taken,
    CodeAlways,
    // Ranges.
    SumWraps,
    StartInTable,
    StartOfTable,
}

use Slip::*;

/// Of reading a request, in readrequest and in serve.
const READING: [(Slip, &str); 16] = [
    (NoCheck, "check octet not judged"),
    (PlainSum, "check octet the sum itself"),
    (OnesComplement, "check octet the ones' complement"),
    (CountSummed, "check octet over count and data"),
    (AllSummed, "check octet over the whole request"),
    (EmptyIs02, "empty request 02"),
    (ShortIs01First, "requests under three octets 01 before 02"),
    (Other3x, "31 to 3E taken as 30"),
    (LongerTaken, "octets after the request not judged"),
    (CountNotRead, "data up to the check octet, whatever the count"),
    (IdLeastFirst, "id least significant octet first"),
    (OffsetLeastFirst, "offset least significant octet first"),
    (OffsetOfTwoOctets, "offset of two octets"),
    (CountLeastFirst, "count least significant octet first"),
    (CheckIs02, "wrong check octet 02"),
    (CountNotTold, "a write's count not told"),
];

/// Of serve alone.
const SERVING: [(Slip, &str); 30] = [
    (UnsoundFirst, "description and image judged before the request"),
    (IdMasked, "ids over 4,095 cut to twelve bits"),
    (NoManufacturer, "no manufacturer tables"),
    (ManufacturerFrom2049, "id 2,048 a standard table's"),
    (To4094, "id 4,095 no table's"),
    (Count0IsRest, "offset read of count 0 reads the rest"),
    (CutAtTheEnd, "offset read cut at the table's end"),
    (IntoTheNext, "offset read into the next table"),
    (No0AtTheEnd, "no octets at the table's end refused"),
    (Past0Taken, "no octets past the table's end taken"),
    (ShortFullWrite, "full write of fewer octets taken"),
    (WrongCountIs01, "full write of another count 01"),
    (ReadOnlyBefore12, "13 before 12"),
    (ReadOnlyIs04, "13 replied as 04"),
    (ReadOnlyNotRead, "read-only tables not read"),
    (ReadOnly0Taken, "no octets written to a read-only table taken"),
    (DimensionBeforeReadOnly, "14 before 13"),
    (DimensionIs03, "14 replied as 03"),
    (DimensionWritten, "dimensions written"),
    (SameDimensionTaken, "dimensions written with what they hold"),
    (NoTableIs03, "10 replied as 03"),
    (RangeIs03, "12 replied as 03"),
    (RoomOneMore, "an octet of room left over"),
    (RoomNotAsked, "room not judged"),
    (RoomOfData, "room for the data alone"),
    (RefusalsFit, "room not judged for refusals"),
    (WrittenBefore21, "written before 21"),
    (ReplyCountLeastFirst, "reply's count least significant octet first"),
    (ReplyPlainSum, "reply's check octet the sum itself"),
    (ReplyCountSummed, "reply's check octet over count and data"),
];

const WRITING: [(Slip, &str); 18] = [
    (IdCut, "id cut to its field"),
    (IdTo4095, "ids over 4,095 not written"),
    (OffsetCut, "offset cut to its field"),
    (CountCut, "count cut to its field"),
    (OffsetAlways, "offset judged in full forms"),
    (CountAlways, "count judged in forms without one"),
    (DataAlways, "data judged in reads"),
    (CountOfWord, "a write's count from the count"),
    (CountMustBeData, "a write's count to be its data's length"),
    (DataCut, "data over 65,535 octets with the count cut"),
    (RoomOneMore, "an octet of room left over"),
    (RoomNotAsked, "room not judged"),
    (IdLeastFirst, "id least significant octet first"),
    (OffsetLeastFirst, "offset least significant octet first"),
    (CountLeastFirst, "count least significant octet first"),
    (PlainSum, "check octet the sum itself"),
    (OnesComplement, "check octet the ones' complement"),
    (CountSummed, "check octet over count and data"),
];

const READING_REPLIES: [(Slip, &str); 11] = [
    (NoCheck, "check octet not judged"),
    (PlainSum, "check octet the sum itself"),
    (OnesComplement, "check octet the ones' complement"),
    (CountSummed, "check octet over count and data"),
    (LongerTaken, "octets after the data not judged"),
    (CountLeastFirst, "count least significant octet first"),
    (LongRefusal, "octets after a refusal not judged"),
    (LongDone, "octets after 00 not judged"),
    (AnyCode, "any other octet a refusal"),
    (EmptyIsDone, "no octets a write done"),
    (NoDataIsNone, "no data not a read's reply"),
];

const WRITING_REPLIES: [(Slip, &str); 12] = [
    (CodeCut, "code cut to its octet"),
    (Code0Taken, "code 0 written"),
    (Code5Taken, "code 5 written"),
    (CodeAlways, "code judged in every reply"),
    (DataAlways, "data judged in every reply"),
    (DataCut, "data over 65,535 octets with the count cut"),
    (RoomOneMore, "an octet of room left over"),
    (RoomNotAsked, "room not judged"),
    (CountLeastFirst, "count least significant octet first"),
    (PlainSum, "check octet the sum itself"),
    (OnesComplement, "check octet the ones' complement"),
    (CountSummed, "check octet over count and data"),
];

const RANGES: [(Slip, &str); 8] = [
    (SumWraps, "offset and length summed in 64 bits"),
    (No0AtTheEnd, "no octets at the table's end refused"),
    (Past0Taken, "no octets past the table's end taken"),
    (IntoTheNext, "into the next table"),
    (CutAtTheEnd, "cut at the table's end"),
    (ReadOnlyNotRead, "read-only tables not read"),
    (StartInTable, "start counted in the table"),
    (StartOfTable, "the table's start"),
];

// ---------------------------------------------------------------- messages

#[derive(Clone, PartialEq, Eq)]
struct Fields {
    kind: u64,
    id: u64,
    offset: u64,
    count: u64,
    data: Vec<u8>,
}

const FORMS: [(u64, &str); 4] =
    [(48, "full read"), (63, "offset read"), (64, "full write"), (79, "offset write")];

fn is_write(kind: u64) -> bool {
    kind == 64 || kind == 79
}

fn has_offset(kind: u64) -> bool {
    kind == 63 || kind == 79
}

fn sum(octets: &[u8]) -> u8 {
    octets.iter().fold(0, |sum, octet| sum.wrapping_add(*octet))
}

fn first_most(octets: &[u8], least_first: bool) -> u64 {
    let mut octets = octets.to_vec();
    if least_first {
        octets.reverse();
    }
    octets.iter().fold(0, |value, octet| value << 8 | u64::from(*octet))
}

/// The check octet of data, whose count stands before it in `octets`.
fn check_of(octets: &[u8], from: usize, to: usize, slip: Slip) -> u8 {
    let data = &octets[from..to];
    match slip {
        PlainSum => sum(data),
        OnesComplement => !sum(data),
        CountSummed => sum(&octets[from - 2..to]).wrapping_neg(),
        AllSummed => sum(&octets[..to]).wrapping_neg(),
        _ => sum(data).wrapping_neg(),
    }
}

/// What a request says, or the code that refuses it.
fn read_request(octets: &[u8], slip: Slip) -> Result<Fields, u64> {
    let first = match octets.first() {
        None => return Err(if slip == EmptyIs02 { 2 } else { 1 }),
        Some(first) => *first,
    };
    let length = octets.len();
    if slip == ShortIs01First && length < 3 {
        return Err(1);
    }
    let kind = match first {
        0x31..=0x3e if slip == Other3x => 48,
        0x30 | 0x3f | 0x40 | 0x4f => u64::from(first),
        _ => return Err(2),
    };
    let head = if has_offset(kind) { 6 } else { 3 };
    let ends = if kind == 48 { head } else { head + 2 };
    if length < ends {
        return Err(1);
    }
    let id = first_most(&octets[1..3], slip == IdLeastFirst);
    let offset = match has_offset(kind) {
        true if slip == OffsetOfTwoOctets => first_most(&octets[4..6], false),
        true => first_most(&octets[3..6], slip == OffsetLeastFirst),
        false => 0,
    };
    let mut count = match kind {
        48 => 0,
        _ => first_most(&octets[head..head + 2], slip == CountLeastFirst),
    };
    let mut data = Vec::new();
    let mut end = ends;
    if is_write(kind) {
        if slip == CountNotRead && length > ends {
            count = (length - ends - 1) as u64;
        }
        let to = ends + count as usize;
        if length < to + 1 {
            return Err(1);
        }
        if octets[to] != check_of(octets, ends, to, slip) && slip != NoCheck {
            // Where the length is wrong too, 01 all the same.
            return Err(if slip == CheckIs02 && length == to + 1 { 2 } else { 1 });
        }
        data = octets[ends..to].to_vec();
        end = to + 1;
    }
    if length > end && slip != LongerTaken {
        return Err(1);
    }
    if is_write(kind) && slip == CountNotTold {
        count = 0;
    }
    Ok(Fields { kind, id, offset, count, data })
}

/// A number's field, or none where it doesn't fit.
fn field(value: u64, octets: usize, cut: bool, least_first: bool) -> Option<Vec<u8>> {
    if !cut && value >> (8 * octets) != 0 {
        return None;
    }
    let mut field = value.to_be_bytes()[8 - octets..].to_vec();
    if least_first {
        field.reverse();
    }
    Some(field)
}

fn counted(message: &mut Vec<u8>, count: u64, data: &[u8], slip: Slip) -> Option<()> {
    message.extend(field(count, 2, slip == DataCut, slip == CountLeastFirst)?);
    let from = message.len();
    message.extend_from_slice(data);
    let check = check_of(message, from, message.len(), slip);
    message.push(check);
    Some(())
}

fn within(message: Vec<u8>, room: u64, slip: Slip) -> Option<Vec<u8>> {
    let needed = message.len() as u64 + u64::from(slip == RoomOneMore);
    if needed > room && slip != RoomNotAsked {
        None
    } else {
        Some(message)
    }
}

/// A request written, or none: 21.
fn write_request(fields: &Fields, room: u64, slip: Slip) -> Option<Vec<u8>> {
    let Fields { kind, id, offset, count, data } = fields;
    let (kind, length) = (*kind, data.len() as u64);
    if slip == IdTo4095 && *id > 4095
        || slip == OffsetAlways && *offset > 0xff_ffff
        || slip == CountAlways && *count > 0xffff
        || slip == DataAlways && length > 0xffff
        || slip == CountMustBeData && is_write(kind) && *count != length
    {
        return None;
    }
    let mut message = vec![kind as u8];
    message.extend(field(*id, 2, slip == IdCut, slip == IdLeastFirst)?);
    if has_offset(kind) {
        message.extend(field(*offset, 3, slip == OffsetCut, slip == OffsetLeastFirst)?);
    }
    if kind == 63 {
        message.extend(field(*count, 2, slip == CountCut, slip == CountLeastFirst)?);
    }
    if is_write(kind) {
        let told = if slip == CountOfWord { *count } else { length };
        counted(&mut message, told, data, slip)?;
    }
    within(message, room, slip)
}

/// A reply: kind (1 data, 2 done, 3 refused), code, data.
type Reply = (u64, u64, Vec<u8>);

fn read_reply(octets: &[u8], slip: Slip) -> Option<Reply> {
    let first = match octets.first() {
        None if slip == EmptyIsDone => return Some((2, 0, Vec::new())),
        first => *first?,
    };
    let length = octets.len();
    if first != 0 {
        let alone = length == 1 || slip == LongRefusal;
        let known = first <= 4 || slip == AnyCode;
        return if alone && known { Some((3, u64::from(first), Vec::new())) } else { None };
    }
    if length == 1 {
        return Some((2, 0, Vec::new()));
    }
    let data = || -> Option<Reply> {
        if length < 4 {
            return None;
        }
        let to = 3 + first_most(&octets[1..3], slip == CountLeastFirst) as usize;
        if length < to + 1 || length > to + 1 && slip != LongerTaken {
            return None;
        }
        if octets[to] != check_of(octets, 3, to, slip) && slip != NoCheck {
            return None;
        }
        if to == 3 && slip == NoDataIsNone {
            return None;
        }
        Some((1, 0, octets[3..to].to_vec()))
    };
    match data() {
        None if slip == LongDone => Some((2, 0, Vec::new())),
        read => read,
    }
}

/// A reply written, or none: 21.
fn write_reply(reply: &Reply, room: u64, slip: Slip) -> Option<Vec<u8>> {
    let (kind, mut code, data) = (reply.0, reply.1, &reply.2);
    if slip == CodeCut {
        code &= 255;
    }
    let least = u64::from(slip != Code0Taken);
    let most = if slip == Code5Taken { 5 } else { 4 };
    let known = (least..=most).contains(&code);
    if !known && (kind == 3 || slip == CodeAlways) || slip == DataAlways && data.len() > 0xffff {
        return None;
    }
    let mut message = vec![if kind == 3 { code as u8 } else { 0 }];
    if kind == 1 {
        counted(&mut message, data.len() as u64, data, slip)?;
    }
    within(message, room, slip)
}

// --------------------------------------------------------------- answering

struct Meter {
    laid: Result<Layout, Refusal>,
    image: Vec<u8>,
}

#[derive(Clone, Copy)]
struct Table {
    start: u64,
    size: u64,
    writable: bool,
}

fn find(laid: &Layout, mfr: bool, num: u64) -> Option<Table> {
    laid.tables.iter().find_map(|place| match laid.items[place.item] {
        Item::Table { manufacturer, number, writable, .. }
            if manufacturer == mfr && u64::from(number) == num =>
        {
            Some(Table { start: place.start, size: place.length, writable })
        }
        _ => None,
    })
}

fn named(laid: &Layout, id: u64, slip: Slip) -> Option<Table> {
    let id = if slip == IdMasked { id & 4095 } else { id };
    let from = if slip == ManufacturerFrom2049 { 2049 } else { 2048 };
    let to = if slip == To4094 { 4094 } else { 4095 };
    if id > to {
        None
    } else if id >= from && slip != NoManufacturer {
        find(laid, true, id - 2048)
    } else {
        find(laid, false, id)
    }
}

/// What the tables say: octets read, octets written at a place, or a refusal.
enum Said {
    Data(Vec<u8>),
    Written(u64, Vec<u8>),
    Refused(u64),
}

/// Where a range is read, or the refusal.
fn range_of(
    laid: &Layout,
    table: Table,
    offset: u64,
    length: u64,
    slip: Slip,
) -> Result<(u64, u64), u64> {
    let end = match slip {
        SumWraps => u128::from(offset.wrapping_add(length)),
        _ => u128::from(offset) + u128::from(length),
    };
    if slip == ReadOnlyNotRead && !table.writable {
        return Err(13);
    }
    if slip == No0AtTheEnd && length == 0 && offset == table.size {
        return Err(12);
    }
    if end > u128::from(table.size) {
        return match slip {
            Past0Taken if length == 0 => Ok((0, 0)),
            CutAtTheEnd if offset <= table.size => Ok((table.start + offset, table.size - offset)),
            IntoTheNext if u128::from(table.start) + end <= u128::from(laid.total) => {
                Ok((table.start + offset, length))
            }
            _ => Err(12),
        };
    }
    Ok(match slip {
        Count0IsRest if length == 0 => (table.start + offset, table.size - offset),
        StartInTable => (offset, length),
        StartOfTable => (table.start, length),
        // A sum that wrapped may stand far past the table.
        _ => (table.start.wrapping_add(offset), length),
    })
}

/// Whether a range holds an octet of a dimension; with a slip, one that changes.
fn holds_dimension(meter: &Meter, laid: &Layout, at: u64, data: &[u8], slip: Slip) -> bool {
    let end = at + data.len() as u64;
    laid.dimensions.iter().flatten().any(|d| {
        (d.at.max(at)..end.min(d.at + d.octets)).any(|octet| {
            slip != SameDimensionTaken
                || meter.image[octet as usize] != data[(octet - at) as usize]
        })
    })
}

fn say(meter: &Meter, fields: &Fields, slip: Slip) -> Said {
    let laid = match &meter.laid {
        Ok(laid) => laid,
        Err(refusal) => return Said::Refused(refusal.no),
    };
    let table = match named(laid, fields.id, slip) {
        Some(table) => table,
        None => return Said::Refused(10),
    };
    let part = |at: u64, length: u64| {
        Said::Data(meter.image[at as usize..(at + length) as usize].to_vec())
    };
    let data = &fields.data;
    let length = data.len() as u64;
    match fields.kind {
        48 if slip == ReadOnlyNotRead && !table.writable => Said::Refused(13),
        48 => part(table.start, table.size),
        63 => match range_of(laid, table, fields.offset, fields.count, slip) {
            Ok((at, length)) => part(at, length),
            Err(no) => Said::Refused(no),
        },
        kind => {
            let offset = if kind == 64 { 0 } else { fields.offset };
            let over = offset + length > table.size;
            let outside = match kind {
                64 if slip == ShortFullWrite => over,
                64 => length != table.size,
                _ if slip == No0AtTheEnd && length == 0 && offset == table.size => true,
                _ if slip == Past0Taken && length == 0 => false,
                _ => over,
            };
            let at = table.start + offset;
            let closed = !table.writable && !(slip == ReadOnly0Taken && length == 0);
            if outside && !(closed && slip == ReadOnlyBefore12) {
                return Said::Refused(if slip == WrongCountIs01 && kind == 64 { 101 } else { 12 });
            }
            let held = holds_dimension(meter, laid, at, data, slip) && slip != DimensionWritten;
            if closed && !(held && slip == DimensionBeforeReadOnly) {
                return Said::Refused(13);
            }
            if held {
                return Said::Refused(14);
            }
            Said::Written(at, data.clone())
        }
    }
}

/// 0 or 21, the reply, and what of the image is other than it was.
#[derive(PartialEq, Eq)]
struct Served {
    no: u64,
    reply: Vec<u8>,
    change: Option<(u64, Vec<u8>)>,
}

fn serve(meter: &Meter, room: u64, request: &[u8], slip: Slip) -> Served {
    let mut change = None;
    let read = match slip {
        UnsoundFirst if meter.laid.is_err() => Err(4),
        _ => read_request(request, slip),
    };
    let reply = match read {
        Err(code) => (3, code, Vec::new()),
        Ok(fields) => match say(meter, &fields, slip) {
            Said::Data(data) => (1, 0, data),
            Said::Written(at, data) => {
                let place = at as usize..at as usize + data.len();
                if !data.is_empty() && meter.image[place] != data[..] {
                    change = Some((at, data));
                }
                (2, 0, Vec::new())
            }
            Said::Refused(no) => {
                let code = match no {
                    13 if slip == ReadOnlyIs04 => 4,
                    14 if slip == DimensionIs03 => 3,
                    10 if slip == NoTableIs03 => 3,
                    12 if slip == RangeIs03 => 3,
                    101 => 1,
                    13 => 3,
                    _ => 4,
                };
                (3, code, Vec::new())
            }
        },
    };
    let reply_slip = match slip {
        ReplyCountLeastFirst => CountLeastFirst,
        ReplyPlainSum => PlainSum,
        ReplyCountSummed => CountSummed,
        RoomOneMore | RoomNotAsked => slip,
        RefusalsFit if reply.0 == 3 => RoomNotAsked,
        RoomOfData if reply.0 == 1 && reply.2.len() as u64 <= room => RoomNotAsked,
        _ => Nowhere,
    };
    match write_reply(&reply, room, reply_slip) {
        Some(reply) => Served { no: 0, reply, change },
        None => {
            let change = if slip == WrittenBefore21 { change } else { None };
            Served { no: 21, reply: Vec::new(), change }
        }
    }
}

// ------------------------------------------------------------------- words

fn octets(word: &str) -> Option<Vec<u8>> {
    if word == "-" {
        return Some(Vec::new());
    }
    let digit = |octet: u8| match octet {
        b'0'..=b'9' => Some(octet - b'0'),
        b'a'..=b'f' => Some(octet - b'a' + 10),
        _ => None,
    };
    let word = word.as_bytes();
    if word.is_empty() || word.len() % 2 != 0 {
        return None;
    }
    word.chunks_exact(2).map(|pair| Some(digit(pair[0])? << 4 | digit(pair[1])?)).collect()
}

fn hex(octets: &[u8]) -> String {
    if octets.is_empty() {
        return String::from("-");
    }
    octets.iter().map(|octet| format!("{octet:02x}")).collect()
}

fn numbers(words: &[&str]) -> Vec<u64> {
    words.iter().map(|word| word.parse().unwrap_or(0)).collect()
}

// ------------------------------------------------------------------ counts

struct Counts {
    unknown: HashSet<u8>,
    last: (String, String),
    replies: Cases,
    requests: Cases,
    tables: Cases,
    rooms: Cases,
    together: Cases,
    written: Cases,
    read_back: Cases,
    ranges: Cases,
    no_form: Cases,
    slips: Cases,
}

const QUESTIONS: [&str; 6] =
    ["serve", "readrequest", "writerequest", "readreply", "writereply", "readrange"];

impl Counts {
    fn request(&mut self, request: &str, reply: &str) -> Result<(), String> {
        let words: Vec<&str> = request.split(' ').collect();
        let question = words[0];
        if !QUESTIONS.contains(&question) {
            // A line that was spoiled.
            self.no_form.count("another question", 200, reply == "?");
            return Ok(());
        }
        self.no_form.count(question, 20, reply == "?");
        if reply == "?" {
            self.spoiled(question, &words);
            return Ok(());
        }
        let told: Vec<&str> = reply.split(' ').collect();
        let number = told[0].parse().unwrap_or(99);
        let read = match question {
            "serve" => self.serve(&words, &told),
            "readrequest" => self.readrequest(&words, &told),
            "writerequest" => self.writerequest(&words, &told),
            "readreply" => self.readreply(&words, &told),
            "writereply" => self.writereply(&words, &told),
            _ => self.readrange(&words, &told),
        };
        self.replied(question, number, told.get(1).copied().unwrap_or(""));
        self.pair(request, reply);
        match read {
            Some(true) => Ok(()),
            Some(false) => Err(format!("not the second program's reply, {reply:.60}")),
            None => Err(String::from("words that can't be read")),
        }
    }

    fn spoiled(&mut self, question: &str, words: &[&str]) {
        let room = match question {
            "serve" => words.get(3),
            "writerequest" => words.get(5),
            "writereply" => words.get(3),
            _ => None,
        };
        let over = room.and_then(|word| word.parse::<u64>().ok()).map_or(false, |r| r > 65_544);
        if room.is_some() {
            self.no_form.count(&format!("{question}, room over 65,544"), 10, over);
            let next = room == Some(&"65545");
            self.no_form.count("room 65,545", 50, next);
        }
        let kind = words.get(1).and_then(|word| word.parse::<u64>().ok());
        let forms: &[u64] = match question {
            "writerequest" => &[48, 63, 64, 79],
            "writereply" => &[1, 2, 3],
            _ => return,
        };
        let other = kind.map_or(false, |kind| !forms.contains(&kind));
        self.no_form.count(&format!("{question}, another kind"), 30, other);
    }

    fn replied(&mut self, question: &str, number: u64, second: &str) {
        let r = &mut self.replies;
        let given: &[(u64, u64)] = match question {
            "serve" => &[(21, 2000)],
            "readrequest" => &[(0, 2000), (1, 1000), (2, 500)],
            "writerequest" => &[(0, 2000), (21, 1000)],
            "readreply" => &[(0, 2000), (43, 1000)],
            "writereply" => &[(0, 2000), (21, 500)],
            _ => &[
                (0, 1500), (1, 10), (2, 50), (3, 40), (4, 15), (5, 15), (6, 15), (7, 15), (9, 200),
                (10, 400), (12, 1500),
            ],
        };
        for (no, least) in given {
            r.count(&format!("{question} {no}"), *least, number == *no);
        }
        if question == "serve" {
            for code in ["00", "01", "02", "03", "04"] {
                let came = number == 0 && second.starts_with(code);
                r.count(&format!("serve replies {code}"), 1000, came);
            }
        }
    }

    /// What was written and is read back, and what was read and is written again.
    fn pair(&mut self, request: &str, reply: &str) {
        let (before, told) = std::mem::take(&mut self.last);
        let after_first = |line: &str| line.split_once(' ').map(|(_, rest)| String::from(rest));
        let written = after_first(&told);
        for (writes, reads) in [("writerequest ", "readrequest "), ("writereply ", "readreply ")] {
            if let (Some(fields), Some(read)) =
                (before.strip_prefix(writes), request.strip_prefix(reads))
            {
                let same = told.starts_with("0 ") && written.as_deref() == Some(read);
                if same {
                    // All but the room, which stands before the data.
                    let mut fields: Vec<&str> = fields.split(' ').collect();
                    fields.remove(fields.len() - 2);
                    let back = after_first(reply) == Some(fields.join(" "));
                    self.read_back.count(&format!("{writes}and read back"), 500, back);
                    let kind = fields[0];
                    self.read_back.count(&format!("{writes}{kind} and read back"), 150, back);
                }
            }
        }
        if let (Some(_), Some(fields)) =
            (before.strip_prefix("readrequest "), request.strip_prefix("writerequest "))
        {
            let mut fields: Vec<&str> = fields.split(' ').collect();
            fields.remove(fields.len() - 2);
            if told.starts_with("0 ") && written == Some(fields.join(" ")) {
                let again = after_first(reply) == after_first(&before);
                let kind = fields[0];
                self.read_back.count("readrequest and written again", 500, again);
                self.read_back.count(&format!("readrequest {kind} and written again"), 150, again);
            }
        }
        self.last = (String::from(request), String::from(reply));
    }

    fn slip<T: PartialEq>(
        &mut self,
        question: &str,
        least: u64,
        list: &[(Slip, &str)],
        answer: &dyn Fn(Slip) -> T,
    ) {
        let right = answer(Nowhere);
        for (slip, name) in list {
            let otherwise = answer(*slip) != right;
            self.slips.count(&format!("{question}: {name}"), least, otherwise);
        }
    }

    fn serve(&mut self, words: &[&str], told: &[&str]) -> Option<bool> {
        let (d, image, request) = (octets(words[1])?, octets(words[2])?, octets(words[4])?);
        let room: u64 = words[3].parse().ok()?;
        let meter = Meter { laid: lay_out(&d, &image), image };
        let served = serve(&meter, room, &request, Nowhere);
        let mut later = meter.image.clone();
        if let Some((at, data)) = &served.change {
            later[*at as usize..*at as usize + data.len()].copy_from_slice(data);
        }
        let text = format!("{} {} {}", served.no, hex(&served.reply), hex(&later));
        if text != told.join(" ") {
            return Some(false);
        }
        // Long ones say little more of a slip, and take their time.
        if request.len() + meter.image.len() < 5000 {
            let answer = |slip| serve(&meter, room, &request, slip);
            self.slip("serve", 40, &READING[..15], &answer);
            self.slip("serve", 40, &SERVING, &answer);
        }
        self.faults("serve", &request);
        self.served(&meter, room, &request, &served);
        Some(true)
    }

    /// Faults of a request in itself, in serve and in readrequest.
    fn faults(&mut self, question: &str, request: &[u8]) {
        let read = read_request(request, Nowhere);
        let length = request.len();
        let r = &mut self.requests;
        r.count(&format!("{question}, empty"), 150, request.is_empty());
        let first = request.first().copied().unwrap_or(0);
        let unknown = read.as_ref().err() == Some(&2);
        if unknown {
            self.unknown.insert(first);
        }
        r.count(&format!("{question}, unknown, one octet"), 20, unknown && length == 1);
        r.count(&format!("{question}, unknown, of a form's length"), 50, unknown && {
            let mut other = request.to_vec();
            [0x30, 0x3f, 0x40, 0x4f].iter().any(|first| {
                other[0] = *first;
                read_request(&other, Nowhere).is_ok()
            })
        });
        r.count(&format!("{question}, unknown, of no form's length"), 50, unknown && {
            length != 3 && length != 8 && length < 6
        });
        let good = |octets: &[u8]| read_request(octets, Nowhere).is_ok();
        let refused = read.as_ref().err() == Some(&1);
        for (kind, name) in FORMS {
            let mine = u64::from(first) == kind && !request.is_empty();
            let mut count = |what: &str, least: u64, came: bool| {
                r.count(&format!("{question}, {name}, {what}"), least, mine && came);
            };
            count("good", 300, read.is_ok());
            // Without the last octet it would be good.
            let longer = refused && length > 1 && good(&request[..length - 1]);
            count("one octet long", 40, longer);
            count("first octet alone", 5, length == 1);
            if !is_write(kind) {
                let whole = if kind == 48 { 3 } else { 8 };
                count("one octet short", 40, length + 1 == whole);
                count("two octets long", 3, length == whole + 2);
                continue;
            }
            let head = if kind == 64 { 5 } else { 8 };
            let counted = if length >= head {
                first_most(&request[head - 2..head], false) as usize
            } else {
                0
            };
            let whole = head + counted + 1;
            count("one octet short", 40, refused && length + 1 == whole && length >= head);
            count("count field cut off", 3, length + 1 == head);
            // All of its length: the check octet is what is wrong.
            let wrong = refused && length == whole;
            let (given, right, plain, with_count) = if length == whole {
                let right = sum(&request[head..length - 1]).wrapping_neg();
                let with_count = sum(&request[head - 2..length - 1]).wrapping_neg();
                (request[length - 1], right, right.wrapping_neg(), with_count)
            } else {
                (0, 0, 0, 0)
            };
            count("check octet one more", 30, wrong && given == right.wrapping_add(1));
            count("check octet one less", 15, wrong && given == right.wrapping_sub(1));
            count("check octet the sum itself", 25, wrong && given == plain);
            count("check octet over count and data", 30, wrong && given == with_count);
            count("check octet of no data wrong", 10, wrong && counted == 0);
            count("length and check octet wrong", 20, {
                refused && length == whole + 1 && !good(&request[..length - 1])
            });
            count("count one less than the data", 10, refused && length == whole + 1 && {
                let mut other = request.to_vec();
                let count = (counted + 1) as u16;
                other[head - 2..head].copy_from_slice(&count.to_be_bytes());
                good(&other)
            });
            count("count one more than the data", 10, refused && length + 1 == whole && {
                let mut other = request.to_vec();
                let count = (counted as u16).wrapping_sub(1);
                other[head - 2..head].copy_from_slice(&count.to_be_bytes());
                good(&other)
            });
            if let Ok(fields) = &read {
                let data = &fields.data;
                let total: u64 = data.iter().map(|octet| u64::from(*octet)).sum();
                count("check octet of no data", 100, data.is_empty());
                count("check octet of zeros", 20, !data.is_empty() && total == 0);
                count("check octet of a sum of 256 n", 20, total > 0 && total % 256 == 0);
                count("check octet of a sum of 256 n + 1", 20, total % 256 == 1);
                count("check octet of a sum of 256 n + 255", 20, total % 256 == 255);
                count("over 255 octets of data", 15, data.len() > 255);
            }
        }
        let fields = match read {
            Ok(fields) => fields,
            Err(_) => return,
        };
        for id in [0, 2047, 2048, 4095, 4096, 65_535] {
            r.count(&format!("{question}, id {id}"), 30, fields.id == id);
        }
        if has_offset(fields.kind) {
            r.count(&format!("{question}, offset 16,777,215"), 50, fields.offset == 0xff_ffff);
            r.count(&format!("{question}, offset over 65,535"), 100, fields.offset > 0xffff);
        }
        if fields.kind == 63 {
            r.count(&format!("{question}, count 0 read"), 30, fields.count == 0);
            r.count(&format!("{question}, count 65,535 read"), 30, fields.count == 0xffff);
        }
    }

    fn served(&mut self, meter: &Meter, room: u64, request: &[u8], served: &Served) {
        let fits = served.no == 0;
        let unfit = served.no == 21;
        let read = read_request(request, Nowhere);
        let unsound = match &meter.laid {
            Err(refusal) => refusal.no,
            Ok(_) => 0,
        };
        let t = &mut self.together;
        for (code, name) in [(1, "01"), (2, "02")] {
            let came = read.as_ref().err() == Some(&code);
            t.count(&format!("{name}, unsound description"), 20, {
                came && fits && (1..=7).contains(&unsound)
            });
            t.count(&format!("{name}, short image"), 20, came && fits && unsound == 9);
            t.count(&format!("{name}, room 0"), 100, came && unfit && room == 0);
            t.count(&format!("{name}, room 1"), 100, came && fits && room == 1);
        }
        t.count("empty, room 0", 20, request.is_empty() && unfit);
        let fields = match read {
            Ok(fields) => fields,
            Err(_) => return,
        };
        let said = say(meter, &fields, Nowhere);
        let form = FORMS.iter().find(|(kind, _)| *kind == fields.kind).map_or("", |form| form.1);
        let no = match &said {
            Said::Refused(no) => *no,
            _ => 0,
        };
        let write = is_write(fields.kind);
        let mut count = |what: &str, least: u64, came: bool| {
            self.tables.count(&format!("{form}, {what}"), least, came);
        };
        for refusal in [10, 12, 13, 14] {
            let given = match refusal {
                10 => true,
                12 => fields.kind != 48,
                _ => write,
            };
            if given {
                count(&format!("refused by {refusal}"), 60, no == refusal && fits);
            }
        }
        count("unsound description", 60, (1..=7).contains(&no) && fits);
        count("short image", 60, no == 9 && fits);
        count("answered", 300, no == 0 && fits);
        match fields.kind {
            48 => {
                let long = matches!(&said, Said::Data(data) if data.len() == 65_534);
                count("an image over 65,535 octets", 3, no == 8 && fits);
                count("65,534 octets", 2, long && fits);
                count("65,534 octets, one octet too few", 2, long && room == 65_537);
            }
            64 => {
                let length = fields.data.len();
                count("65,534 octets", 2, length == 65_534 && no == 0 && fits);
                count("65,534 octets, room 0", 2, length == 65_534 && no == 0 && unfit);
                count("65,535 octets, one over the table", 3, length == 65_535 && no == 12);
            }
            _ => {}
        }
        let table = match &meter.laid {
            Ok(laid) => named(laid, fields.id, Nowhere),
            Err(_) => None,
        };
        if fields.kind == 48 && fits {
            let none = no == 0 && table.map_or(false, |table| table.size == 0);
            count("of an empty table", 20, none);
            count("of over 255 octets", 20, no == 0 && table.map_or(false, |t| t.size > 255));
            count("of a read-only table", 50, no == 0 && table.map_or(false, |t| !t.writable));
        }
        for (id, name) in [
            (0, "0"), (2047, "2,047"), (2048, "2,048"), (4095, "4,095"), (4096, "4,096"),
            (65_535, "65,535"),
        ] {
            let came = fields.id == id && fits;
            if id == 0 && fields.kind == 64 {
                // Table 00 has the order's dimension, so that all of it is never written.
                count("id 0, refused by 14", 20, came && no == 14);
            } else if id <= 4095 {
                count(&format!("id {name}, answered"), 20, came && no == 0);
            } else {
                count(&format!("id {name}, no table"), 2, came && no == 10);
            }
        }
        let over = fields.id > 4095;
        let cut = match &meter.laid {
            Ok(laid) => named(laid, fields.id & 4095, Nowhere),
            Err(_) => None,
        };
        count("id over 4,095 that ends as a table's", 20, over && cut.is_some() && fits);
        let both = match &meter.laid {
            Ok(laid) => find(laid, false, 2047).is_some() && find(laid, true, 2047).is_some(),
            Err(_) => false,
        };
        count("2,047 of both kinds, answered", 20, {
            both && no == 0 && fits && (fields.id == 2047 || fields.id == 4095)
        });
        count("a manufacturer table", 100, no == 0 && fits && fields.id >= 2048);
        let r = &mut self.rooms;
        let needed = match &said {
            Said::Data(data) => 4 + data.len() as u64,
            _ => 1,
        };
        for (told, what) in [
            (room == 0, "room 0"),
            (room == needed, "exact room"),
            (room == needed + 1, "one octet more room"),
        ] {
            r.count(&format!("{form}, {what}"), 60, told && (fits || room == 0));
        }
        if !write {
            let least = |n| if fields.kind == 48 { n } else { 2 * n };
            r.count(&format!("{form}, one octet too few"), least(40), {
                no == 0 && unfit && room + 1 == needed
            });
            r.count(&format!("{form}, room for a refusal, not for the data"), 20, {
                no == 0 && unfit && room >= 1
            });
            r.count(&format!("{form}, room for the data alone"), 20, {
                no == 0 && unfit && room + 4 == needed
            });
        } else {
            r.count(&format!("{form}, good, room 0"), 60, no == 0 && unfit);
            r.count(&format!("{form}, good, room 0, another image"), 60, {
                no == 0 && unfit && serve(meter, 1, request, Nowhere).change.is_some()
            });
            r.count(&format!("{form}, good, room 1, another image"), 100, {
                no == 0 && room == 1 && served.change.is_some()
            });
            r.count(&format!("{form}, the same octets again"), 20, {
                no == 0 && fits && served.change.is_none() && !fields.data.is_empty()
            });
            r.count(&format!("{form}, 03, room 0"), 20, no == 13 && unfit);
        }
        r.count(&format!("{form}, 04, room 0"), 20, no != 0 && no != 13 && unfit);
        let table = match table {
            Some(table) => table,
            None => {
                let id = fields.id;
                let t = &mut self.together;
                t.count(&format!("{form}, no table and unsound"), 2, id > 4095 && unsound != 0);
                return;
            }
        };
        if !fits {
            return;
        }
        let t = &mut self.tables;
        let (offset, length) = match fields.kind {
            48 => return,
            63 => (fields.offset, fields.count),
            64 => (0, fields.data.len() as u64),
            _ => (fields.offset, fields.data.len() as u64),
        };
        let size = table.size;
        let mut count = |what: &str, least: u64, came: bool| {
            t.count(&format!("{form}, {what}"), least, came);
        };
        count("all of the table", 100, offset == 0 && length == size && size > 0);
        count("one octet over the table", 60, offset == 0 && length == size + 1);
        count("one octet under the table", 40, offset == 0 && length + 1 == size);
        count("no octets", 100, length == 0);
        if fields.kind == 64 {
            count("an empty table, done", 20, size == 0 && no == 0);
            count("an empty table, read-only", 20, size == 0 && no == 13);
            count("no octets to a table of some", 60, length == 0 && size > 0);
        } else {
            count("no octets inside", 60, length == 0 && offset < size && no == 0);
            count("no octets at the end", 60, length == 0 && offset == size && no == 0);
            count("no octets one past the end", 60, length == 0 && offset == size + 1);
            count("one octet at the end", 60, length == 1 && offset == size);
            count("the last octet", 60, no == 0 && length == 1 && offset + 1 == size);
            count("to the end", 100, no == 0 && length > 0 && offset + length == size);
            count("one octet over the end", 60, {
                offset > 0 && offset <= size && offset + length == size + 1
            });
            count("offset 16,777,215", 20, offset == 0xff_ffff && no == 12);
            count("offset over 65,535 that ends inside", 20, {
                offset > 0xffff && (offset & 0xffff) + length <= size
            });
            count("offset over 255 that ends inside", 10, {
                offset > 0xff && (offset & 0xff) + length <= size && no == 12
            });
            if fields.kind == 63 {
                count("count 65,535", 60, length == 0xffff && no == 12);
            } else {
                count("no octets to a read-only table", 40, length == 0 && no == 13);
            }
        }
        if write {
            let held = match &meter.laid {
                Ok(laid) if offset + length <= size => {
                    holds_dimension(meter, laid, table.start + offset, &fields.data, Nowhere)
                }
                _ => false,
            };
            let t = &mut self.together;
            t.count(&format!("{form}, 12 and 13"), 60, no == 12 && !table.writable);
            t.count(&format!("{form}, 13 and 14"), 60, no == 13 && held);
            t.count(&format!("{form}, 14 with what stands there"), 15, no == 14 && {
                let from = (table.start + offset) as usize;
                meter.image[from..from + length as usize] == fields.data[..]
            });
            if fields.kind == 64 {
                t.count("full write, 12 and 14", 60, no == 12 && table.writable && {
                    let laid = match &meter.laid {
                        Ok(laid) => laid,
                        Err(_) => return,
                    };
                    let held = |d: &layout::Dimension| {
                        d.at >= table.start && d.at < table.start + size
                    };
                    laid.dimensions.iter().flatten().any(held)
                });
            }
        }
    }

    fn readrequest(&mut self, words: &[&str], told: &[&str]) -> Option<bool> {
        let request = octets(words[1])?;
        let text = match read_request(&request, Nowhere) {
            Err(code) => format!("{code} 0 0 0 0 -"),
            Ok(Fields { kind, id, offset, count, data }) => {
                format!("0 {kind} {id} {offset} {count} {}", hex(&data))
            }
        };
        if request.len() < 5000 {
            let answer = |slip| read_request(&request, slip);
            self.slip("readrequest", 40, &READING, &answer);
        }
        self.faults("readrequest", &request);
        let long = request.len() == 65_544;
        let good = told[0] == "0";
        self.requests.count("readrequest, 65,544 octets", 2, long && good);
        self.requests.count("readrequest, 65,544 octets, check octet wrong", 1, long && !good);
        self.requests.count("readrequest, 65,545 octets", 2, request.len() == 65_545 && !good);
        Some(text == told.join(" "))
    }

    fn writerequest(&mut self, words: &[&str], told: &[&str]) -> Option<bool> {
        let n = numbers(&words[1..6]);
        let (kind, id, offset, count, room) = (n[0], n[1], n[2], n[3], n[4]);
        let fields = Fields { kind, id, offset, count, data: octets(words[6])? };
        let answer = |slip| write_request(&fields, room, slip);
        let right = answer(Nowhere);
        let text = match &right {
            Some(octets) => format!("0 {}", hex(octets)),
            None => String::from("21 -"),
        };
        if text != told.join(" ") {
            return Some(false);
        }
        let length = fields.data.len();
        if length < 5000 {
            self.slip("writerequest", 40, &WRITING[..6], &answer);
            self.slip("writerequest", 40, &WRITING[7..9], &answer);
            self.slip("writerequest", 40, &WRITING[10..], &answer);
        } else {
            self.slip("writerequest", 2, &WRITING[6..7], &answer);
            self.slip("writerequest", 2, &WRITING[9..10], &answer);
        }
        let good = right.is_some();
        let form = FORMS.iter().find(|(k, _)| *k == kind).map_or("", |form| form.1);
        let w = &mut self.written;
        let mut come = |what: &str, least: u64, came: bool| {
            w.count(&format!("{form}, {what}"), least, came);
        };
        come("id 65,535", 60, good && id == 0xffff);
        come("id 65,536", 15, !good && id == 0x1_0000);
        come("id far over", 5, !good && id > 0x1_0010);
        if has_offset(kind) {
            come("offset 16,777,215", 60, good && offset == 0xff_ffff);
            come("offset 16,777,216", 15, !good && offset == 0x100_0000);
        } else {
            come("offset of none over its field", 60, good && offset > 0xff_ffff);
        }
        if kind == 63 {
            come("count 65,535", 60, good && count == 0xffff);
            come("count 65,536", 30, !good && count == 0x1_0000);
            come("count 0", 40, good && count == 0);
        } else {
            come("count of none over its field", 60, good && count > 0xffff);
        }
        if is_write(kind) {
            come("no data", 100, good && length == 0);
            come("another count than the data's", 60, good && count != length as u64);
            come("65,535 octets of data", 1, length == 0xffff && good);
            come("65,535 octets of data, one octet too few", 1, length == 0xffff && !good);
            come("65,536 octets of data", 3, length == 0x1_0000 && !good);
        } else {
            come("data of none", 100, good && length > 0);
        }
        let needed = match write_request(&fields, u64::MAX, Nowhere) {
            Some(octets) => octets.len() as u64,
            None => return Some(true),
        };
        come("exact room", 100, good && room == needed);
        come("one octet too few", 60, !good && room + 1 == needed);
        come("one octet more room", 40, good && room == needed + 1);
        come("room 0", 60, !good && room == 0);
        come("room 65,544", 25, good && room == 65_544);
        Some(true)
    }

    fn readreply(&mut self, words: &[&str], told: &[&str]) -> Option<bool> {
        let reply = octets(words[1])?;
        let right = read_reply(&reply, Nowhere);
        let text = match &right {
            Some((kind, code, data)) => format!("0 {kind} {code} {}", hex(data)),
            None => String::from("43 0 0 -"),
        };
        if text != told.join(" ") {
            return Some(false);
        }
        let length = reply.len();
        if length < 5000 {
            let answer = |slip| read_reply(&reply, slip);
            self.slip("readreply", 30, &READING_REPLIES, &answer);
        }
        let first = reply.first().copied().unwrap_or(0xee);
        let none = right.is_none();
        let w = &mut self.written;
        let mut come = |what: &str, least: u64, came: bool| {
            w.count(&format!("readreply, {what}"), least, came);
        };
        come("no octets", 60, none && reply.is_empty());
        come("00", 100, reply == [0]);
        for code in 1..=4 {
            come(&format!("0{code}"), 40, reply == [code]);
            come(&format!("0{code} and more"), 10, none && first == code && length > 1);
        }
        come("05", 20, none && reply == [5]);
        come("06 to FF", 30, none && length == 1 && first > 5);
        come("00 and an octet", 10, none && first == 0 && length == 2);
        come("00 and two octets", 10, none && first == 0 && length == 3);
        let data = right.as_ref().map_or(false, |reply| reply.0 == 1);
        come("no data", 60, data && length == 4);
        come("data", 500, data && length > 4);
        come("over 255 octets of data", 20, data && length > 259);
        let good = |octets: &[u8]| matches!(read_reply(octets, Nowhere), Some((1, ..)));
        come("data, one octet long", 30, none && length > 4 && good(&reply[..length - 1]));
        come("data, one octet short", 30, none && first == 0 && length >= 4 && {
            3 + first_most(&reply[1..3], false) as usize == length
        });
        let whole = none && first == 0 && length >= 4 && {
            4 + first_most(&reply[1..3], false) as usize == length
        };
        let (given, right) = if whole {
            (reply[length - 1], sum(&reply[3..length - 1]).wrapping_neg())
        } else {
            (0, 0)
        };
        come("data, check octet one more", 30, whole && given == right.wrapping_add(1));
        come("data, check octet one less", 15, whole && given == right.wrapping_sub(1));
        come("data, check octet the sum itself", 20, whole && given == right.wrapping_neg());
        come("data after another first octet", 20, none && length > 3 && first != 0 && {
            let mut other = reply.clone();
            other[0] = 0;
            good(&other)
        });
        come("65,535 octets of data", 1, data && length == 65_539);
        come("65,535 octets of data, check octet wrong", 1, none && length == 65_539);
        come("65,535 octets of data, one octet long", 2, none && length == 65_540);
        Some(true)
    }

    fn writereply(&mut self, words: &[&str], told: &[&str]) -> Option<bool> {
        let n = numbers(&words[1..4]);
        let (kind, code, room) = (n[0], n[1], n[2]);
        let reply = (kind, code, octets(words[4])?);
        let answer = |slip| write_reply(&reply, room, slip);
        let right = answer(Nowhere);
        let text = match &right {
            Some(octets) => format!("0 {}", hex(octets)),
            None => String::from("21 -"),
        };
        if text != told.join(" ") {
            return Some(false);
        }
        let length = reply.2.len();
        if length < 5000 {
            self.slip("writereply", 30, &WRITING_REPLIES[..4], &answer);
            self.slip("writereply", 30, &WRITING_REPLIES[6..], &answer);
        } else {
            self.slip("writereply", 2, &WRITING_REPLIES[4..6], &answer);
        }
        let good = right.is_some();
        let name = ["", "data", "done", "refused"][kind as usize];
        let w = &mut self.written;
        let mut come = |what: &str, least: u64, came: bool| {
            w.count(&format!("writereply, {name}, {what}"), least, came);
        };
        let needed = if kind == 1 { 4 + length as u64 } else { 1 };
        come("exact room", 60, good && room == needed);
        come("one octet too few", 30, !good && room + 1 == needed);
        come("one octet more room", 20, good && room == needed + 1);
        come("room 0", 30, !good && room == 0);
        match kind {
            3 => {
                for code_of in 0..=5 {
                    let fits = (1..=4).contains(&code_of);
                    let least = if fits { 60 } else { 15 };
                    let came = code == code_of && room > 0 && good == fits;
                    come(&format!("code {code_of}"), least, came);
                }
                come("code that ends as one", 3, !good && code > 255 && (1..5).contains(&(code & 255)));
                come("code of 2^64 - 1", 3, !good && code == u64::MAX);
                come("data of none", 60, good && length > 0);
            }
            2 => {
                come("code of none", 60, good && code > 0);
                come("data of none", 60, good && length > 0);
            }
            _ => {
                come("code of none", 60, good && code > 0);
                come("no data", 60, good && length == 0);
                come("65,535 octets of data", 1, length == 0xffff && good);
                come("65,535 octets of data, one octet too few", 1, length == 0xffff && !good);
                come("65,536 octets of data", 2, length == 0x1_0000 && !good);
            }
        }
        Some(true)
    }

    fn readrange(&mut self, words: &[&str], told: &[&str]) -> Option<bool> {
        let (d, image) = (octets(words[1])?, octets(words[2])?);
        let n = numbers(&words[3..7]);
        let (mfr, num, offset, length) = (n[0] == 1, n[1], n[2], n[3]);
        let laid = match lay_out(&d, &image) {
            Ok(laid) => laid,
            Err(refusal) => {
                let Refusal { no, item, octet, depth } = refusal;
                self.ranges.count("12 also, refused by 9", 20, no == 9 && length > 1 << 32);
                return Some(told.join(" ") == format!("{no} {item} {octet} {depth} 0 0 -"));
            }
        };
        let table = match find(&laid, mfr, num) {
            Some(table) => table,
            None => {
                let r = &mut self.ranges;
                r.count("12 also, refused by 10", 20, length > 1 << 32);
                r.count("number 2,048 and more", 20, num > 2047);
                r.count("number 65,535", 5, num == 65_535);
                r.count("a table of the other kind", 20, find(&laid, !mfr, num).is_some());
                return Some(told.join(" ") == "10 0 0 0 0 0 -");
            }
        };
        let answer = |slip| range_of(&laid, table, offset, length, slip);
        let found = answer(Nowhere);
        let text = match found {
            Ok((at, length)) => {
                let part = &image[at as usize..(at + length) as usize];
                format!("0 0 0 0 {at} {length} {}", hex(part))
            }
            Err(no) => format!("{no} 0 0 0 0 0 -"),
        };
        if text != told.join(" ") {
            return Some(false);
        }
        self.slip("readrange", 40, &RANGES, &answer);
        let (good, size) = (found.is_ok(), table.size);
        let r = &mut self.ranges;
        r.count("all of the table", 60, good && offset == 0 && length == size && size > 0);
        r.count("an empty table", 20, good && size == 0);
        r.count("one octet over the table", 60, offset == 0 && length == size + 1);
        r.count("no octets inside", 30, good && length == 0 && offset < size);
        r.count("no octets at the end", 60, good && length == 0 && offset == size);
        r.count("no octets one past the end", 60, length == 0 && offset == size + 1);
        r.count("one octet at the end", 60, length == 1 && offset == size);
        r.count("to the end", 100, good && length > 0 && offset + length == size);
        r.count("octets past the total", 60, image.len() as u64 > laid.total);
        r.count("offset near 2^64", 60, offset > u64::MAX - 10);
        r.count("offset near 2^64, no octets", 10, offset > u64::MAX - 10 && length == 0);
        r.count("length near 2^64", 60, length > u64::MAX - 10);
        r.count("sum of 2^64", 10, offset != 0 && offset.wrapping_add(length) == 0);
        r.count("sum past 2^64 that ends inside", 60, {
            let (sum, wrapped) = offset.overflowing_add(length);
            wrapped && sum <= size
        });
        r.count("sum past 2^32 that ends inside", 5, {
            offset <= size && length >> 32 == 1 && offset + (length & 0xffff_ffff) <= size
        });
        r.count("a read-only table", 100, good && !table.writable);
        r.count("a dimension", 100, good && length > 0 && {
            let at = table.start + offset;
            let inside = |d: &layout::Dimension| d.at < at + length && at < d.at + d.octets;
            laid.dimensions.iter().flatten().any(inside)
        });
        for (mfr_of, num_of) in [(false, 2047), (true, 0), (true, 2047)] {
            let name = format!("{} {num_of}", if mfr_of { "manufacturer" } else { "standard" });
            r.count(&name, 60, good && mfr == mfr_of && num == num_of);
        }
        Some(true)
    }

    /// Whether every case was reached.
    fn report(&mut self, all: bool) -> bool {
        self.requests.add("unknown first octets, of 252", 252, self.unknown.len() as u64);
        let groups = [
            &self.replies,
            &self.requests,
            &self.tables,
            &self.rooms,
            &self.together,
            &self.written,
            &self.read_back,
            &self.ranges,
            &self.no_form,
            &self.slips,
        ];
        cases::report_groups(&groups, CASES, all)
    }
}

fn main() {
    let mut counts = Counts {
        unknown: HashSet::new(),
        last: (String::new(), String::new()),
        replies: Cases::new("replies"),
        requests: Cases::new("requests"),
        tables: Cases::new("tables"),
        rooms: Cases::new("rooms"),
        together: Cases::new("faults that come together"),
        written: Cases::new("messages alone"),
        read_back: Cases::new("undone"),
        ranges: Cases::new("ranges"),
        no_form: Cases::new("lines of no form"),
        slips: Cases::new("slips that would show"),
    };
    let lines = cases::each_request(|request, reply| counts.request(request, reply));
    cases::judge(lines, ENOUGH, |all| counts.report(all));
}
