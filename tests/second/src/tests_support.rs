//! What the tests share: items written from their fields, and asking a line.

use crate::lines;

/// Document 01's example description D, and its first image.
pub const D: &str = "10000002201000002020000010058004608e0040300200005080200124000000";
pub const FIRST: &str = "0082aabb34127856";

/// A reference's fields: slot, low bit, width in bits.
pub type Ref = (u32, u32, u32);

fn reference(r: Ref) -> u32 {
    (r.0 << 22) | (r.1 << 17) | ((r.2 - 1) << 12)
}

/// A standard table that is not writable.
pub fn table(number: u32, body: u32) -> u32 {
    0x1000_0000 | (number << 16) | body
}

/// A standard table that is writable.
pub fn open_table(number: u32, body: u32) -> u32 {
    table(number, body) | 0x8000
}

/// A manufacturer table.
pub fn own_table(number: u32, body: u32) -> u32 {
    table(number, body) | 0x0800_0000
}

/// A UINT of 1, 2 or 4 octets that sets a slot (0 = none).
pub fn uint(octets: u32, slot: u32) -> u32 {
    let code = match octets {
        1 => 0,
        2 => 1,
        _ => 2,
    };
    0x2000_0000 | (code << 26) | (slot << 20)
}

pub fn block(octets: u32) -> u32 {
    0x3000_0000 | (octets << 16)
}

/// A SET whose value is octets.
pub fn set(r: Ref) -> u32 {
    0x4000_0000 | reference(r)
}

/// A SET whose value is flags.
pub fn flags(r: Ref) -> u32 {
    set(r) | 0x800
}

pub fn array(r: Ref, body: u32) -> u32 {
    0x5000_0000 | reference(r) | body
}

pub fn if_item(r: Ref, if_true: u32, if_false: u32) -> u32 {
    0x6000_0000 | reference(r) | (if_true << 6) | if_false
}

/// A description as it stands in a request.
pub fn desc(items: &[u32]) -> String {
    if items.is_empty() {
        return String::from("-");
    }
    items.iter().map(|item| format!("{:08x}", item)).collect()
}

/// Octets as they stand in a request.
pub fn hex(octets: &[u8]) -> String {
    if octets.is_empty() {
        return String::from("-");
    }
    octets.iter().map(|octet| format!("{:02x}", octet)).collect()
}

/// The reply to a line.
pub fn ask(line: &str) -> String {
    lines::answer(line.as_bytes())
}

/// That a line has a reply.
pub fn holds(line: &str, reply: &str) {
    let short: String = line.chars().take(200).collect();
    assert_eq!(ask(line), reply, "request: {}", short);
}

/// `check` of a description.
pub fn check_of(items: &[u32]) -> String {
    ask(&format!("check {}", desc(items)))
}
