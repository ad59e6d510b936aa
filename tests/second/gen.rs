//! Writes requests of the line language, random but the same for the same
//! seed:
//!
//!     gen SEED N KIND
//!
//! KIND is check, places (layout, table, where), access (tablepart, octets,
//! number and the writes), calendar (tier, seasoned, matrix;
//! gen_calendar.rs), messages (serve, readrange, and the reading and writing of
//! requests and replies; gen_messages.rs), weekdays (weekday; gen_weekdays.rs),
//! elements (where, octets, number and the writes of elements; gen_elements.rs),
//! lines (malformed and odd lines) or all.
//!
//! Build with plain rustc; it shares the second program's reading of
//! descriptions and layouts, only so as to choose cases near the edges. What
//! the replies should be is not said here.

#![allow(dead_code)]

#[path = "src/description.rs"]
mod description;
#[path = "src/layout.rs"]
mod layout;
#[path = "src/refusal.rs"]
mod refusal;

mod gen_calendar;
mod gen_elements;
mod gen_messages;
mod gen_weekdays;

#[cfg(test)]
#[path = "src/access.rs"]
mod access;
#[cfg(test)]
#[path = "src/causes.rs"]
mod causes;

use description::{after, bodies_round, Item};
use layout::{item_size, lay_out, value_of, Dimension, Layout};
use std::io::{self, BufWriter, Write};

// ---------------------------------------------------------------- chance

/// A small generator of random numbers (the constants of SplitMix64).
struct Rng(u64);

impl Rng {
    fn next(&mut self) -> u64 {
        self.0 = self.0.wrapping_add(0x9e37_79b9_7f4a_7c15);
        let mut z = self.0;
        z = (z ^ (z >> 30)).wrapping_mul(0xbf58_476d_1ce4_e5b9);
        z = (z ^ (z >> 27)).wrapping_mul(0x94d0_49bb_1331_11eb);
        z ^ (z >> 31)
    }

    /// A number below `n` (0 where n is 0).
    fn below(&mut self, n: u64) -> u64 {
        if n == 0 {
            0
        } else {
            self.next() % n
        }
    }

    fn index(&mut self, n: usize) -> usize {
        self.below(n as u64) as usize
    }

    /// A number from `a` to `b`, both included.
    fn between(&mut self, a: u64, b: u64) -> u64 {
        a + self.below(b.wrapping_sub(a).wrapping_add(1))
    }

    /// True `percent` times of a hundred.
    fn chance(&mut self, percent: u64) -> bool {
        self.below(100) < percent
    }

    fn pick<T: Copy>(&mut self, list: &[T]) -> T {
        list[self.index(list.len())]
    }

    fn octet(&mut self) -> u8 {
        self.next() as u8
    }
}

// ----------------------------------------------------------------- items

fn reference(slot: u32, low: u32, width: u32) -> u32 {
    (slot << 22) | (low << 17) | ((width - 1) << 12)
}

fn table(mfr: bool, number: u32, writable: bool, body: usize) -> u32 {
    0x1000_0000 | (mfr as u32) << 27 | (number << 16) | (writable as u32) << 15 | body as u32
}

fn uint(octets: u32, slot: u32) -> u32 {
    let code = match octets {
        1 => 0,
        2 => 1,
        _ => 2,
    };
    0x2000_0000 | (code << 26) | (slot << 20)
}

fn block(octets: u32) -> u32 {
    0x3000_0000 | (octets << 16)
}

fn set(reference: u32, flags: bool) -> u32 {
    0x4000_0000 | reference | (flags as u32) << 11
}

fn array(reference: u32, body: usize) -> u32 {
    0x5000_0000 | reference | body as u32
}

fn if_item(reference: u32, if_true: usize, if_false: usize) -> u32 {
    0x6000_0000 | reference | (if_true as u32) << 6 | if_false as u32
}

fn octets_of_words(words: &[u32]) -> Vec<u8> {
    words.iter().flat_map(|word| word.to_be_bytes().to_vec()).collect()
}

// ------------------------------------------------------ sound descriptions

/// A description being made: its items, the slots set so far and the tables
/// given so far; and what number a dimension is wished to hold.
struct Maker {
    words: Vec<u32>,
    slots: Vec<(u32, u32)>,
    tables: Vec<(bool, u32)>,
    wishes: [Option<u64>; 64],
    room: usize,
}

impl Maker {
    fn free_slot(&self, rng: &mut Rng) -> Option<u32> {
        let free: Vec<u32> = (1..64)
            .filter(|slot| self.slots.iter().all(|(used, _)| used != slot))
            .collect();
        if free.is_empty() {
            None
        } else {
            Some(rng.pick(&free))
        }
    }

    fn dimension(&mut self, rng: &mut Rng, octets: u32) -> Option<u32> {
        let slot = self.free_slot(rng)?;
        self.slots.push((slot, octets));
        self.words.push(uint(octets, slot));
        Some(slot)
    }

    /// A reference to a slot already set, its bits inside.
    fn reference(&self, rng: &mut Rng) -> u32 {
        let (slot, octets) = rng.pick(&self.slots);
        let bits = u64::from(octets * 8);
        let (low, width) = match rng.below(6) {
            0 => (0, bits),
            1 => (rng.below(bits), 1),
            2 => (0, rng.between(1, 3)),
            3 => (bits - 4, rng.between(1, 4)),
            4 => (bits - 1, 1),
            _ => {
                let low = rng.below(bits);
                (low, rng.between(1, bits - low))
            }
        };
        reference(slot, low as u32, width as u32)
    }

    /// Exactly `count` items of a body.
    fn body(&mut self, rng: &mut Rng, count: usize, depth: usize, in_table: bool) {
        let end = self.words.len() + count;
        while self.words.len() < end {
            let left = end - self.words.len();
            match rng.below(if depth < 4 && left >= 2 { 12 } else { 7 }) {
                0 | 1 => self.words.push(uint(rng.pick(&[1, 1, 2, 4]), 0)),
                2 | 3 if in_table => {
                    let octets = rng.pick(&[1, 1, 1, 2, 4]);
                    if self.dimension(rng, octets).is_none() {
                        self.words.push(block(1));
                    }
                }
                2 | 3 => self.words.push(uint(rng.pick(&[1, 2, 2, 4]), 0)),
                4 => {
                    let octets = if rng.chance(97) {
                        rng.between(1, 6)
                    } else {
                        rng.pick(&[7, 100, 255, 256, 1000, 4094, 4095])
                    };
                    self.words.push(block(octets as u32));
                }
                5 | 6 => {
                    let item = set(self.reference(rng), rng.chance(50));
                    self.words.push(item);
                }
                7..=9 => {
                    let inside = self.inside(rng, left - 1);
                    let item = array(self.reference(rng), inside);
                    self.words.push(item);
                    self.body(rng, inside, depth + 1, false);
                }
                _ => {
                    let if_true = self.inside(rng, (left - 1).min(63));
                    let if_false = if rng.chance(50) {
                        rng.index((left - 1 - if_true).min(63).min(6) + 1)
                    } else {
                        0
                    };
                    let item = if_item(self.reference(rng), if_true, if_false);
                    self.words.push(item);
                    self.body(rng, if_true, depth + 1, false);
                    self.body(rng, if_false, depth + 1, false);
                }
            }
        }
    }

    /// How many items to put inside, from 1 to `most`; often few, sometimes all.
    fn inside(&self, rng: &mut Rng, most: usize) -> usize {
        match rng.below(4) {
            0 => most,
            1 => 1 + rng.index(most),
            _ => 1 + rng.index(most.min(4)),
        }
    }

    fn new_table(&mut self, rng: &mut Rng, body: usize) {
        loop {
            let mfr = rng.chance(30);
            let number = if rng.chance(80) {
                rng.below(60) as u32
            } else {
                rng.pick(&[2047, 2046, 1024, 255, 256, 51, 54])
            };
            if !self.tables.contains(&(mfr, number)) {
                self.tables.push((mfr, number));
                self.words.push(table(mfr, number, rng.chance(75), body));
                return;
            }
        }
    }

    /// A table of an array, or arrays in one another, counted by a dimension of
    /// four octets whose number is huge, and of elements that are wished to be
    /// of no octets.
    fn huge_table(&mut self, rng: &mut Rng) {
        let depth = rng.between(1, 4) as usize;
        self.new_table(rng, depth + 3);
        let count = self.dimension(rng, 4);
        let size = self.dimension(rng, 1);
        if let (Some(count), Some(size)) = (count, size) {
            self.wishes[count as usize] =
                Some(rng.pick(&[0xffff_ffff, 0x8000_0000, 0x1_0000, 0xffff, 0x1_0001, 3, 0]));
            self.wishes[size as usize] = Some(rng.pick(&[0, 0, 0, 1, 255]));
            for level in 0..depth {
                self.words.push(array(reference(count, 0, 32), depth - level));
            }
            self.words.push(set(reference(size, 0, 8), rng.chance(50)));
        } else {
            // No slot left: the place is filled with what needs none.
            let end = self.words.len() + depth + 3
                - usize::from(count.is_some())
                - usize::from(size.is_some());
            while self.words.len() < end {
                self.words.push(block(1));
            }
        }
    }
}

/// A sound description, from few items to 512.
fn sound(rng: &mut Rng) -> Maker {
    let target = match rng.below(100) {
        0..=69 => rng.between(2, 14),
        70..=92 => rng.between(14, 50),
        93..=97 => rng.between(50, 200),
        _ => rng.pick(&[510, 511, 512, 512, 300, 401]),
    } as usize;
    let mut maker = Maker {
        words: Vec::new(),
        slots: Vec::new(),
        tables: vec![(false, 0)],
        wishes: [None; 64],
        room: target,
    };
    let first = 1 + rng.index((target - 1).min(8));
    maker.words.push(table(false, 0, rng.chance(60), first));
    maker.dimension(rng, 1);
    maker.body(rng, first - 1, 0, true);
    while maker.words.len() < target {
        let left = target - maker.words.len();
        if left >= 8 && maker.tables.len() < 30 && rng.chance(12) {
            maker.huge_table(rng);
            continue;
        }
        // Near the end of the table numbers the rest goes into one table.
        let body = if maker.tables.len() > 60 || rng.chance(20) {
            left - 1
        } else {
            rng.index(left.min(16))
        };
        maker.new_table(rng, body);
        maker.body(rng, body, 0, true);
    }
    maker
}

/// A sound description of table 00 and one table more: ARRAYs and IFs in one
/// another, one to four deep, with elements at each depth. The counts are wished
/// to be small, so that most elements are there; or huge, round elements of no
/// octets. An IF takes what is inside on its true or its false side.
fn nested(rng: &mut Rng) -> Maker {
    let huge = rng.chance(30);
    let first = table(false, 0, rng.chance(60), 1);
    let mut maker = Maker {
        words: vec![first],
        slots: Vec::new(),
        tables: vec![(false, 0)],
        wishes: [None; 64],
        room: 0,
    };
    maker.dimension(rng, 1);
    let from = maker.words.len();
    maker.new_table(rng, 0);
    let width = if huge { 4 } else { rng.pick(&[1, 2, 4]) };
    let counts = [maker.dimension(rng, width), maker.dimension(rng, width)];
    let size = maker.dimension(rng, 1).unwrap_or(1);
    let choice = maker.dimension(rng, 1).unwrap_or(1);
    for count in counts.iter().flatten() {
        maker.wishes[*count as usize] = Some(if huge {
            rng.pick(&[0xffff_ffff, 0xffff_ffff, 0x8000_0000, 0x1_0001, 0x1_0000])
        } else {
            rng.pick(&[1, 2, 2, 3, 3, 4])
        });
    }
    maker.wishes[size as usize] = Some(if huge { 0 } else { rng.below(4) });
    maker.wishes[choice as usize] = Some(rng.below(2));
    let sized = set(reference(size, 0, 8), rng.chance(50));
    let mut inner = vec![sized];
    for _ in 0..rng.pick(&[1, 2, 3, 4, 4, 4]) {
        let element = if huge { sized } else { rng.pick(&[sized, uint(2, 0), block(3)]) };
        let mut outer = Vec::new();
        if rng.chance(75) {
            let count = rng.pick(&counts).unwrap_or(1);
            outer.push(array(reference(count, 0, width * 8), inner.len()));
            outer.extend_from_slice(&inner);
        } else if rng.chance(50) {
            outer.push(if_item(reference(choice, 0, 1), inner.len(), 1));
            outer.extend_from_slice(&inner);
            outer.push(element);
        } else {
            outer.push(if_item(reference(choice, 0, 1), 1, inner.len()));
            outer.push(element);
            outer.extend_from_slice(&inner);
        }
        if rng.chance(40) {
            outer.push(element);
        }
        inner = outer;
    }
    maker.words.extend_from_slice(&inner);
    maker.words[from] += (maker.words.len() - from - 1) as u32;
    maker
}

/// A sound description and an image near the most octets: an ARRAY counted by a
/// dimension of two octets, and a BLOCK of what is left.
fn long(rng: &mut Rng) -> (Vec<u8>, Vec<u8>) {
    let total = rng.pick(&[65_534, 65_535, 65_536, 65_537]);
    let octets = rng.between(1, 16) as usize;
    let (count, rest) = ((total - 3) / octets, (total - 3) % octets);
    let mut words = vec![table(false, 0, rng.chance(60), 2), uint(1, 1), uint(2, 2)];
    words.push(table(false, 5, true, if rest > 0 { 3 } else { 2 }));
    words.push(array(reference(2, 0, 16), 1));
    words.push(block(octets as u32));
    if rest > 0 {
        words.push(block(rest as u32));
    }
    let mut count = [count as u8, (count >> 8) as u8];
    let order = rng.below(2) as u8;
    if order == 1 {
        count.reverse();
    }
    let mut image = vec![order, count[0], count[1]];
    image.resize(rng.pick(&[total, total, total - 1, total + 1]), rng.octet());
    (octets_of_words(&words), image)
}

// ----------------------------------------------------------------- images

/// A number for a dimension: mostly small, so that images are.
fn dimension_value(rng: &mut Rng, octets: u64) -> u64 {
    let most = match octets {
        1 => 0xff,
        2 => 0xffff,
        _ => 0xffff_ffff,
    };
    let value = match rng.below(10) {
        0 | 1 => 0,
        2..=5 => rng.between(1, 4),
        6 => rng.between(0, 20),
        7 => rng.pick(&[0x12, 0x21, 0x80, 0x81, 0xff, 0x100, 0x8001]),
        8 => rng.next() & rng.next() & rng.next() & most,
        _ => {
            if rng.chance(30) {
                most
            } else {
                rng.next() & 0x0f0f_0303
            }
        }
    };
    value & most
}

struct Builder<'a> {
    items: &'a [Item],
    wishes: &'a [Option<u64>; 64],
    image: Vec<u8>,
    dimensions: [Option<Dimension>; 64],
    cap: u64,
}

impl<'a> Builder<'a> {
    /// Builds a body; false where it would pass the cap, and is left there.
    fn body(&mut self, rng: &mut Rng, start: usize, end: usize) -> bool {
        let mut place = start;
        while place < end {
            match self.items[place] {
                Item::If { reference, if_true, if_false } => {
                    let value = value_of(reference, &self.dimensions).unwrap_or(0);
                    let (first, last) = layout::chosen_body(place, if_true, if_false, value);
                    if !self.body(rng, first, last) {
                        return false;
                    }
                }
                Item::Uint { octets, slot } if slot != 0 => {
                    let at = self.image.len() as u64;
                    let value = match self.wishes[slot] {
                        Some(value) => value,
                        None => dimension_value(rng, octets),
                    };
                    let mut bytes: Vec<u8> =
                        (0..octets).map(|k| (value >> (8 * k)) as u8).collect();
                    if at == 0 && rng.chance(70) {
                        bytes[0] = rng.pick(&[0, 1]);
                    }
                    let order = if at == 0 { bytes[0] } else { self.image[0] };
                    if order & 1 == 1 {
                        bytes.reverse();
                    }
                    let value = layout::number_of(&bytes, order & 1 == 1);
                    self.dimensions[slot] = Some(Dimension { at, octets, value });
                    self.image.extend_from_slice(&bytes);
                }
                _ => {
                    let size = item_size(self.items, place, &self.dimensions).unwrap_or(0);
                    if self.image.len() as u64 + size.min(1 << 20) > self.cap {
                        return false;
                    }
                    for _ in 0..size {
                        self.image.push(rng.octet());
                    }
                }
            }
            place = after(self.items, place);
        }
        true
    }
}

/// An image for a sound description: at its total, near it, or anything.
fn image_for(rng: &mut Rng, items: &[Item], wishes: &[Option<u64>; 64]) -> Vec<u8> {
    let cap = if rng.chance(2) { 65_600 } else { 700 };
    let mut builder =
        Builder { items, wishes, image: Vec::new(), dimensions: [None; 64], cap };
    let mut place = 0;
    while place < items.len() {
        let next = after(items, place);
        if !builder.body(rng, place + 1, next) {
            break;
        }
        place = next;
    }
    let mut image = builder.image;
    match rng.below(100) {
        0..=54 => {}
        55..=64 => {
            image.pop();
        }
        65..=79 => image.push(rng.octet()),
        80..=86 => {
            for _ in 0..rng.below(20) {
                image.push(rng.octet());
            }
        }
        87..=94 => {
            let length = rng.index(image.len() + 1);
            image.truncate(length);
        }
        95 => image.clear(),
        96 => image.truncate(1),
        97 => {
            for _ in 0..1 + rng.below(4) {
                if !image.is_empty() {
                    let place = rng.index(image.len());
                    image[place] = rng.octet();
                }
            }
        }
        _ => {
            if rng.chance(4) {
                let length = rng.pick(&[65_534, 65_535, 65_535, 65_536, 65_536, 65_537, 65_540]);
                let octet = rng.octet();
                image.resize(length, octet);
            }
        }
    }
    image
}

// --------------------------------------------------- damaged descriptions

/// A description damaged so that some rule is likely broken.
fn damaged(rng: &mut Rng) -> Vec<u8> {
    let maker = sound(rng);
    damage(rng, maker)
}

fn damage(rng: &mut Rng, mut maker: Maker) -> Vec<u8> {
    let words = &mut maker.words;
    let some = rng.index(words.len());
    match rng.below(22) {
        // Lengths.
        0 => {
            let mut octets = octets_of_words(words);
            match rng.below(5) {
                0 => octets.clear(),
                1 => {
                    octets.pop();
                }
                2 => octets.push(rng.octet()),
                3 => octets.resize(rng.pick(&[2047, 2049, 2050, 2052, 2056, 4096]), 0x20),
                _ => {
                    let length = rng.index(octets.len());
                    octets.truncate(length);
                }
            }
            return octets;
        }
        // One bit changed.
        1..=4 => words[some] ^= 1 << rng.below(32),
        // An item of an unknown kind, with a spare bit, with width code 3, or
        // with a count or slot of 0.
        5 => words[some] = rng.pick(&[0, 7, 8, 15, 12]) << 28 | words[some] & 0x0fff_ffff,
        6 => {
            let spare = 1 << rng.below(11);
            words[some] |= spare;
        }
        7 => {
            words[some] = rng.pick(&[
                0x2c00_0000, 0x3000_0000, 0x4000_0000, 0x5040_0000, 0x6040_0001, 0x5000_0001,
                0x6000_0040, 0x2000_0001, 0x3001_8000, 0x4040_0400,
            ]);
        }
        // Items at levels they may not have: a table where an item was, an item
        // where a table was, a dimension anywhere, another item 0 or 1.
        8 => words[some] = table(rng.chance(50), rng.below(60) as u32, true, 0),
        9 => words[some] = rng.pick(&[uint(1, 0), block(2), uint(2, 0)]),
        10 => words[some] = uint(rng.pick(&[1, 2, 4]), rng.between(1, 63) as u32),
        11 => {
            words[0] = rng.pick(&[
                table(false, 0, true, 0), table(true, 0, false, 1), table(false, 1, false, 1),
                uint(1, 1), block(1), table(false, 0, false, 0x7fff), 0x5040_0001,
            ]);
        }
        12 => {
            words[1] = rng.pick(&[
                uint(1, 0), uint(2, 1), uint(4, 63), block(1), 0x2c10_0000, 0x4040_0000,
                table(false, 3, false, 0), 0x5040_0001, 0x6040_0040,
            ]);
        }
        // Bodies that overrun: a count made larger, or the last items lost.
        13 => words[some] = words[some].wrapping_add(rng.pick(&[1, 1, 2, 3, 16, 64])),
        14 => {
            let length = 1 + rng.index(words.len());
            words.truncate(length);
        }
        // Five levels, or six, of ARRAY and IF on either side.
        15 | 16 => five_deep(rng, words),
        // A slot or a table given twice.
        17 => {
            let again = rng.pick(&maker.slots);
            words.push(table(true, 1999, false, 2));
            words.push(block(1));
            words.push(uint(rng.pick(&[1, 2, 4]), again.0));
        }
        18 => {
            let again = rng.pick(&maker.tables);
            words.push(table(again.0, again.1, rng.chance(50), 0));
        }
        // References to slots not set, or to bits outside.
        19 => {
            let (slot, octets) = rng.pick(&maker.slots);
            let bits = octets * 8;
            let outside = match rng.below(3) {
                0 => reference(slot, bits.min(31), 1 + (32 - bits) / 2),
                1 => reference(slot, 1, bits),
                _ => reference(slot, 31, 32),
            };
            words.push(table(true, 1998, false, 2));
            words.push(rng.pick(&[set(outside, false), array(outside, 1), if_item(outside, 1, 0)]));
            words.push(block(1));
        }
        20 => {
            let slot = rng.between(1, 63) as u32;
            let bits = reference(slot, 0, 1);
            words.push(table(true, 1997, false, 2));
            words.push(rng.pick(&[set(bits, true), array(bits, 1), if_item(bits, 1, 0)]));
            words.push(block(1));
        }
        // Items swapped, lost, doubled, or of any bits at all.
        _ => match rng.below(4) {
            0 => {
                let other = rng.index(words.len());
                words.swap(some, other);
            }
            1 => {
                words.remove(some);
            }
            2 => {
                let word = words[some];
                words.insert(some, word);
            }
            _ => words[some] = rng.next() as u32,
        },
    }
    if maker.words.len() > 512 && rng.chance(80) {
        // Too long by what was added: the last table before it is given up.
        let added = maker.words.len() - 512;
        let shorter = maker.words.len() - added;
        maker.words.truncate(shorter);
    }
    octets_of_words(&maker.words)
}

/// A table of ARRAYs and IFs five or six deep; an IF holds the next on its true
/// or its false side.
fn five_deep(rng: &mut Rng, words: &mut Vec<u32>) {
    let slot = (words[1] >> 20) & 63;
    let depth = rng.pick(&[5, 5, 6]);
    let mut inner = vec![block(1)];
    for _ in 0..depth {
        let bits = reference(slot, rng.below(8) as u32, 1);
        let mut outer = Vec::new();
        match rng.below(4) {
            0 | 1 => outer.push(array(bits, inner.len())),
            2 => outer.push(if_item(bits, inner.len(), 0)),
            _ => {
                outer.push(if_item(bits, 1, inner.len()));
                outer.push(uint(1, 0));
            }
        }
        outer.extend_from_slice(&inner);
        if rng.chance(30) && outer.len() < 50 {
            outer.push(block(2));
        }
        inner = outer;
    }
    words.push(table(true, 1996, false, inner.len()));
    words.extend_from_slice(&inner);
}

// --------------------------------------------------------------- requests

fn hex(octets: &[u8]) -> String {
    if octets.is_empty() {
        return String::from("-");
    }
    let digits = b"0123456789abcdef";
    let mut text = String::with_capacity(octets.len() * 2);
    for octet in octets {
        text.push(char::from(digits[usize::from(octet >> 4)]));
        text.push(char::from(digits[usize::from(octet & 15)]));
    }
    text
}

/// Description and image, mostly sound.
fn pair(rng: &mut Rng) -> (Vec<u8>, Vec<u8>) {
    if rng.chance(12) {
        let octets = damaged(rng);
        let length = rng.index(40);
        let image = (0..length).map(|_| rng.octet()).collect();
        return (octets, image);
    }
    let maker = sound(rng);
    with_image(rng, &maker)
}

/// A description that was made, and an image for it.
fn with_image(rng: &mut Rng, maker: &Maker) -> (Vec<u8>, Vec<u8>) {
    let octets = octets_of_words(&maker.words);
    let image = match description::check(&octets) {
        Ok(items) => image_for(rng, &items, &maker.wishes),
        Err(_) => Vec::new(),
    };
    (octets, image)
}

fn check_request(rng: &mut Rng) -> String {
    let octets = if rng.chance(30) {
        octets_of_words(&sound(rng).words)
    } else {
        damaged(rng)
    };
    format!("check {}", hex(&octets))
}

/// Manufacturer bit and number: mostly of a table that is there.
fn some_table(rng: &mut Rng, laid: &Option<Layout>) -> (u32, u64) {
    if let Some(laid) = laid {
        if rng.chance(85) {
            let place = rng.pick(&laid.tables);
            if let Item::Table { manufacturer, number, .. } = laid.items[place.item] {
                return (manufacturer as u32, u64::from(number));
            }
        }
    }
    let number = rng.pick(&[0, 5, 51, 54, 2047, 2048, 2049, 4096, 65_535]);
    (rng.below(2) as u32, number)
}

fn any_number(rng: &mut Rng) -> u64 {
    match rng.below(6) {
        0 => 0,
        1 => rng.below(10),
        2 => rng.below(300),
        3 => rng.pick(&[255, 256, 65_535, 65_536, 4_294_967_295, 4_294_967_296]),
        4 => u64::MAX - rng.below(8),
        _ => rng.next() >> rng.below(64),
    }
}

/// What elements a name is to be chosen from, mostly.
#[derive(Clone, Copy, PartialEq, Eq)]
enum Among {
    Elements,
    Integers,
    /// Those that set no slot, in tables marked writable.
    Open,
    OpenIntegers,
}

fn is_among(laid: &Layout, i: usize, among: Among) -> bool {
    let item = laid.items[i];
    match among {
        Among::Elements => {
            matches!(item, Item::Uint { .. } | Item::Block { .. } | Item::Set { .. })
        }
        Among::Integers => matches!(item, Item::Uint { .. }),
        Among::Open | Among::OpenIntegers => {
            let open = match bodies_round(&laid.items, i).first() {
                Some(body) => {
                    matches!(laid.items[body.owner], Item::Table { writable: true, .. })
                }
                None => false,
            };
            open && match item {
                Item::Uint { slot, .. } => slot == 0,
                Item::Block { .. } | Item::Set { .. } => among == Among::Open,
                _ => false,
            }
        }
    }
}

/// Whether an item has a place: no ARRAY round it is empty, no IF chose the
/// other body.
fn is_there(laid: &Layout, i: usize) -> bool {
    bodies_round(&laid.items, i).iter().all(|body| match laid.items[body.owner] {
        Item::Array { reference, .. } => value_of(reference, &laid.dimensions).unwrap_or(0) > 0,
        Item::If { reference, .. } => {
            (value_of(reference, &laid.dimensions).unwrap_or(0) == 0) == body.is_false_body
        }
        _ => true,
    })
}

/// `item n s0 s1 s2 s3`: mostly an element with subscripts below its counts.
fn some_name(rng: &mut Rng, laid: &Option<Layout>, among: Among) -> String {
    let mut item = rng.below(12);
    let mut count = rng.below(3);
    let mut subscripts = [0u64; 4];
    for subscript in &mut subscripts {
        *subscript = if rng.chance(70) { rng.below(3) } else { any_number(rng) };
    }
    if let Some(laid) = laid {
        if rng.chance(92) {
            let mut elements: Vec<usize> =
                (0..laid.items.len()).filter(|i| is_among(laid, *i, among)).collect();
            if rng.chance(60) {
                elements.retain(|i| is_there(laid, *i));
            }
            // Half of the time one inside ARRAYs and IFs, where there is one.
            let inside: Vec<usize> = elements
                .iter()
                .copied()
                .filter(|i| bodies_round(&laid.items, *i).len() > 1)
                .collect();
            if !inside.is_empty() && rng.chance(50) {
                elements = inside;
            }
            if elements.is_empty() {
                elements.push(1);
            }
            let i = rng.pick(&elements);
            item = i as u64;
            let mut arrays = 0;
            for body in bodies_round(&laid.items, i) {
                if let Item::Array { reference, .. } = laid.items[body.owner] {
                    let bound = value_of(reference, &laid.dimensions).unwrap_or(0);
                    subscripts[arrays] = match rng.below(20) {
                        0 => bound,
                        1 => bound.saturating_add(rng.below(3)),
                        2 => any_number(rng),
                        3..=6 => bound.saturating_sub(1),
                        _ => rng.below(bound),
                    };
                    arrays += 1;
                }
            }
            count = match rng.below(30) {
                0..=2 => rng.below(5),
                3 => any_number(rng),
                _ => arrays as u64,
            };
        } else if rng.chance(50) {
            item = rng.below(laid.items.len() as u64 + 2);
        } else {
            item = any_number(rng);
        }
    }
    format!(
        "{item} {count} {} {} {} {}",
        subscripts[0], subscripts[1], subscripts[2], subscripts[3]
    )
}

fn places_request(rng: &mut Rng) -> String {
    let (d, m) = match rng.below(200) {
        0 => long(rng),
        1..=50 => {
            let maker = nested(rng);
            with_image(rng, &maker)
        }
        _ => pair(rng),
    };
    let laid = lay_out(&d, &m).ok();
    let words = format!("{} {}", hex(&d), hex(&m));
    match rng.below(4) {
        0 => format!("layout {words}"),
        1 => {
            let (mfr, num) = some_table(rng, &laid);
            format!("table {words} {mfr} {num}")
        }
        _ => format!("where {words} {}", some_name(rng, &laid, Among::Elements)),
    }
}

fn data(rng: &mut Rng, length: usize) -> String {
    let octets: Vec<u8> = (0..length).map(|_| rng.octet()).collect();
    hex(&octets)
}

fn range_request(rng: &mut Rng, words: &str, laid: &Option<Layout>) -> String {
    let (mut mfr, mut num) = some_table(rng, laid);
    let mut size = rng.below(10);
    let mut start = 0;
    if let Some(laid) = laid {
        // Often a table of some octets that is marked writable.
        let open: Vec<(u32, u64)> = laid
            .tables
            .iter()
            .filter_map(|place| match laid.items[place.item] {
                Item::Table { manufacturer, number, writable: true, .. } if place.length > 0 => {
                    Some((manufacturer as u32, u64::from(number)))
                }
                _ => None,
            })
            .collect();
        if !open.is_empty() && rng.chance(50) {
            (mfr, num) = rng.pick(&open);
        }
        for place in &laid.tables {
            if let Item::Table { manufacturer, number, .. } = laid.items[place.item] {
                if manufacturer as u32 == mfr && u64::from(number) == num {
                    size = place.length;
                    start = place.start;
                }
            }
        }
    }
    // Offset and length inside, at the end, over it, next to a dimension, or
    // with a sum past 2^64 that would come to something small.
    let (offset, length) = match rng.below(16) {
        0 => (size, 0),
        1 => (size, 1),
        2 => (size.saturating_sub(1), 1),
        3 => (size + 1, 0),
        4 => (0, size.min(300)),
        5 => (any_number(rng), rng.below(4)),
        6 => (u64::MAX - rng.below(4), rng.below(6)),
        7 => (rng.below(size + 1), 0),
        8 => {
            let mut offset = 0;
            if let Some(laid) = laid {
                let dimensions: Vec<&Dimension> = laid
                    .dimensions
                    .iter()
                    .flatten()
                    .filter(|d| start <= d.at && d.at < start + size)
                    .collect();
                if !dimensions.is_empty() {
                    let d = rng.pick(&dimensions);
                    offset = (d.at - start + rng.below(d.octets + 2)).saturating_sub(1);
                }
            }
            (offset, rng.pick(&[0, 1, 1, 1, 2, 3]))
        }
        9 => {
            let wrapped = rng.below(size + 1).wrapping_sub(start);
            (wrapped, rng.below(4))
        }
        10 => {
            let length = 1 + rng.below(6);
            (rng.below(size + 1).wrapping_sub(length), length)
        }
        _ => {
            let offset = rng.below(size + 1);
            (offset, rng.below((size - offset).min(12) + 1))
        }
    };
    // Now and then as much as a line may hold.
    let length = if rng.below(3000) == 0 { 65_540 } else { length };
    format!("writerange {words} {mfr} {num} {offset} {}", data(rng, length as usize))
}

fn access_request(rng: &mut Rng) -> String {
    let (mut d, mut m) = pair(rng);
    let mut laid = lay_out(&d, &m).ok();
    // What can't be laid out says little of reads and writes: mostly another.
    if laid.is_none() && rng.chance(75) {
        (d, m) = pair(rng);
        laid = lay_out(&d, &m).ok();
    }
    let words = format!("{} {}", hex(&d), hex(&m));
    let item_of = |name: &str| -> Option<Item> {
        let number: u64 = name.split(' ').next()?.parse().ok()?;
        let laid = laid.as_ref()?;
        laid.items.get(usize::try_from(number).ok()?).copied()
    };
    match rng.below(13) {
        0 => {
            let (mfr, num) = some_table(rng, &laid);
            format!("tablepart {words} {mfr} {num}")
        }
        1 | 2 => format!("octets {words} {}", some_name(rng, &laid, Among::Elements)),
        3..=5 => {
            let among = rng.pick(&[Among::Elements, Among::Integers, Among::Integers]);
            format!("number {words} {}", some_name(rng, &laid, among))
        }
        6..=8 => range_request(rng, &words, &laid),
        9 | 10 => {
            let among = rng.pick(&[Among::Elements, Among::Open, Among::Open]);
            let name = some_name(rng, &laid, among);
            let length = match item_of(&name) {
                Some(Item::Uint { octets, .. }) | Some(Item::Block { octets }) => octets,
                Some(Item::Set { reference, flags }) => {
                    let value = match &laid {
                        Some(laid) => value_of(reference, &laid.dimensions).unwrap_or(0),
                        None => 0,
                    };
                    let octets = if flags { (value + 7) / 8 } else { value };
                    octets.min(70_000)
                }
                _ => 1,
            };
            let length = match rng.below(10) {
                0 => length + 1,
                1 => length.saturating_sub(1),
                2 => rng.below(6),
                _ => length,
            };
            format!("writeoctets {words} {name} {}", data(rng, length as usize))
        }
        _ => {
            let among = rng.pick(&[Among::Integers, Among::OpenIntegers, Among::OpenIntegers]);
            let name = some_name(rng, &laid, among);
            let limit = match item_of(&name) {
                Some(Item::Uint { octets, .. }) => 1u64 << (8 * octets),
                _ => 256,
            };
            let value = match rng.below(9) {
                0 => limit,
                1 => limit - 1,
                2 => any_number(rng),
                3 => limit + rng.below(3),
                _ => rng.below(limit),
            };
            format!("writenumber {words} {name} {value}")
        }
    }
}

// --------------------------------------------------------------- calendar

#[derive(Clone, Copy)]
struct Day {
    year: u64,
    month: u64,
    day: u64,
}

fn date_field(day: Day) -> u64 {
    let short = if day.year >= 2000 { day.year - 2000 } else { day.year.wrapping_sub(1900) };
    (short & 127) | (day.month & 15) << 7 | (day.day & 31) << 11
}

fn any_day(rng: &mut Rng) -> Day {
    let year = match rng.below(5) {
        0 => rng.pick(&[1990, 1999, 2000, 2089, 2024, 2096 - 8]),
        1 => rng.between(1990, 1999),
        _ => rng.between(1990, 2089),
    };
    Day { year, month: rng.between(1, 12), day: rng.between(1, 28) }
}

/// A day a few days from another, not past the month's ends.
fn day_near(rng: &mut Rng, day: Day) -> Day {
    let by = rng.below(5);
    let mut near = day;
    if rng.chance(60) {
        near.day = near.day.saturating_sub(by).max(1);
    } else {
        near.day = (near.day + by).min(28);
    }
    match rng.below(8) {
        0 => near.month = 1 + rng.below(12),
        1 => near.year = (near.year - rng.below(2)).max(1990),
        _ => {}
    }
    near
}

/// Divides octets into items that set no slot.
fn divided(rng: &mut Rng, length: usize) -> Vec<u32> {
    let mut items = Vec::new();
    let mut left = length;
    let style = rng.below(4);
    while left > 0 {
        let piece = match style {
            0 => left.min(4095),
            1 if length <= 60 => 1,
            _ => (1 + rng.index(9)).min(left),
        };
        items.push(match piece {
            1 => uint(1, 0),
            2 if rng.chance(60) => uint(2, 0),
            4 if rng.chance(60) => uint(4, 0),
            _ => block(piece as u32),
        });
        left -= piece;
        if items.len() > 150 {
            // Keep well under 512 items: the rest in one or more blocks.
            while left > 0 {
                let piece = left.min(4095);
                items.push(block(piece as u32));
                left -= piece;
            }
        }
    }
    items
}

/// Tables 51 and 54 as the standard divides them, sized by Table 51's own
/// octets: 29 items, slots 32 to 37.
fn as_standard(rng: &mut Rng) -> [u32; 29] {
    [
        table(false, 51, rng.chance(50), 7),
        uint(1, 32),
        uint(1, 33),
        uint(1, 34),
        uint(1, 35),
        uint(1, 36),
        uint(2, 37),
        uint(2, 0),
        table(false, 54, rng.chance(50), 20),
        if_item(reference(32, 5, 1), 1, 0),
        uint(2, 0),
        array(reference(35, 0, 8), 2),
        uint(2, 0),
        uint(1, 0),
        array(reference(36, 0, 8), 2),
        uint(2, 0),
        uint(1, 0),
        array(reference(37, 0, 16), 2),
        uint(2, 0),
        uint(1, 0),
        if_item(reference(33, 1, 1), 4, 4),
        array(reference(34, 0, 4), 3),
        block(7),
        array(reference(34, 4, 4), 1),
        uint(1, 0),
        array(reference(34, 0, 4), 3),
        block(3),
        array(reference(34, 4, 4), 1),
        uint(1, 0),
    ]
}

/// What is asked of a calendar.
fn calendar_question(rng: &mut Rng) -> &'static str {
    match rng.below(20) {
        0..=10 => "tier",
        11..=15 => "seasoned",
        _ => "matrix",
    }
}

/// The line that asks a question of the calendar, after description and image
/// as much of day and time as it takes.
fn line_of(
    rng: &mut Rng,
    question: &str,
    start: &str,
    day: Day,
    hour: u64,
    minute: u64,
) -> String {
    let date = format!("{} {} {}", day.year, day.month, day.day);
    match question {
        "tier" => format!("tier {start} {date} {hour} {minute} {}", rng.below(2)),
        "seasoned" => format!("seasoned {start} {date}"),
        _ => format!("{question} {start}"),
    }
}

/// A request of tier, seasoned or matrix, of a calendar of anything.
fn calendar_request(rng: &mut Rng) -> String {
    let order = rng.pick(&[0u8, 1, 0, 1, 0xfe, 0xff]);
    let two = |field: u64| -> [u8; 2] {
        let field = field as u16;
        if order & 1 == 1 {
            field.to_be_bytes()
        } else {
            field.to_le_bytes()
        }
    };
    let armed = rng.chance(4);
    let anchor = rng.chance(30);
    let weekdays = rng.chance(50);
    let apart = rng.chance(50);
    let seasons = rng.pick(&[0, 1, 1, 2, 2, 3, 4, 4, 15]);
    let special = rng.pick(&[0, 0, 1, 1, 2, 3, 11, 12, 15]);
    let dates = rng.pick(&[0, 1, 2, 3, 4, 6, 9, 30]);
    let recurring = rng.pick(&[0, 0, 1, 2, 5]);
    let switches = rng.pick(&[0, 1, 3, 5, 8, 12, 25, 40]);
    let width = if weekdays { 7 } else { 3 } + special;

    let day = any_day(rng);
    let hour = rng.below(24);
    let minute = rng.below(60);

    // Table 51.
    let mut flags_1 = rng.octet() & 0xd7;
    if armed {
        flags_1 |= 8;
    }
    if anchor {
        flags_1 |= 32;
    }
    let mut flags_2 = rng.octet() & 0xf9;
    if weekdays {
        flags_2 |= 2;
    }
    if apart {
        flags_2 |= 4;
    }
    let mut t51 = vec![
        flags_1,
        flags_2,
        (seasons | special << 4) as u8,
        dates as u8,
        recurring as u8,
    ];
    t51.extend_from_slice(&two(switches));
    t51.extend_from_slice(&[rng.octet(), rng.octet()]);

    // Table 54.
    let mut t54 = Vec::new();
    if anchor {
        t54.extend_from_slice(&[rng.octet(), rng.octet()]);
    }
    for k in 0..dates {
        let dated = match rng.below(10) {
            0 | 1 => day,
            2..=4 => day_near(rng, day),
            5 => Day { year: 1990, month: 1, day: 1 + rng.below(3) },
            6 => {
                // No real date, or one at the end of a month.
                let any = any_day(rng);
                Day {
                    month: rng.pick(&[0, 2, 2, 4, 13, 15]),
                    day: rng.pick(&[0, 29, 30, 31]),
                    year: any.year,
                }
            }
            _ => any_day(rng),
        };
        let mut field = date_field(dated);
        if rng.chance(4) {
            field = field & !127 | rng.between(100, 127);
        }
        let season = if seasons > 0 && rng.chance(93) { rng.below(seasons) } else { rng.below(16) };
        let column =
            if special > 0 && rng.chance(85) { rng.below(special.min(12)) } else { rng.below(12) };
        let mut action = match rng.below(12) {
            0..=6 => 3 + season,
            7 | 8 => 19 + column,
            9 => 31,
            _ => rng.below(3),
        };
        if k == 0 && rng.chance(60) {
            // A season from early on, so that one is mostly chosen.
            field = date_field(Day { year: 1990, month: 1, day: 1 });
            action = 3 + season;
        }
        if rng.chance(25) {
            action |= rng.pick(&[0x20, 0x40, 0x80, 0xe0]);
        }
        t54.extend_from_slice(&two(field));
        t54.push(action as u8);
    }
    for _ in 0..recurring {
        t54.extend_from_slice(&[rng.octet(), rng.octet(), rng.octet()]);
    }
    let schedules = rng.pick(&[1, 2, 3, 6]);
    for _ in 0..switches {
        let (h, m) = match rng.below(8) {
            0 => (hour, minute),
            1 => (hour, minute + 1),
            2 => (hour, minute.saturating_sub(1)),
            3 => (rng.below(32), rng.below(64)),
            4 => (rng.pick(&[0, 23, 24]), rng.pick(&[0, 59, 60])),
            _ => (rng.below(24), rng.below(60)),
        };
        let field = rng.below(8) | rng.below(4) << 3 | (m & 63) << 5 | (h & 31) << 11;
        t54.extend_from_slice(&two(field));
        t54.push(rng.below(schedules) as u8);
    }
    for _ in 0..seasons * width {
        t54.push(if rng.chance(97) { rng.below(schedules) as u8 } else { rng.octet() });
    }

    // A size that is wrong, now and then.
    match rng.below(40) {
        0 => t51.push(rng.octet()),
        1 => {
            t51.pop();
        }
        2 => t54.push(rng.octet()),
        3 => {
            t54.pop();
        }
        4 => {
            let place = rng.index(7);
            t51[place] ^= 1 << rng.below(8);
        }
        _ => {}
    }

    // The description: the tables divided in one of several ways, among
    // others.
    let mut image = vec![order];
    let mut words = vec![table(false, 0, false, 1), uint(1, 1 + rng.below(20) as u32)];
    if rng.chance(25) {
        words.extend_from_slice(&as_standard(rng));
        image.extend_from_slice(&t51);
        image.extend_from_slice(&t54);
    } else {
        let mut parts = vec![(false, 51, t51), (false, 54, t54)];
        if rng.chance(40) {
            let length = rng.index(5);
            let filler: Vec<u8> = (0..length).map(|_| rng.octet()).collect();
            let place = rng.index(3);
            parts.insert(place, (rng.chance(50), rng.pick(&[1, 50, 52, 2047]), filler));
        }
        if rng.chance(30) {
            parts.reverse();
        }
        match rng.below(30) {
            0 => {
                let place = rng.index(parts.len());
                parts.remove(place);
            }
            1 => {
                let place = rng.index(parts.len());
                parts[place].0 = true;
            }
            _ => {}
        }
        for (mfr, number, octets) in &parts {
            let items = divided(rng, octets.len());
            words.push(table(*mfr, *number, rng.chance(50), items.len()));
            words.extend_from_slice(&items);
            image.extend_from_slice(octets);
        }
    }
    match rng.below(60) {
        0 => {
            image.pop();
        }
        1 => image.push(rng.octet()),
        2 => {
            let length = rng.index(image.len());
            image.truncate(length);
        }
        3 => {
            let place = rng.index(words.len());
            words[place] ^= 1 << rng.below(32);
        }
        4 => image.clear(),
        5 => {
            if rng.chance(10) {
                image.resize(65_536, 0);
            }
        }
        _ => {}
    }
    let start = format!("{} {}", hex(&octets_of_words(&words)), hex(&image));

    // The day asked: mostly that of the calendar.
    let mut asked = match rng.below(10) {
        0 => any_day(rng),
        1 | 2 => day_near(rng, day),
        _ => day,
    };
    let mut hour = hour;
    let mut minute = minute;
    if rng.chance(6) {
        match rng.below(8) {
            0 => asked.year = rng.pick(&[1989, 2090, 0, 24, 99, 2100, 4_294_967_295]),
            1 => asked.month = rng.pick(&[0, 13, 255, 257, 4_294_967_295]),
            2 => asked.day = rng.pick(&[0, 32, 4_294_967_295]),
            3 => {
                asked.month = rng.pick(&[2, 4, 6, 9, 11]);
                asked.day = rng.pick(&[29, 30, 31]);
            }
            4 => hour = rng.pick(&[24, 25, 255, 4_294_967_295]),
            5 => minute = rng.pick(&[60, 61, 4_294_967_295]),
            6 => {
                asked.year = rng.pick(&[1990, 2089, 2000]);
                asked.month = rng.pick(&[1, 12, 2]);
                asked.day = rng.pick(&[1, 29, 31]);
            }
            _ => {
                hour = 23;
                minute = 59;
            }
        }
    } else if rng.chance(15) {
        hour = rng.below(24);
        minute = rng.below(60);
    }
    let question = calendar_question(rng);
    line_of(rng, question, &start, asked, hour, minute)
}

// ------------------------------------------------------------------ lines

/// An odd line; octets of any value but the line feed.
fn odd_line(rng: &mut Rng) -> Vec<u8> {
    let line: Vec<u8> = match rng.below(8) {
        0 => check_request(rng).into_bytes(),
        1 => calendar_request(rng).into_bytes(),
        2 => access_request(rng).into_bytes(),
        3 => places_request(rng).into_bytes(),
        _ => {
            let question = rng.pick(&[
                "check 1000000120100000",
                "layout 1000000120100000 00",
                "table 1000000120100000 00 0 0",
                "tablepart 1000000120100000 00 0 0",
                "where 1000000120100000 00 1 0 0 0 0 0",
                "octets 1000000120100000 00 1 0 0 0 0 0",
                "number 1000000120100000 00 1 0 0 0 0 0",
                "writerange 1000000120100000 00 0 0 0 -",
                "writeoctets 1000000120100000 00 1 0 0 0 0 0 00",
                "writenumber 1000000120100000 00 1 0 0 0 0 0 7",
                "tier 1000000120100000 00 2024 3 5 7 30 0",
                "seasoned 1000000120100000 00 2024 3 5",
                "matrix 1000000120100000 00",
                "weekday 2024 3 5",
            ]);
            question.as_bytes().to_vec()
        }
    };
    spoiled(rng, line)
}

/// A line made odd in one way, or left as it is.
fn spoiled(rng: &mut Rng, mut line: Vec<u8>) -> Vec<u8> {
    let place = rng.index(line.len() + 1);
    let spaces: Vec<usize> = (0..line.len()).filter(|k| line[*k] == b' ').collect();
    match rng.below(26) {
        // As it is.
        0 => {}
        // Octets of any value, put in, put over, or taken away.
        1 => line.insert(place, rng.octet()),
        2 | 3 => {
            let place = rng.index(line.len());
            line[place] = rng.octet();
        }
        4 => {
            let place = rng.index(line.len());
            line.remove(place);
        }
        5 => line.truncate(place),
        // Spaces: two, one at the start, one at the end, one too few.
        6 => {
            if !spaces.is_empty() {
                line.insert(rng.pick(&spaces), b' ');
            }
        }
        7 => line.insert(0, b' '),
        8 => line.push(b' '),
        9 => {
            if !spaces.is_empty() {
                line.remove(rng.pick(&spaces));
            }
        }
        10 => line.push(b'\r'),
        11 => {
            if !spaces.is_empty() {
                line[rng.pick(&spaces)] = b'\t';
            }
        }
        // Upper case, one letter or all.
        12 => line.make_ascii_uppercase(),
        13 => {
            let place = rng.index(line.len());
            line[place] = line[place].to_ascii_uppercase();
        }
        // Words: one more, one less, one replaced.
        14 => line.extend_from_slice(rng.pick(&[" 0", " -", " 00", " x"]).as_bytes()),
        15 => {
            if let Some(last) = spaces.last() {
                line.truncate(*last);
            }
        }
        16..=21 => {
            let mut words: Vec<Vec<u8>> =
                line.split(|octet| *octet == b' ').map(|word| word.to_vec()).collect();
            let place = rng.index(words.len());
            words[place] = rng
                .pick(&[
                    "", "-", "--", "0", "1", "2", "00", "001", "-1", "+1", "0x1", "1.0", "1e3",
                    "65535", "65536", "065535", "4294967295", "4294967296",
                    "18446744073709551615", "18446744073709551616", "018446744073709551615",
                    "99999999999999999999", "000000000000000000000000000000", "abcdef", "ABCDEF",
                    "abc", "0g", "2047", "2048", "check", "matrix", "seasoned",
                    "weekday",
                ])
                .as_bytes()
                .to_vec();
            line = words.join(&b' ');
        }
        22 => {
            line = rng
                .pick(&[
                    "", " ", "?", "-", "check", "layout", "hello there", "check -", "check - -",
                    "Check -", "checks -", "chec -", "layout - -", "table - - 0 0", "matrix - -",
                    "seasoned", "seasoned - -", "seasoned - - 2024 3", "seasoned - - 2024 3 5",
                    "seasoned - - 2024 3 5 7", "seasoned - - 4294967296 3 5", "season - - 2024 3 5",
                    "weekday", "weekday 2024 3", "weekday 2024 3 5", "weekday 2024 3 5 0",
                    "weekday - - 2024 3 5", "weekday 2024 3 4294967296", "week 2024 3 5",
                ])
                .as_bytes()
                .to_vec();
        }
        23 => {
            let length = rng.index(40);
            line = (0..length).map(|_| rng.octet()).collect();
        }
        24 => {
            // About the longest line: 300,000 octets are read, one more is not.
            if rng.chance(3) {
                let start = String::from("table 1000000120100000 00 0 ");
                let length = rng.pick(&[299_999, 300_000, 300_001, 300_002, 400_000]);
                line = start.into_bytes();
                line.resize(length, b'0');
            }
        }
        _ => {
            // Leading zeros on a number at the end.
            if rng.chance(50) {
                if let Some(last) = spaces.last() {
                    for _ in 0..1 + rng.index(30) {
                        line.insert(last + 1, b'0');
                    }
                }
            } else {
                let place = rng.index(line.len());
                line[place] = rng.pick(&[0, 0xff, 0xc3, 0x7f, 0x0b]);
            }
        }
    }
    for octet in &mut line {
        if *octet == b'\n' {
            *octet = b'\r';
        }
    }
    line
}

fn request(rng: &mut Rng, kind: &str) -> Vec<u8> {
    match kind {
        "check" => check_request(rng).into_bytes(),
        "places" => places_request(rng).into_bytes(),
        "access" => access_request(rng).into_bytes(),
        "calendar" => calendar_request(rng).into_bytes(),
        "messages" => gen_messages::request(rng, 0),
        "weekdays" => gen_weekdays::any_request(rng),
        "elements" => gen_elements::request(rng).into_bytes(),
        "lines" => odd_line(rng),
        _ => {
            let kind = rng.pick(&[
                "check", "check", "places", "places", "access", "access", "access", "calendar",
                "calendar", "messages", "messages", "weekdays", "elements", "elements", "lines",
            ]);
            request(rng, kind)
        }
    }
}

const KINDS: [&str; 9] = [
    "check", "places", "access", "calendar", "messages", "weekdays", "elements", "lines", "all",
];

fn main() {
    let arguments: Vec<String> = std::env::args().collect();
    let read = || -> Option<(u64, u64, &str)> {
        let seed = arguments.get(1)?.parse().ok()?;
        let count = arguments.get(2)?.parse().ok()?;
        let kind = arguments.get(3)?.as_str();
        if arguments.len() == 4 && KINDS.contains(&kind) {
            Some((seed, count, kind))
        } else {
            None
        }
    };
    let (seed, count, kind) = match read() {
        Some(read) => read,
        None => {
            eprintln!("usage: gen SEED N {}", KINDS.join("|"));
            std::process::exit(2);
        }
    };
    let stdout = io::stdout();
    let mut output = BufWriter::with_capacity(1 << 16, stdout.lock());
    for k in 0..count {
        // Each request has its own start, so that one can be made again alone.
        let mut rng = Rng(seed.wrapping_mul(0x2545_f491_4f6c_dd1d).wrapping_add(k << 20));
        let mut line = match kind {
            "calendar" => gen_calendar::request(&mut rng, k).into_bytes(),
            "messages" => gen_messages::request(&mut rng, k),
            "weekdays" => gen_weekdays::request(&mut rng, k),
            _ => request(&mut rng, kind),
        };
        line.push(b'\n');
        if output.write_all(&line).is_err() {
            return;
        }
    }
    let _ = output.flush();
}

// ------------------------------------------------------------------ tests

#[cfg(test)]
mod tests {
    use super::*;
    use crate::access::element;
    use crate::causes::Name;

    #[test]
    fn sound_descriptions_pass() {
        let mut largest = 0;
        let mut deepest = 0;
        for seed in 0..20_000 {
            let nested = nested(&mut Rng(seed));
            assert!(description::check(&octets_of_words(&nested.words)).is_ok(), "seed {seed}");
            let maker = sound(&mut Rng(seed));
            let items = match description::check(&octets_of_words(&maker.words)) {
                Ok(items) => items,
                Err(refusal) => panic!("seed {seed}: {refusal:?}"),
            };
            largest = largest.max(items.len());
            for i in 0..items.len() {
                deepest = deepest.max(bodies_round(&items, i).len());
            }
        }
        // A TABLE and four more round the innermost items.
        assert_eq!((largest, deepest), (512, 5));
    }

    #[test]
    fn the_walk_asks_every_day() {
        let mut days = std::collections::HashSet::new();
        for k in 0..4 * gen_calendar::DAYS {
            if k % 4 == 0 {
                let line = gen_calendar::request(&mut Rng(k), k);
                let words: Vec<&str> = line.split(' ').collect();
                assert_eq!((words[0], words.len()), ("tier", 9));
                days.insert(words[3..6].join(" "));
            }
        }
        assert_eq!(days.len() as u64, gen_calendar::DAYS);
    }

    #[test]
    fn the_same_seed_gives_the_same_lines() {
        for k in 0..400 {
            let once = gen_calendar::request(&mut Rng(k), k);
            assert_eq!(once, gen_calendar::request(&mut Rng(k), k));
            let once = gen_messages::request(&mut Rng(k << 20), k);
            assert_eq!(once, gen_messages::request(&mut Rng(k << 20), k));
        }
        for kind in KINDS {
            for seed in 0..50 {
                let once = request(&mut Rng(seed), kind);
                assert_eq!(once, request(&mut Rng(seed), kind));
                assert!(!once.contains(&b'\n'));
            }
        }
    }

    /// All names of elements, or none where they are too many to list.
    fn all_names(laid: &Layout) -> Option<Vec<Name>> {
        let mut names = Vec::new();
        for i in 0..laid.items.len() {
            if !is_among(laid, i, Among::Elements) {
                continue;
            }
            let mut lists: Vec<[u64; 4]> = vec![[0; 4]];
            let mut count = 0;
            for body in bodies_round(&laid.items, i) {
                if let Item::Array { reference, .. } = laid.items[body.owner] {
                    let bound = value_of(reference, &laid.dimensions).ok()?;
                    if bound > 200 || bound * lists.len() as u64 > 2000 {
                        return None;
                    }
                    let mut longer = Vec::new();
                    for list in &lists {
                        for subscript in 0..bound {
                            let mut list = *list;
                            list[count] = subscript;
                            longer.push(list);
                        }
                    }
                    lists = longer;
                    count += 1;
                }
            }
            for subscripts in lists {
                names.push(Name { item: i as u64, count: count as u64, subscripts });
            }
        }
        Some(names)
    }

    /// Tables stand side by side from octet 0 to the total, and every octet
    /// below the total belongs to exactly one element.
    #[test]
    fn one_element_for_each_octet() {
        let mut tried = 0;
        for seed in 0..6_000 {
            let mut rng = Rng(seed);
            let maker = sound(&mut rng);
            let d = octets_of_words(&maker.words);
            let items = description::check(&d).unwrap();
            if items.len() > 40 {
                continue;
            }
            let m = image_for(&mut rng, &items, &maker.wishes);
            let laid = match lay_out(&d, &m) {
                Ok(laid) => laid,
                Err(_) => continue,
            };
            let mut end = 0;
            for place in &laid.tables {
                assert_eq!(place.start, end);
                end += place.length;
            }
            assert_eq!(end, laid.total);
            let names = match all_names(&laid) {
                Some(names) => names,
                None => continue,
            };
            let mut owners = vec![0u32; laid.total as usize];
            for name in names {
                if let Ok(place) = element(&d, &m, &name) {
                    for owner in &mut owners[place.at as usize..(place.at + place.length) as usize] {
                        *owner += 1;
                    }
                }
            }
            assert!(owners.iter().all(|count| *count == 1), "seed {seed}");
            tried += 1;
        }
        assert!(tried > 2_000, "{tried}");
    }
}
