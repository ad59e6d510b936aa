//! Requests of serve, readrange, readrequest, writerequest, readreply and
//! writereply, for gen.rs: messages that are nearly right, to meters of few
//! tables, their numbers at the ends of what an id can name.
//!
//! Of each thirty-two requests, six are three pairs: what was written is read
//! back, and what was read is written again; one goes through all first octets. One
//! of a thousand has as much data as a field can count. A few lines are spoiled
//! as those of the kind lines are.

use super::*;

const MOST: u64 = u64::MAX;

// ------------------------------------------------------------------ meters

/// A table to be described: manufacturer bit, number, whether it is writable,
/// its items and its octets.
struct Part {
    mfr: bool,
    number: u32,
    writable: bool,
    items: Vec<u32>,
    octets: Vec<u8>,
}

fn some_octets(rng: &mut Rng, length: usize) -> Vec<u8> {
    (0..length).map(|_| rng.octet()).collect()
}

/// The items and the octets of a table: none, plain ones, or a count and what it
/// counts, with other octets before and after it.
fn body_of(rng: &mut Rng, slot: u32, most_first: bool) -> (Vec<u32>, Vec<u8>) {
    let plain = |rng: &mut Rng| match rng.below(12) {
        0 => rng.pick(&[255, 256, 257, 300]),
        _ => 1 + rng.index(9),
    };
    match rng.below(10) {
        0 => (Vec::new(), Vec::new()),
        1..=5 => {
            let length = plain(rng);
            (divided(rng, length), some_octets(rng, length))
        }
        _ => {
            let (mut items, mut octets) = (Vec::new(), Vec::new());
            if rng.chance(50) {
                let length = 1 + rng.index(3);
                items.extend(divided(rng, length));
                octets.extend(some_octets(rng, length));
            }
            let width = rng.pick(&[1, 1, 2, 4]);
            let count = rng.index(4);
            items.push(uint(width, slot));
            let mut number = count.to_le_bytes()[..width as usize].to_vec();
            if most_first {
                number.reverse();
            }
            octets.extend(number);
            match rng.below(3) {
                0 => {
                    items.push(array(reference(slot, 0, 8 * width), 1));
                    items.push(uint(2, 0));
                    octets.extend(some_octets(rng, 2 * count));
                }
                1 => {
                    items.push(set(reference(slot, 0, 8 * width), false));
                    octets.extend(some_octets(rng, count));
                }
                _ => {}
            }
            if rng.chance(50) {
                let length = 1 + rng.index(3);
                items.extend(divided(rng, length));
                octets.extend(some_octets(rng, length));
            }
            (items, octets)
        }
    }
}

/// A sound description of a few tables, and the image it lays out.
fn meter(rng: &mut Rng) -> (Maker, Vec<u8>) {
    let order = rng.octet();
    let mut image = vec![order];
    let mut first = vec![uint(1, 1)];
    if rng.chance(40) {
        let length = 1 + rng.index(4);
        first.extend(divided(rng, length));
        image.extend(some_octets(rng, length));
    }
    let mut maker = Maker {
        words: vec![table(false, 0, rng.chance(50), first.len())],
        slots: vec![(1, 1)],
        tables: vec![(false, 0)],
        wishes: [None; 64],
        room: 0,
    };
    maker.words.extend(first);
    for _ in 0..1 + rng.index(6) {
        let (mfr, number) = rng.pick(&[
            (false, 1), (false, 5), (false, 5), (false, 7), (false, 255), (false, 256),
            (false, 2046), (false, 2047), (false, 2047), (true, 0), (true, 0), (true, 1), (true, 5),
            (true, 256), (true, 2046), (true, 2047), (true, 2047),
        ]);
        if maker.tables.contains(&(mfr, number)) {
            continue;
        }
        let slot = 2 + maker.tables.len() as u32;
        let (items, octets) = body_of(rng, slot, order & 1 == 1);
        let part = Part { mfr, number, writable: rng.chance(65), items, octets };
        add(&mut maker, &mut image, part);
    }
    (maker, image)
}

fn add(maker: &mut Maker, image: &mut Vec<u8>, part: Part) {
    maker.tables.push((part.mfr, part.number));
    maker.words.push(table(part.mfr, part.number, part.writable, part.items.len()));
    for item in &part.items {
        let (kind, slot) = (item >> 28, item >> 20 & 63);
        if kind == 2 && slot != 0 {
            maker.slots.push((slot, 1 << (item >> 26 & 3)));
        }
    }
    maker.words.extend_from_slice(&part.items);
    image.extend_from_slice(&part.octets);
}

/// A meter, mostly sound; now and then an unsound description, or an image that
/// is short or has octets past the total.
fn lent(rng: &mut Rng) -> (Vec<u8>, Vec<u8>) {
    if rng.chance(5) {
        let maker = if rng.chance(50) { nested(rng) } else { sound(rng) };
        if maker.words.len() < 60 {
            return with_image(rng, &maker);
        }
    }
    let (maker, mut image) = meter(rng);
    match rng.below(100) {
        0..=5 => return (damage(rng, maker), image),
        6..=8 => {
            image.pop();
        }
        9 | 10 => {
            let length = rng.index(image.len());
            image.truncate(length);
        }
        11..=25 => {
            let length = 1 + rng.index(4);
            image.extend(some_octets(rng, length));
        }
        _ => {}
    }
    (octets_of_words(&maker.words), image)
}

/// A table that a message is to: its place, and its dimensions counted from its
/// start.
#[derive(Clone)]
struct Target {
    mfr: bool,
    number: u64,
    start: u64,
    size: u64,
    dimensions: Vec<(u64, u64)>,
    octets: Vec<u8>,
}

fn target(rng: &mut Rng, laid: &Option<Layout>, image: &[u8]) -> Target {
    let none = Target {
        mfr: rng.chance(40),
        number: rng.pick(&[0, 1, 5, 2046, 2047]),
        start: 0,
        size: rng.below(8),
        dimensions: Vec::new(),
        octets: Vec::new(),
    };
    let laid = match laid {
        Some(laid) => laid,
        None => return none,
    };
    // Table 0 stands in every description: the others more often.
    let place = if laid.tables.len() > 1 && rng.chance(80) {
        rng.pick(&laid.tables[1..])
    } else {
        rng.pick(&laid.tables)
    };
    let (start, end) = (place.start, place.start + place.length);
    match laid.items[place.item] {
        Item::Table { manufacturer, number, .. } => Target {
            mfr: manufacturer,
            number: u64::from(number),
            start,
            size: place.length,
            dimensions: laid
                .dimensions
                .iter()
                .flatten()
                .filter(|d| start <= d.at && d.at < end)
                .map(|d| (d.at - start, d.octets))
                .collect(),
            octets: image[start as usize..end as usize].to_vec(),
        },
        _ => none,
    }
}

/// The id that names a table; now and then one that names another or none.
fn id_of(rng: &mut Rng, target: &Target) -> u64 {
    let id = target.number + if target.mfr { 2048 } else { 0 };
    match rng.below(40) {
        0 => rng.pick(&[2047, 2048, 4095, 4096, 65_535, 2049, 4094, 32_768]),
        1 => id + rng.pick(&[4096, 8192, 32_768, 61_440]),
        2 => id ^ 2048,
        3 => id.swap_bytes() >> 48,
        4 => rng.below(65_536),
        _ => id,
    }
}

/// Offset and length of a range of a table: inside, at its ends, over them, and
/// where only another reading of the rules would have it inside.
fn range(rng: &mut Rng, target: &Target) -> (u64, u64) {
    let size = target.size;
    let inside = rng.below(size + 1);
    if size > 255 && rng.chance(30) {
        let offset = rng.below(3);
        return (offset, size - offset - rng.below(2));
    }
    match rng.below(24) {
        0 => (0, size),
        1 => (size, 0),
        2 => (size, 1),
        3 => (size + 1, 0),
        4 => (size.saturating_sub(1), 1),
        5 => (inside, size - inside + 1),
        6 => (inside, size - inside),
        7 => (inside, 0),
        8 => (inside, (size - inside).saturating_sub(1)),
        9 => (0, size + 1),
        10 => (16_777_215, rng.below(3)),
        11 => (inside + 65_536 * rng.between(1, 255), rng.below(3)),
        12 => (inside + 256 * rng.between(1, 255), rng.below(3)),
        13 => (rng.below(1 << 24), rng.below(9)),
        14..=17 if !target.dimensions.is_empty() => {
            let (at, octets) = rng.pick(&target.dimensions);
            match rng.below(4) {
                0 => (at, octets),
                1 => (at.saturating_sub(1), 1),
                2 => (at + octets, 1),
                _ => ((at + rng.below(octets + 2)).saturating_sub(1), rng.between(1, 3)),
            }
        }
        18 | 19 => (inside, rng.below(size - inside + 1)),
        _ => (inside, rng.below((size - inside).min(12) + 1)),
    }
}

// ---------------------------------------------------------------- messages

/// What a request says: of its form only what that has is written.
#[derive(Clone)]
struct Fields {
    kind: u64,
    id: u64,
    offset: u64,
    count: u64,
    data: Vec<u8>,
}

fn sum(octets: &[u8]) -> u8 {
    octets.iter().fold(0, |sum, octet| sum.wrapping_add(*octet))
}

fn is_write(kind: u64) -> bool {
    kind == 64 || kind == 79
}

/// The octets of a request whose numbers fit.
fn message(fields: &Fields) -> Vec<u8> {
    let mut octets = vec![fields.kind as u8];
    octets.extend_from_slice(&fields.id.to_be_bytes()[6..]);
    if fields.kind == 63 || fields.kind == 79 {
        octets.extend_from_slice(&fields.offset.to_be_bytes()[5..]);
    }
    if fields.kind == 63 {
        octets.extend_from_slice(&fields.count.to_be_bytes()[6..]);
    }
    if is_write(fields.kind) {
        octets.extend(counted_data(&fields.data));
    }
    octets
}

/// Count, data, check octet.
fn counted_data(data: &[u8]) -> Vec<u8> {
    let mut octets = data.len().to_be_bytes()[6..].to_vec();
    octets.extend_from_slice(data);
    octets.push(sum(data).wrapping_neg());
    octets
}

/// Data of a length: of anything, or of a sum at a check octet's edges.
fn data_of(rng: &mut Rng, length: usize) -> Vec<u8> {
    let mut data = some_octets(rng, length);
    match rng.below(8) {
        0 => data.fill(0),
        1 if length > 0 => {
            // Sums of 0 (that is, 256), 1 and 255.
            let rest = sum(&data[1..]);
            data[0] = rng.pick(&[0u8, 1, 255]).wrapping_sub(rest);
        }
        2 => data.fill(0xff),
        _ => {}
    }
    data
}

/// Another check octet, as some other reading of the rule would have it.
fn other_check(rng: &mut Rng, octets: &mut [u8], data_from: usize) {
    let last = octets.len() - 1;
    let right = octets[last];
    octets[last] = match rng.below(10) {
        0 | 1 => right.wrapping_add(1),
        2 => right.wrapping_sub(1),
        3 | 4 => right.wrapping_neg(),
        5 | 6 => sum(&octets[data_from - 2..last]).wrapping_neg(),
        7 => sum(&octets[..last]).wrapping_neg(),
        8 => sum(&octets[1..last]).wrapping_neg(),
        _ => rng.octet(),
    };
}

const UNKNOWN: [u8; 14] = [
    0x31, 0x2f, 0x3e, 0x41, 0x3d, 0x4e, 0x50, 0x20, 0x00, 0x01, 0x02, 0xff, 0x80, 0x10,
];

/// A request with a fault put in, or two.
fn damage_request(rng: &mut Rng, octets: &mut Vec<u8>) {
    let kind = u64::from(octets[0]);
    let data_from = if kind == 79 { 8 } else { 5 };
    let is_write = is_write(kind);
    match rng.below(20) {
        0 | 1 => octets[0] = if rng.chance(50) { rng.pick(&UNKNOWN) } else { rng.octet() },
        2 => octets[0] = rng.pick(&[0x30, 0x3f, 0x40, 0x4f]),
        3 => octets.clear(),
        4 | 5 => {
            octets.pop();
        }
        6 | 7 => {
            let octet = rng.octet();
            let more = rng.pick(&[0, octet, octets[octets.len() - 1]]);
            octets.push(more);
            if rng.chance(10) {
                octets.push(0);
            }
        }
        8 => {
            // To the first octet alone, inside the count, anywhere.
            let length = match rng.below(8) {
                0 | 1 => 1,
                2 if is_write => data_from - 1,
                _ => rng.index(octets.len()),
            };
            octets.truncate(length);
        }
        9..=13 if is_write => other_check(rng, octets, data_from),
        14 if is_write => {
            let more = rng.pick(&[1, 0xff]);
            octets[data_from - 1] = octets[data_from - 1].wrapping_add(more);
        }
        15 if is_write => octets.swap(data_from - 1, data_from - 2),
        16 => {
            let place = rng.index(octets.len());
            octets[place] ^= 1 << rng.below(8);
        }
        17 => {
            let length = rng.index(4);
            *octets = some_octets(rng, length);
        }
        18 if is_write => {
            // One octet of data less, or more, under the same count.
            let place = data_from.min(octets.len() - 1);
            if rng.chance(50) && octets.len() > data_from + 1 {
                octets.remove(place);
            } else {
                octets.insert(place, 0);
            }
        }
        _ => {
            // First octet and length, or length and check octet.
            if rng.chance(50) {
                octets[0] = rng.pick(&UNKNOWN);
                let length = rng.index(octets.len()) + 1;
                octets.truncate(length);
            } else {
                let last = octets.len() - 1;
                octets[last] = octets[last].wrapping_add(1);
                octets.push(0);
            }
        }
    }
}

/// A room for a message of so many octets: as many, one less, one more, none.
fn room_for(rng: &mut Rng, length: u64) -> u64 {
    let length = length.min(65_543);
    match rng.below(16) {
        0..=4 => length,
        5 | 6 => length.saturating_sub(1),
        7 => length + 1,
        8 | 9 => 0,
        10 => 65_544,
        11 => rng.below(12),
        12 => length.saturating_sub(4),
        13 => rng.below(length + 1),
        14 if rng.chance(20) => rng.pick(&[65_545, 65_546, 131_072, MOST]),
        _ => length + rng.below(20),
    }
}

// ------------------------------------------------------------------- serve

/// A message of a first octet, the rest of it anything or a request's.
fn first_octet(rng: &mut Rng, first: u8, served: bool) -> String {
    let mut octets = message(&any_fields(rng));
    if rng.chance(50) {
        let length = rng.index(octets.len()) + 1;
        octets.truncate(length);
    }
    octets[0] = first;
    if served {
        let (d, m) = lent(rng);
        format!("serve {} {} {} {}", hex(&d), hex(&m), room_for(rng, 1), hex(&octets))
    } else {
        format!("readrequest {}", hex(&octets))
    }
}

fn serve(rng: &mut Rng) -> String {
    let (d, m) = lent(rng);
    let laid = lay_out(&d, &m).ok();
    let target = target(rng, &laid, &m);
    let kind = rng.pick(&[48, 63, 63, 64, 64, 79, 79]);
    let id = id_of(rng, &target);
    let (offset, length) = range(rng, &target);
    let (offset, length) = (offset.min(16_777_215), length.min(65_535));
    let mut fields = Fields { kind, id, offset, count: length, data: Vec::new() };
    match kind {
        63 if rng.below(15) == 0 => fields.count = rng.pick(&[65_535, 65_535, 65_280, 256]),
        63 if rng.below(15) == 0 => fields.count = (length << 8 | length >> 8) & 0xffff,
        64 => {
            let size = target.size as usize;
            let length = match rng.below(12) {
                0 => size + 1,
                1 => size.saturating_sub(1),
                2 => 0,
                3 => rng.index(9),
                _ => size,
            };
            fields.data = data_of(rng, length);
        }
        79 => fields.data = data_of(rng, length as usize),
        _ => {}
    }
    // Now and then what stands there already.
    if is_write(kind) && rng.chance(10) && !target.octets.is_empty() {
        let from = if kind == 64 { 0 } else { fields.offset };
        for (k, octet) in fields.data.iter_mut().enumerate() {
            if let Some(stands) = target.octets.get(from as usize + k) {
                *octet = *stands;
            }
        }
    }
    let mut octets = message(&fields);
    if rng.chance(30) {
        damage_request(rng, &mut octets);
    }
    let reply = match kind {
        48 => 4 + target.size,
        63 => 4 + fields.count,
        _ => 1,
    };
    let reply = if rng.chance(10) { 1 } else { reply };
    let room = room_for(rng, reply);
    format!("serve {} {} {room} {}", hex(&d), hex(&m), hex(&octets))
}

fn readrange(rng: &mut Rng) -> String {
    let (d, m) = lent(rng);
    let laid = lay_out(&d, &m).ok();
    let target = target(rng, &laid, &m);
    let (mut mfr, mut number) = (target.mfr, target.number);
    match rng.below(20) {
        0 => number = rng.pick(&[2047, 2048, 2053, 4095, 4096, 65_535, 65_536]),
        1 => mfr = !mfr,
        2 => number += 2048,
        _ => {}
    }
    let (mut offset, mut length) = range(rng, &target);
    let small = rng.below(6);
    match rng.below(16) {
        // Sums past 2^64 that would come to something small.
        0 => offset = MOST - rng.below(4),
        1 => (offset, length) = (MOST - small, small + 1 + rng.below(target.size + 1)),
        2 => (offset, length) = (rng.below(target.size + 1), MOST - small),
        3 => offset = rng.below(target.size + 1).wrapping_sub(target.start),
        4 => length = any_number(rng),
        5 => offset = any_number(rng),
        6 => (offset, length) = (small, (1 << 32) + rng.below(3)),
        _ => {}
    }
    let what = format!("{} {number} {offset} {length}", mfr as u32);
    format!("readrange {} {} {what}", hex(&d), hex(&m))
}

// ---------------------------------------------- requests and replies alone

fn any_id(rng: &mut Rng) -> u64 {
    match rng.below(4) {
        0 => rng.pick(&[0, 1, 255, 256, 2047, 2048, 4095, 4096, 65_535, 65_535]),
        1 => rng.below(4100),
        _ => rng.below(65_536),
    }
}

fn any_offset(rng: &mut Rng) -> u64 {
    match rng.below(4) {
        0 => rng.pick(&[0, 1, 255, 256, 65_535, 65_536, 16_777_215, 16_777_215]),
        1 => rng.below(300),
        _ => rng.below(1 << 24),
    }
}

fn any_count(rng: &mut Rng) -> u64 {
    match rng.below(4) {
        0 => rng.pick(&[0, 1, 255, 256, 65_535, 65_535]),
        1 => rng.below(300),
        _ => rng.below(65_536),
    }
}

fn any_data(rng: &mut Rng) -> Vec<u8> {
    let length = match rng.below(20) {
        0..=3 => 0,
        4 => rng.pick(&[255, 256, 257]),
        _ => 1 + rng.index(8),
    };
    data_of(rng, length)
}

/// A request that fits its fields, and nothing where its form has none.
fn any_fields(rng: &mut Rng) -> Fields {
    let kind = rng.pick(&[48, 63, 64, 79]);
    let data = if is_write(kind) { any_data(rng) } else { Vec::new() };
    let count = match kind {
        48 => 0,
        63 => any_count(rng),
        _ => data.len() as u64,
    };
    let offset = if kind == 63 || kind == 79 { any_offset(rng) } else { 0 };
    Fields { kind, id: any_id(rng), offset, count, data }
}

fn readrequest(rng: &mut Rng) -> String {
    let mut octets = message(&any_fields(rng));
    if rng.chance(60) {
        damage_request(rng, &mut octets);
    }
    format!("readrequest {}", hex(&octets))
}

/// The line that asks to write a request.
fn writing(fields: &Fields, room: u64) -> String {
    let Fields { kind, id, offset, count, data } = fields;
    format!("writerequest {kind} {id} {offset} {count} {room} {}", hex(data))
}

/// Numbers over a field of so many octets: by one, or such that what is cut off
/// would leave something that fits.
fn over(rng: &mut Rng, octets: u32) -> u64 {
    let limit = 1u64 << (8 * octets);
    match rng.below(6) {
        0..=2 => limit,
        3 => limit + rng.below(9),
        4 => MOST - rng.below(3),
        _ => (rng.next() >> 20).max(limit),
    }
}

fn writerequest(rng: &mut Rng) -> String {
    let mut fields = any_fields(rng);
    let length = message(&fields).len() as u64;
    // What the form lacks: anything.
    let junk = |rng: &mut Rng| match rng.below(3) {
        0 => rng.below(9),
        1 => over(rng, 3),
        _ => any_number(rng),
    };
    let kind = fields.kind;
    if rng.chance(60) {
        if kind != 63 {
            fields.count = junk(rng);
        }
        if !is_write(kind) {
            fields.data = any_data(rng);
        }
        if kind == 48 || kind == 64 {
            fields.offset = junk(rng);
        }
    }
    match rng.below(12) {
        0 => fields.id = over(rng, 2),
        1 if kind == 63 || kind == 79 => fields.offset = over(rng, 3),
        2 | 3 if kind == 63 => fields.count = over(rng, 2),
        4 => fields.id = 65_535,
        5 if kind == 63 || kind == 79 => fields.offset = 16_777_215,
        6 if kind == 63 => fields.count = 65_535,
        7 if rng.chance(25) => {
            fields.kind = rng.pick(&[0, 1, 2, 47, 49, 62, 65, 78, 80, 304, 319, MOST]);
        }
        _ => {}
    }
    let room = room_for(rng, length);
    writing(&fields, room)
}

/// A reply: 1 data, 2 done, 3 refused, with its code and its data.
fn any_reply(rng: &mut Rng) -> (u64, u64, Vec<u8>) {
    match rng.below(5) {
        0 => (2, 0, Vec::new()),
        1 => (3, rng.between(1, 4), Vec::new()),
        _ => (1, 0, any_data(rng)),
    }
}

fn reply_of(kind: u64, code: u64, data: &[u8]) -> Vec<u8> {
    match kind {
        1 => [vec![0], counted_data(data)].concat(),
        2 => vec![0],
        _ => vec![code as u8],
    }
}

fn readreply(rng: &mut Rng) -> String {
    let (kind, code, data) = any_reply(rng);
    let mut octets = reply_of(kind, code, &data);
    if rng.chance(65) {
        match rng.below(14) {
            0 => octets.clear(),
            1 => octets = vec![rng.pick(&[5, 5, 6, 0x30, 0x40, 0xff, 0x0a])],
            2 => octets = vec![rng.octet()],
            3 | 4 => {
                octets.pop();
            }
            5 | 6 => octets.push(rng.pick(&[0, 1, 0xff])),
            7..=9 if kind == 1 => other_check(rng, &mut octets, 3),
            10 if kind == 1 => {
                let more = rng.pick(&[1, 0xff]);
                octets[2] = octets[2].wrapping_add(more);
            }
            11 if kind == 1 => octets.swap(1, 2),
            12 => octets[0] = rng.pick(&[0, 1, 2, 3, 4, 5]),
            _ => {
                let length = rng.index(octets.len() + 1);
                octets.truncate(length);
            }
        }
    }
    format!("readreply {}", hex(&octets))
}

fn writereply(rng: &mut Rng) -> String {
    let (mut kind, mut code, mut data) = match rng.below(4) {
        0 => (3, rng.between(1, 4), Vec::new()),
        _ => any_reply(rng),
    };
    let length = reply_of(kind, code, &data).len() as u64;
    match kind {
        3 if rng.chance(60) => {
            code = match rng.below(9) {
                0 => 0,
                1 => 5,
                2 | 3 => rng.pick(&[255, 256, 257, 260, 65_537, 4_294_967_297]),
                4 => MOST - rng.below(2),
                5 => any_number(rng),
                _ => rng.between(1, 4),
            };
        }
        1 | 2 if rng.chance(50) => {
            code = if rng.chance(50) { rng.below(7) } else { any_number(rng) };
        }
        _ => {}
    }
    if kind != 1 && rng.chance(50) {
        data = any_data(rng);
    }
    if rng.chance(2) {
        kind = rng.pick(&[0, 4, 5, 48, 257, MOST]);
    }
    format!("writereply {kind} {code} {} {}", room_for(rng, length), hex(&data))
}

// ------------------------------------------------------------------- pairs

/// Two requests in one another's footsteps: a request written and read back, one
/// read and written again, a reply written and read back.
fn paired(rng: &mut Rng, which: u64, second: bool) -> String {
    if which < 2 {
        let fields = any_fields(rng);
        let octets = message(&fields);
        let room = octets.len() as u64 + rng.pick(&[0, 0, 1, 20]);
        if (which == 0) != second {
            writing(&fields, room)
        } else {
            format!("readrequest {}", hex(&octets))
        }
    } else {
        let (kind, code, data) = any_reply(rng);
        let octets = reply_of(kind, code, &data);
        if second {
            format!("readreply {}", hex(&octets))
        } else {
            format!("writereply {kind} {code} {} {}", octets.len(), hex(&data))
        }
    }
}

// -------------------------------------------------------------------- long

/// A meter of two tables: 00, of one octet, and table 1 of 65,534.
fn longest_meter(rng: &mut Rng) -> (Vec<u8>, Vec<u8>) {
    let mut words = vec![table(false, 0, true, 1), uint(1, 1), table(false, 1, true, 17)];
    words.extend([block(4095); 16]);
    words.push(block(14));
    let octet = rng.octet();
    let mut image = vec![octet; 65_535];
    image[0] = 0;
    (octets_of_words(&words), image)
}

/// How many cases there are of as much data as a field can count, each with an
/// octet of room less, or another fault, every other time.
const LONG: u64 = 15;

fn long_case(rng: &mut Rng, number: u64) -> String {
    let (which, less) = (number % LONG, number / LONG % 2);
    let octet = rng.octet();
    let data = |length: usize| vec![octet; length];
    let id = rng.pick(&[1, 2049, 65_535]);
    let write = |kind: u64, length: usize| Fields {
        kind,
        id,
        offset: 0,
        count: 0,
        data: data(length),
    };
    match which {
        0 => writing(&write(64, 65_535), 65_541 - less),
        1 => writing(&write(79, 65_535), 65_544 - less),
        2 => writing(&write(64, 65_536), 65_544),
        3 => writing(&write(79, 65_536), 65_544),
        // Data that a read leaves out.
        4 => writing(&write(48, 65_536), 3),
        5 => format!("writereply 1 0 {} {}", 65_539 - less, hex(&data(65_535))),
        6 => format!("writereply 1 0 65544 {}", hex(&data(65_536))),
        7 => format!("writereply {} 1 1 {}", 2 + less, hex(&data(65_536))),
        8 => {
            let mut octets = message(&write(79, 65_535));
            octets[65_543] ^= less as u8;
            format!("readrequest {}", hex(&octets))
        }
        9 => {
            let mut octets = reply_of(1, 0, &data(65_535));
            octets[65_538] ^= less as u8;
            format!("readreply {}", hex(&octets))
        }
        // The whole of a long table read, written, and written an octet longer.
        10..=12 => {
            let (d, m) = longest_meter(rng);
            let (request, room) = match which {
                10 => (vec![0x30, 0, 1], 65_538 - less),
                11 => (message(&Fields { id: 1, ..write(64, 65_534) }), 1 - less),
                _ => (message(&Fields { id: 1, ..write(64, 65_535) }), 1),
            };
            format!("serve {} {} {room} {}", hex(&d), hex(&m), hex(&request))
        }
        // One octet more than the longest request, or reply, has.
        13 => {
            let (question, mut octets) = match less {
                0 => ("readrequest", message(&write(79, 65_535))),
                _ => ("readreply", reply_of(1, 0, &data(65_535))),
            };
            octets.push(0);
            format!("{question} {}", hex(&octets))
        }
        // An image over 65,535 octets: 8.
        _ => {
            let (maker, mut image) = meter(rng);
            image.resize(65_536 + less as usize, octet);
            let d = octets_of_words(&maker.words);
            format!("serve {} {} 9 300000", hex(&d), hex(&image))
        }
    }
}

/// The k-th request of the kind messages.
pub fn request(rng: &mut Rng, k: u64) -> Vec<u8> {
    if k % 1000 == 999 {
        return long_case(rng, k / 1000).into_bytes();
    }
    let turn = k % 32;
    if turn == 3 {
        let number = k / 32;
        return first_octet(rng, number as u8, number / 256 % 2 == 0).into_bytes();
    }
    if turn >= 26 {
        // Both of a pair start from the first one's chance.
        let second = turn % 2 == 1;
        let start = if second { rng.0.wrapping_sub(1 << 20) } else { rng.0 };
        return paired(&mut Rng(start), (turn - 26) / 2, second).into_bytes();
    }
    let line = match rng.below(100) {
        0..=53 => serve(rng),
        54..=64 => readrange(rng),
        65..=78 => readrequest(rng),
        79..=86 => writerequest(rng),
        87..=92 => readreply(rng),
        _ => writereply(rng),
    };
    if rng.chance(3) {
        spoiled(rng, line.into_bytes())
    } else {
        line.into_bytes()
    }
}

#[cfg(test)]
mod tests {
    use super::*;

    #[test]
    fn meters_are_laid_out() {
        for seed in 0..20_000 {
            let (maker, image) = meter(&mut Rng(seed));
            let laid = match lay_out(&octets_of_words(&maker.words), &image) {
                Ok(laid) => laid,
                Err(refusal) => panic!("seed {seed}: {refusal:?}"),
            };
            assert_eq!(laid.total, image.len() as u64, "seed {seed}");
        }
        let (d, image) = longest_meter(&mut Rng(1));
        assert_eq!(lay_out(&d, &image).ok().map(|laid| laid.total), Some(65_535));
    }

    #[test]
    fn pairs_are_of_the_same_message() {
        for k in (0..960).filter(|k| k % 32 >= 26 && k % 2 == 0) {
            let one = request(&mut Rng(k << 20), k);
            let other = request(&mut Rng((k + 1) << 20), k + 1);
            let word = |line: &[u8], question: &str| {
                let text = String::from_utf8(line.to_vec()).unwrap();
                text.strip_prefix(question).map(String::from)
            };
            let asked = [word(&one, "read"), word(&other, "read")];
            assert_eq!(asked.iter().flatten().count(), 1, "{k}");
        }
    }
}
