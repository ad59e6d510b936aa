//! Document 02's E2: requests and replies, each form and each fault, the order
//! in which faults are judged, rooms, and that reading and writing undo each
//! other.

use crate::messages::{check_octet, read_reply, read_request, write_reply, write_request};
use crate::messages::{Reply, Request};
use crate::tests_support::*;

const MOST: &str = "18446744073709551615";

/// A meter on the bench. Tables: 0 (read-only, the order's octet), 5 (four
/// octets), 6 (two, read-only), 7 (a count of two and two octets), 2,047 (one),
/// manufacturer 0 (two), manufacturer 2,047 (one), 8 (none), 9 (none,
/// read-only).
fn bench() -> String {
    desc(&[
        table(0, 1),
        uint(1, 1),
        open_table(5, 1),
        block(4),
        table(6, 1),
        block(2),
        open_table(7, 3),
        uint(1, 2),
        array((2, 0, 8), 1),
        uint(1, 0),
        open_table(2047, 1),
        block(1),
        own_table(0, 1) | 0x8000,
        block(2),
        own_table(2047, 1) | 0x8000,
        block(1),
        open_table(8, 0),
        table(9, 0),
    ])
}

const IMAGE: &str = "000a0b0c0d112202334455667788";

/// That a request to the bench has a reply, and leaves the image as it was.
fn replies(request: &str, reply: &str) {
    holds(&format!("serve {} {IMAGE} 65544 {request}", bench()), &format!("0 {reply} {IMAGE}"));
}

/// That a write to the bench is done.
fn writes(request: &str, later: &str) {
    let bench = bench();
    holds(&format!("serve {bench} {IMAGE} 1 {request}"), &format!("0 00 {later}"));
    holds(&format!("serve {bench} {IMAGE} 0 {request}"), &format!("21 - {IMAGE}"));
}

/// A small generator of random numbers (the constants of SplitMix64).
struct Rng(u64);

impl Rng {
    fn next(&mut self) -> u64 {
        self.0 = self.0.wrapping_add(0x9e37_79b9_7f4a_7c15);
        let mut z = self.0;
        z = (z ^ (z >> 30)).wrapping_mul(0xbf58_476d_1ce4_e5b9);
        z = (z ^ (z >> 27)).wrapping_mul(0x94d0_49bb_1331_11eb);
        z ^ (z >> 31)
    }

    fn below(&mut self, n: u64) -> u64 {
        self.next() % n
    }

    fn octets(&mut self, length: u64) -> Vec<u8> {
        (0..length).map(|_| self.next() as u8).collect()
    }
}

#[test]
fn check_octets() {
    for (data, check) in [
        (vec![], 0),
        (vec![0], 0),
        (vec![1], 0xff),
        (vec![0xff], 1),
        (vec![0x80, 0x80], 0),
        (vec![0x80], 0x80),
        (vec![0xff, 0x01], 0),
        (vec![0xff, 0x02], 0xff),
        (vec![1, 2, 3, 4], 0xf6),
        (vec![0x0a, 0x0b, 0x0c, 0x0d], 0xd2),
        (vec![0xee, 0xff], 0x13),
        (vec![0xff; 256], 0),
        (vec![0xff; 65_535], 0xff),
    ] {
        assert_eq!(check_octet(&data), check, "{data:?}");
    }
    // With its check octet the sum is a multiple of 256.
    let mut rng = Rng(1);
    for _ in 0..2000 {
        let length = rng.below(40);
        let data = rng.octets(length);
        let sum = data.iter().fold(check_octet(&data), |sum, octet| sum.wrapping_add(*octet));
        assert_eq!(sum, 0);
    }
}

#[test]
fn full_reads() {
    replies("300005", "0000040a0b0c0dd2");
    replies("300000", "0000010000");
    replies("300006", "0000021122cd");
    // 02 33 44 hex is 121: 135 is 87 hex.
    replies("300007", "00000302334487");
    replies("300008", "00000000");
    replies("300009", "00000000");
    replies("300001", "04");
}

#[test]
fn ids() {
    replies("3007ff", "00000155ab");
    replies("300800", "000002667723");
    replies("300fff", "0000018878");
    for id in ["1000", "1005", "1800", "17ff", "1fff", "8005", "8000", "ffff", "f800", "0801", "0805", "07fe"] {
        replies(&format!("30{id}"), "04");
        replies(&format!("3f{id}0000000000"), "04");
        replies(&format!("40{id}0001aa56"), "04");
        replies(&format!("4f{id}000000000000"), "04");
    }
}

#[test]
fn offset_reads() {
    replies("3f00050000010002", "0000020b0ce9");
    replies("3f00050000000004", "0000040a0b0c0dd2");
    replies("3f00050000030001", "0000010df3");
    // No octets, up to the end; not the rest of the table.
    for offset in ["000000", "000001", "000004"] {
        replies(&format!("3f0005{offset}0000"), "00000000");
    }
    for range in [
        "0000050000", "0000040001", "0000000005", "0000030002", "ffffff0000", "ffffff0001",
        "ffffffffff", "000000ffff", "0100000001", "0001000001", "0000000100",
    ] {
        replies(&format!("3f0005{range}"), "04");
    }
    replies("3f00080000000000", "00000000");
    replies("3f00080000000001", "04");
    replies("3f08000000010001", "0000017789");
    // A read-only table, and a dimension, are read.
    replies("3f00060000010001", "00000122de");
    replies("3f00070000000001", "00000102fe");
}

#[test]
fn full_writes() {
    writes("400005000401020304f6", "0001020304112202334455667788");
    writes("40000500044040404000", "0040404040112202334455667788");
    writes("4007ff000101ff", "000a0b0c0d112202334401667788");
    writes("4008000002ff0100", "000a0b0c0d112202334455ff0188");
    writes("400fff0001c040", "000a0b0c0d1122023344556677c0");
    // The same octets again, and none.
    writes("40000500040a0b0c0dd2", IMAGE);
    writes("400008000000", IMAGE);
    // 12 for every other count; on a read-only table too.
    replies("400005000000", "04");
    replies("4000050003010203fa", "04");
    replies("40000500050102030405f1", "04");
    replies("400008000101ff", "04");
    replies("400006000101ff", "04");
    replies("4000060003010203fa", "04");
    replies("400009000101ff", "04");
    // 13, also before 14; 14.
    replies("40000600020102fd", "03");
    replies("400009000000", "03");
    replies("40000000010000", "03");
    replies("400007000302556643", "04");
    replies("400007000302334487", "04");
}

#[test]
fn offset_writes() {
    writes("4f00050000020002eeff13", "000a0beeff112202334455667788");
    writes("4f0005000000000401020304f6", "0001020304112202334455667788");
    writes("4f0005000004000000", IMAGE);
    writes("4f0007000000000000", IMAGE);
    writes("4f000700000100019967", "000a0b0c0d112202994455667788");
    writes("4f0fff0000000001c040", "000a0b0c0d1122023344556677c0");
    // 12, on a read-only table too.
    replies("4f0005000005000000", "04");
    replies("4f00050000030002eeff13", "04");
    replies("4f0005010002000101ff", "04");
    replies("4f0005ffffff000101ff", "04");
    replies("4f0006000003000000", "04");
    replies("4f0006000002000101ff", "04");
    // 13, for no octets too, and before 14; 14.
    replies("4f0006000001000101ff", "03");
    replies("4f0006000002000000", "03");
    replies("4f000000000000010000", "03");
    replies("4f0000000001000000", "03");
    replies("4f0007000000000102fe", "04");
}

#[test]
fn an_empty_request_and_unknown_ones() {
    replies("-", "01");
    for first in 0..=255u8 {
        if ![0x30, 0x3f, 0x40, 0x4f].contains(&first) {
            // "unknown first octet 02, whatever the length"
            for rest in ["", "00", "0005", "00050000010002", "0005000401020304f6"] {
                replies(&format!("{first:02x}{rest}"), "02");
                let line = format!("readrequest {first:02x}{rest}");
                holds(&line, "2 0 0 0 0 -");
            }
        }
    }
}

#[test]
fn every_other_length() {
    // Each form's good request, cut and made longer, with each octet after it.
    for good in ["300005", "3f00050000010002", "400005000401020304f6", "4f00050000020002eeff13"] {
        for length in 1..good.len() / 2 {
            replies(&good[..2 * length], "01");
            holds(&format!("readrequest {}", &good[..2 * length]), "1 0 0 0 0 -");
        }
        for octet in 0..=255u8 {
            replies(&format!("{good}{octet:02x}"), "01");
            replies(&format!("{good}{octet:02x}00"), "01");
        }
    }
    // Counts other than the data's, the check octet right of what is there.
    for count in ["0000", "0003", "0005", "0400", "ffff", "0104"] {
        replies(&format!("400005{count}01020304f6"), "01");
        replies(&format!("4f0005000000{count}01020304f6"), "01");
    }
    // No data and no check octet.
    replies("4000080000", "01");
    replies("4f00080000000000", "01");
}

#[test]
fn every_other_check_octet() {
    for check in 0..=255u8 {
        if check != 0xf6 {
            replies(&format!("400005000401020304{check:02x}"), "01");
            replies(&format!("4f0005000000000401020304{check:02x}"), "01");
            holds(&format!("readrequest 400005000401020304{check:02x}"), "1 0 0 0 0 -");
        }
        if check != 0 {
            replies(&format!("4000080000{check:02x}"), "01");
            replies(&format!("4f00080000000000{check:02x}"), "01");
        }
    }
    // Before 03 and 04 of the tables: read-only, a wrong count, no table.
    replies("40000600020102fe", "01");
    replies("400006000101fe", "01");
    replies("40100000010101", "01");
    replies("4f0006000001000101fe", "01");
}

#[test]
fn unsound_descriptions_and_short_images() {
    // The request is judged first; then all but 13 is 04.
    let short = &IMAGE[..4];
    for (d, m) in [("-", "-"), ("10000001", "00"), (bench().as_str(), short), ("00000000", IMAGE)] {
        for (request, reply) in [
            ("-", "01"), ("31", "02"), ("30", "01"), ("300000", "04"), ("3f00000000000000", "04"),
            ("40000600020102fd", "04"), ("40000600020102fe", "01"), ("4f0006000000000000", "04"),
            ("30ffff", "04"),
        ] {
            holds(&format!("serve {d} {m} 1 {request}"), &format!("0 {reply} {m}"));
            holds(&format!("serve {d} {m} 0 {request}"), &format!("21 - {m}"));
        }
    }
    // An image over 65,535 octets: 8.
    let long = "00".repeat(65_536);
    holds(&format!("serve {} {long} 8 300000", bench()), &format!("0 04 {long}"));
}

#[test]
fn rooms() {
    let bench = bench();
    for (request, reply) in [
        ("300005", "0000040a0b0c0dd2"), ("300008", "00000000"), ("3f00050000010002", "0000020b0ce9"),
        ("3f00050000040000", "00000000"), ("-", "01"), ("77", "02"), ("40000600020102fd", "03"),
        ("301000", "04"),
    ] {
        let needed = reply.len() / 2;
        for room in 0..needed {
            holds(&format!("serve {bench} {IMAGE} {room} {request}"), &format!("21 - {IMAGE}"));
        }
        for room in [needed, needed + 1, 65_543, 65_544] {
            holds(
                &format!("serve {bench} {IMAGE} {room} {request}"),
                &format!("0 {reply} {IMAGE}"),
            );
        }
        holds(&format!("serve {bench} {IMAGE} 65545 {request}"), "?");
        holds(&format!("serve {bench} {IMAGE} {MOST} {request}"), "?");
    }
}

#[test]
fn the_largest_tables() {
    // Table 0 of one octet, and table 1 of 65,534 in blocks.
    let mut items = vec![table(0, 1), uint(1, 1), open_table(1, 17)];
    items.extend([block(4095); 16]);
    items.push(block(14));
    let d = desc(&items);
    let m = format!("00{}", "01".repeat(65_534));
    // 65,534 is fffe hex; its last octet's complement is 02.
    let reply = format!("00fffe{}02", "01".repeat(65_534));
    holds(&format!("serve {d} {m} 65538 300001"), &format!("0 {reply} {m}"));
    holds(&format!("serve {d} {m} 65537 300001"), &format!("21 - {m}"));
    let write = format!("400001fffe{}04", "02".repeat(65_534));
    let later = format!("00{}", "02".repeat(65_534));
    holds(&format!("serve {d} {m} 1 {write}"), &format!("0 00 {later}"));
    // One octet more, all in table 0.
    items[0] = table(0, 18);
    items.remove(2);
    let d = desc(&items);
    let m = "00".repeat(65_535);
    holds(&format!("serve {d} {m} 65539 300000"), &format!("0 00ffff{m}00 {m}"));
    holds(&format!("serve {d} {m} 65538 300000"), &format!("21 - {m}"));
    holds(&format!("serve {d} {m} 65539 3f0000000000ffff"), &format!("0 00ffff{m}00 {m}"));
    holds(&format!("serve {d} {m} 5 3f000000fffe0001"), &format!("0 0000010000 {m}"));
    holds(&format!("serve {d} {m} 5 3f000000ffff0001"), &format!("0 04 {m}"));
}

#[test]
fn requests_read() {
    for (request, read) in [
        ("300005", "48 5 0 0 -"),
        ("30ffff", "48 65535 0 0 -"),
        ("3f01020304050607", "63 258 197637 1543 -"),
        ("3fffffffffffffff", "63 65535 16777215 65535 -"),
        ("3f00000000000000", "63 0 0 0 -"),
        ("400102000401020304f6", "64 258 0 4 01020304"),
        ("400005000000", "64 5 0 0 -"),
        ("4f01020304050002eeff13", "79 258 197637 2 eeff"),
        ("4fffffffffff000000", "79 65535 16777215 0 -"),
    ] {
        holds(&format!("readrequest {request}"), &format!("0 {read}"));
        // Written again octet for octet, in as much room and no less.
        let words: Vec<&str> = read.split(' ').collect();
        let fields = words[..4].join(" ");
        let length = request.len() / 2;
        let written = format!("0 {request}");
        holds(&format!("writerequest {fields} {length} {}", words[4]), &written);
        holds(&format!("writerequest {fields} 65544 {}", words[4]), &written);
        holds(&format!("writerequest {fields} {} {}", length - 1, words[4]), "21 -");
    }
}

#[test]
fn fields_that_fit_and_that_do_not() {
    for kind in [48, 63, 64, 79] {
        for (id, fits) in [("65535", true), ("65536", false), ("131071", false), (MOST, false)] {
            let reply = ask(&format!("writerequest {kind} {id} 0 0 9 -"));
            assert_eq!(reply != "21 -", fits, "{kind} {id}");
        }
        for (offset, fits) in [("16777215", true), ("16777216", false), (MOST, false)] {
            let judged = kind == 63 || kind == 79;
            let reply = ask(&format!("writerequest {kind} 5 {offset} 0 9 -"));
            assert_eq!(reply != "21 -", fits || !judged, "{kind} {offset}");
        }
        for (count, fits) in [("65535", true), ("65536", false), (MOST, false)] {
            let reply = ask(&format!("writerequest {kind} 5 0 {count} 9 -"));
            assert_eq!(reply != "21 -", fits || kind != 63, "{kind} {count}");
        }
    }
    // 65,535 octets of data, and one more.
    let (most, over) = ("01".repeat(65_535), "01".repeat(65_536));
    // The sum is 65,535, its last octet ff: the check octet 01.
    holds(
        &format!("writerequest 64 5 0 0 65541 {most}"),
        &format!("0 400005ffff{most}01"),
    );
    holds(&format!("writerequest 64 5 0 0 65540 {most}"), "21 -");
    holds(
        &format!("writerequest 79 5 0 0 65544 {most}"),
        &format!("0 4f0005000000ffff{most}01"),
    );
    holds(&format!("writerequest 79 5 0 0 65543 {most}"), "21 -");
    holds(&format!("readrequest 4f0005000000ffff{most}01"), &format!("0 79 5 0 65535 {most}"));
    holds(&format!("writerequest 64 5 0 0 65544 {over}"), "21 -");
    holds(&format!("writerequest 79 5 0 0 65544 {over}"), "21 -");
    holds(&format!("writerequest 48 5 0 0 3 {over}"), "0 300005");
    holds(&format!("writerequest 63 5 1 2 8 {over}"), "0 3f00050000010002");
    holds(&format!("writereply 1 0 65539 {most}"), &format!("0 00ffff{most}01"));
    holds(&format!("writereply 1 0 65538 {most}"), "21 -");
    holds(&format!("writereply 1 0 65544 {over}"), "21 -");
    holds(&format!("writereply 2 0 1 {over}"), "0 00");
    holds(&format!("writereply 3 2 1 {over}"), "0 02");
    holds(&format!("readreply 00ffff{most}01"), &format!("0 1 0 {most}"));
    // A longer message than any form has is still judged.
    let longer = "00".repeat(65_550);
    holds(&format!("readrequest 30{longer}"), "1 0 0 0 0 -");
    holds(&format!("readrequest {longer}"), "2 0 0 0 0 -");
    holds(&format!("readreply {longer}"), "43 0 0 -");
}

#[test]
fn replies_read() {
    holds("readreply 00", "0 2 0 -");
    for code in 1..=255u8 {
        let reply = if code <= 4 { format!("0 3 {code} -") } else { String::from("43 0 0 -") };
        holds(&format!("readreply {code:02x}"), &reply);
        holds(&format!("readreply {code:02x}00"), "43 0 0 -");
        holds(&format!("readreply {code:02x}000000"), "43 0 0 -");
    }
    holds("readreply 00000000", "0 1 0 -");
    holds("readreply 0000040a0b0c0dd2", "0 1 0 0a0b0c0d");
    holds("readreply 000002ff0100", "0 1 0 ff01");
    for none in [
        "-", "0000", "000000", "0000000000", "00000001", "000001ff", "0000040a0b0c0d",
        "0000040a0b0c0dd200", "0000030a0b0c0dd2", "0000050a0b0c0dd2", "0004000a0b0c0dd2",
    ] {
        holds(&format!("readreply {none}"), "43 0 0 -");
    }
    for check in 0..=255u8 {
        if check != 0xd2 {
            holds(&format!("readreply 0000040a0b0c0d{check:02x}"), "43 0 0 -");
        }
    }
}

#[test]
fn replies_written() {
    holds("writereply 1 0 8 0a0b0c0d", "0 0000040a0b0c0dd2");
    holds("writereply 1 0 4 -", "0 00000000");
    holds("writereply 1 0 3 -", "21 -");
    holds("writereply 2 0 1 -", "0 00");
    holds("writereply 2 0 0 -", "21 -");
    // What a form lacks isn't judged.
    holds(&format!("writereply 1 {MOST} 8 0a0b0c0d"), "0 0000040a0b0c0dd2");
    holds(&format!("writereply 2 {MOST} 1 0a0b"), "0 00");
    for code in 1..=4 {
        holds(&format!("writereply 3 {code} 1 0a0b"), &format!("0 0{code}"));
        holds(&format!("writereply 3 {code} 0 0a0b"), "21 -");
    }
    for code in ["0", "5", "255", "256", "257", "65537", "4294967297", MOST] {
        holds(&format!("writereply 3 {code} 65544 -"), "21 -");
    }
    for kind in ["0", "4", "48", "257", MOST] {
        holds(&format!("writereply {kind} 1 65544 -"), "?");
    }
    for kind in ["0", "1", "47", "49", "62", "65", "78", "80", "304", "18446744073709551615"] {
        holds(&format!("writerequest {kind} 5 0 0 65544 -"), "?");
    }
}

/// Any request, its numbers in their fields or a little over.
fn any_request(rng: &mut Rng) -> Request {
    let id = rng.below(65_540);
    let offset = if rng.below(2) == 0 { rng.below(300) } else { rng.below(16_777_220) };
    let length = if rng.below(20) == 0 { rng.below(600) } else { rng.below(9) };
    match rng.below(4) {
        0 => Request::FullRead { id },
        1 => Request::OffsetRead { id, offset, count: rng.below(65_540) },
        2 => Request::FullWrite { id, data: rng.octets(length) },
        _ => Request::OffsetWrite { id, offset, data: rng.octets(length) },
    }
}

#[test]
fn requests_written_are_read_back() {
    let mut rng = Rng(2);
    let mut good = 0;
    for _ in 0..50_000 {
        let request = any_request(&mut rng);
        if let Ok(octets) = write_request(&request, 65_544) {
            assert_eq!(read_request(&octets).as_ref(), Ok(&request));
            let length = octets.len() as u64;
            assert_eq!(write_request(&request, length), Ok(octets));
            assert_eq!(write_request(&request, length - 1), Err(21));
            good += 1;
        }
    }
    assert!(good > 40_000, "{good}");
}

#[test]
fn requests_read_are_written_again() {
    let mut rng = Rng(3);
    let mut good = [0; 4];
    for _ in 0..400_000 {
        // Octets of anything, of a first octet and a length that often are a form's.
        let first = [0x30, 0x3f, 0x40, 0x4f][rng.below(4) as usize];
        let count = rng.below(3);
        let (form, length) = match first {
            0x30 => (0, 2),
            0x3f => (1, 7),
            0x40 => (2, 5 + count),
            _ => (3, 8 + count),
        };
        let mut octets = vec![first];
        octets.extend(rng.octets(length));
        if form >= 2 {
            let place = if form == 2 { 3 } else { 6 };
            octets[place] = 0;
            octets[place + 1] = count as u8;
        }
        if let Ok(request) = read_request(&octets) {
            assert_eq!(write_request(&request, 65_544), Ok(octets));
            good[form] += 1;
        }
    }
    assert!(good.iter().all(|count| *count > 200), "{good:?}");
}

#[test]
fn replies_undo_each_other() {
    let mut rng = Rng(4);
    for _ in 0..20_000 {
        let length = if rng.below(20) == 0 { rng.below(600) } else { rng.below(9) };
        let reply = match rng.below(3) {
            0 => Reply::Data(rng.octets(length)),
            1 => Reply::Done,
            _ => Reply::Refused(rng.below(6)),
        };
        match write_reply(&reply, 65_544) {
            Ok(octets) => {
                assert_eq!(read_reply(&octets).as_ref(), Ok(&reply));
                let length = octets.len() as u64;
                assert_eq!(write_reply(&reply, length), Ok(octets));
                assert_eq!(write_reply(&reply, length - 1), Err(21));
            }
            Err(no) => {
                assert_eq!(no, 21);
                assert!(matches!(reply, Reply::Refused(0 | 5)));
            }
        }
    }
    // Every reply of up to three octets, and those of four whose count is 0 or 1.
    for length in 0..=3u32 {
        for value in 0..256u32.pow(length).min(1 << 17) {
            let octets = value.to_be_bytes()[4 - length as usize..].to_vec();
            if let Ok(reply) = read_reply(&octets) {
                assert_eq!(write_reply(&reply, 65_544), Ok(octets));
            }
        }
    }
    for data in 0..=255u8 {
        for check in 0..=255u8 {
            let octets = vec![0, 0, 1, data, check];
            if let Ok(reply) = read_reply(&octets) {
                assert_eq!(reply, Reply::Data(vec![data]));
                assert_eq!(write_reply(&reply, 65_544), Ok(octets));
            } else {
                assert_ne!(data.wrapping_add(check), 0);
            }
        }
    }
}

#[test]
fn serving_is_the_tables_questions() {
    // What serve reads and writes is what tablepart, readrange and writerange say.
    let bench = bench();
    let mut rng = Rng(5);
    let mut done = 0;
    for _ in 0..20_000 {
        let num = [0, 5, 6, 7, 8, 9, 2047][rng.below(7) as usize];
        let mfr = rng.below(4) / 3;
        let id = num + 2048 * mfr;
        let (offset, length) = (rng.below(6), rng.below(6));
        let read = ask(&format!("readrange {bench} {IMAGE} {mfr} {num} {offset} {length}"));
        let served =
            ask(&format!("serve {bench} {IMAGE} 65544 3f{id:04x}{offset:06x}{length:04x}"));
        let expected = match read.strip_prefix("0 0 0 0 ") {
            Some(rest) => {
                let data = rest.split(' ').nth(2).unwrap();
                let reply = ask(&format!("writereply 1 0 65544 {data}"));
                format!("{reply} {IMAGE}")
            }
            None => format!("0 04 {IMAGE}"),
        };
        assert_eq!(served, expected);
        let data = hex(&rng.octets(length));
        let wrote = ask(&format!("writerange {bench} {IMAGE} {mfr} {num} {offset} {data}"));
        let line = ask(&format!("writerequest 79 {id} {offset} 0 65544 {data}"));
        let request = line.strip_prefix("0 ").unwrap();
        let served = ask(&format!("serve {bench} {IMAGE} 1 {request}"));
        let words: Vec<&str> = wrote.split(' ').collect();
        let code = match words[0] {
            "0" => "00",
            "13" => "03",
            _ => "04",
        };
        assert_eq!(served, format!("0 {code} {}", words[4]));
        done += u64::from(code == "00");
    }
    assert!(done > 1000, "{done}");
}

#[test]
fn ranges_read() {
    let bench = bench();
    let ask_range = |rest: &str| ask(&format!("readrange {bench} {IMAGE} {rest}"));
    assert_eq!(ask_range("0 5 1 2"), "0 0 0 0 2 2 0b0c");
    assert_eq!(ask_range("0 5 0 4"), "0 0 0 0 1 4 0a0b0c0d");
    assert_eq!(ask_range("0 0 0 1"), "0 0 0 0 0 1 00");
    assert_eq!(ask_range("0 7 0 3"), "0 0 0 0 7 3 023344");
    assert_eq!(ask_range("1 0 1 1"), "0 0 0 0 12 1 77");
    assert_eq!(ask_range("0 5 4 0"), "0 0 0 0 5 0 -");
    assert_eq!(ask_range("0 9 0 0"), "0 0 0 0 14 0 -");
    let most_less = "18446744073709551614";
    for rest in [
        "0 5 5 0", "0 5 4 1", "0 5 0 5", "0 9 1 0", "0 9 0 1",
        &format!("0 5 {MOST} 0"), &format!("0 5 {MOST} 1"), &format!("0 5 1 {MOST}"),
        &format!("0 5 {MOST} {MOST}"), &format!("0 5 {most_less} 3"), &format!("0 5 2 {most_less}"),
    ] {
        assert_eq!(ask_range(rest), "12 0 0 0 0 0 -", "{rest}");
    }
    for rest in ["0 1 0 0", "1 5 0 0", "0 2048 0 1", "1 2048 0 1", "0 4095 0 1", "0 65535 9 9"] {
        assert_eq!(ask_range(rest), "10 0 0 0 0 0 -", "{rest}");
    }
    for rest in ["2 5 0 1", "0 65536 0 1", "0 5 0 18446744073709551616", "0 5 0", "0 5 0 1 -"] {
        assert_eq!(ask_range(rest), "?", "{rest}");
    }
    holds(&format!("readrange {bench} 000a 0 0 0 1"), "9 3 1 0 0 0 -");
    holds("readrange 10000001 00 0 0 0 1", "4 0 0 0 0 0 -");
}

#[test]
fn forms_of_the_lines() {
    let bench = bench();
    for line in [
        "serve", "serve - - 1", "serve - - 1 - -", "serve - - -1 -", "serve - - 1 0",
        "serve - - - -", "serve - 0 1 -", "Serve - - 1 -", "serves - - 1 -", "serve - - 1 - ",
        "readrequest", "readrequest - -", "readrequest 3", "readrequest 3F", "readrequest  -",
        "writerequest 48 5 0 0 3", "writerequest 48 5 0 0 3 - -", "writerequest 48 5 0 0 65545 -",
        "writerequest 48 5 0 18446744073709551616 3 -", "writerequest - 5 0 0 3 -",
        "writerequest 48 5 18446744073709551616 0 3 -", "writerequest 48 5 0 0 3 f",
        "writerequest 18446744073709551616 5 0 0 3 -", "writerequest 49 65536 0 0 3 -",
        "readreply", "readreply - -", "readreply 0", "writereply 1 0 3", "writereply 1 0 3 - -",
        "writereply 1 0 65545 -", "writereply 1 18446744073709551616 3 -", "writereply 1 0 3 0",
        "writereply 18446744073709551616 0 3 -", "readrange - - 0 0 0", "readrange - - 0 0 0 0 -",
    ] {
        holds(line, "?");
    }
    // The form first, whatever else: the description would be refused.
    holds("serve - - 65545 30", "?");
    holds("serve - - 65544 30", "0 01 -");
    holds(&format!("serve {bench} {IMAGE} 0008 300005"), &format!("0 0000040a0b0c0dd2 {IMAGE}"));
    holds("writerequest 048 05 00 00 003 -", "0 300005");
    // The longest line that must be taken.
    let (d, m) = ("10".repeat(2052), "00".repeat(65_540));
    let request = "30".repeat(65_544);
    holds(&format!("serve {d} {m} 65544 {request}"), &format!("0 01 {m}"));
}
