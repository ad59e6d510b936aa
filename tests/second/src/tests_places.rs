//! Laying out, finding and writing: refusals 8 to 10 and 12 to 15.

use crate::tests_support::*;

/// Table 00 of two octets (order and slot 2 of one octet), then table 5,
/// writable, with the items given.
fn with_table_5(rest: &[u32]) -> String {
    let mut items = vec![table(0, 2), uint(1, 1), uint(1, 2), open_table(5, rest.len() as u32)];
    items.extend_from_slice(rest);
    desc(&items)
}

#[test]
fn sets_of_octets_and_of_flags() {
    // "0 = the value is octets; 1 = flags, octets = (value + 7) / 8 rounded
    // down"
    let d = with_table_5(&[set((2, 0, 8))]);
    holds(&format!("layout {d} 0003aabbcc"), "0 0 0 0 5");
    holds(&format!("where {d} 0003aabbcc 4 0 0 0 0 0"), "0 0 0 0 2 3");
    let d = with_table_5(&[flags((2, 0, 8))]);
    for (value, octets) in [(0, 0), (1, 1), (7, 1), (8, 1), (9, 2), (16, 2), (17, 3), (255, 32)] {
        let m = format!("00{:02x}{}", value, "ee".repeat(octets));
        holds(&format!("layout {d} {m}"), &format!("0 0 0 0 {}", 2 + octets));
        holds(&format!("where {d} {m} 4 0 0 0 0 0"), &format!("0 0 0 0 2 {octets}"));
    }
    // An element of no octets stands at the end of the image.
    holds(&format!("octets {d} 0000 4 0 0 0 0 0"), "-");
}

#[test]
fn ifs_take_the_chosen_body() {
    let d = with_table_5(&[if_item((2, 3, 1), 1, 2), block(4), uint(1, 0), uint(2, 0), block(1)]);
    // Bit 3 of 08 is 1: the block of 4, then the block of 1.
    let m = "0008aaaaaaaabb";
    holds(&format!("layout {d} {m}"), "0 0 0 0 7");
    holds(&format!("where {d} {m} 5 0 0 0 0 0"), "0 0 0 0 2 4");
    holds(&format!("where {d} {m} 6 0 0 0 0 0"), "23 0 0 0 0 0");
    holds(&format!("where {d} {m} 7 0 0 0 0 0"), "23 0 0 0 0 0");
    holds(&format!("where {d} {m} 8 0 0 0 0 0"), "0 0 0 0 6 1");
    // Bit 3 of f7 is 0: the UINTs of 1 and 2, then the block of 1.
    let m = "00f711223344";
    holds(&format!("layout {d} {m}"), "0 0 0 0 6");
    holds(&format!("where {d} {m} 5 0 0 0 0 0"), "23 0 0 0 0 0");
    holds(&format!("number {d} {m} 6 0 0 0 0 0"), "0 0 0 0 17");
    holds(&format!("number {d} {m} 7 0 0 0 0 0"), "0 0 0 0 13090");
    holds(&format!("where {d} {m} 8 0 0 0 0 0"), "0 0 0 0 5 1");
    // Octets past the total belong to no table.
    holds(&format!("layout {d} 00f71122334455"), "0 0 0 0 6");
    holds(&format!("table {d} 00f71122334455 0 5"), "0 0 0 0 2 4");
    // The item reported short is the one inside the chosen body.
    holds(&format!("layout {d} 00f71122"), "9 7 3 0 0");
    holds(&format!("layout {d} 0008aaaaaa"), "9 5 2 0 0");
    holds(&format!("layout {d} 0008aaaaaaaa"), "9 8 6 0 0");
}

#[test]
fn nested_arrays_in_row_order() {
    // Two rows of three elements, each a UINT of 2 octets and one of 1.
    let d = with_table_5(&[array((2, 0, 4), 4), array((2, 4, 4), 2), uint(2, 0), uint(1, 0), uint(1, 0)]);
    // 32 hex: 2 rows of 3. A row is 3 * 3 + 1 octets: 20 in all.
    let mut m = vec![0x01u8, 0x32];
    m.extend(1..=20u8);
    let m = hex(&m);
    holds(&format!("layout {d} {m}"), "0 0 0 0 22");
    for i in 0..2u64 {
        for j in 0..3u64 {
            let at = 2 + 10 * i + 3 * j;
            holds(&format!("where {d} {m} 6 2 {i} {j} 9 9"), &format!("0 0 0 0 {at} 2"));
            holds(&format!("where {d} {m} 7 2 {i} {j} 9 9"), &format!("0 0 0 0 {} 1", at + 2));
            // Octet k of table 5 holds k + 1.
            let first = at - 1;
            let value = 256 * first + first + 1;
            holds(&format!("number {d} {m} 6 2 {i} {j} 0 0"), &format!("0 0 0 0 {value}"));
        }
        holds(&format!("where {d} {m} 6 2 {i} 3 0 0"), "25 0 0 1 0 0");
        holds(&format!("where {d} {m} 8 1 {i} 7 7 7"), &format!("0 0 0 0 {} 1", 2 + 10 * i + 9));
    }
    holds(&format!("where {d} {m} 6 2 2 0 0 0"), "25 0 0 0 0 0");
    // Too few and too many subscripts.
    for n in [0, 1, 3, 4, 5, 6] {
        holds(&format!("where {d} {m} 6 {n} 0 0 0 0"), "24 0 0 0 0 0");
    }
    holds(&format!("where {d} {m} 6 18446744073709551615 0 0 0 0"), "24 0 0 0 0 0");
    holds(&format!("where {d} {m} 6 18446744073709551618 0 0 0 0"), "?");
    // Items that aren't elements, and items that aren't there.
    for item in ["0", "3", "4", "5", "9", "512", "4294967302", "18446744073709551615"] {
        holds(&format!("where {d} {m} {item} 0 0 0 0 0"), "22 0 0 0 0 0");
        holds(&format!("octets {d} {m} {item} 0 0 0 0 0"), "-");
    }
    // One octet short: the outermost array is reported.
    holds(&format!("layout {d} {}", &m[..m.len() - 2]), "9 4 2 0 0");
}

/// Four arrays deep, each count the whole of slot 2, which has 4 octets; the
/// innermost element is a SET of as many octets as slot 3's number.
fn four_deep() -> String {
    let all = (2, 0, 32);
    desc(&[
        table(0, 3),
        uint(1, 1),
        uint(4, 2),
        uint(1, 3),
        open_table(5, 5),
        array(all, 4),
        array(all, 3),
        array(all, 2),
        array(all, 1),
        set((3, 0, 8)),
    ])
}

#[test]
fn huge_counts() {
    let d = four_deep();
    // Elements of no octets take none, however many there are.
    let m = "01ffffffff00";
    holds(&format!("layout {d} {m}"), "0 0 0 0 6");
    holds(&format!("table {d} {m} 0 5"), "0 0 0 0 6 0");
    let last = "4294967294";
    holds(&format!("where {d} {m} 9 4 {last} {last} {last} {last}"), "0 0 0 0 6 0");
    holds(&format!("where {d} {m} 9 4 {last} {last} {last} 4294967295"), "25 0 0 3 0 0");
    holds(&format!("where {d} {m} 9 4 4294967295 0 0 0"), "25 0 0 0 0 0");
    holds(&format!("octets {d} {m} 9 4 0 0 0 0"), "-");
    holds(&format!("writeoctets {d} {m} 9 4 0 0 0 0 -"), "0 0 0 0 01ffffffff00");
    holds(&format!("writeoctets {d} {m} 9 4 0 0 0 0 aa"), "15 0 0 0 01ffffffff00");
    // Of 1 octet each, they are 2^128 or so, and the image is short.
    holds(&format!("layout {d} 01ffffffff01"), "9 5 6 0 0");
    // 2^32 times 2^32 is not to come out as 0: count 2^16 four deep is 2^64.
    holds(&format!("layout {d} 010001000001"), "9 5 6 0 0");
    holds(&format!("layout {d} 018000000002"), "9 5 6 0 0");
    // Count 0 outside, whatever is inside.
    holds(&format!("layout {d} 0100000000ff"), "0 0 0 0 6");
    // Count 1 all the way: one element of 255 octets.
    let m = format!("0100000001ff{}", "ee".repeat(255));
    holds(&format!("layout {d} {m}"), "0 0 0 0 261");
    holds(&format!("where {d} {m} 9 4 0 0 0 0"), "0 0 0 0 6 255");
}

#[test]
fn image_lengths() {
    // An array of 65,535 - 5 octets fills the largest image.
    let d = desc(&[table(0, 1), uint(1, 1), table(1, 3), uint(4, 2), array((2, 0, 32), 1), uint(1, 0)]);
    let image = |count: u32, octets: usize| {
        format!("01{:08x}{}", count, "00".repeat(octets - 5))
    };
    holds(&format!("layout {d} {}", image(65_530, 65_535)), "0 0 0 0 65535");
    holds(&format!("layout {d} {}", image(65_531, 65_535)), "9 4 5 0 0");
    holds(&format!("layout {d} {}", image(65_530, 65_534)), "9 4 5 0 0");
    holds(&format!("layout {d} {}", image(0, 65_535)), "0 0 0 0 5");
    // Refusal 8: "image over 65,535 octets", also when the total would fit.
    holds(&format!("layout {d} {}", image(0, 65_536)), "8 0 0 0 0");
    holds(&format!("layout {d} {}", image(65_531, 65_536)), "8 0 0 0 0");
    holds(&format!("table {d} {} 0 99", image(0, 65_536)), "8 0 0 0 0 0");
    let long = image(0, 65_536);
    holds(&format!("writerange {d} {long} 0 1 0 -"), &format!("8 0 0 0 {long}"));
    // 2 to 7 come before 8.
    holds(&format!("layout 00000000 {long}"), "2 0 0 0 0");
    holds(&format!("layout - {long}"), "1 0 0 0 0");
}

#[test]
fn tables() {
    let d = desc(&[
        table(0, 1),
        uint(1, 1),
        own_table(7, 1),
        block(2),
        table(7, 1),
        block(3),
        own_table(2047, 0),
        table(2047, 1),
        uint(1, 0),
    ]);
    let m = "00111122222233";
    holds(&format!("table {d} {m} 0 0"), "0 0 0 0 0 1");
    holds(&format!("table {d} {m} 1 7"), "0 0 0 0 1 2");
    holds(&format!("table {d} {m} 0 7"), "0 0 0 0 3 3");
    holds(&format!("table {d} {m} 1 2047"), "0 0 0 0 6 0");
    holds(&format!("table {d} {m} 0 2047"), "0 0 0 0 6 1");
    holds(&format!("tablepart {d} {m} 0 7"), "222222");
    // Refusal 10, also for numbers that no item can hold.
    for (mfr, num) in [(1, 0), (0, 8), (0, 2048), (0, 2055), (1, 65_535)] {
        holds(&format!("table {d} {m} {mfr} {num}"), "10 0 0 0 0 0");
        holds(&format!("tablepart {d} {m} {mfr} {num}"), "-");
        holds(&format!("writerange {d} {m} {mfr} {num} 0 aa"), &format!("10 0 0 0 {m}"));
    }
    holds(&format!("table {d} {m} 0 65536"), "?");
    holds(&format!("table {d} {m} 2 0"), "?");
    // 9 comes before 10.
    holds(&format!("table {d} 00 0 99"), "9 3 1 0 0 0");
}

#[test]
fn range_writes_and_their_order() {
    let d = desc(&[
        table(0, 1),
        uint(1, 1),
        table(4, 1),
        block(2),
        open_table(5, 4),
        uint(1, 0),
        uint(2, 2),
        block(2),
        uint(1, 3),
    ]);
    // Table 5 is octets 3..9: 1 plain, 2 of slot 2, 2 plain, 1 of slot 3.
    let m = "00aaaa010203040506";
    let kept = |no: u32| format!("{no} 0 0 0 {m}");
    holds(&format!("writerange {d} {m} 0 5 0 ff"), "0 0 0 0 00aaaaff0203040506");
    holds(&format!("writerange {d} {m} 0 5 3 eeff"), "0 0 0 0 00aaaa010203eeff06");
    holds(&format!("writerange {d} {m} 0 5 4 ff"), "0 0 0 0 00aaaa01020304ff06");
    for (offset, data) in [(0, "ffff"), (1, "ff"), (2, "ff"), (2, "ffff"), (3, "ffffff"), (5, "ff"), (0, "010203040506")] {
        holds(&format!("writerange {d} {m} 0 5 {offset} {data}"), &kept(14));
    }
    // Refusal 12: "offset + length over the table's size", whatever the size of
    // the numbers.
    holds(&format!("writerange {d} {m} 0 5 6 ff"), &kept(12));
    holds(&format!("writerange {d} {m} 0 5 5 ffff"), &kept(12));
    holds(&format!("writerange {d} {m} 0 5 0 01020304050607"), &kept(12));
    for offset in ["7", "65535", "65536", "4294967296", "9223372036854775807", "18446744073709551613", "18446744073709551614", "18446744073709551615"] {
        holds(&format!("writerange {d} {m} 0 5 {offset} ff"), &kept(12));
        holds(&format!("writerange {d} {m} 0 5 {offset} ffff"), &kept(12));
        holds(&format!("writerange {d} {m} 0 5 {offset} -"), &kept(12));
    }
    holds(&format!("writerange {d} {m} 0 5 18446744073709551616 ff"), "?");
    // 12 before 13 before 14; "13 still is" given for a range of no octets.
    holds(&format!("writerange {d} {m} 0 4 2 ff"), &kept(12));
    holds(&format!("writerange {d} {m} 0 4 1 ff"), &kept(13));
    holds(&format!("writerange {d} {m} 0 4 0 -"), &kept(13));
    holds(&format!("writerange {d} {m} 0 4 2 -"), &kept(13));
    holds(&format!("writerange {d} {m} 0 4 3 -"), &kept(12));
    holds(&format!("writerange {d} {m} 0 0 0 ff"), &kept(13));
    // "A range of length 0 with offset at most the size holds no octet ... and
    // it changes nothing."
    for offset in 0..=6 {
        holds(&format!("writerange {d} {m} 0 5 {offset} -"), &kept(0));
    }
}

#[test]
fn element_writes_and_their_order() {
    let d = desc(&[
        table(0, 1),
        uint(1, 1),
        table(4, 1),
        uint(2, 0),
        open_table(5, 7),
        uint(1, 2),
        uint(2, 0),
        block(3),
        set((2, 0, 8)),
        array((2, 0, 8), 1),
        uint(4, 0),
        uint(1, 0),
    ]);
    // Items 1; 3; 5 (slot 2, value 2), 6, 7, 8 (2 octets), 10 (2 of 4), 11.
    let m = "00bbbb02111122222233334444444455555555 66".replace(' ', "");
    let m = m.as_str();
    holds(&format!("layout {d} {m}"), "0 0 0 0 20");
    let kept = |no: u32| format!("{no} 0 0 0 {m}");
    holds(&format!("writeoctets {d} {m} 6 0 0 0 0 0 cdef"), &format!("0 0 0 0 00bbbb02cdef{}", &m[12..]));
    holds(&format!("writenumber {d} {m} 6 0 0 0 0 0 52719"), &format!("0 0 0 0 00bbbb02efcd{}", &m[12..]));
    holds(&format!("writeoctets {d} {m} 7 0 0 0 0 0 010203"), &format!("0 0 0 0 {}010203{}", &m[..12], &m[18..]));
    holds(&format!("writeoctets {d} {m} 8 0 0 0 0 0 0102"), &format!("0 0 0 0 {}0102{}", &m[..18], &m[22..]));
    holds(&format!("writenumber {d} {m} 10 1 1 0 0 0 1"), &format!("0 0 0 0 {}01000000{}", &m[..30], &m[38..]));
    holds(&format!("writenumber {d} {m} 10 1 0 0 0 0 4294967295"), &format!("0 0 0 0 {}ffffffff{}", &m[..22], &m[30..]));
    // Refusal 15: the length, or the number.
    for data in ["-", "aa", "aabbcc", "aabbccdd"] {
        holds(&format!("writeoctets {d} {m} 6 0 0 0 0 0 {data}"), &kept(15));
    }
    holds(&format!("writenumber {d} {m} 6 0 0 0 0 0 65535"), &format!("0 0 0 0 00bbbb02ffff{}", &m[12..]));
    holds(&format!("writenumber {d} {m} 6 0 0 0 0 0 65536"), &kept(15));
    holds(&format!("writenumber {d} {m} 11 0 0 0 0 0 256"), &kept(15));
    holds(&format!("writenumber {d} {m} 10 1 0 0 0 0 4294967296"), &kept(15));
    holds(&format!("writenumber {d} {m} 10 1 0 0 0 0 18446744073709551615"), &kept(15));
    // Refusals 26, 25, 24 and 22 (more of them in tests_elements.rs).
    holds(&format!("writenumber {d} {m} 7 0 0 0 0 0 1"), &kept(26));
    holds(&format!("writenumber {d} {m} 8 0 0 0 0 0 1"), &kept(26));
    holds(&format!("number {d} {m} 7 0 0 0 0 0"), "26 0 0 0 0");
    holds(&format!("number {d} {m} 8 0 0 0 0 0"), "26 0 0 0 0");
    holds(&format!("writeoctets {d} {m} 10 1 2 0 0 0 00000000"), &kept(25));
    holds(&format!("writeoctets {d} {m} 10 0 0 0 0 0 00000000"), &kept(24));
    holds(&format!("writeoctets {d} {m} 9 0 0 0 0 0 00000000"), &kept(22));
    // 24 before 13 before 14 before 15.
    holds(&format!("writenumber {d} {m} 3 1 0 0 0 0 70000"), &kept(24));
    holds(&format!("writenumber {d} {m} 3 0 0 0 0 0 70000"), &kept(13));
    holds(&format!("writeoctets {d} {m} 3 0 0 0 0 0 -"), &kept(13));
    holds(&format!("writeoctets {d} {m} 1 0 0 0 0 0 00"), &kept(13));
    holds(&format!("writenumber {d} {m} 5 0 0 0 0 0 70000"), &kept(14));
    holds(&format!("writeoctets {d} {m} 5 0 0 0 0 0 -"), &kept(14));
    // 9 before 22.
    holds(&format!("number {d} 00 99 0 0 0 0 0"), "9 3 1 0 0");
}

#[test]
fn numbers_in_both_orders() {
    let d = desc(&[table(0, 4), uint(1, 1), uint(1, 0), uint(2, 0), uint(4, 0)]);
    // Only bit 0 of the first octet counts.
    for (first, most_first) in [("00", false), ("01", true), ("fe", false), ("ff", true), ("02", false)] {
        let m = format!("{first}01020304050607");
        let numbers: [u64; 3] = if most_first {
            [0x01, 0x0203, 0x0405_0607]
        } else {
            [0x01, 0x0302, 0x0706_0504]
        };
        for (i, number) in numbers.iter().enumerate() {
            let item = i + 2;
            holds(&format!("number {d} {m} {item} 0 0 0 0 0"), &format!("0 0 0 0 {number}"));
        }
    }
}

/// Every octet of the total belongs to exactly one element: all elements are
/// asked for, one after another, and their places are laid side by side.
#[test]
fn one_element_for_each_octet() {
    let items = [
        table(0, 3),
        uint(1, 1),
        uint(1, 2),
        uint(2, 3),
        own_table(9, 10),
        array((2, 0, 2), 6),
        uint(1, 0),
        if_item((3, 0, 1), 3, 0),
        array((2, 2, 2), 2),
        flags((3, 0, 8)),
        block(2),
        block(1),
        if_item((3, 1, 1), 1, 1),
        uint(4, 0),
        set((2, 0, 2)),
        table(5, 0),
        table(6, 1),
        uint(2, 0),
    ];
    let d = desc(&items);
    for dimension in 0..16u8 {
        for slot_3 in [0u8, 1, 2, 3, 9, 17] {
            let mut m = vec![0u8, dimension, slot_3, 0];
            m.resize(400, 0);
            let reply = ask(&format!("layout {d} {}", hex(&m)));
            let total: usize = reply.rsplit(' ').next().unwrap().parse().unwrap();
            assert!(reply.starts_with("0 0 0 0 "));
            let mut owners = vec![0u32; total];
            for item in 0..items.len() {
                for n in 0..=2 {
                    for i in 0..4 {
                        for j in 0..4 {
                            // Places past the count aren't read: ask once.
                            if (n < 2 && j > 0) || (n < 1 && i > 0) {
                                continue;
                            }
                            let m = hex(&m);
                            let reply = ask(&format!("where {d} {m} {item} {n} {i} {j} 0 0"));
                            let numbers: Vec<usize> =
                                reply.split(' ').map(|word| word.parse().unwrap()).collect();
                            if numbers[0] == 0 {
                                for owner in &mut owners[numbers[4]..numbers[4] + numbers[5]] {
                                    *owner += 1;
                                }
                            } else {
                                // 25 at a depth of two, the others at none.
                                let depths = if numbers[0] == 25 { 2 } else { 1 };
                                assert!((22..=25).contains(&numbers[0]), "{reply}");
                                assert!(numbers[3] < depths, "{reply}");
                                assert_eq!((numbers[1], numbers[2]), (0, 0));
                                assert_eq!(numbers[4..], [0, 0]);
                            }
                        }
                    }
                }
            }
            assert!(owners.iter().all(|count| *count == 1), "{dimension} {slot_3}");
        }
    }
}

/// What a write changes is what it says, and reading gives it back.
#[test]
fn writes_are_read_back() {
    let d = with_table_5(&[array((2, 0, 8), 2), uint(2, 0), block(1)]);
    for first in ["00", "01"] {
        let m = format!("{first}03{}", "11".repeat(9));
        for i in 0..3 {
            let reply = ask(&format!("writenumber {d} {m} 5 1 {i} 0 0 0 4660"));
            let later = reply.strip_prefix("0 0 0 0 ").expect("written").to_string();
            holds(&format!("number {d} {later} 5 1 {i} 0 0 0"), "0 0 0 0 4660");
            let changed = (0..m.len()).filter(|k| m[*k..*k + 1] != later[*k..*k + 1]).count();
            assert_eq!(changed, 3, "{later}");
        }
    }
}
