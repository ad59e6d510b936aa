//! Why there is no such element (document 02, E4): refusals 22 to 26.

use crate::tests_support::*;

/// Table 00 with the order and slots 2 to 4 of one octet each, then table 5,
/// writable: an ARRAY (slot 2) of a choice (slot 3) of an ARRAY (slot 4), with
/// elements at each depth; then table 6, which isn't writable.
fn description() -> String {
    desc(&[
        table(0, 4),
        uint(1, 1),
        uint(1, 2),
        uint(1, 3),
        uint(1, 4),
        open_table(5, 8),
        uint(1, 0),               // 6
        array((2, 0, 8), 6),      // 7
        block(1),                 // 8
        if_item((3, 0, 8), 3, 1), // 9
        array((4, 0, 8), 2),      // 10
        uint(1, 0),               // 11
        set((4, 0, 8)),           // 12
        uint(2, 0),               // 13
        table(6, 2),
        uint(1, 0), // 15
        block(2),   // 16
    ])
}

/// Its image for the numbers of slots 2, 3 and 4, long enough.
fn image(outer: u8, choice: u8, inner: u8) -> String {
    let mut octets = vec![0, outer, choice, inner];
    octets.resize(60, 0x55);
    hex(&octets)
}

/// That a name is refused so by all five questions, which is not for 26 but by
/// `number` and `writenumber`.
fn all_refuse(d: &str, m: &str, name: &str, head: &str) {
    if !head.starts_with("26 ") {
        holds(&format!("where {d} {m} {name}"), &format!("{head} 0 0"));
        holds(&format!("octets {d} {m} {name}"), "-");
        for data in ["-", "aa", "aabb", "aabbcc"] {
            holds(&format!("writeoctets {d} {m} {name} {data}"), &format!("{head} {m}"));
        }
    }
    holds(&format!("number {d} {m} {name}"), &format!("{head} 0"));
    for value in ["0", "255", "65536", "18446744073709551615"] {
        holds(&format!("writenumber {d} {m} {name} {value}"), &format!("{head} {m}"));
    }
}

#[test]
fn item_is_no_element() {
    let d = description();
    for m in [image(2, 1, 3), image(0, 0, 0), image(2, 0, 3)] {
        // TABLEs, ARRAYs and an IF, with as many subscripts as ARRAYs stand
        // round them and with others; numbers past the last item.
        for item in
            ["0", "5", "7", "9", "10", "14", "17", "512", "4294967302", "18446744073709551615"]
        {
            for n in ["0", "1", "2", "5", "18446744073709551615"] {
                all_refuse(&d, &m, &format!("{item} {n} 0 0 0 0"), "22 0 0 0");
                all_refuse(&d, &m, &format!("{item} {n} 9 9 9 9"), "22 0 0 0");
            }
        }
    }
}

#[test]
fn branch_not_chosen() {
    let d = description();
    // Slot 3 is 0: item 13 is there, items 11 and 12 aren't.
    let m = image(2, 0, 3);
    holds(&format!("where {d} {m} 13 1 1 0 0 0"), "0 0 0 0 9 2");
    for s in ["0 0", "1 2", "1 3", "0 18446744073709551615"] {
        all_refuse(&d, &m, &format!("11 2 {s} 0 0"), "23 0 0 0");
        holds(&format!("where {d} {m} 12 2 {s} 0 0"), "23 0 0 0 0 0");
    }
    // It isn't 0: the other way round, whichever number it is.
    for choice in [1, 2, 128, 255] {
        let m = image(2, choice, 3);
        all_refuse(&d, &m, "13 1 0 9 9 9", "23 0 0 0");
        all_refuse(&d, &m, "13 1 1 0 0 0", "23 0 0 0");
        holds(&format!("where {d} {m} 11 2 0 0 0 0"), "0 0 0 0 6 1");
    }
}

#[test]
fn wrong_number_of_subscripts() {
    let d = description();
    for m in [image(2, 1, 3), image(2, 0, 3), image(0, 1, 0)] {
        for (item, arrays) in [(6, 0), (8, 1), (11, 2), (12, 2), (13, 1), (15, 0)] {
            for n in ["0", "1", "2", "3", "4", "5", "4294967296", "18446744073709551615"] {
                if n == arrays.to_string() {
                    continue;
                }
                for subscripts in ["0 0 0 0", "9 9 9 9"] {
                    let name = format!("{item} {n} {subscripts}");
                    holds(&format!("where {d} {m} {name}"), "24 0 0 0 0 0");
                    holds(&format!("octets {d} {m} {name}"), "-");
                    holds(&format!("writeoctets {d} {m} {name} aa"), &format!("24 0 0 0 {m}"));
                }
            }
        }
    }
    // A count of 2^32 and one more isn't 1.
    all_refuse(&d, &image(2, 0, 3), "13 4294967297 0 0 0 0", "24 0 0 0");
}

#[test]
fn subscript_too_large() {
    let d = description();
    let m = image(2, 1, 3);
    for large in ["2", "3", "4294967296", "18446744073709551615"] {
        all_refuse(&d, &m, &format!("11 2 {large} 0 0 0"), "25 0 0 0");
        all_refuse(&d, &m, &format!("11 2 {large} 3 0 0"), "25 0 0 0");
    }
    for large in ["3", "4", "4294967296", "18446744073709551615"] {
        all_refuse(&d, &m, &format!("11 2 0 {large} 0 0"), "25 0 0 1");
        all_refuse(&d, &m, &format!("11 2 1 {large} 0 0"), "25 0 0 1");
    }
    // One below its count, and places past the count aren't read.
    holds(&format!("where {d} {m} 11 2 1 2 9 9"), "0 0 0 0 27 1");
    holds(&format!("where {d} {m} 8 1 1 9 9 9"), "0 0 0 0 18 1");
    // An array of count 0: 25, and not 23.
    for s in ["0", "1", "18446744073709551615"] {
        all_refuse(&d, &image(0, 1, 3), &format!("11 2 {s} 0 0 0"), "25 0 0 0");
        all_refuse(&d, &image(0, 0, 3), &format!("11 2 {s} 0 0 0"), "25 0 0 0");
        all_refuse(&d, &image(2, 1, 0), &format!("11 2 1 {s} 0 0"), "25 0 0 1");
    }
}

#[test]
fn number_asked_of_a_block_or_set() {
    let d = description();
    for m in [image(2, 1, 3), image(2, 0, 3), image(0, 0, 0), image(0, 1, 0)] {
        // BLOCKs 8 and 16, the SET 12: whatever count and subscripts, chosen or
        // not, writable or not.
        for item in [8, 12, 16] {
            for n in ["0", "1", "2", "3", "5", "18446744073709551615"] {
                for subscripts in ["0 0 0 0", "1 2 0 0", "2 3 9 9"] {
                    all_refuse(&d, &m, &format!("{item} {n} {subscripts}"), "26 0 0 0");
                }
            }
        }
    }
    // Their octets are asked and written as before.
    let m = image(2, 1, 3);
    holds(&format!("where {d} {m} 12 2 0 0 0 0"), "0 0 0 0 7 3");
    holds(&format!("octets {d} {m} 8 1 0 0 0 0"), "55");
    holds(&format!("writeoctets {d} {m} 16 0 0 0 0 0 aabb"), &format!("13 0 0 0 {m}"));
}

#[test]
fn each_two_causes_in_their_order() {
    let d = description();
    let (chosen, other) = (image(2, 1, 3), image(2, 0, 3));
    for (m, name, head) in [
        // 22 with 24: an ARRAY, an IF, a TABLE, nothing.
        (&chosen, "10 9 0 0 0 0", "22 0 0 0"),
        (&chosen, "9 9 0 0 0 0", "22 0 0 0"),
        (&chosen, "5 9 0 0 0 0", "22 0 0 0"),
        (&chosen, "17 9 0 0 0 0", "22 0 0 0"),
        // 22 with a branch not chosen, and with a subscript too large.
        (&other, "10 1 0 0 0 0", "22 0 0 0"),
        (&chosen, "10 1 2 0 0 0", "22 0 0 0"),
        // 24 with 23, and with 25.
        (&other, "11 1 0 0 0 0", "24 0 0 0"),
        (&other, "11 3 0 0 0 0", "24 0 0 0"),
        (&chosen, "11 1 2 0 0 0", "24 0 0 0"),
        (&chosen, "11 3 2 3 0 0", "24 0 0 0"),
        // 25 outside 23, 23 outside 25, 25 outside 25.
        (&other, "11 2 2 0 0 0", "25 0 0 0"),
        (&other, "11 2 1 3 0 0", "23 0 0 0"),
        (&chosen, "11 2 2 3 0 0", "25 0 0 0"),
        (&chosen, "13 1 2 0 0 0", "25 0 0 0"),
    ] {
        all_refuse(&d, m, name, head);
    }
    // 26 with 24, 23 and 25; without it each of them.
    for (m, name, head) in [
        (&chosen, "12 1 0 0 0 0", "24 0 0 0"),
        (&chosen, "12 3 0 0 0 0", "24 0 0 0"),
        (&other, "12 2 1 2 0 0", "23 0 0 0"),
        (&chosen, "12 2 2 0 0 0", "25 0 0 0"),
        (&chosen, "12 2 1 3 0 0", "25 0 0 1"),
    ] {
        all_refuse(&d, m, name, "26 0 0 0");
        holds(&format!("where {d} {m} {name}"), &format!("{head} 0 0"));
        holds(&format!("writeoctets {d} {m} {name} aa"), &format!("{head} {m}"));
    }
}

#[test]
fn after_1_to_9_and_before_13_to_15() {
    let d = description();
    // Names that are 22, 24, 23, 25 and 26 of a sound description and image.
    let names = ["7 0 0 0 0 0", "6 1 0 0 0 0", "13 1 0 0 0 0", "11 2 2 0 0 0", "8 1 0 0 0 0"];
    let m = image(2, 1, 3);
    let sound = ["22", "24", "23", "25", "26"];
    for (name, no) in names.iter().zip(sound) {
        holds(&format!("number {d} {m} {name}"), &format!("{no} 0 0 0 0"));
        holds(&format!("number - {m} {name}"), "1 0 0 0 0");
        holds(&format!("number 00000000 {m} {name}"), "2 0 0 0 0");
        holds(&format!("number {} {m} {name}", desc(&[block(1)])), "3 0 0 0 0");
        holds(&format!("number {} {m} {name}", desc(&[table(0, 2), uint(1, 1)])), "4 0 0 0 0");
        holds(&format!("number {d}10000000 {m} {name}"), "6 17 0 0 0");
        holds(&format!("number {d}1007000142c00000 {m} {name}"), "7 18 0 0 0");
        let long = "00".repeat(65_536);
        holds(&format!("number {d} {long} {name}"), "8 0 0 0 0");
        holds(&format!("number {d} {} {name}", &m[..6]), "9 4 3 0 0");
        holds(&format!("number {d} {} {name}", &m[..12]), "9 7 5 0 0");
    }
    // The same with table 5 read-only: none of them is 13 but what is granted.
    let closed = d.replacen("10058008", "10050008", 1);
    for (name, no) in names.iter().zip(sound) {
        holds(&format!("writenumber {closed} {m} {name} 1"), &format!("{no} 0 0 0 {m}"));
    }
    holds(&format!("writenumber {closed} {m} 11 2 1 2 0 0 256"), &format!("13 0 0 0 {m}"));
    holds(&format!("writenumber {d} {m} 11 2 1 2 0 0 256"), &format!("15 0 0 0 {m}"));
    // 24 before 14, of a dimension in a writable table.
    let open = d.replacen("10000004", "10008004", 1);
    holds(&format!("writenumber {open} {m} 2 1 0 0 0 0 256"), &format!("24 0 0 0 {m}"));
    holds(&format!("writenumber {open} {m} 2 0 0 0 0 0 256"), &format!("14 0 0 0 {m}"));
}

/// What is put round an element: an ARRAY, or a choice with the element among
/// its true or its false items.
#[derive(Clone, Copy, PartialEq, Eq, Debug)]
enum Nest {
    Array,
    True,
    False,
}

/// All lists of so many of a few.
fn lists<T: Copy>(of: &[T], length: u32) -> Vec<Vec<T>> {
    (0..of.len().pow(length))
        .map(|k| (0..length).map(|place| of[k / of.len().pow(place) % of.len()]).collect())
        .collect()
}

/// Every mixture of ARRAYs and choices to four deep, with every number from 0 to
/// 2 of each, and every subscript from 0 to 2: what is told is worked out from
/// the way the description was made.
#[test]
fn every_mixture_to_four_deep() {
    let mut granted = 0;
    let mut told = [[0u32; 4]; 2];
    for depth in 0..=4u32 {
        for nests in lists(&[Nest::Array, Nest::True, Nest::False], depth) {
            // Slot k + 2 is that of nest k. The innermost is put in first.
            let mut body = vec![uint(1, 0)];
            let mut before = 0;
            for (k, nest) in nests.iter().enumerate().rev() {
                let slot = (k as u32 + 2, 0, 8);
                let length = body.len() as u32;
                let outer = match nest {
                    Nest::Array => vec![array(slot, length)],
                    Nest::True => vec![if_item(slot, length, 1)],
                    Nest::False => vec![if_item(slot, 1, length), block(1)],
                };
                before += outer.len();
                body = [outer, body].concat();
                if *nest == Nest::True {
                    body.push(block(1));
                }
            }
            let mut items = vec![table(0, 1 + depth)];
            items.extend((0..=depth).map(|k| uint(1, k + 1)));
            items.push(table(5, body.len() as u32));
            let item = items.len() + before;
            items.extend_from_slice(&body);
            let d = desc(&items);

            let arrays = nests.iter().filter(|nest| **nest == Nest::Array).count() as u32;
            for numbers in lists(&[0u8, 1, 2], depth) {
                let mut m = vec![0];
                m.extend_from_slice(&numbers);
                m.resize(60, 0xee);
                let m = hex(&m);
                for subscripts in lists(&[0u8, 1, 2], arrays) {
                    let mut expected = None;
                    let mut place = 0;
                    for (nest, number) in nests.iter().zip(&numbers) {
                        let refused = match nest {
                            Nest::Array => {
                                place += 1;
                                subscripts[place - 1] >= *number
                            }
                            Nest::True => *number == 0,
                            Nest::False => *number != 0,
                        };
                        if refused {
                            expected = match nest {
                                Nest::Array => Some((25, place - 1)),
                                _ => Some((23, place)),
                            };
                            break;
                        }
                    }
                    let mut four = subscripts.clone();
                    four.resize(4, 2);
                    let four: Vec<String> = four.iter().map(|s| s.to_string()).collect();
                    let reply = ask(&format!("where {d} {m} {item} {arrays} {}", four.join(" ")));
                    match expected {
                        Some((25, depth)) => {
                            assert_eq!(reply, format!("25 0 0 {depth} 0 0"), "{nests:?}");
                            told[1][depth] += 1;
                        }
                        Some((_, outside)) => {
                            assert_eq!(reply, "23 0 0 0 0 0", "{nests:?}");
                            told[0][outside] += 1;
                        }
                        None => {
                            assert!(reply.starts_with("0 0 0 0 "), "{nests:?}: {reply}");
                            granted += 1;
                        }
                    }
                }
            }
        }
    }
    assert!(granted > 1000 && told.iter().flatten().all(|count| *count > 10), "{told:?}");
}
