//! All examples of document 01, starred or not, and those of the line language.

use crate::tests_support::*;

#[test]
fn starred_first_image() {
    // "D with 00 82 AA BB 34 12 78 56: total 8; table 5 at 2, 6 long; item 7
    // subscript 1 is 5678 hex." 5678 hex is 22136.
    holds(&format!("check {D}"), "0 0 0 0");
    holds(&format!("layout {D} {FIRST}"), "0 0 0 0 8");
    holds(&format!("table {D} {FIRST} 0 5"), "0 0 0 0 2 6");
    holds(&format!("number {D} {FIRST} 7 1 1 0 0 0"), "0 0 0 0 22136");
    holds(&format!("where {D} {FIRST} 7 1 1 0 0 0"), "0 0 0 0 6 2");
    holds(&format!("octets {D} {FIRST} 7 1 1 0 0 0"), "7856");
    holds(&format!("tablepart {D} {FIRST} 0 5"), "aabb34127856");
}

#[test]
fn starred_most_significant_first() {
    // "D with 01 02 34 12 78 56: total 6; item 7 subscript 0 is 3412 hex; item
    // 5 gives 11." 3412 hex is 13330. Since E4, item 5 gives 23, and 26 where
    // its number is asked: it is a BLOCK.
    let m = "010234127856";
    holds(&format!("layout {D} {m}"), "0 0 0 0 6");
    holds(&format!("number {D} {m} 7 1 0 0 0 0"), "0 0 0 0 13330");
    holds(&format!("where {D} {m} 5 0 0 0 0 0"), "23 0 0 0 0 0");
    holds(&format!("number {D} {m} 5 0 0 0 0 0"), "26 0 0 0 0");
    holds(&format!("octets {D} {m} 5 0 0 0 0 0"), "-");
}

#[test]
fn starred_cut_to_7() {
    // "D with the first image cut to 7: refusal 9, item 6, octet 4."
    holds(&format!("layout {D} 0082aabb341278"), "9 6 4 0 0");
}

#[test]
fn starred_two_octets() {
    // "D with 00 00: total 2; table 5 has size 0; any subscript of item 7 gives
    // 11." Since E4 it gives 25 at depth 0.
    holds(&format!("layout {D} 0000"), "0 0 0 0 2");
    holds(&format!("table {D} 0000 0 5"), "0 0 0 0 2 0");
    holds(&format!("tablepart {D} 0000 0 5"), "-");
    for s in ["0", "1", "7", "18446744073709551615"] {
        holds(&format!("where {D} 0000 7 1 {s} 0 0 0"), "25 0 0 0 0 0");
        holds(&format!("number {D} 0000 7 1 {s} 0 0 0"), "25 0 0 0 0");
    }
}

#[test]
fn starred_empty_image() {
    // "D, empty image: 9, item 1, octet 0."
    holds(&format!("layout {D} -"), "9 1 0 0 0");
}

#[test]
fn starred_writes_of_table_0() {
    // "First image: write of 1 octet at offset 1 of table 0 gives 13; with that
    // table writable (10008002), 14."
    holds(
        &format!("writerange {D} {FIRST} 0 0 1 ff"),
        &format!("13 0 0 0 {FIRST}"),
    );
    let open = D.replacen("10000002", "10008002", 1);
    holds(
        &format!("writerange {open} {FIRST} 0 0 1 ff"),
        &format!("14 0 0 0 {FIRST}"),
    );
}

#[test]
fn starred_writes_at_the_end_of_table_5() {
    // "First image: write at offset 6, length 0, of table 5 is accepted; offset
    // 6, length 1, gives 12."
    holds(
        &format!("writerange {D} {FIRST} 0 5 6 -"),
        &format!("0 0 0 0 {FIRST}"),
    );
    holds(
        &format!("writerange {D} {FIRST} 0 5 6 ff"),
        &format!("12 0 0 0 {FIRST}"),
    );
}

#[test]
fn starred_slot_never_set() {
    // "D with item 4 replaced by 61000040 (slot 4, never set): 7 at item 4."
    let d = D.replacen("608e0040", "61000040", 1);
    holds(&format!("check {d}"), "7 4 0 0");
    holds(&format!("layout {d} {FIRST}"), "7 4 0 0 0");
}

/// Tables 51 and 54 as blocks, and the starred calendar: "Table 54 holding the
/// twelve octets 98 08 03 00 00 01 C2 3B 01 01 01 01 (DATA_ORDER 0; Table 51
/// with S 1, N 1, T 2, P and R 0, no flags)".
fn starred_calendar() -> (String, String) {
    let d = desc(&[
        table(0, 1),
        uint(1, 1),
        table(51, 1),
        block(9),
        table(54, 1),
        block(12),
    ]);
    let m = String::from("00000001010002000000980803000001c23b01010101");
    (d, m)
}

#[test]
fn starred_calendar_tiers() {
    // "5 March 2024 07:30 gives tier 2, 07:29 tier 0".
    let (d, m) = starred_calendar();
    holds(&format!("tier {d} {m} 2024 3 5 7 30 0"), "0 0 0 0 0 2");
    holds(&format!("tier {d} {m} 2024 3 5 7 29 0"), "0 0 0 0 0 0");
    // Document 02, E1: "01's last calendar example now gives tier 0 at 00:00":
    // 31 December 2023 is in season 0, whose row is 1 1 1.
    holds(&format!("tier {d} {m} 2023 12 31 0 0 0"), "0 0 0 0 0 0");
    holds(&format!("tier {d} {m} 2023 12 31 7 29 0"), "0 0 0 0 0 0");
    holds(&format!("tier {d} {m} 2023 12 31 7 30 0"), "0 0 0 0 0 2");
    // Its one season record is dated 1 January 2024.
    holds(&format!("seasoned {d} {m} 2023 12 31"), "0 0 0 0 0");
    holds(&format!("seasoned {d} {m} 2024 1 1"), "0 0 0 0 1");
    holds(&format!("seasoned {d} {m} 2024 3 5"), "0 0 0 0 1");
    holds(&format!("tier {d} {m} 2024 3 5 7 30 1"), "0 0 0 0 0 2");
    // The matrix of that calendar: row 0 is 1 1 1, all else 0.
    let cells = format!("010101{}", "00".repeat(327));
    holds(&format!("matrix {d} {m}"), &format!("0 0 0 0 {cells}"));
}

#[test]
fn easy_action_31_is_not_the_end() {
    // "taking action 31 for the end of the array (it is a dated notice)": a
    // record of action 31 stands before the season action.
    let d = desc(&[table(0, 1), uint(1, 1), table(51, 1), block(9), table(54, 1), block(12)]);
    // N 2, T 1, S 1: 6 + 3 + 3 = 12 octets. 1 January 2024 twice (98 08).
    let m = "0000000102000100000098081f98080302000101 0101".replace(' ', "");
    holds(&format!("layout {d} {m}"), "0 0 0 0 22");
    holds(&format!("tier {d} {m} 2024 3 5 7 30 0"), "0 0 0 0 0 2");
}

#[test]
fn easy_special_columns_after_three() {
    // "reading SPECIAL_SCHEDULE columns as starting at 7 when weekdays share a
    // row": P 2, special schedule 1 stands in column 3 + 1.
    let d = desc(&[table(0, 1), uint(1, 1), table(51, 1), block(9), table(54, 1), block(17)]);
    // N 2 (season 0 and special schedule 1, both 1 January 2024), T 2, S 1:
    // 6 + 6 + 5 = 17 octets. The row is 01 02 03 04 05.
    let t51 = "000021020002000000";
    let t54 = "980803980814030005050004 0102030405".replace(' ', "");
    let m = format!("00{t51}{t54}");
    holds(&format!("layout {d} {m}"), "0 0 0 0 27");
    // On 1 January 2024 the schedule is number 5, whose switch at 00:00 is to
    // tier 3; on 2 January it is the weekday's, 3, which has no switch.
    holds(&format!("tier {d} {m} 2024 1 1 12 0 0"), "0 0 0 0 0 3");
    holds(&format!("tier {d} {m} 2024 1 2 12 0 0"), "0 0 0 0 1 0");
    let cells = format!("0102030405{}", "00".repeat(325));
    holds(&format!("matrix {d} {m}"), &format!("0 0 0 0 {cells}"));
}

#[test]
fn easy_bits_are_numbered_from_the_bottom() {
    // "numbering a dimension's bits from the top because our fields go down":
    // bits 0..3 of 12 hex are 2, bits 4..7 are 1.
    let d = desc(&[
        table(0, 4),
        uint(1, 1),
        uint(1, 2),
        array((2, 0, 4), 1),
        uint(1, 0),
        table(1, 2),
        array((2, 4, 4), 1),
        uint(1, 0),
    ]);
    let m = "0012aabbcc";
    holds(&format!("layout {d} {m}"), "0 0 0 0 5");
    holds(&format!("table {d} {m} 0 0"), "0 0 0 0 0 4");
    holds(&format!("table {d} {m} 0 1"), "0 0 0 0 4 1");
}

#[test]
fn easy_a_write_of_the_count() {
    // "accepting a write that alters the array count it was measured by": the
    // count stands in a writable table, before the array.
    let d = desc(&[
        table(0, 1),
        uint(1, 1),
        open_table(5, 3),
        uint(1, 2),
        array((2, 0, 8), 1),
        uint(1, 0),
    ]);
    let m = "0002aabb";
    let kept = format!("14 0 0 0 {m}");
    holds(&format!("writerange {d} {m} 0 5 0 01"), &kept);
    holds(&format!("writerange {d} {m} 0 5 0 02"), &kept);
    holds(&format!("writerange {d} {m} 0 5 0 02cccc"), &kept);
    holds(&format!("writeoctets {d} {m} 3 0 0 0 0 0 01"), &kept);
    holds(&format!("writenumber {d} {m} 3 0 0 0 0 0 2"), &kept);
    holds(&format!("writerange {d} {m} 0 5 1 ccdd"), "0 0 0 0 0002ccdd");
}

#[test]
fn easy_a_two_octet_dimension_in_both_orders() {
    // "reading a two-octet dimension in one fixed order": 00 02 is 2 most
    // significant first, and 512 the other way round.
    let d = desc(&[
        table(0, 4),
        uint(1, 1),
        uint(2, 2),
        array((2, 0, 16), 1),
        uint(1, 0),
    ]);
    holds(&format!("layout {d} 010002aabb"), "0 0 0 0 5");
    holds(&format!("layout {d} 000200aabb"), "0 0 0 0 5");
    holds(&format!("layout {d} 000002aabb"), "9 3 3 0 0");
    let m = format!("000002{}", "ee".repeat(512));
    holds(&format!("layout {d} {m}"), "0 0 0 0 515");
}

#[test]
fn the_line_language_examples() {
    holds(&format!("layout {D} 0082aabb34127856"), "0 0 0 0 8");
    holds(&format!("number {D} 0082aabb34127856 7 1 1 0 0 0"), "0 0 0 0 22136");
    holds(&format!("layout {D} 0082aabb341278"), "9 6 4 0 0");
}

/// The request file and its replies, which were written by hand.
#[test]
fn the_example_files_agree() {
    let requests = include_str!("../examples.txt");
    let replies = include_str!("../examples.expected");
    let mut count = 0;
    let mut replies_left = replies.lines();
    for (i, request) in requests.lines().enumerate() {
        let reply = replies_left.next().expect("a reply for every request");
        assert_eq!(ask(request), reply, "line {}", i + 1);
        count += 1;
    }
    assert!(replies_left.next().is_none());
    assert!(count > 50);
}
