//! Examples that the standard itself (source 001) prints, as far as they fit
//! the description format. Expected sizes and values are worked out by hand
//! from the printed text named at each.

use crate::tests_support::*;

/// Octets in hex, with spaces and bars for the reader.
fn image(text: &str) -> String {
    text.chars().filter(|c| c.is_ascii_hexdigit()).collect()
}

fn sizes(d: &str, m: &str, expected: &[(u32, u32, u32)]) {
    holds(&format!("check {d}"), "0 0 0 0");
    for (number, start, length) in expected {
        holds(&format!("table {d} {m} 0 {number}"), &format!("0 0 0 0 {start} {length}"));
    }
    let (_, start, length) = expected[expected.len() - 1];
    holds(&format!("layout {d} {m}"), &format!("0 0 0 0 {}", start + length));
}

/// Section 5.4.2.1 prints -1 as an INT8 in three forms: 1111 1111, 1111 1110
/// and 1000 0001. Read as UINT8 they are 255, 254 and 129.
#[test]
fn section_5_4_2_1_minus_one() {
    let d = desc(&[table(0, 4), uint(1, 1), uint(1, 0), uint(1, 0), uint(1, 0)]);
    let m = "00fffe81";
    for (item, value) in [(2, 255), (3, 254), (4, 129)] {
        holds(&format!("number {d} {m} {item} 0 0 0 0 0"), &format!("0 0 0 0 {value}"));
    }
}

/// Section 5.8 prints FLAGS_USED : SET(16), a set of 16 octets.
#[test]
fn section_5_8_set_of_16() {
    let d = desc(&[table(0, 3), uint(1, 1), uint(1, 2), set((2, 0, 8))]);
    let m = format!("0010{}", "5a".repeat(16));
    holds(&format!("where {d} {m} 3 0 0 0 0 0"), "0 0 0 0 2 16");
    holds(&format!("layout {d} {m}"), "0 0 0 0 18");
}

/// Section 5.9, figures 7 and 8: a two by two array is sent as 0,0 0,1 1,0
/// 1,1. (Source 000: arrays of arrays.)
#[test]
fn section_5_9_two_dimensions() {
    let d = desc(&[table(0, 5), uint(1, 1), uint(1, 2), array((2, 0, 8), 2), array((2, 0, 8), 1), uint(1, 0)]);
    let m = "000200011011";
    for (i, j, octets) in [(0, 0, "00"), (0, 1, "01"), (1, 0, "10"), (1, 1, "11")] {
        holds(&format!("octets {d} {m} 5 2 {i} {j} 0 0"), octets);
    }
}

/// Section 5.9: "If the value of <dim> is zero then the array collapses to a
/// zero element array and drops out of the table."
#[test]
fn section_5_9_zero_dimension() {
    let d = desc(&[table(0, 5), uint(1, 1), uint(1, 2), array((2, 0, 8), 1), uint(4, 0), uint(1, 0)]);
    holds(&format!("where {d} 0000aa 5 0 0 0 0 0"), "0 0 0 0 2 1");
}

/// Section 6.2, format 4: "0.0001 is represented as 1" in an INT32.
#[test]
fn section_6_2_implied_point() {
    let d = desc(&[table(0, 2), uint(1, 1), uint(4, 0)]);
    holds(&format!("number {d} 0001000000 2 0 0 0 0 0"), "0 0 0 0 1");
    holds(&format!("number {d} 0100000001 2 0 0 0 0 0"), "0 0 0 0 1");
}

/// Section 6.2.1 prints valid numbers in characters. As NI_FORMAT 2 they are
/// ARRAY[12] OF CHAR; the rest is made whole with blanks (section 5.9 suggests
/// blanks as fill).
#[test]
fn section_6_2_1_characters() {
    let d = desc(&[table(0, 1), uint(1, 1), table(28, 4), block(12), block(12), block(12), block(12)]);
    let printed = ["1.0E-7", "123.6478e+03", "1.2345", "1.^3"];
    let mut octets = vec![0u8];
    for number in printed {
        octets.extend_from_slice(format!("{number:<12}").as_bytes());
    }
    let m = hex(&octets);
    for (i, number) in printed.iter().enumerate() {
        let expected = hex(format!("{number:<12}").as_bytes());
        holds(&format!("octets {d} {m} {} 0 0 0 0 0", 3 + i), &expected);
    }
}

/// Section 6.3.3, the DATE bits, and section 6.3.1's years: 00..89 are
/// 2000..2089, 90..99 are 1990..1999, the rest unassigned. A calendar whose
/// only record is that date of season 1 chooses it from that day on; before it
/// season 0 holds, whose schedule has no switch.
#[test]
fn section_6_3_3_dates() {
    let d = desc(&[table(0, 1), uint(1, 1), table(51, 1), block(9), table(54, 1), block(12)]);
    let calendar = |short: u32| {
        let field = short | 7 << 7 | 15 << 11;
        let record = format!("{:02x}{:02x} 04", field & 255, field >> 8);
        image(&format!("00|000002010001000000|{record}|02 00 01|02 02 02 01 01 01"))
    };
    for (short, year) in [(0u32, 2000u32), (1, 2001), (89, 2089), (90, 1990), (99, 1999)] {
        let m = calendar(short);
        holds(&format!("tier {d} {m} {year} 7 15 0 0 0"), "0 0 0 0 0 2");
        holds(&format!("tier {d} {m} {year} 7 14 0 0 0"), "0 0 0 0 1 0");
        holds(&format!("seasoned {d} {m} {year} 7 15"), "0 0 0 0 1");
        holds(&format!("seasoned {d} {m} {year} 7 14"), "0 0 0 0 0");
    }
    for short in [100u32, 127] {
        let m = calendar(short);
        holds(&format!("tier {d} {m} 2089 12 31 0 0 0"), "0 0 0 0 1 0");
        holds(&format!("seasoned {d} {m} 2089 12 31"), "0 0 0 0 0");
    }
}

/// Section 9.1.1, Table 00 whole: 3 format octets, MANUFACTURER of 4
/// characters, then 12 single octets (of which the DIM_ ones size the sets),
/// then six sets. The standard prints no values; made whole with
/// DEFAULT_SET_USED 3, DIM_STD_TBLS_USED 11 (tables to 87) and the others 1, 2,
/// 3. 19 octets + 11 + 1 + 2 + 3 + 11 + 1 = 48.
#[test]
fn section_9_1_1_table_00() {
    let d = desc(&[
        table(0, 22),
        uint(1, 1),
        uint(1, 0),
        uint(1, 0),
        block(4),
        uint(1, 0),
        uint(1, 0),
        uint(1, 0),
        uint(1, 0),
        uint(1, 0),
        uint(1, 0),
        uint(1, 2),
        uint(1, 3),
        uint(1, 4),
        uint(1, 5),
        uint(1, 0),
        uint(1, 0),
        set((2, 0, 8)),
        set((3, 0, 8)),
        set((4, 0, 8)),
        set((5, 0, 8)),
        set((2, 0, 8)),
        set((3, 0, 8)),
    ]);
    let m = image(&format!(
        "02 0a 88 41424344 02 03 10 20 01 00 0b 01 02 03 00 00 {}",
        "00".repeat(29)
    ));
    holds(&format!("check {d}"), "0 0 0 0");
    holds(&format!("layout {d} {m}"), "0 0 0 0 48");
    // DEFAULT_SET_USED is item 6, at octet 8.
    holds(&format!("where {d} {m} 6 0 0 0 0 0"), "0 0 0 0 8 1");
    holds(&format!("number {d} {m} 6 0 0 0 0 0"), "0 0 0 0 3");
    // MFG_TBLS_WRITE is the last octet.
    holds(&format!("where {d} {m} 22 0 0 0 0 0"), "0 0 0 0 47 1");
}

/// Section 9.1.2: "ED_MODEL ... left justified. For example 'ENG M3 '", an
/// ARRAY[8] OF CHAR, made whole with a blank; MFG_SERIAL_NUMBER is 8 BCD octets
/// if ID_FORM (bit 5 of FORMAT_CONTROL_2) is 1, else 16 characters.
#[test]
fn section_9_1_2_model() {
    let d = desc(&[
        table(0, 2),
        uint(1, 1),
        uint(1, 2),
        table(1, 9),
        block(4),
        block(8),
        uint(1, 0),
        uint(1, 0),
        uint(1, 0),
        uint(1, 0),
        if_item((2, 5, 1), 1, 1),
        block(8),
        block(16),
    ]);
    let model = "454e47204d332020";
    let m = image(&format!("00 20|41424344 {model} 01 02 03 04 {}", "12".repeat(8)));
    holds(&format!("octets {d} {m} 5 0 0 0 0 0"), model);
    holds(&format!("table {d} {m} 0 1"), "0 0 0 0 2 24");
    let m = image(&format!("00 00|41424344 {model} 01 02 03 04 {}", "30".repeat(16)));
    holds(&format!("table {d} {m} 0 1"), "0 0 0 0 2 32");
}

/// Section 9.2.3: "if the ID_CODE = 0 and MULTIPLIER = 2" in a BIT FIELD OF
/// UINT32 with ID_CODE in bits 0..7 and MULTIPLIER in bits 11..13: the number
/// is 2 * 2^11 = 4096. An array counted by MULTIPLIER has 2 elements and one
/// counted by ID_CODE none.
#[test]
fn section_9_2_3_unit_of_measure() {
    let d = desc(&[
        table(0, 1),
        uint(1, 1),
        table(12, 1),
        uint(4, 2),
        table(2000, 2),
        array((2, 11, 3), 1),
        uint(1, 0),
        table(2001, 2),
        array((2, 0, 8), 1),
        uint(1, 0),
    ]);
    for m in ["0000100000aabb", "0100001000aabb"] {
        holds(&format!("number {d} {m} 3 0 0 0 0 0"), "0 0 0 0 4096");
        holds(&format!("table {d} {m} 0 2000"), "0 0 0 0 5 2");
        holds(&format!("table {d} {m} 0 2001"), "0 0 0 0 7 0");
    }
}

/// Section 9.2.6: "2000 amps to 5 amps is a ratio of 400", "7200 volts to 120
/// volts is a ratio of 60"; as INT32 (NI_FORMAT 8).
#[test]
fn section_9_2_6_ratios() {
    let d = desc(&[table(0, 1), uint(1, 1), table(15, 2), uint(4, 0), uint(4, 0)]);
    for m in ["00900100003c000000", "01000001900000003c"] {
        holds(&format!("number {d} {m} 3 0 0 0 0 0"), "0 0 0 0 400");
        holds(&format!("number {d} {m} 4 0 0 0 0 0"), "0 0 0 0 60");
    }
}

/// Annex C, Table 11, and Table 14 which it sizes (section 9.2.5: an array of
/// NBR_DATA_CTRL_ENTRIES of arrays of DATA_CTRL_LENGTH octets).
#[test]
fn annex_c_table_11() {
    let d = desc(&[
        table(0, 1),
        uint(1, 1),
        table(11, 8),
        uint(1, 0),
        uint(1, 0),
        uint(1, 0),
        uint(1, 2),
        uint(1, 3),
        uint(1, 0),
        uint(1, 0),
        uint(1, 0),
        table(14, 3),
        array((3, 0, 8), 2),
        array((2, 0, 8), 1),
        uint(1, 0),
    ]);
    // Flags: PF_EXCLUDE bit 0, RESET_EXCLUDE bit 1, BLOCK_DEMAND bit 2.
    for (t11, length) in [
        ("00 00 00 01 01 01 02 01", 1),
        ("06 00 01 01 02 01 02 02", 2),
        ("07 00 03 01 02 01 02 02", 2),
        ("04 00 01 01 02 01 02 02", 2),
    ] {
        let m = image(&format!("00|{t11}|{}", "ee".repeat(length as usize)));
        sizes(&d, &m, &[(11, 1, 8), (14, 9, length)]);
    }
}

/// Annex C, Table 21, and Tables 22 and 23 which it sizes (sections 9.3.3 and
/// 9.3.4). The sets leave the non-integer formats open: made whole with
/// NI_FORMAT 8, an INT32, for both. STIME_DATE is left out by
/// DATE_TIME_FIELD_FLAG 0 in every set.
#[test]
fn annex_c_table_21() {
    let occur = (6, 0, 8);
    let block_of_data = [
        array((3, 0, 8), 1),     // SUMMATIONS
        uint(4, 0),
        array((4, 0, 8), 9),     // DEMANDS
        if_item((2, 1, 1), 2, 0), // EVENT_TIME
        array(occur, 1),
        block(5),
        if_item((2, 4, 1), 1, 0), // CUM_DEMAND
        uint(4, 0),
        if_item((2, 5, 1), 1, 0), // CONT_CUM_DEMAND
        uint(4, 0),
        array(occur, 1),         // DEMAND
        uint(4, 0),
        array((5, 0, 8), 2),     // COINCIDENTS
        array(occur, 1),
        uint(4, 0),
    ];
    let mut items = vec![
        table(0, 1),
        uint(1, 1),
        table(21, 10),
        uint(1, 2),
        uint(1, 0),
        uint(1, 0),
        uint(1, 3),
        uint(1, 4),
        uint(1, 5),
        uint(1, 6),
        uint(1, 7),
        uint(1, 0),
        uint(1, 0),
        table(22, 9),
        array((3, 0, 8), 1),
        uint(1, 0),
        array((4, 0, 8), 1),
        uint(1, 0),
        flags((4, 0, 8)),
        array((5, 0, 8), 1),
        uint(1, 0),
        array((5, 0, 8), 1),
        uint(1, 0),
        table(23, 33),
        if_item((2, 2, 1), 1, 0), // NBR_DEMAND_RESETS
        uint(1, 0),
    ];
    items.extend_from_slice(&block_of_data);
    items.push(array((7, 0, 8), 15));
    items.extend_from_slice(&block_of_data);
    let d = desc(&items);
    // REG_FUNC1 bits 2 and 3 in sets 2 and 3; REG_FUNC2 bits 0 and 1 and 1 in
    // bits 4..5 in set 3. Table 23: 1 if bit 2, then 8 (or 4) for the total
    // block and for each tier.
    for (t21, length_22, length_23) in [
        ("00 00 00 01 00 00 00 00 01 01", 1, 4),
        ("0c 00 00 01 01 00 01 00 01 01", 3, 9),
        ("0c 13 01 01 01 00 01 03 01 01", 3, 33),
        ("00 00 00 01 00 00 00 00 01 01", 1, 4),
    ] {
        let rest = "ee".repeat((length_22 + length_23) as usize);
        let m = image(&format!("00|{t21}|{rest}"));
        sizes(&d, &m, &[(21, 1, 10), (22, 11, length_22), (23, 11 + length_22, length_23)]);
    }
}

/// Annex C, Table 31 (its heading and the ON_TIME_FLAG row are blank in the
/// print; made whole with ON_TIME_FLAG 0, which sizes nothing), and Tables 32,
/// 33, 34 which it sizes (sections 9.4.3 to 9.4.5).
#[test]
fn annex_c_table_31() {
    let d = desc(&[
        table(0, 1),
        uint(1, 1),
        table(31, 7),
        uint(1, 0),
        uint(2, 2),
        uint(1, 3),
        uint(2, 4),
        uint(1, 5),
        uint(2, 6),
        uint(1, 7),
        table(32, 3),
        array((2, 0, 16), 2),
        array((3, 0, 8), 1),
        uint(1, 0),
        table(33, 4),
        array((5, 0, 8), 1),
        block(3),
        array((4, 0, 16), 1),
        uint(2, 0),
        table(34, 4),
        array((7, 0, 8), 1),
        block(3),
        array((6, 0, 16), 1),
        uint(2, 0),
    ]);
    // NBR_DISP_SOURCES, WIDTH, PRI_ITEMS, PRI_LISTS, SEC_ITEMS, SEC_LISTS.
    for (least_first, most_first, a, b, c) in [
        ("00 0300 01 0900 03 0300 01", "00 0003 01 0009 03 0003 01", 3, 27, 9),
        ("00 0400 01 0c00 03 0300 01", "00 0004 01 000c 03 0003 01", 4, 33, 9),
        ("00 2800 01 3c00 03 0300 01", "00 0028 01 003c 03 0003 01", 40, 129, 9),
        ("00 0000 00 0000 00 0000 01", "00 0000 00 0000 00 0000 01", 0, 0, 3),
    ] {
        let rest = "ee".repeat((a + b + c) as usize);
        for (order, t31) in [("00", least_first), ("01", most_first)] {
            let m = image(&format!("{order}|{t31}|{rest}"));
            sizes(&d, &m, &[(31, 1, 10), (32, 11, a), (33, 11 + a, b), (34, 11 + a + b, c)]);
        }
    }
}

/// Annex C, Table 41 (the same in all sets), and Tables 42, 44 and 45 which it
/// sizes (sections 9.5.3, 9.5.5, 9.5.6): 1 password of 20 octets and its
/// permissions octet; 1 access entry of 4 octets; 1 key of 4 octets.
#[test]
fn annex_c_table_41() {
    let d = desc(&[
        table(0, 1),
        uint(1, 1),
        table(41, 5),
        uint(1, 2),
        uint(1, 3),
        uint(1, 4),
        uint(1, 5),
        uint(2, 6),
        open_table(42, 4),
        array((2, 0, 8), 3),
        array((3, 0, 8), 1),
        uint(1, 0),
        uint(1, 0),
        table(44, 4),
        array((6, 0, 16), 3),
        uint(2, 0),
        uint(1, 0),
        uint(1, 0),
        table(45, 3),
        array((4, 0, 8), 2),
        array((5, 0, 8), 1),
        uint(1, 0),
    ]);
    for t41 in ["00|01 14 01 04 0100", "01|01 14 01 04 0001"] {
        let m = image(&format!("{t41}|{}", "00".repeat(29)));
        sizes(&d, &m, &[(41, 1, 6), (42, 7, 21), (44, 28, 4), (45, 32, 4)]);
        // ACCESS_PERMISSIONS of password 0 is the octet after its 20.
        holds(&format!("where {d} {m} 12 1 0 0 0 0"), "0 0 0 0 27 1");
        holds(&format!("where {d} {m} 11 2 0 19 0 0"), "0 0 0 0 26 1");
        holds(&format!("where {d} {m} 11 2 0 20 0 0"), "25 0 0 1 0 0");
    }
}

/// Tables 51 and 54 as sections 9.6.2 and (source 000) 9.6.5 divide them.
fn tou_tables() -> String {
    desc(&[
        table(0, 1),
        uint(1, 1),
        table(51, 7),
        uint(1, 2),  // TIME_FUNC_FLAG1
        uint(1, 3),  // TIME_FUNC_FLAG2
        uint(1, 4),  // CALENDAR_FUNC
        uint(1, 5),  // NBR_NON_RECURR_DATES
        uint(1, 6),  // NBR_RECURR_DATES
        uint(2, 7),  // NBR_TIER_SWITCHES
        uint(2, 0),  // CALENDAR_TBL_SIZE
        table(54, 20),
        if_item((2, 5, 1), 1, 0),
        uint(2, 0),
        array((5, 0, 8), 2),
        uint(2, 0),
        uint(1, 0),
        array((6, 0, 8), 2),
        uint(2, 0),
        uint(1, 0),
        array((7, 0, 16), 2),
        uint(2, 0),
        uint(1, 0),
        if_item((3, 1, 1), 4, 4),
        array((4, 0, 4), 3),
        block(7),
        array((4, 4, 4), 1),
        uint(1, 0),
        array((4, 0, 4), 3),
        block(3),
        array((4, 4, 4), 1),
        uint(1, 0),
    ])
}

/// Annex C, Table 51, set 3: TOU_SELF_READ, SEASON_SELF_READ and SORT_DATES
/// flags 1 (bits 0, 1, 4: 13 hex), SORT_TIER_SWITCHES 1 (bit 3: 08), 2 seasons
/// and 1 special schedule (12 hex), 10 and 10 dates, 9 switches, printed size
/// 131 (83 hex). By document 01's sizes Table 54 has 30 + 30 + 27 + 2 * (3 + 1) =
/// 95 octets; the printed 131 is "not used here". The set says nothing of Table
/// 54's contents: here it is made whole with zeros, which are no dates; so every
/// day is in season 0, whose schedule 0 goes to tier 0 at 00:00.
#[test]
fn annex_c_table_51_set_3_blank() {
    let d = tou_tables();
    for t51 in ["00|13 08 12 0a 0a 0900 8300", "01|13 08 12 0a 0a 0009 0083"] {
        let m = image(&format!("{t51}|{}", "00".repeat(95)));
        sizes(&d, &m, &[(51, 1, 9), (54, 10, 95)]);
        holds(&format!("number {d} {m} 9 0 0 0 0 0"), "0 0 0 0 131");
        holds(&format!("tier {d} {m} 1997 7 4 12 0 0"), "0 0 0 0 0 0");
        holds(&format!("seasoned {d} {m} 1997 7 4"), "0 0 0 0 0");
        holds(&format!("matrix {d} {m}"), &format!("0 0 0 0 {}", "0".repeat(660)));
    }
    // With the printed size of 131 octets instead, Table 54 isn't of the size that
    // document 01 gives.
    let d = desc(&[table(0, 1), uint(1, 1), table(51, 1), block(9), table(54, 1), block(131)]);
    let m = image(&format!("00|13 08 12 0a 0a 0900 8300|{}", "00".repeat(131)));
    holds(&format!("tier {d} {m} 1997 7 4 12 0 0"), "20 0 0 0 0 0");
    holds(&format!("matrix {d} {m}"), &format!("20 0 0 0 {}", "0".repeat(660)));
}

/// The same set with contents of our own: season 0 from 1 January 1990 (08DA
/// hex), season 1 from 1 June 1997 (0B61), special schedule 0 on 25 December
/// 1997 (CE61); switches at 00:00 to tier 1, 2, 3, ... for schedules 1 to 8, and
/// at 12:00 (6000 hex) to tier 0 for schedule 7; rows 1 2 3 4 and 5 6 7 8
/// (Saturday, Sunday, weekday, special schedule 0).
#[test]
fn annex_c_table_51_set_3_with_contents() {
    let d = tou_tables();
    let zeros = "000000".repeat(7);
    let recurring = "000000".repeat(10);
    let rows = "01 02 03 04 05 06 07 08";
    let least_first = image(&format!(
        "00|13 08 12 0a 0a 0900 8300|da08 03 610b 04 61ce 13 {zeros}|{recurring}|
         0100 01 0200 02 0300 03 0400 04 0500 05 0600 06 0700 07 0000 08 0060 07|{rows}"
    ));
    let most_first = image(&format!(
        "01|13 08 12 0a 0a 0009 0083|08da 03 0b61 04 ce61 13 {zeros}|{recurring}|
         0001 01 0002 02 0003 03 0004 04 0005 05 0006 06 0007 07 0000 08 6000 07|{rows}"
    ));
    let cells = format!("01020304{}05060708{}", "00".repeat(18), "00".repeat(18 + 22 * 13));
    for m in [least_first, most_first] {
        holds(&format!("layout {d} {m}"), "0 0 0 0 105");
        // 31 May 1997 was a Saturday: season 0, schedule 1.
        holds(&format!("tier {d} {m} 1997 5 31 8 0 0"), "0 0 0 0 0 1");
        // 1 June 1997 was a Sunday: season 1, schedule 6.
        holds(&format!("tier {d} {m} 1997 6 1 8 0 0"), "0 0 0 0 0 6");
        // 2 June 1997, a Monday: schedule 7; tier 7 until noon, then 0.
        holds(&format!("tier {d} {m} 1997 6 2 11 59 0"), "0 0 0 0 0 7");
        holds(&format!("tier {d} {m} 1997 6 2 12 0 0"), "0 0 0 0 0 0");
        // 25 December 1997: the special schedule, number 8, tier 0.
        holds(&format!("tier {d} {m} 1997 12 25 11 59 1"), "0 0 0 0 0 0");
        // 1 January 1990, a Monday: season 0, schedule 3.
        holds(&format!("tier {d} {m} 1990 1 1 0 0 0"), "0 0 0 0 0 3");
        // A season record stands at 1 January 1990: on or before every day.
        holds(&format!("seasoned {d} {m} 1990 1 1"), "0 0 0 0 1");
        holds(&format!("seasoned {d} {m} 2089 12 31"), "0 0 0 0 1");
        holds(&format!("matrix {d} {m}"), &format!("0 0 0 0 {cells}"));
        // Item 14, the date of record 2: 25 December 1997 is CE61 hex.
        holds(&format!("number {d} {m} 14 1 2 0 0 0"), "0 0 0 0 52833");
        // Item 30, special schedule 0 of season 1, is the last octet.
        holds(&format!("where {d} {m} 30 2 1 0 0 0"), "0 0 0 0 104 1");
        // Items 24 and 26 stand in the branch for separate weekdays.
        holds(&format!("where {d} {m} 24 1 0 0 0 0"), "23 0 0 0 0 0");
        holds(&format!("where {d} {m} 26 2 0 0 0 0"), "23 0 0 0 0 0");
    }
}

/// Annex C, Table 51, sets 1, 2 and 4: all zeros, so Table 54 has no octets and
/// no season: season 0 has no row.
#[test]
fn annex_c_table_51_other_sets() {
    let d = tou_tables();
    let m = image(&format!("00|{}", "00".repeat(9)));
    sizes(&d, &m, &[(51, 1, 9), (54, 10, 0)]);
    holds(&format!("tier {d} {m} 1997 7 4 12 0 0"), "19 0 0 0 0 0");
    holds(&format!("seasoned {d} {m} 1997 7 4"), "0 0 0 0 0");
    holds(&format!("matrix {d} {m}"), &format!("0 0 0 0 {}", "0".repeat(660)));
}

/// Annex C, Table 61, set 4 (set 1 of the load profile only, since the other
/// three sets of fields stand only for tables that are used), and Table 64
/// which it sizes (section 9.7.5). Made whole with TM_FORMAT 2, in which an
/// STIME_DATE is 5 octets, and intervals of UINT16 (INV_UINT16_FLAG is the one
/// format flag set). A block is 5, no end readings, then 96 intervals of 1 / 2 +
/// 1 = 1 status octet and 1 channel of 2: 293 octets; 80 blocks are 23,440.
#[test]
fn annex_c_table_61() {
    let d = desc(&[
        table(0, 1),
        uint(1, 1),
        table(61, 7),
        uint(4, 0),
        uint(2, 2),  // LP_FLAGS
        uint(1, 3),  // LP_FMATS
        uint(2, 4),  // NBR_BLKS_SET1
        uint(2, 5),  // NBR_BLK_INTS_SET1
        uint(1, 6),  // NBR_CHNS_SET1
        uint(1, 0),
        table(64, 16),
        array((4, 0, 16), 15),
        block(5),
        array((6, 0, 8), 4),
        if_item((2, 4, 1), 1, 0),
        uint(4, 0),
        if_item((2, 5, 1), 1, 0),
        uint(4, 0),
        if_item((2, 11, 1), 1, 0),
        flags((5, 0, 16)),
        array((5, 0, 16), 6),
        if_item((2, 10, 1), 3, 0),
        uint(1, 0), // (NBR_CHNS / 2) + 1 status octets: one,
        array((6, 1, 7), 1), // and bits 7..1 of NBR_CHNS more
        uint(1, 0),
        array((6, 0, 8), 1),
        uint(2, 0),
    ]);
    // LP_MEMORY_LEN 16384; flags 0, 6 and 10 (0441 hex); INV_UINT16 (02).
    for t61 in ["00|00400000 4104 02 5000 6000 01 0f", "01|00004000 0441 02 0050 0060 01 0f"] {
        let m = image(&format!("{t61}|{}", "00".repeat(23_440)));
        sizes(&d, &m, &[(61, 1, 13), (64, 14, 23_440)]);
        // Block 79, interval 95: its one status octet, then its one channel.
        holds(&format!("where {d} {m} 22 2 79 95 0 0"), "0 0 0 0 23451 1");
        holds(&format!("where {d} {m} 26 3 79 95 0 0"), "0 0 0 0 23452 2");
        // Bits 7..1 of one channel are 0: no status octet more.
        holds(&format!("where {d} {m} 24 3 79 95 0 0"), "25 0 0 2 0 0");
        holds(&format!("where {d} {m} 12 1 1 0 0 0"), "0 0 0 0 307 5");
        holds(&format!("number {d} {m} 3 0 0 0 0 0"), "0 0 0 0 16384");
        holds(&format!("layout {d} {}", &m[..m.len() - 2]), "9 11 14 0 0");
    }
    // Sets 1 to 3: all zero, so Table 64 has no octets.
    let m = image(&format!("00|{}", "00".repeat(13)));
    sizes(&d, &m, &[(61, 1, 13), (64, 14, 0)]);
}

/// Annex C, Table 71 (the same in all sets): flags bits 0, 1 and 4 (13 hex); 4
/// and 0 event octets, 2 and 2 data octets, 100 and 100 entries; and Tables 72
/// and 74 which it sizes (sections 9.8.3 and 9.8.5). Made whole with TM_FORMAT
/// 2, in which an LTIME_DATE is 6 octets: an entry is 6 + 2 + 2 + 2 + 2 = 14,
/// the table 11 + 1,400.
#[test]
fn annex_c_table_71() {
    let d = desc(&[
        table(0, 1),
        uint(1, 1),
        table(71, 7),
        uint(1, 2),
        uint(1, 3),
        uint(1, 4),
        uint(1, 5),
        uint(1, 6),
        uint(2, 7),
        uint(2, 8),
        table(72, 2),
        set((3, 0, 8)),
        set((4, 0, 8)),
        table(74, 16),
        uint(1, 0),
        uint(2, 0),
        uint(2, 0),
        uint(4, 0),
        uint(2, 0),
        array((7, 0, 16), 10),
        if_item((2, 1, 1), 1, 0),
        block(6),
        if_item((2, 0, 1), 1, 0),
        uint(2, 0),
        if_item((2, 2, 1), 1, 0),
        uint(2, 0),
        uint(2, 0),
        uint(2, 0),
        array((5, 0, 8), 1),
        uint(1, 0),
    ]);
    for t71 in ["00|13 04 00 02 02 6400 6400", "01|13 04 00 02 02 0064 0064"] {
        let m = image(&format!("{t71}|{}", "00".repeat(1415)));
        sizes(&d, &m, &[(71, 1, 9), (72, 10, 4), (74, 14, 1411)]);
        // The last entry: its time, its event number, no sequence number, its
        // second argument octet.
        holds(&format!("where {d} {m} 21 1 99 0 0 0"), "0 0 0 0 1411 6");
        holds(&format!("where {d} {m} 23 1 99 0 0 0"), "0 0 0 0 1417 2");
        holds(&format!("where {d} {m} 25 1 99 0 0 0"), "23 0 0 0 0 0");
        holds(&format!("where {d} {m} 29 2 99 1 0 0"), "0 0 0 0 1424 1");
        // MFG_EVENTS_SUPPORTED is a set of no octets.
        holds(&format!("where {d} {m} 12 0 0 0 0 0"), "0 0 0 0 14 0");
    }
}

/// Annex C, Table 81, and Tables 82, 84, 85 and 86 (sections 9.9.3 to 9.9.7).
/// A row of the print is blank after NBR_UDTS (INSTANCE_FLAG): made whole with
/// 0. The UDT_n_SIZE fields stand only for tables that are used: here those of
/// UDT_0 to UDT_2 stand in all sets, and are 0 where the print says 0.
#[test]
fn annex_c_table_81() {
    let d = desc(&[
        table(0, 1),
        uint(1, 1),
        table(81, 6),
        uint(2, 2),
        uint(1, 0),
        uint(1, 0),
        uint(4, 3),
        uint(4, 4),
        uint(4, 5),
        table(82, 2),
        array((2, 0, 16), 1),
        uint(2, 0),
        table(84, 2),
        array((3, 0, 32), 1),
        uint(1, 0),
        table(85, 2),
        array((4, 0, 32), 1),
        uint(1, 0),
        table(86, 2),
        array((5, 0, 32), 1),
        uint(1, 0),
    ]);
    // DATA_ACCESS_METHOD 2 stands in bits 4..5, NBR_UDTS in bits 0..2.
    for (least_first, most_first, list, a, b, c) in [
        ("0200 21 00 00010000 00000000 00000000", "0002 21 00 00000100 00000000 00000000", 4, 256, 0, 0),
        ("0300 22 00 00010000 00010000 00000000", "0003 22 00 00000100 00000100 00000000", 6, 256, 256, 0),
        ("0600 23 00 00010000 00010000 00010000", "0006 23 00 00000100 00000100 00000100", 12, 256, 256, 256),
        ("0200 21 00 00010000 00000000 00000000", "0002 21 00 00000100 00000000 00000000", 4, 256, 0, 0),
    ] {
        let rest = "ee".repeat((list + a + b + c) as usize);
        for (order, t81) in [("00", least_first), ("01", most_first)] {
            let m = image(&format!("{order}|{t81}|{rest}"));
            sizes(
                &d,
                &m,
                &[
                    (81, 1, 16),
                    (82, 17, list),
                    (84, 17 + list, a),
                    (85, 17 + list + a, b),
                    (86, 17 + list + a + b, c),
                ],
            );
        }
    }
}
