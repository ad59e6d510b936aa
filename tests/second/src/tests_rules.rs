//! Refusals 1 to 7: each, their order, and what passes.

use crate::tests_support::*;

fn refused(items: &[u32], reply: &str) {
    assert_eq!(check_of(items), reply, "{}", desc(items));
}

/// Table 00 with its first octet and the dimensions given, each in slot 2 on;
/// the rest of the items follow in that table's body.
fn in_table_0(rest: &[u32]) -> Vec<u32> {
    let mut items = vec![table(0, 1 + rest.len() as u32), uint(1, 1)];
    items.extend_from_slice(rest);
    items
}

#[test]
fn rule_1_lengths() {
    // "description length is 0, over 2,048 or not a multiple of 4"
    holds("check -", "1 0 0 0");
    for octets in [1, 2, 3, 5, 6, 7, 2047, 2049, 2050, 2051, 2052, 4096] {
        holds(&format!("check {}", "10".repeat(octets)), "1 0 0 0");
    }
    // 2,048 octets: 512 items, table 00 with 511.
    let mut items = vec![table(0, 511), uint(1, 1)];
    items.resize(512, uint(1, 0));
    refused(&items, "0 0 0 0");
    items.push(uint(1, 0));
    refused(&items, "1 0 0 0");
    // The least sound description.
    refused(&[table(0, 1), uint(1, 1)], "0 0 0 0");
    // One item is a sound length; its body overruns.
    refused(&[table(0, 1)], "4 0 0 0");
}

#[test]
fn rule_2_kinds() {
    // "kind unknown"
    for kind in [0u32, 7, 8, 9, 10, 11, 12, 13, 14, 15] {
        refused(&in_table_0(&[kind << 28]), "2 2 0 0");
        refused(&[kind << 28], "2 0 0 0");
        refused(&[table(0, 1), kind << 28], "2 1 0 0");
    }
}

#[test]
fn rule_2_width_code() {
    refused(&in_table_0(&[0x2c00_0000]), "2 2 0 0");
    refused(&[table(0, 1), 0x2c10_0000], "2 1 0 0");
}

#[test]
fn rule_2_spare_bits() {
    for bit in 0..20 {
        refused(&in_table_0(&[uint(1, 0) | 1 << bit]), "2 2 0 0");
    }
    for bit in 0..16 {
        refused(&in_table_0(&[block(1) | 1 << bit]), "2 2 0 0");
    }
    for bit in 0..11 {
        refused(&in_table_0(&[set((1, 0, 1)) | 1 << bit]), "2 2 0 0");
    }
    refused(&in_table_0(&[flags((1, 0, 1))]), "0 0 0 0");
}

#[test]
fn rule_2_least_counts_and_slots() {
    refused(&in_table_0(&[block(0)]), "2 2 0 0");
    refused(&in_table_0(&[block(1)]), "0 0 0 0");
    refused(&in_table_0(&[block(4095)]), "0 0 0 0");
    refused(&in_table_0(&[set((0, 0, 1))]), "2 2 0 0");
    refused(&in_table_0(&[array((0, 0, 1), 1), block(1)]), "2 2 0 0");
    refused(&in_table_0(&[array((1, 0, 1), 0), block(1)]), "2 2 0 0");
    refused(&in_table_0(&[if_item((0, 0, 1), 1, 0), block(1)]), "2 2 0 0");
    refused(&in_table_0(&[if_item((1, 0, 1), 0, 1), block(1)]), "2 2 0 0");
    refused(&in_table_0(&[if_item((1, 0, 1), 0, 0)]), "2 2 0 0");
    refused(&in_table_0(&[if_item((1, 0, 1), 1, 0), block(1)]), "0 0 0 0");
}

#[test]
fn rule_3_levels() {
    // "The top level holds only TABLE items, and bodies hold none."
    for item in [uint(1, 2), block(1), set((1, 0, 1)), array((1, 0, 1), 1), if_item((1, 0, 1), 1, 0)]
    {
        refused(&[item, block(1)], "3 0 0 0");
        refused(&[table(0, 1), uint(1, 1), item, block(1)], "3 2 0 0");
    }
    refused(&in_table_0(&[table(5, 0)]), "3 2 0 0");
    refused(&[table(0, 3), uint(1, 1), array((1, 0, 1), 1), table(5, 0)], "3 3 0 0");
    // Tables of no items may stand at the top level.
    refused(&[table(0, 1), uint(1, 1), table(5, 0), own_table(5, 0)], "0 0 0 0");
}

#[test]
fn rule_3_item_0() {
    // "Item 0 is standard table 00 with at least one body item". "(an item 0
    // with no body is 3, not 2)"
    refused(&[table(0, 0)], "3 0 0 0");
    refused(&[table(1, 1), uint(1, 1)], "3 0 0 0");
    refused(&[own_table(0, 1), uint(1, 1)], "3 0 0 0");
    refused(&[open_table(0, 1), uint(1, 1)], "0 0 0 0");
    // 3 comes before 4 and 6.
    refused(&[table(1, 99)], "3 0 0 0");
}

#[test]
fn rule_3_item_1() {
    // "item 1 is a one-octet UINT that sets a slot"
    refused(&[table(0, 1), uint(1, 0)], "3 1 0 0");
    refused(&[table(0, 1), uint(2, 1)], "3 1 0 0");
    refused(&[table(0, 1), uint(4, 1)], "3 1 0 0");
    refused(&[table(0, 1), block(1)], "3 1 0 0");
    refused(&[table(0, 1), set((1, 0, 1))], "3 1 0 0");
    refused(&[table(0, 2), array((1, 0, 1), 1), uint(1, 1)], "3 1 0 0");
    refused(&[table(0, 1), table(1, 0)], "3 1 0 0");
    refused(&[table(0, 1), uint(1, 63)], "0 0 0 0");
}

#[test]
fn rule_3_dimensions_stand_directly_in_tables() {
    refused(&in_table_0(&[array((1, 0, 1), 1), uint(1, 2)]), "3 3 0 0");
    refused(&in_table_0(&[if_item((1, 0, 1), 1, 0), uint(1, 2)]), "3 3 0 0");
    refused(&in_table_0(&[if_item((1, 0, 1), 1, 1), block(1), uint(1, 2)]), "3 4 0 0");
    refused(&in_table_0(&[if_item((1, 0, 1), 1, 1), block(1), block(1), uint(1, 2)]), "0 0 0 0");
}

#[test]
fn rule_4_overruns() {
    // "A body that overruns is blamed on the item that declares it."
    refused(&[table(0, 2), uint(1, 1)], "4 0 0 0");
    refused(&[table(0, 32767), uint(1, 1)], "4 0 0 0");
    refused(&[table(0, 1), uint(1, 1), table(5, 1)], "4 2 0 0");
    refused(&in_table_0(&[array((1, 0, 1), 2), block(1)]), "4 2 0 0");
    refused(&in_table_0(&[array((1, 0, 1), 4095), block(1)]), "4 2 0 0");
    refused(&in_table_0(&[if_item((1, 0, 1), 1, 1), block(1)]), "4 2 0 0");
    refused(&in_table_0(&[if_item((1, 0, 1), 2, 0), block(1)]), "4 2 0 0");
    // An ARRAY in the true items may not reach into the false ones, though it
    // stays inside the IF.
    let items = in_table_0(&[
        if_item((1, 0, 1), 2, 1),
        array((1, 0, 1), 2),
        block(1),
        block(1),
    ]);
    refused(&items, "4 3 0 0");
    // Nor may it reach past the table, though items follow.
    let items = [table(0, 3), uint(1, 1), array((1, 0, 1), 2), block(1), table(5, 0)];
    refused(&items, "4 2 0 0");
}

/// Arrays nested as deep as given, the innermost holding a block.
fn nested(depth: usize) -> Vec<u32> {
    let mut rest = Vec::new();
    for level in 0..depth {
        rest.push(array((1, 0, 1), (depth - level) as u32));
    }
    rest.push(block(1));
    in_table_0(&rest)
}

#[test]
fn rule_5_the_fifth_level() {
    for depth in 1..=4 {
        refused(&nested(depth), "0 0 0 0");
    }
    // Items 2 to 5 are the four; item 6 is inside them.
    refused(&nested(5), "5 6 0 0");
    refused(&nested(6), "5 6 0 0");
    // IF counts as ARRAY does, on the true side and on the false.
    let items = in_table_0(&[
        if_item((1, 0, 1), 1, 5),
        block(1),
        array((1, 0, 1), 4),
        if_item((1, 0, 1), 3, 0),
        if_item((1, 0, 1), 1, 1),
        block(1),
        block(1),
    ]);
    refused(&items, "0 0 0 0");
    let items = in_table_0(&[
        if_item((1, 0, 1), 1, 6),
        block(1),
        array((1, 0, 1), 5),
        if_item((1, 0, 1), 4, 0),
        if_item((1, 0, 1), 1, 2),
        block(1),
        if_item((1, 0, 1), 1, 0),
        block(1),
    ]);
    refused(&items, "5 8 0 0");
}

#[test]
fn rule_6_given_twice() {
    refused(&in_table_0(&[uint(1, 1)]), "6 2 0 0");
    refused(&in_table_0(&[uint(4, 9), uint(2, 9)]), "6 3 0 0");
    refused(&in_table_0(&[uint(1, 0), uint(1, 0)]), "0 0 0 0");
    refused(&[table(0, 1), uint(1, 1), table(0, 0)], "6 2 0 0");
    refused(&[table(0, 1), uint(1, 1), own_table(0, 0), own_table(0, 0)], "6 3 0 0");
    refused(&[table(0, 1), uint(1, 1), table(7, 0), open_table(7, 0)], "6 3 0 0");
    refused(&[table(0, 1), uint(1, 1), table(7, 0), own_table(7, 0)], "0 0 0 0");
    refused(&[table(0, 1), uint(1, 1), table(7, 1), uint(1, 1)], "6 3 0 0");
}

#[test]
fn rule_7_references() {
    refused(&in_table_0(&[set((2, 0, 1))]), "7 2 0 0");
    refused(&in_table_0(&[set((2, 0, 1)), uint(1, 2)]), "7 2 0 0");
    refused(&in_table_0(&[array((63, 0, 1), 1), block(1)]), "7 2 0 0");
    refused(&in_table_0(&[if_item((2, 0, 1), 1, 0), block(1)]), "7 2 0 0");
    // Bits inside: 8, 16 and 32 of them.
    for (octets, bits) in [(1, 8), (2, 16), (4, 32)] {
        refused(&in_table_0(&[uint(octets, 2), set((2, 0, bits))]), "0 0 0 0");
        refused(&in_table_0(&[uint(octets, 2), set((2, bits - 1, 1))]), "0 0 0 0");
        refused(&in_table_0(&[uint(octets, 2), set((2, 1, bits))]), "7 3 0 0");
        if bits < 32 {
            refused(&in_table_0(&[uint(octets, 2), set((2, bits, 1))]), "7 3 0 0");
            refused(&in_table_0(&[uint(octets, 2), set((2, 0, bits + 1))]), "7 3 0 0");
        }
        refused(&in_table_0(&[uint(octets, 2), set((2, 31, 32))]), "7 3 0 0");
    }
}

#[test]
fn the_lowest_number_of_one_item() {
    // 2 before 3: a bad UINT at the top level.
    refused(&[table(0, 1), uint(1, 1), 0x2c00_0000], "2 2 0 0");
    // 3 before 4: a TABLE inside a body that also overruns.
    refused(&in_table_0(&[table(5, 9)]), "3 2 0 0");
    // 3 before 6: a dimension in an ARRAY, of a slot already set.
    refused(&in_table_0(&[array((1, 0, 1), 1), uint(1, 1)]), "3 3 0 0");
    // 3 before 7: an ARRAY at the top level, of a slot never set.
    refused(&[table(0, 1), uint(1, 1), array((9, 0, 1), 1)], "3 2 0 0");
    // 4 before 5, 6 and 7.
    let mut items = nested(5);
    items[6] = array((9, 0, 1), 9);
    refused(&items, "4 6 0 0");
    refused(&[table(0, 1), uint(1, 1), table(0, 1)], "4 2 0 0");
    refused(&in_table_0(&[array((9, 0, 1), 9)]), "4 2 0 0");
    // 5 before 7.
    let mut items = nested(5);
    items[6] = array((9, 0, 1), 1);
    refused(&items, "5 6 0 0");
}

#[test]
fn the_first_item_that_breaks_a_rule() {
    // 7 at item 2 comes before 2 at item 3.
    refused(&in_table_0(&[set((9, 0, 1)), 0]), "7 2 0 0");
    // The overrun of item 0 comes before what item 1 breaks.
    refused(&[table(0, 9), 0], "4 0 0 0");
    // 6 at item 2 comes before 3 at item 3.
    refused(&in_table_0(&[uint(1, 1), table(5, 0)]), "6 2 0 0");
}
