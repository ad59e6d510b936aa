//! The description: what its items say, and the rules they can break
//! (refusals 1 to 7).

use crate::refusal::Refusal;

/// "A reference is 27..22 slot (1 to 63), 21..17 low bit, 16..12 width less 1."
#[derive(Clone, Copy, PartialEq, Eq, Debug)]
pub struct Reference {
    pub slot: usize,
    pub low: u32,
    pub width: u32,
}

/// One item. `Bad` stands for an item that breaks rule 2, so that nothing
/// more is to be said of it.
#[derive(Clone, Copy, PartialEq, Eq, Debug)]
pub enum Item {
    Table { manufacturer: bool, number: u32, writable: bool, body: usize },
    Uint { octets: u64, slot: usize },
    Block { octets: u64 },
    Set { reference: Reference, flags: bool },
    Array { reference: Reference, body: usize },
    If { reference: Reference, if_true: usize, if_false: usize },
    Bad,
}

/// Bits `high` down to `low` of a word; bit 31 is the most significant.
fn bits(word: u32, high: u32, low: u32) -> u32 {
    let mut value = 0;
    let mut bit = high + 1;
    while bit > low {
        bit -= 1;
        value = value * 2 + ((word >> bit) & 1);
    }
    value
}

/// "1 to 512 items of 4 octets, numbered from 0, first octet most significant."
fn words(description: &[u8]) -> Vec<u32> {
    description
        .chunks_exact(4)
        .map(|c| u32::from_be_bytes([c[0], c[1], c[2], c[3]]))
        .collect()
}

/// Refusal 1: "description length is 0, over 2,048 or not a multiple of 4".
fn breaks_rule_1(description: &[u8]) -> bool {
    let length = description.len();
    length == 0 || length > 2048 || length % 4 != 0
}

/// Refusal 2: "kind unknown, width code 3, spare bit set, a count or slot
/// below its least".
fn breaks_rule_2(word: u32) -> bool {
    let slot_below_least = bits(word, 27, 22) < 1;
    match bits(word, 31, 28) {
        // TABLE: 27 manufacturer, 26..16 number, 15 writable, 14..0 items in
        // body. No bit is spare and no least count is given. ("an item 0 with
        // no body is 3, not 2")
        1 => false,
        // UINT: 27..26 width code (0, 1, 2), 25..20 slot set (0 = none).
        2 => bits(word, 27, 26) == 3 || bits(word, 19, 0) != 0,
        // BLOCK: 27..16 octets, 1 to 4,095.
        3 => bits(word, 27, 16) < 1 || bits(word, 15, 0) != 0,
        // SET: reference, 11 unit.
        4 => slot_below_least || bits(word, 10, 0) != 0,
        // ARRAY: reference, 11..0 items in body, at least 1.
        5 => slot_below_least || bits(word, 11, 0) < 1,
        // IF: reference, 11..6 items if true, at least 1, 5..0 if false.
        6 => slot_below_least || bits(word, 11, 6) < 1,
        _ => true,
    }
}

/// What the item says. "Fields are packed from bit 31 down ... Bits 31..28
/// are the kind."
fn read_item(word: u32) -> Item {
    if breaks_rule_2(word) {
        return Item::Bad;
    }
    let reference = Reference {
        slot: bits(word, 27, 22) as usize,
        low: bits(word, 21, 17),
        width: bits(word, 16, 12) + 1,
    };
    match bits(word, 31, 28) {
        1 => Item::Table {
            manufacturer: bits(word, 27, 27) == 1,
            number: bits(word, 26, 16),
            writable: bits(word, 15, 15) == 1,
            body: bits(word, 14, 0) as usize,
        },
        2 => Item::Uint {
            octets: match bits(word, 27, 26) {
                0 => 1,
                1 => 2,
                _ => 4,
            },
            slot: bits(word, 25, 20) as usize,
        },
        3 => Item::Block { octets: u64::from(bits(word, 27, 16)) },
        4 => Item::Set { reference, flags: bits(word, 11, 11) == 1 },
        5 => Item::Array { reference, body: bits(word, 11, 0) as usize },
        6 => Item::If {
            reference,
            if_true: bits(word, 11, 6) as usize,
            if_false: bits(word, 5, 0) as usize,
        },
        _ => Item::Bad,
    }
}

/// How many items the item declares as its own. "Item counts include nested
/// items. An IF's false items follow its true items."
pub fn items_declared(item: Item) -> usize {
    match item {
        Item::Table { body, .. } | Item::Array { body, .. } => body,
        Item::If { if_true, if_false, .. } => if_true + if_false,
        _ => 0,
    }
}

/// The place after an item and everything it declares.
pub fn after(items: &[Item], i: usize) -> usize {
    i + 1 + items_declared(items[i])
}

/// A body: the items from `start` up to, not including, `end`, declared by
/// the item `owner`.
#[derive(Clone, Copy, PartialEq, Eq, Debug)]
pub struct Body {
    pub owner: usize,
    pub start: usize,
    pub end: usize,
    /// Whether this is the body that an IF takes when its reference is 0.
    pub is_false_body: bool,
}

/// The body of item `owner` that holds item `i`, if it declares one that does.
fn body_with(items: &[Item], owner: usize, i: usize) -> Option<Body> {
    let first = owner + 1;
    let last = after(items, owner);
    if i < first || i >= last {
        return None;
    }
    match items[owner] {
        Item::If { if_true, .. } => {
            let middle = first + if_true;
            if i < middle {
                Some(Body { owner, start: first, end: middle, is_false_body: false })
            } else {
                Some(Body { owner, start: middle, end: last, is_false_body: true })
            }
        }
        _ => Some(Body { owner, start: first, end: last, is_false_body: false }),
    }
}

/// The bodies round item `i`, outermost first; none at the top level. Only
/// items before `i` are read.
pub fn bodies_round(items: &[Item], i: usize) -> Vec<Body> {
    let mut round = Vec::new();
    let mut place = 0;
    while place < i {
        match body_with(items, place, i) {
            Some(body) => {
                round.push(body);
                place = body.start;
            }
            None => place = after(items, place),
        }
    }
    round
}

/// Refusal 3: "item at a level or place it may not have, the rules on items 0
/// and 1 included (an item 0 with no body is 3, not 2)".
fn breaks_rule_3(items: &[Item], i: usize, round: &[Body]) -> bool {
    // "The top level holds only TABLE items, and bodies hold none."
    let is_table = matches!(items[i], Item::Table { .. });
    let at_top = round.is_empty();
    let wrong_level = at_top != is_table;

    // "Item 0 is standard table 00 with at least one body item".
    let wrong_item_0 = i == 0
        && !matches!(
            items[i],
            Item::Table { manufacturer: false, number: 0, body, .. } if body >= 1
        );

    // "item 1 is a one-octet UINT that sets a slot".
    let wrong_item_1 =
        i == 1 && !matches!(items[i], Item::Uint { octets: 1, slot } if slot != 0);

    // "A UINT that sets a slot is a dimension; it stands directly in a TABLE
    // body." The only body round it is then the TABLE's.
    let is_dimension = matches!(items[i], Item::Uint { slot, .. } if slot != 0);
    let wrong_dimension = is_dimension && round.len() != 1;

    wrong_level || wrong_item_0 || wrong_item_1 || wrong_dimension
}

/// Refusal 4: "body runs past what encloses it". "A body that overruns is
/// blamed on the item that declares it."
fn breaks_rule_4(items: &[Item], i: usize, round: &[Body]) -> bool {
    let end_of_what_encloses = match round.last() {
        Some(body) => body.end,
        None => items.len(),
    };
    after(items, i) > end_of_what_encloses
}

/// Refusal 5: "fifth level: an ARRAY or IF inside four others, reported at
/// that item". "(ARRAY and IF counted, TABLE not)"
fn breaks_rule_5(items: &[Item], i: usize, round: &[Body]) -> bool {
    let counted = |item: Item| matches!(item, Item::Array { .. } | Item::If { .. });
    let others = round.iter().filter(|body| counted(items[body.owner])).count();
    counted(items[i]) && others >= 4
}

/// The earlier item that sets a slot.
fn setter(items: &[Item], i: usize, wanted: usize) -> Option<Item> {
    items[..i]
        .iter()
        .copied()
        .find(|item| matches!(item, Item::Uint { slot, .. } if *slot == wanted))
}

/// Refusal 6: "slot or table given twice". "Each slot is set at most once, and
/// each pair of manufacturer bit and number occurs once."
fn breaks_rule_6(items: &[Item], i: usize) -> bool {
    match items[i] {
        Item::Uint { slot, .. } => slot != 0 && setter(items, i, slot).is_some(),
        Item::Table { manufacturer: m, number: n, .. } => items[..i].iter().any(|item| {
            matches!(item, Item::Table { manufacturer, number, .. }
                if *manufacturer == m && *number == n)
        }),
        _ => false,
    }
}

/// The reference an item makes, if its kind makes one.
fn reference_of(item: Item) -> Option<Reference> {
    match item {
        Item::Set { reference, .. }
        | Item::Array { reference, .. }
        | Item::If { reference, .. } => Some(reference),
        _ => None,
    }
}

/// Refusal 7: "reference to a slot not set earlier, or bits outside it". "A
/// reference names a slot set by an earlier item, and its bits lie inside that
/// element."
fn breaks_rule_7(items: &[Item], i: usize) -> bool {
    let reference = match reference_of(items[i]) {
        Some(reference) => reference,
        None => return false,
    };
    match setter(items, i, reference.slot) {
        Some(Item::Uint { octets, .. }) => {
            u64::from(reference.low + reference.width) > octets * 8
        }
        _ => true,
    }
}

/// "The first item that breaks a rule is reported, and of the rules it breaks,
/// the lowest refusal number." For item `i` all earlier items are sound, so
/// that the bodies round it are known.
fn lowest_rule_broken(items: &[Item], i: usize) -> Option<u64> {
    if items[i] == Item::Bad {
        return Some(2);
    }
    let round = bodies_round(items, i);
    if breaks_rule_3(items, i, &round) {
        return Some(3);
    }
    if breaks_rule_4(items, i, &round) {
        return Some(4);
    }
    if breaks_rule_5(items, i, &round) {
        return Some(5);
    }
    if breaks_rule_6(items, i) {
        return Some(6);
    }
    if breaks_rule_7(items, i) {
        return Some(7);
    }
    None
}

/// The question "is this description sound": its items, or the refusal.
pub fn check(description: &[u8]) -> Result<Vec<Item>, Refusal> {
    if breaks_rule_1(description) {
        return Err(Refusal::plain(1));
    }
    let items: Vec<Item> = words(description).into_iter().map(read_item).collect();
    for i in 0..items.len() {
        if let Some(no) = lowest_rule_broken(&items, i) {
            return Err(Refusal::at_item(no, i));
        }
    }
    Ok(items)
}
