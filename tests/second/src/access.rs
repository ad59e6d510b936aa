//! Tables and elements: where they are, what they hold, and writing them
//! (refusals 10 and 12 to 15; 22 to 26 are in causes.rs).

use crate::causes::{refuse_causes, Asked, Name};
use crate::description::{after, bodies_round, Item};
use crate::layout::{body_size, chosen_body, item_size, lay_out, number_of, value_of};
use crate::layout::{Layout, TablePlace};
use crate::refusal::{Refusal, NO_CAUSE_AND_NO_PLACE};

/// Where something is in the image.
#[derive(Clone, Copy, PartialEq, Eq, Debug)]
pub struct Place {
    pub at: u64,
    pub length: u64,
}

impl Place {
    /// The part of the image that this place names.
    pub fn part<'a>(&self, image: &'a [u8]) -> &'a [u8] {
        &image[self.at as usize..(self.at + self.length) as usize]
    }
}

/// An element that has been found: its place, its table.
struct Element {
    place: Place,
    table: TablePlace,
}

/// Refusal 10: "no such table".
fn find_table(layout: &Layout, mfr: bool, num: u64) -> Result<TablePlace, Refusal> {
    for table in &layout.tables {
        if let Item::Table { manufacturer, number, .. } = layout.items[table.item] {
            if manufacturer == mfr && u64::from(number) == num {
                return Ok(*table);
            }
        }
    }
    Err(Refusal::plain(10))
}

/// A table of an image that has been laid out.
pub fn table_in(layout: &Layout, mfr: bool, num: u64) -> Result<Place, Refusal> {
    let table = find_table(layout, mfr, num)?;
    Ok(Place { at: table.start, length: table.length })
}

/// The question "where a table starts and how long it is".
pub fn table(d: &[u8], image: &[u8], mfr: bool, num: u64) -> Result<Place, Refusal> {
    table_in(&lay_out(d, image)?, mfr, num)
}

/// A range of a table, to be read (document 02, E2). Order: 1 to 9, 10, 12; a
/// range of no octets at an offset up to the size is one.
pub fn read_range(
    d: &[u8],
    image: &[u8],
    mfr: bool,
    num: u64,
    offset: u64,
    length: u64,
) -> Result<Place, Refusal> {
    let place = table(d, image, mfr, num)?;
    // Refusal 12: "offset + length over the table's size".
    if u128::from(offset) + u128::from(length) > u128::from(place.length) {
        return Err(Refusal::plain(12));
    }
    Ok(Place { at: place.at + offset, length })
}

/// The place of item `wanted` among the items from `start` to `end`, of which
/// the first stands at octet `at`. None where it has none, which the causes of
/// E4 have seen to before.
fn find_in_body(
    layout: &Layout,
    start: usize,
    end: usize,
    at: u64,
    wanted: usize,
    subscripts: &[u64],
) -> Option<Place> {
    let items = &layout.items;
    let mut at = at;
    let mut place = start;
    while place < end {
        let next = after(items, place);
        if place == wanted {
            let length = item_size(items, place, &layout.dimensions).ok()?;
            return Some(Place { at, length });
        }
        if wanted < next {
            return find_inside(layout, place, at, wanted, subscripts);
        }
        at = at.saturating_add(item_size(items, place, &layout.dimensions).ok()?);
        place = next;
    }
    None
}

/// The place of item `wanted`, which stands inside the ARRAY or IF `owner`,
/// which itself starts at octet `at`.
fn find_inside(
    layout: &Layout,
    owner: usize,
    at: u64,
    wanted: usize,
    subscripts: &[u64],
) -> Option<Place> {
    match layout.items[owner] {
        Item::Array { reference, body } => {
            let (start, end) = (owner + 1, owner + 1 + body);
            let count = value_of(reference, &layout.dimensions).ok()?;
            let (subscript, rest) = subscripts.split_first()?;
            if *subscript >= count {
                return None;
            }
            let element = body_size(&layout.items, start, end, &layout.dimensions).ok()?;
            let at = at.saturating_add(subscript.saturating_mul(element));
            find_in_body(layout, start, end, at, wanted, rest)
        }
        Item::If { reference, if_true, if_false } => {
            let value = value_of(reference, &layout.dimensions).ok()?;
            let (start, end) = chosen_body(owner, if_true, if_false, value);
            if wanted < start || wanted >= end {
                return None;
            }
            find_in_body(layout, start, end, at, wanted, subscripts)
        }
        _ => None,
    }
}

/// An element, for what is asked of it. Whether there is such an element the
/// causes of E4 say; where it is, the search.
fn find_element(layout: &Layout, name: &Name, asked: Asked) -> Result<Element, Refusal> {
    let i = refuse_causes(layout, name, asked)?;
    let none = Refusal::plain(NO_CAUSE_AND_NO_PLACE);
    let owner = *bodies_round(&layout.items, i).first().ok_or(none)?;
    let table = *layout.tables.iter().find(|table| table.item == owner.owner).ok_or(none)?;
    let subscripts = &name.subscripts[..name.count.min(4) as usize];
    let place = find_in_body(layout, owner.start, owner.end, table.start, i, subscripts);
    Ok(Element { place: place.ok_or(none)?, table })
}

/// The question "where an element is (its octet in the image, and length)".
pub fn element(d: &[u8], image: &[u8], name: &Name) -> Result<Place, Refusal> {
    Ok(find_element(&lay_out(d, image)?, name, Asked::Octets)?.place)
}

/// The question "its number, for an integer".
pub fn number(d: &[u8], image: &[u8], name: &Name) -> Result<u64, Refusal> {
    let layout = lay_out(d, image)?;
    let element = find_element(&layout, name, Asked::Number)?;
    Ok(number_of(element.place.part(image), layout.most_significant_first))
}

/// Refusal 13: "table not marked writable".
fn refuse_unmarked(layout: &Layout, table: &TablePlace) -> Result<(), Refusal> {
    match layout.items[table.item] {
        Item::Table { writable: true, .. } => Ok(()),
        _ => Err(Refusal::plain(13)),
    }
}

/// Refusal 14: "range holds an octet of a dimension". "A range of length 0
/// ... holds no octet".
fn refuse_dimensions(layout: &Layout, range: Place) -> Result<(), Refusal> {
    for octet in range.at..range.at + range.length {
        for dimension in layout.dimensions.iter().flatten() {
            if dimension.at <= octet && octet < dimension.at + dimension.octets {
                return Err(Refusal::plain(14));
            }
        }
    }
    Ok(())
}

/// The image with the octets at a place replaced.
fn replaced(image: &[u8], at: u64, data: &[u8]) -> Vec<u8> {
    let mut later = image.to_vec();
    let at = at as usize;
    later[at..at + data.len()].copy_from_slice(data);
    later
}

/// The question "write a range of a table". Order: 1 to 9, 10, 12, 13, 14
/// ("in a range write the lent data is the range, so 15 doesn't arise").
pub fn write_range(
    d: &[u8],
    image: &[u8],
    mfr: bool,
    num: u64,
    offset: u64,
    data: &[u8],
) -> Result<Vec<u8>, Refusal> {
    let layout = lay_out(d, image)?;
    let table = find_table(&layout, mfr, num)?;
    // Refusal 12: "offset + length over the table's size".
    let end = u128::from(offset) + data.len() as u128;
    if end > u128::from(table.length) {
        return Err(Refusal::plain(12));
    }
    refuse_unmarked(&layout, &table)?;
    let range = Place { at: table.start + offset, length: data.len() as u64 };
    refuse_dimensions(&layout, range)?;
    Ok(replaced(image, range.at, data))
}

/// The question "write a range of a table" over a whole table, as document
/// 02's E2 asks it: "A full write's count other than the table's size is the
/// tables' 12."
pub fn write_table(
    d: &[u8],
    image: &[u8],
    mfr: bool,
    num: u64,
    data: &[u8],
) -> Result<Vec<u8>, Refusal> {
    let place = table(d, image, mfr, num)?;
    if data.len() as u64 != place.length {
        return Err(Refusal::plain(12));
    }
    write_range(d, image, mfr, num, 0, data)
}

/// The question "write ... an element's octets". Order: 1 to 9, 22 to 26,
/// 13, 14, 15; the table is the element's own and the range is the element.
pub fn write_octets(
    d: &[u8],
    image: &[u8],
    name: &Name,
    data: &[u8],
) -> Result<Vec<u8>, Refusal> {
    let layout = lay_out(d, image)?;
    let element = find_element(&layout, name, Asked::Octets)?;
    refuse_unmarked(&layout, &element.table)?;
    refuse_dimensions(&layout, element.place)?;
    // Refusal 15: "lent data's length isn't the element's".
    if data.len() as u64 != element.place.length {
        return Err(Refusal::plain(15));
    }
    Ok(replaced(image, element.place.at, data))
}

/// The octets of a number, in the image's order; none where "the number needs
/// more octets" than there are (refusal 15).
fn octets_of(value: u64, octets: u64, most_significant_first: bool) -> Option<Vec<u8>> {
    let mut rest = value;
    let mut least_first = Vec::new();
    for _ in 0..octets {
        least_first.push((rest % 256) as u8);
        rest /= 256;
    }
    if rest != 0 {
        return None;
    }
    if most_significant_first {
        least_first.reverse();
    }
    Some(least_first)
}

/// The question "write ... an element's number". Order as for its octets.
pub fn write_number(
    d: &[u8],
    image: &[u8],
    name: &Name,
    value: u64,
) -> Result<Vec<u8>, Refusal> {
    let layout = lay_out(d, image)?;
    let element = find_element(&layout, name, Asked::Number)?;
    refuse_unmarked(&layout, &element.table)?;
    refuse_dimensions(&layout, element.place)?;
    match octets_of(value, element.place.length, layout.most_significant_first) {
        Some(data) => Ok(replaced(image, element.place.at, &data)),
        None => Err(Refusal::plain(15)),
    }
}
