//! Laying the image out by a sound description (refusals 8 and 9).

use crate::description::{after, check, Item, Reference};
use crate::refusal::{Refusal, BIT_OUTSIDE_ELEMENT, UNREAD_DIMENSION};

/// A dimension that has been read: where it stands and what its number is.
#[derive(Clone, Copy, PartialEq, Eq, Debug)]
pub struct Dimension {
    pub at: u64,
    pub octets: u64,
    pub value: u64,
}

/// Where a table stands in the image.
#[derive(Clone, Copy, PartialEq, Eq, Debug)]
pub struct TablePlace {
    pub item: usize,
    pub start: u64,
    pub length: u64,
}

/// An image laid out.
pub struct Layout {
    pub items: Vec<Item>,
    pub dimensions: [Option<Dimension>; 64],
    pub tables: Vec<TablePlace>,
    pub most_significant_first: bool,
    pub total: u64,
}

/// "its bit 0 is DATA_ORDER (0 = least significant octet first, 1 = most
/// significant first)". Item 1 is the first octet of the image.
pub fn most_significant_first(image: &[u8]) -> bool {
    match image.first() {
        Some(octet) => octet & 1 == 1,
        None => false,
    }
}

/// The number that octets stand for. "DATA_ORDER ... governs every UINT of
/// the image."
pub fn number_of(octets: &[u8], most_significant_first: bool) -> u64 {
    let mut value = 0u64;
    if most_significant_first {
        for octet in octets.iter().take(8) {
            value = value * 256 + u64::from(*octet);
        }
    } else {
        for octet in octets.iter().take(8).rev() {
            value = value * 256 + u64::from(*octet);
        }
    }
    value
}

/// "Its value is that bit range of the slot's number, bit 0 being least
/// significant as in the standard."
pub fn value_of(
    reference: Reference,
    dimensions: &[Option<Dimension>; 64],
) -> Result<u64, u64> {
    let dimension = match dimensions.get(reference.slot) {
        Some(Some(dimension)) => dimension,
        _ => return Err(UNREAD_DIMENSION),
    };
    if u64::from(reference.low + reference.width) > dimension.octets * 8 {
        return Err(BIT_OUTSIDE_ELEMENT);
    }
    // The dimension has at most 4 octets, so low and width are at most 32.
    let modulus = 1u64 << reference.width;
    Ok((dimension.value >> reference.low) % modulus)
}

/// "0 = the value is octets; 1 = flags, octets = (value + 7) / 8 rounded
/// down".
fn set_octets(value: u64, flags: bool) -> u64 {
    if flags {
        (value + 7) / 8
    } else {
        value
    }
}

/// "An IF takes only the chosen body." "(nonzero is true)" First and past-last
/// item of the body that is chosen.
pub fn chosen_body(i: usize, if_true: usize, if_false: usize, value: u64) -> (usize, usize) {
    let first = i + 1;
    let middle = first + if_true;
    if value != 0 {
        (first, middle)
    } else {
        (middle, middle + if_false)
    }
}

/// "In sizing, a body is as long as its items".
///
/// "Sizes are whole numbers without limit; only comparison with the image cuts
/// them." Sums and products stick at the largest u64. For whole numbers that
/// is the same as cutting the true size there: a product with 0 stays 0, and
/// anything that sticks is far over every image.
pub fn body_size(
    items: &[Item],
    start: usize,
    end: usize,
    dimensions: &[Option<Dimension>; 64],
) -> Result<u64, u64> {
    let mut size = 0u64;
    let mut place = start;
    while place < end {
        size = size.saturating_add(item_size(items, place, dimensions)?);
        place = after(items, place);
    }
    Ok(size)
}

/// "an item as its body": the octets an item takes.
pub fn item_size(
    items: &[Item],
    i: usize,
    dimensions: &[Option<Dimension>; 64],
) -> Result<u64, u64> {
    match items[i] {
        Item::Uint { octets, .. } | Item::Block { octets } => Ok(octets),
        Item::Set { reference, flags } => {
            Ok(set_octets(value_of(reference, dimensions)?, flags))
        }
        // "An array takes count times its element's size; count 0, or elements
        // of no octets, take none."
        Item::Array { reference, body } => {
            let count = value_of(reference, dimensions)?;
            let element = body_size(items, i + 1, i + 1 + body, dimensions)?;
            Ok(count.saturating_mul(element))
        }
        Item::If { reference, if_true, if_false } => {
            let value = value_of(reference, dimensions)?;
            let (start, end) = chosen_body(i, if_true, if_false, value);
            body_size(items, start, end, dimensions)
        }
        // A TABLE stands in no body, and a bad item in no sound description.
        Item::Table { .. } | Item::Bad => Ok(0),
    }
}

/// The walk along an image.
struct Walk<'a> {
    items: &'a [Item],
    image: &'a [u8],
    dimensions: [Option<Dimension>; 64],
    at: u64,
}

impl<'a> Walk<'a> {
    /// "The walk stops as short at the first UINT, BLOCK or SET outside
    /// arrays, or outermost ARRAY, that doesn't end inside the image, and
    /// reports that item and its starting octet."
    fn take(&mut self, i: usize) -> Result<(), Refusal> {
        let size = item_size(self.items, i, &self.dimensions)
            .map_err(|odd| Refusal::at_item(odd, i))?;
        let end = self.at.saturating_add(size);
        if end > self.image.len() as u64 {
            return Err(Refusal::at_octet(9, i, self.at));
        }
        if let Item::Uint { octets, slot } = self.items[i] {
            if slot != 0 {
                let part = &self.image[self.at as usize..end as usize];
                let value = number_of(part, most_significant_first(self.image));
                self.dimensions[slot] = Some(Dimension { at: self.at, octets, value });
            }
        }
        self.at = end;
        Ok(())
    }

    /// "A table's items follow one another without gaps."
    fn body(&mut self, start: usize, end: usize) -> Result<(), Refusal> {
        let mut place = start;
        while place < end {
            match self.items[place] {
                Item::If { reference, if_true, if_false } => {
                    let value = value_of(reference, &self.dimensions)
                        .map_err(|odd| Refusal::at_item(odd, place))?;
                    let (first, last) = chosen_body(place, if_true, if_false, value);
                    self.body(first, last)?;
                }
                _ => self.take(place)?,
            }
            place = after(self.items, place);
        }
        Ok(())
    }
}

/// The question "lay the image out", with all that the other questions need of
/// it. Order: 1 to 7 (the description), 8, 9.
pub fn lay_out(description: &[u8], image: &[u8]) -> Result<Layout, Refusal> {
    let items = check(description)?;
    // Refusal 8: "image over 65,535 octets".
    if image.len() > 65_535 {
        return Err(Refusal::plain(8));
    }
    // "Tables follow one another from octet 0; the total is where the last
    // ends."
    let mut tables = Vec::new();
    let mut walk = Walk { items: &items, image, dimensions: [None; 64], at: 0 };
    let mut place = 0;
    while place < items.len() {
        let start = walk.at;
        let next = after(&items, place);
        walk.body(place + 1, next)?;
        tables.push(TablePlace { item: place, start, length: walk.at - start });
        place = next;
    }
    let dimensions = walk.dimensions;
    let total = walk.at;
    Ok(Layout {
        items,
        dimensions,
        tables,
        most_significant_first: most_significant_first(image),
        total,
    })
}
