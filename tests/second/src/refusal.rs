//! A refusal, as documents 01 and 02 number it.

/// "2 to 7 report the item, 9 the item and octet, others nothing more.
/// Refused numbers are 0 elsewhere." Since E4, 25 reports the depth: the place
/// of the subscript, 0 for the outermost ARRAY.
#[derive(Clone, Copy, PartialEq, Eq, Debug)]
pub struct Refusal {
    pub no: u64,
    pub item: u64,
    pub octet: u64,
    pub depth: u64,
}

impl Refusal {
    /// A refusal that reports nothing more than its number.
    pub fn plain(no: u64) -> Refusal {
        Refusal { no, item: 0, octet: 0, depth: 0 }
    }

    /// A refusal that reports an item.
    pub fn at_item(no: u64, item: usize) -> Refusal {
        Refusal { no, item: item as u64, octet: 0, depth: 0 }
    }

    /// A refusal that reports an item and an octet.
    pub fn at_octet(no: u64, item: usize, octet: u64) -> Refusal {
        Refusal { no, item: item as u64, octet, depth: 0 }
    }

    /// A refusal that reports a depth.
    pub fn at_depth(no: u64, depth: u64) -> Refusal {
        Refusal { no, item: 0, octet: 0, depth }
    }
}

/// "a reference to an unread dimension, a bit outside its element, and an
/// array whose elements differ in size are outcomes of their own, each
/// possible for some description that isn't passed".
///
/// Every question of this program checks the description first, so none of
/// these outcomes should ever be seen. If one were, it would be answered with
/// a number that document 01 doesn't have, and a comparison would show it.
/// Unequal elements can't be told apart here: an element is measured once,
/// because dimensions stand directly in TABLE bodies and so don't change
/// inside an array.
pub const UNREAD_DIMENSION: u64 = 91;
pub const BIT_OUTSIDE_ELEMENT: u64 = 92;

/// Neither a cause nor a place: the causes of E4 are said apart from the search
/// for the place, and the two should never leave a name to nobody. If they did,
/// it would show in the same way.
pub const NO_CAUSE_AND_NO_PLACE: u64 = 93;
