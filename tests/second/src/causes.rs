//! Why there is no such element (document 02, E4): refusals 22 to 26.
//!
//! "11 becomes 22 item isn't an element, 23 branch not chosen, 24 wrong number
//! of subscripts, 25 subscript too large (its depth told, from 0), 26 number
//! asked of a BLOCK or SET. Order 22, 26, 24, then from the outside in: 23 for
//! a branch, 25 for a subscript."
//!
//! All of it is said from the description, what the item is and what stands
//! round it, and from the dimensions' numbers. No place is looked for here.

use crate::description::{bodies_round, Item};
use crate::layout::{value_of, Layout};
use crate::refusal::Refusal;

/// An element's name: "its item number and one subscript for each ARRAY round
/// it, outermost first, from 0 (four places and a count; places past the count
/// aren't read)".
#[derive(Clone, Copy, PartialEq, Eq, Debug)]
pub struct Name {
    pub item: u64,
    pub count: u64,
    pub subscripts: [u64; 4],
}

/// What is asked of an element, or written to it: its octets, or its number.
#[derive(Clone, Copy, PartialEq, Eq, Debug)]
pub enum Asked {
    Octets,
    Number,
}

/// What stands round an item inside its table.
enum Round {
    /// One of an IF's two branches: the chosen one, or the other.
    Branch { chosen: bool },
    /// An ARRAY, with its count.
    Array { count: u64 },
}

/// What stands round item `i`, from the outside in. "(nonzero is true)"
fn what_stands_round(layout: &Layout, i: usize) -> Result<Vec<Round>, Refusal> {
    let mut round = Vec::new();
    for body in bodies_round(&layout.items, i) {
        match layout.items[body.owner] {
            Item::Array { reference, .. } => {
                let count = value_of(reference, &layout.dimensions).map_err(Refusal::plain)?;
                round.push(Round::Array { count });
            }
            Item::If { reference, .. } => {
                let value = value_of(reference, &layout.dimensions).map_err(Refusal::plain)?;
                let false_is_chosen = value == 0;
                round.push(Round::Branch { chosen: body.is_false_body == false_is_chosen });
            }
            // The TABLE.
            _ => {}
        }
    }
    Ok(round)
}

/// The item that a name names, if it is in the description.
fn item_named(layout: &Layout, name: &Name) -> Option<usize> {
    if name.item < layout.items.len() as u64 {
        Some(name.item as usize)
    } else {
        None
    }
}

/// The first cause why there is no such element, in the order of E4; or the
/// element's item, where there is none.
pub fn refuse_causes(layout: &Layout, name: &Name, asked: Asked) -> Result<usize, Refusal> {
    // 22: "item isn't an element". "An element is a UINT, BLOCK or SET".
    let i = match item_named(layout, name) {
        Some(i) => i,
        None => return Err(Refusal::plain(22)),
    };
    let is_integer = match layout.items[i] {
        Item::Uint { .. } => true,
        Item::Block { .. } | Item::Set { .. } => false,
        _ => return Err(Refusal::plain(22)),
    };

    // 26: "number asked of a BLOCK or SET".
    if asked == Asked::Number && !is_integer {
        return Err(Refusal::plain(26));
    }

    // 24: "wrong number of subscripts". "one subscript for each ARRAY round it".
    let round = what_stands_round(layout, i)?;
    let arrays = round.iter().filter(|what| matches!(what, Round::Array { .. })).count();
    if name.count != arrays as u64 {
        return Err(Refusal::plain(24));
    }

    // "then from the outside in: 23 for a branch, 25 for a subscript". The depth
    // is the place of the subscript; branches don't count in it.
    let mut depth = 0;
    for what in round {
        match what {
            Round::Branch { chosen } => {
                if !chosen {
                    return Err(Refusal::plain(23));
                }
            }
            Round::Array { count } => {
                if name.subscripts[depth] >= count {
                    return Err(Refusal::at_depth(25, depth as u64));
                }
                depth += 1;
            }
        }
    }
    Ok(i)
}
