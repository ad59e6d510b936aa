//! Requests about elements, for gen.rs: where, octets, number, writeoctets and
//! writenumber.
//!
//! A description is made round one item: ARRAYs and choices in one another, in
//! every mixture to four deep, the item innermost. Faults are chosen first, none
//! or some, and the numbers of the image and the name of the element are made so
//! that they hold: the item is no element (22), a number is asked of a BLOCK or
//! SET (26), the count of subscripts is wrong (24), a branch isn't chosen (23), a
//! subscript is too large (25). A few descriptions and images are damaged, so that
//! 1 to 9 come before them.

use super::*;

/// What is put round an item: an ARRAY, or a choice with the item among its true
/// or its false items.
#[derive(Clone, Copy, PartialEq, Eq)]
enum Nest {
    Array,
    True,
    False,
}

/// How a subscript of an ARRAY is too large.
#[derive(Clone, Copy, PartialEq, Eq)]
enum Large {
    AtCount,
    Far,
    CountIs0,
}

#[derive(Clone, Copy, PartialEq, Eq)]
enum Innermost {
    Integer,
    Element,
    /// A BLOCK or a SET.
    Octets,
    Array,
    Choice,
}

/// What a request is to be.
struct Plan {
    question: &'static str,
    nests: Vec<Nest>,
    /// Of each nest, whether it is to refuse.
    bad: Vec<Option<Large>>,
    no_element: bool,
    wrong_count: bool,
    innermost: Innermost,
    huge: bool,
}

/// A description that was made: the number of the innermost item, and those of
/// the dimensions.
struct Made {
    maker: Maker,
    item: usize,
    dimensions: Vec<usize>,
}

// ------------------------------------------------------------------- plans

/// What stands round the item, from the outside in. Often so many ARRAYs, from
/// none to four, with choices between them; else one of the 121 lists there are.
fn some_nests(rng: &mut Rng) -> Vec<Nest> {
    let choice = [Nest::True, Nest::False];
    match rng.below(20) {
        // ARRAYs and one choice inside them all.
        0 | 1 => {
            let mut list = vec![Nest::Array; rng.index(4)];
            list.push(rng.pick(&choice));
            list
        }
        // Up to two ARRAYs, and two of any inside them.
        2 | 3 => {
            let mut list = vec![Nest::Array; rng.index(3)];
            let inside = [Nest::Array, Nest::Array, Nest::True, Nest::False];
            list.extend([rng.pick(&inside), rng.pick(&inside)]);
            list
        }
        4 => vec![Nest::Array; 4],
        5..=11 => {
            let mut list = vec![Nest::Array; rng.index(5)];
            for _ in 0..rng.index(5 - list.len()) {
                let place = rng.index(list.len() + 1);
                list.insert(place, rng.pick(&choice));
            }
            list
        }
        _ => {
            let mut k = rng.index(121);
            let (mut lists, mut length) = (1, 0);
            while k >= lists {
                k -= lists;
                lists *= 3;
                length += 1;
            }
            let mut list = Vec::new();
            for _ in 0..length {
                list.push([Nest::Array, Nest::True, Nest::False][k % 3]);
                k /= 3;
            }
            list
        }
    }
}

fn some_plan(rng: &mut Rng, refused: bool) -> Plan {
    let nests = some_nests(rng);
    let mut plan = Plan {
        question: "where",
        bad: vec![None; nests.len()],
        nests,
        no_element: false,
        wrong_count: false,
        innermost: Innermost::Element,
        huge: rng.chance(4),
    };
    let mut number_of_octets = false;
    let depth = plan.nests.len();
    let large = |rng: &mut Rng| Some(rng.pick(&[Large::AtCount, Large::Far, Large::CountIs0]));
    if refused || rng.chance(15) {
        // One fault, each as often.
        match rng.below(5) {
            0 => plan.no_element = true,
            1 => number_of_octets = true,
            _ if depth == 0 => plan.wrong_count = true,
            2 => plan.wrong_count = true,
            _ => {
                let place = rng.index(depth);
                plan.bad[place] = large(rng);
            }
        }
    } else if depth > 1 && rng.chance(10) {
        // The two innermost.
        plan.bad[depth - 1] = large(rng);
        plan.bad[depth - 2] = large(rng);
        plan.wrong_count = rng.chance(8);
    } else if depth > 0 && rng.chance(7) {
        plan.bad[depth - 1] = large(rng);
    } else if depth > 0 && rng.chance(4) {
        // Three that come together seldom.
        number_of_octets = true;
        plan.wrong_count = true;
        let place = rng.index(depth);
        plan.bad[place] = large(rng);
    } else {
        // None to three.
        for _ in 0..rng.pick(&[0, 0, 1, 1, 1, 2, 2, 2, 3]) {
            match rng.index(4 + 2 * depth) {
                0 => plan.no_element = true,
                1 => number_of_octets = true,
                2 => plan.wrong_count = true,
                3 if depth == 0 => plan.wrong_count = true,
                // The innermost more often than the others.
                3 => plan.bad[depth - 1] = large(rng),
                k => plan.bad[(k - 4) / 2] = large(rng),
            }
        }
    }
    plan.question = if number_of_octets {
        rng.pick(&["number", "writenumber"])
    } else {
        rng.pick(&[
            "where", "where", "where", "number", "number", "octets", "writeoctets", "writeoctets",
            "writenumber", "writenumber",
        ])
    };
    plan.innermost = if plan.no_element && plan.nests.len() < 4 && rng.chance(65) {
        rng.pick(&[Innermost::Array, Innermost::Choice])
    } else if number_of_octets {
        Innermost::Octets
    } else if plan.question == "number" || plan.question == "writenumber" {
        Innermost::Integer
    } else {
        Innermost::Element
    };
    // Of no octets are SETs alone, which have no number.
    plan.huge = plan.huge && plan.innermost != Innermost::Integer;
    plan
}

// ------------------------------------------------------------ descriptions

/// The dimensions of a description, one after another.
struct Fields {
    words: Vec<u32>,
    /// A dimension of four octets whose bits from so many on are free yet.
    shared: Option<(u32, u32)>,
}

impl Fields {
    /// A reference whose value is to be this one: bits of a dimension of their
    /// own, the others being anything, or an octet of one that several share.
    fn reference(&mut self, rng: &mut Rng, maker: &mut Maker, value: u64, huge: bool) -> u32 {
        if let Some((slot, low)) = self.shared {
            if value < 256 && low < 32 && !huge {
                let wish = maker.wishes[slot as usize].unwrap_or(0);
                maker.wishes[slot as usize] = Some(wish | value << low);
                self.shared = Some((slot, low + 8));
                return reference(slot, low, 8);
            }
        }
        let octets = if huge { 4 } else { rng.pick(&[1, 1, 1, 1, 2, 4]) };
        let bits = u64::from(octets * 8);
        let slot = maker.free_slot(rng).unwrap_or(1);
        maker.slots.push((slot, octets));
        self.words.push(uint(octets, slot));
        let least = u64::from(64 - value.leading_zeros()).max(1);
        let width = match huge || rng.chance(30) {
            true => bits,
            false => rng.between(least, bits.min(least + 3)),
        };
        let low = rng.below(bits - width + 1);
        let field = ((1u64 << width) - 1) << low;
        let others = rng.next() & ((1u64 << bits) - 1) & !field;
        maker.wishes[slot as usize] = Some(others | value << low);
        reference(slot, low as u32, width as u32)
    }
}

/// What an item beside the innermost may be.
struct Beside {
    set: u32,
    array: u32,
    huge: bool,
    small: bool,
}

impl Beside {
    fn element(&self, rng: &mut Rng) -> u32 {
        if self.huge {
            return self.set;
        }
        rng.pick(&[uint(1, 0), uint(2, 0), block(1), block(2), self.set])
    }

    /// Items beside others, at least so many; `depth` ARRAYs and choices stand
    /// round them.
    fn some(&self, rng: &mut Rng, least: usize, depth: usize) -> Vec<u32> {
        let number = rng.pick(&[0, 0, 0, 0, 0, 0, 1, 1, 1, 2]).max(least);
        let number = if self.small { least } else { number };
        let mut items = Vec::new();
        for _ in 0..number {
            if depth < 4 && !self.small && rng.chance(12) {
                items.push(self.array | 1);
            }
            items.push(self.element(rng));
        }
        items
    }
}

/// A description as a plan wants it; `small` where one that wasn't took too many
/// octets.
fn made(rng: &mut Rng, plan: &Plan, small: bool) -> Made {
    let mut maker = Maker {
        words: Vec::new(),
        slots: Vec::new(),
        tables: vec![(false, 0)],
        wishes: [None; 64],
        room: 0,
    };
    let first = rng.between(1, 63) as u32;
    maker.slots.push((first, 1));
    let mut fields = Fields { words: Vec::new(), shared: None };
    if rng.chance(25) {
        let slot = maker.free_slot(rng).unwrap_or(1);
        maker.slots.push((slot, 4));
        maker.wishes[slot as usize] = Some(0);
        fields.words.push(uint(4, slot));
        fields.shared = Some((slot, 0));
    }

    // The nests' numbers.
    let arrays = plan.nests.iter().filter(|nest| **nest == Nest::Array).count();
    let references: Vec<u32> = plan
        .nests
        .iter()
        .zip(&plan.bad)
        .map(|(nest, bad)| {
            let truth = if rng.chance(70) { 1 } else { rng.between(1, 7) };
            let value = match (nest, bad) {
                (Nest::Array, Some(Large::CountIs0)) => 0,
                (Nest::Array, _) if plan.huge => {
                    rng.pick(&[0xffff_ffff, 0xffff_ffff, 0x8000_0000, 0x1_0001, 0x1_0000])
                }
                (Nest::Array, _) if small => rng.pick(&[1, 2]),
                (Nest::Array, _) if arrays > 2 => rng.pick(&[1, 2, 2, 2, 3]),
                (Nest::Array, _) => rng.pick(&[1, 2, 2, 3, 3, 4, 5]),
                (Nest::True, None) | (Nest::False, Some(_)) => truth,
                (Nest::True, Some(_)) | (Nest::False, None) => 0,
            };
            let huge = plan.huge && *nest == Nest::Array;
            fields.reference(rng, &mut maker, value, huge)
        })
        .collect();
    let flags = rng.chance(50);
    let octets = if plan.huge { 0 } else { rng.pick(&[0, 1, 1, 2, 3]) };
    let value = if flags { octets * 8 } else { octets };
    let size = fields.reference(rng, &mut maker, value, false);
    let count = rng.pick(&[0, 1, 1, 2]);
    let own = fields.reference(rng, &mut maker, count, false);
    let set = set(size, flags);
    let beside = Beside { set, array: array(own, 0), huge: plan.huge, small };

    // From the inside out.
    let integers = [uint(1, 0), uint(2, 0), uint(4, 0)];
    let some_block = block(rng.between(1, 3) as u32);
    let element = match plan.huge {
        true => set,
        false => rng.pick(&[uint(1, 0), uint(2, 0), uint(4, 0), some_block, set]),
    };
    let mut words = match plan.innermost {
        Innermost::Integer => vec![rng.pick(&integers)],
        Innermost::Element => vec![element],
        Innermost::Octets if plan.huge => vec![set],
        Innermost::Octets => vec![rng.pick(&[some_block, set])],
        Innermost::Array => vec![array(own, 1), beside.element(rng)],
        Innermost::Choice => vec![if_item(own, 1, 0), beside.element(rng)],
    };
    let mut place = 0;
    for (k, (nest, bits)) in plan.nests.iter().zip(&references).enumerate().rev() {
        let (before, after) = (beside.some(rng, 0, k + 1), beside.some(rng, 0, k + 1));
        place += before.len();
        let body = [before, words, after].concat();
        words = match nest {
            Nest::Array => {
                place += 1;
                [vec![array(*bits, body.len())], body].concat()
            }
            Nest::True => {
                let others = beside.some(rng, 0, k + 1);
                place += 1;
                [vec![if_item(*bits, body.len(), others.len())], body, others].concat()
            }
            Nest::False => {
                let others = beside.some(rng, 1, k + 1);
                place += 1 + others.len();
                [vec![if_item(*bits, others.len(), body.len())], others, body].concat()
            }
        };
    }

    // The tables: dimensions in table 00, the others in the item's own table or
    // in one between the two.
    let split = if rng.chance(50) { fields.words.len() } else { rng.index(fields.words.len() + 1) };
    let (in_first, rest) = fields.words.split_at(split);
    maker.words.push(table(false, 0, rng.chance(50), 1 + in_first.len()));
    maker.words.push(uint(1, first));
    maker.words.extend_from_slice(in_first);
    let mut before = rest.to_vec();
    if rng.chance(30) {
        maker.new_table(rng, rest.len());
        maker.words.append(&mut before);
    }
    before.extend(beside.some(rng, 0, 0));
    let after = beside.some(rng, 0, 0);
    maker.new_table(rng, before.len() + words.len() + after.len());
    let item = maker.words.len() + before.len() + place;
    for part in [before, words, after] {
        maker.words.extend(part);
    }
    if rng.chance(20) {
        let items = beside.some(rng, 1, 0);
        maker.new_table(rng, items.len());
        maker.words.extend(items);
    }
    let is_dimension = |word: u32| word >> 28 == 2 && (word >> 20) & 63 != 0;
    let dimensions = (0..maker.words.len()).filter(|i| is_dimension(maker.words[*i])).collect();
    Made { maker, item, dimensions }
}

/// An image for a description, as long as its total; none where that is over
/// the cap.
fn whole_image(rng: &mut Rng, made: &Made, cap: u64) -> Option<(Vec<u8>, Vec<u8>)> {
    let d = octets_of_words(&made.maker.words);
    let items = description::check(&d).ok()?;
    let wishes = &made.maker.wishes;
    let mut builder =
        Builder { items: &items, wishes, image: Vec::new(), dimensions: [None; 64], cap };
    let mut place = 0;
    while place < items.len() {
        let next = after(&items, place);
        if !builder.body(rng, place + 1, next) {
            return None;
        }
        place = next;
    }
    let image = builder.image;
    Some((d, image))
}

// ------------------------------------------------------------------- names

/// A number that isn't below a count.
fn far_past(rng: &mut Rng, count: u64) -> u64 {
    let low = if count == 0 { 0 } else { rng.below(count) };
    match rng.below(6) {
        0 => count.saturating_add(rng.between(1, 4)),
        1 => u64::MAX,
        // Numbers that end as one below the count.
        2 => (1 << 32) + low,
        3 => (1 << 63) + low,
        4 if count <= 256 => 256 + low,
        _ => count.max(1).saturating_mul(rng.between(2, 1000)),
    }
}

/// A count of subscripts that isn't `arrays`.
fn wrong_count(rng: &mut Rng, arrays: u64) -> u64 {
    let count = match rng.below(12) {
        0..=2 => arrays.wrapping_sub(1),
        3..=5 => arrays + 1,
        6 => rng.below(5),
        7 => 5 + rng.below(4),
        8..=10 => (1 << 32) + arrays,
        _ => u64::MAX - rng.below(3),
    };
    if count == arrays || arrays == 0 && count == u64::MAX {
        arrays + 1
    } else {
        count
    }
}

/// Item, count and subscripts, as a plan wants them.
fn some_name_for(rng: &mut Rng, plan: &Plan, laid: &Layout, target: usize) -> (u64, u64, [u64; 4]) {
    let mut item = target as u64;
    if plan.no_element && !matches!(plan.innermost, Innermost::Array | Innermost::Choice) {
        let round = bodies_round(&laid.items, target);
        let last = laid.items.len() as u64;
        item = match rng.below(10) {
            // A TABLE, or what stands next round it.
            0..=2 => rng.pick(&laid.tables).item as u64,
            3..=5 => round.last().map_or(0, |body| body.owner as u64),
            6 => last,
            _ => match rng.below(4) {
                0 => rng.between(last + 1, 513),
                1 => (1 << 32) + item,
                2 => 65_536 + item,
                _ => rng.pick(&[u64::MAX, u64::MAX, u64::MAX - 1]),
            },
        };
    }
    // The ARRAYs round what is named, or would be.
    let of = if item < laid.items.len() as u64 { item as usize } else { target };
    let mut subscripts = [0u64; 4];
    let mut arrays = 0;
    let mut good = Vec::new();
    for body in bodies_round(&laid.items, of) {
        if let Item::Array { reference, .. } = laid.items[body.owner] {
            good.push(value_of(reference, &laid.dimensions).unwrap_or(0));
        }
    }
    let of_arrays =
        plan.nests.iter().zip(&plan.bad).filter(|(nest, _)| **nest == Nest::Array);
    let mut bad: Vec<Option<Large>> = of_arrays.map(|(_, bad)| *bad).collect();
    bad.resize(4, None);
    let style = rng.below(4);
    for (count, bad) in good.iter().zip(bad) {
        subscripts[arrays] = match bad {
            Some(Large::AtCount) => *count,
            Some(Large::Far) => far_past(rng, *count),
            Some(Large::CountIs0) if rng.chance(30) => far_past(rng, *count),
            Some(Large::CountIs0) => rng.below(2),
            None => match style {
                0 => 0,
                1 => count.saturating_sub(1),
                _ => rng.below(*count),
            },
        };
        arrays += 1;
    }
    // Places past the count aren't read.
    for subscript in &mut subscripts[arrays..] {
        if rng.chance(30) {
            *subscript = any_number(rng);
        }
    }
    let count =
        if plan.wrong_count { wrong_count(rng, arrays as u64) } else { arrays as u64 };
    (item, count, subscripts)
}

// ---------------------------------------------------------------- requests

/// Octets to be written to an item, or the number; of the right length or not.
fn lent(rng: &mut Rng, question: &str, laid: &Layout, item: u64) -> String {
    let octets = match laid.items.get(item.min(512) as usize) {
        Some(_) => item_size(&laid.items, item as usize, &laid.dimensions).unwrap_or(1).min(40),
        None => 1,
    };
    if question == "writeoctets" {
        let length = match rng.below(10) {
            0 => octets + 1,
            1 => octets.saturating_sub(1),
            2 => rng.below(5),
            _ => octets,
        };
        return data(rng, length as usize);
    }
    let limit = 1u64 << (8 * octets.clamp(1, 4));
    let value = match rng.below(10) {
        0 => limit,
        1 => limit - 1,
        2 => u64::MAX - rng.below(3),
        3 => (limit << rng.below(30)) + rng.below(256),
        _ => rng.below(limit),
    };
    value.to_string()
}

fn line(
    rng: &mut Rng,
    question: &str,
    words: &str,
    laid: &Layout,
    name: (u64, u64, [u64; 4]),
) -> String {
    let (item, count, s) = name;
    let name = format!("{item} {count} {} {} {} {}", s[0], s[1], s[2], s[3]);
    match question {
        "writeoctets" | "writenumber" => {
            format!("{question} {words} {name} {}", lent(rng, question, laid, item))
        }
        _ => format!("{question} {words} {name}"),
    }
}

/// A description that breaks rule `rule`, mostly in items after all others; or
/// an image that is 8 or 9.
fn break_rule(rng: &mut Rng, rule: u64, d: &mut Vec<u8>, m: &mut Vec<u8>, words: &[u32]) {
    let mut words = words.to_vec();
    match rule {
        1 => {
            match rng.below(4) {
                0 => d.truncate(d.len() - 1 - rng.index(3)),
                1 if rng.chance(5) => d.clear(),
                1 if rng.chance(5) => d.resize(2052, 0x20),
                _ => {
                    for _ in 0..1 + rng.below(3) {
                        d.push(rng.octet());
                    }
                }
            }
            return;
        }
        2 if rng.chance(20) => {
            let some = rng.index(words.len());
            words[some] = rng.pick(&[0, 7, 8, 15]) << 28 | words[some] & 0x0fff_ffff;
        }
        2 => {
            words.push(table(true, 1993, true, 1));
            words.push(rng.pick(&[
                0x2c00_0000, 0x3000_0000, 0x4000_0000, 0x5040_0000, 0x6040_0001, 0x5000_0001,
                0x2000_0001, 0x3001_8000, 0x7000_0000, 0,
            ]));
        }
        3 => words.push(rng.pick(&[uint(1, 0), block(1), uint(2, 0)])),
        4 if rng.chance(20) => {
            words.pop();
        }
        4 => words.push(table(true, 1991, true, 1)),
        5 => five_deep(rng, &mut words),
        6 => words.push(table(false, 0, false, 0)),
        7 => {
            words.push(table(true, 1992, false, 2));
            words.push(uint(1, 0));
            // The first slot has eight bits.
            words.push(set(reference((words[1] >> 20) & 63, 1, 8), false));
        }
        8 => {
            m.resize(rng.pick(&[65_536, 65_536, 65_537, 65_540]), 0x5a);
            return;
        }
        _ => {
            let length = if rng.chance(60) { m.len() - 1 } else { rng.index(m.len()) };
            m.truncate(length);
            return;
        }
    }
    *d = octets_of_words(&words);
}

/// A request about an element.
pub fn request(rng: &mut Rng) -> String {
    let damage = match rng.below(3000) {
        0 => Some(8),
        1..=360 => Some(rng.pick(&[1, 2, 3, 4, 5, 6, 7, 9])),
        _ => None,
    };
    let plan = some_plan(rng, damage.is_some());
    let mut small = false;
    let (made, mut d, mut m) = loop {
        let made = made(rng, &plan, small);
        if let Some((d, m)) = whole_image(rng, &made, 300) {
            break (made, d, m);
        }
        small = true;
    };
    let laid = match lay_out(&d, &m) {
        Ok(laid) => laid,
        Err(_) => return format!("layout {} {}", hex(&d), hex(&m)),
    };
    if let Some(rule) = damage {
        break_rule(rng, rule, &mut d, &mut m, &made.maker.words);
    } else if rng.chance(20) {
        for _ in 0..1 + rng.below(3) {
            m.push(rng.octet());
        }
    }
    let words = format!("{} {}", hex(&d), hex(&m));
    match rng.below(20) {
        // A dimension, written.
        0 => {
            let item = rng.pick(&made.dimensions) as u64;
            let count = if rng.chance(30) { 0 } else { wrong_count(rng, 0) };
            let question = rng.pick(&["writeoctets", "writenumber"]);
            line(rng, question, &words, &laid, (item, count, [0; 4]))
        }
        // Any item of the description.
        1 => {
            let item = rng.index(laid.items.len());
            let name = some_name_for(rng, &plan, &laid, item);
            line(rng, plan.question, &words, &laid, name)
        }
        _ => {
            let name = some_name_for(rng, &plan, &laid, made.item);
            line(rng, plan.question, &words, &laid, name)
        }
    }
}

// ------------------------------------------------------------------- tests

#[cfg(test)]
mod tests {
    use super::*;

    #[test]
    fn descriptions_pass_and_images_lay_out() {
        let mut lists = std::collections::HashSet::new();
        for seed in 0..20_000 {
            let mut rng = Rng(seed << 20);
            let plan = some_plan(&mut rng, false);
            let made = made(&mut rng, &plan, true);
            let (d, m) = whole_image(&mut rng, &made, 300).expect("an image");
            let laid = lay_out(&d, &m).expect("laid out");
            assert_eq!(laid.total, m.len() as u64);
            // What stands round the item is what was planned.
            let round: Vec<u8> = bodies_round(&laid.items, made.item)[1..]
                .iter()
                .map(|body| match laid.items[body.owner] {
                    Item::Array { .. } => 0,
                    _ if body.is_false_body => 2,
                    _ => 1,
                })
                .collect();
            let planned: Vec<u8> = plan.nests.iter().map(|nest| *nest as u8).collect();
            assert_eq!(round, planned, "seed {seed}");
            lists.insert(planned);
        }
        assert_eq!(lists.len(), 121);
    }

    #[test]
    fn lines_are_short() {
        let mut octets = 0;
        for seed in 0..20_000 {
            let line = request(&mut Rng(seed << 20));
            assert!(!line.starts_with("layout"), "{line}");
            octets += line.len();
        }
        assert!(octets < 20_000 * 500, "{octets}");
    }
}
