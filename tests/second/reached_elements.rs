//! What requests of the kind elements reach:
//!
//!     paste -d '\t' requests replies | reached_elements [all]
//!
//! counts, from the requests and the second program's replies, how often each
//! case that is wanted came. Prints for each group of cases how many there are
//! and the rarest beside what is wanted of it; with all, every count.
//! Of 200,000 requests and more, fails where a case came too seldom.
//!
//! What is to be told is worked out here once more, in another way than in the
//! second program: all faults of a name are listed, each with its rank in the
//! order of document 02's E4, and the one of the lowest rank is told. So it is
//! known which faults come together. Slips are cases too: orders and depths that
//! are easy to get wrong, of each how many requests a program that slips there
//! would answer otherwise.

#![allow(dead_code)]

#[path = "src/description.rs"]
mod description;
#[path = "src/layout.rs"]
mod layout;
#[path = "src/refusal.rs"]
mod refusal;

mod cases;

use cases::Cases;
use description::{after, bodies_round, check, Item};
use layout::{body_size, item_size, lay_out, number_of, value_of, Layout};
use refusal::Refusal;

/// So many requests are to reach every case.
const ENOUGH: u64 = 200_000;

/// How many cases there are.
const CASES: usize = 435;

/// How often a case is to come.
const LEAST: u64 = 300;

/// Images over 65,535 octets make long lines, and are fewer.
const LEAST_LONG: u64 = 4;

const QUESTIONS: [&str; 5] = ["where", "octets", "number", "writeoctets", "writenumber"];

#[derive(Clone, Copy, PartialEq, Eq)]
enum Slip {
    Nowhere,
    Told11,
    // The order.
    CountBeforeNumber,
    NumberLast,
    CountLast,
    CountBeforeItem,
    NumberBeforeItem,
    SubscriptsBeforeBranches,
    BranchesBeforeSubscripts,
    InsideOut,
    EmptyIs23,
    WritableFirst,
    // The depth.
    FromTheInside,
    ChoicesCounted,
    Always0,
    From1,
    DepthOf23,
    // What is compared.
    AtCountTaken,
    SidesExchanged,
    OnlyOneIsTrue,
    NumberOfOctets,
    OverFourTaken,
    FewTaken,
    ItemOf32Bits,
    CountOf32Bits,
    SubscriptOf32Bits,
    SubscriptOf8Bits,
}

use Slip::*;

const SLIPS: [(Slip, &str); 26] = [
    (Told11, "11 told"),
    (CountBeforeNumber, "24 before 26"),
    (NumberLast, "26 after 24, 23 and 25"),
    (CountLast, "24 after 23 and 25"),
    (CountBeforeItem, "24 before 22"),
    (NumberBeforeItem, "26 before 22"),
    (SubscriptsBeforeBranches, "25 told where a branch outside isn't chosen"),
    (BranchesBeforeSubscripts, "23 told where a subscript outside is too large"),
    (InsideOut, "from the inside out"),
    (EmptyIs23, "23 for an array of count 0"),
    (WritableFirst, "13 before 22 to 26"),
    (FromTheInside, "depth counted from the inside"),
    (ChoicesCounted, "depth with choices counted"),
    (Always0, "depth always 0"),
    (From1, "depth from 1"),
    (DepthOf23, "a depth told with 23"),
    (AtCountTaken, "a subscript at its count taken"),
    (SidesExchanged, "true and false items exchanged"),
    (OnlyOneIsTrue, "1 alone taken for true"),
    (NumberOfOctets, "a number of a BLOCK or SET given"),
    (OverFourTaken, "counts over four taken for four"),
    (FewTaken, "too few subscripts made whole with 0"),
    (ItemOf32Bits, "item number cut to 32 bits"),
    (CountOf32Bits, "count of subscripts cut to 32 bits"),
    (SubscriptOf32Bits, "subscripts cut to 32 bits"),
    (SubscriptOf8Bits, "subscripts cut to 8 bits"),
];

// ---------------------------------------------------------------- requests

fn octets(word: &str) -> Option<Vec<u8>> {
    if word == "-" {
        return Some(Vec::new());
    }
    let digits = word.as_bytes();
    let value = |digit: u8| char::from(digit).to_digit(16).map(|value| value as u8);
    digits.chunks(2).map(|pair| Some(value(pair[0])? * 16 + value(*pair.get(1)?)?)).collect()
}

fn hex(octets: &[u8]) -> String {
    if octets.is_empty() {
        return String::from("-");
    }
    octets.iter().map(|octet| format!("{octet:02x}")).collect()
}

/// A request: what is asked of which name.
struct Asked<'a> {
    question: &'a str,
    item: u64,
    count: u64,
    subscripts: [u64; 4],
    data: Vec<u8>,
    value: u64,
}

impl<'a> Asked<'a> {
    fn of_number(&self) -> bool {
        self.question == "number" || self.question == "writenumber"
    }

    fn is_write(&self) -> bool {
        self.question == "writeoctets" || self.question == "writenumber"
    }
}

fn read<'a>(words: &[&'a str]) -> Option<Asked<'a>> {
    let numbers: Option<Vec<u64>> = words.get(3..9)?.iter().map(|word| word.parse().ok()).collect();
    let n = numbers?;
    let question = words[0];
    let mut asked = Asked {
        question,
        item: n[0],
        count: n[1],
        subscripts: [n[2], n[3], n[4], n[5]],
        data: Vec::new(),
        value: 0,
    };
    match question {
        "writeoctets" => asked.data = octets(words.get(9)?)?,
        "writenumber" => asked.value = words.get(9)?.parse().ok()?,
        _ => {}
    }
    Some(asked)
}

// ------------------------------------------------------------------ faults

/// What stands round an item.
#[derive(Clone, Copy, PartialEq, Eq)]
enum Round {
    Array { count: u64 },
    Choice { of_true: bool, value: u64 },
}

/// Why there is no such element, one reason of maybe many.
#[derive(Clone, Copy, PartialEq, Eq)]
struct Fault {
    rank: u64,
    no: u64,
    depth: u64,
    /// Which of what stands round the item refuses, for 23 and 25.
    place: usize,
}

/// The items of a description that are known, and the dimensions' numbers.
struct Known<'a> {
    laid: &'a Layout,
}

impl<'a> Known<'a> {
    fn round(&self, i: usize) -> Vec<Round> {
        let value = |reference| value_of(reference, &self.laid.dimensions).unwrap_or(0);
        bodies_round(&self.laid.items, i)
            .iter()
            .filter_map(|body| match self.laid.items[body.owner] {
                Item::Array { reference, .. } => Some(Round::Array { count: value(reference) }),
                Item::If { reference, .. } => Some(Round::Choice {
                    of_true: !body.is_false_body,
                    value: value(reference),
                }),
                _ => None,
            })
            .collect()
    }

    /// All that is wrong with a name.
    fn faults(&self, asked: &Asked, slip: Slip) -> Vec<Fault> {
        let cut = |value: u64, with: Slip, bits: u32| match slip == with {
            true => value & ((1u64 << bits) - 1),
            false => value,
        };
        let mut faults = Vec::new();
        let mut add = |rank, no, depth, place| faults.push(Fault { rank, no, depth, place });
        let number = cut(asked.item, ItemOf32Bits, 32);
        let item = match self.laid.items.get(number.min(512) as usize) {
            Some(item) => *item,
            None => {
                add(10, 22, 0, 0);
                return faults;
            }
        };
        let is_element =
            matches!(item, Item::Uint { .. } | Item::Block { .. } | Item::Set { .. });
        if !is_element {
            add(10, 22, 0, 0);
        }
        if asked.of_number() && !matches!(item, Item::Uint { .. }) && slip != NumberOfOctets {
            let rank = match slip {
                NumberLast => 900,
                NumberBeforeItem => 1,
                _ => 20,
            };
            add(rank, 26, 0, 0);
        }
        let round = self.round(number as usize);
        let arrays = round.iter().filter(|what| matches!(what, Round::Array { .. })).count() as u64;
        let mut count = cut(asked.count, CountOf32Bits, 32);
        if slip == OverFourTaken {
            count = count.min(4);
        }
        if slip == FewTaken && count < arrays {
            count = arrays;
        }
        if count != arrays {
            let rank = match slip {
                CountBeforeItem => 1,
                CountBeforeNumber => 15,
                CountLast => 800,
                _ => 30,
            };
            add(rank, 24, 0, 0);
        }
        let mut depth = 0;
        for (place, what) in round.iter().enumerate() {
            let mut rank = 100 + place as u64;
            if slip == InsideOut {
                rank = 200 - place as u64;
            }
            match what {
                Round::Choice { of_true, value } => {
                    let truth = if slip == OnlyOneIsTrue { *value == 1 } else { *value != 0 };
                    if (*of_true == truth) == (slip == SidesExchanged) {
                        let told = if slip == DepthOf23 { depth } else { 0 };
                        let sooner = if slip == BranchesBeforeSubscripts { 50 } else { 0 };
                        add(rank - sooner, 23, told as u64, place);
                    }
                }
                Round::Array { count: of } => {
                    // Places past the count aren't read.
                    let given = depth < asked.count.min(4) as usize;
                    let subscript = match asked.subscripts.get(depth) {
                        Some(subscript) if given => *subscript,
                        _ => 0,
                    };
                    let subscript =
                        cut(cut(subscript, SubscriptOf32Bits, 32), SubscriptOf8Bits, 8);
                    let least = if slip == AtCountTaken { of.saturating_add(1) } else { *of };
                    if (given || slip == FewTaken) && subscript >= least {
                        let told = match slip {
                            FromTheInside => arrays as usize - 1 - depth,
                            ChoicesCounted => place,
                            Always0 => 0,
                            From1 => depth + 1,
                            _ => depth,
                        };
                        let sooner = if slip == SubscriptsBeforeBranches { 50 } else { 0 };
                        let (no, told) =
                            if slip == EmptyIs23 && *of == 0 { (23, 0) } else { (25, told) };
                        add(rank - sooner, no, told as u64, place);
                    }
                    depth += 1;
                }
            }
        }
        faults
    }

    /// The number and the depth told of a name; none where it is granted.
    fn told(&self, asked: &Asked, slip: Slip) -> Option<(u64, u64)> {
        if slip == WritableFirst && asked.is_write() && self.writable(asked.item) == Some(false) {
            return Some((13, 0));
        }
        let faults = self.faults(asked, slip);
        let first = faults.iter().min_by_key(|fault| fault.rank)?;
        match slip {
            Told11 => Some((11, 0)),
            _ => Some((first.no, first.depth)),
        }
    }

    /// Whether the table that holds an item, or is it, is marked writable.
    fn writable(&self, item: u64) -> Option<bool> {
        let items = &self.laid.items;
        let i = usize::try_from(item).ok().filter(|i| *i < items.len())?;
        let owner = bodies_round(items, i).first().map_or(i, |body| body.owner);
        match items[owner] {
            Item::Table { writable, .. } => Some(writable),
            _ => None,
        }
    }

    /// Where an element is that has no fault: from its table's start on, body by
    /// body, what stands before it.
    fn place(&self, asked: &Asked) -> Option<(usize, usize)> {
        let (items, dimensions) = (&self.laid.items, &self.laid.dimensions);
        let i = asked.item as usize;
        let round = bodies_round(items, i);
        let table = self.laid.tables.iter().find(|table| table.item == round[0].owner)?;
        let mut at = table.start;
        let mut depth = 0;
        for (k, body) in round.iter().enumerate() {
            if let Item::Array { .. } = items[body.owner] {
                let each = body_size(items, body.start, body.end, dimensions).ok()?;
                at += asked.subscripts[depth].checked_mul(each)?;
                depth += 1;
            }
            let next = round.get(k + 1).map_or(i, |inner| inner.owner);
            let mut place = body.start;
            while place < next {
                at += item_size(items, place, dimensions).ok()?;
                place = after(items, place);
            }
        }
        Some((at as usize, item_size(items, i, dimensions).ok()? as usize))
    }

    fn is_dimension(&self, item: u64) -> bool {
        let item = self.laid.items.get(item.min(512) as usize);
        matches!(item, Some(Item::Uint { slot, .. }) if *slot != 0)
    }

    /// The whole reply, where there is such an element.
    fn granted(&self, asked: &Asked, image: &[u8]) -> Option<String> {
        let (at, length) = self.place(asked)?;
        let part = &image[at..at + length];
        let first = self.laid.most_significant_first;
        let write = |data: Option<Vec<u8>>| {
            let no = if self.writable(asked.item) == Some(false) {
                13
            } else if self.is_dimension(asked.item) {
                14
            } else if data.is_none() {
                15
            } else {
                0
            };
            let mut later = image.to_vec();
            if let (0, Some(data)) = (no, data) {
                later[at..at + length].copy_from_slice(&data);
            }
            format!("{no} 0 0 0 {}", hex(&later))
        };
        Some(match asked.question {
            "where" => format!("0 0 0 0 {at} {length}"),
            "octets" => hex(part),
            "number" => format!("0 0 0 0 {}", number_of(part, first)),
            "writeoctets" => write(Some(asked.data.clone()).filter(|data| data.len() == length)),
            _ => {
                let mut data = asked.value.to_le_bytes()[..length].to_vec();
                let fits = asked.value >> (8 * length) == 0;
                if first {
                    data.reverse();
                }
                write(Some(data).filter(|_| fits))
            }
        })
    }
}

/// A reply that refuses.
fn refusal_text(asked: &Asked, refusal: Refusal, image: &[u8]) -> String {
    let Refusal { no, item, octet, depth } = refusal;
    let head = format!("{no} {item} {octet} {depth}");
    match asked.question {
        "where" => format!("{head} 0 0"),
        "octets" => String::from("-"),
        "number" => format!("{head} 0"),
        _ => format!("{head} {}", hex(image)),
    }
}

// ------------------------------------------------------------------ counts

const SIDES: [&str; 2] = ["false", "true"];
const LARGE: [&str; 3] = ["at its count", "far past it", "of a count of 0"];
const COUNTS: [&str; 4] = ["one too few", "one too many", "over four", "2^32 too many"];
const KINDS: [&str; 6] =
    ["UINT of 1", "UINT of 2", "UINT of 4", "BLOCK", "SET of octets", "SET of flags"];

fn kind_of(item: Item) -> Option<&'static str> {
    Some(match item {
        Item::Uint { octets: 1, .. } => KINDS[0],
        Item::Uint { octets: 2, .. } => KINDS[1],
        Item::Uint { .. } => KINDS[2],
        Item::Block { .. } => KINDS[3],
        Item::Set { flags: false, .. } => KINDS[4],
        Item::Set { .. } => KINDS[5],
        _ => return None,
    })
}

/// The name of a list of what stands round an item.
fn mixture(round: &[Round]) -> String {
    let letters: String = round
        .iter()
        .map(|what| match what {
            Round::Array { .. } => 'A',
            Round::Choice { of_true: true, .. } => 'T',
            Round::Choice { .. } => 'F',
        })
        .collect();
    if letters.is_empty() {
        String::from("nothing")
    } else {
        letters
    }
}

/// The names of all mixtures, to four deep.
fn mixtures() -> Vec<String> {
    let mut all = vec![String::new()];
    let mut first = 0;
    for _ in 0..4 {
        let last = all.len();
        for k in first..last {
            for letter in ["A", "T", "F"] {
                let longer = format!("{}{letter}", all[k]);
                all.push(longer);
            }
        }
        first = last;
    }
    all[0] = String::from("nothing");
    all
}

struct Counts {
    told: Cases,
    no_element: Cases,
    branches: Cases,
    counts: Cases,
    subscripts: Cases,
    numbers: Cases,
    together: Cases,
    sooner: Cases,
    granted: Cases,
    mixtures: Cases,
    slips: Cases,
}

impl Counts {
    /// Puts every case that is wanted on its list.
    fn wanted(&mut self) {
        for question in QUESTIONS {
            for no in [22, 23, 24, 25] {
                self.told.add(&format!("{question} {no}"), LEAST, 0);
            }
            self.told.add(&format!("{question} granted"), LEAST, 0);
            if question.contains("number") {
                self.told.add(&format!("{question} 26"), LEAST, 0);
            }
            if question.contains("write") {
                for no in [13, 14, 15] {
                    self.told.add(&format!("{question} {no}"), LEAST, 0);
                }
            }
        }
        for depth in 0..4 {
            for question in ["where", "number", "writeoctets", "writenumber"] {
                self.told.add(&format!("{question} 25 at depth {depth}"), LEAST, 0);
            }
        }
        let past = ["just past the last", "far past the last", "2^64 - 1", "2^32 past one"];
        self.no_element.add("a TABLE", LEAST, 0);
        for name in past {
            self.no_element.add(name, LEAST, 0);
        }
        for k in 0..4 {
            for name in ["an ARRAY", "an IF"] {
                self.no_element.add(&format!("{name} in {k} ARRAYs"), LEAST, 0);
            }
            for side in SIDES {
                self.branches.add(&format!("{side} items, {k} ARRAYs outside"), LEAST, 0);
            }
            for large in LARGE {
                self.subscripts.add(&format!("depth {k}, {large}"), LEAST, 0);
            }
            for choices in 0..4 - k {
                self.subscripts.add(&format!("depth {k}, {choices} choices outside"), LEAST, 0);
            }
            for inner in 0..3 - k {
                self.subscripts.add(&format!("depth {k}, {} ARRAYs inside", inner + 1), LEAST, 0);
            }
        }
        self.subscripts.add("2^64 - 1", LEAST, 0);
        self.subscripts.add("a count of 2^16 and more", LEAST, 0);
        for k in 0..5 {
            for (name, count) in COUNTS.iter().enumerate() {
                if k > 0 || name > 0 {
                    self.counts.add(&format!("{k} ARRAYs, {count}"), LEAST, 0);
                }
            }
            for kind in ["BLOCK", "SET"] {
                for question in ["number", "writenumber"] {
                    self.numbers.add(&format!("{question} of a {kind} in {k} ARRAYs"), LEAST, 0);
                }
            }
            for name in ["first subscripts", "last subscripts"] {
                if k > 0 {
                    self.granted.add(&format!("{k} ARRAYs, {name}"), LEAST, 0);
                }
            }
            self.granted.add(&format!("{k} ARRAYs, no choice"), LEAST, 0);
            for side in SIDES {
                if k < 4 {
                    self.granted.add(&format!("{k} ARRAYs, {side} items"), LEAST, 0);
                }
            }
            if k > 0 {
                self.granted.add(&format!("{k} choices, no ARRAY"), LEAST, 0);
            }
        }
        for kind in KINDS {
            for no in [23, 24, 25] {
                self.told.add(&format!("{no} of a {kind}"), LEAST, 0);
            }
            self.granted.add(kind, LEAST, 0);
        }
        for name in [
            "22 with 24", "22 with 26", "22 with 23", "22 with 25", "26 with 24", "26 with 23",
            "26 with 25", "24 with 23", "24 with 25", "23 outside 25", "25 outside 23",
            "25 outside 25", "23 outside 23", "23 of a choice inside another, that is chosen",
            "number asked of an ARRAY", "number asked of an IF", "number asked of a TABLE",
            "number written to an ARRAY", "number written to an IF", "number written to a TABLE",
            "26 with 24, too few", "26 with 24, too many", "26 with 24 and 23", "26 with 24 and 25",
            "24 with 23 and 25", "an ARRAY in a branch not chosen", "an IF in a branch not chosen",
            "23 with an ARRAY of count 0 inside", "25 of count 0 with a branch not chosen inside",
            "25 outside 23, a choice between", "25 outside 25, a choice between",
            "23 outside 25, an ARRAY between",
        ] {
            self.together.add(name, LEAST, 0);
        }
        for depth in 0..3 {
            self.together.add(&format!("25 at depth {depth} outside 23"), LEAST, 0);
            self.together.add(&format!("25 at depth {depth} outside 25"), LEAST, 0);
            self.together.add(&format!("23, {depth} ARRAYs outside, outside 25"), LEAST, 0);
        }
        for no in [22, 23, 24, 25, 26] {
            self.sooner.add(&format!("{no} before 13"), LEAST, 0);
            for early in 1..10 {
                let least = if early == 8 { LEAST_LONG } else { LEAST };
                self.sooner.add(&format!("{early} before {no}"), least, 0);
            }
        }
        self.sooner.add("24 before 14", LEAST, 0);
        for no in [23, 24, 25] {
            for question in ["writeoctets", "writenumber"] {
                self.sooner.add(&format!("{no} before 15, {question}"), LEAST, 0);
            }
        }
        for no in [22, 26] {
            self.sooner.add(&format!("{no} with a number that no UINT takes"), LEAST, 0);
        }
        for name in mixtures() {
            self.mixtures.add(&name, LEAST, 0);
        }
        for (_, name) in SLIPS {
            self.slips.add(name, LEAST, 0);
        }
    }

    fn request(&mut self, request: &str, reply: &str) -> Result<(), String> {
        let words: Vec<&str> = request.split(' ').collect();
        if !QUESTIONS.contains(&words[0]) {
            return Err(String::from("no question about an element"));
        }
        let unread = || String::from("words that can't be read");
        let asked = read(&words).ok_or_else(unread)?;
        let d = octets(words[1]).ok_or_else(unread)?;
        let image = octets(words[2]).ok_or_else(unread)?;
        let otherwise = || format!("not the second program's reply, {reply:.60}");
        let laid = match lay_out(&d, &image) {
            Ok(laid) => laid,
            Err(refusal) => {
                if reply != refusal_text(&asked, refusal, &image) {
                    return Err(otherwise());
                }
                self.refused_before(&asked, refusal.no, &d, &image);
                return Ok(());
            }
        };
        let known = Known { laid: &laid };
        let told = known.told(&asked, Nowhere);
        let right = match told {
            Some((no, depth)) => {
                let refusal = Refusal { no, item: 0, octet: 0, depth };
                refusal_text(&asked, refusal, &image)
            }
            None => known.granted(&asked, &image).ok_or_else(unread)?,
        };
        if right != reply {
            return Err(otherwise());
        }
        match told {
            Some((no, depth)) => self.refused(&known, &asked, no, depth),
            None => self.granted(&known, &asked, reply),
        }
        if asked.question != "octets" {
            for (slip, name) in SLIPS {
                if known.told(&asked, slip) != told {
                    self.slips.add(name, LEAST, 1);
                }
            }
        }
        Ok(())
    }

    /// 1 to 9, with the cause that the name would be refused for: by the longest
    /// part of the description that is sound, and the image made longer with
    /// zeros, or cut.
    fn refused_before(&mut self, asked: &Asked, early: u64, d: &[u8], image: &[u8]) {
        let mut length = d.len().min(2048) / 4 * 4;
        while length > 0 && check(&d[..length]).is_err() {
            length -= 4;
        }
        let mut image = image.to_vec();
        image.resize(65_535, 0);
        if let Ok(laid) = lay_out(&d[..length], &image) {
            if let Some((no, _)) = (Known { laid: &laid }).told(asked, Nowhere) {
                let least = if early == 8 { LEAST_LONG } else { LEAST };
                self.sooner.add(&format!("{early} before {no}"), least, 1);
            }
        }
    }

    fn refused(&mut self, known: &Known, asked: &Asked, no: u64, depth: u64) {
        let faults = known.faults(asked, Nowhere);
        let question = asked.question;
        self.told.add(&format!("{question} {no}"), LEAST, 1);
        if no == 25 && question != "octets" {
            self.told.add(&format!("{question} 25 at depth {depth}"), LEAST, 1);
        }
        let item = known.laid.items.get(asked.item.min(512) as usize).copied();
        let round = match item {
            Some(_) => known.round(asked.item as usize),
            None => Vec::new(),
        };
        let arrays = round.iter().filter(|what| matches!(what, Round::Array { .. })).count() as u64;
        if let (Some(kind), 23..=25) = (item.and_then(kind_of), no) {
            self.told.add(&format!("{no} of a {kind}"), LEAST, 1);
        }
        let last = known.laid.items.len() as u64;
        match (no, item) {
            (22, None) => {
                let n = &mut self.no_element;
                let mut came = |name, came| n.add(name, LEAST, u64::from(came));
                came("just past the last", asked.item == last);
                came("far past the last", asked.item > 512);
                came("2^64 - 1", asked.item == u64::MAX);
                let low = asked.item & 0xffff_ffff;
                came("2^32 past one", asked.item >> 32 == 1 && low < last);
            }
            (22, Some(Item::Table { .. })) => self.no_element.add("a TABLE", LEAST, 1),
            (22, Some(Item::Array { .. })) => {
                self.no_element.add(&format!("an ARRAY in {arrays} ARRAYs"), LEAST, 1)
            }
            (22, Some(_)) => self.no_element.add(&format!("an IF in {arrays} ARRAYs"), LEAST, 1),
            (24, _) => {
                let came = [
                    asked.count + 1 == arrays,
                    asked.count == arrays + 1,
                    asked.count > 4,
                    asked.count == arrays + (1 << 32),
                ];
                for (count, came) in COUNTS.iter().zip(came) {
                    if came {
                        self.counts.add(&format!("{arrays} ARRAYs, {count}"), LEAST, 1);
                    }
                }
            }
            (26, Some(item)) => {
                let kind = if matches!(item, Item::Block { .. }) { "BLOCK" } else { "SET" };
                let name = format!("{question} of a {kind} in {arrays} ARRAYs");
                self.numbers.add(&name, LEAST, 1);
            }
            _ => {}
        }
        self.of_the_outermost(asked, &faults, no, &round);
        self.faults_together(&faults, asked, no, item, &round);
        self.before_writing(known, asked, no);
        let right_count = !faults.iter().any(|fault| fault.no == 24 || fault.no == 22);
        if right_count && item.is_some() {
            self.mixtures.add(&mixture(&round), LEAST, 1);
        }
    }

    /// 23 and 25: of what stands round the item, which refuses.
    fn of_the_outermost(&mut self, asked: &Asked, faults: &[Fault], no: u64, round: &[Round]) {
        let fault = match faults.iter().min_by_key(|fault| fault.rank) {
            Some(fault) if no == 23 || no == 25 => *fault,
            _ => return,
        };
        let is_array = |what: &&Round| matches!(what, Round::Array { .. });
        let outside = round[..fault.place].iter().filter(is_array).count();
        let choices = fault.place - outside;
        match round[fault.place] {
            Round::Choice { of_true, .. } => {
                let side = SIDES[usize::from(of_true)];
                self.branches.add(&format!("{side} items, {outside} ARRAYs outside"), LEAST, 1);
            }
            Round::Array { count } => {
                let subscript = asked.subscripts[outside];
                let large = match subscript {
                    _ if count == 0 => LARGE[2],
                    _ if subscript == count => LARGE[0],
                    _ => LARGE[1],
                };
                let s = &mut self.subscripts;
                s.add(&format!("depth {outside}, {large}"), LEAST, 1);
                s.add(&format!("depth {outside}, {choices} choices outside"), LEAST, 1);
                let inside = round[fault.place + 1..].iter().filter(is_array).count();
                if inside > 0 {
                    s.add(&format!("depth {outside}, {inside} ARRAYs inside"), LEAST, 1);
                }
                s.add("2^64 - 1", LEAST, u64::from(subscript == u64::MAX));
                s.add("a count of 2^16 and more", LEAST, u64::from(count > 0xffff));
            }
        }
    }

    /// Faults of a name that hold together.
    fn faults_together(
        &mut self,
        faults: &[Fault],
        asked: &Asked,
        no: u64,
        item: Option<Item>,
        round: &[Round],
    ) {
        let has = |no: u64| faults.iter().any(|fault| fault.no == no);
        let t = &mut self.together;
        let mut came = |name: &str, came: bool| {
            if came {
                t.add(name, LEAST, 1);
            }
        };
        let arrays = round.iter().filter(|what| matches!(what, Round::Array { .. })).count() as u64;
        let (few, many) = (asked.count < arrays, asked.count > arrays);
        let is_array = matches!(item, Some(Item::Array { .. }));
        let is_if = matches!(item, Some(Item::If { .. }));
        let is_table = matches!(item, Some(Item::Table { .. }));
        let first = match faults.iter().min_by_key(|fault| fault.rank) {
            Some(fault) => *fault,
            None => return,
        };
        match no {
            22 => {
                for other in [23, 24, 25, 26] {
                    came(&format!("22 with {other}"), has(other));
                }
                let number = asked.question == "number";
                let written = asked.question == "writenumber";
                came("number asked of an ARRAY", number && is_array);
                came("number asked of an IF", number && is_if);
                came("number asked of a TABLE", number && is_table);
                came("number written to an ARRAY", written && is_array);
                came("number written to an IF", written && is_if);
                came("number written to a TABLE", written && is_table);
                came("an ARRAY in a branch not chosen", is_array && has(23));
                came("an IF in a branch not chosen", is_if && has(23));
            }
            26 => {
                for other in [23, 24, 25] {
                    came(&format!("26 with {other}"), has(other));
                }
                came("26 with 24, too few", has(24) && few);
                came("26 with 24, too many", has(24) && many);
                came("26 with 24 and 23", has(24) && has(23));
                came("26 with 24 and 25", has(24) && has(25));
            }
            24 => {
                came("24 with 23", has(23));
                came("24 with 25", has(25));
                came("24 with 23 and 25", has(23) && has(25));
            }
            _ => {
                let choice = |what: &Round| matches!(what, Round::Choice { .. });
                let inside = &round[first.place + 1..];
                let choices = round[..first.place].iter().filter(|what| choice(what)).count();
                let outside = first.place - choices;
                for other in faults.iter().filter(|other| other.place > first.place) {
                    let between = &round[first.place + 1..other.place];
                    let a_choice = between.iter().any(choice);
                    let an_array = between.iter().any(|what| !choice(what));
                    match (no, other.no) {
                        (23, 25) => {
                            came(&format!("23, {outside} ARRAYs outside, outside 25"), true);
                            came("23 outside 25, an ARRAY between", an_array);
                        }
                        (25, 23) => {
                            came(&format!("25 at depth {outside} outside 23"), true);
                            came("25 outside 23, a choice between", a_choice);
                        }
                        (25, 25) => {
                            came(&format!("25 at depth {outside} outside 25"), true);
                            came("25 outside 25, a choice between", a_choice);
                        }
                        _ => {}
                    }
                    came(&format!("{no} outside {}", other.no), true);
                }
                let chosen_inside = inside.iter().any(|what| {
                    matches!(what, Round::Choice { of_true, value } if *of_true == (*value != 0))
                });
                came("23 of a choice inside another, that is chosen", no == 23 && chosen_inside);
                let empty_inside = inside.contains(&Round::Array { count: 0 });
                came("23 with an ARRAY of count 0 inside", no == 23 && empty_inside);
                let empty = round[first.place] == Round::Array { count: 0 };
                let name = "25 of count 0 with a branch not chosen inside";
                came(name, no == 25 && empty && has(23));
            }
        }
    }

    /// Writes that would be 13, 14 or 15.
    fn before_writing(&mut self, known: &Known, asked: &Asked, no: u64) {
        if !asked.is_write() {
            return;
        }
        let writable = known.writable(asked.item);
        if writable == Some(false) {
            self.sooner.add(&format!("{no} before 13"), LEAST, 1);
            return;
        }
        if writable == Some(true) && known.is_dimension(asked.item) {
            self.sooner.add(&format!("{no} before 14"), LEAST, 1);
            return;
        }
        let large = asked.question == "writenumber" && asked.value >> 32 != 0;
        if no == 22 || no == 26 {
            let name = format!("{no} with a number that no UINT takes");
            self.sooner.add(&name, LEAST, u64::from(large));
            return;
        }
        let size = item_size(&known.laid.items, asked.item as usize, &known.laid.dimensions);
        let unfit = match (asked.question, size) {
            ("writeoctets", Ok(size)) => asked.data.len() as u64 != size,
            (_, Ok(size)) => asked.value >> (8 * size) != 0,
            _ => false,
        };
        if unfit {
            self.sooner.add(&format!("{no} before 15, {}", asked.question), LEAST, 1);
        }
    }

    fn granted(&mut self, known: &Known, asked: &Asked, reply: &str) {
        let question = asked.question;
        let no = match reply.split(' ').next() {
            Some(no) if question != "octets" && no != "0" => no,
            _ => "granted",
        };
        self.told.add(&format!("{question} {no}"), LEAST, 1);
        let i = asked.item as usize;
        let round = known.round(i);
        self.mixtures.add(&mixture(&round), LEAST, 1);
        let counts: Vec<u64> = round
            .iter()
            .filter_map(|what| match what {
                Round::Array { count } => Some(*count),
                _ => None,
            })
            .collect();
        let k = counts.len();
        let g = &mut self.granted;
        if let Some(kind) = kind_of(known.laid.items[i]) {
            g.add(kind, LEAST, 1);
        }
        let given = asked.subscripts.iter().zip(&counts);
        let more = counts.iter().any(|count| *count > 1);
        if k > 0 && more {
            let first = given.clone().all(|(subscript, _)| *subscript == 0);
            g.add(&format!("{k} ARRAYs, first subscripts"), LEAST, u64::from(first));
            let last = given.clone().all(|(subscript, count)| subscript + 1 == *count);
            g.add(&format!("{k} ARRAYs, last subscripts"), LEAST, u64::from(last));
        }
        if k == round.len() {
            g.add(&format!("{k} ARRAYs, no choice"), LEAST, 1);
        }
        if k == 0 && !round.is_empty() {
            g.add(&format!("{} choices, no ARRAY", round.len()), LEAST, 1);
        }
        for (which, side) in SIDES.iter().enumerate() {
            let of_it = |what: &Round| {
                matches!(what, Round::Choice { of_true, .. } if usize::from(*of_true) == which)
            };
            if round.iter().any(of_it) {
                g.add(&format!("{k} ARRAYs, {side} items"), LEAST, 1);
            }
        }
    }

    /// Whether every case was reached.
    fn report(&mut self, all: bool) -> bool {
        let groups = [
            &self.told,
            &self.no_element,
            &self.branches,
            &self.counts,
            &self.subscripts,
            &self.numbers,
            &self.together,
            &self.sooner,
            &self.granted,
            &self.mixtures,
            &self.slips,
        ];
        cases::report_groups(&groups, CASES, all)
    }
}

fn main() {
    let mut counts = Counts {
        told: Cases::new("told"),
        no_element: Cases::new("22"),
        branches: Cases::new("23"),
        counts: Cases::new("24"),
        subscripts: Cases::new("25"),
        numbers: Cases::new("26"),
        together: Cases::new("causes together"),
        sooner: Cases::new("before and after them"),
        granted: Cases::new("granted"),
        mixtures: Cases::new("what stands round"),
        slips: Cases::new("slips that would show"),
    };
    counts.wanted();
    let lines = cases::each_request(|request, reply| counts.request(request, reply));
    cases::judge(lines, ENOUGH, |all| counts.report(all));
}
