//! The calendar: refusals 16, 18, 19 and 20, and every rule on dates, seasons
//! and tiers.

use crate::calendar::{is_real, read_date, weekday, Date};
use crate::tests_support::*;

/// A calendar to be written into Tables 51 and 54.
#[derive(Clone)]
struct Cal {
    order: u8,
    flags_1: u8,
    flags_2: u8,
    special: u8,
    anchor: Option<u16>,
    dates: Vec<(u16, u8)>,
    recurring: Vec<(u16, u8)>,
    switches: Vec<(u16, u8)>,
    rows: Vec<Vec<u8>>,
}

fn date(year: u32, month: u32, day: u32) -> u16 {
    let short = if year >= 2000 { year - 2000 } else { year - 1900 };
    (short | month << 7 | day << 11) as u16
}

fn switch(tier: u16, hour: u16, minute: u16) -> u16 {
    tier | minute << 5 | hour << 11
}

const FOR_SUMMATIONS: u16 = 8;
const FOR_DEMANDS: u16 = 16;
const ARMED: u8 = 8;
const ANCHOR: u8 = 32;
const WEEKDAYS: u8 = 2;
const SUM_DEMANDS: u8 = 4;

impl Cal {
    /// Season 0 from 1 January 2000; Saturday 10, Sunday 11, weekday 12, of
    /// which only 12 has a switch, at 00:00 to tier 1.
    fn plain() -> Cal {
        Cal {
            order: 0,
            flags_1: 0,
            flags_2: 0,
            special: 0,
            anchor: None,
            dates: vec![(date(2000, 1, 1), 3)],
            recurring: Vec::new(),
            switches: vec![(switch(1, 0, 0), 12)],
            rows: vec![vec![10, 11, 12]],
        }
    }

    fn two(&self, field: u16) -> [u8; 2] {
        if self.order & 1 == 1 {
            field.to_be_bytes()
        } else {
            field.to_le_bytes()
        }
    }

    fn table_51(&self) -> Vec<u8> {
        let mut t = vec![
            self.flags_1,
            self.flags_2,
            self.rows.len() as u8 | self.special << 4,
            self.dates.len() as u8,
            self.recurring.len() as u8,
        ];
        t.extend_from_slice(&self.two(self.switches.len() as u16));
        // The table size isn't used: any number.
        t.extend_from_slice(&[0xee, 0xdd]);
        t
    }

    fn table_54(&self) -> Vec<u8> {
        let mut t = Vec::new();
        if let Some(anchor) = self.anchor {
            t.extend_from_slice(&self.two(anchor));
        }
        for list in [&self.dates, &self.recurring, &self.switches] {
            for (field, octet) in list {
                t.extend_from_slice(&self.two(*field));
                t.push(*octet);
            }
        }
        for row in &self.rows {
            t.extend_from_slice(row);
        }
        t
    }

    /// Description and image as they stand in a request.
    fn words(&self) -> String {
        let (t51, t54) = (self.table_51(), self.table_54());
        with_tables(self.order, &t51, &t54)
    }

    fn tier(&self, year: u32, month: u32, day: u32, hour: u32, minute: u32, what: u32) -> String {
        ask(&format!("tier {} {year} {month} {day} {hour} {minute} {what}", self.words()))
    }

    /// The same calendar in both data orders gives the same reply.
    fn gives(&self, at: (u32, u32, u32, u32, u32), reply: &str) {
        for order in [0u8, 1, 0xfe, 0xff] {
            let mut cal = self.clone();
            cal.order = order;
            for what in 0..2 {
                assert_eq!(cal.tier(at.0, at.1, at.2, at.3, at.4, what), reply, "{at:?}");
            }
        }
    }

    /// The same for `seasoned`, which takes no time.
    fn seasoned(&self, (year, month, day): (u32, u32, u32), reply: &str) {
        for order in [0u8, 1, 0xfe, 0xff] {
            let mut cal = self.clone();
            cal.order = order;
            holds(&format!("seasoned {} {year} {month} {day}", cal.words()), reply);
        }
    }
}

/// The two tables as blocks (a table of no octets as a table of no items).
fn with_tables(order: u8, t51: &[u8], t54: &[u8]) -> String {
    let mut items = vec![table(0, 1), uint(1, 1)];
    for (number, t) in [(51, t51), (54, t54)] {
        if t.is_empty() {
            items.push(table(number, 0));
        } else {
            // Blocks hold at most 4,095 octets.
            let blocks = (t.len() + 4094) / 4095;
            items.push(table(number, blocks as u32));
            for part in t.chunks(4095) {
                items.push(block(part.len() as u32));
            }
        }
    }
    let mut m = vec![order];
    m.extend_from_slice(t51);
    m.extend_from_slice(t54);
    format!("{} {}", desc(&items), hex(&m))
}

const NONE_YET: &str = "0 0 0 0 1 0";

/// The replies of `seasoned`.
const YES: &str = "0 0 0 0 1";
const NO: &str = "0 0 0 0 0";

fn tier_is(tier: u32) -> String {
    format!("0 0 0 0 0 {tier}")
}

#[test]
fn weekdays() {
    let day = |year, month, day| weekday(Date { year, month, day });
    // "1 January 2000 was a Saturday."
    assert_eq!(day(2000, 1, 1), 6);
    assert_eq!(day(2000, 1, 2), 0);
    assert_eq!(day(1999, 12, 31), 5);
    assert_eq!(day(2000, 2, 29), 2);
    assert_eq!(day(2000, 3, 1), 3);
    // Printed calendars: 1 January 1990 was a Monday, 5 March 2024 a Tuesday,
    // 31 December 2089 a Saturday.
    assert_eq!(day(1990, 1, 1), 1);
    assert_eq!(day(2024, 3, 5), 2);
    assert_eq!(day(2089, 12, 31), 6);
    // Day after day they go round.
    let mut next = 1;
    for year in 1990..=2089 {
        for month in 1..=12 {
            for d in 1..=31 {
                if is_real(Date { year, month, day: d }) {
                    assert_eq!(day(year, month, d), next);
                    next = (next + 1) % 7;
                }
            }
        }
    }
}

/// `weekday` of each date gives the reply.
fn weekday_holds(dates: &[(u32, u32, u32)], reply: &str) {
    for (year, month, day) in dates {
        holds(&format!("weekday {year} {month} {day}"), reply);
    }
}

#[test]
fn weekdays_from_history() {
    // "1 January 2000 was a Saturday" (document 01); 5 March 2024 and 20 March
    // 2016 are dates of documents 01 and 02, the others of known events. All were
    // worked out by the doomsday rule too, see the README.
    weekday_holds(&[(2000, 1, 1), (1991, 8, 24), (2004, 5, 1)], "0 6");
    weekday_holds(&[(2016, 3, 20), (2004, 12, 26)], "0 0");
    weekday_holds(&[(1990, 1, 1), (2008, 9, 15)], "0 1");
    weekday_holds(&[(2001, 9, 11), (2024, 3, 5), (2009, 1, 20)], "0 2");
    weekday_holds(&[(1990, 10, 3), (1999, 8, 11)], "0 3");
    weekday_holds(&[(2016, 6, 23)], "0 4");
    weekday_holds(&[(1999, 1, 1), (1999, 12, 31), (2008, 8, 8)], "0 5");
}

#[test]
fn weekdays_round_leap_days() {
    // 28 February, 29 February and 1 March; by the doomsday rule, see the README.
    for (year, first) in [(1992, 5), (2000, 1), (2004, 6), (2024, 3), (2088, 6)] {
        weekday_holds(&[(year, 2, 28)], &format!("0 {first}"));
        weekday_holds(&[(year, 2, 29)], &format!("0 {}", (first + 1) % 7));
        weekday_holds(&[(year, 3, 1)], &format!("0 {}", (first + 2) % 7));
        weekday_holds(&[(year, 2, 30)], "16 0");
    }
    for (year, last) in [(1990, 3), (1999, 0), (2023, 2), (2089, 1)] {
        weekday_holds(&[(year, 2, 28)], &format!("0 {last}"));
        weekday_holds(&[(year, 2, 29)], "16 0");
        weekday_holds(&[(year, 3, 1)], &format!("0 {}", (last + 1) % 7));
    }
}

#[test]
fn weekdays_at_the_ends_of_the_range() {
    weekday_holds(&[(1990, 1, 2)], "0 2");
    weekday_holds(&[(2089, 12, 30)], "0 5");
    weekday_holds(&[(2089, 12, 31)], "0 6");
    weekday_holds(&[(1989, 12, 31), (1989, 1, 1), (2090, 1, 1), (2090, 12, 31)], "16 0");
}

#[test]
fn no_weekday_where_the_date_is_not_real() {
    let most = u32::MAX;
    weekday_holds(&[(0, 0, 0), (0, 1, 1), (24, 3, 5), (99, 3, 5), (most, 1, 1)], "16 0");
    weekday_holds(&[(1900, 2, 28), (1900, 2, 29), (2100, 2, 28), (2100, 2, 29)], "16 0");
    weekday_holds(&[(2000, 0, 1), (2000, 13, 1), (2000, most, 1), (2000, 257, 1)], "16 0");
    weekday_holds(&[(2000, 1, 0), (2000, 1, 32), (2000, 1, most), (2000, 1, 257)], "16 0");
    weekday_holds(&[(2000, 4, 31), (2000, 6, 31), (2000, 9, 31), (2000, 11, 31)], "16 0");
    // Numbers that end as a real date's.
    weekday_holds(&[(2000 + 65_536, 1, 1), (2000, 1 + 65_536, 1), (2000, 1, 1 + 65_536)], "16 0");
    weekday_holds(&[(most, most, most)], "16 0");
}

#[test]
fn every_date_has_the_weekday_after_the_one_before() {
    let lengths = [31, 28, 31, 30, 31, 30, 31, 31, 30, 31, 30, 31];
    let (mut dates, mut next) = (0, 1);
    for year in 1989..=2090 {
        for month in 0..=13u32 {
            // Every fourth year of the range is a leap year.
            let length = match month {
                0 | 13 => 0,
                2 if year % 4 == 0 => 29,
                _ => lengths[month as usize - 1],
            };
            for day in 0..=32 {
                if (1990..=2089).contains(&year) && (1..=length).contains(&day) {
                    weekday_holds(&[(year, month, day)], &format!("0 {next}"));
                    dates += 1;
                    next = (next + 1) % 7;
                } else {
                    weekday_holds(&[(year, month, day)], "16 0");
                }
            }
        }
    }
    assert_eq!(dates, 36_525);
}

#[test]
fn dates_of_records() {
    assert_eq!(read_date(0x0898), Some(Date { year: 2024, month: 1, day: 1 }));
    // "years 0..89 are 2000 on, 90..99 are 1990 on"; 100..127 are no years.
    for short in 0..128u64 {
        let expected = match short {
            0..=89 => Some(2000 + short as u32),
            90..=99 => Some(1900 + short as u32),
            _ => None,
        };
        let found = read_date(short | 1 << 7 | 1 << 11).map(|d| d.year);
        assert_eq!(found, expected);
    }
    // Months 0 and 13..15, days 0 and past the month's end.
    let lengths = [31, 28, 31, 30, 31, 30, 31, 31, 30, 31, 30, 31];
    for month in 0..16u64 {
        for day in 0..32u64 {
            let real = (1..=12).contains(&month)
                && (1..=lengths[(month as usize + 11) % 12]).contains(&day);
            // 2023 is no leap year.
            assert_eq!(read_date(23 | month << 7 | day << 11).is_some(), real, "{month} {day}");
        }
    }
    for (short, leap) in [(0, true), (96, true), (90, false), (24, true), (88, true), (89, false)] {
        assert_eq!(read_date(short | 2 << 7 | 29 << 11).is_some(), leap);
    }
}

#[test]
fn refusal_16() {
    let cal = Cal::plain();
    for (y, m, d) in [
        (1989, 12, 31), (2090, 1, 1), (0, 1, 1), (24, 1, 1), (2024, 0, 1), (2024, 13, 1),
        (2024, 1, 0), (2024, 1, 32), (2024, 4, 31), (2024, 2, 30), (2023, 2, 29), (2089, 2, 29),
        (4294967295, 1, 1), (2024, 4294967295, 1), (2024, 1, 4294967295), (2024, 257, 1),
    ] {
        cal.gives((y, m, d, 0, 0), "16 0 0 0 0 0");
        cal.seasoned((y, m, d), "16 0 0 0 0");
    }
    for (h, m) in [(24, 0), (0, 60), (23, 60), (256, 0), (4294967295, 4294967295)] {
        cal.gives((2024, 3, 5, h, m), "16 0 0 0 0 0");
    }
    // The ends that are real.
    cal.gives((2024, 2, 29, 23, 59), &tier_is(1));
    cal.gives((2089, 12, 30, 0, 0), &tier_is(1));
    // 1 January 1990, a Monday, is a real date; no season is chosen by then, so
    // it is in season 0.
    cal.gives((1990, 1, 1, 0, 0), &tier_is(1));
    cal.seasoned((1990, 1, 1), NO);
    cal.seasoned((2024, 2, 29), YES);
    cal.seasoned((2089, 12, 31), YES);
}

#[test]
fn refusal_18_and_the_order() {
    let mut cal = Cal::plain();
    // 31 December 1999, a Friday before every season record: season 0.
    cal.gives((1999, 12, 31, 12, 0), &tier_is(1));
    cal.gives((2000, 1, 3, 12, 0), &tier_is(1));
    // 16 before 18 before 19; 20 before them all.
    cal.flags_1 = ARMED;
    cal.gives((2000, 1, 3, 12, 0), "18 0 0 0 0 0");
    cal.gives((1999, 12, 31, 12, 0), "18 0 0 0 0 0");
    cal.gives((1999, 12, 31, 24, 0), "16 0 0 0 0 0");
    cal.rows.clear();
    cal.gives((2000, 1, 3, 12, 0), "18 0 0 0 0 0");
    cal.flags_1 = 0;
    cal.gives((2000, 1, 3, 12, 0), "19 0 0 0 0 0");
    // Season 0 has no row: "19 still applies when there are no seasons".
    cal.gives((1999, 12, 31, 12, 0), "19 0 0 0 0 0");
    cal.flags_1 = ARMED | ANCHOR;
    cal.gives((1999, 12, 31, 24, 0), "20 0 0 0 0 0");
    // Other flags change nothing here.
    let mut cal = Cal::plain();
    cal.flags_1 = 0xff - ARMED - ANCHOR;
    cal.flags_2 = 0xff - WEEKDAYS - SUM_DEMANDS;
    cal.gives((2000, 1, 3, 12, 0), &tier_is(1));
}

#[test]
fn refusal_19() {
    let mut cal = Cal::plain();
    // Seasons 0 to 15 by actions 3 to 18; there are 2 rows.
    cal.rows.push(vec![10, 11, 13]);
    cal.switches.push((switch(2, 0, 0), 13));
    for action in 3..=18u8 {
        cal.dates = vec![(date(2000, 1, 1), action)];
        let reply = match action {
            3 => tier_is(1),
            4 => tier_is(2),
            _ => String::from("19 0 0 0 0 0"),
        };
        cal.gives((2000, 1, 3, 12, 0), &reply);
    }
    // Special schedules 0 to 11 by actions 19 to 30; there are 2 columns.
    let mut cal = Cal::plain();
    cal.special = 2;
    cal.rows = vec![vec![10, 11, 12, 20, 21]];
    cal.switches = vec![(switch(1, 0, 0), 12), (switch(3, 0, 0), 20), (switch(4, 0, 0), 21)];
    for action in 19..=30u8 {
        cal.dates = vec![(date(2000, 1, 1), 3), (date(2000, 1, 3), action)];
        let reply = match action {
            19 => tier_is(3),
            20 => tier_is(4),
            _ => String::from("19 0 0 0 0 0"),
        };
        cal.gives((2000, 1, 3, 12, 0), &reply);
        // The special schedule holds for its own date only.
        cal.gives((2000, 1, 4, 12, 0), &tier_is(1));
        cal.gives((2001, 1, 3, 12, 0), &tier_is(1));
    }
    // Other actions choose neither; 31 is a dated notice.
    for action in [0u8, 1, 2, 31] {
        cal.dates = vec![(date(2000, 1, 1), 3), (date(2000, 1, 3), action)];
        cal.gives((2000, 1, 3, 12, 0), &tier_is(1));
        cal.dates = vec![(date(2000, 1, 1), action)];
        cal.gives((2000, 1, 3, 12, 0), &tier_is(1));
    }
    // A special schedule chooses no season; it holds in season 0 too.
    cal.dates = vec![(date(2000, 1, 3), 19)];
    cal.gives((2000, 1, 3, 12, 0), &tier_is(3));
    cal.gives((2000, 1, 4, 12, 0), &tier_is(1));
    cal.dates = vec![(date(2000, 1, 3), 21)];
    cal.gives((2000, 1, 3, 12, 0), "19 0 0 0 0 0");
    // Only bits 0..4 of the action count.
    for high in [0x20u8, 0x40, 0x80, 0xe0] {
        cal.dates = vec![(date(2000, 1, 1), high | 3), (date(2000, 1, 3), high | 20)];
        cal.gives((2000, 1, 3, 12, 0), &tier_is(4));
        cal.gives((2000, 1, 4, 12, 0), &tier_is(1));
    }
}

#[test]
fn refusal_20() {
    let cal = Cal::plain();
    let (t51, t54) = (cal.table_51(), cal.table_54());
    let all = |words: &str, no: u32| {
        holds(&format!("tier {words} 2000 1 3 12 0 0"), &format!("{no} 0 0 0 0 0"));
        holds(&format!("seasoned {words} 2000 1 3"), &format!("{no} 0 0 0 0"));
        // 20 before 16: 30 February.
        holds(&format!("tier {words} 2000 2 30 12 0 0"), &format!("{no} 0 0 0 0 0"));
        holds(&format!("seasoned {words} 2000 2 30"), &format!("{no} 0 0 0 0"));
        holds(&format!("matrix {words}"), &format!("{no} 0 0 0 {}", "0".repeat(660)));
    };
    let mut long_51 = t51.clone();
    long_51.push(0);
    all(&with_tables(0, &long_51, &t54), 20);
    all(&with_tables(0, &t51[..8], &t54), 20);
    all(&with_tables(0, &[], &t54), 20);
    let mut long_54 = t54.clone();
    long_54.push(0);
    all(&with_tables(0, &t51, &long_54), 20);
    all(&with_tables(0, &t51, &t54[..t54.len() - 1]), 20);
    all(&with_tables(0, &t51, &[]), 20);
    // Each part of the size counts.
    for (octet, change) in [(0, ANCHOR), (1, WEEKDAYS), (2, 1), (2, 16), (3, 1), (4, 1), (5, 1), (6, 1)] {
        let mut changed = t51.clone();
        changed[octet] ^= change;
        all(&with_tables(0, &changed, &t54), 20);
    }
    // T is read in DATA_ORDER.
    all(&with_tables(1, &t51, &t54), 20);
    // The largest T doesn't fit any image.
    let mut changed = t51;
    changed[5] = 0xff;
    changed[6] = 0xff;
    all(&with_tables(0, &changed, &t54), 20);
}

#[test]
fn refusal_10_before_20() {
    let cal = Cal::plain();
    let (t51, t54) = (cal.table_51(), cal.table_54());
    // Tables of those numbers, one missing or a manufacturer's.
    for (first, second) in [(51, 55), (50, 54), (50, 55), (51, 54 + 2048), (51 + 2048, 54)] {
        let mut items = vec![table(0, 1), uint(1, 1)];
        for (number, t) in [(first, &t51), (second, &t54)] {
            // Number 2048 on stands for a manufacturer's table.
            items.push(table(number % 2048, 1) | (number / 2048) << 27);
            items.push(block(t.len() as u32));
        }
        let mut m = vec![0];
        m.extend_from_slice(&t51);
        m.extend_from_slice(&t54);
        let words = format!("{} {}", desc(&items), hex(&m));
        holds(&format!("tier {words} 2000 1 3 12 0 0"), "10 0 0 0 0 0");
        holds(&format!("seasoned {words} 2000 1 3"), "10 0 0 0 0");
        holds(&format!("seasoned {words} 2000 2 30"), "10 0 0 0 0");
        holds(&format!("matrix {words}"), &format!("10 0 0 0 {}", "0".repeat(660)));
    }
    // 9 before 10.
    let d = desc(&[table(0, 1), uint(1, 1)]);
    holds(&format!("tier {d} - 2000 1 3 12 0 0"), "9 1 0 0 0 0");
    holds(&format!("tier {d} 00 2000 1 3 12 0 0"), "10 0 0 0 0 0");
    holds(&format!("seasoned {d} - 2000 1 3"), "9 1 0 0 0");
    holds(&format!("seasoned {d} 00 2000 1 3"), "10 0 0 0 0");
}

#[test]
fn seasons_by_date() {
    let mut cal = Cal::plain();
    cal.rows = (0..3).map(|season| vec![season, season, season]).collect();
    cal.switches = vec![(switch(1, 0, 0), 0), (switch(2, 0, 0), 1), (switch(3, 0, 0), 2)];
    // Not sorted: "the latest date not after it".
    cal.dates = vec![(date(2005, 6, 1), 5), (date(1995, 1, 1), 3), (date(2001, 6, 1), 4)];
    cal.gives((1994, 12, 31, 12, 0), &tier_is(1));
    cal.gives((1995, 1, 1, 0, 0), &tier_is(1));
    cal.gives((2001, 5, 31, 23, 59), &tier_is(1));
    cal.gives((2001, 6, 1, 0, 0), &tier_is(2));
    cal.gives((2005, 5, 31, 0, 0), &tier_is(2));
    cal.gives((2005, 6, 1, 0, 0), &tier_is(3));
    cal.gives((2089, 12, 31, 0, 0), &tier_is(3));
    // "of equal dates, the later record"
    cal.dates.push((date(2005, 6, 1), 3));
    cal.gives((2005, 6, 1, 0, 0), &tier_is(1));
    cal.dates.insert(0, (date(2005, 6, 1), 4));
    cal.gives((2005, 6, 1, 0, 0), &tier_is(1));
    // Records without a real date are skipped: 30 February, month 0, year 100.
    for field in [date(2006, 2, 30), date(2006, 0, 1), date(2006, 1, 0), 100 | 1 << 7 | 1 << 11, 0, 0xffff] {
        cal.dates.push((field, 5));
    }
    cal.gives((2080, 1, 1, 0, 0), &tier_is(1));
    // Dates of 1990 to 1999 come before those of 2000 on.
    cal.dates = vec![(date(1999, 1, 1), 4), (date(2000, 1, 1), 5), (date(1990, 1, 1), 3)];
    cal.gives((1990, 1, 1, 0, 0), &tier_is(1));
    cal.gives((1999, 12, 31, 0, 0), &tier_is(2));
    cal.gives((2000, 1, 1, 0, 0), &tier_is(3));
}

#[test]
fn recurring_records_and_the_anchor_are_read_past() {
    let mut cal = Cal::plain();
    cal.recurring = vec![(0x0898, 19), (0x0898, 4), (0xffff, 31)];
    cal.gives((2024, 1, 1, 12, 0), &tier_is(1));
    cal.anchor = Some(0xffff);
    cal.flags_1 = ANCHOR;
    cal.gives((2024, 1, 1, 12, 0), &tier_is(1));
    // A Monday of no record: season 0, and not the special schedule or the
    // season of a recurring record.
    cal.dates.clear();
    cal.gives((2024, 1, 1, 12, 0), &tier_is(1));
    cal.seasoned((2024, 1, 1), NO);
    cal.seasoned((2089, 12, 31), NO);
}

/// Document 02, E1: "a day before every season record is in season 0".
#[test]
fn season_0_before_every_record() {
    let mut cal = Cal::plain();
    cal.rows = (0..3).map(|season| vec![season, season, season]).collect();
    cal.switches = vec![(switch(1, 0, 0), 0), (switch(2, 0, 0), 1), (switch(3, 6, 0), 2)];
    // The earliest record is of season 2, another of season 1.
    cal.dates = vec![(date(2005, 6, 1), 4), (date(1995, 1, 1), 5)];
    cal.gives((1990, 1, 1, 0, 0), &tier_is(1));
    cal.gives((1994, 12, 31, 23, 59), &tier_is(1));
    cal.gives((1995, 1, 1, 5, 59), NONE_YET);
    cal.gives((1995, 1, 1, 6, 0), &tier_is(3));
    cal.gives((2005, 5, 31, 6, 0), &tier_is(3));
    cal.gives((2005, 6, 1, 0, 0), &tier_is(2));
    // "No such switch" in season 0.
    cal.switches[0] = (switch(1, 12, 1), 0);
    cal.gives((1994, 12, 31, 12, 0), NONE_YET);
    cal.gives((1994, 12, 31, 12, 1), &tier_is(1));
    // A record without a real date is skipped: the day stays in season 0.
    cal.dates.push((date(1993, 2, 29), 5));
    cal.gives((1994, 12, 31, 12, 1), &tier_is(1));
    // Season 0 has no row where there is none at all.
    cal.rows.clear();
    cal.gives((1994, 12, 31, 12, 1), "19 0 0 0 0 0");
    cal.gives((1990, 1, 1, 0, 0), "19 0 0 0 0 0");
}

/// Document 02, E1: "New meters have no season record."
#[test]
fn new_meters() {
    let mut cal = Cal::plain();
    cal.dates.clear();
    cal.switches = vec![(switch(5, 0, 0), 10), (switch(6, 8, 0), 11), (switch(7, 9, 30), 12)];
    // 1 January 2000 was a Saturday, then Sunday and Monday.
    cal.gives((2000, 1, 1, 0, 0), &tier_is(5));
    cal.gives((2000, 1, 2, 7, 59), NONE_YET);
    cal.gives((2000, 1, 2, 8, 0), &tier_is(6));
    cal.gives((2000, 1, 3, 9, 30), &tier_is(7));
    // The first day, a Monday, and the last, a Saturday.
    cal.gives((1990, 1, 1, 9, 29), NONE_YET);
    cal.gives((2089, 12, 31, 0, 0), &tier_is(5));
    for day in [(1990, 1, 1), (2000, 1, 1), (2089, 12, 31)] {
        cal.seasoned(day, NO);
    }
    cal.flags_1 = ARMED;
    cal.gives((2000, 1, 1, 0, 0), "18 0 0 0 0 0");
    cal.seasoned((2000, 1, 1), NO);
    cal.flags_1 = 0;
    cal.rows.clear();
    cal.gives((2000, 1, 1, 0, 0), "19 0 0 0 0 0");
    cal.seasoned((2000, 1, 1), NO);
    // Nothing at all: Table 54 has no octets.
    cal.switches.clear();
    assert!(cal.table_54().is_empty());
    cal.gives((2000, 1, 1, 0, 0), "19 0 0 0 0 0");
    cal.seasoned((2000, 1, 1), NO);
}

/// Document 02, E1: "does any season record with a real date stand at or before
/// this date".
#[test]
fn seasoned_before_on_and_after_a_record() {
    let mut cal = Cal::plain();
    cal.seasoned((1999, 12, 31), NO);
    cal.seasoned((2000, 1, 1), YES);
    cal.seasoned((2000, 1, 2), YES);
    // One record of three is enough, wherever it stands among them.
    let day = (date(2024, 2, 29), 3);
    let later = [(date(2024, 3, 1), 4), (date(2089, 12, 31), 3)];
    for place in 0..=2 {
        cal.dates = later.to_vec();
        cal.dates.insert(place, day);
        cal.seasoned((2024, 2, 28), NO);
        cal.seasoned((2024, 2, 29), YES);
        cal.seasoned((2024, 3, 1), YES);
        cal.seasoned((2089, 12, 30), YES);
    }
    // A day is before or after by year, then month, then day of the month.
    cal.dates = vec![(date(2010, 6, 15), 3)];
    for day in [(2009, 12, 31), (2009, 7, 16), (2010, 5, 31), (2010, 6, 14), (1999, 6, 15)] {
        cal.seasoned(day, NO);
    }
    for day in [(2010, 6, 15), (2010, 6, 16), (2010, 7, 1), (2011, 1, 1), (2011, 5, 14)] {
        cal.seasoned(day, YES);
    }
    // Years 90 to 99 are 1990 on: the first day of all, and the last.
    cal.dates = vec![(date(1990, 1, 1), 3)];
    cal.seasoned((1990, 1, 1), YES);
    cal.dates = vec![(date(1999, 12, 31), 3)];
    cal.seasoned((1999, 12, 30), NO);
    cal.seasoned((2000, 1, 1), YES);
    cal.dates = vec![(date(2089, 12, 31), 3)];
    cal.seasoned((2089, 12, 30), NO);
    cal.seasoned((2089, 12, 31), YES);
}

/// The new question "gives 1 to 10, 20 and 16 alone": no 18, no 19.
#[test]
fn seasoned_asks_for_no_row_and_no_armed_flag() {
    let mut cal = Cal::plain();
    for flags_1 in [0, ARMED] {
        cal.flags_1 = flags_1;
        cal.rows = vec![vec![10, 11, 12]];
        // Season 0 has a row; season 1 and season 15 have none.
        for action in [3, 4, 18] {
            cal.dates = vec![(date(2000, 1, 1), action)];
            cal.seasoned((1999, 12, 31), NO);
            cal.seasoned((2000, 1, 1), YES);
        }
        cal.rows.clear();
        cal.seasoned((1999, 12, 31), NO);
        cal.seasoned((2000, 1, 1), YES);
        cal.seasoned((2000, 2, 30), "16 0 0 0 0");
    }
    // A special schedule without a column on the day doesn't matter.
    cal.dates.push((date(2000, 1, 1), 30));
    cal.seasoned((2000, 1, 1), YES);
    // Other flags: the anchor date moves the records on.
    cal.flags_1 = 0xff;
    cal.flags_2 = 0xff;
    cal.anchor = Some(date(1995, 1, 1));
    cal.seasoned((1999, 12, 31), NO);
    cal.seasoned((2000, 1, 1), YES);
}

#[test]
fn seasoned_by_action() {
    let mut cal = Cal::plain();
    // "3 to 18 select season 0 to 15, 19 to 30 special schedule 0 to 11"; only
    // bits 0..4 of the action count.
    for high in [0x00u8, 0x20, 0x40, 0x80, 0xe0] {
        for action in 0..32u8 {
            cal.dates = vec![(date(2000, 1, 1), high | action)];
            let reply = if (3..=18).contains(&action) { YES } else { NO };
            cal.seasoned((1999, 12, 31), NO);
            cal.seasoned((2000, 1, 1), reply);
            cal.seasoned((2000, 1, 2), reply);
        }
    }
    // None of the others ends the list.
    for action in [0, 2, 19, 30, 31] {
        cal.dates = vec![(date(2000, 1, 1), action), (date(2000, 1, 1), 3)];
        cal.seasoned((2000, 1, 1), YES);
    }
}

#[test]
fn seasoned_skips_what_is_no_season_record() {
    let mut cal = Cal::plain();
    // "with a real date": 29 February 2023, 31 June, day 0, months 0 and 13,
    // years 100 and 127, all zeros and all ones aren't.
    let unreal = [
        date(2023, 2, 29), date(2000, 6, 31), date(2000, 1, 0), date(2000, 0, 1),
        date(2000, 13, 1), 100 | 1 << 7 | 1 << 11, 127 | 1 << 7 | 1 << 11, 0, 0xffff,
    ];
    for field in unreal {
        cal.dates = vec![(field, 3)];
        cal.seasoned((2089, 12, 31), NO);
        cal.dates.push((date(2024, 2, 29), 3));
        cal.seasoned((2024, 2, 28), NO);
        cal.seasoned((2024, 2, 29), YES);
    }
    // A special schedule is no season record.
    cal.special = 1;
    cal.rows = vec![vec![10, 11, 12, 13]];
    cal.dates = vec![(date(1990, 1, 1), 19), (date(2000, 1, 1), 3)];
    cal.seasoned((1999, 12, 31), NO);
    cal.seasoned((2000, 1, 1), YES);
    // Recurring records are read past.
    cal.recurring = vec![(date(1990, 1, 1), 3), (date(2000, 1, 1), 4)];
    cal.seasoned((1999, 12, 31), NO);
    cal.seasoned((2000, 1, 1), YES);
    cal.dates.clear();
    cal.seasoned((1990, 1, 1), NO);
    cal.seasoned((2089, 12, 31), NO);
    // Nor does the anchor date count.
    cal.flags_1 = ANCHOR;
    cal.anchor = Some(date(1990, 1, 1));
    cal.seasoned((1990, 1, 1), NO);
    // As many records as there can be, the last one the season's.
    let mut cal = Cal::plain();
    cal.dates = vec![(date(1990, 1, 1), 31); 254];
    cal.dates.push((date(2000, 1, 1), 3));
    cal.seasoned((1999, 12, 31), NO);
    cal.seasoned((2000, 1, 1), YES);
}

/// Order: 1 to 9, 10, 20, 16.
#[test]
fn seasoned_refusals_of_description_and_image() {
    for day in ["2024 3 5", "2024 2 30"] {
        holds(&format!("seasoned - 00 {day}"), "1 0 0 0 0");
        // Kind 0; a BLOCK at the top level; a table that runs on past the end.
        holds(&format!("seasoned 00000000 00 {day}"), "2 0 0 0 0");
        holds(&format!("seasoned {} 00 {day}", desc(&[block(1)])), "3 0 0 0 0");
        holds(&format!("seasoned {} 00 {day}", desc(&[table(0, 2), uint(1, 1)])), "4 0 0 0 0");
        // A fifth level, at the last but one item.
        let mut items = vec![table(0, 7), uint(1, 1)];
        items.extend((1..=5).rev().map(|inside| array((1, 0, 1), inside)));
        items.push(uint(1, 0));
        holds(&format!("seasoned {} 00 {day}", desc(&items)), "5 6 0 0 0");
        // Slot 1 twice; a slot that isn't set.
        let twice = desc(&[table(0, 2), uint(1, 1), uint(1, 1)]);
        holds(&format!("seasoned {twice} 00 {day}"), "6 2 0 0 0");
        let unset = desc(&[table(0, 2), uint(1, 1), set((2, 0, 1))]);
        holds(&format!("seasoned {unset} 00 {day}"), "7 2 0 0 0");
        // An image over 65,535 octets, and D's first image cut to 7.
        holds(&format!("seasoned {D} {} {day}", "00".repeat(65_536)), "8 0 0 0 0");
        holds(&format!("seasoned {D} 0082aabb341278 {day}"), "9 6 4 0 0");
        holds(&format!("seasoned {D} {FIRST} {day}"), "10 0 0 0 0");
    }
}

#[test]
fn columns_of_the_two_forms() {
    // 1 January 2000 was a Saturday; the week from it.
    let mut shared = Cal::plain();
    shared.rows = vec![vec![10, 11, 12]];
    shared.switches = vec![(switch(6, 0, 0), 10), (switch(0, 0, 0), 11), (switch(1, 0, 0), 12)];
    let mut apart = Cal::plain();
    apart.flags_2 = WEEKDAYS;
    apart.rows = vec![vec![20, 21, 22, 23, 24, 25, 26]];
    apart.switches = (0..7).map(|day| (switch(day, 0, 0), 20 + day as u8)).collect();
    for day in 1..=14 {
        let weekday = (day + 5) % 7;
        apart.gives((2000, 1, day, 0, 0), &tier_is(weekday));
        let expected = match weekday {
            6 => 6,
            0 => 0,
            _ => 1,
        };
        shared.gives((2000, 1, day, 0, 0), &tier_is(expected));
    }
    // Special schedule k in column 7 + k or 3 + k; the later record wins.
    for (cal, width) in [(&mut shared, 3), (&mut apart, 7)] {
        cal.special = 12;
        cal.rows = vec![(0..width + 12).collect()];
        for k in 0..12u8 {
            cal.dates = vec![
                (date(2000, 1, 1), 3),
                (date(2000, 1, 5), 19 + (k + 1) % 12),
                (date(2000, 1, 5), 19 + k),
            ];
            cal.switches = vec![(switch(7, 0, 0), width + k)];
            cal.gives((2000, 1, 5, 12, 0), &tier_is(7));
            let mut other = cal.clone();
            other.switches = vec![(switch(7, 0, 0), width + (k + 1) % 12)];
            other.gives((2000, 1, 5, 12, 0), NONE_YET);
        }
    }
}

#[test]
fn latest_switch_of_the_day() {
    let mut cal = Cal::plain();
    cal.switches = vec![
        (switch(3, 18, 30), 12),
        (switch(1, 6, 0), 12),
        (switch(7, 12, 0), 11),
        (switch(2, 12, 0), 12),
    ];
    let monday = |h, m| (2000, 1, 3, h, m);
    // "No such switch: the reply is "none yet today", not a refusal."
    cal.gives(monday(0, 0), NONE_YET);
    cal.gives(monday(5, 59), NONE_YET);
    cal.gives(monday(6, 0), &tier_is(1));
    cal.gives(monday(11, 59), &tier_is(1));
    cal.gives(monday(12, 0), &tier_is(2));
    cal.gives(monday(18, 29), &tier_is(2));
    cal.gives(monday(18, 30), &tier_is(3));
    cal.gives(monday(23, 59), &tier_is(3));
    // "of equal times, the later record"
    cal.switches.push((switch(5, 12, 0), 12));
    cal.switches.insert(0, (switch(6, 12, 0), 12));
    cal.gives(monday(12, 0), &tier_is(5));
    cal.gives(monday(18, 30), &tier_is(3));
    // "hours over 23 or minutes over 59 are skipped"
    for (h, m) in [(24, 0), (31, 0), (0, 60), (6, 63), (31, 63)] {
        let mut bad = cal.clone();
        bad.switches = vec![(switch(4, h, m), 12)];
        bad.gives(monday(23, 59), NONE_YET);
        bad.switches.push((switch(2, 0, 0), 12));
        bad.switches.push((switch(4, h, m), 12));
        bad.gives(monday(23, 59), &tier_is(2));
    }
    let mut last = cal.clone();
    last.switches = vec![(switch(4, 23, 59), 12)];
    last.gives(monday(23, 58), NONE_YET);
    last.gives(monday(23, 59), &tier_is(4));
    // No switches at all.
    last.switches.clear();
    last.gives(monday(23, 59), NONE_YET);
    // The schedule number 0 is a number as any other.
    let mut zero = Cal::plain();
    zero.rows = vec![vec![0, 0, 0]];
    zero.switches = vec![(switch(5, 1, 0), 0)];
    zero.gives(monday(1, 0), &tier_is(5));
}

#[test]
fn summations_and_demands_apart() {
    let mut cal = Cal::plain();
    cal.switches = vec![
        (switch(1, 0, 0) | FOR_SUMMATIONS, 12),
        (switch(2, 1, 0) | FOR_DEMANDS, 12),
        (switch(3, 2, 0), 12),
        (switch(4, 3, 0) | FOR_SUMMATIONS | FOR_DEMANDS, 12),
    ];
    // Without the flag of Table 51 all switches count.
    for (hour, tier) in [(0, 1), (1, 2), (2, 3), (3, 4)] {
        cal.gives((2000, 1, 3, hour, 0), &tier_is(tier));
    }
    cal.flags_2 = SUM_DEMANDS;
    for (hour, summations, demands) in [
        (0, tier_is(1), String::from(NONE_YET)),
        (1, tier_is(1), tier_is(2)),
        (2, tier_is(1), tier_is(2)),
        (3, tier_is(4), tier_is(4)),
    ] {
        for order in [0, 1] {
            cal.order = order;
            assert_eq!(cal.tier(2000, 1, 3, hour, 0, 0), summations);
            assert_eq!(cal.tier(2000, 1, 3, hour, 0, 1), demands);
        }
    }
}

#[test]
fn the_matrix() {
    // All fifteen rows of twenty-two: S 15, P 15, weekdays apart.
    let mut cal = Cal::plain();
    cal.flags_2 = WEEKDAYS;
    cal.special = 15;
    cal.rows = (0..15).map(|row| (0..22).map(|column| row * 16 + column).collect()).collect();
    let all: Vec<u8> = cal.rows.concat();
    holds(&format!("matrix {}", cal.words()), &format!("0 0 0 0 {}", hex(&all)));
    // It needs no date: not 18 (the season change is armed), not 19.
    cal.flags_1 = ARMED;
    cal.dates.clear();
    holds(&format!("matrix {}", cal.words()), &format!("0 0 0 0 {}", hex(&all)));
    // Two rows of 3 + 1: cells stand as in the rows, unused ones are 0.
    let mut cal = Cal::plain();
    cal.special = 1;
    cal.rows = vec![vec![1, 2, 3, 4], vec![5, 6, 7, 8]];
    let mut cells = vec![0u8; 330];
    cells[..4].copy_from_slice(&[1, 2, 3, 4]);
    cells[22..26].copy_from_slice(&[5, 6, 7, 8]);
    holds(&format!("matrix {}", cal.words()), &format!("0 0 0 0 {}", hex(&cells)));
    // No rows at all.
    cal.rows.clear();
    holds(&format!("matrix {}", cal.words()), &format!("0 0 0 0 {}", "0".repeat(660)));
}

#[test]
fn however_the_tables_are_divided() {
    // Tables 51 and 54 in single octets, in UINTs of 4, and as an array: the
    // octets are the same and so is the reply.
    let mut cal = Cal::plain();
    cal.recurring = vec![(0x1234, 4)];
    for order in [0u8, 1] {
        cal.order = order;
        let (t51, t54) = (cal.table_51(), cal.table_54());
        assert_eq!(t54.len(), 12);
        let m = {
            let mut m = vec![order];
            m.extend_from_slice(&t51);
            m.extend_from_slice(&t54);
            hex(&m)
        };
        let mut single = vec![table(0, 1), uint(1, 1), table(51, 9)];
        single.extend(vec![uint(1, 0); 9]);
        single.push(table(54, 12));
        single.extend(vec![uint(1, 0); 12]);
        let wide = vec![
            table(0, 1), uint(1, 1), table(54, 0), table(51, 3), uint(4, 0), uint(4, 0), uint(1, 0),
        ];
        assert_eq!(ask(&format!("matrix {} {m}", desc(&wide))), format!("20 0 0 0 {}", "0".repeat(660)));
        let wide = vec![
            table(0, 1), uint(1, 1), table(51, 3), uint(4, 0), uint(4, 0), uint(1, 0),
            table(54, 3), uint(4, 0), uint(4, 0), uint(4, 0),
        ];
        let as_array = vec![
            table(0, 1), uint(1, 1), table(51, 7), uint(1, 2), uint(1, 3), uint(1, 4), uint(1, 5),
            uint(1, 6), uint(2, 7), uint(2, 0),
            table(54, 9), array((5, 0, 8), 1), block(3), array((6, 0, 8), 2), uint(2, 0), uint(1, 0),
            array((7, 0, 16), 1), block(3), array((4, 0, 4), 1), block(3),
        ];
        for items in [&single, &wide, &as_array] {
            let d = desc(items);
            holds(&format!("layout {d} {m}"), "0 0 0 0 22");
            holds(&format!("tier {d} {m} 2000 1 3 12 0 0"), "0 0 0 0 0 1");
            holds(&format!("tier {d} {m} 2000 1 2 12 0 0"), "0 0 0 0 1 0");
            holds(&format!("seasoned {d} {m} 2000 1 1"), YES);
            holds(&format!("seasoned {d} {m} 1999 12 31"), NO);
        }
    }
}

#[test]
fn many_switches() {
    // As many as an image holds: 3 * 21,000 octets.
    let mut cal = Cal::plain();
    cal.switches = (0..21_000u32)
        .map(|k| (switch((k % 8) as u16, (k / 60 % 24) as u16, (k % 60) as u16), (k % 13) as u8))
        .collect();
    // The latest of schedule 12 at or before 12:00, later records winning:
    // found here by a plain search from the end of the list.
    let mut best = (0, 0);
    for k in 0..21_000u32 {
        let time = k / 60 % 24 * 60 + k % 60;
        if k % 13 == 12 && time <= 720 && time >= best.0 {
            best = (time, k % 8);
        }
    }
    cal.gives((2000, 1, 3, 12, 0), &tier_is(best.1));
}
