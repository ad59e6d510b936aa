//! Requests of tier, seasoned and matrix, for gen.rs: calendars that are nearly
//! right.
//!
//! Every fourth request asks for the tier of the next day of a walk over all
//! days from 1 January 1990 to 31 December 2089, of a calendar in which each
//! weekday's schedule has a tier of its own. The others are such calendars too,
//! with faults put in, often several at once, or calendars of anything; seasoned
//! is asked mostly of a season record's date and the days next to it.

use super::*;

/// The days from 1 January 1990 to 31 December 2089.
pub const DAYS: u64 = 36_525;

pub const MOST: u64 = u32::MAX as u64;

/// Of the years from 1990 to 2089 every fourth is a leap year, 2000 too.
pub fn days_in_month(year: u64, month: u64) -> u64 {
    match month {
        2 if year % 4 == 0 => 29,
        2 => 28,
        4 | 6 | 9 | 11 => 30,
        _ => 31,
    }
}

/// A day by its number, from 0 for 1 January 1990.
pub fn day_numbered(number: u64) -> Day {
    let (mut year, mut month, mut left) = (1990, 1, number);
    while left >= days_in_month(year, month) {
        left -= days_in_month(year, month);
        month += 1;
        if month > 12 {
            (year, month) = (year + 1, 1);
        }
    }
    Day { year, month, day: left + 1 }
}

/// The number of a real day.
fn number_of(day: Day) -> u64 {
    let years: u64 = (1990..day.year).map(|year| if year % 4 == 0 { 366 } else { 365 }).sum();
    let months: u64 = (1..day.month).map(|month| days_in_month(day.year, month)).sum();
    years + months + day.day - 1
}

fn field_numbered(number: u64) -> u64 {
    date_field(day_numbered(number.min(DAYS - 1)))
}

/// A DATE that is no real one: a year from 100 on, a month or day of none.
fn unreal_field(rng: &mut Rng, number: u64) -> u64 {
    let near = field_numbered(number);
    let (no_year, no_month, no_day) = (near & !127, near & !(15 << 7), near & !(31 << 11));
    match rng.below(5) {
        0 | 1 => no_year | rng.between(100, 127),
        2 => no_month | rng.pick(&[0, 13, 14, 15]) << 7,
        3 => no_day,
        // 31 June, or 29 February of a year that isn't a leap year.
        _ if rng.chance(50) => no_month & no_day | 6 << 7 | 31 << 11,
        _ => no_year & no_month & no_day | rng.pick(&[1, 22, 23, 89, 90, 99]) | 2 << 7 | 29 << 11,
    }
}

/// The number of a DATE's day; None where it is no real one.
fn number_of_field(field: u64) -> Option<u64> {
    let year = match field & 127 {
        short @ 0..=89 => 2000 + short,
        short @ 90..=99 => 1900 + short,
        _ => return None,
    };
    let (month, day) = (field >> 7 & 15, field >> 11 & 31);
    if (1..=12).contains(&month) && (1..=days_in_month(year, month)).contains(&day) {
        Some(number_of(Day { year, month, day }))
    } else {
        None
    }
}

/// Whether an action is a season's, whatever its bits 5 to 7.
fn is_season(action: u64) -> bool {
    (3..=18).contains(&(action & 31))
}

fn switch_field(hour: u64, minute: u64, flags: u64, tier: u64) -> u64 {
    (hour & 31) << 11 | (minute & 63) << 5 | (flags & 3) << 3 | tier & 7
}

fn shuffle<T>(rng: &mut Rng, list: &mut [T]) {
    for k in (1..list.len()).rev() {
        list.swap(k, rng.index(k + 1));
    }
}

/// What is asked of a calendar that is made for the day of that number; the
/// day asked may be damaged afterwards.
struct Asked {
    number: u64,
    day: Day,
    hour: u64,
    minute: u64,
}

struct Calendar {
    order: u8,
    armed: bool,
    anchor: bool,
    weekdays: bool,
    apart: bool,
    seasons: u64,
    special: u64,
    /// DATE and action.
    dates: Vec<(u64, u64)>,
    recurring: Vec<(u64, u64)>,
    /// Switch and schedule number.
    switches: Vec<(u64, u64)>,
    rows: Vec<u8>,
}

/// The records of a calendar that chooses a season on the day asked, the later
/// of equal dates and special schedules among them.
fn dates_for(rng: &mut Rng, number: u64, seasons: u64, special: u64) -> Vec<(u64, u64)> {
    let columns = special.min(12);
    let near = |rng: &mut Rng| match rng.below(8) {
        0 | 1 => number,
        2 => number + 1,
        3 | 4 => number.saturating_sub(1),
        5 => number + rng.below(400),
        6 => number.saturating_sub(rng.below(400)),
        _ => rng.below(DAYS),
    };
    let back = rng.pick(&[0, 1, 30, 365, 3000, DAYS]);
    let first = number.saturating_sub(rng.below(back + 1));
    let mut dates = vec![(field_numbered(first), 3 + rng.below(seasons))];
    for _ in 0..rng.pick(&[0, 0, 1, 2, 3, 6]) {
        let season = if rng.chance(98) { rng.below(seasons) } else { rng.below(16) };
        let field = if rng.chance(30) {
            rng.pick(&dates).0
        } else {
            let number = near(rng);
            field_numbered(number)
        };
        dates.push((field, 3 + season));
    }
    if columns > 0 && rng.chance(35) {
        for _ in 0..rng.pick(&[1, 1, 2, 3]) {
            let dated = if rng.chance(60) { number } else { near(rng) };
            dates.push((field_numbered(dated), 19 + rng.below(columns)));
        }
    }
    // What chooses nothing: other actions, and dates that are no real ones.
    for _ in 0..rng.pick(&[0, 0, 1, 2]) {
        let dated = near(rng);
        dates.push((field_numbered(dated), rng.pick(&[31, 31, 0, 1, 2])));
    }
    for _ in 0..rng.pick(&[0, 0, 0, 1, 2]) {
        let action = if columns > 0 && rng.chance(30) {
            19 + rng.below(columns)
        } else {
            3 + rng.below(seasons)
        };
        dates.push((unreal_field(rng, number), action));
    }
    if rng.chance(50) {
        shuffle(rng, &mut dates);
    }
    if rng.chance(10) {
        dates.insert(0, (field_numbered(number), 31));
    }
    for (_, action) in &mut dates {
        if rng.chance(15) {
            *action |= rng.pick(&[0x20, 0x40, 0x80, 0xe0]);
        }
    }
    dates
}

/// The switches of eight schedules numbered from `first`, each with a tier of
/// its own from some time on; often others beside them.
fn switches_for(rng: &mut Rng, asked: &Asked, first: u64) -> Vec<(u64, u64)> {
    let (hour, minute) = (asked.hour, asked.minute);
    let (turn, start) = (rng.pick(&[1, 3, 5, 7]), rng.below(8));
    let late = rng.chance(8);
    let mut switches = Vec::new();
    for schedule in 0..8 {
        let (h, m) = match rng.below(4) {
            _ if late => (rng.between(hour, 23), rng.between(minute + 1, 63)),
            0 => (hour, rng.below(minute + 1)),
            1 => (rng.below(hour + 1), 0),
            _ => (0, 0),
        };
        switches.push((switch_field(h, m, 3, start + turn * schedule), first + schedule));
    }
    let others = if rng.chance(50) {
        0
    } else if rng.chance(1) {
        rng.pick(&[255, 256, 300, 1000, 2500, 5000])
    } else {
        rng.between(1, 14)
    };
    for _ in 0..others {
        let (field, schedule) = rng.pick(&switches);
        let (h, m) = match rng.below(8) {
            // At a time that another of the schedule has.
            0 | 1 => (field >> 11 & 31, field >> 5 & 63),
            2 => (hour, minute),
            3 => (hour, minute + 1),
            4 => (hour, minute.saturating_sub(1)),
            5 => (rng.between(24, 31), rng.below(60)),
            6 => (rng.below(hour + 1), rng.between(60, 63)),
            _ => (rng.below(24), rng.below(60)),
        };
        let schedule = if rng.chance(90) { schedule } else { rng.below(256) };
        switches.push((switch_field(h, m, rng.below(4), rng.below(8)), schedule));
    }
    if rng.chance(30) {
        shuffle(rng, &mut switches);
    }
    switches
}

fn calendar_for(rng: &mut Rng, asked: &Asked) -> Calendar {
    let weekdays = rng.chance(60);
    let seasons = rng.pick(&[1, 1, 2, 2, 3, 4, 15]);
    let special = rng.pick(&[0, 0, 1, 1, 2, 5, 11, 12, 15]);
    let width = if weekdays { 7 } else { 3 } + special;
    let dates = dates_for(rng, asked.number, seasons, special);
    // Recurring records that would choose, if they were taken for others.
    let recurring = (0..rng.pick(&[0, 0, 0, 1, 2, 5]))
        .map(|_| (field_numbered(asked.number), rng.between(3, 30)))
        .collect();
    let first = rng.below(249);
    let switches = switches_for(rng, asked, first);
    let shift = rng.below(8);
    let rows = (0..seasons * width)
        .map(|cell| {
            if rng.chance(1) {
                rng.octet()
            } else {
                // Side by side, and one below another, they differ.
                (first + (cell % width + 3 * (cell / width) + shift) % 8) as u8
            }
        })
        .collect();
    Calendar {
        order: rng.pick(&[0, 1, 0, 1, 0xfe, 0xff]),
        armed: false,
        anchor: rng.chance(40),
        weekdays,
        apart: rng.chance(50),
        seasons,
        special,
        dates,
        recurring,
        switches,
        rows,
    }
}

/// Tables 51 and 54 of a calendar. What the calendar doesn't use of them is
/// anything.
fn tables_of(rng: &mut Rng, calendar: &Calendar) -> (Vec<u8>, Vec<u8>) {
    let two = |field: u64| -> [u8; 2] {
        if calendar.order & 1 == 1 {
            (field as u16).to_be_bytes()
        } else {
            (field as u16).to_le_bytes()
        }
    };
    let flags_1 = rng.octet() & 0xd7 | (calendar.armed as u8) << 3 | (calendar.anchor as u8) << 5;
    let flags_2 = rng.octet() & 0xf9 | (calendar.weekdays as u8) << 1 | (calendar.apart as u8) << 2;
    let mut t51 = vec![
        flags_1,
        flags_2,
        (calendar.seasons | calendar.special << 4) as u8,
        calendar.dates.len() as u8,
        calendar.recurring.len() as u8,
    ];
    t51.extend_from_slice(&two(calendar.switches.len() as u64));
    t51.extend_from_slice(&[rng.octet(), rng.octet()]);
    let mut t54 = Vec::new();
    if calendar.anchor {
        t54.extend_from_slice(&[rng.octet(), rng.octet()]);
    }
    for (field, octet) in
        calendar.dates.iter().chain(&calendar.recurring).chain(&calendar.switches)
    {
        t54.extend_from_slice(&two(*field));
        t54.push(*octet as u8);
    }
    t54.extend_from_slice(&calendar.rows);
    (t51, t54)
}

/// Octets as one BLOCK, or as few as they need.
fn in_blocks(length: usize) -> Vec<u32> {
    let last = length % 4095;
    let mut items = vec![block(4095); length / 4095];
    if last > 0 {
        items.push(block(last as u32));
    }
    items
}

/// Table 54 counted by dimensions of table 00, wherever Table 51 stands: its
/// body, for slots 40 to 43.
fn counted(rng: &mut Rng) -> Vec<u32> {
    let record = |rng: &mut Rng| match rng.below(3) {
        0 => vec![block(3)],
        1 => vec![uint(2, 0), uint(1, 0)],
        _ => vec![uint(1, 0), uint(1, 0), uint(1, 0)],
    };
    let mut items = vec![set(reference(40, 0, 2), false)];
    for (slot, bits) in [(41, 8), (42, 16)] {
        let body = record(rng);
        items.push(array(reference(slot, 0, bits), body.len()));
        items.extend_from_slice(&body);
    }
    items.push(set(reference(43, 0, 16), false));
    items
}

/// A description and an image of the tables given, divided in one of several
/// ways, among others and in another order now and then.
fn described(
    rng: &mut Rng,
    calendar: &Calendar,
    tables: &[(bool, u32, Vec<u8>)],
) -> (Maker, Vec<u8>) {
    let mut maker = Maker {
        words: vec![table(false, 0, rng.chance(50), 1), uint(1, 1)],
        slots: vec![(1, 1)],
        tables: vec![(false, 0)],
        wishes: [None; 64],
        room: 0,
    };
    let mut image = vec![calendar.order];
    let style = rng.below(6);
    if style == 0 {
        // Dimensions for `counted`.
        let dimensions = [
            (40, 1, if calendar.anchor { 2 } else { 0 }),
            (41, 1, calendar.dates.len() + calendar.recurring.len()),
            (42, 2, calendar.switches.len()),
            (43, 2, calendar.rows.len()),
        ];
        maker.words[0] += dimensions.len() as u32;
        for (slot, octets, size) in dimensions {
            maker.slots.push((slot, octets));
            maker.words.push(uint(octets, slot));
            let mut number = size.to_le_bytes()[..octets as usize].to_vec();
            if calendar.order & 1 == 1 {
                number.reverse();
            }
            image.extend_from_slice(&number);
        }
    } else if rng.chance(30) {
        // The rest of the general configuration.
        maker.words[0] += 1;
        maker.words.push(block(18));
        image.extend((0..18).map(|_| rng.octet()));
    }
    let mut parts = tables.to_vec();
    let sized_by_51 = style == 1 && tables.len() == 2 && tables.iter().all(|(mfr, ..)| !mfr);
    if !sized_by_51 && rng.chance(40) {
        shuffle(rng, &mut parts);
    }
    if rng.chance(30) {
        let length = rng.index(5);
        let filler: Vec<u8> = (0..length).map(|_| rng.octet()).collect();
        let other = (rng.chance(50), rng.pick(&[1, 50, 52, 2047]), filler);
        let place = rng.index(parts.len() + 1);
        parts.insert(place, other);
    }
    let mut standard = as_standard(rng).to_vec();
    let table_54 = standard.split_off(8);
    for (mfr, number, octets) in &parts {
        maker.tables.push((*mfr, *number));
        image.extend_from_slice(octets);
        let items = match (style, *mfr, *number) {
            (1, false, 51) if sized_by_51 => standard[1..].to_vec(),
            (1, false, 54) if sized_by_51 => table_54[1..].to_vec(),
            (0, false, 54) => counted(rng),
            (2 | 3, ..) => in_blocks(octets.len()),
            _ => divided(rng, octets.len()),
        };
        maker.words.push(table(*mfr, *number, rng.chance(50), items.len()));
        maker.words.extend_from_slice(&items);
    }
    if sized_by_51 {
        maker.slots.extend_from_slice(&[(32, 1), (33, 1), (34, 1), (35, 1), (36, 1), (37, 2)]);
    }
    (maker, image)
}

/// A day that isn't: 16.
pub fn unreal_day(rng: &mut Rng, day: &mut Day) {
    match rng.below(10) {
        0 | 1 => day.year = rng.pick(&[1989, 2090, 0, MOST, 24, 99, 2100, 1889]),
        2 => day.year += rng.pick(&[1 << 8, 1 << 16, 100, 1 << 31]),
        3 => day.month = rng.pick(&[0, 13, 14, MOST]),
        4 => day.month += rng.pick(&[1 << 8, 1 << 16, 16, 12]),
        5 => day.day = rng.pick(&[0, 32, MOST]),
        6 => day.day += rng.pick(&[1 << 8, 1 << 16, 32]),
        7 | 8 => {
            // 29 February, mostly of a year that isn't a leap year.
            day.year = rng.pick(&[day.year, 2023, 2025, 1990, 2089, 2001, 1999, 2000, 2024]);
            day.month = 2;
            day.day = rng.pick(&[29, 29, 30]);
        }
        _ => {
            day.month = rng.pick(&[4, 6, 9, 11]);
            day.day = 31;
        }
    }
}

/// A day or a time that isn't: 16.
fn unreal(rng: &mut Rng, asked: &mut Asked) {
    match rng.below(12) {
        0 | 1 => {
            (asked.hour, asked.minute) = rng.pick(&[
                (24, 0), (24, 0), (24, 1), (25, 0), (MOST, 0), (12, 60), (12, 60), (12, 61),
                (12, 63), (0, MOST), (23, 60),
            ]);
        }
        2 => {
            asked.hour += rng.pick(&[0, 1 << 8, 1 << 16, 32]);
            asked.minute += rng.pick(&[1 << 8, 1 << 16, 64]);
        }
        _ => unreal_day(rng, &mut asked.day),
    }
}

/// The day to ask seasoned of: a season record's, or one next to it, which may
/// be 31 December 1989 or 1 January 2090; or the day that the calendar is for.
fn day_beside_a_record(rng: &mut Rng, calendar: &Calendar, asked: &Asked) -> Day {
    let numbers: Vec<u64> = calendar
        .dates
        .iter()
        .filter(|(_, action)| is_season(*action))
        .filter_map(|(field, _)| number_of_field(*field))
        .collect();
    if numbers.is_empty() || rng.chance(40) {
        return asked.day;
    }
    match (rng.pick(&numbers), rng.below(3)) {
        (0, 0) => Day { year: 1989, month: 12, day: 31 },
        (number, step) => day_numbered(number + step - 1),
    }
}

/// A day before every season record: season 0 (document 02, E1). There is no
/// record at all, as in a new meter, or the season records are dated later, have
/// no real date, or are records of another action.
fn before_every_record(rng: &mut Rng, calendar: &mut Calendar, number: u64) {
    let how = rng.below(6);
    if how == 0 {
        calendar.dates.clear();
        let width = calendar.rows.len() / calendar.seasons as usize;
        calendar.seasons = rng.pick(&[1, 1, 0, calendar.seasons]);
        calendar.rows.truncate(calendar.seasons as usize * width);
    }
    for (field, action) in &mut calendar.dates {
        if is_season(*action) {
            match how {
                1..=3 if number + 1 < DAYS => {
                    *field = field_numbered(number + 1 + rng.pick(&[0, 0, 1, 30, 4000]));
                }
                4 => *field = unreal_field(rng, number),
                _ => *action = rng.pick(&[0, 1, 2, 31]),
            }
        }
    }
}

/// A season without a row, or a special schedule without a column: 19.
fn no_place(rng: &mut Rng, calendar: &mut Calendar, number: u64) {
    match rng.below(4) {
        0 => {
            calendar.seasons = 0;
            calendar.rows.clear();
        }
        // No season record's season has a row.
        1 => {
            for (_, action) in &mut calendar.dates {
                if is_season(*action) {
                    let beyond = [calendar.seasons, calendar.seasons.max(14), 15, 15];
                    *action = *action & 0xe0 | 3 + rng.pick(&beyond);
                }
            }
        }
        2 if calendar.special < 12 => {
            let beyond = rng.pick(&[calendar.special, calendar.special, 11]);
            calendar.dates.push((field_numbered(number), 19 + beyond));
        }
        _ => {
            let beyond = rng.pick(&[calendar.seasons, calendar.seasons, 15]);
            calendar.dates.push((field_numbered(number), 3 + beyond));
        }
    }
}

/// Records that choose nothing, before the others or after them, until there are
/// as many as one octet counts.
fn fill_up(rng: &mut Rng, calendar: &mut Calendar, number: u64) {
    let first = rng.chance(50);
    while calendar.dates.len() + calendar.recurring.len() < 255 {
        let record = if rng.chance(10) {
            (unreal_field(rng, number), 3)
        } else {
            (field_numbered(rng.below(DAYS)), rng.pick(&[31, 0, 1, 2]))
        };
        let place = if first { 0 } else { calendar.dates.len() };
        calendar.dates.insert(place, record);
    }
}

/// Tables of another size than Table 51 says: 20.
fn another_size(rng: &mut Rng, t51: &mut Vec<u8>, t54: &mut Vec<u8>) {
    match rng.below(7) {
        0 => t51.push(rng.octet()),
        1 => {
            t51.pop();
        }
        2 | 3 => t54.push(rng.octet()),
        4 => {
            t54.pop();
        }
        // Another count, or the same in the other order.
        5 => {
            let place = rng.index(7);
            t51[place] ^= 1 << rng.below(8);
        }
        _ => t51.swap(5, 6),
    }
}

/// The k-th request of the kind calendar.
pub fn request(rng: &mut Rng, k: u64) -> String {
    let walked = k % 4 == 0;
    if !walked && rng.chance(35) {
        return calendar_request(rng);
    }
    let question = if walked { "tier" } else { calendar_question(rng) };
    let number = if walked {
        k / 4 % DAYS
    } else if rng.chance(80) {
        rng.below(DAYS)
    } else {
        // Round 1 January 1990, 29 February 2000, 31 December 2089.
        rng.pick(&[0, 1, 2, 3709, 3710, 3711, 3712, DAYS - 3, DAYS - 2, DAYS - 1])
    };
    let mut asked = Asked {
        number,
        day: day_numbered(number),
        hour: if rng.chance(60) { rng.below(24) } else { rng.pick(&[0, 23]) },
        minute: if rng.chance(60) { rng.below(60) } else { rng.pick(&[0, 59]) },
    };
    let mut calendar = calendar_for(rng, &asked);

    // Faults, by the number that they are likely refused with; 1 stands for
    // those of the description, and 0 for a day before every season record,
    // which is none.
    let mut faults = Vec::new();
    if !walked {
        for _ in 0..rng.pick(&[0, 0, 0, 0, 1, 1, 1, 2, 2, 3]) {
            faults.push(if rng.below(140) == 0 {
                8
            } else {
                rng.pick(&[1, 1, 1, 1, 9, 10, 16, 16, 0, 0, 18, 18, 19, 19, 20, 20])
            });
        }
        // What document 02's E1 is about comes more often. To seasoned neither
        // 18 nor 19 is a fault.
        let more: &[(u64, u64)] = match question {
            "seasoned" => &[(0, 35), (16, 12), (18, 10), (19, 10)],
            "tier" => &[(0, 12), (16, 4), (18, 4)],
            _ => &[],
        };
        for (fault, percent) in more {
            if rng.chance(*percent) {
                faults.push(*fault);
            }
        }
    }
    let has = |fault: u64| faults.contains(&fault);
    if has(0) {
        before_every_record(rng, &mut calendar, number);
    }
    if has(19) {
        no_place(rng, &mut calendar, number);
    }
    if rng.chance(if question == "seasoned" { 5 } else { 1 }) {
        fill_up(rng, &mut calendar, number);
    }
    if question == "seasoned" {
        asked.day = day_beside_a_record(rng, &calendar, &asked);
    }
    match question {
        "seasoned" if has(16) => unreal_day(rng, &mut asked.day),
        _ if has(16) => unreal(rng, &mut asked),
        _ => {}
    }
    calendar.armed = has(18);
    let (mut t51, mut t54) = tables_of(rng, &calendar);
    if has(20) {
        another_size(rng, &mut t51, &mut t54);
    }
    let mut tables = vec![(false, 51, t51), (false, 54, t54)];
    if has(10) {
        let place = rng.index(2);
        if rng.chance(50) {
            tables.remove(place);
        } else {
            tables[place].0 = true;
        }
    }
    let (maker, mut image) = described(rng, &calendar, &tables);
    if has(9) {
        let length = if rng.chance(50) { image.len() - 1 } else { rng.index(image.len()) };
        image.truncate(length);
    } else if has(8) {
        let length = rng.pick(&[65_536, 65_536, 65_537, 65_540]);
        image.resize(length, 0);
    } else if rng.chance(10) {
        // Octets past the total belong to no table.
        image.extend((0..1 + rng.below(9)).map(|_| rng.octet()));
    }
    let description =
        if has(1) { damage(rng, maker) } else { octets_of_words(&maker.words) };
    let start = format!("{} {}", hex(&description), hex(&image));
    let Asked { day, hour, minute, .. } = asked;
    line_of(rng, question, &start, day, hour, minute)
}

#[cfg(test)]
mod tests {
    use super::*;

    #[test]
    fn days_and_their_numbers() {
        for number in 0..DAYS {
            assert_eq!(number_of(day_numbered(number)), number);
            assert_eq!(number_of_field(field_numbered(number)), Some(number));
        }
        for seed in 0..20_000 {
            let mut rng = Rng(seed);
            let number = rng.below(DAYS);
            assert_eq!(number_of_field(unreal_field(&mut rng, number)), None, "seed {seed}");
        }
    }
}
