//! The calendar of Tables 51 and 54 (refusals 16, 18, 19 and 20).

use crate::access::table_in;
use crate::layout::{lay_out, number_of};
use crate::refusal::Refusal;

/// A day; days compare as year, month, day.
#[derive(Clone, Copy, PartialEq, Eq, PartialOrd, Ord, Debug)]
pub struct Date {
    pub year: u32,
    pub month: u32,
    pub day: u32,
}

/// "tier": what a tier is asked for.
#[derive(Clone, Copy, PartialEq, Eq, Debug)]
pub enum What {
    Summations,
    Demands,
}

/// A season action or a special schedule, with the day it is dated.
#[derive(Clone, Copy, PartialEq, Eq, Debug)]
struct DateRecord {
    date: Date,
    action: u8,
}

/// One tier switch as it stands in Table 54.
#[derive(Clone, Copy, PartialEq, Eq, Debug)]
struct Switch {
    tier: u64,
    for_summations: bool,
    for_demands: bool,
    minute: u64,
    hour: u64,
    schedule: u8,
}

/// Tables 51 and 54, read.
struct Calendar {
    season_change_armed: bool,
    separate_weekdays: bool,
    separate_sum_demands: bool,
    seasons: usize,
    special_schedules: usize,
    dates: Vec<DateRecord>,
    switches: Vec<Switch>,
    /// S rows of 7 + P or 3 + P.
    rows: Vec<Vec<u8>>,
}

/// Whether a year has a 29 February. "Weekdays are Gregorian".
fn is_leap(year: u32) -> bool {
    year % 4 == 0 && (year % 100 != 0 || year % 400 == 0)
}

fn days_in_month(year: u32, month: u32) -> u32 {
    match month {
        1 | 3 | 5 | 7 | 8 | 10 | 12 => 31,
        4 | 6 | 9 | 11 => 30,
        2 if is_leap(year) => 29,
        2 => 28,
        _ => 0,
    }
}

/// "a real date from 1 January 1990 to 31 December 2089".
pub fn is_real(date: Date) -> bool {
    1990 <= date.year
        && date.year <= 2089
        && 1 <= date.month
        && date.month <= 12
        && 1 <= date.day
        && date.day <= days_in_month(date.year, date.month)
}

/// "Weekdays are Gregorian; 1 January 2000 was a Saturday." 0 is Sunday, 6 is
/// Saturday. Counted for real dates only.
pub fn weekday(date: Date) -> u32 {
    // Days from 1 January 1990 to a day.
    let days_before = |date: Date| -> u32 {
        let mut days = 0;
        for year in 1990..date.year {
            days += if is_leap(year) { 366 } else { 365 };
        }
        for month in 1..date.month {
            days += days_in_month(date.year, month);
        }
        days + date.day - 1
    };
    let saturday = days_before(Date { year: 2000, month: 1, day: 1 });
    // 7,000 days more, so that the difference isn't below 0.
    (days_before(date) + 7000 - saturday + 6) % 7
}

/// "DATE: year bits 0..6, month 7..10, day 11..15; years 0..89 are 2000 on,
/// 90..99 are 1990 on." None where it isn't a real date.
pub fn read_date(field: u64) -> Option<Date> {
    let short_year = (field % 128) as u32;
    let month = (field / 128 % 16) as u32;
    let day = (field / 2048 % 32) as u32;
    let year = match short_year {
        0..=89 => 2000 + short_year,
        90..=99 => 1990 + (short_year - 90),
        _ => return None,
    };
    let date = Date { year, month, day };
    if is_real(date) {
        Some(date)
    } else {
        None
    }
}

/// "Switch: tier bits 0..2, summation flag 3, demand flag 4, minute 5..10,
/// hour 11..15."
fn read_switch(field: u64, schedule: u8) -> Switch {
    Switch {
        tier: field % 8,
        for_summations: field / 8 % 2 == 1,
        for_demands: field / 16 % 2 == 1,
        minute: field / 32 % 64,
        hour: field / 2048 % 32,
        schedule,
    }
}

/// Reading along the octets of Table 54.
struct Reader<'a> {
    rest: &'a [u8],
    most_significant_first: bool,
}

impl<'a> Reader<'a> {
    fn octets(&mut self, count: usize) -> &'a [u8] {
        let (taken, rest) = self.rest.split_at(count.min(self.rest.len()));
        self.rest = rest;
        taken
    }

    /// "Two-octet fields of tables 51 and 54 are read in the image's
    /// DATA_ORDER, however the description divides those tables."
    fn two(&mut self) -> u64 {
        number_of(self.octets(2), self.most_significant_first)
    }

    fn one(&mut self) -> u8 {
        self.octets(1).first().copied().unwrap_or(0)
    }
}

/// Tables 51 and 54 of an image. Order: 1 to 9, 10 (tables 00, 51, 54), 20.
fn read_calendar(d: &[u8], image: &[u8]) -> Result<Calendar, Refusal> {
    let layout = lay_out(d, image)?;
    table_in(&layout, false, 0)?;
    let table_51 = table_in(&layout, false, 51)?.part(image);
    let table_54 = table_in(&layout, false, 54)?.part(image);

    // Refusal 20: "Table 51 isn't 9 octets, or Table 54 isn't the size below".
    if table_51.len() != 9 {
        return Err(Refusal::plain(20));
    }

    // "flag octet 1: bit 3 SEASON_CHNG_ARMED, bit 5 ANCHOR_DATE; flag octet 2:
    // bit 1 SEPARATE_WEEKDAYS, bit 2 SEPARATE_SUM_DEMANDS; octet 3: seasons S
    // (bits 0..3), special schedules P (bits 4..7); then non-recurring dates N
    // and recurring dates R, one octet each; tier switches T, two; table size,
    // two, not used here."
    let mut reader = Reader {
        rest: table_51,
        most_significant_first: layout.most_significant_first,
    };
    let flags_1 = reader.one();
    let flags_2 = reader.one();
    let counts = reader.one();
    let non_recurring = usize::from(reader.one());
    let recurring = usize::from(reader.one());
    let tier_switches = reader.two() as usize;

    let season_change_armed = flags_1 / 8 % 2 == 1;
    let anchor_date = flags_1 / 32 % 2 == 1;
    let separate_weekdays = flags_2 / 2 % 2 == 1;
    let separate_sum_demands = flags_2 / 4 % 2 == 1;
    let seasons = usize::from(counts % 16);
    let special_schedules = usize::from(counts / 16);

    // "anchor date, 2 octets if flagged; N records of DATE (2) and action (1);
    // R of RDATE (2) and action (1); T of switch (2) and schedule number (1); S
    // rows of 7 + P (Sunday first) or, SEPARATE_WEEKDAYS false, 3 + P".
    let anchor_octets = if anchor_date { 2 } else { 0 };
    let row = if separate_weekdays { 7 } else { 3 } + special_schedules;
    let size = anchor_octets
        + 3 * non_recurring
        + 3 * recurring
        + 3 * tier_switches
        + seasons * row;
    if table_54.len() != size {
        return Err(Refusal::plain(20));
    }

    let mut reader = Reader {
        rest: table_54,
        most_significant_first: layout.most_significant_first,
    };
    reader.octets(anchor_octets);
    let mut dates = Vec::new();
    for _ in 0..non_recurring {
        let field = reader.two();
        // "Action bits 0..4"
        let action = reader.one() % 32;
        // "Records without a real date are skipped."
        if let Some(date) = read_date(field) {
            dates.push(DateRecord { date, action });
        }
    }
    // "Recurring records are read past and not applied."
    reader.octets(3 * recurring);
    let mut switches = Vec::new();
    for _ in 0..tier_switches {
        let field = reader.two();
        let schedule = reader.one();
        switches.push(read_switch(field, schedule));
    }
    let mut rows = Vec::new();
    for _ in 0..seasons {
        rows.push(reader.octets(row).to_vec());
    }

    Ok(Calendar {
        season_change_armed,
        separate_weekdays,
        separate_sum_demands,
        seasons,
        special_schedules,
        dates,
        switches,
        rows,
    })
}

/// "Action bits 0..4: 3 to 18 select season 0 to 15".
fn season_of(action: u8) -> Option<usize> {
    match action {
        3..=18 => Some(usize::from(action) - 3),
        _ => None,
    }
}

/// "19 to 30 special schedule 0 to 11". (31 is a dated notice and chooses
/// nothing, nor does it end the list.)
fn special_of(action: u8) -> Option<usize> {
    match action {
        19..=30 => Some(usize::from(action) - 19),
        _ => None,
    }
}

/// "The season on a day is chosen by the non-recurring season action with the
/// latest date not after it; of equal dates, the later record." None where no
/// season record chooses one.
fn season_chosen(calendar: &Calendar, day: Date) -> Option<usize> {
    let mut chosen: Option<(Date, usize)> = None;
    for record in &calendar.dates {
        if let Some(season) = season_of(record.action) {
            if record.date <= day {
                let replaces = match chosen {
                    None => true,
                    Some((date, _)) => record.date >= date,
                };
                if replaces {
                    chosen = Some((record.date, season));
                }
            }
        }
    }
    chosen.map(|(_, season)| season)
}

/// Document 02, E1: "a day before every season record is in season 0".
fn season_on(calendar: &Calendar, day: Date) -> usize {
    season_chosen(calendar, day).unwrap_or(0)
}

/// "A special schedule holds for its own date only; the later record wins."
fn special_on(calendar: &Calendar, day: Date) -> Option<usize> {
    let mut chosen = None;
    for record in &calendar.dates {
        if let Some(special) = special_of(record.action) {
            if record.date == day {
                chosen = Some(special);
            }
        }
    }
    chosen
}

/// The column of a day in a row: "Sunday first" or "Saturday, Sunday,
/// weekday"; "special schedule k in column 7 + k or 3 + k". None where the
/// special schedule has no column.
fn column_on(calendar: &Calendar, day: Date) -> Option<usize> {
    match special_on(calendar, day) {
        Some(special) => {
            if special >= calendar.special_schedules {
                None
            } else if calendar.separate_weekdays {
                Some(7 + special)
            } else {
                Some(3 + special)
            }
        }
        None => {
            let weekday = weekday(day) as usize;
            if calendar.separate_weekdays {
                Some(weekday)
            } else {
                match weekday {
                    6 => Some(0),
                    0 => Some(1),
                    _ => Some(2),
                }
            }
        }
    }
}

/// "With SEPARATE_SUM_DEMANDS only switches flagged for what is asked
/// (summations or demands) count; without it all do."
fn counts(calendar: &Calendar, switch: &Switch, what: What) -> bool {
    if !calendar.separate_sum_demands {
        return true;
    }
    match what {
        What::Summations => switch.for_summations,
        What::Demands => switch.for_demands,
    }
}

/// "The tier is that of the latest switch of that number at or before the
/// time; of equal times, the later record; hours over 23 or minutes over 59
/// are skipped." None is "none yet today".
fn tier_at(calendar: &Calendar, schedule: u8, hour: u64, minute: u64, what: What) -> Option<u64> {
    let mut chosen: Option<(u64, u64, u64)> = None;
    for switch in &calendar.switches {
        let is_time = switch.hour <= 23 && switch.minute <= 59;
        let time = (switch.hour, switch.minute);
        if switch.schedule == schedule
            && counts(calendar, switch, what)
            && is_time
            && time <= (hour, minute)
        {
            let replaces = match chosen {
                None => true,
                Some((hour, minute, _)) => time >= (hour, minute),
            };
            if replaces {
                chosen = Some((switch.hour, switch.minute, switch.tier));
            }
        }
    }
    chosen.map(|(_, _, tier)| tier)
}

/// Refusal 16: "not a real date from 1 January 1990 to 31 December 2089".
fn need_real(day: Date) -> Result<(), Refusal> {
    if is_real(day) {
        Ok(())
    } else {
        Err(Refusal::plain(16))
    }
}

/// The question "the tier of the calendar". Order: 1 to 9, 10, 20, 16, 18, 19.
/// (Document 02, E1: "17 is no longer given".) "No such switch: the reply is
/// "none yet today", not a refusal."
pub fn tier(
    d: &[u8],
    image: &[u8],
    day: Date,
    hour: u32,
    minute: u32,
    what: What,
) -> Result<Option<u64>, Refusal> {
    let calendar = read_calendar(d, image)?;
    need_real(day)?;
    // Refusal 16: "or not a time 00:00 to 23:59".
    if hour > 23 || minute > 59 {
        return Err(Refusal::plain(16));
    }
    // Refusal 18: "SEASON_CHNG_ARMED_FLAG set".
    if calendar.season_change_armed {
        return Err(Refusal::plain(18));
    }
    // Refusal 19: "season or special schedule without a row or column".
    // Document 02, E1: "19 still applies when there are no seasons".
    let season = season_on(&calendar, day);
    if season >= calendar.seasons {
        return Err(Refusal::plain(19));
    }
    let column = match column_on(&calendar, day) {
        Some(column) => column,
        None => return Err(Refusal::plain(19)),
    };
    // "The schedule number is the matrix entry."
    let schedule = calendar.rows[season][column];
    Ok(tier_at(&calendar, schedule, u64::from(hour), u64::from(minute), what))
}

/// The question of document 02, E1: "does any season record with a real date
/// stand at or before this date". Order: 1 to 9, 10, 20, 16: it "gives 1 to 10,
/// 20 and 16 alone", so neither an armed season change nor a season without a
/// row matters to it. (Recurring records and those without a real date aren't
/// among the dates read.)
pub fn seasoned(d: &[u8], image: &[u8], day: Date) -> Result<bool, Refusal> {
    let calendar = read_calendar(d, image)?;
    need_real(day)?;
    Ok(calendar
        .dates
        .iter()
        .any(|record| season_of(record.action).is_some() && record.date <= day))
}

/// The question of document 02, E3: the weekday of a date. It takes neither
/// description nor image, so 16 is its only refusal.
pub fn weekday_of(day: Date) -> Result<u32, Refusal> {
    need_real(day)?;
    Ok(weekday(day))
}

/// "fifteen rows of twenty-two"
pub type Matrix = [[u8; 22]; 15];

/// The question "its matrix": "cells stand as in Table 54's rows ... unused
/// ones are 0. It needs no date, so 16 to 19 aren't given." Order: 1 to 9, 10,
/// 20.
pub fn matrix(d: &[u8], image: &[u8]) -> Result<Matrix, Refusal> {
    let calendar = read_calendar(d, image)?;
    let mut cells = [[0u8; 22]; 15];
    for (row, from) in cells.iter_mut().zip(&calendar.rows) {
        for (cell, octet) in row.iter_mut().zip(from) {
            *cell = *octet;
        }
    }
    Ok(cells)
}
