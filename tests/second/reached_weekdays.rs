//! What requests of the kind weekdays reach:
//!
//!     paste -d '\t' requests replies | reached_weekdays [all]
//!
//! counts, from the requests and the second program's replies, how often each
//! case that is wanted came. Prints for each group of cases how many there are
//! and the rarest beside what is wanted of it; with all, every count.
//! Of 60,000 requests and more, fails where a case came too seldom.
//!
//! Slips are cases too: faults that are easy to make in working out a weekday, of
//! each how many requests a program that slips there would answer otherwise. For
//! them weekdays are worked out here once more, by years that begin with March,
//! where the second program counts from 1990 on; without a slip they must be the
//! second program's, and so must be which lines are of no form.

mod cases;

use cases::Cases;
use std::collections::HashSet;

/// So many requests are to reach every case.
const ENOUGH: u64 = 60_000;

/// How many cases there are, those counted that no request came near to.
const CASES: usize = 224;

const MOST: u128 = u32::MAX as u128;

#[derive(Clone, Copy, PartialEq, Eq)]
enum Slip {
    Nowhere,
    // Counting days.
    LeapDayNotCounted,
    LeapDayFromJanuary,
    Common2000,
    NotShifted,
    MonthsInTurn,
    WrapsBefore2000,
    // Naming weekdays.
    MondayIs0,
    SaturdayIs0,
    SundayIs7,
    From1,
    // Which dates are real.
    From1989,
    From1991,
    To2088,
    To2090,
    NoLeapYears,
    EveryYearLeap,
    LeapOf30,
    Days31,
    Month0Taken,
    Month13Taken,
    Day0Taken,
    WeekdayOn16,
    // Reading numbers.
    YearOf16Bits,
    MonthOf8Bits,
    DayOf8Bits,
    ShortYears,
    Exchanged,
}

use Slip::*;

/// Each slip, how it shows, and how many requests are to show it.
const SLIPS: [(Slip, u64, &str); 27] = [
    (LeapDayNotCounted, 7000, "29 February not counted in its own year"),
    (LeapDayFromJanuary, 1400, "29 February counted from 1 January on"),
    (Common2000, 30_000, "2000 taken for a common year"),
    (NotShifted, 5500, "January and February not of the year before"),
    (MonthsInTurn, 10_000, "months of 31 and 30 days in turn from January on"),
    (WrapsBefore2000, 3000, "a difference of days below 0 wrapped"),
    (MondayIs0, 36_525, "Monday 0"),
    (SaturdayIs0, 36_525, "Saturday 0"),
    (SundayIs7, 5000, "Sunday 7"),
    (From1, 36_525, "Sunday 1"),
    (From1989, 365, "1989 taken"),
    (From1991, 365, "1990 not taken"),
    (To2088, 365, "2089 not taken"),
    (To2090, 365, "2090 taken"),
    (NoLeapYears, 25, "29 February never taken"),
    (EveryYearLeap, 75, "29 February taken in every year"),
    (LeapOf30, 25, "30 February taken in leap years"),
    (Days31, 700, "31 days taken in every month"),
    (Month0Taken, 3000, "month 0 taken for December of the year before"),
    (Month13Taken, 3000, "month 13 taken for January of the year after"),
    (Day0Taken, 1200, "day 0 taken for the last of the month before"),
    (WeekdayOn16, 8000, "a weekday told beside 16"),
    (YearOf16Bits, 10, "year cut to 16 bits"),
    (MonthOf8Bits, 20, "month cut to 8 bits"),
    (DayOf8Bits, 20, "day cut to 8 bits"),
    (ShortYears, 20, "years 0 to 99 taken as in a DATE"),
    (Exchanged, 20_000, "month and day exchanged"),
];

/// Year, month, day.
type Date = (u64, u64, u64);

const MONTH_NAMES: [&str; 12] = [
    "January", "February", "March", "April", "May", "June", "July", "August", "September",
    "October", "November", "December",
];

const WEEKDAY_NAMES: [&str; 7] =
    ["Sunday", "Monday", "Tuesday", "Wednesday", "Thursday", "Friday", "Saturday"];

// ---------------------------------------------------------------- weekdays

fn is_leap(year: u64) -> bool {
    year % 4 == 0 && (year % 100 != 0 || year % 400 == 0)
}

/// The days of a month from 1 to 12.
fn length_of(year: u64, month: u64, slip: Slip) -> u64 {
    let leap = match slip {
        NoLeapYears => false,
        EveryYearLeap => true,
        Common2000 if year == 2000 => false,
        _ => is_leap(year),
    };
    match month {
        _ if slip == Days31 => 31,
        2 if leap && slip == LeapOf30 => 30,
        2 if leap => 29,
        2 => 28,
        4 | 6 | 9 | 11 => 30,
        _ => 31,
    }
}

fn is_real((year, month, day): Date, slip: Slip) -> bool {
    let first = match slip {
        From1989 => 1989,
        From1991 => 1991,
        _ => 1990,
    };
    let last = match slip {
        To2088 => 2088,
        To2090 => 2090,
        _ => 2089,
    };
    let least = if slip == Day0Taken { 0 } else { 1 };
    (first..=last).contains(&year)
        && (1..=12).contains(&month)
        && (least..=length_of(year, month, slip)).contains(&day)
}

/// Days before a month in a year that begins with March, so that a leap day is
/// its last.
const BEFORE: [u64; 12] = [0, 31, 61, 92, 122, 153, 184, 214, 245, 275, 306, 337];

/// The same where months have 31 and 30 days in turn from January on, February
/// apart: August and October of 30, September and November of 31.
const BEFORE_IN_TURN: [u64; 12] = [0, 31, 61, 92, 122, 153, 183, 214, 244, 275, 305, 336];

/// A day's number: the days from one long ago to it.
fn day_number((year, month, day): Date, slip: Slip) -> u64 {
    let early = month <= 2;
    let years = if early && slip != NotShifted { year.saturating_sub(1) } else { year };
    let leaps = if slip == LeapDayFromJanuary { year } else { years };
    let leap_days = leaps / 4 - leaps / 100 + leaps / 400;
    let before = if slip == MonthsInTurn { BEFORE_IN_TURN } else { BEFORE };
    let number = 365 * years + leap_days + before[(month as usize + 9) % 12] + day;
    match slip {
        LeapDayNotCounted if is_leap(year) && !early => number - 1,
        Common2000 if years >= 2000 => number - 1,
        _ => number,
    }
}

/// 0 is Sunday. 1 January 2000, a Saturday, is what days are counted from,
/// whatever the slip: it is to show in other dates.
fn weekday(date: Date, slip: Slip) -> u64 {
    let (number, saturday) = (day_number(date, slip), day_number((2000, 1, 1), Nowhere));
    let weekday = if slip == WrapsBefore2000 {
        (number as u32).wrapping_sub(saturday as u32).wrapping_add(6) % 7
    } else {
        ((number as i64 - saturday as i64 + 6).rem_euclid(7)) as u32
    };
    let weekday = u64::from(weekday);
    match slip {
        MondayIs0 => (weekday + 6) % 7,
        SaturdayIs0 => (weekday + 1) % 7,
        SundayIs7 if weekday == 0 => 7,
        From1 => weekday + 1,
        _ => weekday,
    }
}

/// The date that a slip takes a request's numbers for.
fn as_taken((year, month, day): Date, slip: Slip) -> Date {
    match slip {
        YearOf16Bits => (year & 0xffff, month, day),
        MonthOf8Bits => (year, month & 0xff, day),
        DayOf8Bits => (year, month, day & 0xff),
        Exchanged => (year, day, month),
        ShortYears if year <= 89 => (2000 + year, month, day),
        ShortYears if year <= 99 => (1900 + year, month, day),
        Month0Taken if month == 0 => (year.saturating_sub(1), 12, day),
        Month13Taken if month == 13 => (year + 1, 1, day),
        _ => (year, month, day),
    }
}

/// The reply: number and weekday.
fn answer(date: Date, slip: Slip) -> (u64, u64) {
    let date = as_taken(date, slip);
    match is_real(date, slip) {
        true => (0, weekday(date, slip)),
        false if slip == WeekdayOn16 => (16, weekday(date, slip)),
        false => (16, 0),
    }
}

// ------------------------------------------------------------------- words

/// A word of digits alone, as large as it may be.
fn number(word: &str) -> Option<u128> {
    if !word.is_empty() && word.bytes().all(|octet| octet.is_ascii_digit()) {
        Some(word.parse().unwrap_or(u128::MAX))
    } else {
        None
    }
}

/// The three numbers of a request, cut to so many bits.
fn cut(words: &[&str], bits: u32) -> Option<Date> {
    let numbers: Vec<u128> = words.iter().map(|word| number(word)).collect::<Option<_>>()?;
    let part = |place: usize| (numbers[place] & ((1 << bits) - 1)) as u64;
    if numbers.len() == 3 {
        Some((part(0), part(1), part(2)))
    } else {
        None
    }
}

/// The date that a request asks for, where it is of the form.
fn asked(words: &[&str]) -> Option<Date> {
    if words.iter().all(|word| number(word).map_or(false, |value| value <= MOST)) {
        cut(words, 32)
    } else {
        None
    }
}

// ------------------------------------------------------------------ counts

const PLACES: [&str; 3] = ["year", "month", "day"];

struct Counts {
    real: HashSet<Date>,
    leap_days: HashSet<Date>,
    no_leap_days: HashSet<Date>,
    /// By month and weekday.
    told: [[u64; 7]; 12],
    asked: Cases,
    weekdays: Cases,
    refused: Cases,
    past_the_end: Cases,
    far: Cases,
    no_form: Cases,
    slips: Cases,
}

impl Counts {
    fn request(&mut self, request: &str, reply: &str) -> Result<(), String> {
        let words: Vec<&str> = request.split(' ').collect();
        if words[0] != "weekday" {
            // A line that was spoiled.
            self.no_form.count("another question", 100, reply == "?");
            return Ok(());
        }
        let words = &words[1..];
        let date = asked(words);
        let right = match date {
            Some(date) => {
                let (number, weekday) = answer(date, Nowhere);
                format!("{number} {weekday}")
            }
            None => String::from("?"),
        };
        if right != reply {
            return Err(format!("not the second program's reply, {reply:.60}"));
        }
        match date {
            None => self.of_no_form(words),
            Some(date) => {
                self.zeros(words);
                self.slip(date);
                if reply.starts_with("0 ") {
                    self.granted(date);
                } else {
                    self.refused(date);
                }
            }
        }
        Ok(())
    }

    fn zeros(&mut self, words: &[&str]) {
        for (place, word) in PLACES.iter().zip(words) {
            let came = word.len() > 1 && word.starts_with('0');
            self.asked.count(&format!("{place} with leading zeros"), 50, came);
            self.asked.count(&format!("{place} of over 20 digits"), 10, came && word.len() > 20);
        }
    }

    fn slip(&mut self, date: Date) {
        let right = answer(date, Nowhere);
        for (slip, least, name) in SLIPS {
            self.slips.count(name, least, answer(date, slip) != right);
        }
    }

    fn granted(&mut self, date: Date) {
        self.real.insert(date);
        if (date.1, date.2) == (2, 29) {
            self.leap_days.insert(date);
        }
        self.told[date.1 as usize - 1][weekday(date, Nowhere) as usize] += 1;
        for (name, day) in [
            ("1 January 1990", (1990, 1, 1)),
            ("31 December 1999", (1999, 12, 31)),
            ("1 January 2000", (2000, 1, 1)),
            ("28 February 2000", (2000, 2, 28)),
            ("29 February 2000", (2000, 2, 29)),
            ("1 March 2000", (2000, 3, 1)),
            ("31 December 2089", (2089, 12, 31)),
        ] {
            self.asked.count(name, 1, date == day);
        }
    }

    fn refused(&mut self, date: Date) {
        let (year, month, day) = date;
        let a_month = (1..=12).contains(&month);
        let a_year = (1990..=2089).contains(&year);
        // No month has more than 31 days.
        let past = day > if a_month { length_of(year, month, Nowhere) } else { 31 };
        let reasons = [
            ("year below", year < 1990, 250),
            ("year above", year > 2089, 250),
            ("month 0", month == 0, 3000),
            ("month over 12", month > 12, 3000),
            ("day 0", day == 0, 1000),
            ("day past its month's end", past, 2000),
        ];
        let many = reasons.iter().filter(|(_, came, _)| *came).count();
        let r = &mut self.refused;
        for (name, came, least) in reasons {
            r.count(&format!("{name}, alone"), least, came && many == 1);
            r.count(&format!("{name}, with another"), 20, came && many > 1);
        }
        r.count("three reasons", 20, many == 3);
        r.count("31 December 1989", 1, date == (1989, 12, 31));
        r.count("1 January 2090", 1, date == (2090, 1, 1));
        r.count("year 1989, alone", 365, year == 1989 && many == 1);
        r.count("year 2090, alone", 365, year == 2090 && many == 1);
        r.count("a year a century early, alone", 20, (1890..1989).contains(&year) && many == 1);
        r.count("a year a century late, alone", 20, (2091..2190).contains(&year) && many == 1);
        r.count("year 0, alone", 2, year == 0 && many == 1);
        r.count("years 1 to 99, alone", 10, (1..100).contains(&year) && many == 1);
        r.count("month 13, alone", 3000, month == 13 && many == 1);
        r.count("day 0 of January 1990", 1, date == (1990, 1, 0));
        r.count("day 32 of December 2089", 1, date == (2089, 12, 32));
        let leap_day = (month, day) == (2, 29);
        r.count("29 February 2100", 20, leap_day && year == 2100);
        r.count("29 February 1900", 10, leap_day && year == 1900);
        r.count("29 February 1988", 5, leap_day && year == 1988);
        r.count("29 February 2092", 5, leap_day && year == 2092);
        let leap_year = a_year && is_leap(year);
        r.count("30 February of a leap year", 25, leap_year && (month, day) == (2, 30));
        r.count("month and day exchanged", 5, is_real((year, day, month), Nowhere));
        r.count("year and day exchanged", 5, is_real((day, month, year), Nowhere));
        if leap_day && a_year {
            self.no_leap_days.insert(date);
        }
        if a_year && a_month && past {
            self.past_the_end(date);
        }
        self.far(date);
    }

    fn past_the_end(&mut self, (year, month, day): Date) {
        let over = day - length_of(year, month, Nowhere);
        for (k, name) in MONTH_NAMES.iter().enumerate() {
            let of_it = month == k as u64 + 1;
            self.past_the_end.count(&format!("{name}, one day"), 100, of_it && over == 1);
            self.past_the_end.count(&format!("{name}, more days"), 10, of_it && over > 1);
        }
    }

    /// Numbers that are far from any real date's.
    fn far(&mut self, date: Date) {
        let most = MOST as u64;
        let (year, month, day) = date;
        for (place, value) in PLACES.iter().zip([year, month, day]) {
            self.far.count(&format!("{place} of 2^32 - 1"), 20, value == most);
            self.far.count(&format!("{place} of 2^31 and more"), 50, value >= 1 << 31);
            let power = value > 32 && (value & (value - 1) == 0 || value & (value + 1) == 0);
            self.far.count(&format!("{place} at a power of two"), 30, power);
        }
        let real = |date| is_real(date, Nowhere);
        let f = &mut self.far;
        f.count("year that ends as a real one's in 16 bits", 10, real((year & 0xffff, month, day)));
        f.count("month that ends as a real one's in 8 bits", 20, real((year, month & 0xff, day)));
        let in_16 = real((year, month & 0xffff, day));
        f.count("month that ends as a real one's in 16 bits", 10, in_16);
        f.count("day that ends as a real one's in 8 bits", 20, real((year, month, day & 0xff)));
        f.count("day that ends as a real one's in 16 bits", 10, real((year, month, day & 0xffff)));
    }

    fn of_no_form(&mut self, words: &[&str]) {
        let n = &mut self.no_form;
        n.count("no words", 5, words.is_empty());
        n.count("one word", 20, words.len() == 1);
        n.count("two words", 20, words.len() == 2);
        n.count("four words", 50, words.len() == 4);
        n.count("two spaces", 5, words.len() == 4 && words[..3].contains(&""));
        n.count("a space at the end", 10, words.len() == 4 && words[3].is_empty());
        let last = words.last().copied().unwrap_or("");
        n.count("a carriage return at the end", 10, last.ends_with('\r'));
        let any = |is: &dyn Fn(&str) -> bool| words.iter().any(|word| is(word));
        n.count("+", 20, any(&|word| word.starts_with('+')));
        n.count("-", 20, any(&|word| word.starts_with('-')));
        n.count("hex", 20, any(&|word| word.starts_with("0x")));
        n.count("letters", 20, any(&|word| word.contains(|c: char| c.is_ascii_alphabetic())));
        n.count("tabs", 20, any(&|word| word.contains('\t')));
        if words.len() != 3 {
            return;
        }
        let in_bits = |bits| cut(words, bits).map_or(false, |date| is_real(date, Nowhere));
        for (place, word) in PLACES.iter().zip(words) {
            let value = number(word);
            let over = value.map_or(false, |value| value > MOST);
            let over_64 = value.map_or(false, |value| value > u128::from(u64::MAX));
            n.count(&format!("{place} empty"), 2, word.is_empty());
            n.count(&format!("{place} no number"), 100, value.is_none());
            n.count(&format!("{place} of 2^32"), 5, value == Some(MOST + 1));
            n.count(&format!("{place} that is real in 32 bits"), 10, over && in_bits(32));
            n.count(&format!("{place} that is real in 64 bits"), 10, over_64 && in_bits(64));
        }
    }

    /// Whether every case was reached.
    fn report(&mut self, all: bool) -> bool {
        self.asked.add("real dates, of 36,525", 36_525, self.real.len() as u64);
        self.asked.add("leap days, of 25", 25, self.leap_days.len() as u64);
        let no_leap_days = self.no_leap_days.len() as u64;
        self.refused.add("29 February of common years, of 75", 75, no_leap_days);
        for (month, told) in MONTH_NAMES.iter().zip(self.told) {
            for (weekday, times) in WEEKDAY_NAMES.iter().zip(told) {
                self.weekdays.add(&format!("{weekday} in {month}"), 400, times);
            }
        }
        let groups = [
            &self.asked,
            &self.weekdays,
            &self.refused,
            &self.past_the_end,
            &self.far,
            &self.no_form,
            &self.slips,
        ];
        cases::report_groups(&groups, CASES, all)
    }
}

fn main() {
    let mut counts = Counts {
        real: HashSet::new(),
        leap_days: HashSet::new(),
        no_leap_days: HashSet::new(),
        told: [[0; 7]; 12],
        asked: Cases::new("asked"),
        weekdays: Cases::new("weekdays by month"),
        refused: Cases::new("refused"),
        past_the_end: Cases::new("past a month's end"),
        far: Cases::new("far numbers"),
        no_form: Cases::new("lines of no form"),
        slips: Cases::new("slips that would show"),
    };
    let lines = cases::each_request(|request, reply| counts.request(request, reply));
    cases::judge(lines, ENOUGH, |all| counts.report(all));
}
