//! Requests of weekday, for gen.rs.
//!
//! The first 47,124 requests ask every day from 0 to 32 of every month from 0 to
//! 13 of every year from 1989 to 2090, each once, whatever the seed: all real
//! dates and their neighbours that aren't. They stride over the years, so that
//! fewer requests come from all of them. Those after them are random: dates that
//! are nearly real, and lines of no form.

use super::*;
use gen_calendar::{day_numbered, days_in_month, unreal_day, DAYS, MOST};

const FIRST_YEAR: u64 = 1989;
const YEARS: u64 = 102;
const MONTHS: u64 = 14;
const DAYS_OF_A_MONTH: u64 = 33;

/// How many days of all months and years there are to ask, real or not.
pub const ALL: u64 = YEARS * MONTHS * DAYS_OF_A_MONTH;

/// No divisor but 1 is one of `ALL` too, so that every day has its turn once.
const STRIDE: u64 = 29_123;

/// The k-th of all days.
fn kth(k: u64) -> Day {
    let place = k * STRIDE % ALL;
    let (months, day) = (place / DAYS_OF_A_MONTH, place % DAYS_OF_A_MONTH);
    Day { year: FIRST_YEAR + months / MONTHS, month: months % MONTHS, day }
}

fn real_day(rng: &mut Rng) -> Day {
    match rng.below(6) {
        0 => day_numbered(rng.pick(&[0, 1, 58, 59, DAYS - 2, DAYS - 1])),
        // Round the leap day of a leap year.
        1 => {
            let year = 1992 + 4 * rng.below(25);
            let (month, day) = rng.pick(&[(2, 28), (2, 29), (3, 1)]);
            Day { year, month, day }
        }
        _ => day_numbered(rng.below(DAYS)),
    }
}

/// One of the three numbers of a day.
fn number_in<'a>(rng: &mut Rng, day: &'a mut Day) -> &'a mut u64 {
    match rng.below(3) {
        0 => &mut day.year,
        1 => &mut day.month,
        _ => &mut day.day,
    }
}

/// A number at a power of two, or a number of a real day with one added.
fn at_a_power(rng: &mut Rng, day: &mut Day) {
    let power = 1u64 << rng.below(33);
    let added = rng.chance(50);
    let by = rng.below(3);
    let number = number_in(rng, day);
    *number = if added { *number + power } else { (power + by).saturating_sub(1) };
    *number = (*number).min(MOST);
}

/// A year as far off as calendars repeat, or nearly do.
fn another_century(rng: &mut Rng, day: &mut Day) {
    let by = rng.pick(&[7, 28, 100, 100, 200, 400, 400, 800, 2000]);
    day.year = if rng.chance(50) { day.year + by } else { day.year.saturating_sub(by) };
}

/// A date that another calendar takes for real.
fn of_another_calendar(rng: &mut Rng, day: &mut Day) {
    match rng.below(6) {
        // Leap days of the Julian calendar alone, and of every fourth year.
        0 => {
            let year = rng.pick(&[1500, 1700, 1800, 1900, 2100, 2100, 2200, 2300, 1988, 2092]);
            *day = Day { year, month: 2, day: 29 };
        }
        // 29 February of a year that has none, and 30 February, which Sweden had.
        1 => {
            let day_of = rng.pick(&[29, 29, 30]);
            let year = rng.pick(&[1712, day.year, day.year, day.year + 1]);
            *day = Day { year, month: 2, day: day_of };
        }
        // Days left out when calendars changed.
        2 => {
            *day = rng.pick(&[
                Day { year: 1582, month: 10, day: 10 },
                Day { year: 1752, month: 9, day: 8 },
                Day { year: 1918, month: 2, day: 7 },
            ]);
        }
        // A thirteenth month of few days.
        3 => *day = Day { month: 13, day: rng.between(1, 6), ..*day },
        // Months of 31 days, all of them.
        4 => day.day = 31,
        // Years counted from another one: Buddhist, Hebrew, Persian, Islamic,
        // from 1900, from 1990, and in two digits.
        _ => {
            day.year = match rng.below(7) {
                0 => day.year + 543,
                1 => day.year + 3761,
                2 => day.year.saturating_sub(621),
                3 => day.year.saturating_sub(579),
                4 => day.year.saturating_sub(1900),
                5 => day.year.saturating_sub(1990),
                _ => day.year % 100,
            }
        }
    }
}

/// A day next to the ends of what is real: of the years, of a year, of a month.
fn at_an_edge(rng: &mut Rng, day: &mut Day) {
    match rng.below(4) {
        0 => day.year = rng.pick(&[1989, 1990, 2089, 2090]),
        1 => day.month = rng.pick(&[0, 1, 12, 13]),
        2 => day.day = rng.pick(&[0, 1, 28, 29, 30, 31, 32]),
        _ => day.day = days_in_month(day.year, day.month) + rng.below(2),
    }
}

fn far(rng: &mut Rng, day: &mut Day) {
    let value = match rng.below(3) {
        0 => MOST - rng.below(4),
        1 => rng.below(MOST + 1),
        _ => rng.below(100_000),
    };
    *number_in(rng, day) = value;
}

/// The numbers in another order, as other people write dates.
fn exchanged(rng: &mut Rng, day: &mut Day) {
    let Day { year, month, day: of_month } = *day;
    *day = match rng.below(3) {
        0 => Day { year, month: of_month, day: month },
        1 => Day { year: of_month, month, day: year },
        _ => Day { year: month, month: of_month, day: year },
    };
}

/// A date that is nearly real, or real after all.
fn nearly_real(rng: &mut Rng) -> Day {
    let mut day = real_day(rng);
    for _ in 0..rng.pick(&[0, 1, 1, 1, 1, 1, 2, 2, 3, 4]) {
        match rng.below(16) {
            0..=3 => at_an_edge(rng, &mut day),
            4..=6 => at_a_power(rng, &mut day),
            7 | 8 => another_century(rng, &mut day),
            9..=11 => of_another_calendar(rng, &mut day),
            12 | 13 => far(rng, &mut day),
            14 => exchanged(rng, &mut day),
            _ => unreal_day(rng, &mut day),
        }
    }
    for number in [&mut day.year, &mut day.month, &mut day.day] {
        *number = (*number).min(MOST);
    }
    day
}

/// A word that is no number of 32 bits, made of one that is.
fn no_number(rng: &mut Rng, number: u64) -> String {
    match rng.below(16) {
        0 => (MOST + 1).to_string(),
        // What ends as the number, of 33 bits and of 65.
        1 | 2 => (MOST + 1 + number).to_string(),
        3 | 4 => (u128::from(u64::MAX) + 1 + u128::from(number)).to_string(),
        5 => format!("-{number}"),
        6 => format!("+{number}"),
        7 => format!("0x{number:x}"),
        8 => format!("{number:x}h"),
        9 => format!("{number}."),
        10 => format!("{number},"),
        11 | 12 => rng.pick(&["", "", "-", "x", "March"]).to_string(),
        13 => "9".repeat(20 + rng.index(60)),
        14 => format!("{number}a"),
        _ => format!("{number}\t"),
    }
}

/// A line with one word that is no number, or with too few words or too many.
fn no_form(rng: &mut Rng) -> String {
    let day = if rng.chance(70) { real_day(rng) } else { nearly_real(rng) };
    let numbers = [day.year, day.month, day.day];
    let mut words = numbers.map(|number| number.to_string()).to_vec();
    match rng.below(8) {
        0 => words.truncate(rng.index(3)),
        1 => words.push(rng.pick(&["0", "00", "12", "-", ""]).to_string()),
        2 => words.insert(0, rng.pick(&["-", "0", "1000000120100000", ""]).to_string()),
        3 => words = vec![words.join(rng.pick(&["-", "/", ".", "", "\t"]))],
        _ => {
            let place = rng.index(3);
            words[place] = no_number(rng, numbers[place]);
        }
    }
    let question = match rng.below(20) {
        0 => rng.pick(&["weekdays", "Weekday", "weekda", "week", "seasoned", "tier"]),
        _ => "weekday",
    };
    words.insert(0, String::from(question));
    words.join(" ")
}

fn line_for(rng: &mut Rng, day: Day) -> String {
    let Day { year, month, day } = day;
    let mut zeros = || if rng.chance(2) { "0".repeat(1 + rng.index(30)) } else { String::new() };
    let (before_year, before_month, before_day) = (zeros(), zeros(), zeros());
    format!("weekday {before_year}{year} {before_month}{month} {before_day}{day}")
}

/// The k-th request of the kind weekdays.
pub fn request(rng: &mut Rng, k: u64) -> Vec<u8> {
    if k < ALL {
        let Day { year, month, day } = kth(k);
        return format!("weekday {year} {month} {day}").into_bytes();
    }
    let part = rng.below(100);
    if part < 15 {
        return no_form(rng).into_bytes();
    }
    let day = nearly_real(rng);
    let line = line_for(rng, day).into_bytes();
    if part < 21 {
        spoiled(rng, line)
    } else {
        line
    }
}

/// Any request of the kind: of all days, or a random one.
pub fn any_request(rng: &mut Rng) -> Vec<u8> {
    let k = rng.below(2 * ALL);
    request(rng, k)
}

#[cfg(test)]
mod tests {
    use super::*;

    #[test]
    fn all_days_are_asked_once() {
        let mut lines = std::collections::HashSet::new();
        for k in 0..ALL {
            lines.insert(request(&mut Rng(k), k));
        }
        assert_eq!(lines.len() as u64, ALL);
        for number in 0..DAYS {
            let Day { year, month, day } = day_numbered(number);
            assert!(lines.contains(format!("weekday {year} {month} {day}").as_bytes()));
        }
        for line in ["weekday 1989 0 0", "weekday 2090 13 32", "weekday 2100 1 1"] {
            assert_eq!(lines.contains(line.as_bytes()), line != "weekday 2100 1 1");
        }
    }

    #[test]
    fn dates_keep_to_their_type() {
        for seed in 0..50_000 {
            let Day { year, month, day } = nearly_real(&mut Rng(seed));
            assert!(year <= MOST && month <= MOST && day <= MOST, "seed {seed}");
        }
    }
}
