//! What requests of the kind calendar reach:
//!
//!     paste -d '\t' requests replies | reached [all]
//!
//! counts, from the requests and the second program's replies, how often each
//! case that is wanted came. Prints for each group of cases how many there are
//! and the rarest beside what is wanted of it; with all, every count.
//! Of 150,000 requests and more, fails where a case came too seldom.
//!
//! Slips are cases too: readings of documents 01 and 02 that are easy to get
//! wrong, of each how many requests a program that slips there would answer
//! otherwise. For them the rules of the calendar stand here once more, in short;
//! without a slip they must give the second program's reply.

#![allow(dead_code)]

#[path = "src/description.rs"]
mod description;
#[path = "src/layout.rs"]
mod layout;
#[path = "src/refusal.rs"]
mod refusal;

mod cases;

use cases::Cases;
use description::{after, Item};
use layout::{lay_out, Layout};
use std::collections::HashSet;

/// So many requests are to reach every case.
const ENOUGH: u64 = 150_000;

#[derive(Clone, Copy, PartialEq, Eq)]
enum Slip {
    Nowhere,
    CountLeastFirst,
    CountMostFirst,
    DatesLeastFirst,
    DatesMostFirst,
    SwitchesLeastFirst,
    SwitchesMostFirst,
    Action31Ends,
    Action31IsSpecial12,
    ActionOfEightBits,
    Years90As2090,
    Years100As2000,
    DatesNotReal,
    EarlierOfEqualDates,
    LastSeasonRecord,
    DateBeforeTheDay,
    RecurringApplied,
    EarlierSpecial,
    SpecialStays,
    SpecialsFrom7,
    SpecialWithoutColumn,
    SundayFirstOfThree,
    WeekFromMonday,
    No29February2000,
    AnySchedule,
    EarlierOfEqualTimes,
    LastSwitchRecord,
    BeforeTheMinute,
    Hour24As0,
    Minute60,
    TierOfYesterday,
    FlagsAlways,
    FlagsNever,
    FlagsExchanged,
    ArmedIgnored,
    ArmedBeforeDate,
    PlaceBeforeArmed,
    Refused17,
    Earliest,
    RowOfNoSeasons,
    SpecialInSeasonsOnly,
    AnyDate,
    LastRecordOnly,
    SpecialsCounted,
    OthersCounted,
    Season0Left,
    Season15Left,
    RowNeeded,
    SeasonedGives18,
    SeasonedGives19,
    SeasonedGives17,
}

/// Of tier.
const SLIPS: [(Slip, &str); 40] = [
    (Slip::CountLeastFirst, "number of switches least significant octet first"),
    (Slip::CountMostFirst, "number of switches most significant octet first"),
    (Slip::DatesLeastFirst, "DATEs least significant octet first"),
    (Slip::DatesMostFirst, "DATEs most significant octet first"),
    (Slip::SwitchesLeastFirst, "switches least significant octet first"),
    (Slip::SwitchesMostFirst, "switches most significant octet first"),
    (Slip::Action31Ends, "action 31 ends the array"),
    (Slip::Action31IsSpecial12, "action 31 is special schedule 12"),
    (Slip::ActionOfEightBits, "action of eight bits"),
    (Slip::Years90As2090, "years 90 to 99 are 2090 on"),
    (Slip::Years100As2000, "years 100 to 127 are 2000 on"),
    (Slip::DatesNotReal, "months and days of none taken"),
    (Slip::EarlierOfEqualDates, "earlier of equal dates"),
    (Slip::LastSeasonRecord, "last season record"),
    (Slip::DateBeforeTheDay, "season from the day after its date"),
    (Slip::RecurringApplied, "recurring records applied"),
    (Slip::EarlierSpecial, "earlier of two special schedules"),
    (Slip::SpecialStays, "special schedule holds on"),
    (Slip::SpecialsFrom7, "special schedules from column 7 always"),
    (Slip::SpecialWithoutColumn, "special schedule without column left out"),
    (Slip::SundayFirstOfThree, "Sunday, Saturday, weekday"),
    (Slip::WeekFromMonday, "Monday first"),
    (Slip::No29February2000, "2000 no leap year"),
    (Slip::AnySchedule, "switches of any schedule"),
    (Slip::EarlierOfEqualTimes, "earlier of equal times"),
    (Slip::LastSwitchRecord, "last switch record"),
    (Slip::BeforeTheMinute, "switch from the minute after its time"),
    (Slip::Hour24As0, "hour 24 is 0"),
    (Slip::Minute60, "minutes over 59 taken"),
    (Slip::TierOfYesterday, "none yet today: the day's last tier"),
    (Slip::FlagsAlways, "switch flags read without SEPARATE_SUM_DEMANDS"),
    (Slip::FlagsNever, "switch flags not read"),
    (Slip::FlagsExchanged, "switch flags exchanged"),
    (Slip::ArmedIgnored, "SEASON_CHNG_ARMED not read"),
    (Slip::ArmedBeforeDate, "18 before 16"),
    (Slip::PlaceBeforeArmed, "19 before 18"),
    (Slip::Refused17, "17 before every season record"),
    (Slip::Earliest, "the earliest season before every season record"),
    (Slip::RowOfNoSeasons, "none yet today in season 0 without a row"),
    (Slip::SpecialInSeasonsOnly, "no special schedule before every season record"),
];

/// Of seasoned.
const SEASONED_SLIPS: [(Slip, &str); 22] = [
    (Slip::CountLeastFirst, "seasoned: number of switches least significant octet first"),
    (Slip::CountMostFirst, "seasoned: number of switches most significant octet first"),
    (Slip::DatesLeastFirst, "seasoned: DATEs least significant octet first"),
    (Slip::DatesMostFirst, "seasoned: DATEs most significant octet first"),
    (Slip::Action31Ends, "seasoned: action 31 ends the array"),
    (Slip::ActionOfEightBits, "seasoned: action of eight bits"),
    (Slip::Years90As2090, "seasoned: years 90 to 99 are 2090 on"),
    (Slip::Years100As2000, "seasoned: years 100 to 127 are 2000 on"),
    (Slip::DatesNotReal, "seasoned: months and days of none counted"),
    (Slip::No29February2000, "seasoned: 2000 no leap year"),
    (Slip::DateBeforeTheDay, "seasoned: records before the day only"),
    (Slip::AnyDate, "seasoned: records of any date"),
    (Slip::LastRecordOnly, "seasoned: the last season record only"),
    (Slip::RecurringApplied, "seasoned: recurring records counted"),
    (Slip::SpecialsCounted, "seasoned: special schedules counted"),
    (Slip::OthersCounted, "seasoned: actions 0, 1, 2 and 31 counted"),
    (Slip::Season0Left, "seasoned: season 0 not counted"),
    (Slip::Season15Left, "seasoned: season 15 not counted"),
    (Slip::RowNeeded, "seasoned: seasons without a row not counted"),
    (Slip::SeasonedGives18, "seasoned: 18"),
    (Slip::SeasonedGives19, "seasoned: 19"),
    (Slip::SeasonedGives17, "seasoned: 17 instead of no"),
];

/// A request whose tables are there. What it asks beside them is year, month,
/// day and, of tier, hour, minute, what.
struct Tables<'a> {
    most_first: bool,
    t51: &'a [u8],
    t54: &'a [u8],
}

struct Record {
    field: u64,
    octet: u8,
}

struct Calendar {
    armed: bool,
    anchor: bool,
    weekdays: bool,
    separate: bool,
    seasons: usize,
    specials: usize,
    dates: Vec<Record>,
    recurring: Vec<Record>,
    switches: Vec<Record>,
    rows: Vec<u8>,
}

fn two(octets: &[u8], most_first: bool) -> u64 {
    let (low, high) = if most_first { (octets[1], octets[0]) } else { (octets[0], octets[1]) };
    u64::from(low) + 256 * u64::from(high)
}

fn records(octets: &[u8], most_first: bool) -> Vec<Record> {
    octets
        .chunks_exact(3)
        .map(|record| Record { field: two(record, most_first), octet: record[2] })
        .collect()
}

/// Tables 51 and 54, or None where refusal 20 is due.
fn read(tables: &Tables, slip: Slip) -> Option<Calendar> {
    let t51 = tables.t51;
    if t51.len() != 9 {
        return None;
    }
    let order = |least: Slip, most: Slip| (tables.most_first || slip == most) && slip != least;
    let anchor = t51[0] & 32 != 0;
    let weekdays = t51[1] & 2 != 0;
    let (seasons, specials) = (usize::from(t51[2] & 15), usize::from(t51[2] >> 4));
    let switches = two(&t51[5..7], order(Slip::CountLeastFirst, Slip::CountMostFirst)) as usize;
    let lengths = [
        if anchor { 2 } else { 0 },
        3 * usize::from(t51[3]),
        3 * usize::from(t51[4]),
        3 * switches,
        seasons * (if weekdays { 7 } else { 3 } + specials),
    ];
    if tables.t54.len() != lengths.iter().sum::<usize>() {
        return None;
    }
    let mut rest = tables.t54;
    let parts = lengths.map(|length| {
        let (part, after) = rest.split_at(length);
        rest = after;
        part
    });
    let dates_order = order(Slip::DatesLeastFirst, Slip::DatesMostFirst);
    let switches_order = order(Slip::SwitchesLeastFirst, Slip::SwitchesMostFirst);
    Some(Calendar {
        armed: t51[0] & 8 != 0,
        anchor,
        weekdays,
        separate: t51[1] & 4 != 0,
        seasons,
        specials,
        dates: records(parts[1], dates_order),
        recurring: records(parts[2], dates_order),
        switches: records(parts[3], switches_order),
        rows: parts[4].to_vec(),
    })
}

fn is_leap(year: u64, slip: Slip) -> bool {
    year % 4 == 0 && !(year == 2000 && slip == Slip::No29February2000)
}

fn days_in_month(year: u64, month: u64, slip: Slip) -> u64 {
    match month {
        2 if is_leap(year, slip) => 29,
        2 => 28,
        4 | 6 | 9 | 11 => 30,
        1..=12 => 31,
        _ => 0,
    }
}

type Day = (u64, u64, u64);

fn is_real((year, month, day): Day, slip: Slip) -> bool {
    (1990..=2089).contains(&year) && 1 <= day && day <= days_in_month(year, month, slip)
}

/// 0 is Sunday. 1 January 1990 was a Monday.
fn weekday((year, month, day): Day, slip: Slip) -> u64 {
    let years: u64 = (1990..year).map(|year| 365 + u64::from(is_leap(year, slip))).sum();
    let months: u64 = (1..month).map(|month| days_in_month(year, month, slip)).sum();
    (years + months + day) % 7
}

fn date_of(field: u64, slip: Slip) -> Option<Day> {
    let year = match field & 127 {
        short @ 90..=99 if slip == Slip::Years90As2090 => 2000 + short,
        short @ 0..=89 => 2000 + short,
        short @ 90..=99 => 1900 + short,
        short if slip == Slip::Years100As2000 => 1900 + short,
        _ => return None,
    };
    let date = (year, field >> 7 & 15, field >> 11 & 31);
    if is_real(date, slip) || slip == Slip::DatesNotReal {
        Some(date)
    } else {
        None
    }
}

/// The records of dates, as far as a slip reads them: date and action.
fn dated(calendar: &Calendar, slip: Slip) -> Vec<(Day, usize)> {
    let mut records: Vec<&Record> = calendar.dates.iter().collect();
    if slip == Slip::RecurringApplied {
        records.extend(&calendar.recurring);
    }
    let bits = if slip == Slip::ActionOfEightBits { 255 } else { 31 };
    records
        .iter()
        .map(|record| (record.field, usize::from(record.octet & bits)))
        .take_while(|(_, action)| slip != Slip::Action31Ends || *action != 31)
        .filter_map(|(field, action)| Some((date_of(field, slip)?, action)))
        .collect()
}

/// The season that is chosen on a day, if one is, and the special schedule.
fn chosen(calendar: &Calendar, today: Day, slip: Slip) -> (Option<usize>, Option<usize>) {
    let (mut season, mut special): (Option<(Day, usize)>, Option<usize>) = (None, None);
    for (date, action) in dated(calendar, slip) {
        let begun = date < today || date == today && slip != Slip::DateBeforeTheDay;
        match action {
            3..=18 if begun => {
                let replaces = match season {
                    None => true,
                    Some((other, _)) => match slip {
                        Slip::EarlierOfEqualDates => date > other,
                        Slip::LastSeasonRecord => true,
                        _ => date >= other,
                    },
                };
                if replaces {
                    season = Some((date, action - 3));
                }
            }
            19..=31 if action < 31 || slip == Slip::Action31IsSpecial12 => {
                let holds = date == today || date < today && slip == Slip::SpecialStays;
                if holds && !(special.is_some() && slip == Slip::EarlierSpecial) {
                    special = Some(action - 19);
                }
            }
            _ => {}
        }
    }
    (season.map(|(_, season)| season), special)
}

/// The season of the earliest season record, of equal dates the first.
fn earliest(calendar: &Calendar, slip: Slip) -> Option<usize> {
    let seasons = dated(calendar, slip).into_iter().filter(|(_, action)| is_season(*action));
    seasons.min_by_key(|(date, _)| *date).map(|(_, action)| action - 3)
}

fn is_season(action: usize) -> bool {
    (3..=18).contains(&action)
}

/// The day after a real day.
fn after_day((year, month, day): Day) -> Day {
    match (month, day) {
        (12, 31) => (year + 1, 1, 1),
        _ if day == days_in_month(year, month, Slip::Nowhere) => (year, month + 1, 1),
        _ => (year, month, day + 1),
    }
}

/// The reply to tier but for item and octet: number, none, tier.
fn tier(tables: &Tables, asked: &[u64], slip: Slip) -> (u64, u64, u64) {
    let refused = |number| (number, 0, 0);
    let calendar = match read(tables, slip) {
        Some(calendar) => calendar,
        None => return refused(20),
    };
    let today = (asked[0], asked[1], asked[2]);
    let now = (asked[3], asked[4]);
    let real = is_real(today, slip) && now.0 <= 23 && now.1 <= 59;
    let armed = calendar.armed && slip != Slip::ArmedIgnored;
    if !real && !(armed && slip == Slip::ArmedBeforeDate) {
        return refused(16);
    }
    if armed && slip != Slip::PlaceBeforeArmed {
        return refused(18);
    }

    let (chosen, mut special) = chosen(&calendar, today, slip);
    if slip == Slip::SpecialWithoutColumn && special >= Some(calendar.specials)
        || slip == Slip::SpecialInSeasonsOnly && chosen.is_none()
    {
        special = None;
    }
    let season = match (chosen, slip) {
        (Some(season), _) => season,
        (None, Slip::Refused17) => return refused(17),
        (None, Slip::RowOfNoSeasons) if calendar.seasons == 0 => return (0, 1, 0),
        (None, Slip::Earliest) => earliest(&calendar, slip).unwrap_or(0),
        (None, _) => 0,
    };
    if season >= calendar.seasons || special >= Some(calendar.specials) {
        return refused(19);
    }
    if armed {
        return refused(18);
    }

    let shared = if calendar.weekdays { 7 } else { 3 };
    let weekday = weekday(today, slip) as usize;
    let column = match (special, calendar.weekdays, weekday) {
        (Some(special), ..) if slip == Slip::SpecialsFrom7 => 7 + special,
        (Some(special), ..) => shared + special,
        (None, true, _) if slip == Slip::WeekFromMonday => (weekday + 6) % 7,
        (None, true, _) => weekday,
        (None, false, 6) => usize::from(slip == Slip::SundayFirstOfThree),
        (None, false, 0) => usize::from(slip != Slip::SundayFirstOfThree),
        _ => 2,
    };
    let cell = season * (shared + calendar.specials) + column;
    let schedule = calendar.rows.get(cell).copied().unwrap_or(0);
    let flags = if slip == Slip::FlagsExchanged { [16, 8] } else { [8, 16] };
    let flag = flags[asked[5] as usize];
    let separate = (calendar.separate || slip == Slip::FlagsAlways) && slip != Slip::FlagsNever;
    let latest = |now: (u64, u64)| {
        let mut chosen: Option<((u64, u64), u64)> = None;
        for record in &calendar.switches {
            let day = if slip == Slip::Hour24As0 { 24 } else { 32 };
            let time = ((record.field >> 11) % day, record.field >> 5 & 63);
            let taken = time.0 <= 23
                && (time.1 <= 59 || slip == Slip::Minute60)
                && (record.octet == schedule || slip == Slip::AnySchedule)
                && (!separate || record.field & flag != 0)
                && (time < now || time == now && slip != Slip::BeforeTheMinute);
            let replaces = match chosen {
                None => true,
                Some((other, _)) => match slip {
                    Slip::EarlierOfEqualTimes => time > other,
                    Slip::LastSwitchRecord => true,
                    _ => time >= other,
                },
            };
            if taken && replaces {
                chosen = Some((time, record.field & 7));
            }
        }
        chosen
    };
    let chosen = match latest(now) {
        None if slip == Slip::TierOfYesterday => latest((23, 59)),
        chosen => chosen,
    };
    match chosen {
        Some((_, tier)) => (0, 0, tier),
        None => (0, 1, 0),
    }
}

/// The reply to seasoned but for item and octet: number, yes.
fn seasoned(tables: &Tables, asked: &[u64], slip: Slip) -> (u64, u64) {
    let refused = |number| (number, 0);
    let day = (asked[0], asked[1], asked[2]);
    let calendar = match read(tables, slip) {
        Some(calendar) => calendar,
        None => return refused(20),
    };
    if !is_real(day, slip) {
        return refused(16);
    }
    if calendar.armed && slip == Slip::SeasonedGives18 {
        return refused(18);
    }
    let counts = |action: usize| match action {
        3 if slip == Slip::Season0Left => false,
        18 if slip == Slip::Season15Left => false,
        3..=18 => action - 3 < calendar.seasons || slip != Slip::RowNeeded,
        19..=30 => slip == Slip::SpecialsCounted,
        _ => slip == Slip::OthersCounted,
    };
    let stands = |date: Day| match slip {
        Slip::DateBeforeTheDay => date < day,
        Slip::AnyDate => true,
        _ => date <= day,
    };
    let counted = dated(&calendar, slip).into_iter().filter(|(_, action)| counts(*action));
    let yes = match slip {
        Slip::LastRecordOnly => counted.last().map_or(false, |(date, _)| stands(date)),
        _ => counted.into_iter().any(|(date, _)| stands(date)),
    };
    let rowless = chosen(&calendar, day, slip).0.unwrap_or(0) >= calendar.seasons;
    match slip {
        Slip::SeasonedGives19 if rowless => refused(19),
        Slip::SeasonedGives17 if !yes => refused(17),
        _ => (0, u64::from(yes)),
    }
}

fn octets(word: &str) -> Vec<u8> {
    let digits = if word == "-" { "" } else { word };
    (0..digits.len() / 2)
        .map(|k| u8::from_str_radix(&digits[2 * k..2 * k + 2], 16).unwrap_or(0))
        .collect()
}

/// Which of the tables laid out is the standard one of that number.
fn which(laid: &Layout, wanted: u64) -> Option<usize> {
    laid.tables.iter().position(|place| match laid.items[place.item] {
        Item::Table { manufacturer, number, .. } => !manufacturer && u64::from(number) == wanted,
        _ => false,
    })
}

/// The items of a standard table, and the table's octets.
fn table<'a>(laid: &'a Layout, image: &'a [u8], wanted: u64) -> Option<(&'a [Item], &'a [u8])> {
    let place = laid.tables[which(laid, wanted)?];
    let items = &laid.items[place.item + 1..after(&laid.items, place.item)];
    Some((items, &image[place.start as usize..(place.start + place.length) as usize]))
}

struct Counts {
    days: HashSet<Day>,
    answered: HashSet<Day>,
    actions: [u64; 32],
    replies: Cases,
    asked: Cases,
    tables: Cases,
    calendars: Cases,
    records: Cases,
    early: Cases,
    seasoned: Cases,
    slips: Cases,
}

impl Counts {
    fn request(&mut self, request: &str, reply: &str) -> Result<(), String> {
        let words: Vec<&str> = request.split(' ').collect();
        let number_of = |word: &str| -> u64 { word.parse().unwrap_or(0) };
        let values: Vec<u64> = reply.split(' ').take(6).map(number_of).collect();
        let (question, number) = (words[0], values[0]);
        let asked: Vec<u64> = words[3..].iter().map(|word| number_of(word)).collect();
        let given: &[u64] = match question {
            "tier" => &[16, 18, 19, 20],
            "seasoned" => &[16, 20],
            "matrix" => &[20],
            _ => return Err(String::from("no question of the calendar")),
        };
        if number > 10 && !given.contains(&number) {
            return Err(format!("a refusal that isn't given, {reply}"));
        }
        self.replied(question, &values, given);
        if question != "matrix" {
            self.asked(question, &asked, number);
        }
        let (d, image) = (octets(words[1]), octets(words[2]));
        let laid = match lay_out(&d, &image) {
            Ok(laid) => laid,
            Err(_) => return Ok(()),
        };
        let (of_51, of_54) = (table(&laid, &image, 51), table(&laid, &image, 54));
        self.tables.count("no Table 51", 300, of_51.is_none());
        self.tables.count("no Table 54", 300, of_54.is_none());
        let ((items_51, t51), (items_54, t54)) = match (of_51, of_54) {
            (Some(one), Some(other)) => (one, other),
            _ => return Ok(()),
        };
        let tables = Tables { most_first: laid.most_significant_first, t51, t54 };
        self.sized(&tables, number);
        if number != 20 {
            self.divided(which(&laid, 54) < which(&laid, 51), items_51, items_54);
        }
        let calendar = match read(&tables, Slip::Nowhere) {
            Some(calendar) => calendar,
            None => return Ok(()),
        };
        self.calendar(question, &asked, &tables, &calendar);
        if question == "tier" {
            let told = (values[0], values[4], values[5]);
            if tier(&tables, &asked, Slip::Nowhere) != told {
                return Err(format!("not the second program's reply, {reply}"));
            }
            for (slip, name) in SLIPS {
                let otherwise = tier(&tables, &asked, slip) != told;
                self.slips.count(name, 100, otherwise);
            }
            if number != 16 {
                self.early(&asked, &calendar, told);
            }
        }
        if question == "seasoned" {
            let told = (values[0], values[4]);
            if seasoned(&tables, &asked, Slip::Nowhere) != told {
                return Err(format!("not the second program's reply, {reply}"));
            }
            for (slip, name) in SEASONED_SLIPS {
                let otherwise = seasoned(&tables, &asked, slip) != told;
                self.slips.count(name, 100, otherwise);
            }
            if number == 0 {
                self.seasoned(&asked, &tables, &calendar, told.1 == 1);
            }
        }
        Ok(())
    }

    fn replied(&mut self, question: &str, values: &[u64], given: &[u64]) {
        for refusal in (1..=10).chain(given.iter().copied()) {
            let least = match (question, refusal) {
                ("tier", _) => 150,
                ("seasoned", 9..=20) => 500,
                ("seasoned", 1..=7) => 100,
                _ => 40,
            };
            self.replies.count(&format!("{question} {refusal}"), least, values[0] == refusal);
        }
        if question == "tier" {
            for tier in 0..8 {
                let told = values[0] == 0 && values[4] == 0 && values[5] == tier;
                self.replies.count(&format!("tier {tier} granted"), 3000, told);
            }
            self.replies.count("none yet today", 3000, values[0] == 0 && values[4] == 1);
        } else if question == "seasoned" {
            for (yes, name) in [(0, "seasoned no"), (1, "seasoned yes")] {
                self.replies.count(name, 3000, values[0] == 0 && values[4] == yes);
            }
        } else {
            self.replies.count("matrix granted", 3000, values[0] == 0);
        }
    }

    fn asked(&mut self, question: &str, asked: &[u64], number: u64) {
        let day = (asked[0], asked[1], asked[2]);
        let real = is_real(day, Slip::Nowhere);
        let not_real = !real && number == 16;
        let most = u64::from(u32::MAX);
        // Seasoned is asked less often.
        let few = if question == "tier" { 30 } else { 20 };
        let mut count = |name: &str, least: u64, came: bool| {
            self.asked.count(&format!("{question}, {name}"), least, came);
        };
        count("29 February", few, not_real && (day.1, day.2) == (2, 29));
        count("31 April", few, not_real && (day.1, day.2) == (4, 31));
        for month in [0, 13, most] {
            count(&format!("month {month}"), few, not_real && day.1 == month);
        }
        for date in [0, 32, most] {
            count(&format!("day {date}"), few, not_real && day.2 == date);
        }
        for year in [0, 1989, 2090, most] {
            count(&format!("year {year}"), few, not_real && day.0 == year);
        }
        count("16 also, refused by 20", 100, number == 20 && !real);
        count("16 also, refused by 10", 100, number == 10 && !real);
        count("16 also, refused by 9", 100, number == 9 && !real);
        if question == "tier" {
            let (hour, minute) = (asked[3], asked[4]);
            let no_time = real && number == 16;
            count("24:00", 30, no_time && (hour, minute) == (24, 0));
            count("12:60", 30, no_time && (hour, minute) == (12, 60));
            if real && hour <= 23 && minute <= 59 {
                self.days.insert(day);
                if number == 0 {
                    self.answered.insert(day);
                }
            }
        }
    }

    /// Tiers of days before every season record.
    fn early(&mut self, asked: &[u64], calendar: &Calendar, told: (u64, u64, u64)) {
        let today = (asked[0], asked[1], asked[2]);
        let (season, special) = chosen(calendar, today, Slip::Nowhere);
        if season.is_some() {
            return;
        }
        let e = &mut self.early;
        let (number, none) = (told.0, told.1);
        let later = dated(calendar, Slip::Nowhere).iter().any(|(_, action)| is_season(*action));
        let new = calendar.dates.is_empty() && calendar.seasons == 1;
        let place = special < Some(calendar.specials);
        for tier in 0..8 {
            e.count(&format!("tier {tier}"), 200, (number, none, told.2) == (0, 0, tier));
        }
        e.count("none yet today", 200, (number, none) == (0, 1));
        e.count("season records later, answered", 500, later && number == 0);
        e.count("no record at all, answered", 500, calendar.dates.is_empty() && number == 0);
        e.count("a new meter, a tier", 200, new && (number, none) == (0, 0));
        e.count("a new meter, none yet today", 50, new && (number, none) == (0, 1));
        e.count("a new meter, armed", 30, new && number == 18);
        e.count("a special schedule, answered", 200, special.is_some() && number == 0);
        e.count("a special schedule without a column", 60, !place && number == 19);
        e.count("S 0", 200, calendar.seasons == 0 && number == 19);
        e.count("S 0, no record at all", 100, {
            calendar.seasons == 0 && calendar.dates.is_empty() && number == 19
        });
        e.count("S 0, armed", 20, calendar.seasons == 0 && number == 18);
        e.count("armed", 200, number == 18);
    }

    /// What seasoned is answered, yes or no, and of which calendar.
    fn seasoned(&mut self, asked: &[u64], tables: &Tables, calendar: &Calendar, yes: bool) {
        let day = (asked[0], asked[1], asked[2]);
        let dates = dated(calendar, Slip::Nowhere);
        let has = |which: &dyn Fn(Day, usize) -> bool| dates.iter().any(|(d, a)| which(*d, *a));
        let season = |at: Day| has(&|date, action| is_season(action) && date == at);
        let at_or_before = |actions: std::ops::RangeInclusive<usize>| {
            has(&|date, action| actions.contains(&action) && date <= day)
        };
        let s = &mut self.seasoned;
        s.count("the day before a season record, no", 500, season(after_day(day)) && !yes);
        s.count("the day before one, after another, yes", 500, season(after_day(day)) && yes);
        s.count("the day of a season record, yes", 1000, season(day) && yes);
        s.count("the day of the earliest, yes", 1000, {
            season(day) && yes && !has(&|date, action| is_season(action) && date < day)
        });
        s.count("the day after a season record, yes", 1000, {
            yes && has(&|date, action| is_season(action) && after_day(date) == day)
        });
        s.count("on or after a special schedule, no", 200, at_or_before(19..=30) && !yes);
        s.count("on or after action 31, no", 200, at_or_before(31..=31) && !yes);
        s.count("on or after actions 0 to 2, no", 200, at_or_before(0..=2) && !yes);
        s.count("after action 31, yes", 200, at_or_before(31..=31) && yes);
        s.count("season records without a real date only, no", 200, {
            let bare = calendar.dates.iter().any(|record| is_season(usize::from(record.octet & 31)));
            bare && !has(&|_, action| is_season(action)) && !yes
        });
        s.count("recurring season records, no", 200, {
            let is_one = |record: &Record| is_season(usize::from(record.octet & 31));
            calendar.recurring.iter().any(is_one) && !yes
        });
        s.count("action bits 5 to 7 of every season record, yes", 200, {
            let is_one = |record: &&Record| is_season(usize::from(record.octet & 31));
            yes && calendar.dates.iter().filter(is_one).all(|record| record.octet > 31)
        });
        for action in [3, 4, 17, 18] {
            s.count(&format!("action {action} alone, yes"), 25, {
                yes && !has(&|date, other| is_season(other) && other != action && date <= day)
            });
        }
        s.count("N 0", 300, calendar.dates.is_empty() && !yes);
        s.count("a new meter", 200, calendar.dates.is_empty() && calendar.seasons == 1 && !yes);
        s.count("N 0, S 0", 30, calendar.dates.is_empty() && calendar.seasons == 0 && !yes);
        let rowless = chosen(calendar, day, Slip::Nowhere).0 >= Some(calendar.seasons);
        s.count("a season without a row", 500, rowless && yes);
        s.count("no record's season has a row", 300, {
            let rows = 3..3 + calendar.seasons;
            yes && !has(&|_, action| is_season(action) && rows.contains(&action))
        });
        for (yes, name) in [(yes, "yes"), (!yes, "no")] {
            s.count(&format!("S 0, {name}"), 100, calendar.seasons == 0 && yes);
            s.count(&format!("armed, {name}"), 200, calendar.armed && yes);
            s.count(&format!("armed, S 0, {name}"), 20, {
                calendar.armed && calendar.seasons == 0 && yes
            });
            s.count(&format!("anchor date, {name}"), 500, calendar.anchor && yes);
            s.count(&format!("N 255, {name}"), 40, calendar.dates.len() == 255 && yes);
            s.count(&format!("DATA_ORDER 0, {name}"), 500, !tables.most_first && yes);
            s.count(&format!("DATA_ORDER 1, {name}"), 500, tables.most_first && yes);
        }
        s.count("1 January 1990, yes", 50, day == (1990, 1, 1) && yes);
        s.count("1 January 1990, no", 20, day == (1990, 1, 1) && !yes);
        s.count("31 December 2089, yes", 40, day == (2089, 12, 31) && yes);
        s.count("31 December 2089, no", 20, day == (2089, 12, 31) && !yes);
    }

    fn sized(&mut self, tables: &Tables, number: u64) {
        let t = &mut self.tables;
        t.count("Table 51 of 8 octets", 200, tables.t51.len() == 8 && number == 20);
        t.count("Table 51 of 10 octets", 200, tables.t51.len() == 10 && number == 20);
        // One octet more, or less, than Table 51 says: with one less, or more, it would be right.
        let right = |t54: &[u8]| read(&Tables { t54, ..*tables }, Slip::Nowhere).is_some();
        let longer = [tables.t54, &[0]].concat();
        t.count("Table 54 an octet short", 200, right(&longer));
        let shorter = tables.t54.split_last().map(|(_, rest)| rest);
        t.count("Table 54 an octet long", 200, shorter.map_or(false, right));
    }

    fn divided(&mut self, reversed: bool, of_51: &[Item], of_54: &[Item]) {
        let one_block = |items: &[Item]| matches!(items, [Item::Block { .. }]);
        let is_array = |item: &Item| matches!(item, Item::Array { .. });
        let is_set = |item: &Item| matches!(item, Item::Set { .. });
        let is_plain = |item: &Item| matches!(item, Item::Uint { .. } | Item::Block { .. });
        let is_dimension = |item: &Item| matches!(item, Item::Uint { slot, .. } if *slot != 0);
        let t = &mut self.tables;
        t.count("54 before 51", 3000, reversed);
        t.count("51 and 54 each one BLOCK", 3000, one_block(of_51) && one_block(of_54));
        t.count("54 with ARRAYs", 3000, of_54.iter().any(is_array));
        t.count("51 with dimensions", 3000, of_51.iter().any(is_dimension));
        t.count("54 with SETs", 3000, of_54.iter().any(is_set));
        t.count("54 of UINTs and BLOCKs", 3000, of_54.len() > 1 && of_54.iter().all(is_plain));
    }

    fn calendar(&mut self, question: &str, asked: &[u64], tables: &Tables, calendar: &Calendar) {
        let c = &mut self.calendars;
        c.count("DATA_ORDER 0", 10_000, !tables.most_first);
        c.count("DATA_ORDER 1", 10_000, tables.most_first);
        c.count("weekdays apart", 10_000, calendar.weekdays);
        c.count("weekdays in one column", 10_000, !calendar.weekdays);
        if question == "tier" {
            for (what, name) in [(0, "summations"), (1, "demands")] {
                c.count(&format!("{name}, separate"), 5000, asked[5] == what && calendar.separate);
                c.count(&format!("{name}, joined"), 5000, asked[5] == what && !calendar.separate);
            }
        }
        c.count("anchor date", 5000, calendar.anchor);
        c.count("no anchor date", 5000, !calendar.anchor);
        c.count("S 0", 500, calendar.seasons == 0);
        c.count("S 15", 500, calendar.seasons == 15);
        c.count("P 0", 500, calendar.specials == 0);
        c.count("P 15", 500, calendar.specials == 15);
        c.count("S and P 15, weekdays apart", 100, {
            calendar.seasons == 15 && calendar.specials == 15 && calendar.weekdays
        });
        c.count("T 0", 500, calendar.switches.is_empty());
        c.count("N 0", 500, calendar.dates.is_empty());
        c.count("N 255", 100, calendar.dates.len() == 255);
        c.count("T over 255", 200, calendar.switches.len() > 255);
        c.count("T 1000 and more", 100, calendar.switches.len() >= 1000);
        c.count("recurring records", 5000, !calendar.recurring.is_empty());

        let r = &mut self.records;
        for record in &calendar.dates {
            self.actions[usize::from(record.octet & 31)] += 1;
            let year = record.field & 127;
            r.count("years 90 to 99", 3000, (90..=99).contains(&year));
            r.count("years 100 to 127", 3000, year >= 100);
        }
        // A large table has many: those of the smaller count.
        if calendar.switches.len() < 256 {
            for record in &calendar.switches {
                let (hour, minute) = (record.field >> 11, record.field >> 5 & 63);
                r.count("hour 24", 500, hour == 24);
                r.count("hours 25 to 31", 3000, hour >= 25);
                r.count("minute 60", 500, minute == 60);
                r.count("minutes 61 to 63", 3000, minute >= 61);
            }
        }
    }

    /// Whether every case was reached.
    fn report(&mut self, all: bool) -> bool {
        self.asked.add("real days asked", 36_525, self.days.len() as u64);
        self.asked.add("real days answered", 33_000, self.answered.len() as u64);
        for (action, count) in self.actions.iter().enumerate() {
            self.records.add(&format!("action {action}"), 1000, *count);
        }
        let groups = [
            &self.replies,
            &self.asked,
            &self.tables,
            &self.calendars,
            &self.records,
            &self.early,
            &self.seasoned,
            &self.slips,
        ];
        let mut reached = true;
        for cases in groups {
            reached = cases.report(all) && reached;
        }
        reached
    }
}

fn main() {
    let mut counts = Counts {
        days: HashSet::new(),
        answered: HashSet::new(),
        actions: [0; 32],
        replies: Cases::new("replies"),
        asked: Cases::new("asked"),
        tables: Cases::new("tables"),
        calendars: Cases::new("calendars"),
        records: Cases::new("records"),
        early: Cases::new("days before every season record"),
        seasoned: Cases::new("seasoned"),
        slips: Cases::new("slips that would show"),
    };
    let lines = cases::each_request(|request, reply| counts.request(request, reply));
    cases::judge(lines, ENOUGH, |all| counts.report(all));
}
