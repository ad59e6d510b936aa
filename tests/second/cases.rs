//! Counts of cases, for reached.rs, reached_elements.rs, reached_messages.rs and
//! reached_weekdays.rs, and what these four do alike.

use std::collections::HashMap;
use std::io::{self, BufRead};

/// Cases of one kind, each with how often it came and how often it is to come.
pub struct Cases {
    heading: &'static str,
    names: Vec<String>,
    places: HashMap<String, usize>,
    counts: Vec<u64>,
    least: Vec<u64>,
}

impl Cases {
    pub fn new(heading: &'static str) -> Cases {
        Cases {
            heading,
            names: Vec::new(),
            places: HashMap::new(),
            counts: Vec::new(),
            least: Vec::new(),
        }
    }

    /// Adds `times` to a case; the first time says how often it is to come.
    pub fn add(&mut self, name: &str, least: u64, times: u64) {
        match self.places.get(name) {
            Some(place) => self.counts[*place] += times,
            None => {
                self.places.insert(String::from(name), self.names.len());
                self.names.push(String::from(name));
                self.counts.push(times);
                self.least.push(least);
            }
        }
    }

    /// How many cases there are.
    pub fn number(&self) -> usize {
        self.names.len()
    }

    pub fn count(&mut self, name: &str, least: u64, came: bool) {
        self.add(name, least, u64::from(came));
    }

    /// Prints of them what is asked; whether each came as often as it is to come.
    pub fn report(&self, all: bool) -> bool {
        let mut cases: Vec<(u64, u64, &str)> = (0..self.names.len())
            .map(|k| (self.counts[k], self.least[k], self.names[k].as_str()))
            .collect();
        if all {
            for (count, least, name) in &cases {
                println!("{}: {name}: {count} times, {least} wanted", self.heading);
            }
        }
        let short: Vec<String> = cases
            .iter()
            .filter(|(count, least, _)| count < least)
            .map(|(count, least, name)| format!("{name}: {count} times, {least} wanted"))
            .collect();
        cases.sort_by(|one, other| (one.0 * other.1).cmp(&(other.0 * one.1)));
        match cases.first() {
            Some((count, least, name)) if short.is_empty() => println!(
                "{}: {} cases reached; the rarest: {name}: {count} times, {least} wanted",
                self.heading,
                cases.len()
            ),
            _ => println!("{}: NOT REACHED: {}", self.heading, short.join("; ")),
        }
        short.is_empty() && !cases.is_empty()
    }
}

/// Reports each of the groups; whether all is reached, and there are as many
/// cases as are wanted (one that no request came near to isn't there).
pub fn report_groups(groups: &[&Cases], wanted: usize, all: bool) -> bool {
    let mut reached = true;
    let mut cases_there = 0;
    for cases in groups {
        reached = cases.report(all) && reached;
        cases_there += cases.number();
    }
    if cases_there != wanted {
        println!("{cases_there} cases came to be counted, {wanted} are wanted");
    }
    reached && cases_there == wanted
}

/// Gives each request of the input, with its reply, to be counted, and says how
/// many there were. Ends the program where one can't be counted.
pub fn each_request(mut count: impl FnMut(&str, &str) -> Result<(), String>) -> u64 {
    let mut lines = 0;
    for line in io::stdin().lock().split(b'\n') {
        // Spoiled lines have octets of any value, tabs among them.
        let line = line.unwrap_or_default();
        let line = String::from_utf8_lossy(&line);
        lines += 1;
        let found = match line.rsplit_once('\t') {
            Some((request, reply)) => count(request, reply),
            None => Err(String::from("no reply")),
        };
        if let Err(message) = found {
            println!("reached: line {lines}: {message}: {line:.120}");
            std::process::exit(1);
        }
    }
    lines
}

/// Reports what came. Ends the program with a failure where enough requests
/// leave a case out; of fewer, nothing is asked.
pub fn judge(lines: u64, enough: u64, report: impl FnOnce(bool) -> bool) {
    let all = std::env::args().nth(1).as_deref() == Some("all");
    if lines < enough && !all {
        println!("what so few requests reach isn't asked");
    } else if !report(all) && lines >= enough {
        std::process::exit(1);
    }
}
