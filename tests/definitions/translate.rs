// Turns requests of the line language, each with its reply behind a tab, into equations for the prover: the definition of that question, at the request's
// description, image and arguments, computes to the reply's values. Reads standard input, writes a module to standard output and a count to standard error.
// Requests are left out that no short computation answers: lines that are too long, descriptions with an ARRAY whose count has more than three bits, since
// the meaning of laying out lists every element, and messages put into a room of many octets.
use std::io::{self, BufRead, Write};

// Lines of more characters than this are left out.
const LONGEST: usize = 1500;

// Rooms of more octets than this are left out.
const WIDEST: usize = 64;

// What a room holds before a message is put into it: no octet behind the message may change.
const BEFORE: u8 = 255;

// `1 ∷ 2 ∷ []`, in parentheses
fn list(values: &[String]) -> String {
    let mut text = String::from("(");
    for value in values {
        text.push_str(value);
        text.push_str(" ∷ ");
    }
    text + "[])"
}

fn octets(word: &str) -> Vec<u8> {
    if word == "-" {
        return Vec::new();
    }
    (0..word.len() / 2).map(|i| u8::from_str_radix(&word[2 * i..2 * i + 2], 16).unwrap()).collect()
}

fn octet_list(octets: &[u8]) -> String {
    list(&octets.iter().map(|octet| octet.to_string()).collect::<Vec<_>>())
}

fn hex_list(word: &str) -> String {
    octet_list(&octets(word))
}

fn word_list(words: &[&str]) -> String {
    list(&words.iter().map(|word| word.to_string()).collect::<Vec<_>>())
}

// An element's name: item, count and four subscripts.
fn name(words: &[&str]) -> String {
    format!("(record {{ item = {}; count = {}; subscripts = {} }})", words[0], words[1], word_list(&words[2..6]))
}

fn date(words: &[&str]) -> String {
    format!("(record {{ year = {}; month = {}; day = {} }})", words[0], words[1], words[2])
}

// Whether an item is an ARRAY whose count has more than three bits: kind 5, width less 1 in bits 16..12.
fn counts_far(description: &str) -> bool {
    octets(description).chunks_exact(4).any(|item| {
        let word = u32::from_be_bytes([item[0], item[1], item[2], item[3]]);
        word >> 28 == 5 && (word >> 12) % 32 > 2
    })
}

// A request's question, as the definitions have it, and what its reply tells: how many numbers, of which a refusal has the first four, whether octets, whether the image afterwards.
fn question(words: &[&str]) -> Option<(String, usize, bool, bool)> {
    let table = || format!("{} {}", words[3], words[4]);
    let element = || name(&words[3..]);
    Some(match words[0] {
        "check" => ("check".to_string(), 4, false, false),
        "layout" => ("layout".to_string(), 5, false, false),
        "table" => (format!("table_place {}", table()), 6, false, false),
        "tablepart" => (format!("table_part {}", table()), 0, true, false),
        "where" => (format!("element_place {}", element()), 6, false, false),
        "octets" => (format!("element_part {}", element()), 0, true, false),
        "number" => (format!("element_number {}", element()), 5, false, false),
        "writerange" => (format!("write_range {} (record {{ 0 = {} }}) {}", table(), words[5], hex_list(words[6])), 4, false, true),
        "writeoctets" => (format!("write_octets {} {}", element(), hex_list(words[9])), 4, false, true),
        "writenumber" => (format!("write_number {} {}", element(), words[9]), 4, false, true),
        "tier" => {
            let moment = format!(
                "(record {{ year = {}; month = {}; day = {}; hour = {}; minute = {} }})",
                words[3], words[4], words[5], words[6], words[7]
            );
            let asked = if words[8] == "0" { "Quantity.Summations" } else { "Quantity.Demands" };
            (format!("tier {} {}", moment, asked), 6, false, false)
        }
        "matrix" => ("matrix".to_string(), 4, true, false),
        "seasoned" => (format!("seasoned {}", date(&words[3..])), 5, false, false),
        "readrange" => (format!("read_range {} (record {{ 0 = {} }}) {}", table(), words[5], words[6]), 6, true, false),
        _ => return None,
    })
}

// What a question about tables comes to, and what the reply says it is.
fn table_equations(words: &[&str], values: &[&str]) -> Vec<String> {
    let (question, count, octets, after) = match question(words) {
        Some(found) if !counts_far(words[1]) => found,
        _ => return Vec::new(),
    };
    let on = format!("({}) {} {}", question, hex_list(words[1]), if words[0] == "check" { "[]".to_string() } else { hex_list(words[2]) });
    let mut found = vec![format!("numbers_of {} (reply_to {}) ≡ {}", count, on, word_list(&values[..count]))];
    if octets {
        found.push(format!("octets_to {} ≡ {}", on, hex_list(values[count])));
    }
    if after {
        found.push(format!("image_after {} ≡ {}", on, hex_list(values[count])));
    }
    found
}

// The weekday of a date, by the question about no table.
fn weekday_equations(words: &[&str], values: &[&str]) -> Vec<String> {
    vec![format!("numbers_of 5 (reply_to (weekday {}) [] []) ≡ ({} ∷ 0 ∷ 0 ∷ 0 ∷ {} ∷ [])", date(&words[1..]), values[0], values[1])]
}

// A message put into a room: its number of octets and the room afterwards, by the two definitions that say these of `what` in a room; the reply has the refusal's
// number and the message, `-` on refusal.
fn in_room(replies: &str, leaves: &str, what: &str, room: &str, values: &[&str]) -> Vec<String> {
    let message = octets(values[1]);
    let room: usize = match room.parse() {
        Ok(room) if room <= WIDEST && message.len() <= room => room,
        _ => return Vec::new(),
    };
    let mut later = vec![BEFORE; room];
    later[..message.len()].copy_from_slice(&message);
    let before = format!("(replicate {} {})", room, BEFORE);
    vec![
        format!("numbers_of 5 ({} {} {}) ≡ ({} ∷ 0 ∷ 0 ∷ 0 ∷ {} ∷ [])", replies, what, before, values[0], message.len()),
        format!("{} {} {} ≡ {}", leaves, what, before, octet_list(&later)),
    ]
}

// What a message comes to, and what the reply says it is.
fn message_equations(words: &[&str], values: &[&str]) -> Vec<String> {
    match words[0] {
        "serve" if counts_far(words[1]) => Vec::new(),
        "serve" => {
            let what = format!("{} {} {}", hex_list(words[1]), hex_list(words[2]), hex_list(words[4]));
            let mut found = in_room("serve_reply", "serve_room", &what, words[3], values);
            if !found.is_empty() {
                found.push(format!("serve_image {} (replicate {} {}) ≡ {}", what, words[3], BEFORE, hex_list(values[2])));
            }
            found
        }
        "readrequest" => vec![
            format!("request_numbers (request_told (requested_by (request_in {}))) ≡ {}", hex_list(words[1]), word_list(&values[..5])),
            format!("request_data (request_in {}) ≡ {}", hex_list(words[1]), hex_list(values[5])),
        ],
        "writerequest" => {
            let what = format!("(request_of {} {})", words[1..5].join(" "), hex_list(words[6]));
            in_room("request_sent", "request_room", &what, words[5], values)
        }
        "readreply" => vec![
            format!("reply_numbers (reply_told (heard_by (reply_in {}))) ≡ {}", hex_list(words[1]), word_list(&values[..3])),
            format!("reply_data (reply_in {}) ≡ {}", hex_list(words[1]), hex_list(values[3])),
        ],
        "writereply" => {
            let what = format!("(reply_of {} {})", words[1..3].join(" "), hex_list(words[4]));
            in_room("reply_sent", "reply_room", &what, words[3], values)
        }
        _ => Vec::new(),
    }
}

// What the definitions say of a request, and what the reply says it is.
fn equations(request: &str, reply: &str) -> Vec<String> {
    let words: Vec<&str> = request.split(' ').collect();
    let values: Vec<&str> = reply.split(' ').collect();
    if reply == "?" || request.len() > LONGEST {
        return Vec::new();
    }
    if words[0] == "weekday" {
        return weekday_equations(&words, &values);
    }
    let found = table_equations(&words, &values);
    if found.is_empty() { message_equations(&words, &values) } else { found }
}

const HEAD: &str = "use mathlib.Core.Path.{refl}
use Rattle.std.specs.Prelude.{ℕ, ◌≡◌, List, [], ◌∷◌, replicate}
use Rattle.meaning.proofs.Computing.{computing}
use Rattle.meaning.specs.declared.Quantity.{Quantity}
use Rattle.meaning.specs.declared.ReplyTold.{ReplyTold}
use Rattle.meaning.specs.declared.RequestTold.{RequestTold}
use Rattle.meaning.specs.Refusals.{numbers_of}
use Rattle.meaning.specs.Questions.{check, layout, table_place, table_part, element_place, element_part, element_number, write_range, write_octets, write_number, tier, matrix, seasoned, weekday, read_range, reply_to, octets_to, image_after}
use Rattle.meaning.specs.Messages.{request_in, requested_by, request_data, request_told, reply_in, heard_by, reply_data, reply_told, request_of, request_sent, request_room, reply_of, reply_sent, reply_room, serve_reply, serve_room, serve_image}

abbrev request_numbers : RequestTold → List ℕ
request_numbers t = t.code ∷ t.kind ∷ t.id ∷ t.offset ∷ t.count ∷ []

abbrev reply_numbers : ReplyTold → List ℕ
reply_numbers t = t.refusal.number ∷ t.kind ∷ t.code ∷ []
";

fn main() -> io::Result<()> {
    let most: usize = std::env::args().nth(1).and_then(|word| word.parse().ok()).unwrap_or(usize::MAX);
    let mut out = io::BufWriter::new(io::stdout());
    out.write_all(HEAD.as_bytes())?;
    let (mut taken, mut count) = (0, 0);
    // a spoiled line may hold any octets; it is of no form
    for line in io::stdin().lock().split(b'\n') {
        let line = line?;
        let line = String::from_utf8_lossy(&line);
        let (request, reply) = line.rsplit_once('\t').unwrap_or((&line, "?"));
        // the rest is read too, so that whoever writes it isn't stopped
        let found = if taken < most { equations(request, reply) } else { Vec::new() };
        taken += usize::from(!found.is_empty());
        for equation in found {
            write!(out, "\ne{} : {}\nunfolding computing\ne{} = refl\n", count, equation, count)?;
            count += 1;
        }
    }
    out.flush()?;
    eprintln!("{} requests, {} equations", taken, count);
    Ok(())
}
