//! The second program: the questions about meter tables, asked in lines of
//! text and answered from documents 01 and 02 (its requests E1 to E4) alone.
//! See the README beside this directory.

mod access;
mod calendar;
mod causes;
mod description;
mod layout;
mod lines;
mod messages;
mod refusal;

#[cfg(test)]
mod tests_calendar;
#[cfg(test)]
mod tests_elements;
#[cfg(test)]
mod tests_lines;
#[cfg(test)]
mod tests_messages;
#[cfg(test)]
mod tests_paper;
#[cfg(test)]
mod tests_places;
#[cfg(test)]
mod tests_rules;
#[cfg(test)]
mod tests_source;
#[cfg(test)]
mod tests_support;

use std::io::{self, BufRead, BufReader, BufWriter, Read, Write};

/// Answers every line of the input, in order. What is past the longest line is
/// not kept, so that no input can take all memory.
fn answer_all<R: Read, W: Write>(input: R, output: W) -> io::Result<()> {
    let mut input = BufReader::with_capacity(1 << 16, input);
    let mut output = BufWriter::with_capacity(1 << 16, output);
    let mut line: Vec<u8> = Vec::new();
    loop {
        let (used, ended) = {
            let chunk = match input.fill_buf() {
                Ok(chunk) => chunk,
                Err(error) if error.kind() == io::ErrorKind::Interrupted => continue,
                Err(error) => return Err(error),
            };
            if chunk.is_empty() {
                break;
            }
            let (part, ended) = match chunk.iter().position(|octet| *octet == b'\n') {
                Some(place) => (&chunk[..place], true),
                None => (chunk, false),
            };
            // One octet more than the longest line shows that it is too long.
            let room = (lines::LONGEST_LINE + 1).saturating_sub(line.len());
            line.extend_from_slice(&part[..part.len().min(room)]);
            (part.len() + usize::from(ended), ended)
        };
        input.consume(used);
        if ended {
            writeln!(output, "{}", lines::answer(&line))?;
            line.clear();
        }
    }
    // "a last line without line feed, if not empty, is answered like any
    // other"
    if !line.is_empty() {
        writeln!(output, "{}", lines::answer(&line))?;
    }
    output.flush()
}

fn main() {
    // A reader that goes away ends the program; there is nobody left to tell.
    let _ = answer_all(io::stdin(), io::stdout());
}
