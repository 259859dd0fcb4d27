//! The bench program (R240 to R257) on top of the model: a sheet's bytes in,
//! the printed bytes out.
//!
//! Readings of points that the rules leave open:
//! - a line ends with LF or with CR LF, each line for itself; a CR that no LF
//!   follows belongs to the line, also as the last byte of the input;
//! - the 64 bytes are counted without the end of the line;
//! - a T that is refused leaves the network as it was.

use crate::model::{self, Refusal, Stop};

pub const STORE_WORDS: usize = 8000;
pub const LEDGER_WORDS: usize = 64;
const LONGEST_LINE: usize = 64;

/// A line that says something.
#[derive(Clone, Copy, Debug, PartialEq, Eq)]
pub enum Line {
    Make {
        sizes: [u32; 6],
    },
    Offer {
        node: u32,
        destination: u32,
        tag: u32,
        chunks: u32,
    },
    Move {
        node: u32,
        queue: u32,
        output: u32,
    },
    Drain {
        budget: u32,
    },
}

/// Runs a whole sheet.
pub fn run(input: &[u8]) -> Vec<u8> {
    let mut program = Program {
        store: vec![0; STORE_WORDS],
        printed: Vec::new(),
    };
    for line in lines(input) {
        program.obey(line);
    }
    program.printed
}

/// The lines of the input without their ends.
pub fn lines(input: &[u8]) -> Vec<&[u8]> {
    let mut list = Vec::new();
    let mut rest = input;
    while let Some(end) = rest.iter().position(|byte| *byte == b'\n') {
        let line = &rest[..end];
        list.push(line.strip_suffix(b"\r").unwrap_or(line));
        rest = &rest[end + 1..];
    }
    if !rest.is_empty() {
        list.push(rest);
    }
    list
}

/// A number from 0 to 4294967295 without leading zeros.
fn number(field: &[u8]) -> Option<u32> {
    let digits_only = !field.is_empty() && field.iter().all(u8::is_ascii_digit);
    if !digits_only || (field.len() > 1 && field[0] == b'0') {
        return None;
    }
    std::str::from_utf8(field).ok()?.parse().ok()
}

/// What a line says, or nothing if it is a bad line.
pub fn parse(line: &[u8]) -> Option<Line> {
    if line.len() > LONGEST_LINE {
        return None;
    }
    let mut fields = line.split(|byte| *byte == b',');
    let letter = fields.next()?;
    let numbers: Vec<u32> = fields.map(number).collect::<Option<_>>()?;
    match (letter, numbers.as_slice()) {
        (b"T", numbers) => Some(Line::Make {
            sizes: numbers.try_into().ok()?,
        }),
        (b"O", &[node, destination, tag, chunks]) => Some(Line::Offer {
            node,
            destination,
            tag,
            chunks,
        }),
        (b"M", &[node, queue, output]) => Some(Line::Move {
            node,
            queue,
            output,
        }),
        (b"D", &[budget]) => Some(Line::Drain { budget }),
        _ => None,
    }
}

struct Program {
    store: Vec<u64>,
    printed: Vec<u8>,
}

impl Program {
    fn print(&mut self, line: String) {
        self.printed.extend_from_slice(line.as_bytes());
        self.printed.extend_from_slice(b"\r\n");
    }

    fn print_refusal<T>(&mut self, letter: char, result: &Result<T, Refusal>) {
        let number = result.as_ref().err().map_or(0, |refusal| refusal.number());
        self.print(format!("{letter},{number}"));
    }

    fn print_delivery(&mut self, word: u64) {
        let (tag, destination) = (word >> 32, word >> 16 & 0xfff);
        self.print(format!("P,{tag},{destination}"));
    }

    fn obey(&mut self, line: &[u8]) {
        match parse(line) {
            None => self.print("?,13".into()),
            Some(Line::Make { sizes }) => {
                let result = model::make(&mut self.store, sizes.map(u64::from));
                self.print_refusal('T', &result);
            }
            Some(Line::Offer {
                node,
                destination,
                tag,
                chunks,
            }) => {
                let (node, destination) = (node.into(), destination.into());
                let result = model::offer(&mut self.store, node, destination, tag, chunks.into());
                self.print_refusal('O', &result);
            }
            Some(Line::Move {
                node,
                queue,
                output,
            }) => {
                let (node, queue, output) = (node.into(), queue.into(), output.into());
                let result = model::move_packet(&mut self.store, node, queue, output);
                if let Ok(Some(word)) = result {
                    self.print_delivery(word);
                }
                self.print_refusal('M', &result);
            }
            Some(Line::Drain { budget }) => self.drain(budget),
        }
    }

    fn drain(&mut self, budget: u32) {
        let mut ledger = [0; LEDGER_WORDS];
        let result = model::drain(&mut self.store, budget, &mut ledger);
        let Ok(drained) = result else {
            return self.print_refusal('D', &result);
        };
        for word in &ledger[..drained.delivered as usize] {
            self.print_delivery(*word);
        }
        let stop = match drained.stop {
            Stop::Emptied => "emptied",
            Stop::Spent => "spent",
            Stop::Full => "full",
        };
        self.print(format!("D,0,{},{stop}", drained.moves));
    }
}
