//! The writers of the waveform (docs/WAVEFORM.md). The length of a step is
//! worked out first, so that nothing is written if there is no room for all of
//! it; then its bytes are put onto the page.

use super::check::open;
use super::{Layout, HEADER, MAX_NODES, MOVES, NO_ROOM, QUEUES};

const OPENING: &[u8] = b"$timescale 1 ns $end\n$scope module network $end\n";
const BETWEEN: &[u8] = b"$upscope $end\n$enddefinitions $end\n";
const DUMPVARS: &[u8] = b"$dumpvars\n";
const CLOSING: &[u8] = b"$end\n";
/// The parts of a variable's line round its number, its node and its queue.
const VAR: &[u8] = b"$var wire 8 ";
const NODE: &[u8] = b" n";
const QUEUE: &[u8] = b"q";
const END: &[u8] = b" $end\n";

fn digits(number: u64) -> usize {
    number.checked_ilog10().unwrap_or(0) as usize + 1
}

fn bits(fill: u8) -> usize {
    fill.checked_ilog2().unwrap_or(0) as usize + 1
}

/// The bytes of `#time` and its line end.
fn stamp_len(time: u64) -> usize {
    digits(time) + 2
}

/// The bytes of a value line: `b`, the bits, a blank, the variable, a line end.
fn value_len(variable: usize, fill: u8) -> usize {
    bits(fill) + digits(variable as u64) + 3
}

/// The bytes of a variable's line.
fn var_len(variable: usize) -> usize {
    let (node, queue) = ((variable / QUEUES) as u64, (variable % QUEUES) as u64);
    let numbers = digits(variable as u64) + digits(node) + digits(queue);
    VAR.len() + NODE.len() + QUEUE.len() + END.len() + numbers
}

/// A page that has room for the step, and how far it is written.
struct Page<'a> {
    bytes: &'a mut [u8],
    at: usize,
}

impl Page<'_> {
    fn text(&mut self, text: &[u8]) {
        self.bytes[self.at..self.at + text.len()].copy_from_slice(text);
        self.at += text.len();
    }

    fn byte(&mut self, byte: u8) {
        self.bytes[self.at] = byte;
        self.at += 1;
    }

    fn decimal(&mut self, mut number: u64) {
        let len = digits(number);
        for place in self.bytes[self.at..self.at + len].iter_mut().rev() {
            *place = b'0' + (number % 10) as u8;
            number /= 10;
        }
        self.at += len;
    }

    fn stamp(&mut self, time: u64) {
        self.byte(b'#');
        self.decimal(time);
        self.byte(b'\n');
    }

    fn value(&mut self, variable: usize, fill: u8) {
        self.byte(b'b');
        for bit in (0..bits(fill)).rev() {
            self.byte(b'0' + (fill >> bit & 1));
        }
        self.byte(b' ');
        self.decimal(variable as u64);
        self.byte(b'\n');
    }

    fn var(&mut self, variable: usize) {
        self.text(VAR);
        self.decimal(variable as u64);
        self.text(NODE);
        self.decimal((variable / QUEUES) as u64);
        self.text(QUEUE);
        self.decimal((variable % QUEUES) as u64);
        self.text(END);
    }
}

/// A fill for each queue of the largest network.
type Fills = [u8; MAX_NODES * QUEUES];

/// Reads the fills of a network that passed the check.
fn read_fills(words: &[u64], layout: &Layout, fills: &mut [u8]) {
    let nodes = words[HEADER..].chunks_exact(layout.stride);
    for (node, fills) in nodes.zip(fills.chunks_exact_mut(QUEUES)) {
        for (fill, start) in fills.iter_mut().zip(layout.start) {
            *fill = node[start] as u8;
        }
    }
}

/// The refusal, then the bytes of the step.
pub fn write_header(words: &[u64], fills: &mut [u8], page: &mut [u8]) -> (u64, [u64; 1]) {
    let layout = match open(words) {
        Err(refusal) => return (refusal, [0]),
        Ok((layout, _)) => layout,
    };
    let variables = layout.nodes() * QUEUES;
    let Some(fills) = fills.get_mut(..variables) else {
        return (NO_ROOM, [0]);
    };
    let mut now: Fills = [0; MAX_NODES * QUEUES];
    let now = &mut now[..variables];
    read_fills(words, &layout, now);
    let time = words[MOVES];
    let mut len = OPENING.len() + BETWEEN.len() + DUMPVARS.len() + CLOSING.len() + stamp_len(time);
    for (variable, fill) in now.iter().enumerate() {
        len += var_len(variable) + value_len(variable, *fill);
    }
    if page.len() < len {
        return (NO_ROOM, [0]);
    }
    let mut page = Page { bytes: page, at: 0 };
    page.text(OPENING);
    for variable in 0..variables {
        page.var(variable);
    }
    page.text(BETWEEN);
    page.stamp(time);
    page.text(DUMPVARS);
    for (variable, fill) in now.iter().enumerate() {
        page.value(variable, *fill);
    }
    page.text(CLOSING);
    fills.copy_from_slice(now);
    (0, [len as u64])
}

/// The refusal, then the bytes of the step.
pub fn write_changes(words: &[u64], fills: &mut [u8], page: &mut [u8]) -> (u64, [u64; 1]) {
    let layout = match open(words) {
        Err(refusal) => return (refusal, [0]),
        Ok((layout, _)) => layout,
    };
    let variables = layout.nodes() * QUEUES;
    let Some(fills) = fills.get_mut(..variables) else {
        return (NO_ROOM, [0]);
    };
    let mut now: Fills = [0; MAX_NODES * QUEUES];
    let now = &mut now[..variables];
    read_fills(words, &layout, now);
    let time = words[MOVES];
    let mut len = stamp_len(time);
    for (variable, (new, old)) in now.iter().zip(&*fills).enumerate() {
        if new != old {
            len += value_len(variable, *new);
        }
    }
    if page.len() < len {
        return (NO_ROOM, [0]);
    }
    let mut page = Page { bytes: page, at: 0 };
    page.stamp(time);
    for (variable, (new, old)) in now.iter().zip(&*fills).enumerate() {
        if new != old {
            page.value(variable, *new);
        }
    }
    fills.copy_from_slice(now);
    (0, [len as u64])
}
