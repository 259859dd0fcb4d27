//! A plain and fast implementation on the words themselves: the baseline of
//! the benchmark. Safe Rust, no allocation, one pass for the check and a look at
//! the rings.

#![forbid(unsafe_code)]

mod check;
mod drain;
mod first;
mod wave;

pub use drain::{drain, drain_simple};
pub use first::first;
pub use wave::{write_changes, write_header};

use check::open;
use std::array;

const HEADER: usize = 9;
const ACCEPTED: usize = 6;
const DELIVERED: usize = 7;
const MOVES: usize = 8;

const DIMENSIONS: usize = 3;
const DIRECTIONS: usize = 2 * DIMENSIONS;
const QUEUES: usize = 1 + 2 * DIRECTIONS;
const FIRST_ESCAPE: usize = 1 + DIRECTIONS;
const MAX_SIDE: usize = 16;
const MAX_NODES: usize = MAX_SIDE * MAX_SIDE * MAX_SIDE;
const MAX_WORK: u64 = 25;
const MAX_CHUNKS: u64 = 8;

const SHORT_STORE: u64 = 1;
const WRONG_SIZE: u64 = 2;
const NO_NETWORK: u64 = 3;
const NO_SUCH_NODE: u64 = 4;
const NO_SUCH_QUEUE: u64 = 5;
const NO_SUCH_OUTPUT: u64 = 6;
const INJECTION_FULL: u64 = 7;
const COUNT_SPENT: u64 = 8;
const NOBODY_THERE: u64 = 9;
const NOT_ITS_WAY: u64 = 10;
const NO_SLOT: u64 = 11;
const NO_BUBBLE: u64 = 12;
const TO_ONESELF: u64 = 14;
const NO_ROOM: u64 = 15;

/// The direction of a queue or an output from 1 on: 0 to 5 for x+, x-, y+, y-,
/// z+, z-.
fn direction_of(queue: usize) -> usize {
    (queue - 1) % DIRECTIONS
}

/// Where everything stands in the words of a network.
struct Layout {
    /// Nodes along each dimension.
    side: [usize; DIMENSIONS],
    /// What one hop along each dimension adds to a node's number.
    step: [usize; DIMENSIONS],
    /// Words of one node.
    stride: usize,
    /// The most load of each queue, and its words for packets: chunks of an
    /// adaptive queue, slots of the others.
    cap: [usize; QUEUES],
    /// Where each queue's count word stands in its node's words.
    start: [usize; QUEUES],
}

impl Layout {
    /// From X, Y, Z, E, A, J.
    fn new([x, y, z, e, a, j]: [u64; 6]) -> Option<Layout> {
        // An unsigned difference is below n exactly for n values.
        let sizes_fit = x.wrapping_sub(1) < 16 && y.wrapping_sub(1) < 16 && z.wrapping_sub(1) < 16;
        let slots_fit = e.wrapping_sub(2) < 7 && a.wrapping_sub(1) < 8 && j.wrapping_sub(1) < 8;
        if !(sizes_fit && slots_fit) {
            return None;
        }
        let mut cap = [e as usize; QUEUES];
        cap[0] = j as usize;
        cap[1..FIRST_ESCAPE].fill((MAX_CHUNKS * a) as usize);
        let mut start = [0; QUEUES];
        let mut stride = 0;
        for queue in 0..QUEUES {
            start[queue] = stride;
            stride += 1 + cap[queue];
        }
        let side = [x as usize, y as usize, z as usize];
        Some(Layout {
            side,
            step: [1, side[0], side[0] * side[1]],
            stride,
            cap,
            start,
        })
    }

    fn nodes(&self) -> usize {
        self.side.iter().product()
    }

    fn need(&self) -> usize {
        HEADER + self.nodes() * self.stride
    }

    /// The index of a queue's count word.
    fn at(&self, node: usize, queue: usize) -> usize {
        HEADER + node * self.stride + self.start[queue]
    }

    fn coordinate(&self, node: usize, dimension: usize) -> usize {
        node / self.step[dimension] % self.side[dimension]
    }

    /// The neighbour of a node whose coordinate along the direction is known.
    fn next_to(&self, node: usize, coordinate: usize, direction: usize) -> usize {
        let (step, last) = (self.step[direction / 2], self.side[direction / 2] - 1);
        let plus = direction.is_multiple_of(2);
        match (plus, coordinate) {
            (true, c) if c == last => node - last * step,
            (true, _) => node + step,
            (false, 0) => node + last * step,
            (false, _) => node - step,
        }
    }

    /// The node that an output from 1 on leads to.
    fn beyond(&self, node: usize, output: usize) -> usize {
        let direction = direction_of(output);
        let coordinate = self.coordinate(node, direction / 2);
        self.next_to(node, coordinate, direction)
    }
}

/// Where the five bits of each offset begin in a packet word.
const SHIFT: [u32; DIMENSIONS] = [10, 5, 0];
/// The bits of all three, and the two bits that are 0 in every packet.
const OFFSETS: u64 = 0x7fff;
const UNUSED_BITS: u64 = 0x8000_8000;
/// Where the chunks begin, less one of them.
const CHUNKS_SHIFT: u32 = 28;

fn offset(word: u64, dimension: usize) -> i8 {
    // The five bits to the top of a byte, and back with their sign.
    ((word >> SHIFT[dimension] << 3) as i8) >> 3
}

fn offsets(word: u64) -> [i8; DIMENSIONS] {
    array::from_fn(|dimension| offset(word, dimension))
}

/// The chunks of a packet but one.
fn chunks_but_one(word: u64) -> u64 {
    word >> CHUNKS_SHIFT & 7
}

/// What a packet takes of a queue.
fn load_in(queue: usize, word: u64) -> usize {
    if is_adaptive(queue) {
        1 + chunks_but_one(word) as usize
    } else {
        1
    }
}

fn is_adaptive(queue: usize) -> bool {
    (1..FIRST_ESCAPE).contains(&queue)
}

/// What the packets of a queue take of it; `words` begins with its count word.
fn load(queue: usize, words: &[u64]) -> usize {
    let count = words[0] as usize;
    if !is_adaptive(queue) {
        return count;
    }
    let more: u64 = words[1..=count].iter().map(|w| chunks_but_one(*w)).sum();
    count + more as usize
}

/// Stands in a list of routes where a dimension has no hops left.
const NONE: usize = usize::MAX;

/// The adaptive queue along a dimension, by the sign of the hops left there.
fn way(word: u64, dimension: usize) -> usize {
    match offset(word, dimension) {
        0 => NONE,
        hops => 1 + 2 * dimension + (hops < 0) as usize,
    }
}

/// The routes of a head in their order; unused places are `NONE`.
fn routes(queue: usize, word: u64) -> [usize; DIMENSIONS + 1] {
    if word & OFFSETS == 0 {
        return [0, NONE, NONE, NONE];
    }
    let (x, y, z) = (way(word, 0), way(word, 1), way(word, 2));
    let first = if x != NONE {
        x
    } else if y != NONE {
        y
    } else {
        z
    };
    let escape = first + DIRECTIONS;
    match queue {
        3 | 4 | 9 | 10 => [y, x, z, escape],
        5 | 6 | 11 | 12 => [z, x, y, escape],
        _ => [x, y, z, escape],
    }
}

/// The flow rule for a head and a target of which so much is free: 0, 11 or 12.
fn flow(queue: usize, output: usize, head: u64, free: usize) -> u64 {
    if free < load_in(output, head) {
        NO_SLOT
    } else if free == 1 && output >= FIRST_ESCAPE && output != queue {
        NO_BUBBLE
    } else {
        0
    }
}

/// The packet word after a hop to this output.
fn hopped(word: u64, output: usize) -> u64 {
    let direction = direction_of(output);
    let one = 1 << SHIFT[direction / 2];
    let field = 31 * one;
    // In five bits, 31 is one less than 0.
    let change = if direction.is_multiple_of(2) {
        field
    } else {
        one
    };
    (word & !field) | (word.wrapping_add(change) & field)
}

/// Takes the oldest packet out of a queue's words.
fn pop(queue: &mut [u64]) -> u64 {
    let count = queue[0] as usize;
    let head = queue[1];
    queue.copy_within(2..count + 1, 1);
    queue[count] = 0;
    queue[0] -= 1;
    head
}

/// Puts a packet at the end of a queue's words.
fn push(queue: &mut [u64], word: u64) {
    let count = queue[0] as usize;
    queue[count + 1] = word;
    queue[0] += 1;
}

/// Makes a permitted move; `target` is the index of the target's count word,
/// which a delivery does not have. Gives the delivered word.
fn carry_out(words: &mut [u64], source: usize, output: usize, target: usize) -> u64 {
    words[MOVES] += 1;
    let word = pop(&mut words[source..]);
    if output == 0 {
        words[DELIVERED] += 1;
        return word;
    }
    push(&mut words[target..], hopped(word, output));
    0
}

/// Makes an empty network of the sizes X, Y, Z, E, A, J.
pub fn make(words: &mut [u64], sizes: [u64; 6]) -> u64 {
    let layout = match Layout::new(sizes) {
        None => return WRONG_SIZE,
        Some(layout) => layout,
    };
    if words.len() < layout.need() {
        return SHORT_STORE;
    }
    words[..6].copy_from_slice(&sizes);
    words[6..layout.need()].fill(0);
    0
}

pub fn check(words: &[u64]) -> u64 {
    open(words).err().unwrap_or(0)
}

pub fn offer(words: &mut [u64], node: u64, destination: u64, tag: u32, chunks: u64) -> u64 {
    let layout = match open(words) {
        Err(refusal) => return refusal,
        Ok((layout, _)) => layout,
    };
    let nodes = layout.nodes() as u64;
    if node >= nodes || destination >= nodes {
        return NO_SUCH_NODE;
    }
    if chunks.wrapping_sub(1) >= MAX_CHUNKS {
        return WRONG_SIZE;
    }
    if node == destination {
        return TO_ONESELF;
    }
    if words[ACCEPTED] == u32::MAX as u64 {
        return COUNT_SPENT;
    }
    let at = layout.at(node as usize, 0);
    if words[at] == layout.cap[0] as u64 {
        return INJECTION_FULL;
    }
    let mut word = (tag as u64) << 32 | (chunks - 1) << CHUNKS_SHIFT | destination << 16;
    for (d, shift) in SHIFT.into_iter().enumerate() {
        let from = layout.coordinate(node as usize, d);
        let to = layout.coordinate(destination as usize, d);
        word |= shorter_way(from, to, layout.side[d]) << shift;
    }
    push(&mut words[at..], word);
    words[ACCEPTED] += 1;
    0
}

/// The five bits of an offer's offset in one dimension; half-way round it is
/// minus from an odd coordinate.
fn shorter_way(from: usize, to: usize, size: usize) -> u64 {
    let plus = if to >= from {
        to - from
    } else {
        to + size - from
    };
    if 2 * plus < size || (2 * plus == size && from.is_multiple_of(2)) {
        plus as u64
    } else {
        (32 + plus - size) as u64
    }
}

/// The refusal, then the number of packets handed out and the packet word.
pub fn move_packet(words: &mut [u64], node: u64, queue: u64, output: u64) -> (u64, [u64; 2]) {
    match try_move(words, node, queue, output) {
        Err(refusal) => (refusal, [0, 0]),
        Ok(out) => (0, out),
    }
}

fn try_move(words: &mut [u64], node: u64, queue: u64, output: u64) -> Result<[u64; 2], u64> {
    let (layout, _) = open(words)?;
    if node >= layout.nodes() as u64 {
        return Err(NO_SUCH_NODE);
    }
    if queue >= QUEUES as u64 {
        return Err(NO_SUCH_QUEUE);
    }
    if output >= QUEUES as u64 {
        return Err(NO_SUCH_OUTPUT);
    }
    let (node, queue, output) = (node as usize, queue as usize, output as usize);
    let source = layout.at(node, queue);
    if words[source] == 0 {
        return Err(NOBODY_THERE);
    }
    let head = words[source + 1];
    if !routes(queue, head).contains(&output) {
        return Err(NOT_ITS_WAY);
    }
    if output == 0 {
        return Ok([1, carry_out(words, source, 0, 0)]);
    }
    let target = layout.at(layout.beyond(node, output), output);
    let free = layout.cap[output] - load(output, &words[target..]);
    match flow(queue, output, head, free) {
        0 => {
            carry_out(words, source, output, target);
            Ok([0, 0])
        }
        refusal => Err(refusal),
    }
}

/// The refusal, then what is free of the target: chunks or slots.
pub fn credit(words: &[u64], node: u64, output: u64) -> (u64, [u64; 1]) {
    match open(words) {
        Err(refusal) => (refusal, [0]),
        Ok((layout, _)) if node >= layout.nodes() as u64 => (NO_SUCH_NODE, [0]),
        Ok(_) if output == 0 || output >= QUEUES as u64 => (NO_SUCH_OUTPUT, [0]),
        Ok((layout, _)) => {
            let output = output as usize;
            let target = layout.at(layout.beyond(node as usize, output), output);
            let free = layout.cap[output] - load(output, &words[target..]);
            (0, [free as u64])
        }
    }
}

/// The refusal, then the index of the first held word and the number held.
pub fn look(words: &[u64], node: u64, queue: u64) -> (u64, [u64; 2]) {
    match open(words) {
        Err(refusal) => (refusal, [0, 0]),
        Ok((layout, _)) if node >= layout.nodes() as u64 => (NO_SUCH_NODE, [0, 0]),
        Ok(_) if queue >= QUEUES as u64 => (NO_SUCH_QUEUE, [0, 0]),
        Ok((layout, _)) => {
            let at = layout.at(node as usize, queue as usize);
            (0, [at as u64 + 1, words[at]])
        }
    }
}
