//! Networks and arguments to try. The networks are put together from the
//! clauses of the check alone, so that most of them were never reached by
//! offers and moves; nothing of the model or of `plain` is used for that.

use crate::bench::Call;
use crate::model;
use crate::random::Random;

pub const HEADER: usize = 9;
/// The header words that follow the sizes.
pub const ACCEPTED: usize = 6;
pub const DELIVERED: usize = 7;
pub const MOVES: usize = 8;

pub const DIMENSIONS: usize = 3;
pub const DIRECTIONS: usize = 6;
pub const QUEUES: usize = 13;
pub const FIRST_ESCAPE: usize = 7;
pub const MOST_ACCEPTED: u64 = u32::MAX as u64;
/// The moves made and the work left are at most this for each packet accepted.
pub const MOST_WORK: u64 = 25;
/// The chunks of the largest packet.
pub const MOST_CHUNKS: u64 = 8;

/// Hops in each dimension, above 0 for plus.
pub type Offsets = [i64; DIMENSIONS];

/// The six sizes of a network. The sides are X, Y and Z.
#[derive(Clone, Copy, Debug, PartialEq, Eq)]
pub struct Shape {
    pub sides: [u64; DIMENSIONS],
    pub e: u64,
    pub a: u64,
    pub j: u64,
}

/// Sides with a 1 in every place and in none, and some that are half-way in one
/// dimension only.
pub const SIDES: [[u64; DIMENSIONS]; 16] = [
    [1, 1, 1],
    [4, 1, 1],
    [1, 4, 1],
    [1, 1, 4],
    [4, 4, 1],
    [4, 1, 4],
    [1, 4, 4],
    [2, 3, 4],
    [2, 1, 1],
    [1, 2, 1],
    [1, 1, 2],
    [3, 1, 2],
    [1, 5, 2],
    [5, 2, 3],
    [3, 4, 5],
    [2, 2, 2],
];

impl Shape {
    pub const fn new(x: u64, y: u64, z: u64, e: u64, a: u64, j: u64) -> Shape {
        Shape::of([x, y, z], [e, a, j])
    }

    /// From the sides and the slots of an escape, an adaptive and an injection
    /// queue.
    pub const fn of(sides: [u64; DIMENSIONS], [e, a, j]: [u64; 3]) -> Shape {
        Shape { sides, e, a, j }
    }

    /// Random sizes with at most `most` nodes a side. Every side is 1 more often
    /// than by lot alone.
    pub fn random(random: &mut Random, most: u64) -> Shape {
        let sides = [(); DIMENSIONS].map(|_| {
            if random.chance(1, 5) {
                1
            } else {
                random.between(1, most)
            }
        });
        Shape::with_sides(random, sides)
    }

    /// The sides of the list in the first rounds, then random ones.
    pub fn in_round(round: usize, random: &mut Random, most: u64) -> Shape {
        match SIDES.get(round) {
            Some(sides) => Shape::with_sides(random, *sides),
            None => Shape::random(random, most),
        }
    }

    /// Random slots.
    pub fn with_sides(random: &mut Random, sides: [u64; DIMENSIONS]) -> Shape {
        Shape {
            sides,
            e: random.between(2, 8),
            a: random.between(1, 8),
            j: random.between(1, 8),
        }
    }

    /// X, Y, Z, E, A, J, as Make takes them.
    pub fn sizes(&self) -> [u64; 6] {
        let [x, y, z] = self.sides;
        [x, y, z, self.e, self.a, self.j]
    }

    pub fn nodes(&self) -> u64 {
        self.sides.iter().product()
    }

    /// The number of queues, which is that of the waveform's variables.
    pub fn queues(&self) -> usize {
        self.nodes() as usize * QUEUES
    }

    /// The most load of a queue, and its words for packets: slots, and chunks in
    /// an adaptive queue.
    pub fn capacity(&self, queue: usize) -> usize {
        match queue {
            0 => self.j as usize,
            1..FIRST_ESCAPE => (MOST_CHUNKS * self.a) as usize,
            _ => self.e as usize,
        }
    }

    pub fn node_words(&self) -> usize {
        (13 + self.j + 48 * self.a + 6 * self.e) as usize
    }

    pub fn need(&self) -> usize {
        HEADER + self.nodes() as usize * self.node_words()
    }

    /// The index of the word with the number held by a queue.
    pub fn count_word(&self, node: u64, queue: usize) -> usize {
        let before: usize = (0..queue).map(|q| 1 + self.capacity(q)).sum();
        HEADER + node as usize * self.node_words() + before
    }

    /// x, y and z of a node.
    pub fn place(&self, node: u64) -> [u64; DIMENSIONS] {
        let [x, y, _] = self.sides;
        [node % x, node / x % y, node / (x * y)]
    }

    fn node_at(&self, [x, y, z]: [u64; DIMENSIONS]) -> u64 {
        (z * self.sides[1] + y) * self.sides[0] + x
    }
}

/// The direction of a transit queue, or of an output that is no delivery: its
/// dimension, and 1 or -1.
pub fn way(queue: usize) -> (usize, i64) {
    let direction = (queue - 1) % DIRECTIONS;
    let sign = if direction.is_multiple_of(2) { 1 } else { -1 };
    (direction / 2, sign)
}

/// Some hops in one dimension and none in the others.
pub fn along(dimension: usize, hops: i64) -> Offsets {
    let mut offsets = [0; DIMENSIONS];
    offsets[dimension] = hops;
    offsets
}

/// How full the queues of a network get.
#[derive(Clone, Copy, Debug, PartialEq, Eq)]
pub enum Fill {
    Empty,
    /// A packet here and there, for networks that are large.
    Rare,
    Sparse,
    Half,
    Mixed,
    Full,
}

/// Those for networks of any size.
pub const FILLS: [Fill; 5] = [
    Fill::Empty,
    Fill::Sparse,
    Fill::Half,
    Fill::Mixed,
    Fill::Full,
];

impl Fill {
    /// The load that a queue gets, if its packets come to that, or a little more.
    fn load(self, random: &mut Random, capacity: usize) -> usize {
        match self {
            Fill::Empty => 0,
            Fill::Rare => random.chance(1, 200) as usize,
            Fill::Sparse => random.chance(1, 4) as usize,
            Fill::Half => capacity / 2,
            Fill::Mixed => random.below(capacity as u64 + 1) as usize,
            Fill::Full => capacity,
        }
    }
}

/// Which chunk numbers the packets of a network have.
#[derive(Clone, Copy, Debug, PartialEq, Eq)]
pub enum Chunks {
    /// The same for all of them.
    Equal(u64),
    /// 1, 3, 5 or 7: a queue that is full of such packets has often a chunk or
    /// some left.
    Odd,
    /// Any; where a queue is to be full, the last packet has what is left of it.
    Mixed,
}

impl Chunks {
    pub fn random(random: &mut Random) -> Chunks {
        match random.below(6) {
            0 => Chunks::Equal(1),
            1 => Chunks::Equal(MOST_CHUNKS),
            2 => Chunks::Equal(random.between(2, MOST_CHUNKS - 1)),
            3 => Chunks::Odd,
            _ => Chunks::Mixed,
        }
    }

    /// The chunks of a packet for a queue that has so many left, if one of these
    /// fits there.
    fn of_packet(self, random: &mut Random, left: u64) -> Option<u64> {
        let chunks = match self {
            Chunks::Equal(chunks) => chunks,
            Chunks::Odd => random.pick(&[1, 3, 5, 7]),
            Chunks::Mixed => random.between(1, MOST_CHUNKS).min(left),
        };
        (chunks <= left).then_some(chunks)
    }
}

/// The chunks of a packet word.
pub fn chunks_of(word: u64) -> u64 {
    (word >> CHUNKS_SHIFT & 7) + 1
}

/// What a packet takes of a queue.
pub fn load_of(queue: usize, word: u64) -> u64 {
    match queue {
        1..FIRST_ESCAPE => chunks_of(word),
        _ => 1,
    }
}

/// The lowest and the highest lawful offset of a dimension in a queue, or none
/// if the queue cannot hold a packet at all.
pub fn offset_range(shape: &Shape, queue: usize, dimension: usize) -> Option<(i64, i64)> {
    let half = shape.sides[dimension] as i64 / 2;
    if queue == 0 {
        return Some((-half, half));
    }
    let (own, sign) = way(queue);
    if dimension == own {
        return match half {
            0 => None,
            _ if sign > 0 => Some((0, half - 1)),
            _ => Some((1 - half, 0)),
        };
    }
    // In an escape queue the dimensions before its own are used up.
    if queue >= FIRST_ESCAPE && dimension < own {
        return Some((0, 0));
    }
    Some((-half, half))
}

/// The bits of the offsets in a packet word. The bit above them is always 0, and
/// so is the one below the tag.
pub const OFFSETS: u64 = (1 << 15) - 1;
pub const BIT_15: u64 = 1 << 15;
pub const BIT_31: u64 = 1 << 31;
/// Where the twelve bits of the destination begin, and the three of the chunks
/// minus one.
pub const DESTINATION_SHIFT: u32 = 16;
pub const CHUNKS_SHIFT: u32 = 28;
/// Where the five bits of each offset begin.
pub const OFFSET_SHIFTS: [u32; DIMENSIONS] = [10, 5, 0];
/// What five bits can say.
pub const OFFSET_VALUES: std::ops::RangeInclusive<i64> = -16..=15;

/// A packet word from its parts; the offsets are cut to five bits.
pub const fn packet_word(tag: u64, chunks: u64, destination: u64, [dx, dy, dz]: Offsets) -> u64 {
    let offsets = (dx as u64 & 31) << 10 | (dy as u64 & 31) << 5 | (dz as u64 & 31);
    (tag << 32) | (chunks - 1) << CHUNKS_SHIFT | destination << DESTINATION_SHIFT | offsets
}

/// The node moved by offsets round the torus.
pub fn end_node(shape: &Shape, node: u64, offsets: Offsets) -> u64 {
    let mut place = shape.place(node);
    for (dimension, coordinate) in place.iter_mut().enumerate() {
        let moved = *coordinate as i64 + offsets[dimension];
        *coordinate = moved.rem_euclid(shape.sides[dimension] as i64) as u64;
    }
    shape.node_at(place)
}

/// A random lawful packet of so many chunks for a queue, if there is any.
fn packet(random: &mut Random, shape: &Shape, node: u64, queue: usize, chunks: u64) -> Option<u64> {
    let mut offsets = [0; DIMENSIONS];
    for (dimension, offset) in offsets.iter_mut().enumerate() {
        let (low, high) = offset_range(shape, queue, dimension)?;
        *offset = match random.below(4) {
            0 => low,
            1 => high,
            _ => low + random.below((high - low) as u64 + 1) as i64,
        };
    }
    let tag = match random.below(3) {
        0 => random.below(4),
        1 => MOST_ACCEPTED - random.below(2),
        _ => random.number() >> 32,
    };
    let destination = end_node(shape, node, offsets);
    Some(packet_word(tag, chunks, destination, offsets))
}

/// Puts a packet behind the others of a queue.
pub fn put_newest(words: &mut [u64], shape: &Shape, node: u64, queue: usize, packet: u64) {
    let at = shape.count_word(node, queue);
    words[at] += 1;
    let held = words[at] as usize;
    words[at + held] = packet;
}

/// The nodes of the ring through a node along the dimension of a queue.
pub fn ring(shape: &Shape, queue: usize, node: u64) -> Vec<u64> {
    let (dimension, _) = way(queue);
    let hops = 0..shape.sides[dimension] as i64;
    hops.map(|hops| end_node(shape, node, along(dimension, hops)))
        .collect()
}

/// Takes the newest packet of a queue out of the words.
fn take_newest(words: &mut [u64], shape: &Shape, node: u64, queue: usize) {
    let at = shape.count_word(node, queue);
    let held = words[at] as usize;
    words[at + held] = 0;
    words[at] -= 1;
}

/// Random words, exactly as many as needed, that pass the check; their packets
/// have chunk numbers of any kind.
pub fn network(random: &mut Random, shape: &Shape, fill: Fill) -> Vec<u64> {
    let chunks = Chunks::random(random);
    network_of(random, shape, fill, chunks)
}

/// The same with chunk numbers of one kind.
pub fn network_of(random: &mut Random, shape: &Shape, fill: Fill, chunks: Chunks) -> Vec<u64> {
    let mut words = vec![0; shape.need()];
    words[..6].copy_from_slice(&shape.sizes());
    for node in 0..shape.nodes() {
        for queue in 0..QUEUES {
            fill_queue(random, shape, &mut words, (node, queue), fill, chunks);
        }
    }
    let full = |words: &[u64], node: u64, queue: usize| {
        words[shape.count_word(node, queue)] == shape.capacity(queue) as u64
    };
    for queue in FIRST_ESCAPE..QUEUES {
        for node in 0..shape.nodes() {
            if !full(&words, node, queue) {
                continue;
            }
            let nodes = ring(shape, queue, node);
            if nodes.iter().all(|node| full(&words, *node, queue)) {
                let node = random.pick(&nodes);
                take_newest(&mut words, shape, node, queue);
            }
        }
    }
    set_counters(random, shape, &mut words);
    words
}

/// Puts packets into a queue until it has the load that it is to get, or the
/// next one does not fit.
fn fill_queue(
    random: &mut Random,
    shape: &Shape,
    words: &mut [u64],
    (node, queue): (u64, usize),
    fill: Fill,
    chunks: Chunks,
) {
    let capacity = shape.capacity(queue) as u64;
    let wanted = fill.load(random, capacity as usize) as u64;
    let adaptive = (1..FIRST_ESCAPE).contains(&queue);
    let mut load = 0;
    while load < wanted {
        let left = if adaptive {
            capacity - load
        } else {
            MOST_CHUNKS
        };
        let Some(chunks) = chunks.of_packet(random, left) else {
            return;
        };
        let Some(packet) = packet(random, shape, node, queue, chunks) else {
            return;
        };
        put_newest(words, shape, node, queue, packet);
        load += load_of(queue, packet);
    }
}

/// The number of packets held, and the work left.
pub fn held_and_work(shape: &Shape, words: &[u64]) -> (u64, u64) {
    let (mut held, mut work) = (0, 0);
    for node in 0..shape.nodes() {
        for queue in 0..QUEUES {
            let at = shape.count_word(node, queue);
            for word in &words[at + 1..][..words[at] as usize] {
                held += 1;
                work += hops(*word) + 1;
            }
        }
    }
    (held, work)
}

/// The hops left to a packet, of all three dimensions together.
fn hops(word: u64) -> u64 {
    let fields = OFFSET_SHIFTS.map(|shift| word >> shift & 31);
    fields.iter().map(|field| (*field).min(32 - *field)).sum()
}

/// Accepted, delivered and moves made that fit the packets held.
fn set_counters(random: &mut Random, shape: &Shape, words: &mut [u64]) {
    let (held, work) = held_and_work(shape, words);
    let most = MOST_ACCEPTED - held;
    words[DELIVERED] = match random.below(4) {
        0 => 0,
        1 => random.below(100),
        2 => most - random.below(3),
        _ => random.below(most + 1),
    };
    words[ACCEPTED] = words[DELIVERED] + held;
    let most = MOST_WORK * words[ACCEPTED] - work;
    words[MOVES] = match random.below(4) {
        0 => 0,
        1 => random.below(most.min(100) + 1),
        2 => most,
        _ => random.below(most + 1),
    };
}

/// A number near a limit or far beyond it, or one that only looks small.
pub fn hostile(random: &mut Random, limit: u64) -> u64 {
    match random.below(8) {
        0 => 0,
        1 => limit.wrapping_sub(1),
        2 => limit,
        3 => limit + 1,
        4 => 1 << 32,
        5 => u64::MAX,
        6 => random.below(limit.max(1)) + (1 << random.pick(&[8, 16, 31, 32, 48, 63])),
        _ => random.number(),
    }
}

/// Mostly a number below the limit, now and then a hostile one.
fn argument(random: &mut Random, limit: u64) -> u64 {
    if random.chance(1, 8) {
        hostile(random, limit)
    } else {
        random.below(limit.max(1))
    }
}

/// Mostly 1 to 8, now and then a hostile number.
fn chunk_number(random: &mut Random) -> u64 {
    if random.chance(1, 8) {
        hostile(random, MOST_CHUNKS + 1)
    } else {
        random.between(1, MOST_CHUNKS)
    }
}

fn tag(random: &mut Random) -> u32 {
    match random.below(3) {
        0 => random.below(3) as u32,
        1 => u32::MAX,
        _ => random.number() as u32,
    }
}

pub fn budget(random: &mut Random) -> u32 {
    match random.below(6) {
        0 => 0,
        1 => 1,
        2 => u32::MAX,
        _ => random.below(60) as u32,
    }
}

/// A Move: often along a route of a head, else with any numbers.
pub fn any_move(random: &mut Random, nodes: u64, words: &[u64]) -> Call {
    if random.chance(2, 3) {
        let known = model::routes_of_heads(words);
        if !known.is_empty() {
            let step = random.pick(&known);
            return Call::Move {
                node: step.node as u64,
                queue: step.queue as u64,
                output: step.output as u64,
            };
        }
    }
    Call::Move {
        node: argument(random, nodes),
        queue: argument(random, QUEUES as u64),
        output: argument(random, QUEUES as u64),
    }
}

pub fn any_drain(random: &mut Random) -> Call {
    Call::Drain {
        budget: budget(random),
        ledger: random.pick(&[0, 1, 2, 3, 5, 40, 2000]),
    }
}

/// Any call but Make for words that are, or look like, a network.
pub fn any_call(random: &mut Random, words: &[u64]) -> Call {
    let nodes = match words {
        [x @ 1..=16, y @ 1..=16, z @ 1..=16, ..] => x * y * z,
        _ => random.below(5000),
    };
    match random.below(16) {
        0 => Call::Check,
        1 => Call::First,
        2 => Call::Credit {
            node: argument(random, nodes),
            output: argument(random, QUEUES as u64),
        },
        3 => Call::Look {
            node: argument(random, nodes),
            queue: argument(random, QUEUES as u64),
        },
        4 => any_drain(random),
        5..=9 => Call::Offer {
            node: argument(random, nodes),
            destination: argument(random, nodes),
            tag: tag(random),
            chunks: chunk_number(random),
        },
        _ => any_move(random, nodes, words),
    }
}

/// Sizes for Make, some of them out of range.
pub fn any_sizes(random: &mut Random, most: u64) -> [u64; 6] {
    let mut sizes = Shape::random(random, most).sizes();
    if random.chance(1, 2) {
        let which = random.below(6) as usize;
        sizes[which] = hostile(random, if which < DIMENSIONS { 16 } else { 8 });
    }
    sizes
}
