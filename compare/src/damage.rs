//! Faults in the words of a network: one word replaced by something else, or
//! one clause of the check broken while the others still hold.

use crate::generate::{along, chunks_of, end_node, held_and_work, load_of, packet_word};
use crate::generate::{put_newest, ring, way, Offsets, Shape, ACCEPTED, BIT_15, BIT_31};
use crate::generate::{CHUNKS_SHIFT, DELIVERED, DESTINATION_SHIFT, DIMENSIONS, FIRST_ESCAPE};
use crate::generate::{HEADER, MOST_ACCEPTED, MOST_CHUNKS, MOST_WORK, MOVES, OFFSETS};
use crate::generate::{OFFSET_SHIFTS, OFFSET_VALUES, QUEUES};
use crate::random::Random;

/// One word gets another value. It may still be a network afterwards.
pub fn one_word(random: &mut Random, shape: &Shape, words: &mut [u64]) {
    let index = match random.below(4) {
        0 => random.below(HEADER as u64) as usize,
        1 => {
            let (node, queue) = any_queue(random, shape);
            shape.count_word(node, queue)
        }
        _ => random.below(shape.need() as u64) as usize,
    };
    let old = words[index];
    words[index] = match random.below(13) {
        0 => old.wrapping_add(1),
        1 => old.wrapping_sub(1),
        2 => 0,
        3 => 1 << 32,
        4 => u64::MAX,
        5 => random.number(),
        6 => random.below(20),
        7 => {
            let shift = random.pick(&OFFSET_SHIFTS);
            (old & !(31 << shift)) | random.below(32) << shift
        }
        8 => (old & !OFFSETS) | random.below(OFFSETS + 1),
        9 => old ^ BIT_15,
        10 => old ^ BIT_31,
        11 => (old & !(7 << CHUNKS_SHIFT)) | random.below(MOST_CHUNKS) << CHUNKS_SHIFT,
        _ => old ^ (1 << random.below(64)),
    };
}

/// A fault by name. `apply` changes the words and says whether it could.
pub struct Fault {
    pub name: &'static str,
    pub apply: fn(&mut Random, &Shape, &mut [u64]) -> bool,
}

/// Faults after which the words are never a network, whatever they were.
pub const FAULTS: [Fault; 15] = [
    Fault {
        name: "a queue claims more than its capacity",
        apply: |random, shape, words| {
            let (node, queue) = any_queue(random, shape);
            let most = shape.capacity(queue) as u64;
            let beyond = [most + 1, 1 << 32, 1 << 63, u64::MAX];
            words[shape.count_word(node, queue)] = random.pick(&beyond);
            true
        },
    },
    Fault {
        name: "an unused word is not 0",
        apply: |random, shape, words| {
            let (node, queue) = any_queue(random, shape);
            let at = shape.count_word(node, queue);
            let held = words[at] as usize;
            let unused = shape.capacity(queue) - held;
            if unused == 0 {
                return false;
            }
            let slot = held + 1 + random.below(unused as u64) as usize;
            words[at + slot] = random.pick(&[1, 1 << 16, 1 << 28, 1 << 32, 1 << 63]);
            true
        },
    },
    Fault {
        name: "another destination",
        apply: |random, shape, words| {
            let Some((_, _, at)) = any_packet(random, shape, words) else {
                return false;
            };
            words[at] ^= 1 << (DESTINATION_SHIFT as u64 + random.below(12));
            true
        },
    },
    Fault {
        name: "bit 15 set",
        apply: |random, shape, words| {
            let Some((_, _, at)) = any_packet(random, shape, words) else {
                return false;
            };
            words[at] |= BIT_15;
            true
        },
    },
    Fault {
        name: "bit 31 set",
        apply: |random, shape, words| {
            let Some((_, _, at)) = any_packet(random, shape, words) else {
                return false;
            };
            words[at] |= BIT_31;
            true
        },
    },
    Fault {
        name: "a load above the capacity, by packets that have room",
        apply: overload_a_queue,
    },
    Fault {
        name: "an offset beyond half the size, with its destination",
        apply: |random, shape, words| {
            let dimension = any_dimension(random);
            let half = shape.sides[dimension] as i64 / 2;
            let beyond: Vec<i64> = OFFSET_VALUES.filter(|hops| hops.abs() > half).collect();
            let offsets = along(dimension, random.pick(&beyond));
            put_offsets(random, shape, words, |_| true, offsets)
        },
    },
    Fault {
        name: "an offset one beyond half the size, with its destination",
        apply: |random, shape, words| {
            let dimension = any_dimension(random);
            let over = shape.sides[dimension] as i64 / 2 + 1;
            let offsets = along(dimension, either_way(random, over));
            put_offsets(random, shape, words, |queue| queue == 0, offsets)
        },
    },
    Fault {
        name: "half the size left in a queue of that dimension",
        apply: |random, shape, words| {
            let dimension = any_dimension(random);
            let half = shape.sides[dimension] as i64 / 2;
            let offsets = along(dimension, either_way(random, half));
            let its_own = |queue| queue > 0 && way(queue).0 == dimension;
            put_offsets(random, shape, words, its_own, offsets)
        },
    },
    Fault {
        name: "a wrong sign",
        apply: |random, shape, words| {
            let queue = random.between(1, QUEUES as u64 - 1) as usize;
            let (dimension, sign) = way(queue);
            let offsets = along(dimension, -sign);
            put_offsets(random, shape, words, |q| q == queue, offsets)
        },
    },
    Fault {
        name: "hops of a dimension before that of an escape queue",
        apply: |random, shape, words| {
            // dx in a y or z escape queue, dy in a z one.
            let dimension = random.below(DIMENSIONS as u64 - 1) as usize;
            let offsets = along(dimension, either_way(random, 1));
            let after = |queue| queue >= FIRST_ESCAPE && way(queue).0 > dimension;
            put_offsets(random, shape, words, after, offsets)
        },
    },
    Fault {
        name: "a ring without a free slot",
        apply: fill_a_ring,
    },
    Fault {
        name: "accepted beyond 32 bits, or not delivered plus held",
        apply: |random, shape, words| {
            let (held, _) = held_and_work(shape, words);
            match random.below(4) {
                0 => words[DELIVERED] = words[DELIVERED].wrapping_add(1),
                1 => words[DELIVERED] = words[DELIVERED].wrapping_sub(1),
                2 => {
                    words[ACCEPTED] = (1 << 32) + random.below(2);
                    words[DELIVERED] = words[ACCEPTED] - held;
                    words[MOVES] = 0;
                }
                _ => {
                    // Delivered above accepted; only a wrapping sum is right.
                    if held == 0 {
                        return false;
                    }
                    words[ACCEPTED] = random.below(held);
                    words[DELIVERED] = words[ACCEPTED].wrapping_sub(held);
                    words[MOVES] = 0;
                }
            }
            true
        },
    },
    Fault {
        name: "more moves than 25 for each packet accepted",
        apply: |random, shape, words| {
            let (_, work) = held_and_work(shape, words);
            let most = MOST_WORK * words[ACCEPTED] - work;
            words[MOVES] = match random.below(3) {
                0 => most + 1,
                1 => u64::MAX - random.below(work + 2),
                _ => most + 1 + random.below(u64::MAX - most),
            };
            true
        },
    },
    Fault {
        name: "wrong sizes",
        apply: |random, _, words| {
            let which = random.below(6) as usize;
            let wrong = match which {
                0..DIMENSIONS => [0, 17, 1 << 32, (1 << 32) + 4, u64::MAX],
                DIMENSIONS => [0, 1, 9, (1 << 32) + 4, u64::MAX],
                _ => [0, 9, 1 << 32, (1 << 32) + 4, u64::MAX],
            };
            words[which] = random.pick(&wrong);
            true
        },
    },
];

fn any_queue(random: &mut Random, shape: &Shape) -> (u64, usize) {
    let queue = random.below(QUEUES as u64) as usize;
    (random.below(shape.nodes()), queue)
}

fn any_dimension(random: &mut Random) -> usize {
    random.below(DIMENSIONS as u64) as usize
}

fn either_way(random: &mut Random, hops: i64) -> i64 {
    if random.chance(1, 2) {
        hops
    } else {
        -hops
    }
}

/// A random packet held: its node, its queue and the index of its word.
fn any_packet(random: &mut Random, shape: &Shape, words: &[u64]) -> Option<(u64, usize, usize)> {
    let mut found = Vec::new();
    for node in 0..shape.nodes() {
        for queue in 0..QUEUES {
            let at = shape.count_word(node, queue);
            for slot in 1..=words[at] as usize {
                found.push((node, queue, at + slot));
            }
        }
    }
    if found.is_empty() {
        return None;
    }
    Some(random.pick(&found))
}

/// Gives a packet in one of the wanted queues other offsets, and the
/// destination that belongs to them. Moves made is set to 0 and some more
/// packets count as delivered, so that the work left stays in bounds.
fn put_offsets(
    random: &mut Random,
    shape: &Shape,
    words: &mut [u64],
    wanted: impl Fn(usize) -> bool,
    offsets: Offsets,
) -> bool {
    for _ in 0..20 {
        match any_packet(random, shape, words) {
            None => return false,
            Some((node, queue, at)) if wanted(queue) => {
                let (tag, chunks) = (words[at] >> 32, chunks_of(words[at]));
                words[at] = packet_word(tag, chunks, end_node(shape, node, offsets), offsets);
                words[MOVES] = 0;
                if words[ACCEPTED] <= MOST_ACCEPTED - 100 {
                    words[ACCEPTED] += 100;
                    words[DELIVERED] += 100;
                }
                return true;
            }
            Some(_) => (),
        }
    }
    false
}

/// Fills a whole escape ring with packets that are at their destination.
fn fill_a_ring(random: &mut Random, shape: &Shape, words: &mut [u64]) -> bool {
    let queue = random.between(FIRST_ESCAPE as u64, QUEUES as u64 - 1) as usize;
    if shape.sides[way(queue).0] < 2 {
        return false;
    }
    for node in ring(shape, queue, random.below(shape.nodes())) {
        let at = shape.count_word(node, queue);
        while words[at] < shape.capacity(queue) as u64 {
            let chunks = random.between(1, MOST_CHUNKS);
            put_newest(words, shape, node, queue, arrived(node, chunks));
        }
    }
    count_anew(shape, words);
    true
}

/// Brings the load of an adaptive queue above its capacity, mostly by one chunk,
/// while it still holds no more packets than it has words for.
fn overload_a_queue(random: &mut Random, shape: &Shape, words: &mut [u64]) -> bool {
    let queue = random.between(1, FIRST_ESCAPE as u64 - 1) as usize;
    if shape.sides[way(queue).0] < 2 {
        return false;
    }
    let (node, capacity) = (random.below(shape.nodes()), shape.capacity(queue) as u64);
    let at = shape.count_word(node, queue);
    let load = |words: &[u64]| -> u64 {
        let held = &words[at + 1..][..words[at] as usize];
        held.iter().map(|word| load_of(queue, *word)).sum()
    };
    // Packets that have come to their destination, until less than eight chunks
    // are left; they leave a word for one more.
    while load(words) + MOST_CHUNKS <= capacity {
        let chunks = random.between(2, MOST_CHUNKS);
        put_newest(words, shape, node, queue, arrived(node, chunks));
    }
    let over = capacity - load(words) + 1;
    if words[at] < capacity {
        let chunks = random.pick(&[over, over, MOST_CHUNKS]);
        put_newest(words, shape, node, queue, arrived(node, chunks));
    } else {
        // As many packets as words, so each has one chunk: one gets more.
        let one = at + 1 + random.below(capacity) as usize;
        words[one] += random.between(1, MOST_CHUNKS - 1) << CHUNKS_SHIFT;
    }
    count_anew(shape, words);
    true
}

/// A packet at its destination.
fn arrived(node: u64, chunks: u64) -> u64 {
    packet_word(0, chunks, node, [0; DIMENSIONS])
}

/// Accepted is what is held, nothing was delivered, and no move was made.
fn count_anew(shape: &Shape, words: &mut [u64]) {
    let (held, _) = held_and_work(shape, words);
    words[ACCEPTED] = held;
    words[DELIVERED] = 0;
    words[MOVES] = 0;
}
