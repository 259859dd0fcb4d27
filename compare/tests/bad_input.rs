//! Bad input of every kind, in tables: what is wrong, the clauses of RULES
//! that it breaks, and the number that they give. The numbers were written by
//! hand from the clauses; the model, the plain implementation and the C library
//! are each held to them. A refused call leaves every lent word as it was, those
//! of the network and those of the ledger, and every word of `out` 0 (R190 to
//! R194). Calls that are not refused stand beside them, at the last number or
//! word that is still good.

#[path = "bad_input/wave.rs"]
mod wave;

use compare::bench::{all, perform, Answer, Bench, Call, Model};
use compare::generate::{packet_word, Offsets, ACCEPTED, BIT_15, BIT_31, DELIVERED};
use compare::generate::{DIMENSIONS, MOVES};

const MAX: u64 = u64::MAX;
/// As 0, if a number is cut to 32 bits.
const CUT: u64 = 1 << 32;

/// Four nodes with E 2, A 1, J 1 need 9 + 4 * 74 words (R47).
const NEED: usize = 305;
/// Lent are four more, which no call may change (R48).
const LENT: usize = 309;
const BEHIND: u64 = 0x5555_aaaa_5555_aaaa;
/// What stands in a ledger before the call; a call is lent the first of these.
const LEDGER: [u64; 8] = [11, 22, 33, 44, 55, 66, 77, 88];

/// A packet with tag 7 and eight chunks (R60): one of them fills an adaptive
/// queue.
const fn packet(destination: u64, offsets: Offsets) -> u64 {
    packet_word(7, 8, destination, offsets)
}

/// One that stands at its destination.
const fn arrived(node: u64) -> u64 {
    packet(node, [0, 0, 0])
}

/// The same of so many chunks.
const fn small(chunks: u64, node: u64) -> u64 {
    packet_word(7, chunks, node, [0, 0, 0])
}

/// The word with the number held by a queue (R43, R44).
const fn at(node: usize, queue: usize) -> usize {
    9 + 74 * node + [0, 2, 11, 20, 29, 38, 47, 56, 59, 62, 65, 68, 71][queue]
}

/// The number held by queue 0 of node 0, and its one packet.
const COUNT: usize = at(0, 0);
const HEAD: usize = at(0, 0) + 1;

/// A store of 309 words: a network of four nodes, and what is different.
#[derive(Clone, Copy)]
struct Store {
    sides: [u64; DIMENSIONS],
    /// Packets held, each with its node and its queue.
    held: &'static [(usize, usize, u64)],
    /// In the end, words that are put in place of others.
    changes: &'static [(usize, u64)],
}

/// Four nodes along x, along y and along z.
const ROW: Store = Store::of(4, 1, 1);
const COLUMN: Store = Store::of(1, 4, 1);
const SHAFT: Store = Store::of(1, 1, 4);
/// Two by two, in x and y, in x and z, in y and z.
const SQUARE: Store = Store::of(2, 2, 1);
const FRONT: Store = Store::of(2, 1, 2);
const SIDE: Store = Store::of(1, 2, 2);

impl Store {
    const fn of(x: u64, y: u64, z: u64) -> Store {
        Store {
            sides: [x, y, z],
            held: &[],
            changes: &[],
        }
    }

    const fn with(self, held: &'static [(usize, usize, u64)]) -> Store {
        Store { held, ..self }
    }

    const fn but(self, changes: &'static [(usize, u64)]) -> Store {
        Store { changes, ..self }
    }

    /// Besides the packets of `held` one is in queue 0 of node 0, on its way
    /// to node 1 with one hop left.
    fn words(&self) -> Vec<u64> {
        let mut words = vec![0; NEED];
        let [x, y, z] = self.sides;
        words[..6].copy_from_slice(&[x, y, z, 2, 1, 1]);
        let to_node_1 = match self.sides {
            [1, 1, _] => [0, 0, 1],
            [1, _, _] => [0, 1, 0],
            _ => [1, 0, 0],
        };
        let first = (0, 0, packet(1, to_node_1));
        for (node, queue, word) in [first].iter().chain(self.held) {
            let count = at(*node, *queue);
            words[count] += 1;
            let newest = count + words[count] as usize;
            words[newest] = *word;
            words[ACCEPTED] += 1;
        }
        words.resize(LENT, BEHIND);
        for (index, word) in self.changes {
            words[*index] = *word;
        }
        words
    }
}

const fn make(x: u64, y: u64, z: u64, [e, a, j]: [u64; 3]) -> Call {
    Call::Make {
        sizes: [x, y, z, e, a, j],
    }
}

const fn offer(node: u64, destination: u64) -> Call {
    offer_of(8, node, destination)
}

const fn offer_of(chunks: u64, node: u64, destination: u64) -> Call {
    Call::Offer {
        node,
        destination,
        tag: 7,
        chunks,
    }
}

const fn go(node: u64, queue: u64, output: u64) -> Call {
    Call::Move {
        node,
        queue,
        output,
    }
}

const fn credit(node: u64, output: u64) -> Call {
    Call::Credit { node, output }
}

const fn look(node: u64, queue: u64) -> Call {
    Call::Look { node, queue }
}

const fn drain(budget: u32, ledger: usize) -> Call {
    Call::Drain { budget, ledger }
}

/// Every call that tests the words first (R181): with arguments that are good
/// on the row, and with others that a later test would refuse.
const ON_WORDS: [Call; 18] = [
    Call::Check,
    offer(1, 2),
    offer(0, 0),
    offer(MAX, MAX),
    offer_of(0, 1, 2),
    go(0, 0, 1),
    go(0, 0, 0),
    go(1, 0, 0),
    go(MAX, MAX, MAX),
    credit(0, 1),
    credit(MAX, 0),
    look(0, 0),
    look(MAX, MAX),
    Call::First,
    drain(9, 2),
    drain(0, 2),
    drain(9, 0),
    drain(u32::MAX, 8),
];

/// One call of one implementation on the first `len` of the words. Gives the
/// answer, all the words and the whole ledger.
fn call_on(
    bench: &dyn Bench,
    words: &[u64],
    len: usize,
    call: Call,
) -> (Answer, Vec<u64>, [u64; 8]) {
    let room = match call {
        Call::Drain { ledger, .. } => ledger,
        _ => 0,
    };
    let (mut store, mut ledger) = (words.to_vec(), LEDGER);
    let answer = perform(bench, call, &mut store[..len], &mut ledger[..room]);
    (answer, store, ledger)
}

/// The call is refused by this number and writes nothing, whoever makes it.
fn refused(what: &str, words: &[u64], len: usize, call: Call, number: u64) {
    for bench in all(Model::default()) {
        let place = format!("{what}: {} in {call:?} on {len} words", bench.name());
        let (answer, store, ledger) = call_on(bench.as_ref(), words, len, call);
        assert_eq!(answer.refusal, number, "{place}: the number");
        assert_eq!(answer.out, [0; 4], "{place}: out");
        assert_eq!(store, words, "{place}: words of the network");
        assert_eq!(ledger, LEDGER, "{place}: words of the ledger");
    }
}

/// The call is not refused: its `out`, the words and the ledger after it.
fn done(
    what: &str,
    words: &[u64],
    len: usize,
    call: Call,
    out: [u64; 4],
    (after, book): (&[u64], [u64; 8]),
) {
    for bench in all(Model::default()) {
        let place = format!("{what}: {} in {call:?} on {len} words", bench.name());
        let (answer, store, ledger) = call_on(bench.as_ref(), words, len, call);
        assert_eq!((answer.refusal, answer.out), (0, out), "{place}");
        assert_eq!(store, after, "{place}: words of the network");
        assert_eq!(ledger, book, "{place}: words of the ledger");
    }
}

/// The words are a network: Check gives 0 and, as always, writes nothing (R95).
fn passes(what: &str, words: &[u64], len: usize) {
    done(what, words, len, Call::Check, [0; 4], (words, LEDGER));
}

/// R161: fewer words than nine, or than the sizes ask for. R181: nine words are
/// tested before the sizes, the sizes before the need, the need before the other
/// clauses of the check.
#[test]
fn short_stores() {
    let row = ROW.words();
    let broken = ROW.but(&[(COUNT, MAX)]).words();
    let ones = vec![MAX; LENT];
    for call in ON_WORDS {
        for len in [0, 1, 8] {
            refused("R161: less than nine words", &row, len, call, 1);
            refused("R181: 1 before 2", &ones, len, call, 1);
        }
        for len in [9, 10, 304] {
            refused("R161: less than the sizes ask for", &row, len, call, 1);
            refused("R181: 1 before 3", &broken, len, call, 1);
            refused("R181: 2 before the second 1", &ones, len, call, 2);
        }
    }
    for len in [NEED, 306, LENT] {
        passes("R161: enough words", &row, len);
    }
}

/// R161 for Make: what the sizes ask for (R47), and a store that is shorter.
#[rustfmt::skip]
const SHORT_FOR_MAKE: [(&str, usize, Call); 14] = [
    ("305 words needed",           0, make(4, 1, 1, [2, 1, 1])),
    ("305 words needed",           1, make(4, 1, 1, [2, 1, 1])),
    ("305 words needed",           8, make(4, 1, 1, [2, 1, 1])),
    ("305 words needed",           9, make(4, 1, 1, [2, 1, 1])),
    ("305 words needed",         304, make(4, 1, 1, [2, 1, 1])),
    ("309 words needed, J 2",    308, make(4, 1, 1, [2, 1, 2])),
    ("313 words needed, J 3",    309, make(4, 1, 1, [2, 1, 3])),
    ("497 words needed, A 2",    309, make(4, 1, 1, [2, 2, 1])),
    ("329 words needed, E 3",    309, make(4, 1, 1, [3, 1, 1])),
    ("379 words needed, X 5",    309, make(5, 1, 1, [2, 1, 1])),
    ("379 words needed, Y 5",    309, make(1, 5, 1, [2, 1, 1])),
    ("379 words needed, Z 5",    309, make(1, 1, 5, [2, 1, 1])),
    ("115977 words needed (K2)", 309, make(16, 16, 1, [8, 8, 8])),
    ("1855497 words needed",     309, make(16, 16, 16, [8, 8, 8])),
];

#[test]
fn short_stores_of_make() {
    for (what, len, call) in SHORT_FOR_MAKE {
        refused(what, &ROW.words(), len, call, 1);
    }
}

/// The sizes that are outside, each with the others as in the row: the clause,
/// the header word, the values.
#[rustfmt::skip]
const WRONG_SIZES: [(&str, usize, &[u64]); 6] = [
    ("R21: X is 1 to 16", 0, &[0, 17, 18, 256, CUT + 4, 1 << 63, MAX]),
    ("R21: Y is 1 to 16", 1, &[0, 17, 18, 256, CUT + 1, 1 << 63, MAX]),
    ("R21: Z is 1 to 16", 2, &[0, 17, 18, 256, CUT + 1, 1 << 63, MAX]),
    ("R22: E is 2 to 8",  3, &[0, 1, 9, 10, 256, CUT + 2, 1 << 63, MAX]),
    ("R23: A is 1 to 8",  4, &[0, 9, 10, 256, CUT + 1, 1 << 63, MAX]),
    ("R24: J is 1 to 8",  5, &[0, 9, 10, 256, CUT + 1, 1 << 63, MAX]),
];

/// R162: in Make's arguments, where it comes before the store's length (R180),
/// and in the words, where it comes before all but the nine words (R181).
#[test]
fn wrong_sizes() {
    for (what, size, values) in WRONG_SIZES {
        for value in values {
            let mut sizes = [4, 1, 1, 2, 1, 1];
            sizes[size] = *value;
            for len in [0, 8, 9, 304, LENT] {
                refused(what, &ROW.words(), len, Call::Make { sizes }, 2);
            }
            let mut words = ROW.words();
            words[size] = *value;
            for call in ON_WORDS {
                refused(what, &words, 9, call, 2);
                refused(what, &words, LENT, call, 2);
            }
        }
    }
    for call in ON_WORDS {
        refused("R162: words of all ones", &[MAX; LENT], LENT, call, 2);
        refused("R162: words of 0", &[0; LENT], LENT, call, 2);
    }
}

/// Accepted has come to 2^32 - 1, and one packet is still held.
const SPENT: Store = ROW.but(&[(ACCEPTED, CUT - 1), (DELIVERED, CUT - 2)]);
/// The packet of queue 0 is at its destination.
const ARRIVED: Store = ROW.but(&[(HEAD, arrived(0))]);
/// Of node 1, which is the next one from node 0 in direction x+, queue 1 is full
/// of one packet; of eight; one chunk of it is taken; queue 7 holds one; queue 7
/// holds E.
const ADAPTIVE_FULL: Store = ROW.with(&[(1, 1, arrived(1))]);
const ADAPTIVE_EIGHT: Store = ROW.with(&[(1, 1, small(1, 1)); 8]);
const ADAPTIVE_ONE: Store = ROW.with(&[(1, 1, small(1, 1))]);
const ESCAPE_ONE: Store = ROW.with(&[(1, 7, small(1, 1))]);
const ESCAPE_FULL: Store = ROW.with(&[(1, 7, small(1, 1)), (1, 7, small(1, 1))]);
/// Queue 1 is full, and the head has one chunk; seven chunks of it are taken, and
/// the head has one, or two.
const FULL_FOR_ONE: Store = ADAPTIVE_FULL.but(&[(HEAD, packet_word(7, 1, 1, [1, 0, 0]))]);
const SEVEN: Store = ROW.with(&[(1, 1, small(7, 1))]);
const SEVEN_AND_ONE: Store = SEVEN.but(&[(HEAD, packet_word(7, 1, 1, [1, 0, 0]))]);
const SEVEN_FOR_TWO: Store = SEVEN.but(&[(HEAD, packet_word(7, 2, 1, [1, 0, 0]))]);
/// The same, with one more packet at node 0 that is to go on to node 1, in
/// queue 1 or in queue 7.
const ON: u64 = packet(1, [1, 0, 0]);
const FROM_ADAPTIVE_ONE: Store = ROW.with(&[(0, 1, ON), (1, 7, arrived(1))]);
const FROM_ESCAPE_ONE: Store = ROW.with(&[(0, 7, ON), (1, 7, small(1, 1))]);
const FROM_ESCAPE_FULL: Store = ROW.with(&[(0, 7, ON), (1, 7, small(1, 1)), (1, 7, small(1, 1))]);
/// Of node 3, the next one in direction x-, queue 2 is full; queue 8 holds one.
const OTHER_WAY_FULL: Store = ROW.with(&[(3, 2, arrived(3))]);
const OTHER_WAY_ONE: Store = ROW.with(&[(3, 8, arrived(3))]);
/// Along z: of node 1, the next one in direction z+, queue 11 holds one packet;
/// it holds E, with a packet in queue 11 of node 0 that is to go on; queue 5 is
/// full.
const DEEP_ONE: Store = SHAFT.with(&[(1, 11, arrived(1))]);
const FROM_DEEP_FULL: Store = SHAFT.with(&[
    (0, 11, packet(1, [0, 0, 1])),
    (1, 11, arrived(1)),
    (1, 11, arrived(1)),
]);
const DEEP_FULL: Store = SHAFT.with(&[(1, 5, arrived(1))]);
/// In the front, with x and z: a packet of an x ring is to turn to z at node 0,
/// where queue 11 of node 2 holds one.
const TURN_ONE: Store = FRONT.with(&[(0, 7, packet(2, [0, 0, 1])), (2, 11, arrived(2))]);

/// Arguments that are refused, mostly on the row as it is or with some changes.
#[rustfmt::skip]
const ARGUMENTS: &[(&str, Store, Call, u64)] = &[
    ("R164: a node beyond the last",            ROW,               offer(4, 0),         4),
    ("R164: cut to 32 bits it is node 0",       ROW,               offer(CUT, 1),       4),
    ("R164: the largest node",                  ROW,               offer(MAX, 0),       4),
    ("R164: a destination beyond the last",     ROW,               offer(1, 4),         4),
    ("R164: cut to 16 bits it is node 1",       ROW,               offer(1, 65537),     4),
    ("R164: cut to 32 bits it is node 2",       ROW,               offer(1, CUT + 2),   4),
    ("R164: the largest destination",           ROW,               offer(1, MAX),       4),
    ("R164: both",                              ROW,               offer(MAX, MAX),     4),
    ("R167: J packets in queue 0",              ROW,               offer(0, 1),         7),
    ("R168: accepted is 2^32 - 1",              SPENT,             offer(1, 2),         8),
    ("R162: no chunks",                         ROW,               offer_of(0, 1, 2),   2),
    ("R162: nine chunks",                       ROW,               offer_of(9, 1, 2),   2),
    ("R162: cut to 3 bits it is one",           ROW,               offer_of(17, 1, 2),  2),
    ("R162: cut to 32 bits it is one",          ROW,               offer_of(CUT + 1, 1, 2), 2),
    ("R162: the most chunks",                   ROW,               offer_of(MAX, 1, 2), 2),
    ("R174: to oneself",                        ROW,               offer(1, 1),        14),
    ("R174: the last node to itself",           ROW,               offer(3, 3),        14),
    ("R189: 4 before 14, beyond the last",      ROW,               offer(4, 4),         4),
    ("R189: 4 before 14, cut to 32 bits",       ROW,               offer(CUT, CUT),     4),
    ("R189: the node alone is cut to 32 bits",  ROW,               offer(CUT + 1, 1),   4),
    ("R189: only the destination is",           ROW,               offer(1, CUT + 1),   4),
    ("R189: 4 before 14 and 8",                 SPENT,             offer(4, 4),         4),
    ("R189: 4 before 7",                        ROW,               offer(0, 4),         4),
    ("R189: 4 before 8, the node",              SPENT,             offer(4, 0),         4),
    ("R189: 4 before 8, the destination",       SPENT,             offer(1, 4),         4),
    ("R189: 4 before 8 and 7",                  SPENT,             offer(0, 4),         4),
    ("R189: 4 before 2, the node",              ROW,               offer_of(9, 4, 0),   4),
    ("R189: 4 before 2, the destination",       ROW,               offer_of(0, 1, 4),   4),
    ("R189: 2 before 14",                       ROW,               offer_of(9, 1, 1),   2),
    ("R189: 2 before 8",                        SPENT,             offer_of(0, 1, 2),   2),
    ("R189: 2 before 7",                        ROW,               offer_of(9, 0, 1),   2),
    ("R189: 2 before 14, 8 and 7",              SPENT,             offer_of(MAX, 0, 0), 2),
    ("R189: 14 before 8",                       SPENT,             offer(1, 1),        14),
    ("R189: 14 before 7",                       ROW,               offer(0, 0),        14),
    ("R189: 14 before 8 and 7",                 SPENT,             offer(0, 0),        14),
    ("R189: 8 before 7",                        SPENT,             offer(0, 1),         8),

    ("R164: a node beyond the last",            ROW,               go(4, 0, 1),         4),
    ("R164: cut to 32 bits it is node 0",       ROW,               go(CUT, 0, 1),       4),
    ("R164: the largest node",                  ROW,               go(MAX, 0, 1),       4),
    ("R165: a queue beyond the last",           ROW,               go(0, 13, 1),        5),
    ("R165: cut to 32 bits it is queue 0",      ROW,               go(0, CUT, 1),       5),
    ("R165: the largest queue",                 ROW,               go(0, MAX, 1),       5),
    ("R166: an output beyond the last",         ROW,               go(0, 0, 13),        6),
    ("R166: cut to 32 bits it is output 1",     ROW,               go(0, 0, CUT + 1),   6),
    ("R166: the largest output",                ROW,               go(0, 0, MAX),       6),
    ("R169: empty, queue 0 of another node",    ROW,               go(1, 0, 1),         9),
    ("R169: empty, an adaptive queue",          ROW,               go(0, 1, 1),         9),
    ("R169: empty, an escape queue",            ROW,               go(0, 12, 0),        9),
    ("R169: empty, the last queue of all",      ROW,               go(3, 12, 12),       9),
    ("R142, R170: dx 1 is no delivery (K9)",    ROW,               go(0, 0, 0),        10),
    ("R145, R170: dx 1 is not x-",              ROW,               go(0, 0, 2),        10),
    ("R143, R170: dy 0 is not y+",              ROW,               go(0, 0, 3),        10),
    ("R143, R170: dy 0 is not y-",              ROW,               go(0, 0, 4),        10),
    ("R143, R170: dz 0 is not z+",              ROW,               go(0, 0, 5),        10),
    ("R143, R170: dz 0 is not z-",              ROW,               go(0, 0, 6),        10),
    ("R145, R170: nor x- by escape",            ROW,               go(0, 0, 8),        10),
    ("R144, R170: nor y+ by escape",            ROW,               go(0, 0, 9),        10),
    ("R144, R170: nor y- by escape",            ROW,               go(0, 0, 10),       10),
    ("R144, R170: nor z+ by escape",            ROW,               go(0, 0, 11),       10),
    ("R144, R170: nor z- by escape",            ROW,               go(0, 0, 12),       10),
    ("R145, R170: dz 1 is not z-",              SHAFT,             go(0, 0, 6),        10),
    ("R144, R170: dz 1, not x+ by escape",      SHAFT,             go(0, 0, 7),        10),
    ("R144, R170: dz 1, not y+ by escape",      SHAFT,             go(0, 0, 9),        10),
    ("R145, R170: dz 1, not z- by escape",      SHAFT,             go(0, 0, 12),       10),
    ("R141, R170: arrived, not on (K9)",        ARRIVED,           go(0, 0, 7),        10),
    ("R141, R170: arrived, not on",             ARRIVED,           go(0, 0, 1),        10),
    ("R150, R171: adaptive target full",        ADAPTIVE_FULL,     go(0, 0, 1),        11),
    ("R150, R171: the same, by eight packets",  ADAPTIVE_EIGHT,    go(0, 0, 1),        11),
    ("R150, R171: the same, a head of one",     FULL_FOR_ONE,      go(0, 0, 1),        11),
    ("R150, R171: seven chunks free for eight", ADAPTIVE_ONE,      go(0, 0, 1),        11),
    ("R150, R171: one chunk free for two",      SEVEN_FOR_TWO,     go(0, 0, 1),        11),
    ("R150, R171: the same along z",            DEEP_FULL,         go(0, 0, 5),        11),
    ("R152, R171: escape target full",          ESCAPE_FULL,       go(0, 0, 7),        11),
    ("R151, R171: full within the ring",        FROM_ESCAPE_FULL,  go(0, 7, 7),        11),
    ("R151, R171: the same along z",            FROM_DEEP_FULL,    go(0, 11, 11),      11),
    ("R152, R172: one slot, from injection",    ESCAPE_ONE,        go(0, 0, 7),        12),
    ("R152, R172: the same along z",            DEEP_ONE,          go(0, 0, 11),       12),
    ("R152, R172: one slot, from an x ring",    TURN_ONE,          go(0, 7, 11),       12),
    ("R301, R172: one slot, from adaptive",     FROM_ADAPTIVE_ONE, go(0, 1, 7),        12),
    ("R184: 4 before 5 and 6",                  ROW,               go(4, 13, 13),       4),
    ("R184: 5 before 6",                        ROW,               go(0, 13, 13),       5),
    ("R184: 6 before 9",                        ROW,               go(1, 0, 13),        6),
    ("R184: 6 before 10",                       ARRIVED,           go(0, 0, 13),        6),
    ("R184: 9 before 10",                       ROW,               go(1, 0, 0),         9),
    ("R184: 9 before 11",                       ESCAPE_FULL,       go(0, 7, 7),         9),
    ("R184: 9 before 12",                       ESCAPE_ONE,        go(0, 1, 7),         9),
    ("R184: 10 before 11",                      OTHER_WAY_FULL,    go(0, 0, 2),        10),
    ("R184: 10 before 12",                      OTHER_WAY_ONE,     go(0, 0, 8),        10),

    ("R164: a node beyond the last",            ROW,               credit(4, 1),        4),
    ("R164: cut to 32 bits it is node 0",       ROW,               credit(CUT, 1),      4),
    ("R164: the largest node",                  ROW,               credit(MAX, 1),      4),
    ("R166: output 0 has no target",            ROW,               credit(0, 0),        6),
    ("R166: an output beyond the last",         ROW,               credit(0, 13),       6),
    ("R166: cut to 32 bits it is output 1",     ROW,               credit(0, CUT + 1),  6),
    ("R166: the largest output",                ROW,               credit(0, MAX),      6),
    ("R185: 4 before 6, output 0",              ROW,               credit(4, 0),        4),
    ("R185: 4 before 6, output 13",             ROW,               credit(4, 13),       4),

    ("R164: a node beyond the last",            ROW,               look(4, 0),          4),
    ("R164: cut to 32 bits it is node 0",       ROW,               look(CUT, 0),        4),
    ("R164: the largest node",                  ROW,               look(MAX, 0),        4),
    ("R165: a queue beyond the last",           ROW,               look(0, 13),         5),
    ("R165: cut to 32 bits it is queue 0",      ROW,               look(0, CUT),        5),
    ("R165: the largest queue",                 ROW,               look(0, MAX),        5),
    ("R186: 4 before 5",                        ROW,               look(4, 13),         4),
];

/// The words are a network, so it is the arguments that are refused.
#[test]
fn arguments() {
    for (what, store, call, number) in ARGUMENTS {
        let words = store.words();
        passes(what, &words, LENT);
        refused(what, &words, LENT, *call, *number);
        refused(what, &words, NEED, *call, *number);
    }
    // Each number of a call from 4 on has a row, and so has that of the chunks.
    for wanted in (4..=12).chain([2, 14]) {
        assert!(ARGUMENTS.iter().any(|row| row.3 == wanted), "{wanted}");
    }
}

/// Words that are no network though their sizes are good. Where it can be, one
/// clause alone is broken, and the others are made good.
#[rustfmt::skip]
const BROKEN: &[(&str, Store)] = &[
    ("R72: two packets in queue 0, J 1",     ROW.but(&[(ACCEPTED, 2), (COUNT, 2)])),
    ("R72: nine packets in queue 1, A 1",    ROW.but(&[(ACCEPTED, 10), (at(0, 1), 9)])),
    ("R89: one of eight chunks and one",     ROW.with(&[(0, 1, arrived(0)), (0, 1, small(1, 0))])),
    ("R89: four chunks and five",            ROW.with(&[(0, 1, small(4, 0)), (0, 1, small(5, 0))])),
    ("R89: seven of one chunk and a two",    ROW.with(&SEVEN_AND_TWO)),
    ("R89: eight of eight chunks",           ROW.with(&[(3, 2, arrived(3)); 8])),
    ("R89: the same along z",                SHAFT.with(&[(0, 6, small(6, 0)), (0, 6, small(3, 0))])),
    ("R72: three packets in queue 7, E 2",   ROW.but(&[(ACCEPTED, 4), (at(0, 7), 3)])),
    ("R72: cut to 32 bits it is one",        ROW.but(&[(COUNT, CUT + 1)])),
    ("R72: 2^64 - 1 packets",                ROW.but(&[(COUNT, MAX)])),
    ("R72: 2^64 - 1, in the last queue",     ROW.but(&[(at(3, 12), MAX)])),
    ("R73: behind no packet, queue 0",       ROW.but(&[(at(1, 0) + 1, 1)])),
    ("R73: behind no packet, queue 1",       ROW.but(&[(at(0, 1) + 1, 1)])),
    ("R73: behind no packet, a high bit",    ROW.but(&[(at(0, 7) + 2, 1 << 63)])),
    ("R73: behind no packet, bit 15",        ROW.but(&[(at(0, 7) + 2, BIT_15)])),
    ("R73: behind no packet, bit 31",        ROW.but(&[(at(0, 7) + 2, BIT_31)])),
    ("R73: behind no packet, queue 1's end", ROW.but(&[(at(0, 1) + 8, 1)])),
    ("R73: behind eight chunks in queue 1",  ROW.with(&[(0, 1, arrived(0))]).but(&[(at(0, 1) + 2, 1)])),
    ("R73: behind no packet, the last word", ROW.but(&[(NEED - 1, 1)])),
    ("R73: behind a packet",                 ROW.with(&[(0, 7, arrived(0))]).but(&[(at(0, 7) + 2, 1)])),
    ("R73: a packet that is not counted",    ROW.but(&[(ACCEPTED, 0), (COUNT, 0)])),
    ("R87: bit 15 set, one hop left",        ROW.but(&[(HEAD, ON | BIT_15)])),
    ("R87: bit 15 set, at its destination",  ROW.but(&[(HEAD, arrived(0) | BIT_15)])),
    ("R87: bit 15 set, in an escape queue",  ROW.with(&[(0, 7, ON | BIT_15)])),
    ("R87: bit 15 set, to the last node",    ROW.but(&[(HEAD, packet(3, [-1, 0, 0]) | BIT_15)])),
    ("R88: bit 31 set, one hop left",        ROW.but(&[(HEAD, ON | BIT_31)])),
    ("R88: bit 31 set, of one chunk",        ROW.but(&[(HEAD, small(1, 0) | BIT_31)])),
    ("R88: bit 31 set, in an escape queue",  ROW.with(&[(0, 7, ON | BIT_31)])),
    ("R88: bit 31 set, in an adaptive one",  ROW.with(&[(0, 1, small(1, 0) | BIT_31)])),
    ("R87, R88: bits 15 and 31 set",         ROW.but(&[(HEAD, ON | BIT_15 | BIT_31)])),
    ("R74: destination 5, which is 1 + X",   ROW.but(&[(HEAD, packet(5, [1, 0, 0]))])),
    ("R74: destination 4095",                ROW.but(&[(HEAD, packet(4095, [1, 0, 0]))])),
    ("R75: one hop to node 2",               ROW.but(&[(HEAD, packet(2, [1, 0, 0]))])),
    ("R75: one hop to its own node",         ROW.but(&[(HEAD, packet(0, [1, 0, 0]))])),
    ("R75: no hop to node 1",                ROW.but(&[(HEAD, packet(1, [0, 0, 0]))])),
    ("R75: dy leads to another row",         SQUARE.but(&[(HEAD, packet(1, [1, 1, 0]))])),
    ("R75: dz leads further",                FRONT.but(&[(HEAD, packet(1, [1, 0, 1]))])),
    ("R75: dz, to where dy would lead",      SIDE.but(&[(HEAD, packet(1, [0, 0, 1]))])),
    ("R75: dy, to where dz would lead",      SIDE.but(&[(HEAD, packet(2, [0, 1, 0]))])),
    ("R76: dx 3, to where it leads",         ROW.but(&[(HEAD, packet(3, [3, 0, 0]))])),
    ("R76: dx -3, to where it leads",        ROW.but(&[(HEAD, packet(1, [-3, 0, 0]))])),
    ("R76: dx 5, once round and one on",     ROW.but(&[(HEAD, packet(1, [5, 0, 0]))])),
    ("R76: dx 15, to where it leads",        ROW.but(&[(HEAD, packet(3, [15, 0, 0]))])),
    ("R76: dx -16, to where it leads",       ROW.but(&[(HEAD, packet(0, [-16, 0, 0]))])),
    ("R75, R76: dx -16, to somewhere else",  ROW.but(&[(HEAD, packet(1, [-16, 0, 0]))])),
    ("R76: dy 3, to where it leads",         COLUMN.but(&[(HEAD, packet(3, [0, 3, 0]))])),
    ("R76: dy -16, to where it leads",       COLUMN.but(&[(HEAD, packet(0, [0, -16, 0]))])),
    ("R76: dz 3, to where it leads",         SHAFT.but(&[(HEAD, packet(3, [0, 0, 3]))])),
    ("R76: dz 15, to where it leads",        SHAFT.but(&[(HEAD, packet(3, [0, 0, 15]))])),
    ("R76: dz -16, to where it leads",       SHAFT.but(&[(HEAD, packet(0, [0, 0, -16]))])),
    ("R76: dy 1 where Y is 1",               ROW.but(&[(HEAD, packet(1, [1, 1, 0]))])),
    ("R76: dy -1 where Y is 1",              ROW.but(&[(HEAD, packet(1, [1, -1, 0]))])),
    ("R76: dy -16 where Y is 1",             ROW.but(&[(HEAD, packet(1, [1, -16, 0]))])),
    ("R76: dz 1 where Z is 1",               ROW.but(&[(HEAD, packet(1, [1, 0, 1]))])),
    ("R76: dz -1 where Z is 1",              ROW.but(&[(HEAD, packet(1, [1, 0, -1]))])),
    ("R76: dz -16 where Z is 1",             ROW.but(&[(HEAD, packet(1, [1, 0, -16]))])),
    ("R76: dx 1 where X is 1",               SHAFT.but(&[(HEAD, packet(1, [1, 0, 1]))])),
    ("R77: queue 1, dx 2 of X 4",            ROW.with(&[(0, 1, packet(2, [2, 0, 0]))])),
    ("R77: queue 2, dx -2 of X 4",           ROW.with(&[(0, 2, packet(2, [-2, 0, 0]))])),
    ("R77: queue 5, dz 2 of Z 4",            SHAFT.with(&[(0, 5, packet(2, [0, 0, 2]))])),
    ("R77: queue 7, dx 1 of X 2",            SQUARE.with(&[(0, 7, packet(1, [1, 0, 0]))])),
    ("R77: queue 10, dy -1 of Y 2",          SQUARE.with(&[(0, 10, packet(2, [0, -1, 0]))])),
    ("R77: queue 12, dz -1 of Z 2",          SIDE.with(&[(0, 12, packet(2, [0, 0, -1]))])),
    ("R77: queue 3, no hop where Y is 1",    ROW.with(&[(0, 3, arrived(0))])),
    ("R77: queue 9, no hop where Y is 1",    ROW.with(&[(0, 9, arrived(0))])),
    ("R77: queue 5, no hop where Z is 1",    SQUARE.with(&[(0, 5, arrived(0))])),
    ("R77: queue 11, no hop where Z is 1",   SQUARE.with(&[(0, 11, arrived(0))])),
    ("R77: queue 1, no hop where X is 1",    SHAFT.with(&[(0, 1, arrived(0))])),
    ("R78: dx -1 in queue 1",                ROW.with(&[(0, 1, packet(3, [-1, 0, 0]))])),
    ("R78: dx 1 in queue 2",                 ROW.with(&[(0, 2, packet(1, [1, 0, 0]))])),
    ("R78: dx -1 in queue 7",                ROW.with(&[(0, 7, packet(3, [-1, 0, 0]))])),
    ("R78: dx 1 in queue 8",                 ROW.with(&[(0, 8, packet(1, [1, 0, 0]))])),
    ("R78: dy -1 in queue 3",                COLUMN.with(&[(0, 3, packet(3, [0, -1, 0]))])),
    ("R78: dy 1 in queue 4",                 COLUMN.with(&[(0, 4, packet(1, [0, 1, 0]))])),
    ("R78: dy -1 in queue 9",                COLUMN.with(&[(0, 9, packet(3, [0, -1, 0]))])),
    ("R78: dy 1 in queue 10",                COLUMN.with(&[(0, 10, packet(1, [0, 1, 0]))])),
    ("R78: dz -1 in queue 5",                SHAFT.with(&[(0, 5, packet(3, [0, 0, -1]))])),
    ("R78: dz 1 in queue 6",                 SHAFT.with(&[(0, 6, packet(1, [0, 0, 1]))])),
    ("R78: dz -1 in queue 11",               SHAFT.with(&[(0, 11, packet(3, [0, 0, -1]))])),
    ("R78: dz 1 in queue 12",                SHAFT.with(&[(0, 12, packet(1, [0, 0, 1]))])),
    ("R79: dx 1 in queue 9",                 SQUARE.with(&[(0, 9, packet(1, [1, 0, 0]))])),
    ("R79: dx -1 in queue 10",               SQUARE.with(&[(0, 10, packet(1, [-1, 0, 0]))])),
    ("R79: dx 1 in queue 11",                FRONT.with(&[(0, 11, packet(1, [1, 0, 0]))])),
    ("R79: dx -1 in queue 12",               FRONT.with(&[(0, 12, packet(1, [-1, 0, 0]))])),
    ("R79: dy 1 in queue 11",                SIDE.with(&[(0, 11, packet(1, [0, 1, 0]))])),
    ("R79: dy -1 in queue 12",               SIDE.with(&[(0, 12, packet(1, [0, -1, 0]))])),
    ("R81: x+ of y 0 full",                  SQUARE.with(&ring(7, 0, 1))),
    ("R81: x- of y 1 full",                  SQUARE.with(&ring(8, 2, 3))),
    ("R81: y+ of x 0 full",                  SQUARE.with(&ring(9, 0, 2))),
    ("R81: y- of x 1 full",                  SQUARE.with(&ring(10, 1, 3))),
    ("R81: x+ of z 1 full",                  FRONT.with(&ring(7, 2, 3))),
    ("R81: z+ of x 0 full",                  FRONT.with(&ring(11, 0, 2))),
    ("R81: z- of x 1 full",                  FRONT.with(&ring(12, 1, 3))),
    ("R81: y- of z 1 full",                  SIDE.with(&ring(10, 2, 3))),
    ("R81: z+ of y 1 full",                  SIDE.with(&ring(11, 1, 3))),
    ("R82: accepted 2^32",                   ROW.but(&[(ACCEPTED, CUT), (DELIVERED, CUT - 1)])),
    ("R82: accepted 2^64 - 1",               ROW.but(&[(ACCEPTED, MAX), (DELIVERED, MAX - 1)])),
    ("R82, R83: accepted 2^32, delivered 0", ROW.but(&[(ACCEPTED, CUT)])),
    ("R83: accepted one more",               ROW.but(&[(ACCEPTED, 2)])),
    ("R83: accepted one less",               ROW.but(&[(ACCEPTED, 0)])),
    ("R83: delivered one more",              ROW.but(&[(DELIVERED, 1)])),
    ("R83: delivered 2^64 - 1",              ROW.but(&[(DELIVERED, MAX)])),
    ("R83: right if cut to 64 bits (D1)",    ROW.but(&[(ACCEPTED, 0), (DELIVERED, MAX)])),
    ("R83: right if cut to 32 bits (D1)",    ROW.but(&[(DELIVERED, CUT)])),
    ("R85: 24 moves and work 2, above 25",   ROW.but(&[(MOVES, 24)])),
    ("R85: dz counts as well",               SHAFT.but(&[(MOVES, 24)])),
    ("R85: 2^64 - 1 moves",                  ROW.but(&[(MOVES, MAX)])),
    ("R85: right if cut to 64 bits (D1)",    ROW.but(&[(MOVES, MAX - 1)])),
    ("R85: right if cut to 32 bits (D1)",    ROW.but(&[(MOVES, CUT)])),
];

/// Eight packets with nine chunks.
const SEVEN_AND_TWO: [(usize, usize, u64); 8] = {
    let mut held = [(0, 1, small(1, 0)); 8];
    held[7].2 = small(2, 0);
    held
};

/// Packets that fill an escape queue at two nodes.
const fn ring(queue: usize, one: usize, other: usize) -> [(usize, usize, u64); 4] {
    let (here, there) = (arrived(one as u64), arrived(other as u64));
    [
        (one, queue, here),
        (one, queue, here),
        (other, queue, there),
        (other, queue, there),
    ]
}

/// A packet for node 1 in each queue of node 1 that may hold one: of two
/// dimensions here, and here.
#[rustfmt::skip]
const EVERY_X_AND_Y: [(usize, usize, u64); 9] = [
    (1, 0, arrived(1)), (1, 1, arrived(1)), (1, 2, arrived(1)),
    (1, 3, arrived(1)), (1, 4, arrived(1)), (1, 7, arrived(1)),
    (1, 8, arrived(1)), (1, 9, arrived(1)), (1, 10, arrived(1)),
];
#[rustfmt::skip]
const EVERY_X_AND_Z: [(usize, usize, u64); 9] = [
    (1, 0, arrived(1)), (1, 1, arrived(1)), (1, 2, arrived(1)),
    (1, 5, arrived(1)), (1, 6, arrived(1)), (1, 7, arrived(1)),
    (1, 8, arrived(1)), (1, 11, arrived(1)), (1, 12, arrived(1)),
];

/// Words close to those above that are a network.
#[rustfmt::skip]
const GOOD: &[(&str, Store)] = &[
    ("the row",                              ROW),
    ("the column",                           COLUMN),
    ("the shaft",                            SHAFT),
    ("the square",                           SQUARE),
    ("the front",                            FRONT),
    ("the side",                             SIDE),
    ("R89: one of eight chunks, A 1",        ROW.with(&[(0, 1, arrived(0))])),
    ("R89: two of four chunks, A 1",         ROW.with(&[(0, 1, small(4, 0)), (0, 1, small(4, 0))])),
    ("R72, R89: eight of one chunk, A 1",    ADAPTIVE_EIGHT),
    ("R27: a slot each in queue 7, E 2",     ROW.with(&[(0, 7, arrived(0)), (0, 7, small(1, 0))])),
    ("R72: two packets in queue 7, E 2",     ROW.with(&[(0, 7, arrived(0)), (0, 7, arrived(0))])),
    ("R87: all bits around bit 15",          FRONT.but(&[(HEAD, packet_word(CUT - 1, 8, 3, [-1, 0, -1]))])),
    ("R76: dx 2, half of X",                 ROW.but(&[(HEAD, packet(2, [2, 0, 0]))])),
    ("R76: dx -2, half of X",                ROW.but(&[(HEAD, packet(2, [-2, 0, 0]))])),
    ("R76: dz 2, half of Z",                 SHAFT.but(&[(HEAD, packet(2, [0, 0, 2]))])),
    ("R76: dz -2, half of Z",                SHAFT.but(&[(HEAD, packet(2, [0, 0, -2]))])),
    ("R77: queue 1, dx 1 of X 4",            ROW.with(&[(0, 1, packet(1, [1, 0, 0]))])),
    ("R77: queue 11, dz 1 of Z 4",           SHAFT.with(&[(0, 11, packet(1, [0, 0, 1]))])),
    ("R78: dx -1 in queue 8",                ROW.with(&[(0, 8, packet(3, [-1, 0, 0]))])),
    ("R78: dy 1 in queue 3",                 COLUMN.with(&[(0, 3, packet(1, [0, 1, 0]))])),
    ("R78: dy -1 in queue 10",               COLUMN.with(&[(0, 10, packet(3, [0, -1, 0]))])),
    ("R78: dz 1 in queue 5",                 SHAFT.with(&[(0, 5, packet(1, [0, 0, 1]))])),
    ("R78: dz -1 in queue 12",               SHAFT.with(&[(0, 12, packet(3, [0, 0, -1]))])),
    ("R79: dx 0 in queue 9",                 SQUARE.with(&[(0, 9, arrived(0))])),
    ("R79: dz 1 in queue 7",                 FRONT.with(&[(0, 7, packet(2, [0, 0, 1]))])),
    ("R79: dz 1 in queue 9",                 SIDE.with(&[(0, 9, packet(2, [0, 0, 1]))])),
    ("R79: dx 1 in queue 5, adaptive",       FRONT.with(&[(0, 5, packet(1, [1, 0, 0]))])),
    ("R81: x+ of y 0, one slot free",        SQUARE.with(&[(0, 7, arrived(0)), (0, 7, arrived(0)), (1, 7, arrived(1))])),
    ("R81: y+ of x 0, one slot free",        SQUARE.with(&[(0, 9, arrived(0)), (0, 9, arrived(0)), (2, 9, arrived(2))])),
    ("R81: z+ of x 0, one slot free",        FRONT.with(&[(0, 11, arrived(0)), (0, 11, arrived(0)), (2, 11, arrived(2))])),
    ("R82: accepted 2^32 - 1",               SPENT),
    ("R85: 23 moves and work 2",             ROW.but(&[(MOVES, 23)])),
    ("R86: to oneself, in queue 0",          ARRIVED),
    ("R86: to oneself, in x and y queues",   SQUARE.with(&EVERY_X_AND_Y)),
    ("R86: to oneself, in x and z queues",   FRONT.with(&EVERY_X_AND_Z)),
];

/// R163: each clause of the check behind the sizes, in every call.
#[test]
fn broken_words() {
    for (what, store) in BROKEN {
        let words = store.words();
        for call in ON_WORDS {
            refused(what, &words, LENT, call, 3);
            refused(what, &words, NEED, call, 3);
        }
    }
    for (what, store) in GOOD {
        passes(what, &store.words(), LENT);
    }
}

/// Calls that are not refused, so that what is compared above is known to see
/// what a call writes. None of them changes a word behind the last node (R48).
#[test]
fn not_refused() {
    let row = ROW.words();
    let empty = ROW.but(&[(ACCEPTED, 0), (COUNT, 0), (HEAD, 0)]).words();
    let mut rubbish = vec![MAX; NEED];
    rubbish.resize(LENT, BEHIND);
    let (for_305, for_309) = (make(4, 1, 1, [2, 1, 1]), make(4, 1, 1, [2, 1, 2]));
    done(
        "R91, R92",
        &rubbish,
        LENT,
        for_305,
        [0; 4],
        (&empty, LEDGER),
    );
    done("R101", &empty, LENT, offer(0, 1), [0; 4], (&row, LEDGER));

    // J 2 needs all of the 309 words.
    let mut larger = vec![0; LENT];
    larger[..6].copy_from_slice(&[4, 1, 1, 2, 1, 2]);
    done("R47", &row, LENT, for_309, [0; 4], (&larger, LEDGER));

    // One slot is enough within the ring, where any other head needs two.
    let before = FROM_ESCAPE_ONE.words();
    const CAME_BY_ESCAPE: Store = ROW.with(&[(1, 7, small(1, 1)), (1, 7, arrived(1))]);
    let after = CAME_BY_ESCAPE.but(&[(MOVES, 1)]).words();
    done("R151", &before, LENT, go(0, 7, 7), [0; 4], (&after, LEDGER));

    // One chunk is enough for a packet of one.
    let before = SEVEN_AND_ONE.words();
    let out = [1, 0, 0, 0];
    done("R116", &before, LENT, credit(0, 1), out, (&before, LEDGER));
    const CAME: Store = ROW.with(&[(1, 1, small(7, 1)), (1, 1, small(1, 1))]);
    let after = CAME.but(&[(ACCEPTED, 2), (MOVES, 1), (COUNT, 0), (HEAD, 0)]);
    let after = after.words();
    done("R150", &before, LENT, go(0, 0, 1), [0; 4], (&after, LEDGER));

    // A packet for its own node is handed out.
    let (before, mut book) = (ARRIVED.words(), LEDGER);
    let after = ROW.but(&[(DELIVERED, 1), (MOVES, 1), (COUNT, 0), (HEAD, 0)]);
    let after = after.words();
    let out = [1, arrived(0), 0, 0];
    done("R86", &before, LENT, go(0, 0, 0), out, (&after, book));
    book[0] = arrived(0);
    let out = [1, 1, 0, 0];
    done("R86", &before, LENT, drain(9, 2), out, (&after, book));

    // By queue 1 of node 1, and out.
    let after = ROW.but(&[(DELIVERED, 1), (MOVES, 2), (COUNT, 0), (HEAD, 0)]);
    let after = after.words();
    let mut book = LEDGER;
    book[0] = arrived(1);
    for len in [NEED, LENT] {
        let out = [2, 1, 0, 0];
        done("R127, R128", &row, len, drain(9, 2), out, (&after, book));
    }
}
