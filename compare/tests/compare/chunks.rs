//! Packets of one to eight chunks: the kept cases about them (R381 to R387) and the
//! misreadings (R502 to R512), with the numbers that RULES gives, and beside them
//! every load of an adaptive queue with every head.

use crate::kept::{make, move_call, offer, offer_of, put_of};
use compare::bench::Call;
use compare::generate::{end_node, hostile, Shape, ACCEPTED, DELIVERED, FIRST_ESCAPE};
use compare::generate::{MOST_ACCEPTED, MOST_CHUNKS, QUEUES};
use compare::lab::Lab;
use compare::random::Random;

/// Packets go from node 0 to node 1, from queue 0, which is x+.
const HEAD: [i64; 3] = [1, 0, 0];
/// No hops left.
const THERE: [i64; 3] = [0; 3];
const ADAPTIVE: usize = 1;
const ESCAPE: usize = FIRST_ESCAPE;

pub fn all(lab: &mut Lab) {
    let cases: [crate::Part; 9] = [
        ("loads that pass", loads_that_pass),
        ("seven chunks taken", seven_taken),
        ("an escape queue counts packets", escape_counts_packets),
        (
            "an injection queue counts packets",
            injection_counts_packets,
        ),
        ("Credit in chunks and in slots", credits),
        ("chunk numbers", chunk_numbers),
        ("the order of an offer's tests", order_of_tests),
        ("every load and every head", every_load),
        ("the example", example),
    ];
    for (name, case) in cases {
        lab.place = name.into();
        case(lab);
    }
}

/// Four nodes in a row, and so many slots.
fn row(e: u64, a: u64, j: u64) -> Shape {
    Shape::new(4, 1, 1, e, a, j)
}

/// Puts packets of these chunks, which have come to their destination.
fn put_all(shape: &Shape, words: &mut [u64], node: u64, queue: usize, chunks: &[u64]) {
    for chunks in chunks {
        put_of(*chunks, shape, words, node, queue, THERE);
    }
}

fn credit(lab: &mut Lab, words: &[u64], output: usize) -> u64 {
    let call = Call::Credit {
        node: 0,
        output: output as u64,
    };
    let answer = lab.call(&mut words.to_vec(), call);
    assert_eq!(answer.refusal, 0);
    answer.out[0]
}

/// What Check says of packets of these chunks, in an adaptive queue of each of
/// the six directions.
fn loads_that_pass(lab: &mut Lab) {
    let ones = |many: usize, last: u64| [vec![1; many], vec![last]].concat();
    for (a, chunks, refusal) in [
        (1, vec![8], 0),
        (1, vec![4, 4], 0),
        (1, ones(7, 1), 0),
        (1, vec![4, 5], 3),
        (1, ones(7, 2), 3),
        (1, vec![8, 1], 3),
        (8, ones(63, 1), 0),
        (8, ones(63, 2), 3),
        (8, vec![8; 8], 0),
        (8, [vec![8; 8], vec![1]].concat(), 3),
    ] {
        let shape = Shape::new(2, 2, 2, 2, a, 1);
        for queue in 1..FIRST_ESCAPE {
            let mut words = make(lab, shape);
            put_all(&shape, &mut words, 5, queue, &chunks);
            let found = lab.try_out(&words, Call::Check);
            assert_eq!(found, refusal, "{chunks:?} in queue {queue}, A {a}");
        }
    }
    // The escape queue beside it has two slots.
    let shape = Shape::new(2, 1, 1, 2, 1, 1);
    let mut words = make(lab, shape);
    put_all(&shape, &mut words, 0, ESCAPE, &[8, 8]);
    assert_eq!(lab.try_out(&words, Call::Check), 0);
}

/// A head of one chunk fits behind seven, one of two does not.
fn seven_taken(lab: &mut Lab) {
    let shape = row(2, 1, 1);
    for chunks in 1..=MOST_CHUNKS {
        let mut words = make(lab, shape);
        put_of(chunks, &shape, &mut words, 0, 0, HEAD);
        assert_eq!(credit(lab, &words, ADAPTIVE), 8);
        assert_eq!(lab.try_out(&words, move_call(0, 0, 1)), 0);
        put_all(&shape, &mut words, 1, ADAPTIVE, &[7]);
        assert_eq!(credit(lab, &words, ADAPTIVE), 1);
        let refusal = if chunks == 1 { 0 } else { 11 };
        assert_eq!(lab.try_out(&words, move_call(0, 0, 1)), refusal);
    }
}

/// Whatever chunks the packets have: with one slot free of two, those of the ring
/// may go on and others are refused by 12.
fn escape_counts_packets(lab: &mut Lab) {
    let shape = row(2, 1, 1);
    for (held, chunks) in (1..=MOST_CHUNKS).flat_map(|h| (1..=MOST_CHUNKS).map(move |c| (h, c))) {
        for (many, free, own, outside) in [(0, 2, 0, 0), (1, 1, 0, 12), (2, 0, 11, 11)] {
            for (queue, refusal) in [(ESCAPE, own), (ADAPTIVE, outside), (0, outside)] {
                let mut words = make(lab, shape);
                put_of(chunks, &shape, &mut words, 0, queue, HEAD);
                put_all(&shape, &mut words, 1, ESCAPE, &vec![held; many]);
                assert_eq!(credit(lab, &words, ESCAPE), free);
                let call = move_call(0, queue, ESCAPE as u64);
                assert_eq!(lab.try_out(&words, call), refusal, "{chunks} behind {held}");
            }
        }
    }
}

/// J packets fill an injection queue, of one chunk or of eight.
fn injection_counts_packets(lab: &mut Lab) {
    for (chunks, j) in [(1, 1), (8, 1), (1, 3), (8, 3)] {
        let mut words = make(lab, row(2, 1, j));
        for _ in 0..j {
            assert_eq!(lab.call(&mut words, offer_of(chunks, 0, 2, 7)).refusal, 0);
        }
        assert_eq!(lab.try_out(&words, offer_of(1, 0, 2, 7)), 7);
        assert_eq!(lab.try_out(&words, offer_of(8, 0, 2, 7)), 7);
    }
}

/// Each node of two is next to the other, both ways. Packets of three chunks.
fn credits(lab: &mut Lab) {
    let shape = Shape::new(2, 1, 1, 4, 1, 3);
    let mut words = make(lab, shape);
    for (queue, held) in [(1, [1, 2]), (2, [0, 1]), (7, [1, 0]), (8, [2, 4])] {
        for (node, held) in held.into_iter().enumerate() {
            put_all(&shape, &mut words, node as u64, queue, &vec![3; held]);
        }
    }
    for (output, free) in [(1, [2, 5]), (2, [5, 8]), (7, [4, 3]), (8, [0, 2])] {
        for (node, free) in free.into_iter().enumerate() {
            let node = node as u64;
            let answer = lab.call(&mut words, Call::Credit { node, output });
            assert_eq!((answer.refusal, answer.out[0]), (0, free), "{output}");
        }
    }
}

/// 1 to 8 and no other of 64 bits.
fn chunk_numbers(lab: &mut Lab) {
    let mut random = Random::new(22);
    let words = make(lab, row(2, 1, 1));
    let some = (0..200).map(|_| hostile(&mut random, MOST_CHUNKS + 1));
    let some: Vec<u64> = (0..300).chain(some).collect();
    for chunks in some {
        let refusal = if (1..=8).contains(&chunks) { 0 } else { 2 };
        assert_eq!(lab.try_out(&words, offer_of(chunks, 0, 2, 7)), refusal);
    }
}

/// 4, 2, 14, 8, 7: with every set of these faults the first of them is told.
fn order_of_tests(lab: &mut Lab) {
    let shape = row(2, 1, 1);
    for faults in 0..32 {
        let has = |fault: u32| faults >> fault & 1 == 1;
        let mut words = make(lab, shape);
        // A full queue, and accepted at its end.
        if has(0) {
            assert_eq!(lab.call(&mut words, offer(1, 2, 7)).refusal, 0);
        }
        if has(1) {
            words[DELIVERED] = MOST_ACCEPTED - words[ACCEPTED];
            words[ACCEPTED] = MOST_ACCEPTED;
        }
        // To oneself, the chunks, and no such node.
        let [node, no_node] = [1, 9];
        let (first, destination) = match (has(4), has(2)) {
            (false, false) => (node, 3),
            (false, true) => (node, node),
            (true, false) => (no_node, 3),
            (true, true) => (no_node, no_node),
        };
        for chunks in if has(3) { [0, 9] } else { [1, 8] } {
            let numbers = [(4, 4), (3, 2), (2, 14), (1, 8), (0, 7)];
            let told = numbers.into_iter().find(|(fault, _)| has(*fault));
            let refusal = told.map_or(0, |(_, number)| number);
            let call = offer_of(chunks, first, destination, 7);
            assert_eq!(lab.try_out(&words, call), refusal, "{faults:b}");
        }
    }
}

/// So many chunks in packets: all of one, as many of eight as there are, or any.
fn partitions(random: &mut Random, load: u64) -> [Vec<u64>; 3] {
    let mut eights = vec![8; load as usize / 8];
    eights.extend([load % 8].iter().filter(|rest| **rest > 0));
    let (mut any, mut left) = (Vec::new(), load);
    while left > 0 {
        let chunks = random.between(1, left.min(MOST_CHUNKS));
        any.push(chunks);
        left -= chunks;
    }
    [vec![1; load as usize], eights, any]
}

/// An adaptive queue takes a head if its chunks are free there: 11 if not. First
/// goes the other way then, and Drain with it. Where all packets have eight chunks
/// it is refused exactly where A are held.
fn every_load(lab: &mut Lab) {
    let mut random = Random::new(23);
    for a in [1, 2, 3, 8] {
        let shape = row(3, a, 1);
        for load in 0..=8 * a {
            for held in partitions(&mut random, load) {
                for chunks in 1..=MOST_CHUNKS {
                    lab.place = format!("A {a}, {chunks} chunks behind {held:?}");
                    let mut words = make(lab, shape);
                    put_of(chunks, &shape, &mut words, 0, 0, HEAD);
                    put_all(&shape, &mut words, 1, ADAPTIVE, &held);
                    goes_or_not(lab, &shape, &mut words, 8 * a - load, chunks);
                    if chunks == 8 && held.iter().all(|chunks| *chunks == 8) {
                        let full = held.len() as u64 == a;
                        assert_eq!(full, 8 * a - load < chunks);
                    }
                }
            }
        }
    }
}

/// The head of queue 0 of node 0, and so many free chunks of its target.
fn goes_or_not(lab: &mut Lab, shape: &Shape, words: &mut Vec<u64>, free: u64, chunks: u64) {
    let goes = chunks <= free;
    let at = shape.count_word(1, ADAPTIVE);
    let held = words[at];
    assert_eq!(credit(lab, words, ADAPTIVE), free);
    let first = lab.call(&mut words.clone(), Call::First).out;
    let output = if goes { ADAPTIVE } else { ESCAPE };
    assert_eq!(first, [1, 0, 0, output as u64]);
    let mut drained = words.clone();
    let call = Call::Drain {
        budget: 1,
        ledger: 0,
    };
    assert_eq!(lab.call(&mut drained, call).out, [1, 0, 1, 0]);
    let answer = lab.call(words, move_call(0, 0, ADAPTIVE as u64));
    assert_eq!(answer.refusal, if goes { 0 } else { 11 });
    if goes {
        assert_eq!(*words, drained);
        assert_eq!(words[at], held + 1);
        assert_eq!(credit(lab, words, ADAPTIVE), free - chunks);
    }
    assert_eq!(lab.try_out(words, Call::Check), 0);
}

/// The calls of examples/chunks.sheet.
fn example(lab: &mut Lab) {
    let shape = row(2, 1, 2);
    let mut words = make(lab, shape);
    for (call, refusal) in [
        (offer_of(5, 0, 2, 1), 0),
        (offer_of(4, 0, 2, 2), 0),
        (offer_of(3, 0, 2, 3), 7),
        (move_call(0, 0, 1), 0),
        (move_call(0, 0, 1), 11),
        (move_call(0, 0, 7), 0),
        (offer_of(3, 0, 2, 3), 0),
        (move_call(0, 0, 1), 0),
        (offer_of(9, 0, 1, 4), 2),
        (offer_of(9, 0, 0, 4), 2),
        (offer_of(9, 0, 4, 4), 4),
    ] {
        assert_eq!(lab.call(&mut words, call).refusal, refusal, "{call:?}");
    }
    // Packets 1 and 3 have filled the adaptive queue, with 5 chunks and 3.
    assert_eq!(words[shape.count_word(1, ADAPTIVE)], 2);
    assert_eq!(credit(lab, &words, ADAPTIVE), 0);
    let (answer, ledger) = lab.call_with_ledger(
        &mut words,
        Call::Drain {
            budget: 99,
            ledger: 64,
        },
    );
    assert_eq!((answer.refusal, answer.out), (0, [6, 3, 0, 0]));
    // Tag, chunks minus one, and destination: what is handed out has its chunks.
    let handed_out = [(1, 5), (3, 3), (2, 4)];
    let handed_out = handed_out.map(|(tag, chunks)| (tag << 32) + ((chunks - 1) << 28) + (2 << 16));
    assert_eq!(ledger[..3], handed_out);
    assert_eq!(end_node(&shape, 0, [2, 0, 0]), 2);
    assert!((0..QUEUES).all(|queue| words[shape.count_word(2, queue)] == 0));
}
