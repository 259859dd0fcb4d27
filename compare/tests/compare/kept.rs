//! The kept cases (R281 to R298, R361 to R380, R388), the listing (R257) and the
//! misreadings (R301 to R309, R500, R501), with the numbers that RULES gives, and others
//! beside them. The numbers were worked out here once more. A packet has one
//! chunk where nothing is said; the cases about chunks are in chunks.rs.

use compare::bench::Call;
use compare::equations::label;
use compare::generate::{along, chunks_of, end_node, offset_range, packet_word, put_newest, way};
use compare::generate::{Offsets, Shape, ACCEPTED, BIT_15, BIT_31, DIMENSIONS, DIRECTIONS};
use compare::generate::{FIRST_ESCAPE, HEADER, MOST_CHUNKS, MOVES, OFFSET_VALUES, QUEUES};
use compare::lab::Lab;

const K1: Shape = Shape::new(4, 3, 1, 2, 1, 1);
const K2: Shape = Shape::new(16, 16, 1, 8, 8, 8);
const ALONE: Shape = Shape::new(1, 1, 1, 2, 1, 1);
const LARGEST: Shape = Shape::new(16, 16, 16, 8, 8, 8);
/// Half-way round in every dimension, with one hop left behind it.
const CUBE: Shape = Shape::new(4, 4, 4, 2, 1, 1);
/// No hops left.
const THERE: Offsets = [0; DIMENSIONS];

pub fn all(lab: &mut Lab) {
    let cases: [crate::Part; 24] = [
        ("K1 and K2", needs),
        ("nine words", nine_words),
        ("the fields of a word", fields),
        ("nodes and neighbours", nodes_and_neighbours),
        ("K3 and K4", offered_words),
        ("K3 from every node", half_way_offers),
        ("K5 to K7", bubble_rule),
        ("K8", wrong_sizes),
        ("K9", not_its_way),
        ("K10", budget_zero),
        ("K11", full_ring),
        ("offsets do not wrap", offsets_do_not_wrap),
        ("the most moves", most_moves),
        ("the last queue and output", last_numbers),
        ("K12", to_oneself),
        ("K12 in every queue", to_oneself_in_every_queue),
        ("the listing", listing),
        ("the escape order", escape_order),
        ("the adaptive order", adaptive_order),
        ("from an x ring into a z ring", from_ring_to_ring),
        ("escape queues out of order", escapes_out_of_order),
        ("bits 15 and 31", spare_bits),
        ("a half-way offset keeps its sign", half_way),
        ("held in injection queues alone", injection_alone),
    ];
    for (name, case) in cases {
        lab.place = name.into();
        case(lab);
    }
}

pub fn make(lab: &mut Lab, shape: Shape) -> Vec<u64> {
    let mut words = vec![u64::MAX; shape.need()];
    let sizes = shape.sizes();
    assert_eq!(lab.call(&mut words, Call::Make { sizes }).refusal, 0);
    let [x, y, z, e, a, j] = sizes;
    assert_eq!(words[..HEADER], [x, y, z, e, a, j, 0, 0, 0]);
    assert!(words[HEADER..].iter().all(|word| *word == 0));
    words
}

/// Puts a packet of one chunk at the end of a queue and counts it as accepted.
pub fn put(shape: &Shape, words: &mut [u64], node: u64, queue: usize, offsets: Offsets) {
    put_of(1, shape, words, node, queue, offsets);
}

/// The same with so many chunks.
pub fn put_of(
    chunks: u64,
    shape: &Shape,
    words: &mut [u64],
    node: u64,
    queue: usize,
    offsets: Offsets,
) {
    let packet = packet_word(5, chunks, end_node(shape, node, offsets), offsets);
    put_newest(words, shape, node, queue, packet);
    words[ACCEPTED] += 1;
}

pub fn move_call(node: u64, queue: usize, output: u64) -> Call {
    Call::Move {
        node,
        queue: queue as u64,
        output,
    }
}

/// Of one chunk.
pub fn offer(node: u64, destination: u64, tag: u32) -> Call {
    offer_of(1, node, destination, tag)
}

pub fn offer_of(chunks: u64, node: u64, destination: u64, tag: u32) -> Call {
    Call::Offer {
        node,
        destination,
        tag,
        chunks,
    }
}

fn drain(budget: u32, ledger: usize) -> Call {
    Call::Drain { budget, ledger }
}

/// A node of K1 has 13 + 1 + 48 + 12 = 74 words, one of K2 and of the largest
/// 13 + 8 + 384 + 48 = 453.
fn needs(lab: &mut Lab) {
    for (shape, need) in [
        (K1, 897),            // 9 + 12 * 74
        (K2, 115_977),        // 9 + 256 * 453
        (CUBE, 4_745),        // 9 + 64 * 74
        (LARGEST, 1_855_497), // 9 + 4096 * 453
    ] {
        let call = Call::Make {
            sizes: shape.sizes(),
        };
        assert_eq!(shape.need(), need);
        assert_eq!(lab.try_out(&vec![7; need - 1], call), 1);
        let words = make(lab, shape);
        assert_eq!(lab.try_out(&words, Call::Check), 0);
        assert_eq!(lab.try_out(&words[..need - 1], Call::Check), 1);
    }
}

/// Nine words are asked for before the sizes, and the rest behind them.
fn nine_words(lab: &mut Lab) {
    for word in [0, 1, 2, u64::MAX] {
        assert_eq!(lab.try_out(&[word; 8], Call::Check), 1);
    }
    let mut header = [1, 1, 1, 2, 1, 1, 0, 0, 0];
    assert_eq!(lab.try_out(&header, Call::Check), 1);
    header[5] = 9;
    assert_eq!(lab.try_out(&header, Call::Check), 2);
}

/// 7 * 2^32 + 2^31 + 4 * 2^28 + 6 * 65,536 + 32,768 + 30 * 1,024 + 3 * 32 + 16: all
/// fields of a word that no network holds. Its label has the chunks and both of
/// the bits that are 0 in a network.
fn fields(_: &mut Lab) {
    let word = packet_word(7, 5, 6, [-2, 3, -16]) | BIT_31 | BIT_15;
    assert_eq!(word, 33_286_453_360);
    assert_eq!(chunks_of(word), 5);
    assert_eq!(label(word), 33_286_422_528);
}

/// 2 by 3 by 5. Node 23 is (3 * 3 + 2) * 2 + 1, so it stands at (1, 2, 3); from
/// node 0 it is half-way along x, one hop back along y and two back along z. The
/// neighbours of node 0 are told by their credit.
fn nodes_and_neighbours(lab: &mut Lab) {
    let shape = Shape::new(2, 3, 5, 2, 1, 1);
    let mut words = make(lab, shape);
    assert_eq!(lab.call(&mut words, offer(0, 23, 0)).refusal, 0);
    // 23 * 65,536 + 1,024 + 31 * 32 + 30.
    assert_eq!(words[shape.count_word(0, 0) + 1], 1_509_374);
    for (direction, neighbour) in [1, 1, 2, 4, 6, 24].into_iter().enumerate() {
        for (queue, free) in [(1 + direction, 7), (FIRST_ESCAPE + direction, 1)] {
            let (node, output) = (0, queue as u64);
            put(&shape, &mut words, neighbour, queue, THERE);
            let credit = lab.call(&mut words, Call::Credit { node, output });
            assert_eq!((credit.refusal, credit.out[0]), (0, free), "{output}");
        }
    }
}

/// Tag 7 is worth 7 * 2^32 = 30,064,771,072, a chunk behind the first one 2^28 =
/// 268,435,456, a destination 65,536, a hop 1,024 along x, 32 along y and 1 along z;
/// of hops below 0 what lacks to 32 stands there.
fn offered_words(lab: &mut Lab) {
    let six_by_two = Shape::new(6, 2, 1, 2, 1, 1);
    let six_deep = Shape::new(3, 2, 6, 2, 1, 1);
    let two = Shape::new(2, 2, 2, 2, 1, 1);
    for (shape, node, destination, tag, word) in [
        // From (0, 0) to (2, 1), 2 and 1: 6 * 65,536 + 2 * 1,024 + 32.
        (K1, 0, 6, 7, 30_065_166_368),
        // From (0, 0) to (3, 2), -1 and -1: 11 * 65,536 + 31 * 1,024 + 31 * 32.
        (K1, 0, 11, 0, 753_632),
        // Half-way round from an odd x, from an odd y, and where x and y differ
        // in parity. From (1, 0) to (3, 1), -2 and 1: 7 * 65,536 + 30 * 1,024 + 32.
        (K1, 1, 7, 7, 30_065_260_576),
        // From (0, 1) to (0, 0), 0 and -1: 31 * 32.
        (six_by_two, 6, 0, 7, 30_064_772_064),
        // From (1, 0) to (4, 1), -3 and 1: 10 * 65,536 + 29 * 1,024 + 32.
        (six_by_two, 1, 10, 7, 30_065_456_160),
        // From (0, 1) to (3, 0), 3 and -1: 3 * 65,536 + 3 * 1,024 + 31 * 32.
        (six_by_two, 6, 3, 7, 30_064_971_744),
        // All three half-way round: from (0, 0, 1) to (1, 1, 0), 1, 1 and -1, so
        // 3 * 65,536 + 1,024 + 32 + 31.
        (two, 4, 3, 7, 30_064_968_767),
        // And back: -1, -1 and 1, so 4 * 65,536 + 31 * 1,024 + 31 * 32 + 1.
        (two, 3, 4, 7, 30_065_065_953),
        // Half-way round along z from an odd z, where x, y, the node's number and
        // the destination's z are even: from (0, 0, 1) to (0, 0, 4), -3, so
        // 24 * 65,536 + 29.
        (six_deep, 6, 24, 7, 30_066_343_965),
        // And from an even z, where y, the number and the destination's z are
        // odd: from (0, 1, 0) to (0, 1, 3), 3, so 21 * 65,536 + 3.
        (six_deep, 3, 21, 7, 30_066_147_331),
        // All three back by one: from (1, 1, 5) to (0, 0, 4), -1, -1 and -1, so
        // 24 * 65,536 + 31 * 1,024 + 31 * 32 + 31.
        (six_deep, 34, 24, 7, 30_066_376_703),
    ] {
        for chunks in 1..=MOST_CHUNKS {
            let mut words = make(lab, shape);
            let call = offer_of(chunks, node, destination, tag);
            assert_eq!(lab.call(&mut words, call).refusal, 0);
            let look = lab.call(&mut words, Call::Look { node, queue: 0 });
            let at = shape.count_word(node, 0) + 1;
            assert_eq!(look.out, [at as u64, 1, 0, 0]);
            assert_eq!(words[at], word + (chunks - 1) * 268_435_456);
            assert_eq!(words[ACCEPTED..HEADER], [1, 0, 0]);
        }
    }
    // The first of them with eight chunks, all in one number.
    let mut words = make(lab, K1);
    assert_eq!(lab.call(&mut words, offer_of(8, 0, 6, 7)).refusal, 0);
    assert_eq!(words[K1.count_word(0, 0) + 1], 31_944_214_560);
}

/// From every node to the one half-way round: each offset's sign by the parity
/// of its own coordinate, and of no other number.
fn half_way_offers(lab: &mut Lab) {
    for sides in [
        [2, 1, 1],
        [1, 2, 1],
        [1, 1, 2],
        [2, 2, 2],
        [2, 6, 4],
        [6, 2, 1],
        [3, 2, 6],
        [4, 3, 2],
        [3, 4, 3],
        [16, 16, 1],
        [2, 3, 16],
    ] {
        let shape = Shape::of(sides, [2, 1, 1]);
        let mut words = make(lab, shape);
        for node in 0..shape.nodes() {
            let place = shape.place(node);
            let mut offsets = THERE;
            for (d, offset) in offsets.iter_mut().enumerate() {
                *offset = half_way_from(place[d], sides[d]);
            }
            let destination = end_node(&shape, node, offsets);
            assert_eq!(lab.call(&mut words, offer(node, destination, 9)).refusal, 0);
            let at = shape.count_word(node, 0);
            assert_eq!(words[at + 1], packet_word(9, 1, destination, offsets));
        }
    }
}

/// The offset of an offer to the coordinate half-way round, 0 if there is none.
fn half_way_from(coordinate: u64, size: u64) -> i64 {
    match (size % 2, coordinate % 2) {
        (1, _) => 0,
        (_, 0) => size as i64 / 2,
        _ => -(size as i64 / 2),
    }
}

/// Whether a packet with these offsets may stand in the queue (R76 to R79).
pub fn may_stand(shape: &Shape, queue: usize, offsets: Offsets) -> bool {
    let lawful = |d: usize| {
        let range = offset_range(shape, queue, d);
        range.is_some_and(|(low, high)| (low..=high).contains(&offsets[d]))
    };
    (0..DIMENSIONS).all(lawful)
}

/// Into the escape queue of each direction, with one hop left that way: from
/// that ring itself, and from every other queue in which such a packet may
/// stand. These are injection, the adaptive queues but that of the other way, and
/// the escape queues of the dimensions before its own: with itself 7, 9 and 11.
fn bubble_rule(lab: &mut Lab) {
    let node = 21;
    for (direction, ways_in) in [7, 7, 9, 9, 11, 11].into_iter().enumerate() {
        let escape = FIRST_ESCAPE + direction;
        let (dimension, sign) = way(escape);
        let offsets = along(dimension, sign);
        let target = end_node(&CUBE, node, offsets);
        let sources = (0..QUEUES).filter(|queue| may_stand(&CUBE, *queue, offsets));
        let sources: Vec<usize> = sources.collect();
        assert_eq!(sources.len(), ways_in);
        for (held, own, outside) in [(0, 0, 0), (1, 0, 12), (2, 11, 11)] {
            for queue in &sources {
                let refusal = if *queue == escape { own } else { outside };
                let mut words = make(lab, CUBE);
                put(&CUBE, &mut words, node, *queue, offsets);
                for _ in 0..held {
                    put(&CUBE, &mut words, target, escape, THERE);
                }
                let call = move_call(node, *queue, escape as u64);
                assert_eq!(lab.try_out(&words, call), refusal, "{queue} to {escape}");
                let output = escape as u64;
                let credit = lab.call(&mut words, Call::Credit { node, output });
                assert_eq!((credit.refusal, credit.out[0]), (0, 2 - held));
            }
        }
    }
}

fn wrong_sizes(lab: &mut Lab) {
    let words = vec![0; K1.need()];
    for sizes in [
        [4, 3, 1, 1, 1, 1],
        [0, 3, 1, 2, 1, 1],
        [17, 3, 1, 2, 1, 1],
        [4, 0, 1, 2, 1, 1],
        [4, 17, 1, 2, 1, 1],
        [4, 3, 0, 2, 1, 1],
        [4, 3, 17, 2, 1, 1],
    ] {
        assert_eq!(lab.try_out(&words, Call::Make { sizes }), 2);
        let mut words = make(lab, K1);
        words[..6].copy_from_slice(&sizes);
        assert_eq!(lab.try_out(&words, Call::Check), 2);
        assert_eq!(lab.try_out(&[], Call::Make { sizes }), 2, "2 before 1");
    }
}

fn not_its_way(lab: &mut Lab) {
    let mut words = make(lab, K1);
    put(&K1, &mut words, 0, 0, [1, 0, 0]);
    put(&K1, &mut words, 1, 0, THERE);
    assert_eq!(lab.try_out(&words, move_call(0, 0, 0)), 10);
    assert_eq!(lab.try_out(&words, move_call(1, 0, 7)), 10);
}

fn budget_zero(lab: &mut Lab) {
    let mut words = make(lab, K1);
    assert_eq!(lab.call(&mut words, drain(0, 0)).out, [0, 0, 0, 0]);
    put(&K1, &mut words, 0, 0, THERE);
    assert_eq!(lab.call(&mut words, drain(0, 0)).out, [0, 0, 1, 0]);
    assert_eq!(lab.call(&mut words, drain(1, 0)).out, [0, 0, 2, 0]);
}

/// A ring of two nodes, along x in the kept case and then along y and z.
fn full_ring(lab: &mut Lab) {
    for (sides, plus_ring) in [([2, 1, 1], 7), ([1, 2, 1], 9), ([1, 1, 2], 11)] {
        let shape = Shape::of(sides, [2, 1, 1]);
        for queue in [plus_ring, plus_ring + 1] {
            let mut words = make(lab, shape);
            for (node, refusal) in [(0, 0), (0, 0), (1, 0), (1, 3)] {
                put(&shape, &mut words, node, queue, THERE);
                assert_eq!(lab.try_out(&words, Call::Check), refusal);
            }
        }
    }
}

/// Every offset that can be written, along a ring of 16 nodes: half of it and
/// no more is lawful, for the node to which it leads.
fn offsets_do_not_wrap(lab: &mut Lab) {
    for dimension in 0..DIMENSIONS {
        let mut sides = [1; DIMENSIONS];
        sides[dimension] = 16;
        let shape = Shape::of(sides, [2, 1, 1]);
        for hops in OFFSET_VALUES {
            let mut words = make(lab, shape);
            put(&shape, &mut words, 0, 0, along(dimension, hops));
            let refusal = if hops.abs() <= 8 { 0 } else { 3 };
            assert_eq!(lab.try_out(&words, Call::Check), refusal, "{hops}");
        }
    }
}

/// One packet accepted and a delivery left: 24 moves more may have been made.
fn most_moves(lab: &mut Lab) {
    let mut words = make(lab, ALONE);
    put(&ALONE, &mut words, 0, 0, THERE);
    for (moves, refusal) in [(24, 0), (25, 3)] {
        words[MOVES] = moves;
        assert_eq!(lab.try_out(&words, Call::Check), refusal);
    }
}

/// Queue and output 12 are the last ones.
fn last_numbers(lab: &mut Lab) {
    let mut words = make(lab, ALONE);
    put(&ALONE, &mut words, 0, 0, THERE);
    let look = |queue| Call::Look { node: 0, queue };
    let credit = |output| Call::Credit { node: 0, output };
    for (call, refusal) in [
        (move_call(0, 12, 0), 9),
        (move_call(0, 13, 0), 5),
        (move_call(0, 0, 12), 10),
        (move_call(0, 0, 13), 6),
        (look(12), 0),
        (look(13), 5),
        (credit(0), 6),
        (credit(12), 0),
        (credit(13), 6),
    ] {
        assert_eq!(lab.try_out(&words, call), refusal, "{call:?}");
    }
}

fn to_oneself(lab: &mut Lab) {
    let shape = ALONE;
    let mut words = make(lab, shape);
    assert_eq!(lab.try_out(&words, offer(0, 0, 3)), 14);
    assert_eq!(lab.try_out(&words, offer(1, 1, 3)), 4);
    // Written by hand such a packet passes, and one move hands it out.
    put(&shape, &mut words, 0, 0, THERE);
    assert_eq!(lab.try_out(&words, Call::Check), 0);
    assert_eq!(lab.try_out(&words, offer(0, 0, 3)), 14, "14 before 7");
    assert_eq!(lab.call(&mut words, Call::First).out, [1, 0, 0, 0]);
    for output in 1..QUEUES as u64 {
        assert_eq!(lab.try_out(&words, move_call(0, 0, output)), 10);
    }
    let (drained, ledger) = lab.call_with_ledger(&mut words.clone(), drain(9, 1));
    assert_eq!((drained.out, ledger[0]), ([1, 1, 0, 0], 5 << 32));
    let answer = lab.call(&mut words, move_call(0, 0, 0));
    assert_eq!((answer.refusal, answer.out), (0, [1, 5 << 32, 0, 0]));
    assert_eq!(words[ACCEPTED..HEADER], [1, 1, 1]);
    assert_eq!(lab.call(&mut words, Call::First).out, [0; 4]);
}

fn to_oneself_in_every_queue(lab: &mut Lab) {
    let shape = Shape::new(2, 2, 2, 2, 1, 1);
    let mut words = make(lab, shape);
    for queue in 0..QUEUES {
        put(&shape, &mut words, 0, queue, THERE);
        assert_eq!(lab.try_out(&words, Call::Check), 0);
        assert_eq!(lab.try_out(&words, move_call(0, queue, 0)), 0);
    }
    let (answer, ledger) = lab.call_with_ledger(&mut words, drain(13, 13));
    assert_eq!((answer.refusal, answer.out), (0, [13, 13, 0, 0]));
    assert_eq!(ledger, [5 << 32; 13]);
}

fn listing(lab: &mut Lab) {
    let sizes = [4, 1, 1, 2, 1, 1];
    assert_eq!(lab.try_out(&[0; 304], Call::Make { sizes }), 1);
    let mut words = vec![0; 305];
    assert_eq!(lab.call(&mut words, Call::Make { sizes }).refusal, 0);
    assert_eq!(lab.call(&mut words, offer(0, 2, 7)).refusal, 0);
    assert_eq!(lab.call(&mut words, offer(0, 1, 8)).refusal, 7);
    assert_eq!(lab.call(&mut words, move_call(0, 0, 7)).refusal, 0);
    assert_eq!(lab.call(&mut words, move_call(1, 7, 0)).refusal, 10);
    let (answer, ledger) = lab.call_with_ledger(&mut words, drain(10, 64));
    assert_eq!((answer.refusal, answer.out), (0, [2, 1, 0, 0]));
    assert_eq!(ledger[0], (7 << 32) + (2 << 16));
}

/// A head with a hop left each way may go on adaptively along each dimension,
/// and by the escape queue of x alone; where dx is used up, by that of y.
fn escape_order(lab: &mut Lab) {
    for shape in [Shape::new(2, 2, 2, 2, 1, 1), CUBE] {
        for (offsets, outputs) in [
            ([1, 1, 1], [1, 3, 5, 7].as_slice()),
            ([0, 1, 1], &[3, 5, 9]),
            ([0, -1, 1], &[4, 5, 10]),
            ([-1, 0, -1], &[2, 6, 8]),
            ([0, 0, 1], &[5, 11]),
        ] {
            let mut words = make(lab, shape);
            put(&shape, &mut words, 0, 0, offsets);
            for output in 0..QUEUES as u64 {
                let refusal = if outputs.contains(&output) { 0 } else { 10 };
                assert_eq!(lab.try_out(&words, move_call(0, 0, output)), refusal);
            }
        }
    }
}

/// The incoming dimension comes first, then the others, x before y before z; from
/// injection x counts as incoming. Each queue that First names is filled.
fn adaptive_order(lab: &mut Lab) {
    for (shape, queue, outputs) in [
        (CUBE, 0, [1, 3, 5, 7]),
        (CUBE, 1, [1, 3, 5, 7]),
        (CUBE, 3, [3, 1, 5, 7]),
        (CUBE, 5, [5, 1, 3, 7]),
        (Shape::new(2, 2, 4, 2, 1, 1), 5, [5, 1, 3, 7]),
    ] {
        let mut words = make(lab, shape);
        put(&shape, &mut words, 0, queue, [1, 1, 1]);
        for output in outputs {
            let first = lab.call(&mut words, Call::First).out;
            assert_eq!(first, [1, 0, queue as u64, output as u64]);
            let (dimension, sign) = way(output);
            let target = end_node(&shape, 0, along(dimension, sign));
            put_of(8, &shape, &mut words, target, output, THERE);
        }
    }
}

/// A packet that came along x in an escape ring and goes on along z enters
/// another ring: two slots must be free, where one is enough for a packet that
/// is in the z ring already. From node 0 to node 2 in 2 by 1 by 2, where none can
/// be on its way in that ring, and from node 0 to node 4 in 4 by 1 by 4.
fn from_ring_to_ring(lab: &mut Lab) {
    let (x_ring, z_ring) = (7, 11);
    let (narrow, wide) = (Shape::new(2, 1, 2, 2, 1, 1), Shape::new(4, 1, 4, 2, 1, 1));
    for (shape, queue, held, refusal) in [
        (narrow, x_ring, 0, 0),
        (narrow, x_ring, 1, 12),
        (narrow, x_ring, 2, 11),
        (wide, x_ring, 0, 0),
        (wide, x_ring, 1, 12),
        (wide, x_ring, 2, 11),
        (wide, z_ring, 1, 0),
        (wide, z_ring, 2, 11),
    ] {
        let mut words = make(lab, shape);
        put(&shape, &mut words, 0, queue, [0, 0, 1]);
        for _ in 0..held {
            put(&shape, &mut words, shape.sides[0], z_ring, THERE);
        }
        assert_eq!(lab.try_out(&words, Call::Check), 0);
        let call = move_call(0, queue, z_ring as u64);
        assert_eq!(lab.try_out(&words, call), refusal, "{queue}, {held} held");
    }
}

/// dx left in an escape queue of y or z, dy in one of z. In the smallest network
/// with these dimensions, where adaptive queues take such packets, and in others.
fn escapes_out_of_order(lab: &mut Lab) {
    for (sides, offsets) in [([2, 1, 2], [1, 0, 0]), ([1, 2, 2], [0, 1, 0])] {
        let shape = Shape::of(sides, [2, 1, 1]);
        for (queue, refusal) in [(11, 3), (5, 0)] {
            let mut words = make(lab, shape);
            put(&shape, &mut words, 0, queue, offsets);
            assert_eq!(lab.try_out(&words, Call::Check), refusal);
        }
    }
    for (queue, offsets, refusal) in [
        (9, [1, 0, 0], 3),
        (10, [-1, 0, 0], 3),
        (11, [1, 0, 0], 3),
        (11, [-1, 0, 1], 3),
        (12, [1, 0, -1], 3),
        (12, [-1, 0, 0], 3),
        (11, [0, 1, 0], 3),
        (12, [0, -1, -1], 3),
        (12, [2, 2, 0], 3),
        // The same hops where they may be left.
        (7, [1, 2, 2], 0),
        (8, [-1, -2, 2], 0),
        (9, [0, 1, -2], 0),
        (10, [0, -1, 2], 0),
        (11, [0, 0, 1], 0),
        (12, [0, 0, -1], 0),
    ] {
        let mut words = make(lab, CUBE);
        put(&CUBE, &mut words, 21, queue, offsets);
        let found = lab.try_out(&words, Call::Check);
        assert_eq!(found, refusal, "{offsets:?} in queue {queue}");
    }
}

/// The bit between the destination and the offsets, and that between the tag and
/// the chunks, are 0 in every packet, in every queue and wherever it goes; set,
/// such a bit is no part of the fields beside it.
fn spare_bits(lab: &mut Lab) {
    for bits in [BIT_15, BIT_31, BIT_15 | BIT_31] {
        let queues = (0..QUEUES).map(|queue| (CUBE, 21, queue));
        for (shape, node, queue) in queues.chain([(ALONE, 0, 0)]) {
            let mut words = make(lab, shape);
            put(&shape, &mut words, node, queue, THERE);
            assert_eq!(lab.try_out(&words, Call::Check), 0);
            words[shape.count_word(node, queue) + 1] |= bits;
            assert_eq!(lab.try_out(&words, Call::Check), 3);
            assert_eq!(lab.try_out(&words, move_call(node, queue, 0)), 3);
        }
        let mut words = make(lab, K1);
        assert_eq!(lab.call(&mut words, offer(0, 6, 7)).refusal, 0);
        words[K1.count_word(0, 0) + 1] += bits;
        assert_eq!(lab.try_out(&words, Call::Check), 3);
    }
}

/// The adaptive queue along a dimension, by the sign of the hops.
fn adaptive(dimension: usize, hops: i64) -> usize {
    1 + 2 * dimension + if hops > 0 { 0 } else { 1 }
}

/// Held packets may have either sign half-way round, wherever they stand, and
/// no hop turns one round: at an odd coordinate too, where an offer would go
/// minus.
fn half_way(lab: &mut Lab) {
    // By every sign of the three hops.
    let signs = (0..8).map(|bits| [0, 1, 2].map(|d| if bits >> d & 1 == 0 { 2 } else { -2 }));
    for (node, offsets) in signs.flat_map(|offsets| (0..CUBE.nodes()).map(move |n| (n, offsets))) {
        // No hop changes the chunks, whatever they are.
        let chunks = 1 + node % MOST_CHUNKS;
        let mut words = make(lab, CUBE);
        put_of(chunks, &CUBE, &mut words, node, 0, offsets);
        assert_eq!(lab.try_out(&words, Call::Check), 0);
        let ways = [0, 1, 2].map(|d| adaptive(d, offsets[d]));
        for output in 0..QUEUES {
            let its_way = ways.contains(&output) || output == ways[0] + DIRECTIONS;
            let refusal = if its_way { 0 } else { 10 };
            let call = move_call(node, 0, output as u64);
            assert_eq!(lab.try_out(&words, call), refusal);
        }
        // A hop along each dimension, z first: it comes one nearer to 0, and the
        // others stay as they are.
        let end = end_node(&CUBE, node, offsets);
        let (mut here, mut queue, mut left) = (node, 0, offsets);
        for d in (0..DIMENSIONS).rev() {
            let hop = left[d].signum();
            let call = move_call(here, queue, ways[d] as u64);
            assert_eq!(lab.call(&mut words, call).refusal, 0);
            (here, queue) = (end_node(&CUBE, here, along(d, hop)), ways[d]);
            left[d] -= hop;
            let at = CUBE.count_word(here, queue);
            assert_eq!(words[at..at + 2], [1, packet_word(5, chunks, end, left)]);
        }
    }
}

fn injection_alone(lab: &mut Lab) {
    let mut words = make(lab, K1);
    put(&K1, &mut words, 11, 0, THERE);
    assert_eq!(lab.call(&mut words, drain(0, 8)).out, [0, 0, 1, 0]);
    assert_eq!(lab.call(&mut words, drain(9, 8)).out, [1, 1, 0, 0]);
}
