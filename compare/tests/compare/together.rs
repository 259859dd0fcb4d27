//! Moves in any order (R600 to R616): the kept cases, with the numbers that RULES
//! gives; all pairs of permitted moves in small networks; and lists of moves that
//! are apart, made in many orders. Sources and targets are told here from the
//! numbers of a move and the torus alone; which moves are permitted is asked of
//! every implementation.

use crate::kept::{make, move_call};
use compare::bench::{Answer, Call};
use compare::generate::{along, end_node, network, packet_word, put_newest, way};
use compare::generate::{Fill, Shape, ACCEPTED, FILLS, FIRST_ESCAPE, QUEUES, SIDES};
use compare::lab::Lab;
use compare::model;
use compare::random::Random;
use std::collections::{HashMap, HashSet};

/// Node, queue and output.
type Named = (u64, usize, u64);
/// A node and a queue.
type Place = (u64, usize);

fn call((node, queue, output): Named) -> Call {
    move_call(node, queue, output)
}

/// R601
fn source((node, queue, _): Named) -> Place {
    (node, queue)
}

/// R602
fn targets(shape: &Shape, (node, _, output): Named) -> Option<Place> {
    let queue = output as usize;
    (queue > 0).then(|| {
        let (dimension, sign) = way(queue);
        (end_node(shape, node, along(dimension, sign)), queue)
    })
}

fn all_different<T: std::hash::Hash + Eq>(list: impl IntoIterator<Item = T>) -> bool {
    let mut seen = HashSet::new();
    list.into_iter().all(|element| seen.insert(element))
}

/// R603
fn queues_differ(shape: &Shape, moves: &[Named]) -> bool {
    let sources = moves.iter().map(|m| source(*m));
    all_different(sources.chain(moves.iter().filter_map(|m| targets(shape, *m))))
}

fn sources_differ(moves: &[Named]) -> bool {
    all_different(moves.iter().map(|m| source(*m)))
}

fn targets_differ(shape: &Shape, moves: &[Named]) -> bool {
    all_different(moves.iter().filter_map(|m| targets(shape, *m)))
}

/// R604
fn apart(shape: &Shape, moves: &[Named]) -> bool {
    sources_differ(moves) && targets_differ(shape, moves)
}

/// What a reader sees of M lines (R614).
fn lines_apart(moves: &[Named]) -> bool {
    let outputs = moves.iter().filter(|m| m.2 > 0);
    sources_differ(moves) && all_different(outputs.map(|(node, _, output)| (*node, *output)))
}

/// The moves that every implementation permits.
fn permitted(lab: &mut Lab, words: &[u64]) -> Vec<Named> {
    let routes = model::routes_of_heads(words);
    let named = routes
        .iter()
        .map(|step| (step.node as u64, step.queue, step.output as u64));
    named
        .filter(|m| lab.try_out(words, call(*m)) == 0)
        .collect()
}

/// The words after these moves, and the answer of each.
fn made(lab: &mut Lab, words: &[u64], moves: &[Named]) -> (Vec<u64>, Vec<Answer>) {
    let mut after = words.to_vec();
    let answers = moves.iter().map(|m| lab.call(&mut after, call(*m)));
    let answers = answers.collect();
    (after, answers)
}

/// What the moves handed out, each packet with its node, in a fixed order.
fn handed_out(moves: &[Named], answers: &[Answer]) -> Vec<(u64, u64)> {
    let deliveries = moves.iter().zip(answers).filter(|(_, a)| a.out[0] == 1);
    let mut list: Vec<_> = deliveries.map(|(m, a)| (m.0, a.out[1])).collect();
    list.sort_unstable();
    list
}

fn shuffle(random: &mut Random, moves: &mut [Named]) {
    for last in (1..moves.len()).rev() {
        moves.swap(last, random.below(last as u64 + 1) as usize);
    }
}

/// As many of the moves as are apart, in the order given, up to so many.
fn chosen(moves: &[Named], most: usize) -> Vec<Named> {
    let mut list: Vec<Named> = Vec::new();
    for next in moves {
        if list.len() == most {
            break;
        }
        list.push(*next);
        if !lines_apart(&list) {
            list.pop();
        }
    }
    list
}

/// Makes the list as it stands, reversed, and shuffled twice: the words are the
/// same, and each move is answered as it is at the start.
fn in_any_order(lab: &mut Lab, random: &mut Random, words: &[u64], moves: &[Named]) -> Vec<u64> {
    let alone = |m: &Named| (*m, lab.call(&mut words.to_vec(), call(*m)));
    let at_start: HashMap<Named, Answer> = moves.iter().map(alone).collect();
    assert!(at_start.values().all(|answer| answer.refusal == 0));
    let (after, first) = made(lab, words, moves);
    let mut order = moves.to_vec();
    order.reverse();
    for _ in 0..3 {
        let (others, answers) = made(lab, words, &order);
        assert!(others == after, "{}: other words by {order:?}", lab.place);
        for (m, answer) in order.iter().zip(&answers) {
            assert_eq!(*answer, at_start[m], "{}: {m:?}", lab.place);
        }
        assert_eq!(handed_out(&order, &answers), handed_out(moves, &first));
        shuffle(random, &mut order);
    }
    after
}

/// Lists of moves that are each permitted at the start, by what their numbers
/// show.
pub fn lists(lab: &mut Lab) {
    let mut random = Random::new(31);
    let (mut long, mut joined, mut deliveries) = (0, 0, 0);
    for round in 0..360 {
        lab.place = format!("moves together, round {round}");
        let most = random.pick(&[2, 3, 4]);
        let shape = Shape::in_round(round, &mut random, most);
        let fill = random.pick(&FILLS[1..]);
        let mut words = network(&mut random, &shape, fill);
        for _ in 0..random.below(4) {
            words.push(random.number());
        }
        let mut moves = permitted(lab, &words);
        shuffle(&mut random, &mut moves);
        let most = random.pick(&[0, 1, 2, 8, 30, 30, 60]);
        let list = chosen(&moves, most);
        assert!(apart(&shape, &list), "{}: {list:?}", lab.place);
        in_any_order(lab, &mut random, &words, &list);
        long += u64::from(list.len() >= 30);
        joined += u64::from(!queues_differ(&shape, &list));
        deliveries += u64::from(list.iter().filter(|m| m.2 == 0).count() > 1);
    }
    println!("moves together: {long} lists of 30 or more, {joined} with a target that is a source, {deliveries} with two deliveries");
    assert!(long > 40 && joined > 40 && deliveries > 40);
}

/// Networks of packets that have all arrived, no two in one queue: the list of
/// their deliveries empties them. Some packets are equal.
pub fn emptied(lab: &mut Lab) {
    let mut random = Random::new(32);
    for (round, sides) in SIDES.iter().cycle().take(48).enumerate() {
        lab.place = format!("emptied together, round {round}");
        let shape = Shape::with_sides(&mut random, *sides);
        let mut words = make(lab, shape);
        for node in 0..shape.nodes() {
            for queue in 0..QUEUES {
                // A queue along a dimension of one node holds nothing.
                let nobody = queue > 0 && shape.sides[way(queue).0] == 1;
                if nobody || random.chance(1, 3) {
                    continue;
                }
                let (tag, chunks) = (random.below(2), random.between(1, 8));
                let packet = packet_word(tag, chunks, node, [0; 3]);
                put_newest(&mut words, &shape, node, queue, packet);
                words[ACCEPTED] += 1;
            }
        }
        let mut list = permitted(lab, &words);
        assert_eq!(list.len() as u64, words[ACCEPTED]);
        assert!(queues_differ(&shape, &list) && list.iter().all(|m| m.2 == 0));
        shuffle(&mut random, &mut list);
        let after = in_any_order(lab, &mut random, &words, &list);
        let mut empty = make(lab, shape);
        empty[ACCEPTED..ACCEPTED + 3].fill(list.len() as u64);
        assert_eq!(after, empty);
    }
}

/// Pairs of permitted moves of small networks. Those that are apart have one end;
/// of the others, those with one source and those with one target, some end
/// in other words, each order being permitted, and some are refused.
pub fn pairs(lab: &mut Lab) {
    let mut random = Random::new(33);
    let mut differ = [0, 0];
    let mut refused = [0, 0];
    for round in 0..90 {
        lab.place = format!("pairs of moves, round {round}");
        // Short queues, so that many are nearly full.
        let shape = Shape {
            e: random.between(2, 3),
            a: random.between(1, 2),
            ..Shape::in_round(round, &mut random, 3)
        };
        let fill = random.pick(&[Fill::Sparse, Fill::Half, Fill::Mixed, Fill::Full]);
        let words = network(&mut random, &shape, fill);
        let mut moves = permitted(lab, &words);
        shuffle(&mut random, &mut moves);
        moves.truncate(60);
        for (place, a) in moves.iter().enumerate() {
            for b in &moves[place + 1..] {
                let pair = [*a, *b];
                assert_eq!(apart(&shape, &pair), lines_apart(&pair));
                if apart(&shape, &pair) {
                    // There are many of these.
                    if random.chance(1, 20) {
                        in_any_order(lab, &mut random, &words, &pair);
                    }
                    continue;
                }
                let (after, forth) = made(lab, &words, &pair);
                let (others, back) = made(lab, &words, &[*b, *a]);
                let kind = usize::from(sources_differ(&pair));
                let all_made = forth.iter().chain(&back).all(|a| a.refusal == 0);
                differ[kind] += u64::from(all_made && after != others);
                refused[kind] += u64::from(!all_made);
            }
        }
    }
    println!("pairs that are not apart: one source {} differ and {} are refused, one target {} differ and {} are refused", differ[0], refused[0], differ[1], refused[1]);
    assert!(differ.iter().chain(&refused).all(|many| *many > 10));
}

/// R389 to R394.
pub fn kept(lab: &mut Lab) {
    let cases: [crate::Part; 6] = [
        ("two moves together", two_moves),
        ("two deliveries at one node", two_deliveries),
        ("a target that is a source", target_is_source),
        ("one target", one_target),
        ("one source", one_source),
        ("two entries into one ring", two_entries),
    ];
    for (name, case) in cases {
        lab.place = name.into();
        case(lab);
    }
}

/// Four nodes in a row, and the fewest slots.
const RING: Shape = Shape::new(4, 1, 1, 2, 1, 1);

/// A packet of so many chunks with hops along x.
fn along_x(chunks: u64, tag: u64, to: u64, dx: i64) -> u64 {
    packet_word(tag, chunks, to, [dx, 0, 0])
}

/// An empty network of this shape with these packets put in: node, queue, word.
fn holding(lab: &mut Lab, shape: &Shape, packets: &[(u64, usize, u64)]) -> Vec<u64> {
    let mut words = make(lab, *shape);
    for (node, queue, packet) in packets {
        put_newest(&mut words, shape, *node, *queue, *packet);
        words[ACCEPTED] += 1;
    }
    words
}

fn held(shape: &Shape, words: &[u64], node: u64, queue: usize) -> Vec<u64> {
    let at = shape.count_word(node, queue);
    words[at + 1..][..words[at] as usize].to_vec()
}

/// Whether all queues differ, the sources, and the targets.
fn conditions(shape: &Shape, pair: &[Named]) -> (bool, bool, bool) {
    (
        queues_differ(shape, pair),
        sources_differ(pair),
        targets_differ(shape, pair),
    )
}

/// The words after a list of moves, whatever their order.
fn after_all(lab: &mut Lab, words: &[u64], moves: &[Named]) -> Vec<u64> {
    in_any_order(lab, &mut Random::new(34), words, moves)
}

fn two_moves(lab: &mut Lab) {
    let pair = [(0, 0, 1), (2, 0, 1)];
    assert_eq!(conditions(&RING, &pair), (true, true, true));
    let packets = [(0, 0, along_x(1, 1, 1, 1)), (2, 0, along_x(1, 2, 3, 1))];
    let mut words = holding(lab, &RING, &packets);
    words.extend([7, 9]);
    let after = after_all(lab, &words, &pair);
    assert_eq!(held(&RING, &after, 1, 1), [4295032832]);
    assert_eq!(held(&RING, &after, 3, 1), [8590131200]);
    assert_eq!(after[after.len() - 2..], [7, 9]);
}

fn two_deliveries(lab: &mut Lab) {
    let pair = [(1, 0, 0), (1, 1, 0)];
    assert_eq!(conditions(&RING, &pair), (true, true, true));
    let packets = [
        (1, 0, along_x(1, 1, 1, 0)),
        (1, 1, along_x(1, 2, 1, 0)),
        (0, 0, along_x(1, 3, 2, 2)),
    ];
    let words = holding(lab, &RING, &packets[..2]);
    after_all(lab, &words, &pair);
    let (_, answers) = made(lab, &words, &pair);
    assert_eq!(answers[0].out[..2], [1, 4295032832]);
    assert_eq!(answers[1].out[..2], [1, 8590000128]);
    let words = holding(lab, &RING, &packets);
    let after = after_all(lab, &words, &[(0, 0, 1), pair[0], pair[1]]);
    assert_eq!(held(&RING, &after, 1, 1), [12885033984]);
}

fn target_is_source(lab: &mut Lab) {
    let pair = [(0, 0, 1), (1, 1, 1)];
    assert_eq!(conditions(&RING, &pair), (false, true, true));
    let packets = |chunks| {
        let first = (0, 0, along_x(chunks, 1, 2, 2));
        [first, (1, 1, along_x(chunks, 2, 2, 1))]
    };
    let words = holding(lab, &RING, &packets(1));
    let after = after_all(lab, &words, &pair);
    assert_eq!(held(&RING, &after, 1, 1), [4295099392]);
    assert_eq!(held(&RING, &after, 2, 1), [8590065664]);
    let words = holding(lab, &RING, &packets(8));
    assert_eq!(lab.try_out(&words, call(pair[0])), 11);
}

fn one_target(lab: &mut Lab) {
    let pair = [(0, 0, 1), (0, 1, 1)];
    assert_eq!(conditions(&RING, &pair), (false, true, false));
    let packets = |chunks| {
        let first = (0, 0, along_x(chunks, 1, 1, 1));
        [first, (0, 1, along_x(chunks, 2, 1, 1))]
    };
    let (few, many) = (
        holding(lab, &RING, &packets(1)),
        holding(lab, &RING, &packets(8)),
    );
    for (order, arrived) in [
        (pair, [4295032832, 8590000128]),
        ([pair[1], pair[0]], [8590000128, 4295032832]),
    ] {
        let (after, _) = made(lab, &few, &order);
        assert_eq!(held(&RING, &after, 1, 1), arrived);
        let (_, answers) = made(lab, &many, &order);
        assert_eq!((answers[0].refusal, answers[1].refusal), (0, 11));
    }
}

fn one_source(lab: &mut Lab) {
    let square = Shape::new(4, 4, 1, 2, 1, 2);
    let pair = [(0, 0, 1), (0, 0, 3)];
    assert_eq!(conditions(&square, &pair), (false, false, true));
    let packets = [1, 2].map(|tag| (0, 0, packet_word(tag, 1, 5, [1, 1, 0])));
    let words = holding(lab, &square, &packets);
    for (order, arrived) in [
        (pair, [4295295008, 8590263296]),
        ([pair[1], pair[0]], [8590262304, 4295296000]),
    ] {
        let (after, _) = made(lab, &words, &order);
        assert_eq!(held(&square, &after, 1, 1), [arrived[0]]);
        assert_eq!(held(&square, &after, 4, 3), [arrived[1]]);
    }
}

fn two_entries(lab: &mut Lab) {
    let pair = [(0, 0, 7), (2, 0, 7)];
    assert_eq!(conditions(&RING, &pair), (true, true, true));
    let mut packets = vec![(0, 0, along_x(1, 1, 1, 1)), (2, 0, along_x(1, 2, 3, 1))];
    for (node, tag) in [(0, 3), (0, 4), (2, 5), (2, 6)] {
        packets.push((node, FIRST_ESCAPE, along_x(1, tag, node + 1, 1)));
    }
    let words = holding(lab, &RING, &packets);
    let after = after_all(lab, &words, &pair);
    assert_eq!(held(&RING, &after, 1, FIRST_ESCAPE), [4295032832]);
    assert_eq!(held(&RING, &after, 3, FIRST_ESCAPE), [8590131200]);
    lab.passes_and_can_move(&after);
}
