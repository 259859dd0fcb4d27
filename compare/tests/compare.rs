//! Compares every implementation with the model, call by call and word by
//! word, and checks the equations of demand 3 on every run of moves. The seeds
//! are fixed; the counts are printed; every refusal that a call can give must be
//! seen.

#[path = "compare/chunks.rs"]
mod chunks;
#[path = "compare/drains.rs"]
mod drains;
#[path = "compare/kept.rs"]
mod kept;
#[path = "compare/routes.rs"]
mod routes;
#[path = "compare/together.rs"]
mod together;
#[path = "compare/wave.rs"]
mod wave;

use compare::bench::Call;
use compare::damage::{one_word, Fault, FAULTS};
use compare::generate::{any_call, any_drain, any_move, any_sizes, end_node, hostile};
use compare::generate::{network, packet_word, Fill, Shape, ACCEPTED, BIT_15, BIT_31};
use compare::generate::{DELIVERED, DIMENSIONS, FILLS, HEADER, MOST_CHUNKS, MOVES, OFFSETS};
use compare::generate::{QUEUES, SIDES};
use compare::lab::{Lab, REFUSALS};
use compare::random::Random;
use std::time::Instant;

/// A name and what to compare under it.
type Part = (&'static str, fn(&mut Lab));

fn main() {
    let start = Instant::now();
    let mut lab = Lab::new();
    println!("compared: {}", lab.names().join("; "));
    let parts: [Part; 29] = [
        ("kept cases and listing", kept::all),
        ("chunks", chunks::all),
        ("the table of routes", routes::every_case),
        ("stores of 0 to 8 words", tiny_stores),
        ("stores too short and too long", short_and_long),
        ("every number on small networks", every_number),
        ("every offset", every_offset),
        ("networks never reached", never_reached),
        ("one word damaged", damaged),
        ("one clause broken", broken_clauses),
        ("the largest networks", largest),
        ("lists of calls", lists_of_calls),
        ("drains move by move", drains::move_by_move),
        ("full drains", drains::full),
        ("drains of the largest", drains::largest),
        ("the largest emptied", drains::largest_emptied),
        ("kept cases of moves in any order", together::kept),
        ("pairs of moves", together::pairs),
        ("moves in any order", together::lists),
        ("emptied in any order", together::emptied),
        ("a dump spelt out", wave::spelt_out),
        ("a queue of 64", wave::sixty_four),
        ("dumps written and read", wave::dumps),
        ("the largest dump", wave::largest_dump),
        ("dumps of bad words", wave::bad_words),
        ("every byte of small steps", wave::every_byte),
        ("every short text", wave::every_short_text),
        ("limits of steps", wave::limits),
        ("lines of steps", wave::lines_of_steps),
    ];
    for (name, part) in parts {
        let (from, before) = (Instant::now(), lab.counts.clone());
        part(&mut lab);
        println!(
            "{name}: {} calls, {} runs, {:.1} s",
            lab.counts.calls - before.calls,
            lab.counts.runs - before.runs,
            from.elapsed().as_secs_f64()
        );
    }
    let counts = &lab.counts;
    println!(
        "in all: {} calls, {} runs with {} moves and {} packets handed out, {:.1} s",
        counts.calls,
        counts.runs,
        counts.moves,
        counts.handed_out,
        start.elapsed().as_secs_f64()
    );
    println!("not refused: {}", counts.refusals[0]);
    for number in REFUSALS {
        let seen = counts.refusals[number as usize];
        println!("refusal {number}: {seen}");
        assert!(seen > 0, "refusal {number} was never seen");
    }
}

/// One call of each kind with small numbers.
fn each_call(nodes: u64) -> [Call; 8] {
    let node = nodes.saturating_sub(1);
    [
        Call::Make {
            sizes: [1, 1, 1, 2, 1, 1],
        },
        Call::Check,
        Call::Offer {
            node: 0,
            destination: node,
            tag: 9,
            chunks: 3,
        },
        Call::Move {
            node: 0,
            queue: 0,
            output: 0,
        },
        Call::Credit { node, output: 7 },
        Call::Look { node, queue: 12 },
        Call::First,
        Call::Drain {
            budget: 3,
            ledger: 2,
        },
    ]
}

fn tiny_stores(lab: &mut Lab) {
    let mut random = Random::new(1);
    for len in 0..HEADER {
        for fill in [0, 1, 2, u64::MAX] {
            lab.place = format!("{len} words of {fill}");
            for call in each_call(1) {
                assert_eq!(lab.try_out(&vec![fill; len], call), 1);
            }
            // Wrong sizes come before the short store in Make only.
            let sizes = [0, 1, 1, 2, 1, 1];
            assert_eq!(lab.try_out(&vec![fill; len], Call::Make { sizes }), 2);
            for _ in 0..20 {
                let words = vec![fill; len];
                let call = any_call(&mut random, &words);
                assert_eq!(lab.try_out(&words, call), 1);
            }
        }
    }
}

fn short_and_long(lab: &mut Lab) {
    let mut random = Random::new(2);
    for round in 0..400 {
        lab.place = format!("short and long, round {round}");
        let shape = Shape::in_round(round, &mut random, 5);
        let fill = random.pick(&FILLS);
        let mut words = network(&mut random, &shape, fill);
        let mut calls = each_call(shape.nodes()).to_vec();
        calls[0] = Call::Make {
            sizes: shape.sizes(),
        };
        for call in &calls {
            assert_eq!(lab.try_out(&words[..shape.need() - 1], *call), 1);
            let len = random.between(HEADER as u64, shape.need() as u64 - 1) as usize;
            assert_eq!(lab.try_out(&words[..len], *call), 1);
        }
        // Wrong sizes come before the need, and the need before the check.
        words[HEADER] = u64::MAX;
        assert_eq!(lab.try_out(&words[..shape.need() - 1], Call::Check), 1);
        words[HEADER] = network(&mut random, &shape, Fill::Empty)[HEADER];
        let which = random.below(6) as usize;
        let kept = std::mem::replace(&mut words[which], hostile(&mut random, 1 << 20) | 1 << 30);
        assert_eq!(lab.try_out(&words[..=HEADER], Call::Check), 2);
        words[which] = kept;
        for _ in 0..random.below(40) {
            words.push(random.number());
        }
        for call in &calls[1..] {
            lab.call(&mut words, *call);
        }
        lab.call(&mut words, calls[0]);
    }
}

fn every_number(lab: &mut Lab) {
    let mut random = Random::new(3);
    for round in 0..45 {
        lab.place = format!("every number, round {round}");
        let shape = Shape {
            e: random.between(2, 3),
            a: random.between(1, 2),
            j: random.between(1, 2),
            ..Shape::in_round(round, &mut random, 3)
        };
        // More nodes would take long, and show no more.
        if shape.nodes() > 18 {
            continue;
        }
        let fill = random.pick(&[Fill::Mixed, Fill::Half, Fill::Full, Fill::Mixed]);
        let mut words = network(&mut random, &shape, fill);
        for node in 0..=shape.nodes() {
            for queue in 0..=QUEUES as u64 {
                lab.call(&mut words, Call::Look { node, queue });
                lab.call(
                    &mut words,
                    Call::Credit {
                        node,
                        output: queue,
                    },
                );
                for output in 0..=QUEUES as u64 {
                    let call = Call::Move {
                        node,
                        queue,
                        output,
                    };
                    lab.try_out(&words, call);
                }
            }
            for destination in 0..=shape.nodes() {
                let call = Call::Offer {
                    node,
                    destination,
                    tag: random.number() as u32,
                    chunks: random.below(10),
                };
                lab.try_out(&words, call);
            }
        }
    }
}

/// One packet with every offset, at its right destination, with bit 15 or bit 31
/// and without them.
fn every_offset(lab: &mut Lab) {
    let mut random = Random::new(4);
    for sides in SIDES {
        let shape = Shape::of(sides, [2, 1, 1]);
        lab.place = format!("every offset, {sides:?}");
        for queue in 0..QUEUES {
            let mut words = network(&mut random, &shape, Fill::Empty);
            words[ACCEPTED] = 20;
            words[DELIVERED] = 19;
            words[MOVES] = 0;
            let node = random.below(shape.nodes());
            let at = shape.count_word(node, queue);
            words[at] = 1;
            for bits in 0..=OFFSETS | BIT_15 {
                let offsets = [bits >> 10, bits >> 5, bits].map(|b| (b & 31) as i64);
                let offsets = offsets.map(|b| if b < 16 { b } else { b - 32 });
                // Every one where the two others are small, with a spare bit those
                // where all are, and some besides.
                let large = offsets.iter().filter(|offset| offset.abs() > 1).count();
                let most = if bits & BIT_15 == 0 { 1 } else { 0 };
                if large > most && bits % 257 != 0 {
                    continue;
                }
                let end = end_node(&shape, node, offsets);
                let spare = match bits & BIT_15 {
                    0 => 0,
                    _ => random.pick(&[BIT_15, BIT_31]),
                };
                let chunks = random.between(1, MOST_CHUNKS);
                words[at + 1] = packet_word(77, chunks, end, offsets) | spare;
                let refusal = lab.call(&mut words, Call::Check).refusal;
                assert!(spare == 0 || refusal == 3, "{}: {spare:x}", lab.place);
            }
        }
    }
}

fn random_run(lab: &mut Lab, random: &mut Random, words: &mut Vec<u64>, calls: u64) {
    let nodes = words[..DIMENSIONS].iter().product();
    let mut left = random.below(calls + 1);
    lab.run(words, |now| {
        if left == 0 {
            return None;
        }
        left -= 1;
        Some(if random.chance(1, 12) {
            any_drain(random)
        } else {
            any_move(random, nodes, now)
        })
    });
}

fn never_reached(lab: &mut Lab) {
    let mut random = Random::new(5);
    for round in 0..1500 {
        lab.place = format!("never reached, round {round}");
        let most = match round {
            999 => 16,
            _ if round % 100 == 99 => 8,
            _ => random.pick(&[2, 3, 4]),
        };
        let shape = Shape::in_round(round, &mut random, most);
        let fill = random.pick(&FILLS);
        let mut words = network(&mut random, &shape, fill);
        for _ in 0..random.below(6) {
            words.push(random.number());
        }
        assert_eq!(lab.try_out(&words, Call::Check), 0, "{shape:?} {fill:?}");
        lab.passes_and_can_move(&words);
        for _ in 0..6 {
            let call = any_call(&mut random, &words);
            lab.call(&mut words, call);
        }
        random_run(lab, &mut random, &mut words, 40);
    }
}

fn damaged(lab: &mut Lab) {
    let mut random = Random::new(6);
    for round in 0..12_000 {
        lab.place = format!("one word damaged, round {round}");
        let most = if round % 400 == 399 {
            8
        } else {
            random.pick(&[1, 2, 3])
        };
        let shape = Shape::in_round(round, &mut random, most);
        let fill = random.pick(&FILLS);
        let mut words = network(&mut random, &shape, fill);
        one_word(&mut random, &shape, &mut words);
        lab.call(&mut words, Call::Check);
        for _ in 0..3 {
            let call = any_call(&mut random, &words);
            lab.call(&mut words, call);
        }
    }
}

/// Networks of 4,096 nodes and of nearly as many: some calls, and each clause
/// broken once.
fn largest(lab: &mut Lab) {
    let mut random = Random::new(19);
    let sides = [[16, 16, 16], [15, 16, 16], [16, 15, 16], [16, 16, 15]];
    for (fault, sides) in FAULTS.iter().zip(sides.into_iter().cycle()) {
        lab.place = format!("{sides:?}, {}", fault.name);
        let shape = Shape::of(sides, [2, 1, 1]);
        let fill = random.pick(&[Fill::Rare, Fill::Sparse, Fill::Mixed]);
        let mut words = network(&mut random, &shape, fill);
        if random.chance(1, 3) {
            lab.passes_and_can_move(&words);
        }
        for _ in 0..2 {
            let call = match any_call(&mut random, &words) {
                // Drains have a part of their own.
                Call::Drain { .. } => any_move(&mut random, shape.nodes(), &words),
                call => call,
            };
            lab.call(&mut words, call);
        }
        while !(fault.apply)(&mut random, &shape, &mut words) {}
        let wanted = refusal_of(fault);
        assert_eq!(lab.try_out(&words, Call::Check), wanted, "{}", fault.name);
    }
}

/// What the check says of words with this fault.
fn refusal_of(fault: &Fault) -> u64 {
    if fault.name == "wrong sizes" {
        2
    } else {
        3
    }
}

fn broken_clauses(lab: &mut Lab) {
    let mut random = Random::new(7);
    for fault in &FAULTS {
        let mut broken = 0;
        while broken < 300 {
            lab.place = format!("{}, after {broken}", fault.name);
            let most = random.pick(&[2, 3, 4]);
            let shape = Shape::random(&mut random, most);
            let fill = random.pick(&FILLS[1..]);
            let mut words = network(&mut random, &shape, fill);
            if !(fault.apply)(&mut random, &shape, &mut words) {
                continue;
            }
            broken += 1;
            let wanted = refusal_of(fault);
            assert_eq!(lab.try_out(&words, Call::Check), wanted, "{}", fault.name);
            for call in &each_call(shape.nodes())[2..] {
                assert_eq!(lab.try_out(&words, *call), wanted);
            }
            // Make turns everything into a network.
            let sizes = shape.sizes();
            assert_eq!(lab.call(&mut words, Call::Make { sizes }).refusal, 0);
        }
    }
}

fn lists_of_calls(lab: &mut Lab) {
    let mut random = Random::new(8);
    for round in 0..2500 {
        lab.place = format!("list of calls, round {round}");
        let most = random.pick(&[1, 2, 3, 4]);
        let len = random.pick(&[0, 5, 83, 200, 897, 2500, 5000, 8000]);
        let mut words: Vec<u64> = (0..len).map(|_| random.number()).collect();
        for _ in 0..random.below(80) {
            let in_vain = words.iter().take(DIMENSIONS).any(|side| *side > 16);
            let call = if random.chance(1, 20) || in_vain {
                Call::Make {
                    sizes: any_sizes(&mut random, most),
                }
            } else {
                any_call(&mut random, &words)
            };
            lab.call(&mut words, call);
            // Now and then the counters come close to their limits.
            if random.chance(1, 60) && lab.try_out(&words, Call::Check) == 0 {
                let limit = u64::from(u32::MAX) - random.below(4);
                let room = limit.saturating_sub(words[ACCEPTED]);
                words[ACCEPTED] += room;
                words[DELIVERED] += room;
                assert_eq!(lab.try_out(&words, Call::Check), 0);
            }
        }
        if lab.try_out(&words, Call::Check) == 0 {
            random_run(lab, &mut random, &mut words, 30);
        }
    }
}
