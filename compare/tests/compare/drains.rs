//! Drains: each is the moves of First, one by one, and all of them empty the
//! fullest networks.

use compare::bench::Call;
use compare::generate::{network, network_of, Chunks, Fill, Shape};
use compare::generate::{ACCEPTED, DELIVERED, FILLS, SIDES};
use compare::lab::Lab;
use compare::random::Random;

/// A Drain does what First and Move do in turn.
pub fn move_by_move(lab: &mut Lab) {
    let mut random = Random::new(9);
    for round in 0..250 {
        lab.place = format!("drain by moves, round {round}");
        let most = random.pick(&[2, 2, 3]);
        let shape = Shape::in_round(round, &mut random, most);
        let fill = random.pick(&FILLS);
        let words = network(&mut random, &shape, fill);
        for _ in 0..3 {
            let budget = random.pick(&[0, 1, 10, 100, 1000, u32::MAX]);
            let room = random.pick(&[0, 1, 10, 100, 4000]);
            lab.drain_is_moves_of_first(&words, budget, room);
        }
    }
}

const MOST_SLOTS: [u64; 3] = [8, 8, 8];
const SOME_SLOTS: [u64; 3] = [5, 2, 4];
const FEWEST_SLOTS: [u64; 3] = [2, 1, 1];

/// Networks that are as full as the check allows, emptied.
pub fn full(lab: &mut Lab) {
    let mut random = Random::new(10);
    let long = [[16, 1, 1], [1, 16, 1], [1, 1, 16]];
    for sides in SIDES.into_iter().chain(long) {
        // 64 packets in each adaptive queue of many nodes would take long.
        let nodes: u64 = sides.iter().product();
        let most = if nodes > 8 { SOME_SLOTS } else { MOST_SLOTS };
        for slots in [most, FEWEST_SLOTS] {
            lab.place = format!("full drain, {sides:?}, {slots:?}");
            let shape = Shape::of(sides, slots);
            for chunks in [Chunks::Equal(1), Chunks::Equal(8), Chunks::Odd] {
                drain_at_once(lab, network_of(&mut random, &shape, Fill::Full, chunks));
            }
            drain_at_once(lab, network(&mut random, &shape, Fill::Mixed));
            let words = network(&mut random, &shape, Fill::Half);
            drain_in_pieces(lab, &mut random, words);
        }
    }
    // Large ones: before every move some drains search from node 0, which takes
    // long there.
    for sides in [[4, 4, 4], [16, 8, 1], [16, 1, 5], [1, 5, 16], [4, 6, 4]] {
        lab.place = format!("full drain, {sides:?}");
        let shape = Shape::of(sides, FEWEST_SLOTS);
        let words = network_of(&mut random, &shape, Fill::Full, Chunks::Mixed);
        drain_at_once(lab, words);
    }
}

/// Networks of 4,096 nodes: emptied if they hold little, and else drained for
/// a while.
pub fn largest(lab: &mut Lab) {
    let mut random = Random::new(16);
    let shape = Shape::of([16; 3], FEWEST_SLOTS);
    lab.place = "the largest, nearly empty".into();
    drain_at_once(lab, network(&mut random, &shape, Fill::Rare));
    for fill in [Fill::Sparse, Fill::Full] {
        lab.place = format!("the largest, {fill:?}");
        let mut words = network(&mut random, &shape, fill);
        let mut drains = [(700, 700), (u32::MAX, 150), (0, 0)].into_iter();
        lab.run(&mut words, |_| {
            let (budget, ledger) = drains.next()?;
            Some(Call::Drain { budget, ledger })
        });
    }
}

/// The fullest networks of 216, 512 and 4,096 nodes emptied, by those who can.
pub fn largest_emptied(lab: &mut Lab) {
    let mut random = Random::new(17);
    for (sides, slots, chunks) in [
        ([8; 3], MOST_SLOTS, Chunks::Mixed),
        ([6; 3], MOST_SLOTS, Chunks::Equal(1)),
        ([16; 3], FEWEST_SLOTS, Chunks::Odd),
    ] {
        lab.place = format!("{sides:?} with {slots:?} slots, emptied, {chunks:?}");
        let shape = Shape::of(sides, slots);
        let words = network_of(&mut random, &shape, Fill::Full, chunks);
        lab.empty_a_large_one(&words);
    }
}

fn drain_at_once(lab: &mut Lab, mut words: Vec<u64>) {
    let mut whole = Some(Call::Drain {
        budget: u32::MAX,
        ledger: words.len(),
    });
    lab.run(&mut words, |_| whole.take());
    assert_eq!(words[ACCEPTED], words[DELIVERED]);
}

/// Drains with budgets and ledgers that make them stop for every reason.
fn drain_in_pieces(lab: &mut Lab, random: &mut Random, mut words: Vec<u64>) {
    lab.run(&mut words, |now| {
        let held = now[ACCEPTED] - now[DELIVERED];
        let (budget, ledger) = match random.below(3) {
            0 => (1 + random.below(30 + 2 * held) as u32, now.len()),
            1 => (u32::MAX, 1 + random.below(10 + held / 2) as usize),
            _ => (random.below(5) as u32, random.below(3) as usize),
        };
        (held > 0).then_some(Call::Drain { budget, ledger })
    });
    assert_eq!(words[ACCEPTED], words[DELIVERED]);
}
