//! Drain, twice: with a search from node 0 before every move, and with a set
//! of the heads that may have a permitted move.

use super::check::open;
use super::first::{permitted, search, Step};
use super::{carry_out, direction_of, is_adaptive, load, load_in, Layout};
use super::{DIRECTIONS, FIRST_ESCAPE, MAX_NODES, QUEUES};
use std::array;

const EMPTIED: u64 = 0;
const SPENT: u64 = 1;
const FULL: u64 = 2;

/// The refusal, then moves, delivered, stop. Searches from node 0 every time.
pub fn drain_simple(words: &mut [u64], budget: u32, ledger: &mut [u64]) -> (u64, [u64; 3]) {
    match open(words) {
        Err(refusal) => (refusal, [0; 3]),
        Ok((_, 0)) => (0, [0, 0, EMPTIED]),
        Ok((layout, held)) => {
            let map = Map::new(layout);
            (0, run(words, &map, held, budget, ledger, FromNodeZero))
        }
    }
}

/// The refusal, then moves, delivered, stop. The cost of a move does not grow
/// with the network.
pub fn drain(words: &mut [u64], budget: u32, ledger: &mut [u64]) -> (u64, [u64; 3]) {
    match open(words) {
        Err(refusal) => (refusal, [0; 3]),
        Ok((_, 0)) => (0, [0, 0, EMPTIED]),
        Ok((layout, held)) => {
            let candidates = Candidates::all(layout.nodes());
            let map = Map::new(layout);
            (0, run(words, &map, held, budget, ledger, candidates))
        }
    }
}

/// A network's layout and the neighbours of each node, so that a drain does
/// not divide.
struct Map {
    layout: Layout,
    neighbours: [[u16; DIRECTIONS]; MAX_NODES],
}

impl Map {
    fn new(layout: Layout) -> Map {
        let mut neighbours = [[0; DIRECTIONS]; MAX_NODES];
        let mut node = 0;
        for z in 0..layout.side[2] {
            for y in 0..layout.side[1] {
                for x in 0..layout.side[0] {
                    let place = [x, y, z];
                    neighbours[node] = array::from_fn(|direction| {
                        layout.next_to(node, place[direction / 2], direction) as u16
                    });
                    node += 1;
                }
            }
        }
        Map { layout, neighbours }
    }

    fn neighbour(&self, node: usize, direction: usize) -> usize {
        self.neighbours[node][direction] as usize
    }

    /// The node that an output from 1 on leads to.
    fn beyond(&self, node: usize, output: usize) -> usize {
        self.neighbour(node, direction_of(output))
    }
}

/// The loads of the adaptive queues, direction by direction, so that a drain
/// does not add up what the packets of a queue take.
struct Loads([[u8; DIRECTIONS]; MAX_NODES]);

impl Loads {
    fn new(words: &[u64], layout: &Layout) -> Loads {
        let mut loads = [[0; DIRECTIONS]; MAX_NODES];
        for (node, loads) in loads.iter_mut().enumerate().take(layout.nodes()) {
            for queue in 1..FIRST_ESCAPE {
                let at = layout.at(node, queue);
                loads[queue - 1] = load(queue, &words[at..]) as u8;
            }
        }
        Loads(loads)
    }

    /// A packet has left a queue, or come into one.
    fn left(&mut self, node: usize, queue: usize, packet: u64) {
        if is_adaptive(queue) {
            self.0[node][queue - 1] -= load_in(queue, packet) as u8;
        }
    }

    fn came(&mut self, node: usize, queue: usize, packet: u64) {
        if is_adaptive(queue) {
            self.0[node][queue - 1] += load_in(queue, packet) as u8;
        }
    }
}

/// What a search sees of a network.
struct View<'a> {
    words: &'a [u64],
    map: &'a Map,
    loads: &'a Loads,
}

impl View<'_> {
    /// How much is free of the queue that an output from 1 on leads to.
    fn free(&self, node: usize, output: usize) -> usize {
        let beyond = self.map.beyond(node, output);
        let taken = if is_adaptive(output) {
            self.loads.0[beyond][output - 1] as usize
        } else {
            self.words[self.map.layout.at(beyond, output)] as usize
        };
        self.map.layout.cap[output] - taken
    }
}

/// A way to find First's move again and again.
trait Search {
    fn next(&mut self, view: View) -> Option<Step>;

    /// Told after a hop; `to` is the node of the target.
    fn hopped(&mut self, map: &Map, step: Step, to: usize);

    /// Told after a delivery.
    fn delivered(&mut self, map: &Map, step: Step);
}

/// The loop that both drains share.
fn run(
    words: &mut [u64],
    map: &Map,
    mut held: u64,
    budget: u32,
    ledger: &mut [u64],
    mut search: impl Search,
) -> [u64; 3] {
    let mut loads = Loads::new(words, &map.layout);
    let mut moves = 0;
    let mut delivered = 0;
    let stop = loop {
        if held == 0 {
            break EMPTIED;
        }
        if moves == budget {
            break SPENT;
        }
        let view = View {
            words: &*words,
            map,
            loads: &loads,
        };
        let step = search
            .next(view)
            .expect("a move is permitted while anything is held");
        let (node, queue, output) = step;
        let source = map.layout.at(node, queue);
        let head = words[source + 1];
        if output == 0 {
            let Some(place) = ledger.get_mut(delivered) else {
                break FULL;
            };
            *place = carry_out(words, source, 0, 0);
            delivered += 1;
            held -= 1;
            search.delivered(map, step);
        } else {
            let to = map.beyond(node, output);
            carry_out(words, source, output, map.layout.at(to, output));
            loads.came(to, output, head);
            search.hopped(map, step, to);
        }
        loads.left(node, queue, head);
        moves += 1;
    };
    [moves as u64, delivered as u64, stop]
}

/// The simple way: look at every node.
struct FromNodeZero;

impl Search for FromNodeZero {
    fn next(&mut self, view: View) -> Option<Step> {
        let free = |node, output| view.free(node, output);
        search(view.words, &view.map.layout, free)
    }

    fn hopped(&mut self, _: &Map, _: Step, _: usize) {}

    fn delivered(&mut self, _: &Map, _: Step) {}
}

/// The heads that may have a permitted move. A head outside the set has none:
/// it was looked at without success, and nothing it waits for became free.
struct Candidates {
    /// One bit for each group of 64 nodes that has a candidate.
    groups: u64,
    /// For each group one bit for each node that has a candidate.
    nodes: [u64; MAX_NODES / 64],
    /// For each node one bit for each queue.
    queues: [u16; MAX_NODES],
}

const ALL_QUEUES: u16 = (1 << QUEUES) - 1;

impl Candidates {
    fn all(nodes: usize) -> Candidates {
        let mut all = Candidates {
            groups: 0,
            nodes: [0; MAX_NODES / 64],
            queues: [0; MAX_NODES],
        };
        for node in 0..nodes {
            all.add(node, ALL_QUEUES);
        }
        all
    }

    fn add(&mut self, node: usize, queues: u16) {
        self.groups |= 1 << (node / 64);
        self.nodes[node / 64] |= 1 << (node % 64);
        self.queues[node] |= queues;
    }

    fn remove(&mut self, node: usize, queue: usize) {
        self.queues[node] &= !(1 << queue);
        if self.queues[node] != 0 {
            return;
        }
        self.nodes[node / 64] &= !(1 << (node % 64));
        if self.nodes[node / 64] == 0 {
            self.groups &= !(1 << (node / 64));
        }
    }

    /// The first candidate by node and queue.
    fn lowest(&self) -> Option<(usize, usize)> {
        if self.groups == 0 {
            return None;
        }
        let group = self.groups.trailing_zeros() as usize;
        let node = 64 * group + self.nodes[group].trailing_zeros() as usize;
        let queue = self.queues[node].trailing_zeros() as usize;
        Some((node, queue))
    }

    /// The source has a new head, and more of it is free: it is a target for the
    /// heads of the node behind it, seen in its direction.
    fn left(&mut self, map: &Map, node: usize, queue: usize) {
        self.add(node, 1 << queue);
        if queue != 0 {
            let backwards = direction_of(queue) ^ 1;
            self.add(map.neighbour(node, backwards), ALL_QUEUES);
        }
    }
}

impl Search for Candidates {
    fn next(&mut self, view: View) -> Option<Step> {
        let free = |node, output| view.free(node, output);
        loop {
            let (node, queue) = self.lowest()?;
            if let Some(output) = permitted(view.words, &view.map.layout, free, node, queue) {
                return Some((node, queue, output));
            }
            self.remove(node, queue);
        }
    }

    fn hopped(&mut self, map: &Map, (node, queue, output): Step, to: usize) {
        self.left(map, node, queue);
        self.add(to, 1 << output);
    }

    fn delivered(&mut self, map: &Map, (node, queue, _): Step) {
        self.left(map, node, queue);
    }
}
