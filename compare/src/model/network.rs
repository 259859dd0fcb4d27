//! The network as objects: packets in queues, queues in nodes, and the rules
//! of routing and flow. Nothing here knows how the words look.

use super::geometry::{Direction, Torus, DIMENSIONS, DIRECTIONS};
use super::Refusal;
use std::cell::OnceCell;
use std::collections::VecDeque;
use std::iter;

/// A packet on its way. The offsets are the hops left, positive for plus.
#[derive(Clone, Debug, PartialEq, Eq)]
pub struct Packet {
    pub tag: u32,
    /// 1 to 8.
    pub chunks: usize,
    pub destination: usize,
    pub offsets: [i32; DIMENSIONS],
}

impl Packet {
    /// The moves that this packet still takes: its hops, and the delivery.
    pub fn work(&self) -> u64 {
        self.offsets
            .iter()
            .map(|o| o.unsigned_abs() as u64)
            .sum::<u64>()
            + 1
    }

    /// Where the packet wants to go in a dimension; the sign gives the direction.
    fn wants(&self, dimension: usize) -> Option<Direction> {
        match self.offsets[dimension] {
            0 => None,
            offset => Some(Direction::along(dimension, offset > 0)),
        }
    }

    /// The packet one hop further in this direction.
    fn after_hop(mut self, direction: Direction) -> Packet {
        let hop = direction.hop();
        for (offset, covered) in self.offsets.iter_mut().zip(hop) {
            *offset -= covered;
        }
        self
    }
}

/// What a queue is for. The numbers 0 to 12 are those of R32 to R34.
#[derive(Clone, Copy, Debug, PartialEq, Eq)]
pub enum Kind {
    Injection,
    Adaptive(Direction),
    Escape(Direction),
}

pub const QUEUES: usize = 1 + 2 * DIRECTIONS.len();

impl Kind {
    pub fn of(queue: usize) -> Kind {
        let ways = DIRECTIONS.len();
        match queue {
            0 => Kind::Injection,
            q if q <= ways => Kind::Adaptive(DIRECTIONS[q - 1]),
            q => Kind::Escape(DIRECTIONS[q - 1 - ways]),
        }
    }

    pub fn number(self) -> usize {
        match self {
            Kind::Injection => 0,
            Kind::Adaptive(direction) => 1 + direction.index(),
            Kind::Escape(direction) => 1 + DIRECTIONS.len() + direction.index(),
        }
    }

    pub fn direction(self) -> Option<Direction> {
        match self {
            Kind::Injection => None,
            Kind::Adaptive(direction) | Kind::Escape(direction) => Some(direction),
        }
    }

    /// The chunks that a packet takes of a queue of this kind: in an adaptive queue
    /// its own, in every other it counts as if it had all eight.
    fn chunks_of(self, packet: &Packet) -> usize {
        match self {
            Kind::Adaptive(_) => packet.chunks,
            Kind::Injection | Kind::Escape(_) => MOST_CHUNKS,
        }
    }
}

/// Where a head may go: out of the network, or to a neighbour's queue.
#[derive(Clone, Copy, Debug, PartialEq, Eq)]
pub enum Output {
    Delivery,
    Adaptive(Direction),
    Escape(Direction),
}

impl Output {
    pub fn of(output: usize) -> Output {
        match (output, Kind::of(output)) {
            (0, _) => Output::Delivery,
            (_, Kind::Adaptive(direction)) => Output::Adaptive(direction),
            (_, Kind::Escape(direction)) => Output::Escape(direction),
            (_, Kind::Injection) => unreachable!(),
        }
    }

    pub fn number(self) -> usize {
        match self {
            Output::Delivery => 0,
            Output::Adaptive(direction) => Kind::Adaptive(direction).number(),
            Output::Escape(direction) => Kind::Escape(direction).number(),
        }
    }
}

/// The routes of a head that stands in a queue of this kind, in the order of
/// the paper's selection function: adaptive along the incoming dimension, then
/// along the others, and last the escape of the first dimension with hops left.
/// A head that has none left is delivered.
pub fn routes(kind: Kind, head: &Packet) -> impl Iterator<Item = Output> + '_ {
    // The injection queue has no incoming dimension; x counts as such.
    let incoming = kind.direction().map_or(0, Direction::dimension);
    let others = (0..DIMENSIONS).filter(move |dimension| *dimension != incoming);
    let adaptive = iter::once(incoming)
        .chain(others)
        .filter_map(|dimension| head.wants(dimension))
        .map(Output::Adaptive);
    let escape = (0..DIMENSIONS).find_map(|dimension| head.wants(dimension));
    adaptive.chain(iter::once(escape.map_or(Output::Delivery, Output::Escape)))
}

/// The chunks of the largest packet, which are those of a slot too: a slot has
/// room for any packet.
pub const MOST_CHUNKS: usize = 8;

/// Slots of each kind of queue, E, A and J, the same at every node.
#[derive(Clone, Copy, Debug, PartialEq, Eq)]
pub struct Capacities {
    pub escape: usize,
    pub adaptive: usize,
    pub injection: usize,
}

impl Capacities {
    fn slots(&self, kind: Kind) -> usize {
        match kind {
            Kind::Injection => self.injection,
            Kind::Adaptive(_) => self.adaptive,
            Kind::Escape(_) => self.escape,
        }
    }

    /// The chunks that a queue has room for. Every queue is counted in chunks
    /// here, so that there is one rule of flow.
    pub fn chunks(&self, kind: Kind) -> usize {
        MOST_CHUNKS * self.slots(kind)
    }

    /// The words of a queue for packets: as many as the most packets that it can
    /// hold, which in an adaptive queue are packets of one chunk.
    pub fn words(&self, kind: Kind) -> usize {
        match kind {
            Kind::Adaptive(_) => self.chunks(kind),
            _ => self.slots(kind),
        }
    }
}

/// One node: its queues, oldest packet at the front.
#[derive(Clone, Debug, Default, PartialEq, Eq)]
pub struct Node {
    pub queues: [VecDeque<Packet>; QUEUES],
}

/// A move by its three numbers.
#[derive(Clone, Copy, Debug, PartialEq, Eq)]
pub struct Step {
    pub node: usize,
    pub queue: usize,
    pub output: usize,
}

/// The whole network.
#[derive(Clone, Debug, PartialEq, Eq)]
pub struct Network {
    pub torus: Torus,
    pub capacities: Capacities,
    pub accepted: u64,
    pub delivered: u64,
    pub moves: u64,
    pub nodes: Vec<Node>,
    /// The neighbours of each node in the order of `DIRECTIONS`, worked out when
    /// one is first asked for.
    neighbours: OnceCell<Vec<[usize; DIRECTIONS.len()]>>,
}

impl Network {
    pub fn empty(torus: Torus, capacities: Capacities) -> Network {
        Network {
            torus,
            capacities,
            accepted: 0,
            delivered: 0,
            moves: 0,
            nodes: iter::repeat_with(Node::default)
                .take(torus.nodes())
                .collect(),
            neighbours: OnceCell::new(),
        }
    }

    fn neighbour(&self, node: usize, direction: Direction) -> usize {
        let of_node = |node| DIRECTIONS.map(|direction| self.torus.neighbour(node, direction));
        let all = || (0..self.torus.nodes()).map(of_node).collect();
        self.neighbours.get_or_init(all)[node][direction.index()]
    }

    /// Every packet with its node and the kind of its queue.
    pub fn packets(&self) -> impl Iterator<Item = (usize, Kind, &Packet)> {
        self.nodes.iter().enumerate().flat_map(|(node, n)| {
            n.queues.iter().enumerate().flat_map(move |(queue, q)| {
                let kind = Kind::of(queue);
                q.iter().map(move |packet| (node, kind, packet))
            })
        })
    }

    /// The chunks of a queue that its packets take.
    pub fn taken(&self, node: usize, kind: Kind) -> usize {
        let packets = self.nodes[node].queues[kind.number()].iter();
        packets.map(|packet| kind.chunks_of(packet)).sum()
    }

    /// The chunks of a queue that are free. In a network no queue has taken more
    /// than it has.
    pub fn free(&self, node: usize, kind: Kind) -> usize {
        self.capacities.chunks(kind) - self.taken(node, kind)
    }

    /// The queue that an output leads to: at the neighbour in its direction.
    pub fn target(&self, node: usize, output: Output) -> Option<(usize, Kind)> {
        match output {
            Output::Delivery => None,
            Output::Adaptive(d) => Some((self.neighbour(node, d), Kind::Adaptive(d))),
            Output::Escape(d) => Some((self.neighbour(node, d), Kind::Escape(d))),
        }
    }

    /// Whether the target of a route has the room that the flow rule wants: 11 if
    /// the head does not fit there, 12 if it does, but would enter an escape ring
    /// and leave no slot behind it.
    fn judge_room(
        &self,
        node: usize,
        from: Kind,
        head: &Packet,
        output: Output,
    ) -> Result<(), Refusal> {
        let Some((neighbour, to)) = self.target(node, output) else {
            return Ok(());
        };
        let (free, wanted) = (self.free(neighbour, to), to.chunks_of(head));
        if free < wanted {
            return Err(Refusal::NoSlot);
        }
        let enters_ring = matches!(to, Kind::Escape(_)) && from != to;
        if enters_ring && free < wanted + MOST_CHUNKS {
            return Err(Refusal::NoBubble);
        }
        Ok(())
    }

    /// Whether a move with lawful numbers is permitted: 9, 10, 11, 12.
    pub fn judge(&self, step: Step) -> Result<(), Refusal> {
        let from = Kind::of(step.queue);
        let output = Output::of(step.output);
        let head = match self.nodes[step.node].queues[step.queue].front() {
            None => return Err(Refusal::NobodyThere),
            Some(head) => head,
        };
        if routes(from, head).all(|route| route != output) {
            return Err(Refusal::NotItsWay);
        }
        self.judge_room(step.node, from, head, output)
    }

    /// Makes a permitted move. A delivery hands out the packet.
    pub fn make(&mut self, step: Step) -> Option<Packet> {
        let head = self.nodes[step.node].queues[step.queue].pop_front();
        let head = head.expect("a permitted move has a head");
        self.moves += 1;
        match self.target(step.node, Output::of(step.output)) {
            None => {
                self.delivered += 1;
                Some(head)
            }
            Some((neighbour, to)) => {
                let direction = to.direction().expect("a target has a direction");
                let arrived = head.after_hop(direction);
                self.nodes[neighbour].queues[to.number()].push_back(arrived);
                None
            }
        }
    }

    /// R123: node by node, queue by queue, by the routes of each head.
    pub fn first(&self) -> Option<Step> {
        for (node, queues) in self.nodes.iter().map(|n| &n.queues).enumerate() {
            for (queue, packets) in queues.iter().enumerate() {
                let Some(head) = packets.front() else {
                    continue;
                };
                let from = Kind::of(queue);
                let open = |route: &Output| self.judge_room(node, from, head, *route).is_ok();
                if let Some(route) = routes(from, head).find(open) {
                    let output = route.number();
                    return Some(Step {
                        node,
                        queue,
                        output,
                    });
                }
            }
        }
        None
    }

    /// Every route of every head, permitted or not.
    pub fn routes_of_heads(&self) -> Vec<Step> {
        let mut steps = Vec::new();
        for (node, queues) in self.nodes.iter().map(|n| &n.queues).enumerate() {
            for (queue, packets) in queues.iter().enumerate() {
                if let Some(head) = packets.front() {
                    steps.extend(routes(Kind::of(queue), head).map(|route| Step {
                        node,
                        queue,
                        output: route.number(),
                    }));
                }
            }
        }
        steps
    }

    /// R101: the new packet becomes the newest of the node's queue 0.
    pub fn inject(&mut self, node: usize, destination: usize, tag: u32, chunks: usize) {
        let offsets = self.torus.offsets(node, destination);
        self.nodes[node].queues[0].push_back(Packet {
            tag,
            chunks,
            destination,
            offsets,
        });
        self.accepted += 1;
    }
}
