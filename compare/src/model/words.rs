//! The network in lent words: where everything stands, the check of words
//! that may be anything, and the way back.

use super::geometry::{Torus, DIMENSIONS, DIRECTIONS};
use super::network::{Capacities, Kind, Network, Packet, MOST_CHUNKS, QUEUES};
use super::Refusal;

/// X, Y, Z, E, A, J, accepted, delivered, moves made.
pub const HEADER: usize = 9;

const MOST_NODES_A_SIDE: u64 = 16;
const MOST_SLOTS: u64 = 8;
const MOST_ACCEPTED: u64 = u32::MAX as u64;
/// The longest way: eight hops in each dimension, and the delivery.
const MOST_WORK: u128 = 25;

/// The sizes of a network, known to be in range.
#[derive(Clone, Copy, Debug, PartialEq, Eq)]
pub struct Sizes {
    pub torus: Torus,
    pub capacities: Capacities,
}

impl Sizes {
    /// From X, Y, Z, E, A, J, as the header and Make have them.
    pub fn new([x, y, z, e, a, j]: [u64; 6]) -> Result<Sizes, Refusal> {
        let sides = [x, y, z];
        let in_range = sides.iter().all(|s| (1..=MOST_NODES_A_SIDE).contains(s))
            && (2..=MOST_SLOTS).contains(&e)
            && (1..=MOST_SLOTS).contains(&a)
            && (1..=MOST_SLOTS).contains(&j);
        if !in_range {
            return Err(Refusal::WrongSize);
        }
        Ok(Sizes {
            torus: Torus {
                sizes: sides.map(|side| side as usize),
            },
            capacities: Capacities {
                escape: e as usize,
                adaptive: a as usize,
                injection: j as usize,
            },
        })
    }

    /// The words of one queue: the number held, then those for packets.
    fn queue_words(&self, queue: usize) -> usize {
        1 + self.capacities.words(Kind::of(queue))
    }

    fn node_words(&self) -> usize {
        (0..QUEUES).map(|queue| self.queue_words(queue)).sum()
    }

    /// The words that a network of these sizes takes.
    pub fn need(&self) -> usize {
        HEADER + self.torus.nodes() * self.node_words()
    }

    /// Where the word with the number held by a queue stands.
    pub fn count_index(&self, node: usize, queue: usize) -> usize {
        let before: usize = (0..queue).map(|q| self.queue_words(q)).sum();
        HEADER + node * self.node_words() + before
    }
}

/// An offset has five bits, in two's complement.
const OFFSET_VALUES: u64 = 32;

/// What the offset of each dimension is multiplied by in a packet word.
const OFFSET_UNITS: [u64; DIMENSIONS] = [1 << 10, 1 << 5, 1];

/// What the destination, and the chunks minus one, are multiplied by, and how
/// many values each can have.
const DESTINATION: (u64, u64) = (1 << 16, 1 << 12);
const CHUNKS: (u64, u64) = (1 << 28, MOST_CHUNKS as u64);

/// Bit 15, between the destination and the offsets, and bit 31, between the tag
/// and the chunks. No packet has one of them.
const NO_PART_OF_A_PACKET: u64 = 1 << 15 | 1 << 31;

fn packet_from_word(word: u64) -> Option<Packet> {
    if word & NO_PART_OF_A_PACKET != 0 {
        return None;
    }
    let [destination, chunks] = [DESTINATION, CHUNKS].map(|(unit, values)| word / unit % values);
    let offsets = OFFSET_UNITS.map(|unit| {
        let field = (word / unit % OFFSET_VALUES) as i32;
        let values = OFFSET_VALUES as i32;
        // The upper half of the values stands for numbers below 0.
        if field < values / 2 {
            field
        } else {
            field - values
        }
    });
    Some(Packet {
        tag: (word >> 32) as u32,
        chunks: chunks as usize + 1,
        destination: destination as usize,
        offsets,
    })
}

pub fn packet_to_word(packet: &Packet) -> u64 {
    let field = |offset: i32| offset.rem_euclid(OFFSET_VALUES as i32) as u64;
    let fields = packet.offsets.iter().zip(OFFSET_UNITS);
    ((packet.tag as u64) << 32)
        + (packet.chunks as u64 - 1) * CHUNKS.0
        + packet.destination as u64 * DESTINATION.0
        + fields
            .map(|(offset, unit)| field(*offset) * unit)
            .sum::<u64>()
}

/// Reads any words as a network, or says what they lack: 1, 2, 1, 3.
pub fn decode(words: &[u64]) -> Result<Network, Refusal> {
    let Some((header, nodes)) = words.split_first_chunk::<HEADER>() else {
        return Err(Refusal::ShortStore);
    };
    let [x, y, z, e, a, j, accepted, delivered, moves] = *header;
    let sizes = Sizes::new([x, y, z, e, a, j])?;
    if words.len() < sizes.need() {
        return Err(Refusal::ShortStore);
    }
    let mut network = Network::empty(sizes.torus, sizes.capacities);
    network.accepted = accepted;
    network.delivered = delivered;
    network.moves = moves;
    let mut rest = nodes.iter().copied();
    let mut next = || rest.next().expect("the store was measured");
    for node in &mut network.nodes {
        for (queue, packets) in node.queues.iter_mut().enumerate() {
            let most = sizes.capacities.words(Kind::of(queue));
            let held = next();
            if held > most as u64 {
                return Err(Refusal::NoNetwork);
            }
            for place in 0..most {
                let word = next();
                if (place as u64) < held {
                    let packet = packet_from_word(word).ok_or(Refusal::NoNetwork)?;
                    packets.push_back(packet);
                } else if word != 0 {
                    return Err(Refusal::NoNetwork);
                }
            }
        }
    }
    if is_lawful(&network) {
        Ok(network)
    } else {
        Err(Refusal::NoNetwork)
    }
}

/// Writes the network to the words that it takes, and to no other.
pub fn encode(network: &Network, words: &mut [u64]) {
    let Network {
        torus, capacities, ..
    } = *network;
    let mut list: Vec<u64> = torus.sizes.iter().map(|size| *size as u64).collect();
    list.extend([
        capacities.escape as u64,
        capacities.adaptive as u64,
        capacities.injection as u64,
        network.accepted,
        network.delivered,
        network.moves,
    ]);
    for node in &network.nodes {
        for (queue, packets) in node.queues.iter().enumerate() {
            let end = list.len() + 1 + capacities.words(Kind::of(queue));
            list.push(packets.len() as u64);
            list.extend(packets.iter().map(packet_to_word));
            list.resize(end, 0);
        }
    }
    words[..list.len()].copy_from_slice(&list);
}

/// The clauses of the check that speak of packets, queues, rings and counters.
fn is_lawful(network: &Network) -> bool {
    network
        .packets()
        .all(|(node, kind, packet)| is_well_placed(&network.torus, node, kind, packet))
        && every_queue_has_room(network)
        && every_ring_has_a_free_slot(network)
        && counters_agree(network)
}

/// No queue has more chunks in it than it has room for.
fn every_queue_has_room(network: &Network) -> bool {
    let has_room =
        |node: usize, kind: Kind| network.taken(node, kind) <= network.capacities.chunks(kind);
    (0..network.torus.nodes()).all(|node| (0..QUEUES).all(|queue| has_room(node, Kind::of(queue))))
}

fn is_well_placed(torus: &Torus, node: usize, kind: Kind, packet: &Packet) -> bool {
    let within_reach = |dimension: usize| {
        // A packet in a queue of this dimension has a hop behind it.
        let behind = match kind.direction() {
            Some(direction) if direction.dimension() == dimension => 1,
            _ => 0,
        };
        packet.offsets[dimension].abs() + behind <= torus.reach(dimension)
    };
    let right_sign = match kind.direction() {
        None => true,
        Some(direction) if direction.is_plus() => packet.offsets[direction.dimension()] >= 0,
        Some(direction) => packet.offsets[direction.dimension()] <= 0,
    };
    // In a y escape queue nothing is left to do in x, in a z one neither in x
    // nor in y.
    let in_order = match kind {
        Kind::Escape(direction) => packet.offsets[..direction.dimension()]
            .iter()
            .all(|offset| *offset == 0),
        _ => true,
    };
    packet.destination < torus.nodes()
        && packet.destination == torus.moved(node, packet.offsets)
        && (0..DIMENSIONS).all(within_reach)
        && right_sign
        && in_order
}

fn every_ring_has_a_free_slot(network: &Network) -> bool {
    DIRECTIONS.iter().all(|direction| {
        let has_room = |node: &usize| network.free(*node, Kind::Escape(*direction)) > 0;
        let mut rings = network.torus.rings(direction.dimension());
        rings.all(|ring| ring.iter().any(has_room))
    })
}

fn counters_agree(network: &Network) -> bool {
    let held = network.packets().count() as u128;
    let work: u128 = network.packets().map(|(_, _, p)| p.work() as u128).sum();
    let accepted = network.accepted as u128;
    network.accepted <= MOST_ACCEPTED
        && network.delivered as u128 + held == accepted
        && network.moves as u128 + work <= MOST_WORK * accepted
}
