//! The independent simulator. Every call reads the lent words into objects,
//! asks or changes the objects, and writes them back if nothing was refused.
//! It is slow and meant to be read beside docs/RULES.md.

pub mod geometry;
pub mod network;
pub mod wave;
pub mod words;

use network::{Kind, Network, Output, Step, MOST_CHUNKS, QUEUES};
use words::{decode, encode, packet_to_word, Sizes};

/// The refusals with their numbers (R161 to R175). 13 is what the program gives
/// for a bad line, and the reader of the waveform for bytes that are no step.
#[derive(Clone, Copy, Debug, PartialEq, Eq)]
pub enum Refusal {
    ShortStore = 1,
    WrongSize = 2,
    NoNetwork = 3,
    NoSuchNode = 4,
    NoSuchQueue = 5,
    NoSuchOutput = 6,
    InjectionFull = 7,
    CountSpent = 8,
    NobodyThere = 9,
    NotItsWay = 10,
    NoSlot = 11,
    NoBubble = 12,
    BadText = 13,
    ToOneself = 14,
    NoRoom = 15,
}

impl Refusal {
    pub fn number(self) -> u64 {
        self as u64
    }
}

/// Why a drain stopped.
#[derive(Clone, Copy, Debug, PartialEq, Eq)]
pub enum Stop {
    Emptied = 0,
    Spent = 1,
    Full = 2,
}

/// What a drain answers.
#[derive(Clone, Copy, Debug, PartialEq, Eq)]
pub struct Drained {
    pub moves: u64,
    pub delivered: u64,
    pub stop: Stop,
}

/// Where the held words of a queue stand in the lent words.
#[derive(Clone, Copy, Debug, PartialEq, Eq)]
pub struct Part {
    pub start: usize,
    pub held: usize,
}

fn known_node(network: &Network, node: u64) -> Result<usize, Refusal> {
    if node < network.torus.nodes() as u64 {
        Ok(node as usize)
    } else {
        Err(Refusal::NoSuchNode)
    }
}

fn known_queue(queue: u64) -> Result<usize, Refusal> {
    if queue < QUEUES as u64 {
        Ok(queue as usize)
    } else {
        Err(Refusal::NoSuchQueue)
    }
}

fn known_output(output: u64) -> Result<usize, Refusal> {
    if output < QUEUES as u64 {
        Ok(output as usize)
    } else {
        Err(Refusal::NoSuchOutput)
    }
}

/// Make, given X, Y, Z, E, A, J: 2, then 1.
pub fn make(words: &mut [u64], sizes: [u64; 6]) -> Result<(), Refusal> {
    let sizes = Sizes::new(sizes)?;
    if words.len() < sizes.need() {
        return Err(Refusal::ShortStore);
    }
    encode(&Network::empty(sizes.torus, sizes.capacities), words);
    Ok(())
}

/// Check: 1, 2, 1, 3.
pub fn check(words: &[u64]) -> Result<(), Refusal> {
    decode(words).map(|_| ())
}

/// Offer: the check's, then 4, 2, 14, 8, 7.
pub fn offer(
    words: &mut [u64],
    node: u64,
    destination: u64,
    tag: u32,
    chunks: u64,
) -> Result<(), Refusal> {
    let mut network = decode(words)?;
    let node = known_node(&network, node)?;
    let destination = known_node(&network, destination)?;
    if !(1..=MOST_CHUNKS as u64).contains(&chunks) {
        return Err(Refusal::WrongSize);
    }
    if destination == node {
        return Err(Refusal::ToOneself);
    }
    if network.accepted == u32::MAX as u64 {
        return Err(Refusal::CountSpent);
    }
    if network.free(node, Kind::Injection) == 0 {
        return Err(Refusal::InjectionFull);
    }
    network.inject(node, destination, tag, chunks as usize);
    encode(&network, words);
    Ok(())
}

/// Move: the check's, then 4, 5, 6, 9, 10, 11, 12. A delivery hands out the
/// packet word.
pub fn move_packet(
    words: &mut [u64],
    node: u64,
    queue: u64,
    output: u64,
) -> Result<Option<u64>, Refusal> {
    let mut network = decode(words)?;
    let step = Step {
        node: known_node(&network, node)?,
        queue: known_queue(queue)?,
        output: known_output(output)?,
    };
    network.judge(step)?;
    let handed_out = network.make(step);
    encode(&network, words);
    Ok(handed_out.map(|packet| packet_to_word(&packet)))
}

/// Credit: the check's, then 4, 6. It is told in chunks for an adaptive output
/// and in slots for an escape output.
pub fn credit(words: &[u64], node: u64, output: u64) -> Result<u64, Refusal> {
    let network = decode(words)?;
    let node = known_node(&network, node)?;
    let output = Output::of(known_output(output)?);
    // Output 0 has no target, and so no credit.
    let (neighbour, kind) = network.target(node, output).ok_or(Refusal::NoSuchOutput)?;
    let free = network.free(neighbour, kind);
    Ok(match kind {
        Kind::Adaptive(_) => free,
        _ => free / MOST_CHUNKS,
    } as u64)
}

/// Look, as the place of the held words, and its companion: the check's,
/// then 4, 5.
pub fn look(words: &[u64], node: u64, queue: u64) -> Result<Part, Refusal> {
    let network = decode(words)?;
    let node = known_node(&network, node)?;
    let queue = known_queue(queue)?;
    let sizes = Sizes {
        torus: network.torus,
        capacities: network.capacities,
    };
    Ok(Part {
        start: sizes.count_index(node, queue) + 1,
        held: network.nodes[node].queues[queue].len(),
    })
}

/// First: the check's.
pub fn first(words: &[u64]) -> Result<Option<Step>, Refusal> {
    Ok(decode(words)?.first())
}

/// Drain: the check's.
pub fn drain(words: &mut [u64], budget: u32, ledger: &mut [u64]) -> Result<Drained, Refusal> {
    drain_with_list(words, budget, ledger, &mut Vec::new())
}

/// Drain that also lists the moves it made, for those who want to know the
/// node of each delivery.
pub fn drain_with_list(
    words: &mut [u64],
    budget: u32,
    ledger: &mut [u64],
    list: &mut Vec<Step>,
) -> Result<Drained, Refusal> {
    let mut network = decode(words)?;
    let mut held = network.packets().count();
    let mut moves = 0;
    let mut delivered = 0;
    let stop = loop {
        if held == 0 {
            break Stop::Emptied;
        }
        if moves == budget as u64 {
            break Stop::Spent;
        }
        let step = network
            .first()
            .expect("a move is permitted while anything is held");
        if step.output == 0 && delivered == ledger.len() {
            break Stop::Full;
        }
        if let Some(packet) = network.make(step) {
            ledger[delivered] = packet_to_word(&packet);
            delivered += 1;
            held -= 1;
        }
        list.push(step);
        moves += 1;
    };
    encode(&network, words);
    Ok(Drained {
        moves,
        delivered: delivered as u64,
        stop,
    })
}

/// Every route of every head, permitted or not, for those who choose moves at
/// random; empty if the words are no network.
pub fn routes_of_heads(words: &[u64]) -> Vec<Step> {
    decode(words).map_or(Vec::new(), |network| network.routes_of_heads())
}
