//! The check, which every call begins with: one pass over the words, and then a
//! look at the rings.

use super::{direction_of, load, offsets, Layout, DIMENSIONS, FIRST_ESCAPE, HEADER, MAX_SIDE};
use super::{MAX_WORK, NO_NETWORK, QUEUES, SHORT_STORE, UNUSED_BITS, WRONG_SIZE};
use std::array;

/// x, y and z of a node, each counted on from the size: see `rounds` below.
type Place = [usize; DIMENSIONS];

/// The lowest and the highest lawful offset of a dimension in a queue.
fn limits(layout: &Layout, queue: usize, dimension: usize) -> (i8, i8) {
    let half = (layout.side[dimension] / 2) as i8;
    if queue == 0 {
        return (-half, half);
    }
    let direction = direction_of(queue);
    if dimension == direction / 2 {
        if direction.is_multiple_of(2) {
            (0, half - 1)
        } else {
            (1 - half, 0)
        }
    } else if queue >= FIRST_ESCAPE && dimension < direction / 2 {
        (0, 0)
    } else {
        (-half, half)
    }
}

/// What the check of a packet needs to know of the network.
struct Packets {
    /// The lowest and the highest lawful offset of each dimension in each queue.
    limits: [[(i8, i8); DIMENSIONS]; QUEUES],
    /// What each coordinate adds to the number of a node, at the place of a packet's
    /// destination, for three times round each dimension: from the middle one a
    /// packet's hops lead to none beyond.
    rounds: [[u64; 3 * MAX_SIDE]; DIMENSIONS],
}

/// The bits of a packet's destination, and those that are 0 in every packet.
const FIXED: u64 = DESTINATION | UNUSED_BITS;
const DESTINATION: u64 = 0xfff << DESTINATION_SHIFT;
const DESTINATION_SHIFT: u32 = 16;

impl Packets {
    fn new(layout: &Layout) -> Packets {
        let mut rounds = [[0; 3 * MAX_SIDE]; DIMENSIONS];
        for (d, rounds) in rounds.iter_mut().enumerate() {
            for round in rounds.chunks_exact_mut(layout.side[d]) {
                for (coordinate, part) in round.iter_mut().enumerate() {
                    *part = ((coordinate * layout.step[d]) as u64) << DESTINATION_SHIFT;
                }
            }
        }
        Packets {
            limits: array::from_fn(|queue| array::from_fn(|d| limits(layout, queue, d))),
            rounds,
        }
    }

    /// The hops left to a packet, if it may stand there.
    #[inline(always)]
    fn lawful_hops(&self, queue: usize, place: Place, word: u64) -> Option<u8> {
        let offsets = offsets(word);
        for (offset, (low, high)) in offsets.into_iter().zip(self.limits[queue]) {
            if offset < low || offset > high {
                return None;
            }
        }
        let mut end = 0;
        for d in 0..DIMENSIONS {
            end += self.rounds[d][place[d].wrapping_add_signed(offsets[d] as isize)];
        }
        if word & FIXED != end {
            return None;
        }
        Some(offsets.iter().map(|offset| offset.unsigned_abs()).sum())
    }
}

/// What the check adds up on its way through the nodes.
#[derive(Default)]
struct Sums {
    held: u64,
    hops: u64,
}

/// The check. Gives the layout and the number of packets held.
pub(super) fn open(words: &[u64]) -> Result<(Layout, u64), u64> {
    let header = words.first_chunk::<HEADER>().ok_or(SHORT_STORE)?;
    let &[x, y, z, e, a, j, accepted, delivered, moves] = header;
    let layout = Layout::new([x, y, z, e, a, j]).ok_or(WRONG_SIZE)?;
    if words.len() < layout.need() {
        return Err(SHORT_STORE);
    }
    let packets = Packets::new(&layout);
    let mut nodes = words[HEADER..layout.need()].chunks_exact(layout.stride);
    let mut sums = Sums::default();
    let [xs, ys, zs] = layout.side.map(|side| side..2 * side);
    for z in zs {
        for y in ys.clone() {
            for (x, node) in xs.clone().zip(&mut nodes) {
                if !node_is_lawful(&layout, &packets, [x, y, z], node, &mut sums) {
                    return Err(NO_NETWORK);
                }
            }
        }
    }
    if accepted > u32::MAX as u64
        || accepted.checked_sub(delivered) != Some(sums.held)
        || moves > MAX_WORK * accepted
        || moves + sums.hops + sums.held > MAX_WORK * accepted
        || !rings_have_room(words, &layout)
    {
        return Err(NO_NETWORK);
    }
    Ok((layout, sums.held))
}

/// The check of one node's words.
#[inline(always)]
fn node_is_lawful(
    layout: &Layout,
    packets: &Packets,
    place: Place,
    node: &[u64],
    sums: &mut Sums,
) -> bool {
    let mut rest = node;
    for queue in 0..QUEUES {
        let (words, after) = rest.split_at(1 + layout.cap[queue]);
        rest = after;
        let (count, slots) = (words[0], &words[1..]);
        if count > slots.len() as u64 {
            return false;
        }
        let (held, unused) = slots.split_at(count as usize);
        if unused.iter().fold(0, |all, word| all | word) != 0 {
            return false;
        }
        for &word in held {
            let Some(hops) = packets.lawful_hops(queue, place, word) else {
                return false;
            };
            sums.hops += hops as u64;
        }
        if load(queue, words) > slots.len() {
            return false;
        }
        sums.held += count;
    }
    true
}

/// Whether every escape ring has a free slot.
fn rings_have_room(words: &[u64], layout: &Layout) -> bool {
    (FIRST_ESCAPE..QUEUES).all(|queue| {
        let d = direction_of(queue) / 2;
        let (step, side) = (layout.step[d], layout.side[d]);
        let has_room = |node| words[layout.at(node, queue)] < layout.cap[queue] as u64;
        // The nodes at coordinate 0 come in runs of `step`.
        (0..layout.nodes()).step_by(step * side).all(|run| {
            (run..run + step).all(|start| (0..side).any(|hops| has_room(start + hops * step)))
        })
    })
}
