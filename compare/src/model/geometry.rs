//! The torus: nodes, directions, neighbours and offsets.

use std::cmp::Ordering;

/// A torus in three dimensions: 0 is x, 1 is y and 2 is z.
pub const DIMENSIONS: usize = 3;

/// One direction of travel, by its place in the order of R33.
#[derive(Clone, Copy, Debug, PartialEq, Eq)]
pub struct Direction(u8);

/// The directions in that order: x+, x-, y+, y-, z+, z-.
pub const DIRECTIONS: [Direction; 2 * DIMENSIONS] = [
    Direction(0),
    Direction(1),
    Direction(2),
    Direction(3),
    Direction(4),
    Direction(5),
];

impl Direction {
    pub fn along(dimension: usize, plus: bool) -> Direction {
        DIRECTIONS[2 * dimension + if plus { 0 } else { 1 }]
    }

    /// The place of this direction in `DIRECTIONS`.
    pub fn index(self) -> usize {
        self.0 as usize
    }

    pub fn dimension(self) -> usize {
        self.index() / 2
    }

    pub fn is_plus(self) -> bool {
        self.index() & 1 == 0
    }

    /// The offset that one hop in this direction covers.
    pub fn hop(self) -> [i32; DIMENSIONS] {
        let mut offsets = [0; DIMENSIONS];
        offsets[self.dimension()] = if self.is_plus() { 1 } else { -1 };
        offsets
    }
}

/// How many nodes there are along each dimension: X, Y and Z.
#[derive(Clone, Copy, Debug, PartialEq, Eq)]
pub struct Torus {
    pub sizes: [usize; DIMENSIONS],
}

impl Torus {
    pub fn nodes(&self) -> usize {
        self.sizes.iter().product()
    }

    /// The coordinates of a node: n = (z × Y + y) × X + x.
    pub fn place(&self, node: usize) -> [usize; DIMENSIONS] {
        let mut rest = node;
        self.sizes.map(|size| {
            let coordinate = rest % size;
            rest /= size;
            coordinate
        })
    }

    /// The node at these coordinates, by the same formula from its inside out.
    pub fn node_at(&self, place: [usize; DIMENSIONS]) -> usize {
        let mut node = 0;
        for d in (0..DIMENSIONS).rev() {
            node = node * self.sizes[d] + place[d];
        }
        node
    }

    /// The coordinates of every node, by rising number: x runs fastest.
    pub fn places(&self) -> impl Iterator<Item = [usize; DIMENSIONS]> {
        let [x, y, z] = self.sizes;
        let rows = (0..z).flat_map(move |z| (0..y).map(move |y| (y, z)));
        rows.flat_map(move |(y, z)| (0..x).map(move |x| [x, y, z]))
    }

    /// The node that is reached from `node` by these offsets, round the torus.
    pub fn moved(&self, node: usize, offsets: [i32; DIMENSIONS]) -> usize {
        let mut place = self.place(node);
        for d in 0..DIMENSIONS {
            let size = self.sizes[d] as i32;
            place[d] = (place[d] as i32 + offsets[d]).rem_euclid(size) as usize;
        }
        self.node_at(place)
    }

    pub fn neighbour(&self, node: usize, direction: Direction) -> usize {
        self.moved(node, direction.hop())
    }

    /// The nodes of every ring along a dimension, ring by ring: those that
    /// differ in this coordinate alone.
    pub fn rings(&self, dimension: usize) -> impl Iterator<Item = Vec<usize>> + '_ {
        let starts = self.places().filter(move |place| place[dimension] == 0);
        starts.map(move |mut place| {
            let round = 0..self.sizes[dimension];
            round
                .map(|coordinate| {
                    place[dimension] = coordinate;
                    self.node_at(place)
                })
                .collect()
        })
    }

    /// The offsets that a packet gets at its offer: in each dimension the
    /// shorter way round. Between two ways of the same length the sending node's
    /// coordinate in that dimension decides, plus if even and minus if odd.
    pub fn offsets(&self, from: usize, to: usize) -> [i32; DIMENSIONS] {
        let (from, to) = (self.place(from), self.place(to));
        let mut offsets = [0; DIMENSIONS];
        for d in 0..DIMENSIONS {
            let size = self.sizes[d] as i32;
            let plus_way = (to[d] as i32 - from[d] as i32).rem_euclid(size);
            let minus_way = size - plus_way;
            let goes_plus = match plus_way.cmp(&minus_way) {
                Ordering::Less => true,
                Ordering::Equal => from[d] % 2 == 0,
                Ordering::Greater => false,
            };
            offsets[d] = if goes_plus { plus_way } else { -minus_way };
        }
        offsets
    }

    /// The largest lawful offset in a dimension: half the size, rounded down.
    pub fn reach(&self, dimension: usize) -> i32 {
        self.sizes[dimension] as i32 / 2
    }
}
