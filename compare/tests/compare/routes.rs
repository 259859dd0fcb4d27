//! The table of routes in docs/RULES.md (R149), read from that page and held
//! to every implementation: which outputs a head has, and in which order. All
//! of its cells, in every queue in which the check lets such a head stand. A row
//! of the table has the signs of dx, dy and dz, and a cell for each set of
//! queues that its first line names.

use crate::kept::{make, may_stand, move_call, put, put_of};
use compare::bench::Call;
use compare::generate::{along, end_node, way, Offsets, Shape};
use compare::generate::{DIMENSIONS, FIRST_ESCAPE, MOST_CHUNKS, QUEUES};
use compare::lab::Lab;

const RULES: &str = include_str!("../../../docs/RULES.md");
/// The node of the head, which First looks at before all others.
const NODE: u64 = 0;

/// A row for one queue: the signs of dx, dy and dz, and the outputs.
struct Row {
    queue: usize,
    signs: [i64; DIMENSIONS],
    outputs: Vec<u64>,
}

impl Row {
    /// So many hops in each dimension that has a sign.
    fn offsets(&self, hops: i64) -> Offsets {
        self.signs.map(|sign| sign * hops)
    }
}

/// The numbers of a cell, as `in queues 0, 1, 2` or `1, 7`.
fn numbers(cell: &str) -> Vec<u64> {
    let list = cell.trim_start_matches("in queues ");
    list.split(", ").map(|n| n.parse().unwrap()).collect()
}

fn sign(cell: &str) -> i64 {
    ["−", "0", "+"].iter().position(|s| *s == cell).unwrap() as i64 - 1
}

/// The table as the page has it, a row for each queue.
fn table() -> Vec<Row> {
    let (_, clause) = RULES.split_once("**R149**").unwrap();
    let lines = clause.lines().skip_while(|line| !line.starts_with('|'));
    let mut cells = lines
        .take_while(|line| line.starts_with('|'))
        .map(|line| line.trim_matches('|').split('|').map(str::trim));
    let columns = cells.next().unwrap().skip(DIMENSIONS).map(numbers);
    let columns: Vec<Vec<u64>> = columns.collect();
    let mut rows = Vec::new();
    for mut cells in cells.skip(1) {
        let signs = [(); DIMENSIONS].map(|_| sign(cells.next().unwrap()));
        for (queues, cell) in columns.iter().zip(cells) {
            rows.extend(queues.iter().map(|queue| Row {
                queue: *queue as usize,
                signs,
                outputs: numbers(cell),
            }));
        }
    }
    rows
}

pub fn every_case(lab: &mut Lab) {
    let rows = table();
    assert_eq!(rows.len(), 13 * 27, "queues, and signs of three offsets");
    // The fewest hops, and more of them in a larger network.
    for (side, hops) in [(4, 1), (6, 2)] {
        let shape = Shape::of([side; DIMENSIONS], [2, 1, 1]);
        let mut held = 0;
        for row in &rows {
            if may_stand(&shape, row.queue, row.offsets(hops)) {
                held += 1;
                case(lab, &shape, row, hops);
            } else {
                no_case(lab, &shape, row, hops);
            }
        }
        // Any signs in queue 0; two of three along its own dimension in each of
        // the others, and in an escape queue none along those before it.
        let escapes = 2 * (2 * 9 + 2 * 3 + 2);
        assert_eq!(held, 27 + 6 * 2 * 9 + escapes);
    }
    // The most hops, in the largest network: in some queues a head with as many
    // routes as it can have there.
    let (shape, hops) = (Shape::of([16; DIMENSIONS], [2, 1, 1]), 7);
    for queue in [3, 12] {
        let rows = rows.iter().filter(|row| row.queue == queue);
        let heads = rows.filter(|row| may_stand(&shape, queue, row.offsets(hops)));
        let head = heads.max_by_key(|row| row.outputs.len());
        case(lab, &shape, head.expect("a head"), hops);
    }
}

/// A network with a head as the row has it, with so many hops.
fn with_head(lab: &mut Lab, shape: &Shape, row: &Row, hops: i64) -> Vec<u64> {
    let offsets = row.offsets(hops);
    lab.place = format!("routes in queue {}, {offsets:?}", row.queue);
    let mut words = make(lab, *shape);
    put(shape, &mut words, NODE, row.queue, offsets);
    words
}

/// A head that the check does not let stand there.
fn no_case(lab: &mut Lab, shape: &Shape, row: &Row, hops: i64) {
    let words = with_head(lab, shape, row, hops);
    assert_eq!(lab.try_out(&words, Call::Check), 3);
}

/// Holds every implementation to a row.
fn case(lab: &mut Lab, shape: &Shape, row: &Row, hops: i64) {
    let mut words = with_head(lab, shape, row, hops);
    assert_eq!(lab.try_out(&words, Call::Check), 0);
    for output in 0..QUEUES as u64 {
        let refusal = if row.outputs.contains(&output) { 0 } else { 10 };
        let call = move_call(NODE, row.queue, output);
        assert_eq!(lab.try_out(&words, call), refusal, "output {output}");
    }
    // First takes them in their order: each one once those before it lead into
    // full queues.
    for output in &row.outputs {
        let first = lab.call(&mut words, Call::First).out;
        assert_eq!(first, [1, NODE, row.queue as u64, *output]);
        if *output > 0 {
            fill(shape, &mut words, *output as usize);
        }
    }
}

/// Fills the queue that an output leads to, with packets of eight chunks.
fn fill(shape: &Shape, words: &mut [u64], output: usize) {
    let (dimension, sign) = way(output);
    let target = end_node(shape, NODE, along(dimension, sign));
    let slots = if output < FIRST_ESCAPE {
        shape.a
    } else {
        shape.e
    };
    for _ in 0..slots {
        put_of(MOST_CHUNKS, shape, words, target, output, [0; DIMENSIONS]);
    }
}
