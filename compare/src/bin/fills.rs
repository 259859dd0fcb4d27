//! Prints the fills that the waveform of a sheet has to tell (docs/WAVEFORM.md).
//! `fills SHEET` prints a line for each step of the dumps: the network's number,
//! the moves made, and the fill of every queue, by node and by queue.
//!
//! - A good T starts the next network, and its dump: the header.
//! - An O or M that is answered by 0 is a step, and so is each move of a D.
//! - A line that is refused, or bad, is none.
//!
//! A D is made here of First and Move, one move after the other, and the fills
//! are what Look says. The calls are those of the C library; if that is not
//! linked (see build.rs), the model stands in its place.

use compare::bench::Bench;
use compare::model::network::QUEUES;
use compare::sheet::{lines, parse, Line, LEDGER_WORDS, STORE_WORDS};
use std::io::{self, Write};
use std::{env, fs, process};

#[cfg(bench_lib)]
fn bench() -> Box<dyn Bench> {
    Box::new(compare::ffi::Library)
}

#[cfg(not(bench_lib))]
fn bench() -> Box<dyn Bench> {
    Box::new(compare::bench::Model::default())
}

struct Replay {
    bench: Box<dyn Bench>,
    store: Vec<u64>,
    /// The number of the network that the store holds; 0 before the first T.
    network: u64,
    nodes: u64,
    /// Counted here, not read from the header.
    moves: u64,
    told: String,
}

impl Replay {
    fn obey(&mut self, line: Line) {
        match line {
            Line::Make { sizes } => self.make(sizes.map(u64::from)),
            Line::Offer {
                node,
                destination,
                tag,
                chunks,
            } => {
                let (node, destination) = (node.into(), destination.into());
                let store = &mut self.store;
                if self
                    .bench
                    .offer(store, node, destination, tag, chunks.into())
                    == 0
                {
                    self.tell();
                }
            }
            Line::Move {
                node,
                queue,
                output,
            } => self.move_packet(node.into(), queue.into(), output.into()),
            Line::Drain { budget } => self.drain(budget),
        }
    }

    fn make(&mut self, sizes: [u64; 6]) {
        if self.bench.make(&mut self.store, sizes) == 0 {
            let [x, y, z, ..] = sizes;
            self.network += 1;
            self.nodes = x * y * z;
            self.moves = 0;
            self.tell();
        }
    }

    fn move_packet(&mut self, node: u64, queue: u64, output: u64) {
        let (refusal, _) = self.bench.move_packet(&mut self.store, node, queue, output);
        if refusal == 0 {
            self.moves += 1;
            self.tell();
        }
    }

    /// Ends as the program's D does: nothing is held, the budget is used up, or
    /// the ledger is full and the next move is a delivery. Without a network
    /// First is refused, and finds none.
    fn drain(&mut self, budget: u32) {
        let mut delivered = 0;
        for _ in 0..budget {
            let (_, [found, node, queue, output]) = self.bench.first(&self.store);
            let full = output == 0 && delivered == LEDGER_WORDS;
            if found == 0 || full {
                break;
            }
            if output == 0 {
                delivered += 1;
            }
            self.move_packet(node, queue, output);
        }
    }

    fn tell(&mut self) {
        self.told += &format!("{} {}", self.network, self.moves);
        for node in 0..self.nodes {
            for queue in 0..QUEUES as u64 {
                let (refusal, [_, held]) = self.bench.look(&self.store, node, queue);
                assert_eq!(refusal, 0, "Look at queue {queue} of node {node}");
                self.told += &format!(" {held}");
            }
        }
        self.told += "\n";
    }
}

fn main() -> io::Result<()> {
    let arguments: Vec<_> = env::args_os().skip(1).collect();
    let [sheet] = arguments.as_slice() else {
        eprintln!("usage: fills SHEET");
        process::exit(2);
    };
    let input = fs::read(sheet)?;
    let mut replay = Replay {
        bench: bench(),
        store: vec![0; STORE_WORDS],
        network: 0,
        nodes: 0,
        moves: 0,
        told: String::new(),
    };
    for line in lines(&input).into_iter().filter_map(parse) {
        replay.obey(line);
    }
    io::stdout().lock().write_all(replay.told.as_bytes())
}
