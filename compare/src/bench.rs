//! The calls (R90) as one trait, so that the model, the plain
//! implementation and the C library are asked the same things in the same way.

use crate::model::network::Step;
use crate::{model, plain};
use std::cell::RefCell;
use std::rc::Rc;

/// Every method gives the refusal's number first, 0 if there is none, and
/// then the words that the C interface calls `out`, all 0 on a refusal.
pub trait Bench {
    fn name(&self) -> &'static str;
    /// Whether a Drain looks for each of its moves from node 0 on. To empty the
    /// largest networks that way takes minutes.
    fn searches_from_node_0(&self) -> bool {
        false
    }
    /// The sizes are X, Y, Z, E, A, J.
    fn make(&self, words: &mut [u64], sizes: [u64; 6]) -> u64;
    fn check(&self, words: &[u64]) -> u64;
    fn offer(&self, words: &mut [u64], node: u64, destination: u64, tag: u32, chunks: u64) -> u64;
    /// Packets handed out (0 or 1), the packet word.
    fn move_packet(&self, words: &mut [u64], node: u64, queue: u64, output: u64)
        -> (u64, [u64; 2]);
    /// Free chunks of an adaptive queue, free slots of an escape queue.
    fn credit(&self, words: &[u64], node: u64, output: u64) -> (u64, [u64; 1]);
    /// Index of the first held word, number held.
    fn look(&self, words: &[u64], node: u64, queue: u64) -> (u64, [u64; 2]);
    /// Found (0 or 1), node, queue, output.
    fn first(&self, words: &[u64]) -> (u64, [u64; 4]);
    /// Moves, delivered, stop (0 emptied, 1 spent, 2 full).
    fn drain(&self, words: &mut [u64], budget: u32, ledger: &mut [u64]) -> (u64, [u64; 3]);
}

/// The calls that write a step of the waveform (docs/WAVEFORM.md). `fills` is
/// the caller's list of what the step before told, a byte for each queue.
pub trait WaveWriter: Bench {
    /// Bytes of the step.
    fn write_header(&self, words: &[u64], fills: &mut [u8], page: &mut [u8]) -> (u64, [u64; 1]);
    /// Bytes of the step.
    fn write_changes(&self, words: &[u64], fills: &mut [u8], page: &mut [u8]) -> (u64, [u64; 1]);
}

/// The call that reads a step back. The plain implementation has none: it is
/// there to be measured beside, and the reader is not.
pub trait WaveReader: Bench {
    /// Header (1) or later step (0), time stamp, variables named.
    fn read_step(&self, bytes: &[u8], fills: &mut [u8]) -> (u64, [u64; 3]);
}

/// Which step of the waveform to write.
#[derive(Clone, Copy, Debug, PartialEq, Eq)]
pub enum WaveStep {
    Header,
    Changes,
}

/// A call with its arguments; a Drain has the length of its ledger.
#[derive(Clone, Copy, Debug, PartialEq, Eq)]
pub enum Call {
    Make {
        sizes: [u64; 6],
    },
    Check,
    Offer {
        node: u64,
        destination: u64,
        tag: u32,
        chunks: u64,
    },
    Move {
        node: u64,
        queue: u64,
        output: u64,
    },
    Credit {
        node: u64,
        output: u64,
    },
    Look {
        node: u64,
        queue: u64,
    },
    First,
    Drain {
        budget: u32,
        ledger: usize,
    },
}

/// What a call gave back. Words that the call does not have are 0.
#[derive(Clone, Copy, Debug, Default, PartialEq, Eq)]
pub struct Answer {
    pub refusal: u64,
    pub out: [u64; 4],
}

impl Answer {
    fn new<const N: usize>((refusal, words): (u64, [u64; N])) -> Answer {
        let mut out = [0; 4];
        out[..N].copy_from_slice(&words);
        Answer { refusal, out }
    }
}

/// Makes one call on lent words. Only a Drain uses the ledger.
pub fn perform(bench: &dyn Bench, call: Call, words: &mut [u64], ledger: &mut [u64]) -> Answer {
    let only = |refusal| Answer::new((refusal, []));
    match call {
        Call::Make { sizes } => only(bench.make(words, sizes)),
        Call::Check => only(bench.check(words)),
        Call::Offer {
            node,
            destination,
            tag,
            chunks,
        } => only(bench.offer(words, node, destination, tag, chunks)),
        Call::Move {
            node,
            queue,
            output,
        } => Answer::new(bench.move_packet(words, node, queue, output)),
        Call::Credit { node, output } => Answer::new(bench.credit(words, node, output)),
        Call::Look { node, queue } => Answer::new(bench.look(words, node, queue)),
        Call::First => Answer::new(bench.first(words)),
        Call::Drain { budget, .. } => Answer::new(bench.drain(words, budget, ledger)),
    }
}

/// Writes one step of the waveform.
pub fn write(
    writer: &dyn WaveWriter,
    step: WaveStep,
    words: &[u64],
    fills: &mut [u8],
    page: &mut [u8],
) -> Answer {
    Answer::new(match step {
        WaveStep::Header => writer.write_header(words, fills, page),
        WaveStep::Changes => writer.write_changes(words, fills, page),
    })
}

/// Reads one step of the waveform.
pub fn read(reader: &dyn WaveReader, bytes: &[u8], fills: &mut [u8]) -> Answer {
    Answer::new(reader.read_step(bytes, fills))
}

/// The implementations at hand; the model is the first.
pub fn all(model: Model) -> Vec<Box<dyn Bench>> {
    #[allow(unused_mut)]
    let mut list: Vec<Box<dyn Bench>> = vec![
        Box::new(model),
        Box::new(Plain { simple: false }),
        Box::new(Plain { simple: true }),
    ];
    #[cfg(bench_lib)]
    list.push(Box::new(crate::ffi::Library));
    list
}

/// Those that write the waveform; the model is the first.
pub fn writers() -> Vec<Box<dyn WaveWriter>> {
    #[allow(unused_mut)]
    let mut list: Vec<Box<dyn WaveWriter>> = vec![
        Box::new(Model::default()),
        Box::new(Plain { simple: false }),
    ];
    #[cfg(bench_lib)]
    list.push(Box::new(crate::ffi::Library));
    list
}

/// Those that read it; the model is the first.
pub fn readers() -> Vec<Box<dyn WaveReader>> {
    #[allow(unused_mut)]
    let mut list: Vec<Box<dyn WaveReader>> = vec![Box::new(Model::default())];
    #[cfg(bench_lib)]
    list.push(Box::new(crate::ffi::Library));
    list
}

/// The independent simulator. It lists the moves of its last Drain, for those
/// who want to know the node of each delivery.
#[derive(Clone, Default)]
pub struct Model {
    pub last_drain: Rc<RefCell<Vec<Step>>>,
}

/// The refusal and the words of a result, all 0 on a refusal.
fn told<T, const N: usize>(
    result: Result<T, model::Refusal>,
    words: impl Fn(T) -> [u64; N],
) -> (u64, [u64; N]) {
    match result {
        Err(refusal) => (refusal.number(), [0; N]),
        Ok(answer) => (0, words(answer)),
    }
}

impl Bench for Model {
    fn name(&self) -> &'static str {
        "model"
    }

    fn searches_from_node_0(&self) -> bool {
        true
    }

    fn make(&self, words: &mut [u64], sizes: [u64; 6]) -> u64 {
        told(model::make(words, sizes), |_| []).0
    }

    fn check(&self, words: &[u64]) -> u64 {
        told(model::check(words), |_| []).0
    }

    fn offer(&self, words: &mut [u64], node: u64, destination: u64, tag: u32, chunks: u64) -> u64 {
        told(model::offer(words, node, destination, tag, chunks), |_| []).0
    }

    fn move_packet(
        &self,
        words: &mut [u64],
        node: u64,
        queue: u64,
        output: u64,
    ) -> (u64, [u64; 2]) {
        let moved = model::move_packet(words, node, queue, output);
        told(moved, |packet| packet.map_or([0, 0], |word| [1, word]))
    }

    fn credit(&self, words: &[u64], node: u64, output: u64) -> (u64, [u64; 1]) {
        told(model::credit(words, node, output), |free| [free])
    }

    fn look(&self, words: &[u64], node: u64, queue: u64) -> (u64, [u64; 2]) {
        told(model::look(words, node, queue), |part| {
            [part.start as u64, part.held as u64]
        })
    }

    fn first(&self, words: &[u64]) -> (u64, [u64; 4]) {
        told(model::first(words), |step| match step {
            None => [0; 4],
            Some(s) => [1, s.node as u64, s.queue as u64, s.output as u64],
        })
    }

    fn drain(&self, words: &mut [u64], budget: u32, ledger: &mut [u64]) -> (u64, [u64; 3]) {
        let mut steps = self.last_drain.borrow_mut();
        steps.clear();
        let drained = model::drain_with_list(words, budget, ledger, &mut steps);
        told(drained, |d| [d.moves, d.delivered, d.stop as u64])
    }
}

impl WaveWriter for Model {
    fn write_header(&self, words: &[u64], fills: &mut [u8], page: &mut [u8]) -> (u64, [u64; 1]) {
        told(model::wave::write_header(words, fills, page), |len| [len])
    }

    fn write_changes(&self, words: &[u64], fills: &mut [u8], page: &mut [u8]) -> (u64, [u64; 1]) {
        told(model::wave::write_changes(words, fills, page), |len| [len])
    }
}

impl WaveReader for Model {
    fn read_step(&self, bytes: &[u8], fills: &mut [u8]) -> (u64, [u64; 3]) {
        told(model::wave::read_step(bytes, fills), |step| {
            [step.header as u64, step.time, step.values.len() as u64]
        })
    }
}

/// The plain implementation, with one or the other of its drains.
pub struct Plain {
    pub simple: bool,
}

impl Bench for Plain {
    fn name(&self) -> &'static str {
        if self.simple {
            "plain, simple drain"
        } else {
            "plain"
        }
    }

    fn searches_from_node_0(&self) -> bool {
        self.simple
    }

    fn make(&self, words: &mut [u64], sizes: [u64; 6]) -> u64 {
        plain::make(words, sizes)
    }

    fn check(&self, words: &[u64]) -> u64 {
        plain::check(words)
    }

    fn offer(&self, words: &mut [u64], node: u64, destination: u64, tag: u32, chunks: u64) -> u64 {
        plain::offer(words, node, destination, tag, chunks)
    }

    fn move_packet(
        &self,
        words: &mut [u64],
        node: u64,
        queue: u64,
        output: u64,
    ) -> (u64, [u64; 2]) {
        plain::move_packet(words, node, queue, output)
    }

    fn credit(&self, words: &[u64], node: u64, output: u64) -> (u64, [u64; 1]) {
        plain::credit(words, node, output)
    }

    fn look(&self, words: &[u64], node: u64, queue: u64) -> (u64, [u64; 2]) {
        plain::look(words, node, queue)
    }

    fn first(&self, words: &[u64]) -> (u64, [u64; 4]) {
        plain::first(words)
    }

    fn drain(&self, words: &mut [u64], budget: u32, ledger: &mut [u64]) -> (u64, [u64; 3]) {
        if self.simple {
            plain::drain_simple(words, budget, ledger)
        } else {
            plain::drain(words, budget, ledger)
        }
    }
}

impl WaveWriter for Plain {
    fn write_header(&self, words: &[u64], fills: &mut [u8], page: &mut [u8]) -> (u64, [u64; 1]) {
        plain::write_header(words, fills, page)
    }

    fn write_changes(&self, words: &[u64], fills: &mut [u8], page: &mut [u8]) -> (u64, [u64; 1]) {
        plain::write_changes(words, fills, page)
    }
}
