//! The C library under test. Its interface is that of include/bench.h.

use crate::bench::{Bench, WaveReader, WaveWriter};

extern "C" {
    fn bench_make(
        words: *mut u64,
        len: usize,
        x: u64,
        y: u64,
        z: u64,
        e: u64,
        a: u64,
        j: u64,
    ) -> u64;
    fn bench_check(words: *const u64, len: usize) -> u64;
    fn bench_offer(
        words: *mut u64,
        len: usize,
        node: u64,
        destination: u64,
        tag: u32,
        chunks: u64,
    ) -> u64;
    fn bench_move(
        words: *mut u64,
        len: usize,
        node: u64,
        queue: u64,
        output: u64,
        out: *mut u64,
    ) -> u64;
    fn bench_credit(words: *const u64, len: usize, node: u64, output: u64, out: *mut u64) -> u64;
    fn bench_look(words: *const u64, len: usize, node: u64, queue: u64, out: *mut u64) -> u64;
    fn bench_first(words: *const u64, len: usize, out: *mut u64) -> u64;
    fn bench_drain(
        words: *mut u64,
        len: usize,
        budget: u32,
        ledger: *mut u64,
        ledger_len: usize,
        out: *mut u64,
    ) -> u64;
    fn bench_write_header(
        words: *const u64,
        len: usize,
        fills: *mut u8,
        fills_len: usize,
        page: *mut u8,
        page_len: usize,
        out: *mut u64,
    ) -> u64;
    fn bench_write_changes(
        words: *const u64,
        len: usize,
        fills: *mut u8,
        fills_len: usize,
        page: *mut u8,
        page_len: usize,
        out: *mut u64,
    ) -> u64;
    fn bench_read_step(
        bytes: *const u8,
        bytes_len: usize,
        fills: *mut u8,
        fills_len: usize,
        out: *mut u64,
    ) -> u64;
}

/// What stands in `out` before a call, and after its end for good.
const RUBBISH: u64 = 0xdead_beef_dead_beef;
const LENT: usize = 6;

/// Lends `N` words for an answer; those behind them must stay as they are.
fn with_out<const N: usize>(call: impl FnOnce(*mut u64) -> u64) -> (u64, [u64; N]) {
    let mut lent = [RUBBISH; LENT];
    let refusal = call(lent.as_mut_ptr());
    let after = &lent[N..];
    assert!(after.iter().all(|w| *w == RUBBISH), "wrote beyond out");
    let mut out = [0; N];
    out.copy_from_slice(&lent[..N]);
    (refusal, out)
}

/// The library.
pub struct Library;

// Every call passes a pointer and the length of a live Rust slice, and the
// slices of one call do not overlap. That is all the library asks for.
impl Bench for Library {
    fn name(&self) -> &'static str {
        "library"
    }

    fn make(&self, words: &mut [u64], [x, y, z, e, a, j]: [u64; 6]) -> u64 {
        unsafe { bench_make(words.as_mut_ptr(), words.len(), x, y, z, e, a, j) }
    }

    fn check(&self, words: &[u64]) -> u64 {
        unsafe { bench_check(words.as_ptr(), words.len()) }
    }

    fn offer(&self, words: &mut [u64], node: u64, destination: u64, tag: u32, chunks: u64) -> u64 {
        let (start, len) = (words.as_mut_ptr(), words.len());
        unsafe { bench_offer(start, len, node, destination, tag, chunks) }
    }

    fn move_packet(
        &self,
        words: &mut [u64],
        node: u64,
        queue: u64,
        output: u64,
    ) -> (u64, [u64; 2]) {
        let (start, len) = (words.as_mut_ptr(), words.len());
        with_out(|out| unsafe { bench_move(start, len, node, queue, output, out) })
    }

    fn credit(&self, words: &[u64], node: u64, output: u64) -> (u64, [u64; 1]) {
        let (start, len) = (words.as_ptr(), words.len());
        with_out(|out| unsafe { bench_credit(start, len, node, output, out) })
    }

    fn look(&self, words: &[u64], node: u64, queue: u64) -> (u64, [u64; 2]) {
        let (start, len) = (words.as_ptr(), words.len());
        with_out(|out| unsafe { bench_look(start, len, node, queue, out) })
    }

    fn first(&self, words: &[u64]) -> (u64, [u64; 4]) {
        let (start, len) = (words.as_ptr(), words.len());
        with_out(|out| unsafe { bench_first(start, len, out) })
    }

    fn drain(&self, words: &mut [u64], budget: u32, ledger: &mut [u64]) -> (u64, [u64; 3]) {
        let (start, len) = (words.as_mut_ptr(), words.len());
        let (book, room) = (ledger.as_mut_ptr(), ledger.len());
        with_out(|out| unsafe { bench_drain(start, len, budget, book, room, out) })
    }
}

impl WaveWriter for Library {
    fn write_header(&self, words: &[u64], fills: &mut [u8], page: &mut [u8]) -> (u64, [u64; 1]) {
        let (start, len) = (words.as_ptr(), words.len());
        let (list, told) = (fills.as_mut_ptr(), fills.len());
        let (text, room) = (page.as_mut_ptr(), page.len());
        with_out(|out| unsafe { bench_write_header(start, len, list, told, text, room, out) })
    }

    fn write_changes(&self, words: &[u64], fills: &mut [u8], page: &mut [u8]) -> (u64, [u64; 1]) {
        let (start, len) = (words.as_ptr(), words.len());
        let (list, told) = (fills.as_mut_ptr(), fills.len());
        let (text, room) = (page.as_mut_ptr(), page.len());
        with_out(|out| unsafe { bench_write_changes(start, len, list, told, text, room, out) })
    }
}

impl WaveReader for Library {
    fn read_step(&self, bytes: &[u8], fills: &mut [u8]) -> (u64, [u64; 3]) {
        let (start, len) = (bytes.as_ptr(), bytes.len());
        let (list, told) = (fills.as_mut_ptr(), fills.len());
        with_out(|out| unsafe { bench_read_step(start, len, list, told, out) })
    }
}
