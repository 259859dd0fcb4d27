//! First, and what it shares with the drains: one head's first permitted
//! output, and the search from node 0 on.

use super::check::open;
use super::{flow, load, routes, Layout, NONE, QUEUES};

/// A move: node, queue, output.
pub(super) type Step = (usize, usize, usize);

/// The first permitted output of one head; `free` tells how much is free of the
/// queue that an output from 1 on of a node leads to.
#[inline(always)]
pub(super) fn permitted(
    words: &[u64],
    layout: &Layout,
    free: impl Fn(usize, usize) -> usize,
    node: usize,
    queue: usize,
) -> Option<usize> {
    let source = layout.at(node, queue);
    if words[source] == 0 {
        return None;
    }
    let head = words[source + 1];
    routes(queue, head)
        .into_iter()
        .find(|&output| match output {
            0 => true,
            NONE => false,
            _ => flow(queue, output, head, free(node, output)) == 0,
        })
}

/// The first permitted move, looked for from node 0 on.
pub(super) fn search(
    words: &[u64],
    layout: &Layout,
    free: impl Fn(usize, usize) -> usize,
) -> Option<Step> {
    for node in 0..layout.nodes() {
        for queue in 0..QUEUES {
            if let Some(output) = permitted(words, layout, &free, node, queue) {
                return Some((node, queue, output));
            }
        }
    }
    None
}

/// The refusal, then whether a move was found, and its node, queue, output.
pub fn first(words: &[u64]) -> (u64, [u64; 4]) {
    let layout = match open(words) {
        Err(refusal) => return (refusal, [0; 4]),
        Ok((_, 0)) => return (0, [0; 4]),
        Ok((layout, _)) => layout,
    };
    // One search is too short to be worth tables of neighbours and loads.
    let free = |node, output| {
        let target = layout.at(layout.beyond(node, output), output);
        layout.cap[output] - load(output, &words[target..])
    };
    match search(words, &layout, free) {
        None => (0, [0; 4]),
        Some((node, queue, output)) => (0, [1, node as u64, queue as u64, output as u64]),
    }
}
