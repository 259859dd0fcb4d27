//! Times the plain implementation and the C library side by side, in one run
//! and turn by turn, and prints the medians and their ratio as Markdown. If
//! the library is not linked (see build.rs), the model stands in its place.

use compare::bench::{perform, write, Bench, Call, Plain, WaveStep, WaveWriter};
use compare::generate::{network_of, Chunks, Fill, Shape};
use compare::generate::{ACCEPTED, DELIVERED, DIMENSIONS, MOST_CHUNKS, MOVES, QUEUES};
use compare::random::Random;
use std::hint::black_box;
use std::time::{Duration, Instant};

/// X, Y and Z of the networks. What a move costs may not grow from the first to
/// the third; the fourth is flat.
const NETWORKS: [[u64; DIMENSIONS]; 4] = [[4, 4, 4], MIDDLE, [16, 16, 16], [16, 16, 1]];
const MIDDLE: [u64; DIMENSIONS] = [8, 8, 8];
/// How full they are, of packets of mixed chunks.
const FILLS: [(&str, Fill); 3] = [
    ("empty", Fill::Empty),
    ("half full", Fill::Half),
    ("full", Fill::Full),
];
/// In one network drained moves are held against each other for packets of these
/// chunks: 64 and 8 of them fill an adaptive queue.
const EQUAL: [(&str, Chunks); 2] = [
    ("full of 1", Chunks::Equal(1)),
    ("full of 8", Chunks::Equal(MOST_CHUNKS)),
];
const CALLS: [&str; 5] = ["Check", "Move", "Offer", "First", "Drain"];
/// The steps of the waveform, and how many fills have changed since the one
/// before; a header does not ask.
const STEPS: [(&str, WaveStep, Changed); 4] = [
    ("header", WaveStep::Header, Changed::None),
    ("nothing changed", WaveStep::Changes, Changed::None),
    ("2 changed", WaveStep::Changes, Changed::Two),
    ("all changed", WaveStep::Changes, Changed::All),
];
/// Room for every step: the largest has two lines for each of 53,248 queues,
/// with at most 32 and 15 bytes.
const PAGE: usize = 120 + 47 * 4096 * QUEUES;

/// A move changes two fills, unless it delivers.
#[derive(Clone, Copy)]
enum Changed {
    None,
    Two,
    All,
}

/// Enough samples for a median, and then enough time for a steady one.
const FEWEST: usize = 7;
const MOST: usize = 2001;
const ENOUGH: Duration = Duration::from_millis(400);
/// What takes longer than this in all is not sampled any further.
const TOO_LONG: Duration = Duration::from_secs(60);
/// Moves of drains that are timed together, at least.
const MOVES_A_SAMPLE: u64 = 200_000;
/// Networks of more nodes are not emptied by a search from node 0 before every
/// move: that takes minutes.
const MOST_TO_SEARCH: u64 = 256;

/// A network to measure calls on, with capacities of 8 slots.
struct Case {
    shape: Shape,
    fill: &'static str,
    words: Vec<u64>,
}

impl Case {
    fn new(sides: [u64; DIMENSIONS], name: &'static str, fill: Fill, chunks: Chunks) -> Case {
        let shape = Shape::of(sides, [8, 8, 8]);
        let mut words = network_of(&mut Random::new(sides[0]), &shape, fill, chunks);
        // Counters that never get in the way.
        words[ACCEPTED] -= words[DELIVERED];
        words[DELIVERED] = 0;
        words[MOVES] = 0;
        Case {
            shape,
            fill: name,
            words,
        }
    }

    /// Every network with every fill.
    fn all() -> Vec<Case> {
        let mixed = |sides| FILLS.map(|(name, fill)| Case::new(sides, name, fill, Chunks::Mixed));
        NETWORKS.into_iter().flat_map(mixed).collect()
    }

    /// Full networks of packets that have the same chunks.
    fn equal() -> [Case; 2] {
        EQUAL.map(|(name, chunks)| Case::new(MIDDLE, name, Fill::Full, chunks))
    }

    /// The sides as a table shows them.
    fn nodes(&self) -> String {
        self.shape.sides.map(|side| side.to_string()).join(" × ")
    }

    fn is_emptied_by(&self, bench: &dyn Bench) -> bool {
        !bench.searches_from_node_0() || self.shape.nodes() <= MOST_TO_SEARCH
    }

    /// The call to time: the Move is the one that First names.
    fn call(&self, name: &str) -> Call {
        let (_, [_, node, queue, output]) = Plain { simple: false }.first(&self.words);
        match name {
            "Check" => Call::Check,
            "Move" => Call::Move {
                node,
                queue,
                output,
            },
            "Offer" => Call::Offer {
                node: 0,
                destination: self.shape.nodes() / 2 + 1,
                tag: 7,
                chunks: 5,
            },
            "First" => Call::First,
            _ => Call::Drain {
                budget: u32::MAX,
                ledger: self.words.len(),
            },
        }
    }
}

/// Times one call on a fresh copy of the words.
fn sample(
    bench: &dyn Bench,
    call: Call,
    words: &[u64],
    store: &mut [u64],
    ledger: &mut [u64],
) -> (Duration, u64) {
    store.copy_from_slice(words);
    let start = Instant::now();
    let answer = perform(black_box(bench), black_box(call), store, ledger);
    let time = start.elapsed();
    (time, black_box(answer).refusal)
}

fn median(mut times: Vec<Duration>) -> Duration {
    times.sort();
    times[times.len() / 2]
}

/// What was measured of one call.
struct Measured {
    /// The median of each implementation.
    times: Vec<Duration>,
    samples: usize,
    refusal: u64,
}

/// Measures several implementations in turn; `sample` times one of them once
/// and gives the refusal.
fn in_turns(many: usize, mut sample: impl FnMut(usize) -> (Duration, u64)) -> Measured {
    let mut times = vec![Vec::new(); many];
    let start = Instant::now();
    let mut refusal = 0;
    loop {
        for (index, times) in times.iter_mut().enumerate() {
            let (time, answer) = sample(index);
            times.push(time);
            refusal = answer;
        }
        let (count, spent) = (times[0].len(), start.elapsed());
        if count >= MOST || spent > TOO_LONG || (count >= FEWEST && spent > ENOUGH) {
            return Measured {
                times: times.into_iter().map(median).collect(),
                samples: count,
                refusal,
            };
        }
    }
}

/// Measures a call on several implementations.
fn measure(benches: &[&dyn Bench], call: Call, words: &[u64]) -> Measured {
    let mut store = words.to_vec();
    let mut ledger = match call {
        Call::Drain { ledger, .. } => vec![0; ledger],
        _ => Vec::new(),
    };
    in_turns(benches.len(), |index| {
        sample(benches[index], call, words, &mut store, &mut ledger)
    })
}

/// Measures a step on several implementations. Each call gets the list as it
/// was after the step before, and so has the same lines to write.
fn measure_step(
    writers: &[&dyn WaveWriter],
    step: WaveStep,
    words: &[u64],
    told: &[u8],
) -> Measured {
    let (mut fills, mut page) = (told.to_vec(), vec![0; PAGE]);
    in_turns(writers.len(), |index| {
        fills.copy_from_slice(told);
        let (writer, step) = (black_box(writers[index]), black_box(step));
        let start = Instant::now();
        let answer = write(writer, step, words, &mut fills, &mut page);
        let time = start.elapsed();
        black_box(&page);
        (time, black_box(answer).refusal)
    })
}

fn shown(time: Duration) -> String {
    let nanos = time.as_nanos() as f64;
    match nanos {
        n if n < 1e3 => format!("{n:.0} ns"),
        n if n < 1e6 => format!("{:.2} µs", n / 1e3),
        n if n < 1e9 => format!("{:.2} ms", n / 1e6),
        n => format!("{:.2} s", n / 1e9),
    }
}

/// A part of a time that may be less than a nanosecond.
fn shown_part(time: Duration, parts: u64) -> String {
    format!("{:.3} ns", time.as_secs_f64() * 1e9 / parts as f64)
}

fn ratio(a: Duration, b: Duration) -> f64 {
    a.as_secs_f64() / b.as_secs_f64()
}

#[cfg(bench_lib)]
fn other() -> compare::ffi::Library {
    compare::ffi::Library
}

#[cfg(not(bench_lib))]
fn other() -> compare::bench::Model {
    compare::bench::Model::default()
}

fn main() {
    let plain = Plain { simple: false };
    let simple = Plain { simple: true };
    let other = other();
    let (cases, equal) = (Case::all(), Case::equal());
    let empty = calls(&[&plain, &other], &cases);
    times_a_word(&[&plain, &other], &empty);
    drained_moves(&[&plain, &simple, &other], &cases, &equal);
    steps(&[&plain, &other], &cases);
}

/// The calls. Gives the times of Check on the empty networks.
fn calls<'a>(benches: &[&dyn Bench], cases: &'a [Case]) -> Vec<(&'a Case, Vec<Duration>)> {
    let name = benches[1].name();
    println!("Medians of calls on networks with 8 slots in every queue and packets of 1 to 8");
    println!("chunks. The ratio is {name} to plain. A number in brackets is the refusal that");
    println!("was the answer.\n");
    println!("| Call | Nodes | Fill | plain | {name} | ratio | samples |");
    println!("|---|---|---|---|---|---|---|");
    let mut empty = Vec::new();
    for call_name in CALLS {
        for case in cases {
            if call_name == "Drain" && !case.is_emptied_by(benches[1]) {
                continue;
            }
            let measured = measure(benches, case.call(call_name), &case.words);
            let refused = match measured.refusal {
                0 => String::new(),
                number => format!(" ({number})"),
            };
            let (a, b) = (measured.times[0], measured.times[1]);
            println!(
                "| {call_name}{refused} | {} | {} | {} | {} | {:.2} | {} |",
                case.nodes(),
                case.fill,
                shown(a),
                shown(b),
                ratio(b, a),
                measured.samples
            );
            if case.fill == "empty" && call_name == "Check" {
                empty.push((case, measured.times));
            }
        }
    }
    empty
}

/// The times of Check on empty networks, word by word: these depend least on how
/// many words a queue has.
fn times_a_word(benches: &[&dyn Bench], empty: &[(&Case, Vec<Duration>)]) {
    let [plain, other] = [benches[0], benches[1]].map(|bench| bench.name());
    println!("\nCheck of an empty network again: the time for one of its words.\n");
    println!("| Nodes | Words | {plain}, a word | {other}, a word |");
    println!("|---|---|---|---|");
    for (case, times) in empty {
        let words = case.words.len() as u64;
        println!(
            "| {} | {words} | {} | {} |",
            case.nodes(),
            shown_part(times[0], words),
            shown_part(times[1], words),
        );
    }
}

/// The fills that the step before told: those of the words now, but for some.
fn told_before(case: &Case, changed: Changed, page: &mut [u8]) -> Vec<u8> {
    let mut fills = vec![0; case.shape.queues()];
    let (refusal, _) = Plain { simple: false }.write_header(&case.words, &mut fills, page);
    assert_eq!(refusal, 0);
    let middle = fills.len() / 2;
    match changed {
        Changed::None => (),
        Changed::Two => [0, middle].iter().for_each(|index| fills[*index] ^= 1),
        Changed::All => fills.iter_mut().for_each(|fill| *fill ^= 1),
    }
    fills
}

/// The steps of the waveform.
fn steps(writers: &[&dyn WaveWriter], cases: &[Case]) {
    let [plain, other] = [writers[0], writers[1]].map(|writer| writer.name());
    println!("\nSteps of the waveform: medians of calls that write one.\n");
    println!("| Step | Nodes | Fill | Bytes | {plain} | {other} | ratio | samples |");
    println!("|---|---|---|---|---|---|---|---|");
    for (step_name, step, changed) in STEPS {
        for case in cases {
            let mut page = vec![0; PAGE];
            let told = told_before(case, changed, &mut page);
            let answer = write(writers[0], step, &case.words, &mut told.clone(), &mut page);
            let measured = measure_step(writers, step, &case.words, &told);
            assert_eq!((answer.refusal, measured.refusal), (0, 0));
            let (a, b) = (measured.times[0], measured.times[1]);
            println!(
                "| {step_name} | {} | {} | {} | {} | {} | {:.2} | {} |",
                case.nodes(),
                case.fill,
                answer.out[0],
                shown(a),
                shown(b),
                ratio(b, a),
                measured.samples
            );
        }
    }
}

/// A full network to be emptied by one of the implementations.
struct Emptying<'a> {
    bench: &'a dyn Bench,
    case: &'a Case,
    moves: u64,
}

impl Emptying<'_> {
    /// The time of one drain. Where it makes few moves it is made several times.
    fn sample(&self) -> Duration {
        let (call, words) = (self.case.call("Drain"), &self.case.words);
        let (mut store, mut ledger) = (words.clone(), words.clone());
        let times = (MOVES_A_SAMPLE / self.moves).max(1) as u32;
        let drains = (0..times).map(|_| sample(self.bench, call, words, &mut store, &mut ledger));
        drains.map(|(time, _)| time).sum::<Duration>() / times
    }
}

/// Every network with every implementation that empties it.
fn emptyings<'a>(
    benches: &[&'a dyn Bench],
    cases: impl Iterator<Item = &'a Case>,
) -> Vec<Emptying<'a>> {
    let mut list = Vec::new();
    for case in cases {
        let (mut store, mut ledger) = (case.words.clone(), case.words.clone());
        let (_, [moves, ..]) = benches[0].drain(&mut store, u32::MAX, &mut ledger);
        let able = benches.iter().filter(|bench| case.is_emptied_by(**bench));
        list.extend(able.map(|bench| Emptying {
            bench: *bench,
            case,
            moves,
        }));
    }
    list
}

/// The cost of one drained move in small and large networks, all full, and in one
/// that is full of small packets beside the same full of large ones. They are all
/// measured in turns, so that networks too can be compared.
fn drained_moves<'a>(benches: &[&'a dyn Bench], cases: &'a [Case], equal: &'a [Case]) {
    println!("\nOne move of a drain that empties a full network, all of them in turns. Wanted is");
    println!("at most 2 in the column `to its own 4 × 4 × 4` for 16 × 16 × 16, and at most 2 in");
    println!("the next, which holds 8 × 8 × 8 full of packets of 1 chunk against the same full");
    println!("of packets of 8. A drain that searches from node 0 before every move is left out");
    println!("of networks with more than {MOST_TO_SEARCH} nodes.\n");
    println!("| Drain | Nodes | Fill | Moves | Whole drain | One move | to plain | to its own 4 × 4 × 4 | to its own full of 8 | samples |");
    println!("|---|---|---|---|---|---|---|---|---|---|");
    let full = cases.iter().filter(|case| case.fill == "full");
    let list = emptyings(benches, full.chain(equal));
    let Measured { times, samples, .. } = in_turns(list.len(), |index| (list[index].sample(), 0));
    let one_move = |index: usize| times[index] / list[index].moves as u32;
    for (index, Emptying { bench, case, moves }) in list.iter().enumerate() {
        let to = |wanted: &dyn Fn(&Emptying) -> bool| {
            let other = list.iter().position(wanted);
            other.map(|other| ratio(one_move(index), one_move(other)))
        };
        // Plain is the first in each network, and each is first in the smallest.
        let own = |e: &Emptying| e.bench.name() == bench.name();
        let to_plain = to(&|e| e.case.nodes() == case.nodes() && e.case.fill == case.fill);
        let to_smallest = to(&own);
        let to_large = to(&|e| own(e) && case.fill != "full" && e.case.fill == "full of 8");
        let [to_plain, to_smallest, to_large] = [to_plain, to_smallest, to_large]
            .map(|ratio| ratio.map_or("-".into(), |ratio| format!("{ratio:.2}")));
        println!(
            "| {} | {} | {} | {moves} | {} | {} | {to_plain} | {to_smallest} | {to_large} | {samples} |",
            bench.name(),
            case.nodes(),
            case.fill,
            shown(times[index]),
            shown(one_move(index)),
        );
    }
}
