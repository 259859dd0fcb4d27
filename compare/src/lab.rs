//! The laboratory: makes one call on every implementation, each on its own
//! copy of the words, and compares the answers and every word with the
//! model's. It also keeps the counts that the comparison prints. `wave` does
//! the same for the calls of the waveform, which lend bytes.

mod wave;

use crate::bench::{all, perform, readers, writers, Answer, Bench, Call, Model};
use crate::bench::{WaveReader, WaveWriter};
use crate::equations::{Run, Survey};
use crate::generate::{ACCEPTED, DELIVERED, HEADER, MOVES};
use crate::model;

/// Words behind the lent ones, in each copy, that nobody may touch.
const GUARDS: usize = 4;
const RUBBISH: u64 = 0xa5a5_5a5a_c3c3_3c3c;
/// The refusals that a call can give.
pub const REFUSALS: [u64; 15] = [1, 2, 3, 4, 5, 6, 7, 8, 9, 10, 11, 12, 13, 14, 15];
/// One more than the largest of them.
const NUMBERS: usize = 16;

/// The answer, the words with their guards, the ledger with its guards.
type Outcome = (Answer, Vec<u64>, Vec<u64>);

/// What was done.
#[derive(Clone, Debug, Default)]
pub struct Counts {
    /// Calls, each made on every implementation.
    pub calls: u64,
    /// Runs of moves whose equations were checked.
    pub runs: u64,
    /// Moves in those runs, and packets handed out by them.
    pub moves: u64,
    pub handed_out: u64,
    /// How often each refusal was the answer; place 0 counts the calls that
    /// were not refused.
    pub refusals: [u64; NUMBERS],
}

pub struct Lab {
    /// The model, which is also the first of `benches`.
    model: Model,
    benches: Vec<Box<dyn Bench>>,
    writers: Vec<Box<dyn WaveWriter>>,
    readers: Vec<Box<dyn WaveReader>>,
    pub counts: Counts,
    /// Told when something differs: where we are.
    pub place: String,
}

impl Default for Lab {
    fn default() -> Lab {
        Lab::new()
    }
}

impl Lab {
    pub fn new() -> Lab {
        let model = Model::default();
        Lab {
            benches: all(model.clone()),
            writers: writers(),
            readers: readers(),
            model,
            counts: Counts::default(),
            place: String::new(),
        }
    }

    pub fn names(&self) -> Vec<&'static str> {
        self.benches.iter().map(|bench| bench.name()).collect()
    }

    fn fail(&self, name: &str, call: Call, why: &str, before: &[u64]) -> ! {
        let header = &before[..before.len().min(HEADER)];
        panic!(
            "{}: {name} in {call:?}: {why}\nwords {}, header {header:?}",
            self.place,
            before.len()
        );
    }

    /// Makes the call on all implementations. The words become those after
    /// the call; the ledger of a Drain is given back with the answer.
    pub fn call_with_ledger(&mut self, words: &mut Vec<u64>, call: Call) -> (Answer, Vec<u64>) {
        let room = match call {
            Call::Drain { ledger, .. } => ledger,
            _ => 0,
        };
        let mut first: Option<Outcome> = None;
        for bench in &self.benches {
            let mut store = words.clone();
            store.resize(words.len() + GUARDS, RUBBISH);
            let mut ledger = vec![RUBBISH; room + GUARDS];
            let (lent, book) = (&mut store[..words.len()], &mut ledger[..room]);
            let answer = perform(bench.as_ref(), call, lent, book);
            let mine = (answer, store, ledger);
            if let Some(model) = &first {
                if mine != *model {
                    let why = difference(model, &mine);
                    self.fail(bench.name(), call, &why, words);
                }
            }
            self.judge_alone(bench.name(), call, words, &mine);
            first.get_or_insert(mine);
        }
        let (answer, mut store, mut ledger) = first.expect("the model is always there");
        store.truncate(words.len());
        *words = store;
        ledger.truncate(room);
        self.counts.calls += 1;
        self.counts.refusals[answer.refusal as usize] += 1;
        (answer, ledger)
    }

    /// What must hold of every answer, whatever the model says.
    fn judge_alone(
        &self,
        name: &str,
        call: Call,
        before: &[u64],
        (answer, store, ledger): &Outcome,
    ) {
        let guards_kept = store[before.len()..].iter().all(|word| *word == RUBBISH)
            && ledger[ledger.len() - GUARDS..]
                .iter()
                .all(|word| *word == RUBBISH);
        if !guards_kept {
            self.fail(name, call, "wrote beyond the lent memory", before);
        }
        let unchanged = store[..before.len()] == *before;
        let unwritten = ledger.iter().all(|word| *word == RUBBISH);
        if answer.refusal != 0 && !(unchanged && unwritten) {
            self.fail(name, call, "refused and wrote", before);
        }
        if answer.refusal != 0 && answer.out != [0; 4] {
            self.fail(name, call, "refused and answered", before);
        }
        let reads_only = matches!(
            call,
            Call::Check | Call::Credit { .. } | Call::Look { .. } | Call::First
        );
        if reads_only && !unchanged {
            self.fail(name, call, "wrote, but only reads", before);
        }
        if answer.refusal == 0 {
            let need = need(store);
            if store[need..before.len()] != before[need..] {
                self.fail(name, call, "wrote after the last node", before);
            }
        }
        let written = answer.out[1] as usize;
        let drained = matches!(call, Call::Drain { .. });
        if drained && ledger[written..].iter().any(|word| *word != RUBBISH) {
            self.fail(name, call, "wrote to later ledger words", before);
        }
    }

    pub fn call(&mut self, words: &mut Vec<u64>, call: Call) -> Answer {
        self.call_with_ledger(words, call).0
    }

    /// Makes the call, forgets what it wrote, and gives the refusal.
    pub fn try_out(&mut self, words: &[u64], call: Call) -> u64 {
        self.call(&mut words.to_vec(), call).refusal
    }

    /// A run of moves from words that pass the check: every call on every
    /// implementation, and the equations of demand 3 at the end.
    pub fn run(&mut self, words: &mut Vec<u64>, mut next: impl FnMut(&[u64]) -> Option<Call>) {
        let mut run = Run::begin(words);
        while let Some(call) = next(words) {
            match call {
                Call::Move { node, .. } => {
                    let answer = self.call(words, call);
                    if answer.refusal == 0 {
                        let [handed_out, word, ..] = answer.out;
                        run.note(node, (handed_out == 1).then_some(word));
                    }
                }
                Call::Drain { budget, .. } => self.drain_in_run(words, call, budget, &mut run),
                _ => panic!("a run has Moves and Drains only"),
            }
        }
        if let Err(why) = run.verify(words) {
            self.fail("a run", Call::Check, &why, words);
        }
        self.passes_and_can_move(words);
        self.counts.runs += 1;
        self.counts.moves += run.moves();
        self.counts.handed_out += run.packets_out() as u64;
    }

    /// A Drain in a run. The model's list of moves tells the nodes; each stop
    /// has its condition, and the counts are those of the header words.
    fn drain_in_run(&mut self, words: &mut Vec<u64>, call: Call, budget: u32, run: &mut Run) {
        let before = words.clone();
        let (answer, ledger) = self.call_with_ledger(words, call);
        if answer.refusal != 0 {
            return;
        }
        let [moves, delivered, stop, _] = answer.out;
        let steps = self.model.last_drain.borrow().clone();
        let mut handed_out = ledger.iter().copied();
        for step in &steps {
            let word = (step.output == 0).then(|| handed_out.next()).flatten();
            run.note(step.node as u64, word);
        }
        let next = model::first(words).expect("it was not refused before");
        let empty = words[ACCEPTED] == words[DELIVERED];
        let full = delivered == ledger.len() as u64 && next.is_some_and(|step| step.output == 0);
        let right_stop = match stop {
            0 => empty,
            1 => !empty && moves == budget as u64,
            2 => !empty && moves < budget as u64 && full,
            _ => false,
        };
        let counted = moves == steps.len() as u64
            && moves == words[MOVES] - before[MOVES]
            && delivered == words[DELIVERED] - before[DELIVERED];
        if !(right_stop && counted) {
            self.fail("a drain", call, "wrong stop or counts", &before);
        }
    }

    /// R236, R237: a network still, and while it holds a packet there is a
    /// permitted move, the one that First names.
    pub fn passes_and_can_move(&mut self, words: &[u64]) {
        if self.try_out(words, Call::Check) != 0 {
            self.fail("a run", Call::Check, "the words fail the check", words);
        }
        let answer = self.call(&mut words.to_vec(), Call::First);
        let [found, node, queue, output] = answer.out;
        let held = words[ACCEPTED] != words[DELIVERED];
        if (found == 1) != held {
            self.fail("a run", Call::First, "a move exactly if held", words);
        }
        let named = Call::Move {
            node,
            queue,
            output,
        };
        if held && self.try_out(words, named) != 0 {
            self.fail("a run", named, "First's move is refused", words);
        }
    }

    /// Empties a network that is too large for those that search from node 0
    /// before every move, the model among them. The others are compared with
    /// each other, and each with what demand 3 says of such a drain.
    pub fn empty_a_large_one(&mut self, words: &[u64]) {
        let start = Survey::of(words);
        let held = start.labels.len();
        let call = Call::Drain {
            budget: u32::MAX,
            ledger: held,
        };
        let mut first: Option<(Vec<u64>, Vec<u64>)> = None;
        let quick = self.benches.iter().filter(|b| !b.searches_from_node_0());
        for bench in quick {
            let fail = |why: &str| self.fail(bench.name(), call, why, words);
            let (mut store, mut ledger) = (words.to_vec(), vec![RUBBISH; held]);
            let (refusal, out) = bench.drain(&mut store, u32::MAX, &mut ledger);
            if (refusal, out) != (0, [start.work_left, held as u64, 0]) {
                fail(&format!("answered {refusal} and {out:?}"));
            }
            let emptied = Survey {
                labels: Vec::new(),
                work_left: 0,
                delivered: start.accepted,
                moves_made: start.moves_made + start.work_left,
                ..start
            };
            if Survey::of(&store) != emptied {
                fail("the words are not those of an emptied network");
            }
            let mut labels = ledger.clone();
            labels.sort_unstable();
            if labels != start.labels {
                fail("the labels handed out are not those that were held");
            }
            let mine = (store, ledger);
            if first.as_ref().is_some_and(|other| *other != mine) {
                fail("differs from the one before");
            }
            first.get_or_insert(mine);
        }
        self.counts.calls += 1;
        self.counts.refusals[0] += 1;
        self.counts.runs += 1;
        self.counts.moves += start.work_left;
        self.counts.handed_out += held as u64;
    }

    /// A drain must do what First and Move do in turn, on each implementation
    /// alone and by its own calls.
    pub fn drain_is_moves_of_first(&mut self, words: &[u64], budget: u32, room: usize) {
        for bench in &self.benches {
            let (mut drained, mut stepped) = (words.to_vec(), words.to_vec());
            let (mut ledger, mut book) = (vec![RUBBISH; room], vec![RUBBISH; room]);
            let (refusal, out) = bench.drain(&mut drained, budget, &mut ledger);
            let (mut moves, mut delivered) = (0, 0);
            let stop = loop {
                let (_, [found, node, queue, output]) = bench.first(&stepped);
                if found == 0 {
                    break 0;
                }
                if moves == budget as u64 {
                    break 1;
                }
                if output == 0 && delivered == room {
                    break 2;
                }
                let (_, [handed_out, word]) = bench.move_packet(&mut stepped, node, queue, output);
                if handed_out == 1 {
                    book[delivered] = word;
                    delivered += 1;
                }
                moves += 1;
            };
            let same = refusal == 0
                && out == [moves, delivered as u64, stop]
                && drained == stepped
                && ledger == book;
            if !same {
                let call = Call::Drain {
                    budget,
                    ledger: room,
                };
                self.fail(bench.name(), call, "not the moves of First", words);
            }
        }
        self.counts.calls += 1;
        self.counts.refusals[0] += 1;
    }
}

/// The words that a network with this header needs.
fn need(words: &[u64]) -> usize {
    let &[x, y, z, e, a, j] = words.first_chunk().expect("a header");
    HEADER + (x * y * z * (13 + j + 48 * a + 6 * e)) as usize
}

/// The first difference between the model's outcome and another one.
fn difference(model: &Outcome, other: &Outcome) -> String {
    if model.0 != other.0 {
        return format!("answered {:?}, the model {:?}", other.0, model.0);
    }
    for (what, mine, theirs) in [
        ("word", &model.1, &other.1),
        ("ledger word", &model.2, &other.2),
    ] {
        for (index, (a, b)) in mine.iter().zip(theirs).enumerate() {
            if a != b {
                return format!("{what} {index} is {b:#x}, the model's {a:#x}");
            }
        }
    }
    "lengths differ".into()
}
