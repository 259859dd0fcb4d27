//! The waveform (docs/WAVEFORM.md): dumps written and read back while the
//! networks move on, lists and pages that are one byte too short, words that
//! are no network, and bytes that are no step.

use crate::kept::{make, move_call, put};
use compare::bench::{perform, Bench, Call, Plain, WaveStep};
use compare::damage::{one_word, FAULTS};
use compare::generate::{any_call, any_drain, network, Fill, Shape, FILLS, MOVES, QUEUES};
use compare::lab::Lab;
use compare::random::Random;

/// The variables of the largest header.
const MOST: usize = 4096 * QUEUES;
/// The bytes of the subset, and some that are none of it.
const BYTES: &[u8] = b"0123456789b# \n$nqd\r\tBxz+-.,;\0\x7f\x80\xb0\xff";

/// A dump of one node, whole.
const HEADER: &str = "$timescale 1 ns $end\n$scope module network $end\n\
    $var wire 8 0 n0q0 $end\n$var wire 8 1 n0q1 $end\n$var wire 8 2 n0q2 $end\n\
    $var wire 8 3 n0q3 $end\n$var wire 8 4 n0q4 $end\n$var wire 8 5 n0q5 $end\n\
    $var wire 8 6 n0q6 $end\n$var wire 8 7 n0q7 $end\n$var wire 8 8 n0q8 $end\n\
    $var wire 8 9 n0q9 $end\n$var wire 8 10 n0q10 $end\n\
    $var wire 8 11 n0q11 $end\n$var wire 8 12 n0q12 $end\n\
    $upscope $end\n$enddefinitions $end\n#0\n$dumpvars\n\
    b0 0\nb0 1\nb0 2\nb0 3\nb0 4\nb0 5\nb0 6\nb0 7\nb0 8\nb0 9\nb0 10\n\
    b0 11\nb0 12\n$end\n";
const LATER: &str = "#0\nb1 0\n";

/// Room for any step of a network with so many queues: a header's lines tell
/// each of them in at most 32 bytes by its name and in at most 15 by its value.
const fn room(queues: usize) -> usize {
    120 + 47 * queues
}

fn random_bytes(random: &mut Random, len: usize) -> Vec<u8> {
    (0..len).map(|_| random.number() as u8).collect()
}

/// The fills as the words have them.
fn fills_of(shape: &Shape, words: &[u64]) -> Vec<u8> {
    let queues = (0..shape.nodes()).flat_map(|node| (0..QUEUES).map(move |queue| (node, queue)));
    queues
        .map(|(node, queue)| words[shape.count_word(node, queue)] as u8)
        .collect()
}

/// The smallest dump, spelt out, is what is written and what is read. A node
/// alone takes no offer (R174), but words that hold such a packet are a network
/// (R86).
pub fn spelt_out(lab: &mut Lab) {
    lab.place = "a dump spelt out".into();
    let shape = Shape::new(1, 1, 1, 2, 1, 1);
    let room = room(QUEUES);
    let mut words = make(lab, shape);
    let mut fills = [7; QUEUES];
    let (answer, header) = lab.write(WaveStep::Header, &words, &mut fills, room);
    assert_eq!(answer.refusal, 0);
    assert_eq!(header, HEADER.as_bytes());
    put(&shape, &mut words, 0, 0, [0; 3]);
    let (answer, later) = lab.write(WaveStep::Changes, &words, &mut fills, room);
    assert_eq!((answer.refusal, answer.out[0]), (0, 8));
    assert_eq!(later, LATER.as_bytes());
    // Nothing has changed since then.
    let (_, still) = lab.write(WaveStep::Changes, &words, &mut fills, room);
    assert_eq!(still, b"#0\n");
    let mut list = [9; QUEUES + 1];
    assert_eq!(lab.read(&header, &mut list).out, [1, 0, 13, 0]);
    assert_eq!(list, [0, 0, 0, 0, 0, 0, 0, 0, 0, 0, 0, 0, 0, 9]);
    assert_eq!(lab.read(&later, &mut list).out, [0, 0, 1, 0]);
    assert_eq!(list, [1, 0, 0, 0, 0, 0, 0, 0, 0, 0, 0, 0, 0, 9]);
}

/// Queue 1 of node 1 gets its last packet: 64 of one chunk, and each of its fills
/// before that has fewer bits.
pub fn sixty_four(lab: &mut Lab) {
    lab.place = "a queue of 64".into();
    let shape = Shape::new(4, 1, 1, 2, 8, 1);
    let mut words = make(lab, shape);
    for _ in 0..63 {
        put(&shape, &mut words, 1, 1, [0; 3]);
    }
    put(&shape, &mut words, 0, 0, [1, 0, 0]);
    let (room, mut fills) = (room(shape.queues()), vec![7; shape.queues()]);
    let (answer, header) = lab.write(WaveStep::Header, &words, &mut fills, room);
    assert_eq!(answer.refusal, 0);
    let header = String::from_utf8(header).expect("it is text");
    assert!(header.contains("\nb1 0\n") && header.contains("\nb111111 14\n"));
    assert_eq!(lab.call(&mut words, move_call(0, 0, 1)).refusal, 0);
    let (answer, later) = lab.write(WaveStep::Changes, &words, &mut fills, room);
    assert_eq!((answer.refusal, fills[14]), (0, 64));
    assert_eq!(later, b"#1\nb0 0\nb1000000 14\n");
    let mut list = vec![9; shape.queues()];
    assert_eq!(lab.read(header.as_bytes(), &mut list).out, [1, 0, 52, 0]);
    assert_eq!((list[0], list[14]), (1, 63));
    assert_eq!(lab.read(&later, &mut list).out, [0, 1, 2, 0]);
    assert_eq!(list, fills);
}

/// One dump under way: the list of the writer, and that of a reader.
struct Dump {
    shape: Shape,
    written: Vec<u8>,
    read: Vec<u8>,
    /// Whether the steps since the last header told all that has changed.
    followed: bool,
}

impl Dump {
    /// Lists with anything in them, longer than needed.
    fn new(random: &mut Random, shape: Shape) -> Dump {
        let variables = shape.queues();
        let longer = random.below(20) as usize;
        Dump {
            shape,
            written: random_bytes(random, variables + longer),
            read: random_bytes(random, variables + 3),
            followed: false,
        }
    }

    /// Writes a step and reads it back.
    fn step(&mut self, lab: &mut Lab, step: WaveStep, words: &[u64]) {
        let (variables, header) = (self.shape.queues(), step == WaveStep::Header);
        let now = fills_of(&self.shape, words);
        let before = self.written.clone();
        let (answer, bytes) = lab.write(step, words, &mut self.written, room(variables));
        assert_eq!(answer.refusal, 0, "{}", lab.place);
        assert_eq!(answer.out, [bytes.len() as u64, 0, 0, 0]);
        assert_eq!(self.written[..variables], now);
        assert_eq!(self.written[variables..], before[variables..]);
        write_short(lab, step, words, &before[..variables], &bytes);

        let told = |variable: &usize| header || before[*variable] != now[*variable];
        let named: Vec<usize> = (0..variables).filter(told).collect();
        let mut wanted = self.read.clone();
        for variable in &named {
            wanted[*variable] = now[*variable];
        }
        let need = named.last().map_or(0, |largest| largest + 1);
        read_short(lab, &bytes, &self.read[..need], &wanted[..need]);
        let answer = lab.read(&bytes, &mut self.read);
        assert_eq!(answer.refusal, 0, "{}", lab.place);
        let told = [header as u64, words[MOVES], named.len() as u64, 0];
        assert_eq!(answer.out, told);
        assert_eq!(self.read, wanted, "{}", lab.place);
        self.followed |= header;
        if self.followed {
            assert_eq!(self.read[..variables], now, "{}", lab.place);
        }
    }
}

/// A list or a page that is one byte short is refused, and with that byte it
/// is not. `fills` is the list before the step.
fn write_short(lab: &mut Lab, step: WaveStep, words: &[u64], fills: &[u8], bytes: &[u8]) {
    let mut short = fills[1..].to_vec();
    let (answer, _) = lab.write(step, words, &mut short, bytes.len());
    assert_eq!(answer.refusal, 15, "{}: a short list", lab.place);
    let mut exact = fills.to_vec();
    let (answer, _) = lab.write(step, words, &mut exact, bytes.len() - 1);
    assert_eq!(answer.refusal, 15, "{}: a short page", lab.place);
    let (answer, again) = lab.write(step, words, &mut exact, bytes.len());
    assert_eq!((answer.refusal, &again[..]), (0, bytes), "{}", lab.place);
}

/// The same for a reader's list, before the step and after it.
fn read_short(lab: &mut Lab, bytes: &[u8], before: &[u8], after: &[u8]) {
    if let Some((_, short)) = before.split_first() {
        let answer = lab.read(bytes, &mut short.to_vec());
        assert_eq!(answer.refusal, 15, "{}: a reader's short list", lab.place);
    }
    let mut exact = before.to_vec();
    assert_eq!(lab.read(bytes, &mut exact).refusal, 0, "{}", lab.place);
    assert_eq!(exact, after, "{}", lab.place);
}

/// Brings a network on by a call; the calls themselves are compared elsewhere.
fn call(random: &mut Random, words: &mut [u64]) {
    let call = match random.below(12) {
        0 => any_drain(random),
        _ => any_call(random, words),
    };
    let room = match call {
        Call::Drain { ledger, .. } => ledger,
        _ => 0,
    };
    perform(&Plain { simple: false }, call, words, &mut vec![0; room]);
}

/// Dumps of networks that move on, with steps at any time.
pub fn dumps(lab: &mut Lab) {
    let mut random = Random::new(11);
    // Numbers of nodes at which a variable or a node gets one digit more.
    let sides = [[16, 1, 1], [1, 1, 7], [8, 1, 1], [1, 11, 7], [7, 11, 10]];
    for round in 0..300 {
        let shape = match sides.get(round) {
            Some(sides) => Shape::with_sides(&mut random, *sides),
            None => Shape::in_round(round - sides.len(), &mut random, 4),
        };
        lab.place = format!("dump {round} of {shape:?}");
        let fill = random.pick(&FILLS);
        let mut words = network(&mut random, &shape, fill);
        // Words behind the last node are none of the waveform's business.
        for _ in 0..random.below(3) {
            words.push(random.number());
        }
        let mut dump = Dump::new(&mut random, shape);
        // Now and then later steps come first: to the writer the list is all
        // that there is of the steps before.
        if random.chance(4, 5) {
            dump.step(lab, WaveStep::Header, &words);
        }
        for _ in 0..random.below(8) {
            for _ in 0..random.pick(&[0, 1, 1, 2, 10, 60]) {
                call(&mut random, &mut words);
            }
            let step = if random.chance(1, 12) {
                WaveStep::Header
            } else {
                WaveStep::Changes
            };
            dump.step(lab, step, &words);
            // Any contents may be lent, also others than the step before told.
            if random.chance(1, 6) {
                let variable = random.below(shape.queues() as u64) as usize;
                dump.written[variable] = random.below(65) as u8;
                dump.followed = false;
            }
        }
    }
}

/// A dump of 4,096 nodes, with 53,248 variables: a header, what a few moves
/// have changed, and every fill changed.
pub fn largest_dump(lab: &mut Lab) {
    let mut random = Random::new(18);
    let shape = Shape::new(16, 16, 16, 2, 1, 1);
    lab.place = "the largest dump".into();
    let mut words = network(&mut random, &shape, Fill::Mixed);
    let mut dump = Dump::new(&mut random, shape);
    dump.step(lab, WaveStep::Header, &words);
    for _ in 0..2 {
        call(&mut random, &mut words);
        dump.step(lab, WaveStep::Changes, &words);
    }
    dump.written.iter_mut().for_each(|fill| *fill ^= 64);
    dump.step(lab, WaveStep::Changes, &words);
}

/// Words that are no network: refused as Check does, whatever the room.
pub fn bad_words(lab: &mut Lab) {
    let mut random = Random::new(12);
    for round in 0..1500 {
        let most = random.pick(&[1, 2, 3]);
        let shape = Shape::in_round(round, &mut random, most);
        let fill = random.pick(&FILLS);
        let mut words = network(&mut random, &shape, fill);
        let mut len = words.len();
        match round % 3 {
            0 => one_word(&mut random, &shape, &mut words),
            1 => {
                let fault = &FAULTS[random.below(FAULTS.len() as u64) as usize];
                (fault.apply)(&mut random, &shape, &mut words);
            }
            _ => len = random.below(len as u64) as usize,
        }
        lab.place = format!("bad words, round {round} of {shape:?}");
        let wanted = Plain { simple: false }.check(&words[..len]);
        let variables = shape.queues();
        let enough = room(variables);
        for step in [WaveStep::Header, WaveStep::Changes] {
            for (list, room) in [(variables, enough), (variables, 0), (0, enough), (0, 0)] {
                let mut fills = random_bytes(&mut random, list);
                let (answer, _) = lab.write(step, &words[..len], &mut fills, room);
                let short = if list < variables || room == 0 { 15 } else { 0 };
                let number = if wanted == 0 { short } else { wanted };
                // A damaged header may have other sizes and still be good.
                let other_sizes = words[..3] != shape.sides;
                if wanted != 0 || !other_sizes {
                    assert_eq!(answer.refusal, number, "{}", lab.place);
                }
            }
        }
    }
}

/// A header with so many variables, a frame and names as they should be.
fn header(variables: usize, time: &str, fill: impl Fn(usize) -> String) -> String {
    let mut text = String::from("$timescale 1 ns $end\n$scope module network $end\n");
    for v in 0..variables {
        text += &format!("$var wire 8 {v} n{}q{} $end\n", v / QUEUES, v % QUEUES);
    }
    text += &format!("$upscope $end\n$enddefinitions $end\n#{time}\n$dumpvars\n");
    for v in 0..variables {
        text += &format!("b{} {v}\n", fill(v));
    }
    text + "$end\n"
}

/// Judges bytes, with a list that is long enough for all that they should tell.
struct Judge {
    /// Any contents.
    list: Vec<u8>,
    /// The list that is lent. After a refusal it is as it was.
    fills: Vec<u8>,
}

impl Judge {
    fn new(random: &mut Random, variables: usize) -> Judge {
        let list = random_bytes(random, variables);
        Judge {
            fills: list.clone(),
            list,
        }
    }

    fn refusal(&mut self, lab: &mut Lab, bytes: &[u8]) -> u64 {
        let refusal = lab.read(bytes, &mut self.fills).refusal;
        if refusal == 0 {
            self.fills.copy_from_slice(&self.list);
        }
        refusal
    }
}

/// Small steps with every byte replaced by others, left out or doubled, with
/// others put in before it, and cut off there.
pub fn every_byte(lab: &mut Lab) {
    let mut random = Random::new(13);
    let two_nodes = header(26, "18446744073709551615", |v| format!("{:b}", v * 10));
    // Each with a number of variables.
    let steps = [
        (HEADER, 1000),
        (LATER, 1000),
        (two_nodes.as_str(), 1000),
        ("#18446744073709551615\n", 1000),
        ("#1\nb11111111 0\nb0 9\nb1000 10\nb101 53247\n", MOST),
    ];
    for (index, (step, variables)) in steps.into_iter().enumerate() {
        let mut judge = Judge::new(&mut random, variables);
        let bytes = step.as_bytes();
        lab.place = format!("step {index}");
        assert_eq!(judge.refusal(lab, bytes), 0);
        for place in 0..bytes.len() {
            lab.place = format!("step {index}, byte {place}");
            // The bytes that are cut off stand behind those that are lent.
            judge.refusal(lab, &bytes[..place]);
            judge.refusal(lab, &bytes[place..]);
            let (before, after) = bytes.split_at(place);
            let with = |middle: &[u8], after: &[u8]| [before, middle, after].concat();
            judge.refusal(lab, &with(&[], &after[1..]));
            judge.refusal(lab, &with(&after[..1], after));
            let close = [after[0] ^ 1, after[0] ^ 0x20, after[0].wrapping_add(1)];
            for byte in BYTES.iter().chain(&close) {
                judge.refusal(lab, &with(&[*byte], &after[1..]));
                judge.refusal(lab, &with(&[*byte], after));
            }
        }
        for (other, _) in steps {
            lab.place = format!("step {index} and another");
            let both = [bytes, other.as_bytes()].concat();
            assert_eq!(judge.refusal(lab, &both), 13);
        }
        for byte in BYTES {
            lab.place = format!("step {index} and a byte");
            let number = judge.refusal(lab, &[bytes, &[*byte]].concat());
            assert_eq!(number, 13);
        }
    }
}

/// All short texts of the few bytes that later steps consist of.
pub fn every_short_text(lab: &mut Lab) {
    lab.place = "every short text".into();
    for (start, bytes, longest) in [
        ("", b"#01b \n".as_slice(), 7),
        ("#0\n", b"01b \n#", 6),
        ("#7\nb1 3\n", b"b1 034", 5),
        ("#7\nb1 23\n", b"b1 234\n", 5),
        ("#1844674407370955161", b"4567\n", 5),
    ] {
        let many = bytes.len();
        for len in 0..=longest {
            let mut text = start.as_bytes().to_vec();
            text.resize(start.len() + len, 0);
            for mut number in 0..many.pow(len as u32) {
                for place in &mut text[start.len()..] {
                    *place = bytes[number % many];
                    number /= many;
                }
                // Short lists, so that 15 is met as well.
                lab.read(&text, &mut [0xee; 24]);
            }
        }
    }
}

/// Headers of every number of nodes near the limits, and numbers near theirs.
pub fn limits(lab: &mut Lab) {
    let mut random = Random::new(14);
    let mut judge = Judge::new(&mut random, MOST);
    let zero = |_| String::from("0");
    for (variables, wanted) in [
        (0, 13),
        (1, 13),
        (9, 13),
        (12, 13),
        (13, 0),
        (14, 13),
        (18, 13),
        (26, 0),
        (143, 0),
        (MOST - 13, 0),
        (MOST - 1, 13),
        (MOST, 0),
        (MOST + 1, 13),
        (MOST + 13, 13),
        (2 * MOST, 13),
    ] {
        lab.place = format!("header of {variables} variables");
        let text = header(variables, "5", zero);
        assert_eq!(judge.refusal(lab, text.as_bytes()), wanted);
        if wanted == 0 {
            let mut short = vec![1; variables - 1];
            assert_eq!(lab.read(text.as_bytes(), &mut short).refusal, 15);
            let mut exact = vec![1; variables];
            let answer = lab.read(text.as_bytes(), &mut exact);
            assert_eq!(
                (answer.refusal, answer.out),
                (0, [1, 5, variables as u64, 0])
            );
        }
    }
    // Time stamps, values and variables, right and wrong, in both kinds of step.
    for _ in 0..400 {
        let time = match random.below(5) {
            0 => random.number().to_string(),
            1 => (random.number() >> random.below(64)).to_string(),
            2 => (u64::MAX as u128 + random.below(3) as u128).to_string(),
            3 => (random.number() as u128 * 10).to_string(),
            _ => format!("{:0>20}", random.number() >> random.below(64)),
        };
        let odd = random.below(40) as usize;
        let bits = match random.below(6) {
            0 => format!("{:b}", 256 + random.below(2)),
            1 => format!("{:08b}", random.below(256)),
            2 => String::new(),
            _ => format!("{:b}", random.below(256)),
        };
        lab.place = format!("time {time}, bits {bits}");
        let value = |v| if v == odd { bits.clone() } else { "1".into() };
        let header = header(26, &time, value);
        judge.refusal(lab, header.as_bytes());
        let variable = match random.below(4) {
            0 => MOST as u64 + random.below(2),
            1 => u64::MAX - random.below(2),
            2 => (1 << random.pick(&[8, 12, 15, 16, 31, 32, 63])) + random.below(3),
            _ => random.below(MOST as u64),
        };
        let text = format!("#{time}\nb1 3\nb{bits} {variable}\n");
        judge.refusal(lab, text.as_bytes());
    }
}

/// Steps with their lines in another order, a line twice or left out, a line
/// of another kind, or another end of a line.
pub fn lines_of_steps(lab: &mut Lab) {
    let mut random = Random::new(15);
    let mut judge = Judge::new(&mut random, 1000);
    for round in 0..3000 {
        lab.place = format!("lines of a step, round {round}");
        let text = if random.chance(1, 2) {
            let variables = QUEUES * random.between(1, 3) as usize;
            header(variables, "12", |v| format!("{v:b}"))
        } else {
            let mut text = format!("#{}\n", random.below(1000));
            for v in 0..40 {
                if random.chance(1, 5) {
                    text += &format!("b{:b} {v}\n", random.below(256));
                }
            }
            text
        };
        let mut lines: Vec<&str> = text.split_inclusive('\n').collect();
        let one = random.below(lines.len() as u64) as usize;
        let other = random.below(lines.len() as u64) as usize;
        let (line, end) = lines[one].split_at(lines[one].len() - 1);
        let ends = ["\r\n", " \n", "\n\n", "\r", ""];
        let ended = [line, random.pick(&ends)].concat();
        match random.below(7) {
            0 => lines.swap(one, other),
            1 => lines.insert(one, lines[other]),
            2 => drop(lines.remove(one)),
            3 => lines[one] = lines[other],
            4 => lines[one] = random.pick(&["#0\n", "$end\n", "$dumpvars\n", "b1 0\n"]),
            5 => lines[one] = &ended,
            // As it was; the end is the one that all lines have.
            _ => assert_eq!(end, "\n"),
        }
        judge.refusal(lab, lines.concat().as_bytes());
    }
    // Every line with CR LF, as the answers of a sheet have.
    for text in [HEADER, LATER, "#0\n"] {
        lab.place = "lines with CR LF".into();
        let text = text.replace('\n', "\r\n");
        assert_eq!(judge.refusal(lab, text.as_bytes()), 13);
    }
}
