//! The bench program against `compare::sheet`. If BENCH_PROGRAM names an
//! executable, it is fed many sheets on standard input, plain and hostile, and
//! its standard output is compared byte by byte. Without the variable only the
//! sheets with a known output are run, through `compare::sheet` alone.

#[path = "sheets/known.rs"]
mod known;
#[path = "sheets/write.rs"]
mod write;

use compare::random::Random;
use compare::sheet;
use std::env;
use std::ffi::OsString;
use std::io::{Read, Write};
use std::process::{Child, Command, Stdio};
use std::thread;
use std::time::{Duration, Instant};

const LONGEST_RUN: Duration = Duration::from_secs(30);
const RANDOM_SHEETS: u64 = 400;

fn main() {
    let start = Instant::now();
    for (name, input, output) in known::sheets() {
        expect(name, &sheet::run(&input), &output);
    }
    println!("known sheets: {} agree", known::sheets().len());
    let program = match env::var_os("BENCH_PROGRAM") {
        Some(program) if !program.is_empty() => program,
        _ => {
            println!("BENCH_PROGRAM is not set: no program was run");
            return;
        }
    };
    let mut feeder = Feeder {
        program,
        random: Random::new(20),
        counts: Counts::default(),
    };
    for (name, input, _) in known::sheets() {
        feeder.compare(name, &input);
    }
    for (name, input) in write::hostile_sheets() {
        feeder.compare(&name, &input);
    }
    let mut random = Random::new(21);
    for round in 0..RANDOM_SHEETS {
        let input = write::random_sheet(&mut random);
        feeder.compare(&format!("random sheet {round}"), &input);
    }
    feeder.counts.print(start.elapsed());
}

/// What was compared.
#[derive(Default)]
struct Counts {
    sheets: u64,
    bytes_in: u64,
    lines_out: u64,
    /// How often each number stood after a letter, and each stop.
    numbers: [u64; 15],
    stops: [(&'static str, u64); 3],
}

impl Counts {
    fn add(&mut self, input: &[u8], output: &[u8]) {
        self.sheets += 1;
        self.bytes_in += input.len() as u64;
        self.stops = ["emptied", "spent", "full"].map(|name| {
            let before = self.stops.iter().find(|(known, _)| *known == name);
            (name, before.map_or(0, |(_, seen)| *seen))
        });
        for line in String::from_utf8_lossy(output).lines() {
            self.lines_out += 1;
            let fields: Vec<&str> = line.split(',').collect();
            if fields[0] != "P" {
                self.numbers[fields[1].parse::<usize>().expect("a refusal")] += 1;
            }
            for (name, seen) in &mut self.stops {
                *seen += u64::from(fields.last() == Some(name));
            }
        }
    }

    fn print(&self, time: Duration) {
        println!(
            "program: {} sheets, {} bytes in, {} lines out, {:.1} s",
            self.sheets,
            self.bytes_in,
            self.lines_out,
            time.as_secs_f64()
        );
        println!("not refused: {}", self.numbers[0]);
        for (name, seen) in self.stops {
            println!("{name}: {seen}");
            assert!(seen > 0, "{name} was never seen");
        }
        for (number, seen) in self.numbers.iter().enumerate().skip(1) {
            // A sheet cannot reach 3 (its store is a network or zero), and 8
            // takes 4294967295 offers, too many to run here.
            if number != 3 && number != 8 {
                println!("refusal {number}: {seen}");
                assert!(*seen > 0, "refusal {number} was never seen");
            }
        }
    }
}

struct Feeder {
    program: OsString,
    random: Random,
    counts: Counts,
}

impl Feeder {
    fn compare(&mut self, name: &str, input: &[u8]) {
        let output = sheet::run(input);
        expect(name, &self.run(name, input), &output);
        self.counts.add(input, &output);
    }

    /// Runs the program on one sheet, at once or in small pieces.
    fn run(&mut self, name: &str, input: &[u8]) -> Vec<u8> {
        let mut child = Command::new(&self.program)
            .stdin(Stdio::piped())
            .stdout(Stdio::piped())
            .spawn()
            .unwrap_or_else(|why| panic!("{:?} does not start: {why}", self.program));
        let mut to_child = child.stdin.take().expect("piped");
        let mut from_child = child.stdout.take().expect("piped");
        let in_pieces = input.len() < 4000 && self.random.chance(1, 2);
        let piece = if in_pieces {
            self.random.between(1, 13) as usize
        } else {
            1 << 20
        };
        let bytes = input.to_vec();
        let writer = thread::spawn(move || {
            for part in bytes.chunks(piece) {
                // A program that ends early shows in its output.
                if to_child
                    .write_all(part)
                    .and_then(|_| to_child.flush())
                    .is_err()
                {
                    return;
                }
                thread::yield_now();
            }
        });
        let reader = thread::spawn(move || {
            let mut output = Vec::new();
            from_child.read_to_end(&mut output).map(|_| output)
        });
        wait(name, &mut child);
        writer.join().expect("the writer ends");
        let output = reader.join().expect("the reader ends");
        output.expect("standard output can be read")
    }
}

/// Waits for the program's end; it must end well and in time.
fn wait(name: &str, child: &mut Child) {
    let start = Instant::now();
    loop {
        match child.try_wait().expect("the program can be waited for") {
            Some(status) => {
                assert!(status.success(), "{name}: the program ended with {status}");
                return;
            }
            None if start.elapsed() > LONGEST_RUN => {
                let _ = child.kill();
                panic!("{name}: the program did not end in time");
            }
            None => thread::sleep(Duration::from_micros(300)),
        }
    }
}

/// Compares two outputs and tells the first line that differs.
fn expect(name: &str, found: &[u8], wanted: &[u8]) {
    if found == wanted {
        return;
    }
    let pairs = found
        .split(|b| *b == b'\n')
        .zip(wanted.split(|b| *b == b'\n'));
    for (number, (f, w)) in pairs.enumerate() {
        if f != w {
            let (f, w) = (String::from_utf8_lossy(f), String::from_utf8_lossy(w));
            panic!("{name}: output line {} is {f:?} and not {w:?}", number + 1);
        }
    }
    let (f, w) = (found.len(), wanted.len());
    panic!("{name}: output has {f} bytes and not {w}");
}
