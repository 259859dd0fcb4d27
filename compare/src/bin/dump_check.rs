//! Holds a dump of the program `wave` to the lines of `fills`, step by step.
//!
//!     dump_check DUMP FILLS [CONVERTED]
//!
//! DUMP is one dump. It is read by docs/WAVEFORM.md alone, and anything that is
//! not as written there is an error. FILLS has the lines of `fills` for this one
//! network. CONVERTED, if given, is the dump after other programs have read it
//! and written it again: at each time stamp it has to tell the same fills, the
//! last value at a stamp being the one that counts. It prints the number of
//! steps; if something is wrong it says what, and its status is 1.

use compare::model::network::QUEUES;
use std::collections::{BTreeMap, BTreeSet};
use std::{env, fs, process};

const MOST_NODES: usize = 4096;

/// What a step tells: its time stamp, and the fills after it.
#[derive(Clone, Debug, PartialEq, Eq)]
struct Step {
    time: u64,
    fills: Vec<u64>,
}

fn name(variable: usize) -> String {
    format!("n{}q{}", variable / QUEUES, variable % QUEUES)
}

// ---- The strict reader of WAVEFORM.md.

/// The lines of a dump, and the number of the line that comes next.
struct Lines<'a> {
    lines: Vec<&'a str>,
    next: usize,
}

impl<'a> Lines<'a> {
    fn new(bytes: &'a [u8]) -> Result<Lines<'a>, String> {
        if !bytes.is_ascii() {
            return Err("a byte that is not ASCII".into());
        }
        let text = std::str::from_utf8(bytes).expect("it is ASCII");
        let Some(text) = text.strip_suffix('\n') else {
            return Err("it does not end in LF".into());
        };
        Ok(Lines {
            lines: text.split('\n').collect(),
            next: 0,
        })
    }

    fn peek(&self) -> Option<&'a str> {
        self.lines.get(self.next).copied()
    }

    /// An error in the next line.
    fn wrong(&self, wanted: &str) -> String {
        let line = self.peek().map_or("the end".into(), |l| format!("{l:?}"));
        format!("line {}: {line} instead of {wanted}", self.next + 1)
    }

    fn exactly(&mut self, wanted: &str) -> Result<(), String> {
        if self.peek() != Some(wanted) {
            return Err(self.wrong(&format!("{wanted:?}")));
        }
        self.next += 1;
        Ok(())
    }

    fn time(&mut self) -> Result<u64, String> {
        let digits = self.peek().and_then(|line| line.strip_prefix('#'));
        let Some(time) = digits.and_then(number) else {
            return Err(self.wrong("a time stamp"));
        };
        self.next += 1;
        Ok(time)
    }

    /// A line that tells a value: the variable and its fill.
    fn value(&mut self) -> Result<(usize, u64), String> {
        let words = self
            .peek()
            .and_then(|line| line.strip_prefix('b'))
            .and_then(|line| line.split_once(' '));
        let Some((fill, variable)) =
            words.and_then(|(bits, code)| Some((fill(bits)?, number(code)?)))
        else {
            return Err(self.wrong("a value"));
        };
        self.next += 1;
        Ok((variable as usize, fill))
    }
}

/// A number in decimal, in its shortest form, below 2^64.
fn number(digits: &str) -> Option<u64> {
    // No plus sign, which `parse` would take.
    let shortest = digits == "0" || !digits.starts_with('0');
    let digits_only = digits.bytes().all(|byte| byte.is_ascii_digit());
    if shortest && digits_only {
        digits.parse().ok()
    } else {
        None
    }
}

/// A binary number in its shortest form, of one to eight digits.
fn fill(bits: &str) -> Option<u64> {
    let shortest = bits == "0" || bits.starts_with('1');
    let bits_only = bits.bytes().all(|byte| matches!(byte, b'0' | b'1'));
    if shortest && bits_only && bits.len() <= 8 {
        u64::from_str_radix(bits, 2).ok()
    } else {
        None
    }
}

/// Reads a dump as strictly as WAVEFORM.md has it.
fn read_dump(bytes: &[u8]) -> Result<Vec<Step>, String> {
    let mut lines = Lines::new(bytes)?;
    lines.exactly("$timescale 1 ns $end")?;
    lines.exactly("$scope module network $end")?;
    let mut variables = 0;
    while lines.peek() != Some("$upscope $end") {
        lines.exactly(&format!("$var wire 8 {variables} {} $end", name(variables)))?;
        variables += 1;
    }
    if variables % QUEUES != 0 || variables == 0 || variables > MOST_NODES * QUEUES {
        return Err(format!("{variables} variables"));
    }
    lines.exactly("$upscope $end")?;
    lines.exactly("$enddefinitions $end")?;
    let mut step = Step {
        time: lines.time()?,
        fills: Vec::new(),
    };
    lines.exactly("$dumpvars")?;
    for wanted in 0..variables {
        let (variable, fill) = lines.value()?;
        if variable != wanted {
            lines.next -= 1;
            return Err(lines.wrong(&format!("the value of {wanted}")));
        }
        step.fills.push(fill);
    }
    lines.exactly("$end")?;
    let mut steps = vec![step];
    while lines.peek().is_some() {
        let step = later_step(&mut lines, &steps[steps.len() - 1].fills)?;
        steps.push(step);
    }
    Ok(steps)
}

/// A later step: just the fills that are not those of the step before.
fn later_step(lines: &mut Lines, before: &[u64]) -> Result<Step, String> {
    let time = lines.time()?;
    let mut fills = before.to_vec();
    // Variables below this one are not told any more.
    let mut rising = 0;
    while lines.peek().is_some_and(|line| !line.starts_with('#')) {
        let (variable, fill) = lines.value()?;
        lines.next -= 1;
        if variable >= fills.len() {
            return Err(lines.wrong("a variable of this dump"));
        }
        if variable < rising {
            return Err(lines.wrong(&format!("a variable from {rising} on")));
        }
        if fill == fills[variable] {
            return Err(lines.wrong("another fill than the step before told"));
        }
        fills[variable] = fill;
        rising = variable + 1;
        lines.next += 1;
    }
    Ok(Step { time, fills })
}

// ---- The lines of `fills`.

fn read_fills(text: &str) -> Result<Vec<Step>, String> {
    let mut networks = BTreeSet::new();
    let mut steps = Vec::new();
    for line in text.lines() {
        let numbers: Option<Vec<u64>> = line.split(' ').map(number).collect();
        match numbers.as_deref() {
            Some([network, time, fills @ ..]) => {
                networks.insert(*network);
                steps.push(Step {
                    time: *time,
                    fills: fills.to_vec(),
                });
            }
            _ => return Err(format!("{line:?} is no line of fills")),
        }
    }
    match networks.len() {
        1 => Ok(steps),
        others => Err(format!("the lines of {others} networks instead of one")),
    }
}

// ---- The other readers' dump.

/// The values of a dump by name, at each time stamp the last ones.
type Waves = BTreeMap<u64, BTreeMap<String, u64>>;

/// Reads what a converter wrote: any sections, any codes, any widths, values
/// with or without leading zeros, a range behind a name or none. Stamps may be
/// left out or added where nothing changes. It is not the reader of the subset.
fn read_converted(text: &str) -> Result<Waves, String> {
    let mut words = text.split_ascii_whitespace();
    // Several names may have one code.
    let mut names: BTreeMap<&str, Vec<String>> = BTreeMap::new();
    let mut waves = Waves::new();
    let mut now = BTreeMap::new();
    let mut time = None;
    while let Some(word) = words.next() {
        let told = match word.split_at(word.len().min(1)) {
            ("$", "dumpvars" | "dumpall" | "dumpon" | "dumpoff" | "end") => continue,
            ("$", section) => {
                let inside: Vec<&str> = words.by_ref().take_while(|w| *w != "$end").collect();
                if section == "var" {
                    let [_, _, code, reference, ..] = inside.as_slice() else {
                        return Err(format!("a $var of {inside:?}"));
                    };
                    let name = reference.split('[').next().unwrap_or(reference);
                    names.entry(code).or_default().push(name.into());
                }
                continue;
            }
            ("#", stamp) => {
                let stamp: u64 = stamp.parse().map_err(|_| format!("the stamp {word:?}"))?;
                if time.is_some_and(|before| before > stamp) {
                    return Err(format!("time falls at {word:?}"));
                }
                time = Some(stamp);
                waves.insert(stamp, now.clone());
                continue;
            }
            ("b" | "B", bits) => (bits, words.next().unwrap_or("")),
            (_, code) => (&word[..1], code),
        };
        let (bits, code) = told;
        let (Some(time), Some(names)) = (time, names.get(code)) else {
            return Err(format!(
                "the value {bits:?} of {code:?}, of which nothing is known"
            ));
        };
        let Ok(value) = u64::from_str_radix(bits, 2) else {
            return Err(format!(
                "the value {bits:?} of {} at #{time}",
                names.join(", ")
            ));
        };
        let at_time = waves.entry(time).or_default();
        for name in names {
            now.insert(name.clone(), value);
            at_time.insert(name.clone(), value);
        }
    }
    Ok(waves)
}

/// The steps in the same form.
fn waves(steps: &[Step]) -> Waves {
    let named = |step: &Step| {
        let fills = step.fills.iter().enumerate();
        fills
            .map(|(variable, fill)| (name(variable), *fill))
            .collect()
    };
    steps.iter().map(|step| (step.time, named(step))).collect()
}

// ---- The comparison.

fn compare_steps(told: &[Step], right: &[Step]) -> Result<(), String> {
    for (index, (told, right)) in told.iter().zip(right).enumerate() {
        let place = format!("step {index}, counted from the header as 0");
        if told.time != right.time {
            return Err(format!(
                "{place}: #{} instead of #{}",
                told.time, right.time
            ));
        }
        if told.fills.len() != right.fills.len() {
            let (told, right) = (told.fills.len(), right.fills.len());
            return Err(format!("{place}: {told} variables instead of {right}"));
        }
        for (variable, (told, right)) in told.fills.iter().zip(&right.fills).enumerate() {
            if told != right {
                let name = name(variable);
                return Err(format!("{place}: {name} holds {told} instead of {right}"));
            }
        }
    }
    if told.len() != right.len() {
        return Err(format!("{} steps instead of {}", told.len(), right.len()));
    }
    Ok(())
}

/// Compares the values at every stamp that one of the two has.
fn compare_waves(told: &Waves, right: &Waves) -> Result<(), String> {
    let stamps: BTreeSet<&u64> = told.keys().chain(right.keys()).collect();
    let nothing = BTreeMap::new();
    let at = |waves: &Waves, stamp: u64| {
        let last = waves.range(..=stamp).next_back();
        last.map_or(nothing.clone(), |(_, values)| values.clone())
    };
    for stamp in stamps {
        let (told, right) = (at(told, *stamp), at(right, *stamp));
        let names: BTreeSet<&String> = told.keys().chain(right.keys()).collect();
        for name in names {
            let (told, right) = (told.get(name), right.get(name));
            if told != right {
                let shown = |fill: Option<&u64>| fill.map_or("nothing".into(), u64::to_string);
                let (told, right) = (shown(told), shown(right));
                return Err(format!(
                    "at #{stamp}, {name} holds {told} instead of {right}"
                ));
            }
        }
    }
    Ok(())
}

fn check(dump: &str, fills: &str, converted: Option<&str>) -> Result<usize, String> {
    let read = |path: &str| fs::read(path).map_err(|error| format!("{path}: {error}"));
    let text = |path: &str| {
        let bytes = read(path)?;
        String::from_utf8(bytes).map_err(|_| format!("{path}: bytes that are no text"))
    };
    let in_file = |path: &str, error: String| format!("{path}: {error}");
    let right = read_fills(&text(fills)?).map_err(|error| in_file(fills, error))?;
    read_dump(&read(dump)?)
        .and_then(|told| compare_steps(&told, &right))
        .map_err(|error| in_file(dump, error))?;
    if let Some(path) = converted {
        read_converted(&text(path)?)
            .and_then(|told| compare_waves(&told, &waves(&right)))
            .map_err(|error| in_file(path, error))?;
    }
    Ok(right.len())
}

fn main() {
    let arguments: Vec<String> = env::args().skip(1).collect();
    let arguments: Vec<&str> = arguments.iter().map(String::as_str).collect();
    let result = match arguments.as_slice() {
        [dump, fills] => check(dump, fills, None),
        [dump, fills, converted] => check(dump, fills, Some(converted)),
        _ => {
            eprintln!("usage: dump_check DUMP FILLS [CONVERTED]");
            process::exit(2);
        }
    };
    match result {
        Ok(steps) => println!("{steps}"),
        Err(error) => {
            eprintln!("dump_check: {error}");
            process::exit(1);
        }
    }
}
