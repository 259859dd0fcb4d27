//! The waveform (docs/WAVEFORM.md): the fills of the queues as a value change
//! dump, step by step. The writer puts a step together from its lines, the
//! reader takes the lines apart one by one. They share nothing, so that a slip
//! in one does not hide a slip in the other.

use super::network::{Network, QUEUES};
use super::words::decode;
use super::Refusal;

/// The variables of the largest network: a network has at most 16 nodes along
/// each of its three dimensions.
const MOST_VARIABLES: usize = 16 * 16 * 16 * QUEUES;

/// The packets held by every queue, by node and queue.
fn fills_of(network: &Network) -> Vec<u8> {
    let queues = network.nodes.iter().flat_map(|node| &node.queues);
    queues.map(|packets| packets.len() as u8).collect()
}

/// The lines of a header, which tells every fill.
fn header_lines(time: u64, fills: &[u8]) -> Vec<String> {
    let mut lines = vec![
        "$timescale 1 ns $end".into(),
        "$scope module network $end".into(),
    ];
    for variable in 0..fills.len() {
        let (node, queue) = (variable / QUEUES, variable % QUEUES);
        lines.push(format!("$var wire 8 {variable} n{node}q{queue} $end"));
    }
    lines.push("$upscope $end".into());
    lines.push("$enddefinitions $end".into());
    lines.push(format!("#{time}"));
    lines.push("$dumpvars".into());
    for (variable, fill) in fills.iter().enumerate() {
        lines.push(format!("b{fill:b} {variable}"));
    }
    lines.push("$end".into());
    lines
}

/// The lines of a later step, which tells the fills that have changed.
fn later_lines(time: u64, before: &[u8], now: &[u8]) -> Vec<String> {
    let mut lines = vec![format!("#{time}")];
    for (variable, (old, new)) in before.iter().zip(now).enumerate() {
        if old != new {
            lines.push(format!("b{new:b} {variable}"));
        }
    }
    lines
}

/// Both writers: the check's, then 15. `lines` is asked for the step from the
/// time stamp, the fills of the caller's list and the fills now. Gives the
/// bytes of the step.
fn write(
    words: &[u64],
    fills: &mut [u8],
    page: &mut [u8],
    lines: impl FnOnce(u64, &[u8], &[u8]) -> Vec<String>,
) -> Result<u64, Refusal> {
    let network = decode(words)?;
    let now = fills_of(&network);
    let told = fills.get_mut(..now.len()).ok_or(Refusal::NoRoom)?;
    let lines = lines(network.moves, told, &now);
    let text: String = lines.iter().flat_map(|line| [line, "\n"]).collect();
    let place = page.get_mut(..text.len()).ok_or(Refusal::NoRoom)?;
    place.copy_from_slice(text.as_bytes());
    told.copy_from_slice(&now);
    Ok(text.len() as u64)
}

pub fn write_header(words: &[u64], fills: &mut [u8], page: &mut [u8]) -> Result<u64, Refusal> {
    write(words, fills, page, |time, _, now| header_lines(time, now))
}

pub fn write_changes(words: &[u64], fills: &mut [u8], page: &mut [u8]) -> Result<u64, Refusal> {
    write(words, fills, page, later_lines)
}

/// What a step tells.
#[derive(Clone, Debug, PartialEq, Eq)]
pub struct Told {
    pub header: bool,
    pub time: u64,
    /// Variables with their fills.
    pub values: Vec<(usize, u8)>,
}

/// A number in its shortest form: written again it looks the same.
fn number(word: &str) -> Option<u64> {
    let number: u64 = word.parse().ok()?;
    (number.to_string() == word).then_some(number)
}

fn time_stamp(line: &str) -> Option<u64> {
    number(line.strip_prefix('#')?)
}

/// A value line: the variable and its fill, again in its shortest form.
fn value(line: &str) -> Option<(usize, u8)> {
    let (bits, variable) = line.strip_prefix('b')?.split_once(' ')?;
    let fill = u8::from_str_radix(bits, 2).ok()?;
    let shortest = format!("{fill:b}") == bits;
    shortest.then_some((number(variable)? as usize, fill))
}

fn values(lines: &[&str]) -> Option<Vec<(usize, u8)>> {
    lines.iter().map(|line| value(line)).collect()
}

/// A step whose first line is a time stamp.
fn later_step(lines: &[&str]) -> Option<Told> {
    let (stamp, changes) = lines.split_first()?;
    let time = time_stamp(stamp)?;
    let values = values(changes)?;
    let rising = values.windows(2).all(|pair| pair[0].0 < pair[1].0);
    let known = values
        .iter()
        .all(|(variable, _)| *variable < MOST_VARIABLES);
    (rising && known).then_some(Told {
        header: false,
        time,
        values,
    })
}

fn header(lines: &[&str]) -> Option<Told> {
    // Each variable has two lines, one for its name and one for its value, and
    // seven lines stand before, between and behind them.
    let of_variables = lines.len().checked_sub(7)?;
    let variables = of_variables / 2;
    let whole_nodes = of_variables % 2 == 0 && variables % QUEUES == 0;
    if !whole_nodes || variables == 0 || variables > MOST_VARIABLES {
        return None;
    }
    let (opening, rest) = lines.split_at(2);
    let (names, rest) = rest.split_at(variables);
    let (between, rest) = rest.split_at(4);
    let (told, closing) = rest.split_at(variables);
    let named = |(variable, line): (usize, &&str)| {
        let (node, queue) = (variable / QUEUES, variable % QUEUES);
        *line == format!("$var wire 8 {variable} n{node}q{queue} $end")
    };
    let framed = opening == ["$timescale 1 ns $end", "$scope module network $end"]
        && names.iter().enumerate().all(named)
        && between[..2] == ["$upscope $end", "$enddefinitions $end"]
        && between[3] == "$dumpvars"
        && closing == ["$end"];
    let time = time_stamp(between[2])?;
    let values = values(told)?;
    let in_order = values.iter().map(|(variable, _)| *variable);
    (framed && in_order.eq(0..variables)).then_some(Told {
        header: true,
        time,
        values,
    })
}

/// What the bytes tell, if they are exactly one step.
pub fn step(bytes: &[u8]) -> Option<Told> {
    let text = std::str::from_utf8(bytes).ok()?;
    let lines: Vec<&str> = text.strip_suffix('\n')?.split('\n').collect();
    if lines[0].starts_with('#') {
        later_step(&lines)
    } else {
        header(&lines)
    }
}

/// Reads one step into the list: 13, then 15.
pub fn read_step(bytes: &[u8], fills: &mut [u8]) -> Result<Told, Refusal> {
    let told = step(bytes).ok_or(Refusal::BadText)?;
    let largest = told.values.iter().map(|(variable, _)| *variable).max();
    if fills.len() < largest.map_or(0, |variable| variable + 1) {
        return Err(Refusal::NoRoom);
    }
    for (variable, fill) in &told.values {
        fills[*variable] = *fill;
    }
    Ok(told)
}
