//! Writes sheets: some hostile by design, and random ones that know the
//! network well enough to make moves that are permitted.

use compare::generate::hostile;
use compare::model;
use compare::random::Random;

/// Sheets made to hurt a reader of lines.
pub fn hostile_sheets() -> Vec<(String, Vec<u8>)> {
    let mut list: Vec<(String, Vec<u8>)> = Vec::new();
    let good = b"T,4,1,1,2,1,1".as_slice();
    let after = b"\nO,0,2,7,1\nD,9\n".as_slice();
    // Each byte alone, in the middle of a good line, before and after it.
    for byte in 0..=255_u8 {
        let mut sheet = vec![byte];
        sheet.extend([b"\n".as_slice(), good, after].concat());
        sheet.extend([good, &[byte], b"\n"].concat());
        sheet.extend([&[byte], good, b"\r\n"].concat());
        sheet.extend([&good[..4], &[byte], &good[4..], after].concat());
        sheet.extend([&good[..4], &[byte], &good[5..], after].concat());
        sheet.push(byte);
        list.push((format!("byte {byte}"), sheet));
    }
    // Every length around the longest line, with every end.
    for len in (0..70).chain([127, 128, 129, 255, 256, 257, 4095, 4096, 4097, 65536]) {
        let mut sheet = [good, b"\n"].concat();
        for end in ["\n", "\r\n", "\r\r\n", "\r", ""] {
            for filler in [b'D', b'0', b',', 0, 0xff, b'\r'] {
                sheet.extend(std::iter::repeat_n(filler, len));
                sheet.extend(end.as_bytes());
                sheet.extend(b"\nD,1\n");
            }
        }
        // A good line that is blown up by a number that is too long.
        sheet.extend([b"D,".as_slice(), &vec![b'1'; len]].concat());
        list.push((format!("lines of {len} bytes"), sheet));
    }
    for len in [100_000, 1 << 20, 3 << 20] {
        let mut sheet = [good, b"\nO,0,2,7,8\n"].concat();
        sheet.extend(vec![b'D'; len]);
        sheet.extend(b"\nD,9\n");
        sheet.extend(vec![0; len]);
        list.push((format!("a line of {len} bytes, and one without end"), sheet));
    }
    list.push(("many empty lines".into(), vec![b'\n'; 50_000]));
    list.push(("many CR".into(), vec![b'\r'; 50_000]));
    list.push(("many CRLF".into(), b"\r\n".repeat(30_000)));
    list.push((
        "byte order mark".into(),
        [b"\xef\xbb\xbf", good, after].concat(),
    ));
    for far in 1..9 {
        list.push((format!("full ledger, {far} nodes away"), full_ledger(far)));
    }
    list
}

/// Twice as many packets as the ledger has words, and drains that stop full.
fn full_ledger(far: u64) -> Vec<u8> {
    let mut sheet = String::from("T,4,2,2,2,1,8\n");
    for packet in 0..130 {
        let node = packet % 16;
        let destination = (node + packet / 64 + far) % 16;
        let chunks = 1 + packet % 8;
        sheet += &format!("O,{node},{destination},{packet},{chunks}\n");
    }
    sheet += "D,4294967295\nO,0,1,0,1\nO,1,0,1,8\nO,2,2,2,3\n";
    sheet += &"D,70\nD,4294967295\n".repeat(4);
    sheet.into_bytes()
}

/// A store that follows the sheet, so that the writer knows the network.
struct Shadow {
    store: Vec<u64>,
}

impl Shadow {
    fn nodes(&self) -> u64 {
        self.store[..3].iter().product::<u64>().max(1)
    }
}

fn numbers(letter: &str, fields: &[u64]) -> String {
    fields
        .iter()
        .fold(letter.into(), |line, field| format!("{line},{field}"))
}

/// A field: mostly below the limit, else anything the grammar allows, or more.
fn field(random: &mut Random, limit: u64) -> u64 {
    match random.below(12) {
        0 => random.pick(&[limit, limit + 1, u64::from(u32::MAX)]),
        1 if random.chance(1, 4) => hostile(random, limit),
        _ => random.below(limit),
    }
}

/// A line that follows the grammar, nearly always, and what it does.
fn sensible_line(random: &mut Random, shadow: &mut Shadow) -> String {
    let nodes = shadow.nodes();
    match random.below(40) {
        0 => {
            let most = random.pick(&[2, 3, 4, 16]);
            let slots = random.pick(&[1, 1, 3, 7]);
            let mut sizes = [most, most, most, slots, slots, slots];
            sizes = sizes.map(|limit| random.between(1, limit));
            sizes[3] += 1;
            if random.chance(1, 6) {
                sizes[random.below(6) as usize] = random.pick(&[0, 1, 8, 9, 16, 17, 4294967295]);
            }
            let _ = model::make(&mut shadow.store, sizes);
            numbers("T", &sizes)
        }
        1..=15 => {
            let (node, destination) = (field(random, nodes), field(random, nodes));
            let any = random.number() >> 32;
            let tag = random.pick(&[0, 1, 7, 4294967295, any]);
            let chunks = field(random, 8).wrapping_add(1);
            let _ = model::offer(&mut shadow.store, node, destination, tag as u32, chunks);
            numbers("O", &[node, destination, tag, chunks])
        }
        16 | 17 => {
            let budget = random.pick(&[0, 1, 2, 5, 20, 4294967295]);
            let _ = model::drain(&mut shadow.store, budget as u32, &mut [0; 64]);
            numbers("D", &[budget])
        }
        _ => {
            let routes = model::routes_of_heads(&shadow.store);
            let fields = if routes.is_empty() || random.chance(1, 4) {
                [field(random, nodes), field(random, 13), field(random, 13)]
            } else {
                let step = random.pick(&routes);
                [step.node, step.queue, step.output].map(|number| number as u64)
            };
            let [node, queue, output] = fields;
            let _ = model::move_packet(&mut shadow.store, node, queue, output);
            numbers("M", &fields)
        }
    }
}

/// A line with a small fault, or rubbish.
fn bad_line(random: &mut Random) -> Vec<u8> {
    let mut line = random
        .pick(&[
            "T,4,1,1,2,1,1",
            "O,0,1,8,1",
            "M,0,0,7",
            "D,10",
            "D,4294967296",
            "D,01",
            "",
        ])
        .as_bytes()
        .to_vec();
    let place = random.below(line.len() as u64 + 1) as usize;
    match random.below(6) {
        0 => line.insert(place, random.pick(b" \t\r\0,0+-.\"T\xff\xc3x")),
        1 => line.truncate(place),
        2 => line.extend(std::iter::repeat_n(b'0', random.between(40, 70) as usize)),
        3 => {
            line = (0..random.below(80))
                .map(|_| random.number() as u8)
                .collect()
        }
        4 => line.make_ascii_lowercase(),
        _ => line.extend(b",1"),
    }
    line.retain(|byte| *byte != b'\n');
    line
}

/// A random sheet with all kinds of line ends.
pub fn random_sheet(random: &mut Random) -> Vec<u8> {
    let mut shadow = Shadow {
        store: vec![0; 8000],
    };
    let mut sheet = Vec::new();
    if random.chance(9, 10) {
        let [x, y, z] = [(); 3].map(|_| random.between(1, 3));
        let sizes = [x, y, z, 2, 1, random.between(1, 2)];
        let _ = model::make(&mut shadow.store, sizes);
        sheet.extend(numbers("T", &sizes).into_bytes());
        sheet.push(b'\n');
    }
    let ends: &[&[u8]] = match random.below(4) {
        0 => &[b"\n"],
        1 => &[b"\r\n"],
        _ => &[b"\n", b"\r\n", b"\n", b"\r\n", b"\r\n", b"\r\r\n"],
    };
    for _ in 0..random.below(250) {
        if random.chance(1, 25) {
            sheet.extend(bad_line(random));
        } else {
            sheet.extend(sensible_line(random, &mut shadow).into_bytes());
        }
        sheet.extend(random.pick(ends));
    }
    match random.below(3) {
        0 => sheet.extend(b"D,3"),
        1 => sheet.extend(bad_line(random)),
        _ => (),
    }
    sheet
}
