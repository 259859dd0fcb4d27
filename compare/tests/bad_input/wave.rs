//! The same for the waveform (docs/WAVEFORM.md): bytes that are no step (13),
//! lists and pages without room (15), and words that are no network. What is
//! lent is longer than the call is told, and a refused call leaves all of it.

use super::{BROKEN, LENT, MAX, NEED, ROW, WRONG_SIZES};
use compare::bench::{read, readers, write, writers, Answer, WaveReader, WaveStep};

const STEPS: [WaveStep; 2] = [WaveStep::Header, WaveStep::Changes];

/// As many variables as a header of 4,096 nodes has.
const MOST: usize = 53_248;

/// The fills before a call; a call is lent the first of these.
fn list() -> Vec<u8> {
    (0..MOST).map(|variable| variable as u8 ^ 0x5a).collect()
}

/// A header of one node. Its fills are 1 to 13 at 77 moves, so that no other
/// number of it is as these are.
const ONE_NODE: &str = "\
$timescale 1 ns $end
$scope module network $end
$var wire 8 0 n0q0 $end
$var wire 8 1 n0q1 $end
$var wire 8 2 n0q2 $end
$var wire 8 3 n0q3 $end
$var wire 8 4 n0q4 $end
$var wire 8 5 n0q5 $end
$var wire 8 6 n0q6 $end
$var wire 8 7 n0q7 $end
$var wire 8 8 n0q8 $end
$var wire 8 9 n0q9 $end
$var wire 8 10 n0q10 $end
$var wire 8 11 n0q11 $end
$var wire 8 12 n0q12 $end
$upscope $end
$enddefinitions $end
#77
$dumpvars
b1 0
b10 1
b11 2
b100 3
b101 4
b110 5
b111 6
b1000 7
b1001 8
b1010 9
b1011 10
b1100 11
b1101 12
$end
";

/// What makes the header above a step no longer: a part of it, and what stands
/// there instead.
#[rustfmt::skip]
const NO_HEADERS: &[(&str, &str, &str)] = &[
    ("no bytes",                           ONE_NODE,                      ""),
    ("a comment before it",                "$timescale",                  "$comment x $end\n$timescale"),
    ("a date before it",                   "$timescale",                  "$date today $end\n$timescale"),
    ("an empty line before it",            "$timescale",                  "\n$timescale"),
    ("a blank before it",                  "$timescale",                  " $timescale"),
    ("a byte order mark",                  "$timescale",                  "\u{feff}$timescale"),
    ("no timescale",                       "$timescale 1 ns $end\n",      ""),
    ("another unit",                       "1 ns",                        "1 ps"),
    ("another number of units",            "1 ns",                        "10 ns"),
    ("no blank before the unit",           "1 ns",                        "1ns"),
    ("two blanks",                         "1 ns",                        "1  ns"),
    ("a tab",                              "1 ns",                        "1\tns"),
    ("a section over two lines",           "$timescale ",                 "$timescale\n"),
    ("capitals",                           "$timescale",                  "$Timescale"),
    ("no scope",                           "$scope module network $end\n", ""),
    ("another scope",                      "module network",              "module torus"),
    ("a scope of another kind",            "module network",              "task network"),
    ("the scope first",                    "$timescale 1 ns $end\n$scope module network $end\n",
                                           "$scope module network $end\n$timescale 1 ns $end\n"),
    ("another type",                       "wire 8 3",                    "reg 8 3"),
    ("seven bits",                         "wire 8 3",                    "wire 7 3"),
    ("sixteen bits",                       "wire 8 3",                    "wire 16 3"),
    ("another variable's code",            "wire 8 3",                    "wire 8 4"),
    ("a code that is no number",           "wire 8 3",                    "wire 8 !"),
    ("a code with a leading zero",         "wire 8 3",                    "wire 8 03"),
    ("a code of 2^64 + 3",                 "wire 8 3",                    "wire 8 18446744073709551619"),
    ("another node's name",                "n0q3",                        "n1q3"),
    ("another queue's name",               "n0q3",                        "n0q4"),
    ("a leading zero in the node",         "n0q3",                        "n00q3"),
    ("a leading zero in the queue",        "n0q3",                        "n0q03"),
    ("a name of another kind",             "n0q3",                        "fill"),
    ("a name in capitals",                 "n0q3",                        "N0Q3"),
    ("a range behind the name",            "n0q3 ",                       "n0q3 [7:0] "),
    ("no end of a variable",               "n0q3 $end",                   "n0q3"),
    ("a blank at a line's end",            "n0q3 $end",                   "n0q3 $end "),
    ("CR LF",                              "n0q3 $end\n",                 "n0q3 $end\r\n"),
    ("CR alone",                           "n0q3 $end\n",                 "n0q3 $end\r"),
    ("an empty line",                      "n0q3 $end\n",                 "n0q3 $end\n\n"),
    ("two variables on a line",            "n0q3 $end\n",                 "n0q3 $end "),
    ("a variable twice",                   "$var wire 8 3 n0q3 $end\n",
                                           "$var wire 8 3 n0q3 $end\n$var wire 8 3 n0q3 $end\n"),
    ("a variable without a name",          "$var wire 8 3 n0q3 $end\n",   ""),
    ("the last one without a name",        "$var wire 8 12 n0q12 $end\n", ""),
    ("a node of nine queues",              "$var wire 8 9 n0q9 $end",     "$var wire 8 9 n1q0 $end"),
    ("a leading zero in queue 10",         "n0q10",                       "n0q010"),
    ("the queue's two digits exchanged",   "n0q12",                       "n0q21"),
    ("a name without a value",             "$upscope",                    "$var wire 8 13 n1q0 $end\n$upscope"),
    ("no upscope",                         "$upscope $end\n",             ""),
    ("a name behind the upscope",          "$upscope $end\n",             "$upscope network $end\n"),
    ("no enddefinitions",                  "$enddefinitions $end\n",      ""),
    ("these two the other way round",      "$upscope $end\n$enddefinitions $end\n",
                                           "$enddefinitions $end\n$upscope $end\n"),
    ("no time stamp",                      "#77\n",                       ""),
    ("an empty time stamp",                "#77",                         "#"),
    ("a leading zero in the stamp",        "#77",                         "#077"),
    ("a sign in the stamp",                "#77",                         "#+77"),
    ("a fraction in the stamp",            "#77",                         "#77.0"),
    ("a stamp of 2^64",                    "#77",                         "#18446744073709551616"),
    ("a stamp of 2^64 + 77",               "#77",                         "#18446744073709551693"),
    ("a stamp of 21 digits",               "#77",                         "#100000000000000000000"),
    ("two time stamps",                    "#77\n",                       "#77\n#77\n"),
    ("no dumpvars",                        "$dumpvars\n",                 ""),
    ("another dump",                       "$dumpvars",                   "$dumpall"),
    ("an end of the dumpvars line",        "$dumpvars",                   "$dumpvars $end"),
    ("a missing value",                    "b100 3\n",                    ""),
    ("the first value is missing",         "b1 0\n",                      ""),
    ("the last value is missing",          "b1101 12\n",                  ""),
    ("a value twice",                      "b100 3\n",                    "b100 3\nb100 3\n"),
    ("two values the other way round",     "b11 2\nb100 3\n",             "b100 3\nb11 2\n"),
    ("one value too many",                 "b1101 12\n",                  "b1101 12\nb0 13\n"),
    ("an empty value",                     "b100 3",                      "b 3"),
    ("a leading zero in a value",          "b100 3",                      "b0100 3"),
    ("a value of nine bits",               "b100 3",                      "b100000000 3"),
    ("nine bits, the first one 0",         "b100 3",                      "b000000100 3"),
    ("an unknown value",                   "b100 3",                      "bx 3"),
    ("a value in decimal",                 "b100 3",                      "b4 3"),
    ("a capital",                          "b100 3",                      "B100 3"),
    ("a scalar",                           "b1 0",                        "10"),
    ("a real",                             "b100 3",                      "r100 3"),
    ("a value of no variable",             "b100 3",                      "b100"),
    ("a blank and no variable",            "b100 3",                      "b100 "),
    ("a value of a variable by its name",  "b100 3",                      "b100 n0q3"),
    ("a leading zero in a value's code",   "b100 3",                      "b100 03"),
    ("no end",                             "b1101 12\n$end\n",            "b1101 12\n"),
    ("an end without its line end",        "b1101 12\n$end\n",            "b1101 12\n$end"),
    ("two ends",                           "b1101 12\n$end\n",            "b1101 12\n$end\n$end\n"),
    ("a blank behind it",                  "b1101 12\n$end\n",            "b1101 12\n$end\n "),
    ("an empty line behind it",            "b1101 12\n$end\n",            "b1101 12\n$end\n\n"),
    ("a later step behind it",             "b1101 12\n$end\n",            "b1101 12\n$end\n#78\n"),
];

/// Texts that are no later step.
#[rustfmt::skip]
const NO_STEPS: &[(&str, &str)] = &[
    ("an empty line",                      "\n"),
    ("a byte that is no text",             "\0"),
    ("no number",                          "#\n"),
    ("no line end",                        "#5"),
    ("no #",                               "5\n"),
    ("two of them",                        "##5\n"),
    ("a blank before the number",          "# 5\n"),
    ("a blank behind it",                  "#5 \n"),
    ("a blank before it all",              " #5\n"),
    ("CR LF",                              "#5\r\n"),
    ("CR LF in a value's line",            "#5\nb1 0\r\n"),
    ("a leading zero",                     "#05\n"),
    ("two zeros",                          "#00\n"),
    ("below 0",                            "#-5\n"),
    ("2^64",                               "#18446744073709551616\n"),
    ("ten times the largest",              "#184467440737095516150\n"),
    ("a digit that is none of ASCII",      "#\u{0665}\n"),
    ("two stamps",                         "#5\n#6\n"),
    ("a value before the stamp",           "b1 0\n#5\n"),
    ("a value and no stamp",               "b1 0\n"),
    ("a value on the stamp's line",        "#5 b1 0\n"),
    ("no line end behind a value",         "#5\nb1 0"),
    ("two line ends",                      "#5\nb1 0\n\n"),
    ("an empty line between",              "#5\n\nb1 0\n"),
    ("no bits",                            "#5\nb 0\n"),
    ("nine bits",                          "#5\nb100000000 0\n"),
    ("a leading zero in the bits",         "#5\nb01 0\n"),
    ("eight zeros",                        "#5\nb00000000 0\n"),
    ("bits of two",                        "#5\nb2 0\n"),
    ("an unknown bit",                     "#5\nbx 0\n"),
    ("bits that are not driven",           "#5\nbz 0\n"),
    ("a capital",                          "#5\nB1 0\n"),
    ("a scalar",                           "#5\n10\n"),
    ("no blank",                           "#5\nb1\n"),
    ("two blanks",                         "#5\nb1  0\n"),
    ("a tab",                              "#5\nb1\t0\n"),
    ("no variable",                        "#5\nb1 \n"),
    ("a leading zero in the variable",     "#5\nb1 00\n"),
    ("a variable and a blank",             "#5\nb1 0 \n"),
    ("variable 53248",                     "#5\nb1 53248\n"),
    ("variable 100000",                    "#5\nb1 100000\n"),
    ("cut to 16 bits it is variable 0",    "#5\nb1 65536\n"),
    ("cut to 32 bits it is variable 0",    "#5\nb1 4294967296\n"),
    ("cut to 64 bits it is variable 0",    "#5\nb1 18446744073709551616\n"),
    ("a variable twice",                   "#5\nb1 3\nb1 3\n"),
    ("a variable twice, with two values",  "#5\nb1 3\nb10 3\n"),
    ("variables falling",                  "#5\nb1 4\nb1 3\n"),
    ("as texts they would rise",           "#5\nb1 10\nb1 9\n"),
    ("the third one falls",                "#5\nb1 3\nb1 9\nb1 8\n"),
    ("53248 behind others",                "#5\nb1 3\nb1 53248\n"),
    ("an end",                             "#5\nb1 3\n$end\n"),
    ("dumpvars",                           "#5\n$dumpvars\nb1 3\n$end\n"),
    ("a comment",                          "#5\n$comment x $end\n"),
    ("a header's first line",              "$timescale 1 ns $end\n"),
];

/// A text that is a step: what it is (1 for a header), its time, and the
/// variables with their fills.
type Good = (&'static str, &'static str, u64, u64, &'static [(usize, u8)]);

#[rustfmt::skip]
const GOOD: &[Good] = &[
    ("a header",                   ONE_NODE,                   1, 77, &[
        (0, 1), (1, 2), (2, 3), (3, 4), (4, 5), (5, 6), (6, 7), (7, 8), (8, 9),
        (9, 10), (10, 11), (11, 12), (12, 13)]),
    ("nothing has changed",        "#5\n",                     0, 5, &[]),
    ("time 0",                     "#0\n",                     0, 0, &[]),
    ("time 10",                    "#10\n",                    0, 10, &[]),
    ("the largest time",           "#18446744073709551615\n",  0, MAX, &[]),
    ("variable 0",                 "#5\nb1 0\n",               0, 5, &[(0, 1)]),
    ("fill 0",                     "#5\nb0 3\n",               0, 5, &[(3, 0)]),
    ("fill 255",                   "#5\nb11111111 3\n",        0, 5, &[(3, 255)]),
    ("fill 128",                   "#5\nb10000000 3\n",        0, 5, &[(3, 128)]),
    ("variable 53247",             "#5\nb1000 53247\n",        0, 5, &[(53247, 8)]),
    ("variables 9 and 10",         "#5\nb1 9\nb10 10\n",       0, 5, &[(9, 1), (10, 2)]),
    ("variables 0 and 53247",      "#5\nb1 0\nb10 53247\n",    0, 5, &[(0, 1), (53247, 2)]),
];

/// Reads the bytes into the first `room` fills of the list, and gives all of it.
/// Behind the bytes stand others that a reader could take for more of them.
fn read_on(reader: &dyn WaveReader, text: &str, room: usize) -> (Answer, Vec<u8>) {
    let (bytes, mut fills) = ([text, "0\n"].concat(), list());
    let lent = &bytes.as_bytes()[..text.len()];
    let answer = read(reader, lent, &mut fills[..room]);
    (answer, fills)
}

fn not_read(what: &str, text: &str, room: usize, number: u64) {
    for reader in readers() {
        let place = format!("{what}: {} into {room} fills", reader.name());
        let (answer, fills) = read_on(reader.as_ref(), text, room);
        assert_eq!(answer.refusal, number, "{place}: the number");
        assert_eq!(answer.out, [0; 4], "{place}: out");
        assert_eq!(fills, list(), "{place}: the list");
    }
}

/// 13, and that before 15: the list may be empty.
#[test]
fn no_steps() {
    for (what, old, new) in NO_HEADERS {
        assert_eq!(ONE_NODE.matches(old).count(), 1, "{what}: not clear where");
        let text = ONE_NODE.replace(old, new);
        for room in [0, 13, MOST] {
            not_read(what, &text, room, 13);
        }
    }
    for (what, text) in NO_STEPS {
        for room in [0, 13, MOST] {
            not_read(what, text, room, 13);
        }
    }
}

/// 15: the list ends before the largest variable that is named. A list that
/// ends behind it is good, and only what is named is written.
#[test]
fn read_and_short_lists() {
    for (what, text, header, time, values) in GOOD {
        let need = values.iter().map(|(variable, _)| variable + 1).max();
        let need = need.unwrap_or(0);
        if need > 0 {
            not_read(what, text, need - 1, 15);
            not_read(what, text, 0, 15);
        }
        let mut after = list();
        for (variable, fill) in *values {
            after[*variable] = *fill;
        }
        for reader in readers() {
            for room in [need, MOST] {
                let (answer, fills) = read_on(reader.as_ref(), text, room);
                let out = [*header, *time, values.len() as u64, 0];
                let place = format!("{what}: {} into {room} fills", reader.name());
                assert_eq!((answer.refusal, answer.out), (0, out), "{place}");
                assert_eq!(fills, after, "{place}: the list");
            }
        }
    }
}

/// The row has 52 queues; a packet is in the first. A variable's line has 22
/// bytes and the digits of the variable and of the queue: 24 for variables 0 to
/// 9, 26 for 10 to 12, and of each of the three other nodes ten times 25 and
/// three times 26. A value's line has 5 bytes up to variable 9 and 6 from there
/// on, and the lines round them 101. So it is 101 + 240 + 78 + 3 * 328 for the
/// names, and 50 + 252 for the values.
const HEADER_LEN: usize = 1705;
/// The row's queues.
const VARIABLES: usize = 52;
/// One short of these.
const SHORT: usize = VARIABLES - 1;
/// The step `#0`, `b1 0` behind one that told 0 of every queue.
const CHANGES: &[u8] = b"#0\nb1 0\n";
/// The step that tells this of every queue: 3 + 10 * 5 + 42 * 6.
const ALL_LEN: usize = 305;
const BLANK: u8 = 0x20;
/// The bytes of a list and of a page, some of which are lent.
const LIST: usize = VARIABLES + 8;
const PAGE: usize = HEADER_LEN + 8;

/// What the list says before the call; `OTHER` is no fill of the row.
const ZERO: u8 = 0;
const OTHER: u8 = 9;

/// Rooms of the list and of the page on the row, and the number that is given.
#[rustfmt::skip]
const ROOMS: &[(&str, WaveStep, u8, usize, usize, u64)] = &[
    ("header: all that it needs",    WaveStep::Header,  OTHER, VARIABLES,     HEADER_LEN,      0),
    ("header: more than it needs",   WaveStep::Header,  OTHER, VARIABLES + 4, HEADER_LEN + 4,  0),
    ("header: a list one short",     WaveStep::Header,  OTHER, SHORT,         HEADER_LEN,     15),
    ("header: no list",              WaveStep::Header,  OTHER, 0,             HEADER_LEN,     15),
    ("header: a page one short",     WaveStep::Header,  OTHER, VARIABLES,     HEADER_LEN - 1, 15),
    ("header: no page",              WaveStep::Header,  OTHER, VARIABLES,     0,              15),
    ("header: neither",              WaveStep::Header,  OTHER, 0,             0,              15),
    ("one change: all it needs",     WaveStep::Changes, ZERO,  VARIABLES,     8,               0),
    ("one change: more",             WaveStep::Changes, ZERO,  VARIABLES + 4, 12,              0),
    ("one change: a list one short", WaveStep::Changes, ZERO,  SHORT,         8,              15),
    ("one change: no list",          WaveStep::Changes, ZERO,  0,             8,              15),
    ("one change: a page one short", WaveStep::Changes, ZERO,  VARIABLES,     7,              15),
    ("one change: the stamp alone",  WaveStep::Changes, ZERO,  VARIABLES,     3,              15),
    ("one change: no page",          WaveStep::Changes, ZERO,  VARIABLES,     0,              15),
    ("one change: neither",          WaveStep::Changes, ZERO,  0,             0,              15),
    ("all: all that it needs",       WaveStep::Changes, OTHER, VARIABLES,     ALL_LEN,         0),
    ("all: a list one short",        WaveStep::Changes, OTHER, SHORT,         ALL_LEN,        15),
    ("all: a page one short",        WaveStep::Changes, OTHER, VARIABLES,     ALL_LEN - 1,    15),
];

/// A step of the first `len` words on the first `room` bytes of a page, with
/// the first `told` fills of a list that says `fill` everywhere. Gives the
/// answer, the whole list and the whole page, of every implementation.
fn written(
    step: WaveStep,
    (words, len): (&[u64], usize),
    (fill, told): (u8, usize),
    room: usize,
) -> Vec<(String, Answer, [u8; LIST], [u8; PAGE])> {
    let calls = writers().into_iter().map(|writer| {
        let (mut list, mut page) = ([fill; LIST], [BLANK; PAGE]);
        let lent = &words[..len];
        let answer = write(
            writer.as_ref(),
            step,
            lent,
            &mut list[..told],
            &mut page[..room],
        );
        (writer.name().into(), answer, list, page)
    });
    calls.collect()
}

fn not_written(
    what: &str,
    step: WaveStep,
    words: (&[u64], usize),
    (fill, told): (u8, usize),
    room: usize,
    number: u64,
) {
    for (name, answer, list, page) in written(step, words, (fill, told), room) {
        let place = format!("{what}: {name}, {step:?}, {told} fills, {room} bytes");
        assert_eq!(answer.refusal, number, "{place}: the number");
        assert_eq!(answer.out, [0; 4], "{place}: out");
        assert_eq!(list, [fill; LIST], "{place}: the list");
        assert_eq!(page, [BLANK; PAGE], "{place}: the page");
    }
}

#[test]
fn short_lists_and_pages() {
    let words = ROW.words();
    for (what, step, fill, told, room, number) in ROOMS {
        if *number != 0 {
            not_written(what, *step, (&words, LENT), (*fill, *told), *room, *number);
            continue;
        }
        let len = match (step, *fill) {
            (WaveStep::Header, _) => HEADER_LEN,
            (_, ZERO) => CHANGES.len(),
            _ => ALL_LEN,
        };
        for (name, answer, list, page) in written(*step, (&words, LENT), (*fill, *told), *room) {
            let place = format!("{what}: {name}");
            assert_eq!((answer.refusal, answer.out[0]), (0, len as u64), "{place}");
            let mut after = [*fill; LIST];
            after[0] = 1;
            after[1..VARIABLES].fill(0);
            assert_eq!(list, after, "{place}: the list");
            assert!(page[len..].iter().all(|byte| *byte == BLANK), "{place}");
            assert_eq!(page[len - 1], b'\n', "{place}");
            if len == CHANGES.len() {
                assert_eq!(&page[..len], CHANGES, "{place}: the page");
            }
        }
    }
}

/// The words are tested first, as Check does it: whatever room there is.
#[test]
fn steps_of_bad_words() {
    let rooms = [
        (VARIABLES, HEADER_LEN),
        (SHORT, HEADER_LEN),
        (VARIABLES, 0),
        (0, 0),
    ];
    for step in STEPS {
        for (told, room) in rooms {
            let refused = |what: &str, words: &[u64], len: usize, number: u64| {
                not_written(what, step, (words, len), (OTHER, told), room, number);
            };
            let (row, ones) = (ROW.words(), [MAX; LENT]);
            for len in [0, 1, 8] {
                refused("less than nine words", &row, len, 1);
                refused("1 before 2", &ones, len, 1);
            }
            for len in [9, 10, NEED - 1] {
                refused("less than the sizes ask for", &row, len, 1);
                refused("2 before the second 1", &ones, len, 2);
            }
            for (what, size, values) in WRONG_SIZES {
                for value in values {
                    let mut words = ROW.words();
                    words[size] = *value;
                    refused(what, &words, LENT, 2);
                }
            }
            for (what, store) in BROKEN {
                refused(what, &store.words(), LENT, 3);
                refused(what, &store.words(), NEED, 3);
            }
        }
    }
}
