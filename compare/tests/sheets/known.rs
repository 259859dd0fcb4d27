//! Sheets whose whole output is written down here: the listing of R257 and the
//! readings of the open points.

/// A name, the input and the whole output.
pub type Known = (&'static str, Vec<u8>, Vec<u8>);

const LISTING: &str = "T,4,1,1,2,1,1\nO,0,2,7,1\nO,0,1,8,1\nM,0,0,7\nM,1,7,0\nD,10\n";
const LISTING_OUT: &str = "T,0 O,0 O,7 M,0 M,10 P,7,2 D,0,2,emptied";

/// Output lines, written with blanks between them, all with CRLF.
fn printed(lines: &str) -> Vec<u8> {
    let lines = lines.split_ascii_whitespace();
    lines
        .flat_map(|line| format!("{line}\r\n").into_bytes())
        .collect()
}

pub fn sheets() -> Vec<Known> {
    let bad = |count: usize| "?,13 ".repeat(count);
    let good = "T,4,1,1,2,1,1";
    let cases: Vec<(&str, String, String)> = vec![
        ("listing, LF", LISTING.into(), LISTING_OUT.into()),
        (
            "listing, CRLF",
            LISTING.replace('\n', "\r\n"),
            LISTING_OUT.into(),
        ),
        (
            "listing, no end on the last line",
            LISTING.trim_end().into(),
            LISTING_OUT.into(),
        ),
        ("empty input", "".into(), "".into()),
        ("one LF", "\n".into(), bad(1)),
        ("one CRLF", "\r\n".into(), bad(1)),
        ("one CR", "\r".into(), bad(1)),
        ("three empty lines", "\n\r\n\n".into(), bad(3)),
        (
            "LF then CRLF",
            format!("{good}\nD,1\r\n"),
            "T,0 D,0,0,emptied".into(),
        ),
        ("CR at the end of input", format!("{good}\r"), bad(1)),
        ("two CR before the LF", format!("{good}\r\r\n"), bad(1)),
        ("CR in a line", "T,4,1,1,2\r,1,1\n".into(), bad(1)),
        ("CR between lines", format!("{good}\rD,1\n"), bad(1)),
        ("LF then CR", format!("{good}\n\rD,1\n"), "T,0 ?,13".into()),
        (
            "64 and 65 bytes, over 64 at the end",
            format!(
                "{}\n{}\r\n{}",
                "D".repeat(64),
                "D".repeat(65),
                "D".repeat(66)
            ),
            bad(3),
        ),
        (
            "leading zeros",
            format!("{good}\nD,00\nD,01\nD,0\nO,0,00,1,1\n"),
            "T,0 ?,13 ?,13 D,0,0,emptied ?,13".into(),
        ),
        (
            "the largest number and one more",
            format!("{good}\nD,4294967295\nD,4294967296\nD,18446744073709551616\n"),
            "T,0 D,0,0,emptied ?,13 ?,13".into(),
        ),
        (
            "blanks, signs, quotes, letters",
            "T,4,1,1,2,1, 1\nT ,4,1,1,2,1,1\nD,+1\nD,-1\n\"D\",1\nd,1\nD,1x\nDD,1\nD, 1\nD,1 \n"
                .into(),
            bad(10),
        ),
        (
            "fields missing, empty or too many",
            "T\nT,4,1,2,1,1\nT,4,1,1,2,1,1,1\nT,4,1,1,2,1,\nO,0,2,7\nO,0,2,7,1,1\nM,0,0,0,0\nD\nD,\nD,1,\n,\n,1\n"
                .into(),
            bad(12),
        ),
        (
            "before the first T",
            "O,0,0,0,1\nM,0,0,0\nM,9,9,9\nD,0\nD,1\n".into(),
            "O,2 M,2 M,2 D,2 D,2".into(),
        ),
        (
            "a refused T leaves the network",
            format!("{good}\nO,1,2,3,8\nT,0,1,1,2,1,1\nT,16,16,1,8,8,8\nD,9\n"),
            "T,0 O,0 T,2 T,1 P,3,2 D,0,2,emptied".into(),
        ),
        (
            "numbers that are too large for the call",
            format!("{good}\nO,4,0,1,1\nO,0,4294967295,1,1\nM,4,13,13\nM,0,13,13\nM,0,12,13\n")
                + "M,0,12,12\nT,4294967295,1,1,1,1,1\nT,4,1,17,2,1,1\nT,4,1,0,2,1,1\n",
            "T,0 O,4 O,4 M,4 M,5 M,6 M,9 T,2 T,2 T,2".into(),
        ),
        (
            "a delivery by M, and the largest tag",
            format!("{good}\nO,2,3,4294967295,8\nM,2,0,0\nM,2,0,1\nM,3,1,0\nM,3,1,0\n"),
            "T,0 O,0 M,10 M,0 P,4294967295,3 M,0 M,9".into(),
        ),
        (
            "offers to oneself",
            format!("T,1,1,1,2,1,1\nO,0,0,1,1\nO,1,1,1,1\n{good}\nO,3,3,1,1\nO,4,4,1,1\nO,0,1,2,1\n")
                + "O,0,0,3,1\nD,9\n",
            "T,0 O,14 O,4 T,0 O,14 O,4 O,0 O,14 P,2,1 D,0,2,emptied".into(),
        ),
        (
            "stops",
            format!("{good}\nO,0,1,5,1\nD,0\nD,1\nD,1\nD,0\n"),
            "T,0 O,0 D,0,0,spent D,0,1,spent P,5,1 D,0,1,emptied D,0,0,emptied".into(),
        ),
        (
            // No network has 8000 words. 7996 and 8001 are next to it, then come
            // 7779 for 105 nodes of the fewest words, and 9481 for 128.
            "networks with room in 8000 words, and with none",
            "T,7,7,1,8,2,6\nO,48,0,1,8\nD,9\nT,6,6,3,2,1,1\nT,3,5,7,2,1,1\nO,0,104,2,1\nD,9\n"
                .to_string()
                + "T,16,8,1,2,1,1\nT,8,4,4,2,1,1\nT,16,16,16,8,8,8\nT,16,15,1,2,1,1\nT,6,6,6,2,1,1\n",
            "T,0 O,0 P,1,0 D,0,3,emptied T,1 T,0 O,0 P,2,104 D,0,4,emptied T,1 T,1 T,1 T,1 T,1"
                .into(),
        ),
        (
            // Six numbers of ten digits take 67 bytes.
            "T lines of 64, 65 and 67 bytes",
            ["1000000\n", "1000000\r\n", "10000000\n", "4294967295\n"]
                .map(|last| format!("T,{}{last}", "4294967295,".repeat(5)))
                .concat(),
            "T,2 T,2 ?,13 ?,13".into(),
        ),
        (
            // Packet 1 goes along z by escape and stands in queue 11 of node 9,
            // packet 2 comes along x by escape and turns there.
            "from an x ring into a z ring",
            "T,4,1,4,2,1,1\nO,1,9,1,1\nM,1,0,11\nM,5,11,11\nO,4,9,2,8\nM,4,0,7\nM,5,7,11\n".to_string()
                + "M,9,11,0\nM,5,7,11\nD,9\n",
            "T,0 O,0 M,0 M,0 O,0 M,0 M,12 P,1,9 M,0 M,0 P,2,9 D,0,1,emptied".into(),
        ),
        (
            // From z 0 it goes z+, from z 1 it goes z-.
            "half-way along z",
            "T,3,2,4,2,1,1\nO,0,12,1,1\nM,0,0,6\nM,0,0,5\nO,6,18,2,1\nM,6,0,5\nM,6,0,12\nD,9\n".into(),
            "T,0 O,0 M,10 M,0 O,0 M,10 M,0 P,1,12 P,2,18 D,0,4,emptied".into(),
        ),
        (
            // 5 and 4 chunks are more than an adaptive queue of one slot has, 5 and
            // 3 fill it.
            "chunks",
            "T,4,1,1,2,1,2\nO,0,2,1,5\nO,0,2,2,4\nO,0,2,3,3\nM,0,0,1\nM,0,0,1\nM,0,0,7\nO,0,2,3,3\n"
                .to_string()
                + "M,0,0,1\nO,0,1,4,9\nO,0,0,4,9\nO,0,4,4,9\nD,99\n",
            "T,0 O,0 O,0 O,7 M,0 M,11 M,0 O,0 M,0 O,2 O,2 O,4 P,1,2 P,3,2 P,2,2 D,0,6,emptied".into(),
        ),
        (
            "chunk numbers that are none, and the longest O",
            format!("{good}\nO,0,1,2,0\nO,0,1,2,9\nO,0,1,2,4294967295\nO,0,1,2,4294967296\n")
                + "O,0,1,2,01\nO,0,1,2,\nO,0,1,2, 1\n"
                + "O,4294967295,4294967295,4294967295,4294967295\nO,0,1,4294967295,8\nD,9\n",
            "T,0 O,2 O,2 O,2 ?,13 ?,13 ?,13 ?,13 O,4 O,0 P,4294967295,1 D,0,2,emptied".into(),
        ),
    ];
    let known = cases.into_iter();
    known
        .map(|(name, input, output)| (name, input.into_bytes(), printed(&output)))
        .collect()
}
