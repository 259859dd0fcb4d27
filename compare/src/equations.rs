//! What demand 3 says of a run of moves, R220 to R239 of docs/RULES.md. It is
//! worked out from the words alone, by plain sums.

/// What counts in the words of a network that passes the check.
#[derive(Clone, Debug, PartialEq, Eq)]
pub struct Survey {
    /// The labels of the packets held, sorted.
    pub labels: Vec<u64>,
    pub work_left: u64,
    pub accepted: u64,
    pub delivered: u64,
    pub moves_made: u64,
}

/// R228: the word with its three offsets, the fifteen lowest bits, set to 0.
pub fn label(word: u64) -> u64 {
    word - word % (1 << 15)
}

fn destination(word: u64) -> u64 {
    word / (1 << 16) % (1 << 12)
}

/// The hops in the lowest five bits.
fn hops(bits: u64) -> u64 {
    let offset = bits % 32;
    if offset < 16 {
        offset
    } else {
        32 - offset
    }
}

impl Survey {
    pub fn of(words: &[u64]) -> Survey {
        let capacities = {
            let (e, a, j) = (words[3], 8 * words[4], words[5]);
            [j, a, a, a, a, a, a, e, e, e, e, e, e]
        };
        let mut labels = Vec::new();
        let mut work_left = 0;
        let mut rest = &words[9..];
        for _ in 0..words[0] * words[1] * words[2] {
            for capacity in capacities {
                let held = rest[0] as usize;
                for word in &rest[1..=held] {
                    labels.push(label(*word));
                    work_left += hops(word / 1024) + hops(word / 32) + hops(*word) + 1;
                }
                rest = &rest[1 + capacity as usize..];
            }
        }
        labels.sort_unstable();
        Survey {
            labels,
            work_left,
            accepted: words[6],
            delivered: words[7],
            moves_made: words[8],
        }
    }
}

/// A run under way: what was held at the start, and what came out since.
pub struct Run {
    start: Survey,
    moves: u64,
    /// The node of its move and the word, for each packet handed out.
    handed_out: Vec<(u64, u64)>,
}

impl Run {
    pub fn begin(words: &[u64]) -> Run {
        Run {
            start: Survey::of(words),
            moves: 0,
            handed_out: Vec::new(),
        }
    }

    /// One more move, and the packet word if it was a delivery.
    pub fn note(&mut self, node: u64, handed_out: Option<u64>) {
        self.moves += 1;
        self.handed_out.extend(handed_out.map(|word| (node, word)));
    }

    pub fn moves(&self) -> u64 {
        self.moves
    }

    pub fn packets_out(&self) -> usize {
        self.handed_out.len()
    }

    /// The equations that need nothing but the words at the end. The last one
    /// (the check passes, a move is permitted) is for the caller to ask.
    pub fn verify(&self, words: &[u64]) -> Result<(), String> {
        let end = Survey::of(words);
        for (node, word) in &self.handed_out {
            if label(*word) != *word {
                return Err(format!("handed out {word}, which has hops left"));
            }
            if destination(*word) != *node {
                return Err(format!("handed out {word} at node {node}"));
            }
        }
        let mut labels = end.labels.clone();
        labels.extend(self.handed_out.iter().map(|(_, word)| label(*word)));
        labels.sort_unstable();
        if labels != self.start.labels {
            return Err("the labels held and handed out have changed".into());
        }
        let equal = |what: &str, left: u64, right: u64| {
            if left == right {
                Ok(())
            } else {
                Err(format!("{what}: {left} is not {right}"))
            }
        };
        let out = self.handed_out.len() as u64;
        equal(
            "moves of the run plus work left",
            self.moves + end.work_left,
            self.start.work_left,
        )?;
        equal(
            "moves made",
            end.moves_made,
            self.start.moves_made + self.moves,
        )?;
        equal("delivered", end.delivered, self.start.delivered + out)?;
        equal("accepted", end.accepted, self.start.accepted)
    }
}

#[cfg(test)]
mod tests {
    use super::*;

    /// One node with a packet to itself in the injection queue, and a second
    /// network that has delivered it.
    fn before_and_after() -> (Vec<u64>, Vec<u64>, u64) {
        let word = 7 << 32;
        let mut before = vec![0; 83];
        before[..11].copy_from_slice(&[1, 1, 1, 2, 1, 1, 1, 0, 0, 1, word]);
        let mut after = vec![0; 83];
        after[..9].copy_from_slice(&[1, 1, 1, 2, 1, 1, 1, 1, 1]);
        (before, after, word)
    }

    #[test]
    fn a_right_run_passes() {
        let (before, after, word) = before_and_after();
        let mut run = Run::begin(&before);
        assert_eq!(run.verify(&before), Ok(()));
        run.note(0, Some(word));
        assert_eq!(run.verify(&after), Ok(()));
    }

    #[test]
    fn each_equation_can_fail() {
        let (before, after, word) = before_and_after();
        // A move that nobody noted, one too many, a lost packet, another one.
        assert!(Run::begin(&before).verify(&after).is_err());
        let wrong: [&[(u64, Option<u64>)]; 5] = [
            &[(0, None)],
            &[(0, Some(word)), (0, None)],
            &[(0, Some(word + (1 << 32)))],
            &[(1, Some(word))],
            &[(0, Some(word + 1))],
        ];
        for moves in wrong {
            let mut run = Run::begin(&before);
            moves.iter().for_each(|(node, out)| run.note(*node, *out));
            assert!(run.verify(&after).is_err(), "{moves:?}");
        }
        // Header words that did not rise with the run.
        for index in [6, 7, 8] {
            let mut run = Run::begin(&before);
            run.note(0, Some(word));
            let mut changed = after.clone();
            changed[index] += 1;
            assert!(run.verify(&changed).is_err(), "word {index}");
        }
    }
}
