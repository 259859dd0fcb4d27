//! The calls of the waveform on every implementation that has them.

use super::{Lab, GUARDS};
use crate::bench::{read, write, Answer, WaveStep};

/// What stands on a page before a call, and in the bytes behind the lent ones.
const RUBBISH: u8 = 0xa5;

/// A copy of lent bytes with guards behind them.
fn guarded(lent: &[u8]) -> Vec<u8> {
    let mut bytes = lent.to_vec();
    bytes.resize(lent.len() + GUARDS, RUBBISH);
    bytes
}

fn are_rubbish(bytes: &[u8]) -> bool {
    bytes.iter().all(|byte| *byte == RUBBISH)
}

impl Lab {
    fn wave_fails(&self, name: &str, what: &str, why: &str) -> ! {
        panic!("{}: {name}, {what}: {why}", self.place);
    }

    fn count_wave(&mut self, answer: Answer) {
        self.counts.calls += 1;
        self.counts.refusals[answer.refusal as usize] += 1;
    }

    /// Writes a step on a page of so many bytes. The list becomes that after
    /// the call; what was written is given back with the answer.
    pub fn write(
        &mut self,
        step: WaveStep,
        words: &[u64],
        fills: &mut [u8],
        room: usize,
    ) -> (Answer, Vec<u8>) {
        let what = format!(
            "{step:?} on {} words, {} fills, {room} bytes",
            words.len(),
            fills.len()
        );
        let mut first: Option<(Answer, Vec<u8>, Vec<u8>)> = None;
        for writer in &self.writers {
            let fail = |why: &str| self.wave_fails(writer.name(), &what, why);
            let store = words.to_vec();
            let mut list = guarded(fills);
            let mut page = vec![RUBBISH; room + GUARDS];
            let (lent, sheet) = (&mut list[..fills.len()], &mut page[..room]);
            let answer = write(writer.as_ref(), step, &store, lent, sheet);
            if store != words {
                fail("wrote to the words");
            }
            if !are_rubbish(&list[fills.len()..]) || !are_rubbish(&page[room..]) {
                fail("wrote beyond the lent memory");
            }
            if answer.refusal != 0 && (answer.out != [0; 4] || list != guarded(fills)) {
                fail("refused, and answered or wrote to the list");
            }
            // A refused step has no bytes, and so the whole page is as it was.
            if !are_rubbish(&page[answer.out[0] as usize..]) {
                fail("wrote behind the step");
            }
            let mine = (answer, list, page);
            if let Some(model) = &first {
                if mine.0 != model.0 {
                    fail(&format!("answered {:?}, the model {:?}", mine.0, model.0));
                }
                if let Some(index) = difference(&mine.1, &model.1) {
                    fail(&format!("fill {index} is not the model's"));
                }
                if let Some(index) = difference(&mine.2, &model.2) {
                    fail(&format!("byte {index} of the page is not the model's"));
                }
            }
            first.get_or_insert(mine);
        }
        let (answer, list, mut page) = first.expect("the model is always there");
        let lent = fills.len();
        fills.copy_from_slice(&list[..lent]);
        page.truncate(answer.out[0] as usize);
        self.count_wave(answer);
        (answer, page)
    }

    /// Reads a step. The list becomes that after the call. The bytes are lent
    /// as they stand, with what stands behind them: who cuts a step off lends
    /// the first of its bytes and leaves the others there.
    pub fn read(&mut self, bytes: &[u8], fills: &mut [u8]) -> Answer {
        let before = bytes.to_vec();
        let mut first: Option<(Answer, Vec<u8>)> = None;
        for reader in &self.readers {
            let fail = |why: &str| {
                let text = bytes.escape_ascii();
                let what = format!("read into {} fills, '{text}'", fills.len());
                self.wave_fails(reader.name(), &what, why)
            };
            let mut list = guarded(fills);
            let answer = read(reader.as_ref(), bytes, &mut list[..fills.len()]);
            if bytes != before {
                fail("wrote to the bytes");
            }
            if !are_rubbish(&list[fills.len()..]) {
                fail("wrote beyond the lent memory");
            }
            if answer.refusal != 0 && (answer.out != [0; 4] || list != guarded(fills)) {
                fail("refused, and answered or wrote to the list");
            }
            let mine = (answer, list);
            if let Some(model) = &first {
                if mine.0 != model.0 {
                    fail(&format!("answered {:?}, the model {:?}", mine.0, model.0));
                }
                if let Some(index) = difference(&mine.1, &model.1) {
                    fail(&format!("fill {index} is not the model's"));
                }
            }
            first.get_or_insert(mine);
        }
        let (answer, list) = first.expect("the model is always there");
        let lent = fills.len();
        fills.copy_from_slice(&list[..lent]);
        self.count_wave(answer);
        answer
    }
}

/// The first place at which two lists of the same length differ.
fn difference(mine: &[u8], model: &[u8]) -> Option<usize> {
    (0..model.len()).find(|index| mine[*index] != model[*index])
}
