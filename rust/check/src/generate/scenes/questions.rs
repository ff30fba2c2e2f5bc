//! Questions: texts that just fill their buffers or do not, and long control lines.

use super::super::Generator;
use crate::call::Call;
use crate::compare::{FILES, ROOM};
use crate::model::{CONTROLLERS, Model};

impl Generator {
    /// Every file of a group and a membership line, into buffers about as long as the texts.
    pub(super) fn tight_reads(&mut self, sketch: &mut Model) {
        let group = self.live_group(sketch);
        for file in FILES {
            let question = Call::Read { group, file: file.to_vec(), room: ROOM };
            let question = self.with_room(sketch, question);
            self.plan(sketch, question);
        }
        if let Some(process) = self.random.one_of(sketch.live_processes()) {
            let question = Call::Membership { process, room: ROOM };
            let question = self.with_room(sketch, question);
            self.plan(sketch, question);
        }
    }

    /// Control lines of thousands of bytes: good words and spaces, or one word; then a wrong word
    /// anywhere, at the end too, or none; with a newline or without.
    pub(super) fn long_lines(&mut self, sketch: &mut Model) {
        for place in 0..6 {
            let length = self.random.pick(&[129, 500, 1_000, 2_048, 4_096, 4_097, 9_000]);
            let mut line = match self.random.below(8) {
                0 => b"+cpu".repeat(length / 4),
                1 => vec![b' '; length],
                2 => vec![self.random.pick(b"+x\n\t"); length],
                _ => self.good_words(length),
            };
            match place {
                0 => {}
                1 => {
                    let word = self.bad_control_word();
                    line = [word, line].join(&b' ');
                }
                2 => {
                    let word = self.bad_control_word();
                    line = [line, word].join(&b' ');
                }
                3 => {
                    let last = self.random.pick(b"x\n\t+\0 ");
                    line.push(last);
                }
                _ => {
                    let place = self.random.below(line.len() as u64) as usize;
                    line[place] = self.random.pick(b"x \n\t+-");
                }
            }
            if self.random.percent(50) {
                line.push(b'\n');
            }
            if self.random.percent(10) {
                let group = self.live_group(sketch);
                let line = line.clone();
                self.plan(sketch, Call::WriteSubtreeControl { user: 0, group, line });
            }
            self.plan(sketch, Call::FirstBadWord { line });
        }
    }

    /// Good words, so many bytes or a few more.
    fn good_words(&mut self, length: usize) -> Vec<u8> {
        let mut line = vec![];
        while line.len() < length {
            let (sign, name) = (self.random.pick(b"+-"), self.random.pick(&CONTROLLERS));
            line.push(sign);
            line.extend(name.as_bytes());
            let spaces = self.random.pick(&[1, 1, 1, 2, 40]);
            line.extend(vec![b' '; spaces]);
        }
        line
    }
}
