//! Words that are wrong by one byte, mostly a neighbour of the right one: each to a file where
//! nothing else is in its way.

use super::super::Generator;
use super::super::arguments::FIGURES;
use crate::call::Call;
use crate::model::{CONTROLLERS, Model};

/// Neighbours of the digits, of the signs, of the space and of the newline; and the ends.
const NEIGHBOURS: [u8; 20] = [
    b'/', b':', b'*', b'+', b',', b'-', b'.', 9, 10, 11, 12, 13, 31, b'!', 0, 0x10, 0x1a, 0x80,
    0xb0, 0xff,
];

impl Generator {
    /// Numbers with such a byte in the place of a digit or beside it; "max" and a line of io.max wrong
    /// by one letter.
    pub(super) fn odd_numbers(&mut self, sketch: &mut Model) {
        let Some(group) = self.open_group(sketch) else { return };
        let Some(process) = self.free_process(sketch) else { return };
        self.plan(sketch, Call::Admit { process, user: 0 });
        for (place, byte) in (self.round()..).zip(NEIGHBOURS) {
            let call = if place % 2 == 0 {
                let line = self.number_with(process.to_string().as_bytes(), byte);
                Call::WriteProcs { user: 0, group, line }
            } else {
                let file = FIGURES[place / 2 % FIGURES.len()].to_vec();
                let line = self.number_with(b"2345", byte);
                Call::WriteSetting { user: 0, group, file, line }
            };
            self.plan(sketch, call);
        }
        for _ in 0..6 {
            let file = self.random.pick(&FIGURES);
            let line = self.off_by_one(b"max");
            self.plan(sketch, Call::WriteSetting { user: 0, group, file: file.to_vec(), line });
            let line = self.off_by_one(b"8:16 wiops=5");
            self.set_device(sketch, group, line);
        }
    }

    /// Control words wrong by one byte, alone or among good ones, asked about and written.
    pub(super) fn odd_controls(&mut self, sketch: &mut Model) {
        for (place, byte) in (self.round()..).zip(NEIGHBOURS) {
            let name = self.random.pick(&CONTROLLERS);
            let word = match place % 3 {
                0 => [&[byte], name.as_bytes()].concat(),
                1 => {
                    let word = format!("+{name}");
                    self.with_byte(word.as_bytes(), byte)
                }
                _ => {
                    let sign = self.random.pick(b"+-");
                    [vec![sign], self.off_by_one(name.as_bytes())].concat()
                }
            };
            let between = self.random.pick(&[b' ', b' ', byte]);
            let line = match self.random.below(4) {
                0 => word,
                1 => [b"+cpu".to_vec(), word].join(&between),
                2 => [word, b"-pids".to_vec()].join(&between),
                _ => [b"+memory".to_vec(), word, b"+pids".to_vec()].join(&between),
            };
            let group = self.live_group(sketch);
            if self.random.percent(50) {
                self.plan(sketch, Call::FirstBadWord { line: line.clone() });
            }
            self.plan(sketch, Call::WriteSubtreeControl { user: 0, group, line });
        }
    }

    /// A number with the byte in it: before it, after it, within, or in a digit's place; in one
    /// word or in the second of two, as cpu.max has it.
    fn number_with(&mut self, number: &[u8], byte: u8) -> Vec<u8> {
        let word = match self.random.below(4) {
            0 => [&[byte], number].concat(),
            1 => [number, &[byte]].concat(),
            _ => self.with_byte(number, byte),
        };
        if self.random.percent(15) { [b"2000", &word[..]].join(&b' ') } else { word }
    }

    /// The byte put between two others, or in the place of one.
    fn with_byte(&mut self, word: &[u8], byte: u8) -> Vec<u8> {
        let mut word = word.to_vec();
        let place = self.random.below(word.len() as u64) as usize;
        if self.random.percent(50) {
            word[place] = byte;
        } else {
            word.insert(place, byte);
        }
        word
    }

    /// One letter taken for the one before or after it, in the other case, left out or twice.
    pub(in super::super) fn off_by_one(&mut self, word: &[u8]) -> Vec<u8> {
        let mut word = word.to_vec();
        let place = self.random.below(word.len() as u64) as usize;
        match self.random.below(8) {
            0..3 => word[place] += 1,
            3..6 => word[place] -= 1,
            6 => word[place] ^= 0x20,
            _ if self.random.percent(50) => drop(word.remove(place)),
            _ => word.insert(place, word[place]),
        }
        word
    }
}
