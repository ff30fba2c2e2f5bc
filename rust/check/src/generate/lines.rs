//! Lines that are written to files: mostly right, often right in an unusual dress, sometimes wrong
//! by one byte.

use super::Generator;
use crate::model::{CONTROLLERS, Model};

const LENGTHS: [usize; 6] = [0, 1, 127, 128, 129, 300];

/// Bytes that look like a space, a digit, a sign or the end of a text, and are not.
const ODD_BYTES: [u8; 14] =
    [b'\0', b'\t', b'\n', b'\r', 0x0b, 0x0c, 0x1f, 0x7f, 0x80, 0xa0, 0xff, b'+', b'-', b'0'];

const BAD_WORDS: [&[u8]; 20] = [
    b"+",
    b"-",
    b"cpu",
    b"++cpu",
    b"+-cpu",
    b"+CPU",
    b"+cpu+memory",
    b"+cpus",
    b"+cp",
    b"+memory.max",
    b"+i",
    b"-pid",
    b"\t+cpu",
    b"+cpu\t-cpu",
    b"+cpu\n",
    b"+cpu\0",
    b"+\xff",
    b"\0",
    b"max",
    b"5",
];

impl Generator {
    /// A line for cgroup.procs: mostly the process's number.
    pub(super) fn number_line(&mut self, process: u64) -> Vec<u8> {
        let word = self.number_word(u128::from(process));
        match self.random.below(30) {
            0 => self.bad_number(),
            1 => [word, b" ".to_vec(), self.number_word(5)].concat(),
            _ => self.dressed(word),
        }
    }

    /// A line for cgroup.subtree_control: a few words, good ones most of the time.
    pub(super) fn control_line(&mut self) -> Vec<u8> {
        let words = self.random.pick(&[0, 1, 1, 1, 2, 2, 3, 4, 6, 12]);
        let mut line = vec![];
        for _ in 0..words {
            if !line.is_empty() {
                let spaces = self.random.pick(&[1, 1, 1, 2, 5]);
                line.extend(vec![b' '; spaces]);
            }
            if self.random.percent(self.taste.odd_lines / 10) {
                let word = self.random.pick(&BAD_WORDS);
                line.extend(word);
            } else {
                let sign = if self.random.percent(65) { b'+' } else { b'-' };
                line.push(sign);
                let name = self.random.pick(&CONTROLLERS);
                line.extend(name.as_bytes());
            }
        }
        self.dressed(line)
    }

    /// A line for a setting: at the edges of its range, or about as much as is in use.
    pub(super) fn setting_line(&mut self, model: &Model, group: u64, file: &[u8]) -> Vec<u8> {
        if self.random.percent(4) {
            let line = self.bad_number();
            return self.dressed(line);
        }
        if file == b"io.max" {
            return self.device_line(model, group);
        }
        let live = model.group(group).is_some();
        let value: Option<u128> = match file {
            b"pids.max" => match self.random.below(10) {
                0 => None,
                1..3 => Some(self.random.pick(&[0, 1, 4_194_303, 4_194_304, 4_194_305])),
                3 => Some(self.wide_number()),
                _ => {
                    let population = if live { model.population(group) } else { 0 };
                    Some(u128::from((population + self.random.below(6)).saturating_sub(2)))
                }
            },
            b"cpu.weight" => match self.random.below(20) {
                0 => None,
                1 => Some(self.wide_number()),
                _ => Some(self.random.pick(&[0, 1, 2, 50, 100, 101, 9_999, 10_000, 10_001])),
            },
            b"cpu.max" => match self.random.below(20) {
                0..4 => None,
                4 => Some(self.wide_number()),
                _ => Some(self.random.pick(&[
                    0,
                    5,
                    999,
                    1_000,
                    1_001,
                    50_000,
                    100_000,
                    999_999_999,
                    1_000_000_000,
                    1_000_000_001,
                ])),
            },
            _ => match self.random.below(12) {
                0 => None,
                1..5 => Some(self.random.pick(&[
                    0,
                    1,
                    4_095,
                    4_096,
                    4_097,
                    20_480,
                    (1 << 52) - 1,
                    1 << 52,
                    (1 << 52) + 1,
                ])),
                5 => Some(self.wide_number()),
                _ => {
                    let usage = if live { model.usage(group) } else { 0 };
                    let pages = (usage + self.random.below(12)).saturating_sub(3);
                    let bytes = pages * 4096 + self.random.pick(&[0, 0, 0, 1, 4095]);
                    Some(u128::from(bytes))
                }
            },
        };
        let mut line = match value {
            Some(value) => self.number_word(value),
            None => b"max".to_vec(),
        };
        if file == b"cpu.max" && self.random.percent(60) {
            line.push(b' ');
            let period = self.random.pick(&[0, 5, 999, 1_000, 1_001, 50_000, 1_000_000, 1_000_001]);
            let word = self.number_word(period);
            line.extend(match self.random.below(15) {
                0 => b"max".to_vec(),
                1 => b"x".to_vec(),
                _ => word,
            });
            if self.random.percent(5) {
                line.extend(b" 1000");
            }
        }
        self.dressed(line)
    }

    /// A number in decimal, leading zeros now and then, up to the longest line and past it. Now and
    /// then another number that a narrow word would take for it.
    pub(super) fn number_word(&mut self, value: u128) -> Vec<u8> {
        if !self.random.percent(self.taste.odd_lines) {
            return value.to_string().into_bytes();
        }
        let digits = match self.random.below(8) {
            0 => value.saturating_add(1 << 32),
            1 => value.saturating_add(1 << 64),
            2 => value.saturating_add(u128::from(self.random.next()) << 64),
            _ => value,
        };
        let digits = digits.to_string();
        let length = self.random.pick(&[0, 2, 3, 5, 20, 40, 126, 127, 128, 129]);
        format!("{digits:0>length$}").into_bytes()
    }

    /// A number of many digits, or at an edge of a machine word.
    pub(super) fn wide_number(&mut self) -> u128 {
        self.random.pick(&[
            (1 << 31) - 1,
            (1 << 32) - 1,
            1 << 32,
            (1 << 32) + 1000,
            (1 << 63) - 1,
            (1 << 64) - 1,
            1 << 64,
            (1 << 64) + 1000,
            u128::MAX,
        ])
    }

    /// A word that is not a number of any use.
    fn bad_number(&mut self) -> Vec<u8> {
        let bad: [&[u8]; 24] = [
            b"0",
            b"000",
            b"-1",
            b"+5",
            b"0x10",
            b"1e3",
            b"5.0",
            b"5,6",
            b"1_000",
            b"max",
            b"MAX",
            b"Max",
            b"maxx",
            b"ma",
            b"max\0",
            b"",
            b" ",
            b"\n",
            b"\n\n",
            b"5\t",
            b"\xff",
            b"9999999999999999999999999999999999999999",
            b"0000000000000000000000000000000000000000",
            b"340282366920938463463374607431768211461",
        ];
        self.random.pick(&bad).to_vec()
    }

    /// A word that is no number, and no "max".
    pub(super) fn malformed_word(&mut self) -> Vec<u8> {
        self.random.pick(&[b"x".as_slice(), b"-1", b"5:", b"/5", b"0x5", b"maxx", b"5\t"]).to_vec()
    }

    pub(super) fn bad_control_word(&mut self) -> Vec<u8> {
        self.random.pick(&BAD_WORDS).to_vec()
    }

    /// The line as it is, or with spaces, newlines, an odd byte, or cut and drawn to a length.
    pub(super) fn dressed(&mut self, mut line: Vec<u8>) -> Vec<u8> {
        if !self.random.percent(self.taste.odd_lines) {
            if self.random.percent(40) {
                line.push(b'\n');
            }
            return line;
        }
        let place = self.random.below(line.len() as u64 + 1) as usize;
        match self.random.below(14) {
            0 => line.extend(b"\n\n"),
            1 => line.extend(b" \n"),
            2 => line.extend(b"\r\n"),
            3 => line.insert(0, b' '),
            4 => line.extend(b"   "),
            5 | 6 => {
                let byte = self.random.pick(&ODD_BYTES);
                line.insert(place, byte);
            }
            7 => line.truncate(place),
            8 => {
                line.drain(..place);
            }
            9 => {
                let length = self.random.pick(&LENGTHS);
                line.resize(length.max(line.len()), b' ');
                if self.random.percent(50) {
                    line.push(b'\n');
                }
            }
            10 => {
                let length = self.random.pick(&LENGTHS);
                let spaces = length.saturating_sub(line.len());
                line.splice(..0, vec![b' '; spaces]);
                if self.random.percent(50) {
                    line.push(b'\n');
                }
            }
            11 => {
                let length = self.random.pick(&LENGTHS);
                line = (0..length).map(|_| self.random.next() as u8).collect();
            }
            12 => {
                let length = self.random.pick(&LENGTHS);
                line = vec![b' '; length];
            }
            _ => {
                let twice = [line.clone(), b" ".to_vec(), line].concat();
                line = twice;
            }
        }
        line
    }
}
