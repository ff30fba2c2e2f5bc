//! Lines for io.max: devices that come again, pairs in any order, and lines that are wrong by a word.

use super::Generator;
use crate::model::{Device, Held, KEYS, Model};

/// Devices that order, length and leading zeros could confuse.
pub(super) const DEVICES: [Device; 10] = [
    device(8, 16),
    device(8, 0),
    device(10, 0),
    device(8, 160),
    device(81, 6),
    device(16, 8),
    device(0, 0),
    device(0, 255),
    device(255, 0),
    device(255, 255),
];

const fn device(major: u128, minor: u128) -> Device {
    Device { major, minor }
}

const OUTSIDE: [Device; 5] =
    [device(256, 0), device(0, 256), device(256, 256), device(264, 16), device(8, 1 << 64)];

const MOST: u128 = 4_503_599_627_370_496;

const BAD_DEVICES: [&str; 12] =
    ["8", "8:", ":16", ":", "8:16:1", "8::16", "8.16", "8:x", "x:16", "-8:16", "8:max", "8=16"];

const BAD_PAIRS: [&str; 16] = [
    "rbps",
    "rbps=",
    "=1",
    "=",
    "rbps=1=2",
    "rbps==1",
    "rbps:1",
    "RBPS=1",
    "rbps=MAX",
    "rbps=maxx",
    "rbps=+1",
    "rbps=-1",
    "rbps=0x1",
    "rbp=1",
    "bps=1",
    "wiopss=1",
];

impl Generator {
    /// A line for io.max, mostly one that is taken: what a reader gets, a device that goes, or any
    /// device with any pairs.
    pub(super) fn device_line(&mut self, model: &Model, group: u64) -> Vec<u8> {
        let held = self.held_device(model, group);
        let line = match (self.random.below(12), held) {
            (0, Some(held)) => return held.line().into_bytes(),
            (1, Some(held)) => return held.line().trim_end().into(),
            (2, Some(held)) => all_max(held.device).into_bytes(),
            _ => {
                let device = self.device_word(model, group);
                let pairs = self.pair_words();
                [vec![device], pairs].concat().join(&b' ')
            }
        };
        if self.random.percent(8) { self.drawn(line) } else { self.dressed(line) }
    }

    /// The line drawn out to about the longest, by spaces between its words or at the end.
    pub(super) fn drawn(&mut self, line: Vec<u8>) -> Vec<u8> {
        let length = self.random.pick(&[127, 128, 128, 129]);
        let spaces = vec![b' '; usize::saturating_sub(length, line.len())];
        let place = line.iter().position(|&byte| byte == b' ').unwrap_or(line.len());
        let place = self.random.pick(&[place, line.len()]);
        [&line[..place], &spaces, &line[place..]].concat()
    }

    /// One of the devices that a group holds.
    pub(super) fn held_device(&mut self, model: &Model, group: u64) -> Option<Held> {
        let held = &model.group(group)?.settings.io_max;
        if held.is_empty() { None } else { Some(self.random.pick(held)) }
    }

    /// A device: one that is held, one of a few, one above the range or none at all.
    fn device_word(&mut self, model: &Model, group: u64) -> Vec<u8> {
        let held = self.held_device(model, group);
        let Device { major, minor } = match (self.random.below(20), held) {
            (0, _) => return self.random.pick(&BAD_DEVICES).into(),
            (1, _) => self.random.pick(&OUTSIDE),
            (2, _) => device(self.wide_number(), 0),
            (3..9, Some(held)) => held.device,
            _ => self.random.pick(&DEVICES),
        };
        [self.number_word(major), self.number_word(minor)].join(&b':')
    }

    /// None to four pairs in any order; now and then a key again, or a word that is no pair.
    fn pair_words(&mut self) -> Vec<Vec<u8>> {
        let mut keys = KEYS.to_vec();
        let count = self.random.pick(&[0, 1, 1, 1, 2, 2, 3, 4]);
        let mut words = vec![];
        for _ in 0..count {
            let key = keys.remove(self.random.below(keys.len() as u64) as usize);
            words.push(self.pair_word(key));
        }
        if self.random.percent(8) {
            let key = self.random.pick(&KEYS);
            words.push(self.pair_word(key));
        }
        if self.random.percent(5) {
            words.push(self.random.pick(&BAD_PAIRS).into());
        }
        words
    }

    fn pair_word(&mut self, key: &str) -> Vec<u8> {
        let figure = match self.random.below(16) {
            0..6 => None,
            6 => Some(self.random.pick(&[0, MOST + 1, MOST + 4096, (1 << 32) - 1, 1 << 32])),
            7 => Some(self.wide_number()),
            _ => Some(self.random.pick(&[1, 2, 120, 2_097_152, MOST - 1, MOST])),
        };
        let value = figure.map_or_else(|| b"max".to_vec(), |figure| self.number_word(figure));
        [key.as_bytes(), &value].join(&b'=')
    }

    /// Up to four words, each good, out of range or malformed on its own.
    pub(super) fn any_device_line(&mut self, model: &Model, group: u64) -> Vec<u8> {
        let held = self.held_device(model, group).map_or(DEVICES[0], |held| held.device);
        let mut words = vec![];
        let count = self.random.pick(&[0, 1, 2, 3, 3, 4, 4]);
        for place in 0..count {
            let word: Vec<u8> = match (place, self.random.below(8)) {
                (0, 0) => self.random.pick(&BAD_DEVICES).into(),
                (0, 1 | 2) => self.random.pick(&["256:0", "0:256", "8:4294967296"]).into(),
                (0, 3) => held.to_string().into(),
                (0, _) => self.random.pick(&["9:0", "0:9", "99:99"]).into(),
                (_, 0) => self.random.pick(&BAD_PAIRS).into(),
                (_, 1..3) => self.random.pick(&["rbps=0", "wbps=4503599627370497"]).into(),
                (_, 3) => self.random.pick(&["rbps=max", "wbps=max"]).into(),
                _ => self.random.pick(&["rbps=1", "riops=4503599627370496"]).into(),
            };
            words.push(word);
        }
        let mut line = words.join(&b' ');
        if self.random.percent(20) {
            line.resize(129, b' ');
        }
        line
    }
}

/// The line that takes all limits of a device.
pub(super) fn all_max(device: Device) -> String {
    format!("{device} rbps=max wbps=max riops=max wiops=max")
}
