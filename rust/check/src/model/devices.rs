//! The devices of io.max: what a line says of one, and what a group holds.

use std::fmt;

use super::lines::{number, words};
use super::readers::shown;
use super::*;

/// The keys of a device's line, in the order of reading.
pub const KEYS: [&str; 4] = ["rbps", "wbps", "riops", "wiops"];

const LAST_DEVICE: u128 = 255;
const VALUES: std::ops::RangeInclusive<u128> = 1..=4_503_599_627_370_496;
const MOST_DEVICES: usize = 4;

/// A device. The order is that of reading: by major, then by minor.
#[derive(Clone, Copy, Debug, PartialEq, Eq, PartialOrd, Ord)]
pub struct Device {
    pub major: u128,
    pub minor: u128,
}

/// The limits of a device, one for each key.
pub type Limits = [Limit; KEYS.len()];

pub(crate) const NO_LIMITS: Limits = [None; KEYS.len()];

/// A device that a group holds.
#[derive(Clone, Copy)]
pub struct Held {
    pub device: Device,
    pub limits: Limits,
}

impl fmt::Display for Device {
    fn fmt(&self, f: &mut fmt::Formatter<'_>) -> fmt::Result {
        write!(f, "{}:{}", self.major, self.minor)
    }
}

impl Held {
    /// The line that a reader gets, with its newline.
    pub fn line(&self) -> String {
        let pairs = KEYS.iter().zip(self.limits);
        let pairs: String = pairs.map(|(key, limit)| format!(" {key}={}", shown(limit))).collect();
        format!("{}{pairs}\n", self.device)
    }
}

/// The lines of devices, ascending.
pub(crate) fn listed_devices(held: &[Held]) -> String {
    let mut held = held.to_vec();
    held.sort_by_key(|held| held.device);
    held.iter().map(Held::line).collect()
}

/// A key's place, and a figure or no limit at all.
pub(crate) type Pair = (usize, Option<u128>);

/// What the words of a line say, as far as they are well formed.
pub(crate) struct DeviceLine {
    pub device: Option<Device>,
    pub pairs: Vec<Pair>,
    has_word: bool,
    has_bad_pair: bool,
}

/// The parts before and after the first such byte.
fn parted(word: &[u8], byte: u8) -> Option<(&[u8], &[u8])> {
    let place = word.iter().position(|&other| other == byte)?;
    Some((&word[..place], &word[place + 1..]))
}

fn device(word: &[u8]) -> Option<Device> {
    let (major, minor) = parted(word, b':')?;
    Some(Device { major: number(major)?, minor: number(minor)? })
}

fn pair(word: &[u8]) -> Option<Pair> {
    let (key, value) = parted(word, b'=')?;
    let key = KEYS.iter().position(|name| name.as_bytes() == key)?;
    let figure = if value == b"max" { None } else { Some(number(value)?) };
    Some((key, figure))
}

impl DeviceLine {
    pub fn of(line: &[u8]) -> DeviceLine {
        let words = words(line);
        let rest = words.get(1..).unwrap_or_default();
        let pairs: Vec<Pair> = rest.iter().filter_map(|word| pair(word)).collect();
        DeviceLine {
            device: words.first().and_then(|word| device(word)),
            has_word: !words.is_empty(),
            has_bad_pair: pairs.len() < rest.len(),
            pairs,
        }
    }

    pub fn is_malformed(&self) -> bool {
        self.has_word && self.device.is_none()
    }

    pub fn has_bad_pair(&self) -> bool {
        self.has_bad_pair
    }

    pub fn has_key_twice(&self) -> bool {
        let times = |key: usize| self.pairs.iter().filter(|pair| pair.0 == key).count();
        (0..KEYS.len()).any(|key| times(key) > 1)
    }

    pub fn is_device_outside(&self) -> bool {
        self.device.is_some_and(|device| device.major.max(device.minor) > LAST_DEVICE)
    }

    pub fn has_value_outside(&self) -> bool {
        let mut figures = self.pairs.iter().filter_map(|pair| pair.1);
        figures.any(|figure| !VALUES.contains(&figure))
    }

    /// The limits that result: a key that is not given keeps what it had.
    pub fn limits_after(&self, mut limits: Limits) -> Limits {
        for &(key, figure) in &self.pairs {
            limits[key] = figure.map(|figure| figure as u64);
        }
        limits
    }

    /// Whether the line brings a group a device more than it can hold. One of which all four are
    /// "max" is not held.
    pub fn is_fifth_of(&self, group: &Group) -> bool {
        let held = &group.settings.io_max;
        let is_new = self.device.is_some_and(|device| group.settings.held(device).is_none());
        is_new && held.len() >= MOST_DEVICES && self.limits_after(NO_LIMITS) != NO_LIMITS
    }
}

impl Settings {
    /// The limits of a device, if it is held.
    pub(crate) fn held(&self, device: Device) -> Option<Limits> {
        self.io_max.iter().find(|held| held.device == device).map(|held| held.limits)
    }

    /// Gives a device these limits. It is no longer held where all four are "max".
    pub(crate) fn hold(&mut self, device: Device, limits: Limits) {
        match self.io_max.iter_mut().find(|held| held.device == device) {
            Some(held) => held.limits = limits,
            None => self.io_max.push(Held { device, limits }),
        }
        self.io_max.retain(|held| held.limits != NO_LIMITS);
    }

    /// Does what a line of io.max says.
    pub(super) fn write_device(&mut self, line: &DeviceLine) {
        let device = line.device.expect("checked");
        let before = self.held(device).unwrap_or(NO_LIMITS);
        self.hold(device, line.limits_after(before));
    }
}
