//! io.max of the plain host: the devices of a group, and the lines that change them.

use shootspiral::number::MAX_DEVICES;

use super::Errno::{Einval, Enospc, Erange};
use super::{Done, limit, number, within, words};

/// The keys of io.max, in the order in which they are shown.
pub const KEYS: [&[u8]; 4] = [b"rbps", b"wbps", b"riops", b"wiops"];

/// A limit for each key.
type Limits = [Option<u64>; KEYS.len()];

#[derive(Clone, Copy)]
pub struct Device {
    /// Major and minor.
    pub number: (u8, u8),
    pub limits: Limits,
}

impl Device {
    const UNLIMITED: Device = Device { number: (0, 0), limits: [None; KEYS.len()] };
}

/// The devices of a group that have a limit, ascending: the first `count` of the array.
#[derive(Clone, Copy)]
pub struct Devices {
    array: [Device; MAX_DEVICES],
    count: usize,
}

impl Devices {
    pub const NONE: Devices = Devices { array: [Device::UNLIMITED; MAX_DEVICES], count: 0 };

    pub fn held(&self) -> &[Device] {
        &self.array[..self.count]
    }

    pub fn clear(&mut self) {
        self.count = 0;
    }

    /// A device that is left without a limit goes, and its room is free.
    pub fn change(&mut self, change: &Change) -> Done {
        let place = self.held().binary_search_by_key(&change.number, |device| device.number);
        let before = place.map_or(Device::UNLIMITED, |at| self.array[at]);
        let limits = change.applied(before.limits);
        let is_limited = limits.iter().any(Option::is_some);
        match place {
            Ok(at) if is_limited => self.array[at].limits = limits,
            Ok(at) => self.remove(at),
            Err(_) if !is_limited => {}
            Err(_) if self.count == MAX_DEVICES => return Err(Enospc),
            Err(at) => self.insert(at, Device { number: change.number, limits }),
        }
        Ok(())
    }

    fn insert(&mut self, at: usize, device: Device) {
        self.array.copy_within(at..self.count, at + 1);
        self.array[at] = device;
        self.count += 1;
    }

    fn remove(&mut self, at: usize) {
        self.array.copy_within(at + 1..self.count, at);
        self.count -= 1;
    }
}

/// A line for io.max: the device, and the limit of each key that is given.
pub struct Change {
    number: (u8, u8),
    given: [Option<Option<u64>>; KEYS.len()],
}

impl Change {
    pub fn parse(line: &[u8]) -> Done<Change> {
        let mut words = words(line)?;
        let (major, minor) = words.next().and_then(|word| parted(word, b':')).ok_or(Einval)?;
        let major = number(major).ok_or(Einval)?;
        let minor = number(minor).ok_or(Einval)?;
        let mut given = [None; KEYS.len()];
        for word in words {
            let (name, value) = parted(word, b'=').ok_or(Einval)?;
            let key = KEYS.iter().position(|&key| key == name).ok_or(Einval)?;
            if given[key].replace(limit(value)?).is_some() {
                return Err(Einval);
            }
        }
        let (Ok(major), Ok(minor)) = (u8::try_from(major), u8::try_from(minor)) else {
            return Err(Erange);
        };
        for &limit in given.iter().flatten() {
            within(limit, 1, 1 << 52)?;
        }
        Ok(Change { number: (major, minor), given })
    }

    fn applied(&self, mut limits: Limits) -> Limits {
        for (limit, given) in limits.iter_mut().zip(self.given) {
            *limit = given.unwrap_or(*limit);
        }
        limits
    }
}

/// What stands before the first such byte, and what after it.
fn parted(word: &[u8], mark: u8) -> Option<(&[u8], &[u8])> {
    let place = word.iter().position(|&byte| byte == mark)?;
    Some((&word[..place], &word[place + 1..]))
}
