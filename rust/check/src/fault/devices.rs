//! Faults of a host in what it does with io.max and its controller.

use super::outcomes::{children, setting};
use super::{Outcome, Reading, instead};
use crate::call::Call;
use crate::calls::Calls;
use crate::checks::write_setting;
use crate::model::{Device, DeviceLine, Held, IO, KEYS, Model, NO_LIMITS, number, words};

/// The group of a line of io.max that was taken, its device and what it says.
fn written(done: &Outcome) -> Option<(u64, Device, DeviceLine)> {
    let (group, b"io.max", line) = setting(done)? else { return None };
    let said = DeviceLine::of(line);
    Some((group, said.device?, said))
}

/// The devices that a group held before the call.
fn held_before<'a>(done: &Outcome<'a>, group: u64) -> &'a [Held] {
    done.before.group(group).map_or(&[], |kept| &kept.settings.io_max)
}

/// Whether the group held four devices, and whether this one was among them.
fn was_full(done: &Outcome, group: u64, device: Device) -> (bool, bool) {
    let held = held_before(done, group);
    (held.len() >= 4, held.iter().any(|held| held.device == device))
}

pub(super) fn keys_reset(done: &mut Outcome) {
    if let Some((group, device, said)) = written(done)
        && !said.pairs.is_empty()
    {
        let limits = said.limits_after(NO_LIMITS);
        done.after.group_mut(group).settings.hold(device, limits);
    }
}

pub(super) fn fifth_taken(done: &mut Outcome) {
    if let Call::WriteSetting { group, line, .. } = done.call
        && done.refused_by() == Some(write_setting::FIFTH_DEVICE)
        && let said = DeviceLine::of(line)
        && let Some(device) = said.device
    {
        done.after.group_mut(*group).settings.hold(device, said.limits_after(NO_LIMITS));
        *done.number = 0;
    }
}

pub(super) fn held_is_fifth(done: &mut Outcome) {
    if let Some((group, device, said)) = written(done)
        && was_full(done, group, device) == (true, true)
        && said.limits_after(NO_LIMITS) != NO_LIMITS
    {
        done.refuse(28);
    }
}

pub(super) fn idle_fifth_refused(done: &mut Outcome) {
    if let Some((group, device, said)) = written(done)
        && was_full(done, group, device) == (true, false)
        && !said.pairs.is_empty()
    {
        done.refuse(28);
    }
}

pub(super) fn bare_fifth_refused(done: &mut Outcome) {
    if let Some((group, device, said)) = written(done)
        && was_full(done, group, device) == (true, false)
        && said.pairs.is_empty()
    {
        done.refuse(28);
    }
}

pub(super) fn bare_device_cleared(done: &mut Outcome) {
    if let Some((group, device, said)) = written(done)
        && said.pairs.is_empty()
    {
        done.after.group_mut(group).settings.hold(device, NO_LIMITS);
    }
}

/// It stays in the table, so that it takes up room too.
pub(super) fn idle_kept(done: &mut Outcome) {
    if let Some((group, device, said)) = written(done)
        && !said.pairs.is_empty()
    {
        let settings = &mut done.after.group_mut(group).settings;
        if settings.held(device).is_none() {
            settings.io_max.push(Held { device, limits: NO_LIMITS });
        }
    }
}

pub(super) fn half_written(done: &mut Outcome) {
    if let Call::WriteSetting { group, line, .. } = done.call
        && done.refused_by() == Some(write_setting::VALUE_RANGE)
        && let Some(end) = line.iter().rposition(|&byte| byte == b' ')
    {
        done.after.write_setting(0, *group, b"io.max", &line[..end]);
    }
}

pub(super) fn devices_outlive_io(done: &mut Outcome) {
    for child in children(done) {
        if done.before.is_on(IO, child) {
            let held = held_before(done, child).to_vec();
            done.after.group_mut(child).settings.io_max = held;
        }
    }
}

pub(super) fn values_in_32_bits(done: &mut Outcome) {
    if let Some((group, ..)) = written(done) {
        let held = done.after.group_mut(group).settings.io_max.iter_mut();
        for limit in held.flat_map(|held| held.limits.iter_mut().flatten()) {
            *limit %= 1 << 32;
        }
    }
}

/// Shows the devices of a group in another order or dress, in as many bytes.
fn show_devices(reading: &mut Reading, change: impl Fn(&mut Vec<Held>)) -> u32 {
    if let Some(group) = reading.group_of(b"io.max")
        && reading.number == 0
        && let Some(kept) = reading.model.group(group)
    {
        let mut held = kept.settings.io_max.clone();
        change(&mut held);
        let text: String = held.iter().map(Held::line).collect();
        reading.show(&text);
    }
    reading.number
}

pub(super) fn as_they_came(reading: &mut Reading) -> u32 {
    show_devices(reading, |_| {})
}

pub(super) fn by_minor(reading: &mut Reading) -> u32 {
    show_devices(reading, |held| held.sort_by_key(|held| (held.device.minor, held.device.major)))
}

pub(super) fn iops_swapped(reading: &mut Reading) -> u32 {
    show_devices(reading, |held| {
        held.sort_by_key(|held| held.device);
        for held in held {
            held.limits.swap(2, 3);
        }
    })
}

/// The line of a call that writes io.max.
fn device_line(call: &mut Call) -> Option<&mut Vec<u8>> {
    match call {
        Call::WriteSetting { file, line, .. } if file == b"io.max" => Some(line),
        _ => None,
    }
}

/// The key of a pair with the "=" after it.
fn key_of(word: &[u8]) -> Option<&[u8]> {
    let end = word.iter().position(|&byte| byte == b'=')?;
    Some(&word[..=end])
}

pub(super) fn last_key_counts(_: &Model, call: &mut Call) {
    if let Some(line) = device_line(call)
        && line.len() <= 128
    {
        let words = words(line);
        let is_last = |place: usize| {
            let key = key_of(words[place]);
            key.is_none() || words[place + 1..].iter().all(|later| key_of(later) != key)
        };
        let kept: Vec<&[u8]> =
            (0..words.len()).filter(|&place| is_last(place)).map(|place| words[place]).collect();
        *line = kept.join(&b' ');
    }
}

pub(super) fn second_value_ignored(_: &Model, call: &mut Call) {
    if let Some(line) = device_line(call) {
        *line = instead::with_words(line, |word| {
            let mut parts = word.split(|&byte| byte == b'=');
            match (parts.next(), parts.next(), parts.next()) {
                (Some(key), Some(value), Some(_)) => [key, value].join(&b'='),
                _ => word.to_vec(),
            }
        });
    }
}

pub(super) fn longer_key(_: &Model, call: &mut Call) {
    if let Some(line) = device_line(call) {
        *line = instead::with_words(line, |word| {
            let key = KEYS.into_iter().find(|key| word.starts_with(key.as_bytes()));
            match (key, word.iter().position(|&byte| byte == b'=')) {
                (Some(key), Some(end)) => [key.as_bytes(), &word[end..]].concat(),
                _ => word.to_vec(),
            }
        });
    }
}

pub(super) fn second_device_ignored(_: &Model, call: &mut Call) {
    if let Some(line) = device_line(call)
        && line.len() <= 128
    {
        let words = words(line);
        let is_device = |word: &[u8]| DeviceLine::of(word).device.is_some();
        let rest = words.iter().skip(1).filter(|word| !is_device(word));
        let kept: Vec<&[u8]> = words.iter().take(1).chain(rest).copied().collect();
        *line = kept.join(&b' ');
    }
}

/// The line with each number changed that stands after or before such a byte.
fn with_numbers(line: &[u8], byte: u8, change: impl Fn(u128) -> u128) -> Vec<u8> {
    instead::with_words(line, |word| {
        if !word.contains(&byte) {
            return word.to_vec();
        }
        let parts = word.split(|&other| other == byte).map(|part| match number(part) {
            Some(value) => format!("{:0>1$}", change(value), part.len()).into_bytes(),
            None => part.to_vec(),
        });
        parts.collect::<Vec<_>>().join(&byte)
    })
}

pub(super) fn device_in_8_bits(_: &Model, call: &mut Call) {
    if let Some(line) = device_line(call) {
        *line = with_numbers(line, b':', |number| number % (1 << 8));
    }
}

pub(super) fn value_wraps(_: &Model, call: &mut Call) {
    if let Some(line) = device_line(call) {
        *line = with_numbers(line, b'=', |number| number % (1 << 64));
    }
}

pub(super) fn minus_io_refused(_: &Model, call: &mut Call) {
    if let Call::WriteSubtreeControl { line, .. } = call {
        *line = instead::with_words(line, |word| match word {
            b"-io" => b"?io".to_vec(),
            _ => word.to_vec(),
        });
    }
}

pub(super) fn plus_io_bad(_: &Model, call: &mut Call) {
    if let Call::FirstBadWord { line } = call {
        *line = instead::with_words(line, |word| match word {
            b"+io" => b"?io".to_vec(),
            _ => word.to_vec(),
        });
    }
}
