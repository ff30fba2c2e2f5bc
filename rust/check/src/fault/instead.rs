//! Faults of a host that takes a call for another.

use crate::call::Call;
use crate::compare::FILES;
use crate::model::{CONTROLLERS, LAST_GROUP, Model, control_word, number, words};

/// The line with every word changed, spaces and the final newline as they were.
pub(super) fn with_words(line: &[u8], change: impl Fn(&[u8]) -> Vec<u8>) -> Vec<u8> {
    let body = line.strip_suffix(b"\n").unwrap_or(line);
    let words: Vec<Vec<u8>> = body.split(|&byte| byte == b' ').map(change).collect();
    [&words.join(&b' '), &line[body.len()..]].concat()
}

/// The line of a call that reads numbers from it.
fn number_line(call: &mut Call) -> Option<&mut Vec<u8>> {
    match call {
        Call::WriteProcs { line, .. } | Call::WriteSetting { line, .. } => Some(line),
        _ => None,
    }
}

/// Changes words that may be numbers. Those of io.max are more than that.
fn change_numbers(call: &mut Call, change: impl Fn(&[u8]) -> Vec<u8>) {
    if !matches!(call, Call::WriteSetting { file, .. } if file == b"io.max")
        && let Some(line) = number_line(call)
    {
        *line = with_words(line, change);
    }
}

/// A number stands alone, or beside the colon or the sign of io.max.
pub(super) fn leading_zeros_refused(_: &Model, call: &mut Call) {
    if let Some(line) = number_line(call) {
        *line = with_words(line, |word| {
            let mut parts = word.split(|byte| b":=".contains(byte));
            match parts.any(|part| part.len() > 1 && part[0] == b'0') {
                true => [b"x", &word[1..]].concat(),
                false => word.to_vec(),
            }
        });
    }
}

pub(super) fn numbers_wrap(_: &Model, call: &mut Call) {
    change_numbers(call, |word| match number(word) {
        Some(value) => format!("{:0>1$}", value as u64, word.len()).into_bytes(),
        None => word.to_vec(),
    });
}

/// Above the top figure of memory.max by less than a page: rounded first, it is the top figure.
pub(super) fn range_of_rounded(_: &Model, call: &mut Call) {
    const TOP: u128 = 1 << 52;
    const END: u128 = TOP + 4096;
    if matches!(call, Call::WriteSetting { file, .. } if file == b"memory.max") {
        change_numbers(call, |word| match number(word) {
            Some(TOP..END) => format!("{TOP:0>0$}", word.len()).into_bytes(),
            _ => word.to_vec(),
        });
    }
}

/// Takes a byte for a digit of this value, where it stands among digits or alone.
fn take_for_digit(call: &mut Call, odd: u8, value: u128) {
    change_numbers(call, |word| {
        let is_digit = |byte: &u8| *byte == odd || byte.is_ascii_digit();
        if !word.contains(&odd) || !word.iter().all(is_digit) {
            return word.to_vec();
        }
        let digits =
            word.iter().map(|&byte| if byte == odd { value } else { (byte - b'0').into() });
        let total =
            digits.fold(0u128, |total, digit| total.saturating_mul(10).saturating_add(digit));
        total.to_string().into_bytes()
    });
}

pub(super) fn slash_is_digit(_: &Model, call: &mut Call) {
    take_for_digit(call, b'/', 0);
}

pub(super) fn colon_is_digit(_: &Model, call: &mut Call) {
    take_for_digit(call, b':', 10);
}

pub(super) fn newline_not_counted(_: &Model, call: &mut Call) {
    if let Call::WriteProcs { line, .. }
    | Call::WriteSubtreeControl { line, .. }
    | Call::WriteSetting { line, .. } = call
        && let Some(b"\n") = line.get(128..)
    {
        line.pop();
    }
}

pub(super) fn first_word_counts(_: &Model, call: &mut Call) {
    if let Call::WriteSubtreeControl { line, .. } = call
        && line.len() <= 128
    {
        let mut reversed = words(line);
        reversed.reverse();
        *line = reversed.join(&b' ');
    }
}

pub(super) fn wanted_any_word(model: &Model, call: &mut Call) {
    if let Call::WriteSubtreeControl { group, line, .. } = call {
        *line = with_words(line, |word| match control_word(word) {
            Some((controller, _)) if !model.is_available(controller, *group) => {
                format!("+{}", CONTROLLERS[controller]).into_bytes()
            }
            _ => word.to_vec(),
        });
    }
}

pub(super) fn owner_sets_limit(model: &Model, call: &mut Call) {
    if let Call::WriteSetting { user, group, .. } = call
        && model.may_write(*user, *group)
    {
        *user = 0;
    }
}

pub(super) fn second_word_ignored(_: &Model, call: &mut Call) {
    if let Call::WriteSetting { file, line, .. } = call
        && file == b"pids.max"
        && let [first, _] = words(line)[..]
    {
        *line = first.to_vec();
    }
}

pub(super) fn dead_is_root(model: &Model, call: &mut Call) {
    if let Call::WriteProcs { group, .. } = call
        && *group <= LAST_GROUP
        && model.group(*group).is_none()
    {
        *group = 0;
    }
}

pub(super) fn question_cut_short(_: &Model, call: &mut Call) {
    if let Call::FirstBadWord { line } = call {
        line.truncate(4096);
    }
}

pub(super) fn question_cut_at_16_384(_: &Model, call: &mut Call) {
    if let Call::FirstBadWord { line } = call {
        line.truncate(16_384);
    }
}

pub(super) fn sixteen_words(_: &Model, call: &mut Call) {
    if let Call::WriteSubtreeControl { line, .. } = call
        && line.len() <= 128
        && let Some(heeded) = words(line).get(..16)
    {
        *line = heeded.join(&b' ');
    }
}

pub(super) fn line_length_in_9_bits(_: &Model, call: &mut Call) {
    if let Some(line) = number_line(call) {
        line.truncate(line.len() % (1 << 9));
    }
}

pub(super) fn room_in_12_bits(_: &Model, call: &mut Call) {
    if let Call::Read { room, .. } | Call::Membership { room, .. } = call {
        *room %= 1 << 12;
    }
}

/// The name of the file in a read.
fn read_name(call: &mut Call) -> Option<&mut Vec<u8>> {
    match call {
        Call::Read { file, .. } => Some(file),
        _ => None,
    }
}

/// The name of the file in a setting.
fn setting_name(call: &mut Call) -> Option<&mut Vec<u8>> {
    match call {
        Call::WriteSetting { file, .. } => Some(file),
        _ => None,
    }
}

/// Takes a name for another that differs in the last byte only.
fn ignore_last_byte(name: &mut [u8]) {
    let is_alike = |file: &&[u8]| match (file.split_last(), name.split_last()) {
        (Some((_, file)), Some((_, name))) => file == name,
        _ => false,
    };
    if let Some(file) = FILES.into_iter().find(is_alike) {
        name.copy_from_slice(file);
    }
}

pub(super) fn last_byte_of_read_ignored(_: &Model, call: &mut Call) {
    if let Some(name) = read_name(call) {
        ignore_last_byte(name);
    }
}

pub(super) fn last_byte_of_setting_ignored(_: &Model, call: &mut Call) {
    if let Some(name) = setting_name(call) {
        ignore_last_byte(name);
    }
}

/// A file by its place in [`FILES`].
pub(super) fn longer_name_read<const FILE: usize>(_: &Model, call: &mut Call) {
    if let Some(name) = read_name(call)
        && name.starts_with(FILES[FILE])
    {
        name.truncate(FILES[FILE].len());
    }
}

pub(super) fn longer_name_set<const FILE: usize>(_: &Model, call: &mut Call) {
    if let Some(name) = setting_name(call)
        && name.starts_with(FILES[FILE])
    {
        name.truncate(FILES[FILE].len());
    }
}
