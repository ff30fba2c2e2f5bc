//! The kinds of io.max: how many devices are shown, and what an accepted line does.

use super::{Kind, kind};
use crate::model::{Device, DeviceLine, Held, KEYS, Model, NO_LIMITS, words};

pub(super) const TEXTS: &[&str] = &["none", "one", "two or three", "four", "four, the longest"];

/// Four lines in which every number is as long as can be.
const LONGEST: usize = 4 * 98;

pub(super) fn text(text: &str) -> &'static str {
    match text.lines().count() {
        0 => "none",
        1 => "one",
        2 | 3 => "two or three",
        _ if text.len() == LONGEST => "four, the longest",
        _ => "four",
    }
}

pub(super) const WRITTEN: &[&str] = &[
    "no pair, held",
    "no pair, not held",
    "no pair, a fifth device",
    "a first device",
    "a fourth device",
    "a held device of four",
    "a device below those held",
    "a device above those held",
    "a key that is not given keeps its figure",
    "a figure becomes max",
    "the last figure becomes max",
    "all max, not held",
    "all max, a fifth device",
    "four pairs",
    "keys in another order",
    "leading zeros in the device",
    "leading zeros in a value",
    "the lowest device",
    "the highest device",
    "the least value",
    "the largest value",
    "128 bytes",
    "as a reader gets it",
    "as a reader gets it, without the newline",
];

/// The kinds of a line that is accepted.
pub(super) fn written(model: &Model, group: u64, line: &[u8]) -> Vec<Kind> {
    let said = DeviceLine::of(line);
    let (Some(kept), Some(device)) = (model.group(group), said.device) else { return vec![] };
    let settings = &kept.settings;
    let held = settings.held(device);
    let before = held.unwrap_or(NO_LIMITS);
    let after = said.limits_after(before);
    let others = settings.io_max.iter().filter(|other| other.device != device);
    let count = settings.io_max.len();
    let has_pair = !said.pairs.is_empty();
    let is_new = held.is_none() && after != NO_LIMITS;
    let is_idle = held.is_none() && has_pair && after == NO_LIMITS;
    let is_given = |key: usize| said.pairs.iter().any(|pair| pair.0 == key);
    let is_kept = |key: usize| before[key].is_some() && !is_given(key);
    let is_lifted = |key: usize| before[key].is_some() && after[key].is_none();
    let has_figure = |figure: u128| said.pairs.iter().any(|pair| pair.1 == Some(figure));
    let words = words(line);
    let is_zero_first = |parts: &[u8], byte: u8| {
        parts.split(|&other| other == byte).any(|part| part.len() > 1 && part[0] == b'0')
    };
    let shown = Held { device, limits: before }.line().into_bytes();
    let is_at = |number: u128| device == Device { major: number, minor: number };
    let tests = [
        (!has_pair && held.is_some(), "no pair, held"),
        (!has_pair && held.is_none(), "no pair, not held"),
        (!has_pair && held.is_none() && count == 4, "no pair, a fifth device"),
        (is_new && count == 0, "a first device"),
        (is_new && count == 3, "a fourth device"),
        (has_pair && held.is_some() && count == 4, "a held device of four"),
        (
            is_new && count > 0 && others.clone().all(|other| device < other.device),
            "a device below those held",
        ),
        (
            is_new && count > 0 && others.clone().all(|other| device > other.device),
            "a device above those held",
        ),
        (has_pair && (0..KEYS.len()).any(is_kept), "a key that is not given keeps its figure"),
        ((0..KEYS.len()).any(is_lifted) && after != NO_LIMITS, "a figure becomes max"),
        (held.is_some() && after == NO_LIMITS, "the last figure becomes max"),
        (is_idle, "all max, not held"),
        (is_idle && count == 4, "all max, a fifth device"),
        (said.pairs.len() == KEYS.len(), "four pairs"),
        (!said.pairs.is_sorted_by_key(|pair| pair.0), "keys in another order"),
        (is_zero_first(words[0], b':'), "leading zeros in the device"),
        (words[1..].iter().any(|word| is_zero_first(word, b'=')), "leading zeros in a value"),
        (is_new && is_at(0), "the lowest device"),
        (is_new && is_at(255), "the highest device"),
        (has_figure(1), "the least value"),
        (has_figure(4_503_599_627_370_496), "the largest value"),
        (line.len() == 128, "128 bytes"),
        (held.is_some() && line == shown, "as a reader gets it"),
        (
            held.is_some() && Some(line) == shown.strip_suffix(b"\n"),
            "as a reader gets it, without the newline",
        ),
    ];
    let held = tests.into_iter().filter(|(holds, _)| *holds);
    held.map(|(_, name)| kind("io.max written", name)).collect()
}
