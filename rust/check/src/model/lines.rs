//! Lines and words.

use super::*;

/// The words of a line: one final newline is dropped, and spaces alone part words.
pub(crate) fn words(line: &[u8]) -> Vec<&[u8]> {
    let line = line.strip_suffix(b"\n").unwrap_or(line);
    line.split(|&byte| byte == b' ').filter(|word| !word.is_empty()).collect()
}

/// The value of a number word. Above 128 bits any value does: it is outside every range.
pub(crate) fn number(word: &[u8]) -> Option<u128> {
    if word.is_empty() || !word.iter().all(u8::is_ascii_digit) {
        return None;
    }
    let digits = word.iter().map(|byte| u128::from(byte - b'0'));
    Some(digits.fold(0u128, |value, digit| value.saturating_mul(10).saturating_add(digit)))
}

/// The number of a line that is one number word.
pub(super) fn one_number(line: &[u8]) -> Option<u128> {
    match words(line)[..] {
        [word] => number(word),
        _ => None,
    }
}

/// The controller of a control word, and whether it is to join.
pub(crate) fn control_word(word: &[u8]) -> Option<(usize, bool)> {
    let (&sign, name) = word.split_first()?;
    let joins = match sign {
        b'+' => true,
        b'-' => false,
        _ => return None,
    };
    let controller = CONTROLLERS.iter().position(|controller| controller.as_bytes() == name)?;
    Some((controller, joins))
}

/// Where the first word begins that a control line may not contain, and its length; or the line's
/// end, the final newline dropped, and 0.
pub(super) fn first_bad_word(line: &[u8]) -> [u64; 2] {
    match words(line).into_iter().find(|word| control_word(word).is_none()) {
        Some(word) => [(word.as_ptr() as usize - line.as_ptr() as usize) as u64, word.len() as u64],
        None => [line.strip_suffix(b"\n").unwrap_or(line).len() as u64, 0],
    }
}
