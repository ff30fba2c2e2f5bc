//! Sizes that dice do not come to, on the tree of `crossed`: lines whose length a narrow word would
//! take for a short one, lines of as many words as fit, long questions, and rooms about a text's
//! length with a power of two added.

use crate::call::Call;
use crate::compare::ROOM;
use crate::kinds::{TEXTS, WRITTEN};
use crate::model::Model;

const POWERS: [usize; 5] = [1 << 8, 1 << 9, 1 << 10, 1 << 12, 1 << 16];

/// A group made for this, and a process in the root.
const GROUP: u64 = 20;
const PROCESS: u64 = 20;

pub fn calls(model: &Model) -> Vec<Call> {
    let mut calls = vec![
        Call::Make { user: 0, parent: 0, group: GROUP },
        Call::Admit { process: PROCESS, user: 0 },
    ];
    for power in POWERS {
        for more in [4, 100, 128] {
            let length = power + more;
            calls.extend(WRITTEN.iter().map(|file| write(file, drawn(word(file), length))));
        }
    }
    calls.extend(many_words());
    calls.extend(questions().map(|line| Call::FirstBadWord { line: line.into() }));
    for file in TEXTS {
        calls.extend(rooms(model, file));
    }
    calls
}

/// The word with so many spaces after it that it makes a line of this length.
fn drawn(word: &str, length: usize) -> String {
    word.to_string() + &" ".repeat(length - word.len())
}

/// A word that the file takes.
fn word(file: &str) -> &'static str {
    match file {
        "cgroup.procs" => "20",
        "cgroup.subtree_control" => "+cpu",
        "io.max" => "8:0 rbps=2000",
        _ => "2000",
    }
}

fn write(file: &str, line: String) -> Call {
    let (user, group, line) = (0, GROUP, line.into());
    match file {
        "cgroup.procs" => Call::WriteProcs { user, group, line },
        "cgroup.subtree_control" => Call::WriteSubtreeControl { user, group, line },
        _ => Call::WriteSetting { user, group, file: file.into(), line },
    }
}

/// As many words as 128 bytes hold.
fn many_words() -> Vec<Call> {
    let control = |line: String| write("cgroup.subtree_control", line);
    let mut calls = vec![
        control("-cpu ".repeat(24) + "+cpu"),
        control("+cpu ".repeat(24) + "-cpu"),
        control("+cpu -cpu ".repeat(12) + "+cpu"),
        control("+cpu ".repeat(24) + "x"),
        control("+pids +cpu ".repeat(10) + "-cpu -pids"),
    ];
    let numbers = WRITTEN.iter().filter(|file| **file != "cgroup.subtree_control");
    calls.extend(numbers.map(|file| write(file, "2 ".repeat(64))));
    calls
}

/// Good words by the thousand, with a wrong one at the end, within, at the front, or none; and one
/// word, or none, as long.
fn questions() -> [String; 9] {
    let good = "+cpu ".repeat(14_000);
    let fewer = "+memory -pids ".repeat(1_200);
    [
        good.clone(),
        format!("{good}\n"),
        format!("{good}x"),
        format!("{good}+cpu\n\n"),
        format!("{fewer}+{good}"),
        format!("x {good}"),
        "+cpu".repeat(17_000),
        format!("{}y", " ".repeat(66_000)),
        format!("{fewer}{}", "z".repeat(66_000)),
    ]
}

/// A text with a byte too few, exactly enough and one more; and with enough, though too few for a
/// word that takes no more than a power of two.
fn rooms(model: &Model, text: &str) -> Vec<Call> {
    let ask = |room| match text {
        "membership" => Call::Membership { process: 5, room },
        "cgroup.procs" => Call::Read { group: 4, file: text.into(), room },
        _ => Call::Read { group: 1, file: text.into(), room },
    };
    let length = ask(ROOM).on(&mut model.clone(), 0).told[0] as usize;
    let mut rooms = vec![length - 1, length, length + 1, 1 << 12, (1 << 12) + 1, 1 << 16];
    rooms.extend([8, 9, 10, 12, 16].map(|bits| (1 << bits) + length - 1));
    rooms.into_iter().map(ask).collect()
}
