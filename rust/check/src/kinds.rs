//! The kinds of what is read and asked: values of each file, lengths of buffers and lines, names,
//! lines of the question, pages released, the last numbers in every place, limits and meetings above
//! the deepest level, devices, zombies.

use crate::call::Call;
use crate::calls::Calls;
use crate::checks::{Check, membership, read, write_procs, write_setting, write_subtree_control};
use crate::compare::{FILES, ROOM};
use crate::model::{DEEPEST, LAST_PROCESS, MEMORY, Model, control_word, words};

mod devices;
mod numbers;
mod zombies;

pub use zombies::Freed;

/// The lengths of the longest texts, as the papers have them: 1 to 1024, each with a newline; "0::",
/// sixteen numbers of three digits, each after a "/", and a newline; and the same with " (deleted)".
const LONGEST_LISTING: usize = 4013;
const LONGEST_LINE: usize = 68;
const LONGEST_DELETED: usize = 78;
const LONGEST: &[&str] =
    &["cgroup.procs", "membership in a live group", "membership in a removed group"];

/// What is read, and one kind of it.
pub type Kind = (&'static str, &'static str);

const SETS: &[&str] = &[
    "none",
    "cpu",
    "io",
    "cpu io",
    "memory",
    "cpu memory",
    "io memory",
    "cpu io memory",
    "pids",
    "cpu pids",
    "io pids",
    "cpu io pids",
    "memory pids",
    "cpu memory pids",
    "io memory pids",
    "cpu io memory pids",
];

/// Every text there is: those of files, and the line that is none.
pub const TEXTS: &[&str] = &[
    "cgroup.procs",
    "cgroup.controllers",
    "cgroup.subtree_control",
    "cgroup.events",
    "cpu.weight",
    "cpu.max",
    "io.max",
    "memory.current",
    "memory.max",
    "pids.current",
    "pids.max",
    "membership",
];

const NAMES: &[&str] = TEXTS.split_at(11).0;

/// The files that are written.
pub const WRITTEN: &[&str] = &[
    "cgroup.procs",
    "cgroup.subtree_control",
    "cpu.weight",
    "cpu.max",
    "io.max",
    "memory.max",
    "pids.max",
];

/// By depth, and then none: nothing stops it.
const STOPPED: &[&str; DEEPEST + 2] = &[
    "stopped at depth 0",
    "stopped at depth 1",
    "stopped at depth 2",
    "stopped at depth 3",
    "stopped at depth 4",
    "stopped at depth 5",
    "stopped at depth 6",
    "stopped at depth 7",
    "stopped at depth 8",
    "stopped at depth 9",
    "stopped at depth 10",
    "stopped at depth 11",
    "stopped at depth 12",
    "stopped at depth 13",
    "stopped at depth 14",
    "stopped at depth 15",
    "stopped at depth 16",
    "succeeded",
];

/// By the depth at which both chains meet.
const MET: &[&str; DEEPEST] = &[
    "met at depth 0",
    "met at depth 1",
    "met at depth 2",
    "met at depth 3",
    "met at depth 4",
    "met at depth 5",
    "met at depth 6",
    "met at depth 7",
    "met at depth 8",
    "met at depth 9",
    "met at depth 10",
    "met at depth 11",
    "met at depth 12",
    "met at depth 13",
    "met at depth 14",
    "met at depth 15",
];

/// The group of a membership line.
const DEPTHS: &[&str] = &["the root", "depth 1", "deeper", "depth 16", "depth 16, the longest"];

/// Bits of a word that is too narrow.
const NARROW: [(u32, &str); 5] =
    [(16, "2^16"), (20, "2^20"), (22, "2^22"), (24, "2^24"), (32, "2^32")];

/// Every kind there is.
pub const KINDS: &[(&str, &[&str])] = &[
    ("cgroup.procs", &["none", "one", "some", "more than 256", "1024"]),
    ("cgroup.controllers", SETS),
    ("cgroup.subtree_control", SETS),
    ("cgroup.events", &["populated 0", "populated 1"]),
    ("memory.current", &["0", "below 2^36", "2^36 or more", "2^44 or more"]),
    ("memory.max", &["max", "0", "a figure", "the largest"]),
    ("pids.current", &["0", "some", "more than 256", "1024"]),
    ("pids.max", &["max", "0", "a figure", "the largest"]),
    ("cpu.weight", &["100", "1", "10000", "another"]),
    (
        "cpu.max",
        &[
            "max, default period",
            "max, another period",
            "a figure, default period",
            "a figure, another period",
        ],
    ),
    ("io.max", devices::TEXTS),
    ("io.max written", devices::WRITTEN),
    ("membership", DEPTHS),
    ("membership of a zombie", DEPTHS),
    ("membership of a zombie, deleted", DEPTHS.split_at(1).1),
    ("the longest text", LONGEST),
    ("the longest text, buffer of exactly the length", LONGEST),
    ("the longest text, buffer one byte short", LONGEST),
    ("buffer of exactly the length", TEXTS),
    ("buffer one byte short", TEXTS),
    ("buffer long enough, yet not modulo 2^8", TEXTS),
    ("buffer long enough, yet not modulo 2^12", TEXTS),
    ("buffer long enough, yet not modulo 2^16", TEXTS),
    ("buffer of more than 4096 bytes", TEXTS),
    (
        "buffer",
        &[
            "room to spare",
            "no bytes for an empty text",
            "no bytes for a group above the last",
            "no bytes for a group not live",
            "no bytes for an absent file",
            "no bytes for a process out of range",
            "no bytes for a process that is free",
        ],
    ),
    ("zombie", zombies::STANDING),
    ("accepted beside a zombie", zombies::CALLS),
    ("zombie in a live group, refused", zombies::REFUSED),
    ("zombie in a removed group, refused", zombies::REFUSED),
    ("not live, though a zombie's path runs through it", zombies::NOT_LIVE),
    ("make, taken by the path", zombies::TAKEN),
    ("collect", zombies::COLLECTED),
    ("collect, refused", zombies::NOT_COLLECTED),
    ("after its collection, again", zombies::AGAIN),
    ("line with \" (deleted)\", buffer of exactly the length", zombies::LENGTHS),
    ("line with \" (deleted)\", buffer one byte short", zombies::LENGTHS),
    ("read, last byte of the name off by one", NAMES),
    ("read, name a byte less", NAMES),
    ("read, name a byte more", NAMES),
    ("read, first byte of the name changed", NAMES),
    ("read, name in capitals", NAMES),
    ("written, last byte of the name off by one", NAMES),
    ("written, name a byte less", NAMES),
    ("written, name a byte more", NAMES),
    ("written, first byte of the name changed", NAMES),
    ("written, name in capitals", NAMES),
    ("line too long, yet not modulo 2^8", WRITTEN),
    ("line too long, yet not modulo 2^9", WRITTEN),
    ("line too long, yet not modulo 2^16", WRITTEN),
    ("line of 25 words, the last one decides", &["joins", "leaves", "bad"]),
    (
        "question",
        &[
            "no word",
            "none bad",
            "first word bad",
            "a middle word bad",
            "last word bad",
            "more than 128 bytes",
            "more than 4096 bytes",
            "more than 65536 bytes",
            "more than 1024 words",
            "bad after 4096 bytes",
            "bad after 16384 bytes",
            "bad after 65536 bytes",
            "bad after 1024 words",
            "bad word of more than 65536 bytes",
            "none bad in more than 65536 bytes",
        ],
    ),
    ("release of more than own pages modulo", &["2^16", "2^20", "2^22", "2^24", "2^32"]),
    ("the same from the root", &["2^16", "2^20", "2^22", "2^24", "2^32"]),
    ("the same with memory on nowhere", &["2^16", "2^20", "2^22", "2^24"]),
    ("charge at depth 16", STOPPED),
    ("fork at depth 16", STOPPED.split_at(1).1),
    ("move from depth 16, granted to the owner", MET.split_at(1).1),
    ("move from depth 16, refused to others", MET),
    ("group 255", numbers::GROUPS),
    ("group 256", numbers::GROUPS),
    ("process 1024", numbers::PROCESSES),
    ("process 1025", numbers::PROCESSES),
];

fn kind(what: &str, name: &str) -> Kind {
    let named = KINDS.iter().find(|(named, _)| *named == what);
    let found =
        named.and_then(|(what, names)| Some((*what, *names.iter().find(|named| **named == name)?)));
    found.unwrap_or_else(|| panic!("no such kind: {what} {name}"))
}

/// The kind of a file's text.
fn value_kind(file: &str, text: &str) -> Kind {
    let value = text.trim_end();
    let of_limit = |largest: &str| match value {
        "max" | "0" => value.to_string(),
        _ => (if value == largest { "the largest" } else { "a figure" }).to_string(),
    };
    let name = match file {
        "cgroup.procs" => match text.lines().count() {
            0 => "none".to_string(),
            1 => "one".to_string(),
            count => many(count as u64),
        },
        "cgroup.controllers" | "cgroup.subtree_control" if value.is_empty() => "none".to_string(),
        "memory.current" => match value.parse::<u64>().expect("a number") {
            0 => "0",
            usage if usage >= 1 << 44 => "2^44 or more",
            usage if usage >= 1 << 36 => "2^36 or more",
            _ => "below 2^36",
        }
        .to_string(),
        "memory.max" => of_limit("4503599627370496"),
        "pids.max" => of_limit("4194304"),
        "pids.current" if value != "0" => many(value.parse().expect("a number")),
        "cpu.weight" if !matches!(value, "1" | "100" | "10000") => "another".to_string(),
        "cpu.max" => {
            let limit = if value.starts_with("max") { "max" } else { "a figure" };
            let period = if value.ends_with(" 100000") { "default" } else { "another" };
            format!("{limit}, {period} period")
        }
        "io.max" => devices::text(text).to_string(),
        _ => value.to_string(),
    };
    kind(file, &name)
}

/// How many processes there are, where there are any.
fn many(processes: u64) -> String {
    match processes {
        LAST_PROCESS => "1024",
        257.. => "more than 256",
        _ => "some",
    }
    .to_string()
}

/// The kinds of all that can be read: every file of every live group, every membership line.
pub fn values(model: &Model) -> Vec<Kind> {
    let (mut reply, mut told) = ([0; ROOM], [0]);
    let mut kinds = vec![];
    for group in model.live_groups() {
        for file in FILES {
            if model.read(group, file, &mut reply, &mut told) == 0 {
                let text = String::from_utf8_lossy(&reply[..told[0] as usize]);
                kinds.push(value_kind(&String::from_utf8_lossy(file), &text));
            }
        }
    }
    let processes = model.live_processes().filter_map(|process| model.process(process));
    kinds.extend(processes.map(|p| kind("membership", depth_name(&model.chain(p.group)))));
    kinds.extend(model.zombies().map(|zombie| {
        let path = model.path(zombie);
        let what = match model.is_on_zombies_path(path[0]) {
            true => "membership of a zombie, deleted",
            false => "membership of a zombie",
        };
        kind(what, depth_name(&path))
    }));
    kinds.extend(zombies::values(model));
    kinds
}

/// How deep a group is, by its chain.
fn depth_name(chain: &[u64]) -> &'static str {
    match chain.len() - 1 {
        0 => "the root",
        1 => "depth 1",
        DEEPEST if chain[..DEEPEST].iter().all(|&group| group > 99) => "depth 16, the longest",
        DEEPEST => "depth 16",
        _ => "deeper",
    }
}

/// The kinds of a call, by the checks that hold.
pub fn of_call(model: &Model, call: &Call, held: &[&'static Check]) -> Vec<Kind> {
    let mut kinds = numbers::of_call(call, held);
    kinds.extend(zombies::of_call(model, call, held));
    kinds.extend(of_arguments(model, call, held));
    kinds
}

fn of_arguments(model: &Model, call: &Call, held: &[&'static Check]) -> Vec<Kind> {
    match call {
        Call::Read { file, room, .. } => {
            let file = String::from_utf8_lossy(file);
            let mut kinds = buffer(model, call, held, &file, *room);
            if held == [read::NO_SUCH_FILE] {
                kinds.extend(near("read", &file));
            }
            kinds
        }
        Call::Membership { room, .. } => buffer(model, call, held, "membership", *room),
        Call::WriteProcs { line, .. } if held == [write_procs::LONG_LINE] => {
            long_line("cgroup.procs", line.len())
        }
        Call::WriteProcs { user, group, .. } if *user != 0 => met(model, call, *group, held),
        Call::WriteSubtreeControl { line, .. } if held == [write_subtree_control::LONG_LINE] => {
            long_line("cgroup.subtree_control", line.len())
        }
        Call::WriteSubtreeControl { group, line, .. } => many_words(model, *group, line, held),
        Call::WriteSetting { group, file, line, .. } => {
            let file = String::from_utf8_lossy(file);
            match held {
                [] if file == "io.max" => devices::written(model, *group, line),
                [check] if *check == write_setting::LONG_LINE => long_line(&file, line.len()),
                [check] if *check == write_setting::NOT_A_SETTING => near("written", &file),
                _ => vec![],
            }
        }
        Call::FirstBadWord { line } => {
            asked(line).into_iter().map(|name| kind("question", name)).collect()
        }
        Call::Release { group, pages } if held.is_empty() => released(model, *group, *pages),
        Call::Charge { process, .. } => stopped(model, call, *process, "charge at depth 16"),
        Call::Fork { parent, .. } => stopped(model, call, *parent, "fork at depth 16"),
        _ => vec![],
    }
}

/// The checks before a buffer is asked for, and what it is to have no bytes there.
const NO_BYTES: [(&Check, &str); 7] = [
    (read::ABOVE_LAST, "no bytes for a group above the last"),
    (read::NOT_LIVE, "no bytes for a group not live"),
    (read::NO_SUCH_FILE, "no bytes for an absent file"),
    (read::EVENTS_ON_ROOT, "no bytes for an absent file"),
    (read::NOT_ON, "no bytes for an absent file"),
    (membership::OUTSIDE, "no bytes for a process out of range"),
    (membership::FREE, "no bytes for a process that is free"),
];

/// How long the buffer is, beside the text.
fn buffer(
    model: &Model,
    call: &Call,
    held: &[&'static Check],
    text: &str,
    given: usize,
) -> Vec<Kind> {
    let refused = NO_BYTES.iter().find(|(check, _)| held.first() == Some(check));
    if let Some((_, name)) = refused {
        return if given == 0 { vec![kind("buffer", name)] } else { vec![] };
    }
    let mut roomy = call.clone();
    if let Call::Read { room, .. } | Call::Membership { room, .. } = &mut roomy {
        *room = ROOM;
    }
    let length = roomy.on(&mut model.clone(), 0).told[0] as usize;
    if length == 0 {
        return if given == 0 {
            vec![kind("buffer", "no bytes for an empty text")]
        } else {
            vec![]
        };
    }
    let mut kinds = vec![];
    let mut note = |holds: bool, what: &str| {
        if holds {
            kinds.push(kind(what, text));
        }
    };
    note(given == length, "buffer of exactly the length");
    note(given + 1 == length, "buffer one byte short");
    for (bits, what) in [
        (8, "buffer long enough, yet not modulo 2^8"),
        (12, "buffer long enough, yet not modulo 2^12"),
        (16, "buffer long enough, yet not modulo 2^16"),
    ] {
        note(given >= length && given % (1 << bits) < length, what);
    }
    note(given > 4096, "buffer of more than 4096 bytes");
    if given > length {
        kinds.push(kind("buffer", "room to spare"));
    }
    let own = call.processes().first().and_then(|n| model.path(*n).first().copied());
    let is_deleted = own.is_some_and(|own| model.is_on_zombies_path(own));
    if is_deleted {
        kinds.extend(zombies::line(length, given));
    }
    let longest = match (text, length) {
        ("cgroup.procs", LONGEST_LISTING) => Some("cgroup.procs"),
        ("membership", LONGEST_LINE) if !is_deleted => Some("membership in a live group"),
        ("membership", LONGEST_DELETED) => Some("membership in a removed group"),
        _ => None,
    };
    if let Some(name) = longest {
        for (holds, what) in [
            (given > length, "the longest text"),
            (given == length, "the longest text, buffer of exactly the length"),
            (given + 1 == length, "the longest text, buffer one byte short"),
        ] {
            if holds {
                kinds.push(kind(what, name));
            }
        }
    }
    kinds
}

/// A name that is not quite a file's: whose, and how.
fn near(done: &str, name: &str) -> Vec<Kind> {
    let mut kinds = vec![];
    let bytes = name.as_bytes();
    for file in NAMES {
        let (right, last) = (file.as_bytes(), file.len() - 1);
        let is_long = bytes.len() == right.len();
        let is_off =
            is_long && bytes[..last] == right[..last] && bytes[last].abs_diff(right[last]) == 1;
        for (holds, how) in [
            (is_off, "last byte of the name off by one"),
            (bytes == &right[..last], "name a byte less"),
            (bytes.len() == right.len() + 1 && bytes.starts_with(right), "name a byte more"),
            (is_long && bytes[1..] == right[1..], "first byte of the name changed"),
            (bytes == right.to_ascii_uppercase(), "name in capitals"),
        ] {
            if holds {
                kinds.push(kind(&format!("{done}, {how}"), file));
            }
        }
    }
    kinds
}

/// A line that is refused for its length alone, and would not be if that were kept in fewer bits.
fn long_line(file: &str, length: usize) -> Vec<Kind> {
    let bits = [
        (8, "line too long, yet not modulo 2^8"),
        (9, "line too long, yet not modulo 2^9"),
        (16, "line too long, yet not modulo 2^16"),
    ];
    let narrow = bits.into_iter().filter(|(bits, _)| length % (1 << bits) <= 128);
    narrow.map(|(_, what)| kind(what, file)).collect()
}

/// A control line that the last of its 25 words decides.
fn many_words(model: &Model, group: u64, line: &[u8], held: &[&Check]) -> Vec<Kind> {
    let words = words(line);
    let Some((last, before)) = words.split_last() else { return vec![] };
    let is_good = before.iter().all(|word| control_word(word).is_some());
    if words.len() < 25 || !is_good {
        return vec![];
    }
    let set = model.group(group).map(|kept| kept.set);
    let what = "line of 25 words, the last one decides";
    match (control_word(last), set) {
        (None, _) if held == [write_subtree_control::BAD_WORD] => vec![kind(what, "bad")],
        (Some((k, true)), Some(set)) if held.is_empty() && !set[k] => vec![kind(what, "joins")],
        (Some((k, false)), Some(set)) if held.is_empty() && set[k] => vec![kind(what, "leaves")],
        _ => vec![],
    }
}

/// A release that would be refused if own pages were kept in fewer bits.
fn released(model: &Model, group: u64, pages: u64) -> Vec<Kind> {
    let own = model.group(group).map_or(0, |kept| kept.own_pages);
    let is_nowhere = group != 0 && model.chain(group).iter().all(|&up| !model.is_on(MEMORY, up));
    let mut kinds = vec![];
    for (bits, name) in NARROW.into_iter().filter(|(bits, _)| own % (1 << bits) < pages) {
        kinds.push(kind("release of more than own pages modulo", name));
        if group == 0 {
            kinds.push(kind("the same from the root", name));
        }
        if is_nowhere && bits < 32 {
            kinds.push(kind("the same with memory on nowhere", name));
        }
    }
    kinds
}

/// Whether the process is at the deepest level.
fn is_deepest(model: &Model, process: u64) -> bool {
    model.process(process).is_some_and(|kept| model.depth(kept.group) == DEEPEST)
}

/// A charge or a fork by a process at the deepest level: at which depth it is stopped, if it is.
fn stopped(model: &Model, call: &Call, process: u64, what: &str) -> Vec<Kind> {
    if !is_deepest(model, process) {
        return vec![];
    }
    let answer = call.on(&mut model.clone(), 0);
    match answer.number {
        0 => vec![kind(what, STOPPED[DEEPEST + 1])],
        11 | 12 => vec![kind(what, STOPPED[model.depth(answer.told[0])])],
        _ => vec![],
    }
}

/// A move from the deepest level by another than user 0, for which the group decides where both
/// chains meet: at which depth that is.
fn met(model: &Model, call: &Call, target: u64, held: &[&Check]) -> Vec<Kind> {
    let what = match held {
        [] => "move from depth 16, granted to the owner",
        [check] if *check == write_procs::MAY_NOT_WRITE_LOWEST => {
            "move from depth 16, refused to others"
        }
        _ => return vec![],
    };
    let Some(process) = call.processes().into_iter().find(|&n| is_deepest(model, n)) else {
        return vec![];
    };
    let source = model.process(process).map_or(0, |kept| kept.group);
    let met = model.lowest_on_both(source, target).map_or(0, |group| model.depth(group));
    MET.get(met).map(|name| kind(what, name)).into_iter().collect()
}

fn asked(line: &[u8]) -> Vec<&'static str> {
    let words = words(line);
    let bad = words.iter().position(|word| control_word(word).is_none());
    let mut names = vec![match bad {
        _ if words.is_empty() => "no word",
        None => "none bad",
        Some(0) => "first word bad",
        Some(place) if place + 1 == words.len() => "last word bad",
        Some(_) => "a middle word bad",
    }];
    let before = |place: usize| words[place].as_ptr() as usize - line.as_ptr() as usize;
    let is_bad_after = |bytes| bad.is_some_and(|place| before(place) >= bytes);
    let is_huge = line.len() > 65_536;
    for (holds, name) in [
        (line.len() > 128, "more than 128 bytes"),
        (line.len() > 4_096, "more than 4096 bytes"),
        (is_huge, "more than 65536 bytes"),
        (words.len() > 1_024, "more than 1024 words"),
        (is_bad_after(4_096), "bad after 4096 bytes"),
        (is_bad_after(16_384), "bad after 16384 bytes"),
        (is_bad_after(65_536), "bad after 65536 bytes"),
        (bad.is_some_and(|place| place >= 1_024), "bad after 1024 words"),
        (bad.is_some_and(|place| words[place].len() > 65_536), "bad word of more than 65536 bytes"),
        (is_huge && bad.is_none(), "none bad in more than 65536 bytes"),
    ] {
        if holds {
            names.push(name);
        }
    }
    names
}
