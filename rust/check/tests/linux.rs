//! The lists of `tests/linux`: library and model answer as they do, a fault in the library's answers
//! is found by them, and the command says so.

#[path = "common/lists.rs"]
mod lists;

use std::collections::BTreeSet;
use std::fs;
use std::path::{Path, PathBuf};
use std::process::Command;

use lists::{RECORDED, all, list, replayed, repository};
use shootspiral_check::around::Around;
use shootspiral_check::calls::NO_GROUP;
use shootspiral_check::fault::{Fault, Faulty};
use shootspiral_check::recorded::{Entry, List};
use shootspiral_check::replay::{mismatches, replay};
use shootspiral_check::{Call, Calls, Linked, checks};

#[test]
fn these_are_all_lists() {
    let files = fs::read_dir(repository().join("tests/linux")).unwrap();
    let there: BTreeSet<_> = files.map(|file| file.unwrap().file_name()).collect();
    assert_eq!(there, all().map(Into::into).collect());
}

#[test]
fn library_and_model_answer_so() {
    for name in all() {
        assert!(replayed(name).calls > 0);
    }
}

/// Each number that a call can be refused with stands in some list, so that another in its place is
/// found.
#[test]
fn every_number_is_there() {
    let lists: Vec<List> = all().map(list).collect();
    for (name, checks) in checks::TABLE {
        for check in *checks {
            let is_there =
                |entry: &Entry| entry.call.name() == *name && entry.reply.number == check.number();
            assert!(lists.iter().any(|list| list.entries().any(is_there)), "{name}: {check}");
        }
    }
}

/// What is changed in an answer of the library.
type Change = fn(&Call, &mut u32, &mut [u64; 2], &mut [u8]);

/// The library, with a change made to what it answers.
#[derive(Clone)]
struct Changed {
    host: Linked,
    change: Change,
}

impl Around for Changed {
    fn fresh(machine_pages: u64) -> Changed {
        Changed { host: Linked::fresh(machine_pages), change: |_, _, _, _| {} }
    }

    fn make_call(&mut self, call: Call, told: &mut [u64; 2]) -> u32 {
        let mut number = call.lend(&mut self.host, told, &mut []);
        (self.change)(&call, &mut number, told, &mut []);
        number
    }

    fn ask(&self, call: Call, told: &mut [u64; 2], reply: &mut [u8]) -> u32 {
        let mut number = call.ask(&self.host, told, reply);
        (self.change)(&call, &mut number, told, reply);
        number
    }
}

fn changed(change: Change) -> impl Fn(u64) -> Changed {
    move |machine| Changed { change, ..Around::fresh(machine) }
}

/// The lists themselves find a change in every line where it shows, and in no other.
fn found_wherever(shows: impl Fn(&Entry) -> bool, change: Change) {
    let mut lists = 0;
    for name in all() {
        let list = list(name);
        let places = |entries: Vec<&Entry>| -> Vec<usize> {
            entries.into_iter().map(|entry| entry.line).collect()
        };
        let expected = places(list.entries().filter(|entry| shows(entry)).collect());
        assert_eq!(places(mismatches(&list, changed(change))), expected, "{name}");
        assert_eq!(replay(&list, changed(change)).is_err(), !expected.is_empty(), "{name}");
        lists += usize::from(!expected.is_empty());
    }
    assert!(lists > 1, "a change that hardly shows");
}

/// 13 in place of 16.
const ANOTHER_NUMBER: Change = |_, number, _, _| {
    if *number == 16 {
        *number = 13;
    }
};

#[test]
fn another_number_is_found() {
    found_wherever(|entry| entry.reply.number == 16, ANOTHER_NUMBER);
}

#[test]
fn another_group_told_is_found() {
    found_wherever(
        |entry| entry.reply.group.is_some_and(|group| group != 0),
        |call, number, told, _| {
            let asks_room = matches!(call, Call::Charge { .. } | Call::Fork { .. });
            if asks_room && *number != 0 && told[0] != NO_GROUP {
                told[0] = 0;
            }
        },
    );
}

fn is_cpu_max(call: &Call) -> bool {
    matches!(call, Call::Read { file, .. } if file == b"cpu.max")
}

#[test]
fn another_text_is_found() {
    found_wherever(
        |entry| entry.reply.number == 0 && is_cpu_max(&entry.call),
        |call, number, told, reply| {
            if *number == 0 && is_cpu_max(call) {
                let length = usize::try_from(told[0]).unwrap();
                reply[length - 1] = b' ';
            }
        },
    );
}

#[test]
fn a_shorter_text_is_found() {
    found_wherever(
        |entry| entry.reply.number == 0 && matches!(entry.call, Call::Membership { .. }),
        |call, number, told, _| {
            if *number == 0 && matches!(call, Call::Membership { .. }) {
                told[0] -= 1;
            }
        },
    );
}

/// What a list does not tell is compared with the model.
#[test]
fn what_lists_do_not_tell_is_found() {
    let changes: [Change; 3] = [
        |call, _, told, _| {
            if matches!(call, Call::Charge { .. } | Call::Fork { .. }) {
                told[1] += 1;
            }
        },
        |_, number, told, reply| {
            let behind = usize::try_from(told[0]).ok().and_then(|length| reply.get_mut(length));
            if let Some(byte) = behind
                && *number == 0
            {
                *byte = b'!';
            }
        },
        |_, number, _, reply| {
            if *number != 0 {
                reply.fill(b'!');
            }
        },
    ];
    let list = list("tree.txt");
    for change in changes {
        assert!(mismatches(&list, changed(change)).is_empty());
        assert!(replay(&list, changed(change)).is_err());
    }
}

/// Where model and library part, both answers are told.
#[test]
fn a_mismatch_is_told() {
    let list = list("agreed.txt");
    let mismatch = replay(&list, changed(ANOTHER_NUMBER)).expect_err("found");
    let told = mismatch.to_string();
    let (line, answers) = told.split_once(", remove: remove 0 1 = 16\n").expect(&told);
    assert!(line.starts_with("line "), "{told}");
    assert_eq!(answers, "the model answers\n    16\nand the host\n    13");
}

/// The wrong hosts that document 01 warns of, under "Slips that look right".
const SLIPS: [&str; 5] = [
    "a pids limit stops a move",
    "pages move along with a process",
    "a group's owner may write its own settings",
    "a charge refused further up leaves pages behind",
    "a move asks source and target, not their common ancestor",
];

/// By what kernels answered alone, and the notes on io and zombies, so many wrong hosts of the
/// comparison are found, the slips among them; the others show at ends of figures and in names, where no
/// kernel was asked, or where Linux differs.
#[test]
fn wrong_hosts_are_found() {
    let lists = RECORDED.map(list);
    let is_found = |fault: &Fault| {
        let wrong = |machine| Faulty::new(machine, *fault);
        lists.iter().any(|list| !mismatches(list, wrong).is_empty())
    };
    for text in SLIPS {
        let fault = Fault::named(text).unwrap_or_else(|| panic!("no fault: {text}"));
        assert!(is_found(&fault), "{text}");
    }
    assert_eq!(Fault::ALL.iter().filter(|fault| is_found(fault)).count(), 59);
}

/// The command prints the first line of a list that differs, and fails.
#[test]
fn the_command_fails() {
    let folder = Path::new(env!("CARGO_TARGET_TMPDIR"));
    let write = |name: &str, text: &str| {
        let path = folder.join(name);
        fs::write(&path, text).unwrap();
        path
    };
    let run = |files: &[&PathBuf]| {
        let program = env!("CARGO_BIN_EXE_shootspiral-check");
        let output = Command::new(program).arg("replay").args(files).output().unwrap();
        (output.status.code(), String::from_utf8(output.stdout).unwrap())
    };
    let right = write("right.txt", "fresh 1\nmake 0 0 1 = 0\nmake 0 0 1 = 17\n");
    let (status, text) = run(&[&right]);
    assert_eq!(status, Some(0), "{text}");
    let counts = "2 calls, 1 refused, 0 refusing groups, 0 texts; Linux differs in 0\n";
    assert!(text.ends_with(&format!("1 of 1 lists answered alike: {counts}")), "{text}");
    let wrong = write("wrong.txt", "fresh 1\nmake 0 0 1 = 0\nmake 0 0 1 = 13\n");
    let (status, text) = run(&[&right, &wrong, &right]);
    assert_eq!(status, Some(1), "{text}");
    assert!(text.contains("line 3: make 0 0 1 = 13\nmodel and host answer 17\n"), "{text}");
    assert!(text.contains("2 of 3 lists answered alike: 4 calls"), "{text}");
    let bad = write("bad.txt", "fresh 1\nmake 0 0 1 = 0\nmake 0 0 1\n");
    let (status, text) = run(&[&bad]);
    assert_eq!(status, Some(1), "{text}");
    assert!(text.contains("line 3: make 0 0 1\n    expected =, found the end"), "{text}");
}
