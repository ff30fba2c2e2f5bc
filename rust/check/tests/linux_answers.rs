//! What the lists of `tests/linux` keep: the answers of kernels, whatever an order of document 02
//! makes of the host's.

#[path = "common/lists.rs"]
mod lists;

use std::collections::BTreeSet;

use lists::{DIFFERENCES, all, file, list};
use shootspiral_check::Call;
use shootspiral_check::model::CONTROLLERS;
use shootspiral_check::recorded::{Entry, Linux, List};

/// What Linux answers, each list in one figure: the calls, and Linux's answer where a line has two.
/// When an order changes an answer of the host, none of these changes. They do when lines come, or
/// go from the differences to what is agreed.
const DIGESTS: [(&str, u64); 8] = [
    ("tree.txt", 0x4c63_ac7d_d414_2005),
    ("memory.txt", 0xdd3c_ce23_d763_7602),
    ("test_core.txt", 0xde2d_1e27_53b4_3db5),
    ("test_pids.txt", 0xabe5_3cdd_da2f_764c),
    ("test_memcontrol.txt", 0x4821_3e8c_ed00_ebe3),
    ("test_cpu.txt", 0x9a86_a97a_27e2_447e),
    ("agreed.txt", 0xa4d6_5786_418a_1aaa),
    ("differences.txt", 0xb955_18a6_38e3_18cd),
];

#[test]
fn answers_of_linux_stand() {
    assert_eq!(DIGESTS.map(|(name, _)| name).as_slice(), all().collect::<Vec<_>>());
    for (name, expected) in DIGESTS {
        let digest = digest(&list(name));
        assert_eq!(digest, expected, "{name}: an answer of Linux was edited, or {digest:#018x}");
    }
}

/// FNV-1a of the text of the lines, as a call's form in the program can change with an order. A
/// collection is left out: before order 5 an exit was that too, and kernels were asked for both at once.
fn digest(list: &List) -> u64 {
    let mut digest: u64 = 0xcbf2_9ce4_8422_2325;
    let mut add = |text: String| {
        for byte in text.bytes().chain([b'\n']) {
            digest = (digest ^ u64::from(byte)).wrapping_mul(0x0000_0100_0000_01b3);
        }
    };
    for case in &list.cases {
        add(format!("{} {}", case.name, case.pages));
        let is_collection = |entry: &&Entry| matches!(entry.call, Call::Collect { .. });
        for entry in case.entries.iter().filter(|entry| !is_collection(entry)) {
            add(format!("{} = {}", call(entry), answer_of_linux(entry)));
        }
    }
    digest
}

fn call(entry: &Entry) -> &str {
    let host = entry.text.split(" | Linux ").next().unwrap_or_default();
    host.rsplit_once(" = ").map_or("", |(call, _)| call)
}

fn answer_of_linux(entry: &Entry) -> String {
    match &entry.linux {
        None => entry.reply.to_string(),
        Some(Linux::Replies(reply)) => reply.to_string(),
        Some(Linux::Does(words)) => words.clone(),
    }
}

/// The orders that a list's head says have changed it, and those that its lines name, are the same;
/// where a kernel's answer is not the host's, the line has to name one.
#[test]
fn orders_are_named() {
    for name in all() {
        let text = file(&format!("tests/linux/{name}"));
        let (_, head) = text.split_once("# Changed by orders of document 02: ").expect(name);
        let head = head.split("\n\n").next().unwrap_or_default();
        let words = head.split(|char: char| !char.is_alphanumeric());
        let in_head: BTreeSet<u32> = words.filter_map(|word| word.parse().ok()).collect();
        let list = list(name);
        let in_lines: BTreeSet<u32> = list.entries().filter_map(|entry| entry.order).collect();
        assert!(in_lines.is_subset(&in_head), "{name}");
        for entry in list.entries().filter(|entry| entry.linux.is_some()) {
            assert!(entry.order.is_some() || name == DIFFERENCES, "{name}: {}", entry.text);
        }
    }
}

/// A case that names controllers switches no others: of Linux's texts they were cut off.
#[test]
fn no_others_are_switched() {
    for list in all().map(list) {
        for case in list.cases.iter().filter(|case| !case.controllers.is_empty()) {
            for other in CONTROLLERS.iter().filter(|other| !case.controllers.contains(other)) {
                let is_switched = |entry: &Entry| match &entry.call {
                    Call::WriteSubtreeControl { line, .. } => {
                        String::from_utf8_lossy(line).contains(other)
                    }
                    _ => false,
                };
                assert!(!case.entries.iter().any(is_switched), "{}: {other}", case.name);
            }
        }
    }
}

#[test]
fn each_difference_differs() {
    for case in list(DIFFERENCES).cases {
        assert!(case.entries.iter().any(|entry| entry.linux.is_some()), "{}", case.name);
    }
}
