//! The lists of `tests/linux`.

// A test file uses only a part of this.
#![allow(dead_code)]

use std::fs;
use std::path::{Path, PathBuf};

use shootspiral_check::recorded::List;
use shootspiral_check::replay::{Tally, replay};
use shootspiral_check::{Calls, Linked};

/// What real kernels answered.
pub const RECORDED: [&str; 7] = [
    "tree.txt",
    "memory.txt",
    "test_core.txt",
    "test_pids.txt",
    "test_memcontrol.txt",
    "test_cpu.txt",
    AGREED,
];
pub const AGREED: &str = "agreed.txt";

/// What the host answers where Linux differs.
pub const DIFFERENCES: &str = "differences.txt";

pub fn all() -> impl Iterator<Item = &'static str> {
    RECORDED.into_iter().chain([DIFFERENCES])
}

pub fn repository() -> PathBuf {
    Path::new(env!("CARGO_MANIFEST_DIR")).join("../..")
}

/// A file of the repository.
pub fn file(path: &str) -> String {
    fs::read_to_string(repository().join(path)).unwrap_or_else(|error| panic!("{path}: {error}"))
}

pub fn list(name: &str) -> List {
    let text = file(&format!("tests/linux/{name}"));
    List::parse(&text).unwrap_or_else(|error| panic!("{name}: {error}"))
}

/// The names of a list's cases.
pub fn cases(name: &str) -> Vec<String> {
    list(name).cases.into_iter().map(|case| case.name).collect()
}

/// What was compared when library and model were asked a list.
pub fn replayed(name: &str) -> Tally {
    let list = list(name);
    replay(&list, Linked::fresh).unwrap_or_else(|mismatch| panic!("{name}, {mismatch}"))
}
