//! Document 01 as a plain program, with the orders of document 02 that have landed. Written from the
//! papers alone, to be read beside them: nothing is kept that can be worked out, so depths, usages and
//! counts are found anew each time, over all live groups and all live processes. The words are the
//! papers'. It is slow and knows no C.
//!
//! Each call has its checks as a list, in the paper's order, and what it does when none of them
//! holds. A check can be asked even where an earlier one holds: of a group or a process that is not
//! live nothing is true, and only user 0 may write the one and move the other. Where the paper joins
//! two causes under one number, the second is asked of what the first lets pass: "free" of processes
//! in range, "not on" of groups that are live.
//!
//! A process is free, live or a zombie. The path of a zombie is the chain that its group had when the
//! process ended.

use std::collections::{BTreeMap, BTreeSet};

use crate::checks::Check;

mod answers;
mod devices;
mod files;
mod follows;
mod groups;
mod lines;
mod processes;
mod readers;

pub use devices::{Device, Held, KEYS, Limits};
pub(crate) use devices::{DeviceLine, NO_LIMITS, listed_devices};
pub(crate) use lines::{control_word, number, words};

const ROOT: u64 = 0;
/// Groups are 0 to 255, processes 1 to 1024, and depth goes to 16: order 4.
pub const LAST_GROUP: u64 = 255;
pub const LAST_PROCESS: u64 = 1024;
pub const DEEPEST: usize = 16;
const PAGE: u64 = 4096;
const LARGEST_MACHINE: u64 = 1 << 40;
const MOST_PAGES: u64 = 1_048_576;
const LONGEST_LINE: usize = 128;

/// The controllers, in the order of listing.
pub const CONTROLLERS: [&str; 4] = ["cpu", "io", "memory", "pids"];
pub const CPU: usize = 0;
pub const IO: usize = 1;
pub const MEMORY: usize = 2;
pub const PIDS: usize = 3;

/// A control set: whether each controller is in it.
pub type Set = [bool; CONTROLLERS.len()];

pub(crate) const EMPTY: Set = [false; CONTROLLERS.len()];

/// A limit: a figure, or no limit at all.
pub type Limit = Option<u64>;

#[derive(Clone)]
pub struct Group {
    pub parent: u64,
    pub owner: u32,
    pub set: Set,
    pub own_pages: u64,
    pub settings: Settings,
}

#[derive(Clone)]
pub struct Settings {
    pub memory_max: Limit,
    pub pids_max: Limit,
    pub cpu_weight: u64,
    pub cpu_max: Limit,
    pub cpu_period: u64,
    /// In the order in which the devices came.
    pub io_max: Vec<Held>,
}

pub const DEFAULTS: Settings = Settings {
    memory_max: None,
    pids_max: None,
    cpu_weight: 100,
    cpu_max: None,
    cpu_period: 100_000,
    io_max: vec![],
};

#[derive(Clone, Copy)]
pub struct Process {
    pub user: u32,
    pub group: u64,
}

/// The machine size, the live groups at the places of their numbers, and the live processes by their
/// numbers; the group of each zombie by its number; and the parents of removed groups, as long as a
/// zombie's path runs through them.
#[derive(Clone)]
pub struct Model {
    machine: u64,
    groups: Vec<Option<Box<Group>>>,
    processes: BTreeMap<u64, Process>,
    pub(crate) zombies: BTreeMap<u64, u64>,
    pub(crate) removed: BTreeMap<u64, u64>,
}

fn is_outside(process: u64) -> bool {
    !(1..=LAST_PROCESS).contains(&process)
}

/// Whether a check holds, and which it is.
pub type Test = (bool, &'static Check);

type Verdict = Result<(), &'static Check>;

/// The first check that holds refuses the call.
fn decide(tests: &[Test]) -> Verdict {
    let first = tests.iter().find(|(holds, _)| *holds);
    first.map_or(Ok(()), |(_, check)| Err(check))
}
