//! The trees that are timed, and how calls are timed on them.
//!
//! The full tree has every group that there can be, each below the root with all controllers on,
//! both limits set and three devices in io.max, in four columns that go down to the last depth:
//!
//! ```text
//! 0
//! └ column's top, owned by user 1000 + column
//!   └ .. down to the last depth but one
//!     ├ leaf with processes
//!     └ .. a quarter of what groups are left
//! ```
//!
//! A lone column has room for groups and processes, so that calls that do and undo can each be timed
//! alone. Families are for the controllers of a group that has few children. In the full tree that has
//! ended all processes are zombies and all groups but the root are removed.

use std::hint::black_box;
use std::sync::LazyLock;
use std::time::{Duration, Instant};

use shootspiral::number::{LAST_GROUP, LAST_PROCESS, MAX_DEPTH};
use shootspiral::sys;
use shootspiral_check::{Calls, Linked};

use crate::plain::Plain;

const COLUMNS: u64 = 4;
const MACHINE: u64 = 1 << 30;
const CONTROLLERS: &[u8] = b"+cpu +io +memory +pids";

/// Kept without processes, so that it can be removed and made again.
pub const SPARE_GROUP: u64 = LAST_GROUP.0;
/// Kept free, so that it can be forked to.
pub const SPARE_PROCESS: u64 = LAST_PROCESS.0;

/// What is written to io.max of every group.
const DEVICES: [&[u8]; 3] = [
    b"8:16 rbps=2097152 wbps=1048576 riops=2400 wiops=120",
    b"8:32 rbps=2097152 wbps=1048576 riops=2400 wiops=120",
    b"8:48 rbps=2097152 wbps=1048576 riops=2400 wiops=120",
];
/// Comes before them; `full_tree` does not write it.
pub const FIRST_DEVICE: &[u8] = b"8:0 rbps=2097152 wbps=1048576 riops=2400 wiops=120";

/// Where everything stands in the full tree.
pub struct Layout {
    /// The leaves of each column that hold processes.
    pub leaves: Vec<Vec<u64>>,
    /// The leaf of each process, by its number; 0 for none.
    pub place: Vec<u64>,
    /// The column of each process.
    pub column: Vec<u64>,
    /// The owner of each group.
    pub owner: Vec<u32>,
    /// The group that the spare one is made under.
    pub above_spare: u64,
}

/// The user who owns a column.
pub fn owner(column: u64) -> u32 {
    1000 + column as u32
}

/// Builds the full tree. All groups are live, and all processes but the spare one.
pub fn full_tree<H: Calls>() -> (H, Layout) {
    let mut host = H::fresh(MACHINE);
    let mut layout = Layout {
        leaves: vec![vec![]; COLUMNS as usize],
        place: vec![0; SPARE_PROCESS as usize + 1],
        column: vec![0; SPARE_PROCESS as usize + 1],
        owner: vec![0],
        above_spare: 0,
    };
    must(host.write_subtree_control(0, 0, CONTROLLERS));
    let mut next = 1;
    let mut bottoms = vec![];
    for column in 0..COLUMNS {
        let mut above = 0;
        for _ in 1..MAX_DEPTH {
            must(host.make(0, above, next));
            must(host.hand_over(0, next, owner(column)));
            must(host.write_subtree_control(0, next, CONTROLLERS));
            layout.owner.push(owner(column));
            (above, next) = (next, next + 1);
        }
        bottoms.push(above);
    }
    for group in next..=SPARE_GROUP {
        let column = group % COLUMNS;
        let above = bottoms[column as usize];
        must(host.make(owner(column), above, group));
        layout.owner.push(owner(column));
        if group == SPARE_GROUP {
            layout.above_spare = above;
        } else {
            layout.leaves[column as usize].push(group);
        }
    }
    for group in 1..=SPARE_GROUP {
        set_limits(&mut host, group);
    }
    for process in 1..SPARE_PROCESS {
        let column = process % COLUMNS;
        let leaves = &layout.leaves[column as usize];
        let leaf = leaves[(process / COLUMNS) as usize % leaves.len()];
        must(host.admit(process, owner(column)));
        must(host.write_procs(0, leaf, process.to_string().as_bytes()));
        layout.place[process as usize] = leaf;
        layout.column[process as usize] = column;
    }
    (host, layout)
}

/// Ends all processes of the full tree, removes all its groups, and collects nobody.
pub fn end_all<H: Calls>(host: &mut H) {
    for process in 1..SPARE_PROCESS {
        must(host.exit(process));
    }
    // A parent has a lower number than its children.
    for group in (1..=SPARE_GROUP).rev() {
        must(host.remove(0, group));
    }
}

/// Both limits, with room for all that there can be, and three devices.
fn set_limits<H: Calls>(host: &mut H, group: u64) {
    must(host.write_setting(0, group, b"memory.max", b"1099511627776"));
    must(host.write_setting(0, group, b"pids.max", SPARE_PROCESS.to_string().as_bytes()));
    for device in DEVICES {
        must(host.write_setting(0, group, b"io.max", device));
    }
}

/// The deepest group of the lone column and its parent.
pub const LONE_LEAF: u64 = MAX_DEPTH;
pub const ABOVE_LONE_LEAF: u64 = MAX_DEPTH - 1;

/// How many groups can be made beside the leaf of the lone column, and how many processes beside
/// process 1: as many in a small tree as in a large one.
pub const ROOM_FOR_GROUPS: u64 = 50;
pub const ROOM_FOR_PROCESSES: u64 = 200;
const _: () = assert!(LONE_LEAF + ROOM_FOR_GROUPS <= LAST_GROUP.0);
const _: () = assert!(ROOM_FOR_PROCESSES < LAST_PROCESS.0);

/// Builds one column alone, with process 1 in its leaf. Groups and processes after these are free.
pub fn lone_column<H: Calls>() -> H {
    let mut host = H::fresh(MACHINE);
    for above in 0..MAX_DEPTH {
        must(host.write_subtree_control(0, above, CONTROLLERS));
        must(host.make(0, above, above + 1));
        set_limits(&mut host, above + 1);
    }
    begin_in(&mut host, 1, LONE_LEAF);
    host
}

/// How many columns of their own there can be, each of one group at each depth.
pub const CHAINS: u64 = LAST_GROUP.0 / MAX_DEPTH;
const _: () = assert!(CHAINS <= LAST_PROCESS.0);

/// The process that begins and ends in a chain's deepest group.
pub fn of_chain(chain: u64) -> u64 {
    1 + chain
}

/// Makes all chains in an empty tree, has a process end in the deepest group of each, and removes the
/// groups again: the numbers of a chain are free when its zombie is collected.
pub fn end_chains<H: Calls>(host: &mut H) {
    for chain in 0..CHAINS {
        let groups = chain * MAX_DEPTH + 1..=(chain + 1) * MAX_DEPTH;
        let mut above = 0;
        for group in groups.clone() {
            must(host.make(0, above, group));
            above = group;
        }
        begin_in(host, of_chain(chain), above);
        must(host.exit(of_chain(chain)));
        for group in groups.rev() {
            must(host.remove(0, group));
        }
    }
}

/// Admits a process and moves it into a group.
pub fn begin_in<H: Calls>(host: &mut H, process: u64, group: u64) {
    must(host.admit(process, owner(0)));
    must(host.write_procs(0, group, process.to_string().as_bytes()));
}

/// A family is a group below the root and its two children.
const FAMILY: u64 = 3;
const FAMILIES: u64 = LAST_GROUP.0 / FAMILY;

/// So many of them are timed, in a small tree as in a large one.
pub const TIMED_FAMILIES: u64 = 20;
const _: () = assert!(TIMED_FAMILIES <= FAMILIES);

/// The group of a family that is the children's parent.
pub fn head(family: u64) -> u64 {
    1 + FAMILY * family
}

/// Builds a tree of as many families as there can be, with all processes in the children. Every
/// controller is on in the heads, which have empty sets.
pub fn families<H: Calls>() -> H {
    let mut host = H::fresh(MACHINE);
    let mut children = vec![];
    must(host.write_subtree_control(0, 0, CONTROLLERS));
    for head in (0..FAMILIES).map(head) {
        must(host.make(0, 0, head));
        for child in head + 1..head + FAMILY {
            must(host.make(0, head, child));
            children.push(child);
        }
    }
    for process in 1..=LAST_PROCESS.0 {
        begin_in(&mut host, process, children[process as usize % children.len()]);
    }
    host
}

/// A host that writes a fresh tree to memory it is lent, so that no allocation is timed.
pub trait Renewed: Calls {
    type Memory;

    fn room() -> Self::Memory;
    fn renew(memory: &mut Self::Memory);
}

impl Renewed for Linked {
    type Memory = Box<[u64]>;

    fn room() -> Box<[u64]> {
        vec![0; sys::ss_tree_words() as usize].into_boxed_slice()
    }

    fn renew(memory: &mut Box<[u64]>) {
        // SAFETY: the memory has as many words as the library asks for.
        unsafe { sys::ss_fresh(memory.as_mut_ptr(), MACHINE) };
    }
}

impl Renewed for Plain {
    type Memory = Box<Plain>;

    fn room() -> Box<Plain> {
        Box::new(Plain::fresh(0))
    }

    fn renew(memory: &mut Box<Plain>) {
        memory.renew(MACHINE);
    }
}

pub fn must(number: u32) {
    assert_eq!(number, 0, "the call is one that succeeds");
}

/// What a run took, and a digest of what was answered, which both hosts must share.
#[derive(Clone, Copy)]
pub struct Run {
    pub time: Duration,
    pub calls: u64,
    pub digest: u64,
}

impl Run {
    pub const NONE: Run = Run { time: Duration::ZERO, calls: 0, digest: 0 };

    /// This run and then another.
    pub fn and(self, other: Run) -> Run {
        Run {
            time: self.time + other.time,
            calls: self.calls + other.calls,
            digest: self.digest.rotate_left(9) ^ other.digest,
        }
    }

    /// This run, if every answer in it was 0: a run of refusals would time another thing.
    pub fn accepted(self) -> Run {
        assert_eq!(self.digest, 0, "the calls are such that succeed");
        self
    }

    pub fn ns_per_call(&self) -> f64 {
        self.time.as_nanos() as f64 / self.calls as f64
    }
}

/// What the clock takes itself. It is taken off, as it would show in a batch of few calls.
static CLOCK: LazyLock<Duration> = LazyLock::new(|| {
    let once = |_| Instant::now().elapsed();
    (0..10_000).map(once).min().unwrap_or_default()
});

/// Times so many rounds of some calls. A round answers a word for the digest.
pub fn time(rounds: u64, calls_per_round: u64, mut round: impl FnMut(u64) -> u64) -> Run {
    let mut digest = 0u64;
    let start = Instant::now();
    for number in 0..rounds {
        digest = digest.rotate_left(7) ^ black_box(round(number));
    }
    let time = start.elapsed().saturating_sub(*CLOCK);
    Run { time, calls: rounds * calls_per_round, digest }
}

/// Times a batch of calls, all of which succeed.
pub fn time_batch<H>(host: &mut H, batch: u64, call: impl Fn(&mut H, u64) -> u32) -> Run {
    time(batch, 1, |place| u64::from(call(host, place))).accepted()
}

/// Repeats a step that does batches of calls, one undoing the other, and times each of them apart.
pub fn time_apart<H, const BATCHES: usize>(
    host: &mut H,
    steps: u64,
    step: impl Fn(&mut H) -> [Run; BATCHES],
) -> [Run; BATCHES] {
    let mut sums = [Run::NONE; BATCHES];
    for _ in 0..steps {
        for (sum, run) in sums.iter_mut().zip(step(host)) {
            *sum = sum.and(run);
        }
    }
    sums
}

/// One word of a number and what was told.
pub fn word(number: u32, told: [u64; 2]) -> u64 {
    u64::from(number) ^ told[0].rotate_left(16) ^ told[1].rotate_left(32)
}

/// A charge of a list: the process, its group, and the pages.
#[derive(Clone, Copy)]
pub struct Charge {
    pub process: u64,
    pub group: u64,
    pub pages: u64,
}

/// Charges by processes in no order, one list for all hosts and all runs.
pub fn charges(layout: &Layout, count: usize) -> Vec<Charge> {
    let mut state = 0x2545_f491_4f6c_dd1d_u64;
    let mut next = || {
        state ^= state << 13;
        state ^= state >> 7;
        state ^= state << 17;
        state
    };
    let charge = |_| {
        let process = next() % (SPARE_PROCESS - 1) + 1;
        let pages = next() % 16 + 1;
        Charge { process, group: layout.place[process as usize], pages }
    };
    (0..count).map(charge).collect()
}
