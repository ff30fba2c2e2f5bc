//! What a seed favours.

use crate::model::{LAST_GROUP, LAST_PROCESS};
use crate::random::Random;

const MACHINES: [u64; 18] = [
    0,
    1,
    2,
    16,
    64,
    256,
    1024,
    1024,
    4096,
    65_536,
    1 << 20,
    (1 << 20) + 1,
    1 << 25,
    (1 << 25) + 77,
    1 << 32,
    1 << 40,
    (1 << 40) + 1,
    u64::MAX,
];

/// What a seed favours. Figures are of a hundred.
pub(super) struct Taste {
    pub machine: u64,
    pub users: Vec<u32>,
    pub groups: Vec<u64>,
    pub processes: Vec<u64>,
    pub edges: u64,
    pub lawful: u64,
    pub deep: u64,
    pub odd_lines: u64,
    /// Numbers in range that are not live.
    pub absent: u64,
    /// Numbers that are not live, yet taken: zombies', and those of removed groups on their paths.
    pub taken: u64,
    pub has_many_zombies: bool,
    /// Scenes begun after single calls, and calls of a scene before others that come between.
    pub scenes: u64,
    pub steady: u64,
    pub weights: Vec<(Kind, u64)>,
}

#[derive(Clone, Copy)]
pub(super) enum Kind {
    Make,
    Remove,
    HandOver,
    WriteProcs,
    WriteSubtreeControl,
    WriteSetting,
    Admit,
    Fork,
    Exit,
    Collect,
    Charge,
    Release,
    Read,
    Membership,
    FirstBadWord,
}

const KINDS: [(Kind, u64); 15] = [
    (Kind::Make, 4),
    (Kind::Remove, 2),
    (Kind::HandOver, 2),
    (Kind::WriteProcs, 5),
    (Kind::WriteSubtreeControl, 5),
    (Kind::WriteSetting, 6),
    (Kind::Admit, 3),
    (Kind::Fork, 3),
    (Kind::Exit, 2),
    (Kind::Collect, 2),
    (Kind::Charge, 5),
    (Kind::Release, 3),
    (Kind::Read, 3),
    (Kind::Membership, 1),
    (Kind::FirstBadWord, 1),
];

impl Taste {
    pub fn of(random: &mut Random, has_many_zombies: bool) -> Taste {
        let some_users = random.within(1, 4) as usize;
        let some_groups = random.pick(&[3, 8, 20, LAST_GROUP]);
        let some_processes = random.pick(&[2, 6, 40, LAST_PROCESS]);
        Taste {
            machine: random.pick(&MACHINES),
            users: [1, 1000, u32::MAX, 2][..some_users].to_vec(),
            groups: some_of(random, LAST_GROUP, some_groups),
            processes: some_of(random, LAST_PROCESS, some_processes),
            edges: random.pick(&[1, 4, 15]),
            lawful: random.pick(&[50, 80, 95]),
            deep: random.pick(&[5, 40, 80]),
            odd_lines: random.pick(&[5, 20, 50]),
            absent: random.pick(&[1, 3, 8]),
            taken: if has_many_zombies { 15 } else { random.pick(&[1, 3, 8]) },
            has_many_zombies,
            scenes: if has_many_zombies { 40 } else { random.pick(&[10, 16, 24]) },
            steady: random.pick(&[90, 97, 100]),
            weights: KINDS
                .map(|(kind, weight)| (kind, weight * favour(random, kind, has_many_zombies)))
                .into(),
        }
    }
}

/// How much a seed favours a kind of call: some not at all, but no tree stays empty. Where there are
/// to be many zombies, processes come and go, and so do groups.
fn favour(random: &mut Random, kind: Kind, has_many_zombies: bool) -> u64 {
    match kind {
        Kind::Make | Kind::Admit | Kind::WriteProcs if has_many_zombies => 3,
        Kind::Fork | Kind::Exit | Kind::Remove if has_many_zombies => 6,
        Kind::Collect if has_many_zombies => random.pick(&[0, 1]),
        Kind::Make | Kind::Admit => random.pick(&[1, 1, 3]),
        _ => random.pick(&[0, 1, 1, 3]),
    }
}

/// So many numbers from 1 to `last`, the ends of the range among them.
fn some_of(random: &mut Random, last: u64, count: u64) -> Vec<u64> {
    let mut numbers: Vec<u64> = (1..=last).collect();
    for place in (1..numbers.len()).rev() {
        numbers.swap(place, random.below(place as u64 + 1) as usize);
    }
    numbers.truncate(count as usize);
    numbers[0] = last;
    if !numbers.contains(&1) {
        numbers[1] = 1;
    }
    numbers
}
