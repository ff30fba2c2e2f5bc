//! A list of calls that no seed comes to, for it takes more than four thousand: usage of 2^44 bytes
//! and more at the deepest level, limits about it on each group above, and the pages passed up to the
//! root and released there. Before it, pages by the million where memory is on nowhere, which only
//! releases show.

use crate::call::Call;
use crate::model::DEEPEST;

pub const MACHINE: u64 = 1 << 40;

/// The most pages of one charge, and as many charges as make 2^32 pages.
const MOST: u64 = 1 << 20;
const CHARGES: u64 = 1 << 12;

/// The lowest group.
const BOTTOM: u64 = DEEPEST as u64;

pub fn calls() -> Vec<Call> {
    let mut calls = unseen();
    calls.extend(ladder());
    calls.extend((0..CHARGES).map(|_| charge(MOST)));
    let usage = CHARGES * MOST;
    for group in 1..=BOTTOM {
        calls.extend([limit(group, usage + 1), charge(2), charge(1), charge(1)]);
        calls.extend([limit(group, usage + MOST), charge(MOST), charge(MOST - 1), charge(1)]);
        calls.extend([limit(group, usage), charge(1), release(BOTTOM, MOST), charge(1)]);
        calls.extend([limit(group, 1), charge(1), limit(group, MACHINE)]);
    }
    calls.extend([release(BOTTOM, 1), charge(1), Call::Exit { process: 5 }]);
    for group in (1..=BOTTOM).rev() {
        calls.extend([Call::Remove { user: 0, group }, release(group, 1)]);
    }
    // So many that own pages kept in 24 bits would be used up on the way.
    calls.extend((0..17).map(|_| release(0, MOST)));
    calls
}

/// More than 2^24 pages in a group where memory is on nowhere. They pass to its parent, and are
/// released there to the last.
fn unseen() -> Vec<Call> {
    let mut calls = vec![make(0, 1), make(1, 2), Call::Admit { process: 5, user: 7 }, enter(2)];
    calls.extend((0..17).map(|_| charge(MOST)));
    calls.extend([charge(3), release(2, MOST), charge(MOST), enter(0)]);
    calls.extend([Call::Remove { user: 0, group: 2 }, release(1, MOST)]);
    calls.extend((0..16).map(|_| release(1, MOST)));
    calls.extend([release(1, 4), release(1, 3), release(1, 1)]);
    calls.extend([Call::Remove { user: 0, group: 1 }, Call::Exit { process: 5 }]);
    calls.push(Call::Collect { process: 5 });
    calls
}

/// Groups from 1 to the lowest, each under the one before, memory on in all of them, and process 5 in
/// the last.
fn ladder() -> Vec<Call> {
    let control = |group| {
        let line = b"+memory".to_vec();
        Call::WriteSubtreeControl { user: 0, group, line }
    };
    let mut calls: Vec<Call> =
        (1..=BOTTOM).flat_map(|group| [control(group - 1), make(group - 1, group)]).collect();
    calls.extend([Call::Admit { process: 5, user: 7 }, enter(BOTTOM)]);
    calls
}

fn make(parent: u64, group: u64) -> Call {
    Call::Make { user: 0, parent, group }
}

fn enter(group: u64) -> Call {
    Call::WriteProcs { user: 0, group, line: b"5".to_vec() }
}

fn charge(pages: u64) -> Call {
    Call::Charge { process: 5, pages }
}

fn release(group: u64, pages: u64) -> Call {
    Call::Release { group, pages }
}

fn limit(group: u64, pages: u64) -> Call {
    let (file, line) = (b"memory.max".to_vec(), (pages * 4096).to_string().into_bytes());
    Call::WriteSetting { user: 0, group, file, line }
}
