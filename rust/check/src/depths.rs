//! Limits on each group above a process at the deepest level, charges and forks up to them and one
//! past; the whole machine charged there; moves from there to beside each group above, by whoever
//! owns it and by whoever does not. On the tree of `crossed`, where a ladder goes down so far.

use crate::call::Call;
use crate::crossed::LADDER;
use crate::model::{LAST_GROUP, Model};

const BOTTOM: u64 = LAST_GROUP;
const PARENT: u64 = 30;
const CHILD: u64 = 31;

/// Of the processes, and the owner of some groups.
const USER: u32 = 7;

/// A group beside those of the ladder, made and removed again.
const BESIDE: u64 = 40;

pub fn calls(model: &Model) -> Vec<Call> {
    let mut calls: Vec<Call> = (LADDER..BOTTOM)
        .map(|group| {
            let line = b"+memory +pids".to_vec();
            Call::WriteSubtreeControl { user: 0, group, line }
        })
        .collect();
    calls.push(Call::Admit { process: PARENT, user: USER });
    calls.push(enter(0, BOTTOM));
    for group in LADDER..=BOTTOM {
        calls.extend(memory_limits(group));
        calls.extend(pids_limits(group));
    }
    let room = model.machine() - model.usage(0);
    calls.extend([charge(room + 1), charge(room - 1), charge(2), charge(1), charge(1)]);
    calls.extend([memory(LADDER, room), charge(1), memory(LADDER, room + 1), charge(1)]);
    calls.extend([release(1), charge(2), charge(1), release(room)]);
    calls.extend(meetings());
    calls
}

fn set(group: u64, file: &str, line: &str) -> Call {
    let (file, line) = (file.into(), line.into());
    Call::WriteSetting { user: 0, group, file, line }
}

fn memory(group: u64, pages: u64) -> Call {
    set(group, "memory.max", &(pages * 4096).to_string())
}

fn pids(group: u64, processes: u64) -> Call {
    set(group, "pids.max", &processes.to_string())
}

fn charge(pages: u64) -> Call {
    Call::Charge { process: PARENT, pages }
}

fn release(pages: u64) -> Call {
    Call::Release { group: BOTTOM, pages }
}

fn enter(user: u32, group: u64) -> Call {
    Call::WriteProcs { user, group, line: PARENT.to_string().into() }
}

fn memory_limits(group: u64) -> Vec<Call> {
    let mut calls = vec![memory(group, 5), charge(6), charge(4), charge(2), charge(1), charge(1)];
    calls.extend([memory(group, 3), charge(1), release(3), charge(2), charge(1), release(3)]);
    calls.push(set(group, "memory.max", "max"));
    calls
}

fn pids_limits(group: u64) -> Vec<Call> {
    let fork = Call::Fork { parent: PARENT, process: CHILD };
    let mut calls = vec![pids(group, 1), fork.clone(), pids(group, 2), fork.clone()];
    calls.extend([pids(group, 1), Call::Fork { parent: CHILD, process: CHILD + 1 }]);
    calls.extend([Call::Exit { process: CHILD }, Call::Collect { process: CHILD }]);
    calls.extend([pids(group, 0), fork]);
    calls.push(set(group, "pids.max", "max"));
    calls
}

fn hand_over(group: u64, owner: u32) -> Call {
    Call::HandOver { user: 0, group, owner }
}

/// Moves by the user from the bottom to beside each group above: at first none of those is his, and
/// each in turn becomes so; then all are but one, each in turn. The root is never his.
fn meetings() -> Vec<Call> {
    let mut calls = vec![];
    for above in [0].into_iter().chain(LADDER..BOTTOM) {
        calls.extend([make_beside(above), hand_over(BESIDE, USER), enter(USER, BESIDE)]);
        calls.extend([hand_over(above, USER), enter(USER, BESIDE), enter(0, BOTTOM)]);
        calls.extend([hand_over(above, 0), Call::Remove { user: 0, group: BESIDE }]);
    }
    calls.extend((LADDER..=BOTTOM).map(|group| hand_over(group, USER)));
    for above in [0].into_iter().chain(LADDER..BOTTOM) {
        calls.extend([make_beside(above), hand_over(BESIDE, USER), hand_over(above, 0)]);
        calls.extend([enter(USER, BESIDE), hand_over(above, USER)]);
        calls.push(Call::Remove { user: 0, group: BESIDE });
    }
    calls
}

fn make_beside(above: u64) -> Call {
    Call::Make { user: 0, parent: above, group: BESIDE }
}
