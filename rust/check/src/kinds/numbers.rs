//! The last numbers and those after them, in every place that a call has for one.

use super::{Kind, kind};
use crate::call::Call;
use crate::checks::{
    Check, admit, charge, collect, exit, fork, hand_over, make, membership, read, release, remove,
    write_procs, write_setting, write_subtree_control,
};
use crate::model::{LAST_GROUP, LAST_PROCESS};

pub(super) const GROUPS: &[&str] = &[
    "make, parent",
    "make, new",
    "remove",
    "hand_over",
    "write_procs",
    "write_subtree_control",
    "write_setting",
    "release",
    "read",
];

pub(super) const PROCESSES: &[&str] = &[
    "admit",
    "fork, parent",
    "fork, new",
    "exit",
    "collect",
    "charge",
    "membership",
    "write_procs",
];

/// The checks that refuse a number above the last.
const ABOVE: [&Check; 17] = [
    make::PARENT_ABOVE_LAST,
    make::NEW_ABOVE_LAST,
    remove::ABOVE_LAST,
    hand_over::ABOVE_LAST,
    write_procs::ABOVE_LAST,
    write_procs::PROCESS_ABOVE_LAST,
    write_subtree_control::ABOVE_LAST,
    write_setting::ABOVE_LAST,
    admit::ABOVE_LAST,
    fork::PARENT_OUTSIDE,
    fork::NEW_ABOVE_LAST,
    exit::OUTSIDE,
    collect::OUTSIDE,
    charge::OUTSIDE,
    release::ABOVE_LAST,
    read::ABOVE_LAST,
    membership::OUTSIDE,
];

/// The places where a call has such a number: with a last one it is accepted, and with the next it
/// is refused for that.
pub(super) fn of_call(call: &Call, held: &[&'static Check]) -> Vec<Kind> {
    let (group, group_kind, process, process_kind) = match held.first() {
        None => (LAST_GROUP, "group 255", LAST_PROCESS, "process 1024"),
        Some(check) if ABOVE.contains(check) => {
            (LAST_GROUP + 1, "group 256", LAST_PROCESS + 1, "process 1025")
        }
        Some(_) => return vec![],
    };
    let mut kinds = vec![];
    let mut note = |is_there: bool, what: &str, place: &str| {
        if is_there {
            kinds.push(kind(what, place));
        }
    };
    match call {
        Call::Make { parent, group: new, .. } => {
            note(*parent == group, group_kind, "make, parent");
            note(*new == group, group_kind, "make, new");
        }
        Call::Fork { parent, process: new } => {
            note(*parent == process, process_kind, "fork, parent");
            note(*new == process, process_kind, "fork, new");
        }
        _ => {
            note(call.groups().contains(&group), group_kind, call.name());
            note(call.processes().contains(&process), process_kind, call.name());
        }
    }
    kinds
}
