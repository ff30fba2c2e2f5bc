//! Faults of a host that has a size wrong: numbers in too few bits, or the sizes of document 01 left
//! in one place as they were before order 4, 63, 256, 8 and nine.

use super::outcomes::{another_is_asked, charge_by, children, fork_by, keep_settings};
use super::{Outcome, Reading};
use crate::call::Call;
use crate::checks::{Check, make, remove, write_subtree_control};
use crate::model::{LAST_GROUP, LAST_PROCESS, Model, number, words};

const OLD_LAST_GROUP: u64 = 63;
const OLD_LAST_PROCESS: u64 = 256;
const OLD_DEEPEST: usize = 8;
const OLD_CHAIN: usize = 9;

// Numbers in too few bits.

/// Changes every group that a call names.
fn change_groups(call: &mut Call, change: impl Fn(u64) -> u64) {
    match call {
        Call::Make { parent, group, .. } => (*parent, *group) = (change(*parent), change(*group)),
        Call::Remove { group, .. }
        | Call::HandOver { group, .. }
        | Call::WriteProcs { group, .. }
        | Call::WriteSubtreeControl { group, .. }
        | Call::WriteSetting { group, .. }
        | Call::Release { group, .. }
        | Call::Read { group, .. } => *group = change(*group),
        _ => {}
    }
}

/// Changes every process that a call names by a number of its own.
fn change_processes(call: &mut Call, change: impl Fn(u64) -> u64) {
    match call {
        Call::Fork { parent, process } => {
            (*parent, *process) = (change(*parent), change(*process));
        }
        Call::Admit { process, .. }
        | Call::Exit { process }
        | Call::Collect { process }
        | Call::Charge { process, .. }
        | Call::Membership { process, .. } => *process = change(*process),
        _ => {}
    }
}

/// Changes the process that a line of cgroup.procs names.
fn change_line(call: &mut Call, change: impl Fn(u128) -> u128) {
    if let Call::WriteProcs { line, .. } = call
        && let [word] = words(line)[..]
        && let Some(process) = number(word)
        && change(process) != process
    {
        *line = change(process).to_string().into();
    }
}

pub(super) fn groups_in_8_bits(_: &Model, call: &mut Call) {
    change_groups(call, |group| group % (1 << 8));
}

pub(super) fn processes_in_8_bits(_: &Model, call: &mut Call) {
    change_processes(call, |process| process % (1 << 8));
}

pub(super) fn processes_in_10_bits(_: &Model, call: &mut Call) {
    change_processes(call, |process| process % (1 << 10));
}

pub(super) fn line_in_10_bits(_: &Model, call: &mut Call) {
    change_line(call, |process| process % (1 << 10));
}

fn population_modulo(reading: &mut Reading, modulus: u64) -> u32 {
    if reading.group_of(b"pids.current").is_some()
        && let Some(shown) = reading.text().and_then(|text| text.trim_end().parse::<u64>().ok())
    {
        reading.show(&format!("{}\n", shown % modulus));
    }
    reading.number
}

pub(super) fn population_shown_in_8_bits(reading: &mut Reading) -> u32 {
    population_modulo(reading, 1 << 8)
}

pub(super) fn population_shown_in_10_bits(reading: &mut Reading) -> u32 {
    population_modulo(reading, 1 << 10)
}

// The old sizes in one place of one call.

/// Takes a group above the old last one for one that is out of range.
fn end_group(group: &mut u64) {
    if *group > OLD_LAST_GROUP {
        *group = LAST_GROUP + 1;
    }
}

fn end_process(process: &mut u64) {
    if *process > OLD_LAST_PROCESS {
        *process = LAST_PROCESS + 1;
    }
}

pub(super) fn make_from_63(_: &Model, call: &mut Call) {
    if let Call::Make { parent, .. } = call {
        end_group(parent);
    }
}

pub(super) fn make_to_63(_: &Model, call: &mut Call) {
    if let Call::Make { group, .. } = call {
        end_group(group);
    }
}

pub(super) fn remove_to_63(_: &Model, call: &mut Call) {
    if let Call::Remove { group, .. } = call {
        end_group(group);
    }
}

pub(super) fn hand_over_to_63(_: &Model, call: &mut Call) {
    if let Call::HandOver { group, .. } = call {
        end_group(group);
    }
}

pub(super) fn procs_to_63(_: &Model, call: &mut Call) {
    if let Call::WriteProcs { group, .. } = call {
        end_group(group);
    }
}

pub(super) fn control_to_63(_: &Model, call: &mut Call) {
    if let Call::WriteSubtreeControl { group, .. } = call {
        end_group(group);
    }
}

pub(super) fn setting_to_63(_: &Model, call: &mut Call) {
    if let Call::WriteSetting { group, .. } = call {
        end_group(group);
    }
}

pub(super) fn release_to_63(_: &Model, call: &mut Call) {
    if let Call::Release { group, .. } = call {
        end_group(group);
    }
}

pub(super) fn read_to_63(_: &Model, call: &mut Call) {
    if let Call::Read { group, .. } = call {
        end_group(group);
    }
}

pub(super) fn admit_to_256(_: &Model, call: &mut Call) {
    if let Call::Admit { process, .. } = call {
        end_process(process);
    }
}

pub(super) fn fork_from_256(_: &Model, call: &mut Call) {
    if let Call::Fork { parent, .. } = call {
        end_process(parent);
    }
}

pub(super) fn fork_to_256(_: &Model, call: &mut Call) {
    if let Call::Fork { process, .. } = call {
        end_process(process);
    }
}

pub(super) fn exit_to_256(_: &Model, call: &mut Call) {
    if let Call::Exit { process } = call {
        end_process(process);
    }
}

pub(super) fn collect_to_256(_: &Model, call: &mut Call) {
    if let Call::Collect { process } = call {
        end_process(process);
    }
}

pub(super) fn charge_to_256(_: &Model, call: &mut Call) {
    if let Call::Charge { process, .. } = call {
        end_process(process);
    }
}

pub(super) fn membership_to_256(_: &Model, call: &mut Call) {
    if let Call::Membership { process, .. } = call {
        end_process(process);
    }
}

pub(super) fn line_to_256(_: &Model, call: &mut Call) {
    let [old, last] = [OLD_LAST_PROCESS, LAST_PROCESS].map(u128::from);
    change_line(call, |process| if process > old { process.max(last + 1) } else { process });
}

// Depths and chains.

pub(super) fn depth_8_is_last(done: &mut Outcome) {
    if let Call::Make { parent, .. } = done.call
        && done.is_success()
        && done.before.depth(*parent) == OLD_DEEPEST
    {
        done.refuse(11);
    }
}

/// Says so, and makes nothing.
pub(super) fn no_last_depth(done: &mut Outcome) {
    granted(done, make::PARENT_DEEPEST, |_| true);
}

/// The groups of a charging or forking process's chain that come after the old longest.
fn above_ninth(done: &Outcome) -> Vec<u64> {
    let process = match done.call {
        Call::Charge { process, .. } => done.before.process(*process),
        Call::Fork { parent, .. } => done.before.process(*parent),
        _ => None,
    };
    let chain = process.map_or(vec![], |process| done.before.chain(process.group));
    chain.into_iter().skip(OLD_CHAIN).collect()
}

pub(super) fn charge_of_nine(done: &mut Outcome) {
    let above = above_ninth(done);
    charge_by(done, |model, group| match above.contains(&group) {
        true => 0,
        false => model.usage(group),
    });
}

pub(super) fn fork_of_nine(done: &mut Outcome) {
    let above = above_ninth(done);
    fork_by(done, |model, group| match above.contains(&group) {
        true => 0,
        false => model.population(group),
    });
}

pub(super) fn nine_consulted(done: &mut Outcome) {
    if matches!(done.call, Call::Charge { .. } | Call::Fork { .. }) {
        done.told[1] = done.told[1].min(OLD_CHAIN as u64);
    }
}

pub(super) fn met_within_nine(done: &mut Outcome) {
    another_is_asked(done, |source, target| {
        let mut source = source.iter().take(OLD_CHAIN);
        source.find(|group| target.iter().take(OLD_CHAIN).any(|up| up == *group)).map_or(0, |&g| g)
    });
}

/// The groups inside a group that are no more than eight levels below it.
fn within_eight_levels(model: &Model, group: u64) -> impl Iterator<Item = u64> {
    model.live_groups().filter(move |&inner| {
        let place = model.chain(inner).iter().position(|&up| up == group);
        place.is_some_and(|levels| levels <= OLD_DEEPEST)
    })
}

fn usage_within(model: &Model, group: u64) -> u64 {
    let inside = within_eight_levels(model, group);
    inside.filter_map(|inner| Some(model.group(inner)?.own_pages)).sum()
}

fn population_within(model: &Model, group: u64) -> u64 {
    within_eight_levels(model, group).map(|inner| model.holds(inner).count() as u64).sum()
}

pub(super) fn memory_max_of_eight_levels(done: &mut Outcome) {
    charge_by(done, usage_within);
}

pub(super) fn pids_max_of_eight_levels(done: &mut Outcome) {
    fork_by(done, population_within);
}

pub(super) fn usage_of_eight_levels(reading: &mut Reading) -> u32 {
    if let Some(group) = reading.group_of(b"memory.current")
        && reading.number == 0
    {
        reading.show(&format!("{}\n", usage_within(reading.model, group) * 4096));
    }
    reading.number
}

pub(super) fn population_of_eight_levels(reading: &mut Reading) -> u32 {
    if let Some(group) = reading.group_of(b"pids.current")
        && reading.number == 0
    {
        reading.show(&format!("{}\n", population_within(reading.model, group)));
    }
    reading.number
}

/// Shows cgroup.events of a group where it sees none.
fn events(reading: &mut Reading, sees_one: fn(&Model, u64) -> bool) -> u32 {
    if let Some(group) = reading.group_of(b"cgroup.events")
        && reading.number == 0
        && !sees_one(reading.model, group)
    {
        reading.show("populated 0\n");
    }
    reading.number
}

pub(super) fn events_of_eight_levels(reading: &mut Reading) -> u32 {
    events(reading, |model, group| population_within(model, group) > 0)
}

pub(super) fn events_to_256(reading: &mut Reading) -> u32 {
    events(reading, |model, group| {
        let mut low = model
            .live_processes()
            .filter_map(|process| model.process(process).filter(|_| process <= OLD_LAST_PROCESS));
        low.any(|process| model.chain(process.group).contains(&group))
    })
}

// Walks over all groups, or all processes.

pub(super) fn children_to_63(done: &mut Outcome) {
    for child in children(done).into_iter().filter(|&child| child > OLD_LAST_GROUP) {
        keep_settings(done, child);
    }
}

pub(super) fn last_child_kept(done: &mut Outcome) {
    for child in children(done).into_iter().filter(|&child| child == LAST_GROUP) {
        keep_settings(done, child);
    }
}

/// Says 0 where this check alone refuses a call, and the host does not see why. That the call is not
/// done is left at that: the number shows.
fn granted(done: &mut Outcome, by: &'static Check, is_unseen: impl Fn(&Outcome) -> bool) {
    if done.before.held(done.call) == [by] && is_unseen(done) {
        *done.number = 0;
    }
}

/// Whether all children of the group that a call names are above the old last one.
fn children_are_high(done: &Outcome) -> bool {
    let mut groups = done.call.groups().into_iter();
    groups.all(|group| done.before.children(group).all(|child| child > OLD_LAST_GROUP))
}

/// Whether all processes of the group that a call names are above the old last one.
fn processes_are_high(done: &Outcome) -> bool {
    let mut groups = done.call.groups().into_iter();
    groups.all(|group| done.before.holds(group).all(|process| process > OLD_LAST_PROCESS))
}

pub(super) fn remove_sees_children_to_63(done: &mut Outcome) {
    granted(done, remove::HAS_CHILD, children_are_high);
}

pub(super) fn remove_sees_processes_to_256(done: &mut Outcome) {
    granted(done, remove::HAS_PROCESS, processes_are_high);
}

pub(super) fn control_sees_children_to_63(done: &mut Outcome) {
    granted(done, write_subtree_control::IN_CHILDS_SET, children_are_high);
}

pub(super) fn control_sees_processes_to_256(done: &mut Outcome) {
    granted(done, write_subtree_control::HOLDS_PROCESS, processes_are_high);
}

// Texts.

/// Shows the processes of cgroup.procs otherwise, in no more bytes.
fn listed(reading: &mut Reading, line: fn(u64) -> String) -> u32 {
    if let Some(group) = reading.group_of(b"cgroup.procs")
        && reading.number == 0
    {
        let text: String = reading.model.holds(group).map(line).collect();
        reading.show(&text);
    }
    reading.number
}

pub(super) fn listed_to_256(reading: &mut Reading) -> u32 {
    listed(reading, |process| match process {
        ..=OLD_LAST_PROCESS => format!("{process}\n"),
        _ => String::new(),
    })
}

pub(super) fn listed_to_1023(reading: &mut Reading) -> u32 {
    listed(reading, |process| match process {
        LAST_PROCESS => String::new(),
        _ => format!("{process}\n"),
    })
}

pub(super) fn listed_in_3_digits(reading: &mut Reading) -> u32 {
    listed(reading, |process| match process {
        1000.. => format!("{:03}\n", process % 1000),
        _ => format!("{process}\n"),
    })
}

fn refused_above(reading: &mut Reading, bytes: u64) -> u32 {
    if reading.number == 0 && reading.told[0] > bytes { 28 } else { reading.number }
}

pub(super) fn texts_to_916(reading: &mut Reading) -> u32 {
    refused_above(reading, 916)
}

pub(super) fn texts_to_4012(reading: &mut Reading) -> u32 {
    refused_above(reading, 4012)
}

/// Shows the numbers of a membership line otherwise, in no more bytes.
fn path(reading: &mut Reading, change: fn(Vec<&str>) -> Vec<&str>) -> u32 {
    if let Call::Membership { .. } = reading.call
        && let Some(text) = reading.text()
        && let Some(path) = text.trim_end().strip_prefix("0::/")
    {
        let shown = format!("0::/{}\n", change(path.split('/').collect()).join("/"));
        reading.show(&shown);
    }
    reading.number
}

pub(super) fn path_in_2_digits(reading: &mut Reading) -> u32 {
    path(reading, |numbers| {
        numbers.into_iter().map(|number| &number[number.len().saturating_sub(2)..]).collect()
    })
}

pub(super) fn path_of_lowest_eight(reading: &mut Reading) -> u32 {
    path(reading, |numbers| numbers[numbers.len().saturating_sub(OLD_DEEPEST)..].to_vec())
}

pub(super) fn path_of_highest_eight(reading: &mut Reading) -> u32 {
    path(reading, |numbers| numbers.into_iter().take(OLD_DEEPEST).collect())
}

pub(super) fn path_cut_at_28(reading: &mut Reading) -> u32 {
    if let Call::Membership { .. } = reading.call
        && reading.number == 0
    {
        reading.told[0] = reading.told[0].min(28);
    }
    reading.number
}

fn lines_to(reading: &mut Reading, bytes: u64) -> u32 {
    match reading.call {
        Call::Membership { .. } => refused_above(reading, bytes),
        _ => reading.number,
    }
}

pub(super) fn lines_to_67(reading: &mut Reading) -> u32 {
    lines_to(reading, 67)
}

/// As many as there were before order 5.
pub(super) fn lines_to_68(reading: &mut Reading) -> u32 {
    lines_to(reading, 68)
}

pub(super) fn lines_to_77(reading: &mut Reading) -> u32 {
    lines_to(reading, 77)
}
