//! Faults of a host that takes a zombie for a live process or for a free number, or keeps too little or
//! too much of a removed group.

use super::{Outcome, Reading};
use crate::call::Call;
use crate::calls::{Calls, NO_GROUP};
use crate::checks::{
    Check, admit, charge, collect, exit, fork, make, remove, write_procs, write_subtree_control,
};
use crate::model::{DEFAULTS, EMPTY, Model, PIDS};

/// The zombies whose own group this is.
fn zombies_of(model: &Model, group: u64) -> impl Iterator<Item = u64> {
    model.zombies().filter(move |zombie| model.zombies[zombie] == group)
}

/// How many zombies' paths run through a group.
fn zombies_inside(model: &Model, group: u64) -> u64 {
    model.zombies().filter(|&zombie| model.path(zombie).contains(&group)).count() as u64
}

/// Whether this check alone refuses the call.
fn refused_only_by(done: &Outcome, check: &'static Check) -> bool {
    done.before.held(done.call) == [check]
}

/// Says 0 where this check alone refuses the call. That it is not done is left at that: the number
/// shows.
fn granted(done: &mut Outcome, check: &'static Check) {
    if refused_only_by(done, check) {
        *done.number = 0;
    }
}

impl Reading<'_> {
    /// Puts another text in place of the right one, where there is room for it. Answers what the
    /// reader gets.
    fn show_any(&mut self, text: &str) -> u32 {
        if text.len() > self.reply.len() {
            self.told[0] = 0;
            return 28;
        }
        self.show(text);
        0
    }

    /// The zombie whose line was delivered, and whether its own group was removed.
    fn zombie(&self) -> Option<(u64, bool)> {
        match self.call {
            Call::Membership { process, .. } if self.number == 0 => {
                let own = self.model.path(*process).first().copied()?;
                Some((*process, self.model.is_on_zombies_path(own)))
            }
            _ => None,
        }
    }
}

// A zombie that counts as live.

pub(super) fn listed(reading: &mut Reading) -> u32 {
    if let Some(group) = reading.group_of(b"cgroup.procs")
        && reading.number == 0
    {
        let mut all: Vec<u64> = reading.model.holds(group).collect();
        all.extend(zombies_of(reading.model, group));
        all.sort_unstable();
        let text: String = all.iter().map(|process| format!("{process}\n")).collect();
        return reading.show_any(&text);
    }
    reading.number
}

pub(super) fn counted(reading: &mut Reading) -> u32 {
    if let Some(group) = reading.group_of(b"pids.current")
        && reading.number == 0
    {
        let all = reading.model.population(group) + zombies_inside(reading.model, group);
        return reading.show_any(&format!("{all}\n"));
    }
    reading.number
}

pub(super) fn populates(reading: &mut Reading) -> u32 {
    if let Some(group) = reading.group_of(b"cgroup.events")
        && reading.number == 0
        && zombies_inside(reading.model, group) > 0
    {
        reading.show("populated 1\n");
    }
    reading.number
}

pub(super) fn stops_fork(done: &mut Outcome) {
    if let Call::Fork { parent, .. } = done.call
        && done.is_success()
        && let Some(forked) = done.before.process(*parent)
    {
        let chain = done.before.chain(forked.group);
        let is_full = |&up: &u64| {
            let limit = done.before.group(up).and_then(|kept| kept.settings.pids_max);
            let inside = done.before.population(up) + zombies_inside(done.before, up);
            done.before.is_on(PIDS, up) && limit.is_some_and(|max| inside + 1 > max)
        };
        if let Some(place) = chain.iter().position(is_full) {
            done.refuse(11);
            *done.told = [chain[place], place as u64 + 1];
        }
    }
}

pub(super) fn stops_removal(done: &mut Outcome) {
    if let Call::Remove { group, .. } = done.call
        && done.is_success()
        && zombies_of(done.before, *group).next().is_some()
    {
        done.refuse(remove::HAS_PROCESS.number());
    }
}

pub(super) fn stops_removal_above(done: &mut Outcome) {
    if let Call::Remove { group, .. } = done.call
        && done.is_success()
        && zombies_inside(done.before, *group) > 0
        && zombies_of(done.before, *group).next().is_none()
    {
        done.refuse(remove::HAS_CHILD.number());
    }
}

pub(super) fn is_inner_process(done: &mut Outcome) {
    if let Call::WriteSubtreeControl { group, .. } = done.call
        && done.is_success()
        && *group != 0
        && zombies_of(done.before, *group).next().is_some()
    {
        let [old, new] = [done.before, &*done.after]
            .map(|model| model.group(*group).map_or(EMPTY, |kept| kept.set));
        if new.iter().zip(old).any(|(new, old)| *new && !old) {
            done.refuse(write_subtree_control::HOLDS_PROCESS.number());
        }
    }
}

pub(super) fn move_is_success(done: &mut Outcome) {
    granted(done, write_procs::PROCESS_IS_ZOMBIE);
}

pub(super) fn moves(done: &mut Outcome) {
    if let Call::WriteProcs { group, .. } = done.call
        && refused_only_by(done, write_procs::PROCESS_IS_ZOMBIE)
    {
        let zombie = done.call.processes()[0];
        done.after.zombies.insert(zombie, *group);
        done.after.forget_removed();
        *done.number = 0;
    }
}

/// Its pages go to the nearest group above that is live.
pub(super) fn is_charged(done: &mut Outcome) {
    if let Call::Charge { process, pages } = done.call
        && refused_only_by(done, charge::IS_ZOMBIE)
    {
        let path = done.before.path(*process);
        let live = path.iter().find(|group| done.before.group(**group).is_some());
        done.after.group_mut(*live.expect("the root is live")).own_pages += pages;
        *done.number = 0;
        *done.told = [NO_GROUP, path.len() as u64];
    }
}

pub(super) fn forks(done: &mut Outcome) {
    if let Call::Fork { parent, process } = done.call
        && refused_only_by(done, fork::PARENT_IS_ZOMBIE)
    {
        let path = done.before.path(*parent);
        done.after.admit(*process, 0);
        done.after.write_procs(0, path[0], process.to_string().as_bytes());
        *done.number = 0;
        *done.told = [NO_GROUP, path.len() as u64];
    }
}

pub(super) fn ends_again(done: &mut Outcome) {
    granted(done, exit::IS_ZOMBIE);
}

// Numbers of processes.

/// As exit was before order 5.
pub(super) fn gone_at_once(done: &mut Outcome) {
    if let Call::Exit { process } = done.call
        && done.is_success()
    {
        done.after.collect(*process);
    }
}

pub(super) fn free_to_admit(done: &mut Outcome) {
    if let Call::Admit { process, user } = done.call
        && refused_only_by(done, admit::IS_ZOMBIE)
    {
        done.after.collect(*process);
        *done.number = done.after.admit(*process, *user);
    }
}

pub(super) fn free_to_fork(done: &mut Outcome) {
    if let Call::Fork { parent, process } = done.call
        && refused_only_by(done, fork::NEW_IS_ZOMBIE)
    {
        done.after.collect(*process);
        *done.number = done.after.fork(*parent, *process, done.told);
    }
}

pub(super) fn live_is_collected(done: &mut Outcome) {
    if let Call::Collect { process } = done.call
        && refused_only_by(done, collect::IS_LIVE)
    {
        done.after.exit(*process);
        *done.number = done.after.collect(*process);
    }
}

pub(super) fn free_is_collected(done: &mut Outcome) {
    granted(done, collect::FREE);
}

pub(super) fn outside_is_22(done: &mut Outcome) {
    if refused_only_by(done, collect::OUTSIDE) {
        *done.number = 22;
    }
}

pub(super) fn not_collected(done: &mut Outcome) {
    if let Call::Collect { .. } = done.call {
        *done.after = done.before.clone();
    }
}

/// All that are in the group of the one that was collected.
pub(super) fn all_collected(done: &mut Outcome) {
    if let Call::Collect { process } = done.call
        && done.is_success()
    {
        let group = done.before.zombies[process];
        done.after.zombies.retain(|_, own| *own != group);
        done.after.forget_removed();
    }
}

// Numbers of groups.

/// Makes a number anew that a zombie's path runs through, where it is free by another idea.
fn made_early(done: &mut Outcome, is_free: impl Fn(&Model, u64) -> bool) {
    if let Call::Make { group, .. } = done.call
        && is_free(done.before, *group)
    {
        granted(done, make::NEW_ON_ZOMBIES_PATH);
    }
}

pub(super) fn made_at_once(done: &mut Outcome) {
    made_early(done, |_, _| true);
}

pub(super) fn made_above(done: &mut Outcome) {
    made_early(done, |model, group| zombies_of(model, group).next().is_none());
}

pub(super) fn made_two_levels_above(done: &mut Outcome) {
    made_early(done, |model, group| {
        let mut paths = model.zombies().map(|zombie| model.path(zombie));
        !paths.any(|path| path.iter().take(2).any(|&up| up == group))
    });
}

/// The zombie's own group is not asked, only those above it.
pub(super) fn made_in_place(done: &mut Outcome) {
    made_early(done, |model, group| {
        let mut paths = model.zombies().map(|zombie| model.path(zombie));
        !paths.any(|path| path[1..].contains(&group))
    });
}

pub(super) fn made_by_another_parent(done: &mut Outcome) {
    if let Call::Make { parent, group, .. } = done.call
        && done.before.removed.get(group).is_some_and(|former| former != parent)
    {
        granted(done, make::NEW_ON_ZOMBIES_PATH);
    }
}

/// The group is made, and the lines of zombies show where it is now.
pub(super) fn line_follows(done: &mut Outcome) {
    if let Call::Make { user, parent, group } = done.call
        && refused_only_by(done, make::NEW_ON_ZOMBIES_PATH)
    {
        done.after.removed.remove(group);
        *done.number = done.after.make(*user, *parent, *group);
    }
}

/// The numbers that a collection has freed.
fn freed(done: &Outcome) -> Vec<u64> {
    let before = done.before.removed_groups();
    before.filter(|group| !done.after.is_on_zombies_path(*group)).collect()
}

/// Refuses to make a number again that is noted as one of a removed group.
fn never_made_again(done: &mut Outcome, noted: Vec<u64>) {
    done.removed.extend(noted.into_iter().map(|group| (group, DEFAULTS)));
    if let Call::Make { group, .. } = done.call
        && done.is_success()
        && done.removed.contains_key(group)
    {
        done.refuse(make::NEW_ON_ZOMBIES_PATH.number());
    }
}

pub(super) fn taken_for_good(done: &mut Outcome) {
    let noted = freed(done);
    never_made_again(done, noted);
}

/// Only the number of the zombie's own group is freed.
pub(super) fn above_taken_for_good(done: &mut Outcome) {
    let own = match done.call {
        Call::Collect { process } => done.before.zombies.get(process).copied(),
        _ => None,
    };
    let noted = freed(done).into_iter().filter(|group| Some(*group) != own).collect();
    never_made_again(done, noted);
}

/// The groups of the collected zombie's path are free, whoever else needs them.
pub(super) fn clears_too_much(done: &mut Outcome) {
    if let Call::Collect { process } = done.call
        && done.is_success()
    {
        for group in done.before.path(*process) {
            done.after.removed.remove(&group);
        }
    }
}

/// Nothing is kept of a removed group in which no zombie is, though one is below it.
pub(super) fn above_forgotten(done: &mut Outcome) {
    if let Call::Remove { group, .. } = done.call
        && done.is_success()
        && zombies_of(done.before, *group).next().is_none()
    {
        done.after.removed.remove(group);
    }
}

pub(super) fn made_below_removed(done: &mut Outcome) {
    if let Call::Make { parent, .. } = done.call
        && done.before.is_on_zombies_path(*parent)
    {
        granted(done, make::PARENT_NOT_LIVE);
    }
}

pub(super) fn removed_is_read(reading: &mut Reading) -> u32 {
    match reading.group_of(b"cgroup.procs") {
        Some(group) if reading.model.is_on_zombies_path(group) => 0,
        _ => reading.number,
    }
}

/// In all calls but make.
pub(super) fn removed_is_17(done: &mut Outcome) {
    let mut groups = done.call.groups().into_iter();
    if !matches!(done.call, Call::Make { .. })
        && *done.number == 2
        && groups.any(|group| done.before.is_on_zombies_path(group))
    {
        *done.number = 17;
    }
}

// Membership lines.

pub(super) fn deleted_too_soon(reading: &mut Reading) -> u32 {
    if let Some((_, false)) = reading.zombie()
        && let Some(line) = reading.text().map(|text| text.trim_end().to_string())
    {
        return reading.show_any(&format!("{line} (deleted)\n"));
    }
    reading.number
}

/// Where its parent was removed, and not it alone.
pub(super) fn deleted_with_parent_only(reading: &mut Reading) -> u32 {
    if let Some((zombie, true)) = reading.zombie()
        && let [_, above, ..] = reading.model.path(zombie)[..]
        && !reading.model.is_on_zombies_path(above)
        && let Some(line) = reading.text().map(|text| text.replace(" (deleted)", ""))
    {
        reading.show(&line);
    }
    reading.number
}

pub(super) fn never_deleted(reading: &mut Reading) -> u32 {
    if reading.zombie().is_some()
        && let Some(line) = reading.text().map(|text| text.replace(" (deleted)", ""))
    {
        reading.show(&line);
    }
    reading.number
}

pub(super) fn deleted_after_newline(reading: &mut Reading) -> u32 {
    if let Some((_, true)) = reading.zombie()
        && let Some(line) = reading.text().map(|text| text.replace(" (deleted)\n", "\n (deleted)"))
    {
        reading.show(&line);
    }
    reading.number
}

pub(super) fn path_cut(reading: &mut Reading) -> u32 {
    if let Some((zombie, true)) = reading.zombie() {
        let path = reading.model.path(zombie).into_iter().rev().skip(1);
        let live = path.filter(|group| !reading.model.is_on_zombies_path(*group));
        let live: String = live.map(|group| format!("/{group}")).collect();
        let live = if live.is_empty() { "/" } else { &live };
        let line = format!("0::{live} (deleted)\n");
        reading.show(&line);
    }
    reading.number
}

pub(super) fn path_without_parents(reading: &mut Reading) -> u32 {
    if let Some((zombie, true)) = reading.zombie() {
        let line = format!("0::/{} (deleted)\n", reading.model.path(zombie)[0]);
        reading.show(&line);
    }
    reading.number
}

fn no_such_process(reading: &mut Reading) -> u32 {
    reading.told[0] = 0;
    3
}

pub(super) fn no_line(reading: &mut Reading) -> u32 {
    if reading.zombie().is_some() { no_such_process(reading) } else { reading.number }
}

pub(super) fn no_line_after_removal(reading: &mut Reading) -> u32 {
    if let Some((_, true)) = reading.zombie() {
        return no_such_process(reading);
    }
    reading.number
}

pub(super) fn line_of_root(done: &mut Outcome) {
    if let Call::Exit { process } = done.call
        && done.is_success()
    {
        done.after.zombies.insert(*process, 0);
    }
}
