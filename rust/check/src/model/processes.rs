//! The calls that change processes and pages.

use super::*;
use crate::calls::NO_GROUP;
use crate::checks::{admit, charge, collect, exit, fork, release};

/// What a charge or a fork found on its way up: the first group that has no room, and the number
/// of groups consulted, up to and including that group, or depth plus one.
pub(super) struct Consulted {
    full: Option<u64>,
    count: u64,
}

impl Consulted {
    /// What is told: any refusal but for want of room names no group and counts 0.
    fn told(&self, verdict: Verdict, no_room: u32) -> [u64; 2] {
        match verdict {
            Ok(()) => [NO_GROUP, self.count],
            Err(check) if check.number() == no_room => [self.full.unwrap_or(NO_GROUP), self.count],
            Err(_) => [NO_GROUP, 0],
        }
    }
}

impl Model {
    /// Asks the groups on a process's chain, going up, for the first that is full.
    fn consult(&self, process: u64, is_full: impl Fn(u64, &Group) -> bool) -> Consulted {
        let chain = self.process(process).map_or(vec![], |process| self.chain(process.group));
        let full = |&up: &u64| self.group(up).is_some_and(|g| is_full(up, g));
        match chain.iter().position(full) {
            Some(place) => Consulted { full: Some(chain[place]), count: place as u64 + 1 },
            None => Consulted { full: None, count: chain.len() as u64 },
        }
    }
}

// Processes.
impl Model {
    pub(super) fn admit_checks(&self, process: u64) -> [Test; 4] {
        [
            (process == 0, admit::IS_0),
            (process > LAST_PROCESS, admit::ABOVE_LAST),
            (self.process(process).is_some(), admit::IS_LIVE),
            (self.is_zombie(process), admit::IS_ZOMBIE),
        ]
    }

    pub(super) fn try_admit(&mut self, process: u64, user: u32) -> Verdict {
        decide(&self.admit_checks(process))?;
        self.processes.insert(process, Process { user, group: ROOT });
        Ok(())
    }

    pub(super) fn room_for_fork(&self, parent: u64) -> Consulted {
        self.consult(parent, |up, group| {
            let limit = group.settings.pids_max.filter(|_| self.is_on(PIDS, up));
            limit.is_some_and(|max| self.population(up) + 1 > max)
        })
    }

    pub(super) fn fork_checks(&self, parent: u64, new: u64, asked: &Consulted) -> [Test; 8] {
        [
            (is_outside(parent), fork::PARENT_OUTSIDE),
            (self.is_free(parent), fork::PARENT_FREE),
            (self.is_zombie(parent), fork::PARENT_IS_ZOMBIE),
            (new == 0, fork::NEW_IS_0),
            (new > LAST_PROCESS, fork::NEW_ABOVE_LAST),
            (self.process(new).is_some(), fork::NEW_IS_LIVE),
            (self.is_zombie(new), fork::NEW_IS_ZOMBIE),
            (asked.full.is_some(), fork::PIDS_LIMIT),
        ]
    }

    pub(super) fn try_fork(&mut self, parent: u64, new: u64, told: &mut [u64; 2]) -> Verdict {
        let asked = self.room_for_fork(parent);
        let verdict = decide(&self.fork_checks(parent, new, &asked));
        *told = asked.told(verdict, 11);
        verdict?;
        let process = *self.process(parent).expect("checked");
        self.processes.insert(new, process);
        Ok(())
    }

    pub(super) fn exit_checks(&self, process: u64) -> [Test; 3] {
        [
            (is_outside(process), exit::OUTSIDE),
            (self.is_free(process), exit::FREE),
            (self.is_zombie(process), exit::IS_ZOMBIE),
        ]
    }

    pub(super) fn try_exit(&mut self, process: u64) -> Verdict {
        decide(&self.exit_checks(process))?;
        let ended = self.processes.remove(&process).expect("checked");
        self.zombies.insert(process, ended.group);
        Ok(())
    }

    pub(super) fn collect_checks(&self, process: u64) -> [Test; 3] {
        [
            (is_outside(process), collect::OUTSIDE),
            (self.is_free(process), collect::FREE),
            (self.process(process).is_some(), collect::IS_LIVE),
        ]
    }

    pub(super) fn try_collect(&mut self, process: u64) -> Verdict {
        decide(&self.collect_checks(process))?;
        self.zombies.remove(&process);
        self.forget_removed();
        Ok(())
    }
}

// Pages.
impl Model {
    pub(super) fn room_for_charge(&self, process: u64, pages: u64) -> Consulted {
        self.consult(process, |up, group| {
            let limit = match up {
                ROOT => Some(self.machine),
                _ => group.settings.memory_max.filter(|_| self.is_on(MEMORY, up)),
            };
            limit.is_some_and(|max| self.usage(up).saturating_add(pages) > max)
        })
    }

    pub(super) fn charge_checks(&self, process: u64, pages: u64, asked: &Consulted) -> [Test; 7] {
        [
            (is_outside(process), charge::OUTSIDE),
            (self.is_free(process), charge::FREE),
            (self.is_zombie(process), charge::IS_ZOMBIE),
            (pages == 0, charge::NO_PAGES),
            (pages > MOST_PAGES, charge::TOO_MANY_PAGES),
            (asked.full.is_some_and(|full| full != ROOT), charge::MEMORY_LIMIT),
            (asked.full == Some(ROOT), charge::MACHINE_SIZE),
        ]
    }

    pub(super) fn try_charge(&mut self, process: u64, pages: u64, told: &mut [u64; 2]) -> Verdict {
        let asked = self.room_for_charge(process, pages);
        let verdict = decide(&self.charge_checks(process, pages, &asked));
        *told = asked.told(verdict, 12);
        verdict?;
        let group = self.process(process).expect("checked").group;
        self.group_mut(group).own_pages += pages;
        Ok(())
    }

    pub(super) fn release_checks(&self, group: u64, pages: u64) -> [Test; 5] {
        let own = self.group(group).map_or(0, |g| g.own_pages);
        [
            (group > LAST_GROUP, release::ABOVE_LAST),
            (pages == 0, release::NO_PAGES),
            (pages > MOST_PAGES, release::TOO_MANY_PAGES),
            (self.group(group).is_none(), release::NOT_LIVE),
            (pages > own, release::MORE_THAN_OWN),
        ]
    }

    pub(super) fn try_release(&mut self, group: u64, pages: u64) -> Verdict {
        decide(&self.release_checks(group, pages))?;
        self.group_mut(group).own_pages -= pages;
        Ok(())
    }
}
