//! Calls that bring out what no file shows: owners, own pages, the users of processes, which numbers
//! are taken.

use super::Pair;
use crate::call::Call;
use crate::calls::Calls;
use crate::model::{EMPTY, LAST_GROUP};

/// The most pages of one release.
const MOST_PAGES: u64 = 1_048_576;

impl<H: Calls> Pair<H> {
    /// The calls, to be made on a copy. Own pages that take more than so many releases are not
    /// counted to the end.
    pub fn probes(&self, releases: u64) -> Vec<Call> {
        let mut probes = vec![];
        self.probe_owners(&mut probes);
        self.probe_pages(releases, &mut probes);
        self.probe_users(&mut probes);
        self.probe_numbers(&mut probes);
        probes
    }

    /// Everyone writes to every group, those first that may not. That user 0 may says nothing: a
    /// wrong owner in his place shows if it is one of the others.
    fn probe_owners(&self, probes: &mut Vec<Call>) {
        let mut granted = vec![];
        for group in self.model.live_groups() {
            for &user in &self.users {
                let write = Call::WriteSubtreeControl { user, group, line: vec![] };
                let may = self.model.may_write(user, group);
                (if may { &mut granted } else { &mut *probes }).push(write);
            }
        }
        probes.extend(granted);
    }

    /// Everything is released, as quickly as can be, and then there is not a page more.
    fn probe_pages(&self, releases: u64, probes: &mut Vec<Call>) {
        let mut refused = vec![];
        for group in self.model.live_groups() {
            let own = self.model.group(group).expect("a live group").own_pages;
            let whole = (own / MOST_PAGES).min(releases);
            probes.extend((0..whole).map(|_| Call::Release { group, pages: MOST_PAGES }));
            let rest = own - whole * MOST_PAGES;
            if rest < MOST_PAGES {
                probes.extend((rest > 0).then_some(Call::Release { group, pages: rest }));
                refused.push(Call::Release { group, pages: 1 });
            }
        }
        probes.extend(refused);
    }

    /// Each process is moved to where it is by its user, who is made the group's owner for that.
    /// Those of the root are first moved out, for it cannot be handed over. Where user 0's are,
    /// the others are refused.
    fn probe_users(&self, probes: &mut Vec<Call>) {
        let aside = self.aside(probes);
        for group in self.model.live_groups() {
            let Some(place) = (if group == 0 { aside } else { Some(group) }) else { continue };
            let held: Vec<u64> = self.model.holds(group).collect();
            let line = |process: &u64| process.to_string().into_bytes();
            if group == 0 {
                let out = |process| Call::WriteProcs { user: 0, group: place, line: line(process) };
                probes.extend(held.iter().map(out));
            }
            let user_of = |process: &u64| self.model.process(*process).map(|kept| kept.user);
            for &user in self.users.iter().filter(|&&user| user != 0) {
                let asked = held.iter().filter(|p| [Some(0), Some(user)].contains(&user_of(p)));
                let asked: Vec<Call> = asked
                    .map(|process| Call::WriteProcs { user, group: place, line: line(process) })
                    .collect();
                if !asked.is_empty() {
                    probes.push(Call::HandOver { user: 0, group: place, owner: user });
                    probes.extend(asked);
                }
            }
        }
    }

    /// A group that the processes of the root can be moved to: a new one, or else one whose set is
    /// empty.
    fn aside(&self, probes: &mut Vec<Call>) -> Option<u64> {
        self.model.holds(0).next()?;
        match (1..=LAST_GROUP).find(|&group| self.model.is_unused(group)) {
            Some(group) => {
                probes.push(Call::Make { user: 0, parent: 0, group });
                Some(group)
            }
            None => (1..=LAST_GROUP)
                .find(|&group| self.model.group(group).is_some_and(|kept| kept.set == EMPTY)),
        }
    }

    /// Groups are made of all numbers that are not live, and processes of zombies' numbers; where a
    /// zombie stands in the way, once more when all are collected. Last of all, since little is free
    /// after it.
    fn probe_numbers(&self, probes: &mut Vec<Call>) {
        let make = |group| Call::Make { user: 0, parent: 0, group };
        let dead = (1..=LAST_GROUP).filter(|&group| self.model.group(group).is_none());
        probes.extend(dead.map(make));
        let admit = |process| Call::Admit { process, user: 0 };
        probes.extend(self.model.zombies().map(admit));
        probes.extend(self.model.zombies().map(|process| Call::Collect { process }));
        probes.extend(self.model.removed_groups().map(make));
        probes.extend(self.model.zombies().map(admit));
    }
}
