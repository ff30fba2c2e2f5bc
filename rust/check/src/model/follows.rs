//! A fresh tree, and what follows from what is kept.

use super::*;

impl Model {
    pub fn new(machine: u64) -> Model {
        let root = Group { parent: ROOT, owner: 0, set: EMPTY, own_pages: 0, settings: DEFAULTS };
        let mut groups = vec![None; LAST_GROUP as usize + 1];
        groups[ROOT as usize] = Some(Box::new(root));
        Model {
            machine: machine.min(LARGEST_MACHINE),
            groups,
            processes: BTreeMap::new(),
            zombies: BTreeMap::new(),
            removed: BTreeMap::new(),
        }
    }

    pub fn machine(&self) -> u64 {
        self.machine
    }

    /// The group with this number, if it is live.
    pub fn group(&self, group: u64) -> Option<&Group> {
        self.groups.get(usize::try_from(group).ok()?)?.as_deref()
    }

    pub(crate) fn group_mut(&mut self, group: u64) -> &mut Group {
        self.groups[group as usize].as_mut().expect("a live group")
    }

    /// The process with this number, if it is live.
    pub fn process(&self, process: u64) -> Option<&Process> {
        self.processes.get(&process)
    }

    pub fn is_zombie(&self, process: u64) -> bool {
        self.zombies.contains_key(&process)
    }

    /// Whether the number is in range and neither a live process's nor a zombie's.
    pub fn is_free(&self, process: u64) -> bool {
        !is_outside(process) && self.process(process).is_none() && !self.is_zombie(process)
    }

    /// Whether the number is that of a removed group, and a zombie's path runs through it.
    pub fn is_on_zombies_path(&self, group: u64) -> bool {
        self.removed.contains_key(&group)
    }

    /// Whether the number is in range and a group of it can be made.
    pub fn is_unused(&self, group: u64) -> bool {
        group <= LAST_GROUP && self.group(group).is_none() && !self.is_on_zombies_path(group)
    }

    pub fn live_groups(&self) -> impl Iterator<Item = u64> {
        (0..=LAST_GROUP).filter(|&group| self.group(group).is_some())
    }

    pub fn live_processes(&self) -> impl Iterator<Item = u64> {
        self.processes.keys().copied()
    }

    pub fn zombies(&self) -> impl Iterator<Item = u64> {
        self.zombies.keys().copied()
    }

    /// The numbers of removed groups through which a zombie's path runs.
    pub fn removed_groups(&self) -> impl Iterator<Item = u64> {
        self.removed.keys().copied()
    }

    pub fn children(&self, group: u64) -> impl Iterator<Item = u64> {
        self.live_groups().filter(move |&child| self.parent(child) == Some(group))
    }

    /// The live processes of the group itself, ascending.
    pub fn holds(&self, group: u64) -> impl Iterator<Item = u64> {
        let held = self.processes.iter().filter(move |(_, process)| process.group == group);
        held.map(|(number, _)| *number)
    }

    /// The parent of a live group; the root has none.
    pub(super) fn parent(&self, group: u64) -> Option<u64> {
        self.group(group).filter(|_| group != ROOT).map(|g| g.parent)
    }

    /// The group, its parent and so on to the root; empty if the group is not live.
    pub fn chain(&self, group: u64) -> Vec<u64> {
        let live = self.group(group).map(|_| group);
        std::iter::successors(live, |&lowest| self.parent(lowest)).collect()
    }

    /// The group of a zombie, its parent and so on to the root, removed ones included; empty if it is
    /// no zombie.
    pub fn path(&self, zombie: u64) -> Vec<u64> {
        let above = |&group: &u64| self.parent(group).or_else(|| self.removed.get(&group).copied());
        std::iter::successors(self.zombies.get(&zombie).copied(), above).collect()
    }

    /// Keeps of removed groups those that a zombie's path runs through.
    pub(crate) fn forget_removed(&mut self) {
        let needed: BTreeSet<u64> = self.zombies().flat_map(|zombie| self.path(zombie)).collect();
        self.removed.retain(|group, _| needed.contains(group));
    }

    pub fn depth(&self, group: u64) -> usize {
        self.chain(group).len().saturating_sub(1)
    }

    /// Whether `inner` is `outer` or a descendant of it.
    fn is_inside(&self, inner: u64, outer: u64) -> bool {
        inner == outer || self.parent(inner).is_some_and(|parent| self.is_inside(parent, outer))
    }

    /// The own pages of all groups inside the group.
    pub fn usage(&self, group: u64) -> u64 {
        let inside = self.live_groups().filter(|&inner| self.is_inside(inner, group));
        inside.map(|inner| self.group(inner).map_or(0, |g| g.own_pages)).sum()
    }

    /// The number of live processes inside the group. They are counted by the groups that they stand
    /// in, so that each of these is looked for once.
    pub fn population(&self, group: u64) -> u64 {
        let mut held: BTreeMap<u64, u64> = BTreeMap::new();
        for process in self.processes.values() {
            *held.entry(process.group).or_default() += 1;
        }
        held.into_iter().filter(|(inner, _)| self.is_inside(*inner, group)).map(|(_, n)| n).sum()
    }

    /// Whether a controller is on: the group is not the root, and its parent has it in its set.
    pub fn is_on(&self, controller: usize, group: u64) -> bool {
        let parent = self.parent(group).and_then(|parent| self.group(parent));
        parent.is_some_and(|parent| parent.set[controller])
    }

    /// Whether the group is live and the controller is not on there.
    pub(super) fn is_off(&self, controller: usize, group: u64) -> bool {
        self.group(group).is_some() && !self.is_on(controller, group)
    }

    /// The root has all four, others what is on.
    pub fn is_available(&self, controller: usize, group: u64) -> bool {
        group == ROOT || self.is_on(controller, group)
    }

    pub(crate) fn may_write(&self, user: u32, group: u64) -> bool {
        user == 0 || self.group(group).is_some_and(|g| g.owner == user)
    }

    pub(super) fn may_write_parent(&self, user: u32, group: u64) -> bool {
        user == 0 || self.parent(group).is_some_and(|parent| self.may_write(user, parent))
    }

    /// The lowest group that is on both chains.
    pub(crate) fn lowest_on_both(&self, source: u64, target: u64) -> Option<u64> {
        let target = self.chain(target);
        self.chain(source).into_iter().find(|group| target.contains(group))
    }
}
