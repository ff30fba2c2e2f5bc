//! The calls that change groups.

use super::*;
use crate::checks::{hand_over, make, remove};

impl Model {
    pub(super) fn make_checks(&self, user: u32, parent: u64, new: u64) -> [Test; 7] {
        [
            (parent > LAST_GROUP, make::PARENT_ABOVE_LAST),
            (new > LAST_GROUP, make::NEW_ABOVE_LAST),
            (self.group(parent).is_none(), make::PARENT_NOT_LIVE),
            (self.group(new).is_some(), make::NEW_IS_LIVE),
            (self.is_on_zombies_path(new), make::NEW_ON_ZOMBIES_PATH),
            (!self.may_write(user, parent), make::MAY_NOT_WRITE_PARENT),
            (self.depth(parent) == DEEPEST, make::PARENT_DEEPEST),
        ]
    }

    pub(super) fn try_make(&mut self, user: u32, parent: u64, new: u64) -> Verdict {
        decide(&self.make_checks(user, parent, new))?;
        let group = Group { parent, owner: user, set: EMPTY, own_pages: 0, settings: DEFAULTS };
        self.groups[new as usize] = Some(Box::new(group));
        Ok(())
    }

    pub(super) fn remove_checks(&self, user: u32, group: u64) -> [Test; 7] {
        let is_root = group == ROOT;
        [
            (group > LAST_GROUP, remove::ABOVE_LAST),
            (self.group(group).is_none(), remove::NOT_LIVE),
            (!is_root && !self.may_write_parent(user, group), remove::MAY_NOT_WRITE_PARENT),
            (is_root && user != 0, remove::ROOT_NOT_USER_0),
            (is_root, remove::IS_ROOT),
            (self.children(group).next().is_some(), remove::HAS_CHILD),
            (self.holds(group).next().is_some(), remove::HAS_PROCESS),
        ]
    }

    pub(super) fn try_remove(&mut self, user: u32, group: u64) -> Verdict {
        decide(&self.remove_checks(user, group))?;
        let removed = self.groups[group as usize].take().expect("checked");
        self.group_mut(removed.parent).own_pages += removed.own_pages;
        self.removed.insert(group, removed.parent);
        self.forget_removed();
        Ok(())
    }

    pub(super) fn hand_over_checks(&self, user: u32, group: u64) -> [Test; 4] {
        [
            (group == ROOT, hand_over::IS_ROOT),
            (group > LAST_GROUP, hand_over::ABOVE_LAST),
            (self.group(group).is_none(), hand_over::NOT_LIVE),
            (user != 0, hand_over::NOT_USER_0),
        ]
    }

    pub(super) fn try_hand_over(&mut self, user: u32, group: u64, owner: u32) -> Verdict {
        decide(&self.hand_over_checks(user, group))?;
        self.group_mut(group).owner = owner;
        Ok(())
    }
}
