//! The files that are written.

use super::lines::one_number;
use super::*;
use crate::checks::{write_procs, write_setting, write_subtree_control};

const ALL: [usize; 4] = [CPU, IO, MEMORY, PIDS];

// cgroup.procs.
impl Model {
    pub(super) fn write_procs_checks(&self, user: u32, group: u64, line: &[u8]) -> [Test; 14] {
        let words = words(line).len();
        let number = one_number(line);
        let named = number.and_then(|number| u64::try_from(number).ok());
        let process = named.and_then(|named| self.process(named));
        let is_zombie = named.is_some_and(|named| self.is_zombie(named));
        let lowest = process.and_then(|process| self.lowest_on_both(process.group, group));
        let has_set = self.group(group).is_some_and(|g| g.set != EMPTY);
        let is_above = number.is_some_and(|number| number > u128::from(LAST_PROCESS));
        let is_free = number.is_some() && !is_above && process.is_none() && !is_zombie;
        [
            (group > LAST_GROUP, write_procs::ABOVE_LAST),
            (self.group(group).is_none(), write_procs::NOT_LIVE),
            (!self.may_write(user, group), write_procs::MAY_NOT_WRITE),
            (line.len() > LONGEST_LINE, write_procs::LONG_LINE),
            (words == 0, write_procs::NO_WORD),
            (words > 1, write_procs::MORE_WORDS),
            (words == 1 && number.is_none(), write_procs::NOT_A_NUMBER),
            (number == Some(0), write_procs::IS_0),
            (is_above, write_procs::PROCESS_ABOVE_LAST),
            (is_free, write_procs::PROCESS_FREE),
            (is_zombie, write_procs::PROCESS_IS_ZOMBIE),
            (user != 0 && process.is_none_or(|p| p.user != user), write_procs::NOT_ITS_USER),
            (
                user != 0 && lowest.is_none_or(|lowest| !self.may_write(user, lowest)),
                write_procs::MAY_NOT_WRITE_LOWEST,
            ),
            (group != ROOT && has_set, write_procs::HAS_SET),
        ]
    }

    pub(super) fn try_write_procs(&mut self, user: u32, group: u64, line: &[u8]) -> Verdict {
        decide(&self.write_procs_checks(user, group, line))?;
        let process = one_number(line).expect("checked") as u64;
        self.processes.get_mut(&process).expect("checked").group = group;
        Ok(())
    }
}

// cgroup.subtree_control.
impl Model {
    /// The group's set after the line: the last word on a controller counts.
    fn set_after(&self, group: u64, line: &[u8]) -> Set {
        let mut set = self.group(group).map_or(EMPTY, |g| g.set);
        for (controller, joins) in words(line).into_iter().filter_map(control_word) {
            set[controller] = joins;
        }
        set
    }

    pub(super) fn write_subtree_control_checks(
        &self,
        user: u32,
        group: u64,
        line: &[u8],
    ) -> [Test; 8] {
        let good = || words(line).into_iter().filter_map(control_word);
        let old = self.group(group).map_or(EMPTY, |g| g.set);
        let new = self.set_after(group, line);
        let is_wanted = |k: usize| new[k] && good().any(|(controller, _)| controller == k);
        let is_missing = |k: usize| self.group(group).is_some() && !self.is_available(k, group);
        let in_childs_set = |k: usize| {
            self.children(group).any(|child| self.group(child).is_some_and(|g| g.set[k]))
        };
        let holds_process = group != ROOT && self.holds(group).next().is_some();
        [
            (group > LAST_GROUP, write_subtree_control::ABOVE_LAST),
            (self.group(group).is_none(), write_subtree_control::NOT_LIVE),
            (!self.may_write(user, group), write_subtree_control::MAY_NOT_WRITE),
            (line.len() > LONGEST_LINE, write_subtree_control::LONG_LINE),
            (good().count() < words(line).len(), write_subtree_control::BAD_WORD),
            (
                ALL.into_iter().any(|k| is_wanted(k) && is_missing(k)),
                write_subtree_control::NOT_AVAILABLE,
            ),
            (
                ALL.into_iter().any(|k| old[k] && !new[k] && in_childs_set(k)),
                write_subtree_control::IN_CHILDS_SET,
            ),
            (
                holds_process && ALL.into_iter().any(|k| new[k] && !old[k]),
                write_subtree_control::HOLDS_PROCESS,
            ),
        ]
    }

    pub(super) fn try_write_subtree_control(
        &mut self,
        user: u32,
        group: u64,
        line: &[u8],
    ) -> Verdict {
        decide(&self.write_subtree_control_checks(user, group, line))?;
        let new = self.set_after(group, line);
        let old = std::mem::replace(&mut self.group_mut(group).set, new);
        let children: Vec<u64> = self.children(group).collect();
        for child in children {
            for controller in ALL.into_iter().filter(|&k| old[k] && !new[k]) {
                self.group_mut(child).settings.reset(controller);
            }
        }
        Ok(())
    }
}

impl Settings {
    pub(crate) fn reset(&mut self, controller: usize) {
        match controller {
            CPU => {
                self.cpu_weight = DEFAULTS.cpu_weight;
                self.cpu_max = DEFAULTS.cpu_max;
                self.cpu_period = DEFAULTS.cpu_period;
            }
            IO => self.io_max = DEFAULTS.io_max,
            MEMORY => self.memory_max = DEFAULTS.memory_max,
            _ => self.pids_max = DEFAULTS.pids_max,
        }
    }
}

/// What may be written to a setting that takes figures, as all do but io.max.
struct Form {
    controller: usize,
    takes_max: bool,
    range: std::ops::RangeInclusive<u128>,
    words: usize,
}

const PERIOD: std::ops::RangeInclusive<u128> = 1_000..=1_000_000;

fn form(file: &[u8]) -> Option<Form> {
    let (controller, takes_max, range, words) = match file {
        b"memory.max" => (MEMORY, true, 0..=4_503_599_627_370_496, 1),
        b"pids.max" => (PIDS, true, 0..=4_194_304, 1),
        b"cpu.weight" => (CPU, false, 1..=10_000, 1),
        b"cpu.max" => (CPU, true, 1_000..=1_000_000_000, 2),
        _ => return None,
    };
    Some(Form { controller, takes_max, range, words })
}

/// The controller of a setting.
fn controller_of(file: &[u8]) -> Option<usize> {
    match file {
        b"io.max" => Some(IO),
        _ => form(file).map(|form| form.controller),
    }
}

/// What the words of a line say: a figure or no limit, and the period after it.
#[derive(Default)]
struct Said {
    malformed: bool,
    figure: Option<u128>,
    period_malformed: bool,
    period: Option<u128>,
}

impl Form {
    fn said(&self, line: &[u8]) -> Said {
        let mut said = Said::default();
        let words = words(line);
        if let Some(&word) = words.first()
            && !(self.takes_max && word == b"max")
        {
            said.figure = number(word);
            said.malformed = said.figure.is_none();
        }
        if let Some(&word) = words.get(1)
            && self.words == 2
        {
            said.period = number(word);
            said.period_malformed = said.period.is_none();
        }
        said
    }
}

// The settings.
impl Model {
    pub(super) fn write_setting_checks(
        &self,
        user: u32,
        group: u64,
        file: &[u8],
        line: &[u8],
    ) -> [Test; 16] {
        let controller = controller_of(file);
        let form = form(file);
        let said = form.as_ref().map(|form| form.said(line)).unwrap_or_default();
        let words = words(line).len();
        let is_in_form = |test: &dyn Fn(&Form) -> bool| form.as_ref().is_some_and(test);
        let device_line = (file == b"io.max").then(|| DeviceLine::of(line));
        let is_in_line =
            |test: &dyn Fn(&DeviceLine) -> bool| device_line.as_ref().is_some_and(test);
        let has_fifth = |line: &DeviceLine| self.group(group).is_some_and(|g| line.is_fifth_of(g));
        [
            (group > LAST_GROUP, write_setting::ABOVE_LAST),
            (self.group(group).is_none(), write_setting::NOT_LIVE),
            (controller.is_none(), write_setting::NOT_A_SETTING),
            (controller.is_some_and(|k| self.is_off(k, group)), write_setting::NOT_ON),
            (!self.may_write_parent(user, group), write_setting::MAY_NOT_WRITE_PARENT),
            (line.len() > LONGEST_LINE, write_setting::LONG_LINE),
            (words == 0, write_setting::NO_WORD),
            (is_in_form(&|form| words > form.words), write_setting::MORE_WORDS),
            (said.malformed || is_in_line(&DeviceLine::is_malformed), write_setting::MALFORMED),
            (said.period_malformed, write_setting::PERIOD_MALFORMED),
            (is_in_line(&DeviceLine::has_bad_pair), write_setting::BAD_PAIR),
            (is_in_line(&DeviceLine::has_key_twice), write_setting::KEY_TWICE),
            (
                is_in_form(&|form| said.figure.is_some_and(|n| !form.range.contains(&n)))
                    || is_in_line(&DeviceLine::is_device_outside),
                write_setting::RANGE,
            ),
            (said.period.is_some_and(|n| !PERIOD.contains(&n)), write_setting::PERIOD_RANGE),
            (is_in_line(&DeviceLine::has_value_outside), write_setting::VALUE_RANGE),
            (is_in_line(&has_fifth), write_setting::FIFTH_DEVICE),
        ]
    }

    pub(super) fn try_write_setting(
        &mut self,
        user: u32,
        group: u64,
        file: &[u8],
        line: &[u8],
    ) -> Verdict {
        decide(&self.write_setting_checks(user, group, file, line))?;
        let settings = &mut self.group_mut(group).settings;
        match form(file) {
            Some(form) => settings.write_figure(file, form.said(line)),
            None => settings.write_device(&DeviceLine::of(line)),
        }
        Ok(())
    }
}

impl Settings {
    /// Does what a line of figures says.
    fn write_figure(&mut self, file: &[u8], said: Said) {
        let figure = said.figure.map(|figure| figure as u64);
        match file {
            b"memory.max" => self.memory_max = figure.map(|bytes| bytes / PAGE),
            b"pids.max" => self.pids_max = figure,
            b"cpu.weight" => self.cpu_weight = figure.expect("checked"),
            _ => {
                self.cpu_max = figure;
                self.cpu_period = said.period.map_or(self.cpu_period, |period| period as u64);
            }
        }
    }
}
