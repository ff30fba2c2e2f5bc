//! From a list of calls after which something differs to a short one: calls are left out, then
//! what is left is made plainer, for as long as a difference stays.

use std::collections::BTreeSet;
use std::time::{Duration, Instant};

use crate::call::Call;
use crate::model::{LAST_GROUP, LAST_PROCESS};

/// The shortest list found before patience ends. `fails` says whether a list still shows a
/// difference, and after how many calls.
pub fn shrink(
    mut calls: Vec<Call>,
    patience: Duration,
    fails: impl Fn(&[Call]) -> Option<usize>,
) -> Vec<Call> {
    let search = Search { start: Instant::now(), patience, fails };
    loop {
        let left_out = search.leave_out(&mut calls);
        let merged = search.merge(&mut calls);
        let plainer = search.make_plainer(&mut calls);
        let renumbered = search.renumber(&mut calls);
        if !(left_out || merged || plainer || renumbered) {
            return calls;
        }
    }
}

struct Search<F> {
    start: Instant,
    patience: Duration,
    fails: F,
}

impl<F: Fn(&[Call]) -> Option<usize>> Search<F> {
    fn is_over(&self) -> bool {
        self.start.elapsed() > self.patience
    }

    /// Takes another list for the best one, if it still shows a difference. Where patience has ended
    /// it is not even made.
    fn attempt(&self, best: &mut Vec<Call>, other: impl FnOnce(&[Call]) -> Vec<Call>) -> bool {
        if self.is_over() {
            return false;
        }
        let mut candidate = other(best);
        let Some(length) = (self.fails)(&candidate) else { return false };
        candidate.truncate(length);
        *best = candidate;
        true
    }

    /// Leaves out runs of calls, half of the list at a time, then a quarter, down to single calls.
    fn leave_out(&self, calls: &mut Vec<Call>) -> bool {
        let mut any = false;
        let mut run = calls.len().div_ceil(2);
        while run > 0 {
            let mut end = calls.len();
            while end > 0 {
                let first = end.saturating_sub(run);
                if first > 0 || end < calls.len() {
                    any |= self.attempt(calls, |best| [&best[..first], &best[end..]].concat());
                }
                end = first.min(calls.len());
            }
            run /= 2;
        }
        any
    }

    /// Takes one group for another, and one process for another, each made once only.
    fn merge(&self, calls: &mut Vec<Call>) -> bool {
        let mut any = false;
        for (old, new) in pairs(&groups(calls)) {
            let makes = |call: &Call| matches!(call, Call::Make { group, .. } if *group == old);
            any |= self.merged(calls, makes, |call| with_group(call, old, new));
        }
        for (old, new) in pairs(&processes(calls)) {
            let makes = |call: &Call| match call {
                Call::Admit { process, .. } | Call::Fork { process, .. } => *process == old,
                _ => false,
            };
            any |= self.merged(calls, makes, |call| with_process(call, old, new));
        }
        any
    }

    /// Leaves out the calls that make the one, and changes all others.
    fn merged(
        &self,
        calls: &mut Vec<Call>,
        makes: impl Fn(&Call) -> bool,
        change: impl Fn(&Call) -> Call,
    ) -> bool {
        let made = |calls: &[Call]| calls.iter().filter(|call| makes(call)).count();
        if self.is_over() || !(1..calls.len()).contains(&made(calls)) {
            return false;
        }
        self.attempt(calls, |best| best.iter().filter(|call| !makes(call)).map(change).collect())
    }

    /// Takes each call's arguments to smaller ones.
    fn make_plainer(&self, calls: &mut Vec<Call>) -> bool {
        let mut any = false;
        let mut place = 0;
        while place < calls.len() {
            for plainer in plainer(&calls[place]) {
                let with_plainer = |best: &[Call]| {
                    let mut candidate = best.to_vec();
                    candidate[place] = plainer;
                    candidate
                };
                if self.attempt(calls, with_plainer) {
                    any = true;
                    break;
                }
            }
            place += 1;
        }
        any
    }

    /// Gives groups and processes the lowest numbers that are free in the list.
    fn renumber(&self, calls: &mut Vec<Call>) -> bool {
        let (groups, processes) = (groups(calls), processes(calls));
        let groups = self.renumber_each(calls, groups, with_group);
        let processes = self.renumber_each(calls, processes, with_process);
        groups || processes
    }

    fn renumber_each(
        &self,
        calls: &mut Vec<Call>,
        mut named: BTreeSet<u64>,
        change: fn(&Call, u64, u64) -> Call,
    ) -> bool {
        let mut any = false;
        for old in named.clone().into_iter().rev() {
            let free = (1..old).find(|lower| !named.contains(lower));
            let changed =
                |new| move |best: &[Call]| best.iter().map(|c| change(c, old, new)).collect();
            if let Some(new) = free
                && self.attempt(calls, changed(new))
            {
                named.remove(&old);
                named.insert(new);
                any = true;
            }
        }
        any
    }
}

/// The groups in range that calls name.
fn groups(calls: &[Call]) -> BTreeSet<u64> {
    let mut named = BTreeSet::new();
    for mut call in calls.iter().cloned() {
        each_group(&mut call, |group| named.extend((*group <= LAST_GROUP).then_some(*group)));
    }
    named
}

/// The processes in range that calls name.
fn processes(calls: &[Call]) -> BTreeSet<u64> {
    let mut named = BTreeSet::new();
    for mut call in calls.iter().cloned() {
        let is_in_range = |process: u64| (1..=LAST_PROCESS).contains(&process);
        each_process(&mut call, |process| named.extend(is_in_range(*process).then_some(*process)));
    }
    named
}

fn pairs(numbers: &BTreeSet<u64>) -> impl Iterator<Item = (u64, u64)> {
    let each = |&one: &u64| {
        numbers.iter().filter(move |&&other| other != one).map(move |&other| (one, other))
    };
    numbers.iter().flat_map(each)
}

/// Calls that are one step plainer: a smaller number, fewer bytes.
fn plainer(call: &Call) -> Vec<Call> {
    let mut plainer = vec![];
    let mut values = vec![];
    each_number(&mut call.clone(), |value| values.push(*value));
    for (number, value) in values.into_iter().enumerate() {
        let one_less = if value <= 100 { value.saturating_sub(1) } else { 100 };
        for smaller in [0, 1, 2, 4, value / 2, one_less] {
            if smaller < value {
                let mut other = call.clone();
                let mut place = 0;
                each_number(&mut other, |value| {
                    if place == number {
                        *value = smaller;
                    }
                    place += 1;
                });
                plainer.push(other);
            }
        }
    }
    let mut line = None;
    each_line(&mut call.clone(), |found| line = Some(found.clone()));
    for shorter in line.iter().flat_map(|line| shorter(line)) {
        let mut other = call.clone();
        each_line(&mut other, |line| *line = shorter.clone());
        if other != *call {
            plainer.push(other);
        }
    }
    plainer
}

/// So many bytes or pieces of a line are left out, one at a time.
const PIECES: usize = 256;

/// Lines to try in a line's place: the plainest figures, then this one with bytes left out.
fn shorter(line: &[u8]) -> Vec<Vec<u8>> {
    let length = line.len();
    let mut shorter = vec![];
    for figure in [b"0", b"1", b"2"] {
        if line > figure.as_slice() || length > 1 {
            shorter.push(figure.to_vec());
        }
    }
    let halves = [(0, length), (0, length / 2), (length / 2, length)];
    // Of a line that is longer than any that is taken, a piece at a time.
    let piece = length.div_ceil(PIECES).max(1);
    let pieces = (0..length).step_by(piece).map(|place| (place, length.min(place + piece)));
    for (first, end) in halves.into_iter().chain(pieces) {
        shorter.push([&line[..first], &line[end..]].concat());
    }
    shorter
}

fn each_number(call: &mut Call, mut visit: impl FnMut(&mut u64)) {
    let user_of = |user: &mut u32, visit: &mut dyn FnMut(&mut u64)| {
        let mut wide = u64::from(*user);
        visit(&mut wide);
        *user = wide as u32;
    };
    match call {
        Call::Make { user, parent, group } => {
            user_of(user, &mut visit);
            visit(parent);
            visit(group);
        }
        Call::Remove { user, group }
        | Call::WriteProcs { user, group, .. }
        | Call::WriteSubtreeControl { user, group, .. }
        | Call::WriteSetting { user, group, .. } => {
            user_of(user, &mut visit);
            visit(group);
        }
        Call::HandOver { user, group, owner } => {
            user_of(user, &mut visit);
            visit(group);
            user_of(owner, &mut visit);
        }
        Call::Admit { process, user } => {
            visit(process);
            user_of(user, &mut visit);
        }
        Call::Fork { parent, process } => {
            visit(parent);
            visit(process);
        }
        Call::Exit { process } | Call::Collect { process } => visit(process),
        Call::Charge { process, pages } => {
            visit(process);
            visit(pages);
        }
        Call::Release { group, pages } => {
            visit(group);
            visit(pages);
        }
        Call::Read { group, room, .. } => {
            visit(group);
            let mut wide = *room as u64;
            visit(&mut wide);
            *room = wide as usize;
        }
        Call::Membership { process, room } => {
            visit(process);
            let mut wide = *room as u64;
            visit(&mut wide);
            *room = wide as usize;
        }
        Call::FirstBadWord { .. } => {}
    }
}

fn each_line(call: &mut Call, mut visit: impl FnMut(&mut Vec<u8>)) {
    match call {
        Call::WriteProcs { line, .. }
        | Call::WriteSubtreeControl { line, .. }
        | Call::WriteSetting { line, .. }
        | Call::FirstBadWord { line } => visit(line),
        _ => {}
    }
}

fn each_group(call: &mut Call, mut visit: impl FnMut(&mut u64)) {
    match call {
        Call::Make { parent, group, .. } => {
            visit(parent);
            visit(group);
        }
        Call::Remove { group, .. }
        | Call::HandOver { group, .. }
        | Call::WriteProcs { group, .. }
        | Call::WriteSubtreeControl { group, .. }
        | Call::WriteSetting { group, .. }
        | Call::Release { group, .. }
        | Call::Read { group, .. } => visit(group),
        Call::Admit { .. }
        | Call::Fork { .. }
        | Call::Exit { .. }
        | Call::Collect { .. }
        | Call::Charge { .. }
        | Call::Membership { .. }
        | Call::FirstBadWord { .. } => {}
    }
}

/// A line of cgroup.procs counts where it is a process's number and nothing else.
fn each_process(call: &mut Call, mut visit: impl FnMut(&mut u64)) {
    match call {
        Call::Admit { process, .. }
        | Call::Exit { process }
        | Call::Collect { process }
        | Call::Charge { process, .. }
        | Call::Membership { process, .. } => visit(process),
        Call::Fork { parent, process } => {
            visit(parent);
            visit(process);
        }
        Call::WriteProcs { line, .. } => {
            let text = String::from_utf8_lossy(line);
            if let Ok(mut process) = text.parse::<u64>() {
                let zeros = text.len() - process.to_string().len().min(text.len());
                visit(&mut process);
                *line = format!("{}{process}", "0".repeat(zeros)).into_bytes();
            }
        }
        _ => {}
    }
}

fn with_group(call: &Call, old: u64, new: u64) -> Call {
    let mut call = call.clone();
    each_group(&mut call, |number| {
        if *number == old {
            *number = new;
        }
    });
    call
}

fn with_process(call: &Call, old: u64, new: u64) -> Call {
    let mut call = call.clone();
    each_process(&mut call, |number| {
        if *number == old {
            *number = new;
        }
    });
    call
}
