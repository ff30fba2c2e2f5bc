//! What a reader sees.

use super::*;
use crate::checks::{membership, read};

/// Where a file is there.
enum There {
    Everywhere,
    BelowTheRoot,
    WhereOn(usize),
    Nowhere,
}

fn there(file: &[u8]) -> There {
    match file {
        b"cgroup.procs" | b"cgroup.controllers" | b"cgroup.subtree_control" => There::Everywhere,
        b"cgroup.events" => There::BelowTheRoot,
        b"memory.current" | b"memory.max" => There::WhereOn(MEMORY),
        b"pids.current" | b"pids.max" => There::WhereOn(PIDS),
        b"cpu.weight" | b"cpu.max" => There::WhereOn(CPU),
        b"io.max" => There::WhereOn(IO),
        _ => There::Nowhere,
    }
}

fn listed(is_listed: impl Fn(usize) -> bool) -> String {
    let named = CONTROLLERS.into_iter().enumerate().filter(|(k, _)| is_listed(*k));
    let names: Vec<&str> = named.map(|(_, name)| name).collect();
    if names.is_empty() { String::new() } else { names.join(" ") + "\n" }
}

pub(super) fn shown(limit: Limit) -> String {
    limit.map_or("max".to_string(), |figure| figure.to_string())
}

/// Puts a text into the front of the buffer and tells its length.
fn deliver(text: &str, reply: &mut [u8], told: &mut [u64; 1]) {
    reply[..text.len()].copy_from_slice(text.as_bytes());
    *told = [text.len() as u64];
}

// Files.
impl Model {
    /// What a file of a live group holds, or would hold where it is absent.
    fn text(&self, group: u64, file: &[u8]) -> String {
        let Some(Group { set, settings, .. }) = self.group(group) else { return String::new() };
        match file {
            b"cgroup.procs" => self.holds(group).map(|process| format!("{process}\n")).collect(),
            b"cgroup.controllers" => listed(|k| self.is_available(k, group)),
            b"cgroup.subtree_control" => listed(|k| set[k]),
            b"cgroup.events" => format!("populated {}\n", u8::from(self.population(group) > 0)),
            b"memory.current" => format!("{}\n", self.usage(group) * PAGE),
            b"memory.max" => format!("{}\n", shown(settings.memory_max.map(|pages| pages * PAGE))),
            b"pids.current" => format!("{}\n", self.population(group)),
            b"pids.max" => format!("{}\n", shown(settings.pids_max)),
            b"cpu.weight" => format!("{}\n", settings.cpu_weight),
            b"cpu.max" => format!("{} {}\n", shown(settings.cpu_max), settings.cpu_period),
            b"io.max" => listed_devices(&settings.io_max),
            _ => String::new(),
        }
    }

    fn file_checks(&self, group: u64, file: &[u8]) -> [Test; 5] {
        let there = there(file);
        [
            (group > LAST_GROUP, read::ABOVE_LAST),
            (self.group(group).is_none(), read::NOT_LIVE),
            (matches!(there, There::Nowhere), read::NO_SUCH_FILE),
            (matches!(there, There::BelowTheRoot) && group == ROOT, read::EVENTS_ON_ROOT),
            (matches!(there, There::WhereOn(k) if self.is_off(k, group)), read::NOT_ON),
        ]
    }

    fn buffer_check(text: &str, room: usize) -> Test {
        (text.len() > room, read::SHORT_BUFFER)
    }

    pub(super) fn read_checks(&self, group: u64, file: &[u8], room: usize) -> Vec<Test> {
        let short = Model::buffer_check(&self.text(group, file), room);
        [&self.file_checks(group, file)[..], &[short]].concat()
    }

    pub(super) fn try_read(
        &self,
        group: u64,
        file: &[u8],
        reply: &mut [u8],
        told: &mut [u64; 1],
    ) -> Verdict {
        *told = [0];
        decide(&self.file_checks(group, file))?;
        let text = self.text(group, file);
        decide(&[Model::buffer_check(&text, reply.len())])?;
        deliver(&text, reply, told);
        Ok(())
    }
}

// Membership lines.
impl Model {
    /// "0::" and the path, from the root's child down, and whether a zombie's own group was removed;
    /// empty if the process is free.
    pub(super) fn membership_line(&self, process: u64) -> String {
        let path = match self.process(process) {
            Some(process) => self.chain(process.group),
            None => self.path(process),
        };
        let Some(&own) = path.first() else { return String::new() };
        let end = if self.group(own).is_none() { " (deleted)" } else { "" };
        let below_root = path.into_iter().rev().skip(1);
        let path: String = below_root.map(|group| format!("/{group}")).collect();
        let path = if path.is_empty() { "/" } else { &path };
        format!("0::{path}{end}\n")
    }

    pub(super) fn membership_checks(&self, process: u64, line: &str, room: usize) -> [Test; 3] {
        [
            (is_outside(process), membership::OUTSIDE),
            (self.is_free(process), membership::FREE),
            (line.len() > room, membership::SHORT_BUFFER),
        ]
    }

    pub(super) fn try_membership(
        &self,
        process: u64,
        reply: &mut [u8],
        told: &mut [u64; 1],
    ) -> Verdict {
        *told = [0];
        let line = self.membership_line(process);
        decide(&self.membership_checks(process, &line, reply.len()))?;
        deliver(&line, reply, told);
        Ok(())
    }
}
