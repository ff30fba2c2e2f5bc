//! Faults of a host that shows a reader something else.

use super::Reading;
use crate::call::Call;
use crate::compare::ROOM;
use crate::model::DEEPEST;

impl Reading<'_> {
    /// The text that was put into the buffer.
    pub(super) fn text(&self) -> Option<&str> {
        if self.number != 0 {
            return None;
        }
        std::str::from_utf8(&self.reply[..self.told[0] as usize]).ok()
    }

    /// Puts a text that is no longer than the right one in its place.
    pub(super) fn show(&mut self, text: &str) {
        self.reply[..text.len()].copy_from_slice(text.as_bytes());
        self.told[0] = text.len() as u64;
    }

    /// The group, if this is the file that is read.
    pub(super) fn group_of(&self, name: &[u8]) -> Option<u64> {
        match self.call {
            Call::Read { group, file, .. } if file == name => Some(*group),
            _ => None,
        }
    }
}

pub(super) fn byte_after_text(reading: &mut Reading) -> u32 {
    let after = reading.told[0] as usize;
    if reading.number == 0 && after < reading.reply.len() {
        reading.reply[after] = 0;
    }
    reading.number
}

pub(super) fn short_buffer_written(reading: &mut Reading) -> u32 {
    if reading.number == 28 {
        let mut whole = [0; ROOM];
        reading.call.ask(reading.model, &mut [0; 2], &mut whole);
        reading.reply.copy_from_slice(&whole[..reading.reply.len()]);
    }
    reading.number
}

pub(super) fn exact_is_short(reading: &mut Reading) -> u32 {
    let room = reading.reply.len() as u64;
    if reading.number == 0 && reading.told[0] == room && room > 0 { 28 } else { reading.number }
}

pub(super) fn only_own_processes(reading: &mut Reading) -> u32 {
    if let Some(group) = reading.group_of(b"cgroup.events")
        && reading.number == 0
        && reading.model.holds(group).next().is_none()
    {
        reading.show("populated 0\n");
    }
    reading.number
}

fn usage_modulo(reading: &mut Reading, bytes: u64) -> u32 {
    if reading.group_of(b"memory.current").is_some()
        && let Some(usage) = reading.text().and_then(|text| text.trim_end().parse::<u64>().ok())
    {
        reading.show(&format!("{}\n", usage % bytes));
    }
    reading.number
}

pub(super) fn usage_in_36_bits(reading: &mut Reading) -> u32 {
    usage_modulo(reading, 1 << 36)
}

pub(super) fn usage_in_44_bits(reading: &mut Reading) -> u32 {
    usage_modulo(reading, 1 << 44)
}

pub(super) fn deepest_cut_short(reading: &mut Reading) -> u32 {
    if let Call::Membership { .. } = reading.call
        && let Some(text) = reading.text()
        && text.matches('/').count() == DEEPEST
        && let Some((above, _)) = text.rsplit_once('/')
    {
        let shorter = format!("{above}\n");
        reading.show(&shorter);
    }
    reading.number
}
