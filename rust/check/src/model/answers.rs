//! The calls as every host has them, and the checks of any call.

use super::lines::first_bad_word;
use super::*;
use crate::call::Call;
use crate::calls::Calls;

fn number_of(verdict: Verdict) -> u32 {
    verdict.map_or_else(Check::number, |()| 0)
}

impl Model {
    /// The checks of a call, in order, each with whether it holds.
    pub fn checks(&self, call: &Call) -> Vec<Test> {
        match call {
            Call::Make { user, parent, group } => self.make_checks(*user, *parent, *group).into(),
            Call::Remove { user, group } => self.remove_checks(*user, *group).into(),
            Call::HandOver { user, group, .. } => self.hand_over_checks(*user, *group).into(),
            Call::WriteProcs { user, group, line } => {
                self.write_procs_checks(*user, *group, line).into()
            }
            Call::WriteSubtreeControl { user, group, line } => {
                self.write_subtree_control_checks(*user, *group, line).into()
            }
            Call::WriteSetting { user, group, file, line } => {
                self.write_setting_checks(*user, *group, file, line).into()
            }
            Call::Admit { process, .. } => self.admit_checks(*process).into(),
            Call::Fork { parent, process } => {
                self.fork_checks(*parent, *process, &self.room_for_fork(*parent)).into()
            }
            Call::Exit { process } => self.exit_checks(*process).into(),
            Call::Collect { process } => self.collect_checks(*process).into(),
            Call::Charge { process, pages } => {
                let asked = self.room_for_charge(*process, *pages);
                self.charge_checks(*process, *pages, &asked).into()
            }
            Call::Release { group, pages } => self.release_checks(*group, *pages).into(),
            Call::Read { group, file, room } => self.read_checks(*group, file, *room),
            Call::Membership { process, room } => {
                let line = self.membership_line(*process);
                self.membership_checks(*process, &line, *room).into()
            }
            Call::FirstBadWord { .. } => vec![],
        }
    }

    /// The checks of a call that hold; the first refuses it.
    pub fn held(&self, call: &Call) -> Vec<&'static Check> {
        let holding = self.checks(call).into_iter().filter(|(holds, _)| *holds);
        holding.map(|(_, check)| check).collect()
    }
}

impl Calls for Model {
    fn fresh(machine_pages: u64) -> Model {
        Model::new(machine_pages)
    }

    fn make(&mut self, user: u32, parent: u64, group: u64) -> u32 {
        number_of(self.try_make(user, parent, group))
    }

    fn remove(&mut self, user: u32, group: u64) -> u32 {
        number_of(self.try_remove(user, group))
    }

    fn hand_over(&mut self, user: u32, group: u64, owner: u32) -> u32 {
        number_of(self.try_hand_over(user, group, owner))
    }

    fn write_procs(&mut self, user: u32, group: u64, line: &[u8]) -> u32 {
        number_of(self.try_write_procs(user, group, line))
    }

    fn write_subtree_control(&mut self, user: u32, group: u64, line: &[u8]) -> u32 {
        number_of(self.try_write_subtree_control(user, group, line))
    }

    fn write_setting(&mut self, user: u32, group: u64, file: &[u8], line: &[u8]) -> u32 {
        number_of(self.try_write_setting(user, group, file, line))
    }

    fn admit(&mut self, process: u64, user: u32) -> u32 {
        number_of(self.try_admit(process, user))
    }

    fn fork(&mut self, parent: u64, process: u64, told: &mut [u64; 2]) -> u32 {
        number_of(self.try_fork(parent, process, told))
    }

    fn exit(&mut self, process: u64) -> u32 {
        number_of(self.try_exit(process))
    }

    fn collect(&mut self, process: u64) -> u32 {
        number_of(self.try_collect(process))
    }

    fn charge(&mut self, process: u64, pages: u64, told: &mut [u64; 2]) -> u32 {
        number_of(self.try_charge(process, pages, told))
    }

    fn release(&mut self, group: u64, pages: u64) -> u32 {
        number_of(self.try_release(group, pages))
    }

    fn read(&self, group: u64, file: &[u8], reply: &mut [u8], told: &mut [u64; 1]) -> u32 {
        number_of(self.try_read(group, file, reply, told))
    }

    fn membership(&self, process: u64, reply: &mut [u8], told: &mut [u64; 1]) -> u32 {
        number_of(self.try_membership(process, reply, told))
    }

    fn first_bad_word(&self, line: &[u8], told: &mut [u64; 2]) {
        *told = first_bad_word(line);
    }
}
