//! Hosts that stand around another and are handed each call as a value.

use crate::call::Call;
use crate::calls::Calls;

/// The methods of [`Calls`] follow from these. Such a host has no memory of its own to show, so
/// nothing is found of what a refusal changed in that of the host inside but by asking.
pub trait Around: Clone {
    fn fresh(machine_pages: u64) -> Self;

    /// Makes a call that can change the tree.
    fn make_call(&mut self, call: Call, told: &mut [u64; 2]) -> u32;

    /// Asks a question.
    fn ask(&self, call: Call, told: &mut [u64; 2], reply: &mut [u8]) -> u32;
}

/// Makes a call that tells nothing.
fn number<A: Around>(host: &mut A, call: Call) -> u32 {
    host.make_call(call, &mut [0; 2])
}

/// Asks a question that tells one word.
fn show<A: Around>(host: &A, call: Call, told: &mut [u64; 1], reply: &mut [u8]) -> u32 {
    let mut words = [told[0], 0];
    let number = host.ask(call, &mut words, reply);
    *told = [words[0]];
    number
}

impl<A: Around> Calls for A {
    fn fresh(machine_pages: u64) -> A {
        Around::fresh(machine_pages)
    }

    fn make(&mut self, user: u32, parent: u64, group: u64) -> u32 {
        number(self, Call::Make { user, parent, group })
    }

    fn remove(&mut self, user: u32, group: u64) -> u32 {
        number(self, Call::Remove { user, group })
    }

    fn hand_over(&mut self, user: u32, group: u64, owner: u32) -> u32 {
        number(self, Call::HandOver { user, group, owner })
    }

    fn write_procs(&mut self, user: u32, group: u64, line: &[u8]) -> u32 {
        number(self, Call::WriteProcs { user, group, line: line.to_vec() })
    }

    fn write_subtree_control(&mut self, user: u32, group: u64, line: &[u8]) -> u32 {
        number(self, Call::WriteSubtreeControl { user, group, line: line.to_vec() })
    }

    fn write_setting(&mut self, user: u32, group: u64, file: &[u8], line: &[u8]) -> u32 {
        let (file, line) = (file.to_vec(), line.to_vec());
        number(self, Call::WriteSetting { user, group, file, line })
    }

    fn admit(&mut self, process: u64, user: u32) -> u32 {
        number(self, Call::Admit { process, user })
    }

    fn fork(&mut self, parent: u64, process: u64, told: &mut [u64; 2]) -> u32 {
        self.make_call(Call::Fork { parent, process }, told)
    }

    fn exit(&mut self, process: u64) -> u32 {
        number(self, Call::Exit { process })
    }

    fn collect(&mut self, process: u64) -> u32 {
        number(self, Call::Collect { process })
    }

    fn charge(&mut self, process: u64, pages: u64, told: &mut [u64; 2]) -> u32 {
        self.make_call(Call::Charge { process, pages }, told)
    }

    fn release(&mut self, group: u64, pages: u64) -> u32 {
        number(self, Call::Release { group, pages })
    }

    fn read(&self, group: u64, file: &[u8], reply: &mut [u8], told: &mut [u64; 1]) -> u32 {
        show(self, Call::Read { group, file: file.to_vec(), room: reply.len() }, told, reply)
    }

    fn membership(&self, process: u64, reply: &mut [u8], told: &mut [u64; 1]) -> u32 {
        show(self, Call::Membership { process, room: reply.len() }, told, reply)
    }

    fn first_bad_word(&self, line: &[u8], told: &mut [u64; 2]) {
        self.ask(Call::FirstBadWord { line: line.to_vec() }, told, &mut []);
    }
}
