//! Wrong hosts, to show that the comparison finds them: the paper's program with one thing done
//! otherwise around it. The slips that document 01 warns of are among them, and others of the kind
//! that a host could have.

use std::collections::BTreeMap;
use std::fmt;

use crate::around::Around;
use crate::call::Call;
use crate::calls::Calls;
use crate::checks::Check;
use crate::model::{Model, Settings};

mod devices;
mod instead;
mod outcomes;
mod readers;
mod sizes;
mod table;
mod zombies;

/// What a wrong host does otherwise.
#[derive(Clone, Copy)]
enum Slip {
    /// It takes the call for another.
    Instead(fn(&Model, &mut Call)),
    /// It does more than the call asks, or less, or answers otherwise.
    Outcome(fn(&mut Outcome)),
    /// It shows a reader something else. Answers the number that the reader gets.
    Reader(fn(&mut Reading) -> u32),
    /// Of a call that can change the tree it makes the second check before the first.
    Swapped(&'static Check, &'static Check),
}

#[derive(Clone, Copy)]
pub struct Fault {
    text: &'static str,
    slip: Slip,
}

impl Fault {
    /// Every fault; `--fault N` takes them from 1.
    pub const ALL: &[Fault] = table::FAULTS;

    /// The fault with this text.
    pub fn named(text: &str) -> Option<Fault> {
        Fault::ALL.iter().find(|fault| fault.text == text).copied()
    }
}

impl fmt::Display for Fault {
    fn fmt(&self, f: &mut fmt::Formatter<'_>) -> fmt::Result {
        f.write_str(self.text)
    }
}

/// A call that the model has answered.
struct Outcome<'a> {
    before: &'a Model,
    call: &'a Call,
    after: &'a mut Model,
    number: &'a mut u32,
    told: &'a mut [u64; 2],
    /// The settings of groups that were removed, for a host that does not forget them, or forgets
    /// too late that there were any.
    removed: &'a mut BTreeMap<u64, Settings>,
}

impl Outcome<'_> {
    fn is_success(&self) -> bool {
        *self.number == 0
    }

    /// The check that refused the call.
    fn refused_by(&self) -> Option<&'static Check> {
        self.before.held(self.call).first().copied()
    }

    /// Refuses the call after all.
    fn refuse(&mut self, number: u32) {
        *self.after = self.before.clone();
        *self.number = number;
    }
}

/// A reader's question that the model has answered.
struct Reading<'a> {
    model: &'a Model,
    /// A read or a membership line.
    call: &'a Call,
    number: u32,
    reply: &'a mut [u8],
    told: &'a mut [u64; 2],
}

/// A wrong host. It has no words to show: what a refusal of it leaves behind must be found by
/// reading and asking.
#[derive(Clone)]
pub struct Faulty {
    model: Model,
    slip: Slip,
    removed: BTreeMap<u64, Settings>,
}

impl Faulty {
    pub fn new(machine: u64, fault: Fault) -> Faulty {
        Faulty { model: Model::fresh(machine), slip: fault.slip, removed: BTreeMap::new() }
    }
}

impl Around for Faulty {
    /// A host that takes no call for another yet.
    fn fresh(machine_pages: u64) -> Faulty {
        Faulty::new(machine_pages, Fault { text: "none", slip: Slip::Instead(|_, _| {}) })
    }

    fn make_call(&mut self, mut call: Call, told: &mut [u64; 2]) -> u32 {
        match self.slip {
            Slip::Instead(change) => {
                change(&self.model, &mut call);
                call.lend(&mut self.model, told, &mut [])
            }
            Slip::Outcome(change) => {
                let before = self.model.clone();
                let mut number = call.lend(&mut self.model, told, &mut []);
                change(&mut Outcome {
                    before: &before,
                    call: &call,
                    after: &mut self.model,
                    number: &mut number,
                    told,
                    removed: &mut self.removed,
                });
                number
            }
            Slip::Swapped(first, second) => {
                let held = self.model.held(&call);
                let number = call.lend(&mut self.model, told, &mut []);
                let is_swapped = held.first() == Some(&first) && held.contains(&second);
                if is_swapped { second.number() } else { number }
            }
            Slip::Reader(_) => call.lend(&mut self.model, told, &mut []),
        }
    }

    fn ask(&self, mut call: Call, told: &mut [u64; 2], reply: &mut [u8]) -> u32 {
        match self.slip {
            Slip::Instead(change) => {
                change(&self.model, &mut call);
                let room = match call {
                    Call::Read { room, .. } | Call::Membership { room, .. } => room,
                    _ => 0,
                };
                call.ask(&self.model, told, &mut reply[..room])
            }
            Slip::Reader(change) => {
                let number = call.ask(&self.model, told, reply);
                change(&mut Reading { model: &self.model, call: &call, number, reply, told })
            }
            Slip::Outcome(_) | Slip::Swapped(..) => call.ask(&self.model, told, reply),
        }
    }
}
