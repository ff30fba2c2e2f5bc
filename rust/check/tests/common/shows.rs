//! Lists of calls that show a fault.

use shootspiral_check::compare::first_difference;
use shootspiral_check::fault::{Fault, Faulty};
use shootspiral_check::{Call, Linked, agree};

/// The proved host agrees on the list, and a host with this fault does not.
pub fn shows(fault: &str, machine: u64, calls: &[Call]) {
    agree::<Linked>(machine, calls);
    let found = Fault::named(fault).unwrap_or_else(|| panic!("no fault: {fault}"));
    let shown = first_difference(machine, calls, Faulty::new(machine, found));
    assert!(shown.is_some(), "not shown: {fault}");
}
