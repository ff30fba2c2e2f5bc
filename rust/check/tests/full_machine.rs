//! The largest machine, filled to the last page: figures that a list of a few hundred calls does
//! not come to. The answers are the paper's, the figures arithmetic. Up to 2^32 pages the heap of the
//! comparison goes along with the model.

#[macro_use]
mod common;

use common::rows::{admit, collect, control, exit, make, procs, release, remove, setting};
use common::{read, shown};
use shootspiral_check::calls::NO_GROUP;
use shootspiral_check::{Call, Calls, Linked};

const MACHINE: u64 = 1 << 40;
const MOST: u64 = 1 << 20;

both! {
    brim
}

/// Groups 1 to 16, each under the one before, memory on in all of them, and process 5 in 16.
fn ladder() -> Vec<Call> {
    let mut calls = vec![];
    for group in 1..=16 {
        calls.push(control(0, group - 1, "+memory"));
        calls.push(make(0, group - 1, group));
    }
    calls.extend([admit(5, 7), procs(0, 16, "5")]);
    calls
}

#[track_caller]
fn succeed<H: Calls>(host: &mut H, calls: impl IntoIterator<Item = Call>) {
    for call in calls {
        assert_eq!(call.on(host, 0).number, 0, "{call}");
    }
}

/// The number of a charge by process 5, and what it tells.
fn charged<H: Calls>(host: &mut H, pages: u64) -> (u32, u64, u64) {
    common::charge(host, 5, pages)
}

#[track_caller]
fn uses<H: Calls>(host: &H, groups: impl IntoIterator<Item = u64>, pages: u64) {
    for group in groups {
        assert_eq!(shown(host, group, "memory.current"), format!("{}\n", pages * 4096), "{group}");
    }
}

/// 1,048,576 charges of 1,048,576 pages, and as many releases; between them limits at the whole
/// machine and a page below, and the pages passed up from group 16 to the root.
#[test]
fn every_page() {
    let mut host = Linked::fresh(MACHINE);
    succeed(&mut host, ladder());
    for charges in 1..=MACHINE / MOST {
        assert_eq!(charged(&mut host, MOST), (0, NO_GROUP, 17), "{charges}");
        if charges.is_power_of_two() || charges % 99_991 == 0 {
            uses(&host, 1..=16, charges * MOST);
        }
    }
    assert_eq!(shown(&host, 16, "memory.current"), "4503599627370496\n");
    for pages in [1, MOST] {
        assert_eq!(charged(&mut host, pages), (12, 0, 17));
    }

    assert_eq!(setting(0, 4, "memory.max", "4503599627370496").on(&mut host, 0).number, 0);
    assert_eq!(charged(&mut host, 1), (12, 4, 13));
    succeed(&mut host, [setting(0, 16, "memory.max", "4503599627366400")]);
    assert_eq!(charged(&mut host, 1), (12, 16, 1));
    succeed(&mut host, [release(16, 1)]);
    assert_eq!(charged(&mut host, 1), (12, 16, 1));
    succeed(&mut host, [release(16, MOST - 1)]);
    uses(&host, 1..=16, MACHINE - MOST);
    assert_eq!(charged(&mut host, MOST), (12, 16, 1));
    assert_eq!(charged(&mut host, MOST - 1), (0, NO_GROUP, 17));
    succeed(&mut host, [setting(0, 16, "memory.max", "max")]);
    assert_eq!(charged(&mut host, 2), (12, 4, 13));
    assert_eq!(charged(&mut host, 1), (0, NO_GROUP, 17));
    uses(&host, 1..=16, MACHINE);

    succeed(&mut host, [exit(5)]);
    for group in (1..=16).rev() {
        succeed(&mut host, [remove(0, group)]);
        uses(&host, 1..group, MACHINE);
    }
    succeed(&mut host, [collect(5), admit(5, 7)]);
    assert_eq!(charged(&mut host, 1), (12, 0, 1));
    for _ in 0..MACHINE / MOST {
        succeed(&mut host, [release(0, MOST)]);
    }
    assert_eq!(release(0, 1).on(&mut host, 0).number, 34);
    assert_eq!(charged(&mut host, 1), (0, NO_GROUP, 1));
}

/// A machine of 2^24 and some pages, every page of it at the bottom.
fn brim<H: Calls>() {
    let machine = 16 * MOST + 77;
    let mut host = H::fresh(machine);
    succeed(&mut host, ladder());
    for charges in 1..=16 {
        assert_eq!(charged(&mut host, MOST), (0, NO_GROUP, 17));
        uses(&host, 1..=16, charges * MOST);
    }
    assert_eq!(charged(&mut host, 78), (12, 0, 17));
    assert_eq!(charged(&mut host, 77), (0, NO_GROUP, 17));
    assert_eq!(charged(&mut host, 1), (12, 0, 17));
    uses(&host, 1..=16, machine);
    assert_eq!(read(&host, 0, "memory.current"), Err(2));
}
