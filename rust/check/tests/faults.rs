//! What `scripts/compare` does not look at: that a wrong host without a fault is a right one, how
//! short a list is that shows a fault, and that the model's checks are those of the table. That
//! every fault is found and every row reached is the script's to say.

use shootspiral_check::explore::{Counts, explore, search};
use shootspiral_check::fault::{Fault, Faulty};
use shootspiral_check::model::Model;
use shootspiral_check::{Call, Calls, checks};

const SEEDS: std::ops::Range<u64> = 1..101;
const CALLS: usize = 300;

/// So that what is found is the fault, and not the host around it.
#[test]
fn without_a_fault_nothing_is_found() {
    for seed in 101..111 {
        let found = explore(seed, CALLS, Faulty::fresh, &mut Counts::new());
        assert!(found.is_none(), "seed {seed}");
    }
}

/// Of each kind of fault one that a handful of calls shows.
const SHORTLY_SHOWN: [(&str, usize); 11] = [
    ("a number with leading zeros is malformed", 3),
    ("a charge refused further up leaves pages behind", 8),
    ("a move asks source and target, not their common ancestor", 8),
    ("a buffer that is too short is filled all the same", 4),
    ("a setting asks for the user before its controller", 2),
    ("fork in the root makes the child user 0's", 7),
    ("a key of io.max that is not given goes back to \"max\"", 4),
    ("a fifth device is taken", 7),
    ("pids.max counts zombies", 10),
    ("a zombie's path is cut at the removed group", 5),
    ("a removed number is made again though a zombie's path comes from below", 8),
];

#[test]
fn short_lists_are_found() {
    for (text, most) in SHORTLY_SHOWN {
        let fault = Fault::named(text).unwrap_or_else(|| panic!("no fault: {text}"));
        let wrong = |machine| Faulty::new(machine, fault);
        let found = search(SEEDS, CALLS, wrong, &mut Counts::new());
        let shortest = found.unwrap_or_else(|| panic!("not found: {fault}")).shortest(wrong);
        assert!(shortest.calls.len() <= most, "{fault}: {}", shortest.as_test());
    }
}

/// The model makes the checks of each call in the order of the table.
#[test]
fn the_checks_are_those_of_the_table() {
    let (file, line, room) = (vec![], vec![], 0);
    let calls = [
        Call::Make { user: 0, parent: 0, group: 0 },
        Call::Remove { user: 0, group: 0 },
        Call::HandOver { user: 0, group: 0, owner: 0 },
        Call::WriteProcs { user: 0, group: 0, line: line.clone() },
        Call::WriteSubtreeControl { user: 0, group: 0, line: line.clone() },
        Call::WriteSetting { user: 0, group: 0, file: file.clone(), line },
        Call::Admit { process: 0, user: 0 },
        Call::Fork { parent: 0, process: 0 },
        Call::Exit { process: 0 },
        Call::Collect { process: 0 },
        Call::Charge { process: 0, pages: 0 },
        Call::Release { group: 0, pages: 0 },
        Call::Read { group: 0, file, room },
        Call::Membership { process: 0, room },
    ];
    let model = Model::fresh(0);
    assert_eq!(calls.len(), checks::TABLE.len());
    for (call, (name, rows)) in calls.iter().zip(checks::TABLE) {
        let checks: Vec<_> = model.checks(call).into_iter().map(|(_, check)| check).collect();
        assert_eq!((call.name(), &checks[..]), (*name, *rows));
    }
}
