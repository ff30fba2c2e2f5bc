//! Lists of calls on which the proved host must agree with the model, and each of which shows a fault
//! in a size: numbers in too few bits, or what document 01 had before order 4 left in one place.

#[path = "common/shows.rs"]
mod shows;

use shootspiral_check::Call::{self, *};
use shows::shows;

fn make(parent: u64, group: u64) -> Call {
    Make { user: 0, parent, group }
}

fn admit(process: u64) -> Call {
    Admit { process, user: 0 }
}

fn fork(parent: u64, process: u64) -> Call {
    Fork { parent, process }
}

fn enter(group: u64, process: u64) -> Call {
    WriteProcs { user: 0, group, line: process.to_string().into() }
}

fn control(group: u64, line: &str) -> Call {
    WriteSubtreeControl { user: 0, group, line: line.into() }
}

fn set(group: u64, file: &str, line: &str) -> Call {
    WriteSetting { user: 0, group, file: file.into(), line: line.into() }
}

fn read(group: u64, file: &str, room: usize) -> Call {
    Read { group, file: file.into(), room }
}

/// The list, on a machine of 64 pages.
fn all_show(rows: &[(&str, &[Call])]) {
    for (fault, calls) in rows {
        shows(fault, 64, calls);
    }
}

/// So many groups, one below the other from the root on, memory and pids on in all of them; in the
/// lowest process 1.
fn chain(groups: &[u64]) -> Vec<Call> {
    let mut calls = vec![];
    let mut above = 0;
    for &group in groups {
        calls.extend([control(above, "+memory +pids"), make(above, group)]);
        above = group;
    }
    calls.extend([admit(1), enter(above, 1)]);
    calls
}

/// Groups 1 to 16.
fn deep(then: &[Call]) -> Vec<Call> {
    let groups: Vec<u64> = (1..=16).collect();
    [chain(&groups), then.to_vec()].concat()
}

/// Processes 1 to this one in group 1, where pids is on.
fn crowd(last: u64, then: &[Call]) -> Vec<Call> {
    let mut calls = chain(&[1]);
    calls.extend((2..=last).map(|process| fork(1, process)));
    [calls, then.to_vec()].concat()
}

#[test]
fn numbers_have_all_their_bits() {
    all_show(&[
        ("groups are numbered in 8 bits", &[make(0, 256)]),
        ("groups are numbered in 8 bits", &[make(0, 1), make(257, 2)]),
        ("processes are numbered in 8 bits", &[admit(256)]),
        ("processes are numbered in 8 bits", &[admit(1), admit(257)]),
        ("processes are numbered in 10 bits", &[admit(1024)]),
        ("processes are numbered in 10 bits", &[admit(1), admit(1025)]),
        ("processes are numbered in 10 bits", &[admit(1), fork(1, 1024)]),
        ("a line of cgroup.procs is read in 10 bits", &[admit(1), enter(0, 1025)]),
        ("a line of cgroup.procs is read in 10 bits", &[admit(1024), enter(0, 1024)]),
    ]);
}

#[test]
fn groups_go_to_255() {
    let made = |then: Call| [make(0, 64), then];
    all_show(&[
        ("make ends at parent 63", &made(make(64, 1))),
        ("make ends at group 63", &[make(0, 64)]),
        ("remove ends at group 63", &made(Remove { user: 0, group: 64 })),
        ("hand over ends at group 63", &made(HandOver { user: 0, group: 64, owner: 7 })),
        ("a move ends at group 63", &[make(0, 64), admit(1), enter(64, 1)]),
        ("a control line ends at group 63", &made(control(64, ""))),
        (
            "a setting ends at group 63",
            &[control(0, "+pids"), make(0, 64), set(64, "pids.max", "1")],
        ),
        ("release ends at group 63", &made(Release { group: 64, pages: 1 })),
        ("a read ends at group 63", &[make(0, 64)]),
    ]);
}

#[test]
fn processes_go_to_1024() {
    let admitted = |then: Call| [admit(257), then];
    all_show(&[
        ("admit ends at process 256", &[admit(257)]),
        ("fork ends at parent 256", &admitted(fork(257, 1))),
        ("fork ends at process 256", &[admit(1), fork(1, 257)]),
        ("exit ends at process 256", &admitted(Exit { process: 257 })),
        (
            "collect ends at process 256",
            &[admit(257), Exit { process: 257 }, Collect { process: 257 }],
        ),
        ("charge ends at process 256", &admitted(Charge { process: 257, pages: 1 })),
        ("a move ends at process 256", &admitted(enter(0, 257))),
        ("a membership line ends at process 256", &admitted(Membership { process: 257, room: 5 })),
        ("cgroup.procs shows processes up to 256", &[admit(257)]),
        ("cgroup.procs shows processes up to 1023", &[admit(1024)]),
        ("cgroup.procs shows three digits of a number", &[admit(1000)]),
        ("cgroup.events sees processes up to 256", &[make(0, 1), admit(257), enter(1, 257)]),
    ]);
}

#[test]
fn depth_goes_to_16() {
    let chained: Vec<Call> = (0..9).map(|group| make(group, group + 1)).collect();
    shows("nothing is made under depth 8", 64, &chained);
    shows("a group is made under depth 16", 64, &deep(&[make(16, 17)]));
    shows("the membership line of depth 16 loses its last number", 64, &deep(&[]));
}

#[test]
fn seventeen_are_asked() {
    let (page, child) = (Charge { process: 1, pages: 1 }, fork(1, 2));
    let limited = |group, file, then: &Call| deep(&[set(group, file, "0"), then.clone()]);
    let full = |group, file, figure, then: &Call| {
        deep(&[set(group, file, figure), then.clone(), then.clone()])
    };
    for group in [1, 7] {
        let calls = limited(group, "memory.max", &page);
        shows("no more than nine groups are counted as consulted", 64, &calls);
        let calls = full(group, "memory.max", "4096", &page);
        shows("a charge asks the nine lowest groups only", 64, &calls);
        shows("memory.max ignores pages more than eight levels below", 64, &calls);
        shows("memory.max further up ignores pages at depth 16", 64, &calls);
        let calls = full(group, "pids.max", "1", &child);
        shows("a fork asks the nine lowest groups only", 64, &calls);
        shows("pids.max ignores processes more than eight levels below", 64, &calls);
        shows("pids.max further up ignores processes at depth 16", 64, &calls);
    }
    let charged = deep(std::slice::from_ref(&page));
    shows("memory.current ignores pages more than eight levels below", 64, &charged);
    shows("the machine size ignores pages at depth 16", 1, &deep(&[page.clone(), page]));
    shows("pids.current ignores processes more than eight levels below", 64, &deep(&[]));
    shows("cgroup.events ignores processes more than eight levels below", 64, &deep(&[]));
}

/// User 7's process goes from depth 16 to beside group 2, which is user 7's, as the target is.
#[test]
fn chains_meet_anywhere() {
    let owned = |group| HandOver { user: 0, group, owner: 7 };
    let calls = [
        Admit { process: 5, user: 7 },
        enter(16, 5),
        make(2, 20),
        owned(2),
        owned(20),
        WriteProcs { user: 7, group: 20, line: b"5".to_vec() },
    ];
    shows("the common ancestor is sought in the nine lowest groups only", 64, &deep(&calls));
}

#[test]
fn every_group_and_every_process_is_seen() {
    let cpu = |group| {
        let on = [control(0, "+cpu"), make(0, group), set(group, "cpu.weight", "7")];
        [&on[..], &[control(0, "-cpu"), control(0, "+cpu")]].concat()
    };
    shows("a controller that leaves resets children up to 63", 64, &cpu(64));
    shows("a controller that leaves does not reset group 255", 64, &cpu(255));
    let mut family = vec![control(0, "+cpu")];
    family.extend((1..=18).map(|group| make(0, group)));
    family.extend((1..=18).map(|group| set(group, "cpu.weight", "7")));
    family.extend([control(0, "-cpu"), control(0, "+cpu")]);
    shows("a controller that leaves resets the first seventeen children only", 64, &family);
    let child = [make(0, 1), make(1, 64)];
    let remove = Remove { user: 0, group: 1 };
    shows(
        "remove sees children up to 63",
        64,
        &[&child[..], std::slice::from_ref(&remove)].concat(),
    );
    let holding = [make(0, 1), admit(257), enter(1, 257)];
    shows("remove sees processes up to 256", 64, &[&holding[..], &[remove]].concat());
    let sets = [control(0, "+cpu"), make(0, 64), control(64, "+cpu"), control(0, "-cpu")];
    shows("a control line sees children up to 63", 64, &sets);
    let joins = [control(0, "+cpu"), control(1, "+cpu")];
    shows("a control line sees processes up to 256", 64, &[&holding[..], &joins].concat());
}

#[test]
fn counts_and_texts_go_to_their_ends() {
    let limit = |most: &str, next| [set(1, "pids.max", most), fork(1, next)];
    shows("fork counts processes in 8 bits", 64, &crowd(255, &limit("255", 256)));
    shows("fork counts processes in 10 bits", 64, &crowd(1023, &limit("1023", 1024)));
    shows("pids.current is shown in 8 bits", 64, &crowd(256, &[]));
    shows("pids.current is shown in 10 bits", 64, &crowd(1024, &[]));
    shows("a text of more than 916 bytes is refused", 64, &crowd(257, &[]));
    let listing = read(1, "cgroup.procs", 4013);
    shows("a text of 4,013 bytes is refused", 64, &crowd(1024, &[listing]));
}

#[test]
fn paths_go_to_their_ends() {
    let line =
        |groups: &[u64], room| [chain(groups), vec![Membership { process: 1, room }]].concat();
    let (low, high): (Vec<u64>, Vec<u64>) = ((1..=9).collect(), (240..=255).collect());
    shows("a membership line shows two digits of a number", 64, &line(&[100], 64));
    shows("a membership line shows the eight lowest groups", 64, &line(&low, 64));
    shows("a membership line shows the eight highest groups", 64, &line(&low, 64));
    shows("a membership line ends after 28 bytes", 64, &line(&high, 68));
    shows("a membership line of 68 bytes is refused", 64, &line(&high, 68));
    shows("a buffer that is too short is filled all the same", 64, &line(&high, 67));
}
