//! Lists of calls on which the proved host must agree with the model, every reply and every file
//! after every call. A list that the comparison prints is pasted here and named by the rule that it
//! tests. Each of these shows one of the faults too, the one that breaks its rule: a wrong host that
//! has it does not agree.

#[path = "common/shows.rs"]
mod shows;

use shootspiral_check::Call::*;
use shootspiral_check::compare::FILES;
use shows::shows;

#[test]
fn pages_stay_when_a_process_moves() {
    shows(
        "pages move along with a process",
        1024,
        &[
            Make { user: 0, parent: 0, group: 1 },
            Admit { process: 1, user: 0 },
            Charge { process: 1, pages: 1 },
            WriteProcs { user: 0, group: 1, line: b"1".to_vec() },
            Release { group: 0, pages: 1 },
        ],
    );
}

#[test]
fn a_pids_limit_stops_no_move() {
    shows(
        "a pids limit stops a move",
        1 << 40,
        &[
            Make { user: 0, parent: 0, group: 1 },
            WriteSubtreeControl { user: 0, group: 0, line: b"+pids".to_vec() },
            WriteSetting { user: 0, group: 1, file: b"pids.max".to_vec(), line: b"0".to_vec() },
            Admit { process: 1, user: 0 },
            WriteProcs { user: 0, group: 1, line: b"1".to_vec() },
        ],
    );
}

#[test]
fn a_move_asks_the_common_ancestor() {
    shows(
        "a move asks source and target, not their common ancestor",
        1024,
        &[
            Make { user: 0, parent: 0, group: 1 },
            HandOver { user: 0, group: 1, owner: 1 },
            Make { user: 0, parent: 0, group: 2 },
            HandOver { user: 0, group: 2, owner: 1 },
            Admit { process: 1, user: 1 },
            WriteProcs { user: 0, group: 2, line: b"1".to_vec() },
            WriteProcs { user: 1, group: 1, line: b"1".to_vec() },
        ],
    );
}

#[test]
fn a_controller_that_leaves_resets_its_settings() {
    shows(
        "a controller that leaves does not reset its settings",
        1 << 20,
        &[
            WriteSubtreeControl { user: 0, group: 0, line: b"+memory +pids".to_vec() },
            Make { user: 0, parent: 0, group: 1 },
            WriteSetting { user: 0, group: 1, file: b"memory.max".to_vec(), line: b"0".to_vec() },
            WriteSubtreeControl { user: 0, group: 0, line: b"-memory".to_vec() },
            WriteSubtreeControl { user: 0, group: 0, line: b"+memory".to_vec() },
        ],
    );
}

#[test]
fn a_controller_that_stays_resets_nothing() {
    shows(
        "\"-cpu +cpu\" resets the children's settings",
        16,
        &[
            Make { user: 0, parent: 0, group: 1 },
            WriteSubtreeControl { user: 0, group: 0, line: b"+cpu +memory".to_vec() },
            WriteSetting { user: 0, group: 1, file: b"cpu.max".to_vec(), line: b"3000".to_vec() },
            WriteSubtreeControl { user: 0, group: 0, line: b"-cpu +cpu".to_vec() },
        ],
    );
}

#[test]
fn memory_max_is_rounded_down() {
    shows(
        "memory.max is rounded up to a page",
        1024,
        &[
            Make { user: 0, parent: 0, group: 1 },
            WriteSubtreeControl { user: 0, group: 0, line: b"+memory".to_vec() },
            WriteSetting { user: 0, group: 1, file: b"memory.max".to_vec(), line: b"1".to_vec() },
        ],
    );
}

#[test]
fn the_group_that_refuses_is_consulted() {
    shows(
        "the group that refuses is not counted as consulted",
        1024,
        &[
            Admit { process: 1, user: 0 },
            Charge { process: 1, pages: 1024 },
            Charge { process: 1, pages: 1 },
        ],
    );
}

#[test]
fn pages_of_a_removed_group_pass_to_its_parent() {
    shows(
        "remove drops the group's own pages",
        1 << 20,
        &[
            WriteSubtreeControl { user: 0, group: 0, line: b"+memory +pids".to_vec() },
            Make { user: 0, parent: 0, group: 2 },
            Make { user: 0, parent: 2, group: 1 },
            Admit { process: 1, user: 0 },
            WriteProcs { user: 0, group: 1, line: b"1".to_vec() },
            Charge { process: 1, pages: 1 },
            WriteProcs { user: 0, group: 0, line: b"1".to_vec() },
            Remove { user: 0, group: 1 },
        ],
    );
}

#[test]
fn a_refused_charge_leaves_nothing_behind() {
    shows(
        "a charge refused further up leaves pages behind",
        1024,
        &[
            Make { user: 0, parent: 0, group: 1 },
            Admit { process: 1, user: 0 },
            WriteProcs { user: 0, group: 1, line: b"1".to_vec() },
            Charge { process: 1, pages: 1_048_576 },
            Charge { process: 1, pages: 1 },
        ],
    );
}

#[test]
fn an_owner_sets_no_limit_of_his_own_group() {
    shows(
        "a group's owner may write its own settings",
        1 << 40,
        &[
            WriteSubtreeControl { user: 0, group: 0, line: b"+cpu +memory".to_vec() },
            Make { user: 0, parent: 0, group: 1 },
            HandOver { user: 0, group: 1, owner: 1 },
            WriteSetting { user: 1, group: 1, file: b"memory.max".to_vec(), line: b"".to_vec() },
        ],
    );
}

#[test]
fn numbers_of_any_value_do_not_wrap() {
    let line = b"11748293999761817808913672619104927745".to_vec();
    shows(
        "number words wrap at 64 bits",
        1024,
        &[Admit { process: 1, user: 0 }, WriteProcs { user: 0, group: 0, line }],
    );
}

#[test]
fn a_short_buffer_stays() {
    shows(
        "a buffer that is too short is filled all the same",
        1024,
        &[
            Admit { process: 1, user: 0 },
            Read { group: 0, file: b"cgroup.procs".to_vec(), room: 1 },
            Membership { process: 1, room: 4 },
            Membership { process: 1, room: 5 },
        ],
    );
}

#[test]
fn own_pages_grow_without_a_limit() {
    let charge = Charge { process: 1, pages: 1_048_576 };
    let charges = || vec![charge.clone(); 4];
    let in_the_root = [vec![Admit { process: 1, user: 0 }], charges()].concat();
    let release = |group| vec![Release { group, pages: 1 }];
    let calls = [in_the_root, release(0)].concat();
    shows("the root's own pages are kept in 22 bits", 1 << 40, &calls);
    let in_a_group = vec![
        Make { user: 0, parent: 0, group: 1 },
        Admit { process: 1, user: 0 },
        WriteProcs { user: 0, group: 1, line: b"1".to_vec() },
    ];
    let calls = [in_a_group.clone(), charges(), release(1)].concat();
    let fault = "own pages are kept in 22 bits where memory is on nowhere up the chain";
    shows(fault, 1 << 40, &calls);
    let removed = vec![Exit { process: 1 }, Remove { user: 0, group: 1 }];
    let released = vec![Release { group: 0, pages: 1_048_576 }, Release { group: 0, pages: 1 }];
    let calls = [in_a_group, charges(), removed, released].concat();
    shows("remove passes 2^20 pages on at most", 1 << 40, &calls);
}

#[test]
fn lines_of_any_length_are_too_long() {
    let fault = "a line for cgroup.procs or a setting has its length modulo 2^9";
    let line = format!("1{:512}", "").into_bytes();
    let procs = WriteProcs { user: 0, group: 0, line: line.clone() };
    shows(fault, 64, &[Admit { process: 1, user: 0 }, procs]);
    let setting = WriteSetting { user: 0, group: 1, file: b"pids.max".to_vec(), line };
    let control = WriteSubtreeControl { user: 0, group: 0, line: b"+pids".to_vec() };
    shows(fault, 64, &[control, Make { user: 0, parent: 0, group: 1 }, setting]);
}

#[test]
fn every_word_of_a_line_counts() {
    let line = ["+cpu ".repeat(16), "-cpu".to_string()].concat().into_bytes();
    let control = WriteSubtreeControl { user: 0, group: 0, line };
    shows("a control line heeds its first 16 words only", 64, &[control]);
    let line = format!("{:16384}x", "").into_bytes();
    shows("the question looks at 16,384 bytes only", 64, &[FirstBadWord { line }]);
}

#[test]
fn a_buffer_of_any_length_has_room() {
    let fault = "a reply's room is taken modulo 4,096";
    shows(fault, 64, &[Admit { process: 1, user: 0 }, Membership { process: 1, room: 4096 }]);
    let read = Read { group: 0, file: b"cgroup.procs".to_vec(), room: 8192 };
    shows(fault, 64, &[Admit { process: 1, user: 0 }, read]);
}

#[test]
fn names_of_files_are_whole() {
    let tree = || {
        let line = b"+cpu +io +memory +pids".to_vec();
        let control = WriteSubtreeControl { user: 0, group: 0, line };
        vec![control, Make { user: 0, parent: 0, group: 1 }]
    };
    for name in &FILES[..11] {
        let shown = String::from_utf8_lossy(name);
        let read = |file| [tree(), vec![Read { group: 1, file, room: 64 }]].concat();
        let longer = [name, b"s".as_slice()].concat();
        shows(&format!("a longer name reads {shown}"), 64, &read(longer.clone()));
        let mut other = name.to_vec();
        *other.last_mut().unwrap() -= 1;
        shows("a read ignores the last byte of a file's name", 64, &read(other.clone()));
        if [b"cpu.weight".as_slice(), b"cpu.max", b"io.max", b"memory.max", b"pids.max"]
            .contains(name)
        {
            let set = |file| {
                let line = b"1000".to_vec();
                [tree(), vec![WriteSetting { user: 0, group: 1, file, line }]].concat()
            };
            shows(&format!("a longer name sets {shown}"), 64, &set(longer));
            shows("a setting ignores the last byte of a file's name", 64, &set(other));
        }
    }
}

#[test]
fn a_fork_and_a_move_keep_the_user() {
    let out = |process: &[u8], user| {
        vec![
            Make { user: 0, parent: 0, group: 1 },
            HandOver { user: 0, group: 1, owner: 7 },
            WriteProcs { user: 0, group: 1, line: process.to_vec() },
            WriteProcs { user, group: 1, line: process.to_vec() },
        ]
    };
    let fork = vec![Admit { process: 1, user: 7 }, Fork { parent: 1, process: 2 }];
    shows("fork in the root makes the child user 0's", 64, &[fork, out(b"2", 7)].concat());
    let into_the_root = WriteProcs { user: 0, group: 0, line: b"1".to_vec() };
    let moved = vec![Admit { process: 1, user: 7 }, into_the_root];
    shows("a move to the root makes the process user 0's", 64, &[moved, out(b"1", 7)].concat());
}

#[test]
fn all_that_is_at_depth_16_counts() {
    let tree = |control: &str| {
        let line = control.as_bytes().to_vec();
        let mut calls = vec![WriteSubtreeControl { user: 0, group: 0, line }];
        calls.extend((0..16).map(|parent| Make { user: 0, parent, group: parent + 1 }));
        calls.push(Admit { process: 1, user: 0 });
        calls.push(WriteProcs { user: 0, group: 16, line: b"1".to_vec() });
        calls
    };
    let limit = |file: &[u8], line: &[u8]| {
        vec![WriteSetting { user: 0, group: 1, file: file.to_vec(), line: line.to_vec() }]
    };
    let charges = || vec![Charge { process: 1, pages: 1 }; 2];
    let calls = [tree("+memory"), limit(b"memory.max", b"4096"), charges()].concat();
    shows("memory.max further up ignores pages at depth 16", 64, &calls);
    shows("the machine size ignores pages at depth 16", 1, &[tree("+memory"), charges()].concat());
    let forks = vec![Fork { parent: 1, process: 2 }];
    let calls = [tree("+pids"), limit(b"pids.max", b"1"), forks].concat();
    shows("pids.max further up ignores processes at depth 16", 64, &calls);
}
