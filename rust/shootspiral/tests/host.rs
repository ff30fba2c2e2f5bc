//! The safe crate over the library: that what it declares is what the library has, and that numbers
//! and replies come through as they are.

use shootspiral::number::{
    LAST_GROUP, LAST_PROCESS, LONGEST_IO_MAX, LONGEST_MEMBERSHIP, LONGEST_REPLY, MAX_DEPTH,
    MAX_DEVICES, TREE_WORDS,
};
use shootspiral::{Denial, GroupId, Host, ProcessId, Refusal, User, file, first_bad_word, sys};

#[test]
fn a_tree_has_the_words_that_the_header_says() {
    assert_eq!(sys::ss_tree_words(), TREE_WORDS as u64);
}

#[test]
fn the_header_says_the_same() {
    let header = include_str!("../../../include/shootspiral.h");
    let constants = [
        ("SS_TREE_WORDS", TREE_WORDS as u64),
        ("SS_LAST_GROUP", LAST_GROUP.0),
        ("SS_LAST_PROCESS", LAST_PROCESS.0),
        ("SS_MAX_DEPTH", MAX_DEPTH),
        ("SS_PAGE_BYTES", shootspiral::number::PAGE_BYTES),
        ("SS_MAX_PAGES", shootspiral::number::MAX_PAGES),
        ("SS_MAX_MACHINE_PAGES", shootspiral::number::MAX_MACHINE_PAGES),
        ("SS_MAX_LINE", shootspiral::number::MAX_LINE as u64),
        ("SS_LONGEST_REPLY", LONGEST_REPLY as u64),
        ("SS_LONGEST_MEMBERSHIP", LONGEST_MEMBERSHIP as u64),
        ("SS_LONGEST_CHAIN", MAX_DEPTH + 1),
        ("SS_MAX_DEVICES", MAX_DEVICES as u64),
        ("SS_LONGEST_IO_MAX", LONGEST_IO_MAX as u64),
    ];
    let errnos = Refusal::ALL.map(|refusal| (refusal.name(), u64::from(refusal.number())));
    let errnos = errnos.map(|(name, number)| (format!("SS_{name}"), number));
    let constants = constants.map(|(name, value)| (name.to_string(), value));
    for (name, value) in constants.into_iter().chain(errnos) {
        let defined = header.lines().find_map(|line| {
            let mut words = line.split_whitespace();
            let is_it = words.next() == Some("#define") && words.next() == Some(&name);
            is_it.then(|| words.next().unwrap_or("").to_string())
        });
        let defined = defined.unwrap_or_else(|| panic!("{name} is not defined"));
        let digits = defined.trim_start_matches("UINT64_C(").trim_end_matches(')');
        assert_eq!(digits.parse(), Ok(value), "{name}");
    }
}

/// 256 cgroups, of which the last sixteen stand one below the other, and 1,024 processes in the lowest.
fn full_tree() -> Host {
    let mut host = Host::fresh(1024);
    host.make(User::ROOT, GroupId::ROOT, GroupId(240)).unwrap();
    for group in 241..=255 {
        host.make(User::ROOT, GroupId(group - 1), GroupId(group)).unwrap();
    }
    assert_eq!(host.make(User::ROOT, GroupId(255), GroupId(1)), Err(Refusal::Eagain));
    assert_eq!(host.make(User::ROOT, GroupId(254), GroupId(1)), Ok(()));
    for group in 2..240 {
        host.make(User::ROOT, GroupId::ROOT, GroupId(group)).unwrap();
    }
    for process in 1..=1024 {
        host.admit(ProcessId(process), User(1000)).unwrap();
        host.write_procs(User::ROOT, GroupId(255), process.to_string()).unwrap();
    }
    host
}

#[test]
fn a_full_tree() {
    let mut host = full_tree();
    assert_eq!((LAST_GROUP, LAST_PROCESS, MAX_DEPTH), (GroupId(255), ProcessId(1024), 16));
    assert_eq!(host.make(User::ROOT, GroupId::ROOT, GroupId(255)), Err(Refusal::Eexist));
    assert_eq!(host.make(User::ROOT, GroupId::ROOT, GroupId(256)), Err(Refusal::Einval));
    assert_eq!(host.admit(ProcessId(1024), User(1000)), Err(Refusal::Eexist));
    assert_eq!(host.admit(ProcessId(1025), User(1000)), Err(Refusal::Einval));
    assert_eq!(host.charge(ProcessId(1), 1), Ok(17));
    assert_eq!(host.charge(ProcessId(1024), 1023), Ok(17));
    let denial = Denial { refusal: Refusal::Enomem, group: Some(GroupId::ROOT), consulted: 17 };
    assert_eq!(host.charge(ProcessId(1024), 1), Err(denial));
}

#[test]
fn the_longest_reply() {
    let host = full_tree();
    let expected: String = (1..=1024).map(|process| format!("{process}\n")).collect();
    assert_eq!((expected.len(), LONGEST_REPLY), (4013, 4013));
    assert_eq!(host.read(GroupId(255), file::PROCS).unwrap(), expected.as_bytes());
    let mut reply = vec![b'.'; 4013];
    assert_eq!(host.read_into(GroupId(255), file::PROCS, &mut reply), Ok(4013));
    assert_eq!(reply, expected.as_bytes());
    let mut short = vec![b'.'; 4012];
    assert_eq!(host.read_into(GroupId(255), file::PROCS, &mut short), Err(Refusal::Enospc));
    assert_eq!(short, vec![b'.'; 4012]);
}

/// The membership line of process 1024, into a buffer that it fills and into one that is a byte short.
fn assert_line(host: &Host, line: &[u8]) {
    assert_eq!(host.membership(ProcessId(1024)).unwrap(), line);
    let mut reply = vec![b'.'; line.len()];
    assert_eq!(host.membership_into(ProcessId(1024), &mut reply), Ok(line.len()));
    assert_eq!(reply, line);
    let mut short = vec![b'.'; line.len() - 1];
    assert_eq!(host.membership_into(ProcessId(1024), &mut short), Err(Refusal::Enospc));
    assert_eq!(short, vec![b'.'; line.len() - 1]);
}

#[test]
fn the_longest_membership_lines() {
    let mut host = full_tree();
    let line = b"0::/240/241/242/243/244/245/246/247/248/249/250/251/252/253/254/255\n";
    assert_eq!(line.len(), 68);
    assert_line(&host, line);
    for process in (1..=1024).map(ProcessId) {
        host.exit(process).unwrap();
    }
    assert_line(&host, line);
    host.remove(User::ROOT, GroupId(255)).unwrap();
    let deleted = [line.strip_suffix(b"\n").unwrap(), b" (deleted)\n"].concat();
    assert_eq!((deleted.len(), LONGEST_MEMBERSHIP), (78, 78));
    assert_line(&host, &deleted);
}

/// A zombie's number and those of the removed cgroups on its path are taken until it is collected.
#[test]
fn numbers_are_free_when_a_zombie_is_collected() {
    let mut host = Host::fresh(1024);
    host.make(User::ROOT, GroupId::ROOT, GroupId(1)).unwrap();
    host.make(User::ROOT, GroupId(1), GroupId(2)).unwrap();
    host.admit(ProcessId(5), User(1000)).unwrap();
    host.write_procs(User::ROOT, GroupId(2), "5").unwrap();
    assert_eq!(host.collect(ProcessId(5)), Err(Refusal::Esrch));
    host.exit(ProcessId(5)).unwrap();
    host.remove(User::ROOT, GroupId(2)).unwrap();
    host.remove(User::ROOT, GroupId(1)).unwrap();
    assert_eq!(host.membership(ProcessId(5)).unwrap(), b"0::/1/2 (deleted)\n");
    for group in [1, 2].map(GroupId) {
        assert_eq!(host.make(User::ROOT, GroupId::ROOT, group), Err(Refusal::Eexist));
        assert_eq!(host.read(group, file::PROCS), Err(Refusal::Enoent));
    }
    assert_eq!(host.admit(ProcessId(5), User(1000)), Err(Refusal::Eexist));
    host.collect(ProcessId(5)).unwrap();
    assert_eq!(host.collect(ProcessId(5)), Err(Refusal::Esrch));
    assert_eq!(host.membership(ProcessId(5)), Err(Refusal::Esrch));
    host.make(User::ROOT, GroupId::ROOT, GroupId(2)).unwrap();
    host.make(User::ROOT, GroupId(2), GroupId(1)).unwrap();
    host.admit(ProcessId(5), User(1000)).unwrap();
}

/// Cgroup 1 with the last devices that there can be, and the lines that io.max shows of them.
fn full_io_max() -> (Host, Vec<String>) {
    let mut host = Host::fresh(1024);
    host.make(User::ROOT, GroupId::ROOT, GroupId(1)).unwrap();
    host.write_subtree_control(User::ROOT, GroupId::ROOT, "+io").unwrap();
    let limits = ["rbps", "wbps", "riops", "wiops"].map(|key| format!(" {key}=4503599627370496"));
    let line = |minor| format!("255:{minor}{}\n", limits.concat());
    let lines: Vec<String> = (256 - MAX_DEVICES..256).map(line).collect();
    for line in lines.iter().rev() {
        write_io_max(&mut host, line).unwrap();
    }
    (host, lines)
}

fn write_io_max(host: &mut Host, line: &str) -> Result<(), Refusal> {
    host.write_setting(User::ROOT, GroupId(1), file::IO_MAX, line)
}

#[test]
fn the_longest_io_max() {
    let (host, lines) = full_io_max();
    let text = host.read(GroupId(1), file::IO_MAX).unwrap();
    assert_eq!(text, lines.concat().as_bytes());
    assert_eq!(text.len(), LONGEST_IO_MAX);
    let short = &mut [0; LONGEST_IO_MAX - 1];
    assert_eq!(host.read_into(GroupId(1), file::IO_MAX, short), Err(Refusal::Enospc));
}

#[test]
fn a_fifth_device_has_room_when_another_has_gone() {
    let (mut host, lines) = full_io_max();
    assert_eq!(write_io_max(&mut host, "8:16 rbps=1"), Err(Refusal::Enospc));
    write_io_max(&mut host, "255:255 rbps=max wbps=max riops=max wiops=max").unwrap();
    write_io_max(&mut host, "8:16 rbps=1").unwrap();
    let first = "8:16 rbps=1 wbps=max riops=max wiops=max\n";
    let text = host.read(GroupId(1), file::IO_MAX).unwrap();
    assert_eq!(text, [first, &lines[..MAX_DEVICES - 1].concat()].concat().as_bytes());
}

#[test]
fn io_that_leaves_takes_the_devices_with_it() {
    let (mut host, _) = full_io_max();
    host.write_subtree_control(User::ROOT, GroupId::ROOT, "-io").unwrap();
    host.write_subtree_control(User::ROOT, GroupId::ROOT, "+io").unwrap();
    assert_eq!(host.read(GroupId(1), file::IO_MAX).unwrap(), b"");
}

#[test]
fn numbers_out_of_range_are_refused() {
    let mut host = Host::fresh(1024);
    for group in [256, 1 << 32, u64::MAX].map(GroupId) {
        assert_eq!(host.make(User::ROOT, GroupId::ROOT, group), Err(Refusal::Einval));
        assert_eq!(host.read(group, file::PROCS), Err(Refusal::Einval));
        assert_eq!(host.release(group, 1), Err(Refusal::Einval));
    }
    for process in [0, 1025, 1 << 32, u64::MAX].map(ProcessId) {
        let none = Denial { refusal: Refusal::Esrch, group: None, consulted: 0 };
        assert_eq!(host.admit(process, User::ROOT), Err(Refusal::Einval));
        assert_eq!(host.charge(process, 1), Err(none));
        assert_eq!(host.fork(process, ProcessId(1)), Err(none));
        assert_eq!(host.membership(process), Err(Refusal::Esrch));
        assert_eq!(host.exit(process), Err(Refusal::Esrch));
        assert_eq!(host.collect(process), Err(Refusal::Esrch));
    }
}

#[test]
fn a_bad_word_is_a_part_of_the_callers_line() {
    let line = b"+cpu  +disk \n";
    let word = first_bad_word(line);
    assert_eq!(word, b"+disk");
    assert_eq!(word.as_ptr(), line[6..].as_ptr());
    let end = first_bad_word(b"+cpu \n");
    assert!(end.is_empty());
}

#[test]
fn a_refusal_can_be_shown() {
    assert_eq!(Refusal::Eacces.to_string(), "EACCES (13): the user may not");
    let mut host = Host::fresh(0);
    host.admit(ProcessId(5), User::ROOT).unwrap();
    let denial = host.charge(ProcessId(5), 1).unwrap_err();
    let shown = "ENOMEM (12): a memory limit or the machine stops a charge, cgroup 0, 1 consulted";
    assert_eq!(denial.to_string(), shown);
    for refusal in Refusal::ALL {
        assert_eq!(Refusal::from_number(refusal.number()), Some(refusal));
    }
}

#[test]
fn trees_go_from_thread_to_thread() {
    fn is_plain<T: Send + Sync + Clone>() {}
    is_plain::<Host>();
}
