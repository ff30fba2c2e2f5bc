//! Points at which a reader of the papers may stumble, as rows: what is written, and the answer.
//! Asked of the model and of the proved host.

#[macro_use]
mod common;

use common::{charge, fork, shown};
use shootspiral_check::Calls;
use shootspiral_check::calls::NO_GROUP;

both! {
    lines_for_procs
    lines_for_control
    long_lines
    settings
    memory_max
    cpu_max
    order_of_checks
    reset
    moves_and_limits
    empty_replies
    machine_sizes
    owners
    zombies_named
    numbers_of_removed_groups
    removed_above_each_other
    place_of_deleted
    zombies_and_other_rules
    collected_without_a_user
}

fn lines_for_procs<H: Calls>() {
    let mut host = H::fresh(1024);
    host.make(0, 0, 1);
    for process in [5, 255, 1024] {
        host.admit(process, 0);
    }
    let forty = [&[b'0'; 39][..], b"5"].concat();
    for (line, number) in [
        (b"5".as_slice(), 0),
        (b"5\n", 0),
        (b"  5  \n", 0),
        (b"005", 0),
        (&forty, 0),
        (b"1024", 0),
        (b"1025", 3),
        (b"256", 3),
        (b"6", 3),
        (b"4294967301", 3),
        (b"18446744073709551621", 3),
        (b"340282366920938463463374607431768211461", 3),
        (b"9999999999999999999999999999999999999999", 3),
        (b"0", 22),
        (b"000", 22),
        (b"", 22),
        (b"\n", 22),
        (b" ", 22),
        (b"5\n\n", 22),
        (b"5\r\n", 22),
        (b"5\t", 22),
        (b"5\0", 22),
        (b"\xff5", 22),
        (b"5 255", 22),
        (b"5 x", 22),
        (b"+5", 22),
        (b"-5", 22),
        (b"0x5", 22),
        (b"5.0", 22),
        (b"max", 22),
    ] {
        assert_eq!(host.write_procs(0, 1, line), number, "{}", line.escape_ascii());
    }
}

///     0  set: memory
///     └ 1
fn lines_for_control<H: Calls>() {
    for (line, number) in [
        (b"".as_slice(), 0),
        (b"\n", 0),
        (b"   \n", 0),
        (b"\n\n", 22),
        (b"+memory", 0),
        (b"  +memory   -memory", 0),
        (b"-pids", 0),
        (b"+pids -pids", 0),
        (b"-pids +pids", 2),
        (b"+cpu", 2),
        (b"+cpu x", 22),
        (b"+", 22),
        (b"-", 22),
        (b"memory", 22),
        (b"++memory", 22),
        (b"+memory+memory", 22),
        (b"+MEMORY", 22),
        (b"+memory\t-memory", 22),
        (b"+memory\0", 22),
        (b"+io", 2),
        (b"-io", 0),
        (b"+iops", 22),
    ] {
        let mut host = H::fresh(1024);
        host.write_subtree_control(0, 0, b"+memory");
        host.make(0, 0, 1);
        assert_eq!(host.write_subtree_control(0, 1, line), number, "{}", line.escape_ascii());
    }
}

fn long_lines<H: Calls>() {
    let mut host = H::fresh(1024);
    host.make(0, 0, 1);
    host.admit(5, 0);
    let digits = |length: usize, end: &[u8]| [&vec![b'0'; length - 1], &b"5"[..], end].concat();
    for (line, number) in [
        (digits(127, b"\n"), 0),
        (digits(128, b""), 0),
        (digits(128, b"\n"), 22),
        (digits(129, b""), 22),
        (digits(300, b""), 22),
    ] {
        assert_eq!(host.write_procs(0, 1, &line), number, "{}", line.len());
        assert_eq!(host.write_procs(7, 1, &line), 13, "{}", line.len());
    }
    for (length, number) in [(127, 0), (128, 0), (129, 22), (300, 22)] {
        assert_eq!(host.write_subtree_control(0, 0, &vec![b' '; length]), number, "{length}");
    }
}

fn settings<H: Calls>() {
    let mut host = H::fresh(1024);
    host.make(0, 0, 1);
    host.write_subtree_control(0, 0, b"+cpu +memory +pids");
    for (file, line, number) in [
        ("memory.max", "4095", 0),
        ("memory.max", "00004096", 0),
        ("memory.max", "4503599627370496", 0),
        ("memory.max", "4503599627370497", 34),
        ("memory.max", "18446744073709551616", 34),
        ("memory.max", "18446744073709551617", 34),
        ("memory.max", "", 22),
        ("memory.max", "max max", 22),
        ("memory.max", "MAX", 22),
        ("memory.max", "-1", 22),
        ("memory.max", "1e3", 22),
        ("memory.max", "4K", 22),
        ("pids.max", "4194304", 0),
        ("pids.max", "4194305", 34),
        ("pids.max", "0", 0),
        ("pids.max", "max", 0),
        ("cpu.weight", "max", 22),
        ("cpu.weight", "100\n\n", 22),
        ("memory.current", "1", 2),
        ("cgroup.procs", "1", 2),
        ("memory.max\n", "1", 2),
        ("memory.ma", "1", 2),
        ("", "1", 2),
    ] {
        let (file, line) = (file.as_bytes(), line.as_bytes());
        let asked = format!("{} {}", file.escape_ascii(), line.escape_ascii());
        assert_eq!(host.write_setting(0, 1, file, line), number, "{asked}");
        assert_eq!(host.write_setting(0, 0, file, line), 2, "{asked}");
    }
}

/// Each line from "max" on: the answer, what is read then, and the pages of the limit, 3 for more.
/// Worked out from the papers by somebody who had seen neither the definitions nor their tables.
fn memory_max<H: Calls>() {
    for (line, number, after, pages) in [
        ("0", 0, "0\n", 0),
        ("1", 0, "0\n", 0),
        ("4095", 0, "0\n", 0),
        ("4096", 0, "4096\n", 1),
        ("4097", 0, "4096\n", 1),
        ("8191", 0, "4096\n", 1),
        ("8192", 0, "8192\n", 2),
        ("10000", 0, "8192\n", 2),
        ("4503599627366399", 0, "4503599627362304\n", 3),
        ("4503599627366400", 0, "4503599627366400\n", 3),
        ("4503599627370495", 0, "4503599627366400\n", 3),
        ("4503599627370496", 0, "4503599627370496\n", 3),
        ("4503599627370497", 34, "max\n", 3),
        ("4503599627374591", 34, "max\n", 3),
        ("4503599627374592", 34, "max\n", 3),
        ("18446744073709551615", 34, "max\n", 3),
        ("18446744073709551616", 34, "max\n", 3),
        ("max", 0, "max\n", 3),
        ("00004097", 0, "4096\n", 1),
    ] {
        let mut host = H::fresh(1024);
        host.make(0, 0, 1);
        host.write_subtree_control(0, 0, b"+memory");
        host.admit(5, 0);
        host.write_procs(0, 1, b"5");
        assert_eq!(host.write_setting(0, 1, b"memory.max", line.as_bytes()), number, "{line}");
        assert_eq!(shown(&host, 1, "memory.max"), after, "{line}");
        let mut told = [0; 2];
        let charged = (0..3).take_while(|_| host.charge(5, 1, &mut told) == 0).count();
        assert_eq!(charged, pages, "{line}");
        assert_eq!(told, if pages < 3 { [1, 1] } else { [NO_GROUP, 2] }, "{line}");
    }
}

fn cpu_max<H: Calls>() {
    let mut host = H::fresh(1024);
    host.make(0, 0, 1);
    host.write_subtree_control(0, 0, b"+cpu");
    assert_eq!(shown(&host, 1, "cpu.max"), "max 100000\n");
    for (line, number, after) in [
        ("1000 1000", 0, "1000 1000\n"),
        ("max", 0, "max 1000\n"),
        ("1000000000 1000000\n", 0, "1000000000 1000000\n"),
        ("5000 ", 0, "5000 1000000\n"),
        (" 5000   2000 ", 0, "5000 2000\n"),
        ("5 x", 22, "5000 2000\n"),
        ("5 5", 34, "5000 2000\n"),
        ("999", 34, "5000 2000\n"),
        ("1000 999", 34, "5000 2000\n"),
        ("1000 1000001", 34, "5000 2000\n"),
        ("1000000001", 34, "5000 2000\n"),
        ("max max", 22, "5000 2000\n"),
        ("max 1000 1000", 22, "5000 2000\n"),
        ("", 22, "5000 2000\n"),
        ("max 3000", 0, "max 3000\n"),
    ] {
        assert_eq!(host.write_setting(0, 1, b"cpu.max", line.as_bytes()), number, "{line}");
        assert_eq!(shown(&host, 1, "cpu.max"), after, "{line}");
    }
}

/// Where two checks fail, the one that the paper names first is the answer.
fn order_of_checks<H: Calls>() {
    let mut host = H::fresh(1024);
    for group in 1..=16 {
        host.make(0, group - 1, group);
    }
    host.make(0, 0, 20);
    host.write_subtree_control(0, 0, b"+memory +pids");
    host.admit(5, 1000);
    host.write_procs(0, 20, b"5");

    assert_eq!(host.make(0, 30, 256), 22);
    assert_eq!(host.make(7, 30, 1), 2);
    assert_eq!(host.make(7, 30, 30), 2);
    assert_eq!(host.make(7, 16, 1), 17);
    assert_eq!(host.make(7, 16, 16), 17);
    assert_eq!(host.make(0, 1, 0), 17);
    assert_eq!(host.make(7, 16, 17), 13);
    assert_eq!(host.make(0, 16, 17), 11);

    assert_eq!(host.remove(7, 256), 22);
    assert_eq!(host.remove(7, 30), 2);
    assert_eq!(host.remove(7, 0), 13);
    assert_eq!(host.remove(0, 0), 16);
    assert_eq!(host.remove(7, 1), 13);
    assert_eq!(host.remove(0, 1), 16);

    assert_eq!(host.hand_over(7, 0, 7), 22);
    assert_eq!(host.hand_over(7, 30, 7), 2);
    assert_eq!(host.hand_over(7, 1, 7), 13);

    assert_eq!(host.write_procs(7, 256, b"x"), 22);
    assert_eq!(host.write_procs(7, 30, b"x"), 2);
    assert_eq!(host.write_procs(7, 1, b"x"), 13);
    host.write_subtree_control(0, 1, b"+memory");
    host.hand_over(0, 1, 7);
    assert_eq!(host.write_procs(7, 1, b"x"), 22);
    assert_eq!(host.write_procs(7, 1, b"6"), 3);
    assert_eq!(host.write_procs(7, 1, b"5"), 13);
    assert_eq!(host.write_procs(0, 1, b"5"), 16);

    assert_eq!(host.write_subtree_control(0, 20, b"+cpu x"), 22);
    assert_eq!(host.write_subtree_control(0, 20, b"+cpu +memory"), 2);
    assert_eq!(host.write_subtree_control(0, 20, b"+memory"), 16);
    assert_eq!(host.write_subtree_control(0, 20, b"-memory"), 0);
    assert_eq!(host.write_subtree_control(0, 0, b"-memory +pids"), 16);

    assert_eq!(host.write_setting(7, 256, b"x", b"x"), 22);
    assert_eq!(host.write_setting(7, 30, b"x", b"x"), 2);
    assert_eq!(host.write_setting(7, 20, b"cpu.max", b"x"), 2);
    assert_eq!(host.write_setting(7, 20, b"pids.max", b"x"), 13);
    assert_eq!(host.write_setting(0, 20, b"pids.max", b"x"), 22);

    let mut told = [0; 2];
    assert_eq!(host.fork(0, 0, &mut told), 3);
    assert_eq!(host.fork(300, 300, &mut told), 3);
    assert_eq!(host.fork(1025, 1025, &mut told), 3);
    assert_eq!(host.fork(5, 0, &mut told), 22);
    assert_eq!(host.fork(5, 5, &mut told), 17);
    assert_eq!(host.charge(0, 0, &mut told), 3);
    assert_eq!(host.charge(5, 0, &mut told), 22);
    assert_eq!(host.charge(5, 1_048_577, &mut told), 22);
    assert_eq!(host.exit(0), 3);
    assert_eq!(host.exit(1025), 3);
    assert_eq!(host.admit(0, 0), 22);
    assert_eq!(host.admit(1025, 0), 22);
    assert_eq!(host.admit(5, 0), 17);
    assert_eq!(host.release(256, 0), 22);
    assert_eq!(host.release(30, 0), 22);
    assert_eq!(host.release(30, 1), 2);
    assert_eq!(host.release(20, 1), 34);

    let mut length = [0];
    assert_eq!(host.read(256, b"x", &mut [], &mut length), 22);
    assert_eq!(host.read(30, b"x", &mut [], &mut length), 2);
    assert_eq!(host.read(0, b"cgroup.events", &mut [], &mut length), 2);
    assert_eq!(host.read(20, b"cpu.max", &mut [], &mut length), 2);
    assert_eq!(host.read(20, b"pids.max", &mut [], &mut length), 28);
    assert_eq!(host.membership(1025, &mut [], &mut length), 3);
    assert_eq!(host.membership(5, &mut [], &mut length), 28);
}

/// A controller that leaves resets its settings in all children; one that only seems to does not.
fn reset<H: Calls>() {
    let mut host = H::fresh(1024);
    host.make(0, 0, 1);
    host.write_subtree_control(0, 0, b"+cpu +memory +pids");
    host.write_setting(0, 1, b"cpu.weight", b"7");
    host.write_setting(0, 1, b"cpu.max", b"2000 3000");
    host.write_setting(0, 1, b"memory.max", b"8192");
    host.write_setting(0, 1, b"pids.max", b"3");
    assert_eq!(host.write_subtree_control(0, 0, b"-cpu +cpu"), 0);
    assert_eq!(shown(&host, 1, "cpu.weight"), "7\n");
    assert_eq!(shown(&host, 1, "cpu.max"), "2000 3000\n");
    assert_eq!(host.write_subtree_control(0, 0, b"-cpu -pids"), 0);
    assert_eq!(host.write_subtree_control(0, 0, b"+cpu +pids"), 0);
    assert_eq!(shown(&host, 1, "cpu.weight"), "100\n");
    assert_eq!(shown(&host, 1, "cpu.max"), "max 100000\n");
    assert_eq!(shown(&host, 1, "pids.max"), "max\n");
    assert_eq!(shown(&host, 1, "memory.max"), "8192\n");
}

/// A limit below present usage is accepted and stops charges and forks; it does not stop a move,
/// and pages do not move along.
fn moves_and_limits<H: Calls>() {
    let mut host = H::fresh(1024);
    host.make(0, 0, 1);
    host.make(0, 0, 2);
    host.write_subtree_control(0, 0, b"+memory +pids");
    for process in [5, 6] {
        host.admit(process, 0);
        assert_eq!(host.write_procs(0, process - 4, process.to_string().as_bytes()), 0);
    }
    let mut told = [0; 2];
    assert_eq!(host.charge(5, 3, &mut told), 0);
    assert_eq!(host.write_setting(0, 1, b"memory.max", b"0"), 0);
    assert_eq!(host.write_setting(0, 1, b"pids.max", b"0"), 0);
    assert_eq!((host.charge(5, 1, &mut told), told), (12, [1, 1]));
    assert_eq!((host.fork(5, 7, &mut told), told), (11, [1, 1]));
    assert_eq!(host.write_procs(0, 1, b"6"), 0);
    assert_eq!(shown(&host, 1, "pids.current"), "2\n");
    assert_eq!(host.write_procs(0, 2, b"5"), 0);
    assert_eq!(shown(&host, 1, "memory.current"), "12288\n");
    assert_eq!(shown(&host, 2, "memory.current"), "0\n");
    assert_eq!(host.release(1, 3), 0);
    assert_eq!((host.charge(6, 1, &mut told), told), (12, [1, 1]));
    assert_eq!((host.charge(5, 1, &mut told), told), (0, [u64::MAX, 2]));
}

fn empty_replies<H: Calls>() {
    let mut host = H::fresh(1024);
    host.make(0, 0, 1);
    for (group, file) in [
        (0, "cgroup.procs"),
        (0, "cgroup.subtree_control"),
        (1, "cgroup.controllers"),
        (1, "cgroup.subtree_control"),
    ] {
        let mut told = [77];
        assert_eq!(host.read(group, file.as_bytes(), &mut [], &mut told), 0, "{file}");
        assert_eq!(told, [0], "{file}");
    }
    assert_eq!(shown(&host, 1, "cgroup.events"), "populated 0\n");
    host.make(0, 1, 2);
    host.admit(5, 0);
    host.write_procs(0, 2, b"5");
    assert_eq!(shown(&host, 1, "cgroup.events"), "populated 1\n");
    assert_eq!(shown(&host, 1, "cgroup.procs"), "");
}

fn machine_sizes<H: Calls>() {
    let mut told = [0; 2];
    let mut none = H::fresh(0);
    none.admit(1, 0);
    assert_eq!((none.charge(1, 1, &mut told), told), (12, [0, 1]));
    for size in [1 << 40, (1 << 40) + 1, u64::MAX] {
        let mut host = H::fresh(size);
        host.admit(1, 0);
        for _ in 0..1 << 20 {
            assert_eq!(host.charge(1, 1 << 20, &mut told), 0);
        }
        assert_eq!((host.charge(1, 1, &mut told), told), (12, [0, 1]));
    }
}

/// An owner may write his group, not its settings; what user 0 makes is user 0's.
fn owners<H: Calls>() {
    let mut host = H::fresh(1024);
    host.make(0, 0, 1);
    host.write_subtree_control(0, 0, b"+memory");
    host.hand_over(0, 1, 7);
    assert_eq!(host.write_setting(7, 1, b"memory.max", b"max"), 13);
    assert_eq!(host.remove(7, 1), 13);
    assert_eq!(host.make(7, 1, 2), 0);
    assert_eq!(host.write_subtree_control(7, 1, b"+memory"), 0);
    assert_eq!(host.write_setting(7, 2, b"memory.max", b"4096"), 0);
    assert_eq!(host.make(0, 1, 3), 0);
    assert_eq!(host.make(7, 3, 4), 13);
    assert_eq!(host.remove(7, 3), 0);
    assert_eq!(host.remove(7, 2), 0);
    assert_eq!(host.hand_over(0, 1, 7), 0);
    assert_eq!(host.hand_over(0, 1, 0), 0);
    assert_eq!(host.make(7, 1, 2), 13);
}

/// The membership line of a process, or the number that the reader gets.
fn line_of<H: Calls>(host: &H, process: u64) -> Result<String, u32> {
    let (mut reply, mut told) = ([b'.'; 100], [77]);
    match host.membership(process, &mut reply, &mut told) {
        0 => Ok(String::from_utf8(reply[..told[0] as usize].to_vec()).unwrap()),
        number => Err(number),
    }
}

/// A host with groups 1 and 2 under it, and process 5 of user 7 in 2.
fn two_groups<H: Calls>() -> H {
    let mut host = H::fresh(1024);
    host.make(0, 0, 1);
    host.make(0, 1, 2);
    host.admit(5, 7);
    assert_eq!(host.write_procs(0, 2, b"5"), 0);
    host
}

/// Every call that names a process, of one that has ended: 3, and 17 where the number is to be taken.
/// Of a number that is no zombie's, in range or not, collect is 3 and never 22.
fn zombies_named<H: Calls>() {
    let mut host: H = two_groups();
    for process in [0, 5, 6, 1024, 1025, 1 << 32, u64::MAX] {
        assert_eq!(host.collect(process), 3, "{process}");
    }
    assert_eq!(host.exit(5), 0);
    assert_eq!(host.exit(5), 3);
    assert_eq!(host.write_procs(0, 1, b"5"), 3);
    assert_eq!(host.write_procs(0, 2, b"5"), 3);
    assert_eq!(charge(&mut host, 5, 1), (3, NO_GROUP, 0));
    assert_eq!(fork(&mut host, 5, 6), (3, NO_GROUP, 0));
    assert_eq!(fork(&mut host, 5, 5), (3, NO_GROUP, 0));
    assert_eq!(host.admit(6, 0), 0);
    assert_eq!(fork(&mut host, 6, 5), (17, NO_GROUP, 0));
    assert_eq!(host.admit(5, 7), 17);
    assert_eq!(line_of(&host, 5), Ok("0::/1/2\n".into()));
    assert_eq!(host.collect(5), 0);
    assert_eq!(line_of(&host, 5), Err(3));
    assert_eq!(host.collect(5), 3);
    assert_eq!(fork(&mut host, 6, 5), (0, NO_GROUP, 1));
    assert_eq!(line_of(&host, 5), Ok("0::/\n".into()));
}

/// Taken while it is on a zombie's path; in every other call not live.
fn numbers_of_removed_groups<H: Calls>() {
    let mut host: H = two_groups();
    host.exit(5);
    assert_eq!(host.make(0, 0, 2), 17);
    assert_eq!(host.remove(0, 2), 0);
    assert_eq!(host.make(0, 256, 2), 22);
    assert_eq!(host.make(0, 9, 2), 2);
    assert_eq!(host.make(7, 0, 2), 17);
    assert_eq!(host.make(0, 1, 2), 17);
    assert_eq!(host.make(0, 2, 3), 2);
    assert_eq!(host.make(0, 2, 2), 2);
    assert_eq!(host.remove(0, 2), 2);
    assert_eq!(host.hand_over(0, 2, 7), 2);
    assert_eq!(host.write_procs(0, 2, b"5"), 2);
    assert_eq!(host.write_subtree_control(0, 2, b""), 2);
    assert_eq!(host.write_setting(0, 2, b"pids.max", b"1"), 2);
    assert_eq!(host.release(2, 1), 2);
    assert_eq!(host.read(2, b"cgroup.procs", &mut [], &mut [0]), 2);
    // Other numbers are free: what was removed without a zombie, and what never was.
    assert_eq!(host.make(0, 1, 3), 0);
    assert_eq!(host.remove(0, 3), 0);
    assert_eq!(host.make(0, 0, 3), 0);
    assert_eq!(host.collect(5), 0);
    assert_eq!(host.make(7, 0, 2), 13);
    assert_eq!(host.make(0, 3, 2), 0);
}

/// Both numbers stay taken, and the line stays; so it is with a second zombie on a part of the path.
fn removed_above_each_other<H: Calls>() {
    let mut host: H = two_groups();
    host.admit(6, 0);
    host.write_procs(0, 1, b"6");
    assert_eq!((host.exit(5), host.exit(6)), (0, 0));
    assert_eq!(host.remove(0, 1), 16);
    assert_eq!((host.remove(0, 2), host.remove(0, 1)), (0, 0));
    assert_eq!(line_of(&host, 5), Ok("0::/1/2 (deleted)\n".into()));
    assert_eq!(line_of(&host, 6), Ok("0::/1 (deleted)\n".into()));
    assert_eq!((host.make(0, 0, 1), host.make(0, 0, 2)), (17, 17));
    // The one that is further down needs both groups, the other one.
    let mut other = host.clone();
    assert_eq!(host.collect(6), 0);
    assert_eq!(line_of(&host, 5), Ok("0::/1/2 (deleted)\n".into()));
    assert_eq!((host.make(0, 0, 1), host.make(0, 0, 2)), (17, 17));
    assert_eq!(host.collect(5), 0);
    assert_eq!((host.make(0, 0, 2), host.make(0, 2, 1)), (0, 0));
    assert_eq!(other.collect(5), 0);
    assert_eq!(line_of(&other, 6), Ok("0::/1 (deleted)\n".into()));
    assert_eq!((other.make(0, 0, 1), other.make(0, 0, 2)), (17, 0));
    assert_eq!(other.make(0, 2, 1), 17);
    assert_eq!(other.collect(6), 0);
    assert_eq!(other.make(0, 2, 1), 0);
}

/// After the path, before the newline, and only when the zombie's own group was removed. A zombie of
/// the root never has it.
fn place_of_deleted<H: Calls>() {
    let mut host: H = two_groups();
    host.make(0, 1, 3);
    host.admit(6, 0);
    host.admit(7, 0);
    host.write_procs(0, 1, b"6");
    for process in [5, 6, 7] {
        assert_eq!(host.exit(process), 0);
    }
    assert_eq!(host.remove(0, 3), 0);
    let lines = |host: &H| [5, 6, 7].map(|process| line_of(host, process).unwrap());
    assert_eq!(lines(&host), ["0::/1/2\n", "0::/1\n", "0::/\n"]);
    assert_eq!(host.remove(0, 2), 0);
    assert_eq!(lines(&host), ["0::/1/2 (deleted)\n", "0::/1\n", "0::/\n"]);
    assert_eq!(host.remove(0, 1), 0);
    assert_eq!(lines(&host), ["0::/1/2 (deleted)\n", "0::/1 (deleted)\n", "0::/\n"]);
    for (room, number) in [(17, 28), (18, 0)] {
        let (mut reply, mut told) = (vec![b'.'; room], [77]);
        assert_eq!(host.membership(5, &mut reply, &mut told), number, "{room}");
        assert_eq!(told, [if number == 0 { 18 } else { 0 }], "{room}");
    }
}

/// Not live: no inner process, not populated, not in pids.current, not counted by pids.max; pages stay.
fn zombies_and_other_rules<H: Calls>() {
    let mut host: H = two_groups();
    host.write_subtree_control(0, 0, b"+memory +pids");
    host.write_setting(0, 1, b"pids.max", b"2");
    host.admit(6, 7);
    assert_eq!(charge(&mut host, 5, 3), (0, NO_GROUP, 3));
    assert_eq!(fork(&mut host, 5, 8), (0, NO_GROUP, 3));
    assert_eq!(fork(&mut host, 5, 9), (11, 1, 2));
    assert_eq!(host.exit(8), 0);
    assert_eq!(shown(&host, 1, "pids.current"), "1\n");
    assert_eq!(fork(&mut host, 5, 9), (0, NO_GROUP, 3));
    assert_eq!(fork(&mut host, 5, 10), (11, 1, 2));
    assert_eq!(shown(&host, 2, "cgroup.procs"), "5\n9\n");
    assert_eq!((host.exit(5), host.exit(9)), (0, 0));
    assert_eq!(shown(&host, 2, "cgroup.procs"), "");
    assert_eq!(shown(&host, 1, "cgroup.events"), "populated 0\n");
    assert_eq!(shown(&host, 1, "pids.current"), "0\n");
    assert_eq!(shown(&host, 1, "memory.current"), "12288\n");
    assert_eq!(host.write_subtree_control(0, 1, b"+pids"), 0);
    assert_eq!(host.write_setting(0, 2, b"pids.max", b"0"), 0);
    assert_eq!(host.write_subtree_control(0, 2, b"+pids"), 0);
    assert_eq!(host.write_procs(0, 2, b"6"), 16);
    assert_eq!(host.write_subtree_control(0, 2, b"-pids"), 0);
    assert_eq!(host.write_procs(0, 2, b"6"), 0);
    assert_eq!(host.remove(0, 2), 16);
    assert_eq!(host.write_procs(0, 0, b"6"), 0);
    assert_eq!(host.remove(0, 2), 0);
    assert_eq!(host.release(1, 4), 34);
    assert_eq!(host.release(1, 3), 0);
}

/// Collect asks for no user, and what comes after has nothing of the one that was.
fn collected_without_a_user<H: Calls>() {
    let mut host: H = two_groups();
    assert_eq!(host.hand_over(0, 2, 9), 0);
    assert_eq!((host.exit(5), host.collect(5)), (0, 0));
    assert_eq!(host.admit(5, 8), 0);
    assert_eq!(host.write_procs(0, 2, b"5"), 0);
    assert_eq!(host.hand_over(0, 2, 7), 0);
    assert_eq!(host.write_procs(7, 2, b"5"), 13);
    assert_eq!(host.hand_over(0, 2, 8), 0);
    assert_eq!(host.write_procs(8, 2, b"5"), 0);
}
