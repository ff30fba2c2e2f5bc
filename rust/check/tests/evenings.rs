//! The evenings worked through in document 01, one test each, asked of the model and of the proved
//! host. The answers are the paper's, written out: they hold the model itself to the paper. P6 is as
//! order 2 of document 02 has it, and the depths are those of order 4.

#[macro_use]
mod common;

use common::{charge, fork, read};
use shootspiral_check::Calls;
use shootspiral_check::calls::NO_GROUP;

const ROOT: u64 = 0;

both! {
    p1_to_p5_charges_up_the_chain
    p6_p7_rounding_and_the_top_figure
    p8_weights
    p9_the_last_word_counts
    p10_the_common_ancestor
    p11_membership_line
    whole_replies
    depths
    consulted_counts
    first_bad_words
}

fn setting<H: Calls>(host: &mut H, group: u64, file: &str, line: &str) -> u32 {
    host.write_setting(0, group, file.as_bytes(), line.as_bytes())
}

/// Group 1 under the root, cpu, memory and pids on in it.
fn one_group<H: Calls>() -> H {
    let mut host = H::fresh(1024);
    assert_eq!(host.make(0, ROOT, 1), 0);
    assert_eq!(host.write_subtree_control(0, ROOT, b"+cpu +memory +pids"), 0);
    host
}

///     0 (1024 pages)
///     └ 1  max 40960
///       └ 2  max 32768, process 5
fn p1_to_p5_charges_up_the_chain<H: Calls>() {
    let mut host = H::fresh(1024);
    assert_eq!(host.make(0, ROOT, 1), 0);
    assert_eq!(host.make(0, 1, 2), 0);
    assert_eq!(host.write_subtree_control(0, ROOT, b"+memory"), 0);
    assert_eq!(host.write_subtree_control(0, 1, b"+memory"), 0);
    assert_eq!(setting(&mut host, 1, "memory.max", "40960"), 0);
    assert_eq!(setting(&mut host, 2, "memory.max", "32768"), 0);
    assert_eq!(host.admit(5, 0), 0);
    assert_eq!(host.write_procs(0, 2, b"5"), 0);

    assert_eq!(charge(&mut host, 5, 8), (0, NO_GROUP, 3));
    assert_eq!(charge(&mut host, 5, 1), (12, 2, 1));
    assert_eq!(host.release(2, 2), 0);
    assert_eq!(setting(&mut host, 1, "memory.max", "20480"), 0);
    assert_eq!(read(&host, 1, "memory.current"), Ok("24576\n".into()));
    assert_eq!(charge(&mut host, 5, 1), (12, 1, 2));

    assert_eq!(host.exit(5), 0);
    assert_eq!(host.remove(0, 2), 0);
    assert_eq!(host.clone().release(1, 7), 34);
    assert_eq!(host.clone().release(1, 6), 0);
    assert_eq!(host.collect(5), 0);
    assert_eq!(host.clone().release(1, 7), 34);
    assert_eq!(host.clone().release(1, 6), 0);
}

fn p6_p7_rounding_and_the_top_figure<H: Calls>() {
    let mut host: H = one_group();
    for (written, shown) in [
        ("4097", "4096\n"),
        ("0", "0\n"),
        ("4503599627370496", "4503599627370496\n"),
        ("max\n", "max\n"),
    ] {
        assert_eq!(setting(&mut host, 1, "memory.max", written), 0);
        assert_eq!(read(&host, 1, "memory.max"), Ok(shown.into()));
    }
    assert_eq!(setting(&mut host, 1, "memory.max", "4503599627370497"), 34);
    assert_eq!(read(&host, 1, "memory.max"), Ok("max\n".into()));
}

fn p8_weights<H: Calls>() {
    let mut host: H = one_group();
    for (line, number, after) in [
        ("1", 0, "1\n"),
        ("10000", 0, "10000\n"),
        ("0", 34, "10000\n"),
        ("10001", 34, "10000\n"),
        ("1 2", 22, "10000\n"),
    ] {
        assert_eq!(setting(&mut host, 1, "cpu.weight", line), number, "{line}");
        assert_eq!(read(&host, 1, "cpu.weight"), Ok(after.into()), "{line}");
    }
}

fn p9_the_last_word_counts<H: Calls>() {
    let mut host = H::fresh(1024);
    assert_eq!(host.write_subtree_control(0, ROOT, b"+cpu -cpu +memory"), 0);
    assert_eq!(read(&host, ROOT, "cgroup.subtree_control"), Ok("memory\n".into()));
}

///     0
///     └ 1 (user 0)
///       ├ 2 C0 (user 1000)
///       │ ├ 4 C00 (user 1000)
///       │ └ 6 C01 (user 1000)
///       └ 3 C1 (user 1000)
///         └ 5 C10 (user 1000), process 9 of user 1000
fn p10_the_common_ancestor<H: Calls>() {
    let mut host = H::fresh(1024);
    for (parent, group) in [(0, 1), (1, 2), (1, 3)] {
        assert_eq!(host.make(0, parent, group), 0);
    }
    for group in [2, 3] {
        assert_eq!(host.hand_over(0, group, 1000), 0);
        assert_eq!(host.make(1000, group, group + 2), 0);
    }
    assert_eq!(host.make(1000, 2, 6), 0);
    assert_eq!(host.admit(9, 1000), 0);
    assert_eq!(host.write_procs(0, 5, b"9"), 0);
    assert_eq!(host.write_procs(1000, 4, b"9"), 13);
    assert_eq!(host.write_procs(1000, 3, b"9"), 0);
    assert_eq!(host.write_procs(1000, 5, b"9"), 0);
    assert_eq!(host.hand_over(0, 1, 1000), 0);
    assert_eq!(host.write_procs(1000, 4, b"9"), 0);
}

fn p11_membership_line<H: Calls>() {
    let mut host = H::fresh(1024);
    assert_eq!(host.make(0, ROOT, 3), 0);
    assert_eq!(host.make(0, 3, 7), 0);
    assert_eq!(host.admit(5, 0), 0);
    let (mut reply, mut told) = ([b'.'; 10], [77]);
    assert_eq!(host.membership(5, &mut reply, &mut told), 0);
    assert_eq!((&reply, told), (b"0::/\n.....", [5]));
    assert_eq!(host.write_procs(0, 7, b"5"), 0);
    assert_eq!(host.membership(5, &mut reply, &mut told), 0);
    assert_eq!((&reply, told), (b"0::/3/7\n..", [8]));
}

fn whole_replies<H: Calls>() {
    let mut host = H::fresh(1024);
    for process in [200, 3, 12] {
        assert_eq!(host.admit(process, 0), 0);
    }
    let (mut reply, mut told) = ([b'.'; 10], [77]);
    assert_eq!(host.read(ROOT, b"cgroup.procs", &mut reply[..8], &mut told), 28);
    assert_eq!((&reply, told), (b"..........", [0]));
    assert_eq!(host.read(ROOT, b"cgroup.procs", &mut reply, &mut told), 0);
    assert_eq!((&reply, told), (b"3\n12\n200\n.", [9]));

    assert_eq!(host.write_subtree_control(0, ROOT, b"+memory +cpu"), 0);
    let (mut reply, mut told) = ([b'.'; 12], [77]);
    assert_eq!(host.read(ROOT, b"cgroup.subtree_control", &mut reply, &mut told), 0);
    assert_eq!((&reply, told), (b"cpu memory\n.", [11]));
}

fn depths<H: Calls>() {
    let mut host = H::fresh(1024);
    for depth in 0..16 {
        assert_eq!(host.make(0, depth, depth + 1), 0, "under depth {depth}");
    }
    assert_eq!(host.make(0, 16, 17), 11);
    assert_eq!(host.make(0, 15, 17), 0);
}

///     0 (9 pages)
///     └ 1  pids.max 2, memory.max 40960
///       └ 2
///         └ 3  process 5
fn consulted_counts<H: Calls>() {
    let mut host = H::fresh(9);
    for group in 1..=3 {
        assert_eq!(host.make(0, group - 1, group), 0);
    }
    assert_eq!(host.write_subtree_control(0, ROOT, b"+memory +pids"), 0);
    assert_eq!(setting(&mut host, 1, "pids.max", "2"), 0);
    assert_eq!(setting(&mut host, 1, "memory.max", "40960"), 0);
    assert_eq!(host.admit(5, 0), 0);
    assert_eq!(host.write_procs(0, 3, b"5"), 0);
    assert_eq!(fork(&mut host, 5, 6), (0, NO_GROUP, 4));
    assert_eq!(fork(&mut host, 5, 7), (11, 1, 3));
    assert_eq!(fork(&mut host, 9, 1025), (3, NO_GROUP, 0));
    assert_eq!(fork(&mut host, 5, 1025), (22, NO_GROUP, 0));
    assert_eq!(fork(&mut host, 5, 6), (17, NO_GROUP, 0));
    assert_eq!(charge(&mut host, 5, 9), (0, NO_GROUP, 4));
    assert_eq!(charge(&mut host, 5, 1), (12, 0, 4));
    assert_eq!(charge(&mut host, 5, 2), (12, 1, 3));
    assert_eq!(charge(&mut host, 9, 0), (3, NO_GROUP, 0));
    assert_eq!(charge(&mut host, 5, 0), (22, NO_GROUP, 0));
    assert_eq!(host.admit(7, 0), 0);
    assert_eq!(charge(&mut host, 7, 1), (12, 0, 1));
}

fn first_bad_words<H: Calls>() {
    let host = H::fresh(0);
    let long = [&[b' '; 300][..], b"cpu"].concat();
    for (line, first, length) in [
        (b"+cpu +disk -pids\n".as_slice(), 5, 5),
        (b"+cpu \n", 5, 0),
        (b"", 0, 0),
        (b"\n", 0, 0),
        (b"\n\n", 0, 1),
        (b"  +", 2, 1),
        (b"+cpu\t+pids", 0, 10),
        (b"-memory \xff ++cpu", 8, 1),
        (&long, 300, 3),
    ] {
        let mut told = [77; 2];
        host.first_bad_word(line, &mut told);
        assert_eq!(told, [first, length], "{}", line.escape_ascii());
    }
}
