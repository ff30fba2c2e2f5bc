//! The evenings of `crates/model/specs/ZombieEvenings.antt`, run, of order 5: what a zombie's
//! number and the number of a removed group answer in every call, and that the earlier of two
//! refusals wins; what a zombie does not count for; which numbers a collect frees; and its
//! membership line. At the end three evenings that the table does not have.

#[macro_use]
mod common;

use common::rows::*;
use shootspiral_check::Calls;

both! {
    collecting
    named_in_calls
    number_taken
    uncounted
    no_inner_process
    removed_number
    removed_chain
    lower_first
    upper_first
    made_again
    under_live
    three_levels
    beside
    line_lengths
    longest_path
    named_after_removal
    deep_zombie
    removed_in_turn
}

/// Collect: 3, for a live process, for a free number and for numbers out of range, and a second
/// time. It is of one zombie.
fn collecting<H: Calls>() {
    let mut evening = Evening::<H>::begun(0);
    evening.succeed([admit(1, 7), admit(1024, 7)]);
    evening.get(3, [0, 1, 5, 9, 1024, 1025].map(collect));
    evening.succeed([1, 5, 6, 1024].map(exit));
    evening.get(3, [0, 9, 261, 1025, 1029, 65541, 2147483653, 4294967301].map(collect));
    evening.succeed([collect(5)]);
    evening.get(3, [collect(5)]);
    evening.unknown(5, 3);
    evening.unknown(1030, 3);
    evening.belongs(6, "0::/\n");
    evening.get(17, [1, 6, 1024].map(|process| admit(process, 8)));
    evening.succeed([1024, 6, 1].map(collect));
    evening.succeed([1, 5, 6, 1024].map(|process| admit(process, 8)));
}

/// "cannot be moved, charged to or forked from (3)", nor ended again: 3 before 22, 17 and 12, and
/// in cgroup.procs after all that comes before it there and before 13 and 16, for user 0 too. 5
/// ended in 2, and 6, user 8's, in the root.
fn named_in_calls<H: Calls>() {
    let mut evening = Evening::<H>::begun(8);
    evening.succeed([control(0, 0, "+cpu"), control(7, 1, "+cpu"), procs(0, 2, "5")]);
    evening.succeed([exit(5), exit(6), admit(4, 7)]);
    evening.get(3, [exit(5), exit(6)]);
    evening.get(3, [1, 9, 0, 1048577].map(|pages| charge(5, pages)));
    evening.get(3, [10, 0, 1025, 4, 5].map(|process| fork(5, process)));
    evening.get(22, [procs(8, 256, "5"), procs(0, 258, "5")]);
    evening.get(22, [procs(7, 2, "5 5"), procs(7, 2, "5\n\n"), procs(7, 2, padded(129, "5"))]);
    evening.get(2, [procs(8, 9, "5")]);
    evening.get(13, [procs(8, 2, "5"), procs(7, 0, "5")]);
    evening.get(3, [0, 1, 2, 3].map(|group| procs(0, group, "5")));
    evening.get(3, [1, 2, 3].map(|group| procs(7, group, "5")));
    evening.get(3, [procs(7, 1, "6"), procs(7, 2, "6"), procs(0, 2, " 006\n")]);
    evening.belongs(5, "0::/1/2\n");
    evening.belongs(6, "0::/\n");
}

/// "Its number is taken: admit and fork answer 17", before 11 and after 22 and 3, until it is
/// collected. Who has the number then is the new process's own user's, or its parent's, and not
/// the zombie's.
fn number_taken<H: Calls>() {
    let mut evening = Evening::<H>::begun(0);
    evening.succeed([control(0, 0, "+pids"), setting(0, 1, "pids.max", "1")]);
    evening.succeed([procs(0, 2, "5"), procs(0, 2, "6"), exit(5)]);
    evening.get(22, [admit(1029, 8), fork(6, 1029)]);
    evening.get(17, [admit(5, 8), admit(5, 7), fork(6, 5)]);
    evening.get(3, [fork(9, 5)]);
    evening.stopped(fork(6, 4), 11, 1, 2);
    evening.succeed([collect(5)]);
    evening.stopped(fork(6, 5), 11, 1, 2);
    evening.succeed([setting(0, 1, "pids.max", "2")]);
    evening.granted(fork(6, 5), 3);
    evening.get(13, [procs(7, 3, "5")]);
    evening.succeed([exit(6), collect(6), admit(6, 7), procs(0, 2, "6"), procs(7, 3, "6")]);
    evening.belongs(6, "0::/1/3\n");
    evening.belongs(5, "0::/1/2\n");
}

/// "A zombie isn't in cgroup.procs", "doesn't count as live"; "pids.current counts live ones
/// only", and so do pids.max and cgroup.events.
fn uncounted<H: Calls>() {
    let mut evening = Evening::<H>::begun(0);
    evening.succeed([control(0, 0, "+pids"), setting(0, 1, "pids.max", "2")]);
    evening.succeed([procs(0, 2, "5"), procs(0, 2, "6")]);
    evening.stopped(fork(6, 4), 11, 1, 2);
    evening.succeed([exit(5)]);
    evening.reads(1, "pids.current", "1\n");
    evening.granted(fork(6, 4), 3);
    evening.stopped(fork(6, 10), 11, 1, 2);
    evening.reads(2, "cgroup.procs", "4\n6\n");
    evening.succeed([exit(6)]);
    evening.reads(1, "cgroup.events", "populated 1\n");
    evening.succeed([exit(4)]);
    evening.reads(1, "cgroup.events", "populated 0\n");
    evening.reads(1, "pids.current", "0\n");
    evening.reads(2, "cgroup.procs", "");
}

/// A zombie is no process of the inner-process rule, and "doesn't stop a removal", of its group
/// and of those above; nor does a removed child, which holds no controller either. The pages that
/// zombies charged stay, and pass up as all do.
fn no_inner_process<H: Calls>() {
    let mut evening = Evening::<H>::begun(8);
    evening.succeed([control(0, 0, "+memory +pids"), procs(0, 1, "6"), procs(0, 2, "5")]);
    evening.granted(charge(5, 3), 3);
    evening.granted(charge(6, 1), 2);
    evening.succeed([exit(5)]);
    evening.get(16, [control(7, 1, "+pids")]);
    evening.succeed([exit(6), control(7, 1, "+memory +pids"), control(7, 2, "+pids")]);
    evening.get(16, [control(7, 1, "-pids")]);
    evening.reads(2, "memory.current", "12288\n");
    evening.succeed([remove(7, 2), control(7, 1, "-pids")]);
    evening.get(34, [release(1, 5)]);
    evening.succeed([release(1, 2), remove(7, 3), remove(0, 1)]);
    evening.get(34, [release(0, 3)]);
    evening.succeed([release(0, 2)]);
    evening.belongs(5, "0::/1/2 (deleted)\n");
    evening.belongs(6, "0::/1 (deleted)\n");
}

/// The tree of `begun` where 5 ended in 2.
fn one_ended<H: Calls>() -> Evening<H> {
    let mut evening = Evening::begun(0);
    evening.succeed([procs(0, 2, "5"), exit(5)]);
    evening
}

/// "until then make answers 17": 22, 2, 17, 13. In every other call the number of a removed group
/// is not live, 2, before what else it could be refused for there.
fn removed_number<H: Calls>() {
    let mut evening = one_ended::<H>();
    evening.succeed([control(0, 0, "+memory"), control(7, 1, "+memory"), remove(7, 2)]);
    evening.get(22, [make(0, 256, 2), make(0, 2, 256), make(0, 1, 258), make(0, 258, 4)]);
    evening.get(2, [make(0, 9, 2), make(0, 2, 2), make(0, 2, 3), make(8, 2, 4), make(0, 2, 4)]);
    evening.get(17, [make(0, 1, 2), make(7, 3, 2), make(8, 1, 2), make(7, 0, 2), admit(5, 8)]);
    evening.get(13, [make(8, 1, 4)]);
    evening.get(2, [remove(0, 2), remove(8, 2), hand_over(0, 2, 8), hand_over(7, 2, 8)]);
    evening.get(2, [procs(0, 2, "6"), procs(7, 2, "5"), procs(8, 2, "x")]);
    evening.get(2, [control(0, 2, ""), control(8, 2, "x")]);
    evening.get(2, [setting(7, 2, "memory.max", "max"), setting(8, 2, "memory.max", "x")]);
    evening.get(2, [release(2, 1)]);
    evening.get(22, [release(2, 0)]);
    evening.absent(2, ["cgroup.procs", "cgroup.controllers", "cgroup.subtree_control"]);
    evening.absent(2, ["cgroup.events", "memory.current", "memory.max"]);
    evening.belongs(5, "0::/1/2 (deleted)\n");
}

/// The same of a removed group further up. Both numbers are taken, and no other; after the collect
/// both can be made again, elsewhere too, and their line says nothing of it.
fn removed_chain<H: Calls>() {
    let mut evening = one_ended::<H>();
    evening.succeed([remove(7, 2), remove(7, 3), remove(0, 1)]);
    evening.get(17, [make(0, 0, 1), make(8, 0, 2)]);
    evening.get(2, [make(0, 1, 2), make(0, 2, 1), make(0, 1, 4), remove(0, 1)]);
    evening.get(2, [hand_over(0, 1, 8), procs(0, 1, "6"), control(0, 1, ""), release(1, 1)]);
    evening.absent(1, ["cgroup.procs", "cgroup.events"]);
    evening.succeed([make(0, 0, 3), make(0, 3, 4)]);
    evening.get(17, [make(0, 4, 1)]);
    evening.belongs(5, "0::/1/2 (deleted)\n");
    evening.succeed([collect(5), make(0, 3, 2), make(0, 2, 1), procs(0, 1, "6")]);
    evening.belongs(6, "0::/3/2/1\n");
}

/// 5 ended in 2 under 1 and 6 in 1, and both groups were removed.
fn two_ended<H: Calls>() -> Evening<H> {
    let mut evening = Evening::of(0);
    evening.succeed([make(0, 0, 1), make(0, 1, 2), admit(5, 0), admit(6, 0)]);
    evening.succeed([procs(0, 2, "5"), procs(0, 1, "6"), exit(5), exit(6)]);
    evening.succeed([remove(0, 2), remove(0, 1)]);
    evening
}

/// The zombie of 2 collected first: 2 is free, and 1 is not.
fn lower_first<H: Calls>() {
    let mut evening = two_ended::<H>();
    evening.succeed([collect(5)]);
    evening.get(17, [make(0, 0, 1)]);
    evening.succeed([make(0, 0, 2)]);
    evening.unknown(5, 3);
    evening.belongs(6, "0::/1 (deleted)\n");
    evening.succeed([collect(6), make(0, 2, 1)]);
}

/// The zombie of 1 collected first: nothing is free.
fn upper_first<H: Calls>() {
    let mut evening = two_ended::<H>();
    evening.succeed([collect(6)]);
    evening.get(17, [make(0, 0, 1), make(0, 0, 2)]);
    evening.belongs(5, "0::/1/2 (deleted)\n");
    evening.succeed([collect(5), make(0, 0, 2), make(0, 0, 1)]);
}

/// Two zombies of one group: the last frees its number. In a group made again a process, and a
/// zombie, have a line without " (deleted)".
fn made_again<H: Calls>() {
    let mut evening = Evening::<H>::begun(0);
    evening.succeed([procs(0, 2, "5"), procs(0, 2, "6"), exit(5), exit(6)]);
    evening.succeed([remove(7, 2), collect(5)]);
    evening.get(17, [make(7, 1, 2)]);
    evening.belongs(6, "0::/1/2 (deleted)\n");
    evening.succeed([collect(6), make(7, 3, 2), admit(5, 7), procs(0, 2, "5")]);
    evening.belongs(5, "0::/1/3/2\n");
    evening.succeed([exit(5)]);
    evening.belongs(5, "0::/1/3/2\n");
}

/// Three levels, of which the first stays live: it is made under, written, charged and handed over
/// as before, and no line changes. The zombie of 4 frees 4, and 2 is on the other's path.
fn under_live<H: Calls>() {
    let mut evening = Evening::<H>::begun(8);
    evening.succeed([make(7, 2, 4), procs(0, 4, "5"), procs(0, 2, "6"), exit(5), exit(6)]);
    evening.succeed([remove(7, 4), remove(7, 2)]);
    evening.succeed([make(7, 1, 10), remove(7, 3), make(7, 10, 3), admit(11, 7)]);
    evening.succeed([procs(0, 1, "11"), control(0, 0, "+pids"), setting(0, 1, "pids.max", "1")]);
    evening.succeed([hand_over(0, 1, 8)]);
    evening.granted(charge(11, 1), 2);
    evening.belongs(5, "0::/1/2/4 (deleted)\n");
    evening.belongs(6, "0::/1/2 (deleted)\n");
    evening.belongs(11, "0::/1\n");
    evening.get(17, [make(8, 1, 2), make(8, 1, 4)]);
    evening.succeed([collect(5)]);
    evening.get(17, [make(8, 1, 2)]);
    evening.succeed([make(8, 1, 4)]);
    evening.belongs(6, "0::/1/2 (deleted)\n");
}

/// Three levels, all removed: the zombie of the lowest frees it and the one above, and the first
/// is on the other's path.
fn three_levels<H: Calls>() {
    let mut evening = Evening::<H>::of(0);
    evening.succeed([make(0, 0, 1), make(0, 1, 2), make(0, 2, 4), admit(5, 7), procs(0, 4, "5")]);
    evening.succeed([admit(6, 8), procs(0, 1, "6"), exit(6), exit(5)]);
    evening.succeed([remove(0, 4), remove(0, 2), remove(0, 1)]);
    evening.get(17, [1, 2, 4].map(|group| make(0, 0, group)));
    evening.succeed([collect(5)]);
    evening.get(17, [make(0, 0, 1)]);
    evening.succeed([make(0, 0, 4), make(0, 4, 2)]);
    evening.belongs(6, "0::/1 (deleted)\n");
}

/// A group that was removed with no zombie inside is free at once, though zombies ended beside it,
/// above it and in the root. No " (deleted)" while the zombie's own group is live, and the root
/// always is.
fn beside<H: Calls>() {
    let mut evening = Evening::<H>::begun(0);
    evening.succeed([procs(0, 2, "5"), procs(0, 1, "6"), admit(4, 0), exit(4), exit(5), exit(6)]);
    evening.succeed([remove(7, 3), make(7, 2, 3), remove(7, 3)]);
    evening.belongs(5, "0::/1/2\n");
    evening.belongs(6, "0::/1\n");
    evening.succeed([remove(7, 2)]);
    evening.belongs(6, "0::/1\n");
    evening.succeed([remove(0, 1), make(0, 0, 3)]);
    evening.belongs(4, "0::/\n");
}

/// A line that fits, and one byte less: 28, and the buffer stays. After the collect 3, before 28.
fn line_lengths<H: Calls>() {
    let mut evening = one_ended::<H>();
    evening.belongs(5, "0::/1/2\n");
    evening.unknown_into(7, 5, 28);
    evening.succeed([remove(7, 2)]);
    evening.unknown_into(8, 5, 28);
    evening.unknown_into(17, 5, 28);
    evening.belongs(5, "0::/1/2 (deleted)\n");
    evening.succeed([collect(5)]);
    evening.unknown(5, 3);
}

/// The membership line of a zombie that ended at the end of `descent`, the longest that there is.
const REMOVED_LINE: &str =
    "0::/240/241/242/243/244/245/246/247/248/249/250/251/252/253/254/255 (deleted)\n";

/// 17 before 11, and 2 before 11 where the parent was removed. The longest line fits its 78 bytes,
/// and not 77: all sixteen groups of the longest chain are removed, from the bottom, and the
/// highest is taken as the lowest is.
fn longest_path<H: Calls>() {
    let mut evening = Evening::<H>::of(0);
    evening.succeed(descent());
    evening.succeed([make(0, 254, 1), admit(5, 0), procs(0, 255, "5"), exit(5), remove(0, 255)]);
    evening.get(17, [make(0, 1, 255)]);
    evening.get(11, [make(0, 1, 2)]);
    evening.get(2, [make(0, 255, 2)]);
    evening.succeed([remove(0, 1)]);
    for group in (240..255).rev() {
        evening.succeed([remove(0, group)]);
    }
    evening.unknown_into(77, 5, 28);
    assert_eq!(REMOVED_LINE.len(), 78);
    evening.belongs(5, REMOVED_LINE);
    evening.get(17, [make(0, 0, 240)]);
}

/// 5 ended in 4, and 4 under 2 was removed, as was 2; 6 ended in 3, which is live. A zombie of a
/// removed group is refused where one of a live group is, and the number of a removed group
/// further up where the zombie's own is: 2 before 13 and before 22 of the line, 17 before 13. The
/// collect of another zombie frees neither. No more processes may be in 1.
fn named_after_removal<H: Calls>() {
    let mut evening = Evening::<H>::begun(8);
    evening.succeed([make(7, 2, 4), procs(0, 4, "5"), procs(0, 3, "6"), admit(7, 7)]);
    evening.succeed([procs(0, 3, "7"), exit(5), exit(6), remove(7, 4), remove(7, 2)]);
    evening.succeed([control(0, 0, ALL), setting(0, 1, "pids.max", "1")]);
    evening.get(3, [exit(5), charge(5, 0), charge(5, 1), charge(5, 1048577), collect(u64::MAX)]);
    evening.get(3, [fork(5, 0), fork(5, 7), fork(5, 9), fork(5, 1025)]);
    evening.get(3, [0, 7].map(|user| procs(user, 1, "5")));
    evening.get(13, [procs(8, 1, "5"), procs(7, 0, "5")]);
    evening.get(22, [procs(7, 1, "5 7"), procs(7, 1, padded(129, "5"))]);
    evening.get(17, [admit(5, 0), admit(5, 7), fork(7, 5)]);
    evening.stopped(fork(7, 9), 11, 1, 2);
    evening.get(22, [make(0, 256, 2), release(2, 0)]);
    evening.get(2, [make(8, 9, 2), make(8, 2, 1), make(8, 2, 2)]);
    evening.get(17, [make(8, 0, 2), make(7, 1, 2), make(0, 3, 2)]);
    evening.get(2, [remove(8, 2), hand_over(8, 2, 8), procs(8, 2, "x"), control(8, 2, "x")]);
    evening.get(2, [setting(8, 2, "pids.max", "x"), release(2, 1)]);
    evening.succeed([collect(6)]);
    evening.get(3, [collect(6), exit(6)]);
    evening.get(17, [make(8, 1, 2), make(8, 1, 4)]);
    evening.succeed([collect(5)]);
    evening.get(13, [make(8, 1, 2), make(8, 1, 4)]);
    evening.succeed([make(7, 1, 4), make(7, 4, 2), admit(5, 7), admit(6, 8)]);
}

/// Under the deepest group 17 before 13 and 11, which both hold there; after the collect 13, then
/// 11.
fn deep_zombie<H: Calls>() {
    let mut evening = Evening::<H>::of(1);
    evening.succeed(descent());
    evening.succeed([make(0, 0, 1), admit(5, 7), procs(0, 1, "5"), exit(5), remove(0, 1)]);
    evening.get(17, [make(7, 255, 1)]);
    evening.succeed([collect(5)]);
    evening.get(13, [make(7, 255, 1)]);
    evening.get(11, [make(0, 255, 1)]);
    evening.succeed([make(0, 254, 1)]);
}

/// 7 ended in 3 under 2, and 3 was removed while 5 and 6 were live in 2; then they ended, with a
/// page charged, and 2 was removed; then they were collected, and 1 was removed. The collect of 7
/// frees all three, and made again they have no set and no pages.
fn removed_in_turn<H: Calls>() {
    let mut evening = Evening::<H>::of(8);
    evening.succeed([make(0, 0, 1), make(0, 1, 2), make(0, 2, 3), control(0, 0, ALL)]);
    evening.succeed([control(0, 1, "+memory +pids"), admit(5, 7), admit(7, 8)]);
    evening.succeed([procs(0, 2, "5"), procs(0, 3, "7")]);
    evening.granted(charge(5, 1), 3);
    evening.granted(fork(5, 6), 3);
    evening.succeed([exit(7)]);
    evening.reads(3, "cgroup.events", "populated 0\n");
    evening.succeed([remove(0, 3)]);
    evening.reads(2, "cgroup.procs", "5\n6\n");
    evening.reads(2, "pids.current", "2\n");
    evening.succeed([exit(5), exit(6), control(0, 2, "+pids"), remove(0, 2)]);
    evening.reads(1, "memory.current", "4096\n");
    evening.succeed([collect(5), collect(6), admit(5, 9)]);
    evening.belongs(5, "0::/\n");
    evening.get(17, [make(0, 1, 2), make(0, 1, 3)]);
    evening.succeed([remove(0, 1)]);
    evening.belongs(7, "0::/1/2/3 (deleted)\n");
    evening.get(17, [1, 2, 3].map(|group| make(0, 0, group)));
    evening.succeed([collect(7), make(0, 0, 3), make(0, 3, 2), make(0, 2, 1)]);
    evening.reads(1, "cgroup.subtree_control", "");
    evening.reads(2, "cgroup.subtree_control", "");
    evening.get(34, [release(1, 1), release(2, 1), release(0, 2)]);
    evening.succeed([release(0, 1)]);
}
