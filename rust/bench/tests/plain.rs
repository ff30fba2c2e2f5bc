//! The baseline answers as the model does: what is timed against is a host for the same calls.

use shootspiral::number::{LAST_GROUP, LAST_PROCESS, LONGEST_MEMBERSHIP};
use shootspiral_bench::Plain;
use shootspiral_bench::work::{begin_in, must};
use shootspiral_check::Calls;
use shootspiral_check::explore::{Counts, explore};

fn agrees_with_the_model(fresh: impl Fn(u64) -> Plain) {
    let mut counts = Counts::new();
    for seed in 1..=30 {
        if let Some(found) = explore(seed, 300, &fresh, &mut counts) {
            let found = found.shortest(&fresh);
            panic!("{}\n{}", found.as_test(), found.difference);
        }
    }
}

#[test]
fn the_baseline_agrees_with_the_model() {
    agrees_with_the_model(Plain::fresh);
}

/// Also with a tree that was written over another, in which every number was taken: every other group
/// was removed after all its processes had ended, the rest was live.
#[test]
fn a_renewed_baseline_agrees_with_the_model() {
    let mut used = Plain::fresh(1024);
    must(used.write_subtree_control(0, 0, b"+cpu +io +memory +pids"));
    for group in 1..=LAST_GROUP.0 {
        must(used.make(0, 0, group));
        must(used.hand_over(0, group, 1000));
        must(used.write_setting(0, group, b"io.max", b"8:16 rbps=1"));
    }
    for process in 1..=LAST_PROCESS.0 {
        let group = process % LAST_GROUP.0 + 1;
        begin_in(&mut used, process, group);
        must(used.charge(process, 1, &mut [0; 2]));
        if group.is_multiple_of(2) {
            must(used.exit(process));
        }
    }
    for group in (2..=LAST_GROUP.0).step_by(2) {
        must(used.remove(0, group));
    }
    agrees_with_the_model(|machine_pages| {
        let mut plain = used.clone();
        plain.renew(machine_pages);
        plain
    });
}

/// Numbers stay taken as long as a zombie's path runs through them, and its line keeps the path.
#[test]
fn a_zombie_keeps_its_path() {
    let mut plain = Plain::fresh(1024);
    for group in [1, 2] {
        must(plain.make(0, group - 1, group));
    }
    for process in [5, 6] {
        begin_in(&mut plain, process, 2);
        must(plain.exit(process));
    }
    assert_eq!(line(&plain, 5), b"0::/1/2\n");
    must(plain.remove(0, 2));
    must(plain.remove(0, 1));
    assert_eq!(line(&plain, 5), b"0::/1/2 (deleted)\n");
    assert_eq!([plain.exit(5), plain.admit(5, 0), plain.collect(7)], [3, 17, 3]);
    must(plain.collect(5));
    assert_eq!([1, 2].map(|group| plain.make(0, 0, group)), [17, 17]);
    must(plain.collect(6));
    assert_eq!([1, 2].map(|group| plain.make(0, 0, group)), [0, 0]);
    assert_eq!([plain.collect(6), plain.admit(6, 0)], [3, 0]);
}

fn line(plain: &Plain, process: u64) -> Vec<u8> {
    let (mut reply, mut told) = (vec![0; LONGEST_MEMBERSHIP], [0; 1]);
    must(plain.membership(process, &mut reply, &mut told));
    reply.truncate(told[0] as usize);
    reply
}
