//! The evenings of `crates/model/specs/Refusals.antt`, run: for each call of document 01 the number
//! of each refusal, and the earlier one where two checks fail; who may; lines that are malformed.
//! Group 9 and process 9 are never live. At the end the last numbers where they are not live, which
//! the table does not have.

#[macro_use]
mod common;

use common::rows::*;
use shootspiral_check::Calls;

both! {
    making
    deepening
    removing
    handing
    moving
    controlling
    occupied
    holding
    setting_forms
    limit_forms
    births
    charging
    releasing
    reading
    last_numbers
}

fn making<H: Calls>() {
    let mut evening = Evening::<H>::begun(0);
    evening.get(22, [make(0, 256, 4), make(0, 256, 1), make(0, 9, 256), make(8, 1, 256)]);
    evening.get(22, [make(7, 257, 4), make(7, 1, 260)]);
    evening.get(2, [make(0, 9, 1), make(0, 9, 9), make(8, 9, 4)]);
    evening.get(17, [make(8, 1, 2), make(8, 0, 0), make(7, 1, 1)]);
    evening.get(13, [make(8, 1, 4), make(7, 0, 4)]);
    evening.succeed([make(0, 1, 255), make(7, 1, 4)]);
    evening.get(13, [make(7, 255, 5)]);
    evening.succeed([hand_over(0, 255, 8)]);
    evening.get(13, [make(7, 255, 5), make(8, 1, 5)]);
    evening.succeed([make(8, 255, 5), hand_over(0, 5, u32::MAX)]);
    evening.succeed([make(u32::MAX, 5, 6), make(u32::MAX, 6, 7)]);
    evening.get(13, [7 + (1 << 16), 7 + (1 << 31), 1 << 16, 1 << 31].map(|user| make(user, 1, 8)));
}

fn deepening<H: Calls>() {
    let mut evening = Evening::<H>::of(1);
    evening.succeed(descent());
    evening.get(22, [make(0, 255, 256)]);
    evening.get(17, [make(0, 255, 240)]);
    evening.get(13, [make(7, 255, 9)]);
    evening.get(11, [make(0, 255, 9)]);
    evening.succeed([admit(5, 7), procs(0, 255, "5")]);
    evening.granted(charge(5, 1), 17);
    evening.stopped(charge(5, 1), 12, 0, 17);
    evening.granted(fork(5, 6), 17);
    evening.belongs(6, DEEP_LINE);
}

fn removing<H: Calls>() {
    Evening::<H>::of(0).get(16, [remove(0, 0)]);
    let mut evening = Evening::<H>::begun(0);
    evening.succeed([procs(0, 2, "5")]);
    evening.get(22, [remove(7, 256), remove(0, 258), remove(0, 4294967298)]);
    evening.get(2, [remove(7, 9)]);
    evening.get(13, [remove(7, 1), remove(7, 0), remove(8, 2)]);
    evening.get(16, [remove(0, 0), remove(0, 1), remove(7, 2)]);
    evening.succeed([exit(5), collect(5), remove(7, 2)]);
    evening.get(2, [remove(7, 2)]);
    evening.succeed([make(7, 3, 2), hand_over(0, 3, 0)]);
    evening.get(13, [remove(7, 2)]);
    evening.succeed([remove(0, 2), remove(7, 3), make(7, 1, 2), remove(0, 2), remove(0, 1)]);
}

fn handing<H: Calls>() {
    let mut evening = Evening::<H>::begun(0);
    evening.get(22, [hand_over(7, 0, 7), hand_over(7, 256, 7)]);
    evening.get(22, [hand_over(0, 257, 7), hand_over(0, 4294967297, 7)]);
    evening.get(2, [hand_over(7, 9, 7)]);
    evening.get(13, [hand_over(7, 1, 8), hand_over(7, 2, 8), make(8, 1, 4)]);
    evening.succeed([hand_over(0, 1, 7), hand_over(0, 1, 0)]);
    evening.get(13, [make(7, 1, 4)]);
}

fn moving<H: Calls>() {
    let mut evening = Evening::<H>::begun(0);
    evening.succeed([control(0, 0, "+cpu"), control(7, 1, "+cpu")]);
    evening.get(22, ["x", "1025"].map(|line| procs(8, 256, line)));
    evening.get(22, [procs(0, 258, "5"), procs(0, 4294967298, "5")]);
    evening.get(2, ["x", "1025"].map(|line| procs(8, 9, line)));
    evening.get(13, ["x", "0", "9", "1025"].map(|line| procs(8, 2, line)));
    evening.get(13, [procs(8, 2, padded(129, "5")), procs(7, 0, "5")]);
    let malformed = ["", "x", "5 6", "+5", "-1", "5\t", "5\n\n", "5\r\n", "0", "000"];
    evening.get(22, malformed.map(|line| procs(7, 2, line)));
    evening.get(22, ["5:", "/5", ":", "\n5"].map(|line| procs(7, 2, line)));
    let long = [padded(129, "9"), padded(129, "1025"), padded(128, "5") + "\n"];
    evening.get(22, long.map(|line| procs(7, 2, line)));
    let strangers = ["9", "1025", "1029", "4294967301", "18446744073709551621"];
    evening.get(3, strangers.map(|line| procs(7, 2, line)));
    evening.get(13, [procs(7, 2, "5")]);
    evening.succeed([procs(0, 2, "5"), procs(0, 2, "6")]);
    evening.get(13, [procs(7, 3, "6"), procs(7, 1, "6")]);
    evening.get(16, [procs(7, 1, "5"), procs(0, 1, "5")]);
    evening.succeed([procs(7, 3, " 5"), procs(7, 2, padded(128, "0005"))]);
    evening.succeed([procs(7, 3, long_five())]);
    evening.belongs(5, "0::/1/3\n");
    evening.succeed([procs(0, 0, "5")]);
}

fn controlling<H: Calls>() {
    let mut evening = Evening::<H>::begun(0);
    evening.succeed([control(0, 0, "+cpu +memory"), hand_over(0, 3, 8)]);
    evening.get(22, [control(8, 256, "x"), control(0, 257, ""), control(0, 4294967297, "")]);
    evening.get(2, [control(8, 9, "x")]);
    evening.get(13, [control(8, 1, "x"), control(8, 1, "+pids"), control(8, 1, padded(129, ""))]);
    evening.get(13, [control(7, 3, ""), control(7, 0, "")]);
    let malformed = ["+pids x", "+cpu x", "+", "-", "cpu", "*cpu", "++cpu", "+cpu+memory", "+CPU"];
    evening.get(22, malformed.map(|line| control(7, 1, line)));
    let malformed = ["-disk", "+cpu\t+memory", "+cpu,+memory", "\n+cpu", "\n\n"];
    evening.get(22, malformed.map(|line| control(7, 1, line)));
    let long = [padded(129, ""), padded(129, "+pids"), padded(128, "") + "\n"];
    evening.get(22, long.map(|line| control(7, 1, line)));
    evening.get(22, [control(7, 1, "+cpu\0")]);
    evening.succeed([padded(128, ""), padded(127, "") + "\n"].map(|line| control(7, 1, line)));
    evening.succeed(["", "\n", "-pids", "+pids -pids"].map(|line| control(7, 1, line)));
    evening.get(2, [control(7, 1, "-pids +pids"), control(7, 2, "+cpu"), control(7, 2, "+memory")]);
    evening.reads(1, "cgroup.subtree_control", "");
    evening.succeed([control(7, 1, "  +memory  +cpu\n")]);
    evening.get(2, [control(7, 1, "-memory +pids")]);
    evening.reads(1, "cgroup.subtree_control", "cpu memory\n");
    evening.succeed([control(0, 1, "-memory -cpu +cpu -cpu +memory")]);
    evening.reads(1, "cgroup.subtree_control", "memory\n");
}

fn occupied<H: Calls>() {
    let mut evening = Evening::<H>::begun(0);
    evening.succeed([control(0, 0, "+cpu +memory"), control(7, 1, "+cpu"), control(7, 2, "+cpu")]);
    evening.succeed([procs(0, 3, "5")]);
    evening.get(2, [control(7, 1, "-cpu +pids"), control(7, 3, "+cpu +pids")]);
    evening.get(16, [control(7, 1, "-cpu"), control(7, 3, "+cpu")]);
    evening.succeed(["", "-cpu", "+cpu -cpu"].map(|line| control(7, 3, line)));
    evening.succeed([control(7, 1, "+memory"), control(0, 0, "+pids")]);
}

fn holding<H: Calls>() {
    let mut evening = Evening::<H>::begun(0);
    evening.succeed([0, 1, 2].map(|group| control(0, group, ALL)));
    evening.succeed([procs(0, 3, "5")]);
    evening.get(13, [control(8, 1, "-cpu"), control(8, 3, "+cpu")]);
    evening.get(22, [control(7, 1, "-cpu x"), control(7, 1, padded(129, "-cpu"))]);
    evening.get(22, [control(7, 3, "+cpu x"), control(7, 3, padded(129, "+cpu"))]);
    evening.get(16, ["-cpu", "-io", "-memory", "-pids"].map(|line| control(7, 1, line)));
    evening.get(16, ["+cpu", "+io", "+memory", "+pids"].map(|line| control(7, 3, line)));
    evening.succeed([control(7, 2, "-cpu -pids -io")]);
    evening.get(16, [procs(7, 2, "5")]);
    evening.succeed([control(7, 1, "-cpu"), control(7, 2, "-memory +io")]);
    evening.get(16, [procs(7, 2, "5")]);
    evening.succeed([control(7, 2, "-io"), control(7, 2, "+pids")]);
    evening.get(16, [procs(7, 2, "5")]);
    evening.succeed([control(7, 2, "-pids"), procs(7, 2, "5")]);
}

fn setting_forms<H: Calls>() {
    let mut evening = Evening::<H>::begun(0);
    evening.succeed([control(0, 0, "+cpu +memory"), control(7, 1, "+cpu"), hand_over(0, 2, 8)]);
    evening.succeed([make(8, 2, 4), control(8, 2, "+cpu")]);
    evening.get(22, [setting(8, 256, "cpu", "x")]);
    evening.get(22, [258, 4294967298].map(|group| setting(0, group, "cpu.weight", "1")));
    evening.get(2, [setting(8, 9, "cpu.max", "x"), setting(8, 2, "memory.max", "x")]);
    evening.get(2, [setting(0, 0, "cpu.weight", "100")]);
    let files = ["cpu", "memory.current", "cpu.maxx", "cpu.max\n", "CPU.MAX", ""];
    evening.get(2, files.map(|file| setting(8, 1, file, "x")));
    evening.get(13, ["x", "5"].map(|line| setting(8, 2, "cpu.max", line)));
    evening.get(13, [setting(8, 2, "cpu.max", padded(129, "max"))]);
    evening.get(13, [setting(7, 1, "memory.max", "max"), setting(7, 4, "cpu.weight", "1")]);
    evening.succeed([7, 0].map(|user| setting(user, 2, "cpu.weight", "1")));
    let malformed = ["", "5 x", "x 5", "5 max", "5 5 5", "Max", "maxx", "ma", "0x10", "1e3"];
    evening.get(22, malformed.map(|line| setting(7, 2, "cpu.max", line)));
    let malformed = ["", "max", "0 0", "0 0 0", "+5", "5\t", "5\n\n"];
    evening.get(22, malformed.map(|line| setting(7, 2, "cpu.weight", line)));
    evening.get(22, [setting(7, 2, "cpu.max", padded(129, "5"))]);
    let outside = ["5 5", "999", "1000000001", "1000 999", "max 1000001"];
    evening.get(34, outside.map(|line| setting(7, 2, "cpu.max", line)));
}

fn limit_forms<H: Calls>() {
    let mut evening = Evening::<H>::of(0);
    evening.succeed([make(0, 0, 1), control(0, 0, "+memory +pids")]);
    let malformed = ["", "x", "1 2", "1 2 3", "max max", "5:", "/5", "+5", "4K"];
    evening.get(22, malformed.map(|line| setting(0, 1, "memory.max", line)));
    let malformed = ["", "x", "1 2", "1 2 3", "max max", "5:", "/5", "-1"];
    evening.get(22, malformed.map(|line| setting(0, 1, "pids.max", line)));
    evening.succeed(["memory.max", "pids.max"].map(|file| setting(0, 1, file, "max")));
}

fn births<H: Calls>() {
    let mut evening = Evening::<H>::begun(0);
    evening.get(22, [admit(0, 7), admit(1025, 7), admit(1026, 7), admit(4294967304, 7)]);
    evening.get(17, [admit(5, 8)]);
    evening.succeed([admit(1024, 0)]);
    evening.belongs(1024, "0::/\n");
    evening.granted(fork(5, 4), 1);
    evening.succeed([control(0, 0, "+pids"), setting(0, 1, "pids.max", "0"), procs(0, 2, "5")]);
    evening.get(3, [fork(0, 1025), fork(1025, 0), fork(1029, 8), fork(4294967301, 8)]);
    evening.get(3, [fork(9, 0), fork(9, 5)]);
    evening.get(22, [fork(5, 0), fork(5, 1025), fork(5, 1032), fork(5, 4294967304)]);
    evening.get(17, [fork(5, 5), fork(5, 6)]);
    evening.stopped(fork(5, 7), 11, 1, 2);
    evening.succeed([setting(0, 1, "pids.max", "2")]);
    evening.granted(fork(5, 7), 3);
    evening.stopped(fork(5, 8), 11, 1, 2);
    evening.succeed([procs(7, 3, "7")]);
    evening.belongs(7, "0::/1/3\n");
    evening.get(3, [exit(0), exit(9), exit(1025), exit(1029), exit(4294967301)]);
    evening.succeed([exit(7)]);
    evening.get(3, [exit(7)]);
    evening.succeed([collect(7), admit(7, 0)]);
}

fn charging<H: Calls>() {
    let mut evening = Evening::<H>::begun(0);
    evening.get(3, [charge(0, 0), charge(1025, 0), charge(1029, 1), charge(4294967301, 1)]);
    evening.get(3, [charge(9, 1048577)]);
    evening.get(22, [charge(5, 0), charge(5, 1048577)]);
    evening.stopped(charge(5, 1), 12, 0, 1);
}

fn releasing<H: Calls>() {
    let mut evening = Evening::<H>::begun(1048576);
    evening.succeed([control(0, 0, "+memory"), procs(0, 2, "5"), setting(0, 1, "memory.max", "0")]);
    evening.stopped(charge(5, 1), 12, 1, 2);
    evening.succeed([setting(0, 1, "memory.max", "max")]);
    evening.granted(charge(5, 1048576), 3);
    evening.stopped(charge(5, 1), 12, 0, 3);
    evening.stopped(charge(6, 1), 12, 0, 1);
    evening.get(22, [release(256, 1), release(258, 1), release(4294967298, 1)]);
    evening.get(22, [release(9, 0), release(9, 1048577), release(1, 1048577)]);
    evening.get(2, [release(9, 1)]);
    evening.get(34, [release(1, 1)]);
    evening.succeed([release(2, 1048576)]);
    evening.get(34, [release(2, 1)]);
}

fn reading<H: Calls>() {
    let mut evening = Evening::<H>::of(0);
    evening.succeed([make(0, 0, 1), admit(200, 0), admit(3, 0), admit(12, 0)]);
    evening.unread(256, "cgroup", 22);
    evening.unread(256, "cgroup.events", 22);
    evening.unread(257, "cgroup.events", 22);
    evening.unread(4294967297, "cgroup.events", 22);
    evening.unread(9, "cgroup.events", 2);
    evening.unread(0, "cgroup.events", 2);
    evening.unread(1, "cpu.max", 2);
    evening.unread(0, "cgroup.procs", 28);
    evening.absent(1, ["cgroup", "cgroup.procsx", "cgroup.procs\n", "CGROUP.PROCS", ""]);
    evening.unknown(0, 3);
    evening.unknown(9, 3);
    evening.unknown(1025, 3);
    evening.unknown(1036, 3);
    evening.unknown(4294967308, 3);
    evening.unknown(12, 28);
}

/// The last numbers are in range where they are not live, in every call; those after them are not.
fn last_numbers<H: Calls>() {
    let mut evening = Evening::<H>::begun(0);
    evening.succeed([control(0, 0, ALL), setting(0, 1, "pids.max", "0"), procs(0, 2, "5")]);
    for (group, number) in [(63, 2), (64, 2), (254, 2), (255, 2), (256, 22), (257, 22)] {
        evening.get(number, [make(8, group, 1), remove(8, group), hand_over(8, group, 8)]);
        evening.get(number, [procs(8, group, "x"), control(8, group, "x"), release(group, 1)]);
        evening.get(number, [setting(8, group, "pids.max", "x")]);
        evening.unread(group, "cgroup.procs", number);
    }
    evening.get(13, [63, 64, 254, 255].map(|group| make(8, 1, group)));
    evening.get(22, [256, 257].map(|group| make(8, 1, group)));
    for process in [256, 257, 1023, 1024, 1025, 1026] {
        evening.get(3, [exit(process), collect(process), charge(process, 0), fork(process, 0)]);
        evening.get(3, [procs(0, 1, process.to_string())]);
        evening.unknown(process, 3);
    }
    for process in [256, 257, 1023, 1024] {
        evening.stopped(fork(5, process), 11, 1, 2);
    }
    evening.get(22, [1025, 1026].map(|process| fork(5, process)));
    evening.get(22, [1025, 1026].map(|process| admit(process, 0)));
    evening.succeed([256, 257, 1023, 1024].map(|process| admit(process, 0)));
}
