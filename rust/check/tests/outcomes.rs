//! The evenings of `crates/model/specs/Outcomes.antt`, run: what accepted calls do and what they
//! leave as it is, the ends of ranges from inside, and each file where it is and where it is not.
//! At the end a full tree, for which the table has no room.

#[macro_use]
mod common;

use common::rows::*;
use shootspiral_check::Calls;

both! {
    made
    handed_on
    passed_up
    movers
    staying
    in_root
    ends
    far_up
    rooms
    resetting
    neighbours
    rounded_down
    setting_ranges
    settings_apart
    whole_replies
    showing
    showing_below
    full
}

/// Files that are only where their controller is on.
const RESOURCE_FILES: [&str; 7] =
    ["memory.current", "pids.current", "cpu.weight", "cpu.max", "io.max", "memory.max", "pids.max"];

fn made<H: Calls>() {
    let mut evening = Evening::<H>::of(8);
    evening.succeed([make(0, 0, 1), control(0, 0, ALL), setting(0, 1, "cpu.weight", "5")]);
    evening.succeed([setting(0, 1, "cpu.max", "2000 5000"), setting(0, 1, "memory.max", "32768")]);
    evening.succeed([setting(0, 1, "pids.max", "3"), admit(5, 8), procs(0, 1, "5")]);
    evening.granted(charge(5, 1), 2);
    evening.succeed([hand_over(0, 1, 8), make(8, 1, 2)]);
    evening.belongs(5, "0::/1\n");
    evening.succeed([procs(8, 2, "5"), control(8, 1, ALL), setting(8, 2, "cpu.weight", "6")]);
    evening.succeed([setting(8, 2, "cpu.max", "3000 4000"), setting(8, 2, "memory.max", "16384")]);
    evening.succeed([setting(8, 2, "pids.max", "2"), setting(8, 2, "io.max", "8:16 rbps=5")]);
    evening.granted(charge(5, 2), 3);
    evening.succeed([exit(5), collect(5), control(8, 2, "+cpu"), hand_over(0, 1, 7)]);
    evening.succeed([remove(7, 2), make(7, 1, 2)]);
    evening.reads(2, "cgroup.subtree_control", "");
    evening.reads(2, "cpu.weight", "100\n");
    evening.reads(2, "cpu.max", "max 100000\n");
    evening.reads(2, "io.max", "");
    evening.reads(2, "memory.max", "max\n");
    evening.reads(2, "pids.max", "max\n");
    evening.reads(2, "memory.current", "0\n");
    evening.get(34, [release(2, 1)]);
    evening.reads(1, "cgroup.subtree_control", "cpu io memory pids\n");
    evening.reads(1, "memory.current", "12288\n");
    evening.get(13, [make(8, 2, 3)]);
    evening.succeed([make(7, 2, 3)]);
}

fn handed_on<H: Calls>() {
    let mut evening = Evening::<H>::begun(8);
    evening.succeed([control(0, 0, ALL), control(7, 1, ALL), procs(0, 2, "5")]);
    evening.succeed([setting(7, 2, "cpu.weight", "5"), setting(7, 2, "memory.max", "8192")]);
    evening.succeed([setting(7, 2, "pids.max", "1")]);
    evening.granted(charge(5, 1), 3);
    evening.succeed([hand_over(0, 1, 8), hand_over(0, 2, 8)]);
    evening.get(13, [make(7, 1, 4), make(7, 2, 4), make(8, 3, 4), procs(8, 2, "5")]);
    evening.succeed([make(7, 3, 4), make(8, 2, 10), make(8, 1, 11)]);
    evening.reads(1, "cgroup.subtree_control", "cpu io memory pids\n");
    evening.reads(2, "cpu.weight", "5\n");
    evening.reads(2, "memory.max", "8192\n");
    evening.reads(2, "pids.max", "1\n");
    evening.reads(2, "memory.current", "4096\n");
}

fn passed_up<H: Calls>() {
    let mut evening = Evening::<H>::begun(8);
    evening.succeed([control(0, 0, "+memory"), setting(0, 1, "memory.max", "28672")]);
    evening.succeed([procs(0, 1, "5")]);
    evening.granted(charge(5, 1), 2);
    evening.succeed([procs(7, 2, "5"), control(7, 1, "+memory")]);
    evening.succeed([setting(7, 2, "memory.max", "12288")]);
    evening.granted(charge(5, 3), 3);
    evening.succeed([procs(7, 3, "5"), hand_over(0, 2, 8), remove(7, 2)]);
    evening.reads(1, "memory.current", "16384\n");
    evening.reads(1, "memory.max", "28672\n");
    evening.reads(1, "cgroup.subtree_control", "memory\n");
    evening.get(34, [release(0, 1), release(1, 5)]);
    evening.succeed([release(1, 1), make(7, 1, 2), remove(7, 2), exit(5), remove(7, 3)]);
    evening.succeed([remove(0, 1)]);
    evening.get(34, [release(0, 4)]);
    evening.succeed([release(0, 3)]);
}

fn movers<H: Calls>() {
    let mut evening = Evening::<H>::begun(0);
    evening.succeed([hand_over(0, 3, 8), procs(0, 3, "5")]);
    evening.granted(fork(5, 4), 3);
    evening.belongs(4, "0::/1/3\n");
    evening.get(13, [procs(7, 3, "5"), procs(8, 3, "5")]);
    evening.succeed([procs(7, 2, "5"), procs(7, 2, "4"), procs(7, 2, "5"), procs(0, 2, "5")]);
    evening.get(13, [procs(7, 3, "5"), procs(7, 0, "5")]);
    evening.succeed([procs(7, 1, "5"), procs(7, 1, "5"), procs(7, 2, "5"), procs(0, 2, "6")]);
    evening.get(13, [procs(7, 2, "6"), procs(8, 2, "6"), procs(8, 3, "6")]);
    evening.succeed([procs(0, 3, "6"), procs(8, 3, "6"), admit(10, 7), admit(11, 7 + (1 << 16))]);
    evening.get(13, [procs(7, 0, "10"), procs(7, 2, "10")]);
    evening.succeed([procs(0, 0, "10"), procs(0, 2, "11")]);
    evening.get(13, [procs(7, 1, "11")]);
    evening.reads(2, "cgroup.procs", "4\n5\n11\n");
    evening.reads(1, "cgroup.procs", "");
    evening.reads(0, "cgroup.procs", "10\n");
}

fn staying<H: Calls>() {
    let mut evening = Evening::<H>::begun(8);
    evening.succeed([control(0, 0, "+memory +pids"), control(7, 1, "+memory +pids")]);
    evening.succeed([setting(7, 3, "pids.max", "0"), setting(7, 3, "memory.max", "0")]);
    evening.succeed([procs(0, 2, "5")]);
    evening.granted(charge(5, 8), 3);
    evening.succeed([procs(7, 3, "5")]);
    evening.reads(2, "memory.current", "32768\n");
    evening.reads(3, "memory.current", "0\n");
    evening.reads(3, "pids.current", "1\n");
    evening.stopped(fork(5, 4), 11, 3, 1);
    evening.stopped(charge(5, 1), 12, 3, 1);
    evening.succeed([exit(5)]);
    evening.reads(1, "memory.current", "32768\n");
    evening.reads(3, "memory.max", "0\n");
    evening.reads(3, "pids.max", "0\n");
}

fn in_root<H: Calls>() {
    let mut evening = Evening::<H>::begun(4);
    evening.succeed([control(0, 0, ALL), admit(10, 7), make(0, 0, 4)]);
    evening.granted(charge(6, 2), 1);
    evening.granted(fork(6, 11), 1);
    evening.reads(0, "cgroup.procs", "5\n6\n10\n11\n");
    evening.succeed([exit(6)]);
    evening.reads(0, "cgroup.procs", "5\n10\n11\n");
    evening.stopped(charge(11, 3), 12, 0, 1);
    evening.granted(charge(11, 2), 1);
    evening.get(34, [release(0, 5)]);
    evening.succeed([release(0, 4)]);
    evening.get(34, [release(0, 1)]);
}

fn ends<H: Calls>() {
    let mut evening = Evening::<H>::of(8);
    evening.succeed([make(0, 0, 1), make(0, 1, 255), control(0, 0, ALL), control(0, 1, ALL)]);
    evening.succeed([admit(1, 7)]);
    evening.granted(fork(1, 1024), 1);
    evening.succeed([procs(0, 255, "1"), procs(0, 255, "1024"), exit(1), collect(1)]);
    evening.get(16, [control(0, 255, "+cpu"), remove(0, 255)]);
    evening.granted(fork(1024, 1), 3);
    evening.granted(charge(1024, 1), 3);
    evening.granted(charge(1, 1), 3);
    evening.belongs(1, "0::/1/255\n");
    evening.belongs(1024, "0::/1/255\n");
    evening.reads(255, "cgroup.procs", "1\n1024\n");
    evening.reads(1, "pids.current", "2\n");
    evening.reads(1, "memory.current", "8192\n");
    evening.succeed([exit(1024), exit(1), release(255, 2), setting(0, 255, "cpu.weight", "5")]);
    evening.succeed([control(0, 255, "+cpu")]);
    evening.get(16, [control(0, 1, "-cpu"), remove(0, 1)]);
    evening.succeed([control(0, 255, "-cpu"), control(0, 1, "-cpu"), control(0, 1, "+cpu")]);
    evening.reads(255, "cpu.weight", "100\n");
    evening.succeed([hand_over(0, 255, 7), make(7, 255, 254), remove(7, 254), remove(0, 255)]);
}

fn far_up<H: Calls>() {
    let mut evening = Evening::<H>::of(8);
    evening.succeed(descent());
    evening.succeed([make(0, 240, 1), hand_over(0, 1, 7), control(0, 0, "+memory +pids")]);
    evening.succeed([admit(5, 7), procs(0, 255, "5")]);
    evening.unknown_into(67, 5, 28);
    evening.belongs(5, DEEP_LINE);
    evening.succeed([setting(0, 240, "memory.max", "4096"), setting(0, 240, "pids.max", "1")]);
    evening.granted(charge(5, 1), 17);
    evening.stopped(charge(5, 1), 12, 240, 16);
    evening.stopped(fork(5, 6), 11, 240, 16);
    evening.reads(240, "memory.current", "4096\n");
    for group in [240, 247, 248, 255] {
        evening.reads(group, "cgroup.events", "populated 1\n");
    }
    evening.get(13, [procs(7, 1, "5")]);
    evening.succeed([hand_over(0, 240, 7), procs(7, 1, "5")]);
    evening.belongs(5, "0::/240/1\n");
    for group in [241, 248, 255] {
        evening.reads(group, "cgroup.events", "populated 0\n");
    }
    evening.reads(240, "pids.current", "1\n");
    evening.reads(240, "memory.current", "4096\n");
    evening.succeed([release(255, 1)]);
    evening.reads(240, "memory.current", "0\n");
}

fn rooms<H: Calls>() {
    let mut evening = Evening::<H>::begun(4);
    evening.succeed([control(0, 0, "+memory +pids"), control(7, 1, "+memory +pids")]);
    evening.succeed([procs(0, 2, "5"), procs(0, 3, "6"), setting(0, 1, "memory.max", "12288")]);
    evening.succeed(["16384", "8192"].map(|line| setting(7, 2, "memory.max", line)));
    evening.granted(charge(5, 1), 3);
    evening.stopped(charge(5, 2), 12, 2, 1);
    evening.stopped(charge(5, 4), 12, 2, 1);
    evening.granted(charge(5, 1), 3);
    evening.stopped(charge(6, 2), 12, 1, 2);
    evening.granted(charge(6, 1), 3);
    evening.stopped(charge(6, 1), 12, 1, 2);
    evening.reads(1, "memory.current", "12288\n");
    evening.reads(2, "memory.current", "8192\n");
    evening.reads(3, "memory.current", "4096\n");
    evening.succeed([setting(0, 1, "pids.max", "2")]);
    evening.stopped(fork(5, 4), 11, 1, 2);
    evening.succeed([setting(7, 2, "pids.max", "0")]);
    evening.stopped(fork(5, 4), 11, 2, 1);
    evening.reads(1, "pids.current", "2\n");
}

fn resetting<H: Calls>() {
    let mut evening = Evening::<H>::of(0);
    evening.succeed([make(0, 0, 1), control(0, 0, ALL), control(0, 1, "+cpu")]);
    evening.succeed([setting(0, 1, "cpu.weight", "5"), setting(0, 1, "cpu.max", "2000 5000")]);
    evening.succeed([setting(0, 1, "memory.max", "4096"), setting(0, 1, "pids.max", "3")]);
    evening.succeed([setting(0, 1, "io.max", "8:16 rbps=5"), control(0, 0, "-cpu +cpu")]);
    evening.reads(1, "cpu.weight", "5\n");
    evening.succeed([control(0, 1, "-cpu")]);
    evening.succeed(["-cpu -memory", "+cpu +memory"].map(|line| control(0, 0, line)));
    evening.reads(1, "cpu.weight", "100\n");
    evening.reads(1, "cpu.max", "max 100000\n");
    evening.reads(1, "memory.max", "max\n");
    evening.reads(1, "pids.max", "3\n");
    evening.reads(1, "io.max", "8:16 rbps=5 wbps=max riops=max wiops=max\n");
    evening.succeed(["-io", "+io"].map(|line| control(0, 0, line)));
    evening.reads(1, "io.max", "");
    evening.reads(1, "pids.max", "3\n");
}

fn neighbours<H: Calls>() {
    let mut evening = Evening::<H>::of(8);
    evening.succeed([make(0, 0, 1), make(0, 1, 2), make(0, 0, 3), make(0, 3, 4)]);
    evening.succeed([admit(5, 0), procs(0, 2, "5")]);
    evening.succeed([0, 1, 3].map(|group| control(0, group, ALL)));
    evening.granted(charge(5, 1), 3);
    let settings = [("cpu.weight", "5"), ("memory.max", "8192"), ("pids.max", "3")];
    for (file, line) in settings {
        evening.succeed([1, 2, 4].map(|group| setting(0, group, file, line)));
    }
    evening.succeed(["-memory", "+memory"].map(|line| control(0, 1, line)));
    evening.reads(2, "memory.max", "max\n");
    evening.reads(2, "cpu.weight", "5\n");
    evening.reads(2, "pids.max", "3\n");
    evening.reads(2, "memory.current", "4096\n");
    evening.succeed([setting(0, 2, "memory.max", "8192")]);
    evening.succeed(["-pids", "+pids"].map(|line| control(0, 1, line)));
    evening.reads(2, "pids.max", "max\n");
    evening.reads(2, "cpu.weight", "5\n");
    evening.reads(2, "memory.max", "8192\n");
    evening.succeed(["-cpu", "+cpu"].map(|line| control(0, 1, line)));
    evening.reads(2, "cpu.weight", "100\n");
    evening.reads(2, "memory.max", "8192\n");
    for (file, line) in settings {
        for group in [1, 4] {
            evening.reads(group, file, &format!("{line}\n"));
        }
    }
}

/// memory.max of group 1 written, what it reads then, and the same when that is written back.
#[track_caller]
fn becomes<H: Calls>(evening: &mut Evening<H>, line: &str, text: &str) {
    for line in [line, text] {
        evening.succeed([setting(0, 1, "memory.max", line)]);
        evening.reads(1, "memory.max", text);
    }
}

fn rounded_down<H: Calls>() {
    let mut evening = Evening::<H>::of(8);
    evening.succeed([make(0, 0, 1), control(0, 0, "+memory"), admit(5, 0), procs(0, 1, "5")]);
    becomes(&mut evening, "4503599627370496", "4503599627370496\n");
    becomes(&mut evening, "4503599627370495", "4503599627366400\n");
    let above = ["4503599627370497", "4503599627374591", "4503599627374592"];
    evening.get(34, above.map(|line| setting(0, 1, "memory.max", line)));
    evening.reads(1, "memory.max", "4503599627366400\n");
    evening.get(34, [setting(0, 1, "memory.max", "18446744073709551616")]);
    for line in ["1", "4095"] {
        becomes(&mut evening, line, "0\n");
        evening.stopped(charge(5, 1), 12, 1, 1);
    }
    becomes(&mut evening, "4096", "4096\n");
    evening.stopped(charge(5, 2), 12, 1, 1);
    evening.granted(charge(5, 1), 2);
    evening.stopped(charge(5, 1), 12, 1, 1);
    for line in ["4097", "8191"] {
        becomes(&mut evening, line, "4096\n");
        evening.stopped(charge(5, 1), 12, 1, 1);
    }
    becomes(&mut evening, "8192", "8192\n");
    evening.granted(charge(5, 1), 2);
    evening.stopped(charge(5, 1), 12, 1, 1);
    evening.reads(1, "memory.current", "8192\n");
    becomes(&mut evening, "4095", "0\n");
    evening.reads(1, "memory.current", "8192\n");
    evening.stopped(charge(5, 1), 12, 1, 1);
}

fn setting_ranges<H: Calls>() {
    let mut evening = Evening::<H>::of(0);
    evening.succeed([make(0, 0, 1), control(0, 0, ALL), setting(0, 1, "pids.max", "4194304")]);
    evening
        .get(34, ["4194305", "18446744073709551616"].map(|line| setting(0, 1, "pids.max", line)));
    evening.reads(1, "pids.max", "4194304\n");
    for (file, line, text) in [
        ("pids.max", "0", "0\n"),
        ("pids.max", "max", "max\n"),
        ("cpu.max", "1000 1000", "1000 1000\n"),
        ("cpu.max", "1000000000 1000000", "1000000000 1000000\n"),
        ("cpu.max", "0002000 ", "2000 1000000\n"),
        ("cpu.max", "max", "max 1000000\n"),
        ("cpu.max", " max  5000", "max 5000\n"),
        ("cpu.weight", &long_five(), "5\n"),
    ] {
        evening.succeed([setting(0, 1, file, line)]);
        evening.reads(1, file, text);
    }
    evening.get(34, [setting(0, 1, "cpu.max", "3000 999")]);
    evening.reads(1, "cpu.max", "max 5000\n");
}

fn settings_apart<H: Calls>() {
    let mut evening = Evening::<H>::of(0);
    evening.succeed([make(0, 0, 1), make(0, 0, 2), make(0, 1, 3)]);
    evening.succeed([control(0, 0, ALL), control(0, 1, ALL), setting(0, 1, "memory.max", "4096")]);
    evening.succeed([setting(0, 1, "pids.max", "3"), setting(0, 1, "cpu.weight", "5")]);
    evening.succeed(["2000 5000", "3000"].map(|line| setting(0, 1, "cpu.max", line)));
    evening.reads(1, "memory.max", "4096\n");
    evening.reads(1, "pids.max", "3\n");
    evening.reads(1, "cpu.weight", "5\n");
    evening.succeed([setting(0, 1, "cpu.weight", "6"), setting(0, 1, "memory.max", "max")]);
    evening.reads(1, "pids.max", "3\n");
    evening.reads(1, "cpu.weight", "6\n");
    evening.reads(1, "cpu.max", "3000 5000\n");
    evening.reads(1, "memory.max", "max\n");
    evening.succeed([setting(0, 1, "io.max", "8:16 rbps=5")]);
    evening.reads(1, "pids.max", "3\n");
    for group in [2, 3] {
        evening.reads(group, "io.max", "");
        evening.reads(group, "memory.max", "max\n");
        evening.reads(group, "pids.max", "max\n");
        evening.reads(group, "cpu.weight", "100\n");
        evening.reads(group, "cpu.max", "max 100000\n");
    }
}

fn whole_replies<H: Calls>() {
    let mut evening = Evening::<H>::of(0);
    evening.succeed([make(0, 0, 3), make(0, 3, 7), admit(200, 0), admit(3, 0), admit(12, 0)]);
    evening.unread_into(8, 0, "cgroup.procs", 28);
    evening.reads(0, "cgroup.procs", "3\n12\n200\n");
    evening.reads(0, "cgroup.controllers", "cpu io memory pids\n");
    evening.reads(0, "cgroup.subtree_control", "");
    evening.reads(3, "cgroup.controllers", "");
    evening.reads(3, "cgroup.subtree_control", "");
    evening.reads(3, "cgroup.procs", "");
    evening.succeed([control(0, 0, "+cpu +memory")]);
    evening.reads(0, "cgroup.subtree_control", "cpu memory\n");
    evening.succeed([procs(0, 7, "12")]);
    evening.unknown_into(7, 12, 28);
    evening.belongs(12, "0::/3/7\n");
}

/// 3 under 2 under 1; in 2 two processes, 5 and 6, and one page, which was charged while memory was
/// off.
fn standing<H: Calls>() -> Evening<H> {
    let mut evening = Evening::of(8);
    evening.succeed([make(0, 0, 1), make(0, 1, 2), make(0, 2, 3), admit(5, 0), procs(0, 2, "5")]);
    evening.granted(charge(5, 1), 3);
    evening.granted(fork(5, 6), 3);
    evening
}

fn showing<H: Calls>() {
    let mut evening = standing::<H>();
    evening.absent(1, RESOURCE_FILES);
    evening.succeed([control(0, 0, ALL)]);
    evening.absent(0, ["cgroup.events"]);
    evening.absent(0, RESOURCE_FILES);
    evening.succeed([procs(0, 1, "6")]);
    evening.reads(1, "cgroup.procs", "6\n");
    evening.reads(1, "cgroup.controllers", "cpu io memory pids\n");
    evening.reads(1, "cgroup.subtree_control", "");
    evening.reads(1, "cgroup.events", "populated 1\n");
    evening.reads(1, "memory.current", "4096\n");
    evening.reads(1, "pids.current", "2\n");
    evening.reads(1, "cpu.weight", "100\n");
    evening.reads(1, "cpu.max", "max 100000\n");
    evening.reads(1, "io.max", "");
    evening.reads(1, "memory.max", "max\n");
    evening.reads(1, "pids.max", "max\n");
}

fn showing_below<H: Calls>() {
    let mut evening = standing::<H>();
    evening.succeed([control(0, 0, ALL), control(0, 1, "+memory")]);
    evening.reads(1, "cgroup.procs", "");
    evening.reads(1, "cgroup.subtree_control", "memory\n");
    evening.reads(1, "pids.current", "2\n");
    evening.reads(0, "cgroup.controllers", "cpu io memory pids\n");
    evening.reads(1, "cgroup.controllers", "cpu io memory pids\n");
    evening.reads(2, "cgroup.procs", "5\n6\n");
    evening.reads(2, "cgroup.controllers", "memory\n");
    evening.reads(2, "cgroup.subtree_control", "");
    evening.reads(2, "cgroup.events", "populated 1\n");
    evening.reads(2, "memory.current", "4096\n");
    evening.reads(2, "memory.max", "max\n");
    evening.absent(2, ["pids.current", "cpu.weight", "cpu.max", "io.max", "pids.max"]);
    evening.absent(3, RESOURCE_FILES);
    evening.reads(3, "cgroup.procs", "");
    evening.reads(3, "cgroup.controllers", "");
    evening.reads(3, "cgroup.events", "populated 0\n");
    evening.reads(1, "cgroup.events", "populated 1\n");
    evening.succeed([exit(5), exit(6)]);
    evening.reads(1, "cgroup.events", "populated 0\n");
    evening.reads(2, "cgroup.procs", "");
    evening.reads(2, "memory.current", "4096\n");
}

/// 256 groups and 1,024 processes, which all stand in group 255, at depth 16.
fn full<H: Calls>() {
    let mut evening = Evening::<H>::of(1024);
    for group in 1..256 {
        evening.succeed([make(0, if group > 240 { group - 1 } else { 0 }, group)]);
    }
    evening.get(22, [make(0, 0, 256)]);
    evening.get(17, [make(0, 0, 255)]);
    let mut lines = String::new();
    for process in 1..=1024 {
        evening.succeed([admit(process, 0), procs(0, 255, process.to_string())]);
        evening.granted(charge(process, 1), 17);
        lines += &format!("{process}\n");
    }
    evening.stopped(charge(1024, 1), 12, 0, 17);
    evening.get(22, [admit(1025, 0)]);
    evening.get(17, [admit(1024, 0)]);
    assert_eq!(lines.len(), 4013);
    evening.reads(255, "cgroup.procs", &lines);
    evening.unread_into(4012, 255, "cgroup.procs", 28);
    evening.reads(0, "cgroup.procs", "");
    assert_eq!(DEEP_LINE.len(), 68);
    evening.belongs(1024, DEEP_LINE);
    evening.unknown_into(67, 1024, 28);
    for process in 1..=1024 {
        evening.succeed([exit(process)]);
    }
    evening.reads(255, "cgroup.procs", "");
    evening.belongs(1024, DEEP_LINE);
    evening.succeed([remove(0, 255)]);
    let deleted = DEEP_LINE.replace('\n', " (deleted)\n");
    assert_eq!(deleted.len(), 78);
    evening.belongs(1024, &deleted);
    evening.unknown_into(77, 1024, 28);
    for process in 1..=1024 {
        evening.get(17, [make(0, 0, 255), admit(process, 0)]);
        evening.succeed([collect(process)]);
    }
    evening.succeed([make(0, 0, 255), admit(1024, 0)]);
}
