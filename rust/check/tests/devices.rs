//! Order 1 of document 02, the io controller and io.max: points at which a reader of it may stumble,
//! as rows: what is written, and the answer. Asked of the model and of the proved host.

#[macro_use]
mod common;

use common::rows::*;
use common::shown;
use shootspiral_check::Calls;

both! {
    control_words
    where_it_is
    malformed_lines
    ranges
    order_of_checks
    refusals_before_the_line
    keys
    one_word
    room
    ascending
    written_back
    longest
    reset
    apart
}

/// A host where io is on in group 1.
fn with_io<H: Calls>() -> H {
    let mut host = H::fresh(0);
    assert_eq!(host.make(0, 0, 1), 0);
    assert_eq!(host.write_subtree_control(0, 0, b"+io"), 0);
    host
}

#[track_caller]
fn write<H: Calls>(host: &mut H, line: &str) -> u32 {
    host.write_setting(0, 1, b"io.max", line.as_bytes())
}

/// Lines one after the other, each with its number and what is shown after it.
#[track_caller]
fn rows<H: Calls>(host: &mut H, rows: &[(&str, u32, &str)]) {
    for (line, number, after) in rows {
        assert_eq!(write(host, line), *number, "{line:?}");
        assert_eq!(shown(host, 1, "io.max"), *after, "{line:?}");
    }
}

/// Devices 1:0 to 4:0, each with rbps 1.
const FOUR: &str = "1:0 rbps=1 wbps=max riops=max wiops=max\n\
                    2:0 rbps=1 wbps=max riops=max wiops=max\n\
                    3:0 rbps=1 wbps=max riops=max wiops=max\n\
                    4:0 rbps=1 wbps=max riops=max wiops=max\n";

fn with_four<H: Calls>() -> H {
    let mut host: H = with_io();
    for major in 1..=4 {
        assert_eq!(write(&mut host, &format!("{major}:0 rbps=1")), 0);
    }
    assert_eq!(shown(&host, 1, "io.max"), FOUR);
    host
}

fn control_words<H: Calls>() {
    let mut evening = Evening::<H>::of(0);
    evening.succeed([make(0, 0, 1), make(0, 1, 2)]);
    evening.reads(0, "cgroup.controllers", "cpu io memory pids\n");
    evening.reads(1, "cgroup.controllers", "");
    evening.get(2, [control(0, 1, "+io"), control(0, 1, "-io +io")]);
    evening.succeed([control(0, 1, "-io"), control(0, 1, "+io -io")]);
    evening.succeed([control(0, 0, "+pids +io +cpu")]);
    evening.reads(0, "cgroup.subtree_control", "cpu io pids\n");
    evening.reads(1, "cgroup.controllers", "cpu io pids\n");
    evening.succeed([control(0, 1, "+io")]);
    evening.reads(1, "cgroup.subtree_control", "io\n");
    evening.get(16, [control(0, 0, "-io")]);
    evening.get(22, ["io", "+IO", "+ioo", "+i", "*io", "+io-io"].map(|line| control(0, 0, line)));
    evening.succeed([control(0, 1, "-io"), control(0, 0, "-io +memory")]);
    evening.reads(0, "cgroup.subtree_control", "cpu memory pids\n");
    let host = H::fresh(0);
    for (line, first, length) in
        [("+io -io\n", 7, 0), ("+io +iox -io", 4, 4), ("io", 0, 2), ("-io -i", 4, 2)]
    {
        let mut told = [77; 2];
        host.first_bad_word(line.as_bytes(), &mut told);
        assert_eq!(told, [first, length], "{line:?}");
    }
}

fn where_it_is<H: Calls>() {
    let mut evening = Evening::<H>::of(0);
    evening.succeed([make(0, 0, 1), make(0, 1, 2)]);
    evening.absent(0, ["io.max"]);
    evening.absent(1, ["io.max", "io.ma", "io.maxx", "io.max\n", "IO.MAX"]);
    evening.succeed([control(0, 0, "+io")]);
    evening.absent(0, ["io.max"]);
    evening.absent(2, ["io.max"]);
    evening.reads(1, "io.max", "");
    evening.unread_into(400, 256, "io.max", 22);
    evening.unread_into(400, 9, "io.max", 2);
    evening.succeed([setting(0, 1, "io.max", "8:16 rbps=2097152 wiops=120")]);
    evening.reads(1, "io.max", "8:16 rbps=2097152 wbps=max riops=max wiops=120\n");
    evening.unread_into(46, 1, "io.max", 28);
    evening.unread(1, "io.max", 28);
}

fn malformed_lines<H: Calls>() {
    let mut host: H = with_io();
    assert_eq!(write(&mut host, "8:16 rbps=5"), 0);
    for line in [
        "8:16 wbps=2 wbps=2",
        "8:16 rbps=1 wbps=2 riops=3 wiops=4 rbps=1",
        "8:16 rbps=1 wbps=2 riops=3 wiops=4 x",
        "8:16 rbps=1 rbps=max",
        "8:16 rbps=max rbps=1",
        "8:16 rbps=1 rbps=x",
        "8:16 iops=max",
        "8:16 xriops=1",
        "8:16 rbps=1 iops=2",
        "8:16 wiops=1 rbps=x",
        "8:16 max",
        "max:16",
        "8 rbps=1 wbps=1 riops=1 wiops=1",
        ":16 rbps=1 wbps=1 riops=1 wiops=1",
        "",
        " ",
        "\n",
        "8",
        "8:",
        ":16",
        ":",
        "8:16:1",
        "8::16",
        "8.16",
        "8 :16",
        "8: 16",
        "x:16",
        "8:x",
        "8:max",
        "max",
        "+8:16",
        "8:-16",
        "rbps=1",
        "rbps=1 8:16",
        "8:16 rbps",
        "8:16 rbps=",
        "8:16 =1",
        "8:16 =",
        "8:16 rbps=1=2",
        "8:16 rbps==1",
        "8:16 rbps =1",
        "8:16 rbps= 1",
        "8:16 rbps:1",
        "8:16 rbps=x",
        "8:16 rbps=MAX",
        "8:16 rbps=maxx",
        "8:16 rbps=-1",
        "8:16 rbps=1.5",
        "8:16 RBPS=1",
        "8:16 bps=1",
        "8:16 rbpss=1",
        "8:16 rbps=1,wbps=1",
        "8:16\trbps=1",
        "8:16 rbps=1\t",
        "8:16 rbps=1\n\n",
        "8:16 rbps=1 x",
        "8:16 rbps=1 rbps=1",
        "8:16 rbps=1 wbps=1 rbps=max",
        "8:16 rbps=max rbps=max",
        "8:16 8:17",
        "8:16 rbps=1 8:17 rbps=1",
        "8:16 rbps=1\n8:17 rbps=1\n",
    ] {
        assert_eq!(write(&mut host, line), 22, "{line:?}");
    }
    assert_eq!(shown(&host, 1, "io.max"), "8:16 rbps=5 wbps=max riops=max wiops=max\n");
    for (length, number) in [(127, 0), (128, 0), (129, 22)] {
        assert_eq!(write(&mut host, &padded(length, "8:16 rbps=6")), number, "{length}");
        let zeros = format!("8:16 rbps={:0>1$}", 7, length - "8:16 rbps=".len());
        assert_eq!(write(&mut host, &zeros), number, "{length}");
        assert_eq!(write(&mut host, &(padded(length - 1, "8:16") + "\n")), number, "{length}");
    }
}

fn ranges<H: Calls>() {
    let mut host: H = with_io();
    for device in ["256:0", "0:256", "256:256", "264:16", "18446744073709551624:0"] {
        assert_eq!(write(&mut host, device), 34, "{device}");
        assert_eq!(write(&mut host, &format!("{device} rbps=1")), 34, "{device}");
    }
    for value in ["0", "000", "4503599627370497", "18446744073709551617", &"9".repeat(40)] {
        for key in ["rbps", "wbps", "riops", "wiops"] {
            assert_eq!(write(&mut host, &format!("8:16 {key}={value}")), 34, "{key} {value}");
        }
        assert_eq!(write(&mut host, &format!("8:16 rbps=1 wbps={value}")), 34, "{value}");
    }
    rows(
        &mut host,
        &[
            ("008:016 rbps=0001", 0, "8:16 rbps=1 wbps=max riops=max wiops=max\n"),
            (
                "8:16 wiops=4503599627370496",
                0,
                "8:16 rbps=1 wbps=max riops=max wiops=4503599627370496\n",
            ),
            ("  8:16   wiops=max  rbps=2\n", 0, "8:16 rbps=2 wbps=max riops=max wiops=max\n"),
        ],
    );
}

/// All that is malformed, over the whole line; then every range; then room.
fn order_of_checks<H: Calls>() {
    let mut host: H = with_four();
    for (line, number) in [
        ("8:16 rbps=0 rbps=1", 22),
        ("8:16 rbps=1 rbps=0", 22),
        ("256:0 rbps=x", 22),
        ("256:0 rbps=1 rbps=1", 22),
        ("8:16 rbps=0 x", 22),
        ("8: rbps=0", 22),
        ("9:0 rbps=1 x", 22),
        ("9:0 rbps=1 rbps=2", 22),
        (&padded(129, "9:0 rbps=1"), 22),
        (&padded(129, "256:0 rbps=0"), 22),
        ("256:0 rbps=0", 34),
        ("256:0 rbps=1", 34),
        ("9:0 rbps=0", 34),
        ("9:0 rbps=1 wbps=0", 34),
        ("9:0 rbps=max wbps=0", 34),
        ("9:0 rbps=1", 28),
        ("9:0 rbps=max wiops=1", 28),
    ] {
        assert_eq!(write(&mut host, line), number, "{line:?}");
    }
    assert_eq!(shown(&host, 1, "io.max"), FOUR);
}

fn refusals_before_the_line<H: Calls>() {
    let mut evening = Evening::<H>::begun(0);
    evening.succeed([control(0, 0, "+cpu +io"), control(7, 1, "+cpu")]);
    evening.succeed([1, 2, 3, 4].map(|major| setting(0, 1, "io.max", format!("{major}:0 rbps=1"))));
    for line in ["x", "256:0", "8:16 rbps=0", "9:0 rbps=1", &padded(129, "8:16")] {
        evening.get(22, [setting(8, 256, "io.max", line)]);
        evening.get(2, [setting(8, 9, "io.max", line), setting(0, 0, "io.max", line)]);
        evening.get(2, [setting(8, 2, "io.max", line), setting(8, 1, "io.maxx", line)]);
        evening.get(13, [setting(7, 1, "io.max", line), setting(8, 1, "io.max", line)]);
    }
    evening.succeed([control(7, 1, "+io"), setting(7, 2, "io.max", "8:16 rbps=1")]);
    evening.get(13, [setting(8, 2, "io.max", "8:16 rbps=1")]);
}

/// A key that is not given keeps what it had; for a device not held that is "max".
fn keys<H: Calls>() {
    rows(
        &mut with_io::<H>(),
        &[
            ("8:16 rbps=2097152 wiops=120", 0, "8:16 rbps=2097152 wbps=max riops=max wiops=120\n"),
            ("8:16 wiops=max", 0, "8:16 rbps=2097152 wbps=max riops=max wiops=max\n"),
            ("8:16 riops=3 wbps=2", 0, "8:16 rbps=2097152 wbps=2 riops=3 wiops=max\n"),
            ("8:16 wiops=4 riops=3 rbps=1 wbps=2", 0, "8:16 rbps=1 wbps=2 riops=3 wiops=4\n"),
            ("8:16 rbps=max", 0, "8:16 rbps=max wbps=2 riops=3 wiops=4\n"),
            ("8:16 riops=max wiops=max", 0, "8:16 rbps=max wbps=2 riops=max wiops=max\n"),
            ("8:16 wbps=0", 34, "8:16 rbps=max wbps=2 riops=max wiops=max\n"),
            ("8:16 wbps=max", 0, ""),
            ("8:16 riops=9", 0, "8:16 rbps=max wbps=max riops=9 wiops=max\n"),
            ("8:16 rbps=max wbps=max riops=max wiops=max", 0, ""),
            ("8:16 rbps=max", 0, ""),
        ],
    );
}

/// No pair is no change, of a device held, not held or a fifth; but the device is tested.
fn one_word<H: Calls>() {
    let mut host: H = with_io();
    rows(&mut host, &[("8:16", 0, ""), ("8:16\n", 0, ""), ("256:0", 34, ""), ("8:", 22, "")]);
    let mut host: H = with_four();
    for (line, number) in [("4:0", 0), ("9:0", 0), (" 9:0 \n", 0), ("0:256", 34), (":0", 22)] {
        rows(&mut host, &[(line, number, FOUR)]);
    }
}

fn room<H: Calls>() {
    let mut host: H = with_four();
    for line in ["9:0 rbps=max", "9:0 rbps=max wbps=max riops=max wiops=max", "9:0"] {
        rows(&mut host, &[(line, 0, FOUR)]);
    }
    rows(&mut host, &[("9:0 rbps=max wiops=1", 28, FOUR), ("0:0 riops=7", 28, FOUR)]);
    // A held device is never a fifth.
    assert_eq!(write(&mut host, "4:0 wbps=5"), 0);
    assert_eq!(write(&mut host, "4:0 wbps=max"), 0);
    rows(&mut host, &[("0004:00 rbps=1", 0, FOUR), ("9:0 rbps=1", 28, FOUR)]);
    // Room is free again.
    assert_eq!(write(&mut host, "2:0 rbps=max"), 0);
    assert_eq!(write(&mut host, "9:0 rbps=1"), 0);
    assert_eq!(write(&mut host, "2:0 rbps=1"), 28);
    assert_eq!(write(&mut host, "9:0 rbps=max wbps=max"), 0);
    rows(&mut host, &[("2:0 rbps=1", 0, FOUR)]);
}

/// By major, then minor, as numbers.
fn ascending<H: Calls>() {
    let mut host: H = with_io();
    for device in ["10:0", "8:160", "8:16", "0:255"] {
        assert_eq!(write(&mut host, &format!("{device} rbps=1")), 0);
    }
    let text = "0:255 rbps=1 wbps=max riops=max wiops=max\n\
                8:16 rbps=1 wbps=max riops=max wiops=max\n\
                8:160 rbps=1 wbps=max riops=max wiops=max\n\
                10:0 rbps=1 wbps=max riops=max wiops=max\n";
    assert_eq!(shown(&host, 1, "io.max"), text);
    let mut host: H = with_io();
    for device in ["255:0", "0:0", "100:9", "99:10"] {
        assert_eq!(write(&mut host, &format!("{device} wiops=1")), 0);
    }
    let text = "0:0 rbps=max wbps=max riops=max wiops=1\n\
                99:10 rbps=max wbps=max riops=max wiops=1\n\
                100:9 rbps=max wbps=max riops=max wiops=1\n\
                255:0 rbps=max wbps=max riops=max wiops=1\n";
    assert_eq!(shown(&host, 1, "io.max"), text);
}

/// Every line that is shown changes nothing, with its newline or without; two at once are malformed.
fn written_back<H: Calls>() {
    let mut host: H = with_four();
    assert_eq!(write(&mut host, "3:0 rbps=max riops=4503599627370496"), 0);
    let text = shown(&host, 1, "io.max");
    for line in text.lines() {
        rows(&mut host, &[(line, 0, &text), (&format!("{line}\n"), 0, &text)]);
    }
    let two: String = text.lines().take(2).map(|line| format!("{line}\n")).collect();
    rows(&mut host, &[(&two, 22, &text)]);
}

/// The longest line has 98 bytes with its newline, the longest text 392.
fn longest<H: Calls>() {
    let most = "4503599627370496";
    let mut evening = Evening::<H>::of(0);
    evening.succeed([make(0, 0, 1), control(0, 0, "+io")]);
    let lines = [100, 101, 254, 255]
        .map(|major| format!("{major}:255 rbps={most} wbps={most} riops={most} wiops={most}\n"));
    assert_eq!(lines[0].len(), 98);
    evening.succeed(lines.each_ref().map(|line| setting(0, 1, "io.max", line)));
    evening.reads(1, "io.max", &lines.concat());
    evening.unread_into(391, 1, "io.max", 28);
    evening.succeed(lines.each_ref().map(|line| setting(0, 1, "io.max", line)));
    evening.reads(1, "io.max", &lines.concat());
}

/// io that leaves empties io.max of all children, and of no others; a new group has none.
fn reset<H: Calls>() {
    let mut evening = Evening::<H>::of(0);
    evening.succeed([make(0, 0, 1), make(0, 0, 2), make(0, 1, 3)]);
    evening.succeed([0, 1].map(|group| control(0, group, ALL)));
    let line = "8:16 rbps=5 wbps=max riops=max wiops=max\n";
    evening.succeed([1, 2, 3].map(|group| setting(0, group, "io.max", line)));
    evening.succeed([setting(0, 3, "cpu.weight", "5"), control(0, 1, "-io +io")]);
    evening.succeed(["-cpu -memory -pids", "+cpu"].map(|line| control(0, 1, line)));
    evening.reads(3, "io.max", line);
    evening.succeed([control(0, 1, "-io")]);
    evening.absent(3, ["io.max"]);
    evening.succeed([control(0, 1, "+io")]);
    evening.reads(3, "io.max", "");
    evening.reads(3, "cpu.weight", "100\n");
    evening.reads(1, "io.max", line);
    evening.succeed([control(0, 1, "-io"), control(0, 0, "-io"), control(0, 0, "+io")]);
    evening.reads(1, "io.max", "");
    evening.reads(2, "io.max", "");
    evening.succeed([setting(0, 2, "io.max", line), remove(0, 2), make(0, 0, 2)]);
    evening.reads(2, "io.max", "");
}

/// Four devices bar no other setting; no other call, and no other controller that leaves, changes
/// them; they change no other setting; and they take no room in a group beside or below.
fn apart<H: Calls>() {
    const DEVICES: &str = "8:0 rbps=1 wbps=max riops=max wiops=max\n\
                           8:1 rbps=max wbps=2 riops=max wiops=max\n\
                           8:2 rbps=max wbps=max riops=3 wiops=max\n\
                           8:3 rbps=max wbps=max riops=max wiops=4\n";
    let mut evening = Evening::<H>::of(8);
    evening.succeed([
        make(0, 0, 1),
        make(0, 0, 3),
        control(0, 0, ALL),
        admit(5, 0),
        procs(0, 1, "5"),
    ]);
    evening.succeed(
        ["8:0 rbps=1", "8:1 wbps=2", "8:2 riops=3", "8:3 wiops=4"]
            .map(|line| setting(0, 1, "io.max", line)),
    );
    evening.succeed([setting(0, 1, "cpu.weight", "5"), setting(0, 1, "cpu.max", "2000 5000")]);
    evening.succeed([setting(0, 1, "cpu.max", "3000"), setting(0, 1, "memory.max", "8192")]);
    evening.succeed([setting(0, 1, "pids.max", "3")]);
    evening.granted(charge(5, 2), 2);
    evening.granted(fork(5, 6), 2);
    evening.succeed([release(1, 1), hand_over(0, 1, 7)]);
    evening.reads(1, "io.max", DEVICES);
    evening.succeed(["8:0 rbps=max", "8:0 rbps=1"].map(|line| setting(0, 1, "io.max", line)));
    evening.reads(1, "cpu.weight", "5\n");
    evening.reads(1, "cpu.max", "3000 5000\n");
    evening.reads(1, "memory.max", "8192\n");
    evening.reads(1, "pids.max", "3\n");
    evening.succeed([setting(0, 3, "io.max", "9:0 rbps=1"), procs(0, 0, "5"), procs(0, 0, "6")]);
    evening.succeed([control(0, 1, "+io"), make(0, 1, 2)]);
    evening.reads(2, "io.max", "");
    evening.succeed([setting(0, 2, "io.max", "9:0 rbps=1"), control(0, 0, "-memory -pids")]);
    evening.reads(1, "io.max", DEVICES);
    evening.succeed([control(0, 1, "-io"), control(0, 0, "-io")]);
    evening.reads(1, "cpu.weight", "5\n");
    evening.reads(1, "cpu.max", "3000 5000\n");
}
