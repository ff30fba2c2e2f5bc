//! Lists of calls on which the proved host must agree with the model, and each of which shows a fault
//! around io.max and its controller: a wrong host that has it does not agree.

#[path = "common/shows.rs"]
mod shows;

use shootspiral_check::Call::{self, FirstBadWord, Make, WriteSetting, WriteSubtreeControl};
use shows::shows;

/// Each fault, and lines to io.max of one group after which it shows.
const SHOWN: [(&str, &[&str]); 23] = [
    ("a key of io.max that is not given goes back to \"max\"", &["8:16 rbps=1", "8:16 wbps=1"]),
    (
        "a fifth device is taken",
        &["1:0 rbps=1", "2:0 rbps=1", "3:0 rbps=1", "4:0 rbps=1", "5:0 rbps=1"],
    ),
    (
        "a held device is refused where four are held",
        &["1:0 rbps=1", "2:0 rbps=1", "3:0 rbps=1", "4:0 rbps=1", "4:0 rbps=2"],
    ),
    (
        "a fifth device is refused though all \"max\"",
        &["1:0 rbps=1", "2:0 rbps=1", "3:0 rbps=1", "4:0 rbps=1", "5:0 rbps=max"],
    ),
    (
        "a fifth device is refused though no pair is given",
        &["1:0 rbps=1", "2:0 rbps=1", "3:0 rbps=1", "4:0 rbps=1", "5:0"],
    ),
    ("no pair clears the device", &["8:16 rbps=1", "8:16"]),
    ("a device all \"max\" is still shown", &["8:16 rbps=1", "8:16 rbps=max"]),
    ("a pair of io.max stays though a later one is out of range", &["8:16 rbps=1 wbps=0"]),
    ("a longer key is taken for one of the four", &["8:16 rbpss=1"]),
    ("io.max keeps its figures in 32 bits", &["8:16 rbps=4294967296"]),
    ("devices are shown in the order in which they came", &["8:17 rbps=1", "8:16 rbps=1"]),
    ("devices are shown by minor before major", &["8:17 rbps=1", "9:16 rbps=1"]),
    ("riops and wiops are shown for each other", &["8:16 riops=1"]),
    ("of a key given twice the last counts", &["8:16 rbps=1 rbps=2"]),
    ("a value of io.max ends at a second \"=\"", &["8:16 rbps=1=2"]),
    ("a second device in a line is ignored", &["8:16 rbps=1 8:17"]),
    ("a device's numbers are kept in 8 bits", &["264:16 rbps=1"]),
    ("a value of io.max wraps at 64 bits", &["8:16 rbps=18446744073709551617"]),
    ("a number with leading zeros is malformed", &["08:16 rbps=1"]),
    ("io.max asks for the device's range before it reads the pairs", &["256:0 x"]),
    ("io.max asks for the range before a key given twice", &["8:16 rbps=0 rbps=0"]),
    (
        "io.max asks for room before the device's range",
        &["1:0 rbps=1", "2:0 rbps=1", "3:0 rbps=1", "4:0 rbps=1", "256:0 rbps=1"],
    ),
    (
        "io.max asks for room before the range of a value",
        &["1:0 rbps=1", "2:0 rbps=1", "3:0 rbps=1", "4:0 rbps=1", "5:0 rbps=0"],
    ),
];

fn control(line: &str) -> Call {
    WriteSubtreeControl { user: 0, group: 0, line: line.into() }
}

fn write(line: &str) -> Call {
    WriteSetting { user: 0, group: 1, file: b"io.max".to_vec(), line: line.into() }
}

fn tree() -> Vec<Call> {
    vec![Make { user: 0, parent: 0, group: 1 }, control("+io")]
}

#[test]
fn lines_are_taken_as_order_1_says() {
    for (fault, lines) in SHOWN {
        let mut calls = tree();
        calls.extend(lines.iter().map(|line| write(line)));
        shows(fault, 0, &calls);
    }
}

#[test]
fn io_is_a_controller_like_others() {
    let calls = [tree(), vec![write("8:16 rbps=1"), control("-io"), control("+io")]].concat();
    shows("io.max outlives io", 0, &calls);
    shows("\"-io\" is a bad word", 0, &[control("-io")]);
    let question = FirstBadWord { line: b"+io".to_vec() };
    shows("the question takes \"+io\" for a bad word", 0, &[question]);
}
