//! Effects that pairs of checks do not show and dice seldom: on the tree of `crossed`, what a line
//! leaves as it is, and figures that rounding or a range could confuse.

use crate::call::Call;

/// A group made for this, and a process in it.
const GROUP: u64 = 22;
const PROCESS: u64 = 22;

pub fn calls() -> Vec<Call> {
    let mut calls = vec![
        Call::Make { user: 0, parent: 0, group: GROUP },
        Call::Admit { process: PROCESS, user: 7 },
        Call::WriteProcs { user: 0, group: GROUP, line: PROCESS.to_string().into() },
    ];
    // One word leaves the period.
    calls.extend(["2000 5000", "3000", "max"].map(|line| set("cpu.max", line)));
    // The last word on a controller counts: nothing leaves, and nothing joins above a process.
    calls.extend([set("cpu.weight", "7"), set("memory.max", "8192"), set("pids.max", "3")]);
    calls.extend(["-cpu +cpu", "+memory -memory +memory"].map(|line| control(0, line)));
    calls.extend(["+cpu -cpu", "+pids -pids", "-memory"].map(|line| control(GROUP, line)));
    // Rounded down, and the range asked of the figure as it is written.
    let figures = ["0", "1", "4095", "4096", "4097", "8191"];
    calls.extend(figures.map(|line| set("memory.max", line)));
    let top = 1_u64 << 52;
    let about_top = [top - 1, top, top + 1, top + 4095, top + 4096];
    calls.extend(about_top.map(|bytes| set("memory.max", &bytes.to_string())));
    calls.push(set("memory.max", "max"));
    calls
}

fn set(file: &str, line: &str) -> Call {
    let (file, line) = (file.into(), line.into());
    Call::WriteSetting { user: 0, group: GROUP, file, line }
}

fn control(group: u64, line: &str) -> Call {
    Call::WriteSubtreeControl { user: 0, group, line: line.into() }
}
