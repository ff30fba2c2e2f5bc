//! Figures at both ends of each range and one beyond, wide ones, with leading zeros, and lines with
//! a word too few or too many, each to a file that takes such lines.

use super::super::Generator;
use super::super::arguments::FIGURES;
use super::ALL;
use super::stage::has_set;
use crate::call::Call;
use crate::model::{LAST_PROCESS, Model};

/// Figures that a narrow word would take for small ones, and as many digits as a line holds.
const WIDE: [&str; 9] = [
    "4294967296",
    "4294968320",
    "9223372036854775808",
    "18446744073709551615",
    "18446744073709551616",
    "18446744073709555712",
    "340282366920938463463374607431768211456",
    "340282366920938463463374607431768215552",
    "00000000000000000000000000000000000000000000000000000000000000000000000000000000000000\
     99999999999999999999999999999999999999",
];

impl Generator {
    /// Some of all such lines, where nothing else is in their way.
    pub(super) fn bounds(&mut self, sketch: &mut Model) {
        let Some(group) = self.open_group(sketch) else { return };
        let Some(process) = self.free_process(sketch) else { return };
        self.plan(sketch, Call::Admit { process, user: 0 });
        let mut table = vec![];
        for file in FIGURES {
            table.extend(setting_lines(file).into_iter().map(|line| (file, line)));
        }
        table.extend(procs_lines(process).into_iter().map(|line| (&b""[..], line)));
        for (file, line) in self.rows(&table) {
            let line = line.into_bytes();
            let call = match file {
                b"" => Call::WriteProcs { user: 0, group, line },
                _ => Call::WriteSetting { user: 0, group, file: file.to_vec(), line },
            };
            self.plan(sketch, call);
        }
    }

    /// A group with all controllers on and no set, so that a line alone decides.
    pub(super) fn open_group(&mut self, sketch: &mut Model) -> Option<u64> {
        let is_open =
            |&group: &u64| !has_set(sketch, group) && (0..4).all(|k| sketch.is_on(k, group));
        let open = self.random.one_of(sketch.live_groups().filter(is_open));
        open.or_else(|| {
            let group = self.child(sketch, 0, 0)?;
            self.reach(sketch, group, ALL);
            Some(group)
        })
    }
}

/// Both ends of the range, one beyond, and one within.
fn edges(low: u64, high: u64) -> Vec<String> {
    let figures =
        [low.saturating_sub(1), low, low + 1, high / 2 + 1, high - 1, high, high + 1, high + 4096];
    figures.map(|figure| figure.to_string()).to_vec()
}

fn setting_lines(file: &[u8]) -> Vec<String> {
    let (low, high) = match file {
        b"memory.max" => (0, 4_503_599_627_370_496),
        b"pids.max" => (0, 4_194_304),
        b"cpu.weight" => (1, 10_000),
        _ => (1_000, 1_000_000_000),
    };
    let mut lines = edges(low, high);
    lines.extend(WIDE.map(String::from));
    for figure in [low, high, high + 1] {
        lines.push(format!("000{figure}\n"));
        lines.push(format!("{figure:0>128}"));
        lines.push(format!("{figure:0>127}\n"));
        lines.push(format!("{figure:0>128}\n"));
        lines.push(format!("{figure:0>129}"));
        lines.push(format!("{figure} {figure}"));
        lines.push(format!("{figure} max"));
        lines.push(format!("max {figure}"));
    }
    for line in ["max", "max\n", " max ", "max max", "max\n\n", "maxmax", "", " ", "\n"] {
        lines.push(line.into());
    }
    lines.push(format!("{low} {low} {low}"));
    lines.extend(["max 1000 1000", "x 1", "x 1000"].map(String::from));
    lines.extend(["x", "5:"].map(|word| format!("{} {word}", high + 1)));
    if file == b"memory.max" {
        let bytes = ["4095", "4096", "4097", "8191", "68719476735", "68719476737"];
        lines.extend(bytes.map(String::from));
        lines.push((high + 4095).to_string());
    }
    if file == b"pids.max" {
        lines.extend(["255", "256", "257", "1023", "1024", "1025", "65536"].map(String::from));
    }
    if file == b"cpu.max" {
        for period in edges(1_000, 1_000_000).into_iter().chain(WIDE.map(String::from)) {
            lines.push(format!("2000 {period}"));
            lines.push(format!("max 0{period}\n"));
            lines.push(format!("999 {period}"));
        }
        for word in ["x", "max", "5:", "-1"] {
            lines.extend(["999", "1000", "max"].map(|quota| format!("{quota} {word}")));
        }
        lines.extend(["max 999 1000", "1000 1000001 x"].map(String::from));
    }
    lines
}

/// The lines are the process's number, or one that could be taken for it.
fn procs_lines(process: u64) -> Vec<String> {
    let mut lines = edges(1, LAST_PROCESS);
    for distance in [1 << 8, 1 << 9, 1 << 10, 1 << 11, 1 << 32, 1 << 64, 1 << 96] {
        lines.push((u128::from(process) + distance).to_string());
    }
    // Added to a figure of 128 bits, the process's number would be left over.
    lines.push(format!("34028236692093846346337460743176821{}", 1456 + process));
    lines.extend(WIDE.map(String::from));
    lines.extend([128, 129].map(|length| format!("{process:0>length$}")));
    lines.extend([128, 129].map(|length| format!("{process:<length$}")));
    lines.extend([127, 128].map(|length| format!("{process:0>length$}\n")));
    lines.extend([128, 129].map(|length| format!("{:0>length$}", 0)));
    lines.extend(["", " ", "\n", "0", "00", "0 0", "1 2", "max"].map(String::from));
    lines.extend([
        format!("{process} {process}"),
        format!("{process}\n\n"),
        format!(" {process} "),
    ]);
    lines
}
