//! Lines of io.max that dice do not come to, on the tree of `crossed`: every form at its ends, the
//! longest text that there is, and devices in every order of coming and going.

use crate::call::Call;
use crate::model::KEYS;

/// A group made for this.
const GROUP: u64 = 21;

const MOST: u64 = 4_503_599_627_370_496;

pub fn calls() -> Vec<Call> {
    let mut calls = vec![Call::Make { user: 0, parent: 0, group: GROUP }];
    for held in [1, 4] {
        calls.extend((0..held).map(|minor| write(format!("8:{} rbps=5 riops=6", 16 + minor))));
        calls.extend(forms().into_iter().map(write));
        calls.extend(empty());
    }
    calls.extend(longest());
    calls.extend(empty());
    calls.extend(orders());
    calls
}

fn write(line: String) -> Call {
    let (file, line) = (b"io.max".to_vec(), line.into());
    Call::WriteSetting { user: 0, group: GROUP, file, line }
}

/// io leaves and joins again. Whether it comes back empty shows at once.
fn empty() -> Vec<Call> {
    let control = |line: &str| Call::WriteSubtreeControl { user: 0, group: 0, line: line.into() };
    vec![control("-io"), control("+io")]
}

/// Four lines as long as can be, each written back with its newline and without, and all at once; the
/// devices alone; and buffers about as long as the text. They stand long enough to be looked at.
fn longest() -> Vec<Call> {
    let pairs: String = KEYS.map(|key| format!(" {key}={MOST}")).concat();
    let devices = [252, 253, 254, 255].map(|major| format!("{major}:255"));
    let lines = devices.clone().map(|device| format!("{device}{pairs}\n"));
    let length = lines.concat().len();
    let mut calls: Vec<Call> = lines.clone().map(write).to_vec();
    calls.extend(lines.clone().map(write));
    calls.extend(lines.each_ref().map(|line| write(line.trim_end().into())));
    calls.push(write(lines.concat()));
    calls.extend(devices.map(write));
    let read = |room| Call::Read { group: GROUP, file: b"io.max".to_vec(), room };
    calls.extend([length - 1, length, length + 1].map(read));
    calls
}

/// Four devices in each order of coming; the last of them goes, a fifth comes, and so on round.
fn orders() -> Vec<Call> {
    let devices = ["8:16", "10:0", "8:9", "0:200"];
    let mut calls = vec![];
    for order in permutations(&devices) {
        calls.extend(order.iter().map(|device| write(format!("{device} wiops=9"))));
        calls.push(write("9:9 rbps=1".into()));
        calls.push(write(format!("{} wiops=max", order[3])));
        calls.extend(["9:9 rbps=1", "9:9 rbps=max"].map(|line| write(line.into())));
        calls.extend(order[..3].iter().map(|device| write(format!("{device} wiops=max"))));
    }
    calls
}

fn permutations<'a>(all: &[&'a str]) -> Vec<Vec<&'a str>> {
    if all.is_empty() {
        return vec![vec![]];
    }
    let with_first = |place: usize| {
        let mut rest = all.to_vec();
        let first = rest.remove(place);
        permutations(&rest).into_iter().map(move |order| [vec![first], order].concat())
    };
    (0..all.len()).flat_map(with_first).collect()
}

/// Lines of every form, taken or not, most of them for device 8:16.
pub fn forms() -> Vec<String> {
    let mut lines: Vec<String> = WHOLE.map(String::from).to_vec();
    for device in DEVICES {
        lines.extend([device.to_string(), format!("{device} wbps=3"), format!("{device} wbps=0")]);
        lines.push(format!("{device} wbps=x"));
    }
    for value in VALUES {
        lines.extend(["rbps", "wiops"].map(|key| format!("8:16 {key}={value}")));
        lines.push(format!("9:9 riops={value}"));
    }
    for first in KEYS {
        for second in KEYS {
            lines.push(format!("8:16 {first}=3 {second}=4"));
        }
    }
    let keys = permutations(&KEYS).into_iter().map(|keys| {
        let pairs: Vec<String> = keys.iter().zip(1..).map(|(k, n)| format!("{k}={n}")).collect();
        format!("8:16 {}", pairs.join(" "))
    });
    lines.extend(keys);
    for length in [127, 128, 129] {
        lines.push(format!("{:length$}", "8:16 rbps=8"));
        lines.push(format!("{:>length$}", "8:16 rbps=8"));
        lines.push(format!("8:16 rbps={:0>1$}", 9, length - 10));
        lines.push(format!("{:0>1$}:16 rbps=10", 8, length - 11));
        lines.push(format!("{:1$}\n", "8:16 rbps=11", length - 1));
    }
    // As many words as a line holds.
    lines.push(format!("8:16{}", " rbps=1".repeat(17)));
    lines.push(format!("8:16{}", " x".repeat(62)));
    lines
}

/// Device words at the ends of the range, wide, with leading zeros, and malformed.
const DEVICES: [&str; 28] = [
    "8:16",
    "9:9",
    "08:016",
    "0000000008:0000000000000000000000000016",
    "0:0",
    "00:000",
    "255:255",
    "256:0",
    "0:256",
    "256:256",
    "264:16",
    "8:272",
    "4294967304:16",
    "18446744073709551624:16",
    "8:18446744073709551632",
    "340282366920938463463374607431768211464:16",
    "8",
    "8:",
    ":16",
    ":",
    "8:16:1",
    "8::16",
    "8:16:",
    "8/16",
    "8;16",
    "-8:16",
    "8:max",
    "max",
];

/// Values at the ends of the range, wide, with leading zeros, and malformed.
const VALUES: [&str; 24] = [
    "0",
    "00",
    "1",
    "0001",
    "max",
    "4294967295",
    "4294967296",
    "4294967297",
    "4503599627370495",
    "4503599627370496",
    "04503599627370496",
    "4503599627370497",
    "18446744073709551615",
    "18446744073709551617",
    "340282366920938463463374607431768211457",
    "9999999999999999999999999999999999999999",
    "",
    "=1",
    "1=2",
    "MAX",
    "maxx",
    "+1",
    "1:",
    "1\n",
];

/// Lines that are wrong, or right, as a whole.
const WHOLE: [&str; 39] = [
    "",
    " ",
    "\n",
    "8:16\n",
    " 8:16  rbps=2097152   wiops=120 \n",
    "8:16 wiops=max",
    "8:16 rbps=max wbps=max riops=max wiops=max",
    "9:9 rbps=max",
    "9:9 rbps=max wbps=max riops=max wiops=max",
    "9:9 rbps=0",
    "9:9 rbps=max wbps=0",
    "8:16 rbps",
    "8:16 rbps=",
    "8:16 =1",
    "8:16 =",
    "8:16 1",
    "8:16 x",
    "8:16 rbps=1 x",
    "8:16 rbps<1",
    "8:16 rbps>1",
    "8:16 rbps =1",
    "8:16 rbps= 1",
    "8:16rbps=1",
    "rbps=1",
    "rbps=1 8:16",
    "8:16 RBPS=1",
    "8:16 rbpS=1",
    "8:16 rbp=1",
    "8:16 rbpss=1",
    "8:16 8:16",
    "8:16 rbps=1 8:17 rbps=1",
    "8:16 rbps=1\n8:17 rbps=1\n",
    "8:16 rbps=0 rbps=1",
    "8:16 rbps=1 rbps=1",
    "8:16 rbps=77 wbps=0",
    "8:16 rbps=max rbps=max",
    "256:0 rbps=x",
    "256:0 rbps=1 rbps=2",
    "8:16 rbps=1\n\n",
];
