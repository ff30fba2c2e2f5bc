//! File names that are wrong by a byte, each read and written where the right one is there: on the
//! tree of `crossed`.

use crate::call::Call;
use crate::compare::FILES;

/// All controllers are on in this group.
const GROUP: u64 = 1;

pub fn calls() -> Vec<Call> {
    let names = FILES.iter().flat_map(|file| near(file));
    let both = |file: Vec<u8>| {
        let (user, group, line) = (0, GROUP, b"2000".to_vec());
        [
            Call::Read { group, file: file.clone(), room: 64 },
            Call::WriteSetting { user, group, file, line },
        ]
    };
    names.flat_map(both).collect()
}

/// A byte less, more or changed at either end and about the dot, and capitals.
fn near(file: &[u8]) -> Vec<Vec<u8>> {
    let last = file.len() - 1;
    let dot = file.iter().position(|&byte| byte == b'.').expect("a dot in every name");
    let mut names = vec![
        file[..last].to_vec(),
        file[1..].to_vec(),
        file.to_ascii_uppercase(),
        [file[..1].to_ascii_uppercase(), file[1..].to_vec()].concat(),
        [&file[..dot], &file[dot + 1..]].concat(),
    ];
    names.extend([b' ', b'\n', b'\0', b's', file[last]].map(|byte| [file, &[byte]].concat()));
    names.push([b" ", file].concat());
    for place in [0, dot - 1, dot, dot + 1, last] {
        for change in [1, 0xff, 0x80] {
            let mut name = file.to_vec();
            name[place] = name[place].wrapping_add(change);
            names.push(name);
        }
    }
    names
}
