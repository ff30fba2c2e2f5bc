//! What the cases that are run share: each asked of the model and of the proved host, reads and
//! charges with what they tell, and evenings row by row.

// A test file uses only a part of this.
#![allow(dead_code)]

pub mod rows;

use shootspiral_check::Calls;
use shootspiral_check::compare::ROOM;

/// A test of this name for the model, and one for the proved host.
macro_rules! both {
    ($($name:ident)*) => {
        mod model {
            $(#[test]
            fn $name() {
                super::$name::<shootspiral_check::model::Model>();
            })*
        }
        mod linked {
            $(#[test]
            fn $name() {
                super::$name::<shootspiral_check::Linked>();
            })*
        }
    };
}

/// The text of a file, or the number that the reader gets and nothing else.
pub fn read<H: Calls>(host: &H, group: u64, file: &str) -> Result<String, u32> {
    let (mut reply, mut told) = ([b'.'; ROOM], [77]);
    match host.read(group, file.as_bytes(), &mut reply, &mut told) {
        0 => Ok(String::from_utf8(reply[..told[0] as usize].to_vec()).unwrap()),
        number => {
            assert_eq!((told, reply), ([0], [b'.'; ROOM]));
            Err(number)
        }
    }
}

/// The text of a file that is there.
pub fn shown<H: Calls>(host: &H, group: u64, file: &str) -> String {
    read(host, group, file).unwrap_or_else(|number| panic!("{group} {file}: {number}"))
}

/// The number of a charge, and what it tells: the cgroup without room, and those consulted.
pub fn charge<H: Calls>(host: &mut H, process: u64, pages: u64) -> (u32, u64, u64) {
    let mut told = [77; 2];
    let number = host.charge(process, pages, &mut told);
    (number, told[0], told[1])
}

/// The number of a fork, and what it tells: the cgroup without room, and those consulted.
pub fn fork<H: Calls>(host: &mut H, parent: u64, process: u64) -> (u32, u64, u64) {
    let mut told = [77; 2];
    let number = host.fork(parent, process, &mut told);
    (number, told[0], told[1])
}
