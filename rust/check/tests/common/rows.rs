//! Evenings as the tables of `crates/model/specs` have them: calls one after the other, each with
//! the whole reply that it must get.

use shootspiral_check::calls::NO_GROUP;
use shootspiral_check::{Call, Calls};

/// The line that wants every controller.
pub const ALL: &str = "+cpu +io +memory +pids";

pub fn make(user: u32, parent: u64, group: u64) -> Call {
    Call::Make { user, parent, group }
}

pub fn remove(user: u32, group: u64) -> Call {
    Call::Remove { user, group }
}

pub fn hand_over(user: u32, group: u64, owner: u32) -> Call {
    Call::HandOver { user, group, owner }
}

pub fn procs(user: u32, group: u64, line: impl AsRef<[u8]>) -> Call {
    Call::WriteProcs { user, group, line: line.as_ref().to_vec() }
}

pub fn control(user: u32, group: u64, line: impl AsRef<[u8]>) -> Call {
    Call::WriteSubtreeControl { user, group, line: line.as_ref().to_vec() }
}

pub fn setting(user: u32, group: u64, file: &str, line: impl AsRef<[u8]>) -> Call {
    Call::WriteSetting { user, group, file: file.into(), line: line.as_ref().to_vec() }
}

pub fn admit(process: u64, user: u32) -> Call {
    Call::Admit { process, user }
}

pub fn fork(parent: u64, process: u64) -> Call {
    Call::Fork { parent, process }
}

pub fn exit(process: u64) -> Call {
    Call::Exit { process }
}

pub fn collect(process: u64) -> Call {
    Call::Collect { process }
}

pub fn charge(process: u64, pages: u64) -> Call {
    Call::Charge { process, pages }
}

pub fn release(group: u64, pages: u64) -> Call {
    Call::Release { group, pages }
}

/// A text with spaces after it, so many bytes in all.
pub fn padded(length: usize, text: &str) -> String {
    format!("{text:length$}")
}

/// Zeros and a 5, 128 bytes in all.
pub fn long_five() -> String {
    format!("{:0>128}", 5)
}

/// A chain of as many groups as there can be: 240 at depth 1 to 255 at depth 16.
pub fn descent() -> [Call; 16] {
    std::array::from_fn(|place| match place as u64 {
        0 => make(0, 0, 240),
        depth => make(0, 239 + depth, 240 + depth),
    })
}

/// The membership line there, the longest that a live process has.
pub const DEEP_LINE: &str = "0::/240/241/242/243/244/245/246/247/248/249/250/251/252/253/254/255\n";

/// What stands after a text in its buffer.
const SENTINELS: [u8; 4] = [1, 2, 3, 4];

/// An evening, in document 01's word: calls one after the other, from a fresh tree.
pub struct Evening<H> {
    host: H,
}

impl<H: Calls> Evening<H> {
    pub fn of(machine_pages: u64) -> Self {
        Evening { host: H::fresh(machine_pages) }
    }

    /// Groups 2 and 3 under 1, all three user 7's; in the root process 5, user 7's, and process 6,
    /// user 8's.
    #[track_caller]
    pub fn begun(machine_pages: u64) -> Self {
        let mut evening = Evening::of(machine_pages);
        evening.succeed([make(0, 0, 1), hand_over(0, 1, 7), make(7, 1, 2), make(7, 1, 3)]);
        evening.succeed([admit(5, 7), admit(6, 8)]);
        evening
    }

    /// Calls that all succeed, with nothing to tell.
    #[track_caller]
    pub fn succeed<const N: usize>(&mut self, calls: [Call; N]) {
        self.get(0, calls);
    }

    /// Calls that all get one number. A charge or a fork names no cgroup and counts none.
    #[track_caller]
    pub fn get<const N: usize>(&mut self, number: u32, calls: [Call; N]) {
        for call in calls {
            let answer = call.on(&mut self.host, 0);
            assert_eq!(answer.number, number, "{call}");
            if matches!(call, Call::Charge { .. } | Call::Fork { .. }) {
                assert_eq!(answer.told[..2], [NO_GROUP, 0], "{call}");
            }
        }
    }

    /// A charge or a fork that finds room, and the number of cgroups consulted.
    #[track_caller]
    pub fn granted(&mut self, call: Call, consulted: u64) {
        self.tells(call, 0, NO_GROUP, consulted);
    }

    /// A charge or a fork that finds none, the cgroup without room and its place.
    #[track_caller]
    pub fn stopped(&mut self, call: Call, number: u32, group: u64, consulted: u64) {
        self.tells(call, number, group, consulted);
    }

    #[track_caller]
    fn tells(&mut self, call: Call, number: u32, group: u64, consulted: u64) {
        let answer = call.on(&mut self.host, 0);
        assert_eq!((answer.number, &answer.told[..2]), (number, &[group, consulted][..]), "{call}");
    }

    /// A file's text, in a buffer that is four bytes longer and in one that it fills.
    #[track_caller]
    pub fn reads(&self, group: u64, file: &str, text: &str) {
        for after in [&SENTINELS[..], &[]] {
            let mut reply = [&vec![0; text.len()], after].concat();
            let mut told = [77];
            let number = self.host.read(group, file.as_bytes(), &mut reply, &mut told);
            assert_eq!((number, told), (0, [text.len() as u64]), "{group} {file}");
            assert_eq!(reply, [text.as_bytes(), after].concat(), "{group} {file}");
        }
    }

    /// A file that a reader does not get, into a buffer of so many bytes, which stay.
    #[track_caller]
    pub fn unread_into(&self, room: usize, group: u64, file: &str, number: u32) {
        let (mut reply, mut told) = (vec![1; room], [77]);
        assert_eq!(self.host.read(group, file.as_bytes(), &mut reply, &mut told), number, "{file}");
        assert_eq!((reply, told), (vec![1; room], [0]), "{group} {file}");
    }

    #[track_caller]
    pub fn unread(&self, group: u64, file: &str, number: u32) {
        self.unread_into(SENTINELS.len(), group, file, number);
    }

    /// Files that are absent there.
    #[track_caller]
    pub fn absent<const N: usize>(&self, group: u64, files: [&str; N]) {
        for file in files {
            self.unread(group, file, 2);
        }
    }

    /// The membership line of a process, in a buffer that is four bytes longer and in one that it
    /// fills.
    #[track_caller]
    pub fn belongs(&self, process: u64, text: &str) {
        for after in [&SENTINELS[..], &[]] {
            let mut reply = [&vec![0; text.len()], after].concat();
            let mut told = [77];
            let number = self.host.membership(process, &mut reply, &mut told);
            assert_eq!((number, told), (0, [text.len() as u64]), "{process}");
            assert_eq!(reply, [text.as_bytes(), after].concat(), "{process}");
        }
    }

    /// A membership line that is refused, into a buffer of so many bytes, which stay.
    #[track_caller]
    pub fn unknown_into(&self, room: usize, process: u64, number: u32) {
        let (mut reply, mut told) = (vec![1; room], [77]);
        assert_eq!(self.host.membership(process, &mut reply, &mut told), number, "{process}");
        assert_eq!((reply, told), (vec![1; room], [0]), "{process}");
    }

    #[track_caller]
    pub fn unknown(&self, process: u64, number: u32) {
        self.unknown_into(SENTINELS.len(), process, number);
    }
}
