//! The model beside a host, call by call. After every call these are compared: the answer, what was
//! told, the reply buffer and the bytes after it; and where the call may have changed something, every
//! file of every live group, one file of every other, and the membership line of every live process and
//! of every zombie. Now and then all that can be read is, and in large trees only then, but for zombies'
//! lines, which are read unless there are many.

use std::collections::BTreeSet;
use std::fmt;

use shootspiral::number::LONGEST_REPLY;

use crate::call::{Answer, Call};
use crate::calls::Calls;
use crate::model::{LAST_GROUP, LAST_PROCESS, Model};

mod probes;

/// Every file that a group can have, and one that none has. The first is there in every live group.
pub const FILES: [&[u8]; 12] = [
    b"cgroup.procs",
    b"cgroup.controllers",
    b"cgroup.subtree_control",
    b"cgroup.events",
    b"cpu.weight",
    b"cpu.max",
    b"io.max",
    b"memory.current",
    b"memory.max",
    b"pids.current",
    b"pids.max",
    b"cgroup.type",
];

/// The bytes after a text that have to stay, and those on either side of a buffer that no call may
/// write.
const SPARE: usize = 32;
const MARGIN: usize = 16;
const FILL: u8 = 0xee;
const UNTOLD: u64 = u64::MAX;

/// A buffer for any text, with bytes to spare after the longest.
pub const ROOM: usize = LONGEST_REPLY + SPARE;

/// In a tree with more than this only those groups and processes are read after a call that it names,
/// and what is above them. Zombies are all read, unless there are more than so many.
const MANY_GROUPS: usize = 64;
const MANY_PROCESSES: usize = 256;

/// What a reader gets whose buffer is too short.
const SHORT_BUFFER: u32 = 28;

/// What was found to differ after a call.
#[derive(Clone, PartialEq, Eq)]
pub enum Difference {
    /// The call itself was answered otherwise.
    Answer { expected: Answer, found: Answer },
    /// The question, asked after the call, was answered otherwise.
    Later { question: Call, expected: Answer, found: Answer },
    /// The call was a refusal or a question, and the tree is another.
    Changed,
    /// The host wrote outside its tree.
    Outside,
}

/// The model and a host that were given the same calls.
#[derive(Clone)]
pub struct Pair<H> {
    model: Model,
    host: H,
    calls: u8,
    /// All users that a call has named, and each one's neighbour.
    users: BTreeSet<u32>,
    /// What the model's texts are read into, and the host's between its margins.
    buffers: [Vec<u8>; 2],
}

impl<H: Calls> Pair<H> {
    /// A fresh model beside a host that is fresh, of the same machine.
    pub fn beside(machine: u64, host: H) -> Pair<H> {
        let buffers = [vec![0; ROOM], vec![FILL; ROOM + 2 * MARGIN]];
        Pair { model: Model::fresh(machine), host, calls: 0, users: [0, 1].into(), buffers }
    }

    pub fn model(&self) -> &Model {
        &self.model
    }

    /// Makes a call on both and compares what is read after it.
    pub fn step(&mut self, call: &Call) -> Result<(), Box<Difference>> {
        let before = near(&self.model, call);
        let answer = self.answer(call)?;
        // No question changes a host. Where a refusal left its words, what is read is as it was.
        let is_left = answer.number != 0 && !self.host.memory().is_empty();
        if is_left || call.is_question() {
            return Ok(());
        }
        let mut processes = call.processes();
        if self.is_large() {
            let groups = &before | &near(&self.model, call);
            groups.into_iter().try_for_each(|group| self.look_at(group))?;
        } else {
            (0..=LAST_GROUP + 1).try_for_each(|group| self.look_at(group))?;
            processes.extend(self.model.live_processes());
        }
        if self.model.zombies().count() <= MANY_PROCESSES {
            processes.extend(self.model.zombies());
        }
        processes.into_iter().try_for_each(|process| self.read_membership(process))
    }

    /// Whether much is live.
    pub fn is_large(&self) -> bool {
        self.model.live_groups().count() > MANY_GROUPS
            || self.model.live_processes().count() > MANY_PROCESSES
    }

    /// Makes a call on both and compares the answers, and the host's words where they have to stay.
    /// Answers what both do.
    pub fn answer(&mut self, call: &Call) -> Result<Answer, Box<Difference>> {
        let before = self.leaves_all(call).then(|| self.host.memory().to_vec());
        let answer = self.ask(call)?;
        self.has_stayed(before)?;
        Ok(answer)
    }

    /// The same for many calls. The words are compared where a run of calls ends that have to leave
    /// them. Answers the place of the call after which something differs.
    pub fn answer_all(&mut self, calls: &[Call]) -> Result<(), (usize, Box<Difference>)> {
        let mut before = None;
        for (place, call) in calls.iter().enumerate() {
            if self.leaves_all(call) {
                before.get_or_insert_with(|| self.host.memory().to_vec());
            } else {
                self.has_stayed(before.take()).map_err(|difference| (place - 1, difference))?;
            }
            self.ask(call).map_err(|difference| (place, difference))?;
        }
        self.has_stayed(before).map_err(|difference| (calls.len() - 1, difference))
    }

    /// Whether the call is a refusal or a question.
    fn leaves_all(&self, call: &Call) -> bool {
        call.is_question() || !self.model.held(call).is_empty()
    }

    fn has_stayed(&self, before: Option<Vec<u64>>) -> Result<(), Box<Difference>> {
        match before {
            Some(before) if before != self.host.memory() => Err(Box::new(Difference::Changed)),
            _ => Ok(()),
        }
    }

    /// Makes a call on both and compares the answers only.
    fn ask(&mut self, call: &Call) -> Result<Answer, Box<Difference>> {
        self.calls = self.calls.wrapping_add(1);
        self.users.extend(call.users().into_iter().flat_map(|user| [user, user.wrapping_add(1)]));
        let expected = call.on(&mut self.model, self.calls);
        let found = call.on(&mut self.host, self.calls);
        if expected != found {
            return Err(Box::new(Difference::Answer { expected, found }));
        }
        if !self.host.is_contained() {
            return Err(Box::new(Difference::Outside));
        }
        Ok(found)
    }

    /// Reads every file of every group and every membership line, the numbers just outside the
    /// range included.
    pub fn survey(&mut self) -> Result<(), Box<Difference>> {
        (0..=LAST_GROUP + 1).try_for_each(|group| self.read_files(group, &FILES))?;
        (0..=LAST_PROCESS + 1).try_for_each(|process| self.read_membership(process))
    }

    /// Reads every file of a live group; of another the one that it would have if it were live.
    fn look_at(&mut self, group: u64) -> Result<(), Box<Difference>> {
        let is_live = self.model.group(group).is_some();
        self.read_files(group, if is_live { &FILES } else { &FILES[..1] })
    }

    fn read_files(&mut self, group: u64, files: &[&[u8]]) -> Result<(), Box<Difference>> {
        for file in files {
            let read = |host: &dyn Reads, reply: &mut [u8], told: &mut [u64; 1]| {
                host.read_file(group, file, reply, told)
            };
            if let Some(room) = self.differs(read) {
                return Err(self.later(Call::Read { group, file: file.to_vec(), room }));
            }
        }
        Ok(())
    }

    fn read_membership(&mut self, process: u64) -> Result<(), Box<Difference>> {
        let read = |host: &dyn Reads, reply: &mut [u8], told: &mut [u64; 1]| {
            host.membership_line(process, reply, told)
        };
        match self.differs(read) {
            Some(room) => Err(self.later(Call::Membership { process, room })),
            None => Ok(()),
        }
    }

    /// The room of a buffer in which both do not answer a reading alike: the number, the text, the
    /// bytes to spare after it, those on either side of the buffer, and the words on either side of
    /// `told`. A byte changed further on is found with a longer text.
    fn differs(
        &mut self,
        read: impl Fn(&dyn Reads, &mut [u8], &mut [u64; 1]) -> u32,
    ) -> Option<usize> {
        let [expected, found] = &mut self.buffers;
        let (mut expected_told, mut found_told) = ([UNTOLD; 3], [UNTOLD; 3]);
        let expected_number = read(&self.model, expected, middle(&mut expected_told));
        assert_ne!(expected_number, SHORT_BUFFER, "a buffer of {ROOM} bytes shows nothing");
        let length = expected_told[1] as usize;
        let room = length + SPARE;
        let found = &mut found[..room + 2 * MARGIN];
        let reply = &mut found[MARGIN..MARGIN + room];
        let found_number = read(&self.host, reply, middle(&mut found_told));
        let (before, rest) = found.split_at_mut(MARGIN);
        let (text, after) = rest.split_at_mut(length);
        let alike = expected_number == found_number
            && expected_told == found_told
            && *text == expected[..length]
            && before.iter().chain(&*after).all(|&byte| byte == FILL);
        // What the model wrote is filled again; a host that wrote more was not alike.
        text.fill(FILL);
        (!alike).then_some(room)
    }

    fn later(&mut self, question: Call) -> Box<Difference> {
        let expected = question.on(&mut self.model, self.calls);
        let found = question.on(&mut self.host, self.calls);
        Box::new(Difference::Later { question, expected, found })
    }
}

/// The word that is told, between two that are not.
fn middle(told: &mut [u64; 3]) -> &mut [u64; 1] {
    told[1..].first_chunk_mut().expect("one word")
}

/// The groups where a call can change what is read: those that it names and those that hold the
/// processes it names, with all above them, removed ones on a zombie's path too, and the children of
/// one whose set is written.
fn near(model: &Model, call: &Call) -> BTreeSet<u64> {
    let mut groups: BTreeSet<u64> = call.groups().into_iter().collect();
    groups.extend(call.processes().iter().filter_map(|&n| Some(model.process(n)?.group)));
    groups.extend(call.processes().iter().flat_map(|&n| model.path(n)));
    for group in groups.clone() {
        groups.extend(model.chain(group));
    }
    if let Call::WriteSubtreeControl { group, .. } = call {
        groups.extend(model.children(*group));
    }
    groups
}

/// The readings of [`Calls`] alone, so that one piece of code asks model and host.
trait Reads {
    fn read_file(&self, group: u64, file: &[u8], reply: &mut [u8], told: &mut [u64; 1]) -> u32;
    fn membership_line(&self, process: u64, reply: &mut [u8], told: &mut [u64; 1]) -> u32;
}

impl<H: Calls> Reads for H {
    fn read_file(&self, group: u64, file: &[u8], reply: &mut [u8], told: &mut [u64; 1]) -> u32 {
        self.read(group, file, reply, told)
    }

    fn membership_line(&self, process: u64, reply: &mut [u8], told: &mut [u64; 1]) -> u32 {
        self.membership(process, reply, told)
    }
}

/// Makes the calls on the model and on a fresh host. Answers the first call after which something
/// differs, and what. After the last all is read.
pub fn first_difference<H: Calls>(
    machine: u64,
    calls: &[Call],
    host: H,
) -> Option<(usize, Box<Difference>)> {
    let mut pair = Pair::beside(machine, host);
    for (place, call) in calls.iter().enumerate() {
        if let Err(difference) = pair.step(call) {
            return Some((place, difference));
        }
    }
    let difference = pair.survey().err()?;
    Some((calls.len().checked_sub(1)?, difference))
}

/// Panics unless the host answers as the model does, call by call: for tests.
pub fn agree<H: Calls>(machine: u64, calls: &[Call]) {
    if let Some((place, difference)) = first_difference(machine, calls, H::fresh(machine)) {
        panic!("call {place}, {}: {difference}", calls[place]);
    }
}

impl fmt::Display for Difference {
    fn fmt(&self, f: &mut fmt::Formatter<'_>) -> fmt::Result {
        match self {
            Difference::Answer { expected, found } => {
                write!(f, "the model answers\n    {expected}\nand the host\n    {found}")
            }
            Difference::Later { question, expected, found } => {
                write!(f, "after it, to {question}, the model answers\n    {expected}\n")?;
                write!(f, "and the host\n    {found}")
            }
            Difference::Changed => f.write_str("a refusal or a question changed the host's tree"),
            Difference::Outside => f.write_str("the host wrote outside its tree"),
        }
    }
}

impl fmt::Debug for Difference {
    fn fmt(&self, f: &mut fmt::Formatter<'_>) -> fmt::Result {
        fmt::Display::fmt(self, f)
    }
}
