//! A call as a value, what a host answers to it, and both as text.

use std::fmt;

use crate::calls::Calls;
use crate::model::{number, words};

/// One call with its arguments. A read or a membership line gets a reply buffer of `room` bytes.
#[derive(Clone, PartialEq, Eq)]
pub enum Call {
    Make { user: u32, parent: u64, group: u64 },
    Remove { user: u32, group: u64 },
    HandOver { user: u32, group: u64, owner: u32 },
    WriteProcs { user: u32, group: u64, line: Vec<u8> },
    WriteSubtreeControl { user: u32, group: u64, line: Vec<u8> },
    WriteSetting { user: u32, group: u64, file: Vec<u8>, line: Vec<u8> },
    Admit { process: u64, user: u32 },
    Fork { parent: u64, process: u64 },
    Exit { process: u64 },
    Collect { process: u64 },
    Charge { process: u64, pages: u64 },
    Release { group: u64, pages: u64 },
    Read { group: u64, file: Vec<u8>, room: usize },
    Membership { process: u64, room: usize },
    FirstBadWord { line: Vec<u8> },
}

/// The bytes on either side of a reply buffer, and the words on either side of `told`, that no call
/// may write.
const MARGIN: usize = 16;
const TOLD_MARGIN: usize = 2;
const UNTOLD: u64 = 0x7e11_7e11_7e11_7e11;

/// All that a call leaves in its caller's hands: the number, `told` and the reply buffer, and what
/// stands before and after them; and whether the line and the file name are as they were.
#[derive(Clone, PartialEq, Eq)]
pub struct Answer {
    pub number: u32,
    /// Two words, and those after them.
    pub told: [u64; 2 + TOLD_MARGIN],
    before_told: [u64; TOLD_MARGIN],
    /// The buffer between its margins; nothing where the call has none.
    reply: Vec<u8>,
    fill: u8,
    is_call_kept: bool,
}

impl Call {
    /// The call's name, as the table of counts and the C interface spell it.
    pub fn name(&self) -> &'static str {
        match self {
            Call::Make { .. } => "make",
            Call::Remove { .. } => "remove",
            Call::HandOver { .. } => "hand_over",
            Call::WriteProcs { .. } => "write_procs",
            Call::WriteSubtreeControl { .. } => "write_subtree_control",
            Call::WriteSetting { .. } => "write_setting",
            Call::Admit { .. } => "admit",
            Call::Fork { .. } => "fork",
            Call::Exit { .. } => "exit",
            Call::Collect { .. } => "collect",
            Call::Charge { .. } => "charge",
            Call::Release { .. } => "release",
            Call::Read { .. } => "read",
            Call::Membership { .. } => "membership",
            Call::FirstBadWord { .. } => "first_bad_word",
        }
    }

    /// The users that the call names.
    pub fn users(&self) -> Vec<u32> {
        match self {
            Call::HandOver { user, owner, .. } => vec![*user, *owner],
            Call::Make { user, .. }
            | Call::Remove { user, .. }
            | Call::WriteProcs { user, .. }
            | Call::WriteSubtreeControl { user, .. }
            | Call::WriteSetting { user, .. }
            | Call::Admit { user, .. } => vec![*user],
            _ => vec![],
        }
    }

    /// The groups that the call names.
    pub fn groups(&self) -> Vec<u64> {
        match self {
            Call::Make { parent, group, .. } => vec![*parent, *group],
            Call::Remove { group, .. }
            | Call::HandOver { group, .. }
            | Call::WriteProcs { group, .. }
            | Call::WriteSubtreeControl { group, .. }
            | Call::WriteSetting { group, .. }
            | Call::Release { group, .. }
            | Call::Read { group, .. } => vec![*group],
            Call::Admit { .. }
            | Call::Fork { .. }
            | Call::Exit { .. }
            | Call::Collect { .. }
            | Call::Charge { .. }
            | Call::Membership { .. }
            | Call::FirstBadWord { .. } => vec![],
        }
    }

    /// The processes that the call names, by a line of cgroup.procs too.
    pub fn processes(&self) -> Vec<u64> {
        match self {
            Call::Admit { process, .. }
            | Call::Exit { process }
            | Call::Collect { process }
            | Call::Charge { process, .. }
            | Call::Membership { process, .. } => vec![*process],
            Call::Fork { parent, process } => vec![*parent, *process],
            Call::WriteProcs { line, .. } => {
                let numbers = words(line).into_iter().filter_map(number);
                numbers.filter_map(|number| u64::try_from(number).ok()).collect()
            }
            _ => vec![],
        }
    }

    /// Whether the call changes no tree, whatever it answers.
    pub fn is_question(&self) -> bool {
        matches!(self, Call::Read { .. } | Call::Membership { .. } | Call::FirstBadWord { .. })
    }

    /// Makes the call. `fill` picks the bytes that the reply buffer holds before.
    pub fn on<H: Calls>(&self, host: &mut H, fill: u8) -> Answer {
        let mut words = [UNTOLD; 2 + 2 * TOLD_MARGIN];
        let (before, told) = words.split_first_chunk_mut().expect("so many words");
        let mut reply = match self {
            Call::Read { room, .. } | Call::Membership { room, .. } => filled(*room, fill),
            _ => vec![],
        };
        let room = reply.len().saturating_sub(2 * MARGIN);
        let buffer = reply.get_mut(MARGIN..MARGIN + room).unwrap_or_default();
        // What is lent to the host is a copy, so that a change of it shows.
        let lent = self.clone();
        let number = lent.lend(host, told.first_chunk_mut().expect("two words"), buffer);
        let (before_told, told) = (*before, *told.first_chunk().expect("so many words"));
        Answer { number, told, before_told, reply, fill, is_call_kept: lent == *self }
    }

    /// Makes the call with the caller's own words and bytes.
    pub fn lend<H: Calls>(&self, host: &mut H, told: &mut [u64; 2], reply: &mut [u8]) -> u32 {
        match self {
            Call::Make { user, parent, group } => host.make(*user, *parent, *group),
            Call::Remove { user, group } => host.remove(*user, *group),
            Call::HandOver { user, group, owner } => host.hand_over(*user, *group, *owner),
            Call::WriteProcs { user, group, line } => host.write_procs(*user, *group, line),
            Call::WriteSubtreeControl { user, group, line } => {
                host.write_subtree_control(*user, *group, line)
            }
            Call::WriteSetting { user, group, file, line } => {
                host.write_setting(*user, *group, file, line)
            }
            Call::Admit { process, user } => host.admit(*process, *user),
            Call::Fork { parent, process } => host.fork(*parent, *process, told),
            Call::Exit { process } => host.exit(*process),
            Call::Collect { process } => host.collect(*process),
            Call::Charge { process, pages } => host.charge(*process, *pages, told),
            Call::Release { group, pages } => host.release(*group, *pages),
            Call::Read { .. } | Call::Membership { .. } | Call::FirstBadWord { .. } => {
                self.ask(host, told, reply)
            }
        }
    }

    /// Asks a question with the caller's own words and bytes.
    pub fn ask<H: Calls>(&self, host: &H, told: &mut [u64; 2], reply: &mut [u8]) -> u32 {
        let first = told.first_chunk_mut().expect("one word");
        match self {
            Call::Read { group, file, .. } => host.read(*group, file, reply, first),
            Call::Membership { process, .. } => host.membership(*process, reply, first),
            Call::FirstBadWord { line } => {
                host.first_bad_word(line, told);
                0
            }
            _ => panic!("{self} is not a question"),
        }
    }
}

impl Answer {
    /// The text that was delivered; nothing where its length is told wrongly.
    pub fn text(&self) -> Option<Vec<u8>> {
        let room = self.reply.len().saturating_sub(2 * MARGIN);
        let length = usize::try_from(self.told[0]).ok().filter(|&length| length <= room)?;
        let is_delivered = self.number == 0 && !self.reply.is_empty();
        is_delivered.then(|| self.reply[MARGIN..MARGIN + length].to_vec())
    }
}

/// A reply buffer between its margins, before the call.
fn filled(room: usize, fill: u8) -> Vec<u8> {
    (0..room + 2 * MARGIN).map(|place| filling(place, fill)).collect()
}

/// Neighbours differ, and no byte is one that a text would hold.
fn filling(place: usize, fill: u8) -> u8 {
    0x80 | fill.wrapping_add(place as u8)
}

/// As it is written in a test of `tests/lists.rs`.
impl fmt::Display for Call {
    fn fmt(&self, f: &mut fmt::Formatter<'_>) -> fmt::Result {
        match self {
            Call::Make { user, parent, group } => {
                write!(f, "Make {{ user: {user}, parent: {parent}, group: {group} }}")
            }
            Call::Remove { user, group } => write!(f, "Remove {{ user: {user}, group: {group} }}"),
            Call::HandOver { user, group, owner } => {
                write!(f, "HandOver {{ user: {user}, group: {group}, owner: {owner} }}")
            }
            Call::WriteProcs { user, group, line } => {
                let line = Bytes(line);
                write!(f, "WriteProcs {{ user: {user}, group: {group}, line: {line}.to_vec() }}")
            }
            Call::WriteSubtreeControl { user, group, line } => {
                let line = Bytes(line);
                write!(f, "WriteSubtreeControl {{ user: {user}, group: {group}, ")?;
                write!(f, "line: {line}.to_vec() }}")
            }
            Call::WriteSetting { user, group, file, line } => {
                let (file, line) = (Bytes(file), Bytes(line));
                write!(f, "WriteSetting {{ user: {user}, group: {group}, ")?;
                write!(f, "file: {file}.to_vec(), line: {line}.to_vec() }}")
            }
            Call::Admit { process, user } => {
                write!(f, "Admit {{ process: {process}, user: {user} }}")
            }
            Call::Fork { parent, process } => {
                write!(f, "Fork {{ parent: {parent}, process: {process} }}")
            }
            Call::Exit { process } => write!(f, "Exit {{ process: {process} }}"),
            Call::Collect { process } => write!(f, "Collect {{ process: {process} }}"),
            Call::Charge { process, pages } => {
                write!(f, "Charge {{ process: {process}, pages: {pages} }}")
            }
            Call::Release { group, pages } => {
                write!(f, "Release {{ group: {group}, pages: {pages} }}")
            }
            Call::Read { group, file, room } => {
                let file = Bytes(file);
                write!(f, "Read {{ group: {group}, file: {file}.to_vec(), room: {room} }}")
            }
            Call::Membership { process, room } => {
                write!(f, "Membership {{ process: {process}, room: {room} }}")
            }
            Call::FirstBadWord { line } => {
                write!(f, "FirstBadWord {{ line: {}.to_vec() }}", Bytes(line))
            }
        }
    }
}

impl fmt::Debug for Call {
    fn fmt(&self, f: &mut fmt::Formatter<'_>) -> fmt::Result {
        fmt::Display::fmt(self, f)
    }
}

/// The number, then what was told, then the reply buffer up to the last byte that was touched; and
/// what no call may touch, if it was.
impl fmt::Display for Answer {
    fn fmt(&self, f: &mut fmt::Formatter<'_>) -> fmt::Result {
        write!(f, "{}", self.number)?;
        let told = self.told.iter().rposition(|&word| word != UNTOLD).map_or(0, |last| last + 1);
        if told > 0 {
            write!(f, ", told {:?}", &self.told[..told])?;
        }
        if self.before_told != [UNTOLD; TOLD_MARGIN] {
            write!(f, ", told {:?} in front of that", self.before_told)?;
        }
        if !self.reply.is_empty() {
            let is_touched = |place: usize| self.reply[place] != filling(place, self.fill);
            let end = (MARGIN..self.reply.len()).rfind(|&place| is_touched(place));
            let touched = &self.reply[MARGIN..end.map_or(MARGIN, |last| last + 1)];
            let room = self.reply.len() - 2 * MARGIN;
            write!(f, ", wrote {} to a buffer of {room}", Bytes(touched))?;
            if (0..MARGIN).any(is_touched) {
                write!(f, " and {} in front of it", Bytes(&self.reply[..MARGIN]))?;
            }
        }
        if !self.is_call_kept {
            f.write_str(", changed the line or the file name")?;
        }
        Ok(())
    }
}

impl fmt::Debug for Answer {
    fn fmt(&self, f: &mut fmt::Formatter<'_>) -> fmt::Result {
        fmt::Display::fmt(self, f)
    }
}

/// Bytes as a literal of Rust.
pub struct Bytes<'a>(pub &'a [u8]);

impl fmt::Display for Bytes<'_> {
    fn fmt(&self, f: &mut fmt::Formatter<'_>) -> fmt::Result {
        write!(f, "b\"{}\"", self.0.escape_ascii())
    }
}
