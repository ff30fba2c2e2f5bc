//! Why a call was refused. A refusal leaves the tree as it was.

use std::error::Error;
use std::fmt;

use crate::number::GroupId;

/// The errnos of document 01, each with its number.
#[derive(Clone, Copy, Debug, PartialEq, Eq, PartialOrd, Ord, Hash)]
#[repr(u32)]
pub enum Refusal {
    /// The cgroup is not live, the file is absent there, or a controller is not available.
    Enoent = 2,
    /// There is no such live process; to a collection, no such zombie.
    Esrch = 3,
    /// The depth limit, or a pids limit that stops a fork.
    Eagain = 11,
    /// A memory limit or the machine stops a charge.
    Enomem = 12,
    /// The user may not.
    Eacces = 13,
    /// The cgroup is in use, or the inner-process rule.
    Ebusy = 16,
    /// The number is taken: live, a zombie's, or that of a removed cgroup on a zombie's path.
    Eexist = 17,
    /// A number out of range, or malformed text.
    Einval = 22,
    /// The reply buffer is shorter than the reply, or io.max holds four devices already.
    Enospc = 28,
    /// A well-formed figure outside its range, or too many pages released.
    Erange = 34,
}

impl Refusal {
    /// Every errno, ascending.
    pub const ALL: [Refusal; 10] = [
        Refusal::Enoent,
        Refusal::Esrch,
        Refusal::Eagain,
        Refusal::Enomem,
        Refusal::Eacces,
        Refusal::Ebusy,
        Refusal::Eexist,
        Refusal::Einval,
        Refusal::Enospc,
        Refusal::Erange,
    ];

    /// The number that the C interface answers with.
    ///
    /// ```
    /// assert_eq!(shootspiral::Refusal::Eacces.number(), 13);
    /// ```
    pub fn number(self) -> u32 {
        self as u32
    }

    /// The refusal with this number, if there is one.
    ///
    /// ```
    /// use shootspiral::Refusal;
    ///
    /// assert_eq!(Refusal::from_number(34), Some(Refusal::Erange));
    /// assert_eq!(Refusal::from_number(0), None);
    /// ```
    pub fn from_number(number: u32) -> Option<Refusal> {
        Refusal::ALL.into_iter().find(|refusal| refusal.number() == number)
    }

    /// The errno's name, as C writes it.
    pub fn name(self) -> &'static str {
        match self {
            Refusal::Enoent => "ENOENT",
            Refusal::Esrch => "ESRCH",
            Refusal::Eagain => "EAGAIN",
            Refusal::Enomem => "ENOMEM",
            Refusal::Eacces => "EACCES",
            Refusal::Ebusy => "EBUSY",
            Refusal::Eexist => "EEXIST",
            Refusal::Einval => "EINVAL",
            Refusal::Enospc => "ENOSPC",
            Refusal::Erange => "ERANGE",
        }
    }

    fn meaning(self) -> &'static str {
        match self {
            Refusal::Enoent => "group not live, file absent there, controller not available",
            Refusal::Esrch => "no such live process, or no such zombie",
            Refusal::Eagain => "depth limit, or a pids limit stops a fork",
            Refusal::Enomem => "a memory limit or the machine stops a charge",
            Refusal::Eacces => "the user may not",
            Refusal::Ebusy => "group in use, or the inner-process rule",
            Refusal::Eexist => "number taken",
            Refusal::Einval => "number out of range or text malformed",
            Refusal::Enospc => "reply buffer shorter than the reply, or a fifth device in io.max",
            Refusal::Erange => "figure outside its range, or too many pages released",
        }
    }
}

impl fmt::Display for Refusal {
    fn fmt(&self, f: &mut fmt::Formatter<'_>) -> fmt::Result {
        write!(f, "{} ({}): {}", self.name(), self.number(), self.meaning())
    }
}

impl Error for Refusal {}

/// A charge or a fork that was refused.
#[derive(Clone, Copy, Debug, PartialEq, Eq, Hash)]
pub struct Denial {
    pub refusal: Refusal,
    /// The first cgroup, going up, that had no room; none where something else was the cause.
    pub group: Option<GroupId>,
    /// The cgroups consulted, that one included; 0 where something else was the cause.
    pub consulted: u64,
}

impl fmt::Display for Denial {
    fn fmt(&self, f: &mut fmt::Formatter<'_>) -> fmt::Result {
        match self.group {
            Some(group) => {
                write!(f, "{}, cgroup {group}, {} consulted", self.refusal, self.consulted)
            }
            None => self.refusal.fmt(f),
        }
    }
}

impl Error for Denial {}

/// For callers to whom the number is enough.
impl From<Denial> for Refusal {
    fn from(denial: Denial) -> Refusal {
        denial.refusal
    }
}
