//! The calls. Each answers as document 01 says, with the orders of document 02 that have landed,
//! refusals in the order of its checks; a refused call changes nothing.

use std::fmt;

use crate::number::{GroupId, LONGEST_MEMBERSHIP, LONGEST_REPLY, ProcessId, User};
use crate::refusal::{Denial, Refusal};
use crate::sys;

/// What `told` says where no cgroup is named.
const NO_GROUP: u64 = u64::MAX;

/// A hierarchy of cgroups with the processes in it.
///
/// The tree is memory without pointers, so that a clone is a tree of its own:
///
/// ```
/// # use shootspiral::{GroupId, Host, Refusal, User};
/// let mut host = Host::fresh(1024);
/// let before = host.clone();
/// host.make(User::ROOT, GroupId::ROOT, GroupId(1))?;
/// assert!(host.read(GroupId(1), "cgroup.procs").is_ok());
/// assert_eq!(before.read(GroupId(1), "cgroup.procs"), Err(Refusal::Enoent));
/// # Ok::<(), Refusal>(())
/// ```
#[derive(Clone)]
pub struct Host {
    // Written by `ss_fresh`, and after that by calls alone: what every call takes as given.
    tree: Box<[u64]>,
}

impl Host {
    /// A tree with the root only, on a machine of this many pages (2^40 where it is more).
    ///
    /// ```
    /// # use shootspiral::{GroupId, Host};
    /// let host = Host::fresh(1024);
    /// let controllers = host.read(GroupId::ROOT, "cgroup.controllers").unwrap();
    /// assert_eq!(controllers, b"cpu io memory pids\n");
    /// ```
    pub fn fresh(machine_pages: u64) -> Host {
        let mut tree = vec![0; sys::ss_tree_words() as usize].into_boxed_slice();
        // SAFETY: the tree has the words that the library asks for.
        unsafe { sys::ss_fresh(tree.as_mut_ptr(), machine_pages) };
        Host { tree }
    }

    /// Makes `group` under `parent`; `user` owns it.
    ///
    /// EINVAL: a number above 255. ENOENT: `parent` is not live. EEXIST: `group` is live, or was
    /// removed and a zombie's path runs through it. EACCES: `user` may not write `parent`. EAGAIN:
    /// `parent` is at depth 16.
    ///
    /// ```
    /// # use shootspiral::{GroupId, Host, Refusal, User};
    /// let mut host = Host::fresh(1024);
    /// assert_eq!(host.make(User::ROOT, GroupId::ROOT, GroupId(1)), Ok(()));
    /// assert_eq!(host.make(User::ROOT, GroupId::ROOT, GroupId(1)), Err(Refusal::Eexist));
    /// assert_eq!(host.make(User(1000), GroupId(1), GroupId(2)), Err(Refusal::Eacces));
    /// ```
    pub fn make(&mut self, user: User, parent: GroupId, group: GroupId) -> Result<(), Refusal> {
        // SAFETY: `tree` as the field says.
        settle(unsafe { sys::ss_make(self.tree.as_mut_ptr(), user, parent, group) })
    }

    /// Removes `group`; its own pages pass to its parent. Zombies stop no removal; while the path of
    /// one runs through `group`, no cgroup of this number is made.
    ///
    /// EINVAL: above 255. ENOENT: not live. EACCES: `user` may not write its parent, or it is the
    /// root and `user` is not user 0. EBUSY: the root, or it has a live child or process.
    ///
    /// ```
    /// # use shootspiral::{GroupId, Host, Refusal, User};
    /// let mut host = Host::fresh(1024);
    /// host.make(User::ROOT, GroupId::ROOT, GroupId(1))?;
    /// assert_eq!(host.remove(User::ROOT, GroupId::ROOT), Err(Refusal::Ebusy));
    /// assert_eq!(host.remove(User::ROOT, GroupId(1)), Ok(()));
    /// # Ok::<(), Refusal>(())
    /// ```
    pub fn remove(&mut self, user: User, group: GroupId) -> Result<(), Refusal> {
        // SAFETY: `tree` as the field says.
        settle(unsafe { sys::ss_remove(self.tree.as_mut_ptr(), user, group) })
    }

    /// Gives `group` to `owner`: delegation.
    ///
    /// EINVAL: the root, or above 255. ENOENT: not live. EACCES: `user` is not user 0.
    ///
    /// ```
    /// # use shootspiral::{GroupId, Host, Refusal, User};
    /// let mut host = Host::fresh(1024);
    /// host.make(User::ROOT, GroupId::ROOT, GroupId(1))?;
    /// host.hand_over(User::ROOT, GroupId(1), User(1000))?;
    /// assert_eq!(host.make(User(1000), GroupId(1), GroupId(2)), Ok(()));
    /// # Ok::<(), Refusal>(())
    /// ```
    pub fn hand_over(&mut self, user: User, group: GroupId, owner: User) -> Result<(), Refusal> {
        // SAFETY: `tree` as the field says.
        settle(unsafe { sys::ss_hand_over(self.tree.as_mut_ptr(), user, group, owner) })
    }

    /// Writes cgroup.procs: moves the process that the line names into `group`. Its pages stay.
    ///
    /// EINVAL: above 255. ENOENT: not live. EACCES: `user` may not write `group`. EINVAL: the line
    /// is not one number word, or 0. ESRCH: no such live process. EACCES: `user` is not user 0, and
    /// not the process's or may not write the common ancestor. EBUSY: `group` is not the root and
    /// its subtree_control is not empty.
    ///
    /// ```
    /// # use shootspiral::{GroupId, Host, ProcessId, Refusal, User};
    /// let mut host = Host::fresh(1024);
    /// host.make(User::ROOT, GroupId::ROOT, GroupId(1))?;
    /// host.admit(ProcessId(5), User(1000))?;
    /// assert_eq!(host.write_procs(User::ROOT, GroupId(1), "five"), Err(Refusal::Einval));
    /// assert_eq!(host.write_procs(User::ROOT, GroupId(1), "5\n"), Ok(()));
    /// assert_eq!(host.read(GroupId(1), "cgroup.procs")?, b"5\n");
    /// # Ok::<(), Refusal>(())
    /// ```
    pub fn write_procs(
        &mut self,
        user: User,
        group: GroupId,
        line: impl AsRef<[u8]>,
    ) -> Result<(), Refusal> {
        let line = line.as_ref();
        // SAFETY: `tree` as the field says; the line is lent whole.
        settle(unsafe {
            sys::ss_write_procs(self.tree.as_mut_ptr(), user, group, line.as_ptr(), line.len())
        })
    }

    /// Writes cgroup.subtree_control: turns controllers on and off in the children of `group`.
    ///
    /// EINVAL: above 255. ENOENT: not live. EACCES: `user` may not write `group`. EINVAL: a word
    /// that is not a sign and a controller. ENOENT: a wanted controller is not available. EBUSY:
    /// one that leaves is in a child's set, or one joins where a process stands, but for the root.
    ///
    /// ```
    /// # use shootspiral::{GroupId, Host, Refusal, User};
    /// let mut host = Host::fresh(1024);
    /// host.write_subtree_control(User::ROOT, GroupId::ROOT, "+cpu -cpu +memory")?;
    /// assert_eq!(host.read(GroupId::ROOT, "cgroup.subtree_control")?, b"memory\n");
    /// # Ok::<(), Refusal>(())
    /// ```
    pub fn write_subtree_control(
        &mut self,
        user: User,
        group: GroupId,
        line: impl AsRef<[u8]>,
    ) -> Result<(), Refusal> {
        let line = line.as_ref();
        // SAFETY: `tree` as the field says; the line is lent whole.
        settle(unsafe {
            sys::ss_write_subtree_control(
                self.tree.as_mut_ptr(),
                user,
                group,
                line.as_ptr(),
                line.len(),
            )
        })
    }

    /// Writes memory.max, pids.max, cpu.weight, cpu.max or io.max of `group`.
    ///
    /// EINVAL: above 255. ENOENT: not live, not one of the five, or its controller not on. EACCES:
    /// `user` may not write the parent. EINVAL: malformed. ERANGE: a figure outside its range.
    /// ENOSPC: a device would be held beside four others.
    ///
    /// ```
    /// # use shootspiral::{GroupId, Host, Refusal, User, file};
    /// let mut host = Host::fresh(1024);
    /// host.make(User::ROOT, GroupId::ROOT, GroupId(1))?;
    /// host.write_subtree_control(User::ROOT, GroupId::ROOT, "+cpu")?;
    /// host.write_setting(User::ROOT, GroupId(1), file::CPU_MAX, "50000")?;
    /// assert_eq!(host.read(GroupId(1), file::CPU_MAX)?, b"50000 100000\n");
    /// # Ok::<(), Refusal>(())
    /// ```
    ///
    /// memory.max is rounded down to whole pages, so that a limit below one page refuses every charge:
    ///
    /// ```
    /// # use shootspiral::{GroupId, Host, Refusal, User, file};
    /// let mut host = Host::fresh(1024);
    /// host.make(User::ROOT, GroupId::ROOT, GroupId(1))?;
    /// host.write_subtree_control(User::ROOT, GroupId::ROOT, "+memory")?;
    /// host.write_setting(User::ROOT, GroupId(1), file::MEMORY_MAX, "4097")?;
    /// assert_eq!(host.read(GroupId(1), file::MEMORY_MAX)?, b"4096\n");
    /// host.write_setting(User::ROOT, GroupId(1), file::MEMORY_MAX, "4095")?;
    /// assert_eq!(host.read(GroupId(1), file::MEMORY_MAX)?, b"0\n");
    /// # Ok::<(), Refusal>(())
    /// ```
    ///
    /// A line for io.max is one device (several lines at once are EINVAL); a key that it does not give
    /// keeps what it had, and a device whose limits are all "max" is not held:
    ///
    /// ```
    /// # use shootspiral::{GroupId, Host, Refusal, User, file};
    /// let mut host = Host::fresh(1024);
    /// host.make(User::ROOT, GroupId::ROOT, GroupId(1))?;
    /// host.write_subtree_control(User::ROOT, GroupId::ROOT, "+io")?;
    /// host.write_setting(User::ROOT, GroupId(1), file::IO_MAX, "8:16 wiops=120 rbps=2097152")?;
    /// let limited = b"8:16 rbps=2097152 wbps=max riops=max wiops=120\n";
    /// assert_eq!(host.read(GroupId(1), file::IO_MAX)?, limited);
    /// host.write_setting(User::ROOT, GroupId(1), file::IO_MAX, "8:16 wiops=max")?;
    /// host.write_setting(User::ROOT, GroupId(1), file::IO_MAX, "8:16 rbps=max")?;
    /// assert_eq!(host.read(GroupId(1), file::IO_MAX)?, b"");
    /// # Ok::<(), Refusal>(())
    /// ```
    pub fn write_setting(
        &mut self,
        user: User,
        group: GroupId,
        file: impl AsRef<[u8]>,
        line: impl AsRef<[u8]>,
    ) -> Result<(), Refusal> {
        let (file, line) = (file.as_ref(), line.as_ref());
        // SAFETY: `tree` as the field says; name and line are lent whole.
        settle(unsafe {
            sys::ss_write_setting(
                self.tree.as_mut_ptr(),
                user,
                group,
                file.as_ptr(),
                file.len(),
                line.as_ptr(),
                line.len(),
            )
        })
    }

    /// Admits a process of `user` into the root.
    ///
    /// EINVAL: outside 1 to 1024. EEXIST: live or a zombie.
    ///
    /// ```
    /// # use shootspiral::{Host, ProcessId, Refusal, User};
    /// let mut host = Host::fresh(1024);
    /// assert_eq!(host.admit(ProcessId(1024), User(1000)), Ok(()));
    /// assert_eq!(host.admit(ProcessId(1024), User(1000)), Err(Refusal::Eexist));
    /// assert_eq!(host.admit(ProcessId(1025), User(1000)), Err(Refusal::Einval));
    /// ```
    pub fn admit(&mut self, process: ProcessId, user: User) -> Result<(), Refusal> {
        // SAFETY: `tree` as the field says.
        settle(unsafe { sys::ss_admit(self.tree.as_mut_ptr(), process, user) })
    }

    /// Forks `parent`: `process` is live in its cgroup, with its user. Answers the number of
    /// cgroups consulted.
    ///
    /// ESRCH: no such live parent. EINVAL: `process` outside 1 to 1024. EEXIST: it is live or a
    /// zombie. EAGAIN: a cgroup on the way up with pids on would hold more live processes than its
    /// pids.max.
    ///
    /// ```
    /// # use shootspiral::{GroupId, Host, ProcessId, Refusal, User, file};
    /// let mut host = Host::fresh(1024);
    /// host.make(User::ROOT, GroupId::ROOT, GroupId(1))?;
    /// host.write_subtree_control(User::ROOT, GroupId::ROOT, "+pids")?;
    /// host.write_setting(User::ROOT, GroupId(1), file::PIDS_MAX, "2")?;
    /// host.admit(ProcessId(5), User(1000))?;
    /// host.write_procs(User::ROOT, GroupId(1), "5")?;
    /// assert_eq!(host.fork(ProcessId(5), ProcessId(6)), Ok(2));
    /// let denial = host.fork(ProcessId(5), ProcessId(7)).unwrap_err();
    /// assert_eq!((denial.refusal, denial.group), (Refusal::Eagain, Some(GroupId(1))));
    /// # Ok::<(), Refusal>(())
    /// ```
    pub fn fork(&mut self, parent: ProcessId, process: ProcessId) -> Result<u64, Denial> {
        let mut told = [NO_GROUP, 0];
        // SAFETY: `tree` as the field says; `told` has two words.
        let number =
            unsafe { sys::ss_fork(self.tree.as_mut_ptr(), parent, process, told.as_mut_ptr()) };
        consulted(number, told)
    }

    /// Ends a process. Its pages stay with its cgroup. It is a zombie then: it is in no file and
    /// counts nowhere, but has a membership line, and its number is taken until it is collected.
    ///
    /// ESRCH: no such live process.
    ///
    /// ```
    /// # use shootspiral::{GroupId, Host, ProcessId, Refusal, User, file};
    /// let mut host = Host::fresh(1024);
    /// host.admit(ProcessId(5), User(1000))?;
    /// assert_eq!(host.exit(ProcessId(5)), Ok(()));
    /// assert_eq!(host.exit(ProcessId(5)), Err(Refusal::Esrch));
    /// assert_eq!(host.read(GroupId::ROOT, file::PROCS)?, b"");
    /// assert_eq!(host.membership(ProcessId(5))?, b"0::/\n");
    /// assert_eq!(host.admit(ProcessId(5), User(1000)), Err(Refusal::Eexist));
    /// # Ok::<(), Refusal>(())
    /// ```
    pub fn exit(&mut self, process: ProcessId) -> Result<(), Refusal> {
        // SAFETY: `tree` as the field says.
        settle(unsafe { sys::ss_exit(self.tree.as_mut_ptr(), process) })
    }

    /// Collects a zombie: its number is free, and so is that of each removed cgroup on its path
    /// through which no other zombie's path runs.
    ///
    /// ESRCH: no such zombie.
    ///
    /// ```
    /// # use shootspiral::{GroupId, Host, ProcessId, Refusal, User};
    /// let mut host = Host::fresh(1024);
    /// host.make(User::ROOT, GroupId::ROOT, GroupId(1))?;
    /// host.admit(ProcessId(5), User(1000))?;
    /// host.write_procs(User::ROOT, GroupId(1), "5")?;
    /// assert_eq!(host.collect(ProcessId(5)), Err(Refusal::Esrch));
    /// host.exit(ProcessId(5))?;
    /// host.remove(User::ROOT, GroupId(1))?;
    /// assert_eq!(host.make(User::ROOT, GroupId::ROOT, GroupId(1)), Err(Refusal::Eexist));
    /// assert_eq!(host.collect(ProcessId(5)), Ok(()));
    /// assert_eq!(host.make(User::ROOT, GroupId::ROOT, GroupId(1)), Ok(()));
    /// assert_eq!(host.admit(ProcessId(5), User(1000)), Ok(()));
    /// # Ok::<(), Refusal>(())
    /// ```
    pub fn collect(&mut self, process: ProcessId) -> Result<(), Refusal> {
        // SAFETY: `tree` as the field says.
        settle(unsafe { sys::ss_collect(self.tree.as_mut_ptr(), process) })
    }

    /// Charges pages to the cgroup of `process`. Answers the number of cgroups consulted.
    ///
    /// ESRCH: no such live process. EINVAL: `pages` outside 1 to 1,048,576. ENOMEM: a cgroup on the
    /// way up with memory on would pass its memory.max, or the root the machine.
    ///
    /// ```
    /// # use shootspiral::{GroupId, Host, ProcessId, Refusal, User};
    /// let mut host = Host::fresh(8);
    /// host.admit(ProcessId(5), User(1000))?;
    /// assert_eq!(host.charge(ProcessId(5), 8), Ok(1));
    /// let denial = host.charge(ProcessId(5), 1).unwrap_err();
    /// assert_eq!((denial.refusal, denial.group), (Refusal::Enomem, Some(GroupId::ROOT)));
    /// # Ok::<(), Refusal>(())
    /// ```
    pub fn charge(&mut self, process: ProcessId, pages: u64) -> Result<u64, Denial> {
        let mut told = [NO_GROUP, 0];
        // SAFETY: `tree` as the field says; `told` has two words.
        let number =
            unsafe { sys::ss_charge(self.tree.as_mut_ptr(), process, pages, told.as_mut_ptr()) };
        consulted(number, told)
    }

    /// Releases own pages of `group`.
    ///
    /// EINVAL: above 255, or `pages` outside 1 to 1,048,576. ENOENT: not live. ERANGE: more than the
    /// own pages of `group`.
    ///
    /// ```
    /// # use shootspiral::{GroupId, Host, ProcessId, Refusal, User};
    /// let mut host = Host::fresh(1024);
    /// host.admit(ProcessId(5), User(1000))?;
    /// host.charge(ProcessId(5), 8)?;
    /// assert_eq!(host.release(GroupId::ROOT, 9), Err(Refusal::Erange));
    /// assert_eq!(host.release(GroupId::ROOT, 8), Ok(()));
    /// # Ok::<(), Refusal>(())
    /// ```
    pub fn release(&mut self, group: GroupId, pages: u64) -> Result<(), Refusal> {
        // SAFETY: `tree` as the field says.
        settle(unsafe { sys::ss_release(self.tree.as_mut_ptr(), group, pages) })
    }

    /// Reads a file of `group`.
    ///
    /// EINVAL: above 255. ENOENT: not live, or the file is absent there.
    ///
    /// ```
    /// # use shootspiral::{GroupId, Host, Refusal};
    /// let host = Host::fresh(1024);
    /// assert_eq!(host.read(GroupId::ROOT, "cgroup.procs"), Ok(vec![]));
    /// assert_eq!(host.read(GroupId::ROOT, "memory.max"), Err(Refusal::Enoent));
    /// ```
    pub fn read(&self, group: GroupId, file: impl AsRef<[u8]>) -> Result<Vec<u8>, Refusal> {
        let file = file.as_ref();
        whole(LONGEST_REPLY, |reply| self.read_into(group, file, reply))
    }

    /// Reads a file of `group` into the front of `reply` and answers the length of the text; the
    /// bytes after it stay.
    ///
    /// As [`Host::read`], and then ENOSPC: `reply` is shorter than the text.
    ///
    /// ```
    /// # use shootspiral::{GroupId, Host, Refusal};
    /// let host = Host::fresh(1024);
    /// let mut reply = [b'.'; 21];
    /// assert_eq!(host.read_into(GroupId::ROOT, "cgroup.controllers", &mut reply), Ok(19));
    /// assert_eq!(&reply, b"cpu io memory pids\n..");
    /// let short = &mut reply[..18];
    /// assert_eq!(
    ///     host.read_into(GroupId::ROOT, "cgroup.controllers", short),
    ///     Err(Refusal::Enospc)
    /// );
    /// ```
    pub fn read_into(
        &self,
        group: GroupId,
        file: impl AsRef<[u8]>,
        reply: &mut [u8],
    ) -> Result<usize, Refusal> {
        let file = file.as_ref();
        let mut length = 0;
        // SAFETY: `tree` as the field says; the name and the reply are lent whole, and apart.
        let number = unsafe {
            sys::ss_read(
                self.tree.as_ptr(),
                group,
                file.as_ptr(),
                file.len(),
                reply.as_mut_ptr(),
                reply.len(),
                &mut length,
            )
        };
        settle(number).map(|()| length as usize)
    }

    /// The membership line of a process: "0::" and the path of its cgroup. A zombie keeps the path
    /// that it had when it ended, with " (deleted)" behind it once its own cgroup was removed.
    ///
    /// ESRCH: neither live nor a zombie.
    ///
    /// ```
    /// # use shootspiral::{GroupId, Host, ProcessId, Refusal, User};
    /// let mut host = Host::fresh(1024);
    /// host.make(User::ROOT, GroupId::ROOT, GroupId(3))?;
    /// host.make(User::ROOT, GroupId(3), GroupId(7))?;
    /// host.admit(ProcessId(5), User(1000))?;
    /// assert_eq!(host.membership(ProcessId(5))?, b"0::/\n");
    /// host.write_procs(User::ROOT, GroupId(7), "5")?;
    /// assert_eq!(host.membership(ProcessId(5))?, b"0::/3/7\n");
    /// host.exit(ProcessId(5))?;
    /// host.remove(User::ROOT, GroupId(7))?;
    /// assert_eq!(host.membership(ProcessId(5))?, b"0::/3/7 (deleted)\n");
    /// # Ok::<(), Refusal>(())
    /// ```
    pub fn membership(&self, process: ProcessId) -> Result<Vec<u8>, Refusal> {
        whole(LONGEST_MEMBERSHIP, |reply| self.membership_into(process, reply))
    }

    /// Writes the membership line into the front of `reply` and answers its length; the bytes after
    /// it stay.
    ///
    /// As [`Host::membership`], and then ENOSPC: `reply` is shorter than the line.
    pub fn membership_into(&self, process: ProcessId, reply: &mut [u8]) -> Result<usize, Refusal> {
        let mut length = 0;
        // SAFETY: `tree` as the field says; the reply is lent whole.
        let number = unsafe {
            sys::ss_membership(
                self.tree.as_ptr(),
                process,
                reply.as_mut_ptr(),
                reply.len(),
                &mut length,
            )
        };
        settle(number).map(|()| length as usize)
    }
}

/// The words of a tree are the library's own: they are not shown.
impl fmt::Debug for Host {
    fn fmt(&self, f: &mut fmt::Formatter<'_>) -> fmt::Result {
        f.debug_struct("Host").finish_non_exhaustive()
    }
}

/// The first word that a line for cgroup.subtree_control may not contain, as a part of `line`; the
/// empty part at its end, a final newline left out, if there is none. It sees no tree, and looks at
/// lines of any length.
///
/// ```
/// use shootspiral::first_bad_word;
///
/// assert_eq!(first_bad_word(b"+cpu +disk -pids\n"), b"+disk");
/// assert_eq!(first_bad_word(b"+cpu -pids\n"), b"");
/// ```
pub fn first_bad_word(line: &[u8]) -> &[u8] {
    let mut told = [0, 0];
    // SAFETY: the line is lent whole; `told` has two words.
    unsafe { sys::ss_first_bad_word(line.as_ptr(), line.len(), told.as_mut_ptr()) };
    let [first, length] = told.map(|word| word as usize);
    &line[first..first + length]
}

fn settle(number: u32) -> Result<(), Refusal> {
    if number == 0 { Ok(()) } else { Err(refusal(number)) }
}

fn consulted(number: u32, [group, consulted]: [u64; 2]) -> Result<u64, Denial> {
    if number == 0 {
        return Ok(consulted);
    }
    let group = (group != NO_GROUP).then_some(GroupId(group));
    Err(Denial { refusal: refusal(number), group, consulted })
}

fn refusal(number: u32) -> Refusal {
    match Refusal::from_number(number) {
        Some(refusal) => refusal,
        None => panic!("the library answered {number}, which is no number of document 01"),
    }
}

/// A whole reply, of no more bytes than this; of a library with other sizes the buffer grows.
fn whole(
    longest: usize,
    read: impl Fn(&mut [u8]) -> Result<usize, Refusal>,
) -> Result<Vec<u8>, Refusal> {
    let mut reply = vec![0; longest];
    loop {
        match read(&mut reply) {
            Ok(length) => {
                reply.truncate(length);
                return Ok(reply);
            }
            Err(Refusal::Enospc) => reply.resize(2 * reply.len(), 0),
            Err(refusal) => return Err(refusal),
        }
    }
}
