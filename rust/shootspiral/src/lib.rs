//! Shootspiral is a host for a cgroup-v2-like hierarchy: cgroups 0 to 255, processes 1 to 1024, the
//! controllers cpu, io, memory and pids, delegation, and limits on pages and processes. Its calls are
//! proved to answer as document 01 says, with the orders of document 02 that have landed; this crate
//! is the safe way to them from Rust, and has no rule of its own. It keeps no kernel cgroup and asks
//! the operating system for nothing.
//!
//! A [`Host`] owns its tree. Cgroups, processes and users are numbers of different types, so that
//! they cannot change places:
//!
//! ```
//! use shootspiral::{GroupId, Host, ProcessId, Refusal, User, file};
//!
//! let mut host = Host::fresh(1024);
//! let (tape, player) = (GroupId(7), ProcessId(5));
//! host.make(User::ROOT, GroupId::ROOT, tape)?;
//! host.write_subtree_control(User::ROOT, GroupId::ROOT, "+memory")?;
//! host.write_setting(User::ROOT, tape, file::MEMORY_MAX, "32768")?;
//!
//! host.admit(player, User(1000))?;
//! host.write_procs(User::ROOT, tape, "5")?;
//! assert_eq!(host.charge(player, 8), Ok(2));
//! assert_eq!(host.read(tape, file::MEMORY_CURRENT)?, b"32768\n");
//!
//! let denial = host.charge(player, 1).unwrap_err();
//! assert_eq!(denial.refusal, Refusal::Enomem);
//! assert_eq!((denial.group, denial.consulted), (Some(tape), 1));
//! # Ok::<(), Refusal>(())
//! ```
//!
//! - [`host`]: the calls
//! - [`number`]: the types of the numbers, and the sizes of a tree
//! - [`file`](mod@file): the names of the files
//! - [`refusal`]: why a call was refused
//! - [`sys`]: the C interface itself, unsafe

pub mod file;
pub mod host;
pub mod number;
pub mod refusal;
pub mod sys;

pub use host::{Host, first_bad_word};
pub use number::{GroupId, ProcessId, User};
pub use refusal::{Denial, Refusal};
