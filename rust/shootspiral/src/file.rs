//! The names of the files of a cgroup.

/// The live processes of the cgroup itself, ascending; writing a number moves that process here.
pub const PROCS: &str = "cgroup.procs";

/// The controllers that are available here.
pub const CONTROLLERS: &str = "cgroup.controllers";

/// The controllers that are on in the children.
pub const SUBTREE_CONTROL: &str = "cgroup.subtree_control";

/// Whether a live process is in the subtree; absent on the root.
pub const EVENTS: &str = "cgroup.events";

/// The usage of the subtree in bytes; where memory is on.
pub const MEMORY_CURRENT: &str = "memory.current";

/// The limit on the subtree's usage; where memory is on.
pub const MEMORY_MAX: &str = "memory.max";

/// The live processes of the subtree, counted; where pids is on.
pub const PIDS_CURRENT: &str = "pids.current";

/// The limit on the subtree's processes; where pids is on.
pub const PIDS_MAX: &str = "pids.max";

/// The share of the processor; where cpu is on.
pub const CPU_WEIGHT: &str = "cpu.weight";

/// The processor's time for each period, and the period; where cpu is on.
pub const CPU_MAX: &str = "cpu.max";

/// The limits on reads and writes of each device, a line for each; where io is on.
pub const IO_MAX: &str = "io.max";
