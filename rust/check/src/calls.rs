//! The calls that every host under comparison answers, with the arguments and results of the C
//! interface: numbers of document 01, and `told` beside them.

/// What `told` of a charge or a fork says where no cgroup is named.
pub const NO_GROUP: u64 = u64::MAX;

/// A host, proved or plain or wrong.
pub trait Calls: Clone {
    fn fresh(machine_pages: u64) -> Self;
    fn make(&mut self, user: u32, parent: u64, group: u64) -> u32;
    fn remove(&mut self, user: u32, group: u64) -> u32;
    fn hand_over(&mut self, user: u32, group: u64, owner: u32) -> u32;
    fn write_procs(&mut self, user: u32, group: u64, line: &[u8]) -> u32;
    fn write_subtree_control(&mut self, user: u32, group: u64, line: &[u8]) -> u32;
    fn write_setting(&mut self, user: u32, group: u64, file: &[u8], line: &[u8]) -> u32;
    fn admit(&mut self, process: u64, user: u32) -> u32;
    fn fork(&mut self, parent: u64, process: u64, told: &mut [u64; 2]) -> u32;
    fn exit(&mut self, process: u64) -> u32;
    fn collect(&mut self, process: u64) -> u32;
    fn charge(&mut self, process: u64, pages: u64, told: &mut [u64; 2]) -> u32;
    fn release(&mut self, group: u64, pages: u64) -> u32;
    fn read(&self, group: u64, file: &[u8], reply: &mut [u8], told: &mut [u64; 1]) -> u32;
    fn membership(&self, process: u64, reply: &mut [u8], told: &mut [u64; 1]) -> u32;
    /// It sees no tree; but a wrong host can answer it wrongly.
    fn first_bad_word(&self, line: &[u8], told: &mut [u64; 2]);

    /// Everything that the host keeps, for hosts that can show it: a refusal may not change it.
    fn memory(&self) -> &[u64] {
        &[]
    }

    /// Whether the host wrote nothing outside its own memory, as far as it can tell.
    fn is_contained(&self) -> bool {
        true
    }
}
