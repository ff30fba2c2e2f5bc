//! The proved host, called through the C interface.

use shootspiral::{GroupId, ProcessId, User, sys};

use crate::calls::Calls;

/// Words on either side of the tree that no call may write.
const MARGIN: usize = 8;
const MARGIN_WORD: u64 = 0xa5a5_5a5a_c3c3_3c3c;

/// A tree of the library in the middle of its memory, with a margin on either side.
#[derive(Clone)]
pub struct Linked {
    memory: Box<[u64]>,
}

impl Linked {
    fn tree(&self) -> *const u64 {
        self.memory[MARGIN..].as_ptr()
    }

    fn tree_mut(&mut self) -> *mut u64 {
        self.memory[MARGIN..].as_mut_ptr()
    }
}

// SAFETY of every call: the tree was written by `fresh` and then by calls alone, slices are lent
// whole, and `told` has the words that the declaration asks for.
impl Calls for Linked {
    fn fresh(machine_pages: u64) -> Linked {
        let words = sys::ss_tree_words() as usize;
        let mut linked =
            Linked { memory: vec![MARGIN_WORD; words + 2 * MARGIN].into_boxed_slice() };
        unsafe { sys::ss_fresh(linked.tree_mut(), machine_pages) };
        linked
    }

    fn make(&mut self, user: u32, parent: u64, group: u64) -> u32 {
        unsafe { sys::ss_make(self.tree_mut(), User(user), GroupId(parent), GroupId(group)) }
    }

    fn remove(&mut self, user: u32, group: u64) -> u32 {
        unsafe { sys::ss_remove(self.tree_mut(), User(user), GroupId(group)) }
    }

    fn hand_over(&mut self, user: u32, group: u64, owner: u32) -> u32 {
        unsafe { sys::ss_hand_over(self.tree_mut(), User(user), GroupId(group), User(owner)) }
    }

    fn write_procs(&mut self, user: u32, group: u64, line: &[u8]) -> u32 {
        let (user, group) = (User(user), GroupId(group));
        unsafe { sys::ss_write_procs(self.tree_mut(), user, group, line.as_ptr(), line.len()) }
    }

    fn write_subtree_control(&mut self, user: u32, group: u64, line: &[u8]) -> u32 {
        let (tree, user, group) = (self.tree_mut(), User(user), GroupId(group));
        unsafe { sys::ss_write_subtree_control(tree, user, group, line.as_ptr(), line.len()) }
    }

    fn write_setting(&mut self, user: u32, group: u64, file: &[u8], line: &[u8]) -> u32 {
        let (tree, user, group) = (self.tree_mut(), User(user), GroupId(group));
        let (name, length) = (file.as_ptr(), file.len());
        unsafe { sys::ss_write_setting(tree, user, group, name, length, line.as_ptr(), line.len()) }
    }

    fn admit(&mut self, process: u64, user: u32) -> u32 {
        unsafe { sys::ss_admit(self.tree_mut(), ProcessId(process), User(user)) }
    }

    fn fork(&mut self, parent: u64, process: u64, told: &mut [u64; 2]) -> u32 {
        unsafe {
            sys::ss_fork(self.tree_mut(), ProcessId(parent), ProcessId(process), told.as_mut_ptr())
        }
    }

    fn exit(&mut self, process: u64) -> u32 {
        unsafe { sys::ss_exit(self.tree_mut(), ProcessId(process)) }
    }

    fn collect(&mut self, process: u64) -> u32 {
        unsafe { sys::ss_collect(self.tree_mut(), ProcessId(process)) }
    }

    fn charge(&mut self, process: u64, pages: u64, told: &mut [u64; 2]) -> u32 {
        unsafe { sys::ss_charge(self.tree_mut(), ProcessId(process), pages, told.as_mut_ptr()) }
    }

    fn release(&mut self, group: u64, pages: u64) -> u32 {
        unsafe { sys::ss_release(self.tree_mut(), GroupId(group), pages) }
    }

    fn read(&self, group: u64, file: &[u8], reply: &mut [u8], told: &mut [u64; 1]) -> u32 {
        let (name, length) = (file.as_ptr(), file.len());
        let (text, room) = (reply.as_mut_ptr(), reply.len());
        unsafe {
            sys::ss_read(self.tree(), GroupId(group), name, length, text, room, told.as_mut_ptr())
        }
    }

    fn membership(&self, process: u64, reply: &mut [u8], told: &mut [u64; 1]) -> u32 {
        let (text, room) = (reply.as_mut_ptr(), reply.len());
        unsafe {
            sys::ss_membership(self.tree(), ProcessId(process), text, room, told.as_mut_ptr())
        }
    }

    fn first_bad_word(&self, line: &[u8], told: &mut [u64; 2]) {
        unsafe { sys::ss_first_bad_word(line.as_ptr(), line.len(), told.as_mut_ptr()) }
    }

    fn memory(&self) -> &[u64] {
        &self.memory
    }

    fn is_contained(&self) -> bool {
        let end = self.memory.len() - MARGIN;
        let margins = self.memory[..MARGIN].iter().chain(&self.memory[end..]);
        margins.copied().all(|word| word == MARGIN_WORD)
    }
}
