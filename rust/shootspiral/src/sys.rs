//! The C interface as `include/shootspiral.h` declares it. `tests/declarations.rs` compares both
//! with what `crates/shootspiral_c` exports.
//!
//! What a caller owes, of each function: `tree` points to [`ss_tree_words`] words that a call of
//! [`ss_fresh`] and then only calls of these functions have written; no pointer is null but one
//! whose length is 0; and what is written to overlaps nothing else that the call is lent. The words
//! of a tree are trusted: never pass any that came from a file or from a stranger.

use crate::number::{GroupId, ProcessId, User};

unsafe extern "C" {
    /// Writes a fresh tree, whatever `tree` held.
    pub fn ss_fresh(tree: *mut u64, machine_pages: u64);

    /// The number of words of a tree.
    pub safe fn ss_tree_words() -> u64;

    pub fn ss_make(tree: *mut u64, user: User, parent: GroupId, group: GroupId) -> u32;

    pub fn ss_remove(tree: *mut u64, user: User, group: GroupId) -> u32;

    pub fn ss_hand_over(tree: *mut u64, user: User, group: GroupId, owner: User) -> u32;

    pub fn ss_write_procs(
        tree: *mut u64,
        user: User,
        group: GroupId,
        line: *const u8,
        length: usize,
    ) -> u32;

    pub fn ss_write_subtree_control(
        tree: *mut u64,
        user: User,
        group: GroupId,
        line: *const u8,
        length: usize,
    ) -> u32;

    pub fn ss_write_setting(
        tree: *mut u64,
        user: User,
        group: GroupId,
        file: *const u8,
        file_length: usize,
        line: *const u8,
        length: usize,
    ) -> u32;

    pub fn ss_admit(tree: *mut u64, process: ProcessId, user: User) -> u32;

    /// `told` has two words: the first cgroup without room, 2^64 - 1 for none, and how many were
    /// consulted.
    pub fn ss_fork(tree: *mut u64, parent: ProcessId, process: ProcessId, told: *mut u64) -> u32;

    pub fn ss_exit(tree: *mut u64, process: ProcessId) -> u32;

    pub fn ss_collect(tree: *mut u64, process: ProcessId) -> u32;

    /// `told` has two words: the first cgroup without room, 2^64 - 1 for none, and how many were
    /// consulted.
    pub fn ss_charge(tree: *mut u64, process: ProcessId, pages: u64, told: *mut u64) -> u32;

    pub fn ss_release(tree: *mut u64, group: GroupId, pages: u64) -> u32;

    /// `told` has one word: the length of the text, 0 on a refusal.
    pub fn ss_read(
        tree: *const u64,
        group: GroupId,
        file: *const u8,
        file_length: usize,
        reply: *mut u8,
        room: usize,
        told: *mut u64,
    ) -> u32;

    /// `told` has one word: the length of the text, 0 on a refusal.
    pub fn ss_membership(
        tree: *const u64,
        process: ProcessId,
        reply: *mut u8,
        room: usize,
        told: *mut u64,
    ) -> u32;

    /// `told` has two words: the place of the word's first byte, and its length.
    pub fn ss_first_bad_word(line: *const u8, length: usize, told: *mut u64);
}
