//! Compares Shootspiral with a plain model of the papers: the same calls to both, and after every
//! call the same answer and reply buffer, and what can be read of the tree.
//!
//! - [`model`]: the papers as a plain program, every figure worked out by its definition
//! - [`checks`]: the table of all checks, by which the model names its refusals
//! - [`linked`]: the proved host, behind the C interface
//! - [`calls`], [`call`]: what both answer, as a trait and as a value
//! - [`generate`]: lists of calls from a seed
//! - [`crossed`], [`heap`], [`full`]: three lists more, for pairs of checks, for many pages, and for
//!   every group and every process
//! - [`sizes`], [`names`], [`depths`], [`effects`], [`devices`], [`zombies`]: parts of the first: long
//!   lines and large buffers, near names, limits above the deepest level, what a line leaves, lines of
//!   io.max, zombies
//! - [`compare`], [`explore`]: one list, and many
//! - [`counts`], [`kinds`]: what the lists came to, and what they never did
//! - [`shrink`]: a short list from a long one
//! - [`fault`]: the model with one thing done otherwise, to show that the comparison finds it
//! - [`around`]: hosts that stand around another, as those do
//! - [`recorded`], [`replay`]: lists with the answers of real kernels, and how they are run

pub mod around;
pub mod call;
pub mod calls;
pub mod checks;
pub mod compare;
pub mod counts;
pub mod crossed;
pub mod depths;
pub mod devices;
pub mod effects;
pub mod explore;
pub mod fault;
pub mod full;
pub mod generate;
pub mod heap;
pub mod kinds;
pub mod linked;
pub mod model;
pub mod names;
mod random;
pub mod recorded;
pub mod replay;
pub mod shrink;
pub mod sizes;
pub mod zombies;

pub use call::Call;
pub use calls::Calls;
pub use compare::agree;
pub use linked::Linked;
