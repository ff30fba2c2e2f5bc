//! The checks of every call, in the paper's order: the number it says no with and the cause. The
//! model names its refusals by these rows and can make no others. Causes that the paper joins with
//! "or" are rows of their own where they can be told apart.

use std::fmt;

/// A row of the table: one cause for which a call is refused.
#[derive(Debug, PartialEq, Eq, PartialOrd, Ord)]
pub struct Check {
    call: &'static str,
    number: u32,
    cause: &'static str,
}

impl Check {
    pub fn call(&self) -> &'static str {
        self.call
    }

    pub fn number(&self) -> u32 {
        self.number
    }
}

impl fmt::Display for Check {
    fn fmt(&self, f: &mut fmt::Formatter<'_>) -> fmt::Result {
        write!(f, "{} {}", self.number, self.cause)
    }
}

/// A module of rows for each call, and `TABLE` with all of them.
macro_rules! checks {
    ($($call:ident { $($number:literal $name:ident $cause:literal,)* })*) => {
        $(pub mod $call {
            use super::Check;

            $(pub const $name: &Check =
                &Check { call: stringify!($call), number: $number, cause: $cause };)*
        })*

        /// Every call that can be refused, with its checks in order.
        pub const TABLE: &[(&str, &[&Check])] =
            &[$((stringify!($call), &[$($call::$name),*])),*];
    };
}

checks! {
    make {
        22 PARENT_ABOVE_LAST "parent above 255",
        22 NEW_ABOVE_LAST "new above 255",
        2 PARENT_NOT_LIVE "parent not live",
        17 NEW_IS_LIVE "new is live",
        17 NEW_ON_ZOMBIES_PATH "new was removed, and a zombie's path runs through it",
        13 MAY_NOT_WRITE_PARENT "may not write parent",
        11 PARENT_DEEPEST "parent at depth 16",
    }
    remove {
        22 ABOVE_LAST "above 255",
        2 NOT_LIVE "not live",
        13 MAY_NOT_WRITE_PARENT "may not write G's parent",
        13 ROOT_NOT_USER_0 "for the root: not user 0",
        16 IS_ROOT "G is the root",
        16 HAS_CHILD "has a live child",
        16 HAS_PROCESS "has a live process",
    }
    hand_over {
        22 IS_ROOT "G is 0",
        22 ABOVE_LAST "above 255",
        2 NOT_LIVE "not live",
        13 NOT_USER_0 "user is not 0",
    }
    write_procs {
        22 ABOVE_LAST "above 255",
        2 NOT_LIVE "not live",
        13 MAY_NOT_WRITE "may not write G",
        22 LONG_LINE "line of more than 128 bytes",
        22 NO_WORD "no word",
        22 MORE_WORDS "more than one word",
        22 NOT_A_NUMBER "word is not a number word",
        22 IS_0 "is 0",
        3 PROCESS_ABOVE_LAST "above 1024",
        3 PROCESS_FREE "process free",
        3 PROCESS_IS_ZOMBIE "process is a zombie",
        13 NOT_ITS_USER "not the process's user",
        13 MAY_NOT_WRITE_LOWEST "may not write the lowest group on both chains",
        16 HAS_SET "G is not the root and its set is not empty",
    }
    write_subtree_control {
        22 ABOVE_LAST "above 255",
        2 NOT_LIVE "not live",
        13 MAY_NOT_WRITE "may not write G",
        22 LONG_LINE "line of more than 128 bytes",
        22 BAD_WORD "a word that isn't + or - and a controller name",
        2 NOT_AVAILABLE "a wanted controller not available",
        16 IN_CHILDS_SET "a controller leaving is in a child's set",
        16 HOLDS_PROCESS "not the root, holds a live process, a controller joins",
    }
    write_setting {
        22 ABOVE_LAST "above 255",
        2 NOT_LIVE "not live",
        2 NOT_A_SETTING "not one of the five settings",
        2 NOT_ON "its controller not on",
        13 MAY_NOT_WRITE_PARENT "may not write G's parent",
        22 LONG_LINE "line of more than 128 bytes",
        22 NO_WORD "no word",
        22 MORE_WORDS "too many words",
        22 MALFORMED "first word malformed",
        22 PERIOD_MALFORMED "period malformed",
        22 BAD_PAIR "a word after the device is no pair",
        22 KEY_TWICE "a key given twice",
        34 RANGE "range",
        34 PERIOD_RANGE "range of the period",
        34 VALUE_RANGE "range of a key's value",
        28 FIFTH_DEVICE "a fifth device",
    }
    admit {
        22 IS_0 "is 0",
        22 ABOVE_LAST "above 1024",
        17 IS_LIVE "live",
        17 IS_ZOMBIE "a zombie",
    }
    fork {
        3 PARENT_OUTSIDE "parent outside 1 to 1024",
        3 PARENT_FREE "parent free",
        3 PARENT_IS_ZOMBIE "parent is a zombie",
        22 NEW_IS_0 "new is 0",
        22 NEW_ABOVE_LAST "new above 1024",
        17 NEW_IS_LIVE "new is live",
        17 NEW_IS_ZOMBIE "new is a zombie",
        11 PIDS_LIMIT "a group on the chain would pass pids.max",
    }
    exit {
        3 OUTSIDE "outside 1 to 1024",
        3 FREE "free",
        3 IS_ZOMBIE "a zombie",
    }
    collect {
        3 OUTSIDE "outside 1 to 1024",
        3 FREE "free",
        3 IS_LIVE "live",
    }
    charge {
        3 OUTSIDE "outside 1 to 1024",
        3 FREE "free",
        3 IS_ZOMBIE "a zombie",
        22 NO_PAGES "no pages",
        22 TOO_MANY_PAGES "pages above 1048576",
        12 MEMORY_LIMIT "a group on the chain would pass memory.max",
        12 MACHINE_SIZE "the root would pass the machine size",
    }
    release {
        22 ABOVE_LAST "above 255",
        22 NO_PAGES "no pages",
        22 TOO_MANY_PAGES "pages above 1048576",
        2 NOT_LIVE "not live",
        34 MORE_THAN_OWN "more than G's own pages",
    }
    read {
        22 ABOVE_LAST "above 255",
        2 NOT_LIVE "not live",
        2 NO_SUCH_FILE "no such file",
        2 EVENTS_ON_ROOT "cgroup.events on the root",
        2 NOT_ON "its controller not on",
        28 SHORT_BUFFER "buffer shorter than the reply",
    }
    membership {
        3 OUTSIDE "outside 1 to 1024",
        3 FREE "free",
        28 SHORT_BUFFER "buffer shorter than the reply",
    }
}

/// Checks of one call that never hold together: any of the first with any of the second, and why.
const NEVER: &[(&[&Check], &[&Check], &str)] = &[
    (
        &[make::PARENT_ABOVE_LAST, make::PARENT_NOT_LIVE],
        &[make::PARENT_DEEPEST],
        "what is not live has no depth",
    ),
    (
        &[make::NEW_ABOVE_LAST],
        &[make::NEW_IS_LIVE, make::NEW_ON_ZOMBIES_PATH],
        "none above 255 is or was live",
    ),
    (
        &[remove::ABOVE_LAST, remove::NOT_LIVE],
        &[remove::ROOT_NOT_USER_0, remove::IS_ROOT],
        "the root is live",
    ),
    (
        &[remove::ABOVE_LAST, remove::NOT_LIVE],
        &[remove::HAS_CHILD, remove::HAS_PROCESS],
        "what is not live holds nothing",
    ),
    (&[remove::MAY_NOT_WRITE_PARENT], &[remove::IS_ROOT], "the root has no parent"),
    (&[hand_over::IS_ROOT], &[hand_over::NOT_LIVE], "the root is live"),
    (
        &[write_procs::ABOVE_LAST, write_procs::NOT_LIVE],
        &[write_procs::HAS_SET],
        "what is not live has no set",
    ),
    (
        &[write_procs::NO_WORD, write_procs::MORE_WORDS, write_procs::NOT_A_NUMBER],
        &[
            write_procs::PROCESS_ABOVE_LAST,
            write_procs::PROCESS_FREE,
            write_procs::PROCESS_IS_ZOMBIE,
        ],
        "no number is named",
    ),
    (
        &[write_procs::IS_0],
        &[write_procs::PROCESS_ABOVE_LAST, write_procs::PROCESS_IS_ZOMBIE],
        "0 is not above 1024, and no zombie",
    ),
    (
        &[write_subtree_control::ABOVE_LAST, write_subtree_control::NOT_LIVE],
        &[
            write_subtree_control::NOT_AVAILABLE,
            write_subtree_control::IN_CHILDS_SET,
            write_subtree_control::HOLDS_PROCESS,
        ],
        "what is not live holds nothing and lacks nothing",
    ),
    (
        &[write_setting::ABOVE_LAST, write_setting::NOT_LIVE],
        &[write_setting::NOT_ON],
        "where nothing is live nothing is off",
    ),
    (
        &[write_setting::NOT_A_SETTING],
        &[
            write_setting::MORE_WORDS,
            write_setting::MALFORMED,
            write_setting::PERIOD_MALFORMED,
            write_setting::BAD_PAIR,
            write_setting::KEY_TWICE,
            write_setting::RANGE,
            write_setting::PERIOD_RANGE,
            write_setting::VALUE_RANGE,
            write_setting::FIFTH_DEVICE,
        ],
        "only a setting has a form and a range",
    ),
    (
        &[write_setting::NO_WORD],
        &[write_setting::RANGE, write_setting::PERIOD_RANGE, write_setting::VALUE_RANGE],
        "no word, no figure",
    ),
    (
        &[write_setting::MORE_WORDS, write_setting::PERIOD_MALFORMED],
        &[write_setting::VALUE_RANGE],
        "io.max takes any number of words and has no period",
    ),
    (
        &[write_setting::BAD_PAIR, write_setting::KEY_TWICE],
        &[write_setting::PERIOD_RANGE],
        "a period is no pair",
    ),
    (
        &[write_setting::ABOVE_LAST, write_setting::NOT_LIVE, write_setting::NOT_ON],
        &[write_setting::FIFTH_DEVICE],
        "where io is not on no device is held",
    ),
    (
        &[
            write_setting::NO_WORD,
            write_setting::MORE_WORDS,
            write_setting::MALFORMED,
            write_setting::PERIOD_MALFORMED,
            write_setting::PERIOD_RANGE,
        ],
        &[write_setting::FIFTH_DEVICE],
        "no device is named",
    ),
    (&[write_setting::MALFORMED], &[write_setting::RANGE], "a malformed word is no figure"),
    (
        &[write_setting::PERIOD_MALFORMED],
        &[write_setting::PERIOD_RANGE],
        "a malformed word is no figure",
    ),
    (
        &[admit::IS_0, admit::ABOVE_LAST],
        &[admit::IS_LIVE, admit::IS_ZOMBIE],
        "none outside 1 to 1024 is or was live",
    ),
    (
        &[fork::PARENT_OUTSIDE, fork::PARENT_FREE, fork::PARENT_IS_ZOMBIE],
        &[fork::PIDS_LIMIT],
        "what is not live has no chain",
    ),
    (
        &[fork::NEW_IS_0, fork::NEW_ABOVE_LAST],
        &[fork::NEW_IS_LIVE, fork::NEW_IS_ZOMBIE],
        "none outside 1 to 1024 is or was live",
    ),
    (
        &[charge::OUTSIDE, charge::FREE, charge::IS_ZOMBIE],
        &[charge::MEMORY_LIMIT, charge::MACHINE_SIZE],
        "what is not live has no chain",
    ),
    (&[charge::NO_PAGES], &[charge::MACHINE_SIZE], "usage never passes the machine size"),
    (&[release::NO_PAGES], &[release::MORE_THAN_OWN], "0 is never more"),
    (&[read::ABOVE_LAST], &[read::EVENTS_ON_ROOT], "0 is not above 255"),
    (&[read::ABOVE_LAST, read::NOT_LIVE], &[read::NOT_ON], "where nothing is live nothing is off"),
    (
        &[read::ABOVE_LAST, read::NOT_LIVE, read::NO_SUCH_FILE],
        &[read::SHORT_BUFFER],
        "there is no text",
    ),
    (&[membership::OUTSIDE, membership::FREE], &[membership::SHORT_BUFFER], "there is no text"),
];

/// Why two checks never hold together, if they do not.
pub fn never(first: &Check, second: &Check) -> Option<&'static str> {
    let apart =
        NEVER.iter().find(|(one, other, _)| one.contains(&first) && other.contains(&second));
    apart.map(|(_, _, why)| *why)
}

/// The check that refuses a call, with each other that holds and whose order shows: whichever of
/// the two a host asks first, it says no with another number. Past a check with the number of the
/// first, nothing shows.
pub fn besides(held: &[&'static Check]) -> Vec<(&'static Check, &'static Check)> {
    let Some((first, later)) = held.split_first() else { return vec![] };
    let shown = later.iter().take_while(|second| second.number != first.number);
    shown.map(|second| (*first, *second)).collect()
}

/// The checks of its call that come later, with another number, and can hold with it: where they do,
/// the order shows.
pub fn with(first: &Check) -> impl Iterator<Item = &'static Check> {
    let of_call = TABLE.iter().filter(|(call, _)| *call == first.call);
    let later = of_call.flat_map(|(_, checks)| *checks).skip_while(move |check| **check != first);
    let other = later.copied().filter(|second| second.number != first.number);
    other.filter(|second| never(first, second).is_none())
}
