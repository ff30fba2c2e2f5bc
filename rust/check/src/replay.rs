//! Lists with their answers, asked of a host.

use std::fmt;
use std::ops::AddAssign;

use crate::calls::Calls;
use crate::compare::{Difference, Pair};
use crate::recorded::{Case, Entry, List, Reply};

/// What was compared.
#[derive(Clone, Copy, Default, PartialEq, Eq, Debug)]
pub struct Tally {
    pub calls: u64,
    pub refused: u64,
    /// Refusals whose group was compared too.
    pub groups: u64,
    pub texts: u64,
    /// Calls that Linux answers otherwise.
    pub differences: u64,
}

/// The first call that model and host do not both answer as the list does.
pub struct Mismatch<'a> {
    case: &'a Case,
    entry: &'a Entry,
    cause: Cause,
}

enum Cause {
    /// Model and host agree, and the list says otherwise.
    Reply(Reply),
    Difference(Box<Difference>),
}

/// Asks a list of the model and of a host, both. What a list does not tell has to be alike too: the
/// whole reply buffer and the groups consulted; and a refusal may not change the host's memory.
///
/// # Errors
///
/// The first call that is answered otherwise.
pub fn replay<H: Calls>(list: &List, fresh: impl Fn(u64) -> H) -> Result<Tally, Box<Mismatch<'_>>> {
    let mut tally = Tally::default();
    for case in &list.cases {
        let mut pair = Pair::beside(case.pages, fresh(case.pages));
        for entry in &case.entries {
            let mismatch = |cause| Box::new(Mismatch { case, entry, cause });
            let answer = pair.answer(&entry.call);
            let answer = answer.map_err(|difference| mismatch(Cause::Difference(difference)))?;
            let reply = Reply::of(case, &entry.call, &answer);
            if reply != entry.reply {
                return Err(mismatch(Cause::Reply(reply)));
            }
            tally.add(entry);
        }
    }
    Ok(tally)
}

/// Asks a list of a host alone, so that it shows what the list finds without the model. Goes on
/// after a call that is answered otherwise, and answers all of those.
pub fn mismatches<H: Calls>(list: &List, fresh: impl Fn(u64) -> H) -> Vec<&Entry> {
    let mut found = vec![];
    for case in &list.cases {
        let mut host = fresh(case.pages);
        for (entry, fill) in case.entries.iter().zip((0..=u8::MAX).cycle()) {
            let answer = entry.call.on(&mut host, fill);
            if Reply::of(case, &entry.call, &answer) != entry.reply {
                found.push(entry);
            }
        }
    }
    found
}

impl fmt::Display for Mismatch<'_> {
    fn fmt(&self, f: &mut fmt::Formatter<'_>) -> fmt::Result {
        let Mismatch { case, entry, cause } = self;
        let name = if case.name.is_empty() { String::new() } else { format!(", {}", case.name) };
        writeln!(f, "line {}{name}: {}", entry.line, entry.text)?;
        match cause {
            Cause::Reply(reply) => write!(f, "model and host answer {reply}"),
            Cause::Difference(difference) => difference.fmt(f),
        }
    }
}

impl Tally {
    fn add(&mut self, entry: &Entry) {
        let Reply { number, group, text } = &entry.reply;
        *self += Tally {
            calls: 1,
            refused: u64::from(*number != 0),
            groups: u64::from(group.is_some()),
            texts: u64::from(text.is_some()),
            differences: u64::from(entry.linux.is_some()),
        };
    }
}

impl AddAssign for Tally {
    fn add_assign(&mut self, other: Tally) {
        self.calls += other.calls;
        self.refused += other.refused;
        self.groups += other.groups;
        self.texts += other.texts;
        self.differences += other.differences;
    }
}

impl fmt::Display for Tally {
    fn fmt(&self, f: &mut fmt::Formatter<'_>) -> fmt::Result {
        let Tally { calls, refused, groups, texts, differences } = self;
        write!(f, "{calls} calls, {refused} refused, {groups} refusing groups, {texts} texts; ")?;
        write!(f, "Linux differs in {differences}")
    }
}
