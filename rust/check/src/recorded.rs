//! Lists of calls with their answers, as the files of `tests/linux` have them; `docs/LINUX.md` has
//! the form. What a word of a list means is [`parse_call`]'s to say, how much of an answer a list
//! tells [`Reply::of`]'s: a list from before a change of the calls is to be translated there.

use std::fmt;
use std::ops::RangeInclusive;

use crate::call::{Answer, Call};
use crate::calls::NO_GROUP;
use crate::compare::ROOM;
use crate::model::CONTROLLERS;

mod tokens;

use tokens::{Quoted, Tokens};

/// The cases of a file, in order: one without a name, or several with different ones.
pub struct List {
    pub cases: Vec<Case>,
}

/// Calls from a fresh tree on.
pub struct Case {
    pub name: String,
    /// The size of the machine.
    pub pages: u64,
    /// The controllers that the kernels were asked about: what the root has is told of these alone.
    /// None, where it is told whole.
    pub controllers: Vec<&'static str>,
    pub entries: Vec<Entry>,
}

/// A call with its answer.
pub struct Entry {
    /// The line of the file, from 1, and its text.
    pub line: usize,
    pub text: String,
    pub call: Call,
    pub reply: Reply,
    /// What Linux does, where that is something else.
    pub linux: Option<Linux>,
    /// The order of document 02 by which the reply is another than Linux's.
    pub order: Option<u32>,
}

/// As much of an answer as a list tells.
#[derive(Clone, PartialEq, Eq, Debug)]
pub struct Reply {
    pub number: u32,
    /// The group that had no room.
    pub group: Option<u64>,
    pub text: Option<Vec<u8>>,
}

#[derive(Clone, PartialEq, Eq, Debug)]
pub enum Linux {
    Replies(Reply),
    /// Words, where it is no reply to the call.
    Does(String),
}

/// A line that is not of the form, and why.
#[derive(Debug)]
pub struct ParseError {
    line: usize,
    text: String,
    why: String,
}

type Parsed<T> = Result<T, String>;

/// The numbers with which fork and charge say that a group has no room.
const NO_PIDS: u32 = 11;
const NO_MEMORY: u32 = 12;

/// The orders of document 02.
pub const ORDERS: RangeInclusive<u32> = 1..=14;

impl List {
    /// Every line is understood or refused: one that was passed over would look like one that held.
    ///
    /// # Errors
    ///
    /// The first line that is not of the form.
    pub fn parse(file: &str) -> Result<List, ParseError> {
        let mut list = List { cases: vec![] };
        let mut heading = None;
        for (line, text) in (1..).zip(file.lines()) {
            let error = |why| ParseError { line, text: text.to_string(), why };
            list.parse_line(line, text, &mut heading).map_err(error)?;
        }
        let line = file.lines().count();
        let error = |why| ParseError { line, text: "the end".to_string(), why };
        list.end_case(heading.as_ref()).map_err(error)?;
        Ok(list)
    }

    /// Adds a line. A heading names the case that the next line begins.
    fn parse_line(&mut self, line: usize, text: &str, heading: &mut Option<String>) -> Parsed<()> {
        if let Some(name) = text.strip_prefix("##") {
            if heading.is_some() || !self.cases.is_empty() {
                self.end_case(heading.as_ref())?;
            }
            *heading = Some(self.parse_heading(name)?);
            return Ok(());
        }
        if text.is_empty() || text.starts_with('#') {
            return Ok(());
        }
        let mut tokens = Tokens::of(text)?;
        if tokens.skip("fresh") {
            let name = match heading.take() {
                None if self.cases.is_empty() => String::new(),
                None => return Err("expected ## and a name before another case".into()),
                Some(name) => name,
            };
            let pages = tokens.number()?;
            let controllers = CONTROLLERS.into_iter().filter(|name| tokens.skip(name)).collect();
            self.cases.push(Case { name, pages, controllers, entries: vec![] });
        } else {
            let case = self.cases.last_mut().filter(|_| heading.is_none());
            let case = case.ok_or("expected a fresh tree first")?;
            case.entries.push(Entry::parse(line, text, &mut tokens)?);
        }
        tokens.end()
    }

    fn parse_heading(&self, name: &str) -> Parsed<String> {
        let name = name.strip_prefix(' ').filter(|name| !name.is_empty());
        let name = name.ok_or("expected a space and a name after ##")?;
        let is_above = |name: &str| self.cases.iter().any(|case| case.name == name);
        if is_above("") {
            Err("a case above has no name".into())
        } else if is_above(name) {
            Err("a case above has this name".into())
        } else {
            Ok(name.to_string())
        }
    }

    /// A case without calls would look like one that held.
    fn end_case(&self, heading: Option<&String>) -> Parsed<()> {
        let has_calls = self.cases.last().is_some_and(|case| !case.entries.is_empty());
        if has_calls && heading.is_none() { Ok(()) } else { Err("there are no calls above".into()) }
    }

    pub fn entries(&self) -> impl Iterator<Item = &Entry> {
        self.cases.iter().flat_map(|case| &case.entries)
    }
}

impl Entry {
    fn parse(line: usize, text: &str, tokens: &mut Tokens) -> Parsed<Entry> {
        let call = parse_call(tokens)?;
        tokens.keyword("=")?;
        let reply = Reply::parse(&call, tokens)?;
        let (mut linux, mut order) = (None, None);
        if tokens.skip("|") {
            tokens.keyword("Linux")?;
            linux = Some(Linux::parse(&call, tokens)?);
            if tokens.skip("|") {
                tokens.keyword("order")?;
                order = Some(tokens.number()?);
            }
        }
        if linux == Some(Linux::Replies(reply.clone())) {
            return Err("Linux replies the same".into());
        }
        if order.is_some_and(|order| !ORDERS.contains(&order)) {
            return Err("document 02 has orders 1 to 14".into());
        }
        Ok(Entry { line, text: text.to_string(), call, reply, linux, order })
    }
}

/// The arguments are those of document 01, in its order. A buffer has room for any text, unless its
/// size is told.
fn parse_call(tokens: &mut Tokens) -> Parsed<Call> {
    let name = tokens.word()?;
    Ok(match name.as_str() {
        "make" => {
            Call::Make { user: tokens.number()?, parent: tokens.number()?, group: tokens.number()? }
        }
        "remove" => Call::Remove { user: tokens.number()?, group: tokens.number()? },
        "handover" => Call::HandOver {
            user: tokens.number()?,
            group: tokens.number()?,
            owner: tokens.number()?,
        },
        "procs" => Call::WriteProcs {
            user: tokens.number()?,
            group: tokens.number()?,
            line: tokens.text()?,
        },
        "control" => Call::WriteSubtreeControl {
            user: tokens.number()?,
            group: tokens.number()?,
            line: tokens.text()?,
        },
        "set" => Call::WriteSetting {
            user: tokens.number()?,
            group: tokens.number()?,
            file: tokens.file()?,
            line: tokens.text()?,
        },
        "admit" => Call::Admit { process: tokens.number()?, user: tokens.number()? },
        "fork" => Call::Fork { parent: tokens.number()?, process: tokens.number()? },
        "exit" => Call::Exit { process: tokens.number()? },
        "collect" => Call::Collect { process: tokens.number()? },
        "charge" => Call::Charge { process: tokens.number()?, pages: tokens.number()? },
        "release" => Call::Release { group: tokens.number()?, pages: tokens.number()? },
        "read" => {
            Call::Read { group: tokens.number()?, file: tokens.file()?, room: parse_room(tokens)? }
        }
        "member" => Call::Membership { process: tokens.number()?, room: parse_room(tokens)? },
        _ => return Err(format!("{name:?} is no call")),
    })
}

fn parse_room(tokens: &mut Tokens) -> Parsed<usize> {
    if tokens.is_next("=") {
        return Ok(ROOM);
    }
    let room = tokens.number()?;
    if room > ROOM { Err(format!("a buffer has {ROOM} bytes at most")) } else { Ok(room) }
}

impl Reply {
    /// What has to be told is told, and nothing else: the group exactly where a charge or a fork
    /// found no room, the text exactly where one was read.
    fn parse(call: &Call, tokens: &mut Tokens) -> Parsed<Reply> {
        let number = tokens.number()?;
        let (mut group, mut text) = (None, None);
        match (call, number) {
            (Call::Fork { .. }, NO_PIDS) | (Call::Charge { .. }, NO_MEMORY) => {
                tokens.keyword("group")?;
                group = Some(tokens.number()?);
            }
            (Call::Read { .. } | Call::Membership { .. }, 0) => text = Some(tokens.text()?),
            _ => {}
        }
        Ok(Reply { number, group, text })
    }

    /// An answer, as a case tells it.
    #[must_use]
    pub fn of(case: &Case, call: &Call, answer: &Answer) -> Reply {
        let asks_room = matches!(call, Call::Charge { .. } | Call::Fork { .. });
        let group = (asks_room && answer.told[0] != NO_GROUP).then_some(answer.told[0]);
        let mut text = answer.text();
        if lists_all_controllers(call) && !case.controllers.is_empty() {
            text = text.map(|text| cut(&text, &case.controllers));
        }
        Reply { number: answer.number, group, text }
    }
}

/// What a case has switched on is its own; the root has all that there are.
fn lists_all_controllers(call: &Call) -> bool {
    matches!(call, Call::Read { group: 0, file, .. } if file == b"cgroup.controllers")
}

/// A line of names without the controllers that are not among these. Anything else stays in it, so
/// that it is found.
fn cut(line: &[u8], controllers: &[&str]) -> Vec<u8> {
    let is_other = |name: &[u8]| {
        let controller = CONTROLLERS.iter().find(|controller| controller.as_bytes() == name);
        controller.is_some_and(|controller| !controllers.contains(controller))
    };
    let (names, end) = line.split_at(line.len() - usize::from(line.ends_with(b"\n")));
    let names = names.split(|&byte| byte == b' ').filter(|name| !is_other(name));
    let names: Vec<&[u8]> = names.collect();
    [&names.join(&b' '), end].concat()
}

impl Linux {
    /// A reply, or words in brackets.
    fn parse(call: &Call, tokens: &mut Tokens) -> Parsed<Linux> {
        match tokens.in_brackets() {
            Some(words) if words.trim().is_empty() => Err("expected words in the brackets".into()),
            Some(words) => Ok(Linux::Does(words)),
            None => Ok(Linux::Replies(Reply::parse(call, tokens)?)),
        }
    }
}

impl fmt::Display for ParseError {
    fn fmt(&self, f: &mut fmt::Formatter<'_>) -> fmt::Result {
        write!(f, "line {}: {}\n    {}", self.line, self.text, self.why)
    }
}

/// As a list has it.
impl fmt::Display for Reply {
    fn fmt(&self, f: &mut fmt::Formatter<'_>) -> fmt::Result {
        write!(f, "{}", self.number)?;
        if let Some(group) = self.group {
            write!(f, " group {group}")?;
        }
        if let Some(text) = &self.text {
            write!(f, " {}", Quoted(text))?;
        }
        Ok(())
    }
}
