//! A line of a list in its parts: words parted by spaces, texts in quotes, words in brackets.

use std::collections::VecDeque;
use std::fmt;
use std::str::{Chars, FromStr};

use super::Parsed;

enum Token {
    Word(String),
    Text(Vec<u8>),
    InBrackets(String),
}

/// The parts of a line that are left.
pub(super) struct Tokens(VecDeque<Token>);

impl Tokens {
    pub(super) fn of(line: &str) -> Parsed<Tokens> {
        let mut tokens = VecDeque::new();
        let mut rest = line.trim_start_matches(' ');
        while let Some(first) = rest.chars().next() {
            let (token, after) = match first {
                '"' => quoted(&rest[1..])?,
                '(' => {
                    let (words, after) = rest[1..].split_once(')').ok_or("a bracket is open")?;
                    (Token::InBrackets(words.to_string()), after)
                }
                _ => {
                    let (word, after) = rest.split_at(rest.find(' ').unwrap_or(rest.len()));
                    (Token::Word(word.to_string()), after)
                }
            };
            if !after.is_empty() && !after.starts_with(' ') {
                return Err(format!("expected a space before {after}"));
            }
            tokens.push_back(token);
            rest = after.trim_start_matches(' ');
        }
        Ok(Tokens(tokens))
    }

    pub(super) fn word(&mut self) -> Parsed<String> {
        match self.0.pop_front() {
            Some(Token::Word(word)) => Ok(word),
            other => Err(expected("a word", other.as_ref())),
        }
    }

    /// The name of a file: a word, but not what comes after one.
    pub(super) fn file(&mut self) -> Parsed<Vec<u8>> {
        match self.0.pop_front() {
            Some(Token::Word(word)) if word != "=" => Ok(word.into_bytes()),
            other => Err(expected("the name of a file, without quotes", other.as_ref())),
        }
    }

    pub(super) fn text(&mut self) -> Parsed<Vec<u8>> {
        match self.0.pop_front() {
            Some(Token::Text(text)) => Ok(text),
            other => Err(expected("a text in quotes", other.as_ref())),
        }
    }

    /// A number of decimal digits, without a sign.
    pub(super) fn number<N: FromStr>(&mut self) -> Parsed<N> {
        let token = self.0.pop_front();
        match &token {
            Some(Token::Word(word)) if word.bytes().all(|byte| byte.is_ascii_digit()) => {
                word.parse().map_err(|_| format!("{word} is too large"))
            }
            other => Err(expected("a number", other.as_ref())),
        }
    }

    /// This very word.
    pub(super) fn keyword(&mut self, keyword: &str) -> Parsed<()> {
        if self.skip(keyword) { Ok(()) } else { Err(expected(keyword, self.0.front())) }
    }

    /// Whether this word comes next; it is then passed.
    pub(super) fn skip(&mut self, keyword: &str) -> bool {
        self.is_next(keyword) && self.0.pop_front().is_some()
    }

    pub(super) fn is_next(&self, keyword: &str) -> bool {
        matches!(self.0.front(), Some(Token::Word(word)) if word == keyword)
    }

    /// Words in brackets, if they come next.
    pub(super) fn in_brackets(&mut self) -> Option<String> {
        match self.0.pop_front_if(|token| matches!(token, Token::InBrackets(_))) {
            Some(Token::InBrackets(words)) => Some(words),
            _ => None,
        }
    }

    pub(super) fn end(&self) -> Parsed<()> {
        match self.0.front() {
            None => Ok(()),
            other => Err(expected("the end of the line", other)),
        }
    }
}

fn expected(what: &str, found: Option<&Token>) -> String {
    match found {
        None => format!("expected {what}, found the end of the line"),
        Some(Token::Word(word)) => format!("expected {what}, found {word}"),
        Some(Token::Text(text)) => format!("expected {what}, found {}", Quoted(text)),
        Some(Token::InBrackets(words)) => format!("expected {what}, found ({words})"),
    }
}

/// A text quoted as in JSON, behind its first quote, and what follows its last. A character is the
/// byte of its number, so that every byte can be written.
fn quoted(rest: &str) -> Parsed<(Token, &str)> {
    let mut text = vec![];
    let mut chars = rest.chars();
    loop {
        let char = match chars.next().ok_or("a quote is open")? {
            '"' => return Ok((Token::Text(text), chars.as_str())),
            '\\' => escaped(&mut chars)?,
            char if char.is_ascii_control() => return Err(format!("write {char:?} as an escape")),
            char => char,
        };
        text.push(u8::try_from(char).map_err(|_| format!("{char:?} is no byte"))?);
    }
}

fn escaped(chars: &mut Chars) -> Parsed<char> {
    let escape = chars.next().ok_or("a quote is open")?;
    Ok(match escape {
        '"' | '\\' | '/' => escape,
        'b' => '\u{8}',
        'f' => '\u{c}',
        'n' => '\n',
        'r' => '\r',
        't' => '\t',
        'u' => {
            let digits: String = chars.take(4).collect();
            let is_code = digits.bytes().all(|byte| byte.is_ascii_hexdigit());
            let code = u32::from_str_radix(&digits, 16).ok().filter(|_| is_code);
            let char = code.and_then(char::from_u32);
            char.ok_or_else(|| format!("\\u{digits} is no byte"))?
        }
        _ => return Err(format!("no escape: \\{escape}")),
    })
}

/// A text as a list has it.
pub(super) struct Quoted<'a>(pub &'a [u8]);

impl fmt::Display for Quoted<'_> {
    fn fmt(&self, f: &mut fmt::Formatter<'_>) -> fmt::Result {
        f.write_str("\"")?;
        for &byte in self.0 {
            match byte {
                b'"' | b'\\' => write!(f, "\\{}", char::from(byte))?,
                b'\n' => f.write_str("\\n")?,
                b'\t' => f.write_str("\\t")?,
                b' '..=b'~' => write!(f, "{}", char::from(byte))?,
                _ => write!(f, "\\u{byte:04x}")?,
            }
        }
        f.write_str("\"")
    }
}
