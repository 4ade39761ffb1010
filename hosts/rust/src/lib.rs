//! Cedar policies in safe Rust, over a library of which each function is proved.
//!
//! ```
//! use cedar_proved::{Effect, PolicySet};
//!
//! let set = PolicySet::parse("@id(\"a\") permit(principal, action, resource);").unwrap();
//! let policy = set.get("policy0").unwrap();
//! assert_eq!(policy.effect(), Effect::Permit);
//! assert_eq!(policy.annotation("id"), Some("a"));
//!
//! let text = "permit(principal action);";
//! let faults = PolicySet::parse(text).unwrap_err();
//! let fault = faults.iter().next().unwrap();
//! assert_eq!(fault.message(), "unexpected token `action`");
//! assert_eq!(fault.place().unwrap().bytes, 17..23);
//! print!("{}", faults.shown("my.cedar", text));
//! ```
//!
//! A call takes time linear in its text and a small stack, whatever the text is, and never panics
//! for it. Answers are [`Send`] and [`Sync`], and own all that they tell; nothing of them points
//! into the text. Where memory is refused, the calls end the process as Rust's own collections do;
//! those whose names begin with `try_` tell it instead, as [`Error::Memory`].
//!
//! All `unsafe` stands in `raw.rs`. Its declarations are trusted to be the library's: their sizes are
//! asserted, and each call asks the library for its version, and panics where it has another.
#![deny(unsafe_code)]

#[cfg(doctest)]
#[doc = include_str!("../README.md")]
struct Readme;

mod faults;
mod policy;
#[allow(unsafe_code)]
mod raw;

pub use faults::{Fault, Faults, FaultsIter, Place, Position, Related};
pub use policy::{Effect, Entity, Operator, Policies, Policy, PolicySet, Scope};

use std::fmt;

/// Why there is no answer: the text's faults, or want of memory.
#[derive(Debug)]
pub enum Error {
    /// The text isn't what was asked for.
    Faults(Faults),
    /// The heap had no memory left; nothing is lost.
    Memory,
}

impl fmt::Display for Error {
    fn fmt(&self, f: &mut fmt::Formatter<'_>) -> fmt::Result {
        match self {
            Error::Faults(faults) => faults.fmt(f),
            Error::Memory => f.write_str("want of memory"),
        }
    }
}

impl std::error::Error for Error {}

impl From<Faults> for Error {
    fn from(faults: Faults) -> Error {
        Error::Faults(faults)
    }
}

/// How a text is laid out over lines.
#[derive(Clone, Copy, Debug, PartialEq, Eq)]
pub struct Layout {
    /// How many characters a line may have where its words leave a choice.
    pub width: usize,
    /// How many spaces deeper the content of a bracket stands.
    pub indent: usize,
}

impl Default for Layout {
    fn default() -> Layout {
        Layout {
            width: 80,
            indent: 2,
        }
    }
}

/// One expression, as its tokens with one space between two.
pub fn parse_expression(text: &str) -> Result<String, Faults> {
    or_end(try_parse_expression(text))
}

/// The same, where want of memory is told.
pub fn try_parse_expression(text: &str) -> Result<String, Error> {
    raw::parse_expression(text).and_then(written)
}

/// The policies that a text means, each on a line as it is printed, without comments.
pub fn format_policies(text: &str) -> Result<String, Faults> {
    or_end(try_format_policies(text))
}

/// The same, where want of memory is told.
pub fn try_format_policies(text: &str) -> Result<String, Error> {
    raw::format_policies(text).and_then(written)
}

/// The policies that a text means, written anew from that: each on a line, annotations in the order
/// of their keys, no comments, and no parentheses but those that the meaning needs. It means the same
/// set as the text.
pub fn write_policies(text: &str) -> Result<String, Faults> {
    or_end(try_write_policies(text))
}

/// The same, where want of memory is told.
pub fn try_write_policies(text: &str) -> Result<String, Error> {
    raw::write_policies(text).and_then(written)
}

/// A text of policies over lines, with all its comments. It needs a text that parses, and not one
/// that means something.
pub fn layout_policies(text: &str, layout: Layout) -> Result<String, Faults> {
    or_end(try_layout_policies(text, layout))
}

/// The same, where want of memory is told.
pub fn try_layout_policies(text: &str, layout: Layout) -> Result<String, Error> {
    raw::layout_policies(text, layout.width, layout.indent).and_then(written)
}

/// Where a byte of a text stands; its end, where the byte lies behind it.
pub fn position_of(text: &str, offset: usize) -> Position {
    try_position_of(text, offset).unwrap_or_else(|_| raw::end_for_want_of_memory())
}

/// The same, where want of memory is told: it has no faults.
pub fn try_position_of(text: &str, offset: usize) -> Result<Position, Error> {
    raw::position_of(text, offset).ok_or(Error::Memory)
}

/// The text of an answer, copied.
fn written(answer: raw::Answer) -> Result<String, Error> {
    let mut text = String::new();
    text.try_reserve_exact(answer.text().len())
        .map_err(|_| Error::Memory)?;
    text.push_str(answer.text());
    Ok(text)
}

/// What a call answered; want of memory ends the process.
fn or_end<T>(answer: Result<T, Error>) -> Result<T, Faults> {
    answer.map_err(|error| match error {
        Error::Faults(faults) => faults,
        Error::Memory => raw::end_for_want_of_memory(),
    })
}
