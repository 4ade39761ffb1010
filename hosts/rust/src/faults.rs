//! The faults of a text.

use crate::raw::{Answer, RawFault, RawRange, RawRelated};
use std::fmt::{self, Write};
use std::ops::Range;

/// A line and a column, both from 1.
#[repr(C)]
#[derive(Clone, Copy, Debug, Default, PartialEq, Eq, PartialOrd, Ord)]
pub struct Position {
    /// The line.
    pub line: usize,
    /// The column in characters.
    pub column: usize,
    /// The column in units of UTF-16, as editors and language servers count.
    pub utf16_column: usize,
}

/// A range of bytes of a text, and where it begins and ends.
#[derive(Clone, Debug, PartialEq, Eq)]
pub struct Place {
    /// The bytes.
    pub bytes: Range<usize>,
    /// Where the first stands.
    pub from: Position,
    /// Where the one behind the last stands.
    pub to: Position,
}

impl Place {
    pub(crate) fn of(range: &RawRange) -> Place {
        Place {
            bytes: range.start..range.end,
            from: range.from,
            to: range.to,
        }
    }
}

/// Why a text is refused: one fault or more, as the parser tells them.
pub struct Faults(pub(crate) Answer);

impl Faults {
    /// Each fault. They don't stand in the order of the text: the fault of its end comes first.
    pub fn iter(&self) -> FaultsIter<'_> {
        FaultsIter(self.0.faults().iter())
    }

    /// How many there are: at least one.
    #[allow(clippy::len_without_is_empty)]
    pub fn len(&self) -> usize {
        self.0.faults().len()
    }

    /// The faults as people read them: each with its line of the text under this name, carets, and
    /// what to write instead.
    pub fn shown(&self, name: &str, text: &str) -> String {
        let mut out = String::new();
        for fault in self {
            fault
                .show(&mut out, name, text)
                .expect("a string takes all");
        }
        out
    }
}

impl fmt::Display for Faults {
    fn fmt(&self, f: &mut fmt::Formatter<'_>) -> fmt::Result {
        for (index, fault) in self.iter().enumerate() {
            if index > 0 {
                f.write_str("\n")?;
            }
            write!(f, "{fault}")?;
        }
        Ok(())
    }
}

impl fmt::Debug for Faults {
    fn fmt(&self, f: &mut fmt::Formatter<'_>) -> fmt::Result {
        f.debug_list().entries(self.iter()).finish()
    }
}

impl std::error::Error for Faults {}

impl<'a> IntoIterator for &'a Faults {
    type Item = Fault<'a>;
    type IntoIter = FaultsIter<'a>;

    fn into_iter(self) -> FaultsIter<'a> {
        self.iter()
    }
}

/// The faults of a text, as the parser tells them.
#[derive(Clone)]
pub struct FaultsIter<'a>(std::slice::Iter<'a, RawFault>);

impl<'a> Iterator for FaultsIter<'a> {
    type Item = Fault<'a>;

    fn next(&mut self) -> Option<Fault<'a>> {
        self.0.next().map(Fault)
    }

    fn size_hint(&self) -> (usize, Option<usize>) {
        self.0.size_hint()
    }
}

impl ExactSizeIterator for FaultsIter<'_> {}

/// A fault, lent by its list.
#[derive(Clone, Copy)]
pub struct Fault<'a>(&'a RawFault);

impl<'a> Fault<'a> {
    /// The name of its kind: `UnrecognizedToken`, `WrongArity` and so on.
    pub fn kind(self) -> &'a str {
        self.0.kind()
    }

    /// What is wrong.
    pub fn message(self) -> &'a str {
        self.0.message()
    }

    /// What could have stood there.
    pub fn label(self) -> Option<&'a str> {
        Some(self.0.label()).filter(|label| !label.is_empty())
    }

    /// What to write instead.
    pub fn help(self) -> Option<&'a str> {
        Some(self.0.help()).filter(|help| !help.is_empty())
    }

    /// The names of all kinds of token that could have stood there.
    pub fn expected(self) -> impl ExactSizeIterator<Item = &'a str> {
        self.0.expected()
    }

    /// Other places that belong to it.
    pub fn related(self) -> impl ExactSizeIterator<Item = Related<'a>> {
        self.0.related().iter().map(Related)
    }

    /// Where the parser saw it, unless it has no place.
    pub fn place(self) -> Option<Place> {
        self.0.has_place.then(|| Place::of(&self.0.place))
    }

    /// Where its cause stands, as far as the help tells, else as `place`.
    pub fn cause(self) -> Option<Place> {
        self.0.has_place.then(|| Place::of(&self.0.cause))
    }

    /// Whether it may come of the fault before it, and be no mistake of its own.
    pub fn follows(self) -> bool {
        self.0.follows
    }

    fn show(self, out: &mut String, name: &str, text: &str) -> fmt::Result {
        match self.cause() {
            Some(cause) => {
                let Position { line, column, .. } = cause.from;
                writeln!(out, "{name}:{line}:{column}: {}", self.message())?;
                self.show_line(out, text, &cause)?;
            }
            None => writeln!(out, "{name}: {}", self.message())?,
        }
        if let Some(help) = self.help() {
            writeln!(out, "  = help: {help}")?;
        }
        for related in self.related() {
            let Position { line, column, .. } = related.place().from;
            writeln!(out, "  = {line}:{column}: {}", related.text())?;
        }
        Ok(())
    }

    /// The line of a cause, found from there, so that many faults take no longer than their lines.
    fn show_line(self, out: &mut String, text: &str, cause: &Place) -> fmt::Result {
        let Range { start, end } = cause.bytes;
        let (Some(before), Some(behind)) = (text.get(..start), text.get(start..)) else {
            return Ok(()); // another text than that which was parsed
        };
        let before = &before[before.rfind('\n').map_or(0, |at| at + 1)..];
        let behind = &behind[..behind.find('\n').unwrap_or(behind.len())];
        let long = end.saturating_sub(start);
        let marks = behind.char_indices().take_while(|(at, _)| *at < long);
        let blank: String = before
            .chars()
            .map(|c| if c == '\t' { c } else { ' ' })
            .collect();
        let carets = "^".repeat(marks.count().max(1));
        let label = self.label().unwrap_or("");
        writeln!(
            out,
            "  | {before}{}\n  | {blank}{carets} {label}",
            behind.trim_end_matches('\r')
        )
    }
}

impl fmt::Display for Fault<'_> {
    fn fmt(&self, f: &mut fmt::Formatter<'_>) -> fmt::Result {
        if let Some(cause) = self.cause() {
            write!(f, "{}:{}: ", cause.from.line, cause.from.column)?;
        }
        f.write_str(self.message())
    }
}

impl fmt::Debug for Fault<'_> {
    fn fmt(&self, f: &mut fmt::Formatter<'_>) -> fmt::Result {
        f.debug_struct("Fault")
            .field("kind", &self.kind())
            .field("message", &self.message())
            .field("label", &self.label())
            .field("help", &self.help())
            .field("bytes", &self.place().map(|place| place.bytes))
            .finish()
    }
}

/// Another place that belongs to a fault.
#[derive(Clone, Copy)]
pub struct Related<'a>(&'a RawRelated);

impl<'a> Related<'a> {
    /// Where it stands.
    pub fn place(self) -> Place {
        Place::of(&self.0.place)
    }

    /// What it is.
    pub fn text(self) -> &'a str {
        self.0.text()
    }
}
