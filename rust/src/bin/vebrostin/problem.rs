//! What is wrong with a text, shown with the piece that it is about.
use crate::tree::Span;

/// What is wrong, where, and what to do about it.
#[derive(Clone, Debug, PartialEq, Eq)]
pub struct Problem {
    pub span: Span,
    pub message: String,
    pub advice: String,
}

/// Lines of a piece that are shown at most.
const SHOWN: usize = 4;

impl Problem {
    pub fn new(span: Span, message: impl Into<String>, advice: impl Into<String>) -> Self {
        Self { span, message: message.into(), advice: advice.into() }
    }

    /// `FILE:LINE:COLUMN: message`, the lines of the piece with a mark below, and the advice.
    pub fn show(&self, file: &str, text: &str) -> String {
        let (line, column) = position(text, self.span.start);
        let mut out = format!("{file}:{line}:{column}: {}\n", self.message);
        let lines = lines_of(text, &self.span);
        for (start, content) in lines.iter().take(SHOWN) {
            let from = self.span.start.clamp(*start, start + content.len()) - start;
            let to = self.span.end.clamp(*start, start + content.len()) - start;
            let (line, from, to) = window(content, from, to);
            out += &format!("    {}\n    {}\n", plain(&line), mark(&line, from, to));
        }
        if lines.len() > SHOWN {
            out += "    ..\n";
        }
        if !self.advice.is_empty() {
            out += &format!("{}\n", self.advice);
        }
        out
    }
}

/// Whether a character moves what a terminal shows: a control but for the tab, or one that turns the direction of writing.
pub fn is_odd(c: char) -> bool {
    c.is_control() && c != '\t' || matches!(c, '\u{202a}'..='\u{202e}' | '\u{2066}'..='\u{2069}')
}

/// A text with a mark for each character that a terminal would act on.
pub fn plain(text: &str) -> String {
    text.chars().map(|c| if is_odd(c) { '\u{fffd}' } else { c }).collect()
}

/// Line and column, both from 1, of a byte of a text; a column is a character.
pub fn position(text: &str, at: usize) -> (usize, usize) {
    let before = text.get(..at).unwrap_or(text);
    let start = before.rfind('\n').map_or(0, |newline| newline + 1);
    (before.matches('\n').count() + 1, before[start..].chars().count() + 1)
}

/// The lines that a span touches, each with the byte at which it starts.
fn lines_of<'a>(text: &'a str, span: &Span) -> Vec<(usize, &'a str)> {
    let mut start = 0;
    let mut lines = Vec::new();
    for line in text.split('\n') {
        let end = start + line.len();
        if start <= span.end && span.start <= end && (start < span.end || lines.is_empty()) {
            lines.push((start, line.strip_suffix('\r').unwrap_or(line)));
        }
        start = end + 1;
    }
    lines
}

/// A long line is cut before and behind the start of its part; the part's bytes in what is left.
fn window(line: &str, from: usize, to: usize) -> (String, usize, usize) {
    const BEFORE: usize = 60;
    const BEHIND: usize = 80;
    let first = line.get(..from).unwrap_or("").char_indices().rev().nth(BEFORE).map_or(0, |(at, _)| at);
    let last = line.get(from..).unwrap_or("").char_indices().nth(BEHIND).map_or(line.len(), |(at, _)| from + at);
    let (left, right) = (if first > 0 { ".. " } else { "" }, if last < line.len() { " .." } else { "" });
    let shown = format!("{left}{}{right}", line.get(first..last).unwrap_or(line));
    (shown, from - first + left.len(), to.min(last) - first + left.len())
}

/// Marks below a part of a line: at least one, a tab below a tab, blanks at the part's edges left out.
fn mark(line: &str, from: usize, to: usize) -> String {
    let part = line.get(from..to).unwrap_or("");
    let from = if part.trim().is_empty() { from } else { from + part.len() - part.trim_start().len() };
    let blank = line.get(..from).unwrap_or(line).chars().map(|c| if c == '\t' { '\t' } else { ' ' });
    let marks = part.trim().chars().count().max(1);
    blank.chain(std::iter::repeat_n('^', marks)).collect()
}
