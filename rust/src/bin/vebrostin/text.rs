//! A formula's file: what it counts, the name line, and the formula.
use crate::names::Names;
use crate::parse::parse;
use crate::print::print;
use crate::problem::{is_odd, Problem};
use crate::tree::Tree;

pub struct Formula {
    pub counts: String,
    pub names: Names,
    pub tree: Tree,
}

/// Columns after which a printed formula goes on in the next line.
const WIDTH: usize = 100;

impl Formula {
    /// Reads a file's text.
    pub fn read(text: &str) -> Result<Self, Problem> {
        ordinary(text)?;
        let start = if text.starts_with('\u{feff}') { '\u{feff}'.len_utf8() } else { 0 };
        let first = text[start..].lines().next().unwrap_or("");
        let counts = first.strip_prefix("counts:").map(str::trim).unwrap_or("");
        if counts.is_empty() {
            let advice = "Open with a line as `counts: trip fuel in kg, climb and cruise without the taxi`.";
            return Err(Problem::new(start..start + first.len(), "the first line has to say what the formula counts", advice));
        }
        let names_at = after_blanks(text, start + first.len());
        if !text[names_at..].starts_with("names:") {
            let line = text[names_at..].lines().next().unwrap_or("");
            let advice = "Write a line as `names: burn:p, distance:i`, or `names:` alone where the formula has none.";
            return Err(Problem::new(names_at..names_at + line.len(), "the name line is missing", advice));
        }
        let (names, formula_at) = Names::from_text(text, names_at + "names:".len())?;
        let tree = parse(text, formula_at, &names)?;
        Ok(Self { counts: counts.to_string(), names, tree })
    }

    /// What it counts, up to a first colon: for headings and axes.
    pub fn short(&self) -> &str {
        self.counts.split(':').next().unwrap_or("").trim()
    }
}

/// The text of a file.
pub fn write(counts: &str, names: &Names, tree: &Tree) -> String {
    let first = format!("counts: {counts}");
    let second = format!("names: {}", names.readable());
    format!("{}\n{}\n{}\n", first.trim_end(), wrap(second.trim_end()), wrap(&print(tree, names)))
}

/// Long lines go on in the next one, at a blank.
fn wrap(text: &str) -> String {
    let (mut out, mut column) = (String::new(), 0);
    for (at, word) in text.split(' ').enumerate() {
        if at > 0 && column + word.len() > WIDTH {
            out.push_str("\n   ");
            column = 3;
        }
        out.push_str(if at > 0 { " " } else { "" });
        out.push_str(word);
        column += word.len() + 1;
    }
    out
}

/// The byte of the first line, from a byte on, that is neither blank nor a comment.
fn after_blanks(text: &str, from: usize) -> usize {
    let mut at = from;
    for line in text[from..].split_inclusive('\n') {
        if !line.trim().is_empty() && !line.trim_start().starts_with('#') {
            return at + line.len() - line.trim_start().len();
        }
        at += line.len();
    }
    at
}

/// No characters that move what a terminal shows, but for tabs and line ends.
fn ordinary(text: &str) -> Result<(), Problem> {
    let mut rest = text.char_indices().peekable();
    while let Some((at, c)) = rest.next() {
        let line_end = c == '\n' || c == '\r' && rest.peek().is_some_and(|(_, next)| *next == '\n');
        if is_odd(c) && !line_end {
            let message = format!("the character {} doesn't belong into a text", c.escape_unicode());
            return Err(Problem::new(at..at + c.len_utf8(), message, "Save the file as plain text in UTF-8."));
        }
    }
    Ok(())
}
