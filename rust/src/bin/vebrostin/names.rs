//! The name line: the names of a formula's symbols, in their order, each with its kind.
use crate::problem::Problem;
use crate::tree::{Span, RESERVED};

#[derive(Clone, Debug, Default, PartialEq, Eq)]
pub struct Names(Vec<(String, char)>);

/// Names and bytes of a name at most.
const MOST: usize = 256;
const LONGEST: usize = 64;

impl Names {
    pub fn len(&self) -> usize {
        self.0.len()
    }

    /// The names as they stand, in their order.
    pub fn all(&self) -> impl Iterator<Item = &str> {
        self.0.iter().map(|(name, _)| name.as_str())
    }

    pub fn symbol(&self, name: &str) -> Option<u32> {
        self.all().position(|known| known == name).map(|at| at as u32)
    }

    /// A symbol's name as a formula writes it: none where it has no name, or a name that is a word of the formula's text.
    pub fn name(&self, symbol: u32) -> Option<&str> {
        let name = self.0.get(symbol as usize)?.0.as_str();
        (!RESERVED.contains(&name)).then_some(name)
    }

    /// What a symbol is, in words; none for a parameter and for a symbol without a name.
    pub fn moving(&self, symbol: u32) -> Option<&'static str> {
        match self.0.get(symbol as usize)?.1 {
            's' => Some("a state"),
            't' => Some("the time"),
            'i' => Some("an input"),
            _ => None,
        }
    }

    /// The line as the compiler reads it.
    pub fn line(&self) -> String {
        self.joined(",")
    }

    /// The line as people read it.
    pub fn readable(&self) -> String {
        self.joined(", ")
    }

    fn joined(&self, between: &str) -> String {
        let items: Vec<String> = self.0.iter().map(|(name, kind)| format!("{name}:{kind}")).collect();
        items.join(between)
    }

    /// Takes one more `name:kind`, or says what is wrong with it.
    fn add(&mut self, item: &str) -> Result<(), (String, String)> {
        let fault = |message: String, advice: &str| Err((message, advice.to_string()));
        if item.is_empty() {
            return fault("a name is missing between two commas".into(), "Take a comma away.");
        }
        let Some((name, kind)) = item.split_once(':') else {
            return fault(format!("{item} has no kind"), "Write NAME:KIND: p for a parameter, s for a state, t for the time, i for an input.");
        };
        let (name, kind) = (name.trim(), kind.trim());
        let good = |(at, byte): (usize, u8)| byte == b'_' || byte.is_ascii_lowercase() || at > 0 && byte.is_ascii_digit();
        if name.is_empty() || name.len() > LONGEST || !name.bytes().enumerate().all(good) {
            return fault(format!("{name} can't be a name"), "A name has 1 to 64 of a-z, _ and, not first, 0-9.");
        }
        let mut letters = kind.chars();
        let (Some(letter @ ('p' | 's' | 't' | 'i')), None) = (letters.next(), letters.next()) else {
            return fault(format!("{name} has no kind {kind}"), "The kinds are p for a parameter, s for a state, t for the time, i for an input.");
        };
        if self.symbol(name).is_some() {
            return fault(format!("{name} stands twice"), "Give the second one another name.");
        }
        if self.len() == MOST {
            return fault(format!("{name} is one name too many"), "A formula has at most 256 names.");
        }
        self.0.push((name.to_string(), letter));
        Ok(())
    }

    /// The name line as docs/REFERENCE.md, 2, has it, without blanks; or what is wrong with it.
    pub fn from_line(line: &[u8]) -> Result<Self, String> {
        let mut names = Self::default();
        let Ok(line) = std::str::from_utf8(line) else {
            return Err("it has bytes that are no text".into());
        };
        for item in line.split(',').filter(|_| !line.is_empty()) {
            if item.contains(char::is_whitespace) {
                return Err(format!("a blank, a tab or a \\r stands in '{}'", item.escape_default()));
            }
            names.add(item).map_err(|(message, _)| message)?;
        }
        Ok(names)
    }

    /// The names of a text, from the byte after `names:` on, and the byte where the formula begins. The list goes on in the next line
    /// where a line ends in a comma; comments may stand behind.
    pub fn from_text(text: &str, from: usize) -> Result<(Self, usize), Problem> {
        let mut names = Self::default();
        let (mut at, mut more) = (from, false);
        while at < text.len() {
            let line = &text[at..text[at..].find('\n').map_or(text.len(), |end| at + end)];
            let code = line.split('#').next().unwrap_or("").trim_end();
            for (item, span) in items(code, at) {
                names.add(item).map_err(|(message, advice)| Problem::new(span, message, advice))?;
            }
            more = code.ends_with(',') || more && code.trim().is_empty();
            at = (at + line.len() + 1).min(text.len());
            if !more {
                break;
            }
        }
        if more {
            return Err(Problem::new(at..at, "a name is missing after the last comma", "Write one more NAME:KIND, or take the comma away."));
        }
        Ok((names, at))
    }
}

/// The pieces between the commas of a line that stands at a byte, without the empty one behind a last comma.
fn items(code: &str, at: usize) -> Vec<(&str, Span)> {
    let code = code.strip_suffix(',').unwrap_or(code);
    let mut start = at;
    let mut list = Vec::new();
    for piece in code.split(',').filter(|_| !code.trim().is_empty()) {
        let item = piece.trim();
        let from = start + piece.len() - piece.trim_start().len();
        list.push((item, from..from + item.len()));
        start += piece.len() + 1;
    }
    list
}
