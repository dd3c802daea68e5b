//! The name line (docs/REFERENCE.md, 2).
use crate::compile::{Symbol, SymbolKind};
use std::collections::BTreeSet;

/// The symbols of a name line, or nothing if it is malformed.
pub fn read(line: &[u8]) -> Option<Vec<Symbol>> {
    if line.is_empty() {
        return Some(Vec::new());
    }
    let symbols: Vec<Symbol> = line
        .split(|byte| *byte == b',')
        .map(entry)
        .collect::<Option<_>>()?;
    let distinct: BTreeSet<&str> = symbols.iter().map(|s| s.name.as_str()).collect();
    (symbols.len() <= 256 && distinct.len() == symbols.len()).then_some(symbols)
}

fn entry(bytes: &[u8]) -> Option<Symbol> {
    let (name, kind) = match bytes {
        [name @ .., b':', kind] => (name, kind),
        _ => return None,
    };
    let kind = match kind {
        b'p' => SymbolKind::Parameter,
        b's' => SymbolKind::State,
        b't' => SymbolKind::Time,
        b'i' => SymbolKind::Input,
        _ => return None,
    };
    let first = *name.first()?;
    let letters = |byte: &u8| matches!(byte, b'a'..=b'z' | b'_' | b'0'..=b'9');
    if name.len() > 64 || first.is_ascii_digit() || !name.iter().all(letters) {
        return None;
    }
    let name = String::from_utf8(name.to_vec()).ok()?;
    Some(Symbol { name, kind })
}

/// The name of a symbol number. One outside the table gets a name that no line can hold.
pub fn name_of(symbols: &[Symbol], number: u32) -> String {
    match symbols.get(number as usize) {
        Some(symbol) => symbol.name.clone(),
        None => format!("#{number}"),
    }
}
