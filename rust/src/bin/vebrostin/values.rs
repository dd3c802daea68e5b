//! Lines of values in decimals: a heading with the names, in any order, then a line for each flight.
use crate::names::Names;
use crate::problem::Problem;
use crate::tree::Span;
use crate::words::decimal;

/// The values of each line in the order of the names, or what is wrong with the line.
pub type Rows = Vec<Result<Vec<f64>, Problem>>;

/// Reads a table. A symbol that is `left out` may lack its column; its value is then 0.
pub fn read(text: &str, names: &Names, left_out: Option<u32>) -> Result<Rows, Problem> {
    let start = if text.starts_with('\u{feff}') { '\u{feff}'.len_utf8() } else { 0 };
    let mut lines = lines(text, start);
    let (heading, at) = lines.next().unwrap_or(("", start));
    let columns = columns(heading, at, names, left_out)?;
    Ok(lines.filter(|(line, _)| !line.trim().is_empty() || columns.is_empty()).map(|(line, at)| row(line, at, &columns, names.len())).collect())
}

/// The lines of a text from a byte on, each with the byte at which it starts; nothing after a last newline is no line.
fn lines(text: &str, start: usize) -> impl Iterator<Item = (&str, usize)> {
    let mut at = start;
    text[start..].split_inclusive('\n').map(move |line| {
        let here = at;
        at += line.len();
        (line.trim_end_matches(['\n', '\r']), here)
    })
}

/// The cells of a line with their places; a line without anything has none.
fn cells(line: &str, at: usize) -> Vec<(&str, Span)> {
    let mut start = at;
    let mut list = Vec::new();
    for cell in line.split(',').filter(|_| !line.trim().is_empty()) {
        let from = start + cell.len() - cell.trim_start().len();
        list.push((unquoted(cell.trim()), from..from + cell.trim().len()));
        start += cell.len() + 1;
    }
    list
}

/// A cell without the quotes that some spreadsheets put around it.
fn unquoted(cell: &str) -> &str {
    cell.strip_prefix('"').and_then(|cell| cell.strip_suffix('"')).unwrap_or(cell)
}

/// The symbol of each column.
fn columns(heading: &str, at: usize, names: &Names, left_out: Option<u32>) -> Result<Vec<usize>, Problem> {
    let whole = at..at + heading.len();
    let expected = format!("The first line has the names of the formula: {}", names.all().collect::<Vec<_>>().join(","));
    let mut columns = Vec::new();
    for (name, span) in cells(heading, at) {
        let Some(symbol) = names.symbol(name) else {
            return Err(Problem::new(span, format!("{name} is not in the formula's name line"), expected));
        };
        if columns.contains(&(symbol as usize)) {
            return Err(Problem::new(span, format!("{name} has two columns"), expected));
        }
        columns.push(symbol as usize);
    }
    for (symbol, name) in names.all().enumerate() {
        if !columns.contains(&symbol) && left_out != Some(symbol as u32) {
            return Err(Problem::new(whole, format!("{name} has no column"), expected));
        }
    }
    Ok(columns)
}

fn row(line: &str, at: usize, columns: &[usize], count: usize) -> Result<Vec<f64>, Problem> {
    let cells = cells(line, at);
    if cells.len() != columns.len() {
        let message = format!("{} values for {} names", cells.len(), columns.len());
        return Err(Problem::new(at..at + line.len(), message, "A decimal has a point, no comma; values are separated by commas."));
    }
    let mut values = vec![0.0; count];
    for ((cell, span), column) in cells.into_iter().zip(columns) {
        values[*column] = signed(cell).map_err(|why| Problem::new(span, format!("{cell} {why}"), "Write a number as 12, -0.75 or 6.5e-3."))?;
    }
    Ok(values)
}

/// A decimal number with or without a sign.
pub fn signed(text: &str) -> Result<f64, &'static str> {
    match text.strip_prefix('-') {
        Some(digits) => decimal(digits).map(|value| -value),
        None => decimal(text.strip_prefix('+').unwrap_or(text)),
    }
}
