//! The words and signs of a formula's text, each with its place.
use crate::problem::Problem;
use crate::tree::Span;

#[derive(Clone, Copy, Debug, PartialEq, Eq)]
pub enum Word<'a> {
    /// The bits of a number that a minus sign before it may turn around.
    Number(u64),
    /// A number written by its bits, `0x` and 16 digits.
    Bits(u64),
    /// `$7`: a symbol by its number.
    Symbol(u32),
    Name(&'a str),
    Sign(&'static str),
    End,
}

/// Signs, longer ones before those that they begin with, and the sign that each is read as.
const SIGNS: [(&str, &str); 17] = [
    ("<=", "<="), (">=", ">="), ("==", "=="), ("!=", "!="), ("<>", "!="), ("<", "<"), (">", ">"), ("=", "=="),
    ("+", "+"), ("-", "-"), ("*", "*"), ("/", "/"), ("^", "^"), ("%", "%"), ("(", "("), (")", ")"), (",", ","),
];

/// What people write instead of a sign, and what to write here.
const INSTEAD: [(&str, &str); 18] = [
    ("**", "^ for a power"), ("&&", "and"), ("||", "or"), ("&", "and"), ("|", "or"), ("!", "not"), ("[", "( and )"), ("]", "( and )"),
    ("{", "( and )"), ("}", "( and )"), (";", ", between arguments"), ("×", "*"), ("·", "*"), ("÷", "/"), ("−", "-"), ("≤", "<="),
    ("≥", ">="), ("≠", "!="),
];

/// The words of a text from a byte on, the last one `End`. `#` begins a comment that lasts to the line's end.
pub fn words(text: &str, from: usize) -> Result<Vec<(Word<'_>, Span)>, Problem> {
    let mut list = Vec::new();
    let mut at = from;
    while let Some(first) = text[at..].chars().next() {
        let rest = &text[at..];
        if first.is_ascii_whitespace() {
            at += 1;
            continue;
        }
        if first == '#' {
            at += rest.find('\n').unwrap_or(rest.len());
            continue;
        }
        let (word, length) = word(rest).map_err(|(length, message, advice)| Problem::new(at..at + length, message, advice))?;
        if word == Word::Sign(",") {
            one_or_two(text, at, list.last())?;
        }
        list.push((word, at..at + length));
        at += length;
    }
    let end = text.trim_end().len().max(from);
    list.push((Word::End, end..end));
    Ok(list)
}

/// `12,500` without a blank may be meant as one number: it is turned away.
fn one_or_two(text: &str, at: usize, last: Option<&(Word<'_>, Span)>) -> Result<(), Problem> {
    let Some((Word::Number(_), before)) = last else {
        return Ok(());
    };
    let digits = digits(&text[at + 1..]);
    if before.end < at || digits == 0 {
        return Ok(());
    }
    let (one, two) = (&text[before.clone()], &text[at + 1..at + 1 + digits]);
    let advice = format!("Write {one}{two} or {one}.{two} for one number, {one}, {two} for two.");
    Err(Problem::new(before.start..at + 1 + digits, format!("{one},{two} may be one number or two"), advice))
}

type Fault = (usize, String, String);

fn word(rest: &str) -> Result<(Word<'_>, usize), Fault> {
    let first = rest.as_bytes()[0];
    if let Some(hex) = rest.strip_prefix("0x") {
        return bits(hex).map(|bits| (Word::Bits(bits), 18));
    }
    if first.is_ascii_digit() || first == b'.' {
        return number(rest);
    }
    if let Some(after) = rest.strip_prefix('$') {
        let length = digits(after);
        let symbol = after[..length].parse().map_err(|_| {
            (1 + length, format!("${} is no symbol", &after[..length]), format!("Write $ and a number from 0 to {}.", u32::MAX))
        })?;
        return Ok((Word::Symbol(symbol), 1 + length));
    }
    let length = rest.bytes().take_while(|byte| byte.is_ascii_alphanumeric() || *byte == b'_').count();
    if length > 0 {
        let name = &rest[..length];
        let word = if name == "infinity" { Word::Number(f64::INFINITY.to_bits()) } else { Word::Name(name) };
        return Ok((word, length));
    }
    if let Some((sign, write)) = INSTEAD.iter().find(|(sign, _)| rest.starts_with(sign) && !rest.starts_with("!=")) {
        return Err((sign.len(), format!("{sign} has no meaning here"), format!("Write {write}.")));
    }
    if let Some((sign, read)) = SIGNS.iter().find(|(sign, _)| rest.starts_with(sign)) {
        return Ok((Word::Sign(read), sign.len()));
    }
    let odd = rest.chars().next().unwrap_or(' ');
    Err((odd.len_utf8(), format!("{odd} has no meaning in a formula"), "docs/FORMULAS.md lists the signs.".into()))
}

fn digits(text: &str) -> usize {
    text.bytes().take_while(u8::is_ascii_digit).count()
}

fn bits(hex: &str) -> Result<u64, Fault> {
    let length = hex.bytes().take_while(u8::is_ascii_alphanumeric).count();
    let fault = (2 + length, format!("0x{} is not the bits of a number", &hex[..length]), "Write 0x and 16 hexadecimal digits.".into());
    if length != 16 {
        return Err(fault);
    }
    u64::from_str_radix(&hex[..length], 16).map_err(|_| fault)
}

fn number(rest: &str) -> Result<(Word<'_>, usize), Fault> {
    let length = decimal_length(rest);
    let after = rest[length..].bytes().take_while(|byte| byte.is_ascii_alphanumeric() || matches!(byte, b'_' | b'.')).count();
    let written = &rest[..length + after];
    if length > 0 && after > 0 && !rest[length..].starts_with(['.', 'e', 'E']) {
        let advice = format!("Write {} * {} for a product.", &rest[..length], &rest[length..length + after]);
        return Err((written.len(), format!("{written} is neither a number nor a name"), advice));
    }
    match decimal(written) {
        Ok(value) => Ok((Word::Number(value.to_bits()), written.len())),
        Err(why) => Err((written.len().max(1), format!("{written} {why}"), "Write a number as 12, 0.75 or 6.5e-3.".into())),
    }
}

/// Bytes of the decimal number that a text begins with, 0 for none: digits, a point and digits, `e` and a whole number.
fn decimal_length(text: &str) -> usize {
    let mut length = digits(text);
    if text[length..].starts_with('.') {
        let fraction = digits(&text[length + 1..]);
        if fraction == 0 {
            return 0;
        }
        length += 1 + fraction;
    }
    let Some(exponent) = text[length..].strip_prefix(['e', 'E']) else {
        return length;
    };
    let sign = usize::from(exponent.starts_with(['+', '-']));
    match digits(&exponent[sign..]) {
        0 => length,
        digits => length + 1 + sign + digits,
    }
}

/// The f64 nearest to a decimal number without a sign, or why there is none.
pub fn decimal(text: &str) -> Result<f64, &'static str> {
    if text.is_empty() || decimal_length(text) != text.len() {
        return Err("is no decimal number");
    }
    match text.parse::<f64>() {
        Ok(value) if value.is_finite() => Ok(value),
        Ok(_) => Err("is too large for a number, which is at most 1.7976931348623157e308"),
        Err(_) => Err("is no decimal number"),
    }
}
