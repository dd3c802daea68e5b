//! A tree to its text, with as few parentheses as the grammar allows.
use crate::names::Names;
use crate::tree::{Head, Tree, ADD, AND, MODULO, NEGATIVE, NOT, POWER, SUBTRACT};

/// The bits of infinity: those up to it are the numbers that stand without a sign and aren't NaN.
const INFINITY: u64 = 0x7ff0_0000_0000_0000;

/// How tightly a piece of text holds together: a part goes into parentheses where its place asks for more.
#[derive(Clone, Copy, PartialEq, Eq, PartialOrd, Ord)]
enum Level {
    Or,
    And,
    Not,
    Compare,
    Sum,
    Remainder,
    Product,
    Power,
    Sign,
    Atom,
}

/// The text of a formula.
pub fn print(tree: &Tree, names: &Names) -> String {
    let mut out = String::new();
    put(tree, names, Level::Or, &mut out);
    out
}

/// The shortest decimal that reads back as the number: 690, 0.75, 6.5e-7; by its bits where it is NaN.
pub fn number(bits: u64) -> String {
    let value = f64::from_bits(bits);
    if value.is_nan() {
        return format!("0x{bits:016x}");
    }
    if value.is_infinite() {
        return if value > 0.0 { "infinity".into() } else { "-infinity".into() };
    }
    let text = format!("{value:?}");
    text.strip_suffix(".0").map_or(text.clone(), str::to_string)
}

fn level(tree: &Tree) -> Level {
    match tree.head {
        Head::Number(bits) if number(bits).starts_with('-') => Level::Sign,
        Head::Boolean(_) if tree.children.len() < 2 => Level::Atom,
        Head::Boolean(AND) => Level::And,
        Head::Boolean(_) => Level::Or,
        Head::Compare(_) => Level::Compare,
        Head::Unary(NOT) => Level::Not,
        Head::Unary(_) => Level::Sign,
        Head::Binary(ADD | SUBTRACT) => Level::Sum,
        Head::Binary(MODULO) => Level::Remainder,
        Head::Binary(POWER) => Level::Power,
        Head::Binary(_) => Level::Product,
        Head::Number(_) | Head::Truth(_) | Head::Symbol(_) | Head::Call(_) | Head::Conditional => Level::Atom,
    }
}

/// Writes a part at a place that asks for a level.
fn put(tree: &Tree, names: &Names, least: Level, out: &mut String) {
    if level(tree) < least {
        return enclose(tree, names, out);
    }
    match tree.head {
        Head::Number(bits) => out.push_str(&number(bits)),
        Head::Truth(truth) => out.push_str(if truth { "true" } else { "false" }),
        Head::Symbol(symbol) => match names.name(symbol) {
            Some(name) => out.push_str(name),
            None => out.push_str(&format!("${symbol}")),
        },
        Head::Unary(operator) => put_unary(tree, operator, names, out),
        Head::Binary(operator) => {
            let (left, right) = match operator {
                ADD | SUBTRACT => (Level::Sum, Level::Remainder),
                MODULO => (Level::Power, Level::Power),
                POWER => (Level::Atom, Level::Sign),
                _ => (Level::Product, Level::Power),
            };
            infix(tree, names, left, right, out);
        }
        Head::Compare(_) => infix(tree, names, Level::Sum, Level::Sum, out),
        Head::Boolean(operator) if tree.children.len() > 1 => {
            let part = if operator == AND { Level::Not } else { Level::And };
            infix(tree, names, part, part, out);
        }
        Head::Boolean(_) | Head::Call(_) | Head::Conditional => {
            out.push_str(tree.operator());
            out.push('(');
            for (at, child) in tree.children.iter().enumerate() {
                out.push_str(if at > 0 { ", " } else { "" });
                put(child, names, Level::Or, out);
            }
            out.push(')');
        }
    }
}

fn enclose(tree: &Tree, names: &Names, out: &mut String) {
    out.push('(');
    put(tree, names, Level::Or, out);
    out.push(')');
}

/// A minus sign before a number would belong to the number, so the number goes into parentheses.
fn put_unary(tree: &Tree, operator: u8, names: &Names, out: &mut String) {
    let least = if operator == NOT { Level::Not } else { Level::Sign };
    out.push_str(tree.operator());
    out.push_str(if operator == NOT { " " } else { "" });
    for child in &tree.children {
        let takes_sign = matches!(child.head, Head::Number(bits) if bits <= INFINITY);
        match operator {
            NEGATIVE if takes_sign => enclose(child, names, out),
            _ => put(child, names, least, out),
        }
    }
}

/// The children with the operator between them: the first at one level, the others at another.
fn infix(tree: &Tree, names: &Names, first: Level, others: Level, out: &mut String) {
    for (at, child) in tree.children.iter().enumerate() {
        if at > 0 {
            out.push_str(&format!(" {} ", tree.operator()));
        }
        put(child, names, if at == 0 { first } else { others }, out);
    }
}

/// A part's text for a message, cut where it is long.
pub fn piece(text: &str) -> String {
    const LONGEST: usize = 100;
    match text.char_indices().nth(LONGEST) {
        Some((end, _)) => format!("{} ..", &text[..end]),
        None => text.to_string(),
    }
}
