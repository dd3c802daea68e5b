//! Refusals in words: what is wrong, in which piece of the text, and what to do about it.
use crate::bytes;
use crate::names::Names;
use crate::place::{locate, Place};
use crate::print::{piece, print};
use crate::problem::Problem;
use crate::text::Formula;
use crate::tree::{Head, Tree, CEIL, DENSITY, DIVIDE, FLOOR, HILL, IFELSE, LOG, LOG10, MAX, MIN, MODULO, NOT, POWER, SQRT};
use vebrostin::{Error, Program, Question, Refusal};

/// A refusal of a formula by compile.
pub fn compile(error: &Error, formula: &Formula) -> Problem {
    let (tree, names) = (&formula.tree, &formula.names);
    let place = error.place.as_deref().and_then(|path| locate(tree, path)).unwrap_or(Place::Node(tree));
    let (message, advice) = match error.refusal {
        Refusal::TooLarge => too_large(tree),
        Refusal::InvalidInput => arity(place.node()),
        Refusal::UnknownSymbol => unknown(place.node(), names),
        Refusal::Type => mistyped(place, names),
        Refusal::Unsupported => moving(place, names),
        Refusal::Domain => ("a number is not finite".into(), "Write a decimal number.".into()),
        _ => (plainly(error), String::new()),
    };
    Problem::new(place.span(), format!("refused ({}): {message}", error.refusal.number()), advice)
}

/// A refusal of a derivative by a symbol of a formula that compiles.
pub fn derive(error: &Error, formula: &Formula, symbol: u32) -> Problem {
    let tree = &formula.tree;
    let name = formula.names.all().nth(symbol as usize).unwrap_or("");
    let (part, message, advice) = match error.refusal {
        Refusal::TooLarge => {
            let advice = "It has at most 16,384 nodes and 128 levels: fewer abs, min and max within each other help.";
            (tree, format!("the derivative by {name} is too large"), advice)
        }
        Refusal::Type => (tree, "a truth value has no derivative".into(), "Ask for rates of formulas that give a number."),
        Refusal::Unsupported => {
            let part = tree.find(&|node| jumps(node, symbol)).unwrap_or(tree);
            let message = match part.head {
                Head::Call(FLOOR | CEIL) => format!("{} of something with {name} in it has no rate by {name}", part.operator()),
                _ => format!("the condition has {name} in it, so there is no rate by {name}"),
            };
            (part, message, "Ask for the rate by another name.")
        }
        _ => (tree, plainly(error), ""),
    };
    Problem::new(part.span.clone(), format!("refused ({}): {message}", error.refusal.number()), advice)
}

/// What a refusal that no text can cause means, and at which node of the bytes.
fn plainly(error: &Error) -> String {
    let meaning = error.refusal.meaning(error.action);
    error.node.map_or(meaning.to_string(), |node| format!("{meaning}, at node {node}"))
}

/// Whether a node has no derivative by a symbol: a rounding over it, or a condition with it.
fn jumps(node: &Tree, symbol: u32) -> bool {
    match node.head {
        Head::Call(FLOOR | CEIL) => node.has_symbol(symbol),
        Head::Conditional | Head::Call(IFELSE) => node.children.first().is_some_and(|condition| condition.has_symbol(symbol)),
        _ => false,
    }
}

fn too_large(tree: &Tree) -> (String, String) {
    let message = format!("the formula has {} nodes and {} levels, more than 256 or 32", tree.nodes(), tree.levels);
    (message, "Work out a part elsewhere and give it as one more name.".into())
}

fn arity(node: &Tree) -> (String, String) {
    let takes = match node.head {
        Head::Boolean(_) | Head::Call(MIN | MAX) => "two or more",
        Head::Call(HILL | DENSITY | IFELSE) => "three",
        _ => "one",
    };
    let message = format!("{} takes {takes} arguments, here are {}", node.operator(), node.children.len());
    (message.replace("one arguments", "one argument"), "Add or take away arguments.".into())
}

fn unknown(node: &Tree, names: &Names) -> (String, String) {
    let symbol = match node.head {
        Head::Symbol(symbol) => symbol,
        _ => 0,
    };
    let message = match names.len() {
        0 => format!("symbol ${symbol} has no name, as the name line is empty"),
        count => format!("symbol ${symbol} has no name: the name line has $0 to ${}", count - 1),
    };
    (message, "Add its name to the name line, or write the name that is meant.".into())
}

/// The part that is a number where a truth value must stand, or the other way round.
fn mistyped(place: Place<'_>, names: &Names) -> (String, String) {
    let node = place.node();
    let from = if let Place::Rest(_, from) = place { from } else { 0 };
    let children = node.children.get(from..).unwrap_or_default();
    let wants_truth = match node.head {
        Head::Boolean(_) | Head::Unary(NOT) => true,
        Head::Conditional | Head::Call(IFELSE) => match children {
            [condition, ..] if !condition.is_truth() => {
                let message = format!("the condition {} is a number", piece(&print(condition, names)));
                return (message, "Compare it with something: a condition is a comparison, true, false, and, or, not.".into());
            }
            _ => return ("one arm is a number and the other a truth value".into(), "Both arms have to give the same kind.".into()),
        },
        _ => false,
    };
    let odd = children.iter().find(|child| child.is_truth() != wants_truth).unwrap_or(node);
    let odd = piece(&print(odd, names));
    let operator = node.operator();
    if wants_truth {
        return (format!("{operator} takes truth values, but {odd} is a number"), "Compare it with something, as in piston == 1.".into());
    }
    (format!("{operator} takes numbers, but {odd} is a truth value"), format!("Make a number of it: if({odd}, 1, 0)"))
}

/// What a condition, a rounding or a remainder depends on although it may not.
fn moving(place: Place<'_>, names: &Names) -> (String, String) {
    let node = place.node();
    let from = if let Place::Rest(_, from) = place { from } else { 0 };
    let (what, part, otherwise) = match node.head {
        Head::Call(FLOOR | CEIL) | Head::Binary(MODULO) => (format!("{} depends", node.operator()), node, "or round what comes out"),
        _ => {
            let condition = node.children.get(from).unwrap_or(node);
            (format!("the condition {} depends", piece(&print(condition, names))), condition, "or use min, max or abs")
        }
    };
    let kind = |node: &Tree| if let Head::Symbol(symbol) = node.head { names.moving(symbol) } else { None };
    let culprit = part.find(&|node| kind(node).is_some());
    let (name, kind) = culprit.map_or((String::new(), ""), |node| (print(node, names), kind(node).unwrap_or("")));
    let advice = format!("Only parameters may stand here: make it {name}:p where it is fixed before the flight, {otherwise}.");
    (format!("{what} on {name}, {kind}"), advice)
}

/// Why a run has no value at a path of a tree: the part and what goes wrong there.
pub fn domain(tree: &Tree, path: &str, names: &Names, inputs: &[f64]) -> String {
    let Some(place) = locate(tree, path) else {
        return format!("no value at {path}");
    };
    let part = piece(&place.text(names));
    let values: Option<Vec<f64>> = place.node().children.iter().map(|child| value(child, names, inputs)).collect();
    match values {
        Some(values) if !values.is_empty() => format!("{part} has no value: {}", reason(place.node(), &values)),
        _ => format!("{part} has no value"),
    }
}

/// The value of a part by itself.
fn value(part: &Tree, names: &Names, inputs: &[f64]) -> Option<f64> {
    let program = Program::compile(&bytes::encode(part), names.line().as_bytes()).ok()?;
    program.evaluate(inputs, Question::by_libm).ok()
}

/// What goes wrong in a node with these values of its children.
fn reason(node: &Tree, values: &[f64]) -> String {
    let numbers = values.iter().map(|value| Tree::new(Head::Number(value.to_bits()), vec![], 0..0)).collect();
    let worked = print(&Tree::new(node.head, numbers, 0..0), &Names::default());
    let why = match (node.head, values) {
        (Head::Binary(DIVIDE), [_, 0.0]) => "divides by zero",
        (Head::Binary(MODULO), [_, b]) if *b <= 0.0 => "is a remainder by a number that isn't above 0",
        (Head::Binary(POWER), [0.0, b]) if *b <= 0.0 => "is a power of 0 with an exponent that isn't above 0",
        (Head::Binary(POWER), [a, b]) if *a < 0.0 && b.fract() != 0.0 => "is a power of a number below 0 with a fraction as exponent",
        (Head::Call(SQRT), [x]) if *x < 0.0 => "is a root of a number below 0",
        (Head::Call(LOG | LOG10), [x]) if *x <= 0.0 => "is a logarithm of a number that isn't above 0",
        (Head::Call(HILL), [_, n, k]) if *n <= 0.0 || *k <= 0.0 => "has a second or third argument that isn't above 0",
        (Head::Call(DENSITY), [_, mean, shape]) if *mean <= 0.0 || *shape <= 0.0 => "has a second or third argument that isn't above 0",
        _ => "is too large for a number",
    };
    format!("{worked} {why}")
}
