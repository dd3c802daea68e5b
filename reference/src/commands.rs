//! Commands and their answers, each one line of text.
use crate::compile::{Program, Symbol, SymbolKind};
use crate::errors::{Error, ErrorCode};
use crate::expression::Expr;
use crate::libm::{self, Asked, Question, Source};
use crate::{labelled, names, nodes, refusals, steps};
use std::panic::{catch_unwind, resume_unwind, AssertUnwindSafe};

/// A line to print: an answer, or the refusal or fault that stands in its place.
type Answer = Result<String, String>;

/// Answers one command line.
pub fn answer(line: &str) -> String {
    let fields: Vec<&str> = line.split_ascii_whitespace().collect();
    let answer = match fields[..] {
        ["compile", formula, names] => compile(formula, names),
        ["derive", formula, names, symbol] => derive(formula, names, symbol),
        ["records", formula, names, symbol] => records(formula, names, symbol),
        [verb @ ("run" | "trace"), formula, names, inputs, answers] => {
            run(verb == "trace", formula, names, None, inputs, answers)
        }
        [verb @ ("drun" | "dtrace"), formula, names, symbol, inputs, answers] => run(
            verb == "dtrace",
            formula,
            names,
            Some(symbol),
            inputs,
            answers,
        ),
        _ => Err("error not a command".into()),
    };
    answer.unwrap_or_else(|line| line)
}

fn compile(formula: &str, names: &str) -> Answer {
    with_formula(formula, names, |expr, symbols| {
        Ok(Program::compile(expr, symbols).map_err(refusal)?.show())
    })
}

fn derive(formula: &str, names: &str, symbol: &str) -> Answer {
    let number = symbol_number(symbol)?;
    with_formula(formula, names, |expr, symbols| {
        let name = names::name_of(symbols, number);
        let program = Program::derivative(expr, symbols, &name).map_err(refusal)?;
        let tree = Program::tree_of_derivative(expr, symbols, &name).map_err(refusal)?;
        let bytes = nodes::write(&tree, symbols);
        Ok(format!("tree {} {}", hex(&bytes), program.show()))
    })
}

/// The tree of `derive` once more, with a record for each of its nodes.
fn records(formula: &str, names: &str, symbol: &str) -> Answer {
    let number = symbol_number(symbol)?;
    with_formula(formula, names, |expr, symbols| {
        let name = names::name_of(symbols, number);
        Program::derivative(expr, symbols, &name).map_err(refusal)?;
        let tree = Program::tree_of_derivative(expr, symbols, &name).map_err(refusal)?;
        let state = symbols[number as usize].kind == SymbolKind::State;
        let labelled = labelled::derive(expr, &name, state).map_err(refusal)?;
        let bytes = nodes::write(&labelled.tree, symbols);
        if bytes != nodes::write(&tree, symbols) {
            return Err("error the labelled tree differs".into());
        }
        let list: Vec<u8> = labelled.records.iter().flat_map(record).collect();
        Ok(format!("tree {} records {} {}", hex(&bytes), hex(&list), labelled.decided))
    })
}

/// A record's 8 bytes.
fn record((rule, node): &(u32, u32)) -> impl Iterator<Item = u8> {
    rule.to_le_bytes().into_iter().chain(node.to_le_bytes())
}

fn run(
    trace: bool,
    formula: &str,
    names: &str,
    symbol: Option<&str>,
    inputs: &str,
    answers: &str,
) -> Answer {
    let number = symbol.map(symbol_number).transpose()?;
    let inputs = floats(inputs)?;
    let source = match answers {
        "libm" => Source::CLibrary,
        list => Source::List(floats(list)?.into()),
    };
    with_formula(formula, names, |expr, symbols| {
        let program = match number {
            None => Program::compile(expr, symbols),
            Some(number) => Program::derivative(expr, symbols, &names::name_of(symbols, number)),
        };
        let outcome = evaluate(&program.map_err(refusal)?, &inputs, source)?;
        Ok(if trace {
            format!("{outcome} {}", show_answered())
        } else {
            outcome
        })
    })
}

/// Reads formula and names, hands them to the work, and frees the formula.
fn with_formula(
    formula: &str,
    names: &str,
    work: impl FnOnce(&Expr, &[Symbol]) -> Answer,
) -> Answer {
    let (formula, line) = (bytes(formula)?, bytes(names)?);
    if let Some((number, node)) = nodes::fault(&formula) {
        return Err(format!("refused {number} @{node}"));
    }
    let Some(symbols) = names::read(&line) else {
        return Err("refused 3 -".into());
    };
    let expr = nodes::read(&formula, &symbols);
    let answer = work(&expr, &symbols);
    nodes::dismantle(expr);
    answer
}

/// Runs a program to its value, its Domain or the first question without an answer.
fn evaluate(program: &Program, inputs: &[f64], source: Source) -> Answer {
    libm::begin(source);
    steps::reset();
    let outcome = catch_unwind(AssertUnwindSafe(|| program.evaluate(inputs)));
    let steps = steps::count();
    match outcome {
        Ok(Ok(value)) => Ok(format!("value {:016x} {steps}", value.to_bits())),
        Ok(Err(error)) if error.code == ErrorCode::Domain => {
            let path = error.expression.unwrap_or_else(|| "-".into());
            Ok(format!("domain {path} {steps}"))
        }
        Ok(Err(error)) => Err(refusal(error)),
        Err(payload) => match payload.downcast::<Asked>() {
            Ok(asked) => Ok(format!("ask {} {steps}", show_question(&asked.0))),
            Err(other) => resume_unwind(other),
        },
    }
}

/// `refused N PATH` with the number of docs/REFERENCE.md, 6.
fn refusal(error: Error) -> String {
    let Some(number) = refusals::number(&error.code) else {
        return format!("error unexpected {:?}", error.code);
    };
    format!(
        "refused {number} {}",
        error.expression.as_deref().unwrap_or("-")
    )
}

/// `FN:BITS[:BITS]`, a NaN as 7ff8000000000000.
fn show_question(question: &Question) -> String {
    let bits = |x: &f64| {
        if x.is_nan() {
            0x7ff8 << 48
        } else {
            x.to_bits()
        }
    };
    let arguments = question.arguments.iter();
    let arguments: String = arguments.map(|x| format!(":{:016x}", bits(x))).collect();
    format!("{}{arguments}", question.function)
}

/// `questions QUESTION=BITS;..`, or `questions -`.
fn show_answered() -> String {
    let answered = libm::answered();
    if answered.is_empty() {
        return "questions -".into();
    }
    let shown: Vec<String> = answered
        .iter()
        .map(|(question, value)| format!("{}={:016x}", show_question(question), value.to_bits()))
        .collect();
    format!("questions {}", shown.join(";"))
}

fn hex(bytes: &[u8]) -> String {
    let digit = |value: u8| char::from(b"0123456789abcdef"[usize::from(value)]);
    let pair = |byte: &u8| [digit(byte >> 4), digit(byte & 15)];
    bytes.iter().flat_map(pair).collect()
}

/// The bytes of lower-case hex; `-` for none.
fn bytes(text: &str) -> Result<Vec<u8>, String> {
    if text == "-" {
        return Ok(Vec::new());
    }
    let digit = |byte: u8| match byte {
        b'0'..=b'9' => Some(byte - b'0'),
        b'a'..=b'f' => Some(byte - b'a' + 10),
        _ => None,
    };
    let pair = |pair: &[u8]| match pair {
        [high, low] => Some(digit(*high)? << 4 | digit(*low)?),
        _ => None,
    };
    let bytes: Option<Vec<u8>> = text.as_bytes().chunks(2).map(pair).collect();
    bytes.ok_or_else(|| "error not hex".into())
}

/// Floats as 16 hex digits each, joined by commas; `-` for none.
fn floats(text: &str) -> Result<Vec<f64>, String> {
    if text == "-" {
        return Ok(Vec::new());
    }
    let float = |item: &str| {
        let item: [u8; 8] = bytes(item)?.try_into().map_err(|_| "error not 16 digits")?;
        Ok(f64::from_bits(u64::from_be_bytes(item)))
    };
    text.split(',').map(float).collect()
}

fn symbol_number(text: &str) -> Result<u32, String> {
    text.parse().map_err(|_| "error not a symbol number".into())
}
