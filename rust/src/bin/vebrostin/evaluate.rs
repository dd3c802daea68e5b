//! A formula and its rates on values, the questions answered by the C library.
use crate::bytes;
use crate::explain;
use crate::files::{Failure, Loaded};
use crate::suggest::nearest;
use crate::tree::Tree;
use vebrostin::{Error, Program, Question, Refusal};

/// A value, or why there is none.
pub type Figure = Result<f64, String>;

/// The derivative by one symbol: its name, tree and program.
pub struct Rate {
    pub name: String,
    tree: Tree,
    program: Program,
}

/// The symbol of a name that an option gives.
pub fn symbol(loaded: &Loaded, name: &str) -> Result<u32, Failure> {
    let names = &loaded.formula.names;
    names.symbol(name).ok_or_else(|| {
        let near = nearest(name, names.all()).map_or(String::new(), |near| format!("; is {near} meant?"));
        Failure::trouble(format!("{name} is not in the name line of {}{near}", loaded.file))
    })
}

/// The rates by the names of a list.
pub fn rates(loaded: &Loaded, list: &str) -> Result<Vec<Rate>, Failure> {
    list.split(',').map(str::trim).filter(|name| !name.is_empty()).map(|name| rate(loaded, name)).collect()
}

fn rate(loaded: &Loaded, name: &str) -> Result<Rate, Failure> {
    let symbol = symbol(loaded, name)?;
    let line = loaded.formula.names.line();
    let derivative = Program::derive(&loaded.bytes, line.as_bytes(), symbol)
        .map_err(|error| Failure::refused(&loaded.file, &loaded.text, &explain::derive(&error, &loaded.formula, symbol)))?;
    let tree = bytes::decode(&derivative.tree).map_err(|malformed| Failure::trouble(format!("the derivative by {name}: {}", malformed.why)))?;
    Ok(Rate { name: name.to_string(), tree, program: derivative.program })
}

/// The formula's value.
pub fn figure(loaded: &Loaded, inputs: &[f64]) -> Figure {
    let formula = &loaded.formula;
    loaded.program.evaluate(inputs, Question::by_libm).map_err(|error| why(&error, &formula.tree, loaded, inputs))
}

/// The rate's value.
pub fn slope(rate: &Rate, loaded: &Loaded, inputs: &[f64]) -> Figure {
    rate.program.evaluate(inputs, Question::by_libm).map_err(|error| why(&error, &rate.tree, loaded, inputs))
}

fn why(error: &Error, tree: &Tree, loaded: &Loaded, inputs: &[f64]) -> String {
    match (&error.place, error.refusal) {
        (Some(path), Refusal::Domain) => explain::domain(tree, path, &loaded.formula.names, inputs),
        _ => error.to_string(),
    }
}
