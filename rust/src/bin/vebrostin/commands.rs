//! check, eval and pack; `show` and `plot` have modules of their own.
use crate::evaluate::{figure, rates, slope, Figure, Rate};
use crate::files::{cell, load, read_text, write, Failure, Loaded, Output, REFUSED};
use crate::names::Names;
use crate::print::number;
use crate::problem::position;
use crate::tree::RESERVED;
use crate::values;
use std::path::Path;

/// Bytes that are read of a table.
const TABLE: u64 = 1 << 30;

/// Lines of values that `legs` lists at most.
const LISTED: usize = 1_000_000;

/// `check FILE`: the formula compiles, or why not.
pub fn check(file: &str) -> Result<Output, Failure> {
    let loaded = load(file)?;
    let formula = &loaded.formula;
    let (nodes, levels) = (formula.tree.nodes(), formula.tree.levels);
    let program = &loaded.program;
    let mut text = format!("{file} compiles: it counts {}\n", formula.counts);
    text += &format!("{}, {}; ", counted(nodes, "node"), counted(levels, "level"));
    text += &format!("{}, {}\n", counted(program.instructions(), "instruction"), counted(program.inputs(), "name"));
    let unused: Vec<&str> = formula.names.all().enumerate().filter(|(at, _)| !formula.tree.has_symbol(*at as u32)).map(|(_, name)| name).collect();
    if !unused.is_empty() {
        text += &format!("not used: {}\n", unused.join(", "));
    }
    for (symbol, name) in formula.names.all().enumerate().filter(|(_, name)| RESERVED.contains(name)) {
        text += &format!("{name} is a word of formulas too; as a name it is written ${symbol}\n");
    }
    Ok(Output { text, ..Output::default() })
}

/// `1 node`, `2 nodes`.
pub fn counted(count: usize, what: &str) -> String {
    format!("{count} {what}{}", if count == 1 { "" } else { "s" })
}

/// A table's rows for the names of a formula.
pub fn table(file: &str, names: &Names, left_out: Option<u32>) -> Result<(String, values::Rows), Failure> {
    let text = read_text(file, TABLE)?;
    match values::read(&text, names, left_out) {
        Ok(rows) => Ok((text, rows)),
        Err(problem) => Err(Failure::refused(file, &text, &problem)),
    }
}

/// `eval FILE VALUES.csv [--by NAME,..]`: a line for each line of values.
pub fn eval(file: &str, values: &str, by: &str) -> Result<Output, Failure> {
    let loaded = load(file)?;
    let rates = rates(&loaded, by)?;
    let (text, rows) = table(values, &loaded.formula.names, None)?;
    let headings = rates.iter().map(|rate| format!("per {}", rate.name));
    let mut cells = vec!["no".to_string(), cell(loaded.formula.short())];
    cells.extend(headings);
    cells.push("why not".into());
    let mut output = Output { text: cells.join(",") + "\n", ..Output::default() };
    for (at, row) in rows.iter().enumerate() {
        let (cells, why) = match row {
            Ok(inputs) => line(&loaded, &rates, inputs),
            Err(problem) => {
                let (line, column) = position(&text, problem.span.start);
                (vec![String::new(); 1 + rates.len()], format!("{values}:{line}:{column}: {}", problem.message))
            }
        };
        if !why.is_empty() {
            output.status = REFUSED;
        }
        output.text += &format!("{},{},{}\n", at + 1, cells.join(","), cell(&why));
    }
    Ok(output)
}

/// The cells of the figure and its rates, and what is said of those that have no value.
fn line(loaded: &Loaded, rates: &[Rate], inputs: &[f64]) -> (Vec<String>, String) {
    let value = figure(loaded, inputs);
    let mut cells = vec![shown(&value, loaded.formula.tree.is_truth())];
    let mut reasons: Vec<String> = value.err().into_iter().collect();
    let known = reasons.is_empty();
    for rate in rates {
        let slope = slope(rate, loaded, inputs);
        cells.push(shown(&slope, false));
        if let (true, Err(why)) = (known, slope) {
            reasons.push(format!("per {}: {why}", rate.name));
        }
    }
    (cells, reasons.join("; "))
}

fn shown(figure: &Figure, truth: bool) -> String {
    match figure {
        Ok(value) if truth => (*value != 0.0).to_string(),
        Ok(value) => number(value.to_bits()),
        Err(_) => String::new(),
    }
}

/// `pack FILE VALUES.csv FOLDER`: formula.bin and input for `legs`, and what the formula counts in counts.txt.
pub fn pack(file: &str, values: &str, folder: &str) -> Result<Output, Failure> {
    let loaded = load(file)?;
    let (text, rows) = table(values, &loaded.formula.names, None)?;
    let mut input = loaded.formula.names.line() + "\n";
    for row in &rows {
        let inputs = row.as_ref().map_err(|problem| Failure::refused(values, &text, problem))?;
        let bits: Vec<String> = inputs.iter().map(|value| format!("{:016x}", value.to_bits())).collect();
        input += &(bits.join(",") + "\n");
    }
    let folder = Path::new(folder);
    std::fs::create_dir_all(folder).map_err(|error| Failure::trouble(format!("{}: {error}", folder.display())))?;
    write(&folder.join("formula.bin"), &loaded.bytes)?;
    write(&folder.join("input"), input.as_bytes())?;
    write(&folder.join("counts.txt"), format!("{}\n", loaded.formula.counts).as_bytes())?;
    let lines = counted(rows.len(), "line");
    let text = format!("{}: formula.bin ({} bytes), input ({lines} of values), counts.txt\n", folder.display(), loaded.bytes.len());
    let errors = if rows.len() > LISTED { format!("{}: legs lists the first {LISTED} lines only\n", folder.display()) } else { String::new() };
    Ok(Output { text, errors, ..Output::default() })
}
