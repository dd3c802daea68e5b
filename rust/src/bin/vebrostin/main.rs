//! `vebrostin`: formulas for people. docs/FORMULAS.md says how a formula is written and what each command does.
mod bytes;
mod commands;
mod evaluate;
mod explain;
mod files;
mod names;
mod parse;
mod place;
mod plot;
mod print;
mod problem;
mod show;
mod suggest;
mod svg;
#[cfg(test)]
mod tests;
mod text;
mod tree;
mod values;
mod words;

use files::{Failure, Output};
use std::io::Write;
use std::process::ExitCode;

const HELP: &str = "\
vebrostin check FILE                           compiles a formula, or says why not
vebrostin eval FILE VALUES.csv [--by NAME,..]  values of a formula, and its rates by these names
vebrostin show FOLDER                          formula.bin, input and output of an operator as text
vebrostin pack FILE VALUES.csv FOLDER          formula.bin and input for the program legs
vebrostin plot FILE [VALUES.csv] --over NAME=FROM..TO [--by NAME,..] -o OUT.svg
                                               a picture of a formula and its rates, a curve a line of values

FILE has a formula as docs/FORMULAS.md describes it:

    counts: trip fuel in kg
    names: climb:p, burn:p, distance:i, tas:i, wind:i
    climb + burn * distance / (tas + wind)

VALUES.csv has the names in its first line, then a line of decimal numbers for each flight.
Exit status: 0 done, 1 a formula is refused or a line has no value, 2 wrong use or a file that can't be read.
";

/// Stack that the deepest formula text needs, with room to spare.
const STACK: usize = 1 << 30;

fn main() -> ExitCode {
    let words: Vec<String> = std::env::args_os().skip(1).map(|word| word.to_string_lossy().into_owned()).collect();
    let worker = std::thread::Builder::new().stack_size(STACK).spawn(move || run(&words));
    let output = match worker.map(|worker| worker.join()) {
        Ok(Ok(output)) => output,
        _ => Output { errors: "vebrostin: could not run\n".into(), status: files::TROUBLE, ..Output::default() },
    };
    let written = std::io::stdout().lock().write_all(output.text.as_bytes()).and_then(|()| std::io::stdout().flush());
    let told = std::io::stderr().write_all(output.errors.as_bytes());
    match written.and(told) {
        Ok(()) => ExitCode::from(output.status),
        Err(_) => ExitCode::from(files::TROUBLE),
    }
}

/// A command with its words; what goes wrong is in the output too.
fn run(words: &[String]) -> Output {
    command(words).unwrap_or_else(|failure| Output { errors: failure.text, status: failure.status, ..Output::default() })
}

/// Words of a command line: those that stand alone, and the values of options.
#[derive(Default)]
struct Words<'a> {
    alone: Vec<&'a str>,
    by: Option<&'a str>,
    over: Option<&'a str>,
    out: Option<&'a str>,
}

fn sorted(words: &[String]) -> Result<Words<'_>, Failure> {
    let mut sorted = Words::default();
    let mut rest = words.iter().map(String::as_str);
    while let Some(word) = rest.next() {
        let place = match word {
            "--by" => &mut sorted.by,
            "--over" => &mut sorted.over,
            "-o" => &mut sorted.out,
            _ if word.starts_with('-') && word.len() > 1 => return Err(Failure::trouble(format!("there is no option {word}; vebrostin --help"))),
            _ => {
                sorted.alone.push(word);
                continue;
            }
        };
        let value = rest.next().ok_or_else(|| Failure::trouble(format!("{word} needs a value; vebrostin --help")))?;
        if place.replace(value).is_some() {
            return Err(Failure::trouble(format!("{word} stands twice")));
        }
    }
    Ok(sorted)
}

fn command(words: &[String]) -> Result<Output, Failure> {
    if words.iter().any(|word| word == "--help" || word == "-h") {
        return Ok(Output { text: HELP.into(), ..Output::default() });
    }
    let words = sorted(words)?;
    match (words.alone.as_slice(), words.by, words.over, words.out) {
        (["check", file], None, None, None) => commands::check(file),
        (["eval", file, values], by, None, None) => commands::eval(file, values, by.unwrap_or("")),
        (["show", folder], None, None, None) => show::show(folder),
        (["pack", file, values, folder], None, None, None) => commands::pack(file, values, folder),
        (["plot", file], by, Some(over), Some(out)) => plot::plot(file, None, over, by.unwrap_or(""), out),
        (["plot", file, values], by, Some(over), Some(out)) => plot::plot(file, Some(values), over, by.unwrap_or(""), out),
        ([], None, None, None) => Err(Failure { text: HELP.into(), status: files::TROUBLE }),
        _ => Err(Failure::trouble("this is no command with its words; vebrostin --help")),
    }
}
