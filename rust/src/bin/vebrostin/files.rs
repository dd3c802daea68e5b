//! Files in and out, and how a command ends.
use crate::bytes;
use crate::explain;
use crate::problem::{plain, position, Problem};
use crate::text::Formula;
use std::fs::File;
use std::io::Read;
use std::path::Path;
use vebrostin::Program;

/// Exit statuses: the formula is refused or a line has no value; a wrong use or a file that can't be read or written.
pub const REFUSED: u8 = 1;
pub const TROUBLE: u8 = 2;

/// What a command prints and its exit status.
#[derive(Debug, Default)]
pub struct Output {
    pub text: String,
    /// What goes to standard error.
    pub errors: String,
    pub status: u8,
}

/// Why a command ends without output.
#[derive(Debug)]
pub struct Failure {
    pub text: String,
    pub status: u8,
}

impl Failure {
    pub fn refused(file: &str, text: &str, problem: &Problem) -> Self {
        Self { text: problem.show(file, text), status: REFUSED }
    }

    pub fn trouble(text: impl Into<String>) -> Self {
        Self { text: text.into() + "\n", status: TROUBLE }
    }
}

/// A formula's file: its text, what it says, its bytes and its program.
pub struct Loaded {
    pub file: String,
    pub text: String,
    pub formula: Formula,
    pub bytes: Vec<u8>,
    pub program: Program,
}

/// Bytes that are read of a file; no formula needs more.
pub const LARGEST: u64 = 1 << 20;

/// The bytes of a file, at most so many.
pub fn read(file: &str, most: u64) -> Result<Vec<u8>, Failure> {
    let mut bytes = Vec::new();
    let result = File::open(file).and_then(|opened| opened.take(most + 1).read_to_end(&mut bytes));
    match result {
        Err(error) => Err(Failure::trouble(format!("{file}: {error}"))),
        Ok(_) if bytes.len() as u64 > most => Err(Failure::trouble(format!("{file}: longer than {most} bytes"))),
        Ok(_) => Ok(bytes),
    }
}

/// The text of a file.
pub fn read_text(file: &str, most: u64) -> Result<String, Failure> {
    String::from_utf8(read(file, most)?).map_err(|error| {
        let good = String::from_utf8_lossy(&error.as_bytes()[..error.utf8_error().valid_up_to()]).into_owned();
        let (line, column) = position(&good, good.len());
        Failure { text: format!("{file}:{line}:{column}: this is no text in UTF-8\n"), status: REFUSED }
    })
}

pub fn write(file: &Path, content: &[u8]) -> Result<(), Failure> {
    std::fs::write(file, content).map_err(|error| Failure::trouble(format!("{}: {error}", file.display())))
}

/// Reads a formula's text and compiles it.
pub fn load(file: &str) -> Result<Loaded, Failure> {
    let text = read_text(file, LARGEST)?;
    let formula = Formula::read(&text).map_err(|problem| Failure::refused(file, &text, &problem))?;
    let bytes = bytes::encode(&formula.tree);
    match Program::compile(&bytes, formula.names.line().as_bytes()) {
        Ok(program) => Ok(Loaded { file: file.to_string(), text, formula, bytes, program }),
        Err(error) => Err(Failure::refused(file, &text, &explain::compile(&error, &formula))),
    }
}

/// A cell of a line with commas: in quotes where it has a comma, a quote or an end of line.
pub fn cell(text: &str) -> String {
    if text.contains([',', '"', '\n']) {
        return format!("\"{}\"", plain(text).replace('"', "\"\""));
    }
    plain(text)
}
