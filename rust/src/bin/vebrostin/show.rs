//! `show FOLDER`: what an operator sent, as text, with decimals beside the bits.
use crate::bytes::{self, Malformed};
use crate::commands::counted;
use crate::explain;
use crate::files::{read, Failure, Output, LARGEST, REFUSED};
use crate::names::Names;
use crate::place::locate;
use crate::print::{number, piece};
use crate::problem::plain;
use crate::text::{write, Formula};
use crate::tree::{Tree, CALLS};
use std::path::Path;
use vebrostin::{Action, Program, Refusal};

/// Bytes of the longest formula.bin that `legs` takes, and of the lines that are read.
const LEGS: usize = 4096;
const LINES: u64 = 1 << 30;

pub fn show(folder: &str) -> Result<Output, Failure> {
    let file = |name: &str| Path::new(folder).join(name).display().to_string();
    let formula = read(&file("formula.bin"), LARGEST)?;
    let input = lines_of(&file("input"));
    let name_line = input.first().map_or(&[][..], Vec::as_slice);
    let tree = bytes::decode(&formula).map_err(|Malformed { at, why }| {
        let refusal = Program::compile(&formula, name_line).map_or_else(|error| error.to_string(), |_| "it can't be shown".into());
        Failure { text: format!("{}: {refusal}; at byte {at}, {why}\n", file("formula.bin")), status: REFUSED }
    })?;
    let mut output = Output::default();
    let well_formed = Names::from_line(name_line);
    if let Err(why) = &well_formed {
        complain(&mut output, format!("{}:1: refused (3): the name line is not well formed: {}", file("input"), plain(why)));
    }
    let names = well_formed.clone().unwrap_or_default();
    if input.is_empty() {
        output.errors += &format!("{}: missing or empty, so the formula has no names\n", file("input"));
    }
    let counts = lines_of(&file("counts.txt")).first().map_or(String::new(), |line| plain(&String::from_utf8_lossy(line)));
    if counts.trim().is_empty() {
        output.errors += &format!("{}: missing, so nobody says what the formula counts; write it behind `counts:`\n", file("counts.txt"));
    }
    if formula.len() > LEGS {
        complain(&mut output, format!("{}: refused (1) by legs: {} bytes are more than {LEGS}", file("formula.bin"), formula.len()));
    }
    output.text = write(counts.trim(), &names, &tree);
    if well_formed.is_ok() {
        judge(folder, &formula, &mut output);
    }
    output.text += &inputs(&input, &names);
    output.text += &answers(&lines_of(&file("output")), &tree, &names);
    Ok(output)
}

/// A refusal on standard error and in the exit status.
fn complain(output: &mut Output, remark: String) {
    output.errors += &(remark + "\n");
    output.status = REFUSED;
}

/// Compiles the formula; a refusal is shown in the text that was printed.
fn judge(folder: &str, formula: &[u8], output: &mut Output) {
    let text = output.text.replacen("counts:\n", "counts: ?\n", 1);
    let Ok(read) = Formula::read(&text) else {
        return complain(output, format!("{folder}: the text can't be read back"));
    };
    if let Err(error) = Program::compile(formula, read.names.line().as_bytes()) {
        let shown = explain::compile(&error, &read).show(&format!("{folder} as text"), &text);
        complain(output, shown.trim_end().to_string());
    }
}

/// The lines of a file, none where it can't be read; nothing after a last newline is no line.
fn lines_of(file: &str) -> Vec<Vec<u8>> {
    let bytes = read(file, LINES).unwrap_or_default();
    let mut lines: Vec<Vec<u8>> = bytes.split(|byte| *byte == b'\n').map(<[u8]>::to_vec).collect();
    if lines.last().is_some_and(Vec::is_empty) {
        lines.pop();
    }
    lines
}

/// The lines of values in decimals, as comments.
fn inputs(lines: &[Vec<u8>], names: &Names) -> String {
    let Some((_, values)) = lines.split_first().filter(|(_, values)| !values.is_empty()) else {
        return String::new();
    };
    let mut out = format!("\n# input\n# no,{}\n", names.all().collect::<Vec<_>>().join(","));
    for (at, line) in values.iter().enumerate() {
        let cells: Option<Vec<String>> = line.split(|byte| *byte == b',').map(|cell| bits(cell).map(number)).collect();
        let cells = if line.is_empty() { Some(Vec::new()) } else { cells };
        let text = cells.map_or("not values of 16 hexadecimal digits and commas".to_string(), |cells| cells.join(","));
        out += &format!("# {},{text}\n", at + 1);
    }
    out
}

/// The bits that 16 lower-case hexadecimal digits say.
fn bits(digits: &[u8]) -> Option<u64> {
    let good = digits.len() == 16 && digits.iter().all(|digit| matches!(digit, b'0'..=b'9' | b'a'..=b'f'));
    let text = std::str::from_utf8(digits).ok().filter(|_| good)?;
    u64::from_str_radix(text, 16).ok()
}

/// The output of `legs`, as comments, each line with what it says in one more cell.
fn answers(lines: &[Vec<u8>], tree: &Tree, names: &Names) -> String {
    let mut out = String::new();
    for (at, line) in lines.iter().enumerate() {
        let line = plain(&String::from_utf8_lossy(line));
        let said = if at == 0 { "which is".to_string() } else { said(&line, tree, names) };
        out += &format!("# {line},{}\n", crate::files::cell(&said));
    }
    if out.is_empty() { out } else { format!("\n# output of legs\n{out}") }
}

/// What a line of the output says: the value in decimals, the part without a value, the question, the refusal, or the total.
fn said(line: &str, tree: &Tree, names: &Names) -> String {
    let cells: Vec<&str> = line.split(',').collect();
    if let ["total", counts @ ..] = cells.as_slice() {
        return total(counts).unwrap_or_default();
    }
    let [_, answer, detail, _] = cells.as_slice() else {
        return String::new();
    };
    let part = |path: &str| locate(tree, path).map_or(String::new(), |place| piece(&place.text(names)));
    match *answer {
        "value" => bits(detail.as_bytes()).map_or(String::new(), number),
        "domain" => part(detail),
        "ask" => question(detail).unwrap_or_default(),
        "bad" if *detail == "3" => "not values of 16 hexadecimal digits and commas".into(),
        "bad" => "a wrong number of values, or one that is not finite".into(),
        "refused" => detail.split_once(':').map_or(String::new(), |(number, place)| fault(number, place).unwrap_or_else(|| part(place))),
        _ => String::new(),
    }
}

/// What is wrong with the bytes of a formula that was refused at a node.
fn fault(number: &str, node: &str) -> Option<String> {
    let refusal = Refusal::from_number(number.parse().ok()?).filter(|refusal| refusal.has_node())?;
    let node: u64 = node.parse().ok()?;
    Some(format!("{}, at node {node}", refusal.meaning(Action::Compile)))
}

/// The counts of the total line in words. An older build of `legs` printed no such line.
fn total(counts: &[&str]) -> Option<String> {
    let counts = counts.iter().map(|count| count.parse().ok()).collect::<Option<Vec<usize>>>()?;
    let [values, domains, asks, bad, steps] = counts.try_into().ok()?;
    let (values, without, asks) = (counted(values, "value"), counted(domains, "line"), counted(asks, "question"));
    Some(format!("{values}, {without} without one, {asks}, {}, {}", counted(bad, "bad line"), counted(steps, "step")))
}

/// A question, `16:BITS:BITS` or `F:BITS`, with its arguments in decimals.
fn question(detail: &str) -> Option<String> {
    let mut cells = detail.split(':');
    let function: usize = cells.next()?.parse().ok()?;
    let arguments = cells.map(|cell| bits(cell.as_bytes()).map(number)).collect::<Option<Vec<_>>>()?;
    match (function, arguments.as_slice()) {
        (16, [base, exponent]) => Some(format!("{base} ^ {exponent}")),
        (_, [argument]) => CALLS.get(function).map(|name| format!("{name}({argument})")),
        _ => None,
    }
}
