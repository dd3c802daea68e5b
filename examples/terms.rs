//! Where each term of a derivative came from: terms FOLDER NAME [NODE], FOLDER made by `vebrostin pack`, NAME the symbol to derive by. It prints
//! the derivative node by node, with the rule that made it and the part of the formula that the rule was applied to; what was copied from the
//! formula stands on one line. With NODE, a number from 0, only that part of the formula is derived.
use std::error::Error;
use vebrostin::slices::NODE;
use vebrostin::{Program, Record, Rule};

const UNARY: [&str; 3] = ["+", "-", "not "];
const BINARY: [&str; 6] = ["+", "-", "*", "/", "^", "%"];
const COMPARE: [&str; 6] = ["<", "<=", ">", ">=", "==", "!="];
const BOOLEAN: [&str; 2] = ["and", "or"];
const CALLS: [&str; 16] = [
    "exp", "log", "log10", "sqrt", "sin", "cos", "tan", "tanh", "abs", "floor", "ceil", "min", "max", "hill", "ifelse",
    "inverse_gaussian_density",
];

/// Formula bytes and the names of their symbols.
struct Tree<'a> {
    bytes: &'a [u8],
    names: Vec<&'a str>,
}

impl Tree<'_> {
    fn node(&self, k: usize) -> &[u8] {
        &self.bytes[NODE * k..NODE * (k + 1)]
    }

    fn children(&self, k: usize) -> usize {
        usize::from(u16::from_le_bytes([self.node(k)[2], self.node(k)[3]]))
    }

    /// Nodes of the part at node k.
    fn size(&self, k: usize) -> usize {
        (0..self.children(k)).fold(1, |size, _| size + self.size(k + size))
    }

    /// What a node is, without its children.
    fn word(&self, k: usize) -> String {
        let node = self.node(k);
        let (operator, value) = (usize::from(node[1]), u64::from_le_bytes(node[8..].try_into().expect("8 bytes")));
        let word = match node[0] {
            0 => return f64::from_bits(value).to_string(),
            1 => return (value == 1).to_string(),
            2 => self.names[u32::from_le_bytes(node[4..8].try_into().expect("4 bytes")) as usize],
            3 => UNARY[operator],
            4 => BINARY[operator],
            5 => COMPARE[operator],
            6 => BOOLEAN[operator],
            7 => CALLS[operator],
            _ => "if",
        };
        word.into()
    }

    /// How tightly a node holds its children together: comparisons, sums, products, then powers and signs, then what needs no parentheses.
    fn level(&self, k: usize) -> u8 {
        match (self.node(k)[0], self.node(k)[1]) {
            (5 | 6, _) => 1,
            (4, 0 | 1) => 2,
            (4, 2 | 3 | 5) => 3,
            (3 | 4, _) => 4,
            (0, _) if self.word(k).starts_with('-') => 4,
            _ => 5,
        }
    }

    /// The part at node k as people write it.
    fn text(&self, k: usize) -> String {
        let (word, kind, level) = (self.word(k), self.node(k)[0], self.level(k));
        let mut at = k + 1;
        let parts: Vec<String> = (0..self.children(k))
            .map(|i| {
                let (text, own) = (self.text(at), self.level(at));
                at += self.size(at);
                // the first part of a sum or product may hold as tightly as the whole, every other one has to hold tighter
                let least = if i == 0 && matches!(level, 2 | 3) { level } else { level + 1 };
                if matches!(kind, 3..=6) && own < least { format!("({text})") } else { text }
            })
            .collect();
        match kind {
            0..=2 => word,
            3 => format!("{word}{}", parts[0]),
            4..=6 => parts.join(&format!(" {word} ")),
            _ => format!("{word}({})", parts.join(", ")),
        }
    }
}

/// A line: the node's number, how deep it stands, what it is, and what made it.
struct Line {
    node: usize,
    term: String,
    record: Record,
}

/// The nodes of a derivative, a copied part as one.
fn lines(tree: &Tree, records: &[Record]) -> Vec<Line> {
    let (mut lines, mut owed, mut node) = (Vec::new(), vec![1], 0);
    while let Some(left) = owed.last_mut() {
        if *left == 0 {
            owed.pop();
            continue;
        }
        *left -= 1;
        let (record, indent) = (records[node], "  ".repeat(owed.len() - 1));
        if record.rule == Rule::Copied {
            lines.push(Line { node, term: indent + &tree.text(node), record });
            node += tree.size(node);
        } else {
            lines.push(Line { node, term: indent + tree.word(node).trim_end(), record });
            owed.push(tree.children(node));
            node += 1;
        }
    }
    lines
}

fn print() -> Result<(), Box<dyn Error>> {
    let words: Vec<String> = std::env::args().skip(1).collect();
    let (folder, by, part) = match words.as_slice() {
        [folder, by] => (folder, by, 0),
        [folder, by, part] => (folder, by, part.parse()?),
        _ => return Err("terms FOLDER NAME [NODE]".into()),
    };
    let bytes = std::fs::read(format!("{folder}/formula.bin"))?;
    let input = std::fs::read_to_string(format!("{folder}/input"))?;
    let line = input.lines().next().unwrap_or_default();
    Program::compile(&bytes, line.as_bytes())?;
    let names: Vec<&str> = line.split(',').map(|name| name.split(':').next().unwrap_or_default()).collect();
    let symbol = names.iter().position(|name| name == by).ok_or(format!("{folder}/input has no name {by}"))?;
    let whole = Tree { bytes: &bytes, names: names.clone() };
    if part >= bytes.len() / NODE {
        return Err(format!("the formula has no node {part}").into());
    }
    let formula = &bytes[NODE * part..NODE * (part + whole.size(part))];
    let derivative = Program::derive(formula, line.as_bytes(), symbol as u32)?;
    let tree = Tree { bytes: &derivative.tree, names };
    println!("formula     {}", whole.text(part));
    println!("derivative  {}", tree.text(0));
    println!("by {by}, {} nodes; what was copied stands on one line\n", derivative.records.len());
    let lines = lines(&tree, &derivative.records);
    let width = lines.iter().map(|line| line.term.chars().count()).max().unwrap_or(0);
    let rules = lines.iter().map(|line| line.record.rule.name().chars().count()).max().unwrap_or(0);
    println!("node  {:width$}  {:rules$}  from", "term", "made by");
    for Line { node, term, record } in lines {
        let from = part + record.node as usize;
        let shown = !matches!(record.rule, Rule::Copied | Rule::Outer);
        let source = if shown { format!(": {}", whole.text(from)) } else { String::new() };
        println!("{node:4}  {term:width$}  {:rules$}  node {from}{source}", record.rule);
    }
    Ok(())
}

fn main() {
    if let Err(error) = print() {
        eprintln!("{error}");
        std::process::exit(1);
    }
}
