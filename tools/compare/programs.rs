//! The library's program bytes beside the reference's program.
use crate::compile::{Program, ValueKind};
use std::fmt::Write;

fn word(bytes: &[u8], at: usize) -> usize {
    u32::from_le_bytes(bytes[at..at + 4].try_into().expect("four bytes")) as usize
}

/// The path records of a program.
struct Records<'a>(&'a [u8]);

impl Records<'_> {
    /// Whether a record's text is this path; read from its end to `root`.
    fn says(&self, mut record: usize, path: &str) -> bool {
        let mut rest = path;
        let mut step = String::new();
        while record != 0 {
            let Some(fields) = self.0.get(12 * record..12 * record + 12) else {
                return false;
            };
            step.clear();
            match word(fields, 4) {
                0 => step.push_str(".condition"),
                1 => step.push_str(".then"),
                2 => step.push_str(".else"),
                n => write!(step, ".arguments[{}]", n - 3).expect("a string takes all"),
            }
            if word(fields, 8) != rest.len() || word(fields, 0) >= record {
                return false;
            }
            let Some(before) = rest.strip_suffix(step.as_str()) else {
                return false;
            };
            rest = before;
            record = word(fields, 0);
        }
        rest == "root"
    }
}

fn differ<T: PartialEq + std::fmt::Debug>(what: &str, here: T, there: T) -> Result<(), String> {
    if here == there { Ok(()) } else { Err(format!("{what}: {here:?} here, {there:?} in Rust")) }
}

/// Bytes of a step's text.
fn step_length(step: usize) -> usize {
    match step {
        0 => 10,
        1 | 2 => 5,
        n => 12 + (n - 3).to_string().len(),
    }
}

/// Bytes with a header whose parts have room in them.
struct Parts<'a> {
    bytes: &'a [u8],
    code: usize,
    registers: usize,
    inputs: usize,
    paths: usize,
    entries: usize,
}

impl<'a> Parts<'a> {
    fn of(bytes: &'a [u8]) -> Option<Self> {
        if bytes.len() < 32 || &bytes[..4] != b"VBR1" {
            return None;
        }
        let [code, registers, result, inputs, kind, paths, entries] = [4, 8, 12, 16, 20, 24, 28].map(|at| word(bytes, at));
        let room = bytes.len() >= 32 + 24 * code + 12 * paths + 4 * entries;
        let counts = kind <= 1 && code > 0 && paths > 0 && result < registers;
        (room && counts).then_some(Self { bytes, code, registers, inputs, paths, entries })
    }

    /// Parent, step and length of a path record.
    fn record(&self, k: usize) -> [usize; 3] {
        [0, 4, 8].map(|field| word(self.bytes, 32 + 24 * self.code + 12 * k + field))
    }

    fn linked(&self, k: usize) -> bool {
        let [parent, step, length] = self.record(k);
        parent < k && length == self.record(parent)[2] + step_length(step)
    }

    /// Whether the register of a list entry is one.
    fn entry_fits(&self, i: usize) -> bool {
        word(self.bytes, 32 + 24 * self.code + 12 * self.paths + 4 * i) < self.registers
    }

    /// The entries used up to an instruction's end, where the instruction is allowed.
    fn row(&self, n: usize, used: usize) -> Option<usize> {
        let at = 32 + 24 * n;
        let [destination, a, b, c, path] = [4, 8, 12, 16, 20].map(|field| word(self.bytes, at + field));
        let (opcode, spare) = (self.bytes[at], self.bytes[at + 1]);
        let count = usize::from(u16::from_le_bytes([self.bytes[at + 2], self.bytes[at + 3]]));
        let register = |r: usize| r < self.registers;
        let target = c > n && c <= self.code;
        let fields = match opcode {
            0 => c == 0,
            1 => a < self.inputs && b == 0 && c == 0,
            3 => register(a) && b == 0 && target,
            4 => a == 0 && b == 0 && target,
            2 | 5..=7 | 20..=30 => register(a) && b == 0 && c == 0,
            8..=19 => register(a) && register(b) && c == 0,
            31 | 32 => a == used && b == 0 && c == 0,
            33 | 34 => register(a) && register(b) && register(c),
            _ => false,
        };
        let end = used + count;
        let list = if matches!(opcode, 31 | 32) { count >= 2 && end <= self.entries && (used..end).all(|i| self.entry_fits(i)) } else { count == 0 };
        let placed = path < self.paths && self.record(path)[2] <= 8192;
        (fields && list && placed && spare == 0 && register(destination)).then_some(end)
    }
}

/// Whether bytes are a program, read from docs/PROGRAM.md alone.
pub fn is_program(bytes: &[u8]) -> bool {
    let Some(parts) = Parts::of(bytes) else {
        return false;
    };
    let linked = parts.record(0) == [0, 0, 4] && (1..parts.paths).all(|k| parts.linked(k));
    linked && (0..parts.code).try_fold(0, |used, n| parts.row(n, used)) == Some(parts.entries)
}

/// Every instruction, with its registers, target and path, and the counts of the header; zeros after the program. Gives its end.
pub fn compare(bytes: &[u8], program: &Program) -> Result<usize, String> {
    let (registers, inputs, result) = program.counts();
    let code = program.instruction_count();
    let header = [4, 8, 12, 16, 20].map(|at| word(bytes, at));
    let boolean = usize::from(program.kind == ValueKind::Boolean);
    differ("magic", &bytes[..4], b"VBR1")?;
    differ("instructions, registers, result, inputs, kind", header, [code, registers, result, inputs, boolean])?;
    let (paths, entries) = (word(bytes, 24), word(bytes, 28));
    let (table, lists) = (32 + 24 * code, 32 + 24 * code + 12 * paths);
    let end = lists + 4 * entries;
    let records = Records(&bytes[table..lists]);
    differ("root's record", &bytes[table..table + 12], &[0, 0, 0, 0, 0, 0, 0, 0, 4, 0, 0, 0])?;
    let mut used = 0;
    for (n, row) in program.rows().enumerate() {
        let at = 32 + 24 * n;
        let mut fields = row.fields;
        if !row.list.is_empty() {
            fields[0] = used;
            let list: Vec<usize> = (0..row.list.len()).map(|i| word(bytes, lists + 4 * (used + i))).collect();
            differ("list", list.as_slice(), row.list)?;
            used += row.list.len();
        }
        let head = u32::from(row.opcode) | (row.list.len() as u32) << 16;
        let here = [0, 4, 8, 12, 16].map(|field| word(bytes, at + field));
        differ("instruction", here, [head as usize, row.destination, fields[0], fields[1], fields[2]])?;
        if !records.says(word(bytes, at + 20), row.path) {
            return Err(format!("path of instruction {n} is not {}", row.path));
        }
    }
    differ("list entries", entries, used)?;
    differ("byte after the program", bytes[end..].iter().find(|byte| **byte != 0), None)?;
    Ok(end)
}
