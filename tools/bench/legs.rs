//! Lines a second and peak memory of `legs` and of the same work done by the reference.
use crate::formulas;
use crate::node::NODE_SIZE;
use std::fs::{self, File};
use std::path::{Path, PathBuf};
use std::process::{Command, Stdio};

/// Lines of values that a run lists at most. No run has more here, so that lines a second are those of all its lines.
const LINES: usize = 1_000_000;

/// Of the children waited for: user and system time in seconds and microseconds, the largest resident set in kilobytes, the rest.
#[repr(C)]
struct Usage {
    times: [i64; 4],
    largest: i64,
    rest: [i64; 13],
}

extern "C" {
    fn getrusage(who: i32, usage: *mut Usage) -> i32;
}

fn of_children() -> Usage {
    let mut usage = Usage { times: [0; 4], largest: 0, rest: [0; 13] };
    // SAFETY: the struct is as large as Linux's rusage, and -1 asks for the children's.
    unsafe { getrusage(-1, &mut usage) };
    usage
}

/// Processor time of all children so far, in seconds.
fn time() -> f64 {
    let [s, us, t, ut] = of_children().times;
    (s + t) as f64 + (us + ut) as f64 / 1e6
}

/// Lines of eight values: one and some parts of a whole, of which 64 makes short fractions and 7 long ones.
fn input(lines: usize, parts: f64) -> Vec<u8> {
    assert!(lines <= LINES);
    let mut text = formulas::NAMES.to_vec();
    for line in 0..lines {
        text.push(b'\n');
        let value = |i: usize| 1.0 + ((line * 31 + i * 37) % 1024) as f64 / parts;
        let items: Vec<String> = (0..8).map(|i| format!("{:016x}", value(i).to_bits())).collect();
        text.extend(items.join(",").bytes());
    }
    text.push(b'\n');
    text
}

/// The same lines with a last byte that is no digit: the value that it ends is then read digit by digit.
fn malformed(mut text: Vec<u8>) -> Vec<u8> {
    for end in formulas::NAMES.len() + 1..text.len() {
        if text[end] == b'\n' {
            text[end - 1] = b'g';
        }
    }
    text
}

/// Seconds of processor time of one run in a folder, its output thrown away.
fn seconds(program: &Path, folder: &Path) -> f64 {
    let stdin = File::open(folder.join("input")).expect("the lines");
    let start = time();
    let status = Command::new(program).current_dir(folder).stdin(stdin).stdout(Stdio::null()).status();
    assert!(status.expect("the program runs").success());
    time() - start
}

fn output(program: &Path, folder: &Path) -> Vec<u8> {
    let stdin = File::open(folder.join("input")).expect("the lines");
    Command::new(program).current_dir(folder).stdin(stdin).output().expect("the program runs").stdout
}

/// `bench peak PROGRAM`: runs the program in this folder and prints its peak memory.
pub fn print_peak(program: &str) {
    let here = std::env::current_dir().expect("a folder");
    seconds(Path::new(program), &here);
    println!("{}", of_children().largest);
}

/// The peak of a program alone, from a process of its own.
fn peak_of(program: &Path, folder: &Path) -> String {
    let own = std::env::current_exe().expect("this program");
    let printed = Command::new(own).arg("peak").arg(program).current_dir(folder).output().expect("this program runs");
    String::from_utf8_lossy(&printed.stdout).trim().into()
}

fn absolute(path: &str) -> PathBuf {
    fs::canonicalize(path).expect("the program is there")
}

fn new_folder() -> PathBuf {
    let folder = std::env::temp_dir().join(format!("bench-{}", std::process::id()));
    fs::create_dir_all(&folder).expect("a folder");
    folder
}

/// The least seconds of two programs that take turns.
fn least(here: &Path, there: &Path, folder: &Path, rounds: usize) -> (f64, f64) {
    let (mut a, mut b) = (f64::MAX, f64::MAX);
    for _ in 0..rounds {
        a = a.min(seconds(here, folder));
        b = b.min(seconds(there, folder));
    }
    (a, b)
}

/// An output without its total line, or nothing where it has none.
fn without_total(output: &[u8]) -> Option<&[u8]> {
    let above = output.strip_suffix(b"\n")?;
    let start = above.iter().rposition(|byte| *byte == b'\n')? + 1;
    above[start..].starts_with(b"total,").then(|| &output[..start])
}

/// What is compared of a build's output: all of it, but for the total line where the build before it prints none.
fn comparable<'a>(before: &[u8], after: &'a [u8]) -> &'a [u8] {
    match (without_total(before), without_total(after)) {
        (None, Some(above)) => above,
        _ => after,
    }
}

/// `bench builds BEFORE AFTER`: lines a second of two builds of `legs`.
pub fn builds(before: &str, after: &str) {
    let (before, after, folder) = (absolute(before), absolute(after), new_folder());
    let (lines, mut left_out) = (LINES, false);
    println!("\n### Two builds of `legs`, lines for each second of processor time, eight values a line\n");
    println!("| formula | nodes | values | before lines/s | after lines/s | after / before |\n|---|---|---|---|---|---|");
    for (name, formula) in [("flight", formulas::flight()), ("arithmetic", formulas::arithmetic(25))] {
        fs::write(folder.join("formula.bin"), &formula).expect("the formula");
        let (short, long) = (input(lines, 64.0), input(lines, 7.0));
        let bad = malformed(long.clone());
        for (values, text) in [("short fractions", short), ("long fractions", long), ("the last one malformed", bad)] {
            fs::write(folder.join("input"), text).expect("the lines");
            let (old, new) = (output(&before, &folder), output(&after, &folder));
            let compared = comparable(&old, &new);
            assert!(old == compared, "{name}: the outputs differ");
            left_out |= compared.len() < new.len();
            let (a, b) = least(&before, &after, &folder, 9);
            let rate = |t: f64| lines as f64 / t;
            println!("| {name} | {} | {values} | {:.0} | {:.0} | {:.2} |", formula.len() / NODE_SIZE, rate(a), rate(b), a / b);
        }
    }
    if left_out {
        println!("\nThe build before prints no total line: outputs were compared without it.");
    }
    fs::remove_dir_all(&folder).ok();
}

pub fn table(here: &str, there: &str) {
    let (here, there, folder) = (absolute(here), absolute(there), new_folder());
    println!("\n### `legs`, lines for each second of processor time of the whole process, output thrown away\n");
    println!("| formula | nodes | lines | here lines/s | Rust lines/s | here / Rust | here peak kB | Rust peak kB |\n|---|---|---|---|---|---|---|---|");
    let formulas = [
        ("flight", formulas::flight()),
        ("arithmetic", formulas::arithmetic(25)),
        ("arithmetic", formulas::arithmetic(128)),
        ("branches", formulas::branches(20)),
    ];
    for (name, formula) in formulas {
        fs::write(folder.join("formula.bin"), &formula).expect("the formula");
        for lines in [10_000, 100_000, LINES] {
            fs::write(folder.join("input"), input(lines, 64.0)).expect("the lines");
            if lines == 10_000 {
                assert!(output(&here, &folder) == output(&there, &folder), "{name}: the outputs differ");
            }
            let (a, b) = least(&here, &there, &folder, if lines > 500_000 { 2 } else { 5 });
            let rate = |t: f64| lines as f64 / t;
            let (nodes, ratio) = (formula.len() / NODE_SIZE, rate(a) / rate(b));
            println!(
                "| {name} | {nodes} | {lines} | {:.0} | {:.0} | {ratio:.2} | {} | {} |",
                rate(a), rate(b), peak_of(&here, &folder), peak_of(&there, &folder)
            );
        }
    }
    counts(&here, &there, &folder);
    fs::remove_dir_all(&folder).ok();
}

/// Machine instructions of a line, as callgrind counts them: 20,000 lines less 10,000.
fn counts(here: &Path, there: &Path, folder: &Path) {
    let of = |program: &Path, lines: usize| {
        fs::write(folder.join("input"), input(lines, 64.0)).expect("the lines");
        let stdin = File::open(folder.join("input")).expect("the lines");
        crate::counts::collected(Command::new("valgrind").current_dir(folder).stdin(stdin), program, &[])
    };
    let each = |program: &Path| Some((of(program, 20_000)? - of(program, 10_000)?) / 10_000.0);
    println!("\n### Machine instructions (callgrind) of a line of `legs` with eight values\n");
    println!("| formula | nodes | here | Rust |\n|---|---|---|---|");
    for (name, formula) in [("flight", formulas::flight()), ("arithmetic", formulas::arithmetic(25)), ("arithmetic", formulas::arithmetic(128))] {
        fs::write(folder.join("formula.bin"), &formula).expect("the formula");
        let cell = |program: &Path| each(program).map_or("-".into(), |count| format!("{count:.0}"));
        println!("| {name} | {} | {} | {} |", formula.len() / NODE_SIZE, cell(here), cell(there));
    }
}
