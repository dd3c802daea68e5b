//! Times derive of two builds of the library side by side in one process: derive BEFORE AFTER, each the library as a shared object. The build
//! before has no list of records among derive's slices, the build after has it. Trees and programs are compared before they are timed.
#[allow(dead_code)]
mod formulas;
#[path = "../shared/node.rs"]
mod node;

use node::NODE_SIZE;
use std::ffi::{c_char, c_int, c_void, CString};
use std::hint::black_box;
use std::process::Command;
use std::time::{Duration, Instant};

/// How long the rounds of one line go on, and how often a work is done for the count of machine instructions.
const SPAN: Duration = Duration::from_millis(800);
const COUNTED: u32 = 20;
const LARGEST: usize = 16384;
const RECORD: usize = 8;

type Bytes = *const u8;
type Slice = *mut u8;
type Before = unsafe extern "C" fn(Bytes, usize, Bytes, usize, u32, Slice, usize, Slice, usize, Slice, usize, *mut u64, usize) -> usize;
type After =
    unsafe extern "C" fn(Bytes, usize, Bytes, usize, u32, Slice, usize, Slice, usize, Slice, usize, Slice, usize, *mut u64, usize) -> usize;

extern "C" {
    fn dlopen(file: *const c_char, flags: c_int) -> *mut c_void;
    fn dlsym(handle: *mut c_void, name: *const c_char) -> *mut c_void;
}

/// `vebrostin_derive` of a shared object.
fn derive_of(file: &str) -> *mut c_void {
    const NOW: c_int = 2;
    let (path, name) = (CString::new(file).expect("a path"), CString::new("vebrostin_derive").expect("a name"));
    // SAFETY: the library runs nothing when it is loaded.
    let found = unsafe {
        let handle = dlopen(path.as_ptr(), NOW);
        assert!(!handle.is_null(), "{file} can't be loaded");
        dlsym(handle, name.as_ptr())
    };
    assert!(!found.is_null(), "{file} has no vebrostin_derive");
    found
}

#[derive(Clone, Copy)]
enum Build {
    Before(Before),
    After(After),
}

/// Slices for a derivative of so many nodes.
struct Host {
    build: Build,
    path: Vec<u8>,
    tree: Vec<u8>,
    list: Vec<u8>,
    program: Vec<u8>,
    report: [u64; 8],
}

impl Host {
    fn new(build: Build, formula: &[u8], nodes: usize) -> Self {
        let most = nodes.max(formula.len() / NODE_SIZE);
        Self {
            build,
            path: vec![0; 8192],
            tree: vec![0; NODE_SIZE * nodes],
            list: vec![0; RECORD * nodes],
            program: vec![0; 240 * most],
            report: [0; 8],
        }
    }

    fn derive(&mut self, formula: &[u8]) {
        let Self { build, path, tree, list, program, report } = self;
        let (f, n, names, m) = (formula.as_ptr(), formula.len(), formulas::NAMES.as_ptr(), formulas::NAMES.len());
        let (p, t, l, g) = (path.as_mut_ptr(), tree.as_mut_ptr(), list.as_mut_ptr(), program.as_mut_ptr());
        // SAFETY: each pointer has its slice's length after it, in the order that the build takes.
        let number = unsafe {
            match build {
                Build::Before(call) => {
                    call(f, n, names, m, 0, p, path.len(), t, tree.len(), g, program.len(), report.as_mut_ptr(), 8)
                }
                Build::After(call) => {
                    call(f, n, names, m, 0, p, path.len(), t, tree.len(), l, list.len(), g, program.len(), report.as_mut_ptr(), 8)
                }
            }
        };
        assert_eq!(number, 0, "derive refuses");
    }

    /// Slices that are just long enough, whatever the build.
    fn fitting(build: Build, formula: &[u8], after: Build) -> Self {
        let mut large = Self::new(after, formula, LARGEST);
        large.derive(formula);
        let (mut owed, mut nodes) = (1, 0);
        while owed > 0 {
            let at = NODE_SIZE * nodes;
            owed = owed - 1 + usize::from(u16::from_le_bytes([large.tree[at + 2], large.tree[at + 3]]));
            nodes += 1;
        }
        Self::new(build, formula, nodes)
    }

    fn nodes(&self) -> usize {
        self.tree.len() / NODE_SIZE
    }
}

fn sized() -> Vec<(String, Vec<u8>)> {
    let arithmetic = [1, 5, 25, 50, 128].map(|n| (format!("arithmetic {n}"), formulas::arithmetic(n)));
    let lists = [2, 8, 32, 64].map(|n| (format!("Min {n}"), formulas::list(n)));
    let powers = [1, 4, 8, 16].map(|n| (format!("powers {n}"), formulas::powers(n)));
    [("flight".to_string(), formulas::flight())].into_iter().chain(arithmetic).chain(lists).chain(powers).collect()
}

/// The least times of the two builds, in microseconds a call, in rounds by turns.
fn least(formula: &[u8], before: &mut Host, after: &mut Host) -> (f64, f64) {
    let once = |host: &mut Host, times: u32| {
        let start = Instant::now();
        (0..times).for_each(|_| host.derive(black_box(formula)));
        start.elapsed().as_nanos() as f64 / 1000.0 / f64::from(times)
    };
    let times = (100.0 / once(before, 10)).ceil() as u32;
    let (start, mut best) = (Instant::now(), (f64::MAX, f64::MAX));
    while start.elapsed() < SPAN {
        best.0 = best.0.min(once(before, times));
        best.1 = best.1.min(once(after, times));
    }
    best
}

/// Machine instructions of one call as callgrind counts them, or nothing where there is no valgrind.
fn counted(files: &[String], side: &str, name: &str) -> Option<f64> {
    let own = std::env::current_exe().ok()?;
    let collected = |times: u32| -> Option<f64> {
        let words = [&files[0], &files[1], "repeat", side, name, &times.to_string()];
        let printed = Command::new("valgrind").args(["--tool=callgrind", "--callgrind-out-file=/dev/null"]).arg(&own).args(words).output().ok()?;
        let text = String::from_utf8_lossy(&printed.stderr).into_owned();
        let line = text.lines().rfind(|line| line.contains("Collected"))?;
        line.rsplit(' ').next()?.parse().ok()
    };
    Some((collected(2 * COUNTED)? - collected(COUNTED)?) / f64::from(COUNTED))
}

fn main() {
    let words: Vec<String> = std::env::args().skip(1).collect();
    let [before, after, rest @ ..] = words.as_slice() else {
        eprintln!("derive BEFORE AFTER");
        std::process::exit(2);
    };
    // SAFETY: the two builds' functions have these types.
    let builds = unsafe {
        let before = Build::Before(std::mem::transmute::<*mut c_void, Before>(derive_of(before)));
        [before, Build::After(std::mem::transmute::<*mut c_void, After>(derive_of(after)))]
    };
    if let [repeat, side, name, times] = rest {
        assert_eq!(repeat, "repeat");
        let (_, formula) = sized().into_iter().find(|(own, _)| own == name).expect("a formula of the table");
        let mut host = Host::fitting(builds[usize::from(side == "after")], &formula, builds[1]);
        return (0..times.parse().expect("a number")).for_each(|_| host.derive(black_box(&formula)));
    }
    println!("\n### Derive by the first symbol, without the list of records and with it\n");
    println!("| formula | nodes | nodes of the derivative | before µs | after µs | after / before | before, machine instructions a node | after |");
    println!("|---|---|---|---|---|---|---|---|");
    for (name, formula) in sized() {
        let [mut here, mut there] = builds.map(|build| Host::fitting(build, &formula, builds[1]));
        let nodes = here.nodes();
        here.derive(&formula);
        there.derive(&formula);
        assert!(here.tree == there.tree && here.program == there.program, "{name}: the builds differ");
        let (a, b) = least(&formula, &mut here, &mut there);
        let count = |side| counted(&words, side, &name).map_or("-".into(), |count| format!("{:.0}", count / nodes as f64));
        let size = formula.len() / NODE_SIZE;
        println!("| {name} | {size} | {nodes} | {a:.2} | {b:.2} | {:.2} | {} | {} |", b / a, count("before"), count("after"));
    }
}
