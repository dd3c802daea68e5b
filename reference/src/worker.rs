//! The work is done in a child process. If a command ends it, the parent says so and starts another.
use crate::{commands, memory};
use std::io::{self, BufRead, BufReader, BufWriter, Write};
use std::process::{Child, ChildStdin, ChildStdout, Command, Stdio};
use std::sync::atomic::{AtomicU64, Ordering::Relaxed};
use std::time::Duration;

/// The first argument that makes a process a worker.
pub const WORKER: &str = "worker";
const STACK: usize = 256 << 20;
/// Seconds that one command may take.
const SECONDS: u64 = 60;
/// Exit status when a command takes longer.
const TOO_LONG: i32 = 4;

/// Seconds for which the current command has been at work.
static BUSY: AtomicU64 = AtomicU64::new(0);

struct Worker {
    child: Child,
    input: ChildStdin,
    output: BufReader<ChildStdout>,
}

impl Worker {
    fn start() -> io::Result<Self> {
        let mut child = Command::new(std::env::current_exe()?)
            .arg(WORKER)
            .stdin(Stdio::piped())
            .stdout(Stdio::piped())
            .spawn()?;
        let input = child.stdin.take().expect("stdin is piped");
        let output = BufReader::new(child.stdout.take().expect("stdout is piped"));
        Ok(Self {
            child,
            input,
            output,
        })
    }

    /// The answer with its newline; nothing if the worker ended over it.
    fn ask(&mut self, line: &[u8]) -> Option<Vec<u8>> {
        self.input.write_all(line).ok()?;
        let mut answer = Vec::new();
        self.output.read_until(b'\n', &mut answer).ok()?;
        (answer.last() == Some(&b'\n')).then_some(answer)
    }

    /// Why an ended worker gave up.
    fn reason(mut self) -> &'static str {
        match self.child.wait().ok().and_then(|status| status.code()) {
            Some(memory::STATUS) => "memory",
            Some(TOO_LONG) => "time",
            _ => "crash",
        }
    }
}

/// Passes each line to a worker and prints its answer.
pub fn supervise() -> io::Result<()> {
    let (mut input, mut output) = (io::stdin().lock(), io::stdout().lock());
    let mut worker = Worker::start()?;
    let mut line = Vec::new();
    while input.read_until(b'\n', &mut line)? > 0 {
        if line.last() != Some(&b'\n') {
            line.push(b'\n');
        }
        match worker.ask(&line) {
            Some(answer) => output.write_all(&answer)?,
            None => {
                let ended = std::mem::replace(&mut worker, Worker::start()?);
                writeln!(output, "gaveup {}", ended.reason())?;
            }
        }
        output.flush()?;
        line.clear();
    }
    drop(worker.input);
    worker.child.wait().map(|_| ())
}

/// Answers lines from standard input until its end, on a large stack.
pub fn work() -> io::Result<()> {
    std::thread::spawn(watch);
    let thread = std::thread::Builder::new().stack_size(STACK);
    match thread.spawn(answer_lines)?.join() {
        Ok(outcome) => outcome,
        Err(_) => Err(io::Error::other("a command panicked")),
    }
}

fn answer_lines() -> io::Result<()> {
    let mut output = BufWriter::new(io::stdout().lock());
    for line in io::stdin().lock().split(b'\n') {
        let line = line?;
        BUSY.store(1, Relaxed);
        let answer = commands::answer(&String::from_utf8_lossy(&line));
        BUSY.store(0, Relaxed);
        writeln!(output, "{answer}")?;
        output.flush()?;
    }
    Ok(())
}

/// Ends the worker when one command takes too long.
fn watch() {
    loop {
        std::thread::sleep(Duration::from_secs(1));
        let busy = BUSY.fetch_update(Relaxed, Relaxed, |s| (s > 0).then_some(s + 1));
        if busy.is_ok_and(|seconds| seconds > SECONDS) {
            std::process::exit(TOO_LONG);
        }
    }
}
