//! Compares every byte that the programs print for a tape with what the model makes of it.

use crate::make::{Maker, EDGES, FAMILIES};
use crate::met::Met;
use crate::program::run;
use std::collections::HashMap;
use std::fs;
use std::io::{self, Read, Write};
use std::iter;
use std::process::{Child, Command, Stdio};
use std::sync::atomic::{AtomicU64, Ordering};
use std::sync::{mpsc, Mutex};
use std::thread;
use std::time::{Duration, Instant};

/// A program that takes longer for one tape hangs.
const PATIENCE: Duration = Duration::from_secs(20);
/// At most so many differences are shown.
const MOST_REPORTS: u64 = 10;
/// A line of progress each so many tapes.
const STRIDE: u64 = 2_000;

pub struct Wanted {
    /// The folder that holds the programs.
    pub programs: String,
    /// The words before a program's name on its command line.
    pub loader: Vec<String>,
    pub tapes: u64,
    pub seed: u64,
    pub only: Option<u64>,
    /// The command that repeats a tape, up to its seed.
    pub repeat: String,
}

#[derive(Default)]
struct Sum {
    done: u64,
    differ: u64,
    families: HashMap<&'static str, u64>,
    met: Met,
}

/// Runs all tapes, prints what was found, and gives the number of tapes that differ.
pub fn compare(wanted: &Wanted) -> u64 {
    println!("seed {}", wanted.seed);
    let maker = Maker::default();
    let (first, past) = match wanted.only {
        Some(only) => (only, only.saturating_add(1)),
        None => (0, wanted.tapes),
    };
    let next = AtomicU64::new(first);
    let sum = Mutex::new(Sum::default());
    let workers = thread::available_parallelism().map_or(1, |count| count.get());
    let on_terminal = stderr_is_terminal();
    thread::scope(|scope| {
        for _ in 0..workers {
            scope.spawn(|| loop {
                let index = next.fetch_add(1, Ordering::SeqCst);
                if index >= past {
                    break;
                }
                let (family, tape) = maker.tape(wanted.seed, index);
                let (met, found) = try_tape(wanted, index, &tape);
                let mut sum = sum.lock().expect("no thread panics");
                sum.done += 1;
                *sum.families.entry(family).or_insert(0) += 1;
                sum.met.add(&met);
                if let Some(found) = found {
                    sum.differ += 1;
                    if sum.differ <= MOST_REPORTS {
                        if on_terminal {
                            eprintln!();
                        }
                        report(wanted, family, index, &tape, &found);
                    }
                }
                progress(&sum, past - first, on_terminal);
            });
        }
    });
    let sum = sum.into_inner().expect("no thread panics");
    println!("tapes by family");
    for name in iter::once(EDGES).chain(FAMILIES.iter().map(|family| family.1)) {
        let count = sum.families.get(name).copied().unwrap_or(0);
        println!("  {name:<30} {count}");
    }
    println!("met on the way");
    print!("{}", sum.met);
    println!("{} tapes, {} differ", sum.done, sum.differ);
    sum.differ
}

fn progress(sum: &Sum, of: u64, on_terminal: bool) {
    let text = format!("{} of {of} tapes, {} differ", sum.done, sum.differ);
    if on_terminal {
        if sum.done % 50 == 0 || sum.done == of {
            let end = if sum.done == of { "\n" } else { "" };
            eprint!("\r{text}{end}");
        }
    } else if sum.done % STRIDE == 0 {
        eprintln!("{text}");
    }
}

fn stderr_is_terminal() -> bool {
    let place = fs::read_link("/proc/self/fd/2").unwrap_or_default();
    place.starts_with("/dev/pts") || place.starts_with("/dev/tty")
}

// what was met, and how the programs differ from the model
fn try_tape(wanted: &Wanted, index: u64, tape: &[u8]) -> (Met, Option<String>) {
    let ran = match run(tape) {
        Ok(ran) => ran,
        Err(text) => return (Met::default(), Some(format!("within the model: {text}"))),
    };
    let texts = [("tape_run", &ran.tape_run), ("tape_why", &ran.tape_why)];
    let found: Vec<String> = texts
        .into_iter()
        .filter_map(|(name, text)| {
            let found = try_program(wanted, name, tape, index % 8 == 1, text)?;
            Some(format!("{name}: {found}"))
        })
        .collect();
    let found = Some(found.join("\n")).filter(|found| !found.is_empty());
    (ran.met, found)
}

fn try_program(
    wanted: &Wanted,
    name: &str,
    tape: &[u8],
    halved: bool,
    model: &[u8],
) -> Option<String> {
    let mut words = wanted.loader.clone();
    words.push(format!("{}/{name}", wanted.programs));
    match start(&words, tape, halved, model.len()) {
        Ok(printed) => difference(model, &printed),
        Err(text) => Some(text),
    }
}

struct Printed {
    out: Vec<u8>,
    err: Vec<u8>,
    status: String,
    good: bool,
}

fn difference(model: &[u8], printed: &Printed) -> Option<String> {
    if model != printed.out {
        return Some(first_line(model, &printed.out));
    }
    if !printed.good {
        return Some(format!("the program ended with {}", printed.status));
    }
    if !printed.err.is_empty() {
        let text = String::from_utf8_lossy(&printed.err);
        return Some(format!("on standard error: {text:?}"));
    }
    None
}

// the first line that differs, from both sides, with its newline if it has one
fn first_line(model: &[u8], program: &[u8]) -> String {
    let mut of_model = model.split_inclusive(|byte| *byte == b'\n');
    let mut of_program = program.split_inclusive(|byte| *byte == b'\n');
    let mut number = 1;
    loop {
        let (one, other) = (of_model.next(), of_program.next());
        if one != other || one.is_none() {
            return format!(
                "line {number}\n  model    {}\n  program  {}",
                shown(one),
                shown(other)
            );
        }
        number += 1;
    }
}

fn shown(line: Option<&[u8]>) -> String {
    line.map_or("nothing".to_string(), |line| {
        format!("{:?}", String::from_utf8_lossy(line))
    })
}

fn report(wanted: &Wanted, family: &str, index: u64, tape: &[u8], found: &str) {
    let seed = wanted.seed;
    let hex: Vec<String> = tape
        .iter()
        .take(200)
        .map(|byte| format!("{byte:02X}"))
        .collect();
    let more = if tape.len() > 200 { " .." } else { "" };
    println!("differs: {family}, index {index}, seed {seed}: {found}");
    println!("  tape of {} bytes: {}{more}", tape.len(), hex.join(" "));
    println!("  again: {} --seed {seed} --only {index}", wanted.repeat);
    let name = format!("differs-{seed}-{index}.tape");
    match fs::write(&name, tape) {
        Ok(()) => println!("  written to {name}"),
        Err(error) => println!("  can't write {name}: {error}"),
    }
}

// runs the program with the tape on its standard input, in one piece or in two
fn start(
    program: &[String],
    tape: &[u8],
    halved: bool,
    expected: usize,
) -> Result<Printed, String> {
    let (name, words) = program.split_first().ok_or("no program")?;
    let end = Instant::now() + PATIENCE;
    let mut child = Command::new(name)
        .args(words)
        .stdin(Stdio::piped())
        .stdout(Stdio::piped())
        .stderr(Stdio::piped())
        .spawn()
        .map_err(|error| format!("can't start {name}: {error}"))?;
    let stdin = child.stdin.take().ok_or("no standard input")?;
    let stdout = child.stdout.take().ok_or("no standard output")?;
    let stderr = child.stderr.take().ok_or("no standard error")?;
    let tape = tape.to_vec();
    thread::spawn(move || feed(stdin, &tape, halved));
    // of a program that prints without end, no more is read
    let most = expected as u64 + 4_096;
    let (sender, receiver) = mpsc::channel();
    thread::spawn(move || {
        let (mut out, mut err) = (Vec::new(), Vec::new());
        let read = stdout.take(most).read_to_end(&mut out);
        let read = read.and_then(|_| stderr.take(4_096).read_to_end(&mut err));
        // nobody listens after the time is over
        let _ = sender.send(read.map(|_| (out, err)));
    });
    let read = receiver.recv_timeout(PATIENCE);
    let status = wait(&mut child, end)?;
    let (out, err) = match read {
        Ok(Ok(both)) => both,
        Ok(Err(error)) => return Err(format!("can't read what the program prints: {error}")),
        Err(_) => return Err(hangs()),
    };
    Ok(Printed {
        out,
        err,
        status: status.to_string(),
        good: status.success(),
    })
}

// a program that has refused its input may have stopped reading it
fn feed(mut stdin: impl Write, tape: &[u8], halved: bool) {
    let (one, other) = tape.split_at(if halved { tape.len() / 2 } else { 0 });
    let _ = stdin.write_all(one);
    if halved {
        thread::sleep(Duration::from_millis(2));
    }
    let _ = stdin.write_all(other);
}

fn hangs() -> String {
    format!("the program is not done after {} s", PATIENCE.as_secs())
}

fn wait(child: &mut Child, end: Instant) -> Result<std::process::ExitStatus, String> {
    let failed = |error: io::Error| format!("can't wait for the program: {error}");
    loop {
        if let Some(status) = child.try_wait().map_err(failed)? {
            return Ok(status);
        }
        if Instant::now() >= end {
            child.kill().map_err(failed)?;
            child.wait().map_err(failed)?;
            return Err(hangs());
        }
        thread::sleep(Duration::from_micros(50));
    }
}
