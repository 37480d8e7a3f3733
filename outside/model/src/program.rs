//! Document 01, "The program and one whole run", and document 02, Q-1: what is printed for the bytes of a tape.

use crate::history::History;
use crate::kernel::Kernel;
use crate::layer::{Answer, Call, Job, KernelCall, Layer};
use crate::met::Met;
use crate::place;
use crate::plain::Plain;
use crate::table::{check, Line, MOST};
use crate::tape::{read_count, read_lines, read_record, write_record, write_table, Read};
use crate::why::{self, Reason, Why};

/// More bytes of input are refused with 26.
pub const MOST_BYTES: usize = 65_536;

/// What the two programs print, and what was met on the way.
pub struct Ran {
    pub tape_run: Vec<u8>,
    pub tape_why: Vec<u8>,
    pub met: Met,
}

/// Runs a tape; an error where layer, kernel, plain scheduler or history part, or a new job's places
/// from the back and from the front.
pub fn run(bytes: &[u8]) -> Result<Ran, String> {
    let mut met = Met::default();
    let [tape_run, tape_why] = print(bytes, &mut met)?.map(String::into_bytes);
    met.printed(&tape_run);
    met.printed(&tape_why);
    Ok(Ran {
        tape_run,
        tape_why,
        met,
    })
}

// the texts of tape_run and tape_why
fn print(bytes: &[u8], met: &mut Met) -> Result<[String; 2], String> {
    let (lines, place) = match read_and_check(bytes, met)? {
        Ok(read) => read,
        Err(refusal) => return Ok([refusal.clone(), refusal]),
    };
    let mut heads = Heads::fresh(&lines);
    let (calls, bad_record) = call_all(bytes, place, &mut heads, met)?;
    heads.same_in_the_end()?;
    for (due, tick) in heads.history.reports() {
        met.report(due, tick);
    }
    let mut whys = String::new();
    for (task, reason) in heads.reasons()?.into_iter().enumerate() {
        met.reason(reason);
        whys += &reason_text(task, reason);
    }
    let calls = "tick res run due call late\n".to_string() + &calls;
    Ok([calls + &bad_record, whys + &bad_record])
}

// an accepted table and the place after it, or the one line of its refusal
fn read_and_check(
    bytes: &[u8],
    met: &mut Met,
) -> Result<Result<(Vec<Line>, usize), String>, String> {
    if bytes.len() > MOST_BYTES {
        return Ok(Err(bad_tape(26, MOST_BYTES, met)));
    }
    let (count, place) = match read_count(bytes) {
        Ok(read) => read,
        Err(number) => return Ok(Err(bad_tape(number, 0, met))),
    };
    // a count above 32 is refused as soon as it is read
    if count > MOST {
        return Ok(Err(bad_table(1, None, None, met)));
    }
    let (lines, place) = match read_lines(bytes, count, place) {
        Ok(read) => read,
        Err(number) => return Ok(Err(bad_tape(number, 0, met))),
    };
    same_table(bytes, &lines, place)?;
    if let Err(refusal) = check(&lines) {
        let (first, second) = (refusal.first, refusal.second);
        return Ok(Err(bad_table(refusal.number, first, second, met)));
    }
    Ok(Ok((lines, place)))
}

// the lines of all calls, and the line of a bad record if there is one
fn call_all(
    bytes: &[u8],
    place: usize,
    heads: &mut Heads,
    met: &mut Met,
) -> Result<(String, String), String> {
    let mut text = String::new();
    let (mut place, mut preceding) = (place, 0);
    loop {
        match read_record(bytes, place, preceding) {
            Read::Record { call, tick, after } => {
                same_record(bytes, place, after, preceding, tick, call)?;
                text += &heads.call(tick, call, met)?;
                place = after;
                preceding = tick;
            }
            Read::End => {
                met.written += 1;
                return Ok((text, String::new()));
            }
            Read::Refused(number) => return Ok((text, bad_tape(number, place, met))),
        }
    }
}

fn bad_tape(number: u8, place: usize, met: &mut Met) -> String {
    met.tape_refusals[usize::from(number)] += 1;
    format!("tape {number} at {place}\n")
}

fn bad_table(number: u8, first: Option<usize>, second: Option<usize>, met: &mut Met) -> String {
    met.table_refusals[usize::from(number)] += 1;
    format!("table {number} {} {}\n", or_dash(first), or_dash(second))
}

// a dash stands for absent
fn or_dash<T: ToString>(value: Option<T>) -> String {
    value.map_or("-".to_string(), |value| value.to_string())
}

fn kernel_call_text(call: Option<KernelCall>) -> String {
    match call {
        Some(KernelCall::ActivateTask(task)) => format!("A{task}"),
        Some(KernelCall::ChainTask(task)) => format!("C{task}"),
        Some(KernelCall::TerminateTask) => "T".to_string(),
        None => "-".to_string(),
    }
}

fn late_text(late: &[u8]) -> String {
    let tasks: Vec<String> = late.iter().map(u8::to_string).collect();
    or_dash(Some(tasks.join(",")).filter(|text| !text.is_empty()))
}

fn reason_text(task: usize, reason: Reason) -> String {
    let text = match reason {
        Reason::NonePending => "has no pending job".to_string(),
        Reason::Runs => "is running".to_string(),
        Reason::Earlier(job) => format!(
            "is waiting: task {} is running with the earlier deadline {}",
            job.task, job.due
        ),
        Reason::ThereFirst(job) => format!(
            "is waiting: task {} was there first and is running with the same deadline {}",
            job.task, job.due
        ),
    };
    format!("task {task} {text}\n")
}

// a table that was read, written again, gives the same bytes
fn same_table(bytes: &[u8], lines: &[Line], after: usize) -> Result<(), String> {
    let mut buffer = vec![0; after];
    match write_table(lines, &mut buffer) {
        Ok(length) if length == after && buffer == bytes[..after] => Ok(()),
        _ => Err("the table is written otherwise than it was read".to_string()),
    }
}

// so does a record
fn same_record(
    bytes: &[u8],
    place: usize,
    after: usize,
    preceding: u64,
    tick: u64,
    call: Call,
) -> Result<(), String> {
    let mut buffer = vec![0; after - place];
    match write_record(preceding, tick, call, &mut buffer) {
        Ok(length) if length == buffer.len() && buffer == bytes[place..after] => Ok(()),
        _ => Err(format!(
            "the record at {place} is written otherwise than it was read"
        )),
    }
}

/// Layer, kernel, plain scheduler and history beside each other.
pub struct Heads {
    lines: Vec<Line>,
    layer: Layer,
    kernel: Kernel,
    plain: Plain,
    history: History,
    // the newly late tasks of each accepted call
    late: Vec<Vec<u8>>,
}

impl Heads {
    pub fn fresh(lines: &[Line]) -> Heads {
        Heads {
            lines: lines.to_vec(),
            layer: Layer::fresh(lines),
            kernel: Kernel::new(lines),
            plain: Plain::new(lines),
            history: History::new(lines.len()),
            late: Vec::new(),
        }
    }

    /// The line of a call.
    pub fn call(&mut self, tick: u64, call: Call, met: &mut Met) -> Result<String, String> {
        let ran = self.kernel.running();
        let before = self.layer.list().to_vec();
        let answer = self.layer.call(tick, call);
        if let Some(kernel_call) = answer.kernel_call {
            self.kernel.serve(kernel_call)?;
        }
        let plain_result = self.plain.call(tick, call);
        if plain_result != answer.result {
            return Err(format!(
                "at tick {tick} {call:?} is {} for the layer, {plain_result} for the plain scheduler",
                answer.result
            ));
        }
        self.same_place(&before, tick, call, &answer)
            .map_err(|text| format!("after {call:?} at tick {tick} {text}"))?;
        if answer.result == 0 {
            self.history.accepted(tick);
            self.late.push(answer.late.clone());
            if let (Call::Terminate | Call::Chain(_), Some(job)) = (call, ran) {
                self.history.ends(job.task, job.nth)?;
            }
            if let Call::Activate(task) | Call::Chain(task) = call {
                self.history.begins(task, self.lines[usize::from(task)].d);
            }
        }
        met.call(call, &answer, &self.layer, &self.kernel);
        let running = self.same_running(tick, call)?;
        self.same_pending(tick, call)?;
        // all tasks with a line, and two without
        let count = self.lines.len() as u8;
        self.whys((0..=count).chain([u8::MAX]))
            .map_err(|text| format!("after {call:?} at tick {tick} {text}"))?;
        Ok(line(tick, &answer, running))
    }

    // exactly an accepted activate or chain inserts: into the list before it, for chain without its first
    fn same_place(
        &self,
        before: &[Job],
        tick: u64,
        call: Call,
        answer: &Answer,
    ) -> Result<(), String> {
        let expected = match call {
            Call::Activate(task) if answer.result == 0 => Some((task, before)),
            Call::Chain(task) if answer.result == 0 => {
                Some((task, before.get(1..).unwrap_or_default()))
            }
            _ => None,
        };
        match (expected, answer.inserted) {
            (Some((task, list)), Some(inserted)) => {
                let due = tick + self.lines[usize::from(task)].d;
                place::same_place(list, due, inserted)
            }
            (None, None) => Ok(()),
            (_, inserted) => Err(format!("the layer has inserted {inserted:?}")),
        }
    }

    // kernel, plain scheduler and layer name the same job: task, deadline, which activation
    fn same_running(&self, tick: u64, call: Call) -> Result<Option<(u8, u64)>, String> {
        let of_kernel = match self.kernel.running() {
            Some(job) => {
                let due = self.history.due(job.task, job.nth);
                let due = due.ok_or_else(|| "the kernel runs a job never made".to_string())?;
                Some((job.task, due, job.nth))
            }
            None => None,
        };
        let of_plain = self.plain.running();
        let of_plain = of_plain.map(|job| (job.task, job.due, job.nth));
        let of_layer = self.layer.list().first();
        let of_layer = of_layer.map(|job| (job.task, job.due, job.nth));
        if of_kernel != of_plain || of_kernel != of_layer {
            return Err(format!(
                "after {call:?} at tick {tick} the kernel runs {of_kernel:?}, the plain scheduler {of_plain:?}, the layer's first is {of_layer:?}"
            ));
        }
        Ok(of_kernel.map(|(task, due, _)| (task, due)))
    }

    // the plain scheduler's jobs, in order, are the layer's list
    fn same_pending(&self, tick: u64, call: Call) -> Result<(), String> {
        let mut jobs = self.plain.jobs().to_vec();
        jobs.sort_unstable();
        let plain = jobs.iter().map(|job| (job.task, job.due, job.nth));
        let list = self.layer.list().iter();
        if plain.eq(list.map(|job| (job.task, job.due, job.nth))) {
            Ok(())
        } else {
            Err(format!(
                "after {call:?} at tick {tick} other jobs are pending for the plain scheduler than for the layer"
            ))
        }
    }

    /// The reason of each task with a line; any other number is refused.
    pub fn reasons(&self) -> Result<Vec<Reason>, String> {
        let whys = self.whys(0..=u8::MAX)?;
        let (with_line, without) = whys.split_at(self.lines.len());
        let reasons: Vec<Reason> = with_line.iter().filter_map(|why| why.ok()).collect();
        if reasons.len() < with_line.len() || without.iter().any(|why| *why != Err(3)) {
            return Err("3 for a task with a line, or no 3 for one without".to_string());
        }
        Ok(reasons)
    }

    // layer and plain scheduler give the same answer
    fn whys(&self, tasks: impl Iterator<Item = u8>) -> Result<Vec<Why>, String> {
        let runs = self.kernel.running();
        tasks
            .map(|task| {
                let of_layer = why::of_layer(&self.layer, runs, task)?;
                let of_plain = why::of_plain(&self.plain, task);
                if of_layer == of_plain {
                    Ok(of_layer)
                } else {
                    Err(format!(
                        "task {task} is asked: {of_layer:?} for the layer, {of_plain:?} for the plain scheduler"
                    ))
                }
            })
            .collect()
    }

    /// Late jobs and counts that follow from the history are the layer's.
    pub fn same_in_the_end(&mut self) -> Result<(), String> {
        let (late, counts) = self.history.judge();
        if late != self.late {
            return Err("the history has other late jobs than the layer".to_string());
        }
        if counts != self.layer.counts() {
            return Err("the history has other counts than the layer".to_string());
        }
        Ok(())
    }

    pub fn layer(&self) -> &Layer {
        &self.layer
    }
}

// tick, result, running task, its deadline, kernel call, newly late tasks
fn line(tick: u64, answer: &Answer, running: Option<(u8, u64)>) -> String {
    format!(
        "{tick} {} {} {} {} {}\n",
        answer.result,
        or_dash(running.map(|(task, _)| task)),
        or_dash(running.map(|(_, due)| due)),
        kernel_call_text(answer.kernel_call),
        late_text(&answer.late)
    )
}
