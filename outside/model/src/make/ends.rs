//! Tapes that end with jobs pending, for the reasons of document 02's Q-1.

use super::records::Drawn;
use super::tables::{lengths, limits, raise_limits, with_priorities};
use crate::layer::Call;
use crate::random::Random;
use crate::table::{Line, MOST};

pub fn ends(random: &mut Random) -> Vec<u8> {
    let mut tape = Drawn::start(lines(random));
    before(&mut tape, random);
    for _ in 0..random.pick(&[0, 1, 1, 1, 1, 2, 2, 2]) {
        match random.by_weight(&[2, 5, 2]) {
            0 => tape.burst(random),
            1 => same_due(&mut tape, random),
            _ => pile(&mut tape, random),
        }
        let ended = random.pick(&[0, 0, 0, 1, 2, 5]);
        end_down_to(1, ended, &mut tape);
    }
    if random.one_in(3) {
        around_a_deadline(&mut tape, random);
    }
    match random.below(8) {
        0 => refused_call(&mut tape, random),
        1 => bad_record(&mut tape, random),
        _ => (),
    }
    tape.bytes
}

// few lines, 32 or one
fn lines(random: &mut Random) -> Vec<Line> {
    let few = random.from_to(2, 8) as usize;
    let any = random.from_to(2, 31) as usize;
    let count = random.pick(&[few, few, few, any, any, MOST, MOST, 1]);
    let equal = random.one_in(2);
    let mut lines = with_priorities(&lengths(count, random), equal, random);
    limits(&mut lines, random);
    if random.one_in(2) {
        raise_limits(&mut lines, random);
    }
    lines
}

// what goes before leaves jobs or none, or there is nothing
fn before(tape: &mut Drawn, random: &mut Random) {
    if random.one_in(2) {
        return;
    }
    let records = random.below(30);
    tape.some(records, random);
    if random.below(3) > 0 {
        end_down_to(0, MOST, tape);
    }
}

// ends so many jobs, as long as more than some are pending
fn end_down_to(left: usize, ended: usize, tape: &mut Drawn) {
    for _ in 0..ended {
        if tape.plain.jobs().len() > left {
            tape.put(0, Call::Terminate);
        }
    }
}

// jobs of most tasks, all due at one tick
fn same_due(tape: &mut Drawn, random: &mut Random) {
    let mut tasks: Vec<usize> = (0..tape.lines.len()).collect();
    let first = random.place(tasks.len());
    tasks.rotate_left(first);
    // the longest D goes first; of equal ones any
    tasks.sort_by_key(|task| u64::MAX - tape.lines[*task].d);
    tasks.retain(|_| !random.one_in(6));
    let longest = tasks.first().map_or(0, |task| tape.lines[*task].d);
    let due = tape.tick + longest;
    for task in tasks {
        for _ in 0..random.pick(&[1, 1, 2]) {
            let ticks = due - tape.lines[task].d - tape.tick;
            tape.put(ticks, Call::Activate(task as u8));
        }
    }
}

// several jobs of a few tasks, some ticks apart
fn pile(tape: &mut Drawn, random: &mut Random) {
    let some: Vec<u8> = (0..random.from_to(1, 4))
        .map(|_| random.place(tape.lines.len()) as u8)
        .collect();
    let apart = random.from_to(0, 3);
    for _ in 0..random.from_to(2, 10) {
        let ticks = random.from_to(0, apart);
        tape.put(ticks, Call::Activate(random.pick(&some)));
    }
}

fn around_a_deadline(tape: &mut Drawn, random: &mut Random) {
    let jobs = tape.plain.jobs();
    if jobs.is_empty() {
        return;
    }
    let due = jobs[random.place(jobs.len())].due;
    let ticks = tape.around(due, random);
    tape.put(ticks, Call::Tick);
}

// mostly by 4 or by 3
fn refused_call(tape: &mut Drawn, random: &mut Random) {
    let full: Vec<usize> = (0..tape.lines.len())
        .filter(|task| !tape.has_room(*task))
        .collect();
    let ticks = random.below(3);
    let call = if full.is_empty() || random.one_in(2) {
        let task = tape.task(1, random);
        random.pick(&[Call::Activate(task), Call::Chain(task)])
    } else {
        Call::Activate(random.pick(&full) as u8)
    };
    tape.put(ticks, call);
}

// 21 to 23, with records behind it that are never called; or 20
fn bad_record(tape: &mut Drawn, random: &mut Random) {
    if random.one_in(4) {
        let cut: [&[u8]; 2] = [&[1], &[2, 0x80]];
        tape.bytes.extend(random.pick(&cut));
        return;
    }
    let bad: [&[u8]; 4] = [&[0x80, 0], &[4], &[1, 0, 0x80, 2], &[0xFF; 9]];
    tape.bytes.extend(random.pick(&bad));
    for _ in 0..random.below(3) {
        tape.bytes.extend([2, 0]);
    }
}
