//! Records behind a table that the check of document 01 accepts, drawn at random.

use super::tables::{limits, mixed_table, raise_limits, with_priorities};
use crate::edges::record;
use crate::layer::{Call, GREATEST};
use crate::plain::Plain;
use crate::program::MOST_BYTES;
use crate::random::Random;
use crate::table::Line;
use crate::tape::table_bytes;

// a tape in the making; the plain scheduler tells what is pending
pub struct Drawn {
    pub lines: Vec<Line>,
    pub plain: Plain,
    pub tick: u64,
    pub bytes: Vec<u8>,
}

// how a tape's calls are spread
struct Habit {
    kinds: [u64; 4],
    // of 16 records so many come at the same tick
    still: u64,
    // one record in so many has a task number without a line, or is aimed
    strange: u64,
    aimed: u64,
}

impl Habit {
    fn any(random: &mut Random) -> Habit {
        let kinds = random.pick(&[
            [1, 8, 4, 2],
            [1, 10, 2, 1],
            [2, 6, 6, 2],
            [1, 6, 2, 6],
            [4, 5, 4, 3],
            [1, 20, 1, 1],
        ]);
        Habit {
            kinds,
            still: random.pick(&[2, 6, 10, 13, 15]),
            strange: random.pick(&[12, 30, 200]),
            aimed: random.pick(&[1, 2, 4, 50]),
        }
    }
}

impl Drawn {
    pub fn start(lines: Vec<Line>) -> Drawn {
        Drawn {
            bytes: table_bytes(&lines),
            plain: Plain::new(&lines),
            lines,
            tick: 0,
        }
    }

    pub fn put(&mut self, ticks: u64, call: Call) {
        record(ticks, call, &mut self.bytes);
        self.tick = self.tick.saturating_add(ticks);
        self.plain.call(self.tick, call);
    }

    // none, few, of the order of D, or to a pending deadline and around it
    fn ticks(&self, still: u64, random: &mut Random) -> u64 {
        if random.below(16) < still {
            return 0;
        }
        let jobs = self.plain.jobs();
        let ticks = match random.below(10) {
            0..=2 => 1,
            3 => random.from_to(1, 3),
            4 | 5 => {
                let place = random.place(self.lines.len());
                random.from_to(0, self.lines[place].d)
            }
            6 | 7 if !jobs.is_empty() => {
                let due = self.plain.running().map_or(0, |job| job.due);
                self.around(due, random)
            }
            8 if !jobs.is_empty() => {
                let due = jobs[random.place(jobs.len())].due;
                self.around(due, random)
            }
            9 => random.from_to(0, 40),
            _ => 0,
        };
        // far from the greatest tick, where a tape would end
        if self.tick + ticks > GREATEST / 2 && self.tick < GREATEST / 2 {
            0
        } else {
            ticks.min(GREATEST.saturating_sub(self.tick))
        }
    }

    // to a deadline less one, the deadline, or the deadline plus one; none where that is gone by
    pub fn around(&self, due: u64, random: &mut Random) -> u64 {
        (due + random.below(3)).saturating_sub(self.tick + 1)
    }

    pub fn task(&self, strange: u64, random: &mut Random) -> u8 {
        let count = self.lines.len() as u64;
        if random.one_in(strange) {
            return random.pick(&[count, count + 1, 31, 32, 127, 128, 255]) as u8;
        }
        random.below(count) as u8
    }

    // a job due with a pending one, or before the running one; false where there is none
    fn aimed(&mut self, random: &mut Random) -> bool {
        let jobs = self.plain.jobs();
        let first = match self.plain.running() {
            Some(job) => job.due,
            None => return false,
        };
        let (due, tasks) = if random.one_in(2) {
            let due = jobs[random.place(jobs.len())].due;
            (due, self.tasks_up_to(due))
        } else {
            let mut tasks = self.tasks_up_to(first - 1);
            // the longest of them leaves room for more
            tasks.sort_by_key(|task| self.lines[*task].d);
            if random.below(4) > 0 {
                tasks = tasks.split_off(tasks.len().saturating_sub(1));
            }
            (0, tasks)
        };
        if tasks.is_empty() {
            return false;
        }
        let task = random.pick(&tasks);
        let ticks = due.saturating_sub(self.tick + self.lines[task].d);
        let call = if random.one_in(5) {
            Call::Chain(task as u8)
        } else {
            Call::Activate(task as u8)
        };
        self.put(ticks, call);
        true
    }

    // the tasks with room whose job, made now, is due by a tick
    fn tasks_up_to(&self, due: u64) -> Vec<usize> {
        (0..self.lines.len())
            .filter(|task| self.tick + self.lines[*task].d <= due && self.has_room(*task))
            .collect()
    }

    pub fn has_room(&self, task: usize) -> bool {
        let jobs = self.plain.jobs().iter();
        let pending = jobs.filter(|job| usize::from(job.task) == task).count();
        pending < usize::from(self.lines[task].limit)
    }

    fn limits(&self) -> usize {
        self.lines.iter().map(|line| usize::from(line.limit)).sum()
    }

    /// Activates until all limits are reached.
    pub fn burst(&mut self, random: &mut Random) {
        let still = random.pick(&[8, 14, 15, 16]);
        let count = self.lines.len();
        let first = random.place(count);
        let in_turn = random.one_in(2);
        let mut turn = 0;
        while self.plain.jobs().len() < self.limits() {
            let ticks = self.ticks(still, random);
            let mut task = if in_turn { turn } else { random.place(count) };
            turn = (turn + 1) % count;
            // most go where there is room, from some line on
            if !random.one_in(8) {
                let from = if in_turn { task } else { first };
                let mut all = (from..count).chain(0..from);
                task = all.find(|task| self.has_room(*task)).unwrap_or(task);
            }
            self.put(ticks, Call::Activate(task as u8));
        }
    }

    // the running job's task again and again, due around a pending job; some jobs end between
    fn chains(&mut self, random: &mut Random) {
        let ended = random.pick(&[2, 4, 100]);
        for _ in 0..random.from_to(1, 16) {
            if random.one_in(ended) {
                self.put(0, Call::Terminate);
            }
            let jobs = self.plain.jobs();
            let task = match self.plain.running() {
                Some(job) => job.task,
                None => return,
            };
            let due = jobs[random.place(jobs.len())].due;
            let made = due.saturating_sub(self.lines[usize::from(task)].d);
            let ticks = self.around(made, random);
            self.put(ticks, Call::Chain(task));
        }
    }

    fn any(&mut self, habit: &Habit, random: &mut Random) {
        if random.one_in(habit.aimed) && self.aimed(random) {
            return;
        }
        let ticks = self.ticks(habit.still, random);
        let call = match random.by_weight(&habit.kinds) {
            0 => Call::Tick,
            1 => Call::Activate(self.task(habit.strange, random)),
            2 => Call::Terminate,
            _ => Call::Chain(self.task(habit.strange, random)),
        };
        self.put(ticks, call);
    }

    pub fn some(&mut self, records: u64, random: &mut Random) {
        let habit = Habit::any(random);
        for _ in 0..records {
            self.any(&habit, random);
        }
    }
}

pub fn mixed(lines: Vec<Line>, random: &mut Random) -> Vec<u8> {
    let mut tape = Drawn::start(lines);
    for _ in 0..random.from_to(0, 4) {
        let records = random.from_to(1, 50);
        tape.some(records, random);
    }
    tape.bytes
}

// burst until all limits are reached, and past that, some with chains into the long list; then drain,
// and past that; some end before all is drained
pub fn fill(mut lines: Vec<Line>, random: &mut Random) -> Vec<u8> {
    // the sum of limits is 32 mostly
    if !random.one_in(4) {
        raise_limits(&mut lines, random);
    }
    let mut tape = Drawn::start(lines);
    let rounds = random.from_to(1, 3);
    for round in 1..=rounds {
        tape.burst(random);
        if random.one_in(2) {
            tape.chains(random);
        }
        for _ in 0..random.below(5) {
            let task = tape.task(9, random);
            let ticks = tape.ticks(14, random);
            let call = random.pick(&[Call::Activate(task), Call::Chain(task), Call::Tick]);
            tape.put(ticks, call);
        }
        let still = random.pick(&[2, 8, 14, 16]);
        let leave = if round == rounds {
            let some = random.place(tape.limits());
            random.pick(&[0, 0, some, tape.limits()])
        } else {
            0
        };
        while tape.plain.jobs().len() > leave {
            let ticks = tape.ticks(still, random);
            tape.put(ticks, Call::Terminate);
        }
        for _ in 0..random.below(3) {
            let task = tape.task(9, random);
            tape.put(0, random.pick(&[Call::Terminate, Call::Chain(task)]));
        }
    }
    tape.bytes
}

// many released at once: activations with ever shorter D
pub fn nest(random: &mut Random) -> Vec<u8> {
    let any = random.from_to(2, 32);
    let count = random.pick(&[any, any, any, 32]) as usize;
    let step = random.from_to(1, 9);
    let mut ds: Vec<u64> = (0..count)
        .map(|place| 1 + step * place as u64 + random.below(step))
        .collect();
    if random.one_in(2) {
        ds.reverse();
    } else if random.one_in(2) {
        for place in (1..count).rev() {
            ds.swap(place, random.place(place + 1));
        }
    }
    let mut lines = with_priorities(&ds, false, random);
    limits(&mut lines, random);
    let mut order: Vec<usize> = (0..count).collect();
    order.sort_by_key(|place| u64::MAX - ds[*place]);
    let mut tape = Drawn::start(lines);
    let start = random.below(300);
    tape.put(start, Call::Tick);
    for round in 0..random.from_to(1, 3) {
        let other = random.pick(&[3, 10, 100]);
        for task in &order {
            let ticks = random.below(step.min(3));
            tape.put(ticks, Call::Activate(*task as u8));
            if random.one_in(other) {
                let ticks = random.below(2);
                let task = tape.task(30, random);
                let calls = [Call::Activate(task), Call::Chain(task), Call::Terminate];
                tape.put(ticks, random.pick(&calls));
            }
        }
        let still = random.pick(&[3, 10, 15]);
        let leave = if round == 0 { 0 } else { random.place(4) };
        while tape.plain.jobs().len() > leave {
            let ticks = tape.ticks(still, random);
            let task = tape.task(30, random);
            let call = if random.one_in(6) {
                Call::Chain(task)
            } else {
                Call::Terminate
            };
            tape.put(ticks, call);
        }
    }
    let records = random.below(30);
    tape.some(records, random);
    tape.bytes
}

// ticks near the greatest; some tapes end with a sum above it
pub fn far(random: &mut Random) -> Vec<u8> {
    let lines = mixed_table(random);
    let mut tape = Drawn::start(lines);
    let records = random.below(6);
    tape.some(records, random);
    let place = random.place(tape.lines.len());
    let d = tape.lines[place].d;
    let before = match random.below(4) {
        0 => random.below(4),
        1 => d + random.below(3) - 1,
        2 => random.below(2 * d),
        _ => random.below(100),
    };
    let to = GREATEST - before;
    let call = random.pick(&[Call::Tick, Call::Activate(place as u8), Call::Terminate]);
    tape.put(to - tape.tick, call);
    for _ in 0..random.below(60) {
        let habit = Habit::any(random);
        tape.any(&habit, random);
    }
    if random.one_in(3) {
        let left = GREATEST - tape.tick;
        let ticks = left + random.pick(&[0, 1, 1, 2, GREATEST]);
        let task = tape.task(5, random);
        let calls = [
            Call::Tick,
            Call::Activate(task),
            Call::Terminate,
            Call::Chain(task),
        ];
        record(ticks, random.pick(&calls), &mut tape.bytes);
        if random.one_in(2) {
            tape.bytes.pop();
        }
        let records = random.below(3);
        tape.some(records, random);
    }
    tape.bytes
}

// near 65,536 bytes
pub fn long(random: &mut Random) -> Vec<u8> {
    let mut tape = Drawn::start(mixed_table(random));
    let length = MOST_BYTES - random.below(40) as usize;
    while tape.bytes.len() + 700 < length {
        let records = random.from_to(1, 50);
        tape.some(records, random);
    }
    while tape.bytes.len() + 12 <= length {
        tape.some(1, random);
    }
    tape.bytes
}
