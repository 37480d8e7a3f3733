//! Document 01, "Ticks and jobs" and "What a call returns", and document 02, Q-2 and Q-3: the scheduler layer.

use crate::table::{Line, MOST};

/// The greatest tick: 2 to the 62nd, less 1.
pub const GREATEST: u64 = 4_611_686_018_427_387_903;

#[derive(Clone, Copy, Debug, PartialEq, Eq)]
pub enum Call {
    Tick,
    Activate(u8),
    Terminate,
    Chain(u8),
}

#[derive(Clone, Copy, Debug, PartialEq, Eq)]
pub enum KernelCall {
    ActivateTask(u8),
    ChainTask(u8),
    TerminateTask,
}

/// A pending job; `nth` says which activation of its task it is, from 0.
#[derive(Clone, Copy, Debug)]
pub struct Job {
    pub task: u8,
    pub nth: u64,
    pub due: u64,
    activated: u64,
    released: bool,
    reported: bool,
}

/// Per task: late jobs, ended jobs, and the greatest response.
#[derive(Clone, Copy, Debug, Default, PartialEq, Eq)]
pub struct Counts {
    pub late: u32,
    pub ended: u32,
    pub response: u64,
}

/// How a new job went into the list: its place, and how many places were read to find it.
#[derive(Clone, Copy, Debug, PartialEq, Eq)]
pub struct Inserted {
    pub place: usize,
    pub looked: usize,
}

/// What a call returns, and how its new job went in; the running job is the kernel's to name.
#[derive(Clone, Debug, PartialEq, Eq)]
pub struct Answer {
    pub result: u8,
    pub kernel_call: Option<KernelCall>,
    pub late: Vec<u8>,
    pub inserted: Option<Inserted>,
}

pub struct Layer {
    lines: Vec<Line>,
    list: Vec<Job>,
    tick: u64,
    accepted: Vec<u64>,
    counts: Vec<Counts>,
}

impl Layer {
    /// A fresh state: no job; tick, counts and greatest responses 0.
    pub fn fresh(lines: &[Line]) -> Layer {
        Layer {
            lines: lines.to_vec(),
            list: Vec::new(),
            tick: 0,
            accepted: vec![0; lines.len()],
            counts: vec![Counts::default(); lines.len()],
        }
    }

    pub fn lines(&self) -> &[Line] {
        &self.lines
    }

    /// The pending jobs, ordered by absolute deadline.
    pub fn list(&self) -> &[Job] {
        &self.list
    }

    pub fn counts(&self) -> &[Counts] {
        &self.counts
    }

    pub fn call(&mut self, tick: u64, call: Call) -> Answer {
        let result = self.refusal(tick, call);
        if result != 0 {
            return Answer {
                result,
                kernel_call: None,
                late: Vec::new(),
                inserted: None,
            };
        }
        let late = self.report(tick);
        self.tick = tick;
        let (inserted, kernel_call) = match call {
            Call::Tick => (None, None),
            Call::Activate(task) => {
                let inserted = self.insert(task);
                (Some(inserted), self.release_if_first(inserted))
            }
            Call::Terminate => {
                self.end_first();
                (None, Some(self.release_next()))
            }
            Call::Chain(task) => {
                self.end_first();
                let inserted = self.insert(task);
                (Some(inserted), Some(self.release_next()))
            }
        };
        Answer {
            result,
            kernel_call,
            late,
            inserted,
        }
    }

    // the rows are the order of checks
    fn refusal(&self, tick: u64, call: Call) -> u8 {
        if tick < self.tick || tick > GREATEST {
            return 8;
        }
        let ends = matches!(call, Call::Terminate | Call::Chain(_));
        if ends && self.list.is_empty() {
            return 2;
        }
        let task = match call {
            Call::Tick | Call::Terminate => return 0,
            Call::Activate(task) | Call::Chain(task) => task,
        };
        let line = match self.lines.get(usize::from(task)) {
            Some(line) => line,
            None => return 3,
        };
        // for chain the ending job isn't counted
        let counted = if ends { &self.list[1..] } else { &self.list };
        let pending = counted.iter().filter(|job| job.task == task).count();
        if pending >= usize::from(line.limit) {
            return 4;
        }
        if !ends && self.list.len() >= MOST {
            return 10;
        }
        if tick + line.d > GREATEST {
            return 9;
        }
        0
    }

    // late: pending at the start of a call whose tick is at or above the deadline; reported once
    fn report(&mut self, tick: u64) -> Vec<u8> {
        let mut late = Vec::new();
        for job in &mut self.list {
            if tick >= job.due && !job.reported {
                job.reported = true;
                late.push(job.task);
                let counts = &mut self.counts[usize::from(job.task)];
                counts.late = counts.late.saturating_add(1);
            }
        }
        late
    }

    // from the back: a new job is put at the end and walks in past each job that it is due before,
    // so it goes behind all jobs with the same deadline
    fn insert(&mut self, task: u8) -> Inserted {
        let nth = self.accepted[usize::from(task)];
        self.accepted[usize::from(task)] += 1;
        let due = self.tick + self.lines[usize::from(task)].d;
        let mut place = self.list.len();
        self.list.push(Job {
            task,
            nth,
            due,
            activated: self.tick,
            released: false,
            reported: false,
        });
        let mut looked = 0;
        while place > 0 {
            looked += 1;
            if self.list[place - 1].due <= due {
                break;
            }
            self.list.swap(place - 1, place);
            place -= 1;
        }
        Inserted { place, looked }
    }

    // if the new job is first, release it by ActivateTask; otherwise no kernel call
    fn release_if_first(&mut self, inserted: Inserted) -> Option<KernelCall> {
        if inserted.place > 0 {
            return None;
        }
        let job = self.list.first_mut()?;
        job.released = true;
        Some(KernelCall::ActivateTask(job.task))
    }

    // the running job leaves the list
    fn end_first(&mut self) {
        let job = self.list.remove(0);
        let counts = &mut self.counts[usize::from(job.task)];
        counts.ended = counts.ended.saturating_add(1);
        counts.response = counts.response.max(self.tick - job.activated);
    }

    // if the new first job is delayed, release it by ChainTask; otherwise TerminateTask
    fn release_next(&mut self) -> KernelCall {
        match self.list.first_mut() {
            Some(job) if !job.released => {
                job.released = true;
                KernelCall::ChainTask(job.task)
            }
            _ => KernelCall::TerminateTask,
        }
    }
}
