//! Document 01, "Ticks and jobs": the plain scheduler of demand 3.

use crate::layer::{Call, GREATEST};
use crate::table::{Line, MOST};

/// A job; `serial` numbers all accepted activations, `nth` those of its task.
#[derive(Clone, Copy, Debug, PartialEq, Eq, PartialOrd, Ord)]
pub struct Job {
    pub due: u64,
    pub serial: u64,
    pub task: u8,
    pub nth: u64,
}

#[derive(Clone)]
pub struct Plain {
    // relative deadline and limit of each task
    tasks: Vec<(u64, usize)>,
    begun: Vec<u64>,
    now: u64,
    // in no order
    jobs: Vec<Job>,
}

impl Plain {
    pub fn new(lines: &[Line]) -> Plain {
        let tasks = lines
            .iter()
            .map(|line| (line.d, usize::from(line.limit)))
            .collect();
        Plain {
            tasks,
            begun: vec![0; lines.len()],
            now: 0,
            jobs: Vec::new(),
        }
    }

    /// So many tasks have a line.
    pub fn tasks(&self) -> usize {
        self.tasks.len()
    }

    pub fn now(&self) -> u64 {
        self.now
    }

    pub fn jobs(&self) -> &[Job] {
        &self.jobs
    }

    /// The earliest absolute deadline, first accepted on equal ones.
    pub fn running(&self) -> Option<Job> {
        self.jobs
            .iter()
            .copied()
            .min_by_key(|job| (job.due, job.serial))
    }

    /// The result number of a call; a refused one changes nothing.
    pub fn call(&mut self, tick: u64, call: Call) -> u8 {
        let mut next = self.clone();
        match next.step(tick, call) {
            Ok(()) => {
                *self = next;
                0
            }
            Err(number) => number,
        }
    }

    fn step(&mut self, tick: u64, call: Call) -> Result<(), u8> {
        if !(self.now..=GREATEST).contains(&tick) {
            return Err(8);
        }
        self.now = tick;
        match call {
            Call::Tick => Ok(()),
            Call::Terminate => self.end(),
            Call::Activate(task) => self.begin(task),
            Call::Chain(task) => {
                self.end()?;
                self.begin(task)
            }
        }
    }

    fn end(&mut self) -> Result<(), u8> {
        let ending = self.running().ok_or(2)?;
        self.jobs.retain(|job| job.serial != ending.serial);
        Ok(())
    }

    fn begin(&mut self, task: u8) -> Result<(), u8> {
        let place = usize::from(task);
        let (d, limit) = *self.tasks.get(place).ok_or(3)?;
        if self.jobs.iter().filter(|job| job.task == task).count() == limit {
            return Err(4);
        }
        // never after an ending: there is room then
        if self.jobs.len() == MOST {
            return Err(10);
        }
        let due = self.now + d;
        if due > GREATEST {
            return Err(9);
        }
        self.jobs.push(Job {
            due,
            serial: self.begun.iter().sum(),
            task,
            nth: self.begun[place],
        });
        self.begun[place] += 1;
        Ok(())
    }
}
