//! Document 01, "Ticks and jobs": the kernel model, with a ready queue and no deadlines.

use crate::layer::KernelCall;
use crate::table::Line;
use std::collections::VecDeque;

/// A released job: the task, and which of the task's releases it is, from 0.
#[derive(Clone, Copy, Debug, PartialEq, Eq)]
pub struct Released {
    pub task: u8,
    pub nth: u64,
}

pub struct Kernel {
    priorities: Vec<u8>,
    releases: Vec<u64>,
    // for each priority the jobs in the order of their release
    ready: Vec<VecDeque<Released>>,
}

impl Kernel {
    pub fn new(lines: &[Line]) -> Kernel {
        Kernel {
            priorities: lines.iter().map(|line| line.priority).collect(),
            releases: vec![0; lines.len()],
            ready: vec![VecDeque::new(); 256],
        }
    }

    /// Of the released jobs the highest priority runs; within one priority the job released first.
    pub fn running(&self) -> Option<Released> {
        self.ready
            .iter()
            .rev()
            .find_map(|level| level.front().copied())
    }

    pub fn released(&self) -> usize {
        self.ready.iter().map(VecDeque::len).sum()
    }

    pub fn serve(&mut self, call: KernelCall) -> Result<(), String> {
        match call {
            KernelCall::ActivateTask(task) => self.append(task),
            KernelCall::TerminateTask => self.end(),
            KernelCall::ChainTask(task) => {
                self.end()?;
                self.append(task)
            }
        }
    }

    fn append(&mut self, task: u8) -> Result<(), String> {
        let place = usize::from(task);
        if place >= self.priorities.len() {
            return Err(format!("the kernel has no task {task}"));
        }
        let nth = self.releases[place];
        self.releases[place] += 1;
        let level = usize::from(self.priorities[place]);
        self.ready[level].push_back(Released { task, nth });
        Ok(())
    }

    // the running job is the front of the highest level that has one
    fn end(&mut self) -> Result<(), String> {
        match self.ready.iter_mut().rev().find(|level| !level.is_empty()) {
            Some(level) => {
                level.pop_front();
                Ok(())
            }
            None => Err("the kernel was to end a job while idle".to_string()),
        }
    }
}
