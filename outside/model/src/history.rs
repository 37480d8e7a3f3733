//! Document 01, "What a call returns", and document 02, Q-2: late jobs and counts, found afterwards from all jobs of a run.

use crate::layer::Counts;

/// A job of the past; `begun` and `ended` are places among the accepted calls.
struct Past {
    task: u8,
    due: u64,
    begun: usize,
    ended: Option<usize>,
    // the accepted call that first sees it late
    seen_late: Option<usize>,
}

#[derive(Default)]
pub struct History {
    // the ticks of the accepted calls
    ticks: Vec<u64>,
    jobs: Vec<Past>,
    // for each task its jobs
    of_task: Vec<Vec<usize>>,
}

impl History {
    pub fn new(tasks: usize) -> History {
        History {
            of_task: vec![Vec::new(); tasks],
            ..History::default()
        }
    }

    /// An accepted call comes.
    pub fn accepted(&mut self, tick: u64) {
        self.ticks.push(tick);
    }

    /// The last accepted call makes a job of a task.
    pub fn begins(&mut self, task: u8, d: u64) {
        let begun = self.ticks.len() - 1;
        self.of_task[usize::from(task)].push(self.jobs.len());
        self.jobs.push(Past {
            task,
            due: self.ticks[begun] + d,
            begun,
            ended: None,
            seen_late: None,
        });
    }

    /// The last accepted call ends the nth job of a task.
    pub fn ends(&mut self, task: u8, nth: u64) -> Result<(), String> {
        let place = self.of_task[usize::from(task)].get(nth as usize);
        let place = *place.ok_or_else(|| format!("job {nth} of task {task} ends, never made"))?;
        if self.jobs[place].ended.is_some() {
            return Err(format!("job {nth} of task {task} ends twice"));
        }
        self.jobs[place].ended = Some(self.ticks.len() - 1);
        Ok(())
    }

    /// The deadline of the nth job of a task.
    pub fn due(&self, task: u8, nth: u64) -> Option<u64> {
        let place = *self.of_task[usize::from(task)].get(nth as usize)?;
        Some(self.jobs[place].due)
    }

    /// The newly late tasks of each accepted call, and the counts of each task.
    pub fn judge(&mut self) -> (Vec<Vec<u8>>, Vec<Counts>) {
        for job in &mut self.jobs {
            // pending at the start of the calls after its making, its ending one too
            let last = job.ended.unwrap_or(self.ticks.len() - 1);
            // the calls before it are below the deadline
            let first_late = self.ticks.partition_point(|tick| *tick < job.due);
            if first_late <= last {
                debug_assert!(first_late > job.begun);
                job.seen_late = Some(first_late);
            }
        }
        // in list order: by deadline, then by acceptance
        let mut order: Vec<usize> = (0..self.jobs.len()).collect();
        order.sort_by_key(|place| (self.jobs[*place].due, *place));
        let mut late = vec![Vec::new(); self.ticks.len()];
        for place in order {
            let job = &self.jobs[place];
            if let Some(call) = job.seen_late {
                late[call].push(job.task);
            }
        }
        let counts = self.of_task.iter().map(|jobs| self.count(jobs)).collect();
        (late, counts)
    }

    /// The deadline of each job that was judged late, and the tick of the call that first saw it.
    pub fn reports(&self) -> impl Iterator<Item = (u64, u64)> + '_ {
        let jobs = self.jobs.iter();
        jobs.filter_map(move |job| Some((job.due, self.ticks[job.seen_late?])))
    }

    fn count(&self, jobs: &[usize]) -> Counts {
        let jobs: Vec<&Past> = jobs.iter().map(|place| &self.jobs[*place]).collect();
        let responses: Vec<u64> = jobs
            .iter()
            .filter_map(|job| Some(self.ticks[job.ended?] - self.ticks[job.begun]))
            .collect();
        Counts {
            late: jobs.iter().filter(|job| job.seen_late.is_some()).count() as u32,
            ended: responses.len() as u32,
            response: responses.into_iter().max().unwrap_or(0),
        }
    }
}
