//! Document 02, Q-1: why a task's first pending job in list order does or doesn't run.

use crate::kernel::Released;
use crate::layer::{Job, Layer};
use crate::plain::Plain;

/// The job that runs.
#[derive(Clone, Copy, Debug, PartialEq, Eq)]
pub struct Running {
    pub task: u8,
    pub due: u64,
}

#[derive(Clone, Copy, Debug, PartialEq, Eq)]
pub enum Reason {
    NonePending,
    Runs,
    Earlier(Running),
    ThereFirst(Running),
}

/// The reason, or 3 for a task without a line.
pub type Why = Result<Reason, u8>;

/// From the layer's list and the job that the kernel runs; an error where no reason fits.
pub fn of_layer(layer: &Layer, runs: Option<Released>, task: u8) -> Result<Why, String> {
    if usize::from(task) >= layer.lines().len() {
        return Ok(Err(3));
    }
    let list = layer.list();
    let asked = match list.iter().position(|job| job.task == task) {
        Some(place) => place,
        None => return Ok(Ok(Reason::NonePending)),
    };
    let running = runs.and_then(|runs| {
        let mut jobs = list.iter();
        jobs.position(|job| (job.task, job.nth) == (runs.task, runs.nth))
    });
    running
        .and_then(|running| reason(list, asked, running))
        .map(Ok)
        .ok_or_else(|| format!("no reason fits task {task} while the kernel runs {runs:?}"))
}

// two places of the list
fn reason(list: &[Job], asked: usize, running: usize) -> Option<Reason> {
    let Job { task, due, .. } = list[running];
    let job = Running { task, due };
    if running == asked {
        Some(Reason::Runs)
    } else if due < list[asked].due {
        Some(Reason::Earlier(job))
    } else if due == list[asked].due && running < asked {
        Some(Reason::ThereFirst(job))
    } else {
        None
    }
}

/// From the plain scheduler's pending jobs alone, by their order of acceptance.
pub fn of_plain(plain: &Plain, task: u8) -> Why {
    if usize::from(task) >= plain.tasks() {
        return Err(3);
    }
    let jobs = plain.jobs().iter();
    let of_task = jobs.clone().filter(|job| job.task == task);
    // time never falls, so of one task the first accepted is first in list order
    let asked = match of_task.min_by_key(|job| job.serial) {
        Some(job) => *job,
        None => return Ok(Reason::NonePending),
    };
    let earlier = jobs.clone().filter(|job| job.due < asked.due);
    if let Some(job) = earlier.min_by_key(|job| (job.due, job.serial)) {
        let (task, due) = (job.task, job.due);
        return Ok(Reason::Earlier(Running { task, due }));
    }
    let before = jobs.filter(|job| job.due == asked.due && job.serial < asked.serial);
    match before.min_by_key(|job| job.serial) {
        Some(job) => {
            let (task, due) = (job.task, job.due);
            Ok(Reason::ThereFirst(Running { task, due }))
        }
        None => Ok(Reason::Runs),
    }
}
