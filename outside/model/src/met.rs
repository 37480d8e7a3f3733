//! What a run met of document 01's cases; no section of its own.

use crate::kernel::Kernel;
use crate::layer::{Answer, Call, KernelCall, Layer, GREATEST};
use crate::tape::kind;
use crate::why::Reason;
use std::fmt;

#[derive(Clone, Debug, Default)]
pub struct Met {
    /// by kind
    pub calls: [u64; 4],
    /// by result number
    pub results: [u64; 11],
    /// by number, 20 to 26
    pub tape_refusals: [u64; 27],
    /// by number, 1 to 5
    pub table_refusals: [u64; 6],
    /// A, C, T, none
    pub kernel_calls: [u64; 4],
    /// where new jobs went: alone, last, first, between
    pub insertions: [u64; 4],
    /// the most places that one insertion read
    pub most_looked: u64,
    pub late: u64,
    /// late jobs by the tick of their report: the deadline, a later one
    pub reports: [u64; 2],
    /// late jobs that are due at the greatest tick
    pub late_at_greatest: u64,
    pub most_late: u64,
    pub deepest: u64,
    pub fullest: u64,
    /// calls with another, and with two other pending jobs due with the running one
    pub same_due: [u64; 2],
    /// at the tapes' ends: none pending, running, earlier, there first
    pub reasons: [u64; 4],
    /// tapes that were written again as they were
    pub written: u64,
    pub lines: u64,
    pub bytes: u64,
}

impl Met {
    /// After a call.
    pub fn call(&mut self, call: Call, answer: &Answer, layer: &Layer, kernel: &Kernel) {
        self.calls[kind(call).0 as usize] += 1;
        self.results[usize::from(answer.result)] += 1;
        self.kernel_calls[match answer.kernel_call {
            Some(KernelCall::ActivateTask(_)) => 0,
            Some(KernelCall::ChainTask(_)) => 1,
            Some(KernelCall::TerminateTask) => 2,
            None => 3,
        }] += 1;
        if let Some(inserted) = answer.inserted {
            self.insertions[match (inserted.place, layer.list().len()) {
                (0, 1) => 0,
                (place, length) if place + 1 == length => 1,
                (0, _) => 2,
                _ => 3,
            }] += 1;
            self.most_looked = self.most_looked.max(inserted.looked as u64);
        }
        self.late += answer.late.len() as u64;
        self.most_late = self.most_late.max(answer.late.len() as u64);
        self.deepest = self.deepest.max(kernel.released() as u64);
        self.fullest = self.fullest.max(layer.list().len() as u64);
        if let Some(first) = layer.list().first() {
            let due = layer.list().iter().filter(|job| job.due == first.due);
            let others = due.count() - 1;
            self.same_due[0] += u64::from(others >= 1);
            self.same_due[1] += u64::from(others >= 2);
        }
    }

    /// The report of a late job.
    pub fn report(&mut self, due: u64, tick: u64) {
        self.reports[usize::from(tick > due)] += 1;
        self.late_at_greatest += u64::from(due == GREATEST);
    }

    /// Why a task waits at a tape's end.
    pub fn reason(&mut self, reason: Reason) {
        self.reasons[match reason {
            Reason::NonePending => 0,
            Reason::Runs => 1,
            Reason::Earlier(_) => 2,
            Reason::ThereFirst(_) => 3,
        }] += 1;
    }

    /// What a program prints in all.
    pub fn printed(&mut self, out: &[u8]) {
        self.lines += out.iter().filter(|byte| **byte == b'\n').count() as u64;
        self.bytes += out.len() as u64;
    }

    pub fn add(&mut self, other: &Met) {
        add_each(&mut self.calls, &other.calls);
        add_each(&mut self.results, &other.results);
        add_each(&mut self.tape_refusals, &other.tape_refusals);
        add_each(&mut self.table_refusals, &other.table_refusals);
        add_each(&mut self.kernel_calls, &other.kernel_calls);
        add_each(&mut self.insertions, &other.insertions);
        add_each(&mut self.reports, &other.reports);
        add_each(&mut self.same_due, &other.same_due);
        add_each(&mut self.reasons, &other.reasons);
        self.late += other.late;
        self.late_at_greatest += other.late_at_greatest;
        self.most_late = self.most_late.max(other.most_late);
        self.most_looked = self.most_looked.max(other.most_looked);
        self.deepest = self.deepest.max(other.deepest);
        self.fullest = self.fullest.max(other.fullest);
        self.written += other.written;
        self.lines += other.lines;
        self.bytes += other.bytes;
    }
}

fn add_each(sums: &mut [u64], others: &[u64]) {
    for (sum, other) in sums.iter_mut().zip(others) {
        *sum += other;
    }
}

// a row of numbers with what stands behind each
fn row(f: &mut fmt::Formatter, title: &str, shown: &[(&str, u64)]) -> fmt::Result {
    write!(f, "{title:<16}")?;
    for (name, count) in shown {
        write!(f, "  {name}: {count}")?;
    }
    writeln!(f)
}

fn numbered(f: &mut fmt::Formatter, title: &str, numbers: &[usize], of: &[u64]) -> fmt::Result {
    let names: Vec<String> = numbers.iter().map(usize::to_string).collect();
    let shown: Vec<(&str, u64)> = names
        .iter()
        .zip(numbers)
        .map(|(name, number)| (name.as_str(), of[*number]))
        .collect();
    row(f, title, &shown)
}

impl fmt::Display for Met {
    fn fmt(&self, f: &mut fmt::Formatter) -> fmt::Result {
        let [tick, activate, terminate, chain] = self.calls;
        let calls = [
            ("tick", tick),
            ("activate", activate),
            ("terminate", terminate),
            ("chain", chain),
        ];
        row(f, "calls", &calls)?;
        numbered(f, "results", &[0, 2, 3, 4, 8, 9, 10], &self.results)?;
        let numbers = [20, 21, 22, 23, 26];
        numbered(f, "tape refusals", &numbers, &self.tape_refusals)?;
        numbered(f, "table refusals", &[1, 2, 3, 4, 5], &self.table_refusals)?;
        let [a, c, t, none] = self.kernel_calls;
        let kernel_calls = [("A", a), ("C", c), ("T", t), ("none", none)];
        row(f, "kernel calls", &kernel_calls)?;
        let [alone, last, first, between] = self.insertions;
        let insertions = [
            ("alone", alone),
            ("last", last),
            ("first", first),
            ("between", between),
            ("most places read by one", self.most_looked),
        ];
        row(f, "insertions", &insertions)?;
        let [on_deadline, later] = self.reports;
        let late = [
            ("reported", self.late),
            ("on the deadline tick", on_deadline),
            ("later", later),
            ("due at the greatest tick", self.late_at_greatest),
            ("most in one call", self.most_late),
        ];
        row(f, "late jobs", &late)?;
        let most = [("deepest nest", self.deepest), ("list", self.fullest)];
        row(f, "most jobs", &most)?;
        let [one, two] = self.same_due;
        let due = [("with one more", one), ("with two more", two)];
        row(f, "calls, same due", &due)?;
        let [none, runs, earlier, first] = self.reasons;
        let reasons = [
            ("none pending", none),
            ("running", runs),
            ("earlier", earlier),
            ("there first", first),
        ];
        row(f, "reasons", &reasons)?;
        row(f, "written again", &[("tapes", self.written)])?;
        row(
            f,
            "printed",
            &[("lines", self.lines), ("bytes compared", self.bytes)],
        )
    }
}
