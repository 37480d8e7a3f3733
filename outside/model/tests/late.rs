//! Document 02, Q-2: late at or above the deadline, at its borders, and reported once.

use model::history::History;
use model::layer::{Call, Counts, Layer, GREATEST};
use model::table::Line;
use Call::{Activate, Chain, Terminate, Tick};

const NONE: &[u8] = &[];

fn line(d: u64, priority: u8, limit: u8) -> Line {
    Line { d, priority, limit }
}

// table P and a line of D = 1
fn fresh() -> Layer {
    let one = line(1, 13, 1);
    Layer::fresh(&[line(3, 12, 2), line(5, 11, 2), line(5, 10, 2), one])
}

// each call with its result and its newly late tasks
fn after(calls: &[(u64, Call, u8, &[u8])]) -> Layer {
    let mut layer = fresh();
    for (tick, call, result, late) in calls {
        let answer = layer.call(*tick, *call);
        assert_eq!(answer.result, *result, "{call:?} at {tick}");
        assert_eq!(answer.late, *late, "{call:?} at {tick}");
    }
    layer
}

#[test]
fn around_the_deadlines_of_the_running_job_and_of_another() {
    // task 0 runs, due 3; task 1 is due 5
    let ticks: [(u64, &[u8]); 5] = [(2, &[]), (3, &[0]), (4, &[0]), (5, &[0, 1]), (6, &[0, 1])];
    for (tick, late) in ticks {
        for call in [Tick, Activate(2), Terminate, Chain(2)] {
            let layer = after(&[
                (0, Activate(1), 0, NONE),
                (0, Activate(0), 0, NONE),
                (tick, call, 0, late),
                (tick, Tick, 0, NONE),
            ]);
            let counted = layer.counts().iter().map(|counts| counts.late);
            assert_eq!(counted.sum::<u32>(), late.len() as u32);
        }
    }
}

#[test]
fn around_the_deadline_in_the_history() {
    let ticks: [(u64, &[u8]); 3] = [(5, &[]), (6, &[0]), (7, &[0])];
    for (tick, late) in ticks {
        let mut history = History::new(1);
        history.accepted(0);
        history.begins(0, 6);
        history.accepted(tick);
        history.accepted(tick);
        history.ends(0, 0).expect("a job");
        let (of_calls, counts) = history.judge();
        assert_eq!(of_calls, [NONE, late, NONE]);
        assert_eq!(counts[0].late, late.len() as u32);
        let reports: Vec<(u64, u64)> = history.reports().collect();
        assert_eq!(reports, vec![(6, tick); late.len()]);
    }
}

#[test]
fn reported_once() {
    let layer = after(&[
        (0, Activate(1), 0, NONE),
        (0, Activate(0), 0, NONE),
        (2, Tick, 0, NONE),
        (3, Tick, 0, &[0]),
        (3, Tick, 0, NONE),
        (3, Terminate, 0, NONE),
        (4, Activate(2), 0, NONE),
        (5, Activate(0), 0, &[1]),
        (5, Chain(2), 0, NONE),
        (6, Tick, 0, NONE),
        // due 8, 9, 10
        (8, Tick, 0, &[0]),
        (9, Terminate, 0, &[2]),
        (10, Terminate, 0, &[2]),
        (11, Terminate, 0, NONE),
    ]);
    let counts = |late, ended, response| Counts {
        late,
        ended,
        response,
    };
    let expected = [counts(2, 2, 4), counts(1, 1, 5), counts(2, 2, 6)];
    assert_eq!(layer.counts()[..3], expected);
}

#[test]
fn a_refused_call_on_the_deadline_reports_nothing() {
    after(&[
        (0, Activate(0), 0, NONE),
        (3, Activate(4), 3, NONE),
        (3, Chain(4), 3, NONE),
        (3, Tick, 0, &[0]),
    ]);
}

#[test]
fn the_shortest_d() {
    after(&[
        (0, Activate(3), 0, NONE),
        (0, Tick, 0, NONE),
        (1, Tick, 0, &[3]),
        (1, Chain(3), 0, NONE),
        (2, Chain(3), 0, &[3]),
        (4, Terminate, 0, &[3]),
    ]);
}

#[test]
fn due_at_the_greatest_tick() {
    let layer = after(&[
        (GREATEST - 3, Activate(0), 0, NONE),
        (GREATEST - 1, Activate(3), 0, NONE),
        (GREATEST - 1, Tick, 0, NONE),
        (GREATEST, Activate(3), 4, NONE),
        (GREATEST, Chain(0), 9, NONE),
        (GREATEST, Terminate, 0, &[0, 3]),
        (GREATEST, Terminate, 0, NONE),
    ]);
    let late: Vec<u32> = layer.counts().iter().map(|counts| counts.late).collect();
    assert_eq!(late, [1, 0, 0, 1]);
}
