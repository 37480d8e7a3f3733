//! Document 02, Q-1: what tape_why prints, and the reasons at their borders.

use model::edges::{P, RUN};
use model::kernel::Kernel;
use model::layer::{Call, Layer};
use model::plain::Plain;
use model::program::run;
use model::table::Line;
use model::why::{of_layer, of_plain, Reason, Running, Why};
use Call::{Activate, Terminate};

fn line(d: u64, priority: u8, limit: u8) -> Line {
    Line { d, priority, limit }
}

fn p() -> [Line; 3] {
    [line(3, 12, 2), line(5, 11, 2), line(5, 10, 2)]
}

fn printed(tape: &[u8]) -> String {
    String::from_utf8(run(tape).expect("all agree").tape_why).expect("text")
}

fn on_p(records: &[u8]) -> String {
    printed(&[&P, records].concat())
}

struct Board {
    layer: Layer,
    kernel: Kernel,
    plain: Plain,
}

impl Board {
    fn after(lines: &[Line], calls: &[(u64, Call)]) -> Board {
        let mut board = Board {
            layer: Layer::fresh(lines),
            kernel: Kernel::new(lines),
            plain: Plain::new(lines),
        };
        for (tick, call) in calls {
            if let Some(kernel_call) = board.layer.call(*tick, *call).kernel_call {
                board.kernel.serve(kernel_call).expect("a task");
            }
            board.plain.call(*tick, *call);
        }
        board
    }

    fn of_layer(&self, task: u8) -> Result<Why, String> {
        of_layer(&self.layer, self.kernel.running(), task)
    }

    // for the layer and for the plain scheduler
    fn both(&self, task: u8) -> Why {
        let why = self.of_layer(task).expect("a reason fits");
        assert_eq!(why, of_plain(&self.plain, task));
        why
    }
}

#[test]
fn the_run_cut_after_each_record() {
    let none = "has no pending job";
    let runs = "is running";
    let for_0 = "is waiting: task 0 is running with the earlier deadline 3";
    let for_1 = "is waiting: task 1 is running with the earlier deadline 5";
    let for_2 = "is waiting: task 2 is running with the earlier deadline 5";
    let behind_2 = "is waiting: task 2 was there first and is running with the same deadline 5";
    let expected = [
        (0, [none, none, none]),
        (3, [runs, none, none]),
        (6, [runs, none, for_0]),
        (9, [runs, for_0, for_0]),
        (11, [none, behind_2, runs]),
        (14, [for_2, behind_2, runs]),
        (16, [for_1, runs, none]),
        (18, [runs, none, none]),
        (20, [runs, none, none]),
        (22, [none, none, none]),
    ];
    for (length, [zero, one, two]) in expected {
        let text = format!("task 0 {zero}\ntask 1 {one}\ntask 2 {two}\n");
        assert_eq!(on_p(&RUN[..length]), text, "{length}");
    }
}

const AT_TICK_3: &str = "\
task 0 is waiting: task 2 is running with the earlier deadline 5
task 1 is waiting: task 2 was there first and is running with the same deadline 5
task 2 is running
";

#[test]
fn the_run_up_to_tick_3() {
    assert_eq!(on_p(&RUN[..14]), AT_TICK_3);
}

#[test]
fn the_whole_run() {
    let text = "\
task 0 has no pending job
task 1 has no pending job
task 2 has no pending job
";
    assert_eq!(on_p(&RUN), text);
}

#[test]
fn a_bad_record_comes_last() {
    let bad: [(&[u8], &str); 4] = [
        (&[2], "tape 20 at 24\n"),
        (&[0x80, 0, 2, 0], "tape 21 at 24\n"),
        (&[4, 0, 2, 0], "tape 22 at 24\n"),
        (&[1, 0, 0x80, 2, 2, 0], "tape 23 at 24\n"),
    ];
    for (record, text) in bad {
        let records = [&RUN[..14], record].concat();
        assert_eq!(on_p(&records), AT_TICK_3.to_string() + text);
    }
}

#[test]
fn a_refused_call_changes_nothing() {
    // without a line: 3 and 255
    let calls: [&[u8]; 3] = [&[1, 9, 3], &[1, 9, 0xFF, 1], &[3, 9, 3]];
    for call in calls {
        assert_eq!(on_p(&[&RUN[..14], call].concat()), AT_TICK_3);
    }
}

#[test]
fn without_a_table_there_is_one_line() {
    assert_eq!(printed(&[]), "tape 20 at 0\n");
    assert_eq!(printed(&[0]), "table 1 - -\n");
    assert_eq!(printed(&[33]), "table 1 - -\n");
    assert_eq!(printed(&[1, 0, 7, 1, 9]), "table 2 0 -\n");
    let broken = [2, 3, 1, 1, 5, 2, 1, 1, 0, 1, 1, 0, 0];
    assert_eq!(printed(&broken), "table 5 0 1\n");
    assert_eq!(printed(&P[..9]), "tape 20 at 0\n");
    let mut long = [&P[..], &[1, 0, 0]].concat();
    long.resize(65_537, 0);
    assert_eq!(printed(&long), "tape 26 at 65536\n");
}

#[test]
fn one_line_and_32() {
    assert_eq!(printed(&[1, 6, 1, 1]), "task 0 has no pending job\n");
    let twice = [1, 6, 1, 2, 1, 0, 0, 1, 9, 0];
    assert_eq!(printed(&twice), "task 0 is running\n");
    let mut tape = [&[32][..], &[9, 7, 1].repeat(32)].concat();
    tape.extend([1, 0, 31, 1, 0, 0, 1, 1, 30]);
    let text = printed(&tape);
    let lines: Vec<&str> = text.lines().collect();
    assert_eq!(lines.len(), 32);
    let same = "task 0 is waiting: task 31 was there first and is running with the same deadline 9";
    let earlier = "task 30 is waiting: task 31 is running with the earlier deadline 9";
    assert_eq!(lines[0], same);
    assert_eq!(lines[29], "task 29 has no pending job");
    assert_eq!(lines[30..], [earlier, "task 31 is running"]);
}

#[test]
fn a_task_without_a_line_is_refused() {
    for count in [1, 3, 32] {
        let fresh = Board::after(&vec![line(5, 1, 1); count], &[]);
        let busy = Board::after(&vec![line(5, 1, 1); count], &[(0, Activate(0))]);
        for task in 0..=255 {
            let why = fresh.both(task);
            assert_eq!(why.is_err(), usize::from(task) >= count);
            assert_eq!(busy.both(task).is_err(), why.is_err());
        }
        assert_eq!(fresh.both(count as u8), Err(3));
        assert_eq!(busy.both(255), Err(3));
        assert_eq!(busy.both(0), Ok(Reason::Runs));
    }
}

#[test]
fn the_running_job_is_named_and_not_the_one_ahead() {
    // due 3, 5, 5: task 1 stands behind task 2, which is due with it
    let calls = [(0, Activate(0)), (0, Activate(2)), (0, Activate(1))];
    let board = Board::after(&p(), &calls);
    let running = Running { task: 0, due: 3 };
    assert_eq!(board.both(1), Ok(Reason::Earlier(running)));
    assert_eq!(board.both(2), Ok(Reason::Earlier(running)));
}

#[test]
fn the_first_job_of_a_task_is_asked() {
    // due 5, 5, 6: the second job of task 1 waits for an earlier deadline, its first doesn't
    let calls = [(0, Activate(2)), (0, Activate(1)), (1, Activate(1))];
    let board = Board::after(&p(), &calls);
    let running = Running { task: 2, due: 5 };
    assert_eq!(board.both(1), Ok(Reason::ThereFirst(running)));
    assert_eq!(board.both(2), Ok(Reason::Runs));
    let board = Board::after(&p(), &[&calls[..], &[(1, Terminate)]].concat());
    assert_eq!(board.both(1), Ok(Reason::Runs));
    assert_eq!(board.both(2), Ok(Reason::NonePending));
}

#[test]
fn on_a_broken_pair_no_reason_fits() {
    // the kernel runs task 1, due 5; task 0 is due at 3
    let lines = [line(3, 1, 1), line(5, 2, 1)];
    let board = Board::after(&lines, &[(0, Activate(1)), (0, Activate(0))]);
    assert!(board.of_layer(0).is_err());
    assert_eq!(board.of_layer(1), Ok(Ok(Reason::Runs)));
    let earlier = Reason::Earlier(Running { task: 0, due: 3 });
    assert_eq!(of_plain(&board.plain, 1), Ok(earlier));
}
