//! Document 01: the printed run, and cases a to l of "Errors a builder could fall into", case j as Q-2 of document 02 has it.

use model::edges::{P, RUN};
use model::kernel::Kernel;
use model::layer::{Call, Counts, KernelCall, Layer, GREATEST};
use model::number;
use model::plain::Plain;
use model::program::run;
use model::table::{breaks, check, Line, Refusal};
use model::tape::{read_record, read_table, Read};
use Call::{Activate, Chain, Terminate, Tick};

fn line(d: u64, priority: u8, limit: u8) -> Line {
    Line { d, priority, limit }
}

fn p() -> [Line; 3] {
    [line(3, 12, 2), line(5, 11, 2), line(5, 10, 2)]
}

fn refusal(number: u8, first: Option<usize>, second: Option<usize>) -> Result<(), Refusal> {
    Err(Refusal {
        number,
        first,
        second,
    })
}

fn printed(tape: &[u8]) -> String {
    String::from_utf8(run(tape).expect("all agree").tape_run).expect("text")
}

// what is printed for records on table P, without the header
fn on_p(records: &[u8]) -> String {
    let text = printed(&[&P, records].concat());
    text.strip_prefix("tick res run due call late\n")
        .expect("the header")
        .to_string()
}

#[test]
fn the_whole_run() {
    let text = "\
tick res run due call late
0 0 0 3 A0 -
0 0 0 3 - -
0 0 0 3 - -
1 0 2 5 C2 -
3 0 2 5 - -
3 0 1 5 C1 -
4 0 0 6 C0 -
7 0 0 6 - 0
8 0 - - T -
";
    assert_eq!(printed(&[&P[..], &RUN].concat()), text);
}

#[test]
fn case_a() {
    let text = on_p(&RUN[..14]);
    assert_eq!(text.lines().last(), Some("3 0 2 5 - -"));
}

#[test]
fn case_b() {
    let text = on_p(&[1, 0, 1, 1, 1, 0, 2, 1]);
    assert_eq!(text, "0 0 1 5 A1 -\n1 0 0 4 A0 -\n2 0 1 5 T -\n");
}

#[test]
fn case_c() {
    let text = on_p(&[1, 0, 0, 1, 0, 0]);
    assert_eq!(text, "0 0 0 3 A0 -\n0 0 0 3 - -\n");
}

#[test]
fn case_d() {
    let text = printed(&[2, 10, 9, 1, 12, 8, 1, 1, 21, 0, 1, 1, 1, 2, 0]);
    let lines: Vec<&str> = text.lines().skip(1).collect();
    assert_eq!(lines, ["21 0 0 31 A0 -", "22 0 0 31 - -", "22 0 1 34 C1 -"]);
}

#[test]
fn case_e() {
    let lines = [line(3, 1, 1), line(5, 2, 1)];
    assert_eq!(check(&lines), refusal(5, Some(0), Some(1)));
    assert_eq!(parts(&lines, 1, 0), (1, 0));
    assert_eq!(
        printed(&[2, 3, 1, 1, 5, 2, 1, 1, 0, 1, 1, 0, 0]),
        "table 5 0 1\n"
    );
}

// the tasks that kernel and plain scheduler run after two activations at tick 0
fn parts(lines: &[Line], longer: u8, shorter: u8) -> (u8, u8) {
    let mut layer = Layer::fresh(lines);
    let mut kernel = Kernel::new(lines);
    let mut plain = Plain::new(lines);
    for task in [longer, shorter] {
        let answer = layer.call(0, Activate(task));
        assert_eq!(answer.kernel_call, Some(KernelCall::ActivateTask(task)));
        kernel
            .serve(KernelCall::ActivateTask(task))
            .expect("a task");
        assert_eq!(plain.call(0, Activate(task)), 0);
    }
    let of_kernel = kernel.running().expect("a job").task;
    (of_kernel, plain.running().expect("a job").task)
}

#[test]
fn each_broken_pair_parts() {
    for priorities in [[4, 4, 4], [1, 2, 3], [2, 2, 1], [3, 1, 2], [9, 8, 7]] {
        let [one, two, three] = priorities;
        let lines = [line(3, one, 1), line(5, two, 1), line(8, three, 1)];
        for (shorter, longer) in [(0, 1), (0, 2), (1, 2)] {
            let broken = breaks(lines[shorter], lines[longer]);
            let (kernel, plain) = parts(&lines, longer as u8, shorter as u8);
            assert_eq!(broken, kernel != plain);
        }
    }
}

#[test]
fn case_f() {
    let lines = [line(3, 2, 1), line(5, 2, 1)];
    assert_eq!(check(&lines), refusal(5, Some(0), Some(1)));
    assert_eq!(parts(&lines, 1, 0), (1, 0));
}

#[test]
fn case_g() {
    assert_eq!(check(&[line(5, 2, 1), line(5, 2, 1)]), Ok(()));
}

#[test]
fn case_h() {
    let text = on_p(&[1, 0, 0, 1, 0, 0, 3, 0, 0, 1, 0, 0]);
    let lines: Vec<&str> = text.lines().skip(2).collect();
    assert_eq!(lines, ["0 0 0 3 C0 -", "0 4 0 3 - -"]);
}

#[test]
fn case_i() {
    assert_eq!(on_p(&[2, 0]), "0 2 - - - -\n");
    let mut layer = Layer::fresh(&p());
    let mut plain = Plain::new(&p());
    let calls = [
        (0, Terminate, 2),
        (5, Tick, 0),
        (4, Terminate, 8),
        (5, Terminate, 2),
        (5, Activate(0), 0),
        (4, Terminate, 8),
        (GREATEST + 1, Tick, 8),
        (u64::MAX, Chain(0), 8),
        (5, Terminate, 0),
    ];
    for (tick, call, result) in calls {
        assert_eq!(layer.call(tick, call).result, result);
        assert_eq!(plain.call(tick, call), result);
    }
}

#[test]
fn case_j() {
    let on_time = printed(&[1, 6, 1, 1, 1, 0, 0, 2, 5]);
    assert_eq!(on_time.lines().last(), Some("5 0 - - T -"));
    let late = printed(&[1, 6, 1, 1, 1, 0, 0, 2, 6]);
    assert_eq!(late.lines().last(), Some("6 0 - - T 0"));
}

#[test]
fn case_k() {
    assert_eq!(number::read(&[0x80, 0x00], 0), Err(21));
    assert_eq!(number::read(&[0x80], 0), Err(20));
    assert_eq!(number::read(&[0xAC, 0x02], 0), Ok((300, 2)));
    assert_eq!(number::read(&[0x7F], 0), Ok((127, 1)));
    assert_eq!(number::read(&[0x80, 0x01], 0), Ok((128, 2)));
}

#[test]
fn case_l() {
    assert_eq!(check(&[line(3, 2, 16), line(5, 1, 16)]), Ok(()));
    let above = [line(3, 2, 16), line(5, 1, 17)];
    assert_eq!(check(&above), refusal(4, None, None));
}

#[test]
fn the_check_goes_in_order() {
    assert_eq!(check(&[]), refusal(1, None, None));
    assert_eq!(check(&[line(0, 0, 0); 33]), refusal(1, None, None));
    let both = [line(1, 0, 1), line(0, 0, 0)];
    assert_eq!(check(&both), refusal(2, Some(1), None));
    let limit_first = [line(1, 0, 33), line(0, 0, 1)];
    assert_eq!(check(&limit_first), refusal(3, Some(0), None));
    let longest = [line(1_000_000_000, 0, 32)];
    assert_eq!(check(&longest), Ok(()));
    let above = [line(1_000_000_001, 0, 32)];
    assert_eq!(check(&above), refusal(2, Some(0), None));
    let pairs = [line(9, 1, 1), line(7, 5, 1), line(8, 3, 1), line(7, 2, 1)];
    assert_eq!(check(&pairs), refusal(5, Some(2), Some(3)));
}

#[test]
fn room_is_tested_behind_the_limit_and_before_reach() {
    // only a table that the check refuses has more limits than room
    let lines = [line(5, 1, 32), line(5, 1, 32)];
    let mut layer = Layer::fresh(&lines);
    let mut plain = Plain::new(&lines);
    let tick = GREATEST - 5;
    for call in 0..32 {
        let task = u8::from(call > 15);
        assert_eq!(layer.call(tick, Activate(task)).result, 0);
        assert_eq!(plain.call(tick, Activate(task)), 0);
    }
    for (tick, call, result) in [
        (tick, Activate(0), 10),
        (tick + 1, Activate(0), 10),
        (tick + 1, Activate(2), 3),
        (tick + 1, Chain(0), 9),
        (tick, Chain(1), 0),
    ] {
        assert_eq!(layer.call(tick, call).result, result);
        assert_eq!(plain.call(tick, call), result);
    }
}

#[test]
fn counts_follow_from_the_accepted_calls() {
    let mut layer = Layer::fresh(&p());
    for (tick, call) in [
        (0, Activate(0)),
        (1, Activate(0)),
        (4, Tick),
        (4, Activate(0)),
        (6, Terminate),
        (6, Tick),
        (9, Chain(1)),
    ] {
        layer.call(tick, call);
    }
    let of_first = Counts {
        late: 2,
        ended: 2,
        response: 8,
    };
    let none = Counts::default();
    assert_eq!(layer.counts(), [of_first, none, none]);
}

#[test]
fn refusals_of_the_tape() {
    let refused = |records: &[u8]| read_record(records, 0, 0);
    assert_eq!(read_record(&[], 0, 0), Read::End);
    assert_eq!(read_record(&[0, 0], 5, u64::MAX), Read::End);
    assert_eq!(refused(&[1, 0]), Read::Refused(20));
    assert_eq!(refused(&[4]), Read::Refused(22));
    assert_eq!(refused(&[0x84, 0x00]), Read::Refused(21));
    assert_eq!(refused(&[0x80; 9]), Read::Refused(23));
    assert_eq!(refused(&[0x80; 8]), Read::Refused(20));
    assert_eq!(refused(&[1, 0, 0x80, 0x02]), Read::Refused(23));
    let greatest = [0, 0xFF, 0xFF, 0xFF, 0xFF, 0xFF, 0xFF, 0xFF, 0xFF, 0x3F];
    let record = Read::Record {
        call: Tick,
        tick: GREATEST,
        after: 10,
    };
    assert_eq!(read_record(&greatest, 0, 0), record);
    assert_eq!(read_record(&greatest, 0, 1), Read::Refused(23));
    // the sum is refused before the task number is read
    assert_eq!(read_record(&[1, 1], 0, GREATEST), Read::Refused(23));
    assert_eq!(read_record(&[0, 1], 0, u64::MAX), Read::Refused(23));
}

#[test]
fn what_a_bad_tape_prints() {
    assert_eq!(printed(&[]), "tape 20 at 0\n");
    assert_eq!(printed(&[0]), "table 1 - -\n");
    assert_eq!(printed(&[33]), "table 1 - -\n");
    assert_eq!(printed(&[0xFF, 0x01]), "table 1 - -\n");
    assert_eq!(printed(&[0x80, 0x02]), "tape 23 at 0\n");
    assert_eq!(read_table(&[33]), Err(20));
    assert_eq!(printed(&[1, 0, 7, 1, 9]), "table 2 0 -\n");
    assert_eq!(printed(&P), "tick res run due call late\n");
    assert_eq!(on_p(&[0, 0, 1, 0]), "0 0 - - - -\ntape 20 at 12\n");
    assert_eq!(printed(&[0; 65_536]), "table 1 - -\n");
    assert_eq!(printed(&[0; 65_537]), "tape 26 at 65536\n");
}
