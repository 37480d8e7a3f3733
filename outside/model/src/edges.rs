//! Tapes at the borders of document 01 and, a fixed list that is run first, whatever the seed.

use crate::layer::{Call, GREATEST};
use crate::number::write;
use crate::program::MOST_BYTES;
use crate::table::{Line, LONGEST, MOST};
use crate::tape::{kind, table_bytes};

/// Table P of the document.
pub const P: [u8; 10] = [3, 3, 12, 2, 5, 11, 2, 5, 10, 2];

/// The records of the document's one whole run.
pub const RUN: [u8; 22] = [
    1, 0, 0, 1, 0, 2, 1, 0, 1, 2, 1, 1, 2, 0, 2, 0, 2, 1, 0, 3, 2, 1,
];

/// A record as it is on tape, with its own ticks.
pub fn record(ticks: u64, call: Call, bytes: &mut Vec<u8>) {
    let (kind, task) = kind(call);
    write(kind, bytes);
    write(ticks, bytes);
    if let Some(task) = task {
        write(u64::from(task), bytes);
    }
}

fn tape(lines: &[Line], records: &[(u64, Call)]) -> Vec<u8> {
    let mut bytes = table_bytes(lines);
    for (ticks, call) in records {
        record(*ticks, *call, &mut bytes);
    }
    bytes
}

fn line(d: u64, priority: u8, limit: u8) -> Line {
    Line { d, priority, limit }
}

// the lines of table P and a fourth
fn p_and(fourth: Line) -> [Line; 4] {
    [line(3, 12, 2), line(5, 11, 2), line(5, 10, 2), fourth]
}

fn joined(parts: &[&[u8]]) -> Vec<u8> {
    parts.concat()
}

/// All edges.
pub fn edges() -> Vec<Vec<u8>> {
    let mut all = vec![joined(&[&P, &RUN])];
    all.extend(cases());
    all.extend(short());
    all.extend(numbers());
    all.extend(tables());
    all.extend(sums());
    all.extend(tasks());
    all.extend(lengths());
    all.extend(boards());
    all.extend(ends());
    all.extend(deadlines());
    all.extend(places());
    all
}

// cases a to l, as far as a tape can say them
fn cases() -> Vec<Vec<u8>> {
    use Call::{Activate, Chain, Terminate, Tick};
    let p = [line(3, 12, 2), line(5, 11, 2), line(5, 10, 2)];
    let d = [line(10, 9, 1), line(12, 8, 1)];
    let j = [line(6, 1, 1)];
    let both = [(0, Activate(1)), (0, Activate(0)), (0, Tick)];
    vec![
        tape(&p, &[(0, Activate(1)), (1, Activate(0)), (1, Terminate)]),
        tape(&p, &[(0, Activate(0)), (0, Activate(0)), (0, Terminate)]),
        tape(&d, &[(21, Activate(0)), (1, Activate(1)), (0, Terminate)]),
        tape(&[line(3, 1, 1), line(5, 2, 1)], &both),
        tape(&[line(3, 2, 1), line(5, 2, 1)], &both),
        tape(&[line(5, 2, 1), line(5, 2, 1)], &both),
        tape(
            &p,
            &[
                (0, Activate(0)),
                (0, Activate(0)),
                (0, Chain(0)),
                (0, Activate(0)),
            ],
        ),
        tape(
            &p,
            &[(0, Terminate), (0, Chain(0)), (5, Tick), (0, Terminate)],
        ),
        // chain to another task that has its limit
        tape(
            &p,
            &[
                (0, Activate(0)),
                (0, Activate(1)),
                (0, Activate(1)),
                (0, Chain(1)),
                (0, Chain(0)),
            ],
        ),
        tape(&j, &[(0, Activate(0)), (5, Terminate)]),
        tape(&j, &[(0, Activate(0)), (6, Terminate)]),
        tape(&j, &[(0, Activate(0)), (7, Terminate)]),
        tape(
            &j,
            &[(0, Activate(0)), (6, Tick), (0, Tick), (0, Terminate)],
        ),
        tape(
            &j,
            &[(0, Activate(0)), (7, Tick), (0, Tick), (0, Terminate)],
        ),
        tape(&[line(3, 2, 16), line(5, 1, 16)], &both),
        tape(&[line(3, 2, 16), line(5, 1, 17)], &both),
    ]
}

// empty, single bytes, and the document's run cut off everywhere
fn short() -> Vec<Vec<u8>> {
    let mut all: Vec<Vec<u8>> = vec![Vec::new()];
    for byte in [0, 1, 2, 3, 4, 31, 32, 33, 34, 127, 128, 129, 160, 254, 255] {
        all.push(vec![byte]);
    }
    let whole = joined(&[&P, &RUN]);
    for length in 1..whole.len() {
        all.push(whole[..length].to_vec());
    }
    all
}

// numbers in all forms at each position, with a tape behind them or nothing
fn numbers() -> Vec<Vec<u8>> {
    let filled = |fill: u8, count: usize, tail: &[u8]| joined(&[&vec![fill; count], tail]);
    let mut forms: Vec<Vec<u8>> = vec![
        vec![0x80, 0x00],
        vec![0x81, 0x00],
        vec![0xFF, 0x00],
        vec![0x80, 0x80, 0x00],
        filled(0x80, 7, &[0x00]),
        filled(0x80, 8, &[0x00]),
        filled(0xFF, 8, &[0x00]),
        filled(0x80, 8, &[]),
        filled(0xFF, 8, &[]),
        filled(0x80, 9, &[]),
        filled(0xFF, 9, &[]),
        filled(0x80, 9, &[0x00]),
        filled(0x80, 9, &[0x01]),
        filled(0xFF, 9, &[0x7F]),
        filled(0xFF, 12, &[0x01]),
        filled(0xFF, 8, &[0x7F]),
    ];
    let values = [
        0,
        3,
        4,
        31,
        32,
        33,
        127,
        128,
        129,
        255,
        256,
        300,
        LONGEST,
        LONGEST + 1,
        (1 << 56) - 1,
        1 << 56,
        GREATEST,
        GREATEST + 1,
    ];
    for value in values {
        let mut form = Vec::new();
        write(value, &mut form);
        forms.push(form);
    }
    // what goes before and behind: count, D, priority, limit; kind, ticks, task of activate and of chain
    let positions: [(&[u8], &[u8]); 11] = [
        (&[], &[3, 12, 2, 5, 11, 2, 5, 10, 2, 1, 0, 0]),
        (&[2], &[12, 2, 5, 11, 2, 1, 0, 0]),
        (&[2, 3], &[2, 5, 11, 2, 1, 0, 0]),
        (&[2, 3, 12], &[5, 11, 2, 1, 0, 0]),
        (&[2, 3, 12, 2, 5, 11], &[1, 0, 0]),
        (&[1, 3, 12, 2, 1, 0, 0], &[0, 0, 1, 0, 0]),
        (&[1, 3, 12, 2, 1, 0, 0, 0], &[1, 0, 0]),
        (&[1, 3, 12, 2, 1, 0, 0, 1], &[0, 1, 0, 0]),
        (&[1, 3, 12, 2, 1, 0, 0, 2], &[0, 0]),
        (&[1, 3, 12, 2, 1, 0, 0, 1, 0], &[2, 0]),
        (&[1, 3, 12, 2, 1, 0, 0, 3, 0], &[2, 0]),
    ];
    let mut all = Vec::new();
    for (before, behind) in positions {
        for form in &forms {
            all.push(joined(&[before, form, behind]));
            all.push(joined(&[before, form]));
        }
    }
    all
}

// line counts, and tables at the borders of 1 to 5
fn tables() -> Vec<Vec<u8>> {
    let mut all = Vec::new();
    for count in [0, 1, 31, 32, 33, 127, 128, 255, 256, 257, 16_383, 16_384] {
        let mut bytes = Vec::new();
        write(count, &mut bytes);
        for _ in 0..count.min(300) {
            bytes.extend([9, 7, 1]);
        }
        all.push(joined(&[&bytes, &[1, 0, 0, 4]]));
        bytes.truncate(5);
        all.push(bytes);
    }
    for d in [0, 1, 2, LONGEST - 1, LONGEST, LONGEST + 1, GREATEST] {
        for limit in [0, 1, 32, 33, 255] {
            let only = [line(d, 255, limit)];
            all.push(tape(&only, &[(0, Call::Activate(0)), (1, Call::Terminate)]));
            let second = [line(LONGEST, 0, 1), line(d, 255, limit)];
            all.push(tape(
                &second,
                &[(0, Call::Activate(1)), (1, Call::Chain(0))],
            ));
        }
    }
    for limits in [
        [1, 31],
        [31, 1],
        [31, 2],
        [32, 1],
        [1, 32],
        [32, 32],
        [33, 0],
    ] {
        let lines = [line(4, 1, limits[0]), line(4, 1, limits[1])];
        all.push(tape(&lines, &[(0, Call::Activate(1))]));
    }
    for priorities in [[0, 1], [1, 0], [0, 0], [255, 255], [254, 255], [255, 254]] {
        for ds in [[7, 7], [7, 8], [8, 7]] {
            let [one, other] = priorities;
            let lines = [line(ds[0], one, 1), line(ds[1], other, 1)];
            all.push(tape(
                &lines,
                &[(0, Call::Activate(1)), (0, Call::Activate(0))],
            ));
        }
    }
    // the first pair is not the first line's, nor that of neighbours
    let lines = [line(9, 1, 1), line(7, 5, 1), line(7, 4, 1), line(8, 4, 1)];
    all.push(tape(&lines, &[]));
    let lines = [
        line(9, 1, 1),
        line(7, 5, 1),
        line(8, 3, 1),
        line(7, 2, 1),
        line(10, 1, 1),
    ];
    all.push(tape(&lines, &[]));
    // the first line breaks the rule with both others
    all.push(tape(&[line(7, 5, 1), line(8, 9, 1), line(9, 9, 1)], &[]));
    // line by line, D before limit within a line
    all.push(tape(&[line(1, 0, 33), line(0, 0, 1)], &[]));
    all.push(tape(&[line(1, 0, 1), line(0, 0, 33)], &[]));
    all.push(tape(&[line(1, 0, 32), line(2, 1, 32)], &[]));
    // a refusal of the table goes before what is behind it; one of the tape before the table's
    all.push(joined(&[&[1, 0, 0, 1], &[9, 9, 9]]));
    all.push(vec![2, 0, 0, 1, 3]);
    all.push(vec![2, 0, 0, 1, 3, 1, 0x80, 0x00]);
    all
}

// ticks and their sum at the greatest tick; deadlines at its reach
fn sums() -> Vec<Vec<u8>> {
    use Call::{Activate, Chain, Terminate, Tick};
    let lines = [line(3, 12, 2), line(5, 11, 2)];
    let of = |records: &[(u64, Call)]| tape(&lines, records);
    let mut all = Vec::new();
    for last in [Tick, Activate(0), Terminate, Chain(0)] {
        all.push(of(&[(GREATEST, last), (0, last)]));
        all.push(of(&[(GREATEST, last), (1, last), (0, Tick)]));
        all.push(of(&[(GREATEST + 1, last)]));
        all.push(of(&[(GREATEST - 1, Tick), (1, last)]));
        all.push(of(&[(GREATEST - 1, Tick), (2, last)]));
        all.push(of(&[(GREATEST, Tick), (GREATEST, last)]));
        // the sum counts refused calls as well
        all.push(of(&[(GREATEST, Chain(9)), (0, last), (1, last)]));
        for short_by in 0..8 {
            let start = (GREATEST - 10, Activate(1));
            all.push(of(&[start, (10 - short_by, last), (0, Tick), (0, last)]));
        }
    }
    // a reached limit goes before a deadline out of reach
    let only = [line(3, 7, 1)];
    let records = [
        (GREATEST - 3, Activate(0)),
        (0, Activate(0)),
        (1, Activate(0)),
        (1, Activate(1)),
        (0, Chain(0)),
        (1, Terminate),
        (0, Chain(0)),
        (0, Activate(0)),
    ];
    all.push(tape(&only, &records));
    // the sum is refused before the task number is read
    let cut = joined(&[&of(&[(GREATEST, Tick)]), &[1, 1]]);
    all.push(cut.clone());
    all.push(joined(&[&cut, &[0x80, 0x00]]));
    all.push(joined(&[&of(&[(GREATEST, Tick)]), &[1, 0]]));
    for d in [1, 2, LONGEST] {
        for over in [0, 1] {
            let at = GREATEST - d + over;
            let only = [line(d, 0, 2)];
            all.push(tape(
                &only,
                &[(at, Activate(0)), (0, Activate(0)), (0, Chain(0))],
            ));
            let records = [(at - 1, Activate(0)), (1, Chain(0)), (0, Terminate)];
            all.push(tape(&only, &records));
        }
    }
    all
}

// task numbers at the line count and at the byte's end
fn tasks() -> Vec<Vec<u8>> {
    let mut all = Vec::new();
    for count in [1, 2, 31, 32] {
        let lines = vec![line(4, 200, 1); count];
        for task in [0, 1, 30, 31, 32, 127, 128, 255] {
            let records = [
                (1, Call::Chain(task)),
                (0, Call::Activate(task)),
                (1, Call::Activate(0)),
                (9, Call::Chain(task)),
                (0, Call::Terminate),
            ];
            all.push(tape(&lines, &records));
        }
        for kind in [1, 3] {
            all.push(joined(&[&table_bytes(&lines), &[kind, 0, 0x80, 0x02]]));
        }
    }
    all
}

// of exactly some length: P, then ticks; an odd one starts with an activation
fn ticks_of_length(length: usize) -> Vec<u8> {
    let mut bytes = P.to_vec();
    if (length - bytes.len()) % 2 == 1 {
        bytes.extend([1, 0, 0]);
    }
    bytes.resize(length, 0);
    bytes
}

// activate and terminate in turn, then ticks
fn jobs_of_length(length: usize) -> Vec<u8> {
    let mut bytes = P.to_vec();
    while bytes.len() + 8 <= length {
        bytes.extend([1, 1, 1, 2, 2]);
    }
    if (length - bytes.len()) % 2 == 1 {
        bytes.extend([3, 0, 0]);
    }
    bytes.resize(length, 0);
    bytes
}

fn lengths() -> Vec<Vec<u8>> {
    let mut all = Vec::new();
    for length in [
        65_534,
        65_535,
        MOST_BYTES,
        MOST_BYTES + 1,
        MOST_BYTES + 2,
        70_000,
    ] {
        all.push(ticks_of_length(length));
        all.push(jobs_of_length(length));
        // cut off in the last record, or with a bad last byte
        let mut bytes = jobs_of_length(length - 1);
        bytes.push(1);
        all.push(bytes);
        let mut bytes = ticks_of_length(length);
        bytes[length - 2] = 4;
        all.push(bytes);
        // bad from the start
        all.push(vec![0; length]);
        all.push(vec![0xFF; length]);
        all.push(vec![33; length]);
        let mut bytes = ticks_of_length(length);
        bytes[1] = 0;
        all.push(bytes);
    }
    all.push(vec![1; 140_000]);
    all
}

// boards of one line to 32: all D equal, or rising with the task
fn boards() -> Vec<Vec<u8>> {
    let mut all = Vec::new();
    for (count, limit) in [(1, 1), (1, 32), (2, 16), (16, 2), (31, 1), (32, 1)] {
        let equal = vec![line(40, 7, limit); count];
        let rising = (0..count as u8).map(|task| line(40 + u64::from(task), 200 - task, limit));
        for lines in [equal, rising.collect()] {
            all.push(tape(&lines, &[]));
            all.extend(filled(&lines, 0));
            all.extend(filled(&lines, 1));
        }
    }
    all
}

// all jobs that the limits allow, some ticks apart, and one call more; where D rises, those of
// falling tasks one tick apart are due together
fn filled(lines: &[Line], ticks: u64) -> Vec<Vec<u8>> {
    use Call::{Activate, Terminate, Tick};
    let count = lines.len() as u8;
    let limit = usize::from(lines[0].limit);
    let rising: Vec<u8> = (0..count).collect();
    let falling: Vec<u8> = (0..count).rev().collect();
    let mut all = Vec::new();
    for tasks in [rising, falling] {
        for last in [Tick, Terminate, Activate(count), Activate(0)] {
            let tasks = tasks.repeat(limit).into_iter();
            let mut records: Vec<(u64, Call)> = tasks.map(|task| (ticks, Activate(task))).collect();
            records.push((0, last));
            all.push(tape(lines, &records));
        }
    }
    all
}

// boards of P with a fourth line, and what may come last
fn ends() -> Vec<Vec<u8>> {
    use Call::{Activate, Chain, Terminate, Tick};
    let lines = p_and(line(8, 9, 1));
    let boards: [&[(u64, Call)]; 10] = [
        // all four reasons
        &[(0, Activate(2)), (0, Activate(1)), (3, Activate(0))],
        // a task's first job runs, its second waits behind another's
        &[(0, Activate(1)), (0, Activate(2)), (0, Activate(1))],
        &[(0, Activate(1)), (2, Activate(0)), (1, Activate(1))],
        // its first was there second, its second is due later
        &[(0, Activate(2)), (0, Activate(1)), (1, Activate(1))],
        &[(0, Activate(2)), (2, Activate(0)), (1, Activate(0))],
        // three due together; two due together behind an earlier one
        &[(0, Activate(2)), (0, Activate(1)), (2, Activate(0))],
        &[(0, Activate(0)), (0, Activate(2)), (0, Activate(1))],
        // four deadlines
        &[
            (0, Activate(3)),
            (0, Activate(0)),
            (0, Activate(1)),
            (1, Activate(2)),
        ],
        // six jobs due together
        &[
            (0, Activate(2)),
            (0, Activate(1)),
            (0, Activate(1)),
            (0, Activate(2)),
            (2, Activate(0)),
            (0, Activate(0)),
        ],
        // due at the greatest tick
        &[
            (GREATEST - 8, Activate(3)),
            (3, Activate(2)),
            (2, Activate(0)),
        ],
    ];
    let calls: [&[(u64, Call)]; 9] = [
        &[],
        &[(0, Terminate)],
        &[(0, Terminate), (1, Terminate)],
        &[(0, Chain(0))],
        &[(0, Chain(3))],
        // late, and then refused
        &[(3, Tick)],
        &[(3, Activate(4))],
        &[(0, Chain(255))],
        &[(0, Activate(1)), (0, Activate(1)), (0, Activate(1))],
    ];
    // behind a bad record nothing is called
    let bad: [&[u8]; 4] = [&[1, 0], &[0x80, 0, 2, 0], &[4, 0, 2, 0], &[0xFF; 11]];
    let mut all = Vec::new();
    for board in boards {
        for last in calls {
            all.push(tape(&lines, &[board, last].concat()));
        }
        for last in bad {
            all.push(joined(&[&tape(&lines, board), last]));
        }
    }
    all
}

// calls of each kind at the deadlines less one, the deadlines, and the deadlines plus one of the
// running job and of others; then again on the same tick, and later
fn deadlines() -> Vec<Vec<u8>> {
    use Call::{Activate, Chain, Terminate, Tick};
    let lines = p_and(line(1, 13, 1));
    let boards: [&[(u64, Call)]; 9] = [
        // a job alone, also of D = 1
        &[(0, Activate(1))],
        &[(0, Activate(3))],
        // two deadlines
        &[(0, Activate(1)), (0, Activate(0))],
        // D = 1 before a longer one, and due with it
        &[(0, Activate(1)), (1, Activate(3))],
        &[(0, Activate(1)), (4, Activate(3))],
        // three due together behind an earlier one
        &[
            (0, Activate(0)),
            (0, Activate(2)),
            (0, Activate(1)),
            (2, Activate(0)),
        ],
        // due at the greatest tick, the last also before it
        &[(GREATEST - 1, Activate(3))],
        &[(GREATEST - 5, Activate(1)), (2, Activate(0))],
        &[(GREATEST - 5, Activate(1)), (1, Activate(0))],
    ];
    // some are refused, and report nothing
    let calls = [
        Tick,
        Activate(0),
        Activate(3),
        Activate(4),
        Terminate,
        Chain(0),
        Chain(3),
    ];
    let mut all = Vec::new();
    for board in boards {
        // all are due in 5 ticks at most
        for ticks in 0..=6 {
            for call in calls {
                let again = [(ticks, call), (0, Tick), (0, call), (1, Tick), (1, Tick)];
                all.push(tape(&lines, &[board, &again].concat()));
            }
        }
    }
    all
}

// lists of some lengths, and a new job at every place of each, behind its equals too
fn places() -> Vec<Vec<u8>> {
    let mut all = Vec::new();
    for length in [0, 1, 2, 8, 16, 31] {
        let apart: Vec<u64> = (1..=length).map(|nth| 2 * nth as u64).collect();
        for place in 0..=length {
            all.extend(insertions(&apart, 2 * place as u64 + 1));
        }
        for (from, to) in blocks(length) {
            let mut dues = apart.clone();
            let due = dues[from];
            dues[from..to].fill(due);
            all.extend(insertions(&dues, due));
        }
    }
    all
}

// places of a list, from one to below another: all; in the middle; at the front or at the back only
fn blocks(length: usize) -> Vec<(usize, usize)> {
    let (quarter, half) = (length / 4, length / 2);
    let less_one = length.saturating_sub(1);
    let mut blocks = vec![
        (0, length),
        (1, less_one),
        (quarter, length - quarter),
        (half, half + 1),
        (0, half),
        (0, 1),
        (less_one, length),
    ];
    blocks.retain(|(from, to)| from < to && *to <= length);
    blocks.sort_unstable();
    blocks.dedup();
    blocks
}

// the pending jobs are due some ticks after the shortest D, the new one too: by its D or by its
// tick, by activate or by chain; then the list is emptied
fn insertions(dues: &[u64], new: u64) -> Vec<Vec<u8>> {
    use Call::{Activate, Chain, Terminate, Tick};
    // the shorter D has the higher priority; of equal ones the new job's line
    let due = |ticks: u64, more: u8| line(100 + ticks, 250 - 3 * ticks as u8 + more, 1);
    let with = |last: &[Line]| {
        let pending = dues.iter().zip([0, 1].into_iter().cycle());
        let lines: Vec<Line> = pending.map(|(ticks, more)| due(*ticks, more)).collect();
        [&lines, last].concat()
    };
    let count = dues.len() as u8;
    let by_d = with(&[due(new, 2)]);
    let by_tick = with(&[due(0, 2)]);
    let first = [(0, Activate(count))];
    let rising: Vec<(u64, Call)> = (0..count).map(|task| (0, Activate(task))).collect();
    // where no two are due together, all are released
    let falling: Vec<(u64, Call)> = rising.iter().rev().copied().collect();
    let ended = vec![(0, Terminate); dues.len() + 1];
    // all are late, in list order
    let late = [&[(200, Tick)], &ended[..]].concat();
    let of = |lines: &[Line], parts: &[&[(u64, Call)]]| tape(lines, &parts.concat());
    let mut all = vec![
        of(&by_d, &[&rising, &[(0, Activate(count))], &ended]),
        of(&by_tick, &[&falling, &[(new, Activate(count))], &late]),
        of(&by_tick, &[&first, &rising, &[(new, Chain(count))], &ended]),
        of(&by_tick, &[&falling, &first, &[(new, Chain(count))], &late]),
    ];
    // one line more: the job that ends is another task's
    if by_d.len() < MOST {
        let lines = with(&[due(0, 2), due(new, 2)]);
        let chain = [(0, Chain(count + 1))];
        all.push(of(&lines, &[&rising, &first, &chain, &ended]));
    }
    all
}
