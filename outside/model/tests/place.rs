//! Document 02, Q-3: insertion from the back gives the list that a search from the front gives, and reads no more than it must.

use model::edges::edges;
use model::layer::{Call, Inserted, Job, Layer};
use model::make::Maker;
use model::met::Met;
use model::place::{from_the_front, same_place};
use model::program::{run, Heads, MOST_BYTES};
use model::table::{check, Line};
use model::tape::{read_record, read_table, Read};
use std::collections::HashSet;
use Call::{Activate, Chain, Terminate, Tick};

fn line(d: u64, priority: u8, limit: u8) -> Line {
    Line { d, priority, limit }
}

// a line of limit 1 for each D; the layer reads no priorities
fn lines(ds: &[u64]) -> Vec<Line> {
    ds.iter().map(|d| line(*d, 0, 1)).collect()
}

fn shown(list: &[Job]) -> Vec<(u64, u8)> {
    list.iter().map(|job| (job.due, job.task)).collect()
}

// so many jobs are passed; one more place is read where there is one
fn read(passed: usize, length: usize) -> usize {
    if passed < length {
        passed + 1
    } else {
        passed
    }
}

// a job of each line at tick 0: the list is always the accepted jobs, sorted, equal ones as accepted
fn inserted(ds: &[u64]) -> (Layer, Inserted) {
    let mut layer = Layer::fresh(&lines(ds));
    let mut sorted: Vec<(u64, u8)> = Vec::new();
    let mut last = None;
    for (task, d) in ds.iter().enumerate() {
        let passed = sorted.iter().filter(|(due, _)| due > d).count();
        let expected = Inserted {
            place: task - passed,
            looked: read(passed, task),
        };
        let answer = layer.call(0, Activate(task as u8));
        assert_eq!(answer.inserted, Some(expected), "{ds:?}, {task}");
        sorted.push((*d, task as u8));
        sorted.sort_by_key(|(due, _)| *due);
        assert_eq!(shown(layer.list()), sorted, "{ds:?}, {task}");
        last = answer.inserted;
    }
    (layer, last.expect("a job"))
}

// 2, 4, 6 ..: there is room between any two, before and behind
fn apart(length: usize) -> Vec<u64> {
    (1..=length as u64).map(|nth| 2 * nth).collect()
}

// rising, falling, and from both ends in turn
fn orders(dues: &[u64]) -> [Vec<u64>; 3] {
    let falling: Vec<u64> = dues.iter().rev().copied().collect();
    let both = dues
        .iter()
        .zip(&falling)
        .flat_map(|(low, high)| [*low, *high]);
    let in_turn = both.take(dues.len()).collect();
    [dues.to_vec(), falling, in_turn]
}

#[test]
fn each_place_of_each_length() {
    for length in 0..=31 {
        for place in 0..=length {
            for order in orders(&apart(length)) {
                let ds = [order, vec![2 * place as u64 + 1]].concat();
                let looked = read(length - place, length);
                assert_eq!(inserted(&ds).1, Inserted { place, looked });
            }
        }
    }
}

#[test]
fn equal_deadlines() {
    for length in 1..=31 {
        for from in 0..length {
            for to in from + 1..=length {
                let mut dues = apart(length);
                let due = dues[from];
                dues[from..to].fill(due);
                for order in orders(&dues) {
                    let (layer, last) = inserted(&[order, vec![due]].concat());
                    // behind all equals, and the last of them is the last that is read
                    let looked = length - to + 1;
                    assert_eq!(last, Inserted { place: to, looked });
                    assert_eq!(layer.list()[to].task, length as u8);
                }
            }
        }
    }
}

#[test]
fn how_much_is_read_at_the_ends() {
    let (_, alone) = inserted(&[7]);
    assert_eq!((alone.place, alone.looked), (0, 0));
    for length in 1..=31 {
        for order in orders(&apart(length)) {
            // behind all others, also where the last is due with it
            for d in [2 * length as u64, 1_000_000_000] {
                let (_, last) = inserted(&[order.clone(), vec![d]].concat());
                assert_eq!((last.place, last.looked), (length, 1));
            }
            // before all others
            let (_, first) = inserted(&[order, vec![1]].concat());
            assert_eq!((first.place, first.looked), (0, length));
        }
    }
}

#[test]
fn chain_goes_in_among_the_jobs_that_stay() {
    for length in 0..=31 {
        // the first job's own line again, at some tick, between two jobs or due with one
        for ticks in 0..=2 * length as u64 + 1 {
            let ds = [apart(length), vec![1]].concat();
            let task = length as u8;
            let (mut layer, _) = inserted(&ds);
            let mut sorted = shown(&layer.list()[1..]);
            let passed = sorted.iter().filter(|(due, _)| *due > ticks + 1).count();
            let expected = Inserted {
                place: length - passed,
                looked: read(passed, length),
            };
            let answer = layer.call(ticks, Chain(task));
            assert_eq!(answer.inserted, Some(expected));
            sorted.push((ticks + 1, task));
            sorted.sort_by_key(|(due, _)| *due);
            assert_eq!(shown(layer.list()), sorted);
        }
    }
}

#[test]
fn other_calls_insert_nothing() {
    let mut layer = Layer::fresh(&[line(3, 2, 1), line(5, 1, 1)]);
    for (tick, call, result) in [
        (0, Tick, 0),
        (0, Terminate, 2),
        (0, Chain(0), 2),
        (0, Activate(2), 3),
    ] {
        let answer = layer.call(tick, call);
        assert_eq!((answer.result, answer.inserted), (result, None));
    }
    assert!(layer.call(1, Activate(0)).inserted.is_some());
    for (tick, call, result) in [
        (1, Activate(0), 4),
        (0, Activate(1), 8),
        (1, Chain(7), 3),
        (2, Tick, 0),
        (2, Terminate, 0),
    ] {
        let answer = layer.call(tick, call);
        assert_eq!((answer.result, answer.inserted), (result, None));
    }
}

#[test]
fn a_wrong_place_is_reported() {
    for length in 0..=31 {
        // one more at the front, which ends
        let ds = [apart(length), vec![1]].concat();
        let list = inserted(&ds).0.list()[1..].to_vec();
        for due in 1..=2 * length as u64 + 1 {
            let right = list.iter().filter(|job| job.due <= due).count();
            assert_eq!(from_the_front(&list, due), right);
            for place in 0..=length + 1 {
                for looked in 0..=length + 2 {
                    let same = same_place(&list, due, Inserted { place, looked });
                    let good = place == right && looked == read(length - right, length);
                    assert_eq!(same.is_ok(), good, "{length}, {due}, {place}, {looked}");
                }
            }
        }
    }
}

#[test]
fn what_is_reported() {
    let list = inserted(&[2, 4, 4, 6]).0.list().to_vec();
    let same = |due, place, looked| same_place(&list, due, Inserted { place, looked });
    assert_eq!(same(4, 3, 2), Ok(()));
    assert_eq!(same(1, 0, 4), Ok(()));
    // in front of equals; one place too early; past the list
    for (due, place, looked) in [(4, 1, 4), (4, 2, 3), (5, 4, 1), (4, 5, 0)] {
        let text = format!("the new job's place is {place} from the back, 3 from the front");
        assert_eq!(same(due, place, looked), Err(text));
    }
    // from the front; one less; one more than there is
    for (due, place, looked, to_be_read) in [(4, 3, 4, 2), (4, 3, 1, 2), (1, 0, 5, 4)] {
        let text = format!("places read for the new job: {looked}, to be read: {to_be_read}");
        assert_eq!(same(due, place, looked), Err(text));
    }
}

#[test]
fn insertions_are_counted_by_where_they_went() {
    let lines = [line(3, 12, 2), line(5, 11, 2), line(9, 10, 2)];
    let mut heads = Heads::fresh(&lines);
    let mut met = Met::default();
    let calls = [
        (0, Activate(1), [1, 0, 0, 0], 0),
        (0, Activate(2), [1, 1, 0, 0], 1),
        (0, Activate(0), [1, 1, 1, 0], 2),
        (0, Activate(1), [1, 1, 1, 1], 2),
        (0, Activate(1), [1, 1, 1, 1], 2),
        (1, Chain(0), [1, 1, 2, 1], 3),
        (2, Terminate, [1, 1, 2, 1], 3),
        (2, Terminate, [1, 1, 2, 1], 3),
        (2, Terminate, [1, 1, 2, 1], 3),
        (2, Chain(2), [2, 1, 2, 1], 3),
        (3, Chain(2), [3, 1, 2, 1], 3),
    ];
    for (tick, call, insertions, most) in calls {
        heads.call(tick, call, &mut met).expect("all agree");
        assert_eq!((met.insertions, met.most_looked), (insertions, most));
    }
    let text =
        "insertions        alone: 3  last: 1  first: 2  between: 1  most places read by one: 3";
    assert!(met.to_string().lines().any(|line| line == text), "{met}");
    let mut sum = Met::default();
    sum.add(&met);
    sum.add(&met);
    assert_eq!((sum.insertions, sum.most_looked), ([6, 2, 4, 2], 3));
}

// an insertion of a tape: its record, the deadlines that it found, how it went, and the list then
struct Went {
    record: usize,
    by_chain: bool,
    found: Vec<u64>,
    inserted: Inserted,
    list: Vec<Job>,
}

impl Went {
    // so many jobs are due with the new one
    fn equals(&self) -> usize {
        let new = self.list[self.inserted.place].due;
        self.found.iter().filter(|due| **due == new).count()
    }

    // behind the record, the printed lines name the whole list in its order, then nothing
    fn is_shown(&self, text: &str) -> bool {
        let lines = text.lines().skip(1 + self.record);
        let mut printed: Vec<Vec<&str>> = lines
            .map(|line| line.split(' ').skip(2).take(2).collect())
            .collect();
        // a tick names the job again
        printed.dedup();
        let jobs = self.list.iter().map(|job| (job.task, job.due));
        let mut expected: Vec<[String; 2]> = jobs
            .map(|(task, due)| [task.to_string(), due.to_string()])
            .collect();
        expected.push(["-".to_string(), "-".to_string()]);
        printed == expected
    }
}

// all insertions of a tape, as far as it is read
fn insertions(tape: &[u8]) -> Vec<Went> {
    let (lines, mut place) = match read_table(tape) {
        Ok(read) => read,
        Err(_) => return Vec::new(),
    };
    if tape.len() > MOST_BYTES || check(&lines).is_err() {
        return Vec::new();
    }
    let mut layer = Layer::fresh(&lines);
    let (mut preceding, mut record, mut all) = (0, 0, Vec::new());
    while let Read::Record { call, tick, after } = read_record(tape, place, preceding) {
        let by_chain = matches!(call, Chain(_));
        let before: Vec<u64> = layer.list().iter().map(|job| job.due).collect();
        if let Some(inserted) = layer.call(tick, call).inserted {
            all.push(Went {
                record,
                by_chain,
                found: before[usize::from(by_chain)..].to_vec(),
                inserted,
                list: layer.list().to_vec(),
            });
        }
        (place, preceding) = (after, tick);
        record += 1;
    }
    all
}

#[test]
fn the_edges_go_to_every_place() {
    // by chain or not, the list's length, the place, and how many are due with the new job
    let mut met = HashSet::new();
    for tape in edges() {
        if let Some(last) = insertions(&tape).last() {
            let text = run(&tape).expect("all agree").tape_run;
            if last.is_shown(&String::from_utf8(text).expect("text")) {
                let (length, place) = (last.found.len(), last.inserted.place);
                met.insert((last.by_chain, length, place, last.equals()));
            }
        }
    }
    for by_chain in [false, true] {
        let all_met = |length: usize, places: &[(usize, usize)]| {
            for (place, equals) in places {
                let wanted = (by_chain, length, *place, *equals);
                assert!(met.contains(&wanted), "{wanted:?}");
            }
        };
        for length in [0, 1, 2, 8, 16, 31] {
            let places: Vec<(usize, usize)> = (0..=length).map(|place| (place, 0)).collect();
            all_met(length, &places);
            // all equal
            all_met(length, &[(length, length)]);
        }
        // at the front only, at the back only
        all_met(2, &[(1, 1), (2, 1)]);
        for length in [8, 16, 31] {
            let (quarter, half) = (length / 4, length / 2);
            all_met(length, &[(1, 1), (half, half), (length, 1)]);
            // in the middle
            all_met(length, &[(half + 1, 1), (length - 1, length - 2)]);
            all_met(length, &[(length - quarter, length - 2 * quarter)]);
        }
    }
}

#[test]
fn long_lists_are_met_behind_the_edges() {
    let maker = Maker::default();
    let first = maker.edges() as u64;
    // between two jobs of 24 or more: by activate, by chain
    let mut tapes = [0, 0];
    for index in first..first + 1_000 {
        let mut met = [false, false];
        for went in insertions(&maker.tape(6, index).1) {
            let length = went.found.len();
            if length >= 24 && (1..length).contains(&went.inserted.place) {
                met[usize::from(went.by_chain)] = true;
            }
        }
        for (tapes, met) in tapes.iter_mut().zip(met) {
            *tapes += u64::from(met);
        }
    }
    assert!(tapes[0] > 60 && tapes[1] > 30, "{tapes:?}");
}
