//! Each family of tapes reaches what it is for, and the model agrees with itself on all.

use model::make::{draw, Family, Maker, EDGES, FAMILIES};
use model::met::Met;
use model::program::run;
use model::random::Random;

fn met(family: Family, tapes: u64) -> Met {
    let mut met = Met::default();
    for index in 0..tapes {
        let tape = draw(family, &mut Random::of(7, index));
        met.add(&run(&tape).expect("all agree").met);
    }
    assert_eq!(met.reports.iter().sum::<u64>(), met.late);
    met
}

// tapes that are well-formed, with no table refused
fn valid(family: Family, tapes: u64) -> Met {
    let met = met(family, tapes);
    assert_eq!(met.written, tapes);
    assert_eq!(met.table_refusals, [0; 6]);
    met
}

#[test]
fn mixed() {
    let met = valid(Family::Mixed, 400);
    assert!(met.calls.iter().all(|count| *count > 1_000));
    assert!(met.kernel_calls.iter().all(|count| *count > 400));
    for result in [2, 3, 4] {
        assert!(met.results[result] > 300);
    }
    assert!(met.reports.iter().all(|count| *count > 500) && met.most_late > 10);
    assert!(met.same_due[0] > 1_000 && met.same_due[1] > 500);
    assert!(met.deepest > 3);
}

#[test]
fn equal_d() {
    let met = valid(Family::EqualD, 100);
    assert_eq!(met.deepest, 1);
    assert!(met.same_due[1] > 500);
}

#[test]
fn ones_and_one_line() {
    let met = valid(Family::Ones, 100);
    assert!(met.results[4] > 500 && met.deepest > 3);
    let met = valid(Family::OneLine, 100);
    assert!(met.deepest == 1 && met.fullest == 32 && met.results[4] > 100);
}

#[test]
fn fill_and_drain() {
    let met = valid(Family::Fill, 100);
    assert!(met.fullest == 32 && met.most_late == 32);
    assert!(met.insertions.iter().all(|count| *count > 100) && met.most_looked == 31);
    assert!(met.results[2] > 20 && met.results[4] > 100);
    assert!(met.reasons.iter().all(|count| *count > 5));
}

#[test]
fn equal_priorities() {
    let met = valid(Family::EqualPriorities, 100);
    assert!(met.same_due[0] > 500 && met.deepest > 3);
}

#[test]
fn nest() {
    let met = valid(Family::Nest, 200);
    assert!(met.deepest == 32 && met.fullest == 32);
}

#[test]
fn far() {
    let met = met(Family::Far, 200);
    assert!(met.results[9] > 200 && met.tape_refusals[23] > 20);
    assert!(met.reports.iter().all(|count| *count > 50) && met.late_at_greatest > 10);
}

#[test]
fn long() {
    let met = valid(Family::Long, 4);
    assert!(met.lines > 60_000);
}

#[test]
fn ends_with_jobs_pending() {
    let met = met(Family::Ends, 400);
    assert_eq!(met.table_refusals, [0; 6]);
    assert!(met.reasons.iter().all(|count| *count > 300));
    for number in 20..24 {
        assert!(met.tape_refusals[number] > 3);
    }
    assert!(met.fullest == 32 && met.reports.iter().all(|count| *count > 300));
}

#[test]
fn each_reason_is_met_at_the_end_of_many_tapes() {
    let maker = Maker::default();
    let first = maker.edges() as u64;
    let mut tapes = [0; 4];
    for index in first..first + 1_000 {
        let tape = maker.tape(6, index).1;
        let reasons = run(&tape).expect("all agree").met.reasons;
        for (tapes, count) in tapes.iter_mut().zip(reasons) {
            *tapes += u64::from(count > 0);
        }
    }
    assert!(tapes.iter().all(|count| *count > 100), "{tapes:?}");
}

#[test]
fn tables_to_be_refused() {
    let met = met(Family::RefusedTable, 400);
    assert!(met.table_refusals[1..].iter().all(|count| *count > 10));
    // at the borders some are good
    assert!(met.table_refusals.iter().sum::<u64>() < 390);
}

#[test]
fn damaged() {
    let met = met(Family::Damaged, 600);
    for number in 20..24 {
        assert!(met.tape_refusals[number] > 5);
    }
    assert!(met.calls.iter().sum::<u64>() > 10_000);
    assert!(met.written > 30);
}

#[test]
fn random_bytes() {
    let bytes = met(Family::RandomBytes, 300);
    assert!(bytes.tape_refusals[21..24].iter().sum::<u64>() > 5);
    let small = met(Family::SmallBytes, 300);
    assert!(small.calls.iter().sum::<u64>() > 2_000 && small.tape_refusals[22] > 20);
    let behind = met(Family::RandomRecords, 300);
    assert!(behind.calls.iter().sum::<u64>() > 2_000);
    for number in 20..24 {
        assert!(behind.tape_refusals[number] > 5);
    }
}

#[test]
fn edges() {
    let maker = Maker::default();
    let mut met = Met::default();
    for index in 0..maker.edges() as u64 {
        let (family, tape) = maker.tape(1, index);
        assert_eq!(family, EDGES);
        assert_eq!(tape, maker.tape(2, index).1);
        met.add(&run(&tape).expect("all agree").met);
    }
    for number in [20, 21, 22, 23, 26] {
        assert!(met.tape_refusals[number] > 10);
    }
    assert!(met.table_refusals[1..].iter().all(|count| *count > 2));
    for result in [0, 2, 3, 4, 9] {
        assert!(met.results[result] > 5);
    }
    assert!(met.reasons.iter().all(|count| *count > 300));
    assert!(met.reports.iter().all(|count| *count > 200) && met.late_at_greatest > 50);
    assert!(met.insertions.iter().all(|count| *count > 500) && met.most_looked == 31);
}

#[test]
fn a_tape_is_made_from_seed_and_index_alone() {
    let (one, other) = (Maker::default(), Maker::default());
    let first = one.edges() as u64;
    for index in (first..first + 50).rev() {
        assert_eq!(one.tape(3, index), other.tape(3, index));
    }
    assert_ne!(one.tape(3, first), one.tape(4, first));
}

#[test]
fn all_families_are_drawn() {
    let maker = Maker::default();
    let first = maker.edges() as u64;
    let names: Vec<&str> = (first..first + 3_000)
        .map(|index| maker.tape(5, index).0)
        .collect();
    for (_, name, _) in FAMILIES {
        assert!(names.contains(&name), "{name}");
    }
}
