//! Document 01, "The event tape": the writer and its refusals 24 and 25.

use model::edges::P;
use model::layer::{Call, GREATEST};
use model::number;
use model::table::Line;
use model::tape::{read_table, write_record, write_table};

const MARK: u8 = 0xEE;

fn line(d: u64) -> Line {
    Line {
        d,
        priority: 7,
        limit: 1,
    }
}

#[test]
fn a_record_changes_only_its_bytes() {
    let mut buffer = [MARK; 6];
    assert_eq!(write_record(5, 305, Call::Chain(200), &mut buffer), Ok(5));
    assert_eq!(buffer, [3, 0xAC, 0x02, 0xC8, 0x01, MARK]);
}

#[test]
fn a_record_is_refused() {
    let mut buffer = [MARK; 12];
    for (preceding, tick) in [
        (6, 5),
        (0, GREATEST + 1),
        (GREATEST + 1, GREATEST + 1),
        (u64::MAX, 0),
    ] {
        // 24 is tested before 25
        assert_eq!(write_record(preceding, tick, Call::Tick, &mut []), Err(24));
        let written = write_record(preceding, tick, Call::Tick, &mut buffer);
        assert_eq!(written, Err(24));
    }
    let call = Call::Activate(128);
    for short in 0..12 {
        let written = write_record(0, GREATEST, call, &mut buffer[..short]);
        assert_eq!(written, Err(25));
    }
    assert_eq!(buffer, [MARK; 12]);
    assert_eq!(write_record(0, GREATEST, call, &mut buffer), Ok(12));
}

#[test]
fn a_table_reads_back() {
    let (lines, after) = read_table(&P).expect("table P");
    assert_eq!(after, 10);
    let mut buffer = [MARK; 11];
    assert_eq!(write_table(&lines, &mut buffer), Ok(10));
    assert_eq!(buffer[..10], P);
    assert_eq!(buffer[10], MARK);
    let mut one = [MARK];
    assert_eq!(write_table(&[], &mut one), Ok(1));
    assert_eq!(one, [0]);
}

#[test]
fn a_table_is_refused() {
    let mut buffer = [MARK; 900];
    assert_eq!(write_table(&[line(1); 256], &mut []), Err(24));
    assert_eq!(write_table(&[line(GREATEST + 1)], &mut []), Err(24));
    assert_eq!(write_table(&[line(GREATEST)], &mut buffer[..11]), Err(25));
    assert_eq!(write_table(&[line(1); 255], &mut buffer[..766]), Err(25));
    assert!(buffer.iter().all(|byte| *byte == MARK));
    assert_eq!(write_table(&[line(GREATEST)], &mut buffer), Ok(12));
    assert_eq!(write_table(&[line(1); 255], &mut buffer), Ok(767));
}

#[test]
fn numbers_read_back_in_their_shortest_form() {
    for bits in 0..63 {
        for value in [(1 << bits) - 1, 1 << bits, (1 << bits) + 1] {
            let mut bytes = Vec::new();
            number::write(value, &mut bytes);
            assert_eq!(number::read(&bytes, 0), Ok((value, bytes.len())));
            for short in 0..bytes.len() {
                assert_eq!(number::read(&bytes[..short], 0), Err(20));
            }
        }
    }
}
