//! Tables to be refused with document 01's 1 to 5, and some at the borders that aren't.

use super::tables::mixed_table;
use crate::layer::GREATEST;
use crate::number::write;
use crate::random::Random;
use crate::table::{Line, LONGEST};
use crate::tape::table_bytes;

pub fn refused_table(random: &mut Random) -> Vec<u8> {
    let mut lines = mixed_table(random);
    match random.below(7) {
        0 => return bad_count(random),
        1 => bad_d(&mut lines, random),
        2 => bad_limit(&mut lines, random),
        3 => bad_sum(&mut lines, random),
        4 | 5 => bad_pair(&mut lines, random),
        _ => {
            // more than one reason
            for _ in 0..random.from_to(2, 4) {
                match random.below(4) {
                    0 => bad_d(&mut lines, random),
                    1 => bad_limit(&mut lines, random),
                    2 => bad_sum(&mut lines, random),
                    _ => bad_pair(&mut lines, random),
                }
            }
        }
    }
    let mut bytes = table_bytes(&lines);
    tail(&mut bytes, random);
    bytes
}

// records or anything behind the table
fn tail(bytes: &mut Vec<u8>, random: &mut Random) {
    for _ in 0..random.below(12) {
        let byte = random.byte();
        bytes.push(if random.one_in(4) { byte } else { byte % 4 });
    }
}

fn bad_count(random: &mut Random) -> Vec<u8> {
    let counts = [0, 31, 32, 33, 34, 64, 127, 128, 254, 255, 256, 257];
    let count = random.pick(&counts);
    let mut bytes = Vec::new();
    write(count, &mut bytes);
    if random.one_in(2) {
        let d = random.from_to(1, 100);
        for _ in 0..count {
            write(d, &mut bytes);
            bytes.extend([7, 1]);
        }
        if random.one_in(3) {
            bytes.pop();
        }
    }
    tail(&mut bytes, random);
    bytes
}

fn bad_d(lines: &mut [Line], random: &mut Random) {
    let place = random.place(lines.len());
    let any = random.from_to(LONGEST + 1, GREATEST);
    let ds = [0, 0, 1, LONGEST, LONGEST + 1, LONGEST + 1, any, GREATEST];
    lines[place].d = random.pick(&ds);
}

fn bad_limit(lines: &mut [Line], random: &mut Random) {
    let place = random.place(lines.len());
    let any = random.from_to(33, 255) as u8;
    lines[place].limit = random.pick(&[0, 0, 32, 33, 33, any, 255]);
}

// the sum is 32 to 34, or far above
fn bad_sum(lines: &mut [Line], random: &mut Random) {
    let sum = random.pick(&[32, 33, 33, 34, 64, 1_024]);
    let mut now: u64 = lines.iter().map(|line| u64::from(line.limit)).sum();
    for _ in 0..2_000 {
        let place = random.place(lines.len());
        if now < sum && lines[place].limit < 32 {
            lines[place].limit += 1;
            now += 1;
        }
    }
}

// priorities equal or reversed
fn bad_pair(lines: &mut [Line], random: &mut Random) {
    for _ in 0..random.from_to(1, 3) {
        let (one, other) = (random.place(lines.len()), random.place(lines.len()));
        let (of_one, of_other) = (lines[one].priority, lines[other].priority);
        match random.below(3) {
            0 => lines[one].priority = of_other,
            1 => {
                lines[one].priority = of_other;
                lines[other].priority = of_one;
            }
            _ => lines[one].priority = random.byte(),
        }
    }
}
