//! Tables that the check of document 01 accepts, drawn at random.

use crate::random::Random;
use crate::table::{Line, LONGEST, MOST};

// a relative deadline of any order
pub fn length(random: &mut Random) -> u64 {
    match random.below(8) {
        0 => 1,
        1 | 2 => random.from_to(1, 4),
        3 | 4 => random.from_to(1, 20),
        5 => random.from_to(1, 300),
        6 => random.from_to(1, LONGEST),
        _ => random.pick(&[1, 2, 127, 128, 16_383, 16_384, LONGEST - 1, LONGEST]),
    }
}

// relative deadlines of one order, some of them equal
pub fn lengths(count: usize, random: &mut Random) -> Vec<u64> {
    let scale = random.pick(&[3, 8, 20, 40, 60, 200, 5_000, LONGEST]);
    let pool: Vec<u64> = (0..random.from_to(1, 6))
        .map(|_| random.from_to(1, scale))
        .collect();
    let pooled = random.below(4);
    (0..count)
        .map(|_| {
            if random.below(4) < pooled {
                random.pick(&pool)
            } else {
                random.from_to(1, scale)
            }
        })
        .collect()
}

// a band of priorities for each D, the shorter the higher; limits 1
pub fn with_priorities(ds: &[u64], equal: bool, random: &mut Random) -> Vec<Line> {
    let mut falling = ds.to_vec();
    falling.sort_unstable();
    falling.dedup();
    falling.reverse();
    let bands = falling.len() as u64;
    let widest = 256 / bands;
    let width = if random.one_in(2) {
        1
    } else {
        random.from_to(1, widest)
    };
    let lowest = random.pick(&[0, 256 - bands * width, (256 - bands * width) / 2]);
    ds.iter()
        .map(|d| {
            let band = falling.iter().take_while(|longer| *longer > d).count() as u64;
            let within = if equal { 0 } else { random.below(width) };
            Line {
                d: *d,
                priority: (lowest + band * width + within) as u8,
                limit: 1,
            }
        })
        .collect()
}

// raises the limits; their sum stays at most 32
pub fn limits(lines: &mut [Line], random: &mut Random) {
    let room = (MOST - lines.len()) as u64;
    let more = match random.below(3) {
        0 => room,
        1 => random.from_to(0, room),
        _ => random.from_to(0, room.min(lines.len() as u64)),
    };
    let favoured = random.place(lines.len());
    for _ in 0..more {
        let place = if random.one_in(4) {
            favoured
        } else {
            random.place(lines.len())
        };
        lines[place].limit += 1;
    }
}

// one line's limit brings the sum to 32
pub fn raise_limits(lines: &mut [Line], random: &mut Random) {
    let sum: usize = lines.iter().map(|line| usize::from(line.limit)).sum();
    let place = random.place(lines.len());
    lines[place].limit += (MOST - sum) as u8;
}

pub fn mixed_table(random: &mut Random) -> Vec<Line> {
    let count = match random.below(4) {
        0 => random.from_to(1, 3),
        1 | 2 => random.from_to(2, 8),
        _ => random.from_to(1, 32),
    };
    let ds = lengths(count as usize, random);
    let mut lines = with_priorities(&ds, false, random);
    limits(&mut lines, random);
    lines
}
