//! Bytes that are hardly a tape of document 01: damaged ones and random ones.

use super::tables::mixed_table;
use super::{draw, Family};
use crate::random::Random;
use crate::tape::table_bytes;

fn short_valid(random: &mut Random) -> Vec<u8> {
    let families = [Family::Mixed, Family::Nest, Family::Far, Family::Fill];
    let family = families[random.by_weight(&[6, 1, 2, 1])];
    draw(family, random)
}

pub fn damaged(random: &mut Random) -> Vec<u8> {
    let mut bytes = short_valid(random);
    for _ in 0..random.pick(&[1, 1, 1, 1, 2, 3]) {
        if bytes.is_empty() {
            break;
        }
        // in the table or anywhere
        let within = if random.one_in(4) {
            bytes.len().min(12)
        } else {
            bytes.len()
        };
        let place = random.place(within);
        match random.below(9) {
            0 | 1 => bytes[place] ^= 1 << random.below(8),
            2 => bytes.insert(place, random.byte()),
            3 => {
                bytes.remove(place);
            }
            4 => bytes.insert(place, bytes[place]),
            5 => bytes[place] = random.pick(&[0x80, 0xFF, 0x00]),
            6 => bytes.truncate(place),
            7 => {
                for _ in 0..random.from_to(1, 12) {
                    let any = random.byte();
                    bytes.push(random.pick(&[0, 1, 2, 3, 4, 0x80, 0xFF, any]));
                }
            }
            _ => {
                let other = short_valid(random);
                let from = random.place(other.len());
                bytes.truncate(place);
                bytes.extend(&other[from..]);
            }
        }
    }
    bytes
}

// small bytes, so that some get past the table
pub fn small_bytes(random: &mut Random) -> Vec<u8> {
    let count = random.from_to(0, 3);
    let mut bytes = vec![count as u8];
    for line in 0..count {
        let priority = random.from_to(9 - 3 * line, 11 - 3 * line) as u8;
        let d = random.from_to(1 + 3 * line, 4 + 3 * line) as u8;
        bytes.extend([d, priority, random.from_to(1, 11) as u8]);
    }
    let length = random.below(200);
    let bound = random.pick(&[4, 4, 4, 5, 8]);
    for _ in 0..length {
        bytes.push(random.below(bound) as u8);
    }
    bytes
}

// a good table, then bytes of some kind
pub fn random_records(random: &mut Random) -> Vec<u8> {
    let mut bytes = table_bytes(&mixed_table(random));
    let odd = random.pick(&[6, 20, 60]);
    for _ in 0..random.below(120) {
        let any = random.byte();
        bytes.push(if random.one_in(odd) {
            random.pick(&[any, any, 0x80, 0xFF])
        } else {
            any % 4
        });
    }
    bytes
}
