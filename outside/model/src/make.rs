//! Tapes from a seed, in families; each is made from seed and index alone.

mod bytes;
mod ends;
mod records;
mod refused;
mod tables;

use crate::edges::edges;
use crate::random::Random;
use crate::table::{Line, MOST};
use bytes::{damaged, random_records, small_bytes};
use ends::ends;
use records::{far, fill, long, mixed, nest};
use refused::refused_table;
use tables::{length, lengths, limits, mixed_table, with_priorities};

/// The families that are drawn, with their weights.
pub const FAMILIES: [(Family, &str, u64); 15] = [
    (Family::Mixed, "valid: mixed", 230),
    (Family::EqualD, "valid: all D equal", 50),
    (Family::Ones, "valid: 32 lines of limit 1", 50),
    (Family::OneLine, "valid: one line", 30),
    (Family::Fill, "valid: fill and drain", 80),
    (Family::EqualPriorities, "valid: equal priorities", 50),
    (Family::Nest, "valid: nest", 80),
    (Family::Far, "valid: near the greatest tick", 60),
    (Family::Long, "valid: long", 4),
    (Family::Ends, "ends with jobs pending", 200),
    (Family::RefusedTable, "tables to be refused", 100),
    (Family::Damaged, "damaged", 160),
    (Family::RandomBytes, "random bytes", 40),
    (Family::SmallBytes, "random bytes: small", 33),
    (Family::RandomRecords, "random bytes: behind a table", 33),
];

/// The family of the fixed list.
pub const EDGES: &str = "edges";

#[derive(Clone, Copy, Debug, PartialEq, Eq)]
pub enum Family {
    Mixed,
    EqualD,
    Ones,
    OneLine,
    Fill,
    EqualPriorities,
    Nest,
    Far,
    Long,
    Ends,
    RefusedTable,
    Damaged,
    RandomBytes,
    SmallBytes,
    RandomRecords,
}

/// The edges, and what is drawn behind them.
pub struct Maker {
    edges: Vec<Vec<u8>>,
}

impl Default for Maker {
    fn default() -> Maker {
        Maker { edges: edges() }
    }
}

impl Maker {
    pub fn edges(&self) -> usize {
        self.edges.len()
    }

    /// The family and the bytes of one tape.
    pub fn tape(&self, seed: u64, index: u64) -> (&'static str, Vec<u8>) {
        if let Some(edge) = self.edges.get(index as usize) {
            return (EDGES, edge.clone());
        }
        let mut random = Random::of(seed, index);
        let weights: Vec<u64> = FAMILIES.iter().map(|(_, _, weight)| *weight).collect();
        let (family, name, _) = FAMILIES[random.by_weight(&weights)];
        (name, draw(family, &mut random))
    }
}

/// A tape of a family.
pub fn draw(family: Family, random: &mut Random) -> Vec<u8> {
    match family {
        Family::Mixed => {
            let lines = mixed_table(random);
            mixed(lines, random)
        }
        Family::EqualD => {
            let d = length(random);
            let count = random.from_to(1, 32) as usize;
            let mut lines = with_priorities(&vec![d; count], false, random);
            limits(&mut lines, random);
            mixed(lines, random)
        }
        Family::Ones => {
            let ds = lengths(MOST, random);
            let lines = with_priorities(&ds, false, random);
            mixed(lines, random)
        }
        Family::OneLine => {
            let limit = random.pick(&[1, 2, 31, 32, 32, 32]);
            let line = Line {
                d: length(random),
                priority: random.byte(),
                limit,
            };
            if random.one_in(2) {
                fill(vec![line], random)
            } else {
                mixed(vec![line], random)
            }
        }
        Family::Fill => {
            let lines = mixed_table(random);
            fill(lines, random)
        }
        Family::EqualPriorities => {
            let count = random.from_to(2, 32) as usize;
            let ds = lengths(count, random);
            let mut lines = with_priorities(&ds, true, random);
            limits(&mut lines, random);
            mixed(lines, random)
        }
        Family::Nest => nest(random),
        Family::Far => far(random),
        Family::Long => long(random),
        Family::Ends => ends(random),
        Family::RefusedTable => refused_table(random),
        Family::Damaged => damaged(random),
        Family::RandomBytes => {
            let length = random.below(201);
            (0..length).map(|_| random.byte()).collect()
        }
        Family::SmallBytes => small_bytes(random),
        Family::RandomRecords => random_records(random),
    }
}
