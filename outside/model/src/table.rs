//! Document 01, "The task table": lines, and the check with its numbers 1 to 5.

/// At most so many lines, and so many jobs pending.
pub const MOST: usize = 32;
/// The longest relative deadline.
pub const LONGEST: u64 = 1_000_000_000;

/// A line; its place from 0 is its task number.
#[derive(Clone, Copy, Debug, PartialEq, Eq)]
pub struct Line {
    pub d: u64,
    pub priority: u8,
    pub limit: u8,
}

/// The check's number and the lines it names.
#[derive(Clone, Copy, Debug, PartialEq, Eq)]
pub struct Refusal {
    pub number: u8,
    pub first: Option<usize>,
    pub second: Option<usize>,
}

fn refuse(number: u8, first: Option<usize>, second: Option<usize>) -> Result<(), Refusal> {
    Err(Refusal {
        number,
        first,
        second,
    })
}

/// For any two lines, the shorter D has the strictly higher priority.
pub fn breaks(one: Line, other: Line) -> bool {
    (one.d < other.d && one.priority <= other.priority)
        || (other.d < one.d && other.priority <= one.priority)
}

/// Answers in the order of the table of numbers.
pub fn check(lines: &[Line]) -> Result<(), Refusal> {
    if lines.is_empty() || lines.len() > MOST {
        return refuse(1, None, None);
    }
    for (place, line) in lines.iter().enumerate() {
        if line.d < 1 || line.d > LONGEST {
            return refuse(2, Some(place), None);
        }
        if line.limit < 1 || usize::from(line.limit) > MOST {
            return refuse(3, Some(place), None);
        }
    }
    let sum: usize = lines.iter().map(|line| usize::from(line.limit)).sum();
    if sum > MOST {
        return refuse(4, None, None);
    }
    for first in 0..lines.len() {
        for second in first + 1..lines.len() {
            if breaks(lines[first], lines[second]) {
                return refuse(5, Some(first), Some(second));
            }
        }
    }
    Ok(())
}
