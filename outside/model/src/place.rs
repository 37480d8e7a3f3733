//! Document 02, Q-3: what insertion promises stays, so a place found from the back is the one from the front.

use crate::layer::{Inserted, Job};

/// The place from the front: so many jobs have an earlier or the same deadline.
pub fn from_the_front(list: &[Job], due: u64) -> usize {
    list.iter().take_while(|job| job.due <= due).count()
}

/// The list is the one without the new job; an error where that went to another place than from the
/// front, or where not just those that went one place back, and one more where there is one, were read.
pub fn same_place(list: &[Job], due: u64, inserted: Inserted) -> Result<(), String> {
    let Inserted { place, looked } = inserted;
    let from_front = from_the_front(list, due);
    if place != from_front {
        return Err(format!(
            "the new job's place is {place} from the back, {from_front} from the front"
        ));
    }
    let went_back = list.len() - from_front;
    let to_be_read = went_back + usize::from(from_front > 0);
    if looked != to_be_read {
        return Err(format!(
            "places read for the new job: {looked}, to be read: {to_be_read}"
        ));
    }
    Ok(())
}
