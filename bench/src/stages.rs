//! Sessions that fail validation at the very end of one stage, so that a call on them costs all up to it.
use crate::places::{places, CONFLICT, DECISIONS, LENGTH};
use crate::plain::Plain;
use crate::script::{Call, Workload};

/// The stages in their order, with the function of the proved code; the last session passes.
pub const STAGES: [(&str, &str); 5] = [
    ("trail and values", "validation::trail::trail_passes"),
    ("reasons", "validation::reasons::justified"),
    ("watches and pointers", "validation::cells::cells_pass"),
    ("watch lists", "validation::lists::lists_pass"),
    ("fixpoint", "validation::fixpoint::fixpoint"),
];

/// Whether every stage can fail at its end: the last variable is open, and the last level has its decision only.
fn suits(book: &[u32], session: &[u32]) -> bool {
    let places = places(book);
    let count = session[LENGTH] as usize;
    let levels = &session[places.levels];
    count >= 2
        && session[CONFLICT] == 0
        && session[places.values.end - 1] == 0
        && levels[count - 1] == levels[count - 2] + 1
}

/// The session, damaged so that it fails at the end of stage `stage`.
fn damaged(book: &[u32], session: &[u32], stage: usize) -> Vec<u32> {
    let places = places(book);
    let mut session = session.to_vec();
    match stage {
        0 => session[places.values.end - 1] = 1,
        1 => {
            let last = places.levels.start + session[LENGTH] as usize - 1;
            session[last] -= 1;
            session[DECISIONS] -= 1;
        }
        2 => session[places.pointers.end - 1] = 255,
        3 => places.unlink(&mut session, places.links.len()),
        _ => {}
    }
    session
}

/// Damaged sessions of one stage, from up to `most` states of a workload.
pub fn sessions(workload: &Workload, stage: usize, most: usize) -> Vec<Vec<u32>> {
    let mut sessions = Vec::new();
    workload.run(&Plain, |call: Call, session| {
        if sessions.len() < most && suits(&workload.book, session) {
            sessions.push(damaged(&workload.book, session, stage));
        }
        call.make(&Plain, &workload.book, session);
    });
    sessions
}
