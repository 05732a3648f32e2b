//! The proved engine's steps without examination: what a walk over a session that is known to pass takes.
use crate::script::Call;

extern "C" {
    fn step_decide(book: *const u32, n: usize, session: *mut u32, m: usize, literal: u32);
    fn step_backtrack(book: *const u32, n: usize, session: *mut u32, m: usize, k: u32);
    fn step_fix(book: *const u32, n: usize, session: *mut u32, m: usize, f: u32);
}

/// Takes the step of a call.
///
/// # Safety
/// The book is well-formed, the session passes its examination, and it accepts the call.
pub unsafe fn take(call: Call, book: &[u32], session: &mut [u32]) {
    let (numbers, length) = (session.as_mut_ptr(), session.len());
    match call {
        Call::Decide(literal) => step_decide(book.as_ptr(), book.len(), numbers, length, literal),
        Call::Backtrack(k) => step_backtrack(book.as_ptr(), book.len(), numbers, length, k),
    }
}

/// Takes the step of a fixing.
///
/// # Safety
/// The book is well-formed, and the session passes its examination.
pub unsafe fn fix(f: u32, book: &[u32], session: &mut [u32]) {
    step_fix(book.as_ptr(), book.len(), session.as_mut_ptr(), session.len(), f)
}
