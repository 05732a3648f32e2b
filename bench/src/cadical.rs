//! CaDiCaL: asked afresh, a new solver for every question, and kept, one solver for all questions on a book.
use std::ffi::{c_char, c_void, CStr};

extern "C" {
    fn cadical_ask(
        clauses: *const i32,
        n: usize,
        units: *const i32,
        m: usize,
        fixed: *mut i32,
        variables: usize,
    ) -> i32;
    fn cadical_keep(clauses: *const i32, n: usize) -> *mut c_void;
    fn cadical_ask_kept(solver: *mut c_void, assumptions: *const i32, m: usize) -> i32;
    fn cadical_drop(solver: *mut c_void);
    fn cadical_signature() -> *const c_char;
}

/// What CaDiCaL answers in conflict.
const UNSATISFIABLE: i32 = 20;

/// How the linked library names itself.
pub fn signature() -> String {
    unsafe { CStr::from_ptr(cadical_signature()) }
        .to_string_lossy()
        .into_owned()
}

/// The DIMACS number of a literal.
fn dimacs(literal: u32) -> i32 {
    let variable = (literal / 2) as i32;
    if literal % 2 == 1 {
        -variable
    } else {
        variable
    }
}

/// The clauses of well-formed book numbers as DIMACS numbers, each closed by 0.
pub fn clauses_of(book: &[u32]) -> Vec<i32> {
    let clauses = book[1] as usize;
    let literals = &book[clauses + 4..];
    let mut numbers = Vec::new();
    for ends in book[3..clauses + 4].windows(2) {
        numbers.extend(literals[ends[0] as usize..ends[1] as usize].iter().map(|&l| dimacs(l)));
        numbers.push(0);
    }
    numbers
}

/// Whether clauses and decisions propagate without conflict; nothing more is asked.
pub fn ask(clauses: &[i32], decisions: &[u32]) -> bool {
    question(clauses, decisions, &mut [])
}

/// The values that propagation gives each variable (1, -1, 0 open), or nothing in conflict.
pub fn values(clauses: &[i32], decisions: &[u32], variables: usize) -> Option<Vec<i32>> {
    let mut fixed = vec![0; variables];
    question(clauses, decisions, &mut fixed).then_some(fixed)
}

fn numbers(decisions: &[u32]) -> Vec<i32> {
    decisions.iter().map(|&literal| dimacs(literal)).collect()
}

fn question(clauses: &[i32], decisions: &[u32], fixed: &mut [i32]) -> bool {
    let units = numbers(decisions);
    let answer = unsafe {
        cadical_ask(
            clauses.as_ptr(),
            clauses.len(),
            units.as_ptr(),
            units.len(),
            fixed.as_mut_ptr(),
            fixed.len(),
        )
    };
    answer != UNSATISFIABLE
}

/// A solver that is kept over a session.
pub struct Kept(*mut c_void);

impl Kept {
    pub fn new(clauses: &[i32]) -> Kept {
        Kept(unsafe { cadical_keep(clauses.as_ptr(), clauses.len()) })
    }

    /// Whether the decisions propagate without conflict, as far as this solver has learnt.
    pub fn ask(&mut self, decisions: &[u32]) -> bool {
        let assumptions = numbers(decisions);
        unsafe { cadical_ask_kept(self.0, assumptions.as_ptr(), assumptions.len()) != UNSATISFIABLE }
    }
}

impl Drop for Kept {
    fn drop(&mut self) {
        unsafe { cadical_drop(self.0) }
    }
}
