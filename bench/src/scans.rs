//! Long clauses: decisions that scan every clause in full, and the same scans in plain Rust, with a wrapped and with a running position.
use crate::answer::Answer;
use crate::books;
use crate::places::places;
use crate::plan::{self, Group, Task, PROVED};
use crate::script::{session_length, Call, Workload};
use crate::text::grouped;
use std::hint::black_box;
use std::rc::Rc;

/// The lengths of the clauses.
const LENGTHS: [usize; 4] = [4, 32, 128, 255];
/// How often the decision is made.
pub const TIMES: usize = 10;
/// The decision that makes the first literal of every clause false.
const SCANNING: Call = Call::Decide(3);

/// Every literal of every clause but the first two is made false, then the first, again and again: each visit checks the whole clause,
/// finds nothing and implies the second literal.
fn workload(length: usize) -> Workload {
    let book = books::scanned(length);
    let (variables, clauses) = (book[0], book[1]);
    let checks = clauses as usize * (length - 2);
    let mut script: Vec<Call> = (clauses + 2..=variables).map(|v| Call::Decide(2 * v + 1)).collect();
    for _ in 0..TIMES {
        script.extend([SCANNING, Call::Backtrack(1)]);
    }
    Workload {
        name: format!("{clauses} clauses of {length}, {} checks", grouped(checks as f64)),
        book,
        script,
        measured: |call| call == SCANNING,
    }
}

/// The workloads of all lengths.
pub fn workloads() -> Vec<Rc<Workload>> {
    LENGTHS.map(|length| Rc::new(workload(length))).into()
}

/// The session behind a workload: every clause has been checked in full as often as the decision was made.
fn session_of(workload: &Workload) -> Vec<u32> {
    let mut session = vec![0; session_length(&workload.book)];
    workload.run(PROVED, |call, numbers| {
        call.make(PROVED, &workload.book, numbers);
        session.copy_from_slice(numbers);
    });
    let (length, clauses) = (length_of(&workload.book), workload.book[1] as usize);
    let mut checks = vec![0; clauses];
    let answer = PROVED.checks(&workload.book, &session, &mut checks);
    assert!(matches!(answer, Answer::Accepted(_)), "{answer:?}");
    assert!(checks.iter().all(|&made| made as usize == TIMES * (length - 2)));
    session
}

/// The length of the first clause.
fn length_of(book: &[u32]) -> usize {
    (book[4] - book[3]) as usize
}

/// The scan of a clause: the position found and the checks made.
fn scan(clause: &[u32], values: &[u32], cell: [u32; 3], next: impl Fn(usize, usize) -> usize) -> (Option<usize>, u32) {
    let [first, second, pointer] = cell.map(|position| position as usize);
    let mut position = next(clause.len(), pointer);
    let mut made = 0;
    for _ in 0..clause.len() {
        if position != first && position != second {
            made += 1;
            let value = values[clause[position] as usize / 2 - 1];
            if value == 0 || value % 2 == clause[position] % 2 {
                return (Some(position), made);
            }
        }
        position = next(clause.len(), position);
    }
    (None, made)
}

type Scan = fn(&[u32], &[u32], [u32; 3]) -> (Option<usize>, u32);

fn running(clause: &[u32], values: &[u32], cell: [u32; 3]) -> (Option<usize>, u32) {
    scan(
        clause,
        values,
        cell,
        |n, position| if position + 1 < n { position + 1 } else { 0 },
    )
}

fn wrapped(clause: &[u32], values: &[u32], cell: [u32; 3]) -> (Option<usize>, u32) {
    scan(clause, values, cell, |n, position| (position + 1) % n)
}

/// The scans of one such decision in plain Rust, and nothing else of it, measured.
fn scans(scan: Scan, workload: &Rc<Workload>) -> Task {
    let (workload, session) = (workload.clone(), session_of(workload));
    let (places, length) = (places(&workload.book), length_of(&workload.book));
    plan::task(move |probe| {
        let (watches, pointers) = (&session[places.watches.clone()], &session[places.pointers.clone()]);
        let values = &session[places.values.clone()];
        let clauses = workload.book[workload.book[1] as usize + 4..].chunks_exact(length);
        for _ in 0..TIMES {
            probe.call(&mut || {
                for ((clause, watched), &pointer) in clauses.clone().zip(watches.chunks_exact(2)).zip(pointers) {
                    let found = black_box(scan)(clause, values, [watched[0], watched[1], pointer]);
                    assert_eq!(found, (None, length as u32 - 2));
                }
            });
        }
    })
}

/// A group for each length: the decision that scans every clause in full, and its step without examination.
pub fn proved() -> Vec<Group> {
    let group = |workload: &Rc<Workload>| Group {
        name: workload.name.clone(),
        tasks: vec![plan::decide(PROVED, workload), plan::step(workload)],
    };
    workloads().iter().map(group).collect()
}

/// The same, and behind them its scans in plain Rust, with a wrapped and with a running position.
pub fn groups() -> Vec<Group> {
    let mut groups = proved();
    for (group, workload) in groups.iter_mut().zip(&workloads()) {
        group.tasks.extend([scans(wrapped, workload), scans(running, workload)]);
    }
    groups
}
