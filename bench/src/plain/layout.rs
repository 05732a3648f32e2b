//! The parts of a session's numbers, as docs/LAYOUT.md has them.
use crate::places::HEADER;

/// The parts, shared (`&[u32]`) or lent (`&mut [u32]`).
pub struct Parts<S> {
    pub header: S,
    pub trail: S,
    pub levels: S,
    pub values: S,
    pub watches: S,
    pub pointers: S,
    pub checks: S,
    pub heads: S,
    pub links: S,
}

pub fn required_length(variables: usize, clauses: usize) -> usize {
    HEADER + 5 * variables + 6 * clauses
}

fn split<S>(session: S, variables: usize, clauses: usize, at: impl Fn(S, usize) -> (S, S)) -> Parts<S> {
    let (header, rest) = at(session, HEADER);
    let (trail, rest) = at(rest, variables);
    let (levels, rest) = at(rest, variables);
    let (values, rest) = at(rest, variables);
    let (watches, rest) = at(rest, 2 * clauses);
    let (pointers, rest) = at(rest, clauses);
    let (checks, rest) = at(rest, clauses);
    let (heads, rest) = at(rest, 2 * variables);
    let (links, _) = at(rest, 2 * clauses);
    Parts {
        header,
        trail,
        levels,
        values,
        watches,
        pointers,
        checks,
        heads,
        links,
    }
}

/// The parts of a session, where it is long enough.
pub fn shared(session: &[u32], variables: usize, clauses: usize) -> Option<Parts<&[u32]>> {
    (session.len() >= required_length(variables, clauses))
        .then(|| split(session, variables, clauses, <[u32]>::split_at))
}

/// The parts of a session that is long enough.
pub fn lent(session: &mut [u32], variables: usize, clauses: usize) -> Parts<&mut [u32]> {
    split(session, variables, clauses, <[u32]>::split_at_mut)
}
