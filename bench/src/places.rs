//! The places of a session's numbers and parts, as docs/LAYOUT.md has them, for the plain engine and for those who damage and inspect sessions.
use std::ops::Range;

/// The header's numbers, by place: the trail's length, the decisions in force, the conflict clause, the accepted backtracks, the fixed
/// decisions. And how many they are.
pub const LENGTH: usize = 0;
pub const DECISIONS: usize = 1;
pub const CONFLICT: usize = 2;
pub const BACKTRACKS: usize = 3;
pub const FIXED: usize = 4;
pub const HEADER: usize = 5;

pub struct Places {
    pub trail: Range<usize>,
    pub levels: Range<usize>,
    pub values: Range<usize>,
    pub watches: Range<usize>,
    pub pointers: Range<usize>,
    pub heads: Range<usize>,
    pub links: Range<usize>,
}

/// The places on well-formed book numbers.
pub fn places(book: &[u32]) -> Places {
    let (variables, clauses) = (book[0] as usize, book[1] as usize);
    let mut end = HEADER;
    let mut part = |length: usize| {
        end += length;
        end - length..end
    };
    let [trail, levels, values] = [(); 3].map(|()| part(variables));
    let [watches, pointers] = [2 * clauses, clauses].map(&mut part);
    part(clauses); // the checks, of which any will do
    let [heads, links] = [2 * variables, 2 * clauses].map(&mut part);
    Places {
        trail,
        levels,
        values,
        watches,
        pointers,
        heads,
        links,
    }
}

impl Places {
    /// Takes a node, from 1, out of the list that it stands in.
    pub fn unlink(&self, session: &mut [u32], node: usize) {
        let next = session[self.links.start + node - 1];
        let mut slots = self.heads.clone().chain(self.links.clone());
        if let Some(slot) = slots.find(|&slot| session[slot] == node as u32) {
            session[slot] = next;
        }
    }

    /// Puts a node, from 1, at the front of a literal's list.
    pub fn push_front(&self, session: &mut [u32], literal: u32, node: usize) {
        let head = self.heads.start + literal as usize - 2;
        session[self.links.start + node - 1] = session[head];
        session[head] = node as u32;
    }
}
