//! The run on a valid session: opening, decision, propagation, backtrack.
use super::formula::Formula;
use super::layout::Parts;
use crate::places::{BACKTRACKS, CONFLICT, DECISIONS, LENGTH};

/// A formula with the session that is changed.
pub struct Run<'a> {
    pub formula: &'a Formula<'a>,
    pub session: Parts<&'a mut [u32]>,
}

/// What became of a visited clause.
enum Visit {
    Kept,
    Moved,
    Conflict,
}

impl Run<'_> {
    /// Opens the session: watches, clauses of one literal, propagation.
    pub fn open(&mut self) {
        self.clear();
        for c in 0..self.formula.clauses() {
            let clause = self.formula.clause(c);
            if clause.len() >= 2 {
                self.session.watches[2 * c + 1] = 1;
                self.session.pointers[c] = 1;
                self.push_front(clause[0], 2 * c + 1);
                self.push_front(clause[1], 2 * c + 2);
            }
        }
        if self.assign_units() {
            self.propagate(0);
        }
    }

    fn clear(&mut self) {
        let session = &mut self.session;
        session.header.fill(0);
        session.trail.fill(0);
        session.levels.fill(0);
        session.values.fill(0);
        session.heads.fill(0);
        session.watches.fill(0);
        session.pointers.fill(0);
        session.links.fill(0);
        session.checks.fill(0);
    }

    /// Assigns the clauses of one literal, in book order; false where one is a conflict.
    fn assign_units(&mut self) -> bool {
        for c in 0..self.formula.clauses() {
            let &[literal] = self.formula.clause(c) else {
                continue;
            };
            if self.is_false(literal) {
                self.session.header[CONFLICT] = c as u32 + 1;
                return false;
            }
            if !self.is_true(literal) {
                self.assign(literal);
            }
        }
        true
    }

    /// A new level with this literal, then propagation.
    pub fn decide(&mut self, literal: u32) {
        let handled = self.session.header[LENGTH] as usize;
        self.session.header[DECISIONS] += 1;
        self.assign(literal);
        self.propagate(handled);
    }

    /// The last k levels leave the trail, and a conflict is over.
    pub fn backtrack(&mut self, k: u32) {
        let session = &mut self.session;
        let level = session.header[DECISIONS] - k;
        let mut count = session.header[LENGTH] as usize;
        while count > 0 && session.levels[count - 1] > level {
            count -= 1;
            session.values[session.trail[count] as usize / 2 - 1] = 0;
            session.trail[count] = 0;
            session.levels[count] = 0;
        }
        session.header[LENGTH] = count as u32;
        session.header[DECISIONS] = level;
        session.header[CONFLICT] = 0;
        session.header[BACKTRACKS] += 1;
    }

    pub fn value(&self, literal: u32) -> u32 {
        self.session.values[literal as usize / 2 - 1]
    }

    fn is_true(&self, literal: u32) -> bool {
        let value = self.value(literal);
        value != 0 && value % 2 == literal % 2
    }

    fn is_false(&self, literal: u32) -> bool {
        let value = self.value(literal);
        value != 0 && value % 2 != literal % 2
    }

    /// The literal joins the trail at the present level.
    fn assign(&mut self, literal: u32) {
        let session = &mut self.session;
        let count = session.header[LENGTH] as usize;
        session.trail[count] = literal;
        session.levels[count] = session.header[DECISIONS];
        session.values[literal as usize / 2 - 1] = 2 * (count as u32 + 1) + literal % 2;
        session.header[LENGTH] += 1;
    }

    fn push_front(&mut self, literal: u32, node: usize) {
        let head = &mut self.session.heads[literal as usize - 2];
        self.session.links[node - 1] = *head;
        *head = node as u32;
    }

    /// Handles the trail literals behind the first `handled`, in trail order, up to a conflict.
    fn propagate(&mut self, mut handled: usize) {
        while handled < self.session.header[LENGTH] as usize {
            let literal = self.session.trail[handled] ^ 1;
            let mut before = 0;
            let mut node = self.session.heads[literal as usize - 2] as usize;
            while node != 0 {
                let next = self.session.links[node - 1] as usize;
                match self.visit(literal, before, node) {
                    Visit::Kept => before = node,
                    Visit::Moved => {}
                    Visit::Conflict => return,
                }
                node = next;
            }
            handled += 1;
        }
    }

    /// Visits the clause of a node in the list of a false literal; `before` is the node before it, 0 at the head.
    fn visit(&mut self, literal: u32, before: usize, node: usize) -> Visit {
        let c = (node - 1) / 2;
        let clause = self.formula.clause(c);
        let other = clause[self.session.watches[(node - 1) ^ 1] as usize];
        if self.is_true(other) {
            return Visit::Kept;
        }
        let (found, made) = self.scan(clause, c);
        self.session.checks[c] = self.session.checks[c].saturating_add(made);
        if let Some(position) = found {
            self.session.watches[node - 1] = position as u32;
            self.session.pointers[c] = position as u32;
            self.unlink(literal, before, node);
            self.push_front(clause[position], node);
            Visit::Moved
        } else if self.is_false(other) {
            self.session.header[CONFLICT] = c as u32 + 1;
            Visit::Conflict
        } else {
            self.assign(other);
            Visit::Kept
        }
    }

    fn unlink(&mut self, literal: u32, before: usize, node: usize) {
        let next = self.session.links[node - 1];
        if before == 0 {
            self.session.heads[literal as usize - 2] = next;
        } else {
            self.session.links[before - 1] = next;
        }
    }

    /// From behind the pointer once around: the first unwatched position that is not false, and the checks made.
    fn scan(&self, clause: &[u32], c: usize) -> (Option<usize>, u32) {
        let first = self.session.watches[2 * c] as usize;
        let second = self.session.watches[2 * c + 1] as usize;
        let pointer = self.session.pointers[c] as usize;
        let mut made = 0;
        for position in (pointer + 1..clause.len()).chain(0..=pointer) {
            if position == first || position == second {
                continue;
            }
            made += 1;
            if !self.is_false(clause[position]) {
                return (Some(position), made);
            }
        }
        (None, made)
    }
}
