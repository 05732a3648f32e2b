//! The validation of a lent session: trail, reasons, watches, watch lists, and the fixpoint of propagation.
use super::formula::Formula;
use super::layout::Parts;
use crate::places::{BACKTRACKS, CONFLICT, DECISIONS, FIXED, LENGTH};

type Shared<'a> = Parts<&'a [u32]>;

/// Whether the numbers are those of a valid run.
pub fn passes(formula: &Formula, session: &Shared) -> bool {
    let conflict = session.header[CONFLICT] as usize;
    conflict <= formula.clauses()
        && session.header[BACKTRACKS] <= 1_000_000
        && session.header[FIXED] <= session.header[DECISIONS]
        && trail_passes(session)
        && reasons_pass(formula, session)
        && watches_pass(formula, session)
        && lists_pass(formula, session)
        && match conflict {
            0 => fixpoint(formula, session, u32::MAX),
            name => conflict_passes(formula, session, name - 1),
        }
}

/// Trail, levels and values agree, and nothing lies behind the end of the trail.
fn trail_passes(session: &Shared) -> bool {
    let count = session.header[LENGTH] as usize;
    if count > session.trail.len() {
        return false;
    }
    let mut before = 0;
    for (i, (&literal, &level)) in session.trail.iter().zip(session.levels).take(count).enumerate() {
        if level < before || level - before > 1 {
            return false;
        }
        before = level;
        let Some(&value) = session.values.get((literal as usize / 2).wrapping_sub(1)) else {
            return false;
        };
        if value != 2 * (i as u32 + 1) + literal % 2 {
            return false;
        }
    }
    before == session.header[DECISIONS]
        && session.trail[count..].iter().all(|&number| number == 0)
        && session.levels[count..].iter().all(|&number| number == 0)
        && session.values.iter().filter(|&&value| value != 0).count() == count
}

/// The place, from 1, of the literal that a clause implies: its others are false before it. 0 where it implies none.
fn implied_place(clause: &[u32], values: &[u32]) -> usize {
    let mut implied = 0;
    let mut latest = 0;
    for &literal in clause {
        let value = values[literal as usize / 2 - 1];
        let place = value / 2;
        if value == 0 {
            return 0;
        }
        if value % 2 != literal % 2 {
            latest = latest.max(place);
        } else if implied == 0 {
            implied = place;
        } else {
            return 0;
        }
    }
    if latest < implied {
        implied as usize
    } else {
        0
    }
}

/// Each literal on the trail that is no decision is implied by a clause.
fn reasons_pass(formula: &Formula, session: &Shared) -> bool {
    let mut implied = [false; 501];
    for clause in formula.iter() {
        implied[implied_place(clause, session.values)] = true;
    }
    let mut before = 0;
    for (i, &level) in session.levels[..session.header[LENGTH] as usize].iter().enumerate() {
        if level == before && !implied[i + 1] {
            return false;
        }
        before = level;
    }
    true
}

/// Two different watches within each clause, the pointer at one of them; zeros for a clause of fewer than two literals.
fn watches_pass(formula: &Formula, session: &Shared) -> bool {
    let cells = session.watches.chunks_exact(2).zip(session.pointers);
    formula.iter().zip(cells).all(|(clause, (watches, &pointer))| {
        let (first, second) = (watches[0], watches[1]);
        if clause.len() < 2 {
            return first == 0 && second == 0 && pointer == 0;
        }
        (first as usize) < clause.len()
            && (second as usize) < clause.len()
            && first != second
            && (pointer == first || pointer == second)
    })
}

/// Every watch stands once in the list of its literal; the nodes of a clause of fewer than two literals are in none.
fn lists_pass(formula: &Formula, session: &Shared) -> bool {
    let mut met = [false; 3000];
    for (literal, &head) in (2..).zip(session.heads) {
        let mut node = head as usize;
        while node != 0 {
            if node > session.links.len() || met[node - 1] {
                return false;
            }
            let clause = formula.clause((node - 1) / 2);
            if clause.len() < 2 || clause[session.watches[node - 1] as usize] != literal {
                return false;
            }
            met[node - 1] = true;
            node = session.links[node - 1] as usize;
        }
    }
    let nodes = met.chunks_exact(2).zip(session.links.chunks_exact(2));
    formula.iter().zip(nodes).all(|(clause, (met, links))| {
        if clause.len() < 2 {
            links[0] == 0 && links[1] == 0
        } else {
            met[0] && met[1]
        }
    })
}

/// The level of a true literal, where it is below `limit`.
fn level_of(session: &Shared, limit: u32, literal: u32) -> Option<u32> {
    let value = session.values[literal as usize / 2 - 1];
    if value == 0 || value % 2 != literal % 2 {
        return None;
    }
    let level = session.levels[value as usize / 2 - 1];
    (level < limit).then_some(level)
}

/// Where the literal `a` is false, `b` is true at a level not above.
fn guards(session: &Shared, limit: u32, a: u32, b: u32) -> bool {
    match level_of(session, limit, a ^ 1) {
        None => true,
        Some(against) => level_of(session, limit, b).is_some_and(|level| level <= against),
    }
}

/// Nothing is left to propagate on the levels below `limit`.
fn fixpoint(formula: &Formula, session: &Shared, limit: u32) -> bool {
    formula
        .iter()
        .zip(session.watches.chunks_exact(2))
        .all(|(clause, watches)| match clause {
            [] => true,
            &[literal] => level_of(session, limit, literal) == Some(0),
            _ => {
                let a = clause[watches[0] as usize];
                let b = clause[watches[1] as usize];
                guards(session, limit, a, b) && guards(session, limit, b, a)
            }
        })
}

/// The conflict clause has literals, all false, and the trail without its top level is at the fixpoint.
fn conflict_passes(formula: &Formula, session: &Shared, c: usize) -> bool {
    let decisions = session.header[DECISIONS];
    let clause = formula.clause(c);
    let is_false = |&literal: &u32| level_of(session, u32::MAX, literal ^ 1).is_some();
    !clause.is_empty() && clause.iter().all(is_false) && (decisions == 0 || fixpoint(formula, session, decisions))
}
