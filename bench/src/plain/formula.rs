//! Book numbers as a formula: their form is checked once, then clauses are read by index.

pub struct Formula<'a> {
    pub variables: usize,
    starts: &'a [u32],
    literals: &'a [u32],
}

impl<'a> Formula<'a> {
    /// The formula, where the numbers have the form of a book.
    pub fn from_numbers(book: &'a [u32]) -> Option<Formula<'a>> {
        let &[variables, clauses, literals, ..] = book else {
            return None;
        };
        if !(1..=500).contains(&variables) || clauses > 1500 || literals > 6000 {
            return None;
        }
        let (starts, rest) = book[3..].split_at_checked(clauses as usize + 1)?;
        let literals = rest.get(..literals as usize)?;
        let formula = Formula {
            variables: variables as usize,
            starts,
            literals,
        };
        formula.is_sound().then_some(formula)
    }

    pub fn clauses(&self) -> usize {
        self.starts.len() - 1
    }

    pub fn clause(&self, c: usize) -> &'a [u32] {
        &self.literals[self.starts[c] as usize..self.starts[c + 1] as usize]
    }

    /// All clauses, in book order.
    pub fn iter(&self) -> impl Iterator<Item = &'a [u32]> + '_ {
        (0..self.clauses()).map(|c| self.clause(c))
    }

    fn is_sound(&self) -> bool {
        if self.starts[0] != 0 || self.starts[self.clauses()] as usize != self.literals.len() {
            return false;
        }
        let mut marks = [0u16; 501];
        for (c, ends) in self.starts.windows(2).enumerate() {
            let Some(clause) = self.literals.get(ends[0] as usize..ends[1] as usize) else {
                return false;
            };
            if !clause_is_sound(clause, self.variables, c as u16 + 1, &mut marks) {
                return false;
            }
        }
        true
    }
}

/// Up to 255 literals of the variables, no variable twice; `tag` marks the variables of this clause.
fn clause_is_sound(clause: &[u32], variables: usize, tag: u16, marks: &mut [u16; 501]) -> bool {
    if clause.len() > 255 {
        return false;
    }
    for &literal in clause {
        let variable = literal as usize / 2;
        if variable == 0 || variable > variables || marks[variable] == tag {
            return false;
        }
        marks[variable] = tag;
    }
    true
}
