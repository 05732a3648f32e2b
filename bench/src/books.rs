//! Generated formulas, as book numbers and as text.
use crate::random::Random;

/// The sizes V, C and L of a formula.
#[derive(Clone, Copy)]
pub struct Size {
    pub variables: usize,
    pub clauses: usize,
    pub literals: usize,
}

pub const LIMITS: Size = Size {
    variables: 500,
    clauses: 1500,
    literals: 6000,
};

pub const TENTH: Size = Size {
    variables: 50,
    clauses: 150,
    literals: 600,
};

/// A clause of `length` different variables, `first` literals given.
fn clause(random: &mut Random, variables: usize, length: usize, first: &[u32]) -> Vec<u32> {
    let mut literals = first.to_vec();
    while literals.len() < length {
        let variable = 1 + random.below(variables) as u32;
        if literals.iter().all(|&literal| literal / 2 != variable) {
            literals.push(2 * variable + random.below(2) as u32);
        }
    }
    literals
}

/// `count` lengths of sum `total`, each from 2 on, spread around the mean.
fn lengths(random: &mut Random, count: usize, total: usize) -> Vec<usize> {
    let mean = total / count;
    let mut lengths: Vec<usize> = (0..count).map(|c| mean + usize::from(c < total % count)).collect();
    for _ in 0..2 * count {
        let (from, to) = (random.below(count), random.below(count));
        if from != to && lengths[from] > 2 && lengths[to] < 255 {
            lengths[from] -= 1;
            lengths[to] += 1;
        }
    }
    lengths
}

/// Random clauses of 2 literals and more.
pub fn mixed(random: &mut Random, size: Size) -> Vec<u32> {
    let clauses: Vec<Vec<u32>> = lengths(random, size.clauses, size.literals)
        .into_iter()
        .map(|length| clause(random, size.variables, length, &[]))
        .collect();
    numbers_of(size.variables, &clauses)
}

/// A chain of binary implications through all variables, and random clauses with a positive literal each.
pub fn chain(random: &mut Random, size: Size) -> Vec<u32> {
    let links = size.variables - 1;
    let mut clauses: Vec<Vec<u32>> = (1..=links as u32).map(|v| vec![2 * v + 1, 2 * v + 2]).collect();
    for length in lengths(random, size.clauses - links, size.literals - 2 * links) {
        let positive = 2 * (1 + random.below(size.variables) as u32);
        let mut literals = clause(random, size.variables, length, &[positive]);
        random.shuffle(&mut literals);
        clauses.push(literals);
    }
    random.shuffle(&mut clauses);
    numbers_of(size.variables, &clauses)
}

/// Clauses of one length.
pub fn uniform(random: &mut Random, variables: usize, clauses: usize, length: usize) -> Vec<u32> {
    let clauses: Vec<Vec<u32>> = (0..clauses).map(|_| clause(random, variables, length, &[])).collect();
    numbers_of(variables, &clauses)
}

/// As many clauses of one length as there can be: each has the first variable, one of its own, and then those that all of them share.
pub fn scanned(length: usize) -> Vec<u32> {
    let shared = length - 2;
    let count = (LIMITS.literals / length).min(LIMITS.variables - 1 - shared) as u32;
    let clause = |c: u32| [1, 2 + c].into_iter().chain((0..shared as u32).map(|i| 2 + count + i));
    let clauses: Vec<Vec<u32>> = (0..count).map(|c| clause(c).map(|v| 2 * v).collect()).collect();
    numbers_of(1 + count as usize + shared, &clauses)
}

/// A few clauses over few variables, clauses of one literal among them.
pub fn small(random: &mut Random) -> Vec<u32> {
    let variables = 1 + random.below(9);
    let clauses: Vec<Vec<u32>> = (0..random.below(14))
        .map(|_| {
            let length = if random.once_in(8) {
                1
            } else {
                1 + random.below(variables)
            };
            clause(random, variables, length, &[])
        })
        .collect();
    numbers_of(variables, &clauses)
}

/// The book numbers of clauses.
fn numbers_of(variables: usize, clauses: &[Vec<u32>]) -> Vec<u32> {
    let literals: usize = clauses.iter().map(Vec::len).sum();
    let mut numbers = vec![variables as u32, clauses.len() as u32, literals as u32, 0];
    let mut start = 0;
    for clause in clauses {
        start += clause.len() as u32;
        numbers.push(start);
    }
    numbers.extend(clauses.iter().flatten());
    numbers
}

/// The text of book numbers: a comment, the header, a line for each clause.
pub fn text_of(book: &[u32]) -> Vec<u8> {
    let clauses = book[1] as usize;
    let mut text = format!("c generated\np cnf {} {}\n", book[0], clauses);
    for ends in book[3..clauses + 4].windows(2) {
        for &literal in &book[clauses + 4 + ends[0] as usize..clauses + 4 + ends[1] as usize] {
            let sign = if literal % 2 == 1 { "-" } else { "" };
            text.push_str(&format!("{sign}{} ", literal / 2));
        }
        text.push_str("0\n");
    }
    text.into_bytes()
}

/// The text filled up to `length` bytes: every blank is widened in turn.
pub fn padded(text: &[u8], length: usize) -> Vec<u8> {
    let blanks = text.iter().filter(|&&byte| byte == b' ').count();
    let wanted = length - text.len();
    let mut padded = Vec::with_capacity(length);
    let mut met = 0;
    for &byte in text {
        padded.push(byte);
        if byte == b' ' {
            let due = wanted * (met + 1) / blanks - wanted * met / blanks;
            padded.extend(std::iter::repeat_n(b' ', due));
            met += 1;
        }
    }
    padded
}
