//! The calls on a book and a lent session: each validates both, then reads or changes the session.
use super::formula::Formula;
use super::layout::{self, Parts};
use super::propagation::Run;
use super::rating;
use super::validation;
use super::Outcome;
use crate::answer::Answer;
use crate::places::{BACKTRACKS, CONFLICT, DECISIONS, FIXED, LENGTH};

/// The chapters that clauses are filed in.
const CHAPTERS: usize = 32;

/// The most lines `b k` of a script that is quoted for.
const MAX_BACK_LINES: usize = 1_000_000;

/// The formula and the parts of a session that passes, or the refusal number.
fn validated<'b, 's>(book: &'b [u32], session: &'s [u32]) -> Result<(Formula<'b>, Parts<&'s [u32]>), u32> {
    let formula = Formula::from_numbers(book).ok_or(11u32)?;
    let parts = layout::shared(session, formula.variables, formula.clauses()).ok_or(12u32)?;
    if !validation::passes(&formula, &parts) {
        return Err(12);
    }
    Ok((formula, parts))
}

fn run<'a>(formula: &'a Formula, session: &'a mut [u32]) -> Run<'a> {
    let session = layout::lent(session, formula.variables, formula.clauses());
    Run { formula, session }
}

/// The answer of a call that propagated, from the header; the trail had `before` literals.
fn propagated(session: &[u32], before: u32) -> Answer {
    match session[CONFLICT] {
        0 => Answer::Accepted(session[LENGTH] - before),
        name => Answer::Conflict(name),
    }
}

pub fn required_length(book: &[u32]) -> Outcome {
    let formula = Formula::from_numbers(book).ok_or(11u32)?;
    let length = layout::required_length(formula.variables, formula.clauses());
    Ok(Answer::Accepted(length as u32))
}

pub fn open(book: &[u32], session: &mut [u32]) -> Outcome {
    let formula = Formula::from_numbers(book).ok_or(11u32)?;
    if session.len() < layout::required_length(formula.variables, formula.clauses()) {
        return Err(10);
    }
    run(&formula, session).open();
    Ok(propagated(session, 0))
}

pub fn decide(book: &[u32], session: &mut [u32], literal: u32) -> Outcome {
    let (formula, parts) = validated(book, session)?;
    if literal < 2 || literal as usize > 2 * formula.variables + 1 {
        return Err(13);
    }
    if parts.header[CONFLICT] != 0 {
        return Err(14);
    }
    if parts.values[literal as usize / 2 - 1] != 0 {
        return Err(15);
    }
    let before = parts.header[LENGTH] + 1;
    run(&formula, session).decide(literal);
    Ok(propagated(session, before))
}

pub fn backtrack(book: &[u32], session: &mut [u32], k: u32) -> Outcome {
    let (formula, parts) = validated(book, session)?;
    if k == 0 || k > parts.header[DECISIONS] - parts.header[FIXED] {
        return Err(16);
    }
    if parts.header[BACKTRACKS] >= 1_000_000 {
        return Err(17);
    }
    run(&formula, session).backtrack(k);
    Ok(Answer::Accepted(0))
}

pub fn fix(book: &[u32], session: &mut [u32], f: u32) -> Outcome {
    let (_, parts) = validated(book, session)?;
    if parts.header[CONFLICT] != 0 {
        return Err(14);
    }
    if f < parts.header[FIXED] || f > parts.header[DECISIONS] {
        return Err(22);
    }
    session[FIXED] = f;
    Ok(Answer::Accepted(0))
}

/// How many decisions are fixed.
pub fn fixed(book: &[u32], session: &[u32]) -> Outcome {
    let (_, parts) = validated(book, session)?;
    Ok(Answer::Accepted(parts.header[FIXED]))
}

/// 0 open, 4 × level + 1 positive, 4 × level + 2 negative.
pub fn lookup(book: &[u32], session: &[u32], variable: u32) -> Outcome {
    let (formula, parts) = validated(book, session)?;
    if variable == 0 || variable as usize > formula.variables {
        return Err(13);
    }
    Ok(Answer::Accepted(match parts.values[variable as usize - 1] {
        0 => 0,
        value => 4 * decisions_up_to(&parts, variable) + 1 + value % 2,
    }))
}

/// The decisions on the trail up to and including the literal of this variable.
fn decisions_up_to(parts: &Parts<&[u32]>, variable: u32) -> u32 {
    let mut decisions = 0;
    let mut before = 0;
    for (&literal, &level) in parts.trail.iter().zip(parts.levels) {
        decisions += u32::from(level != before);
        before = level;
        if literal / 2 == variable {
            break;
        }
    }
    decisions
}

/// Copies what fits, and answers how many there are.
fn copied(numbers: &[u32], out: &mut [u32]) -> Answer {
    let fitting = numbers.len().min(out.len());
    out[..fitting].copy_from_slice(&numbers[..fitting]);
    Answer::Accepted(numbers.len() as u32)
}

pub fn trail_from(book: &[u32], session: &[u32], before: u32, out: &mut [u32]) -> Outcome {
    let (_, parts) = validated(book, session)?;
    let trail = &parts.trail[..parts.header[LENGTH] as usize];
    Ok(copied(trail.get(before as usize..).unwrap_or(&[]), out))
}

/// Decisions in force, accepted backtracks, trail length, conflict clause.
pub fn figures(book: &[u32], session: &[u32], out: &mut [u32]) -> Outcome {
    let (_, parts) = validated(book, session)?;
    let places = [DECISIONS, BACKTRACKS, LENGTH, CONFLICT];
    Ok(copied(&places.map(|place| parts.header[place]), out))
}

pub fn checks(book: &[u32], session: &[u32], out: &mut [u32]) -> Outcome {
    let (_, parts) = validated(book, session)?;
    Ok(copied(parts.checks, out))
}

pub fn total(book: &[u32], session: &[u32], sum: &mut u64) -> Outcome {
    let (_, parts) = validated(book, session)?;
    *sum = parts.checks.iter().map(|&count| u64::from(count)).sum();
    Ok(Answer::Accepted(0))
}

/// The sums of the checks by chapter, one chapter for each clause: 1; or 0 where they do not fit.
pub fn chapters(book: &[u32], session: &[u32], chapters: &[u32], totals: &mut [u64]) -> Outcome {
    let (_, parts) = validated(book, session)?;
    let filed = chapters
        .get(..parts.checks.len())
        .filter(|filed| filed.iter().all(|&chapter| (chapter as usize) < CHAPTERS));
    let (Some(filed), Some(totals)) = (filed, totals.get_mut(..CHAPTERS)) else {
        return Ok(Answer::Accepted(0));
    };
    totals.fill(0);
    for (&chapter, &count) in filed.iter().zip(parts.checks) {
        totals[chapter as usize] += u64::from(count);
    }
    Ok(Answer::Accepted(1))
}

/// Whether a script line is `b`, one blank and one to nine digits.
fn is_back(line: &[u8]) -> bool {
    line.strip_prefix(b"b ")
        .is_some_and(|k| (1..=9).contains(&k.len()) && k.iter().all(u8::is_ascii_digit))
}

/// The session's length, W, a ceiling of the checks between two backtracks and the lines `b k` of a script; the ceiling of its checks goes to `ceiling`.
pub fn quote(book: &[u32], script: &[u8], out: &mut [u32], ceiling: &mut u64) -> Outcome {
    let formula = Formula::from_numbers(book).ok_or(11u32)?;
    let backs = script.split(|&byte| byte == b'\n').filter(|line| is_back(line)).count();
    if backs > MAX_BACK_LINES {
        return Err(17);
    }
    let long = formula.iter().map(<[u32]>::len).filter(|&length| length >= 2);
    let worst: usize = long.map(|length| 2 * length - 3).sum();
    let length = layout::required_length(formula.variables, formula.clauses());
    *ceiling = worst as u64 * (backs as u64 + 1);
    Ok(copied(&[length, worst, backs].map(|number| number as u32), out))
}

/// The values of a session that passes and has no conflict, or the refusal number.
fn consistent<'s>(book: &[u32], session: &'s [u32]) -> Result<&'s [u32], u32> {
    let (_, parts) = validated(book, session)?;
    if parts.header[CONFLICT] != 0 {
        return Err(14);
    }
    Ok(parts.values)
}

/// How many lines have an open variable; the amount goes to `amount`.
pub fn price(book: &[u32], session: &[u32], base: i64, lines: &[i32], amount: &mut i64) -> Outcome {
    let values = consistent(book, session)?;
    let (last, open) = rating::price(values, base, lines)?;
    *amount = last;
    Ok(Answer::Accepted(open))
}

/// The same, from the base that the table of age bands scales for this age.
pub fn price_for_age(
    book: &[u32],
    session: &[u32],
    base: i64,
    table: &[u32],
    age: u32,
    lines: &[i32],
    amount: &mut i64,
) -> Outcome {
    let values = consistent(book, session)?;
    let (last, open) = rating::price_for_age(values, base, table, age, lines)?;
    *amount = last;
    Ok(Answer::Accepted(open))
}
