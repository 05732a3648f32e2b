//! The price by a rate list, from the values of the variables; a line is three numbers: literal, kind of the change, and its size.
use super::bands;

/// The most of a rate list: its lines, cents of the base, cents of an amount and thousandths on either side of zero; and of the running amount.
const MAX_LINES: usize = 200;
const MAX_BASE: i64 = 1_000_000_000;
const MAX_AMOUNT: u32 = 10_000_000;
const MAX_THOUSANDTHS: u32 = 1000;
const MAX_RUNNING: u64 = 1_000_000_000_000;

/// Numbers of a line.
const LINE: usize = 3;

/// Thousandths of a cent in cents; halves are rounded away from zero.
fn rounded(thousandths: i64) -> i64 {
    (thousandths + 500 * thousandths.signum()) / 1000
}

enum Change {
    Amount(i32),
    Thousandths(i32),
}

impl Change {
    /// The change of a kind and size, where it is in range.
    fn of(kind: i32, size: i32) -> Option<Change> {
        match kind {
            0 if size.unsigned_abs() <= MAX_AMOUNT => Some(Change::Amount(size)),
            1 if size.unsigned_abs() <= MAX_THOUSANDTHS => Some(Change::Thousandths(size)),
            _ => None,
        }
    }

    /// What it adds to an amount, in cents.
    fn addend(&self, running: i64) -> i64 {
        match *self {
            Change::Amount(cents) => i64::from(cents),
            Change::Thousandths(part) => rounded(running * i64::from(part)),
        }
    }
}

/// The value of a literal's variable, where there is such a literal.
fn value_of(values: &[u32], literal: i32) -> Option<u32> {
    let variable = (literal / 2).checked_sub(1)?;
    values.get(usize::try_from(variable).ok()?).copied()
}

struct Line {
    is_open: bool,
    is_true: bool,
    change: Change,
}

/// The line of these numbers, where it is in range.
fn line_of(values: &[u32], numbers: &[i32]) -> Option<Line> {
    let &[literal, kind, size] = numbers else {
        return None;
    };
    let value = value_of(values, literal)?;
    Some(Line {
        is_open: value == 0,
        is_true: value != 0 && value % 2 == literal as u32 % 2,
        change: Change::of(kind, size)?,
    })
}

/// The lines of a rate list; or 19, where base or list are out of range.
fn lines_of<'a>(values: &'a [u32], base: i64, numbers: &'a [i32]) -> Result<impl Iterator<Item = Line> + 'a, u32> {
    let lines = numbers.chunks(LINE).map(|numbers| line_of(values, numbers));
    if !(0..=MAX_BASE).contains(&base) || lines.len() > MAX_LINES || lines.clone().any(|line| line.is_none()) {
        return Err(19);
    }
    Ok(lines.flatten())
}

/// The amount behind the last line, from `start` on, and the lines with an open variable; or 20.
fn price_from(start: i64, lines: impl Iterator<Item = Line>) -> Result<(i64, u32), u32> {
    let mut running = start;
    let mut open = 0;
    for line in lines {
        open += u32::from(line.is_open);
        if line.is_true {
            running += line.change.addend(running);
        }
        if running.unsigned_abs() > MAX_RUNNING {
            return Err(20);
        }
    }
    Ok((running, open))
}

/// The price from the base on.
pub fn price(values: &[u32], base: i64, numbers: &[i32]) -> Result<(i64, u32), u32> {
    let lines = lines_of(values, base, numbers)?;
    price_from(base, lines)
}

/// The price from the base on, times the factor of the age.
pub fn price_for_age(values: &[u32], base: i64, table: &[u32], age: u32, numbers: &[i32]) -> Result<(i64, u32), u32> {
    let lines = lines_of(values, base, numbers)?;
    let factor = bands::factor(table, age)?;
    price_from(rounded(base * i64::from(factor)), lines)
}
