//! Tables of age bands; a band is three numbers: its first age, its last age, and its factor in thousandths.
use crate::answer::Answer;
use std::ops::RangeInclusive;

/// The most of a table: its bands, years of an age, and thousandths of a factor.
const MAX_BANDS: usize = 64;
const MAX_AGE: u32 = 120;
const MAX_FACTOR: u32 = 5000;

/// Numbers of a band.
const BAND: usize = 3;

/// What is wrong with a table that is not good.
enum Fault {
    False,
    /// 25 or 26, and the lowest age at fault.
    At(u32, u32),
}

/// The ages and the factor of the band of these numbers, where it is in range.
fn band_of(numbers: &[u32]) -> Option<(RangeInclusive<usize>, u32)> {
    let &[first, last, factor] = numbers else {
        return None;
    };
    let in_range = first <= last && last <= MAX_AGE && factor <= MAX_FACTOR;
    in_range.then_some((first as usize..=last as usize, factor))
}

/// For each age the factors of all bands that it lies in, where the table is in range.
fn factors_by_age(table: &[u32]) -> Option<Vec<Vec<u32>>> {
    let bands = table.chunks(BAND).map(band_of);
    if bands.len() > MAX_BANDS {
        return None;
    }
    let mut factors = vec![Vec::new(); MAX_AGE as usize + 1];
    for band in bands {
        let (ages, factor) = band?;
        factors[ages].iter_mut().for_each(|list| list.push(factor));
    }
    Some(factors)
}

/// The one factor of each age.
fn factors(table: &[u32]) -> Result<Vec<u32>, Fault> {
    let all = factors_by_age(table).ok_or(Fault::False)?;
    let one = |(list, age): (&Vec<u32>, u32)| match list[..] {
        [] => Err(Fault::At(25, age)),
        [factor] => Ok(factor),
        _ => Err(Fault::At(26, age)),
    };
    all.iter().zip(0..).map(one).collect()
}

/// Whether a table is good; the lowest age at fault goes to `age`.
pub fn check(table: &[u32], age: &mut u32) -> Answer {
    match factors(table) {
        Ok(_) => Answer::Accepted(0),
        Err(Fault::False) => Answer::False,
        Err(Fault::At(number, lowest)) => {
            *age = lowest;
            Answer::Refused(number)
        }
    }
}

/// The factor of an age; or 19, where age or table are out of range, 25 or 26.
pub fn factor(table: &[u32], age: u32) -> Result<u32, u32> {
    match factors(table) {
        Ok(factors) => factors.get(age as usize).copied().ok_or(19),
        Err(Fault::At(number, _)) if age <= MAX_AGE => Err(number),
        Err(_) => Err(19),
    }
}
