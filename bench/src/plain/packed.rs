//! Packed decimal fields and quote records; a field is two digits a byte, the highest first, and its last half byte is the sign.
use super::Outcome;
use crate::answer::Answer;
use crate::engine::RecordValues;
use std::ops::RangeInclusive;

/// Bytes of a field, and of each field of a record.
const FIELD: RangeInclusive<usize> = 1..=7;
const RECORD_FIELD: usize = 7;

/// The half bytes of a sign; the last one means plus, and is never written.
const PLUS: u8 = 0xC;
const MINUS: u8 = 0xD;
const OTHER_PLUS: u8 = 0xF;

/// The number whose hexadecimal digits are the decimal digits of `size`.
fn packed(size: u64) -> u128 {
    match size {
        0 => 0,
        _ => 16 * packed(size / 10) + u128::from(size % 10),
    }
}

/// The field of a value; or 23, where no field has so many bytes, or 24, where the value has more digits than they hold.
fn field_of(value: i64, bytes: usize) -> Result<Vec<u8>, u32> {
    if !FIELD.contains(&bytes) {
        return Err(23);
    }
    let sign = if value < 0 { MINUS } else { PLUS };
    let all = (16 * packed(value.unsigned_abs()) + u128::from(sign)).to_be_bytes();
    let (over, field) = all.split_at(all.len() - bytes);
    if over.iter().any(|&byte| byte != 0) {
        return Err(24);
    }
    Ok(field.to_vec())
}

/// The value of a field, or 23.
fn value_of(field: &[u8]) -> Result<i64, u32> {
    let halves: Vec<u8> = field.iter().flat_map(|byte| [byte >> 4, byte & 0xF]).collect();
    let (&sign, digits) = halves.split_last().ok_or(23u32)?;
    if !FIELD.contains(&field.len()) || digits.iter().any(|&digit| digit > 9) {
        return Err(23);
    }
    let size = digits.iter().fold(0, |size, &digit| 10 * size + i64::from(digit));
    match sign {
        PLUS | OTHER_PLUS => Ok(size),
        MINUS => Ok(-size),
        _ => Err(23),
    }
}

/// Whether the bit of each value stands in the map; or 23, where a higher bit does.
fn standing(map: u8) -> Result<[bool; 3], u32> {
    if map >> 3 != 0 {
        return Err(23);
    }
    Ok([0, 1, 2].map(|bit| map >> bit & 1 == 1))
}

/// Copies the bytes to the front of the lent ones, and answers how many they are; or 10, where fewer are lent.
fn written(bytes: &[u8], out: &mut [u8]) -> Outcome {
    out.get_mut(..bytes.len()).ok_or(10u32)?.copy_from_slice(bytes);
    Ok(Answer::Accepted(bytes.len() as u32))
}

pub fn write_field(value: i64, bytes: usize, out: &mut [u8]) -> Outcome {
    written(&field_of(value, bytes)?, out)
}

pub fn read_field(field: &[u8], value: &mut i64) -> Outcome {
    *value = value_of(field)?;
    Ok(Answer::Accepted(0))
}

pub fn write_quote(map: u8, values: RecordValues, out: &mut [u8]) -> Outcome {
    let mut record = vec![map];
    for (value, stands) in values.into_iter().zip(standing(map)?) {
        if stands {
            record.extend(field_of(value, RECORD_FIELD)?);
        }
    }
    written(&record, out)
}

/// The map; the values go to `values`, 0 where the bit does not stand.
pub fn read_quote(quote: &[u8], values: &mut RecordValues) -> Outcome {
    let (&map, mut rest) = quote.split_first().ok_or(23u32)?;
    let mut read = [0; 3];
    for (value, stands) in read.iter_mut().zip(standing(map)?) {
        if stands {
            let (field, behind) = rest.split_at_checked(RECORD_FIELD).ok_or(23u32)?;
            *value = value_of(field)?;
            rest = behind;
        }
    }
    if !rest.is_empty() {
        return Err(23);
    }
    *values = read;
    Ok(Answer::Accepted(u32::from(map)))
}
