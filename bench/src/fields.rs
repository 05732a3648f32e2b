//! Packed decimal fields and quote records for the comparison: good, nearly good and bad ones to read, and what is to be written, with the room for it.
use crate::engine::RecordValues;
use crate::random::Random;

/// The most bytes of a field, which each field of a record has, and the bits of a map that have one.
const FIELD: usize = 7;
const BITS: u8 = 0b111;

/// A field's length; now and then one that no field has, in some of these with the low bits of one that a field has.
pub fn length(random: &mut Random) -> usize {
    match random.below(8) {
        0 => [0, 8, 9, (1 << 8) + FIELD, (1 << 32) + FIELD, usize::MAX][random.below(6)],
        _ => 1 + random.below(FIELD),
    }
}

/// A value for a field of so many bytes: about the least that has too many digits, at the end of all values, or of any number of digits; of either sign.
pub fn value(random: &mut Random, bytes: usize) -> i64 {
    let most = 2 * bytes.clamp(1, FIELD) - 1;
    let digits = random.below(most + 1);
    let size = match random.below(8) {
        0 | 1 => 10i64.pow(most as u32) - 1 + random.below(3) as i64,
        2 => i64::MAX,
        _ => random.below(10usize.pow(digits as u32)) as i64,
    };
    [size, -size, -size - 1][random.below(3)]
}

pub fn values(random: &mut Random) -> RecordValues {
    [(); 3].map(|()| value(random, FIELD))
}

/// A record's map; now and then any byte.
pub fn map(random: &mut Random) -> u8 {
    let any = random.next() as u8;
    if random.once_in(6) {
        any
    } else {
        any & BITS
    }
}

/// Bytes of the record that has a field for each of these bits.
pub fn record_length(bits: u8) -> usize {
    1 + FIELD * bits.count_ones() as usize
}

/// Lent bytes, of a kind that is never written, for a field or record of so many: as many or a few more, and now and then fewer.
pub fn lent(random: &mut Random, bytes: usize) -> Vec<u8> {
    let needed = bytes.min(record_length(BITS));
    let room = match random.below(8) {
        0 => random.below(needed + 1),
        1 => needed.saturating_sub(1),
        _ => needed + random.below(4),
    };
    vec![0xEE; room]
}

/// So many bytes, good but for their number, which may be no field's; now and then a zero of either sign.
fn good(random: &mut Random, bytes: usize) -> Vec<u8> {
    let highest = if random.once_in(8) { 0 } else { 9 };
    let mut digit = || random.below(highest + 1) as u8;
    let mut field: Vec<u8> = (0..bytes).map(|_| 16 * digit() + digit()).collect();
    if let Some(last) = field.last_mut() {
        *last = *last & 0xF0 | [0xC, 0xD, 0xF][random.below(3)];
    }
    field
}

/// The bytes as they are; or, one in two times, one too many or too few, none, any others, another map or another half byte.
fn damage(random: &mut Random, mut bytes: Vec<u8>) -> Vec<u8> {
    if bytes.is_empty() || random.once_in(2) {
        return bytes;
    }
    let at = random.below(bytes.len());
    match random.below(10) {
        0 => bytes.push(0),
        1 => drop(bytes.pop()),
        2 => bytes.clear(),
        3 => bytes.fill_with(|| random.next() as u8),
        4 => bytes[0] ^= 1 << random.below(8),
        _ => bytes[at] ^= (random.below(16) as u8) << [0, 4][random.below(2)],
    }
    bytes
}

/// A field to read, of at most 300 bytes.
pub fn field(random: &mut Random) -> Vec<u8> {
    let bytes = length(random).min(300);
    let field = good(random, bytes);
    damage(random, field)
}

/// A record to read; higher bits of its map have fields too, or have none.
pub fn record(random: &mut Random) -> Vec<u8> {
    let map = map(random);
    let bits = map & [BITS, u8::MAX][random.below(2)];
    let mut record = vec![map];
    for _ in 0..bits.count_ones() {
        record.extend(good(random, FIELD));
    }
    damage(random, record)
}
