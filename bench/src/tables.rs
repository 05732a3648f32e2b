//! Tables of age bands and customers' ages for the comparison: tables in range or nearly so, good ones among them.
use crate::random::Random;

/// Numbers of a band: its first age, its last age, its factor in thousandths.
const BAND: usize = 3;

/// The highest age, and the greatest factor.
const MOST_AGE: u32 = 120;
const MOST_FACTOR: u32 = 5000;

/// How many bands: few, or now and then about the most that there can be, 64.
fn count(random: &mut Random) -> usize {
    if random.once_in(6) {
        63 + random.below(3)
    } else {
        1 + random.below(8)
    }
}

/// A factor in range; more often than others one at which rounding or the amount turns.
fn factor(random: &mut Random) -> u32 {
    let any = random.below(MOST_FACTOR as usize + 1) as u32;
    [0, 499, 500, 1000, 1500, MOST_FACTOR, any, any][random.below(8)]
}

/// Bands that hold every age once, in any order.
fn covering(random: &mut Random) -> Vec<u32> {
    let mut firsts: Vec<u32> = (1..=MOST_AGE).collect();
    random.shuffle(&mut firsts);
    firsts.truncate(count(random) - 1);
    firsts.sort();
    let lasts = firsts.iter().map(|first| first - 1).chain([MOST_AGE]);
    let ages = [0].iter().chain(&firsts).zip(lasts);
    let mut bands: Vec<[u32; BAND]> = ages.map(|(&first, last)| [first, last, factor(random)]).collect();
    random.shuffle(&mut bands);
    bands.concat()
}

/// Bands in range that hold any ages.
fn scattered(random: &mut Random) -> Vec<u32> {
    let count = count(random);
    let band = |_| {
        let [a, b] = [(); 2].map(|()| random.below(MOST_AGE as usize + 1) as u32);
        [a.min(b), a.max(b), factor(random)]
    };
    (0..count).flat_map(band).collect()
}

/// A number in place of another one: one beside it, or one about the limits.
fn strange(random: &mut Random, number: u32, place: usize) -> u32 {
    let most = if place == BAND - 1 { MOST_FACTOR } else { MOST_AGE };
    let beside = [number.wrapping_sub(1), number + 1];
    let limits = [0, most, most + 1, 1 << 16, u32::MAX, random.next() as u32];
    let numbers = [&beside[..], &beside[..], &limits[..]].concat();
    numbers[random.below(numbers.len())]
}

/// The table without one of its bands, with one twice, with a number too many or too few, or with another number.
fn damage(random: &mut Random, table: &mut Vec<u32>) {
    let at = random.below(table.len());
    let first = at - at % BAND;
    match random.below(8) {
        0 => drop(table.drain(first..first + BAND)),
        1 => table.extend_from_within(first..first + BAND),
        2 => table.push(0),
        3 => drop(table.pop()),
        _ => table[at] = strange(random, table[at], at % BAND),
    }
}

/// A table; one in four holds any ages, the others every age once, and one in two is damaged.
pub fn any(random: &mut Random) -> Vec<u32> {
    let mut table = if random.once_in(4) {
        scattered(random)
    } else {
        covering(random)
    };
    if random.once_in(2) {
        damage(random, &mut table);
    }
    table
}

/// An age, now and then one over the highest.
pub fn age(random: &mut Random) -> u32 {
    match random.below(12) {
        0 => MOST_AGE + 1,
        1 => [256, 1 << 16, u32::MAX][random.below(3)],
        2 => [0, MOST_AGE][random.below(2)],
        _ => random.below(MOST_AGE as usize + 1) as u32,
    }
}
