//! Rate lists: random ones, in range or nearly so, for the comparison, and one of 200 lines for the measured price.
use crate::places::{places, CONFLICT, LENGTH};
use crate::plain::Plain;
use crate::random::Random;
use crate::script::Workload;

/// Lines of the measured list, the most that there can be.
pub const LINES: usize = 200;

/// Numbers of a line: its literal; 0 for an amount, 1 for thousandths; cents or thousandths.
const LINE: usize = 3;

/// The most of an amount and of thousandths.
const MOST: [i32; 2] = [10_000_000, 1000];

/// A base, and the numbers of the lines.
pub struct Rates {
    pub base: i64,
    pub lines: Vec<i32>,
}

/// A number of either sign, up to `most`; more often than others the greatest ones, and small ones.
fn signed(random: &mut Random, most: i32) -> i32 {
    let size = match random.below(4) {
        0 => most,
        1 => random.below(10) as i32,
        _ => random.below(most as usize + 1) as i32,
    };
    [size, -size][random.below(2)]
}

/// A literal of the trail, true, or once in four times any one of the variables.
fn literal(random: &mut Random, variables: usize, trail: &[u32]) -> i32 {
    match trail.len() {
        length if length > 0 && !random.once_in(4) => trail[random.below(length)] as i32,
        _ => 2 + random.below(2 * variables) as i32,
    }
}

/// Lines with changes up to these, in cents and in thousandths.
fn lines(random: &mut Random, count: usize, most: [i32; 2], mut literal: impl FnMut(&mut Random) -> i32) -> Vec<i32> {
    let line = |_| {
        let kind = random.below(2);
        [literal(random), kind as i32, signed(random, most[kind])]
    };
    (0..count).flat_map(line).collect()
}

/// A base and lines that come to 1,000,000,000,000 where their literal is true, or as far below zero.
fn far(random: &mut Random, literal: i32) -> Rates {
    let doubled = |times: usize| [literal, 1, 1000].repeat(times);
    if random.once_in(2) {
        return Rates {
            base: 976_562_500,
            lines: doubled(10),
        };
    }
    let lowered = [literal, 0, -10_000_000].repeat(24);
    Rates {
        base: 0,
        lines: [lowered, vec![literal, 0, -4_140_625], doubled(12)].concat(),
    }
}

/// Lines that come to the limit of the amount, and behind them one or two of a cent or none.
fn growing(random: &mut Random, mut literal: impl FnMut(&mut Random) -> i32) -> Rates {
    let grown = literal(random);
    let mut rates = far(random, grown);
    for _ in 0..1 + random.below(2) {
        rates.lines.extend([literal(random), 0, random.below(3) as i32 - 1]);
    }
    rates
}

/// Numbers that are out of range in a line, or are its limits: as literal, as kind and as change.
fn strange(random: &mut Random, variables: usize, place: usize) -> i32 {
    let behind = 2 * variables as i32 + 2;
    let numbers = match place {
        0 => [0, 1, 2, behind - 1, behind, -1, -2, i32::MIN],
        1 => [2, 3, -1, 256, 1 << 16, i32::MAX, i32::MIN, 0],
        _ => [1001, -1001, 1000, -1000, 10_000_001, -10_000_001, i32::MAX, i32::MIN],
    };
    numbers[random.below(8)]
}

/// The rates with one number that may be out of range, a number too many or too few.
fn damage(random: &mut Random, variables: usize, rates: &mut Rates) {
    let length = rates.lines.len();
    match random.below(8) {
        0 => rates.base = [-1, 1_000_000_000, 1_000_000_001, i64::MAX, i64::MIN][random.below(5)],
        1 => rates.lines.push(0),
        2 => drop(rates.lines.pop()),
        _ if length > 0 => {
            let at = random.below(length);
            rates.lines[at] = strange(random, variables, at % LINE);
        }
        _ => {}
    }
}

/// A rate list for a session on well-formed book numbers; the session may be damaged. Now and then it has about 200 lines, and one in three is damaged.
pub fn any(random: &mut Random, book: &[u32], session: &[u32]) -> Rates {
    let variables = book[0] as usize;
    let trail: Vec<u32> = session
        .get(places(book).trail)
        .unwrap_or(&[])
        .iter()
        .copied()
        .filter(|&literal| literal != 0)
        .collect();
    let drawn = |random: &mut Random| literal(random, variables, &trail);
    let mut rates = if random.once_in(6) {
        growing(random, drawn)
    } else {
        let count = if random.once_in(12) {
            198 + random.below(5)
        } else {
            random.below(12)
        };
        Rates {
            base: [0, 1, 12_345, 1_000_000_000][random.below(4)],
            lines: lines(random, count, MOST, drawn),
        }
    };
    if random.once_in(3) {
        damage(random, variables, &mut rates);
    }
    rates
}

/// The state of a workload without conflict that has the longest trail.
fn assigned(workload: &Workload) -> Vec<u32> {
    let mut longest = Vec::new();
    workload.run(&Plain, |call, session| {
        let length = longest.get(LENGTH).copied();
        if session[CONFLICT] == 0 && Some(session[LENGTH]) > length {
            longest = session.to_vec();
        }
        call.make(&Plain, &workload.book, session);
    });
    longest
}

/// The measured price: a session, a rate list of 200 lines for it, and how many of them apply.
pub struct Measured {
    pub session: Vec<u32>,
    pub rates: Rates,
    pub applied: usize,
}

/// The measured price of a workload; its amounts go up to 10,000 and its thousandths up to 300 on either side of zero.
pub fn measured(workload: &Workload) -> Measured {
    let session = assigned(workload);
    let trail = &session[places(&workload.book).trail][..session[LENGTH] as usize];
    let drawn = |random: &mut Random| literal(random, workload.book[0] as usize, trail);
    let lines = lines(&mut Random::new(1), LINES, [10_000, 300], drawn);
    let applied = lines
        .chunks(LINE)
        .filter(|line| trail.contains(&(line[0] as u32)))
        .count();
    Measured {
        rates: Rates { base: 50_000, lines },
        applied,
        session,
    }
}
