//! Random damage to lent numbers and to texts, and random scripts.
use crate::places::{places, BACKTRACKS, DECISIONS, FIXED, HEADER};
use crate::random::Random;

/// A copy with one to three numbers changed or swapped, those of the header more often, or cut short.
pub fn numbers(random: &mut Random, numbers: &[u32]) -> Vec<u32> {
    let mut damaged = numbers.to_vec();
    if random.once_in(25) {
        damaged.truncate(random.below(numbers.len() + 1));
        return damaged;
    }
    for _ in 0..1 + random.below(3) {
        let range = if random.once_in(4) {
            damaged.len().min(HEADER)
        } else {
            damaged.len()
        };
        let at = random.below(range);
        let other = random.below(damaged.len());
        let old = damaged[at];
        match random.below(6) {
            0 => damaged[at] = 0,
            1 => damaged[at] = old.wrapping_add(1),
            2 => damaged[at] = old.wrapping_sub(1),
            3 => damaged[at] = old ^ 1,
            4 => damaged.swap(at, other),
            _ => damaged[at] = [2, 255, 256, 1_000_000, 1_000_001, u32::MAX][random.below(6)],
        }
    }
    damaged
}

/// A copy in which a clause watches two other positions, with its lists and its pointer in order.
pub fn rewatched(random: &mut Random, book: &[u32], session: &[u32]) -> Vec<u32> {
    let places = places(book);
    let mut session = session.to_vec();
    let clauses = book[1] as usize;
    let c = random.below(clauses.max(1));
    if c >= clauses || book[4 + c] - book[3 + c] < 2 {
        return session;
    }
    let (start, end) = (book[3 + c] as usize, book[4 + c] as usize);
    let first = random.below(end - start);
    let second = (first + 1 + random.below(end - start - 1)) % (end - start);
    for (node, position) in [(2 * c + 1, first), (2 * c + 2, second)] {
        places.unlink(&mut session, node);
        session[places.watches.start + node - 1] = position as u32;
        places.push_front(&mut session, book[clauses + 4 + start + position], node);
    }
    session[places.pointers.start + c] = [first, second][random.below(2)] as u32;
    session
}

/// A copy in which any number of decisions is fixed, up to one more than are in force; once in a while no more backtracks are accepted.
pub fn fixed(random: &mut Random, session: &[u32]) -> Vec<u32> {
    let mut session = session.to_vec();
    session[FIXED] = random.below(session[DECISIONS] as usize + 2) as u32;
    if random.once_in(4) {
        session[BACKTRACKS] = 1_000_000;
    }
    session
}

/// What is put into a text.
const PIECES: [&[u8]; 22] = [
    b" ",
    b"\t",
    b"\r",
    b"\n",
    b"0",
    b"00",
    b"-",
    b"-0",
    b"1",
    b"9",
    b"c",
    b"\nc x\n",
    b"p",
    b"\np cnf 1 1\n",
    b"\0",
    b"\xff",
    b" 0 ",
    b" 501 ",
    b" 0000000001 ",
    b" 000000000 ",
    b" 0000000000 ",
    b"+1",
];

/// A copy with some bytes put in, taken out or replaced, or with words of its own.
pub fn text(random: &mut Random, text: &[u8]) -> Vec<u8> {
    let mut damaged = text.to_vec();
    for _ in 0..random.below(4) {
        let at = random.below(damaged.len() + 1);
        let end = (at + random.below(3)).min(damaged.len());
        let piece = PIECES[random.below(PIECES.len())];
        damaged.splice(at..end, piece.iter().copied());
    }
    if random.once_in(30) {
        damaged.truncate(random.below(damaged.len() + 1));
    }
    if random.once_in(200) {
        damaged.resize(60_001, b' ');
    }
    damaged
}

/// Lines of a script, in form or nearly so.
const LINES: [&[u8]; 22] = [
    b"b 1",
    b"b 1",
    b"b 0",
    b"b 000000001",
    b"b 999999999",
    b"b 1000000000",
    b"b",
    b"b ",
    b"b  1",
    b"b\t1",
    b"b1",
    b"B 1",
    b"b -1",
    b"b +1",
    b"b 1 ",
    b" b 1",
    b"b 1\r",
    b"b 1\0",
    b"b 1:",
    b"1",
    b"-2",
    b"",
];

/// Some of these lines, now and then damaged, the last with or without its end.
pub fn script(random: &mut Random) -> Vec<u8> {
    let lines: Vec<&[u8]> = (0..random.below(12))
        .map(|_| LINES[random.below(LINES.len())])
        .collect();
    let mut script = lines.join(&b'\n');
    if random.once_in(2) {
        script.push(b'\n');
    }
    if random.once_in(3) {
        script = text(random, &script);
    }
    script
}

/// The text of `clauses` clauses, each of the first `length` variables, under a header for V and C.
fn counted(variables: usize, clauses: usize, stated: usize, length: usize) -> Vec<u8> {
    let literals: String = (1..=length).map(|variable| format!("{variable} ")).collect();
    let body = format!("{literals}0\n").repeat(clauses);
    format!("p cnf {variables} {stated}\n{body}").into_bytes()
}

/// The text of one clause of V 1: its literal and, where it is asked, then its opposite, so many times.
fn repeated(times: usize, both_ways: bool) -> Vec<u8> {
    let literals = if both_ways { "1 -1 " } else { "1 " }.repeat(times);
    format!("p cnf 1 1\n{literals}0\n").into_bytes()
}

/// Texts on either side of each limit.
pub fn edges() -> Vec<Vec<u8>> {
    let mut texts = Vec::new();
    for off in 0..3 {
        texts.push(counted(499 + off, 1, 1, 3));
        texts.push(counted(off, 1, 1, 1));
        texts.push(counted(500, 1, 1, 254 + off));
        texts.push(repeated(254 + off, false));
        texts.push(repeated(126 + off, true));
        texts.push(counted(500, 2, 1 + off, 3));
        texts.push(counted(500, 1499 + off, 1499 + off, 4));
        texts.push(counted(500, 1500, 1500, 3 + off));
        let mut filled = counted(4, 2, 2, 2);
        filled.resize(59_999 + off, b' ');
        texts.push(filled);
    }
    texts
}
