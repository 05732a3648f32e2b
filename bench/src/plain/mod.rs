//! The plain engine: the same calls in safe Rust, over the same numbers.
mod bands;
mod calls;
mod formula;
mod layout;
mod packed;
mod propagation;
mod rating;
mod reader;
mod validation;

use crate::answer::Answer;
use crate::engine::{Engine, RecordValues};

pub struct Plain;

/// What a call gives, which fails by its refusal number.
type Outcome = Result<Answer, u32>;

fn answer(outcome: Outcome) -> Answer {
    outcome.unwrap_or_else(Answer::Refused)
}

impl Engine for Plain {
    fn read(&self, text: &[u8], book: &mut [u32]) -> Answer {
        answer(reader::read(text, book).map(|()| Answer::Accepted(0)))
    }

    fn required_length(&self, book: &[u32]) -> Answer {
        answer(calls::required_length(book))
    }

    fn open(&self, book: &[u32], session: &mut [u32]) -> Answer {
        answer(calls::open(book, session))
    }

    fn decide(&self, book: &[u32], session: &mut [u32], literal: u32) -> Answer {
        answer(calls::decide(book, session, literal))
    }

    fn backtrack(&self, book: &[u32], session: &mut [u32], k: u32) -> Answer {
        answer(calls::backtrack(book, session, k))
    }

    fn fix(&self, book: &[u32], session: &mut [u32], f: u32) -> Answer {
        answer(calls::fix(book, session, f))
    }

    fn fixed(&self, book: &[u32], session: &[u32]) -> Answer {
        answer(calls::fixed(book, session))
    }

    fn lookup(&self, book: &[u32], session: &[u32], variable: u32) -> Answer {
        answer(calls::lookup(book, session, variable))
    }

    fn trail_from(&self, book: &[u32], session: &[u32], before: u32, out: &mut [u32]) -> Answer {
        answer(calls::trail_from(book, session, before, out))
    }

    fn figures(&self, book: &[u32], session: &[u32], out: &mut [u32]) -> Answer {
        answer(calls::figures(book, session, out))
    }

    fn checks(&self, book: &[u32], session: &[u32], out: &mut [u32]) -> Answer {
        answer(calls::checks(book, session, out))
    }

    fn total(&self, book: &[u32], session: &[u32], sum: &mut u64) -> Answer {
        answer(calls::total(book, session, sum))
    }

    fn chapters(&self, book: &[u32], session: &[u32], chapters: &[u32], totals: &mut [u64]) -> Answer {
        answer(calls::chapters(book, session, chapters, totals))
    }

    fn quote(&self, book: &[u32], script: &[u8], out: &mut [u32], ceiling: &mut u64) -> Answer {
        answer(calls::quote(book, script, out, ceiling))
    }

    fn price(&self, book: &[u32], session: &[u32], base: i64, lines: &[i32], amount: &mut i64) -> Answer {
        answer(calls::price(book, session, base, lines, amount))
    }

    fn check_bands(&self, table: &[u32], age: &mut u32) -> Answer {
        bands::check(table, age)
    }

    fn price_for_age(
        &self,
        book: &[u32],
        session: &[u32],
        base: i64,
        table: &[u32],
        age: u32,
        lines: &[i32],
        amount: &mut i64,
    ) -> Answer {
        answer(calls::price_for_age(book, session, base, table, age, lines, amount))
    }

    fn write_field(&self, value: i64, bytes: usize, out: &mut [u8]) -> Answer {
        answer(packed::write_field(value, bytes, out))
    }

    fn read_field(&self, field: &[u8], value: &mut i64) -> Answer {
        answer(packed::read_field(field, value))
    }

    fn write_quote(&self, map: u8, values: RecordValues, out: &mut [u8]) -> Answer {
        answer(packed::write_quote(map, values, out))
    }

    fn read_quote(&self, quote: &[u8], values: &mut RecordValues) -> Answer {
        answer(packed::read_quote(quote, values))
    }
}
