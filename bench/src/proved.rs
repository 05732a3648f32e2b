//! The proved engine: the calls of its static library.
use crate::answer::Answer;
use crate::engine::{Engine, RecordValues};

extern "C" {
    fn tariff_read(text: *const u8, n: usize, book: *mut u32, m: usize) -> u64;
    fn tariff_required_length(book: *const u32, n: usize) -> u64;
    fn tariff_open(book: *const u32, n: usize, session: *mut u32, m: usize) -> u64;
    fn tariff_decide(book: *const u32, n: usize, session: *mut u32, m: usize, literal: u32) -> u64;
    fn tariff_backtrack(book: *const u32, n: usize, session: *mut u32, m: usize, k: u32) -> u64;
    fn tariff_fix(book: *const u32, n: usize, session: *mut u32, m: usize, f: u32) -> u64;
    fn tariff_fixed(book: *const u32, n: usize, session: *const u32, m: usize) -> u64;
    fn tariff_lookup(book: *const u32, n: usize, session: *const u32, m: usize, variable: u32) -> u64;
    fn tariff_trail_from(
        book: *const u32,
        n: usize,
        session: *const u32,
        m: usize,
        before: u32,
        out: *mut u32,
        k: usize,
    ) -> u64;
    fn tariff_figures(book: *const u32, n: usize, session: *const u32, m: usize, out: *mut u32, k: usize) -> u64;
    fn tariff_checks(book: *const u32, n: usize, session: *const u32, m: usize, out: *mut u32, k: usize) -> u64;
    fn tariff_total(book: *const u32, n: usize, session: *const u32, m: usize, sum: *mut u64) -> u64;
    fn tariff_chapters(
        book: *const u32,
        n: usize,
        session: *const u32,
        m: usize,
        chapters: *const u32,
        k: usize,
        totals: *mut u64,
        l: usize,
    ) -> u64;
    fn tariff_quote(
        book: *const u32,
        n: usize,
        script: *const u8,
        m: usize,
        out: *mut u32,
        k: usize,
        ceiling: *mut u64,
    ) -> u64;
    fn tariff_price(
        book: *const u32,
        n: usize,
        session: *const u32,
        m: usize,
        base: i64,
        lines: *const i32,
        k: usize,
        amount: *mut i64,
    ) -> u64;
    fn tariff_check_bands(table: *const u32, n: usize, age: *mut u32) -> u64;
    fn tariff_price_for_age(
        book: *const u32,
        n: usize,
        session: *const u32,
        m: usize,
        base: i64,
        table: *const u32,
        k: usize,
        age: u32,
        lines: *const i32,
        l: usize,
        amount: *mut i64,
    ) -> u64;
    fn tariff_write_field(value: i64, bytes: usize, out: *mut u8, n: usize) -> u64;
    fn tariff_read_field(field: *const u8, n: usize, value: *mut i64) -> u64;
    fn tariff_write_quote(map: u8, base: i64, premium: i64, open_lines: i64, out: *mut u8, n: usize) -> u64;
    fn tariff_read_quote(quote: *const u8, n: usize, base: *mut i64, premium: *mut i64, open_lines: *mut i64) -> u64;
}

pub struct Proved;

// Each call has no precondition: any slices of the declared types are in its domain.
impl Engine for Proved {
    fn read(&self, text: &[u8], book: &mut [u32]) -> Answer {
        Answer::from_code(unsafe { tariff_read(text.as_ptr(), text.len(), book.as_mut_ptr(), book.len()) })
    }

    fn required_length(&self, book: &[u32]) -> Answer {
        Answer::from_code(unsafe { tariff_required_length(book.as_ptr(), book.len()) })
    }

    fn open(&self, book: &[u32], session: &mut [u32]) -> Answer {
        Answer::from_code(unsafe { tariff_open(book.as_ptr(), book.len(), session.as_mut_ptr(), session.len()) })
    }

    fn decide(&self, book: &[u32], session: &mut [u32], literal: u32) -> Answer {
        Answer::from_code(unsafe {
            tariff_decide(book.as_ptr(), book.len(), session.as_mut_ptr(), session.len(), literal)
        })
    }

    fn backtrack(&self, book: &[u32], session: &mut [u32], k: u32) -> Answer {
        Answer::from_code(unsafe {
            tariff_backtrack(book.as_ptr(), book.len(), session.as_mut_ptr(), session.len(), k)
        })
    }

    fn fix(&self, book: &[u32], session: &mut [u32], f: u32) -> Answer {
        Answer::from_code(unsafe { tariff_fix(book.as_ptr(), book.len(), session.as_mut_ptr(), session.len(), f) })
    }

    fn fixed(&self, book: &[u32], session: &[u32]) -> Answer {
        Answer::from_code(unsafe { tariff_fixed(book.as_ptr(), book.len(), session.as_ptr(), session.len()) })
    }

    fn lookup(&self, book: &[u32], session: &[u32], variable: u32) -> Answer {
        Answer::from_code(unsafe {
            tariff_lookup(book.as_ptr(), book.len(), session.as_ptr(), session.len(), variable)
        })
    }

    fn trail_from(&self, book: &[u32], session: &[u32], before: u32, out: &mut [u32]) -> Answer {
        Answer::from_code(unsafe {
            tariff_trail_from(
                book.as_ptr(),
                book.len(),
                session.as_ptr(),
                session.len(),
                before,
                out.as_mut_ptr(),
                out.len(),
            )
        })
    }

    fn figures(&self, book: &[u32], session: &[u32], out: &mut [u32]) -> Answer {
        Answer::from_code(unsafe {
            tariff_figures(
                book.as_ptr(),
                book.len(),
                session.as_ptr(),
                session.len(),
                out.as_mut_ptr(),
                out.len(),
            )
        })
    }

    fn checks(&self, book: &[u32], session: &[u32], out: &mut [u32]) -> Answer {
        Answer::from_code(unsafe {
            tariff_checks(
                book.as_ptr(),
                book.len(),
                session.as_ptr(),
                session.len(),
                out.as_mut_ptr(),
                out.len(),
            )
        })
    }

    fn total(&self, book: &[u32], session: &[u32], sum: &mut u64) -> Answer {
        Answer::from_code(unsafe { tariff_total(book.as_ptr(), book.len(), session.as_ptr(), session.len(), sum) })
    }

    fn chapters(&self, book: &[u32], session: &[u32], chapters: &[u32], totals: &mut [u64]) -> Answer {
        Answer::from_code(unsafe {
            tariff_chapters(
                book.as_ptr(),
                book.len(),
                session.as_ptr(),
                session.len(),
                chapters.as_ptr(),
                chapters.len(),
                totals.as_mut_ptr(),
                totals.len(),
            )
        })
    }

    fn quote(&self, book: &[u32], script: &[u8], out: &mut [u32], ceiling: &mut u64) -> Answer {
        Answer::from_code(unsafe {
            tariff_quote(
                book.as_ptr(),
                book.len(),
                script.as_ptr(),
                script.len(),
                out.as_mut_ptr(),
                out.len(),
                ceiling,
            )
        })
    }

    fn price(&self, book: &[u32], session: &[u32], base: i64, lines: &[i32], amount: &mut i64) -> Answer {
        Answer::from_code(unsafe {
            tariff_price(
                book.as_ptr(),
                book.len(),
                session.as_ptr(),
                session.len(),
                base,
                lines.as_ptr(),
                lines.len(),
                amount,
            )
        })
    }

    fn check_bands(&self, table: &[u32], age: &mut u32) -> Answer {
        Answer::from_code(unsafe { tariff_check_bands(table.as_ptr(), table.len(), age) })
    }

    fn price_for_age(
        &self,
        book: &[u32],
        session: &[u32],
        base: i64,
        table: &[u32],
        age: u32,
        lines: &[i32],
        amount: &mut i64,
    ) -> Answer {
        Answer::from_code(unsafe {
            tariff_price_for_age(
                book.as_ptr(),
                book.len(),
                session.as_ptr(),
                session.len(),
                base,
                table.as_ptr(),
                table.len(),
                age,
                lines.as_ptr(),
                lines.len(),
                amount,
            )
        })
    }

    fn write_field(&self, value: i64, bytes: usize, out: &mut [u8]) -> Answer {
        Answer::from_code(unsafe { tariff_write_field(value, bytes, out.as_mut_ptr(), out.len()) })
    }

    fn read_field(&self, field: &[u8], value: &mut i64) -> Answer {
        Answer::from_code(unsafe { tariff_read_field(field.as_ptr(), field.len(), value) })
    }

    fn write_quote(&self, map: u8, [base, premium, open_lines]: RecordValues, out: &mut [u8]) -> Answer {
        Answer::from_code(unsafe { tariff_write_quote(map, base, premium, open_lines, out.as_mut_ptr(), out.len()) })
    }

    fn read_quote(&self, quote: &[u8], [base, premium, open_lines]: &mut RecordValues) -> Answer {
        Answer::from_code(unsafe { tariff_read_quote(quote.as_ptr(), quote.len(), base, premium, open_lines) })
    }
}
