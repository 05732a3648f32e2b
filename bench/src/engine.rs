//! The calls that both engines have.
use crate::answer::Answer;

/// The values of a quote record: base, premium and open lines.
pub type RecordValues = [i64; 3];

pub trait Engine {
    fn read(&self, text: &[u8], book: &mut [u32]) -> Answer;
    fn required_length(&self, book: &[u32]) -> Answer;
    fn open(&self, book: &[u32], session: &mut [u32]) -> Answer;
    fn decide(&self, book: &[u32], session: &mut [u32], literal: u32) -> Answer;
    fn backtrack(&self, book: &[u32], session: &mut [u32], k: u32) -> Answer;
    fn fix(&self, book: &[u32], session: &mut [u32], f: u32) -> Answer;
    fn fixed(&self, book: &[u32], session: &[u32]) -> Answer;
    fn lookup(&self, book: &[u32], session: &[u32], variable: u32) -> Answer;
    fn trail_from(&self, book: &[u32], session: &[u32], before: u32, out: &mut [u32]) -> Answer;
    fn figures(&self, book: &[u32], session: &[u32], out: &mut [u32]) -> Answer;
    fn checks(&self, book: &[u32], session: &[u32], out: &mut [u32]) -> Answer;
    fn total(&self, book: &[u32], session: &[u32], sum: &mut u64) -> Answer;
    fn chapters(&self, book: &[u32], session: &[u32], chapters: &[u32], totals: &mut [u64]) -> Answer;
    fn quote(&self, book: &[u32], script: &[u8], out: &mut [u32], ceiling: &mut u64) -> Answer;
    fn price(&self, book: &[u32], session: &[u32], base: i64, lines: &[i32], amount: &mut i64) -> Answer;
    fn check_bands(&self, table: &[u32], age: &mut u32) -> Answer;
    fn price_for_age(
        &self,
        book: &[u32],
        session: &[u32],
        base: i64,
        table: &[u32],
        age: u32,
        lines: &[i32],
        amount: &mut i64,
    ) -> Answer;
    fn write_field(&self, value: i64, bytes: usize, out: &mut [u8]) -> Answer;
    fn read_field(&self, field: &[u8], value: &mut i64) -> Answer;
    fn write_quote(&self, map: u8, values: RecordValues, out: &mut [u8]) -> Answer;
    fn read_quote(&self, quote: &[u8], values: &mut RecordValues) -> Answer;
}
