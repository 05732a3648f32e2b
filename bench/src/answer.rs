//! What a call of either engine answers.

#[derive(Clone, Copy, Debug, PartialEq, Eq)]
pub enum Answer {
    /// Accepted, with the number that the call reports.
    Accepted(u32),
    /// The name of the conflict clause.
    Conflict(u32),
    /// The refusal number.
    Refused(u32),
    /// The lent table is false; there is no number.
    False,
}

impl Answer {
    /// From kind × 2^32 + number.
    pub fn from_code(code: u64) -> Answer {
        let number = code as u32;
        match (code >> 32, number) {
            (0, _) => Answer::Accepted(number),
            (1, _) => Answer::Conflict(number),
            (2, _) => Answer::Refused(number),
            (3, 0) => Answer::False,
            _ => panic!("no answer: {code}"),
        }
    }
}
