//! Workloads: a book and a script of accepted decisions and backtracks on it.
use crate::answer::Answer;
use crate::engine::Engine;
use crate::places::{places, CONFLICT, DECISIONS};
use crate::plain::Plain;
use crate::random::Random;

#[derive(Clone, Copy, Debug, PartialEq, Eq)]
pub enum Call {
    Decide(u32),
    Backtrack(u32),
}

pub struct Workload {
    pub name: String,
    pub book: Vec<u32>,
    pub script: Vec<Call>,
    /// Which calls are measured.
    pub measured: fn(Call) -> bool,
}

/// The length of a session on well-formed book numbers.
pub fn session_length(book: &[u32]) -> usize {
    match Plain.required_length(book) {
        Answer::Accepted(length) => length as usize,
        refused => panic!("no book: {refused:?}"),
    }
}

/// A random literal of an open variable, where there is one.
fn open_literal(random: &mut Random, book: &[u32], session: &[u32]) -> Option<u32> {
    let values = &session[places(book).values];
    let open: Vec<usize> = (0..values.len()).filter(|&v| values[v] == 0).collect();
    (!open.is_empty()).then(|| 2 * (1 + open[random.below(open.len())] as u32) + random.below(2) as u32)
}

/// The next call: a backtrack in conflict, at the end of the variables and once in a while, else a decision.
fn next_call(random: &mut Random, book: &[u32], session: &[u32]) -> Option<Call> {
    let decisions = session[DECISIONS] as usize;
    let literal = open_literal(random, book, session).filter(|_| session[CONFLICT] == 0);
    if decisions > 0 && (literal.is_none() || random.once_in(12)) {
        return Some(Call::Backtrack(1 + random.below(decisions.min(8)) as u32));
    }
    literal.map(Call::Decide)
}

impl Call {
    pub fn is_decision(self) -> bool {
        matches!(self, Call::Decide(_))
    }

    pub fn make(self, engine: &dyn Engine, book: &[u32], session: &mut [u32]) -> Answer {
        match self {
            Call::Decide(literal) => engine.decide(book, session, literal),
            Call::Backtrack(k) => engine.backtrack(book, session, k),
        }
    }
}

impl Workload {
    /// A script with so many decisions, made up on the plain engine.
    pub fn new(name: &str, random: &mut Random, book: Vec<u32>, decisions: usize) -> Workload {
        let mut session = vec![0; session_length(&book)];
        Plain.open(&book, &mut session);
        let mut script = Vec::new();
        let mut made = 0;
        while made < decisions {
            let Some(call) = next_call(random, &book, &session) else {
                break;
            };
            let answer = call.make(&Plain, &book, &mut session);
            assert!(!matches!(answer, Answer::Refused(_)), "{call:?}: {answer:?}");
            made += usize::from(call.is_decision());
            script.push(call);
        }
        Workload {
            name: name.to_string(),
            book,
            script,
            measured: Call::is_decision,
        }
    }

    /// Opens a session on an engine; `step` makes each call of the script.
    pub fn run(&self, engine: &dyn Engine, mut step: impl FnMut(Call, &mut [u32])) {
        let mut session = vec![0; session_length(&self.book)];
        engine.open(&self.book, &mut session);
        for &call in &self.script {
            step(call, &mut session);
        }
    }

    /// The same book with the script up to so many decisions.
    pub fn prefix(&self, decisions: usize) -> Workload {
        let mut made = 0;
        let script = self.script.iter().take_while(|call| {
            made += usize::from(call.is_decision());
            made <= decisions
        });
        Workload {
            name: self.name.clone(),
            book: self.book.clone(),
            script: script.copied().collect(),
            measured: self.measured,
        }
    }

    /// The decisions in force after each decision of the script.
    pub fn decisions_in_force(&self) -> Vec<Vec<u32>> {
        let mut stack = Vec::new();
        let mut states = Vec::new();
        for &call in &self.script {
            match call {
                Call::Decide(literal) => {
                    stack.push(literal);
                    states.push(stack.clone());
                }
                Call::Backtrack(k) => stack.truncate(stack.len() - k as usize),
            }
        }
        states
    }
}
