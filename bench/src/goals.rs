//! The goals: what the worst book measures, whether that meets the goal, and what fails the run.
use crate::plan::{Group, Plan, Task};

/// Times move with the machine's load: a time that misses a goal by no more than this factor does not fail the run.
pub const MARGIN: f64 = 1.1;

#[derive(Clone, Copy)]
pub enum Bound {
    AtMost(f64),
    AtLeast(f64),
}

impl Bound {
    fn met(self, value: f64) -> bool {
        match self {
            Bound::AtMost(most) => value <= most,
            Bound::AtLeast(least) => value >= least,
        }
    }

    fn met_within(self, value: f64, factor: f64) -> bool {
        match self {
            Bound::AtMost(most) => value <= most * factor,
            Bound::AtLeast(least) => value >= least / factor,
        }
    }

    fn worse(self, a: f64, b: f64) -> bool {
        match self {
            Bound::AtMost(_) => a > b,
            Bound::AtLeast(_) => a < b,
        }
    }

    fn missed_by(self, value: f64) -> f64 {
        match self {
            Bound::AtMost(most) => value - most,
            Bound::AtLeast(least) => least - value,
        }
    }

    pub fn named(self) -> String {
        match self {
            Bound::AtMost(most) => format!("at most {most:.1}"),
            Bound::AtLeast(least) => format!("at least {least:.0}"),
        }
    }
}

/// A ratio, in hundredths as it is printed, and the book of which it is.
pub struct Worst {
    pub value: f64,
    pub book: String,
}

/// The worst ratio of a group's tasks, of one figure of each.
fn worst(groups: &[Group], bound: Bound, tasks: [usize; 2], figure: fn(&Task) -> f64) -> Worst {
    let ratios = groups.iter().map(|group| Worst {
        value: (100.0 * figure(&group.tasks[tasks[0]]) / figure(&group.tasks[tasks[1]])).round() / 100.0,
        book: group.name.clone(),
    });
    let worst = ratios.reduce(|a, b| if bound.worse(b.value, a.value) { b } else { a });
    worst.expect("a group")
}

pub struct Goal {
    pub name: &'static str,
    pub bound: Bound,
    pub time: Worst,
    pub instructions: Worst,
}

impl Goal {
    /// The goal that the ratio of the first to the second task stays within the bound on every book.
    fn of(name: &'static str, groups: &[Group], tasks: [usize; 2], bound: Bound) -> Goal {
        Goal {
            name,
            bound,
            time: worst(groups, bound, tasks, |task| task.nanoseconds),
            instructions: worst(groups, bound, tasks, |task| task.instructions),
        }
    }

    pub fn met(&self) -> bool {
        self.bound.met(self.time.value) && self.bound.met(self.instructions.value)
    }

    /// Whether the goal is met by instructions, and by time but for the margin.
    pub fn passes(&self) -> bool {
        self.bound.met_within(self.time.value, MARGIN) && self.bound.met(self.instructions.value)
    }

    /// In words, for one of the two measures.
    pub fn verdict(&self, worst: &Worst, margin: f64) -> String {
        if self.bound.met(worst.value) {
            return "met".to_string();
        }
        let within = if self.bound.met_within(worst.value, margin) {
            ", within the margin"
        } else {
            ""
        };
        format!("missed by {:.2}{within}", self.bound.missed_by(worst.value))
    }

    /// What was measured, and what that means for the goal.
    pub fn sentence(&self) -> String {
        format!(
            "Goal: {}. By time the worst is {:.2} ({}): {}. By instructions it is {:.2} ({}): {}.",
            self.bound.named(),
            self.time.value,
            self.time.book,
            self.verdict(&self.time, MARGIN),
            self.instructions.value,
            self.instructions.book,
            self.verdict(&self.instructions, 1.0),
        )
    }
}

pub struct Goals {
    /// A decision, proved / plain.
    pub decision: Goal,
    /// CaDiCaL afresh / a proved decision.
    pub call: Goal,
    /// CaDiCaL afresh / the step of that decision without examination.
    pub step: Goal,
    /// Reading, proved / plain.
    pub reading: Goal,
}

impl Goals {
    pub fn new(plan: &Plan) -> Goals {
        Goals {
            decision: Goal::of(
                "a. decision: proved / plain Rust",
                &plan.calls,
                [0, 1],
                Bound::AtMost(1.0),
            ),
            call: Goal::of(
                "c. decision: CaDiCaL afresh / proved",
                &plan.cadical,
                [2, 0],
                Bound::AtLeast(20.0),
            ),
            step: Goal::of(
                "c. its step without validation: CaDiCaL afresh / proved",
                &plan.cadical,
                [2, 1],
                Bound::AtLeast(20.0),
            ),
            reading: Goal::of(
                "d. reading: proved / plain Rust",
                &plan.reading,
                [0, 1],
                Bound::AtMost(1.1),
            ),
        }
    }

    pub fn all(&self) -> [&Goal; 4] {
        [&self.decision, &self.call, &self.step, &self.reading]
    }

    /// The goals that fail the run: all but that of a whole decision against CaDiCaL, which may be missed where its step meets it.
    pub fn failed(&self) -> Vec<&Goal> {
        let excused = |goal: &Goal| std::ptr::eq(goal, &self.call) && self.step.passes();
        let failed = self.all().into_iter().filter(|goal| !goal.passes());
        failed.filter(|goal| !excused(goal)).collect()
    }
}
