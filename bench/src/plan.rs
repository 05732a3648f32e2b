//! The plan: every measured task, in groups whose tasks alternate; the timed run and callgrind's run share it.
use crate::answer::Answer;
use crate::books::{self, Size, LIMITS, TENTH};
use crate::cadical;
use crate::engine::Engine;
use crate::plain::Plain;
use crate::probe::Probe;
use crate::proved::Proved;
use crate::random::Random;
use crate::rates::{self, Rates, LINES};
use crate::scans;
use crate::script::{session_length, Call, Workload};
use crate::stages;
use crate::steps;
use crate::text::grouped;
use std::hint::black_box;
use std::rc::Rc;

pub const PROVED: &dyn Engine = &Proved;
pub const PLAIN: &dyn Engine = &Plain;

/// The names of the plans: everything, and the proved scans of long clauses alone.
pub const WHOLE: &str = "whole";
pub const SCANS: &str = "scans";

/// The decisions of a script, of one for CaDiCaL, and of one for growth.
pub const DECISIONS: usize = 200;
pub const ASKED: usize = 30;
pub const GROWTH: usize = 40;

type Work = Box<dyn Fn(&mut dyn Probe)>;
type Generate = fn(&mut Random, Size) -> Vec<u32>;

/// One contestant's calls, and what was measured per call.
pub struct Task {
    pub work: Work,
    pub nanoseconds: f64,
    pub instructions: f64,
}

impl Task {
    pub fn figures(&self) -> [f64; 2] {
        [self.nanoseconds, self.instructions]
    }
}

/// Tasks that alternate.
pub struct Group {
    pub name: String,
    pub tasks: Vec<Task>,
}

/// A series of growing books; each group has its number on the axis.
pub struct Series {
    pub title: &'static str,
    pub axis: &'static str,
    /// Whether the axis is logarithmic.
    pub logarithmic: bool,
    pub points: Vec<(usize, Group)>,
}

#[derive(Default)]
pub struct Plan {
    pub name: &'static str,
    /// Each: decide proved, decide plain, lookup proved, lookup plain.
    pub calls: Vec<Group>,
    /// Each: decide proved, its step without examination, the same question to CaDiCaL afresh, and to CaDiCaL kept.
    pub cadical: Vec<Group>,
    /// Each: read proved, read plain.
    pub reading: Vec<Group>,
    /// Each: the form of the book proved, plain, then every stage of validation proved, plain.
    pub stages: Vec<Group>,
    /// Each point: decide proved, decide plain, lookup proved.
    pub growth: Vec<Series>,
    /// Each: a decision that scans in full, its step without examination; in the whole plan its scans in plain Rust, too, wrapped and running.
    pub scans: Vec<Group>,
    /// Each: price proved, price plain, lookup proved, lookup plain, all in one session.
    pub prices: Vec<Group>,
}

pub fn task(work: impl Fn(&mut dyn Probe) + 'static) -> Task {
    Task {
        work: Box::new(work),
        nanoseconds: 0.0,
        instructions: 0.0,
    }
}

/// The calls of a script, of which the workload says the measured ones.
pub fn decide(engine: &'static dyn Engine, workload: &Rc<Workload>) -> Task {
    let workload = workload.clone();
    task(move |probe| {
        workload.run(engine, |call, session| {
            let mut made = || {
                black_box(call.make(engine, &workload.book, session));
            };
            if (workload.measured)(call) {
                probe.call(&mut made);
            } else {
                made();
            }
        })
    })
}

/// A lookup before each decision of a script, measured: the validation of the same states.
fn lookup(engine: &'static dyn Engine, workload: &Rc<Workload>) -> Task {
    let workload = workload.clone();
    task(move |probe| {
        workload.run(engine, |call, session| {
            if let Call::Decide(literal) = call {
                probe.call(&mut || {
                    black_box(engine.lookup(&workload.book, session, literal / 2));
                });
            }
            call.make(engine, &workload.book, session);
        })
    })
}

/// The questions of a script's decisions to CaDiCaL, each to a fresh solver.
fn ask(workload: &Rc<Workload>) -> Task {
    let clauses = cadical::clauses_of(&workload.book);
    let states = workload.decisions_in_force();
    task(move |probe| {
        for decisions in &states {
            probe.call(&mut || {
                black_box(cadical::ask(&clauses, decisions));
            });
        }
    })
}

/// The same questions to one solver that is kept; that it takes the clauses is not measured, as an opening is not.
fn ask_kept(workload: &Rc<Workload>) -> Task {
    let clauses = cadical::clauses_of(&workload.book);
    let states = workload.decisions_in_force();
    task(move |probe| {
        let mut kept = cadical::Kept::new(&clauses);
        for decisions in &states {
            probe.call(&mut || {
                black_box(kept.ask(decisions));
            });
        }
    })
}

/// The same calls, each taken as a step without examination.
pub fn step(workload: &Rc<Workload>) -> Task {
    let workload = workload.clone();
    task(move |probe| {
        let mut session = vec![0; session_length(&workload.book)];
        PROVED.open(&workload.book, &mut session);
        for &call in &workload.script {
            // The script's calls are accepted in a session that passes.
            let mut taken = || unsafe { steps::take(call, &workload.book, black_box(&mut session)) };
            if (workload.measured)(call) {
                probe.call(&mut taken);
            } else {
                taken();
            }
        }
    })
}

fn read(engine: &'static dyn Engine, text: &Rc<Vec<u8>>) -> Task {
    let text = text.clone();
    task(move |probe| {
        let mut book = vec![0; 7504];
        for _ in 0..10 {
            probe.call(&mut || {
                black_box(engine.read(&text, &mut book));
            });
        }
    })
}

/// Lookups on sessions that fail at the end of a stage, or pass; of no variable, so that nothing but validation is done.
fn refused(engine: &'static dyn Engine, workload: &Rc<Workload>, stage: usize) -> Task {
    let workload = workload.clone();
    let sessions = stages::sessions(&workload, stage, 20);
    assert!(!sessions.is_empty(), "no state of {} suits the stages", workload.name);
    task(move |probe| {
        for session in &sessions {
            probe.call(&mut || {
                black_box(engine.lookup(&workload.book, session, 0));
            });
        }
    })
}

/// A call, made twenty times.
fn repeated(call: impl Fn() + 'static) -> Task {
    task(move |probe| {
        for _ in 0..20 {
            probe.call(&mut || call());
        }
    })
}

fn form(engine: &'static dyn Engine, workload: &Rc<Workload>) -> Task {
    let workload = workload.clone();
    repeated(move || {
        black_box(engine.required_length(&workload.book));
    })
}

/// Prices by the measured rate list, and lookups in the same session.
fn price_group(workload: &Rc<Workload>) -> Group {
    let given = Rc::new(rates::measured(workload));
    let price = |engine: &'static dyn Engine| {
        let (workload, given) = (workload.clone(), given.clone());
        repeated(move || {
            let Rates { base, lines } = &given.rates;
            let answer = engine.price(&workload.book, &given.session, *base, lines, black_box(&mut 0));
            assert!(matches!(answer, Answer::Accepted(_)), "{answer:?}");
        })
    };
    let lookup = |engine: &'static dyn Engine| {
        let (workload, given) = (workload.clone(), given.clone());
        repeated(move || {
            black_box(engine.lookup(&workload.book, &given.session, 1));
        })
    };
    Group {
        name: format!("{}, {} of {LINES} lines apply", workload.name, given.applied),
        tasks: vec![price(PROVED), price(PLAIN), lookup(PROVED), lookup(PLAIN)],
    }
}

/// The workloads of the comparison.
pub fn workloads() -> Vec<Rc<Workload>> {
    let mut random = Random::new(2024);
    let mut made = Vec::new();
    for (name, size) in [("limits", LIMITS), ("a tenth", TENTH)] {
        let kinds: [(&str, Generate); 2] = [("random", books::mixed), ("chain", books::chain)];
        for (kind, generate) in kinds {
            let book = generate(&mut random, size);
            made.push(Rc::new(Workload::new(
                &format!("{name}, {kind}"),
                &mut random,
                book,
                DECISIONS,
            )));
        }
    }
    made
}

/// The texts of the reading comparison.
pub fn texts(workloads: &[Rc<Workload>]) -> Vec<(String, Rc<Vec<u8>>)> {
    let limits = books::text_of(&workloads[0].book);
    let tenth = books::text_of(&workloads[2].book);
    let padded = books::padded(&limits, 60_000);
    let named = |name: &str, text: Vec<u8>| (format!("{name}, {} bytes", grouped(text.len() as f64)), Rc::new(text));
    vec![
        named("limits", limits),
        named("limits, padded", padded),
        named("a tenth", tenth),
    ]
}

fn stage_group(workload: &Rc<Workload>) -> Group {
    let mut tasks = vec![form(PROVED, workload), form(PLAIN, workload)];
    for stage in 0..stages::STAGES.len() {
        tasks.push(refused(PROVED, workload, stage));
        tasks.push(refused(PLAIN, workload, stage));
    }
    Group {
        name: workload.name.clone(),
        tasks,
    }
}

/// The points (number on the axis, C, clause length) of a series, at V 500.
fn series(title: &'static str, axis: &'static str, points: &[(usize, usize, usize)]) -> Series {
    let point = |&(x, clauses, length): &(usize, usize, usize)| {
        let mut random = Random::new(7 + x as u64);
        let book = books::uniform(&mut random, 500, clauses, length);
        let workload = Rc::new(Workload::new(axis, &mut random, book, GROWTH));
        let tasks = vec![
            decide(PROVED, &workload),
            decide(PLAIN, &workload),
            lookup(PROVED, &workload),
        ];
        let [c, l] = [clauses, clauses * length].map(|number| grouped(number as f64));
        let name = format!("C {c}, L {l}, clauses of {length}");
        (x, Group { name, tasks })
    };
    Series {
        title,
        axis,
        logarithmic: false,
        points: points.iter().map(point).collect(),
    }
}

fn growth() -> Vec<Series> {
    let clauses: Vec<_> = (1..=5).map(|i| (300 * i, 300 * i, 4)).collect();
    let literals: Vec<_> = (2..=6).map(|n| (1000 * n, 1000, n)).collect();
    let lengths: Vec<_> = [4, 8, 16, 32, 64, 128, 255].map(|n| (n, 6000 / n, n)).to_vec();
    vec![
        series("clauses of 4 literals", "C, the number of clauses", &clauses),
        series("1,000 clauses", "L, the number of literals", &literals),
        Series {
            logarithmic: true,
            ..series("about 6,000 literals", "clause length", &lengths)
        },
    ]
}

impl Plan {
    /// The plan of a name.
    pub fn of(name: &str) -> Plan {
        match name {
            WHOLE => Plan::whole(),
            SCANS => Plan {
                name: SCANS,
                scans: scans::proved(),
                ..Plan::default()
            },
            _ => panic!("no plan {name}"),
        }
    }

    fn whole() -> Plan {
        let workloads = workloads();
        let calls = workloads.iter().map(|w| Group {
            name: w.name.clone(),
            tasks: vec![decide(PROVED, w), decide(PLAIN, w), lookup(PROVED, w), lookup(PLAIN, w)],
        });
        let cadical = workloads.iter().map(|w| {
            let short = Rc::new(w.prefix(ASKED));
            Group {
                name: w.name.clone(),
                tasks: vec![decide(PROVED, &short), step(&short), ask(&short), ask_kept(&short)],
            }
        });
        let reading = texts(&workloads).into_iter().map(|(name, text)| Group {
            name,
            tasks: vec![read(PROVED, &text), read(PLAIN, &text)],
        });
        Plan {
            name: WHOLE,
            calls: calls.collect(),
            cadical: cadical.collect(),
            reading: reading.collect(),
            stages: [&workloads[0], &workloads[2]].map(stage_group).into(),
            growth: growth(),
            scans: scans::groups(),
            prices: workloads[..2].iter().map(price_group).collect(),
        }
    }

    /// All groups, in the order of the run.
    pub fn groups(&mut self) -> impl Iterator<Item = &mut Group> {
        let points = self.growth.iter_mut().flat_map(|series| series.points.iter_mut());
        self.calls
            .iter_mut()
            .chain(self.cadical.iter_mut())
            .chain(self.reading.iter_mut())
            .chain(self.stages.iter_mut())
            .chain(points.map(|(_, group)| group))
            .chain(self.scans.iter_mut())
            .chain(self.prices.iter_mut())
    }
}
