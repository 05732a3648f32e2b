//! Instructions: this program runs itself once under callgrind, which writes one dump for each task.
use crate::plan::Plan;
use crate::probe::{bench_dump, Collector, Probe};
use std::fs;
use std::path::Path;
use std::process::{Command, Stdio};

/// The argument that makes this program run the tasks of a plan for callgrind; the plan's name follows.
pub const COLLECT: &str = "collect";

/// Runs each task once, with a dump behind it.
pub fn collect(plan: &mut Plan) {
    for group in plan.groups() {
        for task in &group.tasks {
            (task.work)(&mut Collector);
            bench_dump();
        }
    }
}

/// The instructions that a dump of callgrind counts in all; fails where there is no dump, or no instruction in it.
fn total(dump: &Path) -> f64 {
    let text = fs::read_to_string(dump).unwrap_or_else(|error| panic!("{}: {error}", dump.display()));
    let line = text.lines().find_map(|line| line.strip_prefix("totals: "));
    let number: Option<f64> = line.and_then(|number| number.trim().parse().ok());
    match number {
        Some(number) if number > 0.0 => number,
        _ => panic!("{}: callgrind counted nothing", dump.display()),
    }
}

/// A probe that counts calls.
struct Counter(usize);

impl Probe for Counter {
    fn call(&mut self, f: &mut dyn FnMut()) {
        self.0 += 1;
        f();
    }
}

/// Removes the dumps of an earlier run.
fn remove_dumps(folder: &Path) {
    for entry in fs::read_dir(folder).expect("the folder is read").flatten() {
        if entry.file_name().to_string_lossy().starts_with("callgrind.out") {
            fs::remove_file(entry.path()).expect("a dump is removed");
        }
    }
}

/// Fills in the instructions per call of every task.
pub fn count(plan: &mut Plan, folder: &Path) {
    let out = folder.join("callgrind.out");
    remove_dumps(folder);
    let status = Command::new("valgrind")
        .args([
            "--tool=callgrind",
            "--toggle-collect=bench_collected",
            "--dump-after=bench_dump",
        ])
        .arg(format!("--callgrind-out-file={}", out.display()))
        .arg(std::env::current_exe().expect("the path of this program"))
        .args([COLLECT, plan.name])
        .stderr(Stdio::null())
        .status()
        .expect("valgrind starts");
    assert!(status.success(), "callgrind failed");
    let mut number = 0;
    for group in plan.groups() {
        for task in &mut group.tasks {
            number += 1;
            let mut counter = Counter(0);
            (task.work)(&mut counter);
            let dump = folder.join(format!("callgrind.out.{number}"));
            task.instructions = total(&dump) / counter.0 as f64;
        }
    }
}
