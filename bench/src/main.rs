//! Measures the proved engine against plain Rust, CaDiCaL and an earlier commit, and writes docs/SPEED.md and docs/speed.svg.
mod answer;
mod before;
mod books;
mod cadical;
mod damage;
mod differential;
mod engine;
mod fields;
mod goals;
mod instructions;
mod measure;
mod places;
mod plain;
mod plan;
mod plot;
mod probe;
mod proved;
mod random;
mod rates;
mod report;
mod scans;
mod script;
mod stages;
mod steps;
mod tables;
mod tally;
mod text;
mod versions;

use goals::Goals;
use plan::{Plan, SCANS, WHOLE};
use std::fs;
use std::path::Path;

/// Measures the whole plan, writes the report, and answers whether no goal fails the run; where one does, the program fails.
fn run(folder: &Path, docs: &Path) -> bool {
    let mut plan = Plan::of(WHOLE);
    let workloads = plan::workloads();
    let texts: Vec<_> = plan::texts(&workloads).into_iter().map(|(_, text)| text).collect();
    let compared = differential::compare(&[workloads, scans::workloads()].concat(), &texts);
    plan.groups().for_each(measure::measure);
    instructions::count(&mut plan, folder);
    let goals = Goals::new(&plan);
    let report = report::report(&plan, &goals, &compared);
    print!("{report}");
    let file = docs.join(report::FILE);
    let earlier = fs::read_to_string(&file).unwrap_or_default();
    fs::write(file, report + before::kept(&earlier)).expect("the report is written");
    fs::write(docs.join("speed.svg"), plot::plot(&plan.growth)).expect("docs/speed.svg is written");
    let failed = goals.failed();
    for goal in &failed {
        eprintln!("bench: {}: {}", goal.name, goal.sentence());
    }
    failed.is_empty()
}

/// `run` and `before` are what bench/run and bench/before call; the others are what these two run. Callgrind writes to FOLDER, the report
/// goes to DOCS.
fn main() {
    let arguments: Vec<String> = std::env::args().skip(1).collect();
    let words: Vec<&str> = arguments.iter().map(String::as_str).collect();
    match words[..] {
        ["run", folder, docs] => std::process::exit(i32::from(!run(Path::new(folder), Path::new(docs)))),
        ["before", folder, tree, commit, request, docs] => {
            before::write(Path::new(folder), Path::new(tree), commit, request, Path::new(docs))
        }
        [SCANS, folder] => before::print_figures(Path::new(folder)),
        [instructions::COLLECT, name] => instructions::collect(&mut Plan::of(name)),
        _ => panic!("usage: bench run FOLDER DOCS, or bench before FOLDER TREE COMMIT REQUEST DOCS"),
    }
}
