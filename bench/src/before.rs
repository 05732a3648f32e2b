//! A tree's libraries against those of an earlier commit: one bench, linked with each, measures the scans of long clauses.
use crate::instructions;
use crate::measure;
use crate::plan::{Plan, Task, SCANS};
use crate::report;
use crate::versions;
use std::fs;
use std::path::Path;
use std::process::{Command, Stdio};

/// How often each of the two is run.
const TURNS: usize = 5;
/// A time that is off its median by no more than this part of it is near it.
const NEAR: f64 = 0.05;
/// How the heading of a section begins that is written here. These sections stand at the end of the report.
const HEADING: &str = "## Before and after ";

/// Nanoseconds and instructions of each task, for each group.
type Figures = Vec<Vec<[f64; 2]>>;

/// Measures with the linked libraries, and prints the figures, a line for each group.
pub fn print_figures(folder: &Path) {
    let mut plan = Plan::of(SCANS);
    plan.groups().for_each(measure::measure);
    instructions::count(&mut plan, folder);
    for group in &plan.scans {
        let figures = group.tasks.iter().flat_map(Task::figures);
        println!(
            "{}",
            figures.map(|figure| figure.to_string()).collect::<Vec<_>>().join(" ")
        );
    }
}

/// The figures that a bench prints.
fn figures(bench: &Path, folder: &Path) -> Figures {
    let output = Command::new(bench)
        .arg(SCANS)
        .arg(folder)
        .stderr(Stdio::inherit())
        .output();
    let output = output.expect("the bench starts");
    assert!(output.status.success(), "{} failed", bench.display());
    let text = String::from_utf8(output.stdout).expect("text");
    let figures = |line: &str| {
        let numbers: Vec<f64> = line.split(' ').map(|word| word.parse().expect("a number")).collect();
        numbers.chunks_exact(2).map(|pair| [pair[0], pair[1]]).collect()
    };
    text.lines().map(figures).collect()
}

/// The median of a figure over the turns.
fn median(turns: &[Figures], group: usize, task: usize, figure: usize) -> f64 {
    let mut numbers: Vec<f64> = turns.iter().map(|turn| turn[group][task][figure]).collect();
    numbers.sort_unstable_by(f64::total_cmp);
    numbers[TURNS / 2]
}

/// How many of the times are off their median by no more than `NEAR`, and how many times there are.
fn near(turns: &[Figures]) -> [usize; 2] {
    let places = (0..turns[0].len()).flat_map(|group| [(group, 0), (group, 1)]);
    let off = |(group, task): (usize, usize)| {
        let median = median(turns, group, task, 0);
        turns
            .iter()
            .map(move |turn| (turn[group][task][0] / median - 1.0).abs())
    };
    let parts: Vec<f64> = places.flat_map(off).collect();
    [parts.iter().filter(|&&part| part <= NEAR).count(), parts.len()]
}

/// The table of one task, 0 the decision and 1 its step.
fn beside(plan: &Plan, task: usize, now: &[Figures], before: &[Figures]) -> String {
    let medians = |turns: &[Figures], group| [0, 1].map(|figure| median(turns, group, task, figure));
    let rows = plan
        .scans
        .iter()
        .enumerate()
        .map(|(group, named)| (&named.name[..], medians(now, group), medians(before, group)));
    report::beside_table("book", ["now", "before"], rows)
}

/// Whether the libraries of two trees are the same files.
fn same_libraries(then: &Path, now: &Path) -> bool {
    ["libcapi.a", "libsteps.a"].iter().all(|name| {
        let [a, b] = [then, now].map(|tree| fs::read(tree.join("target/staticlib").join(name)).expect("a library"));
        a == b
    })
}

/// The section: the tree of a commit against that of the request. The folder has a bench over each.
fn section(folder: &Path, tree: &Path, commit: &str, request: &str) -> String {
    let (mut now, mut before) = (Vec::new(), Vec::new());
    for _ in 0..TURNS {
        before.push(figures(&folder.join("then"), folder));
        now.push(figures(&folder.join("here"), folder));
    }
    let same = match same_libraries(tree, Path::new(".")) {
        true => "are the same files, byte by byte",
        false => "differ",
    };
    let [close, close_before] = [&now, &before].map(|turns| near(turns));
    let plan = Plan::of(SCANS);
    let [decisions, steps] = [0, 1].map(|task| beside(&plan, task, &now, &before));
    format!(
        "{HEADING}{request}\n\n\
         Written by `bench/before {commit} {request}`. Before: the tree of commit {commit}. Now: the tree of {request}. {TURNS} runs of each in turn, of which the\n\
         medians; {} of the {} times are within {:.0} % of their median. The compiled libraries of the two {same}.\n\
         Machine: {}. Tools: {}.\n\n\
         The decision that scans every clause in full (section f), with its validation:\n\n{decisions}\n\
         Its step without examination. It stands for the scan, which nothing calls by itself; the rest of it reads the list, counts, and implies literals:\n\n{steps}",
        close[0] + close_before[0],
        close[1] + close_before[1],
        100.0 * NEAR,
        versions::machine(),
        versions::tools(),
    )
}

/// The sections that earlier runs have written here.
pub fn kept(report: &str) -> &str {
    report.find(HEADING).map_or("", |at| &report[at..])
}

/// Writes the section of a request to the end of the report, and takes an earlier one of it out.
pub fn write(folder: &Path, tree: &Path, commit: &str, request: &str, docs: &Path) {
    let file = docs.join(report::FILE);
    let text = fs::read_to_string(&file).expect("the report is read");
    let kept = kept(&text);
    let title = format!("{request}\n");
    let others = kept
        .split(HEADING)
        .skip(1)
        .filter(|section| !section.starts_with(&title));
    let mut written = text[..text.len() - kept.len()].to_string();
    others.for_each(|section| written.push_str(&format!("{HEADING}{}\n\n", section.trim_end())));
    let section = section(folder, tree, commit, request);
    print!("{section}");
    fs::write(file, written + &section).expect("the report is written");
}
