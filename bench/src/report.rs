//! The report: every measured figure, and what follows from it, as Markdown.
use crate::books::{Size, LIMITS, TENTH};
use crate::differential::{Compared, AGE_REFUSALS, PRICE_REFUSALS, READING_REFUSALS, TABLE_REFUSALS, WRITING_REFUSALS};
use crate::goals::{Goal, Goals, MARGIN};
use crate::measure::{ROUNDS, TIME};
use crate::plan::{Group, Plan, Series, Task, ASKED, DECISIONS, GROWTH};
use crate::rates::LINES;
use crate::scans::TIMES;
use crate::stages::STAGES;
use crate::tally::Tally;
use crate::text::{grouped, microseconds, percent, ratio, table};
use crate::versions;

/// The contestants of most tables.
const PROVED_PLAIN: [&str; 2] = ["proved", "plain"];

/// Microseconds and instructions of `a` and of `b`, with their ratios.
fn beside(name: &str, a: [f64; 2], b: [f64; 2]) -> Vec<String> {
    vec![
        name.to_string(),
        microseconds(a[0]),
        microseconds(b[0]),
        ratio(a[0], b[0]),
        grouped(a[1]),
        grouped(b[1]),
        ratio(a[1], b[1]),
    ]
}

/// A table of two contestants, by name: for each row what the first and what the second measures.
pub fn beside_table<'a>(
    first: &str,
    [a, b]: [&str; 2],
    rows: impl Iterator<Item = (&'a str, [f64; 2], [f64; 2])>,
) -> String {
    let [times, numbers] = ["µs", "instructions"].map(|unit| [format!("{a} {unit}"), format!("{b} {unit}")]);
    let quotient = format!("{a} / {b}");
    let head = [
        first,
        &times[0],
        &times[1],
        &quotient,
        &numbers[0],
        &numbers[1],
        &quotient,
    ];
    table(&head, &rows.map(|(name, a, b)| beside(name, a, b)).collect::<Vec<_>>())
}

/// A table of the tasks of groups, two of each.
fn tasks_table(first: &str, names: [&str; 2], groups: &[Group], tasks: [usize; 2]) -> String {
    let rows = groups.iter().map(|group| {
        let [a, b] = tasks.map(|task| group.tasks[task].figures());
        (&group.name[..], a, b)
    });
    beside_table(first, names, rows)
}

/// The goals, and what the worst book measures.
fn goals_table(goals: &Goals) -> String {
    let row = |goal: &Goal| {
        vec![
            goal.name.to_string(),
            goal.bound.named(),
            format!("{:.2}", goal.time.value),
            goal.verdict(&goal.time, MARGIN),
            format!("{:.2}", goal.instructions.value),
            goal.verdict(&goal.instructions, 1.0),
        ]
    };
    let head = [
        "of the books the worst",
        "goal",
        "by time",
        "that is",
        "by instructions",
        "that is",
    ];
    table(&head, &goals.all().map(row))
}

/// The least and the greatest of some numbers, printed.
fn range(numbers: impl Iterator<Item = f64>, print: impl Fn(f64) -> String) -> String {
    let (least, most) = numbers.fold((f64::INFINITY, f64::NEG_INFINITY), |(least, most), number| {
        (least.min(number), most.max(number))
    });
    format!("{} to {}", print(least), print(most))
}

/// What part of a proved decision its validation is.
fn shares_sentence(groups: &[Group]) -> String {
    let share = |figure: fn(&Task) -> f64| {
        let parts = groups
            .iter()
            .map(|group| figure(&group.tasks[2]) / figure(&group.tasks[0]));
        range(parts, |part| percent(part, 1.0))
    };
    format!(
        "Validation is {} of a proved decision by time, {} by instructions.",
        share(|task| task.nanoseconds),
        share(|task| task.instructions)
    )
}

fn shares(groups: &[Group]) -> String {
    let row = |group: &Group| {
        let [decide, decide_plain, lookup, lookup_plain] = &group.tasks[..] else {
            panic!("four tasks");
        };
        let proved = decide.instructions - lookup.instructions;
        let plain = decide_plain.instructions - lookup_plain.instructions;
        vec![
            group.name.clone(),
            percent(lookup.nanoseconds, decide.nanoseconds),
            percent(lookup.instructions, decide.instructions),
            percent(lookup_plain.instructions, decide_plain.instructions),
            grouped(proved),
            grouped(plain),
            ratio(proved, plain),
        ]
    };
    let head = [
        "book",
        "validation / decision, proved, by time",
        "by instructions",
        "plain, by instructions",
        "propagation proved, instructions",
        "propagation plain, instructions",
        "proved / plain",
    ];
    table(&head, &groups.iter().map(row).collect::<Vec<_>>())
}

/// The part of a call that each stage adds to those before it.
fn stages(group: &Group) -> String {
    let all = group.tasks[group.tasks.len() - 2].instructions;
    let mut before = [0.0; 4];
    let mut rows = Vec::new();
    let named = std::iter::once(("form of the book", "book::form::well_formed")).chain(STAGES);
    for (tasks, (name, function)) in group.tasks.chunks_exact(2).zip(named) {
        let (proved, plain) = (&tasks[0], &tasks[1]);
        let now = [
            proved.nanoseconds,
            plain.nanoseconds,
            proved.instructions,
            plain.instructions,
        ];
        let [proved_time, plain_time, proved, plain] = std::array::from_fn(|i| now[i] - before[i]);
        before = now;
        rows.push(vec![
            format!("{name}: `{function}`"),
            microseconds(proved_time),
            microseconds(plain_time),
            grouped(proved),
            grouped(plain),
            ratio(proved, plain),
            percent(proved, all),
        ]);
    }
    let head = [
        "stage",
        "proved µs",
        "plain µs",
        "proved instructions",
        "plain instructions",
        "proved / plain",
        "of all",
    ];
    table(&head, &rows)
}

/// Decision, step, CaDiCaL afresh and kept, by one figure, with the ratios.
fn cadical_table(groups: &[Group], unit: &str, figure: fn(&Task) -> f64, print: fn(f64) -> String) -> String {
    let row = |group: &Group| {
        let figures: Vec<f64> = group.tasks.iter().map(figure).collect();
        let [decision, step, afresh, kept] = figures[..] else {
            panic!("four tasks");
        };
        vec![
            group.name.clone(),
            print(decision),
            print(step),
            print(afresh),
            print(kept),
            ratio(afresh, decision),
            ratio(afresh, step),
            ratio(kept, decision),
            ratio(kept, step),
        ]
    };
    let named = ["decision", "its step", "CaDiCaL afresh", "CaDiCaL kept"].map(|name| format!("{name}, {unit}"));
    let ratios = ["afresh / decision", "afresh / step", "kept / decision", "kept / step"];
    let head: Vec<&str> = std::iter::once("book")
        .chain(named.iter().map(String::as_str))
        .chain(ratios)
        .collect();
    table(&head, &groups.iter().map(row).collect::<Vec<_>>())
}

/// Why a whole decision misses the goal that its step meets.
fn cadical_reason(goals: &Goals, groups: &[Group]) -> String {
    if goals.call.met() {
        return String::new();
    }
    let parts = groups
        .iter()
        .map(|group| 1.0 - group.tasks[1].instructions / group.tasks[0].instructions);
    let share = range(parts, |part| percent(part, 1.0));
    let consequence = if goals.step.passes() {
        "the step without it reaches the goal. So this miss is reported, and does not fail the run."
    } else {
        "but the step without it misses the goal too, and that fails the run."
    };
    format!(
        "A whole decision misses the goal since it validates its session, which document 01 asks of every call: {share} of its\n\
         instructions here; {consequence}\n"
    )
}

fn cadical(goals: &Goals, groups: &[Group]) -> String {
    let kept = |task: usize| {
        let ratios = groups
            .iter()
            .map(|group| group.tasks[3].nanoseconds / group.tasks[task].nanoseconds);
        range(ratios, |ratio| format!("{ratio:.2}"))
    };
    format!(
        "CaDiCaL is {}, `plain` without lucky phases, on the first {ASKED} decisions of each script. Afresh: a new solver for each decision, clauses and the\n\
         decisions in force as units, no decision of its own. Kept: one solver over the script, given the clauses before it, and at each decision the\n\
         decisions in force as assumptions; it may make one decision behind them, since with none allowed it propagates no assumption. Its answer is\n\
         whether there is a conflict, and no more: it hands out no literal that is implied under assumptions.\n\
         The step is the engine's own, without examination: `engine::decide`, which a walk over a session that is known to pass takes.\n\n\
         A whole decision against CaDiCaL afresh. {}\n\
         Its step against CaDiCaL afresh. {}\n\
         {}\
         Kept, CaDiCaL takes {} times a whole decision and {} times its step, by time; no goal was set for this.\n\n{}\n{}",
        versions::cadical(),
        goals.call.sentence(),
        goals.step.sentence(),
        cadical_reason(goals, groups),
        kept(0),
        kept(1),
        cadical_table(groups, "µs", |task| task.nanoseconds, microseconds),
        cadical_table(groups, "instructions", |task| task.instructions, grouped),
    )
}

fn growth(series: &Series) -> String {
    let row = |(_, group): &(usize, Group)| {
        let mut cells = beside(&group.name, group.tasks[0].figures(), group.tasks[1].figures());
        cells.push(grouped(group.tasks[2].instructions));
        cells
    };
    let head = [
        "book",
        "proved µs",
        "plain µs",
        "proved / plain",
        "proved instructions",
        "plain instructions",
        "proved / plain",
        "of the proved ones validation",
    ];
    let rows: Vec<_> = series.points.iter().map(row).collect();
    let (first, last) = (&series.points[0], &series.points[series.points.len() - 1]);
    format!(
        "By {} ({}): it grows {} times, and the instructions of a proved decision {} times.\n\n{}",
        series.axis,
        series.title,
        ratio(last.0 as f64, first.0 as f64),
        ratio(last.1.tasks[0].instructions, first.1.tasks[0].instructions),
        table(&head, &rows)
    )
}

/// The decision that scans every clause in full, and its scans in plain Rust.
fn long_clauses(groups: &[Group]) -> String {
    format!(
        "The decision makes the first literal of every clause false, where all others but the second are false already: it scans every clause in full, finds nothing, and\n\
         implies the second. It is made {TIMES} times, with a backtrack behind each. Its step, without examination, is the proved scan with the reading of the list, the counts\n\
         and the implied literals; nothing calls the scan by itself.\n\n{}\n\
         The same scans alone, in plain Rust, which checks its indices: with the next position by a remainder (wrapped), and by a comparison, as the proved scan has it\n\
         (running). No goal was set.\n\n{}",
        tasks_table("book", ["decision", "step"], groups, [0, 1]),
        tasks_table("book", ["wrapped", "running"], groups, [2, 3]),
    )
}

/// A price by the longest list, and a lookup in the same session, which does little but validate it.
fn prices(groups: &[Group]) -> String {
    let lookups = |task: usize| {
        let ratios = groups
            .iter()
            .map(|group| group.tasks[task].instructions / group.tasks[task + 2].instructions);
        range(ratios, |ratio| format!("{ratio:.2}"))
    };
    format!(
        "The session is that state of the script without conflict that has the longest trail. A proved price takes {} times the instructions of a lookup\n\
         in the same session, which does little but validate it; a plain one {} times. No goal was set.\n\n{}\n{}",
        lookups(0),
        lookups(1),
        tasks_table(&format!("a price of {LINES} lines"), PROVED_PLAIN, groups, [0, 1]),
        tasks_table("a lookup", PROVED_PLAIN, groups, [2, 3]),
    )
}

/// How many calls were refused by each of the numbers.
fn refused(tally: &Tally, numbers: &[usize]) -> String {
    let counted = numbers
        .iter()
        .map(|&number| format!("{} by {number}", grouped(tally.refused[number] as f64)));
    format!("others were refused: {}", counted.collect::<Vec<_>>().join(", "))
}

/// How many prices were answered by an amount and by each refusal.
fn equal_prices(compared: &Compared) -> String {
    format!(
        "{} prices gave an amount, and {}.",
        grouped(compared.prices.accepted as f64),
        refused(&compared.prices, &PRICE_REFUSALS)
    )
}

/// How many tables of age bands were good, false and refused, and the same of prices by age as of prices.
fn equal_ages(compared: &Compared) -> String {
    format!(
        "{} tables of age bands were good, {} false, and {}; {} prices by age gave an amount, and {}.",
        grouped(compared.tables.accepted as f64),
        grouped(compared.tables.falses as f64),
        refused(&compared.tables, &TABLE_REFUSALS),
        grouped(compared.prices_by_age.accepted as f64),
        refused(&compared.prices_by_age, &AGE_REFUSALS)
    )
}

/// How many fields or records were written and read, and how many refused by each number.
fn equal_packed(name: &str, written: &Tally, read: &Tally) -> String {
    format!(
        "{} {name} were written, and {}; {} were read, and {}.",
        grouped(written.accepted as f64),
        refused(written, &WRITING_REFUSALS),
        grouped(read.accepted as f64),
        refused(read, &READING_REFUSALS)
    )
}

fn equal(compared: &Compared) -> String {
    let all = &compared.all;
    let numbers = (1..all.refused.len()).filter(|&number| all.refused[number] > 0);
    let named: Vec<String> = numbers.map(|number| number.to_string()).collect();
    format!(
        "Both engines gave equal answers and left equal numbers in {} calls: {} accepted, {} in conflict, {} refused (numbers {}), {} false.\n\
         These are all workloads and texts above, random calls between them, small books, damaged sessions, books and texts,\n\
         quotes for scripts of good and of strange lines, prices by rate lists and tables of age bands in range and nearly so,\n\
         and packed decimal fields and quote records, good, nearly good and bad.\n\
         {}\n\
         {}\n\
         {}\n\
         {}\n\
         In {} states every feature was looked up, with its level.\n\
         The engine's steps without examination left the same numbers as the call in {} steps: all accepted decisions and backtracks of the scripts, and all accepted fixings.\n\
         In {} of the states CaDiCaL, asked afresh, propagated the same values, or a conflict where the session has one.\n\
         Kept, it answered {} questions as the session does, and {} by a conflict that it had learnt and propagation alone does not reach.\n",
        grouped(all.calls() as f64),
        grouped(all.accepted as f64),
        grouped(all.conflicts as f64),
        grouped(all.refusals() as f64),
        named.join(", "),
        grouped(all.falses as f64),
        equal_prices(compared),
        equal_ages(compared),
        equal_packed("fields", &compared.written_fields, &compared.read_fields),
        equal_packed("quote records", &compared.written_records, &compared.read_records),
        grouped(compared.looked_up as f64),
        grouped(compared.steps as f64),
        grouped(compared.confirmed as f64),
        grouped(compared.alike as f64),
        grouped(compared.learnt as f64),
    )
}

fn size(size: Size) -> String {
    let [v, c, l] = [size.variables, size.clauses, size.literals].map(|number| grouped(number as f64));
    format!("V {v}, C {c}, L {l}")
}

fn method() -> String {
    let machine = versions::machine();
    let tools = versions::tools();
    let seconds = TIME.as_secs_f64();
    let [limits, tenth] = [LIMITS, TENTH].map(size);
    format!(
        "Written by `bench/run`. Machine: {machine}. Tools: {tools}.\n\n\
         Times are of one thread. The contestants alternate within one run, for at least {ROUNDS} rounds and {seconds} s: of each call the\n\
         median of the rounds, then the mean of the calls. Instructions are callgrind's, of the same calls. Both engines are compiled for\n\
         generic x86-64 at -O3. Buffers: the lent session is cleared before the opening that begins a round, the book is warm, and both\n\
         engines clear their own marks within each call. Books: {limits} (limits) and {tenth} (a tenth); `random` has random\n\
         clauses, `chain` a chain of implications through all variables and random clauses. A script has {DECISIONS} decisions, with backtracks\n\
         between them that are not counted. Seeds are fixed: instructions differ little from run to run, times with the machine's load.\n\
         The plain engine and reader are of the same authorship as the proved ones.\n"
    )
}

/// What fails a run, and whether this one does.
fn judgement(goals: &Goals) -> String {
    let failed: Vec<&str> = goals.failed().iter().map(|goal| goal.name).collect();
    let verdict = match failed.len() {
        0 => "This run passes.".to_string(),
        _ => format!("This run fails: {}.", failed.join("; ")),
    };
    format!(
        "A goal is met where every book meets it; ratios are judged as printed. `bench/run` fails where the instructions of a book miss a goal, where its times miss it by a\n\
         factor of over {MARGIN:.2} (the margin, for the machine's load), and where callgrind leaves a task uncounted. One goal may be missed: that of a\n\
         whole decision against CaDiCaL afresh, as long as the decision's step without validation meets it; section c says why.\n{verdict}\n"
    )
}

/// Validation beside propagation, and what each stage of validation takes.
fn validation(plan: &Plan) -> String {
    let note =
        "Each stage is the difference between calls that are refused at its end and at the end of the stage before.";
    let each_stage = |group: &Group| {
        format!(
            "### Where validation goes: {}\n\n{note}\n\n{}",
            group.name,
            stages(group)
        )
    };
    format!(
        "A lookup on the state before each decision is the validation of that decision; propagation is the difference.\n{}\n\n{}\n{}",
        shares_sentence(&plan.calls),
        shares(&plan.calls),
        plan.stages.iter().map(each_stage).collect::<Vec<_>>().join("\n"),
    )
}

/// Decisions and texts against plain Rust: whether the goal is met, and the figures.
fn against_plain(goal: &Goal, first: &str, groups: &[Group]) -> String {
    format!(
        "{}\n\n{}",
        goal.sentence(),
        tasks_table(first, PROVED_PLAIN, groups, [0, 1])
    )
}

fn all_growth(series: &[Series]) -> String {
    format!(
        "V {}, {GROWTH} decisions.\n\n![instructions of a decision by C, L and clause length](speed.svg)\n\n{}",
        LIMITS.variables,
        series.iter().map(growth).collect::<Vec<_>>().join("\n")
    )
}

/// The name of the report's file.
pub const FILE: &str = "SPEED.md";

/// The whole report.
pub fn report(plan: &Plan, goals: &Goals, compared: &Compared) -> String {
    let mut text = format!(
        "# Speed\n\n{}\n{}\n{}\n",
        method(),
        goals_table(goals),
        judgement(goals)
    );
    let mut section = |title: &str, body: String| text.push_str(&format!("## {title}\n\n{body}\n"));
    section(
        "a. A decision, with its validation",
        against_plain(&goals.decision, "book", &plan.calls),
    );
    section("b. Validation and propagation", validation(plan));
    section("c. CaDiCaL, asked afresh and kept", cadical(goals, &plan.cadical));
    section(
        "d. Reading the text",
        against_plain(&goals.reading, "text", &plan.reading),
    );
    section("e. Growth", all_growth(&plan.growth));
    section("f. The scan of long clauses", long_clauses(&plan.scans));
    section(
        &format!("g. A price of {LINES} lines at the limits"),
        prices(&plan.prices),
    );
    section("Equal results", equal(compared));
    text
}
