//! What is printed, as Markdown.

use crate::departures::Line;
use crate::tally::{Job, JobTally, Tally, VALUES};
use crate::Difference;
use second::field::FIELDS;

pub const JOBS: [(Job, &str); 10] = [
    (Job::Encode, "encode"),
    (Job::Start, "start"),
    (Job::Turn, "turn"),
    (Job::Finish, "finish"),
    (Job::List, "list"),
    (Job::Program, "program"),
    (Job::Write, "write"),
    (Job::Read, "read"),
    (Job::Show, "show"),
    (Job::Hear, "hear"),
];

/// The tables of a run in which nothing differs.
pub fn report(tally: &Tally) -> String {
    let calls = tally.calls();
    let mut tables = vec![numbers(tally), fields(tally), values(tally), lists(tally)];
    if tally.of(Job::Hear).calls > 0 {
        tables.push(heard(tally));
    }
    format!("Of {calls} calls 0 differ.\n\n{}", tables.join("\n"))
}

/// The jobs that were called, with their names.
fn called(tally: &Tally) -> impl Iterator<Item = (Job, &'static str)> + '_ {
    let jobs = JOBS.into_iter();
    jobs.filter(|&(job, _)| tally.of(job).calls > 0)
}

/// Calls and words of each job, and how often each number was given.
fn numbers(tally: &Tally) -> String {
    let heads = ["job", "calls", "words"].map(String::from).into_iter();
    let heads = heads.chain((0..=15).map(|number| number.to_string()));
    let mut table = head(heads.chain(["late 11".to_string()]).collect());
    for (job, name) in called(tally) {
        let JobTally {
            calls,
            words,
            numbers,
            late,
            ..
        } = tally.of(job);
        let counts = [*calls, *words].into_iter().chain(*numbers).chain([*late]);
        let cells = counts.map(|count| count.to_string());
        table += &row([name.to_string()].into_iter().chain(cells).collect());
    }
    table
}

/// The words of each field.
fn fields(tally: &Tally) -> String {
    let sizes = FIELDS.iter().map(u8::to_string);
    let heads = ["words in field".to_string()].into_iter().chain(sizes);
    let mut table = head(heads.chain(["none".to_string()]).collect());
    for (job, name) in called(tally).filter(|(job, _)| job.has_field()) {
        let words = tally.of(job).fields.iter().map(usize::to_string);
        table += &row([name.to_string()].into_iter().chain(words).collect());
    }
    table
}

/// The values met in calls that were answered with 0.
fn values(tally: &Tally) -> String {
    let heads = ["job"].into_iter().chain(VALUES).map(String::from);
    let mut table = head(heads.collect());
    for (job, name) in called(tally) {
        let met = tally.of(job).met.iter();
        let cells = met.map(|values| match (values.first(), values.last()) {
            (Some(first), Some(last)) => format!("{} from {first} to {last}", values.len()),
            _ => String::new(),
        });
        table += &row([name.to_string()].into_iter().chain(cells).collect());
    }
    table
}

fn lists(tally: &Tally) -> String {
    let heads = (0..tally.lists.len()).map(|count| count.to_string());
    let heads = ["messages on the list".to_string()]
        .into_iter()
        .chain(heads);
    let counts = tally.lists.iter().map(usize::to_string);
    let counts = ["lists".to_string()].into_iter().chain(counts);
    head(heads.collect()) + &row(counts.collect())
}

fn heard(tally: &Tally) -> String {
    let heads = ["heard", "none", "one", "several"].map(String::from);
    let counts = tally.heard.iter().map(usize::to_string);
    let counts = ["words".to_string()].into_iter().chain(counts);
    head(heads.to_vec()) + &row(counts.collect())
}

/// The table of a run through every departure in which nothing differs.
pub fn departures(lines: &[Line]) -> String {
    let calls: usize = lines.iter().map(|line| line.done + line.refused).sum();
    let mut table = head(
        ["job", "given", "calls", "0", "15"]
            .map(String::from)
            .to_vec(),
    );
    for line in lines {
        let counts = [line.done + line.refused, line.done, line.refused];
        let counts = counts.iter().map(usize::to_string);
        let names = [line.job, line.given].map(String::from).into_iter();
        table += &row(names.chain(counts).collect());
    }
    format!("Of {calls} calls 0 differ.\n\n{table}")
}

fn head(cells: Vec<String>) -> String {
    let line = "|---".repeat(cells.len());
    format!("{}{line}|\n", row(cells))
}

fn row(cells: Vec<String>) -> String {
    format!("| {} |\n", cells.join(" | "))
}

/// The whole case: what was given, and both answers.
pub fn difference(difference: &Difference) -> String {
    let Difference {
        case,
        note,
        rows,
        library,
    } = difference;
    format!(
        "call: {:?}\nnote given: {note:?}\nrows given: {rows:?}\nsecond program: {:?}\nlibrary: {library:?}\n",
        case.call, case.answer
    )
}
