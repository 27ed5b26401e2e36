//! The comparison: every section, or one, with a line for each and the smallest failing case.
//!
//! `cargo run --release -p oracle --bin compare`, and behind `--`:
//!
//! - `--long`: the long form, some hundred million cases;
//! - `--seed N`: other random cases, 1 if it is left out;
//! - `--section NAME`: that section alone;
//! - `--jobs N`: at most so many jobs of each section (an arena, a sequence or the like);
//! - `--threads N`: as many threads, else one for each core;
//! - `--exact`: lent buffers without guard words, exactly as long as what is lent, for valgrind or an address sanitizer.

use std::env;
use std::io::{IsTerminal, Write, stderr};
use std::panic;
use std::process::ExitCode;
use std::thread;
use std::time::{Duration, Instant};

use oracle::compare::{Counts, crate_text_found, export_outcome};
use oracle::runner::{self, Run};
use oracle::sections::{Form, SECTIONS, Section, WITHOUT_CRATE};
use oracle::{Archive, guards, shrink};

/// What the command line asks for.
struct Options {
    form: Form,
    section: Option<String>,
    run: Run<'static>,
}

fn main() -> ExitCode {
    let options = match options(env::args().skip(1)) {
        Ok(options) => options,
        Err(what) => {
            eprintln!(
                "compare: {what}; the words are --long --exact --seed N --section NAME --jobs N --threads N"
            );
            return ExitCode::FAILURE;
        }
    };
    println!("seed {}, {} threads", options.run.seed, options.run.threads);
    for archive in Archive::ALL.into_iter().filter(|archive| !archive.is_linked()) {
        println!("{} is not linked, and so its calls are not asked", archive.name());
    }
    if !crate_text_found() {
        println!("the crate's files are not at hand, and so the crate is not asked");
    }
    println!("{:<20} {:>13} {:>14} {:>8}  what", "section", "cases", "with the crate", "seconds");
    let (mut all, began) = (Counts::default(), Instant::now());
    let chosen = |section: &&Section| options.section.as_deref().is_none_or(|name| name == section.name);
    for section in SECTIONS.iter().filter(chosen) {
        match compare(section, &options) {
            Ok(counts) => all.add(&counts),
            Err(what) => {
                println!("{}: {what}", section.name);
                return ExitCode::FAILURE;
            }
        }
    }
    row("all", &all, began, "");
    let [prev, next] = all.sides.map(grouped);
    let (broken, confirmed) = (grouped(all.numbers[11]), grouped(all.places_with_crate));
    println!(
        "{broken} cases with 11, at a prev {prev} and at a next {next}; slot and side by the crate too: {confirmed}"
    );
    ExitCode::SUCCESS
}

/// Reads the command line.
fn options(mut words: impl Iterator<Item = String>) -> Result<Options, String> {
    let threads = thread::available_parallelism().map_or(1, usize::from);
    let run = Run { product: &guards::outcome, seed: 1, threads, most: usize::MAX };
    let mut options = Options { form: Form::Short, section: None, run };
    while let Some(word) = words.next() {
        let mut value = || words.next().ok_or(format!("{word} has no value"));
        let number = |value: String| value.parse().map_err(|_| format!("{value} is no number"));
        match word.as_str() {
            "--long" => options.form = Form::Long,
            "--exact" => options.run.product = &export_outcome,
            "--seed" => options.run.seed = number(value()?)? as u64,
            "--jobs" => options.run.most = number(value()?)?,
            "--threads" => options.run.threads = number(value()?)?.max(1),
            "--section" => options.section = Some(value()?),
            _ => return Err(format!("{word} is not known")),
        }
    }
    match &options.section {
        Some(name) if SECTIONS.iter().all(|section| section.name != name) => {
            let names: Vec<&str> = SECTIONS.iter().map(|section| section.name).collect();
            Err(format!("no section is called {name}, there are {}", names.join(", ")))
        }
        _ => Ok(options),
    }
}

/// Runs a section and prints its line, or answers what is wrong. To make its jobs can fail too: that is where small arenas are
/// taken from the exported call.
fn compare(section: &Section, options: &Options) -> Result<Counts, String> {
    let (mut progress, form) = (Progress::new(section.name), options.form);
    let jobs = panic::catch_unwind(|| (section.jobs)(form)).map_err(|panic| runner::message(&*panic))?;
    let (counts, failure) = options.run.run(&jobs, |cases| progress.tick(cases));
    progress.clear();
    if let Some(failure) = failure {
        panic::set_hook(Box::new(|_| {})); // what a panic says is in the failure
        let smallest = shrink::smallest(failure, options.run.product);
        return Err(format!("{smallest}the seed was {}", options.run.seed));
    }
    row(section.name, &counts, progress.began, section.what);
    if options.run.most < jobs.count { Ok(counts) } else { complete(section, counts) }
}

/// Holds to it that a whole section asked all sides, and met the numbers that it is for.
fn complete(section: &Section, counts: Counts) -> Result<Counts, String> {
    if Archive::ALL.into_iter().all(Archive::is_linked) && counts.with_exports < counts.cases {
        return Err("an exported call was not asked".to_string());
    }
    if crate_text_found() && counts.with_crate == 0 && !WITHOUT_CRATE.contains(&section.name) {
        return Err("the crate was not asked".to_string());
    }
    if let Some(number) = section.numbers.iter().find(|&&number| counts.numbers[number] < 100) {
        return Err(format!("{number} was hardly tried: {counts}"));
    }
    if section.numbers.contains(&11) && counts.sides.iter().any(|&cases| cases < 100) {
        return Err("11 was hardly tried on both sides".to_string());
    }
    if crate_text_found() && section.numbers.contains(&11) && counts.places_with_crate < 100 {
        return Err("the crate was hardly asked for the place that 11 names".to_string());
    }
    Ok(counts)
}

/// Prints the line of a section.
fn row(name: &str, counts: &Counts, began: Instant, what: &str) {
    let (cases, with_crate) = (grouped(counts.cases), grouped(counts.with_crate));
    let seconds = began.elapsed().as_secs_f64();
    println!("{name:<20} {cases:>13} {with_crate:>14} {seconds:>8.1}  {what}");
}

/// A number with a comma before each three digits.
fn grouped(number: u64) -> String {
    let digits = number.to_string();
    let mut text = String::new();
    for (place, digit) in digits.chars().enumerate() {
        if place > 0 && (digits.len() - place).is_multiple_of(3) {
            text.push(',');
        }
        text.push(digit);
    }
    text
}

/// How far a section is: on a terminal one line that is written over, in a log a line every half minute.
struct Progress {
    name: &'static str,
    began: Instant,
    said: Instant,
    cases: u64,
    moved: Instant,
}

/// A section that makes no job for so long has a call that does not end.
const PATIENCE: Duration = Duration::from_secs(300);

impl Progress {
    /// A section that begins.
    fn new(name: &'static str) -> Self {
        let now = Instant::now();
        Self { name, began: now, said: now, cases: 0, moved: now }
    }

    /// Says how many cases there were, and gives up if there have been no more for long.
    fn tick(&mut self, cases: u64) {
        let terminal = stderr().is_terminal();
        if terminal || self.said.elapsed() >= Duration::from_secs(30) {
            self.said = Instant::now();
            let rate = (cases as f64 / self.began.elapsed().as_secs_f64()) as u64;
            let line = format!("{}: {} cases, {} a second", self.name, grouped(cases), grouped(rate));
            let _ = if terminal { write!(stderr(), "\r{line:<70}") } else { writeln!(stderr(), "{line}") };
        }
        if cases != self.cases {
            (self.cases, self.moved) = (cases, Instant::now());
        } else if self.moved.elapsed() > PATIENCE {
            println!("{}: no job ended for {} seconds, after {cases} cases", self.name, PATIENCE.as_secs());
            std::process::exit(1);
        }
    }

    /// Takes the line away from a terminal.
    fn clear(&self) {
        if stderr().is_terminal() {
            let _ = write!(stderr(), "\r{:<70}\r", "");
        }
    }
}
