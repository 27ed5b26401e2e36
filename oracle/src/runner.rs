//! Runs a section of the comparison: its jobs on several threads, and the first of them that fails.

use std::any::Any;
use std::panic::{AssertUnwindSafe, catch_unwind};
use std::sync::atomic::{AtomicU64, AtomicUsize, Ordering::Relaxed};
use std::sync::mpsc::{self, RecvTimeoutError};
use std::thread;
use std::time::Duration;

use crate::compare::{Counts, Mismatch, Outcome, Product, compare};
use crate::random::Random;
use crate::{Arena, Call};

/// What is asked of a case; it answers what the model leaves.
pub type Judgement = fn(Product, &Arena, &Call, &mut Counts) -> Result<Outcome, Box<Mismatch>>;

/// A case that failed, and the judgement that it failed.
pub struct Failure {
    pub judgement: Judgement,
    pub mismatch: Box<Mismatch>,
}

/// Judges a case; a side that panics has failed it.
pub fn judged(
    judgement: Judgement,
    product: Product,
    before: &Arena,
    call: &Call,
    counts: &mut Counts,
) -> Result<Outcome, Box<Mismatch>> {
    catch_unwind(AssertUnwindSafe(|| judgement(product, before, call, counts))).unwrap_or_else(|panic| {
        Err(Mismatch::new("side that panics", before, call, None, Err(message(&*panic))))
    })
}

/// What a panic says.
pub fn message(panic: &(dyn Any + Send)) -> String {
    let text = panic.downcast_ref::<String>().map(String::as_str);
    text.or(panic.downcast_ref::<&str>().copied()).unwrap_or("nothing").to_string()
}

/// Holds cases to the model, counts them, and keeps the first one that fails; later ones are not looked at.
pub struct Judge<'a> {
    product: Product<'a>,
    pub counts: Counts,
    failure: Option<Failure>,
}

impl<'a> Judge<'a> {
    /// A judge of a product.
    pub fn new(product: Product<'a>) -> Self {
        Self { product, counts: Counts::default(), failure: None }
    }

    /// Compares the sides on a case. It answers what the model leaves, or none if this or an earlier case failed.
    pub fn hold(&mut self, before: &Arena, call: &Call) -> Option<Outcome> {
        self.hold_to(compare, before, call)
    }

    /// The same by another judgement.
    pub fn hold_to(&mut self, judgement: Judgement, before: &Arena, call: &Call) -> Option<Outcome> {
        if self.failure.is_some() {
            return None;
        }
        match judged(judgement, self.product, before, call, &mut self.counts) {
            Ok(outcome) => Some(outcome),
            Err(mismatch) => {
                self.failure = Some(Failure { judgement, mismatch });
                None
            }
        }
    }

    /// Keeps a mismatch that was found in another way than by a judgement of one case.
    pub fn fail(&mut self, mismatch: Box<Mismatch>) {
        self.failure = Some(Failure { judgement: compare, mismatch });
    }
}

/// What a job of a number does, with random numbers of its own.
type Job = dyn Fn(&mut Judge, &mut Random, usize) + Sync;

/// The jobs of a section, which can be done in any order.
pub struct Jobs {
    pub count: usize,
    job: Box<Job>,
}

impl Jobs {
    /// So many jobs.
    pub fn new(count: usize, job: impl Fn(&mut Judge, &mut Random, usize) + Sync + 'static) -> Self {
        Self { count, job: Box::new(job) }
    }
}

/// How jobs are run.
pub struct Run<'a> {
    /// The side that is held to the model
    pub product: Product<'a>,
    /// Where the random numbers begin
    pub seed: u64,
    /// How many jobs are done at a time
    pub threads: usize,
    /// How many jobs are done at most
    pub most: usize,
}

impl Run<'_> {
    /// Does the jobs, and answers what was counted and the failure of the first job that failed. `tick` is told twice a
    /// second how many cases there were.
    pub fn run(&self, jobs: &Jobs, mut tick: impl FnMut(u64)) -> (Counts, Option<Failure>) {
        let shared = Shared {
            next: AtomicUsize::new(0),
            end: AtomicUsize::new(jobs.count.min(self.most)),
            cases: AtomicU64::new(0),
        };
        let (mut counts, mut first) = (Counts::default(), None);
        thread::scope(|scope| {
            let (sender, done) = mpsc::channel();
            for _ in 0..self.threads {
                let (sender, shared) = (sender.clone(), &shared);
                scope.spawn(move || _ = sender.send(self.work(jobs, shared)));
            }
            drop(sender);
            loop {
                match done.recv_timeout(Duration::from_millis(500)) {
                    Ok((judge, failed)) => {
                        counts.add(&judge.counts);
                        if let Some(failure) = judge.failure
                            && first.as_ref().is_none_or(|(job, _)| failed < *job)
                        {
                            first = Some((failed, failure));
                        }
                    }
                    Err(RecvTimeoutError::Timeout) => tick(shared.cases.load(Relaxed)),
                    Err(RecvTimeoutError::Disconnected) => break,
                }
            }
        });
        (counts, first.map(|(_, failure)| failure))
    }

    /// Does one job after the other, until there are none or one fails: then those before it are still done by others.
    /// It answers the judge and the last job.
    fn work(&self, jobs: &Jobs, shared: &Shared) -> (Judge<'_>, usize) {
        let mut judge = Judge::new(self.product);
        loop {
            let number = shared.next.fetch_add(1, Relaxed);
            if number >= shared.end.load(Relaxed) {
                return (judge, number);
            }
            let before = judge.counts.cases;
            (jobs.job)(&mut judge, &mut Random::of(self.seed, number as u64), number);
            shared.cases.fetch_add(judge.counts.cases - before, Relaxed);
            if judge.failure.is_some() {
                shared.end.fetch_min(number, Relaxed);
                return (judge, number);
            }
        }
    }
}

/// What the threads share: the next job, the one at which they end, and the cases so far.
struct Shared {
    next: AtomicUsize,
    end: AtomicUsize,
    cases: AtomicU64,
}
