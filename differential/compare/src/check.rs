//! What a check is, and how the checks are run and counted.

use crate::meshes::has_repeats;
use crate::rows::Reason;
use std::collections::BTreeMap;
use std::fmt;
use std::sync::atomic::{AtomicUsize, Ordering};
use std::sync::mpsc;
use std::thread;
use std::time::{Duration, Instant};

/// Checks run at one time.
const THREADS: usize = 2;
/// Differences that a check describes; the others are counted.
const DESCRIBED: usize = 3;

/// Functions compared on one kind of input, a module of this program.
pub struct Topic {
    pub name: &'static str,
    checks: fn() -> Vec<Check>,
}

impl Topic {
    pub const fn new(name: &'static str, checks: fn() -> Vec<Check>) -> Self {
        Topic { name, checks }
    }

    fn empty_sum(&self) -> Sum {
        Sum {
            topic: self.name,
            checks: 0,
            judged: Judged::default(),
            left: Left::default(),
            differences: 0,
            time: Duration::ZERO,
        }
    }
}

/// What a result is held to. The sums are kept apart, so that what was compared with the Rust itself
/// is one number.
#[derive(Clone, Copy)]
pub enum Judge {
    /// What the Rust returned, or a table of its own.
    Rust,
    /// What the Rust doesn't return, worked out beside it: from its grid, order or conversions, or
    /// by the text of document 01, of W-201, whose sign of a zero the Rust leaves open, of W-207, of
    /// W-208, whose mark the Rust has not, and of W-210, whose other pairs of factor and margin it
    /// has not.
    Beside,
    /// The text of the rows: refusals, answers on damaged grids, and what is packed into slices of more
    /// than 2^32 places.
    Rows,
    /// Other results of the engine.
    Engine,
    /// Nothing of the engine's: that the inputs reach what a check is about.
    Inputs,
}

/// How many comparisons each judge has had, in the order of [`Judge`].
type Judged = [u64; 5];

/// Neighbour lists that the Rust's renumberings left, counted before each was sorted (W-208): all of
/// them, those out of order, and those that had a repeat besides.
#[derive(Clone, Copy, Default)]
pub struct Left {
    pub lists: u64,
    pub out_of_order: u64,
    pub with_repeats: u64,
}

impl Left {
    pub fn count(&mut self, list: &[u16]) {
        let out_of_order = !list.is_sorted();
        self.lists += 1;
        self.out_of_order += u64::from(out_of_order);
        self.with_repeats += u64::from(out_of_order && has_repeats(list));
    }
}

/// One function's comparison, on one class of inputs where there are several.
pub struct Check {
    name: &'static str,
    run: Box<dyn Fn(&mut Tally) + Sync>,
}

impl Check {
    pub fn new(name: &'static str, run: impl Fn(&mut Tally) + Sync + 'static) -> Self {
        Check {
            name,
            run: Box::new(run),
        }
    }
}

#[derive(Default)]
pub struct Tally {
    judged: Judged,
    /// Counted by the function that sorts the Rust's lists.
    pub left: Left,
    differences: u64,
    described: Vec<String>,
    reached: Vec<(String, u64)>,
}

impl Tally {
    fn count(&self) -> u64 {
        self.judged.iter().sum()
    }

    /// Counts one comparison, and describes it where the sides differ.
    #[inline]
    pub fn compare(&mut self, judge: Judge, same: bool, describe: impl FnOnce() -> String) {
        self.judged[judge as usize] += 1;
        if !same {
            self.differences += 1;
            if self.described.len() < DESCRIBED {
                self.described.push(describe());
            }
        }
    }

    /// How often the inputs came to a case that a check is about. Never is a difference: then the
    /// inputs are too tame.
    pub fn reached(&mut self, case: String, count: u64) {
        self.compare(Judge::Inputs, count > 0, || {
            format!("no input reaches {case}")
        });
        self.reached.push((case, count));
    }

    /// Where the Rust's lists are sorted some have to be out of order: else the sort shows nothing.
    fn left_reached(&mut self) {
        let Left {
            lists,
            out_of_order,
            ..
        } = self.left;
        if lists > 0 {
            self.reached("lists that the Rust's renumberings left".to_string(), lists);
            self.reached(
                "of them out of order, then sorted".to_string(),
                out_of_order,
            );
        }
    }
}

/// How often each row was the expected refusal.
#[derive(Default)]
pub struct Rows(BTreeMap<u32, u64>);

impl Rows {
    pub fn count(&mut self, row: Option<Reason>) {
        if let Some(reason) = row {
            *self.0.entry(reason.number).or_default() += 1;
        }
    }

    pub fn all_reached(&self, tally: &mut Tally, rows: &[u32]) {
        for row in rows {
            let count = self.0.get(row).copied().unwrap_or(0);
            tally.reached(format!("row {row}"), count);
        }
    }
}

/// How often each kind of input was met.
#[derive(Default)]
pub struct Kinds(Vec<(&'static str, u64)>);

impl Kinds {
    /// An input: whether it is of each kind. All inputs have the same kinds in the same order.
    pub fn count(&mut self, kinds: &[(&'static str, bool)]) {
        if self.0.is_empty() {
            self.0 = kinds.iter().map(|&(kind, _)| (kind, 0)).collect();
        }
        for ((_, count), &(_, met)) in self.0.iter_mut().zip(kinds) {
            *count += u64::from(met);
        }
    }

    pub fn all_reached(&self, tally: &mut Tally) {
        self.all_reached_of("", tally);
    }

    /// Where inputs of two sorts are counted apart: the sort's name goes behind each kind.
    pub fn all_reached_of(&self, sort: &str, tally: &mut Tally) {
        for &(kind, count) in &self.0 {
            tally.reached(format!("{kind}{sort}"), count);
        }
    }
}

/// Whether two results have the same bits. NaN bits are free.
#[inline]
pub fn same(x: f64, y: f64) -> bool {
    x.to_bits() == y.to_bits() || (x.is_nan() && y.is_nan())
}

/// What the checks of a topic add up to.
pub struct Sum {
    topic: &'static str,
    checks: u64,
    judged: Judged,
    left: Left,
    pub differences: u64,
    time: Duration,
}

impl Sum {
    fn add(&mut self, tally: &Tally, time: Duration) {
        self.checks += 1;
        for (sum, more) in self.judged.iter_mut().zip(tally.judged) {
            *sum += more;
        }
        self.left.lists += tally.left.lists;
        self.left.out_of_order += tally.left.out_of_order;
        self.differences += tally.differences;
        self.time += time;
    }
}

/// The line of a summary: topic, checks, comparisons, differences, seconds, the comparisons by their
/// judge, the lists that the Rust's renumberings left, and those of them that were out of order.
impl fmt::Display for Sum {
    fn fmt(&self, f: &mut fmt::Formatter) -> fmt::Result {
        let Sum {
            topic,
            checks,
            judged,
            left,
            differences,
            time,
        } = self;
        let count: u64 = judged.iter().sum();
        let seconds = time.as_secs_f64();
        write!(f, "{topic}\t{checks}\t{count}\t{differences}\t{seconds:.2}")?;
        judged.iter().try_for_each(|sum| write!(f, "\t{sum}"))?;
        write!(f, "\t{}\t{}", left.lists, left.out_of_order)
    }
}

/// Runs the checks and prints a line for each in the order of the table. Gives the sums of each
/// topic.
pub fn run(topics: &[&Topic]) -> Vec<Sum> {
    let jobs: Vec<(usize, Check)> = topics
        .iter()
        .enumerate()
        .flat_map(|(at, topic)| (topic.checks)().into_iter().map(move |check| (at, check)))
        .collect();
    let mut sums: Vec<Sum> = topics.iter().map(|topic| topic.empty_sum()).collect();
    let next = AtomicUsize::new(0);
    let work = |results: mpsc::Sender<(usize, Tally, Duration)>| {
        while let Some((at, (_, check))) = take(&next, &jobs) {
            let start = Instant::now();
            let mut tally = Tally::default();
            (check.run)(&mut tally);
            tally.left_reached();
            if tally.count() == 0 {
                tally.compare(Judge::Inputs, false, || "nothing was compared".to_string());
            }
            // Fails only where the receiver is gone, and then nobody wants the result.
            let _ = results.send((at, tally, start.elapsed()));
        }
    };
    println!("topic       check                              compared  differences  seconds");
    thread::scope(|scope| {
        let (sender, results) = mpsc::channel();
        for _ in 0..THREADS {
            let sender = sender.clone();
            scope.spawn(|| work(sender));
        }
        drop(sender);
        let mut waiting = BTreeMap::new();
        let mut printed = 0;
        for (at, tally, time) in results {
            waiting.insert(at, (tally, time));
            while let Some((tally, time)) = waiting.remove(&printed) {
                let (topic, check) = &jobs[printed];
                print_line(topics[*topic].name, check, &tally, time);
                sums[*topic].add(&tally, time);
                printed += 1;
            }
        }
    });
    sums
}

/// The next job that no thread has taken.
fn take<'a, T>(next: &AtomicUsize, jobs: &'a [T]) -> Option<(usize, &'a T)> {
    let at = next.fetch_add(1, Ordering::Relaxed);
    jobs.get(at).map(|job| (at, job))
}

fn print_line(topic: &str, check: &Check, tally: &Tally, time: Duration) {
    let (count, differences, seconds) = (tally.count(), tally.differences, time.as_secs_f64());
    println!(
        "{topic:<10}  {:<30}  {count:>11}  {differences:>11}  {seconds:>7.2}",
        check.name
    );
    for (case, count) in &tally.reached {
        println!("    reached: {case:<57} {count:>9}");
    }
    for description in &tally.described {
        println!("    differs: {description}");
    }
}
