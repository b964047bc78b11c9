//! Compares the reports of the twin and of the proved library on random plans.

use std::collections::BTreeMap;
use std::fmt::{self, Write};
use std::process::ExitCode;
use std::sync::atomic::{AtomicBool, AtomicU64, Ordering};
use std::sync::mpsc::{self, Sender};
use std::time::{Duration, Instant};
use std::{env, thread};

use twin::plan::describe;
use twin::proved::{self, Failure};
use twin::random::{self, Sort};
use twin::report::report;
use twin::shrink::shrink;

const USAGE: &str = "usage: compare [--plans N | --seconds S] [--seed X] [--threads T]";
/// The plans that a thread takes at a time.
const CHUNK: u64 = 256;
/// A word of each answer: of admit, wake, rest, and leave or move.
const ANSWERS: [&str; 6] = ["on", "ready", "spent", "left", "until", "free"];
/// One plan in so many is also reported into a buffer of just its length, and of one byte less.
const EXACT: u64 = 16;
const PROGRESS: Duration = Duration::from_secs(30);

struct Options {
    plans: Option<u64>,
    seconds: Option<u64>,
    seed: u64,
    threads: usize,
}

/// What was seen of a chunk of plans.
struct Chunk {
    tally: Tally,
    /// The first plan on which the two differ, and its index.
    difference: Option<(u64, Vec<u8>)>,
}

#[derive(Default)]
struct Tally {
    plans: u64,
    /// The plans with a report of their events, and those with a fault alone.
    sorts: BTreeMap<&'static str, (u64, u64)>,
    events: u64,
    ticks: u64,
    /// The calls accepted, by a word of their answers.
    answers: BTreeMap<&'static str, u64>,
    refusals: BTreeMap<u32, u64>,
    faults: BTreeMap<u32, u64>,
}

fn main() -> ExitCode {
    let options = match Options::read(env::args().skip(1)) {
        Ok(options) => options,
        Err(message) => {
            eprintln!("{message}\n{USAGE}");
            return ExitCode::from(2);
        }
    };
    if !proved::LINKED {
        eprintln!("compare: the proved library is not linked; run it by scripts/twin compare");
        return ExitCode::from(2);
    }
    let (tally, difference) = compare(&options);
    match difference {
        None => {
            println!("{} plans, 0 differences\n{tally}", tally.plans);
            ExitCode::SUCCESS
        }
        Some((index, bytes)) => {
            println!("seed {} plan {index} differs; shrinking it", options.seed);
            show(&shrink(&bytes, differ));
            println!("{} plans, a difference", tally.plans);
            ExitCode::FAILURE
        }
    }
}

impl Options {
    fn read(mut words: impl Iterator<Item = String>) -> Result<Self, String> {
        let mut options = Self { plans: None, seconds: None, seed: 1, threads: 2 };
        while let Some(word) = words.next() {
            let value = words.next().ok_or(format!("{word} needs a number"))?;
            let value = value.parse::<u64>().map_err(|_| format!("{value} is not a number"))?;
            match word.as_str() {
                "--plans" => options.plans = Some(value),
                "--seconds" => options.seconds = Some(value),
                "--seed" => options.seed = value,
                "--threads" => options.threads = value.max(1) as usize,
                _ => return Err(format!("unknown option {word}")),
            }
        }
        if options.plans.is_some() && options.seconds.is_some() {
            return Err("--plans and --seconds exclude each other".to_owned());
        }
        if options.seconds.is_none() {
            options.plans.get_or_insert(100_000);
        }
        Ok(options)
    }
}

fn compare(options: &Options) -> (Tally, Option<(u64, Vec<u8>)>) {
    let start = Instant::now();
    let next = AtomicU64::new(0);
    let stop = AtomicBool::new(false);
    let (sender, receiver) = mpsc::channel();
    let mut tally = Tally::default();
    let mut difference: Option<(u64, Vec<u8>)> = None;
    thread::scope(|scope| {
        for _ in 0..options.threads {
            let sender = sender.clone();
            scope.spawn(|| work(options, start, &next, &stop, sender));
        }
        drop(sender);
        let mut told = start;
        for chunk in receiver {
            tally.add(chunk.tally);
            if let Some(found) = chunk.difference {
                let earlier = difference.as_ref().is_none_or(|known| found.0 < known.0);
                if earlier {
                    difference = Some(found);
                }
            }
            if told.elapsed() >= PROGRESS {
                told = Instant::now();
                let rate = tally.plans as f64 / start.elapsed().as_secs_f64();
                eprintln!("{} plans, {rate:.0} a second", tally.plans);
            }
        }
    });
    (tally, difference)
}

/// Compares chunk after chunk until all are done, the time is over or the two differ.
fn work(
    options: &Options,
    start: Instant,
    next: &AtomicU64,
    stop: &AtomicBool,
    sender: Sender<Chunk>,
) {
    let plans = options.plans.unwrap_or(u64::MAX);
    let over = || options.seconds.is_some_and(|most| start.elapsed().as_secs() >= most);
    let mut buffer = Vec::with_capacity(1 << 16);
    while !stop.load(Ordering::Relaxed) && !over() {
        let first = next.fetch_add(CHUNK, Ordering::Relaxed);
        if first >= plans {
            return;
        }
        let mut chunk = Chunk { tally: Tally::default(), difference: None };
        for index in first..plans.min(first + CHUNK) {
            let (sort, bytes) = random::plan(options.seed, index);
            let ours = report(&bytes);
            chunk.tally.count(sort, &bytes, &ours);
            let same = proved::report_to(&bytes, &mut buffer).is_ok() && buffer == ours.as_bytes();
            if !same || (index % EXACT == 0 && !fits_exactly(&bytes, &ours)) {
                stop.store(true, Ordering::Relaxed);
                chunk.difference = Some((index, bytes));
                break;
            }
        }
        if sender.send(chunk).is_err() {
            return;
        }
    }
}

fn differ(bytes: &[u8]) -> bool {
    let ours = report(bytes);
    proved::report(bytes).as_deref() != Ok(ours.as_bytes()) || !fits_exactly(bytes, &ours)
}

/// Whether the proved report takes a buffer of its length, and leaves a shorter one alone.
fn fits_exactly(bytes: &[u8], ours: &str) -> bool {
    const BEFORE: u8 = 0xA5;
    let mut out = vec![BEFORE; ours.len()];
    let short = proved::report_into(bytes, &mut out[1..]) == Err(Failure::TooShort(ours.len()))
        && out.iter().all(|&byte| byte == BEFORE);
    short && proved::report_into(bytes, &mut out) == Ok(ours.len()) && out == ours.as_bytes()
}

fn show(bytes: &[u8]) {
    let hex = bytes.iter().fold(String::new(), |mut hex, byte| {
        let _ = write!(hex, "{byte:02X}");
        hex
    });
    println!("plan {hex}\n{}", describe(bytes));
    println!("the twin's report:\n{}", report(bytes));
    match proved::report(bytes) {
        Ok(report) => println!("the proved report:\n{}", String::from_utf8_lossy(&report)),
        Err(failure) => println!("the proved report failed: {failure}"),
    }
}

impl Tally {
    fn count(&mut self, sort: Sort, bytes: &[u8], report: &str) {
        self.plans += 1;
        let (valid, faulty) = self.sorts.entry(sort.name()).or_default();
        if let Some(fault) = report.strip_prefix("plan fault ") {
            *faulty += 1;
            *self.faults.entry(leading_number(fault) as u32).or_default() += 1;
            return;
        }
        *valid += 1;
        let start = bytes[3..7].iter().fold(0, |start, &byte| start << 8 | u64::from(byte));
        let mut clock = start;
        for line in report.lines().take_while(|line| !line.starts_with("core ")) {
            self.events += 1;
            clock = leading_number(line);
            let Some((_, answer)) = line.split_once(" = ") else { continue };
            if let Some(refusal) = answer.strip_prefix("refused ") {
                *self.refusals.entry(leading_number(refusal) as u32).or_default() += 1;
            } else if let Some(word) = ANSWERS.into_iter().find(|word| answer.contains(word)) {
                *self.answers.entry(word).or_default() += 1;
            }
        }
        self.ticks += clock - start;
    }

    fn add(&mut self, other: Self) {
        self.plans += other.plans;
        self.events += other.events;
        self.ticks += other.ticks;
        for (sort, (valid, faulty)) in other.sorts {
            let sum = self.sorts.entry(sort).or_default();
            *sum = (sum.0 + valid, sum.1 + faulty);
        }
        for (word, count) in other.answers {
            *self.answers.entry(word).or_default() += count;
        }
        for (number, count) in other.refusals {
            *self.refusals.entry(number).or_default() += count;
        }
        for (number, count) in other.faults {
            *self.faults.entry(number).or_default() += count;
        }
    }
}

fn leading_number(text: &str) -> u64 {
    let end = text.find(|c: char| !c.is_ascii_digit()).unwrap_or(text.len());
    text[..end].parse().unwrap_or(0)
}

impl fmt::Display for Tally {
    fn fmt(&self, f: &mut fmt::Formatter<'_>) -> fmt::Result {
        let valid: u64 = self.sorts.values().map(|(valid, _)| valid).sum();
        writeln!(f, "valid {valid}, with a fault {}", self.plans - valid)?;
        for (sort, (valid, faulty)) in &self.sorts {
            writeln!(f, "  {sort}: valid {valid}, with a fault {faulty}")?;
        }
        writeln!(f, "lines of events {}, ticks {}", self.events, self.ticks)?;
        writeln!(f, "answers{}", list(&self.answers))?;
        writeln!(f, "refusals{}", list(&self.refusals))?;
        write!(f, "faults{}", list(&self.faults))
    }
}

fn list<K: fmt::Display>(counts: &BTreeMap<K, u64>) -> String {
    counts.iter().fold(String::new(), |mut list, (key, count)| {
        let _ = write!(list, " {key}: {count}");
        list
    })
}
