//! Measures the twin and the proved library through the same entry, the report of a plan's bytes.

use std::env;
use std::hint::black_box;
use std::process::{Command, ExitCode};
use std::time::Instant;

use twin::heap::Counting;
use twin::report::report;
use twin::rules::{Engine, MOST_CORES, Measure, Policy};
use twin::workload::{CYCLE, LOADS, Load, MOST_RECORDS, damaged_at_its_end};
use twin::{proved, report as run};

#[global_allocator]
static HEAP: Counting = Counting;

const USAGE: &str = "usage: speed [--repetitions N]
       speed --instructions
       speed --once CASE SIDE COUNT
CASE is parse, or a number of cores and of live reservations as the table shows; SIDE is proved or
twin; COUNT is a gap in ticks, or for parse a number of records.";

/// The case of plans that are read and not run.
const PARSE: &str = "parse";
/// The gaps whose difference is timed.
const GAPS: [u32; 2] = [10 * CYCLE, 410 * CYCLE];
/// The gaps whose difference is counted by instructions.
const COUNTED_GAPS: [u32; 2] = [10 * CYCLE, 30 * CYCLE];
/// The records whose difference is counted by instructions.
const COUNTED_RECORDS: [u32; 2] = [1_000, MOST_RECORDS as u32];

#[derive(Clone, Copy, Debug, PartialEq, Eq)]
enum Side {
    Proved,
    Twin,
}

impl Side {
    const BOTH: [Self; 2] = [Self::Proved, Self::Twin];

    fn name(self) -> &'static str {
        match self {
            Self::Proved => "proved",
            Self::Twin => "twin",
        }
    }

    /// What is measured; callgrind finds it by its name.
    #[inline(never)]
    fn report(self, plan: &[u8], buffer: &mut Vec<u8>) {
        match self {
            Self::Proved => proved::report_to(black_box(plan), buffer).expect("memory suffices"),
            Self::Twin => *buffer = report(black_box(plan)).into_bytes(),
        }
        black_box(buffer);
    }
}

fn main() -> ExitCode {
    let words: Vec<_> = env::args().skip(1).collect();
    let words: Vec<_> = words.iter().map(String::as_str).collect();
    if !proved::LINKED {
        eprintln!("speed: the proved library is not linked; run it by scripts/twin speed");
        return ExitCode::from(2);
    }
    let done = match words[..] {
        [] => time(9),
        ["--repetitions", count] => number(count).and_then(time),
        ["--instructions"] => count_instructions(),
        ["--once", case, side, count] => number(count).and_then(|count| once(case, side, count)),
        _ => Err(USAGE.to_owned()),
    };
    match done {
        Ok(()) => ExitCode::SUCCESS,
        Err(message) => {
            eprintln!("{message}");
            ExitCode::from(2)
        }
    }
}

fn number(word: &str) -> Result<u32, String> {
    word.parse().map_err(|_| format!("{word} is not a number\n{USAGE}"))
}

/// The plan of a case.
fn plan(case: &str, count: u32) -> Option<Vec<u8>> {
    match case {
        PARSE => Some(damaged_at_its_end(count as usize)),
        _ => Some(Load::named(case)?.plan(count).to_bytes()),
    }
}

fn once(case: &str, side: &str, count: u32) -> Result<(), String> {
    let side = Side::BOTH.into_iter().find(|it| it.name() == side).ok_or(USAGE)?;
    let plan = plan(case, count).ok_or(USAGE)?;
    side.report(&plan, &mut Vec::with_capacity(1 << 16));
    Ok(())
}

/// Prints the times of all cases.
fn time(repetitions: u32) -> Result<(), String> {
    if repetitions == 0 {
        return Err(USAGE.to_owned());
    }
    println!("nanoseconds a tick, the median of {repetitions} repetitions (least to most)");
    println!("| case | proved | twin | proved ticks/s | twin ticks/s | proved / twin |");
    println!("|---|---|---|---|---|---|");
    for load in LOADS {
        let plans = GAPS.map(|gap| load.plan(gap).to_bytes());
        let ticks = f64::from(GAPS[1] - GAPS[0]);
        let [proved, twin] = interleaved(repetitions, |side, buffer| {
            let [short, long] = plans.each_ref().map(|plan| seconds(side, plan, 1, buffer));
            (long - short) * 1e9 / ticks
        });
        println!(
            "| {} | {} | {} | {:.0} | {:.0} | {:.2} |",
            load.name,
            proved.show(),
            twin.show(),
            1e9 / proved.median,
            1e9 / twin.median,
            proved.median / twin.median
        );
    }
    time_reading(repetitions);
    print_sizes();
    Ok(())
}

fn time_reading(repetitions: u32) {
    const PLANS: u32 = 100;
    let plan = damaged_at_its_end(MOST_RECORDS);
    let [proved, twin] = interleaved(repetitions, |side, buffer| {
        seconds(side, &plan, PLANS, buffer) * 1e6 / f64::from(PLANS)
    });
    println!();
    println!("reading a plan of {} bytes, {MOST_RECORDS} records", plan.len());
    println!("| side | microseconds a plan | plans/s | megabytes/s |");
    println!("|---|---|---|---|");
    for (side, figures) in Side::BOTH.into_iter().zip([proved, twin]) {
        println!(
            "| {} | {} | {:.0} | {:.0} |",
            side.name(),
            figures.show(),
            1e6 / figures.median,
            plan.len() as f64 / figures.median
        );
    }
}

fn print_sizes() {
    let before = Counting::bytes();
    let engine = Engine::new(Measure::Rounded, Policy::FirstFit, &[1_000; MOST_CORES], 0);
    let mut engine = engine.expect("the figures are within their limits");
    let heap = Counting::bytes() - before;
    let before = Counting::allocations();
    run::pass(&mut engine, CYCLE).expect("the clock is far from its end");
    println!();
    println!(
        "the twin's engine of {MOST_CORES} cores: {} bytes, and {heap} on the heap; allocations \
         in {CYCLE} ticks: {}",
        size_of::<Engine>(),
        Counting::allocations() - before
    );
}

/// The median of what was measured, and its spread.
struct Figures {
    median: f64,
    least: f64,
    most: f64,
}

impl Figures {
    fn of(mut measured: Vec<f64>) -> Self {
        measured.sort_by(f64::total_cmp);
        let (least, most) = (measured[0], measured[measured.len() - 1]);
        Self { median: measured[measured.len() / 2], least, most }
    }

    fn show(&self) -> String {
        format!("{:.1} ({:.1} to {:.1})", self.median, self.least, self.most)
    }
}

/// Measures both sides in turn, after one round that is not counted.
fn interleaved(
    repetitions: u32,
    mut measure: impl FnMut(Side, &mut Vec<u8>) -> f64,
) -> [Figures; 2] {
    let mut buffer = Vec::with_capacity(1 << 16);
    let mut measured = [Vec::new(), Vec::new()];
    for repetition in 0..=repetitions {
        for (side, measured) in Side::BOTH.into_iter().zip(&mut measured) {
            let figure = measure(side, &mut buffer);
            if repetition > 0 {
                measured.push(figure);
            }
        }
    }
    measured.map(Figures::of)
}

fn seconds(side: Side, plan: &[u8], times: u32, buffer: &mut Vec<u8>) -> f64 {
    let start = Instant::now();
    for _ in 0..times {
        side.report(plan, buffer);
    }
    start.elapsed().as_secs_f64()
}

/// Prints the instructions of a tick and of the reading of a record, counted by callgrind.
fn count_instructions() -> Result<(), String> {
    println!("instructions");
    println!("| case | proved | twin | proved / twin |");
    println!("|---|---|---|---|");
    for load in LOADS {
        count_row(&format!("a tick of {}", load.name), load.name, COUNTED_GAPS)?;
    }
    count_row("a record read", PARSE, COUNTED_RECORDS)
}

fn count_row(title: &str, case: &str, counts: [u32; 2]) -> Result<(), String> {
    let mut each = [0.0; 2];
    for (side, each) in Side::BOTH.into_iter().zip(&mut each) {
        let [less, more] = counts.map(|count| instructions(case, side, count));
        *each = (more? - less?) / f64::from(counts[1] - counts[0]);
    }
    println!("| {title} | {:.1} | {:.1} | {:.2} |", each[0], each[1], each[0] / each[1]);
    Ok(())
}

/// The instructions of a process that reports one plan.
fn instructions(case: &str, side: Side, count: u32) -> Result<f64, String> {
    let program = env::current_exe().map_err(|error| error.to_string())?;
    let output = Command::new("valgrind")
        .args(["--tool=callgrind", "--callgrind-out-file=/dev/null"])
        .arg("--toggle-collect=*Side*report*")
        .arg(program)
        .args(["--once", case, side.name(), &count.to_string()])
        .output()
        .map_err(|error| format!("valgrind: {error}"))?;
    let told = String::from_utf8_lossy(&output.stderr);
    told.lines()
        .find_map(|line| line.split_once("Collected : "))
        .and_then(|(_, count)| count.trim().parse().ok())
        .filter(|_| output.status.success())
        .ok_or_else(|| format!("valgrind tells no count:\n{told}"))
}
