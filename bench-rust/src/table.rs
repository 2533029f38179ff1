//! The table of docs/PERFORMANCE.md: each call's time and stack, by both kernels.

use crate::plain_runs::Who;
use crate::{by_turns, plain, stack, time, Times, Workload, RUNS, WORKLOADS};
use std::process::{Command, Stdio};

/// How often the whole table is measured.
const TURNS: usize = 5;
const RUN_NS: f64 = 0.05e9;
/// None, few and many rounds, with more than a turn of each ring and of the regions.
const CHECKED_ROUNDS: [u32; 7] = [0, 1, 2, 63, 64, 1_000, 100_003];
const FEW_ROUNDS: u32 = 5;

/// Rounds for a run of the wanted time, judged by a run of at least a tenth of it.
fn enough_rounds(work: impl Fn(u32) -> u32) -> u32 {
    let mut rounds = 1_000;
    loop {
        let ns = time(&work, rounds);
        if ns * f64::from(rounds) > RUN_NS / 10.0 || rounds > u32::MAX / 2 {
            return (RUN_NS / ns) as u32;
        }
        rounds *= 2;
    }
}

fn measure(workload: &Workload) -> [Times; 2] {
    let ours = |rounds| (workload.ours)(rounds, workload.who);
    let plain = |rounds| (workload.plain)(rounds, workload.who);
    by_turns(ours, plain, [enough_rounds(ours), enough_rounds(plain)], f64::from(workload.calls_a_round))
}

/// The child process: one turn, a line of numbers for each workload.
pub fn turn() {
    for [ours, plain] in WORKLOADS.iter().map(measure) {
        println!("{} {} {} {}", ours.least, ours.median, plain.least, plain.median);
    }
}

fn times(line: &str) -> [Times; 2] {
    let numbers: Vec<f64> = line.split(' ').map(|number| number.parse().expect("a number")).collect();
    let &[a, b, c, d] = &numbers[..] else { panic!("{line}: four numbers") };
    [Times { least: a, median: b }, Times { least: c, median: d }]
}

/// A turn in a process of its own: how quick copies are depends on the memory that a process is given.
fn measured() -> Vec<[Times; 2]> {
    let mut child = Command::new(std::env::current_exe().expect("this program's own file"));
    let output = child.arg("turn").stderr(Stdio::inherit()).output().expect("a child process");
    assert!(output.status.success(), "a turn");
    String::from_utf8(output.stdout).expect("text").lines().map(times).collect()
}

/// For many rounds, and for every caller and object of the bench table and one more on each side.
fn same_results(workload: &Workload) {
    let Workload { name, ours, plain, who, .. } = *workload;
    for rounds in CHECKED_ROUNDS {
        assert_eq!(ours(rounds, who), plain(rounds, who), "{name} of {rounds}");
    }
    for number in 0..6 * 6 * 4 {
        let who = Who { waiter: number % 6, task: number / 6 % 6, id: number / 36 };
        assert_eq!(ours(FEW_ROUNDS, who), plain(FEW_ROUNDS, who), "{name} by {who:?}");
    }
}

/// With its thousands apart, and with tenths below a hundred.
pub fn number(ns: f64) -> String {
    match ns.round() as u64 {
        0..100 => format!("{ns:.1}"),
        whole @ 100..1_000 => format!("{whole}"),
        whole => format!("{},{:03}", whole / 1_000, whole % 1_000),
    }
}

/// The least, and in brackets the median.
pub fn cell(times: Times) -> String {
    format!("{} ({})", number(times.least), number(times.median))
}

fn least(turns: &[Times]) -> f64 {
    turns.iter().map(|turn| turn.least).fold(f64::INFINITY, f64::min)
}

/// The least of all turns, and their medians from the quickest turn to the slowest.
fn cells(turns: &[Times]) -> String {
    let medians = || turns.iter().map(|turn| turn.median);
    let (quickest, slowest) = (medians().fold(f64::INFINITY, f64::min), medians().fold(0.0, f64::max));
    format!("{} | {} to {}", number(least(turns)), number(quickest), number(slowest))
}

pub fn table() {
    WORKLOADS.iter().for_each(same_results);
    println!("\nBoth kernels gave the same results for {CHECKED_ROUNDS:?} rounds, and by other callers and objects.");
    let turns: Vec<_> = (0..TURNS).map(|_| measured()).collect();
    println!(
        "ns per call, the least of {TURNS} processes with {RUNS} runs each, and the processes' medians; stack in KB.\n"
    );
    println!("| Call | ours | medians | ordinary | medians | ratio | stack, ours | ordinary |");
    println!("|---|---|---|---|---|---|---|---|");
    for (row, workload) in WORKLOADS.iter().enumerate() {
        let [ours, plain] = [0, 1].map(|side| turns.iter().map(|turn| turn[row][side]).collect::<Vec<_>>());
        let ratio = number(least(&ours) / least(&plain));
        let [our_stack, plain_stack] = stack::needs(workload.name);
        let (name, ours, plain) = (workload.name, cells(&ours), cells(&plain));
        println!("| {name} | {ours} | {plain} | {ratio} | {our_stack} | {plain_stack} |");
    }
    println!("\nThe ordinary kernel's state has {} bytes.", std::mem::size_of::<plain::Kernel>());
}
