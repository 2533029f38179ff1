//! Signals and receives on an object at which tasks wait: priority order beside first come.

use crate::compare::Random;
use crate::plain::{MAX_PRIORITY, MAX_TASKS, MIN_PRIORITY, TA_TFIFO, TA_TPRI};
use crate::plain_runs::{self, Crowd};
use crate::{clock, ours, table, Times, RUNS};

const SEED: u64 = 0x5eed_0010;
/// One task is left to signal and to receive.
const WAITERS: [usize; 3] = [1, 32, MAX_TASKS - 1];
const CAPACITY: u32 = 2;
const TASK: i32 = 1;
const RUN_NS: f64 = 0.02e9;
const KINDS: usize = 4;

type Work = fn(u32, &Crowd) -> u32;

/// A loop of each kernel; a round makes two calls and leaves as many waiters as there were.
const PAIRS: [(&str, Work, Work); 2] = [
    ("signal, wait again", ours::signal_wait, plain_runs::signal_wait),
    ("receive, send again", ours::receive_send, plain_runs::receive_send),
];
/// From a copy of the table each, beside which the ordinary kernel's call would not show: only ours is timed.
const SINGLES: [(&str, Work, Work); 2] = [
    ("one signal", ours::signal_once, plain_runs::signal_once),
    ("one receive", ours::receive_once, plain_runs::receive_once),
];

/// First come; by priority: all equal, or the last to come the most urgent, or the first to come the least urgent. Of the latter two each
/// release and new wait leaves the crowd as it was: the urgent one comes last again and passes all, or the others take turns and pass one.
fn kinds(waiters: usize) -> [Crowd; KINDS] {
    const MIDDLE: u32 = 8;
    let crowd = |attribute, first, last| {
        let mut priorities = vec![MIDDLE; waiters];
        priorities[0] = first;
        priorities[waiters - 1] = last;
        Crowd { attribute, capacity: CAPACITY, task: TASK, priorities }
    };
    [
        crowd(TA_TFIFO, MIDDLE, MIDDLE),
        crowd(TA_TPRI, MIDDLE, MIDDLE),
        crowd(TA_TPRI, MIDDLE, MIN_PRIORITY),
        crowd(TA_TPRI, MAX_PRIORITY, MIDDLE),
    ]
}

/// Any priorities for the most part, some that are refused, and more tasks than there may be.
fn random_priorities(random: &mut Random, count: usize) -> Vec<u32> {
    (0..count)
        .map(|_| {
            let good = 1 + random.below(MAX_PRIORITY as usize) as u32;
            random.mostly(good, 20, &[0, MAX_PRIORITY + 1, 257, u32::MAX])
        })
        .collect()
}

/// Numbers of rounds that differ by one show who was released in each; the last has more than two turns of all waiters.
fn same_result(crowd: &Crowd) -> usize {
    let works = || PAIRS.iter().chain(&SINGLES);
    for (name, ours, plain) in works() {
        for rounds in [0, 1, 2, 3, 4, 600] {
            assert_eq!(ours(rounds, crowd), plain(rounds, crowd), "{name}: {rounds} rounds of {crowd:?}");
        }
    }
    works().count()
}

/// By other tasks, too, of which none is ready.
fn same_results() -> usize {
    let mut random = Random::new(SEED);
    let mut same = WAITERS.iter().flat_map(|&waiters| kinds(waiters)).map(|crowd| same_result(&crowd)).sum();
    for attribute in [TA_TFIFO, TA_TPRI, 2, 3, u32::MAX] {
        for count in [0, 1, 2, 3, 5, 33, MAX_TASKS - 1, MAX_TASKS, 300] {
            let capacity = random.pick(&[0, 0, 1, 2, 3, 256, 257]);
            let task = random.mostly(TASK, 6, &[0, 2, -1]);
            let priorities = random_priorities(&mut random, count);
            same += same_result(&Crowd { attribute, capacity, task, priorities });
        }
    }
    same
}

/// Rounds for a run of the wanted time, judged by a run of at least a tenth of it.
fn enough_rounds(work: Work, crowd: &Crowd) -> u32 {
    let mut rounds = 1_000;
    loop {
        let ns = clock::round(work, rounds, crowd);
        if ns * f64::from(rounds) > RUN_NS / 10.0 || rounds > u32::MAX / 2 {
            return (RUN_NS / ns) as u32;
        }
        rounds *= 2;
    }
}

/// The kinds of crowds take turns, so that a busy moment of the machine meets all of them.
fn measure(work: Work, waiters: usize, calls_a_round: f64) -> [Times; KINDS] {
    let kinds = kinds(waiters);
    let rounds = kinds.each_ref().map(|crowd| enough_rounds(work, crowd));
    let mut runs = [[0.0; RUNS]; KINDS];
    for run in 0..RUNS {
        for (kind, crowd) in kinds.iter().enumerate() {
            runs[kind][run] = clock::round(work, rounds[kind], crowd);
        }
    }
    runs.map(|runs| Times::of(runs, calls_a_round))
}

fn rows(name: &str, kernel: &str, work: Work, calls_a_round: f64) {
    for waiters in WAITERS {
        let times = measure(work, waiters, calls_a_round);
        let more = |of: Times| format!("{:+.1}%", (of.least / times[0].least - 1.0) * 100.0);
        let cells = times.map(|of| table::number(of.least)).join(" | ");
        println!("| {name} | {kernel} | {waiters} | {cells} | {} |", more(times[2]));
    }
}

pub fn order() {
    println!("\nBoth kernels released the same tasks, in {} cases.", same_results());
    println!("ns per call: the least of {RUNS} runs. So many tasks wait before each signal or receive, and one is");
    println!("released. The queue has {CAPACITY} words. More: the most urgent last beside first come.\n");
    let kinds = "first come | equal | most urgent last | least urgent first | more";
    println!("| Calls | kernel | waiters | {kinds} |");
    println!("|---|---|---|---|---|---|---|---|");
    for (name, ours, plain) in PAIRS {
        rows(name, "ours", ours, 2.0);
        rows(name, "ordinary", plain, 2.0);
    }
    for (name, ours, _) in SINGLES {
        rows(name, "ours", ours, 1.0);
    }
}
