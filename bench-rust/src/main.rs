//! Compares the proved kernel core with an ordinary one: answers, times, sizes.

mod clock;
mod compare;
mod finding;
mod forced;
mod listed;
mod order;
mod ours;
mod plain;
mod plain_runs;
#[cfg(test)]
mod plain_tests;
mod replayed;
mod stack;
mod table;

use plain_runs::{Asked, Lent, Who, FSND_DTQ, PSND_DTQ};
use std::hint::black_box;

type Work = fn(u32, Who) -> u32;

/// One loop, done by both kernels; a round is a pair of calls, one call, a verdict on each region, or a hand-out from
/// each region of an image.
struct Workload {
    name: &'static str,
    calls_a_round: u32,
    who: Who,
    ours: Work,
    plain: Work,
}

/// In the bench table tasks 1 and 4 are in domain 1, and task 3 is the kernel's, which may set vectors.
const USERS: Who = Who { waiter: 4, task: 1, id: 1 };
const KERNEL: Who = Who { waiter: 4, task: 3, id: 1 };

/// Areas well within a region, into the next region, and past every region.
const INSIDE: u32 = 16;
const INTO_NEXT: u32 = plain_runs::REGION_SIZE + INSIDE;
const PAST_ALL: u32 = u32::MAX / 2;

const fn pair(name: &'static str, who: Who, ours: Work, plain: Work) -> Workload {
    Workload { name, calls_a_round: 2, who, ours, plain }
}

const fn single(name: &'static str, who: Who, ours: Work, plain: Work) -> Workload {
    Workload { name, calls_a_round: 1, who, ours, plain }
}

const fn verdicts(name: &'static str, ours: Work, plain: Work) -> Workload {
    Workload { name, calls_a_round: plain_runs::REGIONS, who: USERS, ours, plain }
}

const fn hand_outs(name: &'static str, ours: Work, plain: Work) -> Workload {
    Workload { name, calls_a_round: plain_runs::IMAGE_REGIONS, who: USERS, ours, plain }
}

fn starts(size: u32) -> Asked {
    Asked::reading(plain_runs::starts(), size)
}

const WORKLOADS: [Workload; 16] = [
    pair("signal, poll", USERS, ours::signal_poll, plain_runs::signal_poll),
    pair("wait, signal", USERS, ours::wait_signal, plain_runs::wait_signal),
    pair("refer, set-vector: semaphore", KERNEL, ours::refer_set_semaphore, plain_runs::refer_set_semaphore),
    pair("send, receive", USERS, ours::send_receive, plain_runs::send_receive),
    pair("wait to receive, send", USERS, ours::wait_send, plain_runs::wait_send),
    pair("forced send, receive", USERS, ours::force_receive, plain_runs::force_receive),
    single("forced send, full", USERS, ours::force_drop, plain_runs::force_drop),
    pair("refer, set-vector: queue", KERNEL, ours::refer_set_queue, plain_runs::refer_set_queue),
    pair("enter, leave", USERS, ours::enter_leave, plain_runs::enter_leave),
    verdicts(
        "verdict, in its region",
        |rounds, _| ours::verdict(rounds, &starts(INSIDE)),
        |rounds, _| plain_runs::verdict(rounds, &starts(INSIDE)),
    ),
    verdicts(
        "verdict, into the next",
        |rounds, _| ours::verdict(rounds, &starts(INTO_NEXT)),
        |rounds, _| plain_runs::verdict(rounds, &starts(INTO_NEXT)),
    ),
    verdicts(
        "verdict, past all",
        |rounds, _| ours::verdict(rounds, &starts(PAST_ALL)),
        |rounds, _| plain_runs::verdict(rounds, &starts(PAST_ALL)),
    ),
    hand_outs(
        "hand-out, from flash",
        |rounds, _| ours::hand_out(rounds, &Lent::from_flash(INSIDE)),
        |rounds, _| plain_runs::hand_out(rounds, &Lent::from_flash(INSIDE)),
    ),
    hand_outs(
        "hand-out, from RAM",
        |rounds, _| ours::hand_out(rounds, &Lent::from_ram(INSIDE)),
        |rounds, _| plain_runs::hand_out(rounds, &Lent::from_ram(INSIDE)),
    ),
    pair(
        "list: wait to receive, send",
        USERS,
        |pairs, _| ours::listed(pairs, PSND_DTQ),
        |pairs, _| plain_runs::listed(pairs, PSND_DTQ),
    ),
    pair(
        "list: wait to receive, forced send",
        USERS,
        |pairs, _| ours::listed(pairs, FSND_DTQ),
        |pairs, _| plain_runs::listed(pairs, FSND_DTQ),
    ),
];

const RUNS: usize = 21;

/// The time of a round in ns.
fn time(work: &impl Fn(u32) -> u32, rounds: u32) -> f64 {
    let start = clock::now();
    black_box(work(black_box(rounds)));
    (clock::now() - start) / f64::from(rounds)
}

/// The least and the median of some runs.
#[derive(Clone, Copy)]
struct Times {
    least: f64,
    median: f64,
}

impl Times {
    fn of(mut runs: [f64; RUNS], calls_a_round: f64) -> Times {
        runs.sort_by(f64::total_cmp);
        Times { least: runs[0] / calls_a_round, median: runs[RUNS / 2] / calls_a_round }
    }
}

/// Both kernels take turns, so that a busy moment of the machine meets both.
fn by_turns(ours: impl Fn(u32) -> u32, plain: impl Fn(u32) -> u32, rounds: [u32; 2], calls: f64) -> [Times; 2] {
    let mut runs = [[0.0; RUNS]; 2];
    for run in 0..RUNS {
        runs[0][run] = time(&ours, rounds[0]);
        runs[1][run] = time(&plain, rounds[1]);
    }
    runs.map(|runs| Times::of(runs, calls))
}

fn main() {
    let arguments: Vec<String> = std::env::args().skip(1).collect();
    match arguments.iter().map(String::as_str).collect::<Vec<_>>()[..] {
        [] => [compare::compare, table::table, forced::forced, order::order, finding::finding]
            .iter()
            .for_each(|part| part()),
        ["compare"] => compare::compare(),
        ["replay"] => replayed::compare(),
        ["table"] => table::table(),
        ["force"] => forced::forced(),
        ["order"] => order::order(),
        ["find"] => finding::finding(),
        ["turn"] => table::turn(),
        ["stack-probe", name, size] => stack::probe(name, size),
        _ => panic!("usage: bench-rust [compare | replay | table | force | order | find]"),
    }
}
