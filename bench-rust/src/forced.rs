//! A forced send beside a send, call by call, into queues of several capacities.

use crate::plain_runs::{self, Each, EACH_QUEUES};
use crate::{clock, ours, table, Times, RUNS};

const CAPACITIES: [u32; 6] = [1, 2, 4, 16, 64, 256];
const RUN_NS: f64 = 0.1e9;
const TASK: i32 = 1;

/// As many calls on each queue as it holds words.
fn all(capacity: u32) -> Vec<i32> {
    (0..capacity).flat_map(|_| 1..=EACH_QUEUES).collect()
}

/// The three kinds of calls: a send and a forced send until all queues are full, a forced send from full ones on.
fn kinds(capacity: u32) -> [(Each, fn(u32, &Each) -> u32, fn(u32, &Each) -> u32); 3] {
    let each = |before| Each { capacity, task: TASK, before, ids: all(capacity) };
    [
        (each(Vec::new()), ours::send_each, plain_runs::send_each),
        (each(Vec::new()), ours::force_each, plain_runs::force_each),
        (each(all(capacity)), ours::force_each, plain_runs::force_each),
    ]
}

/// By other tasks and numbers too, of which some are refused.
fn same_results() {
    for capacity in [0, 1, 2, 3, 256, 257] {
        for (each, ours, plain) in kinds(capacity) {
            for (rounds, task, more) in [(0, TASK, 0), (1, TASK, 0), (3, TASK, 1), (2, TASK, 9), (2, 0, 0), (2, 2, 0)] {
                let ids = each.ids.iter().copied().chain(0..more).collect();
                let each = Each { task, ids, before: each.before.clone(), ..each };
                assert_eq!(ours(rounds, &each), plain(rounds, &each), "{rounds} rounds of {each:?}");
            }
        }
    }
}

/// ns of a call in one run.
fn time(work: fn(u32, &Each) -> u32, rounds: u32, each: &Each) -> f64 {
    clock::round(work, rounds, each) / each.ids.len() as f64
}

/// The kinds of calls take turns, so that a busy moment of the machine meets all of them.
pub fn forced() {
    same_results();
    println!("\nns per call, ours: the least of {RUNS} runs (the median); {EACH_QUEUES} queues of a capacity, each");
    println!("round from the same table, as many calls as the queues hold words.\n");
    println!("| Capacity | send, room | forced, room | forced, full | room: more | full: more |");
    println!("|---|---|---|---|---|---|");
    for capacity in CAPACITIES {
        let kinds = kinds(capacity);
        let rounds = kinds.each_ref().map(|(each, ours, _)| {
            let calls = each.ids.len() as f64;
            1 + (RUN_NS / (calls * time(*ours, 1 + (1_000.0 / calls) as u32, each))) as u32
        });
        let mut runs = [[0.0; RUNS]; 3];
        for run in 0..RUNS {
            for (kind, (each, ours, _)) in kinds.iter().enumerate() {
                runs[kind][run] = time(*ours, rounds[kind], each);
            }
        }
        let [send, room, full] = runs.map(|runs| Times::of(runs, 1.0));
        let more = |times: Times| format!("{:+.1}%", (times.least / send.least - 1.0) * 100.0);
        let [a, b, c] = [send, room, full].map(table::cell);
        println!("| {capacity} | {a} | {b} | {c} | {} | {} |", more(room), more(full));
    }
}
