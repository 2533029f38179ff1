//! The stack a workload needs: the least that lets it live in a thread of its own.

use crate::plain_runs::Who;
use crate::{Work, USERS, WORKLOADS};
use std::hint::black_box;
use std::process::{exit, Command, Stdio};

const KB: usize = 1024;
const THREAD: usize = 4096 * KB;
const MOST: usize = 2048 * KB;
/// About a frame of the ballast: finer steps would show nothing.
const STEP: usize = 64;
const ROUNDS: u32 = 100;

fn address<T>(local: &T) -> usize {
    local as *const T as usize
}

/// Fills the stack down to an address; the system grants no thread a stack as small as those probed.
#[inline(never)]
fn sink(down_to: usize, work: Work, who: Who) -> u32 {
    let ballast = black_box(0);
    let result = if address(&ballast) > down_to { sink(down_to, work, who) } else { work(ROUNDS, who) };
    // Used after the call, so that the frame stays.
    result ^ black_box(ballast)
}

/// A name without a side is a thread that does nothing.
fn find(name: &str) -> Option<(Work, Who)> {
    let Some((side, workload)) = name.split_once(':') else { return Some((|rounds, _| black_box(rounds), USERS)) };
    let workload = WORKLOADS.iter().find(|w| w.name == workload)?;
    Some((if side == "ours" { workload.ours } else { workload.plain }, workload.who))
}

/// The child process: an overflow ends it, which its parent sees.
pub fn probe(name: &str, size: &str) {
    let (Some((work, who)), Ok(size)) = (find(name), size.parse::<usize>()) else { exit(2) };
    let thread = std::thread::Builder::new().stack_size(THREAD).spawn(move || {
        let top = 0;
        sink(address(&top) - (THREAD - size), work, who)
    });
    thread.expect("a thread").join().expect("its end");
}

fn survives(name: &str, size: usize) -> bool {
    let mut child = Command::new(std::env::current_exe().expect("this program's own file"));
    child.args(["stack-probe", name, &size.to_string()]).stderr(Stdio::null());
    child.status().expect("a child process").success()
}

/// A large frame may step over the guard page unseen, so the sizes just above are tried as well.
fn least(name: &str) -> usize {
    assert!(survives(name, MOST), "{name} fails or needs more than {} KB", MOST / KB);
    let mut fails = 0;
    loop {
        let mut lives = MOST;
        while lives - fails > STEP {
            let middle = fails + (lives - fails) / 2;
            *(if survives(name, middle) { &mut lives } else { &mut fails }) = middle;
        }
        match (1..=32).rev().map(|k| lives + k * KB).find(|&size| !survives(name, size)) {
            Some(size) if size < MOST => fails = size,
            _ => return lives,
        }
    }
}

/// What a workload needs of our kernel and of the ordinary one, in KB, without what an empty thread needs.
pub fn needs(workload: &str) -> [usize; 2] {
    let empty = least("empty");
    ["ours", "plain"].map(|side| least(&format!("{side}:{workload}")).saturating_sub(empty).div_ceil(KB))
}
