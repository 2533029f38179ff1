//! Random lists of calls through both kernels; every word of the answers must agree.

use crate::plain_runs::*;
use crate::{ours, plain::*};
use std::collections::BTreeMap;

const SEED: u64 = 0x9E37_79B9_7F4A_7C15;
const LISTS: u32 = 2_000;
const MOST_CALLS: u32 = 400;
/// What the answers hold before a run, so that a word written too far shows.
const FILLER: u32 = 0xA5A5_A5A5;

/// Those that never wait. Leaving is drawn twice as often as entering, so that tasks are outside about as often as inside.
const QUICK_FUNCTIONS: [u32; 12] =
    [SIG_SEM, POL_SEM, REF_SEM, SAC_SEM, PSND_DTQ, PRCV_DTQ, REF_DTQ, SAC_DTQ, FSND_DTQ, CAL_SVC, RET_SVC, RET_SVC];
/// Signals and sends twice as often, for what waits.
const ALL_FUNCTIONS: [u32; 17] = [
    SIG_SEM, SIG_SEM, POL_SEM, WAI_SEM, REF_SEM, SAC_SEM, PSND_DTQ, PSND_DTQ, SND_DTQ, PRCV_DTQ, RCV_DTQ, REF_DTQ,
    SAC_DTQ, FSND_DTQ, CAL_SVC, RET_SVC, RET_SVC,
];
/// Some of them are good but for bits above the low 16.
const WRONG_FUNCTIONS: [u32; 9] = [0, 15, 0x1_0002, 0x1_0006, 0x1_000C, 0x1_000D, 0x1_000E, 0x8000_0000, u32::MAX];
const TASKS: [i32; 4] = [1, 2, 3, 4];
const WRONG_CALLERS: [i32; 9] = [-1, 0, 5, 255, 256, 0x1_0003, i32::MIN, i32::MIN + 1, i32::MAX];
const WRONG_OBJECTS: [i32; 12] = [0, -1, 2, 3, 16, 17, 64, 65, 0x1_0001, i32::MIN, i32::MIN + 1, i32::MAX];

const CODES: [Er; 11] = [WAITING, E_OK, E_SYS, E_RSFN, E_ID, E_CTX, E_OACV, E_ILUSE, E_NOEXS, E_QOVR, E_TMOUT];
const NAMES: [&str; 11] =
    ["waiting", "E_OK", "E_SYS", "E_RSFN", "E_ID", "E_CTX", "E_OACV", "E_ILUSE", "E_NOEXS", "E_QOVR", "E_TMOUT"];

/// Marsaglia's xorshift: quick, and the same lists on every machine.
pub struct Random(u64);

impl Random {
    pub fn new(seed: u64) -> Random {
        Random(seed)
    }

    pub fn next(&mut self) -> u32 {
        self.0 ^= self.0 << 13;
        self.0 ^= self.0 >> 7;
        self.0 ^= self.0 << 17;
        (self.0 >> 32) as u32
    }

    pub fn below(&mut self, limit: usize) -> usize {
        self.next() as usize % limit
    }

    pub fn one_in(&mut self, count: usize) -> bool {
        self.below(count) == 0
    }

    pub fn pick<T: Copy>(&mut self, from: &[T]) -> T {
        from[self.below(from.len())]
    }

    pub fn mostly<T: Copy>(&mut self, good: T, odds: usize, wrong: &[T]) -> T {
        if self.one_in(odds) {
            self.pick(wrong)
        } else {
            good
        }
    }
}

/// Where a code stands in both lists.
fn place_of(code: Er) -> usize {
    CODES.iter().position(|&known| known == code).expect("a call's code")
}

/// A call of a caller, with numbers in all other words, whether it uses them or not.
fn call_by(random: &mut Random, function: u32, caller: i32) -> [u32; CALL_WORDS] {
    let object = if function < PSND_DTQ { 1 } else { random.pick(&[1, 1, 2]) };
    let object = random.mostly(object, 30, &WRONG_OBJECTS);
    let mut call = [function, caller as u32, object as u32, random.next(), 0, 0, 0, 0];
    let wide = !random.one_in(4);
    for pattern in &mut call[4..] {
        *pattern = if wide { random.pick(&[1, 3, 3, 3]) } else { random.pick(&[0, 1, 2, 3, u32::MAX, 0xFFFF_FFFC]) };
        // The bits of domains that the bench table has not are to be kept and to admit nobody.
        if random.one_in(2) {
            *pattern ^= random.next() << 2;
        }
    }
    call
}

/// Good numbers for the most part, else waits, releases and full buffers would hardly come about.
fn random_call(random: &mut Random, ready: &[i32]) -> [u32; CALL_WORDS] {
    // The last ready task seldom waits, as nobody would release it.
    let lonely = ready.len() < 2 && !random.one_in(32);
    let function = random.pick(if lonely { &QUICK_FUNCTIONS[..] } else { &ALL_FUNCTIONS });
    let caller = if ready.is_empty() { 1 } else { random.pick(ready) };
    // Who waits tries to enter and to leave, too.
    let odds = if [CAL_SVC, RET_SVC].contains(&function) { 4 } else { 30 };
    let caller = random.mostly(caller, odds, &TASKS);
    let caller = random.mostly(caller, 40, &WRONG_CALLERS);
    let function = random.mostly(function, 60, &WRONG_FUNCTIONS);
    call_by(random, function, caller)
}

/// What some lists begin with: a task enters about as often as it may, or more often, and leaves some of the levels, or all and more.
fn climb(random: &mut Random) -> Vec<[u32; CALL_WORDS]> {
    if !random.one_in(8) {
        return Vec::new();
    }
    let (task, enters) = (random.pick(&TASKS), random.pick(&[253, 254, 255, 256, 300]));
    let some = random.below(enters);
    let leaves = random.pick(&[0, 0, some, enters + 1]);
    let functions = [CAL_SVC].repeat(enters).into_iter().chain([RET_SVC].repeat(leaves));
    functions.map(|function| call_by(random, function, task)).collect()
}

/// A kind of call, and what one of this kind came upon.
type Met = (&'static str, &'static str);

/// A forced send that passed its checks at its queue, entering and leaving at their caller; and what only the caller's level admitted.
fn meets(before: &Kernel, call: &[u32], code: Er) -> [Option<Met>; 2] {
    let (caller, object) = (call[1] as i32, call[2] as i32);
    let met = match call[0] {
        CAL_SVC => Some(("entering", before.service_meets(caller))),
        RET_SVC => Some(("leaving", before.service_meets(caller))),
        FSND_DTQ if [E_OK, E_ILUSE].contains(&code) => Some(("forced send", before.forced_meets(object))),
        _ => None,
    };
    let lifted = before.lifts(caller, |kernel| match make(kernel, call)[0] as i32 {
        code @ ..0 => Err(code),
        _ => Ok(()),
    });
    [met, lifted.then(|| ("admitted only inside", NAMES[place_of(code)]))]
}

/// The list is made along a run of its own, which tells who is ready, and what each of its calls meets.
fn random_calls(random: &mut Random) -> (Vec<u32>, Vec<[Option<Met>; 2]>) {
    let mut kernel = Kernel::EMPTY;
    bench_table(&mut kernel);
    let mut ready = TASKS.to_vec();
    let (mut calls, mut met) = (Vec::new(), Vec::new());
    let climb = climb(random);
    let mut left = climb.len() + random.below(MOST_CALLS as usize + 1);
    let mut climb = climb.into_iter();
    while left > 0 {
        let call = climb.next().unwrap_or_else(|| random_call(random, &ready));
        let before = kernel.clone();
        let answer = make(&mut kernel, &call);
        met.push(meets(&before, &call, answer[0] as i32));
        calls.extend(call);
        if answer[0] as i32 == WAITING {
            ready.retain(|&task| task != call[1] as i32);
        }
        if answer[2] != 0 {
            ready.push(answer[2] as i32);
        }
        // Once all tasks wait, nothing more can happen.
        left = if ready.is_empty() { left.min(5) - 1 } else { left - 1 };
    }
    let cut = random.mostly(0, 4, &[1, 2, 3, 4, 5, 6, 7]);
    calls.truncate(calls.len().saturating_sub(cut));
    (calls, met)
}

/// Mostly room for all answers and a little more, sometimes for some of them only.
fn random_room(random: &mut Random, calls: &[u32]) -> usize {
    let whole = calls.len().div_ceil(CALL_WORDS) * ANSWER_WORDS;
    let (more, less) = (whole + random.below(30), random.below(whole + 1));
    random.mostly(more, 4, &[less])
}

/// Names the first call that differs, since nobody would read a whole list.
fn assert_same(list: u32, calls: &[u32], ours: &[u32], plain: &[u32]) {
    let Some(word) = ours.iter().zip(plain).position(|(a, b)| a != b) else { return };
    let call = calls.chunks(CALL_WORDS).nth(word / ANSWER_WORDS);
    let answer = |all: &[u32]| all.chunks(ANSWER_WORDS).nth(word / ANSWER_WORDS).map(<[u32]>::to_vec);
    panic!("list {list}, answer word {word}, call {call:x?}: ours {:x?}, plain {:x?}", answer(ours), answer(plain));
}

pub fn compare() {
    let mut random = Random(SEED);
    let mut codes = [0; CODES.len()];
    let (mut compared, mut releases, mut short) = (0, 0, 0);
    let mut all_met = BTreeMap::new();
    for list in 0..LISTS {
        let (calls, met) = random_calls(&mut random);
        let mut plain_answers = vec![FILLER; random_room(&mut random, &calls)];
        let mut our_answers = plain_answers.clone();
        let answered = run(&calls, &mut plain_answers);
        let we_answered = ours::run(&calls, &mut our_answers);
        assert_same(list, &calls, &our_answers, &plain_answers);
        assert_eq!(we_answered, answered, "list {list}: how many calls were answered");
        compared += answered;
        short += u32::from(answered < calls.len().div_ceil(CALL_WORDS));
        for answer in plain_answers.chunks(ANSWER_WORDS).take(answered) {
            releases += u32::from(answer[2] != 0);
            codes[place_of(answer[0] as i32)] += 1;
        }
        // The last call may be cut short, and is none then.
        for met in met.into_iter().take(answered.min(calls.len() / CALL_WORDS)).flatten().flatten() {
            *all_met.entry(met).or_insert(0) += 1;
        }
    }
    println!("Comparison, seed {SEED:#x}: {compared} calls in {LISTS} lists, every word of the answers alike.");
    println!("The answers were filled with {FILLER:#x} before; in {short} lists they had no room for all calls.");
    println!("Calls that released a task: {releases}. Codes that came back:");
    for ((name, code), count) in NAMES.iter().zip(CODES).zip(codes) {
        println!("  {name:<8} {code:>4} {count:>8}");
    }
    println!("What calls met:");
    for ((kind, what), count) in all_met {
        println!("  {kind:<21} {what:<26} {count:>8}");
    }
}
