//! The archive's functions, done by the ordinary kernel: same tables, same loops, same results.

use crate::plain::{
    Check, Done, Er, Image, Kernel, Referred, Vector, E_OK, MAX_REGIONS, MAX_TASKS, MIN_PRIORITY, TA_EXEC, TA_RO,
    TA_TFIFO, TDOM_KERNEL, TPM_READ,
};
use std::hint::black_box;

/// The functions' numbers in a list of calls: document 01's calls in its order, behind them those of later requests.
pub const SIG_SEM: u32 = 1;
pub const POL_SEM: u32 = 2;
pub const WAI_SEM: u32 = 3;
pub const REF_SEM: u32 = 4;
pub const SAC_SEM: u32 = 5;
pub const PSND_DTQ: u32 = 6;
pub const SND_DTQ: u32 = 7;
pub const PRCV_DTQ: u32 = 8;
pub const RCV_DTQ: u32 = 9;
pub const REF_DTQ: u32 = 10;
pub const SAC_DTQ: u32 = 11;
pub const FSND_DTQ: u32 = 12;
pub const CAL_SVC: u32 = 13;
pub const RET_SVC: u32 = 14;

pub const CALL_WORDS: usize = 8;
pub const ANSWER_WORDS: usize = 11;

/// Not a code of the kernel: the run's answer to what is no call.
pub const E_RSFN: Er = -10;
/// The number that stands for "waiting", which is no code either.
pub const WAITING: Er = 1;

pub type Answer = [u32; ANSWER_WORDS];

/// The protection unit of the tables.
const PAGE: u32 = 0x1000;

/// Built where it stays: a kernel handed back by value would be copied.
fn build(kernel: &mut Kernel, n: i32, entries: impl Fn(&mut Kernel) -> Check) {
    let built = kernel.fresh(n, PAGE).and_then(|()| entries(kernel)).and_then(|()| kernel.close());
    built.expect("a good table");
}

pub fn bench_table(kernel: &mut Kernel) {
    let first = Some(Vector::new(1, 1, 0, 3));
    build(kernel, 2, |kernel| {
        [1, 2, TDOM_KERNEL, 1].into_iter().try_for_each(|domain| kernel.add_task(domain, MIN_PRIORITY))?;
        kernel.add_semaphore(TDOM_KERNEL, TA_TFIFO, 1, 2, first)?;
        kernel.add_queue(TDOM_KERNEL, TA_TFIFO, 2, first)?;
        kernel.add_queue(TDOM_KERNEL, TA_TFIFO, 0, Some(Vector::new(3, 3, 0, 3)))?;
        kernel.add_region(TDOM_KERNEL, TA_RO | TA_EXEC, 0x1000, 0x1000, Some(Vector::new(0, 3, 0, 3)))?;
        kernel.add_region(TDOM_KERNEL, 0, 0x2000, 0x1000, Some(Vector::new(1, 1, 0, 1)))
    })
}

fn word_of(answer: Result<Done, Er>) -> u32 {
    answer.map_or(0, |done| done.word)
}

/// Who calls in a loop, and which object.
#[derive(Clone, Copy, Debug)]
pub struct Who {
    pub waiter: i32,
    pub task: i32,
    pub id: i32,
}

/// The optimiser must not know the kernel's contents nor the numbers from one round to the next.
fn unknown(kernel: &mut Kernel, who: Who) -> (&mut Kernel, i32, i32, i32) {
    (black_box(kernel), black_box(who.waiter), black_box(who.task), black_box(who.id))
}

pub fn signal_poll(pairs: u32, who: Who) -> u32 {
    let mut kernel = Kernel::EMPTY;
    bench_table(&mut kernel);
    let mut good = 0;
    for _ in 0..pairs {
        let (kernel, _, task, id) = unknown(&mut kernel, who);
        let signalled = kernel.sig_sem(task, id);
        let polled = kernel.pol_sem(task, id);
        good += u32::from(signalled.is_ok()) + u32::from(polled.is_ok());
    }
    good
}

/// In the first round nobody signals, since task 0 is none: its wait takes the one count that there is, and every other waits.
pub fn wait_signal(pairs: u32, who: Who) -> u32 {
    let mut kernel = Kernel::EMPTY;
    bench_table(&mut kernel);
    let mut releases = 0;
    for round in 0..pairs {
        let (kernel, waiter, task, id) = unknown(&mut kernel, who);
        let _ = kernel.wai_sem(waiter, id);
        let signalled = kernel.sig_sem(if round == 0 { 0 } else { task }, id);
        releases += u32::from(signalled.is_ok_and(|done| done.released.is_some()));
    }
    releases
}

/// What a refer tells is set again; a refused one tells zeros.
pub fn refer_set_semaphore(pairs: u32, who: Who) -> u32 {
    let mut kernel = Kernel::EMPTY;
    bench_table(&mut kernel);
    let mut sum: u32 = 0;
    for _ in 0..pairs {
        let (kernel, _, task, id) = unknown(&mut kernel, who);
        let (count, vector) = kernel.ref_sem(task, id).map_or((0, Vector::KERNEL), |told| (told.count, told.vector));
        let _ = kernel.sac_sem(task, id, vector);
        sum = sum.wrapping_add(count);
    }
    sum
}

pub fn send_receive(pairs: u32, who: Who) -> u32 {
    let mut kernel = Kernel::EMPTY;
    bench_table(&mut kernel);
    let mut sum: u32 = 0;
    for round in 0..pairs {
        let (kernel, _, task, id) = unknown(&mut kernel, who);
        let _ = kernel.psnd_dtq(task, id, round);
        sum = sum.wrapping_add(word_of(kernel.prcv_dtq(task, id)));
    }
    sum
}

pub fn wait_send(pairs: u32, who: Who) -> u32 {
    let mut kernel = Kernel::EMPTY;
    bench_table(&mut kernel);
    let mut sum: u32 = 0;
    for round in 0..pairs {
        let (kernel, waiter, task, id) = unknown(&mut kernel, who);
        let _ = kernel.rcv_dtq(waiter, id);
        let sent = kernel.snd_dtq(task, id, round).ok().and_then(|done| done.released);
        sum = sum.wrapping_add(sent.map_or(0, |released| released.word));
    }
    sum
}

/// As `send_receive`, by force.
pub fn force_receive(pairs: u32, who: Who) -> u32 {
    let mut kernel = Kernel::EMPTY;
    bench_table(&mut kernel);
    let mut sum: u32 = 0;
    for round in 0..pairs {
        let (kernel, _, task, id) = unknown(&mut kernel, who);
        let _ = kernel.fsnd_dtq(task, id, round);
        sum = sum.wrapping_add(word_of(kernel.prcv_dtq(task, id)));
    }
    sum
}

/// As soon as the queue is full, each call drops the oldest word; the oldest at the end.
pub fn force_drop(rounds: u32, who: Who) -> u32 {
    let mut kernel = Kernel::EMPTY;
    bench_table(&mut kernel);
    for round in 0..rounds {
        let (kernel, _, task, id) = unknown(&mut kernel, who);
        let _ = kernel.fsnd_dtq(task, id, round);
    }
    word_of(kernel.prcv_dtq(who.task, who.id))
}

pub fn refer_set_queue(pairs: u32, who: Who) -> u32 {
    let mut kernel = Kernel::EMPTY;
    bench_table(&mut kernel);
    let mut sum: u32 = 0;
    for _ in 0..pairs {
        let (kernel, _, task, id) = unknown(&mut kernel, who);
        let vector = kernel.ref_dtq(task, id).map_or(Vector::KERNEL, |told| told.vector);
        let _ = kernel.sac_dtq(task, id, vector);
        sum = sum.wrapping_add(vector.normal1);
    }
    sum
}

/// A task enters an extended service call and leaves it.
pub fn enter_leave(pairs: u32, who: Who) -> u32 {
    let mut kernel = Kernel::EMPTY;
    bench_table(&mut kernel);
    let mut good = 0;
    for _ in 0..pairs {
        let (kernel, _, task, _) = unknown(&mut kernel, who);
        let entered = kernel.cal_svc(task);
        let left = kernel.ret_svc(task);
        good += u32::from(entered.is_ok()) + u32::from(left.is_ok());
    }
    good
}

/// Queues of the largest capacity, as many as there can be.
pub const EACH_QUEUES: i32 = 8;

/// One call on each queue of a list, from a table whose queues have had forced sends.
#[derive(Debug)]
pub struct Each {
    pub capacity: u32,
    pub task: i32,
    pub before: Vec<i32>,
    pub ids: Vec<i32>,
}

/// The number of answers E_OK; every round begins from the same table.
fn each(rounds: u32, each: &Each, call: impl Fn(&mut Kernel, i32, i32, u32) -> Result<Done, Er>) -> u32 {
    let mut start = Kernel::EMPTY;
    build(&mut start, 1, |kernel| {
        kernel.add_task(1, MIN_PRIORITY)?;
        // Queues that are too large are refused, and the table has none.
        for _ in 0..EACH_QUEUES {
            let _ = kernel.add_queue(1, TA_TFIFO, each.capacity, None);
        }
        Ok(())
    });
    for &id in &each.before {
        let _ = start.fsnd_dtq(each.task, id, 0);
    }
    let mut good = 0;
    for round in 0..rounds {
        let mut kernel = black_box(&start).clone();
        for &id in &each.ids {
            good += u32::from(call(&mut kernel, each.task, id, round).is_ok());
        }
    }
    good
}

pub fn send_each(rounds: u32, given: &Each) -> u32 {
    each(rounds, given, Kernel::psnd_dtq)
}

pub fn force_each(rounds: u32, given: &Each) -> u32 {
    each(rounds, given, Kernel::fsnd_dtq)
}

/// Tasks that wait at one object; its attribute orders them.
#[derive(Clone, Debug)]
pub struct Crowd {
    pub attribute: u32,
    /// Of the queue.
    pub capacity: u32,
    /// Who signals or receives: task 1 is ready.
    pub task: i32,
    /// Of the tasks from 2 on, which wait in the order of their numbers.
    pub priorities: Vec<u32>,
}

/// The object that a crowd waits at.
const CROWDED: i32 = 1;

/// A semaphore and a queue, and the tasks to which both are private; what is refused the table has not.
fn crowd_table(kernel: &mut Kernel, crowd: &Crowd) {
    build(kernel, 1, |kernel| {
        kernel.add_task(1, MIN_PRIORITY)?;
        for &priority in crowd.priorities.iter().take(MAX_TASKS - 1) {
            let _ = kernel.add_task(1, priority);
        }
        let _ = kernel.add_semaphore(1, crowd.attribute, 0, 1, None);
        let _ = kernel.add_queue(1, crowd.attribute, crowd.capacity, None);
        Ok(())
    });
}

fn crowd_numbers(crowd: &Crowd) -> impl Iterator<Item = i32> {
    2..crowd.priorities.len().min(MAX_TASKS - 1) as i32 + 2
}

/// All wait on the semaphore.
fn semaphore_crowd(kernel: &mut Kernel, crowd: &Crowd) {
    crowd_table(kernel, crowd);
    for waiter in crowd_numbers(crowd) {
        let _ = kernel.wai_sem(waiter, CROWDED);
    }
}

/// The task fills the queue, then all wait to send, each its own number.
fn queue_crowd(kernel: &mut Kernel, crowd: &Crowd) {
    crowd_table(kernel, crowd);
    for _ in 0..crowd.capacity {
        let _ = kernel.psnd_dtq(crowd.task, CROWDED, 0);
    }
    for sender in crowd_numbers(crowd) {
        let _ = kernel.snd_dtq(sender, CROWDED, sender as u32);
    }
}

fn released_by(answer: Result<Done, Er>) -> u32 {
    answer.ok().and_then(|done| done.released).map_or(0, |released| released.task)
}

/// The task signals, and whoever is released waits again; the sum of the released tasks' numbers.
pub fn signal_wait(rounds: u32, crowd: &Crowd) -> u32 {
    let mut kernel = Kernel::EMPTY;
    semaphore_crowd(&mut kernel, crowd);
    let mut sum: u32 = 0;
    for _ in 0..rounds {
        let (kernel, task, id) = (black_box(&mut kernel), black_box(crowd.task), black_box(CROWDED));
        let released = released_by(kernel.sig_sem(task, id));
        let _ = kernel.wai_sem(released as i32, id);
        sum = sum.wrapping_add(released);
    }
    sum
}

/// The task receives, and the sender that is released sends again; the sum of the words and of the released tasks' numbers.
pub fn receive_send(rounds: u32, crowd: &Crowd) -> u32 {
    let mut kernel = Kernel::EMPTY;
    queue_crowd(&mut kernel, crowd);
    let mut sum: u32 = 0;
    for round in 0..rounds {
        let (kernel, task, id) = (black_box(&mut kernel), black_box(crowd.task), black_box(CROWDED));
        let received = kernel.prcv_dtq(task, id);
        let released = released_by(received);
        let _ = kernel.snd_dtq(released as i32, id, round);
        sum = sum.wrapping_add(word_of(received)).wrapping_add(released);
    }
    sum
}

/// One signal in each round, all from the same table; the sum of the released tasks' numbers.
pub fn signal_once(rounds: u32, crowd: &Crowd) -> u32 {
    let mut start = Kernel::EMPTY;
    semaphore_crowd(&mut start, crowd);
    (0..rounds).fold(0, |sum: u32, _| {
        let mut kernel = black_box(&start).clone();
        sum.wrapping_add(released_by(kernel.sig_sem(crowd.task, CROWDED)))
    })
}

/// One receive in each round, all from the same table; the sum of the words and of the released tasks' numbers.
pub fn receive_once(rounds: u32, crowd: &Crowd) -> u32 {
    let mut start = Kernel::EMPTY;
    queue_crowd(&mut start, crowd);
    (0..rounds).fold(0, |sum: u32, _| {
        let mut kernel = black_box(&start).clone();
        let received = kernel.prcv_dtq(crowd.task, CROWDED);
        sum.wrapping_add(word_of(received)).wrapping_add(released_by(received))
    })
}

pub fn listed(pairs: u32, send: u32) -> u32 {
    crate::listed::wait_release(run, pairs, send)
}

/// As many regions as there may be, each touching the next and equal to it.
pub const REGIONS: u32 = MAX_REGIONS as u32;
pub const REGION_SIZE: u32 = 4096;

pub fn starts() -> Vec<u32> {
    (0..REGIONS).map(|k| REGION_SIZE * k).collect()
}

pub fn all_regions(kernel: &mut Kernel) {
    let vector = Some(Vector::new(1, 1, 0, 1));
    build(kernel, 2, |kernel| {
        starts().into_iter().try_for_each(|base| kernel.add_region(TDOM_KERNEL, 0, base, REGION_SIZE, vector))
    });
}

/// Verdicts: each domain asks for an area from the address at its place.
pub struct Asked {
    pub domains: Vec<i32>,
    pub bases: Vec<u32>,
    pub size: u32,
    pub wishes: u32,
}

impl Asked {
    /// Domain 1, which may read every region of `all_regions`, asks to read.
    pub fn reading(bases: Vec<u32>, size: u32) -> Asked {
        Asked { domains: vec![1; bases.len()], bases, size, wishes: TPM_READ }
    }
}

pub fn verdict(rounds: u32, asked: &Asked) -> u32 {
    let mut kernel = Kernel::EMPTY;
    all_regions(&mut kernel);
    let (size, wishes) = (black_box(asked.size), black_box(asked.wishes));
    let mut good = 0;
    for _ in 0..rounds {
        for (&domain, &base) in asked.domains.iter().zip(&asked.bases) {
            let kernel = black_box(&mut kernel);
            good += u32::from(kernel.prb_mem(domain, base, size, wishes).is_ok());
        }
    }
    good
}

/// Half of the regions lie in the flash image, the others in that of RAM.
pub const IMAGE_REGIONS: u32 = REGIONS / 2;
pub const IMAGE_SIZE: usize = (IMAGE_REGIONS * REGION_SIZE) as usize;

/// As `replay` fills its images. The bytes at the regions' starts differ, too.
const fn filled(ram: bool) -> [u8; IMAGE_SIZE] {
    let mut bytes = [0; IMAGE_SIZE];
    let mut i = 0;
    while i < IMAGE_SIZE {
        let byte = (i % 251) as u8;
        bytes[i] = if ram { 255 - byte } else { byte };
        i += 1;
    }
    bytes
}

/// Made once, for their time would count in the loops.
pub static FLASH_BYTES: [u8; IMAGE_SIZE] = filled(false);
pub static RAM_BYTES: [u8; IMAGE_SIZE] = filled(true);

/// Hand-outs: each domain reads an area from the address at its place, out of two images.
pub struct Lent {
    pub domains: Vec<i32>,
    pub bases: Vec<u32>,
    pub size: u32,
    pub flash: Image<'static>,
    pub ram: Image<'static>,
}

impl Lent {
    /// Domain 1 reads, and the images together are all regions of `all_regions`.
    fn reading(bases: &[u32], size: u32) -> Lent {
        let flash = Image { base: 0, bytes: &FLASH_BYTES };
        let ram = Image { base: IMAGE_REGIONS * REGION_SIZE, bytes: &RAM_BYTES };
        Lent { domains: vec![1; bases.len()], bases: bases.to_vec(), size, flash, ram }
    }

    /// From the start of each region that lies in flash.
    pub fn from_flash(size: u32) -> Lent {
        Lent::reading(&starts()[..IMAGE_REGIONS as usize], size)
    }

    /// From the start of each region that lies in RAM.
    pub fn from_ram(size: u32) -> Lent {
        Lent::reading(&starts()[IMAGE_REGIONS as usize..], size)
    }
}

/// The sum of the parts' lengths and of their first bytes; a refusal adds nothing.
pub fn hand_out(rounds: u32, lent: &Lent) -> u32 {
    let mut kernel = Kernel::EMPTY;
    all_regions(&mut kernel);
    let (size, flash, ram) = (black_box(lent.size), black_box(lent.flash), black_box(lent.ram));
    let mut sum: u32 = 0;
    for _ in 0..rounds {
        for (&domain, &base) in lent.domains.iter().zip(&lent.bases) {
            let kernel = black_box(&mut kernel);
            let part = kernel.get_mem(domain, base, size, flash, ram).unwrap_or_default();
            let first = part.first().map_or(0, |&byte| byte.into());
            sum = sum.wrapping_add(part.len() as u32).wrapping_add(first);
        }
    }
    sum
}

fn refused(code: Er) -> Answer {
    let mut answer = [0; ANSWER_WORDS];
    answer[0] = code as u32;
    answer
}

fn encode(done: Done) -> Answer {
    let code = if done.waiting { WAITING } else { E_OK };
    let (task, word) = done.released.map_or((0, 0), |released| (released.task, released.word));
    [code as u32, done.word, task, word, 0, 0, 0, 0, 0, 0, 0]
}

fn encode_referred(r: Referred) -> Answer {
    let v = r.vector;
    let (waiter, receiver) = (r.first_waiter, r.first_receiver);
    [E_OK as u32, 0, 0, 0, waiter, receiver, r.count, v.normal1, v.normal2, v.management, v.reference]
}

/// Makes one call out of its words.
pub fn make(kernel: &mut Kernel, call: &[u32]) -> Answer {
    let &[function, caller, object, word, normal1, normal2, management, reference] = call else {
        return refused(E_RSFN);
    };
    let (task, id) = (caller as i32, object as i32);
    let vector = Vector::new(normal1, normal2, management, reference);
    let answer = match function {
        SIG_SEM => kernel.sig_sem(task, id).map(encode),
        POL_SEM => kernel.pol_sem(task, id).map(encode),
        WAI_SEM => kernel.wai_sem(task, id).map(encode),
        REF_SEM => kernel.ref_sem(task, id).map(encode_referred),
        SAC_SEM => kernel.sac_sem(task, id, vector).map(encode),
        PSND_DTQ => kernel.psnd_dtq(task, id, word).map(encode),
        SND_DTQ => kernel.snd_dtq(task, id, word).map(encode),
        PRCV_DTQ => kernel.prcv_dtq(task, id).map(encode),
        RCV_DTQ => kernel.rcv_dtq(task, id).map(encode),
        REF_DTQ => kernel.ref_dtq(task, id).map(encode_referred),
        SAC_DTQ => kernel.sac_dtq(task, id, vector).map(encode),
        FSND_DTQ => kernel.fsnd_dtq(task, id, word).map(encode),
        CAL_SVC => kernel.cal_svc(task).map(encode),
        RET_SVC => kernel.ret_svc(task).map(encode),
        _ => Err(E_RSFN),
    };
    answer.unwrap_or_else(refused)
}

/// A call whose whole answer has no room is not made, nor are those after it.
pub fn run(calls: &[u32], answers: &mut [u32]) -> usize {
    let mut kernel = Kernel::EMPTY;
    bench_table(&mut kernel);
    let mut answered = 0;
    for (call, answer) in calls.chunks(CALL_WORDS).zip(answers.chunks_exact_mut(ANSWER_WORDS)) {
        answer.copy_from_slice(&make(&mut kernel, call));
        answered += 1;
    }
    answered
}
