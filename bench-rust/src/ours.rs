//! The proved kernel's functions in the linked archives.

use crate::finding::Places;
use crate::plain_runs::{Asked, Crowd, Each, Lent, Who};

mod archive {
    extern "C" {
        pub fn timing_signal_poll(pairs: u32, task: i32, id: i32) -> u32;
        pub fn timing_wait_signal(pairs: u32, waiter: i32, task: i32, id: i32) -> u32;
        pub fn timing_refer_set_semaphore(pairs: u32, task: i32, id: i32) -> u32;
        pub fn timing_send_receive(pairs: u32, task: i32, id: i32) -> u32;
        pub fn timing_wait_send(pairs: u32, waiter: i32, task: i32, id: i32) -> u32;
        pub fn timing_force_receive(pairs: u32, task: i32, id: i32) -> u32;
        pub fn timing_force_drop(rounds: u32, task: i32, id: i32) -> u32;
        pub fn timing_refer_set_queue(pairs: u32, task: i32, id: i32) -> u32;
        pub fn timing_enter_leave(pairs: u32, task: i32) -> u32;
        pub fn timing_send_each(
            rounds: u32,
            capacity: u32,
            task: i32,
            before: *const i32,
            before_len: usize,
            ids: *const i32,
            ids_len: usize,
        ) -> u32;
        pub fn timing_force_each(
            rounds: u32,
            capacity: u32,
            task: i32,
            before: *const i32,
            before_len: usize,
            ids: *const i32,
            ids_len: usize,
        ) -> u32;
        pub fn timing_signal_wait(
            rounds: u32,
            attribute: u32,
            task: i32,
            priorities: *const u32,
            priorities_len: usize,
        ) -> u32;
        pub fn timing_receive_send(
            rounds: u32,
            attribute: u32,
            capacity: u32,
            task: i32,
            priorities: *const u32,
            priorities_len: usize,
        ) -> u32;
        pub fn timing_signal_once(
            rounds: u32,
            attribute: u32,
            task: i32,
            priorities: *const u32,
            priorities_len: usize,
        ) -> u32;
        pub fn timing_receive_once(
            rounds: u32,
            attribute: u32,
            capacity: u32,
            task: i32,
            priorities: *const u32,
            priorities_len: usize,
        ) -> u32;
        pub fn timing_verdict(
            rounds: u32,
            domains: *const i32,
            domains_len: usize,
            bases: *const u32,
            bases_len: usize,
            size: u32,
            wishes: u32,
        ) -> u32;
        pub fn timing_hand_out(
            rounds: u32,
            domains: *const i32,
            domains_len: usize,
            bases: *const u32,
            bases_len: usize,
            size: u32,
            flash_base: u32,
            ram_base: u32,
            flash: *const u8,
            flash_len: usize,
            ram: *const u8,
            ram_len: usize,
        ) -> u32;
        pub fn finding_find(
            bases: *const u32,
            bases_len: usize,
            sizes: *const u32,
            sizes_len: usize,
            address: u32,
        ) -> usize;
        pub fn host_run(calls: *const u32, calls_len: usize, answers: *mut u32, answers_len: usize) -> usize;
    }
}

// Each function below takes any number but `find`, keeps nothing, and is lent what is borrowed for the call, so its call is safe.

pub fn signal_poll(pairs: u32, who: Who) -> u32 {
    unsafe { archive::timing_signal_poll(pairs, who.task, who.id) }
}

pub fn wait_signal(pairs: u32, who: Who) -> u32 {
    unsafe { archive::timing_wait_signal(pairs, who.waiter, who.task, who.id) }
}

pub fn refer_set_semaphore(pairs: u32, who: Who) -> u32 {
    unsafe { archive::timing_refer_set_semaphore(pairs, who.task, who.id) }
}

pub fn send_receive(pairs: u32, who: Who) -> u32 {
    unsafe { archive::timing_send_receive(pairs, who.task, who.id) }
}

pub fn wait_send(pairs: u32, who: Who) -> u32 {
    unsafe { archive::timing_wait_send(pairs, who.waiter, who.task, who.id) }
}

pub fn force_receive(pairs: u32, who: Who) -> u32 {
    unsafe { archive::timing_force_receive(pairs, who.task, who.id) }
}

pub fn force_drop(rounds: u32, who: Who) -> u32 {
    unsafe { archive::timing_force_drop(rounds, who.task, who.id) }
}

pub fn refer_set_queue(pairs: u32, who: Who) -> u32 {
    unsafe { archive::timing_refer_set_queue(pairs, who.task, who.id) }
}

pub fn enter_leave(pairs: u32, who: Who) -> u32 {
    unsafe { archive::timing_enter_leave(pairs, who.task) }
}

pub fn send_each(rounds: u32, each: &Each) -> u32 {
    let Each { capacity, task, before, ids } = each;
    let (b, i) = (before.as_ptr(), ids.as_ptr());
    unsafe { archive::timing_send_each(rounds, *capacity, *task, b, before.len(), i, ids.len()) }
}

pub fn force_each(rounds: u32, each: &Each) -> u32 {
    let Each { capacity, task, before, ids } = each;
    let (b, i) = (before.as_ptr(), ids.as_ptr());
    unsafe { archive::timing_force_each(rounds, *capacity, *task, b, before.len(), i, ids.len()) }
}

pub fn signal_wait(rounds: u32, crowd: &Crowd) -> u32 {
    let Crowd { attribute, task, priorities, .. } = crowd;
    unsafe { archive::timing_signal_wait(rounds, *attribute, *task, priorities.as_ptr(), priorities.len()) }
}

pub fn receive_send(rounds: u32, crowd: &Crowd) -> u32 {
    let Crowd { attribute, capacity, task, priorities } = crowd;
    let (p, count) = (priorities.as_ptr(), priorities.len());
    unsafe { archive::timing_receive_send(rounds, *attribute, *capacity, *task, p, count) }
}

pub fn signal_once(rounds: u32, crowd: &Crowd) -> u32 {
    let Crowd { attribute, task, priorities, .. } = crowd;
    unsafe { archive::timing_signal_once(rounds, *attribute, *task, priorities.as_ptr(), priorities.len()) }
}

pub fn receive_once(rounds: u32, crowd: &Crowd) -> u32 {
    let Crowd { attribute, capacity, task, priorities } = crowd;
    let (p, count) = (priorities.as_ptr(), priorities.len());
    unsafe { archive::timing_receive_once(rounds, *attribute, *capacity, *task, p, count) }
}

pub fn verdict(rounds: u32, asked: &Asked) -> u32 {
    let Asked { domains, bases, size, wishes } = asked;
    let (d, b) = (domains.as_ptr(), bases.as_ptr());
    unsafe { archive::timing_verdict(rounds, d, domains.len(), b, bases.len(), *size, *wishes) }
}

pub fn hand_out(rounds: u32, lent: &Lent) -> u32 {
    let Lent { domains, bases, size, flash, ram } = lent;
    let (d, b, f, r) = (domains.as_ptr(), bases.as_ptr(), flash.bytes, ram.bytes);
    unsafe {
        archive::timing_hand_out(
            rounds,
            d,
            domains.len(),
            b,
            bases.len(),
            *size,
            flash.base,
            ram.base,
            f.as_ptr(),
            f.len(),
            r.as_ptr(),
            r.len(),
        )
    }
}

/// The search asks for at most 64 regions in order, each with a size, as `Places` are.
pub fn find(places: &Places, address: u32) -> usize {
    let (bases, sizes) = (places.bases(), places.sizes());
    unsafe { archive::finding_find(bases.as_ptr(), bases.len(), sizes.as_ptr(), sizes.len(), address) }
}

/// The two slices are borrowed, so they are alive and apart while the call runs.
pub fn run(calls: &[u32], answers: &mut [u32]) -> usize {
    unsafe { archive::host_run(calls.as_ptr(), calls.len(), answers.as_mut_ptr(), answers.len()) }
}

pub fn listed(pairs: u32, send: u32) -> u32 {
    crate::listed::wait_release(run, pairs, send)
}
