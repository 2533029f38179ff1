//! The bench runs of document 01, with the limits of request T-07 and the units of T-06, forced send (T-05), priority
//! order (T-10), extended service calls (T-03) and handing out bytes (T-13), on the ordinary kernel.

use crate::plain::*;
use crate::plain_runs::bench_table;

const OK: Result<Done, Er> = Ok(Done::OK);
const WAITS: Result<Done, Er> = Ok(Done::WAITING);

fn done(word: u32, task: u32, task_word: u32) -> Result<Done, Er> {
    let released = (task != 0).then_some(Released { task, word: task_word });
    Ok(Done { waiting: false, word, released })
}

#[test]
fn run_s() {
    let mut k = Kernel::EMPTY;
    bench_table(&mut k);
    let moved = Vector::new(2, 2, 0, 3);
    assert_eq!([k.pol_sem(1, 1), k.pol_sem(1, 1), k.wai_sem(1, 1)], [OK, Err(E_TMOUT), WAITS]);
    assert_eq!([k.sig_sem(1, 1), k.sig_sem(2, 1)], [Err(E_CTX), Err(E_OACV)]);
    assert_eq!([k.sac_sem(3, 1, moved), k.sig_sem(2, 1)], [OK, done(0, 1, 0)]);
    assert_eq!(k.ref_sem(3, 1).map(|s| s.count), Ok(0));
    assert_eq!(k.pol_sem(1, 1), Err(E_OACV));
    assert_eq!([k.sig_sem(2, 1), k.sig_sem(2, 1), k.sig_sem(2, 1)], [OK, OK, Err(E_QOVR)]);
    assert_eq!(k.ref_sem(1, 1), Ok(Referred { first_waiter: 0, first_receiver: 0, count: 2, vector: moved }));
}

#[test]
fn run_q() {
    let mut k = Kernel::EMPTY;
    bench_table(&mut k);
    assert_eq!(k.rcv_dtq(2, 1), Err(E_OACV));
    assert_eq!([700, 701, 702].map(|w| k.psnd_dtq(1, 1, w)), [OK, OK, Err(E_TMOUT)]);
    assert_eq!([k.snd_dtq(1, 1, 702), k.prcv_dtq(4, 1)], [WAITS, done(700, 1, 0)]);
    assert_eq!([k.prcv_dtq(4, 1), k.prcv_dtq(4, 1)], [done(701, 0, 0), done(702, 0, 0)]);
    assert_eq!([k.psnd_dtq(2, 2, 5), k.snd_dtq(2, 2, 5)], [Err(E_TMOUT), WAITS]);
    assert_eq!(k.ref_dtq(3, 2).map(|q| (q.first_waiter, q.first_receiver, q.count)), Ok((2, 0, 0)));
    assert_eq!(k.rcv_dtq(1, 2), done(5, 2, 0));
}

#[test]
fn table_and_numbers() {
    let mut k = Kernel::EMPTY;
    assert_eq!([k.fresh(32, 1), k.fresh(33, 1), k.add_task(1, 1)], [Ok(()), Err(E_PAR), Err(E_ID)]);
    assert_eq!(k.add_semaphore(TDOM_NONE, 0, 0, 65_535, None), Ok(()));
    assert_eq!([(0, 65_536), (2, 1)].map(|(start, max)| k.add_semaphore(-1, 0, start, max, None)), [Err(E_PAR); 2]);
    assert_eq!([256; 8].map(|capacity| k.add_queue(TDOM_KERNEL, 0, capacity, None)), [Ok(()); 8]);
    assert_eq!(
        [257, 1, 0].map(|capacity| k.add_queue(TDOM_KERNEL, 0, capacity, None)),
        [Err(E_PAR), Err(E_NOMEM), Ok(())]
    );
    assert_eq!([k.close(), k.close(), k.add_task(TDOM_KERNEL, 1)], [Ok(()), Err(E_CTX), Err(E_CTX)]);
    let mut k = Kernel::EMPTY;
    bench_table(&mut k);
    assert_eq!([-1, 0, 65].map(|id| k.sig_sem(1, id)), [Err(E_ID); 3]);
    assert_eq!([(1, 2), (1, 33), (3, 2), (3, 64)].map(|(task, id)| k.sig_sem(task, id)), [Err(E_NOEXS); 4]);
}

#[test]
fn regions() {
    let mut k = Kernel::EMPTY;
    assert_eq!(k.fresh(2, 1), Ok(()));
    assert_eq!(k.add_region(-1, TA_RO | TA_EXEC, 0x1000, 0x1000, Some(Vector::new(0, 3, 0, 3))), Ok(()));
    assert_eq!(k.add_region(-1, 0, 0x1FFF, 0x1000, None), Err(E_OBJ));
    assert_eq!(k.add_region(-1, 0, 0x2000, 0x1000, Some(Vector::new(1, 1, 0, 1))), Ok(()));
    assert_eq!(k.close(), Ok(()));
    let reads = |base, size| k.prb_mem(2, base, size, TPM_READ);
    assert_eq!([reads(0x1FFF, 1), reads(0x1FFF, 2), reads(0x2000, 1)], [Ok(()), Err(E_OBJ), Err(E_MACV)]);
    assert_eq!([reads(0x3000, 1), reads(0x3000, 0)], [Err(E_NOEXS), Err(E_PAR)]);
    assert_eq!(k.prb_mem(TDOM_KERNEL, 0x1000, 1, TPM_WRITE), Err(E_MACV));
    assert_eq!([reads(0xFFFF_FFFF, 1), reads(0xFFFF_FFFF, 2)], [Err(E_NOEXS), Err(E_PAR)]);
}

#[test]
fn units() {
    let mut k = Kernel::EMPTY;
    assert_eq!([1, 2, 4_096, 65_536].map(|unit| k.fresh(2, unit)), [Ok(()); 4]);
    assert_eq!([0, 3, 4_095, 65_537, 131_072, u32::MAX].map(|unit| k.fresh(2, unit)), [Err(E_PAR); 6]);
    assert_eq!([k.add_task(1, 1), k.add_region(-1, 0, 1, 1, None)], [Err(E_ID), Ok(())]);
    assert_eq!([k.fresh(33, 4_096), k.fresh(2, 4_096)], [Err(E_PAR), Ok(())]);
    let regions =
        [(0x800, 0x1000), (0x1000, 0x800), (0x1000, 0x1000), (0x801, 0x1000), (0, 0x1000), (0xFFFF_F000, 0x1000)];
    assert_eq!(
        regions.map(|(base, size)| k.add_region(-1, 0, base, size, None)),
        [Err(E_PAR), Err(E_PAR), Ok(()), Err(E_PAR), Err(E_OBJ), Ok(())]
    );
}

#[test]
fn touching_regions() {
    let mut k = Kernel::EMPTY;
    assert_eq!(k.fresh(2, 4_096), Ok(()));
    let vector = Some(Vector::new(1, 3, 0, 1));
    for base in [0x1000, 0x2000, 0x4000, 0x5000, 0x6000] {
        assert_eq!(k.add_region(1, 0, base, 0x1000, vector), Ok(()));
    }
    assert_eq!(k.add_region(-1, 0, 0x7000, 0x1000, vector), Ok(()));
    assert_eq!(k.add_region(-2, 0, 0x8000, 0x1000, vector), Ok(()));
    assert_eq!(k.add_region(-2, 0, 0x9000, 0x1000, Some(Vector::new(1, 3, 0, 2))), Ok(()));
    assert_eq!(k.close(), Ok(()));
    let reads = |base, size| k.prb_mem(2, base, size, TPM_READ);
    assert_eq!([reads(0x1000, 0x2000), reads(0x1000, 0x2001)], [Ok(()), Err(E_OBJ)]);
    assert_eq!([reads(0x3000, 1), reads(0x2FFF, 0x1002)], [Err(E_NOEXS), Err(E_OBJ)]);
    assert_eq!([reads(0x4000, 0x3000), reads(0x5FFF, 2)], [Ok(()); 2]);
    assert_eq!([0x6FFF, 0x7FFF, 0x8FFF].map(|base| reads(base, 2)), [Err(E_OBJ); 3]);
}

/// Tasks 1 and 2 of domain 1, task 3 of domain 2, task 4 of the kernel; a queue for domain 1, and one to which it may not send.
fn forced_table(capacity: u32) -> Kernel {
    let mut k = Kernel::EMPTY;
    assert_eq!(k.fresh(2, 1), Ok(()));
    assert_eq!([1, 1, 2, TDOM_KERNEL].map(|domain| k.add_task(domain, 1)), [Ok(()); 4]);
    assert_eq!(k.add_queue(1, 0, capacity, None), Ok(()));
    assert_eq!(k.add_queue(TDOM_KERNEL, 0, 1, Some(Vector::new(0, 1, 1, 1))), Ok(()));
    assert_eq!(k.close(), Ok(()));
    k
}

/// First sender, first receiver, number of buffered words of queue 1.
fn queue_1(k: &Kernel) -> (u32, u32, u32) {
    let told = k.ref_dtq(4, 1).expect("the kernel may refer");
    (told.first_waiter, told.first_receiver, told.count)
}

/// The words that poll-receives hand out, until there is none.
fn drained(k: &mut Kernel) -> Vec<u32> {
    std::iter::from_fn(|| k.prcv_dtq(4, 1).ok().map(|done| done.word)).collect()
}

#[test]
fn forced_to_a_receiver() {
    let mut k = forced_table(2);
    assert_eq!([k.rcv_dtq(2, 1), k.rcv_dtq(4, 1)], [WAITS; 2]);
    assert_eq!([k.fsnd_dtq(1, 1, 7), k.fsnd_dtq(1, 1, 8)], [done(0, 2, 7), done(0, 4, 8)]);
    assert_eq!(queue_1(&k), (0, 0, 0));
    assert_eq!([k.fsnd_dtq(1, 1, 9), k.prcv_dtq(2, 1)], [OK, done(9, 0, 0)]);
}

#[test]
fn forced_into_room() {
    let mut k = forced_table(3);
    assert_eq!([k.fsnd_dtq(1, 1, 7), k.snd_dtq(1, 1, 8), k.fsnd_dtq(4, 1, 9)], [OK; 3]);
    assert_eq!(queue_1(&k), (0, 0, 3));
    assert_eq!(drained(&mut k), [7, 8, 9]);
}

/// More than a turn of the ring, so that the oldest word stands at each of its places.
#[test]
fn forced_into_a_full_buffer() {
    for capacity in [1, 2, 3, 16, 256] {
        let mut k = forced_table(capacity);
        for word in 0..3 * capacity + 1 {
            assert_eq!(k.fsnd_dtq(1, 1, word), OK);
            assert_eq!(queue_1(&k), (0, 0, (word + 1).min(capacity)));
        }
        assert_eq!(drained(&mut k), (2 * capacity + 1..3 * capacity + 1).collect::<Vec<_>>());
        assert_eq!([k.fsnd_dtq(1, 1, 5), k.prcv_dtq(1, 1)], [OK, done(5, 0, 0)]);
    }
}

/// The word 0, one dropped and one kept, is a word like any other.
#[test]
fn forced_with_capacity_1() {
    let mut k = forced_table(1);
    assert_eq!([0, 7, 0].map(|word| k.fsnd_dtq(1, 1, word)), [OK; 3]);
    assert_eq!([k.prcv_dtq(1, 1), k.prcv_dtq(1, 1)], [done(0, 0, 0), Err(E_TMOUT)]);
    assert_eq!([k.fsnd_dtq(1, 1, 7), k.fsnd_dtq(1, 1, u32::MAX)], [OK; 2]);
    assert_eq!(k.prcv_dtq(1, 1), done(u32::MAX, 0, 0));
}

/// The waiting senders stay, in their order and with their words, and enter behind the forced word.
#[test]
fn forced_past_senders() {
    let mut k = forced_table(2);
    assert_eq!([k.snd_dtq(1, 1, 1), k.snd_dtq(1, 1, 2)], [OK; 2]);
    assert_eq!([k.snd_dtq(1, 1, 3), k.snd_dtq(2, 1, 4)], [WAITS; 2]);
    assert_eq!(k.fsnd_dtq(4, 1, 5), OK);
    assert_eq!(queue_1(&k), (1, 0, 2));
    assert_eq!(k.fsnd_dtq(1, 1, 6), Err(E_CTX));
    assert_eq!([k.prcv_dtq(4, 1), k.prcv_dtq(4, 1)], [done(2, 1, 0), done(5, 2, 0)]);
    assert_eq!(drained(&mut k), [3, 4]);
}

#[test]
fn forced_with_capacity_0() {
    let mut k = forced_table(0);
    assert_eq!(k.fsnd_dtq(1, 1, 7), Err(E_ILUSE));
    assert_eq!(k.rcv_dtq(2, 1), WAITS);
    assert_eq!(k.fsnd_dtq(1, 1, 7), Err(E_ILUSE));
    assert_eq!(queue_1(&k), (0, 2, 0));
    assert_eq!(k.psnd_dtq(1, 1, 8), done(0, 2, 8));
    assert_eq!(k.snd_dtq(1, 1, 9), WAITS);
    assert_eq!([k.fsnd_dtq(4, 1, 7), k.prcv_dtq(2, 1)], [Err(E_ILUSE), done(9, 1, 0)]);
}

/// Each check comes before the next, and that of the capacity last; a refusal drops nothing.
#[test]
fn forced_and_refused() {
    let mut k = forced_table(1);
    assert_eq!(k.fsnd_dtq(1, 1, 7), OK);
    assert_eq!([0, 5, -1].map(|task| k.fsnd_dtq(task, 17, 8)), [Err(E_CTX); 3]);
    assert_eq!([-1, 0, 17].map(|id| k.fsnd_dtq(3, id, 8)), [Err(E_ID); 3]);
    assert_eq!([3, 16].map(|id| k.fsnd_dtq(3, id, 8)), [Err(E_NOEXS); 2]);
    assert_eq!(k.fsnd_dtq(3, 1, 8), Err(E_OACV));
    assert_eq!([k.fsnd_dtq(1, 2, 8), k.fsnd_dtq(4, 2, 8)], [Err(E_OACV), OK]);
    assert_eq!(drained(&mut k), [7]);
    let mut k = forced_table(0);
    assert_eq!([k.fsnd_dtq(3, 1, 8), k.fsnd_dtq(1, 1, 8)], [Err(E_OACV), Err(E_ILUSE)]);
    let mut open = Kernel::EMPTY;
    assert_eq!([open.fresh(1, 1), open.add_task(1, 1), open.add_queue(1, 0, 1, None)], [Ok(()); 3]);
    assert_eq!(open.fsnd_dtq(1, 1, 8), Err(E_CTX));
}

/// The first hit wins: closed, full, domain, priority.
#[test]
fn priorities() {
    let mut k = Kernel::EMPTY;
    assert_eq!(k.fresh(2, 1), Ok(()));
    assert_eq!([0, 17, 257, u32::MAX].map(|priority| k.add_task(1, priority)), [Err(E_PAR); 4]);
    assert_eq!([1, 16].map(|priority| k.add_task(1, priority)), [Ok(()); 2]);
    assert_eq!([TDOM_NONE, 0, 3].map(|domain| k.add_task(domain, 0)), [Err(E_ID); 3]);
    assert_eq!([k.add_task(TDOM_KERNEL, 0), k.add_task(TDOM_KERNEL, 16)], [Err(E_PAR), Ok(())]);
    let dump = [
        "task 1 domain=1 ready level=0 priority=1",
        "task 2 domain=1 ready level=0 priority=16",
        "task 3 domain=-1 ready level=0 priority=16",
    ];
    assert_eq!(k.dump()[1..], dump.map(|line| format!("  {line}")));
    while k.add_task(2, 7).is_ok() {}
    assert_eq!(k.ready().len(), MAX_TASKS);
    assert_eq!([(1, 1), (1, 0), (0, 0)].map(|(domain, priority)| k.add_task(domain, priority)), [Err(E_NOID); 3]);
    assert_eq!([k.close(), k.add_task(0, 0)], [Ok(()), Err(E_CTX)]);
}

/// Domain before attribute, attribute before numbers.
#[test]
fn order_attributes() {
    let mut k = Kernel::EMPTY;
    assert_eq!(k.fresh(1, 1), Ok(()));
    for (atr, taken) in [(0, Ok(())), (1, Ok(())), (2, Err(E_RSATR)), (3, Err(E_RSATR)), (u32::MAX, Err(E_RSATR))] {
        assert_eq!([k.add_semaphore(1, atr, 0, 1, None), k.add_queue(1, atr, 1, None)], [taken; 2]);
        let bad = taken.and(Err(E_PAR));
        assert_eq!([k.add_semaphore(1, atr, 2, 1, None), k.add_queue(1, atr, 257, None)], [bad; 2]);
        assert_eq!([k.add_semaphore(2, atr, 0, 1, None), k.add_queue(0, atr, 1, None)], [Err(E_ID); 2]);
    }
    let attributes = |line: &String| line.split(" attr=").nth(1).map(str::to_string);
    assert_eq!(k.dump().iter().filter_map(attributes).collect::<Vec<_>>(), ["0", "1", "0", "1"]);
}

/// Task 1 of the kernel, and tasks of these priorities from 2 on; a semaphore and a queue for everyone.
fn ordered_table(atr: u32, capacity: u32, priorities: &[u32]) -> Kernel {
    let mut k = Kernel::EMPTY;
    assert_eq!([k.fresh(2, 1), k.add_task(TDOM_KERNEL, 16)], [Ok(()); 2]);
    for (number, &priority) in priorities.iter().enumerate() {
        assert_eq!(k.add_task(1 + number as i32 % 2, priority), Ok(()));
    }
    assert_eq!(k.add_semaphore(TDOM_NONE, atr, 0, 2, None), Ok(()));
    assert_eq!(k.add_queue(TDOM_NONE, atr, capacity, None), Ok(()));
    assert_eq!(k.close(), Ok(()));
    k
}

/// The first waiter and the count that a refer tells.
fn semaphore_1(k: &Kernel) -> (u32, u32) {
    let told = k.ref_sem(1, 1).expect("the kernel may refer");
    (told.first_waiter, told.count)
}

/// Whom signals release, until nobody waits.
fn signalled(k: &mut Kernel) -> Vec<u32> {
    std::iter::from_fn(|| k.sig_sem(1, 1).ok().and_then(|done| done.released)).map(|released| released.task).collect()
}

/// The words that receives hand out, and whom each of them releases.
fn received(k: &mut Kernel) -> Vec<(u32, u32)> {
    let released = |done: Done| done.released.map_or(0, |released| released.task);
    std::iter::from_fn(|| k.prcv_dtq(1, 1).ok().map(|done| (done.word, released(done)))).collect()
}

#[test]
fn three_on_a_semaphore() {
    for (atr, firsts, released) in [(TA_TPRI, [2, 3, 3], [3, 2, 4]), (TA_TFIFO, [2, 2, 2], [2, 3, 4])] {
        let mut k = ordered_table(atr, 0, &[5, 2, 5]);
        for (task, first) in [2, 3, 4].into_iter().zip(firsts) {
            assert_eq!(k.wai_sem(task, 1), WAITS);
            assert_eq!(semaphore_1(&k), (first, 0));
        }
        let line = format!("waiters={} attr={atr}", released.map(|task| task.to_string()).join(","));
        assert!(k.dump()[5].ends_with(&line), "{:?}", k.dump());
        assert_eq!(signalled(&mut k), released);
        // The signal that released nobody has been counted.
        assert_eq!(semaphore_1(&k), (0, 1));
    }
}

/// With room for two words, which go before, and with none.
#[test]
fn three_senders() {
    for (atr, order) in [(TA_TPRI, [4, 2, 3]), (TA_TFIFO, [2, 3, 4])] {
        for capacity in [0, 2] {
            let mut k = ordered_table(atr, capacity, &[9, 9, 8]);
            assert_eq!(
                (0..capacity).map(|word| k.snd_dtq(1, 1, 10 + word)).collect::<Vec<_>>(),
                vec![OK; capacity as usize]
            );
            assert_eq!([2, 3, 4].map(|task| k.snd_dtq(task, 1, 100 * task as u32)), [WAITS; 3]);
            assert_eq!(queue_of(&k), (order[0], 0, capacity));
            let senders = order.map(|task| format!("{task}:{}", 100 * task)).join(",");
            assert!(k.dump()[6].ends_with(&format!("senders={senders} receivers= attr={atr}")), "{:?}", k.dump());
            let words = (0..capacity).map(|word| 10 + word).chain(order.map(|task| 100 * task));
            let releases = order.into_iter().chain([0, 0]);
            assert_eq!(received(&mut k), words.zip(releases).collect::<Vec<_>>());
        }
    }
}

/// First sender, first receiver, number of buffered words of queue 1.
fn queue_of(k: &Kernel) -> (u32, u32, u32) {
    let told = k.ref_dtq(1, 1).expect("the kernel may refer");
    (told.first_waiter, told.first_receiver, told.count)
}

#[test]
fn receivers_stay_first_come() {
    for atr in [TA_TFIFO, TA_TPRI] {
        let mut k = ordered_table(atr, 1, &[16, 8, 1]);
        assert_eq!([2, 3, 4].map(|task| k.rcv_dtq(task, 1)), [WAITS; 3]);
        assert_eq!(queue_of(&k), (0, 2, 0));
        assert!(k.dump()[6].ends_with(&format!("buffer= senders= receivers=2,3,4 attr={atr}")), "{:?}", k.dump());
        assert_eq!(k.snd_dtq(1, 1, 7), done(0, 2, 7));
        assert_eq!([k.fsnd_dtq(1, 1, 8), k.psnd_dtq(1, 1, 9)], [done(0, 3, 8), done(0, 4, 9)]);
    }
}

/// Who comes late and is more urgent is released before all others, again and again; equals take turns.
#[test]
fn a_late_one_that_is_more_urgent() {
    let mut k = ordered_table(TA_TPRI, 0, &[3, 3, 16, 1]);
    assert_eq!([4, 2, 3, 5].map(|task| k.wai_sem(task, 1)), [WAITS; 4]);
    for _ in 0..3 {
        assert_eq!([k.sig_sem(1, 1), k.wai_sem(5, 1)], [done(0, 5, 0), WAITS]);
    }
    assert_eq!(k.sig_sem(5, 1), Err(E_CTX));
    assert_eq!([k.sig_sem(1, 1), k.sig_sem(5, 1)], [done(0, 5, 0), done(0, 2, 0)]);
    assert_eq!([k.wai_sem(2, 1), k.sig_sem(5, 1), k.sig_sem(5, 1)], [WAITS, done(0, 3, 0), done(0, 2, 0)]);
    assert_eq!(signalled(&mut k), [4]);
    let mut k = ordered_table(TA_TFIFO, 0, &[3, 3, 16, 1]);
    assert_eq!([4, 2, 3, 5].map(|task| k.wai_sem(task, 1)), [WAITS; 4]);
    assert_eq!([k.sig_sem(1, 1), k.wai_sem(4, 1)], [done(0, 4, 0), WAITS]);
    assert_eq!(signalled(&mut k), [2, 3, 5, 4]);
}

/// The late sender's word passes those of the others; a forced word passes all, and drops none that waits.
#[test]
fn a_late_sender_that_is_more_urgent() {
    let mut k = ordered_table(TA_TPRI, 1, &[4, 4, 1]);
    assert_eq!(
        [k.snd_dtq(1, 1, 1), k.snd_dtq(2, 1, 2), k.snd_dtq(3, 1, 3), k.snd_dtq(4, 1, 4)],
        [OK, WAITS, WAITS, WAITS]
    );
    assert_eq!([k.fsnd_dtq(1, 1, 5), k.psnd_dtq(1, 1, 6)], [OK, Err(E_TMOUT)]);
    assert_eq!(received(&mut k), [(5, 4), (4, 2), (2, 3), (3, 0)]);
}

/// A set-vector that denies those who wait changes neither order nor release.
#[test]
fn the_order_outlives_a_vector() {
    let mut k = ordered_table(TA_TPRI, 0, &[2, 1, 2]);
    assert_eq!([2, 3, 4].map(|task| k.wai_sem(task, 1)), [WAITS; 3]);
    assert_eq!(k.sac_sem(1, 1, Vector::KERNEL), OK);
    assert_eq!(signalled(&mut k), [3, 2, 4]);
}

/// All tasks but one wait, in each order of arrival that a step through their numbers gives.
#[test]
fn all_but_one_wait() {
    let priorities: Vec<u32> = (0..254).map(|number| 1 + number * 7 % 16).collect();
    for step in [1, 3, 253] {
        let arrivals: Vec<u32> = (0..254).map(|number| 2 + number * step % 254).collect();
        let mut sorted = arrivals.clone();
        sorted.sort_by_key(|&task| priorities[task as usize - 2]);
        for (atr, order) in [(TA_TFIFO, &arrivals), (TA_TPRI, &sorted)] {
            let mut k = ordered_table(atr, 0, &priorities);
            assert!(arrivals.iter().all(|&task| k.wai_sem(task as i32, 1) == WAITS));
            assert_eq!(k.waiters(Place::Semaphore, 1), (order.clone(), atr == TA_TPRI));
            assert_eq!(&signalled(&mut k), order);
            assert!(arrivals.iter().all(|&task| k.snd_dtq(task as i32, 1, task) == WAITS));
            assert_eq!(received(&mut k), order.iter().map(|&task| (task, task)).collect::<Vec<_>>());
        }
    }
}

/// Up to the highest level and down again, whatever the domain; a refusal changes nothing.
#[test]
fn levels() {
    let mut k = Kernel::EMPTY;
    bench_table(&mut k);
    let start = k.dump();
    for task in [2, 3] {
        assert_eq!(k.ret_svc(task), Err(E_CTX));
        for level in 1..=MAX_LEVEL {
            assert_eq!((k.cal_svc(task), k.level(task)), (OK, level));
        }
        assert_eq!([k.cal_svc(task), k.cal_svc(task)], [Err(E_SYS); 2]);
        assert_eq!([1, 2, 3, 4].map(|other| k.level(other)), [1, 2, 3, 4].map(|other| u8::from(other == task) * 255));
        for level in (0..MAX_LEVEL).rev() {
            assert_eq!((k.ret_svc(task), k.level(task)), (OK, level));
        }
        assert_eq!([k.ret_svc(task), k.ret_svc(task)], [Err(E_CTX); 2]);
        assert_eq!(k.dump(), start);
    }
}

#[test]
fn levels_in_a_dump() {
    let mut k = Kernel::EMPTY;
    bench_table(&mut k);
    assert_eq!([2, 2, 4].map(|task| k.cal_svc(task)), [OK; 3]);
    assert_eq!([k.snd_dtq(2, 2, 7), k.pol_sem(1, 1), k.wai_sem(4, 1)], [WAITS, OK, WAITS]);
    let dump = [
        "task 1 domain=1 ready level=0 priority=1",
        "task 2 domain=2 sending=2 word=7 level=2 priority=1",
        "task 3 domain=-1 ready level=0 priority=1",
        "task 4 domain=1 sem=1 level=1 priority=1",
    ];
    assert_eq!(k.dump()[1..5], dump.map(|line| format!("  {line}")));
}

/// An open table, no such task, one that waits, each before the level is asked.
#[test]
fn services_refused() {
    let mut k = Kernel::EMPTY;
    assert_eq!([k.fresh(1, 1), k.add_task(1, 1)], [Ok(()); 2]);
    assert_eq!([k.cal_svc(1), k.ret_svc(1)], [Err(E_CTX); 2]);
    let mut k = Kernel::EMPTY;
    bench_table(&mut k);
    for task in [0, -1, 5, 255, 256, 257, i32::MIN, i32::MAX] {
        assert_eq!([k.cal_svc(task), k.ret_svc(task)], [Err(E_CTX); 2]);
    }
    while k.cal_svc(2).is_ok() {}
    assert_eq!([k.cal_svc(1), k.pol_sem(3, 1)], [OK; 2]);
    assert_eq!([k.wai_sem(1, 1), k.wai_sem(2, 1), k.wai_sem(4, 1)], [WAITS; 3]);
    let waiting = k.dump();
    for task in [1, 2, 4] {
        assert_eq!([k.cal_svc(task), k.ret_svc(task)], [Err(E_CTX); 2]);
    }
    assert_eq!(k.dump(), waiting);
}

/// Task 1 of domain 1, task 2 of the kernel; a semaphore and two queues, of capacity 1 and 0, for the kernel only.
fn closed_to_users() -> Kernel {
    let mut k = Kernel::EMPTY;
    assert_eq!(k.fresh(1, 1), Ok(()));
    assert_eq!([1, TDOM_KERNEL].map(|domain| k.add_task(domain, 1)), [Ok(()); 2]);
    assert_eq!(k.add_semaphore(TDOM_KERNEL, 0, 0, 1, None), Ok(()));
    assert_eq!([1, 0].map(|capacity| k.add_queue(TDOM_KERNEL, 0, capacity, None)), [Ok(()); 2]);
    assert_eq!(k.close(), Ok(()));
    k
}

/// Every call by task 1.
fn all_calls(k: &mut Kernel, id: i32) -> [Result<Done, Er>; 12] {
    let vector = Vector::KERNEL;
    [
        k.sig_sem(1, id),
        k.pol_sem(1, id),
        k.pol_sem(1, id),
        k.sac_sem(1, id, vector),
        k.ref_sem(1, id).map(|_| Done::OK),
        k.psnd_dtq(1, id, 5),
        k.fsnd_dtq(1, id, 6),
        k.psnd_dtq(1, id, 7),
        k.prcv_dtq(1, id),
        k.prcv_dtq(1, id),
        k.sac_dtq(1, id, vector),
        k.ref_dtq(1, id).map(|_| Done::OK),
    ]
}

/// The checks before the pattern's stay; all that is denied outside is admitted inside, at every level.
#[test]
fn inside_as_the_kernel() {
    let mut k = closed_to_users();
    let inside = [OK, OK, Err(E_TMOUT), OK, OK, OK, OK, Err(E_TMOUT), done(6, 0, 0), Err(E_TMOUT), OK, OK];
    for _ in 0..3 {
        assert_eq!(all_calls(&mut k, 1), [Err(E_OACV); 12]);
        assert_eq!([k.wai_sem(1, 1), k.snd_dtq(1, 1, 5), k.rcv_dtq(1, 1)], [Err(E_OACV); 3]);
        assert_eq!(k.fsnd_dtq(1, 2, 5), Err(E_OACV));
        for _ in 0..3 {
            assert_eq!(k.cal_svc(1), OK);
            assert_eq!(all_calls(&mut k, 1), inside);
            assert_eq!(k.fsnd_dtq(1, 2, 5), Err(E_ILUSE));
            assert_eq!([0, 65, -1].map(|id| k.sig_sem(1, id)), [Err(E_ID); 3]);
            assert_eq!([2, 64].map(|id| k.sig_sem(1, id)), [Err(E_NOEXS); 2]);
        }
        assert_eq!([k.ret_svc(1), k.ret_svc(1)], [OK; 2]);
        assert_eq!(all_calls(&mut k, 1), inside);
        assert_eq!(k.ret_svc(1), OK);
    }
    assert_eq!(all_calls(&mut k, 0), [Err(E_ID); 12]);
}

/// One task's level is no other's: not of a task of the same domain either.
#[test]
fn inside_for_itself() {
    let mut k = Kernel::EMPTY;
    bench_table(&mut k);
    assert_eq!([k.cal_svc(1), k.sac_sem(1, 1, Vector::KERNEL)], [OK; 2]);
    assert_eq!([4, 2].map(|task| k.sig_sem(task, 1)), [Err(E_OACV); 2]);
    assert_eq!([k.sig_sem(1, 1), k.sig_sem(3, 1), k.ret_svc(1), k.pol_sem(1, 1)], [OK, Err(E_QOVR), OK, Err(E_OACV)]);
}

/// Who waits inside keeps its level, is not judged again, and goes on inside; outside it is denied again.
#[test]
fn waiting_inside() {
    let mut k = closed_to_users();
    assert_eq!([k.cal_svc(1), k.cal_svc(1), k.wai_sem(1, 1)], [OK, OK, WAITS]);
    assert_eq!([k.sig_sem(1, 1), k.ret_svc(1)], [Err(E_CTX); 2]);
    assert_eq!([k.sac_sem(2, 1, Vector::KERNEL), k.sig_sem(2, 1)], [OK, done(0, 1, 0)]);
    assert_eq!((k.level(1), k.rcv_dtq(1, 2)), (2, WAITS));
    assert_eq!(k.psnd_dtq(2, 2, 9), done(0, 1, 9));
    assert_eq!([k.ret_svc(1), k.snd_dtq(1, 2, 8), k.prcv_dtq(2, 2)], [OK, WAITS, done(8, 1, 0)]);
    assert_eq!([k.ret_svc(1), k.snd_dtq(1, 2, 8), k.rcv_dtq(1, 2)], [OK, Err(E_OACV), Err(E_OACV)]);
}

/// A verdict is asked with a domain, and no level changes it.
#[test]
fn verdicts_outside() {
    let mut k = Kernel::EMPTY;
    bench_table(&mut k);
    assert_eq!([1, 2, 4].map(|task| k.cal_svc(task)), [OK; 3]);
    let reads = |domain| k.prb_mem(domain, 0x2000, 1, TPM_READ);
    assert_eq!([1, 2, TDOM_KERNEL].map(reads), [Ok(()), Err(E_MACV), Ok(())]);
}

/// Eight bytes of each image, so that every place can be told by its byte.
const FLASH: [u8; 8] = [10, 11, 12, 13, 14, 15, 16, 17];
const RAM: [u8; 8] = [200, 201, 202, 203, 204, 205, 206, 207];

fn image(base: u32, bytes: &[u8]) -> Image<'_> {
    Image { base, bytes }
}

/// In the bench table everyone reads region 1, from 0x1000 to 0x2000, and domain 1 region 2, behind it up to 0x3000.
fn bench_kernel() -> Kernel {
    let mut k = Kernel::EMPTY;
    bench_table(&mut k);
    k
}

/// Domain 1 reads three equal regions in a row, from 0x1000 to 0x4000, and one at the end of memory.
fn chained_table() -> Kernel {
    let mut k = Kernel::EMPTY;
    assert_eq!(k.fresh(2, 4_096), Ok(()));
    for base in [0x1000, 0x2000, 0x3000, 0xFFFF_F000] {
        assert_eq!(k.add_region(1, 0, base, 0x1000, Some(Vector::new(0, 1, 0, 0))), Ok(()));
    }
    assert_eq!(k.close(), Ok(()));
    k
}

/// The first byte, the last, some inside, all.
#[test]
fn handed_out_of_one_image() {
    let k = bench_kernel();
    let reads = |base, size| k.get_mem(1, base, size, image(0x1100, &FLASH), image(0x2100, &RAM));
    assert_eq!([reads(0x1100, 1), reads(0x1107, 1)], [Ok(&[10][..]), Ok(&[17])]);
    assert_eq!([reads(0x1102, 3), reads(0x1105, 3)], [Ok(&[12, 13, 14][..]), Ok(&[15, 16, 17])]);
    assert_eq!([reads(0x2100, 1), reads(0x2107, 1)], [Ok(&[200][..]), Ok(&[207])]);
    assert_eq!([reads(0x2102, 3), reads(0x2105, 3)], [Ok(&[202, 203, 204][..]), Ok(&[205, 206, 207])]);
    assert_eq!([reads(0x1100, 8), reads(0x2100, 8)], [Ok(&FLASH[..]), Ok(&RAM)]);
}

/// A byte before an image, behind it, or both; nowhere near one. The domain may read them all.
#[test]
fn handed_out_of_no_image() {
    let k = bench_kernel();
    for start in [0x1100, 0x2100] {
        let off = [(start - 1, 1), (start - 1, 2), (start - 1, 10), (start, 9), (start + 7, 2), (start + 8, 1)];
        for (base, size) in off.into_iter().chain([(start + 0x200, 1), (start - 0x100, 0x1000)]) {
            assert_eq!(k.prb_mem(1, base, size, TPM_READ), Ok(()));
            assert_eq!(k.get_mem(1, base, size, image(0x1100, &FLASH), image(0x2100, &RAM)), Err(E_NOEXS));
        }
    }
}

/// The part is the lent bytes themselves; which of the images is flash makes no difference.
#[test]
fn handed_out_in_place() {
    let k = bench_kernel();
    let (low, high) = (image(0x1100, &FLASH), image(0x2100, &RAM));
    for (flash, ram) in [(low, high), (high, low)] {
        let part = |base, size| k.get_mem(1, base, size, flash, ram).expect("it is in an image");
        assert!(std::ptr::eq(part(0x1102, 3), &low.bytes[2..5]));
        assert!(std::ptr::eq(part(0x2107, 1), &high.bytes[7..]));
    }
}

/// Images that touch are two still, though the regions count as one; an image may lie in several regions.
#[test]
fn handed_out_along_a_chain() {
    let k = chained_table();
    let reads = |base, size| k.get_mem(1, base, size, image(0x1FF8, &FLASH), image(0x2000, &RAM));
    for (base, size) in [(0x1FFF, 2), (0x1FF8, 16), (0x1FF8, 9), (0x1FFF, 9)] {
        assert_eq!(k.prb_mem(1, base, size, TPM_READ), Ok(()));
        assert_eq!(reads(base, size), Err(E_NOEXS));
    }
    assert_eq!([reads(0x1FFF, 1), reads(0x2000, 1)], [Ok(&[17][..]), Ok(&[200])]);
    let reads = |base, size| k.get_mem(1, base, size, image(0x1FFC, &FLASH), image(0x2FFF, &RAM));
    assert_eq!([reads(0x1FFF, 2), reads(0x2FFF, 2)], [Ok(&[13, 14][..]), Ok(&[200, 201])]);
    let long = [7; 0x2002];
    let reads = |size| k.get_mem(1, 0x1FFF, size, image(0x1FFF, &long), image(0, &[]));
    assert_eq!([reads(0x2001), reads(0x2002)], [Ok(&long[..0x2001]), Err(E_OBJ)]);
}

/// What the verdict refuses is refused as it is there, in an image or not.
#[test]
fn hand_outs_that_the_verdict_refuses() {
    let k = bench_kernel();
    let reads = |domain, base, size| k.get_mem(domain, base, size, image(0x1FFC, &FLASH), image(0x2FFC, &RAM));
    assert_eq!([0, 3, -2, -3, i32::MIN, i32::MAX].map(|domain| reads(domain, 0x1FFC, 0)), [Err(E_ID); 6]);
    assert_eq!([reads(1, 0x1FFC, 0), reads(1, 0x3000, 0), reads(1, 0x1FFC, u32::MAX)], [Err(E_PAR); 3]);
    assert_eq!([0xFFF, 0x3000, 0x3003, u32::MAX].map(|base| reads(1, base, 1)), [Err(E_NOEXS); 4]);
    assert_eq!([reads(1, 0x1FFF, 2), reads(1, 0x2FFF, 2), reads(1, 0x1000, 0x1001)], [Err(E_OBJ); 3]);
    assert_eq!([0x2000, 0x2FFC, 0x2500].map(|base| reads(2, base, 1)), [Err(E_MACV); 3]);
    assert_eq!([1, TDOM_KERNEL].map(|domain| reads(domain, 0x2000, 2)), [Ok(&[14, 15][..]); 2]);
}

/// Nobody writes region 1, nor is anybody in its normal operation 1: reading asks for normal operation 2 alone.
#[test]
fn handed_out_without_writing() {
    let k = bench_kernel();
    let domains = [1, 2, TDOM_KERNEL];
    let reads = |domain| k.get_mem(domain, 0x1000, 1, image(0x1000, &FLASH), image(0x2000, &RAM));
    assert_eq!(domains.map(|domain| k.prb_mem(domain, 0x1000, 1, TPM_READ | TPM_WRITE)), [Err(E_MACV); 3]);
    assert_eq!(domains.map(reads), [Ok(&[10][..]); 3]);
}

/// Who may write, manage and refer may not read for that, and to read is not to execute; the kernel always may.
#[test]
fn handed_out_to_readers() {
    let mut k = Kernel::EMPTY;
    assert_eq!(k.fresh(32, 1), Ok(()));
    assert_eq!(k.add_region(1, TA_EXEC, 0, 1, Some(Vector::new(u32::MAX, 0, u32::MAX, u32::MAX))), Ok(()));
    assert_eq!(k.add_region(1, 0, 1, 1, Some(Vector::new(0, 0x8000_0000, 0, 0))), Ok(()));
    assert_eq!(k.close(), Ok(()));
    let reads = |base| [1, 32, TDOM_KERNEL].map(|domain| k.get_mem(domain, base, 1, image(0, &FLASH), image(8, &RAM)));
    assert_eq!(reads(0), [Err(E_MACV), Err(E_MACV), Ok(&[10][..])]);
    assert_eq!(reads(1), [Err(E_MACV), Ok(&[11][..]), Ok(&[11][..])]);
}

/// Eight bytes from 0x1100 on and eight about them, each of the two as flash.
#[test]
fn images_that_overlap() {
    let k = bench_kernel();
    let reads = |base| {
        let (one, other) = (image(0x1100, &FLASH), image(base, &RAM));
        [k.get_mem(1, 0x1103, 2, one, other), k.get_mem(1, 0x1103, 2, other, one)]
    };
    // By one byte at either end, by seven, by all.
    for base in [0x1107, 0x10F9, 0x1101, 0x10FF, 0x1100] {
        assert_eq!(reads(base), [Err(E_PAR); 2], "{base:#x}");
    }
    // They touch at either end, one byte lies between them, or many.
    for base in [0x1108, 0x10F8, 0x1109, 0x10F7, 0, 0xFFFF_FFF8] {
        assert_eq!(reads(base), [Ok(&[13, 14][..]); 2], "{base:#x}");
    }
    let within = |base, bytes| k.get_mem(1, 0x1103, 1, image(0x1100, &FLASH), image(base, bytes));
    assert_eq!([within(0x1105, &RAM[..1]), within(0x10FF, &[1; 10])], [Err(E_PAR); 2]);
}

/// An empty image overlaps nothing, inside of the other and at its ends too, and nothing lies in it.
#[test]
fn empty_images() {
    let k = bench_kernel();
    for base in [0x1100, 0x1103, 0x1107, 0x1108, 0x10FF, 0, u32::MAX] {
        let (one, empty) = (image(0x1100, &FLASH), image(base, &[]));
        for (flash, ram) in [(one, empty), (empty, one)] {
            assert_eq!(k.get_mem(1, 0x1103, 2, flash, ram), Ok(&[13, 14][..]), "{base:#x}");
        }
        for other in [0x1103, base, 0, u32::MAX] {
            assert_eq!(k.get_mem(1, 0x1103, 1, empty, image(other, &[])), Err(E_NOEXS), "{base:#x}, {other:#x}");
            assert_eq!(k.get_mem(1, 0x1103, 0, empty, image(other, &[])), Err(E_PAR), "{base:#x}, {other:#x}");
        }
    }
}

/// An image may end where memory ends, and not beyond.
#[test]
fn images_at_the_end_of_memory() {
    let k = chained_table();
    let reads = |base, top| {
        let other = image(u32::MAX, &[]);
        [k.get_mem(1, base, 1, top, other), k.get_mem(1, base, 1, other, top)]
    };
    assert_eq!(reads(0xFFFF_FFFF, image(0xFFFF_FFF8, &FLASH)), [Ok(&[17][..]); 2]);
    assert_eq!(reads(0xFFFF_FFFF, image(0xFFFF_FFFF, &RAM[..1])), [Ok(&[200][..]); 2]);
    for past in [image(0xFFFF_FFF9, &FLASH), image(0xFFFF_FFFF, &FLASH[..2]), image(0xFFFF_FFFF, &FLASH)] {
        assert_eq!([0xFFFF_FFFF, 0x1000].map(|base| reads(base, past)), [[Err(E_PAR); 2]; 2]);
    }
    let reads = |base, size| k.get_mem(1, base, size, image(0xFFFF_FFF0, &FLASH), image(0xFFFF_FFF8, &RAM));
    assert_eq!([reads(0xFFFF_FFF0, 8), reads(0xFFFF_FFF8, 8)], [Ok(&FLASH[..]), Ok(&RAM)]);
    assert_eq!([reads(0xFFFF_FFF7, 2), reads(0xFFFF_FFF8, 9)], [Err(E_NOEXS), Err(E_PAR)]);
}

/// An open table before the images, the images before all else.
#[test]
fn hand_outs_refused_in_order() {
    let (flash, apart) = (image(0x1000, &FLASH), image(0x2000, &RAM));
    let (overlapping, past) = (image(0x1007, &RAM), image(u32::MAX, &RAM));
    let mut open = Kernel::EMPTY;
    assert_eq!([open.fresh(1, 1), open.add_region(1, 0, 0x1000, 1, None)], [Ok(()); 2]);
    for ram in [apart, overlapping, past] {
        assert_eq!([-1, 0, 1].map(|domain| open.get_mem(domain, 0x1000, 1, flash, ram)), [Err(E_CTX); 3]);
    }
    let k = bench_kernel();
    // For the verdict E_ID, E_PAR, E_NOEXS, E_OBJ, E_MACV, E_OK outside of both images, and E_OK.
    let asked = [(0, 0, 0), (1, 0, 0), (1, 0, 1), (1, 0x1FFF, 2), (2, 0x2000, 1), (1, 0x1FFF, 1), (1, 0x1000, 1)];
    let answers = |flash, ram| asked.map(|(domain, base, size)| k.get_mem(domain, base, size, flash, ram));
    for other in [overlapping, past] {
        assert_eq!([answers(flash, other), answers(other, flash)], [[Err(E_PAR); 7]; 2]);
    }
    let refused = [E_ID, E_PAR, E_NOEXS, E_OBJ, E_MACV, E_NOEXS].map(Err);
    assert_eq!(answers(flash, apart)[..6], refused);
    assert_eq!(answers(flash, apart)[6], Ok(&[10][..]));
}

/// A hand-out is asked with a domain, and no level changes it.
#[test]
fn hand_outs_outside() {
    let mut k = bench_kernel();
    assert_eq!([1, 2, 4].map(|task| k.cal_svc(task)), [OK; 3]);
    let reads = |domain| k.get_mem(domain, 0x2000, 1, image(0x1000, &FLASH), image(0x2000, &RAM));
    assert_eq!([1, 2, TDOM_KERNEL].map(reads), [Ok(&[200][..]), Err(E_MACV), Ok(&[200][..])]);
}
