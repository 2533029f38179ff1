//! An ordinary kernel core: one struct of fixed arrays, changed in place by each call.

mod images;
mod shown;

pub use images::Image;
pub use shown::Place;

/// A code of μITRON4.0; a refusal is negative.
pub type Er = i32;
/// A check passed, an entry taken, a verdict given.
pub type Check = Result<(), Er>;

pub const E_OK: Er = 0;
pub const E_SYS: Er = -5;
pub const E_RSATR: Er = -11;
pub const E_PAR: Er = -17;
pub const E_ID: Er = -18;
pub const E_CTX: Er = -25;
pub const E_MACV: Er = -26;
pub const E_OACV: Er = -27;
pub const E_ILUSE: Er = -28;
pub const E_NOMEM: Er = -33;
pub const E_NOID: Er = -34;
pub const E_OBJ: Er = -41;
pub const E_NOEXS: Er = -42;
pub const E_QOVR: Er = -43;
pub const E_TMOUT: Er = -50;

pub const MAX_DOMAINS: i32 = 32;
pub const MAX_TASKS: usize = 255;
pub const MAX_SEMAPHORES: usize = 64;
pub const MAX_QUEUES: usize = 16;
pub const MAX_REGIONS: usize = 64;
pub const MAX_WORDS: usize = 2_048;
pub const MAX_SEMAPHORE_COUNT: u32 = 65_535;
pub const MAX_QUEUE_CAPACITY: u32 = 256;
pub const MAX_UNIT: u32 = 65_536;
/// The most urgent priority of a task, and the least urgent one.
pub const MIN_PRIORITY: u32 = 1;
pub const MAX_PRIORITY: u32 = 16;
/// The highest level of extended service calls.
pub const MAX_LEVEL: u8 = 255;

pub const TDOM_KERNEL: i32 = -1;
pub const TDOM_NONE: i32 = -2;

/// Attributes of a semaphore or queue: its waiters stand first come, or by priority.
pub const TA_TFIFO: u32 = 0;
pub const TA_TPRI: u32 = 1;

pub const TA_RO: u32 = 1;
pub const TA_EXEC: u32 = 4;

pub const TPM_WRITE: u32 = 1;
pub const TPM_READ: u32 = 2;
pub const TPM_EXEC: u32 = 4;
const TPM_ALL: u32 = TPM_WRITE | TPM_READ | TPM_EXEC;

/// The first address beyond memory.
pub const ADDRESSES: u64 = 1 << 32;

/// First hit wins: each check is left by `?`.
fn ensure(good: bool, code: Er) -> Check {
    good.then_some(()).ok_or(code)
}

/// The access vector: bit d-1 of a pattern admits domain d.
#[derive(Clone, Copy, Debug, PartialEq)]
pub struct Vector {
    pub normal1: u32,
    pub normal2: u32,
    pub management: u32,
    pub reference: u32,
}

impl Vector {
    pub const KERNEL: Vector = Vector::all(0);
    pub const SHARED: Vector = Vector::all(u32::MAX);

    pub const fn new(normal1: u32, normal2: u32, management: u32, reference: u32) -> Vector {
        Vector { normal1, normal2, management, reference }
    }

    const fn all(pattern: u32) -> Vector {
        Vector::new(pattern, pattern, pattern, pattern)
    }

    pub fn private(domain: i32) -> Vector {
        match domain {
            1..=MAX_DOMAINS => Vector::all(1 << (domain - 1)),
            _ => Vector::KERNEL,
        }
    }

    fn default_of(domain: i32) -> Vector {
        match domain {
            TDOM_NONE => Vector::SHARED,
            _ => Vector::private(domain),
        }
    }
}

/// The kernel domain has no bit: it is admitted whatever the pattern.
fn admits(pattern: u32, domain: i32) -> bool {
    domain == TDOM_KERNEL || pattern >> (domain - 1) & 1 == 1
}

/// Objects of one kind in the order of their entries, numbered from 1.
#[derive(Clone)]
struct Table<T, const N: usize> {
    entries: [T; N],
    count: usize,
}

impl<T: Copy, const N: usize> Table<T, N> {
    const fn empty(unused: T) -> Self {
        Table { entries: [unused; N], count: 0 }
    }

    fn add(&mut self, entry: T) {
        self.entries[self.count] = entry;
        self.count += 1;
    }

    /// An id beyond the limit and an id that has no entry are told apart.
    fn index(&self, id: i32) -> Result<usize, Er> {
        match usize::try_from(id) {
            Ok(number) if (1..=self.count).contains(&number) => Ok(number - 1),
            Ok(number) if (1..=N).contains(&number) => Err(E_NOEXS),
            _ => Err(E_ID),
        }
    }
}

/// Whether an attribute orders waiters by priority.
fn by_priority(atr: u32) -> Result<bool, Er> {
    match atr {
        TA_TFIFO => Ok(false),
        TA_TPRI => Ok(true),
        _ => Err(E_RSATR),
    }
}

/// A released task, and the word that it gets.
#[derive(Clone, Copy, Debug, PartialEq)]
pub struct Released {
    pub task: u32,
    pub word: u32,
}

/// What a call that is not refused has done.
#[derive(Clone, Copy, Debug, PartialEq)]
pub struct Done {
    pub waiting: bool,
    pub word: u32,
    pub released: Option<Released>,
}

impl Done {
    pub const OK: Done = Done { waiting: false, word: 0, released: None };
    pub const WAITING: Done = Done { waiting: true, word: 0, released: None };

    fn releasing(task: usize, word: u32) -> Done {
        Done { released: Some(Released { task: task as u32 + 1, word }), ..Done::OK }
    }
}

/// What a refer tells; a semaphore has no receivers.
#[derive(Clone, Copy, Debug, PartialEq)]
pub struct Referred {
    pub first_waiter: u32,
    pub first_receiver: u32,
    pub count: u32,
    pub vector: Vector,
}

#[derive(Clone, Copy)]
struct Task {
    domain: i32,
    /// The word that a waiting sender brings.
    word: u32,
    waiting: bool,
    /// The task behind this one in its wait queue; 0 is nobody.
    next: u8,
    /// 1 is the most urgent.
    priority: u8,
    /// How many extended service calls it is inside.
    level: u8,
}

const NO_TASK: Task = Task { domain: 0, word: 0, waiting: false, next: 0, priority: 0, level: 0 };

impl Task {
    /// The domain that it calls as: inside an extended service call the kernel's.
    fn running_domain(&self) -> i32 {
        if self.level > 0 {
            TDOM_KERNEL
        } else {
            self.domain
        }
    }
}

/// Waiting tasks linked through their records: a task waits in one place only.
#[derive(Clone, Copy)]
struct WaitQueue {
    first: u8,
    last: u8,
    by_priority: bool,
}

impl WaitQueue {
    const fn empty(by_priority: bool) -> WaitQueue {
        WaitQueue { first: 0, last: 0, by_priority }
    }

    /// Whom a task that comes now stands behind, 0 where it is the first: the last of all, or the last that is no less urgent.
    fn ahead(&self, tasks: &[Task; MAX_TASKS], priority: u8) -> u8 {
        let stays_ahead = |number: u8| tasks[usize::from(number) - 1].priority <= priority;
        if !self.by_priority || self.last == 0 || stays_ahead(self.last) {
            return self.last;
        }
        // The last one ends the walk, as it is less urgent.
        let (mut ahead, mut next) = (0, self.first);
        while stays_ahead(next) {
            ahead = next;
            next = tasks[usize::from(next) - 1].next;
        }
        ahead
    }

    fn join(&mut self, tasks: &mut [Task; MAX_TASKS], task: usize) {
        let number = task as u8 + 1;
        let link = match self.ahead(tasks, tasks[task].priority) {
            0 => &mut self.first,
            ahead => &mut tasks[usize::from(ahead) - 1].next,
        };
        let behind = std::mem::replace(link, number);
        if behind == 0 {
            self.last = number;
        }
        tasks[task].next = behind;
        tasks[task].waiting = true;
    }

    fn release(&mut self, tasks: &mut [Task; MAX_TASKS]) -> Option<usize> {
        let task = usize::from(self.first).checked_sub(1)?;
        tasks[task].waiting = false;
        self.first = tasks[task].next;
        if self.first == 0 {
            self.last = 0;
        }
        Some(task)
    }
}

#[derive(Clone, Copy)]
struct Semaphore {
    domain: i32,
    count: u32,
    max: u32,
    vector: Vector,
    waiters: WaitQueue,
}

const NO_SEMAPHORE: Semaphore =
    Semaphore { domain: 0, count: 0, max: 0, vector: Vector::KERNEL, waiters: WaitQueue::empty(false) };

/// A data queue; its ring buffer is a part of the kernel's words. Its receivers stand first come, whatever its attribute.
#[derive(Clone, Copy)]
struct Queue {
    domain: i32,
    start: u32,
    capacity: u32,
    oldest: u32,
    count: u32,
    vector: Vector,
    senders: WaitQueue,
    receivers: WaitQueue,
}

const NO_QUEUE: Queue = Queue {
    domain: 0,
    start: 0,
    capacity: 0,
    oldest: 0,
    count: 0,
    vector: Vector::KERNEL,
    senders: WaitQueue::empty(false),
    receivers: WaitQueue::empty(false),
};

impl Queue {
    /// One subtraction wraps the place, as both numbers are below the capacity.
    fn place(&self, behind: u32) -> usize {
        let mut place = self.oldest + behind;
        if place >= self.capacity {
            place -= self.capacity;
        }
        (self.start + place) as usize
    }

    fn push(&mut self, words: &mut [u32; MAX_WORDS], word: u32) {
        words[self.place(self.count)] = word;
        self.count += 1;
    }

    fn pop(&mut self, words: &[u32; MAX_WORDS]) -> u32 {
        let word = words[self.place(0)];
        self.oldest = if self.oldest + 1 == self.capacity { 0 } else { self.oldest + 1 };
        self.count -= 1;
        word
    }
}

#[derive(Clone, Copy)]
struct Region {
    domain: i32,
    base: u32,
    size: u32,
    atr: u32,
    vector: Vector,
    /// The end of the chain from here on: regions that touch and are equal count as one.
    chain_end: u64,
}

const NO_REGION: Region = Region { domain: 0, base: 0, size: 0, atr: 0, vector: Vector::KERNEL, chain_end: 0 };

impl Region {
    /// An end may be 2^32, which needs the wider type.
    fn end(&self) -> u64 {
        u64::from(self.base) + u64::from(self.size)
    }

    fn holds(&self, base: u32) -> bool {
        self.base <= base && base - self.base < self.size
    }

    fn joins(&self, next: &Region) -> bool {
        let equal = |r: &Region| (r.domain, r.atr, r.vector);
        self.end() == u64::from(next.base) && equal(self) == equal(next)
    }
}

/// The whole kernel; the domain of a semaphore or queue is kept to be shown only.
#[derive(Clone)]
pub struct Kernel {
    domains: i32,
    unit: u32,
    closed: bool,
    tasks: Table<Task, MAX_TASKS>,
    semaphores: Table<Semaphore, MAX_SEMAPHORES>,
    queues: Table<Queue, MAX_QUEUES>,
    regions: Table<Region, MAX_REGIONS>,
    words: [u32; MAX_WORDS],
    words_used: u32,
}

/// Building the table.
impl Kernel {
    /// A constant, so that a host's kernel can be set up without a copy.
    pub const EMPTY: Kernel = Kernel {
        domains: 0,
        unit: 1,
        closed: false,
        tasks: Table::empty(NO_TASK),
        semaphores: Table::empty(NO_SEMAPHORE),
        queues: Table::empty(NO_QUEUE),
        regions: Table::empty(NO_REGION),
        words: [0; MAX_WORDS],
        words_used: 0,
    };

    /// Starts anew; a refused n or unit leaves the empty table for n = 0 and unit 1.
    pub fn fresh(&mut self, n: i32, unit: u32) -> Check {
        *self = Kernel::EMPTY;
        ensure((0..=MAX_DOMAINS).contains(&n), E_PAR)?;
        ensure(unit.is_power_of_two() && unit <= MAX_UNIT, E_PAR)?;
        self.domains = n;
        self.unit = unit;
        Ok(())
    }

    fn is_user(&self, domain: i32) -> bool {
        (1..=self.domains).contains(&domain)
    }

    /// The checks that all kinds of entries have in common.
    fn check_entry<T, const N: usize>(&self, kind: &Table<T, N>, domain: i32) -> Check {
        ensure(!self.closed, E_CTX)?;
        ensure(kind.count < N, E_NOID)?;
        ensure(domain == TDOM_KERNEL || domain == TDOM_NONE || self.is_user(domain), E_ID)
    }

    pub fn add_task(&mut self, domain: i32, priority: u32) -> Check {
        self.check_entry(&self.tasks, domain)?;
        ensure(domain != TDOM_NONE, E_ID)?;
        ensure((MIN_PRIORITY..=MAX_PRIORITY).contains(&priority), E_PAR)?;
        self.tasks.add(Task { domain, priority: priority as u8, ..NO_TASK });
        Ok(())
    }

    pub fn add_semaphore(&mut self, domain: i32, atr: u32, start: u32, max: u32, vector: Option<Vector>) -> Check {
        self.check_entry(&self.semaphores, domain)?;
        let waiters = WaitQueue::empty(by_priority(atr)?);
        ensure((1..=MAX_SEMAPHORE_COUNT).contains(&max) && start <= max, E_PAR)?;
        let vector = vector.unwrap_or(Vector::default_of(domain));
        self.semaphores.add(Semaphore { domain, count: start, max, vector, waiters });
        Ok(())
    }

    pub fn add_queue(&mut self, domain: i32, atr: u32, capacity: u32, vector: Option<Vector>) -> Check {
        self.check_entry(&self.queues, domain)?;
        let senders = WaitQueue::empty(by_priority(atr)?);
        ensure(capacity <= MAX_QUEUE_CAPACITY, E_PAR)?;
        let start = self.words_used;
        ensure(start + capacity <= MAX_WORDS as u32, E_NOMEM)?;
        self.words_used += capacity;
        let vector = vector.unwrap_or(Vector::default_of(domain));
        self.queues.add(Queue { domain, start, capacity, vector, senders, ..NO_QUEUE });
        Ok(())
    }

    /// The regions that the last one is joined to, directly or by others, end where it ends.
    fn lengthen_chain(&mut self) {
        let regions = &mut self.regions.entries[..self.regions.count];
        for next in (1..regions.len()).rev() {
            if !regions[next - 1].joins(&regions[next]) {
                return;
            }
            regions[next - 1].chain_end = regions[next].chain_end;
        }
    }

    pub fn add_region(&mut self, domain: i32, atr: u32, base: u32, size: u32, vector: Option<Vector>) -> Check {
        self.check_entry(&self.regions, domain)?;
        ensure(atr & !(TA_RO | TA_EXEC) == 0, E_RSATR)?;
        let mut region =
            Region { domain, base, size, atr, vector: vector.unwrap_or(Vector::default_of(domain)), chain_end: 0 };
        ensure(size > 0 && region.end() <= ADDRESSES, E_PAR)?;
        ensure(base % self.unit == 0 && size % self.unit == 0, E_PAR)?;
        let end_before = self.regions.entries[..self.regions.count].last().map_or(0, Region::end);
        ensure(u64::from(base) >= end_before, E_OBJ)?;
        region.chain_end = region.end();
        self.regions.add(region);
        self.lengthen_chain();
        Ok(())
    }

    pub fn close(&mut self) -> Check {
        ensure(!self.closed, E_CTX)?;
        self.closed = true;
        Ok(())
    }
}

/// The calls.
impl Kernel {
    /// The caller's index: a ready task of a closed table.
    fn caller(&self, caller: i32) -> Result<usize, Er> {
        let task = self.tasks.index(caller).map_err(|_| E_CTX)?;
        ensure(self.closed && !self.tasks.entries[task].waiting, E_CTX)?;
        Ok(task)
    }

    /// The checks before every call on an object; gives the caller's and the object's index.
    fn checked<T: Copy, const N: usize>(
        &self,
        caller: i32,
        kind: &Table<T, N>,
        id: i32,
        pattern: impl Fn(&T) -> u32,
    ) -> Result<(usize, usize), Er> {
        let task = self.caller(caller)?;
        let object = kind.index(id)?;
        ensure(admits(pattern(&kind.entries[object]), self.tasks.entries[task].running_domain()), E_OACV)?;
        Ok((task, object))
    }

    pub fn sig_sem(&mut self, caller: i32, semid: i32) -> Result<Done, Er> {
        let (_, sem) = self.checked(caller, &self.semaphores, semid, |s| s.vector.normal1)?;
        let sem = &mut self.semaphores.entries[sem];
        if let Some(waiter) = sem.waiters.release(&mut self.tasks.entries) {
            return Ok(Done::releasing(waiter, 0));
        }
        ensure(sem.count < sem.max, E_QOVR)?;
        sem.count += 1;
        Ok(Done::OK)
    }

    fn take(&mut self, caller: i32, semid: i32, patient: bool) -> Result<Done, Er> {
        let (task, sem) = self.checked(caller, &self.semaphores, semid, |s| s.vector.normal2)?;
        let sem = &mut self.semaphores.entries[sem];
        if sem.count > 0 {
            sem.count -= 1;
            return Ok(Done::OK);
        }
        ensure(patient, E_TMOUT)?;
        sem.waiters.join(&mut self.tasks.entries, task);
        Ok(Done::WAITING)
    }

    pub fn pol_sem(&mut self, caller: i32, semid: i32) -> Result<Done, Er> {
        self.take(caller, semid, false)
    }

    pub fn wai_sem(&mut self, caller: i32, semid: i32) -> Result<Done, Er> {
        self.take(caller, semid, true)
    }

    pub fn ref_sem(&self, caller: i32, semid: i32) -> Result<Referred, Er> {
        let (_, sem) = self.checked(caller, &self.semaphores, semid, |s| s.vector.reference)?;
        let Semaphore { waiters, count, vector, .. } = self.semaphores.entries[sem];
        Ok(Referred { first_waiter: waiters.first.into(), first_receiver: 0, count, vector })
    }

    pub fn sac_sem(&mut self, caller: i32, semid: i32, vector: Vector) -> Result<Done, Er> {
        let (_, sem) = self.checked(caller, &self.semaphores, semid, |s| s.vector.management)?;
        self.semaphores.entries[sem].vector = vector;
        Ok(Done::OK)
    }

    fn send(&mut self, caller: i32, dtqid: i32, word: u32, patient: bool) -> Result<Done, Er> {
        let (task, queue) = self.checked(caller, &self.queues, dtqid, |q| q.vector.normal1)?;
        let queue = &mut self.queues.entries[queue];
        if let Some(receiver) = queue.receivers.release(&mut self.tasks.entries) {
            return Ok(Done::releasing(receiver, word));
        }
        if queue.count < queue.capacity {
            queue.push(&mut self.words, word);
            return Ok(Done::OK);
        }
        ensure(patient, E_TMOUT)?;
        self.tasks.entries[task].word = word;
        queue.senders.join(&mut self.tasks.entries, task);
        Ok(Done::WAITING)
    }

    pub fn psnd_dtq(&mut self, caller: i32, dtqid: i32, word: u32) -> Result<Done, Er> {
        self.send(caller, dtqid, word, false)
    }

    pub fn snd_dtq(&mut self, caller: i32, dtqid: i32, word: u32) -> Result<Done, Er> {
        self.send(caller, dtqid, word, true)
    }

    /// Forced send never waits: a full buffer loses its oldest word, whoever else waits to send.
    pub fn fsnd_dtq(&mut self, caller: i32, dtqid: i32, word: u32) -> Result<Done, Er> {
        let (_, queue) = self.checked(caller, &self.queues, dtqid, |q| q.vector.normal1)?;
        let queue = &mut self.queues.entries[queue];
        ensure(queue.capacity > 0, E_ILUSE)?;
        if let Some(receiver) = queue.receivers.release(&mut self.tasks.entries) {
            return Ok(Done::releasing(receiver, word));
        }
        if queue.count == queue.capacity {
            queue.pop(&self.words);
        }
        queue.push(&mut self.words, word);
        Ok(Done::OK)
    }

    /// What a forced send meets at a queue once its checks are passed: no call, only to count what random calls came upon.
    pub fn forced_meets(&self, dtqid: i32) -> &'static str {
        let Ok(queue) = self.queues.index(dtqid) else { return "no queue" };
        let Queue { capacity, count, senders, receivers, .. } = self.queues.entries[queue];
        match (capacity, receivers.first, capacity - count, senders.first) {
            (0, 0, ..) => "capacity 0",
            (0, ..) => "capacity 0, receiver waits",
            (1.., 1.., ..) => "receiver waits",
            (.., 1.., _) => "room",
            (.., 0) => "full",
            _ => "full, sender waits",
        }
    }

    fn receive(&mut self, caller: i32, dtqid: i32, patient: bool) -> Result<Done, Er> {
        let (task, queue) = self.checked(caller, &self.queues, dtqid, |q| q.vector.normal2)?;
        let queue = &mut self.queues.entries[queue];
        let oldest = (queue.count > 0).then(|| queue.pop(&self.words));
        if let Some(sender) = queue.senders.release(&mut self.tasks.entries) {
            let sent = self.tasks.entries[sender].word;
            // With capacity 0 there is no oldest word, and the sender's own is handed out.
            if oldest.is_some() {
                queue.push(&mut self.words, sent);
            }
            return Ok(Done { word: oldest.unwrap_or(sent), ..Done::releasing(sender, 0) });
        }
        if let Some(word) = oldest {
            return Ok(Done { word, ..Done::OK });
        }
        ensure(patient, E_TMOUT)?;
        queue.receivers.join(&mut self.tasks.entries, task);
        Ok(Done::WAITING)
    }

    pub fn prcv_dtq(&mut self, caller: i32, dtqid: i32) -> Result<Done, Er> {
        self.receive(caller, dtqid, false)
    }

    pub fn rcv_dtq(&mut self, caller: i32, dtqid: i32) -> Result<Done, Er> {
        self.receive(caller, dtqid, true)
    }

    pub fn ref_dtq(&self, caller: i32, dtqid: i32) -> Result<Referred, Er> {
        let (_, queue) = self.checked(caller, &self.queues, dtqid, |q| q.vector.reference)?;
        let Queue { senders, receivers, count, vector, .. } = self.queues.entries[queue];
        Ok(Referred { first_waiter: senders.first.into(), first_receiver: receivers.first.into(), count, vector })
    }

    pub fn sac_dtq(&mut self, caller: i32, dtqid: i32, vector: Vector) -> Result<Done, Er> {
        let (_, queue) = self.checked(caller, &self.queues, dtqid, |q| q.vector.management)?;
        self.queues.entries[queue].vector = vector;
        Ok(Done::OK)
    }

    /// Enters an extended service call: until it is left, the caller counts as the kernel domain.
    pub fn cal_svc(&mut self, caller: i32) -> Result<Done, Er> {
        let task = self.caller(caller)?;
        let level = &mut self.tasks.entries[task].level;
        ensure(*level < MAX_LEVEL, E_SYS)?;
        *level += 1;
        Ok(Done::OK)
    }

    /// Leaves the extended service call that was entered last.
    pub fn ret_svc(&mut self, caller: i32) -> Result<Done, Er> {
        let task = self.caller(caller)?;
        let level = &mut self.tasks.entries[task].level;
        ensure(*level > 0, E_CTX)?;
        *level -= 1;
        Ok(Done::OK)
    }

    /// What entering or leaving meets at its caller: no call, only to count what random calls came upon.
    pub fn service_meets(&self, caller: i32) -> &'static str {
        let Ok(task) = self.tasks.index(caller) else { return "no task" };
        let Task { waiting, level, .. } = self.tasks.entries[task];
        match (self.closed, waiting, level) {
            (false, ..) => "open table",
            (_, true, 0) => "waits, level 0",
            (_, true, MAX_LEVEL) => "waits, level 255",
            (_, true, _) => "waits inside",
            (.., 0) => "level 0",
            (.., MAX_LEVEL) => "level 255",
            _ => "inside",
        }
    }

    /// The index of the region that holds an address, by a walk from the first.
    pub fn region_of(&self, address: u32) -> Option<usize> {
        self.regions.entries[..self.regions.count].iter().position(|region| region.holds(address))
    }

    /// The memory verdict: the region that holds the base decides, with the chain from there on.
    pub fn prb_mem(&self, domain: i32, base: u32, size: u32, wish: u32) -> Check {
        ensure(self.closed, E_CTX)?;
        ensure(domain == TDOM_KERNEL || self.is_user(domain), E_ID)?;
        let end = u64::from(base) + u64::from(size);
        ensure(size > 0 && wish != 0 && wish & !TPM_ALL == 0 && end <= ADDRESSES, E_PAR)?;
        let region = &self.regions.entries[self.region_of(base).ok_or(E_NOEXS)?];
        ensure(end <= region.chain_end, E_OBJ)?;
        let write = region.atr & TA_RO == 0 && admits(region.vector.normal1, domain);
        let read = admits(region.vector.normal2, domain);
        let execute = read && region.atr & TA_EXEC != 0;
        let granted = [(TPM_WRITE, write), (TPM_READ, read), (TPM_EXEC, execute)];
        ensure(granted.iter().all(|&(asked, given)| given || wish & asked == 0), E_MACV)
    }
}
