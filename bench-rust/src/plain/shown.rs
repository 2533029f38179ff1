//! The whole state as lines of text, in the form of a `dump` by the program `replay`; who waits where, and who is inside an extended
//! service call.

use super::*;

/// Where tasks wait.
#[derive(Clone, Copy, Debug, PartialEq, Eq, PartialOrd, Ord)]
pub enum Place {
    Semaphore,
    Sending,
    Receiving,
}

impl WaitQueue {
    fn numbers(self, tasks: &[Task; MAX_TASKS]) -> Vec<u32> {
        let (mut numbers, mut next) = (Vec::new(), self.first);
        while next != 0 {
            numbers.push(u32::from(next));
            next = tasks[usize::from(next) - 1].next;
        }
        numbers
    }

    fn attribute(self) -> u32 {
        if self.by_priority {
            TA_TPRI
        } else {
            TA_TFIFO
        }
    }
}

fn list<T: ToString>(items: impl IntoIterator<Item = T>) -> String {
    items.into_iter().map(|item| item.to_string()).collect::<Vec<_>>().join(",")
}

impl Vector {
    fn patterns(self) -> String {
        list([self.normal1, self.normal2, self.management, self.reference])
    }
}

impl<T, const N: usize> Table<T, N> {
    /// Numbers and records.
    fn numbered(&self) -> impl Iterator<Item = (usize, &T)> {
        (1..).zip(&self.entries[..self.count])
    }
}

impl Kernel {
    fn task(&self, number: u32) -> &Task {
        &self.tasks.entries[number as usize - 1]
    }

    fn queue_at(&self, place: Place, id: i32) -> Option<WaitQueue> {
        match place {
            Place::Semaphore => self.semaphores.index(id).ok().map(|sem| self.semaphores.entries[sem].waiters),
            Place::Sending => self.queues.index(id).ok().map(|queue| self.queues.entries[queue].senders),
            Place::Receiving => self.queues.index(id).ok().map(|queue| self.queues.entries[queue].receivers),
        }
    }

    /// Tasks that wait at a place of an object, first to last, and whether they stand by priority.
    pub fn waiters(&self, place: Place, id: i32) -> (Vec<u32>, bool) {
        let queue = self.queue_at(place, id).unwrap_or(WaitQueue::empty(false));
        (queue.numbers(&self.tasks.entries), queue.by_priority)
    }

    /// Tasks that do not wait.
    pub fn ready(&self) -> Vec<i32> {
        self.tasks.numbered().filter(|(_, task)| !task.waiting).map(|(number, _)| number as i32).collect()
    }

    pub fn priority(&self, task: u32) -> u32 {
        self.task(task).priority.into()
    }

    /// The base and the end of each region.
    pub fn borders(&self) -> Vec<u64> {
        self.regions.numbered().flat_map(|(_, region)| [region.base.into(), region.end()]).collect()
    }

    /// How many extended service calls a task is inside; 0 where there is no such task.
    pub fn level(&self, task: i32) -> u8 {
        self.tasks.index(task).map_or(0, |task| self.tasks.entries[task].level)
    }

    /// Whether a task's call is admitted only because the task is inside an extended service call: the same call on a copy, in which it
    /// has left them all, is denied.
    pub fn lifts<T>(&self, task: i32, call: impl Fn(&mut Kernel) -> Result<T, Er>) -> bool {
        if self.level(task) == 0 {
            return false;
        }
        let mut outside = self.clone();
        while outside.ret_svc(task).is_ok() {}
        matches!(call(&mut outside), Err(E_OACV))
    }

    /// What each task does, told by the wait queues.
    fn states(&self) -> Vec<String> {
        let mut states = vec!["ready".to_string(); self.tasks.count];
        let mut at = |waiters: WaitQueue, state: &dyn Fn(&Task) -> String| {
            for number in waiters.numbers(&self.tasks.entries) {
                states[number as usize - 1] = state(self.task(number));
            }
        };
        for (id, sem) in self.semaphores.numbered() {
            at(sem.waiters, &|_| format!("sem={id}"));
        }
        for (id, queue) in self.queues.numbered() {
            at(queue.receivers, &|_| format!("receiving={id}"));
            at(queue.senders, &|task| format!("sending={id} word={}", task.word));
        }
        for ((number, task), state) in self.tasks.numbered().zip(&states) {
            assert_eq!(task.waiting, state != "ready", "task {number}: its record and the wait queues");
        }
        states
    }

    fn buffer(&self, queue: &Queue) -> String {
        list((0..queue.count).map(|behind| self.words[queue.place(behind)]))
    }

    fn senders(&self, queue: &Queue) -> String {
        let numbers = queue.senders.numbers(&self.tasks.entries);
        list(numbers.into_iter().map(|number| format!("{number}:{}", self.task(number).word)))
    }

    /// The lines of a dump.
    pub fn dump(&self) -> Vec<String> {
        let Kernel { domains, closed, tasks, semaphores, queues, regions, unit, .. } = self;
        let counts =
            format!("tasks={} sems={} dtqs={} mems={}", tasks.count, semaphores.count, queues.count, regions.count);
        let mut lines = vec![format!("n={domains} closed={} {counts} unit={unit}", u32::from(*closed))];
        lines.extend(tasks.numbered().zip(self.states()).map(|((id, task), state)| {
            format!("  task {id} domain={} {state} level={} priority={}", task.domain, task.level, task.priority)
        }));
        lines.extend(semaphores.numbered().map(|(id, Semaphore { domain, count, max, vector, waiters })| {
            let (vector, numbers) = (vector.patterns(), list(waiters.numbers(&tasks.entries)));
            let attribute = waiters.attribute();
            format!(
                "  sem {id} domain={domain} count={count} max={max} vector={vector} waiters={numbers} attr={attribute}"
            )
        }));
        lines.extend(queues.numbered().map(|(id, queue)| {
            let Queue { domain, capacity, vector, senders, receivers, .. } = queue;
            let head = format!("  dtq {id} domain={domain} capacity={capacity} vector={}", vector.patterns());
            let (buffer, numbers) = (self.buffer(queue), list(receivers.numbers(&tasks.entries)));
            let waiting = format!("senders={} receivers={numbers}", self.senders(queue));
            format!("{head} buffer={buffer} {waiting} attr={}", senders.attribute())
        }));
        lines.extend(regions.numbered().map(|(id, Region { domain, base, size, atr, vector, .. })| {
            format!("  mem {id} domain={domain} attr={atr} base={base} size={size} vector={}", vector.patterns())
        }));
        lines
    }
}
