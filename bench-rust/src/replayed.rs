//! Random tables, calls, verdicts and hand-outs as commands of the program `replay`; every line of its output must be
//! what the ordinary kernel says.

mod images;

use crate::compare::Random;
use crate::plain::*;
use std::collections::BTreeMap;
use std::io::Write;
use std::process::{Command, Stdio};

const SEED: u64 = 88_172_645_463_325_252;
const SCRIPTS: u32 = 600;
const PROGRAM: &str = "../crates/replay/out/replay";

const ENDS: [i32; 12] = [i32::MIN, -3, -2, -1, 0, 17, 33, 64, 65, 255, 256, i32::MAX];

/// Tasks that a table has from the start, some of them the kernel's: enough for any crowd, or few.
const TASKS: [usize; 6] = [8, 8, 8, 24, 60, MAX_TASKS];

/// Priorities out of which a table's tasks have theirs: all, few, one only.
const PRIORITIES: [&[u32]; 5] = [
    &[1, 2, 3, 4, 5, 6, 7, 8, 9, 10, 11, 12, 13, 14, 15, 16],
    &[1, 2, 3, 4, 5, 6, 7, 8, 9, 10, 11, 12, 13, 14, 15, 16],
    &[1, 16],
    &[4, 4, 5],
    &[7],
];
/// Some of them are good but for bits above the low 8 or 16.
const NO_PRIORITIES: [u32; 7] = [0, 0, MAX_PRIORITY + 1, MAX_PRIORITY + 1, 257, 0x1_0001, u32::MAX];

/// Words behind `task` that are no entry, and why.
const BAD_TASKS: [(&str, &str); 5] = [
    ("", "1 or 2 numbers wanted, 0 given"),
    (" 1 2 3", "1 or 2 numbers wanted, 3 given"),
    (" 1 -1", "out of range: -1"),
    (" 1 4294967296", "out of range: 4294967296"),
    (" 1 x", "no number: x"),
];

/// Words behind `cal_svc` or `ret_svc` that are no call, and why.
const BAD_SERVICES: [(&str, &str); 5] = [
    ("", "1 number wanted, 0 given"),
    (" 1 1", "1 number wanted, 2 given"),
    (" 2147483648", "out of range: 2147483648"),
    (" -2147483649", "out of range: -2147483649"),
    (" 1x", "no number: 1x"),
];

/// Attributes of a semaphore or queue that are refused.
const NO_ATTRIBUTES: [u32; 6] = [2, 3, 4, 5, 0x1_0001, u32::MAX];

/// How many calls of a domain a pattern admitted, how many it denied, and how many it would have denied, but for the caller's level.
#[derive(Clone, Copy, Default)]
struct Judged {
    admitted: u32,
    denied: u32,
    lifted: u32,
}

/// Commands, and the lines that `replay` is to write for them.
#[derive(Default)]
struct Script {
    commands: String,
    lines: Vec<String>,
    /// User domains that its entries and verdicts are for, and the domain of each task taken.
    domains: usize,
    tasks: Vec<i32>,
    priorities: &'static [u32],
    judged: BTreeMap<i32, Judged>,
    /// What came of calls that only their callers' level admitted, and what entering and leaving met.
    lifted: BTreeMap<String, u32>,
    services: BTreeMap<(&'static str, &'static str), u32>,
    /// What the forced sends met that passed their checks.
    forced: BTreeMap<&'static str, u32>,
    /// Where those that began to wait stood then, and the most that waited at one place.
    joined: BTreeMap<(Place, &'static str), u32>,
    longest: usize,
    dumps: u32,
    /// What hand-outs met: the code and its reason.
    handed: BTreeMap<(&'static str, &'static str), u32>,
}

impl Script {
    fn add(&mut self, command: String, answer: String) {
        self.lines.push(format!("{command} -> {answer}"));
        self.commands.push_str(&command);
        self.commands.push('\n');
    }

    fn add_task(&mut self, random: &mut Random, kernel: &mut Kernel, domain: i32) {
        if random.one_in(100) {
            let (words, reason) = random.pick(&BAD_TASKS);
            self.add(format!("task{words}"), format!("bad line: {reason}"));
        }
        let good = random.pick(self.priorities);
        let priority = random.mostly(good, 30, &NO_PRIORITIES);
        let given = random.mostly(Some(priority), 12, &[None]);
        let answer = kernel.add_task(domain, given.unwrap_or(1));
        if answer.is_ok() {
            self.tasks.push(domain);
        }
        let priority = given.map_or(String::new(), |priority| format!(" {priority}"));
        self.add(format!("task {domain}{priority}"), code(answer));
    }

    fn dump(&mut self, kernel: &Kernel) {
        let mut lines = kernel.dump().into_iter();
        self.add("dump".to_string(), lines.next().expect("a first line"));
        self.lines.extend(lines);
        self.dumps += 1;
    }

    /// A ready task, of the kernel if there is one, which every object admits.
    fn keeper(&self, kernel: &Kernel) -> i32 {
        let ready = kernel.ready();
        let of_kernel = |task: &&i32| self.tasks[**task as usize - 1] == TDOM_KERNEL;
        ready.iter().find(of_kernel).or(ready.first()).copied().unwrap_or(1)
    }

    /// Where a task stands that began to wait.
    fn count_joined(&mut self, kernel: &Kernel, place: Place, id: i32, task: i32) {
        let (waiters, by_priority) = kernel.waiters(place, id);
        let at = waiters.iter().position(|&waiter| waiter == task as u32).expect("it waits");
        let last = at + 1 == waiters.len();
        let priority = kernel.priority(task as u32);
        let ahead = at.checked_sub(1).map_or(0, |ahead| kernel.priority(waiters[ahead]));
        let stands = match (by_priority, at, last) {
            (_, 0, true) => "alone",
            (true, 0, _) => "before all, more urgent",
            (true, _, false) if ahead == priority => "between, behind an equal",
            (true, _, false) => "between",
            (true, ..) if ahead == priority => "last, behind an equal",
            (true, ..) => "last, less urgent",
            (false, _, false) => panic!("first come, and not the last"),
            (false, ..) if ahead > priority && kernel.waiters(Place::Sending, id).1 && place == Place::Receiving => {
                "first come at a queue by priority, though more urgent"
            }
            (false, ..) if ahead > priority => "first come, though more urgent",
            (false, ..) => "first come",
        };
        *self.joined.entry((place, stands)).or_default() += 1;
        self.longest = self.longest.max(waiters.len());
    }

    /// Makes a task's call, writes it down, and counts what the pattern said of its domain.
    fn make<T: Copy>(
        &mut self,
        kernel: &mut Kernel,
        task: i32,
        command: String,
        call: impl Fn(&mut Kernel) -> Result<T, Er>,
        shown: impl Fn(Result<T, Er>) -> String,
    ) -> Result<T, Er> {
        let (inside, lifted) = (kernel.level(task) > 0, kernel.lifts(task, &call));
        let answer = call(kernel);
        let line = shown(answer);
        let place = usize::try_from(task).ok().and_then(|number| number.checked_sub(1));
        let judged = match place.and_then(|place| self.tasks.get(place)) {
            Some(&domain) => self.judged.entry(domain).or_default(),
            None => &mut Judged::default(),
        };
        match answer.err() {
            Some(E_CTX | E_ID | E_NOEXS) => {}
            Some(E_OACV) => judged.denied += 1,
            _ if lifted => {
                judged.lifted += 1;
                let outcome = line.split(' ').next().unwrap_or_default();
                *self.lifted.entry(outcome.to_string()).or_default() += 1;
            }
            _ => judged.admitted += u32::from(!inside),
        }
        self.add(command, line);
        answer
    }

    /// A call that may wait: on a semaphore, to send the word, or to receive.
    fn wait(&mut self, kernel: &mut Kernel, place: Place, task: i32, id: i32, word: u32) -> Result<Done, Er> {
        let command = match place {
            Place::Semaphore => format!("wai_sem {task} {id}"),
            Place::Sending => format!("snd_dtq {task} {id} {word}"),
            Place::Receiving => format!("rcv_dtq {task} {id}"),
        };
        let wait = |kernel: &mut Kernel| match place {
            Place::Semaphore => kernel.wai_sem(task, id),
            Place::Sending => kernel.snd_dtq(task, id, word),
            Place::Receiving => kernel.rcv_dtq(task, id),
        };
        let answer = self.make(kernel, task, command, wait, call);
        if answer.is_ok_and(|done| done.waiting) {
            self.count_joined(kernel, place, id, task);
        }
        answer
    }

    /// The call that releases one of those who wait at a place.
    fn release(&mut self, kernel: &mut Kernel, place: Place, task: i32, id: i32, word: u32) -> Result<Done, Er> {
        let command = match place {
            Place::Semaphore => format!("sig_sem {task} {id}"),
            Place::Sending => format!("prcv_dtq {task} {id}"),
            Place::Receiving => format!("psnd_dtq {task} {id} {word}"),
        };
        let release = |kernel: &mut Kernel| match place {
            Place::Semaphore => kernel.sig_sem(task, id),
            Place::Sending => kernel.prcv_dtq(task, id),
            Place::Receiving => kernel.psnd_dtq(task, id, word),
        };
        self.make(kernel, task, command, release, call)
    }

    fn refer(&mut self, kernel: &mut Kernel, place: Place, task: i32, id: i32) {
        let _ = match place {
            Place::Semaphore => {
                let shown = |answer| refer(answer, "waiter", None);
                self.make(kernel, task, format!("ref_sem {task} {id}"), |kernel| kernel.ref_sem(task, id), shown)
            }
            _ => {
                let shown = |answer| refer(answer, "sender", Some("receiver"));
                self.make(kernel, task, format!("ref_dtq {task} {id}"), |kernel| kernel.ref_dtq(task, id), shown)
            }
        };
    }

    /// Whether the forced send was taken.
    fn force(&mut self, kernel: &mut Kernel, task: i32, id: i32, word: u32) -> bool {
        let meets = kernel.forced_meets(id);
        let command = format!("fsnd_dtq {task} {id} {word}");
        let answer = self.make(kernel, task, command, |kernel| kernel.fsnd_dtq(task, id, word), call);
        if matches!(answer, Ok(_) | Err(E_ILUSE)) {
            *self.forced.entry(meets).or_default() += 1;
        }
        answer.is_ok()
    }

    /// Enters an extended service call.
    fn enter(&mut self, kernel: &mut Kernel, task: i32) -> Result<Done, Er> {
        *self.services.entry(("entering", kernel.service_meets(task))).or_default() += 1;
        let answer = kernel.cal_svc(task);
        self.add(format!("cal_svc {task}"), call(answer));
        answer
    }

    /// Leaves one.
    fn leave(&mut self, kernel: &mut Kernel, task: i32) -> Result<Done, Er> {
        *self.services.entry(("leaving", kernel.service_meets(task))).or_default() += 1;
        let answer = kernel.ret_svc(task);
        self.add(format!("ret_svc {task}"), call(answer));
        answer
    }

    fn user(&self, random: &mut Random) -> i32 {
        random.below(self.domains) as i32 + 1
    }
}

fn name(code: Er) -> &'static str {
    match code {
        E_OK => "E_OK",
        E_SYS => "E_SYS",
        E_RSATR => "E_RSATR",
        E_PAR => "E_PAR",
        E_ID => "E_ID",
        E_CTX => "E_CTX",
        E_MACV => "E_MACV",
        E_OACV => "E_OACV",
        E_ILUSE => "E_ILUSE",
        E_NOMEM => "E_NOMEM",
        E_NOID => "E_NOID",
        E_OBJ => "E_OBJ",
        E_NOEXS => "E_NOEXS",
        E_QOVR => "E_QOVR",
        E_TMOUT => "E_TMOUT",
        _ => panic!("{code} is no code"),
    }
}

fn code(checked: Check) -> String {
    name(checked.err().unwrap_or(E_OK)).to_string()
}

fn call(answer: Result<Done, Er>) -> String {
    let (outcome, word, released) = match answer {
        Err(code) => (name(code), 0, None),
        Ok(done) => (if done.waiting { "waiting" } else { "E_OK" }, done.word, done.released),
    };
    let (task, handed) = released.map_or((0, 0), |released| (released.task, released.word));
    format!("{outcome} word={word} released={task}:{handed}")
}

fn patterns(vector: Vector, between: &str) -> String {
    [vector.normal1, vector.normal2, vector.management, vector.reference].map(|p| p.to_string()).join(between)
}

fn given(vector: Option<Vector>) -> String {
    vector.map_or(String::new(), |vector| format!(" {}", patterns(vector, " ")))
}

fn refer(answer: Result<Referred, Er>, first: &str, second: Option<&str>) -> String {
    let code = name(*answer.as_ref().err().unwrap_or(&E_OK));
    let (waiter, receiver, count, vector) = match answer {
        Err(_) => (0, 0, 0, Vector::new(0, 0, 0, 0)),
        Ok(r) => (r.first_waiter, r.first_receiver, r.count, r.vector),
    };
    let receiver = second.map_or(String::new(), |second| format!(" {second}={receiver}"));
    format!("{code} {first}={waiter}{receiver} count={count} vector={}", patterns(vector, ","))
}

/// Patterns of every number of bits: half of all domains, most of them, all but one, two or three, one or none.
fn random_pattern(random: &mut Random) -> u32 {
    let bit = |random: &mut Random| 1 << random.below(u32::BITS as usize);
    match random.below(10) {
        0 | 1 => random.next(),
        2 | 3 => random.next() | random.next() | 3,
        4 | 5 => !bit(random),
        6 => bit(random) | bit(random) | bit(random),
        7 => random.pick(&[3, 3, 0x0001_0003, 0x4000_0004, 0xC000_0000, 0x8001_0000]),
        _ => random.pick(&[0, 1, 2, 3, u32::MAX, u32::MAX, 0x8000_0000]),
    }
}

fn random_vector(random: &mut Random) -> Vector {
    let mut pattern = || random_pattern(random);
    Vector::new(pattern(), pattern(), pattern(), pattern())
}

/// What regions must be equal in to be joined.
#[derive(Clone, Copy, Default)]
struct Protection {
    domain: i32,
    atr: u32,
    vector: Option<Vector>,
}

fn with_another_pattern(random: &mut Random, vector: Vector) -> Vector {
    let mut patterns = [vector.normal1, vector.normal2, vector.management, vector.reference];
    patterns[random.below(patterns.len())] ^= 1 << random.below(u32::BITS as usize);
    let [normal1, normal2, management, reference] = patterns;
    Vector::new(normal1, normal2, management, reference)
}

impl Protection {
    /// Half of the time this one again, or this one but for one thing.
    fn next(self, random: &mut Random, new: Protection) -> Protection {
        match random.below(10) {
            0..=4 => self,
            5 => Protection { domain: new.domain, ..self },
            6 => Protection { atr: new.atr, ..self },
            7 => Protection { vector: self.vector.map(|vector| with_another_pattern(random, vector)), ..self },
            _ => new,
        }
    }
}

/// The region taken last.
#[derive(Default)]
struct Last {
    end: u32,
    protection: Protection,
}

impl Last {
    /// Base and size of a region, for the most part one that touches this one.
    fn next(&self, random: &mut Random) -> (u32, u32) {
        let odd = random.pick(&[0, 0x800, 0x1000, self.end / 2, self.end.saturating_add(1), 0xFFFF_F000, u32::MAX]);
        let base = random.mostly(self.end, 9, &[odd]);
        (base, random.mostly(0x1_0000, 3, &[0, 1, 0x800, 0x1000, 0x1001, 0x2_0000, u32::MAX]))
    }
}

/// An entry of any kind.
fn entry(random: &mut Random, kernel: &mut Kernel, script: &mut Script, last: &mut Last) {
    let user = script.user(random);
    let good = random.pick(&[TDOM_KERNEL, -2, user, user, user]);
    let domain = random.mostly(good, 9, &ENDS);
    let of_region = random.mostly(0, 10, &[1, 2, 4, 5, 8, u32::MAX]);
    let order = random.pick(&[TA_TFIFO, TA_TPRI]);
    let atr = random.mostly(order, 10, &NO_ATTRIBUTES);
    let vector = (!random.one_in(3)).then(|| random_vector(random));
    match random.below(4) {
        0 => script.add_task(random, kernel, domain),
        1 => {
            let (start, max) = (random.pick(&[0, 0, 1, 2, 65_535]), random.pick(&[0, 1, 2, 2, 65_535, 65_536]));
            let answer = code(kernel.add_semaphore(domain, atr, start, max, vector));
            script.add(format!("sem {domain} {atr} {start} {max}{}", given(vector)), answer);
        }
        2 => {
            let most = MAX_QUEUE_CAPACITY;
            let capacity = random.pick(&[0, 0, 1, 2, most, most, most, most, most + 1]);
            let answer = code(kernel.add_queue(domain, atr, capacity, vector));
            script.add(format!("dtq {domain} {atr} {capacity}{}", given(vector)), answer);
        }
        _ => {
            let (base, size) = last.next(random);
            let protection = last.protection.next(random, Protection { domain, atr: of_region, vector });
            let Protection { domain, atr, vector } = protection;
            let answer = kernel.add_region(domain, atr, base, size, vector);
            if answer.is_ok() {
                *last = Last { end: base.saturating_add(size), protection };
            }
            script.add(format!("mem {domain} {atr} {base} {size}{}", given(vector)), code(answer));
        }
    }
}

/// A region up to the end of memory, behind which there can be no other.
fn top_region(random: &mut Random, kernel: &mut Kernel, script: &mut Script) {
    let (base, size, vector) = (0xFFFF_0000, 0x1_0000, random.one_in(2).then(|| random_vector(random)));
    let answer = code(kernel.add_region(TDOM_NONE, 0, base, size, vector));
    script.add(format!("mem {TDOM_NONE} 0 {base} {size}{}", given(vector)), answer);
}

fn semaphore_call(random: &mut Random, kernel: &mut Kernel, script: &mut Script, task: i32, id: i32) {
    match random.below(6) {
        0 | 1 => _ = script.release(kernel, Place::Semaphore, task, id, 0),
        2 => {
            let command = format!("pol_sem {task} {id}");
            let _ = script.make(kernel, task, command, |kernel| kernel.pol_sem(task, id), call);
        }
        3 => _ = script.wait(kernel, Place::Semaphore, task, id, 0),
        4 => script.refer(kernel, Place::Semaphore, task, id),
        _ => {
            let vector = random_vector(random);
            let command = format!("sac_sem {task} {id} {}", patterns(vector, " "));
            let _ = script.make(kernel, task, command, |kernel| kernel.sac_sem(task, id, vector), call);
        }
    }
}

fn queue_call(random: &mut Random, kernel: &mut Kernel, script: &mut Script, task: i32, id: i32) {
    let any = random.next();
    let word = random.pick(&[0, 1, 700, u32::MAX, any, any, any]);
    match random.below(9) {
        0 | 1 => _ = script.release(kernel, Place::Receiving, task, id, word),
        2 => _ = script.wait(kernel, Place::Sending, task, id, word),
        3 => _ = script.release(kernel, Place::Sending, task, id, 0),
        4 => _ = script.wait(kernel, Place::Receiving, task, id, 0),
        5 | 6 => _ = script.force(kernel, task, id, word),
        7 => script.refer(kernel, Place::Sending, task, id),
        _ => {
            let vector = random_vector(random);
            let command = format!("sac_dtq {task} {id} {}", patterns(vector, " "));
            let _ = script.make(kernel, task, command, |kernel| kernel.sac_dtq(task, id, vector), call);
        }
    }
}

/// Entering or leaving, more often the latter, so that tasks are outside as well.
fn service_call(random: &mut Random, kernel: &mut Kernel, script: &mut Script, task: i32) {
    if random.one_in(100) {
        let ((words, reason), name) = (random.pick(&BAD_SERVICES), random.pick(&["cal_svc", "ret_svc"]));
        script.add(format!("{name}{words}"), format!("bad line: {reason}"));
    }
    let _ = match random.below(5) {
        0 | 1 => script.enter(kernel, task),
        _ => script.leave(kernel, task),
    };
}

/// A ready task enters again and again, sometimes past the highest level, and refers to an object now and then; it may wait there then,
/// and leaves as often as chance has it.
fn climb(random: &mut Random, kernel: &mut Kernel, script: &mut Script, id: i32) {
    let ready = kernel.ready();
    if ready.is_empty() {
        return;
    }
    let any = random.below(usize::from(MAX_LEVEL));
    let (task, most) = (random.pick(&ready), random.pick(&[2, 5, 20, any, 255, 300]));
    let place = random.pick(&[Place::Semaphore, Place::Sending, Place::Receiving]);
    for _ in 0..most {
        if script.enter(kernel, task) == Err(E_CTX) {
            return;
        }
        if random.one_in(10) {
            script.refer(kernel, place, task, id);
        }
    }
    if random.one_in(2) {
        let _ = script.wait(kernel, place, task, id, most as u32);
        service_call(random, kernel, script, task);
    }
    if random.one_in(4) {
        script.dump(kernel);
    }
    let some = random.below(most + 1);
    let _ = (0..random.pick(&[0, 1, some, most + 1])).all(|_| script.leave(kernel, task).is_ok());
}

/// Forced sends to one queue, some of them more than any queue can hold, then poll-receives; a refusal ends each.
fn burst(random: &mut Random, kernel: &mut Kernel, script: &mut Script) {
    let (task, id) = (random.below(TASKS[0]) as i32 + 1, random.below(8) as i32 + 1);
    let most = random.pick(&[5, 5, 20, 300]);
    let _ = (0..most).all(|word| script.force(kernel, task, id, word));
    let _ = (0..random.below(most as usize + 1)).all(|_| script.release(kernel, Place::Sending, task, id, 0).is_ok());
}

/// Tasks begin to wait at one place, one after the other, some are released in between, and then as many as chance has it.
fn crowd(random: &mut Random, kernel: &mut Kernel, script: &mut Script) {
    let place = random.pick(&[Place::Semaphore, Place::Semaphore, Place::Sending, Place::Sending, Place::Receiving]);
    let (id, most) = (random.pick(&[1, 1, 1, 2, 2, 3]), random.pick(&[4, 12, 40, 300]));
    if place == Place::Receiving {
        let keeper = script.keeper(kernel);
        // Nobody waits to receive as long as there is a word or a sender.
        let _ = (0..most).all(|_| script.release(kernel, Place::Sending, keeper, id, 0).is_ok());
    }
    for word in 0..most {
        let keeper = script.keeper(kernel);
        let ready: Vec<i32> = kernel.ready().into_iter().filter(|&task| task != keeper).collect();
        if ready.is_empty() {
            break;
        }
        let task = random.pick(&ready);
        let mut answer = script.wait(kernel, place, task, id, word);
        // Some of those who are denied come again from inside.
        if answer == Err(E_OACV) && random.one_in(3) {
            let _ = script.enter(kernel, task);
            answer = script.wait(kernel, place, task, id, word);
        }
        if matches!(answer, Err(code) if code != E_OACV) {
            return;
        }
        match random.below(60) {
            0..=5 => _ = script.release(kernel, place, keeper, id, word),
            6..=11 => script.refer(kernel, place, keeper, id),
            12 => script.dump(kernel),
            13..=18 => service_call(random, kernel, script, task),
            _ => {}
        }
    }
    for word in 0..random.below(most as usize + 1) {
        let keeper = script.keeper(kernel);
        let Ok(done) = script.release(kernel, place, keeper, id, word as u32) else { break };
        let released = done.released.map_or(0, |released| released.task as i32);
        if kernel.level(released) > 0 && !random.one_in(3) {
            let _ = script.leave(kernel, released);
        }
        match random.below(60) {
            0..=5 => script.refer(kernel, place, keeper, id),
            6 => script.dump(kernel),
            _ => {}
        }
    }
}

/// Objects that everyone is admitted to, for the most part, in either order and with little room: the first of their kinds.
fn crowded(random: &mut Random, kernel: &mut Kernel, script: &mut Script) {
    for _ in 0..2 {
        let (atr, vector) = (random.pick(&[TA_TFIFO, TA_TPRI]), random.one_in(4).then(|| random_vector(random)));
        let (start, max) = (random.pick(&[0, 0, 1]), random.pick(&[1, 2, 65_535]));
        let answer = code(kernel.add_semaphore(TDOM_NONE, atr, start, max, vector));
        script.add(format!("sem {TDOM_NONE} {atr} {start} {max}{}", given(vector)), answer);
        let (atr, capacity) = (random.pick(&[TA_TFIFO, TA_TPRI]), random.pick(&[0, 0, 1, 2, 5]));
        let answer = code(kernel.add_queue(TDOM_NONE, atr, capacity, vector));
        script.add(format!("dtq {TDOM_NONE} {atr} {capacity}{}", given(vector)), answer);
    }
}

/// The domain that asks for a verdict or a hand-out.
fn asking(random: &mut Random, script: &Script) -> i32 {
    let user = script.user(random);
    let good = random.pick(&[TDOM_KERNEL, user, user, user]);
    random.mostly(good, 10, &ENDS)
}

fn verdict(random: &mut Random, kernel: &mut Kernel, script: &mut Script, last: &Last) {
    let domain = asking(random, script);
    let inside = random.below(last.end.max(1) as usize) as u32;
    let base = random.mostly(inside, 6, &[0, 0xFFFF_F000, u32::MAX]);
    let size = random.pick(&[0, 1, 1, 2, 16, 0x1000, 0x1_0000, 0x1_0001, 0x3_0000, u32::MAX]);
    let wish = random.pick(&[0, 1, 2, 2, 3, 4, 6, 7, 8, u32::MAX]);
    script.add(format!("prb_mem {domain} {base} {size} {wish}"), code(kernel.prb_mem(domain, base, size, wish)));
}

/// Units that a fresh table takes, or none given, and units that it refuses.
const UNITS: [Option<u32>; 8] = [None, None, Some(1), Some(2), Some(0x800), Some(0x1000), Some(0x1000), Some(MAX_UNIT)];
const NO_UNITS: [Option<u32>; 6] =
    [Some(0), Some(3), Some(4_095), Some(MAX_UNIT + 1), Some(2 * MAX_UNIT), Some(u32::MAX)];

/// A table, mostly closed, then calls, verdicts and hand-outs.
fn random_script(random: &mut Random) -> Script {
    let (mut script, mut kernel, mut last) = (Script::default(), Kernel::EMPTY, Last::default());
    let any = random.below(MAX_DOMAINS as usize) as i32 + 1;
    let good = random.pick(&[2, 2, 3, any, any, any, MAX_DOMAINS, MAX_DOMAINS]);
    let n = random.mostly(good, 6, &ENDS);
    script.domains = good as usize;
    let good = random.pick(&UNITS);
    let unit = random.mostly(good, 9, &NO_UNITS);
    let given = unit.map_or(String::new(), |unit| format!(" {unit}"));
    script.add(format!("fresh {n}{given}"), code(kernel.fresh(n, unit.unwrap_or(1))));
    script.priorities = random.pick(&PRIORITIES);
    let tasks = random.pick(&TASKS);
    let kernels = random.below(TASKS[0]);
    for number in 0..tasks {
        let domain = if number % TASKS[0] == kernels { TDOM_KERNEL } else { script.user(random) };
        script.add_task(random, &mut kernel, domain);
    }
    if !random.one_in(4) {
        crowded(random, &mut kernel, &mut script);
    }
    // The largest number can fill every kind up.
    for _ in 0..random.pick(&[8, 20, 90, 1_500]) {
        entry(random, &mut kernel, &mut script, &mut last);
    }
    if random.one_in(4) {
        top_region(random, &mut kernel, &mut script);
    }
    for _ in 0..random.pick(&[0, 1, 1, 1, 1, 1, 2]) {
        script.add("close".to_string(), code(kernel.close()));
    }
    for _ in 0..400 {
        let ready = kernel.ready();
        let any = random.below(tasks + 2) as i32 + 1;
        let good = if ready.is_empty() || random.one_in(3) { any } else { random.pick(&ready) };
        let task = random.mostly(good, 25, &ENDS);
        let good = random.pick(&[1, 1, 1, 2, 2, 3, 4, 5, 7]);
        let id = random.mostly(good, 25, &ENDS);
        if random.one_in(60) {
            burst(random, &mut kernel, &mut script);
        }
        if random.one_in(80) {
            crowd(random, &mut kernel, &mut script);
        }
        if random.one_in(200) {
            climb(random, &mut kernel, &mut script, id);
        }
        if random.one_in(160) {
            script.dump(&kernel);
        }
        match random.below(16) {
            0 => verdict(random, &mut kernel, &mut script, &last),
            1 => entry(random, &mut kernel, &mut script, &mut last),
            2..=6 => semaphore_call(random, &mut kernel, &mut script, task, id),
            7..=11 => queue_call(random, &mut kernel, &mut script, task, id),
            12 | 13 => images::hand_out(random, &kernel, &mut script),
            _ => service_call(random, &mut kernel, &mut script, task),
        }
    }
    script.dump(&kernel);
    script
}

/// What `replay` writes for commands.
fn replay(commands: &str) -> String {
    let mut child = Command::new(PROGRAM);
    let mut child = child.stdin(Stdio::piped()).stdout(Stdio::piped()).spawn().expect("run `./replay` once first");
    let mut input = child.stdin.take().expect("its input");
    let commands = commands.to_string();
    // In a thread of its own, since both pipes can be full at once.
    let writer = std::thread::spawn(move || input.write_all(commands.as_bytes()).expect("written"));
    let output = child.wait_with_output().expect("its end");
    writer.join().expect("its end");
    String::from_utf8(output.stdout).expect("text")
}

pub fn compare() {
    let (mut random, mut lines, mut codes) = (Random::new(SEED), 0, BTreeMap::new());
    let mut judged: BTreeMap<i32, Judged> = BTreeMap::new();
    let (mut forced, mut lifted, mut services) = (BTreeMap::new(), BTreeMap::new(), BTreeMap::new());
    let (mut joined, mut longest, mut dumps) = (BTreeMap::new(), 0, 0);
    let mut handed = BTreeMap::new();
    for number in 0..SCRIPTS {
        let script = random_script(&mut random);
        let output = replay(&script.commands);
        for (ours, plain) in output.lines().zip(&script.lines) {
            assert_eq!(ours, plain, "script {number}");
        }
        assert_eq!(output.lines().count(), script.lines.len(), "script {number}: how many lines");
        lines += script.lines.len();
        script.forced.into_iter().for_each(|(met, count)| *forced.entry(met).or_insert(0) += count);
        script.joined.into_iter().for_each(|(stands, count)| *joined.entry(stands).or_insert(0) += count);
        script.lifted.into_iter().for_each(|(outcome, count)| *lifted.entry(outcome).or_insert(0) += count);
        script.services.into_iter().for_each(|(met, count)| *services.entry(met).or_insert(0) += count);
        script.handed.into_iter().for_each(|(met, count)| *handed.entry(met).or_insert(0) += count);
        longest = longest.max(script.longest);
        dumps += script.dumps;
        for (domain, Judged { admitted, denied, lifted }) in script.judged {
            let sum = judged.entry(domain).or_default();
            sum.admitted += admitted;
            sum.denied += denied;
            sum.lifted += lifted;
        }
        let answers = script.lines.iter().filter(|line| !line.starts_with("dump"));
        for outcome in answers.filter_map(|line| line.split_whitespace().skip_while(|&word| word != "->").nth(1)) {
            *codes.entry(outcome.to_string()).or_insert(0) += 1;
        }
    }
    println!(
        "\nTables, calls, verdicts and hand-outs, seed {SEED}: {lines} lines of `replay` in {SCRIPTS} scripts alike."
    );
    println!("What came back: {codes:?}");
    let users = || (1..=MAX_DOMAINS).map(|domain| judged.get(&domain).copied().unwrap_or_default());
    let fewest = |count: fn(Judged) -> u32| users().map(count).min().unwrap_or(0);
    let (admitted, denied, inside) = (fewest(|one| one.admitted), fewest(|one| one.denied), fewest(|one| one.lifted));
    println!(
        "Of each user domain, 1 to {MAX_DOMAINS}, at least {admitted} calls were admitted and {denied} denied, and"
    );
    println!("{inside} were admitted only inside an extended service call. What came of the latter: {lifted:?}.");
    println!("What entering and leaving met:");
    for ((kind, met), count) in services {
        println!("  {kind:<10} {met:<54} {count:>8}");
    }
    println!("What hand-outs met:");
    for ((outcome, reason), count) in handed {
        println!("  {outcome:<10} {reason:<54} {count:>8}");
    }
    println!("What forced sends met: {forced:?}.");
    println!("{dumps} dumps. At most {longest} waited at one place. Where those stood that began to wait:");
    for ((place, stands), count) in joined {
        println!("  {:<10} {stands:<54} {count:>8}", format!("{place:?}"));
    }
}
