//! Stand-in for interface, of which nothing published uses a name. Here it is
//! the way in for the reference program: the calls of the notation, and the
//! tables. It sits inside the kernel crate, so it reaches what is `pub(crate)`;
//! what is private is shown by the files under look/.

use core::sync::atomic::{AtomicBool, Ordering};

use alloc::vec::Vec;
use minirtos_abi::{Priority, SysError};

use crate::memory::{ARENA_WORDS, STACK_POOL, StackPool, StackRegion, stack_pool_block};
use crate::sched::{self, scheduler};
use crate::synchronization::{CriticalSection, Event, Lock, Mutex, Semaphore, critical_section};
use crate::task::{Privilege, TaskControl, TaskId, TaskState};
use crate::{KernelConfig, timer};

pub const SLOTS: usize = 16;
pub const OBJECTS: usize = 4;
pub const WAITERS: usize = 8;
pub const ARENA_BYTES: u32 = 4 * ARENA_WORDS as u32;

const PAINT: u32 = 0xDEAD_BEEF;

// The fixed sets of objects, made by the published constructors.
static MUTEXES: [Mutex; OBJECTS] = [const { Mutex::new() }; OBJECTS];
static SEMAPHORES: [Semaphore; OBJECTS] = [const { Semaphore::new(0) }; OBJECTS];
static EVENTS: [Event; OBJECTS] = [const { Event::new(false) }; OBJECTS];

// Whether the kernel asked the processor for a switch.
static REQUESTED: AtomicBool = AtomicBool::new(false);

pub(crate) fn note_request() {
    REQUESTED.store(true, Ordering::Relaxed);
}

/// What the scheduler's look (look/sched/scheduler.rs) gives.
pub(crate) struct Seen {
    pub tasks: &'static [Option<TaskControl>; SLOTS],
    pub current: usize,
    pub task_count: usize,
    pub tick_count: u64,
    pub started: bool,
}

pub(crate) struct Door;

pub(crate) trait SchedulerLook {
    fn see() -> Seen;
    fn reap_one(cs: &CriticalSection) -> Option<StackRegion>;
    fn renew();
    fn empty(slot: usize);
    fn set_current(slot: usize);
    fn pick(tasks: [Option<TaskControl>; SLOTS], current: usize) -> usize;
}

fn arena() -> usize {
    stack_pool_block().base()
}

/// The arena's words.
pub fn words() -> &'static mut [u32] {
    unsafe { core::slice::from_raw_parts_mut(arena() as *mut u32, ARENA_WORDS) }
}

/// Whether that word is painted.
pub fn painted(index: usize) -> bool {
    words()[index] == PAINT
}

extern "C" fn no_entry(_arg: *mut ()) {}

/// The published `init`, once in a process.
pub fn init(tick_hz: u32) {
    crate::init(&KernelConfig {
        core_clock_hz: 0,
        tick_hz,
    })
    .expect("init");
}

/// Sets every static back to what its published constructor gives, and the
/// arena to zero. `init` must follow.
pub fn renew() {
    renew_statics();
    words().fill(0);
}

fn renew_statics() {
    Door::renew();
    TaskControl::renew_ids();
    STACK_POOL.lock(|pool| *pool = StackPool::empty());
    MUTEXES.iter().for_each(Mutex::renew);
    SEMAPHORES.iter().for_each(Semaphore::renew);
    EVENTS.iter().for_each(Event::renew);
}

/// Another kernel on the arena's words as they are.
fn fresh(tick_hz: u32) {
    renew_statics();
    init(tick_hz);
}

/// For `raw`. A kernel that is not whole: the task is taken out of its slot.
pub fn empty(slot: usize) {
    Door::empty(slot);
}

/// For `raw`. Another current, which may be none of the slots.
pub fn set_current(slot: usize) {
    Door::set_current(slot);
}

/// For `raw`. Fresh where the stack pool has no more than that many bytes
/// left, at most 8,192: the others are taken from it before.
pub fn fresh_in(bytes: usize, tick_hz: u32) {
    renew_statics();
    STACK_POOL.lock(|pool| {
        let size = stack_pool_block().size();
        if bytes < size {
            pool.alloc(size - bytes).expect("bytes of the pool");
        }
    });
    init(tick_hz);
}

/// One line of the notation.
#[derive(Clone, Copy, PartialEq, Eq)]
pub struct Call {
    pub op: u8,
    pub k: u8,
    pub y: u32,
}

pub const ADD: u8 = 0x01;
pub const START: u8 = 0x02;
pub const TICK: u8 = 0x03;
pub const SWITCH: u8 = 0x04;
pub const EXIT: u8 = 0x05;
pub const WAIT: u8 = 0x06;
pub const REAP: u8 = 0x07;
pub const SLEEP: u8 = 0x08;
pub const WAKE: u8 = 0x09;
pub const LOCK: u8 = 0x0a;
pub const UNLOCK: u8 = 0x0b;
pub const TRY_LOCK: u8 = 0x0c;
pub const ACQUIRE: u8 = 0x0d;
pub const TRY_ACQUIRE: u8 = 0x0e;
pub const RELEASE: u8 = 0x0f;
pub const EVENT_WAIT: u8 = 0x10;
pub const SIGNAL: u8 = 0x11;
pub const STATUS: u8 = 0x12;
pub const BLOCK: u8 = 0x13;
pub const REAP_ONE: u8 = 0x14;

// Of `tables` alone. The first three, the waits with a limit and milliseconds
// from ticks, the Rust has not: they are outside the domain.
pub const ACQUIRE_WITHIN: u8 = 0x15;
pub const EVENT_WAIT_WITHIN: u8 = 0x16;
pub const TICKS_TO_MS: u8 = 0x18;
pub const LIST: u8 = 0x1b;
pub const CURRENT_ID: u8 = 0x1c;
pub const RESULT: u8 = 0x1d;
pub const WORD: u8 = 0x1e;
pub const FRESH: u8 = 0x1f;

pub const NONE: u32 = 0xffff_ffff;

impl Call {
    /// The stretch that an add names.
    pub fn region(&self) -> (u32, u32) {
        (self.y >> 16, self.y & 0xffff)
    }
}

/// Whether the call is in the compared domain. A word altered between two
/// calls is.
pub fn in_domain(call: Call) -> bool {
    refusal(call) == 0 && !past_its_head(call) && !queues_at_a_mutex(call)
}

/// A lock that blocks: after it a mutex has a queue. The Rust picks by the own
/// number; from there on document 02's W-205 is the yardstick.
fn queues_at_a_mutex(call: Call) -> bool {
    let own = || Door::see().tasks[Door::see().current].as_ref().map(|task| task.id);

    call.op == LOCK && {
        let (locked, owner, ..) = MUTEXES[call.k as usize].see();
        locked && owner != own()
    }
}

/// A release or signal whose head is not Blocked. The Rust drops that head and
/// no other; there document 02's W-201 is the yardstick.
fn past_its_head(call: Call) -> bool {
    let head = match call.op {
        RELEASE => SEMAPHORES[call.k as usize].see().1.first(),
        SIGNAL => EVENTS[call.k as usize].see().1.first(),
        _ => None,
    };
    let blocked = |id: &TaskId| {
        let mut tasks = Door::see().tasks.iter().flatten();
        tasks.any(|task| task.id == *id && task.state == TaskState::Blocked)
    };

    head.is_some_and(|id| !blocked(id))
}

/// The number with which document 01 refuses the call where the Rust would
/// panic or has no such refusal; 0xff for a line that is none; 0 for every
/// other call, and for a word altered between two calls.
pub fn refusal(call: Call) -> u8 {
    let Call { op, k, y } = call;

    let (uses_k, uses_y) = match op {
        ADD => (true, true),
        SWITCH | WAIT | REAP | SLEEP | WAKE => (false, true),
        LOCK..=STATUS => (true, false),
        START | TICK | EXIT | BLOCK | REAP_ONE => (false, false),
        LIST => (true, false),
        CURRENT_ID => (false, false),
        RESULT | WORD => (true, true),
        FRESH => (false, true),
        _ => return 0xff,
    };
    if (!uses_k && k != 0) || (!uses_y && y != 0) {
        return 0xff;
    }
    if op == WORD && (k > 1 || y as usize >= ARENA_WORDS) {
        return 0xff;
    }
    if matches!(op, WORD | FRESH) {
        return if op == FRESH && y == 0 { 7 } else { 0 };
    }

    let seen = Door::see();
    let current = seen.tasks.get(seen.current).and_then(Option::as_ref);
    let Some(task) = current.filter(|_| seen.tasks[0].is_some()) else {
        return 1;
    };

    if (LOCK..=SIGNAL).contains(&op) && k as usize >= OBJECTS {
        return 20;
    }
    if op == START && seen.started {
        return 3;
    }
    let needs_start = match op {
        SWITCH | EXIT | WAIT | SLEEP | LOCK | UNLOCK | TRY_LOCK | ACQUIRE => true,
        EVENT_WAIT | STATUS | BLOCK | CURRENT_ID => true,
        _ => false,
    };
    if needs_start && !seen.started {
        return 2;
    }

    let at = k as usize;
    let full = |queue: &[TaskId]| queue.len() == WAITERS && !queue.contains(&task.id);

    match op {
        ADD if seen.tasks.iter().all(Option::is_some) => 0,
        ADD => {
            let (start, size) = call.region();
            let overlaps = seen.tasks.iter().flatten().any(|task| {
                let (from, to) = (task.stack.start() - arena(), task.stack.end() - arena());
                (start as usize) < to && from < (start + size) as usize
            });

            if start % 4 != 0 || size % 4 != 0 || size < 16 || start + size > ARENA_BYTES || overlaps {
                5
            } else {
                0
            }
        }
        TICK if seen.tick_count == u64::MAX => 18,
        SWITCH => {
            let sp = arena() + y as usize;
            let first = (task.stack.start() - arena()) / 4;

            if sp < task.stack.start() || sp >= task.stack.end() {
                16
            } else if !(first..first + 4).all(painted) {
                17
            } else {
                0
            }
        }
        EXIT if seen.current == 0 => 10,
        EXIT if task.owned_mutex_count > 0 => 11,
        LOCK => {
            let (locked, owner, handoff_to, queue) = MUTEXES[at].see();
            let own = Some(task.id);

            if locked && owner == own && handoff_to != own {
                13
            } else if locked && owner != own && full(queue) {
                12
            } else {
                0
            }
        }
        UNLOCK if MUTEXES[at].see().1 != Some(task.id) => 14,
        UNLOCK if task.owned_mutex_count == 0 => 15,
        ACQUIRE => {
            let (count, queue) = SEMAPHORES[at].see();
            if count == 0 && full(queue) { 12 } else { 0 }
        }
        RELEASE if SEMAPHORES[at].see().0 >= 0xffff_ffff => 19,
        EVENT_WAIT => {
            let (signalled, queue) = EVENTS[at].see();
            if !signalled && full(queue) { 12 } else { 0 }
        }
        STATUS if k == 1 || k >= 5 => 7,
        LIST if (k as usize) < seen.task_count => 21,
        _ => 0,
    }
}

/// Whether the Rust can be given a refused call at all: a known operation, an
/// object that is there, a stretch inside the arena.
pub fn possible(call: Call) -> bool {
    let (start, size) = call.region();

    refusal(call) != 0xff
        && match call.op {
            ADD => start + size <= ARENA_BYTES,
            LOCK..=SIGNAL => (call.k as usize) < OBJECTS,
            _ => true,
        }
}

/// Makes the call, whether or not it is in the domain, and gives number and
/// value as `tables` prints them. Outside the domain the Rust may panic; a
/// refused call that is not `possible` must not be made.
/// Wake, release and signal give the value 0, for the Rust returns nothing
/// there.
pub fn call(call: Call) -> (u8, u32) {
    let Call { op, k, y } = call;
    let id = TaskId::from_raw(y as usize);
    let at = k as usize;
    let yes = |yes: bool| (0, yes as u32);
    let done = |()| (0, 0);
    let start = |region: StackRegion| (region.start() - arena()) as u32;

    critical_section(|cs| match op {
        ADD => {
            let (start, size) = call.region();
            let added = scheduler().add_task(
                cs,
                no_entry,
                core::ptr::null_mut(),
                StackRegion::at(arena() + start as usize, size as usize),
                Priority(k),
                Privilege::Privileged,
                "",
                Vec::new(),
            );

            match added {
                Ok(id) => (0, id.raw() as u32),
                Err((error, _)) => (number(op, error), 0),
            }
        }
        START => turn(scheduler().start(cs).sp),
        TICK => {
            REQUESTED.store(false, Ordering::Relaxed);
            timer::tick();
            yes(REQUESTED.load(Ordering::Relaxed))
        }
        SWITCH => turn(unsafe { scheduler().switch(arena() + y as usize) }.sp),
        EXIT => done(scheduler().exit_current_task(cs)),
        WAIT => match scheduler().wait_task(cs, id) {
            Ok(()) => (0, 0),
            Err(error) => (number(op, error), 0),
        },
        REAP => match scheduler().reap_task(cs, id) {
            Ok(region) => (0, start(region)),
            Err(error) => (number(op, error), 0),
        },
        SLEEP => done(sched::sleep_current_task(y)),
        WAKE => done(scheduler().wake_task(cs, id)),
        LOCK => yes(MUTEXES[at].lock_cs(cs)),
        UNLOCK => yes(MUTEXES[at].unlock_cs(cs)),
        TRY_LOCK => yes(MUTEXES[at].try_lock_cs(cs)),
        ACQUIRE => yes(SEMAPHORES[at].acquire_cs(cs)),
        TRY_ACQUIRE => yes(SEMAPHORES[at].try_acquire_cs(cs)),
        RELEASE => done(SEMAPHORES[at].release_cs(cs)),
        EVENT_WAIT => yes(EVENTS[at].wait_cs(cs)),
        SIGNAL => done(EVENTS[at].signal_cs(cs)),
        STATUS => done(scheduler().set_current_task_status(cs, state(k))),
        BLOCK => done(scheduler().block_current_task(cs)),
        REAP_ONE => (0, Door::reap_one(cs).map_or(NONE, start)),
        LIST => (0, records().len() as u32),
        CURRENT_ID => (0, scheduler().current_task_id(cs).raw() as u32),
        RESULT => match scheduler().set_syscall_result(cs, id, k as i8 as i32) {
            Ok(()) => (0, 0),
            Err(error) => (number(op, error), 0),
        },
        WORD => {
            words()[y as usize] = if k == 1 { PAINT } else { 0 };
            (0, 0)
        }
        FRESH => done(fresh(y)),
        _ => (0xff, 0),
    })
}

/// A turn answers the slot; the pointer handed to the processor must be the
/// one in that slot's context.
fn turn(sp: usize) -> (u8, u32) {
    let seen = Door::see();
    let task = seen.tasks[seen.current].as_ref().expect("current");
    assert_eq!(task.stack_pointer(), sp, "a context that is not current's");

    (0, seen.current as u32)
}

/// Document 01's number for an error that the Rust itself gives.
fn number(op: u8, error: SysError) -> u8 {
    match (op, error) {
        (ADD, SysError::NoResource) => 4,
        (WAIT, SysError::InvalidArgument) => 7,
        (WAIT | REAP | RESULT, SysError::NotFound) => 8,
        (WAIT | REAP, SysError::Busy) => 9,
        _ => panic!("operation {op:02x} gave {error:?}"),
    }
}

fn state(k: u8) -> TaskState {
    match k {
        0 => TaskState::Ready,
        1 => TaskState::Running,
        2 => TaskState::Blocked,
        3 => TaskState::Sleeping,
        4 => TaskState::Suspended,
        _ => TaskState::Terminated,
    }
}

pub fn current() -> u8 {
    Door::see().current as u8
}

/// The records of the list call: id, state, priority, used and total bytes.
pub fn records() -> Vec<[u64; 5]> {
    let infos = scheduler().tasks();
    infos
        .iter()
        .map(|info| {
            let (state, priority) = (info.state as u64, info.priority.0 as u64);
            let (used, total) = (info.stack_used as u64, info.stack_total as u64);
            [info.id.raw() as u64, state, priority, used, total]
        })
        .collect()
}

// The tables, copied out. Stretches and pointers are bytes from the arena's
// start.

#[derive(Clone, Copy)]
pub struct Slot {
    pub id: u32,
    pub state: u8,
    pub priority: u8,
    pub wake_tick: u64,
    pub time_slice: u32,
    pub remaining_slice: u32,
    pub owned: usize,
    pub waiter: Option<u32>,
    pub start: u32,
    pub size: u32,
    pub sp: u32,
    pub result: i32,
}

#[derive(Clone, Copy)]
pub struct Queue {
    ids: [u32; WAITERS],
    len: usize,
}

impl Queue {
    fn new(seen: &[TaskId]) -> Self {
        let mut ids = [0; WAITERS];
        for (id, seen) in ids.iter_mut().zip(seen) {
            *id = seen.raw() as u32;
        }
        Self { ids, len: seen.len() }
    }

    pub fn ids(&self) -> &[u32] {
        &self.ids[..self.len]
    }
}

#[derive(Clone, Copy)]
pub struct MutexTable {
    pub locked: bool,
    pub owner: Option<u32>,
    pub handoff_to: Option<u32>,
    pub queue: Queue,
}

#[derive(Clone, Copy)]
pub struct Tables {
    pub slots: [Option<Slot>; SLOTS],
    pub tick_count: u64,
    pub started: bool,
    pub current: usize,
    pub task_count: usize,
    pub next_id: u32,
    pub mutexes: [MutexTable; OBJECTS],
    pub semaphores: [(isize, Queue); OBJECTS],
    pub events: [(bool, Queue); OBJECTS],
}

pub fn tables() -> Tables {
    let seen = Door::see();
    let raw = |id: Option<TaskId>| id.map(|id| id.raw() as u32);
    let offset = |address: usize| address.wrapping_sub(arena()) as u32;

    Tables {
        slots: core::array::from_fn(|at| {
            seen.tasks[at].as_ref().map(|task| Slot {
                id: task.id.raw() as u32,
                state: task.state as u8,
                priority: task.priority.0,
                wake_tick: task.wake_tick,
                time_slice: task.time_slice,
                remaining_slice: task.remaining_slice,
                owned: task.owned_mutex_count,
                waiter: raw(task.waiter),
                start: offset(task.stack.start()),
                size: task.stack.size() as u32,
                sp: offset(task.stack_pointer()),
                result: task.context.result,
            })
        }),
        tick_count: timer::get_sys_tick(),
        started: seen.started,
        current: seen.current,
        task_count: seen.task_count,
        next_id: TaskControl::next_id(),
        mutexes: core::array::from_fn(|at| {
            let (locked, owner, handoff_to, queue) = MUTEXES[at].see();
            MutexTable {
                locked,
                owner: raw(owner),
                handoff_to: raw(handoff_to),
                queue: Queue::new(queue),
            }
        }),
        semaphores: core::array::from_fn(|at| {
            let (count, queue) = SEMAPHORES[at].see();
            (count, Queue::new(queue))
        }),
        events: core::array::from_fn(|at| {
            let (signalled, queue) = EVENTS[at].see();
            (signalled, Queue::new(queue))
        }),
    }
}

/// `ms_to_ticks` at that rate, which must be above 0.
pub fn ticks_of(hz: u32, ms: u32) -> u64 {
    timer::init(hz);
    timer::ms_to_ticks(ms)
}

/// `next_task` over a table with these states (6: empty) and priorities.
pub fn pick_among(states: &[u8; SLOTS], priorities: &[u8; SLOTS], current: u8) -> u8 {
    let tasks = core::array::from_fn(|at| {
        (states[at] < 6).then(|| {
            let region = StackRegion::at(arena(), 16);
            let priority = Priority(priorities[at]);
            let null = core::ptr::null_mut();
            let privilege = Privilege::Privileged;
            let mut task =
                TaskControl::new(no_entry, null, region, priority, privilege, "", Vec::new())
                    .expect("a task");
            task.state = state(states[at]);
            task
        })
    });

    Door::pick(tasks, current as usize) as u8
}
