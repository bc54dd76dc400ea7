//! The lists, each from fresh: adds, start, then calls of one kind. The
//! published kernel is driven along; a call outside the domain is a fault here,
//! but for a lock that blocks: all that wait at mutexes or own them have one
//! number, but for idle in `mixed` of two tasks,
//! so no rank is another than the own number, and the picks are the same.

use kernel::interface::*;

use crate::notation::put_call;
use crate::replay::HZ;

/// Calls after the start, at least.
const CALLS: usize = 50_000;

/// Bytes of a task's stretch; idle has the first 8,192. Few, for the published
/// switch counts every painted word of the stretch that it leaves.
const SIZE: u32 = 64;

pub type List = fn(tasks: usize) -> Vec<u8>;

/// On tables of so many tasks, idle counted; those that hold six.
const SIZES: &[usize] = &[2, 8, 16];
const OF_SIX: &[usize] = &[8, 16];

/// The name, the list, and on which tables.
pub const LISTS: [(&str, List, &[usize]); 12] = [
    ("tick", tick, SIZES),
    ("switch", switch, SIZES),
    ("switch, four blocked", four_blocked, OF_SIX),
    ("switch, a chain of four", chain_of_four, OF_SIX),
    ("lock and unlock, contended", contended, SIZES),
    ("sleep and wake", sleep_wake, SIZES),
    ("release, nobody waits", release, SIZES),
    ("release, one waits", release_one, SIZES),
    ("signal, nobody waits", signal, SIZES),
    ("signal, one waits", signal_one, SIZES),
    ("mixed", mixed, SIZES),
    ("no call", no_call, SIZES),
];

const RUNNING: u8 = 1;
const BLOCKED: u8 = 2;
const TERMINATED: u8 = 5;

/// A list that is being made, with the kernel in step.
struct Made {
    list: Vec<u8>,
    calls: usize,
}

impl Made {
    /// Fresh; a task for each priority, idle beside them; start.
    fn started(priorities: &[u8]) -> Self {
        renew();
        init(HZ);
        let mut made = Self { list: Vec::new(), calls: 0 };
        for (at, &priority) in priorities.iter().enumerate() {
            made.add(priority, 8192 + SIZE * at as u32);
        }
        made.call(START, 0, 0);
        made.calls = 0;
        made
    }

    fn call(&mut self, op: u8, k: u8, y: u32) -> u32 {
        let asked = Call { op, k, y };
        assert!(fits(asked), "operation {op:02x} is outside the domain");
        put_call(&mut self.list, asked);
        self.calls += 1;
        call(asked).1
    }

    fn add(&mut self, priority: u8, start: u32) {
        self.call(ADD, priority, start << 16 | SIZE);
    }

    /// With an sp inside current's stretch.
    fn switch(&mut self) {
        let own = own(&tables());
        self.call(SWITCH, 0, own.start + own.size - 16);
    }

    fn more(&self) -> bool {
        self.calls < CALLS
    }
}

/// In the domain, or a lock that blocks.
fn fits(asked: Call) -> bool {
    in_domain(asked) || (asked.op == LOCK && refusal(asked) == 0)
}

fn own(tables: &Tables) -> Slot {
    tables.slots[tables.current].expect("current")
}

/// Ticks alone: one task stays current.
fn tick(tasks: usize) -> Vec<u8> {
    let mut made = Made::started(&vec![128; tasks - 1]);
    while made.more() {
        made.call(TICK, 0, 0);
    }
    made.list
}

/// Switches alone: the tasks take turns, idle does not; of two tasks the one
/// is picked again.
fn switch(tasks: usize) -> Vec<u8> {
    let mut made = Made::started(&vec![128; tasks - 1]);
    while made.more() {
        made.switch();
    }
    made.list
}

/// Switches among all tasks but idle and the first four, which own mutexes or
/// not and then make a call that blocks.
fn first_four(tasks: usize, waits: fn(&mut Made, at: u8)) -> Vec<u8> {
    let mut made = Made::started(&vec![128; tasks - 1]);
    for at in 1..tasks {
        assert_eq!(current() as usize, at, "the tasks take turns");
        if (2..=5).contains(&at) {
            made.call(LOCK, at as u8 - 2, 0);
        }
        made.switch();
    }
    for at in 1..=4 {
        assert_eq!(current(), at, "the first four take their second turn");
        waits(&mut made, at);
        made.switch();
    }
    assert_eq!(current(), 5, "the first four are blocked");
    made.calls = 0;
    while made.more() {
        made.switch();
    }
    made.list
}

/// No mutex has a queue.
fn four_blocked(tasks: usize) -> Vec<u8> {
    first_four(tasks, |made, _| {
        made.call(BLOCK, 0, 0);
    })
}

/// Each of the first four waits at a mutex that the next one owns.
fn chain_of_four(tasks: usize) -> Vec<u8> {
    first_four(tasks, |made, at| {
        assert_eq!(made.call(LOCK, at - 1, 0), 0, "the mutex is another's");
    })
}

/// One mutex, handed from task to task: its owner confirms the handoff,
/// unlocks, locks again behind the others and switches. Nine tasks take part,
/// since eight can wait; of two tasks idle is one.
fn contended(tasks: usize) -> Vec<u8> {
    let priorities: Vec<u8> = match tasks {
        2 => vec![255],
        _ => (1..tasks).map(|slot| if slot <= 9 { 128 } else { 200 }).collect(),
    };
    let others = if tasks == 2 { 1 } else { (tasks - 2).min(8) };

    let mut made = Made::started(&priorities);
    made.call(LOCK, 0, 0);
    for _ in 0..others {
        made.switch();
        made.call(LOCK, 0, 0);
    }
    made.switch();
    while made.more() {
        assert_eq!(made.call(UNLOCK, 0, 0), 1, "a head waits");
        assert_eq!(made.call(LOCK, 0, 0), 0, "the mutex is another's");
        made.switch();
        assert_eq!(made.call(LOCK, 0, 0), 1, "it was handed over");
    }
    made.list
}

/// The workers sleep 3 ms, one after the other; the last task ticks until they
/// are due. Then the workers block, and the last task wakes each. Of two tasks
/// idle is the last.
fn sleep_wake(tasks: usize) -> Vec<u8> {
    let (workers, last) = if tasks == 2 { (1, 0) } else { (tasks - 2, tasks - 1) };
    let priorities: Vec<u8> =
        (1..tasks).map(|slot| if slot <= workers { 128 } else { 200 }).collect();

    let mut made = Made::started(&priorities);
    while made.more() {
        for _ in 0..workers {
            made.call(SLEEP, 0, 3);
            made.switch();
        }
        assert_eq!(current() as usize, last, "the workers sleep");
        for _ in 0..3 {
            made.call(TICK, 0, 0);
        }
        made.switch();
        assert_eq!(current(), 1, "the workers are awake");
        for _ in 0..workers {
            made.call(BLOCK, 0, 0);
            made.switch();
        }
        assert_eq!(current() as usize, last, "the workers are blocked");
        for id in 1..=workers as u32 {
            made.call(WAKE, 0, id);
        }
        made.switch();
    }
    made.list
}

/// The task in the last slot is current, and the others are Ready.
fn last_current(tasks: usize) -> Made {
    let mut priorities = vec![128; tasks - 1];
    priorities[tasks - 2] = 100;
    let made = Made::started(&priorities);
    assert_eq!(current() as usize, tasks - 1, "the better one runs");
    made
}

/// Releases alone: the count rises.
fn release(tasks: usize) -> Vec<u8> {
    let mut made = last_current(tasks);
    while made.more() {
        made.call(RELEASE, 0, 0);
    }
    made.list
}

/// Current blocks at the semaphore, is woken by its own release and takes the
/// permit.
fn release_one(tasks: usize) -> Vec<u8> {
    let mut made = last_current(tasks);
    while made.more() {
        assert_eq!(made.call(ACQUIRE, 0, 0), 0, "no permit");
        made.call(RELEASE, 0, 0);
        assert_eq!(made.call(TRY_ACQUIRE, 0, 0), 1, "a permit");
    }
    made.list
}

/// Signals alone: the flag is set from the first on.
fn signal(tasks: usize) -> Vec<u8> {
    let mut made = last_current(tasks);
    while made.more() {
        made.call(SIGNAL, 0, 0);
    }
    made.list
}

/// Current blocks at the event and is woken by its own signal.
fn signal_one(tasks: usize) -> Vec<u8> {
    let mut made = last_current(tasks);
    while made.more() {
        assert_eq!(made.call(EVENT_WAIT, 0, 0), 0, "no flag");
        made.call(SIGNAL, 0, 0);
    }
    made.list
}

struct Random(u64);

impl Random {
    /// splitmix64
    fn below(&mut self, bound: usize) -> usize {
        self.0 = self.0.wrapping_add(0x9e37_79b9_7f4a_7c15);
        let mut z = self.0;
        z = (z ^ z >> 30).wrapping_mul(0xbf58_476d_1ce4_e5b9);
        z = (z ^ z >> 27).wrapping_mul(0x94d0_49bb_1331_11eb);
        z ^= z >> 31;
        (z % bound as u64) as usize
    }
}

/// Every operation, at random, the same each time. All that lock have one
/// number, but for idle where there are two tasks. A switch follows where one is due; what has ended is reaped and added again, so that the table stays
/// full or a few tasks short of it. The last task never waits or ends, so that
/// idle does not run; of two tasks it does.
fn mixed(tasks: usize) -> Vec<u8> {
    // Weights of the operations from tick on, where nothing is due.
    const WEIGHTS: [(u8, usize); 17] = [
        (TICK, 30),
        (SWITCH, 6),
        (EXIT, 8),
        (WAIT, 3),
        (SLEEP, 5),
        (WAKE, 8),
        (LOCK, 8),
        (UNLOCK, 10),
        (TRY_LOCK, 3),
        (ACQUIRE, 6),
        (TRY_ACQUIRE, 3),
        (RELEASE, 8),
        (EVENT_WAIT, 5),
        (SIGNAL, 6),
        (STATUS, 3),
        (BLOCK, 2),
        (REAP_ONE, 1),
    ];
    let total: usize = WEIGHTS.iter().map(|&(_, weight)| weight).sum();
    let last = tasks > 2;
    let mut priorities = vec![128; tasks - 1];
    if last {
        priorities[tasks - 2] = 200;
    }
    let mut random = Random(tasks as u64);
    let mut made = Made::started(&priorities);
    let mut wanted = false;

    while made.more() {
        let seen = tables();
        let own = own(&seen);
        let present: Vec<Slot> = seen.slots.iter().flatten().copied().collect();
        let free = |start: &u32| present.iter().all(|slot| slot.start != *start);
        let ended = (1..SLOTS)
            .filter(|&at| at != seen.current)
            .filter_map(|at| seen.slots[at])
            .find(|slot| slot.state == TERMINATED);

        let due = wanted || own.state != RUNNING;
        if own.state == TERMINATED || (due && random.below(10) < 8) {
            made.switch();
            wanted = false;
            continue;
        }
        if let Some(slot) = ended.filter(|_| random.below(4) == 0) {
            match random.below(2) {
                0 => made.call(REAP, 0, slot.id),
                _ => made.call(REAP_ONE, 0, 0),
            };
            continue;
        }
        if seen.task_count < tasks && random.below(2) == 0 {
            let start = (0..16).map(|at| 8192 + SIZE * at).find(free).expect("a stretch");
            made.add(128, start);
            continue;
        }

        let mut at = random.below(total);
        let op = WEIGHTS
            .iter()
            .find(|&&(_, weight)| {
                let found = at < weight;
                at = at.wrapping_sub(weight);
                found
            })
            .expect("a weight")
            .0;
        let owned = (0..OBJECTS).find(|&at| seen.mutexes[at].owner == Some(own.id));
        let handed = (0..OBJECTS).find(|&at| seen.mutexes[at].handoff_to == Some(own.id));
        let queued = seen.mutexes.iter().any(|mutex| mutex.queue.ids().contains(&own.id));
        let waits = |id: u32| {
            seen.semaphores.iter().any(|(_, queue)| queue.ids().contains(&id))
                || seen.events.iter().any(|(_, queue)| queue.ids().contains(&id))
        };
        let op = match op {
            EXIT | WAIT | SLEEP | LOCK | TRY_LOCK | ACQUIRE | EVENT_WAIT | STATUS | BLOCK
                if last && seen.current == tasks - 1 =>
            {
                TICK
            }
            EXIT if owned.is_some() => UNLOCK,
            // A mutex would be handed to a task that is gone, and stay locked.
            EXIT if queued => TICK,
            // No release or signal of the domain meets a head that is not Blocked.
            // Idle runs though it is queued, where none is Ready.
            ACQUIRE | EVENT_WAIT if seen.current == 0 => TRY_ACQUIRE,
            EXIT | SLEEP | STATUS if waits(own.id) => match own.state {
                BLOCKED => [RELEASE, SIGNAL][random.below(2)],
                _ => BLOCK,
            },
            // One mutex at a time, so that no two tasks wait for each other.
            LOCK | TRY_LOCK if owned.is_some() && handed.is_none() => UNLOCK,
            LOCK | TRY_LOCK if queued && handed.is_none() => TICK,
            op => op,
        };
        let other = present[random.below(present.len())].id;
        let blocked: Vec<u32> = present
            .iter()
            .filter(|slot| slot.state == BLOCKED && !waits(slot.id))
            .map(|slot| slot.id)
            .collect();
        // One that nobody waits for, or whose head is Blocked.
        let fit: Vec<u8> =
            (0..OBJECTS as u8).filter(|&k| fits(Call { op, k, y: 0 })).collect();
        let (k, y) = match op {
            SWITCH => (0, own.start + own.size - 16),
            WAIT => (0, other),
            WAKE if !blocked.is_empty() => (0, blocked[random.below(blocked.len())]),
            WAKE => (0, other),
            SLEEP => (0, random.below(6) as u32),
            // Not Suspended: no call brings such a task back.
            STATUS => ([0, 2, 3][random.below(3)], 0),
            LOCK => (handed.unwrap_or_else(|| random.below(OBJECTS)) as u8, 0),
            UNLOCK => (owned.unwrap_or(0) as u8, 0),
            RELEASE | SIGNAL if !fit.is_empty() => (fit[random.below(fit.len())], 0),
            TRY_LOCK..=SIGNAL => (random.below(OBJECTS) as u8, 0),
            _ => (0, 0),
        };
        if fits(Call { op, k, y }) {
            let answer = made.call(op, k, y);
            wanted = wanted || (op == TICK && answer == 1);
        }
    }
    made.list
}

/// Lines that make no call: an operation that is none, and a digit that is
/// none, in turn. What remains is the notation.
fn no_call(tasks: usize) -> Vec<u8> {
    let mut made = Made::started(&vec![128; tasks - 1]);
    while made.more() {
        made.list.extend_from_slice(b"150000000000\n03000000000g\n");
        made.calls += 2;
    }
    made.list
}
