//! Random lists on the compared domain. The published kernel is driven along,
//! and its tables are looked at before each call.

use std::process::ExitCode;

use kernel::interface::*;

use crate::coverage::Coverage;
use crate::notation::put_call;
use crate::replay::{HZ, write};

struct Random(u64);

impl Random {
    /// splitmix64
    fn next(&mut self) -> u64 {
        self.0 = self.0.wrapping_add(0x9e37_79b9_7f4a_7c15);
        let mut z = self.0;
        z = (z ^ z >> 30).wrapping_mul(0xbf58_476d_1ce4_e5b9);
        z = (z ^ z >> 27).wrapping_mul(0x94d0_49bb_1331_11eb);
        z ^ z >> 31
    }

    fn below(&mut self, bound: usize) -> usize {
        (self.next() % bound as u64) as usize
    }

    fn percent(&mut self, chance: usize) -> bool {
        self.below(100) < chance
    }

    fn of<T: Copy>(&mut self, items: &[T]) -> T {
        items[self.below(items.len())]
    }

    fn of_any<T: Copy>(&mut self, items: &[T]) -> Option<T> {
        if items.is_empty() { None } else { Some(self.of(items)) }
    }
}

/// What kind of list it is to be.
struct Plan {
    weights: [u32; 21],
    priorities: Vec<u8>,
    sizes: &'static [u32],
    objects: usize,
    tasks_before_start: usize,
    calls_before_start: usize,
    /// In a hundred: a switch next, where one is due.
    obedience: usize,
    /// In a hundred: a call that `turns` has no line for, or a word altered.
    others: usize,
    /// In a thousand: another kernel.
    fresh: usize,
    hz: u32,
}

const READY: u8 = 0;
const RUNNING: u8 = 1;
const BLOCKED: u8 = 2;
const TERMINATED: u8 = 5;

impl Plan {
    fn new(random: &mut Random, hz: u32) -> Self {
        // Weights from operation 01 on.
        let mut weights = [
            0, 3, 0, 14, 14, 2, 3, 3, 4, 4, 8, 7, 2, 6, 2, 4, 5, 4, 2, 1, 1,
        ];
        let mut heavier = |ops: &[u8], times: u32| {
            for &op in ops {
                weights[op as usize] *= times;
            }
        };
        let mut tasks = 1 + random.below(6);
        let mut sizes: &[u32] = &[64, 128, 256, 512];

        match random.below(8) {
            0 => {}
            1 => heavier(&[LOCK, UNLOCK, TRY_LOCK, WAKE], 3),
            2 => heavier(&[ACQUIRE, RELEASE, EVENT_WAIT, SIGNAL, WAKE], 3),
            3 => heavier(&[ADD, EXIT, WAIT, REAP, REAP_ONE], 5),
            4 => heavier(&[TICK, SLEEP, SWITCH, STATUS], 3),
            5 => {
                // A crowd at one object; none queues at a mutex.
                tasks = 9 + random.below(7);
                heavier(&[SWITCH], 3);
                heavier(&[random.of(&[ACQUIRE, EVENT_WAIT])], 8);
            }
            6 => {
                // A full table.
                tasks = 13 + random.below(3);
                sizes = &[16, 20, 64];
                heavier(&[ADD, EXIT, REAP, REAP_ONE], 4);
            }
            _ => {
                // All at once, few tasks.
                tasks = random.below(3);
                sizes = &[16, 1024, 2048];
                heavier(&[EXIT, WAIT, ADD, LOCK, UNLOCK, REAP], 3);
            }
        }

        let palette = [0, 7, 7, 8, 127, 128, 128, 128, 200, 254, 255];
        let kinds = 1 + random.below(3);
        let priorities = (0..kinds).map(|_| random.of(&palette)).collect();
        let objects = random.of(&[1, 1, 1, 2, 2, 4]);
        if objects == OBJECTS {
            // So that one task comes to own all four.
            weights[LOCK as usize] *= 6;
            weights[TRY_LOCK as usize] *= 6;
            weights[UNLOCK as usize] /= 4;
        }
        Self {
            weights,
            priorities,
            sizes,
            objects,
            tasks_before_start: tasks,
            calls_before_start: random.of(&[0, 0, 0, 2, 5, 20]),
            obedience: random.of(&[20, 60, 80, 95]),
            others: random.of(&[3, 10, 25]),
            fresh: random.of(&[0, 2, 5, 20]),
            hz,
        }
    }
}

/// An id to name: mostly one that `wanted` picks out, sometimes any other.
fn id(random: &mut Random, tables: &Tables, wanted: impl Fn(usize, &Slot) -> bool) -> u32 {
    let present: Vec<(usize, Slot)> = (0..SLOTS)
        .filter_map(|at| tables.slots[at].map(|slot| (at, slot)))
        .collect();
    let ids: Vec<u32> = present
        .iter()
        .filter(|(at, slot)| wanted(*at, slot))
        .map(|(_, slot)| slot.id)
        .collect();

    match random.below(20) {
        0..=13 => random.of_any(&ids).unwrap_or_else(|| random.of(&present).1.id),
        14..=17 => random.of(&present).1.id,
        18 => random.below(tables.next_id as usize + 1) as u32,
        _ => random.of(&[0, tables.next_id, u32::MAX, 1 << 31]),
    }
}

/// A semaphore or an event: of the first ones of the plan's number, but for
/// those whose head is gone, since no release or signal can follow there.
fn object(random: &mut Random, plan: &Plan, tables: &Tables, op: u8) -> u8 {
    let gone = |at: usize| {
        let queue = match op {
            EVENT_WAIT | SIGNAL => tables.events[at].1,
            _ => tables.semaphores[at].1,
        };
        queue.ids().first().is_some_and(|&id| tables.slots.iter().flatten().all(|slot| slot.id != id))
    };
    let open: Vec<usize> = (0..OBJECTS).filter(|&at| !gone(at)).take(plan.objects).collect();

    random.of_any(&open).filter(|_| random.percent(90)).unwrap_or(random.below(plan.objects)) as u8
}

/// A call of that operation, with operands that suit the tables. It may yet be
/// outside the domain.
fn operands(random: &mut Random, plan: &Plan, tables: &Tables, op: u8) -> Option<Call> {
    let own = tables.slots[tables.current]?;
    let (mut k, mut y) = (0, 0);

    match op {
        ADD => {
            k = if random.percent(90) { random.of(&plan.priorities) } else { random.next() as u8 };
            if tables.task_count == SLOTS {
                y = if random.percent(50) { random.next() as u32 } else { 0x2000_0100 };
            } else {
                let size = if random.percent(85) {
                    random.of(plan.sizes)
                } else {
                    16 + 4 * random.below(100) as u32
                };
                let start = free_stretch(random, tables, size)?;
                y = start << 16 | size;
            }
        }
        SWITCH => {
            let last = own.size - 1;
            y = own.start
                + match random.below(8) {
                    0 => 0,
                    1 => last,
                    2..=4 => last & !3,
                    5 => last.saturating_sub(63) & !3,
                    _ => random.below(own.size as usize) as u32,
                };
        }
        WAIT => {
            y = match random.below(10) {
                0 => own.id,
                1..=2 => id(random, tables, |_, slot| slot.waiter.is_some()),
                3 => id(random, tables, |_, slot| slot.state == TERMINATED),
                _ => id(random, tables, |at, slot| {
                    at != tables.current && slot.state != TERMINATED
                }),
            }
        }
        REAP => y = id(random, tables, |_, slot| slot.state == TERMINATED),
        WAKE => y = id(random, tables, |_, slot| slot.state == BLOCKED),
        SLEEP if plan.hz == HZ => y = random.of(&[0, 0, 1, 1, 2, 3, 5, 8, 20, u32::MAX]),
        SLEEP => {
            // About so many ticks, or any time.
            let ticks = random.of(&[1, 2, 3, 5, 8]);
            let edge = (ticks * 1000 / plan.hz as u64) as u32;
            y = match random.below(10) {
                0 => random.of(&[0, 1, u32::MAX]),
                1 => random.next() as u32,
                2..=5 => edge,
                _ => edge + 1,
            };
        }
        STATUS => k = random.of(&[0, 0, 0, 0, 2, 3, 3, 4]),
        UNLOCK => {
            let owned: Vec<u8> = (0..OBJECTS as u8)
                .filter(|&k| tables.mutexes[k as usize].owner == Some(own.id))
                .collect();
            k = random.of_any(&owned)?;
        }
        LOCK => {
            // One that is free: a lock that blocks is outside the domain.
            let free: Vec<u8> =
                (0..plan.objects as u8).filter(|&k| !tables.mutexes[k as usize].locked).collect();
            k = random.of_any(&free)?;
        }
        TRY_LOCK => k = random.below(plan.objects) as u8,
        ACQUIRE..=SIGNAL => k = object(random, plan, tables, op),
        LIST => {
            let most = tables.task_count as u8;
            k = random.of(&[most, most, most + 1, SLOTS as u8, 255]).max(most);
        }
        RESULT => {
            let any = random.next() as u8;
            k = random.of(&[0, 1, 127, 128, 255, any]);
            y = id(random, tables, |_, _| true);
        }
        WORD => {
            let present: Vec<Slot> = tables.slots.iter().flatten().copied().collect();
            let slot = random.of(&present);
            let (first, size) = (slot.start / 4, slot.size / 4);
            let used = (first..first + size).find(|&word| !painted(word as usize));
            (k, y) = match (random.below(10), used) {
                (0..=3, Some(word)) => (1, word),
                (0..=1, None) => (1, first + random.below(size as usize) as u32),
                (2..=6, _) => (0, first + random.below(size as usize) as u32),
                (7, _) => (0, first + random.below(size.min(8) as usize) as u32),
                (8, _) => (0, first + random.below(4) as u32),
                _ => (random.below(2) as u8, random.below(ARENA_BYTES as usize / 4) as u32),
            };
        }
        FRESH => {
            let any = random.next() as u32;
            y = random.of(&[
                HZ, HZ, HZ, HZ, 1, 2, 3, 7, 99, 100, 999, 1001, 1024, 2000, 32768, 1000000, 1 << 31,
                u32::MAX, any, any % 5000 + 1,
            ]);
        }
        _ => {}
    }

    Some(Call { op, k, y })
}

/// A place for that many bytes that no present task has: against one that is
/// taken, or anywhere.
fn free_stretch(random: &mut Random, tables: &Tables, size: u32) -> Option<u32> {
    let free = |start: u32| {
        start + size <= ARENA_BYTES
            && tables.slots.iter().flatten().all(|slot| {
                start + size <= slot.start || slot.start + slot.size <= start
            })
    };
    let close: Vec<u32> = tables
        .slots
        .iter()
        .flatten()
        .flat_map(|slot| [slot.start + slot.size, slot.start.saturating_sub(size)])
        .chain([ARENA_BYTES - size])
        .filter(|&start| free(start))
        .collect();

    if random.percent(70) {
        return random.of_any(&close);
    }
    (0..8)
        .map(|_| 4 * random.below(ARENA_BYTES as usize / 4) as u32)
        .find(|&start| free(start))
        .or(random.of_any(&close))
}

/// The next call of a list. `made`: how many this kernel has seen; `last`: the
/// operation before, and whether it wanted a switch.
fn choose(
    random: &mut Random,
    plan: &Plan,
    tables: &Tables,
    made: usize,
    last: (u8, bool),
) -> Call {
    let own = tables.slots[tables.current].expect("current");
    let (last, wanted) = last;

    let another = match last {
        0 => 50,
        FRESH => 100,
        _ => plan.fresh,
    };
    if random.below(1000) < another {
        if let Some(call) = operands(random, plan, tables, FRESH).filter(|&call| in_domain(call)) {
            return call;
        }
    }
    if !tables.started {
        let added = tables.task_count > plan.tasks_before_start || made > 60;
        let waited = made >= plan.tasks_before_start + plan.calls_before_start;
        if added && waited && random.percent(70) {
            return Call { op: START, k: 0, y: 0 };
        }
    }

    for _ in 0..100 {
        let alive = tables
            .slots
            .iter()
            .skip(1)
            .flatten()
            .filter(|slot| matches!(slot.state, READY | RUNNING))
            .count();
        let owns = tables.mutexes.iter().any(|mutex| mutex.owner == Some(own.id));
        let room = tables.task_count < SLOTS;

        let op = if matches!(last, WORD | FRESH) && random.percent(25) {
            LIST
        } else if random.percent(plan.others) {
            random.of(&[LIST, CURRENT_ID, RESULT, WORD])
        } else if !tables.started {
            if tables.task_count <= plan.tasks_before_start && room && random.percent(80) {
                ADD
            } else {
                random.of(&[ADD, TICK, WAKE, REAP, TRY_ACQUIRE, RELEASE, SIGNAL, REAP_ONE])
            }
        } else if (wanted || own.state != RUNNING) && random.percent(plan.obedience) {
            SWITCH
        } else if alive <= 1 && random.percent(25) {
            // Bring tasks back.
            random.of(&[WAKE, WAKE, RELEASE, SIGNAL, TICK, TICK, ADD, SWITCH])
        } else if owns && random.percent(10) {
            UNLOCK
        } else {
            let total: u32 = plan.weights.iter().sum();
            let mut at = random.below(total as usize) as u32;
            (0..21)
                .find(|&op| {
                    let weight = plan.weights[op as usize];
                    let found = at < weight;
                    at = at.wrapping_sub(weight);
                    found
                })
                .expect("a weight")
        };

        // A guard word that was altered is repainted first.
        let guard = own.start / 4..own.start / 4 + 4;
        if let Some(y) = guard.into_iter().find(|&word| op == SWITCH && !painted(word as usize)) {
            return Call { op: WORD, k: 1, y };
        }
        if let Some(call) = operands(random, plan, tables, op).filter(|&call| in_domain(call)) {
            return call;
        }
    }

    Call { op: TICK, k: 0, y: 0 }
}

pub fn run(seed: u64, lines: u64, length: u64) -> ExitCode {
    let mut random = Random(seed);
    let mut coverage = Coverage::new();
    let mut out = Vec::new();

    while coverage.lines < lines {
        renew();
        init(HZ);
        out.extend_from_slice(b"new\n");
        coverage.new_list();

        let mut plan = Plan::new(&mut random, HZ);
        let most = lines - coverage.lines;
        let goal = (length / 2 + random.next() % (length + 1)).clamp(1, most);
        let mut before = tables();
        let mut last = (0, false);
        let mut made = 0;

        for _ in 0..goal {
            let asked = choose(&mut random, &plan, &before, made, last);
            let answer = call(asked);
            let after = tables();

            put_call(&mut out, asked);
            coverage.note(asked, answer, &before, &after);
            last = (asked.op, asked.op == TICK && answer == (0, 1));
            before = after;
            made += 1;
            if asked.op == FRESH {
                plan = Plan::new(&mut random, asked.y);
                made = 0;
            }
        }
        if out.len() >= 1 << 16 {
            write(&mut out);
        }
    }
    write(&mut out);
    eprint!("{}", coverage.text());

    ExitCode::SUCCESS
}
