//! Counts of what a run of calls met.

use std::collections::BTreeMap;
use std::process::ExitCode;

use kernel::interface::*;

use crate::notation::parse;
use crate::replay::{HZ, lines};

const WORDS: usize = ARENA_BYTES as usize / 4;

const FIRST: [&str; 20] = [
    "add", "start", "tick", "switch", "exit", "wait", "reap", "sleep", "wake", "lock", "unlock",
    "try lock", "acquire", "try acquire", "release", "event wait", "signal", "status", "block",
    "reap_one",
];
const OF_TABLES: [&str; 5] = ["list", "current id", "result", "word", "fresh"];

/// Every operation, with its name.
pub fn operations() -> impl Iterator<Item = (u8, &'static str)> {
    (ADD..).zip(FIRST).chain((LIST..).zip(OF_TABLES))
}

/// What became of a word.
#[derive(Clone, Copy, PartialEq)]
enum Word {
    Kept,
    Altered,
    /// Altered, then painted by a line 1e.
    Repainted,
    /// Altered, then painted by add or fresh.
    PaintedAnew,
}
use Word::{Altered, Kept, PaintedAnew, Repainted};

pub struct Coverage {
    pub lists: u64,
    pub lines: u64,
    numbers: BTreeMap<(u8, u8), u64>,
    cases: BTreeMap<&'static str, u64>,
    /// How often as many tasks were listed.
    listed: [u64; SLOTS + 1],
    // Of the list so far.
    hz: u32,
    words: Vec<Word>,
    /// Who owned each mutex last.
    owners: [Option<u32>; OBJECTS],
    charges: Charges,
    last: u8,
}

/// The charges, which the Rust has not (W-206): of the tasks in the slots; of
/// those that were reaped, all together, and whether that slot's last had one.
#[derive(Default)]
struct Charges {
    slots: [u64; SLOTS],
    retired: u64,
    moved: [bool; SLOTS],
}

impl Charges {
    fn note(&mut self, call: Call, before: &Tables, after: &Tables) {
        match call.op {
            TICK if before.started => self.slots[before.current] += 1,
            FRESH => *self = Self::default(),
            _ => {}
        }
        if let Some(at) = emptied(call, before, after) {
            self.moved[at] = self.slots[at] > 0;
            self.retired += self.slots[at];
            self.slots[at] = 0;
        }
    }
}

/// The slot that a reap emptied.
fn emptied(call: Call, before: &Tables, after: &Tables) -> Option<usize> {
    (0..SLOTS)
        .find(|&at| before.slots[at].is_some() && after.slots[at].is_none())
        .filter(|_| matches!(call.op, REAP | REAP_ONE))
}

impl Coverage {
    pub fn new() -> Self {
        Self {
            lists: 0,
            lines: 0,
            numbers: BTreeMap::new(),
            cases: BTreeMap::new(),
            listed: [0; SLOTS + 1],
            hz: HZ,
            words: vec![Kept; WORDS],
            owners: [None; OBJECTS],
            charges: Charges::default(),
            last: 0,
        }
    }

    pub fn new_list(&mut self) {
        self.lists += 1;
        self.hz = HZ;
        self.words.fill(Kept);
        self.owners = [None; OBJECTS];
        self.charges = Charges::default();
        self.last = 0;
    }

    /// Add or fresh paints that stretch.
    fn paint(&mut self, (start, size): (u32, u32)) {
        for word in &mut self.words[start as usize / 4..(start + size) as usize / 4] {
            *word = if *word == Altered { PaintedAnew } else { Kept };
        }
    }

    /// Notes a call, its number and value, and the tables before and after.
    pub fn note(&mut self, call: Call, answer: (u8, u32), before: &Tables, after: &Tables) {
        let (number, value) = answer;
        self.lines += 1;
        *self.numbers.entry((call.op, number)).or_default() += 1;
        self.note_cases(call, number, value, before, after);
        match call.op {
            ADD if number == 0 => self.paint(call.region()),
            LIST => self.listed[value as usize] += 1,
            WORD if call.k == 0 => self.words[call.y as usize] = Altered,
            WORD if self.words[call.y as usize] == Altered => {
                self.words[call.y as usize] = Repainted;
            }
            FRESH => {
                self.hz = call.y;
                self.owners = [None; OBJECTS];
                self.paint((0, after.slots[0].expect("idle").size));
            }
            _ => {}
        }
        for (owner, mutex) in self.owners.iter_mut().zip(after.mutexes) {
            *owner = mutex.owner.or(*owner);
        }
        self.charges.note(call, before, after);
        self.last = call.op;
    }

    fn note_cases(&mut self, call: Call, number: u8, value: u32, before: &Tables, after: &Tables) {
        let mut case = |name, met: bool| {
            let count = self.cases.entry(name).or_default();
            *count += met as u64;
        };
        let find = |id: u32| before.slots.iter().flatten().find(|slot| slot.id == id);
        let own = before.slots[before.current].expect("current");
        let at = call.k as usize % OBJECTS;
        let region = |slot: &Slot| {
            &self.words[slot.start as usize / 4..(slot.start + slot.size) as usize / 4]
        };

        // A queue before and after, where the call is about one.
        let queues = match call.op {
            ACQUIRE | RELEASE => Some((before.semaphores[at].1, after.semaphores[at].1)),
            EVENT_WAIT | SIGNAL => Some((before.events[at].1, after.events[at].1)),
            _ => None,
        };
        let head = queues.and_then(|(queue, _)| queue.ids().first().copied());
        let (length, queued) = queues.map_or((0, false), |(queue, _)| {
            (queue.ids().len(), queue.ids().contains(&own.id))
        });

        let about_itself = before.started && matches!(call.op, SLEEP | WAIT | LOCK..=BLOCK);
        case("call by idle", about_itself && before.current == 0);
        case("call by a current that is not Running", about_itself && own.state != 1);
        match call.op {
            ADD if number == 0 => {
                let slot = (0..SLOTS).find(|&at| before.slots[at].is_none()).expect("a slot");
                case("add after the start", before.started);
                case("add fills the last slot", before.task_count == SLOTS - 1);
                case("add into a slot used before", before.next_id as usize != slot);
                case("add into a slot whose charge was moved", self.charges.moved[slot]);
                case("add of 16 bytes", call.region().1 == 16);
                case("add at another hz", self.hz != HZ);
            }
            TICK => {
                let woken = (0..SLOTS).any(|at| {
                    let state = |tables: &Tables| tables.slots[at].map(|slot| slot.state);
                    state(before) == Some(3) && state(after) == Some(0)
                });
                case("tick wakes a sleeper", woken);
                case("tick wakes a sleeper at another hz", woken && self.hz != HZ);
                case("tick wakes current itself", before.started && own.state == 3
                    && after.slots[after.current].expect("current").state == 0);
                case("tick ends the slice", own.state == 1 && own.remaining_slice == 1);
                case("tick says yes", value == 1);
                case("tick with current not Running", before.started && own.state != 1);
                case("tick before the start", !before.started);
                case("tick with a Terminated current", own.state == 5);
                case("tick in a slot whose charge was moved",
                    before.started && self.charges.moved[before.current]);
            }
            SWITCH | START => {
                let picked = before.slots[after.current].expect("picked");
                let ready = before.slots.iter().flatten().filter(|slot| slot.state == 0).count();
                let peers = after.slots.iter().flatten().filter(|slot| {
                    slot.state == 0 && slot.priority == picked.priority
                });
                case("turn with a peer left Ready", peers.count() > 0);
                case("switch keeps current", before.started && before.current == after.current);
                case("switch reloads", before.started && picked.remaining_slice == 0);
                case("turn of slot 0, none Ready",
                    ready == 0 && (own.state != 1 || !before.started));
                case("switch, a word past the guard altered",
                    before.started && region(&own)[4..].contains(&Altered));
                case("switch, a guard word altered and repainted",
                    before.started && region(&own)[..4].contains(&Repainted));
            }
            EXIT => {
                let waiter = own.waiter.map(find);
                case("exit, no waiter", waiter.is_none());
                case("exit, waiter gone", matches!(waiter, Some(None)));
                case("exit, waiter woken", matches!(waiter, Some(Some(slot)) if slot.state == 2));
                case("exit, waiter not Blocked",
                    matches!(waiter, Some(Some(slot)) if slot.state != 2));
            }
            WAIT => {
                let target = find(call.y);
                let waiter = target.and_then(|target| target.waiter);
                case("wait for a Terminated task", number == 0
                    && target.is_some_and(|target| target.state == 5));
                case("wait again", number == 0 && waiter == Some(own.id));
                case("wait refused for a waiter that is gone",
                    number == 9 && waiter.is_some_and(|id| find(id).is_none()));
            }
            REAP => {
                let place = before.slots.iter().position(|slot| {
                    slot.is_some_and(|slot| slot.id == call.y)
                });
                let charged = place.is_some_and(|at| self.charges.slots[at] > 0);
                case("reap, a charge moved", number == 0 && charged);
                case("reap, no charge", number == 0 && !charged);
                case("reap refused, a charge left", number == 9 && charged);
                case("reap of idle refused", number == 9 && call.y == 0);
                case("reap of a Terminated current refused",
                    number == 9 && call.y == own.id && own.state == 5);
            }
            REAP_ONE => {
                let charged = emptied(call, before, after).map(|at| self.charges.slots[at] > 0);
                case("reap_one, a charge moved", charged == Some(true));
                case("reap_one, no charge", charged == Some(false));
                case("reap_one, none", value == NONE);
                case("reap_one passes a Terminated current over", value != NONE && own.state == 5);
                case("reap_one, none but a Terminated current", value == NONE && own.state == 5);
            }
            WAKE => {
                let state = find(call.y).map(|slot| slot.state);
                case("wake, Blocked", state == Some(2));
                case("wake, not Blocked", state.is_some_and(|state| state != 2));
                case("wake, unknown", state.is_none());
            }
            LOCK => {
                // In the domain none blocks, so no mutex is handed on.
                case("lock, free", value == 1);
                case("lock, another's before", self.owners[at].is_some_and(|id| id != own.id));
                case("lock while owner of another", own.owned > 0);
            }
            TRY_LOCK => {
                let owner = before.mutexes[at].owner;
                case("try lock, yes", value == 1);
                case("try lock, owner's own", owner == Some(own.id));
                case("try lock, another's", value == 0 && owner != Some(own.id));
            }
            UNLOCK => {
                case("unlock", value == 0 && !after.mutexes[at].locked);
                case("unlock while owner of another", own.owned > 1);
            }
            RELEASE | SIGNAL => {
                // A head is Blocked in the domain.
                let ids = queues.map_or(Vec::new(), |(queue, _)| queue.ids().to_vec());
                let next = ids.get(1).copied().map(find);
                case("release or signal, no waiter", head.is_none());
                case("release or signal wakes", head.is_some());
                case("release or signal wakes one of eight", length == WAITERS);
                case("release or signal wakes, the next one Blocked too",
                    matches!(next, Some(Some(slot)) if slot.state == 2));
                case("release or signal wakes, the next one not Blocked",
                    matches!(next, Some(Some(slot)) if slot.state != 2));
                case("release or signal wakes, the next one gone", matches!(next, Some(None)));
                case("release wakes, with permits left",
                    call.op == RELEASE && head.is_some() && before.semaphores[at].0 > 0);
                case("signal, signalled already", call.op == SIGNAL && before.events[at].0);
            }
            ACQUIRE | EVENT_WAIT => {
                case("acquire or event wait, yes", value == 1);
                case("acquire or event wait blocks", value == 0);
                case("acquire, yes, with waiters queued", value == 1 && length > 0);
            }
            SLEEP => {
                case("sleep 0", call.y == 0);
                case("sleep of a queued task",
                    before.semaphores.iter().any(|(_, queue)| queue.ids().contains(&own.id))
                        || before.events.iter().any(|(_, queue)| queue.ids().contains(&own.id)));
                let (other, of_ms) = (self.hz != HZ, call.y as u64 * self.hz as u64);
                case("sleep at another hz, rounded up", other && of_ms % 1000 != 0);
                case("sleep at another hz, no rest", other && of_ms > 0 && of_ms % 1000 == 0);
                case("sleep at another hz, 2^32 ticks and more", other && of_ms / 1000 >> 32 > 0);
            }
            LIST => {
                let slots = || before.slots.iter().flatten();
                // Up to the first altered word, and from it on.
                let parts = || slots().map(|slot| {
                    let words = region(slot);
                    let used = words.iter().position(|&word| word == Altered);
                    words.split_at(used.unwrap_or(words.len()))
                });
                let last = before.slots.iter().rposition(Option::is_some);
                case("list before the start", !before.started);
                case("list, as many records as tasks", call.k as usize == before.task_count);
                case("list, more records than tasks", call.k as usize > before.task_count);
                case("list, an empty slot between", last != Some(before.task_count - 1));
                case("list, a later slot with an earlier id",
                    slots().zip(slots().skip(1)).any(|(one, next)| next.id < one.id));
                case("list, bytes used", parts().any(|(_, used)| !used.is_empty()));
                case("list, all bytes used", parts().any(|(free, _)| free.is_empty()));
                case("list, a guard word altered",
                    slots().any(|slot| region(slot)[..4].contains(&Altered)));
                case("list, an altered word repainted",
                    parts().any(|(free, _)| free.contains(&Repainted)));
                case("list, an altered word painted anew by add",
                    parts().skip(1).any(|(free, _)| free.contains(&PaintedAnew)));
                case("list, an altered word painted anew by fresh",
                    parts().take(1).any(|(free, _)| free.contains(&PaintedAnew)));
            }
            CURRENT_ID => {
                case("current id, not the slot's number", value as usize != before.current);
                case("current id of idle", before.current == 0);
                case("current id of a task not Running", own.state != 1);
            }
            RESULT => {
                let target = find(call.y);
                let state = target.map(|slot| slot.state);
                let sign = (call.k as i8).signum();
                case("result below 0", target.is_some() && sign < 0);
                case("result 0", target.is_some() && sign == 0);
                case("result above 0", target.is_some() && sign > 0);
                case("result in another's place", target.is_some_and(|slot| {
                    slot.result != 0 && slot.result != call.k as i8 as i32
                }));
                case("result of current", before.started && call.y == own.id);
                case("result of idle", call.y == 0);
                case("result, not the slot's number", target.is_some()
                    && before.slots.get(call.y as usize).copied().flatten().is_none_or(|slot| {
                        slot.id != call.y
                    }));
                case("result, Ready", state == Some(0));
                case("result, Running", state == Some(1));
                case("result, Blocked", state == Some(2));
                case("result, Sleeping", state == Some(3));
                case("result, Suspended", state == Some(4));
                case("result, Terminated", state == Some(5));
                case("result before the start", !before.started);
            }
            WORD => {
                let place = call.y as usize;
                let holder = before.slots.iter().flatten().find(|slot| {
                    (slot.start as usize / 4..(slot.start + slot.size) as usize / 4).contains(&place)
                });
                let guard = holder.is_some_and(|slot| place < slot.start as usize / 4 + 4);
                let repainted = call.k == 1 && self.words[place] == Altered;
                case("word altered, in no region", call.k == 0 && holder.is_none());
                case("word altered, in a guard", call.k == 0 && guard);
                case("word altered, past a guard", call.k == 0 && holder.is_some() && !guard);
                case("word repainted, in a guard", repainted && guard);
                case("word repainted, past a guard", repainted && holder.is_some() && !guard);
            }
            FRESH => {
                case("fresh, the same hz", call.y == self.hz);
                case("fresh, another hz", call.y != self.hz);
                case("fresh before the start", !before.started);
                case("fresh after the start", before.started);
                case("fresh after fresh", self.last == FRESH);
                case("fresh over sixteen tasks", before.task_count == SLOTS);
                case("fresh over ticks", before.tick_count > 0);
                case("fresh over a retired sum", self.charges.retired > 0);
                case("fresh over a mutex that is owned",
                    before.mutexes.iter().any(|mutex| mutex.owner.is_some()));
                case("fresh over a queue",
                    before.semaphores.iter().any(|(_, queue)| !queue.ids().is_empty())
                        || before.events.iter().any(|(_, queue)| !queue.ids().is_empty()));
                case("fresh over permits and signals",
                    before.semaphores.iter().any(|(count, _)| *count > 0)
                        && before.events.iter().any(|(signalled, _)| *signalled));
            }
            _ => {}
        }
        if let Some(at) = emptied(call, before, after) {
            case("reap or reap_one, a charge to a retired sum",
                self.charges.slots[at] > 0 && self.charges.retired > 0);
        }
        if matches!(call.op, LOCK | TRY_LOCK) {
            let owned = after.slots[after.current].expect("current").owned;
            case("lock or try lock, then all four owned", own.owned == 3 && owned == 4);
        }
        if matches!(call.op, ACQUIRE | EVENT_WAIT) && value == 0 {
            case("blocks while queued there already", queued);
            case("blocks as the eighth", length == WAITERS - 1 && !queued);
            case("blocks while one of eight queued", length == WAITERS && queued);
        }
    }

    pub fn text(&self) -> String {
        let mut text = format!("{} lists, {} lines\n", self.lists, self.lines);
        for (op, name) in operations() {
            text += &format!("{op:02x} {name:12}");
            for ((_, number), count) in self.numbers.range((op, 0)..=(op, 255)) {
                text += &format!(" {number}: {count}");
            }
            text += "\n";
        }
        for (name, count) in &self.cases {
            text += &format!("{count:9} {name}\n");
        }
        for (tasks, count) in self.listed.iter().enumerate().skip(1) {
            text += &format!("{count:9} list of {tasks}\n");
        }
        text
    }
}

pub fn of_input() -> ExitCode {
    let mut coverage = Coverage::new();
    let mut code = ExitCode::SUCCESS;
    let mut left = false;

    init(HZ);
    lines(|line| {
        if left {
            return;
        }
        if line == b"new" {
            renew();
            init(HZ);
            coverage.new_list();
            return;
        }
        match parse(line).filter(|&asked| in_domain(asked)) {
            Some(asked) => {
                let before = tables();
                let answer = call(asked);
                coverage.note(asked, answer, &before, &tables());
            }
            None => {
                left = true;
                code = ExitCode::from(3);
            }
        }
    });
    print!("{}", coverage.text());

    code
}
