#!/usr/bin/env python3
"""A model of document 01's step with document 02's W-201, W-202, W-204, W-205 and W-206, following the words of documents 01 to 05. Its
author had read the published Rust too.

  model.py turns    standard input as `turns` reads it; prints what `turns` prints
  model.py tables   the same for `tables`, which has operations of its own: after each answer the table
  model.py replay   lists of `tables` parted by `new`; prints as the reference does: tables without charges, limits,
                    ranks and the retired sum, the values of wake, release and signal as 0

Every refusal that a list from fresh can meet is there, and those that only other kernels can meet (6, 15, 18, 19) too; 1 by the charges and
the owned counts alone (ODD). After every line W-206's law is asserted: see Machine.adds_up."""
import sys
from collections import Counter

READY, RUNNING, BLOCKED, SLEEPING, SUSPENDED, TERMINATED, EMPTY = range(7)
SLOTS, OBJECTS, PLACES, SLICE, LINKS, OWNED = 16, 4, 8, 5, 16, 4
PAINT = 0xDEADBEEF
U32 = 0xFFFFFFFF
U64 = 0xFFFFFFFFFFFFFFFF
LATE = U64 - 12      # for tests of the last ticks: where a fresh kernel begins in them
# For tests of kernels that no list from fresh comes to (ODD): tick_count, charges by slot and retired sum.
CHARGED = [(0, {}, 0), (10, {0: 1, 1: 2, 15: 3}, 4), (10, {0: 1, 1: 2, 15: 3}, 5), (9, {0: 1, 1: 2, 15: 3}, 4), (10, {}, 10), (10, {}, 11),
           (10, {7: 10}, 0), (10, {7: 11}, 0), (10, {15: 1}, 10), (10, {0: 10, 15: 1}, 0), (17, {at: 1 for at in range(16)}, 1),
           (16, {at: 1 for at in range(16)}, 1), (U64, {0: U64}, 0), (U64, {}, U64), (U64, {0: U64}, 1), (U64, {0: 1 << 63, 1: 1 << 63}, 0),
           (U64, {at: (1 << 60) - 1 for at in range(16)}, 15), (U64, {at: (1 << 60) - 1 for at in range(16)}, 16),
           (U64, {at: U64 for at in range(16)}, U64), (5, {0: U64, 1: 6}, 0), (10, {1: 3, 2: 4}, 2), (U64 - 9, {}, U64 - 11)]


def ms_to_ticks(hz, ms):
    if ms == 0:
        return 0
    if hz == 0:
        return 1
    return -(-ms * hz // 1000)


def ticks_to_ms(hz, ticks):
    """As 02 has it: the largest number of milliseconds, of 32 bits, whose tick count is at most these ticks. Looked for by halving."""
    fits, beyond = 0, U32 + 1
    while beyond - fits > 1:
        middle = (fits + beyond) // 2
        if ms_to_ticks(hz, middle) <= ticks:
            fits = middle
        else:
            beyond = middle
    return fits


def pick(states, ranks, current):
    """next_task over 16 states (EMPTY for an empty slot) and 16 ranks, which of an empty slot are not read."""
    best = None
    for at in range(SLOTS):
        if states[at] == READY and (best is None or ranks[at] < best):
            best = ranks[at]
    if best is None:
        return 0
    for step in range(1, SLOTS + 1):
        at = (current + step) % SLOTS
        if states[at] == READY and ranks[at] == best:
            return at
    raise AssertionError


class Task:
    __slots__ = ("id", "state", "priority", "wake_tick", "time_slice", "remaining",
                 "owned", "waiter", "start", "size", "sp", "result", "limit", "ended")

    def __init__(self, id, priority, start, size, time_slice):
        self.id = id
        self.state = READY
        self.priority = priority
        self.wake_tick = 0
        self.time_slice = time_slice
        self.remaining = time_slice
        self.owned = 0
        self.waiter = None
        self.start = start
        self.size = size
        self.sp = start + size
        self.result = 0
        self.limit = None       # kind, object and tick
        self.ended = False      # whether the last limit to end was ended by its own tick

    def end_limit(self, by_its_tick=False):
        """Where there is none, nothing."""
        if self.limit is not None:
            self.limit, self.ended = None, by_its_tick


class Mutex:
    __slots__ = ("locked", "owner", "handoff_to", "queue")

    def __init__(self):
        self.locked, self.owner, self.handoff_to, self.queue = False, None, None, []


class Semaphore:
    __slots__ = ("count", "queue")

    def __init__(self):
        self.count, self.queue = 0, []


class Event:
    __slots__ = ("signalled", "queue")

    def __init__(self):
        self.signalled, self.queue = False, []


class Kernel:
    """Each call returns (number, value); a refused one alters nothing."""

    def __init__(self, hz, arena):
        """Fresh. Refused ones are for `fresh` below."""
        self.arena_words = len(arena)
        self.hz = hz
        self.slots = [None] * SLOTS
        self.slots[0] = Task(0, 255, 0, 8192, 1)
        self.charges = [0] * SLOTS
        self.retired = 0        # the charges of those that were reaped
        self.tick_count = 0
        self.started = False
        self.current = 0
        self.task_count = 1
        self.next_id = 1
        self.mutexes = [Mutex() for _ in range(OBJECTS)]
        self.semaphores = [Semaphore() for _ in range(OBJECTS)]
        self.events = [Event() for _ in range(OBJECTS)]
        # For tests: the states of the heads that release or signal dropped, and how many ids stay; what a tick found.
        self.dropped, self.left = [], 0
        self.due, self.slept = [], []
        # For tests: of each slot that was emptied the charge that was moved then.
        self.moved = {}
        arena[0:2048] = [PAINT] * 2048

    # Help

    def whole(self):
        """As 02 has it: all sixteen charges and the retired sum are at most tick_count; owned counts are at most 4. What else 01 asks is so
        of every kernel here."""
        return sum(self.charges) + self.retired <= self.tick_count and all(task is None or task.owned <= OWNED for task in self.slots)

    def own(self):
        return self.slots[self.current]

    def find(self, id):
        """The lowest occupied slot with that id, or None."""
        for at in range(SLOTS):
            task = self.slots[at]
            if task is not None and task.id == id:
                return at
        return None

    def own_blocked(self):
        """Blocked, or Blocked once more."""
        self.own().end_limit()
        self.own().state = BLOCKED

    def block_on(self, queue, limit=None):
        """With a limit: kind, object and ticks."""
        id = self.own().id
        if id not in queue:
            queue.append(id)
        self.own_blocked()
        if limit is not None:
            kind, k, ticks = limit
            self.own().limit = kind, k, min(self.tick_count + ticks, U64)

    def queue_of(self, kind, k):
        """Of a limit's object."""
        return (self.semaphores if kind == "s" else self.events)[k].queue

    def wake_id(self, id):
        """Whether it turned a Blocked task Ready."""
        at = self.find(id)
        if at is None or self.slots[at].state != BLOCKED:
            return False
        self.slots[at].end_limit()
        self.slots[at].state = READY
        return True

    def wake_head(self, queue):
        """Drops heads until one was woken or the queue is empty. Whether one was woken."""
        while queue:
            id = queue.pop(0)
            at = self.find(id)
            self.dropped.append(EMPTY if at is None else self.slots[at].state)
            self.left = len(queue)
            if self.wake_id(id):
                return True
        return False

    def would_overflow(self, queue):
        return len(queue) == PLACES and self.own().id not in queue

    def states(self):
        return [EMPTY if task is None else task.state for task in self.slots]

    def mutexes_of(self, at):
        """The numbers of the mutexes at which the task in that slot is queued, smallest first."""
        return [k for k, mutex in enumerate(self.mutexes) if self.slots[at].id in mutex.queue]

    def link(self, at):
        """The slot to which the link of the task in that slot leads, or None: a Blocked task's to the owner of the lowest mutex at which
        it is queued, if that owner is a present task."""
        queued = self.mutexes_of(at)
        if self.slots[at].state != BLOCKED or not queued:
            return None
        owner = self.mutexes[queued[0]].owner
        return None if owner is None else self.find(owner)

    def chain(self, at):
        """The slots to which a chain leads from that one, in its order: from owner to owner, at most sixteen links, and a ring ends
        where it meets itself."""
        reached, to = [], self.link(at)
        while to is not None and to not in reached and len(reached) < LINKS:
            reached.append(to)
            to = self.link(to)
        return reached

    def ranks(self):
        """The smallest own number among the task itself and all present Blocked tasks from which a chain leads to it; None for an
        empty slot."""
        ranks = [None if task is None else task.priority for task in self.slots]
        for at, task in enumerate(self.slots):
            if task is not None and task.state == BLOCKED:
                for to in self.chain(at):
                    ranks[to] = min(ranks[to], task.priority)
        return ranks

    def next_task(self):
        return pick(self.states(), self.ranks(), self.current)

    # Calls

    def add(self, arena, priority, start, size):
        free = [at for at in range(SLOTS) if self.slots[at] is None]
        if not free:
            return 4, 0
        if start % 4 or size % 4 or size < 16 or start + size > 4 * self.arena_words:
            return 5, 0
        for task in self.slots:
            if task is not None and start < task.start + task.size and task.start < start + size:
                return 5, 0
        if self.next_id > U32:
            return 6, 0
        self.slots[free[0]] = Task(self.next_id, priority, start, size, SLICE)
        self.charges[free[0]] = 0
        self.next_id += 1
        self.task_count += 1
        arena[start // 4:(start + size) // 4] = [PAINT] * (size // 4)
        return 0, self.next_id - 1

    def turn(self, reload):
        self.current = self.next_task()
        task = self.own()
        task.end_limit()
        task.state = RUNNING
        if reload and task.remaining == 0:
            task.remaining = task.time_slice
        return 0, self.current

    def start(self):
        if self.started:
            return 3, 0
        self.started = True
        return self.turn(reload=False)

    def switch(self, arena, sp):
        if not self.started:
            return 2, 0
        task = self.own()
        if sp < task.start or sp >= task.start + task.size:
            return 16, 0
        first = task.start // 4
        if any(word != PAINT for word in arena[first:first + 4]):
            return 17, 0
        task.sp = sp
        if task.state == RUNNING:
            task.state = READY
        return self.turn(reload=True)

    def tick(self):
        if self.tick_count == U64:
            return 18, 0
        self.tick_count += 1
        if self.started:
            self.charges[self.current] += 1
        woke = False
        for at, task in enumerate(self.slots):
            if task is None:
                continue
            if task.state == SLEEPING and task.wake_tick <= self.tick_count:
                task.state = READY
                woke = True
                self.slept.append(at)
            if task.limit is not None and task.limit[2] <= self.tick_count:
                queue = self.queue_of(*task.limit[:2])
                self.due.append((at, *task.limit[:2], queue.index(task.id) if task.id in queue else None, len(queue)))
                if task.id in queue:
                    queue.remove(task.id)
                task.end_limit(by_its_tick=True)
                task.state = READY
                woke = True
        if not self.started:
            return 0, 0
        task = self.own()
        if task.state != RUNNING:
            return 0, 1
        if task.remaining > 0:
            task.remaining -= 1
        ended = task.remaining == 0
        if ended:
            task.remaining = task.time_slice
        return 0, int(woke or ended)

    def current_id(self):
        if not self.started:
            return 2, 0
        return 0, self.own().id

    def status(self, state):
        if not self.started:
            return 2, 0
        if state in (RUNNING, TERMINATED) or state > 5:
            return 7, 0
        self.own().end_limit()
        self.own().state = state
        return 0, 0

    def block(self):
        if not self.started:
            return 2, 0
        self.own_blocked()
        return 0, 0

    def sleep_ticks(self, ticks):
        if not self.started:
            return 2, 0
        self.own().end_limit()
        self.own().state = SLEEPING
        self.own().wake_tick = min(self.tick_count + ticks, U64)
        return 0, 0

    def sleep_ms(self, ms):
        return self.sleep_ticks(ms_to_ticks(self.hz, ms))

    def wake(self, id):
        return 0, int(self.wake_id(id))

    def exit(self):
        if not self.started:
            return 2, 0
        if self.current == 0:
            return 10, 0
        task = self.own()
        if task.owned > 0:
            return 11, 0
        task.end_limit()
        task.state = TERMINATED
        task.remaining = task.wake_tick = 0
        if task.waiter is not None:
            self.wake_id(task.waiter)
        task.waiter = None
        return 0, 0

    def wait(self, id):
        if not self.started:
            return 2, 0
        own = self.own()
        if own.id == id:
            return 7, 0
        at = self.find(id)
        if at is None:
            return 8, 0
        target = self.slots[at]
        if target.state == TERMINATED:
            return 0, 0
        if target.waiter is not None and target.waiter != own.id:
            return 9, 0
        target.waiter = own.id
        self.own_blocked()
        return 0, 0

    def empty(self, at):
        """Reaping: the slot's charge goes into the retired sum."""
        start = self.slots[at].start
        self.slots[at] = None
        self.task_count -= 1
        self.moved[at] = self.charges[at]
        self.retired, self.charges[at] = self.retired + self.charges[at], 0
        return 0, start

    def reap(self, id):
        at = self.find(id)
        if at is None:
            return 8, 0
        if at == 0 or at == self.current or self.slots[at].state != TERMINATED:
            return 9, 0
        return self.empty(at)

    def reap_one(self):
        """The value is a region's start, or None."""
        for at in range(1, SLOTS):
            task = self.slots[at]
            if task is not None and task.state == TERMINATED and at != self.current:
                return self.empty(at)
        return 0, None

    def result(self, id, r):
        at = self.find(id)
        if at is None:
            return 8, 0
        self.slots[at].result = r
        return 0, 0

    def take(self, mutex):
        mutex.locked = True
        mutex.owner = self.own().id
        self.slots[self.find(mutex.owner)].owned += 1       # by id, the lower slot of two (03, 18)
        return 0, 1

    def lock(self, k):
        if k > 3:
            return 20, 0
        if not self.started:
            return 2, 0
        mutex, id = self.mutexes[k], self.own().id
        if not mutex.locked:
            return self.take(mutex)
        if mutex.owner == id:
            if mutex.handoff_to != id:
                return 13, 0
            mutex.handoff_to = None
            return 0, 1
        if self.would_overflow(mutex.queue):
            return 12, 0
        self.block_on(mutex.queue)
        return 0, 0

    def try_lock(self, k):
        if k > 3:
            return 20, 0
        if not self.started:
            return 2, 0
        mutex = self.mutexes[k]
        if mutex.locked:
            return 0, 0
        mutex.handoff_to = None
        return self.take(mutex)

    def unlock(self, k):
        if k > 3:
            return 20, 0
        if not self.started:
            return 2, 0
        mutex, id = self.mutexes[k], self.own().id
        if mutex.owner != id:
            return 14, 0
        counted = self.slots[self.find(id)]     # by id, the lower slot of two (03, 18)
        if counted.owned == 0:
            return 15, 0
        counted.owned -= 1
        if mutex.queue:
            next = mutex.queue.pop(0)
            mutex.locked = True
            mutex.owner = mutex.handoff_to = next
            at = self.find(next)
            if at is not None:
                self.slots[at].owned += 1
            self.wake_id(next)
            return 0, 1
        mutex.locked, mutex.owner, mutex.handoff_to = False, None, None
        return 0, 0

    def acquire(self, k, limit=None):
        """With a limit in ticks, where one is given."""
        if k > 3:
            return 20, 0
        if not self.started:
            return 2, 0
        if limit == 0:
            return 7, 0
        semaphore = self.semaphores[k]
        if semaphore.count > 0:
            semaphore.count -= 1
            return 0, 1
        if self.would_overflow(semaphore.queue):
            return 12, 0
        self.block_on(semaphore.queue, limit and ("s", k, limit))
        return 0, 0

    def try_acquire(self, k):
        if k > 3:
            return 20, 0
        semaphore = self.semaphores[k]
        if semaphore.count > 0:
            semaphore.count -= 1
            return 0, 1
        return 0, 0

    def release(self, k):
        if k > 3:
            return 20, 0
        semaphore = self.semaphores[k]
        if semaphore.count == U32:
            return 19, 0
        semaphore.count += 1
        return 0, int(self.wake_head(semaphore.queue))

    def event_wait(self, k, limit=None):
        """With a limit in ticks, where one is given."""
        if k > 3:
            return 20, 0
        if not self.started:
            return 2, 0
        if limit == 0:
            return 7, 0
        event = self.events[k]
        if event.signalled:
            event.signalled = False
            return 0, 1
        if self.would_overflow(event.queue):
            return 12, 0
        self.block_on(event.queue, limit and ("e", k, limit))
        return 0, 0

    def signal(self, k):
        if k > 3:
            return 20, 0
        event = self.events[k]
        woken = self.wake_head(event.queue)
        if not woken:
            event.signalled = True
        return 0, int(woken)

    def ticks_to_ms(self, ticks):
        quotient = 1000 * ticks // self.hz
        if quotient > U32:
            return 23, 0
        ms = ticks_to_ms(self.hz, ticks)
        assert ms == quotient       # 05, 29
        return 0, ms

    def list(self, arena, records):
        """Writes (id, state, priority, used, total) into a lent list."""
        if len(records) < self.task_count:
            return 21, 0
        written = 0
        for task in self.slots:
            if task is None:
                continue
            words = arena[task.start // 4:(task.start + task.size) // 4]
            painted = 0
            while painted < len(words) and words[painted] == PAINT:
                painted += 1
            records[written] = (task.id, task.state, task.priority,
                                task.size - 4 * painted, task.size)
            written += 1
        return 0, written

    # Printing

    def limits(self):
        """The segment of the table."""
        show = lambda limit: ",".join(map(str, limit or "---"))
        return ";".join(f"{at},{show(t.limit)},{int(t.ended)}" for at, t in enumerate(self.slots) if t is not None)

    def table(self, all=True):
        """All of it, or the part that the Rust has."""
        dash = lambda id: "-" if id is None else str(id)
        queue = lambda ids: "[" + " ".join(map(str, ids)) + "]"
        parts = [";".join(
            f"{at},{t.id},{t.state},{t.priority},{t.wake_tick},{t.time_slice},{t.remaining},"
            f"{t.owned},{dash(t.waiter)},{t.start},{t.size},{t.sp},{t.result}"
            for at, t in enumerate(self.slots) if t is not None)]
        parts.append(f"{self.tick_count},{int(self.started)},{self.current},"
                     f"{self.task_count},{self.next_id}")
        parts.append(" ".join(
            f"{int(m.locked)},{dash(m.owner)},{dash(m.handoff_to)},{queue(m.queue)};"
            for m in self.mutexes))
        parts.append(" ".join(f"{s.count},{queue(s.queue)};" for s in self.semaphores))
        parts.append(" ".join(f"{int(e.signalled)},{queue(e.queue)};" for e in self.events))
        if all:
            parts += [",".join(map(str, self.charges)), self.limits(), ",".join("-" if rank is None else str(rank) for rank in self.ranks()),
                      str(self.retired)]
        return " | ".join(parts)


class Odd:
    """For tests: a kernel that no list from fresh comes to; where nothing is said it is as fresh. By slot charges and tasks: id, number,
    state and what else is not a new task's; the regions lie in the order of the slots. Started if a slot is current. By number mutexes:
    locked, owner, handed to, ids that wait; semaphores and events: the ids. What nothing may look at, the model has not: a limit's tick
    without a limit, an id and a state left in an empty slot, and the id that stands at every place behind those that wait."""

    def __init__(self, name, tick=0, charges={}, retired=0, tasks={}, current=None, mutexes={}, semaphores={}, events={}, left={}, behind=0):
        self.name, self.tick, self.charges, self.retired, self.tasks, self.current = name, tick, charges, retired, tasks, current
        self.mutexes, self.semaphores, self.events, self.left, self.behind = mutexes, semaphores, events, left, behind
        self.next_id = 1 if current is None else 9

    @staticmethod
    def region(at):
        return (8128 + 64 * at, 64) if at else (0, 8192)

    def give(self, kernel):
        """A fresh kernel becomes this one."""
        kernel.tick_count, kernel.retired, kernel.next_id = self.tick, self.retired, self.next_id
        kernel.charges = [self.charges.get(at, 0) for at in range(SLOTS)]
        if self.current is not None:
            kernel.started, kernel.current = True, self.current
        for at, (id, priority, state, more) in self.tasks.items():
            kernel.slots[at] = task = Task(id, priority, *self.region(at), SLICE if at else 1)
            task.state = state
            for field, value in more.items():
                if field != "limit_tick":
                    setattr(task, field, value)
        kernel.task_count = sum(task is not None for task in kernel.slots)
        for k, (locked, owner, handoff_to, queue) in self.mutexes.items():
            mutex = kernel.mutexes[k]
            mutex.locked, mutex.owner, mutex.handoff_to, mutex.queue = locked, owner, handoff_to, [*queue]
        for objects, queues in ((kernel.semaphores, self.semaphores), (kernel.events, self.events)):
            for k, queue in queues.items():
                objects[k].queue = [*queue]


def with_slice(name, time_slice, remaining):
    return Odd(name, tasks={1: (5, 128, RUNNING, {"time_slice": time_slice, "remaining": remaining})}, current=1)


def twice(name, first, second, priority, third, current, more=({}, {}, {}), **objects):
    """Slots 1 and 2 hold id 5, slot 3 id 7, in these states."""
    tasks = {1: (5, 128, first, more[0]), 2: (5, 100, second, more[1]), 3: (7, priority, third, more[2])}
    return Odd(name, tasks=tasks if current else {0: (0, 255, RUNNING, {}), **tasks}, current=current, **objects)


# What fresh with hz n gives in such tests, n being the place, from 1: CHARGED, then the kernels of crates/book_exam/specs/Odd.antt, by their
# names.
ODD = [Odd("charged", *given) for given in CHARGED]
ODD += [
    Odd("owner-fields", tasks={1: (5, 128, RUNNING, {"owned": 1})}, current=1,
        mutexes={0: (True, None, None, []), 1: (True, None, 5, []), 2: (False, 5, None, []), 3: (True, 5, 6, [])}),
    Odd("count-alone", tasks={1: (5, 128, RUNNING, {"owned": 1})}, current=1),
    Odd("four-owned", tasks={1: (5, 128, RUNNING, {"owned": 4}), 2: (7, 128, BLOCKED, {"owned": 4})}, current=1, mutexes={3: (True, 5, None, [7])}),
    with_slice("with-slice 5 0", 5, 0), with_slice("with-slice 0 0", 0, 0), with_slice("with-slice 0 2", 0, 2),
    twice("both-blocked", BLOCKED, BLOCKED, 200, RUNNING, 3, ({}, {}, {"owned": 1, "waiter": 5}),
          mutexes={0: (True, 7, None, [5])}, semaphores={0: [5]}),
    twice("current-twice", READY, RUNNING, 200, READY, 2, ({}, {"owned": 1}, {}), mutexes={1: (True, 5, None, [])})]
ODD += [
    twice(f"ended-twice {current}", TERMINATED, TERMINATED, 200, READY, current,
          ({"wake_tick": 9, "owned": 2, "waiter": 7, "result": -1, "ended": True, "limit_tick": 9}, {}, {})) for current in (1, 2)]
ODD += [
    Odd("empty-slot", tasks={2: (5, 100, BLOCKED, {}), 3: (7, 200, RUNNING, {})}, current=3, left={1: (5, BLOCKED)}),
    Odd("idle-twice", tasks={1: (0, 128, RUNNING, {})}, current=1),
    Odd("filled-behind", tasks={1: (5, 128, BLOCKED, {"owned": 1, "limit": ("s", 1, 1)}), 2: (7, 100, RUNNING, {"owned": 1})}, current=2, behind=7,
        mutexes={0: (True, 5, None, []), 1: (True, 7, None, [5, 6])}, semaphores={0: [8, 5, 6], 1: [8, 5, 6]}, events={0: [8, 5, 6]}),
    twice("owner-twice", READY, READY, 3, BLOCKED, 0, mutexes={0: (True, 5, None, [7])}),
    twice("waiter-twice Blocked Blocked", BLOCKED, BLOCKED, 200, READY, 0, mutexes={0: (True, 7, None, [5])}),
    twice("waiter-twice Ready Blocked", READY, BLOCKED, 200, READY, 0, mutexes={0: (True, 7, None, [5])}),
    twice("waiter-twice Blocked Ready", BLOCKED, READY, 200, READY, 0, mutexes={0: (True, 7, None, [5])}),
    twice("own-mutex Ready", BLOCKED, READY, 3, RUNNING, 3, mutexes={0: (True, 5, None, [5])}),
    twice("own-mutex Blocked", BLOCKED, BLOCKED, 3, RUNNING, 3, mutexes={0: (True, 5, None, [5])})]


def fresh(hz, arena):
    """(number, kernel); the blank kernel is given as None."""
    if not 2048 <= len(arena) <= 16384:
        return 1, None
    if hz == 0:
        return 7, None
    return 0, Kernel(hz, arena)


DIGITS = frozenset(b"0123456789abcdef")


def objects(call):
    """An operation on the object k."""
    return "k", lambda machine, k, y: getattr(machine.kernel, call)(k)


# Operation: the operands that it uses, and what it does.
TURNS = {
    0x01: ("ky", lambda machine, k, y: machine.kernel.add(machine.arena, k, y >> 16, y & 0xFFFF)),
    0x02: ("", lambda machine, k, y: machine.kernel.start()),
    0x03: ("", lambda machine, k, y: machine.kernel.tick()),
    0x04: ("y", lambda machine, k, y: machine.kernel.switch(machine.arena, y)),
    0x05: ("", lambda machine, k, y: machine.kernel.exit()),
    0x06: ("y", lambda machine, k, y: machine.kernel.wait(y)),
    0x07: ("y", lambda machine, k, y: machine.kernel.reap(y)),
    0x08: ("y", lambda machine, k, y: machine.kernel.sleep_ms(y)),
    0x09: ("y", lambda machine, k, y: machine.kernel.wake(y)),
    0x0A: objects("lock"), 0x0B: objects("unlock"), 0x0C: objects("try_lock"), 0x0D: objects("acquire"),
    0x0E: objects("try_acquire"), 0x0F: objects("release"), 0x10: objects("event_wait"), 0x11: objects("signal"),
    0x12: ("k", lambda machine, k, y: machine.kernel.status(k)),
    0x13: ("", lambda machine, k, y: machine.kernel.block()),
    0x14: ("", lambda machine, k, y: machine.kernel.reap_one()),
}
TABLES = {
    **TURNS,
    0x15: ("ky", lambda machine, k, y: machine.kernel.acquire(k, y)),
    0x16: ("ky", lambda machine, k, y: machine.kernel.event_wait(k, y)),
    0x18: ("ky", lambda machine, k, y: machine.ticks_to_ms(y, k)),
    0x1B: ("k", lambda machine, k, y: machine.list(k)),
    0x1C: ("", lambda machine, k, y: machine.kernel.current_id()),
    0x1D: ("ky", lambda machine, k, y: machine.kernel.result(y, k - 256 if k >= 128 else k)),
    0x1E: ("ky", lambda machine, k, y: machine.word(y, k)),
    0x1F: ("y", lambda machine, k, y: machine.fresh(y)),
}


class Machine:
    """What is under `turns` or `tables`: a line in, an answer out."""

    def __init__(self, tables, tick=0, odd=False):
        """Tick: with which tick_count a fresh kernel begins, for tests of the last ticks. Odd: fresh gives the kernels of ODD too."""
        self.operations = TABLES if tables else TURNS
        self.arena, self.tick, self.odd = [0] * 4096, tick, odd
        self.fresh(1000)

    def adds_up(self):
        """W-206, of every list from fresh: the charges of occupied slots and the retired sum are the ticks accepted after the start, and
        empty slots have 0. Together they are at most tick_count then: the kernel is whole."""
        kernel, occupied, empty = self.kernel, 0, 0
        for task, charge in zip(kernel.slots, kernel.charges):
            if task is None:
                empty += charge
            else:
                occupied += charge
        return empty == 0 and occupied + kernel.retired == self.ticks and kernel.whole()

    def fresh(self, hz):
        number, kernel = fresh(hz, self.arena)
        if number == 0:
            self.kernel = kernel
            kernel.tick_count = self.tick
            self.ticks = 0      # accepted after the start
            if self.odd and hz <= len(ODD):
                ODD[hz - 1].give(kernel)
        return number, 0

    def list(self, lent):
        records = [None] * lent
        number, written = self.kernel.list(self.arena, records)
        if number == 0:
            self.appended = " " + ";".join(",".join(map(str, record)) for record in records[:written])
        return number, written

    def ticks_to_ms(self, y, k):
        """Of y * 2^k ticks."""
        return (0xFF, 0) if k > 32 else self.kernel.ticks_to_ms(y << k)

    def word(self, at, what):
        """No call: a word of the lent arena becomes 0 or the paint."""
        if what > 1 or at >= len(self.arena):
            return 0xFF, 0
        self.arena[at] = PAINT if what else 0
        return 0, 0

    def step(self, line):
        """(operation, number, value) of a line, its line feed off; no operation where it is not 12 digits. What is
        appended to the answer is in self.appended, what a release or signal dropped in self.kernel.dropped, what a tick found in
        self.kernel.due and self.kernel.slept."""
        self.appended = ""
        self.kernel.dropped, self.kernel.due, self.kernel.slept = [], [], []
        if len(line) != 12 or not DIGITS.issuperset(line):
            return None, 0xFF, 0
        op, k, y = int(line[0:2], 16), int(line[2:4], 16), int(line[4:12], 16)
        if op not in self.operations:
            return op, 0xFF, 0
        used, call = self.operations[op]
        if k and "k" not in used or y and "y" not in used:
            return op, 0xFF, 0
        started = self.kernel.started
        if self.odd and op not in (0x1E, 0x1F) and not self.kernel.whole():
            return op, 1, 0
        number, value = call(self, k, y)
        if op == 0x03 and number == 0 and started:
            self.ticks += 1
        assert self.odd or self.adds_up(), line
        return op, number, U32 if value is None else value

    def answer(self, number, value):
        return f"{number:02x}{value:08x}{self.kernel.current:02x}{self.appended}\n"


def lines_of(data):
    """A line ends at a line feed; a rest without one is a line if not empty."""
    lines = data.split(b"\n")
    if lines[-1] == b"":
        lines.pop()
    return lines


def limits_met(current, before, kernel, op, k, answer):
    """What a call did to limits, as tuples; see LIMITS in tests/adversarial/run. Before it: current, and of each slot id, limit and mark."""
    for at, (id, limit, mark) in before.items():
        task, blocked_anew = kernel.slots[at], at == current and op in (0x15, 0x16) and answer == (0, 0)
        if task is None or task.id != id:
            continue
        if blocked_anew and task.limit[2] == U64:
            yield "held", task.limit[0]
        if limit is None:
            if blocked_anew:
                yield "begun", op, mark
        elif blocked_anew:
            yield "ended and begun", limit[0], mark, op
        elif task.limit is None and task.ended:
            yield "ended by its tick", limit[0], mark
        elif task.limit is None:
            yield "ended otherwise", limit[0], mark, op, k if op == 0x12 else "current's" if at == current else "another's"
        elif at == current:
            yield "left", op, answer[0]
    runs, places = kernel.own().state == RUNNING, [(kind, k) for _, kind, k, _, _ in kernel.due]
    for at, kind, _, place, length in kernel.due:
        yield "place", kind, place, length
        if kernel.tick_count == U64:
            yield "last tick", kind
        yield "tick", kind, "idle's" if at == 0 else "current's" if at == kernel.current else "another's", runs
        yield "tick", kind, "with a sleeper" if kernel.slept else "with no sleeper", runs
    if places:
        yield "tick", "several of one queue" if len(set(places)) < len(places) else "several" if len(places) > 1 else "one", runs


def times_met(kernel, k, y, number):
    """What was asked of milliseconds from y * 2^k ticks, as tuples; see TIMES in tests/adversarial/run."""
    hz, ticks = kernel.hz, y << k
    rate = "below 1000" if hz < 1000 else "at 1000" if hz == 1000 else "above 1000"
    refused = lambda y: 1000 * (y << k) // hz > U32
    yield "current", kernel.own().state, kernel.started, number
    if y == 0:
        yield rate, "no ticks"
    else:
        yield "k", k, number
        if 1000 * ticks < hz:
            yield rate, "ticks that are 0 ms"
        if number == 0:
            yield rate, "rounded down" if 1000 * ticks % hz else "exact"
    if not refused(y) and refused(y + 1):
        yield rate, "last before 23"
    if refused(y) and not refused(y - 1):
        yield rate, "first with 23"
    if 1000 * ticks > U64:
        yield rate, "past 2^64"
        if (1000 * ticks & U64) // hz <= U32:
            yield rate, "past 2^64, accepted if it wrapped"


# The operations that alter a charge or the retired sum.
CHARGING = (b"01", b"03", b"07", b"14", b"1f")


def charges_before(kernel):
    """What charges_met is given of the kernel before the call."""
    return [*kernel.charges], kernel.retired, kernel.states(), kernel.current, kernel.started, {**kernel.moved}


def charges_met(before, kernel, op, y, number):
    """What one of CHARGING did to charges, as tuples; see CHARGES in tests/adversarial/run. Before it: see charges_before."""
    charges, retired, states, current, started, moved = before
    whose = lambda at: ("idle's",) if at == 0 else ("current's" if at == current else "another's", states[at])
    if op == 0x01 and number == 0:
        at = next(at for at in range(SLOTS) if states[at] == EMPTY)
        yield "added", "a slot not used before" if at not in moved else "one with a charge before" if moved[at] else "one used before", retired > 0
    if op == 0x03 and number == 18:
        yield "tick", 18
    elif op == 0x03 and not started:
        yield "tick", "before the start"
    elif op == 0x03:
        yield "tick", *whose(current)
        if moved.get(current):
            yield "tick", "in a slot with a charge before", charges[current] > 0
    if op in (0x07, 0x14) and number == 0:
        at = next((at for at in range(SLOTS) if states[at] != EMPTY and kernel.slots[at] is None), None)
        if at is None:
            yield "none", "current has ended" if states[current] == TERMINATED and charges[current] else "otherwise", retired > 0
        else:
            yield "moved", op, "a charge" if charges[at] else "none", retired > 0
            if charges[at]:
                yield "moved from", at, op
                if kernel.retired > 255:
                    yield "moved, past 255", op
                if kernel.tick_count == U64:
                    yield "moved at the last tick", op
    if op == 0x07 and number == 8 and retired:
        yield "left", 8
    if op == 0x07 and number == 9 and charges[kernel.find(y)]:
        yield "left", 9, *whose(kernel.find(y))
    if op == 0x1f and retired and any(charges):
        yield "fresh", number


def broken_law(lines, printed):
    """W-206's law held to what `tables` printed for these lines, a fresh kernel's first, and to that alone: the first line, from 0, after which
    the charges of occupied slots and the retired sum are not the ticks accepted after the start, or an empty slot has a charge; or None."""
    ticks, started = 0, False
    for n, line in enumerate(lines):
        accepted, parts = printed[2 * n].startswith("00"), printed[2 * n + 1].rstrip("\n").split(" | ")
        if accepted and line.startswith(b"1f"):
            ticks = 0
        elif accepted and line.startswith(b"03") and started:
            ticks += 1
        started = parts[1].split(",")[1] == "1"
        charges, occupied = [int(charge) for charge in parts[5].split(",")], {int(slot.partition(",")[0]) for slot in parts[0].split(";")}
        if sum(charges[at] for at in occupied) + int(parts[8]) != ticks or any(charges[at] for at in range(SLOTS) if at not in occupied):
            return n
    return None


def wrong_ranks(kernel, links=LINKS, highest=False, skip=False, up=False):
    """Ranks that are not 02's: by chains of at most so many links; by the highest mutex at which a task is queued; by the lowest whose
    owner is present; or of waiters that are not Blocked too. With none of these they are 02's."""
    def link(at):
        if not up and kernel.slots[at].state != BLOCKED:
            return None
        found = [kernel.find(kernel.mutexes[k].owner) for k in kernel.mutexes_of(at)]
        if skip:
            found = [to for to in found if to is not None]
        return found[-1 if highest else 0] if found else None

    ranks = [None if task is None else task.priority for task in kernel.slots]
    for at, task in enumerate(kernel.slots):
        to, left = None if task is None else link(at), links
        while to is not None and left > 0:
            ranks[to] = min(ranks[to], task.priority)
            to, left = link(to), left - 1
    return ranks


# What a pick by ranks that are not 02's is called where it gives another slot.
WRONG_PICKS = {"the own number": {"links": 0}, "one link": {"links": 1}, "two links": {"links": 2}, "three links": {"links": 3},
               "the highest mutex": {"highest": True}, "the next mutex where an owner is gone": {"skip": True}, "waiters that are up": {"up": True}}


def picks_of(kernel, picking):
    """Before a call the ranks, the states that a start or a switch would look at and, where it is one, what it would pick by every kind of
    rank that is not 02's."""
    states = kernel.states()
    if kernel.started and kernel.own().state == RUNNING:
        states[kernel.current] = READY
    picks = {name: pick(states, wrong_ranks(kernel, **how), kernel.current) for name, how in WRONG_PICKS.items()} if picking else {}
    return kernel.ranks(), states, picks


def ranks_met(before, kernel, op):
    """What is to be seen of ranks after an accepted call, as tuples; see RANKS in tests/adversarial/run. Before it: ids, ranks, states, picks,
    current, and the mutexes at which that was queued."""
    ids, old, states, picks, current, queued_before = before
    new = kernel.ranks()
    for at, task in enumerate(kernel.slots):
        if task is None:
            continue
        queued = kernel.mutexes_of(at)
        if new[at] < task.priority:
            yield ("lent", task.state)
            if at == 0:
                yield ("idle", "lent")
        if task.id == ids[at] and new[at] != old[at]:
            yield ("smaller by" if new[at] < old[at] else "larger by", op)
        if queued and task.state != BLOCKED:
            yield ("queued", task.state)
        if not queued or task.state != BLOCKED:
            continue
        chain, to = kernel.chain(at), kernel.link(at)
        if to is None:
            yield ("owner", EMPTY, False)
        else:
            yield ("owner", kernel.slots[to].state, kernel.mutexes_of(to) != [])
            back = kernel.link(chain[-1])
            if back is None:
                yield ("links", len(chain))
            elif at in chain:
                yield ("ring", len(chain))
            else:
                yield ("ring", len(chain) - chain.index(back), "outside", chain.index(back) + 1)
        if len(queued) > 1:
            yield ("queued at", len(queued), to is not None)
        if at == 0:
            yield ("idle", "lends")
        if 0 in chain[:-1]:
            yield ("idle", "in the middle")
    if any(kernel.find(id) is None for mutex in kernel.mutexes for id in mutex.queue):
        yield ("queued", EMPTY)
    if op not in (0x02, 0x04) and states[current] != BLOCKED and kernel.own().state == BLOCKED and queued_before:
        yield ("Blocked anew by", op)
    if op in (0x02, 0x04):
        yield from (("pick, not by", name) for name, slot in picks.items() if slot != kernel.current)
        peers = {kernel.slots[at].priority for at in range(SLOTS) if states[at] == READY and old[at] == old[kernel.current]}
        if states[kernel.current] == READY and len(peers) > 1:
            yield ("pick, peers of several numbers",)
        if READY not in states:
            yield ("pick, none Ready", "lent" if old[0] < 255 else "not lent", "ranks change" if new != old else "no rank changes")


def run(data, tables, out, tick=0, odd=False):
    """Appends what `turns` or `tables` prints, line by line. Gives the pairs of operation and number that were met; of each
    release and signal that dropped heads the operation, their states (EMPTY for one that is gone) and how many ids stay queued; what
    was done to limits; of which ticks milliseconds were asked; what was to be seen of ranks, each with how often; and what was done to
    charges, likewise."""
    machine, table, met, drops, limits, times, ranks = Machine(tables, tick, odd), None, set(), set(), set(), set(), Counter()
    charges = Counter()
    for line in lines_of(data):
        kernel = machine.kernel
        queues = any(mutex.queue for mutex in kernel.mutexes)
        seen = ([None if t is None else t.id for t in kernel.slots], *picks_of(kernel, line[:2] in (b"02", b"04")), kernel.current,
                kernel.mutexes_of(kernel.current)) if queues or line[:2] == b"0a" else None
        charged = charges_before(kernel) if tables and line[:2] in CHARGING else None
        current, before = kernel.current, {at: (t.id, t.limit, t.ended) for at, t in enumerate(kernel.slots) if t is not None} if tables else {}
        op, number, value = machine.step(line)
        met.add((op, number))
        if machine.kernel.dropped:
            drops.add((op, tuple(machine.kernel.dropped), machine.kernel.left))
        if kernel is machine.kernel:
            limits.update(limits_met(current, before, kernel, op, None if op is None else int(line[2:4], 16), (number, value)))
        if op == 0x18 and number != 0xFF:
            times.update(times_met(kernel, int(line[2:4], 16), int(line[4:12], 16), number))
        if seen and kernel is machine.kernel and number == 0:
            ranks.update(set(ranks_met(seen, kernel, op)))
        if charged and number != 0xFF:
            charges.update(charges_met(charged, kernel, op, int(line[4:12], 16), number))
        out.append(machine.answer(number, value))
        if tables:
            if number == 0 or table is None:    # a refusal alters nothing
                table = machine.kernel.table() + "\n"
            out.append(table)
    return met, drops, limits, times, ranks, charges


def replay(data, out):
    machine = Machine(True)
    for line in lines_of(data):
        if line == b"new":
            machine = Machine(True)
            out.append("new\n")
            continue
        op, number, value = machine.step(line)
        out.append(machine.answer(number, 0 if op in (0x09, 0x0F, 0x11) else value))
        out.append(machine.kernel.table(all=False) + "\n")


class Out:
    """Collects lines, writes them in bulk."""

    def __init__(self):
        self.lines = []

    def append(self, line):
        self.lines.append(line)
        if len(self.lines) >= 4096:
            self.flush()

    def flush(self):
        sys.stdout.write("".join(self.lines))
        self.lines.clear()


def main():
    if sys.argv[1:] not in (["turns"], ["tables"], ["replay"]):
        sys.exit(__doc__)
    data, out = sys.stdin.buffer.read(), Out()
    if sys.argv[1] == "replay":
        replay(data, out)
    else:
        run(data, sys.argv[1] == "tables", out)
    out.flush()


if __name__ == "__main__":
    main()
