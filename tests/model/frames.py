#!/usr/bin/env python3
"""Random lists for `turns` or `tables` that are to meet every refusal that a list from fresh can meet there, with malformed lines; lists
in which release or signal drops up to eight heads; lists with chains of one to four links from waiter to owner and rings of two to
four; and for `tables` lists in which limits end: out of queues of up to eight by their own ticks, and in every other way; lists with
the milliseconds of ticks, at many rates; and lists in which tasks with charges are reaped and others get their slots.

  frames.py SEED LINES MALFORMED LISTS turns|tables PROGRAM [ARG..]
        LISTS lists of LINES lines, from SEED on, MALFORMED of them malformed (0.03 is 3 in 100), and ten times as many of
        each other kind; runs PROGRAM on each and compares with model.py, byte for byte
  frames.py late SEED LISTS PROGRAM [ARG..]
        LISTS lists with limits and sleeps in the last ticks before 2^64 - 1, and as many with charges, for a `tables` whose fresh
        kernel begins at model.LATE (tests/differential/unproved.py makes it)"""
import random
import sys

sys.dont_write_bytecode = True
import against
import model

# What queues current, and what drops heads of that queue.
DROPS = {0xa: 0xb, 0xd: 0xf, 0x10: 0x11}
# The form with a limit of what queues current.
WITHIN = {0xd: 0x15, 0x10: 0x16}
# The rates at which the milliseconds of ticks are asked.
RATES = [1, 2, 3, 7, 100, 999, 1000, 1001, 1024, 32768, 10**6, 2**31, model.U32]


def malformed():
    """Most of these are no call."""
    whole = f"{rng.randrange(256):02x}{rng.randrange(256):02x}{rng.randrange(1 << 32):08x}".encode()
    kind = rng.randrange(9)
    if kind == 0:
        return whole[:rng.randrange(12)]
    if kind == 1:
        return whole + whole[:rng.randrange(1, 12)]
    if kind == 2:
        return b"03000000000" + bytes([rng.choice([x for x in range(256) if x != 10])])
    if kind == 3:
        return bytes(rng.choice([x for x in range(256) if x != 10]) for _ in range(rng.randrange(40)))
    if kind == 4:
        return b"030000000000\r"
    if kind == 5:
        return whole.upper()
    if kind == 6:
        return b" 030000000000"[rng.randrange(2):][:12]
    if kind == 7:
        op = rng.choice([2, 3, 5, 0x13, 0x14, *range(0x15, 0x20)])
        return f"{op:02x}{rng.choice([0, 1, 2, 255]):02x}{rng.choice([0, 1, 4095, 4096, 1 << 31]):08x}".encode()
    return whole


def operation():
    if machine.operations is model.TABLES:
        if rng.random() < .003:
            return 0x1f
        if rng.random() < (.5 if mood == "words" else .05):
            return rng.choice([0x1b, 0x1b, 0x1c, 0x1d, 0x1e, 0x1e])
    if mood == "crowd":
        return rng.choice([4, 4, 4, what, what, what, 9, 3, 1])
    if mood == "heads":
        return rng.choice([4] * 6 + [what] * 6 + [9] * 3 + [5, 8, 0x12, 7, 1, 3, DROPS[what]])
    if mood == "limits":
        return rng.choice([3, 3, 3, 4, 4, 4, 0x15, 0x15, 0x16, 0x16, 0x15, 0x16, 0xd, 0x10, 0xf, 0x11, 6, 8, 9, 0xa, 0xb, 0x12, 0x13, 5, 7, 1])
    if mood == "life":
        return rng.choice([1, 1, 3, 4, 4, 4, 5, 5, 6, 6, 7, 7, 9, 0x14, 0x12])
    if mood == "mutex":
        return rng.choice([3, 4, 4, 4, 5, 9, 0xa, 0xa, 0xa, 0xb, 0xb, 0xb, 0xc])
    if mood == "chains":
        return rng.choice([4, 4, 4, 4, 9, 9, 9, 0xa, 0xa, 0xa, 0xa, 0xa, 0xb, 0xb, 0x13, 8, 0x12, 5, 7, 3, 0x10, 0x11])
    if mood == "words":
        return rng.choice([1, 3, 4, 4, 4, 4, 5, 7, 9, 0x14])
    return rng.randrange(0x01, 0x17 if machine.operations is model.TABLES else 0x15)


def word():
    """A word to alter or to paint: often a guard of current's that is altered now, or the first words of a region."""
    own, task = machine.kernel.own(), rng.choice([task for task in machine.kernel.slots if task is not None])
    altered = [at for at in range(own.start // 4, own.start // 4 + 4) if machine.arena[at] != model.PAINT]
    if altered and rng.random() < .6:
        return altered[0], 1
    at = rng.choice([task.start // 4 + rng.randrange(6), task.start // 4 + rng.randrange(task.size // 4), rng.randrange(4096)])
    return min(at, 4095), rng.randrange(2)


def frame():
    kernel, own = machine.kernel, machine.kernel.own()
    present = [t for t in kernel.slots if t is not None]
    ids = [t.id for t in present]
    op = operation()
    a = y = 0
    if op == 1:
        a = rng.choice([7, 8, 8, 128, 255])
        size = rng.choice([16, 16, 16, 20, 64, 64, 256, 12, 18, 0, 0xfffc])
        start = rng.choice([8192 + 4 * rng.randrange(2048)] * 12 + [16384 - size, 16388 - size, 8188, 0, 8194, 0xfffc])
        if rng.random() < .5:
            end = rng.choice(present)
            start = end.start + end.size
        y = (start & 0xffff) << 16 | size
    elif op == 4:
        y = own.start + rng.randrange(own.size)
        if rng.random() < .1:
            y = rng.choice([own.start + own.size, own.start + own.size + 4, max(0, own.start - 1), rng.randrange(1 << 32), 0xffffffff, 0])
    elif op in (6, 7, 9, 0x1d):
        y = rng.choice(ids if rng.random() < .8 else [own.id, kernel.next_id, 0, 0xffffffff])
        if op == 7 and rng.random() < .5:
            y = rng.choice([t.id for t in present if t.state == 5] or ids)
        if op == 0x1d:
            a = rng.choice([0, 1, 127, 128, 255])
    elif op == 8:
        y = rng.choice([0, 1, 1, 2, 3, 10, 0xffffffff])
    elif 0xa <= op <= 0x11 or op in (0x15, 0x16):
        a = 0 if mood in ("crowd", "heads") else rng.randrange(4) if mood == "chains" else rng.choice([0, 0, 0, 1, 2, 3])
        if rng.random() < .02:
            a = rng.choice([4, 5, 128, 255])
        if op > 0x11:
            y = rng.choice([1, 1, 1, 2, 2, 3, 3, 4, 5, 8, 20, 50, 0, 0xffffffff])
    elif op == 0x12:
        a = rng.choice([0, 0, 0, 0, 2, 3, 4, 1, 5, 6, 255])
    elif op == 0x1b:
        a = rng.choice([kernel.task_count, kernel.task_count, kernel.task_count - 1, 0, 16, 255])
    elif op == 0x1e:
        y, a = word()
    elif op == 0x1f:
        y = rng.choice([0, 0, 1, 3, 100, 999, 1000, 1001, 0xffffffff])
    return f"{op:02x}{a:02x}{y:08x}".encode()


def make(seed, lines, share, tables):
    """A list, as bytes."""
    global rng, machine, mood, what
    rng, machine, mood, what, out = random.Random(seed), model.Machine(tables), "any", 0xd, []
    for n in range(lines):
        if rng.random() < .02:
            mood = rng.choice(["any", "any", "crowd", "heads", "life", "mutex", "chains"] + ["words", "limits", "limits"] * tables)
            what = rng.choice([*DROPS, *WITHIN.values()] if tables and mood == "crowd" else [*DROPS])
        if rng.random() < share:
            line = malformed()
        elif not machine.kernel.started and n > 10 and rng.random() < .2:
            line = b"020000000000"
        else:
            line = frame()
        machine.step(line)
        out.append(line)
    return b"\n".join(out) + (b"\n" if rng.random() < .5 else b"")


# What ends a limit other than its own tick: the operation, and for a status its k, else whether the task is current. A switch
# ends idle's alone.
ENDS = [(op, "current's") for op in (4, 5, 6, 8, 9, 0xa, 0xd, 0xf, 0x10, 0x11, 0x13, 0x15, 0x16)]
ENDS += [(op, "another's") for op in (4, 5, 9, 0xb, 0xf, 0x11)] + [(0x12, k) for k in (0, 2, 3, 4)]


def ended(seed):
    """A list of `tables`, as bytes: a limit is left by calls that are refused or need not block, and then ended by one of ENDS, with the
    mark yes or no before: by the seed each in turn. Then ticks up to where it would have ended, and a release or signal."""
    (op, who), wait, mark = ENDS[seed % len(ENDS)], [*WITHIN][seed // len(ENDS) % 2], seed // len(ENDS) // 2 % 2
    rng, k, out = random.Random(seed), seed % 4, []
    ticks = rng.randrange(2, 6)

    def call(op, k=0, y=0):
        out.append(f"{op:02x}{k:02x}{y:08x}".encode())

    def limited():
        if mark:
            call(WITHIN[wait], k, 1)
            call(3)
        for before, *rest in ((0xb, 0xa), (5, 6, 0, 2), (0xf, 0xd, k), (0x11, 0x10, k)):
            if op == before:
                call(*rest)
        call(WITHIN[wait], k, ticks)

    for at in range(3):
        call(1, 8, (8192 + 16 * at) << 16 | 16)
    call(2)
    if op == 4:
        # All block, and idle waits; another one is woken, and blocks again.
        for at in range(3):
            call(0x13)
            call(4, 0, 8192 + 16 * at)
        limited()
        call(5)
        if who == "another's":
            call(9, 0, 2)
            call(4, 0, 0)
            call(0x13)
        call(4, 0, 0 if who == "current's" else 8208)
    else:
        # Task 1 waits. Before that task 2 has taken a mutex and was a waiter, and task 3 has ended.
        call(4, 0, 8192)
        call(0xa)
        call(6, 0, 0)
        call(4, 0, 8208)
        call(5)
        call(4, 0, 8224)
        call(9, 0, 2)
        limited()
        # These leave the limit: refused, not blocking, or about other tasks.
        other = (k + 1) % 4
        for one in ((6, 0, 0), (6, 0, 1), (6, 0, 3), (6, 0, 9), (0x12, 1), (0x12, 5), (0x15, k, 0), (0x16, k, 0), (0x15, 4, 1), (0x16, 4, 1),
                    (0xd, 4), (0x10, 4), (3,)):
            if rng.random() < .5:
                call(*one)
        for gives, takes in ((0xf, 0x15), (0xf, 0xd), (0x11, 0x16), (0x11, 0x10)):
            call(gives, other)
            call(takes, other, 9 if takes > 0x14 else 0)
        for one in ((0xa, 1), (5,), (0xb, 1)):
            call(*one)
        if who == "another's":
            call(4, 0, 8192)
            if op == 5:
                call(0xb)
        call(op, who if op == 0x12 else k if op > 0xc and op != 0x13 else 0,
             {6: 2, 8: rng.randrange(9), 9: 1, 0x15: 7, 0x16: 7}.get(op, 0))
    for _ in range(ticks + 1):
        call(3)
    call(DROPS[wait], k)
    return b"\n".join(out)


def limits(seed, tick=0):
    """A list of `tables`, as bytes: one to eight tasks, in low slots or in the last ones, queue at a semaphore or an event, idle among
    them or not, most with a limit, and others sleep. The limit of one of them ends first, or with others: by the seed each in turn of
    every place of every length. Then ticks, and calls that end limits otherwise."""
    rng, machine, out = random.Random(seed), model.Machine(True, tick), []

    def call(op, k=0, y=0):
        out.append(f"{op:02x}{k:02x}{y:08x}".encode())
        machine.step(out[-1])

    def switch():
        call(4, 0, machine.kernel.own().start)

    wait = [*WITHIN][seed % 2]
    length, place = [(length, place) for length in range(1, 9) for place in range(length)][seed // 2 % 36]
    k, first, idle = rng.randrange(4), rng.randrange(1, 5), rng.random() < .4
    alone = seed // 72 % 3 == 0     # no other limit ends at that tick, and nothing comes before it
    later = lambda: rng.choice([first + alone, first + 1, first + 2, rng.randrange(5, 20), 0xffffffff])
    tasks = length - idle + rng.randrange(4)
    worse = 15 - tasks if not idle and rng.random() < .3 else 0
    for at in range(worse + tasks):
        call(1, 9 if at < worse else 8, (8192 + 16 * at) << 16 | 16)
    call(WITHIN[wait], rng.randrange(5), rng.randrange(2))
    call(2)
    for at in range(length):
        while at == length - 1 and idle and machine.kernel.current != 0:
            call(8, 0, rng.choice([first, first, 1, 9]))
            switch()
        if rng.random() < .15:
            call(rng.choice([*WITHIN.values()]), rng.randrange(4), later())
        if at == place or rng.random() < .7:
            call(WITHIN[wait], k, first if at == place else later())
        else:
            call(wait, k)
        if machine.kernel.current != 0:
            switch()
    if length == 8 and not idle and machine.kernel.current != 0:
        # A ninth, with a limit elsewhere.
        call(WITHIN[wait], (k + 1) % 4, later())
        call(wait, k)
        call(WITHIN[wait], k, later())
        call(WITHIN[wait], k, 0)
    for _ in range(first if alone else rng.randrange(first)):
        call(3)
    for _ in range(rng.randrange(10, 60)):
        op = rng.choice([3] * 9 + [4] * 5 + [WITHIN[wait], WITHIN[wait], wait, DROPS[wait], 5, 6, 8, 9, 9, 0xa, 0xa, 0xb, 0xd, 0xf, 0x10, 0x11,
                                             0x12, 0x12, 0x13, 0x14, 0x15, 0x16])
        ids = [task.id for task in machine.kernel.slots if task is not None]
        if op == 4:
            switch()
        elif op in (6, 9):
            call(op, 0, rng.choice(ids))
        elif op == 8:
            call(op, 0, rng.randrange(4))
        elif op == 0x12:
            call(op, rng.choice([0, 2, 3, 4]))
        elif op in (0xa, 0xb):
            call(op, rng.randrange(2))
        elif op in (0x15, 0x16):
            call(op, rng.choice([k, k, rng.randrange(5)]), rng.choice([1, 1, 2, 2, 3, 5, 0, later()]))
        elif op > 0xb and op < 0x12:
            call(op, rng.choice([k, k, rng.randrange(4)]))
        else:
            call(op)
    # Some end and are reaped, and others get their slots.
    for _ in range(3):
        switch()
        call(5)
    switch()
    for _ in range(3):
        call(0x14)
        call(1, 8, (8192 + 16 * rng.randrange(worse + tasks + 1)) << 16 | 16)
    return b"\n".join(out)


def queues(seed):
    """A list, as bytes: up to eight tasks queue at a semaphore or an event, each is then in some state or gone, and releases or
    signals drop them."""
    rng, machine, out = random.Random(seed), model.Machine(False), []

    def call(op, k=0, y=0):
        out.append(f"{op:02x}{k:02x}{y:08x}".encode())
        machine.step(out[-1])

    def switch():
        call(4, 0, machine.kernel.own().start)

    queue, take = rng.choice([(0xd, 0xe), (0x10, 0x10)])
    k, heads, others = rng.randrange(4), rng.randrange(9), [state for state in range(7) if state != model.BLOCKED]
    # The first ones are not Blocked; behind them one that is, and any.
    fates = [rng.choice(others) for _ in range(heads)]
    fates += [rng.choice([model.BLOCKED, *others]) if at else model.BLOCKED for at in range(rng.randrange(9 - heads))]
    ids = lambda state: [id for id, fate in enumerate(fates, 1) if fate == state]
    for at in range(len(fates)):
        call(1, 8, (8192 + 16 * at) << 16 | 16)
    call(2)
    for fate in fates:
        call(queue, k)
        if fate == model.SLEEPING:
            call(8, 0, 1000)
        elif fate == model.SUSPENDED:
            call(0x12, model.SUSPENDED)
        elif fate in (model.TERMINATED, model.EMPTY):
            call(5)
        switch()
    # Idle is current, and none is Ready.
    for id in ids(model.EMPTY):
        call(7, 0, id)
    for id in ids(model.RUNNING)[:1]:
        call(9, 0, id)
        switch()
    for id in ids(model.READY) + ids(model.RUNNING)[1:]:
        call(9, 0, id)
    for _ in range(rng.randrange(1, 10)):
        call(DROPS[queue], k)
        if rng.random() < .3:
            call(take, k)
    for _ in fates:
        switch()
        call(*rng.choice([(queue, k), (0x13,)]))
        call(DROPS[queue], k)
    return b"\n".join(out)


# Shapes of chains: how many tasks of a ring, none for no ring; how many links lead to it or, without one, there are.
SHAPES = [(0, 1), (0, 2), (0, 3), (0, 4), (2, 0), (2, 1), (2, 2), (2, 3), (3, 0), (3, 1), (3, 2), (4, 0), (4, 1)]
# How many mutexes one waits at, and whether the owner of the lowest is gone.
SEVERAL = [(count, gone) for count in (2, 3, 4) for gone in (False, True)]


def chains(seed):
    """A list, as bytes: by the seed each in turn of SHAPES, of SEVERAL, an owner that has ended, and fifteen tasks that wait at any mutexes,
    each with tasks in any slots and at any numbers, idle among them or not. Then up to two of the tasks are brought up, put to sleep,
    suspended or Blocked for another reason, others stand by, and calls of all kinds that alter ranks follow."""
    rng, machine, out = random.Random(seed), model.Machine(True), []
    kernel, mutexes = machine.kernel, rng.sample(range(4), 4)
    palette = rng.choice([[7, 128, 200], [7, 8, 9, 100, 128, 200, 254, 255], [*range(256)]])

    def call(op, k=0, y=0):
        out.append(f"{op:02x}{k:02x}{y:08x}".encode())
        machine.step(out[-1])

    def switch():
        call(4, 0, kernel.own().start)

    def brought_up(at):
        """Whether that slot is current and Running: those that come first block."""
        for _ in range(40):
            if kernel.current == at and kernel.own().state == model.RUNNING:
                return True
            if kernel.slots[at] is None or kernel.slots[at].state not in (model.READY, model.BLOCKED, model.RUNNING):
                return False
            if kernel.slots[at].state == model.BLOCKED:
                call(9, 0, kernel.slots[at].id)
            if kernel.current != at and kernel.own().state == model.RUNNING:
                call(0x13)
            switch()
        return False

    def locks(at, *which):
        if brought_up(at):
            for k in which:
                call(0xa, k)

    def waits(pairs):
        """Each of these slots takes its mutex, if it has one; then each waits, in any order."""
        for at, own, _ in pairs:
            if own is not None:
                locks(at, own)
        for at, _, wanted in rng.sample(pairs, len(pairs)):
            if wanted is not None:
                locks(at, wanted)

    def ended_owner(at, k, other, more=()):
        """Ends while it waits there and at more, is handed that mutex by the other one, and is still there."""
        locks(other, k)
        locks(at, k, *more)
        call(5)
        locks(other)
        call(0xb, k)

    kind = seed % (len(SHAPES) + len(SEVERAL) + 3)
    knot = kind == len(SHAPES) + len(SEVERAL) + 2
    count = 15 if knot else rng.randrange(6, 10)
    if rng.random() < .4:
        # One that ends and is reaped: ids are no slots then.
        for first in ((1, 0, 8192 << 16 | 16), (2,), (5,)):
            call(*first)
        switch()
        call(0x14)
    for at in range(count):
        call(1, rng.choice(palette), (8192 + 16 * at) << 16 | 16)
    call(2)
    slots = rng.sample(range(1, count + 1), count)
    if rng.random() < .5:
        slots[rng.randrange(4)] = 0
    if knot:
        for at in slots:
            locks(at, *rng.sample(range(4), rng.randrange(1, 5)))
    elif kind < len(SHAPES):
        ring, links = SHAPES[kind]
        members = ring + links + (ring == 0)
        in_order = ring == 0 and rng.random() < .6
        if in_order:
            # The best one waits at the far end, and the next best one stands by.
            slots.sort(key=lambda at: -kernel.slots[at].priority)
            slots[members - 1:] = [slots[-1], slots[-2], *slots[members - 1:-2]]
        owns = [mutexes[n] if n < members - (links > 0) else None for n in range(members)]
        wants = [owns[(n + 1) % ring] if n < ring else owns[rng.randrange(ring)] if ring and n == ring else owns[n - 1] if n else None
                 for n in range(members)]
        waits([*zip(slots, owns, wants)])
        if in_order:
            for at in (slots[0], slots[members]):
                call(9, 0, kernel.slots[at].id)
            switch()
    elif kind < len(SHAPES) + len(SEVERAL):
        several, gone = SEVERAL[kind - len(SHAPES)]
        which = sorted(mutexes[:several])
        if gone:
            if slots[5] == 0:
                slots[5], slots[4] = slots[4], slots[5]
            ended_owner(slots[5], which[0], slots[4])
            switch()
            call(7, 0, kernel.slots[slots[5]].id)
        for n, k in enumerate(which[gone:]):
            locks(slots[n % rng.randrange(1, 5)], k)
        locks(slots[4], *rng.sample(which, several))
    else:
        # The owner that has ended is queued elsewhere too, or not.
        if slots[0] == 0:
            slots[0], slots[4] = slots[4], slots[0]
        more = mutexes[1:1 + kind % 2]
        for k in more:
            locks(slots[2], k)
        ended_owner(slots[0], mutexes[0], slots[1], more)
        locks(slots[3], mutexes[0])
    for at in rng.sample(slots, rng.randrange(3)):
        if brought_up(at):
            call(*rng.choice([(8, 0, rng.randrange(1, 5)), (0x12, 4), (0x12, 3), (0x12, 2), (0x12, 0), (0x10, 0), (0xd, 0), (0x13,),
                              (6, 0, rng.randrange(4)), (3,)]))
    if rng.random() < .3:
        # All block, and idle is picked, Blocked too or not.
        while model.READY in kernel.states() or kernel.own().state == model.RUNNING and kernel.current != 0:
            if kernel.own().state == model.RUNNING:
                call(0x13)
            switch()
        if rng.random() < .7:
            call(0x13)
        switch()
    for at in slots:
        if rng.random() < .4 and kernel.slots[at] is not None:
            call(9, 0, kernel.slots[at].id)
    for _ in range(rng.randrange(5, 40)):
        op = rng.choice([4] * 8 + [9] * 4 + [0xa] * 4 + [0xb] * 3 + [1, 3, 3, 5, 5, 6, 7, 7, 8, 8, 0xc, 0xd, 0xd, 0xf, 0xf, 0x10, 0x10, 0x11,
                                                                     0x11, 0x12, 0x12, 0x13, 0x13, 0x14, 0x15, 0x16, 0x1b])
        present = [task for task in kernel.slots if task is not None]
        owned = [k for k in range(4) if kernel.mutexes[k].owner == kernel.own().id]
        if op == 4:
            switch()
        elif op == 9:
            call(op, 0, rng.choice([task.id for task in present if task.state == model.BLOCKED] or [0]))
        elif op == 1:
            call(op, rng.choice(palette), (8192 + 16 * rng.randrange(count)) << 16 | 16)
        elif op in (6, 7):
            call(op, 0, rng.choice([task.id for task in present if op == 6 or task.state == model.TERMINATED] or [0]))
        elif op == 8:
            call(op, 0, rng.randrange(4))
        elif op == 0xb:
            call(op, rng.choice(owned or [0]))
        elif op == 0x12:
            call(op, rng.choice([0, 2, 3, 4]))
        elif op == 0x1b:
            call(op, 16)
        elif op in (0x15, 0x16):
            call(op, rng.randrange(2), rng.randrange(1, 4))
        elif 0xa <= op <= 0x11:
            call(op, rng.randrange(4) if op == 0xa else rng.choice([0, 0, 1]))
        else:
            call(op)
    return b"\n".join(out)


def some_ticks(rng, hz):
    """Operands k and y of 18, which takes y * 2^k ticks: where a millisecond is full, where 23 begins, where 1000 times the ticks passes
    2^64 or a multiple of it, or is one; few or any ticks. Exactly these, or the nearest that k allows; at times k is too large."""
    ticks = rng.choice([
        -(-rng.randrange(1 << rng.randrange(1, 33)) * hz // 1000), (hz << 32) // 1000, (hz << 32) // 1000, (rng.randrange(1, 1000) << 64) // 1000,
        (1 << 64) // 1000, rng.randrange(1, 8) << 61, rng.randrange(4), rng.randrange(1 << rng.randrange(1, 65))])
    k = max(0, ticks.bit_length() - 32)
    if rng.random() < .3:
        k = rng.randrange(k, 33)
    y = max(0, min(model.U32, (ticks >> k) + rng.choice([-1, 0, 0, 1, 1])))
    return (rng.choice([33, 34, 63, 64, 128, 255]), rng.choice([0, y])) if rng.random() < .05 else (k, y)


def times(seed):
    """A list of `tables`, as bytes: a fresh kernel at some rate, by the seed each of RATES in turn, and every second time any; then calls of
    all kinds, and between them the milliseconds of ticks."""
    calls = model.lines_of(make(seed, 30, 0, True))
    rng, machine, out = random.Random(seed), model.Machine(True), []
    rate = RATES[seed // 2 % len(RATES)] if seed % 2 == 0 else rng.randrange(1, 1 << rng.randrange(1, 33))
    for call in [f"1f00{rate:08x}".encode(), *calls]:
        out.append(call)
        machine.step(call)
        for _ in range(rng.randrange(4)):
            k, y = some_ticks(rng, machine.kernel.hz)
            out.append(f"18{k:02x}{y:08x}".encode())
    return b"\n".join(out)


def charges(seed, tick=0):
    """A list of `tables`, as bytes: by the seed each slot from 1 to 15 in turn, reaped by its id or by reap one. Up to fifteen tasks have ticks,
    the one in that slot ends and has some more while it is current; reaps that are refused or find none; it is reaped, and another one gets
    its slot and has ticks. Then calls of all kinds that charge, end, reap and add."""
    rng, machine, out = random.Random(seed), model.Machine(True, tick), []

    def call(op, k=0, y=0):
        out.append(f"{op:02x}{k:02x}{y:08x}".encode())
        machine.step(out[-1])

    def switch():
        call(4, 0, machine.kernel.own().start)

    def add():
        present = [task.start for task in machine.kernel.slots if task is not None]
        call(1, rng.choice([7, 8, 8, 8]), rng.choice([start for start in range(8192, 8448, 16) if start not in present]) << 16 | 16)

    def ids(state=None):
        return [task.id for task in machine.kernel.slots if task is not None and state in (None, task.state)]

    def refused():
        """Reaps of tasks that are there to stay, and of none."""
        own, ended = machine.kernel.own().id, ids(model.TERMINATED)
        for y in rng.sample([id for id in ids() if id == own or id not in ended], min(3, len(ids()) - 1)):
            call(7, 0, y)
        call(7, 0, machine.kernel.next_id)
        if ended in ([], [own]):
            call(0x14)

    slot, reap = seed % 15 + 1, (7, 0x14)[seed // 15 % 2]
    count, first = rng.randrange(slot, 16), rng.random() < .5
    for _ in range(rng.randrange(3)):
        call(3)
    for at in range(1, count + 1):
        call(1, 7 if first and at == slot else 8, (8176 + 16 * at) << 16 | 16)
    call(2)
    # Ticks for those that come before it; it has the first turn, or its own.
    while machine.kernel.current != slot:
        for _ in range(rng.randrange(3)):
            call(3)
        if rng.random() < .3:
            call(*rng.choice([(8, 0, rng.randrange(1, 20)), (0x12, 4), (0x13,)]))
        switch()
    # At times more than a byte holds.
    for _ in range(rng.randrange(256, 400) if seed % 16 == 5 and tick == 0 else rng.randrange(4)):
        call(3)
    call(5)
    for _ in range(rng.randrange(3)):
        call(3)
    refused()
    switch()
    for _ in range(rng.randrange(3)):
        call(3)
    refused()
    id = machine.kernel.slots[slot].id
    call(reap, 0, id if reap == 7 else 0)
    refused()
    call(7, 0, id)
    if rng.random() < .9:
        add()
    # Every second time none are added, and idle has turns.
    adds = seed // 30 % 2 * 4
    for _ in range(rng.randrange(10, 80)):
        op = rng.choice([3] * 10 + [4] * 8 + [5] * 4 + [7] * 5 + [0x14] * 3 + [1] * adds + [8, 8, 9, 0x12, 0x12, 0x13, 6])
        if op == 1:
            add()
        elif op == 4:
            switch()
        elif op == 7:
            call(op, 0, rng.choice(rng.choice([ids(model.TERMINATED), ids(), [machine.kernel.own().id]]) or [0]))
        elif op in (6, 9):
            call(op, 0, rng.choice(ids()))
        elif op == 8:
            call(op, 0, rng.randrange(4))
        elif op == 0x12:
            call(op, rng.choice([0, 2, 3, 4]))
        else:
            call(op)
    if seed % 4 == 0:
        # Another kernel, or hz 0 and the same.
        call(0x1f, 0, rng.choice([0, 0, 1000]))
        for op in (3, 2, 3):
            call(op)
    return b"\n".join(out)


if __name__ == "__main__":
    if len(sys.argv) > 4 and sys.argv[1] == "late":
        made = [kind(seed, model.LATE) for kind in (limits, charges) for seed in range(int(sys.argv[2]), int(sys.argv[2]) + int(sys.argv[3]))]
        against.compare(made, "tables", sys.argv[4:], model.LATE)
        sys.exit()
    if len(sys.argv) < 7 or sys.argv[5] not in ("turns", "tables"):
        sys.exit(__doc__)
    first, lines, share, lists = int(sys.argv[1]), int(sys.argv[2]), float(sys.argv[3]), int(sys.argv[4])
    made = [make(seed, lines, share, sys.argv[5] == "tables") for seed in range(first, first + lists)]
    made += [kind(seed) for kind in (queues, chains) for seed in range(first, first + 10 * lists)]
    made += [kind(seed) for kind in (limits, ended, times, charges) for seed in range(first, first + 10 * lists) if sys.argv[5] == "tables"]
    against.compare(made, sys.argv[5], sys.argv[6:])
