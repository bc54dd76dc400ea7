"""The cases of tests/cases: lists from fresh with answers worked out by hand from documents 01 to 05. Each is held against
the model and, where a call is in the compared domain, against the Rust; of other lines the reference has to say 01's number. At
a release or signal that drops a head which is not Blocked it has to say W-201, at a wait with a limit W-202, at a lock after which a
mutex has a queue W-205; from there on the list is held to the model alone. So are the lists of `late` and of `odd`, since no list brings the
Rust to that tick or to those kernels. At milliseconds from ticks it has to say W-204; the call alters nothing, and the Rust plays
the list without it. The tables of tests/cases/README.md have to name these cases, in this order.

  cases.py [DIR]    with DIR, also writes each list and what is printed for it: DIR/NAME.in and DIR/NAME.out for `turns`,
                    DIR/tables/NAME.in and DIR/tables/NAME.out for `tables`, DIR/late and DIR/odd likewise
  REFERENCE         the program that tests/differential/build makes; without it the Rust's part is left out, and the last line says so"""
import os
import subprocess
import sys

sys.dont_write_bytecode = True
import model

REFERENCE = os.environ.get("REFERENCE")
README = os.path.join(os.path.dirname(os.path.abspath(__file__)), "..", "cases", "README.md")
CASES = []


def turns(name, shows, *calls):
    """A case: its name, what it shows and from where, and each call with its answer."""
    CASES.append(("turns", name, shows, calls))


def tables(name, shows, *calls):
    """The same for `tables`. A call may have the table after it too."""
    CASES.append(("tables", name, shows, calls))


def late(name, shows, *calls):
    """The same for a `tables` in which a fresh kernel begins at tick model.LATE, 12 before 2^64 - 1."""
    CASES.append(("late", name, shows, calls))


def odd(name, shows, *calls):
    """The same for a `tables` in which fresh with hz n, from 1 on, gives the n-th kernel of model.ODD."""
    CASES.append(("odd", name, shows, calls))


# Calls. Regions of one size lie one after the other behind idle's, counted from 0; sp is a region's last word.
def line(op, k=0, y=0): return f"{op:02x}{k:02x}{y:08x}"
def add(region, priority, size=64): return line(0x01, priority, (8192 + size * region) << 16 | size)
def switch(region, size=64): return line(0x04, 0, 8192 + size * (region + 1) - 4)
def word(at, what): return line(0x1e, what, at)
def records(lent): return line(0x1b, lent)
IDLE = line(0x04, 0, 8188)
START, TICK, EXIT, BLOCK, REAP_ONE, CURRENT_ID = (line(op) for op in (0x02, 0x03, 0x05, 0x13, 0x14, 0x1c))
WAIT, REAP, SLEEP, WAKE = ((lambda y, op=op: line(op, 0, y)) for op in (0x06, 0x07, 0x08, 0x09))
LOCK, UNLOCK, TRY_LOCK, ACQUIRE, TRY_ACQUIRE, RELEASE, EVENT_WAIT, SIGNAL = ((lambda k, op=op: line(op, k)) for op in range(0x0a, 0x12))
ACQUIRE_WITHIN, WAIT_WITHIN = ((lambda k, ticks, op=op: line(op, k, ticks)) for op in (0x15, 0x16))
def milliseconds(y, k=0): return line(0x18, k, y)
def status(k): return line(0x12, k)
def result(id, k): return line(0x1d, k, id)
def fresh(hz): return line(0x1f, 0, hz)


# Answers: accepted, with what list appends; refused.
def ok(value, current, listed=""): return f"00{value:08x}{current:02x}{listed and ' ' + listed}"
def no(number, current): return f"{number:02x}00000000{current:02x}"
NONE = 0xffffffff


def added(*priorities, size=64):
    """Tasks added one after the other before the start: ids from 1 on."""
    return [(add(at, priority, size), ok(at + 1, 0)) for at, priority in enumerate(priorities)]


def table(slots, scheduler, mutexes=" ".join(["0,-,-,[];"] * 4), semaphores=" ".join(["0,[];"] * 4), events=" ".join(["0,[];"] * 4),
          charges="0", limits={}, lent={}, retired=0):
    """The line of `tables`; charges of the first slots, the others being 0; limits of those slots that have or had one; the ranks of those
    that are lent one, the others being the own numbers; the retired sum."""
    charges = charges.split(",")
    limits = ";".join(f"{slot},{limits.get(int(slot), '-,-,-,0')}" for slot in (text.partition(",")[0] for text in slots))
    own = {int(text.split(",")[0]): int(text.split(",")[3]) for text in slots}
    return " | ".join([";".join(slots), scheduler, mutexes, semaphores, events, ",".join(charges + ["0"] * (16 - len(charges))), limits]) + ranks(
        *[lent.get(slot, own.get(slot)) for slot in range(16)], retired=retired)


def ranks(*first, retired=0):
    """The end of that line: the ranks of the first slots, `None` for an empty one; the others are empty; and the retired sum."""
    return " | " + ",".join("-" if rank is None else str(rank) for rank in [*first, *[None] * (16 - len(first))]) + f" | {retired}"


READY, RUNNING, BLOCKED, SLEEPING, SUSPENDED, TERMINATED = range(6)


def task(slot, state, left=True, id=None, wake=0, rest=5, owned=0, waiter="-", priority=128, full=5, result=0):
    """A slot whose region is that of its number; left: its sp was stored by a switch."""
    id, end = slot if id is None else id, 8192 + 64 * slot
    return f"{slot},{id},{state},{priority},{wake},{full},{rest},{owned},{waiter},{end - 64},64,{end - 4 if left else end},{result}"


def idle(state, left=True, owned=0):
    return f"0,0,{state},255,0,1,1,{owned},-,0,8192,{8188 if left else 8192},0"


def objects(**some):
    """Semaphores or events, by number as o0 to o3; the others as fresh makes them."""
    return " ".join(some.get(f"o{k}", "0,[]") + ";" for k in range(4))


def mutexes(first): return first + "; 0,-,-,[]; 0,-,-,[]; 0,-,-,[];"


def eight_queued(call):
    """Tasks 1 to 8 make the call and are queued; task 4 makes it again, then task 9."""
    return [*added(*[128] * 10), (START, ok(1, 1)),
            *[pair for at in range(1, 9) for pair in ((call, ok(0, at)), (switch(at - 1), ok(at + 1, at + 1)))],
            (WAKE(4), ok(1, 9)), (BLOCK, ok(0, 9)), (switch(8), ok(10, 10)), (BLOCK, ok(0, 10)), (switch(9), ok(4, 4)),
            (call, ok(0, 4)), (WAKE(9), ok(1, 4)), (switch(3), ok(9, 9)), (call, no(12, 9))]


def eight_dropped(call, drop, seven, eight):
    """Tasks 1 to 8 make the call on objects 0 and 1 and are queued at both; task 9 wakes 1 to 7 by hand and drops the queues, first
    that of 1, where 8 is Blocked. Semaphores and events after each."""
    slots = [f"{at},{at},0,128,0,5,5,0,-,{8128 + 64 * at},64,{8188 + 64 * at},0" for at in range(1, 9)]
    slots = [UNTOUCHED, *slots, "9,9,1,128,0,5,5,0,-,8704,64,8768,0"]
    return [*added(*[128] * 9), (START, ok(1, 1)),
            *[pair for at in range(1, 9)
              for pair in ((call(0), ok(0, at)), (call(1), ok(0, at)), (switch(at - 1), ok(at + 1, at + 1)))],
            *[(WAKE(id), ok(1, 9)) for id in range(1, 8)],
            (drop(1), ok(1, 9), table(slots, "0,1,9,10,10", **seven)), (drop(0), ok(0, 9), table(slots, "0,1,9,10,10", **eight))]


UNTOUCHED = "0,0,0,255,0,1,1,0,-,0,8192,8192,0"     # idle, Ready, as fresh makes it
FRESH = table([UNTOUCHED], "0,0,0,1,1")


# 01's example and the exam's cases

turns("example", "Document 01's example, as printed there (01, Beside the lock call)",
      ("018020000400", "000000000100"), ("018024000400", "000000000200"), ("020000000000", "000000000101"),
      ("030000000000", "000000000001"), ("040000002400", "100000000001"), ("0400000023c0", "000000000202"))

turns("sixteenth-task", "The sixteenth task, idle counted, is added; a seventeenth is 4, and 4 comes before 5 (01, Exam cases; 03, 1)",
      *added(*[128] * 15), ("018028000040", no(4, 0)), ("018028010003", no(4, 0)))

turns("smallest-region", "Size 12 is refused, 16 accepted (01, Exam cases)",
      ("01802000000c", no(5, 0)), ("018020000010", ok(1, 0)))

turns("pick-among-equals", "Slots 3 and 4 Ready at 128, current 3: 4 (01, Exam cases)",
      *added(200, 200, 128, 128), (START, ok(3, 3)), (switch(2), ok(4, 4)))

turns("pick-past-the-last-slot", "Slots 3 and 15 at 7, current 15: 3 (01, Exam cases)",
      *added(200, 200, 7, *[200] * 11, 7, size=16), (START, ok(3, 3)), (switch(2, 16), ok(15, 15)), (switch(14, 16), ok(3, 3)))

turns("pick-all-the-way-round", "All sixteen at 255: from slot 1 on to slot 15, then slot 0 and slot 1 again (02, W-203)",
      *added(*[255] * 15, size=16), (START, ok(1, 1)), *[(switch(at - 1, 16), ok(at + 1, at + 1)) for at in range(1, 15)],
      (switch(14, 16), ok(0, 0)), (IDLE, ok(1, 1)))

turns("pick-oneself-last", "Slot 15 alone at 7 is looked at last and picked again; Blocked, from there slot 1, past idle (02, W-203)",
      *added(*[200] * 14, 7, size=16), (START, ok(15, 15)), (switch(14, 16), ok(15, 15)), (BLOCK, ok(0, 15)), (switch(14, 16), ok(1, 1)))

turns("pick-by-priority", "Slot 2 at 9, slot 5 at 8, current 1: 5 (01, Exam cases)",
      (add(0, 200), ok(1, 0)), (START, ok(1, 1)), (add(1, 9), ok(2, 1)), (add(2, 200), ok(3, 1)), (add(3, 200), ok(4, 1)),
      (add(4, 8), ok(5, 1)), (switch(0), ok(5, 5)))

turns("pick-none-ready", "Idle alone Ready: 0; none Ready, slot 0 Blocked: 0 (01, Exam cases)",
      (START, ok(0, 0)), (IDLE, ok(0, 0)), (BLOCK, ok(0, 0)), (IDLE, ok(0, 0)))

turns("slice-ends", "The fifth tick of a turn wants a switch, and the slice is full again (01, Exam cases)",
      *added(128), (START, ok(1, 1)), *[(TICK, ok(0, 1))] * 4, (TICK, ok(1, 1)), (switch(0), ok(1, 1)),
      *[(TICK, ok(0, 1))] * 4, (TICK, ok(1, 1)))

turns("sleep-zero", "Sleep 0 at tick 7: Ready at tick 8 (01, Exam cases, Traps)",
      *added(128), (START, ok(1, 1)), *[(TICK, ok(0, 1))] * 4, (TICK, ok(1, 1)), *[(TICK, ok(0, 1))] * 2,
      (SLEEP(0), ok(0, 1)), (switch(0), ok(0, 0)), (TICK, ok(1, 0)), (IDLE, ok(1, 1)))

turns("eight-queued-mutex", "Eight queued: one of them locks again, a ninth is 12 (01, Exam cases)",
      *added(*[128] * 11), (START, ok(1, 1)), (LOCK(0), ok(1, 1)), (switch(0), ok(2, 2)),
      *[pair for at in range(2, 10) for pair in ((LOCK(0), ok(0, at)), (switch(at - 1), ok(at + 1, at + 1)))],
      (WAKE(4), ok(1, 10)), (BLOCK, ok(0, 10)), (switch(9), ok(11, 11)), (BLOCK, ok(0, 11)), (switch(10), ok(1, 1)),
      (BLOCK, ok(0, 1)), (switch(0), ok(4, 4)), (LOCK(0), ok(0, 4)), (WAKE(10), ok(1, 4)), (switch(3), ok(10, 10)),
      (LOCK(0), no(12, 10)))

turns("eight-queued-semaphore", "The same with acquire (01, Exam cases)", *eight_queued(ACQUIRE(0)))

turns("eight-queued-event", "The same with event wait (01, Exam cases)", *eight_queued(EVENT_WAIT(0)))

# 01's traps

turns("no-memory-per-priority", "The better task runs and sleeps, and A is picked again, though B waited (01, Traps)",
      *added(200, 8, 128, 128), (START, ok(2, 2)), (SLEEP(1), ok(0, 2)), (switch(1), ok(3, 3)), (TICK, ok(1, 3)),
      (switch(2), ok(2, 2)), (SLEEP(5), ok(0, 2)), (switch(1), ok(3, 3)))

turns("ids-are-no-slots", "Slot 1 holds id 2 after a reap; idle is slot 0, and current is a slot (01, Traps)",
      *added(128), (START, ok(1, 1)), (EXIT, ok(0, 1)), (REAP_ONE, ok(NONE, 1)), (REAP(1), no(9, 1)), (switch(0), ok(0, 0)),
      (REAP_ONE, ok(0x2000, 0)), (REAP_ONE, ok(NONE, 0)), (add(0, 9), ok(2, 0)), (IDLE, ok(1, 1)), (REAP(0), no(9, 1)),
      (REAP(2), no(9, 1)), (REAP(1), no(8, 1)))

turns("idle-does-not-exit", "Exit in slot 0 is 10 (01, Traps)",
      (START, ok(0, 0)), (EXIT, no(10, 0)))

turns("reaped-waiter", "The id of a recorded waiter that has been reaped still gives 9 (01, Traps)",
      *added(128, 128, 128), (START, ok(1, 1)), (WAIT(2), ok(0, 1)), (WAKE(1), ok(1, 1)), (EXIT, ok(0, 1)), (switch(0), ok(2, 2)),
      (REAP(1), ok(0x2000, 2)), (SLEEP(1), ok(0, 2)), (switch(1), ok(3, 3)), (WAIT(2), no(9, 3)), (WAIT(3), no(7, 3)),
      (WAIT(1), no(8, 3)), (WAIT(0), ok(0, 3)))

# W-201: heads that are not Blocked

turns("signal-for-a-task-not-blocked",
      "01's trap turned round: the head was woken by hand, the signal is kept, and the next event wait answers 1 (02, W-201; 05, 11)",
      *added(128, 128), (START, ok(1, 1)), (EVENT_WAIT(0), ok(0, 1)), (WAKE(1), ok(1, 1)), (SIGNAL(0), ok(0, 1)),
      (EVENT_WAIT(0), ok(1, 1)), (EVENT_WAIT(0), ok(0, 1)))

turns("wake-yes-or-no",
      "Wake is 1 for a Blocked task alone: not for one in another state, not for an unknown id, not before the start (02, W-201; 05, 5)",
      *added(128, 128, 128), (WAKE(1), ok(0, 0)), (WAKE(0), ok(0, 0)), (WAKE(9), ok(0, 0)), (START, ok(1, 1)), (WAKE(1), ok(0, 1)),
      (WAKE(2), ok(0, 1)), (WAKE(9), ok(0, 1)), (BLOCK, ok(0, 1)), (WAKE(1), ok(1, 1)), (WAKE(1), ok(0, 1)), (SLEEP(5), ok(0, 1)),
      (WAKE(1), ok(0, 1)), (status(4), ok(0, 1)), (WAKE(1), ok(0, 1)), (EXIT, ok(0, 1)), (WAKE(1), ok(0, 1)), (switch(0), ok(2, 2)),
      (REAP(1), ok(0x2000, 2)), (WAKE(1), ok(0, 2)), (BLOCK, ok(0, 2)), (switch(1), ok(3, 3)), (WAKE(2), ok(1, 3)), (WAKE(2), ok(0, 3)),
      (switch(2), ok(2, 2)))

turns("release-past-a-task-not-blocked",
      "A head that is up is dropped and the next one woken; the one behind that waits for the next release (02, W-201; 05, 8, 9)",
      *added(128, 128, 128, 128), (START, ok(1, 1)), (ACQUIRE(0), ok(0, 1)), (switch(0), ok(2, 2)), (ACQUIRE(0), ok(0, 2)),
      (switch(1), ok(3, 3)), (ACQUIRE(0), ok(0, 3)), (switch(2), ok(4, 4)), (WAKE(1), ok(1, 4)), (RELEASE(0), ok(1, 4)),
      (switch(3), ok(1, 1)), (BLOCK, ok(0, 1)), (switch(0), ok(2, 2)), (BLOCK, ok(0, 2)), (switch(1), ok(4, 4)), (RELEASE(0), ok(1, 4)),
      (switch(3), ok(3, 3)), (RELEASE(0), ok(0, 3)), *[(TRY_ACQUIRE(0), ok(1, 3))] * 3, (TRY_ACQUIRE(0), ok(0, 3)))

turns("release-with-none-blocked",
      "No head is Blocked: all are dropped, the answer is 0, and the count is up; dropped ones are not woken later (02, W-201; 05, 6)",
      *added(128, 128, 128), (START, ok(1, 1)), (ACQUIRE(0), ok(0, 1)), (switch(0), ok(2, 2)), (ACQUIRE(0), ok(0, 2)),
      (switch(1), ok(3, 3)), (WAKE(1), ok(1, 3)), (WAKE(2), ok(1, 3)), (RELEASE(0), ok(0, 3)), (TRY_ACQUIRE(0), ok(1, 3)),
      (TRY_ACQUIRE(0), ok(0, 3)), (switch(2), ok(1, 1)), (BLOCK, ok(0, 1)), (switch(0), ok(2, 2)), (BLOCK, ok(0, 2)),
      (switch(1), ok(3, 3)), (RELEASE(0), ok(0, 3)), (switch(2), ok(3, 3)))

turns("signal-past-every-other-state",
      "Heads that are Sleeping, Suspended, Terminated, gone, Running and Ready are dropped, the Blocked one is woken (02, W-201; 05, 8)",
      *added(*[128] * 7), (START, ok(1, 1)), (EVENT_WAIT(0), ok(0, 1)), (SLEEP(50), ok(0, 1)), (switch(0), ok(2, 2)),
      (EVENT_WAIT(0), ok(0, 2)), (status(4), ok(0, 2)), (switch(1), ok(3, 3)), (EVENT_WAIT(0), ok(0, 3)), (EXIT, ok(0, 3)),
      (switch(2), ok(4, 4)), (EVENT_WAIT(0), ok(0, 4)), (EXIT, ok(0, 4)), (switch(3), ok(5, 5)), (REAP(4), ok(0x20c0, 5)),
      (EVENT_WAIT(0), ok(0, 5)), (switch(4), ok(6, 6)), (EVENT_WAIT(0), ok(0, 6)), (switch(5), ok(7, 7)), (EVENT_WAIT(0), ok(0, 7)),
      (WAKE(5), ok(1, 7)), (WAKE(6), ok(1, 7)), (switch(6), ok(5, 5)), (SIGNAL(0), ok(1, 5)), (EVENT_WAIT(0), ok(0, 5)),
      (switch(4), ok(6, 6)), (BLOCK, ok(0, 6)), (switch(5), ok(7, 7)))

turns("signal-with-none-blocked",
      "No head is Blocked: all are dropped, the answer is 0, and the flag is set; set already, it stays so (02, W-201; 05, 7)",
      *added(128, 128, 128), (START, ok(1, 1)), (EVENT_WAIT(0), ok(0, 1)), (SLEEP(9), ok(0, 1)), (switch(0), ok(2, 2)),
      (EVENT_WAIT(0), ok(0, 2)), (switch(1), ok(3, 3)), (WAKE(2), ok(1, 3)), (SIGNAL(0), ok(0, 3)), (SIGNAL(0), ok(0, 3)),
      (EVENT_WAIT(0), ok(1, 3)), (EVENT_WAIT(0), ok(0, 3)), (switch(2), ok(2, 2)), (SIGNAL(0), ok(1, 2)), (switch(1), ok(3, 3)))

turns("signal-that-woke-one", "A signal that woke one sets no flag, and the next event wait blocks (02, W-201; 05, 7)",
      *added(128, 128), (START, ok(1, 1)), (EVENT_WAIT(0), ok(0, 1)), (switch(0), ok(2, 2)), (SIGNAL(0), ok(1, 2)),
      (EVENT_WAIT(0), ok(0, 2)), (switch(1), ok(1, 1)))

turns("signal-for-a-task-that-is-gone", "The one head is gone: it is dropped, and the signal is kept (02, W-201; 05, 8)",
      *added(128, 128), (START, ok(1, 1)), (EVENT_WAIT(0), ok(0, 1)), (EXIT, ok(0, 1)), (switch(0), ok(2, 2)), (REAP(1), ok(0x2000, 2)),
      (SIGNAL(0), ok(0, 2)), (EVENT_WAIT(0), ok(1, 2)))

turns("release-to-a-revived-head",
      "Its state alone counts: a head that has ended and was made Blocked by status is woken, one made Ready is dropped (02, W-201)",
      *added(128, 128, 128), (START, ok(1, 1)), (ACQUIRE(0), ok(0, 1)), (EXIT, ok(0, 1)), (status(0), ok(0, 1)), (switch(0), ok(2, 2)),
      (ACQUIRE(0), ok(0, 2)), (EXIT, ok(0, 2)), (status(2), ok(0, 2)), (switch(1), ok(3, 3)), (RELEASE(0), ok(1, 3)), (switch(2), ok(1, 1)),
      (BLOCK, ok(0, 1)), (switch(0), ok(2, 2)))

turns("head-blocked-at-another-object",
      "A head that is Blocked for another reason is woken too; in its other queue it is up then, and dropped (02, W-201; 05, 8)",
      *added(128, 128), (START, ok(1, 1)), (EVENT_WAIT(0), ok(0, 1)), (ACQUIRE(0), ok(0, 1)), (switch(0), ok(2, 2)), (SIGNAL(0), ok(1, 2)),
      (RELEASE(0), ok(0, 2)), (TRY_ACQUIRE(0), ok(1, 2)), (switch(1), ok(1, 1)), (EVENT_WAIT(0), ok(0, 1)))

# Mutexes and waiters

turns("handoff-taken-up", "A mutex handed on is taken up by the new owner's lock; its second lock is 13 (01, mutex.rs)",
      *added(128, 128), (START, ok(1, 1)), (LOCK(0), ok(1, 1)), (switch(0), ok(2, 2)), (LOCK(0), ok(0, 2)), (switch(1), ok(1, 1)),
      (UNLOCK(0), ok(1, 1)), (TRY_LOCK(0), ok(0, 1)), (switch(0), ok(2, 2)), (LOCK(0), ok(1, 2)), (LOCK(0), no(13, 2)))

turns("handoff-not-taken-up", "A mutex handed on can be unlocked at once; once more is 14 (01, mutex.rs)",
      *added(128, 128), (START, ok(1, 1)), (LOCK(0), ok(1, 1)), (switch(0), ok(2, 2)), (LOCK(0), ok(0, 2)), (switch(1), ok(1, 1)),
      (UNLOCK(0), ok(1, 1)), (switch(0), ok(2, 2)), (UNLOCK(0), ok(0, 2)), (UNLOCK(0), no(14, 2)))

turns("exit-wakes-waiter", "Exit wakes the waiter; status Ready revives, and exit with a mutex is then 11 (01, state calls; 03, 12)",
      *added(128, 128), (START, ok(1, 1)), (WAIT(2), ok(0, 1)), (WAIT(2), ok(0, 1)), (switch(0), ok(2, 2)), (EXIT, ok(0, 2)),
      (status(0), ok(0, 2)), (LOCK(0), ok(1, 2)), (switch(1), ok(1, 1)), (switch(0), ok(2, 2)), (EXIT, no(11, 2)))

turns("handoff-to-a-task-not-blocked",
      "Unlock keeps its rule: one head, handed the mutex though it is up, and 1; the next one stays queued (02, W-201; 05, 10)",
      *added(128, 128, 128), (START, ok(1, 1)), (LOCK(0), ok(1, 1)), (switch(0), ok(2, 2)), (LOCK(0), ok(0, 2)), (switch(1), ok(3, 3)),
      (LOCK(0), ok(0, 3)), (switch(2), ok(1, 1)), (WAKE(2), ok(1, 1)), (UNLOCK(0), ok(1, 1)), (switch(0), ok(2, 2)), (LOCK(0), ok(1, 2)),
      (UNLOCK(0), ok(1, 2)), (switch(1), ok(3, 3)), (LOCK(0), ok(1, 3)))

turns("handoff-to-a-task-that-is-gone",
      "Unlock keeps its rule: a head that is gone gets the mutex, and 1; the Blocked one behind it is not woken (02, W-201; 05, 10)",
      *added(128, 128, 128), (START, ok(1, 1)), (LOCK(0), ok(1, 1)), (switch(0), ok(2, 2)), (LOCK(0), ok(0, 2)), (EXIT, ok(0, 2)),
      (switch(1), ok(3, 3)), (LOCK(0), ok(0, 3)), (REAP(2), ok(0x2040, 3)), (switch(2), ok(1, 1)), (UNLOCK(0), ok(1, 1)),
      (switch(0), ok(1, 1)), (TRY_LOCK(0), ok(0, 1)), (UNLOCK(0), no(14, 1)))

turns("exit-with-a-sleeping-waiter",
      "Exit's waiter is as before: one that sleeps is taken and not woken, and another may wait then (02, W-201; 05, 10)",
      *added(128, 128, 128), (START, ok(1, 1)), (WAIT(2), ok(0, 1)), (SLEEP(9), ok(0, 1)), (switch(0), ok(2, 2)), (EXIT, ok(0, 2)),
      (status(0), ok(0, 2)), (switch(1), ok(3, 3)), (WAIT(2), ok(0, 3)), (switch(2), ok(2, 2)))

# W-205: ranks. Task 1 at 200 has mutex 0; the others are added later, each better than the ones before, so that it is picked.

def owner_of(k, priority=200):
    """Task 1 at that number is current and has mutex k."""
    return [(add(0, priority), ok(1, 0)), (START, ok(1, 1)), (LOCK(k), ok(1, 1))]


turns("rank-of-the-log-task",
      "The head task at 7 waits for the log task at 200, which is then picked before the feed at 128, until it unlocks (02, W-205)",
      *owner_of(0), (add(1, 7), ok(2, 1)), (add(2, 128), ok(3, 1)), (switch(0), ok(2, 2)), (LOCK(0), ok(0, 2)),
      (switch(1), ok(1, 1)), (switch(0), ok(1, 1)), (UNLOCK(0), ok(1, 1)), (switch(0), ok(2, 2)), (LOCK(0), ok(1, 2)), (BLOCK, ok(0, 2)),
      (switch(1), ok(3, 3)))

# 5 waits for 4, 4 for 3, 3 for 2, 2 for 1; unlocks take the links off one by one. At each pick 6 is Ready at 128.
FOUR_LINKS = [
    *owner_of(0), (add(1, 190), ok(2, 1)), (switch(0), ok(2, 2)), (LOCK(1), ok(1, 2)), (LOCK(0), ok(0, 2), ranks(255, 190, 190)),
    (add(2, 180), ok(3, 2)), (switch(1), ok(3, 3)), (LOCK(2), ok(1, 3)), (LOCK(1), ok(0, 3), ranks(255, 180, 180, 180)),
    (add(3, 170), ok(4, 3)), (switch(2), ok(4, 4)), (LOCK(3), ok(1, 4)), (LOCK(2), ok(0, 4), ranks(255, 170, 170, 170, 170)),
    (add(4, 7), ok(5, 4)), (add(5, 128), ok(6, 4), ranks(255, 170, 170, 170, 170, 7, 128)), (switch(3), ok(5, 5)),
    (LOCK(3), ok(0, 5), ranks(255, 7, 7, 7, 7, 7, 128)), (switch(4), ok(1, 1), ranks(255, 7, 7, 7, 7, 7, 128)),
    (UNLOCK(0), ok(1, 1), ranks(255, 200, 7, 7, 7, 7, 128)), (switch(0), ok(2, 2)),
    (UNLOCK(1), ok(1, 2), ranks(255, 200, 190, 7, 7, 7, 128)), (switch(1), ok(3, 3)),
    (UNLOCK(2), ok(1, 3), ranks(255, 200, 190, 180, 7, 7, 128)), (switch(2), ok(4, 4)),
    (UNLOCK(3), ok(1, 4), ranks(255, 200, 190, 180, 170, 7, 128)), (switch(3), ok(5, 5)), (BLOCK, ok(0, 5)), (switch(4), ok(6, 6))]

turns("rank-through-four-links",
      "Owners that wait themselves pass the rank on: picks by four links, by three, by two and by one, each before one at 128 (02, W-205; 05, 36)",
      *[call[:2] for call in FOUR_LINKS])

turns("rank-in-a-ring",
      "1 and 2 wait for each other, 3 at 7 for 1; woken by hand 1 has 7 and is picked, Blocked again it passes 7 on, and 2, woken, has it (02, W-205)",
      *owner_of(0), (add(1, 150), ok(2, 1)), (switch(0), ok(2, 2)), (LOCK(1), ok(1, 2)), (LOCK(0), ok(0, 2)), (switch(1), ok(1, 1)),
      (LOCK(1), ok(0, 1)), (add(2, 7), ok(3, 1)), (switch(0), ok(3, 3)), (LOCK(0), ok(0, 3)), (add(3, 128), ok(4, 3)), (switch(2), ok(4, 4)),
      (WAKE(1), ok(1, 4)), (switch(3), ok(1, 1)), (BLOCK, ok(0, 1)), (switch(0), ok(4, 4)), (WAKE(2), ok(1, 4)), (switch(3), ok(2, 2)))

turns("rank-by-the-lowest-mutex",
      "Queued at mutex 1 and then at 0, it lends to the owner of 0 alone; woken by its unlock and Blocked again, to the owner of 1 (02, W-205)",
      *owner_of(0), (add(1, 190), ok(2, 1)), (switch(0), ok(2, 2)), (LOCK(1), ok(1, 2)), (add(2, 7), ok(3, 2)), (add(3, 128), ok(4, 2)),
      (switch(1), ok(3, 3)), (LOCK(1), ok(0, 3)), (LOCK(0), ok(0, 3)), (switch(2), ok(1, 1)), (UNLOCK(0), ok(1, 1)), (switch(0), ok(3, 3)),
      (BLOCK, ok(0, 3)), (switch(2), ok(2, 2)), (UNLOCK(1), ok(1, 2)), (switch(1), ok(3, 3)))

# Task 2 ends while it is queued, is handed mutex 0 and reaped; id 4 in slot 3 waits at mutex 1 and then at 0.
LOWEST_GONE = [
    *owner_of(0), (add(1, 100), ok(2, 1)), (switch(0), ok(2, 2)), (LOCK(0), ok(0, 2), ranks(255, 100, 100)), (EXIT, ok(0, 2), ranks(255, 200, 100)),
    (switch(1), ok(1, 1)), (UNLOCK(0), ok(1, 1)), (REAP(2), ok(0x2040, 1), ranks(255, 200)), (add(1, 190), ok(3, 1)), (switch(0), ok(2, 2)),
    (LOCK(1), ok(1, 2)), (add(2, 7), ok(4, 2)), (add(3, 128), ok(5, 2)), (switch(1), ok(3, 3)), (LOCK(1), ok(0, 3), ranks(255, 200, 7, 7, 128)),
    (LOCK(0), ok(0, 3), ranks(255, 200, 190, 7, 128)), (switch(2), ok(4, 4))]

turns("rank-where-the-lowest-owner-is-gone",
      "The lowest mutex's owner is gone: the link leads nowhere, and the owner of the next mutex is lent nothing (02, W-205; 05, 34)",
      *[call[:2] for call in LOWEST_GONE])

turns("rank-of-a-waiter-not-blocked",
      "A waiter that is Ready, Sleeping or Suspended lends nothing though it is queued (02, W-205; 05, 32)",
      *owner_of(0), (add(1, 7), ok(2, 1)), (add(2, 128), ok(3, 1)), (switch(0), ok(2, 2)), (LOCK(0), ok(0, 2)), (switch(1), ok(1, 1)),
      (BLOCK, ok(0, 1)), (switch(0), ok(3, 3)),
      # 1 Ready and lent 7 comes before 3; with 2 Ready too it has 200, and 2, behind it in the order from 3 on, is picked.
      (WAKE(1), ok(1, 3)), (WAKE(2), ok(1, 3)), (switch(2), ok(2, 2)), (SLEEP(1), ok(0, 2)), (switch(1), ok(3, 3)), (TICK, ok(1, 3)),
      (switch(2), ok(2, 2)), (status(4), ok(0, 2)), (switch(1), ok(3, 3)))

turns("rank-of-a-waiter-blocked-elsewhere",
      "Woken by hand, still queued and Blocked for another reason, it lends: event wait, acquire, wait, block, status Blocked (02, W-205; 05, 33)",
      *owner_of(0), (add(1, 7), ok(2, 1)), (add(2, 128), ok(3, 1)), (switch(0), ok(2, 2)), (LOCK(0), ok(0, 2)), (WAKE(2), ok(1, 2)),
      (switch(1), ok(2, 2)),
      *[pair for blocks, wakes in ((EVENT_WAIT(0), SIGNAL(0)), (ACQUIRE(1), RELEASE(1)), (WAIT(3), WAKE(2)), (BLOCK, WAKE(2)), (status(2), WAKE(2)))
        for pair in ((blocks, ok(0, 2)), (switch(1), ok(1, 1)), (wakes, ok(1, 1)), (switch(0), ok(2, 2)))])

turns("rank-of-idle",
      "Idle, with a mutex at which one at 128 waits, is picked before one at 200; once it has unlocked, after it (02, W-205; 05, 35)",
      (START, ok(0, 0)), (LOCK(0), ok(1, 0)), (add(0, 128), ok(1, 0)), (add(1, 200), ok(2, 0)), (IDLE, ok(1, 1)), (LOCK(0), ok(0, 1)),
      (switch(0), ok(0, 0)), (IDLE, ok(0, 0)), (UNLOCK(0), ok(1, 0)), (IDLE, ok(1, 1)), (BLOCK, ok(0, 1)), (switch(0), ok(2, 2)))

turns("rank-equal-to-a-number",
      "1 at 200, lent 128, and 3 at 128 take turns; after the unlock 2 and 3 do (02, W-205)",
      *owner_of(0), (add(1, 128), ok(2, 1)), (add(2, 128), ok(3, 1)), (switch(0), ok(2, 2)), (LOCK(0), ok(0, 2)), (switch(1), ok(3, 3)),
      (switch(2), ok(1, 1)), (switch(0), ok(3, 3)), (switch(2), ok(1, 1)), (UNLOCK(0), ok(1, 1)), (switch(0), ok(2, 2)), (switch(1), ok(3, 3)),
      (switch(2), ok(2, 2)))

turns("rank-of-the-next-owner",
      "2 at 190 and 3 at 7 wait for 1; the unlock hands the mutex to 2, which is then lent 7 by 3, still queued, and picked before 128 (02, W-205)",
      *owner_of(0), (add(1, 190), ok(2, 1)), (switch(0), ok(2, 2)), (LOCK(0), ok(0, 2)), (add(2, 7), ok(3, 2)), (add(3, 128), ok(4, 2)),
      (switch(1), ok(3, 3)), (LOCK(0), ok(0, 3)), (switch(2), ok(1, 1)), (UNLOCK(0), ok(1, 1)), (switch(0), ok(2, 2)), (LOCK(0), ok(1, 2)),
      (UNLOCK(0), ok(1, 2)), (switch(1), ok(3, 3)), (BLOCK, ok(0, 3)), (switch(2), ok(4, 4)))

# Refusals

turns("accepted-before-the-start",
      "Tick, wake, reap, try acquire, release and signal are not in the row of 2; acquire is (01, Where a call is turned back; 03, 2)",
      (TICK, ok(0, 0)), (WAKE(7), ok(0, 0)), (REAP(7), no(8, 0)), (REAP(0), no(9, 0)), (REAP_ONE, ok(NONE, 0)), (TRY_ACQUIRE(0), ok(0, 0)),
      (RELEASE(0), ok(0, 0)), (TRY_ACQUIRE(0), ok(1, 0)), (SIGNAL(0), ok(0, 0)), (ACQUIRE(0), no(2, 0)))

turns("refused-before-the-start", "2 comes before a call's own checks, 20 before 2 (01, Where a call is turned back; 03, 1)",
      *[(call, no(2, 0)) for call in (status(0), status(1), BLOCK, SLEEP(0), EXIT, WAIT(0), WAIT(9), IDLE, line(0x04),
                                      LOCK(0), UNLOCK(0), TRY_LOCK(0), ACQUIRE(0), EVENT_WAIT(0))],
      *[(line(op, 4), no(20, 0)) for op in range(0x0a, 0x12)])

turns("refused-after-the-start", "A second start is 3; no object is above 3 (01, Where a call is turned back)",
      (START, ok(0, 0)), (START, no(3, 0)), *[(line(op, 255), no(20, 0)) for op in range(0x0a, 0x12)])

turns("idle-with-a-mutex", "10 comes before 11 (01, Where a call is turned back; 03, 1)",
      (START, ok(0, 0)), (LOCK(0), ok(1, 0)), (EXIT, no(10, 0)))

turns("regions",
      "5: no multiples of 4, short, past the arena, overlapping; touching regions are accepted (01, Where a call is turned back)",
      *[(call, no(5, 0)) for call in ("018020020010", "018020000012", "018020000000", "018000000010", "01801ff00014", "01803ffc0010",
                                      "0180fffc0010", "01802000fffc")],
      ("018020000010", ok(1, 0)), ("018020100010", ok(2, 0)), ("0180200c0010", no(5, 0)), ("01803ff00010", ok(3, 0)))

turns("status", "7: Running, Terminated, above 5; the other states are set (01, Where a call is turned back)",
      *added(9), (START, ok(1, 1)), *[(status(k), no(7, 1)) for k in (1, 5, 6, 255)], *[(status(k), ok(0, 1)) for k in (4, 0, 3, 2)])

turns("no-call", "ff: any other length or byte, an unknown operation, an unused operand above 0 (01, Beside the lock call; 03, 13)",
      *[(call, no(255, 0)) for call in ("", "0", "000000000000", "150000000000", "ff0000000000", "030000000001", "020100000000",
                                        "0a0000000001", "060100000000", "03000000000", "0300000000000", "0A0000000000")],
      (START, ok(0, 0)), ("0A0000000000", no(255, 0)), ("0a0000000000", ok(1, 0)))

turns("no-call-of-tables", "The operations that `tables` alone has are ff (04, first paragraph)",
      *[(call, no(255, 0)) for call in (records(1), CURRENT_ID, result(0, 1), word(0, 0), fresh(1000), ACQUIRE_WITHIN(0, 5), WAIT_WITHIN(0, 5),
                                        milliseconds(0), milliseconds(5), milliseconds(NONE, 1))],
      *added(128), (START, ok(1, 1)),
      *[(call, no(255, 1)) for call in (records(2), CURRENT_ID, result(1, 255), word(2048, 0), fresh(1), *[
          line(op, k, y) for op in (0x15, 0x16) for k, y in ((0, 5), (0, 0), (4, 0), (3, NONE))],
          milliseconds(0), milliseconds(5), milliseconds(1, 32), milliseconds(0, 33), milliseconds(NONE, 255))],
      (TICK, ok(0, 1)), (switch(0), ok(1, 1)))

# The notation of `tables`

tables("example", "Document 04's example as far as its operations are there; the others are ff (04, lines)",
       ("018020000400", "000000000100"), ("1c0000000000", "020000000000"), ("020000000000", "000000000101"),
       ("030000000000", "000000000001"),
       *[(call, no(255, 1)) for call in ("170000000001", "190200000000")], ("150000000005", "000000000001"),
       *[(call, no(255, 1)) for call in ("1a0200000000", "1a0300000000")])

tables("table-line", "Document 04's table, the first nine segments as printed there (04, the table line)",
       ("018020000200", ok(1, 0)), ("010722000200", ok(2, 0)), (START, ok(2, 2)),
       ("160000000009", ok(0, 2),
        "0,0,0,255,0,1,1,0,-,0,8192,8192,0;1,1,0,128,0,5,5,0,-,8192,512,8704,0;2,2,2,7,0,5,5,0,-,8704,512,9216,0 | 0,1,2,3,3 | "
        "0,-,-,[]; 0,-,-,[]; 0,-,-,[]; 0,-,-,[]; | 0,[]; 0,[]; 0,[]; 0,[]; | 0,[2]; 0,[]; 0,[]; 0,[]; | 0,0,0,0,0,0,0,0,0,0,0,0,0,0,0,0 | "
        "0,-,-,-,0;1,-,-,-,0;2,e,0,9,0 | 255,128,7,-,-,-,-,-,-,-,-,-,-,-,-,- | 0"))

tables("table-of-objects", "Owners, a handoff, queues, counts, a waiter and a charge in the table (04, the table line)",
       *added(9, 9, 9), (START, ok(1, 1)), (LOCK(0), ok(1, 1)), (LOCK(1), ok(1, 1)), (switch(0), ok(2, 2)), (LOCK(0), ok(0, 2)),
       (switch(1), ok(3, 3)), (LOCK(0), ok(0, 3)), (ACQUIRE(2), ok(0, 3)),
       (EVENT_WAIT(3), ok(0, 3),
        table([UNTOUCHED, "1,1,0,9,0,5,5,2,-,8192,64,8252,0", "2,2,2,9,0,5,5,0,-,8256,64,8316,0", "3,3,2,9,0,5,5,0,-,8320,64,8384,0"],
              "0,1,3,4,4", "1,1,-,[2 3]; 1,1,-,[]; 0,-,-,[]; 0,-,-,[];", "0,[]; 0,[]; 0,[3]; 0,[];", "0,[]; 0,[]; 0,[]; 0,[3];")),
       (switch(2), ok(1, 1)), (TICK, ok(0, 1)), (RELEASE(0), ok(0, 1)), (SIGNAL(1), ok(0, 1)), (UNLOCK(0), ok(1, 1)),
       (WAIT(2), ok(0, 1),
        table([UNTOUCHED, "1,1,2,9,0,5,4,1,-,8192,64,8252,0", "2,2,0,9,0,5,5,1,1,8256,64,8316,0", "3,3,2,9,0,5,5,0,-,8320,64,8380,0"],
              "1,1,1,4,4", "1,2,2,[3]; 1,1,-,[]; 0,-,-,[]; 0,-,-,[];", "1,[]; 0,[]; 0,[3]; 0,[];", "0,[]; 1,[]; 0,[]; 0,[3];", "0,1")))

tables("no-call", "ff: operands out of range or unused, operations that are not there, lines that are none; each has its table (04, lines)",
       *[(call, no(255, 0), FRESH) for call in (
           "1b0000000001", "1b0100000001", "1c0100000000", "1c0000000001", "1e0200000000", "1eff00000000", "1e0000001000", "1e01ffffffff",
           "1f0100000000", "1f0100000001", "182100000000", "182100000001", "18ff00000000", "18ffffffffff",
           *[line(op) for op in (0x17, 0x19, 0x1a)], "170000000001", "190100000000", "1a0100000000", "200000000000", "800000000000",
           "ff0000000000", "000000000000", "030000000001", "", "1b01", "1c000000000", "1c00000000000", "1B0100000000", "1c0000000000 ")],
       (START, ok(0, 0)), ("1e0200000000", no(255, 0), table(["0,0,1,255,0,1,1,0,-,0,8192,8192,0"], "0,1,0,1,1")),
       (records(1), ok(1, 0, "0,1,255,0,8192")))

# W-201: the queues in the table

tables("heads-before-the-woken-one",
       "Two heads are up: dropped; the third is woken, and those behind keep their places and are woken in order (02, W-201; 05, 9)",
       *added(*[128] * 6), (START, ok(1, 1)),
       *[pair for at in range(1, 6) for pair in ((ACQUIRE(2), ok(0, at)), (switch(at - 1), ok(at + 1, at + 1)))],
       (WAKE(1), ok(1, 6)),
       (WAKE(2), ok(1, 6),
        table([UNTOUCHED, "1,1,0,128,0,5,5,0,-,8192,64,8252,0", "2,2,0,128,0,5,5,0,-,8256,64,8316,0", "3,3,2,128,0,5,5,0,-,8320,64,8380,0",
               "4,4,2,128,0,5,5,0,-,8384,64,8444,0", "5,5,2,128,0,5,5,0,-,8448,64,8508,0", "6,6,1,128,0,5,5,0,-,8512,64,8576,0"],
              "0,1,6,7,7", semaphores="0,[]; 0,[]; 0,[1 2 3 4 5]; 0,[];")),
       (RELEASE(2), ok(1, 6),
        table([UNTOUCHED, "1,1,0,128,0,5,5,0,-,8192,64,8252,0", "2,2,0,128,0,5,5,0,-,8256,64,8316,0", "3,3,0,128,0,5,5,0,-,8320,64,8380,0",
               "4,4,2,128,0,5,5,0,-,8384,64,8444,0", "5,5,2,128,0,5,5,0,-,8448,64,8508,0", "6,6,1,128,0,5,5,0,-,8512,64,8576,0"],
              "0,1,6,7,7", semaphores="0,[]; 0,[]; 1,[4 5]; 0,[];")),
       (RELEASE(2), ok(1, 6),
        table([UNTOUCHED, "1,1,0,128,0,5,5,0,-,8192,64,8252,0", "2,2,0,128,0,5,5,0,-,8256,64,8316,0", "3,3,0,128,0,5,5,0,-,8320,64,8380,0",
               "4,4,0,128,0,5,5,0,-,8384,64,8444,0", "5,5,2,128,0,5,5,0,-,8448,64,8508,0", "6,6,1,128,0,5,5,0,-,8512,64,8576,0"],
              "0,1,6,7,7", semaphores="0,[]; 0,[]; 2,[5]; 0,[];")))

tables("dropped-heads-stay-as-they-are",
       "Dropped heads keep their states: Sleeping, Suspended, Terminated; the last is gone; none was woken, so the flag is set (02, W-201)",
       *added(*[128] * 5), (START, ok(1, 1)), (EVENT_WAIT(3), ok(0, 1)), (SLEEP(7), ok(0, 1)), (switch(0), ok(2, 2)),
       (EVENT_WAIT(3), ok(0, 2)), (status(4), ok(0, 2)), (switch(1), ok(3, 3)), (EVENT_WAIT(3), ok(0, 3)), (EXIT, ok(0, 3)),
       (switch(2), ok(4, 4)), (EVENT_WAIT(3), ok(0, 4)), (EXIT, ok(0, 4)), (switch(3), ok(5, 5)),
       (REAP(4), ok(0x20c0, 5),
        table([UNTOUCHED, "1,1,3,128,7,5,5,0,-,8192,64,8252,0", "2,2,4,128,0,5,5,0,-,8256,64,8316,0", "3,3,5,128,0,5,0,0,-,8320,64,8380,0",
               "5,5,1,128,0,5,5,0,-,8448,64,8512,0"], "0,1,5,5,6", events="0,[]; 0,[]; 0,[]; 0,[1 2 3 4];")),
       (SIGNAL(3), ok(0, 5),
        table([UNTOUCHED, "1,1,3,128,7,5,5,0,-,8192,64,8252,0", "2,2,4,128,0,5,5,0,-,8256,64,8316,0", "3,3,5,128,0,5,0,0,-,8320,64,8380,0",
               "5,5,1,128,0,5,5,0,-,8448,64,8512,0"], "0,1,5,5,6", events="0,[]; 0,[]; 0,[]; 1,[];")))

tables("eight-dropped-by-a-release",
       "Seven up and the eighth Blocked: woken; all eight up: none, the queue is empty and the count up (02, W-201; 05, 6, 9)",
       *eight_dropped(ACQUIRE, RELEASE, {"semaphores": "0,[1 2 3 4 5 6 7 8]; 1,[]; 0,[]; 0,[];"}, {"semaphores": "1,[]; 1,[]; 0,[]; 0,[];"}),
       (TRY_ACQUIRE(0), ok(1, 9)), (TRY_ACQUIRE(0), ok(0, 9)), (TRY_ACQUIRE(1), ok(1, 9)))

tables("eight-dropped-by-a-signal",
       "The same with signal: no flag where the eighth was woken, the flag where none was (02, W-201; 05, 7, 9)",
       *eight_dropped(EVENT_WAIT, SIGNAL, {"events": "0,[1 2 3 4 5 6 7 8]; 0,[]; 0,[]; 0,[];"}, {"events": "1,[]; 0,[]; 0,[]; 0,[];"}),
       (EVENT_WAIT(0), ok(1, 9)), (EVENT_WAIT(1), ok(0, 9)))

# W-202: waits with a limit

tables("limit-ends-by-its-tick",
       "Blocked with a limit of 3: tick 2 does nothing, tick 3 makes it Ready, out of the queue, marked; a switch is wanted (02, W-202)",
       *added(128, 128), (START, ok(1, 1)),
       (ACQUIRE_WITHIN(2, 3), ok(0, 1),
        table([UNTOUCHED, task(1, BLOCKED, left=False), task(2, READY, left=False)], "0,1,1,3,3", semaphores=objects(o2="0,[1]"),
              limits={1: "s,2,3,0"})),
       (switch(0), ok(2, 2)), (TICK, ok(0, 2)),
       (TICK, ok(0, 2),
        table([UNTOUCHED, task(1, BLOCKED), task(2, RUNNING, left=False, rest=3)], "2,1,2,3,3", semaphores=objects(o2="0,[1]"),
              charges="0,0,2", limits={1: "s,2,3,0"})),
       (TICK, ok(1, 2),
        table([UNTOUCHED, task(1, READY), task(2, RUNNING, left=False, rest=2)], "3,1,2,3,3", charges="0,0,3", limits={1: "-,-,-,1"})),
       (TICK, ok(0, 2)), (switch(1), ok(1, 1)),
       (RELEASE(2), ok(0, 1),
        table([UNTOUCHED, task(1, RUNNING), task(2, READY, rest=1)], "4,1,1,3,3", semaphores=objects(o2="1,[]"), charges="0,0,4",
              limits={1: "-,-,-,1"})))

tables("limit-ends-out-of-the-middle",
       "Eight queued: at tick 2 the limits of the fourth and the sixth end, at 3 that of the seventh; those behind move up (02, W-202; 05, 21)",
       *added(*[128] * 9), (START, ok(1, 1)),
       *[pair for at, call in enumerate((ACQUIRE(0), ACQUIRE_WITHIN(0, 9), ACQUIRE(0), ACQUIRE_WITHIN(0, 2), ACQUIRE(0), ACQUIRE_WITHIN(0, 2),
                                         ACQUIRE_WITHIN(0, 3), ACQUIRE(0)), 1)
         for pair in ((call, ok(0, at)), (switch(at - 1), ok(at + 1, at + 1)))],
       (TICK, ok(0, 9),
        table([UNTOUCHED, *[task(at, BLOCKED) for at in range(1, 9)], task(9, RUNNING, left=False, rest=4)], "1,1,9,10,10",
              semaphores=objects(o0="0,[1 2 3 4 5 6 7 8]"), charges="0,0,0,0,0,0,0,0,0,1",
              limits={2: "s,0,9,0", 4: "s,0,2,0", 6: "s,0,2,0", 7: "s,0,3,0"})),
       (TICK, ok(1, 9),
        table([UNTOUCHED, task(1, BLOCKED), task(2, BLOCKED), task(3, BLOCKED), task(4, READY), task(5, BLOCKED), task(6, READY),
               task(7, BLOCKED), task(8, BLOCKED), task(9, RUNNING, left=False, rest=3)], "2,1,9,10,10",
              semaphores=objects(o0="0,[1 2 3 5 7 8]"), charges="0,0,0,0,0,0,0,0,0,2",
              limits={2: "s,0,9,0", 4: "-,-,-,1", 6: "-,-,-,1", 7: "s,0,3,0"})),
       (TICK, ok(1, 9)), (RELEASE(0), ok(1, 9)),
       (RELEASE(0), ok(1, 9),
        table([UNTOUCHED, task(1, READY), task(2, READY), task(3, BLOCKED), task(4, READY), task(5, BLOCKED), task(6, READY), task(7, READY),
               task(8, BLOCKED), task(9, RUNNING, left=False, rest=2)], "3,1,9,10,10",
              semaphores=objects(o0="2,[3 5 8]"), charges="0,0,0,0,0,0,0,0,0,3",
              limits={4: "-,-,-,1", 6: "-,-,-,1", 7: "-,-,-,1"})))

tables("limit-and-sleeper-at-one-tick",
       "A sleeper, a limit at an event and two at a semaphore, queued against the order of the slots: all Ready at tick 2 (02, W-202)",
       *added(*[128] * 5), (START, ok(1, 1)), (BLOCK, ok(0, 1)), (switch(0), ok(2, 2)), (ACQUIRE_WITHIN(1, 2), ok(0, 2)), (WAKE(1), ok(1, 2)),
       (switch(1), ok(3, 3)), (SLEEP(2), ok(0, 3)), (switch(2), ok(4, 4)), (WAIT_WITHIN(1, 2), ok(0, 4)), (switch(3), ok(5, 5)),
       (switch(4), ok(1, 1)), (ACQUIRE_WITHIN(1, 2), ok(0, 1)), (switch(0), ok(5, 5)),
       (TICK, ok(0, 5),
        table([UNTOUCHED, task(1, BLOCKED), task(2, BLOCKED), task(3, SLEEPING, wake=2), task(4, BLOCKED), task(5, RUNNING, rest=4)],
              "1,1,5,6,6", semaphores=objects(o1="0,[2 1]"), events=objects(o1="0,[4]"), charges="0,0,0,0,0,1",
              limits={1: "s,1,2,0", 2: "s,1,2,0", 4: "e,1,2,0"})),
       (TICK, ok(1, 5),
        table([UNTOUCHED, task(1, READY), task(2, READY), task(3, READY, wake=2), task(4, READY), task(5, RUNNING, rest=3)],
              "2,1,5,6,6", charges="0,0,0,0,0,2", limits={1: "-,-,-,1", 2: "-,-,-,1", 4: "-,-,-,1"})),
       (TICK, ok(0, 5)))

tables("limit-ended-by-a-release",
       "A release and a signal wake: the limit ends unmarked, the id is gone, and its tick does nothing (02, W-202; 05, 17)",
       *added(128, 128, 128), (START, ok(1, 1)), (ACQUIRE_WITHIN(0, 3), ok(0, 1)), (switch(0), ok(2, 2)), (WAIT_WITHIN(3, 3), ok(0, 2)),
       (switch(1), ok(3, 3)), (RELEASE(0), ok(1, 3)),
       (SIGNAL(3), ok(1, 3),
        table([UNTOUCHED, task(1, READY), task(2, READY), task(3, RUNNING, left=False)], "0,1,3,4,4", semaphores=objects(o0="1,[]"))),
       (TICK, ok(0, 3)), (TICK, ok(0, 3)),
       (TICK, ok(0, 3),
        table([UNTOUCHED, task(1, READY), task(2, READY), task(3, RUNNING, left=False, rest=2)], "3,1,3,4,4", semaphores=objects(o0="1,[]"),
              charges="0,0,0,3")))

tables("limit-ended-by-hand",
       "Wake ends the limit and leaves the id queued; its tick does nothing; a release drops it and wakes the one behind (02, W-202; 05, 20)",
       *added(128, 128, 128), (START, ok(1, 1)), (ACQUIRE_WITHIN(0, 2), ok(0, 1)), (switch(0), ok(2, 2)), (ACQUIRE_WITHIN(0, 9), ok(0, 2)),
       (switch(1), ok(3, 3)),
       (WAKE(1), ok(1, 3),
        table([UNTOUCHED, task(1, READY), task(2, BLOCKED), task(3, RUNNING, left=False)], "0,1,3,4,4", semaphores=objects(o0="0,[1 2]"),
              limits={2: "s,0,9,0"})),
       (TICK, ok(0, 3)),
       (TICK, ok(0, 3),
        table([UNTOUCHED, task(1, READY), task(2, BLOCKED), task(3, RUNNING, left=False, rest=3)], "2,1,3,4,4",
              semaphores=objects(o0="0,[1 2]"), charges="0,0,0,2", limits={2: "s,0,9,0"})),
       (RELEASE(0), ok(1, 3),
        table([UNTOUCHED, task(1, READY), task(2, READY), task(3, RUNNING, left=False, rest=3)], "2,1,3,4,4", semaphores=objects(o0="1,[]"),
              charges="0,0,0,2")))

tables("limit-ended-by-hand-then-blocked-again",
       "Woken by hand, task 1 waits elsewhere: a release finds it Blocked, wakes it, and does not go on to the next (02, W-201; 05, 8, 20)",
       *added(128, 128, 128), (START, ok(1, 1)), (ACQUIRE_WITHIN(0, 9), ok(0, 1)), (switch(0), ok(2, 2)), (ACQUIRE(0), ok(0, 2)),
       (switch(1), ok(3, 3)), (WAKE(1), ok(1, 3)), (switch(2), ok(1, 1)), (EVENT_WAIT(0), ok(0, 1)), (switch(0), ok(3, 3)),
       (RELEASE(0), ok(1, 3),
        table([UNTOUCHED, task(1, READY), task(2, BLOCKED), task(3, RUNNING)], "0,1,3,4,4", semaphores=objects(o0="1,[2]"),
              events=objects(o0="0,[1]"))))

tables("limit-ended-by-status",
       "Status ends a limit, status Blocked too, marked no; the id stays queued, and the limit's tick does nothing (02, W-202; 05, 18, 20)",
       *added(128), (START, ok(1, 1)), (ACQUIRE_WITHIN(1, 1), ok(0, 1)),
       (TICK, ok(1, 1), table([UNTOUCHED, task(1, READY, left=False)], "1,1,1,2,2", charges="0,1", limits={1: "-,-,-,1"})),
       (ACQUIRE_WITHIN(1, 1), ok(0, 1),
        table([UNTOUCHED, task(1, BLOCKED, left=False)], "1,1,1,2,2", semaphores=objects(o1="0,[1]"), charges="0,1", limits={1: "s,1,2,1"})),
       (status(2), ok(0, 1),
        table([UNTOUCHED, task(1, BLOCKED, left=False)], "1,1,1,2,2", semaphores=objects(o1="0,[1]"), charges="0,1")),
       (TICK, ok(1, 1),
        table([UNTOUCHED, task(1, BLOCKED, left=False)], "2,1,1,2,2", semaphores=objects(o1="0,[1]"), charges="0,2")),
       *[pair for state in (READY, SUSPENDED, SLEEPING)
         for pair in ((ACQUIRE_WITHIN(1, 1), ok(0, 1),
                       table([UNTOUCHED, task(1, BLOCKED, left=False)], "2,1,1,2,2", semaphores=objects(o1="0,[1]"), charges="0,2",
                             limits={1: "s,1,3,0"})),
                      (status(state), ok(0, 1),
                       table([UNTOUCHED, task(1, state, left=False)], "2,1,1,2,2", semaphores=objects(o1="0,[1]"), charges="0,2")))],
       (TICK, ok(1, 1),
        table([UNTOUCHED, task(1, READY, left=False)], "3,1,1,2,2", semaphores=objects(o1="0,[1]"), charges="0,3")))

tables("limit-ended-by-sleep", "Sleep ends a limit; the sleeper wakes at its own tick, and that of the limit does nothing (02, W-202; 05, 20)",
       *added(128, 128), (START, ok(1, 1)), (WAIT_WITHIN(2, 1), ok(0, 1)),
       (SLEEP(2), ok(0, 1),
        table([UNTOUCHED, task(1, SLEEPING, left=False, wake=2), task(2, READY, left=False)], "0,1,1,3,3", events=objects(o2="0,[1]"))),
       (switch(0), ok(2, 2)),
       (TICK, ok(0, 2),
        table([UNTOUCHED, task(1, SLEEPING, wake=2), task(2, RUNNING, left=False, rest=4)], "1,1,2,3,3", events=objects(o2="0,[1]"),
              charges="0,0,1")),
       (TICK, ok(1, 2),
        table([UNTOUCHED, task(1, READY, wake=2), task(2, RUNNING, left=False, rest=3)], "2,1,2,3,3", events=objects(o2="0,[1]"),
              charges="0,0,2")))

tables("limit-ended-by-exit", "Exit ends the limit of its task, and that of the task which waits for it; the ids stay queued (02, W-202; 05, 20)",
       *added(128, 128, 128), (START, ok(1, 1)), (WAIT(2), ok(0, 1)), (ACQUIRE_WITHIN(3, 2), ok(0, 1)), (switch(0), ok(2, 2)),
       (WAIT_WITHIN(0, 2), ok(0, 2),
        table([UNTOUCHED, task(1, BLOCKED), task(2, BLOCKED, left=False, waiter=1), task(3, READY, left=False)], "0,1,2,4,4",
              semaphores=objects(o3="0,[1]"), events=objects(o0="0,[2]"), limits={1: "s,3,2,0", 2: "e,0,2,0"})),
       (EXIT, ok(0, 2),
        table([UNTOUCHED, task(1, READY), task(2, TERMINATED, left=False, rest=0), task(3, READY, left=False)], "0,1,2,4,4",
              semaphores=objects(o3="0,[1]"), events=objects(o0="0,[2]"))),
       (switch(1), ok(3, 3)), (TICK, ok(0, 3)),
       (TICK, ok(0, 3),
        table([UNTOUCHED, task(1, READY), task(2, TERMINATED, rest=0), task(3, RUNNING, left=False, rest=3)], "2,1,3,4,4",
              semaphores=objects(o3="0,[1]"), events=objects(o0="0,[2]"), charges="0,0,0,2")))

tables("limit-ended-by-blocking-once-more",
       "Current, Blocked already, blocks once more: block, wait, lock, acquire and event wait each end its limit (02, W-202; 05, 18)",
       *added(128, 128), (START, ok(1, 1)), (switch(0), ok(2, 2)), (LOCK(0), ok(1, 2)), (switch(1), ok(1, 1)),
       *[pair for again, waiter, queues in (
           (BLOCK, "-", ("1,2,-,[]", "0,[]")), (WAIT(2), 1, ("1,2,-,[]", "0,[]")), (LOCK(0), 1, ("1,2,-,[1]", "0,[]")),
           (ACQUIRE(3), 1, ("1,2,-,[1]", "0,[]")), (EVENT_WAIT(1), 1, ("1,2,-,[1]", "0,[1]")))
         for pair in ((ACQUIRE_WITHIN(3, 2), ok(0, 1)),
                      (again, ok(0, 1),
                       table([UNTOUCHED, task(1, BLOCKED), task(2, READY, owned=1, waiter=waiter)], "0,1,1,3,3", mutexes(queues[0]),
                             objects(o3="0,[1]"), objects(o1=queues[1]))))],
       (TICK, ok(1, 1)),
       (TICK, ok(1, 1),
        table([UNTOUCHED, task(1, BLOCKED), task(2, READY, owned=1, waiter=1)], "2,1,1,3,3", mutexes("1,2,-,[1]"), objects(o3="0,[1]"),
              objects(o1="0,[1]"), "0,2")))

tables("limit-begun-anew",
       "A new limit ends the old one, marked no; where none was, the mark stays; one queued keeps its place (02, W-202; 05, 15, 17, 18)",
       *added(128, 128), (START, ok(1, 1)), (ACQUIRE_WITHIN(0, 1), ok(0, 1)), (TICK, ok(1, 1)), (ACQUIRE(0), ok(0, 1)), (switch(0), ok(2, 2)),
       (ACQUIRE(0), ok(0, 2)), (WAKE(1), ok(1, 2)), (switch(1), ok(1, 1)),
       (ACQUIRE_WITHIN(0, 5), ok(0, 1),
        table([UNTOUCHED, task(1, BLOCKED), task(2, BLOCKED)], "1,1,1,3,3", semaphores=objects(o0="0,[1 2]"), charges="0,1",
              limits={1: "s,0,6,1"})),
       (TICK, ok(1, 1)),
       (ACQUIRE_WITHIN(0, 5), ok(0, 1),
        table([UNTOUCHED, task(1, BLOCKED), task(2, BLOCKED)], "2,1,1,3,3", semaphores=objects(o0="0,[1 2]"), charges="0,2",
              limits={1: "s,0,7,0"})),
       (WAIT_WITHIN(2, 1), ok(0, 1),
        table([UNTOUCHED, task(1, BLOCKED), task(2, BLOCKED)], "2,1,1,3,3", semaphores=objects(o0="0,[1 2]"), events=objects(o2="0,[1]"),
              charges="0,2", limits={1: "e,2,3,0"})),
       (TICK, ok(1, 1),
        table([UNTOUCHED, task(1, READY), task(2, BLOCKED)], "3,1,1,3,3", semaphores=objects(o0="0,[1 2]"), charges="0,3",
              limits={1: "-,-,-,1"})))

tables("limit-in-one-of-two-queues",
       "The tick takes the id out of the limit's queue alone; the other still has it, and a release drops it there (02, W-202; 05, 21)",
       *added(128, 128), (START, ok(1, 1)), (ACQUIRE(1), ok(0, 1)), (EVENT_WAIT(1), ok(0, 1)), (ACQUIRE_WITHIN(2, 1), ok(0, 1)),
       (switch(0), ok(2, 2)),
       (TICK, ok(1, 2),
        table([UNTOUCHED, task(1, READY), task(2, RUNNING, left=False, rest=4)], "1,1,2,3,3", semaphores=objects(o1="0,[1]"),
              events=objects(o1="0,[1]"), charges="0,0,1", limits={1: "-,-,-,1"})),
       (RELEASE(1), ok(0, 2)), (SIGNAL(1), ok(0, 2)),
       (RELEASE(2), ok(0, 2),
        table([UNTOUCHED, task(1, READY), task(2, RUNNING, left=False, rest=4)], "1,1,2,3,3", semaphores=objects(o1="1,[]", o2="1,[]"),
              events=objects(o1="1,[]"), charges="0,0,1", limits={1: "-,-,-,1"})))

tables("limited-wait-that-need-not-block",
       "With a permit or the flag it answers 1, begins no limit and ends none; nor do acquire and event wait there (02, W-202; 05, 14, 19)",
       *added(128), (START, ok(1, 1)), (RELEASE(0), ok(0, 1)), (ACQUIRE_WITHIN(0, 4), ok(1, 1)), (SIGNAL(0), ok(0, 1)),
       (WAIT_WITHIN(0, 4), ok(1, 1), table([UNTOUCHED, task(1, RUNNING, left=False)], "0,1,1,2,2")),
       (WAIT_WITHIN(1, 9), ok(0, 1)), (RELEASE(0), ok(0, 1)), (ACQUIRE_WITHIN(0, 4), ok(1, 1)), (SIGNAL(0), ok(0, 1)),
       (WAIT_WITHIN(0, 4), ok(1, 1),
        table([UNTOUCHED, task(1, BLOCKED, left=False)], "0,1,1,2,2", events=objects(o1="0,[1]"), limits={1: "e,1,9,0"})),
       (RELEASE(0), ok(0, 1)), (ACQUIRE(0), ok(1, 1)), (SIGNAL(0), ok(0, 1)), (EVENT_WAIT(0), ok(1, 1)), (TRY_ACQUIRE(0), ok(0, 1)),
       (LOCK(0), ok(1, 1),
        table([UNTOUCHED, task(1, BLOCKED, left=False, owned=1)], "0,1,1,2,2", mutexes("1,1,-,[]"), events=objects(o1="0,[1]"),
              limits={1: "e,1,9,0"})))

tables("limit-left-by-a-refused-call",
       "Refused calls leave a limit, a wait for a Terminated task too; one for another task ends it (02, W-202; 05, 19)",
       *added(128, 128), (START, ok(1, 1)), (LOCK(1), ok(1, 1)), (switch(0), ok(2, 2)), (EXIT, ok(0, 2)), (switch(1), ok(1, 1)),
       (ACQUIRE_WITHIN(0, 7), ok(0, 1)), (ACQUIRE_WITHIN(1, 0), no(7, 1)), (WAIT_WITHIN(1, 0), no(7, 1)), (ACQUIRE_WITHIN(4, 1), no(20, 1)),
       (WAIT_WITHIN(255, 1), no(20, 1)), (EXIT, no(11, 1)), (WAIT(1), no(7, 1)), (WAIT(9), no(8, 1)), (status(1), no(7, 1)), (LOCK(1), no(13, 1)),
       (UNLOCK(0), no(14, 1)), (START, no(3, 1)), (line(0x04), no(16, 1)),
       (WAIT(2), ok(0, 1),
        table([UNTOUCHED, task(1, BLOCKED, owned=1), task(2, TERMINATED, rest=0)], "0,1,1,3,3",
              "0,-,-,[]; 1,1,-,[]; 0,-,-,[]; 0,-,-,[];", objects(o0="0,[1]"), limits={1: "s,0,7,0"})),
       (WAIT(0), ok(0, 1),
        table(["0,0,0,255,0,1,1,0,1,0,8192,8192,0", task(1, BLOCKED, owned=1), task(2, TERMINATED, rest=0)], "0,1,1,3,3",
              "0,-,-,[]; 1,1,-,[]; 0,-,-,[]; 0,-,-,[];", objects(o0="0,[1]"))))

tables("limited-wait-refused",
       "20 before 2, 2 before 7, 7 before 12, and 7 also with a permit or the flag, which stay; one queued already is not 12 (02, W-202; 05, 13)",
       *[(op(4, 0), no(20, 0)) for op in (ACQUIRE_WITHIN, WAIT_WITHIN)], *[(op(3, 0), no(2, 0)) for op in (ACQUIRE_WITHIN, WAIT_WITHIN)],
       *[(op(0, 5), no(2, 0), FRESH) for op in (ACQUIRE_WITHIN, WAIT_WITHIN)], (RELEASE(3), ok(0, 0)), (SIGNAL(3), ok(0, 0)), *added(*[128] * 9),
       (START, ok(1, 1)), *[(op(4, 0), no(20, 1)) for op in (ACQUIRE_WITHIN, WAIT_WITHIN)],
       *[(op(3, 0), no(7, 1)) for op in (ACQUIRE_WITHIN, WAIT_WITHIN)], *[(op(2, 0), no(7, 1)) for op in (ACQUIRE_WITHIN, WAIT_WITHIN)],
       *[pair for at in range(1, 9)
         for pair in ((ACQUIRE_WITHIN(0, 9), ok(0, at)), (WAIT_WITHIN(0, 8), ok(0, at)), (switch(at - 1), ok(at + 1, at + 1)))],
       *[(op(0, ticks), no(number, 9)) for op in (ACQUIRE_WITHIN, WAIT_WITHIN) for ticks, number in ((0, 7), (1, 12))],
       (WAKE(5), ok(1, 9)), (BLOCK, ok(0, 9)), (switch(8), ok(5, 5)),
       (ACQUIRE_WITHIN(0, 7), ok(0, 5),
        table([UNTOUCHED, *[task(at, BLOCKED) for at in range(1, 10)]], "0,1,5,10,10", semaphores=objects(o0="0,[1 2 3 4 5 6 7 8]", o3="1,[]"),
              events=objects(o0="0,[1 2 3 4 5 6 7 8]", o3="1,[]"),
              limits={**{at: "e,0,8,0" for at in range(1, 9)}, 5: "s,0,7,0"})))

tables("limit-ended-by-a-handoff",
       "A task queued at a mutex waits at a semaphore with a limit, and unlock's handoff ends that; it stays queued there (02, W-202; 05, 22)",
       *added(128, 128), (START, ok(1, 1)), (switch(0), ok(2, 2)), (LOCK(0), ok(1, 2)), (switch(1), ok(1, 1)), (LOCK(0), ok(0, 1)),
       (ACQUIRE_WITHIN(1, 6), ok(0, 1),
        table([UNTOUCHED, task(1, BLOCKED), task(2, READY, owned=1)], "0,1,1,3,3", mutexes("1,2,-,[1]"), objects(o1="0,[1]"),
              limits={1: "s,1,6,0"})),
       (switch(0), ok(2, 2)),
       (UNLOCK(0), ok(1, 2),
        table([UNTOUCHED, task(1, READY, owned=1), task(2, RUNNING)], "0,1,2,3,3", mutexes("1,1,1,[]"), objects(o1="0,[1]"))))

tables("limit-of-idle",
       "Idle's limit ends by its tick; Blocked and picked since none is Ready it ends unmarked, and the place stays (02, W-202; 05, 24)",
       (START, ok(0, 0)),
       (ACQUIRE_WITHIN(0, 2), ok(0, 0), table([idle(BLOCKED, left=False)], "0,1,0,1,1", semaphores=objects(o0="0,[0]"), limits={0: "s,0,2,0"})),
       (TICK, ok(1, 0)),
       (TICK, ok(1, 0), table([idle(READY, left=False)], "2,1,0,1,1", charges="2", limits={0: "-,-,-,1"})),
       (IDLE, ok(0, 0), table([idle(RUNNING)], "2,1,0,1,1", charges="2", limits={0: "-,-,-,1"})),
       (ACQUIRE_WITHIN(0, 1), ok(0, 0), table([idle(BLOCKED)], "2,1,0,1,1", semaphores=objects(o0="0,[0]"), charges="2", limits={0: "s,0,3,1"})),
       (IDLE, ok(0, 0), table([idle(RUNNING)], "2,1,0,1,1", semaphores=objects(o0="0,[0]"), charges="2")),
       (TICK, ok(1, 0), table([idle(RUNNING)], "3,1,0,1,1", semaphores=objects(o0="0,[0]"), charges="3")),
       (RELEASE(0), ok(0, 0), table([idle(RUNNING)], "3,1,0,1,1", semaphores=objects(o0="1,[]"), charges="3")))

tables("mark-of-a-new-task", "The mark stays at exit where no limit was left; the next task in that slot has none (02, W-202; 05, 16, 17)",
       *added(128, 128), (START, ok(1, 1)), (WAIT_WITHIN(0, 1), ok(0, 1)), (TICK, ok(1, 1)), (EXIT, ok(0, 1)),
       (switch(0), ok(2, 2),
        table([UNTOUCHED, task(1, TERMINATED, rest=0), task(2, RUNNING, left=False)], "1,1,2,3,3", charges="0,1", limits={1: "-,-,-,1"})),
       (REAP(1), ok(0x2000, 2)),
       (add(0, 128), ok(3, 2),
        table([UNTOUCHED, task(1, READY, left=False, id=3), task(2, RUNNING, left=False)], "1,1,2,3,4", retired=1)))

tables("limit-is-in-ticks", "A limit is in ticks at any rate, and its tick has 64 bits (02, W-202; 05, 12)",
       (fresh(100), ok(0, 0)), *added(128), (START, ok(1, 1)), (TICK, ok(0, 1)),
       (ACQUIRE_WITHIN(0, 11), ok(0, 1),
        table([UNTOUCHED, task(1, BLOCKED, left=False, rest=4)], "1,1,1,2,2", semaphores=objects(o0="0,[1]"), charges="0,1",
              limits={1: "s,0,12,0"})),
       (WAIT_WITHIN(3, NONE), ok(0, 1),
        table([UNTOUCHED, task(1, BLOCKED, left=False, rest=4)], "1,1,1,2,2", semaphores=objects(o0="0,[1]"), events=objects(o3="0,[1]"),
              charges="0,1", limits={1: "e,3,4294967296,0"})))

# W-204: milliseconds from ticks

tables("milliseconds-of-ticks",
       "At hz 1000 a tick is a millisecond; before the start and after it, and nothing is altered; 2^32 ticks are 23 (02, W-204; 05, 28)",
       *[(milliseconds(y, k), ok(ms, 0), FRESH) for y, k, ms in (
           (0, 0, 0), (1, 0, 1), (7, 1, 14), (5, 29, 2684354560), (NONE, 0, NONE), (1, 31, 2147483648), (0, 1, 0), (0, 32, 0))],
       *[(milliseconds(y, k), no(23, 0), FRESH) for y, k in ((2147483648, 1), (1, 32), (NONE, 32))],
       *added(128), (START, ok(1, 1)), (TICK, ok(0, 1)),
       *[(milliseconds(y, k), answer, table([UNTOUCHED, task(1, RUNNING, left=False, rest=4)], "1,1,1,2,2", charges="0,1")) for y, k, answer in (
           (0, 0, ok(0, 1)), (7, 1, ok(14, 1)), (NONE, 0, ok(NONE, 1)), (2147483648, 1, no(23, 1)), (0, 32, ok(0, 1)))],
       (TICK, ok(0, 1)))

tables("milliseconds-in-any-state",
       "Current Blocked with a limit, Sleeping, Suspended and Terminated: its state, limit and sleep and the queue stay (02, W-204; 05, 28)",
       *added(128, 128), (START, ok(1, 1)),
       *[pair for call, slot, limits in (
           (ACQUIRE_WITHIN(0, 9), task(1, BLOCKED, left=False), {1: "s,0,9,0"}), (SLEEP(4), task(1, SLEEPING, left=False, wake=4), {}),
           (status(4), task(1, SUSPENDED, left=False, wake=4), {}), (EXIT, task(1, TERMINATED, left=False, rest=0), {}))
         for after in [table([UNTOUCHED, slot, task(2, READY, left=False)], "0,1,1,3,3", semaphores=objects(o0="0,[1]"), limits=limits)]
         for pair in ((call, ok(0, 1), after), (milliseconds(5), ok(5, 1), after), (milliseconds(1, 32), no(23, 1), after))],
       (switch(0), ok(2, 2)), (milliseconds(5), ok(5, 2)))

# By hand: 1000 * t = ms * hz + rest. At 999: 1,000 = 1 * 999 + 1; 998,000 = 998 * 999 + 998. At 1001: 2,000 = 1 * 1,001 + 999;
# 1,000,000 = 999 * 1,001 + 1; 1,002,000 = 1,000 * 1,001 + 1,000. At 2^32 - 1: 4,294,968,000 = 1 * hz + 705, and 4,294,967,000, of one
# tick fewer, is less than hz.
tables("milliseconds-at-other-rates",
       "By the hz of fresh, rounded down: one tick is 1,000 ms at 1 hz, 10 at 100, 1 at 999, 0 at 1,001 and at 2^32 - 1 (02, W-204; 05, 29)",
       *[pair for hz, asked in (
           (1, ((0, 0), (1, 1000), (2, 2000), (3600, 3600000))), (100, ((0, 0), (1, 10), (11, 110))),
           (999, ((0, 0), (1, 1), (2, 2), (998, 998), (999, 1000))), (1001, ((0, 0), (1, 0), (2, 1), (1000, 999), (1001, 1000), (1002, 1000))),
           (NONE, ((0, 0), (1, 0), (4294967, 0), (4294968, 1), (NONE - 1, 999), (NONE, 1000))))
         for pair in ((fresh(hz), ok(0, 0), FRESH), *[(milliseconds(t), ok(ms, 0), FRESH) for t, ms in asked])],
       (fresh(0), no(7, 0)), (milliseconds(NONE), ok(1000, 0)), (START, ok(0, 0)), (milliseconds(4294968), ok(1, 0)),
       (fresh(1000), ok(0, 0)), (milliseconds(4294968), ok(4294968, 0)))

# By hand, with m = 4,294,967,295, the largest answer. At 1: 1000 * 4,294,967 is 295 below m, 1000 * 4,294,968 is 705 above. At 100:
# 10 * 429,496,729 is 5 below, 10 * 429,496,730 is 5 above. At 999: 4,290,672,328,000 = m * 999 + 295; 1,000 more = (m + 1) * 999 + 296.
# At 1001: 4,294,967,295,000 = 4,290,676,618 * 1,001 + 382. The last ticks before 23 are 4,299,262,263, odd and past 32 bits; of one fewer
# 4,299,262,262,000 = (m - 1) * 1,001 + 706, of one more 4,299,262,264,000 = (m + 1) * 1,001 + 704. At m: the last ticks before 23 are
# 18,446,744,069,414,584, with 55 bits, so the nearest are multiples of 2^23. 2,199,023,255 * 2^23 is 18,446,744,069,079,040, and 1000
# times that is m * m + 3,959,422,975; 2,199,023,256 * 2^23 is 18,446,744,077,467,648, and 1000 times that is (m + 2) * m + 3,758,096,385.
tables("milliseconds-up-to-23",
       "The last ticks that are accepted and the first that are 23, at six rates: as near as y times 2^k comes (02, W-204)",
       *[pair for hz, asked in (
           (1000, ((NONE, 0, NONE), (2147483648, 1, None))), (1, ((4294967, 0, 4294967000), (4294968, 0, None), (NONE, 0, None))),
           (100, ((429496729, 0, 4294967290), (429496730, 0, None))), (999, ((4290672328, 0, NONE), (4290672329, 0, None))),
           (1001, ((NONE, 0, 4290676618), (2149631131, 1, NONE - 1), (2149631132, 1, None))),
           (NONE, ((2199023255, 23, NONE), (2199023256, 23, None))))
         for pair in ((fresh(hz), ok(0, 0)), *[(milliseconds(y, k), no(23, 0) if ms is None else ok(ms, 0), FRESH) for y, k, ms in asked])])

# By hand, with m as above: 1000 * 2,199,023,256 * 2^23 = 2^64 + 3,758,096,384; 1000 * 2^61 = 125 * 2^64; 1000 * 4,294,968 * 2^32 =
# 2^64 + 704 * 2^32. The most ticks are 2^64 - 2^32; 1000 times that is 1000 * 2^32 short of 1000 * 2^64, and in 64 bits
# 4,294,966,296 * m + 4,294,966,296. A product that wraps would make answers of these: at hz 1000 3,758,096 and 0, at hz m 0, 0, 704 and
# 4,294,966,296. At hz m, accepted: 1000 * 2^32 = 1000 * m + 1000; 1000 * 3 * 2^31 = 1500 * m + 1500; 1000 * 2 * m = 2000 * m;
# 1000 * 4,294,967 * 2^32 = 4,294,967,000 * m + 4,294,967,000.
tables("milliseconds-past-64-bits",
       "23 where 1000 times the ticks passes 2^64, also where 64 bits of it are 0 or few; below that, ticks past 32 bits (02, W-204; 05, 30)",
       *[pair for hz in (1000, 1, 999, NONE)
         for pair in ((fresh(hz), ok(0, 0)), *[(milliseconds(y, k), no(23, 0), FRESH) for y, k in (
             (2199023256, 23), (1 << 29, 32), (7 << 29, 32), (4294968, 32), (1 << 31, 30), (NONE, 31), (NONE, 32))])],
       *[(milliseconds(y, k), ok(ms, 0), FRESH) for y, k, ms in (
           (1, 32, 1000), (3, 31, 1500), (2, 31, 1000), (NONE, 1, 2000), (4294967, 32, 4294967000), (2199023255, 23, NONE))])

tables("milliseconds-of-a-sleep",
       "The ticks that are left of a sleep, asked back: from 1,000 hz on the same milliseconds, below as many as they last (02, W-204; 05, 29)",
       (fresh(100), ok(0, 0)), *added(128, 128), (START, ok(1, 1)), (TICK, ok(0, 1)), (TICK, ok(0, 1)),
       (SLEEP(25), ok(0, 1),
        table([UNTOUCHED, task(1, SLEEPING, left=False, wake=5, rest=3), task(2, READY, left=False)], "2,1,1,3,3", charges="0,2")),
       (milliseconds(3), ok(30, 1)), (switch(0), ok(2, 2)), (TICK, ok(0, 2)), (milliseconds(2), ok(20, 2)), (TICK, ok(0, 2)),
       (milliseconds(1), ok(10, 2)),
       (TICK, ok(1, 2),
        table([UNTOUCHED, task(1, READY, wake=5, rest=3), task(2, RUNNING, left=False, rest=2)], "5,1,2,3,3", charges="0,2,3")),
       (milliseconds(0), ok(0, 2)),
       *[pair for hz, slept in ((3, ((1, 1, 333), (333, 1, 333), (334, 2, 666), (1000, 3, 1000))), (999, ((1, 1, 1), (999, 999, 1000))),
                                (1000, ((1, 1, 1), (NONE, NONE, NONE))), (1001, ((1, 2, 1), (7, 8, 7), (1000, 1001, 1000))),
                                (NONE, ((1, 4294968, 1), (1000, NONE, 1000))))
         for pair in ((fresh(hz), ok(0, 0)), (START, ok(0, 0)), *[
             pair for ms, ticks, back in slept for after in [table([f"0,0,3,255,{ticks},1,1,0,-,0,8192,8192,0"], "0,1,0,1,1")]
             for pair in ((SLEEP(ms), ok(0, 0), after), (milliseconds(ticks), ok(back, 0), after))])])

# W-205: the ranks in the table

tables("ranks-of-the-log-task",
       "As in rank-of-the-log-task: the log task has rank 7, and the Priority 200 in the slots and in the list call too (02, W-205; 05, 31)",
       *owner_of(0), (add(1, 7), ok(2, 1)), (add(2, 128), ok(3, 1), ranks(255, 200, 7, 128)), (switch(0), ok(2, 2)),
       (LOCK(0), ok(0, 2),
        table([UNTOUCHED, task(1, READY, owned=1, priority=200), task(2, BLOCKED, left=False, priority=7), task(3, READY, left=False)],
              "0,1,2,4,4", mutexes("1,1,-,[2]"), lent={1: 7})),
       (records(4), ok(4, 2, "0,0,255,0,8192;1,0,200,0,64;2,2,7,0,64;3,0,128,0,64")), (switch(1), ok(1, 1)),
       (UNLOCK(0), ok(1, 1),
        table([UNTOUCHED, task(1, RUNNING, priority=200), task(2, READY, owned=1, priority=7), task(3, READY, left=False)],
              "0,1,1,4,4", mutexes("1,2,2,[]"))))

tables("ranks-through-four-links", "The list rank-through-four-links, with the ranks of each stage (02, W-205; 05, 36)", *FOUR_LINKS)

tables("ranks-in-a-ring-of-two", "1 and 2 wait for each other: both have the smaller number; 3 at 7 waits for 1: all have 7 (02, W-205)",
       *owner_of(0), (add(1, 150), ok(2, 1)), (switch(0), ok(2, 2)), (LOCK(1), ok(1, 2)), (LOCK(0), ok(0, 2), ranks(255, 150, 150)),
       (switch(1), ok(1, 1)), (LOCK(1), ok(0, 1), ranks(255, 150, 150)), (add(2, 7), ok(3, 1), ranks(255, 150, 150, 7)), (switch(0), ok(3, 3)),
       (LOCK(0), ok(0, 3), ranks(255, 7, 7, 7)), (switch(2), ok(0, 0)), (WAKE(1), ok(1, 0), ranks(255, 7, 150, 7)),
       (WAKE(2), ok(1, 0), ranks(255, 7, 150, 7)), (WAKE(3), ok(1, 0), ranks(255, 200, 150, 7)))

# Each of 1 to 4 has the mutex of its place and sleeps; awake, 4 waits for 1, 2 for 3, 3 for 4, and 1 for 2 before them.
tables("ranks-in-a-ring-of-four",
       "1 to 4 wait for each other in a ring; while it is made, a task lent 10 comes before one at 20; 5 at 5 waits outside (02, W-205)",
       *added(40, 30, 20, 10), (START, ok(4, 4)), (LOCK(3), ok(1, 4)), (SLEEP(1), ok(0, 4)), (switch(3), ok(3, 3)), (LOCK(2), ok(1, 3)),
       (SLEEP(1), ok(0, 3)), (switch(2), ok(2, 2)), (LOCK(1), ok(1, 2)), (SLEEP(1), ok(0, 2)), (switch(1), ok(1, 1)), (LOCK(0), ok(1, 1)),
       (LOCK(1), ok(0, 1), ranks(255, 40, 30, 20, 10)), (switch(0), ok(0, 0)), (TICK, ok(1, 0)), (IDLE, ok(4, 4)),
       (LOCK(0), ok(0, 4), ranks(255, 10, 10, 20, 10)), (switch(3), ok(2, 2)), (LOCK(2), ok(0, 2), ranks(255, 10, 10, 10, 10)), (switch(1), ok(3, 3)),
       (LOCK(3), ok(0, 3), ranks(255, 10, 10, 10, 10)), (switch(2), ok(0, 0)), (add(4, 5), ok(5, 0), ranks(255, 10, 10, 10, 10, 5)), (IDLE, ok(5, 5)),
       (LOCK(2), ok(0, 5), ranks(255, 5, 5, 5, 5, 5)), (switch(4), ok(0, 0)), (WAKE(4), ok(1, 0), ranks(255, 40, 30, 5, 5, 5)))

tables("ranks-in-a-ring-of-three", "A ring of three, one outside that waits for it, and one that waits for that one (02, W-205)",
       *added(40, 30, 20), (START, ok(3, 3)), (LOCK(2), ok(1, 3)), (SLEEP(1), ok(0, 3)), (switch(2), ok(2, 2)), (LOCK(1), ok(1, 2)),
       (SLEEP(1), ok(0, 2)), (switch(1), ok(1, 1)), (LOCK(0), ok(1, 1)), (LOCK(1), ok(0, 1), ranks(255, 40, 30, 20)), (switch(0), ok(0, 0)),
       (TICK, ok(1, 0)), (IDLE, ok(3, 3)), (LOCK(0), ok(0, 3), ranks(255, 20, 20, 20)), (switch(2), ok(2, 2)),
       (LOCK(2), ok(0, 2), ranks(255, 20, 20, 20)), (add(3, 100), ok(4, 2)), (switch(1), ok(4, 4)), (LOCK(3), ok(1, 4)),
       (LOCK(0), ok(0, 4), ranks(255, 20, 20, 20, 100)), (add(4, 5), ok(5, 4)), (switch(3), ok(5, 5)), (LOCK(3), ok(0, 5), ranks(255, 5, 5, 5, 5, 5)))

tables("ranks-by-the-lowest-of-four",
       "Queued at mutex 3, then at 2, 1 and 0 too, it lends to the owner of the lowest; up, to none; Blocked again, to the next (02, W-205; 05, 33)",
       *added(200, 200, 200, 200), (START, ok(1, 1)), (LOCK(0), ok(1, 1)), (switch(0), ok(2, 2)), (LOCK(1), ok(1, 2)), (switch(1), ok(3, 3)),
       (LOCK(2), ok(1, 3)), (switch(2), ok(4, 4)), (LOCK(3), ok(1, 4)), (add(4, 7), ok(5, 4)), (switch(3), ok(5, 5)),
       (LOCK(3), ok(0, 5), ranks(255, 200, 200, 200, 7, 7)), (LOCK(2), ok(0, 5), ranks(255, 200, 200, 7, 200, 7)),
       (LOCK(1), ok(0, 5), ranks(255, 200, 7, 200, 200, 7)), (LOCK(0), ok(0, 5), ranks(255, 7, 200, 200, 200, 7)), (switch(4), ok(1, 1)),
       (UNLOCK(0), ok(1, 1), ranks(255, 200, 200, 200, 200, 7)), (switch(0), ok(5, 5)), (BLOCK, ok(0, 5), ranks(255, 200, 7, 200, 200, 7)),
       (switch(4), ok(2, 2)), (UNLOCK(1), ok(1, 2), ranks(255, 200, 200, 200, 200, 7)), (switch(1), ok(5, 5)),
       (EVENT_WAIT(0), ok(0, 5), ranks(255, 200, 200, 7, 200, 7)))

tables("ranks-where-the-lowest-owner-is-gone",
       "The list rank-where-the-lowest-owner-is-gone: a waiter that has ended lends nothing, an emptied slot has no rank (02, W-205; 05, 34)",
       *LOWEST_GONE)

tables("ranks-of-owners-not-blocked",
       "2, queued at mutex 0, has mutex 1, where 3 at 7 waits: Sleeping, Ready, Running or Suspended it has 7 and passes nothing on (02, W-205; 05, 32)",
       *owner_of(0), (add(1, 150), ok(2, 1)), (switch(0), ok(2, 2)), (LOCK(1), ok(1, 2)), (LOCK(0), ok(0, 2), ranks(255, 150, 150)),
       (SLEEP(2), ok(0, 2), ranks(255, 200, 150)), (add(2, 7), ok(3, 2)), (switch(1), ok(3, 3)),
       (LOCK(1), ok(0, 3),
        table([UNTOUCHED, task(1, READY, owned=1, priority=200), task(2, SLEEPING, wake=2, owned=1, priority=150),
               task(3, BLOCKED, left=False, priority=7)], "0,1,3,4,4", "1,1,-,[2]; 1,2,-,[3]; 0,-,-,[]; 0,-,-,[];", lent={2: 7})),
       (switch(2), ok(1, 1)), (TICK, ok(0, 1), ranks(255, 200, 7, 7)), (TICK, ok(1, 1), ranks(255, 200, 7, 7)),
       (switch(0), ok(2, 2), ranks(255, 200, 7, 7)), (status(4), ok(0, 2), ranks(255, 200, 7, 7)), (status(2), ok(0, 2), ranks(255, 7, 7, 7)),
       (switch(1), ok(1, 1)), (UNLOCK(0), ok(1, 1), ranks(255, 200, 7, 7)))

tables("ranks-of-an-owner-that-has-ended",
       "2 ends while it is queued at mutexes 0 and 1 and is handed 0: lent 7 by 3, it passes nothing on; reaped, 3 lends to none (02, W-205; 05, 32)",
       *owner_of(0), (LOCK(1), ok(1, 1)), (add(1, 100), ok(2, 1)), (switch(0), ok(2, 2)), (LOCK(0), ok(0, 2), ranks(255, 100, 100)),
       (LOCK(1), ok(0, 2)), (EXIT, ok(0, 2), ranks(255, 200, 100)), (switch(1), ok(1, 1)), (UNLOCK(0), ok(1, 1), ranks(255, 200, 100)), (add(2, 7), ok(3, 1)),
       (switch(0), ok(3, 3)),
       (LOCK(0), ok(0, 3),
        table([UNTOUCHED, task(1, READY, owned=1, priority=200), task(2, TERMINATED, rest=0, owned=1, priority=100),
               task(3, BLOCKED, left=False, priority=7)], "0,1,3,4,4", "1,2,2,[3]; 1,1,-,[2]; 0,-,-,[]; 0,-,-,[];", lent={2: 7})),
       (records(4), ok(4, 3, "0,0,255,0,8192;1,0,200,0,64;2,5,100,0,64;3,2,7,0,64")), (switch(2), ok(1, 1)),
       (REAP(2), ok(0x2040, 1), ranks(255, 200, None, 7)))

tables("ranks-with-idle-in-the-middle",
       "Idle, queued, lends 255; it passes 128 on while it is Blocked; picked since none is Ready, it has 128 and passes nothing on (02, W-205; 05, 35, 37)",
       (START, ok(0, 0)), (LOCK(0), ok(1, 0)), (add(0, 200), ok(1, 0)), (IDLE, ok(1, 1)), (LOCK(1), ok(1, 1)), (SLEEP(3), ok(0, 1)),
       (switch(0), ok(0, 0)), (LOCK(1), ok(0, 0), ranks(255, 200)), (add(1, 128), ok(2, 0)), (IDLE, ok(2, 2)),
       (LOCK(0), ok(0, 2),
        table([idle(BLOCKED, owned=1), task(1, SLEEPING, wake=3, owned=1, priority=200), task(2, BLOCKED, left=False)], "0,1,2,3,3",
              "1,0,-,[2]; 1,1,-,[0]; 0,-,-,[]; 0,-,-,[];", lent={0: 128, 1: 128})),
       (switch(1), ok(0, 0), ranks(128, 200, 128)), (LOCK(1), ok(0, 0), ranks(128, 128, 128)), *[(TICK, ok(1, 0))] * 3, (IDLE, ok(1, 1)),
       (UNLOCK(1), ok(1, 1), ranks(128, 200, 128)), (switch(0), ok(0, 0)), (UNLOCK(0), ok(1, 0), ranks(255, 200, 128)), (IDLE, ok(2, 2)))

tables("ranks-when-a-limit-ends",
       "2, queued at mutex 0, waits elsewhere with a limit and lends; its tick makes it Ready, and 1 has its own number again (02, W-202, W-205)",
       *owner_of(0), (add(1, 7), ok(2, 1)), (switch(0), ok(2, 2)), (LOCK(0), ok(0, 2), ranks(255, 7, 7)), (WAKE(2), ok(1, 2), ranks(255, 200, 7)),
       (ACQUIRE_WITHIN(0, 2), ok(0, 2), ranks(255, 7, 7)), (switch(1), ok(1, 1)), (TICK, ok(0, 1), ranks(255, 7, 7)),
       (TICK, ok(1, 1), ranks(255, 200, 7)), (switch(0), ok(2, 2)))

# W-206: charges go with the task. Worked out by hand: each tick after the start is one for the slot that is current then, in whatever state;
# a reap takes what its slot has to the retired sum, and the slot has 0. In each table the charges and the sum add up to those ticks.

tables("charge-of-a-new-task",
       "1 has three ticks, ends and is reaped: they are the retired sum; 2 gets its slot with charge 0 and has its own two (02, W-206; 05, 41)",
       *added(128), (START, ok(1, 1)), (TICK, ok(0, 1)), (TICK, ok(0, 1)),
       (TICK, ok(0, 1), table([UNTOUCHED, task(1, RUNNING, left=False, rest=2)], "3,1,1,2,2", charges="0,3")),
       (EXIT, ok(0, 1)), (switch(0), ok(0, 0)),
       (REAP(1), ok(0x2000, 0), table([idle(RUNNING, left=False)], "3,1,0,1,2", retired=3)),
       (add(0, 128), ok(2, 0), table([idle(RUNNING, left=False), task(1, READY, left=False, id=2)], "3,1,0,2,3", retired=3)),
       # Idle has one, 3 + 1 + 2 are the six.
       (TICK, ok(1, 0)), (IDLE, ok(1, 1)), (TICK, ok(0, 1)),
       (TICK, ok(0, 1), table([idle(READY), task(1, RUNNING, left=False, id=2, rest=3)], "6,1,1,2,3", charges="1,2", retired=3)))

tables("charge-moved-by-reap-one",
       "The lowest that has ended, then the next; with none, or none but current, nothing is moved (02, W-206; 05, 41)",
       *added(128, 128, 128), (START, ok(1, 1)), (TICK, ok(0, 1)), (EXIT, ok(0, 1)), (TICK, ok(1, 1)), (switch(0), ok(2, 2)), (TICK, ok(0, 2)),
       (EXIT, ok(0, 2)), (switch(1), ok(3, 3)),
       (TICK, ok(0, 3),
        table([UNTOUCHED, task(1, TERMINATED, rest=0), task(2, TERMINATED, rest=0), task(3, RUNNING, left=False, rest=4)], "4,1,3,4,4",
              charges="0,2,1,1")),
       (REAP_ONE, ok(0x2000, 3),
        table([UNTOUCHED, task(2, TERMINATED, rest=0), task(3, RUNNING, left=False, rest=4)], "4,1,3,3,4", charges="0,0,1,1", retired=2)),
       (REAP_ONE, ok(0x2040, 3), table([UNTOUCHED, task(3, RUNNING, left=False, rest=4)], "4,1,3,2,4", charges="0,0,0,1", retired=3)),
       (REAP_ONE, ok(NONE, 3), table([UNTOUCHED, task(3, RUNNING, left=False, rest=4)], "4,1,3,2,4", charges="0,0,0,1", retired=3)),
       (EXIT, ok(0, 3)),
       (REAP_ONE, ok(NONE, 3), table([UNTOUCHED, task(3, TERMINATED, left=False, rest=0)], "4,1,3,2,4", charges="0,0,0,1", retired=3)))

tables("charges-of-several-reaps",
       "Reaped by their ids, the higher slot first, 3 and 2 ticks; then one tick of another task in the lower slot: 3, 5, 6 (02, W-206; 05, 41)",
       *added(128, 128, 128), (START, ok(1, 1)), *[(TICK, ok(0, 1))] * 2, (EXIT, ok(0, 1)), (switch(0), ok(2, 2)), *[(TICK, ok(0, 2))] * 3,
       (EXIT, ok(0, 2)), (switch(1), ok(3, 3)),
       (REAP(2), ok(0x2040, 3),
        table([UNTOUCHED, task(1, TERMINATED, rest=0), task(3, RUNNING, left=False)], "5,1,3,3,4", charges="0,2", retired=3)),
       (REAP(1), ok(0x2000, 3), table([UNTOUCHED, task(3, RUNNING, left=False)], "5,1,3,2,4", retired=5)),
       (add(0, 128), ok(4, 3)), (switch(2), ok(1, 1)),
       (TICK, ok(0, 1), table([UNTOUCHED, task(1, RUNNING, left=False, id=4, rest=4), task(3, READY)], "6,1,1,3,5", charges="0,1", retired=5)),
       (EXIT, ok(0, 1)), (switch(0), ok(3, 3)), (REAP(4), ok(0x2000, 3), table([UNTOUCHED, task(3, RUNNING)], "6,1,3,2,5", retired=6)))

# Idle has tick 1, task 1 tick 2, task 2 ticks 3 and 4, task 3 tick 5 and, ended, tick 6; task 1 is reaped between.
AT_REFUSED_REAPS = table([idle(READY), task(2, READY, rest=3), task(3, TERMINATED, left=False, rest=0)], "6,1,3,3,4", charges="1,0,2,2", retired=1)
tables("charge-at-a-refused-reap",
       "9 of idle, of current, ended or not, of one that is Ready; 8 of ids that are gone or never were: charges and sum stay (02, W-206; 05, 41)",
       (START, ok(0, 0)), (TICK, ok(1, 0)), (add(0, 128), ok(1, 0)), (add(1, 128), ok(2, 0)), (add(2, 128), ok(3, 0)), (IDLE, ok(1, 1)),
       (TICK, ok(0, 1)), (EXIT, ok(0, 1)), (switch(0), ok(2, 2)), (TICK, ok(0, 2)), (REAP(1), ok(0x2000, 2)), (TICK, ok(0, 2)),
       (switch(1), ok(3, 3)), (TICK, ok(0, 3)), (EXIT, ok(0, 3)), (TICK, ok(1, 3), AT_REFUSED_REAPS),
       *[(REAP(id), no(9, 3), AT_REFUSED_REAPS) for id in (0, 3, 2)], *[(REAP(id), no(8, 3), AT_REFUSED_REAPS) for id in (1, 4, NONE)],
       (REAP_ONE, ok(NONE, 3), AT_REFUSED_REAPS), (switch(2), ok(2, 2)),
       (REAP(2), no(9, 2), table([idle(READY), task(2, RUNNING, rest=3), task(3, TERMINATED, rest=0)], "6,1,2,3,4", charges="1,0,2,2", retired=1)),
       (REAP(3), ok(0x2080, 2), table([idle(READY), task(2, RUNNING, rest=3)], "6,1,2,2,4", charges="1,0,2", retired=3)))

tables("ticks-before-the-start",
       "Three ticks before the start are nobody's; of four in all one is in the retired sum at the end (02, W-206; 01, Tick)",
       *added(128, 128), *[(TICK, ok(0, 0))] * 3, (REAP_ONE, ok(NONE, 0)),
       (REAP(1), no(9, 0), table([UNTOUCHED, task(1, READY, left=False), task(2, READY, left=False)], "3,0,0,3,3")),
       (START, ok(1, 1)),
       (TICK, ok(0, 1), table([UNTOUCHED, task(1, RUNNING, left=False, rest=4), task(2, READY, left=False)], "4,1,1,3,3", charges="0,1")),
       (EXIT, ok(0, 1)), (switch(0), ok(2, 2)), (REAP_ONE, ok(0x2000, 2), table([UNTOUCHED, task(2, RUNNING, left=False)], "4,1,2,2,3", retired=1)))

# Task 1 has two ticks and is reaped: 2. None of the calls after that is a reap.
tables("retired-sum-stays",
       "Add, ticks, turns, object calls and all others leave the retired sum; fresh with hz 0 too, and an accepted one makes it 0 (02, W-206)",
       *added(128, 128), (START, ok(1, 1)), *[(TICK, ok(0, 1))] * 2, (EXIT, ok(0, 1)), (switch(0), ok(2, 2)),
       (REAP(1), ok(0x2000, 2), ranks(255, None, 128, retired=2)), (add(0, 128, 8), no(5, 2), ranks(255, None, 128, retired=2)),
       *[(call, answer, ranks(255, 200, 128, retired=2)) for call, answer in (
           (add(0, 200), ok(3, 2)), (START, no(3, 2)), (LOCK(0), ok(1, 2)), (EXIT, no(11, 2)), (UNLOCK(0), ok(0, 2)), (TRY_LOCK(1), ok(1, 2)),
           (RELEASE(0), ok(0, 2)), (ACQUIRE(0), ok(1, 2)), (TRY_ACQUIRE(0), ok(0, 2)), (SIGNAL(0), ok(0, 2)), (EVENT_WAIT(0), ok(1, 2)),
           (WAKE(3), ok(0, 2)), (result(3, 1), ok(0, 2)), (CURRENT_ID, ok(2, 2)), (records(3), ok(3, 2, "0,0,255,0,8192;3,0,200,0,64;2,1,128,0,64")),
           (milliseconds(5), ok(5, 2)), (word(2100, 0), ok(0, 2)), (WAIT(1), no(8, 2)), (SLEEP(1), ok(0, 2)), (switch(1), ok(1, 1)),
           (TICK, ok(1, 1)), (switch(0), ok(2, 2)), (WAIT(3), ok(0, 2)), (BLOCK, ok(0, 2)), (status(4), ok(0, 2)), (TICK, ok(1, 2)),
           ("030000000001", no(255, 2)), (fresh(0), no(7, 2)))],
       (fresh(1000), ok(0, 0), FRESH), (START, ok(0, 0)),
       (TICK, ok(1, 0), table(["0,0,1,255,0,1,1,0,-,0,8192,8192,0"], "1,1,0,1,1", charges="1")))

tables("charge-of-a-task-that-has-ended",
       "Ended and still current it is charged on, twice here; no more once another one runs; its reap moves all three (02, W-206; 01, Tick)",
       *added(128, 128), (START, ok(1, 1)), (TICK, ok(0, 1)), (EXIT, ok(0, 1)), (TICK, ok(1, 1)),
       (TICK, ok(1, 1), table([UNTOUCHED, task(1, TERMINATED, left=False, rest=0), task(2, READY, left=False)], "3,1,1,3,3", charges="0,3")),
       (REAP(1), no(9, 1)), (switch(0), ok(2, 2)),
       (TICK, ok(0, 2), table([UNTOUCHED, task(1, TERMINATED, rest=0), task(2, RUNNING, left=False, rest=4)], "4,1,2,3,3", charges="0,3,1")),
       (REAP(1), ok(0x2000, 2), table([UNTOUCHED, task(2, RUNNING, left=False, rest=4)], "4,1,2,2,3", charges="0,0,1", retired=3)))

tables("charge-of-a-revived-task",
       "Exit moves nothing: made Ready by status the task goes on with its charge; its reap moves what it had before and after (02, W-206)",
       *added(128), (START, ok(1, 1)), (TICK, ok(0, 1)), (EXIT, ok(0, 1)),
       (status(0), ok(0, 1), table([UNTOUCHED, task(1, READY, left=False, rest=0)], "1,1,1,2,2", charges="0,1")), (switch(0), ok(1, 1)),
       (TICK, ok(0, 1), table([UNTOUCHED, task(1, RUNNING, rest=4)], "2,1,1,2,2", charges="0,2")), (EXIT, ok(0, 1)), (switch(0), ok(0, 0)),
       (REAP_ONE, ok(0x2000, 0), table([idle(RUNNING, left=False)], "2,1,0,1,2", retired=2)))

# Before the first of the two turns of 1, at tick 5, slot 2 has 5. Between them 2 has two ticks and 3 has two: four while others were current.
# Slot 2 falls from 5 to 0, slot 3 rises from 0 to 2: the other slots together by 3 less than nothing, and the sum by 7.
tables("charges-between-two-turns",
       "Others have four ticks between two turns of 1; one of them is reaped, its slot added to: the slots fall by 3, the sum rises by 7 (02, W-206)",
       *added(128, 128, 128), (START, ok(1, 1)), (switch(0), ok(2, 2)), *[(TICK, ok(0, 2))] * 4, (TICK, ok(1, 2)), (switch(1), ok(3, 3)),
       (switch(2), ok(1, 1), table([UNTOUCHED, task(1, RUNNING), task(2, READY), task(3, READY)], "5,1,1,4,4", charges="0,0,5")),
       (switch(0), ok(2, 2)), *[(TICK, ok(0, 2))] * 2, (EXIT, ok(0, 2)), (switch(1), ok(3, 3)), (TICK, ok(0, 3)),
       (REAP(2), ok(0x2040, 3), table([UNTOUCHED, task(1, READY), task(3, RUNNING, rest=4)], "8,1,3,3,4", charges="0,0,0,1", retired=7)),
       (add(1, 128), ok(4, 3)),
       (TICK, ok(0, 3),
        table([UNTOUCHED, task(1, READY), task(2, READY, left=False, id=4), task(3, RUNNING, rest=3)], "9,1,3,4,5", charges="0,0,0,2", retired=7)),
       (switch(2), ok(1, 1)))

ALL_BUT_ONE = [UNTOUCHED, task(1, RUNNING, left=False, priority=200), *[task(at, READY, left=False, priority=200) for at in range(2, 15)]]
tables("charge-of-the-last-slot",
       "Slot 15 has two ticks, one of them after its end; reap one moves them, and the next task there has 0 (02, W-206)",
       *added(*[200] * 14, 7), (START, ok(15, 15)), (TICK, ok(0, 15)), (EXIT, ok(0, 15)), (TICK, ok(1, 15)), (switch(14), ok(1, 1)),
       (REAP_ONE, ok(0x2380, 1), table(ALL_BUT_ONE, "2,1,1,15,16", retired=2)),
       (add(14, 200), ok(16, 1), table([*ALL_BUT_ONE, task(15, READY, left=False, id=16, priority=200)], "2,1,1,16,17", retired=2)))


def fifteen_ended(gone, retired):
    """Idle is current; of the tasks 1 to 15, which have ended, those are gone. Each has as many ticks as its number."""
    left = [at for at in range(1, 16) if at not in gone]
    return table([idle(RUNNING, left=False), *[task(at, TERMINATED, rest=0) for at in left]], f"120,1,0,{1 + len(left)},16",
                 charges=",".join(str(at if at in left else 0) for at in range(16)), retired=retired)


# 14 + 12 + 10 + 8 + 6 + 4 + 2 are 56; 1 + 3 + 5 + 7 + 9 + 11 + 13 + 15 are 64.
tables("charges-of-fifteen",
       "1 to 15 end and have as many ticks as their numbers; the even ones are reaped from the last on, the odd ones by reap one: 120 (02, W-206)",
       *added(*[128] * 15), (START, ok(1, 1)),
       *[pair for at in range(1, 16) for pair in ((EXIT, ok(0, at)), *[(TICK, ok(1, at))] * at, (switch(at - 1), ok(*[(at + 1) % 16] * 2)))],
       *[(REAP(id), ok(8128 + 64 * id, 0), fifteen_ended(range(id, 16, 2), retired))
         for id, retired in ((14, 14), (12, 26), (10, 36), (8, 44), (6, 50), (4, 54), (2, 56))],
       *[(REAP_ONE, ok(8128 + 64 * at, 0), fifteen_ended({*range(2, 16, 2), *range(1, at + 1, 2)}, retired))
         for at, retired in ((1, 57), (3, 60), (5, 65), (7, 72), (9, 81), (11, 92), (13, 105), (15, 120))],
       (REAP_ONE, ok(NONE, 0), table([idle(RUNNING, left=False)], "120,1,0,1,16", retired=120)))

# Current id and result

tables("current-id", "2 before the start; then the id of the task in slot current, which is not the slot (01, state calls; 04)",
       (CURRENT_ID, no(2, 0)), *added(128), (CURRENT_ID, no(2, 0)), (START, ok(1, 1)), (CURRENT_ID, ok(1, 1)), (EXIT, ok(0, 1)),
       (CURRENT_ID, ok(1, 1)), (switch(0), ok(0, 0)), (CURRENT_ID, ok(0, 0)), (REAP(1), ok(0x2000, 0)), (add(0, 9), ok(2, 0)),
       (IDLE, ok(1, 1)),
       (CURRENT_ID, ok(2, 1), table(["0,0,0,255,0,1,1,0,-,0,8192,8188,0", "1,2,1,9,0,5,5,0,-,8192,64,8256,0"], "0,1,1,2,3")))

tables("result", "Results from -128 to 127, before the start and of a Terminated task too; an unknown id is 8 (01, state calls; 04)",
       (result(0, 0x7f), ok(0, 0), table(["0,0,0,255,0,1,1,0,-,0,8192,8192,127"], "0,0,0,1,1")), (result(1, 1), no(8, 0)), *added(128),
       (result(1, 0x80), ok(0, 0), table(["0,0,0,255,0,1,1,0,-,0,8192,8192,127", "1,1,0,128,0,5,5,0,-,8192,64,8256,-128"], "0,0,0,2,2")),
       (result(0, 0), ok(0, 0)), (result(1, 0xff), ok(0, 0), table([UNTOUCHED, "1,1,0,128,0,5,5,0,-,8192,64,8256,-1"], "0,0,0,2,2")),
       (result(1, 1), ok(0, 0), table([UNTOUCHED, "1,1,0,128,0,5,5,0,-,8192,64,8256,1"], "0,0,0,2,2")),
       (result(2, 5), no(8, 0)), (result(NONE, 5), no(8, 0), table([UNTOUCHED, "1,1,0,128,0,5,5,0,-,8192,64,8256,1"], "0,0,0,2,2")),
       (START, ok(1, 1)), (EXIT, ok(0, 1)),
       (result(1, 0xd6), ok(0, 1), table([UNTOUCHED, "1,1,5,128,0,5,0,0,-,8192,64,8256,-42"], "0,1,1,2,2")),
       (switch(0), ok(0, 0)), (REAP(1), ok(0x2000, 0)), (result(1, 1), no(8, 0)))

# The list call and the arena's words

tables("list-of-idle", "One task: no record lent is 21, one is enough, more are left alone (01, Beside the lock call; 04)",
       (records(0), no(21, 0), FRESH), (records(1), ok(1, 0, "0,0,255,0,8192"), FRESH), (records(255), ok(1, 0, "0,0,255,0,8192")),
       (START, ok(0, 0)), (records(1), ok(1, 0, "0,1,255,0,8192")))

tables("list-enough-records",
       "As many records as tasks are enough, one fewer is 21 and alters nothing (01, Where a call is turned back; 04)",
       *added(128, 9), (records(2), no(21, 0)), (records(3), ok(3, 0, "0,0,255,0,8192;1,0,128,0,64;2,0,9,0,64")), (START, ok(2, 2)),
       (BLOCK, ok(0, 2)), (switch(1), ok(1, 1)), (records(3), ok(3, 1, "0,0,255,0,8192;1,1,128,0,64;2,2,9,0,64")),
       (records(2), no(21, 1),
        table([UNTOUCHED, "1,1,1,128,0,5,5,0,-,8192,64,8256,0", "2,2,2,9,0,5,5,0,-,8256,64,8316,0"], "0,1,1,3,3")),
       (records(0), no(21, 1)))

tables("list-in-slot-order",
       "Records are in the order of the slots, a Terminated task's too, and an empty slot has none (01, Beside the lock call)",
       *added(128, 200), (START, ok(1, 1)), (EXIT, ok(0, 1)), (switch(0), ok(2, 2)),
       (records(3), ok(3, 2, "0,0,255,0,8192;1,5,128,0,64;2,1,200,0,64")), (REAP_ONE, ok(0x2000, 2)), (records(1), no(21, 2)),
       (records(2), ok(2, 2, "0,0,255,0,8192;2,1,200,0,64")), (add(0, 255, 16), ok(3, 2)),
       (records(3), ok(3, 2, "0,0,255,0,8192;3,0,255,0,16;2,1,200,0,64")))

tables("list-used-bytes",
       "Used is size less 4 for each leading painted word: a word in the middle, the first, the last (01, Beside the lock call)",
       *added(128),
       (word(2053, 0), ok(0, 0)), (records(2), ok(2, 0, "0,0,255,0,8192;1,0,128,44,64")),
       (word(2060, 0), ok(0, 0)), (records(2), ok(2, 0, "0,0,255,0,8192;1,0,128,44,64")),
       (word(2048, 0), ok(0, 0)), (records(2), ok(2, 0, "0,0,255,0,8192;1,0,128,64,64")),
       (word(2048, 1), ok(0, 0)), (records(2), ok(2, 0, "0,0,255,0,8192;1,0,128,44,64")),
       (word(2053, 1), ok(0, 0)), (records(2), ok(2, 0, "0,0,255,0,8192;1,0,128,16,64")),
       (word(2060, 1), ok(0, 0)), (records(2), ok(2, 0, "0,0,255,0,8192;1,0,128,0,64")),
       (word(2063, 0), ok(0, 0)), (word(2064, 0), ok(0, 0)), (records(2), ok(2, 0, "0,0,255,0,8192;1,0,128,4,64")),
       (word(2047, 0), ok(0, 0)), (records(2), ok(2, 0, "0,0,255,4,8192;1,0,128,4,64")),
       (word(0, 0), ok(0, 0)), (word(4095, 0), ok(0, 0)),
       (records(2), ok(2, 0, "0,0,255,8192,8192;1,0,128,4,64"), table([UNTOUCHED, "1,1,0,128,0,5,5,0,-,8192,64,8256,0"], "0,0,0,2,2")))

tables("add-paints-its-region", "Add paints its region and no word before or after it (01, control.rs)",
       (word(2047, 0), ok(0, 0)), *added(128, 128), (word(2052, 0), ok(0, 0)), (word(2064, 0), ok(0, 0)),
       (records(3), ok(3, 0, "0,0,255,4,8192;1,0,128,48,64;2,0,128,64,64")), (START, ok(1, 1)), (EXIT, ok(0, 1)), (switch(0), ok(2, 2)),
       (REAP(1), ok(0x2000, 2)), (add(0, 200), ok(3, 2)), (records(3), ok(3, 2, "0,0,255,4,8192;3,0,200,0,64;2,1,128,64,64")))

tables("guard-altered",
       "17: one of the first four words of current's region is altered; 16 comes first; painted again, accepted (01, Where a call is turned back)",
       *added(128), (START, ok(1, 1)), (word(2048, 0), ok(0, 1)), (switch(0), no(17, 1)), (line(0x04, 0, 8256), no(16, 1)),
       (line(0x04, 0, 8188), no(16, 1), table([UNTOUCHED, "1,1,1,128,0,5,5,0,-,8192,64,8256,0"], "0,1,1,2,2")),
       (word(2048, 1), ok(0, 1)), (switch(0), ok(1, 1), table([UNTOUCHED, "1,1,1,128,0,5,5,0,-,8192,64,8252,0"], "0,1,1,2,2")),
       *[pair for at in (2049, 2050, 2051)
         for pair in ((word(at, 0), ok(0, 1)), (switch(0), no(17, 1)), (word(at, 1), ok(0, 1)), (switch(0), ok(1, 1)))],
       (word(2052, 0), ok(0, 1)), (switch(0), ok(1, 1)), (word(0, 0), ok(0, 1)), (switch(0), ok(1, 1)), (BLOCK, ok(0, 1)),
       (switch(0), ok(0, 0)), (IDLE, no(17, 0)), (word(0, 1), ok(0, 0)), (IDLE, ok(0, 0)))

# Fresh

tables("fresh-again", "A fresh kernel takes the place of the other, and idle's region is painted again (01, The machine; 04)",
       *added(128), (START, ok(1, 1)), (TICK, ok(0, 1)), (LOCK(0), ok(1, 1)), (RELEASE(1), ok(0, 1)), (SIGNAL(2), ok(0, 1)),
       (word(0, 0), ok(0, 1)),
       (records(2), ok(2, 1, "0,0,255,8192,8192;1,1,128,0,64"),
        table([UNTOUCHED, "1,1,1,128,0,5,4,1,-,8192,64,8256,0"], "1,1,1,2,2", "1,1,-,[]; 0,-,-,[]; 0,-,-,[]; 0,-,-,[];",
              "0,[]; 1,[]; 0,[]; 0,[];", "0,[]; 0,[]; 1,[]; 0,[];", "0,1")),
       (fresh(1000), ok(0, 0), FRESH), (records(1), ok(1, 0, "0,0,255,0,8192")), (CURRENT_ID, no(2, 0)), *added(128), (START, ok(1, 1)))

tables("fresh-at-other-rates",
       "Sleep rounds up by the hz of fresh: 0 ms, 1,000 and 1,001 ms at 1 hz, 10 and 11 ms at 100 hz, and more (01, Exam cases)",
       *[pair for hz, slept in ((1, ((0, 0), (1, 1), (1000, 1), (1001, 2))), (100, ((10, 1), (11, 2))), (1001, ((1, 2), (1000, 1001))),
                                (NONE, ((1, 4294968), (NONE, 18446744065119618))))
         for pair in ((fresh(hz), ok(0, 0), FRESH), (START, ok(0, 0)),
                      *[(SLEEP(ms), ok(0, 0), table([f"0,0,3,255,{ticks},1,1,0,-,0,8192,8192,0"], "0,1,0,1,1")) for ms, ticks in slept])],
       (fresh(100), ok(0, 0)), (START, ok(0, 0)), (SLEEP(11), ok(0, 0)),
       (TICK, ok(1, 0), table(["0,0,3,255,2,1,1,0,-,0,8192,8192,0"], "1,1,0,1,1", charges="1")),
       (TICK, ok(1, 0), table(["0,0,0,255,2,1,1,0,-,0,8192,8192,0"], "2,1,0,1,1", charges="2")))

tables("fresh-at-rate-zero", "Fresh with hz 0 is 7; the kernel, its hz and the words stay (01, Where a call is turned back; 03, 21; 04)",
       (fresh(0), no(7, 0), FRESH), *added(128), (START, ok(1, 1)), (TICK, ok(0, 1)), (LOCK(0), ok(1, 1)), (word(5, 0), ok(0, 1)),
       (word(2053, 0), ok(0, 1)), (records(2), ok(2, 1, "0,0,255,8172,8192;1,1,128,44,64")),
       (fresh(0), no(7, 1),
        table([UNTOUCHED, "1,1,1,128,0,5,4,1,-,8192,64,8256,0"], "1,1,1,2,2", "1,1,-,[]; 0,-,-,[]; 0,-,-,[]; 0,-,-,[];", charges="0,1")),
       (records(2), ok(2, 1, "0,0,255,8172,8192;1,1,128,44,64")), (CURRENT_ID, ok(1, 1)),
       (SLEEP(3), ok(0, 1),
        table([UNTOUCHED, "1,1,3,128,4,5,4,1,-,8192,64,8256,0"], "1,1,1,2,2", "1,1,-,[]; 0,-,-,[]; 0,-,-,[]; 0,-,-,[];", charges="0,1")))

# The last ticks

late("limit-at-the-last-tick",
     "12 ticks before 2^64 - 1: longer limits are held there, and that tick ends them; later a tick is 18, and a limit stays (02, W-202)",
     *added(128, 128, 128), (START, ok(1, 1)),
     (ACQUIRE_WITHIN(0, 13), ok(0, 1),
      table([UNTOUCHED, task(1, BLOCKED, left=False), task(2, READY, left=False), task(3, READY, left=False)], "18446744073709551603,1,1,4,4",
            semaphores=objects(o0="0,[1]"), limits={1: "s,0,18446744073709551615,0"})),
     (switch(0), ok(2, 2)), (WAIT_WITHIN(1, 11), ok(0, 2)), (switch(1), ok(3, 3)),
     *[(TICK, ok(0, 3))] * 4, (TICK, ok(1, 3)), *[(TICK, ok(0, 3))] * 4,
     (TICK, ok(1, 3),
      table([UNTOUCHED, task(1, BLOCKED), task(2, BLOCKED), task(3, RUNNING, left=False)], "18446744073709551613,1,3,4,4",
            semaphores=objects(o0="0,[1]"), events=objects(o1="0,[2]"), charges="0,0,0,10",
            limits={1: "s,0,18446744073709551615,0", 2: "e,1,18446744073709551614,0"})),
     (TICK, ok(1, 3),
      table([UNTOUCHED, task(1, BLOCKED), task(2, READY), task(3, RUNNING, left=False, rest=4)], "18446744073709551614,1,3,4,4",
            semaphores=objects(o0="0,[1]"), charges="0,0,0,11", limits={1: "s,0,18446744073709551615,0", 2: "-,-,-,1"})),
     (TICK, ok(1, 3),
      table([UNTOUCHED, task(1, READY), task(2, READY), task(3, RUNNING, left=False, rest=3)], "18446744073709551615,1,3,4,4",
            charges="0,0,0,12", limits={1: "-,-,-,1", 2: "-,-,-,1"})),
     (TICK, no(18, 3)), (switch(2), ok(1, 1)),
     (ACQUIRE_WITHIN(0, NONE), ok(0, 1)),
     (TICK, no(18, 1),
      table([UNTOUCHED, task(1, BLOCKED), task(2, READY), task(3, READY, rest=3)], "18446744073709551615,1,1,4,4",
            semaphores=objects(o0="0,[1]"), charges="0,0,0,12", limits={1: "s,0,18446744073709551615,1", 2: "-,-,-,1"})))

late("sleep-at-the-last-tick", "The same of sleeps, which are as before (01, state calls)",
     *added(128, 128), (START, ok(1, 1)),
     (SLEEP(13), ok(0, 1),
      table([UNTOUCHED, task(1, SLEEPING, left=False, wake=18446744073709551615), task(2, READY, left=False)], "18446744073709551603,1,1,3,3")),
     (switch(0), ok(2, 2)), *[(TICK, ok(0, 2))] * 4, (TICK, ok(1, 2)), *[(TICK, ok(0, 2))] * 4, (TICK, ok(1, 2)),
     (TICK, ok(0, 2)),
     (TICK, ok(1, 2),
      table([UNTOUCHED, task(1, READY, wake=18446744073709551615), task(2, RUNNING, left=False, rest=3)], "18446744073709551615,1,2,3,3",
            charges="0,0,12")),
     (TICK, no(18, 2)))

late("charges-at-the-last-tick",
     "Twelve ticks are left: 1 has five, 2 seven; a tick that is 18 is nobody's, and 1's are moved by its reap all the same (02, W-206)",
     *added(128, 128), (START, ok(1, 1)), *[(TICK, ok(0, 1))] * 4, (TICK, ok(1, 1)), (EXIT, ok(0, 1)), (switch(0), ok(2, 2)),
     *[(TICK, ok(0, 2))] * 4, (TICK, ok(1, 2)), (TICK, ok(0, 2)),
     *[(TICK, answer, table([UNTOUCHED, task(1, TERMINATED, rest=0), task(2, RUNNING, left=False, rest=3)], "18446744073709551615,1,2,3,3",
                            charges="0,5,7")) for answer in (ok(0, 2), no(18, 2))],
     (REAP(1), ok(0x2000, 2), table([UNTOUCHED, task(2, RUNNING, left=False, rest=3)], "18446744073709551615,1,2,2,3", charges="0,0,7", retired=5)),
     (add(0, 128), ok(3, 2)),
     (TICK, no(18, 2),
      table([UNTOUCHED, task(1, READY, left=False, id=3), task(2, RUNNING, left=False, rest=3)], "18446744073709551615,1,2,3,4",
            charges="0,0,7", retired=5)))


# Kernels that no list comes to

# By hand, for each of model.CHARGED, the charges and the retired sum added up, and whether that is at most tick_count. In 64 bits the sums from
# 2^64 on would wrap: 2^64 to 0, 17 * (2^64 - 1) to 2^64 - 17, 2^64 + 5 to 5.
SUMS = [(0, True), (10, True), (11, False), (10, False), (10, True), (11, False), (10, True), (11, False), (11, False), (11, False), (17, True),
        (17, False), (2**64 - 1, True), (2**64 - 1, True), (2**64, False), (2**64, False), (2**64 - 1, True), (2**64, False),
        (17 * (2**64 - 1), False), (2**64 + 5, False), (9, True), (2**64 - 12, True)]


def looked_at(hz, added_up, whole):
    """The n-th kernel: the calls by which `tables` looks at each kernel anew are 1, or are accepted; current id is 2 then."""
    tick, charges, retired = model.CHARGED[hz - 1]
    assert sum(charges.values()) + retired == added_up
    after = table([UNTOUCHED], f"{tick},0,0,1,1", charges=",".join(str(charges.get(at, 0)) for at in range(16)), retired=retired)
    return [(fresh(hz), ok(0, 0), after), (CURRENT_ID, no(2 if whole else 1, 0), after),
            (records(1), ok(1, 0, "0,0,255,0,8192") if whole else no(1, 0), after), (records(0), no(21 if whole else 1, 0), after),
            (result(0, 0), ok(0, 0) if whole else no(1, 0), after), (milliseconds(0), ok(0, 0) if whole else no(1, 0), after)]


odd("whole-by-the-sum",
    "All sixteen charges, of empty slots too, and the retired sum are together at most tick_count, or a call is 1; no sum wraps (02, W-206; 05, 42)",
    *[call for hz, (added_up, whole) in enumerate(SUMS, 1) for call in looked_at(hz, added_up, whole)])

odd("charge-of-an-empty-slot",
    "Slots 1 and 2 are empty and have 3 and 4: add puts 0 into slot 1, and no sum has the 3 any more (05, 41)",
    (fresh(21), ok(0, 0), table([UNTOUCHED], "10,0,0,1,1", charges="0,3,4", retired=2)),
    (add(0, 128), ok(1, 0), table([UNTOUCHED, task(1, READY, left=False)], "10,0,0,2,2", charges="0,0,4", retired=2)),
    (result(0, 0), ok(0, 0)), (add(1, 128), ok(2, 0)), (START, ok(1, 1)),
    (TICK, ok(0, 1), table([UNTOUCHED, task(1, RUNNING, left=False, rest=4), task(2, READY, left=False)], "11,1,1,3,3", charges="0,1", retired=2)))

odd("retired-sum-of-64-bits",
    "At 2^64 - 10 the retired sum is 2^64 - 12; two ticks and a reap make 2^64 - 8 and 2^64 - 10 of them (02, W-206)",
    (fresh(22), ok(0, 0)), (add(0, 128), ok(1, 0)), (START, ok(1, 1)), (TICK, ok(0, 1)),
    (TICK, ok(0, 1),
     table([UNTOUCHED, task(1, RUNNING, left=False, rest=3)], "18446744073709551608,1,1,2,2", charges="0,2", retired=18446744073709551604)),
    (EXIT, ok(0, 1)), (switch(0), ok(0, 0)),
    (REAP(1), ok(0x2000, 0), table([idle(RUNNING, left=False)], "18446744073709551608,1,0,1,2", retired=18446744073709551606)),
    (result(0, 0), ok(0, 0)), (CURRENT_ID, ok(0, 0)))


# The kernels of crates/book_exam/specs/Odd.antt, by their names. Of their stacks idle's alone is painted, so only idle is switched from.
def given(name): return fresh(1 + [odd.name for odd in model.ODD].index(name))


def five(state, slot=1, **more): return task(slot, state, left=False, id=5, priority=128 if slot == 1 else 100, **more)
def seven(state, slot=3, priority=200, **more): return task(slot, state, left=False, id=7, priority=priority, **more)


def locks(**some):
    """Mutexes, by number as m0 to m3; the others as fresh makes them."""
    return " ".join(some.get(f"m{k}", "0,-,-,[]") + ";" for k in range(4))


# Its own count is 1. Locked without an owner are 0 and 1, which is handed to it; it is the owner of 2, which is not locked, and of 3.
def owner_fields(state, owned=1, rest=5, m0="1,-,-,[]", m1="1,-,5,[]", m2="0,5,-,[]"):
    return table([UNTOUCHED, five(state, owned=owned, rest=rest)], "0,1,1,2,9", locks(m0=m0, m1=m1, m2=m2, m3="1,5,6,[]"))


odd("owner-and-owned-count",
    "11 is an owned count above 0, whoever the owner is, and with none; 14 compares the owner, locked or not; locked without an owner is another's (03, 14)",
    (given("owner-fields"), ok(0, 1), owner_fields(RUNNING)),
    *[(call, no(number, 1), owner_fields(RUNNING)) for call, number in ((EXIT, 11), (UNLOCK(0), 14), (UNLOCK(1), 14), (LOCK(3), 13))],
    (TRY_LOCK(0), ok(0, 1), owner_fields(RUNNING)), (TRY_LOCK(1), ok(0, 1), owner_fields(RUNNING)),
    (LOCK(0), ok(0, 1), owner_fields(BLOCKED, m0="1,-,-,[5]")),
    (LOCK(1), ok(0, 1), owner_fields(BLOCKED, m0="1,-,-,[5]", m1="1,-,5,[5]")),
    (UNLOCK(2), ok(0, 1), owner_fields(BLOCKED, 0, m0="1,-,-,[5]", m1="1,-,5,[5]", m2="0,-,-,[]")),
    (UNLOCK(3), no(15, 1)), (UNLOCK(2), no(14, 1)),
    (EXIT, ok(0, 1), owner_fields(TERMINATED, 0, 0, "1,-,-,[5]", "1,-,5,[5]", "0,-,-,[]")),
    (given("count-alone"), ok(0, 1)), (EXIT, no(11, 1)), (UNLOCK(0), no(14, 1)))

# Task 5 runs and 7 waits at its mutex 3, both with a count of 4.
def four_owned(first=4, second=4, state=BLOCKED, m0="0,-,-,[]", m3="1,5,-,[7]"):
    return table([UNTOUCHED, five(RUNNING, owned=first), seven(state, 2, 128, owned=second)], "0,1,1,3,9", locks(m0=m0, m3=m3))


odd("owned-count-of-5",
    "A lock, a try lock and a handoff that raise an owned count of 4 to 5 are accepted; the kernel is not whole then: the next call is 1 (03, 15)",
    *[call for raised, after in ((LOCK(0), four_owned(5, m0="1,5,-,[]")), (TRY_LOCK(0), four_owned(5, m0="1,5,-,[]")),
                                 (UNLOCK(3), four_owned(3, 5, READY, m3="1,7,7,[]")))
      for call in ((given("four-owned"), ok(0, 1), four_owned()), (CURRENT_ID, ok(5, 1)), (raised, ok(1, 1), after),
                   *[(call, no(1, 1), after) for call in (CURRENT_ID, records(3), result(5, 0), milliseconds(0))])])


def sliced(ticks, full, rest):
    return table([UNTOUCHED, five(RUNNING, full=full, rest=rest)], f"{ticks},1,1,2,9", charges=f"0,{ticks}")


odd("slice-of-0",
    "Running with 0 remaining: a tick makes the slice full and wants a switch; a slice of 0 stays 0, and each tick wants one (03, 17)",
    (given("with-slice 5 0"), ok(0, 1), sliced(0, 5, 0)), (TICK, ok(1, 1), sliced(1, 5, 5)), (TICK, ok(0, 1), sliced(2, 5, 4)),
    (given("with-slice 0 0"), ok(0, 1), sliced(0, 0, 0)), (TICK, ok(1, 1), sliced(1, 0, 0)), (TICK, ok(1, 1), sliced(2, 0, 0)),
    (given("with-slice 0 2"), ok(0, 1), sliced(0, 0, 2)), (TICK, ok(0, 1), sliced(1, 0, 1)), (TICK, ok(1, 1), sliced(2, 0, 0)),
    (TICK, ok(1, 1), sliced(3, 0, 0)))

# Slots 1 and 2 hold id 5, Blocked, slot 3 id 7, which runs; 5 waits at its mutex 0, lending it 100, at semaphore 0 and for its exit.
def both_blocked(first=BLOCKED, third=RUNNING, owned=(0, 1), waiters=("-", "5"), m0="1,7,-,[5]", s0="0,[5]", result=0, rest=5, lent={3: 100}):
    return table([UNTOUCHED, five(first, owned=owned[0], waiter=waiters[0], result=result), five(BLOCKED, 2),
                  seven(third, owned=owned[1], waiter=waiters[1], rest=rest)], "0,1,3,4,9", locks(m0=m0), objects(o0=s0), lent=lent)


odd("id-in-two-slots",
    "Wake, a head that is dropped, reap, result, handoff, exit's waiter and wait mean the lower slot, though the other is Blocked (03, 18)",
    (given("both-blocked"), ok(0, 3), both_blocked()), (WAKE(5), ok(1, 3), both_blocked(READY)), (WAKE(5), ok(0, 3), both_blocked(READY)),
    (RELEASE(0), ok(0, 3), both_blocked(READY, s0="1,[]")), (REAP(5), no(9, 3)), (result(5, 9), ok(0, 3), both_blocked(READY, s0="1,[]", result=9)),
    (UNLOCK(0), ok(1, 3), both_blocked(READY, owned=(1, 0), m0="1,5,5,[]", s0="1,[]", result=9, lent={})),
    (EXIT, ok(0, 3), both_blocked(READY, TERMINATED, (1, 0), ("-", "-"), "1,5,5,[]", "1,[]", 9, 0, {})),
    (given("both-blocked"), ok(0, 3)), (RELEASE(0), ok(1, 3), both_blocked(READY, s0="1,[]")),
    (given("both-blocked"), ok(0, 3)), (UNLOCK(0), ok(1, 3), both_blocked(READY, owned=(1, 0), m0="1,5,5,[]", lent={})),
    (given("both-blocked"), ok(0, 3)), (WAIT(5), ok(0, 3), both_blocked(third=BLOCKED, waiters=("7", "5"))))

# Slot 2, which is current, holds id 5 and has a count of 1; so does slot 1, with 0. 5 is the owner of mutex 1.
def current_twice(second=RUNNING, owned=0, m0="0,-,-,[]", m1="1,5,-,[]", s0="0,[]"):
    return table([UNTOUCHED, five(READY, owned=owned), five(second, 2, owned=1), seven(READY)], "0,1,2,4,9", locks(m0=m0, m1=m1), objects(o0=s0))


odd("id-of-current-in-two-slots",
    "Current in the higher slot: wait for its id is 7; 11 looks at slot current, 15 and the owned counts go by the lower; so does release (03, 18)",
    (given("current-twice"), ok(0, 2), current_twice()), (CURRENT_ID, ok(5, 2)), (WAIT(5), no(7, 2)), (EXIT, no(11, 2)),
    (UNLOCK(1), no(15, 2), current_twice()), (LOCK(0), ok(1, 2), current_twice(owned=1, m0="1,5,-,[]")),
    (UNLOCK(1), ok(0, 2), current_twice(m0="1,5,-,[]", m1="0,-,-,[]")), (EXIT, no(11, 2)), (UNLOCK(0), no(15, 2)),
    (ACQUIRE(0), ok(0, 2), current_twice(BLOCKED, m0="1,5,-,[]", m1="0,-,-,[]", s0="0,[5]")),
    (RELEASE(0), ok(0, 2), current_twice(BLOCKED, m0="1,5,-,[]", m1="0,-,-,[]", s0="1,[]")), (WAKE(5), ok(0, 2)))

# Slots 1 and 2 hold id 5 and have ended; in slot 1 every field has something left.
LEFT = five(TERMINATED, wake=9, owned=2, waiter="7", result=-1)


def ended_twice(slots, scheduler, limits={}): return table([UNTOUCHED, *slots, seven(READY)], f"0,1,{scheduler}", limits=limits)


odd("reap-of-an-id-in-two-slots",
    "Reap means the lower slot, and is 9 where that is current; the next task there has nothing of what was left; reap one (03, 18, 19)",
    (given("ended-twice 2"), ok(0, 2), ended_twice([LEFT, five(TERMINATED, 2)], "2,4,9", {1: "-,-,-,1"})),
    (REAP(5), ok(8192, 2), ended_twice([five(TERMINATED, 2)], "2,3,9")), (REAP(5), no(9, 2)),
    (add(0, 77), ok(9, 2), ended_twice([task(1, READY, left=False, id=9, priority=77), five(TERMINATED, 2)], "2,4,10")),
    (given("ended-twice 2"), ok(0, 2)), (REAP_ONE, ok(8192, 2), ended_twice([five(TERMINATED, 2)], "2,3,9")),
    (given("ended-twice 1"), ok(0, 1), ended_twice([LEFT, five(TERMINATED, 2)], "1,4,9", {1: "-,-,-,1"})),
    (REAP(5), no(9, 1)), (REAP_ONE, ok(8256, 1), ended_twice([LEFT], "1,3,9", {1: "-,-,-,1"})), (REAP(5), no(9, 1)))


def empty_slot(state, scheduler, *first, third=RUNNING, **more):
    return table([UNTOUCHED, *first, five(state, 2, **more), seven(third)], f"0,1,3,{scheduler}")


odd("id-in-an-empty-slot",
    "Id 5 and Blocked are left in slot 1, which is empty: wake, result, reap and wait mean slot 2, which holds 5 (03, 18)",
    (given("empty-slot"), ok(0, 3), empty_slot(BLOCKED, "3,9")), (WAKE(5), ok(1, 3), empty_slot(READY, "3,9")),
    (result(5, 9), ok(0, 3), empty_slot(READY, "3,9", result=9)), (REAP(5), no(9, 3)),
    (add(0, 77), ok(9, 3), empty_slot(READY, "4,10", task(1, READY, left=False, id=9, priority=77), result=9)),
    (WAIT(5), ok(0, 3), empty_slot(READY, "4,10", task(1, READY, left=False, id=9, priority=77), third=BLOCKED, result=9, waiter="7")))

odd("id-of-idle-in-another-slot",
    "Id 0 in slot 1 may exit, since 10 is of slot 0; its wait for 0 is 7; wake, result and reap of 0 mean slot 0 (01, Traps; 03, 18)",
    (given("idle-twice"), ok(0, 1), table([UNTOUCHED, task(1, RUNNING, left=False, id=0)], "0,1,1,2,9")),
    (CURRENT_ID, ok(0, 1)), (WAIT(0), no(7, 1)), (BLOCK, ok(0, 1)), (WAKE(0), ok(0, 1)),
    (result(0, 9), ok(0, 1), table([UNTOUCHED[:-1] + "9", task(1, BLOCKED, left=False, id=0)], "0,1,1,2,9")),
    (EXIT, ok(0, 1), table([UNTOUCHED[:-1] + "9", task(1, TERMINATED, left=False, id=0, rest=0)], "0,1,1,2,9")),
    (REAP(0), no(9, 1)), (REAP_ONE, ok(NONE, 1)))

# Behind the ids of each queue stands 7, the id of current. 5 waits at mutex 1, of 7, and at semaphore 1 with a limit.
def filled(first=BLOCKED, second=RUNNING, ticks=0, owned=(1, 1), rest=5, limit="s,1,1,0", lent={}, m0="1,5,-,[]", m1="1,7,-,[5 6]", s0="0,[8 5 6]",
           s1="0,[8 5 6]", e0="0,[8 5 6]"):
    return table([UNTOUCHED, five(first, owned=owned[0]), seven(second, 2, 100, owned=owned[1], rest=rest)], f"{ticks},1,2,3,9", locks(m0=m0, m1=m1),
                 objects(o0=s0, o1=s1), objects(o0=e0), f"0,0,{ticks}", {1: limit}, lent)


odd("places-behind-a-queue",
    "An id behind the last one of a queue is not in it, for acquire, lock and ranks, and moves up with no release, signal, unlock or tick (03, 19)",
    (given("filled-behind"), ok(0, 2), filled()),
    (ACQUIRE(0), ok(0, 2), filled(second=BLOCKED, s0="0,[8 5 6 7]")),
    (RELEASE(0), ok(1, 2), filled(READY, BLOCKED, limit="-,-,-,0", s0="1,[6 7]")),
    (SIGNAL(0), ok(0, 2), filled(READY, BLOCKED, limit="-,-,-,0", s0="1,[6 7]", e0="1,[]")),
    (given("filled-behind"), ok(0, 2)), (SIGNAL(0), ok(1, 2), filled(READY, limit="-,-,-,0", e0="0,[6]")),
    (UNLOCK(1), ok(1, 2), filled(READY, owned=(2, 0), limit="-,-,-,0", m1="1,5,5,[6]", e0="0,[6]")),
    (given("filled-behind"), ok(0, 2)), (TICK, ok(1, 2), filled(READY, ticks=1, rest=4, limit="-,-,-,1", s1="0,[8 6]")),
    (LOCK(0), ok(0, 2), filled(READY, BLOCKED, 1, rest=4, limit="-,-,-,1", lent={1: 100}, m0="1,5,-,[7]", s1="0,[8 6]")))


# Slots 1 and 2 hold id 5, at 128 and 100, slot 3 id 7.
def ranked(first, second, third, m0, lent, priority=200, current=0, left=False):
    """Left: idle was switched from."""
    slots = [idle(READY if current else RUNNING, left), five(first), five(second, 2), seven(third, priority=priority)]
    return table(slots, f"0,1,{current},4,9", locks(m0=m0), lent=lent)


odd("ranks-by-id",
    "The owner is the lower slot; both slots of a queued id lend, each if it is Blocked; queued at its own mutex a task is a ring of one (05, 39)",
    (given("owner-twice"), ok(0, 0), ranked(READY, READY, BLOCKED, "1,5,-,[7]", {1: 3}, 3)),
    (IDLE, ok(1, 1), ranked(RUNNING, READY, BLOCKED, "1,5,-,[7]", {1: 3}, 3, 1, True)),
    (given("waiter-twice Blocked Blocked"), ok(0, 0), ranked(BLOCKED, BLOCKED, READY, "1,7,-,[5]", {3: 100})),
    (WAKE(5), ok(1, 0), ranked(READY, BLOCKED, READY, "1,7,-,[5]", {3: 100})),
    (IDLE, ok(3, 3), ranked(READY, BLOCKED, RUNNING, "1,7,-,[5]", {3: 100}, current=3, left=True)),
    (given("waiter-twice Ready Blocked"), ok(0, 0), ranked(READY, BLOCKED, READY, "1,7,-,[5]", {3: 100})), (WAKE(5), ok(0, 0)),
    (given("waiter-twice Blocked Ready"), ok(0, 0), ranked(BLOCKED, READY, READY, "1,7,-,[5]", {3: 128})),
    (WAKE(5), ok(1, 0), ranked(READY, READY, READY, "1,7,-,[5]", {})),
    (given("own-mutex Ready"), ok(0, 3), ranked(BLOCKED, READY, RUNNING, "1,5,-,[5]", {}, 3, 3)),
    (LOCK(0), ok(0, 3), ranked(BLOCKED, READY, BLOCKED, "1,5,-,[5 7]", {1: 3}, 3, 3)),
    (given("own-mutex Blocked"), ok(0, 3), ranked(BLOCKED, BLOCKED, RUNNING, "1,5,-,[5]", {1: 100}, 3, 3)),
    (WAKE(5), ok(1, 3), ranked(READY, BLOCKED, RUNNING, "1,5,-,[5]", {1: 100}, 3, 3)))


def played(program, lines):
    """What the model prints: an answer for each line and, but for `turns`, a table."""
    out = []
    model.run("".join(call + "\n" for call in lines).encode(), program != "turns", out, model.LATE if program == "late" else 0, program == "odd")
    return [text.rstrip("\n") for text in out]


def compared(program, lines):
    """How many calls there are before the first wait with a limit, the first that drops a head which is not Blocked or the first after
    which a mutex has a queue, and what is the yardstick from there on."""
    machine = model.Machine(program == "tables")
    for at, call in enumerate(lines):
        op = machine.step(call.encode())[0]
        if program == "tables" and op in (0x15, 0x16):
            return at, "W-202"
        if any(state != model.BLOCKED for state in machine.kernel.dropped):
            return at, "W-201"
        if any(mutex.queue for mutex in machine.kernel.mutexes):
            return at, "W-205"
    return len(lines), None


def in_domain(call, answer):
    """01's compared domain has no number but 0, 4, 8, 9 and wait's 7."""
    return answer[:2] in ("00", "04", "08", "09") or answer[:2] == "07" and call[:2] == "06"


def hold(fine, *why):
    """Stops with status 1 where it is not so."""
    if not fine:
        sys.exit("cases: " + ": ".join(str(part) for part in why))


def replayed(calls, last=None):
    """What the reference prints for calls of the domain; with a last line outside it, the number that it gives, or the request."""
    given = "".join(call + "\n" for call in calls + ([] if last is None else [last]))
    done = subprocess.run([REFERENCE, "replay"], input=given, capture_output=True, text=True)
    hold(done.returncode == (0 if last is None else 3), "the reference", f"status {done.returncode}", done.stderr)
    return done.stdout.splitlines() if last is None else done.stderr.rpartition("(")[2].partition(")")[0].split()[-1]


def check(program, name, calls):
    """Holds the case to the model; gives what is printed."""
    lines = [call[0] for call in calls]
    printed = played(program, lines)
    answers = printed if program == "turns" else printed[::2]
    for at, (call, answer, *after) in enumerate(calls):
        where = f"{program}, {name}, call {at} from 0, {call}"
        hold(answers[at] == answer, where, f"worked out {answer}, the model has {answers[at]}")
        for want in after:
            # The whole table, or its end.
            same = printed[2 * at + 1].endswith(want) if want.startswith(" | ") else printed[2 * at + 1] == want
            hold(same, where, f"worked out {want}, the model has {printed[2 * at + 1]}")
    return lines, printed


def check_by_rust(program, name, calls):
    """Holds the case to the reference."""
    (end, request), asked, mine = compared(program, [call[0] for call in calls]), [], []
    for at, (call, answer, *_) in enumerate(calls[:end + 1]):
        where = f"{program}, {name}, call {at} from 0, {call}"
        if at == end:
            said, want = replayed(asked, call), request
        elif program == "tables" and call[:2] == "18" and answer[:2] != "ff":
            said, want = replayed(asked, call), "W-204"
        elif in_domain(call, answer):
            asked.append(call)
            continue
        elif program == "tables" or call[:2] not in ("15", "16", "18", "1b", "1c", "1d", "1e", "1f"):     # of `tables` alone
            said, want = replayed(asked, call), answer[:2]
        else:
            continue
        hold(said == want, where, f"the reference says {said} and not {want}")
    model.replay("".join(call + "\n" for call in asked).encode(), mine)
    hold(replayed(asked) == [text.rstrip("\n") for text in mine], f"{program}, {name}", "the Rust prints something else")


def main():
    with open(README) as file:
        rows = [row for row in file.read().splitlines() if row.startswith("| ") and not row.startswith("| Case |")]
    hold(rows == [f"| {name} | {shows} |" for _, name, shows, _ in CASES], "the tables of tests/cases/README.md are others")
    for program, name, _, calls in CASES:
        made = check(program, name, calls)
        if REFERENCE and program not in ("late", "odd"):
            check_by_rust(program, name, calls)
        if len(sys.argv) > 1:
            folder = os.path.join(sys.argv[1], *([] if program == "turns" else [program]))
            os.makedirs(folder, exist_ok=True)
            for end, texts in zip((".in", ".out"), made):
                with open(os.path.join(folder, name + end), "w") as file:
                    file.write("".join(text + "\n" for text in texts))
    rust = " and, in its domain, as the Rust" if REFERENCE else "; the Rust's part was left out, since no REFERENCE is named"
    print(f"{len(CASES)} cases: as worked out, as the page names them, as the model{rust}")


if __name__ == "__main__":
    main()
